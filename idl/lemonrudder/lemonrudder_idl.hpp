/*
 * What the headers stand on that omniidl makes of IDL by -blemonrudder -Wbcpp: codecs, which read and write values of
 * types; servants over lemonrudder_loop.hpp; and stubs over a client that sends its calls again, on a socket.
 */
#ifndef LEMONRUDDER_IDL_HPP
#define LEMONRUDDER_IDL_HPP

#include <netdb.h>

#include <algorithm>
#include <lemonrudder_loop.hpp>
#include <random>
#include <thread>
#include <tuple>
#include <variant>

#if LR_VERSION_MAJOR != 0 || LR_VERSION_MINOR != 2
#error "this was made of IDL for lemonrudder.hpp of version 0.2: make it anew"
#endif

namespace lemonrudder {
inline namespace v0_2 {
namespace idl {

/* ---- codecs: Value, read and write ---- */

namespace detail {

template <class From, class To>
Done into(const Result<From>& from, To& to) {
  if (!from.ok()) return from.error();
  to = static_cast<To>(*from);
  return {};
}

/* Why a value of so many passes a bound. */
inline std::string over(const char* kind, std::size_t size, std::size_t bound) {
  return std::string("a ") + kind + " of " + std::to_string(size) + ", and the bound is " + std::to_string(bound);
}

/* Writes the members of a sequence or an array. */
template <class Member, class Values>
Done write_members(GrowingWriter& out, const Values& values) {
  Done done;
  std::size_t index = 0;
  for (auto one = values.begin(); done && one != values.end(); ++one, ++index) done = Member::write(out, *one);
  return done ? done : out.within("[" + std::to_string(index - 1) + "]", done);
}

}  // namespace detail

template <class T, class Wire, Result<Wire> (Reader::*Get)() noexcept,
          GrowingWriter& (GrowingWriter::*Put)(Wire) noexcept>
struct Basic {
  using Value = T;
  static Done read(Reader& in, T& value) { return detail::into((in.*Get)(), value); }
  static Done write(GrowingWriter& out, T value) { return (out.*Put)(static_cast<Wire>(value)).done(); }
};

using Boolean = Basic<bool, bool, &Reader::get_boolean, &GrowingWriter::put_boolean>;
using Char = Basic<char, std::uint8_t, &Reader::get_char, &GrowingWriter::put_char>;
using Octet = Basic<std::uint8_t, std::uint8_t, &Reader::get_octet, &GrowingWriter::put_octet>;
using Short = Basic<std::int16_t, std::int16_t, &Reader::get_short, &GrowingWriter::put_short>;
using UShort = Basic<std::uint16_t, std::uint16_t, &Reader::get_ushort, &GrowingWriter::put_ushort>;
using Long = Basic<std::int32_t, std::int32_t, &Reader::get_long, &GrowingWriter::put_long>;
using ULong = Basic<std::uint32_t, std::uint32_t, &Reader::get_ulong, &GrowingWriter::put_ulong>;
using LongLong = Basic<std::int64_t, std::int64_t, &Reader::get_longlong, &GrowingWriter::put_longlong>;
using ULongLong = Basic<std::uint64_t, std::uint64_t, &Reader::get_ulonglong, &GrowingWriter::put_ulonglong>;
using Float = Basic<float, float, &Reader::get_float, &GrowingWriter::put_float>;
using Double = Basic<double, double, &Reader::get_double, &GrowingWriter::put_double>;

/* A string of at most so many octets; 0: without a bound. What passes it is LR_E_VALUE where it is read, and LR_E_RANGE
 * where it is to be written. */
template <std::size_t Bound = 0>
struct String {
  using Value = std::string;
  static Done read(Reader& in, std::string& value) {
    const auto text = in.get_string();
    if (!text) return text.error();
    if (Bound != 0 && text->size() > Bound) return Error(LR_E_VALUE);
    return in.claim(text->size()).transform([&] { value.assign(*text); });
  }
  static Done write(GrowingWriter& out, const std::string& value) {
    if (Bound != 0 && value.size() > Bound) return out.refuse(detail::over("string", value.size(), Bound));
    const Done done = out.put_string(value).done();
    return done.error() == LR_E_TEXT ? out.refuse("a NUL in a string", LR_E_TEXT) : done;
  }
};

namespace detail {

/* Stands while a sequence is read or written: how many do in this thread, one in another. */
class Deeper {
 public:
  Deeper() noexcept { depth++; }
  ~Deeper() { depth--; }
  Deeper(const Deeper&) = delete;
  Deeper& operator=(const Deeper&) = delete;
  bool is_ok() const noexcept { return depth <= 64; }

 private:
  static inline thread_local unsigned depth = 0;
};

}  // namespace detail

/* A sequence of at most so many members, likewise; and of sequences in sequences at most 64. What is read
 * takes no more memory than Reader::limit says. */
template <class Member, std::size_t Bound = 0>
struct Sequence {
  using Value = std::vector<typename Member::Value>;
  static Done read(Reader& in, Value& value) {
    const Count count = in.get_count();
    if (!count) return count.error();
    if (Bound != 0 && *count > Bound) return Error(LR_E_VALUE);
    const detail::Deeper deeper;
    if (!deeper.is_ok()) return Error(LR_E_VALUE);
    value.clear();
    for (std::size_t index = 0; index < *count; index++) {
      typename Member::Value one{};
      Done done = in.claim(sizeof one);
      if (done) done = Member::read(in, one);
      if (!done) return done;
      value.push_back(std::move(one));
    }
    return {};
  }
  static Done write(GrowingWriter& out, const Value& value) {
    const detail::Deeper deeper;
    if (!deeper.is_ok()) return out.refuse("sequences more than 64 deep");
    if (Bound != 0 && value.size() > Bound) return out.refuse(detail::over("sequence", value.size(), Bound));
    const Done done = out.put_count(value.size()).done();
    return done ? detail::write_members<Member>(out, value) : done;
  }
};

template <class Member, std::size_t Size>
struct Array {
  using Value = std::array<typename Member::Value, Size>;
  static Done read(Reader& in, Value& value) {
    Done done;
    for (auto one = value.begin(); done && one != value.end(); ++one) done = Member::read(in, *one);
    return done;
  }
  static Done write(GrowingWriter& out, const Value& value) { return detail::write_members<Member>(out, value); }
};

/* An enum of so many names, from 0 up. */
template <class Enum, std::uint32_t Names>
struct Enumeration {
  using Value = Enum;
  static Done read(Reader& in, Enum& value) { return detail::into(in.get_enum(Names), value); }
  static Done write(GrowingWriter& out, Enum value) {
    const auto number = static_cast<std::uint32_t>(value);
    return number < Names ? out.put_enum(value).done() : out.refuse(std::to_string(number) + " is no name of the enum");
  }
};

/* A struct, a union or the members of an exception: a class that reads and writes itself. */
template <class Class>
struct Own {
  using Value = Class;
  static Done read(Reader& in, Class& value) { return Class::_read(in, value); }
  static Done write(GrowingWriter& out, const Class& value) { return Class::_write(out, value); }
};

/* A reference to an object. Of nil there are no profiles. */
struct ObjectReference {
  struct Profile {
    std::uint32_t tag = 0;
    std::vector<std::uint8_t> data;
    friend bool operator==(const Profile& one, const Profile& two) {
      return one.tag == two.tag && one.data == two.data;
    }
  };
  std::string type_id;
  std::vector<Profile> profiles;

  bool is_nil() const noexcept { return profiles.empty(); }
  friend bool operator==(const ObjectReference& one, const ObjectReference& two) {
    return one.type_id == two.type_id && one.profiles == two.profiles;
  }
  static Done _read(Reader& in, ObjectReference& value);
  static Done _write(GrowingWriter& out, const ObjectReference& value);
  /* That of a stringified reference, and the other way. */
  static Result<ObjectReference> parse(std::string_view text);
  Result<std::string> print() const;
};

namespace detail {

struct ProfileCodec {
  using Value = ObjectReference::Profile;
  static Done read(Reader& in, Value& value) {
    const Done done = ULong::read(in, value.tag);
    return done ? Sequence<Octet>::read(in, value.data) : done;
  }
  static Done write(GrowingWriter& out, const Value& value) {
    return out.put_ulong(value.tag).put_octets(value.data).done();
  }
};

}  // namespace detail

inline Done ObjectReference::_read(Reader& in, ObjectReference& value) {
  const Done done = String<>::read(in, value.type_id);
  return done ? Sequence<detail::ProfileCodec>::read(in, value.profiles) : done;
}

inline Done ObjectReference::_write(GrowingWriter& out, const ObjectReference& value) {
  const Done done = String<>::write(out, value.type_id);
  return done ? Sequence<detail::ProfileCodec>::write(out, value.profiles) : done;
}

inline Result<ObjectReference> ObjectReference::parse(std::string_view text) {
  auto ior = Ior::parse(text);
  if (!ior) return ior.error();
  const auto type_id = ior->type_id();
  const auto count = ior->profiles();
  if (!type_id || !count) return type_id ? count.error() : type_id.error();
  ObjectReference made;
  made.type_id.assign(type_id->begin(), type_id->end());
  for (std::uint32_t index = 0; index < *count; index++) {
    const auto profile = ior->profile(index);
    auto data = ior->part(index, IorPart::data);
    if (!profile || !data) return profile ? data.error() : profile.error();
    made.profiles.push_back({profile->tag, *std::move(data)});
  }
  return made;
}

inline Result<std::string> ObjectReference::print() const {
  GrowingWriter out;
  out.put_octet(0);
  if (const Done done = _write(out, *this); !done) return done.error();
  std::string text = "IOR:";
  for (const std::uint8_t octet : out.octets()) {
    text.push_back("0123456789abcdef"[octet >> 4]);
    text.push_back("0123456789abcdef"[octet & 15]);
  }
  return text;
}

/* ---- anys ---- */

namespace detail {

/* TCKind (CORBA 3.3 Part 2, 9.3.5.1). Behind these there are values, native types, and interfaces of other kinds. */
enum Kind : std::uint32_t {
  tk_null, tk_void, tk_short, tk_long, tk_ushort, tk_ulong, tk_float, tk_double, tk_boolean, tk_char, tk_octet, tk_any,
  tk_typecode, tk_principal, tk_objref, tk_struct, tk_union, tk_enum, tk_string, tk_sequence, tk_array, tk_alias,
  tk_except, tk_longlong, tk_ulonglong, tk_longdouble, tk_wchar, tk_wstring, tk_fixed, tk_indirection = 0xffffffff
};

/* How deep types stand in others. */
inline constexpr unsigned any_depth = 128;

/* The size of a number of a kind; 0 of other values. */
inline std::size_t size_of(std::uint32_t kind) noexcept {
  constexpr std::uint8_t sizes[] = {0, 0, 2, 4, 2, 4, 4, 8, 1, 1, 1, 0, 0, 0, 0, 0, 0, 0, 0, 0, 0, 0, 0, 8, 8};
  return kind < sizeof sizes ? sizes[kind] : 0;
}

/* .. of one that may discriminate a union. */
inline std::size_t label_size_of(std::uint32_t kind) noexcept {
  return kind == tk_float || kind == tk_double ? 0 : kind == tk_enum ? 4 : size_of(kind);
}

/* The number that octets of an order are. */
inline std::uint64_t number_of(Octets octets, Order order) noexcept {
  std::uint64_t number = 0;
  const std::size_t last = octets.size() - 1;
  for (std::size_t index = 0; index <= last; index++)
    number = number << 8 | octets.data()[order == Order::big ? index : last - index];
  return number;
}

/* A TypeCode. Others are named by their indices. */
struct Code {
  std::uint32_t kind = tk_null;
  std::uint32_t number = 0;                   // a bound, a length, or how many names or digits there are
  std::size_t inner = 0;                      // what a list, an alias or an indirection is of, or discriminates a union
  std::size_t first = 0, count = 0;           // its members
  std::size_t fallback = 0;                   // of a union: which of these is the default one, from 1; 0: none
  const std::uint8_t* start = nullptr;        // where it begins; null: it was not read yet
  std::uint64_t label = 0;                    // of a member of a union
};

/* The TypeCodes in one, which is the first. They take memory of what a reader may take. */
class Codes {
 public:
  Done read(Reader& at, Reader& memory, unsigned depth) {
    const auto front = at.get_raw(0, 4);
    if (!front) return front.error();
    front_ = front->data();
    const auto first = add(1, memory);
    return first ? parse(*first, at, memory, depth) : first.error();
  }
  const Code& operator[](std::size_t index) const noexcept { return list_[index]; }
  /* The index of what is no alias and no indirection. LR_E_VALUE: one is of itself. */
  Count resolved(std::size_t index) const noexcept {
    for (unsigned hops = 0; hops < 2 * any_depth; hops++) {
      if (list_[index].kind != tk_alias && list_[index].kind != tk_indirection) return index;
      index = list_[index].inner;
    }
    return Error(LR_E_VALUE);
  }

 private:
  /* Adds so many TypeCodes, which are read later. */
  Count add(std::size_t count, Reader& memory) {
    if (const Done done = memory.claim(std::uint64_t{count} * sizeof(Code)); !done) return done.error();
    list_.resize(list_.size() + count);
    return list_.size() - count;
  }

  Done parse(std::size_t index, Reader& at, Reader& memory, unsigned depth) {
    if (depth > any_depth) return Error(LR_E_VALUE);
    const std::uint8_t* const start = at.rest().data() + lemonrudder::detail::padding(at.at(), 4);
    const auto kind = at.get_ulong();
    if (!kind) return kind.error();
    if (*kind == tk_indirection) return parse_indirection(index, at, memory);
    list_[index].kind = *kind;
    list_[index].start = start;
    switch (*kind) {
      case tk_string:
      case tk_wstring: return into(at.get_ulong(), list_[index].number);
      case tk_fixed: return parse_fixed(index, at);
      case tk_objref:
      case tk_struct:
      case tk_union:
      case tk_enum:
      case tk_sequence:
      case tk_array:
      case tk_alias:
      case tk_except: return parse_constructed(index, at, memory, depth + 1);
      default: return Error(*kind > tk_fixed ? LR_E_VALUE : LR_OK);
    }
  }

  /* An indirection names where a TypeCode begins that stands before it, by an offset from itself (9.3.5.1.3). */
  Done parse_indirection(std::size_t index, Reader& at, Reader& memory) {
    const std::ptrdiff_t from = at.rest().data() - front_;
    const auto offset = at.get_long();
    if (!offset || *offset >= 0 || -std::ptrdiff_t{*offset} > from) return Error(LR_E_VALUE);
    if (const Done done = memory.claim(list_.size() / 8); !done) return done;
    const std::uint8_t* const start = front_ + (from + *offset);
    const auto found = std::find_if(list_.begin(), list_.end(), [&](const Code& one) { return one.start == start; });
    if (found == list_.end()) return Error(LR_E_VALUE);
    list_[index].kind = tk_indirection;
    list_[index].inner = static_cast<std::size_t>(found - list_.begin());
    return {};
  }

  Done parse_fixed(std::size_t index, Reader& at) {
    const auto digits = at.get_ushort();
    const auto scale = at.get_short();
    if (!digits || !scale) return digits ? scale.error() : digits.error();
    list_[index].number = *digits;
    return Error(*digits > 31 ? LR_E_VALUE : LR_OK);
  }

  /* Reads what is in the encapsulation of a TypeCode. (What is behind that, as the names of an enum, has no effect.) */
  Done parse_constructed(std::size_t index, Reader& at, Reader& memory, unsigned depth) {
    auto in = at.get_encapsulation();
    if (!in) return in.error();
    const std::uint32_t kind = list_[index].kind;
    const bool is_list = kind == tk_sequence || kind == tk_array;
    Done done;
    if (!is_list) done = skip_text(*in);
    if (done && !is_list) done = skip_text(*in);
    if (done && (is_list || kind == tk_alias)) done = parse_inner(index, *in, memory, depth);
    if (done && (is_list || kind == tk_enum)) done = into(in->get_ulong(), list_[index].number);
    if (done && (kind == tk_struct || kind == tk_except)) done = parse_members(index, *in, memory, depth, 0);
    return done && kind == tk_union ? parse_union(index, *in, memory, depth) : done;
  }

  static Done skip_text(Reader& at) { return at.get_string().error(); }

  /* Reads the TypeCode of what a list or an alias is of, or by which a union is discriminated. */
  Done parse_inner(std::size_t index, Reader& at, Reader& memory, unsigned depth) {
    const auto inner = add(1, memory);
    if (!inner) return inner.error();
    list_[index].inner = *inner;
    return parse(*inner, at, memory, depth);
  }

  Done parse_union(std::size_t index, Reader& at, Reader& memory, unsigned depth) {
    const Done done = parse_inner(index, at, memory, depth);
    const auto inner = done ? resolved(list_[index].inner) : done.error();
    const auto fallback = at.get_long();
    if (!inner || !fallback) return inner ? fallback.error() : inner.error();
    const std::size_t size = label_size_of(list_[*inner].kind);
    if (size == 0 || *fallback < -1) return Error(LR_E_VALUE);
    list_[index].fallback = static_cast<std::size_t>(std::int64_t{*fallback} + 1);
    return parse_members(index, at, memory, depth, size);
  }

  /* Reads members: of a union behind their labels of such a size. */
  Done parse_members(std::size_t index, Reader& at, Reader& memory, unsigned depth, std::size_t label_size) {
    const auto count = at.get_count();
    const auto first = count ? add(*count, memory) : count;
    if (!first || list_[index].fallback > *count) return first ? Error(LR_E_VALUE) : first.error();
    list_[index].first = *first;
    list_[index].count = *count;
    Done done;
    for (std::size_t member = *first; done && member < *first + *count; member++) {
      const auto label = at.get_raw(label_size, std::max<std::size_t>(label_size, 1));
      if (label && label_size > 0) list_[member].label = number_of(*label, at.order());
      done = label ? skip_text(at) : label.error();
      if (done) done = parse(member, at, memory, depth);
    }
    return done;
  }

  std::vector<Code> list_;
  const std::uint8_t* front_ = nullptr;
};

/* Walks values from a reader; what it passes it writes anew, if there is a writer. */
class Walk {
 public:
  Walk(Reader& in, GrowingWriter* out) noexcept : in_(in), out_(out) {}

  /* Passes a TypeCode: what is in encapsulations stays as it is, indirections too, which stay in them. */
  Done code(Codes& codes, unsigned depth) {
    const auto front = in_.get_raw(0, 4);
    Reader at = in_;
    const Done done = front ? codes.read(at, in_, depth) : front.error();
    if (!done) return done;
    const auto octets = in_.get_raw(static_cast<std::size_t>(at.at() - in_.at()));
    if (out_ == nullptr || !octets) return octets.error();
    if (!is_turned() || octets->size() == 4) return put(*octets, 4, 4);
    const std::size_t half = codes[0].kind == tk_fixed ? 2 : 4;
    Done written = put(octets->first(4), 4, 4);
    if (written) written = put(octets->from(4).first(4), half, half);
    return written ? out_->put_raw(octets->from(8)).done() : written;
  }

  /* Passes a value of the type of an index. */
  Done value(const Codes& codes, std::size_t index, unsigned depth) {
    const auto found = codes.resolved(index);
    if (!found || depth > any_depth) return Error(LR_E_VALUE);
    const Code& code = codes[*found];
    if (size_of(code.kind) > 0) return numbers(size_of(code.kind), 1).error();
    if (const Done done = in_.claim(1); !done) return done;
    switch (code.kind) {
      case tk_any: return any(depth + 1, true);
      case tk_typecode: return any(depth + 1, false);
      case tk_objref: return reference();
      case tk_struct:
      case tk_except: return structure(codes, code, depth + 1);
      case tk_union: return choice(codes, code, depth + 1);
      case tk_enum: return name(code);
      case tk_string: return text(code.number);
      case tk_sequence: return sequence(codes, code, depth + 1);
      case tk_array: return list(codes, code.inner, code.number, depth + 1);
      case tk_longdouble: return long_double();
      case tk_principal:
      case tk_wstring: return counted(4).error();  // (as GIOP 1.2 has wide characters, 9.3.1.6)
      case tk_wchar: return counted(1).error();
      case tk_fixed: return numbers(1, code.number / 2 + 1).error();
      default: return {};
    }
  }

 private:
  bool is_turned() const noexcept { return out_ != nullptr && out_->order() != in_.order(); }

  /* Writes numbers of so many octets each. */
  Done put(Octets octets, std::size_t alignment, std::size_t size) {
    if (!is_turned() || size == 1) return out_->put_raw(octets, alignment).done();
    std::array<std::uint8_t, 16> turned{};
    for (; !octets.empty() && out_->done(); octets = octets.from(size)) {
      std::reverse_copy(octets.begin(), octets.begin() + size, turned.begin());
      out_->put_raw({turned.data(), size}, alignment);
    }
    return out_->done();
  }

  /* Passes so many numbers of so many octets each. */
  Result<Octets> numbers(std::size_t size, std::size_t count) {
    if (count == 0) return Octets();
    if (count > in_.rest().size() / size) return Error(LR_E_SHORT);
    const auto octets = in_.get_raw(size * count, size);
    if (!octets || out_ == nullptr) return octets;
    const Done done = put(*octets, size, size);
    return done ? octets : done.error();
  }

  Result<std::uint64_t> number(std::size_t size) {
    return numbers(size, 1).transform([this](Octets octets) { return number_of(octets, in_.order()); });
  }

  /* Octets behind their number, which has so many. */
  Result<Octets> counted(std::size_t size) {
    return number(size).and_then([this](std::uint64_t count) { return numbers(1, static_cast<std::size_t>(count)); });
  }

  Done text(std::uint64_t bound) {
    const auto octets = counted(4);
    if (!octets) return octets.error();
    const bool has_end = octets->empty() || octets->end()[-1] == 0;
    return Error(has_end && (bound == 0 || octets->size() <= bound + 1) ? LR_OK : LR_E_VALUE);
  }

  Done list(const Codes& codes, std::size_t member, std::uint64_t count, unsigned depth) {
    const auto found = codes.resolved(member);
    if (!found) return found.error();
    const std::size_t size = size_of(codes[*found].kind);
    if (size > 0) return numbers(size, static_cast<std::size_t>(count)).error();
    Done done;
    for (; done && count > 0; count--) done = value(codes, *found, depth);
    return done;
  }

  Done sequence(const Codes& codes, const Code& code, unsigned depth) {
    const auto count = number(4);
    if (!count || (code.number != 0 && *count > code.number)) return count ? Error(LR_E_VALUE) : count.error();
    return list(codes, code.inner, *count, depth);
  }

  /* The members of a struct, or of an exception behind its id (9.3.5.5). */
  Done structure(const Codes& codes, const Code& code, unsigned depth) {
    Done done = code.kind == tk_except ? text(0) : Done();
    for (std::size_t member = 0; done && member < code.count; member++) done = value(codes, code.first + member, depth);
    return done;
  }

  Done choice(const Codes& codes, const Code& code, unsigned depth) {
    const auto inner = codes.resolved(code.inner);
    const std::size_t size = inner ? label_size_of(codes[*inner].kind) : 0;
    if (size == 0) return Error(LR_E_VALUE);
    const auto label = number(size);
    const Done done = label ? in_.claim(code.count / 8) : label.error();
    if (!done) return done;
    std::size_t member = 0;
    while (member < code.count && (member + 1 == code.fallback || codes[code.first + member].label != *label)) member++;
    if (member == code.count && code.fallback > 0) member = code.fallback - 1;
    return member == code.count ? Done() : value(codes, code.first + member, depth);
  }

  Done name(const Code& code) {
    const auto found = number(4);
    return found && *found >= code.number ? Error(LR_E_VALUE) : found.error();
  }

  /* 16 octets, aligned by 8, which are turned as a whole. */
  Done long_double() {
    const auto octets = in_.get_raw(16, 8);
    return octets && out_ != nullptr ? put(*octets, 8, 16) : octets.error();
  }

  /* A type id, and profiles, each a tag and its data (9.6.2). */
  Done reference() {
    Done done = text(0);
    const auto count = done ? number(4) : done.error();
    for (std::uint64_t left = count.value_or(0); done && left > 0; left--) {
      done = number(4).error();
      if (done) done = counted(4).error();
    }
    return done ? count.error() : done;
  }

  /* A TypeCode, and a value of it where that is there. */
  Done any(unsigned depth, bool has_value) {
    Codes codes;
    const Done done = code(codes, depth);
    return done && has_value ? value(codes, 0, depth) : done;
  }

  Reader& in_;
  GrowingWriter* out_;
};

/* The codec of a basic type, and its TCKind. */
template <class Codec, std::uint32_t Number>
struct Plain {
  using Of = Codec;
  static constexpr std::uint32_t kind = Number;
};
template <class T>
struct PlainOf;
template <>
struct PlainOf<bool> : Plain<Boolean, tk_boolean> {};
template <>
struct PlainOf<char> : Plain<Char, tk_char> {};
template <>
struct PlainOf<std::uint8_t> : Plain<Octet, tk_octet> {};
template <>
struct PlainOf<std::int16_t> : Plain<Short, tk_short> {};
template <>
struct PlainOf<std::uint16_t> : Plain<UShort, tk_ushort> {};
template <>
struct PlainOf<std::int32_t> : Plain<Long, tk_long> {};
template <>
struct PlainOf<std::uint32_t> : Plain<ULong, tk_ulong> {};
template <>
struct PlainOf<std::int64_t> : Plain<LongLong, tk_longlong> {};
template <>
struct PlainOf<std::uint64_t> : Plain<ULongLong, tk_ulonglong> {};
template <>
struct PlainOf<float> : Plain<Float, tk_float> {};
template <>
struct PlainOf<double> : Plain<Double, tk_double> {};
template <>
struct PlainOf<std::string> : Plain<String<>, tk_string> {};

}  // namespace detail

/* An any: the octets of a TypeCode, and behind these those of a value of it, in an order, as they came. The first one
 * stands at a place modulo 8, from which all are aligned. Without octets it is null. It goes on as it came where it
 * stands so too, else it is written anew, by its TypeCode: LR_E_VALUE and LR_E_SHORT where its octets are no value of
 * that. Types stand in others 128 deep at most. */
struct Any {
  Order order = Order::big;
  std::uint32_t at = 0;
  std::vector<std::uint8_t> type, octets;

  /* An any of a basic type or a string: Any::of(std::int32_t{5}). LR_E_TEXT: a NUL in a string. */
  template <class T>
  static Result<Any> of(const T& value) {
    GrowingWriter out;
    Any made;
    out.put_ulong(detail::PlainOf<T>::kind);
    if (std::is_same_v<T, std::string>) out.put_ulong(0);
    const auto size = static_cast<std::ptrdiff_t>(out.octets().size());
    if (const Done done = detail::PlainOf<T>::Of::write(out, value); !done) return done.error();
    made.type.assign(out.octets().begin(), out.octets().begin() + size);
    made.octets.assign(out.octets().begin() + size, out.octets().end());
    return made;
  }
  static Result<Any> of(const char* text) { return of(std::string(text)); }

  /* .. and the other way, also where its type has other names: any.value<std::int32_t>(). LR_E_VALUE: it is of another
   * type. */
  template <class T>
  Result<T> value() const {
    const auto found = kind();
    if (!found || *found != detail::PlainOf<T>::kind) return found ? Error(LR_E_VALUE) : found.error();
    Reader in = reader();
    T made{};
    const Done done = detail::PlainOf<T>::Of::read(in, made);
    return done ? Result<T>(std::move(made)) : done.error();
  }

  /* The TCKind of its type, of an alias that of what it names: 0 null, 2 short, 3 long, 15 a struct, 18 a string (CORBA
   * 3.3 Part 2, 9.3.5.1). */
  Result<std::uint32_t> kind() const {
    if (type.empty()) return std::uint32_t{detail::tk_null};
    detail::Codes codes;
    Reader in(type, order, at);
    const Done done = detail::Walk(in, nullptr).code(codes, 0);
    const auto found = done ? codes.resolved(0) : done.error();
    return found.transform([&](std::size_t index) { return codes[index].kind; });
  }

  /* Reads its value. */
  Reader reader() const noexcept { return Reader(octets, order, at + type.size()); }

  friend bool operator==(const Any& one, const Any& two) {
    return one.order == two.order && one.at == two.at && one.type == two.type && one.octets == two.octets;
  }
  static Done _read(Reader& in, Any& value);
  static Done _write(GrowingWriter& out, const Any& value);
};

inline Done Any::_read(Reader& in, Any& value) {
  detail::Codes codes;
  detail::Walk walk(in, nullptr);
  if (const auto front = in.get_raw(0, 4); !front) return front.error();
  const Octets first = in.rest();
  value.at = static_cast<std::uint32_t>(in.at() % 8);
  value.order = in.order();
  Done done = walk.code(codes, 0);
  const Octets middle = in.rest();
  if (done) done = walk.value(codes, 0, 0);
  const std::size_t size = first.size() - middle.size(), more = middle.size() - in.rest().size();
  if (done) done = in.claim(size + more);
  if (!done) return done;
  value.type.assign(first.begin(), first.begin() + size);
  value.octets.assign(middle.begin(), middle.begin() + more);
  return done;
}

inline Done Any::_write(GrowingWriter& out, const Any& value) {
  if (value.type.empty()) return out.put_ulong(detail::tk_null).done();
  if (value.order == out.order() && value.at == (out.at() + 3) / 4 * 4 % 8)
    return out.put_raw(value.type, 4).put_raw(value.octets).done();
  std::vector<std::uint8_t> whole = value.type;
  whole.insert(whole.end(), value.octets.begin(), value.octets.end());
  Reader in(whole, value.order, value.at);
  detail::Codes codes;
  detail::Walk walk(in, &out);
  Done done = walk.code(codes, 0);
  if (done) done = walk.value(codes, 0, 0);
  if (done && !in.rest().empty()) done = Error(LR_E_VALUE);
  return done ? done : out.refuse("an any whose octets are no value of its type", done.error().number());
}

/* Several values, one behind the other. */
template <class... Codec>
struct Codecs {
  using Values = std::tuple<typename Codec::Value...>;
  static Done read(Reader& in, Values& values) {
    return std::apply([&](auto&... one) { return each([&] { return Codec::read(in, one); }...); }, values);
  }
  static Done write(GrowingWriter& out, const typename Codec::Value&... values) {
    static_cast<void>(out);
    return each([&] { return Codec::write(out, values); }...);
  }
  /* .. each of which has a name. */
  static Done write_named(GrowingWriter& out, const std::array<const char*, sizeof...(Codec)>& names,
                          const typename Codec::Value&... values) {
    [[maybe_unused]] std::size_t index = 0;
    static_cast<void>(names);
    static_cast<void>(out);
    return each([&] { return out.within(names[index++], Codec::write(out, values)); }...);
  }

 private:
  template <class... Step>
  static Done each(Step... step) {
    Done done;
    static_cast<void>(((done = step()).ok() && ...));
    return done;
  }
};

/* ---- servants ---- */

/* Which exceptions an operation declares. */
template <class... Raised>
struct Raises {
  template <class One>
  static constexpr bool has = (std::is_same_v<One, Raised> || ...);
};

/* The body by which an exception is answered, behind its id where the operation is raw. */
template <class Operation, class Raised>
Done write_raised(GrowingWriter& out, const Raised& raised) {
  static_assert(Operation::_raises::template has<Raised>, "the operation does not declare this exception");
  if (Operation::_is_raw) out.put_string(Raised::_id);
  return Raised::_write(out, raised);
}

template <class Operation, class Results = typename Operation::_results>
class Replying;

/* A request that was parked: any thread answers it, once, as Later says. What is none of the types answers INTERNAL,
 * COMPLETED_MAYBE. */
template <class Operation, class... Codec>
class Replying<Operation, Codecs<Codec...>> {
 public:
  explicit Replying(Later later) noexcept : later_(std::move(later)) {}
  void answer(const typename Codec::Value&... results) {
    GrowingWriter out;
    if (!Codecs<Codec...>::write(out, results...))
      later_.system(SystemException::internal, Completed::maybe);
    else if (Operation::_is_raw)
      later_.answer_raw(ReplyStatus::no_exception, out.order(), out.octets());
    else
      later_.answer(out);
  }
  template <class Raised>
  void raise(const Raised& raised) {
    GrowingWriter out;
    if (!write_raised<Operation>(out, raised))
      later_.system(SystemException::internal, Completed::maybe);
    else if (Operation::_is_raw)
      later_.answer_raw(ReplyStatus::user_exception, out.order(), out.octets());
    else
      later_.raise(Raised::_id, out);
  }
  void system(SystemException name, Completed completed) { later_.system(name, completed); }
  void refuse(SystemException name = SystemException::transient) { later_.refuse(name); }
  Later& later() noexcept { return later_; }

 private:
  Later later_;
};

template <class Operation, class Results = typename Operation::_results>
class Asking;

/* A request that waits, for a servant to answer at once, or to park. Results, or members of an exception, that are none
 * of their types answer INTERNAL, COMPLETED_MAYBE, and are an error. */
template <class Operation, class... Codec>
class Asking<Operation, Codecs<Codec...>> {
 public:
  explicit Asking(Asked& asked) noexcept : asked_(asked) {}
  Done answer(const typename Codec::Value&... results) {
    GrowingWriter out;
    if (const Done done = Codecs<Codec...>::write(out, results...); !done) return failed(done);
    if (Operation::_is_raw) return asked_.answer_raw(ReplyStatus::no_exception, out.order(), out.octets());
    return asked_.answer(out);
  }
  template <class Raised>
  Done raise(const Raised& raised) {
    GrowingWriter out;
    if (const Done done = write_raised<Operation>(out, raised); !done) return failed(done);
    if (Operation::_is_raw) return asked_.answer_raw(ReplyStatus::user_exception, out.order(), out.octets());
    return asked_.raise(Raised::_id, out);
  }
  Done system(SystemException name, Completed completed) { return asked_.system(name, completed); }
  Done refuse(SystemException name = SystemException::transient) { return asked_.refuse(name); }
  Result<Replying<Operation>> later() {
    auto later = asked_.later();
    if (!later) return later.error();
    return Replying<Operation>(*std::move(later));
  }
  Asked& asked() noexcept { return asked_; }

 private:
  Done failed(const Done& done) {
    const Done answered = asked_.system(SystemException::internal, Completed::maybe);
    return answered ? done : answered;
  }

  Asked& asked_;
};

class Servant {
 public:
  Servant() = default;
  Servant(const Servant&) = delete;
  Servant& operator=(const Servant&) = delete;
  virtual ~Servant() = default;
  /* How much memory the arguments of a call may take; 0: what Reader::limit says of a new one. */
  std::uint64_t _limit = 0;
};

/* Whose servant a loop asks: the one of an object, or that of a key of a family, if there is one. */
template <class Interface>
std::function<Interface*(Octets)> always(Interface* servant) {
  return [servant](Octets) { return servant; };
}

/* What a loop has performed for an operation: arguments that are none of their types, or pass the limit of the servant,
 * are answered MARSHAL; where there is no servant, OBJECT_NOT_EXIST. */
template <class Operation, class Interface, class Call>
Loop::Servant performer(std::function<Interface*(Octets)> servant_of, Call call) {
  return [servant_of, call](Asked& asked) -> Done {
    Interface* const servant = servant_of(asked.key());
    if (servant == nullptr) return asked.refuse(SystemException::object_not_exist);
    typename Operation::_arguments::Values values{};
    Reader in = asked.arguments();
    if (servant->_limit != 0) in.limit(servant->_limit);
    if (!Operation::_arguments::read(in, values)) return asked.refuse(SystemException::marshal);
    Asking<Operation> asking(asked);
    return std::apply([&](const auto&... one) { return call(*servant, asking, one...); }, values);
  };
}

/* ---- stubs ---- */

/* A system exception: of a server, or TRANSIENT or COMM_FAILURE of a Caller. */
struct SystemRaised {
  std::string id;
  std::uint32_t minor = 0;
  Completed completed = Completed::no;
};

/* What came of a call: its result, an exception that the operation declares, a system exception, or an error: one of
 * its own values, and nothing was sent (LR_E_RANGE, LR_E_TEXT); LR_E_EXPIRED; what the reply has is none of the types
 * (LR_E_VALUE, LR_E_SHORT), or another exception, or leads to no address (LR_E_OUTCOME). */
template <class Value, class... Raised>
class [[nodiscard]] Outcome {
 public:
  template <class Held>
  explicit Outcome(std::in_place_t, Held held) : held_(std::move(held)) {}
  Outcome(Value value) : held_(std::in_place_index<0>, std::move(value)) {}
  Outcome(Error error) : held_(error), why_(error.text()) {}
  Outcome(Error error, std::string why) : held_(error), why_(std::move(why)) {}

  bool ok() const noexcept { return held_.index() == 0; }
  explicit operator bool() const noexcept { return ok(); }
  /* The result, where it is ok. */
  const Value& operator*() const noexcept { return *std::get_if<0>(&held_); }
  const Value* operator->() const noexcept { return std::get_if<0>(&held_); }
  template <class One>
  const One* raised() const noexcept {
    return std::get_if<One>(&held_);
  }
  const SystemRaised* system() const noexcept { return std::get_if<SystemRaised>(&held_); }
  Error error() const noexcept {
    const Error* const found = std::get_if<Error>(&held_);
    return found == nullptr ? Error(LR_OK) : *found;
  }
  /* .. in a line: of an argument which one, and what it passes. */
  const std::string& why() const noexcept { return why_; }

 private:
  std::variant<Value, Raised..., SystemRaised, Error> held_;
  std::string why_;
};

/* The result of no types, of one, or of several. */
template <class... Values>
struct ResultOf {
  using type = std::tuple<Values...>;
  static type of(std::tuple<Values...> values) { return values; }
};
template <class One>
struct ResultOf<One> {
  using type = One;
  static type of(std::tuple<One> values) { return std::get<0>(std::move(values)); }
};
template <>
struct ResultOf<> {
  using type = std::monostate;
  static type of(std::tuple<>) { return {}; }
};

/* A reply: how a call ended, and its body. */
struct Reply {
  Completion completion;
  std::vector<std::uint8_t> body;
  std::uint64_t limit = 0;  // of what is read of it; 0: that of a new Reader
  Reader reader() const noexcept {
    Reader made(Octets(body), completion.byte_order(), completion.body_at);
    if (limit != 0) made.limit(limit);
    return made;
  }
};

/* Where objects are asked for: addresses in order, of servers that share their outcomes, and the key of an object. */
struct Road {
  struct Address {
    std::string host;
    std::uint16_t port;
  };
  std::vector<Address> addresses;
  std::size_t next = 0;       // the address that is asked
  std::uint32_t version = 2;  // of IIOP 1.. that all have
  std::string key;

  /* That to all addresses of a reference, also in components TAG_ALTERNATE_IIOP_ADDRESS (CORBA 3.3 Part 2, 9.7.3), under
   * the key of the first one. What is no profile of IIOP says nothing. */
  static Road of(const ObjectReference& reference) {
    Road made;
    for (const ObjectReference::Profile& profile : reference.profiles)
      if (profile.tag == 0) made.add_profile(profile.data);
    return made;
  }

 private:
  static Reader encapsulated(Octets octets) noexcept {
    const bool is_one = !octets.empty() && octets.data()[0] <= 1;
    Reader in(is_one ? octets : Octets(), is_one ? Order{octets.data()[0]} : Order::big);
    static_cast<void>(in.get_octet());
    return in;
  }

  static Done read(Reader& in, Address& address) {
    const Done done = String<>::read(in, address.host);
    return done ? detail::into(in.get_ushort(), address.port) : done;
  }

  void add(const Address& address, std::uint8_t minor, std::string_view its_key) {
    if (address.port == 0) return;
    if (addresses.empty()) key = its_key;
    if (key != its_key) return;
    version = std::min<std::uint32_t>(version, minor);
    addresses.push_back(address);
  }

  void add_profile(Octets data) {
    Reader in = encapsulated(data);
    const auto major = in.get_octet(), minor = in.get_octet();
    Address address{};
    if (!major || *major != 1 || !minor || !read(in, address)) return;
    const auto its_key = in.get_octets();
    if (!its_key) return;
    add(address, *minor, its_key->text());
    const auto count = *minor == 0 ? Result<std::uint32_t>(0) : in.get_ulong();
    for (std::uint32_t left = count ? *count : 0; left > 0; left--) {
      const auto tag = in.get_ulong();
      const auto octets = in.get_octets();
      if (!tag || !octets) return;
      Reader component = encapsulated(*octets);
      if (*tag == 3 && read(component, address)) add(address, *minor, its_key->text());
    }
  }
};

/* Makes calls over TCP, one at a time, and waits for each: it is sent again under its number on each new connection,
 * and after TRANSIENT, until it is answered or expires. An address that can't be reached, is lost without an answer,
 * answers TRANSIENT, or says nothing for a time is left for the next one. A call that is forwarded is asked for where it
 * leads, and so are later ones of its key, until nobody answers there. A oneway call has ended once it is sent. Where no
 * address can be reached as it expires, it ends by TRANSIENT, COMPLETED_NO, or by COMM_FAILURE, COMPLETED_MAYBE, if a
 * connection was lost on which it was sent. Its client id is random. */
class Caller {
 public:
  static Result<Caller> open(std::string host, std::uint16_t port) {
    Road home;
    home.addresses.push_back({std::move(host), port});
    return open(std::move(home));
  }
  static Result<Caller> open(Road home) {
    std::random_device random;
    Caller made;
    for (int count = 0; count < 4; count++) made.id_ += std::to_string(random()) + ".";
    made.home_ = std::move(home);
    if (const Done done = made.open_client(0); !done) return done.error();
    return made;
  }
  /* .. of the object that a stringified reference names: at all its addresses of IIOP, under `key`. */
  static Result<Caller> of(std::string_view reference) {
    const auto parsed = ObjectReference::parse(reference);
    if (!parsed) return parsed.error();
    Road home = Road::of(*parsed);
    if (home.addresses.empty()) return Error(LR_E_REFERENCE);
    return open(std::move(home));
  }
  Octets key() const noexcept { return home_.key; }
  /* How long the calls that come are sent again. */
  void patience(std::chrono::milliseconds patience) noexcept { patience_ = patience; }
  /* How long one of several addresses may say nothing to a call; 0, as at first: its share of the patience. */
  void answer_timeout(std::chrono::milliseconds most) noexcept { answer_timeout_ = most; }
  /* How much memory what a reply has may take; 0, as at first: what Reader::limit says of a new one. */
  void limit(std::uint64_t octets) noexcept { limit_ = octets; }
  std::uint64_t expiration() const noexcept {
    return now() + static_cast<std::uint64_t>(patience_.count()) * (LR_SECOND / 1000);
  }
  Result<Reply> call(const Call& call) {
    return make(call, [this](const Call& one) { return client_.call(now(), one); });
  }
  Result<Reply> call_raw(const RawCall& call) {
    return make(call, [this](const RawCall& one) {
      // (of a oneway call nobody would hear that its connection is over)
      if (one.wish == Wish::none && socket_.is_open() && !hear(0).value_or(true)) drop();
      return client_.call_raw(now(), one);
    });
  }

 private:
  using Milliseconds = std::chrono::milliseconds;
  static constexpr std::string_view not_exist = "IDL:omg.org/CORBA/OBJECT_NOT_EXIST:1.0";

  Caller() = default;

  Road& road() noexcept { return is_led_ ? led_ : home_; }

  /* Opens the client anew, under the same id. The next call gets the number after this one. */
  Done open_client(std::int64_t last) {
    ClientSettings settings;
    settings.keep_transient = true;
    settings.version = road().version;
    auto client = Client::open(id_, settings);
    if (!client) return client.error();
    const Done done = client->skip_to(last);
    if (!done) return done;
    client_ = *std::move(client);
    last_ = last;
    return {};
  }

  /* Goes home, or where a key was led. The next call gets the number after this one. */
  Done turn_to(std::string_view key, std::int64_t last) {
    const bool is_led = !led_.addresses.empty() && from_ == key;
    if (is_led == is_led_ && last == last_) return {};
    drop();
    is_led_ = is_led;
    return open_client(last);
  }

  /* Makes a call under one number, wherever it leads, until it has ended. */
  template <class Asked, class Begin>
  Result<Reply> make(Asked call, Begin begin) {
    const std::string key(call.key.text());
    const std::int64_t last = last_;
    Milliseconds delay = first_delay;
    is_lost_ = is_sent_ = false;
    for (unsigned hops = 0;; hops++) {
      if (hops > 2) wait_longer(delay);
      if (const Done done = turn_to(key, last); !done) return done.error();
      call.key = is_led_ ? led_.key : key;
      const Result<std::int64_t> number = begin(call);
      if (!number && (number.error() != LR_E_EXPIRED || hops == 0)) return number.error();
      if (!number) return unreached();
      last_ = *number;
      auto ended = settle(*number);
      if (!ended) return ended.error();
      if (!*ended) continue;
      const Result<bool> is_led = follow(key, **ended);
      if (!is_led.ok()) return is_led.error();
      if (!*is_led) return **std::move(ended);
    }
  }

  /* Whether a reply leads elsewhere, where its key is asked for from now on. */
  Result<bool> follow(const std::string& key, const Reply& reply) {
    Reader in = reply.reader();
    if (reply.completion.ended() == Ended::system && in.get_string().value_or(std::string_view()) == not_exist)
      led_ = Road();  // (the next call of the key is asked for at home)
    if (reply.completion.ended() != Ended::forwarded) return false;
    ObjectReference reference;
    if (const Done done = ObjectReference::_read(in, reference); !done) return done.error();
    Road there = Road::of(reference);
    if (there.addresses.empty()) return Error(LR_E_OUTCOME);
    led_ = std::move(there);
    from_ = key;
    return true;
  }

  /* Waits until a call has ended. Without a reply: nobody answers where it was led, or it is oneway and could not be
   * sent; and it is not pending any more. */
  Result<std::optional<Reply>> settle(std::int64_t call) {
    std::size_t failed = 0;
    for (Milliseconds delay = first_delay;;) {
      if (const Done done = client_.tick(now()); !done) return done.error();
      // (a oneway call has ended as soon as it is due: so what is due is sent first)
      const bool is_well = !socket_.is_open() || send_due();
      auto ended = client_.completed();
      if (!ended) return ended.error();
      const bool has_ended = *ended && (*ended)->call == call;
      if (has_ended && (is_well || (*ended)->ended() != Ended::sent)) return ended_by(**ended);
      if (!has_ended && is_well && (socket_.is_open() ? talk() : connect())) continue;
      const bool goes_on = move_on(failed, delay);
      if (goes_on && !has_ended) continue;
      if (goes_on) return std::optional<Reply>();
      const auto cancelled = client_.cancel(call);
      if (!cancelled.ok()) return cancelled.error();
      led_ = Road();
      return std::optional<Reply>();
    }
  }

  Result<std::optional<Reply>> ended_by(const Completion& ended) {
    if (ended.ended() == Ended::expired && !socket_.is_open()) return std::optional<Reply>(unreached());
    if (ended.ended() != Ended::expired) is_sent_ = false;
    if (ended.ended() <= Ended::needs_addressing) is_heard_ = true;
    auto body = client_.body();
    // (a call that expired, or wished for no reply, has none)
    if (!body && body.error() != LR_E_NONE) return body.error();
    return std::optional<Reply>(Reply{ended, std::move(body).value_or(std::vector<std::uint8_t>()), limit_});
  }

  /* The system exception by which a call ends where no address can be reached. */
  Reply unreached() const {
    GrowingWriter out;
    out.put_string(is_lost_ ? "IDL:omg.org/CORBA/COMM_FAILURE:1.0" : "IDL:omg.org/CORBA/TRANSIENT:1.0").put_ulong(0);
    out.put_enum(is_lost_ ? Completed::maybe : Completed::no);
    Reply made{};
    made.completion.how = LR_ENDED_SYSTEM;
    made.completion.body_order = static_cast<std::uint32_t>(out.order());
    made.body.assign(out.octets().begin(), out.octets().end());
    return made;
  }

  static void wait_longer(Milliseconds& delay) {
    std::this_thread::sleep_for(delay);
    delay = std::min(2 * delay, Milliseconds(1000));
  }

  /* Leaves an address for the next one, but for one that had answered on this connection and was lost. After each
   * connection, and after a round of addresses, it waits. False where a call was led to where nobody answers. */
  bool move_on(std::size_t& failed, Milliseconds& delay) {
    const bool was_mute = socket_.is_open() && is_mute(), was_there = socket_.is_open() && !was_mute;
    const bool was_heard = is_heard_;
    const std::size_t count = road().addresses.size();
    drop();
    if (was_heard && !was_mute) return true;
    road().next = (road().next + 1) % count;
    failed = was_there ? 0 : failed + 1;
    if (is_led_ && failed == count) return false;
    if (was_there || failed % count == 0) wait_longer(delay);
    return true;
  }

  void drop() {
    socket_.close();
    is_lost_ = is_lost_ || is_sent_;
    is_sent_ = is_heard_ = false;
    static_cast<void>(client_.lost());
  }

  /* How long an address may take to be reached, and to take what is sent. */
  timeval limit() {
    const auto count = static_cast<Milliseconds::rep>(road().addresses.size());
    const Milliseconds share = count == 1 ? patience_ : std::min(patience_ / count, Milliseconds(10000));
    return {static_cast<time_t>(share.count() / 1000), static_cast<suseconds_t>(share.count() % 1000 * 1000 + 1)};
  }

  bool connect() {
    const Road::Address& address = road().addresses[road().next];
    const timeval most = limit();
    addrinfo hints{};
    hints.ai_socktype = SOCK_STREAM;
    addrinfo* found = nullptr;
    if (getaddrinfo(address.host.c_str(), std::to_string(address.port).c_str(), &hints, &found) != 0) return false;
    for (const addrinfo* one = found; one != nullptr && !socket_.is_open(); one = one->ai_next) {
      lemonrudder::detail::Descriptor made(socket(one->ai_family, one->ai_socktype, one->ai_protocol));
      static_cast<void>(made.set(IPPROTO_TCP, TCP_NODELAY));
      setsockopt(made.fd(), SOL_SOCKET, SO_SNDTIMEO, &most, sizeof most);
      if (::connect(made.fd(), one->ai_addr, one->ai_addrlen) == 0) socket_ = std::move(made);
    }
    freeaddrinfo(found);
    return socket_.is_open() && client_.connected(now()).ok();
  }

  bool send_due() {
    std::uint8_t room[4096];
    for (;;) {
      const Count size = client_.output(room);
      if (!size) return false;
      if (*size == 0) return true;
      is_sent_ = true;
      if (!send_all({room, *size})) return false;
      since_ = Clock::now();
    }
  }

  bool send_all(Octets octets) {
    while (!octets.empty()) {
      const ssize_t count = send(socket_.fd(), octets.data(), octets.size(), MSG_NOSIGNAL);
      if (count <= 0) return false;
      octets = octets.from(static_cast<std::size_t>(count));
    }
    return true;
  }

  /* What TRANSIENT left pending is due again: here, if there is no other address. False: it is left for the next. */
  bool resend() {
    std::uint8_t room[1];
    if (!client_.resend(now())) return false;
    if (road().addresses.size() == 1) return true;
    const Count due = client_.output(room);
    if (due && *due == 0) return true;
    is_sent_ = is_heard_ = false;
    return false;
  }

  /* Whether the address that is asked has said nothing for too long, and there is another way: another address, or the
   * one to where a call was led from. */
  bool is_mute() {
    const auto count = static_cast<Milliseconds::rep>(road().addresses.size());
    const Milliseconds most = answer_timeout_.count() == 0 ? patience_ / count : answer_timeout_;
    return is_sent_ && (is_led_ || count > 1) && Clock::now() - since_ >= most;
  }

  /* Takes what comes within so many ms, and answers whether the connection goes on; LR_E_NONE: nothing came. */
  Result<bool> hear(int within) {
    std::uint8_t room[4096];
    pollfd waits{socket_.fd(), POLLIN, 0};
    const int ready = poll(&waits, 1, within);
    if (ready == 0 || (ready < 0 && errno == EINTR)) return Error(LR_E_NONE);
    const ssize_t count = ready < 0 ? -1 : recv(socket_.fd(), room, sizeof room, 0);
    since_ = Clock::now();
    return count > 0 && client_.feed({room, static_cast<std::size_t>(count)}).ok() && client_.is_connected();
  }

  /* Takes what comes, for a while. False where the connection is over, or left for the next address. */
  bool talk() {
    const Result<bool> heard = hear(100);
    return heard.ok() ? *heard : !is_mute() && resend();
  }

  using Clock = std::chrono::steady_clock;
  static constexpr Milliseconds first_delay{20};

  Client client_;
  std::string id_;
  std::int64_t last_ = 0;  // the number of the last call
  Road home_;
  Road led_;  // where the last forward leads, which is of this key, while somebody answers there
  std::string from_;
  bool is_led_ = false;    // the client asks there
  bool is_heard_ = false;  // an answer came on this connection
  bool is_sent_ = false;   // a call was sent on it that is not answered
  bool is_lost_ = false;   // .. and on one before
  std::chrono::milliseconds patience_{60000};
  std::chrono::milliseconds answer_timeout_{0};
  std::uint64_t limit_ = 0;
  Clock::time_point since_;  // when something was sent or came last
  lemonrudder::detail::Descriptor socket_;
};

/* An object, as a client calls it. */
class Stub {
 public:
  /* The object of a key, or of the reference that a caller was made of. The caller outlives it. */
  explicit Stub(Caller& caller) : caller_(&caller), key_(caller.key().text()) {}
  Stub(Caller& caller, Octets key) : caller_(&caller), key_(key.text()) {}
  Caller& _caller() const noexcept { return *caller_; }

 protected:
  template <class Operation, class... Values>
  typename Operation::_outcome _call(const Values&... values) const {
    GrowingWriter out;
    const Done done = Operation::_arguments::write_named(out, Operation::_parameters, values...);
    if (!done) return {done.error(), std::string(Operation::_name) + ": " + out.why()};
    const std::uint64_t expiration = caller_->expiration();
    const auto reply = [&] {
      if (Operation::_is_raw || Operation::_is_oneway)
        return caller_->call_raw({key_, Operation::_name, expiration, out.octets(), out.order(),
                                  Operation::_is_oneway ? Wish::none : Wish::full});
      return caller_->call({key_, Operation::_name, expiration, Operation::_types, out.octets(), out.order()});
    }();
    if (!reply) return reply.error();
    return _ended<Operation>(*reply, typename Operation::_raises());
  }

  /* Calls an operation by the octets of its arguments. */
  Result<Reply> _call_octets(std::string_view name, bool is_oneway, const GrowingWriter& body) const {
    if (const Done done = body.done(); !done) return done.error();
    const Wish wish = is_oneway ? Wish::none : Wish::full;
    return caller_->call_raw({key_, name, caller_->expiration(), body.octets(), body.order(), wish});
  }

 private:
  template <class Operation, class... Raised>
  static typename Operation::_outcome _ended(const Reply& reply, Raises<Raised...>) {
    using Outcome = typename Operation::_outcome;
    Reader in = reply.reader();
    typename Operation::_results::Values results{};
    switch (reply.completion.ended()) {
      case Ended::sent:
        return Operation::_result(std::move(results));
      case Ended::returned: {
        const Done done = Operation::_results::read(in, results);
        if (!done) return done.error();
        if (!in.rest().empty()) return Error(LR_E_VALUE);
        return Operation::_result(std::move(results));
      }
      case Ended::raised: {
        const auto id = in.get_string();
        if (!id) return id.error();
        std::optional<Outcome> found;
        static_cast<void>((_take<Raised>(*id, in, found) || ...));
        return found ? *found : Outcome(Error(LR_E_OUTCOME));
      }
      case Ended::system: {
        SystemRaised raised;
        Done done = String<>::read(in, raised.id);
        if (done) done = ULong::read(in, raised.minor);
        if (done) done = detail::into(in.get_enum(3), raised.completed);
        if (!done) return done.error();
        return Outcome(std::in_place, std::move(raised));
      }
      case Ended::expired:
        return Error(LR_E_EXPIRED);
      default:
        return Error(LR_E_OUTCOME);
    }
  }

  template <class Raised, class Outcome>
  static bool _take(std::string_view id, Reader& in, std::optional<Outcome>& found) {
    if (id != Raised::_id) return false;
    Raised raised{};
    const Done done = Raised::_read(in, raised);
    found = done && in.rest().empty() ? Outcome(std::in_place, std::move(raised))
                                      : Outcome(done ? Error(LR_E_VALUE) : done.error());
    return true;
  }

  Caller* caller_;
  std::string key_;
};

}  // namespace idl
}  // namespace v0_2
}  // namespace lemonrudder

#endif
