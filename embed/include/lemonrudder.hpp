/*
 * lemonrudder.hpp: lemonrudder.h for C++17, in this header alone. What the functions do is said there.
 *
 * Objects own what they hold and free it; they are moved, and not copied. A moved-from object is empty, as one that was
 * made without `open`: its calls answer LR_E_EMPTY. No function throws. What may fail answers a Result, which must be
 * looked at. Octets that go in are lent for the time of a call; a copy that comes out is a std::vector.
 *
 * Its names are written lemonrudder::Server and so on. They stand in an inline namespace, one for each minor version
 * before 1.0 and then for each major one, so that parts of a program that were compiled with two of these do not mix;
 * so a declaration of your own, as `namespace lemonrudder { class Server; }`, is of another class.
 */
#ifndef LEMONRUDDER_HPP
#define LEMONRUDDER_HPP

#include <algorithm>
#include <array>
#include <cassert>
#include <chrono>
#include <cstddef>
#include <cstdint>
#include <initializer_list>
#include <iterator>
#include <new>
#include <optional>
#include <string>
#include <string_view>
#include <type_traits>
#include <utility>
#include <vector>

#if __has_include(<version>)
#include <version>
#endif
#ifdef __cpp_lib_expected
#include <expected>
#endif

#include "lemonrudder.h"

namespace lemonrudder {
inline namespace v0_2 {

/* ---- octets ---- */

namespace detail {

/* Whether values of a type are octets. */
template <class T>
inline constexpr bool is_octet = std::is_same_v<T, std::uint8_t> || std::is_same_v<T, std::byte> ||
                                 std::is_same_v<T, char> || std::is_same_v<T, signed char>;
#ifdef __cpp_char8_t
template <>
inline constexpr bool is_octet<char8_t> = true;
#endif

/* The type of the elements of a contiguous range, which is an array or has data() and size(); else void. */
template <class Range, class = void>
struct Element {
  using type = void;
};
template <class T, std::size_t N>
struct Element<T[N]> {
  using type = T;
};
template <class Range>
struct Element<Range, std::void_t<decltype(static_cast<std::size_t>(std::declval<Range&>().size())),
                                  decltype(std::declval<Range&>().data())>> {
  using type = std::remove_pointer_t<decltype(std::declval<Range&>().data())>;
};
template <class Range>
using ElementOf = typename Element<Range>::type;

/* Whether a range owns its elements, which are gone with it: so does an array, and a range whose elements are const
 * where it is. A view does not. */
template <class Range>
inline constexpr bool owns = !std::is_same_v<ElementOf<Range>, ElementOf<const Range>>;
template <class T, std::size_t N>
inline constexpr bool owns<std::array<T, N>> = true;

/* Whether what a forwarding reference takes owns its elements, and is gone after the expression. */
template <class Range>
inline constexpr bool is_gone = !std::is_reference_v<Range> && owns<std::remove_const_t<Range>>;

/* Whether the elements of a range are lent as octets, or as room. */
template <class Range>
inline constexpr bool is_lent = is_octet<std::remove_cv_t<ElementOf<const Range>>>;
template <class Range>
inline constexpr bool is_room = is_octet<ElementOf<std::remove_reference_t<Range>>> && !is_gone<Range>;

/* Whether a type is an array of characters, as a literal is. */
template <class Range>
inline constexpr bool is_literal = false;
template <std::size_t N>
inline constexpr bool is_literal<char[N]> = true;
#ifdef __cpp_char8_t
template <std::size_t N>
inline constexpr bool is_literal<char8_t[N]> = true;
#endif

/* The same place, as one of octets. */
template <class T>
constexpr const std::uint8_t* octets_at(const T* at) noexcept {
  if constexpr (std::is_same_v<T, std::uint8_t>)
    return at;
  else
    return reinterpret_cast<const std::uint8_t*>(at);
}
template <class T>
constexpr std::uint8_t* room_at(T* at) noexcept {
  if constexpr (std::is_same_v<T, std::uint8_t>)
    return at;
  else
    return reinterpret_cast<std::uint8_t*>(at);
}

}  // namespace detail

/* Octets that are lent: a pointer and a size. Any contiguous range of octets, bytes or characters becomes that: a
 * vector, string, array, view or span. A `const char*`, and an array of `char`, as a literal is, is a text that ends
 * before its first NUL, and has one; what has others is "\0\1"_o, or a pointer and a size. */
class Octets {
 public:
  constexpr Octets() noexcept = default;
  constexpr Octets(const std::uint8_t* data, std::size_t size) noexcept : data_(data), size_(size) {}
  template <class T, std::enable_if_t<detail::is_octet<T>, int> = 0>
  constexpr Octets(const T* data, std::size_t size) noexcept : data_(detail::octets_at(data)), size_(size) {}
  template <class Range, std::enable_if_t<detail::is_lent<Range> && !detail::is_literal<Range>, int> = 0>
  constexpr Octets(const Range& range) noexcept
      : Octets(std::data(range), static_cast<std::size_t>(std::size(range))) {}
  Octets(std::string_view text) noexcept : Octets(text.data(), text.size()) {}
  Octets(const char* text) noexcept : Octets(std::string_view(text)) {}

  constexpr const std::uint8_t* data() const noexcept { return data_; }
  constexpr std::size_t size() const noexcept { return size_; }
  constexpr bool empty() const noexcept { return size_ == 0; }
  constexpr const std::uint8_t* begin() const noexcept { return data_; }
  constexpr const std::uint8_t* end() const noexcept { return data_ + size_; }
  /* The octets from an index on, which is at most the size. */
  constexpr Octets from(std::size_t index) const noexcept { return {data_ + index, size_ - index}; }
  /* The first octets, as many as there are at most. */
  constexpr Octets first(std::size_t count) const noexcept { return {data_, count < size_ ? count : size_}; }
  /* The same octets as a text. */
  std::string_view text() const noexcept { return {reinterpret_cast<const char*>(data_), size_}; }

 private:
  const std::uint8_t* data_ = nullptr;
  std::size_t size_ = 0;
};

inline namespace literals {

/* All octets of a literal, NULs too: "\0\1"_o. */
inline Octets operator""_o(const char* text, std::size_t size) noexcept { return {text, size}; }

}  // namespace literals

/* Room for octets: a pointer and a size. A vector, array or span of octets, bytes or characters becomes that. */
class Room {
 public:
  constexpr Room() noexcept = default;
  constexpr Room(std::uint8_t* data, std::size_t size) noexcept : data_(data), size_(size) {}
  template <class T, std::enable_if_t<detail::is_octet<T>, int> = 0>
  constexpr Room(T* data, std::size_t size) noexcept : data_(detail::room_at(data)), size_(size) {}
  template <class Range, std::enable_if_t<detail::is_room<Range>, int> = 0>
  constexpr Room(Range&& range) noexcept : Room(std::data(range), static_cast<std::size_t>(std::size(range))) {}

  constexpr std::uint8_t* data() const noexcept { return data_; }
  constexpr std::size_t size() const noexcept { return size_; }

 private:
  std::uint8_t* data_ = nullptr;
  std::size_t size_ = 0;
};

/* Types, as octets, which may be written in place: {LR_TYPE_STRING, LR_TYPE_LONG}. */
using Types = std::initializer_list<std::uint8_t>;

/* ---- results ---- */

/* What an operation may answer in place of a value: LR_E_.. */
class Error {
 public:
  constexpr explicit Error(std::int64_t number) noexcept : number_(number) {}
  constexpr std::int64_t number() const noexcept { return number_; }
  const char* text() const noexcept { return lr_strerror(number_); }
  /* As "LR_E_RANGE". */
  const char* name() const noexcept { return lr_error_name(number_); }
  friend constexpr bool operator==(Error one, std::int64_t number) noexcept { return one.number_ == number; }
  friend constexpr bool operator!=(Error one, std::int64_t number) noexcept { return one.number_ != number; }

 private:
  std::int64_t number_;
};

template <class T>
class Result;

namespace detail {

/* What a call answers, and the Result of that. */
template <class Next, class... Values>
using Answer = std::decay_t<std::invoke_result_t<Next, Values...>>;
template <class Change, class... Values>
using Changed = Result<Answer<Change, Values...>>;

/* The Result of what `change` makes of values. */
template <class Change, class... Values>
Changed<Change, Values...> changed(Change&& change, Values&&... values) {
  if constexpr (std::is_void_v<Answer<Change, Values...>>) {
    std::forward<Change>(change)(std::forward<Values>(values)...);
    return {};
  } else {
    return std::forward<Change>(change)(std::forward<Values>(values)...);
  }
}

}  // namespace detail

/* A value, or an error. The value is looked at only where there is one, which assert() checks. Of a Result<bool> only
 * ok() says that: as a condition it could be taken for the value. */
template <class T>
class [[nodiscard]] Result {
 public:
  Result(T value) noexcept : value_(std::move(value)) {}
  Result(Error error) noexcept : error_(error) {}

  bool ok() const noexcept { return value_.has_value(); }
  template <class U = T, std::enable_if_t<!std::is_same_v<U, bool>, int> = 0>
  explicit operator bool() const noexcept {
    return ok();
  }
  T& operator*() & noexcept { return value(); }
  const T& operator*() const& noexcept { return value(); }
  T&& operator*() && noexcept { return std::move(value()); }
  T* operator->() noexcept { return &value(); }
  const T* operator->() const noexcept { return &value(); }
  /* The error, or LR_OK. */
  Error error() const noexcept { return error_; }

  /* The value, or another where there is an error. */
  template <class Other = T>
  T value_or(Other&& other) const& {
    return ok() ? value() : static_cast<T>(std::forward<Other>(other));
  }
  template <class Other = T>
  T value_or(Other&& other) && {
    return ok() ? std::move(value()) : static_cast<T>(std::forward<Other>(other));
  }
  /* What `next` answers to the value, a Result of any type; or the error. */
  template <class Next>
  detail::Answer<Next, const T&> and_then(Next&& next) const& {
    if (!ok()) return error_;
    return std::forward<Next>(next)(value());
  }
  template <class Next>
  detail::Answer<Next, T> and_then(Next&& next) && {
    if (!ok()) return error_;
    return std::forward<Next>(next)(std::move(value()));
  }
  /* What `change` makes of the value, or the error. */
  template <class Change>
  detail::Changed<Change, const T&> transform(Change&& change) const& {
    if (!ok()) return error_;
    return detail::changed(std::forward<Change>(change), value());
  }
  template <class Change>
  detail::Changed<Change, T> transform(Change&& change) && {
    if (!ok()) return error_;
    return detail::changed(std::forward<Change>(change), std::move(value()));
  }
#ifdef __cpp_lib_expected
  operator std::expected<T, Error>() const& {
    if (!ok()) return std::unexpected(error_);
    return value();
  }
  operator std::expected<T, Error>() && {
    if (!ok()) return std::unexpected(error_);
    return std::move(value());
  }
#endif

 private:
  T& value() noexcept {
    assert(ok());
    return *value_;
  }
  const T& value() const noexcept {
    assert(ok());
    return *value_;
  }

  std::optional<T> value_;
  Error error_{LR_OK};
};

/* Nothing, or an error. */
template <>
class [[nodiscard]] Result<void> {
 public:
  Result() noexcept = default;
  Result(Error error) noexcept : error_(error) {}

  bool ok() const noexcept { return error_ == LR_OK; }
  explicit operator bool() const noexcept { return ok(); }
  Error error() const noexcept { return error_; }

  /* What `next` answers, or the error; and what `change` makes, or the error. */
  template <class Next>
  detail::Answer<Next> and_then(Next&& next) const {
    if (!ok()) return error_;
    return std::forward<Next>(next)();
  }
  template <class Change>
  detail::Changed<Change> transform(Change&& change) const {
    if (!ok()) return error_;
    return detail::changed(std::forward<Change>(change));
  }
#ifdef __cpp_lib_expected
  operator std::expected<void, Error>() const {
    if (!ok()) return std::unexpected(error_);
    return {};
  }
#endif

 private:
  Error error_{LR_OK};
};

using Done = Result<void>;
using Count = Result<std::size_t>;

namespace detail {

/* The number of what a setting is set to, where it is. */
template <class Enum>
std::optional<std::uint64_t> setting(std::optional<Enum> value) noexcept {
  return value ? std::optional<std::uint64_t>(static_cast<std::uint32_t>(*value)) : std::nullopt;
}

inline Done done(std::int64_t answer) noexcept { return answer < 0 ? Done(Error(answer)) : Done(); }

inline Result<bool> truth(std::int64_t answer) noexcept {
  if (answer < 0) return Error(answer);
  return answer != 0;
}

inline Count count(std::int64_t answer) noexcept {
  if (answer < 0) return Error(answer);
  return static_cast<std::size_t>(answer);
}

inline Result<std::int64_t> number(std::int64_t answer) noexcept {
  if (answer < 0) return Error(answer);
  return answer;
}

/* Gives a container a size, and answers whether there was memory. (Without exceptions there is no answer where there is
 * none: a container ends the process then.) */
template <class Container>
bool resize(Container& octets, std::size_t size) noexcept {
#ifdef __cpp_exceptions
  try {
    octets.resize(size);
  } catch (...) {
    return false;
  }
#else
  octets.resize(size);
#endif
  return true;
}

/* What most keys, names and contexts fit into. */
inline constexpr std::size_t small_room = 64;

/* All octets of what `copy(room, size)` copies and answers the size of. There are probably so many at most; where that
 * is so, it is asked once. */
template <class Copy>
Result<std::vector<std::uint8_t>> copied(Copy copy, std::uint64_t probably = small_room) noexcept {
  std::vector<std::uint8_t> octets;
  if (!resize(octets, static_cast<std::size_t>(probably))) return Error(LR_E_MEMORY);
  std::int64_t size = copy(octets.data(), octets.size());
  const auto is_more = size > 0 && static_cast<std::size_t>(size) > octets.size();
  if (size >= 0 && !resize(octets, static_cast<std::size_t>(size))) return Error(LR_E_MEMORY);
  if (is_more) size = copy(octets.data(), octets.size());
  if (size < 0) return Error(size);
  return octets;
}

/* What a call wrote of a struct where it answered 1. */
template <class T>
Result<std::optional<T>> found(std::int64_t answer, const T& value) noexcept {
  if (answer < 0) return Error(answer);
  return answer == 0 ? std::optional<T>() : std::optional<T>(value);
}

}  // namespace detail

/* ---- names ---- */

enum class Order : std::uint32_t { big = LR_ORDER_BIG, little = LR_ORDER_LITTLE };

enum class Wish : std::uint32_t { none = LR_WISH_NONE, empty = LR_WISH_EMPTY, full = LR_WISH_FULL };

enum class Part : std::uint32_t {
  key = LR_PART_KEY,
  operation = LR_PART_OPERATION,
  body = LR_PART_BODY,
  client = LR_PART_CLIENT,
  payload = LR_PART_PAYLOAD
};

enum class IorPart : std::uint32_t { data = LR_IOR_DATA, host = LR_IOR_HOST, key = LR_IOR_KEY };

enum class ReplyStatus : std::uint32_t {
  no_exception = LR_REPLY_NO_EXCEPTION,
  user_exception = LR_REPLY_USER_EXCEPTION,
  system_exception = LR_REPLY_SYSTEM_EXCEPTION,
  location_forward = LR_REPLY_LOCATION_FORWARD,
  location_forward_perm = LR_REPLY_LOCATION_FORWARD_PERM,
  needs_addressing_mode = LR_REPLY_NEEDS_ADDRESSING_MODE
};

enum class LocateStatus : std::uint32_t {
  unknown_object = LR_LOCATE_UNKNOWN_OBJECT,
  object_here = LR_LOCATE_OBJECT_HERE,
  object_forward = LR_LOCATE_OBJECT_FORWARD,
  object_forward_perm = LR_LOCATE_OBJECT_FORWARD_PERM,
  system_exception = LR_LOCATE_SYSTEM_EXCEPTION,
  needs_addressing_mode = LR_LOCATE_NEEDS_ADDRESSING_MODE
};

enum class SystemException : std::uint32_t {
  marshal = LR_EX_MARSHAL,
  bad_context = LR_EX_BAD_CONTEXT,
  no_resources = LR_EX_NO_RESOURCES,
  bad_operation = LR_EX_BAD_OPERATION,
  object_not_exist = LR_EX_OBJECT_NOT_EXIST,
  unknown = LR_EX_UNKNOWN,
  bad_param = LR_EX_BAD_PARAM,
  no_permission = LR_EX_NO_PERMISSION,
  imp_limit = LR_EX_IMP_LIMIT,
  internal = LR_EX_INTERNAL,
  transient = LR_EX_TRANSIENT,
  no_memory = LR_EX_NO_MEMORY,
  comm_failure = LR_EX_COMM_FAILURE,
  inv_objref = LR_EX_INV_OBJREF,
  initialize = LR_EX_INITIALIZE,
  no_implement = LR_EX_NO_IMPLEMENT,
  bad_typecode = LR_EX_BAD_TYPECODE,
  no_response = LR_EX_NO_RESPONSE,
  persist_store = LR_EX_PERSIST_STORE,
  bad_inv_order = LR_EX_BAD_INV_ORDER,
  free_mem = LR_EX_FREE_MEM,
  inv_ident = LR_EX_INV_IDENT,
  inv_flag = LR_EX_INV_FLAG,
  intf_repos = LR_EX_INTF_REPOS,
  obj_adapter = LR_EX_OBJ_ADAPTER,
  data_conversion = LR_EX_DATA_CONVERSION,
  transaction_required = LR_EX_TRANSACTION_REQUIRED,
  transaction_rolledback = LR_EX_TRANSACTION_ROLLEDBACK,
  invalid_transaction = LR_EX_INVALID_TRANSACTION,
  inv_policy = LR_EX_INV_POLICY,
  codeset_incompatible = LR_EX_CODESET_INCOMPATIBLE,
  rebind = LR_EX_REBIND,
  timeout = LR_EX_TIMEOUT,
  transaction_unavailable = LR_EX_TRANSACTION_UNAVAILABLE,
  transaction_mode = LR_EX_TRANSACTION_MODE,
  bad_qos = LR_EX_BAD_QOS,
  invalid_activity = LR_EX_INVALID_ACTIVITY,
  activity_completed = LR_EX_ACTIVITY_COMPLETED,
  activity_required = LR_EX_ACTIVITY_REQUIRED,
  thread_cancelled = LR_EX_THREAD_CANCELLED
};

enum class Completed : std::uint32_t { yes = LR_COMPLETED_YES, no = LR_COMPLETED_NO, maybe = LR_COMPLETED_MAYBE };

enum class Ended : std::uint32_t {
  returned = LR_ENDED_RETURNED,
  raised = LR_ENDED_RAISED,
  system = LR_ENDED_SYSTEM,
  forwarded = LR_ENDED_FORWARDED,
  needs_addressing = LR_ENDED_NEEDS_ADDRESSING,
  expired = LR_ENDED_EXPIRED,
  cancelled = LR_ENDED_CANCELLED,
  sent = LR_ENDED_SENT
};

enum class Fault : std::uint32_t {
  none = 0,
  magic = LR_FAULT_MAGIC,
  version = LR_FAULT_VERSION,
  flags = LR_FAULT_FLAGS,
  type = LR_FAULT_TYPE,
  cut = LR_FAULT_CUT,
  too_large = LR_FAULT_TOO_LARGE,
  unaligned_fragment = LR_FAULT_UNALIGNED_FRAGMENT,
  stray_fragment = LR_FAULT_STRAY_FRAGMENT,
  twice_started = LR_FAULT_TWICE_STARTED,
  too_many_partial = LR_FAULT_TOO_MANY_PARTIAL,
  body = LR_FAULT_BODY,
  mixed_order = LR_FAULT_MIXED_ORDER,
  memory = LR_FAULT_MEMORY
};

/* Where a message of GIOP 1.1 may be cut. */
enum class Cuts : std::uint32_t { aligned = LR_CUTS_ALIGNED, anywhere = LR_CUTS_ANYWHERE };

/* Why a connection of a server has ended; `open` where it goes on. */
enum class Why : std::uint32_t {
  open = LR_WHY_OPEN,
  fault_magic = LR_FAULT_MAGIC,
  fault_version = LR_FAULT_VERSION,
  fault_flags = LR_FAULT_FLAGS,
  fault_type = LR_FAULT_TYPE,
  fault_cut = LR_FAULT_CUT,
  fault_too_large = LR_FAULT_TOO_LARGE,
  fault_unaligned_fragment = LR_FAULT_UNALIGNED_FRAGMENT,
  fault_stray_fragment = LR_FAULT_STRAY_FRAGMENT,
  fault_twice_started = LR_FAULT_TWICE_STARTED,
  fault_too_many_partial = LR_FAULT_TOO_MANY_PARTIAL,
  fault_body = LR_FAULT_BODY,
  fault_mixed_order = LR_FAULT_MIXED_ORDER,
  fault_memory = LR_FAULT_MEMORY,
  direction = LR_WHY_DIRECTION,
  goodbye = LR_WHY_GOODBYE,
  error = LR_WHY_ERROR,
  farewell = LR_WHY_FAREWELL,
  given_up = LR_WHY_GIVEN_UP,
  memory = LR_WHY_MEMORY
};

/* What a server counts. */
enum class Counted : std::uint32_t {
  connections = LR_COUNT_CONNECTIONS,
  kept = LR_COUNT_KEPT,
  parked_now = LR_COUNT_PARKED_NOW,
  asked = LR_COUNT_ASKED,
  repeated = LR_COUNT_REPEATED,
  joined = LR_COUNT_JOINED,
  expired = LR_COUNT_EXPIRED,
  malformed = LR_COUNT_MALFORMED,
  invalid = LR_COUNT_INVALID,
  log_full = LR_COUNT_LOG_FULL,
  share_full = LR_COUNT_SHARE_FULL,
  located = LR_COUNT_LOCATED,
  dropped = LR_COUNT_DROPPED,
  answered = LR_COUNT_ANSWERED,
  parked = LR_COUNT_PARKED,
  settled = LR_COUNT_SETTLED,
  given_up = LR_COUNT_GIVEN_UP,
  declined = LR_COUNT_DECLINED,
  withdrawn = LR_COUNT_WITHDRAWN
};

enum class MessageType : std::uint32_t {
  request = LR_MSG_REQUEST,
  reply = LR_MSG_REPLY,
  cancel_request = LR_MSG_CANCEL_REQUEST,
  locate_request = LR_MSG_LOCATE_REQUEST,
  locate_reply = LR_MSG_LOCATE_REPLY,
  close_connection = LR_MSG_CLOSE_CONNECTION,
  message_error = LR_MSG_ERROR,
  fragment = LR_MSG_FRAGMENT
};

/* The ids of some service contexts. */
enum class ContextId : std::uint32_t {
  transaction = LR_CONTEXT_TRANSACTION,
  code_sets = LR_CONTEXT_CODE_SETS,
  ft_request = LR_CONTEXT_FT_REQUEST,
  security = LR_CONTEXT_SECURITY
};

/* Three structs of lemonrudder.h, with functions that answer what some of their numbers are called above. */

/* A request that waits for its outcome. */
struct Request : lr_request {
  Order byte_order() const noexcept { return Order{body_order}; }
  Wish wished() const noexcept { return Wish{wish}; }
  /* What would refuse it (Settings::ask_first). */
  std::optional<SystemException> refused_by() const noexcept {
    return is_refused ? std::optional(SystemException{refusal}) : std::nullopt;
  }
};

/* How a call ended. */
struct Completion : lr_completion {
  Ended ended() const noexcept { return Ended{how}; }
  Order byte_order() const noexcept { return Order{body_order}; }
};

/* A message of a stream. */
struct Message : lr_message {
  MessageType message_type() const noexcept { return MessageType{type}; }
  Order byte_order() const noexcept { return Order{order}; }
  Wish wished() const noexcept { return Wish{wish}; }
  /* Of a Reply, and of a LocateReply. */
  ReplyStatus reply_status() const noexcept { return ReplyStatus{status}; }
  LocateStatus locate_status() const noexcept { return LocateStatus{status}; }
};

/* How long a message may be, how many may be partial at a time, and where one of 1.1 may be cut. */
struct Limits {
  std::uint32_t message = 1 << 20;
  std::uint32_t partials = 4;
  Cuts cuts = Cuts::aligned;
};

/* The moment of a time of the system's clock. */
inline std::uint64_t moment(std::chrono::system_clock::time_point time) noexcept {
  using std::chrono::duration_cast;
  const auto since = time.time_since_epoch();
  const auto seconds = std::chrono::floor<std::chrono::seconds>(since);
  const auto rest = duration_cast<std::chrono::nanoseconds>(since - seconds);
  return lr_moment(static_cast<std::uint64_t>(seconds.count()), static_cast<std::uint32_t>(rest.count()));
}

/* This moment. */
inline std::uint64_t now() noexcept { return moment(std::chrono::system_clock::now()); }

/* ---- objects ---- */

/* A slot of a type of lemonrudder.h, and what it holds. */
template <class Raw>
class Slot {
 public:
  Slot(const Slot&) = delete;
  Slot& operator=(const Slot&) = delete;

  bool is_open() const noexcept { return slot_.kind != 0; }
  void close() noexcept { lr_close(&slot_); }
  /* The slot itself, for the functions of lemonrudder.h. */
  Raw* slot() noexcept { return &slot_; }

 protected:
  Slot() noexcept = default;
  Slot(Slot&& other) noexcept : slot_(std::exchange(other.slot_, Raw LR_INIT)) {}
  Slot& operator=(Slot&& other) noexcept {
    if (this != &other) {
      lr_close(&slot_);
      slot_ = std::exchange(other.slot_, Raw LR_INIT);
    }
    return *this;
  }
  ~Slot() { lr_close(&slot_); }

  /* The object that a call opened, or its error. */
  template <class T>
  static Result<T> opened(std::int64_t answer, T& object) noexcept {
    if (answer < 0) return Error(answer);
    return std::move(object);
  }

 private:
  Raw slot_ = LR_INIT;
};

/* A service context, or a tagged component: its id or tag, and its data. */
struct Tagged {
  std::uint32_t id = 0;
  std::vector<std::uint8_t> data;
};

namespace detail {

/* What `copy(id, room, size)` gives. */
template <class Copy>
Result<Tagged> tagged(Copy copy) noexcept {
  std::uint32_t id = 0;
  auto data = copied([&](std::uint8_t* room, std::size_t size) { return copy(&id, room, size); });
  if (!data) return data.error();
  return Tagged{id, std::move(*data)};
}

}  // namespace detail

/* Which objects and operations a server has. */
class Catalogue : public Slot<lr_catalogue> {
 public:
  static Result<Catalogue> open() noexcept {
    Catalogue made;
    return opened(lr_catalogue_open(made.slot()), made);
  }

  Done object(Octets key) noexcept { return detail::done(lr_catalogue_object(slot(), key.data(), key.size())); }

  Done raw_object(Octets key) noexcept { return detail::done(lr_catalogue_raw_object(slot(), key.data(), key.size())); }

  /* Declares an exception of the operation that is added next. */
  Done exception(Octets id, Octets members) noexcept {
    return detail::done(lr_catalogue_exception(slot(), id.data(), id.size(), members.data(), members.size()));
  }
  Done exception(Octets id, Types members) noexcept { return exception(id, lent(members)); }

  Done operation(Octets key, Octets name, Octets arguments, Octets results) noexcept {
    return detail::done(lr_catalogue_operation(slot(), key.data(), key.size(), name.data(), name.size(),
                                               arguments.data(), arguments.size(), results.data(), results.size()));
  }
  Done operation(Octets key, Octets name, Types arguments, Types results) noexcept {
    return operation(key, name, lent(arguments), lent(results));
  }

  Done raw_operation(Octets key, Octets name) noexcept {
    return detail::done(lr_catalogue_raw_operation(slot(), key.data(), key.size(), name.data(), name.size()));
  }

  /* Names one repository id of an object. */
  Done repository_id(Octets key, const char* id) noexcept {
    return repository_ids(key, std::string_view(id, std::string_view(id).size() + 1));
  }
  /* Names repository ids, with a NUL after each. */
  Done repository_ids(Octets key, Octets ids) noexcept {
    return detail::done(lr_catalogue_repository_ids(slot(), key.data(), key.size(), ids.data(), ids.size()));
  }

  /* Adds an object whose every operation is raw, to which each key leads that leads to no other object. */
  Done default_object() noexcept { return detail::done(lr_catalogue_default(slot())); }
  /* Takes the objects of another catalogue, to which each key leads that begins with theirs. */
  Done families(Catalogue& families) noexcept { return detail::done(lr_catalogue_families(slot(), families.slot())); }
  Done remove(Octets key) noexcept { return detail::done(lr_catalogue_remove(slot(), key.data(), key.size())); }

 private:
  static Octets lent(Types types) noexcept { return {types.begin(), types.size()}; }
};

/* The limits of a server. What is not given is as LR_SET_.. says. */
struct Settings {
  std::optional<std::uint32_t> message = {};
  std::optional<std::uint32_t> partials = {};
  std::optional<std::uint32_t> capacity = {};
  std::optional<std::uint32_t> share = {};
  std::optional<std::uint32_t> parked = {};
  std::optional<std::uint32_t> parked_of_one = {};
  std::optional<std::uint32_t> joined = {};
  std::optional<std::uint64_t> due = {};
  std::optional<std::uint64_t> client_id = {};
  std::optional<bool> ask_first = {};
  std::optional<Cuts> cuts = {};
};

/* Two random numbers, which no client can guess. */
struct Seeds {
  std::uint64_t low;
  std::uint64_t high;
};

/* What became of a request, in the form in which it is stored: the status of its Reply, and the order and the octets of
 * its body, aligned from place 0. */
struct Outcome {
  ReplyStatus status = ReplyStatus::no_exception;
  Order order = Order::big;
  std::vector<std::uint8_t> body = {};
};

/* The connections on which octets became due by the outcomes of parked requests, each named once:
 * `for (auto connection : server.due())`. */
class Due {
 public:
  explicit Due(lr_server* server) noexcept : server_(server) {}

  struct End {};

  class Iterator {
   public:
    using iterator_category = std::input_iterator_tag;
    using value_type = std::uint64_t;
    using difference_type = std::ptrdiff_t;
    using pointer = const std::uint64_t*;
    using reference = const std::uint64_t&;

    explicit Iterator(lr_server* server) noexcept : server_(server) { ++*this; }
    const std::uint64_t& operator*() const noexcept { return connection_; }
    Iterator& operator++() noexcept {
      is_there_ = lr_server_next_due(server_, &connection_) == 1;
      return *this;
    }
    void operator++(int) noexcept { ++*this; }
    friend bool operator==(const Iterator& at, End) noexcept { return !at.is_there_; }
    friend bool operator!=(const Iterator& at, End) noexcept { return at.is_there_; }

   private:
    lr_server* server_;
    std::uint64_t connection_ = 0;
    bool is_there_ = false;
  };

  Iterator begin() const noexcept { return Iterator(server_); }
  End end() const noexcept { return {}; }

 private:
  lr_server* server_;
};

/* A server of requests that may be sent again. */
class Server : public Slot<lr_server> {
 public:
  /* Opens a server of the objects of a catalogue, which is empty afterwards. */
  static Result<Server> open(Catalogue& catalogue, Seeds seeds, const Settings& settings = {}) noexcept {
    Server made;
    std::int64_t answer = lr_server_open(made.slot(), catalogue.slot(), seeds.low, seeds.high);
    if (answer == LR_OK) answer = made.set_all(settings);
    return opened(answer, made);
  }

  /* Sets one limit, LR_SET_.., before the first connection. */
  Done set(std::uint32_t what, std::uint64_t value) noexcept {
    return detail::done(lr_server_set(slot(), what, value));
  }

  Done connect(std::uint64_t connection) noexcept { return detail::done(lr_server_connect(slot(), connection)); }
  Done lost(std::uint64_t connection) noexcept { return detail::done(lr_server_lost(slot(), connection)); }
  /* Says goodbye, behind the replies to those who wait there for the outcome of a parked request, and answers how many
   * these are. */
  Count farewell(std::uint64_t connection) noexcept { return detail::count(lr_server_farewell(slot(), connection)); }
  /* True also of an empty server. */
  bool is_closed(std::uint64_t connection) noexcept { return lr_server_is_closed(slot(), connection) != 0; }
  Result<Why> why(std::uint64_t connection) noexcept {
    const std::int64_t answer = lr_server_why(slot(), connection);
    if (answer < 0) return Error(answer);
    return static_cast<Why>(answer);
  }

  /* Takes octets that came at a moment, and answers how many it took. */
  Count feed(std::uint64_t connection, std::uint64_t moment, Octets octets) noexcept {
    return detail::count(lr_server_feed(slot(), connection, moment, octets.data(), octets.size()));
  }

  /* The request that waits for its outcome, if one does. */
  Result<std::optional<Request>> asked() noexcept {
    Request request{};
    const std::int64_t answer = lr_server_asked(slot(), &request, sizeof(lr_request));
    return detail::found(answer, request);
  }

  /* A part of the request of a ticket, which waits or is parked. */
  Count part(std::uint64_t ticket, Part part, Room room) noexcept {
    return detail::count(
        lr_server_part(slot(), ticket, static_cast<std::uint32_t>(part), room.data(), room.size()));
  }
  Result<std::vector<std::uint8_t>> part(std::uint64_t ticket, Part part) noexcept {
    return detail::copied([&](std::uint8_t* room, std::size_t size) {
      return lr_server_part(slot(), ticket, static_cast<std::uint32_t>(part), room, size);
    });
  }
  /* A service context of the request that waits, counted from 0. */
  Result<Tagged> context(std::uint32_t index) noexcept {
    return detail::tagged([&](std::uint32_t* id, std::uint8_t* room, std::size_t size) {
      return lr_server_context(slot(), index, id, room, size);
    });
  }

  /* Parks the request that waits: it is answered later, by the same ticket. */
  Done park(std::uint64_t ticket) noexcept { return detail::done(lr_server_park(slot(), ticket)); }
  /* How many are parked, and of those that came on a connection. */
  Count parked() noexcept { return detail::count(lr_server_parked(slot())); }
  Count parked_of(std::uint64_t connection) noexcept {
    return detail::count(lr_server_parked_of(slot(), connection));
  }
  /* How many wait for the outcome of a parked request. */
  Count wanted(std::uint64_t ticket) noexcept { return detail::count(lr_server_wanted(slot(), ticket)); }

  /* Each call that answers takes the ticket of a request that waits or is parked. */
  Done answer(std::uint64_t ticket, Order order, Octets results) noexcept {
    return detail::done(
        lr_server_answer(slot(), ticket, static_cast<std::uint32_t>(order), results.data(), results.size()));
  }
  Done raise(std::uint64_t ticket, Octets id, Order order, Octets members) noexcept {
    return detail::done(lr_server_raise(slot(), ticket, id.data(), id.size(), static_cast<std::uint32_t>(order),
                                        members.data(), members.size()));
  }
  /* Answers by a system exception. */
  Done system(std::uint64_t ticket, SystemException name, std::uint32_t minor, Completed completed) noexcept {
    return detail::done(lr_server_system(slot(), ticket, static_cast<std::uint32_t>(name), minor,
                                         static_cast<std::uint32_t>(completed)));
  }
  /* Answers by a status, `no_exception` to `location_forward`, and the body of a Reply. */
  Done answer_raw(std::uint64_t ticket, ReplyStatus status, Order order, Octets body) noexcept {
    return detail::done(lr_server_answer_raw(slot(), ticket, static_cast<std::uint32_t>(status),
                                             static_cast<std::uint32_t>(order), body.data(), body.size()));
  }
  /* Whether `answer` would take these results, before what they say is done. */
  Result<bool> can_answer(std::uint64_t ticket, Order order, Octets results) noexcept {
    const std::int64_t answer = lr_server_can_answer(slot(), ticket, static_cast<std::uint32_t>(order), results.data(),
                                                     results.size());
    if (answer == LR_E_OUTCOME) return false;
    return detail::done(answer).transform([] { return true; });
  }
  /* Results, or an exception that the operation declares, as an outcome to store: nothing is answered. `answer_stored`
   * answers by it later, in another process too. LR_E_OUTCOME: `answer` or `raise` would not take it. */
  Result<Outcome> stored(std::uint64_t ticket, Order order, Octets results) noexcept {
    const auto can = can_answer(ticket, order, results);
    if (!can.ok()) return can.error();
    if (!*can) return Error(LR_E_OUTCOME);
    Outcome outcome{ReplyStatus::no_exception, order};
    if (!detail::resize(outcome.body, results.size())) return Error(LR_E_MEMORY);
    std::copy(results.begin(), results.end(), outcome.body.begin());
    return outcome;
  }
  Result<Outcome> stored_exception(std::uint64_t ticket, Octets id, Order order, Octets members) noexcept {
    auto body = detail::copied(
        [&](std::uint8_t* room, std::size_t size) {
          return lr_server_exception(slot(), ticket, id.data(), id.size(), static_cast<std::uint32_t>(order),
                                     members.data(), members.size(), room, size);
        },
        detail::small_room + id.size() + members.size());
    if (!body) return body.error();
    return Outcome{ReplyStatus::user_exception, order, *std::move(body)};
  }
  Done answer_stored(std::uint64_t ticket, const Outcome& outcome) noexcept {
    return answer_raw(ticket, outcome.status, outcome.order, outcome.body);
  }
  /* .. and keeps nothing: a store of yours does. Where the request comes again, it comes to you again. */
  Done answer_unkept(std::uint64_t ticket, const Outcome& outcome) noexcept {
    return detail::done(lr_server_answer_unkept(slot(), ticket, static_cast<std::uint32_t>(outcome.status),
                                                static_cast<std::uint32_t>(outcome.order), outcome.body.data(),
                                                outcome.body.size()));
  }
  /* Service contexts for the replies that the next answer of a request makes due: a list of them, as in RawCall, in an
   * order; or none. */
  Done reply_contexts(std::uint64_t ticket, Order order, Octets contexts) noexcept {
    return detail::done(lr_server_reply_contexts(slot(), ticket, static_cast<std::uint32_t>(order), contexts.data(),
                                                 contexts.size()));
  }
  /* Answers _is_a and _non_existent: true where that is what it asks. */
  Result<bool> identify(std::uint64_t ticket) noexcept { return detail::truth(lr_server_identify(slot(), ticket)); }
  Done give_up(std::uint64_t ticket) noexcept { return detail::done(lr_server_give_up(slot(), ticket)); }
  /* Refuses it for now, by a system exception with Completed::no; nothing is kept, and its connection stays. */
  Done refuse(std::uint64_t ticket, SystemException name, std::uint32_t minor) noexcept {
    return detail::done(lr_server_refuse(slot(), ticket, static_cast<std::uint32_t>(name), minor));
  }
  /* Gives it up, and says goodbye first: for draining and restarts alone. */
  Done goodbye(std::uint64_t ticket) noexcept { return detail::done(lr_server_goodbye(slot(), ticket)); }

  /* The connections on which octets became due by the outcomes of parked requests; and the next of them, if there is
   * one. */
  Due due() noexcept { return Due(slot()); }
  Result<std::optional<std::uint64_t>> next_due() noexcept {
    std::uint64_t connection = 0;
    const std::int64_t answer = lr_server_next_due(slot(), &connection);
    return detail::found(answer, connection);
  }
  /* Moves octets that are due on a connection into the room, and answers how many. */
  Count output(std::uint64_t connection, Room room) noexcept {
    return detail::count(lr_server_output(slot(), connection, room.data(), room.size()));
  }

  Result<std::int64_t> count(Counted what) noexcept {
    return detail::number(lr_server_count(slot(), static_cast<std::uint32_t>(what)));
  }
  /* How many outcomes are kept of a client. */
  Count held_by(Octets client) noexcept {
    return detail::count(lr_server_held_by(slot(), client.data(), client.size()));
  }
  /* The first expiration of what is kept, if anything is. */
  Result<std::optional<std::uint64_t>> next_expiry() noexcept {
    std::uint64_t moment = 0;
    const std::int64_t answer = lr_server_next_expiry(slot(), &moment);
    return detail::found(answer, moment);
  }
  /* Forgets what expired before a moment. */
  Done tick(std::uint64_t moment) noexcept { return detail::done(lr_server_tick(slot(), moment)); }
  /* Exchanges what is on offer and a catalogue. */
  Done swap(Catalogue& catalogue) noexcept { return detail::done(lr_server_swap(slot(), catalogue.slot())); }

 private:
  std::int64_t set_all(const Settings& settings) noexcept {
    const std::pair<std::uint32_t, std::optional<std::uint64_t>> all[] = {
        {LR_SET_MESSAGE, settings.message},     {LR_SET_PARTIALS, settings.partials},
        {LR_SET_CAPACITY, settings.capacity},   {LR_SET_SHARE, settings.share},
        {LR_SET_PARKED, settings.parked},       {LR_SET_PARKED_OF, settings.parked_of_one},
        {LR_SET_JOINED, settings.joined},       {LR_SET_DUE, settings.due},
        {LR_SET_CLIENT_ID, settings.client_id}, {LR_SET_ASK_FIRST, settings.ask_first},
        {LR_SET_CUTS, detail::setting(settings.cuts)},
    };
    std::int64_t answer = LR_OK;
    for (const auto& [what, value] : all)
      if (answer == LR_OK && value) answer = lr_server_set(slot(), what, *value);
    return answer;
  }
};

/* A call of a client. What it names lives until it is handed in. */
struct Call {
  Octets key;
  Octets operation;
  std::uint64_t expiration;
  Octets types;
  Octets arguments;
  Order order = Order::big;
};

/* A call by a body of octets, written for a place divisible by 8, as GrowingWriter writes it. `contexts` is a list of
 * service contexts in the same order: their count, and of each its id and its octets; or nothing. */
struct RawCall {
  Octets key;
  Octets operation;
  std::uint64_t expiration;
  Octets body = {};
  Order order = Order::big;
  Wish wish = Wish::full;
  Octets contexts = {};
};

/* What a client is set to. What is not given is as LR_CLIENT_.. says. */
struct ClientSettings {
  std::optional<bool> keep_transient = {};
  std::optional<bool> keep_forward = {};
  std::optional<std::uint32_t> version = {};
  std::optional<std::uint32_t> message = {};
  std::optional<std::uint32_t> partials = {};
  std::optional<Cuts> cuts = {};
};

/* A client that sends its calls again. */
class Client : public Slot<lr_client> {
 public:
  static Result<Client> open(Octets id, const ClientSettings& settings = {}) noexcept {
    Client made;
    std::int64_t answer = lr_client_open(made.slot(), id.data(), id.size());
    if (answer == LR_OK) answer = made.set_all(settings);
    return opened(answer, made);
  }

  Done connected(std::uint64_t now) noexcept { return detail::done(lr_client_connected(slot(), now)); }
  Done lost() noexcept { return detail::done(lr_client_lost(slot())); }
  bool is_connected() noexcept { return lr_client_is_connected(slot()) == 1; }
  /* Sets LR_CLIENT_... */
  Done set(std::uint32_t what, std::uint64_t value) noexcept {
    return detail::done(lr_client_set(slot(), what, value));
  }
  /* Whether TRANSIENT leaves calls pending from now on, or a forward. */
  Done keep_transient(bool keeps) noexcept {
    return detail::done(lr_client_set(slot(), LR_CLIENT_KEEP_TRANSIENT, keeps));
  }
  Done keep_forward(bool keeps) noexcept { return detail::done(lr_client_set(slot(), LR_CLIENT_KEEP_FORWARD, keeps)); }

  /* Calls an operation, and answers the number of the call. */
  Result<std::int64_t> call(std::uint64_t now, const Call& call) noexcept {
    return detail::number(lr_client_call(slot(), now, call.expiration, call.key.data(), call.key.size(),
                                         call.operation.data(), call.operation.size(), call.types.data(),
                                         call.types.size(), static_cast<std::uint32_t>(call.order),
                                         call.arguments.data(), call.arguments.size()));
  }
  /* Takes a call of before up again, under its number. */
  Done recall(std::int64_t number, std::uint64_t now, const Call& call) noexcept {
    return detail::done(lr_client_recall(slot(), number, now, call.expiration, call.key.data(), call.key.size(),
                                         call.operation.data(), call.operation.size(), call.types.data(),
                                         call.types.size(), static_cast<std::uint32_t>(call.order),
                                         call.arguments.data(), call.arguments.size()));
  }
  /* Calls an operation by a body of octets; and takes such a call of before up again. */
  Result<std::int64_t> call_raw(std::uint64_t now, const RawCall& call) noexcept {
    return detail::number(lr_client_call_raw(
        slot(), now, call.expiration, static_cast<std::uint32_t>(call.wish), call.key.data(), call.key.size(),
        call.operation.data(), call.operation.size(), static_cast<std::uint32_t>(call.order), call.contexts.data(),
        call.contexts.size(), call.body.data(), call.body.size()));
  }
  Done recall_raw(std::int64_t number, std::uint64_t now, const RawCall& call) noexcept {
    return detail::done(lr_client_recall_raw(
        slot(), number, now, call.expiration, static_cast<std::uint32_t>(call.wish), call.key.data(), call.key.size(),
        call.operation.data(), call.operation.size(), static_cast<std::uint32_t>(call.order), call.contexts.data(),
        call.contexts.size(), call.body.data(), call.body.size()));
  }
  /* Numbers up to this one were used before. */
  Done skip_to(std::int64_t number) noexcept { return detail::done(lr_client_skip_to(slot(), number)); }
  /* Sends what is pending and was not sent on this connection. */
  Done resend(std::uint64_t now) noexcept { return detail::done(lr_client_resend(slot(), now)); }

  /* The first call that is led elsewhere, if there is one, and as much of the reference to which as the room has. */
  Result<std::optional<Completion>> forwarded(Room room) noexcept {
    Completion completion{};
    const std::int64_t answer =
        lr_client_forwarded(slot(), &completion, sizeof(lr_completion), room.data(), room.size());
    return detail::found(answer, completion);
  }
  /* Asks for it by the key of a call that asks the same, whose expiration counts for nothing here. */
  Done redirect(std::int64_t number, const Call& call) noexcept {
    return detail::done(lr_client_redirect(slot(), number, call.key.data(), call.key.size(), call.operation.data(),
                                           call.operation.size(), call.types.data(), call.types.size(),
                                           static_cast<std::uint32_t>(call.order), call.arguments.data(),
                                           call.arguments.size()));
  }
  Done redirect_raw(std::int64_t number, const RawCall& call) noexcept {
    return detail::done(lr_client_redirect_raw(
        slot(), number, static_cast<std::uint32_t>(call.wish), call.key.data(), call.key.size(), call.operation.data(),
        call.operation.size(), static_cast<std::uint32_t>(call.order), call.contexts.data(), call.contexts.size(),
        call.body.data(), call.body.size()));
  }

  /* Cancels a call, and answers whether it was pending. */
  Result<bool> cancel(std::int64_t call) noexcept { return detail::truth(lr_client_cancel(slot(), call)); }
  Done tick(std::uint64_t now) noexcept { return detail::done(lr_client_tick(slot(), now)); }
  Done feed(Octets octets) noexcept { return detail::done(lr_client_feed(slot(), octets.data(), octets.size())); }

  /* The next completion, if there is one. */
  Result<std::optional<Completion>> completed() noexcept {
    Completion completion{};
    const std::int64_t answer = lr_client_completed(slot(), &completion, sizeof(lr_completion));
    if (answer == 1) body_size_ = completion.body_size;
    return detail::found(answer, completion);
  }
  /* The body of the completion that was taken last. */
  Count body(Room room) noexcept { return detail::count(lr_client_body(slot(), room.data(), room.size())); }
  Result<std::vector<std::uint8_t>> body() noexcept {
    const auto copy = [&](std::uint8_t* room, std::size_t size) { return lr_client_body(slot(), room, size); };
    return detail::copied(copy, body_size_);
  }

  Count output(Room room) noexcept { return detail::count(lr_client_output(slot(), room.data(), room.size())); }

 private:
  std::int64_t set_all(const ClientSettings& settings) noexcept {
    const std::pair<std::uint32_t, std::optional<std::uint64_t>> all[] = {
        {LR_CLIENT_KEEP_TRANSIENT, settings.keep_transient}, {LR_CLIENT_KEEP_FORWARD, settings.keep_forward},
        {LR_CLIENT_VERSION, settings.version},               {LR_CLIENT_MESSAGE, settings.message},
        {LR_CLIENT_PARTIALS, settings.partials},             {LR_CLIENT_CUTS, detail::setting(settings.cuts)},
    };
    std::int64_t answer = LR_OK;
    for (const auto& [what, value] : all)
      if (answer == LR_OK && value) answer = lr_client_set(slot(), what, *value);
    return answer;
  }

  std::uint64_t body_size_ = 0;  // of the completion that was taken last
};

/* The messages of a stream. */
class Assembler : public Slot<lr_assembler> {
 public:
  static Result<Assembler> open(Limits limits) noexcept {
    Assembler made;
    const auto cuts = static_cast<std::uint32_t>(limits.cuts);
    return opened(lr_assembler_open_cuts(made.slot(), limits.message, limits.partials, cuts), made);
  }

  /* Takes octets up to the end of the next message, and answers how many. */
  Count feed(Octets octets) noexcept { return detail::count(lr_assembler_feed(slot(), octets.data(), octets.size())); }
  /* The first fault of the stream, or `none`. */
  Result<Fault> fault() noexcept {
    const std::int64_t answer = lr_assembler_fault(slot());
    if (answer < 0) return Error(answer);
    return static_cast<Fault>(answer);
  }

  /* The message that was completed last, if one was. */
  Result<std::optional<Message>> message() noexcept {
    Message message{};
    const std::int64_t answer = lr_assembler_message(slot(), &message, sizeof(lr_message));
    return detail::found(answer, message);
  }

  Count part(Part part, Room room) noexcept {
    return detail::count(lr_assembler_part(slot(), static_cast<std::uint32_t>(part), room.data(), room.size()));
  }
  Result<std::vector<std::uint8_t>> part(Part part) noexcept {
    lr_message message{};
    lr_assembler_message(slot(), &message, sizeof message);
    const auto copy = [&](std::uint8_t* room, std::size_t size) {
      return lr_assembler_part(slot(), static_cast<std::uint32_t>(part), room, size);
    };
    std::uint64_t probably = detail::small_room;
    if (part == Part::body) probably = message.body_size;
    if (part == Part::payload) probably = message.payload_size;
    return detail::copied(copy, probably);
  }
  /* A service context of that message, counted from 0. */
  Result<Tagged> context(std::uint32_t index) noexcept {
    return detail::tagged([&](std::uint32_t* id, std::uint8_t* room, std::size_t size) {
      return lr_assembler_context(slot(), index, id, room, size);
    });
  }
};

/* A reference to an object. */
class Ior : public Slot<lr_ior> {
 public:
  static Result<Ior> parse(std::string_view text) noexcept {
    Ior made;
    return opened(lr_ior_parse(made.slot(), text.data(), text.size()), made);
  }

  static Result<Ior> iiop(Octets type_id, std::uint32_t minor, Octets host, std::uint16_t port, Octets key) noexcept {
    Ior made;
    return opened(lr_ior_iiop(made.slot(), type_id.data(), type_id.size(), minor, host.data(), host.size(), port,
                              key.data(), key.size()),
                  made);
  }

  /* The stringified form. */
  Result<std::string> print() noexcept {
    std::string text;
    for (std::size_t size = 1024;; size *= 2) {
      if (!detail::resize(text, size)) return Error(LR_E_MEMORY);
      const std::int64_t answer = lr_ior_print(slot(), text.data(), text.size());
      if (answer == LR_E_ROOM) continue;
      if (answer < 0) return Error(answer);
      text.resize(static_cast<std::size_t>(answer));
      return text;
    }
  }

  Result<std::vector<std::uint8_t>> type_id() noexcept {
    return detail::copied([&](std::uint8_t* room, std::size_t size) { return lr_ior_type_id(slot(), room, size); });
  }
  Count profiles() noexcept { return detail::count(lr_ior_profiles(slot())); }

  Result<lr_profile> profile(std::uint32_t index) noexcept {
    lr_profile profile{};
    const std::int64_t answer = lr_ior_profile(slot(), index, &profile, sizeof profile);
    if (answer < 0) return Error(answer);
    return profile;
  }
  Result<std::vector<std::uint8_t>> part(std::uint32_t index, IorPart part) noexcept {
    return detail::copied([&](std::uint8_t* room, std::size_t size) {
      return lr_ior_part(slot(), index, static_cast<std::uint32_t>(part), room, size);
    });
  }
  Result<Tagged> component(std::uint32_t index, std::uint32_t component) noexcept {
    return detail::tagged([&](std::uint32_t* tag, std::uint8_t* room, std::size_t size) {
      return lr_ior_component(slot(), index, component, tag, room, size);
    });
  }
};

/* ---- CDR ---- */

namespace detail {

/* How many octets align what stands at a place. */
inline std::size_t padding(std::uint64_t at, std::size_t alignment) noexcept {
  return static_cast<std::size_t>((alignment - at % alignment) % alignment);
}

}  // namespace detail

/* Reads values one after another. At an error it stands where it stood. It owns nothing, and may be copied. */
class Reader {
 public:
  /* Numbers are aligned from `at`, the place of the first octet: 0 for an encapsulation, body_at for a body. */
  explicit Reader(Octets octets, Order order = Order::big, std::uint64_t at = 0) noexcept
      : Reader(octets, lr_place{at, 0, static_cast<std::uint32_t>(order), 0}) {}
  /* A vector, string or array that is gone before it is read. */
  template <class Owner, std::enable_if_t<detail::is_gone<Owner>, int> = 0>
  explicit Reader(Owner&& octets, Order order = Order::big, std::uint64_t at = 0) = delete;

  Result<std::uint8_t> get_octet() noexcept { return get<std::uint8_t>(lr_get_octet); }
  Result<std::uint8_t> get_char() noexcept { return get<std::uint8_t>(lr_get_char); }
  Result<std::int16_t> get_short() noexcept { return get<std::int16_t>(lr_get_short); }
  Result<std::uint16_t> get_ushort() noexcept { return get<std::uint16_t>(lr_get_ushort); }
  Result<std::int32_t> get_long() noexcept { return get<std::int32_t>(lr_get_long); }
  Result<std::uint32_t> get_ulong() noexcept { return get<std::uint32_t>(lr_get_ulong); }
  Result<std::int64_t> get_longlong() noexcept { return get<std::int64_t>(lr_get_longlong); }
  Result<std::uint64_t> get_ulonglong() noexcept { return get<std::uint64_t>(lr_get_ulonglong); }
  Result<float> get_float() noexcept { return get<float>(lr_get_float); }
  Result<double> get_double() noexcept { return get<double>(lr_get_double); }
  Result<bool> get_boolean() noexcept {
    const auto value = get<std::uint8_t>(lr_get_boolean);
    return value ? Result<bool>(*value != 0) : value.error();
  }

  /* One of so many names of an enum, counted from 0. LR_E_VALUE. */
  Result<std::uint32_t> get_enum(std::uint32_t names) noexcept {
    const lr_place before = place_;
    const auto number = get_ulong();
    if (!number || *number < names) return number;
    place_ = before;
    return Error(LR_E_VALUE);
  }
  /* How many elements of a sequence follow. LR_E_SHORT where fewer octets are left than that. */
  Count get_count() noexcept {
    const lr_place before = place_;
    const auto number = get_ulong();
    if (!number) return number.error();
    if (*number <= rest().size()) return static_cast<std::size_t>(*number);
    place_ = before;
    return Error(LR_E_SHORT);
  }

  /* A string without its NUL, and a sequence of octets: both are lent from what is read. */
  Result<std::string_view> get_string() noexcept {
    const auto found = lent(lr_get_string);
    return found ? Result<std::string_view>(found->text()) : found.error();
  }
  Result<Octets> get_octets() noexcept { return lent(lr_get_octets); }

  /* A reader of the octets of an encapsulation. */
  Result<Reader> get_encapsulation() noexcept {
    std::uint64_t start = 0;
    std::uint64_t length = 0;
    lr_place inner{};
    const std::int64_t answer = lr_get_encapsulation(octets_.data(), octets_.size(), &place_, &start, &length, &inner);
    if (answer < 0) return Error(answer);
    return Reader(octets_.from(start).first(length), inner);
  }

  /* So many octets as they are, which are aligned as a number of so many. */
  Result<Octets> get_raw(std::size_t size, std::size_t alignment = 1) noexcept {
    const std::size_t left = rest().size(), padding = detail::padding(at(), alignment);
    if (padding > left || size > left - padding) return Error(LR_E_SHORT);
    const Octets found = rest().from(padding).first(size);
    place_.next += padding + size;
    return found;
  }

  /* What was not read, its order, and the place of its first octet. */
  Octets rest() const noexcept { return octets_.from(place_.next); }
  Order order() const noexcept { return Order{place_.order}; }
  std::uint64_t at() const noexcept { return place_.at + place_.next; }

  /* How much memory may be taken for what is read, as by lemonrudder_idl.hpp, in octets: in a new one 65536, and 16
   * times as many as it has octets. */
  void limit(std::uint64_t octets) noexcept { left_ = octets; }
  /* Takes so much of it. LR_E_VALUE where so much is not left. */
  Done claim(std::uint64_t octets) noexcept {
    if (octets > left_) return Error(LR_E_VALUE);
    left_ -= octets;
    return {};
  }

 private:
  Reader(Octets octets, lr_place place) noexcept
      : octets_(octets), place_(place), left_(65536 + std::uint64_t{16} * octets.size()) {}

  template <class T, class Get>
  Result<T> get(Get of_octets) noexcept {
    T value{};
    const std::int64_t answer = of_octets(octets_.data(), octets_.size(), &place_, &value);
    if (answer < 0) return Error(answer);
    return value;
  }

  template <class Get>
  Result<Octets> lent(Get of_octets) noexcept {
    std::uint64_t start = 0;
    std::uint64_t length = 0;
    const std::int64_t answer = of_octets(octets_.data(), octets_.size(), &place_, &start, &length);
    if (answer < 0) return Error(answer);
    return octets_.from(start).first(length);
  }

  Octets octets_;
  lr_place place_;
  std::uint64_t left_;
};

namespace detail {

/* The greatest length of a text, or of a sequence. */
inline constexpr std::uint64_t most = 0xffffffff;

}  // namespace detail

/* Writes values one after another into room. At an error it stands where it stood. */
class Writer {
 public:
  explicit Writer(Room room, Order order = Order::big, std::uint64_t at = 0) noexcept
      : room_(room), place_{at, 0, static_cast<std::uint32_t>(order), 0} {}

  Done put_octet(std::uint8_t value) noexcept { return put(lr_put_octet, value); }
  Done put_char(std::uint8_t value) noexcept { return put(lr_put_char, value); }
  Done put_boolean(bool value) noexcept { return put(lr_put_boolean, static_cast<std::uint8_t>(value)); }
  Done put_short(std::int16_t value) noexcept { return put(lr_put_short, value); }
  Done put_ushort(std::uint16_t value) noexcept { return put(lr_put_ushort, value); }
  Done put_long(std::int32_t value) noexcept { return put(lr_put_long, value); }
  Done put_ulong(std::uint32_t value) noexcept { return put(lr_put_ulong, value); }
  Done put_longlong(std::int64_t value) noexcept { return put(lr_put_longlong, value); }
  Done put_ulonglong(std::uint64_t value) noexcept { return put(lr_put_ulonglong, value); }
  Done put_float(float value) noexcept { return put(lr_put_float, value); }
  Done put_double(double value) noexcept { return put(lr_put_double, value); }
  /* The name of an enum, counted from 0. */
  Done put_enum(std::uint32_t number) noexcept { return put_ulong(number); }
  template <class Enum, std::enable_if_t<std::is_enum_v<Enum>, int> = 0>
  Done put_enum(Enum name) noexcept {
    return put_ulong(static_cast<std::uint32_t>(name));
  }
  /* How many elements of a sequence follow. */
  Done put_count(std::size_t count) noexcept {
    return count > detail::most ? Done(Error(LR_E_LONG)) : put_ulong(static_cast<std::uint32_t>(count));
  }
  Done put_string(std::string_view text) noexcept {
    return detail::done(lr_put_string(room_.data(), room_.size(), &place_, text.data(), text.size()));
  }
  Done put_octets(Octets data) noexcept {
    return detail::done(lr_put_octets(room_.data(), room_.size(), &place_, data.data(), data.size()));
  }

  /* What was written. */
  Octets octets() const noexcept { return {room_.data(), static_cast<std::size_t>(place_.next)}; }

 private:
  template <class Put, class T>
  Done put(Put into_room, T value) noexcept {
    return detail::done(into_room(room_.data(), room_.size(), &place_, value));
  }

  Room room_;
  lr_place place_;
};

/* Writes values one after another into octets of its own, which grow, aligned from place 0. The first error is kept,
 * and nothing is written after it: so it is enough to look once, at done() or take(), after the last value. */
class GrowingWriter {
 public:
  explicit GrowingWriter(Order order = Order::big) noexcept : place_{0, 0, static_cast<std::uint32_t>(order), 0} {}
  GrowingWriter(const GrowingWriter&) = delete;
  GrowingWriter& operator=(const GrowingWriter&) = delete;
  GrowingWriter(GrowingWriter&& other) noexcept
      : octets_(std::move(other.octets_)), place_(other.place_), error_(other.error_), why_(std::move(other.why_)) {
    other.clear();
  }
  GrowingWriter& operator=(GrowingWriter&& other) noexcept {
    if (this != &other) {
      octets_ = std::exchange(other.octets_, {});
      place_ = other.place_;
      error_ = other.error_;
      why_ = std::exchange(other.why_, {});
      other.clear();
    }
    return *this;
  }
  ~GrowingWriter() = default;

  GrowingWriter& put_octet(std::uint8_t value) noexcept { return put(lr_put_octet, value); }
  GrowingWriter& put_char(std::uint8_t value) noexcept { return put(lr_put_char, value); }
  GrowingWriter& put_boolean(bool value) noexcept { return put(lr_put_boolean, static_cast<std::uint8_t>(value)); }
  GrowingWriter& put_short(std::int16_t value) noexcept { return put(lr_put_short, value); }
  GrowingWriter& put_ushort(std::uint16_t value) noexcept { return put(lr_put_ushort, value); }
  GrowingWriter& put_long(std::int32_t value) noexcept { return put(lr_put_long, value); }
  GrowingWriter& put_ulong(std::uint32_t value) noexcept { return put(lr_put_ulong, value); }
  GrowingWriter& put_longlong(std::int64_t value) noexcept { return put(lr_put_longlong, value); }
  GrowingWriter& put_ulonglong(std::uint64_t value) noexcept { return put(lr_put_ulonglong, value); }
  GrowingWriter& put_float(float value) noexcept { return put(lr_put_float, value); }
  GrowingWriter& put_double(double value) noexcept { return put(lr_put_double, value); }
  /* The name of an enum, counted from 0. */
  GrowingWriter& put_enum(std::uint32_t number) noexcept { return put_ulong(number); }
  template <class Enum, std::enable_if_t<std::is_enum_v<Enum>, int> = 0>
  GrowingWriter& put_enum(Enum name) noexcept {
    return put_ulong(static_cast<std::uint32_t>(name));
  }
  /* How many elements of a sequence follow. */
  GrowingWriter& put_count(std::size_t count) noexcept {
    return count > detail::most ? failed(LR_E_LONG) : put_ulong(static_cast<std::uint32_t>(count));
  }
  GrowingWriter& put_string(std::string_view text) noexcept { return put_all(lr_put_string, text.data(), text.size()); }
  GrowingWriter& put_octets(Octets data) noexcept { return put_all(lr_put_octets, data.data(), data.size()); }
  /* Octets as they are, aligned as a number of so many. */
  GrowingWriter& put_raw(Octets data, std::size_t alignment = 1) noexcept {
    const std::size_t padding = detail::padding(at(), alignment);
    if (!grow(data.size())) return *this;
    std::uint8_t* const to = octets_.data() + place_.next;
    std::fill_n(to, padding, std::uint8_t{0});
    std::copy(data.begin(), data.end(), to + padding);
    place_.next += padding + data.size();
    return *this;
  }

  /* Nothing, or the first error. */
  Done done() const noexcept { return error_; }
  Order order() const noexcept { return Order{place_.order}; }
  /* The place of what is written next. */
  std::uint64_t at() const noexcept { return place_.at + place_.next; }
  /* What was written, as long as nothing more is. */
  Octets octets() const noexcept { return {octets_.data(), static_cast<std::size_t>(place_.next)}; }
  /* The same to keep, or the first error. It begins anew then. */
  Result<std::vector<std::uint8_t>> take() noexcept {
    if (const Done all = done(); !all) {
      clear();
      return all.error();
    }
    octets_.resize(static_cast<std::size_t>(place_.next));
    clear();
    return std::exchange(octets_, {});
  }
  /* Begins anew, over the room that it has. */
  void clear() noexcept {
    place_.next = 0;
    error_ = Error(LR_OK);
    why_.clear();
  }

  /* Why a value is not written, in a line, where one was refused; and what lemonrudder_idl.hpp says it by: a value is
   * refused, in what has a name. */
  const std::string& why() const noexcept { return why_; }
  Error refuse(std::string why, std::int64_t error = LR_E_RANGE) {
    why_ = std::move(why);
    return Error(error);
  }
  Done within(std::string_view name, Done done) {
    if (!done) why_ = std::string(name) + ": " + (why_.empty() ? done.error().text() : why_);
    return done;
  }

 private:
  GrowingWriter& failed(std::int64_t error) noexcept {
    if (done()) error_ = Error(error);
    return *this;
  }

  /* Makes room for so many octets, and what aligns them, if nothing failed before. */
  bool grow(std::size_t size) noexcept {
    if (!done()) return false;
    const std::size_t wanted = static_cast<std::size_t>(place_.next) + 8 + size;
    if (wanted <= octets_.size() || detail::resize(octets_, wanted + octets_.size())) return true;
    failed(LR_E_MEMORY);
    return false;
  }

  template <class Put, class... Values>
  GrowingWriter& put_within(std::size_t size, Put into_room, Values... values) noexcept {
    if (!grow(size)) return *this;
    const std::int64_t answer = into_room(octets_.data(), octets_.size(), &place_, values...);
    return answer < 0 ? failed(answer) : *this;
  }
  template <class Put, class T>
  GrowingWriter& put(Put into_room, T value) noexcept {
    return put_within(sizeof value, into_room, value);
  }
  template <class Put, class T>
  GrowingWriter& put_all(Put into_room, const T* data, std::size_t size) noexcept {
    return size > detail::most ? failed(LR_E_LONG) : put_within(size, into_room, data, size);
  }

  std::vector<std::uint8_t> octets_;
  lr_place place_;
  Error error_{LR_OK};
  std::string why_;
};

/* ---- writing messages ---- */

/* What stands at the head of a message. */
struct Head {
  std::uint32_t version = 2;
  Order order = Order::big;
  std::uint32_t request_id = 0;
};

/* A service context that is written. */
struct Context {
  std::uint32_t id = 0;
  Octets data;
};

/* Each writes a whole message into the room, and answers its size. */
inline Count write_request(Room room, Head head, Wish wish, Octets key, Octets operation, Octets body,
                           Context context = {}) noexcept {
  return detail::count(lr_write_request(room.data(), room.size(), head.version, static_cast<std::uint32_t>(head.order),
                                        head.request_id, static_cast<std::uint32_t>(wish), key.data(), key.size(),
                                        operation.data(), operation.size(), context.id, context.data.data(),
                                        context.data.size(), body.data(), body.size()));
}

inline Count write_reply(Room room, Head head, ReplyStatus status, Octets body) noexcept {
  return detail::count(lr_write_reply(room.data(), room.size(), head.version, static_cast<std::uint32_t>(head.order),
                                      head.request_id, static_cast<std::uint32_t>(status), body.data(), body.size()));
}

inline Count write_cancel(Room room, Head head) noexcept {
  return detail::count(
      lr_write_cancel(room.data(), room.size(), head.version, static_cast<std::uint32_t>(head.order), head.request_id));
}

inline Count write_locate_request(Room room, Head head, Octets key) noexcept {
  return detail::count(lr_write_locate_request(room.data(), room.size(), head.version,
                                               static_cast<std::uint32_t>(head.order), head.request_id, key.data(),
                                               key.size()));
}

/* Without a body, so `unknown_object` or `object_here`. */
inline Count write_locate_reply(Room room, Head head, LocateStatus status) noexcept {
  return detail::count(lr_write_locate_reply(room.data(), room.size(), head.version,
                                             static_cast<std::uint32_t>(head.order), head.request_id,
                                             static_cast<std::uint32_t>(status)));
}

inline Count write_close(Room room) noexcept { return detail::count(lr_write_close(room.data(), room.size())); }

inline Count write_error(Room room) noexcept { return detail::count(lr_write_error(room.data(), room.size())); }

/* The data of an FT_REQUEST context. */
inline Count write_ft(Room room, Order order, Octets client, std::int32_t retention_id,
                      std::uint64_t expiration) noexcept {
  return detail::count(lr_write_ft(room.data(), room.size(), static_cast<std::uint32_t>(order), client.data(),
                                   client.size(), retention_id, expiration));
}

}  // namespace v0_2
}  // namespace lemonrudder

#endif
