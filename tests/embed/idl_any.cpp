// The box of tests/embed/idl_any_test.py in C++: a server, and a client of a box, whose anys another box judges.
#include <csignal>
#include <iostream>

#include "box_idl.hpp"

namespace lr = lemonrudder;
using lr::idl::Any;

namespace {

/* Has a function take the value of each basic type, or of the one of a name. */
template <class Take>
void each_basic(Take take) {
  take("boolean", true);
  take("char", 'x');
  take("octet", std::uint8_t{200});
  take("short", std::int16_t{-5});
  take("ushort", std::uint16_t{65000});
  take("long", std::int32_t{-70000});
  take("ulong", std::uint32_t{4000000000});
  take("longlong", std::int64_t{-5000000000});
  take("ulonglong", std::uint64_t{10000000000000000000U});
  take("float", 0.5F);
  take("double", -0.375);
  take("string", std::string("a text"));
}

Any made(const std::string& name) {
  Any found;
  each_basic([&](const char* its, const auto& value) {
    if (name == its) found = *Any::of(value);
  });
  return found;
}

/* Whether an any has a value, and of no other type. */
bool is_of(const std::string& name, const Any& one) {
  int count = 0, others = 0;
  each_basic([&](const char* its, const auto& value) {
    const auto found = one.value<std::decay_t<decltype(value)>>();
    count += name == its && found.ok() && *found == value;
    others += name != its && found.ok();
  });
  return count == 1 && others == 0;
}

class Own : public POA_Pass::Box {
 public:
  using Ops = Pass::Box::_ops;
  lr::Done known(lr::idl::Asking<Ops::known>& call, bool) override {
    Pass::Names names;
    each_basic([&](const char* name, const auto&) { names.emplace_back(name); });
    return call.answer(names);
  }
  lr::Done make(lr::idl::Asking<Ops::make>& call, const std::string& name) override { return call.answer(made(name)); }
  lr::Done check(lr::idl::Asking<Ops::check>& call, const std::string& name, const Any& one) override {
    return call.answer(is_of(name, one));
  }
  lr::Done turn(lr::idl::Asking<Ops::turn>& call, const Any& one, const Any& two) override {
    return call.answer(one, two, one);
  }
  lr::Done hold(lr::idl::Asking<Ops::hold>& call, const Pass::Held& one) override { return call.answer(one); }
  lr::Done pick(lr::idl::Asking<Ops::pick>& call, const Pass::Either& one) override { return call.answer(one); }
  lr::Done fail(lr::idl::Asking<Ops::fail>& call, std::uint8_t why, const Any& what) override {
    return call.raise(Pass::Bad{why, what});
  }
  lr::Done kept(lr::idl::Asking<Ops::_get_kept>& call) override { return call.answer(kept_); }
  lr::Done kept(lr::idl::Asking<Ops::_set_kept>& call, const Any& value) override {
    kept_ = value;
    return call.answer();
  }

 private:
  Any kept_;
};

int serve() {
  Own own;
  lr::Loop loop;
  if (!own._offer(loop, "box") || !loop.open() || loop.listen("127.0.0.1", 0) || loop.stop_at(SIGTERM)) return 1;
  std::cout << *loop.reference("box") << std::endl;
  return loop.serve() ? 1 : 0;
}

/* What comes back of an any. */
std::vector<Any> passed(const Pass::Box& box, const Any& one) {
  const auto turned = box.turn(one, one);
  const auto held = box.hold({3, one, {one, one}});
  Pass::Either either;
  either.one(one);
  const auto picked = box.pick(either);
  const auto failed = box.fail(7, one);
  const auto* const bad = failed.raised<Pass::Bad>();
  if (!turned.ok() || !held.ok() || held->more.size() != 2 || !picked.ok() || picked->one() == nullptr) return {};
  if (bad == nullptr || bad->why != 7 || !box.kept(one).ok()) return {};
  const auto kept = box.kept();
  if (!kept.ok()) return {};
  const auto& [first, second, third] = *turned;
  return {first, second, third, held->one, held->more[0], held->more[1], *picked->one(), bad->what, *kept};
}

bool is_so(const Pass::Box& judge, const std::string& name, const Any& one) {
  const auto found = judge.check(name, one);
  return found.ok() && *found;
}

int ask(const char* reference, const char* of_judge) {
  auto caller = lr::idl::Caller::of(reference), other = lr::idl::Caller::of(of_judge);
  if (!caller.ok() || !other.ok()) return 1;
  const Pass::Box box(*caller), judge(*other);
  const auto names = judge.known(false);
  if (!names.ok()) return 1;
  for (const std::string& name : *names) {
    const auto one = judge.make(name);
    int count = 0;
    if (one.ok())
      for (const Any& back : passed(box, *one)) count += is_so(judge, name, back);
    std::cout << name << ' ' << count << std::endl;
  }
  each_basic([&](const char* name, const auto&) {
    const auto its = judge.make(name);
    std::cout << "of " << name << ' ' << (its.ok() && is_of(name, *its)) << ' ' << is_so(judge, name, made(name))
              << std::endl;
  });
  return 0;
}

}  // namespace

int main(int count, char** words) { return count > 2 ? ask(words[2], words[count - 1]) : serve(); }
