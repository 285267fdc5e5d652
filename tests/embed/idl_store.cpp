// The store of tests/embed/idl_files_test.py in C++: a server, and a client that prints what it is answered.
#include <csignal>
#include <iostream>

#include "store_idl.hpp"

namespace lr = lemonrudder;

namespace {

constexpr std::uint32_t tk_string = 18;

class Deep : public POA_Store::Deep {
 public:
  lr::Done name(lr::idl::Asking<Store::Named::_ops::_get_name>& call) override { return call.answer("deep"); }
  lr::Done keep(lr::idl::Asking<Store::Box::_ops::keep>& call, const Store::Node& tree) override {
    if (tree.name.empty()) return call.raise(Store::Missing{"none"});
    return call.answer({tree.name + "!", tree.children});
  }
  lr::Done put(lr::Asked& call) override {
    lr::Reader in = call.arguments();
    lr::GrowingWriter out;
    const auto kind = in.get_ulong();
    const auto number = in.get_long();
    if (!kind.ok() || *kind != tk_string || !number.ok()) return call.refuse(lr::SystemException::marshal);
    if (*number < 0) {
      out.put_string(Store::Missing::_id);
      if (const lr::Done done = Store::Missing::_write(out, {"below"}); !done) return done;
      return call.answer_raw(lr::ReplyStatus::user_exception, out.order(), out.octets());
    }
    out.put_ulong(tk_string).put_long(*number + 1);
    return call.answer_raw(lr::ReplyStatus::no_exception, out.order(), out.octets());
  }
  lr::Done call(lr::idl::Asking<Deep::_ops::call>& asking, std::int32_t call) override {
    return asking.answer(call + 1);
  }
};

int serve() {
  Deep deep;
  lr::Loop loop;
  if (!deep._offer(loop, "deep") || !loop.open() || loop.listen("127.0.0.1", 0) || loop.stop_at(SIGTERM)) return 1;
  std::cout << *loop.reference("deep") << std::endl;
  return loop.serve() ? 1 : 0;
}

template <class Outcome, class Print>
void tell(const Outcome& outcome, Print print) {
  if (outcome.ok())
    print(*outcome);
  else if (const auto* raised = outcome.template raised<Store::Missing>())
    std::cout << "missing " << raised->name << std::endl;
  else
    std::cout << (outcome.system() != nullptr ? outcome.system()->id : outcome.error().text()) << std::endl;
}

void put(const Store::Deep& deep, std::int32_t number) {
  lr::GrowingWriter out;
  out.put_ulong(tk_string).put_long(number);
  const auto reply = deep.put(out);
  if (!reply.ok()) return;
  lr::Reader in = reply->reader();
  if (reply->completion.ended() == lr::Ended::raised) {
    const auto id = in.get_string();
    Store::Missing raised;
    if (id.ok() && *id == Store::Missing::_id && Store::Missing::_read(in, raised))
      std::cout << "missing " << raised.name << std::endl;
  } else if (in.get_ulong().value_or(0) == tk_string) {
    std::cout << in.get_long().value_or(0) << std::endl;
  }
}

int ask(const char* reference) {
  auto caller = lr::idl::Caller::of(reference);
  if (!caller.ok()) return 1;
  const Store::Deep deep(*caller);
  const Store::Node tree{"a", {{}, {"b", {{"c", {}}}}}};
  if (const auto name = deep.name(); name.ok()) std::cout << *name << std::endl;
  tell(deep.keep(tree), [](const Store::Node& kept) {
    std::cout << kept.name << ' ' << kept.children.size() << ' ' << kept.children[1].children[0].name << std::endl;
  });
  tell(deep.keep({}), [](const Store::Node&) {});
  put(deep, 5);
  put(deep, -1);
  if (const auto called = deep.call(4); called.ok()) std::cout << *called << std::endl;
  return 0;
}

}  // namespace

int main(int count, char** words) { return count == 3 ? ask(words[2]) : serve(); }
