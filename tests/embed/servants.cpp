// A server over lemonrudder_loop.hpp whose servants answer in each way: servants ADDRESS PORT.
#include <cstdio>
#include <cstdlib>
#include <lemonrudder_loop.hpp>
#include <memory>
#include <thread>
#include <utility>
#include <vector>

namespace lr = lemonrudder;

int main(int count, char** words) {
  if (count != 3) return 2;
  lr::Loop loop;
  std::vector<std::thread> threads;
  // Answers a raw operation by what it was sent, as another thread does.
  const auto echo = [&](lr::Asked& asked) -> lr::Done {
    const std::vector<std::uint8_t> body(asked.body().begin(), asked.body().end());
    auto later = asked.later();
    if (!later) return later.error();
    threads.emplace_back([body, it = std::make_shared<lr::Later>(*std::move(later))] {
      it->answer_raw(lr::ReplyStatus::no_exception, lr::Order::big, body);
      it->refuse();  // (it is answered, so this does nothing)
    });
    return {};
  };
  const auto forget = [](lr::Asked& asked) -> lr::Done { return asked.later().transform([](lr::Later) {}); };
  const auto misfit = [](lr::Asked& asked) -> lr::Done {
    return asked.later().transform([](lr::Later later) { later.answer(lr::GrowingWriter().put_octet(1)); });
  };
  const auto overflow = [](lr::Asked& asked) -> lr::Done {
    return asked.later().transform([](lr::Later later) { later.answer(lr::GrowingWriter().put_string({"\0", 1})); });
  };
  const auto withdraw = [](lr::Asked& asked) -> lr::Done {
    return asked.later().transform([](lr::Later later) { later.refuse(lr::SystemException::no_permission, 7); });
  };
  // Stores its outcome before it answers by it, later or at once, in a reply with a context.
  const auto keep = [](bool is_later) {
    return [is_later](lr::Asked& asked) -> lr::Done {
      lr::GrowingWriter contexts, result;
      if (!contexts.put_count(1).put_ulong(7).put_octets("seven").done() || !result.put_long(6).done()) return {};
      if (asked.stored_exception("IDL:None:1.0", lr::Order::big, {}) || asked.stored(lr::Order::big, {})) return {};
      const auto outcome = asked.stored(result.order(), result.octets());
      const auto can = asked.can_answer(result.order(), result.octets());
      if (!outcome || !can.ok() || !*can) return {};
      if (is_later)
        return asked.later().transform([&](lr::Later later) {
          later.reply_contexts(contexts.order(), contexts.octets());
          later.answer_stored(*outcome);
        });
      return asked.reply_contexts(contexts.order(), contexts.octets()).and_then([&] {
        return asked.answer_stored(*outcome);
      });
    };
  };
  // Answers what would be refused for its operation by its name, which is not kept; what for another reason is left.
  const auto name = [](lr::Asked& asked) -> lr::Done {
    const auto refusal = asked.request().refused_by();
    const auto text = asked.operation();
    if (refusal == lr::SystemException::bad_operation)
      return asked.answer_unkept({lr::ReplyStatus::no_exception, lr::Order::big, {text.begin(), text.end()}});
    if (refusal) return {};
    return asked.answer_raw(lr::ReplyStatus::no_exception, lr::Order::big, lr::Octets(asked.operation()));
  };
  const auto read = [](lr::Asked& asked) {
    const auto number = asked.arguments().get_long();
    if (!number.ok()) return asked.system(lr::SystemException::no_implement, lr::Completed::no);
    return asked.answer(lr::GrowingWriter().put_long(*number));
  };
  const auto stop = [&](lr::Asked& asked) {
    threads.emplace_back([&] { loop.post([&] { loop.stop(); }); });
    return asked.answer(lr::GrowingWriter());
  };
  const auto nothing = [](lr::Asked&) { return lr::Done(); };
  loop.otherwise(name);
  lr::Settings settings;
  settings.ask_first = true;
  for (const auto& done :
       {loop.object("desk", "IDL:Desk:1.0"), loop.raw_operation("desk", "echo", echo),
        loop.operation("desk", "forget", {}, {LR_TYPE_LONG}, forget),
        loop.operation("desk", "misfit", {}, {LR_TYPE_LONG}, misfit),
        loop.operation("desk", "overflow", {}, {LR_TYPE_STRING}, overflow),
        loop.operation("desk", "keep", {}, {LR_TYPE_LONG}, keep(false)),
        loop.operation("desk", "keep_later", {}, {LR_TYPE_LONG}, keep(true)),
        loop.operation("desk", "withdraw", {}, {}, withdraw), loop.operation("desk", "nothing", {}, {}, nothing),
        loop.operation("desk", "read", {LR_TYPE_LONG}, {LR_TYPE_LONG}, read),
        loop.operation("desk", "stop", {}, {}, stop), loop.catalogue().raw_object("any"), loop.open(settings)})
    if (!done) return 1;
  if (loop.listen(words[1], static_cast<std::uint16_t>(std::atoi(words[2])))) return 1;
  std::printf("%s\n", loop.reference("desk").value_or("").c_str());
  std::fflush(stdout);
  const auto failed = loop.serve();
  for (auto& thread : threads) thread.join();
  return failed ? 1 : 0;
}
