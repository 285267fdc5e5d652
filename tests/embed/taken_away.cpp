// The same in C++.
#include <csignal>
#include <cstdio>
#include <cstdlib>
#include <lemonrudder_loop.hpp>

namespace lr = lemonrudder;

namespace {

lr::Loop loop;
std::vector<lr::Later> waiting;
std::int32_t performed = 0;

lr::Done answer(lr::Asked& asked, std::int32_t number = 7) {
  return asked.answer(lr::GrowingWriter().put_long(number));
}

lr::Done slow(lr::Asked& asked) {
  auto later = asked.later();
  if (!later) return later.error();
  waiting.push_back(*std::move(later));
  return {};
}

lr::Done bye(lr::Asked& asked) {
  loop.remove("one");
  return answer(asked);
}

lr::Done release(lr::Asked& asked) {
  for (auto& later : waiting) later.answer(lr::GrowingWriter().put_long(5)), performed++;
  waiting.clear();
  return answer(asked);
}

lr::Done offer() {
  lr::Done done = loop.object("one", "IDL:One:1.0");
  for (const auto& [name, servant] : {std::pair<const char*, lr::Loop::Servant>{"slow", slow}, {"bye", bye},
                                      {"now", [](lr::Asked& asked) { return answer(asked); }}})
    if (done) done = loop.operation("one", name, {}, {LR_TYPE_LONG}, servant);
  return done;
}

lr::Done make(lr::Asked& asked) {
  if (const lr::Done done = offer(); !done) return asked.refuse(lr::SystemException::internal);
  if (offer().error() != LR_E_TAKEN) std::abort();
  return answer(asked);
}

}  // namespace

int main() {
  lr::Done done = offer();
  if (done) done = loop.object("desk", "IDL:Desk:1.0");
  if (done) done = loop.operation("desk", "release", {}, {LR_TYPE_LONG}, release);
  if (done) done = loop.operation("desk", "make", {}, {LR_TYPE_LONG}, make);
  if (done)
    done = loop.operation("desk", "count", {}, {LR_TYPE_LONG}, [](lr::Asked& asked) { return answer(asked, performed); });
  if (!done || !loop.open() || loop.listen("127.0.0.1", 0) || loop.stop_at(SIGTERM)) return 1;
  std::printf("%s\n", loop.reference("desk")->c_str());
  std::fflush(stdout);
  return loop.serve() ? 1 : 0;
}
