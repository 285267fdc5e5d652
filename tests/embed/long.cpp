// A server over lemonrudder_loop.hpp whose replies are long: long ADDRESS PORT. Its object `long` has one operation,
// `get`, which gives a sequence of a million octets.
#include <csignal>
#include <cstdio>
#include <cstdlib>
#include <lemonrudder_loop.hpp>
#include <vector>

namespace lr = lemonrudder;

int main(int count, char** words) {
  if (count != 3) return 2;
  lr::Loop loop;
  lr::GrowingWriter out;
  const auto get = [&](lr::Asked& asked) { return asked.answer(out); };
  if (!out.put_octets(std::vector<std::uint8_t>(1000000)).done() || !loop.object("long", "IDL:Long:1.0") ||
      !loop.operation("long", "get", {}, {LR_TYPE_OCTETS}, get) || !loop.open() ||
      loop.listen(words[1], static_cast<std::uint16_t>(std::atoi(words[2]))) || loop.stop_at(SIGTERM))
    return 1;
  const auto text = loop.reference("long");
  if (!text) return 1;
  std::printf("%s\n", text->c_str());
  std::fflush(stdout);
  return loop.serve() ? 1 : 0;
}
