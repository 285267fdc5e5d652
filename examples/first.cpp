/* A client calls a counter, loses the connection with the reply, and calls again: it acts once. */
#include <cstdio>
#include <cstdlib>
#include <lemonrudder.hpp>

namespace lr = lemonrudder;

/* What a function answers, which is no error. */
template <class T>
static auto sure(lr::Result<T> result) {
  if (!result.ok()) {
    std::fprintf(stderr, "%s\n", result.error().text());
    std::exit(1);
  }
  if constexpr (!std::is_void_v<T>) return std::move(*result);
}

int main() {
  auto catalogue = sure(lr::Catalogue::open());
  sure(catalogue.object("counter"));
  sure(catalogue.operation("counter", "add", {LR_TYPE_LONG}, {LR_TYPE_LONGLONG}));
  auto server = sure(lr::Server::open(catalogue, {1, 2}));  // random seeds in a product
  auto client = sure(lr::Client::open("client 1"));

  const auto now = lr::now();
  const std::uint8_t types[] = {LR_TYPE_LONG}, seven[] = {0, 0, 0, 7};
  sure(client.call(now, {"counter", "add", now + 60 * LR_SECOND, types, seven}));

  std::int64_t total = 0;
  for (std::uint64_t connection : {1u, 2u}) {
    std::uint8_t room[4096];
    sure(server.connect(connection));
    sure(client.connected(now));
    lr::Octets left(room, sure(client.output(room)));
    while (!left.empty()) {
      left = left.from(sure(server.feed(connection, now, left)));
      const auto asked = sure(server.asked());
      if (!asked) continue;
      const auto body = sure(server.part(asked->ticket, lr::Part::body));
      const auto after = total + sure(lr::Reader(body, asked->byte_order(), asked->body_at).get_long());
      std::uint8_t results[8];
      lr::Writer out(results);
      sure(out.put_longlong(after));
      sure(server.answer(asked->ticket, lr::Order::big, out.octets()));
      total = after;
    }
    const auto size = sure(server.output(connection, room));
    if (connection == 1) {
      sure(server.lost(connection));
      sure(client.lost());
    } else {
      sure(client.feed({room, size}));
    }
  }
  if (const auto completion = sure(client.completed())) {
    const auto body = sure(client.body());
    const auto result = sure(lr::Reader(body, completion->byte_order(), completion->body_at).get_longlong());
    std::printf("add returned %lld, the total is %lld\n", (long long)result, (long long)total);
  }
}
