/*
 * A bank for many clients at once, by lemonrudder_loop.hpp: bank ADDRESS PORT. Its interface is bank.idl.
 *
 *     c++ -std=c++17 -o bank bank.cpp $(pkg-config --cflags --libs lemonrudder)
 *     ./bank 127.0.0.1 2809
 *
 * It prints its reference, and serves until SIGTERM; port 0 is any that is free. A deposit with FT_REQUEST that is sent
 * again, on any connection, acts once.
 */
#include <chrono>
#include <csignal>
#include <cstdint>
#include <cstdio>
#include <cstdlib>
#include <lemonrudder_loop.hpp>
#include <limits>
#include <map>
#include <string>

/* How many seconds a peer may be idle. */
#ifndef LOOP_IDLE
#define LOOP_IDLE 300
#endif

namespace lr = lemonrudder;

namespace {

constexpr const char* key = "bank";
constexpr const char* overdrawn = "IDL:Bank/Overdrawn:1.0";

class Bank {
 public:
  /* Puts the bank on offer. */
  lr::Done offer(lr::Loop& loop) {
    for (const lr::Done& done : {loop.object(key, "IDL:Bank:1.0"), loop.exception(overdrawn, {LR_TYPE_LONGLONG}),
                                 loop.operation(key, "deposit", {LR_TYPE_STRING, LR_TYPE_LONGLONG}, {LR_TYPE_LONGLONG},
                                                [this](lr::Asked& asked) { return change(asked, true); }),
                                 loop.operation(key, "balance", {LR_TYPE_STRING}, {LR_TYPE_LONGLONG},
                                                [this](lr::Asked& asked) { return change(asked, false); })})
      if (!done) return done;
    return {};
  }

 private:
  /* Money moves only where the answer counts, so at any other error nothing is done. */
  lr::Done change(lr::Asked& asked, bool is_deposit) {
    auto in = asked.arguments();
    const std::string account(in.get_string().value_or(""));
    const std::int64_t amount = is_deposit ? in.get_longlong().value_or(0) : 0;
    const auto found = accounts_.find(account);
    const std::int64_t before = found == accounts_.end() ? 0 : found->second;
    if (account.empty() || (amount > 0 && before > std::numeric_limits<std::int64_t>::max() - amount))
      return asked.system(lr::SystemException::bad_param, lr::Completed::no);
    const std::int64_t after = before + amount;
    if (after < 0) return asked.raise(overdrawn, lr::GrowingWriter().put_longlong(before));
    auto answered = asked.answer(lr::GrowingWriter().put_longlong(after));
    if (amount != 0 && (answered || answered.error() == LR_E_LOST)) accounts_[account] = after;
    return answered;
  }

  std::map<std::string, std::int64_t> accounts_;
};

}  // namespace

int main(int count, char** words) {
  if (count != 3) return std::fputs("usage: bank ADDRESS PORT\n", stderr), 2;
  Bank bank;
  lr::LoopLimits limits;
  limits.idle = std::chrono::seconds(LOOP_IDLE);
  lr::Loop loop(limits);
  auto done = bank.offer(loop);
  if (done) done = loop.open();
  if (!done) return std::fprintf(stderr, "bank: %s\n", done.error().text()), 1;
  auto failed = loop.listen(words[1], static_cast<std::uint16_t>(std::atoi(words[2])));
  if (!failed) failed = loop.stop_at(SIGTERM);
  const auto reference = loop.reference(key);
  if (!failed && !reference) return std::fprintf(stderr, "bank: %s\n", reference.error().text()), 1;
  if (!failed) {
    std::printf("%s\n", reference->c_str());
    std::fflush(stdout);
    failed = loop.serve();
  }
  return failed ? std::fprintf(stderr, "bank: %s\n", failed.message().c_str()), 1 : 0;
}
