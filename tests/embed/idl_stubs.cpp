// The same in C++.
#include <cstdio>
#include <cstdlib>
#include <cstring>
#include <fstream>

#include "log_idl.hpp"

namespace lr = lemonrudder;

static lr::Error notes(lr::idl::Caller& caller, bool is_connected) {
  const Log log(caller);
  if (is_connected)
    if (const auto total = log.total(); !total) return total.error();
  for (int note = 1; note <= 3; note++)
    if (const auto done = log.note(note); !done) return done.error();
  return lr::Error(LR_OK);
}

static lr::Error later(lr::idl::Caller& caller) {
  const Log log(caller);
  if (const auto done = log.note(1); !done) return done.error();
  std::puts("noted");
  std::fflush(stdout);
  std::getchar();
  return log.note(2).error();
}

static lr::Error mute(lr::idl::Caller& caller, bool is_twice) {
  caller.patience(std::chrono::seconds(4));
  const auto total = Log(caller).total();
  return total && is_twice ? Log(caller).total().error() : total.error();
}

static void print_peak() {
  std::ifstream status("/proc/self/status");
  for (std::string line; std::getline(status, line);)
    if (line.rfind("VmHWM:", 0) == 0) std::printf("%ld ", std::atol(line.c_str() + 6));
}

static lr::Error kept(lr::idl::Caller& caller, std::uint64_t limit) {
  caller.limit(limit);
  const auto some = Log(caller).kept();
  print_peak();
  return some.error();
}

class Servant : public POA_Log {
 public:
  lr::Done note(lr::idl::Asking<Log::_ops::note>& call, std::int32_t) override { return call.answer(); }
  lr::Done total(lr::idl::Asking<Log::_ops::total>& call) override { return call.answer(0); }
  lr::Done keep(lr::idl::Asking<Log::_ops::keep>& call, const Bigs& some) override {
    return call.answer(static_cast<std::int32_t>(some.size()));
  }
  lr::Done kept(lr::idl::Asking<Log::_ops::kept>& call) override { return call.answer({}); }
};

static int serve(std::uint64_t limit) {
  Servant servant;
  lr::Loop loop;
  servant._limit = limit;
  if (!servant._offer(loop, "log") || !loop.open() || loop.listen("127.0.0.1", 0)) return 1;
  std::puts(loop.reference("log")->c_str());
  std::fflush(stdout);
  return loop.serve() ? 1 : 0;
}

static lr::Error asked(lr::idl::Caller& caller, int count, char** words) {
  if (std::strcmp(words[1], "notes") == 0) return notes(caller, count > 3);
  if (std::strcmp(words[1], "later") == 0) return later(caller);
  if (std::strcmp(words[1], "kept") == 0) return kept(caller, std::strtoull(words[3], nullptr, 10));
  if (std::strcmp(words[1], "mute") == 0) return mute(caller, count > 3);
  caller.answer_timeout(std::chrono::milliseconds(200));
  if (std::strcmp(words[1], "soon") == 0) return Log(caller).total().error();
  return lr::Error(LR_E_RANGE);
}

int main(int count, char** words) {
  if (std::strcmp(words[1], "serve") == 0) return serve(count > 2 ? std::strtoull(words[2], nullptr, 10) : 0);
  lr::Error done(LR_OK);
  {
    auto caller = lr::idl::Caller::of(words[2]);
    done = caller ? asked(*caller, count, words) : caller.error();
  }
  std::puts(done.name());
}
