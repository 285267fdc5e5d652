// Objects that come and go, in C++ by what is made of the market of tests/embed/objects_test.py.
#include <csignal>
#include <cstdio>
#include <memory>
#include <set>

#include "market_idl.hpp"

namespace lr = lemonrudder;

namespace {

lr::Loop loop;
int last = 0;

// A session, which is an object of its own.
class One : public POA_Session {
 public:
  explicit One(std::string key) : key_(std::move(key)) {}
  lr::Done more(lr::idl::Asking<Session::_ops::more>& call) override { return call.answer(++count_); }
  lr::Done bye(lr::idl::Asking<Session::_ops::bye>& call) override {
    loop.remove(key_);
    return call.answer(count_);
  }

 private:
  std::string key_;
  std::int32_t count_ = 0;
};

std::map<std::string, std::unique_ptr<One>> ones;

// A session of a family, whose servants are made as they are asked.
class Other : public POA_Session {
 public:
  lr::Done more(lr::idl::Asking<Session::_ops::more>& call) override {
    return call.answer(++counts[std::string(call.asked().key().text())]);
  }
  lr::Done bye(lr::idl::Asking<Session::_ops::bye>& call) override {
    const auto found = counts.find(std::string(call.asked().key().text()));
    const std::int32_t count = found->second;
    counts.erase(found);
    return call.answer(count);
  }
  std::map<std::string, std::int32_t> counts;
} other;

POA_Session* session_of(lr::Octets key) {
  return other.counts.count(std::string(key.text())) > 0 ? &other : nullptr;
}

class Doors : public POA_Market {
 public:
  lr::Done login(lr::idl::Asking<Market::_ops::login>& call, bool is_of_family) override {
    const std::string key = (is_of_family ? "family/" : "one/") + std::to_string(++last);
    if (is_of_family) {
      other.counts[key] = 0;
    } else {
      ones[key] = std::make_unique<One>(key);
      if (const lr::Done done = ones[key]->_offer(loop, key); !done) return call.refuse();
    }
    return call.answer(*lr::idl::ObjectReference::parse(*loop.reference(key)));
  }
};

}  // namespace

int main() {
  Doors doors;
  if (!doors._offer(loop, "market") || !Other::_offer_family(loop, "family/", session_of)) return 1;
  if (!loop.open() || loop.listen("127.0.0.1", 0) || loop.stop_at(SIGTERM)) return 1;
  std::puts(loop.reference("market")->c_str());
  std::fflush(stdout);
  return loop.serve() ? 1 : 0;
}
