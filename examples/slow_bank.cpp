/*
 * A bank whose deposits take their time, by lemonrudder_loop.hpp: slow_bank ADDRESS PORT [MILLISECONDS]. Its interface
 * is bank.idl.
 *
 *     c++ -std=c++17 -o slow_bank slow_bank.cpp $(pkg-config --cflags --libs lemonrudder) -pthread
 *     ./slow_bank 127.0.0.1 2809
 *
 * It prints its reference, and serves until SIGTERM. A deposit is made by a thread, as one is that a database commits,
 * and takes so many milliseconds, or 100. Meanwhile its request is parked, and others are performed. A deposit with
 * FT_REQUEST that is sent again, also while the first one is under way, acts once.
 */
#include <chrono>
#include <condition_variable>
#include <csignal>
#include <cstdint>
#include <cstdio>
#include <cstdlib>
#include <deque>
#include <functional>
#include <lemonrudder_loop.hpp>
#include <limits>
#include <map>
#include <memory>
#include <mutex>
#include <string>
#include <thread>
#include <utility>
#include <vector>

namespace lr = lemonrudder;

namespace {

constexpr const char* key = "bank";
constexpr const char* overdrawn = "IDL:Bank/Overdrawn:1.0";
constexpr std::size_t most_workers = 64;

/* Threads that do what they are given. They end with it, once all of that is done. */
class Workers {
 public:
  Workers() {
    while (threads_.size() < most_workers) threads_.emplace_back([this] { work(); });
  }
  ~Workers() {
    give(nullptr);
    for (auto& thread : threads_) thread.join();
  }
  void give(std::function<void()> task) {
    const std::lock_guard<std::mutex> held(lock_);
    tasks_.push_back(std::move(task));
    is_given_.notify_one();
  }

 private:
  void work() {
    for (;;) {
      std::unique_lock<std::mutex> held(lock_);
      is_given_.wait(held, [this] { return !tasks_.empty(); });
      if (!tasks_.front()) return is_given_.notify_one();
      const auto task = std::move(tasks_.front());
      tasks_.pop_front();
      held.unlock();
      task();
    }
  }

  std::mutex lock_;
  std::condition_variable is_given_;
  std::deque<std::function<void()>> tasks_;
  std::vector<std::thread> threads_;
};

/* The accounts, for all threads. */
class Accounts {
 public:
  enum class End { deposited, overdrew, refused };

  /* What became of a deposit, and the balance. */
  std::pair<End, std::int64_t> change(const std::string& account, std::int64_t amount) {
    const std::lock_guard<std::mutex> held(lock_);
    const auto found = balances_.find(account);
    const std::int64_t before = found == balances_.end() ? 0 : found->second;
    if (account.empty() || (amount > 0 && before > std::numeric_limits<std::int64_t>::max() - amount))
      return {End::refused, before};
    if (before + amount < 0) return {End::overdrew, before};
    if (amount != 0) balances_[account] = before + amount;
    return {End::deposited, before + amount};
  }

 private:
  std::mutex lock_;
  std::map<std::string, std::int64_t> balances_;
};

class Bank {
 public:
  Bank(lr::Loop& loop, std::chrono::milliseconds takes) : loop_(loop), takes_(takes) {}

  /* Puts the bank on offer. */
  lr::Done offer() {
    for (const lr::Done& done : {loop_.object(key, "IDL:Bank:1.0"), loop_.exception(overdrawn, {LR_TYPE_LONGLONG}),
                                 loop_.operation(key, "deposit", {LR_TYPE_STRING, LR_TYPE_LONGLONG}, {LR_TYPE_LONGLONG},
                                                 [this](lr::Asked& asked) { return deposit(asked); }),
                                 loop_.operation(key, "balance", {LR_TYPE_STRING}, {LR_TYPE_LONGLONG},
                                                 [this](lr::Asked& asked) { return balance(asked); })})
      if (!done) return done;
    return {};
  }

 private:
  /* A deposit that is made later. */
  struct Job {
    lr::Later later;
    std::string account;
    std::int64_t amount;
    std::uint64_t connection;  // where this is gone the deposit need not be begun; 0 where it must be
  };

  /* Answers what became of a deposit, now or later. */
  template <class Answer>
  static auto answer(Answer& it, std::pair<Accounts::End, std::int64_t> end) {
    if (end.first == Accounts::End::refused) return it.system(lr::SystemException::bad_param, lr::Completed::no);
    lr::GrowingWriter out;
    out.put_longlong(end.second);
    return end.first == Accounts::End::deposited ? it.answer(out) : it.raise(overdrawn, out);
  }

  lr::Done balance(lr::Asked& asked) {
    auto in = asked.arguments();
    return answer(asked, accounts_.change(std::string(in.get_string().value_or("")), 0));
  }

  /* Where too many are parked, or there is no memory, it is left waiting, and so refused for now. */
  lr::Done deposit(lr::Asked& asked) {
    auto in = asked.arguments();
    const std::string account(in.get_string().value_or(""));
    const std::int64_t amount = in.get_longlong().value_or(0);
    auto later = asked.later();
    if (!later) return later.error();
    const bool may_lapse = !asked.request().has_client && asked.request().wished() != lr::Wish::none;
    const std::uint64_t connection = may_lapse ? asked.request().connection : 0;
    waiting_.push_back(std::make_shared<Job>(Job{*std::move(later), account, amount, connection}));
    begin();
    return {};
  }

  /* Gives deposits to workers that are free. What nobody waits for any more, and no repeat can ask for, is not begun.
   */
  void begin() {
    while (working_ < most_workers && !waiting_.empty()) {
      const auto job = std::move(waiting_.front());
      waiting_.pop_front();
      if (job->connection != 0 && loop_.server().is_closed(job->connection)) {
        job->later.refuse();
        continue;
      }
      working_++;
      workers_.give([this, job] {
        std::this_thread::sleep_for(takes_);
        answer(job->later, accounts_.change(job->account, job->amount));
        loop_.post([this] {
          working_--;
          begin();
        });
      });
    }
  }

  lr::Loop& loop_;
  std::chrono::milliseconds takes_;
  Accounts accounts_;
  std::deque<std::shared_ptr<Job>> waiting_;
  std::size_t working_ = 0;
  Workers workers_;
};

}  // namespace

int main(int count, char** words) {
  if (count != 3 && count != 4) return std::fputs("usage: slow_bank ADDRESS PORT [MILLISECONDS]\n", stderr), 2;
  lr::Loop loop;
  Bank bank(loop, std::chrono::milliseconds(count == 4 ? std::atoi(words[3]) : 100));
  lr::Settings settings;
  settings.parked = 256;
  auto done = bank.offer();
  if (done) done = loop.open(settings);
  if (!done) return std::fprintf(stderr, "slow_bank: %s\n", done.error().text()), 1;
  auto failed = loop.listen(words[1], static_cast<std::uint16_t>(std::atoi(words[2])));
  if (!failed) failed = loop.stop_at(SIGTERM);
  const auto reference = loop.reference(key);
  if (!failed && !reference) return std::fprintf(stderr, "slow_bank: %s\n", reference.error().text()), 1;
  if (!failed) {
    std::printf("%s\n", reference->c_str());
    std::fflush(stdout);
    failed = loop.serve();
  }
  return failed ? std::fprintf(stderr, "slow_bank: %s\n", failed.message().c_str()), 1 : 0;
}
