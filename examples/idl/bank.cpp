/*
 * The bank by what omniidl makes of bank.idl: a server, and a client of any server of it.
 *
 *     omniidl -p idl -blemonrudder -Wbcpp -Cmade examples/bank.idl
 *     c++ -std=c++17 -Imade examples/idl/bank.cpp $(pkg-config --cflags --libs lemonrudder) -o idl_bank
 *     ./idl_bank serve
 *     ./idl_bank deposit IOR:.. alice 5
 */
#include <csignal>
#include <cstdio>
#include <cstdlib>
#include <limits>
#include <map>
#include <string>

#include "bank_idl.hpp"

namespace lr = lemonrudder;

namespace {

class Accounts : public POA_Bank {
 public:
  /* Money moves only where the answer counts. */
  lr::Done deposit(lr::idl::Asking<Bank::_ops::deposit>& call, const std::string& account,
                   std::int64_t amount) override {
    const std::int64_t before = accounts_[account];
    if (amount > 0 && before > std::numeric_limits<std::int64_t>::max() - amount)
      return call.system(lr::SystemException::bad_param, lr::Completed::no);
    if (before + amount < 0) return call.raise(Bank::Overdrawn{before});
    const lr::Done answered = call.answer(before + amount);
    if (answered || answered.error() == LR_E_LOST) accounts_[account] = before + amount;
    return answered;
  }
  lr::Done balance(lr::idl::Asking<Bank::_ops::balance>& call, const std::string& account) override {
    return call.answer(accounts_[account]);
  }

 private:
  std::map<std::string, std::int64_t> accounts_;
};

int serve() {
  Accounts accounts;
  lr::Loop loop;
  if (!accounts._offer(loop, "bank") || !loop.open() || loop.listen("127.0.0.1", 0) || loop.stop_at(SIGTERM)) return 1;
  const auto reference = loop.reference("bank");
  if (!reference) return 1;
  std::printf("%s\n", reference->c_str());
  std::fflush(stdout);
  return loop.serve() ? 1 : 0;
}

int deposit(const char* reference, const char* account, const char* amount) {
  auto caller = lr::idl::Caller::of(reference);
  if (!caller) return std::fprintf(stderr, "%s\n", caller.error().text()), 1;
  const auto outcome = Bank(*caller).deposit(account, std::atoll(amount));
  if (outcome)
    std::printf("%lld\n", static_cast<long long>(*outcome));
  else if (const Bank::Overdrawn* const raised = outcome.raised<Bank::Overdrawn>())
    std::printf("overdrawn: %lld\n", static_cast<long long>(raised->balance));
  else
    return std::fprintf(stderr, "%s\n", outcome.system() ? outcome.system()->id.c_str() : outcome.error().text()), 1;
  return 0;
}

}  // namespace

int main(int count, char** words) {
  if (count == 2) return serve();
  return count == 5 ? deposit(words[2], words[3], words[4]) : 2;
}
