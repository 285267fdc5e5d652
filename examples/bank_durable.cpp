/*
 * A bank whose accounts and outcomes are one database, by lemonrudder_loop.hpp: bank_durable STORE ADDRESS PORT
 * [SECONDS]. Its interface is bank.idl, and its database that of bank_durable.c, by the same bank_store.h.
 *
 *     cc -c bank_sqlite.c $(pkg-config --variable=sqlite_source lemonrudder) $(pkg-config --cflags lemonrudder sqlite3)
 *     c++ -std=c++17 -o bank_durable bank_durable.cpp bank_sqlite.o lemonrudder_store_sqlite.o \
 *         $(pkg-config --cflags --libs lemonrudder sqlite3) -pthread
 *     ./bank_durable bank.db 127.0.0.1 2809
 *
 * It prints its reference, and serves until SIGTERM. A thread does what all requests that wait ask for in one
 * transaction, with their outcomes, before any of them is answered; every so many seconds, or 60, it takes out outcomes
 * that expired. Where the environment names a point in BANK_DIES_AT, as stored, or stored:3, the process kills itself
 * there, or when it comes there the third time.
 */
#include <algorithm>
#include <atomic>
#include <chrono>
#include <condition_variable>
#include <csignal>
#include <cstdint>
#include <cstdio>
#include <cstdlib>
#include <cstring>
#include <lemonrudder_loop.hpp>
#include <limits>
#include <mutex>
#include <optional>
#include <string>
#include <thread>
#include <unistd.h>
#include <utility>
#include <vector>

extern "C" {
#include "bank_store.h"
char bank_why[BANK_WHY];
}

namespace lr = lemonrudder;
using Clock = std::chrono::steady_clock;
using lr::SystemException;

namespace {

constexpr const char* key_of_bank = "bank";
constexpr const char* type = "IDL:Bank:1.0";
constexpr const char* object_type = "IDL:omg.org/CORBA/Object:1.0";
constexpr const char* overdrawn = "IDL:Bank/Overdrawn:1.0";
constexpr const char* transient = "IDL:omg.org/CORBA/TRANSIENT:1.0";
constexpr const char* bad_context = "IDL:omg.org/CORBA/BAD_CONTEXT:1.0";
constexpr std::size_t most_name = 31;
constexpr std::size_t most_grouped = 256;
constexpr int most_tries = 4;
constexpr auto pause = std::chrono::milliseconds(50);

/* What a request asks for. */
struct Order {
  enum class Kind { deposit, balance, is } kind = Kind::balance;
  std::string account = {};
  std::int64_t amount = 0;
  bool is_so = false;  // what `is` answers
};

/* An order, or why there is none. */
using Judged = std::pair<Order, std::optional<SystemException>>;

lr::Outcome outcome_of(lr::ReplyStatus status, const lr::GrowingWriter& body) {
  const auto octets = body.octets();
  return {status, body.order(), {octets.begin(), octets.end()}};
}

/* A system exception, COMPLETED_MAYBE: where nobody can know, TRANSIENT. */
lr::Outcome maybe(const char* id = transient) {
  lr::GrowingWriter body;
  body.put_string(id);
  body.put_ulong(0);
  body.put_ulong(static_cast<std::uint32_t>(lr::Completed::maybe));
  return outcome_of(lr::ReplyStatus::system_exception, body);
}

/* A request, and what came of it: an outcome, a refusal, or, without either, that nobody can know. */
struct Job {
  lr::Later later;
  std::optional<key> named = {};
  Judged judged = {};
  std::optional<lr::Outcome> outcome = {};
  std::optional<SystemException> refusal = {};
  bool is_sure = false;      // it was looked for, and is not there
  bool is_in_doubt = false;  // perhaps it was committed: the store is asked until it says
};

/* The database, for one thread. What fails is a Failure, after which the transaction has to be undone. */
class Database {
 public:
  struct Failure {};

  Database(const store& kind, std::string name) : kind_(kind), name_(std::move(name)) {
    if (!(is_open_ = kind_.open(name_.c_str()))) complain();
  }
  ~Database() { kind_.close(); }

  void begin() {
    if (!is_open_) is_open_ = kind_.open(name_.c_str());
    if (!is_open_ || !kind_.begin(&least_)) throw Failure();
    bank_reach("begun");
  }
  void commit() {
    if (!kind_.commit()) throw Failure();
    bank_reach("committed");
    said_.clear();
  }
  void undo() {
    complain();
    if (is_open_ && !kind_.rollback()) kind_.close(), is_open_ = false;
  }
  void purge() {
    if (!is_open_) return;
    try {
      begin();
      if (kind_.purge(lr::now()) < 0) throw Failure();
      commit();
    } catch (Failure) {
      undo();
    }
  }

  /* Does in a transaction what a request asks for, after it was looked for there. */
  void perform(Job& job) {
    if (job.named) {
      if ((job.outcome = find(*job.named))) return;
      job.is_sure = true;
      bank_reach("looked");
      // (what expired is refused; where it was perhaps committed before, perhaps it was performed)
      if (job.named->expiration < least_ && job.is_in_doubt) return job.outcome = maybe(bad_context), void();
      if (job.named->expiration < least_) return job.refusal.emplace(SystemException::bad_context), void();
    }
    if ((job.refusal = job.judged.second)) return;
    job.outcome = change(job.judged.first);
    if (job.named) keep(*job.named, *job.outcome);
    bank_reach("stored");
  }

 private:
  std::optional<lr::Outcome> find(const key& named) {
    lr_store_outcome kept = {};
    const int found = kind_.find(&named, &kept);
    if (found < 0) throw Failure();
    if (found == 0) return {};
    lr::Outcome copy{lr::ReplyStatus{kept.status}, lr::Order{kept.order}, {kept.body, kept.body + kept.size}};
    std::free(kept.body);
    return copy;
  }
  void keep(const key& named, lr::Outcome& it) {
    const lr_store_outcome kept{static_cast<std::uint32_t>(it.status), static_cast<std::uint32_t>(it.order),
                                it.body.data(), it.body.size()};
    if (!kind_.keep(&named, &kept)) throw Failure();
  }
  lr::Outcome change(const Order& order) {
    lr::GrowingWriter body;
    if (order.kind == Order::Kind::is) return body.put_boolean(order.is_so), outcome_of(lr::ReplyStatus::no_exception, body);
    std::int64_t balance = 0;
    if (!kind_.balance(order.account.c_str(), &balance)) throw Failure();
    const bool is_beyond = order.amount > 0 && balance > std::numeric_limits<std::int64_t>::max() - order.amount;
    if (is_beyond || balance + order.amount < 0) {
      body.put_string(overdrawn);
      body.put_longlong(balance);
      return outcome_of(lr::ReplyStatus::user_exception, body);
    }
    if (order.kind == Order::Kind::deposit) {
      if (!kind_.set_balance(order.account.c_str(), balance + order.amount)) throw Failure();
      bank_reach("changed");
    }
    body.put_longlong(balance + order.amount);
    return outcome_of(lr::ReplyStatus::no_exception, body);
  }
  /* Says why the store failed, once for each reason. */
  void complain() {
    if (std::exchange(said_, bank_why) != bank_why) std::fprintf(stderr, "bank_durable: %s\n", bank_why);
  }

  const store& kind_;
  std::string name_;
  std::uint64_t least_ = 0;  // W, in a transaction
  bool is_open_ = false;
  std::string said_;
};

/* The thread that has the database. It ends with it, once what it was given is done. */
class Teller {
 public:
  Teller(const store& kind, std::string name, std::chrono::seconds purge_every)
      : every_(purge_every), thread_([this, &kind, name = std::move(name)] { work(Database(kind, name)); }) {}
  ~Teller() {
    is_over_ = true;
    give({});
    thread_.join();
  }
  void give(std::vector<Job> jobs) {
    const std::lock_guard<std::mutex> held(lock_);
    for (auto& job : jobs) jobs_.push_back(std::move(job));
    is_given_.notify_one();
  }

 private:
  std::vector<Job> taken(Clock::time_point until) {
    std::unique_lock<std::mutex> held(lock_);
    is_given_.wait_until(held, until, [this] { return is_over_ || !jobs_.empty(); });
    std::vector<Job> all;
    while (!jobs_.empty() && all.size() < most_grouped) {
      all.push_back(std::move(jobs_.front()));
      jobs_.erase(jobs_.begin());
    }
    return all;
  }

  void work(Database&& database) {
    auto next = Clock::now() + every_;
    for (;;) {
      auto jobs = taken(next);
      if (jobs.empty() && is_over_) return;
      // (who takes several locks does so in one order)
      std::stable_sort(jobs.begin(), jobs.end(), [](const Job& one, const Job& other) {
        return one.judged.first.account < other.judged.first.account;
      });
      if (jobs.size() > 1 && perform_all(database, jobs.data(), jobs.size()))
        for (auto& job : jobs) answer(job);
      else
        for (auto& job : jobs) perform_alone(database, job);
      if (Clock::now() < next) continue;
      database.purge();
      next = Clock::now() + every_;
    }
  }

  /* Does so many in one transaction. False where it was undone, or where that is not known. */
  static bool perform_all(Database& database, Job* jobs, std::size_t count) {
    bool is_sent = false;
    try {
      for (std::size_t index = 0; index < count; index++) jobs[index].is_sure = false;
      database.begin();
      for (std::size_t index = 0; index < count; index++) database.perform(jobs[index]);
      is_sent = true;
      database.commit();
      return true;
    } catch (Database::Failure) {
      for (std::size_t index = 0; index < count; index++) {
        jobs[index].outcome.reset();
        jobs[index].refusal.reset();
        jobs[index].is_in_doubt |= is_sent;
      }
      database.undo();
      return false;
    }
  }

  /* In doubt the store is asked until it says; where it has nothing, it is done again, a few times. Anything else is
   * declined where the store fails. */
  void perform_alone(Database& database, Job& job) {
    for (int tries = 0; !perform_all(database, &job, 1); std::this_thread::sleep_for(pause)) {
      tries += job.is_sure ? 1 : 0;
      if (job.is_in_doubt && job.named && tries < most_tries && !is_over_) continue;
      if ((job.is_sure || !job.named) && !job.is_in_doubt) job.refusal = SystemException::transient;
      break;
    }
    answer(job);
  }

  /* What the store keeps is not kept here. */
  static void answer(Job& job) {
    if (job.refusal)
      job.later.refuse(*job.refusal);
    else
      job.later.answer_unkept(job.outcome ? *std::move(job.outcome) : maybe());
    bank_reach("answered");
  }

  std::chrono::seconds every_;
  std::atomic<bool> is_over_{false};
  std::mutex lock_;
  std::condition_variable is_given_;
  std::vector<Job> jobs_;
  std::thread thread_;
};

/* The name of an account: what can be printed, not too long. */
bool is_name(std::string_view name) {
  return !name.empty() && name.size() <= most_name &&
         std::all_of(name.begin(), name.end(), [](char it) { return ' ' <= it && it <= '~'; });
}

/* Reads what a request asks for, whose arguments are right by their types, or why it is refused. One that would be refused
 * is asked for too: what the store has of its key is answered first. */
Judged judge(const lr::Asked& asked) {
  if (const auto refusal = asked.request().refused_by()) return {{}, refusal};
  auto in = asked.arguments();
  Order order;
  if (asked.operation() == "_non_existent") return order.kind = Order::Kind::is, Judged(order, {});
  const auto text = in.get_string();
  if (asked.operation() == "_is_a") {
    order.kind = Order::Kind::is;
    order.is_so = *text == type || *text == object_type;
    return {order, {}};
  }
  if (!is_name(*text)) return {{}, SystemException::bad_param};
  order.account = *text;
  if (asked.operation() == "balance") return {order, {}};
  order.kind = Order::Kind::deposit;
  order.amount = *in.get_longlong();
  return {order, {}};
}

/* The key by which the store knows a request, if it has one. */
lr::Result<std::optional<key>> key_of(lr::Asked& asked) {
  const auto& request = asked.request();
  if (!request.has_client) return std::optional<key>();
  const auto client = asked.client();
  if (!client.ok()) return client.error();
  key named = {};
  named.client_size = std::min(client->size(), sizeof named.client);
  std::copy_n(client->begin(), named.client_size, named.client);
  named.retention = request.retention_id;
  named.expiration = request.expiration;
  return std::optional<key>(named);
}

/* The one object, and its operations: also those by which an ORB asks for its type, since the store is to have what they
 * answer too. */
lr::Done offer(lr::Catalogue& all) {
  constexpr const char* key = key_of_bank;
  return all.object(key)
      .and_then([&] { return all.operation(key, "_is_a", {LR_TYPE_STRING}, {LR_TYPE_BOOLEAN}); })
      .and_then([&] { return all.operation(key, "_non_existent", {}, {LR_TYPE_BOOLEAN}); })
      .and_then([&] { return all.exception(overdrawn, {LR_TYPE_LONGLONG}); })
      .and_then([&] { return all.operation(key, "deposit", {LR_TYPE_STRING, LR_TYPE_LONGLONG}, {LR_TYPE_LONGLONG}); })
      .and_then([&] { return all.operation(key, "balance", {LR_TYPE_STRING}, {LR_TYPE_LONGLONG}); });
}

}  // namespace

void bank_reach(const char* point) {
  static int count;
  const char* named = std::getenv("BANK_DIES_AT");
  const std::size_t size = std::strlen(point);
  if (named == nullptr || std::strncmp(named, point, size) != 0 || (named[size] != 0 && named[size] != ':')) return;
  if (++count >= (named[size] == ':' ? std::atoi(named + size + 1) : 1)) kill(getpid(), SIGKILL);
}

bool bank_failed(const char* what, const char* says) {
  std::snprintf(bank_why, sizeof bank_why, "%s: %s", what, says);
  return false;
}

int main(int count, char** words) {
  if (count != 4 && count != 5) return std::fputs("usage: bank_durable STORE ADDRESS PORT [SECONDS]\n", stderr), 2;
  const store* kind = &bank_sqlite;
#ifdef BANK_POSTGRES
  if (std::strncmp(words[1], "postgres", 8) == 0 && std::strstr(words[1], "://") != nullptr) kind = &bank_postgres;
#endif
  lr::Loop loop;
  Teller teller(*kind, words[1], std::chrono::seconds(count == 5 ? std::atoi(words[4]) : 60));
  loop.otherwise([&](lr::Asked& asked) -> lr::Done {
    auto named = key_of(asked);
    if (!named.ok()) return named.error();
    auto judged = judge(asked);
    auto later = asked.later();
    if (!later.ok() && *named) return asked.answer_unkept(maybe());
    if (!later.ok()) return later.error();
    bank_reach("asked");
    std::vector<Job> jobs;
    jobs.push_back(Job{*std::move(later), *std::move(named), std::move(judged)});
    teller.give(std::move(jobs));
    return {};
  });
  lr::Settings settings;
  settings.message = 4096;
  settings.parked = 1024;
  settings.ask_first = true;
  auto done = offer(loop.catalogue());
  if (done) done = loop.open(settings);
  if (!done) return std::fprintf(stderr, "bank_durable: %s\n", done.error().text()), 1;
  auto failed = loop.listen(words[2], static_cast<std::uint16_t>(std::atoi(words[3])));
  if (!failed) failed = loop.stop_at(SIGTERM);
  auto ior = lr::Ior::iiop(type, 2, words[2], loop.port(), key_of_bank);
  if (!failed && !ior) return std::fprintf(stderr, "bank_durable: %s\n", ior.error().text()), 1;
  if (!failed) {
    std::printf("%s\n", ior->print().value_or("").c_str());
    std::fflush(stdout);
    failed = loop.serve();
  }
  return failed ? std::fprintf(stderr, "bank_durable: %s\n", failed.message().c_str()), 1 : 0;
}
