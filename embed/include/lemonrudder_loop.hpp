/*
 * lemonrudder_loop.hpp: a loop for C++17 that serves a lemonrudder::Server over TCP to many connections at once, in
 * this header alone. It is for systems with POSIX, and stands over epoll where there is epoll; else, or where
 * LEMONRUDDER_LOOP_POLL is defined, over poll().
 *
 *     lemonrudder::Loop loop;
 *     loop.object("counter", "IDL:Counter:1.0");
 *     loop.operation("counter", "add", {LR_TYPE_LONG}, {LR_TYPE_LONGLONG}, [&](lemonrudder::Asked& asked) {
 *       const auto n = asked.arguments().get_long();
 *       return asked.answer(lemonrudder::GrowingWriter().put_longlong(total += *n));
 *     });
 *     loop.open();
 *     loop.listen("127.0.0.1", 2809);
 *     loop.serve();
 *
 * Each of these calls says whether it failed, which is to be looked at: examples/bank.cpp does so.
 *
 * All runs on the thread of serve(). A servant answers at once, or takes a Later of its request, by which any thread
 * may answer when the outcome is there; others are performed meanwhile. What the loop keeps is bounded: of a peer 20
 * KiB here, and in the server what its limits allow. Where memory is short for the loop's own, std::bad_alloc is
 * thrown, as by any container.
 */
#ifndef LEMONRUDDER_LOOP_HPP
#define LEMONRUDDER_LOOP_HPP

#include <arpa/inet.h>
#include <fcntl.h>
#include <netinet/in.h>
#include <netinet/tcp.h>
#include <poll.h>
#include <sys/socket.h>
#include <unistd.h>

#include <algorithm>
#include <atomic>
#include <cerrno>
#include <chrono>
#include <csignal>
#include <cstdint>
#include <deque>
#include <functional>
#include <map>
#include <memory>
#include <mutex>
#include <set>
#include <string>
#include <string_view>
#include <system_error>
#include <utility>
#include <vector>

#if defined(__linux__) && !defined(LEMONRUDDER_LOOP_POLL)
#define LEMONRUDDER_LOOP_EPOLL
#include <sys/epoll.h>
#endif

#include "lemonrudder.hpp"

namespace lemonrudder {
inline namespace v0_2 {

/* The bounds of a loop. */
struct LoopLimits {
  std::size_t peers = 1000;        // how many are served at once
  std::chrono::seconds idle{300};  // how long a peer may send nothing, take nothing, and have nothing parked
  std::chrono::seconds linger{5};  // what a peer has to close once its stream has ended
  std::chrono::seconds drain{30};  // what parked requests have to be answered once the loop is told to stop
};

namespace detail {

using LoopClock = std::chrono::steady_clock;

/* A descriptor that is closed with its owner. */
class Descriptor {
 public:
  explicit Descriptor(int fd = -1) noexcept : fd_(fd) {}
  Descriptor(Descriptor&& other) noexcept : fd_(std::exchange(other.fd_, -1)) {}
  Descriptor& operator=(Descriptor&& other) noexcept {
    std::swap(fd_, other.fd_);
    return *this;
  }
  ~Descriptor() { close(); }
  void close() noexcept {
    if (fd_ >= 0) ::close(fd_);
    fd_ = -1;
  }
  int fd() const noexcept { return fd_; }
  bool is_open() const noexcept { return fd_ >= 0; }
  bool set_nonblocking() const noexcept { return fcntl(fd_, F_SETFL, O_NONBLOCK) == 0; }
  bool set(int level, int option) const noexcept {
    const int yes = 1;
    return setsockopt(fd_, level, option, &yes, sizeof yes) == 0;
  }

 private:
  int fd_;
};

inline std::error_code error_of_system() { return {errno, std::generic_category()}; }

/* Waits for descriptors, each of which has a slot. */
class Waiter {
 public:
#ifdef LEMONRUDDER_LOOP_EPOLL
  explicit Waiter(std::size_t) : epoll_(epoll_create1(EPOLL_CLOEXEC)) {}

  /* Waits for events from now on, in place of those before; -1 before is none. */
  bool watch(std::size_t slot, int fd, short events, short before) noexcept {
    epoll_event event{};
    event.events = (events & POLLIN ? EPOLLIN : 0U) | (events & POLLOUT ? EPOLLOUT : 0U);
    event.data.u64 = slot;
    return epoll_ctl(epoll_.fd(), before < 0 ? EPOLL_CTL_ADD : EPOLL_CTL_MOD, fd, &event) == 0;
  }
  /* Waits no more for a descriptor that is about to be closed. */
  void forget(std::size_t) noexcept {}
  /* Waits so long at most, and names the slots of what is ready, and whether it is broken. */
  template <class Ready>
  bool wait(int milliseconds, Ready ready) {
    epoll_event events[64];
    const int count = epoll_wait(epoll_.fd(), events, 64, milliseconds);
    for (int index = 0; index < count; index++)
      ready(static_cast<std::size_t>(events[index].data.u64), (events[index].events & (EPOLLERR | EPOLLHUP)) != 0);
    return count >= 0 || errno == EINTR;
  }

 private:
  Descriptor epoll_;
#else
  explicit Waiter(std::size_t slots) { polls_.reserve(slots); }

  // (poll() takes no more of them than a process may have descriptors)
  bool watch(std::size_t slot, int fd, short events, short) noexcept {
    if (polls_.size() <= slot) polls_.resize(slot + 1, pollfd{-1, 0, 0});
    polls_[slot] = {fd, events, 0};
    return true;
  }
  void forget(std::size_t slot) noexcept {
    if (slot < polls_.size()) polls_[slot].fd = -1;
  }
  template <class Ready>
  bool wait(int milliseconds, Ready ready) {
    const int count = poll(polls_.data(), static_cast<nfds_t>(polls_.size()), milliseconds);
    for (std::size_t slot = 0; count > 0 && slot < polls_.size(); slot++)
      if (polls_[slot].fd >= 0 && polls_[slot].revents != 0)
        ready(slot, (polls_[slot].revents & (POLLERR | POLLHUP)) != 0);
    return count >= 0 || errno == EINTR;
  }

 private:
  std::vector<pollfd> polls_;
#endif
};

/* What other threads hand to a loop, and the pipe that wakes it. */
class Mailbox {
 public:
  /* What is done on the loop's thread; where there is no memory for it, it is done again later. */
  using Task = std::function<Done(Server&)>;

  Mailbox() noexcept {
    int ends[2] = {-1, -1};
    if (pipe(ends) != 0) return;
    out_ = Descriptor(ends[0]);
    in_ = Descriptor(ends[1]);
    if (!out_.set_nonblocking() || !in_.set_nonblocking()) out_.close();
  }
  int fd() const noexcept { return out_.fd(); }

  void post(Task task) {
    {
      const std::lock_guard<std::mutex> held(lock_);
      tasks_.push_back(std::move(task));
    }
    wake();
  }
  /* What was posted since the last time. */
  std::vector<Task> take() {
    char octets[64];
    while (read(out_.fd(), octets, sizeof octets) > 0) continue;
    const std::lock_guard<std::mutex> held(lock_);
    return std::exchange(tasks_, {});
  }
  void stop() noexcept {
    is_stopped_ = true;
    wake();
  }
  bool is_stopped() const noexcept { return is_stopped_; }

  /* Whom a signal stops. */
  static inline std::atomic<Mailbox*> of_signal{nullptr};

 private:
  /* (A pipe that is full wakes it too.) */
  void wake() noexcept {
    const int before = errno;
    if (write(in_.fd(), "", 1) != 1) errno = before;
    errno = before;
  }

  Descriptor out_;
  Descriptor in_;
  std::mutex lock_;
  std::vector<Task> tasks_;
  std::atomic<bool> is_stopped_{false};
};

}  // namespace detail

/* A parked request, which any thread answers, once. It may outlive the loop, where it does nothing. One that is gone
 * unanswered answers INTERNAL, COMPLETED_MAYBE. */
class Later {
 public:
  Later() noexcept = default;
  Later(std::uint64_t ticket, std::shared_ptr<detail::Mailbox> mailbox) noexcept
      : ticket_(ticket), mailbox_(std::move(mailbox)) {}
  Later(Later&&) noexcept = default;
  Later& operator=(Later&& other) noexcept {
    std::swap(ticket_, other.ticket_);
    std::swap(mailbox_, other.mailbox_);
    std::swap(contexts_order_, other.contexts_order_);
    std::swap(contexts_, other.contexts_);
    return *this;
  }
  ~Later() { system(SystemException::internal, Completed::maybe); }

  std::uint64_t ticket() const noexcept { return ticket_; }

  /* As the calls of Server that have these names. An outcome that is none of the operation answers INTERNAL,
   * COMPLETED_MAYBE. */
  void answer(Order order, Octets results) {
    end([order, copy = copy_of(results)](Server& server, std::uint64_t ticket) {
      return server.answer(ticket, order, copy);
    });
  }
  void answer(const GrowingWriter& results) {
    if (results.done())
      answer(results.order(), results.octets());
    else
      system(SystemException::internal, Completed::maybe);
  }
  void raise(Octets id, Order order, Octets members) {
    end([order, name = copy_of(id), copy = copy_of(members)](Server& server, std::uint64_t ticket) {
      return server.raise(ticket, name, order, copy);
    });
  }
  void raise(Octets id, const GrowingWriter& members) {
    if (members.done())
      raise(id, members.order(), members.octets());
    else
      system(SystemException::internal, Completed::maybe);
  }
  void system(SystemException name, Completed completed, std::uint32_t minor = 0) {
    end([=](Server& server, std::uint64_t ticket) { return server.system(ticket, name, minor, completed); });
  }
  void answer_raw(ReplyStatus status, Order order, Octets body) {
    end([status, order, copy = copy_of(body)](Server& server, std::uint64_t ticket) {
      return server.answer_raw(ticket, status, order, copy);
    });
  }
  void answer_stored(const Outcome& outcome) { answer_raw(outcome.status, outcome.order, outcome.body); }
  void answer_unkept(Outcome outcome) {
    end([kept = std::move(outcome)](Server& server, std::uint64_t ticket) {
      return server.answer_unkept(ticket, kept);
    });
  }
  /* Service contexts for its replies; the last that are said count. */
  void reply_contexts(Order order, Octets contexts) {
    contexts_order_ = order;
    contexts_ = copy_of(contexts);
  }
  /* Nothing was done: it is refused for now. */
  void refuse(SystemException name = SystemException::transient, std::uint32_t minor = 0) {
    end([=](Server& server, std::uint64_t ticket) { return server.refuse(ticket, name, minor); });
  }

 private:
  static std::vector<std::uint8_t> copy_of(Octets octets) { return {octets.begin(), octets.end()}; }

  template <class Call>
  void end(Call call) {
    const auto mailbox = std::exchange(mailbox_, nullptr);
    if (!mailbox) return;
    mailbox->post([call = std::move(call), ticket = ticket_, order = contexts_order_,
                   contexts = std::move(contexts_)](Server& server) {
      if (!contexts.empty()) static_cast<void>(server.reply_contexts(ticket, order, contexts));
      Done done = call(server, ticket);
      if (done.error() != LR_E_OUTCOME) return done;
      return server.system(ticket, SystemException::internal, 0, Completed::maybe);
    });
  }

  std::uint64_t ticket_ = 0;
  std::shared_ptr<detail::Mailbox> mailbox_;
  Order contexts_order_ = Order::big;
  std::vector<std::uint8_t> contexts_;
};

/* A request that waits, for a servant to answer. */
class Asked {
 public:
  Asked(Server& server, const Request& request, std::shared_ptr<detail::Mailbox> mailbox) noexcept
      : server_(server), request_(request), mailbox_(std::move(mailbox)) {}

  const Request& request() const noexcept { return request_; }
  std::uint64_t ticket() const noexcept { return request_.ticket; }
  Server& server() noexcept { return server_; }
  Octets key() const noexcept { return key_; }
  std::string_view operation() const noexcept { return Octets(operation_).text(); }
  /* As it came: it begins with the arguments. */
  Octets body() const noexcept { return body_; }
  /* A reader of the body. Of an operation with types it can't fail where these are read. */
  Reader arguments() const noexcept { return Reader(Octets(body_), request_.byte_order(), request_.body_at); }
  /* The client id of FT_REQUEST. */
  Result<std::vector<std::uint8_t>> client() noexcept { return part(LR_PART_CLIENT, request_.client_size); }

  /* As the calls of Server that have these names. */
  Done answer(Order order, Octets results) noexcept { return server_.answer(ticket(), order, results); }
  Done answer(const GrowingWriter& results) noexcept {
    return results.done().and_then([&] { return answer(results.order(), results.octets()); });
  }
  Done raise(Octets id, Order order, Octets members) noexcept { return server_.raise(ticket(), id, order, members); }
  Done raise(Octets id, const GrowingWriter& members) noexcept {
    return members.done().and_then([&] { return raise(id, members.order(), members.octets()); });
  }
  Done system(SystemException name, Completed completed, std::uint32_t minor = 0) noexcept {
    return server_.system(ticket(), name, minor, completed);
  }
  Done answer_raw(ReplyStatus status, Order order, Octets body) noexcept {
    return server_.answer_raw(ticket(), status, order, body);
  }
  Result<bool> can_answer(Order order, Octets results) noexcept { return server_.can_answer(ticket(), order, results); }
  Result<Outcome> stored(Order order, Octets results) noexcept { return server_.stored(ticket(), order, results); }
  Result<Outcome> stored_exception(Octets id, Order order, Octets members) noexcept {
    return server_.stored_exception(ticket(), id, order, members);
  }
  Done answer_stored(const Outcome& outcome) noexcept { return server_.answer_stored(ticket(), outcome); }
  Done answer_unkept(const Outcome& outcome) noexcept { return server_.answer_unkept(ticket(), outcome); }
  Done reply_contexts(Order order, Octets contexts) noexcept {
    return server_.reply_contexts(ticket(), order, contexts);
  }
  Done refuse(SystemException name = SystemException::transient, std::uint32_t minor = 0) noexcept {
    return server_.refuse(ticket(), name, minor);
  }
  /* Parks it, to be answered later. LR_E_PARKS, LR_E_MEMORY: it waits still. */
  Result<Later> later() noexcept {
    if (const Done parked = server_.park(ticket()); !parked) return parked.error();
    return Later(ticket(), mailbox_);
  }

 private:
  friend class Loop;

  struct Load {
    std::uint32_t name;
    std::uint64_t size;
    std::vector<std::uint8_t>* octets;
  };

  /* Takes the parts that are lent. */
  Done load() noexcept {
    for (auto [name, size, octets] :
         {Load{LR_PART_KEY, request_.key_size, &key_}, Load{LR_PART_OPERATION, request_.operation_size, &operation_},
          Load{LR_PART_BODY, request_.body_size, &body_}}) {
      auto copied = part(name, size);
      if (!copied) return copied.error();
      *octets = *std::move(copied);
    }
    return {};
  }

  Result<std::vector<std::uint8_t>> part(std::uint32_t name, std::uint64_t size) noexcept {
    const auto copy = [&](std::uint8_t* room, std::size_t room_size) {
      return lr_server_part(server_.slot(), ticket(), name, room, room_size);
    };
    return detail::copied(copy, size);
  }

  Server& server_;
  Request request_;
  std::shared_ptr<detail::Mailbox> mailbox_;
  std::vector<std::uint8_t> key_;
  std::vector<std::uint8_t> operation_;
  std::vector<std::uint8_t> body_;
};

/* Serves objects whose operations are performed by servants. */
class Loop {
 public:
  /* Answers a request, or takes a Later of it. What it leaves waiting is refused, by TRANSIENT or what would refuse it,
   * so of that it must have done nothing. */
  using Servant = std::function<Done(Asked&)>;

  explicit Loop(LoopLimits limits = {}) : limits_(limits), waiter_(first + limits.peers), peers_(first + limits.peers) {
    if (auto opened = Catalogue::open()) catalogue_ = *std::move(opened);
    if (auto opened = Catalogue::open()) of_families_ = *std::move(opened);
    for (std::size_t slot = peers_.size(); slot-- > first;) unused_.push_back(slot);
  }
  ~Loop() {
    detail::Mailbox* mine = mailbox_.get();
    detail::Mailbox::of_signal.compare_exchange_strong(mine, nullptr);
  }
  Loop(const Loop&) = delete;
  Loop& operator=(const Loop&) = delete;

  /* ---- what is on offer: before open(), and on the thread of serve(), also in an operation ---- */

  /* An object, and the repository id of its type. */
  Done object(Octets key, const char* type) { return object(key, {type}); }
  /* .. and the ids of its bases behind it. */
  Done object(Octets key, std::initializer_list<const char*> types) {
    std::string name(key.text()), ids;
    if (types_.find(name) != types_.end()) return Error(LR_E_TAKEN);
    for (const char* type : types) ids.append(type).push_back('\0');
    const auto add = [name, ids](Catalogue& all) {
      return all.object(name).and_then([&] { return all.repository_ids(name, ids); });
    };
    return change(key, add).transform([&] { types_[name] = *types.begin(); });
  }
  /* An exception of the operation that is added next, if that is not raw. */
  Done exception(Octets id, Types members) {
    auto scratch = Catalogue::open();
    if (!scratch) return scratch.error();
    const Done done = scratch->exception(id, members);
    return done.transform([&] { exceptions_.emplace_back(id.text(), copy_of(members)); });
  }
  Done operation(Octets key, std::string_view name, Types arguments, Types results, Servant servant) {
    const auto add = [object = std::string(key.text()), operation = std::string(name), arguments = copy_of(arguments),
                      results = copy_of(results), raised = std::exchange(exceptions_, {})](Catalogue& all) {
      Done done;
      for (auto one = raised.begin(); done && one != raised.end(); ++one) done = all.exception(one->first, one->second);
      return done ? all.operation(object, operation, arguments, results) : done;
    };
    return change(key, add).transform([&] { employ(key, name, servant); });
  }
  Done raw_operation(Octets key, std::string_view name, Servant servant) {
    const auto add = [object = std::string(key.text()), operation = std::string(name)](Catalogue& all) {
      return all.raw_operation(object, operation);
    };
    return change(key, add).transform([&] { employ(key, name, servant); });
  }

  /* A family, before open(): the objects whose keys begin so, of which `exists` says which there are; whose type and
   * operations those are that its prefix is given. Who asks for another one is answered OBJECT_NOT_EXIST. */
  Done family(Octets prefix, std::initializer_list<const char*> types, std::function<bool(Octets)> exists) {
    if (is_open_) return Error(LR_E_OPEN);
    families_[std::string(prefix.text())] = std::move(exists);
    const Done done = object(prefix, types);
    if (!done) families_.erase(std::string(prefix.text()));
    return done;
  }

  /* ---- before open() ---- */

  /* Who performs what no servant above is named for, and is asked for what would be refused (Settings::ask_first). */
  void otherwise(Servant servant) { otherwise_ = std::move(servant); }
  /* The catalogue itself, for the rest. */
  Catalogue& catalogue() noexcept { return catalogue_; }

  /* ---- before serve() ---- */

  /* Opens the server. A peer is fed no more while so many octets are due to it, 65536 where nothing is given, or so
   * many of its requests parked. */
  Done open(Settings settings = {}) noexcept {
    Seeds seeds{};
    if (getentropy(&seeds, sizeof seeds) != 0) return Error(LR_E_RANGE);
    if (!settings.due) settings.due = 65536;
    if (!settings.parked_of_one) settings.parked_of_one = 64;
    most_parked_ = *settings.parked_of_one;
    if (!families_.empty())
      if (const Done done = catalogue_.families(of_families_); !done) return done;
    asks_first_ = settings.ask_first.value_or(false);
    auto opened = Server::open(catalogue_, seeds, settings);
    if (!opened) return opened.error();
    server_ = *std::move(opened);
    is_open_ = true;
    if (auto another = Catalogue::open()) catalogue_ = *std::move(another);
    return {};
  }
  Server& server() noexcept { return server_; }

  /* Listens at an IPv4 address. Port 0 becomes one that is free. */
  std::error_code listen(const char* address, std::uint16_t port) {
    sockaddr_in name{};
    socklen_t size = sizeof name;
    auto* const at = reinterpret_cast<sockaddr*>(&name);
    name.sin_family = AF_INET;
    name.sin_port = htons(port);
    if (inet_pton(AF_INET, address, &name.sin_addr) != 1) return std::make_error_code(std::errc::invalid_argument);
    detail::Descriptor made(socket(AF_INET, SOCK_STREAM, 0));
    made.set(SOL_SOCKET, SO_REUSEADDR);
    if (bind(made.fd(), at, size) != 0 || ::listen(made.fd(), SOMAXCONN) != 0 || !made.set_nonblocking() ||
        getsockname(made.fd(), at, &size) != 0)
      return detail::error_of_system();
    listener_ = std::move(made);
    address_ = address;
    port_ = ntohs(name.sin_port);
    return {};
  }
  std::uint16_t port() const noexcept { return port_; }

  /* The reference of an object, at the address where the loop listens, or at a host of another name. */
  Result<std::string> reference(Octets key, std::string_view host = {}) {
    const auto family = types_.find(key.text()) == types_.end() ? family_of(key) : families_.end();
    const std::string type = types_[family == families_.end() ? std::string(key.text()) : family->first];
    auto ior = Ior::iiop(type, 2, host.empty() ? address_ : host, port_, key);
    if (!ior) return ior.error();
    return ior->print();
  }

  /* Has a signal, as SIGTERM, stop this loop, and not end the process. */
  std::error_code stop_at(int signal) {
    detail::Mailbox::of_signal = mailbox_.get();
    struct sigaction action {};
    action.sa_handler = [](int) {
      if (detail::Mailbox* const told = detail::Mailbox::of_signal) told->stop();
    };
    return sigaction(signal, &action, nullptr) == 0 ? std::error_code() : detail::error_of_system();
  }

  /* ---- while it serves ---- */

  /* Serves until it is told to stop. Then each peer is told goodbye, behind the replies to what it has parked. */
  std::error_code serve() {
    using namespace std::chrono_literals;
    if (!waiter_.watch(wake, mailbox_->fd(), POLLIN, -1) || !listen_for(true)) return detail::error_of_system();
    auto end = detail::LoopClock::time_point::max();
    for (auto passed = detail::LoopClock::now(); !is_stopping_ || (peer_count() > 0 && passed < end);) {
      const auto before = static_cast<std::ptrdiff_t>(turns_.size());
      is_called_ = is_woken_ = false;
      if (!waiter_.wait(before == 0 ? 1000 : 0, [this](auto slot, bool is_broken) { on_ready(slot, is_broken); }))
        return detail::error_of_system();
      const auto now = detail::LoopClock::now();
      const bool is_second = now - passed >= 1s;
      if (is_woken_ || is_second) take_tasks(is_second);
      go_on();
      // (who has more to feed lets those go first who were ready meanwhile)
      std::rotate(turns_.begin(), turns_.begin() + before, turns_.end());
      take_turns();
      go_on();
      if (!leaving_.empty()) take_out();
      if (is_called_ && listener_.is_open()) accept_peers();
      if (is_second) pass(now);
      if (is_second) passed = now;
      if (is_stopping_ || !mailbox_->is_stopped()) continue;
      is_stopping_ = true;
      end = now + limits_.drain;
      part_from_all();
    }
    for (std::size_t slot = first; slot < peers_.size(); slot++)
      if (peers_[slot]) drop(slot);
    return {};
  }

  /* Takes an object away, on the thread of serve(), also in an operation. Who asks for it from now on is answered
   * OBJECT_NOT_EXIST; with Settings::ask_first the servant of otherwise() is asked for what has FT_REQUEST, as for what
   * is refused so. What is parked of it ends by its own outcome, which is kept. Once nothing of it is parked it is
   * taken out of what is on offer; up to then its key is taken, and a LocateRequest says that it is here. */
  void remove(Octets key) { leaving_.insert(std::string(key.text())); }

  /* Tells it to stop. Any thread may, and a signal's handler. */
  void stop() noexcept { mailbox_->stop(); }

  /* Has something done on the thread of serve(). Any thread may. */
  void post(std::function<void()> task) {
    mailbox_->post([task = std::move(task)](Server&) {
      task();
      return Done();
    });
  }

 private:
  // octets that are read, fed and sent at a time; how often is sent in a turn, and accepted; and after what time a turn
  // feeds no more
  static constexpr std::size_t piece = 4096;
  static constexpr std::size_t step = 1024;
  static constexpr std::size_t room = 16384;
  static constexpr std::chrono::microseconds slice{25};
  static constexpr int sends = 4;
  static constexpr int accepts = 16;
  // what is waited for: the pipe by which the loop is woken, the socket that listens, and peers
  static constexpr std::size_t wake = 0;
  static constexpr std::size_t listener = 1;
  static constexpr std::size_t first = 2;

  struct Peer {
    detail::Descriptor socket;
    std::uint64_t connection = 0;  // its remainder by the number of slots is the slot
    short events = -1;             // what is waited for
    bool has_turn = false;
    bool is_held = false;  // too many of its requests are parked to feed it
    bool is_shut = false;  // all is sent, and what comes means nothing
    detail::LoopClock::time_point until;
    std::size_t got = 0;  // of what came, of which the first `fed` octets are fed
    std::size_t fed = 0;
    std::size_t size = 0;  // of what is due, of which the first `sent` octets are sent; 0 only where none are due
    std::size_t sent = 0;
    std::uint8_t came[piece];
    std::uint8_t due[room];

    bool has_unfed() const noexcept { return fed < got; }
    bool has_unsent() const noexcept { return sent < size; }
  };

  using Change = std::function<Done(Catalogue&)>;

  static std::vector<std::uint8_t> copy_of(Types types) { return {types.begin(), types.end()}; }

  /* Changes what is on offer. While a request waits that can't be done: a catalogue of its own says whether it can be,
   * and it is done before anybody is fed again. */
  Done change(Octets key, Change made) {
    if (!is_open_) return made(families_.find(key.text()) == families_.end() ? catalogue_ : of_families_);
    if (!is_asking_ && changes_.empty()) return exchange(made);
    const Done done = made(catalogue_);
    if (done) changes_.push_back(std::move(made));
    return done;
  }

  Done exchange(const Change& made) {
    auto all = Catalogue::open();
    if (!all) return all.error();
    if (const Done swapped = server_.swap(*all); !swapped) return swapped;
    const Done done = made(*all);
    static_cast<void>(server_.swap(*all));
    return done;
  }

  /* Makes the changes that had to wait; where memory is short the rest is made later. */
  void make_changes() {
    while (!changes_.empty() && exchange(changes_.front()).error() != LR_E_MEMORY) changes_.pop_front();
    if (!changes_.empty()) return;
    if (auto opened = Catalogue::open()) catalogue_ = *std::move(opened);
  }

  void employ(Octets key, std::string_view name, Servant& servant) {
    servants_[std::string(key.text())][std::string(name)] = std::move(servant);
  }

  std::size_t peer_count() const noexcept { return limits_.peers - unused_.size(); }
  std::size_t slot_of(const Peer& peer) const noexcept { return peer.connection % peers_.size(); }
  std::size_t parked_of(const Peer& peer) noexcept { return server_.parked_of(peer.connection).value_or(0); }

  void give_turn(Peer& peer) {
    if (!std::exchange(peer.has_turn, true)) turns_.push_back(slot_of(peer));
  }

  void hold(Peer& peer, bool is_held) noexcept {
    if (is_held && !peer.is_held) held_count_++;
    if (!is_held && peer.is_held) held_count_--;
    peer.is_held = is_held;
  }

  void drop(std::size_t slot) {
    hold(*peers_[slot], false);
    static_cast<void>(server_.lost(peers_[slot]->connection));
    waiter_.forget(slot);
    peers_[slot].reset();
    unused_.push_back(slot);
    if (listener_.is_open()) listen_for(true);
  }

  /* Has the request that waits performed. */
  void perform() {
    auto request = server_.asked();
    if (!request.ok() || !*request) return;
    const std::uint64_t ticket = (*request)->ticket;
    Asked asked(server_, **request, mailbox_);
    if ((!leaving_.empty() || !families_.empty()) && is_gone(asked)) return;
    const auto identified = server_.identify(ticket);
    if (!identified.ok() || *identified) return;
    if (!asked.load()) return;
    auto object = servants_.find(asked.key().text());
    if (const auto family = family_of(asked.key()); object == servants_.end() && family != families_.end())
      object = servants_.find(family->first);
    const Servant* servant = &otherwise_;
    if (object != servants_.end() && !asked.request().refused_by()) {
      const auto named = object->second.find(asked.operation());
      if (named != object->second.end()) servant = &named->second;
    }
    if (*servant) static_cast<void>((*servant)(asked));
    note_parked(ticket, asked.key());
  }

  /* The family of a key: that of the longest prefix. */
  std::map<std::string, std::function<bool(Octets)>, std::less<>>::iterator family_of(Octets key) {
    auto found = families_.end();
    for (auto it = families_.begin(); it != families_.end(); ++it)
      if (key.text().substr(0, it->first.size()) == it->first &&
          (found == families_.end() || found->first.size() < it->first.size()))
        found = it;
    return found;
  }

  /* Whether the object of a key leaves, or is one that its family lacks. */
  bool lacks(Octets key) {
    if (leaving_.find(key.text()) != leaving_.end()) return true;
    const auto family = types_.find(key.text()) == types_.end() ? family_of(key) : families_.end();
    return family != families_.end() && !family->second(key);
  }

  /* Whether a request is of an object that leaves, or that a family lacks, and it is refused, or given up where it can't
   * be read. Where it is asked for first it is said to be refused so, and not yet. */
  bool is_gone(Asked& asked) {
    if (!asked.load()) return static_cast<void>(server_.give_up(asked.ticket())), true;
    if (!lacks(asked.key())) return false;
    asked.request_.is_refused = asked.request_.is_raw = 1;
    asked.request_.refusal = LR_EX_OBJECT_NOT_EXIST;
    if (asks_first_ && asked.request().has_client) return false;
    return static_cast<void>(asked.refuse(SystemException::object_not_exist)), true;
  }

  bool is_parked(std::uint64_t ticket) noexcept { return server_.wanted(ticket).ok(); }

  /* Notes of what object a request is that was performed, if it is parked. */
  void note_parked(std::uint64_t ticket, Octets key) {
    if (!is_parked(ticket)) return;
    parked_.emplace(ticket, key.text());
    if (parked_.size() < 64 + 2 * server_.parked().value_or(0)) return;
    for (auto it = parked_.begin(); it != parked_.end();) it = is_parked(it->first) ? std::next(it) : parked_.erase(it);
  }

  /* Whether something of an object is parked. */
  bool is_called_yet(const std::string& key) {
    return std::any_of(parked_.begin(), parked_.end(),
                       [&](const auto& one) { return one.second == key && is_parked(one.first); });
  }

  /* Takes objects out of what is on offer of which nothing is parked any more. */
  void take_out() {
    for (auto it = leaving_.begin(); it != leaving_.end();) {
      auto all = Catalogue::open();
      if (is_called_yet(*it) || !all || !server_.swap(*all)) {
        ++it;
        continue;
      }
      static_cast<void>(all->remove(*it));
      static_cast<void>(server_.swap(*all));
      servants_.erase(*it);
      types_.erase(*it);
      it = leaving_.erase(it);
    }
  }

  static Octets left_of(const Peer& peer) noexcept { return {peer.came + peer.fed, peer.got - peer.fed}; }

  /* Feeds what came, until enough is due or parked, or the turn is over. */
  void feed(Peer& peer) {
    const std::uint64_t moment = now();
    const auto end = detail::LoopClock::now() + slice;
    while (peer.has_unfed()) {
      hold(peer, parked_of(peer) >= most_parked_);
      if (peer.is_held) return;
      const auto taken = server_.feed(peer.connection, moment, left_of(peer).first(step));
      is_asking_ = true;
      perform();
      if (const auto left = server_.asked(); left.ok() && *left) {
        const auto refusal = (*left)->refused_by().value_or(SystemException::transient);
        static_cast<void>(server_.refuse((*left)->ticket, refusal, 0));
      }
      is_asking_ = false;
      if (!changes_.empty()) make_changes();
      // (where the connection is gone, what was answered is sent)
      peer.fed = taken ? peer.fed + *taken : peer.got;
      if ((taken && *taken == 0) || detail::LoopClock::now() > end) return;
    }
  }

  /* Takes more of what is due, where all of that which was taken is sent. */
  void collect(Peer& peer) noexcept {
    if (peer.has_unsent()) return;
    peer.size = server_.output(peer.connection, {peer.due, room}).value_or(0);
    peer.sent = 0;
  }

  /* Sends of what is due as much as the socket takes, for a turn, and answers how much that was; -1 where the
   * connection is over. */
  ssize_t send_due(Peer& peer) noexcept {
    ssize_t all = 0;
    collect(peer);
    for (int count = 0; count < sends && peer.has_unsent(); count++) {
      const ssize_t sent = send(peer.socket.fd(), peer.due + peer.sent, peer.size - peer.sent, MSG_NOSIGNAL);
      if (sent < 0) return errno == EAGAIN || errno == EINTR ? all : -1;
      peer.sent += static_cast<std::size_t>(sent);
      all += sent;
      collect(peer);
    }
    return all;
  }

  /* Reads a piece, where all of the one before is fed, and nothing is due. Answers its size; -1 where the connection is
   * over. */
  ssize_t read_piece(Peer& peer) noexcept {
    if (peer.has_unfed() || peer.has_unsent()) return 0;
    const ssize_t got = recv(peer.socket.fd(), peer.came, piece, 0);
    if (got < 0 && (errno == EAGAIN || errno == EINTR)) return 0;
    peer.fed = 0;
    peer.got = got > 0 && !peer.is_shut ? static_cast<std::size_t>(got) : 0;
    return got > 0 ? got : -1;
  }

  /* Waits for what a peer's next turn is for, or gives it one. False where that fails. */
  bool await(Peer& peer) {
    short events = POLLIN;
    if (peer.has_unsent()) {
      events = POLLOUT;
    } else if (peer.has_unfed()) {
      events = 0;
      if (!peer.is_held) {
        give_turn(peer);
        return true;
      }
    }
    const short before = std::exchange(peer.events, events);
    return events == before || waiter_.watch(slot_of(peer), peer.socket.fd(), events, before);
  }

  /* A turn of a peer: reads, feeds and sends. False where the connection is over. */
  bool attend(Peer& peer) {
    const ssize_t got = read_piece(peer);
    if (got < 0) return false;
    feed(peer);
    const ssize_t sent = send_due(peer);
    if (sent < 0) return false;
    const bool is_closed = server_.is_closed(peer.connection);
    const auto moment = detail::LoopClock::now();
    if (is_closed)
      peer.until = std::min(peer.until, moment + limits_.linger);
    else if (got > 0 || sent > 0)
      peer.until = moment + limits_.idle;
    if (is_closed && !peer.is_shut && !peer.has_unsent()) {
      peer.is_shut = true;
      if (shutdown(peer.socket.fd(), SHUT_WR) != 0) return false;
    }
    return await(peer);
  }

  /* Says goodbye to a peer, behind the replies to what it has parked. What comes of it then means nothing. */
  void part_from(Peer& peer) {
    static_cast<void>(server_.farewell(peer.connection));
    if (!attend(peer)) drop(slot_of(peer));
  }

  /* Whether a peer waits for nothing of ours: all is fed, nothing is due, parked or ended. */
  bool is_idle(const Peer& peer) noexcept {
    return !peer.has_unfed() && !peer.has_unsent() && parked_of(peer) == 0 && !server_.is_closed(peer.connection);
  }

  /* Gives a turn to each peer to which something became due by the outcome of a parked request, and to those that were
   * not fed since too many were parked. */
  void go_on() {
    for (const auto connection : server_.due())
      if (auto& peer = peers_[connection % peers_.size()]) give_turn(*peer);
    for (std::size_t slot = first; held_count_ > 0 && slot < peers_.size(); slot++)
      if (peers_[slot] && peers_[slot]->is_held && parked_of(*peers_[slot]) < most_parked_) give_turn(*peers_[slot]);
  }

  /* Takes the turns that were given; what is given meanwhile is for the next round. */
  void take_turns() {
    for (std::size_t count = turns_.size(); count > 0; count--) {
      const std::size_t slot = turns_.front();
      turns_.pop_front();
      if (!peers_[slot]) continue;
      peers_[slot]->has_turn = false;
      if (!attend(*peers_[slot])) drop(slot);
    }
  }

  /* Does what was posted, and, once a second, what found no memory. */
  void take_tasks(bool is_second) {
    auto tasks = mailbox_->take();
    if (is_second) {
      tasks.insert(tasks.end(), again_.begin(), again_.end());
      again_.clear();
    }
    for (auto& task : tasks)
      if (task(server_).error() == LR_E_MEMORY) again_.push_back(std::move(task));
  }

  /* Makes a place for another peer: drops the one that stays longest after the end of its stream, or says goodbye to
   * the one that is idle longest, for a second at least. False where all are busy. */
  bool make_place() {
    Peer* ended = nullptr;
    Peer* idle = nullptr;
    const auto least = detail::LoopClock::now() + limits_.idle - std::chrono::seconds(1);
    for (const auto& peer : peers_) {
      if (!peer) continue;
      if (peer->is_shut && (!ended || peer->until < ended->until)) ended = peer.get();
      if (peer->until <= least && (!idle || peer->until < idle->until) && is_idle(*peer)) idle = peer.get();
    }
    if (ended)
      drop(slot_of(*ended));
    else if (idle)
      part_from(*idle);
    return ended || idle;
  }

  /* Begins to serve a peer. */
  void begin(detail::Descriptor socket) {
    const std::size_t slot = unused_.back();
    auto& peer = peers_[slot];
    peer.reset(new Peer);
    unused_.pop_back();
    peer->socket = std::move(socket);
    peer->connection = last_ = (last_ / peers_.size() + 1) * peers_.size() + slot;
    peer->until = detail::LoopClock::now() + limits_.idle;
    peer->socket.set(IPPROTO_TCP, TCP_NODELAY);  // (a reply waits for no acknowledgement)
    if (!peer->socket.set_nonblocking() || !server_.connect(last_) || !await(*peer)) drop(slot);
  }

  bool listen_for(bool is_on) noexcept {
    const short before = std::exchange(listener_events_, is_on ? POLLIN : short{0});
    return before == listener_events_ || waiter_.watch(listener, listener_.fd(), listener_events_, before);
  }

  void accept_peers() {
    for (int count = 0; count < accepts; count++) {
      bool is_full = unused_.empty();
      detail::Descriptor socket(is_full ? -1 : accept(listener_.fd(), nullptr, nullptr));
      if (socket.is_open()) {
        begin(std::move(socket));
        continue;
      }
      // (without a place or descriptors the listener stays ready, and asking again would be in vain; that one waits is
      // known at first alone)
      is_full = is_full || errno == EMFILE || errno == ENFILE || errno == ENOBUFS || errno == ENOMEM;
      if (count > 0) return;
      if (is_full && make_place()) continue;
      if (is_full) listen_for(false);
      return;
    }
  }

  void on_ready(std::size_t slot, bool is_broken) {
    if (slot == listener) {
      is_called_ = true;
    } else if (slot == wake) {
      is_woken_ = true;
    } else if (peers_[slot]) {
      if (is_broken)
        drop(slot);
      else
        give_turn(*peers_[slot]);
    }
  }

  /* What is done once a second: parts from peers whose time is over, at once where they take nothing or their stream
   * has ended. One that waits for a parked request has more time. A connection that is lost, since there was no memory
   * for the reply to what it had parked, is found here alone. */
  void pass(detail::LoopClock::time_point moment) {
    for (std::size_t slot = first; slot < peers_.size(); slot++) {
      if (!peers_[slot]) continue;
      Peer& peer = *peers_[slot];
      if (!peer.is_shut && server_.is_closed(peer.connection)) give_turn(peer);
      if (moment < peer.until) continue;
      if (is_idle(peer))
        part_from(peer);
      else if (!peer.has_unsent() && !server_.is_closed(peer.connection))
        peer.until += limits_.idle;
      else
        drop(slot);
    }
    static_cast<void>(server_.tick(now()));
    if (!changes_.empty()) make_changes();
    if (listener_.is_open()) listen_for(true);
  }

  /* Listens no more, and says goodbye to all. */
  void part_from_all() {
    listen_for(false);
    waiter_.forget(listener);
    listener_.close();
    for (std::size_t slot = first; slot < peers_.size(); slot++)
      if (peers_[slot]) part_from(*peers_[slot]);
  }

  LoopLimits limits_;
  detail::Waiter waiter_;
  std::vector<std::unique_ptr<Peer>> peers_;  // by slot
  std::vector<std::size_t> unused_;           // slots without a peer
  std::deque<std::size_t> turns_;             // slots of peers that have a turn
  std::size_t held_count_ = 0;
  std::uint64_t last_ = 0;  // the connection that was opened last

  Catalogue catalogue_;
  Catalogue of_families_;
  std::map<std::string, std::function<bool(Octets)>, std::less<>> families_;  // which of a prefix there are
  std::vector<std::pair<std::string, std::vector<std::uint8_t>>> exceptions_;  // of the operation that is added next
  Server server_;
  std::size_t most_parked_ = 0;
  std::map<std::string, std::string, std::less<>> types_;
  std::map<std::string, std::map<std::string, Servant, std::less<>>, std::less<>> servants_;
  Servant otherwise_;
  bool asks_first_ = false;
  bool is_open_ = false;
  bool is_asking_ = false;      // a request waits, or did
  std::deque<Change> changes_;  // of what is on offer, which wait
  std::set<std::string, std::less<>> leaving_;    // objects that are to be taken out of what is on offer
  std::map<std::uint64_t, std::string> parked_;  // requests that were parked, and their objects

  detail::Descriptor listener_;
  short listener_events_ = -1;
  std::string address_;
  std::uint16_t port_ = 0;

  std::shared_ptr<detail::Mailbox> mailbox_ = std::make_shared<detail::Mailbox>();
  std::vector<detail::Mailbox::Task> again_;
  bool is_called_ = false;
  bool is_woken_ = false;
  bool is_stopping_ = false;
};

}  // namespace v0_2
}  // namespace lemonrudder

#endif
