/*
 * The loop of loop.h, over epoll where there is epoll, and else, or with LOOP_POLL defined, over poll(). Sockets don't
 * block. Peers take turns: in each one a peer is read and fed 4,096 octets at most, for 25 microseconds, and sent
 * what is due. While anything is due to it nothing is read, and nothing is fed while LOOP_DUE octets are due or
 * LOOP_PARKED requests parked.
 */
#define _DEFAULT_SOURCE
#include "loop.h"

#include <arpa/inet.h>
#include <errno.h>
#include <fcntl.h>
#include <netinet/tcp.h>
#include <poll.h>
#include <signal.h>
#include <stdbool.h>
#include <stdio.h>
#include <stdlib.h>
#include <string.h>
#include <sys/socket.h>
#include <time.h>
#include <unistd.h>

/* Octets that are read, fed and sent at a time; how often is sent in a turn, and accepted; and the nanoseconds after
 * which a turn feeds no more. */
enum { PIECE = 4096, STEP = 1024, ROOM = 16384, SENDS = 4, ACCEPTS = 16, SLICE = 25000 };
/* Seconds: what a peer has to close once its stream has ended, and a pause where nobody can be accepted. */
enum { LINGER = 5, PAUSE = 1 };
/* Nanoseconds from one call of `settle` to the next. */
static const int64_t TICK = INT64_C(1000000) * LOOP_TICK;
/* What is waited for: the pipe by which the loop is woken, the socket that listens, and peers. */
enum { WAKE = 0, LISTENER = 1, FIRST = 2, SLOTS = FIRST + LOOP_PEERS };

struct peer {
  int fd;              /* -1 where there is no peer */
  uint64_t connection; /* its remainder by SLOTS is the slot */
  short events;        /* what is waited for */
  bool has_turn;       /* it is in `turns` */
  bool is_held;        /* too many of its requests are parked to feed it */
  bool is_shut;        /* all is sent, and what comes means nothing */
  int64_t until;       /* the second at which it is parted from */
  size_t got, fed;     /* of what came, `got` octets, the first `fed` ones are fed */
  size_t size, sent;   /* of what is due, `size` octets, the first `sent` ones are sent; 0 only where none are due */
};

static struct peer peers[SLOTS];
static struct { unsigned char came[PIECE], due[ROOM]; } rooms[SLOTS]; /* of the peers */
static size_t unused[LOOP_PEERS], unused_count;                       /* slots without a peer */
static size_t turns[SLOTS], next_turn, turn_count;                    /* a ring: slots of peers that have a turn */
static size_t held_count;
static uint64_t last_connection;
static int listener_fd;
static short listener_events;
static bool is_called, is_woken; /* the listener is ready, and loop_wake was called */
static lr_server *served;
static void (*performs)(lr_server *server, const lr_request *asked);
static int wake_pipe[2];
static volatile sig_atomic_t is_told;

/* ---- what is waited for ---- */

static void on_ready(size_t slot, bool is_broken);
static bool listen_for(bool is_on);

#if defined(__linux__) && !defined(LOOP_POLL)
#include <sys/epoll.h>

static int waiter = -1;

static bool open_waiter(void) { return (waiter = epoll_create1(EPOLL_CLOEXEC)) >= 0; }

static void close_waiter(void) { close(waiter); }

/* Waits for events on a descriptor from now on, in place of those before; -1 before is none. */
static bool watch(size_t slot, int fd, short events, short before) {
  uint32_t bits = (events & POLLIN ? (uint32_t)EPOLLIN : 0) | (events & POLLOUT ? (uint32_t)EPOLLOUT : 0);
  struct epoll_event event = {.events = bits, .data.u64 = slot};
  return epoll_ctl(waiter, before < 0 ? EPOLL_CTL_ADD : EPOLL_CTL_MOD, fd, &event) == 0;
}

/* Waits no more for a descriptor that is about to be closed, which takes it out. */
static void forget(size_t slot) { (void)slot; }

/* Waits so long at most, and names what is ready. */
static bool wait_for(int milliseconds) {
  struct epoll_event events[64];
  int count = epoll_wait(waiter, events, 64, milliseconds);
  for (int index = 0; index < count; index++)
    on_ready((size_t)events[index].data.u64, (events[index].events & (EPOLLERR | EPOLLHUP)) != 0);
  return count >= 0 || errno == EINTR;
}

#else

/* (poll() takes no more of them than a process may have descriptors.) */
static struct pollfd polls[SLOTS];
static size_t polled;

static bool open_waiter(void) { return true; }

static void close_waiter(void) {}

static bool watch(size_t slot, int fd, short events, short before) {
  (void)before;
  while (polled <= slot) polls[polled++].fd = -1;
  polls[slot] = (struct pollfd){fd, events, 0};
  return true;
}

static void forget(size_t slot) { polls[slot].fd = -1; }

static bool wait_for(int milliseconds) {
  int count = poll(polls, polled, milliseconds);
  for (size_t slot = 0; slot < polled && count > 0; slot++)
    if (polls[slot].fd >= 0 && polls[slot].revents != 0)
      on_ready(slot, (polls[slot].revents & (POLLERR | POLLHUP)) != 0);
  return count >= 0 || errno == EINTR;
}

#endif

/* ---- a peer ---- */

static struct timespec time_by(clockid_t clock) {
  struct timespec time;
  clock_gettime(clock, &time);
  return time;
}

/* The present second, and nanosecond, by a clock that nobody sets. */
static int64_t seconds(void) { return time_by(CLOCK_MONOTONIC).tv_sec; }

static int64_t nanoseconds(void) {
  struct timespec time = time_by(CLOCK_MONOTONIC);
  return (int64_t)time.tv_sec * 1000000000 + time.tv_nsec;
}

/* The present moment. */
static uint64_t moment(void) {
  struct timespec time = time_by(CLOCK_REALTIME);
  return lr_moment((uint64_t)time.tv_sec, (uint32_t)time.tv_nsec);
}

#include "loop_remove.h"

static size_t slot_of(const struct peer *peer) { return (size_t)(peer - peers); }

/* Gives a peer a turn, if it has none. */
static void give_turn(struct peer *peer) {
  if (peer->has_turn) return;
  peer->has_turn = true;
  turns[(next_turn + turn_count++) % SLOTS] = slot_of(peer);
}

/* Notes whether too many requests of a peer are parked to feed it. */
static void hold(struct peer *peer, bool is_held) {
  held_count += (size_t)is_held - (size_t)peer->is_held;
  peer->is_held = is_held;
}

static void drop(struct peer *peer) {
  lr_server_lost(served, peer->connection);
  hold(peer, false);
  forget(slot_of(peer));
  close(peer->fd);
  peer->fd = -1;
  unused[unused_count++] = slot_of(peer);
  if (listener_fd >= 0) listen_for(true);
}

/* Feeds what came, until enough is due or parked, or the turn is over. */
static void feed(struct peer *peer) {
  const unsigned char *came = rooms[slot_of(peer)].came;
  uint64_t now = moment();
  int64_t end = nanoseconds() + SLICE;
  lr_request asked;
  while (peer->fed < peer->got) {
    hold(peer, lr_server_parked_of(served, peer->connection) >= LOOP_PARKED);
    if (peer->is_held) return;
    size_t left = peer->got - peer->fed;
    int64_t taken = lr_server_feed(served, peer->connection, now, came + peer->fed, left < STEP ? left : STEP);
    if (lr_server_asked(served, &asked, sizeof asked) == 1) perform_one(&asked);
    peer->fed = taken < 0 ? peer->got : peer->fed + (size_t)taken; /* (where it is gone, what was answered is sent) */
    if (taken == 0 || nanoseconds() > end) return;
  }
}

/* Takes more of what is due, where all of that which was taken is sent. */
static void collect(struct peer *peer) {
  if (peer->sent < peer->size) return;
  int64_t size = lr_server_output(served, peer->connection, rooms[slot_of(peer)].due, ROOM);
  peer->size = size > 0 ? (size_t)size : 0;
  peer->sent = 0;
}

/* Sends of what is due as much as the socket takes, for a turn, and answers how much that was; -1 where the connection
 * is over. */
static ssize_t send_due(struct peer *peer) {
  const unsigned char *due = rooms[slot_of(peer)].due;
  ssize_t all = 0;
  collect(peer);
  for (int count = 0; count < SENDS && peer->sent < peer->size; count++) {
    ssize_t sent = send(peer->fd, due + peer->sent, peer->size - peer->sent, MSG_NOSIGNAL);
    if (sent < 0) return errno == EAGAIN || errno == EINTR ? all : -1;
    peer->sent += (size_t)sent;
    all += sent;
    collect(peer);
  }
  return all;
}

/* Reads a piece, where all of the one before is fed, and nothing is due. Answers its size; -1 where the connection is
 * over. */
static ssize_t read_piece(struct peer *peer) {
  if (peer->fed < peer->got || peer->sent < peer->size) return 0;
  ssize_t got = recv(peer->fd, rooms[slot_of(peer)].came, PIECE, 0);
  if (got < 0 && (errno == EAGAIN || errno == EINTR)) return 0;
  peer->fed = 0;
  peer->got = got > 0 && !peer->is_shut ? (size_t)got : 0;
  return got > 0 ? got : -1;
}

/* Waits for what a peer's next turn is for, or gives it one. False where that fails. */
static bool await(struct peer *peer) {
  short events = POLLIN;
  if (peer->sent < peer->size) {
    events = POLLOUT;
  } else if (peer->fed < peer->got) {
    if (!peer->is_held) return give_turn(peer), true;
    events = 0;
  }
  if (events == peer->events) return true;
  short before = peer->events;
  peer->events = events;
  return watch(slot_of(peer), peer->fd, events, before);
}

/* A turn of a peer: reads, feeds and sends. False where the connection is over. */
static bool attend(struct peer *peer) {
  ssize_t got = read_piece(peer);
  if (got < 0) return false;
  feed(peer);
  ssize_t sent = send_due(peer);
  if (sent < 0) return false;
  bool is_closed = lr_server_is_closed(served, peer->connection) != 0;
  int64_t until = seconds() + (is_closed ? LINGER : LOOP_IDLE);
  if (is_closed ? until < peer->until : got > 0 || sent > 0) peer->until = until;
  if (is_closed && !peer->is_shut && peer->sent == peer->size) {
    peer->is_shut = true;
    if (shutdown(peer->fd, SHUT_WR) != 0) return false;
  }
  return await(peer);
}

/* Says goodbye to a peer, behind the replies to what it has parked. What comes of it then means nothing. */
static void part_from(struct peer *peer) {
  lr_server_farewell(served, peer->connection);
  if (!attend(peer)) drop(peer);
}

/* Whether a peer waits for nothing of ours: all is fed, nothing is due, parked or ended. */
static bool is_idle(const struct peer *peer) {
  return peer->fed == peer->got && peer->sent == peer->size && lr_server_parked_of(served, peer->connection) == 0 &&
         lr_server_is_closed(served, peer->connection) == 0;
}

/* Parts from a peer whose time is over, at once where it takes nothing or its stream has ended. One that waits for a
 * parked request has more time. */
static void part_in_time(struct peer *peer, int64_t second) {
  if (second < peer->until) return;
  if (is_idle(peer))
    part_from(peer);
  else if (peer->sent == peer->size && lr_server_is_closed(served, peer->connection) == 0)
    peer->until += LOOP_IDLE;
  else
    drop(peer);
}

/* ---- all peers ---- */

/* Gives a turn to each peer to which something became due by the outcome of a parked request, and to those that were
 * not fed since too many were parked. */
static void go_on(void) {
  uint64_t connection;
  while (lr_server_next_due(served, &connection) == 1) give_turn(&peers[connection % SLOTS]);
  for (size_t slot = FIRST; held_count > 0 && slot < SLOTS; slot++)
    if (peers[slot].is_held && lr_server_parked_of(served, peers[slot].connection) < LOOP_PARKED)
      give_turn(&peers[slot]);
}

/* Moves the first of the turns behind the others: who has more to feed lets those go first who were ready meanwhile. */
static void put_back(size_t count) {
  for (; count > 0; count--) {
    turns[(next_turn + turn_count) % SLOTS] = turns[next_turn];
    next_turn = (next_turn + 1) % SLOTS;
  }
}

/* Takes the turns that were given; what is given meanwhile is for the next round. */
static void take_turns(void) {
  for (size_t count = turn_count; count > 0; count--) {
    struct peer *peer = &peers[turns[next_turn]];
    next_turn = (next_turn + 1) % SLOTS;
    turn_count--;
    peer->has_turn = false;
    if (peer->fd >= 0 && !attend(peer)) drop(peer);
  }
}

/* Makes a place for another peer: drops the one that stays longest after the end of its stream, or says goodbye to the
 * one that is idle longest. False where all are busy. */
static bool make_place(void) {
  struct peer *ended = NULL, *idle = NULL;
  for (struct peer *peer = peers + FIRST; peer < peers + SLOTS; peer++) {
    if (peer->fd < 0) continue;
    if (peer->is_shut && (ended == NULL || peer->until < ended->until)) ended = peer;
    if (peer->until > seconds() + LOOP_IDLE - PAUSE || (idle != NULL && peer->until >= idle->until)) continue;
    if (is_idle(peer)) idle = peer;
  }
  if (ended != NULL)
    drop(ended);
  else if (idle != NULL)
    part_from(idle);
  return ended != NULL || idle != NULL;
}

/* Begins to serve a peer in a slot that is not used. */
static void begin(size_t slot, int fd) {
  struct peer *peer = &peers[slot];
  last_connection = (last_connection / SLOTS + 1) * SLOTS + slot;
  peer->fd = fd;
  peer->connection = last_connection;
  peer->events = -1;
  peer->until = seconds() + LOOP_IDLE;
  peer->got = peer->fed = peer->size = peer->sent = 0;
  peer->is_shut = false;
  setsockopt(fd, IPPROTO_TCP, TCP_NODELAY, &(int){1}, sizeof(int)); /* (a reply waits for no acknowledgement) */
  if (fcntl(fd, F_SETFL, O_NONBLOCK) != 0 || lr_server_connect(served, last_connection) != LR_OK || !await(peer))
    drop(peer);
}

/* Accepts peers as of now, or not. */
static bool listen_for(bool is_on) {
  short before = listener_events;
  listener_events = is_on ? POLLIN : 0;
  return before == listener_events || watch(LISTENER, listener_fd, listener_events, before);
}

static void accept_peers(void) {
  for (int count = 0; count < ACCEPTS; count++) {
    bool is_full = unused_count == 0;
    int fd = is_full ? -1 : accept(listener_fd, NULL, NULL);
    if (fd >= 0) {
      begin(unused[--unused_count], fd);
      continue;
    }
    /* (without a place or descriptors the socket stays ready, and asking again would be in vain; that one waits is known
     * at first alone) */
    is_full = is_full || errno == EMFILE || errno == ENFILE || errno == ENOBUFS || errno == ENOMEM;
    if (count > 0) return;
    if (is_full && make_place()) continue;
    if (is_full) listen_for(false);
    return;
  }
}

static void on_ready(size_t slot, bool is_broken) {
  unsigned char octets[64];
  if (slot == LISTENER) {
    is_called = true;
  } else if (slot == WAKE) {
    is_woken = true;
    while (read(wake_pipe[0], octets, sizeof octets) > 0) continue;
  } else if (peers[slot].fd >= 0) {
    if (is_broken)
      drop(&peers[slot]);
    else
      give_turn(&peers[slot]);
  }
}

/* What is done once a second. A connection that is lost, since there was no memory for the reply to what it had parked,
 * is found here alone. */
static void pass(int64_t second) {
  for (struct peer *peer = peers + FIRST; peer < peers + SLOTS; peer++) {
    if (peer->fd >= 0) part_in_time(peer, second);
    if (peer->fd >= 0 && !peer->is_shut && lr_server_is_closed(served, peer->connection) == 1) give_turn(peer);
  }
  lr_server_tick(served, moment());
  if (listener_fd >= 0) listen_for(true);
}

/* Listens no more, and says goodbye to all. */
static void part_from_all(void) {
  listen_for(false);
  forget(LISTENER);
  close(listener_fd);
  listener_fd = -1;
  for (struct peer *peer = peers + FIRST; peer < peers + SLOTS; peer++)
    if (peer->fd >= 0) part_from(peer);
}

static bool open_loop(lr_server *server, int listener) {
  served = server;
  listener_fd = listener;
  listener_events = -1;
  unused_count = turn_count = 0;
  for (size_t slot = SLOTS; slot-- > FIRST;) {
    peers[slot].fd = -1;
    unused[unused_count++] = slot;
  }
  lr_server_set(server, LR_SET_DUE, LOOP_DUE);
  lr_server_set(server, LR_SET_PARKED_OF, LOOP_PARKED);
  return open_waiter() && watch(WAKE, wake_pipe[0], POLLIN, -1) && listen_for(true);
}

int loop_serve(lr_server *server, int listener, void (*perform)(lr_server *server, const lr_request *asked),
               void (*settle)(lr_server *server)) {
  bool is_well = open_loop(server, listener);
  int64_t last = seconds(), end = INT64_MAX; /* (which is set at SIGTERM) */
  int64_t tick = nanoseconds() / TICK; /* (all begin at multiples of their length) */
  performs = perform;
  while (is_well && (end == INT64_MAX || unused_count < LOOP_PEERS) && last < end) {
    size_t before = turn_count;
    is_called = is_woken = false;
    is_well = wait_for(before > 0 ? 0 : (int)((TICK - nanoseconds() % TICK) / 1000000) + 1);
    int64_t second = seconds(); /* (performing may take long, and what comes meanwhile is read by the next turn) */
    int64_t now = nanoseconds() / TICK;
    if (settle != NULL && (is_woken || now != tick)) settle(server);
    tick = now;
    go_on();
    put_back(before);
    take_turns();
    go_on();
    if (leaving != NULL) take_out_all();
    if (is_called && listener_fd >= 0) accept_peers();
    if (second != last) pass(second);
    last = second;
    if (!is_told || end < INT64_MAX) continue;
    end = second + LOOP_DRAIN;
    part_from_all();
  }
  for (struct peer *peer = peers + FIRST; peer < peers + SLOTS; peer++)
    if (peer->fd >= 0) drop(peer);
  close_waiter();
  forget_leaving();
  return is_well ? 0 : -1;
}

/* ---- before and beside it ---- */

void loop_wake(void) {
  int before = errno;
  if (write(wake_pipe[1], "", 1) != 1) errno = before; /* (a pipe that is full wakes it too) */
  errno = before;
}

static void on_stop(int number) {
  (void)number;
  is_told = 1;
  loop_wake();
}

int loop_listen(const char *address, uint16_t *port) {
  struct sockaddr_in name = {.sin_family = AF_INET, .sin_port = htons(*port)};
  socklen_t size = sizeof name;
  if (inet_pton(AF_INET, address, &name.sin_addr) != 1) return -1;
  int fd = socket(AF_INET, SOCK_STREAM, 0);
  setsockopt(fd, SOL_SOCKET, SO_REUSEADDR, &(int){1}, sizeof(int));
  if (bind(fd, (struct sockaddr *)&name, size) != 0 || listen(fd, SOMAXCONN) != 0 ||
      fcntl(fd, F_SETFL, O_NONBLOCK) != 0 || getsockname(fd, (struct sockaddr *)&name, &size) != 0)
    return -1;
  if (pipe(wake_pipe) != 0 || fcntl(wake_pipe[0], F_SETFL, O_NONBLOCK) != 0 ||
      fcntl(wake_pipe[1], F_SETFL, O_NONBLOCK) != 0 ||
      sigaction(SIGTERM, &(struct sigaction){.sa_handler = on_stop}, NULL) != 0)
    return -1;
  *port = ntohs(name.sin_port);
  return fd;
}

int64_t loop_print(const char *type, size_t type_size, uint32_t minor, const char *address, uint16_t port,
                   const void *key, size_t key_size) {
  char text[8192];
  lr_ior ior = LR_INIT;
  int64_t size = lr_ior_iiop(&ior, type, type_size, minor, address, strlen(address), port, key, key_size);
  if (size == LR_OK) size = lr_ior_print(&ior, text, sizeof text);
  if (size > 0) printf("%.*s\n", (int)size, text);
  fflush(stdout);
  lr_close(&ior);
  return size;
}
