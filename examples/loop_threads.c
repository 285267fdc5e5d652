/*
 * The loop of loop.h by several threads around one server and a lock, over epoll:
 *
 *     cc -o bank bank.c loop_threads.c $(pkg-config --cflags --libs lemonrudder) -pthread
 *
 * Each thread has peers of its own, and so many places for them that all have LOOP_PEERS. The server is called under the
 * lock, `perform` and `settle` too, which so need none; the system is called beside it. All else is as in loop.c: peers
 * of a thread take turns, and each is read, fed and sent as much as there. It is for Linux.
 */
#define _DEFAULT_SOURCE
#include "loop.h"

#include <arpa/inet.h>
#include <errno.h>
#include <fcntl.h>
#include <netinet/tcp.h>
#include <pthread.h>
#include <signal.h>
#include <stdbool.h>
#include <stdio.h>
#include <stdlib.h>
#include <string.h>
#include <sys/epoll.h>
#include <sys/eventfd.h>
#include <sys/socket.h>
#include <time.h>
#include <unistd.h>

/* How many threads there are, 64 at most. */
#ifndef LOOP_THREADS
#define LOOP_THREADS 3
#endif

/* (as in loop.c) */
enum { PIECE = 4096, STEP = 1024, ROOM = 16384, SENDS = 4, ACCEPTS = 16, SLICE = 25000, LINGER = 5, PAUSE = 1 };
static const int64_t TICK = INT64_C(1000000) * LOOP_TICK;
/* What a thread waits for: that it is woken, SIGTERM, which the first one alone waits for, the socket that listens, and
 * its share of the peers. */
enum { WAKE = 0, STOP = 1, LISTENER = 2, FIRST = 3 };
enum { PEERS = (LOOP_PEERS + LOOP_THREADS - 1) / LOOP_THREADS, SLOTS = FIRST + PEERS, ALL = LOOP_THREADS * SLOTS };

struct peer {
  int fd;              /* -1 where there is no peer */
  uint64_t connection; /* its remainder by ALL is the place of its slot among those of all threads */
  uint32_t events;     /* what is waited for */
  bool has_turn;       /* it is in `turns` */
  bool is_held;        /* too many of its requests are parked to feed it */
  bool is_shut;        /* all is sent, and what comes means nothing */
  bool is_closed;      /* its stream has ended */
  bool is_named;       /* it is in `named`: under the lock */
  int64_t until;       /* the second at which it is parted from */
  size_t got, fed;     /* of what came, `got` octets, the first `fed` ones are fed */
  size_t size, sent;   /* of what is due, `size` octets, the first `sent` ones are sent */
};

/* A thread, and what is its own. */
struct loop {
  pthread_t id;
  int waiter;
  struct peer peers[SLOTS];
  struct { unsigned char came[PIECE], due[ROOM]; } rooms[SLOTS];
  size_t unused[PEERS], unused_count;
  size_t turns[SLOTS], next_turn, turn_count;
  uint64_t wakes;             /* threads that are to be woken */
  bool is_called, is_woken;   /* the listener is ready, and this thread was woken */
  bool has_listener, listens; /* the listener is among what is waited for, and is waited for */
  /* under the lock: */
  size_t count, held_count;          /* of its peers, and of those that are held */
  size_t named[SLOTS], named_count; /* peers of its own to which something became due elsewhere */
};

static struct loop loops[LOOP_THREADS];
static int wakes[LOOP_THREADS], stop = -1; /* eventfds */
static void (*performs)(lr_server *server, const lr_request *asked);
static void (*settles)(lr_server *server);

/* Under the lock: */
static pthread_mutex_t lock = PTHREAD_MUTEX_INITIALIZER;
static lr_server *served;
static uint64_t last_connection;
static int listener, failure; /* the socket that listens, and why a thread has ended early */
static size_t accepter;          /* the thread that accepts */
static bool is_paused;           /* it doesn't, for want of a place or a descriptor */
static bool is_told;

/* ---- time, and what is waited for ---- */

static struct timespec time_by(clockid_t clock) {
  struct timespec time;
  clock_gettime(clock, &time);
  return time;
}

static int64_t seconds(void) { return time_by(CLOCK_MONOTONIC).tv_sec; }

static int64_t nanoseconds(void) {
  struct timespec time = time_by(CLOCK_MONOTONIC);
  return (int64_t)time.tv_sec * 1000000000 + time.tv_nsec;
}

static uint64_t moment(void) {
  struct timespec time = time_by(CLOCK_REALTIME);
  return lr_moment((uint64_t)time.tv_sec, (uint32_t)time.tv_nsec);
}

static size_t index_of(const struct loop *loop) { return (size_t)(loop - loops); }

static size_t slot_of(const struct loop *loop, const struct peer *peer) { return (size_t)(peer - loop->peers); }

/* Waits for events on a descriptor from now on. */
static bool watch(struct loop *loop, size_t slot, int fd, uint32_t events, bool is_new) {
  struct epoll_event event = {.events = events, .data.u64 = slot};
  return epoll_ctl(loop->waiter, is_new ? EPOLL_CTL_ADD : EPOLL_CTL_MOD, fd, &event) == 0;
}

static void wake(size_t index) {
  uint64_t one = 1;
  if (write(wakes[index], &one, sizeof one) < 0) return; /* (where so many are due it wakes too) */
}

/* Wakes the threads that are to be woken. */
static void wake_others(struct loop *loop) {
  for (size_t index = 0; loop->wakes != 0; index++, loop->wakes >>= 1)
    if (loop->wakes & 1) wake(index);
}

static void give_turn(struct loop *loop, struct peer *peer) {
  if (peer->has_turn) return;
  peer->has_turn = true;
  loop->turns[(loop->next_turn + loop->turn_count++) % SLOTS] = slot_of(loop, peer);
}

/* ---- under the lock ---- */

static void hold(struct loop *loop, struct peer *peer, bool is_held) {
  loop->held_count += (size_t)is_held - (size_t)peer->is_held;
  peer->is_held = is_held;
}

/* Names a peer to its thread, to which something became due. */
static void name_peer(struct loop *loop, uint64_t connection) {
  struct loop *its = &loops[connection % ALL / SLOTS];
  size_t slot = connection % ALL % SLOTS;
  if (its == loop) give_turn(loop, &loop->peers[slot]);
  if (its == loop || its->peers[slot].is_named) return;
  its->peers[slot].is_named = true;
  its->named[its->named_count++] = slot;
  loop->wakes |= UINT64_C(1) << index_of(its);
}

/* Names all to which something became due by the outcome of a parked request. */
static void name_due(struct loop *loop) {
  uint64_t connection;
  while (lr_server_next_due(served, &connection) == 1) name_peer(loop, connection);
}

#include "loop_remove.h"

/* Feeds what came, until enough is due or parked, or the turn is over. */
static void feed(struct loop *loop, struct peer *peer) {
  const unsigned char *came = loop->rooms[slot_of(loop, peer)].came;
  uint64_t now = moment();
  int64_t end = nanoseconds() + SLICE;
  lr_request asked;
  while (peer->fed < peer->got) {
    hold(loop, peer, lr_server_parked_of(served, peer->connection) >= LOOP_PARKED);
    if (peer->is_held) return;
    size_t left = peer->got - peer->fed;
    int64_t taken = lr_server_feed(served, peer->connection, now, came + peer->fed, left < STEP ? left : STEP);
    if (lr_server_asked(served, &asked, sizeof asked) == 1) perform_one(&asked);
    peer->fed = taken < 0 ? peer->got : peer->fed + (size_t)taken; /* (where it is gone, what was answered is sent) */
    if (taken == 0 || nanoseconds() > end) return;
  }
}

/* Takes more of what is due, where all of that which was taken is sent. */
static void collect(struct loop *loop, struct peer *peer) {
  if (peer->sent == peer->size) {
    int64_t size = lr_server_output(served, peer->connection, loop->rooms[slot_of(loop, peer)].due, ROOM);
    peer->size = size > 0 ? (size_t)size : 0;
    peer->sent = 0;
  }
  peer->is_closed = lr_server_is_closed(served, peer->connection) != 0;
}

/* Whether a peer waits for nothing of ours. */
static bool is_idle(const struct peer *peer) {
  return peer->fed == peer->got && peer->sent == peer->size && lr_server_parked_of(served, peer->connection) == 0 &&
         lr_server_is_closed(served, peer->connection) == 0;
}

/* The thread that has the fewest peers. */
static size_t least(void) {
  size_t found = 0;
  for (size_t index = 1; index < LOOP_THREADS; index++)
    if (loops[index].count < loops[found].count) found = index;
  return found;
}

/* ---- who accepts ---- */

/* Accepts peers as of now, or not. */
static void listen_for(struct loop *loop, bool is_on) {
  if (loop->listens == is_on) return;
  watch(loop, LISTENER, listener, is_on ? EPOLLIN : 0, !loop->has_listener);
  loop->listens = is_on;
  loop->has_listener = true;
}

/* Accepts as of now where that is this thread's part, and not where it is another one's; answers whether it is. */
static bool accepts(struct loop *loop) {
  pthread_mutex_lock(&lock);
  bool is_mine = accepter == index_of(loop) && !is_paused && !is_told;
  if (!is_told) listen_for(loop, is_mine);
  pthread_mutex_unlock(&lock);
  return is_mine;
}

/* Lets the thread with the fewest peers accept the next one. */
static void pass_on(struct loop *loop) {
  pthread_mutex_lock(&lock);
  size_t next = least();
  if (loops[next].count < loop->count) {
    accepter = next;
    loop->wakes |= UINT64_C(1) << next;
  }
  pthread_mutex_unlock(&lock);
}

/* Lets nobody be accepted for now, or again. */
static void pause_accepting(struct loop *loop, bool is_on) {
  pthread_mutex_lock(&lock);
  if (accepter == index_of(loop)) is_paused = is_on;
  pthread_mutex_unlock(&lock);
  accepts(loop);
}

/* ---- a peer ---- */

/* Drops a peer. Where nobody could be accepted, this thread can. */
static void drop(struct loop *loop, struct peer *peer) {
  pthread_mutex_lock(&lock);
  lr_server_lost(served, peer->connection);
  hold(loop, peer, false);
  loop->count--;
  if (is_paused) accepter = index_of(loop);
  is_paused = false;
  pthread_mutex_unlock(&lock);
  close(peer->fd);
  peer->fd = -1;
  loop->unused[loop->unused_count++] = slot_of(loop, peer);
  loop->wakes |= UINT64_C(1) << index_of(loop); /* (which looks who accepts) */
}

/* Reads a piece, where all of the one before is fed, and nothing is due. Answers its size; -1 where the connection is
 * over. */
static ssize_t read_piece(struct loop *loop, struct peer *peer) {
  if (peer->fed < peer->got || peer->sent < peer->size) return 0;
  ssize_t got = recv(peer->fd, loop->rooms[slot_of(loop, peer)].came, PIECE, 0);
  if (got < 0 && (errno == EAGAIN || errno == EINTR)) return 0;
  peer->fed = 0;
  peer->got = got > 0 && !peer->is_shut ? (size_t)got : 0;
  return got > 0 ? got : -1;
}

/* Feeds what came and takes what is due. Once SIGTERM is told of, what comes is nowhere begun any more. */
static void exchange(struct loop *loop, struct peer *peer) {
  pthread_mutex_lock(&lock);
  if (is_told) lr_server_farewell(served, peer->connection);
  feed(loop, peer);
  if (leaving != NULL) take_out_all();
  collect(loop, peer);
  name_due(loop);
  pthread_mutex_unlock(&lock);
}

/* Sends of what is due as much as the socket takes, for a turn, and answers how much that was; -1 where the connection
 * is over. */
static ssize_t send_due(struct loop *loop, struct peer *peer) {
  const unsigned char *due = loop->rooms[slot_of(loop, peer)].due;
  ssize_t all = 0;
  for (int count = 0; count < SENDS && peer->sent < peer->size; count++) {
    ssize_t sent = send(peer->fd, due + peer->sent, peer->size - peer->sent, MSG_NOSIGNAL);
    if (sent < 0) return errno == EAGAIN || errno == EINTR ? all : -1;
    peer->sent += (size_t)sent;
    all += sent;
    if (peer->sent < ROOM) continue;
    pthread_mutex_lock(&lock);
    collect(loop, peer); /* (there may be more than had room) */
    pthread_mutex_unlock(&lock);
  }
  return all;
}

/* Waits for what a peer's next turn is for, or gives it one. False where that fails. */
static bool await(struct loop *loop, struct peer *peer) {
  uint32_t events = EPOLLIN;
  if (peer->sent < peer->size) {
    events = EPOLLOUT;
  } else if (peer->fed < peer->got) {
    if (!peer->is_held) return give_turn(loop, peer), true;
    events = 0;
  }
  if (events == peer->events) return true;
  peer->events = events;
  return watch(loop, slot_of(loop, peer), peer->fd, events, false);
}

/* A turn of a peer: reads, feeds and sends. False where the connection is over. */
static bool attend(struct loop *loop, struct peer *peer) {
  ssize_t got = read_piece(loop, peer);
  if (got < 0) return false;
  exchange(loop, peer);
  ssize_t sent = send_due(loop, peer);
  if (sent < 0) return false;
  int64_t until = seconds() + (peer->is_closed ? LINGER : LOOP_IDLE);
  if (peer->is_closed ? until < peer->until : got > 0 || sent > 0) peer->until = until;
  if (peer->is_closed && !peer->is_shut && peer->sent == peer->size) {
    peer->is_shut = true;
    if (shutdown(peer->fd, SHUT_WR) != 0) return false;
  }
  return await(loop, peer);
}

/* Says goodbye to a peer, behind the replies to what it has parked. */
static void part_from(struct loop *loop, struct peer *peer) {
  pthread_mutex_lock(&lock);
  lr_server_farewell(served, peer->connection);
  pthread_mutex_unlock(&lock);
  if (!attend(loop, peer)) drop(loop, peer);
}

/* Parts from a peer whose time is over, at once where it takes nothing or its stream has ended. One that waits for a
 * parked request has more time. A connection that is lost, as there was no memory for a reply, is found here alone. */
static void look_at(struct loop *loop, struct peer *peer, int64_t second) {
  pthread_mutex_lock(&lock);
  bool is_free = is_idle(peer), is_closed = lr_server_is_closed(served, peer->connection) != 0;
  pthread_mutex_unlock(&lock);
  if (is_closed && !peer->is_shut) give_turn(loop, peer);
  if (second < peer->until) return;
  if (is_free)
    part_from(loop, peer);
  else if (peer->sent == peer->size && !is_closed)
    peer->until += LOOP_IDLE;
  else
    drop(loop, peer);
}

/* ---- all peers of a thread ---- */

/* Gives a turn to the peers that other threads named. */
static void take_named(struct loop *loop) {
  pthread_mutex_lock(&lock);
  while (loop->named_count > 0) {
    struct peer *peer = &loop->peers[loop->named[--loop->named_count]];
    peer->is_named = false;
    give_turn(loop, peer);
  }
  pthread_mutex_unlock(&lock);
}

/* Gives a turn to peers that were not fed since too many of their requests were parked. */
static void take_held(struct loop *loop) {
  pthread_mutex_lock(&lock);
  for (size_t slot = FIRST; loop->held_count > 0 && slot < SLOTS; slot++)
    if (loop->peers[slot].is_held && lr_server_parked_of(served, loop->peers[slot].connection) < LOOP_PARKED)
      give_turn(loop, &loop->peers[slot]);
  pthread_mutex_unlock(&lock);
}

/* Has parked requests answered, and wakes those who wait for that. */
static void settle(struct loop *loop) {
  pthread_mutex_lock(&lock);
  settles(served);
  if (leaving != NULL) take_out_all();
  name_due(loop);
  for (size_t index = 0; index < LOOP_THREADS; index++)
    if (loops[index].held_count > 0) loop->wakes |= UINT64_C(1) << index;
  loop->wakes &= ~(UINT64_C(1) << index_of(loop));
  pthread_mutex_unlock(&lock);
}

/* Moves the first of the turns behind the others. */
static void put_back(struct loop *loop, size_t count) {
  for (; count > 0; count--) {
    loop->turns[(loop->next_turn + loop->turn_count) % SLOTS] = loop->turns[loop->next_turn];
    loop->next_turn = (loop->next_turn + 1) % SLOTS;
  }
}

/* Takes the turns that were given; what is given meanwhile is for the next round. */
static void take_turns(struct loop *loop) {
  for (size_t count = loop->turn_count; count > 0; count--) {
    struct peer *peer = &loop->peers[loop->turns[loop->next_turn]];
    loop->next_turn = (loop->next_turn + 1) % SLOTS;
    loop->turn_count--;
    peer->has_turn = false;
    if (peer->fd >= 0 && !attend(loop, peer)) drop(loop, peer);
  }
}

/* Makes a place for another peer, as that of loop.c does, among the thread's own. */
static bool make_place(struct loop *loop) {
  struct peer *ended = NULL, *idle = NULL;
  pthread_mutex_lock(&lock);
  for (struct peer *peer = loop->peers + FIRST; peer < loop->peers + SLOTS; peer++) {
    if (peer->fd < 0) continue;
    if (peer->is_shut && (ended == NULL || peer->until < ended->until)) ended = peer;
    if (peer->until > seconds() + LOOP_IDLE - PAUSE || (idle != NULL && peer->until >= idle->until)) continue;
    if (is_idle(peer)) idle = peer;
  }
  pthread_mutex_unlock(&lock);
  if (ended != NULL)
    drop(loop, ended);
  else if (idle != NULL)
    part_from(loop, idle);
  return ended != NULL || idle != NULL;
}

/* Begins to serve a peer in a slot that is not used. */
static void begin(struct loop *loop, size_t slot, int fd) {
  struct peer *peer = &loop->peers[slot];
  peer->fd = fd;
  peer->events = EPOLLIN;
  peer->until = seconds() + LOOP_IDLE;
  peer->got = peer->fed = peer->size = peer->sent = 0;
  peer->is_shut = peer->is_closed = false;
  setsockopt(fd, IPPROTO_TCP, TCP_NODELAY, &(int){1}, sizeof(int)); /* (a reply waits for no acknowledgement) */
  pthread_mutex_lock(&lock);
  last_connection = (last_connection / ALL + 1) * ALL + index_of(loop) * SLOTS + slot;
  peer->connection = last_connection;
  loop->count++;
  bool is_well = lr_server_connect(served, last_connection) == LR_OK;
  pthread_mutex_unlock(&lock);
  if (!is_well || fcntl(fd, F_SETFL, O_NONBLOCK) != 0 || !watch(loop, slot, fd, EPOLLIN, true)) drop(loop, peer);
}

/* Accepts peers, as long as it is this thread's turn. */
static void accept_peers(struct loop *loop) {
  for (int count = 0; count < ACCEPTS && accepts(loop); count++) {
    bool is_full = loop->unused_count == 0;
    int fd = is_full ? -1 : accept(listener, NULL, NULL);
    if (fd >= 0) {
      begin(loop, loop->unused[--loop->unused_count], fd);
      pass_on(loop);
      continue;
    }
    is_full = is_full || errno == EMFILE || errno == ENFILE || errno == ENOBUFS || errno == ENOMEM;
    if (count > 0) return;
    if (is_full && make_place(loop)) continue;
    if (is_full) pause_accepting(loop, true);
    return;
  }
}

/* ---- a thread ---- */

/* Has all threads say goodbye, since SIGTERM came or for a failure. From then on nobody is accepted. */
static void end_all(struct loop *loop, int why) {
  pthread_mutex_lock(&lock);
  is_told = true;
  if (failure == 0) failure = why;
  shutdown(listener, SHUT_RD);
  for (size_t index = 0; index < LOOP_THREADS; index++) loop->wakes |= UINT64_C(1) << index;
  pthread_mutex_unlock(&lock);
}

static void on_ready(struct loop *loop, size_t slot, bool is_broken) {
  uint64_t number;
  if (slot == LISTENER) {
    loop->is_called = true;
  } else if (slot == WAKE) {
    loop->is_woken = read(wakes[index_of(loop)], &number, sizeof number) > 0;
  } else if (slot == STOP) {
    if (read(stop, &number, sizeof number) > 0) end_all(loop, 0);
  } else if (loop->peers[slot].fd >= 0) {
    if (is_broken)
      drop(loop, &loop->peers[slot]);
    else
      give_turn(loop, &loop->peers[slot]);
  }
}

/* Waits so long at most, and names what is ready. */
static bool wait_for(struct loop *loop, int milliseconds) {
  struct epoll_event events[64];
  int count = epoll_wait(loop->waiter, events, 64, milliseconds);
  for (int index = 0; index < count; index++)
    on_ready(loop, (size_t)events[index].data.u64, (events[index].events & (EPOLLERR | EPOLLHUP)) != 0);
  return count >= 0 || errno == EINTR;
}

/* What is done once a second. */
static void pass(struct loop *loop, int64_t second) {
  for (struct peer *peer = loop->peers + FIRST; peer < loop->peers + SLOTS; peer++)
    if (peer->fd >= 0) look_at(loop, peer, second);
  pthread_mutex_lock(&lock);
  lr_server_tick(served, moment());
  pthread_mutex_unlock(&lock);
  pause_accepting(loop, false);
}

/* A round: the turns of peers, behind those that were ready meanwhile, and who else is there. */
static void go_round(struct loop *loop, size_t before) {
  if (loop->is_woken) take_named(loop);
  if (loop->held_count > 0) take_held(loop);
  put_back(loop, before);
  take_turns(loop);
  if (loop->is_woken) accepts(loop);
  if (loop->is_called) accept_peers(loop);
}

static bool is_ended(void) {
  pthread_mutex_lock(&lock);
  bool told = is_told;
  pthread_mutex_unlock(&lock);
  return told;
}

/* Whether there are peers: to the first thread, which has parked requests answered for all, those of any thread. */
static bool has_peers(const struct loop *loop) {
  size_t all = 0;
  pthread_mutex_lock(&lock);
  for (size_t index = 0; index < LOOP_THREADS; index++)
    if (index_of(loop) == 0 || index_of(loop) == index) all += loops[index].count;
  pthread_mutex_unlock(&lock);
  return all > 0;
}

/* Says goodbye to all peers of a thread. */
static void part_from_all(struct loop *loop) {
  struct epoll_event none = {0};
  if (loop->has_listener) epoll_ctl(loop->waiter, EPOLL_CTL_DEL, listener, &none);
  for (struct peer *peer = loop->peers + FIRST; peer < loop->peers + SLOTS; peer++)
    if (peer->fd >= 0) part_from(loop, peer);
}

/* Serves until SIGTERM came and all peers are gone, or their time is over. */
static void serve(struct loop *loop) {
  int64_t last = seconds(), end = INT64_MAX; /* (which is set at SIGTERM) */
  int64_t tick = nanoseconds() / TICK;
  bool is_well = true;
  accepts(loop);
  while (is_well && (end == INT64_MAX || has_peers(loop)) && last < end) {
    size_t before = loop->turn_count;
    loop->is_called = loop->is_woken = false;
    is_well = wait_for(loop, before > 0 ? 0 : (int)((TICK - nanoseconds() % TICK) / 1000000) + 1);
    if (!is_well) end_all(loop, errno);
    int64_t second = seconds(), now = nanoseconds() / TICK;
    if (index_of(loop) == 0 && settles != NULL && (loop->is_woken || now != tick)) settle(loop);
    tick = now;
    go_round(loop, before);
    if (second != last) pass(loop, second);
    last = second;
    if (end == INT64_MAX && is_ended()) {
      end = second + LOOP_DRAIN;
      part_from_all(loop);
    }
    wake_others(loop);
  }
  for (struct peer *peer = loop->peers + FIRST; peer < loop->peers + SLOTS; peer++)
    if (peer->fd >= 0) drop(loop, peer);
  loop->wakes |= 1; /* (the first thread waits for the others) */
  wake_others(loop);
}

static void *run(void *loop) {
  serve(loop);
  return NULL;
}

static bool open_loop(struct loop *loop) {
  size_t index = index_of(loop);
  for (size_t slot = SLOTS; slot-- > FIRST;) {
    loop->peers[slot].fd = -1;
    loop->unused[loop->unused_count++] = slot;
  }
  if (index > 0) wakes[index] = eventfd(0, EFD_NONBLOCK | EFD_CLOEXEC);
  loop->waiter = epoll_create1(EPOLL_CLOEXEC);
  return loop->waiter >= 0 && watch(loop, WAKE, wakes[index], EPOLLIN, true) &&
         (index > 0 || watch(loop, STOP, stop, EPOLLIN, true));
}

static void close_loop(struct loop *loop) {
  close(loop->waiter);
  if (index_of(loop) > 0) close(wakes[index_of(loop)]);
}

/* Opens all loops, and begins all threads but the first one, which is there; answers why that failed, or 0. */
static int begin_threads(size_t *begun) {
  int why = 0;
  for (size_t index = 0; index < LOOP_THREADS && why == 0; index++)
    if (!open_loop(&loops[index])) why = errno;
  for (*begun = 1; *begun < LOOP_THREADS && why == 0; *begun += why == 0)
    why = pthread_create(&loops[*begun].id, NULL, run, &loops[*begun]);
  return why;
}

int loop_serve(lr_server *server, int fd, void (*perform)(lr_server *server, const lr_request *asked),
               void (*settle_parked)(lr_server *server)) {
  size_t begun;
  served = server;
  listener = fd;
  performs = perform;
  settles = settle_parked;
  lr_server_set(server, LR_SET_DUE, LOOP_DUE);
  lr_server_set(server, LR_SET_PARKED_OF, LOOP_PARKED);
  int why = begin_threads(&begun);
  if (why != 0) end_all(&loops[0], why);
  serve(&loops[0]);
  while (begun > 1) pthread_join(loops[--begun].id, NULL);
  for (size_t index = 0; index < LOOP_THREADS; index++) close_loop(&loops[index]);
  close(listener);
  forget_leaving();
  errno = failure;
  return failure == 0 ? 0 : -1;
}

/* ---- before and beside it ---- */

void loop_wake(void) {
  int before = errno;
  wake(0);
  errno = before;
}

static void on_stop(int number) {
  uint64_t one = 1;
  int before = errno;
  (void)number;
  if (write(stop, &one, sizeof one) < 0) errno = before;
  errno = before;
}

int loop_listen(const char *address, uint16_t *port) {
  struct sockaddr_in name = {.sin_family = AF_INET, .sin_port = htons(*port)};
  socklen_t size = sizeof name;
  if (inet_pton(AF_INET, address, &name.sin_addr) != 1) return -1;
  int fd = socket(AF_INET, SOCK_STREAM, 0);
  setsockopt(fd, SOL_SOCKET, SO_REUSEADDR, &(int){1}, sizeof(int));
  if (bind(fd, (struct sockaddr *)&name, size) != 0 || listen(fd, SOMAXCONN) != 0 ||
      fcntl(fd, F_SETFL, O_NONBLOCK) != 0 || getsockname(fd, (struct sockaddr *)&name, &size) != 0)
    return -1;
  wakes[0] = eventfd(0, EFD_NONBLOCK | EFD_CLOEXEC);
  stop = eventfd(0, EFD_NONBLOCK | EFD_CLOEXEC);
  if (wakes[0] < 0 || stop < 0 || sigaction(SIGTERM, &(struct sigaction){.sa_handler = on_stop}, NULL) != 0) return -1;
  *port = ntohs(name.sin_port);
  return fd;
}

int64_t loop_print(const char *type, size_t type_size, uint32_t minor, const char *address, uint16_t port,
                   const void *key, size_t key_size) {
  char text[8192];
  lr_ior ior = LR_INIT;
  int64_t size = lr_ior_iiop(&ior, type, type_size, minor, address, strlen(address), port, key, key_size);
  if (size == LR_OK) size = lr_ior_print(&ior, text, sizeof text);
  if (size > 0) printf("%.*s\n", (int)size, text);
  fflush(stdout);
  lr_close(&ior);
  return size;
}
