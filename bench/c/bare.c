/*
 * What the sockets alone cost: a server over epoll that answers each request of bench/c/load.c by a Reply of 32 octets
 * with its id and the next total, and looks at nothing else but where it ends: bare [MILLISECONDS]
 *
 * A reply is sent at once, or so many milliseconds after its request came, which holds up no other.
 *
 * It prints the port of 127.0.0.1 at which it listens, and serves until it is killed. Its loop is that of
 * examples/loop.c: each turn a recv() and a send() for each connection that can be read, here of at most 16 KiB, in which
 * each request has to have room.
 */
#define _DEFAULT_SOURCE
#include <arpa/inet.h>
#include <netinet/in.h>
#include <netinet/tcp.h>
#include <stdint.h>
#include <stdio.h>
#include <stdlib.h>
#include <string.h>
#include <sys/epoll.h>
#include <sys/socket.h>
#include <time.h>
#include <unistd.h>

enum { PIECE = 1 << 14, PEERS = 1 << 15, REPLY = 32, HEADER = 12, TURN = 256, QUEUE = 1 << 14 };

struct peer {
  uint64_t number; /* no other peer has it */
  size_t came;
  unsigned char piece[PIECE];
};

/* A reply that is sent later. */
struct due {
  double at;
  int fd;
  uint64_t number; /* of its peer */
  unsigned char reply[REPLY];
};

static struct peer *peers[PEERS]; /* by their sockets */
static struct due queue[QUEUE];   /* in the order of time, round and round */
static size_t put_count, taken_count;
static uint64_t total, number_count;
static double pause_length; /* seconds */
static int polled;

static double now(void) {
  struct timespec time;
  clock_gettime(CLOCK_MONOTONIC, &time);
  return (double)time.tv_sec + (double)time.tv_nsec / 1e9;
}

static void put(unsigned char *at, uint64_t number, int size) {
  while (size-- > 0) *at++ = (unsigned char)(number >> 8 * size);
}

static void end(int fd) {
  close(fd);
  free(peers[fd]);
  peers[fd] = NULL;
}

static void begin(int fd) {
  struct epoll_event event = {.events = EPOLLIN, .data.fd = fd};
  if (fd < 0) return;
  setsockopt(fd, IPPROTO_TCP, TCP_NODELAY, &(int){1}, sizeof(int));
  if (fd < PEERS) peers[fd] = malloc(sizeof *peers[fd]);
  if (fd >= PEERS || peers[fd] == NULL || epoll_ctl(polled, EPOLL_CTL_ADD, fd, &event) != 0) {
    perror("bare");
    exit(1);
  }
  peers[fd]->number = ++number_count;
  peers[fd]->came = 0;
}

/* The size of the message whose first octets came, in big order, if it came in whole, or 0. */
static size_t whole(const unsigned char *octets, size_t came) {
  if (came < HEADER) return 0;
  size_t size = HEADER + ((size_t)octets[8] << 24 | octets[9] << 16 | octets[10] << 8 | octets[11]);
  return size <= came ? size : 0;
}

/* Makes the reply to a request. */
static void answer(const unsigned char *request, unsigned char *reply) {
  memset(reply, 0, REPLY);
  memcpy(reply, "GIOP\1\2\0\1\0\0\0\24", HEADER);
  memcpy(reply + HEADER, request + HEADER, 4);
  put(reply + 24, total += 7, 8);
}

/* Has a reply sent later. -1 where too many are. */
static int delay(int fd, const unsigned char *reply) {
  struct due *due = &queue[put_count % QUEUE];
  if (put_count - taken_count == QUEUE) return -1;
  due->at = now() + pause_length;
  due->fd = fd;
  due->number = peers[fd]->number;
  memcpy(due->reply, reply, REPLY);
  put_count++;
  return 0;
}

/* Answers the requests that came in whole. -1 where the connection is over. */
static int attend(int fd) {
  struct peer *peer = peers[fd];
  unsigned char replies[PIECE];
  size_t at = 0, made = 0, size;
  ssize_t got = recv(fd, peer->piece + peer->came, PIECE - peer->came, 0);
  if (got <= 0) return -1;
  peer->came += (size_t)got;
  while ((size = whole(peer->piece + at, peer->came - at)) > 0) {
    if (size < REPLY) return -1; /* (so there is room for the replies) */
    answer(peer->piece + at, replies + made);
    if (pause_length == 0)
      made += REPLY;
    else if (delay(fd, replies) != 0)
      return -1;
    at += size;
  }
  peer->came -= at;
  memmove(peer->piece, peer->piece + at, peer->came);
  return made == 0 || send(fd, replies, made, MSG_NOSIGNAL) == (ssize_t)made ? 0 : -1;
}

/* Sends what is due, and answers for how many milliseconds nothing will be. */
static int settle(void) {
  while (taken_count < put_count) {
    struct due *due = &queue[taken_count % QUEUE];
    double left = due->at - now();
    if (left > 0) return (int)(left * 1000) + 1;
    if (peers[due->fd] != NULL && peers[due->fd]->number == due->number)
      if (send(due->fd, due->reply, REPLY, MSG_NOSIGNAL) != REPLY) end(due->fd);
    taken_count++;
  }
  return -1;
}

static int listen_anywhere(void) {
  struct sockaddr_in name = {.sin_family = AF_INET, .sin_addr.s_addr = htonl(INADDR_LOOPBACK)};
  socklen_t size = sizeof name;
  int listener = socket(AF_INET, SOCK_STREAM, 0);
  if (bind(listener, (struct sockaddr *)&name, size) != 0 || listen(listener, SOMAXCONN) != 0 ||
      getsockname(listener, (struct sockaddr *)&name, &size) != 0)
    return -1;
  printf("%u\n", ntohs(name.sin_port));
  fflush(stdout);
  return listener;
}

/* Attends to those who said something, and sends what is due. */
static void turn(int listener) {
  struct epoll_event events[TURN];
  int ready = epoll_wait(polled, events, TURN, settle());
  for (int index = 0; index < ready; index++) {
    int fd = events[index].data.fd;
    if (fd == listener)
      begin(accept(listener, NULL, NULL));
    else if (peers[fd] != NULL && attend(fd) != 0)
      end(fd);
  }
}

int main(int count, char **words) {
  int listener = listen_anywhere();
  struct epoll_event event = {.events = EPOLLIN, .data.fd = listener};
  polled = epoll_create1(0);
  if (listener < 0 || polled < 0 || epoll_ctl(polled, EPOLL_CTL_ADD, listener, &event) != 0) return perror("bare"), 1;
  if (count > 1) pause_length = atof(words[1]) / 1000;
  for (;;) turn(listener);
}
