/*
 * Clients that call add(7) of a counter as fast as its replies come, each with one request outstanding, or deposit 7
 * with a bank (examples/bank.idl), each into an account of its own:
 *
 *     load PORT KEY CLIENTS THREADS MILLISECONDS[:REPLIES] plain|keyed[:SECONDS]|deposits[:SECONDS]
 *
 * PORT is one of 127.0.0.1, KEY the object key in hexadecimal digits. The requests are of GIOP 1.2 in big order; those
 * of `keyed` have FT_REQUEST, a client id for each connection, and numbers that rise, which expire a second after they
 * are sent, or so many, those of `deposits` a minute, or so many. Each thread has its share of the connections, over poll(). A
 * fifth of the time again passes before it counts. Where REPLIES is given it ends as soon as so many came, and counts from
 * a sixth of them on, if that is sooner; then each client gets the one that it waits for.
 *
 * It prints how many replies came in that time, how many seconds it was, the part of it for which its threads
 * were busy, how many replies came in all, and how many microseconds those that came in that time took: half of them at
 * most the first number, 99 of 100 at most the second. Each reply has to be one without an exception, and the greatest
 * result has to be 7 times as many as came; that of a deposit 7 times as many as its client made.
 */
#define _DEFAULT_SOURCE
#include <arpa/inet.h>
#include <netinet/in.h>
#include <netinet/tcp.h>
#include <poll.h>
#include <pthread.h>
#include <stdatomic.h>
#include <stdbool.h>
#include <stdint.h>
#include <stdio.h>
#include <stdlib.h>
#include <string.h>
#include <sys/socket.h>
#include <time.h>
#include <unistd.h>

enum { MOST_CLIENTS = 1024, MOST_THREADS = 64, ROOM = 256, SECOND = 10000000, MOST_TIMES = 1 << 23 };

/* So many units of 100 ns lie between 15 October 1582 and 1970. */
#define FIRST_OF_1970 122192928000000000u

struct client {
  unsigned char request[ROOM], reply[ROOM];
  size_t size, came;
  size_t number_at, expiration_at; /* where FT_REQUEST has them, or 0 */
  uint32_t calls;
  double asked; /* when the last one was */
};

struct thread {
  pthread_t id;
  int first, count;
  uint64_t counted, all; /* replies */
  int64_t greatest;      /* of the results */
  double busy;           /* seconds of processor time while it counted */
  double since, until;   /* when it began to count, and when it ceased to */
};

static struct client clients[MOST_CLIENTS];
static struct pollfd polls[MOST_CLIENTS];
static uint32_t times[MOST_TIMES]; /* what counted replies took, in 100 ns */
static atomic_uint times_count;
static bool are_deposits;
static uint64_t lasting = 1; /* seconds */
static atomic_ullong came_count;
static unsigned long long most_replies = ~0ull;
static double begin, end;

static void fail(const char *what) {
  fprintf(stderr, "load: %s\n", what);
  exit(1);
}

static double seconds(clockid_t clock) {
  struct timespec time;
  clock_gettime(clock, &time);
  return (double)time.tv_sec + (double)time.tv_nsec / 1e9;
}

/* ---- messages (CORBA 3.3 Part 2, 9.4) ---- */

static void put(unsigned char *at, uint64_t number, int size) {
  while (size-- > 0) *at++ = (unsigned char)(number >> 8 * size);
}

static uint64_t get(const unsigned char *at, int size, bool is_little) {
  uint64_t number = 0;
  for (int index = 0; index < size; index++) number = number << 8 | at[is_little ? size - 1 - index : index];
  return number;
}

static size_t aligned(size_t at, size_t to) { return (at + to - 1) / to * to; }

/* Makes a client's request; its id, its number and its expiration are put into it when it is sent. */
static void make_request(struct client *client, int index, const unsigned char *key, size_t key_size, bool is_keyed) {
  unsigned char *out = client->request;
  size_t at = 28 + key_size;
  memcpy(out, "GIOP\1\2", 6);
  out[16] = 3; /* a reply is wished for */
  put(out + 24, key_size, 4);
  memcpy(out + 28, key, key_size);
  at = aligned(at, 4);
  const char *operation = are_deposits ? "deposit" : "add";
  size_t size = strlen(operation) + 1; /* (with the NUL a multiple of 4) */
  put(out + at, size, 4);
  memcpy(out + at + 4, operation, size);
  at += 4 + size;
  put(out + at, is_keyed, 4);
  at += 4;
  if (is_keyed) {
    put(out + at, 13, 4);
    put(out + at + 4, 24, 4);
    put(out + at + 12, 4, 4); /* after the encapsulation's order: the client id, of three octets and a NUL */
    snprintf((char *)out + at + 16, 4, "%03x", (unsigned)index % 4096);
    client->number_at = at + 20;
    client->expiration_at = at + 24;
    at += 32;
  }
  at = aligned(at, 8);
  if (are_deposits) {
    put(out + at, 4, 4);
    snprintf((char *)out + at + 4, 4, "%03x", (unsigned)index % 4096);
    put(out + at + 8, 7, 8);
    client->size = at + 16;
  } else {
    put(out + at, 7, 4);
    client->size = at + 4;
  }
  put(out + 8, client->size - 12, 4);
}

/* Sends the next request of a client. */
static void ask(int fd, struct client *client) {
  client->asked = seconds(CLOCK_MONOTONIC);
  put(client->request + 12, ++client->calls, 4);
  if (client->number_at > 0) {
    double now = seconds(CLOCK_REALTIME);
    put(client->request + client->number_at, client->calls, 4);
    put(client->request + client->expiration_at, FIRST_OF_1970 + (uint64_t)(now * SECOND) + lasting * SECOND, 8);
  }
  if (send(fd, client->request, client->size, MSG_NOSIGNAL) != (ssize_t)client->size) fail("a request can't be sent");
  client->came = 0;
}

/* Takes what came of a reply. The result where it is whole, else -1. */
static int64_t take(int fd, struct client *client) {
  unsigned char *reply = client->reply;
  ssize_t got = recv(fd, reply + client->came, ROOM - client->came, 0);
  if (got <= 0) fail("the connection is lost");
  client->came += (size_t)got;
  if (client->came < 12) return -1;
  bool is_little = (reply[6] & 1) != 0;
  size_t size = 12 + (size_t)get(reply + 8, 4, is_little);
  if (memcmp(reply, "GIOP\1\2", 6) != 0 || reply[7] != 1 || size != 32) {
    if (reply[7] == 1 && size > 60 && client->came == size) fprintf(stderr, "load: %.*s\n", (int)size - 36, reply + 28);
    fail("this is no reply with a result");
  }
  if (client->came < size) return -1;
  if (client->came > size || get(reply + 12, 4, is_little) != client->calls) fail("this is another reply");
  if (get(reply + 16, 8, is_little) != 0) fail("the reply is an exception, or has contexts");
  return (int64_t)get(reply + 24, 8, is_little);
}

/* ---- the clients ---- */

/* Notes how long a reply took. */
static void note(const struct client *client) {
  unsigned index = atomic_fetch_add(&times_count, 1);
  if (index >= MOST_TIMES) fail("more replies came than times have room");
  times[index] = (uint32_t)((seconds(CLOCK_MONOTONIC) - client->asked) * SECOND);
}

/* Takes the replies that are there, and sends the next requests, or none at the end. Answers how many replies came. */
static int turn(struct thread *thread, bool counts, bool asks) {
  int replies = 0;
  for (int index = thread->first; index < thread->first + thread->count; index++) {
    if (polls[index].revents == 0) continue;
    int64_t result = take(polls[index].fd, &clients[index]);
    if (result < 0) continue;
    if (result > thread->greatest) thread->greatest = result;
    if (are_deposits && result != 7 * (int64_t)clients[index].calls) fail("a deposit did not act once");
    replies++;
    if (counts) note(&clients[index]);
    polls[index].events = asks ? POLLIN : 0;
    if (asks) ask(polls[index].fd, &clients[index]);
  }
  return replies;
}

static void *run(void *it) {
  struct thread *thread = it;
  int open = thread->count;
  double busy_at_begin = -1;
  for (int index = thread->first; index < thread->first + thread->count; index++) ask(polls[index].fd, &clients[index]);
  while (open > 0) {
    if (poll(polls + thread->first, (nfds_t)thread->count, 30000) <= 0) fail("no reply came in half a minute");
    double now = seconds(CLOCK_MONOTONIC);
    bool asks = now < end && came_count < most_replies;
    bool counts = asks && (now >= begin || came_count >= most_replies / 6);
    if (counts && thread->since == 0) thread->since = now < begin ? now : begin;
    if (!asks && thread->until == 0) thread->until = now < end ? now : end;
    if (counts && busy_at_begin < 0) busy_at_begin = seconds(CLOCK_THREAD_CPUTIME_ID);
    int replies = turn(thread, counts, asks);
    came_count += (unsigned)replies;
    thread->all += (uint64_t)replies;
    if (counts) thread->counted += (uint64_t)replies;
    if (counts) thread->busy = seconds(CLOCK_THREAD_CPUTIME_ID) - busy_at_begin;
    if (!asks) open -= replies;
  }
  return NULL;
}

static int connect_to(uint16_t port) {
  struct sockaddr_in name = {.sin_family = AF_INET, .sin_port = htons(port), .sin_addr.s_addr = htonl(INADDR_LOOPBACK)};
  int fd = socket(AF_INET, SOCK_STREAM, 0);
  if (fd < 0 || connect(fd, (struct sockaddr *)&name, sizeof name) != 0) fail("there is no connection");
  setsockopt(fd, IPPROTO_TCP, TCP_NODELAY, &(int){1}, sizeof(int));
  return fd;
}

/* Connects the clients that the words ask for, and answers how many. */
static int connect_all(char **words) {
  unsigned char key[64];
  size_t size = strlen(words[2]) / 2;
  int count = atoi(words[3]);
  if (size > sizeof key || count < 1 || count > MOST_CLIENTS) fail("a key of 64 octets, and 1024 clients, are the most");
  for (size_t index = 0; index < size; index++) {
    unsigned octet;
    if (sscanf(words[2] + 2 * index, "%2x", &octet) != 1) fail("the key is no hexadecimal digits");
    key[index] = (unsigned char)octet;
  }
  bool are_keyed = strncmp(words[6], "keyed", 5) == 0;
  const char *colon = strchr(words[6], ':');
  are_deposits = strncmp(words[6], "deposits", 8) == 0;
  if (are_deposits) lasting = 60;
  if (colon != NULL) lasting = strtoul(colon + 1, NULL, 10);
  for (int index = 0; index < count; index++) {
    make_request(&clients[index], index, key, size, are_deposits || are_keyed);
    polls[index] = (struct pollfd){connect_to((uint16_t)atoi(words[1])), POLLIN, 0};
  }
  return count;
}

static int compare(const void *one, const void *other) {
  uint32_t a = *(const uint32_t *)one, b = *(const uint32_t *)other;
  return (a > b) - (a < b);
}

/* How many microseconds so many of 100 counted replies took at the most. */
static double time_of(unsigned part) {
  return times_count == 0 ? 0 : times[(uint64_t)(times_count - 1) * part / 100] / 10.0;
}

int main(int words_count, char **words) {
  static struct thread threads[MOST_THREADS];
  struct thread sum = {0};
  if (words_count != 7) fail("load PORT KEY CLIENTS THREADS MILLISECONDS[:REPLIES] plain|keyed[:SECONDS]|deposits[:SECONDS]");
  int count = connect_all(words), of_threads = atoi(words[4]);
  if (of_threads < 1 || of_threads > MOST_THREADS || of_threads > count) fail("a thread for each client are the most");
  double length = atof(words[5]) / 1000, since, until = 0;
  const char *colon = strchr(words[5], ':');
  if (colon != NULL) most_replies = strtoull(colon + 1, NULL, 10);
  begin = seconds(CLOCK_MONOTONIC) + length / 5;
  end = begin + length;
  since = begin;
  for (int index = 0, first = 0; index < of_threads; index++) {
    struct thread *thread = &threads[index];
    thread->first = first;
    thread->count = (count - first) / (of_threads - index);
    first += thread->count;
    if (pthread_create(&thread->id, NULL, run, thread) != 0) fail("a thread can't be started");
  }
  for (int index = 0; index < of_threads; index++) {
    pthread_join(threads[index].id, NULL);
    sum.counted += threads[index].counted;
    sum.all += threads[index].all;
    sum.busy += threads[index].busy;
    if (threads[index].greatest > sum.greatest) sum.greatest = threads[index].greatest;
    if (threads[index].since > 0 && threads[index].since < since) since = threads[index].since;
    if (threads[index].until > until) until = threads[index].until;
  }
  length = until - since;
  if (length <= 0) fail("so many replies came before it counted");
  if (!are_deposits && sum.greatest != 7 * (int64_t)sum.all) fail("not each request acted once");
  qsort(times, times_count, sizeof *times, compare);
  printf("%llu %.6f %.3f %llu %.1f %.1f\n", (unsigned long long)sum.counted, length, sum.busy / length / of_threads,
         (unsigned long long)sum.all, time_of(50), time_of(99));
  return 0;
}
