/*
 * What a server keeps in memory, whatever its peers send and however little they take, is at most what its limits add
 * up to. Peers send, by fixed seeds: messages that are never whole, messages in fragments, requests with many keys and
 * their repeats, and requests without one; they seldom take what is due, and some are lost. Requests are answered at
 * once, parked or refused, and answered later. After each step what is allocated is compared with the sum.
 *
 * Then it is played again with each limit greater than the sum says, and goes beyond it.
 */
#include <stdlib.h>

#include "check.h"

enum {
  PEERS = 8,
  STEPS = 20000,
  REPLY = 600,   /* octets of results at most */
  PIECE = 4000,  /* .. that come at a time */
  MORE = 400,    /* what is kept of anything beside its octets: numbers, and places in tables */
  OPEN = 32768,  /* .. of a server, and of its tables where they are nearly empty */
  ROOM = 800,    /* .. of a client's id */
  LARGEST = 65536
};

/* The limits of a server. */
struct limits {
  uint64_t message, partials, capacity, parked, joined, due, client;
};

static const struct limits usual = {4096, 2, 60, 4, 1, 1000, 64};

/* ---- a heap that counts ---- */

static size_t held;

/* Before each allocation stands its size. */
static void *sized(unsigned char *at, size_t size) {
  if (at == NULL) return NULL;
  memcpy(at, &size, sizeof size);
  held += size;
  return at + 16;
}

static size_t size_of(const void *at) {
  size_t size = 0;
  if (at != NULL) memcpy(&size, (const unsigned char *)at - 16, sizeof size);
  return size;
}

static void *allocate(size_t size) { return sized(malloc(size + 16), size); }

static void *reallocate(void *old, size_t size) {
  size_t before = size_of(old);
  unsigned char *at = realloc(old == NULL ? NULL : (unsigned char *)old - 16, size + 16);
  if (at != NULL) held -= before;
  return sized(at, size);
}

static void release(void *at) {
  held -= size_of(at);
  if (at != NULL) free((unsigned char *)at - 16);
}

/* ---- what a server may keep ---- */

/* A message has room for twice its octets, as it grows; so has each buffer. */
static size_t sum(const struct limits *limits) {
  size_t waits = (size_t)(limits->parked * (limits->joined + 1)), one = REPLY + MORE;
  size_t messages = (size_t)((limits->partials + 1) * (limits->message + MORE));
  size_t of_peer = messages + (size_t)limits->due + one + waits * one;
  size_t of_parked = (size_t)limits->message + MORE + (size_t)(limits->joined + 1) * MORE;
  size_t of_outcome = REPLY + (size_t)limits->client + MORE;
  return OPEN + 2 * (PEERS * of_peer + (size_t)limits->parked * of_parked + (size_t)limits->capacity * of_outcome);
}

/* ---- peers ---- */

struct peer {
  uint64_t connection;
  unsigned char sends[LARGEST]; /* the message that it is at */
  size_t size, sent;
  uint32_t partials; /* how many messages it has begun in fragments */
};

static struct peer peers[PEERS];
static lr_server server = LR_INIT;
static uint64_t last, state;
static uint64_t parked[1000];
static size_t parked_count;
static long asked_count, settled_count, repeated_count;

/* A number below a bound. */
static size_t dice(size_t bound) {
  state ^= state << 13;
  state ^= state >> 7;
  state ^= state << 17;
  return (size_t)(state % bound);
}

static void open_peer(struct peer *peer) {
  peer->connection = ++last;
  peer->size = peer->sent = 0;
  peer->partials = 0;
  WANT(lr_server_connect(&server, peer->connection), LR_OK);
}

/* Writes the size of a message into its header, and fills it up to there. */
static void fill(struct peer *peer, const struct octets *begun, size_t size) {
  if (size > sizeof peer->sends) size = sizeof peer->sends;
  memset(peer->sends, 0, size);
  memcpy(peer->sends, begun->all, begun->size);
  for (size_t index = 0; index < 4; index++) peer->sends[8 + index] = (unsigned char)((size - 12) >> (24 - 8 * index));
  peer->size = size;
  peer->sent = 0;
}

/* A request, whose key is one of many where it has one, and whose body has any size. */
static void make_request(struct peer *peer, const struct limits *limits, bool is_whole) {
  static char client[ROOM];
  struct octets out;
  size_t who = dice(4), length = who < 2 ? 1 + who : (size_t)limits->client;
  memset(client, 'a' + (int)who, length);
  client[length] = 0;
  int32_t number = (int32_t)dice(dice(2) == 0 ? 5 : 100000);
  uint32_t wish = dice(5) == 0 ? LR_WISH_NONE : LR_WISH_FULL, id = (uint32_t)dice(1000);
  struct asking asking = {2, LR_ORDER_BIG, id, wish, "c", "raw", dice(4) != 0 ? client : NULL, number, 2000};
  begin_request(&out, &asking, true);
  size_t size = out.size + dice(200);
  if (!is_whole) size = (size_t)limits->message - dice(8);
  if (!is_whole && dice(2) == 0 && peer->partials < limits->partials) { /* its first frame: no other comes of it */
    out.all[6] |= 2;
    out.all[12] = 1;
    out.all[15] = (unsigned char)peer->partials++;
    size -= size % 8;
  }
  fill(peer, &out, size);
}

/* Feeds a piece of what a peer sends. One that has sent all but a last octet stays so for long. */
static void feed(struct peer *peer, const struct limits *limits) {
  if (peer->sent == peer->size) make_request(peer, limits, dice(3) != 0);
  size_t left = peer->size - peer->sent, piece = 1 + dice(PIECE);
  if (piece > left) piece = left;
  if (piece == left && piece > 1 && peer->size > 2000 && (peer->sends[6] & 2) == 0 && dice(20) != 0) piece--;
  if (left == 1 && dice(8) != 0) return;
  int64_t taken = lr_server_feed(&server, peer->connection, 1000, peer->sends + peer->sent, piece);
  if (!CHECK(taken >= 0)) return;
  peer->sent += (size_t)taken;
}

/* ---- the owner ---- */

static void answer(uint64_t ticket) {
  static const unsigned char zeros[REPLY];
  size_t size = dice(2) == 0 ? REPLY : dice(REPLY);
  WANT(lr_server_answer_raw(&server, ticket, LR_REPLY_NO_EXCEPTION, LR_ORDER_BIG, zeros, size), LR_OK);
}

static void perform(void) {
  lr_request asked;
  if (lr_server_asked(&server, &asked, sizeof asked) != 1) return;
  asked_count++;
  if (dice(2) == 0 && parked_count < sizeof parked / sizeof *parked && lr_server_park(&server, asked.ticket) == LR_OK) {
    parked[parked_count++] = asked.ticket;
  } else if (dice(10) == 0) {
    WANT(lr_server_refuse(&server, asked.ticket, LR_EX_TRANSIENT, 0), LR_OK);
  } else {
    answer(asked.ticket);
  }
}

static void settle(void) {
  size_t index = dice(parked_count);
  answer(parked[index]);
  parked[index] = parked[--parked_count];
  settled_count++;
}

/* ---- a play ---- */

static void step(const struct limits *limits) {
  static unsigned char room[512];
  struct peer *peer = &peers[dice(PEERS)];
  feed(peer, limits);
  perform();
  if (parked_count > 0 && dice(100) == 0) settle();
  if (dice(8) == 0) lr_server_output(&server, peer->connection, room, 1 + dice(sizeof room));
  if (lr_server_is_closed(&server, peer->connection) == 1 || dice(1500) == 0) {
    WANT(lr_server_lost(&server, peer->connection), LR_OK);
    open_peer(peer);
  }
}

static void set(uint32_t what, uint64_t value) { WANT(lr_server_set(&server, what, value), LR_OK); }

/* Opens a server of these limits, with peers. */
static void begin(const struct limits *limits) {
  lr_catalogue catalogue = LR_INIT;
  WANT(lr_catalogue_open(&catalogue), LR_OK);
  WANT(lr_catalogue_raw_object(&catalogue, "c", 1), LR_OK);
  WANT(lr_server_open(&server, &catalogue, 1, 2), LR_OK);
  set(LR_SET_MESSAGE, limits->message);
  set(LR_SET_PARTIALS, limits->partials);
  set(LR_SET_CAPACITY, limits->capacity);
  set(LR_SET_PARKED, limits->parked);
  set(LR_SET_PARKED_OF, limits->parked);
  set(LR_SET_JOINED, limits->joined);
  set(LR_SET_DUE, limits->due);
  set(LR_SET_CLIENT_ID, limits->client);
  parked_count = 0;
  for (size_t index = 0; index < PEERS; index++) open_peer(&peers[index]);
}

/* Plays so many steps by a seed, and answers the most that was allocated at a time. */
static size_t most_of(const struct limits *limits, uint64_t seed, long steps) {
  size_t most = 0;
  state = seed;
  begin(limits);
  for (long index = 0; index < steps; index++) {
    step(limits);
    if (held > most) most = held;
  }
  repeated_count += (long)lr_server_count(&server, LR_COUNT_REPEATED) + (long)lr_server_count(&server, LR_COUNT_JOINED);
  lr_server_close(&server);
  CHECK(held == 0);
  return most;
}

/* With a limit that is greater than the sum says more is kept than that. */
static void matters(const char *name, const struct limits *greater) {
  size_t most = 0;
  for (uint64_t seed = 1; seed <= 5 && most <= sum(&usual); seed++) most = most_of(greater, seed, 3 * STEPS);
  if (!CHECK(most > sum(&usual))) printf("%s: %lu of %lu\n", name, (unsigned long)most, (unsigned long)sum(&usual));
}

int main(void) {
  struct limits greater;
  WANT(lr_set_heap(allocate, reallocate, release), LR_OK);
  for (uint64_t seed = 1; seed <= 5; seed++) {
    size_t most = most_of(&usual, seed, STEPS);
    if (!CHECK(most <= sum(&usual))) printf("it held %lu of %lu\n", (unsigned long)most, (unsigned long)sum(&usual));
  }
  CHECK(asked_count > 1000 && settled_count > 100 && repeated_count > 100);
#define GREATER(what, value) greater = usual, greater.what = (value), matters(#what, &greater)
  GREATER(message, 60000);
  GREATER(partials, 16);
  GREATER(capacity, 100000);
  GREATER(parked, 1000);
  GREATER(due, 1000000);
  return check_end();
}
