/*
 * What a server takes of the heap: memory
 *
 * Each line is a measure: how many octets were asked for, how many the malloc of glibc takes for these on a machine of
 * 64 bits, in how many blocks, and what they are for. What is counted comes through lr_set_heap.
 */
#include <lemonrudder.h>
#include <stdbool.h>
#include <stdio.h>
#include <stdlib.h>
#include <string.h>

enum { CONNECTIONS = 10000, LEAST = 1 << 14, MOST = 1 << 17, LIMIT = 65536, NOW = 1000, LATER = 2000, ROOM = 4096 };

/* ---- the heap ---- */

/* What is held of the heap. */
struct held {
  double asked, taken, blocks;
};

static struct held held;

/* A block, which stands after its size. */
union block {
  size_t size;
  unsigned char aligned[16];
};

/* What malloc takes for a block: its size and eight octets, rounded up to a multiple of 16, and 32 at the least. */
static double taken_for(size_t size) { return size <= 24 ? 32 : (double)((size + 8 + 15) / 16 * 16); }

static void count(size_t size, int sign) {
  held.asked += sign * (double)size;
  held.taken += sign * taken_for(size);
  held.blocks += sign;
}

static void *allocate(size_t size) {
  union block *at = malloc(sizeof *at + size);
  if (at == NULL) return NULL;
  count(at->size = size, 1);
  return at + 1;
}

static void release(void *old) {
  if (old == NULL) return;
  union block *at = (union block *)old - 1;
  count(at->size, -1);
  free(at);
}

static void *reallocate(void *old, size_t size) {
  union block *at = (union block *)old - 1;
  size_t before = at->size;
  at = realloc(at, sizeof *at + size);
  if (at == NULL) return NULL;
  count(before, -1);
  count(at->size = size, 1);
  return at + 1;
}

static struct held less(struct held now, struct held before) {
  return (struct held){now.asked - before.asked, now.taken - before.taken, now.blocks - before.blocks};
}

/* Prints a measure for each of so many. */
static void print(struct held it, double of, const char *what) {
  printf("%.1f %.1f %.2f %s\n", it.asked / of, it.taken / of, it.blocks / of, what);
}

/* ---- the server ---- */

static lr_server server = LR_INIT;

static int64_t sure(int64_t answer) {
  if (answer >= 0) return answer;
  fprintf(stderr, "memory: %s\n", lr_strerror(answer));
  exit(1);
}

/* Opens a server of one object: `add` takes a long and returns a long long, and `give` is raw. */
static void open_server(void) {
  static const uint8_t number[] = {LR_TYPE_LONG}, result[] = {LR_TYPE_LONGLONG};
  lr_catalogue counter = LR_INIT;
  sure(lr_catalogue_open(&counter));
  sure(lr_catalogue_object(&counter, "c", 1));
  sure(lr_catalogue_operation(&counter, "c", 1, "add", 3, number, 1, result, 1));
  sure(lr_catalogue_raw_operation(&counter, "c", 1, "give", 4));
  sure(lr_server_open(&server, &counter, 1, 2));
  sure(lr_server_set(&server, LR_SET_MESSAGE, LIMIT));
  sure(lr_server_set(&server, LR_SET_PARTIALS, 8));
  sure(lr_server_set(&server, LR_SET_CAPACITY, MOST + 1));
}

/* A request of a client's number, which expires at a moment. Answers its size. */
static size_t request(unsigned char *room, const char *operation, const char *client, int32_t number,
                      uint64_t expiration) {
  static const unsigned char seven[] = {0, 0, 0, 7};
  unsigned char context[64];
  int64_t size = sure(lr_write_ft(context, sizeof context, LR_ORDER_BIG, client, strlen(client), number, expiration));
  return (size_t)sure(lr_write_request(room, ROOM, 2, LR_ORDER_BIG, 1, LR_WISH_FULL, "c", 1, operation,
                                       strlen(operation), LR_CONTEXT_FT_REQUEST, context, (size_t)size, seven,
                                       sizeof seven));
}

/* Takes octets of a connection to their end, answers what is asked by so many octets, and drops what is due. */
static void take(uint64_t connection, uint64_t now, const unsigned char *octets, size_t size, size_t result) {
  unsigned char room[ROOM] = {0};
  lr_request asked = {0};
  while (size > 0) {
    int64_t taken = sure(lr_server_feed(&server, connection, now, octets, size));
    octets += taken;
    size -= (size_t)taken;
    bool is_asking = sure(lr_server_asked(&server, &asked, sizeof asked)) == 1;
    uint64_t ticket = asked.ticket;
    if (is_asking && asked.is_raw)
      sure(lr_server_answer_raw(&server, ticket, LR_REPLY_NO_EXCEPTION, LR_ORDER_BIG, room, result));
    if (is_asking && !asked.is_raw) sure(lr_server_answer(&server, ticket, LR_ORDER_BIG, room, result));
    while (sure(lr_server_output(&server, connection, room, sizeof room)) > 0) continue;
  }
}

/* ---- measures ---- */

/* What connections take of which the same octets have come. */
static void connections(const unsigned char *octets, size_t size, const char *what) {
  open_server();
  struct held before = held;
  for (uint64_t number = 1; number <= CONNECTIONS; number++) {
    sure(lr_server_connect(&server, number));
    if (size > 0) take(number, NOW, octets, size, 8);
  }
  print(less(held, before), CONNECTIONS, what);
  lr_close(&server);
}

/* What outcomes of so many octets take: the least and the most for each, over how many are kept. */
static void outcomes(const char *operation, size_t result, bool is_of_many, const char *what) {
  unsigned char octets[ROOM];
  char client[16] = "client", text[128];
  struct held least = {1e9, 1e9, 1e9}, most = {0, 0, 0}, before;
  open_server();
  sure(lr_server_connect(&server, 1));
  take(1, NOW, octets, request(octets, operation, "first", 1, LATER), result);
  before = held;
  for (int32_t number = 1; number < MOST; number++) {
    if (is_of_many) snprintf(client, sizeof client, "%06d", (int)number);
    take(1, NOW, octets, request(octets, operation, client, number, LATER), result);
    if (number < LEAST) continue;
    struct held each = less(held, before);
    each = (struct held){each.asked / number, each.taken / number, each.blocks / number};
    if (each.taken < least.taken) least = each;
    if (each.taken > most.taken) most = each;
  }
  snprintf(text, sizeof text, "%s: the least", what);
  print(least, 1, text);
  snprintf(text, sizeof text, "%s: the most", what);
  print(most, 1, text);
  take(1, LATER + 1, octets, request(octets, operation, "first", 2, LATER + 1), result);
  snprintf(text, sizeof text, "%s: once it has expired and another request came", what);
  print(less(held, before), MOST, text);
  lr_close(&server);
}

int main(void) {
  unsigned char octets[ROOM], large[1000] = {'G', 'I', 'O', 'P', 1, 2, 0, 0, 0, 0, 4, 0, 0, 0, 0, 1, 3};
  lr_set_heap(allocate, reallocate, release);
  struct held before = held;
  open_server();
  print(less(held, before), 1, "a server of one object with two operations, without connections");
  lr_close(&server);
  print(less(held, before), 1, "all of it, once the server is closed");
  size_t size = request(octets, "give", "first", 1, LATER);
  connections(octets, 0, "a connection on which nothing came");
  connections(octets, size, "a connection on which a request came and was answered");
  connections(octets, size - 1, "a connection on which a request came but for its last octet");
  connections(large, sizeof large, "a connection on which 1,000 octets came of a request of 1,036");
  outcomes("add", 8, false, "an outcome of 8 octets, all of one client");
  outcomes("add", 8, true, "an outcome of 8 octets, each of another client");
  outcomes("give", 100, false, "a raw outcome of 100 octets, all of one client");
  outcomes("give", 1000, false, "a raw outcome of 1,000 octets, all of one client");
  return 0;
}
