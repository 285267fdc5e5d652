/*
 * A server of one counter over the library for C that is fed with a stream of messages, to be measured:
 *
 *     engine CALLS COUNT PIECE [add|repeat|locate|rising|scattered [ENTRIES]]
 *
 * The words after CALLS, the messages and what is printed are those of `benches engine` (crates/benches/src/server.rt).
 * CALLS is which functions are called: `few`, what a server can't do without; `loop`, all that examples/bank.c and its
 * loop call; or `parks`, the few, where each request is parked before it is performed.
 */
#include <lemonrudder.h>
#include <stdbool.h>
#include <stdio.h>
#include <stdlib.h>
#include <string.h>

/* A Request of GIOP 1.2 without contexts: `add` with 7, of the object with the key `c`. */
static const unsigned char add_message[52] = {'G', 'I', 'O', 'P', 1, 2, 0, 0, 0, 0, 0,   0x28, 0, 0, 0, 5, 3, 0,
                                              0,   0,   0,   0,   0, 0, 0, 0, 0, 1, 'c', 0,    0, 0, 0, 0, 0, 4,
                                              'a', 'd', 'd', 0,   0, 0, 0, 0, 0, 0, 0,   0,    0, 0, 0, 7};

/* The same with an FT_REQUEST context. */
static const unsigned char keyed_message[84] = {
    'G', 'I', 'O', 'P', 1,   2, 0, 0, 0,   0,   0,   0x48, 0, 0, 0, 5, 3, 0, 0, 0,    0, 0, 0, 0,    0, 0, 0, 1,
    'c', 0,   0,   0,   0,   0, 0, 4, 'a', 'd', 'd', 0,    0, 0, 0, 1, 0, 0, 0, 13,   0, 0, 0, 0x18, 0, 0, 0, 0,
    0,   0,   0,   2,   'A', 0, 0, 0, 0,   0,   0,   1,    0, 0, 0, 0, 0, 0, 0, 0x64, 0, 0, 0, 0,    0, 0, 0, 7};

/* A LocateRequest of the same key. */
static const unsigned char locate_message[25] = {'G', 'I', 'O', 'P', 1, 2, 0, 3, 0, 0, 0, 13, 0,
                                                 0,   0,   1,   0,   0, 0, 0, 0, 0, 0, 1, 'c'};

enum calls { FEW, LOOP, PARKS };

static enum calls calls;
static lr_server server = LR_INIT;
static int64_t total;

/* What was written: how many octets, and a checksum of the last octet of each piece's answers. */
static uint64_t written, sum;

/* The answers to a piece. */
static unsigned char answers[1 << 17];
static size_t answered;

/* What a function answers, which is no error. */
static int64_t sure(int64_t answer) {
  if (answer >= 0) return answer;
  fprintf(stderr, "engine: %s\n", lr_strerror(answer));
  exit(1);
}

/* Performs `add` or `get`, whose name has come. */
static void perform(const lr_request *asked, const char *operation) {
  unsigned char body[16], result[8];
  lr_place in = {asked->body_at, 0, asked->body_order, 0}, out = {0, 0, LR_ORDER_BIG, 0};
  int32_t n = 0;
  sure(lr_server_part(&server, asked->ticket, LR_PART_BODY, body, sizeof body));
  if (operation[0] == 'a') sure(lr_get_long(body, sizeof body, &in, &n));
  total += n;
  sure(lr_put_longlong(result, sizeof result, &out, total));
  sure(lr_server_answer(&server, asked->ticket, LR_ORDER_BIG, result, sizeof result));
}

/* Moves what is due to the answers. */
static int64_t collect(void) {
  int64_t size = sure(lr_server_output(&server, 1, answers + answered, sizeof answers - answered));
  answered += (size_t)size;
  if (answered == sizeof answers) sure(LR_E_ROOM);
  return size;
}

/* Performs what waits, if anything does. */
static void attend(void) {
  char operation[8];
  lr_request asked;
  if (sure(lr_server_asked(&server, &asked, sizeof asked)) == 0) return;
  if (calls == LOOP && sure(lr_server_identify(&server, asked.ticket)) != 0) return;
  if (calls == PARKS) sure(lr_server_park(&server, asked.ticket));
  sure(lr_server_part(&server, asked.ticket, LR_PART_OPERATION, operation, sizeof operation));
  perform(&asked, operation);
}

/* Takes a piece on connection 1 at a moment, and its answers. */
static void take(uint64_t moment, const unsigned char *piece, size_t size) {
  answered = 0;
  while (size > 0) {
    int64_t taken = sure(lr_server_feed(&server, 1, moment, piece, size));
    attend();
    piece += taken;
    size -= (size_t)taken;
    if (calls != LOOP) continue;
    if (lr_server_give_up(&server, 0) != LR_E_IDLE) sure(LR_E_ASKING); /* (nothing waits) */
    while (collect() > 0) continue;
  }
  if (calls != LOOP) collect();
  if (calls == LOOP && sure(lr_server_is_closed(&server, 1)) != 0) sure(LR_E_STREAM);
  written += answered;
  sum = sum * 31 + (answered > 0 ? answers[answered - 1] : 0);
}

/* Takes `count` times a message in pieces of a size; of 0 octets, only makes the stream. */
static void take_same(size_t count, size_t piece, const unsigned char *message, size_t size) {
  unsigned char *stream = malloc(count * size + 1);
  if (stream == NULL) sure(LR_E_MEMORY);
  for (size_t index = 0; index < count; index++) memcpy(stream + index * size, message, size);
  if (piece == 0) written = count * size;
  for (size_t at = 0; piece > 0 && at < count * size; at += piece)
    take(50, stream + at, count * size - at < piece ? count * size - at : piece);
  free(stream);
}

/* Writes a number in big order. */
static void put(unsigned char *at, uint64_t number, int size) {
  while (size-- > 0) *at++ = (unsigned char)(number >> 8 * size);
}

/* The last moment at which the outcome of a message is kept: one expires with each that comes after the first
 * `entries`, in the order in which they were kept, or in another. */
static uint64_t expiration(uint64_t index, uint64_t entries, bool is_scattered) {
  uint64_t place = index & (entries - 1);
  uint64_t turn = is_scattered ? (place * 40503 + 97) & (entries - 1) : place;
  return 999 + index - place + entries + turn;
}

/* Takes `count` messages, each with a key of its own; or only makes them. */
static void take_keyed(size_t count, size_t entries, bool is_scattered, bool feeds) {
  unsigned char message[sizeof keyed_message];
  memcpy(message, keyed_message, sizeof message);
  for (size_t index = 0; index < count; index++) {
    put(message + 64, index + 1, 4);
    put(message + 68, expiration(index, entries, is_scattered), 8);
    if (feeds) {
      take(1000 + index, message, sizeof message);
    } else {
      written += sizeof message;
      sum = sum * 31 + message[sizeof message - 1];
    }
  }
}

/* Opens a server of the counter that keeps so many outcomes, and connection 1. */
static void open_server(uint32_t entries) {
  static const uint8_t number[] = {LR_TYPE_LONG}, result[] = {LR_TYPE_LONGLONG};
  static const char overflow[] = "IDL:Counter/Overflow:1.0";
  lr_catalogue counter = LR_INIT;
  sure(lr_catalogue_open(&counter));
  sure(lr_catalogue_object(&counter, "c", 1));
  sure(lr_catalogue_exception(&counter, overflow, sizeof overflow - 1, NULL, 0));
  sure(lr_catalogue_operation(&counter, "c", 1, "add", 3, number, 1, result, 1));
  sure(lr_catalogue_operation(&counter, "c", 1, "get", 3, NULL, 0, result, 1));
  sure(lr_server_open(&server, &counter, 1, 2));
  sure(lr_server_set(&server, LR_SET_PARTIALS, 8));
  sure(lr_server_set(&server, LR_SET_CAPACITY, entries));
  lr_close(&counter);
  sure(lr_server_connect(&server, 1));
}

/* Which of the words it is. */
static int which(const char *word, int count, const char *const *words) {
  for (int index = 0; index < count; index++)
    if (strcmp(word, words[index]) == 0) return index;
  fputs("usage: engine few|loop|parks COUNT PIECE [add|repeat|locate|rising|scattered [ENTRIES]]\n", stderr);
  exit(2);
}

int main(int count, char **words) {
  static const char *const of_calls[] = {"few", "loop", "parks"};
  static const char *const kinds[] = {"add", "repeat", "locate", "rising", "scattered"};
  calls = (enum calls)which(count < 4 || count > 6 ? "" : words[1], 3, of_calls);
  size_t messages = strtoul(words[2], NULL, 10), piece = strtoul(words[3], NULL, 10);
  int kind = which(count > 4 ? words[4] : "add", 5, kinds);
  size_t entries = count > 5 ? strtoul(words[5], NULL, 10) : 1024;
  open_server((uint32_t)entries);
  if (kind == 0) take_same(messages, piece, add_message, sizeof add_message);
  if (kind == 1) take_same(messages, piece, keyed_message, sizeof keyed_message);
  if (kind == 2) take_same(messages, piece, locate_message, sizeof locate_message);
  if (kind > 2) take_keyed(messages, entries, kind == 4, piece > 0);
  lr_close(&server);
  printf("octets %llu sum %llu total %lld\n", (unsigned long long)written, (unsigned long long)sum, (long long)total);
  return 0;
}
