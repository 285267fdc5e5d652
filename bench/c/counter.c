/*
 * The counter of examples/counter.idl, served by the loop of examples/loop.c: counter KEY
 *
 * KEY is the object key in hexadecimal digits. It prints its reference, and serves at a free port of 127.0.0.1 until
 * SIGTERM. A request with FT_REQUEST acts once; a million outcomes are kept at the most.
 */
#define _DEFAULT_SOURCE
#include <stdio.h>
#include <stdlib.h>
#include <string.h>
#include <unistd.h>

#include "loop.h"

#define TYPE "IDL:Counter:1.0"
#define OVERFLOWS "IDL:Counter/Overflow:1.0"
enum { LIMIT = 4096, OUTCOMES = 1 << 20, MOST_KEY = 64 };

static int64_t total;

/* Performs the request that waits: `add` or `get`. The total changes where the answer counts. */
static void perform(lr_server *server, const lr_request *asked) {
  char operation[4];
  unsigned char body[8], result[8];
  lr_place in = {asked->body_at, 0, asked->body_order, 0}, out = {0, 0, LR_ORDER_BIG, 0};
  int32_t n = 0;
  int64_t sum;
  if (lr_server_identify(server, asked->ticket) != 0) return;
  if (lr_server_part(server, asked->ticket, LR_PART_OPERATION, operation, sizeof operation) < 0) return;
  if (lr_server_part(server, asked->ticket, LR_PART_BODY, body, sizeof body) < 0) return;
  if (operation[0] == 'a') lr_get_long(body, sizeof body, &in, &n);
  if (__builtin_add_overflow(total, n, &sum)) {
    lr_server_raise(server, asked->ticket, LR_TEXT(OVERFLOWS), LR_ORDER_BIG, NULL, 0);
    return;
  }
  lr_put_longlong(result, sizeof result, &out, sum);
  int64_t answered = lr_server_answer(server, asked->ticket, LR_ORDER_BIG, result, sizeof result);
  if (answered == LR_OK || answered == LR_E_LOST) total = sum;
}

/* Opens a server with the counter as its one object. */
static int64_t open_server(lr_server *server, const void *key, size_t size) {
  static const uint8_t number[] = {LR_TYPE_LONG}, result[] = {LR_TYPE_LONGLONG};
  lr_catalogue counter = LR_INIT;
  uint64_t seeds[2];
  int64_t done = getentropy(seeds, sizeof seeds) == 0 ? lr_catalogue_open(&counter) : LR_E_RANGE;
  if (done == LR_OK) done = lr_catalogue_object(&counter, key, size);
  if (done == LR_OK) done = lr_catalogue_repository_ids(&counter, key, size, TYPE, sizeof TYPE);
  if (done == LR_OK) done = lr_catalogue_exception(&counter, LR_TEXT(OVERFLOWS), NULL, 0);
  if (done == LR_OK) done = lr_catalogue_operation(&counter, key, size, "add", 3, number, 1, result, 1);
  if (done == LR_OK) done = lr_catalogue_operation(&counter, key, size, "get", 3, NULL, 0, result, 1);
  if (done == LR_OK) done = lr_server_open(server, &counter, seeds[0], seeds[1]);
  if (done == LR_OK) done = lr_server_set(server, LR_SET_MESSAGE, LIMIT);
  if (done == LR_OK) done = lr_server_set(server, LR_SET_PARTIALS, 8);
  if (done == LR_OK) done = lr_server_set(server, LR_SET_CAPACITY, OUTCOMES);
  lr_close(&counter);
  return done;
}

/* The octets that digits are; answers how many. */
static size_t octets_of(const char *digits, unsigned char *octets) {
  size_t size = 0;
  unsigned octet;
  while (size < MOST_KEY && sscanf(digits + 2 * size, "%2x", &octet) == 1) octets[size++] = (unsigned char)octet;
  return size;
}

int main(int count, char **words) {
  lr_server server = LR_INIT;
  unsigned char key[MOST_KEY];
  uint16_t port = 0;
  if (count != 2) return fputs("usage: counter KEY\n", stderr), 2;
  size_t size = octets_of(words[1], key);
  int listener = loop_listen("127.0.0.1", &port);
  if (listener < 0) return perror("counter"), 1;
  int64_t done = open_server(&server, key, size);
  if (done == LR_OK) done = loop_print(LR_TEXT(TYPE), 2, "127.0.0.1", port, key, size);
  if (done < 0) return fprintf(stderr, "counter: %s\n", lr_strerror(done)), 1;
  int served = loop_serve(&server, listener, perform, NULL);
  if (served != 0) perror("counter");
  lr_close(&server);
  return served == 0 ? 0 : 1;
}
