/* Objects that come and go, for tests/embed/objects_test.py: `desk`, which makes and takes away what `slow` is asked of. */
#include <stdbool.h>
#include <stdio.h>
#include <stdlib.h>

#include "loop.h"

static const uint8_t one_long[] = {LR_TYPE_LONG};
static uint64_t tickets[64];
static size_t ticket_count;
static int32_t performed;
static bool is_released, is_asked_for;

static int64_t answer(lr_server *server, uint64_t ticket, int32_t number) {
  uint8_t octets[4];
  lr_place out = {0, 0, LR_ORDER_BIG, 0};
  lr_put_long(octets, sizeof octets, &out, number);
  return lr_server_answer(server, ticket, LR_ORDER_BIG, octets, sizeof octets);
}

static int64_t add(lr_catalogue *all, const char *key, const char *names) {
  int64_t done = lr_catalogue_object(all, key, strlen(key));
  if (done == LR_OK) done = lr_catalogue_repository_ids(all, key, strlen(key), "IDL:One:1.0", sizeof "IDL:One:1.0");
  for (const char *name = names; done == LR_OK && *name != 0; name += strlen(name) + 1)
    done = lr_catalogue_operation(all, key, strlen(key), name, strlen(name), NULL, 0, one_long, 1);
  return done;
}

static void perform(lr_server *server, const lr_request *asked) {
  char name[16] = {0};
  lr_server_part(server, asked->ticket, LR_PART_OPERATION, name, sizeof name - 1);
  if (strcmp(name, "slow") == 0 && lr_server_park(server, asked->ticket) == LR_OK) {
    tickets[ticket_count++] = asked->ticket;
    return;
  }
  if (strcmp(name, "bye") == 0) loop_remove(LR_TEXT("one"));
  is_released = is_released || strcmp(name, "release") == 0;
  is_asked_for = is_asked_for || strcmp(name, "make") == 0;
  answer(server, asked->ticket, strcmp(name, "count") == 0 ? performed : 7);
  loop_wake();
}

static void settle(lr_server *server) {
  while (is_released && ticket_count > 0) {
    performed++;
    if (answer(server, tickets[--ticket_count], 5) != LR_OK) abort();
  }
  is_released = false;
  lr_catalogue all = LR_INIT;
  if (!is_asked_for || lr_catalogue_open(&all) != LR_OK) return;
  is_asked_for = false;
  lr_server_swap(server, &all);
  add(&all, "one", "slow\0bye\0now\0");
  lr_server_swap(server, &all);
  lr_catalogue_close(&all);
}

int main(void) {
  lr_catalogue all = LR_INIT;
  lr_server server = LR_INIT;
  uint16_t port = 0;
  int listener = loop_listen("127.0.0.1", &port);
  if (listener < 0 || lr_catalogue_open(&all) != LR_OK) return 1;
  if (add(&all, "desk", "release\0make\0count\0") != LR_OK || add(&all, "one", "slow\0bye\0now\0") != LR_OK) return 1;
  if (lr_server_open(&server, &all, 1, 2) != LR_OK) return 1;
  loop_print(LR_TEXT("IDL:Desk:1.0"), 2, "127.0.0.1", port, LR_TEXT("desk"));
  int served = loop_serve(&server, listener, perform, settle);
  lr_server_close(&server);
  return served == 0 ? 0 : 1;
}
