/*
 * A server over examples/loop.c whose replies are long: long ADDRESS PORT. Its object `long` has two operations: `get`
 * gives a sequence of a million octets, and `later` is answered when the loop has settled forty times.
 */
#include <stdbool.h>
#include <stdio.h>
#include <stdlib.h>

#include "loop.h"

enum { LONG = 1000000 };

static const unsigned char zeros[LONG];
static unsigned char result[4 + LONG];

static bool waits;
static uint64_t waiting;
static int settled;

static void perform(lr_server *server, const lr_request *asked) {
  char operation = 0;
  lr_server_part(server, asked->ticket, LR_PART_OPERATION, &operation, 1);
  if (operation == 'g') {
    lr_server_answer(server, asked->ticket, LR_ORDER_BIG, result, sizeof result);
  } else if (lr_server_park(server, asked->ticket) == LR_OK) {
    waits = true;
    waiting = asked->ticket;
    settled = 0;
  }
}

static void settle(lr_server *server) {
  if (!waits || ++settled < 40) return;
  waits = false;
  lr_server_answer(server, waiting, LR_ORDER_BIG, NULL, 0);
}

int main(int count, char **words) {
  static const uint8_t octets[] = {LR_TYPE_OCTETS};
  lr_catalogue catalogue = LR_INIT;
  lr_server server = LR_INIT;
  lr_place out = {0, 0, LR_ORDER_BIG, 0};
  if (count != 3 || lr_put_octets(result, sizeof result, &out, zeros, sizeof zeros) != LR_OK) return 2;
  uint16_t port = (uint16_t)atoi(words[2]);
  int listener = loop_listen(words[1], &port);
  if (listener < 0 || lr_catalogue_open(&catalogue) != LR_OK || lr_catalogue_object(&catalogue, LR_TEXT("long")) != LR_OK ||
      lr_catalogue_operation(&catalogue, LR_TEXT("long"), LR_TEXT("get"), NULL, 0, octets, 1) != LR_OK ||
      lr_catalogue_operation(&catalogue, LR_TEXT("long"), LR_TEXT("later"), NULL, 0, NULL, 0) != LR_OK ||
      lr_server_open(&server, &catalogue, 1, 2) != LR_OK ||
      loop_print(LR_TEXT("IDL:Long:1.0"), 2, words[1], port, LR_TEXT("long")) < 0)
    return 1;
  int served = loop_serve(&server, listener, perform, settle);
  lr_close(&server);
  return served == 0 ? 0 : 1;
}
