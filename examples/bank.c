/*
 * A bank for many clients at once: bank ADDRESS PORT. Its interface is bank.idl.
 *
 *     cc -o bank bank.c loop.c $(pkg-config --cflags --libs lemonrudder)
 *     ./bank 127.0.0.1 2809
 *
 * It prints its reference, and serves until SIGTERM; port 0 is any that is free. A deposit with FT_REQUEST that is sent
 * again, on any connection, acts once.
 */
#define _DEFAULT_SOURCE
#include <stdbool.h>
#include <stdio.h>
#include <stdlib.h>
#include <string.h>
#include <unistd.h>

#include "loop.h"

#define KEY "bank"
#define TYPE "IDL:Bank:1.0"
#define OVERDRAWN "IDL:Bank/Overdrawn:1.0"
enum { LIMIT = 4096, ACCOUNTS = 100 };

static struct account {
  char name[32];
  int64_t balance;
} accounts[ACCOUNTS];

/* The account of a name, which is opened where there is none; NULL where it can't be. */
static struct account *account_of(const unsigned char *name, size_t size) {
  if (size == 0 || size >= sizeof accounts->name) return NULL;
  for (struct account *it = accounts; it < accounts + ACCOUNTS; it++) {
    if (it->name[0] == 0) memcpy(it->name, name, size);
    if (strlen(it->name) == size && memcmp(it->name, name, size) == 0) return it;
  }
  return NULL;
}

/* Changes a balance by an amount, and answers by the new one. Money moves only where the answer counts: at any other
 * error nothing is done. */
static void change(lr_server *server, uint64_t ticket, struct account *account, int64_t amount) {
  unsigned char result[8];
  lr_place out = {0, 0, LR_ORDER_BIG, 0};
  if (account == NULL || (amount > 0 && account->balance > INT64_MAX - amount)) {
    lr_server_system(server, ticket, LR_EX_BAD_PARAM, 0, LR_COMPLETED_NO);
    return;
  }
  bool is_overdrawn = account->balance + amount < 0;
  int64_t balance = is_overdrawn ? account->balance : account->balance + amount;
  lr_put_longlong(result, sizeof result, &out, balance);
  if (is_overdrawn) {
    lr_server_raise(server, ticket, LR_TEXT(OVERDRAWN), LR_ORDER_BIG, result, sizeof result);
    return;
  }
  int64_t answered = lr_server_answer(server, ticket, LR_ORDER_BIG, result, sizeof result);
  if (answered == LR_OK || answered == LR_E_LOST) account->balance = balance;
}

/* Performs the request that waits, whose arguments the library has read by their types. */
static void perform(lr_server *server, const lr_request *asked) {
  char operation[8];
  unsigned char body[LIMIT];
  lr_place in = {.at = asked->body_at, .order = asked->body_order};
  uint64_t start = 0, length = 0;
  int64_t amount = 0;
  if (lr_server_identify(server, asked->ticket) != 0) return;
  if (lr_server_part(server, asked->ticket, LR_PART_OPERATION, operation, sizeof operation) < 0) return;
  if (asked->body_size > sizeof body) return;
  if (lr_server_part(server, asked->ticket, LR_PART_BODY, body, sizeof body) < 0) return;
  lr_get_string(body, asked->body_size, &in, &start, &length);
  if (operation[0] == 'd') lr_get_longlong(body, asked->body_size, &in, &amount);
  change(server, asked->ticket, account_of(body + start, length), amount);
}

/* Opens a server with the bank as its one object. */
static int64_t open_server(lr_server *server) {
  static const uint8_t text[] = {LR_TYPE_STRING}, amount[] = {LR_TYPE_LONGLONG};
  static const uint8_t both[] = {LR_TYPE_STRING, LR_TYPE_LONGLONG};
  lr_catalogue bank = LR_INIT;
  uint64_t seeds[2];
  int64_t done = getentropy(seeds, sizeof seeds) == 0 ? lr_catalogue_open(&bank) : LR_E_RANGE;
  if (done == LR_OK) done = lr_catalogue_object(&bank, LR_TEXT(KEY));
  if (done == LR_OK) done = lr_catalogue_repository_ids(&bank, LR_TEXT(KEY), TYPE, sizeof TYPE);
  if (done == LR_OK) done = lr_catalogue_exception(&bank, LR_TEXT(OVERDRAWN), amount, sizeof amount);
  if (done == LR_OK)
    done = lr_catalogue_operation(&bank, LR_TEXT(KEY), LR_TEXT("deposit"), both, sizeof both, amount, 1);
  if (done == LR_OK)
    done = lr_catalogue_operation(&bank, LR_TEXT(KEY), LR_TEXT("balance"), text, sizeof text, amount, 1);
  if (done == LR_OK) done = lr_server_open(server, &bank, seeds[0], seeds[1]);
  if (done == LR_OK) done = lr_server_set(server, LR_SET_MESSAGE, LIMIT);
  lr_close(&bank);
  return done;
}

int main(int count, char **words) {
  lr_server server = LR_INIT;
  if (count != 3) return fputs("usage: bank ADDRESS PORT\n", stderr), 2;
  uint16_t port = (uint16_t)atoi(words[2]);
  int listener = loop_listen(words[1], &port);
  if (listener < 0) return perror("bank"), 1;
  int64_t done = open_server(&server);
  if (done == LR_OK) done = loop_print(LR_TEXT(TYPE), 2, words[1], port, LR_TEXT(KEY));
  if (done < 0) return fprintf(stderr, "bank: %s\n", lr_strerror(done)), 1;
  int served = loop_serve(&server, listener, perform, NULL);
  if (served != 0) perror("bank");
  lr_close(&server);
  return served == 0 ? 0 : 1;
}
