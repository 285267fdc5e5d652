/*
 * What the database alone does of examples/bank_durable.c: the same statements for each deposit, but for looking it up,
 * so many deposits in each transaction, as fast as one thread can:
 *
 *     plain_bank STORE DEPOSITS MILLISECONDS
 *
 * It prints how many deposits were committed, and how many seconds that took.
 */
#define _DEFAULT_SOURCE
#include <stdio.h>
#include <stdlib.h>
#include <string.h>
#include <time.h>

#include "bank_store.h"

char bank_why[BANK_WHY];

bool bank_failed(const char *what, const char *says) {
  fprintf(stderr, "plain_bank: %s: %s\n", what, says);
  exit(1);
}

void bank_reach(const char *point) { (void)point; }

static double seconds(void) {
  struct timespec time;
  clock_gettime(CLOCK_MONOTONIC, &time);
  return (double)time.tv_sec + (double)time.tv_nsec / 1e9;
}

int main(int count, char **words) {
  if (count != 4) return fputs("usage: plain_bank STORE DEPOSITS MILLISECONDS\n", stderr), 2;
  const struct store *store = strncmp(words[1], "postgres", 8) == 0 ? &bank_postgres : &bank_sqlite;
  unsigned char body[8] = {0};
  int of_each = atoi(words[2]);
  double length = atof(words[3]) / 1000, begin = seconds();
  uint64_t least;
  int32_t done = 0;
  store->open(words[1]);
  while (seconds() - begin < length) {
    store->begin(&least);
    for (int index = 0; index < of_each; index++) {
      char name[16];
      int64_t balance;
      struct key key = {.client_size = 3, .retention = ++done, .expiration = UINT64_MAX};
      lr_store_outcome outcome = {0, 0, body, sizeof body};
      snprintf(name, sizeof name, "%03x", (unsigned)index);
      memcpy(key.client, name, 3);
      store->balance(name, &balance);
      store->set_balance(name, balance + 7);
      store->keep(&key, &outcome);
    }
    store->commit();
  }
  printf("%d %.6f\n", done, seconds() - begin);
  store->close();
  return 0;
}
