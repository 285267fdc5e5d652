/*
 * The database of bank_durable.c: accounts, and the outcomes of requests by their keys. One thread uses it. The outcomes,
 * and the mark W, are as lemonrudder_store.h has them: a request whose expiration lies before W is refused, whatever
 * clocks say.
 */
#ifndef BANK_STORE_H
#define BANK_STORE_H

#include <lemonrudder_store.h>

/* The room of a line that says why something failed. */
enum { BANK_WHY = LR_STORE_WHY };

/* What names a request on each of its ways, and up to when it counts. */
struct key {
  unsigned char client[256];
  size_t client_size;
  int32_t retention;
  uint64_t expiration;
};

static inline lr_store_key bank_key(const struct key *key) {
  lr_store_key lent = {key->client, key->client_size, key->retention, key->expiration};
  return lent;
}

/* A kind of database. What answers a bool answers false, and what answers an int -1, where it fails: bank_why says then
 * why, and the transaction is to be rolled back. */
struct store {
  bool (*open)(const char *name); /* tables that are missing are made; the name is lent up to `close` */
  void (*close)(void);            /* also where it is not open */
  bool (*begin)(uint64_t *least); /* a transaction, and W */
  bool (*commit)(void);           /* false: perhaps it is committed, and perhaps not */
  bool (*rollback)(void);         /* false: close it */
  int (*find)(const struct key *key, lr_store_outcome *outcome);        /* 1, or 0 where there is none */
  bool (*keep)(const struct key *key, const lr_store_outcome *outcome); /* where there is one it fails, or `commit` */
  bool (*balance)(const char *name, int64_t *balance);                  /* 0, where there is no such account */
  bool (*set_balance)(const char *name, int64_t balance);
  int (*purge)(uint64_t moment); /* in a transaction: takes outcomes out that expire before it, and moves W */
};

extern const struct store bank_sqlite, bank_postgres;

/* Why something failed last, in a line. */
extern char bank_why[BANK_WHY];

/* Notes it: what was asked, and what the database says. Answers false. */
bool bank_failed(const char *what, const char *says);

/* The process kills itself where the environment names this point. */
void bank_reach(const char *point);

#endif
