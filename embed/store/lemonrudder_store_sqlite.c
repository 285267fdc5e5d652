/* Outcomes in a SQLite file: lemonrudder_store.h. */
#include "lemonrudder_store.h"

#include "outcomes.sqlite.h"

#include <sqlite3.h>
#include <stdio.h>
#include <stdlib.h>
#include <string.h>

enum { LEAST, FIND, KEEP, GREATEST, RAISE, TAKE_OUT };
static const char *const names[LR_STORE_STATEMENTS] = {"least", "find", "keep", "greatest", "raise", "take out"};

static const char *text(const char *name) {
  for (size_t index = 0; index < sizeof texts / sizeof *texts; index++)
    if (strcmp(texts[index][0], name) == 0) return texts[index][1];
  return "";
}

/* Notes why something failed. Answers false. */
static bool failed(lr_sqlite *store, const char *what) {
  snprintf(store->why, sizeof store->why, "%s: %s", what, sqlite3_errmsg(store->file));
  return false;
}

static bool said(lr_sqlite *store, const char *words) {
  return sqlite3_exec(store->file, words, NULL, NULL, NULL) == SQLITE_OK || failed(store, "the tables");
}

/* The number that a statement says, -1 where that is NULL, or -2 where it fails. */
static int number_of(lr_sqlite *store, const char *name) {
  sqlite3_stmt *statement = NULL;
  int number = -2;
  if (sqlite3_prepare_v2(store->file, text(name), -1, &statement, NULL) == SQLITE_OK &&
      sqlite3_step(statement) == SQLITE_ROW)
    number = sqlite3_column_type(statement, 0) == SQLITE_NULL ? -1 : sqlite3_column_int(statement, 0);
  if (number == -2) failed(store, "the tables");
  sqlite3_finalize(statement);
  return number;
}

/* Makes tables of those of a version. */
static bool make(lr_sqlite *store, int version) {
  char aside[16], over[16];
  snprintf(aside, sizeof aside, "aside %d", version);
  snprintf(over, sizeof over, "over %d", version);
  return said(store, text(aside)) && said(store, text("tables")) && said(store, text(over));
}

/* Has the tables be there, in a transaction. */
static bool make_tables(lr_sqlite *store) {
  int found = number_of(store, "found");
  if (found == -2 || (found >= 0 && found < LR_STORE_VERSION && !make(store, found))) return false;
  int version = found < 0 ? -1 : number_of(store, "version");
  if (version == LR_STORE_VERSION) return true;
  if (version == -1) snprintf(store->why, sizeof store->why, "its table outcome is of another program");
  if (version >= 0)
    snprintf(store->why, sizeof store->why, "it has outcomes of version %d, and not %d", version, LR_STORE_VERSION);
  return false;
}

bool lr_sqlite_open(lr_sqlite *store, struct sqlite3 *file) {
  *store = (lr_sqlite){.file = file};
  if (!said(store, "BEGIN IMMEDIATE")) return false;
  if (!make_tables(store) || !said(store, "COMMIT")) {
    sqlite3_exec(file, "ROLLBACK", NULL, NULL, NULL);
    return false;
  }
  for (int which = 0; which < LR_STORE_STATEMENTS; which++)
    if (sqlite3_prepare_v2(file, text(names[which]), -1, &store->statements[which], NULL) != SQLITE_OK) {
      failed(store, names[which]);
      lr_sqlite_close(store);
      return false;
    }
  return true;
}

void lr_sqlite_close(lr_sqlite *store) {
  for (int which = 0; which < LR_STORE_STATEMENTS; which++) {
    sqlite3_finalize(store->statements[which]);
    store->statements[which] = NULL;
  }
}

/* Ends a statement, and answers whether it was done. */
static bool end(lr_sqlite *store, int which, int done) {
  bool is_done = done == SQLITE_DONE || done == SQLITE_ROW;
  if (!is_done) failed(store, names[which]);
  sqlite3_reset(store->statements[which]);
  return is_done;
}

static bool run(lr_sqlite *store, int which) { return end(store, which, sqlite3_step(store->statements[which])); }

static void bind_octets(sqlite3_stmt *statement, int at, const void *octets, size_t size) {
  /* (an empty one is no NULL) */
  sqlite3_bind_blob(statement, at, octets != NULL ? octets : "", (int)size, SQLITE_TRANSIENT);
}

/* A moment as it is stored, so that it compares as octets do: in big order. */
static void bind_moment(sqlite3_stmt *statement, int at, uint64_t moment) {
  unsigned char octets[8];
  for (int index = 8; index-- > 0; moment >>= 8) octets[index] = (unsigned char)(moment & 0xff);
  bind_octets(statement, at, octets, sizeof octets);
}

/* The moment that a row says, if it says one. */
static bool moment_in(sqlite3_stmt *row, uint64_t *moment) {
  const unsigned char *octets = sqlite3_column_blob(row, 0);
  if (octets == NULL || sqlite3_column_bytes(row, 0) != 8) return false;
  *moment = 0;
  for (int index = 0; index < 8; index++) *moment = *moment << 8 | octets[index];
  return true;
}

static sqlite3_stmt *of_key(lr_sqlite *store, int which, const lr_store_key *key) {
  bind_octets(store->statements[which], 1, key->client, key->client_size);
  sqlite3_bind_int(store->statements[which], 2, key->retention);
  return store->statements[which];
}

bool lr_sqlite_least(lr_sqlite *store, uint64_t *least) {
  int done = sqlite3_step(store->statements[LEAST]);
  if (done == SQLITE_ROW) moment_in(store->statements[LEAST], least);
  return end(store, LEAST, done);
}

int lr_sqlite_find(lr_sqlite *store, const lr_store_key *key, lr_store_outcome *outcome) {
  sqlite3_stmt *row = of_key(store, FIND, key);
  int done = sqlite3_step(row), found = 0;
  if (done == SQLITE_ROW && sqlite3_column_type(row, 1) != SQLITE_NULL) {
    const void *body = sqlite3_column_blob(row, 3);
    *outcome = (lr_store_outcome){.status = (uint32_t)sqlite3_column_int(row, 1),
                                  .order = (uint32_t)sqlite3_column_int(row, 2),
                                  .size = (size_t)sqlite3_column_bytes(row, 3)};
    outcome->body = malloc(outcome->size + 1);
    found = outcome->body != NULL ? 1 : -1;
    if (found == 1 && outcome->size > 0) memcpy(outcome->body, body, outcome->size);
    if (found == -1) snprintf(store->why, sizeof store->why, "find: no memory");
  }
  return end(store, FIND, done) ? found : -1;
}

int lr_sqlite_keep(lr_sqlite *store, const lr_store_key *key, const lr_store_outcome *outcome) {
  sqlite3_stmt *row = of_key(store, KEEP, key);
  bind_moment(row, 3, key->expiration);
  sqlite3_bind_int(row, 4, (int)outcome->status);
  sqlite3_bind_int(row, 5, (int)outcome->order);
  bind_octets(row, 6, outcome->body, outcome->size);
  int done = sqlite3_step(row);
  bool is_there = (done & 0xff) == SQLITE_CONSTRAINT, is_done = end(store, KEEP, done);
  return is_done && sqlite3_changes(store->file) == 1 ? 1 : is_done || is_there ? 0 : -1;
}

int64_t lr_sqlite_purge(lr_sqlite *store, uint64_t moment) {
  uint64_t greatest = 0;
  bind_moment(store->statements[GREATEST], 1, moment);
  bind_moment(store->statements[TAKE_OUT], 1, moment);
  int done = sqlite3_step(store->statements[GREATEST]);
  bool is_some = done == SQLITE_ROW && moment_in(store->statements[GREATEST], &greatest);
  if (!end(store, GREATEST, done)) return -1;
  if (!is_some) return 0;
  bind_moment(store->statements[RAISE], 1, greatest + 1);
  return run(store, RAISE) && run(store, TAKE_OUT) ? sqlite3_changes(store->file) : -1;
}
