/*
 * The store of bank_store.h in a SQLite file. Who writes has the lock of the whole file, W among it. With a write-ahead
 * log and synchronous=FULL what is committed outlives a power cut.
 *
 * The name memory:PATH is a store in memory. It ends with its process, but for what is handed over: where it is closed
 * it becomes the file PATH, which the next process takes over and removes.
 */
#include "bank_store.h"

#include <sqlite3.h>
#include <stdio.h>
#include <string.h>
#include <unistd.h>

#define MEMORY "memory:"

static const char tables[] =
    "CREATE TABLE IF NOT EXISTS account (name TEXT PRIMARY KEY, balance INTEGER NOT NULL) WITHOUT ROWID";

enum { BEGIN, COMMIT, ROLLBACK, BALANCE, SET_BALANCE, STATEMENTS };
static const char *const texts[STATEMENTS] = {
    [BEGIN] = "BEGIN IMMEDIATE",
    [COMMIT] = "COMMIT",
    [ROLLBACK] = "ROLLBACK",
    [BALANCE] = "SELECT balance FROM account WHERE name = ?",
    [SET_BALANCE] = "REPLACE INTO account VALUES (?, ?)",
};

static sqlite3 *file;
static lr_sqlite outcomes;
static sqlite3_stmt *statements[STATEMENTS];
/* Where a store in memory is handed over, once there is one. */
static const char *handed;

static bool failed(const char *what) { return bank_failed(what, sqlite3_errmsg(file)); }

/* Runs a statement whose values are bound: SQLITE_ROW, SQLITE_DONE or an error. */
static int step(int which) { return sqlite3_step(statements[which]); }

/* Ends it, and answers whether it was done. */
static bool end(int which, int done, const char *what) {
  bool is_done = done == SQLITE_DONE || done == SQLITE_ROW;
  if (!is_done) failed(what);
  sqlite3_reset(statements[which]);
  return is_done;
}

static bool run(int which, const char *what) { return end(which, step(which), what); }

static int on_commit(void *nothing) {
  (void)nothing;
  bank_reach("committing");
  return 0;
}

/* Takes over all that the process before handed over, if it did. */
static bool take_over(const char *path) {
  sqlite3 *last = NULL;
  if (access(path, F_OK) != 0) return true;
  bool is_open = sqlite3_open(path, &last) == SQLITE_OK;
  sqlite3_backup *copy = is_open ? sqlite3_backup_init(file, "main", last, "main") : NULL;
  bool is_done = copy != NULL && sqlite3_backup_step(copy, -1) == SQLITE_DONE;
  is_done = sqlite3_backup_finish(copy) == SQLITE_OK && is_done;
  sqlite3_close(last);
  return is_done;
}

/* Hands over, by a file that is there as a whole or not at all. */
static void hand_over(void) {
  char *path = sqlite3_mprintf("%s.new", handed);
  char *words = sqlite3_mprintf("VACUUM INTO %Q", path);
  if (path != NULL) remove(path);
  if (words == NULL || sqlite3_exec(file, words, NULL, NULL, NULL) != SQLITE_OK || rename(path, handed) != 0)
    fprintf(stderr, "bank_sqlite: %s: nothing is handed over: %s\n", handed, sqlite3_errmsg(file));
  sqlite3_free(path);
  sqlite3_free(words);
  handed = NULL;
}

static void close_file(void) {
  lr_sqlite_close(&outcomes);
  for (int which = 0; which < STATEMENTS; which++) {
    sqlite3_finalize(statements[which]);
    statements[which] = NULL;
  }
  if (handed != NULL) hand_over();
  sqlite3_close(file);
  file = NULL;
}

/* Makes the tables and the statements. */
static bool prepare(const char *name, const char *last) {
  sqlite3_busy_timeout(file, 5000);
  if ((last != NULL && !take_over(last)) ||
      sqlite3_exec(file, "PRAGMA journal_mode=WAL; PRAGMA synchronous=FULL", NULL, NULL, NULL) != SQLITE_OK)
    return failed(name);
  if (!lr_sqlite_open(&outcomes, file)) return bank_failed(name, outcomes.why);
  if (sqlite3_exec(file, tables, NULL, NULL, NULL) != SQLITE_OK) return failed(name);
  for (int which = 0; which < STATEMENTS; which++)
    if (sqlite3_prepare_v2(file, texts[which], -1, &statements[which], NULL) != SQLITE_OK) return failed(name);
  sqlite3_commit_hook(file, on_commit, NULL);
  return true;
}

static bool open_file(const char *name) {
  const char *last = strncmp(name, MEMORY, sizeof MEMORY - 1) == 0 ? name + sizeof MEMORY - 1 : NULL;
  bool is_open = sqlite3_open(last != NULL ? ":memory:" : name, &file) == SQLITE_OK ? prepare(name, last) : failed(name);
  if (!is_open) close_file();
  if (!is_open || last == NULL) return is_open;
  handed = last;
  remove(last);
  return true;
}

/* Notes why outcomes can't be read or written, where they can't. */
static int told(int done) { return done < 0 ? bank_failed("outcomes", outcomes.why) - 1 : done; }

static bool begin(uint64_t *least) { return run(BEGIN, "BEGIN") && told(lr_sqlite_least(&outcomes, least) - 1) == 0; }

static bool commit(void) { return run(COMMIT, "COMMIT"); }

static bool rollback(void) { return sqlite3_get_autocommit(file) != 0 || run(ROLLBACK, "ROLLBACK"); }

static int find(const struct key *key, lr_store_outcome *outcome) {
  lr_store_key named = bank_key(key);
  return told(lr_sqlite_find(&outcomes, &named, outcome));
}

static bool keep(const struct key *key, const lr_store_outcome *outcome) {
  lr_store_key named = bank_key(key);
  int kept = told(lr_sqlite_keep(&outcomes, &named, outcome));
  return kept == 1 || (kept == 0 && bank_failed("outcomes", "there is one"));
}

static bool balance(const char *name, int64_t *balance) {
  sqlite3_bind_text(statements[BALANCE], 1, name, -1, SQLITE_TRANSIENT);
  int done = step(BALANCE);
  *balance = done == SQLITE_ROW ? sqlite3_column_int64(statements[BALANCE], 0) : 0;
  return end(BALANCE, done, "SELECT");
}

static bool set_balance(const char *name, int64_t balance) {
  sqlite3_bind_text(statements[SET_BALANCE], 1, name, -1, SQLITE_TRANSIENT);
  sqlite3_bind_int64(statements[SET_BALANCE], 2, balance);
  return run(SET_BALANCE, "REPLACE");
}

static int purge(uint64_t moment) { return told((int)lr_sqlite_purge(&outcomes, moment)); }

const struct store bank_sqlite = {open_file, close_file, begin,       commit, rollback, find,
                                  keep,      balance,    set_balance, purge};
