/*
 * Outcomes of requests in a database of yours, each in one transaction with its effect: in SQLite by
 * lemonrudder_store_sqlite.c, in PostgreSQL by lemonrudder_store_postgres.c, which you compile into your program. The
 * tables are those of outcomes.sqlite.sql and outcomes.postgres.sql, which servers in C, C++, Python and Rust, and
 * guards of `lemonrudder`, have in common.
 *
 * The connection is yours, and so are its transactions; one thread at a time uses it. What answers a bool answers false
 * where it fails, and what answers a number -1: `why` says why, in a line, and the transaction is to be rolled back.
 */
#ifndef LEMONRUDDER_STORE_H
#define LEMONRUDDER_STORE_H

#include <stdbool.h>
#include <stddef.h>
#include <stdint.h>

#ifdef __cplusplus
extern "C" {
#endif

struct sqlite3;
struct sqlite3_stmt;
struct pg_conn;
struct pg_result;

/* The version of the tables; the room of `why`; and how many statements, and values of one, there are at most. */
enum { LR_STORE_VERSION = 4, LR_STORE_WHY = 256, LR_STORE_STATEMENTS = 6, LR_STORE_VALUES = 6 };

/* What names a request on each of its ways, and up to when it counts: a moment as those of lemonrudder.h. */
typedef struct {
  const void *client;
  size_t client_size;
  int32_t retention;
  uint64_t expiration;
} lr_store_key;

/* What became of it: the status, the order and the body of its Reply, aligned from place 0. */
typedef struct {
  uint32_t status, order;
  unsigned char *body;
  size_t size;
} lr_store_outcome;

/* ---- SQLite ---- */

typedef struct {
  struct sqlite3 *file;
  struct sqlite3_stmt *statements[LR_STORE_STATEMENTS];
  char why[LR_STORE_WHY];
} lr_sqlite;

/* Takes a connection in which no transaction is open. Tables that are missing are made, and those of an earlier version
 * become these, with all that is in them, in one transaction. Where it fails it is closed. */
bool lr_sqlite_open(lr_sqlite *store, struct sqlite3 *file);
/* Gives the connection back, before it is closed; also where it is not open, and all of it is 0. */
void lr_sqlite_close(lr_sqlite *store);

/* These are for a transaction that was begun by BEGIN IMMEDIATE.
 *
 * The mark W: the greatest expiration that was taken out, plus 1. A request that expires before W, and has no outcome, is
 * refused by BAD_CONTEXT, whatever the clock. */
bool lr_sqlite_least(lr_sqlite *store, uint64_t *least);
/* The outcome of a key: 1, and its body is from malloc; or 0 where there is none. One that a guard has begun, and not
 * finished, is COMM_FAILURE, COMPLETED_MAYBE; one that it keeps in an alignment of 1.0 or 1.1 IMP_LIMIT, COMPLETED_YES. */
int lr_sqlite_find(lr_sqlite *store, const lr_store_key *key, lr_store_outcome *outcome);
/* Writes the outcome of a key: 1; or 0 where it has one, or expires before W: then roll back, and look it up. */
int lr_sqlite_keep(lr_sqlite *store, const lr_store_key *key, const lr_store_outcome *outcome);
/* Takes outcomes out that expired before a moment, moves W, and answers how many those were. */
int64_t lr_sqlite_purge(lr_sqlite *store, uint64_t moment);

/* ---- PostgreSQL ---- */

/* In a pipeline of libpq, `pending` counts statements that were sent and whose results were not looked at. */
typedef struct {
  struct pg_conn *link;
  int pending;
  char why[LR_STORE_WHY];
} lr_postgres;

/* As lr_sqlite_open does, of a connection without a pipeline, in the first schema of its search_path. Statements are
 * prepared whose names begin with lr_. */
bool lr_postgres_open(lr_postgres *store, struct pg_conn *link);

/* These are for a transaction at READ COMMITTED. They are as those of SQLite; but lr_postgres_least is to be called
 * first, since it locks W. In a pipeline lr_postgres_keep does not wait for what the database says, and answers 1. */
bool lr_postgres_least(lr_postgres *store, uint64_t *least);
int lr_postgres_find(lr_postgres *store, const lr_store_key *key, lr_store_outcome *outcome);
int lr_postgres_keep(lr_postgres *store, const lr_store_key *key, const lr_store_outcome *outcome);
int64_t lr_postgres_purge(lr_postgres *store, uint64_t moment);

/* Statements of yours, beside those, which you prepared by their names. A result is in the binary format.
 *
 * The values of one: octets, which are lent, and numbers of 2, 4 or 8 octets. */
typedef struct {
  const char *at[LR_STORE_VALUES];
  int sizes[LR_STORE_VALUES], count;
  unsigned char numbers[LR_STORE_VALUES][8];
} lr_postgres_values;

void lr_postgres_octets(lr_postgres_values *values, const void *octets, size_t size);
void lr_postgres_number(lr_postgres_values *values, uint64_t number, size_t size);
/* A number in the first row of a result. */
uint64_t lr_postgres_number_in(const struct pg_result *result, int column);

/* Sends one. Outside a pipeline it is done then. */
bool lr_postgres_send(lr_postgres *store, const char *name, const lr_postgres_values *values);
/* The result of the last one that was sent in a pipeline, or NULL where it failed, or one before it. */
struct pg_result *lr_postgres_last(lr_postgres *store);
/* Sends one, and gives its result, or NULL. */
struct pg_result *lr_postgres_rows(lr_postgres *store, const char *name, const lr_postgres_values *values);
/* Ends what was sent in a pipeline, as where one failed. */
void lr_postgres_drain(lr_postgres *store);

#ifdef __cplusplus
}
#endif

#endif
