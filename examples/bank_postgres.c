/*
 * The store of bank_store.h in PostgreSQL, by libpq. Several processes may share the database. Statements are sent in a
 * pipeline: those whose rows don't matter are not waited for, until rows are asked for, or the transaction is committed.
 */
#include "bank_store.h"

#include <libpq-fe.h>
#include <stdio.h>
#include <string.h>

static const char *const texts[][2] = {
    {"begin", "BEGIN"},
    {"commit", "COMMIT"},
    {"rollback", "ROLLBACK"},
    {"balance", "SELECT balance FROM account WHERE name = $1 FOR UPDATE"},
    {"make", "INSERT INTO account VALUES ($1, 0) ON CONFLICT DO NOTHING"},
    {"set", "UPDATE account SET balance = $2 WHERE name = $1"},
};

static PGconn *link;
static lr_postgres outcomes;

/* Notes why something failed, as the outcomes' store notes it. Answers false. */
static bool failed(void) { return bank_failed("the database", outcomes.why); }

/* .. or as the connection does. */
static bool broken(void) {
  snprintf(outcomes.why, sizeof outcomes.why, "%s", PQerrorMessage(link));
  outcomes.why[strcspn(outcomes.why, "\n")] = 0;
  return failed();
}

static void close_link(void) {
  PQfinish(link);
  link = NULL;
}

/* Runs words as they are, or has them prepared, outside the pipeline. */
static bool said(PGresult *result) {
  ExecStatusType status = PQresultStatus(result);
  PQclear(result);
  return status == PGRES_COMMAND_OK || broken();
}

static void be_silent(void *nothing, const char *message) { (void)nothing, (void)message; }

static bool prepare(void) {
  PQsetNoticeProcessor(link, be_silent, NULL);
  if (!lr_postgres_open(&outcomes, link)) return failed();
  if (!said(PQexec(link, "CREATE TABLE IF NOT EXISTS account (name text PRIMARY KEY, balance bigint NOT NULL)"))) return false;
  for (size_t index = 0; index < sizeof texts / sizeof *texts; index++)
    if (!said(PQprepare(link, texts[index][0], texts[index][1], 0, NULL))) return false;
  return PQenterPipelineMode(link) == 1 || broken();
}

static bool open_link(const char *name) {
  link = PQconnectdb(name);
  if (PQstatus(link) == CONNECTION_OK ? prepare() : broken()) return true;
  close_link();
  return false;
}

static bool begin(uint64_t *least) {
  return (lr_postgres_send(&outcomes, "begin", NULL) && lr_postgres_least(&outcomes, least)) || failed();
}

static bool commit(void) {
  bool is_sent = lr_postgres_send(&outcomes, "commit", NULL) && PQpipelineSync(link) == 1;
  bank_reach("committing");
  PGresult *result = is_sent ? lr_postgres_last(&outcomes) : NULL;
  /* (COMMIT of a transaction that failed is done, and says ROLLBACK) */
  bool is_done = result != NULL && strcmp(PQcmdStatus(result), "COMMIT") == 0;
  PQclear(result);
  PQclear(is_done ? PQgetResult(link) : NULL); /* (which is of the sync) */
  return is_done || failed();
}

static bool rollback(void) {
  lr_postgres_drain(&outcomes);
  PGresult *result = PQstatus(link) == CONNECTION_OK ? lr_postgres_rows(&outcomes, "rollback", NULL) : NULL;
  bool is_done = result != NULL;
  PQclear(result);
  lr_postgres_drain(&outcomes);
  return is_done && PQstatus(link) == CONNECTION_OK;
}

static int find(const struct key *key, lr_store_outcome *outcome) {
  lr_store_key named = bank_key(key);
  int found = lr_postgres_find(&outcomes, &named, outcome);
  return found < 0 ? failed() - 1 : found;
}

static bool keep(const struct key *key, const lr_store_outcome *outcome) {
  lr_store_key named = bank_key(key);
  return lr_postgres_keep(&outcomes, &named, outcome) == 1 || failed();
}

/* The rows of a statement about an account. */
static PGresult *of_account(const char *statement, const char *name) {
  lr_postgres_values values = {.count = 0};
  lr_postgres_octets(&values, name, strlen(name));
  return lr_postgres_rows(&outcomes, statement, &values);
}

/* (An account that is not there is opened, so that its row can be locked.) */
static bool balance(const char *name, int64_t *balance) {
  PGresult *result = of_account("balance", name);
  if (result != NULL && PQntuples(result) == 0) {
    PQclear(result);
    PQclear(of_account("make", name));
    result = of_account("balance", name);
  }
  if (result != NULL) *balance = (int64_t)lr_postgres_number_in(result, 0);
  PQclear(result);
  return result != NULL || failed();
}

static bool set_balance(const char *name, int64_t balance) {
  lr_postgres_values values = {.count = 0};
  lr_postgres_octets(&values, name, strlen(name));
  lr_postgres_number(&values, (uint64_t)balance, 8);
  return lr_postgres_send(&outcomes, "set", &values) || failed();
}

static int purge(uint64_t moment) {
  int64_t gone = lr_postgres_purge(&outcomes, moment);
  return gone < 0 ? failed() - 1 : (int)gone;
}

const struct store bank_postgres = {open_link, close_link, begin,       commit, rollback, find,
                                    keep,      balance,    set_balance, purge};
