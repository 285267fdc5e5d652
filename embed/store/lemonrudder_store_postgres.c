/* Outcomes in PostgreSQL, by libpq: lemonrudder_store.h. */
#include "lemonrudder_store.h"

#include "outcomes.postgres.h"

#include <libpq-fe.h>
#include <stdio.h>
#include <stdlib.h>
#include <string.h>

static const char *text(const char *name) {
  for (size_t index = 0; index < sizeof texts / sizeof *texts; index++)
    if (strcmp(texts[index][0], name) == 0) return texts[index][1];
  return "";
}

/* Of values and of rows. */
static const int formats[LR_STORE_VALUES] = {1, 1, 1, 1, 1, 1};
static const lr_postgres_values none;
/* The state of an error that says that a key is there. */
static const char unique[] = "23505";

/* ---- statements ---- */

void lr_postgres_octets(lr_postgres_values *values, const void *octets, size_t size) {
  values->at[values->count] = octets != NULL ? octets : "";
  values->sizes[values->count++] = (int)size;
}

void lr_postgres_number(lr_postgres_values *values, uint64_t number, size_t size) {
  unsigned char *octets = values->numbers[values->count];
  for (int index = 8; index-- > 0; number >>= 8) octets[index] = (unsigned char)(number & 0xff);
  lr_postgres_octets(values, octets + 8 - size, size);
}

uint64_t lr_postgres_number_in(const struct pg_result *result, int column) {
  const char *octets = PQgetvalue(result, 0, column);
  uint64_t number = 0;
  for (int index = 0; index < PQgetlength(result, 0, column); index++)
    number = number << 8 | (unsigned char)octets[index];
  return number;
}

/* Notes why a result is none. Answers false. */
static bool failed(lr_postgres *store, const char *what, const PGresult *result) {
  char line[LR_STORE_WHY];
  const char *says = result != NULL ? PQresultErrorMessage(result) : "";
  snprintf(line, sizeof line, "%s", says[0] != 0 ? says : PQerrorMessage(store->link));
  line[strcspn(line, "\n")] = 0;
  snprintf(store->why, sizeof store->why, "%s: %.200s", what, line);
  return false;
}

/* A result, or NULL where it is none. */
static PGresult *well(lr_postgres *store, const char *what, PGresult *result) {
  ExecStatusType status = PQresultStatus(result);
  if (status == PGRES_TUPLES_OK || status == PGRES_COMMAND_OK) return result;
  failed(store, what, result);
  PQclear(result);
  return NULL;
}

/* The result of the first statement that was sent and not looked at. */
static PGresult *next(lr_postgres *store) {
  PGresult *result = PQgetResult(store->link), *more;
  store->pending--;
  while (result != NULL && (more = PQgetResult(store->link)) != NULL) PQclear(more);
  return well(store, "a statement", result);
}

struct pg_result *lr_postgres_last(lr_postgres *store) {
  while (store->pending > 1) {
    PGresult *result = next(store);
    PQclear(result);
    if (result == NULL) return NULL;
  }
  return next(store);
}

/* Does a statement outside a pipeline: its result. */
static PGresult *done(lr_postgres *store, const char *name, const lr_postgres_values *values) {
  return PQexecPrepared(store->link, name, values->count, values->at, values->sizes, formats, 1);
}

static bool is_alone(const lr_postgres *store) { return PQpipelineStatus(store->link) == PQ_PIPELINE_OFF; }

static const lr_postgres_values *or_none(const lr_postgres_values *values) { return values != NULL ? values : &none; }

bool lr_postgres_send(lr_postgres *store, const char *name, const lr_postgres_values *values) {
  const lr_postgres_values *of = or_none(values);
  if (is_alone(store)) {
    PGresult *result = well(store, name, done(store, name, of));
    PQclear(result);
    return result != NULL;
  }
  int sent = PQsendQueryPrepared(store->link, name, of->count, of->at, of->sizes, formats, 1);
  store->pending += sent;
  return sent == 1 || failed(store, name, NULL);
}

struct pg_result *lr_postgres_rows(lr_postgres *store, const char *name, const lr_postgres_values *values) {
  if (is_alone(store)) return well(store, name, done(store, name, or_none(values)));
  if (!lr_postgres_send(store, name, values)) return NULL;
  if (PQsendFlushRequest(store->link) != 1 || PQflush(store->link) != 0) return failed(store, name, NULL), NULL;
  return lr_postgres_last(store);
}

void lr_postgres_drain(lr_postgres *store) {
  store->pending = 0;
  if (PQstatus(store->link) != CONNECTION_OK || PQpipelineSync(store->link) != 1) return;
  for (bool is_end = false; !is_end && PQstatus(store->link) == CONNECTION_OK;) {
    PGresult *result = PQgetResult(store->link);
    is_end = result != NULL && PQresultStatus(result) == PGRES_PIPELINE_SYNC;
    PQclear(result);
  }
}

/* ---- the tables ---- */

static bool said(lr_postgres *store, const char *words) {
  PGresult *result = words[0] != 0 ? well(store, "the database", PQexec(store->link, words)) : NULL;
  PQclear(result);
  return result != NULL || words[0] == 0;
}

/* The number that a statement says, -1 where that is NULL, or -2 where it fails. */
static int number_of(lr_postgres *store, const char *name) {
  PGresult *result = well(store, "the database", PQexec(store->link, text(name)));
  bool is_none = result == NULL || PQntuples(result) == 0 || PQgetisnull(result, 0, 0);
  int number = result == NULL ? -2 : is_none ? -1 : atoi(PQgetvalue(result, 0, 0));
  PQclear(result);
  return number;
}

/* Makes tables of those of a version. */
static bool make(lr_postgres *store, int version) {
  char aside[16];
  snprintf(aside, sizeof aside, "aside %d", version);
  return said(store, text(aside)) && said(store, text("tables"));
}

/* Has the tables be there, in a transaction. */
static bool make_tables(lr_postgres *store) {
  int found = said(store, text("lock")) ? number_of(store, "found") : -2;
  if (found == -2 || (found >= 0 && found < LR_STORE_VERSION && !make(store, found))) return false;
  int version = found < 0 ? -1 : number_of(store, "version");
  if (version == LR_STORE_VERSION) return true;
  if (version == -1) snprintf(store->why, sizeof store->why, "the database: its table outcome is of another program");
  if (version >= 0)
    snprintf(store->why, sizeof store->why, "the database: it has outcomes of version %d, and not %d", version,
             LR_STORE_VERSION);
  return false;
}

bool lr_postgres_open(lr_postgres *store, struct pg_conn *link) {
  static const char *const names[][2] = {{"lr_least", "least"}, {"lr_find", "find"}, {"lr_keep", "keep"},
                                         {"lr_alone", "alone"}, {"lr_greatest", "greatest"}, {"lr_raise", "raise"},
                                         {"lr_take_out", "take out"}};
  *store = (lr_postgres){.link = link};
  if (!said(store, "BEGIN; SET LOCAL client_min_messages = warning")) return false;
  if (!make_tables(store) || !said(store, "COMMIT")) {
    PQclear(PQexec(link, "ROLLBACK"));
    return false;
  }
  for (size_t index = 0; index < sizeof names / sizeof *names; index++) {
    PGresult *result = well(store, names[index][1], PQprepare(link, names[index][0], text(names[index][1]), 0, NULL));
    PQclear(result);
    if (result == NULL) return false;
  }
  return true;
}

/* ---- outcomes ---- */

static void add_key(lr_postgres_values *values, const lr_store_key *key) {
  values->count = 0;
  lr_postgres_octets(values, key->client, key->client_size);
  lr_postgres_number(values, (uint64_t)key->retention, 4);
}

bool lr_postgres_least(lr_postgres *store, uint64_t *least) {
  PGresult *result = lr_postgres_rows(store, "lr_least", NULL);
  if (result != NULL) *least = lr_postgres_number_in(result, 0);
  PQclear(result);
  return result != NULL;
}

int lr_postgres_find(lr_postgres *store, const lr_store_key *key, lr_store_outcome *outcome) {
  lr_postgres_values values;
  add_key(&values, key);
  PGresult *result = lr_postgres_rows(store, "lr_find", &values);
  int found = result == NULL ? -1 : PQgetisnull(result, 0, 1) ? 0 : 1;
  if (found == 1) {
    *outcome = (lr_store_outcome){.status = (uint32_t)lr_postgres_number_in(result, 1),
                                  .order = (uint32_t)lr_postgres_number_in(result, 2),
                                  .size = (size_t)PQgetlength(result, 0, 3)};
    outcome->body = malloc(outcome->size + 1);
    if (outcome->body != NULL) memcpy(outcome->body, PQgetvalue(result, 0, 3), outcome->size);
    if (outcome->body == NULL) found = -1, snprintf(store->why, sizeof store->why, "find: no memory");
  }
  PQclear(result);
  return found;
}

int lr_postgres_keep(lr_postgres *store, const lr_store_key *key, const lr_store_outcome *outcome) {
  lr_postgres_values values;
  add_key(&values, key);
  lr_postgres_number(&values, key->expiration, 8);
  lr_postgres_number(&values, outcome->status, 4);
  lr_postgres_number(&values, outcome->order, 4);
  lr_postgres_octets(&values, outcome->body, outcome->size);
  if (!is_alone(store)) return lr_postgres_send(store, "lr_keep", &values) ? 1 : -1;
  PGresult *result = done(store, "lr_keep", &values);
  const char *state = PQresultErrorField(result, PG_DIAG_SQLSTATE);
  bool is_there = state != NULL && strcmp(state, unique) == 0;
  result = well(store, "keep", result);
  int kept = result == NULL ? (is_there ? 0 : -1) : strcmp(PQcmdTuples(result), "1") == 0;
  PQclear(result);
  return kept;
}

int64_t lr_postgres_purge(lr_postgres *store, uint64_t moment) {
  lr_postgres_values values = {.count = 0}, least = {.count = 0};
  lr_postgres_number(&values, moment, 8);
  PGresult *result = lr_postgres_send(store, "lr_alone", NULL) ? lr_postgres_rows(store, "lr_greatest", &values) : NULL;
  if (result == NULL) return -1;
  int count = PQntuples(result);
  if (count > 0) lr_postgres_number(&least, lr_postgres_number_in(result, 0) + 1, 8);
  PQclear(result);
  if (count == 0) return 0;
  result = lr_postgres_send(store, "lr_raise", &least) ? lr_postgres_rows(store, "lr_take_out", &values) : NULL;
  int64_t gone = result != NULL ? atoll(PQcmdTuples(result)) : -1;
  PQclear(result);
  return gone;
}
