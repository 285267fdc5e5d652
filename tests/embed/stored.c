/* What lemonrudder_store.h does of a SQLite file, or of PostgreSQL outside a pipeline: stored sqlite PATH, or
 * stored postgres ADDRESS. A line is printed for each step. */
#include <lemonrudder_store.h>
#include <libpq-fe.h>
#include <sqlite3.h>
#include <stdio.h>
#include <stdlib.h>
#include <string.h>

static sqlite3 *file;
static PGconn *link;
static lr_sqlite of_file;
static lr_postgres of_link;

static const char *why(void) { return file != NULL ? of_file.why : of_link.why; }

static void say(const char *words) {
  if (file != NULL && sqlite3_exec(file, words, NULL, NULL, NULL) == SQLITE_OK) return;
  PGresult *result = file == NULL ? PQexec(link, words) : NULL;
  if (file != NULL || PQresultStatus(result) == PGRES_FATAL_ERROR) printf("%s failed\n", words);
  PQclear(result);
}

static void begin(void) { say(file != NULL ? "BEGIN IMMEDIATE" : "BEGIN"); }

static bool open_store(void) { return file != NULL ? lr_sqlite_open(&of_file, file) : lr_postgres_open(&of_link, link); }

static void close_store(void) {
  if (file != NULL) lr_sqlite_close(&of_file);
  if (file == NULL) say("DEALLOCATE ALL");
}

static lr_store_key key_of(int32_t retention, uint64_t expiration) {
  return (lr_store_key){"a\0b", 3, retention, expiration};
}

static void least(void) {
  uint64_t moment = 99;
  bool is_said = file != NULL ? lr_sqlite_least(&of_file, &moment) : lr_postgres_least(&of_link, &moment);
  printf("W %s%d\n", is_said ? "" : "fails ", (int)moment);
}

static void find(int32_t retention) {
  lr_store_key key = key_of(retention, 1);
  lr_store_outcome it = {0, 0, NULL, 0};
  int found = file != NULL ? lr_sqlite_find(&of_file, &key, &it) : lr_postgres_find(&of_link, &key, &it);
  printf("find %d", found);
  if (found == 1) printf(" %u %u %.*s", it.status, it.order, (int)it.size, (const char *)it.body);
  puts("");
  free(it.body);
}

static void keep(int32_t retention, uint64_t expiration, const char *text) {
  lr_store_key key = key_of(retention, expiration);
  char body[8];
  snprintf(body, sizeof body, "%s", text);
  lr_store_outcome it = {1, 1, (unsigned char *)body, strlen(body)};
  begin();
  least();
  int kept = file != NULL ? lr_sqlite_keep(&of_file, &key, &it) : lr_postgres_keep(&of_link, &key, &it);
  printf("keep %d\n", kept);
  say(kept == 1 ? "COMMIT" : "ROLLBACK");
}

static void purge(uint64_t moment) {
  begin();
  int64_t gone = file != NULL ? lr_sqlite_purge(&of_file, moment) : lr_postgres_purge(&of_link, moment);
  printf("purge %d\n", (int)gone);
  say("COMMIT");
}

int main(int count, char **words) {
  if (count != 3) return 2;
  bool is_file = strcmp(words[1], "sqlite") == 0;
  if (is_file && sqlite3_open(words[2], &file) != SQLITE_OK) return 1;
  if (!is_file) link = PQconnectdb(words[2]);
  say("CREATE TABLE outcome (one integer)");
  if (!open_store()) printf("open: %s\n", why());
  say("DROP TABLE outcome");
  if (!open_store()) printf("open: %s\n", why());
  close_store();
  if (!open_store()) printf("open: %s\n", why());
  find(1);
  keep(1, 10, "one");
  keep(1, 20, "two");
  keep(2, 30, "");
  find(1);
  find(2);
  purge(10);
  purge(11);
  find(1);
  keep(1, 10, "late");
  keep(1, 11, "again");
  find(1);
  say("UPDATE forgotten SET version = 9");
  close_store();
  if (!open_store()) printf("open: %s\n", why());
  if (is_file) sqlite3_close(file);
  if (!is_file) PQfinish(link);
  return 0;
}
