/*
 * A bank whose accounts and outcomes are one database: bank_durable STORE ADDRESS PORT [SECONDS]. Its interface is
 * bank.idl.
 *
 *     cc -o bank_durable bank_durable.c bank_sqlite.c loop.c $(pkg-config --variable=sqlite_source lemonrudder) \
 *         $(pkg-config --cflags --libs lemonrudder sqlite3) -pthread
 *     ./bank_durable bank.db 127.0.0.1 2809
 *
 * STORE is the path of a SQLite file; or memory: and the path of a file by which a bank in memory hands over all that it
 * has, at its end, to the next one. With -DBANK_POSTGRES, bank_postgres.c, postgres_source and libpq it may be an address
 * of PostgreSQL, postgres://.., which several banks may share.
 *
 * It prints its reference, and serves until SIGTERM. A deposit with FT_REQUEST that is sent again acts once, also where
 * the process was killed meanwhile, or another one on the same database was asked first: its outcome is looked up, and
 * committed in one transaction with the account before it is answered. A thread does so, with all requests that wait in
 * one transaction; every so many seconds, or 60, it takes out outcomes that expired.
 *
 * Where the environment names a point in BANK_DIES_AT, as stored, the process kills itself when it comes there; of
 * stored:3 the third time.
 */
#define _DEFAULT_SOURCE
#include <pthread.h>
#include <signal.h>
#include <stdio.h>
#include <stdlib.h>
#include <string.h>
#include <time.h>
#include <unistd.h>

#include "bank_store.h"
#include "loop.h"

#define KEY "bank"
#define TYPE "IDL:Bank:1.0"
#define OBJECT "IDL:omg.org/CORBA/Object:1.0"
#define OVERDRAWN "IDL:Bank/Overdrawn:1.0"
#define SIZE(text) (sizeof text - 1)
enum { LIMIT = 4096, NAME = 32, PARKED = 1024, GROUP = 256, PAUSE = 50000000, TRIES = 4 };
enum { NONE = -1 }; /* no LR_EX_.. */

/* A request, and what came of it. */
struct job {
  struct job *next;
  uint64_t ticket;
  bool has_key;
  struct key key;
  int refusal;        /* LR_EX_.. by which it is refused, if the store has no outcome of it, or NONE */
  enum { DEPOSIT, BALANCE, IS } operation; /* (IS answers `amount`, a boolean) */
  char name[NAME];
  int64_t amount;
  bool is_sure;       /* it was looked for, and is not there */
  bool is_in_doubt;   /* perhaps it was committed: the store is asked until it says */
  lr_store_outcome outcome;
  bool is_refused;    /* by `refusal`; else its outcome is answered */
};

struct queue {
  struct job *first, *last;
};

static const struct store *store = &bank_sqlite;
static const char *store_name;
static time_t purge_every = 60;

/* Of the loop's thread: those whose answer found no memory. */
static struct queue unanswered;

/* Of both threads, under the lock. */
static pthread_mutex_t lock = PTHREAD_MUTEX_INITIALIZER;
static pthread_cond_t is_given = PTHREAD_COND_INITIALIZER;
static struct queue given, made;

/* The loop has ended. */
static volatile sig_atomic_t is_over;

/* Of the other thread. */
static bool is_open;
static uint64_t least; /* W, in a transaction */
char bank_why[BANK_WHY];
static char said[BANK_WHY];

static void push(struct queue *queue, struct job *job) {
  job->next = NULL;
  *(queue->first == NULL ? &queue->first : &queue->last->next) = job;
  queue->last = job;
}

static struct job *pop(struct queue *queue) {
  struct job *job = queue->first;
  if (job != NULL) queue->first = job->next;
  return job;
}

void bank_reach(const char *point) {
  static int count;
  const char *named = getenv("BANK_DIES_AT");
  size_t size = strlen(point);
  if (named == NULL || strncmp(named, point, size) != 0 || (named[size] != 0 && named[size] != ':')) return;
  if (++count >= (named[size] == ':' ? atoi(named + size + 1) : 1)) kill(getpid(), SIGKILL);
}

bool bank_failed(const char *what, const char *says) {
  snprintf(bank_why, sizeof bank_why, "%s: %s", what, says);
  return false;
}

/* Says why the store failed, once for each reason. */
static void complain(void) {
  if (strcmp(said, bank_why) != 0) fprintf(stderr, "bank_durable: %s\n", bank_why);
  memcpy(said, bank_why, sizeof said);
}

/* ---- outcomes ---- */

/* Makes an outcome of octets. False where there is no memory. */
static bool take(lr_store_outcome *outcome, uint32_t status, const unsigned char *octets, size_t size) {
  *outcome = (lr_store_outcome){status, LR_ORDER_BIG, malloc(size + 1), size};
  if (outcome->body != NULL) memcpy(outcome->body, octets, size);
  return outcome->body != NULL || bank_failed("bank_durable", "no memory");
}

/* Writes the body of a system exception, COMPLETED_MAYBE, and answers its size. */
static size_t put_maybe(unsigned char *octets, size_t room, const char *id, size_t id_size) {
  lr_place out = {.order = LR_ORDER_BIG};
  lr_put_string(octets, room, &out, id, id_size);
  lr_put_ulong(octets, room, &out, 0);
  lr_put_ulong(octets, room, &out, LR_COMPLETED_MAYBE);
  return (size_t)out.next;
}

/* What expired is refused; where it was perhaps committed before, it is answered that perhaps it was performed. */
static bool take_over(struct job *job) {
  unsigned char octets[64];
  job->is_refused = !job->is_in_doubt;
  if (job->is_refused) return job->refusal = LR_EX_BAD_CONTEXT, true;
  size_t size = put_maybe(octets, sizeof octets, LR_TEXT("IDL:omg.org/CORBA/BAD_CONTEXT:1.0"));
  return take(&job->outcome, LR_REPLY_SYSTEM_EXCEPTION, octets, size);
}

/* The outcome of a deposit: a balance, or Overdrawn with it. */
static bool take_balance(lr_store_outcome *outcome, bool is_overdrawn, int64_t balance) {
  unsigned char octets[64];
  lr_place out = {.order = LR_ORDER_BIG};
  if (is_overdrawn) lr_put_string(octets, sizeof octets, &out, LR_TEXT(OVERDRAWN));
  lr_put_longlong(octets, sizeof octets, &out, balance);
  return take(outcome, is_overdrawn ? LR_REPLY_USER_EXCEPTION : LR_REPLY_NO_EXCEPTION, octets, out.next);
}

/* ---- the thread of the store ---- */

static uint64_t moment(void) {
  struct timespec time;
  clock_gettime(CLOCK_REALTIME, &time);
  return lr_moment((uint64_t)time.tv_sec, (uint32_t)time.tv_nsec);
}

/* Makes a deposit, or says a balance. */
static bool change(struct job *job) {
  int64_t balance;
  if (!store->balance(job->name, &balance)) return false;
  bool is_beyond = job->amount > 0 && balance > INT64_MAX - job->amount, is_overdrawn = is_beyond;
  if (!is_beyond) is_overdrawn = balance + job->amount < 0;
  if (job->operation == DEPOSIT && !is_overdrawn) {
    balance += job->amount;
    if (!store->set_balance(job->name, balance)) return false;
    bank_reach("changed");
  }
  return take_balance(&job->outcome, is_overdrawn, balance);
}

/* Does in a transaction what a request asks for, after it was looked for there. */
static bool perform(struct job *job) {
  if (job->has_key) {
    int found = store->find(&job->key, &job->outcome);
    if (found != 0) return found == 1;
    job->is_sure = true;
    bank_reach("looked");
    if (job->key.expiration < least) return take_over(job);
  }
  job->is_refused = job->refusal != NONE;
  if (job->is_refused) return true;
  if (job->operation == IS) return take(&job->outcome, LR_REPLY_NO_EXCEPTION, &(unsigned char){job->amount != 0}, 1);
  if (!change(job) || (job->has_key && !store->keep(&job->key, &job->outcome))) return false;
  bank_reach("stored");
  return true;
}

/* Undoes a transaction, and closes the store where that fails. */
static void undo(void) {
  complain();
  if (!is_open || store->rollback()) return;
  store->close();
  is_open = false;
}

/* Does so many requests in one transaction. False where it was undone, or where that is not known. */
static bool perform_all(struct job **jobs, size_t count) {
  bool is_well = is_open || (is_open = store->open(store_name));
  bool has_begun = is_well && store->begin(&least);
  if (has_begun) bank_reach("begun");
  for (size_t index = 0; index < count; index++) {
    jobs[index]->is_sure = false;
    is_well = has_begun && is_well && perform(jobs[index]);
  }
  bool is_committed = has_begun && is_well && store->commit();
  if (is_committed) bank_reach("committed"), said[0] = 0;
  for (size_t index = 0; index < count && !is_committed; index++) {
    free(jobs[index]->outcome.body);
    jobs[index]->outcome = (lr_store_outcome){.body = NULL};
    jobs[index]->is_in_doubt = jobs[index]->is_in_doubt || (has_begun && is_well);
  }
  if (!is_committed) undo();
  return is_committed;
}

/* The loop's thread answers them. */
static void hand_over(struct job **jobs, size_t count) {
  pthread_mutex_lock(&lock);
  for (size_t index = 0; index < count; index++) push(&made, jobs[index]);
  pthread_mutex_unlock(&lock);
  loop_wake();
}

/* In doubt the store is asked until it says; where it has nothing, it is done again, a few times. Anything else is
 * declined where the store fails. */
static void perform_alone(struct job *job) {
  int tries = 0;
  while (!perform_all(&job, 1)) {
    tries += job->is_sure ? 1 : 0;
    if (!job->is_in_doubt || !job->has_key || tries == TRIES || is_over) {
      job->is_refused = (job->is_sure || !job->has_key) && !job->is_in_doubt;
      if (job->is_refused) job->refusal = LR_EX_TRANSIENT;
      break;
    }
    nanosleep(&(struct timespec){0, PAUSE}, NULL);
  }
  hand_over(&job, 1);
}

static int compare(const void *left, const void *right) {
  const struct job *one = *(struct job *const *)left, *other = *(struct job *const *)right;
  int order = memcmp(one->name, other->name, NAME);
  return order != 0 ? order : one->ticket < other->ticket ? -1 : 1;
}

static void purge(void) {
  if (!is_open) return;
  if (!store->begin(&least) || store->purge(moment()) < 0 || !store->commit()) undo();
}

static void *work(void *nothing) {
  struct job *jobs[GROUP];
  time_t next = time(NULL) + purge_every;
  pthread_mutex_lock(&lock);
  while (!is_over) {
    size_t count = 0;
    while (count < GROUP && (jobs[count] = pop(&given)) != NULL) count++;
    struct timespec until = {.tv_sec = next};
    if (count == 0 && time(NULL) < next) {
      pthread_cond_timedwait(&is_given, &lock, &until);
      continue;
    }
    pthread_mutex_unlock(&lock);
    qsort(jobs, count, sizeof *jobs, compare); /* (who takes several locks does so in one order) */
    bool is_done = count > 1 && perform_all(jobs, count);
    if (is_done) hand_over(jobs, count);
    for (size_t index = 0; index < count && !is_done; index++) perform_alone(jobs[index]);
    if (time(NULL) >= next) {
      purge();
      next = time(NULL) + purge_every;
    }
    pthread_mutex_lock(&lock);
  }
  pthread_mutex_unlock(&lock);
  return nothing;
}

/* ---- the loop's thread ---- */

/* Answers TRANSIENT, COMPLETED_MAYBE: it is not known whether the store has an outcome, or will have it. */
static int64_t answer_unknown(lr_server *server, uint64_t ticket) {
  unsigned char octets[64];
  size_t size = put_maybe(octets, sizeof octets, LR_TEXT("IDL:omg.org/CORBA/TRANSIENT:1.0"));
  return lr_server_answer_unkept(server, ticket, LR_REPLY_SYSTEM_EXCEPTION, LR_ORDER_BIG, octets, size);
}

/* Answers a request by what the store has done. What the store keeps is not kept here. */
static int64_t answer(lr_server *server, const struct job *job) {
  const lr_store_outcome *it = &job->outcome;
  if (job->is_refused) return lr_server_refuse(server, job->ticket, (uint32_t)job->refusal, 0);
  if (it->body == NULL) return answer_unknown(server, job->ticket);
  return lr_server_answer_unkept(server, job->ticket, it->status, it->order, it->body, it->size);
}

/* Answers those that the store has done. One whose answer finds no memory is answered later. */
static void settle(lr_server *server) {
  struct queue ready = unanswered;
  struct job *job;
  unanswered.first = NULL;
  pthread_mutex_lock(&lock);
  while ((job = pop(&made)) != NULL) push(&ready, job);
  pthread_mutex_unlock(&lock);
  while ((job = pop(&ready)) != NULL) {
    bool is_short = answer(server, job) == LR_E_MEMORY;
    bank_reach("answered");
    if (is_short) push(&unanswered, job);
    if (!is_short) free(job->outcome.body), free(job);
  }
}

/* Reads the name of an account: what can be printed, not too long. */
static int read_name(const unsigned char *body, size_t size, lr_place *in, char *name) {
  uint64_t start, length;
  if (lr_get_string(body, size, in, &start, &length) != LR_OK) return LR_EX_MARSHAL;
  if (length == 0 || length >= NAME) return LR_EX_BAD_PARAM;
  memcpy(name, body + start, length);
  for (uint64_t index = 0; index < length; index++)
    if (name[index] < ' ' || name[index] > '~') return LR_EX_BAD_PARAM;
  return NONE;
}

/* Reads what a request asks for. One that would be refused is asked for too, since what the store has of its key is
 * answered first. Answers LR_EX_.. by which it is refused, or NONE. */
static int judge(lr_server *server, const lr_request *asked, struct job *job) {
  char operation[SIZE("_non_existent")];
  unsigned char body[LIMIT];
  size_t size = asked->body_size;
  lr_place in = {.at = asked->body_at, .order = asked->body_order};
  if (asked->is_refused) return (int)asked->refusal;
  if (lr_server_part(server, asked->ticket, LR_PART_OPERATION, operation, sizeof operation) < 0) return LR_EX_NO_MEMORY;
  if (lr_server_part(server, asked->ticket, LR_PART_BODY, body, sizeof body) < 0) return LR_EX_NO_MEMORY;
  if (operation[0] == '_') {
    uint64_t start, count;
    job->operation = IS;
    if (operation[1] == 'n') return NONE;
    if (lr_get_string(body, size, &in, &start, &count) != LR_OK) return LR_EX_MARSHAL;
    job->amount = (count == SIZE(TYPE) && memcmp(body + start, LR_TEXT(TYPE)) == 0) ||
                  (count == SIZE(OBJECT) && memcmp(body + start, LR_TEXT(OBJECT)) == 0);
    return NONE;
  }
  job->operation = operation[0] == 'd' ? DEPOSIT : BALANCE;
  int refusal = read_name(body, size, &in, job->name);
  if (refusal != NONE || job->operation == BALANCE) return refusal;
  return lr_get_longlong(body, size, &in, &job->amount) == LR_OK ? NONE : LR_EX_MARSHAL;
}

/* Parks the request that waits, for the other thread. Where that can't be, it is not known whether the store has it. */
static void perform_asked(lr_server *server, const lr_request *asked) {
  struct job *job = calloc(1, sizeof *job);
  if (job != NULL) {
    job->ticket = asked->ticket;
    job->has_key = asked->has_client != 0;
    job->key.retention = asked->retention_id;
    job->key.expiration = asked->expiration;
    job->refusal = judge(server, asked, job);
    if (job->has_key)
      job->key.client_size = (size_t)lr_server_part(server, asked->ticket, LR_PART_CLIENT, job->key.client,
                                                    sizeof job->key.client);
  }
  if (job == NULL || lr_server_park(server, asked->ticket) != LR_OK) {
    if (asked->has_client) answer_unknown(server, asked->ticket);
    free(job);
    return;
  }
  bank_reach("asked");
  pthread_mutex_lock(&lock);
  push(&given, job);
  pthread_cond_signal(&is_given);
  pthread_mutex_unlock(&lock);
}

static int64_t open_server(lr_server *server) {
  const uint8_t text[] = {LR_TYPE_STRING}, amount[] = {LR_TYPE_LONGLONG}, both[] = {LR_TYPE_STRING, LR_TYPE_LONGLONG};
  lr_catalogue all = LR_INIT;
  uint64_t seeds[2];
  int64_t done = getentropy(seeds, sizeof seeds) == 0 ? lr_catalogue_open(&all) : LR_E_RANGE;
  if (done == LR_OK) done = lr_catalogue_object(&all, LR_TEXT(KEY));
  if (done == LR_OK) done = lr_catalogue_repository_ids(&all, LR_TEXT(KEY), TYPE, sizeof TYPE);
  if (done == LR_OK) done = lr_catalogue_exception(&all, LR_TEXT(OVERDRAWN), amount, sizeof amount);
  if (done == LR_OK)
    done = lr_catalogue_operation(&all, LR_TEXT(KEY), LR_TEXT("deposit"), both, sizeof both, amount, 1);
  if (done == LR_OK)
    done = lr_catalogue_operation(&all, LR_TEXT(KEY), LR_TEXT("balance"), text, sizeof text, amount, 1);
  if (done == LR_OK) done = lr_server_open(server, &all, seeds[0], seeds[1]);
  if (done == LR_OK) done = lr_server_set(server, LR_SET_ASK_FIRST, 1);
  if (done == LR_OK) done = lr_server_set(server, LR_SET_MESSAGE, LIMIT);
  if (done == LR_OK) done = lr_server_set(server, LR_SET_PARKED, PARKED);
  lr_close(&all);
  return done;
}

int main(int count, char **words) {
  lr_server server = LR_INIT;
  pthread_t worker;
  if (count != 4 && count != 5) return fputs("usage: bank_durable STORE ADDRESS PORT [SECONDS]\n", stderr), 2;
  uint16_t port = (uint16_t)atoi(words[3]);
  store_name = words[1];
  if (count == 5) purge_every = atoi(words[4]);
#ifdef BANK_POSTGRES
  if (strncmp(store_name, "postgres", 8) == 0 && strstr(store_name, "://") != NULL) store = &bank_postgres;
#endif
  int listener = loop_listen(words[2], &port);
  if (listener < 0) return perror("bank_durable"), 1;
  is_open = store->open(store_name);
  if (!is_open) complain();
  int64_t done = open_server(&server);
  if (done == LR_OK) done = loop_print(LR_TEXT(TYPE), 2, words[2], port, LR_TEXT(KEY));
  if (done < 0) return fprintf(stderr, "bank_durable: %s\n", lr_strerror(done)), 1;
  if (pthread_create(&worker, NULL, work, NULL) != 0) return perror("bank_durable"), 1;
  int served = loop_serve(&server, listener, perform_asked, settle);
  if (served != 0) perror("bank_durable");
  pthread_mutex_lock(&lock);
  is_over = 1;
  pthread_cond_signal(&is_given);
  pthread_mutex_unlock(&lock);
  pthread_join(worker, NULL);
  store->close();
  lr_close(&server);
  return served == 0 ? 0 : 1;
}
