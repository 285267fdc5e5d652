/*
 * A bank whose deposits take their time: slow_bank ADDRESS PORT [MILLISECONDS]. Its interface is bank.idl.
 *
 *     cc -o slow_bank slow_bank.c loop.c $(pkg-config --cflags --libs lemonrudder) -pthread
 *     ./slow_bank 127.0.0.1 2809
 *
 * It prints its reference, and serves until SIGTERM. A deposit is made by a thread, as one is that a database commits,
 * and takes so many milliseconds, or 100. Meanwhile its request is parked, and others are performed. A deposit with
 * FT_REQUEST that is sent again, also while the first one is under way, acts once.
 */
#define _DEFAULT_SOURCE
#include <pthread.h>
#include <stdbool.h>
#include <stdio.h>
#include <stdlib.h>
#include <string.h>
#include <time.h>
#include <unistd.h>

#include "loop.h"

#define KEY "bank"
#define TYPE "IDL:Bank:1.0"
#define OVERDRAWN "IDL:Bank/Overdrawn:1.0"
enum { LIMIT = 4096, NAME = 32, ACCOUNTS = 100, WORKERS = 64, PARKED = 256 };

struct account {
  char name[NAME];
  int64_t balance;
};

/* A deposit that is made by a worker, and what came of it. */
struct job {
  struct job *next;
  uint64_t ticket;
  uint64_t connection; /* where this is gone the deposit need not be begun; 0 where it must be */
  char name[NAME];
  int64_t amount, balance;
  enum { DEPOSITED, OVERDREW, REFUSED } end;
};

struct queue {
  struct job *first, *last;
};

/* Of the loop's thread: deposits that no worker has begun, those whose answer found no memory, and how many are under
 * way. */
static struct queue waiting, unanswered;
static int working;

/* Of all threads, under the lock. */
static pthread_mutex_t lock = PTHREAD_MUTEX_INITIALIZER;
static pthread_cond_t is_given = PTHREAD_COND_INITIALIZER;
static struct account accounts[ACCOUNTS];
static struct queue given, made;
static bool is_over;

static struct timespec takes = {0, 100000000};

static void push(struct queue *queue, struct job *job) {
  job->next = NULL;
  *(queue->first == NULL ? &queue->first : &queue->last->next) = job;
  queue->last = job;
}

static struct job *pop(struct queue *queue) {
  struct job *job = queue->first;
  if (job != NULL) queue->first = job->next;
  return job;
}

/* The account of a name, which is opened where there is none; NULL where it can't be. */
static struct account *account_of(const char *name) {
  for (struct account *it = accounts; name[0] != 0 && it < accounts + ACCOUNTS; it++) {
    if (it->name[0] == 0) memcpy(it->name, name, NAME);
    if (memcmp(it->name, name, NAME) == 0) return it;
  }
  return NULL;
}

/* ---- the workers ---- */

/* Makes a deposit, as a database would that commits it. Money moves here: what is answered is what came of it. */
static void change(struct job *job) {
  struct account *account = account_of(job->name);
  job->end = REFUSED;
  if (account == NULL || (job->amount > 0 && account->balance > INT64_MAX - job->amount)) return;
  job->end = account->balance + job->amount < 0 ? OVERDREW : DEPOSITED;
  if (job->end == DEPOSITED) account->balance += job->amount;
  job->balance = account->balance;
}

static void *work(void *nothing) {
  pthread_mutex_lock(&lock);
  while (!is_over) {
    struct job *job = pop(&given);
    if (job == NULL) {
      pthread_cond_wait(&is_given, &lock);
      continue;
    }
    pthread_mutex_unlock(&lock);
    nanosleep(&takes, NULL);
    pthread_mutex_lock(&lock);
    change(job);
    push(&made, job);
    loop_wake();
  }
  pthread_mutex_unlock(&lock);
  return nothing;
}

/* ---- the loop's thread ---- */

/* Gives deposits to workers that are free. What nobody waits for any more, and no repeat can ask for, is not begun. */
static void give(lr_server *server) {
  struct job *job;
  while (working < WORKERS && (job = pop(&waiting)) != NULL) {
    if (job->connection != 0 && lr_server_is_closed(server, job->connection) == 1) {
      lr_server_refuse(server, job->ticket, LR_EX_TRANSIENT, 0);
      free(job);
      continue;
    }
    working++;
    pthread_mutex_lock(&lock);
    push(&given, job);
    pthread_cond_signal(&is_given);
    pthread_mutex_unlock(&lock);
  }
}

/* Parks a deposit. Where too many are parked, or there is no memory, it is refused for now: nothing is kept, and its
 * client may send it again. */
static void park(lr_server *server, const lr_request *asked, const char *name, int64_t amount) {
  struct job *job = malloc(sizeof *job);
  if (job == NULL || lr_server_park(server, asked->ticket) != LR_OK) {
    free(job);
    lr_server_refuse(server, asked->ticket, LR_EX_TRANSIENT, 0);
    return;
  }
  *job = (struct job){.ticket = asked->ticket, .amount = amount};
  if (!asked->has_client && asked->wish != LR_WISH_NONE) job->connection = asked->connection;
  memcpy(job->name, name, NAME);
  push(&waiting, job);
  give(server);
}

/* Answers by a balance, or by an exception that has it. */
static int64_t answer(lr_server *server, uint64_t ticket, int end, int64_t balance) {
  unsigned char result[8];
  lr_place out = {0, 0, LR_ORDER_BIG, 0};
  lr_put_longlong(result, sizeof result, &out, balance);
  if (end == DEPOSITED) return lr_server_answer(server, ticket, LR_ORDER_BIG, result, sizeof result);
  if (end == REFUSED) return lr_server_system(server, ticket, LR_EX_BAD_PARAM, 0, LR_COMPLETED_NO);
  return lr_server_raise(server, ticket, LR_TEXT(OVERDRAWN), LR_ORDER_BIG, result, sizeof result);
}

/* Answers the deposits that were made. One whose answer finds no memory is answered later: what it did is done. */
static void settle(lr_server *server) {
  struct queue ready = unanswered;
  struct job *job;
  unanswered.first = NULL;
  pthread_mutex_lock(&lock);
  while ((job = pop(&made)) != NULL) push(&ready, job), working--;
  pthread_mutex_unlock(&lock);
  while ((job = pop(&ready)) != NULL) {
    if (answer(server, job->ticket, job->end, job->balance) == LR_E_MEMORY)
      push(&unanswered, job);
    else
      free(job);
  }
  give(server);
}

/* Performs the request that waits, whose arguments the library has read by their types. */
static void perform(lr_server *server, const lr_request *asked) {
  char operation[8], name[NAME] = {0};
  unsigned char body[LIMIT];
  lr_place in = {.at = asked->body_at, .order = asked->body_order};
  uint64_t start = 0, length = 0;
  int64_t amount = 0;
  if (lr_server_identify(server, asked->ticket) != 0) return;
  if (lr_server_part(server, asked->ticket, LR_PART_OPERATION, operation, sizeof operation) < 0) return;
  if (asked->body_size > sizeof body) return;
  if (lr_server_part(server, asked->ticket, LR_PART_BODY, body, sizeof body) < 0) return;
  lr_get_string(body, asked->body_size, &in, &start, &length);
  if (length < sizeof name) memcpy(name, body + start, length);
  if (operation[0] == 'd') {
    lr_get_longlong(body, asked->body_size, &in, &amount);
    park(server, asked, name, amount);
    return;
  }
  struct job look = {.amount = 0};
  memcpy(look.name, name, sizeof name);
  pthread_mutex_lock(&lock);
  change(&look);
  pthread_mutex_unlock(&lock);
  answer(server, asked->ticket, look.end, look.balance);
}

/* Opens a server with the bank as its one object. */
static int64_t open_server(lr_server *server) {
  static const uint8_t text[] = {LR_TYPE_STRING}, amount[] = {LR_TYPE_LONGLONG};
  static const uint8_t both[] = {LR_TYPE_STRING, LR_TYPE_LONGLONG};
  lr_catalogue bank = LR_INIT;
  uint64_t seeds[2];
  int64_t done = getentropy(seeds, sizeof seeds) == 0 ? lr_catalogue_open(&bank) : LR_E_RANGE;
  if (done == LR_OK) done = lr_catalogue_object(&bank, LR_TEXT(KEY));
  if (done == LR_OK) done = lr_catalogue_repository_ids(&bank, LR_TEXT(KEY), TYPE, sizeof TYPE);
  if (done == LR_OK) done = lr_catalogue_exception(&bank, LR_TEXT(OVERDRAWN), amount, sizeof amount);
  if (done == LR_OK)
    done = lr_catalogue_operation(&bank, LR_TEXT(KEY), LR_TEXT("deposit"), both, sizeof both, amount, 1);
  if (done == LR_OK)
    done = lr_catalogue_operation(&bank, LR_TEXT(KEY), LR_TEXT("balance"), text, sizeof text, amount, 1);
  if (done == LR_OK) done = lr_server_open(server, &bank, seeds[0], seeds[1]);
  if (done == LR_OK) done = lr_server_set(server, LR_SET_MESSAGE, LIMIT);
  if (done == LR_OK) done = lr_server_set(server, LR_SET_PARKED, PARKED);
  lr_close(&bank);
  return done;
}

/* Begins so many workers, and answers how many began. */
static int begin_workers(pthread_t *workers, int count) {
  for (int index = 0; index < count; index++)
    if (pthread_create(&workers[index], NULL, work, NULL) != 0) return index;
  return count;
}

/* Ends them; what they are at is finished first. */
static void end_workers(pthread_t *workers, int count) {
  pthread_mutex_lock(&lock);
  is_over = true;
  pthread_cond_broadcast(&is_given);
  pthread_mutex_unlock(&lock);
  for (int index = 0; index < count; index++) pthread_join(workers[index], NULL);
  struct queue *queues[] = {&waiting, &unanswered, &given, &made};
  for (size_t index = 0; index < sizeof queues / sizeof *queues; index++)
    for (struct job *job; (job = pop(queues[index])) != NULL;) free(job);
}

int main(int count, char **words) {
  lr_server server = LR_INIT;
  pthread_t workers[WORKERS];
  if (count != 3 && count != 4) return fputs("usage: slow_bank ADDRESS PORT [MILLISECONDS]\n", stderr), 2;
  uint16_t port = (uint16_t)atoi(words[2]);
  if (count == 4) takes = (struct timespec){atoi(words[3]) / 1000, atoi(words[3]) % 1000 * 1000000L};
  int listener = loop_listen(words[1], &port);
  if (listener < 0) return perror("slow_bank"), 1;
  int64_t done = open_server(&server);
  if (done == LR_OK) done = loop_print(LR_TEXT(TYPE), 2, words[1], port, LR_TEXT(KEY));
  if (done < 0) return fprintf(stderr, "slow_bank: %s\n", lr_strerror(done)), 1;
  int begun = begin_workers(workers, WORKERS);
  int served = begun == WORKERS ? loop_serve(&server, listener, perform, settle) : -1;
  if (served != 0) perror("slow_bank");
  end_workers(workers, begun);
  lr_close(&server);
  return served == 0 ? 0 : 1;
}
