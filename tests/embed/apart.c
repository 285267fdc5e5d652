/*
 * Threads at once, each with a server and a client of its own, whose calls lose their replies and are sent again: each
 * acts once. A sanitizer sees what of this program they share, and the heap of the library.
 */
#include <pthread.h>
#include <stdlib.h>

#include "check.h"

enum { THREADS = 8, CALLS = 250, NOW = 1000, LATER = 2000 };

static const uint8_t one_long[] = {LR_TYPE_LONG};

/* What a thread did. */
struct done {
  int64_t total, returned;
  bool failed;
};

/* Performs what waits on a server: adds to a total, and answers it. */
static bool perform(lr_server *server, int64_t *total) {
  unsigned char body[8];
  lr_request asked;
  int32_t number;
  if (lr_server_asked(server, &asked, sizeof asked) != 1) return true;
  lr_place in = {.at = asked.body_at, .order = asked.body_order}, out = {.order = LR_ORDER_BIG};
  if (lr_server_part(server, asked.ticket, LR_PART_BODY, body, sizeof body) != 4) return false;
  if (lr_get_long(body, 4, &in, &number) != LR_OK) return false;
  *total += number;
  lr_put_long(body, sizeof body, &out, (int32_t)*total);
  return lr_server_answer(server, asked.ticket, LR_ORDER_BIG, body, 4) == LR_OK;
}

/* Sends what is due to a server on a connection, and takes its answers, which may be lost. */
static bool exchange(lr_server *server, lr_client *client, uint64_t connection, bool is_lost, int64_t *total) {
  unsigned char octets[1024];
  if (lr_server_connect(server, connection) != LR_OK || lr_client_connected(client, NOW) != LR_OK) return false;
  int64_t size = lr_client_output(client, octets, sizeof octets);
  if (size <= 0 || lr_server_feed(server, connection, NOW, octets, (size_t)size) != size) return false;
  if (!perform(server, total)) return false;
  size = lr_server_output(server, connection, octets, sizeof octets);
  if (!is_lost && lr_client_feed(client, octets, (size_t)size) != size) return false;
  return size > 0 && lr_client_lost(client) == LR_OK && lr_server_lost(server, connection) == LR_OK;
}

static bool call_often(lr_server *server, lr_client *client, struct done *done) {
  for (uint64_t call = 1; call <= CALLS; call++) {
    lr_completion completion;
    unsigned char body[8];
    if (lr_client_call(client, NOW, LATER, "c", 1, "add", 3, one_long, 1, LR_ORDER_BIG, "\0\0\0\1", 4) < 0)
      return false;
    if (!exchange(server, client, 2 * call - 1, true, &done->total)) return false;
    if (!exchange(server, client, 2 * call, false, &done->total)) return false;
    if (lr_client_completed(client, &completion, sizeof completion) != 1) return false;
    if (completion.how != LR_ENDED_RETURNED || lr_client_body(client, body, sizeof body) != 4) return false;
    done->returned = body[2] << 8 | body[3];
    if (done->returned != done->total) return false;
  }
  return true;
}

static void *works(void *at) {
  struct done *done = at;
  lr_catalogue catalogue = LR_INIT;
  lr_server server = LR_INIT;
  lr_client client = LR_INIT;
  done->failed = lr_catalogue_open(&catalogue) != LR_OK || lr_catalogue_object(&catalogue, "c", 1) != LR_OK ||
                 lr_catalogue_operation(&catalogue, "c", 1, "add", 3, one_long, 1, one_long, 1) != LR_OK ||
                 lr_server_open(&server, &catalogue, 1, 2) != LR_OK || lr_client_open(&client, "A", 1) != LR_OK ||
                 !call_often(&server, &client, done);
  lr_client_close(&client);
  lr_server_close(&server);
  return NULL;
}

int main(void) {
  pthread_t threads[THREADS];
  static struct done done[THREADS];
  for (int at = 0; at < THREADS; at++) CHECK(pthread_create(&threads[at], NULL, works, &done[at]) == 0);
  for (int at = 0; at < THREADS; at++) {
    CHECK(pthread_join(threads[at], NULL) == 0 && !done[at].failed);
    WANT(done[at].total, CALLS);
  }
  return check_end();
}
