/*
 * A thousand connections at once. Each request is sent three times, over any of them, cut anywhere: some connections
 * carry single octets, some pieces, some whole messages, and some are lost, whose requests are sent again on new ones.
 * Each request is to be asked once, and each complete transmission answered at once, by what the request gave the first
 * time.
 */
#include <stdlib.h>

#include "check.h"

enum { CONNECTIONS = 1000, REQUESTS = 2000, TRANSMISSIONS = 3 * REQUESTS, CLIENTS = 37, NOW = 1000, LATER = 1 << 20 };

/* A transmission of a request. */
struct sent {
  int request;
  struct asking asking;
  unsigned char octets[160];
  size_t size;
  struct sent *next; /* on the same connection */
};

struct connection {
  uint64_t number;
  struct sent *sent; /* the first that has not come whole */
  size_t came;       /* how many octets of it have come */
  size_t most;       /* how many octets come at a time */
};

static struct sent all[TRANSMISSIONS];
static struct connection connections[CONNECTIONS];
static int asked_of[REQUESTS];       /* how many times a request was asked */
static int64_t outcome_of[REQUESTS]; /* what it gave */
static char client_of[CLIENTS][24];
static uint64_t last_number;
static int64_t total;
static lr_server server = LR_INIT;

/* A number below a bound, by a fixed seed. */
static size_t dice(size_t bound) {
  static uint64_t state = 29;
  state ^= state << 13;
  state ^= state >> 7;
  state ^= state << 17;
  return (size_t)(state % bound);
}

static void make_sent(struct sent *sent, int request, uint32_t request_id) {
  struct octets out;
  sent->request = request;
  sent->asking = (struct asking){(uint32_t)dice(3),
                                 (uint32_t)dice(2),
                                 request_id,
                                 LR_WISH_FULL,
                                 "c",
                                 "give",
                                 client_of[request % CLIENTS],
                                 request,
                                 LATER};
  begin_request(&out, &sent->asking, true);
  put_number(&out, (uint64_t)request, 8);
  end_message(&out);
  sent->size = out.size;
  memcpy(sent->octets, out.all, out.size);
}

/* Opens a connection for what is to be sent on it. */
static void open_connection(struct connection *at) {
  static const size_t most[] = {1, 7, 40, 1000};
  at->number = ++last_number;
  at->came = 0;
  at->most = most[dice(4)];
  WANT(lr_server_connect(&server, at->number), LR_OK);
}

/* Puts all transmissions on connections at random, each request's in any order. */
static void scatter(void) {
  for (int index = 0; index < CLIENTS; index++) snprintf(client_of[index], sizeof client_of[index], "client %d", index);
  for (size_t index = 0; index < TRANSMISSIONS; index++)
    make_sent(&all[index], (int)(index % REQUESTS), (uint32_t)index);
  for (size_t left = TRANSMISSIONS; left > 0; left--) {
    size_t chosen = dice(left);
    struct sent one = all[chosen];
    all[chosen] = all[left - 1];
    all[left - 1] = one;
  }
  for (size_t index = 0; index < TRANSMISSIONS; index++) {
    struct connection *at = &connections[dice(CONNECTIONS)];
    all[index].next = at->sent;
    at->sent = &all[index];
  }
  for (struct connection *at = connections; at < connections + CONNECTIONS; at++) open_connection(at);
}

/* Performs the request that waits: it gives the number of requests so far. */
static void perform(const struct connection *at) {
  lr_request asked;
  unsigned char body[16], client[24], result[8];
  lr_place out = {0, 0, LR_ORDER_LITTLE, 0};
  int64_t request = -1;
  WANT(lr_server_asked(&server, &asked, sizeof asked), 1);
  lr_place in = {asked.body_at, 0, asked.body_order, 0};
  WANT(lr_server_part(&server, asked.ticket, LR_PART_BODY, body, sizeof body), (int64_t)asked.body_size);
  WANT(lr_get_longlong(body, sizeof body, &in, &request), LR_OK);
  if (!CHECK(request >= 0 && request < REQUESTS)) exit(check_end());
  const char *name = client_of[request % CLIENTS];
  WANT(lr_server_part(&server, asked.ticket, LR_PART_CLIENT, client, sizeof client), (int64_t)strlen(name));
  CHECK(memcmp(client, name, strlen(name)) == 0 && asked.retention_id == request && asked.expiration == LATER);
  CHECK(asked.connection == at->number && asked.request_id == at->sent->asking.request_id);
  asked_of[request]++;
  outcome_of[request] = ++total;
  WANT(lr_put_longlong(result, sizeof result, &out, total), LR_OK);
  WANT(lr_server_answer(&server, asked.ticket, LR_ORDER_LITTLE, result, sizeof result), LR_OK);
}

/* Whether the reply to a transmission is all that is due on its connection. */
static bool is_answered(const struct connection *at, const struct sent *sent) {
  struct octets wanted;
  unsigned char room[256];
  begin_reply(&wanted, sent->asking.version, LR_ORDER_LITTLE, sent->asking.request_id, LR_REPLY_NO_EXCEPTION);
  put_number(&wanted, (uint64_t)outcome_of[sent->request], 8);
  end_message(&wanted);
  int64_t size = lr_server_output(&server, at->number, room, sizeof room);
  return size >= 0 && equal(room, (size_t)size, &wanted) &&
         lr_server_output(&server, at->number, room, sizeof room) == 0;
}

/* A piece comes: within one transmission, so that what is due after it is known. */
static void come(struct connection *at) {
  struct sent *sent = at->sent;
  unsigned char room[1];
  lr_request asked;
  size_t size = 1 + dice(at->most);
  if (size > sent->size - at->came) size = sent->size - at->came;
  WANT(lr_server_feed(&server, at->number, NOW, sent->octets + at->came, size), (int64_t)size);
  at->came += size;
  bool is_first = at->came == sent->size && asked_of[sent->request] == 0;
  WANT(lr_server_asked(&server, &asked, sizeof asked), is_first);
  if (is_first) perform(at);
  if (at->came < sent->size) {
    WANT(lr_server_output(&server, at->number, room, sizeof room), 0);
    return;
  }
  CHECK(is_answered(at, sent));
  at->sent = sent->next;
  at->came = 0;
}

/* A connection is lost; what has not come whole is sent again on another. */
static void lose(struct connection *at) {
  WANT(lr_server_lost(&server, at->number), LR_OK);
  WANT(lr_server_is_closed(&server, at->number), 1);
  open_connection(at);
}

static void open_server(void) {
  static const uint8_t number[] = {LR_TYPE_LONGLONG};
  lr_catalogue catalogue = LR_INIT;
  WANT(lr_catalogue_open(&catalogue), LR_OK);
  WANT(lr_catalogue_object(&catalogue, "c", 1), LR_OK);
  WANT(lr_catalogue_operation(&catalogue, "c", 1, "give", 4, number, 1, number, 1), LR_OK);
  WANT(lr_server_open(&server, &catalogue, 1, 2), LR_OK);
}

int main(void) {
  static struct connection *open[CONNECTIONS];
  size_t left = 0;
  open_server();
  scatter();
  for (size_t index = 0; index < CONNECTIONS; index++)
    if (connections[index].sent != NULL) open[left++] = &connections[index];
  while (left > 0) {
    size_t chosen = dice(left);
    if (dice(500) == 0) lose(open[chosen]);
    come(open[chosen]);
    if (open[chosen]->sent == NULL) open[chosen] = open[--left];
  }
  for (size_t index = 0; index < REQUESTS; index++) WANT(asked_of[index], 1);
  CHECK(total == REQUESTS && last_number > CONNECTIONS);
  lr_close(&server);
  return check_end();
}
