/*
 * Clients that go on: calls that TRANSIENT or a forward leaves pending, and calls of before that are taken up again by
 * a client that was opened anew. What is sent is read by an assembler, and performed by a server where that matters.
 */
#include "check.h"

enum { LIMIT = 4096, PARTIALS = 2, NOW = 1000, LATER = 2000 };

#define TRANSIENT "IDL:omg.org/CORBA/TRANSIENT:1.0"
#define ADD(argument) "add", 3, one_long, 1, LR_ORDER_BIG, (argument), 4

static const uint8_t one_long[] = {LR_TYPE_LONG}, no_type[] = {0};
static unsigned char room[4096];
static lr_client client;

static void open_client(void) {
  client = (lr_client)LR_INIT;
  WANT(lr_client_open(&client, "A", 1), LR_OK);
}

static int64_t call_add(void) { return lr_client_call(&client, NOW, LATER, "c", 1, ADD("\0\0\0\5")); }

static int64_t recall_add(int64_t call) { return lr_client_recall(&client, call, NOW, LATER, "c", 1, ADD("\0\0\0\5")); }

static int64_t redirect_add(int64_t call) { return lr_client_redirect(&client, call, "other", 5, ADD("\0\0\0\5")); }

static int64_t redirect_raw(int64_t call, uint32_t wish, uint32_t order, const void *contexts, size_t size) {
  return lr_client_redirect_raw(&client, call, wish, "other", 5, "add", 3, order, contexts, size, "\0\0\0\5", 4);
}

/* The request id of the one Request that is due, which is of a call, until LATER, to a key; 0 where nothing is due. */
static uint32_t sent(int32_t call, const char *key) {
  lr_assembler assembler = LR_INIT;
  lr_message said = {.request_id = 0};
  int64_t size = lr_client_output(&client, room, sizeof room);
  if (size == 0) return 0;
  WANT(lr_assembler_open(&assembler, LIMIT, PARTIALS), LR_OK);
  WANT(lr_assembler_feed(&assembler, room, (size_t)size), size);
  WANT(lr_assembler_message(&assembler, &said, sizeof said), 1);
  CHECK(said.type == LR_MSG_REQUEST && said.has_client == 1 && said.retention_id == call && said.expiration == LATER);
  WANT(lr_assembler_part(&assembler, LR_PART_KEY, room, sizeof room), (int64_t)strlen(key));
  CHECK(memcmp(room, key, strlen(key)) == 0);
  WANT(lr_assembler_part(&assembler, LR_PART_BODY, room, sizeof room), 4);
  CHECK(memcmp(room, "\0\0\0\5", 4) == 0);
  lr_close(&assembler);
  return said.request_id;
}

static void feed(const struct octets *reply) {
  WANT(lr_client_feed(&client, reply->all, reply->size), (int64_t)reply->size);
}

static void raise_transient(uint32_t request_id, uint32_t completed) {
  struct octets reply;
  system_reply(&reply, 2, request_id, TRANSIENT, completed);
  feed(&reply);
}

static void answer(uint32_t request_id) {
  struct octets reply;
  begin_reply(&reply, 2, LR_ORDER_BIG, request_id, LR_REPLY_NO_EXCEPTION);
  put_number(&reply, 6, 4);
  end_message(&reply);
  feed(&reply);
}

/* The next completion is of a call, that ended so. */
static void ends(int32_t call, uint32_t how) {
  lr_completion completion;
  if (WANT(lr_client_completed(&client, &completion, sizeof completion), 1))
    CHECK(completion.call == call && completion.how == how);
}

static void nothing_ends(void) {
  lr_completion completion;
  WANT(lr_client_completed(&client, &completion, sizeof completion), 0);
}

/* ---- TRANSIENT ---- */

static void transient_ends_a_call(void) {
  open_client();
  WANT(lr_client_connected(&client, NOW), LR_OK);
  WANT(call_add(), 1);
  raise_transient(sent(1, "c"), LR_COMPLETED_NO);
  ends(1, LR_ENDED_SYSTEM);
  WANT(lr_client_resend(&client, NOW), LR_OK);
  WANT(sent(1, "c"), 0);
  lr_close(&client);
}

static void transient_leaves_a_call_pending(void) {
  open_client();
  WANT(lr_client_set(&client, LR_CLIENT_KEEP_TRANSIENT, 1), LR_OK);
  WANT(lr_client_resend(&client, NOW), LR_OK); /* (it is not connected) */
  WANT(lr_client_connected(&client, NOW), LR_OK);
  WANT(call_add(), 1);
  uint32_t first = sent(1, "c");
  for (uint32_t completed = LR_COMPLETED_NO; completed <= LR_COMPLETED_MAYBE; completed++) {
    raise_transient(first, completed);
    nothing_ends();
    WANT(sent(1, "c"), 0);
    WANT(lr_client_resend(&client, LATER + 1), LR_OK);
    WANT(sent(1, "c"), 0);
    WANT(lr_client_resend(&client, LATER), LR_OK);
    uint32_t next = sent(1, "c");
    CHECK(next > first);
    first = next;
    WANT(lr_client_resend(&client, LATER), LR_OK);
    WANT(sent(1, "c"), 0);
  }
  answer(first);
  ends(1, LR_ENDED_RETURNED);
  WANT(call_add(), 2);
  raise_transient(sent(2, "c"), LR_COMPLETED_YES);
  ends(2, LR_ENDED_SYSTEM);
  WANT(call_add(), 3);
  raise_transient(sent(3, "c"), LR_COMPLETED_NO);
  WANT(lr_client_connected(&client, NOW), LR_OK); /* the next connection sends it too */
  raise_transient(sent(3, "c"), LR_COMPLETED_NO);
  WANT(lr_client_tick(&client, LATER + 1), LR_OK);
  ends(3, LR_ENDED_EXPIRED);
  WANT(lr_client_set(&client, LR_CLIENT_KEEP_TRANSIENT, 0), LR_OK);
  WANT(call_add(), 4);
  raise_transient(sent(4, "c"), LR_COMPLETED_NO);
  ends(4, LR_ENDED_SYSTEM);
  lr_close(&client);
}

static void settings_are_refused(void) {
  open_client();
  WANT(lr_client_set(&client, 0, 1), LR_E_RANGE);
  WANT(lr_client_set(&client, LR_CLIENT_CUTS + 1, 0), LR_E_RANGE);
  WANT(lr_client_set(&client, UINT32_MAX, 1), LR_E_RANGE);
  WANT(lr_client_set(&client, LR_CLIENT_KEEP_TRANSIENT, 2), LR_E_RANGE);
  WANT(lr_client_set(&client, LR_CLIENT_KEEP_FORWARD, UINT64_MAX), LR_E_RANGE);
  WANT(lr_client_set(&client, LR_CLIENT_KEEP_FORWARD, UINT64_C(1) << 32), LR_E_RANGE);
  lr_close(&client);
}

/* ---- calls of before ---- */

/* A server of the object `c` with add(long) -> long. */
static void open_server(lr_server *server) {
  lr_catalogue catalogue = LR_INIT;
  WANT(lr_catalogue_open(&catalogue), LR_OK);
  WANT(lr_catalogue_object(&catalogue, "c", 1), LR_OK);
  WANT(lr_catalogue_operation(&catalogue, "c", 1, "add", 3, one_long, 1, one_long, 1), LR_OK);
  WANT(lr_server_open(server, &catalogue, 1, 2), LR_OK);
}

/* Brings what the client sends to a server, on a new connection, and back what is due there. How often it was asked. */
static int carry(lr_server *server, uint64_t connection) {
  lr_request request;
  int asked = 0;
  WANT(lr_server_connect(server, connection), LR_OK);
  int64_t size = lr_client_output(&client, room, sizeof room);
  for (int64_t at = 0; at < size;) {
    int64_t taken = lr_server_feed(server, connection, NOW, room + at, (size_t)(size - at));
    if (!CHECK(taken > 0)) break;
    at += taken;
    if (lr_server_asked(server, &request, sizeof request) != 1) continue;
    asked++;
    WANT(lr_server_answer(server, request.ticket, LR_ORDER_BIG, "\0\0\0\6", 4), LR_OK);
  }
  size = lr_server_output(server, connection, room, sizeof room);
  WANT(lr_client_feed(&client, room, (size_t)size), size);
  return asked;
}

/* A client is opened anew while two of its calls are pending, the first of which was performed: each acts once. */
static void calls_of_before_act_once(void) {
  lr_server server = LR_INIT;
  open_server(&server);
  open_client();
  WANT(lr_client_connected(&client, NOW), LR_OK);
  WANT(call_add(), 1);
  WANT(carry(&server, 1), 1);
  lr_close(&client); /* (it has not seen the reply) */

  open_client();
  WANT(recall_add(1), LR_OK);
  WANT(recall_add(1), LR_E_TAKEN);
  WANT(recall_add(2), LR_OK);
  WANT(recall_add(1), LR_E_TAKEN);
  WANT(lr_client_connected(&client, NOW), LR_OK);
  WANT(carry(&server, 2), 1);
  ends(1, LR_ENDED_RETURNED);
  ends(2, LR_ENDED_RETURNED);
  WANT(call_add(), 3);
  WANT(carry(&server, 3), 1);
  ends(3, LR_ENDED_RETURNED);
  lr_close(&client);
  lr_close(&server);
}

static void numbers_of_before_are_refused(void) {
  open_client();
  WANT(recall_add(-1), LR_E_RANGE);
  WANT(recall_add(INT64_MIN), LR_E_RANGE);
  WANT(recall_add(INT64_C(1) << 31), LR_E_RANGE);
  WANT(recall_add((INT64_C(1) << 32) + 1), LR_E_RANGE);
  WANT(recall_add(0), LR_E_TAKEN);
  WANT(lr_client_recall(&client, 1, NOW, NOW - 1, "c", 1, ADD("\0\0\0\5")), LR_E_EXPIRED);
  WANT(lr_client_recall(&client, 1, NOW, LATER, "c", 1, "a\0", 2, one_long, 1, LR_ORDER_BIG, "\0\0\0\5", 4), LR_E_TEXT);
  WANT(lr_client_recall(&client, 1, NOW, LATER, "c", 1, "add", 3, one_long, 1, 2, "\0\0\0\5", 4), LR_E_RANGE);
  WANT(lr_client_recall(&client, 1, NOW, LATER, "c", 1, "add", 3, one_long, 1, LR_ORDER_BIG, "\0\0\0", 3), LR_E_SHORT);
  WANT(lr_client_recall(&client, 1, NOW, LATER, "c", 1, "add", 3, NULL, 0, LR_ORDER_BIG, "\0\0\0\5", 4), LR_E_VALUE);
  WANT(lr_client_recall(&client, 1, NOW, LATER, "c", 1, "add", 3, no_type, 1, LR_ORDER_BIG, NULL, 0), LR_E_TYPES);
  WANT(call_add(), 1);
  WANT(lr_client_skip_to(&client, -1), LR_E_RANGE);
  WANT(lr_client_skip_to(&client, INT64_C(1) << 31), LR_E_RANGE);
  WANT(lr_client_skip_to(&client, 0), LR_OK);
  WANT(lr_client_skip_to(&client, 1), LR_OK);
  WANT(call_add(), 2);
  WANT(lr_client_skip_to(&client, 40), LR_OK);
  WANT(lr_client_skip_to(&client, 7), LR_OK);
  WANT(recall_add(40), LR_E_TAKEN);
  WANT(call_add(), 41);
  WANT(recall_add(50), LR_OK);
  WANT(call_add(), 51);
  WANT(lr_client_skip_to(&client, INT32_MAX), LR_OK);
  WANT(call_add(), LR_E_CALLS);
  WANT(recall_add(INT32_MAX), LR_E_TAKEN);
  lr_close(&client);

  open_client();
  for (int64_t call = 2; call <= 2 * 64; call += 2) WANT(recall_add(call), LR_OK);
  WANT(recall_add(200), LR_E_CALLS);
  lr_close(&client);
}

/* ---- forwards ---- */

static void forward(uint32_t request_id, uint32_t status) {
  struct octets reply;
  begin_reply(&reply, 2, LR_ORDER_LITTLE, request_id, status);
  align(&reply, 8);
  put_octets(&reply, "a reference", 11);
  end_message(&reply);
  feed(&reply);
}

/* A call is led elsewhere, and it is said to which octets. */
static void is_led(int32_t call) {
  lr_completion completion;
  unsigned char body[12];
  memset(body, 0xee, sizeof body);
  if (!WANT(lr_client_forwarded(&client, &completion, sizeof completion, body, sizeof body), 1)) return;
  CHECK(completion.call == call && completion.how == LR_ENDED_FORWARDED && completion.body_size == 11);
  CHECK(completion.body_at == 24 && completion.body_order == LR_ORDER_LITTLE && completion.reserved == 0);
  CHECK(memcmp(body, "a reference\xee", 12) == 0);
  memset(body, 0xee, sizeof body);
  WANT(lr_client_forwarded(&client, &completion, sizeof completion, body, 3), 1);
  CHECK(completion.body_size == 11 && memcmp(body, "a r\xee", 4) == 0);
  WANT(lr_client_forwarded(&client, &completion, sizeof completion, NULL, 0), 1);
}

static void nothing_is_led(void) {
  lr_completion completion, before;
  memset(&completion, 0xee, sizeof completion);
  before = completion;
  room[0] = 0xee;
  WANT(lr_client_forwarded(&client, &completion, sizeof completion, room, sizeof room), 0);
  CHECK(memcmp(&completion, &before, sizeof before) == 0 && room[0] == 0xee);
}

static void a_forward_ends_a_call(void) {
  open_client();
  WANT(lr_client_connected(&client, NOW), LR_OK);
  WANT(call_add(), 1);
  forward(sent(1, "c"), LR_REPLY_LOCATION_FORWARD);
  nothing_is_led();
  WANT(redirect_add(1), LR_E_FORWARD);
  ends(1, LR_ENDED_FORWARDED);
  lr_close(&client);
}

static void a_forward_leaves_a_call_pending(void) {
  open_client();
  WANT(lr_client_set(&client, LR_CLIENT_KEEP_FORWARD, 1), LR_OK);
  WANT(lr_client_connected(&client, NOW), LR_OK);
  for (int32_t call = 1; call <= 2; call++) {
    WANT(call_add(), call);
    nothing_is_led();
    WANT(redirect_add(call), LR_E_FORWARD);
    forward(sent(call, "c"), call == 1 ? LR_REPLY_LOCATION_FORWARD : LR_REPLY_LOCATION_FORWARD_PERM);
    nothing_ends();
    is_led(call);
    WANT(lr_client_resend(&client, NOW), LR_OK);
    WANT(lr_client_connected(&client, NOW), LR_OK);
    WANT(sent(call, "c"), 0);
    WANT(redirect_add(call), LR_OK);
    WANT(redirect_add(call), LR_E_FORWARD);
    nothing_is_led();
    WANT(sent(call, "other"), 0);
    if (call == 1) {
      WANT(lr_client_resend(&client, NOW), LR_OK);
    } else {
      WANT(lr_client_connected(&client, NOW), LR_OK);
    }
    answer(sent(call, "other"));
    ends(call, LR_ENDED_RETURNED);
  }
  lr_close(&client);
}

/* The first of several is told of, by its number; one that is cancelled or expired is led nowhere. */
static void the_first_is_told_of(void) {
  open_client();
  WANT(lr_client_set(&client, LR_CLIENT_KEEP_FORWARD, 1), LR_OK);
  WANT(lr_client_connected(&client, NOW), LR_OK);
  uint32_t ids[4];
  for (int32_t call = 1; call <= 3; call++) {
    WANT(call_add(), call);
    ids[call] = sent(call, "c");
  }
  forward(ids[3], LR_REPLY_LOCATION_FORWARD);
  is_led(3);
  forward(ids[2], LR_REPLY_LOCATION_FORWARD);
  is_led(2);
  WANT(redirect_add(3), LR_OK);
  is_led(2);
  WANT(lr_client_cancel(&client, 2), 1);
  ends(2, LR_ENDED_CANCELLED);
  nothing_is_led();
  lr_client_output(&client, room, sizeof room);
  forward(ids[1], LR_REPLY_LOCATION_FORWARD);
  is_led(1);
  WANT(lr_client_tick(&client, LATER + 1), LR_OK);
  ends(1, LR_ENDED_EXPIRED);
  ends(3, LR_ENDED_EXPIRED);
  nothing_is_led();
  lr_close(&client);
}

/* A raw call, or one with types, is asked for under another key by a raw one: with the same FT_REQUEST. */
static void raw_calls_are_redirected(void) {
  static const unsigned char contexts[] = {0, 0, 0, 1, 0, 0, 0, LR_CONTEXT_SECURITY, 0, 0, 0, 1, 7};
  open_client();
  WANT(lr_client_set(&client, LR_CLIENT_KEEP_FORWARD, 1), LR_OK);
  WANT(lr_client_connected(&client, NOW), LR_OK);
  for (int32_t call = 1; call <= 2; call++) {
    if (call == 1) {
      WANT(lr_client_call_raw(&client, NOW, LATER, LR_WISH_FULL, "c", 1, "add", 3, LR_ORDER_BIG, contexts,
                              sizeof contexts, "\0\0\0\5", 4),
           call);
    } else {
      WANT(call_add(), call);
    }
    WANT(redirect_raw(call, LR_WISH_FULL, LR_ORDER_BIG, contexts, sizeof contexts), LR_E_FORWARD);
    forward(sent(call, "c"), LR_REPLY_LOCATION_FORWARD);
    is_led(call);
    WANT(redirect_raw(call, LR_WISH_FULL, LR_ORDER_BIG, contexts, sizeof contexts), LR_OK);
    WANT(redirect_raw(call, LR_WISH_FULL, LR_ORDER_BIG, contexts, sizeof contexts), LR_E_FORWARD);
    nothing_is_led();
    WANT(sent(call, "other"), 0);
    WANT(lr_client_resend(&client, LATER), LR_OK);
    answer(sent(call, "other"));
    ends(call, LR_ENDED_RETURNED);
  }
  lr_close(&client);
}

static void raw_redirects_are_refused(void) {
  static const unsigned char ft[] = {0, 0, 0, 1, 0, 0, 0, LR_CONTEXT_FT_REQUEST, 0, 0, 0, 1, 0};
  open_client();
  WANT(lr_client_set(&client, LR_CLIENT_KEEP_FORWARD, 1), LR_OK);
  WANT(lr_client_set(&client, LR_CLIENT_VERSION, 1), LR_OK);
  WANT(lr_client_connected(&client, NOW), LR_OK);
  WANT(call_add(), 1);
  WANT(redirect_raw(1, LR_WISH_NONE, LR_ORDER_BIG, NULL, 0), LR_E_RANGE);
  WANT(redirect_raw(1, LR_WISH_FULL, 2, NULL, 0), LR_E_RANGE);
  WANT(redirect_raw(1, 3, LR_ORDER_BIG, NULL, 0), LR_E_RANGE);
  WANT(redirect_raw(1, LR_WISH_EMPTY, LR_ORDER_BIG, NULL, 0), LR_E_RANGE); /* (not in 1.1) */
  WANT(redirect_raw(INT64_MAX, LR_WISH_FULL, LR_ORDER_BIG, NULL, 0), LR_E_RANGE);
  WANT(redirect_raw(1, LR_WISH_FULL, LR_ORDER_BIG, ft, sizeof ft - 1), LR_E_SHORT);
  WANT(redirect_raw(1, LR_WISH_FULL, LR_ORDER_BIG, ft, sizeof ft), LR_E_VALUE);
  WANT(redirect_raw(1, LR_WISH_FULL, LR_ORDER_BIG, NULL, 0), LR_E_FORWARD);
  WANT(lr_client_redirect_raw(&client, 1, LR_WISH_FULL, "d", 1, "a\0", 2, LR_ORDER_BIG, NULL, 0, NULL, 0), LR_E_TEXT);
  WANT(redirect_raw(-1, LR_WISH_FULL, LR_ORDER_BIG, NULL, 0), LR_E_FORWARD);
  lr_close(&client);
}

static void redirects_are_refused(void) {
  open_client();
  WANT(lr_client_set(&client, LR_CLIENT_KEEP_FORWARD, 1), LR_OK);
  WANT(lr_client_connected(&client, NOW), LR_OK);
  WANT(call_add(), 1);
  forward(sent(1, "c"), LR_REPLY_LOCATION_FORWARD);
  WANT(redirect_add(0), LR_E_FORWARD);
  WANT(redirect_add(2), LR_E_FORWARD);
  WANT(redirect_add(-1), LR_E_FORWARD);
  WANT(redirect_add(INT64_MAX), LR_E_RANGE);
  WANT(redirect_add((INT64_C(1) << 32) + 1), LR_E_RANGE);
  WANT(lr_client_redirect(&client, 1, "d", 1, "a\0", 2, one_long, 1, LR_ORDER_BIG, "\0\0\0\5", 4), LR_E_TEXT);
  WANT(lr_client_redirect(&client, 1, "d", 1, "add", 3, one_long, 1, 2, "\0\0\0\5", 4), LR_E_RANGE);
  WANT(lr_client_redirect(&client, 1, "d", 1, "add", 3, one_long, 1, LR_ORDER_BIG, "\0\0\0", 3), LR_E_SHORT);
  WANT(lr_client_redirect(&client, 1, "d", 1, "add", 3, NULL, 0, LR_ORDER_BIG, "\0\0\0\5", 4), LR_E_VALUE);
  WANT(lr_client_redirect(&client, 1, "d", 1, "add", 3, no_type, 1, LR_ORDER_BIG, NULL, 0), LR_E_TYPES);
  is_led(1);
  WANT(redirect_add(1), LR_OK);
  lr_close(&client);
}

int main(void) {
  transient_ends_a_call();
  transient_leaves_a_call_pending();
  settings_are_refused();
  calls_of_before_act_once();
  numbers_of_before_are_refused();
  a_forward_ends_a_call();
  a_forward_leaves_a_call_pending();
  the_first_is_told_of();
  raw_calls_are_redirected();
  redirects_are_refused();
  raw_redirects_are_refused();
  return check_end();
}
