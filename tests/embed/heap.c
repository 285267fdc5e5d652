/*
 * Each allocation refused in turn, over scripts of calls. A call that had no memory answers its error, and is made
 * again: where nothing is to have changed it gives then what it is to give. Where a connection is gone its octets are
 * sent again on another, and an outcome that was handed in is what a repeat gets. At the end nothing is left allocated.
 */
#include <stdlib.h>

#include "check.h"

enum { LIMIT = 4096, PARTIALS = 2, NOW = 1000, LATER = 2000 };

/* ---- the heap ---- */

static long made, refused_at, live;
static bool was_refused, is_told;

/* Whether an allocation is refused: the one of the number `refused_at`. */
static bool is_refused(void) {
  if (++made != refused_at) return false;
  was_refused = true;
  return true;
}

static void *allocate(size_t size) {
  void *at = is_refused() ? NULL : malloc(size);
  live += at != NULL;
  return at;
}

static void *reallocate(void *old, size_t size) {
  void *at = is_refused() ? NULL : realloc(old, size);
  live += at != NULL && old == NULL;
  return at;
}

static void release(void *at) {
  live -= at != NULL;
  free(at);
}

/* Notes that a call has told of the refusal: there was one, and it is told once. */
static bool tell(void) {
  bool is_right = was_refused && !is_told;
  is_told = true;
  return is_right;
}

/* Makes a call, and once more where it had no memory. */
#define AGAIN(call, wanted)                   \
  do {                                        \
    int64_t answer_ = (call);                 \
    if (answer_ == LR_E_MEMORY) {             \
      CHECK(tell());                          \
      answer_ = (call);                       \
    }                                         \
    want(answer_, (wanted), #call, __LINE__); \
  } while (0)

static unsigned char room[1 << 16];
static const uint8_t one_long[] = {LR_TYPE_LONG};

#define RAISED "IDL:C/Wrong:1.0"

/* ---- a server ---- */

static lr_server server;
static uint64_t connection, ticket; /* (the ticket of the request that was asked last) */

/* How often octets were lost that came, and how often the reply to an outcome that counts. */
static long lost_feeds, lost_replies;

/* A request: its octets, how it is answered, and the reply that is wanted. */
struct exchange {
  struct octets request, reply;
  int64_t (*answer)(void);
  int asked;
};

static int64_t returns(void) { return lr_server_answer(&server, ticket, LR_ORDER_BIG, "\0\0\0\6", 4); }

static int64_t raises(void) {
  return lr_server_raise(&server, ticket, RAISED, SIZE(RAISED), LR_ORDER_BIG, "\0\0\0\7", 4);
}

static int64_t fails(void) { return lr_server_system(&server, ticket, LR_EX_UNKNOWN, 0, LR_COMPLETED_MAYBE); }

static int64_t writes(void) {
  return lr_server_answer_raw(&server, ticket, LR_REPLY_NO_EXCEPTION, LR_ORDER_BIG, "\1\2\3", 3);
}

static int64_t identifies(void) {
  int64_t answer = lr_server_identify(&server, ticket);
  return answer == 1 ? LR_OK : answer;
}

static void open_server(void) {
  lr_catalogue catalogue = LR_INIT;
  AGAIN(lr_catalogue_open(&catalogue), LR_OK);
  AGAIN(lr_catalogue_object(&catalogue, "c", 1), LR_OK);
  int64_t answer = LR_E_MEMORY;
  for (int tries = 0; answer == LR_E_MEMORY && tries < 2; tries++) { /* (its exceptions are forgotten at an error) */
    AGAIN(lr_catalogue_exception(&catalogue, RAISED, SIZE(RAISED), one_long, 1), LR_OK);
    answer = lr_catalogue_operation(&catalogue, "c", 1, "add", 3, one_long, 1, one_long, 1);
    if (answer == LR_E_MEMORY) CHECK(tell());
  }
  WANT(answer, LR_OK);
  AGAIN(lr_catalogue_raw_operation(&catalogue, "c", 1, "raw", 3), LR_OK);
  AGAIN(lr_catalogue_raw_object(&catalogue, "r", 1), LR_OK);
  AGAIN(lr_catalogue_repository_ids(&catalogue, "c", 1, "IDL:C:1.0\0IDL:D:1.0", 20), LR_OK);
  AGAIN(lr_server_open(&server, &catalogue, 1, 2), LR_OK);
  CHECK(catalogue.kind == 0);
}

/* The connection is gone, and nothing was answered on it. */
static void reconnect(void) {
  WANT(lr_server_is_closed(&server, connection), 1);
  WANT(lr_server_output(&server, connection, room, sizeof room), 0);
  connection++;
  AGAIN(lr_server_connect(&server, connection), LR_OK);
}

/* Performs the request that waits. False where its reply was lost. */
static bool perform(struct exchange *exchange) {
  unsigned char part[64];
  lr_request asked;
  WANT(lr_server_asked(&server, &asked, sizeof asked), 1);
  ticket = asked.ticket;
  for (uint32_t index = LR_PART_KEY; index <= LR_PART_CLIENT; index++) {
    int64_t sizes[] = {(int64_t)asked.key_size, (int64_t)asked.operation_size, (int64_t)asked.body_size,
                       (int64_t)asked.client_size};
    AGAIN(lr_server_part(&server, ticket, index, part, sizeof part), sizes[index]);
  }
  exchange->asked++;
  int64_t answer = exchange->answer();
  if (answer == LR_E_MEMORY) {
    CHECK(tell());
    WANT(lr_server_asked(&server, &asked, sizeof asked), 1); /* it waits still */
    answer = exchange->answer();
  }
  if (answer != LR_E_LOST) return WANT(answer, LR_OK);
  CHECK(tell());
  WANT(lr_server_why(&server, connection), LR_WHY_MEMORY);
  lost_replies++;
  return false;
}

/* Feeds the request, and performs it where it is asked. False where the connection was lost. */
static bool send(struct exchange *exchange) {
  lr_request asked;
  int64_t taken = lr_server_feed(&server, connection, NOW, exchange->request.all, exchange->request.size);
  if (taken == LR_E_LOST) {
    CHECK(tell());
    WANT(lr_server_why(&server, connection), LR_WHY_MEMORY);
    lost_feeds++;
    return false;
  }
  WANT(taken, (int64_t)exchange->request.size);
  return lr_server_asked(&server, &asked, sizeof asked) != 1 || perform(exchange);
}

/* Sends the request until its reply is due, which is once more where an allocation was refused. */
static void send_until_answered(struct exchange *exchange) {
  for (int tries = 0; tries < 2 && !send(exchange); tries++) reconnect();
  int64_t size = lr_server_output(&server, connection, room, sizeof room);
  CHECK(size >= 0 && equal(room, (size_t)size, &exchange->reply));
}

static void make_exchange(struct exchange *exchange, uint32_t id, const char *key, const char *operation,
                          const char *client, int64_t (*answer)(void)) {
  struct asking asking = {2, LR_ORDER_BIG, id, LR_WISH_FULL, key, operation, client, (int32_t)id, LATER};
  exchange->answer = answer;
  exchange->asked = 0;
  begin_request(&exchange->request, &asking, true);
  if (answer == identifies) {
    put_text(&exchange->request, "IDL:D:1.0");
  } else {
    put_number(&exchange->request, 5, 4);
  }
  end_message(&exchange->request);
  begin_reply(&exchange->reply, 2, LR_ORDER_BIG, id,
              answer == raises ? LR_REPLY_USER_EXCEPTION : LR_REPLY_NO_EXCEPTION);
  if (answer == returns) put_number(&exchange->reply, 6, 4);
  if (answer == raises) put_text(&exchange->reply, RAISED);
  if (answer == raises) put_number(&exchange->reply, 7, 4);
  if (answer == writes) put_octets(&exchange->reply, "\1\2\3", 3);
  if (answer == identifies) put_number(&exchange->reply, 1, 1);
  end_message(&exchange->reply);
  if (answer == fails) system_reply(&exchange->reply, 2, id, "IDL:omg.org/CORBA/UNKNOWN:1.0", LR_COMPLETED_MAYBE);
}

/* A request is performed once, though it comes twice, and on two connections. */
static void acts_once(struct exchange *exchange) {
  send_until_answered(exchange);
  connection++;
  AGAIN(lr_server_connect(&server, connection), LR_OK);
  send_until_answered(exchange);
  WANT(exchange->asked, 1);
}

/* A request in two frames (CORBA 3.3 Part 2, 9.4.9), cut after its first 24 octets. */
static void cut(struct octets *request) {
  struct octets first = {.size = 0, .order = LR_ORDER_BIG}, last;
  put_octets(&first, request->all, 24);
  first.all[6] |= 2;
  end_message(&first);
  begin_message(&last, 2, LR_ORDER_BIG, LR_MSG_FRAGMENT);
  put_octets(&last, request->all + 12, 4);
  put_octets(&last, request->all + 24, request->size - 24);
  end_message(&last);
  put_octets(&first, last.all, last.size);
  *request = first;
}

static const unsigned char goodbye[] = {'G', 'I', 'O', 'P', 1, 0, 0, 5, 0, 0, 0, 0};

/* Feeds the request, which is asked. */
static void ask(struct exchange *exchange) {
  lr_request asked;
  int64_t taken = LR_E_LOST;
  for (int tries = 0; taken == LR_E_LOST && tries < 2; tries++) {
    taken = lr_server_feed(&server, connection, NOW, exchange->request.all, exchange->request.size);
    if (taken == LR_E_LOST) {
      CHECK(tell());
      reconnect();
    }
  }
  WANT(taken, (int64_t)exchange->request.size);
  WANT(lr_server_asked(&server, &asked, sizeof asked), 1);
  ticket = asked.ticket;
}

/* A request that is given up is asked again, and then counts. */
static void is_given_up(struct exchange *exchange) {
  ask(exchange);
  WANT(lr_server_give_up(&server, ticket), LR_OK);
  reconnect();
  acts_once(exchange);
}

/* So is one that is refused, by a request id. Without memory for the refusal it is given up. */
static void is_turned_down(struct exchange *exchange, uint32_t id) {
  struct octets refusal;
  ask(exchange);
  int64_t answer = lr_server_refuse(&server, ticket, LR_EX_TRANSIENT, 0);
  if (answer == LR_E_LOST) {
    CHECK(tell());
    reconnect();
  } else {
    WANT(answer, LR_OK);
    system_reply(&refusal, 2, id, "IDL:omg.org/CORBA/TRANSIENT:1.0", LR_COMPLETED_NO);
    int64_t size = lr_server_output(&server, connection, room, sizeof room);
    CHECK(size >= 0 && equal(room, (size_t)size, &refusal));
  }
  acts_once(exchange);
}

/* .. and one that is given up with goodbye. */
static void is_sent_away(struct exchange *exchange) {
  ask(exchange);
  AGAIN(lr_server_goodbye(&server, ticket), LR_OK);
  WANT(lr_server_output(&server, connection, room, sizeof room), sizeof goodbye);
  CHECK(memcmp(room, goodbye, sizeof goodbye) == 0);
  reconnect();
  acts_once(exchange);
}

/* An answer and a goodbye are due on one connection. */
static void says_goodbye(void) {
  int64_t answer = lr_server_farewell(&server, connection);
  if (answer == LR_E_LOST) {
    CHECK(tell());
    WANT(lr_server_output(&server, connection, room, sizeof room), 0);
  } else {
    WANT(answer, LR_OK);
    WANT(lr_server_output(&server, connection, room, sizeof room), sizeof goodbye);
    CHECK(memcmp(room, goodbye, sizeof goodbye) == 0);
  }
  WANT(lr_server_is_closed(&server, connection), 1);
}

static void serves(void) {
  struct exchange exchange;
  server = (lr_server)LR_INIT;
  connection = 1;
  open_server();
  AGAIN(lr_server_connect(&server, connection), LR_OK);
  make_exchange(&exchange, 1, "c", "add", "A", returns);
  acts_once(&exchange);
  make_exchange(&exchange, 2, "c", "add", "B", raises);
  acts_once(&exchange);
  make_exchange(&exchange, 3, "c", "add", "A", fails);
  acts_once(&exchange);
  make_exchange(&exchange, 4, "c", "raw", "a client with a longer name", writes);
  acts_once(&exchange);
  make_exchange(&exchange, 5, "c", "_is_a", "A", identifies);
  acts_once(&exchange);
  make_exchange(&exchange, 6, "r", "whatever", "A", writes);
  cut(&exchange.request);
  acts_once(&exchange);
  make_exchange(&exchange, 7, "c", "add", "A", returns);
  is_given_up(&exchange);
  make_exchange(&exchange, 8, "c", "add", "A", returns);
  is_turned_down(&exchange, 8);
  make_exchange(&exchange, 9, "c", "add", "A", returns);
  is_sent_away(&exchange);
  says_goodbye();
  lr_close(&server);
}

/* ---- parked requests ---- */

/* Parks a request that comes on a connection, and answers its ticket; 0 where it did not come, since the connection is
 * gone. */
static uint64_t park(uint64_t on, const struct exchange *exchange) {
  lr_request asked = {.ticket = 0};
  int64_t taken = lr_server_feed(&server, on, NOW, exchange->request.all, exchange->request.size);
  if (taken == LR_E_LOST) {
    CHECK(tell());
    return 0;
  }
  WANT(taken, (int64_t)exchange->request.size);
  WANT(lr_server_asked(&server, &asked, sizeof asked), 1);
  AGAIN(lr_server_park(&server, asked.ticket), LR_OK);
  return asked.ticket;
}

/* Parks it on the connection that is open, or on the next where that is gone. */
static uint64_t park_surely(const struct exchange *exchange) {
  uint64_t parked = park(connection, exchange);
  if (parked != 0) return parked;
  reconnect();
  return park(connection, exchange);
}

/* What is due on a connection is these octets, or nothing where it is gone, which is told once. */
static void is_due_or_lost(uint64_t on, const struct octets *wanted) {
  int64_t size = lr_server_output(&server, on, room, sizeof room);
  if (size == 0 && lr_server_is_closed(&server, on) == 1) {
    CHECK(tell());
    WANT(lr_server_why(&server, on), LR_WHY_MEMORY);
    return;
  }
  CHECK(size >= 0 && equal(room, (size_t)size, wanted));
}

/* Two requests are parked, one is joined by its repeat on another connection, and they are answered in another order:
 * each counts, and where the memory for a reply is short its connection alone is lost. */
static void parks(void) {
  struct exchange one, two, repeat;
  server = (lr_server)LR_INIT;
  connection = 1;
  open_server();
  AGAIN(lr_server_connect(&server, connection), LR_OK);
  make_exchange(&one, 1, "c", "add", "A", returns);
  make_exchange(&two, 2, "c", "add", "B", raises);
  make_exchange(&repeat, 1, "c", "add", "A", returns);
  uint64_t first = park_surely(&one);
  uint64_t second = park_surely(&two);
  uint64_t of_second = connection++;
  AGAIN(lr_server_connect(&server, connection), LR_OK);
  int64_t taken = lr_server_feed(&server, connection, NOW, repeat.request.all, repeat.request.size);
  if (taken == LR_E_LOST) {
    CHECK(tell());
    reconnect();
    taken = lr_server_feed(&server, connection, NOW, repeat.request.all, repeat.request.size);
  }
  WANT(taken, (int64_t)repeat.request.size);
  WANT(lr_server_parked(&server), 2);
  uint64_t due = 0;
  ticket = second;
  AGAIN(two.answer(), LR_OK);
  while (lr_server_next_due(&server, &due) == 1) CHECK(due == of_second);
  is_due_or_lost(of_second, &two.reply);
  ticket = first;
  AGAIN(one.answer(), LR_OK);
  while (lr_server_next_due(&server, &due) == 1) CHECK(due <= connection);
  is_due_or_lost(connection, &repeat.reply);
  WANT(lr_server_parked(&server), 0);
  connection++;
  AGAIN(lr_server_connect(&server, connection), LR_OK);
  send_until_answered(&one); /* (it is kept, so it is not asked) */
  send_until_answered(&two);
  CHECK(one.asked == 0 && two.asked == 0);
  make_exchange(&one, 3, "c", "add", "A", returns);
  ticket = park_surely(&one);
  WANT(lr_server_refuse(&server, ticket, LR_EX_TRANSIENT, 0), LR_OK);
  struct octets refusal;
  system_reply(&refusal, 2, 3, "IDL:omg.org/CORBA/TRANSIENT:1.0", LR_COMPLETED_NO);
  is_due_or_lost(connection, &refusal);
  if (lr_server_is_closed(&server, connection) == 1) reconnect();
  says_goodbye();
  WANT(lr_server_lost(&server, connection), LR_OK);
  lr_close(&server);
}

/* ---- what is stored, and what replies carry ---- */

/* A list of one service context. */
static const unsigned char one_context[] = {0, 0, 0, 1, 0, 0, 0, LR_CONTEXT_SECURITY, 0, 0, 0, 1, 7};

/* The stored form of an exception, and service contexts for the reply, before the request is answered. */
static int64_t tells(void) {
  unsigned char body[64];
  AGAIN(lr_server_exception(&server, ticket, RAISED, SIZE(RAISED), LR_ORDER_BIG, "\0\0\0\7", 4, body, sizeof body), 24);
  AGAIN(lr_server_reply_contexts(&server, ticket, LR_ORDER_BIG, one_context, sizeof one_context), LR_OK);
  return returns();
}

/* The reply of `tells` has the context; a repeat of it has none. */
static void make_telling(struct exchange *exchange, struct octets *carried, uint32_t id) {
  make_exchange(exchange, id, "c", "add", "A", returns);
  exchange->answer = tells;
  begin_message(carried, 2, LR_ORDER_BIG, LR_MSG_REPLY);
  put_number(carried, id, 4);
  put_number(carried, LR_REPLY_NO_EXCEPTION, 4);
  put_octets(carried, one_context, sizeof one_context);
  align(carried, 8);
  put_number(carried, 6, 4);
  end_message(carried);
}

/* One request is answered so at once, and another one while it is parked. */
static void tells_more(void) {
  struct exchange exchange;
  struct octets carried;
  uint64_t due = 0;
  long lost = lost_replies;
  server = (lr_server)LR_INIT;
  connection = 1;
  open_server();
  AGAIN(lr_server_connect(&server, connection), LR_OK);
  make_telling(&exchange, &carried, 1);
  for (int tries = 0; tries < 2 && !send(&exchange); tries++) reconnect();
  int64_t size = lr_server_output(&server, connection, room, sizeof room);
  CHECK(size >= 0 && equal(room, (size_t)size, lost_replies > lost ? &exchange.reply : &carried));
  WANT(exchange.asked, 1);
  make_telling(&exchange, &carried, 2);
  ticket = park_surely(&exchange);
  AGAIN(exchange.answer(), LR_OK);
  while (lr_server_next_due(&server, &due) == 1) CHECK(due == connection);
  is_due_or_lost(connection, &carried);
  lr_close(&server);
}

/* What a server is set to, and what is exchanged with a catalogue. */
static void changes(void) {
  lr_catalogue other = LR_INIT, families = LR_INIT;
  server = (lr_server)LR_INIT;
  open_server();
  for (uint32_t what = LR_SET_MESSAGE; what <= LR_SET_CLIENT_ID; what++)
    AGAIN(lr_server_set(&server, what, what == LR_SET_PARTIALS ? 3 : 5000), LR_OK);
  AGAIN(lr_server_set(&server, LR_SET_ASK_FIRST, 1), LR_OK);
  AGAIN(lr_catalogue_open(&other), LR_OK);
  AGAIN(lr_catalogue_open(&families), LR_OK);
  AGAIN(lr_catalogue_raw_object(&families, "f/", 2), LR_OK);
  AGAIN(lr_catalogue_families(&other, &families), LR_OK);
  AGAIN(lr_catalogue_default(&other), LR_OK);
  AGAIN(lr_server_swap(&server, &other), LR_OK);
  AGAIN(lr_catalogue_remove(&other, "c", 1), LR_OK);
  AGAIN(lr_server_tick(&server, LATER), LR_OK);
  lr_close(&families);
  lr_close(&other);
  lr_close(&server);
}

/* ---- a client ---- */

static lr_client client;
static int completed[8];

/* Replies at once to each Request among octets that a client sent. False where the connection is lost then. */
static bool reply_to_all(const unsigned char *sent, size_t size) {
  struct octets reply, all = {.size = 0, .order = LR_ORDER_BIG};
  for (size_t at = 0; at + 16 <= size;) {
    size_t length = (size_t)sent[at + 10] << 8 | sent[at + 11];
    if (sent[at + 7] == LR_MSG_REQUEST) {
      begin_reply(&reply, 2, LR_ORDER_BIG, (uint32_t)sent[at + 14] << 8 | sent[at + 15], LR_REPLY_NO_EXCEPTION);
      put_number(&reply, 6, 4);
      end_message(&reply);
      put_octets(&all, reply.all, reply.size);
    }
    at += 12 + length;
  }
  int64_t answer = lr_client_feed(&client, all.all, all.size);
  if (answer == LR_E_LOST) {
    CHECK(tell());
    WANT(lr_client_is_connected(&client), 0);
    return false;
  }
  CHECK(answer >= 0);
  return true;
}

static void take_completions(void) {
  lr_completion completion;
  while (lr_client_completed(&client, &completion, sizeof completion) == 1) {
    unsigned char body[8];
    if (!CHECK(completion.call > 0 && completion.call < 8)) return;
    completed[completion.call]++;
    if (completion.how != LR_ENDED_RETURNED) continue;
    WANT(lr_client_body(&client, body, sizeof body), 4);
    CHECK(memcmp(body, "\0\0\0\6", 4) == 0);
  }
}

static void connect_client(void) {
  int64_t answer = lr_client_connected(&client, NOW);
  if (answer == LR_E_LOST) {
    CHECK(tell());
    WANT(lr_client_is_connected(&client), 0);
    WANT(lr_client_output(&client, room, sizeof room), 0);
    answer = lr_client_connected(&client, NOW);
  }
  WANT(answer, LR_OK);
  WANT(lr_client_is_connected(&client), 1);
}

static void call_add(int64_t number) {
  AGAIN(lr_client_call(&client, NOW, LATER, "c", 1, "add", 3, one_long, 1, LR_ORDER_BIG, "\0\0\0\5", 4), number);
}

static void calls(void) {
  client = (lr_client)LR_INIT;
  memset(completed, 0, sizeof completed);
  AGAIN(lr_client_open(&client, "A", 1), LR_OK);
  call_add(1);
  call_add(2);
  connect_client();
  call_add(3);
  call_add(4);
  AGAIN(lr_client_cancel(&client, 2), 1);
  int64_t size = lr_client_output(&client, room, sizeof room);
  if (!reply_to_all(room, (size_t)size)) {
    take_completions();
    connect_client();
    CHECK(reply_to_all(room, (size_t)lr_client_output(&client, room, sizeof room)));
  }
  take_completions();
  WANT(lr_client_lost(&client), LR_OK);
  call_add(5);
  WANT(lr_client_tick(&client, LATER + 1), LR_OK);
  take_completions();
  for (int call = 1; call <= 5; call++) WANT(completed[call], 1);
  lr_close(&client);
}

/* The request id of the Request that a client sent, whose id is the only one below 65536. */
static uint32_t sent_id(void) {
  int64_t size = lr_client_output(&client, room, sizeof room);
  return CHECK(size > 16) ? (uint32_t)room[14] << 8 | room[15] : 0;
}

/* A call of before is forwarded, and asked for by another key. */
static void go_on(bool is_raw) {
  lr_completion led;
  struct octets reply;
  client = (lr_client)LR_INIT;
  memset(completed, 0, sizeof completed);
  AGAIN(lr_client_open(&client, "A", 1), LR_OK);
  WANT(lr_client_set(&client, LR_CLIENT_KEEP_FORWARD, 1), LR_OK);
  WANT(lr_client_skip_to(&client, 2), LR_OK);
  AGAIN(lr_client_recall(&client, 3, NOW, LATER, "c", 1, "add", 3, one_long, 1, LR_ORDER_BIG, "\0\0\0\5", 4), LR_OK);
  connect_client();
  for (int tries = 0; lr_client_forwarded(&client, &led, sizeof led, room, sizeof room) == 0 && tries < 2; tries++) {
    begin_reply(&reply, 2, LR_ORDER_BIG, sent_id(), LR_REPLY_LOCATION_FORWARD);
    put_octets(&reply, "reference", 9);
    end_message(&reply);
    if (lr_client_feed(&client, reply.all, reply.size) != LR_E_LOST) continue;
    CHECK(tell());
    connect_client();
  }
  WANT(lr_client_forwarded(&client, &led, sizeof led, room, sizeof room), 1);
  CHECK(led.call == 3 && led.body_size == 9 && memcmp(room, "reference", 9) == 0);
  if (is_raw) {
    AGAIN(lr_client_redirect_raw(&client, 3, LR_WISH_FULL, "d", 1, "add", 3, LR_ORDER_BIG, one_context,
                                 sizeof one_context, "\0\0\0\5", 4),
          LR_OK);
  } else {
    AGAIN(lr_client_redirect(&client, 3, "d", 1, "add", 3, one_long, 1, LR_ORDER_BIG, "\0\0\0\5", 4), LR_OK);
  }
  if (lr_client_resend(&client, NOW) == LR_E_LOST) {
    CHECK(tell());
    WANT(lr_client_is_connected(&client), 0);
    connect_client();
  }
  if (!reply_to_all(room, (size_t)lr_client_output(&client, room, sizeof room))) {
    connect_client();
    CHECK(reply_to_all(room, (size_t)lr_client_output(&client, room, sizeof room)));
  }
  take_completions();
  WANT(completed[3], 1);
  lr_close(&client);
}

static void goes_on(void) { go_on(false); }

static void goes_on_raw(void) { go_on(true); }

/* A raw call with a service context, and a oneway. */
static void calls_raw(void) {
  client = (lr_client)LR_INIT;
  memset(completed, 0, sizeof completed);
  AGAIN(lr_client_open(&client, "A", 1), LR_OK);
  for (uint32_t what = LR_CLIENT_VERSION; what <= LR_CLIENT_CUTS; what++)
    AGAIN(lr_client_set(&client, what, what == LR_CLIENT_MESSAGE ? 4096 : what == LR_CLIENT_CUTS ? 1 : 2), LR_OK);
  AGAIN(lr_client_call_raw(&client, NOW, LATER, LR_WISH_FULL, "c", 1, "add", 3, LR_ORDER_BIG, one_context,
                           sizeof one_context, "\0\0\0\5", 4),
        1);
  AGAIN(lr_client_recall_raw(&client, 4, NOW, LATER, LR_WISH_NONE, "c", 1, "tell", 4, LR_ORDER_BIG, NULL, 0, NULL, 0),
        LR_OK);
  connect_client();
  if (!reply_to_all(room, (size_t)lr_client_output(&client, room, sizeof room))) {
    take_completions();
    connect_client();
    CHECK(reply_to_all(room, (size_t)lr_client_output(&client, room, sizeof room)));
  }
  take_completions();
  CHECK(completed[1] == 1 && completed[4] == 1);
  lr_close(&client);
}

/* ---- a stream ---- */

/* Feeds a request in two frames, and what it is; false where there was no memory, and the stream is at its end. */
static bool assembles(lr_assembler *assembler, const struct octets *octets) {
  lr_message head;
  uint32_t id = 0;
  AGAIN(lr_assembler_open(assembler, LIMIT, PARTIALS), LR_OK);
  for (size_t at = 0; at < octets->size;) {
    int64_t taken = lr_assembler_feed(assembler, octets->all + at, at + 5 < octets->size ? 5 : octets->size - at);
    if (taken == LR_E_STREAM) {
      CHECK(tell());
      WANT(lr_assembler_fault(assembler), LR_FAULT_MEMORY);
      WANT(lr_assembler_feed(assembler, octets->all, 1), LR_E_STREAM);
      return false;
    }
    if (!CHECK(taken > 0)) return true;
    at += (size_t)taken;
  }
  WANT(lr_assembler_message(assembler, &head, sizeof head), 1);
  CHECK(head.type == LR_MSG_REQUEST && head.request_id == 6 && head.has_client == 1 && head.contexts == 1);
  AGAIN(lr_assembler_part(assembler, LR_PART_OPERATION, room, sizeof room), (int64_t)head.operation_size);
  AGAIN(lr_assembler_part(assembler, LR_PART_CLIENT, room, sizeof room), 1);
  CHECK(lr_assembler_context(assembler, 0, &id, room, sizeof room) > 0 && id == LR_CONTEXT_FT_REQUEST);
  return true;
}

static void reads_a_stream(void) {
  lr_assembler assembler = LR_INIT;
  struct exchange exchange;
  make_exchange(&exchange, 6, "c", "add", "A", returns);
  cut(&exchange.request);
  if (!assembles(&assembler, &exchange.request)) {
    lr_close(&assembler);
    CHECK(assembles(&assembler, &exchange.request));
  }
  lr_close(&assembler);
}

/* ---- references and messages ---- */

static void refers(void) {
  lr_ior ior = LR_INIT, other = LR_INIT;
  lr_profile profile;
  uint32_t tag = 0;
  AGAIN(lr_ior_parse(&ior, REFERENCE, SIZE(REFERENCE)), LR_OK);
  AGAIN(lr_ior_print(&ior, room, sizeof room), (int64_t)SIZE(REFERENCE));
  CHECK(memcmp(room, REFERENCE, SIZE(REFERENCE)) == 0);
  AGAIN(lr_ior_profiles(&ior), 1);
  AGAIN(lr_ior_profile(&ior, 0, &profile, sizeof profile), LR_OK);
  CHECK(profile.is_iiop == 1 && profile.port == 2809 && profile.host_size == 4 && profile.key_size == 1);
  AGAIN(lr_ior_part(&ior, 0, LR_IOR_HOST, room, sizeof room), 4);
  AGAIN(lr_ior_part(&ior, 0, LR_IOR_KEY, room, sizeof room), 1);
  AGAIN(lr_ior_part(&ior, 0, LR_IOR_DATA, room, sizeof room), (int64_t)profile.data_size);
  AGAIN(lr_ior_type_id(&ior, room, sizeof room), 9);
  AGAIN(lr_ior_component(&ior, 0, 0, &tag, room, sizeof room), 4);
  AGAIN(lr_ior_iiop(&other, "IDL:C:1.0", 9, 2, "host", 4, 2809, "c", 1), LR_OK);
  lr_close(&other);
  lr_close(&ior);
}

static void writes_messages(void) {
  unsigned char ft[64];
  AGAIN(lr_write_ft(ft, sizeof ft, LR_ORDER_BIG, "A", 1, 3, LATER), 24);
  struct exchange exchange;
  make_exchange(&exchange, 3, "c", "add", "A", returns);
  AGAIN(lr_write_request(room, sizeof room, 2, LR_ORDER_BIG, 3, LR_WISH_FULL, "c", 1, "add", 3, LR_CONTEXT_FT_REQUEST,
                         ft, 24, "\0\0\0\5", 4),
        (int64_t)exchange.request.size);
  CHECK(equal(room, exchange.request.size, &exchange.request));
  AGAIN(lr_write_reply(room, sizeof room, 2, LR_ORDER_BIG, 3, LR_REPLY_NO_EXCEPTION, "\0\0\0\6", 4),
        (int64_t)exchange.reply.size);
  CHECK(equal(room, exchange.reply.size, &exchange.reply));
  AGAIN(lr_write_locate_request(room, sizeof room, 0, LR_ORDER_BIG, 7, "c", 1), 21);
  long before = made; /* (the others take no memory) */
  WANT(lr_write_cancel(room, sizeof room, 2, LR_ORDER_BIG, 7), 16);
  WANT(lr_write_locate_reply(room, sizeof room, 2, LR_ORDER_BIG, 7, 1), 20);
  WANT(lr_write_close(room, sizeof room), 12);
  WANT(lr_write_error(room, sizeof room), 12);
  CHECK(made == before);
}

/* CDR takes no memory. */
static void values_take_none(void) {
  lr_place out = {0, 0, LR_ORDER_BIG, 0}, in = out;
  uint64_t start, length;
  int64_t value = 0;
  long before = made;
  WANT(lr_put_string(room, sizeof room, &out, "text", 4), LR_OK);
  WANT(lr_put_longlong(room, sizeof room, &out, -7), LR_OK);
  WANT(lr_get_string(room, out.next, &in, &start, &length), LR_OK);
  WANT(lr_get_longlong(room, out.next, &in, &value), LR_OK);
  CHECK(value == -7 && made == before);
}

static const struct {
  const char *name;
  void (*script)(void);
} scripts[] = {{"serves", serves},
               {"parks", parks},
               {"tells_more", tells_more},
               {"changes", changes},
               {"calls_raw", calls_raw},
               {"calls", calls},
               {"goes_on", goes_on},
               {"goes_on_raw", goes_on_raw},
               {"reads_a_stream", reads_a_stream},
               {"refers", refers},
               {"writes_messages", writes_messages},
               {"values_take_none", values_take_none}};

int main(void) {
  WANT(lr_set_heap(allocate, reallocate, release), LR_OK);
  for (size_t index = 0; index < sizeof scripts / sizeof *scripts; index++) {
    refused_at = 0;
    do {
      long failed = check_failed;
      made = 0;
      was_refused = is_told = false;
      refused_at++;
      scripts[index].script();
      CHECK(live == 0);
      if (check_failed > failed) printf("%s, with allocation %ld refused\n", scripts[index].name, refused_at);
      if (live != 0) return check_end();
    } while (was_refused && check_failed == 0);
    printf("%s: %ld allocations\n", scripts[index].name, refused_at - 1);
  }
  CHECK(lost_feeds > 0 && lost_replies > 0);
  WANT(lr_set_heap(allocate, reallocate, release), LR_E_OPEN);
  return check_end();
}
