/*
 * Requests that are parked, and what else a server of 0.2 has: limits, families, exchange, counts, contexts; structs of
 * another size than today's; and raw calls of a client. What is due is compared to the octet.
 */
#include "check.h"

enum { NOW = 1000, LATER = 2000 };

#define TRANSIENT "IDL:omg.org/CORBA/TRANSIENT:1.0"
#define WRONG "IDL:C/Wrong:1.0"

static const uint8_t one_long[] = {LR_TYPE_LONG};
static unsigned char room[8192];
static struct octets message, wanted;
static lr_server server = LR_INIT;

/* A catalogue of the object `c`, with add(long) -> long, which raises Wrong { long }, and _is_a. */
static void open_catalogue(lr_catalogue *catalogue) {
  WANT(lr_catalogue_open(catalogue), LR_OK);
  WANT(lr_catalogue_object(catalogue, "c", 1), LR_OK);
  WANT(lr_catalogue_exception(catalogue, WRONG, SIZE(WRONG), one_long, 1), LR_OK);
  WANT(lr_catalogue_operation(catalogue, "c", 1, "add", 3, one_long, 1, one_long, 1), LR_OK);
  WANT(lr_catalogue_repository_ids(catalogue, "c", 1, "IDL:C:1.0", 10), LR_OK);
  WANT(lr_catalogue_raw_operation(catalogue, "c", 1, "raw", 3), LR_OK);
}

/* Opens the server anew; connections are opened by `connect`. */
static void open_server(void) {
  lr_catalogue catalogue = LR_INIT;
  lr_close(&server);
  open_catalogue(&catalogue);
  WANT(lr_server_open(&server, &catalogue, 1, 2), LR_OK);
}

static void set(uint32_t what, uint64_t value) { WANT(lr_server_set(&server, what, value), LR_OK); }

static void connect(uint64_t last) {
  for (uint64_t connection = 1; connection <= last; connection++) WANT(lr_server_connect(&server, connection), LR_OK);
}

/* A request of 1.2 with one long. Without a number it has no FT_REQUEST. */
static void make_request(uint32_t request_id, const char *key, const char *operation, int32_t number, uint32_t wish) {
  struct asking asking = {2, LR_ORDER_BIG, request_id, wish, key, operation, number != 0 ? "A" : NULL, number, LATER};
  begin_request(&message, &asking, true);
  put_number(&message, 5, 4);
  end_message(&message);
}

/* Feeds the message on a connection, and answers the ticket of what waits then; 0 where nothing does. */
static uint64_t fed(uint64_t connection) {
  lr_request asked = {.ticket = 0};
  WANT(lr_server_feed(&server, connection, NOW, message.all, message.size), (int64_t)message.size);
  lr_server_asked(&server, &asked, sizeof asked);
  return asked.ticket;
}

/* Parks a request of a number, which is to be asked, and answers its ticket. */
static uint64_t park(uint64_t connection, uint32_t request_id, int32_t number) {
  make_request(request_id, "c", "add", number, LR_WISH_FULL);
  uint64_t ticket = fed(connection);
  CHECK(ticket != 0);
  WANT(lr_server_park(&server, ticket), LR_OK);
  return ticket;
}

/* A repeat of it comes, which joins. */
static void join(uint64_t connection, uint32_t request_id, int32_t number) {
  make_request(request_id, "c", "add", number, LR_WISH_FULL);
  WANT((int64_t)fed(connection), 0);
  WANT(lr_server_output(&server, connection, room, sizeof room), 0);
}

static int64_t answer(uint64_t ticket, unsigned char result) {
  const unsigned char results[] = {0, 0, 0, result};
  return lr_server_answer(&server, ticket, LR_ORDER_BIG, results, sizeof results);
}

static void make_reply(uint32_t request_id, uint32_t result) {
  begin_reply(&wanted, 2, LR_ORDER_BIG, request_id, LR_REPLY_NO_EXCEPTION);
  put_number(&wanted, result, 4);
  end_message(&wanted);
}

/* Whether exactly the octets that are wanted are due on a connection. */
static bool is_due(uint64_t connection) {
  return equal(room, (size_t)lr_server_output(&server, connection, room, sizeof room), &wanted);
}

/* A reply is due on a connection, and nothing else. */
static void replies(uint64_t connection, uint32_t request_id, uint32_t result) {
  make_reply(request_id, result);
  CHECK(is_due(connection));
}

/* The connections that are named, as the bits of a number: each once. */
static int64_t named(void) {
  int64_t all = 0;
  uint64_t connection = 0;
  while (lr_server_next_due(&server, &connection) == 1) {
    CHECK(connection < 63 && (all >> connection & 1) == 0);
    all |= INT64_C(1) << connection;
  }
  uint64_t before = 77;
  WANT(lr_server_next_due(&server, &before), 0);
  CHECK(before == 77);
  return all;
}

/* ---- outcomes that a store of the owner keeps ---- */

static int64_t answer_unkept(uint64_t ticket, unsigned char result) {
  const unsigned char body[] = {0, 0, 0, result};
  return lr_server_answer_unkept(&server, ticket, LR_REPLY_NO_EXCEPTION, LR_ORDER_BIG, body, sizeof body);
}

/* They are told, and nothing is kept: each repeat is asked anew, one that was parked too. */
static void unkept_are_asked_again(void) {
  static const unsigned char huge[1048577];
  open_server();
  set(LR_SET_CAPACITY, 1);
  connect(3);
  for (uint32_t id = 21; id < 24; id++) {
    make_request(id, "c", "add", (int32_t)id, LR_WISH_FULL);
    for (uint64_t connection = 1; connection <= 2; connection++) {
      uint64_t ticket = fed(connection);
      WANT(lr_server_answer_unkept(&server, ticket, 4, LR_ORDER_BIG, "", 0), LR_E_RANGE);
      WANT(lr_server_answer_unkept(&server, ticket, LR_REPLY_NO_EXCEPTION, 2, "", 0), LR_E_RANGE);
      WANT(answer_unkept(ticket + 1, 9), LR_E_TICKET);
      WANT(lr_server_answer_unkept(&server, ticket, LR_REPLY_NO_EXCEPTION, LR_ORDER_BIG, huge, sizeof huge),
           LR_E_OUTCOME);
      WANT(answer_unkept(ticket, (unsigned char)id), LR_OK);
      WANT(answer_unkept(ticket, 9), LR_E_TICKET);
      replies(connection, id, id);
    }
  }
  WANT(lr_server_count(&server, LR_COUNT_KEPT), 0);
  WANT(lr_server_count(&server, LR_COUNT_ANSWERED), 6);
  uint64_t ticket = park(1, 31, 7);
  join(2, 32, 7);
  make_request(33, "c", "add", 0, LR_WISH_FULL);
  uint64_t waits = fed(3);
  WANT(answer_unkept(ticket, 7), LR_E_ASKING);
  WANT(answer_unkept(waits, 8), LR_OK);
  replies(3, 33, 8);
  WANT(answer_unkept(ticket, 7), LR_OK);
  WANT(named(), 1 << 1 | 1 << 2);
  replies(1, 31, 7);
  replies(2, 32, 7);
  WANT(lr_server_count(&server, LR_COUNT_SETTLED), 1);
  WANT(lr_server_count(&server, LR_COUNT_KEPT), 0);
  make_request(34, "c", "add", 7, LR_WISH_FULL);
  ticket = fed(2);
  WANT(lr_server_refuse(&server, ticket, LR_EX_TRANSIENT, 0), LR_OK);
  lr_close(&server);
  WANT(answer_unkept(ticket, 7), LR_E_EMPTY);
}

/* ---- parked requests ---- */

/* They are answered in another order than they came, each where it is waited for. */
static void parked_are_answered_in_any_order(void) {
  open_server();
  connect(3);
  uint64_t one = park(1, 11, 1), two = park(1, 12, 2), none = park(2, 13, 0);
  CHECK(one != two && two != none && one != none);
  join(2, 14, 1);
  join(3, 15, 1);
  join(3, 16, 2);
  WANT(lr_server_parked(&server), 3);
  WANT(lr_server_parked_of(&server, 1), 2);
  WANT(lr_server_parked_of(&server, 2), 1);
  WANT(lr_server_parked_of(&server, 3), 0);
  WANT(lr_server_parked_of(&server, 99), 0);
  WANT(lr_server_wanted(&server, one), 3);
  WANT(lr_server_wanted(&server, two), 2);
  WANT(lr_server_wanted(&server, none), 1);
  WANT(named(), 0);
  WANT(answer(none, 3), LR_OK);
  WANT(named(), 1 << 2);
  replies(2, 13, 3);
  WANT(answer(two, 2), LR_OK);
  WANT(answer(one, 1), LR_OK);
  WANT(named(), 1 << 1 | 1 << 2 | 1 << 3);
  make_reply(12, 2);
  struct octets first = wanted;
  make_reply(11, 1);
  put_octets(&first, wanted.all, wanted.size);
  wanted = first;
  CHECK(is_due(1));
  replies(2, 14, 1);
  make_reply(16, 2);
  first = wanted;
  make_reply(15, 1);
  put_octets(&first, wanted.all, wanted.size);
  wanted = first;
  CHECK(is_due(3));
  WANT(lr_server_parked(&server), 0);
  /* now they are kept, but for the one without FT_REQUEST */
  make_request(21, "c", "add", 1, LR_WISH_FULL);
  WANT((int64_t)fed(3), 0);
  replies(3, 21, 1);
  WANT(lr_server_count(&server, LR_COUNT_KEPT), 2);
}

/* Each way to answer is one of what is parked, too. */
static void parked_are_answered_each_way(void) {
  open_server();
  connect(1);
  uint64_t ticket = park(1, 1, 1);
  WANT(answer(ticket, 7), LR_OK);
  replies(1, 1, 7);
  ticket = park(1, 2, 2);
  WANT(lr_server_raise(&server, ticket, "IDL:Other:1.0", 13, LR_ORDER_BIG, "\0\0\0\7", 4), LR_E_OUTCOME);
  WANT(lr_server_answer(&server, ticket, LR_ORDER_BIG, "\0\0\0", 3), LR_E_OUTCOME);
  WANT(lr_server_answer(&server, ticket, 2, "\0\0\0\7", 4), LR_E_RANGE);
  WANT(lr_server_identify(&server, ticket), 0);
  WANT(lr_server_raise(&server, ticket, WRONG, SIZE(WRONG), LR_ORDER_LITTLE, "\7\0\0\0", 4), LR_OK);
  begin_reply(&wanted, 2, LR_ORDER_LITTLE, 2, LR_REPLY_USER_EXCEPTION);
  put_text(&wanted, WRONG);
  put_number(&wanted, 7, 4);
  end_message(&wanted);
  CHECK(is_due(1));
  ticket = park(1, 3, 3);
  WANT(lr_server_system(&server, ticket, LR_EX_THREAD_CANCELLED + 1, 0, LR_COMPLETED_NO), LR_E_RANGE);
  WANT(lr_server_system(&server, ticket, LR_EX_TIMEOUT, 0, LR_COMPLETED_MAYBE), LR_OK);
  system_reply(&wanted, 2, 3, "IDL:omg.org/CORBA/TIMEOUT:1.0", LR_COMPLETED_MAYBE);
  CHECK(is_due(1));
  make_request(4, "c", "raw", 4, LR_WISH_FULL);
  ticket = fed(1);
  WANT(lr_server_park(&server, ticket), LR_OK);
  WANT(lr_server_answer_raw(&server, ticket, LR_REPLY_NO_EXCEPTION, LR_ORDER_BIG, "\1\2\3", 3), LR_OK);
  begin_reply(&wanted, 2, LR_ORDER_BIG, 4, LR_REPLY_NO_EXCEPTION);
  put_octets(&wanted, "\1\2\3", 3);
  end_message(&wanted);
  CHECK(is_due(1));
  struct asking asking = {2, LR_ORDER_BIG, 5, LR_WISH_FULL, "c", "_is_a", NULL, 0, 0};
  begin_request(&message, &asking, true);
  put_text(&message, "IDL:C:1.0");
  end_message(&message);
  ticket = fed(1);
  WANT(lr_server_park(&server, ticket), LR_OK);
  WANT(lr_server_identify(&server, ticket), 1);
  begin_reply(&wanted, 2, LR_ORDER_BIG, 5, LR_REPLY_NO_EXCEPTION);
  put_number(&wanted, 1, 1);
  end_message(&wanted);
  CHECK(is_due(1));
  /* it is refused: each who waits hears it, and it is asked again */
  ticket = park(1, 6, 6);
  join(1, 7, 6);
  WANT(lr_server_refuse(&server, ticket, LR_EX_TRANSIENT, 0), LR_OK);
  system_reply(&wanted, 2, 6, TRANSIENT, LR_COMPLETED_NO);
  struct octets first = wanted;
  system_reply(&wanted, 2, 7, TRANSIENT, LR_COMPLETED_NO);
  put_octets(&first, wanted.all, wanted.size);
  wanted = first;
  CHECK(is_due(1));
  uint64_t again = park(1, 8, 6);
  CHECK(again != ticket);
  WANT(answer(again, 1), LR_OK);
  /* one that wishes no reply is answered too, and a repeat of it gets the outcome */
  make_request(9, "c", "add", 9, LR_WISH_NONE);
  ticket = fed(1);
  WANT(lr_server_park(&server, ticket), LR_OK);
  WANT(lr_server_wanted(&server, ticket), 0);
  lr_server_output(&server, 1, room, sizeof room);
  named();
  WANT(answer(ticket, 9), LR_OK);
  WANT(named(), 0);
  make_request(10, "c", "add", 9, LR_WISH_FULL);
  WANT((int64_t)fed(1), 0);
  replies(1, 10, 9);
}

/* The system exceptions of the standard (CORBA 3.3 Part 2, A.5), by the names that follow LR_EX_. */
#define EACH_EXCEPTION(X)                                                                                             \
  X(MARSHAL) X(BAD_CONTEXT) X(NO_RESOURCES) X(BAD_OPERATION) X(OBJECT_NOT_EXIST) X(UNKNOWN) X(BAD_PARAM)              \
  X(NO_PERMISSION) X(IMP_LIMIT) X(INTERNAL) X(TRANSIENT) X(NO_MEMORY) X(COMM_FAILURE) X(INV_OBJREF) X(INITIALIZE)     \
  X(NO_IMPLEMENT) X(BAD_TYPECODE) X(NO_RESPONSE) X(PERSIST_STORE) X(BAD_INV_ORDER) X(FREE_MEM) X(INV_IDENT)           \
  X(INV_FLAG) X(INTF_REPOS) X(OBJ_ADAPTER) X(DATA_CONVERSION) X(TRANSACTION_REQUIRED) X(TRANSACTION_ROLLEDBACK)       \
  X(INVALID_TRANSACTION) X(INV_POLICY) X(CODESET_INCOMPATIBLE) X(REBIND) X(TIMEOUT) X(TRANSACTION_UNAVAILABLE)        \
  X(TRANSACTION_MODE) X(BAD_QOS) X(INVALID_ACTIVITY) X(ACTIVITY_COMPLETED) X(ACTIVITY_REQUIRED) X(THREAD_CANCELLED)

/* Each is the outcome of a request, and what another one is refused by. */
static void each_exception_has_its_name(void) {
  static const struct {
    uint32_t name;
    const char *id;
  } all[] = {
#define NAMED(name) {LR_EX_##name, "IDL:omg.org/CORBA/" #name ":1.0"},
      EACH_EXCEPTION(NAMED)};
  open_server();
  connect(1);
  for (uint32_t index = 0; index < sizeof all / sizeof *all; index++) {
    make_request(index, "c", "add", 0, LR_WISH_FULL);
    WANT(lr_server_system(&server, fed(1), all[index].name, 0, LR_COMPLETED_YES), LR_OK);
    system_reply(&wanted, 2, index, all[index].id, LR_COMPLETED_YES);
    CHECK(is_due(1));
    WANT(lr_server_refuse(&server, fed(1), all[index].name, 0), LR_OK);
    system_reply(&wanted, 2, index, all[index].id, LR_COMPLETED_NO);
    CHECK(is_due(1));
  }
  WANT((int64_t)(sizeof all / sizeof *all), LR_EX_THREAD_CANCELLED + 1);
}

/* What each call answers that takes the ticket of nothing that waits or is parked. */
static void no_ticket(uint64_t ticket) {
  WANT(answer(ticket, 1), LR_E_TICKET);
  WANT(lr_server_answer(&server, ticket, 2, NULL, 0), LR_E_RANGE);
  WANT(lr_server_raise(&server, ticket, WRONG, SIZE(WRONG), LR_ORDER_BIG, "\0\0\0\7", 4), LR_E_TICKET);
  WANT(lr_server_system(&server, ticket, LR_EX_UNKNOWN, 0, LR_COMPLETED_NO), LR_E_TICKET);
  WANT(lr_server_answer_raw(&server, ticket, LR_REPLY_NO_EXCEPTION, LR_ORDER_BIG, NULL, 0), LR_E_TICKET);
  WANT(lr_server_identify(&server, ticket), LR_E_TICKET);
  WANT(lr_server_refuse(&server, ticket, LR_EX_TRANSIENT, 0), LR_E_TICKET);
  WANT(lr_server_wanted(&server, ticket), LR_E_TICKET);
  WANT(lr_server_part(&server, ticket, LR_PART_KEY, room, sizeof room), LR_E_TICKET);
}

/* Tickets that are late, given twice, of another server, and none. */
static void other_tickets_are_refused(void) {
  lr_server first = LR_INIT;
  open_server();
  connect(2);
  uint64_t foreign = 0;
  for (int32_t number = 1; number <= 5; number++) foreign = park(1, (uint32_t)number, number);
  first = server; /* (it is moved) */
  server = (lr_server)LR_INIT;
  open_server();
  connect(2);
  uint64_t ticket = park(1, 1, 1);
  no_ticket(0);
  no_ticket(ticket + 1);
  no_ticket(UINT64_MAX);
  if (foreign != ticket) no_ticket(foreign);
  WANT(answer(ticket, 1), LR_OK);
  no_ticket(ticket); /* it was answered */
  WANT(lr_server_park(&server, ticket), LR_E_IDLE);
  ticket = park(1, 2, 2);
  WANT(lr_server_refuse(&server, ticket, LR_EX_TRANSIENT, 0), LR_OK);
  no_ticket(ticket); /* it was refused */
  make_request(3, "c", "add", 3, LR_WISH_FULL);
  ticket = fed(1);
  WANT(lr_server_give_up(&server, ticket), LR_OK);
  no_ticket(ticket); /* it was given up */
  lr_close(&first);
}

/* While one waits what is parked stays so, and nothing else comes in. */
static void parked_wait_for_what_waits(void) {
  open_server();
  connect(2);
  uint64_t parked = park(1, 1, 1);
  make_request(2, "c", "add", 2, LR_WISH_FULL);
  uint64_t waits = fed(2);
  CHECK(waits != 0 && waits != parked);
  WANT(answer(parked, 1), LR_E_ASKING);
  WANT(lr_server_answer(&server, parked, 2, NULL, 0), LR_E_RANGE);
  WANT(lr_server_raise(&server, parked, WRONG, SIZE(WRONG), LR_ORDER_BIG, "\0\0\0\7", 4), LR_E_ASKING);
  WANT(lr_server_system(&server, parked, LR_EX_UNKNOWN, 0, LR_COMPLETED_NO), LR_E_ASKING);
  WANT(lr_server_answer_raw(&server, parked, LR_REPLY_NO_EXCEPTION, LR_ORDER_BIG, NULL, 0), LR_E_ASKING);
  WANT(lr_server_identify(&server, parked), LR_E_ASKING);
  WANT(lr_server_refuse(&server, parked, LR_EX_TRANSIENT, 0), LR_E_ASKING);
  WANT(lr_server_park(&server, parked), LR_E_TICKET);
  WANT(lr_server_give_up(&server, parked), LR_E_TICKET);
  WANT(lr_server_goodbye(&server, parked), LR_E_TICKET);
  WANT(lr_server_wanted(&server, waits), LR_E_TICKET);
  WANT(lr_server_wanted(&server, parked), 1);
  WANT(lr_server_parked(&server), 1);
  /* the parts of both can be read */
  for (int times = 0; times < 2; times++) {
    uint64_t ticket = times == 0 ? parked : waits;
    WANT(lr_server_part(&server, ticket, LR_PART_KEY, room, sizeof room), 1);
    WANT(lr_server_part(&server, ticket, LR_PART_OPERATION, room, sizeof room), 3);
    CHECK(memcmp(room, "add", 3) == 0);
    WANT(lr_server_part(&server, ticket, LR_PART_BODY, room, sizeof room), 4);
    CHECK(memcmp(room, "\0\0\0\5", 4) == 0);
    WANT(lr_server_part(&server, ticket, LR_PART_CLIENT, room, sizeof room), 1);
    WANT(lr_server_part(&server, ticket, LR_PART_PAYLOAD, room, sizeof room), LR_E_NONE);
  }
  WANT(answer(waits, 2), LR_OK);
  replies(2, 2, 2);
  WANT(named(), 0); /* (it was answered at once) */
  WANT(answer(parked, 1), LR_OK);
  WANT(named(), 1 << 1);
  replies(1, 1, 1);
}

/* As many are parked as may be, in all and of a connection; the next waits still. */
static void places_are_limited(void) {
  open_server();
  set(LR_SET_PARKED, 3);
  set(LR_SET_PARKED_OF, 2);
  set(LR_SET_JOINED, 1);
  connect(3);
  uint64_t one = park(1, 1, 1);
  park(1, 2, 2);
  make_request(3, "c", "add", 3, LR_WISH_FULL);
  uint64_t ticket = fed(1);
  WANT(lr_server_park(&server, ticket), LR_E_PARKS);
  WANT(answer(ticket, 3), LR_OK);
  replies(1, 3, 3);
  park(2, 4, 4);
  make_request(5, "c", "add", 5, LR_WISH_FULL);
  ticket = fed(3);
  WANT(lr_server_park(&server, ticket), LR_E_PARKS);
  WANT(lr_server_refuse(&server, ticket, LR_EX_TRANSIENT, 0), LR_OK);
  lr_server_output(&server, 3, room, sizeof room);
  /* one more than the last joins; who comes then hears that it may have been performed */
  join(2, 6, 1);
  make_request(7, "c", "add", 1, LR_WISH_FULL);
  WANT((int64_t)fed(2), 0);
  system_reply(&wanted, 2, 7, TRANSIENT, LR_COMPLETED_MAYBE);
  CHECK(is_due(2));
  WANT(lr_server_wanted(&server, one), 2);
  WANT(answer(one, 1), LR_OK);
  WANT(named(), 1 << 1 | 1 << 2);
  replies(1, 1, 1);
  replies(2, 6, 1);
  CHECK(park(3, 8, 8) != 0); /* there is a place again */
  open_server();
  set(LR_SET_PARKED, 0);
  connect(1);
  make_request(1, "c", "add", 1, LR_WISH_FULL);
  ticket = fed(1);
  WANT(lr_server_park(&server, ticket), LR_E_PARKS);
  WANT(answer(ticket, 1), LR_OK);
}

/* The connection is lost, or the expiration passes: it is answered all the same, and only once. */
static void parked_outlive(void) {
  open_server();
  connect(2);
  uint64_t one = park(1, 1, 1), two = park(1, 2, 2);
  join(2, 3, 2);
  WANT(lr_server_lost(&server, 1), LR_OK);
  WANT(lr_server_parked(&server), 2);
  WANT(lr_server_wanted(&server, one), 0);
  WANT(lr_server_wanted(&server, two), 1);
  WANT(answer(one, 1), LR_OK);
  WANT(named(), 0);
  WANT(answer(two, 2), LR_OK);
  WANT(named(), 1 << 2);
  replies(2, 3, 2);
  make_request(4, "c", "add", 1, LR_WISH_FULL);
  WANT((int64_t)fed(2), 0);
  replies(2, 4, 1); /* (its outcome was kept) */
  one = park(2, 5, 5);
  WANT(lr_server_tick(&server, LATER + 1), LR_OK);
  WANT(lr_server_wanted(&server, one), 1);
  WANT(answer(one, 5), LR_OK);
  replies(2, 5, 5);
  WANT(lr_server_count(&server, LR_COUNT_KEPT), 0);
}

/* A CancelRequest changes nothing, neither for the one that asked nor for a repeat that joined. */
static void parked_are_not_cancelled(void) {
  open_server();
  connect(2);
  uint64_t ticket = park(1, 7, 1);
  join(2, 8, 1);
  for (uint64_t connection = 1; connection <= 2; connection++) {
    begin_message(&message, 2, LR_ORDER_BIG, LR_MSG_CANCEL_REQUEST);
    put_number(&message, 6 + connection, 4);
    end_message(&message);
    WANT((int64_t)fed(connection), 0);
    WANT(lr_server_output(&server, connection, room, sizeof room), 0);
    WANT(lr_server_is_closed(&server, connection), 0);
  }
  WANT(lr_server_wanted(&server, ticket), 2);
  WANT(answer(ticket, 1), LR_OK);
  WANT(named(), 1 << 1 | 1 << 2);
  replies(1, 7, 1);
  replies(2, 8, 1);
}

/* ---- what is due ---- */

/* While so much is due on a connection no more is taken of it; others are fed. */
static void due_is_limited(void) {
  open_server();
  set(LR_SET_DUE, 28); /* one reply */
  connect(2);
  struct octets all = {.size = 0};
  for (uint32_t id = 1; id <= 3; id++) {
    make_request(id, "c", "add", 1, LR_WISH_FULL);
    put_octets(&all, message.all, message.size);
  }
  int64_t one = (int64_t)message.size, size = (int64_t)all.size;
  WANT(lr_server_feed(&server, 1, NOW, all.all, all.size), one);
  lr_request asked = {.ticket = 0};
  WANT(lr_server_asked(&server, &asked, sizeof asked), 1);
  WANT(answer(asked.ticket, 7), LR_OK);
  for (int times = 0; times < 2; times++) WANT(lr_server_feed(&server, 1, NOW, all.all + one, (size_t)(size - one)), 0);
  WANT(lr_server_output(&server, 1, room, 5), 5);
  int64_t taken = lr_server_feed(&server, 1, NOW, all.all + one, (size_t)(size - one));
  WANT(taken, one); /* less was due, and now there is more */
  WANT(lr_server_feed(&server, 1, NOW, all.all + 2 * one, (size_t)one), 0);
  make_request(9, "c", "add", 1, LR_WISH_FULL);
  WANT((int64_t)fed(2), 0);
  replies(2, 9, 7);
  WANT(lr_server_output(&server, 1, room, sizeof room), 23 + 28);
  WANT(lr_server_feed(&server, 1, NOW, all.all + 2 * one, (size_t)one), one);
  replies(1, 3, 7);
}

/* ---- what is on offer ---- */

/* The key and the rawness of what a request to a key asks, which is refused then; whether it was asked. */
static bool leads_to(const char *key, bool is_raw) {
  lr_request asked = {.ticket = 0};
  make_request(1, key, "add", 0, LR_WISH_FULL);
  WANT(lr_server_feed(&server, 1, NOW, message.all, message.size), (int64_t)message.size);
  if (lr_server_asked(&server, &asked, sizeof asked) == 0) {
    CHECK(lr_server_output(&server, 1, room, sizeof room) > 0);
    return false;
  }
  CHECK(asked.is_raw == (is_raw ? 1 : 0));
  WANT(lr_server_part(&server, asked.ticket, LR_PART_KEY, room, sizeof room), (int64_t)strlen(key));
  CHECK(memcmp(room, key, strlen(key)) == 0);
  WANT(lr_server_refuse(&server, asked.ticket, LR_EX_TRANSIENT, 0), LR_OK);
  CHECK(lr_server_output(&server, 1, room, sizeof room) > 0);
  return true;
}

static void families_lead_many_keys(void) {
  lr_catalogue catalogue = LR_INIT, families = LR_INIT, other = LR_INIT;
  lr_close(&server);
  open_catalogue(&catalogue);
  WANT(lr_catalogue_open(&families), LR_OK);
  WANT(lr_catalogue_object(&families, "account/", 8), LR_OK);
  WANT(lr_catalogue_operation(&families, "account/", 8, "add", 3, one_long, 1, one_long, 1), LR_OK);
  WANT(lr_catalogue_raw_object(&families, "account/raw/", 12), LR_OK);
  WANT(lr_catalogue_families(&catalogue, &other), LR_E_EMPTY);
  WANT(lr_catalogue_families(&catalogue, &families), LR_OK);
  CHECK(families.kind != 0);
  WANT(lr_catalogue_remove(&families, "account/", 8), LR_E_OBJECT); /* (it has none left) */
  lr_close(&families);
  WANT(lr_catalogue_open(&other), LR_OK);
  WANT(lr_catalogue_families(&catalogue, &other), LR_E_TAKEN);
  CHECK(other.kind != 0);
  lr_close(&other);
  WANT(lr_server_open(&server, &catalogue, 1, 2), LR_OK);
  connect(1);
  CHECK(leads_to("c", false) && leads_to("account/", false) && leads_to("account/7", false));
  CHECK(leads_to("account/raw/7", true) && leads_to("account/raw/", true) && leads_to("account/raw", false));
  CHECK(!leads_to("account", false) && !leads_to("d", false) && !leads_to("cc", false));
  /* what is on offer is exchanged, with a default object */
  WANT(lr_catalogue_open(&other), LR_OK);
  WANT(lr_catalogue_default(&other), LR_OK);
  WANT(lr_catalogue_default(&other), LR_E_TAKEN);
  WANT(lr_catalogue_object(&other, "d", 1), LR_OK);
  WANT(lr_catalogue_operation(&other, "d", 1, "add", 3, one_long, 1, one_long, 1), LR_OK);
  WANT(lr_server_swap(&server, &other), LR_OK);
  CHECK(leads_to("d", false) && leads_to("c", true) && leads_to("account/7", true) && leads_to("", true));
  /* .. and back, without the object `c` */
  WANT(lr_catalogue_remove(&other, "e", 1), LR_E_OBJECT);
  WANT(lr_catalogue_remove(&other, "account/", 8), LR_E_OBJECT);
  WANT(lr_catalogue_remove(&other, "c", 1), LR_OK);
  WANT(lr_catalogue_remove(&other, "c", 1), LR_E_OBJECT);
  WANT(lr_server_swap(&server, &other), LR_OK);
  CHECK(!leads_to("c", false) && leads_to("account/7", false) && !leads_to("d", false));
  lr_close(&other);
}

/* What is kept stays, and what is parked is answered by its operation as it is on offer then, or a system exception. */
static void offers_change_while_requests_are_parked(void) {
  lr_catalogue other = LR_INIT;
  open_server();
  connect(1);
  uint64_t one = park(1, 1, 1), two = park(1, 2, 2);
  make_request(3, "c", "add", 3, LR_WISH_FULL);
  WANT(answer(fed(1), 3), LR_OK);
  replies(1, 3, 3);
  WANT(lr_catalogue_open(&other), LR_OK);
  WANT(lr_server_swap(&server, &other), LR_OK);
  WANT(answer(one, 1), LR_E_OUTCOME);
  WANT(lr_server_system(&server, one, LR_EX_OBJECT_NOT_EXIST, 0, LR_COMPLETED_NO), LR_OK);
  system_reply(&wanted, 2, 1, "IDL:omg.org/CORBA/OBJECT_NOT_EXIST:1.0", LR_COMPLETED_NO);
  CHECK(is_due(1));
  WANT(lr_server_swap(&server, &other), LR_OK);
  WANT(answer(two, 2), LR_OK);
  replies(1, 2, 2);
  make_request(4, "c", "add", 3, LR_WISH_FULL);
  WANT((int64_t)fed(1), 0);
  replies(1, 4, 3);
  lr_close(&other);
}

/* ---- what a server says ---- */

/* A request of the operation `raw` with a service context, and one of code sets without octets. */
static void begin_with_context(uint32_t id, const void *data, size_t size) {
  begin_message(&message, 2, LR_ORDER_BIG, LR_MSG_REQUEST);
  put_number(&message, 1, 4);
  put_number(&message, 3, 1);
  put_zeros(&message, 3);
  put_number(&message, 0, 2);
  put_sequence(&message, "c", 1);
  put_text(&message, "raw");
  put_number(&message, 2, 4);
  put_number(&message, id, 4);
  put_sequence(&message, data, size);
  put_number(&message, LR_CONTEXT_CODE_SETS, 4);
  put_sequence(&message, "", 0);
  end_message(&message);
}

static void counts_are_told(void) {
  static const unsigned char locate[] = {'G', 'I', 'O', 'P', 1, 0, 0, 3, 0, 0, 0, 9, 0, 0, 0, 5, 0, 0, 0, 1, 'c'};
  static const int64_t all[] = {
      4, 3, 1, /* connections that were not lost, what is kept or to come, what is parked */
      5, 1, 1, 1, 1, 1, 0, 1, 1, 0, 1, 2, 1, 1, 1, 0,
  };
  open_server();
  set(LR_SET_SHARE, 3);
  connect(4);
  make_request(1, "c", "add", 1, LR_WISH_FULL);
  WANT(answer(fed(1), 1), LR_OK);
  WANT((int64_t)fed(1), 0); /* repeated */
  lr_server_output(&server, 1, room, sizeof room);
  uint64_t ticket = park(1, 2, 2);
  join(1, 3, 2);
  WANT(answer(ticket, 2), LR_OK); /* settled */
  make_request(5, "c", "add", 5, LR_WISH_FULL);
  WANT(lr_server_refuse(&server, fed(1), LR_EX_TRANSIENT, 0), LR_OK); /* declined */
  make_request(7, "c", "add", 7, LR_WISH_FULL);
  WANT(lr_server_give_up(&server, fed(3)), LR_OK); /* given up */
  park(2, 4, 4);
  make_request(8, "c", "add", 8, LR_WISH_FULL);
  WANT((int64_t)fed(4), 0); /* the share is used up */
  make_request(6, "c", "no", 0, LR_WISH_FULL);
  WANT((int64_t)fed(1), 0); /* invalid */
  WANT(lr_server_feed(&server, 4, NOW, locate, sizeof locate), sizeof locate);
  struct asking asking = {2, LR_ORDER_BIG, 9, LR_WISH_FULL, "c", "add", "A", 9, NOW - 1};
  begin_request(&message, &asking, true);
  put_number(&message, 5, 4);
  end_message(&message);
  WANT((int64_t)fed(4), 0); /* expired */
  begin_with_context(LR_CONTEXT_FT_REQUEST, "\0", 1);
  WANT((int64_t)fed(4), 0); /* malformed */
  for (uint32_t what = 0; what < sizeof all / sizeof *all; what++)
    if (!WANT(lr_server_count(&server, what), all[what])) printf("count %d\n", (int)what);
  WANT(lr_server_count(&server, LR_COUNT_WITHDRAWN + 1), LR_E_RANGE);
  uint64_t moment = 77;
  WANT(lr_server_next_expiry(&server, &moment), 1);
  CHECK(moment == LATER);
  WANT(lr_server_held_by(&server, "A", 1), 3);
  WANT(lr_server_held_by(&server, "B", 1), 0);
  WANT(lr_server_held_by(&server, NULL, 0), 0);
  WANT(lr_server_tick(&server, LATER), LR_OK);
  WANT(lr_server_held_by(&server, "A", 1), 3);
  WANT(lr_server_tick(&server, LATER + 1), LR_OK);
  WANT(lr_server_held_by(&server, "A", 1), 0);
  moment = 77;
  WANT(lr_server_next_expiry(&server, &moment), 0);
  CHECK(moment == 77);
}

/* The service contexts of a request, and none of one that waits no more. */
static void contexts_are_read(void) {
  lr_request asked;
  uint32_t id = 77;
  open_server();
  connect(1);
  begin_with_context(LR_CONTEXT_SECURITY, "who", 3);
  uint64_t ticket = fed(1);
  WANT(lr_server_asked(&server, &asked, sizeof asked), 1);
  CHECK(asked.contexts == 2 && asked.has_client == 0);
  WANT(lr_server_context(&server, 0, &id, room, sizeof room), 3);
  CHECK(id == LR_CONTEXT_SECURITY && memcmp(room, "who", 3) == 0);
  WANT(lr_server_context(&server, 0, &id, room, 1), 3);
  WANT(lr_server_context(&server, 1, &id, NULL, 0), 0);
  CHECK(id == LR_CONTEXT_CODE_SETS);
  id = 77;
  WANT(lr_server_context(&server, 2, &id, room, sizeof room), LR_E_NONE);
  CHECK(id == 77);
  WANT(lr_server_park(&server, ticket), LR_OK);
  WANT(lr_server_context(&server, 0, &id, room, sizeof room), LR_E_IDLE);
}

/* A request with a client's id that is longer than is allowed is answered BAD_CONTEXT. */
static void ids_are_limited(void) {
  open_server();
  set(LR_SET_CLIENT_ID, 3);
  connect(1);
  for (int times = 0; times < 2; times++) {
    struct asking asking = {2, LR_ORDER_BIG, 1, LR_WISH_FULL, "c", "add", times == 0 ? "abc" : "abcd", 1, LATER};
    begin_request(&message, &asking, true);
    put_number(&message, 5, 4);
    end_message(&message);
    uint64_t ticket = fed(1);
    CHECK((ticket != 0) == (times == 0));
    if (ticket != 0) WANT(answer(ticket, 1), LR_OK);
  }
  WANT(lr_server_held_by(&server, "abc", 3), 1);
  WANT(lr_server_count(&server, LR_COUNT_INVALID), 1);
}

/* ---- structs of another size ---- */

/* A struct that is filled by a call of so many octets of it: its front is that of the whole, and behind it is nothing.
 */
#define FRONTS(type, call)                                                                                      \
  do {                                                                                                          \
    unsigned char some[sizeof(type) + 16];                                                                      \
    type whole;                                                                                                 \
    memset(&whole, 0, sizeof whole);                                                                            \
    {                                                                                                           \
      type *at = &whole;                                                                                        \
      size_t size = sizeof whole;                                                                               \
      CHECK((call) >= 0);                                                                                       \
    }                                                                                                           \
    for (size_t size = 0; size <= sizeof some - 8; size++) {                                                    \
      type *at = (void *)some;                                                                                  \
      memset(some, 0xee, sizeof some);                                                                          \
      CHECK((call) >= 0);                                                                                       \
      size_t front = size < sizeof whole ? size : sizeof whole;                                                 \
      CHECK(memcmp(some, &whole, front) == 0);                                                                  \
      for (size_t index = front; index < sizeof some; index++) CHECK(some[index] == (index < size ? 0 : 0xee)); \
    }                                                                                                           \
  } while (0)

static void structs_have_the_callers_size(void) {
  lr_assembler assembler = LR_INIT;
  lr_client client = LR_INIT;
  lr_ior ior = LR_INIT;
  open_server();
  connect(1);
  make_request(7, "c", "add", 3, LR_WISH_FULL);
  CHECK(fed(1) != 0);
  FRONTS(lr_request, lr_server_asked(&server, at, size));
  WANT(lr_assembler_open(&assembler, 4096, 2), LR_OK);
  WANT(lr_assembler_feed(&assembler, message.all, message.size), (int64_t)message.size);
  FRONTS(lr_message, lr_assembler_message(&assembler, at, size));
  WANT(lr_ior_parse(&ior, REFERENCE, SIZE(REFERENCE)), LR_OK);
  FRONTS(lr_profile, lr_ior_profile(&ior, 0, at, size));
  WANT(lr_client_open(&client, "A", 1), LR_OK);
  WANT(lr_client_set(&client, LR_CLIENT_KEEP_FORWARD, 1), LR_OK);
  WANT(lr_client_connected(&client, NOW), LR_OK);
  WANT(lr_client_call(&client, NOW, LATER, "c", 1, "add", 3, one_long, 1, LR_ORDER_BIG, "\0\0\0\5", 4), 1);
  CHECK(lr_client_output(&client, room, sizeof room) > 0);
  uint32_t id = (uint32_t)room[14] << 8 | room[15];
  begin_reply(&wanted, 2, LR_ORDER_LITTLE, id, LR_REPLY_LOCATION_FORWARD);
  align(&wanted, 8);
  put_octets(&wanted, "elsewhere", 9);
  end_message(&wanted);
  WANT(lr_client_feed(&client, wanted.all, wanted.size), (int64_t)wanted.size);
  FRONTS(lr_completion, lr_client_forwarded(&client, at, size, room, sizeof room));
  lr_completion whole, part;
  memset(&part, 0xee, sizeof part);
  for (int32_t call = 2; call <= 3; call++) {
    WANT(lr_client_call(&client, NOW, LATER, "c", 1, "add", 3, one_long, 1, LR_ORDER_BIG, "\0\0\0\5", 4), call);
    WANT(lr_client_cancel(&client, call), 1);
  }
  WANT(lr_client_completed(&client, &part, 20), 1);
  WANT(lr_client_completed(&client, &whole, sizeof whole), 1);
  CHECK(part.call == 2 && whole.call == 3 && part.how == (uint32_t)0xeeeeeeee && whole.how == LR_ENDED_CANCELLED);
  WANT(lr_client_completed(&client, &part, 0), 0);
  lr_close(&assembler);
  lr_close(&client);
  lr_close(&ior);
}

/* ---- raw calls ---- */

/* What a client sends, read: its wish, its body, its contexts, and of which call it is. */
static void sends(lr_client *client, int32_t call, uint32_t version, uint32_t wish, uint32_t contexts) {
  lr_assembler assembler = LR_INIT;
  lr_message said = {.type = 9};
  uint32_t id = 77;
  int64_t size = lr_client_output(client, room, sizeof room);
  WANT(lr_assembler_open(&assembler, 4096, 2), LR_OK);
  WANT(lr_assembler_feed(&assembler, room, (size_t)size), size);
  WANT(lr_assembler_message(&assembler, &said, sizeof said), 1);
  CHECK(said.type == LR_MSG_REQUEST && said.version == version && said.wish == wish && said.order == LR_ORDER_LITTLE);
  CHECK(said.retention_id == call && said.has_client == 1 && said.contexts == contexts + 1 && said.body_at % 8 == 0);
  WANT(lr_assembler_part(&assembler, LR_PART_BODY, room, sizeof room), 4);
  CHECK(memcmp(room, "body", 4) == 0);
  if (contexts == 1) {
    bool is_there = false;
    for (uint32_t index = 0; index < 2; index++) {
      size = lr_assembler_context(&assembler, index, &id, room, sizeof room);
      is_there = is_there || (id == LR_CONTEXT_SECURITY && size == 3 && memcmp(room, "who", 3) == 0);
    }
    CHECK(is_there);
  }
  lr_close(&assembler);
}

#define RAW(wish, order, contexts, size) \
  lr_client_call_raw(&client, NOW, LATER, (wish), "ccccc", 5, "add", 3, (order), (contexts), (size), "body", 4)
#define RECALL(call, wish) \
  lr_client_recall_raw(&client, (call), NOW, LATER, (wish), "ccccc", 5, "add", 3, LR_ORDER_LITTLE, NULL, 0, "body", 4)

static void raw_calls_are_made(void) {
  static const unsigned char contexts[] = {1, 0, 0, 0, LR_CONTEXT_SECURITY, 0, 0, 0, 3, 0, 0, 0, 'w', 'h', 'o'},
                             ft[] = {1, 0, 0, 0, LR_CONTEXT_FT_REQUEST, 0, 0, 0, 1, 0, 0, 0, 0};
  lr_client client = LR_INIT;
  lr_completion completion;
  WANT(lr_client_open(&client, "A", 1), LR_OK);
  WANT(lr_client_connected(&client, NOW), LR_OK);
  WANT(RAW(3, LR_ORDER_LITTLE, NULL, 0), LR_E_RANGE);
  WANT(RAW(LR_WISH_FULL, 2, NULL, 0), LR_E_RANGE);
  WANT(RAW(LR_WISH_FULL, LR_ORDER_LITTLE, contexts, sizeof contexts - 1), LR_E_SHORT);
  WANT(RAW(LR_WISH_FULL, LR_ORDER_LITTLE, ft, sizeof ft), LR_E_VALUE);
  WANT(lr_client_call_raw(&client, NOW, NOW - 1, LR_WISH_FULL, "c", 1, "add", 3, 0, NULL, 0, NULL, 0), LR_E_EXPIRED);
  WANT(lr_client_call_raw(&client, NOW, LATER, LR_WISH_FULL, "c", 1, "a\0", 2, 0, NULL, 0, NULL, 0), LR_E_TEXT);
  WANT(RAW(LR_WISH_FULL, LR_ORDER_LITTLE, NULL, 0), 1);
  sends(&client, 1, 2, LR_WISH_FULL, 0);
  WANT(RAW(LR_WISH_EMPTY, LR_ORDER_LITTLE, contexts, sizeof contexts), 2);
  sends(&client, 2, 2, LR_WISH_EMPTY, 1);
  WANT(lr_client_completed(&client, &completion, sizeof completion), 0);
  WANT(RAW(LR_WISH_NONE, LR_ORDER_LITTLE, NULL, 0), 3);
  sends(&client, 3, 2, LR_WISH_NONE, 0);
  WANT(lr_client_completed(&client, &completion, sizeof completion), 1);
  CHECK(completion.call == 3 && completion.how == LR_ENDED_SENT && completion.body_size == 0);
  WANT(RECALL(3, LR_WISH_FULL), LR_E_TAKEN);
  WANT(RECALL(INT64_C(1) << 31, LR_WISH_FULL), LR_E_RANGE);
  WANT(RECALL(9, LR_WISH_FULL), LR_OK);
  sends(&client, 9, 2, LR_WISH_FULL, 0);
  WANT(lr_client_lost(&client), LR_OK);
  WANT(RAW(LR_WISH_NONE, LR_ORDER_LITTLE, NULL, 0), 10);
  WANT(lr_client_completed(&client, &completion, sizeof completion), 0); /* (it is not sent yet) */
  lr_close(&client);

  WANT(lr_client_open(&client, "A", 1), LR_OK);
  WANT(lr_client_set(&client, LR_CLIENT_VERSION, 1), LR_OK);
  WANT(RAW(LR_WISH_EMPTY, LR_ORDER_LITTLE, NULL, 0), LR_E_RANGE);
  lr_close(&client);
}

int main(void) {
  parked_are_answered_in_any_order();
  parked_are_answered_each_way();
  each_exception_has_its_name();
  other_tickets_are_refused();
  parked_wait_for_what_waits();
  places_are_limited();
  parked_outlive();
  parked_are_not_cancelled();
  due_is_limited();
  families_lead_many_keys();
  offers_change_while_requests_are_parked();
  counts_are_told();
  contexts_are_read();
  ids_are_limited();
  structs_have_the_callers_size();
  raw_calls_are_made();
  unkept_are_asked_again();
  lr_close(&server);
  return check_end();
}
