/*
 * Connections that end: goodbye, which waits for the replies that are due there, and why each ended. What is due is
 * compared to the octet.
 */
#include "check.h"

enum { NOW = 1000, LATER = 2000 };

static const uint8_t one_long[] = {LR_TYPE_LONG};
static const unsigned char goodbye[] = {'G', 'I', 'O', 'P', 1, 0, 0, 5, 0, 0, 0, 0};
static unsigned char room[8192];
static struct octets message, wanted;
static lr_server server = LR_INIT;

/* Opens the server anew, with the object `c`, which has add(long) -> long, and so many connections. */
static void open_server(uint64_t last) {
  lr_catalogue catalogue = LR_INIT;
  lr_close(&server);
  WANT(lr_catalogue_open(&catalogue), LR_OK);
  WANT(lr_catalogue_object(&catalogue, "c", 1), LR_OK);
  WANT(lr_catalogue_operation(&catalogue, "c", 1, "add", 3, one_long, 1, one_long, 1), LR_OK);
  WANT(lr_server_open(&server, &catalogue, 1, 2), LR_OK);
  for (uint64_t connection = 1; connection <= last; connection++) WANT(lr_server_connect(&server, connection), LR_OK);
}

/* A request of 1.2 with one long. Without a number it has no FT_REQUEST. */
static void make_request(uint32_t request_id, int32_t number, uint32_t wish) {
  struct asking asking = {2, LR_ORDER_BIG, request_id, wish, "c", "add", number != 0 ? "A" : NULL, number, LATER};
  begin_request(&message, &asking, true);
  put_number(&message, 5, 4);
  end_message(&message);
}

/* Feeds the message on a connection, and answers the ticket of what waits then; 0 where nothing does. */
static uint64_t fed(uint64_t connection) {
  lr_request asked = {.ticket = 0};
  WANT(lr_server_feed(&server, connection, NOW, message.all, message.size), (int64_t)message.size);
  lr_server_asked(&server, &asked, sizeof asked);
  return asked.ticket;
}

/* Parks a request of a number, which is to be asked, and answers its ticket. */
static uint64_t park(uint64_t connection, uint32_t request_id, int32_t number, uint32_t wish) {
  make_request(request_id, number, wish);
  uint64_t ticket = fed(connection);
  CHECK(ticket != 0);
  WANT(lr_server_park(&server, ticket), LR_OK);
  return ticket;
}

/* A repeat of it comes, which joins. */
static void join(uint64_t connection, uint32_t request_id, int32_t number) {
  make_request(request_id, number, LR_WISH_FULL);
  WANT((int64_t)fed(connection), 0);
}

static int64_t answer(uint64_t ticket, unsigned char result) {
  const unsigned char results[] = {0, 0, 0, result};
  return lr_server_answer(&server, ticket, LR_ORDER_BIG, results, sizeof results);
}

static void make_reply(uint32_t request_id, uint32_t result) {
  begin_reply(&wanted, 2, LR_ORDER_BIG, request_id, LR_REPLY_NO_EXCEPTION);
  put_number(&wanted, result, 4);
  end_message(&wanted);
}

/* Exactly the octets that are wanted are due on a connection. */
static void is_due(uint64_t connection) {
  CHECK(equal(room, (size_t)lr_server_output(&server, connection, room, sizeof room), &wanted));
}

/* A reply is due on a connection, and nothing else. */
static void replies(uint64_t connection, uint32_t request_id, uint32_t result) {
  make_reply(request_id, result);
  is_due(connection);
}

/* .. and goodbye behind it, so that the connection has ended. */
static void replies_and_ends(uint64_t connection, uint32_t request_id, uint32_t result) {
  make_reply(request_id, result);
  put_octets(&wanted, goodbye, sizeof goodbye);
  is_due(connection);
  WANT(lr_server_is_closed(&server, connection), 1);
  WANT(lr_server_why(&server, connection), LR_WHY_FAREWELL);
}

/* It goes on. */
static void goes_on(uint64_t connection) {
  WANT(lr_server_is_closed(&server, connection), 0);
  WANT(lr_server_why(&server, connection), LR_WHY_OPEN);
}

/* The connections that are named, as the bits of a number. */
static int64_t named(void) {
  int64_t all = 0;
  uint64_t connection = 0;
  while (lr_server_next_due(&server, &connection) == 1) all |= INT64_C(1) << connection;
  return all;
}

/* ---- goodbye ---- */

/* Two wait on a connection, and one on another: goodbye is due behind the last reply of its own. */
static void goodbye_comes_after_replies(void) {
  open_server(3);
  uint64_t one = park(1, 1, 1, LR_WISH_FULL), two = park(1, 2, 2, LR_WISH_FULL), other = park(2, 3, 3, LR_WISH_FULL);
  for (int times = 0; times < 2; times++) {
    WANT(lr_server_farewell(&server, 1), 2);
    goes_on(1);
    WANT(lr_server_output(&server, 1, room, sizeof room), 0);
  }
  WANT(answer(other, 3), LR_OK);
  WANT(named(), 1 << 2);
  replies(2, 3, 3);
  goes_on(1);
  WANT(answer(two, 2), LR_OK);
  WANT(named(), 1 << 1);
  replies(1, 2, 2);
  goes_on(1);
  WANT(lr_server_farewell(&server, 1), 1);
  WANT(answer(one, 1), LR_OK);
  WANT(named(), 1 << 1);
  replies_and_ends(1, 1, 1);
  goes_on(2);
  WANT(lr_server_farewell(&server, 1), LR_OK); /* once only */
  WANT(lr_server_output(&server, 1, room, sizeof room), 0);
  WANT(lr_server_farewell(&server, 3), LR_OK); /* nobody waits there */
  WANT(lr_server_is_closed(&server, 3), 1);
  WANT(lr_server_output(&server, 3, room, sizeof room), sizeof goodbye);
  CHECK(memcmp(room, goodbye, sizeof goodbye) == 0);
}

/* Who joined is told on a connection of its own, and goodbye is said on each by itself. */
static void each_leaves_by_itself(void) {
  open_server(3);
  uint64_t one = park(1, 1, 1, LR_WISH_FULL), two = park(2, 2, 2, LR_WISH_FULL);
  join(2, 3, 1);
  join(3, 4, 1);
  WANT(lr_server_farewell(&server, 1), 1);
  WANT(lr_server_farewell(&server, 2), 2);
  WANT(answer(one, 1), LR_OK);
  WANT(named(), 1 << 1 | 1 << 2 | 1 << 3);
  replies_and_ends(1, 1, 1);
  replies(2, 3, 1);
  goes_on(2);
  replies(3, 4, 1);
  goes_on(3);
  WANT(lr_server_refuse(&server, two, LR_EX_TRANSIENT, 0), LR_OK);
  system_reply(&wanted, 2, 2, "IDL:omg.org/CORBA/TRANSIENT:1.0", LR_COMPLETED_NO);
  put_octets(&wanted, goodbye, sizeof goodbye);
  is_due(2);
  WANT(lr_server_why(&server, 2), LR_WHY_FAREWELL);
}

/* One that wishes no reply does not wait. */
static void nobody_waits_without_a_wish(void) {
  open_server(1);
  uint64_t ticket = park(1, 1, 1, LR_WISH_NONE);
  WANT(lr_server_farewell(&server, 1), LR_OK);
  WANT(lr_server_is_closed(&server, 1), 1);
  WANT(answer(ticket, 1), LR_OK);
  WANT(lr_server_output(&server, 1, room, sizeof room), sizeof goodbye);
}

/* What comes on a connection that is leaving means nothing, but its moment counts. */
static void leaving_is_not_heard(void) {
  uint64_t moment = 0;
  open_server(2);
  uint64_t one = park(1, 1, 1, LR_WISH_FULL);
  make_request(2, 2, LR_WISH_FULL);
  uint64_t asked = fed(2);
  WANT(lr_server_farewell(&server, 1), LR_E_ASKING);
  WANT(answer(asked, 2), LR_OK);
  replies(2, 2, 2);
  WANT(lr_server_farewell(&server, 1), 1);
  make_request(3, 3, LR_WISH_FULL);
  WANT((int64_t)fed(1), 0);
  WANT(lr_server_feed(&server, 1, NOW, "GIOP", 4), 4);
  WANT(lr_server_feed(&server, 1, NOW, NULL, 0), 0);
  WANT(lr_server_feed(&server, 1, NOW, goodbye, sizeof goodbye), sizeof goodbye);
  WANT(lr_server_output(&server, 1, room, sizeof room), 0);
  goes_on(1);
  WANT(lr_server_next_expiry(&server, &moment), 1);
  WANT(lr_server_feed(&server, 1, LATER + 1, "?", 1), 1);
  WANT(lr_server_next_expiry(&server, &moment), 0); /* what was kept has expired */
  WANT(answer(one, 1), LR_OK);
  replies_and_ends(1, 1, 1);
  WANT(lr_server_feed(&server, 1, NOW, "GIOP", 4), 4);
  WANT(lr_server_output(&server, 1, room, sizeof room), 0);
}

/* One that is leaving is lost: nothing is due, and goodbye goes with it. */
static void leaving_is_lost(void) {
  open_server(2);
  uint64_t one = park(1, 1, 1, LR_WISH_FULL);
  join(2, 2, 1);
  WANT(lr_server_farewell(&server, 1), 1);
  WANT(lr_server_lost(&server, 1), LR_OK);
  WANT(lr_server_is_closed(&server, 1), 1);
  WANT(lr_server_why(&server, 1), LR_E_CONNECTION);
  WANT(lr_server_farewell(&server, 1), LR_E_CONNECTION);
  WANT(answer(one, 1), LR_OK);
  WANT(named(), 1 << 2);
  replies(2, 2, 1);
  WANT(lr_server_output(&server, 1, room, sizeof room), 0);
  goes_on(2);
}

/* ---- why ---- */

/* What a connection ends by, and the reason that is told. */
struct reason {
  const char *octets;
  size_t size;
  int64_t why;
};

#define REASON(octets, why) {octets, SIZE(octets), why}

static void each_stream_says_why(void) {
  static const struct reason reasons[] = {
      REASON("JIOP\1\2\0\0\0\0\0\0", LR_FAULT_MAGIC),
      REASON("GIOP\2\0\0\0\0\0\0\0", LR_FAULT_VERSION),
      REASON("GIOP\1\2\200\0\0\0\0\0", LR_FAULT_FLAGS),
      REASON("GIOP\1\2\0\10\0\0\0\0", LR_FAULT_TYPE),
      REASON("GIOP\1\2\0\0\177\377\377\377", LR_FAULT_TOO_LARGE),
      REASON("GIOP\1\2\0\7\0\0\0\4\0\0\0\1", LR_FAULT_STRAY_FRAGMENT),
      REASON("GIOP\1\0\0\0\0\0\0\1\0", LR_FAULT_BODY),
      REASON("GIOP\1\2\0\1\0\0\0\14\0\0\0\1\0\0\0\0\0\0\0\0", LR_WHY_DIRECTION),
      REASON("GIOP\1\2\0\5\0\0\0\0", LR_WHY_GOODBYE),
      REASON("GIOP\1\2\0\6\0\0\0\0", LR_WHY_ERROR),
  };
  enum { COUNT = sizeof reasons / sizeof *reasons };
  open_server(COUNT);
  for (uint64_t index = 0; index < COUNT; index++) {
    goes_on(index + 1);
    const struct reason *reason = &reasons[index];
    WANT(lr_server_feed(&server, index + 1, NOW, reason->octets, reason->size), (int64_t)reason->size);
    WANT(lr_server_is_closed(&server, index + 1), 1);
  }
  for (uint64_t index = 0; index < COUNT; index++) {
    WANT(lr_server_why(&server, index + 1), reasons[index].why); /* also once others have ended */
    WANT(lr_server_farewell(&server, index + 1), LR_OK);
    WANT(lr_server_why(&server, index + 1), reasons[index].why);
    WANT(lr_server_lost(&server, index + 1), LR_OK);
    WANT(lr_server_why(&server, index + 1), LR_E_CONNECTION);
  }
}

static void each_call_says_why(void) {
  lr_server none = LR_INIT;
  WANT(lr_server_why(&none, 1), LR_E_EMPTY);
  open_server(3);
  WANT(lr_server_why(&server, 4), LR_E_CONNECTION);
  make_request(1, 1, LR_WISH_FULL);
  uint64_t ticket = fed(1);
  goes_on(1);
  WANT(lr_server_give_up(&server, ticket), LR_OK);
  WANT(lr_server_why(&server, 1), LR_WHY_GIVEN_UP);
  ticket = fed(2);
  WANT(lr_server_goodbye(&server, ticket), LR_OK);
  WANT(lr_server_why(&server, 2), LR_WHY_GIVEN_UP);
  WANT(lr_server_farewell(&server, 3), LR_OK);
  WANT(lr_server_why(&server, 3), LR_WHY_FAREWELL);
  WANT(lr_server_why(&server, 1), LR_WHY_GIVEN_UP);
  WANT(lr_server_connect(&server, 4), LR_OK);
  goes_on(4);
}

int main(void) {
  goodbye_comes_after_replies();
  each_leaves_by_itself();
  nobody_waits_without_a_wish();
  leaving_is_not_heard();
  leaving_is_lost();
  each_stream_says_why();
  each_call_says_why();
  lr_close(&server);
  return check_end();
}
