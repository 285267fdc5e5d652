/*
 * What is kept of an outcome, and what goes out with it: octets as they stand, outcomes that are stored before they are
 * handed in, and the service contexts of replies. What is due is compared to the octet.
 */
#include "check.h"

enum { NOW = 1000, LATER = 2000, MOST = 1048576 };

#define WRONG "IDL:C/Wrong:1.0"
#define OTHER "IDL:C/Other:1.0"

static const uint8_t one_long[] = {LR_TYPE_LONG}, text_and_longlong[] = {LR_TYPE_STRING, LR_TYPE_LONGLONG};
static unsigned char room[2 * MOST], most[MOST + 1];
static struct octets message, wanted;
static lr_server server = LR_INIT;

/* Two contexts, 1 of "abc" and 2 of "de", as a list in little order; and one of 1, of "abc", in big order. */
static const unsigned char two[] = {2, 0, 0, 0, 1, 0, 0, 0, 3, 0, 0, 0, 'a', 'b', 'c', 0, 2, 0, 0, 0, 2, 0, 0, 0, 'd', 'e'};
static const unsigned char one[] = {0, 0, 0, 1, 0, 0, 0, 1, 0, 0, 0, 3, 'a', 'b', 'c'};
static const unsigned char none[] = {0, 0, 0, 0};

/* An object with add(long) -> long, which raises Wrong { string, long long } and Other, void(), and raw. */
static void open_server(void) {
  lr_catalogue catalogue = LR_INIT;
  lr_close(&server);
  WANT(lr_catalogue_open(&catalogue), LR_OK);
  WANT(lr_catalogue_object(&catalogue, "c", 1), LR_OK);
  WANT(lr_catalogue_exception(&catalogue, WRONG, SIZE(WRONG), text_and_longlong, 2), LR_OK);
  WANT(lr_catalogue_exception(&catalogue, OTHER, SIZE(OTHER), NULL, 0), LR_OK);
  WANT(lr_catalogue_operation(&catalogue, "c", 1, "add", 3, one_long, 1, one_long, 1), LR_OK);
  WANT(lr_catalogue_operation(&catalogue, "c", 1, "void", 4, NULL, 0, NULL, 0), LR_OK);
  WANT(lr_catalogue_raw_operation(&catalogue, "c", 1, "raw", 3), LR_OK);
  WANT(lr_catalogue_repository_ids(&catalogue, "c", 1, "IDL:C:1.0", 10), LR_OK);
  WANT(lr_server_open(&server, &catalogue, 1, 2), LR_OK);
  for (uint64_t connection = 1; connection <= 3; connection++) WANT(lr_server_connect(&server, connection), LR_OK);
}

static void begin(uint32_t version, uint32_t id, const char *operation, int32_t number, uint32_t wish, bool has_body) {
  struct asking asking = {version, LR_ORDER_BIG, id, wish, "c", operation, number != 0 ? "A" : NULL, number, LATER};
  begin_request(&message, &asking, has_body);
}

/* A request comes; the ticket of what waits then, or 0. */
static uint64_t come(uint64_t connection) {
  lr_request asked = {.ticket = 0};
  end_message(&message);
  WANT(lr_server_feed(&server, connection, NOW, message.all, message.size), (int64_t)message.size);
  lr_server_asked(&server, &asked, sizeof asked);
  return asked.ticket;
}

static uint64_t ask_in(uint32_t version, uint64_t connection, uint32_t id, int32_t number) {
  begin(version, id, "add", number, LR_WISH_FULL, true);
  put_number(&message, 5, 4);
  return come(connection);
}

static uint64_t ask(uint64_t connection, uint32_t id, int32_t number) { return ask_in(2, connection, id, number); }

/* Whether exactly the octets that are wanted are due on a connection. */
static bool is_due(uint64_t connection) {
  end_message(&wanted);
  return equal(room, (size_t)lr_server_output(&server, connection, room, sizeof room), &wanted);
}

/* A repeat comes, and gets a body in an order, without contexts. */
static void repeats(uint32_t id, int32_t number, uint32_t order, uint32_t status, const void *body, size_t size) {
  WANT((int64_t)ask(3, id, number), 0);
  begin_reply(&wanted, 2, order, id, status);
  put_octets(&wanted, body, size);
  CHECK(is_due(3));
}

/* Begins a Reply with so many of the two contexts, up to its body. */
static void begin_with(uint32_t version, uint32_t order, uint32_t id, uint32_t status, uint32_t contexts) {
  begin_message(&wanted, version, order, LR_MSG_REPLY);
  if (version == 2) {
    put_number(&wanted, id, 4);
    put_number(&wanted, status, 4);
  }
  put_number(&wanted, contexts, 4);
  if (contexts > 0) {
    put_number(&wanted, 1, 4);
    put_sequence(&wanted, "abc", 3);
  }
  if (contexts > 1) {
    put_number(&wanted, 2, 4);
    put_sequence(&wanted, "de", 2);
  }
  if (version < 2) {
    put_number(&wanted, id, 4);
    put_number(&wanted, status, 4);
  } else {
    align(&wanted, 8);
  }
}

/* ---- what is kept ---- */

/* Results and exceptions go out, and to each repeat, in the order in which they were handed in. */
static void octets_are_kept_as_they_stand(void) {
  open_server();
  WANT(lr_server_answer(&server, ask(1, 1, 1), LR_ORDER_LITTLE, "\7\0\0\0", 4), LR_OK);
  begin_reply(&wanted, 2, LR_ORDER_LITTLE, 1, LR_REPLY_NO_EXCEPTION);
  put_number(&wanted, 7, 4);
  CHECK(is_due(1));
  repeats(2, 1, LR_ORDER_LITTLE, LR_REPLY_NO_EXCEPTION, "\7\0\0\0", 4);
  WANT(lr_server_answer(&server, ask(1, 3, 2), LR_ORDER_BIG, "\0\0\0\7", 4), LR_OK);
  begin_reply(&wanted, 2, LR_ORDER_BIG, 3, LR_REPLY_NO_EXCEPTION);
  put_number(&wanted, 7, 4);
  CHECK(is_due(1));
  repeats(4, 2, LR_ORDER_BIG, LR_REPLY_NO_EXCEPTION, "\0\0\0\7", 4);
  /* none are none, and one wish has no results */
  begin(2, 5, "void", 3, LR_WISH_FULL, false);
  uint64_t ticket = come(1);
  WANT(lr_server_answer(&server, ticket, LR_ORDER_LITTLE, "\0", 1), LR_E_OUTCOME);
  WANT(lr_server_answer(&server, ticket, LR_ORDER_LITTLE, NULL, 0), LR_OK);
  begin_reply(&wanted, 2, LR_ORDER_LITTLE, 5, LR_REPLY_NO_EXCEPTION);
  CHECK(is_due(1));
  begin(2, 6, "add", 0, LR_WISH_EMPTY, true);
  put_number(&message, 5, 4);
  WANT(lr_server_answer(&server, come(1), LR_ORDER_LITTLE, "\7\0\0\0", 4), LR_OK);
  begin_reply(&wanted, 2, LR_ORDER_LITTLE, 6, LR_REPLY_NO_EXCEPTION);
  CHECK(is_due(1));
}

/* ---- outcomes before they count ---- */

/* Members of Wrong in an order: "ab" and 9, which stand elsewhere in the body, behind the id. */
static size_t put_members(unsigned char *members, uint32_t order) {
  struct octets out = {.size = 0, .order = order};
  put_text(&out, "ab");
  put_number(&out, 9, 8);
  memcpy(members, out.all, out.size);
  return out.size;
}

/* What can be answered is told, and not done; another process hands it in as a body. */
static void results_are_judged_beforehand(void) {
  open_server();
  uint64_t parked = ask(1, 1, 1);
  WANT(lr_server_can_answer(&server, parked, 2, NULL, 0), LR_E_RANGE);
  WANT(lr_server_can_answer(&server, parked + 1, LR_ORDER_BIG, "\0\0\0\7", 4), LR_E_TICKET);
  WANT(lr_server_can_answer(&server, parked, LR_ORDER_BIG, "\0\0\0\7", 3), LR_E_OUTCOME);
  WANT(lr_server_can_answer(&server, parked, LR_ORDER_BIG, "\0\0\0\7", 5), LR_E_OUTCOME);
  WANT(lr_server_can_answer(&server, parked, LR_ORDER_BIG, NULL, 0), LR_E_OUTCOME);
  WANT(lr_server_can_answer(&server, parked, LR_ORDER_LITTLE, "\7\0\0\0", 4), LR_OK);
  WANT(lr_server_park(&server, parked), LR_OK);
  uint64_t waits = ask(1, 2, 2);
  WANT(lr_server_can_answer(&server, parked, LR_ORDER_LITTLE, "\7\0\0\0", 4), LR_OK); /* (while one waits, too) */
  WANT(lr_server_can_answer(&server, waits, LR_ORDER_LITTLE, "\7\0\0\0", 4), LR_OK);
  WANT(lr_server_output(&server, 1, room, sizeof room), 0);
  WANT(lr_server_answer_raw(&server, waits, LR_REPLY_NO_EXCEPTION, LR_ORDER_LITTLE, "\7\0\0\0", 4), LR_OK);
  WANT(lr_server_can_answer(&server, waits, LR_ORDER_LITTLE, "\7\0\0\0", 4), LR_E_TICKET);
  repeats(3, 2, LR_ORDER_LITTLE, LR_REPLY_NO_EXCEPTION, "\7\0\0\0", 4);
  WANT(lr_server_answer(&server, parked, LR_ORDER_LITTLE, "\7\0\0\0", 4), LR_OK);
  begin(2, 4, "raw", 0, LR_WISH_FULL, false);
  WANT(lr_server_can_answer(&server, come(1), LR_ORDER_BIG, NULL, 0), LR_E_OUTCOME); /* (it has no types) */
}

/* A stored exception goes out as lr_server_raise says it. */
static void exceptions_are_stored(void) {
  unsigned char members[64], body[128], little[128];
  for (uint32_t order = LR_ORDER_BIG; order <= LR_ORDER_LITTLE; order++) {
    open_server();
    size_t size = put_members(members, order);
    uint64_t ticket = ask(1, 1, 1);
    memset(body, 0xee, sizeof body);
    WANT(lr_server_exception(&server, ticket, WRONG, SIZE(WRONG), 2, members, size, body, sizeof body), LR_E_RANGE);
    WANT(lr_server_exception(&server, ticket + 1, WRONG, SIZE(WRONG), order, members, size, body, 9), LR_E_TICKET);
    WANT(lr_server_exception(&server, ticket, "IDL:No:1.0", 10, order, members, size, body, 9), LR_E_OUTCOME);
    WANT(lr_server_exception(&server, ticket, WRONG, SIZE(WRONG), order, members, size - 1, body, 9), LR_E_OUTCOME);
    CHECK(body[0] == 0xee);
    int64_t all = lr_server_exception(&server, ticket, WRONG, SIZE(WRONG), order, members, size, body, sizeof body);
    struct octets behind = {.size = 0, .order = order};
    put_text(&behind, WRONG);
    put_text(&behind, "ab");
    put_number(&behind, 9, 8);
    CHECK(equal(body, (size_t)all, &behind));
    memset(little, 0xee, sizeof little);
    WANT(lr_server_exception(&server, ticket, WRONG, SIZE(WRONG), order, members, size, little, 5), all);
    CHECK(memcmp(little, body, 5) == 0 && little[5] == 0xee);
    WANT(lr_server_output(&server, 1, room, sizeof room), 0);
    WANT(lr_server_raise(&server, ticket, WRONG, SIZE(WRONG), order, members, size), LR_OK);
    begin_reply(&wanted, 2, order, 1, LR_REPLY_USER_EXCEPTION);
    put_octets(&wanted, body, (size_t)all);
    CHECK(is_due(1));
    repeats(2, 1, order, LR_REPLY_USER_EXCEPTION, body, (size_t)all);
    /* .. and by its body */
    WANT(lr_server_answer_raw(&server, ask(1, 3, 3), LR_REPLY_USER_EXCEPTION, order, body, (size_t)all), LR_OK);
    begin_reply(&wanted, 2, order, 3, LR_REPLY_USER_EXCEPTION);
    put_octets(&wanted, body, (size_t)all);
    CHECK(is_due(1));
    repeats(4, 3, order, LR_REPLY_USER_EXCEPTION, body, (size_t)all);
  }
}

/* ---- service contexts of replies ---- */

/* They go out with the next answer of the ticket that is taken, and with no other. */
static void replies_carry_contexts(void) {
  open_server();
  uint64_t ticket = ask(1, 1, 1);
  WANT(lr_server_reply_contexts(&server, ticket, 2, two, sizeof two), LR_E_RANGE);
  WANT(lr_server_reply_contexts(&server, ticket + 1, LR_ORDER_LITTLE, two, sizeof two), LR_E_TICKET);
  WANT(lr_server_reply_contexts(&server, ticket, LR_ORDER_LITTLE, two, sizeof two - 1), LR_E_SHORT);
  WANT(lr_server_reply_contexts(&server, ticket, LR_ORDER_BIG, one, 3), LR_E_SHORT);
  WANT(lr_server_reply_contexts(&server, ticket, LR_ORDER_BIG, "\0\0\0\0\0", 5), LR_E_VALUE);
  WANT(lr_server_reply_contexts(&server, ticket, LR_ORDER_LITTLE, two, sizeof two), LR_OK);
  WANT(lr_server_answer(&server, ticket, LR_ORDER_BIG, "\0\0\0", 3), LR_E_OUTCOME); /* (not taken, so they stay) */
  WANT(lr_server_answer(&server, ticket, LR_ORDER_BIG, "\0\0\0\7", 4), LR_OK);
  begin_with(2, LR_ORDER_BIG, 1, LR_REPLY_NO_EXCEPTION, 2);
  put_number(&wanted, 7, 4);
  CHECK(is_due(1));
  repeats(2, 1, LR_ORDER_BIG, LR_REPLY_NO_EXCEPTION, "\0\0\0\7", 4);
  ticket = ask(1, 3, 3);
  WANT(lr_server_answer(&server, ticket, LR_ORDER_BIG, "\0\0\0\7", 4), LR_OK);
  begin_reply(&wanted, 2, LR_ORDER_BIG, 3, LR_REPLY_NO_EXCEPTION);
  put_number(&wanted, 7, 4);
  CHECK(is_due(1));
  /* later ones take their place, or none */
  ticket = ask(1, 4, 4);
  WANT(lr_server_reply_contexts(&server, ticket, LR_ORDER_LITTLE, two, sizeof two), LR_OK);
  WANT(lr_server_reply_contexts(&server, ticket, LR_ORDER_BIG, one, sizeof one), LR_OK);
  WANT(lr_server_raise(&server, ticket, OTHER, SIZE(OTHER), LR_ORDER_BIG, NULL, 0), LR_OK);
  begin_with(2, LR_ORDER_BIG, 4, LR_REPLY_USER_EXCEPTION, 1);
  put_text(&wanted, OTHER);
  CHECK(is_due(1));
  ticket = ask(1, 5, 5);
  WANT(lr_server_reply_contexts(&server, ticket, LR_ORDER_LITTLE, two, sizeof two), LR_OK);
  WANT(lr_server_reply_contexts(&server, ticket, LR_ORDER_BIG, NULL, 0), LR_OK);
  WANT(lr_server_system(&server, ticket, LR_EX_TIMEOUT, 0, LR_COMPLETED_NO), LR_OK);
  system_reply(&wanted, 2, 5, "IDL:omg.org/CORBA/TIMEOUT:1.0", LR_COMPLETED_NO);
  CHECK(is_due(1));
  /* a list of none is none */
  ticket = ask(1, 6, 6);
  WANT(lr_server_reply_contexts(&server, ticket, LR_ORDER_BIG, none, sizeof none), LR_OK);
  WANT(lr_server_answer(&server, ticket, LR_ORDER_BIG, "\0\0\0\7", 4), LR_OK);
  begin_reply(&wanted, 2, LR_ORDER_BIG, 6, LR_REPLY_NO_EXCEPTION);
  put_number(&wanted, 7, 4);
  CHECK(is_due(1));
}

/* Those of a parked request go to all who wait, and those of another ticket stay. A refusal takes none. */
static void parked_replies_carry_contexts(void) {
  open_server();
  uint64_t first = ask(1, 1, 1);
  WANT(lr_server_park(&server, first), LR_OK);
  WANT((int64_t)ask(2, 2, 1), 0);
  uint64_t second = ask(1, 3, 3);
  WANT(lr_server_reply_contexts(&server, first, LR_ORDER_BIG, one, sizeof one), LR_OK);
  WANT(lr_server_answer(&server, second, LR_ORDER_BIG, "\0\0\0\7", 4), LR_OK);
  begin_reply(&wanted, 2, LR_ORDER_BIG, 3, LR_REPLY_NO_EXCEPTION);
  put_number(&wanted, 7, 4);
  CHECK(is_due(1));
  WANT(lr_server_answer(&server, first, LR_ORDER_LITTLE, "\7\0\0\0", 4), LR_OK);
  for (uint32_t id = 1; id <= 2; id++) {
    begin_with(2, LR_ORDER_LITTLE, id, LR_REPLY_NO_EXCEPTION, 1);
    put_number(&wanted, 7, 4);
    CHECK(is_due(id));
  }
  repeats(4, 1, LR_ORDER_LITTLE, LR_REPLY_NO_EXCEPTION, "\7\0\0\0", 4);
  uint64_t ticket = ask(1, 5, 5);
  WANT(lr_server_reply_contexts(&server, ticket, LR_ORDER_BIG, one, sizeof one), LR_OK);
  WANT(lr_server_refuse(&server, ticket, LR_EX_TRANSIENT, 0), LR_OK);
  system_reply(&wanted, 2, 5, "IDL:omg.org/CORBA/TRANSIENT:1.0", LR_COMPLETED_NO);
  CHECK(is_due(1));
}

/* A reply goes without them where it can't carry them; one that has no body can. */
static void some_replies_carry_none(void) {
  open_server();
  /* in 1.0 the body would stand at 36 behind the one, and stands at 48 behind the two */
  uint64_t ticket = ask_in(0, 1, 1, 1);
  WANT(lr_server_reply_contexts(&server, ticket, LR_ORDER_BIG, one, sizeof one), LR_OK);
  WANT(lr_server_answer(&server, ticket, LR_ORDER_BIG, "\0\0\0\7", 4), LR_OK);
  begin_with(0, LR_ORDER_BIG, 1, LR_REPLY_NO_EXCEPTION, 0);
  put_number(&wanted, 7, 4);
  CHECK(is_due(1));
  ticket = ask_in(0, 1, 2, 2);
  WANT(lr_server_reply_contexts(&server, ticket, LR_ORDER_LITTLE, two, sizeof two), LR_OK);
  WANT(lr_server_answer(&server, ticket, LR_ORDER_BIG, "\0\0\0\7", 4), LR_OK);
  begin_with(0, LR_ORDER_BIG, 2, LR_REPLY_NO_EXCEPTION, 2);
  put_number(&wanted, 7, 4);
  CHECK(is_due(1));
  /* they are too many octets: a list of one that is as long as may be goes out, and a longer one does not */
  for (size_t size = MOST - 12; size <= MOST - 11; size++) {
    const unsigned char head[] = {0, 0, 0, 1, 0, 0, 0, 9, 0, (unsigned char)(size >> 16), (unsigned char)(size >> 8),
                                  (unsigned char)size};
    memcpy(most, head, sizeof head);
    ticket = ask(1, 3, 0);
    WANT(lr_server_reply_contexts(&server, ticket, LR_ORDER_BIG, most, sizeof head + size), LR_OK);
    WANT(lr_server_answer(&server, ticket, LR_ORDER_BIG, "\0\0\0\7", 4), LR_OK);
    int64_t out = lr_server_output(&server, 1, room, sizeof room);
    WANT(out, size == MOST - 12 ? 12 + 8 + MOST + 4 + 4 : 12 + 12 + 4);
  }
}

int main(void) {
  octets_are_kept_as_they_stand();
  results_are_judged_beforehand();
  exceptions_are_stored();
  replies_carry_contexts();
  parked_replies_carry_contexts();
  some_replies_carry_none();
  lr_close(&server);
  return check_end();
}
