/*
 * Calls that the header refuses, and others at the edge of what it takes: each answers its error, and after it
 * everything is as it was, which a good call shows. Where more than one error could be meant, no call is made.
 */
#define _DEFAULT_SOURCE
#include <stdlib.h>
#include <sys/mman.h>

#include "check.h"

enum { LIMIT = 1 << 21, PARTIALS = 8, NOW = 1000, LATER = 2000 };

static unsigned char room[LIMIT + 64];
static struct octets message, wanted;

/* ---- objects that work ---- */

static const uint8_t one_long[] = {LR_TYPE_LONG}, one_boolean[] = {LR_TYPE_BOOLEAN};

#define OVERFLOW_ID "IDL:Counter/Overflow:1.0"

/* A catalogue of the object `c` with the operation add(long) -> long, which raises Overflow { long }, and is(long) ->
 * boolean; of `raw`, whose every operation is raw; and of `one`, with one raw operation, `do`. */
static void open_catalogue(lr_catalogue *catalogue) {
  WANT(lr_catalogue_open(catalogue), LR_OK);
  WANT(lr_catalogue_object(catalogue, "c", 1), LR_OK);
  WANT(lr_catalogue_exception(catalogue, OVERFLOW_ID, SIZE(OVERFLOW_ID), one_long, 1), LR_OK);
  WANT(lr_catalogue_operation(catalogue, "c", 1, "add", 3, one_long, 1, one_long, 1), LR_OK);
  WANT(lr_catalogue_operation(catalogue, "c", 1, "is", 2, one_long, 1, one_boolean, 1), LR_OK);
  WANT(lr_catalogue_raw_object(catalogue, "raw", 3), LR_OK);
  WANT(lr_catalogue_object(catalogue, "one", 3), LR_OK);
  WANT(lr_catalogue_raw_operation(catalogue, "one", 3, "do", 2), LR_OK);
}

static void open_server(lr_server *server) {
  lr_catalogue catalogue = LR_INIT;
  open_catalogue(&catalogue);
  WANT(lr_server_open(server, &catalogue, 1, 2), LR_OK);
  CHECK(catalogue.kind == 0);
}

/* A request of 1.2 with one long. Without a client it may act again. */
static void make_request(uint32_t request_id, const char *key, const char *operation, const char *client,
                         int32_t retention_id, uint32_t argument) {
  struct asking asking = {2, LR_ORDER_BIG, request_id, LR_WISH_FULL, key, operation, client, retention_id, LATER};
  begin_request(&message, &asking, true);
  put_number(&message, argument, 4);
  end_message(&message);
}

static void make_reply(uint32_t request_id, uint32_t result) {
  begin_reply(&wanted, 2, LR_ORDER_BIG, request_id, LR_REPLY_NO_EXCEPTION);
  put_number(&wanted, result, 4);
  end_message(&wanted);
}

/* The connection on which was fed last, and the ticket of the request that was asked last. */
static uint64_t fed, ticket = 1;

/* Feeds the message. */
static void feed(lr_server *server, uint64_t connection) {
  WANT(lr_server_feed(server, connection, NOW, message.all, message.size), (int64_t)message.size);
  fed = connection;
}

/* Whether exactly the octets that are wanted are due, on the connection on which was fed last. */
static bool is_due(lr_server *server) {
  return equal(room, (size_t)lr_server_output(server, fed, room, sizeof room), &wanted);
}

/* Feeds the message, which is to be asked. */
static void ask(lr_server *server, uint64_t connection) {
  lr_request request;
  feed(server, connection);
  WANT(lr_server_asked(server, &request, sizeof request), 1);
  CHECK(request.ticket != 0);
  ticket = request.ticket;
}

/* The body of an exception of a request. */
static int64_t exception_of(lr_server *server, uint64_t asked) {
  return lr_server_exception(server, asked, OVERFLOW_ID, SIZE(OVERFLOW_ID), LR_ORDER_BIG, "\0\0\0\1", 4, room,
                             sizeof room);
}

/* A server answers a request on a new connection. */
static void server_works(lr_server *server, uint64_t connection) {
  lr_request request;
  WANT(lr_server_connect(server, connection), LR_OK);
  make_request(7, "c", "add", NULL, 0, 5);
  ask(server, connection);
  WANT(lr_server_asked(server, &request, sizeof request), 1);
  CHECK(request.connection == connection && request.key_size == 1 && request.operation_size == 3);
  CHECK(request.body_size == 4 && request.body_at == message.size - 4 && request.body_order == LR_ORDER_BIG);
  CHECK(request.is_raw == 0);
  CHECK(request.request_id == 7 && request.version == 2 && request.wish == LR_WISH_FULL && request.has_client == 0);
  CHECK(request.retention_id == 0 && request.client_size == 0 && request.expiration == 0);
  WANT(lr_server_part(server, ticket, LR_PART_BODY, room, sizeof room), 4);
  CHECK(memcmp(room, "\0\0\0\5", 4) == 0);
  WANT(lr_server_answer(server, ticket, LR_ORDER_BIG, "\0\0\0\6", 4), LR_OK);
  make_reply(7, 6);
  CHECK(is_due(server));
}

static void catalogue_works(lr_catalogue *catalogue) {
  lr_server server = LR_INIT;
  WANT(lr_server_open(&server, catalogue, 1, 2), LR_OK);
  server_works(&server, 1);
  lr_close(&server);
}

static int64_t call_add(lr_client *client) {
  return lr_client_call(client, NOW, LATER, "c", 1, "add", 3, one_long, 1, LR_ORDER_BIG, "\0\0\0\5", 4);
}

static int64_t recall_add(lr_client *client, int64_t call) {
  return lr_client_recall(client, call, NOW, LATER, "c", 1, "add", 3, one_long, 1, LR_ORDER_BIG, "\0\0\0\5", 4);
}

static int64_t call_raw(lr_client *client) {
  return lr_client_call_raw(client, NOW, LATER, LR_WISH_FULL, "c", 1, "add", 3, LR_ORDER_BIG, NULL, 0, "\0\0\0\5", 4);
}

static int64_t recall_raw(lr_client *client, int64_t call) {
  return lr_client_recall_raw(client, call, NOW, LATER, LR_WISH_FULL, "c", 1, "add", 3, LR_ORDER_BIG, NULL, 0,
                              "\0\0\0\5", 4);
}

static int64_t redirect_add(lr_client *client, int64_t call) {
  return lr_client_redirect(client, call, "d", 1, "add", 3, one_long, 1, LR_ORDER_BIG, "\0\0\0\5", 4);
}

static int64_t redirect_raw(lr_client *client, int64_t call) {
  return lr_client_redirect_raw(client, call, LR_WISH_FULL, "d", 1, "add", 3, LR_ORDER_BIG, NULL, 0, "\0\0\0\5", 4);
}

/* A client that has made `calls` calls makes one more, which is answered. */
static void client_works(lr_client *client, int64_t calls) {
  lr_completion completion;
  WANT(lr_client_connected(client, NOW), LR_OK);
  lr_client_output(client, room, sizeof room);
  WANT(call_add(client), calls + 1);
  CHECK(lr_client_output(client, room, sizeof room) > 0);
  uint32_t id = (uint32_t)room[12] << 24 | (uint32_t)room[13] << 16 | (uint32_t)room[14] << 8 | room[15];
  make_reply(id, 6);
  CHECK(lr_client_feed(client, wanted.all, wanted.size) >= 0);
  WANT(lr_client_completed(client, &completion, sizeof completion), 1);
  CHECK(completion.call == calls + 1 && completion.how == LR_ENDED_RETURNED && completion.body_size == 4);
  WANT(lr_client_body(client, room, sizeof room), 4);
  CHECK(memcmp(room, "\0\0\0\6", 4) == 0);
}

static void assembler_works(lr_assembler *assembler) {
  lr_message head;
  make_request(7, "c", "add", "A", 3, 5);
  WANT(lr_assembler_feed(assembler, message.all, message.size), (int64_t)message.size);
  WANT(lr_assembler_message(assembler, &head, sizeof head), 1);
  CHECK(head.type == LR_MSG_REQUEST && head.version == 2 && head.order == LR_ORDER_BIG && head.request_id == 7);
  CHECK(head.wish == LR_WISH_FULL && head.contexts == 1 && head.has_key == 1 && head.key_size == 1);
  CHECK(head.operation_size == 3 && head.body_size == 4 && head.body_at % 8 == 0 && head.has_client == 1);
  CHECK(head.retention_id == 3 && head.client_size == 1 && head.expiration == LATER && head.payload_size == 0);
  WANT(lr_assembler_part(assembler, LR_PART_OPERATION, room, sizeof room), 3);
  CHECK(memcmp(room, "add", 3) == 0);
}

static void open_ior(lr_ior *ior) { WANT(lr_ior_iiop(ior, "IDL:C:1.0", 9, 2, "host", 4, 2809, "c", 1), LR_OK); }

static void ior_works(lr_ior *ior) {
  lr_profile profile;
  WANT(lr_ior_profiles(ior), 1);
  WANT(lr_ior_profile(ior, 0, &profile, sizeof profile), LR_OK);
  CHECK(profile.is_iiop == 1 && profile.minor == 2 && profile.port == 2809 && profile.tag == 0);
  CHECK(profile.host_size == 4 && profile.key_size == 1 && profile.components == 0);
  WANT(lr_ior_part(ior, 0, LR_IOR_HOST, room, sizeof room), 4);
  CHECK(memcmp(room, "host", 4) == 0);
}

/* ---- slots ---- */

enum kind { CATALOGUE, SERVER, CLIENT, ASSEMBLER, IOR, KINDS };

static lr_request got_request;
static lr_completion got_completion;
static lr_message got_message;
static lr_profile got_profile;
static uint32_t got_id;
static uint64_t got_number;
static lr_catalogue given;

/* Every function that takes an object: its name, the kind, and a call that would be right. */
#define CALLS(CALL)                                                                                                    \
  CALL(catalogue_object, CATALOGUE, lr_catalogue_object(slot, "k", 1))                                                 \
  CALL(catalogue_raw_object, CATALOGUE, lr_catalogue_raw_object(slot, "k", 1))                                         \
  CALL(catalogue_exception, CATALOGUE, lr_catalogue_exception(slot, "IDL:E:1.0", 9, one_long, 1))                      \
  CALL(catalogue_operation, CATALOGUE, lr_catalogue_operation(slot, "c", 1, "o", 1, NULL, 0, NULL, 0))                 \
  CALL(catalogue_raw_operation, CATALOGUE, lr_catalogue_raw_operation(slot, "c", 1, "o", 1))                           \
  CALL(catalogue_repository_ids, CATALOGUE, lr_catalogue_repository_ids(slot, "c", 1, "IDL:C:1.0", 10))                \
  CALL(catalogue_default, CATALOGUE, lr_catalogue_default(slot))                                                       \
  CALL(catalogue_families, CATALOGUE, lr_catalogue_families(slot, &given))                                             \
  CALL(catalogue_remove, CATALOGUE, lr_catalogue_remove(slot, "c", 1))                                                 \
  CALL(server_connect, SERVER, lr_server_connect(slot, 1))                                                             \
  CALL(server_lost, SERVER, lr_server_lost(slot, 1))                                                                   \
  CALL(server_farewell, SERVER, lr_server_farewell(slot, 1))                                                           \
  CALL(server_is_closed, SERVER, lr_server_is_closed(slot, 1))                                                         \
  CALL(server_why, SERVER, lr_server_why(slot, 1))                                                                     \
  CALL(server_feed, SERVER, lr_server_feed(slot, 1, NOW, "G", 1))                                                      \
  CALL(server_asked, SERVER, lr_server_asked(slot, &got_request, sizeof got_request))                                  \
  CALL(server_part, SERVER, lr_server_part(slot, ticket, LR_PART_KEY, room, sizeof room))                              \
  CALL(server_answer, SERVER, lr_server_answer(slot, ticket, LR_ORDER_BIG, "\0\0\0\1", 4))                             \
  CALL(server_can_answer, SERVER, lr_server_can_answer(slot, ticket, LR_ORDER_BIG, "\0\0\0\1", 4))                     \
  CALL(server_exception, SERVER, exception_of(slot, ticket))                                                           \
  CALL(server_reply_contexts, SERVER, lr_server_reply_contexts(slot, ticket, LR_ORDER_BIG, NULL, 0))                   \
  CALL(server_raise, SERVER, lr_server_raise(slot, ticket, "IDL:E:1.0", 9, LR_ORDER_BIG, NULL, 0))                     \
  CALL(server_system, SERVER, lr_server_system(slot, ticket, LR_EX_UNKNOWN, 0, LR_COMPLETED_NO))                       \
  CALL(server_answer_raw, SERVER, lr_server_answer_raw(slot, ticket, LR_REPLY_NO_EXCEPTION, LR_ORDER_BIG, NULL, 0))    \
  CALL(server_identify, SERVER, lr_server_identify(slot, ticket))                                                      \
  CALL(server_give_up, SERVER, lr_server_give_up(slot, ticket))                                                        \
  CALL(server_refuse, SERVER, lr_server_refuse(slot, ticket, LR_EX_TRANSIENT, 0))                                      \
  CALL(server_goodbye, SERVER, lr_server_goodbye(slot, ticket))                                                        \
  CALL(server_output, SERVER, lr_server_output(slot, 1, room, sizeof room))                                            \
  CALL(server_set, SERVER, lr_server_set(slot, LR_SET_DUE, 1000))                                                      \
  CALL(server_context, SERVER, lr_server_context(slot, 0, &got_id, room, sizeof room))                                 \
  CALL(server_park, SERVER, lr_server_park(slot, ticket))                                                              \
  CALL(server_parked, SERVER, lr_server_parked(slot))                                                                  \
  CALL(server_parked_of, SERVER, lr_server_parked_of(slot, 1))                                                         \
  CALL(server_wanted, SERVER, lr_server_wanted(slot, ticket))                                                          \
  CALL(server_next_due, SERVER, lr_server_next_due(slot, &got_number))                                                 \
  CALL(server_count, SERVER, lr_server_count(slot, LR_COUNT_KEPT))                                                     \
  CALL(server_held_by, SERVER, lr_server_held_by(slot, "A", 1))                                                        \
  CALL(server_next_expiry, SERVER, lr_server_next_expiry(slot, &got_number))                                           \
  CALL(server_tick, SERVER, lr_server_tick(slot, NOW))                                                                 \
  CALL(server_swap, SERVER, lr_server_swap(slot, &given))                                                              \
  CALL(client_connected, CLIENT, lr_client_connected(slot, NOW))                                                       \
  CALL(client_lost, CLIENT, lr_client_lost(slot))                                                                      \
  CALL(client_is_connected, CLIENT, lr_client_is_connected(slot))                                                      \
  CALL(client_call, CLIENT, call_add(slot))                                                                            \
  CALL(client_set, CLIENT, lr_client_set(slot, LR_CLIENT_KEEP_FORWARD, 1))                                             \
  CALL(client_recall, CLIENT, recall_add(slot, 9))                                                                     \
  CALL(client_call_raw, CLIENT, call_raw(slot))                                                                        \
  CALL(client_recall_raw, CLIENT, recall_raw(slot, 9))                                                                 \
  CALL(client_skip_to, CLIENT, lr_client_skip_to(slot, 9))                                                             \
  CALL(client_resend, CLIENT, lr_client_resend(slot, NOW))                                                             \
  CALL(client_forwarded, CLIENT, lr_client_forwarded(slot, &got_completion, sizeof got_completion, room, sizeof room)) \
  CALL(client_redirect, CLIENT, redirect_add(slot, 1))                                                                 \
  CALL(client_redirect_raw, CLIENT, redirect_raw(slot, 1))                                                             \
  CALL(client_cancel, CLIENT, lr_client_cancel(slot, 1))                                                               \
  CALL(client_tick, CLIENT, lr_client_tick(slot, NOW))                                                                 \
  CALL(client_feed, CLIENT, lr_client_feed(slot, "G", 1))                                                              \
  CALL(client_completed, CLIENT, lr_client_completed(slot, &got_completion, sizeof got_completion))                    \
  CALL(client_body, CLIENT, lr_client_body(slot, room, sizeof room))                                                   \
  CALL(client_output, CLIENT, lr_client_output(slot, room, sizeof room))                                               \
  CALL(assembler_feed, ASSEMBLER, lr_assembler_feed(slot, "G", 1))                                                     \
  CALL(assembler_fault, ASSEMBLER, lr_assembler_fault(slot))                                                           \
  CALL(assembler_message, ASSEMBLER, lr_assembler_message(slot, &got_message, sizeof got_message))                     \
  CALL(assembler_part, ASSEMBLER, lr_assembler_part(slot, LR_PART_KEY, room, sizeof room))                             \
  CALL(assembler_context, ASSEMBLER, lr_assembler_context(slot, 0, &got_id, room, sizeof room))                        \
  CALL(ior_print, IOR, lr_ior_print(slot, room, sizeof room))                                                          \
  CALL(ior_type_id, IOR, lr_ior_type_id(slot, room, sizeof room))                                                      \
  CALL(ior_profiles, IOR, lr_ior_profiles(slot))                                                                       \
  CALL(ior_profile, IOR, lr_ior_profile(slot, 0, &got_profile, sizeof got_profile))                                    \
  CALL(ior_part, IOR, lr_ior_part(slot, 0, LR_IOR_KEY, room, sizeof room))                                             \
  CALL(ior_component, IOR, lr_ior_component(slot, 0, 0, &got_id, room, sizeof room))

/* Every function that opens a slot. */
#define OPENINGS(CALL)                                                                                 \
  CALL(catalogue_open, CATALOGUE, lr_catalogue_open(slot))                                             \
  CALL(server_open, SERVER, lr_server_open(slot, &given, 1, 2))                                        \
  CALL(client_open, CLIENT, lr_client_open(slot, "A", 1))                                              \
  CALL(assembler_open, ASSEMBLER, lr_assembler_open(slot, LIMIT, PARTIALS))                            \
  CALL(assembler_open_cuts, ASSEMBLER, lr_assembler_open_cuts(slot, LIMIT, PARTIALS, LR_CUTS_ANYWHERE)) \
  CALL(ior_parse, IOR, lr_ior_parse(slot, REFERENCE, SIZE(REFERENCE)))                                 \
  CALL(ior_iiop, IOR, lr_ior_iiop(slot, "IDL:C:1.0", 9, 2, "host", 4, 2809, "c", 1))

#define FUNCTION(name, kind, call) \
  static int64_t try_##name(void *slot) { return call; }
CALLS(FUNCTION)
OPENINGS(FUNCTION)

struct trial {
  const char *name;
  enum kind kind;
  int64_t (*call)(void *slot);
};
#define ROW(name, kind, call) {#name, kind, try_##name},
static const struct trial calls[] = {CALLS(ROW)}, openings[] = {OPENINGS(ROW)};
#define COUNT(table) (sizeof table / sizeof *table)

/* A slot of whatever kind. */
struct any_slot {
  uint32_t kind;
  void *at;
};

static void open_each(struct any_slot slots[KINDS]) {
  open_catalogue((void *)&slots[CATALOGUE]);
  open_server((void *)&slots[SERVER]);
  WANT(lr_client_open((void *)&slots[CLIENT], "A", 1), LR_OK);
  WANT(lr_assembler_open((void *)&slots[ASSEMBLER], LIMIT, PARTIALS), LR_OK);
  open_ior((void *)&slots[IOR]);
}

static void each_works(struct any_slot slots[KINDS]) {
  catalogue_works((void *)&slots[CATALOGUE]);
  server_works((void *)&slots[SERVER], 1);
  client_works((void *)&slots[CLIENT], 0);
  assembler_works((void *)&slots[ASSEMBLER]);
  ior_works((void *)&slots[IOR]);
}

/* Empty slots, slots of another kind, and slots that are open. */
static void slots_are_refused(void) {
  struct any_slot slots[KINDS] = {LR_INIT}, empty = LR_INIT, moved[KINDS];
  open_each(slots);
  for (size_t index = 0; index < COUNT(calls); index++) {
    if (!WANT(calls[index].call(&empty), LR_E_EMPTY)) printf("%s, empty\n", calls[index].name);
    for (enum kind kind = CATALOGUE; kind < KINDS; kind++)
      if (kind != calls[index].kind && !WANT(calls[index].call(&slots[kind]), LR_E_EMPTY))
        printf("%s, of kind %d\n", calls[index].name, (int)kind);
  }
  open_catalogue(&given);
  for (size_t index = 0; index < COUNT(openings); index++)
    for (enum kind kind = CATALOGUE; kind < KINDS; kind++)
      if (!WANT(openings[index].call(&slots[kind]), LR_E_OPEN))
        printf("%s, of kind %d\n", openings[index].name, (int)kind);
  CHECK(empty.kind == 0 && given.kind != 0);
  memcpy(moved, slots, sizeof slots); /* a slot may be moved */
  memset(slots, 0xee, sizeof slots);
  each_works(moved);
  for (enum kind kind = CATALOGUE; kind < KINDS; kind++) {
    lr_close(&moved[kind]);
    CHECK(moved[kind].kind == 0);
    lr_close(&moved[kind]);
  }
  for (size_t index = 0; index < COUNT(calls); index++) WANT(calls[index].call(&moved[calls[index].kind]), LR_E_EMPTY);
  catalogue_works(&given);
  lr_close(&given);
}

/* A server is opened of a catalogue, which has to be one. */
static void servers_want_a_catalogue(void) {
  lr_server server = LR_INIT;
  lr_catalogue empty = LR_INIT;
  lr_ior ior = LR_INIT;
  open_ior(&ior);
  WANT(lr_server_open(&server, &empty, 1, 2), LR_E_EMPTY);
  WANT(lr_server_open(&server, (void *)&ior, 1, 2), LR_E_EMPTY);
  CHECK(server.kind == 0);
  ior_works(&ior);
  lr_close(&ior);
}

/* ---- numbers, names and types ---- */

/* Numbers that limits are set to, and what is answered: those that are none, and the nearest that are. */
struct setting {
  uint64_t number;
  int64_t answer;
};
#define GOOD(number) \
  { (number), LR_OK }
#define BAD(number) \
  { (number), LR_E_RANGE }
static const struct setting messages[] = {
    GOOD(4096), GOOD(16777216),  BAD(4095),       BAD(16777217),
    BAD(0),     BAD(UINT32_MAX), BAD(UINT64_MAX), BAD((UINT64_C(1) << 32) + 4096)};
static const struct setting partials[] = {GOOD(1),  GOOD(16),        BAD(0),          BAD(17),
                                          BAD(257), BAD(UINT32_MAX), BAD(UINT64_MAX), BAD((UINT64_C(1) << 32) + 1)};
static const struct setting counts[] = {GOOD(0), GOOD(1), GOOD(UINT32_MAX), BAD(UINT64_C(1) << 32), BAD(UINT64_MAX)};
static const struct setting versions[] = {GOOD(0), GOOD(1), GOOD(2), BAD(3), BAD(UINT64_C(1) << 32), BAD(UINT64_MAX)};
static const struct setting truths[] = {GOOD(0), GOOD(1), BAD(2), BAD(UINT64_C(1) << 32), BAD(UINT64_MAX)};

/* Sets each of these numbers. */
#define SETS(set, slot, what, numbers)                    \
  for (size_t index = 0; index < COUNT(numbers); index++) \
  WANT(set(slot, what, numbers[index].number), numbers[index].answer)

static void limits_are_refused(void) {
  lr_server server = LR_INIT;
  lr_client client = LR_INIT;
  open_server(&server);
  SETS(lr_server_set, &server, LR_SET_MESSAGE, messages);
  SETS(lr_server_set, &server, LR_SET_PARTIALS, partials);
  for (uint32_t what = LR_SET_CAPACITY; what <= LR_SET_JOINED; what++) SETS(lr_server_set, &server, what, counts);
  for (uint32_t what = LR_SET_DUE; what <= LR_SET_CLIENT_ID; what++) WANT(lr_server_set(&server, what, 1000), LR_OK);
  WANT(lr_server_set(&server, LR_SET_DUE, 0), LR_E_RANGE);
  SETS(lr_server_set, &server, LR_SET_ASK_FIRST, truths);
  SETS(lr_server_set, &server, LR_SET_CUTS, truths);
  WANT(lr_server_set(&server, 0, 1), LR_E_RANGE);
  WANT(lr_server_set(&server, LR_SET_CUTS + 1, 1), LR_E_RANGE);
  WANT(lr_server_set(&server, UINT32_MAX, 1), LR_E_RANGE);
  server_works(&server, 1);
  for (uint32_t what = LR_SET_MESSAGE; what <= LR_SET_CLIENT_ID; what++)
    WANT(lr_server_set(&server, what, what == LR_SET_PARTIALS ? 4 : 4096), LR_E_OPEN);
  WANT(lr_server_set(&server, LR_SET_ASK_FIRST, 0), LR_E_OPEN);
  WANT(lr_server_set(&server, LR_SET_CUTS, LR_CUTS_ALIGNED), LR_E_OPEN);
  WANT(lr_server_lost(&server, 1), LR_OK);
  WANT(lr_server_set(&server, LR_SET_DUE, 1000), LR_E_OPEN);
  server_works(&server, 2);
  lr_close(&server);

  WANT(lr_client_open(&client, "A", 1), LR_OK);
  SETS(lr_client_set, &client, LR_CLIENT_KEEP_TRANSIENT, truths);
  SETS(lr_client_set, &client, LR_CLIENT_KEEP_FORWARD, truths);
  SETS(lr_client_set, &client, LR_CLIENT_VERSION, versions);
  SETS(lr_client_set, &client, LR_CLIENT_MESSAGE, messages);
  SETS(lr_client_set, &client, LR_CLIENT_PARTIALS, partials);
  SETS(lr_client_set, &client, LR_CLIENT_CUTS, truths);
  WANT(lr_client_set(&client, 0, 1), LR_E_RANGE);
  WANT(lr_client_set(&client, LR_CLIENT_CUTS + 1, 1), LR_E_RANGE);
  WANT(lr_client_set(&client, UINT32_MAX, 1), LR_E_RANGE);
  WANT(lr_client_set(&client, LR_CLIENT_KEEP_TRANSIENT, 0), LR_OK);
  WANT(lr_client_set(&client, LR_CLIENT_KEEP_FORWARD, 0), LR_OK);
  client_works(&client, 0);
  WANT(lr_client_set(&client, LR_CLIENT_VERSION, 2), LR_E_OPEN);
  WANT(lr_client_set(&client, LR_CLIENT_MESSAGE, 4096), LR_E_OPEN);
  WANT(lr_client_set(&client, LR_CLIENT_PARTIALS, 4), LR_E_OPEN);
  WANT(lr_client_set(&client, LR_CLIENT_CUTS, LR_CUTS_ALIGNED), LR_E_OPEN);
  WANT(lr_client_set(&client, LR_CLIENT_KEEP_FORWARD, 1), LR_OK);
  client_works(&client, 1);
  lr_close(&client);

  for (size_t one = 0; one < COUNT(messages); one++) {
    for (size_t other = 0; other < COUNT(partials); other++) {
      lr_assembler assembler = LR_INIT;
      bool is_right = messages[one].answer == LR_OK && partials[other].answer == LR_OK;
      if (messages[one].number > UINT32_MAX || partials[other].number > UINT32_MAX) continue;
      WANT(lr_assembler_open(&assembler, (uint32_t)messages[one].number, (uint32_t)partials[other].number),
           is_right ? LR_OK : LR_E_RANGE);
      lr_close(&assembler);
      WANT(lr_assembler_open_cuts(&assembler, (uint32_t)messages[one].number, (uint32_t)partials[other].number,
                                  LR_CUTS_ANYWHERE),
           is_right ? LR_OK : LR_E_RANGE);
      lr_close(&assembler);
      WANT(lr_assembler_open_cuts(&assembler, (uint32_t)messages[one].number, (uint32_t)partials[other].number,
                                  LR_CUTS_ANYWHERE + 1),
           LR_E_RANGE);
    }
  }
}

/* Types that are none, and some that are. */
static const struct {
  size_t size;
  uint8_t codes[8];
  bool is_right;
} types[] = {
    {0, {0}, true},
    {1, {LR_TYPE_BOOLEAN}, true},
    {1, {LR_TYPE_OCTETS}, true},
    {2, {LR_TYPE_LONG, LR_TYPE_SEQUENCE}, true},
    {3, {LR_TYPE_LONG, LR_TYPE_SEQUENCE, LR_TYPE_SEQUENCE}, true},
    {5, {LR_TYPE_STRING, LR_TYPE_LONG, LR_TYPE_SEQUENCE, LR_TYPE_STRUCT, 2}, true},
    {2, {LR_TYPE_ENUM, 1}, true},
    {2, {LR_TYPE_ENUM, 255}, true},
    {4, {LR_TYPE_STRING, LR_TYPE_STRUCT, 1, LR_TYPE_LONG}, true},
    {1, {0}, false},
    {1, {15}, false},
    {1, {255}, false},
    {1, {LR_TYPE_SEQUENCE}, false},
    {1, {LR_TYPE_ENUM}, false},
    {2, {LR_TYPE_ENUM, 0}, false},
    {2, {LR_TYPE_LONG, LR_TYPE_STRUCT}, false},
    {3, {LR_TYPE_LONG, LR_TYPE_STRUCT, 0}, false},
    {2, {LR_TYPE_STRUCT, 1}, false},
    {3, {LR_TYPE_LONG, LR_TYPE_STRUCT, 2}, false},
    {3, {LR_TYPE_LONG, LR_TYPE_STRUCT, 255}, false},
};

static void types_are_refused(void) {
  lr_catalogue catalogue = LR_INIT;
  lr_client client = LR_INIT;
  open_catalogue(&catalogue);
  WANT(lr_client_open(&client, "A", 1), LR_OK);
  for (size_t index = 0; index < COUNT(types); index++) {
    const uint8_t *codes = types[index].codes;
    size_t size = types[index].size;
    bool is_right = types[index].is_right;
    char one[] = {'1', (char)('a' + index)}, other[] = {'2', (char)('a' + index)};
    WANT(lr_catalogue_operation(&catalogue, "c", 1, one, 2, codes, size, NULL, 0), is_right ? LR_OK : LR_E_TYPES);
    WANT(lr_catalogue_operation(&catalogue, "c", 1, other, 2, NULL, 0, codes, size), is_right ? LR_OK : LR_E_TYPES);
    WANT(lr_catalogue_exception(&catalogue, "IDL:E:1.0", 9, codes, size), is_right ? LR_OK : LR_E_TYPES);
    if (!is_right)
      WANT(lr_client_call(&client, NOW, LATER, "c", 1, "x", 1, codes, size, LR_ORDER_BIG, NULL, 0), LR_E_TYPES);
  }
  catalogue_works(&catalogue);
  client_works(&client, 0);
  lr_close(&client);
}

static void catalogues_refuse(void) {
  lr_catalogue catalogue = LR_INIT;
  open_catalogue(&catalogue);
  WANT(lr_catalogue_object(&catalogue, "c", 1), LR_E_TAKEN);
  WANT(lr_catalogue_raw_object(&catalogue, "c", 1), LR_E_TAKEN);
  WANT(lr_catalogue_object(&catalogue, "raw", 3), LR_E_TAKEN);
  WANT(lr_catalogue_raw_object(&catalogue, "raw", 3), LR_E_TAKEN);
  WANT(lr_catalogue_operation(&catalogue, "d", 1, "o", 1, NULL, 0, NULL, 0), LR_E_OBJECT);
  WANT(lr_catalogue_raw_operation(&catalogue, "d", 1, "o", 1), LR_E_OBJECT);
  WANT(lr_catalogue_repository_ids(&catalogue, "d", 1, "IDL:D:1.0", 10), LR_E_OBJECT);
  WANT(lr_catalogue_operation(&catalogue, "raw", 3, "o", 1, NULL, 0, NULL, 0), LR_E_RAW);
  WANT(lr_catalogue_raw_operation(&catalogue, "raw", 3, "o", 1), LR_E_RAW);
  WANT(lr_catalogue_repository_ids(&catalogue, "raw", 3, "IDL:D:1.0", 10), LR_E_RAW);
  WANT(lr_catalogue_operation(&catalogue, "c", 1, "add", 3, NULL, 0, NULL, 0), LR_E_TAKEN);
  WANT(lr_catalogue_raw_operation(&catalogue, "c", 1, "add", 3), LR_E_TAKEN);
  WANT(lr_catalogue_operation(&catalogue, "c", 1, "a\0b", 3, NULL, 0, NULL, 0), LR_E_TEXT);
  WANT(lr_catalogue_raw_operation(&catalogue, "c", 1, "a\0b", 3), LR_E_TEXT);
  WANT(lr_catalogue_repository_ids(&catalogue, "c", 1, "IDL:C:1.0", 9), LR_E_TEXT);
  WANT(lr_catalogue_repository_ids(&catalogue, "c", 1, NULL, 0), LR_E_TEXT);
  WANT(lr_catalogue_repository_ids(&catalogue, "c", 1, "IDL:C:1.0", 10), LR_OK);
  WANT(lr_catalogue_repository_ids(&catalogue, "c", 1, "IDL:C:1.0", 10), LR_E_TAKEN);
  WANT(lr_catalogue_operation(&catalogue, "c", 1, "_is_a", 5, NULL, 0, NULL, 0), LR_E_TAKEN);
  WANT(lr_catalogue_raw_operation(&catalogue, "one", 3, "_non_existent", 13), LR_OK);
  WANT(lr_catalogue_repository_ids(&catalogue, "one", 3, "IDL:C:1.0", 10), LR_E_TAKEN);
  WANT(lr_catalogue_object(&catalogue, NULL, 0), LR_OK); /* a key of no octets is a key */
  WANT(lr_catalogue_object(&catalogue, NULL, 0), LR_E_TAKEN);
  catalogue_works(&catalogue);
}

/* Exceptions are those of the next operation, and are forgotten where it is refused. */
static void exceptions_are_of_the_next_operation(void) {
  static const char id[] = "IDL:E:1.0";
  lr_catalogue catalogue = LR_INIT;
  lr_server server = LR_INIT;
  open_catalogue(&catalogue);
  WANT(lr_catalogue_exception(&catalogue, id, SIZE(id), NULL, 0), LR_OK);
  WANT(lr_catalogue_operation(&catalogue, "c", 1, "add", 3, NULL, 0, NULL, 0), LR_E_TAKEN);
  WANT(lr_catalogue_operation(&catalogue, "c", 1, "after", 5, one_long, 1, NULL, 0), LR_OK);
  WANT(lr_catalogue_exception(&catalogue, id, SIZE(id), NULL, 0), LR_OK);
  WANT(lr_catalogue_operation(&catalogue, "c", 1, "raises", 6, one_long, 1, NULL, 0), LR_OK);
  WANT(lr_catalogue_operation(&catalogue, "c", 1, "quiet", 5, one_long, 1, NULL, 0), LR_OK);
  WANT(lr_server_open(&server, &catalogue, 1, 2), LR_OK);
  WANT(lr_server_connect(&server, 1), LR_OK);
  make_request(1, "c", "after", NULL, 0, 5);
  ask(&server, 1);
  WANT(lr_server_raise(&server, ticket, id, SIZE(id), LR_ORDER_BIG, NULL, 0), LR_E_OUTCOME);
  WANT(lr_server_answer(&server, ticket, LR_ORDER_BIG, NULL, 0), LR_OK);
  make_request(2, "c", "quiet", NULL, 0, 5);
  ask(&server, 1);
  WANT(lr_server_raise(&server, ticket, id, SIZE(id), LR_ORDER_BIG, NULL, 0), LR_E_OUTCOME);
  WANT(lr_server_answer(&server, ticket, LR_ORDER_BIG, NULL, 0), LR_OK);
  lr_server_output(&server, 1, room, sizeof room);
  make_request(3, "c", "raises", NULL, 0, 5);
  ask(&server, 1);
  WANT(lr_server_raise(&server, ticket, id, SIZE(id), LR_ORDER_BIG, NULL, 0), LR_OK);
  begin_reply(&wanted, 2, LR_ORDER_BIG, 3, LR_REPLY_USER_EXCEPTION);
  put_text(&wanted, id);
  end_message(&wanted);
  CHECK(is_due(&server));
  lr_close(&server);
}

/* ---- servers ---- */

/* Nothing waits. */
static void idle_servers_refuse(lr_server *server) {
  lr_request request;
  memset(&request, 0xee, sizeof request);
  lr_request before = request;
  WANT(lr_server_asked(server, &request, sizeof request), 0);
  CHECK(memcmp(&request, &before, sizeof request) == 0);
  for (uint32_t part = LR_PART_KEY; part <= LR_PART_CLIENT; part++)
    WANT(lr_server_part(server, ticket, part, room, sizeof room), LR_E_TICKET);
  WANT(lr_server_context(server, 0, &got_id, room, sizeof room), LR_E_IDLE);
  WANT(lr_server_answer(server, ticket, LR_ORDER_BIG, "\0\0\0\1", 4), LR_E_TICKET);
  WANT(lr_server_can_answer(server, ticket, LR_ORDER_BIG, "\0\0\0\1", 4), LR_E_TICKET);
  WANT(exception_of(server, ticket), LR_E_TICKET);
  WANT(lr_server_reply_contexts(server, ticket, LR_ORDER_BIG, NULL, 0), LR_E_TICKET);
  WANT(lr_server_raise(server, ticket, OVERFLOW_ID, SIZE(OVERFLOW_ID), LR_ORDER_BIG, "\0\0\0\1", 4), LR_E_TICKET);
  WANT(lr_server_system(server, ticket, LR_EX_UNKNOWN, 0, LR_COMPLETED_NO), LR_E_TICKET);
  WANT(lr_server_answer_raw(server, ticket, LR_REPLY_NO_EXCEPTION, LR_ORDER_BIG, NULL, 0), LR_E_TICKET);
  WANT(lr_server_identify(server, ticket), LR_E_TICKET);
  WANT(lr_server_refuse(server, ticket, LR_EX_TRANSIENT, 0), LR_E_TICKET);
  WANT(lr_server_refuse(server, ticket, LR_EX_THREAD_CANCELLED + 1, 0), LR_E_RANGE);
  WANT(lr_server_wanted(server, ticket), LR_E_TICKET);
  WANT(lr_server_give_up(server, ticket), LR_E_IDLE);
  WANT(lr_server_goodbye(server, ticket), LR_E_IDLE);
  WANT(lr_server_park(server, ticket), LR_E_IDLE);
  WANT(lr_server_parked(server), 0);
  WANT(lr_server_parked_of(server, fed), 0);
  WANT(lr_server_count(server, LR_COUNT_WITHDRAWN + 1), LR_E_RANGE);
  WANT(lr_server_count(server, UINT32_MAX), LR_E_RANGE);
  got_number = 77;
  WANT(lr_server_next_due(server, &got_number), 0);
  CHECK(got_number == 77);
}

/* A request waits: nothing else is taken, and no outcome that is none. */
static void asking_servers_refuse(lr_server *server) {
  WANT(lr_server_feed(server, 1, NOW, message.all, message.size), LR_E_ASKING);
  WANT(lr_server_feed(server, 1, NOW, NULL, 0), LR_E_ASKING);
  WANT(lr_server_connect(server, 99), LR_E_ASKING);
  WANT(lr_server_lost(server, 1), LR_E_ASKING);
  WANT(lr_server_farewell(server, 1), LR_E_ASKING);
  WANT(lr_server_tick(server, NOW), LR_E_ASKING);
  WANT(lr_server_swap(server, &given), LR_E_EMPTY);
  open_catalogue(&given);
  WANT(lr_server_swap(server, &given), LR_E_ASKING);
  lr_close(&given);
  WANT(lr_server_wanted(server, ticket), LR_E_TICKET); /* (none of it is parked) */
  WANT(lr_server_is_closed(server, 1), 0);
  WANT(lr_server_part(server, ticket, LR_PART_CLIENT, room, sizeof room), LR_E_NONE);
  WANT(lr_server_part(server, ticket, LR_PART_PAYLOAD, room, sizeof room), LR_E_NONE);
  WANT(lr_server_context(server, 0, &got_id, room, sizeof room), LR_E_NONE);
  WANT(lr_server_context(server, UINT32_MAX, &got_id, room, sizeof room), LR_E_NONE);
  WANT(lr_server_part(server, ticket, 5, room, sizeof room), LR_E_NONE);
  WANT(lr_server_part(server, ticket, UINT32_MAX, room, sizeof room), LR_E_NONE);
  WANT(lr_server_system(server, ticket, LR_EX_THREAD_CANCELLED + 1, 0, LR_COMPLETED_NO), LR_E_RANGE);
  WANT(lr_server_system(server, ticket, UINT32_MAX, 0, LR_COMPLETED_NO), LR_E_RANGE);
  WANT(lr_server_system(server, ticket, LR_EX_UNKNOWN, 0, 3), LR_E_RANGE);
  WANT(lr_server_refuse(server, ticket, LR_EX_THREAD_CANCELLED + 1, 0), LR_E_RANGE);
  WANT(lr_server_refuse(server, ticket, UINT32_MAX, 0), LR_E_RANGE);
  WANT(lr_server_identify(server, ticket), 0);
}

/* What each call answers that takes a ticket, where that of the request that waits is another one. A number that is
 * none comes first, and what comes of an outcome last. */
static void other_tickets_are_refused(lr_server *server, uint64_t other) {
  WANT(lr_server_answer(server, other, 2, "\0\0\0\1", 4), LR_E_RANGE);
  WANT(lr_server_answer(server, other, LR_ORDER_BIG, "\0\0\0\1", 4), LR_E_TICKET);
  WANT(lr_server_answer(server, other, LR_ORDER_BIG, NULL, 0), LR_E_TICKET);
  WANT(lr_server_can_answer(server, other, 2, "\0\0\0\1", 4), LR_E_RANGE);
  WANT(lr_server_can_answer(server, other, LR_ORDER_BIG, NULL, 0), LR_E_TICKET);
  WANT(exception_of(server, other), LR_E_TICKET);
  WANT(lr_server_reply_contexts(server, other, 2, "\0", 1), LR_E_RANGE);
  WANT(lr_server_reply_contexts(server, other, LR_ORDER_BIG, "\0", 1), LR_E_TICKET);
  WANT(lr_server_raise(server, other, OVERFLOW_ID, SIZE(OVERFLOW_ID), 2, "\0\0\0\1", 4), LR_E_RANGE);
  WANT(lr_server_raise(server, other, OVERFLOW_ID, SIZE(OVERFLOW_ID), LR_ORDER_BIG, "\0\0\0\1", 4), LR_E_TICKET);
  WANT(lr_server_raise(server, other, NULL, 0, LR_ORDER_BIG, NULL, 0), LR_E_TICKET);
  WANT(lr_server_system(server, other, LR_EX_THREAD_CANCELLED + 1, 0, LR_COMPLETED_NO), LR_E_RANGE);
  WANT(lr_server_system(server, other, LR_EX_UNKNOWN, 0, LR_COMPLETED_NO), LR_E_TICKET);
  WANT(lr_server_answer_raw(server, other, LR_REPLY_NO_EXCEPTION, 2, NULL, 0), LR_E_RANGE);
  WANT(lr_server_answer_raw(server, other, LR_REPLY_NO_EXCEPTION, LR_ORDER_BIG, NULL, 0), LR_E_TICKET);
  WANT(lr_server_identify(server, other), LR_E_TICKET);
  for (uint32_t part = LR_PART_KEY; part <= LR_PART_PAYLOAD; part++)
    WANT(lr_server_part(server, other, part, room, sizeof room), LR_E_TICKET);
  WANT(lr_server_wanted(server, other), LR_E_TICKET);
  WANT(lr_server_park(server, other), LR_E_TICKET);
  WANT(lr_server_give_up(server, other), LR_E_TICKET);
  WANT(lr_server_refuse(server, other, LR_EX_THREAD_CANCELLED + 1, 0), LR_E_RANGE);
  WANT(lr_server_refuse(server, other, LR_EX_TRANSIENT, 0), LR_E_TICKET);
  WANT(lr_server_goodbye(server, other), LR_E_TICKET);
}

/* A request is answered by its own ticket, and by no other: what comes late for one that was given up is not taken. */
static void tickets_are_of_one_request(void) {
  lr_server server = LR_INIT;
  open_server(&server);
  for (uint64_t connection = 1, late = UINT64_MAX; connection <= 3; connection++, late = ticket) {
    WANT(lr_server_connect(&server, connection), LR_OK);
    make_request(7, "c", "add", "A", 3, 5);
    ask(&server, connection);
    CHECK(ticket != late);
    other_tickets_are_refused(&server, late);
    other_tickets_are_refused(&server, 0);
    other_tickets_are_refused(&server, ticket + 1);
    WANT(lr_server_connect(&server, 99), LR_E_ASKING); /* (it waits still) */
    if (connection < 3) {
      WANT(lr_server_give_up(&server, ticket), LR_OK);
      WANT(lr_server_give_up(&server, ticket), LR_E_IDLE);
      continue;
    }
    WANT(lr_server_answer(&server, ticket, LR_ORDER_BIG, "\0\0\0\6", 4), LR_OK);
    make_reply(7, 6);
    CHECK(is_due(&server));
  }
  lr_close(&server);
}

/* A request is refused, and so is its repeat; then it is performed once. Its connection stays. */
static void refused_requests_come_again(void) {
  lr_server server = LR_INIT;
  open_server(&server);
  WANT(lr_server_connect(&server, 1), LR_OK);
  make_request(7, "c", "add", "A", 3, 5);
  for (uint64_t times = 1; times <= 2; times++) {
    ask(&server, 1);
    WANT(lr_server_refuse(&server, ticket, times == 1 ? LR_EX_TRANSIENT : LR_EX_NO_RESOURCES, 9), LR_OK);
    WANT(lr_server_refuse(&server, ticket, LR_EX_TRANSIENT, 9), LR_E_TICKET);
    system_reply(&wanted, 2, 7, times == 1 ? "IDL:omg.org/CORBA/TRANSIENT:1.0" : "IDL:omg.org/CORBA/NO_RESOURCES:1.0",
                 LR_COMPLETED_NO);
    wanted.all[wanted.size - 5] = 9; /* (the minor code) */
    CHECK(is_due(&server));
    WANT(lr_server_is_closed(&server, 1), 0);
  }
  ask(&server, 1);
  WANT(lr_server_answer(&server, ticket, LR_ORDER_BIG, "\0\0\0\6", 4), LR_OK);
  make_reply(7, 6);
  CHECK(is_due(&server));
  feed(&server, 1);
  CHECK(is_due(&server)); /* (now it is kept) */
  idle_servers_refuse(&server);
  server_works(&server, 2);
  lr_close(&server);
}

/* Goodbye is said after what was answered before, and the connection is gone. */
static void goodbye_comes_before_the_end(void) {
  static const unsigned char goodbye[] = {'G', 'I', 'O', 'P', 1, 0, 0, 5, 0, 0, 0, 0};
  lr_server server = LR_INIT;
  open_server(&server);
  WANT(lr_server_connect(&server, 1), LR_OK);
  make_request(6, "c", "add", "A", 2, 5);
  ask(&server, 1);
  WANT(lr_server_answer(&server, ticket, LR_ORDER_BIG, "\0\0\0\6", 4), LR_OK);
  make_request(7, "c", "add", "A", 3, 5);
  ask(&server, 1);
  WANT(lr_server_goodbye(&server, ticket), LR_OK);
  WANT(lr_server_goodbye(&server, ticket), LR_E_IDLE);
  WANT(lr_server_is_closed(&server, 1), 1);
  make_reply(6, 6);
  put_octets(&wanted, goodbye, sizeof goodbye);
  CHECK(is_due(&server));
  WANT(lr_server_connect(&server, 2), LR_OK); /* nothing was kept, so it is asked again */
  ask(&server, 2);
  WANT(lr_server_answer(&server, ticket, LR_ORDER_BIG, "\0\0\0\6", 4), LR_OK);
  make_reply(7, 6);
  CHECK(is_due(&server));
  server_works(&server, 3);
  lr_close(&server);
}

/* Outcomes of the operation add(long) -> long, raises Overflow { long }, that are none. */
static void typed_outcomes_are_refused(lr_server *server) {
  WANT(lr_server_answer(server, ticket, 2, "\0\0\0\1", 4), LR_E_RANGE);
  WANT(lr_server_answer(server, ticket, UINT32_MAX, "\0\0\0\1", 4), LR_E_RANGE);
  WANT(lr_server_answer(server, ticket, LR_ORDER_BIG, "\0\0\0", 3), LR_E_OUTCOME);
  WANT(lr_server_answer(server, ticket, LR_ORDER_BIG, "\0\0\0\1\0", 5), LR_E_OUTCOME);
  WANT(lr_server_answer(server, ticket, LR_ORDER_BIG, NULL, 0), LR_E_OUTCOME);
  WANT(lr_server_raise(server, ticket, "IDL:Other:1.0", 13, LR_ORDER_BIG, "\0\0\0\1", 4), LR_E_OUTCOME);
  WANT(lr_server_raise(server, ticket, NULL, 0, LR_ORDER_BIG, "\0\0\0\1", 4), LR_E_OUTCOME);
  WANT(lr_server_raise(server, ticket, OVERFLOW_ID, SIZE(OVERFLOW_ID), LR_ORDER_BIG, "\0\0\0", 3), LR_E_OUTCOME);
  WANT(lr_server_raise(server, ticket, OVERFLOW_ID, SIZE(OVERFLOW_ID), LR_ORDER_BIG, NULL, 0), LR_E_OUTCOME);
  WANT(lr_server_raise(server, ticket, OVERFLOW_ID, SIZE(OVERFLOW_ID), 2, "\0\0\0\1", 4), LR_E_RANGE);
}

/* .. which is told before, with the body that an exception has. */
static void typed_outcomes_are_told_before(lr_server *server) {
  static const unsigned char body[] = "\31\0\0\0" OVERFLOW_ID "\0\0\0\0\6\0\0";
  WANT(lr_server_can_answer(server, ticket, 2, "\0\0\0\1", 4), LR_E_RANGE);
  WANT(lr_server_can_answer(server, ticket, LR_ORDER_BIG, "\0\0\0", 3), LR_E_OUTCOME);
  WANT(lr_server_can_answer(server, ticket, LR_ORDER_BIG, "\0\0\0\1\0", 5), LR_E_OUTCOME);
  WANT(lr_server_can_answer(server, ticket, LR_ORDER_BIG, NULL, 0), LR_E_OUTCOME);
  for (uint32_t order = LR_ORDER_BIG; order <= LR_ORDER_LITTLE; order++)
    WANT(lr_server_can_answer(server, ticket, order, "\0\0\0\1", 4), LR_OK);
  WANT(lr_server_exception(server, ticket, "IDL:O:1.0", 9, LR_ORDER_BIG, "\0\0\0\1", 4, room, 9), LR_E_OUTCOME);
  WANT(lr_server_exception(server, ticket, OVERFLOW_ID, SIZE(OVERFLOW_ID), LR_ORDER_BIG, NULL, 0, room, 9), LR_E_OUTCOME);
  WANT(lr_server_exception(server, ticket, OVERFLOW_ID, SIZE(OVERFLOW_ID), 2, "\0\0\0\1", 4, room, 9), LR_E_RANGE);
  memset(room, 0xee, 64);
  for (size_t size = 0; size <= sizeof body; size += 9) { /* as much as the room has */
    WANT(lr_server_exception(server, ticket, OVERFLOW_ID, SIZE(OVERFLOW_ID), LR_ORDER_LITTLE, "\6\0\0\0", 4, room, size),
         36);
    CHECK(memcmp(room, body, size < 36 ? size : 36) == 0 && room[size < 36 ? size : 36] == 0xee);
  }
}

/* The same of a raw operation. */
static void raw_outcomes_are_refused(lr_server *server) {
  static unsigned char body[1048577];
  WANT(lr_server_can_answer(server, ticket, LR_ORDER_BIG, "\0\0\0\1", 4), LR_E_OUTCOME);
  WANT(exception_of(server, ticket), LR_E_OUTCOME);
  WANT(lr_server_answer(server, ticket, LR_ORDER_BIG, "\0\0\0\1", 4), LR_E_OUTCOME);
  WANT(lr_server_answer(server, ticket, LR_ORDER_BIG, NULL, 0), LR_E_OUTCOME);
  WANT(lr_server_raise(server, ticket, OVERFLOW_ID, SIZE(OVERFLOW_ID), LR_ORDER_BIG, "\0\0\0\1", 4), LR_E_OUTCOME);
  WANT(lr_server_answer_raw(server, ticket, LR_REPLY_LOCATION_FORWARD + 1, LR_ORDER_BIG, NULL, 0), LR_E_RANGE);
  WANT(lr_server_answer_raw(server, ticket, UINT32_MAX, LR_ORDER_BIG, NULL, 0), LR_E_RANGE);
  WANT(lr_server_answer_raw(server, ticket, LR_REPLY_NO_EXCEPTION, 2, NULL, 0), LR_E_RANGE);
  WANT(lr_server_answer_raw(server, ticket, LR_REPLY_NO_EXCEPTION, LR_ORDER_BIG, body, sizeof body), LR_E_OUTCOME);
}

static void servers_refuse(void) {
  static unsigned char body[1048576];
  lr_server server = LR_INIT;
  open_server(&server);
  idle_servers_refuse(&server);
  WANT(lr_server_connect(&server, 1), LR_OK);
  make_request(1, "c", "add", NULL, 0, 5);
  ask(&server, 1);
  asking_servers_refuse(&server);
  typed_outcomes_are_refused(&server);
  typed_outcomes_are_told_before(&server);
  WANT(lr_server_answer(&server, ticket, LR_ORDER_LITTLE, "\6\0\0\0", 4), LR_OK);
  begin_reply(&wanted, 2, LR_ORDER_LITTLE, 1, LR_REPLY_NO_EXCEPTION);
  put_number(&wanted, 6, 4);
  end_message(&wanted);
  CHECK(is_due(&server));
  idle_servers_refuse(&server);
  make_request(2, "c", "add", NULL, 0, 5);
  ask(&server, 1);
  WANT(lr_server_raise(&server, ticket, OVERFLOW_ID, SIZE(OVERFLOW_ID), LR_ORDER_LITTLE, "\6\0\0\0", 4), LR_OK);
  begin_reply(&wanted, 2, LR_ORDER_LITTLE, 2, LR_REPLY_USER_EXCEPTION);
  put_text(&wanted, OVERFLOW_ID);
  put_number(&wanted, 6, 4);
  end_message(&wanted);
  CHECK(is_due(&server));
  make_request(3, "c", "is", NULL, 0, 5);
  ask(&server, 1);
  WANT(lr_server_answer(&server, ticket, LR_ORDER_BIG, "\2", 1), LR_E_OUTCOME); /* no boolean */
  WANT(lr_server_system(&server, ticket, LR_EX_TRANSIENT, 0, LR_COMPLETED_MAYBE), LR_OK);
  system_reply(&wanted, 2, 3, "IDL:omg.org/CORBA/TRANSIENT:1.0", LR_COMPLETED_MAYBE);
  CHECK(is_due(&server));
  make_request(4, "one", "do", NULL, 0, 5);
  ask(&server, 1);
  asking_servers_refuse(&server);
  raw_outcomes_are_refused(&server);
  WANT(lr_server_answer_raw(&server, ticket, LR_REPLY_LOCATION_FORWARD, LR_ORDER_LITTLE, body, sizeof body), LR_OK);
  CHECK(lr_server_output(&server, 1, room, sizeof room) == 24 + (int64_t)sizeof body && room[6] == LR_ORDER_LITTLE);
  make_request(5, "raw", "anything", NULL, 0, 5);
  ask(&server, 1);
  raw_outcomes_are_refused(&server);
  WANT(lr_server_answer_raw(&server, ticket, LR_REPLY_NO_EXCEPTION, LR_ORDER_BIG, NULL, 0), LR_OK);
  begin_reply(&wanted, 2, LR_ORDER_BIG, 5, LR_REPLY_NO_EXCEPTION);
  end_message(&wanted);
  CHECK(is_due(&server));
  server_works(&server, 2);
  lr_close(&server);
}

/* What a raw request is said to be, in little order. */
static void raw_requests_are_as_they_came(void) {
  struct asking asking = {2, LR_ORDER_LITTLE, 9, LR_WISH_EMPTY, "raw", "any", "client", -5, LATER};
  lr_server server = LR_INIT;
  lr_request request;
  open_server(&server);
  WANT(lr_server_connect(&server, 3), LR_OK);
  begin_request(&message, &asking, true);
  put_octets(&message, "\1\2\3", 3);
  end_message(&message);
  ask(&server, 3);
  WANT(lr_server_asked(&server, &request, sizeof request), 1);
  CHECK(request.connection == 3 && request.key_size == 3 && request.operation_size == 3 && request.is_raw == 1);
  CHECK(request.body_size == 3 && request.body_order == LR_ORDER_LITTLE && request.body_at == message.size - 3);
  CHECK(request.request_id == 9 && request.version == 2 && request.wish == LR_WISH_EMPTY);
  CHECK(request.has_client == 1 && request.retention_id == -5 && request.client_size == 6);
  CHECK(request.expiration == LATER);
  memset(room, 0xee, 16);
  WANT(lr_server_part(&server, ticket, LR_PART_BODY, room, 2), 3); /* as much as the room has */
  CHECK(memcmp(room, "\1\2\xee", 3) == 0);
  WANT(lr_server_part(&server, ticket, LR_PART_KEY, NULL, 0), 3);
  WANT(lr_server_part(&server, ticket, LR_PART_OPERATION, room, sizeof room), 3);
  CHECK(memcmp(room, "any", 3) == 0);
  WANT(lr_server_part(&server, ticket, LR_PART_CLIENT, room, sizeof room), 6);
  CHECK(memcmp(room, "client", 6) == 0);
  WANT(lr_server_give_up(&server, ticket), LR_OK);
  WANT(lr_server_is_closed(&server, 3), 1);
  WANT(lr_server_output(&server, 3, room, sizeof room), 0);
  WANT(lr_server_connect(&server, 4), LR_OK); /* it was given up, so it is asked again */
  ask(&server, 4);
  WANT(lr_server_answer_raw(&server, ticket, LR_REPLY_NO_EXCEPTION, LR_ORDER_BIG, "\1", 1), LR_OK);
  begin_reply(&wanted, 2, LR_ORDER_BIG, 9, LR_REPLY_NO_EXCEPTION); /* an empty reply was wished for */
  end_message(&wanted);
  CHECK(is_due(&server));
  lr_close(&server);
}

/* Numbers of connections, and octets that are due. */
static void connections_are_refused(void) {
  static const unsigned char locate[] = {'G', 'I', 'O', 'P', 1, 0, 0, 3, 0, 0, 0, 9, 0, 0, 0, 5, 0, 0, 0, 1, 'c'},
                             here[] = {'G', 'I', 'O', 'P', 1, 0, 0, 4, 0, 0, 0, 8, 0, 0, 0, 5, 0, 0, 0, 1},
                             goodbye[] = {'G', 'I', 'O', 'P', 1, 0, 0, 5, 0, 0, 0, 0};
  lr_server server = LR_INIT;
  open_server(&server);
  WANT(lr_server_is_closed(&server, 5), 1);
  WANT(lr_server_feed(&server, 5, NOW, "G", 1), LR_E_CONNECTION);
  WANT(lr_server_farewell(&server, 5), LR_E_CONNECTION);
  WANT(lr_server_lost(&server, 5), LR_OK);
  WANT(lr_server_connect(&server, 5), LR_OK);
  WANT(lr_server_connect(&server, 5), LR_E_CONNECTION);
  WANT(lr_server_connect(&server, 4), LR_E_CONNECTION);
  WANT(lr_server_connect(&server, 0), LR_E_CONNECTION);
  WANT(lr_server_is_closed(&server, 5), 0);
  WANT(lr_server_connect(&server, UINT64_MAX), LR_OK);
  WANT(lr_server_connect(&server, UINT64_MAX), LR_E_CONNECTION);
  WANT(lr_server_feed(&server, 5, NOW, NULL, 0), 0);
  WANT(lr_server_feed(&server, 5, NOW, locate, sizeof locate), sizeof locate);
  WANT(lr_server_feed(&server, UINT64_MAX, NOW, locate, sizeof locate), sizeof locate); /* (each has its own) */
  WANT(lr_server_output(&server, 5, NULL, 0), 0);
  for (size_t index = 0; index < sizeof here; index++) {
    WANT(lr_server_output(&server, 5, room, 1), 1);
    CHECK(room[0] == here[index]);
  }
  WANT(lr_server_output(&server, 5, room, sizeof room), 0);
  WANT(lr_server_output(&server, 6, room, sizeof room), 0);
  WANT(lr_server_lost(&server, UINT64_MAX), LR_OK); /* what is due goes with it */
  WANT(lr_server_output(&server, UINT64_MAX, room, sizeof room), 0);
  WANT(lr_server_feed(&server, 5, NOW, locate, sizeof locate), sizeof locate);
  WANT(lr_server_farewell(&server, 5), LR_OK); /* after what is due */
  WANT(lr_server_is_closed(&server, 5), 1);
  WANT(lr_server_output(&server, 5, room, sizeof room), sizeof here + sizeof goodbye);
  CHECK(memcmp(room, here, sizeof here) == 0 && memcmp(room + sizeof here, goodbye, sizeof goodbye) == 0);
  WANT(lr_server_farewell(&server, 5), LR_OK); /* once only */
  WANT(lr_server_output(&server, 5, room, sizeof room), 0);
  lr_close(&server);
}

/* _is_a and _non_existent. */
static void objects_are_identified(void) {
  static const struct {
    const char *operation, *id;
    unsigned char answer;
  } asked[] = {{"_is_a", "IDL:C:1.0", 1},
               {"_is_a", "IDL:D:1.0", 1},
               {"_is_a", "IDL:E:1.0", 0},
               {"_is_a", "IDL:omg.org/CORBA/Object:1.0", 1},
               {"_non_existent", NULL, 0}};
  lr_catalogue catalogue = LR_INIT;
  lr_server server = LR_INIT;
  open_catalogue(&catalogue);
  WANT(lr_catalogue_repository_ids(&catalogue, "c", 1, "IDL:C:1.0\0IDL:D:1.0", 20), LR_OK);
  WANT(lr_server_open(&server, &catalogue, 1, 2), LR_OK);
  WANT(lr_server_connect(&server, 1), LR_OK);
  for (uint32_t index = 0; index < COUNT(asked); index++) {
    struct asking asking = {2, LR_ORDER_BIG, index, LR_WISH_FULL, "c", asked[index].operation, NULL, 0, 0};
    begin_request(&message, &asking, asked[index].id != NULL);
    if (asked[index].id != NULL) put_text(&message, asked[index].id);
    end_message(&message);
    ask(&server, 1);
    WANT(lr_server_identify(&server, ticket), 1);
    WANT(lr_server_identify(&server, ticket), LR_E_TICKET);
    begin_reply(&wanted, 2, LR_ORDER_BIG, index, LR_REPLY_NO_EXCEPTION);
    put_number(&wanted, asked[index].answer, 1);
    end_message(&wanted);
    CHECK(is_due(&server));
  }
  lr_close(&server);
}

/* ---- clients ---- */

static void client_names_are_refused(void) {
  char name[257];
  lr_client client = LR_INIT;
  memset(name, 'x', sizeof name);
  WANT(lr_client_open(&client, NULL, 0), LR_E_TEXT);
  WANT(lr_client_open(&client, name, 257), LR_E_TEXT);
  WANT(lr_client_open(&client, "a\0b", 3), LR_E_TEXT);
  CHECK(client.kind == 0);
  WANT(lr_client_open(&client, name, 256), LR_OK);
  lr_close(&client);
}

static void calls_are_refused(lr_client *client) {
  static const uint8_t text[] = {LR_TYPE_STRING};
  WANT(lr_client_call(client, NOW, LATER, "c", 1, "x", 1, one_long, 1, 2, "\0\0\0\1", 4), LR_E_RANGE);
  WANT(lr_client_call(client, NOW, LATER, "c", 1, "x", 1, one_long, 1, LR_ORDER_BIG, "\0\0\0", 3), LR_E_SHORT);
  WANT(lr_client_call(client, NOW, LATER, "c", 1, "x", 1, one_long, 1, LR_ORDER_BIG, NULL, 0), LR_E_SHORT);
  WANT(lr_client_call(client, NOW, LATER, "c", 1, "x", 1, one_long, 1, LR_ORDER_BIG, "\0\0\0\1\0", 5), LR_E_VALUE);
  WANT(lr_client_call(client, NOW, LATER, "c", 1, "x", 1, NULL, 0, LR_ORDER_BIG, "\0", 1), LR_E_VALUE);
  WANT(lr_client_call(client, NOW, LATER, "c", 1, "x", 1, one_boolean, 1, LR_ORDER_BIG, "\2", 1), LR_E_VALUE);
  WANT(lr_client_call(client, NOW, LATER, "c", 1, "x", 1, text, 1, LR_ORDER_BIG, "\0\0\0\2ab", 6), LR_E_VALUE);
  WANT(lr_client_call(client, NOW, LATER, "c", 1, "x\0", 2, one_long, 1, LR_ORDER_BIG, "\0\0\0\1", 4), LR_E_TEXT);
  WANT(lr_client_call(client, NOW, NOW - 1, "c", 1, "x", 1, one_long, 1, LR_ORDER_BIG, "\0\0\0\1", 4), LR_E_EXPIRED);
  WANT(lr_client_cancel(client, INT64_MAX), LR_E_RANGE);
  WANT(lr_client_cancel(client, INT64_MIN), LR_E_RANGE);
  WANT(lr_client_cancel(client, (INT64_C(1) << 32) + 1), LR_E_RANGE);
  WANT(lr_client_cancel(client, 1), 0);
}

static void clients_refuse(void) {
  lr_client client = LR_INIT;
  lr_completion completion;
  memset(&completion, 0xee, sizeof completion);
  lr_completion before = completion;
  WANT(lr_client_open(&client, "A", 1), LR_OK);
  calls_are_refused(&client);
  WANT(lr_client_is_connected(&client), 0);
  WANT(lr_client_output(&client, room, sizeof room), 0);
  WANT(lr_client_completed(&client, &completion, sizeof completion), 0);
  CHECK(memcmp(&completion, &before, sizeof completion) == 0);
  WANT(lr_client_body(&client, room, sizeof room), LR_E_NONE);
  client_works(&client, 0);
  calls_are_refused(&client);
  client_works(&client, 1);
  WANT(lr_client_is_connected(&client), 1);
  WANT(lr_client_feed(&client, NULL, 0) >= 0, 1);
  WANT(lr_client_output(&client, NULL, 0), 0);
  WANT(lr_client_lost(&client), LR_OK);
  WANT(lr_client_is_connected(&client), 0);
  for (int64_t call = 3; call < 3 + 64; call++) WANT(call_add(&client), call);
  WANT(call_add(&client), LR_E_CALLS);
  WANT(lr_client_cancel(&client, 3), 1);
  WANT(lr_client_cancel(&client, 3), 0);
  WANT(lr_client_completed(&client, &completion, sizeof completion), 1);
  CHECK(completion.call == 3 && completion.how == LR_ENDED_CANCELLED && completion.body_size == 0);
  WANT(lr_client_body(&client, room, sizeof room), LR_E_NONE);
  client_works(&client, 66);
  WANT(lr_client_tick(&client, LATER), LR_OK);
  WANT(lr_client_completed(&client, &completion, sizeof completion), 0);
  WANT(lr_client_tick(&client, LATER + 1), LR_OK);
  for (int64_t call = 4; call < 3 + 64; call++) {
    WANT(lr_client_completed(&client, &completion, sizeof completion), 1);
    CHECK(completion.call == call && completion.how == LR_ENDED_EXPIRED);
  }
  client_works(&client, 67);
  WANT(call_add(&client), 69);
  WANT(lr_client_connected(&client, LATER + 1), LR_OK); /* what is past its expiration is not sent again */
  WANT(lr_client_output(&client, room, sizeof room), 0);
  WANT(lr_client_connected(&client, LATER), LR_OK);
  CHECK(lr_client_output(&client, room, sizeof room) > 0);
  lr_close(&client);
}

/* ---- streams and messages ---- */

static void assemblers_refuse(void) {
  static const unsigned char goodbye[] = {'G', 'I', 'O', 'P', 1, 2, 0, 5, 0, 0, 0, 0};
  lr_assembler assembler = LR_INIT;
  lr_message head;
  memset(&head, 0xee, sizeof head);
  lr_message before = head;
  uint32_t id = 77;
  WANT(lr_assembler_open(&assembler, LIMIT, PARTIALS), LR_OK);
  WANT(lr_assembler_message(&assembler, &head, sizeof head), 0);
  CHECK(memcmp(&head, &before, sizeof head) == 0);
  WANT(lr_assembler_part(&assembler, LR_PART_KEY, room, sizeof room), LR_E_NONE);
  WANT(lr_assembler_context(&assembler, 0, &id, room, sizeof room), LR_E_NONE);
  WANT(lr_assembler_feed(&assembler, NULL, 0), 0);
  WANT(lr_assembler_fault(&assembler), 0);
  assembler_works(&assembler);
  WANT(lr_assembler_part(&assembler, LR_PART_PAYLOAD, room, sizeof room), LR_E_NONE);
  WANT(lr_assembler_part(&assembler, 5, room, sizeof room), LR_E_NONE);
  WANT(lr_assembler_part(&assembler, LR_PART_CLIENT, NULL, 0), 1);
  WANT(lr_assembler_context(&assembler, 1, &id, room, sizeof room), LR_E_NONE);
  WANT(lr_assembler_context(&assembler, UINT32_MAX, &id, room, sizeof room), LR_E_NONE);
  CHECK(id == 77);
  CHECK(lr_assembler_context(&assembler, 0, &id, NULL, 0) > 0 && id == LR_CONTEXT_FT_REQUEST);
  WANT(lr_assembler_feed(&assembler, goodbye, sizeof goodbye), sizeof goodbye);
  WANT(lr_assembler_message(&assembler, &head, sizeof head), 1);
  CHECK(head.type == LR_MSG_CLOSE_CONNECTION && head.key_size == 0 && head.body_size == 0 && head.has_key == 0);
  for (uint32_t part = LR_PART_KEY; part <= LR_PART_PAYLOAD; part++)
    WANT(lr_assembler_part(&assembler, part, room, sizeof room), LR_E_NONE);
  WANT(lr_assembler_context(&assembler, 0, &id, room, sizeof room), LR_E_NONE);
  assembler_works(&assembler);
  WANT(lr_assembler_feed(&assembler, "GIOQ\1\2\0\0\0\0\0\0", 12), LR_E_STREAM);
  WANT(lr_assembler_fault(&assembler), LR_FAULT_MAGIC);
  WANT(lr_assembler_feed(&assembler, message.all, message.size), LR_E_STREAM);
  WANT(lr_assembler_fault(&assembler), LR_FAULT_MAGIC);
  lr_close(&assembler);
}

/* Faults of a stream, by what comes first. */
static void faults_are_named(void) {
  static const struct {
    int64_t fault;
    size_t size;
    unsigned char octets[32];
  } rows[] = {
      {LR_FAULT_MAGIC, 12, "XIOP\1\2\0\0\0\0\0\0"},
      {LR_FAULT_VERSION, 12, "GIOP\1\3\0\0\0\0\0\0"},
      {LR_FAULT_VERSION, 12, "GIOP\2\0\0\0\0\0\0\0"},
      {LR_FAULT_FLAGS, 12, "GIOP\1\0\2\0\0\0\0\0"},
      {LR_FAULT_TYPE, 12, "GIOP\1\2\0\10\0\0\0\0"},
      {LR_FAULT_TOO_LARGE, 12, "GIOP\1\2\0\0\0\0\x0f\xf5"},
      {LR_FAULT_STRAY_FRAGMENT, 16, "GIOP\1\2\0\7\0\0\0\4\0\0\0\5"},
      {LR_FAULT_BODY, 15, "GIOP\1\2\0\2\0\0\0\3\0\0\0"},
  };
  for (size_t index = 0; index < COUNT(rows); index++) {
    lr_assembler assembler = LR_INIT;
    WANT(lr_assembler_open(&assembler, 4096, 1), LR_OK);
    WANT(lr_assembler_feed(&assembler, rows[index].octets, rows[index].size), LR_E_STREAM);
    if (!WANT(lr_assembler_fault(&assembler), rows[index].fault)) printf("row %d\n", (int)index);
    lr_close(&assembler);
  }
}

/* A Reply of 1.1 of 24 octets, and an empty last Fragment: its octets leave 0 modulo 8, so where cuts are to be aligned
 * it is refused. */
static void cuts_of_1_1_are_refused(void) {
  static const char cut[] =
      "GIOP\1\1\2\1\0\0\0\14\0\0\0\0\0\0\0\7\0\0\0\0"
      "GIOP\1\1\0\7\0\0\0\0";
  lr_assembler assembler = LR_INIT;
  lr_message said;
  WANT(lr_assembler_open(&assembler, 4096, 1), LR_OK);
  WANT(lr_assembler_feed(&assembler, cut, SIZE(cut)), LR_E_STREAM);
  WANT(lr_assembler_fault(&assembler), LR_FAULT_UNALIGNED_FRAGMENT);
  lr_close(&assembler);
  WANT(lr_assembler_open_cuts(&assembler, 4096, 1, LR_CUTS_ANYWHERE), LR_OK);
  WANT(lr_assembler_feed(&assembler, cut, SIZE(cut)), SIZE(cut));
  WANT(lr_assembler_message(&assembler, &said, sizeof said), 1);
  CHECK(said.type == LR_MSG_REPLY && said.version == 1 && said.request_id == 7 && said.body_size == 0);
  lr_close(&assembler);
}

static int64_t write_request_of(uint32_t version, uint32_t order, uint32_t wish, const char *operation,
                                size_t operation_size, size_t size) {
  return lr_write_request(room, size, version, order, 7, wish, "c", 1, operation, operation_size, 0, NULL, 0,
                          "\0\0\0\5", 4);
}

static void messages_are_refused(void) {
  make_request(7, "c", "add", NULL, 0, 5);
  make_reply(7, 6);
  WANT(write_request_of(3, LR_ORDER_BIG, LR_WISH_FULL, "add", 3, sizeof room), LR_E_RANGE);
  WANT(write_request_of(2, 2, LR_WISH_FULL, "add", 3, sizeof room), LR_E_RANGE);
  WANT(write_request_of(2, LR_ORDER_BIG, 3, "add", 3, sizeof room), LR_E_RANGE);
  WANT(write_request_of(0, LR_ORDER_BIG, LR_WISH_EMPTY, "add", 3, sizeof room), LR_E_RANGE);
  WANT(write_request_of(1, LR_ORDER_BIG, LR_WISH_EMPTY, "add", 3, sizeof room), LR_E_RANGE);
  WANT(write_request_of(2, LR_ORDER_BIG, LR_WISH_FULL, "a\0d", 3, sizeof room), LR_E_TEXT);
  memset(room, 0xee, message.size);
  WANT(write_request_of(2, LR_ORDER_BIG, LR_WISH_FULL, "add", 3, message.size - 1), LR_E_ROOM);
  CHECK(room[0] == 0xee && memcmp(room, room + 1, message.size - 1) == 0);
  WANT(write_request_of(2, LR_ORDER_BIG, LR_WISH_FULL, "add", 3, message.size), (int64_t)message.size);
  CHECK(equal(room, message.size, &message));
  WANT(lr_write_request(NULL, 0, 2, LR_ORDER_BIG, 7, LR_WISH_FULL, NULL, 0, NULL, 0, 0, NULL, 0, NULL, 0), LR_E_ROOM);
  WANT(lr_write_reply(room, sizeof room, 3, LR_ORDER_BIG, 7, LR_REPLY_NO_EXCEPTION, NULL, 0), LR_E_RANGE);
  WANT(lr_write_reply(room, sizeof room, 2, 2, 7, LR_REPLY_NO_EXCEPTION, NULL, 0), LR_E_RANGE);
  WANT(lr_write_reply(room, sizeof room, 2, LR_ORDER_BIG, 7, LR_REPLY_NEEDS_ADDRESSING_MODE + 1, NULL, 0), LR_E_RANGE);
  WANT(lr_write_reply(room, sizeof room, 0, LR_ORDER_BIG, 7, LR_REPLY_LOCATION_FORWARD_PERM, NULL, 0), LR_E_RANGE);
  WANT(lr_write_reply(room, wanted.size - 1, 2, LR_ORDER_BIG, 7, LR_REPLY_NO_EXCEPTION, "\0\0\0\6", 4), LR_E_ROOM);
  WANT(lr_write_reply(room, wanted.size, 2, LR_ORDER_BIG, 7, LR_REPLY_NO_EXCEPTION, "\0\0\0\6", 4),
       (int64_t)wanted.size);
  CHECK(equal(room, wanted.size, &wanted));
  WANT(lr_write_cancel(room, sizeof room, 3, LR_ORDER_BIG, 7), LR_E_RANGE);
  WANT(lr_write_cancel(room, sizeof room, 2, 2, 7), LR_E_RANGE);
  WANT(lr_write_cancel(room, 15, 2, LR_ORDER_BIG, 7), LR_E_ROOM);
  WANT(lr_write_cancel(room, 16, 2, LR_ORDER_BIG, 7), 16);
  CHECK(memcmp(room, "GIOP\1\2\0\2\0\0\0\4\0\0\0\7", 16) == 0);
  WANT(lr_write_locate_request(room, sizeof room, 3, LR_ORDER_BIG, 7, "c", 1), LR_E_RANGE);
  WANT(lr_write_locate_request(room, sizeof room, 2, 2, 7, "c", 1), LR_E_RANGE);
  WANT(lr_write_locate_request(room, 20, 0, LR_ORDER_BIG, 7, "c", 1), LR_E_ROOM);
  WANT(lr_write_locate_request(room, 21, 0, LR_ORDER_BIG, 7, "c", 1), 21);
  CHECK(memcmp(room, "GIOP\1\0\0\3\0\0\0\11\0\0\0\7\0\0\0\1c", 21) == 0);
  WANT(lr_write_locate_reply(room, sizeof room, 3, LR_ORDER_BIG, 7, 1), LR_E_RANGE);
  WANT(lr_write_locate_reply(room, sizeof room, 2, 2, 7, 1), LR_E_RANGE);
  WANT(lr_write_locate_reply(room, sizeof room, 2, LR_ORDER_BIG, 7, 6), LR_E_RANGE);
  WANT(lr_write_locate_reply(room, sizeof room, 0, LR_ORDER_BIG, 7, 3), LR_E_RANGE);
  for (uint32_t status = LR_LOCATE_OBJECT_FORWARD; status <= LR_LOCATE_NEEDS_ADDRESSING_MODE; status++)
    WANT(lr_write_locate_reply(room, sizeof room, 2, LR_ORDER_BIG, 7, status), LR_E_RANGE);
  WANT(lr_write_locate_reply(room, 19, 2, LR_ORDER_BIG, 7, 1), LR_E_ROOM);
  WANT(lr_write_locate_reply(room, 20, 2, LR_ORDER_BIG, 7, 1), 20);
  CHECK(memcmp(room, "GIOP\1\2\0\4\0\0\0\10\0\0\0\7\0\0\0\1", 20) == 0);
  WANT(lr_write_close(room, 11), LR_E_ROOM);
  WANT(lr_write_close(room, 12), 12);
  CHECK(memcmp(room, "GIOP\1\0\0\5\0\0\0\0", 12) == 0);
  WANT(lr_write_error(room, 11), LR_E_ROOM);
  WANT(lr_write_error(room, 12), 12);
  CHECK(memcmp(room, "GIOP\1\0\0\6\0\0\0\0", 12) == 0);
  WANT(lr_write_ft(room, sizeof room, 2, "A", 1, 3, LATER), LR_E_RANGE);
  WANT(lr_write_ft(room, sizeof room, LR_ORDER_BIG, "a\0b", 3, 3, LATER), LR_E_TEXT);
  WANT(lr_write_ft(room, 23, LR_ORDER_BIG, "A", 1, 3, 2000), LR_E_ROOM);
  WANT(lr_write_ft(room, 24, LR_ORDER_BIG, "A", 1, 3, 2000), 24);
  CHECK(memcmp(room, "\0\0\0\0\0\0\0\2A\0\0\0\0\0\0\3\0\0\0\0\0\0\7\xd0", 24) == 0);
}

/* In 1.0 and 1.1 the body stands where the fields before it end: after those of the key `c` at 44, of `ccccc` at 48. */
static void places_are_refused(void) {
  for (uint32_t version = 0; version <= 1; version++) {
    struct asking asking = {version, LR_ORDER_BIG, 7, LR_WISH_FULL, "ccccc", "add", NULL, 0, 0};
    begin_request(&message, &asking, true);
    put_number(&message, 5, 4);
    end_message(&message);
    WANT(write_request_of(version, LR_ORDER_BIG, LR_WISH_FULL, "add", 3, sizeof room), LR_E_PLACE);
    WANT(lr_write_request(room, sizeof room, version, LR_ORDER_BIG, 7, LR_WISH_FULL, "ccccc", 5, "add", 3, 0, NULL, 0,
                          "\0\0\0\5", 4),
         52);
    CHECK(equal(room, 52, &message));
    asking.key = "c";
    begin_request(&message, &asking, false);
    end_message(&message);
    WANT(lr_write_request(room, 44, version, LR_ORDER_BIG, 7, LR_WISH_FULL, "c", 1, "add", 3, 0, NULL, 0, NULL, 0), 44);
    CHECK(equal(room, 44, &message));
  }
}

/* ---- references ---- */

/* A URL: an address of IIOP for each that it names, with its key. */
static void urls_are_read(void) {
  lr_ior ior = LR_INIT;
  lr_profile profile;
  WANT(lr_ior_parse(&ior, LR_TEXT("corbaloc:iiop:1.2@host:2810,:[::1]/c%20d")), LR_OK);
  WANT(lr_ior_parse(&ior, LR_TEXT("corbaloc::host/c")), LR_E_OPEN);
  WANT(lr_ior_type_id(&ior, NULL, 0), 0);
  WANT(lr_ior_profiles(&ior), 2);
  WANT(lr_ior_profile(&ior, 0, &profile, sizeof profile), LR_OK);
  CHECK(profile.is_iiop == 1 && profile.minor == 2 && profile.port == 2810 && profile.components == 0);
  WANT(lr_ior_part(&ior, 0, LR_IOR_KEY, room, sizeof room), 3);
  CHECK(memcmp(room, "c d", 3) == 0);
  WANT(lr_ior_profile(&ior, 1, &profile, sizeof profile), LR_OK);
  CHECK(profile.is_iiop == 1 && profile.minor == 0 && profile.port == 2809);
  WANT(lr_ior_part(&ior, 1, LR_IOR_HOST, room, sizeof room), 3);
  CHECK(memcmp(room, "::1", 3) == 0);
  lr_close(&ior);
}

static void references_are_refused(void) {
  static const char *const texts[] = {
      "", "I", "IOR", "IOR:", "IOR:0", "IOR:zz", "IOR:00", "JOR:00", "IOR:0000000000000000 ",
      "corbaloc", "corbaloc:", "corbaloc:/c", "corbaloc:rir:/c", "corbaloc::host:x/c", "corbaloc::host/%0g"};
  lr_ior ior = LR_INIT, other = LR_INIT;
  lr_profile profile;
  memset(&profile, 0xee, sizeof profile);
  lr_profile before = profile;
  uint32_t tag = 77;
  WANT(lr_ior_parse(&ior, NULL, 0), LR_E_REFERENCE);
  for (size_t index = 0; index < COUNT(texts); index++)
    if (!WANT(lr_ior_parse(&ior, texts[index], strlen(texts[index])), LR_E_REFERENCE)) printf("%s\n", texts[index]);
  WANT(lr_ior_iiop(&ior, "IDL:C:1.0", 9, 3, "host", 4, 2809, "c", 1), LR_E_RANGE);
  WANT(lr_ior_iiop(&ior, "IDL:C:1.0", 9, 258, "host", 4, 2809, "c", 1), LR_E_RANGE);
  WANT(lr_ior_iiop(&ior, "a\0b", 3, 2, "host", 4, 2809, "c", 1), LR_E_TEXT);
  WANT(lr_ior_iiop(&ior, "IDL:C:1.0", 9, 2, "a\0b", 3, 2809, "c", 1), LR_E_TEXT);
  CHECK(ior.kind == 0);
  open_ior(&ior);
  WANT(lr_ior_profile(&ior, 1, &profile, sizeof profile), LR_E_NONE);
  WANT(lr_ior_profile(&ior, UINT32_MAX, &profile, sizeof profile), LR_E_NONE);
  CHECK(memcmp(&profile, &before, sizeof profile) == 0);
  WANT(lr_ior_part(&ior, 1, LR_IOR_DATA, room, sizeof room), LR_E_NONE);
  WANT(lr_ior_part(&ior, 0, 3, room, sizeof room), LR_E_NONE);
  WANT(lr_ior_part(&ior, 0, UINT32_MAX, room, sizeof room), LR_E_NONE);
  WANT(lr_ior_component(&ior, 0, 0, &tag, room, sizeof room), LR_E_NONE);
  WANT(lr_ior_component(&ior, 1, 0, &tag, room, sizeof room), LR_E_NONE);
  CHECK(tag == 77);
  WANT(lr_ior_type_id(&ior, NULL, 0), 9);
  WANT(lr_ior_part(&ior, 0, LR_IOR_KEY, NULL, 0), 1);
  WANT(lr_ior_print(&ior, NULL, 0), LR_E_ROOM);
  int64_t size = lr_ior_print(&ior, room, sizeof room);
  CHECK(size > 4 && memcmp(room, "IOR:000000000000000a49444c3a433a312e3000", 40) == 0);
  if (size > 0) WANT(lr_ior_print(&ior, room, (size_t)size - 1), LR_E_ROOM);
  if (size > 0) WANT(lr_ior_parse(&other, room, (size_t)size), LR_OK);
  ior_works(&other);
  ior_works(&ior);
  lr_close(&other);
  WANT(lr_ior_parse(&other, REFERENCE, SIZE(REFERENCE)), LR_OK);
  WANT(lr_ior_profile(&other, 0, &profile, sizeof profile), LR_OK);
  CHECK(profile.tag == 0 && profile.is_iiop == 1 && profile.minor == 2 && profile.port == 2809);
  CHECK(profile.data_size == 40 && profile.host_size == 4 && profile.key_size == 1 && profile.components == 1);
  WANT(lr_ior_component(&other, 0, 0, &tag, room, sizeof room), 4);
  CHECK(tag == 1 && memcmp(room, "\1\2\3\4", 4) == 0);
  WANT(lr_ior_component(&other, 0, 1, &tag, room, sizeof room), LR_E_NONE);
  WANT(lr_ior_print(&other, room, sizeof room), (int64_t)SIZE(REFERENCE));
  CHECK(memcmp(room, REFERENCE, SIZE(REFERENCE)) == 0);
  lr_close(&other);
  WANT(lr_ior_iiop(&other, NULL, 0, 0, NULL, 0, 65535, NULL, 0), LR_OK);
  lr_close(&other);
  lr_close(&ior);
}

/* ---- what stands alone ---- */

static void moments_are_counted(void) {
  static const uint64_t epoch = UINT64_C(122192928000000000);
  CHECK(lr_moment(0, 0) == epoch);
  CHECK(lr_moment(0, 99) == epoch);
  CHECK(lr_moment(0, 100) == epoch + 1);
  CHECK(lr_moment(1, 999999999) == epoch + 19999999);
  CHECK(lr_moment(1700000000, 0) == epoch + UINT64_C(17000000000000000));
  CHECK(lr_moment(UINT64_MAX, 0) == UINT64_MAX);
  CHECK(lr_moment(UINT64_MAX, UINT32_MAX) == UINT64_MAX);
  CHECK(lr_moment(UINT64_C(1832455114570), 955161500) == UINT64_MAX);
  CHECK(lr_moment(UINT64_C(1832455114570), 955161400) == UINT64_MAX - 1);
  CHECK(lr_moment(UINT64_C(1832455114571), 0) == UINT64_MAX);
}

static void errors_have_texts(void) {
  for (int64_t one = LR_E_FORWARD; one <= LR_OK; one++) {
    CHECK(lr_strerror(one) != NULL && lr_strerror(one)[0] != 0);
    for (int64_t other = LR_E_FORWARD; other < one; other++) CHECK(strcmp(lr_strerror(one), lr_strerror(other)) != 0);
  }
  CHECK(strcmp(lr_strerror(5), lr_strerror(LR_OK)) == 0 && strcmp(lr_strerror(INT64_MAX), lr_strerror(LR_OK)) == 0);
  CHECK(strcmp(lr_strerror(-1000), lr_strerror(INT64_MIN)) == 0);
}

#define NAMED(error) CHECK(strcmp(lr_error_name(error), #error) == 0)

static void errors_have_names(void) {
  NAMED(LR_OK);
  NAMED(LR_E_EMPTY);
  NAMED(LR_E_RANGE);
  NAMED(LR_E_NONE);
  NAMED(LR_E_FORWARD);
  for (int64_t one = LR_E_FORWARD; one < LR_OK; one++) {
    CHECK(strncmp(lr_error_name(one), "LR_E_", 5) == 0 && strcmp(lr_error_name(one), "LR_E_UNKNOWN") != 0);
    for (int64_t other = LR_E_FORWARD; other < one; other++) {
      CHECK(strcmp(lr_error_name(one), lr_error_name(other)) != 0);
    }
  }
  CHECK(strcmp(lr_error_name(5), "LR_OK") == 0 && strcmp(lr_error_name(INT64_MAX), "LR_OK") == 0);
  CHECK(strcmp(lr_error_name(-1000), "LR_E_UNKNOWN") == 0 && strcmp(lr_error_name(INT64_MIN), "LR_E_UNKNOWN") == 0);
}

static void *none_of(size_t size) {
  (void)size;
  return NULL;
}

/* A heap can be set until memory was taken of one; what only failed to be had was not taken. */
static void heaps_are_set_first(void) {
  lr_catalogue catalogue = LR_INIT;
  WANT(lr_set_heap(NULL, NULL, NULL), LR_E_RANGE);
  WANT(lr_set_heap(NULL, realloc, free), LR_E_RANGE);
  WANT(lr_set_heap(malloc, NULL, free), LR_E_RANGE);
  WANT(lr_set_heap(malloc, realloc, NULL), LR_E_RANGE);
  WANT(lr_set_heap(none_of, realloc, free), LR_OK);
  WANT(lr_catalogue_open(&catalogue), LR_E_MEMORY);
  WANT(lr_set_heap(malloc, realloc, free), LR_OK);
  WANT(lr_catalogue_open(&catalogue), LR_OK);
  WANT(lr_set_heap(none_of, realloc, free), LR_E_OPEN);
  WANT(lr_catalogue_object(&catalogue, "c", 1), LR_OK);
  lr_catalogue_close(&catalogue);
  WANT(lr_set_heap(malloc, realloc, free), LR_E_OPEN);
  WANT(lr_set_heap(NULL, NULL, NULL), LR_E_RANGE);
}

/* Each kind by its own function, and once more. */
static void slots_are_closed_by_kind(void) {
  lr_catalogue catalogue = LR_INIT, other = LR_INIT;
  lr_server server = LR_INIT;
  lr_client client = LR_INIT;
  lr_assembler assembler = LR_INIT;
  lr_ior ior = LR_INIT;
  WANT(lr_catalogue_open(&catalogue), LR_OK);
  WANT(lr_catalogue_open(&other), LR_OK);
  WANT(lr_server_open(&server, &other, 1, 2), LR_OK);
  WANT(lr_client_open(&client, "A", 1), LR_OK);
  WANT(lr_assembler_open(&assembler, LIMIT, PARTIALS), LR_OK);
  WANT(lr_ior_iiop(&ior, "IDL:C:1.0", 9, 2, "host", 4, 2809, "c", 1), LR_OK);
  for (int times = 0; times < 2; times++) {
    lr_catalogue_close(&catalogue);
    lr_server_close(&server);
    lr_client_close(&client);
    lr_assembler_close(&assembler);
    lr_ior_close(&ior);
    CHECK(catalogue.kind == 0 && server.kind == 0 && client.kind == 0 && assembler.kind == 0 && ior.kind == 0);
  }
}

/* A key of one octet more than a sequence can have, 4 GiB: pages that nobody writes take no memory. */
static void calls_have_a_size(void) {
  size_t size = (size_t)1 << 32;
  void *key = mmap(NULL, size, PROT_READ, MAP_PRIVATE | MAP_ANONYMOUS | MAP_NORESERVE, -1, 0);
  lr_client client = LR_INIT;
  if (!CHECK(key != MAP_FAILED)) return;
  WANT(lr_client_open(&client, "A", 1), LR_OK);
  WANT(lr_client_call(&client, NOW, LATER, key, size, "add", 3, one_long, 1, LR_ORDER_BIG, "\0\0\0\5", 4), LR_E_LONG);
  WANT(lr_client_call_raw(&client, NOW, LATER, LR_WISH_FULL, key, size, "add", 3, LR_ORDER_BIG, NULL, 0, "", 0),
       LR_E_LONG);
  client_works(&client, 0);
  lr_close(&client);
  munmap(key, size);
}

int main(void) {
  WANT(lr_version(), LR_VERSION_NUMBER);
  heaps_are_set_first();
  slots_are_closed_by_kind();
  slots_are_refused();
  servers_want_a_catalogue();
  limits_are_refused();
  types_are_refused();
  catalogues_refuse();
  exceptions_are_of_the_next_operation();
  servers_refuse();
  tickets_are_of_one_request();
  refused_requests_come_again();
  goodbye_comes_before_the_end();
  raw_requests_are_as_they_came();
  connections_are_refused();
  objects_are_identified();
  client_names_are_refused();
  clients_refuse();
  calls_have_a_size();
  assemblers_refuse();
  faults_are_named();
  cuts_of_1_1_are_refused();
  messages_are_refused();
  places_are_refused();
  urls_are_read();
  references_are_refused();
  moments_are_counted();
  errors_have_texts();
  errors_have_names();
  return check_end();
}
