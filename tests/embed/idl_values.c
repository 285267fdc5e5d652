/* What is made in C of the shapes and of the odd names of tests/embed/idl_c_test.py: values that are none of their
 * types, what they own, calls of each kind, sockets that are lost, and want of memory: each allocation of a call, on
 * each side, is refused once. */
#define _DEFAULT_SOURCE
#include <arpa/inet.h>
#include <errno.h>
#include <poll.h>
#include <pthread.h>
#include <signal.h>
#include <stdatomic.h>
#include <stdlib.h>
#include <sys/socket.h>
#include <time.h>
#include <unistd.h>

#include "check.h"
#include "loop.h"
#include "odd_c_idl.h"
#include "shapes_idl.h"

/* ---- allocations, of which each thread has some refused ---- */

static _Thread_local long to_refusal; /* the one that is refused, 0: none */
static _Thread_local bool is_refused;

void *__real_malloc(size_t size);
void *__real_realloc(void *place, size_t size);
void *__wrap_malloc(size_t size);
void *__wrap_realloc(void *place, size_t size);

static bool refuses(void) {
  bool is_due = to_refusal > 0 && --to_refusal == 0;
  is_refused = is_refused || is_due;
  return is_due;
}

void *__wrap_malloc(size_t size) { return refuses() ? NULL : __real_malloc(size); }
void *__wrap_realloc(void *place, size_t size) { return refuses() ? NULL : __real_realloc(place, size); }

static void refuse(long number) {
  to_refusal = number;
  is_refused = false;
}

/* ---- values ---- */

static char *texts[] = {"a", "bc", "abcd", "d"};
static char *long_text[] = {"abcde"};

static Shapes_Held a_held(void) {
  Shapes_Held held = {.some = {2, texts}, .its_key = {'f', 'o', 'u', 'r'}, .a_line = {{1, -2}, {0, 3}},
                      .its_colour = Shapes_green, .number = UINT64_C(1) << 63};
  return held;
}

static bool same_held(const Shapes_Held *one, const Shapes_Held *two) {
  bool is_same = one->some._length == two->some._length && memcmp(one->its_key, two->its_key, sizeof one->its_key) == 0;
  for (uint32_t index = 0; is_same && index < one->some._length; index++)
    is_same = strcmp(one->some._buffer[index], two->some._buffer[index]) == 0;
  return is_same && memcmp(one->a_line, two->a_line, sizeof one->a_line) == 0 && one->its_colour == two->its_colour &&
         one->number == two->number;
}

/* A socket that listens, which nobody serves, and its port. */
static int silent(uint16_t *port) {
  struct sockaddr_in name = {.sin_family = AF_INET, .sin_addr.s_addr = htonl(INADDR_LOOPBACK)};
  socklen_t size = sizeof name;
  int fd = socket(AF_INET, SOCK_STREAM, 0);
  CHECK(bind(fd, (struct sockaddr *)&name, size) == 0 && listen(fd, 8) == 0);
  CHECK(getsockname(fd, (struct sockaddr *)&name, &size) == 0);
  *port = ntohs(name.sin_port);
  return fd;
}

/* Arguments that are none of their types: an error, and nobody is connected to. */
static void arguments(void) {
  uint16_t port;
  int listener = silent(&port);
  lr_idl_caller caller = LR_IDL_CALLER;
  WANT(lr_idl_caller_open(&caller, "127.0.0.1", port), LR_OK);
  WANT(lr_idl_caller_open(&caller, "127.0.0.1", port), LR_E_OPEN);
  caller.patience = 5 * LR_SECOND;
  const Shapes_Desk desk = {&caller, LR_TEXT("desk")};
  Shapes_Held held = a_held(), result;
  held.some._length = 4;
  WANT(Shapes_Desk_keep(desk, &held, &result, NULL), LR_E_RANGE);
  held.some = (Shapes_Names){1, long_text};
  WANT(Shapes_Desk_keep(desk, &held, &result, NULL), LR_E_RANGE);
  held.some = (Shapes_Names){1, NULL};
  WANT(Shapes_Desk_keep(desk, &held, &result, NULL), LR_E_RANGE);
  held = a_held();
  held.its_colour = (Shapes_Colour)3;
  WANT(Shapes_Desk_keep(desk, &held, &result, NULL), LR_E_RANGE);
  const Shapes_Mark mark = {._d = (Shapes_Colour)3};
  WANT(Shapes_Desk_show(desk, &mark, NULL), LR_E_RANGE);
  struct pollfd waits = {listener, POLLIN, 0};
  WANT(poll(&waits, 1, 20), 0);
  WANT(Shapes_Desk_tell(desk, "a", NULL), LR_OK);
  caller.patience = LR_SECOND / 20;
  WANT(Shapes_Desk__get_size(desk, &(int32_t){0}, NULL), LR_E_EXPIRED);
  WANT(poll(&waits, 1, 0), 1);
  lr_idl_caller_close(&caller);
  close(listener);
}

static bool is_system(const lr_idl_raised *raised, const char *name, uint32_t completed) {
  char id[80];
  snprintf(id, sizeof id, "IDL:omg.org/CORBA/%s:1.0", name);
  return raised->id != NULL && strcmp(raised->id, id) == 0 && raised->completed == completed && raised->members == NULL;
}

/* A server that can't be reached: as many wait there already as may. */
static void unreachable(void) {
  uint16_t port;
  int listener = silent(&port), waiting[4];
  lr_idl_caller caller = LR_IDL_CALLER;
  struct sockaddr_in name = {AF_INET, htons(port), {htonl(INADDR_LOOPBACK)}, {0}};
  CHECK(listen(listener, 0) == 0);
  for (int index = 0; index < 4; index++) {
    waiting[index] = socket(AF_INET, SOCK_STREAM | SOCK_NONBLOCK, 0);
    CHECK(connect(waiting[index], (struct sockaddr *)&name, sizeof name) == 0 || errno == EINPROGRESS);
  }
  WANT(lr_idl_caller_open(&caller, "127.0.0.1", port), LR_OK);
  caller.patience = LR_SECOND / 5;
  const time_t begun = time(NULL);
  lr_idl_raised raised = LR_IDL_RAISED;
  WANT(Shapes_Desk__get_size((Shapes_Desk){&caller, LR_TEXT("desk")}, NULL, &raised), LR_ENDED_SYSTEM);
  CHECK(is_system(&raised, "TRANSIENT", LR_COMPLETED_NO));
  CHECK(time(NULL) - begun < 20);
  lr_idl_raised_free(&raised);
  lr_idl_caller_close(&caller);
  for (int index = 0; index < 4; index++) close(waiting[index]);
  close(listener);
}

/* Takes what comes, and is gone. */
static void *take_and_leave(void *listener) {
  char room[1024];
  int fd = accept(*(int *)listener, NULL, NULL);
  CHECK(recv(fd, room, sizeof room, 0) > 0);
  close(*(int *)listener);
  close(fd);
  return NULL;
}

/* A server that is gone amid a call, which it may have performed. */
static void left_alone(void) {
  uint16_t port;
  int listener = silent(&port);
  pthread_t thread;
  lr_idl_caller caller = LR_IDL_CALLER;
  lr_idl_raised raised = LR_IDL_RAISED;
  CHECK(pthread_create(&thread, NULL, take_and_leave, &listener) == 0);
  WANT(lr_idl_caller_open(&caller, "127.0.0.1", port), LR_OK);
  caller.patience = LR_SECOND / 2;
  const Shapes_Desk desk = {&caller, LR_TEXT("desk")};
  WANT(Shapes_Desk__get_size(desk, NULL, &raised), LR_ENDED_SYSTEM);
  CHECK(is_system(&raised, "COMM_FAILURE", LR_COMPLETED_MAYBE));
  WANT(Shapes_Desk__get_size(desk, NULL, &raised), LR_ENDED_SYSTEM);
  CHECK(is_system(&raised, "TRANSIENT", LR_COMPLETED_NO));
  lr_idl_raised_free(&raised);
  lr_idl_caller_close(&caller);
  CHECK(pthread_join(thread, NULL) == 0);
}

#define GET(TYPE, ...) got_of(&TYPE##__type, (const unsigned char[]){__VA_ARGS__}, sizeof(unsigned char[]){__VA_ARGS__})

/* What comes of reading octets. At an error the place is as it was, and the value all zero. */
static int64_t got_of(const lr_idl_type *type, const unsigned char *octets, size_t size) {
  lr_place place = {0, 0, LR_ORDER_BIG, 0};
  unsigned char *value = malloc(type->size), *zeros = calloc(1, type->size);
  memset(value, 0xaa, type->size);
  int64_t done = lr_idl_get(type, octets, size, &place, value);
  CHECK(done == LR_OK ? place.next == size : place.next == 0 && memcmp(value, zeros, type->size) == 0);
  if (done == LR_OK) lr_idl_free(type, value);
  CHECK(memcmp(value, zeros, type->size) == 0);
  free(value);
  free(zeros);
  return done;
}

static void octets(void) {
  WANT(GET(Shapes_Mark, 0, 0, 0, 0, 0, 1, 0, 2), LR_OK);
  WANT(GET(Shapes_Mark, 0, 0, 0, 0, 0, 1), LR_E_SHORT);
  WANT(GET(Shapes_Mark, 0, 0, 0, 1, 0, 0, 0, 2, 'a', 0), LR_OK);
  WANT(GET(Shapes_Mark, 0, 0, 0, 2), LR_OK);
  WANT(GET(Shapes_Mark, 0, 0, 0, 3), LR_E_VALUE);
  WANT(GET(Shapes_Mark, 0, 0, 0, 1, 0, 0, 0, 3, 'a', 0, 0), LR_E_VALUE);
  WANT(GET(Shapes_Held, 0, 0, 0, 4, 0, 0, 0, 1, 0, 0, 0, 0), LR_E_VALUE);
  WANT(GET(Shapes_Held, 0, 0, 0, 1, 0, 0, 0, 6, 'a', 'b', 'c', 'd', 'e', 0), LR_E_VALUE);
  WANT(GET(Shapes_class_Points, 255, 255, 255, 255, 0, 1), LR_E_SHORT);
  WANT(GET(Shapes_class_Points, 0, 0, 0, 1, 0, 1, 255, 255), LR_OK);
  WANT(GET(Shapes_class_Points, 0, 0, 0, 0), LR_OK);
  WANT(GET(Shapes_Any_, 2, 0, 0, 0), LR_E_VALUE);
  WANT(GET(static_Code, 'b', 0, 0, 0, 0, 0, 0, 7), LR_OK);
  WANT(GET(static_Code, 255, 0, 0, 0, 0, 0, 0, 3, 'x', 'y', 0), LR_OK);
  WANT(GET(static_Code, 255, 0, 0, 0, 0, 0, 0, 4, 'x', 'y', 'z', 0), LR_E_VALUE);
  WANT(GET(static_Code, 'c', 0, 0, 0, 0, 0, 0, 0), LR_OK);
  WANT(GET(static_Far, 255, 255, 255, 255, 255, 255, 255, 255, 0, 1), LR_OK);
  WANT(GET(static_Far, 0, 255, 255, 255, 255, 255, 255, 255), LR_OK);
  WANT(GET(static_First, 0, 0, 0, 0, 0, 1), LR_OK);
  WANT(GET(static_Octets, 0, 0, 0, 4, 1, 2, 3, 4), LR_OK);
  WANT(GET(static_Octets, 0, 0, 0, 5, 1, 2, 3, 4, 5), LR_E_VALUE);
  WANT(GET(static_Near, 255, 255, 0, 1), LR_OK);
  WANT(GET(static_Near, 255, 254), LR_OK);
}

/* A value fits its octets and nothing less, and each of its parts that is cut off is missed. */
static void rooms(void) {
  unsigned char room[256];
  lr_place place = {0, 0, LR_ORDER_LITTLE, 0};
  const Shapes_Held held = a_held();
  WANT(Shapes_Held__put(room, sizeof room, &place, &held), LR_OK);
  const size_t size = (size_t)place.next;
  for (size_t less = 0; less < size; less++) {
    Shapes_Held read;
    unsigned char small[256];
    lr_place in = {0, 0, LR_ORDER_LITTLE, 0}, out = in;
    WANT(Shapes_Held__get(room, less, &in, &read), LR_E_SHORT);
    WANT(Shapes_Held__put(small, less, &out, &held), LR_E_ROOM);
    CHECK(in.next == 0 && out.next == 0 && read.some._length == 0 && read.some._buffer == NULL);
  }
  Shapes_Held read, copy;
  place.next = 0;
  WANT(Shapes_Held__get(room, size, &place, &read), LR_OK);
  WANT(Shapes_Held__copy(&read, &copy), LR_OK);
  CHECK(same_held(&read, &held) && same_held(&copy, &held) && copy.some._buffer != read.some._buffer);
  Shapes_Held__free(&read);
  CHECK(same_held(&copy, &held) && read.some._buffer == NULL);
  Shapes_Held__free(&copy);
  Shapes_Held__free(&copy);
}

/* ---- odd names ---- */

static static_Deep a_deep(void) {
  static lr_idl_string__sequence rows[] = {{2, texts}, {0, NULL}};
  static uint8_t some[] = {1, 2, 3};
  static_Deep deep = {.rows = {2, rows}, .names = {"one", NULL}, .cells = {{1, 2, 3}, {4, 5, 6}}, .some = {3, some}};
  return deep;
}

static bool same_deep(const static_Deep *one, const static_Deep *two) {
  return one->rows._length == two->rows._length && one->rows._buffer[0]._length == 2 &&
         strcmp(one->rows._buffer[0]._buffer[1], two->rows._buffer[0]._buffer[1]) == 0 &&
         one->rows._buffer[1]._length == two->rows._buffer[1]._length && strcmp(one->names[0], two->names[0]) == 0 &&
         memcmp(one->cells, two->cells, sizeof one->cells) == 0 && one->some._length == two->some._length &&
         memcmp(one->some._buffer, two->some._buffer, one->some._length) == 0;
}

static void names(void) {
  static const char *const ids[] = {Shapes_Other__id, More_Other__id, Other__id};
  const _c_int one = {.register_ = 1, ._c_register = 2, ._c_inline = "x"};
  static char sized[_c_volatile + 2 + Few];
  CHECK(sizeof sized == 2 && one.register_ + one._c_register == 3 && one._c_inline[0] == 'x');
  CHECK(strcmp(ids[0], "IDL:Shapes/Other:1.0") == 0 && strcmp(ids[1], "IDL:More/Other:1.0") == 0);
  CHECK(strcmp(ids[2], "IDL:Other:1.0") == 0 && strcmp(_c_index__id, "IDL:index:1.0") == 0);
  CHECK(_c_auto == 0 && _c_goto == 1 && _c_linux == 2 && Chosen == _c_goto && Shapes_FEW == 3);
  CHECK(Many == UINT64_MAX && Least == INT64_MIN && Below == -2147483647 - 1 && Letter == 'x' && Yes);
  CHECK(Half == 0.5 && Quarter == 0.25f && Vast < -1.7e308);
  CHECK(strcmp(Shapes_HELLO, "hel\"lo") == 0 && strcmp(Odd, "\n?\?/1\\") == 0);
  /* (interfaces of one name have functions of their own) */
  CHECK((void *)(uintptr_t)Shapes_Other_f != (void *)(uintptr_t)More_Other_f);
}

static uint32_t dice = 1;

static uint32_t thrown(uint32_t below) {
  dice = dice * 1103515245 + 12345;
  return (dice >> 8) % below;
}

/* Octets in which some are others: a value, or an error. */
static void noise(void) {
  unsigned char room[256], other[256];
  lr_place place = {0, 0, LR_ORDER_LITTLE, 0};
  const static_Deep deep = a_deep();
  WANT(static_Deep__put(room, sizeof room, &place, &deep), LR_OK);
  const uint32_t size = (uint32_t)place.next;
  for (int round = 0; round < 5000; round++) {
    lr_place in = {0, 0, LR_ORDER_LITTLE, 0};
    static_Deep read;
    memcpy(other, room, size);
    other[thrown(size)] = (unsigned char)thrown(256);
    other[thrown(size)] ^= (unsigned char)(1 << thrown(8));
    int64_t done = static_Deep__get(other, size, &in, &read);
    CHECK(done == LR_OK || done == LR_E_SHORT || done == LR_E_VALUE);
    static_Deep__free(&read);
  }
}

/* ---- servants ---- */

enum { PLAIN, FULL, LOST, NEVER, ANOTHER, TOO_MUCH, PARK, AT_LAST, REFUSE };
static _Atomic int deed;
static _Atomic int64_t returned;  /* what the servant's function did */
static _Atomic long server_refusal;
static _Atomic bool server_refused;
static _Atomic int heard, kept_count;
static lr_idl_call parked;
static Shapes_Held parked_held;
static _Atomic int32_t attribute = 7;

static int64_t get_size(void *self, const lr_idl_call *call) {
  (void)self;
  return Shapes_Desk__get_size__answer(call, attribute);
}

static int64_t get_name(void *self, const lr_idl_call *call) {
  return Shapes_class_Base__get_name__answer(call, self);
}

static int64_t set_name(void *self, const lr_idl_call *call, const char *value) {
  strncpy(self, value, 7);
  return Shapes_Desk__set_name__answer(call);
}

/* Parks a request, and keeps its arguments until it is answered. */
static int64_t park(const lr_idl_call *call, const Shapes_Held *what) {
  int64_t done = Shapes_Held__copy(what, &parked_held);
  if (done < 0) return done;
  parked = *call;
  loop_wake();
  return lr_server_park(call->server, call->ticket);
}

/* Tries what is no outcome, of which nothing is sent, before it answers. */
static int64_t answer_at_last(const lr_idl_call *call, const Shapes_Held *what) {
  const Shapes_Lost lost = {{._d = Shapes_red}};
  WANT(Shapes_Lost__raise(call, &lost), LR_E_OUTCOME);
  WANT(Shapes_Desk_real__answer(call, 1.5), LR_E_OUTCOME);
  return Shapes_Desk_keep__answer(call, what);
}

static int64_t keep(void *self, const lr_idl_call *call, const Shapes_Held *what) {
  static Shapes_Never never;
  const Shapes_Full full = {9, "x", Shapes_green};
  Shapes_Held much = *what;
  much.some = (Shapes_Names){4, texts};
  (void)self;
  const int now = deed;
  if (now == REFUSE) deed = PLAIN;
  if (now == PLAIN) kept_count++;
  switch (now) {
    case FULL: return Shapes_Full__raise(call, &full);
    case NEVER: return Shapes_Never__raise(call, &never);
    case ANOTHER: return Shapes_Desk_draw__answer(call, &(Shapes_Mark){._d = Shapes_red});
    case TOO_MUCH: return Shapes_Desk_keep__answer(call, &much);
    case PARK: return park(call, what);
    case AT_LAST: return answer_at_last(call, what);
    case REFUSE: return lr_server_refuse(call->server, call->ticket, LR_EX_TRANSIENT, 0);
    default: return Shapes_Desk_keep__answer(call, what);
  }
}

static int64_t draw(void *self, const lr_idl_call *call, const Shapes_Mark *what) {
  const Shapes_Lost lost = {*what};
  const Shapes_Full full = {9, "x", deed == TOO_MUCH ? (Shapes_Colour)7 : Shapes_red};
  static Shapes_Never never;
  (void)self;
  if (deed == NEVER) return Shapes_Never__raise(call, &never);
  if (deed == LOST) return Shapes_Lost__raise(call, &lost);
  return deed == PLAIN ? Shapes_Desk_draw__answer(call, what) : Shapes_Full__raise(call, &full);
}

static int64_t say(void *self, const lr_idl_call *call, const Shapes_Names *some) {
  const Shapes_Names first = {some->_length > 0 ? 1 : 0, some->_buffer};
  (void)self;
  return Shapes_Desk_say__answer(call, some, &first, (int32_t)some->_length);
}

static int64_t tell(void *self, const lr_idl_call *call, const char *what) {
  (void)self;
  heard += strcmp(what, "hi") == 0;
  return Shapes_Desk_tell__answer(call);
}

static int64_t show(void *self, const lr_idl_call *call, const Shapes_Mark *what) {
  (void)self;
  heard += what->_d == Shapes_green && strcmp(what->_u.text, "ho") == 0;
  return Shapes_Desk_show__answer(call);
}

static int64_t real(void *self, const lr_idl_call *call, float one, char two, bool three, uint8_t four) {
  (void)self;
  return Shapes_Desk_real__answer(call, one + (two == 'c') + three + four);
}

static char title[8] = "a";
/* (`pass` and `listed` are NULL) */
static const POA_Shapes_Desk desk_servant = {
    .self = title, ._get_size = get_size, ._get_name = get_name, ._set_name = set_name, .keep = keep, .draw = draw,
    .say = say, .tell = tell, .show = show, .real = real};

static int64_t returning(void *self, const lr_idl_call *call, int32_t number, static_Grid grid, const _c_int *one) {
  static int32_t first[] = {1, 2};
  static lr_idl_long__sequence rows[] = {{2, first}, {0, NULL}};
  const static_Rows out = {2, rows};
  (void)self;
  grid[1][2] += one->_c_register;
  return static_volatile_return__answer(call, number, grid, &out);
}

static int64_t keep_deep(void *self, const lr_idl_call *call, const static_Deep *one) {
  (void)self;
  return static_register_keep__answer(call, one);
}

static int64_t turn_code(void *self, const lr_idl_call *call, const static_Code *one) {
  (void)self;
  return static_volatile_turn__answer(call, one);
}

static int64_t own_name(void *self, const lr_idl_call *call, int32_t number) {
  (void)self;
  return static_volatile_self__answer(call, number + 1);
}

static int64_t odd_size(void *self, const lr_idl_call *call) {
  (void)self;
  return static_register__get_size__answer(call, 11);
}

static const POA_static_register odd_servant = {
    NULL, ._get_size = odd_size, ._c_return = returning, .keep = keep_deep, .turn = turn_code, ._c_self = own_name};

static lr_idl_offer offers[2];

static void perform(lr_server *server, const lr_request *asked) {
  const lr_idl_offer *offer = lr_idl_find(offers, 2, server, asked);
  refuse(server_refusal);
  returned = offer == NULL ? LR_E_OBJECT : lr_idl_perform(offer, server, asked);
  server_refused = is_refused;
  server_refusal = 0;
  refuse(0);
}

static void settle(lr_server *server) {
  if (parked.server == NULL) return;
  CHECK(parked.server == server);
  WANT(Shapes_Desk_keep__answer(&parked, &parked_held), LR_OK);
  Shapes_Held__free(&parked_held);
  parked.server = NULL;
}

/* ---- calls ---- */

static Shapes_Desk desk;
static static_register odd;

/* A call of an operation that has no stub here, by values of other types. */
static int64_t call_by(const lr_idl_object *object, const lr_idl_operation *operation, const void *argument,
                       void *result, lr_idl_raised *raised) {
  return lr_idl_invoke(object, operation, (const void *const[]){argument}, (void *const[]){result}, raised);
}

static void results(void) {
  Shapes_Held held = a_held(), kept;
  Shapes_Mark marks[] = {{Shapes_red, {.at = {-1, 2}}}, {Shapes_green, {.text = "t"}}, {._d = Shapes_None_}}, drawn;
  int32_t size = 0;
  double sum = 0;
  char *name = NULL;
  WANT(Shapes_Desk_keep(desk, &held, &kept, NULL), LR_OK);
  CHECK(same_held(&held, &kept));
  Shapes_Held__free(&kept);
  WANT(Shapes_Desk_draw(desk, &marks[0], &drawn, NULL), LR_OK);
  CHECK(drawn._d == Shapes_red && drawn._u.at.x == -1 && drawn._u.at.y == 2);
  WANT(Shapes_Desk_draw(desk, &marks[1], &drawn, NULL), LR_OK);
  CHECK(drawn._d == Shapes_green && strcmp(drawn._u.text, "t") == 0);
  Shapes_Mark__free(&drawn);
  WANT(Shapes_Desk_draw(desk, &marks[2], &drawn, NULL), LR_OK);
  CHECK(drawn._d == Shapes_None_);
  WANT(Shapes_Desk_real(desk, 0.5f, 'c', true, 200, &sum, NULL), LR_OK);
  CHECK(sum == 202.5);
  WANT(Shapes_Desk__get_size(desk, &size, NULL), LR_OK);
  WANT(Shapes_class_Base__get_size(desk, NULL, NULL), LR_OK);
  WANT(Shapes_Desk__set_name(desk, "b", NULL), LR_OK);
  WANT(Shapes_Desk__get_name(desk, &name, NULL), LR_OK);
  CHECK(size == 7 && strcmp(name, "b") == 0);
  free(name);
}

/* An inout argument is replaced, and so is an argument whose place a result takes. */
static void replaced(void) {
  Shapes_Names both, result;
  int32_t count = 0;
  const Shapes_Names some = {2, texts};
  WANT(Shapes_Names__copy(&some, &both), LR_OK);
  WANT(Shapes_Desk_say(desk, &both, &count, &result, NULL), LR_OK);
  CHECK(count == 2 && both._length == 1 && strcmp(both._buffer[0], "a") == 0);
  CHECK(result._length == 2 && strcmp(result._buffer[1], "bc") == 0);
  WANT(Shapes_Desk_say(desk, &result, NULL, NULL, NULL), LR_OK);
  CHECK(result._length == 1);
  Shapes_Held held = a_held(), one;
  WANT(Shapes_Held__copy(&held, &one), LR_OK);
  WANT(Shapes_Desk_keep(desk, &one, &one, NULL), LR_OK);
  CHECK(same_held(&one, &held));
  Shapes_Held__free(&one);
  Shapes_Names__free(&both);
  Shapes_Names__free(&result);
}

static void exceptions(void) {
  lr_idl_raised raised = LR_IDL_RAISED;
  const Shapes_Held held = a_held();
  const Shapes_Mark mark = {Shapes_green, {.text = "here"}};
  Shapes_Held kept = {.number = 5};
  Shapes_Mark drawn;
  deed = FULL;
  WANT(Shapes_Desk_keep(desk, &held, &kept, &raised), LR_ENDED_RAISED);
  const Shapes_Full *full = Shapes_Full__of(&raised);
  if (CHECK(full != NULL)) CHECK(full->id == 9 && strcmp(full->args, "x") == 0 && full->its_colour == Shapes_green);
  CHECK(Shapes_Lost__of(&raised) == NULL && strcmp(raised.id, Shapes_Full__id) == 0 && kept.number == 5);
  WANT(Shapes_Desk_keep(desk, &held, &kept, NULL), LR_ENDED_RAISED);
  WANT(Shapes_Desk_draw(desk, &mark, &drawn, &raised), LR_ENDED_RAISED);
  CHECK(Shapes_Full__of(&raised) != NULL && Shapes_Full__of(&raised)->its_colour == Shapes_red);
  deed = LOST;
  WANT(Shapes_Desk_draw(desk, &mark, &drawn, &raised), LR_ENDED_RAISED);
  const Shapes_Lost *lost = Shapes_Lost__of(&raised);
  if (CHECK(lost != NULL)) CHECK(lost->where._d == Shapes_green && strcmp(lost->where._u.text, "here") == 0);
  deed = PLAIN;
  WANT(Shapes_Desk__get_size(desk, NULL, &raised), LR_OK);
  CHECK(raised.id == NULL && raised.members == NULL && Shapes_Lost__of(&raised) == NULL);
  lr_idl_raised_free(&raised);
}

/* What is no outcome of an operation: an error where it is handed in, and then a system exception. */
static void no_outcomes(void) {
  lr_idl_raised raised = LR_IDL_RAISED;
  const Shapes_Held held = a_held();
  const Shapes_Mark mark = {._d = Shapes_red};
  const Shapes_Desk_Inner inner = {1};
  Shapes_Held kept;
  Shapes_Mark drawn;
  deed = NEVER;
  WANT(Shapes_Desk_keep(desk, &held, &kept, &raised), LR_ENDED_SYSTEM);
  CHECK(is_system(&raised, "UNKNOWN", LR_COMPLETED_MAYBE) && returned == LR_E_OUTCOME);
  WANT(Shapes_Desk_draw(desk, &mark, &drawn, &raised), LR_ENDED_SYSTEM);
  CHECK(is_system(&raised, "UNKNOWN", LR_COMPLETED_MAYBE) && returned == LR_E_OUTCOME);
  deed = ANOTHER;
  WANT(Shapes_Desk_keep(desk, &held, &kept, &raised), LR_ENDED_SYSTEM);
  CHECK(is_system(&raised, "UNKNOWN", LR_COMPLETED_MAYBE) && returned == LR_E_OUTCOME);
  deed = TOO_MUCH;
  WANT(Shapes_Desk_keep(desk, &held, &kept, &raised), LR_ENDED_SYSTEM);
  CHECK(is_system(&raised, "INTERNAL", LR_COMPLETED_MAYBE) && returned == LR_E_RANGE);
  WANT(Shapes_Desk_draw(desk, &mark, &drawn, &raised), LR_ENDED_SYSTEM);
  CHECK(is_system(&raised, "INTERNAL", LR_COMPLETED_MAYBE) && returned == LR_E_RANGE);
  deed = AT_LAST;
  WANT(Shapes_Desk_keep(desk, &held, &kept, &raised), LR_OK);
  CHECK(same_held(&kept, &held));
  Shapes_Held__free(&kept);
  deed = PLAIN;
  WANT(Shapes_Desk_pass(desk, 1, &inner, &raised), LR_ENDED_SYSTEM);
  CHECK(is_system(&raised, "NO_IMPLEMENT", LR_COMPLETED_NO) && returned == LR_OK);
  lr_idl_raised_free(&raised);
}

/* Peers whose types are others: of arguments the servant is not asked, and results are an error. */
static void peers(void) {
  const lr_idl_type *const text[] = {&lr_idl_string__type}, *const names_type[] = {&Shapes_Names__type};
  static const lr_idl_type any_names = {
      .kind = LR_IDL_SEQUENCE, .size = sizeof(lr_idl_string__sequence), .inner = &lr_idl_string__type};
  const lr_idl_type *const any[] = {&any_names}, *const held_type[] = {&Shapes_Held__type};
  const lr_idl_type *const number_type[] = {&lr_idl_ulong__type};
  const uint32_t number = UINT32_MAX;
  const lr_idl_operation say_any = {"say", true, false, {1, any, NULL, 0}, {1, names_type, NULL, 0}, 0, NULL};
  const lr_idl_operation say_number = {"say", true, false, {1, number_type, NULL, 0}, {0, NULL, NULL, 0}, 0, NULL};
  const lr_idl_operation none_such = {"none_such", true, false, {0, NULL, NULL, 0}, {0, NULL, NULL, 0}, 0, NULL};
  const lr_idl_operation size_text = {"_get_size", true, false, {0, NULL, NULL, 0}, {1, text, NULL, 0}, 0, NULL};
  const lr_idl_operation size_none = {"_get_size", true, false, {0, NULL, NULL, 0}, {0, NULL, NULL, 0}, 0, NULL};
  const lr_idl_operation keep_none = {"keep", true, false, {1, held_type, NULL, 0}, {0, NULL, NULL, 0}, 0, NULL};
  lr_idl_raised raised = LR_IDL_RAISED;
  const lr_idl_string__sequence many = {4, texts};
  const Shapes_Held held = a_held();
  char *name = NULL;
  WANT(call_by(&desk, &say_any, &many, NULL, &raised), LR_ENDED_SYSTEM);
  CHECK(is_system(&raised, "MARSHAL", LR_COMPLETED_NO) && returned == LR_E_VALUE);
  WANT(call_by(&desk, &say_number, &number, NULL, &raised), LR_ENDED_SYSTEM);
  CHECK(is_system(&raised, "MARSHAL", LR_COMPLETED_NO) && returned == LR_E_NONE);
  WANT(call_by(&desk, &none_such, NULL, NULL, &raised), LR_ENDED_SYSTEM);
  CHECK(is_system(&raised, "BAD_OPERATION", LR_COMPLETED_NO) && returned == LR_E_NONE);
  attribute = 255;
  WANT(call_by(&desk, &size_text, NULL, &name, &raised), LR_E_SHORT);
  WANT(call_by(&desk, &size_none, NULL, NULL, &raised), LR_E_VALUE);
  attribute = 7;
  CHECK(name == NULL);
  deed = FULL;
  WANT(call_by(&desk, &keep_none, &held, NULL, &raised), LR_E_OUTCOME);
  CHECK(raised.id != NULL && strcmp(raised.id, Shapes_Full__id) == 0 && raised.exception == NULL);
  deed = PLAIN;
  lr_idl_raised_free(&raised);
}

/* Operations of every object, those that wish no reply, and those that are answered later. */
static void others(void) {
  const lr_idl_type *const text[] = {&lr_idl_string__type}, *const truth[] = {&lr_idl_boolean__type};
  const lr_idl_operation is_a = {"_is_a", true, false, {1, text, NULL, 0}, {1, truth, NULL, 0}, 0, NULL};
  static const char *const ids[] = {Shapes_Desk__id, Shapes_class_Base__id, Shapes_Other__id};
  const Shapes_Mark mark = {Shapes_green, {.text = "ho"}};
  Shapes_Held held = a_held(), kept;
  for (int index = 0; index < 3; index++) {
    bool is_one = index == 2;
    WANT(call_by(&desk, &is_a, &ids[index], &is_one, NULL), LR_OK);
    CHECK(is_one == (index < 2));
  }
  WANT(Shapes_Desk_tell(desk, "hi", NULL), LR_OK);
  WANT(Shapes_Desk_show(desk, &mark, NULL), LR_OK);
  WANT(Shapes_Desk__get_size(desk, NULL, NULL), LR_OK);
  CHECK(heard == 2);
  deed = PARK;
  WANT(Shapes_Desk_keep(desk, &held, &kept, NULL), LR_OK);
  CHECK(same_held(&held, &kept));
  Shapes_Held__free(&kept);
  deed = PLAIN;
}

static void odd_calls(void) {
  const _c_int one = {._c_register = 10};
  static_Grid grid = {{1, 2, 3}, {4, 5, 6}};
  static_Rows rows;
  static_Code coded, code_given = {'b', {._c_register = 5}};
  static_Deep deep = a_deep(), kept;
  int32_t number = 0;
  WANT(static_register_return(odd, 3, grid, &rows, &one, &number, NULL), LR_OK);
  CHECK(number == 3 && grid[0][0] == 1 && grid[1][2] == 16 && rows._length == 2 && rows._buffer[0]._buffer[1] == 2);
  static_Rows__free(&rows);
  WANT(static_register_self(odd, 4, &number, NULL), LR_OK);
  CHECK(number == 5);
  WANT(static_register__get_size(odd, &number, NULL), LR_OK);
  CHECK(number == 11);
  WANT(static_volatile_turn(odd, &code_given, &coded, NULL), LR_OK);
  CHECK(coded._d == 'b' && coded._u._c_register == 5);
  const static_Code text = {(char)255, {._c_return = "xy"}};
  WANT(static_register_turn(odd, &text, &coded, NULL), LR_OK);
  CHECK(coded._d == (char)255 && strcmp(coded._u._c_return, "xy") == 0);
  static_Code__free(&coded);
  const static_Code grids = {'z', {._c_do = {1, &grid}}};
  WANT(static_register_turn(odd, &grids, &coded, NULL), LR_OK);
  CHECK(coded._u._c_do._length == 1 && memcmp(coded._u._c_do._buffer, grid, sizeof grid) == 0);
  static_Code__free(&coded);
  WANT(lr_idl_reference__parse(&deep._c_friend, REFERENCE), LR_OK);
  WANT(static_register_keep(odd, &deep, &kept, NULL), LR_OK);
  CHECK(same_deep(&kept, &deep) && kept.names[1][0] == 0);
  char *printed = NULL;
  WANT(lr_idl_reference__print(&kept._c_friend, &printed), LR_OK);
  CHECK(strcmp(printed, REFERENCE) == 0);
  free(printed);
  static_Deep__free(&kept);
  lr_idl_reference__free(&deep._c_friend);
  WANT(lr_idl_reference__parse(&deep._c_friend, "IOR:0"), LR_E_REFERENCE);
}

/* ---- sockets that are lost ---- */

static uint16_t server_port;

static int connected_behind(void) {
  struct sockaddr_in name = {AF_INET, htons(server_port), {htonl(INADDR_LOOPBACK)}, {0}};
  int fd = socket(AF_INET, SOCK_STREAM, 0);
  CHECK(connect(fd, (struct sockaddr *)&name, sizeof name) == 0);
  return fd;
}

static bool pass(int from, int to) {
  unsigned char room[4096];
  ssize_t size = recv(from, room, sizeof room, 0);
  return size > 0 && send(to, room, (size_t)size, MSG_NOSIGNAL) == size;
}

/* Passes on what comes from either side. False where one is over. */
static bool pass_either(int there, int behind) {
  struct pollfd waits[] = {{there, POLLIN, 0}, {behind, POLLIN, 0}};
  if (poll(waits, 2, -1) < 0) return false;
  return (waits[0].revents == 0 || pass(there, behind)) && (waits[1].revents == 0 || pass(behind, there));
}

/* Stands before the server, and loses the first reply together with its connection. */
static void *lose_one(void *at) {
  unsigned char room[4096];
  int there = accept(*(int *)at, NULL, NULL), behind = connected_behind();
  CHECK(pass(there, behind) && recv(behind, room, sizeof room, 0) > 0);
  close(there);
  close(behind);
  there = accept(*(int *)at, NULL, NULL);
  behind = connected_behind();
  while (pass_either(there, behind)) continue;
  close(there);
  close(behind);
  return NULL;
}

/* A call that is sent again, as its reply was lost, or refused for now, acts once. */
static void sent_again(void) {
  uint16_t port;
  int listener = silent(&port);
  pthread_t thread;
  lr_idl_caller caller = LR_IDL_CALLER;
  const Shapes_Held held = a_held();
  Shapes_Held kept;
  CHECK(pthread_create(&thread, NULL, lose_one, &listener) == 0);
  WANT(lr_idl_caller_open(&caller, "127.0.0.1", port), LR_OK);
  const Shapes_Desk before = {&caller, LR_TEXT("desk")};
  const int count = kept_count;
  WANT(Shapes_Desk_keep(before, &held, &kept, NULL), LR_OK);
  CHECK(same_held(&kept, &held) && kept_count == count + 1);
  Shapes_Held__free(&kept);
  deed = REFUSE;
  WANT(Shapes_Desk_keep(before, &held, &kept, NULL), LR_OK);
  CHECK(same_held(&kept, &held) && kept_count == count + 2);
  Shapes_Held__free(&kept);
  lr_idl_caller_close(&caller);
  CHECK(pthread_join(thread, NULL) == 0);
  close(listener);
}

/* ---- want of memory ---- */

enum { MOST = 500 };

/* Calls with each allocation of ours refused once; what it says is that, or all goes well. */
static long refused_calls(int now) {
  long refusal = 0, refusals = 0;
  deed = now;
  do {
    lr_idl_raised raised = LR_IDL_RAISED;
    static_Deep deep = a_deep(), copy = {0}, kept = {0};
    Shapes_Held held = a_held(), one = {0};
    refuse(++refusal);
    int64_t done = static_Deep__copy(&deep, &copy);
    if (done == LR_OK) done = static_register_keep(odd, &copy, &kept, &raised);
    if (done == LR_OK) done = Shapes_Desk_keep(desk, &held, &one, &raised);
    refusals += is_refused;
    CHECK(done == (now == PLAIN ? LR_OK : LR_ENDED_RAISED) || (is_refused && done == LR_E_MEMORY));
    CHECK(kept.rows._length == 0 || same_deep(&kept, &deep));
    bool is_over = !is_refused;
    refuse(0);
    static_Deep__free(&copy);
    static_Deep__free(&kept);
    Shapes_Held__free(&one);
    lr_idl_raised_free(&raised);
    if (is_over) break;
  } while (refusal < MOST);
  deed = PLAIN;
  return refusals;
}

/* .. with each allocation of the server refused once, which it may say, or the call is sent again. */
static long refused_servants(void) {
  long refusal = 0, refusals = 0;
  do {
    lr_idl_raised raised = LR_IDL_RAISED;
    static_Deep deep = a_deep(), kept = {0};
    server_refusal = ++refusal;
    int64_t done = static_register_keep(odd, &deep, &kept, &raised);
    CHECK(done == LR_OK ? same_deep(&kept, &deep)
                        : done == LR_ENDED_SYSTEM && is_system(&raised, "NO_MEMORY", LR_COMPLETED_NO));
    server_refusal = 0;
    refusals += done != LR_OK;
    bool is_over = done == LR_OK && !server_refused;
    static_Deep__free(&kept);
    lr_idl_raised_free(&raised);
    if (is_over) break;
  } while (refusal < MOST);
  return refusals;
}

/* .. of what is done before calls. */
static long refused_openings(const char *reference) {
  long refusal = 0;
  int64_t done;
  do {
    lr_idl_caller caller = LR_IDL_CALLER;
    lr_catalogue catalogue = LR_INIT;
    lr_idl_reference made = {0};
    char *text = NULL;
    refuse(++refusal);
    done = lr_idl_caller_of(&caller, reference);
    if (done == LR_OK) done = lr_catalogue_open(&catalogue);
    if (done == LR_OK) done = lr_idl_add(&catalogue, &offers[0]);
    if (done == LR_OK) done = lr_idl_reference__parse(&made, reference);
    if (done == LR_OK) done = lr_idl_reference__print(&made, &text);
    WANT(done, is_refused ? LR_E_MEMORY : LR_OK);
    refuse(0);
    lr_idl_reference__free(&made);
    lr_catalogue_close(&catalogue);
    lr_idl_caller_close(&caller);
    free(text);
  } while (done != LR_OK && refusal < MOST);
  return refusal;
}

/* An operation that is added next to a catalogue declares no exception. */
static void raises_nothing(lr_catalogue *catalogue) {
  const struct asking asking = {2, LR_ORDER_BIG, 1, LR_WISH_FULL, "o", "f", NULL, 0, 0};
  struct octets request;
  lr_server other = LR_INIT;
  lr_request asked;
  WANT(lr_catalogue_object(catalogue, LR_TEXT("o")), LR_OK);
  WANT(lr_catalogue_operation(catalogue, LR_TEXT("o"), LR_TEXT("f"), NULL, 0, NULL, 0), LR_OK);
  WANT(lr_server_open(&other, catalogue, 1, 2), LR_OK);
  WANT(lr_server_connect(&other, 1), LR_OK);
  begin_request(&request, &asking, false);
  end_message(&request);
  CHECK(lr_server_feed(&other, 1, 1, request.all, request.size) == (int64_t)request.size);
  if (CHECK(lr_server_asked(&other, &asked, sizeof asked) == 1))
    WANT(lr_server_raise(&other, asked.ticket, LR_TEXT(Shapes_Full__id), LR_ORDER_BIG,
                         "\0\0\0\1\0\0\0\1\0\0\0\0\0\0\0\0", 16), LR_E_OUTCOME);
  lr_server_close(&other);
}

/* A catalogue in which an object was not to be had has nothing of it, also no exception for what comes next. */
static void refused_additions(const lr_idl_offer *offer) {
  for (long refusal = 1; refusal < MOST; refusal++) {
    lr_catalogue catalogue = LR_INIT;
    WANT(lr_catalogue_open(&catalogue), LR_OK);
    refuse(refusal);
    int64_t done = lr_idl_add(&catalogue, offer);
    refuse(0);
    if (done == LR_OK) {
      WANT(lr_idl_add(&catalogue, offer), LR_E_TAKEN);
      lr_catalogue_close(&catalogue);
      return;
    }
    WANT(lr_catalogue_remove(&catalogue, offer->key, offer->key_size), LR_E_OBJECT);
    raises_nothing(&catalogue);
    lr_catalogue_close(&catalogue);
  }
  CHECK(false);
}

/* ---- all of it ---- */

static int listener;
static lr_server server = LR_INIT;

static void *serve(void *none) {
  WANT(loop_serve(&server, listener, perform, settle), 0);
  return none;
}

/* Opens the server of the two servants, and answers the reference of the desk, which is of ours to free. */
static char *opened(void) {
  lr_catalogue catalogue = LR_INIT;
  lr_ior ior = LR_INIT;
  uint16_t port = 0;
  char *text = calloc(1, 512);
  offers[0] = POA_Shapes_Desk__offer(&desk_servant, LR_TEXT("desk"));
  offers[1] = POA_static_register__offer(&odd_servant, LR_TEXT("odds"));
  listener = loop_listen("127.0.0.1", &port);
  server_port = port;
  WANT(lr_catalogue_open(&catalogue), LR_OK);
  WANT(lr_idl_add(&catalogue, &offers[0]), LR_OK);
  WANT(lr_idl_add(&catalogue, &offers[1]), LR_OK);
  WANT(lr_server_open(&server, &catalogue, 1, 2), LR_OK);
  WANT(lr_server_set(&server, LR_SET_ASK_FIRST, 1), LR_OK);
  WANT(lr_ior_iiop(&ior, LR_TEXT(Shapes_Desk__id), 2, LR_TEXT("127.0.0.1"), port, LR_TEXT("desk")), LR_OK);
  CHECK(lr_ior_print(&ior, text, 511) > 0);
  lr_ior_close(&ior);
  return text;
}

static void calls(lr_idl_caller *caller) {
  desk = lr_idl_object_of(caller);
  odd = (static_register){caller, LR_TEXT("odds")};
  results();
  replaced();
  exceptions();
  no_outcomes();
  peers();
  others();
  odd_calls();
}

int main(void) {
  lr_idl_caller caller = LR_IDL_CALLER;
  pthread_t thread;
  arguments();
  unreachable();
  left_alone();
  octets();
  rooms();
  names();
  noise();
  char *reference = opened();
  WANT(lr_idl_caller_of(&caller, "IOR:1"), LR_E_REFERENCE);
  WANT(lr_idl_caller_of(&caller, "IOR:000000000000000100000000" "00000000"), LR_E_REFERENCE);
  WANT(lr_idl_caller_of(&caller, reference), LR_OK);
  CHECK(pthread_create(&thread, NULL, serve, NULL) == 0);
  calls(&caller);
  sent_again();
  CHECK(refused_calls(PLAIN) > 10);
  CHECK(refused_calls(FULL) > 10);
  CHECK(refused_servants() > 5);
  CHECK(refused_openings(reference) > 10);
  refused_additions(&offers[0]);
  refused_additions(&offers[1]);
  kill(getpid(), SIGTERM);
  CHECK(pthread_join(thread, NULL) == 0);
  lr_idl_caller_close(&caller);
  lr_server_close(&server);
  free(reference);
  return check_end();
}
