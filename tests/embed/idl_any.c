/* The box of tests/embed/idl_any_test.py in C: a server, and a client of a box, whose anys another box judges. */
#define _DEFAULT_SOURCE
#include <stdio.h>
#include <stdlib.h>
#include <unistd.h>

#include "box_idl.h"
#include "loop.h"

static lr_idl_offer offer;

/* ---- basic types ---- */

struct basic {
  const char *name;
  const lr_idl_type *type;
  const void *value;
};

#define VALUE(NAME, TYPE, ...) static const TYPE NAME##_value = __VA_ARGS__
VALUE(boolean, bool, true);
VALUE(char, char, 'x');
VALUE(octet, uint8_t, 200);
VALUE(short, int16_t, -5);
VALUE(ushort, uint16_t, 65000);
VALUE(long, int32_t, -70000);
VALUE(ulong, uint32_t, 4000000000);
VALUE(longlong, int64_t, -5000000000);
VALUE(ulonglong, uint64_t, UINT64_C(10000000000000000000));
VALUE(float, float, 0.5f);
VALUE(double, double, -0.375);
static const char *const string_value = "a text";

#define BASIC(NAME) {#NAME, &lr_idl_##NAME##__type, &NAME##_value}
static const struct basic basics[] = {BASIC(boolean), BASIC(char), BASIC(octet), BASIC(short), BASIC(ushort),
                                      BASIC(long), BASIC(ulong), BASIC(longlong), BASIC(ulonglong), BASIC(float),
                                      BASIC(double), BASIC(string)};
enum { BASICS = sizeof basics / sizeof *basics };

static const struct basic *basic_of(const char *name) {
  for (const struct basic *one = basics; one < basics + BASICS; one++)
    if (strcmp(one->name, name) == 0) return one;
  return NULL;
}

/* Whether an any has a value, and of no other type. */
static bool is_of(const struct basic *basic, const lr_idl_any *any) {
  union {
    char *text;
    unsigned char octets[8];
  } found;
  int16_t other;
  if (basic->type != &lr_idl_short__type && lr_idl_any__value(any, &lr_idl_short__type, &other) != LR_E_VALUE) return 0;
  if (lr_idl_any__value(any, basic->type, &found) != LR_OK) return false;
  const bool is_text = basic->type == &lr_idl_string__type;
  const bool is_same = is_text ? strcmp(found.text, string_value) == 0
                               : memcmp(&found, basic->value, basic->type->size) == 0;
  lr_idl_free(basic->type, &found);
  return is_same;
}

/* ---- the server ---- */

static lr_idl_any kept;

static int64_t known(void *self, const lr_idl_call *call, bool are_basic) {
  char *names[BASICS];
  const Pass_Names found = {BASICS, names};
  (void)self, (void)are_basic;
  for (int index = 0; index < BASICS; index++) memcpy(&names[index], &basics[index].name, sizeof names[index]);
  return Pass_Box_known__answer(call, &found);
}

static int64_t make(void *self, const lr_idl_call *call, const char *name) {
  const struct basic *basic = basic_of(name);
  lr_idl_any made;
  (void)self;
  if (basic == NULL || lr_idl_any__of(&made, basic->type, basic->value) < 0) return LR_E_OUTCOME;
  int64_t done = Pass_Box_make__answer(call, &made);
  lr_idl_any__free(&made);
  return done;
}

static int64_t check(void *self, const lr_idl_call *call, const char *name, const lr_idl_any *one) {
  const struct basic *basic = basic_of(name);
  (void)self;
  return Pass_Box_check__answer(call, basic != NULL && is_of(basic, one));
}

static int64_t turned(void *self, const lr_idl_call *call, const lr_idl_any *one, const lr_idl_any *two) {
  (void)self;
  return Pass_Box_turn__answer(call, one, two, one);
}

static int64_t hold(void *self, const lr_idl_call *call, const Pass_Held *one) {
  (void)self;
  return Pass_Box_hold__answer(call, one);
}

static int64_t pick(void *self, const lr_idl_call *call, const Pass_Either *one) {
  (void)self;
  return Pass_Box_pick__answer(call, one);
}

static int64_t fail(void *self, const lr_idl_call *call, uint8_t why, const lr_idl_any *what) {
  const Pass_Bad bad = {why, *what};
  (void)self;
  return Pass_Bad__raise(call, &bad);
}

static int64_t get_kept(void *self, const lr_idl_call *call) {
  (void)self;
  return Pass_Box__get_kept__answer(call, &kept);
}

static int64_t set_kept(void *self, const lr_idl_call *call, const lr_idl_any *value) {
  lr_idl_any own;
  (void)self;
  if (lr_idl_any__copy(value, &own) < 0) return LR_E_MEMORY;
  lr_idl_any__free(&kept);
  kept = own;
  return Pass_Box__set_kept__answer(call);
}

static const POA_Pass_Box box = {.known = known, .make = make, .check = check, .turn = turned, .hold = hold,
                                 .pick = pick, .fail = fail, ._get_kept = get_kept, ._set_kept = set_kept};

static void perform(lr_server *server, const lr_request *asked) { lr_idl_perform(&offer, server, asked); }

static int serve(void) {
  lr_server server = LR_INIT;
  lr_catalogue catalogue = LR_INIT;
  uint16_t port = 0;
  int listener = loop_listen("127.0.0.1", &port);
  offer = POA_Pass_Box__offer(&box, LR_TEXT("box"));
  if (listener < 0 || lr_catalogue_open(&catalogue) < 0 || lr_idl_add(&catalogue, &offer) < 0) return 1;
  if (lr_server_open(&server, &catalogue, 1, 2) < 0) return 1;
  lr_close(&catalogue);
  if (loop_print(LR_TEXT(Pass_Box__id), 2, "127.0.0.1", port, LR_TEXT("box")) < 0) return 1;
  int served = loop_serve(&server, listener, perform, NULL);
  lr_close(&server);
  lr_idl_any__free(&kept);
  return served == 0 ? 0 : 1;
}

/* ---- the client ---- */

enum { BACK = 9 };

/* What comes back of an any. */
static void pass(Pass_Box object, lr_idl_any *one, lr_idl_any *back) {
  lr_idl_raised raised = LR_IDL_RAISED;
  lr_idl_any more[2] = {*one, *one};
  const Pass_Held held = {3, *one, {2, more}};
  const Pass_Either either = {true, {.one = *one}};
  Pass_Held kept_one;
  Pass_Either picked;
  lr_idl_any__copy(one, &back[1]);
  Pass_Box_turn(object, one, &back[1], &back[2], &back[0], NULL);
  if (Pass_Box_hold(object, &held, &kept_one, NULL) == LR_OK) {
    back[3] = kept_one.one;
    if (kept_one.more._length == 2) memcpy(&back[4], kept_one.more._buffer, 2 * sizeof *back);
    free(kept_one.more._buffer);
  }
  if (Pass_Box_pick(object, &either, &picked, NULL) == LR_OK) back[6] = picked._u.one;
  if (Pass_Box_fail(object, 7, one, &raised) == LR_ENDED_RAISED && Pass_Bad__of(&raised) != NULL)
    lr_idl_any__copy(&Pass_Bad__of(&raised)->what, &back[7]);
  lr_idl_raised_free(&raised);
  Pass_Box__set_kept(object, one, NULL);
  Pass_Box__get_kept(object, &back[8], NULL);
}

static void ask_one(Pass_Box object, Pass_Box judge, const char *name) {
  lr_idl_any one, back[BACK];
  int count = 0;
  memset(back, 0, sizeof back);
  if (Pass_Box_make(judge, name, &one, NULL) != LR_OK) return;
  pass(object, &one, back);
  for (int index = 0; index < BACK; index++) {
    bool is_same = false;
    count += Pass_Box_check(judge, name, &back[index], &is_same, NULL) == LR_OK && is_same;
    lr_idl_any__free(&back[index]);
  }
  printf("%s %d\n", name, count);
  lr_idl_any__free(&one);
}

static void ask_basic(Pass_Box judge, const struct basic *basic) {
  lr_idl_any its, made;
  bool is_same = false;
  if (Pass_Box_make(judge, basic->name, &its, NULL) != LR_OK) return;
  if (lr_idl_any__of(&made, basic->type, basic->value) == LR_OK) {
    Pass_Box_check(judge, basic->name, &made, &is_same, NULL);
    lr_idl_any__free(&made);
  }
  printf("of %s %d %d\n", basic->name, is_of(basic, &its), is_same);
  lr_idl_any__free(&its);
}

static int ask(const char *reference, const char *of_judge) {
  lr_idl_caller caller = LR_IDL_CALLER, other = LR_IDL_CALLER;
  Pass_Names names = {0, NULL};
  if (lr_idl_caller_of(&caller, reference) < 0 || lr_idl_caller_of(&other, of_judge) < 0) return 1;
  Pass_Box object = lr_idl_object_of(&caller), judge = lr_idl_object_of(&other);
  if (Pass_Box_known(judge, false, &names, NULL) != LR_OK) return 1;
  for (uint32_t index = 0; index < names._length; index++) ask_one(object, judge, names._buffer[index]);
  for (int index = 0; index < BASICS; index++) ask_basic(judge, &basics[index]);
  Pass_Names__free(&names);
  lr_idl_caller_close(&caller);
  lr_idl_caller_close(&other);
  return 0;
}

int main(int count, char **words) { return count > 2 ? ask(words[2], words[count - 1]) : serve(); }
