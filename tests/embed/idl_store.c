/* The store of tests/embed/idl_files_test.py in C: a server, and a client that prints what it is answered. */
#define _DEFAULT_SOURCE
#include <stdio.h>
#include <stdlib.h>
#include <unistd.h>

#include "loop.h"
#include "store_idl.h"

enum { TK_STRING = 18 };
static lr_idl_offer offer;

static int64_t name(void *self, const lr_idl_call *call) {
  (void)self;
  return Store_Named__get_name__answer(call, "deep");
}

static int64_t keep(void *self, const lr_idl_call *call, const Store_Node *tree) {
  char longer[64];
  const Store_Missing missing = {(char[]){"none"}};
  (void)self;
  if (tree->name == NULL || *tree->name == 0) return Store_Missing__raise(call, &missing);
  snprintf(longer, sizeof longer, "%s!", tree->name);
  const Store_Node kept = {longer, tree->children};
  return Store_Box_keep__answer(call, &kept);
}

static int64_t put(void *self, const lr_idl_call *call, const lr_idl_body *body) {
  lr_place in = {body->at, 0, body->order, 0}, out = {0, 0, LR_ORDER_BIG, 0};
  uint32_t kind = 0;
  int32_t number = 0;
  uint8_t room[128];
  const Store_Missing missing = {(char[]){"below"}};
  (void)self;
  lr_get_ulong(body->octets._buffer, body->octets._length, &in, &kind);
  if (lr_get_long(body->octets._buffer, body->octets._length, &in, &number) < 0 || kind != TK_STRING)
    return lr_server_refuse(call->server, call->ticket, LR_EX_MARSHAL, 0);
  if (number < 0) {
    lr_put_string(room, sizeof room, &out, LR_TEXT(Store_Missing__id));
    if (Store_Missing__put(room, sizeof room, &out, &missing) < 0) return LR_E_ROOM;
    return lr_server_answer_raw(call->server, call->ticket, LR_REPLY_USER_EXCEPTION, LR_ORDER_BIG, room,
                                (size_t)out.next);
  }
  lr_put_ulong(room, sizeof room, &out, TK_STRING);
  lr_put_long(room, sizeof room, &out, number + 1);
  const lr_idl_body more = {LR_ORDER_BIG, 0, {(uint32_t)out.next, room}};
  return Store_Deep_put__answer(call, &more);
}

static int64_t called(void *self, const lr_idl_call *call, int32_t number) {
  (void)self;
  return Store_Deep_call__answer(call, number + 1);
}

static const POA_Store_Deep deep = {._get_name = name, .keep = keep, .put = put, .call = called};

static void perform(lr_server *server, const lr_request *asked) { lr_idl_perform(&offer, server, asked); }

static int serve(void) {
  lr_server server = LR_INIT;
  lr_catalogue catalogue = LR_INIT;
  uint16_t port = 0;
  int listener = loop_listen("127.0.0.1", &port);
  offer = POA_Store_Deep__offer(&deep, LR_TEXT("deep"));
  if (listener < 0 || lr_catalogue_open(&catalogue) < 0 || lr_idl_add(&catalogue, &offer) < 0) return 1;
  if (lr_server_open(&server, &catalogue, 1, 2) < 0) return 1;
  lr_close(&catalogue);
  if (loop_print(LR_TEXT(Store_Deep__id), 2, "127.0.0.1", port, LR_TEXT("deep")) < 0) return 1;
  int served = loop_serve(&server, listener, perform, NULL);
  lr_close(&server);
  return served == 0 ? 0 : 1;
}

static void tell(const lr_idl_raised *raised) {
  const Store_Missing *missing = Store_Missing__of(raised);
  if (missing != NULL) printf("missing %s\n", missing->name);
}

static void put_one(Store_Deep object, int32_t number) {
  uint8_t room[16];
  lr_place out = {0, 0, LR_ORDER_LITTLE, 0};
  lr_put_ulong(room, sizeof room, &out, TK_STRING);
  lr_put_long(room, sizeof room, &out, number);
  const lr_idl_body body = {LR_ORDER_LITTLE, 0, {(uint32_t)out.next, room}};
  lr_idl_body result;
  int64_t done = Store_Deep_put(object, &body, &result, NULL);
  if (done < 0) return;
  lr_place in = {result.at, 0, result.order, 0};
  uint32_t kind = 0;
  uint64_t start, length;
  Store_Missing missing;
  if (done == LR_ENDED_RAISED) {
    lr_get_string(result.octets._buffer, result.octets._length, &in, &start, &length);
    if (Store_Missing__get(result.octets._buffer, result.octets._length, &in, &missing) == LR_OK)
      printf("missing %s\n", missing.name), Store_Missing__free(&missing);
  } else {
    lr_get_ulong(result.octets._buffer, result.octets._length, &in, &kind);
    lr_get_long(result.octets._buffer, result.octets._length, &in, &number);
    printf("%d\n", kind == TK_STRING ? number : 0);
  }
  lr_idl_body__free(&result);
}

static int ask(const char *reference) {
  lr_idl_caller caller = LR_IDL_CALLER;
  lr_idl_raised raised = LR_IDL_RAISED;
  if (lr_idl_caller_of(&caller, reference) < 0) return 1;
  Store_Deep object = lr_idl_object_of(&caller);
  char *text = NULL;
  if (Store_Deep__get_name(object, &text, NULL) == LR_OK) puts(text);
  free(text);
  Store_Node leaf = {(char[]){"c"}, {0, NULL}}, twigs[2] = {{NULL, {0, NULL}}, {(char[]){"b"}, {1, &leaf}}};
  Store_Node tree = {(char[]){"a"}, {2, twigs}}, none = {NULL, {0, NULL}}, kept;
  if (Store_Deep_keep(object, &tree, &kept, NULL) == LR_OK) {
    printf("%s %u %s\n", kept.name, kept.children._length, kept.children._buffer[1].children._buffer[0].name);
    Store_Node__free(&kept);
  }
  if (Store_Deep_keep(object, &none, &kept, &raised) == LR_ENDED_RAISED) tell(&raised);
  lr_idl_raised_free(&raised);
  put_one(object, 5);
  put_one(object, -1);
  int32_t more = 0;
  if (Store_Deep_call(object, 4, &more, NULL) == LR_OK) printf("%d\n", more);
  lr_idl_caller_close(&caller);
  return 0;
}

int main(int count, char **words) { return count == 3 ? ask(words[2]) : serve(); }
