/* Calls by stubs in C of tests/embed/idl_stubs_test.py: what is asked for is the first word, the reference the second. */
#include <stdio.h>
#include <stdlib.h>

#include "log_idl.h"
#include "loop.h"

/* Three notes, behind a call that waits for its reply where there is one more word; then the caller is closed. */
static int64_t notes(lr_idl_caller *caller, bool is_connected) {
  int32_t total = 0;
  int64_t done = is_connected ? Log_total(lr_idl_object_of(caller), &total, NULL) : LR_OK;
  for (int32_t note = 1; done == LR_OK && note <= 3; note++) done = Log_note(lr_idl_object_of(caller), note, NULL);
  return done;
}

/* A note, and, once what it waits for is there, another one. */
static int64_t later(lr_idl_caller *caller) {
  int64_t done = Log_note(lr_idl_object_of(caller), 1, NULL);
  puts("noted");
  fflush(stdout);
  getchar();
  return done == LR_OK ? Log_note(lr_idl_object_of(caller), 2, NULL) : done;
}

/* A total, and another one where there is one more word, of a caller whose calls expire after 4 seconds. */
static int64_t mute(lr_idl_caller *caller, bool is_twice) {
  int32_t total = 0;
  caller->patience = 4 * LR_SECOND;
  int64_t done = Log_total(lr_idl_object_of(caller), &total, NULL);
  return done == LR_OK && is_twice ? Log_total(lr_idl_object_of(caller), &total, NULL) : done;
}

/* Prints how many KiB of memory were taken at most. */
static void print_peak(void) {
  char line[256];
  FILE *status = fopen("/proc/self/status", "r");
  while (status != NULL && fgets(line, sizeof line, status) != NULL)
    if (strncmp(line, "VmHWM:", 6) == 0) printf("%ld ", atol(line + 6));
  if (status != NULL) fclose(status);
}

/* What is kept, of which so much memory may be made. */
static int64_t kept(lr_idl_caller *caller, uint64_t limit) {
  Bigs some;
  caller->limit = limit;
  int64_t done = Log_kept(lr_idl_object_of(caller), &some, NULL);
  if (done == LR_OK) Bigs__free(&some);
  print_peak();
  return done;
}

static int64_t keep(void *self, const lr_idl_call *call, const Bigs *some) {
  (void)self;
  return Log_keep__answer(call, (int32_t)some->_length);
}

static lr_idl_offer offer;

static void perform(lr_server *server, const lr_request *asked) { lr_idl_perform(&offer, server, asked); }

/* Serves a log, for a call of which so much memory may be made. */
static int serve(uint64_t limit) {
  static const POA_Log servant = {.keep = keep};
  lr_catalogue catalogue = LR_INIT;
  lr_server server = LR_INIT;
  uint16_t port = 0;
  int listener = loop_listen("127.0.0.1", &port);
  offer = POA_Log__offer(&servant, LR_TEXT("log"));
  offer.limit = limit;
  if (listener < 0 || lr_catalogue_open(&catalogue) < 0 || lr_idl_add(&catalogue, &offer) < 0) return 1;
  if (lr_server_open(&server, &catalogue, 1, 2) < 0) return 1;
  loop_print(LR_TEXT(Log__id), 2, "127.0.0.1", port, LR_TEXT("log"));
  return loop_serve(&server, listener, perform, NULL);
}

static int64_t asked(lr_idl_caller *caller, int count, char **words) {
  if (strcmp(words[1], "notes") == 0) return notes(caller, count > 3);
  if (strcmp(words[1], "later") == 0) return later(caller);
  if (strcmp(words[1], "kept") == 0) return kept(caller, strtoull(words[3], NULL, 10));
  if (strcmp(words[1], "mute") == 0) return mute(caller, count > 3);
  caller->answer_timeout = LR_SECOND / 5;
  if (strcmp(words[1], "soon") == 0) return Log_total(lr_idl_object_of(caller), &(int32_t){0}, NULL);
  return LR_E_RANGE;
}

int main(int count, char **words) {
  lr_idl_caller caller = LR_IDL_CALLER;
  if (strcmp(words[1], "serve") == 0) return serve(count > 2 ? strtoull(words[2], NULL, 10) : 0);
  int64_t done = lr_idl_caller_of(&caller, words[2]);
  if (done == LR_OK) done = asked(&caller, count, words);
  lr_idl_caller_close(&caller);
  puts(lr_error_name(done));
  return 0;
}
