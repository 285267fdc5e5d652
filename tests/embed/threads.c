/*
 * Threads that take and give back memory at once, over the heap of the library alone (embed/support.c), which is
 * compiled with them: a sanitizer sees both.
 */
#include <pthread.h>
#include <stdlib.h>

#include "check.h"

enum { THREADS = 8, ROUNDS = 1000 };

/* as embed/support.c declares them, for the Rattle code */
struct tried {
  bool ok;
  void *at;
};
struct tried rattle_alloc(size_t size, size_t alignment);
struct tried rattle_realloc(void *at, size_t kept, size_t size, size_t alignment);
void rattle_dealloc(void *at);

static void *takes(void *failed) {
  for (int round = 0; round < ROUNDS; round++) {
    struct tried one = rattle_alloc(16, 8), more = one;
    if (one.ok) more = rattle_realloc(one.at, 16, 64, 8);
    if (!more.ok) *(bool *)failed = true;
    if (more.ok) rattle_dealloc(more.at);
  }
  return NULL;
}

int main(void) {
  pthread_t threads[THREADS];
  bool failed[THREADS] = {false};
  WANT(lr_set_heap(malloc, realloc, free), LR_OK);
  for (int at = 0; at < THREADS; at++) CHECK(pthread_create(&threads[at], NULL, takes, &failed[at]) == 0);
  for (int at = 0; at < THREADS; at++) CHECK(pthread_join(threads[at], NULL) == 0 && !failed[at]);
  WANT(lr_set_heap(malloc, realloc, free), LR_E_OPEN);
  return check_end();
}
