/* A plug-in with the archive inside, which has a heap of its own: see copies.c. */
#include <stdlib.h>

#include "check.h"

static long made, held;

static void *allocate(size_t size) {
  void *at = malloc(size);
  made++;
  held += at != NULL;
  return at;
}

static void *reallocate(void *old, size_t size) {
  held += old == NULL;
  return realloc(old, size);
}

static void release(void *at) {
  held -= at != NULL;
  free(at);
}

/* Uses the library, which is to be this plug-in's own. Answers how many allocations it made; 0 where something differs. */
int64_t plug_in(void) {
  lr_catalogue catalogue = LR_INIT;
  WANT(lr_set_heap(allocate, reallocate, release), LR_OK);
  WANT(lr_catalogue_open(&catalogue), LR_OK);
  WANT(lr_catalogue_object(&catalogue, "key", 3), LR_OK);
  CHECK(made > 0 && held > 0);
  WANT(lr_set_heap(allocate, reallocate, release), LR_E_OPEN);
  lr_catalogue_close(&catalogue);
  CHECK(held == 0);
  return check_failed == 0 ? made : 0;
}
