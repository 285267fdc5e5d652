/*
 * Two archives in one program: the library's, and a copy of it whose functions begin with other_ in place of lr_. Each
 * has a heap of its own.
 */
#include <stdlib.h>

#include "check.h"

int64_t other_set_heap(void *(*allocate)(size_t), void *(*reallocate)(void *, size_t), void (*release)(void *));
int64_t other_catalogue_open(lr_catalogue *catalogue);
int64_t other_catalogue_object(lr_catalogue *catalogue, const void *key, size_t key_size);
void other_close(void *slot);

static long made;

static void *allocate(size_t size) {
  made++;
  return malloc(size);
}

int main(void) {
  lr_catalogue first = LR_INIT, second = LR_INIT;
  WANT(other_set_heap(allocate, realloc, free), LR_OK);
  WANT(lr_catalogue_open(&first), LR_OK);
  WANT(lr_catalogue_object(&first, "key", 3), LR_OK);
  CHECK(made == 0);
  WANT(lr_set_heap(malloc, realloc, free), LR_E_OPEN);
  WANT(other_set_heap(allocate, realloc, free), LR_OK);
  WANT(other_catalogue_open(&second), LR_OK);
  WANT(other_catalogue_object(&second, "key", 3), LR_OK);
  WANT(other_catalogue_object(&second, "key", 3), LR_E_TAKEN);
  CHECK(made > 0);
  WANT(other_set_heap(malloc, realloc, free), LR_E_OPEN);
  other_close(&second);
  lr_catalogue_close(&first);
  return check_end();
}
