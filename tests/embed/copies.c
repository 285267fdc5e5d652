/*
 * Three copies of the library in one process: the shared one, and those of two plug-ins (plug.c), which are named as
 * arguments. Each has its own heap.
 */
#include <dlfcn.h>
#include <stdlib.h>

#include "check.h"

static long made;

static void *allocate(size_t size) {
  made++;
  return malloc(size);
}

int main(int count, char **words) {
  lr_catalogue catalogue = LR_INIT;
  WANT(lr_set_heap(allocate, realloc, free), LR_OK);
  for (int index = 1; index < count; index++) {
    int64_t (*plug_in)(void) = NULL;
    void *loaded = dlopen(words[index], RTLD_NOW | RTLD_GLOBAL), *found = NULL;
    if (CHECK(loaded != NULL)) found = dlsym(loaded, "plug_in");
    memcpy(&plug_in, &found, sizeof found);
    CHECK(found != NULL && plug_in() > 0);
  }
  WANT(count, 3);
  CHECK(made == 0);
  WANT(lr_catalogue_open(&catalogue), LR_OK);
  CHECK(made > 0);
  lr_catalogue_close(&catalogue);
  return check_end();
}
