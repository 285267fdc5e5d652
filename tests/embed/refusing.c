/* What is linked before a program in C whose allocation of the number REFUSED is refused, counted from 1. It wants
 * -Wl,--wrap=malloc -Wl,--wrap=realloc. */
#include <stdbool.h>
#include <stdlib.h>

void *__real_malloc(size_t size);
void *__real_realloc(void *place, size_t size);
void *__wrap_malloc(size_t size);
void *__wrap_realloc(void *place, size_t size);

static bool refuses(void) {
  static long count = 0;
  const char *refused = getenv("REFUSED");
  return refused != NULL && ++count == atol(refused);
}

void *__wrap_malloc(size_t size) { return refuses() ? NULL : __real_malloc(size); }
void *__wrap_realloc(void *place, size_t size) { return refuses() ? NULL : __real_realloc(place, size); }
