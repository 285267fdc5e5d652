/*
 * What stands in C in the library: the heap that the Rattle code calls, and the names and texts of errors.
 *
 * The Rattle code trusts these three functions of the heap (crate `libc` of its kit, src/heap.rt). They are called with
 * sizes below 2^63 and alignments that divide 16.
 */
#include <stdbool.h>
#include <stdlib.h>

/* What the header declares is exported, and nothing else, where this file is compiled with -fvisibility=hidden. */
#define LR_API __attribute__((visibility("default")))
#include "lemonrudder.h"

#include "errors.h"

static void *(*allocate_octets)(size_t) = malloc;
static void *(*reallocate_octets)(void *, size_t) = realloc;
static void (*release_octets)(void *) = free;

/*
 * Whether memory was taken. Threads that find it unset may all set it, so it is read and written atomically; C99 has no
 * words for that, and gcc and clang have these. It orders nothing else: it tells a program that sets the heap too late.
 */
static bool is_taken;

static bool was_taken(void) { return __atomic_load_n(&is_taken, __ATOMIC_RELAXED); }

int64_t lr_set_heap(void *(*allocate)(size_t), void *(*reallocate)(void *, size_t), void (*release)(void *)) {
  if (allocate == NULL || reallocate == NULL || release == NULL) return LR_E_RANGE;
  if (was_taken()) return LR_E_OPEN;
  allocate_octets = allocate;
  reallocate_octets = reallocate;
  release_octets = release;
  return LR_OK;
}

/* Whether there is memory, and where. Where there is none, `at` is a pointer all the same, which nobody follows. */
struct tried {
  bool ok;
  void *at;
};

struct tried rattle_alloc(size_t size, size_t alignment);
struct tried rattle_realloc(void *at, size_t kept, size_t size, size_t alignment);
void rattle_dealloc(void *at);

static struct tried tried(void *at) {
  static unsigned char nowhere;
  if (at != NULL && !was_taken()) __atomic_store_n(&is_taken, true, __ATOMIC_RELAXED);
  return (struct tried){at != NULL, at != NULL ? at : &nowhere};
}

/* A size of 0 is asked for as one unit of the alignment, since malloc(0) may answer NULL where there is memory. */
static size_t at_least(size_t size, size_t alignment) { return size != 0 ? size : alignment; }

struct tried rattle_alloc(size_t size, size_t alignment) {
  return tried(allocate_octets(at_least(size, alignment)));
}

struct tried rattle_realloc(void *at, size_t kept, size_t size, size_t alignment) {
  (void)kept;
  return tried(reallocate_octets(at, at_least(size, alignment)));
}

void rattle_dealloc(void *at) { release_octets(at); }

struct error {
  const char *name, *text;
};

static const struct error *error_of(int64_t number) {
#define ERROR(name, text) [-LR_E_##name] = {"LR_E_" #name, text},
  static const struct error all[] = {[-LR_OK] = {"LR_OK", "no error"}, ERRORS(ERROR)};
  static const struct error unknown = {"LR_E_UNKNOWN", "an unknown error"};
  if (number >= 0) return &all[-LR_OK];
  if (number <= -(int64_t)(sizeof all / sizeof *all) || all[-number].name == NULL) return &unknown;
  return &all[-number];
}

const char *lr_error_name(int64_t error) { return error_of(error)->name; }

const char *lr_strerror(int64_t error) { return error_of(error)->text; }
