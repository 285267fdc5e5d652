/* Loaded before the C library: refuses one allocation, and counts all that were asked for. An allocation
   is a call of malloc or realloc. REFUSE_ALLOCATION is the number of the one that is refused, from 1
   (0: none). REFUSE_ABOVE, where it is set, is the most octets that one allocation may ask for: each
   larger one is refused. REFUSE_COUNT names a file of 8 octets that holds the count, however the program
   ends. */
#define _GNU_SOURCE
#include <dlfcn.h>
#include <errno.h>
#include <fcntl.h>
#include <stdint.h>
#include <stdlib.h>
#include <sys/mman.h>
#include <unistd.h>

static uint64_t refused;
static uint64_t most = UINT64_MAX;
static uint64_t *count;
static void *(*next_malloc)(size_t);
static void *(*next_realloc)(void *, size_t);

__attribute__((constructor)) static void begin(void) {
    const char *number = getenv("REFUSE_ALLOCATION");
    const char *path = getenv("REFUSE_COUNT");
    const char *above = getenv("REFUSE_ABOVE");
    if (above != NULL)
        most = strtoull(above, NULL, 10);
    next_malloc = dlsym(RTLD_NEXT, "malloc");
    next_realloc = dlsym(RTLD_NEXT, "realloc");
    if (number == NULL || path == NULL)
        return;
    int file = open(path, O_RDWR);
    if (file < 0)
        return;
    void *place = mmap(NULL, sizeof *count, PROT_READ | PROT_WRITE, MAP_SHARED, file, 0);
    close(file);
    if (place == MAP_FAILED)
        return;
    refused = strtoull(number, NULL, 10);
    count = place;
}

/* Whether this allocation, of so many octets, is one that is refused. */
static int is_refused(size_t size) {
    if (size > most)
        return 1;
    if (count == NULL)
        return 0;
    *count += 1;
    return *count == refused;
}

void *malloc(size_t size) {
    if (is_refused(size)) {
        errno = ENOMEM;
        return NULL;
    }
    if (next_malloc == NULL)
        next_malloc = dlsym(RTLD_NEXT, "malloc");
    return next_malloc(size);
}

void *realloc(void *place, size_t size) {
    if (is_refused(size)) {
        errno = ENOMEM;
        return NULL;
    }
    if (next_realloc == NULL)
        next_realloc = dlsym(RTLD_NEXT, "realloc");
    return next_realloc(place, size);
}
