/*
 * What the tests of the boundary share: counts of what passed, and messages that are written out without the library
 * (CORBA 3.3 Part 2, 9.3 and 9.4).
 */
#ifndef CHECK_H
#define CHECK_H

#include <lemonrudder.h>
#include <stdbool.h>
#include <stdio.h>
#include <string.h>

static long check_passed, check_failed;

static inline bool check(bool is_right, const char *text, int line) {
  if (is_right) {
    check_passed++;
  } else {
    check_failed++;
    printf("line %d: not so: %s\n", line, text);
  }
  return is_right;
}

static inline bool want(int64_t got, int64_t wanted, const char *text, int line) {
  if (got == wanted) {
    check_passed++;
  } else {
    check_failed++;
    printf("line %d: %s is %lld, not %lld\n", line, text, (long long)got, (long long)wanted);
  }
  return got == wanted;
}

#define CHECK(what) check((what), #what, __LINE__)
#define WANT(call, wanted) want((call), (wanted), #call, __LINE__)

/* The last line, and the status of the program. */
static inline int check_end(void) {
  printf("%ld passed, %ld failed\n", check_passed, check_failed);
  return check_failed != 0 || check_passed == 0;
}

/* ---- octets ---- */

#define SIZE(text) (sizeof(text) - 1)

struct octets {
  unsigned char all[1024];
  size_t size;
  uint32_t order;
};

static inline void put_octets(struct octets *out, const void *octets, size_t size) {
  if (size > 0) memcpy(out->all + out->size, octets, size);
  out->size += size;
}

static inline void put_zeros(struct octets *out, size_t size) {
  memset(out->all + out->size, 0, size);
  out->size += size;
}

static inline void align(struct octets *out, size_t to) { put_zeros(out, (to - out->size % to) % to); }

/* A number of so many octets, which it is aligned to. */
static inline void put_number(struct octets *out, uint64_t number, size_t width) {
  align(out, width);
  for (size_t index = 0; index < width; index++) {
    size_t shift = 8 * (out->order == LR_ORDER_BIG ? width - 1 - index : index);
    out->all[out->size++] = (unsigned char)(number >> shift);
  }
}

static inline void put_sequence(struct octets *out, const void *octets, size_t size) {
  put_number(out, size, 4);
  put_octets(out, octets, size);
}

/* A string, which is written with its NUL. */
static inline void put_text(struct octets *out, const char *text) { put_sequence(out, text, strlen(text) + 1); }

/* Begins a message; `end_message` writes its size into its header. */
static inline void begin_message(struct octets *out, uint32_t version, uint32_t order, uint32_t type) {
  const unsigned char header[] = {
      'G', 'I', 'O', 'P', 1, (unsigned char)version, (unsigned char)order, (unsigned char)type, 0, 0, 0, 0};
  out->size = 0;
  out->order = order;
  put_octets(out, header, sizeof header);
}

static inline void end_message(struct octets *out) {
  size_t size = out->size;
  out->size = 8;
  put_number(out, size - 12, 4);
  out->size = size;
}

/* What a Request asks. Without a client it has no service context. */
struct asking {
  uint32_t version, order, request_id, wish;
  const char *key, *operation, *client;
  int32_t retention_id;
  uint64_t expiration;
};

static inline void put_contexts(struct octets *out, const struct asking *asking) {
  struct octets context = {.size = 0, .order = asking->order};
  put_number(out, asking->client != NULL, 4);
  if (asking->client == NULL) return;
  put_number(&context, asking->order, 1);
  put_text(&context, asking->client);
  put_number(&context, (uint32_t)asking->retention_id, 4);
  put_number(&context, asking->expiration, 8);
  put_number(out, LR_CONTEXT_FT_REQUEST, 4);
  put_sequence(out, context.all, context.size);
}

/* Begins a Request, up to its arguments, which in 1.2 are aligned to 8 where there are any. */
static inline void begin_request(struct octets *out, const struct asking *asking, bool has_arguments) {
  static const unsigned char flags[] = {0, 1, 3};
  begin_message(out, asking->version, asking->order, LR_MSG_REQUEST);
  if (asking->version < 2) {
    put_contexts(out, asking);
    put_number(out, asking->request_id, 4);
    put_number(out, asking->wish == LR_WISH_FULL, 1);
    if (asking->version == 1) put_zeros(out, 3);
  } else {
    put_number(out, asking->request_id, 4);
    put_number(out, flags[asking->wish], 1);
    put_zeros(out, 3);
    put_number(out, 0, 2);
  }
  put_sequence(out, asking->key, strlen(asking->key));
  put_text(out, asking->operation);
  if (asking->version < 2) {
    put_number(out, 0, 4);
    return;
  }
  put_contexts(out, asking);
  if (has_arguments) align(out, 8);
}

/* Begins a Reply without service contexts, up to its body. */
static inline void begin_reply(struct octets *out, uint32_t version, uint32_t order, uint32_t request_id,
                               uint32_t status) {
  begin_message(out, version, order, LR_MSG_REPLY);
  if (version < 2) put_number(out, 0, 4);
  put_number(out, request_id, 4);
  put_number(out, status, 4);
  if (version == 2) put_number(out, 0, 4);
}

/* A Reply with a system exception, of minor code 0. */
static inline void system_reply(struct octets *out, uint32_t version, uint32_t request_id, const char *id,
                                uint32_t completed) {
  begin_reply(out, version, LR_ORDER_BIG, request_id, LR_REPLY_SYSTEM_EXCEPTION);
  put_text(out, id);
  put_number(out, 0, 4);
  put_number(out, completed, 4);
  end_message(out);
}

/* The reference of the type IDL:C:1.0 to the object `c` at host:2809, by IIOP 1.2, with a component: tag 1, 01020304.
 */
#define REFERENCE                    \
  "IOR:00000000"                     \
  "0000000a49444c3a433a312e30000000" \
  "000000010000000000000028"         \
  "00010200"                         \
  "00000005686f737400000af9"         \
  "0000000163000000"                 \
  "00000001000000010000000401020304"

static inline bool equal(const void *one, size_t size, const struct octets *other) {
  return size == other->size && memcmp(one, other->all, size) == 0;
}

#endif
