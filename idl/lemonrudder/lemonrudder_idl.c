/* What is declared in lemonrudder_idl.h. */
#define _DEFAULT_SOURCE
#include "lemonrudder_idl.h"

#include <errno.h>
#include <netdb.h>
#include <netinet/in.h>
#include <netinet/tcp.h>
#include <poll.h>
#include <stdio.h>
#include <stdlib.h>
#include <sys/socket.h>
#include <sys/time.h>
#include <time.h>
#include <unistd.h>

/* How each sequence is laid out. */
struct sequence {
  uint32_t length;
  void *buffer;
};

#define BASIC(NAME, KIND, TYPE) const lr_idl_type lr_idl_##NAME##__type = {.kind = KIND, .size = sizeof(TYPE)}
BASIC(boolean, LR_IDL_BOOLEAN, bool);
BASIC(char, LR_IDL_CHAR, char);
BASIC(octet, LR_IDL_OCTET, uint8_t);
BASIC(short, LR_IDL_SHORT, int16_t);
BASIC(ushort, LR_IDL_USHORT, uint16_t);
BASIC(long, LR_IDL_LONG, int32_t);
BASIC(ulong, LR_IDL_ULONG, uint32_t);
BASIC(longlong, LR_IDL_LONGLONG, int64_t);
BASIC(ulonglong, LR_IDL_ULONGLONG, uint64_t);
BASIC(float, LR_IDL_FLOAT, float);
BASIC(double, LR_IDL_DOUBLE, double);
BASIC(string, LR_IDL_STRING, char *);

#define SEQUENCE_OF(TYPE) {.kind = LR_IDL_SEQUENCE, .size = sizeof(struct sequence), .inner = (TYPE)}
static const lr_idl_type octets_type = SEQUENCE_OF(&lr_idl_octet__type);
static const lr_idl_member profile_members[] = {{&lr_idl_ulong__type, offsetof(lr_idl_profile, tag), 0, false},
                                                {&octets_type, offsetof(lr_idl_profile, data), 0, false}};
static const lr_idl_type profile_type = {LR_IDL_STRUCT, 2, sizeof(lr_idl_profile), NULL, profile_members};
static const lr_idl_type profiles_type = SEQUENCE_OF(&profile_type);
static const lr_idl_member reference_members[] = {
    {&lr_idl_string__type, offsetof(lr_idl_reference, type_id), 0, false},
    {&profiles_type, offsetof(lr_idl_reference, profiles), 0, false}};
const lr_idl_type lr_idl_reference__type = {LR_IDL_STRUCT, 2, sizeof(lr_idl_reference), NULL, reference_members};

static const lr_idl_member body_members[] = {{&octets_type, offsetof(lr_idl_body, octets), 0, false}};
const lr_idl_type lr_idl_body__type = {LR_IDL_BODY, 1, sizeof(lr_idl_body), NULL, body_members};

static const lr_idl_member any_members[] = {{&octets_type, offsetof(lr_idl_any, type), 0, false},
                                            {&octets_type, offsetof(lr_idl_any, value), 0, false}};
const lr_idl_type lr_idl_any__type = {LR_IDL_ANY, 2, sizeof(lr_idl_any), NULL, any_members};

/* How deep sequences stand in sequences. */
enum { DEPTH = 64 };

/* ---- values ---- */

/* (Pointers to any type are laid out alike, and copied as octets, since they have many types.) */
static char *text_at(const void *value) {
  char *text;
  memcpy(&text, value, sizeof text);
  return text;
}

static struct sequence sequence_at(const void *value) {
  struct sequence found;
  memcpy(&found, value, sizeof found);
  return found;
}

static void *part_of(const void *value, size_t offset) { return (unsigned char *)(uintptr_t)value + offset; }

/* The number of a value that may discriminate a union, with its sign. */
static uint64_t number_of(const lr_idl_type *type, const void *value) {
  switch (type->kind) {
    case LR_IDL_BOOLEAN: return *(const bool *)value ? 1 : 0;
    case LR_IDL_CHAR:
    case LR_IDL_OCTET: return *(const unsigned char *)value;
    case LR_IDL_SHORT: return (uint64_t)*(const int16_t *)value;
    case LR_IDL_USHORT: return *(const uint16_t *)value;
    case LR_IDL_LONG: return (uint64_t)*(const int32_t *)value;
    case LR_IDL_LONGLONG: return (uint64_t)*(const int64_t *)value;
    case LR_IDL_ULONGLONG: return *(const uint64_t *)value;
    default: break;
  }
  uint32_t number; /* (of an enum too, which is as large) */
  memcpy(&number, value, sizeof number);
  return number;
}

/* The member that the discriminator of a union selects; NULL where there is none. */
static const lr_idl_member *selected(const lr_idl_type *type, const void *value) {
  uint64_t label = number_of(type->inner, value);
  const lr_idl_member *found = NULL;
  for (const lr_idl_member *one = type->members; one < type->members + type->count; one++) {
    if (!one->is_default && one->label == label) return one;
    if (one->is_default) found = one;
  }
  return found;
}

/* ---- freeing ---- */

static void free_value(const lr_idl_type *type, void *value);

/* Frees what the members of a sequence or an array own. */
static void free_members(const lr_idl_type *member, uint32_t count, void *first) {
  for (uint32_t index = 0; member->kind > LR_IDL_ENUM && index < count; index++)
    free_value(member, part_of(first, index * member->size));
}

static void free_struct(const lr_idl_type *type, void *value) {
  for (uint32_t index = 0; index < type->count; index++)
    free_value(type->members[index].type, part_of(value, type->members[index].offset));
}

static void free_value(const lr_idl_type *type, void *value) {
  if (type->kind == LR_IDL_STRING) free(text_at(value));
  if (type->kind == LR_IDL_ARRAY) free_members(type->inner, type->count, value);
  if (type->kind == LR_IDL_STRUCT || type->kind >= LR_IDL_BODY) free_struct(type, value);
  if (type->kind == LR_IDL_SEQUENCE) {
    struct sequence some = sequence_at(value);
    if (some.buffer != NULL) free_members(type->inner, some.length, some.buffer);
    free(some.buffer);
  }
  if (type->kind == LR_IDL_UNION) {
    const lr_idl_member *member = selected(type, value);
    if (member != NULL) free_value(member->type, part_of(value, member->offset));
  }
}

void lr_idl_free(const lr_idl_type *type, void *value) {
  free_value(type, value);
  memset(value, 0, type->size);
}

/* ---- copying ---- */

/* Copies a value into one that is all zero. At an error that owns what was copied. */
static int64_t copy_value(const lr_idl_type *type, const void *from, void *to);

static int64_t copy_text(const void *from, void *to) {
  const char *text = text_at(from);
  if (text == NULL) return LR_OK;
  char *made = malloc(strlen(text) + 1);
  if (made == NULL) return LR_E_MEMORY;
  memcpy(made, text, strlen(text) + 1);
  memcpy(to, &made, sizeof made);
  return LR_OK;
}

/* Copies the members of a sequence or an array. */
static int64_t copy_members(const lr_idl_type *member, uint32_t count, const void *from, void *to) {
  int64_t done = LR_OK;
  for (uint32_t index = 0; done == LR_OK && index < count; index++)
    done = copy_value(member, part_of(from, index * member->size), part_of(to, index * member->size));
  return done;
}

static int64_t copy_sequence(const lr_idl_type *member, const void *from, void *to) {
  struct sequence some = sequence_at(from);
  if (some.buffer == NULL || some.length == 0) return LR_OK;
  struct sequence made = {some.length, malloc(some.length * member->size)};
  if (made.buffer == NULL) return LR_E_MEMORY;
  memset(made.buffer, 0, some.length * member->size);
  memcpy(to, &made, sizeof made);
  return copy_members(member, some.length, some.buffer, made.buffer);
}

static int64_t copy_struct(const lr_idl_type *type, const void *from, void *to) {
  int64_t done = LR_OK;
  for (uint32_t index = 0; done == LR_OK && index < type->count; index++) {
    const lr_idl_member *member = &type->members[index];
    done = copy_value(member->type, part_of(from, member->offset), part_of(to, member->offset));
  }
  return done;
}

static int64_t copy_body(const lr_idl_body *from, lr_idl_body *to) {
  to->order = from->order;
  to->at = from->at;
  return copy_sequence(&lr_idl_octet__type, &from->octets, &to->octets);
}

static int64_t copy_any(const lr_idl_any *from, lr_idl_any *to) {
  to->order = from->order;
  to->at = from->at;
  return copy_struct(&lr_idl_any__type, from, to);
}

static int64_t copy_value(const lr_idl_type *type, const void *from, void *to) {
  if (type->kind == LR_IDL_BODY) return copy_body(from, to);
  if (type->kind == LR_IDL_ANY) return copy_any(from, to);
  if (type->kind == LR_IDL_STRING) return copy_text(from, to);
  if (type->kind == LR_IDL_SEQUENCE) return copy_sequence(type->inner, from, to);
  if (type->kind == LR_IDL_ARRAY) return copy_members(type->inner, type->count, from, to);
  if (type->kind == LR_IDL_STRUCT) return copy_struct(type, from, to);
  const lr_idl_member *member = type->kind == LR_IDL_UNION ? selected(type, from) : NULL;
  memcpy(to, from, type->kind == LR_IDL_UNION ? type->inner->size : type->size);
  return member == NULL ? LR_OK : copy_value(member->type, part_of(from, member->offset), part_of(to, member->offset));
}

int64_t lr_idl_copy(const lr_idl_type *type, const void *from, void *to) {
  memset(to, 0, type->size);
  int64_t done = copy_value(type, from, to);
  if (done < 0) lr_idl_free(type, to);
  return done;
}

/* ---- reading ---- */

struct reader {
  const void *octets;
  size_t size;
  lr_place *place;
  uint64_t *left; /* how much memory values may take yet, or NULL where they own none */
  unsigned depth; /* of sequences in sequences */
};

/* How much memory the values of so many octets may take. */
static uint64_t limit_of(uint64_t limit, size_t size) {
  return limit != 0 ? limit : UINT64_C(65536) + UINT64_C(16) * size;
}

/* Takes so much of it. */
static int64_t claim(const struct reader *in, uint64_t size) {
  if (size > *in->left) return LR_E_VALUE;
  *in->left -= size;
  return LR_OK;
}

/* Reads a value into one that is all zero. At an error it owns what was read of it. */
static int64_t get_value(const struct reader *in, const lr_idl_type *type, void *value);

static int64_t get_boolean(const struct reader *in, bool *value) {
  uint8_t octet = 0;
  int64_t done = lr_get_boolean(in->octets, in->size, in->place, &octet);
  *value = octet != 0;
  return done;
}

static int64_t get_enum(const struct reader *in, const lr_idl_type *type, void *value) {
  uint32_t number = 0;
  int64_t done = lr_get_ulong(in->octets, in->size, in->place, &number);
  if (done == LR_OK && number >= type->count) return LR_E_VALUE;
  memcpy(value, &number, sizeof number);
  return done;
}

static int64_t get_text(const struct reader *in, const lr_idl_type *type, void *value) {
  uint64_t start, length;
  int64_t done = lr_get_string(in->octets, in->size, in->place, &start, &length);
  if (done < 0) return done;
  if ((type->count != 0 && length > type->count) || claim(in, length + 1) < 0) return LR_E_VALUE;
  char *text = malloc((size_t)length + 1);
  if (text == NULL) return LR_E_MEMORY;
  memcpy(text, (const char *)in->octets + start, (size_t)length);
  text[length] = 0;
  memcpy(value, &text, sizeof text);
  return LR_OK;
}

static int64_t get_octets(const struct reader *in, const lr_idl_type *type, void *value) {
  uint64_t start, length;
  int64_t done = lr_get_octets(in->octets, in->size, in->place, &start, &length);
  if (done < 0 || length == 0) return done;
  if ((type->count != 0 && length > type->count) || claim(in, length) < 0) return LR_E_VALUE;
  struct sequence some = {(uint32_t)length, malloc((size_t)length)};
  if (some.buffer == NULL) return LR_E_MEMORY;
  memcpy(some.buffer, (const unsigned char *)in->octets + start, (size_t)length);
  memcpy(value, &some, sizeof some);
  return LR_OK;
}

/* Makes room for more members of a sequence, so many in all at most, which are all zero. (It grows by what is read, as
 * octets that are none may say any count.) LR_E_VALUE: there is room for so many. */
static int64_t widen(struct sequence *some, uint32_t *room, uint32_t most, size_t size) {
  uint32_t more = *room > most / 2 ? most : *room == 0 ? 8 : 2 * *room;
  if (more > most) more = most;
  if (more == *room) return LR_E_VALUE;
  if (more > SIZE_MAX / size) return LR_E_MEMORY;
  void *buffer = realloc(some->buffer, more * size);
  if (buffer == NULL) return LR_E_MEMORY;
  memset(part_of(buffer, *room * size), 0, (more - *room) * size);
  some->buffer = buffer;
  *room = more;
  return LR_OK;
}

/* How many members a sequence may have, of which it has some: as many as it says, or there is memory for. */
static uint32_t most_of(const struct reader *in, uint32_t count, uint32_t length, size_t size) {
  const uint64_t more = size == 0 ? UINT32_MAX : *in->left / size;
  return more < count - length ? length + (uint32_t)more : count;
}

static int64_t get_sequence(const struct reader *in, const lr_idl_type *type, void *value) {
  struct sequence some = {0, NULL};
  const size_t size = type->inner->size;
  uint32_t count = 0, room = 0;
  const struct reader deeper = {in->octets, in->size, in->place, in->left, in->depth + 1};
  int64_t done = deeper.depth > DEPTH ? LR_E_VALUE : lr_get_ulong(in->octets, in->size, in->place, &count);
  if (done == LR_OK && type->count != 0 && count > type->count) return LR_E_VALUE;
  while (done == LR_OK && some.length < count) {
    if (some.length == room) done = widen(&some, &room, most_of(in, count, some.length, size), size);
    if (done == LR_OK) done = claim(in, size);
    if (done == LR_OK) done = get_value(&deeper, type->inner, part_of(some.buffer, some.length++ * size));
  }
  memcpy(value, &some, sizeof some);
  return done;
}

static int64_t get_array(const struct reader *in, const lr_idl_type *type, void *value) {
  int64_t done = LR_OK;
  for (uint32_t index = 0; done == LR_OK && index < type->count; index++)
    done = get_value(in, type->inner, part_of(value, index * type->inner->size));
  return done;
}

static int64_t get_struct(const struct reader *in, const lr_idl_type *type, void *value) {
  int64_t done = LR_OK;
  for (uint32_t index = 0; done == LR_OK && index < type->count; index++)
    done = get_value(in, type->members[index].type, part_of(value, type->members[index].offset));
  return done;
}

static int64_t get_union(const struct reader *in, const lr_idl_type *type, void *value) {
  int64_t done = get_value(in, type->inner, value);
  if (done < 0) return done;
  const lr_idl_member *member = selected(type, value);
  return member == NULL ? LR_OK : get_value(in, member->type, part_of(value, member->offset));
}

static int64_t get_any(const struct reader *in, lr_idl_any *any);

/* All octets that are left. */
static int64_t get_body(const struct reader *in, lr_idl_body *body) {
  const size_t next = (size_t)in->place->next, left = in->size - next;
  body->order = in->place->order;
  body->at = in->place->at + next;
  if (left == 0) return LR_OK;
  body->octets._buffer = malloc(left);
  if (body->octets._buffer == NULL) return LR_E_MEMORY;
  memcpy(body->octets._buffer, (const unsigned char *)in->octets + next, left);
  body->octets._length = (uint32_t)left;
  in->place->next = in->size;
  return LR_OK;
}

static int64_t get_value(const struct reader *in, const lr_idl_type *type, void *value) {
  const void *octets = in->octets;
  switch (type->kind) {
    case LR_IDL_BOOLEAN: return get_boolean(in, value);
    case LR_IDL_CHAR: return lr_get_char(octets, in->size, in->place, value);
    case LR_IDL_OCTET: return lr_get_octet(octets, in->size, in->place, value);
    case LR_IDL_SHORT: return lr_get_short(octets, in->size, in->place, value);
    case LR_IDL_USHORT: return lr_get_ushort(octets, in->size, in->place, value);
    case LR_IDL_LONG: return lr_get_long(octets, in->size, in->place, value);
    case LR_IDL_ULONG: return lr_get_ulong(octets, in->size, in->place, value);
    case LR_IDL_LONGLONG: return lr_get_longlong(octets, in->size, in->place, value);
    case LR_IDL_ULONGLONG: return lr_get_ulonglong(octets, in->size, in->place, value);
    case LR_IDL_FLOAT: return lr_get_float(octets, in->size, in->place, value);
    case LR_IDL_DOUBLE: return lr_get_double(octets, in->size, in->place, value);
    case LR_IDL_ENUM: return get_enum(in, type, value);
    case LR_IDL_STRING: return get_text(in, type, value);
    case LR_IDL_SEQUENCE: return (type->inner->kind == LR_IDL_OCTET ? get_octets : get_sequence)(in, type, value);
    case LR_IDL_ARRAY: return get_array(in, type, value);
    case LR_IDL_STRUCT: return get_struct(in, type, value);
    case LR_IDL_BODY: return get_body(in, value);
    case LR_IDL_ANY: return get_any(in, value);
    default: return get_union(in, type, value);
  }
}

/* .. as a whole: at an error nothing is read. */
static int64_t get_whole(const struct reader *in, const lr_idl_type *type, void *value) {
  lr_place before = *in->place;
  memset(value, 0, type->size);
  int64_t done = get_value(in, type, value);
  if (done == LR_OK) return LR_OK;
  lr_idl_free(type, value);
  *in->place = before;
  return done;
}

int64_t lr_idl_get(const lr_idl_type *type, const void *octets, size_t size, lr_place *place, void *value) {
  uint64_t left = limit_of(0, size);
  struct reader in = {octets, size, place, &left, 0};
  return get_whole(&in, type, value);
}

/* ---- writing ---- */

struct writer {
  void *room;
  size_t size;
  lr_place *place;
  unsigned depth; /* of sequences in sequences */
};

static int64_t put_value(const struct writer *out, const lr_idl_type *type, const void *value);

static int64_t put_enum(const struct writer *out, const lr_idl_type *type, const void *value) {
  uint64_t number = number_of(type, value);
  return number < type->count ? lr_put_ulong(out->room, out->size, out->place, (uint32_t)number) : LR_E_RANGE;
}

static int64_t put_text(const struct writer *out, const lr_idl_type *type, const void *value) {
  const char *text = text_at(value);
  size_t length = text == NULL ? 0 : strlen(text);
  if (type->count != 0 && length > type->count) return LR_E_RANGE;
  return lr_put_string(out->room, out->size, out->place, text, length);
}

/* Writes the members of a sequence or an array. */
static int64_t put_members(const struct writer *out, const lr_idl_type *member, uint32_t count, const void *first) {
  int64_t done = LR_OK;
  for (uint32_t index = 0; done == LR_OK && index < count; index++)
    done = put_value(out, member, part_of(first, index * member->size));
  return done;
}

static int64_t put_sequence(const struct writer *out, const lr_idl_type *type, const void *value) {
  struct sequence some = sequence_at(value);
  if ((type->count != 0 && some.length > type->count) || (some.length > 0 && some.buffer == NULL)) return LR_E_RANGE;
  if (type->inner->kind == LR_IDL_OCTET)
    return lr_put_octets(out->room, out->size, out->place, some.buffer, some.length);
  const struct writer deeper = {out->room, out->size, out->place, out->depth + 1};
  if (deeper.depth > DEPTH) return LR_E_RANGE;
  int64_t done = lr_put_ulong(out->room, out->size, out->place, some.length);
  return done < 0 ? done : put_members(&deeper, type->inner, some.length, some.buffer);
}

static int64_t put_struct(const struct writer *out, const lr_idl_type *type, const void *value) {
  int64_t done = LR_OK;
  for (uint32_t index = 0; done == LR_OK && index < type->count; index++)
    done = put_value(out, type->members[index].type, part_of(value, type->members[index].offset));
  return done;
}

static int64_t put_union(const struct writer *out, const lr_idl_type *type, const void *value) {
  int64_t done = put_value(out, type->inner, value);
  if (done < 0) return done;
  const lr_idl_member *member = selected(type, value);
  return member == NULL ? LR_OK : put_value(out, member->type, part_of(value, member->offset));
}

static int64_t put_any(const struct writer *out, const lr_idl_any *any);

/* All octets of a message, in their order. */
static int64_t put_body(const struct writer *out, const lr_idl_body *body) {
  if (out->place->next != 0 || body->at % 8 != 0 || body->order > LR_ORDER_LITTLE) return LR_E_RANGE;
  if (body->octets._length > 0 && body->octets._buffer == NULL) return LR_E_RANGE;
  if (body->octets._length > out->size) return LR_E_ROOM;
  if (body->octets._length > 0) memcpy(out->room, body->octets._buffer, body->octets._length);
  out->place->next = body->octets._length;
  out->place->order = body->order;
  return LR_OK;
}

static int64_t put_value(const struct writer *out, const lr_idl_type *type, const void *value) {
  void *room = out->room;
  switch (type->kind) {
    case LR_IDL_BOOLEAN: return lr_put_boolean(room, out->size, out->place, *(const bool *)value);
    case LR_IDL_CHAR: return lr_put_char(room, out->size, out->place, *(const uint8_t *)value);
    case LR_IDL_OCTET: return lr_put_octet(room, out->size, out->place, *(const uint8_t *)value);
    case LR_IDL_SHORT: return lr_put_short(room, out->size, out->place, *(const int16_t *)value);
    case LR_IDL_USHORT: return lr_put_ushort(room, out->size, out->place, *(const uint16_t *)value);
    case LR_IDL_LONG: return lr_put_long(room, out->size, out->place, *(const int32_t *)value);
    case LR_IDL_ULONG: return lr_put_ulong(room, out->size, out->place, *(const uint32_t *)value);
    case LR_IDL_LONGLONG: return lr_put_longlong(room, out->size, out->place, *(const int64_t *)value);
    case LR_IDL_ULONGLONG: return lr_put_ulonglong(room, out->size, out->place, *(const uint64_t *)value);
    case LR_IDL_FLOAT: return lr_put_float(room, out->size, out->place, *(const float *)value);
    case LR_IDL_DOUBLE: return lr_put_double(room, out->size, out->place, *(const double *)value);
    case LR_IDL_ENUM: return put_enum(out, type, value);
    case LR_IDL_STRING: return put_text(out, type, value);
    case LR_IDL_SEQUENCE: return put_sequence(out, type, value);
    case LR_IDL_ARRAY: return put_members(out, type->inner, type->count, value);
    case LR_IDL_STRUCT: return put_struct(out, type, value);
    case LR_IDL_BODY: return put_body(out, value);
    case LR_IDL_ANY: return put_any(out, value);
    default: return put_union(out, type, value);
  }
}

/* ---- TypeCodes ---- */

/* TCKind (CORBA 3.3 Part 2, 9.3.5.1). Behind these there are values, native types, and interfaces of other kinds. */
enum {
  TK_NULL, TK_VOID, TK_SHORT, TK_LONG, TK_USHORT, TK_ULONG, TK_FLOAT, TK_DOUBLE, TK_BOOLEAN, TK_CHAR, TK_OCTET, TK_ANY,
  TK_TYPECODE, TK_PRINCIPAL, TK_OBJREF, TK_STRUCT, TK_UNION, TK_ENUM, TK_STRING, TK_SEQUENCE, TK_ARRAY, TK_ALIAS,
  TK_EXCEPT, TK_LONGLONG, TK_ULONGLONG, TK_LONGDOUBLE, TK_WCHAR, TK_WSTRING, TK_FIXED
};
#define INDIRECTION UINT32_C(0xffffffff)
enum { ANY_DEPTH = 128, DIGITS = 31 };

/* A TypeCode. Others are named by their indices. */
struct code {
  uint32_t kind;
  uint32_t number;       /* a bound, a length, or how many names or digits there are */
  uint32_t inner;        /* of a list, an alias and an indirection what it is of, of a union its discriminator */
  uint32_t first, count; /* its members */
  uint32_t fallback;     /* of a union: which of these is the default one, from 1; 0: none */
  uint64_t start;        /* where it begins, from 1; 0: it was not read yet */
  uint64_t label;        /* of a member of a union */
};

/* The TypeCodes in one, which is the first. */
struct codes {
  struct code *list;
  uint32_t count, room;
  const struct reader *in; /* whose memory they take */
};

/* Where a TypeCode is read: in octets that stand at an index of all. */
struct cursor {
  const unsigned char *octets;
  size_t size;
  lr_place place;
  uint64_t base;
};

static int64_t next_ulong(struct cursor *at, uint32_t *value) {
  return lr_get_ulong(at->octets, at->size, &at->place, value);
}

static int64_t skip_text(struct cursor *at) {
  uint64_t start, length;
  return lr_get_string(at->octets, at->size, &at->place, &start, &length);
}

/* Enters the encapsulation that comes next (9.3.3). */
static int64_t enter(struct cursor *at, struct cursor *inner) {
  uint64_t start, length;
  lr_place place;
  int64_t done = lr_get_encapsulation(at->octets, at->size, &at->place, &start, &length, &place);
  if (done < 0) return done;
  *inner = (struct cursor){at->octets + start, (size_t)length, place, at->base + start};
  return LR_OK;
}

/* Adds so many TypeCodes, which are read later, and answers the index of the first. */
static int64_t add_codes(struct codes *codes, uint32_t count) {
  if (claim(codes->in, (uint64_t)count * sizeof *codes->list) < 0) return LR_E_VALUE;
  if (count > codes->room - codes->count) {
    const uint64_t room = (uint64_t)codes->count + (codes->count > count ? codes->count : count);
    if (room > UINT32_MAX || room > SIZE_MAX / sizeof *codes->list) return LR_E_MEMORY;
    struct code *list = realloc(codes->list, (size_t)room * sizeof *list);
    if (list == NULL) return LR_E_MEMORY;
    codes->list = list;
    codes->room = (uint32_t)room;
  }
  if (count > 0) memset(codes->list + codes->count, 0, count * sizeof *codes->list);
  codes->count += count;
  return codes->count - count;
}

/* The index of what is no alias and no indirection. LR_E_VALUE: one is of itself. */
static int64_t resolved(const struct codes *codes, uint32_t index) {
  for (int hops = 0; hops < 2 * ANY_DEPTH; hops++) {
    const struct code *code = &codes->list[index];
    if (code->kind != INDIRECTION && code->kind != TK_ALIAS) return index;
    index = code->inner;
  }
  return LR_E_VALUE;
}

static int64_t parse_code(struct codes *codes, uint32_t index, struct cursor *at, unsigned depth);

/* An indirection names where a TypeCode begins that stands before it, by an offset from itself (9.3.5.1.3). */
static int64_t parse_indirection(struct codes *codes, uint32_t index, struct cursor *at) {
  int32_t offset = 0;
  uint32_t found = 0;
  const uint64_t from = at->base + at->place.next + 1;
  int64_t done = lr_get_long(at->octets, at->size, &at->place, &offset);
  if (done == LR_OK) done = claim(codes->in, codes->count / 8);
  if (done < 0) return done;
  if (offset >= 0 || (uint64_t)-(int64_t)offset >= from) return LR_E_VALUE;
  const uint64_t start = from - (uint64_t)-(int64_t)offset;
  while (found < codes->count && codes->list[found].start != start) found++;
  if (found == codes->count) return LR_E_VALUE;
  codes->list[index].kind = INDIRECTION;
  codes->list[index].inner = found;
  return LR_OK;
}

/* Reads the TypeCode of what a list or an alias is of, or by which a union is discriminated. */
static int64_t parse_inner(struct codes *codes, uint32_t index, struct cursor *at, unsigned depth) {
  int64_t inner = add_codes(codes, 1);
  if (inner < 0) return inner;
  codes->list[index].inner = (uint32_t)inner;
  return parse_code(codes, (uint32_t)inner, at, depth);
}

static int64_t add_members(struct codes *codes, uint32_t index, struct cursor *at) {
  uint32_t count = 0;
  int64_t first = next_ulong(at, &count);
  if (first == LR_OK) first = add_codes(codes, count);
  if (first < 0) return first;
  codes->list[index].first = (uint32_t)first;
  codes->list[index].count = count;
  return LR_OK;
}

static int64_t parse_struct(struct codes *codes, uint32_t index, struct cursor *at, unsigned depth) {
  int64_t done = add_members(codes, index, at);
  const uint32_t first = codes->list[index].first, count = codes->list[index].count;
  for (uint32_t member = 0; done == LR_OK && member < count; member++) {
    done = skip_text(at);
    if (done == LR_OK) done = parse_code(codes, first + member, at, depth);
  }
  return done;
}

/* The label of a member, by the type of the discriminator; LR_E_VALUE where it can't be one. */
static int64_t next_label(struct cursor *at, uint32_t kind, uint64_t *label) {
  uint8_t octet = 0;
  uint16_t half = 0;
  uint32_t word = 0;
  int64_t done = LR_E_VALUE;
  if (kind == TK_BOOLEAN || kind == TK_CHAR || kind == TK_OCTET)
    done = lr_get_octet(at->octets, at->size, &at->place, &octet);
  if (kind == TK_SHORT || kind == TK_USHORT) done = lr_get_ushort(at->octets, at->size, &at->place, &half);
  if (kind == TK_LONG || kind == TK_ULONG || kind == TK_ENUM) done = next_ulong(at, &word);
  *label = (uint64_t)octet + half + word;
  if (kind == TK_LONGLONG || kind == TK_ULONGLONG) done = lr_get_ulonglong(at->octets, at->size, &at->place, label);
  return done;
}

static int64_t parse_union(struct codes *codes, uint32_t index, struct cursor *at, unsigned depth) {
  int32_t fallback = 0;
  int64_t done = parse_inner(codes, index, at, depth), found = done;
  if (done == LR_OK) done = found = resolved(codes, codes->list[index].inner);
  if (done >= 0) done = lr_get_long(at->octets, at->size, &at->place, &fallback);
  if (done == LR_OK) done = add_members(codes, index, at);
  if (done < 0) return done;
  const uint32_t kind = codes->list[found].kind, first = codes->list[index].first, count = codes->list[index].count;
  if (fallback < -1 || (fallback >= 0 && (uint32_t)fallback >= count)) return LR_E_VALUE;
  codes->list[index].fallback = (uint32_t)(fallback + 1);
  for (uint32_t member = 0; done == LR_OK && member < count; member++) {
    done = next_label(at, kind, &codes->list[first + member].label);
    if (done == LR_OK) done = skip_text(at);
    if (done == LR_OK) done = parse_code(codes, first + member, at, depth);
  }
  return done;
}

/* Reads what is in the encapsulation of a TypeCode. (What is behind that, as the names of an enum, has no effect.) */
static int64_t parse_constructed(struct codes *codes, uint32_t index, struct cursor *at, unsigned depth) {
  const uint32_t kind = codes->list[index].kind;
  const bool is_list = kind == TK_SEQUENCE || kind == TK_ARRAY;
  struct cursor in;
  int64_t done = enter(at, &in);
  if (done == LR_OK && !is_list) done = skip_text(&in);
  if (done == LR_OK && !is_list) done = skip_text(&in);
  if (done == LR_OK && (is_list || kind == TK_ALIAS)) done = parse_inner(codes, index, &in, depth);
  if (done == LR_OK && (is_list || kind == TK_ENUM)) done = next_ulong(&in, &codes->list[index].number);
  if (done == LR_OK && (kind == TK_STRUCT || kind == TK_EXCEPT)) done = parse_struct(codes, index, &in, depth);
  return done == LR_OK && kind == TK_UNION ? parse_union(codes, index, &in, depth) : done;
}

static int64_t parse_fixed(struct code *code, struct cursor *at) {
  uint16_t digits = 0;
  int16_t scale;
  int64_t done = lr_get_ushort(at->octets, at->size, &at->place, &digits);
  code->number = digits;
  if (done == LR_OK) done = lr_get_short(at->octets, at->size, &at->place, &scale);
  return done == LR_OK && digits > DIGITS ? LR_E_VALUE : done;
}

/* Reads a TypeCode into the one of an index. LR_E_VALUE: it can't be passed on. */
static int64_t parse_code(struct codes *codes, uint32_t index, struct cursor *at, unsigned depth) {
  uint32_t kind = 0;
  int64_t done = depth > ANY_DEPTH ? LR_E_VALUE : next_ulong(at, &kind);
  if (done < 0) return done;
  if (kind == INDIRECTION) return parse_indirection(codes, index, at);
  struct code *code = &codes->list[index];
  code->kind = kind;
  code->start = at->base + at->place.next - 3;
  switch (kind) {
    case TK_STRING:
    case TK_WSTRING: return next_ulong(at, &code->number);
    case TK_FIXED: return parse_fixed(code, at);
    case TK_OBJREF:
    case TK_STRUCT:
    case TK_UNION:
    case TK_ENUM:
    case TK_SEQUENCE:
    case TK_ARRAY:
    case TK_ALIAS:
    case TK_EXCEPT: return parse_constructed(codes, index, at, depth + 1);
    default: return kind > TK_FIXED ? LR_E_VALUE : LR_OK;
  }
}

/* ---- anys ---- */

/* Walks values of a type from a reader; what it passes it writes anew, if there is a writer. */
struct walk {
  const struct codes *codes;
  const struct reader *in;
  const struct writer *out;
};

/* How much of a place aligns it. */
static size_t padding_at(const lr_place *place, size_t alignment) {
  return (size_t)(alignment - (place->at + place->next) % alignment) % alignment;
}

/* Takes octets from a reader. */
static int64_t pass(const struct reader *in, size_t alignment, size_t size, const unsigned char **found) {
  const size_t left = in->size - (size_t)in->place->next, padding = padding_at(in->place, alignment);
  if (padding > left || size > left - padding) return LR_E_SHORT;
  *found = (const unsigned char *)in->octets + in->place->next + padding;
  in->place->next += padding + size;
  return LR_OK;
}

/* Makes room for octets in a writer, behind zeros that align them. */
static int64_t make_room(const struct writer *out, size_t alignment, size_t size, unsigned char **found) {
  const size_t left = out->size - (size_t)out->place->next, padding = padding_at(out->place, alignment);
  if (padding > left || size > left - padding) return LR_E_ROOM;
  *found = (unsigned char *)out->room + out->place->next + padding;
  if (padding > 0) memset(*found - padding, 0, padding);
  out->place->next += padding + size;
  return LR_OK;
}

/* Copies numbers of so many octets each, the other way around. */
static void turn(unsigned char *to, const unsigned char *from, size_t size, size_t count) {
  for (size_t index = 0; index < size * count; index++)
    to[index] = from[index / size * size + (size - 1 - index % size)];
}

/* Writes numbers that were read, where there is a writer. */
static int64_t write_numbers(const struct walk *walk, size_t alignment, size_t size, size_t count,
                             const unsigned char *from) {
  unsigned char *to;
  if (walk->out == NULL) return LR_OK;
  int64_t done = make_room(walk->out, alignment, size * count, &to);
  if (done < 0) return done;
  if (walk->out->place->order == walk->in->place->order)
    memcpy(to, from, size * count);
  else
    turn(to, from, size, count);
  return LR_OK;
}

/* Passes so many numbers of so many octets each, and names these. */
static int64_t pass_numbers(const struct walk *walk, size_t size, size_t count, const unsigned char **found) {
  if (count == 0) return LR_OK;
  if (count > walk->in->size / size) return LR_E_SHORT;
  int64_t done = pass(walk->in, size, size * count, found);
  return done < 0 ? done : write_numbers(walk, size, size, count, *found);
}

static int64_t pass_number(const struct walk *walk, size_t size, uint64_t *number) {
  const unsigned char *octets = NULL;
  int64_t done = pass_numbers(walk, size, 1, &octets);
  *number = 0;
  for (size_t index = 0; done == LR_OK && index < size; index++)
    *number = *number << 8 | octets[walk->in->place->order == LR_ORDER_BIG ? index : size - 1 - index];
  return done;
}

/* Octets behind their number, whose last one is a NUL where they are a text. */
static int64_t pass_octets(const struct walk *walk, size_t of_number, bool is_text, uint64_t bound) {
  uint64_t count;
  const unsigned char *octets = NULL;
  int64_t done = pass_number(walk, of_number, &count);
  if (done == LR_OK) done = pass_numbers(walk, 1, (size_t)count, &octets);
  if (done < 0 || !is_text) return done;
  return (count > 0 && octets[count - 1] != 0) || (bound != 0 && count > bound + 1) ? LR_E_VALUE : LR_OK;
}

static int64_t pass_value(const struct walk *walk, uint32_t index, unsigned depth);

static const uint8_t number_sizes[TK_FIXED + 1] = {
    [TK_SHORT] = 2, [TK_LONG] = 4,  [TK_USHORT] = 2, [TK_ULONG] = 4,    [TK_FLOAT] = 4,    [TK_DOUBLE] = 8,
    [TK_BOOLEAN] = 1, [TK_CHAR] = 1, [TK_OCTET] = 1,  [TK_LONGLONG] = 8, [TK_ULONGLONG] = 8};

static int64_t pass_list(const struct walk *walk, uint32_t member, uint64_t count, unsigned depth) {
  const unsigned char *octets;
  const int64_t found = resolved(walk->codes, member);
  const size_t size = found < 0 ? 0 : number_sizes[walk->codes->list[found].kind];
  if (found < 0 || size > 0) return found < 0 ? found : pass_numbers(walk, size, (size_t)count, &octets);
  int64_t done = LR_OK;
  for (; done == LR_OK && count > 0; count--) done = pass_value(walk, (uint32_t)found, depth);
  return done;
}

static int64_t pass_sequence(const struct walk *walk, const struct code *code, unsigned depth) {
  uint64_t count;
  int64_t done = pass_number(walk, 4, &count);
  if (done == LR_OK && code->number != 0 && count > code->number) return LR_E_VALUE;
  return done < 0 ? done : pass_list(walk, code->inner, count, depth);
}

/* The members of a struct, or of an exception behind its id (9.3.5.5). */
static int64_t pass_struct(const struct walk *walk, const struct code *code, unsigned depth) {
  int64_t done = code->kind == TK_EXCEPT ? pass_octets(walk, 4, true, 0) : LR_OK;
  for (uint32_t member = 0; done == LR_OK && member < code->count; member++)
    done = pass_value(walk, code->first + member, depth);
  return done;
}

static int64_t pass_union(const struct walk *walk, const struct code *code, unsigned depth) {
  const int64_t inner = resolved(walk->codes, code->inner);
  const uint32_t kind = inner < 0 ? TK_NULL : walk->codes->list[inner].kind;
  const size_t size = kind == TK_ENUM ? 4 : number_sizes[kind];
  uint64_t label;
  if (size == 0 || kind == TK_FLOAT || kind == TK_DOUBLE) return LR_E_VALUE;
  int64_t done = pass_number(walk, size, &label);
  if (done == LR_OK) done = claim(walk->in, code->count / 8);
  if (done < 0) return done;
  const struct code *members = walk->codes->list + code->first;
  uint32_t member = 0;
  while (member < code->count && (member + 1 == code->fallback || members[member].label != label)) member++;
  if (member == code->count && code->fallback > 0) member = code->fallback - 1;
  return member == code->count ? LR_OK : pass_value(walk, code->first + member, depth);
}

static int64_t pass_enum(const struct walk *walk, const struct code *code) {
  uint64_t number;
  int64_t done = pass_number(walk, 4, &number);
  return done == LR_OK && number >= code->number ? LR_E_VALUE : done;
}

/* 16 octets, aligned by 8, which are turned as a whole. */
static int64_t pass_longdouble(const struct walk *walk) {
  const unsigned char *octets;
  int64_t done = pass(walk->in, 8, 16, &octets);
  return done < 0 ? done : write_numbers(walk, 8, 16, 1, octets);
}

/* A type id, and profiles, each a tag and its data (9.6.2). */
static int64_t pass_reference(const struct walk *walk) {
  uint64_t count = 0, tag;
  int64_t done = pass_octets(walk, 4, true, 0);
  if (done == LR_OK) done = pass_number(walk, 4, &count);
  for (; done == LR_OK && count > 0; count--) {
    done = pass_number(walk, 4, &tag);
    if (done == LR_OK) done = pass_octets(walk, 4, false, 0);
  }
  return done;
}

/* Writes a TypeCode anew: what is in encapsulations stays as it is, indirections too, which stay in them. */
static int64_t write_code(const struct walk *walk, uint32_t kind, const unsigned char *from, size_t size) {
  unsigned char *to;
  if (walk->out == NULL) return LR_OK;
  int64_t done = make_room(walk->out, 4, size, &to);
  if (done < 0) return done;
  memcpy(to, from, size);
  if (walk->out->place->order == walk->in->place->order) return LR_OK;
  turn(to, from, 4, 1);
  if (size >= 8) turn(to + 4, from + 4, kind == TK_FIXED ? 2 : 4, kind == TK_FIXED ? 2 : 1);
  return LR_OK;
}

/* Passes a TypeCode, which is the first of some, and names its octets. */
static int64_t pass_code(const struct walk *walk, struct codes *codes, unsigned depth, const unsigned char **found,
                         size_t *size) {
  const struct reader *in = walk->in;
  int64_t done = pass(in, 4, 0, found);
  if (done == LR_OK) done = add_codes(codes, 1);
  struct cursor at = {in->octets, in->size, *in->place, 0};
  if (done == LR_OK) done = parse_code(codes, 0, &at, depth);
  if (done < 0) return done;
  *size = (size_t)(at.place.next - in->place->next);
  in->place->next = at.place.next;
  return write_code(walk, codes->list[0].kind, *found, *size);
}

/* A TypeCode, and a value of it where that is there. */
static int64_t pass_any(const struct walk *walk, bool has_value, unsigned depth) {
  struct codes codes = {NULL, 0, 0, walk->in};
  const struct walk inner = {&codes, walk->in, walk->out};
  const unsigned char *octets;
  size_t size;
  int64_t done = pass_code(&inner, &codes, depth, &octets, &size);
  if (done == LR_OK && has_value) done = pass_value(&inner, 0, depth);
  free(codes.list);
  return done;
}

/* Passes a value of the type of an index. */
static int64_t pass_value(const struct walk *walk, uint32_t index, unsigned depth) {
  const int64_t found = resolved(walk->codes, index);
  if (found < 0 || depth > ANY_DEPTH) return LR_E_VALUE;
  const struct code *code = &walk->codes->list[found];
  uint64_t number;
  if (number_sizes[code->kind] > 0) return pass_number(walk, number_sizes[code->kind], &number);
  if (claim(walk->in, 1) < 0) return LR_E_VALUE;
  switch (code->kind) {
    case TK_ANY: return pass_any(walk, true, depth + 1);
    case TK_TYPECODE: return pass_any(walk, false, depth + 1);
    case TK_OBJREF: return pass_reference(walk);
    case TK_STRUCT:
    case TK_EXCEPT: return pass_struct(walk, code, depth + 1);
    case TK_UNION: return pass_union(walk, code, depth + 1);
    case TK_ENUM: return pass_enum(walk, code);
    case TK_STRING: return pass_octets(walk, 4, true, code->number);
    case TK_SEQUENCE: return pass_sequence(walk, code, depth + 1);
    case TK_ARRAY: return pass_list(walk, code->inner, code->number, depth + 1);
    case TK_LONGDOUBLE: return pass_longdouble(walk);
    case TK_PRINCIPAL:
    case TK_WSTRING: return pass_octets(walk, 4, false, 0); /* (as GIOP 1.2 has wide characters, 9.3.1.6) */
    case TK_WCHAR: return pass_octets(walk, 1, false, 0);
    case TK_FIXED: return pass_numbers(walk, 1, code->number / 2 + 1, &(const unsigned char *){NULL});
    default: return LR_OK;
  }
}

/* Takes octets into a sequence that is empty. */
static int64_t keep_octets(const struct reader *in, const unsigned char *octets, size_t size,
                           lr_idl_octet__sequence *kept) {
  if (size > UINT32_MAX || claim(in, size) < 0) return LR_E_VALUE;
  if (size == 0) return LR_OK;
  kept->_buffer = malloc(size);
  if (kept->_buffer == NULL) return LR_E_MEMORY;
  memcpy(kept->_buffer, octets, size);
  kept->_length = (uint32_t)size;
  return LR_OK;
}

static int64_t get_any(const struct reader *in, lr_idl_any *any) {
  struct codes codes = {NULL, 0, 0, in};
  const struct walk walk = {&codes, in, NULL};
  const unsigned char *type = NULL, *end = NULL;
  size_t size = 0;
  int64_t done = pass_code(&walk, &codes, 0, &type, &size);
  if (done == LR_OK) done = pass_value(&walk, 0, 0);
  if (done == LR_OK) done = pass(in, 1, 0, &end);
  free(codes.list);
  if (done < 0) return done;
  any->order = in->place->order;
  any->at = (uint32_t)((in->place->at + (uint64_t)(type - (const unsigned char *)in->octets)) % 8);
  done = keep_octets(in, type, size, &any->type);
  return done < 0 ? done : keep_octets(in, type + size, (size_t)(end - type) - size, &any->value);
}

/* Writes an any as it came. */
static int64_t put_same(const struct writer *out, const lr_idl_any *any) {
  unsigned char *to;
  int64_t done = make_room(out, 4, (size_t)any->type._length + any->value._length, &to);
  if (done < 0) return done;
  memcpy(to, any->type._buffer, any->type._length);
  if (any->value._length > 0) memcpy(to + any->type._length, any->value._buffer, any->value._length);
  return LR_OK;
}

static int64_t put_any(const struct writer *out, const lr_idl_any *any) {
  const uint64_t end = out->place->at + out->place->next + padding_at(out->place, 4);
  if (any->type._length == 0) return lr_put_ulong(out->room, out->size, out->place, TK_NULL);
  if (any->order == out->place->order && any->at == end % 8) return put_same(out, any);
  lr_place place = {any->at, 0, any->order, 0}, behind = {any->at + any->type._length, 0, any->order, 0};
  uint64_t left = limit_of(0, (size_t)any->type._length + any->value._length);
  const struct reader type = {any->type._buffer, any->type._length, &place, &left, 0};
  const struct reader value = {any->value._buffer, any->value._length, &behind, &left, 0};
  struct codes codes = {NULL, 0, 0, &type};
  const struct walk of_type = {&codes, &type, out}, of_value = {&codes, &value, out};
  const unsigned char *octets;
  size_t size;
  int64_t done = pass_code(&of_type, &codes, 0, &octets, &size);
  if (done == LR_OK) done = pass_value(&of_value, 0, 0);
  free(codes.list);
  return done == LR_OK && (place.next != type.size || behind.next != value.size) ? LR_E_VALUE : done;
}

int64_t lr_idl_any__kind(const lr_idl_any *any) {
  lr_place place = {any->at, 0, any->order, 0};
  uint64_t left = limit_of(0, any->type._length);
  const struct reader in = {any->type._buffer, any->type._length, &place, &left, 0};
  struct codes codes = {NULL, 0, 0, &in};
  const struct walk walk = {&codes, &in, NULL};
  const unsigned char *octets;
  size_t size;
  if (any->type._length == 0) return TK_NULL;
  int64_t done = pass_code(&walk, &codes, 0, &octets, &size);
  if (done == LR_OK) done = resolved(&codes, 0);
  if (done >= 0) done = codes.list[done].kind;
  free(codes.list);
  return done;
}

/* The TCKind of a basic type or a string; TK_NULL of another one. */
static uint32_t kind_of(const lr_idl_type *type) {
  static const uint8_t kinds[] = {
      [LR_IDL_BOOLEAN] = TK_BOOLEAN, [LR_IDL_CHAR] = TK_CHAR, [LR_IDL_OCTET] = TK_OCTET, [LR_IDL_SHORT] = TK_SHORT,
      [LR_IDL_USHORT] = TK_USHORT, [LR_IDL_LONG] = TK_LONG, [LR_IDL_ULONG] = TK_ULONG, [LR_IDL_LONGLONG] = TK_LONGLONG,
      [LR_IDL_ULONGLONG] = TK_ULONGLONG, [LR_IDL_FLOAT] = TK_FLOAT, [LR_IDL_DOUBLE] = TK_DOUBLE,
      [LR_IDL_STRING] = TK_STRING};
  return type->kind <= LR_IDL_STRING ? kinds[type->kind] : TK_NULL;
}

int64_t lr_idl_any__value(const lr_idl_any *any, const lr_idl_type *type, void *value) {
  const int64_t kind = lr_idl_any__kind(any);
  lr_place place = {any->at + any->type._length, 0, any->order, 0};
  memset(value, 0, type->size);
  if (kind < 0) return kind;
  if (kind == TK_NULL || (uint32_t)kind != kind_of(type)) return LR_E_VALUE;
  return lr_idl_get(type, any->value._buffer, any->value._length, &place, value);
}

int64_t lr_idl_put(const lr_idl_type *type, void *room, size_t size, lr_place *place, const void *value) {
  struct writer out = {room, size, place, 0};
  lr_place before = *place;
  int64_t done = put_value(&out, type, value);
  if (done < 0) *place = before;
  return done;
}

/* ---- several values ---- */

/* Octets that are written, in an order of ours and aligned from their first one. */
struct body {
  unsigned char *octets;
  size_t room;
  lr_place place; /* whose `next` is how many there are */
};

/* Writes a value behind the others, in as much room as it takes. */
static int64_t append(struct body *out, const lr_idl_type *type, const void *value) {
  for (;;) {
    int64_t done = lr_idl_put(type, out->octets, out->room, &out->place, value);
    if (done != LR_E_ROOM) return done;
    size_t room = out->room == 0 ? 256 : 2 * out->room;
    unsigned char *octets = room > out->room ? realloc(out->octets, room) : NULL;
    if (octets == NULL) return LR_E_MEMORY;
    out->octets = octets;
    out->room = room;
  }
}

/* What was written, as a sequence, which owns it. */
static lr_idl_octet__sequence octets_of(const struct body *out) {
  return (lr_idl_octet__sequence){(uint32_t)out->place.next, out->octets};
}

int64_t lr_idl_any__of(lr_idl_any *any, const lr_idl_type *type, const void *value) {
  const uint32_t kind = kind_of(type);
  struct body code = {NULL, 0, {0, 0, LR_ORDER_BIG, 0}}, out = {NULL, 0, {0, 0, LR_ORDER_BIG, 0}};
  memset(any, 0, sizeof *any);
  int64_t done = kind == TK_NULL ? LR_E_RANGE : append(&code, &lr_idl_ulong__type, &kind);
  if (done == LR_OK && kind == TK_STRING) done = append(&code, &lr_idl_ulong__type, &type->count);
  out.place.at = code.place.next;
  if (done == LR_OK) done = append(&out, type, value);
  *any = (lr_idl_any){LR_ORDER_BIG, 0, octets_of(&code), octets_of(&out)};
  if (done < 0) lr_idl_any__free(any);
  return done;
}

static int64_t append_all(struct body *out, const lr_idl_types *types, const void *const *values) {
  int64_t done = LR_OK;
  for (size_t index = 0; done == LR_OK && index < types->count; index++)
    done = append(out, types->types[index], values[index]);
  return done;
}

/* How much of a block a value takes, so that the next one is aligned. */
static size_t taken_by(size_t size) {
  const size_t alignment = _Alignof(max_align_t);
  return (size + alignment - 1) / alignment * alignment;
}

static size_t taken_by_all(const lr_idl_types *types) {
  size_t size = 0;
  for (size_t index = 0; index < types->count; index++) size += taken_by(types->types[index]->size);
  return size;
}

/* Values of types, all zero: pointers to them, and behind these the values, in one block. NULL where there is no
 * memory. */
static void **new_values(const lr_idl_types *types) {
  size_t next = taken_by((types->count + 1) * sizeof(void *)), size = next + taken_by_all(types);
  void **values = malloc(size);
  if (values == NULL) return NULL;
  memset(values, 0, size);
  for (size_t index = 0; index < types->count; index++) {
    values[index] = part_of(values, next);
    next += taken_by(types->types[index]->size);
  }
  return values;
}

static void free_values(const lr_idl_types *types, void **values) {
  for (size_t index = 0; values != NULL && index < types->count; index++)
    lr_idl_free(types->types[index], values[index]);
  free(values);
}

static int64_t get_values(const lr_idl_types *types, const struct reader *in, void *const *values) {
  int64_t done = LR_OK;
  for (size_t index = 0; done == LR_OK && index < types->count; index++)
    done = get_value(in, types->types[index], values[index]);
  return done;
}

/* ---- references ---- */

/* Copies what a function gives of a reference, with a NUL behind it; NULL where there is no memory. */
static char *part_of_ior(lr_ior *ior, const uint32_t *index, size_t size) {
  char *made = malloc(size + 1);
  if (made == NULL) return NULL;
  int64_t done = index == NULL ? lr_ior_type_id(ior, made, size) : lr_ior_part(ior, *index, LR_IOR_DATA, made, size);
  made[size] = 0;
  if (done == (int64_t)size) return made;
  free(made);
  return NULL;
}

/* Takes the profile of an index. */
static int64_t take_profile(lr_ior *ior, uint32_t index, lr_idl_profile *profile) {
  lr_profile said;
  int64_t done = lr_ior_profile(ior, index, &said, sizeof said);
  if (done < 0) return done;
  profile->tag = said.tag;
  profile->data._buffer = (uint8_t *)part_of_ior(ior, &index, (size_t)said.data_size);
  profile->data._length = profile->data._buffer == NULL ? 0 : (uint32_t)said.data_size;
  return profile->data._buffer == NULL ? LR_E_MEMORY : LR_OK;
}

/* Takes what a reference has into one that is all zero. At an error that owns what was taken. */
static int64_t take_ior(lr_ior *ior, lr_idl_reference *reference) {
  const uint32_t count = (uint32_t)lr_ior_profiles(ior);
  reference->type_id = part_of_ior(ior, NULL, (size_t)lr_ior_type_id(ior, NULL, 0));
  if (reference->type_id == NULL) return LR_E_MEMORY;
  if (count == 0) return LR_OK;
  reference->profiles._buffer = malloc(count * sizeof *reference->profiles._buffer);
  if (reference->profiles._buffer == NULL) return LR_E_MEMORY;
  memset(reference->profiles._buffer, 0, count * sizeof *reference->profiles._buffer);
  reference->profiles._length = count;
  int64_t done = LR_OK;
  for (uint32_t index = 0; done == LR_OK && index < count; index++)
    done = take_profile(ior, index, &reference->profiles._buffer[index]);
  return done;
}

int64_t lr_idl_reference__parse(lr_idl_reference *reference, const char *text) {
  lr_ior ior = LR_INIT;
  int64_t done = lr_ior_parse(&ior, text, strlen(text));
  if (done < 0) return done;
  memset(reference, 0, sizeof *reference);
  done = take_ior(&ior, reference);
  lr_ior_close(&ior);
  if (done < 0) lr_idl_reference__free(reference);
  return done;
}

/* The digits of octets behind "IOR:"; NULL where there is no memory. */
static char *printed(const unsigned char *octets, size_t size) {
  const size_t start = sizeof "IOR:" - 1;
  char *text = malloc(start + 2 * size + 1);
  if (text == NULL) return NULL;
  memcpy(text, "IOR:", start);
  for (size_t index = 0; index < size; index++) {
    text[start + 2 * index] = "0123456789abcdef"[octets[index] >> 4];
    text[start + 2 * index + 1] = "0123456789abcdef"[octets[index] & 15];
  }
  text[start + 2 * size] = 0;
  return text;
}

int64_t lr_idl_reference__print(const lr_idl_reference *reference, char **text) {
  struct body out = {NULL, 0, {0, 0, LR_ORDER_BIG, 0}};
  const uint8_t order = LR_ORDER_BIG;
  int64_t done = append(&out, &lr_idl_octet__type, &order);
  if (done == LR_OK) done = append(&out, &lr_idl_reference__type, reference);
  if (done == LR_OK && (*text = printed(out.octets, (size_t)out.place.next)) == NULL) done = LR_E_MEMORY;
  free(out.octets);
  return done;
}

/* ---- servants ---- */

/* Declares the exceptions of an operation, and adds it. */
static int64_t add_operation(lr_catalogue *catalogue, const lr_idl_offer *offer, const lr_idl_operation *operation) {
  size_t name_size = strlen(operation->name);
  int64_t done = LR_OK;
  if (operation->is_raw)
    return lr_catalogue_raw_operation(catalogue, offer->key, offer->key_size, operation->name, name_size);
  for (size_t index = 0; done == LR_OK && index < operation->raise_count; index++) {
    const lr_idl_exception *raised = operation->raises[index];
    done = lr_catalogue_exception(catalogue, raised->id, strlen(raised->id), raised->codes, raised->codes_size);
  }
  if (done < 0) return done;
  return lr_catalogue_operation(catalogue, offer->key, offer->key_size, operation->name, name_size,
                                operation->arguments.codes, operation->arguments.codes_size,
                                operation->results.codes, operation->results.codes_size);
}

int64_t lr_idl_add(lr_catalogue *catalogue, const lr_idl_offer *offer) {
  const lr_idl_interface *interface = offer->interface;
  int64_t done = lr_catalogue_object(catalogue, offer->key, offer->key_size);
  if (done < 0) return done;
  done = lr_catalogue_repository_ids(catalogue, offer->key, offer->key_size, interface->ids, interface->ids_size);
  for (size_t index = 0; done == LR_OK && index < interface->method_count; index++)
    done = add_operation(catalogue, offer, interface->methods[index].operation);
  if (done == LR_OK) return LR_OK;
  lr_catalogue_remove(catalogue, offer->key, offer->key_size);
  /* (what is refused forgets the exceptions that were declared for it) */
  lr_catalogue_operation(catalogue, offer->key, offer->key_size, LR_TEXT("none"), NULL, 0, NULL, 0);
  return done;
}

const lr_idl_offer *lr_idl_find(const lr_idl_offer *offers, size_t count, lr_server *server, const lr_request *asked) {
  const lr_idl_offer *found = NULL;
  void *key = malloc((size_t)asked->key_size + 1);
  if (key == NULL || lr_server_part(server, asked->ticket, LR_PART_KEY, key, (size_t)asked->key_size) < 0) count = 0;
  for (size_t index = 0; found == NULL && index < count; index++)
    if (offers[index].key_size == asked->key_size && memcmp(offers[index].key, key, offers[index].key_size) == 0)
      found = &offers[index];
  free(key);
  return found;
}

/* The method of a name; NULL where there is none. */
static const lr_idl_method *method_of(const lr_idl_interface *interface, const void *name, size_t size) {
  const lr_idl_method *end = interface->methods + interface->method_count;
  for (const lr_idl_method *method = interface->methods; method < end; method++)
    if (strlen(method->operation->name) == size && memcmp(method->operation->name, name, size) == 0) return method;
  return NULL;
}

/* Reads the arguments, and has the servant perform it. */
static int64_t perform_by(const lr_idl_method *method, const void *servant, lr_idl_call *call,
                          const struct reader *in) {
  const lr_idl_types *types = &method->operation->arguments;
  void **values = new_values(types);
  int64_t done = values == NULL ? LR_E_MEMORY : get_values(types, in, values);
  call->operation = method->operation;
  if (done == LR_OK) {
    done = method->perform(servant, call, values);
    if (done == LR_E_OUTCOME) lr_server_system(call->server, call->ticket, LR_EX_UNKNOWN, 0, LR_COMPLETED_MAYBE);
  } else {
    lr_server_refuse(call->server, call->ticket, done == LR_E_MEMORY ? LR_EX_NO_MEMORY : LR_EX_MARSHAL, 0);
  }
  free_values(types, values);
  return done;
}

int64_t lr_idl_perform(const lr_idl_offer *offer, lr_server *server, const lr_request *asked) {
  lr_idl_call call = {server, asked->ticket, NULL};
  if (asked->is_refused) {
    int64_t refused = lr_server_refuse(server, asked->ticket, asked->refusal, 0);
    return refused < 0 ? refused : LR_E_NONE;
  }
  size_t name_size = (size_t)asked->operation_size, body_size = (size_t)asked->body_size;
  int64_t done = lr_server_identify(server, asked->ticket);
  if (done != 0) return done < 0 ? done : LR_OK;
  unsigned char *octets = malloc(name_size + body_size + 1);
  done = octets == NULL ? LR_E_MEMORY : lr_server_part(server, asked->ticket, LR_PART_OPERATION, octets, name_size);
  if (done >= 0) done = lr_server_part(server, asked->ticket, LR_PART_BODY, octets + name_size, body_size);
  if (done < 0) {
    lr_server_refuse(server, asked->ticket, LR_EX_NO_MEMORY, 0);
  } else {
    const lr_idl_method *method = method_of(offer->interface, octets, name_size);
    lr_place place = {asked->body_at, 0, asked->body_order, 0};
    uint64_t left = limit_of(offer->limit, body_size);
    struct reader in = {octets + name_size, body_size, &place, &left, 0};
    done = method == NULL ? LR_E_NONE : perform_by(method, offer->servant, &call, &in);
  }
  free(octets);
  return done;
}

/* Answers INTERNAL where there are no values to answer by, and passes their error on. */
static int64_t answered_by(const lr_idl_call *call, int64_t done) {
  if (done != LR_E_MEMORY) lr_server_system(call->server, call->ticket, LR_EX_INTERNAL, 0, LR_COMPLETED_MAYBE);
  return done;
}

int64_t lr_idl_answer(const lr_idl_call *call, const lr_idl_operation *operation, const void *const *results) {
  struct body out = {NULL, 0, {0, 0, LR_ORDER_BIG, 0}};
  if (call->operation != operation) return LR_E_OUTCOME;
  int64_t done = append_all(&out, &operation->results, results);
  if (done < 0)
    done = answered_by(call, done);
  else if (operation->is_raw)
    done = lr_server_answer_raw(call->server, call->ticket, LR_REPLY_NO_EXCEPTION, out.place.order, out.octets,
                                (size_t)out.place.next);
  else
    done = lr_server_answer(call->server, call->ticket, LR_ORDER_BIG, out.octets, (size_t)out.place.next);
  free(out.octets);
  return done;
}

static bool declares(const lr_idl_operation *operation, const lr_idl_exception *exception) {
  for (size_t index = 0; index < operation->raise_count; index++)
    if (operation->raises[index] == exception) return true;
  return false;
}

int64_t lr_idl_raise(const lr_idl_call *call, const lr_idl_exception *exception, const void *members) {
  struct body out = {NULL, 0, {0, 0, LR_ORDER_BIG, 0}};
  if (!declares(call->operation, exception)) return LR_E_OUTCOME;
  int64_t done = call->operation->is_raw ? append(&out, &lr_idl_string__type, &exception->id) : LR_OK;
  if (done == LR_OK) done = append(&out, exception->type, members);
  if (done < 0)
    done = answered_by(call, done);
  else if (call->operation->is_raw)
    done = lr_server_answer_raw(call->server, call->ticket, LR_REPLY_USER_EXCEPTION, LR_ORDER_BIG, out.octets,
                                (size_t)out.place.next);
  else
    done = lr_server_raise(call->server, call->ticket, exception->id, strlen(exception->id), LR_ORDER_BIG, out.octets,
                           (size_t)out.place.next);
  free(out.octets);
  return done;
}

int64_t lr_idl_lacking(const lr_idl_call *call) {
  return lr_server_system(call->server, call->ticket, LR_EX_NO_IMPLEMENT, 0, LR_COMPLETED_NO);
}

/* ---- addresses ---- */

/* Octets, and a NUL behind them; NULL where there is no memory. */
static char *copy_of(const void *octets, size_t size) {
  char *made = malloc(size + 1);
  if (made == NULL) return NULL;
  if (size > 0) memcpy(made, octets, size);
  made[size] = 0;
  return made;
}

static void close_road(lr_idl_road *road) {
  for (uint32_t index = 0; index < road->count; index++) free(road->addresses[index].host);
  free(road->addresses);
  free(road->key);
  *road = (lr_idl_road)LR_IDL_ROAD;
}

static int64_t add_address(lr_idl_road *road, const void *host, size_t size, uint16_t port) {
  const lr_idl_address address = {copy_of(host, size), port};
  lr_idl_address *addresses = realloc(road->addresses, (road->count + 1) * sizeof *addresses);
  if (addresses != NULL) road->addresses = addresses;
  if (addresses == NULL || address.host == NULL) {
    free(address.host);
    return LR_E_MEMORY;
  }
  addresses[road->count++] = address;
  return LR_OK;
}

/* What a profile of IIOP says of its object: indices and sizes. */
struct profile {
  struct reader in;
  uint8_t minor;
  uint16_t port;
  uint64_t host, host_size, key, key_size;
};

/* Adds an address of a profile, whose key is that of the first one, or counts for nothing. */
static int64_t add_of(lr_idl_road *road, const struct profile *one, const void *host, uint64_t size, uint16_t port) {
  const unsigned char *key = (const unsigned char *)one->in.octets + one->key;
  if (port == 0) return LR_OK;
  if (road->key == NULL) {
    road->key = copy_of(key, (size_t)one->key_size);
    road->key_size = (size_t)one->key_size;
  }
  if (road->key == NULL) return LR_E_MEMORY;
  if (road->key_size != one->key_size || memcmp(road->key, key, road->key_size) != 0) return LR_OK;
  if (one->minor < road->version) road->version = one->minor;
  return add_address(road, host, (size_t)size, port);
}

/* Reads a host and a port. */
static int64_t get_address(const struct reader *in, uint64_t *host, uint64_t *size, uint16_t *port) {
  int64_t done = lr_get_string(in->octets, in->size, in->place, host, size);
  return done == LR_OK ? lr_get_ushort(in->octets, in->size, in->place, port) : done;
}

/* Adds the address that a component has, which is an encapsulation. One that is none says nothing. */
static int64_t add_alternate(lr_idl_road *road, const struct profile *one, const unsigned char *octets, size_t size) {
  lr_place place = {0, 1, size == 0 ? 2 : octets[0], 0};
  struct reader in = {octets, size, &place, NULL, 0};
  uint64_t host, length;
  uint16_t port;
  if (get_address(&in, &host, &length, &port) < 0) return LR_OK;
  return add_of(road, one, octets + host, length, port);
}

/* Adds the addresses that components of a profile have. */
static int64_t add_components(lr_idl_road *road, const struct profile *one) {
  enum { TAG_ALTERNATE_IIOP_ADDRESS = 3 };
  const struct reader *in = &one->in;
  uint32_t count = 0, tag;
  uint64_t start, size;
  int64_t done = lr_get_ulong(in->octets, in->size, in->place, &count);
  for (; done == LR_OK && count > 0; count--) {
    done = lr_get_ulong(in->octets, in->size, in->place, &tag);
    if (done == LR_OK) done = lr_get_octets(in->octets, in->size, in->place, &start, &size);
    if (done == LR_OK && tag == TAG_ALTERNATE_IIOP_ADDRESS)
      done = add_alternate(road, one, (const unsigned char *)in->octets + start, (size_t)size);
  }
  return done == LR_E_MEMORY ? done : LR_OK;
}

/* Reads the members of a profile up to its components. */
static int64_t get_profile(struct profile *one) {
  const struct reader *in = &one->in;
  uint8_t major = 0;
  int64_t done = lr_get_octet(in->octets, in->size, in->place, &major);
  if (done == LR_OK) done = major == 1 ? lr_get_octet(in->octets, in->size, in->place, &one->minor) : LR_E_VALUE;
  if (done == LR_OK) done = get_address(in, &one->host, &one->host_size, &one->port);
  return done == LR_OK ? lr_get_octets(in->octets, in->size, in->place, &one->key, &one->key_size) : done;
}

/* Adds the addresses of a profile of IIOP. One that is none says nothing. */
static int64_t add_profile(lr_idl_road *road, const lr_idl_octet__sequence *data) {
  lr_place place = {0, 1, data->_length == 0 ? 2 : data->_buffer[0], 0};
  struct profile one = {.in = {data->_buffer, data->_length, &place, NULL, 0}};
  if (get_profile(&one) < 0) return LR_OK;
  int64_t done = add_of(road, &one, data->_buffer + one.host, one.host_size, one.port);
  return done < 0 || one.minor == 0 ? done : add_components(road, &one);
}

/* The road to all addresses of a reference. LR_E_REFERENCE: it has none. */
static int64_t find_road(lr_idl_road *road, const lr_idl_reference *reference) {
  enum { TAG_INTERNET_IOP = 0 };
  int64_t done = LR_OK;
  for (uint32_t index = 0; done == LR_OK && index < reference->profiles._length; index++) {
    const lr_idl_profile *profile = &reference->profiles._buffer[index];
    if (profile->tag == TAG_INTERNET_IOP) done = add_profile(road, &profile->data);
  }
  if (done == LR_OK && road->count == 0) done = LR_E_REFERENCE;
  if (done < 0) close_road(road);
  return done;
}

/* ---- a caller ---- */

enum { PIECE = 4096, WAIT = 100, FIRST_DELAY = 20, LAST_DELAY = 1000, CONNECT_SECONDS = 10 };
/* (beside LR_OK) a call is to be made again, elsewhere */
enum { AGAIN = 1 };

static uint64_t now(void) {
  struct timespec time;
  clock_gettime(CLOCK_REALTIME, &time);
  return lr_moment((uint64_t)time.tv_sec, (uint32_t)time.tv_nsec);
}

/* What passed by a clock that nobody sets, in 100 ns. */
static uint64_t passed(void) {
  struct timespec time;
  clock_gettime(CLOCK_MONOTONIC, &time);
  return (uint64_t)time.tv_sec * LR_SECOND + (uint64_t)time.tv_nsec / 100;
}

static lr_idl_road *road_of(lr_idl_caller *caller) { return caller->is_led ? &caller->led : &caller->home; }

/* Opens the client anew, under the same id. The next call gets the number after this one. */
static int64_t open_client(lr_idl_caller *caller, int64_t last) {
  lr_client client = LR_INIT;
  int64_t done = lr_client_open(&client, caller->id, sizeof caller->id);
  if (done == LR_OK) done = lr_client_set(&client, LR_CLIENT_VERSION, road_of(caller)->version);
  if (done == LR_OK) done = lr_client_set(&client, LR_CLIENT_KEEP_TRANSIENT, 1);
  if (done == LR_OK) done = lr_client_skip_to(&client, last);
  if (done == LR_OK) {
    lr_client_close(&caller->client);
    caller->client = client;
    caller->last = last;
  } else {
    lr_client_close(&client);
  }
  return done;
}

/* Opens a caller, which takes a road. */
static int64_t open_caller(lr_idl_caller *caller, lr_idl_road *home) {
  unsigned char random[sizeof caller->id / 2];
  lr_idl_caller made = LR_IDL_CALLER;
  made.patience = 60 * LR_SECOND;
  made.home = *home;
  int64_t done = getentropy(random, sizeof random) == 0 ? LR_OK : LR_E_RANGE;
  for (size_t index = 0; done == LR_OK && index < sizeof made.id; index++)
    made.id[index] = "0123456789abcdef"[random[index / 2] >> (index % 2 * 4) & 15];
  if (done == LR_OK) done = open_client(&made, 0);
  if (done == LR_OK)
    *caller = made;
  else
    close_road(home);
  return done;
}

int64_t lr_idl_caller_open(lr_idl_caller *caller, const char *host, uint16_t port) {
  lr_idl_road home = LR_IDL_ROAD;
  if (caller->home.count > 0) return LR_E_OPEN;
  int64_t done = add_address(&home, host, strlen(host), port);
  if (done == LR_OK) return open_caller(caller, &home);
  close_road(&home);
  return done;
}

int64_t lr_idl_caller_of(lr_idl_caller *caller, const char *reference) {
  lr_idl_reference parsed;
  lr_idl_road home = LR_IDL_ROAD;
  if (caller->home.count > 0) return LR_E_OPEN;
  int64_t done = lr_idl_reference__parse(&parsed, reference);
  if (done < 0) return done;
  done = find_road(&home, &parsed);
  lr_idl_reference__free(&parsed);
  return done == LR_OK ? open_caller(caller, &home) : done;
}

static void hang_up(lr_idl_caller *caller) {
  if (caller->fd >= 0) close(caller->fd);
  caller->fd = -1;
  caller->is_lost = caller->is_lost || caller->is_sent;
  caller->is_sent = caller->is_heard = false;
  lr_client_lost(&caller->client);
}

/* What was forwarded goes home again. */
static void forget(lr_idl_caller *caller) {
  close_road(&caller->led);
  free(caller->from);
  caller->from = NULL;
}

void lr_idl_caller_close(lr_idl_caller *caller) {
  if (caller->home.count > 0) hang_up(caller);
  lr_client_close(&caller->client);
  close_road(&caller->home);
  forget(caller);
  *caller = (lr_idl_caller)LR_IDL_CALLER;
}

/* A socket that is connected, or -1. To connect and to send it waits so long at most, in 100 ns. */
static int connected_to(const struct addrinfo *address, uint64_t patience) {
  const struct timeval limit = {(time_t)(patience / LR_SECOND), (suseconds_t)(patience % LR_SECOND / 10 | 1)};
  int fd = socket(address->ai_family, address->ai_socktype, address->ai_protocol);
  if (fd < 0) return -1;
  setsockopt(fd, IPPROTO_TCP, TCP_NODELAY, &(int){1}, sizeof(int));
  setsockopt(fd, SOL_SOCKET, SO_SNDTIMEO, &limit, sizeof limit);
  if (connect(fd, address->ai_addr, address->ai_addrlen) == 0) return fd;
  close(fd);
  return -1;
}

/* How long an address may take to be reached. */
static uint64_t patience_of(const lr_idl_caller *caller, const lr_idl_road *road) {
  const uint64_t share = caller->patience / road->count, most = CONNECT_SECONDS * LR_SECOND;
  return road->count == 1 || share < most ? share : most;
}

/* Whether the address that is asked has said nothing for too long, and there is another way: another address, or the
 * one to where a call was led from. */
static bool is_mute(lr_idl_caller *caller) {
  const lr_idl_road *road = road_of(caller);
  const uint64_t most = caller->answer_timeout == 0 ? caller->patience / road->count : caller->answer_timeout;
  return caller->is_sent && (caller->is_led || road->count > 1) && passed() - caller->since >= most;
}

/* Connects with the address that is to be asked. False where that fails. */
static bool call_up(lr_idl_caller *caller) {
  const lr_idl_road *road = road_of(caller);
  const lr_idl_address *address = &road->addresses[road->next];
  struct addrinfo hints = {.ai_socktype = SOCK_STREAM}, *found = NULL;
  char port[6];
  snprintf(port, sizeof port, "%u", (unsigned)address->port);
  if (getaddrinfo(address->host, port, &hints, &found) != 0) return false;
  for (const struct addrinfo *one = found; one != NULL && caller->fd < 0; one = one->ai_next)
    caller->fd = connected_to(one, patience_of(caller, road));
  freeaddrinfo(found);
  return caller->fd >= 0 && lr_client_connected(&caller->client, now()) == LR_OK;
}

static bool send_all(int fd, const unsigned char *octets, size_t size) {
  for (size_t sent = 0; sent < size;) {
    ssize_t count = send(fd, octets + sent, size - sent, MSG_NOSIGNAL);
    if (count < 0 && errno != EINTR) return false;
    if (count > 0) sent += (size_t)count;
  }
  return true;
}

static bool send_due(lr_idl_caller *caller) {
  unsigned char room[PIECE];
  int64_t size;
  while ((size = lr_client_output(&caller->client, room, sizeof room)) > 0) {
    caller->is_sent = true;
    if (!send_all(caller->fd, room, (size_t)size)) return false;
    caller->since = passed();
  }
  return size == 0;
}

/* What TRANSIENT left pending is due again: here, if there is no other address. False where it is left for the next. */
static bool resend(lr_idl_caller *caller) {
  unsigned char room[1];
  if (lr_client_resend(&caller->client, now()) != LR_OK) return false;
  if (road_of(caller)->count == 1 || lr_client_output(&caller->client, room, sizeof room) == 0) return true;
  caller->is_sent = caller->is_heard = false;
  return false;
}

/* Takes what comes within so many ms: 1, or 0 where that is nothing; -1 where the connection is over. */
static int hear(lr_idl_caller *caller, int within) {
  unsigned char room[PIECE];
  struct pollfd waits = {caller->fd, POLLIN, 0};
  int ready = poll(&waits, 1, within);
  if (ready <= 0) return ready == 0 || errno == EINTR ? 0 : -1;
  ssize_t count = recv(caller->fd, room, sizeof room, 0);
  caller->since = passed();
  return count > 0 && lr_client_feed(&caller->client, room, (size_t)count) >= 0 &&
                 lr_client_is_connected(&caller->client) == 1
             ? 1
             : -1;
}

/* Takes what comes, for a while. False where the connection is over, or left for the next address. */
static bool talk(lr_idl_caller *caller) {
  int heard = hear(caller, WAIT);
  if (heard != 0) return heard > 0;
  return !is_mute(caller) && resend(caller);
}

/* The completion of a call: 1, or 0 where it is pending. */
static int64_t completed(lr_idl_caller *caller, int64_t call, lr_completion *ended) {
  int64_t done;
  do done = lr_client_completed(&caller->client, ended, sizeof *ended);
  while (done == 1 && ended->call != call);
  if (done == 1 && ended->how != LR_ENDED_EXPIRED) caller->is_sent = false;
  if (done == 1 && ended->how <= LR_ENDED_NEEDS_ADDRESSING) caller->is_heard = true;
  return done;
}

static void wait_longer(long *delay) {
  struct timespec pause = {*delay / 1000, *delay % 1000 * 1000000};
  nanosleep(&pause, NULL);
  *delay = 2 * *delay < LAST_DELAY ? 2 * *delay : LAST_DELAY;
}

/* Addresses that could not be reached, one after another, and how long the next pause is, in ms. */
struct tries {
  uint32_t failed;
  long delay;
};

/* Leaves an address for the next one, but for one that had answered on this connection and was lost. After each
 * connection, and after a round of addresses, it waits. False where a call was led to where nobody answers. */
static bool move_on(lr_idl_caller *caller, struct tries *tries) {
  lr_idl_road *road = road_of(caller);
  const bool was_mute = caller->fd >= 0 && is_mute(caller), was_there = caller->fd >= 0 && !was_mute;
  const bool was_heard = caller->is_heard;
  hang_up(caller);
  if (was_heard && !was_mute) return true;
  road->next = (road->next + 1) % road->count;
  tries->failed = was_there ? 0 : tries->failed + 1;
  if (caller->is_led && tries->failed == road->count) return false;
  if (was_there || tries->failed % road->count == 0) wait_longer(&tries->delay);
  return true;
}

/* Waits until a call has ended. AGAIN: nobody answers where it was led, or it is oneway and could not be sent; and it
 * is not pending any more. */
static int64_t settle(lr_idl_caller *caller, int64_t call, lr_completion *ended) {
  struct tries tries = {0, FIRST_DELAY};
  for (;;) {
    int64_t done = lr_client_tick(&caller->client, now());
    /* (a oneway call has ended as soon as it is due: so what is due is sent first) */
    bool is_well = caller->fd < 0 || send_due(caller);
    if (done == LR_OK) done = completed(caller, call, ended);
    if (done < 0) return done;
    if (done == 1 && (is_well || ended->how != LR_ENDED_SENT)) return LR_OK;
    if (done == 0 && is_well && (caller->fd >= 0 ? talk(caller) : call_up(caller))) continue;
    const bool goes_on = move_on(caller, &tries);
    if (goes_on && done == 0) continue;
    if (goes_on) return AGAIN;
    done = lr_client_cancel(&caller->client, call);
    forget(caller);
    return done < 0 ? done : AGAIN;
  }
}

/* ---- stubs ---- */

void lr_idl_raised_free(lr_idl_raised *raised) {
  if (raised->members != NULL) lr_idl_free(raised->exception->type, raised->members);
  free(raised->members);
  free(raised->id);
  *raised = (lr_idl_raised)LR_IDL_RAISED;
}

/* Calls an operation by the octets of its arguments, and answers the number of the call. */
static int64_t call_by(const lr_idl_object *object, const lr_idl_operation *operation, const struct body *out,
                       uint64_t expiration) {
  lr_idl_caller *caller = object->caller;
  const void *key = caller->is_led ? caller->led.key : object->key;
  const size_t key_size = caller->is_led ? caller->led.key_size : object->key_size;
  const size_t name_size = strlen(operation->name), size = (size_t)out->place.next;
  if (operation->is_raw || operation->is_oneway)
    return lr_client_call_raw(&caller->client, now(), expiration, operation->is_oneway ? LR_WISH_NONE : LR_WISH_FULL,
                              key, key_size, operation->name, name_size, out->place.order, NULL, 0, out->octets, size);
  return lr_client_call(&caller->client, now(), expiration, key, key_size, operation->name, name_size,
                        operation->arguments.codes, operation->arguments.codes_size, LR_ORDER_BIG, out->octets, size);
}

/* The body of a reply; NULL where there is no memory. */
static unsigned char *body_of(lr_idl_caller *caller, const lr_completion *ended) {
  unsigned char *octets = malloc((size_t)ended->body_size + 1);
  if (octets != NULL && ended->body_size > 0) lr_client_body(&caller->client, octets, (size_t)ended->body_size);
  return octets;
}

/* Follows a forward: AGAIN. LR_E_OUTCOME: it leads to no address. */
static int64_t follow(const lr_idl_object *object, const lr_completion *ended) {
  lr_idl_caller *caller = object->caller;
  lr_idl_reference reference;
  lr_idl_road road = LR_IDL_ROAD;
  lr_place place = {ended->body_at, 0, ended->body_order, 0};
  unsigned char *octets = body_of(caller, ended);
  if (octets == NULL) return LR_E_MEMORY;
  int64_t done = lr_idl_get(&lr_idl_reference__type, octets, (size_t)ended->body_size, &place, &reference);
  free(octets);
  if (done < 0) return done;
  done = find_road(&road, &reference);
  lr_idl_reference__free(&reference);
  char *from = done == LR_OK ? copy_of(object->key, object->key_size) : NULL;
  if (from == NULL) {
    close_road(&road);
    return done == LR_E_REFERENCE ? LR_E_OUTCOME : LR_E_MEMORY;
  }
  forget(caller);
  caller->led = road;
  caller->from = from;
  caller->from_size = object->key_size;
  return AGAIN;
}

/* Goes home, or where the key of an object was led. The next call gets the number after this one. */
static int64_t turn_to(const lr_idl_object *object, int64_t last) {
  lr_idl_caller *caller = object->caller;
  const bool is_led = caller->led.count > 0 && caller->from_size == object->key_size &&
                      (object->key_size == 0 || memcmp(caller->from, object->key, object->key_size) == 0);
  if (is_led == caller->is_led && last == caller->last) return LR_OK;
  hang_up(caller);
  caller->is_led = is_led;
  return open_client(caller, last);
}

/* Makes a call under one number, wherever it leads, until it has ended. */
static int64_t make_call(const lr_idl_object *object, const lr_idl_operation *operation, const struct body *out,
                         lr_completion *ended) {
  lr_idl_caller *caller = object->caller;
  const uint64_t expiration = now() + caller->patience;
  const int64_t last = caller->last;
  long delay = FIRST_DELAY;
  caller->is_lost = caller->is_sent = false;
  for (unsigned hops = 0;; hops++) {
    if (hops > 2) wait_longer(&delay);
    int64_t done = turn_to(object, last);
    /* (of a oneway call nobody would hear that its connection is over) */
    if (operation->is_oneway && caller->fd >= 0 && hear(caller, 0) < 0) hang_up(caller);
    if (done == LR_OK) done = call_by(object, operation, out, expiration);
    if (done == LR_E_EXPIRED && hops > 0) {
      *ended = (lr_completion){.how = LR_ENDED_EXPIRED};
      return LR_OK;
    }
    if (done < 0) return done;
    caller->last = done;
    done = settle(caller, done, ended);
    if (done == LR_OK && ended->how == LR_ENDED_FORWARDED) done = follow(object, ended);
    if (done != AGAIN) return done;
  }
}

/* Frees the argument that a result takes the place of, if it is one. */
static void free_replaced(const lr_idl_operation *operation, const void *const *arguments, void *place) {
  for (size_t index = 0; index < operation->arguments.count; index++)
    if (arguments[index] == place) lr_idl_free(operation->arguments.types[index], place);
}

/* Hands the results out, whose values are moved. */
static void hand_out(const lr_idl_operation *operation, void **values, const void *const *arguments,
                     void *const *results) {
  for (size_t index = 0; index < operation->results.count; index++) {
    const lr_idl_type *type = operation->results.types[index];
    if (results[index] == NULL) continue;
    free_replaced(operation, arguments, results[index]);
    memcpy(results[index], values[index], type->size);
    memset(values[index], 0, type->size);
  }
}

static int64_t take_results(const lr_idl_operation *operation, const struct reader *in, const void *const *arguments,
                            void *const *results) {
  void **values = new_values(&operation->results);
  int64_t done = values == NULL ? LR_E_MEMORY : get_values(&operation->results, in, values);
  if (done == LR_OK && in->place->next != in->size) done = LR_E_VALUE;
  if (done == LR_OK) hand_out(operation, values, arguments, results);
  free_values(&operation->results, values);
  return done;
}

/* The exception of an id that an operation declares; NULL where it declares none of that. */
static const lr_idl_exception *declared(const lr_idl_operation *operation, const char *id) {
  for (size_t index = 0; index < operation->raise_count; index++)
    if (strcmp(operation->raises[index]->id, id) == 0) return operation->raises[index];
  return NULL;
}

static int64_t take_exception(const lr_idl_operation *operation, const struct reader *in, lr_idl_raised *raised) {
  int64_t done = get_value(in, &lr_idl_string__type, &raised->id);
  if (done < 0) return done;
  const lr_idl_exception *exception = declared(operation, raised->id);
  if (exception == NULL) return LR_E_OUTCOME;
  raised->members = malloc(exception->type->size);
  if (raised->members == NULL) return LR_E_MEMORY;
  raised->exception = exception;
  done = get_whole(in, exception->type, raised->members);
  if (done == LR_OK && in->place->next != in->size) done = LR_E_VALUE;
  return done < 0 ? done : LR_ENDED_RAISED;
}

static int64_t take_system(const struct reader *in, lr_idl_raised *raised) {
  int64_t done = get_value(in, &lr_idl_string__type, &raised->id);
  if (done == LR_OK) done = get_value(in, &lr_idl_ulong__type, &raised->minor);
  if (done == LR_OK) done = get_value(in, &lr_idl_ulong__type, &raised->completed);
  if (done == LR_OK && raised->completed > LR_COMPLETED_MAYBE) done = LR_E_VALUE;
  return done < 0 ? done : LR_ENDED_SYSTEM;
}

/* What is raised where no address can be reached. */
static int64_t raise_unreached(const lr_idl_caller *caller, lr_idl_raised *raised) {
  const char *id = caller->is_lost ? "IDL:omg.org/CORBA/COMM_FAILURE:1.0" : "IDL:omg.org/CORBA/TRANSIENT:1.0";
  raised->id = copy_of(id, strlen(id));
  raised->completed = caller->is_lost ? LR_COMPLETED_MAYBE : LR_COMPLETED_NO;
  return raised->id == NULL ? LR_E_MEMORY : LR_ENDED_SYSTEM;
}

/* Whether the results of an operation are octets. */
static bool has_body(const lr_idl_operation *operation) {
  return operation->results.count == 1 && operation->results.types[0]->kind == LR_IDL_BODY;
}

/* Takes the octets of an exception. */
static int64_t take_octets(const lr_idl_operation *operation, const struct reader *in, const void *const *arguments,
                           void *const *results) {
  int64_t done = take_results(operation, in, arguments, results);
  return done < 0 ? done : LR_ENDED_RAISED;
}

/* Takes what came of a call, by its body. */
static int64_t take(const lr_idl_operation *operation, uint32_t how, const struct reader *in,
                    const void *const *arguments, void *const *results, lr_idl_raised *raised) {
  switch (how) {
    case LR_ENDED_SENT: return LR_OK;
    case LR_ENDED_RETURNED: return take_results(operation, in, arguments, results);
    case LR_ENDED_RAISED:
      return has_body(operation) ? take_octets(operation, in, arguments, results)
                                 : take_exception(operation, in, raised);
    case LR_ENDED_SYSTEM: return take_system(in, raised);
    case LR_ENDED_EXPIRED: return LR_E_EXPIRED;
    default: return LR_E_OUTCOME;
  }
}

/* Takes what came of a call that has ended. */
static int64_t take_ended(const lr_idl_object *object, const lr_idl_operation *operation, const lr_completion *ended,
                          const void *const *arguments, void *const *results, lr_idl_raised *raised) {
  if (ended->how == LR_ENDED_EXPIRED && object->caller->fd < 0) return raise_unreached(object->caller, raised);
  unsigned char *octets = body_of(object->caller, ended);
  if (octets == NULL) return LR_E_MEMORY;
  lr_place place = {ended->body_at, 0, ended->body_order, 0};
  uint64_t left = limit_of(object->caller->limit, (size_t)ended->body_size);
  struct reader in = {octets, (size_t)ended->body_size, &place, &left, 0};
  int64_t done = take(operation, ended->how, &in, arguments, results, raised);
  free(octets);
  /* (the next call of the key is asked for at home) */
  if (done == LR_ENDED_SYSTEM && strcmp(raised->id, "IDL:omg.org/CORBA/OBJECT_NOT_EXIST:1.0") == 0)
    forget(object->caller);
  return done;
}

int64_t lr_idl_invoke(const lr_idl_object *object, const lr_idl_operation *operation, const void *const *arguments,
                      void *const *results, lr_idl_raised *raised) {
  lr_idl_raised found = LR_IDL_RAISED;
  lr_completion ended = {0};
  struct body out = {NULL, 0, {0, 0, LR_ORDER_BIG, 0}};
  if (raised != NULL) lr_idl_raised_free(raised);
  int64_t done = append_all(&out, &operation->arguments, arguments);
  if (done == LR_OK) done = make_call(object, operation, &out, &ended);
  free(out.octets);
  if (done == LR_OK) done = take_ended(object, operation, &ended, arguments, results, &found);
  if (raised != NULL)
    *raised = found;
  else
    lr_idl_raised_free(&found);
  return done;
}
