/* Values of CDR, read and written in both orders at each alignment, against octets that are written out by hand. */
#include <math.h>

#include "check.h"

enum { ROOM = 64, PLACES = 9, STALE = 0xee };

/* How many octets of padding stand before a value that is aligned to 1, 2, 4 or 8, at the places 0 to 8. */
static const struct {
  size_t to;
  size_t before[PLACES];
} paddings[] = {
    {1, {0, 0, 0, 0, 0, 0, 0, 0, 0}},
    {2, {0, 1, 0, 1, 0, 1, 0, 1, 0}},
    {4, {0, 3, 2, 1, 0, 3, 2, 1, 0}},
    {8, {0, 7, 6, 5, 4, 3, 2, 1, 0}},
};

static size_t padding_of(size_t to, size_t place) {
  for (size_t index = 0; index < sizeof paddings / sizeof *paddings; index++)
    if (paddings[index].to == to) return paddings[index].before[place];
  return 0;
}

typedef int64_t getter(const void *octets, size_t size, lr_place *place, int64_t *value);
typedef int64_t putter(void *room, size_t size, lr_place *place, int64_t value);

/* Each type as a getter and a putter of the widest number. */
#define TYPE(name, type)                                                                        \
  static int64_t get_##name(const void *octets, size_t size, lr_place *place, int64_t *value) { \
    type got = (type)0x55;                                                                      \
    int64_t answer = lr_get_##name(octets, size, place, &got);                                  \
    if (answer < 0 && got != (type)0x55) return 1; /* (nothing changes at an error) */          \
    *value = (int64_t)got;                                                                      \
    return answer;                                                                              \
  }                                                                                             \
  static int64_t put_##name(void *room, size_t size, lr_place *place, int64_t value) {          \
    return lr_put_##name(room, size, place, (type)value);                                       \
  }
TYPE(octet, uint8_t)
TYPE(char, uint8_t)
TYPE(boolean, uint8_t)
TYPE(short, int16_t)
TYPE(ushort, uint16_t)
TYPE(long, int32_t)
TYPE(ulong, uint32_t)
TYPE(longlong, int64_t)
TYPE(ulonglong, uint64_t)

static const struct row {
  const char *name;
  getter *get;
  putter *put;
  int64_t value;
  size_t width;
  const char *big, *little;
} rows[] = {
#define ROW(name, value, width, big, little) \
  { #name, get_##name, put_##name, value, width, big, little }
    ROW(octet, 0, 1, "\x00", "\x00"),
    ROW(octet, 255, 1, "\xff", "\xff"),
    ROW(char, 'A', 1, "\x41", "\x41"),
    ROW(char, 0xe4, 1, "\xe4", "\xe4"),
    ROW(boolean, 0, 1, "\x00", "\x00"),
    ROW(boolean, 1, 1, "\x01", "\x01"),
    ROW(short, 258, 2, "\x01\x02", "\x02\x01"),
    ROW(short, -2, 2, "\xff\xfe", "\xfe\xff"),
    ROW(short, INT16_MIN, 2, "\x80\x00", "\x00\x80"),
    ROW(ushort, 258, 2, "\x01\x02", "\x02\x01"),
    ROW(ushort, 65534, 2, "\xff\xfe", "\xfe\xff"),
    ROW(long, 16909060, 4, "\x01\x02\x03\x04", "\x04\x03\x02\x01"),
    ROW(long, -2, 4, "\xff\xff\xff\xfe", "\xfe\xff\xff\xff"),
    ROW(long, INT32_MIN, 4, "\x80\x00\x00\x00", "\x00\x00\x00\x80"),
    ROW(ulong, 16909060, 4, "\x01\x02\x03\x04", "\x04\x03\x02\x01"),
    ROW(ulong, 4294967294, 4, "\xff\xff\xff\xfe", "\xfe\xff\xff\xff"),
    ROW(longlong, 72623859790382856, 8, "\x01\x02\x03\x04\x05\x06\x07\x08", "\x08\x07\x06\x05\x04\x03\x02\x01"),
    ROW(longlong, -2, 8, "\xff\xff\xff\xff\xff\xff\xff\xfe", "\xfe\xff\xff\xff\xff\xff\xff\xff"),
    ROW(longlong, INT64_MIN, 8, "\x80\x00\x00\x00\x00\x00\x00\x00", "\x00\x00\x00\x00\x00\x00\x00\x80"),
    ROW(ulonglong, 72623859790382856, 8, "\x01\x02\x03\x04\x05\x06\x07\x08", "\x08\x07\x06\x05\x04\x03\x02\x01"),
    ROW(ulonglong, -2, 8, "\xff\xff\xff\xff\xff\xff\xff\xfe", "\xfe\xff\xff\xff\xff\xff\xff\xff"),
};

/* A place in octets, of which those before `next` are passed. */
static lr_place place_of(uint64_t at, uint64_t next, uint32_t order) { return (lr_place){at, next, order, 0}; }

static bool is_place(lr_place one, lr_place other) {
  return one.at == other.at && one.next == other.next && one.order == other.order && one.reserved == other.reserved;
}

static bool is_all(const unsigned char *octets, size_t size, unsigned char octet) {
  for (size_t index = 0; index < size; index++)
    if (octets[index] != octet) return false;
  return true;
}

/* Reads a row's value after padding that may hold anything, and from each number of octets that is too small. */
static bool reads(const struct row *row, const char *spelled, lr_place from, size_t padding) {
  unsigned char octets[ROOM];
  size_t end = from.next + padding + row->width;
  lr_place place = from;
  int64_t value = 0;
  memset(octets, STALE, sizeof octets);
  memcpy(octets + from.next + padding, spelled, row->width);
  if (row->get(octets, end, &place, &value) != LR_OK || value != row->value) return false;
  if (!is_place(place, place_of(from.at, end, from.order))) return false;
  for (size_t size = from.next; size < end; size++) {
    place = from;
    if (row->get(octets, size, &place, &value) != LR_E_SHORT || !is_place(place, from)) return false;
  }
  return true;
}

/* Writes a row's value, and into room that is too small. */
static bool writes(const struct row *row, const char *spelled, lr_place from, size_t padding) {
  unsigned char room[ROOM];
  size_t start = from.next + padding, end = start + row->width;
  lr_place place;
  for (size_t size = from.next; size < end; size++) {
    place = from;
    memset(room, STALE, sizeof room);
    if (row->put(room, size, &place, row->value) != LR_E_ROOM || !is_place(place, from)) return false;
    if (!is_all(room, sizeof room, STALE)) return false;
  }
  place = from;
  if (row->put(room, end, &place, row->value) != LR_OK) return false;
  if (!is_place(place, place_of(from.at, end, from.order))) return false;
  return is_all(room, from.next, STALE) && is_all(room + from.next, padding, 0) &&
         memcmp(room + start, spelled, row->width) == 0 && is_all(room + end, sizeof room - end, STALE);
}

/* Each number, in both orders, where the first octet stands at 0 to 8, and after 0 to 3 octets. */
static void numbers(void) {
  for (size_t index = 0; index < sizeof rows / sizeof *rows; index++)
    for (uint32_t order = LR_ORDER_BIG; order <= LR_ORDER_LITTLE; order++)
      for (uint64_t at = 0; at < PLACES; at++)
        for (uint64_t next = 0; next < 4; next++) {
          const struct row *row = &rows[index];
          const char *spelled = order == LR_ORDER_BIG ? row->big : row->little;
          size_t padding = padding_of(row->width, (at + next) % 8);
          bool is_read = reads(row, spelled, place_of(at, next, order), padding);
          bool is_written = writes(row, spelled, place_of(at, next, order), padding);
          if (!CHECK(is_read) || !CHECK(is_written))
            printf("%s %lld, order %u, at %u, next %u\n", row->name, (long long)row->value, (unsigned)order,
                   (unsigned)at, (unsigned)next);
        }
}

/* "ab" as a string, and as a sequence of octets. */
static const struct {
  bool is_string;
  size_t size;
  unsigned char big[8], little[8];
} texts[] = {
    {true, 7, {0, 0, 0, 3, 'a', 'b', 0}, {3, 0, 0, 0, 'a', 'b', 0}},
    {false, 6, {0, 0, 0, 2, 'a', 'b'}, {2, 0, 0, 0, 'a', 'b'}},
};

static int64_t get_text(bool is_string, const void *octets, size_t size, lr_place *place, uint64_t *start,
                        uint64_t *length) {
  return is_string ? lr_get_string(octets, size, place, start, length)
                   : lr_get_octets(octets, size, place, start, length);
}

static int64_t put_text_of(bool is_string, void *room, size_t size, lr_place *place, const void *text, size_t length) {
  return is_string ? lr_put_string(room, size, place, text, length) : lr_put_octets(room, size, place, text, length);
}

static void strings_and_octets(void) {
  for (size_t index = 0; index < 2; index++)
    for (uint32_t order = LR_ORDER_BIG; order <= LR_ORDER_LITTLE; order++)
      for (uint64_t at = 0; at < PLACES; at++) {
        const unsigned char *spelled = order == LR_ORDER_BIG ? texts[index].big : texts[index].little;
        bool is_string = texts[index].is_string;
        size_t padding = padding_of(4, at), end = padding + texts[index].size;
        unsigned char octets[ROOM], room[ROOM];
        lr_place from = place_of(at, 0, order), place = from;
        uint64_t start = 77, length = 77;
        memset(octets, STALE, sizeof octets);
        memcpy(octets + padding, spelled, texts[index].size);
        WANT(get_text(is_string, octets, end, &place, &start, &length), LR_OK);
        CHECK(is_place(place, place_of(at, end, order)) && start == padding + 4 && length == 2);
        for (size_t size = 0; size < end; size++) {
          place = from, start = length = 77;
          WANT(get_text(is_string, octets, size, &place, &start, &length), LR_E_SHORT);
          CHECK(is_place(place, from) && start == 77 && length == 77);
          memset(room, STALE, sizeof room);
          WANT(put_text_of(is_string, room, size, &place, "ab", 2), LR_E_ROOM);
          CHECK(is_place(place, from) && is_all(room, sizeof room, STALE));
        }
        WANT(put_text_of(is_string, room, end, &place, "ab", 2), LR_OK);
        CHECK(is_place(place, place_of(at, end, order)) && is_all(room, padding, 0) &&
              memcmp(room + padding, spelled, texts[index].size) == 0);
      }
}

/* An encapsulation of an unsigned short in little order, in octets of big order: it is aligned from its own start. */
static void encapsulations(void) {
  static const unsigned char spelled[] = {0, 0, 0, 4, 1, 0xee, 0x02, 0x01}, none[] = {0, 0, 0, 0},
                             bad[] = {0, 0, 0, 1, 2};
  for (uint64_t at = 0; at < PLACES; at++) {
    unsigned char octets[ROOM] = {0};
    size_t padding = padding_of(4, at), end = padding + sizeof spelled;
    lr_place from = place_of(at, 0, LR_ORDER_BIG), place = from, inner = {0};
    uint64_t start = 0, length = 0;
    uint16_t value = 0;
    memcpy(octets + padding, spelled, sizeof spelled);
    WANT(lr_get_encapsulation(octets, end, &place, &start, &length, &inner), LR_OK);
    CHECK(is_place(place, place_of(at, end, LR_ORDER_BIG)) && start == padding + 4 && length == 4);
    CHECK(inner.next == 1 && inner.order == LR_ORDER_LITTLE);
    WANT(lr_get_ushort(octets + start, length, &inner, &value), LR_OK);
    CHECK(value == 0x0102 && inner.next == 4);
    for (size_t size = 0; size < end; size++) {
      place = from;
      WANT(lr_get_encapsulation(octets, size, &place, &start, &length, &inner), LR_E_SHORT);
      CHECK(is_place(place, from));
    }
  }
  lr_place place = place_of(0, 0, LR_ORDER_BIG), inner = {9, 9, 9, 9};
  uint64_t start = 77, length = 77;
  WANT(lr_get_encapsulation(none, sizeof none, &place, &start, &length, &inner), LR_E_SHORT);
  WANT(lr_get_encapsulation(bad, sizeof bad, &place, &start, &length, &inner), LR_E_VALUE);
  CHECK(is_place(place, place_of(0, 0, LR_ORDER_BIG)) && start == 77 && length == 77);
  CHECK(is_place(inner, (lr_place){9, 9, 9, 9}));
}

/* Octets that are no value of a type. */
static void no_values(void) {
  static const unsigned char two[] = {2}, no_nul[] = {0, 0, 0, 2, 'a', 'b'}, nul_within[] = {0, 0, 0, 3, 'a', 0, 0},
                             long_one[] = {0xff, 0xff, 0xff, 0xff, 'a', 0}, nothing[] = {0, 0, 0, 0};
  unsigned char room[ROOM];
  lr_place place = place_of(0, 0, LR_ORDER_BIG);
  uint64_t start = 77, length = 77;
  uint8_t truth = 7;
  WANT(lr_get_boolean(two, sizeof two, &place, &truth), LR_E_VALUE);
  WANT(lr_put_boolean(room, sizeof room, &place, 2), LR_E_VALUE);
  WANT(lr_get_string(no_nul, sizeof no_nul, &place, &start, &length), LR_E_VALUE);
  WANT(lr_get_string(nul_within, sizeof nul_within, &place, &start, &length), LR_E_VALUE);
  WANT(lr_put_string(room, sizeof room, &place, "a\0b", 3), LR_E_TEXT);
  WANT(lr_get_string(long_one, sizeof long_one, &place, &start, &length), LR_E_SHORT);
  WANT(lr_get_octets(long_one, sizeof long_one, &place, &start, &length), LR_E_SHORT);
  CHECK(is_place(place, place_of(0, 0, LR_ORDER_BIG)) && start == 77 && length == 77 && truth == 7);
  WANT(lr_get_octets(nothing, sizeof nothing, &place, &start, &length), LR_OK);
  CHECK(place.next == 4 && start == 4 && length == 0);
  place.next = 0;
  /* (a length of 0 counts no NUL, and is read as the empty string) */
  WANT(lr_get_string(nothing, sizeof nothing, &place, &start, &length), LR_OK);
  CHECK(place.next == 4 && start == 4 && length == 0);
}

/* Floats and doubles, whose octets are those of IEEE 754 (CORBA 3.3 Part 2, 9.3.1.3), at a place that is aligned and at
 * one that is not. What is no number has its octets too. */
static void reals(void) {
  static const struct {
    double value;
    const char *single_big, *double_big;
  } all[] = {
      {0.0, "\x00\x00\x00\x00", "\x00\x00\x00\x00\x00\x00\x00\x00"},
      {-0.0, "\x80\x00\x00\x00", "\x80\x00\x00\x00\x00\x00\x00\x00"},
      {1.5, "\x3f\xc0\x00\x00", "\x3f\xf8\x00\x00\x00\x00\x00\x00"},
      {-118.625, "\xc2\xed\x40\x00", "\xc0\x5d\xa8\x00\x00\x00\x00\x00"},
      {HUGE_VAL, "\x7f\x80\x00\x00", "\x7f\xf0\x00\x00\x00\x00\x00\x00"},
  };
  static const unsigned char quiet[] = {0x7f, 0xf8, 0, 0, 0, 0, 0, 7};
  unsigned char room[ROOM];
  float single = 0;
  double whole = 0;
  for (size_t index = 0; index < sizeof all / sizeof *all; index++) {
    lr_place place = place_of(0, 1, LR_ORDER_BIG);
    WANT(lr_put_float(room, sizeof room, &place, (float)all[index].value), LR_OK);
    WANT(lr_put_double(room, sizeof room, &place, all[index].value), LR_OK);
    CHECK(place.next == 16 && memcmp(room + 4, all[index].single_big, 4) == 0);
    CHECK(memcmp(room + 8, all[index].double_big, 8) == 0);
    place.next = 1;
    WANT(lr_get_float(room, 16, &place, &single), LR_OK);
    WANT(lr_get_double(room, 16, &place, &whole), LR_OK);
    CHECK(place.next == 16 && (double)single == all[index].value && whole == all[index].value);
    CHECK(!signbit(single) == !signbit(all[index].value) && !signbit(whole) == !signbit(all[index].value));
    WANT(lr_get_float(room, 16, &place, &single), LR_E_SHORT);
    WANT(lr_get_double(room, 16, &place, &whole), LR_E_SHORT);
    WANT(lr_put_float(room, 16, &place, 7), LR_E_ROOM);
    WANT(lr_put_double(room, 16, &place, 7), LR_E_ROOM);
    CHECK(place.next == 16 && (double)single == all[index].value && whole == all[index].value);
  }
  lr_place place = place_of(0, 0, LR_ORDER_BIG), out = place_of(0, 0, LR_ORDER_LITTLE);
  WANT(lr_get_double(quiet, sizeof quiet, &place, &whole), LR_OK);
  WANT(lr_put_double(room, sizeof room, &out, whole), LR_OK);
  for (size_t index = 0; index < 8; index++) CHECK(room[index] == quiet[7 - index]);
}

/* The empty string, and no octets, lent as NULL. */
static void nothing_is_written(void) {
  unsigned char room[ROOM];
  lr_place place = place_of(0, 0, LR_ORDER_BIG);
  WANT(lr_put_string(room, sizeof room, &place, NULL, 0), LR_OK);
  CHECK(place.next == 5 && memcmp(room, "\0\0\0\1\0", 5) == 0);
  WANT(lr_put_octets(room, sizeof room, &place, NULL, 0), LR_OK);
  CHECK(place.next == 12 && memcmp(room + 5, "\0\0\0\0\0\0\0", 7) == 0);
}

/* Places that are none: an order, and a next octet beyond the octets; and no octets at all. */
static void no_places(void) {
  static const lr_place wrong[] = {{0, 0, 2, 0}, {0, 0, 0xffffffff, 0}, {0, 9, 0, 0}, {0, UINT64_MAX, 0, 0}};
  unsigned char room[8] = {0};
  uint64_t start, length;
  int64_t value;
  lr_place inner;
  for (size_t index = 0; index < sizeof wrong / sizeof *wrong; index++) {
    lr_place place = wrong[index];
    for (size_t row = 0; row < sizeof rows / sizeof *rows; row++) {
      if (!WANT(rows[row].get(room, sizeof room, &place, &value), LR_E_RANGE)) printf("%s\n", rows[row].name);
      if (!WANT(rows[row].put(room, sizeof room, &place, rows[row].value), LR_E_RANGE)) printf("%s\n", rows[row].name);
    }
    for (size_t text = 0; text < 2; text++) {
      WANT(get_text(text == 0, room, sizeof room, &place, &start, &length), LR_E_RANGE);
      WANT(put_text_of(text == 0, room, sizeof room, &place, "", 0), LR_E_RANGE);
    }
    WANT(lr_get_encapsulation(room, sizeof room, &place, &start, &length, &inner), LR_E_RANGE);
    CHECK(is_place(place, wrong[index]) && is_all(room, sizeof room, 0));
  }
  for (size_t row = 0; row < sizeof rows / sizeof *rows; row++) {
    lr_place place = place_of(0, 0, LR_ORDER_BIG);
    WANT(rows[row].get(NULL, 0, &place, &value), LR_E_SHORT);
    WANT(rows[row].put(NULL, 0, &place, rows[row].value), LR_E_ROOM);
  }
}

int main(void) {
  numbers();
  strings_and_octets();
  encapsulations();
  no_values();
  reals();
  nothing_is_written();
  no_places();
  return check_end();
}
