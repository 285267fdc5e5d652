/*
 * Plays lists of an owner's deeds on a server of the counter, and prints what was written in each. Its lines, and those
 * that it prints, are those of the program deeds_player (crates/deeds_player/src/lines.rt, requests.rt, printing.rt),
 * but for these, where the header has no such thing, or has more:
 *
 * - `park` that is refused: `unparked`; LR_E_PARKS does not say which places are taken.
 * - `bound N`, `first` and `last` are limits of the server: once a connection was opened each prints `too late`.
 * - There is no `heard` and no `ending`: the header tells neither.
 * - What is told of a parked request is printed by the numbers of the connections, and on each as it is due.
 * - `close` is not refused where somebody waits there for a parked request: it prints how many `waits`, and CloseConnection
 *   is due behind their replies.
 * - `goodbye`: the request that waits is given up, and CloseConnection is due on its connection. Where somebody waits
 *   there for a parked one it is refused: `waits`.
 * - `due N` is how many octets are due on a connection from which on it is fed no more, set before the first one is
 *   opened. After `hold` what is due is left so, up to `flow`, which prints all of it; the connections on which parked
 *   requests are answered meanwhile are `named`.
 * - `restore` offers the counter again, also where requests are parked.
 * - `parked` prints how many requests are parked, and of each connection C/COUNT, where any is; `wanted` prints of each
 *   that is parked NUMBER/COUNT, how many wait for its outcome; `connections` how many there are, and which are closed.
 *
 * Octets are read and written without the library. What is due where no deed says so is printed too.
 */
#include <inttypes.h>
#include <stdlib.h>

#include "check.h"

enum { LINE = 4096, DEEDS = 100, ASKS = 1000, CONNECTIONS = 1000, PIECE = 8192, ROOM = 100, DUE = 65536 };

#define OVERFLOW "IDL:Counter/Overflow:1.0"

/* What stands before a repository id, and behind it. */
static const char standard[] = "IDL:omg.org/CORBA/", version_mark[] = ":1.0";

static lr_server server = LR_INIT;
static char deeds[DEEDS][LINE];
static size_t deed_count;
/* the tickets of what was asked for, in order: their places are the numbers of requests */
static uint64_t tickets[ASKS];
/* .. and by what they are refused: by what would refuse them, else by TRANSIENT */
static uint32_t refusals[ASKS];
static size_t ask_count;
/* the connections that were opened */
static uint64_t connections[CONNECTIONS];
static size_t connection_count;
static uint64_t now;
static bool is_held;
/* how many requests and locates had been handled when the last piece came */
static int64_t handled_before;

/* How a deed ended. */
struct ended {
  const char *why; /* it was not done */
  int64_t taken;   /* so many octets of its piece were taken, where some are left; else -1 */
};

static const struct ended done = {NULL, -1};

/* ---- lines ---- */

static void stop(const char *line) {
  fprintf(stderr, "deeds: no line: %s\n", line);
  exit(1);
}

/* What stands before a mark, or all; `rest` is what stands behind it, or nothing. */
static char *parted(char **rest, char mark) {
  char *begin = *rest, *end = strchr(begin, mark);
  *rest = end == NULL ? begin + strlen(begin) : end + 1;
  if (end != NULL) *end = '\0';
  return begin;
}

static uint64_t number(const char *word) {
  char *end;
  uint64_t value = strtoull(word, &end, 10);
  if (end == word || *end != '\0') stop(word);
  return value;
}

static int64_t signed_number(const char *word) {
  char *end;
  int64_t value = strtoll(word, &end, 10);
  if (end == word || *end != '\0') stop(word);
  return value;
}

/* ---- requests ---- */

struct piece {
  unsigned char all[PIECE];
  size_t size;
};

static void put_piece(struct piece *piece, const void *octets, size_t size) {
  if (size > PIECE - piece->size) stop("a piece is too long");
  memcpy(piece->all + piece->size, octets, size);
  piece->size += size;
}

/* The words CLIENT/NUMBER/EXPIRATION, or `-`. */
static void read_key(struct asking *asking, char *words) {
  if (strcmp(words, "-") == 0) return;
  asking->client = parted(&words, '/');
  asking->retention_id = (int32_t)signed_number(parted(&words, '/'));
  asking->expiration = number(words);
}

static uint32_t version_of(const char *word) {
  if (strcmp(word, "1.0") == 0) return 0;
  if (strcmp(word, "1.2") != 0) stop(word);
  return 2;
}

static void put_request(struct piece *piece, char *words) {
  struct octets message;
  struct asking asking = {0, LR_ORDER_BIG, 0, LR_WISH_FULL, "c", NULL, NULL, 0, 0};
  char *word = parted(&words, ' ');
  if (strcmp(word, "oneway") == 0) {
    asking.wish = LR_WISH_NONE;
    word = parted(&words, ' ');
  }
  asking.request_id = (uint32_t)number(word);
  asking.version = version_of(parted(&words, ' '));
  read_key(&asking, parted(&words, ' '));
  asking.operation = parted(&words, ' ');
  begin_request(&message, &asking, *words != '\0');
  if (*words != '\0') put_number(&message, (uint64_t)signed_number(words), 4);
  end_message(&message);
  put_piece(piece, message.all, message.size);
}

static void put_requests(struct piece *piece, char *words) {
  while (*words != '\0') put_request(piece, parted(&words, ','));
}

static void put_digits(struct piece *piece, const char *digits) {
  for (; digits[0] != '\0' && digits[1] != '\0'; digits += 2) {
    const char pair[] = {digits[0], digits[1], '\0'};
    unsigned char octet = (unsigned char)strtoul(pair, NULL, 16);
    put_piece(piece, &octet, 1);
  }
  if (*digits != '\0') stop(digits);
}

/* ---- messages that are due ---- */

/* Octets of a message from its header on, and where reading stands. What is not there reads as 0, and is odd. */
struct reader {
  const unsigned char *octets;
  size_t size, at;
  bool is_odd, is_little;
};

static const unsigned char *get_octets(struct reader *reader, size_t size) {
  static const unsigned char none[8];
  if (size > reader->size - reader->at) {
    reader->is_odd = true;
    return none;
  }
  reader->at += size;
  return reader->octets + reader->at - size;
}

/* A number of 4 or 8 octets, to which it is aligned. */
static uint64_t get_number(struct reader *reader, size_t width) {
  uint64_t value = 0;
  get_octets(reader, (width - reader->at % width) % width);
  const unsigned char *octets = get_octets(reader, width);
  for (size_t index = 0; index < width; index++)
    value = value << 8 | octets[reader->is_little ? width - 1 - index : index];
  return value;
}

/* A string, with its NUL. */
static const char *get_text(struct reader *reader) {
  size_t size = (size_t)get_number(reader, 4);
  const char *text = (const char *)get_octets(reader, size);
  if (reader->is_odd || size == 0 || memchr(text, '\0', size) != text + size - 1) {
    reader->is_odd = true;
    return "";
  }
  return text;
}

static void print_system(struct reader *reader) {
  static const char *const completions[] = {"YES", "NO", "MAYBE"};
  const char *id = get_text(reader);
  uint64_t minor = get_number(reader, 4), completed = get_number(reader, 4);
  size_t begin = SIZE(standard), end = SIZE(version_mark), size = strlen(id);
  if (size < begin + end || strncmp(id, standard, begin) != 0 || strcmp(id + size - end, version_mark) != 0 ||
      completed > 2) {
    reader->is_odd = true;
    return;
  }
  printf(" %.*s %" PRIu64 " %s", (int)(size - begin - end), id + begin, minor, completions[completed]);
}

/* A Reply without service contexts (CORBA 3.3 Part 2, 9.4.3); its body begins at a place that is divisible by 8. */
static void print_reply(struct reader *reader, bool is_1_2) {
  uint64_t contexts = is_1_2 ? 0 : get_number(reader, 4);
  uint64_t request_id = get_number(reader, 4), status = get_number(reader, 4);
  if (is_1_2) contexts = get_number(reader, 4);
  if (contexts != 0 || status > LR_REPLY_SYSTEM_EXCEPTION) reader->is_odd = true;
  printf(" reply %" PRIu64, request_id);
  if (status == LR_REPLY_NO_EXCEPTION) printf(" %" PRId64, (int64_t)get_number(reader, 8));
  if (status == LR_REPLY_USER_EXCEPTION) printf(" %s", get_text(reader));
  if (status == LR_REPLY_SYSTEM_EXCEPTION) print_system(reader);
}

static void print_located(struct reader *reader) {
  uint64_t request_id = get_number(reader, 4), status = get_number(reader, 4);
  printf(" located %" PRIu64 " %" PRIu64, request_id, status);
}

/* Prints the first message of octets, and answers how many octets it has; 0 where they begin with none. */
static size_t print_message(const unsigned char *octets, size_t size) {
  struct reader reader = {octets, size, 0, false, false};
  bool is_giop = memcmp(get_octets(&reader, 4), "GIOP", 4) == 0;
  const unsigned char *head = get_octets(&reader, 4);
  reader.is_little = head[2] == LR_ORDER_LITTLE;
  uint64_t length = get_number(&reader, 4);
  if (!is_giop || reader.is_odd || head[0] != 1 || head[2] > LR_ORDER_LITTLE || length > size - reader.at) return 0;
  reader.size = reader.at + (size_t)length;
  if (head[3] == LR_MSG_REPLY)
    print_reply(&reader, head[1] == 2);
  else if (head[3] == LR_MSG_LOCATE_REPLY)
    print_located(&reader);
  else if (head[3] == LR_MSG_CLOSE_CONNECTION)
    printf(" close");
  else if (head[3] == LR_MSG_ERROR)
    printf(" error");
  else
    return 0;
  if (reader.is_odd || reader.at != reader.size) printf(" odd");
  return reader.size;
}

/* All that is due on a connection, taken piece by piece. */
static size_t take_due(uint64_t connection, unsigned char *all) {
  size_t size = 0;
  for (;;) {
    if (size > DUE - ROOM) stop("too much is due");
    int64_t moved = lr_server_output(&server, connection, all + size, ROOM);
    if (moved <= 0) return size;
    size += (size_t)moved;
  }
}

/* Prints what is due on a connection: on one line, or on one for each message. */
static void print_due(uint64_t connection, const char *how, bool is_each) {
  static unsigned char all[DUE];
  size_t size = take_due(connection, all), at = 0;
  if (!is_each) printf("%" PRIu64 " %s", connection, how);
  while (at < size) {
    if (is_each) printf("%" PRIu64 " %s", connection, how);
    size_t length = print_message(all + at, size - at);
    if (length == 0) printf(" odd");
    at = length == 0 ? size : at + length;
    if (is_each) printf("\n");
  }
  if (!is_each) printf("\n");
}

/* Prints an entry of what was written; what is due stays so where it is held. */
static void print_entry(uint64_t connection, const char *how) {
  if (is_held)
    printf("%" PRIu64 " %s\n", connection, how);
  else
    print_due(connection, how, false);
}

static int by_number(const void *one, const void *other) {
  uint64_t a = *(const uint64_t *)one, b = *(const uint64_t *)other;
  return (a > b) - (a < b);
}

/* Prints what became due by the outcome of a parked request, on the connections that are named. */
static void print_told(void) {
  uint64_t named[CONNECTIONS];
  size_t count = 0;
  while (count < CONNECTIONS && lr_server_next_due(&server, &named[count]) == 1) count++;
  qsort(named, count, sizeof named[0], by_number);
  for (size_t index = 0; index < count; index++) {
    if (is_held)
      printf("%" PRIu64 " named\n", named[index]);
    else
      print_due(named[index], "done", true);
  }
}

/* Prints all that is due. */
static void print_all_due(const char *how) {
  for (size_t index = 0; index < connection_count; index++) print_due(connections[index], how, true);
}

/* Nothing is named or due after a deed, but for what is held. */
static void print_odd(void) {
  uint64_t named;
  while (lr_server_next_due(&server, &named) == 1) printf("%" PRIu64 " is named\n", named);
  if (!is_held) print_all_due("is due");
}

/* ---- deeds ---- */

/* Why a deed was refused, by what the library answered. */
static struct ended refused(int64_t error) {
  struct ended ended = {lr_error_name(error), -1};
  if (error == LR_E_ASKING) ended.why = "asking";
  return ended;
}

static struct ended refused_by(const char *why) {
  struct ended ended = {why, -1};
  return ended;
}

/* The request that waits, whose ticket is 0 where none does. */
static lr_request waiting(void) {
  lr_request asked;
  memset(&asked, 0, sizeof asked);
  lr_server_asked(&server, &asked, sizeof asked);
  return asked;
}

/* How many requests and locates were handled. */
static int64_t handled(void) {
  static const uint32_t counted[] = {LR_COUNT_REPEATED, LR_COUNT_EXPIRED,    LR_COUNT_MALFORMED, LR_COUNT_INVALID,
                                     LR_COUNT_LOG_FULL, LR_COUNT_SHARE_FULL, LR_COUNT_LOCATED};
  int64_t all = 0;
  for (size_t index = 0; index < sizeof counted / sizeof counted[0]; index++)
    all += lr_server_count(&server, counted[index]);
  return all;
}

static struct ended do_opened(uint64_t connection) {
  int64_t answer = lr_server_connect(&server, connection);
  if (answer != LR_OK && answer != LR_E_CONNECTION) return refused(answer);
  if (answer == LR_OK) {
    if (connection_count == CONNECTIONS) stop("too many connections");
    connections[connection_count++] = connection;
  }
  print_entry(connection, answer == LR_OK ? "done" : "refused");
  return done;
}

static struct ended do_lost(uint64_t connection) {
  int64_t answer = lr_server_lost(&server, connection);
  if (answer != LR_OK) return refused(answer);
  print_entry(connection, "done");
  return done;
}

static struct ended do_close(uint64_t connection) {
  char how[64] = "done";
  int64_t answer = lr_server_farewell(&server, connection);
  if (answer < 0 && answer != LR_E_CONNECTION) return refused(answer);
  if (answer > 0) snprintf(how, sizeof how, "waits %" PRId64, answer);
  print_entry(connection, answer < 0 ? "refused" : how);
  return done;
}

/* Notes the ticket of what was asked for. */
static void note_ask(void) {
  lr_request asked = waiting();
  if (asked.ticket == 0) return;
  if (ask_count == ASKS) stop("too many are asked for");
  refusals[ask_count] = asked.is_refused ? asked.refusal : LR_EX_TRANSIENT;
  tickets[ask_count++] = asked.ticket;
}

static struct ended do_piece(uint64_t connection, uint64_t moment, const struct piece *piece) {
  struct ended ended = done;
  int64_t before = handled();
  int64_t answer = lr_server_feed(&server, connection, moment, piece->all, piece->size);
  if (answer < 0 && answer != LR_E_CONNECTION) return refused(answer);
  if (now < moment) now = moment;
  handled_before = before;
  note_ask();
  print_entry(connection, answer < 0 ? "refused" : "done");
  if (answer >= 0 && (uint64_t)answer < piece->size) ended.taken = answer;
  return ended;
}

/* The words of a piece: C NOW, and what came. */
static struct ended read_piece(const char *name, char *words) {
  struct piece piece = {.size = 0};
  uint64_t connection = number(parted(&words, ' ')), moment = number(parted(&words, ' '));
  if (strcmp(name, "asks") == 0)
    put_requests(&piece, words);
  else
    put_digits(&piece, words);
  return do_piece(connection, moment, &piece);
}

/* Hands in an outcome. A total is written in big order or in little order, and so it goes out. */
static int64_t hand_in(uint64_t ticket, const char *outcome) {
  struct octets results = {.size = 0};
  if (strcmp(outcome, "overflow") == 0)
    return lr_server_raise(&server, ticket, OVERFLOW, SIZE(OVERFLOW), LR_ORDER_BIG, NULL, 0);
  if (strcmp(outcome, "unknown") == 0) return lr_server_system(&server, ticket, LR_EX_UNKNOWN, 0, LR_COMPLETED_MAYBE);
  uint64_t total = (uint64_t)signed_number(outcome);
  results.order = total % 2 == 0 ? LR_ORDER_BIG : LR_ORDER_LITTLE;
  put_number(&results, total, 8);
  return lr_server_answer(&server, ticket, results.order, results.all, results.size);
}

/* Tells an outcome, of which nothing is kept, in the order in which it goes out. */
static int64_t hand_in_unkept(uint64_t ticket, const char *outcome) {
  struct octets body = {.size = 0, .order = LR_ORDER_BIG};
  uint32_t status = LR_REPLY_NO_EXCEPTION;
  if (strcmp(outcome, "overflow") == 0) {
    status = LR_REPLY_USER_EXCEPTION;
    put_text(&body, OVERFLOW);
  } else if (strcmp(outcome, "unknown") == 0) {
    status = LR_REPLY_SYSTEM_EXCEPTION;
    put_text(&body, "IDL:omg.org/CORBA/UNKNOWN:1.0");
    put_number(&body, 0, 4);
    put_number(&body, LR_COMPLETED_MAYBE, 4);
  } else {
    uint64_t total = (uint64_t)signed_number(outcome);
    body.order = total % 2 == 0 ? LR_ORDER_BIG : LR_ORDER_LITTLE;
    put_number(&body, total, 8);
  }
  return lr_server_answer_unkept(&server, ticket, status, body.order, body.all, body.size);
}

/* Refuses what was asked for, by what would refuse it, else by TRANSIENT. */
static int64_t refuse(uint64_t ticket, const char *outcome) {
  (void)outcome;
  uint32_t name = LR_EX_TRANSIENT;
  for (size_t index = 0; index < ask_count; index++)
    if (tickets[index] == ticket) name = refusals[index];
  return lr_server_refuse(&server, ticket, name, 0);
}

static struct ended do_answer(const char *outcome, bool is_kept) {
  lr_request asked = waiting();
  int64_t answer = is_kept ? hand_in(asked.ticket, outcome) : hand_in_unkept(asked.ticket, outcome);
  if (asked.ticket == 0 && answer == LR_E_TICKET) return refused_by("nothing asked");
  if (answer == LR_E_OUTCOME) return refused_by("not fit");
  if (answer != LR_OK) return refused(answer);
  print_entry(asked.connection, "done");
  return done;
}

static struct ended do_decline(void) {
  lr_request asked = waiting();
  int64_t answer = refuse(asked.ticket, NULL);
  if (asked.ticket == 0 && answer == LR_E_TICKET) return refused_by("nothing asked");
  if (answer != LR_OK) return refused(answer);
  print_entry(asked.connection, "done");
  return done;
}

static struct ended do_park(void) {
  int64_t answer = lr_server_park(&server, waiting().ticket);
  if (answer == LR_E_IDLE) return refused_by("nothing asked");
  if (answer == LR_E_PARKS) return refused_by("unparked");
  return answer == LR_OK ? done : refused(answer);
}

/* The request that waits is given up. */
static struct ended do_give_up(bool is_goodbye) {
  char how[64];
  lr_request asked = waiting();
  int64_t answer = is_goodbye ? lr_server_goodbye(&server, asked.ticket) : lr_server_give_up(&server, asked.ticket);
  if (answer == LR_E_IDLE) return refused_by("nothing asked");
  if (answer == LR_E_PARKS) return refused_by("waits");
  if (answer != LR_OK) return refused(answer);
  long long count = (long long)(handled() - handled_before);
  snprintf(how, sizeof how, "lost %lld %lld", count, count);
  print_entry(asked.connection, how);
  return done;
}

/* A parked request is answered, kept or not, or refused. What waits is none: that is not tried. It is one
 * refusal where nothing is parked under a number, and where the outcome is not fit: the error must be the one of these
 * that it is. */
static struct ended do_late(uint64_t asked, int64_t (*tell)(uint64_t, const char *), const char *outcome) {
  uint64_t ticket = asked < ask_count ? tickets[asked] : 0;
  if (ticket != 0 && waiting().ticket == ticket) return refused_by("asking");
  bool is_parked = lr_server_part(&server, ticket, LR_PART_OPERATION, NULL, 0) > 0;
  int64_t answer = tell(ticket, outcome);
  if (answer == (is_parked ? LR_E_OUTCOME : LR_E_TICKET)) return refused_by("not parked");
  if (answer != LR_OK) return refused(answer);
  print_told();
  return done;
}

static struct ended do_deed(char *words) {
  const char *name = parted(&words, ' ');
  if (strcmp(name, "asks") == 0 || strcmp(name, "piece") == 0) return read_piece(name, words);
  if (strcmp(name, "opened") == 0) return do_opened(number(words));
  if (strcmp(name, "close") == 0) return do_close(number(words));
  if (strcmp(name, "lost") == 0) return do_lost(number(words));
  if (strcmp(name, "answer") == 0) return do_answer(words, true);
  if (strcmp(name, "tell") == 0) return do_answer(words, false);
  if (strcmp(name, "decline") == 0 || (strcmp(name, "refuse") == 0 && *words == '\0')) return do_decline();
  if (strcmp(name, "park") == 0) return do_park();
  if (strcmp(name, "give_up") == 0) return do_give_up(false);
  if (strcmp(name, "goodbye") == 0) return do_give_up(true);
  uint64_t asked = number(parted(&words, ' '));
  if (strcmp(name, "settle") == 0) return do_late(asked, hand_in, words);
  if (strcmp(name, "tell_parked") == 0) return do_late(asked, hand_in_unkept, words);
  if (strcmp(name, "withdraw") != 0 && strcmp(name, "refuse") != 0) stop(name);
  return do_late(asked, refuse, words);
}

/* Plays the deeds since the last play, up to one that is not done or leaves octets. */
static void play(void) {
  size_t count = deed_count;
  deed_count = 0;
  for (size_t index = 0; index < count; index++) {
    struct ended ended = do_deed(deeds[index]);
    print_odd();
    if (ended.why != NULL) {
      printf("refused %zu %s\n", index, ended.why);
      return;
    }
    if (ended.taken >= 0) {
      printf("left %zu %" PRId64 "\n", index + 1, ended.taken);
      return;
    }
  }
  printf("done\n");
}

/* ---- a server, and what is seen of it ---- */

static void must(int64_t answer) {
  if (answer < 0) stop(lr_error_name(answer));
}

/* A catalogue of the counter, or of nothing. */
static void open_catalogue(lr_catalogue *catalogue, bool is_hidden) {
  static const uint8_t one_long[] = {LR_TYPE_LONG}, total[] = {LR_TYPE_LONGLONG};
  must(lr_catalogue_open(catalogue));
  if (is_hidden) return;
  must(lr_catalogue_object(catalogue, "c", 1));
  must(lr_catalogue_exception(catalogue, OVERFLOW, SIZE(OVERFLOW), NULL, 0));
  must(lr_catalogue_operation(catalogue, "c", 1, "add", 3, one_long, 1, total, 1));
  must(lr_catalogue_operation(catalogue, "c", 1, "get", 3, NULL, 0, total, 1));
}

/* The words PARKED OF_ONE JOINED CAPACITY SHARE. */
static void open_server(char *words) {
  static const uint32_t limits[] = {LR_SET_PARKED, LR_SET_PARKED_OF, LR_SET_JOINED, LR_SET_CAPACITY, LR_SET_SHARE};
  lr_catalogue catalogue = LR_INIT;
  lr_server_close(&server);
  open_catalogue(&catalogue, false);
  must(lr_server_open(&server, &catalogue, 1, 2));
  for (size_t index = 0; index < sizeof limits / sizeof limits[0]; index++)
    must(lr_server_set(&server, limits[index], number(parted(&words, ' '))));
  deed_count = ask_count = connection_count = 0;
  now = 0;
  is_held = false;
}

/* Exchanges what is on offer, by the counter or by nothing. */
static void offer(bool is_hidden) {
  lr_catalogue catalogue = LR_INIT;
  open_catalogue(&catalogue, is_hidden);
  int64_t answer = lr_server_swap(&server, &catalogue);
  if (answer == LR_E_ASKING)
    printf("asking\n");
  else
    must(answer);
  lr_catalogue_close(&catalogue);
}

/* .. unless requests are parked; one that waits comes first. */
static void offer_unwanted(bool is_hidden) {
  if (waiting().ticket == 0 && lr_server_parked(&server) > 0)
    printf("wanted\n");
  else
    offer(is_hidden);
}

static void set_limit(uint32_t what, uint64_t value) {
  int64_t answer = lr_server_set(&server, what, value);
  if (answer == LR_E_OPEN)
    printf("too late\n");
  else
    must(answer);
}

static void tick(uint64_t moment) {
  uint64_t least;
  int64_t answer = lr_server_tick(&server, moment);
  if (answer == LR_E_ASKING) {
    printf("asking\n");
    return;
  }
  must(answer);
  if (now < moment) now = moment;
  printf("at %" PRIu64 " keeps %" PRId64 ", %" PRId64 " of A", now, lr_server_count(&server, LR_COUNT_KEPT),
         lr_server_held_by(&server, "A", 1));
  if (lr_server_next_expiry(&server, &least) == 1) printf(", till %" PRIu64, least);
  printf("\n");
}

static void print_counts(void) {
  static const char *const names[] = {"asked",    "repeated",   "joined",   "expired",  "malformed", "invalid",
                                      "log_full", "share_full", "located",  "dropped",  "answered",  "parked",
                                      "settled",  "given_up",   "declined", "withdrawn"};
  printf("counts");
  for (uint32_t what = LR_COUNT_ASKED; what <= LR_COUNT_WITHDRAWN; what++) {
    int64_t count = lr_server_count(&server, what);
    if (count != 0) printf(" %s %" PRId64, names[what - LR_COUNT_ASKED], count);
  }
  printf("\n");
}

static void print_parked(void) {
  int64_t parked = lr_server_parked(&server), counted = lr_server_count(&server, LR_COUNT_PARKED_NOW);
  printf("parked %" PRId64, parked);
  if (counted != parked) printf(" but %" PRId64 " are counted", counted);
  for (size_t index = 0; index < connection_count; index++) {
    int64_t count = lr_server_parked_of(&server, connections[index]);
    if (count != 0) printf(" %" PRIu64 "/%" PRId64, connections[index], count);
  }
  printf("\n");
}

static void print_wanted(void) {
  printf("wanted");
  for (size_t asked = 0; asked < ask_count; asked++) {
    int64_t count = lr_server_wanted(&server, tickets[asked]);
    if (count != LR_E_TICKET) printf(" %zu/%" PRId64, asked, count);
  }
  printf("\n");
}

/* How many connections there are, and which of those that were opened are closed. */
static void print_connections(void) {
  printf("connections %" PRId64, lr_server_count(&server, LR_COUNT_CONNECTIONS));
  for (size_t index = 0; index < connection_count; index++)
    if (lr_server_is_closed(&server, connections[index]) != 0) printf(" %" PRIu64, connections[index]);
  printf("\n");
}

static void note_deed(const char *line) {
  if (deed_count == DEEDS) stop("too many deeds");
  memcpy(deeds[deed_count++], line, strlen(line) + 1);
}

/* Whether a line changes what is on offer. */
static bool is_offer(const char *name) {
  bool is_hidden = strcmp(name, "hide") == 0 || strcmp(name, "drop") == 0;
  if (strcmp(name, "hide") == 0 || strcmp(name, "show") == 0) {
    offer_unwanted(is_hidden);
    return true;
  }
  if (!is_hidden && strcmp(name, "restore") != 0) return false;
  offer(is_hidden);
  return true;
}

/* Whether a line says whether what is due is held. */
static bool is_hold(const char *name) {
  if (strcmp(name, "hold") != 0 && strcmp(name, "flow") != 0) return false;
  is_held = name[0] == 'h';
  if (!is_held) print_all_due("due");
  return true;
}

/* Whether a line asks what a server has. */
static bool is_question(const char *name) {
  static const struct {
    const char *name;
    void (*print)(void);
  } questions[] = {
      {"counts", print_counts}, {"parked", print_parked}, {"wanted", print_wanted}, {"connections", print_connections}};
  for (size_t index = 0; index < sizeof questions / sizeof questions[0]; index++) {
    if (strcmp(name, questions[index].name) != 0) continue;
    questions[index].print();
    return true;
  }
  return false;
}

/* Takes a line. */
static void take_line(char *line) {
  char copy[LINE], *words = copy;
  memcpy(copy, line, strlen(line) + 1);
  const char *name = parted(&words, ' ');
  if (line[0] == '\0' || line[0] == '#')
    printf("%s\n", line);
  else if (strcmp(name, "engine") == 0)
    open_server(words);
  else if (strcmp(name, "play") == 0)
    play();
  else if (strcmp(name, "bound") == 0)
    set_limit(LR_SET_CLIENT_ID, number(words));
  else if (strcmp(name, "first") == 0 || strcmp(name, "last") == 0)
    set_limit(LR_SET_ASK_FIRST, name[0] == 'f');
  else if (strcmp(name, "due") == 0)
    set_limit(LR_SET_DUE, number(words));
  else if (strcmp(name, "tick") == 0)
    tick(number(words));
  else if (!is_offer(name) && !is_hold(name) && !is_question(name))
    note_deed(line);
}

int main(void) {
  static char line[LINE];
  while (fgets(line, sizeof line, stdin) != NULL) {
    char *end = strchr(line, '\n');
    if (end == NULL) stop("a line is too long");
    *end = '\0';
    take_line(line);
  }
  lr_server_close(&server);
  return 0;
}
