/*
 * lemonrudder.h: GIOP 1.0, 1.1 and 1.2 over IIOP (OMG CORBA 3.3 Part 2, clause 9) and the FT_REQUEST service context
 * of Fault Tolerant CORBA, as a library of proved functions. C99 or later, C++11 or later.
 *
 * The library opens no socket, reads no clock, starts no thread and calls nobody back. It takes octets and moments,
 * and gives octets and what is to be done. Nothing in it is global but the heap (lr_set_heap), and no call ends the
 * process.
 *
 * Slots.  An object lives in a slot of yours: lr_server, lr_client and so on, whose members are not yours. All
 * zero is an empty slot, so that `lr_server s = LR_INIT;` is right. lr_close empties a slot and frees what it held;
 * on an empty one it does nothing, so closing twice is harmless. A slot may be moved in memory between calls, if the
 * old place is not used again. Two calls at once must not use one slot; different slots may be used by different
 * threads.
 *
 * Octets.  A pointer and a size lend octets for the time of the call; the library keeps none of your pointers. A size
 * of 0 lends none, and the pointer may then be NULL; a pointer to a slot, or to a result, is never NULL. What is
 * written into room of yours is written from its first octet on. What a call writes to, room, a slot or a result,
 * overlaps nothing else that it is given.
 *
 * Results.  Each function answers an int64_t: 0 or more, a count where the function says so and else LR_OK, which is
 * 0; below 0, an error LR_E_.., and then nothing has changed, unless the function says otherwise. lr_strerror gives
 * its text. Where a function fills a struct, `size` is that of yours, as `sizeof *request`: the front of the struct is
 * filled, as much of it as there is, and what yours has after all that the library knows becomes 0. So a struct may
 * grow at its end: a program works with the library of a header that is older or newer than its own.
 *
 * Numbers.  Connections are your numbers. A moment counts 100 ns since 15 October 1582, 00:00 UTC, as an expiration
 * of FT_REQUEST does; lr_moment makes one of seconds and nanoseconds since 1970. A version is its minor number: 0, 1
 * or 2.
 */
#ifndef LEMONRUDDER_H
#define LEMONRUDDER_H

#include <stddef.h>
#include <stdint.h>
#include <string.h>

#ifdef __cplusplus
extern "C" {
#endif

/* Stands before each function that the library has: empty, or what you define before, an attribute say. */
#ifndef LR_API
#define LR_API
#endif

/* The version of this header: major, minor and patch, and all three as one number, which #if can compare. */
#define LR_VERSION_MAJOR 0
#define LR_VERSION_MINOR 2
#define LR_VERSION_PATCH 0
#define LR_VERSION_NUMBER (LR_VERSION_MAJOR * 65536 + LR_VERSION_MINOR * 256 + LR_VERSION_PATCH)

/* The version of the library that is linked, as LR_VERSION_NUMBER is. It serves this header where it is not less, and
 * of the same series: it has the same major number, and before 1.0 the same minor number. */
LR_API uint32_t lr_version(void);

/* ---- slots ---- */

/* Each kind is a type of its own, so that a compiler tells them apart; all are laid out alike. */
typedef struct { uint32_t kind; void *at; } lr_catalogue; /* which objects and operations a server has */
typedef struct { uint32_t kind; void *at; } lr_server;    /* a server of requests that may be sent again */
typedef struct { uint32_t kind; void *at; } lr_client;    /* a client that sends its calls again */
typedef struct { uint32_t kind; void *at; } lr_assembler; /* the messages of a stream */
typedef struct { uint32_t kind; void *at; } lr_ior;       /* a reference to an object */

#define LR_INIT {0, NULL}

/* Empties a slot of any kind. */
LR_API void lr_close(void *slot);

/* The same, of one kind: a compiler refuses a pointer to anything else. */
static inline void lr_catalogue_close(lr_catalogue *catalogue) { lr_close(catalogue); }
static inline void lr_server_close(lr_server *server) { lr_close(server); }
static inline void lr_client_close(lr_client *client) { lr_close(client); }
static inline void lr_assembler_close(lr_assembler *assembler) { lr_close(assembler); }
static inline void lr_ior_close(lr_ior *ior) { lr_close(ior); }

/* ---- errors ---- */

/* What a function answers where it fails. */
enum {
  LR_OK = 0,
  LR_E_EMPTY = -1,      /* the slot is empty, or holds an object of another kind */
  LR_E_OPEN = -2,       /* the slot holds an object already, or it is too late for this */
  LR_E_MEMORY = -3,     /* an allocation failed, and nothing has changed */
  LR_E_RANGE = -4,      /* a number is none of those that are allowed */
  LR_E_CONNECTION = -5, /* there is no such connection, or the number of a new one is not greater than each before */
  LR_E_ASKING = -6,     /* a request waits for its outcome */
  LR_E_IDLE = -7,       /* no request waits */
  LR_E_PARKS = -8,      /* as many requests are parked as may be, or somebody waits there for one that is */
  LR_E_OUTCOME = -9,    /* no outcome of the operation, or one that can't be sent */
  LR_E_ROOM = -10,      /* the room is too small */
  LR_E_SHORT = -11,     /* octets are missing at the end */
  LR_E_VALUE = -12,     /* the octets are no value of the type */
  LR_E_TYPES = -13,     /* the codes spell no valid types */
  LR_E_TEXT = -14,      /* a NUL where none may be, or a name of a length that is not allowed */
  LR_E_TAKEN = -15,     /* there is an object or operation of that name, or a call of that number or a greater one */
  LR_E_OBJECT = -16,    /* there is no object of that key */
  LR_E_RAW = -17,       /* every operation of the object is raw */
  LR_E_REFERENCE = -18, /* no stringified reference */
  LR_E_STREAM = -19,    /* the stream has a fault, and is at its end */
  LR_E_NONE = -20,      /* there is no such part */
  LR_E_EXPIRED = -21,   /* the moment is past the expiration */
  LR_E_CALLS = -22,     /* as many calls are pending as a client keeps, or it has given all its numbers */
  LR_E_LONG = -23,      /* the message would be longer than its size can say */
  LR_E_LOST = -24,      /* an allocation failed, and the connection is gone */
  LR_E_PLACE = -25,     /* the body would stand at a place that is not divisible by 8 */
  LR_E_TICKET = -26,    /* no request of that ticket waits or is parked */
  LR_E_FORWARD = -27    /* no pending call of that number is led elsewhere */
};

/* The text of an error, with a NUL at its end; that of LR_OK, where the number is 0 or more. */
LR_API const char *lr_strerror(int64_t error);

/* The name of an error, with a NUL at its end: "LR_E_RANGE". "LR_OK", where the number is 0 or more; "LR_E_UNKNOWN",
 * where this library has no such error. */
LR_API const char *lr_error_name(int64_t error);

/* ---- names of numbers ---- */

/* The order of the octets of a number. */
enum { LR_ORDER_BIG = 0, LR_ORDER_LITTLE = 1 };

/* Which reply a request asks for: none, one without results, or a whole one. */
enum { LR_WISH_NONE = 0, LR_WISH_EMPTY = 1, LR_WISH_FULL = 2 };

/* The status of a Reply (CORBA 3.3 Part 2, 9.4.3.1). */
enum {
  LR_REPLY_NO_EXCEPTION = 0,
  LR_REPLY_USER_EXCEPTION = 1,
  LR_REPLY_SYSTEM_EXCEPTION = 2,
  LR_REPLY_LOCATION_FORWARD = 3,
  LR_REPLY_LOCATION_FORWARD_PERM = 4,
  LR_REPLY_NEEDS_ADDRESSING_MODE = 5
};

/* The status of a LocateReply (CORBA 3.3 Part 2, 9.4.6.1). */
enum {
  LR_LOCATE_UNKNOWN_OBJECT = 0,
  LR_LOCATE_OBJECT_HERE = 1,
  LR_LOCATE_OBJECT_FORWARD = 2,
  LR_LOCATE_OBJECT_FORWARD_PERM = 3,
  LR_LOCATE_SYSTEM_EXCEPTION = 4,
  LR_LOCATE_NEEDS_ADDRESSING_MODE = 5
};

/* The system exceptions (CORBA 3.3 Part 2, A.5). */
enum {
  LR_EX_MARSHAL = 0,
  LR_EX_BAD_CONTEXT = 1,
  LR_EX_NO_RESOURCES = 2,
  LR_EX_BAD_OPERATION = 3,
  LR_EX_OBJECT_NOT_EXIST = 4,
  LR_EX_UNKNOWN = 5,
  LR_EX_BAD_PARAM = 6,
  LR_EX_NO_PERMISSION = 7,
  LR_EX_IMP_LIMIT = 8,
  LR_EX_INTERNAL = 9,
  LR_EX_TRANSIENT = 10,
  LR_EX_NO_MEMORY = 11,
  LR_EX_COMM_FAILURE = 12,
  LR_EX_INV_OBJREF = 13,
  LR_EX_INITIALIZE = 14,
  LR_EX_NO_IMPLEMENT = 15,
  LR_EX_BAD_TYPECODE = 16,
  LR_EX_NO_RESPONSE = 17,
  LR_EX_PERSIST_STORE = 18,
  LR_EX_BAD_INV_ORDER = 19,
  LR_EX_FREE_MEM = 20,
  LR_EX_INV_IDENT = 21,
  LR_EX_INV_FLAG = 22,
  LR_EX_INTF_REPOS = 23,
  LR_EX_OBJ_ADAPTER = 24,
  LR_EX_DATA_CONVERSION = 25,
  LR_EX_TRANSACTION_REQUIRED = 26,
  LR_EX_TRANSACTION_ROLLEDBACK = 27,
  LR_EX_INVALID_TRANSACTION = 28,
  LR_EX_INV_POLICY = 29,
  LR_EX_CODESET_INCOMPATIBLE = 30,
  LR_EX_REBIND = 31,
  LR_EX_TIMEOUT = 32,
  LR_EX_TRANSACTION_UNAVAILABLE = 33,
  LR_EX_TRANSACTION_MODE = 34,
  LR_EX_BAD_QOS = 35,
  LR_EX_INVALID_ACTIVITY = 36,
  LR_EX_ACTIVITY_COMPLETED = 37,
  LR_EX_ACTIVITY_REQUIRED = 38,
  LR_EX_THREAD_CANCELLED = 39
};

/* Whether an operation was completed before its exception. */
enum { LR_COMPLETED_YES = 0, LR_COMPLETED_NO = 1, LR_COMPLETED_MAYBE = 2 };

/* Parts that are copied out, by the functions .._part. */
enum {
  LR_PART_KEY = 0,       /* the object key */
  LR_PART_OPERATION = 1, /* the name of the operation */
  LR_PART_BODY = 2,      /* the arguments, or the body of a reply */
  LR_PART_CLIENT = 3,    /* the client id of FT_REQUEST */
  LR_PART_PAYLOAD = 4    /* what a Fragment carries */
};

/* The ids of some service contexts (CORBA 3.3 Part 2, 7.7.1): of a transaction, of code sets, of FT_REQUEST, and of the
 * security attributes of a request. */
enum { LR_CONTEXT_TRANSACTION = 0, LR_CONTEXT_CODE_SETS = 1, LR_CONTEXT_FT_REQUEST = 13, LR_CONTEXT_SECURITY = 15 };

/*
 * Types, as octets.  Each code stands for a type; a code of several parts takes the types before it. So a string, and
 * then a sequence of longs, are {LR_TYPE_STRING, LR_TYPE_LONG, LR_TYPE_SEQUENCE}, and a struct of these two members
 * {LR_TYPE_STRING, LR_TYPE_LONG, LR_TYPE_SEQUENCE, LR_TYPE_STRUCT, 2}. Strings and sequences have no bounds. A sequence
 * of octets is LR_TYPE_OCTETS. A float has the octets of an unsigned long, and a double those of an unsigned long long
 * (CORBA 3.3 Part 2, 9.3.1.3), so they have their codes. What has no code, as a union, can be had by raw operations.
 */
enum {
  LR_TYPE_BOOLEAN = 1,
  LR_TYPE_CHAR = 2,
  LR_TYPE_OCTET = 3,
  LR_TYPE_SHORT = 4,
  LR_TYPE_USHORT = 5,
  LR_TYPE_LONG = 6,
  LR_TYPE_ULONG = 7,
  LR_TYPE_LONGLONG = 8,
  LR_TYPE_ULONGLONG = 9,
  LR_TYPE_STRING = 10,
  LR_TYPE_OCTETS = 11,
  LR_TYPE_SEQUENCE = 12, /* of the type before it */
  LR_TYPE_ENUM = 13,     /* of so many names as the next octet says, 1 to 255 */
  LR_TYPE_STRUCT = 14,   /* of so many types before it as the next octet says, 1 to 255 */
  LR_TYPE_FLOAT = LR_TYPE_ULONG,
  LR_TYPE_DOUBLE = LR_TYPE_ULONGLONG
};

/* A string literal as octets: a pointer and a size, two arguments of a call. */
#define LR_TEXT(literal) ("" literal), (sizeof("" literal) - 1)

/* How much greater the moment of a second later is. */
#define LR_SECOND UINT64_C(10000000)

/* A moment, of seconds and nanoseconds since 1970-01-01 00:00 UTC. The greatest, where it lies beyond. */
LR_API uint64_t lr_moment(uint64_t seconds, uint32_t nanoseconds);

/* ---- which objects a server has ---- */

/* Opens a catalogue without objects. LR_E_OPEN, LR_E_MEMORY. */
LR_API int64_t lr_catalogue_open(lr_catalogue *catalogue);

/* Adds an object without operations. LR_E_EMPTY, LR_E_TAKEN, LR_E_MEMORY. */
LR_API int64_t lr_catalogue_object(lr_catalogue *catalogue, const void *key, size_t key_size);

/* Adds an object whose every operation is raw. LR_E_EMPTY, LR_E_TAKEN, LR_E_MEMORY. */
LR_API int64_t lr_catalogue_raw_object(lr_catalogue *catalogue, const void *key, size_t key_size);

/* Declares an exception of the operation that lr_catalogue_operation adds next: its repository id, and the types of
 * its members. Operations that are raw, and repository ids, leave it for that one.
 * LR_E_EMPTY, LR_E_TYPES, LR_E_MEMORY. */
LR_API int64_t lr_catalogue_exception(lr_catalogue *catalogue, const void *id, size_t id_size,
                                      const uint8_t *members, size_t members_size);

/* Adds an operation: the types of its arguments (the in and inout parameters in order), and of its results (the return
 * value, and then the inout and out parameters in order). It raises the exceptions that were declared since the last
 * one was added; where it is refused, for memory too, these are forgotten.
 * LR_E_EMPTY, LR_E_TYPES, LR_E_TEXT, LR_E_OBJECT, LR_E_RAW, LR_E_TAKEN, LR_E_MEMORY. */
LR_API int64_t lr_catalogue_operation(lr_catalogue *catalogue, const void *key, size_t key_size,
                                      const void *name, size_t name_size,
                                      const uint8_t *arguments, size_t arguments_size,
                                      const uint8_t *results, size_t results_size);

/* Adds an operation that is raw: you read its arguments, and write the bodies of its replies.
 * LR_E_EMPTY, LR_E_TEXT, LR_E_OBJECT, LR_E_RAW, LR_E_TAKEN, LR_E_MEMORY. */
LR_API int64_t lr_catalogue_raw_operation(lr_catalogue *catalogue, const void *key, size_t key_size,
                                          const void *name, size_t name_size);

/* Names the repository ids of an object, with a NUL after each: "IDL:Bank:1.0" has one, with the NUL that ends it.
 * The object has the operations _is_a and _non_existent then, as a checked narrow of an ORB asks for (CORBA 3.3 Part
 * 1, 8.3); lr_server_identify answers them. Unlike that of all other texts here, the size counts the NUL.
 * LR_E_EMPTY, LR_E_TEXT (the last octet is no NUL), LR_E_OBJECT, LR_E_RAW, LR_E_TAKEN, LR_E_MEMORY. */
LR_API int64_t lr_catalogue_repository_ids(lr_catalogue *catalogue, const void *key, size_t key_size,
                                           const void *ids, size_t ids_size);

/* Takes the objects of `families`, which has none afterwards. Each key that is no object's own, and begins with the key
 * of one of these, leads to that object: to the one of the longest such key. So one object stands for many, as for
 * each account; LR_PART_KEY says for which. Exceptions that were declared in `families` for an operation to come are
 * forgotten. LR_E_EMPTY, LR_E_TAKEN (one of the two has families already, or a default object). */
LR_API int64_t lr_catalogue_families(lr_catalogue *catalogue, lr_catalogue *families);

/* Adds an object whose every operation is raw, to which each key leads that leads to no other object: the family of the
 * empty key. So it comes after lr_catalogue_families.
 * LR_E_EMPTY, LR_E_TAKEN (it was called before, or a family has the empty key), LR_E_MEMORY. */
LR_API int64_t lr_catalogue_default(lr_catalogue *catalogue);

/* Takes an object away, with its operations. LR_E_EMPTY, LR_E_OBJECT. */
LR_API int64_t lr_catalogue_remove(lr_catalogue *catalogue, const void *key, size_t key_size);

/* ---- a server of requests that may be sent again ---- */

/*
 * Octets that come on connections go in by lr_server_feed, up to a request that is to be performed. lr_server_asked
 * says what it asks for; you perform it, and hand in what came of it by lr_server_answer or one of its like, which
 * keeps it for repeats and makes the reply. Octets that are due go out by lr_server_output after each call. The first
 * of these that holds decides what a request is answered: FT_REQUEST not valid, expired, repeated (by what was kept),
 * its client's id too long, nothing of that name, arguments not valid, no room. Else it comes to you.
 *
 * One request waits at a time. While it does, lr_server_feed, lr_server_connect, lr_server_lost, lr_server_farewell,
 * lr_server_tick and lr_server_swap answer LR_E_ASKING. What takes its time is parked by lr_server_park: it waits no
 * more, others are fed, and once its outcome is there it is answered as one that waits, by its ticket. Parked requests
 * are answered in any order. A repeat of one joins those who wait for its outcome; where so many wait already as
 * LR_SET_JOINED says, it is answered TRANSIENT and LR_COMPLETED_MAYBE. The replies become due on each connection where
 * somebody waits for them: lr_server_next_due names these. A parked request whose connection is lost, whose expiration
 * passes, or that is cancelled is answered all the same.
 *
 * Each call that answers a request, parks it or gives it up takes its ticket, which a server gives to no other request:
 * so an outcome that comes late is not taken for that of another. Such a call answers the first of these that holds:
 * LR_E_EMPTY, LR_E_RANGE, LR_E_TICKET (no request of that ticket waits or is parked), LR_E_ASKING (it is parked, and
 * another one waits), and then what else its comment names; but for LR_E_LOST it waits or is parked still, and nothing
 * has changed. Those of a request that waits alone (lr_server_park, lr_server_give_up, lr_server_goodbye) answer
 * LR_E_IDLE where none does, and LR_E_TICKET where another one does.
 */

/* Opens a server of the objects of a catalogue, which is empty afterwards. The seeds are random numbers of yours, which
 * no client can guess. LR_E_OPEN, LR_E_EMPTY (the catalogue), LR_E_MEMORY; the catalogue is as it was then. */
LR_API int64_t lr_server_open(lr_server *server, lr_catalogue *catalogue, uint64_t seed_low, uint64_t seed_high);

/* What lr_server_set sets, and what it is where nothing is set. */
enum {
  LR_SET_MESSAGE = 1,    /* octets of a message at most, 4096 to 16777216: 1048576 */
  LR_SET_PARTIALS = 2,   /* messages of a connection that may be partial at a time, 1 to 16: 4 */
  LR_SET_CAPACITY = 3,   /* outcomes that are kept for repeats at most: 65536 */
  LR_SET_SHARE = 4,      /* .. of each client: 4294967295, so all of the capacity */
  LR_SET_PARKED = 5,     /* requests that may be parked at a time: 1024 */
  LR_SET_PARKED_OF = 6,  /* .. of those that came on one connection: 64 */
  LR_SET_JOINED = 7,     /* who may wait for the outcome of a parked one, beside the last who came: 8 */
  LR_SET_DUE = 8,        /* octets due on a connection, 1 or more, from which on it is fed no more: 1048576 */
  LR_SET_CLIENT_ID = 9,  /* octets of a client's id at most; who has a longer one is answered BAD_CONTEXT: 256 */
  LR_SET_ASK_FIRST = 10, /* 1 where you are asked before a request with FT_REQUEST is refused: 0 */
  LR_SET_CUTS = 11       /* where a message of 1.1 may be cut, one of LR_CUTS_..: 0 */
};

/* Sets a limit of a server of which no connection was opened: a number of the range above; where none is given, of 32
 * bits, and of LR_SET_DUE and LR_SET_CLIENT_ID of 64. With LR_SET_ASK_FIRST a request with FT_REQUEST that would be
 * refused for its object, its operation or its arguments is asked of you all the same, unless it has expired, its
 * client's id is too long, or its outcome is kept: so you may answer by what a store of yours has of it, and else
 * lr_server_refuse it as it would have been. The first of these that holds: LR_E_EMPTY, LR_E_RANGE, LR_E_OPEN
 * (a connection was opened). It takes no memory. */
LR_API int64_t lr_server_set(lr_server *server, uint32_t what, uint64_t value);

/* Opens a connection, whose number is greater than each before.
 * LR_E_EMPTY, LR_E_ASKING, LR_E_CONNECTION, LR_E_MEMORY. */
LR_API int64_t lr_server_connect(lr_server *server, uint64_t connection);

/* Forgets a connection that is gone, if there is one, the octets that are due on it, and who waits there for an
 * outcome. LR_E_EMPTY, LR_E_ASKING. */
LR_API int64_t lr_server_lost(lr_server *server, uint64_t connection);

/* Says goodbye: CloseConnection is due (CORBA 3.3 Part 2, 9.4.7), unless the connection's stream has ended, and 0 is
 * answered. A client that gets it knows that what was not answered was not performed: so where some wait there for the
 * outcome of a parked request it answers how many, and CloseConnection is due behind the last of their replies. What
 * comes on the connection from now on has no meaning. LR_E_EMPTY, LR_E_ASKING, LR_E_CONNECTION, LR_E_LOST. */
LR_API int64_t lr_server_farewell(lr_server *server, uint64_t connection);

/* 1 where the connection was never opened, is gone, has ended or CloseConnection was said, so that its socket is to be
 * closed once what is due is sent; else 0. LR_E_EMPTY. */
LR_API int64_t lr_server_is_closed(lr_server *server, uint64_t connection);

/* Why a connection has ended, until it is lost: LR_WHY_.., or LR_FAULT_.. where its stream has a fault; LR_WHY_OPEN
 * where it goes on. LR_E_EMPTY, LR_E_CONNECTION (it was never opened, or is lost). */
enum {
  LR_WHY_OPEN = 0,
  LR_WHY_DIRECTION = 32, /* a message came that only a server sends */
  LR_WHY_GOODBYE = 33,   /* the peer sent CloseConnection */
  LR_WHY_ERROR = 34,     /* the peer sent MessageError */
  LR_WHY_FAREWELL = 35,  /* CloseConnection was said */
  LR_WHY_GIVEN_UP = 36,  /* a request that came on it was given up */
  LR_WHY_MEMORY = 37     /* memory was short */
};
LR_API int64_t lr_server_why(lr_server *server, uint64_t connection);

/* Takes octets of a connection that came at a moment, and answers how many it took: all of them; those up to a request
 * that waits for its outcome, or to a repeat of one that is parked; or, where LR_SET_DUE octets are due on it, those up
 * to the answer with which they are, and none while they are. Feed the rest at the same moment, once what waits is
 * answered, and less is due. Of a connection that has ended, or was said goodbye to, it takes all then: they mean
 * nothing. LR_E_EMPTY, LR_E_ASKING, LR_E_CONNECTION (nothing is taken, but the clock has moved to the moment), and
 * LR_E_LOST, where what was answered before is due. */
LR_API int64_t lr_server_feed(lr_server *server, uint64_t connection, uint64_t moment, const void *octets, size_t size);

/* A request that waits for its outcome. */
typedef struct {
  uint64_t ticket;         /* of this request alone, and never 0 */
  uint64_t connection;
  uint64_t key_size;       /* of LR_PART_KEY */
  uint64_t operation_size; /* of LR_PART_OPERATION */
  uint64_t body_size;      /* of LR_PART_BODY */
  uint64_t body_at;        /* the place of the body's first octet, from which it is aligned */
  uint32_t body_order;     /* LR_ORDER_.. */
  uint32_t is_raw;         /* 1 where the operation is raw */
  uint32_t request_id;
  uint32_t version;
  uint32_t wish;           /* LR_WISH_.. */
  uint32_t has_client;     /* 1 where it carries FT_REQUEST: what follows but for `contexts` is of it, else 0 */
  int32_t retention_id;
  uint32_t contexts;       /* how many service contexts it has */
  uint64_t client_size;    /* of LR_PART_CLIENT */
  uint64_t expiration;
  uint32_t is_refused;     /* 1 where it would be refused (LR_SET_ASK_FIRST): then it is raw */
  uint32_t refusal;        /* .. and by which exception, LR_EX_.. */
} lr_request;

/* Says what waits: 1, or 0 where nothing does, and `request` is as it was. LR_E_EMPTY. */
LR_API int64_t lr_server_asked(lr_server *server, lr_request *request, size_t size);

/* Copies a part of the request of a ticket, which waits or is parked, as much of it as the room has octets, and answers
 * its size. The body is octets as they came, in `body_order` and aligned from `body_at`; that of an operation with
 * types begins with its arguments. LR_E_EMPTY, LR_E_TICKET, LR_E_NONE, LR_E_MEMORY. */
LR_API int64_t lr_server_part(lr_server *server, uint64_t ticket, uint32_t part, void *room, size_t size);

/* Copies the data of a service context of the request that waits, counted from 0, as much of it as the room has octets,
 * gives its id (LR_CONTEXT_.. or another), and answers its size. It passes over those before it, so to read all takes
 * the square of their count, which a peer may make large: stop at some. LR_E_EMPTY, LR_E_IDLE, LR_E_NONE. */
LR_API int64_t lr_server_context(lr_server *server, uint32_t index, uint32_t *id, void *room, size_t size);

/* Parks the request of a ticket, which waits: it waits no more, and is answered later by the same ticket.
 * LR_E_EMPTY, LR_E_IDLE, LR_E_TICKET, LR_E_PARKS, LR_E_MEMORY: it waits still. */
LR_API int64_t lr_server_park(lr_server *server, uint64_t ticket);

/* How many requests are parked, and how many of those that came on a connection. LR_E_EMPTY. */
LR_API int64_t lr_server_parked(lr_server *server);
LR_API int64_t lr_server_parked_of(lr_server *server, uint64_t connection);

/* How many wait for the outcome of a parked request, on connections that go on: 0 where nobody would hear it. One that
 * carries FT_REQUEST is kept all the same. LR_E_EMPTY, LR_E_TICKET (none of that ticket is parked). */
LR_API int64_t lr_server_wanted(lr_server *server, uint64_t ticket);

/* Answers the request of a ticket, which waits or is parked, by its results: octets of an order, aligned from place 0,
 * and none left over. As they stand they are kept as its outcome, where it carries FT_REQUEST. A request that wishes no
 * reply is answered all the same. LR_E_EMPTY, LR_E_RANGE, LR_E_TICKET, LR_E_ASKING, LR_E_OUTCOME, LR_E_MEMORY (it waits
 * or is parked still), and of one that waits LR_E_LOST: the outcome counts and is kept, and its reply is lost. Of a
 * parked one a reply for which memory is short loses its own connection alone, and LR_OK is answered: no call names that
 * connection, so ask lr_server_is_closed of each from time to time. */
LR_API int64_t lr_server_answer(lr_server *server, uint64_t ticket, uint32_t order, const void *results, size_t size);

/* Whether lr_server_answer would take these results, before what they say is done: LR_OK. Nothing changes. What it
 * would take is stored as LR_REPLY_NO_EXCEPTION, the order and the octets: lr_server_answer_raw answers by it later, in
 * another process too. LR_E_EMPTY, LR_E_RANGE, LR_E_TICKET, LR_E_OUTCOME. */
LR_API int64_t lr_server_can_answer(lr_server *server, uint64_t ticket, uint32_t order, const void *results,
                                    size_t size);

/* Writes the body of the Reply that raises an exception which the operation declares, in the order of its members, and
 * answers its size: stored with LR_REPLY_USER_EXCEPTION and the order it is what lr_server_answer_raw takes. Arguments
 * as of lr_server_raise. LR_E_EMPTY, LR_E_RANGE, LR_E_TICKET, LR_E_OUTCOME, LR_E_MEMORY. */
LR_API int64_t lr_server_exception(lr_server *server, uint64_t ticket, const void *id, size_t id_size, uint32_t order,
                                   const void *members, size_t size, void *room, size_t room_size);

/* Service contexts of the replies that the next answer of a ticket makes due, by lr_server_answer, _raise, _system,
 * _answer_raw or _identify: an IOP::ServiceContextList (CORBA 3.3 Part 2, 7.7), in CDR of an order and aligned from place
 * 0, or none where size is 0. They take the place of those that were said before, of any ticket, and are not kept: a
 * repeat gets none. A reply that can't carry them goes without: where they take more than 1048576 octets, or its body
 * would not stand behind them at a place divisible by 8, as in 1.0 and 1.1 it has to. The first of these that holds:
 * LR_E_EMPTY, LR_E_RANGE, LR_E_TICKET, LR_E_SHORT and LR_E_VALUE (they are no such list), LR_E_MEMORY. */
LR_API int64_t lr_server_reply_contexts(lr_server *server, uint64_t ticket, uint32_t order, const void *contexts,
                                        size_t size);

/* Answers by an exception that the operation declares: its repository id, and its members as of lr_server_answer. It is
 * an outcome as results are: kept, and what each repeat gets.
 * Errors as of lr_server_answer. */
LR_API int64_t lr_server_raise(lr_server *server, uint64_t ticket, const void *id, size_t id_size, uint32_t order,
                               const void *members, size_t size);

/* Answers by a system exception, LR_EX_.., with a minor code and LR_COMPLETED_... It is an outcome as results are: kept
 * until the request expires, and what each repeat gets; where it may be performed later, refuse.
 * Errors as of lr_server_answer. */
LR_API int64_t lr_server_system(lr_server *server, uint64_t ticket, uint32_t name, uint32_t minor, uint32_t completed);

/* Answers by the body of a Reply: its status, LR_REPLY_NO_EXCEPTION to LR_REPLY_LOCATION_FORWARD, its order, and at
 * most 1048576 octets, written for a place divisible by 8. The types of the operation are not looked at: you answer for
 * them. Errors as of lr_server_answer. */
LR_API int64_t lr_server_answer_raw(lr_server *server, uint64_t ticket, uint32_t status, uint32_t order,
                                    const void *body, size_t size);

/* Answers by the body of a Reply as lr_server_answer_raw does, and keeps nothing: it is in a store of yours. Where the
 * request comes again it comes to you again. The reply carries no service contexts. Errors as of lr_server_answer, but
 * that of one that waits LR_E_LOST is its connection's loss: it is given up. */
LR_API int64_t lr_server_answer_unkept(lr_server *server, uint64_t ticket, uint32_t status, uint32_t order,
                                       const void *body, size_t size);

/* Answers _is_a and _non_existent of an object that names its repository ids: 1 where that is what waits or is parked,
 * and it is answered; 0 where it is another operation. Every object is a CORBA::Object. Errors as of lr_server_answer,
 * but for LR_E_RANGE. */
LR_API int64_t lr_server_identify(lr_server *server, uint64_t ticket);

/* Gives up the request of a ticket, which waits: you can't perform it now, and have done nothing. Nothing is kept, and
 * its connection is gone; it is asked again when it comes again. What was answered before it stays due.
 * LR_E_EMPTY, LR_E_IDLE, LR_E_TICKET. */
LR_API int64_t lr_server_give_up(lr_server *server, uint64_t ticket);

/* Refuses the request of a ticket, which waits or is parked, for now: you have done nothing. A system exception,
 * LR_EX_.., with a minor code and LR_COMPLETED_NO is due to each who waits for it and wishes a reply; nothing is kept,
 * and it is asked again when it comes again. Its connection stays. LR_E_EMPTY, LR_E_RANGE, LR_E_TICKET, LR_E_ASKING,
 * and of one that waits LR_E_LOST: memory is short, so it is given up, and its connection is gone. */
LR_API int64_t lr_server_refuse(lr_server *server, uint64_t ticket, uint32_t name, uint32_t minor);

/* Gives up the request of a ticket, as lr_server_give_up does, and says goodbye first: CloseConnection is due (CORBA
 * 3.3 Part 2, 9.4.7), by which its client knows that nothing was done. An ORB connects again at once, and sends it
 * again: so this is for draining and restarts alone, and while you are short of something you refuse.
 * LR_E_EMPTY, LR_E_IDLE, LR_E_TICKET, LR_E_MEMORY and LR_E_PARKS: it waits still, as somebody else waits on its
 * connection for the outcome of a parked request. */
LR_API int64_t lr_server_goodbye(lr_server *server, uint64_t ticket);

/* A connection on which octets became due by the outcome of a parked request: 1, and it is named no more for these; 0
 * where none is left, and `connection` is as it was. LR_E_EMPTY. Use it after each call that answers or refuses a
 * parked request: while (lr_server_next_due(&server, &connection) == 1) flush(connection); */
LR_API int64_t lr_server_next_due(lr_server *server, uint64_t *connection);

/* Moves octets that are due on a connection into the room, as many as it has, and answers how many: 0 where none are
 * left. They are kept for each connection until they are taken or it is lost. LR_E_EMPTY. */
LR_API int64_t lr_server_output(lr_server *server, uint64_t connection, void *room, size_t size);

/* What lr_server_count counts: as it is now, and what became of requests since the server was opened. */
enum {
  LR_COUNT_CONNECTIONS = 0, /* connections that were opened and not lost */
  LR_COUNT_KEPT = 1,        /* outcomes that are kept, or will be, of what is parked */
  LR_COUNT_PARKED_NOW = 2,  /* requests that are parked */
  LR_COUNT_ASKED = 3,       /* came to you */
  LR_COUNT_REPEATED = 4,    /* were answered by what was kept */
  LR_COUNT_JOINED = 5,      /* repeats of a parked one */
  LR_COUNT_EXPIRED = 6,     /* were past their expiration */
  LR_COUNT_MALFORMED = 7,   /* FT_REQUEST was not valid */
  LR_COUNT_INVALID = 8,     /* nothing of that name, arguments not valid, or a client's id too long */
  LR_COUNT_LOG_FULL = 9,    /* no room: the capacity is used up */
  LR_COUNT_SHARE_FULL = 10, /* no room: the client's share is used up */
  LR_COUNT_LOCATED = 11,    /* LocateRequests */
  LR_COUNT_DROPPED = 12,    /* what a memory that was short cut off */
  LR_COUNT_ANSWERED = 13,   /* you answered at once */
  LR_COUNT_PARKED = 14,     /* you parked */
  LR_COUNT_SETTLED = 15,    /* you answered while they were parked */
  LR_COUNT_GIVEN_UP = 16,   /* you gave up */
  LR_COUNT_DECLINED = 17,   /* you refused while they waited */
  LR_COUNT_WITHDRAWN = 18   /* you refused while they were parked */
};

/* One of these numbers. LR_E_EMPTY, LR_E_RANGE. */
LR_API int64_t lr_server_count(lr_server *server, uint32_t what);

/* How many outcomes are kept of a client, or will be, by its id: so much of its share it holds. LR_E_EMPTY. */
LR_API int64_t lr_server_held_by(lr_server *server, const void *client, size_t size);

/* The first expiration of what is kept: 1, or 0 where nothing is, and `moment` is as it was. LR_E_EMPTY. */
LR_API int64_t lr_server_next_expiry(lr_server *server, uint64_t *moment);

/* A moment has come: what expired before it is forgotten. So does each request that carries FT_REQUEST; where none come
 * for long, this gives memory back: that of 520 outcomes at a call. LR_E_EMPTY, LR_E_ASKING. */
LR_API int64_t lr_server_tick(lr_server *server, uint64_t moment);

/* Exchanges what the server has on offer and a catalogue: so objects are added and taken away while it serves. What is
 * kept stays, and is what repeats get. A parked request is answered by an outcome of its operation as that is on offer
 * then, by lr_server_answer_raw, or by a system exception: so keep an object that is to go until nothing of it is parked
 * (lr_server_wanted), and refuse who asks for it meanwhile by LR_EX_OBJECT_NOT_EXIST. LR_E_EMPTY, LR_E_ASKING. */
LR_API int64_t lr_server_swap(lr_server *server, lr_catalogue *catalogue);

/* ---- a client that sends its calls again ---- */

/*
 * Each call is sent with FT_REQUEST, on each connection until it is answered or its expiration is past, so that a
 * server that keeps outcomes performs it once: on one connection once, unless lr_client_resend sends it again. Octets
 * that are due are moved by lr_client_output after each call.
 */

/* Opens a client that is not connected. Its id, 1 to 256 octets without a NUL, names it to each server. It numbers its
 * calls from 1: a client that is opened with an id that was used before, by a program that was started again say, is
 * given the outcomes of calls of before, unless lr_client_recall and lr_client_skip_to say which numbers were used.
 * LR_E_OPEN, LR_E_TEXT, LR_E_MEMORY. */
LR_API int64_t lr_client_open(lr_client *client, const void *id, size_t id_size);

/* What lr_client_set sets, and what it is where nothing is set. */
enum {
  LR_CLIENT_KEEP_TRANSIENT = 1, /* 1: TRANSIENT leaves its call pending, unless the operation was completed; 0 */
  LR_CLIENT_KEEP_FORWARD = 2,   /* 1: a forward leaves its call pending: lr_client_forwarded; 0 */
  LR_CLIENT_VERSION = 3,        /* the version of its messages, 0 to 2: 2 */
  LR_CLIENT_MESSAGE = 4,        /* octets of a message that comes at most, 4096 to 16777216: 1048576 */
  LR_CLIENT_PARTIALS = 5,       /* messages that may be partial at a time, 1 to 16: 4 */
  LR_CLIENT_CUTS = 6            /* where a message of 1.1 may be cut, one of LR_CUTS_..: 0 */
};

/* Sets one of these. The first two say of the replies that come from then on whether such a one leaves its call
 * pending, until it expires or is cancelled, or ends it. The others are set while it is not connected and has no number
 * of a call: none was given, taken up or skipped.
 * LR_E_EMPTY, LR_E_RANGE, LR_E_OPEN (it is connected, or has a number). */
LR_API int64_t lr_client_set(lr_client *client, uint32_t what, uint64_t value);

/* The client is connected anew: what is pending, is not led elsewhere and not past its expiration is due. Octets that
 * were due for the connection before are dropped. LR_E_EMPTY, LR_E_LOST. */
LR_API int64_t lr_client_connected(lr_client *client, uint64_t now);

/* The connection is lost: what is pending stays so. LR_E_EMPTY. */
LR_API int64_t lr_client_lost(lr_client *client);

/* 1 where it is connected, else 0. LR_E_EMPTY. */
LR_API int64_t lr_client_is_connected(lr_client *client);

/* Calls an operation of an object, and answers the number of the call: 1, 2 and so on. `types` are those of the
 * arguments, which are octets of an order, aligned from place 0, and none left over. LR_E_EMPTY, LR_E_RANGE,
 * LR_E_TYPES, LR_E_TEXT, LR_E_SHORT, LR_E_VALUE, LR_E_EXPIRED, LR_E_CALLS, LR_E_LONG, LR_E_MEMORY. */
LR_API int64_t lr_client_call(lr_client *client, uint64_t now, uint64_t expiration, const void *key, size_t key_size,
                              const void *operation, size_t operation_size, const uint8_t *types, size_t types_size,
                              uint32_t order, const void *arguments, size_t arguments_size);

/* Takes a call of before up again under its number, in a client that was opened anew with the id of before, and answers
 * LR_OK: a server that performed it gives its first outcome. Numbers go up, and the expiration is the one of before. The
 * next call gets the number after this one. Errors as of lr_client_call; LR_E_RANGE also where the number is below 0 or over
 * 2147483647; and LR_E_TAKEN: it is 0, or not greater than each that this client gave, took up or skipped. */
LR_API int64_t lr_client_recall(lr_client *client, int64_t call, uint64_t now, uint64_t expiration, const void *key,
                                size_t key_size, const void *operation, size_t operation_size, const uint8_t *types,
                                size_t types_size, uint32_t order, const void *arguments, size_t arguments_size);

/* Calls an operation by a body of octets, as it is, which is in an order and written for a place divisible by 8, with
 * service contexts: an IOP::ServiceContextList (CORBA 3.3 Part 2, 7.7), in CDR of that order and aligned from place 0,
 * or none where contexts_size is 0. FT_REQUEST is written by the client. `wish` is LR_WISH_..: of LR_WISH_NONE nothing
 * comes back, and the call ends by LR_ENDED_SENT when it is sent. The first of these that holds: LR_E_EMPTY, LR_E_RANGE
 * (the order, the wish, or LR_WISH_EMPTY in 1.0 and 1.1), LR_E_TEXT (a NUL in the operation), LR_E_SHORT and LR_E_VALUE
 * (the contexts are none; LR_E_VALUE also where one is FT_REQUEST), LR_E_EXPIRED, LR_E_CALLS, LR_E_LONG, LR_E_MEMORY,
 * LR_E_PLACE (in 1.0 and 1.1 the body would stand at a place that is not divisible by 8). */
LR_API int64_t lr_client_call_raw(lr_client *client, uint64_t now, uint64_t expiration, uint32_t wish,
                                  const void *key, size_t key_size, const void *operation, size_t operation_size,
                                  uint32_t order, const void *contexts, size_t contexts_size,
                                  const void *body, size_t body_size);

/* Takes a raw call of before up again under its number, as lr_client_recall does. Errors as of lr_client_call_raw, and
 * LR_E_TAKEN. */
LR_API int64_t lr_client_recall_raw(lr_client *client, int64_t call, uint64_t now, uint64_t expiration, uint32_t wish,
                                    const void *key, size_t key_size, const void *operation, size_t operation_size,
                                    uint32_t order, const void *contexts, size_t contexts_size,
                                    const void *body, size_t body_size);

/* Numbers up to this one were used before: the next call gets a greater one. Where this client has given or taken up
 * it or a greater one, nothing changes. LR_E_EMPTY, LR_E_RANGE (it is below 0, or over 2147483647). */
LR_API int64_t lr_client_skip_to(lr_client *client, int64_t call);

/* What is pending, was not sent on this connection, is not led elsewhere and not past its expiration is due: what
 * TRANSIENT left pending, and what was redirected. LR_E_EMPTY, LR_E_LOST. */
LR_API int64_t lr_client_resend(lr_client *client, uint64_t now);

/* Cancels a call: 1, and it completes as cancelled, or 0 where it is not pending. LR_E_EMPTY, LR_E_RANGE (no number
 * of 32 bits with a sign), LR_E_MEMORY. */
LR_API int64_t lr_client_cancel(lr_client *client, int64_t call);

/* A moment has come: calls whose expiration is before it complete as expired. LR_E_EMPTY. */
LR_API int64_t lr_client_tick(lr_client *client, uint64_t now);

/* Takes octets that came on the connection, and answers how many: all of them. After a fault of the stream, or where
 * the server has said goodbye, the client is not connected any more. LR_E_EMPTY, LR_E_LOST. */
LR_API int64_t lr_client_feed(lr_client *client, const void *octets, size_t size);

/* How a call ended. */
enum {
  LR_ENDED_RETURNED = 0,         /* the body has its results */
  LR_ENDED_RAISED = 1,           /* the body has an exception: its repository id, and its members */
  LR_ENDED_SYSTEM = 2,           /* the body has a system exception: its id, its minor code, its completion */
  LR_ENDED_FORWARDED = 3,        /* the body has a reference to ask in place of this one */
  LR_ENDED_NEEDS_ADDRESSING = 4, /* the server wants another addressing */
  LR_ENDED_EXPIRED = 5,
  LR_ENDED_CANCELLED = 6,
  LR_ENDED_SENT = 7              /* it was sent, and wished no reply */
};

typedef struct {
  uint64_t body_size;
  uint64_t body_at;    /* the place of the body's first octet, from which it is aligned */
  int32_t call;        /* the number of the call */
  uint32_t how;        /* LR_ENDED_.. */
  uint32_t body_order; /* LR_ORDER_.. */
  uint32_t reserved;
} lr_completion;

/* Takes the next completion: 1, or 0 where there is none, and `completion` is as it was. Its body is lent by
 * lr_client_body until the next is taken. LR_E_EMPTY. */
LR_API int64_t lr_client_completed(lr_client *client, lr_completion *completion, size_t size);

/* Copies the body of the completion taken last, as much of it as the room has octets, and answers its size. LR_E_EMPTY,
 * LR_E_NONE. */
LR_API int64_t lr_client_body(lr_client *client, void *room, size_t size);

/* The first pending call, by its number, that is led elsewhere: 1, or 0 where none is, and `completion` is as it was.
 * It is said as one that ended by LR_ENDED_FORWARDED, and its body, the reference, is copied, as much of it as the room
 * has octets; it is not sent again until lr_client_redirect. LR_E_EMPTY. */
LR_API int64_t lr_client_forwarded(lr_client *client, lr_completion *completion, size_t size, void *room,
                                   size_t room_size);

/* Asks for a call that is led elsewhere by another key, with its number and its expiration: lr_client_resend sends it,
 * or the next lr_client_connected. What is pending is sent on one connection: that it leads there is up to you. The
 * client keeps neither its operation nor its arguments, so give them again: what you give is what it asks from then on,
 * also where it was a raw call or asked something else. A server that knows its number answers what was asked first.
 * LR_E_FORWARD (it is not led elsewhere), LR_E_EMPTY, LR_E_RANGE, LR_E_TYPES, LR_E_TEXT, LR_E_SHORT, LR_E_VALUE,
 * LR_E_LONG, LR_E_MEMORY. */
LR_API int64_t lr_client_redirect(lr_client *client, int64_t call, const void *key, size_t key_size,
                                  const void *operation, size_t operation_size, const uint8_t *types, size_t types_size,
                                  uint32_t order, const void *arguments, size_t arguments_size);

/* .. as lr_client_redirect does, by a body of octets with service contexts, as of lr_client_call_raw. The first of these
 * that holds: LR_E_EMPTY, LR_E_RANGE (also of LR_WISH_NONE: a call that is led elsewhere wished for a reply), LR_E_TEXT,
 * LR_E_SHORT, LR_E_VALUE, LR_E_FORWARD, LR_E_LONG, LR_E_MEMORY, LR_E_PLACE. */
LR_API int64_t lr_client_redirect_raw(lr_client *client, int64_t call, uint32_t wish, const void *key, size_t key_size,
                                      const void *operation, size_t operation_size, uint32_t order,
                                      const void *contexts, size_t contexts_size, const void *body, size_t body_size);

/* Moves octets that are due on the connection into the room, as many as it has, and answers how many. LR_E_EMPTY. */
LR_API int64_t lr_client_output(lr_client *client, void *room, size_t size);

/* ---- the messages of a stream ---- */

/* Opens an assembler of a stream of which nothing has come. A message has at most message_limit octets,
 * 4096 to 16777216; at most so many may be partial at a time, 1 to 16. LR_E_OPEN, LR_E_RANGE, LR_E_MEMORY. */
LR_API int64_t lr_assembler_open(lr_assembler *assembler, uint32_t message_limit, uint32_t partials);

/* Where a message of GIOP 1.1 may be cut. CORBA 3.3 Part 2, 9.4.9 leaves open whether what is aligned in a Fragment of
 * 1.1 is so from its own beginning or the message's. Frames are joined by their octets. */
enum {
  LR_CUTS_ALIGNED = 0, /* where both are the same: so that the octets of each frame but the last leave 4 modulo 8 */
  LR_CUTS_ANYWHERE = 1 /* anywhere: what is aligned across a cut lies as its sender counted, which it doesn't say */
};

/* .. whose messages of 1.1 may be cut so; by lr_assembler_open that is LR_CUTS_ALIGNED. The same errors. */
LR_API int64_t lr_assembler_open_cuts(lr_assembler *assembler, uint32_t message_limit, uint32_t partials,
                                      uint32_t cuts);

/* Takes octets up to and with the end of the next message, or all of them, and answers how many. Fragments are
 * joined. LR_E_EMPTY, LR_E_STREAM: the stream is at its end, and lr_assembler_fault says why. */
LR_API int64_t lr_assembler_feed(lr_assembler *assembler, const void *octets, size_t size);

/* The first fault of the stream: 0 where there is none, or LR_FAULT_... LR_E_EMPTY. */
LR_API int64_t lr_assembler_fault(lr_assembler *assembler);

/* A fault of a stream. */
enum {
  LR_FAULT_MAGIC = 1,
  LR_FAULT_VERSION = 2,
  LR_FAULT_FLAGS = 3,
  LR_FAULT_TYPE = 4,
  LR_FAULT_CUT = 5,
  LR_FAULT_TOO_LARGE = 6,
  LR_FAULT_UNALIGNED_FRAGMENT = 7,
  LR_FAULT_STRAY_FRAGMENT = 8,
  LR_FAULT_TWICE_STARTED = 9,
  LR_FAULT_TOO_MANY_PARTIAL = 10,
  LR_FAULT_BODY = 11,
  LR_FAULT_MIXED_ORDER = 12,
  LR_FAULT_MEMORY = 13
};

/* The type of a message (CORBA 3.3 Part 2, 9.4.1). */
enum {
  LR_MSG_REQUEST = 0,
  LR_MSG_REPLY = 1,
  LR_MSG_CANCEL_REQUEST = 2,
  LR_MSG_LOCATE_REQUEST = 3,
  LR_MSG_LOCATE_REPLY = 4,
  LR_MSG_CLOSE_CONNECTION = 5,
  LR_MSG_ERROR = 6,
  LR_MSG_FRAGMENT = 7
};

/* A message. What a message of its type does not have is 0. */
typedef struct {
  uint64_t key_size;       /* of LR_PART_KEY: of a Request or LocateRequest whose target has one */
  uint64_t operation_size; /* of LR_PART_OPERATION: of a Request */
  uint64_t body_size;      /* of LR_PART_BODY: of a Request, Reply or LocateReply */
  uint64_t body_at;        /* the place of the body's first octet, from which it is aligned */
  uint64_t payload_size;   /* of LR_PART_PAYLOAD: of a Fragment */
  uint32_t type;           /* LR_MSG_.. */
  uint32_t version;
  uint32_t order;          /* LR_ORDER_.. */
  uint32_t request_id;
  uint32_t status;         /* of a Reply or LocateReply */
  uint32_t wish;           /* of a Request: LR_WISH_.. */
  uint32_t contexts;       /* how many service contexts a Request or Reply has */
  uint32_t has_key;        /* 1 where the target has an object key */
  uint32_t has_client;     /* 1 where a Request carries FT_REQUEST: what follows is of it */
  int32_t retention_id;
  uint64_t client_size;    /* of LR_PART_CLIENT */
  uint64_t expiration;
} lr_message;

/* The message that the last lr_assembler_feed completed: 1, or 0 where it completed none, and `message` is as it was.
 * LR_E_EMPTY. */
LR_API int64_t lr_assembler_message(lr_assembler *assembler, lr_message *message, size_t size);

/* Copies a part of that message, as much of it as the room has octets, and answers its size. LR_E_EMPTY, LR_E_NONE. */
LR_API int64_t lr_assembler_part(lr_assembler *assembler, uint32_t part, void *room, size_t size);

/* Copies the data of a service context of that message, counted from 0, as much of it as the room has octets, gives
 * its id, and answers its size. Where one behind the first is asked for all are copied, if there is memory, so that each
 * is found by its index; else it passes over those before it. LR_E_EMPTY, LR_E_NONE. */
LR_API int64_t lr_assembler_context(lr_assembler *assembler, uint32_t index, uint32_t *id, void *room, size_t size);

/* ---- writing messages ---- */

/*
 * Each writes a whole message into the room, and answers its size. LR_E_ROOM where the room is smaller: nothing is
 * written then. LR_E_RANGE: there is no such version, order, wish or status. A CancelRequest, a LocateReply,
 * CloseConnection and MessageError take no memory: they answer nothing else. The others may answer LR_E_LONG, where a
 * message or a part of it is too long, and LR_E_MEMORY, where nothing else refuses them and there is room.
 */

/* A Request to an object key, with at most one service context, where context_size is not 0 (its id is context_id).
 * The body is octets, written for a place divisible by 8; it is in the order of the message. LR_E_TEXT (a NUL in the
 * operation), and in 1.0 and 1.1 LR_E_PLACE, where the body would stand at another place. */
LR_API int64_t lr_write_request(void *room, size_t size, uint32_t version, uint32_t order, uint32_t request_id,
                                uint32_t wish, const void *key, size_t key_size,
                                const void *operation, size_t operation_size, uint32_t context_id,
                                const void *context, size_t context_size, const void *body, size_t body_size);

/* A Reply without service contexts. The body is octets, written for a place divisible by 8, in the order of the
 * message. */
LR_API int64_t lr_write_reply(void *room, size_t size, uint32_t version, uint32_t order, uint32_t request_id,
                              uint32_t status, const void *body, size_t body_size);

LR_API int64_t lr_write_cancel(void *room, size_t size, uint32_t version, uint32_t order, uint32_t request_id);

LR_API int64_t lr_write_locate_request(void *room, size_t size, uint32_t version, uint32_t order, uint32_t request_id,
                                       const void *key, size_t key_size);

/* Without a body, so LR_LOCATE_UNKNOWN_OBJECT or LR_LOCATE_OBJECT_HERE: LR_E_RANGE of others. */
LR_API int64_t lr_write_locate_reply(void *room, size_t size, uint32_t version, uint32_t order, uint32_t request_id,
                                     uint32_t status);

LR_API int64_t lr_write_close(void *room, size_t size); /* CloseConnection */

LR_API int64_t lr_write_error(void *room, size_t size); /* MessageError */

/* The data of an FT_REQUEST context, whose id is LR_CONTEXT_FT_REQUEST. LR_E_TEXT (a NUL in the client id). */
LR_API int64_t lr_write_ft(void *room, size_t size, uint32_t order, const void *client, size_t client_size,
                           int32_t retention_id, uint64_t expiration);

/* ---- references ---- */

/* Reads a stringified reference, "IOR:" and hexadecimal digits; or a URL, as "corbaloc::host:2809/key" (CORBA 3.3 Part 2,
 * 7.6.10): a reference without a type to the addresses of IIOP that it names, 64 at most. LR_E_OPEN, LR_E_REFERENCE (it
 * is neither), LR_E_MEMORY. */
LR_API int64_t lr_ior_parse(lr_ior *ior, const void *text, size_t size);

/* A reference of a type to an object at an address of IIOP 1.minor. LR_E_OPEN, LR_E_RANGE (minor is over 2),
 * LR_E_TEXT (a NUL in the id or the host), LR_E_MEMORY. */
LR_API int64_t lr_ior_iiop(lr_ior *ior, const void *type_id, size_t type_id_size, uint32_t minor,
                           const void *host, size_t host_size, uint16_t port, const void *key, size_t key_size);

/* Writes its stringified form, and answers its size. It has no NUL at its end. LR_E_EMPTY, LR_E_ROOM, and LR_E_MEMORY
 * where there is room. */
LR_API int64_t lr_ior_print(lr_ior *ior, void *room, size_t size);

/* Copies the repository id of its type, as much of it as the room has octets, and answers its size. LR_E_EMPTY. */
LR_API int64_t lr_ior_type_id(lr_ior *ior, void *room, size_t size);

/* How many profiles it has. LR_E_EMPTY. */
LR_API int64_t lr_ior_profiles(lr_ior *ior);

/* A profile. What only IIOP has is 0 where is_iiop is. */
typedef struct {
  uint64_t data_size; /* of LR_IOR_DATA */
  uint64_t host_size; /* of LR_IOR_HOST */
  uint64_t key_size;  /* of LR_IOR_KEY */
  uint32_t tag;
  uint32_t is_iiop;   /* 1 where it is a valid profile of IIOP 1.0 or later */
  uint32_t minor;
  uint32_t port;
  uint32_t components; /* how many tagged components it has */
  uint32_t reserved;
} lr_profile;

/* The profile of an index, counted from 0. LR_E_EMPTY, LR_E_NONE, LR_E_MEMORY. */
LR_API int64_t lr_ior_profile(lr_ior *ior, uint32_t index, lr_profile *profile, size_t size);

/* Parts of a profile. */
enum { LR_IOR_DATA = 0, LR_IOR_HOST = 1, LR_IOR_KEY = 2 };

/* Copies a part of a profile, as much of it as the room has octets, and answers its size. LR_E_EMPTY, LR_E_NONE,
 * LR_E_MEMORY. */
LR_API int64_t lr_ior_part(lr_ior *ior, uint32_t index, uint32_t part, void *room, size_t size);

/* Copies the data of a tagged component of a profile of IIOP, gives its tag, and answers its size. LR_E_EMPTY,
 * LR_E_NONE, LR_E_MEMORY. */
LR_API int64_t lr_ior_component(lr_ior *ior, uint32_t index, uint32_t component, uint32_t *tag,
                                void *room, size_t size);

/* ---- CDR (CORBA 3.3 Part 2, 9.3), without an allocation ---- */

/*
 * A place says where reading or writing stands: `next` is the index of the next octet, `at` the place of the first
 * octet, from which numbers are aligned (0 for an encapsulation, body_at for a body), and `order` the order of
 * numbers. Each function moves `next` past what it read or wrote, padding included, and answers LR_OK. At an error
 * the place and the room are as they were: LR_E_SHORT (reading: octets are missing), LR_E_ROOM (writing), LR_E_VALUE
 * (no value of the type), LR_E_TEXT (writing: text with a NUL), LR_E_RANGE (the order; or `next` lies beyond the
 * octets, or at 4294967296 or more, counted from `at`), LR_E_LONG (text or octets whose length, with the NUL of a text,
 * is over 4294967295).
 */
typedef struct {
  uint64_t at;
  uint64_t next;
  uint32_t order;
  uint32_t reserved; /* it is not looked at */
} lr_place;

LR_API int64_t lr_get_octet(const void *octets, size_t size, lr_place *place, uint8_t *value);
LR_API int64_t lr_get_char(const void *octets, size_t size, lr_place *place, uint8_t *value);
LR_API int64_t lr_get_boolean(const void *octets, size_t size, lr_place *place, uint8_t *value); /* 0 or 1 */
LR_API int64_t lr_get_short(const void *octets, size_t size, lr_place *place, int16_t *value);
LR_API int64_t lr_get_ushort(const void *octets, size_t size, lr_place *place, uint16_t *value);
LR_API int64_t lr_get_long(const void *octets, size_t size, lr_place *place, int32_t *value);
LR_API int64_t lr_get_ulong(const void *octets, size_t size, lr_place *place, uint32_t *value);
LR_API int64_t lr_get_longlong(const void *octets, size_t size, lr_place *place, int64_t *value);
LR_API int64_t lr_get_ulonglong(const void *octets, size_t size, lr_place *place, uint64_t *value);

/* A string: the index of its first octet and its size, without the NUL. A sequence of octets: the same. */
LR_API int64_t lr_get_string(const void *octets, size_t size, lr_place *place, uint64_t *start, uint64_t *length);
LR_API int64_t lr_get_octets(const void *octets, size_t size, lr_place *place, uint64_t *start, uint64_t *length);

/* Enters an encapsulation, which is a sequence of octets: `inner` stands after its octet of the byte order. Its
 * octets are those from `start` on, `length` of them: inner counts from `start`. */
LR_API int64_t lr_get_encapsulation(const void *octets, size_t size, lr_place *place, uint64_t *start, uint64_t *length,
                                    lr_place *inner);

LR_API int64_t lr_put_octet(void *room, size_t size, lr_place *place, uint8_t value);
LR_API int64_t lr_put_char(void *room, size_t size, lr_place *place, uint8_t value);
LR_API int64_t lr_put_boolean(void *room, size_t size, lr_place *place, uint8_t value);
LR_API int64_t lr_put_short(void *room, size_t size, lr_place *place, int16_t value);
LR_API int64_t lr_put_ushort(void *room, size_t size, lr_place *place, uint16_t value);
LR_API int64_t lr_put_long(void *room, size_t size, lr_place *place, int32_t value);
LR_API int64_t lr_put_ulong(void *room, size_t size, lr_place *place, uint32_t value);
LR_API int64_t lr_put_longlong(void *room, size_t size, lr_place *place, int64_t value);
LR_API int64_t lr_put_ulonglong(void *room, size_t size, lr_place *place, uint64_t value);
LR_API int64_t lr_put_string(void *room, size_t size, lr_place *place, const void *text, size_t length);
LR_API int64_t lr_put_octets(void *room, size_t size, lr_place *place, const void *data, size_t length);

/* A float and a double, of IEEE 754, by their octets. */
static inline int64_t lr_get_float(const void *octets, size_t size, lr_place *place, float *value) {
  uint32_t bits;
  int64_t answer = lr_get_ulong(octets, size, place, &bits);
  if (answer == LR_OK) memcpy(value, &bits, sizeof bits);
  return answer;
}

static inline int64_t lr_get_double(const void *octets, size_t size, lr_place *place, double *value) {
  uint64_t bits;
  int64_t answer = lr_get_ulonglong(octets, size, place, &bits);
  if (answer == LR_OK) memcpy(value, &bits, sizeof bits);
  return answer;
}

static inline int64_t lr_put_float(void *room, size_t size, lr_place *place, float value) {
  uint32_t bits;
  memcpy(&bits, &value, sizeof bits);
  return lr_put_ulong(room, size, place, bits);
}

static inline int64_t lr_put_double(void *room, size_t size, lr_place *place, double value) {
  uint64_t bits;
  memcpy(&bits, &value, sizeof bits);
  return lr_put_ulonglong(room, size, place, bits);
}

/* ---- memory ---- */

/* All memory comes from malloc, realloc and free, unless you give others: allocate and reallocate answer NULL where
 * there is no memory. Call it before any other function, or not at all. Memory is aligned to 16. It is the one thing
 * that all slots share. LR_E_RANGE, where one of them is NULL, and LR_E_OPEN, once memory was taken from the heap, also
 * where all of it was given back: the heap is as it was. */
LR_API int64_t lr_set_heap(void *(*allocate)(size_t), void *(*reallocate)(void *, size_t), void (*release)(void *));

#ifdef __cplusplus
}
#endif

#endif
