/*
 * What the C stands on that omniidl makes of IDL by -blemonrudder -Wbc: types, by which values are read, written,
 * copied and freed; servants over an lr_server; and stubs over an lr_client that sends its calls again, on a socket. It
 * is compiled with lemonrudder_idl.c; C11, and C++11 or later.
 *
 * Memory.  A value owns what its strings and sequences point to, which is malloc's. TYPE__free frees that, and makes
 * the value all zero, which is a value of each type: a string that is NULL is empty. What you hand in is lent, and so
 * may point to anything: the in arguments of a stub, the results of a servant. What a stub hands out is yours to free;
 * of an inout argument it frees the old value. What a servant is given is lent until it returns: TYPE__copy keeps it.
 *
 * What is made of the octets of a peer takes at most 65536 octets of memory and 16 times as many as these, or what a
 * `limit` says, 0 where nothing is said: so many octets of members of sequences, texts and octets. LR_E_VALUE beyond.
 * Sequences stand in sequences 64 deep at most: LR_E_VALUE where they are read, LR_E_RANGE where they are written.
 *
 * Results are those of lemonrudder.h: below 0 an error LR_E_.., and then no value was handed out.
 */
#ifndef LEMONRUDDER_IDL_H
#define LEMONRUDDER_IDL_H

#include <lemonrudder.h>
#include <stdbool.h>

#if LR_VERSION_MAJOR != 0 || LR_VERSION_MINOR != 2
#error "this was made of IDL for lemonrudder.h of version 0.2: make it anew"
#endif

#ifdef __cplusplus
extern "C" {
#endif

/* ---- types ---- */

/* Kinds of types; those up to LR_IDL_ENUM own nothing. */
enum {
  LR_IDL_BOOLEAN,
  LR_IDL_CHAR,
  LR_IDL_OCTET,
  LR_IDL_SHORT,
  LR_IDL_USHORT,
  LR_IDL_LONG,
  LR_IDL_ULONG,
  LR_IDL_LONGLONG,
  LR_IDL_ULONGLONG,
  LR_IDL_FLOAT,
  LR_IDL_DOUBLE,
  LR_IDL_ENUM,
  LR_IDL_STRING,
  LR_IDL_SEQUENCE,
  LR_IDL_ARRAY,
  LR_IDL_STRUCT,
  LR_IDL_UNION,
  LR_IDL_BODY,
  LR_IDL_ANY
};

typedef struct lr_idl_type lr_idl_type;

/* A member of a struct; or of a union, for one of its labels or by default. */
typedef struct {
  const lr_idl_type *type;
  size_t offset;
  uint64_t label; /* with its sign */
  bool is_default;
} lr_idl_member;

struct lr_idl_type {
  uint32_t kind;
  uint32_t count;               /* the bound of a string or a sequence, or 0; how many members or names others have */
  size_t size;                  /* of a value in C */
  const lr_idl_type *inner;     /* of a sequence and an array that of their members, of a union its discriminator's */
  const lr_idl_member *members; /* of a struct and a union */
};

/* Reads a value, as the functions lr_get_.. do. LR_E_VALUE where it passes a bound, and LR_E_MEMORY; at an error it is
 * all zero. */
int64_t lr_idl_get(const lr_idl_type *type, const void *octets, size_t size, lr_place *place, void *value);

/* Writes a value, as the functions lr_put_.. do. LR_E_RANGE where it passes a bound, or is none of the names of an
 * enum. */
int64_t lr_idl_put(const lr_idl_type *type, void *room, size_t size, lr_place *place, const void *value);

/* Frees what a value owns, and makes it all zero. */
void lr_idl_free(const lr_idl_type *type, void *value);

/* Makes a value as another one is, with memory of its own. What it held before is not freed. LR_E_MEMORY: it is all
 * zero. */
int64_t lr_idl_copy(const lr_idl_type *type, const void *from, void *to);

/* Types of several values, and as the library spells them. */
typedef struct {
  size_t count;
  const lr_idl_type *const *types;
  const uint8_t *codes;
  size_t codes_size;
} lr_idl_types;

extern const lr_idl_type lr_idl_boolean__type, lr_idl_char__type, lr_idl_octet__type, lr_idl_short__type,
    lr_idl_ushort__type, lr_idl_long__type, lr_idl_ulong__type, lr_idl_longlong__type, lr_idl_ulonglong__type,
    lr_idl_float__type, lr_idl_double__type, lr_idl_string__type, lr_idl_reference__type;

/* Sequences of the types that IDL has itself. */
typedef struct { uint32_t _length; bool *_buffer; } lr_idl_boolean__sequence;
typedef struct { uint32_t _length; char *_buffer; } lr_idl_char__sequence;
typedef struct { uint32_t _length; uint8_t *_buffer; } lr_idl_octet__sequence;
typedef struct { uint32_t _length; int16_t *_buffer; } lr_idl_short__sequence;
typedef struct { uint32_t _length; uint16_t *_buffer; } lr_idl_ushort__sequence;
typedef struct { uint32_t _length; int32_t *_buffer; } lr_idl_long__sequence;
typedef struct { uint32_t _length; uint32_t *_buffer; } lr_idl_ulong__sequence;
typedef struct { uint32_t _length; int64_t *_buffer; } lr_idl_longlong__sequence;
typedef struct { uint32_t _length; uint64_t *_buffer; } lr_idl_ulonglong__sequence;
typedef struct { uint32_t _length; float *_buffer; } lr_idl_float__sequence;
typedef struct { uint32_t _length; double *_buffer; } lr_idl_double__sequence;
typedef struct { uint32_t _length; char **_buffer; } lr_idl_string__sequence;

/* The body of a message of an operation whose types can't be made: octets in an order, LR_ORDER_.., the first of which
 * stands at a place, from which they are aligned. In one that you hand in that is a multiple of 8. */
typedef struct {
  uint32_t order;
  uint64_t at;
  lr_idl_octet__sequence octets;
} lr_idl_body;

extern const lr_idl_type lr_idl_body__type;

static inline void lr_idl_body__free(lr_idl_body *body) { lr_idl_free(&lr_idl_body__type, body); }

/* ---- anys ---- */

/* An any: a TypeCode and a value of it, by their octets in an order, LR_ORDER_.., as they came. The first one of the
 * type stands at a place modulo 8, from which all are aligned, and the value stands behind the type. All zero it is
 * null. It goes on as it came where it stands so too, else it is written anew, by its TypeCode: LR_E_VALUE and
 * LR_E_SHORT where its octets are no value of that. Types stand in others 128 deep at most. */
typedef struct {
  uint32_t order;
  uint32_t at;
  lr_idl_octet__sequence type, value;
} lr_idl_any;
typedef struct { uint32_t _length; lr_idl_any *_buffer; } lr_idl_any__sequence;

extern const lr_idl_type lr_idl_any__type;

static inline void lr_idl_any__free(lr_idl_any *any) { lr_idl_free(&lr_idl_any__type, any); }

static inline int64_t lr_idl_any__copy(const lr_idl_any *from, lr_idl_any *to) {
  return lr_idl_copy(&lr_idl_any__type, from, to);
}

/* Makes an any, which is yours to free, of a value of a basic type or a string: lr_idl_any__of(&any,
 * &lr_idl_long__type, &number). LR_E_RANGE: it is of another type; LR_E_MEMORY. */
int64_t lr_idl_any__of(lr_idl_any *any, const lr_idl_type *type, const void *value);

/* .. and the other way, also where its type has other names. LR_E_VALUE: it is of another type; else as lr_idl_get. */
int64_t lr_idl_any__value(const lr_idl_any *any, const lr_idl_type *type, void *value);

/* The TCKind of its type, of an alias that of what it names: 0 null, 2 short, 3 long, 15 a struct, 18 a string (CORBA
 * 3.3 Part 2, 9.3.5.1). LR_E_VALUE, LR_E_SHORT: the octets are none; LR_E_MEMORY. */
int64_t lr_idl_any__kind(const lr_idl_any *any);

/* ---- references ---- */

typedef struct {
  uint32_t tag;
  lr_idl_octet__sequence data;
} lr_idl_profile;
typedef struct { uint32_t _length; lr_idl_profile *_buffer; } lr_idl_profile__sequence;

/* A reference to an object. That of nil has no profiles. */
typedef struct {
  char *type_id;
  lr_idl_profile__sequence profiles;
} lr_idl_reference;
typedef struct { uint32_t _length; lr_idl_reference *_buffer; } lr_idl_reference__sequence;

static inline void lr_idl_reference__free(lr_idl_reference *reference) {
  lr_idl_free(&lr_idl_reference__type, reference);
}

/* That of a stringified reference or of a URL corbaloc:, and the other way: a text of yours to free. LR_E_REFERENCE, LR_E_MEMORY. */
int64_t lr_idl_reference__parse(lr_idl_reference *reference, const char *text);
int64_t lr_idl_reference__print(const lr_idl_reference *reference, char **text);

/* ---- operations ---- */

typedef struct {
  const char *id;
  const lr_idl_type *type; /* of a struct of its members */
  const uint8_t *codes;
  size_t codes_size;
} lr_idl_exception;

typedef struct {
  const char *name;
  bool is_raw, is_oneway;
  lr_idl_types arguments, results;
  size_t raise_count;
  const lr_idl_exception *const *raises;
} lr_idl_operation;

/* ---- servants ---- */

/* A request that waits or is parked. To answer it later, copy it and park it: lr_server_park(call->server,
 * call->ticket). Refuse it, or answer by a system exception, by the functions of lr_server. */
typedef struct {
  lr_server *server;
  uint64_t ticket;
  const lr_idl_operation *operation;
} lr_idl_call;

/* How a method of an interface is called: `servant` is a POA_.. of it, `arguments` point to values. */
typedef struct {
  const lr_idl_operation *operation;
  int64_t (*perform)(const void *servant, const lr_idl_call *call, void *const *arguments);
} lr_idl_method;

typedef struct {
  const char *ids; /* its repository id and those of its bases, with a NUL after each */
  size_t ids_size;
  const lr_idl_method *methods;
  size_t method_count;
} lr_idl_interface;

/* A servant under a key. What it points to outlives it. */
typedef struct {
  const void *key;
  size_t key_size;
  const lr_idl_interface *interface;
  const void *servant;
  uint64_t limit; /* of the arguments of a call */
} lr_idl_offer;

/* Adds the object of an offer to a catalogue, with its repository ids and operations. Errors as of lr_catalogue_..: the
 * catalogue is as it was then. */
int64_t lr_idl_add(lr_catalogue *catalogue, const lr_idl_offer *offer);

/* Which of some offers has the key of the request that waits; NULL where none has it. */
const lr_idl_offer *lr_idl_find(const lr_idl_offer *offers, size_t count, lr_server *server, const lr_request *asked);

/* Has the request that waits performed by the servant of an offer, whatever its key is, and answers what the function
 * of the servant did: below 0 an error, with which the request may wait still. _is_a and _non_existent are answered.
 * Arguments that are not of their types, or pass the limit, are answered MARSHAL, want of memory NO_MEMORY, both
 * COMPLETED_NO, and a function that is NULL NO_IMPLEMENT. Where the function answers LR_E_OUTCOME, as for an exception
 * that its operation does not declare, the request is answered UNKNOWN, COMPLETED_MAYBE. LR_E_NONE: it is no operation
 * of the interface, or would be refused (LR_SET_ASK_FIRST), and now is. */
int64_t lr_idl_perform(const lr_idl_offer *offer, lr_server *server, const lr_request *asked);

/* What stands below the functions that are made. Answers a call by the values of its results: LR_E_OUTCOME where it is
 * of another operation. Results that are none of their types answer INTERNAL, COMPLETED_MAYBE, and are the error. Other
 * errors as of lr_server_answer: the request waits still. */
int64_t lr_idl_answer(const lr_idl_call *call, const lr_idl_operation *operation, const void *const *results);

/* Answers a call by an exception: LR_E_OUTCOME where its operation does not declare it. Else as lr_idl_answer. */
int64_t lr_idl_raise(const lr_idl_call *call, const lr_idl_exception *exception, const void *members);

/* Answers NO_IMPLEMENT, COMPLETED_NO. */
int64_t lr_idl_lacking(const lr_idl_call *call);

/* ---- stubs ---- */

/* A host and a port. */
typedef struct {
  char *host;
  uint16_t port;
} lr_idl_address;

/* Where objects are asked for: addresses in order, of servers that share their outcomes, and the key of an object. */
typedef struct {
  lr_idl_address *addresses;
  uint32_t count, next; /* how many there are, and which is asked */
  uint32_t version;     /* of IIOP 1.. that all have */
  void *key;
  size_t key_size;
} lr_idl_road;

#define LR_IDL_ROAD {NULL, 0, 0, 2, NULL, 0}

/* Makes calls over TCP, one at a time, and waits for each: it is sent again under its number on each new connection,
 * and after TRANSIENT, until it is answered or expires. An address that can't be reached, is lost without an answer,
 * answers TRANSIENT, or says nothing for `answer_timeout` is left for the next one. A call that is forwarded is asked
 * for where it leads, and so are later ones of its key, until nobody answers there. A oneway call has ended once it is
 * sent. Its client id is random. But for `patience`, `answer_timeout` and `limit` it is not yours to change. */
typedef struct {
  lr_client client;
  int fd;            /* of its socket, -1 where it is not connected */
  uint64_t patience; /* how long calls that come are sent again, and a socket is waited for, in 100 ns: 60 seconds */
  /* How long one of several addresses may say nothing to a call, in 100 ns; 0: its share of `patience`. */
  uint64_t answer_timeout;
  uint64_t limit; /* of what a reply has */
  lr_idl_road home;
  lr_idl_road led; /* where the last forward leads; it has no addresses where that counts no more */
  void *from;      /* the key that was forwarded */
  size_t from_size;
  int64_t last; /* the number of the last call */
  char id[32];
  bool is_led;   /* the client asks where the forward leads */
  bool is_heard; /* an answer came on this connection */
  bool is_sent;  /* a call was sent on it that is not answered */
  bool is_lost;  /* .. and on one before */
  uint64_t since; /* when something was sent or came last, by a clock that nobody sets, in 100 ns */
} lr_idl_caller;

#define LR_IDL_CALLER \
  {LR_INIT, -1, 0, 0, 0, LR_IDL_ROAD, LR_IDL_ROAD, NULL, 0, 0, {0}, false, false, false, false, 0}

/* Opens a caller of a server, which is LR_IDL_CALLER before. LR_E_OPEN, LR_E_MEMORY. */
int64_t lr_idl_caller_open(lr_idl_caller *caller, const char *host, uint16_t port);

/* .. of the object that a stringified reference names: of all its addresses of IIOP, also in components
 * TAG_ALTERNATE_IIOP_ADDRESS, under the key of the first one. LR_E_OPEN, LR_E_REFERENCE (it is none, or has no such
 * address), LR_E_MEMORY. */
int64_t lr_idl_caller_of(lr_idl_caller *caller, const char *reference);

/* Closes a caller, and makes it LR_IDL_CALLER. */
void lr_idl_caller_close(lr_idl_caller *caller);

/* An object of any interface, as stubs call it. The caller and the key outlive it. */
typedef struct {
  lr_idl_caller *caller;
  const void *key;
  size_t key_size;
} lr_idl_object;

/* The object of the reference that a caller was opened of. */
static inline lr_idl_object lr_idl_object_of(lr_idl_caller *caller) {
  lr_idl_object object = {caller, caller->home.key, caller->home.key_size};
  return object;
}

/* What a server raised. */
typedef struct {
  char *id;                          /* its repository id; NULL where nothing was raised */
  uint32_t minor, completed;         /* of a system exception: its minor code, LR_COMPLETED_.. */
  const lr_idl_exception *exception; /* of one that the operation declares; NULL of another one */
  void *members;                     /* .. a value of its struct */
} lr_idl_raised;

#define LR_IDL_RAISED {NULL, 0, 0, NULL, NULL}

/* Frees what was raised, and makes it LR_IDL_RAISED. */
void lr_idl_raised_free(lr_idl_raised *raised);

/* What stands below the stubs. Calls an operation, and answers LR_ENDED_RETURNED, which is LR_OK: the results are
 * there; LR_ENDED_RAISED: an exception that it declares; LR_ENDED_SYSTEM: a system exception; or an error: LR_E_RANGE
 * (an argument passes a bound, or is none of its enum: nothing is sent), LR_E_EXPIRED, LR_E_VALUE and LR_E_SHORT
 * (results that are none of their types, or too many), LR_E_OUTCOME (an exception that it does not declare, or a
 * forward to no address), LR_E_MEMORY (it may have been performed). Where no address can be reached as it expires, it
 * ends by TRANSIENT, COMPLETED_NO, or by COMM_FAILURE, COMPLETED_MAYBE, if a connection was lost on which it was sent.
 * `raised` may be NULL; what it held before is freed. A result that goes where an argument stands takes its place; one
 * whose place is NULL is freed. Of an operation of octets the result is the body of an exception too, behind its id. */
int64_t lr_idl_invoke(const lr_idl_object *object, const lr_idl_operation *operation, const void *const *arguments,
                      void *const *results, lr_idl_raised *raised);

#ifdef __cplusplus
}
#endif

#endif
