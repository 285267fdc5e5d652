/*
 * A loop that serves an lr_server over TCP to many connections at once. What it keeps is bounded: of a peer 20 KiB
 * here, and in the server what the limits of that allow (lr_server_set), of which it sets two, LR_SET_DUE and
 * LR_SET_PARKED_OF.
 */
#ifndef LOOP_H
#define LOOP_H

#include <lemonrudder.h>

/* These may be defined otherwise. How many peers are served at once: */
#ifndef LOOP_PEERS
#define LOOP_PEERS 1000
#endif
/* how many octets are due to a peer from which on it is fed no more: */
#ifndef LOOP_DUE
#define LOOP_DUE 65536
#endif
/* how many requests of a peer are parked from which on it is fed no more: */
#ifndef LOOP_PARKED
#define LOOP_PARKED 64
#endif
/* how many seconds a peer may be idle: it sends nothing, takes nothing of what is due, and nothing of it is parked.
 * Then it is told goodbye, or dropped where something is due: */
#ifndef LOOP_IDLE
#define LOOP_IDLE 300
#endif
/* how many milliseconds pass, 1,000 at most, until `settle` is called again: */
#ifndef LOOP_TICK
#define LOOP_TICK 1000
#endif
/* how many seconds after SIGTERM what is parked may be answered: */
#ifndef LOOP_DRAIN
#define LOOP_DRAIN 30
#endif
/* and 1 where the server asks first (LR_SET_ASK_FIRST). */
#ifndef LOOP_ASKS_FIRST
#define LOOP_ASKS_FIRST 0
#endif

/* Listens at an IPv4 address, and answers a socket, or -1. Port 0 becomes one that is free. From then on SIGTERM ends
 * loop_serve, and not the process. */
int loop_listen(const char *address, uint16_t *port);

/* Prints a line: the reference of an object of a type at an address, IIOP 1.minor. Answers its size, or LR_E_.. */
int64_t loop_print(const char *type, size_t type_size, uint32_t minor, const char *address, uint16_t port,
                   const void *key, size_t key_size);

/* Serves until SIGTERM. Then each peer is told goodbye, behind the replies to what it has parked. `perform` answers the
 * request that waits, or parks it; one that it leaves waiting is refused by TRANSIENT, so of that it must have done
 * nothing.
 * `settle`, or NULL, answers parked requests whose outcome is there: it is called after loop_wake, and every LOOP_TICK.
 * Answers 0, or -1 where errno says why.
 *
 * A peer whose stream has ended has five seconds to close. Where there is no place or descriptor for another one, such
 * a peer is dropped, or the one that is idle longest, for a second at least, is told goodbye; else it waits. */
int loop_serve(lr_server *server, int listener, void (*perform)(lr_server *server, const lr_request *asked),
               void (*settle)(lr_server *server));

/* Takes an object away: `perform` and `settle` may, on whose thread it is. Who asks for it from now on is answered
 * OBJECT_NOT_EXIST; with LOOP_ASKS_FIRST `perform` is asked for what has FT_REQUEST, as for what is refused so. What is
 * parked of it ends by its own outcome, which is kept. Once nothing of it is parked it is taken out of what the server
 * has on offer (lr_catalogue_remove); up to then its key is taken, and a LocateRequest says that it is here.
 * LR_E_MEMORY. */
int64_t loop_remove(const void *key, size_t key_size);

/* Has `settle` called, on the thread of loop_serve. It may be called by any thread, and in a signal's handler. */
void loop_wake(void);

#endif
