/* Made by scripts/header.py of embed/include/lemonrudder.h; not to be edited. The errors: what follows LR_E_ in the name of each, and its text. */
#define ERRORS(E) \
  E(EMPTY, "the slot is empty, or holds an object of another kind") \
  E(OPEN, "the slot holds an object already, or it is too late for this") \
  E(MEMORY, "an allocation failed, and nothing has changed") \
  E(RANGE, "a number is none of those that are allowed") \
  E(CONNECTION, "there is no such connection, or the number of a new one is not greater than each before") \
  E(ASKING, "a request waits for its outcome") \
  E(IDLE, "no request waits") \
  E(PARKS, "as many requests are parked as may be, or somebody waits there for one that is") \
  E(OUTCOME, "no outcome of the operation, or one that can't be sent") \
  E(ROOM, "the room is too small") \
  E(SHORT, "octets are missing at the end") \
  E(VALUE, "the octets are no value of the type") \
  E(TYPES, "the codes spell no valid types") \
  E(TEXT, "a NUL where none may be, or a name of a length that is not allowed") \
  E(TAKEN, "there is an object or operation of that name, or a call of that number or a greater one") \
  E(OBJECT, "there is no object of that key") \
  E(RAW, "every operation of the object is raw") \
  E(REFERENCE, "no stringified reference") \
  E(STREAM, "the stream has a fault, and is at its end") \
  E(NONE, "there is no such part") \
  E(EXPIRED, "the moment is past the expiration") \
  E(CALLS, "as many calls are pending as a client keeps, or it has given all its numbers") \
  E(LONG, "the message would be longer than its size can say") \
  E(LOST, "an allocation failed, and the connection is gone") \
  E(PLACE, "the body would stand at a place that is not divisible by 8") \
  E(TICKET, "no request of that ticket waits or is parked") \
  E(FORWARD, "no pending call of that number is led elsewhere")
