"""A plain model of an engine and its owner: what is asked for, parked, answered and written in a script.

A script is events on connections, and what the owner does, as `giop play --engine` takes it. The model looks back over
all requests that came (`Server` of tests/ends_model.py): each distinct admissible request is asked for once, in the
order in which they came first, and again only where it was given up, declined or told unkept. A request that is parked acts when it
is answered. A repeat of one waits with it, and is told with it; where more than so many wait on connections that go on
it is told TRANSIENT. Of a request that is declined, or told an outcome unkept, nothing stays. The model knows of each message what it says and where
it ends, and reads no octets.
"""
from collections import namedtuple

from tests import giop
from tests.ends_model import CLOSE, ERROR, Server, refused
from tests.giop import CLOSE_CONNECTION, HEADER, MAYBE, MESSAGE_ERROR

STATUSES = {"returned": giop.NO_EXCEPTION, "raised": giop.USER_EXCEPTION, "system": giop.SYSTEM_EXCEPTION}
FULL, EMPTY, NONE = "full", "empty", "none"
BAD = "bad"
# what a request is told that is declined
NOT_NOW = refused("TRANSIENT")

# what a play keeps to, and how many requests may be parked, and repeats wait for one beside the first
Terms = namedtuple("Terms", "capacity share total limit partials")
Places = namedtuple("Places", "parked joined")
NO_PLACES = Places(0, 0)
# what a message says: a request, whose field is its key, None or BAD; or the key of an object that is looked for
Asked = namedtuple("Asked", "version request_id wish field call")
Sought = namedtuple("Sought", "version request_id key")


def minor_of(said):
    """The minor version of what is said."""
    return int(said.version[2])


def reply_to(asked, outcome):
    """The Reply that a request gets with an outcome, or nothing."""
    if asked.wish == NONE:
        return b""
    how, *_, body = outcome.split()
    octets = b"" if asked.wish == EMPTY and how == "returned" else bytes.fromhex(body)
    return giop.reply(asked.request_id, octets, status=STATUSES[how], minor=minor_of(asked))


def located(sought):
    """The LocateReply to what is looked for."""
    status = giop.OBJECT_HERE if sought.key == "c" else giop.UNKNOWN_OBJECT
    return giop.located(sought.request_id, status, minor=minor_of(sought))


def line_of(event):
    """The line of an event."""
    return " ".join(word.hex() if isinstance(word, bytes) else str(word) for word in event)


class Lost(Exception):
    """A connection is lost, for want of an answer, and what is written on it before."""

    goodbye = b""

    def line(self, number, since):
        """What is printed of it, where so many requests and locates came since the engine stopped."""
        raise NotImplementedError


class GivenUp(Lost):
    """The owner gave a request up."""

    why = "given_up"

    def line(self, number, since):
        return f"{self.why} {number} {since}"


class NoPlace(GivenUp):
    """There is no place to park it."""

    why = "full"


class Left(GivenUp):
    """The owner gave a request up, and closed its connection."""

    goodbye = CLOSE_CONNECTION


class NotParked(Exception):
    """Nothing is parked under a number that is answered or declined."""


class Wire:
    """A connection: how many octets came, and whether its stream has ended or the server closed it."""

    def __init__(self):
        self.came, self.has_ended, self.is_shut = 0, False, False


class Parked:
    """A call that is parked, and who waits for its outcome, each with its connection."""

    def __init__(self, call):
        self.call, self.waiting = call, []


class Engine(Server):
    """An engine and its owner, and the lines that are printed. `streams` has all messages of each connection."""

    def __init__(self, terms, streams, places=NO_PLACES):
        super().__init__(terms.limit, terms.capacity, terms.share, terms.total)
        self.streams, self.places, self.wires, self.greatest = streams, places, {}, -1
        self.manner, self.parks, self.parked = "performs", 0, {}
        # how many requests were asked for; at how many the engine stopped in a piece; and whether the last of these
        # was a repeat that is not noted
        self.asks, self.stops, self.is_repeated = 0, 0, False
        self.journal, self.lines = [], []

    def is_going(self, number):
        """Whether what comes on a connection has a meaning."""
        wire = self.wires.get(number)
        return wire is not None and not wire.has_ended and not wire.is_shut

    def going(self, parked):
        """Who waits for what is parked, on connections that go on."""
        return [(number, asked) for number, asked in parked.waiting if self.is_going(number)]

    def waits_on(self, number):
        """Whether somebody waits on a connection for what is parked."""
        return any(number == waiter for parked in self.parked.values() for waiter, _ in parked.waiting)

    def apply(self, call):
        """The outcome that the owner has."""
        if self.manner == "performs":
            return super().apply(call)
        if not self.manner.startswith("system "):
            raise GivenUp
        _, name, minor = self.manner.split(" ")
        return refused(name, int(minor), MAYBE)

    def answer_now(self, connection, call):
        """What the owner answers to what it is asked for."""
        if self.manner == "declines":
            return NOT_NOW
        if self.manner == "leaves" and not self.waits_on(connection):
            raise Left
        return self.apply(call)

    def note(self, line):
        """Notes a line of what was asked for."""
        self.journal.append(line)

    def ask(self, connection, asked):
        """Asks for a request: what the owner answers, or the request, parked."""
        call, number = asked.call, self.asks
        what = f"{connection} {call.key.decode()} {call.operation.decode()}"
        self.asks, self.stops = self.asks + 1, self.stops + 1
        is_to_park, self.parks = self.parks > 0, max(0, self.parks - 1)
        self.note(f"ask {what}")
        if not is_to_park:
            return self.answer_now(connection, call)
        self.note(f"parked {number} {what}")
        if self.places.parked <= len(self.parked):
            self.journal.pop()
            raise NoPlace
        self.parked[number] = Parked(call)
        self.wait(connection, asked, self.parked[number])
        return self.parked[number]

    def wait(self, connection, asked, parked):
        """Has a request wait for what is parked, if it wants an answer."""
        if asked.wish != NONE:
            parked.waiting.append((connection, asked))

    def repeat(self, connection, asked, parked):
        """What a repeat of what is parked is told at once, if anything."""
        is_full = asked.wish != NONE and self.places.joined < len(self.going(parked))
        if not is_full:
            self.wait(connection, asked, parked)
        self.stops, self.is_repeated = self.stops + 1, True
        return refused("TRANSIENT", 0, MAYBE) if is_full else parked

    def keeps(self, came):
        """Whether what a request was answered stays."""
        return came != NOT_NOW

    def keyed(self, connection, asked):
        """What a request with a key gets: an outcome, or what is parked."""
        key, call = asked.field, asked.call
        if call.expiration < self.clock:
            return refused("BAD_CONTEXT")
        for other, _, came in self.performed:
            if other == key:
                return self.repeat(connection, asked, came) if isinstance(came, Parked) else came
        refusal = self.refusal_of(call) or (None if self.has_room(key) else refused("NO_RESOURCES"))
        if refusal:
            return refusal
        came = self.ask(connection, asked)
        if self.keeps(came):
            self.performed.append((key, call.expiration, came))
        return came

    def came_of(self, connection, asked):
        """What a request gets: an outcome, or what is parked."""
        if asked.field == BAD:
            return refused("MARSHAL")
        if asked.field is None:
            return self.refusal_of(asked.call) or self.ask(connection, asked)
        return self.keyed(connection, asked)

    def reply(self, asked, outcome):
        """The octets of a reply."""
        return reply_to(asked, outcome)

    def answer_at_once(self, connection, said):
        """The octets that are written for what is said, as soon as it comes."""
        if isinstance(said, Sought):
            return located(said)
        came = self.came_of(connection, said)
        return b"" if isinstance(came, Parked) else self.reply(said, came)

    def heard(self, number, before, after):
        """What is heard of a stream between two places; a message over the limit ends it by its header."""
        place = 0
        for octets, said in self.streams.get(number, []):
            if self.message < len(octets):
                if before < place + HEADER <= after:
                    yield ERROR
                return
            place += len(octets)
            if before < place <= after and said is not None:
                yield said

    def end(self):
        """The end of a piece."""

    def feed(self, number, wire, before):
        """Answers what came: the octets that are written; and what is printed where the connection is lost, or None."""
        written, since = b"", 0
        try:
            for said in self.heard(number, before, wire.came):
                if said in (CLOSE, ERROR):
                    wire.has_ended = True
                    return written + (MESSAGE_ERROR if said == ERROR else b""), None
                stopped = self.stops
                written += self.answer_at_once(number, said)
                if self.is_repeated:
                    self.is_repeated = False
                    self.note(f"repeat {number}")
                since = since + 1 if stopped == self.stops else 0
            self.end()
        except Lost as lost:
            return written + lost.goodbye, lost.line(number, since)
        return written, None

    def open(self, number):
        """Opens a connection."""
        if self.greatest < number:
            self.greatest, self.wires[number] = number, Wire()
        return b"", None

    def close(self, number):
        """Closes a connection, unless somebody waits on it for an outcome."""
        if not self.is_going(number):
            return b"", None
        if self.waits_on(number):
            self.journal.append(f"waits {number}")
            return b"", None
        self.wires[number].is_shut = True
        return CLOSE_CONNECTION, None

    def lose(self, number):
        """Loses a connection."""
        self.wires.pop(number, None)
        return b"", None

    def bytes(self, number, moment, octets):
        """Takes octets that come on a connection at a moment."""
        self.clock = max(self.clock, moment)
        wire = self.wires.get(number) or Wire()
        before, wire.came = wire.came, wire.came + len(octets)
        return self.feed(number, wire, before) if self.is_going(number) else (b"", None)

    def happen(self, name, number, *words):
        """Takes an event on a connection, and prints its lines."""
        takes = {"open": self.open, "close": self.close, "lost": self.lose, "bytes": self.bytes}
        written, lost = takes[name](number, *words)
        self.lines += self.journal
        self.journal.clear()
        self.print(number, written)
        if lost:
            self.lines.append(lost)
            self.lose(number)

    def print(self, number, written):
        """Prints what is written on a connection, if anything is."""
        if written:
            self.lines.append(f"{number} {written.hex()}")

    def tell(self, number, asked, outcome):
        """Prints the reply to one who waited."""
        self.print(number, reply_to(asked, outcome))

    def parked_under(self, number):
        """What is parked under a number."""
        if number not in self.parked:
            raise NotParked
        return self.parked[number]

    def tell_all(self, number, outcome):
        """Prints the replies to all who waited for what was parked under a number, and is not any more."""
        for connection, asked in self.parked.pop(number).waiting:
            if self.is_going(connection):
                self.tell(connection, asked, outcome)

    def answer(self, number):
        """Has the owner answer what is parked under a number, and prints the replies."""
        parked = self.parked_under(number)
        try:
            outcome = self.apply(parked.call)
        except GivenUp:
            self.lines.append(f"unanswered {number}")
            return
        self.performed = [(key, end, outcome if came is parked else came) for key, end, came in self.performed]
        self.tell_all(number, outcome)

    def decline(self, number):
        """Has the owner decline what is parked under a number, and prints the replies: nothing of it stays."""
        parked = self.parked_under(number)
        self.performed = [(key, end, came) for key, end, came in self.performed if came is not parked]
        self.tell_all(number, NOT_NOW)

    def chosen(self, name, pick):
        """The numbers of an event: each that is parked, in an order by a number; one of them; or one under which nothing
        is parked."""
        some = sorted(self.parked)
        if name == "all":
            return sorted(some, key=lambda number: number * pick % 1009)
        if name == "stray":
            return [pick if pick not in self.parked else self.asks]
        return some[pick % len(some):][:1] if some else []

    def step(self, event):
        """Takes an event, or what the owner does, and gives its lines in a script, each before it is played."""
        name, *words = event
        if name in ("all", "any", "stray"):
            pick, verb = words
            for number in self.chosen(name, pick):
                yield from self.step((verb, number))
            return
        yield line_of(event)
        if name == "owner":
            self.manner = words[0]
        elif name == "park":
            self.parks += 1
        elif name in ("answer", "decline"):
            getattr(self, name)(*words)
        else:
            self.happen(name, *words)


# a script, what is printed for it, and on standard error
Played = namedtuple("Played", "given printed error")


def play(terms, streams, events, places=NO_PLACES):
    """Plays a script up to the first line that answers or declines what is not parked. `all`, `any` and `stray` have a
    number by which it is chosen of what is parked then (`chosen`), and whether it is answered or declined."""
    engine, given = Engine(terms, streams, places), []
    try:
        for event in events:
            for line in engine.step(event):
                given.append(line)
    except NotParked:
        return Played(given, engine.lines, f"line {len(given)}: not parked\n")
    return Played(given, [*engine.lines, f"total {engine.total}"], "")


def lines_of(terms, streams, events):
    """What is printed for a script without parked requests."""
    return play(terms, streams, events).printed


def answers_in(lines):
    """What does not depend on where pieces are cut: what was asked for, parked and repeated, the octets on each
    connection, and the total."""
    octets = {}
    for line in lines:
        name, *words = line.split(" ")
        if name.isdigit():
            octets[name] = octets.get(name, "") + words[0]
    names = ("ask", "parked", "repeat", "unanswered", "total")
    return [line for line in lines if line.split(" ")[0] in names], octets
