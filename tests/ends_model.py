"""A plain model of clients that call again, of a server of the counter and of an object that forwards, and of what is
said between them.

It follows crates/ft_ends/specs/World.antt, and for the two sides the specs of ft_client, ft_orb and giop_link. It
remembers all that ever arrived, and no log. Of a message it knows how long it is and what it says; how long it is, and
the octets of outcomes, come from tests/giop.py.
"""
from tests import giop
from tests.cdr import Octets
from tests.giop import HEADER, NO

MOST_PENDING = 64
LAST_NUMBER = (1 << 31) - 1
LAST_TOTAL = (1 << 63) - 1
CLOSE, ERROR = "close", "error"
CANCEL_SIZE = len(giop.cancel(0))
# how a call ends that TRANSIENT completes, up to the end of the repository id
TRANSIENT = "system big 24 " + "00000020" + b"IDL:omg.org/CORBA/TRANSIENT:1.0\0".hex()
# .. and how it ends where the operation was completed
COMPLETED_YES = "00000000"
# the key of the object that forwards, and the outcome of each call under it: the nil reference
ELSEWHERE = b"f"
FORWARDED = "forwarded big 24 " + "00000001" + "00000000" + "00000000"


def arguments_body(arguments):
    """The body of these longs, or None without any."""

    def put(out):
        for argument in arguments:
            out.long(argument)
    return put if arguments else None


def request_size(version, client_id, number, call):
    """How many octets a Request has."""
    contexts = [giop.ft_request(client_id, number, call.expiration)]
    return len(giop.request(1, call.key, call.operation, arguments_body(call.arguments), minor=int(version[2]),
                            contexts=contexts))


class Call:
    """What a client asks, and until when."""

    def __init__(self, key, operation, expiration, arguments):
        self.key, self.operation = key.encode(), operation.encode()
        self.expiration, self.arguments = expiration, arguments

    def under(self, key):
        """It, as it is asked for under another object key."""
        return Call(key, self.operation.decode(), self.expiration, self.arguments)


def call_of(words):
    """The call of the words `KEY OPERATION EXPIRATION [LONG]`."""
    key, operation, expiration, *arguments = words
    return Call(key, operation, int(expiration), [int(a) for a in arguments])


class Pending:
    """A call that has not ended, its number, how it is asked for now, the request id under which it was sent on this
    connection, if any, and whether it is led elsewhere.
    """

    def __init__(self, number, call):
        self.number, self.call, self.asked, self.sent, self.is_led = number, call, call, None, False


class Wire:
    """A connection: what was written on it either way, as sizes and what messages say, and how much was delivered."""

    def __init__(self):
        self.up, self.down = [], []
        self.went = self.came = self.ids = 0
        self.has_ended = self.is_shut = False


def delivered(messages, before, after):
    """What the messages say whose last octet is delivered between two places."""
    place = 0
    for size, said in messages:
        place += size
        if before < place <= after:
            yield said


def moved_on(messages, place, count):
    """The place after the next octets, at most so many."""
    return min(place + count, sum(size for size, _ in messages))


class Client:
    """A client with its connection, if it has one."""

    def __init__(self, client_id, version):
        self.client_id, self.version = client_id.encode(), version
        self.last, self.pending, self.wire, self.completions = 0, [], None, []
        self.keeps = self.keeps_forwards = False

    def complete(self, pending, how):
        self.pending.remove(pending)
        self.completions.append((pending.number, how))

    def send(self, pending):
        self.wire.ids += 1
        pending.sent = self.wire.ids
        size = request_size(self.version, self.client_id, pending.number, pending.asked)
        self.wire.up.append((size, (pending.sent, (self.client_id, pending.number), pending.asked)))

    def call(self, now, call):
        self.recall(self.last + 1, now, call)

    def recall(self, number, now, call):
        is_free = self.last < number <= LAST_NUMBER
        if not is_free or call.expiration < now or len(self.pending) >= MOST_PENDING:
            return
        self.last = number
        self.pending.append(Pending(number, call))
        if self.wire:
            self.send(self.pending[-1])

    def skip(self, number):
        if number <= LAST_NUMBER:
            self.last = max(self.last, number)

    def connect(self, now):
        self.part()
        self.wire = Wire()
        self.resend(now)

    def resend(self, now):
        for pending in self.pending:
            if self.wire and pending.sent is None and not pending.is_led and now <= pending.call.expiration:
                self.send(pending)

    def part(self):
        self.wire = None
        for pending in self.pending:
            pending.sent = None

    def cancel(self, number):
        for pending in self.pending:
            if pending.number == number:
                if pending.sent is not None:
                    self.wire.up.append((CANCEL_SIZE, None))
                self.complete(pending, "cancelled")
                return

    def tick(self, now):
        for pending in [p for p in self.pending if p.call.expiration < now]:
            self.complete(pending, "expired")

    def redirect(self, number, key):
        for pending in self.pending:
            if pending.number == number and pending.is_led:
                pending.asked, pending.is_led = pending.call.under(key), False

    def is_kept(self, how):
        """Whether a reply leaves its call pending."""
        asks_again = how.startswith(TRANSIENT) and not how.endswith(COMPLETED_YES)
        return (self.keeps and asks_again) or (self.keeps_forwards and how == FORWARDED)

    def settle(self, request_id, how):
        for pending in self.pending:
            if pending.sent == request_id:
                if self.is_kept(how):
                    pending.sent, pending.is_led = None, how == FORWARDED
                else:
                    self.complete(pending, how)
                return

    def down(self, count):
        wire = self.wire
        before, wire.came = wire.came, moved_on(wire.down, wire.came, count)
        for said in delivered(wire.down, before, wire.came):
            if said in (CLOSE, ERROR):
                self.part()
                return
            self.settle(*said)


def body_of(put):
    """The octets of a body, which begins at a multiple of 8."""
    out = Octets()
    put(out)
    return out.all


def returned(total):
    """The outcome that returns a total."""
    return f"returned big 24 {body_of(lambda out: out.longlong(total)).hex()}"


def refused(name, minor_code=0, completion=NO):
    """A system exception; of minor code 0 and COMPLETED_NO, if nothing else is said."""
    return f"system big 24 {body_of(giop.system_body(name, completion, minor_code)).hex()}"


def overflow():
    """The exception of an addition whose sum is no long long."""
    return f"raised big 24 {body_of(lambda out: out.string('IDL:Counter/Overflow:1.0')).hex()}"


def size_of(outcome):
    """How many octets a Reply with it has."""
    return len(giop.reply(1, bytes.fromhex(outcome.split()[-1])))


class Server:
    """The server of the counter: the requests that it performed, each with its key, its expiration and its outcome."""

    def __init__(self, message, capacity, share, total):
        self.message, self.capacity, self.share, self.total = message, capacity, share, total
        self.clock, self.performed = 0, []

    def refusal_of(self, call):
        """Why a call can't be asked of the counter, or None."""
        if call.key != b"c":
            return refused("OBJECT_NOT_EXIST")
        if call.operation not in (b"add", b"get"):
            return refused("BAD_OPERATION")
        if call.operation == b"add" and not call.arguments:
            return refused("MARSHAL")
        return None

    def apply(self, call):
        if call.operation == b"add":
            total = self.total + call.arguments[0]
            if not -LAST_TOTAL - 1 <= total <= LAST_TOTAL:
                return overflow()
            self.total = total
        return returned(self.total)

    def has_room(self, key):
        live = [other for other, expiration, _ in self.performed if self.clock <= expiration]
        return len(live) < self.capacity and sum(other[0] == key[0] for other in live) < self.share

    def answer(self, key, call):
        if call.expiration < self.clock:
            return refused("BAD_CONTEXT")
        for other, _, outcome in self.performed:
            if other == key:
                return outcome
        refusal = self.refusal_of(call)
        if refusal is not None:
            return refusal
        if not self.has_room(key):
            return refused("NO_RESOURCES")
        outcome = self.apply(call)
        self.performed.append((key, call.expiration, outcome))
        return outcome

    def hear(self, wire, before):
        """Answers what has come whole since a place; a message over the limit ends the stream by its header."""
        place = 0
        for size, said in wire.up:
            if self.message < size:
                if place + HEADER <= wire.went:
                    wire.has_ended = True
                    wire.down.append((HEADER, ERROR))
                return
            place += size
            if before < place <= wire.went and said is not None:
                request_id, key, call = said
                outcome = self.answer(key, call)
                wire.down.append((size_of(outcome), (request_id, outcome)))

    def up(self, wire, count, now):
        self.clock = max(self.clock, now)
        before, wire.went = wire.went, moved_on(wire.up, wire.went, count)
        if not wire.is_shut and not wire.has_ended:
            self.hear(wire, before)

    def shut(self, wire):
        if not wire.is_shut and not wire.has_ended:
            wire.down.append((HEADER, CLOSE))
        wire.is_shut = True


class Forwarding(Server):
    """The server of the counter and of the object that forwards."""

    def refusal_of(self, call):
        return None if call.key == ELSEWHERE else super().refusal_of(call)

    def apply(self, call):
        return FORWARDED if call.key == ELSEWHERE else super().apply(call)


class Play:
    """A schedule that is being played, line by line."""

    def __init__(self):
        self.server, self.clients, self.lines = None, [], []

    def take(self, line):
        name, *words = line.split(" ")
        if name == "server":
            self.server = Forwarding(int(words[0]), int(words[2]), int(words[3]), int(words[4]))
        elif name == "client":
            self.clients.append(Client(words[0], words[1]))
        elif int(words[0]) < len(self.clients):
            client = self.clients[int(words[0])]
            self.step(client, name, words[1:])
            self.lines += [f"{words[0]} {number} {how}" for number, how in client.completions]
            client.completions.clear()

    def step(self, client, name, words):
        """Takes a step of a client; `words` are those after the client's place."""
        if name == "call":
            client.call(int(words[0]), call_of(words[1:]))
        elif name == "recall":
            client.recall(int(words[0]), int(words[1]), call_of(words[2:]))
        elif name == "skip":
            client.skip(int(words[0]))
        elif name == "cancel":
            client.cancel(int(words[0]))
        elif name == "tick":
            client.tick(int(words[0]))
        elif name == "keep":
            client.keeps = words[0] != "0"
        elif name == "forwards":
            client.keeps_forwards = words[0] != "0"
        elif name == "redirect":
            client.redirect(int(words[0]), words[1])
        elif name == "resend":
            client.resend(int(words[0]))
        elif name == "connect":
            if client.wire is None:
                client.connect(int(words[0]))
        elif client.wire is not None:
            self.on_wire(client, name, words)

    def on_wire(self, client, name, words):
        """Takes a step that only a connected client can take."""
        if name == "up":
            self.server.up(client.wire, int(words[0]), int(words[1]))
        elif name == "down":
            client.down(int(words[0]))
        elif name == "cut":
            client.part()
        else:
            assert name == "shut", name
            self.server.shut(client.wire)


def lines_of(schedule):
    """What completes in a schedule, given as its lines, and the total: as the program `schedule_player` prints it."""
    play = Play()
    for line in schedule[:-1]:
        play.take(line)
    return [*play.lines, f"total {play.server.total}", "end"]
