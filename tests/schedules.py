"""Plays random schedules of clients and a server with the program `schedule_player`, and compares with a model.

A schedule is a server, two clients and sixty steps or more, by a seed; crates/schedule_player/src/lines.rt says what
its lines are. A client may crash: one of the same id then takes up again what it had pending, and steps in its place. A
call may be forwarded, and is asked for under another key then. Each schedule is played twice: as it is, and with what
goes up and down cut into small pieces. What completes, in order, and the total must be what tests/ends_model.py says,
and the same both times. One that fails is printed with as few steps as are found with which it still does, as the
program takes it.
"""
import random
import unittest

from tests import base, programs
from tests.ends_model import Call, Client, Play, Wire, lines_of, request_size
from tests.giop import HEADER
from tests.smaller import smallest

SEED = 23
COUNT = 600
STEPS = 60
# how many lines of a schedule say what the server and the clients are
HEAD = 5
FINE = 400
LIMIT = 4096  # the least that a message may be allowed
NAMES = ["A", "B", "AB", "client", "x" * 256]
VERSIONS = ["1.0", "1.1", "1.2"]
EDGES = [-(1 << 63), -(1 << 63), 500 - (1 << 63), (1 << 63) - 501, (1 << 63) - 1, (1 << 63) - 1]


class Maker:
    """Makes the lines of a schedule. It plays them with the model, to know where messages end and when calls do."""

    def __init__(self, dice):
        self.dice = dice
        self.now = dice.randint(0, 100)
        self.long = dice.choice([0, 0, 0, 0.1, 0.3])
        self.calls = dice.choice([6, 10, 10, 30])
        self.is_dense = dice.random() < 0.3
        self.play = Play()
        self.lines = []
        # the place at which each of the two clients now is: 0 and 1 before a crash, 2 and 3 after it
        self.places = [0, 1]
        self.head()

    def add(self, line):
        self.lines.append(line)
        self.play.take(line)

    def head(self):
        """The lines of the server and the clients."""
        dice = self.dice
        capacity, share = dice.choice([(1024, 1024), (1024, 1024), (2, 2), (3, 1), (1, 1), (0, 0), (4, 1024)])
        total = dice.choice([0, 0, 0, *EDGES])
        server = LIMIT if self.long else dice.choice([LIMIT, 1048576])
        self.add(f"server {server} {dice.randint(1, 16)} {capacity} {share} {total}")
        clients = []
        for name in dice.sample(NAMES, 2):
            limit = dice.choice([LIMIT, 16777216])
            clients.append(f"client {name} {dice.choice(VERSIONS)} {limit} {dice.randint(1, 16)}")
        for line in [*clients, *clients]:
            self.add(line)

    def at(self, client):
        """The client at a place, or None where there is none."""
        return self.play.clients[client] if client < len(self.play.clients) else None

    def moment(self):
        """A moment: mostly a little later, at times earlier, or about when a call expires."""
        dice = self.dice
        ends = [p.call.expiration for c in self.play.clients for p in c.pending if p.call.expiration < self.now + 60]
        ends += [expiration for _, expiration, _ in self.play.server.performed if expiration < self.now + 60]
        if ends and dice.random() < 0.3:
            end = max(0, dice.choice(ends) + dice.choice([-1, 0, 0, 1]))
            self.now = max(self.now, end)
            return end
        self.now += dice.choice([0, 0, 0, 1] if self.is_dense else [0, 0, 1, 3, 10])
        return max(0, self.now - dice.choice([0, 0, 0, 0, 5, 40]))

    def long_operation(self, client):
        """A name with which a Request has about as many octets as the limit."""
        most = LIMIT - request_size(client.version, client.client_id, 1, Call("c", "", 0, []))
        return "x" * (most + self.dice.randint(-9, 5))

    def call(self, client):
        dice, now = self.dice, self.moment()
        operation = dice.choice(["add"] * 8 + ["get", "get", "sub", ""])
        if self.at(client) and dice.random() < self.long:
            operation = self.long_operation(self.at(client))
        key = dice.choice(["c"] * 10 + ["f", "f", "d", ""])
        spans = [1, 1, 2, 3, 1000] if self.is_dense else [1000] * 6 + [50, 20, 5, 0, -1]
        expiration = max(0, now + dice.choice(spans))
        argument = dice.choice(["", *[f" {n}" for n in (0, 0, 1, 7, 7, 100, 500, -3, -500, 2147483647, -2147483648)]])
        return f"call {client} {now} {key} {operation} {expiration}{argument}"

    def count(self, messages, place):
        """How many octets are delivered: none, a few, all, or up to a message's end or header, or one more or less."""
        dice, ends, start = self.dice, [], 0
        for size, _ in messages:
            ends += [start + HEADER - place, start + size - place]
            start += size
        ends = [end for end in ends if 0 < end]
        some = [0, dice.randint(1, 40), 5000, 5000, 100000]
        if ends:
            some += [dice.choice(ends) + dice.choice([-1, 0, 0, 0, 1]) for _ in range(4)]
        return dice.choice(some)

    def number(self, client):
        """The number of a call: mostly of a pending one."""
        pending = [p.number for p in self.at(client).pending] if self.at(client) else []
        return self.dice.choice([*pending, *pending[:1] * 3, self.dice.randint(1, 20), 0, -1])

    def led(self, client):
        """The number of a call: of one that is led elsewhere, if one is, or of some."""
        numbers = [p.number for p in self.at(client).pending if p.is_led] if self.at(client) else []
        return self.dice.choice([*numbers * 3, self.number(client)])

    def other_key(self):
        """A key under which a call is asked for that is led elsewhere."""
        return self.dice.choice(["c", "c", "c", "f", "d", "", "elsewhere"])

    def step(self):
        dice, client = self.dice, self.dice.choice([*self.places * 4, self.places[1], 4])
        kinds = {"call": self.calls, "connect": 8, "up": 14, "down": 14, "cut": 2, "shut": 3, "cancel": 4, "tick": 2,
                 "keep": 1, "forwards": 1, "redirect": 2, "resend": 3}
        kind = dice.choices(list(kinds), kinds.values())[0]
        wire = (self.at(client) or Client("", "1.2")).wire or Wire()
        if kind == "call":
            return self.call(client)
        if kind == "up":
            return f"up {client} {self.count(wire.up, wire.went)} {self.moment()}"
        if kind == "down":
            return f"down {client} {self.count(wire.down, wire.came)}"
        if kind == "cancel":
            return f"cancel {client} {self.number(client)}"
        if kind == "keep":
            return f"keep {client} {dice.choice([0, 1])}"
        if kind == "forwards":
            return f"forwards {client} {dice.choice([0, 1, 1])}"
        if kind == "redirect":
            return f"redirect {client} {self.led(client)} {self.other_key()}"
        if kind in ("connect", "resend", "tick"):
            return f"{kind} {client} {self.moment()}"
        return f"{kind} {client}"

    def to_header(self, wire):
        """How many octets go up to the header of the first message that is over the limit, or some."""
        start = 0
        for size, _ in wire.up:
            if self.play.server.message < size and wire.went < start + HEADER:
                return start + HEADER - wire.went - self.dice.choice([0, 0, 1])
            start += size
        return self.count(wire.up, wire.went)

    def recover(self, client):
        """What comes of what the server heard: all goes down, what can't be heard is cancelled, all is sent again."""
        wire = self.play.clients[client].wire or Wire()
        self.add(f"up {client} {self.to_header(wire)} {self.now}")
        self.add(f"down {client} 5000")
        for pending in self.play.clients[client].pending[:]:
            if len(pending.call.operation) > 20:
                self.add(f"cancel {client} {pending.number}")
        for line in (f"connect {client} {self.now}", f"up {client} 100000 {self.now}", f"down {client} 5000"):
            self.add(line)

    def lapse(self, client):
        """A pending call expires before a connection: it isn't sent there, and cancelling it writes nothing."""
        for pending in self.play.clients[client].pending:
            if pending.call.expiration < self.now + 60:
                self.now = max(self.now, pending.call.expiration + 1)
                self.add(f"cut {client}")
                self.add(f"connect {client} {self.now}")
                self.add(f"cancel {client} {pending.number}")
                self.add(f"call {client} {self.now} c get {self.now + 1000}")
                self.add(f"up {client} {sum(size for size, _ in self.play.clients[client].wire.up)} {self.now}")
                self.add(f"down {client} 5000")
                return

    def lead(self, client):
        """A call is forwarded, and asked for under another key, on this connection or on the next one."""
        dice, now = self.dice, self.now
        self.add(f"forwards {client} 1")
        self.add(f"call {client} {now} f add {now + 1000} 7")
        for _ in range(2):
            for line in (f"connect {client} {now}", f"up {client} 5000 {now}", f"down {client} 5000"):
                self.add(line)
            self.add(f"redirect {client} {self.led(client)} {self.other_key()}")
            self.add(dice.choice([f"resend {client} {now}", f"cut {client}", f"forwards {client} 0"]))

    def crash(self, which):
        """A client is gone, and one of its id takes up again what it had pending, if that had not happened yet."""
        old, new = which, which + 2
        if self.places[which] == new:
            return
        self.places[which] = new
        self.add(f"cut {old}")
        gone = self.at(old)
        for pending in gone.pending:
            call = pending.call
            words = [call.key.decode(), call.operation.decode(), call.expiration, *call.arguments]
            self.add(" ".join(str(word) for word in ["recall", new, pending.number, self.now, *words]))
        self.add(f"skip {new} {gone.last}")

    def made(self, steps):
        """All lines, with so many steps or some more."""
        for _ in range(steps):
            self.add(self.step())
            which, chance = self.dice.choice([0, 1]), self.dice.random()
            if chance < 0.02:
                self.recover(self.places[which])
            elif chance < 0.04:
                self.lapse(self.places[which])
            elif chance < 0.05:
                self.crash(which)
            elif chance < 0.07:
                self.lead(self.places[which])
        return [*self.lines, "end"]


def crowded(dice):
    """A schedule in which a client calls more often than calls may be pending."""
    maker = Maker(dice)
    for _ in range(90):
        maker.add(maker.call(0))
    maker.made(STEPS)
    for _ in range(10):
        maker.add(maker.call(0))
    return maker.made(STEPS)


def parts_of(dice, count):
    """Small numbers whose sum is this one; it alone, if it is 0."""
    if count == 0:
        return [0]
    parts = []
    while sum(parts) < count:
        parts.append(min(dice.randint(1, 40), count - sum(parts)))
    return parts


def in_pieces(dice, lines):
    """The schedule with what goes up and down in small pieces; of more than FINE octets the rest stays whole."""
    for line in lines:
        name, *words = line.split(" ")
        if name not in ("up", "down"):
            yield line
            continue
        client, count, *rest = words
        for part in parts_of(dice, min(int(count), FINE)):
            yield " ".join([name, client, str(part), *rest])
        if FINE < int(count):
            yield " ".join([name, client, str(int(count) - FINE), *rest])


def made(seed):
    """The schedule of a seed, as it is and in pieces."""
    dice = random.Random(seed)
    lines = crowded(dice) if seed % 40 == 0 else Maker(dice).made(STEPS)
    return lines, list(in_pieces(dice, lines))


class Schedules(unittest.TestCase):
    """Clients and a server over cut and slow connections."""

    @classmethod
    def setUpClass(cls):
        cls.player = programs.program("SCHEDULE_PLAYER")

    def played(self, *plays):
        """How the program ends on schedules: its status, and what it prints."""
        run = base.ran(self.player, given="".join(line + "\n" for lines in plays for line in lines).encode())
        return run.returncode, run.stderr.decode(), run.stdout.decode().splitlines()

    def is_wrong(self, lines):
        """Whether the program and the model differ on a schedule."""
        return self.played(lines) != (0, "", lines_of(lines))

    def said_of(self, lines):
        """What is said of a schedule that fails: it with fewer steps, and what is wrong then."""
        head, steps = lines[:HEAD], lines[HEAD:-1]
        fewer = [*head, *smallest(steps, lambda some: self.is_wrong([*head, *some, "end"])), "end"]
        status, error, got = self.played(fewer)
        return "\n".join([f"{len(fewer)} of {len(lines)} lines:", *fewer, "wanted:", *lines_of(fewer), "got:", *got,
                          f"status {status} {error}"])

    @base.each_seed(SEED, COUNT)
    def test_schedules(self, seed):
        """What completes is what the model says, as it is and in pieces."""
        lines, pieces = made(seed)
        wanted = lines_of(lines)
        self.assertEqual(lines_of(pieces), wanted, "the model says another thing of the pieces")
        ended = self.played(lines, pieces)
        if ended != (0, "", wanted * 2):
            wrong = [some for some in (lines, pieces) if self.is_wrong(some)]
            self.fail(self.said_of(wrong[0]) if wrong else f"both together: {ended}, not {wanted} twice")
