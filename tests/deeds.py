"""Plays random lists of an owner's deeds with the program `deeds_player`, and compares with a model.

A list is requests for the counter, one or more in a piece, and what the owner does of each, by a seed; what is parked
is settled, told unkept or withdrawn later, and meanwhile the counter is hidden, or taken away all the same, and offered
again, the ids of clients are bounded, and the owner is asked first or not. What is parked and lost its object is settled
with a system exception, and so is what would be refused, unless it is refused so, or told what its owner has kept. The lines
of a list are those of crates/deeds_player/src/lines.rt. All that is printed must be what the model says
(tests/engine_model.py): for each deed its connection, how it ended, and what was written; at a moment that is told,
what is kept; and what was counted. A list that fails is printed with as few lines as are found with which it still does, as
the program takes them. tests/embed/deeds_test.py plays these lists with a library.
"""
import random
import unittest
from collections import Counter, namedtuple

from tests import base, giop, programs
from tests.ends_model import Call, arguments_body, refused, size_of
from tests.engine_model import FULL, NONE, NOT_NOW, Asked, Engine, GivenUp, Parked, Places, Terms
from tests.schedules import NAMES
from tests.smaller import smallest

SEED = 31
COUNT = 200
STEPS = 40
PLAYERS = 4
LIMIT = 1048576

# what is known of a call whose object was taken away meanwhile
GONE = refused("UNKNOWN", 0, giop.MAYBE)

# what an engine counts, in the order in which it prints these
COUNTED = ["asked", "repeated", "joined", "expired", "invalid", "log_full", "share_full", "answered", "parked",
           "settled", "given_up", "declined", "withdrawn"]

# a line of a request: its connection, its moment, and what it asks. A deed or a change is (NAME, WORDS..)
Asking = namedtuple("Asking", "connection now asked")


def outcome_words(outcome):
    """The words of an outcome in a reply."""
    how, *_, octets = outcome.split()
    body = bytes.fromhex(octets)
    if how == "returned":
        return str(int.from_bytes(body, "big", signed=True))
    length = int.from_bytes(body[:4], "big")
    name = body[4:4 + length - 1].decode()
    if how == "raised":
        return name
    place = (4 + length + 3) // 4 * 4
    minor, completed = (int.from_bytes(body[at:at + 4], "big") for at in (place, place + 4))
    return f"{name.split('/')[-1].split(':')[0]} {minor} {['YES', 'NO', 'MAYBE'][completed]}"


def outcome_in(outcome):
    """The word of an outcome in a deed."""
    if outcome == GONE:
        return "unknown"
    words = outcome_words(outcome)
    return "overflow" if words.startswith("IDL:") else words


def request_words(asked):
    """The words of a request."""
    call, key = asked.call, "-"
    if asked.field:
        client, number = asked.field
        key = f"{client.decode()}/{number}/{call.expiration}"
    oneway = "oneway " if asked.wish == NONE else ""
    arguments = "".join(f" {argument}" for argument in call.arguments)
    return f"{oneway}{asked.request_id} {asked.version} {key} {call.operation.decode()}{arguments}"


def octets_of(asked):
    """The octets of a request."""
    call = asked.call
    contexts = [giop.ft_request(*asked.field, call.expiration)] if asked.field else []
    return giop.request(asked.request_id, call.key, call.operation, arguments_body(call.arguments),
                        minor=int(asked.version[2]), contexts=contexts)


class Owned(Engine):
    """An engine, its owner, and the lines that it is given and that are printed, for a list of a maker. What the owner
    does of each request that it is asked for stands in `manners`, by the request's id."""

    def __init__(self, maker):
        terms, places = maker.terms, maker.places
        super().__init__(terms, {}, places)
        self.manners, self.is_hidden, self.longest, self.field = maker.manners, False, None, None
        # whether the owner is asked first, and what would refuse the request that it is asked for
        self.is_first, self.would = False, None
        # how many of one connection may be parked, and on which each came
        self.of_one, self.origins, self.counts = maker.of_one, {}, Counter()
        # what the owner keeps of what it told, by the keys; the keys of what is parked; and whether the engine keeps nothing of
        # the last one
        self.stored, self.fields, self.is_unkept = {}, {}, False
        counts = (places.parked, maker.of_one, places.joined, terms.capacity, terms.share)
        self.given = [f"engine {' '.join(map(str, counts))}"]

    def give(self, line):
        """Gives a line."""
        self.given.append(line)

    def deed(self, line, *printed):
        """Gives a deed, played by itself, and prints what comes of it."""
        self.given += [line, "play"]
        self.lines += [*printed, "done"]
        self.flush()

    def flush(self):
        """What was written is sent."""

    def written(self, _connection, words, _size):
        """A message is written on a connection, of so many octets: what is printed of it in the entry."""
        return words

    def is_choked(self, _connection):
        """Whether so much is due on a connection that it is fed no more."""
        return False

    def refused(self, line, why):
        """Gives a deed that is refused."""
        self.given += [line, "play"]
        self.lines.append(f"refused 0 {why}")

    def refusal_of(self, call):
        if self.longest is not None and self.field and self.longest < len(self.field[0]):
            return refused("BAD_CONTEXT")
        refusal = refused("OBJECT_NOT_EXIST") if self.is_hidden else super().refusal_of(call)
        self.would = refusal if self.is_first and self.field else None
        return None if self.would else refusal

    def live(self):
        """What is kept, or will be, of what is parked: its key, its expiration, and what came of it."""
        return [entry for entry in self.performed if self.clock <= entry[1]]

    def decision(self, asked):
        """What becomes of a request, as it is counted."""
        if asked.field and asked.call.expiration < self.clock:
            return "expired"
        for key, _, came in self.performed:
            if key == asked.field:
                return "joined" if isinstance(came, Parked) else "repeated"
        if self.refusal_of(asked.call):
            return "invalid"
        if asked.field is None or self.has_room(asked.field):
            return "asked"
        return "log_full" if self.capacity <= len(self.live()) else "share_full"

    def came_of(self, connection, asked):
        self.field = asked.field
        self.counts[self.decision(asked)] += 1
        return super().came_of(connection, asked)

    def keeps(self, came):
        return not self.is_unkept

    def has(self, field, call, would):
        """What the owner has for a request: by its key what it kept of it, if anything; else, where something would refuse it,
        that nothing is known."""
        if field in self.stored:
            return self.stored[field]
        return GONE if would else self.apply(call)

    def store(self, field, outcome):
        """The owner keeps an outcome by a key."""
        if field is not None:
            self.stored[field] = outcome

    def parked_of(self, connection):
        """How many of the parked requests came on a connection."""
        return sum(self.origins[number] == connection for number in self.parked)

    def reply_words(self, connection, asked, came):
        """What is written at once, in words."""
        if isinstance(came, Parked) or asked.wish == NONE:
            return ""
        return self.written(connection, f" reply {asked.request_id} {outcome_words(came)}", size_of(came))

    def ask(self, connection, asked):
        """Asks for a request: what comes of it, by what the owner does."""
        number, self.asks = self.asks, self.asks + 1
        self.asking, self.is_unkept = True, False
        self.end_piece(connection)
        manner = self.manners[asked.request_id]
        if manner == "park":
            full = self.full(connection)
            if full is None:
                return self.park(number, connection, asked)
            self.refused("park", full)
            manner = "answer"
        if manner == "look":
            self.look(connection, asked)
            manner = "answer"
        if manner in ("give_up", "goodbye"):
            return self.give_up(manner, connection, asked)
        return self.answer_asked(manner, connection, asked)

    def full(self, connection):
        """What is said where there is no place to park a request of a connection, or None."""
        if self.places.parked <= len(self.parked):
            return "unparked full"
        return "unparked share" if self.of_one <= self.parked_of(connection) else None

    def park(self, number, connection, asked):
        """Parks the request that waits."""
        self.deed("park")
        self.counts["parked"] += 1
        self.parked[number], self.origins[number], self.fields[number] = Parked(asked.call), connection, asked.field
        self.parked[number].would = self.would
        self.wait(connection, asked, self.parked[number])
        return self.parked[number]

    def give_up(self, manner, connection, asked):
        """Gives up the request that waits."""
        self.deed(manner, f"{connection} lost {self.handled} {self.handled}")
        self.counts["given_up"] += 1
        raise GivenUp

    def answer_asked(self, manner, connection, asked):
        """Answers the request that waits, tells it an outcome that the engine does not keep, or refuses it: by what would, if
        anything would."""
        is_declined, self.is_unkept = manner == "decline", manner != "answer"
        if is_declined:
            outcome, line = self.would or NOT_NOW, "refuse" if self.would else "decline"
        else:
            outcome = self.fit(manner, self.has(asked.field, asked.call, self.would))
            line = f"{manner} {outcome_in(outcome)}"
        if manner == "tell":
            self.store(asked.field, outcome)
        self.counts["declined" if is_declined else "answered"] += 1
        self.deed(line, f"{connection} done{self.reply_words(connection, asked, outcome)}")
        return outcome

    def fit(self, manner, outcome):
        """An outcome for the request that waits: where something would refuse it, none that is kept is of its operation but a
        system exception."""
        if manner == "answer" and self.would and outcome != GONE:
            self.refused(f"answer {outcome_in(outcome)}", "not fit")
            return GONE
        return outcome

    def look(self, connection, asked):
        """Gives lines that do nothing while a request waits, and an outcome that is not its."""
        ends = [f"close {connection}", f"lost {connection}"]
        late = [line for number in list(self.parked)[:1]
                for line in (f"settle {number} 0", f"tell_parked {number} 0", f"withdraw {number}")]
        for line in ("hide", "drop", "bound 0", "first", "last", "tick 1000000", "opened 1000", *ends, *late):
            self.while_asking(line)
        if asked.call.operation == b"get":
            self.refused("answer overflow", "not fit")

    def while_asking(self, line):
        """Gives a line that does nothing while a request waits."""
        if line.split()[0] in ("opened", "close", "lost", "settle", "tell_parked", "withdraw"):
            self.refused(line, "asking")
        else:
            self.give(line)
            self.lines.append("asking")

    def take(self, step):
        """Takes a step of a list."""
        if isinstance(step, Asking):
            return self.do_asks(step.connection, step.now, [step.asked])
        name, *words = step
        return getattr(self, f"do_{name}")(*words)

    def do_asks(self, connection, now, some):
        """Requests come on a connection at a moment, in one piece; what is not taken of it comes again."""
        while some:
            line = f"asks {connection} {now} {','.join(map(request_words, some))}"
            self.clock = max(self.clock, now)
            wire = self.wires.get(connection)
            if wire is None or wire.is_shut:
                return self.deed(line, f"{connection} {'refused' if wire is None else 'done'}")
            self.given += [line, "play"]
            if self.is_choked(connection):
                self.lines += [f"{connection} done", "left 1 0"]
                self.do_flow()
                continue
            try:
                some = self.take_piece(connection, some)
            except GivenUp:
                return self.lose(connection)
        return None

    def take_piece(self, connection, some):
        """Takes a piece up to the first request that is asked for, or that repeats a parked one, and gives the rest."""
        self.said, self.handled, self.size, self.rest, self.asking = "", 0, 0, some, False
        while self.rest:
            asked, *self.rest = self.rest
            self.size += len(octets_of(asked))
            stops = self.stops
            came = self.came_of(connection, asked)
            if self.asking:
                return self.rest
            self.said += self.reply_words(connection, asked, came)
            self.handled += 1
            if stops != self.stops or self.is_choked(connection):
                break
        self.end_piece(connection)
        return self.rest

    def end_piece(self, connection):
        """Prints what is written for a piece, and how many octets of it are taken, where some are left."""
        self.lines += [f"{connection} done{self.said}", f"left 1 {self.size}" if self.rest else "done"]
        self.flush()

    def do_opened(self, number):
        is_new = self.greatest < number
        self.open(number)
        self.deed(f"opened {number}", f"{number} {'done' if is_new else 'refused'}")

    def do_lost(self, number):
        self.lose(number)
        self.deed(f"lost {number}", f"{number} done")

    def do_close(self, number):
        if number not in self.wires:
            return self.deed(f"close {number}", f"{number} refused")
        if self.is_going(number) and self.waits_on(number):
            return self.refused(f"close {number}", "waits")
        written, _ = self.close(number)
        said = self.written(number, " close", len(written)) if written else ""
        return self.deed(f"close {number}", f"{number} done{said}")

    def do_late(self, verb, pick):
        """What is parked is settled, told unkept or withdrawn, or what is not parked."""
        some = sorted(self.parked)
        number = some[pick % len(some)] if some and pick % 8 else self.asks + pick
        parked = self.parked.get(number)
        if parked is None:
            return self.refused(f"{verb} {number}{'' if verb == 'withdraw' else ' 0'}", "not parked")
        if verb == "withdraw":
            outcome, line = parked.would or NOT_NOW, f"{'refuse' if parked.would else verb} {number}"
        else:
            outcome = self.outcome_of(verb, number, parked)
            line = f"{verb} {number} {outcome_in(outcome)}"
        self.counts["withdrawn" if verb == "withdraw" else "settled"] += 1
        kept = [(key, end, came) for key, end, came in self.performed if verb == "settle" or came is not parked]
        self.performed = [(key, end, outcome if came is parked else came) for key, end, came in kept]
        del self.parked[number]
        told = self.told([(c, self.reply_words(c, asked, outcome)) for c, asked in self.going(parked)])
        return self.deed(line, *told)

    def told(self, replies):
        """What is printed of what those are told who waited, each on its connection."""
        return [f"{connection} done{words}" for connection, words in replies]

    def outcome_of(self, verb, number, parked):
        """The outcome of what is parked: a system exception where its object is gone or it would be refused, since none other
        is taken."""
        field, is_gone = self.fields[number], self.is_hidden or parked.would
        if parked.call.operation == b"get":
            self.refuses(verb, f"{number} overflow")
        if is_gone:
            self.refuses(verb, f"{number} 0")
        if is_gone and not (self.takes_any(verb) and field in self.stored):
            return GONE
        outcome = self.has(field, parked.call, parked.would)
        if verb == "tell_parked":
            self.store(field, outcome)
        return outcome

    def takes_any(self, _verb):
        """Whether any outcome is taken of what is parked."""
        return False

    def refuses(self, verb, words):
        """Gives an outcome that is none of the operation's."""
        if not self.takes_any(verb):
            self.refused(f"{verb} {words}", "not parked")

    def do_drop(self):
        self.give("drop")
        self.is_hidden = True

    def do_offer(self, is_hidden):
        self.give("hide" if is_hidden else "show")
        if self.parked:
            self.lines.append("wanted")
        else:
            self.is_hidden = is_hidden

    def do_bound(self, octets):
        self.give(f"bound {octets}")
        self.longest = octets

    def do_first(self, is_first):
        self.give("first" if is_first else "last")
        self.is_first = is_first

    def do_tick(self, now):
        self.give(f"tick {now}")
        self.clock = max(self.clock, now)
        ends = [end for _, end, _ in self.live()]
        own = sum(client == b"A" for (client, _), _, _ in self.live())
        till = f", till {min(ends)}" if ends else ""
        self.lines.append(f"at {self.clock} keeps {len(ends)}, {own} of A{till}")

    def do_counts(self):
        self.give("counts")
        some = [f"{name} {self.counts[name]}" for name in COUNTED if self.counts[name]]
        self.lines.append(" ".join(["counts", *some]))


class Maker:
    """Makes the steps of a list."""

    def __init__(self, dice):
        self.dice, self.now, self.ids, self.last = dice, dice.randint(0, 100), 0, 0
        capacity, share = dice.choice([(1024, 1024)] * 3 + [(2, 2), (3, 1), (1, 1), (0, 0), (5, 2)])
        self.terms = Terms(capacity, share, 0, LIMIT, 16)
        self.places = Places(dice.choice([0, 1, 2, 3, 100]), dice.choice([0, 1, 2, 10]))
        self.of_one = dice.choice([self.places.parked, self.places.parked, 1, 2])
        self.keyed, self.manners, self.steps = [], {}, []

    def new_request(self):
        """A request that is new: mostly with a key and one that can be asked for."""
        dice, number = self.dice, len(self.keyed)
        operation = dice.choice(["add"] * 6 + ["get"] * 3 + ["sub"])
        arguments = [dice.choice([0, 1, 7, 500, -3, 2147483647])] if operation == "add" else []
        expiration = self.now + dice.choice([1000] * 6 + [20, 5, 0])
        field = (dice.choice(NAMES).encode(), number) if dice.random() < 0.8 else None
        wish = dice.choice([FULL] * 6 + [NONE])
        return Asked(dice.choice(["1.0", "1.2"]), 0, wish, field, Call("c", operation, expiration, arguments))

    def request(self):
        """A request, new or again, under a new id, and what its owner does of it if it is asked."""
        dice = self.dice
        if self.keyed and dice.random() < 0.45:
            asked = dice.choice(self.keyed[-5:] + self.keyed)
        else:
            asked = self.new_request()
            if asked.field:
                self.keyed.append(asked)
        self.ids += 1
        self.manners[self.ids] = dice.choice(["answer"] * 8 + ["park"] * 10 + ["decline"] * 3 + ["tell"] * 4 + ["give_up", "look"])
        self.now += dice.choice([0, 0, 1, 3])
        connection = dice.choice([self.last] * 5 + [dice.randint(1, self.last + 1)])
        return Asking(connection, self.now, asked._replace(request_id=self.ids))

    def opened(self):
        self.last += 1
        return "opened", self.last

    def piece(self):
        """Requests that come at once."""
        some = [self.request().asked for _ in range(self.dice.randint(2, 4))]
        return "asks", self.dice.randint(1, self.last), self.now, some

    def step(self):
        """A step: mostly a request."""
        dice, chance = self.dice, self.dice.random()
        if chance < 0.47:
            return self.request()
        if chance < 0.55:
            return self.piece()
        if chance < 0.62:
            return dice.choice([("counts",), ("tick", self.now + dice.choice([0, 1, 10]))])
        if chance < 0.76:
            return "late", dice.choice(["settle", "settle", "tell_parked", "withdraw"]), dice.randrange(64)
        if chance < 0.84:
            return ("drop",) if dice.random() < 0.2 else ("offer", dice.random() < 0.4)
        if chance < 0.89:
            if dice.random() < 0.5:
                return "first", dice.random() < 0.8
            return "bound", dice.choice([0, 1, 2, 6, 255, 256, 256])
        if chance < 0.95:
            return self.opened()
        return dice.choice(["lost", "close", "close", "opened"]), dice.randint(1, self.last)

    def made(self):
        """The steps: at their end the counter is on offer, and each request with a key comes once more."""
        self.steps = [self.opened(), *(self.step() for _ in range(STEPS)), self.opened()]
        self.steps += [("late", "settle", pick) for pick in range(1, 8)] + [("offer", False), ("bound", 256)]
        for asked in list(self.keyed):
            self.ids += 1
            self.manners[self.ids] = "answer"
            self.steps.append(Asking(self.last, self.now, asked._replace(request_id=self.ids, wish=FULL)))
        self.steps.append(("counts",))
        return self.steps


def fault_of(player, engine, steps):
    """What is wrong with what a program prints for the steps of a list, or None: the lines that were given, wanted and
    printed."""
    for step in steps:
        engine.take(step)
    given = "".join(line + "\n" for line in engine.given)
    run = base.ran(player, given=given.encode())
    got = run.stdout.decode().splitlines()
    if run.returncode == 0 and got == engine.lines:
        return None
    error = f"status {run.returncode} {run.stderr.decode()}"
    return "\n".join([f"{given}wanted:", *engine.lines, "got:", *got, error])


def judge(player, maker, model):
    """Raises an error where a program prints something else for a list than a model says: with as few steps as are
    found."""
    def fault(steps):
        return fault_of(player, model(maker), steps)
    if fault(maker.made()):
        fewer = smallest(maker.steps, fault)
        raise AssertionError(f"{len(fewer)} of {len(maker.steps)} steps, {fault(fewer)}")


class Lists(unittest.TestCase):
    """An owner's deeds, and changes of what an engine serves, on random lists."""

    @classmethod
    def setUpClass(cls):
        cls.player = programs.program("DEEDS_PLAYER")

    @base.each_seed(SEED, COUNT, PLAYERS)
    def test_lists(self, seed):
        """What is written for each deed is what the model says, also where what is on offer changes."""
        judge(self.player, Maker(random.Random(seed)), Owned)
