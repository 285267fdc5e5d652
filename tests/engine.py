"""Plays random scripts with `giop play --engine`, and compares with a model.

A script is events on connections, and what the owner of the engine does: how it answers from there on, which requests
are parked, and which of these are answered or declined, by a seed. Each is played twice: as it is, and with each piece cut into
small ones. All that is printed, the requests that were asked for and parked, the octets, the requests that were given
up and the total, must be what the model says (tests/engine_model.py). A script that fails is printed with as few
messages and events as are found with which it still does, as the program takes it.
"""
import random
import unittest

from tests import base, giop, programs
from tests.cdr import BIG, LITTLE
from tests.ends_model import CLOSE, ERROR, Call, refused
from tests.engine_model import (
    BAD, EMPTY, FULL, NO_PLACES, NONE, Asked, Places, Sought, Terms, answers_in, located, minor_of, play, reply_to)
from tests.giop import CLOSE_CONNECTION, HEADER, MESSAGE_ERROR
from tests.schedules import EDGES, LIMIT, NAMES, VERSIONS, parts_of
from tests.smaller import smallest
from tests.trace import EXCEPTIONS

SEED = 29
COUNT = 300
STEPS = 40
PLAYERS = 4
WISHES = {FULL: giop.FULL, EMPTY: giop.EMPTY, NONE: giop.NONE}


def played(steps):
    """The messages of each connection, and the events, of the steps of a script.

    A step is an event; or ("say", NUMBER, MOMENT, MESSAGES, KEEP): these messages come on a connection, each a list of
    frames, and what was left before, but for so many octets. What comes before a connection is opened is no part of its
    stream.
    """
    streams, sent, events, greatest = {}, {}, [], -1
    for step in steps:
        name, number = (*step, None)[:2]
        if name == "say":
            _, _, moment, messages, keep = step
            stream, begin = sum(messages, streams.get(number, [])), sent.get(number, 0)
            octets = b"".join(octets for octets, _ in stream)
            end = max(begin, len(octets) - keep)
            if begin < end:
                events.append(("bytes", number, moment, octets[begin:end]))
            if number in streams:
                streams[number], sent[number] = stream, end
        else:
            events.append(step)
        if name == "open" and greatest < number:
            greatest, streams[number] = number, []
    return streams, events


def finer(steps):
    """The steps where each message is one by itself."""
    for step in steps:
        if step[0] == "say":
            name, number, moment, messages, keep = step
            for at, one in enumerate(messages, 1):
                yield name, number, moment, [one], keep if at == len(messages) else 0
        else:
            yield step


def smallest_script(steps, fails):
    """As few messages and events as are found with which a script still fails."""
    some = list(finer(steps))
    return smallest(some if fails(some) else steps, fails)


# the kinds of steps, and how often each is taken
KINDS = {"say": 60, "open": 12, "lost": 3, "close": 2, "owner": 8, "reopen": 1}


class Maker:
    """Makes a script, step by step: without parked requests."""

    def __init__(self, dice):
        self.dice = dice
        self.now = dice.randint(0, 100)
        self.steps = []
        self.keyed, self.ids, self.last = [], 0, 0
        capacity, share = dice.choice([(1024, 1024)] * 5 + [(2, 2), (3, 1), (1, 1), (0, 0), (5, 2), (8, 4)])
        limit = dice.choice([LIMIT, 1048576])
        self.terms = Terms(capacity, share, dice.choice([0, 0, 0, *EDGES]), limit, dice.randint(1, 16))
        self.places, self.kinds = NO_PLACES, KINDS

    def moment(self):
        """A moment: mostly a little later, at times earlier, or about when a request expires."""
        dice = self.dice
        ends = [asked.call.expiration for asked in self.keyed if self.now <= asked.call.expiration < self.now + 60]
        if ends and dice.random() < 0.1:
            self.now = dice.choice(ends) + dice.choice([0, 0, 1])
        self.now += dice.choice([0, 0, 0, 1, 3])
        return max(0, self.now - dice.choice([0, 0, 0, 0, 5, 40]))

    def next_id(self):
        self.ids += 1
        return self.dice.choice([self.ids] * 9 + [0xffffffff - self.ids])

    def call(self, expiration):
        """A call that is new: mostly one that can be performed."""
        dice = self.dice
        operation = dice.choice(["add"] * 10 + ["get"] * 3 + ["sub", "", "adder"])
        argument = dice.choice([0, 1, 7, 7, 100, 500, -3, -500, 2147483647, -2147483648])
        return Call(dice.choice(["c"] * 14 + ["d", ""]), operation, expiration, [argument] * (dice.random() < 0.9))

    def new_request(self):
        """A request that is new: with a key, without one, or with a context that is none."""
        dice = self.dice
        version, wish = dice.choice(VERSIONS), dice.choice([FULL] * 6 + [NONE, EMPTY])
        if version != "1.2" and wish == EMPTY:
            wish = FULL
        field = dice.choice([None, None, BAD] + [(dice.choice(NAMES[:3] * 4 + NAMES).encode(), len(self.keyed))] * 7)
        expiration = max(0, self.now + dice.choice([1000] * 6 + [50, 20, 5, 0, -1, -20]))
        asked = Asked(version, self.next_id(), wish, field, self.call(expiration))
        if isinstance(field, tuple):
            self.keyed.append(asked)
        return asked

    def repeat(self):
        """A request that comes again: with its key and expiration, and mostly with its call."""
        dice = self.dice
        first = dice.choice(self.keyed[-6:] * 3 + self.keyed)
        call = first.call if dice.random() < 0.9 else self.call(first.call.expiration)
        version, wish = dice.choice(VERSIONS), dice.choice([FULL, FULL, NONE])
        return first._replace(version=version, request_id=self.next_id(), wish=wish, call=call)

    def contexts(self, asked):
        """The service contexts of a request; of two FT_REQUEST contexts the first counts."""
        dice = self.dice
        others, order = dice.choice([0, 0, 0, 1, 2]), dice.choice([BIG, LITTLE])
        some = [(dice.choice([1, 6, 99]), dice.randbytes(dice.randint(0, 9))) for _ in range(others)]
        if isinstance(asked.field, tuple):
            some.append(giop.ft_request(*asked.field, asked.call.expiration, order))
        if asked.field == BAD:
            number, whole = giop.ft_request(b"A", 1, 1000, order)
            some.append((number, whole[:dice.randrange(len(whole))]))
        if asked.field is not None and dice.random() < 0.1:
            some.append(giop.ft_request(b"other", 1, 1000, order))
        return some

    def body(self, asked):
        """The arguments: all, and perhaps more octets; or too few."""
        dice, arguments = self.dice, asked.call.arguments
        more = dice.randbytes(dice.choice([0] * 6 + [1, 4, 9]) if arguments else dice.choice([0, 0, 1, 3]))

        def put(out):
            for argument in arguments:
                out.long(argument)
            out.all += more
        return put if arguments or more else None

    def request(self, asked):
        """The octets of a request, in either order."""
        call = asked.call
        return giop.request(
            asked.request_id, call.key, call.operation, self.body(asked), minor=minor_of(asked),
            order=self.dice.choice([BIG, LITTLE]), wish=WISHES[asked.wish], contexts=self.contexts(asked),
            principal=self.dice.choice([b"", b"me"]))

    def framed(self, asked):
        """The frames of a request, with what they say: one; or in 1.2 two, and at times a CancelRequest between that
        drops it."""
        dice, octets = self.dice, self.request(asked)
        if asked.version != "1.2" or dice.random() < 0.8:
            return [(octets, asked)]
        first, last = giop.cut(octets, [4 + 8 * dice.randint(1, (len(octets) - HEADER - 5) // 8)])
        between = dice.choice([[], [self.locate()], [self.cancel(self.next_id())]])
        if dice.random() < 0.2:
            return [(first, None), self.cancel(asked.request_id)]
        return [(first, None), *between, (last, asked)]

    def long_request(self):
        """A request of about as many octets as the limit."""
        asked = Asked("1.2", self.next_id(), FULL, None, Call("c", "", 0, []))
        size = LIMIT - len(self.request(asked))
        operation = "x" * (size + self.dice.randint(-20, 5))
        return self.framed(asked._replace(version="1.0", call=Call("c", operation, 0, [])))

    def locate(self):
        dice = self.dice
        sought = Sought(dice.choice(VERSIONS), self.next_id(), dice.choice(["c", "c", "d", ""]))
        order = dice.choice([BIG, LITTLE])
        return giop.locate(sought.request_id, sought.key.encode(), minor=minor_of(sought), order=order), sought

    def cancel(self, request_id):
        return giop.cancel(request_id, order=self.dice.choice([BIG, LITTLE])), None

    def ending(self):
        """A message that ends a stream: it is no client's, or it has a fault."""
        asked = Asked(self.dice.choice(VERSIONS), self.next_id(), FULL, None, None)
        return self.dice.choice([
            (MESSAGE_ERROR, CLOSE), (CLOSE_CONNECTION, CLOSE),
            (reply_to(asked, refused("UNKNOWN")), ERROR), (located(Sought("1.1", 5, "c")), ERROR),
            (b"GIOQ\1\0\0\0" + bytes(4), ERROR), (b"GIOP\1\3\0\0" + bytes(4), ERROR),
            (giop.message(giop.REQUEST, bytes(3)), ERROR)])

    def message(self):
        """What a client sends next: frames, with what they say."""
        chance = self.dice.random()
        if chance < 0.42 or (chance < 0.78 and not self.keyed):
            return self.framed(self.new_request())
        if chance < 0.78:
            return self.framed(self.repeat())
        if chance < 0.90:
            return [self.locate()]
        if chance < 0.96:
            return [self.cancel(self.dice.randint(0, self.ids + 1))]
        return [self.ending()] if chance < 0.98 else self.long_request()

    def say(self, number, messages, keep=0):
        """Messages come on a connection, and what was left before, but for so many octets."""
        self.steps.append(("say", number, self.moment(), messages, keep))

    def connection(self):
        """A connection: mostly one of the latest."""
        return self.dice.choice([self.last, self.last, max(0, self.last - 1), self.dice.randint(0, self.last + 1)])

    def open(self):
        self.last += self.dice.choice([1, 1, 1, 2])
        self.steps.append(("open", self.last))

    def owner(self):
        system = f"system {self.dice.choice(EXCEPTIONS)} {self.dice.choice([0, 7, 0xffffffff])}"
        self.steps.append(("owner", self.dice.choice(["performs"] * 3 + ["gives_up", system, "mistypes"])))

    def step(self):
        dice, number = self.dice, self.connection()
        kind = dice.choices(list(self.kinds), self.kinds.values())[0]
        if kind == "say":
            messages = [self.message() for _ in range(dice.choice([1, 1, 1, 2, 3, 6]))]
            self.say(number, messages, dice.choice([0, 0, 0, 0, 1, dice.randint(1, 100)]))
        elif kind == "reopen":
            self.steps.append(("open", min(number, self.last)))
        elif kind in ("lost", "close"):
            self.steps.append((kind, number))
        else:
            getattr(self, kind)()

    def audit(self):
        """All requests with keys come once more, to an owner that performs, and then the counter is asked."""
        self.steps.append(("owner", "performs"))
        self.open()
        get = Asked("1.2", self.next_id(), FULL, None, Call("c", "get", 0, []))
        again = [asked._replace(request_id=self.next_id(), wish=FULL) for asked in self.keyed]
        self.say(self.last, [self.framed(asked) for asked in [*again, get]])

    def made(self):
        """The terms, the streams and the events."""
        self.open()
        for _ in range(STEPS):
            self.step()
        self.audit()
        return self.terms, *played(self.steps)


class LateMaker(Maker):
    """Makes a script in which requests are parked, answered and declined, of numbers that `giop play` takes."""

    def __init__(self, dice):
        super().__init__(dice)
        capacity, share = dice.choice([(1024, 1024)] * 5 + [(2, 2), (3, 1), (1, 1), (5, 2), (8, 4)])
        start = dice.choice([0, 0, 0, *(edge for edge in EDGES if 0 < edge)])
        self.terms = self.terms._replace(capacity=capacity, share=share, total=start)
        self.places = Places(dice.choice([0, 1, 2, 3, 3, 100, 100, 65536]), dice.choice([0, 0, 1, 2, 10, 65536]))
        late = dice.choice([{}, {"park": 10, "answer": 8}, {"park": 25, "answer": 15}, {"park": 30, "answer": 4},
                            {"park": 25, "answer": 8, "decline": 8}, {"park": 30, "answer": 2, "decline": 6}])
        self.kinds = {**KINDS, **late}

    def owner(self):
        if self.dice.random() < 0.3:
            self.steps.append(("owner", self.dice.choice(["declines", "declines", "leaves"])))
        else:
            super().owner()

    def park(self):
        """The next requests are parked; at times such a one comes, and comes again on any connections."""
        self.steps += [("park",)] * self.dice.choice([1, 1, 1, 2, 3])
        if self.dice.random() < 0.6:
            self.say(self.connection(), [self.framed(self.new_request())])
            for _ in range(self.dice.choice([0, 1, 2, 3, 4]) if self.keyed else 0):
                again = self.repeat()._replace(field=self.keyed[-1].field, call=self.keyed[-1].call)
                self.say(self.connection(), [self.framed(again)])

    def late(self, verb):
        """Some of what is parked is answered or declined."""
        self.steps.append((self.dice.choice(["any"] * 4 + ["all"]), self.dice.randrange(1000), verb))

    def answer(self):
        self.late("answer")

    def decline(self):
        """Some of what is parked is declined, and at times a request comes again."""
        self.late("decline")
        if self.keyed and self.dice.random() < 0.5:
            self.say(self.connection(), [self.framed(self.repeat())])

    def audit(self):
        """What is parked is answered, or declined, too, before all comes once more and after; at times what is not
        parked is."""
        for _ in range(2):
            verb = self.dice.choice(["answer", "answer", "decline"])
            self.steps += [("owner", "performs"), ("all", self.dice.randrange(1000), verb)]
            super().audit()
        if self.dice.random() < 0.1:
            self.steps.append(("stray", self.dice.randrange(100), self.dice.choice(["answer", "decline"])))


def in_pieces(dice, events):
    """The events with each piece cut into small ones."""
    for event in events:
        if event[0] != "bytes":
            yield event
            continue
        name, number, moment, octets = event
        place = 0
        for part in parts_of(dice, len(octets)):
            yield name, number, moment, octets[place:place + part]
            place += part


def words_for(terms, places):
    """The words after the program's name."""
    numbers = zip(("capacity", "share", "start", "limit", "partials"), terms)
    options = [*numbers, *zip(("parked", "joined"), places)]
    return ["play", "--engine", "--asks", *(word for name, number in options for word in (f"--{name}", str(number)))]


class Scripts(unittest.TestCase):
    """An engine and its owner, on random scripts."""

    @classmethod
    def setUpClass(cls):
        cls.giop = programs.program("GIOP")

    def fault_on(self, words, wanted):
        """What is wrong with a run, or None: the words, the lines that were given, and those that were printed."""
        given = "".join(line + "\n" for line in wanted.given)
        run = base.ran(self.giop, *words, given=given.encode())
        status, got, error = run.returncode, run.stdout.decode().splitlines(), run.stderr.decode()
        if (status, got, error) == (int(wanted.error != ""), wanted.printed, wanted.error):
            return None
        return "\n".join([f"words: {' '.join(words)}", f"{given}wanted:", *wanted.printed, wanted.error, "got:", *got,
                          f"status {status} {error}"])

    def fault_of(self, seed, maker, steps):
        """What is wrong with a script, as it is and in pieces, or None."""
        streams, events = played(steps)
        whole, cut = (play(maker.terms, streams, some, maker.places)
                      for some in (events, list(in_pieces(random.Random(seed), events))))
        if answers_in(whole.printed) != answers_in(cut.printed):
            return "the model says another thing of the pieces"
        words = words_for(maker.terms, maker.places)
        return self.fault_on(words, whole) or self.fault_on(words, cut)

    @base.each_seed(SEED, COUNT, PLAYERS)
    def test_scripts(self, seed):
        """What is asked for and written is what the model says, as it is and in pieces."""
        maker = LateMaker(random.Random(seed))
        maker.made()
        if self.fault_of(seed, maker, maker.steps):
            fewer = smallest_script(maker.steps, lambda some: self.fault_of(seed, maker, some))
            self.fail(f"{len(fewer)} of {len(maker.steps)} steps, {self.fault_of(seed, maker, fewer)}")
