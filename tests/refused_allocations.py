"""Runs programs with allocation N refused, for each N from 1 until none is refused.

An allocation is a call of malloc or realloc. With one refused,

- a run of `giop` on an input must end as it does with ample memory, or print `memory` on standard error and end with
  status 1;
- a run of a call, by `cdr_trials`, `giop_trials`, `link_trials` or `orb_trials`, must print `done`; or `refused`, where
  the refused allocation was the call's own, nothing changed, and the same call then gave what it is to give; or it ends
  with `memory` as above, where the refused allocation came before the call. At least one run of each call must print
  `refused`, and of a call whose suite ends in `without_allocation` none may.
- a run of `schedule_player` on a schedule must end as it does with ample memory, or with `memory` as above; or, where
  the refused allocation was one of the play, print `memory after N steps` in place of the total, and before it what it
  prints for the first N steps alone. At least one run of each schedule must do so.
- a run of `giop play --engine` on a script must end as it does with ample memory, or with `memory` as above; or, where
  the refused allocation was one of the engine or its owner, print what the model prints where memory runs out at one
  place of the play (tests/short_model.py): a line says what was refused, nothing acts twice, and the play goes on. Each
  way in which a script is to fail must be seen.

A pair is the calls X_once/SAMPLE and X_a_hundred_times/SAMPLE. Both must take the same number of allocations, since a
call that is repeated keeps the memory that it took. A call whose suite has one of these endings must have its other.

The last run, in which nothing is refused, must end as with ample memory.
"""
import itertools
import os
import re
import unittest

from tests import base, cases, giop, programs
from tests.allocations import Counting
from tests.ends_model import Call
from tests.engine import played, words_for
from tests.engine_model import FULL, Asked, Places, Terms, line_of
from tests.giop_peers import request
from tests.short_model import ASKED, BEFORE, DECLINED, DUE, KEPT, PARKED, REPEATED, SILENT, outcomes

ADD_SEVEN = dict(key=b"c", operation="add", body=bytes([0, 0, 0, 7]))
REQUEST = request(5, **ADD_SEVEN, number=1, expiration=100)
FRAGMENTS = b"".join(giop.cut(giop.request(5, b"c", "add", bytes([0, 0, 0, 7])), [20, 16]))
LOCATE = giop.locate(1, b"c").hex()
KEYED = REQUEST.hex()
RETRY = f"open 1\nbytes 1 50 {KEYED}\nlost 1\nopen 2\nbytes 2 60 {KEYED}\n".encode()


def words_of(name):
    """The words of a case of tests/cases."""
    return cases.Case(name).words


def follow(name):
    """Both directions of a recorded connection."""
    return cases.content(os.path.join(programs.HERE, "follow", name + ".txt"))


# what is run: a name, the words after the program's name, and the standard input
INPUTS = [
    ("an empty script", [], b""),
    ("a locate request", ["play"], f"open 1\nbytes 1 0 {LOCATE}\nclose 1\n".encode()),
    ("a hundred events", [], "".join(
        f"open {c}\nbytes {c} 0 {LOCATE}\nbytes {c} 1 00\nclose {c}\n" for c in range(25)).encode()),
    ("a request that is sent twice", ["play", "--capacity", "1"], RETRY),
    ("a share that is none", ["play", "--share", "0"], b""),
    ("a port that is none", ["serve", "--port", "0", "--connections", "1"], b""),
    ("a bad line", [], b"open 1\nclose\n"),
    ("input that is no text", [], b"open 1\n\xff\n"),
    ("a reference", words_of("ior/counter"), b""),
    ("a request with its contexts", ["show"], KEYED.encode()),
    ("a message in three fragments", ["show"], FRAGMENTS.hex().encode()),
    ("a stream that ends in a fault", ["check"], (KEYED + "00" * 12).encode()),
    ("digits that are none", ["check"], b"47 4g"),
    ("a retry over two connections", ["trace"], follow("omni-12-ftkill")),
    ("an exception, as JSON", ["trace", "--json"], follow("omni-12-undeclared")),
    ("a fault after which reading goes on", ["trace", "--resume"], follow("omni-12-overflow") + b"00" * 12 + b"\n"
     + KEYED.encode() + b"\n"),
    ("octets of one direction", ["trace", "--raw"], REQUEST),
    ("a line of odd digits", ["trace"], b"474\n"),
    ("an unknown word", ["swim"], b""),
    ("help", ["--help"], b""),
    ("the version", ["--version"], b""),
]

# schedules: a name, the lines of the server and the clients, and those of the steps
ONE_CLIENT = ["server 4096 1 1024 1024 0", "client A 1.2 4096 1"]
TWO_CLIENTS = ["server 4096 1 1 1 0", "client A 1.0 4096 1", "client B 1.1 4096 1"]
SCHEDULES = [
    ("a lost reply that is given again", ONE_CLIENT, [
        "call 0 50 c add 100 7", "connect 0 50", "up 0 84 50", "cut 0", "connect 0 60", "up 0 84 60", "down 0 32"]),
    ("a cancel and a call that comes too late", ONE_CLIENT, [
        "connect 0 50", "call 0 50 c add 100 7", "call 0 50 c add 50 7", "cancel 0 1", "up 0 500 51", "down 0 500",
        "cut 0", "connect 0 60", "tick 0 60"]),
    ("a close between two calls", ONE_CLIENT, [
        "connect 0 50", "call 0 50 c add 100 7", "up 0 500 50", "call 0 50 c get 100", "shut 0", "down 0 500",
        "connect 0 60", "up 0 500 60", "down 0 500"]),
    ("two clients and a log of one place", TWO_CLIENTS, [
        "connect 0 50", "connect 1 50", "call 0 50 c add 100 7", "call 1 50 c add 100 7", "up 0 500 50", "up 1 500 50",
        "down 1 500", "down 0 500", "call 0 101 c add 200 1", "up 0 500 101", "down 0 500"]),
    ("pieces of messages", TWO_CLIENTS, [
        "call 0 50 c add 100 7", "call 0 50 d add 100 7", "connect 0 50", "up 0 20 50", "up 0 80 50", "up 0 90 50",
        "down 0 5", "down 0 40", "down 0 90"]),
    ("a call that is forwarded, and is asked for under another key", ONE_CLIENT, [
        "forwards 0 1", "call 0 50 f add 100 7", "connect 0 50", "up 0 500 50", "down 0 500", "redirect 0 1 c",
        "resend 0 60", "up 0 500 60", "down 0 500", "redirect 0 1 elsewhere", "forwards 0 0", "resend 0 61",
        "up 0 500 61", "down 0 500"]),
]

# scripts of an engine: a name, how they are to fail, and the events. Each request is `add(7)` with a key
ENGINE_TERMS, ENGINE_PLACES = Terms(4, 4, 0, 4096, 1), Places(2, 1)


def added(request_id, number, client=b"A"):
    """A request by its octets, and what it says."""
    octets = request(request_id, **ADD_SEVEN, client=client, number=number, expiration=100)
    return octets, Asked("1.2", request_id, FULL, (client, number), Call("c", "add", 100, [7]))


def says(number, *messages, cuts=()):
    """The steps in which messages come on a new connection, in pieces that are cut at these places."""
    yield ("open", number)
    size = sum(len(octets) for octets, _ in messages)
    for at, place in enumerate([*cuts, size]):
        yield ("say", number, 50, [] if at else [[message] for message in messages], size - place)


def on_connections(*messages, cuts=()):
    """The steps in which messages come on three connections, one after another."""
    for number in (1, 2, 3):
        yield from says(number, *messages, cuts=cuts)
        yield ("lost", number)


FIRST, OTHER = added(5, 1), added(6, 2)
AT_ONCE = {BEFORE, ASKED, KEPT}
LATE = {BEFORE, ASKED, PARKED, REPEATED, DUE}
ENGINE_SCRIPTS = [
    ("a request that comes three times", AT_ONCE, [*on_connections(FIRST)]),
    ("two requests in a piece", AT_ONCE, [*on_connections(FIRST, OTHER)]),
    ("two requests in pieces", AT_ONCE, [*on_connections(FIRST, OTHER, cuts=(15, 134))]),
    ("a request and its repeat in a piece", AT_ONCE, [*on_connections(FIRST, added(7, 1))]),
    ("a request that is parked", LATE, [
        ("park",), *says(1, FIRST), *says(2, added(8, 1)), ("answer", 0), *says(3, FIRST), ("close", 3)]),
    ("two that are parked and answered the last first", LATE, [
        ("park",), ("park",), *says(1, FIRST, OTHER), *says(2, added(7, 2)), *says(3, added(8, 1)), ("answer", 1),
        ("lost", 1), ("answer", 0), *says(4, added(9, 1), added(10, 2))]),
    ("no place to park, and none to wait", LATE, [
        ("park",), ("park",), ("park",), *says(1, FIRST, OTHER), *says(2, added(7, 3)), *says(3, added(8, 1)),
        *says(4, added(9, 1)), ("answer", 0), ("answer", 1), *says(5, added(10, 3), added(11, 1))]),
    ("a repeat in the piece of what is parked", LATE, [
        ("park",), *says(1, FIRST, added(7, 1)), ("answer", 0), *says(2, FIRST)]),
    ("a request that is declined, and comes again", {*AT_ONCE, DECLINED}, [
        ("owner", "declines"), *says(1, FIRST), *says(2, OTHER, FIRST), ("owner", "performs"), *says(3, FIRST)]),
    ("a goodbye", {*AT_ONCE, SILENT}, [
        ("owner", "leaves"), *says(1, FIRST), ("owner", "performs"), *says(2, FIRST), ("owner", "leaves"),
        *says(3, FIRST, OTHER)]),
    ("a request that is parked and declined", {*LATE, KEPT}, [
        ("park",), *says(1, FIRST), *says(2, added(8, 1)), ("decline", 0), *says(3, FIRST), ("close", 3)]),
    ("two that are parked, one declined and one answered", LATE, [
        ("park",), ("park",), ("park",), *says(1, FIRST, OTHER), *says(2, added(7, 2)), ("decline", 1),
        *says(3, added(8, 2), added(9, 1)), ("answer", 0), ("answer", 2), *says(4, added(10, 2))]),
]

# how the names of the two suites of a pair end, and of a suite that takes no memory
ONCE = "_once"
A_HUNDRED_TIMES = "_a_hundred_times"
WITHOUT = "without_allocation"

# how a call ends: the status, the standard output and the standard error
DONE = (0, b"done\n", b"")
REFUSED = (0, b"refused\n", b"")


class Run:
    """How a run ended, and whether an allocation was refused in it."""

    def __init__(self, end, is_refused):
        self.end = end
        self.is_refused = is_refused

    def is_out_of_memory(self):
        """Whether the program reported that it ran out of memory."""
        return self.end[0] == 1 and self.end[2] == b"memory\n"


class Program:
    """A program under the library that refuses an allocation."""

    def __init__(self, path, counting):
        self.path, self.counting = path, counting

    def run(self, number, words, given=b""):
        """The run with allocation `number` refused, or none at 0."""
        run = base.ran(self.path, *words, given=given, env=self.counting.refusing(number))
        return Run(base.end_of(run), 0 < number <= self.counting.counted())

    def runs(self, words, given=b""):
        """Numbers from 1 and the runs with that allocation refused, up to the first run in which none is."""
        for number in itertools.count(1):
            run = self.run(number, words, given)
            yield number, run
            if not run.is_refused:
                return


def steps_before(run):
    """How many steps were taken before an allocation of the play failed, or None."""
    found = re.search(rb"^memory after (\d+) steps$", run.end[1], re.M)
    return int(found.group(1)) if found else None


def script_of(head, steps):
    """A schedule as it is given to the program."""
    return "\n".join([*head, *steps, "end", ""]).encode()


def pairs_of(names):
    """The pairs of which a call is named: what both names begin with, and the two names."""
    pairs = {}
    for name in names:
        suite, sample = name.split("/")
        for ending in (ONCE, A_HUNDRED_TIMES):
            if suite.endswith(ending):
                begin = suite[:-len(ending)]
                pairs[f"{begin}/{sample}"] = (f"{begin}{ONCE}/{sample}", f"{begin}{A_HUNDRED_TIMES}/{sample}")
    return pairs


def calls_of(name):
    """The names of the calls of a program."""
    run = base.ran(programs.program(name), "list")
    if run.returncode != 0:
        raise ValueError(f"{name} can't list its calls: {run.stderr.decode()}")
    return run.stdout.decode().split()


def named(some):
    """The parts of tests: a name, and what follows it."""
    return [(name, given) for name, *given in some]


class Refusing:
    """What is common to the programs: each is run with one allocation refused after another."""

    @classmethod
    def setUpClass(cls):
        path, cls.counting = programs.program(cls.NAME), Counting()
        cls.program = Program(path, cls.counting)

    @classmethod
    def tearDownClass(cls):
        cls.counting.__exit__()

    def ends_as(self, number, run, wanted):
        """A run ends as it does with ample memory, or for want of memory."""
        if run.end != wanted and not (run.is_refused and run.is_out_of_memory()):
            self.fail(f"with allocation {number} refused it ended with {run.end!r}")


class Inputs(Refusing, unittest.TestCase):
    """The program `giop`."""

    NAME = "GIOP"

    @base.each(lambda: named(INPUTS))
    def test_inputs(self, given):
        """It ends as with ample memory, or with `memory`."""
        ample = self.program.run(0, *given)
        self.assertFalse(ample.is_out_of_memory(), "out of memory where nothing was refused")
        for number, run in self.program.runs(*given):
            self.ends_as(number, run, ample.end)
        self.assertGreater(number, 1, "it asked for no allocation")


class Calls(Refusing):
    """The calls that a program lists."""

    @classmethod
    def setUpClass(cls):
        super().setUpClass()
        cls.taken = {}

    def judge(self, name):
        """Judges the runs of a call, and answers how many allocations one takes."""
        ample, refused = self.program.run(0, [name]), 0
        self.assertEqual(ample.end, DONE, "with nothing refused")
        for number, run in self.program.runs([name]):
            if run.is_refused and run.end == REFUSED:
                refused += 1
            else:
                self.ends_as(number, run, DONE)
        if name.split("/")[0].endswith(WITHOUT):
            self.assertEqual(refused, 0, "allocations of the call were refused")
        else:
            self.assertGreater(refused, 0, "no allocation of the call was refused")
        return number - 1

    def taken_by(self, name):
        """How many allocations a call takes."""
        if name not in self.taken:
            self.taken[name] = self.judge(name)
        return self.taken[name]


def tests_of_calls(name, what):
    """The tests of the calls of a program."""

    class Tests(Calls, unittest.TestCase):
        NAME = name

        @base.each(lambda: [(call, call) for call in calls_of(name)])
        def test_calls(self, call):
            """After a refused allocation nothing has changed, and the same call then gives what it is to give."""
            self.taken_by(call)

        def test_pairs(self):
            """A call that is repeated a hundred times takes as many allocations as one."""
            names = calls_of(self.NAME)
            for pair, (once, often) in pairs_of(names).items():
                with self.subTest(pair):
                    self.assertTrue(once in names and often in names, "one of its two calls is missing")
                    self.assertEqual(self.taken_by(often), self.taken_by(once), "a hundred times, and once")

    Tests.__doc__ = f"The calls of {what}."
    Tests.__name__ = Tests.__qualname__ = "".join(word.capitalize() for word in name.split("_"))
    return Tests


CdrTrials = tests_of_calls("CDR_TRIALS", "`cdr_core` and `ior_core`")
GiopTrials = tests_of_calls("GIOP_TRIALS", "`giop_core` and `giop_frames`")
LinkTrials = tests_of_calls("LINK_TRIALS", "`giop_link` and `ft_client`")
OrbTrials = tests_of_calls("ORB_TRIALS", "`ft_log` and `ft_orb`")


class Schedules(Refusing, unittest.TestCase):
    """The program `schedule_player`."""

    NAME = "SCHEDULE_PLAYER"

    def run_of(self, head, steps, number=0):
        return self.program.run(number, [], script_of(head, steps))

    @base.each(lambda: named(SCHEDULES))
    def test_schedules(self, given):
        """What completed before memory ran out is what completes in the steps so far."""
        head, steps = given
        ample, cut = self.run_of(head, steps), 0
        self.assertEqual((ample.end[0], ample.end[2], steps_before(ample)), (0, b"", None), ample.end)
        for number, run in self.program.runs([], script_of(head, steps)):
            count = steps_before(run)
            if run.is_refused and count is not None and count < len(steps):
                cut += 1
                wanted = re.sub(rb"^total .*$", b"memory after %d steps" % count,
                                self.run_of(head, steps[:count]).end[1], flags=re.M)
                self.assertEqual(run.end, (0, wanted, b""), f"with allocation {number} refused")
            else:
                self.ends_as(number, run, ample.end)
        self.assertGreater(cut, 0, "no allocation of the play was refused")


class Engines(Refusing, unittest.TestCase):
    """An engine, by `giop play --engine`."""

    NAME = "GIOP"

    @base.each(lambda: named(ENGINE_SCRIPTS))
    def test_engines(self, script):
        """What memory runs out for is said, nothing acts twice, and the play goes on."""
        wanted, steps = script
        streams, events = played(steps)
        given = "".join(line_of(event) + "\n" for event in events).encode()
        may_end = {}
        for failed, (status, lines, error) in outcomes(ENGINE_TERMS, streams, events, ENGINE_PLACES):
            end = status, "".join(line + "\n" for line in lines).encode(), error.encode()
            may_end.setdefault(end, set()).add(failed)
        words, seen = words_for(ENGINE_TERMS, ENGINE_PLACES), set()
        self.assertEqual(may_end.get(self.program.run(0, words, given).end), {None}, "with nothing refused")
        for number, run in self.program.runs(words, given):
            if run.is_refused and run.is_out_of_memory():
                continue
            ways = may_end.get(run.end)
            self.assertTrue(ways, f"with allocation {number} refused it ended with {run.end!r}")
            self.assertTrue(run.is_refused or ways == {None}, f"nothing was refused, and it ended with {run.end!r}")
            seen |= ways
        self.assertLessEqual(wanted, seen, "ways in which it is to fail")
