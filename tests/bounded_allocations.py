"""Runs programs on hostile input, and refuses each allocation that is large for that input.

The inputs of `giop` are the streams of the rows (tests/rows), for `giop show`, and the references of the cases
(tests/cases/ior), for `giop ior`: each as it is, and with ffffffff written over four octets, at each place that a
number of four octets may have. So each count and each length is once the greatest there is, in either byte order. In a
stream the size of each frame is also once one that the limit on messages admits, so that the frame is waited for: its
octets take room as they come. Under a bound of a few times the input's octets the program must print what it prints
with ample memory: what it takes follows the octets that are there, and no count among them.

The inputs of `value_player` and `reference_player` are the octets of tests/spellings.py, each for the program that has
its call. They are read by types, alone (`read`) and after other octets (`read_list`, `Body::read`), or as references
(`read_ior`) and profiles (`read_iiop`): each as it is, which must give the value there; with each of three large
numbers written over the four octets at each place that is a multiple of 4; and each front whose length is a multiple of
4. No line that it prints may say `memory`, and under the bound it must print the same lines.

That the bound is in force is tested too: where each allocation is refused a program must end with `memory`. Of an input
that fails the first variant is printed, with as few octets as are found with which it still does.
"""
import itertools
import os
import unittest
from collections import namedtuple

from tests import allocations, base, cases, idl, programs, readings, rows, spellings
from tests.giop import HEADER, MAGIC
from tests.smaller import smallest

HUGE = b"\xff\xff\xff\xff"
# a size that the program's limit on messages admits
ADMITTED = 0x000ffff0
# the numbers that are written over those of a spelling: the greatest that is unsigned, that is signed, and one
# that memory may suffice for
LARGE = (0xffffffff, 0x7fffffff, 0x00ffffff)
ORDERS = ("big", "little")
# the most octets of one allocation: as many as the program's own buffers have, or so many times the input
LEAST = 1 << 16
TIMES = 16
# what is printed of a call that ran out of memory, and how a program ends that did
MEMORY_LINE = "memory"
MEMORY = (1, b"", b"memory\n")


# an input: its octets, and the place of its first number
Input = namedtuple("Input", "octets first")


def streams():
    """The streams of the rows: where each stands, and it."""
    for name in rows.files():
        for row in rows.rows_of(name):
            yield row.place, Input(row.octets(), 8)


def references():
    """The octets of the references of the cases that are printed as one."""
    for name, case in cases.cases_of("ior"):
        text = case.words[-1] if case.words else ""
        try:
            yield name, Input(bytes.fromhex(text[4:]), 4)
        except ValueError:
            continue


def sized(octets):
    """The octets with a great size in the header of one frame, each in turn. The limit on messages admits it."""
    place = octets.find(MAGIC)
    while 0 <= place <= len(octets) - HEADER:
        order = "little" if octets[place + 6] & 1 else "big"
        yield octets[:place + 8] + ADMITTED.to_bytes(4, order) + octets[place + HEADER:]
        place = octets.find(MAGIC, place + 1)


def variants(octets, first):
    """The octets as they are, with a great size in each header, and with the greatest number at each place, from
    the first on."""
    yield octets
    yield from sized(octets)
    for place in range(first, len(octets) - 3):
        if octets[place:place + 4] != HUGE:
            yield octets[:place] + HUGE + octets[place + 4:]


# a call that a player makes: the words before the digits, the order, the octets, and what it prints of them
Call = namedtuple("Call", "words order octets printed")


def octets_of(spelling, order):
    """The octets of a spelling in an order."""
    return bytes.fromhex(spelling.big if order == "big" else spelling.little)


def calls_by_types(order):
    """The calls that read by types, in an order: a value alone, and one after other octets."""
    before = octets_of(spellings.BEFORE, order)
    for spelling in spellings.VALUES:
        one, value, alone = idl.types(spelling.type), spelling.value, octets_of(spelling, order)
        two = idl.types(f"{spellings.BEFORE.type}, {spelling.type}")
        both, values = before + alone, f"[{spellings.BEFORE.value}, {value}]"
        yield Call(f"read {one} {order} 0", order, alone, f"({value}, {len(alone)})")
        yield Call(f"read_list {two} {order} 8", order, both, f"({values}, {len(both)})")
        yield Call(f"body {two} {order} 24", order, both, values)


def all_calls():
    """All calls."""
    for order in ORDERS:
        yield from calls_by_types(order)
        for spelling in spellings.REFERENCES:
            octets = octets_of(spelling, order)
            yield Call(f"read_ior {order} 0", order, octets, f"({spelling.value}, {len(octets)})")
        for spelling in spellings.PROFILES:
            yield Call("read_iiop", order, octets_of(spelling, order), spelling.value)


def calls():
    """All calls by name."""
    return [(f"{call.words} {call.octets.hex()}", call) for call in all_calls()]


def distorted(octets, order):
    """The octets as they are; each front of them; and with each large number at each place. A multiple of 4
    is where a front ends, and where a number stands."""
    yield octets
    for place in range(0, len(octets), 4):
        yield octets[:place]
    for place in range(0, len(octets) - 3, 4):
        for number in LARGE:
            yield octets[:place] + number.to_bytes(4, order) + octets[place + 4:]


def bound_of(octets):
    """The most octets that one allocation may ask for on such an input."""
    return max(LEAST, TIMES * len(octets))


def end_of(path, words, given, most=None):
    """How a run ends: its status and what it prints; with `most`, where each larger allocation is refused."""
    env = None if most is None else allocations.within(most)
    return base.end_of(base.ran(path, *words, given=given, env=env))


class Bounded(unittest.TestCase):
    """What is common to the programs."""

    def bounds(self, path, *words):
        """The program runs out of memory where each allocation is refused."""
        self.assertEqual(end_of(path, words, b"", 0), MEMORY)


class Giop(Bounded):
    """The program `giop`."""

    @classmethod
    def setUpClass(cls):
        cls.giop = programs.program("GIOP")
        allocations.library()

    def test_the_bound(self):
        """The bound is in force."""
        self.bounds(self.giop, "show")

    def ends_of(self, octets, words_of):
        """How it ends on octets with ample memory, and where each large allocation is refused."""
        words, given = words_of(octets)
        return end_of(self.giop, words, given), end_of(self.giop, words, given, bound_of(octets))

    def is_bounded(self, input, words_of):
        """It prints the same of each variant of an input where each large allocation is refused."""

        def differs(octets):
            ample, bounded = self.ends_of(bytes(octets), words_of)
            return ample != bounded

        for variant in variants(*input):
            if differs(variant):
                fewer = bytes(smallest(list(variant), differs))
                ample, bounded = self.ends_of(fewer, words_of)
                self.assertEqual(bounded, ample, f"not within the bound: {fewer.hex()}, of {variant.hex()}")

    @base.each(streams, os.cpu_count())
    def test_show(self, input):
        """The streams of the rows."""
        self.is_bounded(input, lambda octets: (["show"], octets.hex().encode()))

    @base.each(references, os.cpu_count())
    def test_ior(self, input):
        """The references of the cases."""
        self.is_bounded(input, lambda octets: (["ior", "IOR:" + octets.hex()], b""))


class Calls(Bounded):
    """The calls of the libraries, by the two players."""

    @classmethod
    def setUpClass(cls):
        cls.players = {name: programs.program(name) for name in ("VALUE_PLAYER", "REFERENCE_PLAYER")}
        allocations.library()

    def test_the_bound(self):
        """The bound is in force."""
        for name, path in self.players.items():
            with self.subTest(name):
                self.bounds(path)

    @base.each(calls, os.cpu_count())
    def test_calls(self, call):
        """What is read by types, as a reference or as a profile."""
        path, inputs = self.players[readings.program_of(call.words)], list(distorted(call.octets, call.order))
        given = "".join(f"{call.words} {octets.hex()}\n" for octets in inputs).encode()
        ample, bounded = end_of(path, [], given), end_of(path, [], given, bound_of(call.octets))
        lines = ample[1].decode().splitlines()
        self.assertEqual((ample[0], len(lines)), (0, len(inputs)), ample)
        self.assertEqual(lines[0], call.printed)
        for octets, line, other in itertools.zip_longest(inputs, lines, bounded[1].decode().splitlines()):
            self.assertNotEqual(line, MEMORY_LINE, f"out of memory where nothing is refused: {octets.hex()}")
            self.assertEqual(other, line, f"not within the bound: {octets and octets.hex()}")
        self.assertEqual(bounded, ample)
