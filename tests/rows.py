"""Runs `giop show` on each row of the files of tests/rows, and compares what it prints.

A row is a stream of octets and the lines to print for it. An empty line ends it. Its lines are

    # TEXT        a comment on this row and those after it
    send DIGITS   octets of the stream; those of a second such line follow those of the first
    want LINE     a line that is printed; a row has them all
    fault TEXT    the same as 'want fault after 0 messages: TEXT'
    parts B-E ..  the parts of the message after its header, each from its place B up to E, counted
                  from the beginning of the message

The wanted status is 0 where the last line begins with 'end', and else 1.

A row with 'parts' has no wanted lines. Its message is sent cut short, once for each length from the header's twelve
octets up to all of them, with that length in the header. Where a part ends after the cut, the fault of the first such
part is wanted, 'body: short at B', and else one message.
"""
from __future__ import annotations

import os
import struct
import unittest
from collections.abc import Callable, Iterator

from tests import base, programs
from tests.giop import HEADER, order_of

ROWS = os.path.join(programs.HERE, "rows")


class Row:
    """A row: where it stands, its digits, its wanted lines, and the bounds of its parts."""

    def __init__(self, place: str) -> None:
        self.place = place
        self.digits = ""
        self.wanted: list[str] = []
        self.parts: list[tuple[int, int]] | None = None

    def take(self, word: str, rest: str) -> None:
        """Takes a line, unless its word is unknown."""
        if word == "send":
            self.digits += rest
        elif word == "want":
            self.wanted.append(rest)
        elif word == "fault":
            self.wanted.append("fault after 0 messages: " + rest)
        elif word == "parts":
            self.parts = [tuple(map(int, part.split("-"))) for part in rest.split()]
        else:
            raise ValueError(f"{self.place}: no line begins with {word!r}")

    def octets(self) -> bytes:
        if not self.digits or (self.parts is None) == (not self.wanted):
            raise ValueError(f"{self.place}: not a row")
        return bytes.fromhex(self.digits)


def files() -> list[str]:
    """The files of rows."""
    return sorted(os.listdir(ROWS))


def rows_of(name: str) -> list[Row]:
    """The rows of a file."""
    rows: list[Row] = []
    is_open = False
    with open(os.path.join(ROWS, name), encoding="ascii") as lines:
        for number, line in enumerate(lines, 1):
            word, _, rest = line.rstrip("\n").partition(" ")
            if word == "#":
                continue
            if word and not is_open:
                rows.append(Row(f"{name}:{number}"))
            is_open = word != ""
            if is_open:
                rows[-1].take(word, rest)
    return rows


def cut_to(octets: bytes, length: int) -> bytes:
    """A message cut to a length, with that length in its header."""
    return octets[:8] + struct.pack(order_of(octets) + "I", length - HEADER) + octets[HEADER:length]


def streams_of(row: Row) -> Iterator[tuple[str, bytes, list[str]]]:
    """What is sent for a row: where it stands, the octets, and the lines that are wanted; no lines mean one message."""
    octets = row.octets()
    if row.parts is None:
        yield row.place, octets, row.wanted
        return
    for length in range(HEADER, len(octets) + 1):
        missing = [begin for begin, end in row.parts if end > length]
        wanted = [f"fault after 0 messages: body: short at {begin}" for begin in missing[:1]]
        yield f"{row.place}, the first {length} octets", cut_to(octets, length), wanted


def streams_in(name: str) -> Iterator[tuple[str, tuple[bytes, list[str]]]]:
    """What is sent for the rows of a file: where it stands, and the octets with the lines that are wanted."""
    for row in rows_of(name):
        for place, octets, wanted in streams_of(row):
            yield place, (octets, wanted)


def is_one_message(lines: list[str]) -> bool:
    """Whether lines show one message, with its contexts."""
    shown = [line for line in lines[:-2] if not line.startswith("  ")]
    return len(shown) == 1 and lines[-2:] == ["end 1 messages", ""]


class Rows(unittest.TestCase):
    """The rows of each file."""

    @classmethod
    def setUpClass(cls) -> None:
        cls.giop = programs.program("GIOP")

    def shows(self, octets: bytes, wanted: list[str]) -> None:
        """What is sent is shown in these lines."""
        run = base.ran(self.giop, "show", given=octets.hex().encode())
        lines = run.stdout.decode("latin-1").split("\n")
        if wanted:
            self.assertEqual(lines, [*wanted, ""])
        else:
            self.assertTrue(is_one_message(lines), lines)
        status = 0 if lines[-2:][0].startswith("end ") else 1
        self.assertEqual((run.returncode, run.stderr), (status, b""))


def of_file(file: str) -> Callable:
    """The test of the rows of a file."""

    @base.each(lambda: streams_in(file))
    def test(self: Rows, given: tuple[bytes, list[str]]) -> None:
        self.shows(*given)
    test.__doc__ = f"The rows of tests/rows/{file}."
    return test


for name in files():
    setattr(Rows, f"test_{os.path.splitext(name)[0]}", of_file(name))
