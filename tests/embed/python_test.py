"""Tests bindings/python/lemonrudder and its examples.

What is read is compared with the rows and cases of `giop show`, with octets of tests/giop.py, and with the models of
tests/engine.py. The library is that of LEMONRUDDER_LIBRARY, or the one that tests/programs.py finds.
"""
import asyncio
import contextlib
import gc
import glob
import itertools
import logging
import math
import os
import random
import re
import shutil
import socket
import ssl
import struct
import subprocess
import sys
import tempfile
import time
import unittest
from functools import partial
from unittest import mock

from scripts.library import VERSION, serves
from tests import base, cases, cdr, giop, rows
from tests import engine as model
from tests import engine_model
from tests.cdr import Octets
from tests.programs import NEEDS, ROOT, library, needs, tool

if "LEMONRUDDER_LIBRARY" not in os.environ:
    os.environ["LEMONRUDDER_LIBRARY"] = os.path.join(library(), "lib", "liblemonrudder.so")
sys.path.insert(0, os.path.join(ROOT, "bindings", "python"))

import lemonrudder as lr  # noqa: E402
from lemonrudder import BIG, LITTLE, Error, Signature, _connection, _lines, _references, _server, _works  # noqa: E402
from lemonrudder._connection import Connection  # noqa: E402
from lemonrudder._library import library as native  # noqa: E402
from lemonrudder._library import serves as serves_here  # noqa: E402
from lemonrudder._table import FUNCTIONS  # noqa: E402
from lemonrudder.idl import Stub  # noqa: E402

SEED = 31
SCRIPTS = 300
# how long a part may take on a busy machine; calls of the bank do not expire before
SECONDS = 600
LONG_AGO = 1000
# how many messages may be partial for `giop show`
PARTIALS = 8
FAR = (1 << 64) - 1
OVERDRAWN = "IDL:Bank/Overdrawn:1.0"
OVERFLOW = "IDL:Counter/Overflow:1.0"
# the words of `giop show` for faults
FAULTS = {
    "bad magic": "MAGIC", "bad version": "VERSION", "bad flags": "FLAGS", "bad type": "TYPE", "bad cut": "CUT",
    "too large": "TOO_LARGE", "unaligned fragment": "UNALIGNED_FRAGMENT", "stray fragment": "STRAY_FRAGMENT",
    "twice started": "TWICE_STARTED", "too many partial": "TOO_MANY_PARTIAL", "mixed order": "MIXED_ORDER",
    "body": "BODY",
}
KINDS = {
    "REQUEST": "Request", "REPLY": "Reply", "CANCEL_REQUEST": "CancelRequest", "LOCATE_REQUEST": "LocateRequest",
    "LOCATE_REPLY": "LocateReply", "CLOSE_CONNECTION": "CloseConnection", "ERROR": "MessageError",
}


# the words of `giop show` for statuses that have another name in the library
STATUSES = {(lr.MessageType.LOCATE_REPLY, name): f"LOC_{name}" for name in ("SYSTEM_EXCEPTION", "NEEDS_ADDRESSING_MODE")}


class Dice(random.Random):
    """Random numbers by a seed, with what Python 3.8 lacks."""

    def randbytes(self, n):
        return self.getrandbits(8 * n).to_bytes(n, "little") if n else b""


class Case(unittest.TestCase):
    """A test that knows of errors."""

    def fails(self, number, call, *arguments, **others):
        """Calls, and expects an error of the library."""
        with self.assertRaises(lr.LemonrudderError) as caught:
            call(*arguments, **others)
        self.assertIs(caught.exception.number, number)
        self.assertTrue(caught.exception.text)
        return caught.exception


# ---- CDR ----


REALS = {"f": 4, "d": 8}
SIZES = {"B": 1, "h": 2, "H": 2, "l": 4, "L": 4, "i": 4, "I": 4, "q": 8, "Q": 8}
ORDERS = {BIG: ">", LITTLE: "<"}


def spelled(out, kind, value):
    """Appends the octets of a value of a type, which is a letter of a format or a tuple."""
    if kind in ("?", "c"):
        out.all += bytes([value]) if kind == "?" else value.encode("latin-1")
    elif kind in SIZES:
        out.number(SIZES[kind], kind.replace("l", "i").replace("L", "I"), value)
    elif kind in REALS:
        out.number(REALS[kind], kind, value)
    elif kind == "s":
        out.string(value.encode("latin-1"))
    elif kind == "o":
        out.octets(value)
    elif kind[0] == "enum":
        out.ulong(value)
    elif kind[0] == "sequence":
        out.ulong(len(value))
        for one in value:
            spelled(out, kind[1], one)
    else:
        for member, one in zip(kind[1:], value):
            spelled(out, member, one)


def format_of(kind):
    """The format of a type."""
    if isinstance(kind, str):
        return kind
    if kind[0] == "enum":
        return f"e{kind[1]}"
    if kind[0] == "sequence":
        return f"[{format_of(kind[1])}]"
    return "(" + " ".join(map(format_of, kind[1:])) + ")"


def some_kind(dice, depth=3):
    """A type at random."""
    chance = dice.random()
    if depth and chance < 0.2:
        return ("sequence", some_kind(dice, depth - 1))
    if depth and chance < 0.4:
        return ("struct", *(some_kind(dice, depth - 1) for _ in range(dice.randint(1, 4))))
    if chance < 0.5:
        return ("enum", dice.randint(1, 255))
    return dice.choice("?cBhHlLqQfdsoiI")


def some_value(dice, kind):
    """A value of a type at random."""
    if kind == "?":
        return dice.random() < 0.5
    if kind == "c":
        return chr(dice.randrange(256))
    if kind in SIZES:
        bits = 8 * SIZES[kind]
        least = -(1 << bits - 1) if kind.islower() else 0
        return dice.choice([least, least + (1 << bits) - 1, least + dice.randrange(1 << bits), 0])
    if kind in REALS:
        return dice.choice([0.0, -1.5, 2.0 ** 100, dice.randrange(1 << 20) / 8])
    if kind == "s":
        return "".join(chr(dice.randint(1, 255)) for _ in range(dice.randint(0, 9)))
    if kind == "o":
        return bytes(dice.randrange(256) for _ in range(dice.randint(0, 9)))
    if kind[0] == "enum":
        return dice.randrange(kind[1])
    if kind[0] == "sequence":
        return [some_value(dice, kind[1]) for _ in range(dice.randint(0, 4))]
    return tuple(some_value(dice, member) for member in kind[1:])


class Formats(Case):
    """Values of CDR by a format."""

    def test_each_type_in_both_orders_at_each_place(self):
        values = {
            "?": True, "c": "\xe9", "B": 255, "h": -2, "H": 65534, "l": -3, "L": 0xfffffffd, "q": -4,
            "Q": 0xfffffffffffffffc, "f": -0.75, "d": 1e300, "s": "ab\xff", "o": b"\0\1\2",
            ("enum", 5): 4, ("sequence", "q"): [1, -1],
            ("sequence", "B"): [1, 2, 3], ("struct", "B", "q", "s"): (7, 1 << 40, ""),
        }
        for kind, value in values.items():
            for order in (BIG, LITTLE):
                for at in [*range(17), (1 << 32) - 4096]:
                    with self.subTest(kind=kind, order=order, at=at):
                        self.compare(kind, value, order, at)

    def compare(self, kind, value, order, at):
        """A value is written as its rules say, and read again."""
        out, format = Octets(at, ORDERS[order]), format_of(kind)
        spelled(out, kind, value)
        self.assertEqual(lr.pack(format, value, order=order, at=at), out.all)
        self.assertEqual(lr.unpack(format, out.all, order, at), (value,))
        self.assertEqual(lr.unpack(format, out.all + b"more", order, at), (value,))
        for size in range(len(out.all)):
            self.fails(Error.SHORT, lr.unpack, format, out.all[:size], order, at)

    def test_random_types_and_values(self):
        dice = Dice(SEED)
        for number in range(400):
            kinds = [some_kind(dice) for _ in range(dice.randint(1, 5))]
            values = tuple(some_value(dice, kind) for kind in kinds)
            order, at = dice.choice([BIG, LITTLE]), dice.randrange(16)
            format = dice.choice(["", " "]).join(map(format_of, kinds))
            out = Octets(at, ORDERS[order])
            for kind, value in zip(kinds, values):
                spelled(out, kind, value)
            with self.subTest(number=number, format=format):
                self.assertEqual(lr.pack(format, *values, order=order, at=at), out.all)
                self.assertEqual(lr.unpack(format, out.all, order, at), values)
                for _ in range(3):
                    cut = out.all[:dice.randrange(len(out.all))]
                    self.fails(Error.SHORT, lr.unpack, format, cut, order, at)

    def test_many_values_at_once(self):
        """Sequences of numbers, and of structs of these, are read and written as value by value."""
        dice = Dice(SEED)
        numbers = ["?", "c", *SIZES, *REALS, ("enum", 5)]
        kinds = [*numbers, *(("struct", *(dice.choice(numbers) for _ in range(dice.randint(1, 6)))) for _ in range(40)),
                 ("struct", "h", ("struct", "d", "B"), "l"), ("struct", ("struct", ("struct", "q")), "?")]
        for kind, order, at in itertools.product(kinds, (BIG, LITTLE), (0, 3)):
            values = [some_value(dice, kind) for _ in range(dice.choice([1, 2, 9, 100]))]
            out, format = Octets(at, ORDERS[order]), format_of(("sequence", kind))
            spelled(out, ("sequence", kind), values)
            with self.subTest(format=format, order=order, at=at):
                self.assertEqual(lr.pack("?" + format + "B", True, values, 7, order=order, at=at - 1 & 7),
                                 b"\1" + bytes(-at & 3) + self.behind(format, values, order, at) + b"\7")
                self.assertEqual(lr.pack(format, values, order=order, at=at), out.all)
                self.assertEqual(lr.pack(format, tuple(values), order=order, at=at), out.all)
                found, = lr.unpack(format, out.all, order, at)
                self.assertEqual(found, values)
                self.assertEqual(lr.unpack(format, out.all + b"more", order, at), (values,))
                self.assertEqual([type(one) for one in found], [type(one) for one in values])
                for _ in range(4):
                    size = dice.randrange(len(out.all))
                    error = self.fails(Error.SHORT, lr.unpack, format, out.all[:size], order, at)
                    self.assertLessEqual(int(re.search(r"at octet (\d+)", str(error)).group(1)), size)

    def behind(self, format, values, order, at):
        """A sequence as it is written behind an octet, without the padding before its length."""
        return lr.pack(format, values, order=order, at=at + (-at & 3))

    def test_faults_amid_many(self):
        """They are found where they stand."""
        for format, good, bad, at in (("[?]", b"\0\1\0", b"\2", 7), ("[?]", b"\0\1\0", b"", 7),
                                      ("[e3]", b"\0\0\0\2", b"\0\0\0\3", 8), ("[l]", bytes(8), b"\0\0", 12),
                                      ("[(h?)]", b"\0\7\1\0\0\5\0\0", b"\0\7\2", 14), ("[d]", b"", bytes(7), 4)):
            octets = b"\0\0\0\7" + good + bad
            with self.subTest(format=format), self.assertRaises(lr.LemonrudderError) as caught:
                lr.unpack(format, octets)
            self.assertIn(f"at octet {at}", str(caught.exception))
            is_value = format in ("[e3]", "[(h?)]") or bad == b"\2"
            self.assertIs(caught.exception.number, Error.VALUE if is_value else Error.SHORT)
        for format, values, text in (("[l]", [1, 1 << 31], "2147483648 is no long"), ("[?]", [True, 1], "1 is no bool"),
                                     ("[B]", [255, 256], "256 is no octet"), ("[c]", ["a", "bc"], "'bc' is not one"),
                                     ("[f]", [1.0, 1e39], "1e+39 is no float"), ("[d]", [1.0, "x"], "'x' is no float"),
                                     ("[e2]", [1, 2], "2 is not one of 2"), ("[q]", [1, None], "NoneType"),
                                     ("[(hh)]", [(1, 2), (3, 40000)], "40000 is no"),
                                     ("[(hh)]", [(1, 2), (3,)], "a struct of 2 members")):
            with self.subTest(format=format), self.assertRaises((TypeError, ValueError)) as caught:
                lr.pack(format, values)
            self.assertIn(text, str(caught.exception))
        self.assertEqual(lr.unpack("[d]l", bytes(4) + b"\0\0\0\5"), ([], 5))
        self.assertEqual(lr.pack("[d]l", [], 5), bytes(4) + b"\0\0\0\5")
        self.assertEqual(lr.pack("[c][c]", "ab", [b"c", "d"]), lr.pack("oxo".replace("x", ""), b"ab", b"cd"))

    def test_a_megabyte_is_read_at_once(self):
        """.. of numbers, within a few of the milliseconds that struct takes."""
        for letter, size in {"?": 1, "c": 1, "e5": 4, **SIZES, **REALS}.items():
            octets = struct.pack(">L", 1000000 // size) + bytes(1000000)
            with self.subTest(letter):
                begun = time.process_time()
                values, = lr.unpack(f"[{letter}]", octets, at=4)
                read = time.process_time()
                self.assertEqual(lr.pack(f"[{letter}]", values, at=4), octets)
                self.assertLess(read - begun, 0.25)
                self.assertLess(time.process_time() - read, 0.25)

    def test_padding_is_not_looked_at(self):
        self.assertEqual(lr.unpack("Bl", b"\1\xee\xee\xee\0\0\0\2"), (1, 2))

    def test_codes(self):
        self.assertEqual(lr.type_codes("?cBhHlLqQso"), bytes(range(1, 12)))
        self.assertEqual(lr.type_codes(" iI fd"), lr.type_codes("lL LQ"))
        self.assertEqual(lr.type_codes("s[l]"), bytes([10, 6, 12]))
        self.assertEqual(lr.type_codes("(s[l])"), bytes([10, 6, 12, 14, 2]))
        self.assertEqual(lr.type_codes("e7 [e255]"), bytes([13, 7, 13, 255, 12]))
        self.assertEqual(lr.type_codes("[B] [[B]]"), bytes([11, 11, 12]))
        self.assertEqual(lr.type_codes(f"({'l' * 255})"), bytes([6] * 255 + [14, 255]))

    def test_what_is_no_format(self):
        for format in ("x", "2l", "[", "]", "[]", "[ll]", "(", ")", "()", "(l]", "[l", "e", "e0", "e256", "l)",
                       f"({'l' * 256})", "s\0"):
            with self.subTest(format=format):
                for call in (lr.type_codes, lambda format: lr.unpack(format, b""), lr.pack):
                    with self.assertRaises(lr.FormatError) as caught:
                        call(format)
                    self.assertEqual(caught.exception.format, format)
        for format, place in (("l x", 2), ("s[(ll", 2), ("[ll]", 0), ("l[l", 1), ("le0", 1), (" l)", 2)):
            with self.assertRaises(lr.FormatError) as caught:
                lr.pack(format)
            self.assertEqual(caught.exception.place, place)
            self.assertIn(f"at {place}", str(caught.exception))

    def test_what_is_no_value(self):
        for format, value, error in (
            ("?", 1, TypeError), ("?", None, TypeError), ("c", "", ValueError), ("c", "ab", ValueError),
            ("c", 7, TypeError), ("B", 256, ValueError), ("B", -1, ValueError), ("h", 32768, ValueError),
            ("H", -1, ValueError), ("l", 1 << 31, ValueError), ("L", 1 << 32, ValueError), ("q", 1 << 63, ValueError),
            ("Q", -1, ValueError), ("q", 1.0, TypeError), ("q", "1", TypeError), ("s", "a\0", ValueError),
            ("s", b"\0", ValueError), ("s", "\u20ac", ValueError), ("s", 5, TypeError), ("o", "a", TypeError),
            ("o", [1], TypeError), ("e3", 3, ValueError), ("e3", -1, ValueError), ("[l]", 3, TypeError),
            ("f", "1", TypeError), ("d", None, TypeError), ("f", 1e39, ValueError),
            ("[l]", ["a"], TypeError), ("(ll)", (1,), ValueError), ("(ll)", (1, 2, 3), ValueError),
        ):
            with self.subTest(format=format, value=value):
                with self.assertRaises(error) as caught:
                    lr.pack("?" + format, True, value)
                self.assertIn("value 1 of ", str(caught.exception))
        for values in ((), (1, 2)):
            with self.assertRaises(ValueError):
                lr.pack("l", *values)
        for order, at in ((2, 0), (-1, 0), (0, -1), (0, 1 << 64)):
            with self.assertRaises(ValueError):
                lr.unpack("l", bytes(9), order, at)

    def test_octets_that_are_no_value(self):
        for format, octets in (
            ("?", b"\2"), ("e3", b"\0\0\0\3"), ("s", b"\0\0\0\2ab"), ("s", b"\0\0\0\3a\0\0"), ("(l?)", b"\0\0\0\1\xff"),
            ("[?]", b"\0\0\0\2\1\2"),
        ):
            with self.subTest(format=format):
                self.fails(Error.VALUE, lr.unpack, format, octets)
        self.assertEqual(lr.unpack("s", bytes(4)), ("",))
        self.fails(Error.SHORT, lr.unpack, "[q]", b"\xff\xff\xff\xff" + bytes(20))
        self.fails(Error.SHORT, lr.unpack, "o", b"\xff\xff\xff\xff" + bytes(20))

    def test_faults_say_where(self):
        error = self.fails(Error.SHORT, lr.unpack, "lslq", lr.pack("lsl", 1, "abc", 2))
        self.assertIn("at octet 16", str(error))

    def test_floats(self):
        for value in (float("inf"), -0.0, 5e-324):
            self.assertEqual(lr.pack("d", value), struct.pack(">d", value))
        self.assertEqual(lr.pack("f", 7), struct.pack(">f", 7.0))
        self.assertNotEqual(lr.unpack("d", struct.pack(">d", float("nan"))), (0.0,))

    def test_other_kinds_of_octets(self):
        self.assertEqual(lr.unpack("H", bytearray(b"\1\2")), (258,))
        self.assertEqual(lr.unpack("H", memoryview(b"\1\2\3")[:2]), (258,))
        self.assertEqual(lr.pack("so", "\u20ac".encode(), bytearray(b"a")), b"\0\0\0\4\xe2\x82\xac\0\0\0\0\1a")

    def test_a_reader_goes_on(self):
        reader = lr.Reader(lr.pack("Bs", 1, "id", at=3) + b"\0\0\0\7", BIG, 3)
        self.assertEqual(reader.read("Bs"), (1, "id"))
        before = reader.next
        self.fails(Error.SHORT, reader.read, "Bq")
        self.assertEqual(reader.next, before)

    def test_a_writer_goes_on(self):
        writer = lr.Writer(LITTLE, 2)
        writer.write("B", 1)
        before = writer.octets
        with self.assertRaises(ValueError):
            writer.write("lB", 5, 256)
        self.assertEqual(writer.octets, before)
        writer.write("ho", 2, bytes(100000))
        self.assertEqual(writer.octets, b"\1\0\2\0\0\0" + struct.pack("<I", 100000) + bytes(100000))

    def test_encapsulations(self):
        for order in (BIG, LITTLE):
            inner = lr.pack("Bq", order, 77, order=order)
            reader = lr.Reader(lr.pack("Bol", 9, inner, -1, at=5), BIG, 5)
            self.assertEqual(reader.read("B"), (9,))
            self.assertEqual(reader.encapsulation().read("q"), (77,))
            self.assertEqual(reader.read("l"), (-1,))
        self.fails(Error.SHORT, lr.Reader(b"\0\0\0\5\0").encapsulation)


# ---- messages ----


def word(octets):
    """Octets as `giop show` prints them."""
    return octets.hex() or "-"


def text(octets):
    """Octets as text, as `giop show` prints them."""
    return "".join(chr(one) if 32 <= one < 127 and one != 92 else f"\\x{one:02x}" for one in octets)


def lines_of_message(message):
    """A message as `giop show` prints it, where its target is a key."""
    words = [f"1.{message.version} {message.order.name.lower()} {KINDS[message.type.name]}"]
    if message.request_id is not None:
        words.append(f"id {message.request_id}")
    if message.wish is not None:
        words.append(f"reply {message.wish.name.lower()}")
    if message.type in (lr.MessageType.REQUEST, lr.MessageType.LOCATE_REQUEST):
        words.append(f"key {word(message.key)}" if message.key is not None else "no key")
    if message.operation is not None:
        words.append(f"operation {text(message.operation.encode('latin-1'))}")
    if message.status is not None:
        name = message.status.name
        words.append(f"status {STATUSES.get((message.type, name), name)}")
    if message.body is not None:
        words.append(f"body {word(message.body.octets)}")
    yield " ".join(words)
    for number, data in message.contexts:
        yield f"  context {number} {word(data)}"
    if message.ft is not None:
        ft = message.ft
        yield f"  ft client {text(ft.client)} retention {ft.retention_id} expiration {ft.expiration}"


def lines_of_stream(pieces):
    """A stream as `giop show` prints it: what is left over at its end is not said."""
    with lr.Assembler(partials=PARTIALS) as assembler:
        found = []
        try:
            for piece in pieces:
                found += assembler.feed(piece)
            end = ["end"]
        except lr.StreamError as error:
            found += error.messages
            end = [f"fault after {len(found)} messages: {error.fault.name}"]
    return [line for message in found for line in lines_of_message(message)] + end


def wanted_of(lines):
    """The lines of `giop show`, without what the library does not say."""
    for line in lines:
        fault = re.fullmatch(r"fault after (\d+) messages: ([a-z ]+).*", line)
        if fault:
            yield f"fault after {fault.group(1)} messages: {FAULTS[fault.group(2)]}"
        elif line.startswith(("end ", "rest ")):
            yield "end"
        elif line != "  ft bad":
            yield line


def without_targets(lines):
    """The lines, where targets by a profile or a reference are left out."""
    return [re.sub(r" (profile \d+ \S+|reference \d+)", " TARGET", line) for line in lines]


def like(lines, wanted):
    """The lines, where those that are wanted of another target than a key say so."""
    return [re.sub(r" (key \S+|no key)", " TARGET", line) if " TARGET" in want else line
            for line, want in zip(lines, wanted)] + lines[len(wanted):]


def shown_cases():
    """The cases of `giop show`: a name, the octets, and the lines."""
    for name, case in cases.cases_of("show"):
        if case.out:
            yield name, bytes.fromhex("".join(case.given.decode().split())), case.out.decode().splitlines()


class Messages(Case):
    """The messages of streams."""

    def compare(self, octets, lines):
        wanted = without_targets(wanted_of(lines))
        for pieces in ([octets], [octets[at:at + 1] for at in range(len(octets))], [octets[:13], b"", octets[13:]]):
            self.assertEqual(like(lines_of_stream(pieces), wanted), wanted)

    def test_rows(self):
        for name in rows.files():
            for place, (octets, wanted) in rows.streams_in(name):
                if wanted:
                    with self.subTest(place):
                        self.compare(octets, wanted)

    def test_cases(self):
        for name, octets, lines in shown_cases():
            with self.subTest(name):
                self.compare(octets, lines)

    def test_random_streams(self):
        dice = Dice(SEED)
        for number in range(100):
            terms, streams, _ = model.Maker(dice).made()
            for connection, frames in streams.items():
                with self.subTest(number=number, connection=connection):
                    self.assertEqual(*self.said(terms, frames))

    def said(self, terms, frames):
        """What a stream of requests and locates says up to its end, and what it is read as."""
        wanted = []
        for octets, said in frames:
            if said in (engine_model.CLOSE, engine_model.ERROR) or terms.limit < len(octets):
                break
            if isinstance(said, engine_model.Asked):
                ft = said.field if isinstance(said.field, tuple) else None
                ft = ft and lr.FtRequest(*ft, said.call.expiration)
                wanted.append((int(said.version[2]), said.request_id, said.wish, said.call.key,
                               said.call.operation.decode(), ft))
            if isinstance(said, engine_model.Sought):
                wanted.append((int(said.version[2]), said.request_id, None, said.key.encode(), None, None))
        found = []
        try:
            for one in lr.messages(b"".join(octets for octets, _ in frames), terms.limit, terms.partials):
                if one.operation is not None or one.key is not None:
                    wish = one.wish.name.lower() if one.wish is not None else None
                    found.append((one.version, one.request_id, wish, one.key, one.operation, one.ft))
        except lr.StreamError:
            pass
        return found[:len(wanted)], wanted

    def test_a_request_in_full(self):
        context = lr.write_ft("client", -5, 1 << 60, LITTLE)
        body = lr.pack("sq", "alice", 5, order=LITTLE)
        for version in (0, 1, 2):
            # (in 1.0 and 1.1 the body stands directly after an operation whose size makes its place fit)
            name = "deposit" if version == 2 else "deposit_four"
            octets = lr.write_request(7, b"\0key", name, body, version=version, order=LITTLE, wish=lr.Wish.FULL,
                                      context=(lr.FT_REQUEST, context))
            message, = lr.messages(octets)
            self.assertEqual(
                (message.type, message.version, message.order, message.request_id, message.status, message.wish),
                (lr.MessageType.REQUEST, version, LITTLE, 7, None, lr.Wish.FULL))
            self.assertEqual((message.key, message.operation), (b"\0key", name))
            self.assertEqual(message.contexts, [(13, context)])
            self.assertEqual(message.ft, lr.FtRequest(b"client", -5, 1 << 60))
            self.assertEqual(message.body.order, LITTLE)
            self.assertEqual(octets[message.body.at:], body)
            self.assertEqual(message.body.octets, body)
            self.assertEqual(message.body.unpack("sq"), ("alice", 5))

    def test_bodies_are_aligned_by_their_place(self):
        for version in (0, 1, 2):
            for size in range(24):
                with self.subTest(version=version, size=size):
                    said, body = {"version": version}, lr.pack("Bq", 1, 2)
                    head = lr.write_request(1, b"k", "o" * size, **said)
                    if version < 2 and len(head) % 8:
                        self.fails(Error.PLACE, lr.write_request, 1, b"k", "o" * size, body, **said)
                        continue
                    message, = lr.messages(lr.write_request(1, b"k", "o" * size, body, **said))
                    self.assertEqual(message.body.at, -(-len(head) // 8) * 8)
                    self.assertEqual(message.body.unpack("Bq"), (1, 2))
                    self.assertEqual(message.body.octets, body)

    def test_what_is_written(self):
        for version in (0, 1, 2):
            for order in (BIG, LITTLE):
                with self.subTest(version=version, order=order):
                    said = {"version": version, "order": order}
                    self.compare_written(lr.write_reply(9, b"12345678", status=1, **said), "REPLY",
                                         status=lr.ReplyStatus.USER_EXCEPTION)
                    self.compare_written(lr.write_cancel(9, **said), "CANCEL_REQUEST")
                    self.compare_written(lr.write_locate_request(9, "key", **said), "LOCATE_REQUEST", key=b"key")
                    self.compare_written(lr.write_locate_reply(9, 1, **said), "LOCATE_REPLY",
                                         status=lr.LocateStatus.OBJECT_HERE)
        self.assertEqual(lr.write_close()[:5] + lr.write_close()[7:], b"GIOP\1\5" + bytes(4))
        self.assertEqual(lr.write_error()[:5] + lr.write_error()[7:], b"GIOP\1\6" + bytes(4))
        self.assertEqual(len(lr.write_request(1, bytes(300000), "operation", bytes(200000))) // 1000, 500)

    def compare_written(self, octets, name, **parts):
        message, = lr.messages(octets)
        self.assertEqual((message.type.name, message.request_id), (name, 9))
        for part, value in parts.items():
            self.assertEqual(getattr(message, part), value)

    def test_what_is_not_written(self):
        self.fails(Error.RANGE, lr.write_request, 1, b"k", "o", version=3)
        self.fails(Error.RANGE, lr.write_request, 1, b"k", "o", order=2)
        self.fails(Error.RANGE, lr.write_request, 1, b"k", "o", wish=3)
        self.fails(Error.RANGE, lr.write_request, 1, b"k", "o", context=(1, b""))
        self.fails(Error.TEXT, lr.write_request, 1, b"k", "o\0")
        self.fails(Error.TEXT, lr.write_ft, "a\0", 1, 1)
        self.fails(Error.RANGE, lr.write_reply, 1, status=6)
        for number in (-1, 1 << 32):
            with self.assertRaises(ValueError):
                lr.write_cancel(number)

    def test_limits(self):
        for limit, partials in ((4095, 8), (16777217, 8), (4096, 0), (4096, 17)):
            self.fails(Error.RANGE, lr.Assembler, limit, partials)
        self.fails(Error.RANGE, lr.Assembler, 4096, 1, 2)
        with self.assertRaises(ValueError):
            lr.Assembler((1 << 32) + 4096)
        octets = lr.write_request(1, bytes(4096 - 64), "o")
        self.assertEqual(len(list(lr.messages(octets + lr.write_close()))), 2)
        more = lr.write_request(1, bytes(4096), "o")
        with self.assertRaises(lr.StreamError) as caught:
            list(lr.messages(octets + more, 4096))
        self.assertIs(caught.exception.fault, lr.Fault.TOO_LARGE)

    def test_after_a_fault(self):
        assembler, request = lr.Assembler(), lr.write_request(1, b"k", "o")
        with self.assertRaises(lr.StreamError) as caught:
            assembler.feed(request + request + b"GIOQ" + bytes(8) + request)
        self.assertEqual([one.operation for one in caught.exception.messages], ["o", "o"])
        self.assertIs(caught.exception.number, Error.STREAM)
        self.assertIn("MAGIC", str(caught.exception))
        self.assertIs(assembler.fault, lr.Fault.MAGIC)
        with self.assertRaises(lr.StreamError) as caught:
            assembler.feed(request)
        self.assertEqual(caught.exception.messages, [])
        self.assertIs(caught.exception.fault, lr.Fault.MAGIC)

    def test_messages_come_before_the_fault(self):
        found = lr.messages(lr.write_close() + b"GIOQ" + bytes(8))
        self.assertIs(next(found).type, lr.MessageType.CLOSE_CONNECTION)
        with self.assertRaises(lr.StreamError):
            next(found)

    def test_closed(self):
        assembler = lr.Assembler()
        assembler.close()
        assembler.close()
        self.fails(Error.EMPTY, assembler.feed, b"GIOP")
        with lr.Assembler() as assembler:
            self.assertEqual(assembler.feed(b""), [])
            self.assertIsNone(assembler.fault)
        self.fails(Error.EMPTY, assembler.feed, b"GIOP")


class Fragments(Case):
    """Messages that are cut, and the faults of streams by name."""

    def request(self, request_id, size, order=BIG):
        return lr.write_request(request_id, b"key", "operation", bytes(range(256)) * (size // 256), order=order)

    def test_joined(self):
        dice = Dice(SEED)
        for number in range(60):
            order = dice.choice([BIG, LITTLE])
            octets = self.request(number, 256 * dice.randint(1, 8), order)
            sizes = [4 + 8 * dice.randint(1, 20)]
            frames = giop.cut(octets, sizes + [8 * dice.randint(0, 20) for _ in range(9)])
            with self.subTest(number=number):
                self.assertEqual(list(lr.messages(b"".join(frames))), list(lr.messages(octets)))

    def test_interleaved(self):
        dice = Dice(SEED)
        for number in range(60):
            count = dice.randint(2, 8)
            whole = [self.request(one, 1024) for one in range(count)]
            left = [giop.cut(octets, [12] + [8 * dice.randint(1, 20) for _ in range(9)]) for octets in whole]
            stream, order = b"", []
            while any(left):
                one = dice.choice([one for one in range(count) if left[one]])
                stream += left[one].pop(0)
                order += [] if left[one] else [one]
            with self.subTest(number=number):
                found = list(lr.messages(stream, partials=count))
                self.assertEqual([message.request_id for message in found], order)
                wanted = [next(lr.messages(whole[one])) for one in order]
                self.assertEqual(found, wanted)

    def test_of_1_1(self):
        octets = lr.write_request(3, b"key", "operation_of_16", bytes(range(64)), version=1)
        first, last = giop.cut(octets, [8 * 5])
        self.assertEqual(len(first) % 8, 4)
        self.assertEqual(list(lr.messages(first + last)), list(lr.messages(octets)))
        for at in range(len(octets) - 12):
            first, last = giop.cut(octets, [at])
            with self.subTest(at):
                found = list(lr.messages(first + last, cuts=lr.Cuts.ANYWHERE))
                self.assertEqual(found, list(lr.messages(octets)))
                if at % 8 != 0:
                    with self.assertRaises(lr.StreamError):
                        list(lr.messages(first + last))
        with self.assertRaises(lr.StreamError):
            list(lr.messages(giop.cut(lr.write_request(3, b"key", "o", bytes(64)), [13])[0], cuts=lr.Cuts.ANYWHERE))

    def test_faults_by_name(self):
        close, request = lr.write_close(), self.request(1, 256)
        first, second, *_ = giop.cut(request, [12, 64])
        other = giop.cut(self.request(2, 256), [12])[0]
        mixed = second[:6] + bytes([second[6] | 1]) + second[7:8] + second[11:7:-1] + second[15:11:-1] + second[16:]
        cases = {
            "MAGIC": b"GIOQ" + close[4:],
            "VERSION": b"GIOP\2" + close[5:],
            "FLAGS": close[:6] + b"\x80" + close[7:],
            "TYPE": close[:7] + b"\x08" + close[8:],
            "CUT": b"GIOP\1\2\2\5" + bytes(4),
            "TOO_LARGE": close[:8] + b"\0\x20\0\0",
            "UNALIGNED_FRAGMENT": giop.cut(request, [13])[0],
            "STRAY_FRAGMENT": second,
            "TWICE_STARTED": first + request,
            "TOO_MANY_PARTIAL": first + other,
            "BODY": b"GIOP\1\2\0\0" + bytes(4),
            "MIXED_ORDER": first + mixed,
        }
        for name, octets in cases.items():
            with self.subTest(name):
                with self.assertRaises(lr.StreamError) as caught:
                    list(lr.messages(octets, partials=1))
                self.assertEqual(caught.exception.fault.name, name)


# ---- references ----


COUNTER = ("IOR:000000000000001049444c3a436f756e7465723a312e3000000000010000000000000020000102000000000a3132372e302e30"
           "2e31000af9000000016300000000000000")


class References(Case):
    """References to objects."""

    def test_written_and_read(self):
        for minor in (0, 1, 2):
            for host, port, key in (("127.0.0.1", 2809, b"c"), ("::1", 0, b""), ("h", 65535, bytes(range(256)))):
                with self.subTest(minor=minor, host=host):
                    made = lr.Ior.iiop("IDL:Counter:1.0", host, port, key, minor)
                    self.assertEqual(made.type_id, "IDL:Counter:1.0")
                    profile, = made.profiles
                    self.assertEqual((profile.tag, profile.minor, profile.is_iiop), (0, minor, True))
                    self.assertEqual((profile.host, profile.port, profile.key), (host, port, key))
                    self.assertEqual(profile.components, ())
                    self.assertEqual(lr.Ior.parse(str(made)), made)
        self.assertEqual(str(lr.Ior.iiop("IDL:Counter:1.0", "127.0.0.1", 2809, "c")), COUNTER)

    def test_parsed(self):
        self.assertEqual(lr.Ior.parse("  IOR:" + COUNTER[4:].upper() + "\n").profiles[0].port, 2809)
        self.assertEqual(lr.Ior.parse(COUNTER.encode()), lr.Ior.parse(COUNTER))
        self.assertEqual(len({lr.Ior.parse(COUNTER), lr.Ior.parse(COUNTER)}), 1)

    def test_urls(self):
        """They go to the library as they stand; what it does not take is named, if it is not long."""
        url, heard = "corbaloc:iiop:1.1@h:7,:[::1]/Dev%2f%C3%A9", []

        def parse(slot, octets, size):
            heard.append((octets, size))
            return Error.REFERENCE
        with mock.patch.object(_references.library, "lr_ior_parse", parse):
            for call in (lr.Ior.parse, lr.Client.of, Stub._of):
                error = self.fails(Error.REFERENCE, call, f" {url}\n")
                self.assertEqual(error.text, f"no stringified reference: '{url}'")
        self.assertEqual(heard, 3 * [(url.encode(), len(url))])
        self.assertEqual(self.fails(Error.REFERENCE, lr.Ior.parse, "IOR:" + "g" * 200).text,
                         f"no stringified reference: 'IOR:{'g' * 56}' and 144 characters more")

    def test_components_in_both_orders(self):
        for order in (BIG, LITTLE):
            components = [(0, b"\1\2"), (1, b""), (0xffffffff, bytes(300))]
            data = lr.pack("BBBsHo[(Lo)]", order, 1, 2, "host", 7, b"key", components, order=order)
            profiles = [(0, data), (9, b"other"), (0, b"\0\1"), (0, data)]
            ior = lr.Ior.parse("IOR:" + lr.pack("Bs[(Lo)]", order, "IDL:X:1.0", profiles, order=order).hex())
            self.assertEqual([(one.tag, one.data) for one in ior.profiles], profiles)
            self.assertEqual([one.is_iiop for one in ior.profiles], [True, False, False, True])
            self.assertEqual(ior.profiles[3].components, tuple(components))
            self.assertEqual((ior.profiles[1].host, ior.profiles[1].key, ior.profiles[1].port), (None, None, None))
            self.assertEqual(lr.Ior.parse(str(ior)).profiles, ior.profiles)
            body = lr.pack("Bs[(Lo)]", 0, "IDL:X:1.0", profiles, order=order, at=3)
            reader = lr.Reader(body, order, 3)
            reader.read("B")
            self.assertEqual(lr.Ior.read(reader).profiles, ior.profiles)

    def test_addresses(self):
        inner = lr.pack("BsH", 0, "other", 9)
        data = lr.pack("BBBsHo[(Lo)]", 0, 1, 1, "host", 7, b"key", [(3, inner), (3, b""), (3, b"\0\0"), (4, inner)])
        profiles = [(0, data), (9, b"other"), (0, lr.Ior.iiop("", "third", 5, b"k").profiles[0].data)]
        ior = lr.Ior.of_value(("IDL:X:1.0", profiles))
        self.assertEqual(ior.value, ("IDL:X:1.0", profiles))
        self.assertEqual(ior.addresses, (lr.Address("host", 7, b"key", 1), lr.Address("other", 9, b"key", 1),
                                         lr.Address("third", 5, b"k", 2)))
        self.assertEqual(lr.unpack(lr.REFERENCE, lr.pack(lr.REFERENCE, ior.value)), (ior.value,))

    def test_nil(self):
        nil = lr.Ior.parse("IOR:" + lr.pack("Bs[(Lo)]", 0, "", []).hex())
        self.assertEqual((nil.type_id, nil.profiles), ("", ()))

    def test_what_is_none(self):
        for bad in ("", "IOR", "IOR:", "IOR:0", "IOR:0g", "corbaloc:rir:/k", COUNTER[:-20], "IOR:\u20ac", COUNTER[4:]):
            with self.subTest(bad):
                self.fails(Error.REFERENCE, lr.Ior.parse, bad)
        self.fails(Error.RANGE, lr.Ior.iiop, "IDL:X:1.0", "h", 1, b"k", 3)
        self.fails(Error.TEXT, lr.Ior.iiop, "IDL:X:1.0\0", "h", 1, b"k")
        self.fails(Error.TEXT, lr.Ior.iiop, "IDL:X:1.0", "h\0", 1, b"k")
        for port in (-1, 65536):
            with self.assertRaises(ValueError):
                lr.Ior.iiop("IDL:X:1.0", "h", port, b"k")


# ---- the engine ----


def counting():
    """A catalogue with the counter of the models."""
    catalogue = lr.Catalogue()
    catalogue.add_object(b"c")
    catalogue.add_operation(b"c", "add", Signature("l", "q", {OVERFLOW: ""}))
    catalogue.add_operation(b"c", "get", Signature("", "q"))
    return catalogue


def asked_for(number, operation, body=b"", key=b"c", client="A", retention=None, expiration=FAR, order=BIG):
    """A Request, with FT_REQUEST unless its number in the retention is None."""
    context = None
    if retention is not None:
        context = (lr.FT_REQUEST, lr.write_ft(client, retention, expiration))
    return lr.write_request(number, key, operation, body, context=context, order=order)


class Engines(Case):
    """Catalogues and an engine, call by call."""

    def engine(self, catalogue=None, *terms, **limits):
        engine = lr.Engine(catalogue or counting(), *terms, **limits)
        engine.connect(1)
        return engine

    def reply(self, engine, connection=1):
        """The one message that is due on a connection."""
        message, = lr.messages(engine.output(connection))
        return message

    def test_catalogues(self):
        catalogue = counting()
        self.fails(Error.TAKEN, catalogue.add_object, b"c")
        self.fails(Error.TAKEN, catalogue.add_raw_object, b"c")
        self.fails(Error.TAKEN, catalogue.add_operation, b"c", "add")
        self.fails(Error.OBJECT, catalogue.add_operation, b"d", "add")
        self.fails(Error.TEXT, catalogue.add_operation, b"c", "a\0")
        catalogue.add_raw_object(b"r")
        self.fails(Error.RAW, catalogue.add_operation, b"r", "add")
        self.fails(Error.RAW, catalogue.add_raw_operation, b"r", "add")
        self.fails(Error.RAW, catalogue.add_repository_ids, b"r", "IDL:R:1.0")
        self.fails(Error.TEXT, catalogue.add_repository_ids, b"c", "IDL:R:1.0\0IDL:S:1.0")
        catalogue.add_repository_ids(b"c", "IDL:R:1.0", "IDL:S:1.0")
        self.fails(Error.TAKEN, catalogue.add_repository_ids, b"c", "IDL:R:1.0")
        with self.assertRaises(ValueError):
            catalogue.add_operation(b"c", "bad", Signature("x"))
        engine = self.engine(catalogue)
        self.fails(Error.EMPTY, catalogue.add_object, b"x")
        self.fails(Error.EMPTY, lr.Engine, catalogue)
        self.assertFalse(engine.is_closed(1))

    def test_terms(self):
        for terms in ((4095,), (16777217,), (4096, 0), (4096, 17)):
            catalogue = counting()
            self.fails(Error.RANGE, lr.Engine, catalogue, *terms)
            lr.Engine(catalogue).close()
        for wrong in ({"capacity": 1 << 32}, {"max_parked": 1 << 32}, {"max_joined": 1 << 32}):
            self.fails(Error.RANGE, lr.Engine, counting(), **wrong)
        with self.assertRaises(ValueError):
            lr.Engine(counting(), capacity=1 << 64)

    def test_a_request_in_full(self):
        engine, octets = self.engine(), asked_for(5, "add", lr.pack("l", 7), retention=3, client="me", expiration=99)
        self.assertIsNone(engine.asked())
        self.assertEqual(engine.feed(1, octets + octets, 50), len(octets))
        asked = engine.asked()
        self.assertEqual(asked, engine.asked())
        self.assertEqual((asked.connection, asked.key, asked.operation, asked.arguments), (1, b"c", "add", (7,)))
        self.assertEqual((asked.request_id, asked.version, asked.wish, asked.is_raw), (5, 2, lr.Wish.FULL, False))
        self.assertEqual(asked.ft, lr.FtRequest(b"me", 3, 99))
        self.assertEqual(asked.body, lr.Body(lr.pack("l", 7), BIG, len(octets) - 4))
        self.assertEqual(engine.output(1), b"")
        engine.answer(7)
        reply = self.reply(engine)
        self.assertEqual((reply.request_id, reply.status, reply.body.unpack("q")), (5, 0, (7,)))
        self.assertEqual(engine.feed(1, octets + octets, 50, len(octets)), 2 * len(octets))
        self.assertIsNone(engine.asked())
        self.assertEqual(self.reply(engine).body.unpack("q"), (7,))

    def test_arguments_in_little_order(self):
        engine = self.engine()
        engine.feed(1, asked_for(5, "add", lr.pack("l", -7, order=LITTLE), order=LITTLE), LONG_AGO)
        self.assertEqual(engine.asked().arguments, (-7,))
        self.assertEqual(engine.asked().body.unpack("l"), (-7,))
        self.assertEqual((engine.asked().body.octets, engine.asked().body.order), (b"\xf9\xff\xff\xff", LITTLE))
        self.assertIsNone(engine.asked().ft)

    def test_arguments_at_any_place(self):
        """In 1.0 and 1.1 a body stands right behind the header, and what follows the arguments is not looked at."""
        catalogue = counting()
        catalogue.add_operation(b"c", "both", Signature("sq", ""))
        engine, places = self.engine(catalogue), set()
        for version, length, order in itertools.product((0, 1, 2), range(9), (BIG, LITTLE)):
            with self.subTest(version=version, length=length, order=order):
                head = giop.request(1, b"c", b"both", minor=version, principal=bytes(length),
                                    order=cdr.LITTLE if order == LITTLE else cdr.BIG)
                at = len(head) if version < 2 else -(-len(head) // 8) * 8
                body = lr.pack("sq", "alice", -9, order=order, at=at) + b"more"
                octets = bytearray(head + bytes(at - len(head)) + body)
                octets[8:12] = (len(octets) - 12).to_bytes(4, "little" if order == LITTLE else "big")
                engine.feed(1, octets, LONG_AGO)
                asked = engine.asked()
                engine.answer()
                self.reply(engine)
                self.assertEqual((asked.arguments, asked.body), (("alice", -9), lr.Body(body, order, at)))
                places.add(at % 8)
        self.assertEqual(places, set(range(8)))

    def test_while_a_request_waits(self):
        engine = self.engine()
        self.fails(Error.IDLE, engine.answer, 1)
        self.fails(Error.IDLE, engine.answer_octets, bytes(8))
        self.fails(Error.IDLE, engine.raise_system, "UNKNOWN")
        self.fails(Error.IDLE, engine.give_up)
        self.fails(Error.IDLE, engine.refuse, "TRANSIENT")
        self.fails(Error.IDLE, engine.goodbye)
        engine.feed(1, asked_for(1, "get"), LONG_AGO)
        self.fails(Error.RANGE, engine.refuse, len(lr.SystemName))
        for call, arguments in ((engine.feed, (1, b"", LONG_AGO)), (engine.connect, (2,)), (engine.lost, (1,)),
                                (engine.farewell, (1,))):
            self.fails(Error.ASKING, call, *arguments)
        self.assertFalse(engine.identify())
        engine.answer(1)
        self.fails(Error.IDLE, engine.answer, 1)
        self.reply(engine)
        self.fails(Error.CONNECTION, engine.connect, 1)
        self.fails(Error.CONNECTION, engine.feed, 2, b"", LONG_AGO)
        self.fails(Error.CONNECTION, engine.farewell, 2)
        engine.lost(2)

    def test_what_is_due(self):
        engine = self.engine(None, max_due=100)
        engine.connect(2)
        requests = b"".join(asked_for(number, "none") for number in range(9))
        taken = engine.feed(1, requests, LONG_AGO)
        self.assertLess(taken, len(requests))
        self.assertEqual(engine.feed(1, requests, LONG_AGO, taken), taken)
        engine.feed(2, asked_for(3, "none"), LONG_AGO)
        self.assertEqual([one.request_id for one in lr.messages(engine.output(2))], [3])
        found = b""
        while True:
            some = engine.output(1, 7)
            found += some
            if not some:
                break
            self.assertLessEqual(len(some), 7)
        while taken < len(requests):
            taken = engine.feed(1, requests, LONG_AGO, taken)
            found += engine.output(1)
        self.assertEqual([one.request_id for one in lr.messages(found)], [*range(9)])
        engine.feed(1, asked_for(3, "none"), LONG_AGO)
        engine.lost(1)
        self.assertEqual(engine.output(1), b"")
        self.assertEqual(engine.output(7), b"")

    def test_outcomes_that_are_none(self):
        engine = self.engine()
        engine.feed(1, asked_for(1, "add", lr.pack("l", 7)), LONG_AGO)
        for octets in (b"", bytes(4), bytes(7), bytes(9), bytes(16)):
            with self.subTest(size=len(octets)):
                self.fails(Error.OUTCOME, engine.answer_octets, octets)
        for wrong in ((), (1, 2), (1 << 63,)):
            with self.assertRaises(ValueError):
                engine.answer(*wrong)
        with self.assertRaises(TypeError):
            engine.answer("7")
        self.fails(Error.OUTCOME, engine.raise_user, "IDL:Other:1.0")
        self.fails(Error.RANGE, engine.answer_octets, bytes(8), 2)
        self.fails(Error.RANGE, engine.raise_system, 40)
        self.fails(Error.RANGE, engine.raise_system, "UNKNOWN", 0, 3)
        with self.assertRaises(KeyError):
            engine.raise_system("OTHER")
        engine.answer(7)
        self.assertEqual(self.reply(engine).body.unpack("q"), (7,))

    def test_exceptions(self):
        engine = self.engine()
        engine.feed(1, asked_for(1, "add", lr.pack("l", 7)), LONG_AGO)
        engine.raise_user(OVERFLOW)
        reply = self.reply(engine)
        self.assertEqual((reply.status, reply.body.unpack("s")), (lr.ReplyStatus.USER_EXCEPTION, (OVERFLOW,)))
        for name in lr.SystemName:
            engine.feed(1, asked_for(2, "get"), LONG_AGO)
            engine.raise_system(name.name, 0xffffffff, lr.Completed.YES)
            reply = self.reply(engine)
            self.assertIs(reply.status, lr.ReplyStatus.SYSTEM_EXCEPTION)
            self.assertEqual(reply.body.unpack("sLL"), (f"IDL:omg.org/CORBA/{name.name}:1.0", 0xffffffff, 0))

    def test_refusals_never_come(self):
        engine = self.engine()
        for name, octets in (
            ("OBJECT_NOT_EXIST", asked_for(1, "get", key=b"d")), ("BAD_OPERATION", asked_for(1, "sub")),
            ("MARSHAL", asked_for(1, "add", b"\0\0")),
            ("BAD_CONTEXT", asked_for(1, "get", retention=1, expiration=LONG_AGO - 1)),
        ):
            self.assertEqual(engine.feed(1, octets, LONG_AGO), len(octets))
            self.assertIsNone(engine.asked())
            self.assertEqual(self.reply(engine).body.unpack("sLL"), (f"IDL:omg.org/CORBA/{name}:1.0", 0, 1))

    def test_given_up(self):
        engine, octets = self.engine(), asked_for(1, "get", retention=1)
        engine.feed(1, octets, LONG_AGO)
        engine.give_up()
        self.assertEqual(engine.output(1), b"")
        self.assertTrue(engine.is_closed(1))
        engine.connect(2)
        engine.feed(2, octets, LONG_AGO)
        self.assertEqual(engine.asked().operation, "get")
        engine.answer(5)
        self.assertEqual(self.reply(engine, 2).body.unpack("q"), (5,))

    def test_refused(self):
        engine, octets = self.engine(), asked_for(1, "get", retention=1)
        for name, minor in (("TRANSIENT", 0), ("NO_RESOURCES", 0xffffffff)):
            engine.feed(1, octets, LONG_AGO)
            engine.refuse(name, minor)
            reply = self.reply(engine)
            self.assertIs(reply.status, lr.ReplyStatus.SYSTEM_EXCEPTION)
            self.assertEqual(reply.body.unpack("sLL"), (f"IDL:omg.org/CORBA/{name}:1.0", minor, lr.Completed.NO))
            self.assertFalse(engine.is_closed(1))
        engine.feed(1, octets, LONG_AGO)
        engine.answer(5)
        self.assertEqual(self.reply(engine).body.unpack("q"), (5,))

    def test_goodbye(self):
        engine, octets = self.engine(), asked_for(1, "get", retention=1)
        engine.feed(1, octets, LONG_AGO)
        engine.goodbye()
        self.assertEqual(self.reply(engine).type, lr.MessageType.CLOSE_CONNECTION)
        self.assertTrue(engine.is_closed(1))
        engine.connect(2)
        engine.feed(2, octets, LONG_AGO)
        self.assertEqual(engine.asked().operation, "get")

    def test_farewell(self):
        engine = self.engine()
        self.assertEqual(engine.farewell(1), 0)
        self.assertEqual(self.reply(engine).type, lr.MessageType.CLOSE_CONNECTION)
        self.assertTrue(engine.is_closed(1))
        self.assertEqual(engine.farewell(1), 0)
        self.assertEqual(engine.output(1), b"")
        octets = asked_for(1, "get")
        self.assertEqual(engine.feed(1, octets, LONG_AGO), len(octets))
        self.assertIsNone(engine.asked())

    def test_why(self):
        """A connection says why it ended, until it is lost."""
        engine, fragment = self.engine(), lr.write_request(1, "c", "get")
        self.fails(Error.CONNECTION, engine.why, 2)
        ends = {
            b"nonsense, and so on": lr.Why.FAULT_MAGIC,
            b"GIOP\1\7" + bytes(6): lr.Why.FAULT_VERSION,
            b"GIOP\1\2\0\x63" + bytes(4): lr.Why.FAULT_TYPE,
            b"GIOP\1\2\0\0" + bytes(4): lr.Why.FAULT_BODY,
            fragment[:6] + b"\0\7" + fragment[8:]: lr.Why.FAULT_STRAY_FRAGMENT,
            lr.write_reply(1): lr.Why.DIRECTION,
            lr.write_close(): lr.Why.GOODBYE,
            lr.write_error(): lr.Why.ERROR,
        }
        for number, (octets, why) in enumerate(ends.items(), 2):
            with self.subTest(why):
                engine.connect(number)
                self.assertIs(engine.why(number), lr.Why.OPEN)
                engine.feed(number, octets, LONG_AGO)
                self.assertEqual((engine.why(number), engine.is_closed(number)), (why, True))
                engine.lost(number)
                self.fails(Error.CONNECTION, engine.why, number)
        for number, leave in enumerate((engine.give_up, engine.goodbye), 50):
            engine.connect(number)
            engine.feed(number, fragment, LONG_AGO)
            self.assertIs(engine.why(number), lr.Why.OPEN)
            leave()
            self.assertIn(engine.why(number), (lr.Why.GIVEN_UP, lr.Why.FAREWELL))
        engine.farewell(1)
        self.assertIs(engine.why(1), lr.Why.FAREWELL)

    def stored(self, engine, outcome, wanted):
        """An outcome that is stored is the wanted reply of another server, and what a repeat gets there."""
        other = self.engine()
        octets = asked_for(1, "add", lr.pack("l", 7), retention=1)
        other.feed(1, octets, LONG_AGO)
        other.answer_stored(outcome)
        for _ in range(2):
            reply = self.reply(other)
            self.assertEqual((reply.status, reply.order, reply.body.octets), (outcome.status, BIG, outcome.body))
            self.assertEqual(reply.body.unpack(wanted[0]), wanted[1:])
            other.feed(1, octets, LONG_AGO)
        self.assertEqual(engine.output(1), b"")

    def test_outcomes_are_stored(self):
        """What is stored is answered by another server; here nothing is, and what is none is not stored."""
        for is_parked in (False, True):
            engine = self.engine()
            self.fails(Error.IDLE, engine.stored, 5)
            self.fails(Error.IDLE, engine.can_answer, 5)
            engine.feed(1, asked_for(1, "add", lr.pack("l", 7)), LONG_AGO)
            ticket = engine.park() if is_parked else None
            self.stored(engine, engine.stored(5, ticket=ticket), ("q", 5))
            self.stored(engine, engine.stored_user(OVERFLOW, ticket=ticket), ("s", OVERFLOW))
            system = engine.stored_system("TIMEOUT", 3, lr.Completed.MAYBE)
            self.stored(engine, system, ("sLL", "IDL:omg.org/CORBA/TIMEOUT:1.0", 3, 2))
            for results, can in (((5,), True), ((), False), ((5, 5), False), ((1 << 63,), False), (("a",), False)):
                self.assertEqual(engine.can_answer(*results, ticket=ticket), can)
            for wrong, error in (((1 << 63,), ValueError), (("a",), TypeError)):
                with self.assertRaises(error):
                    engine.stored(*wrong, ticket=ticket)
            self.fails(Error.OUTCOME, engine.stored_user, "IDL:Other:1.0", ticket=ticket)
            with self.assertRaises(KeyError):
                engine.stored_system("NONE")
            with self.assertRaises(ValueError):
                engine.stored_system("TIMEOUT", 0, 3)
            self.fails(Error.TICKET, engine.stored, 5, ticket=99)
            self.fails(Error.TICKET, engine.can_answer, 5, ticket=99)
            self.fails(Error.RANGE, engine.answer_stored, lr.Outcome(4, BIG, b""), ticket=ticket)
            engine.answer_stored(lr.Outcome(0, LITTLE, lr.pack("q", 6, order=LITTLE)), ticket=ticket)
            self.assertEqual(self.reply(engine).body.unpack("q"), (6,))

    def test_unkept_outcomes(self):
        """They are told, nothing is kept, and each repeat is asked again."""
        octets, outcome = asked_for(1, "get", retention=1), lr.Outcome(0, LITTLE, lr.pack("q", 6, order=LITTLE))
        for is_parked in (False, True):
            engine = self.engine()
            for _ in range(3):
                engine.feed(1, octets, LONG_AGO)
                ticket = engine.park() if is_parked else None
                self.fails(Error.TICKET, engine.answer_unkept, outcome, ticket=99)
                self.fails(Error.RANGE, engine.answer_unkept, lr.Outcome(4, BIG, b""), ticket=ticket)
                engine.answer_unkept(outcome, ticket=ticket)
                self.assertEqual(self.reply(engine).body.unpack("q"), (6,))
            self.assertEqual(engine.count(lr.Counted.KEPT), 0)

    def refused_as(self, engine, octets, name):
        """A request is asked for first, which would be refused by this: it is answered by what is stored, and refused so
        where nothing is."""
        outcome = lr.Outcome(0, LITTLE, lr.pack("q", 6, order=LITTLE))
        for is_parked in (False, True):
            engine.feed(1, octets, LONG_AGO)
            asked = engine.asked()
            self.assertIs(asked.refusal, lr.SystemName[name])
            self.assertTrue(asked.is_raw)
            self.fails(Error.OUTCOME, engine.answer_octets, lr.pack("q", 6))
            ticket = engine.park() if is_parked else None
            engine.answer_unkept(outcome, ticket=ticket)
            self.assertEqual(self.reply(engine).body.unpack("q"), (6,))
            engine.feed(1, octets, LONG_AGO)
            refusal = engine.asked().refusal
            ticket = engine.park() if is_parked else None
            engine.refuse(refusal, ticket=ticket)
            self.refusal(engine, name)
        self.assertEqual(engine.count(lr.Counted.KEPT), 0)

    def refusal(self, engine, name):
        """A system exception is the reply, and nothing was done."""
        self.assertEqual(self.reply(engine).body.unpack("sLL"), (f"IDL:omg.org/CORBA/{name}:1.0", 0, lr.Completed.NO))

    def test_asked_first(self):
        """A request with FT_REQUEST that would be refused for its object, its operation or its arguments."""
        others = [
            (asked_for(1, "get", retention=1, key=b"none"), "OBJECT_NOT_EXIST"),
            (asked_for(1, "none", retention=1), "BAD_OPERATION"),
            (asked_for(1, "add", b"", retention=1), "MARSHAL"),
        ]
        for octets, name in others:
            self.refused_as(self.engine(ask_first=True), octets, name)
            engine = self.engine()
            engine.feed(1, octets, LONG_AGO)
            self.refusal(engine, name)
        engine = self.engine(ask_first=True)
        engine.feed(1, asked_for(1, "none"), LONG_AGO)
        self.refusal(engine, "BAD_OPERATION")
        engine.feed(1, asked_for(1, "add", lr.pack("l", 7), retention=1), LONG_AGO)
        asked = engine.asked()
        self.assertEqual((asked.refusal, asked.arguments), (None, (7,)))
        engine.answer(7)
        self.reply(engine)
        engine.feed(1, asked_for(1, "none", retention=1), LONG_AGO)
        self.assertEqual(self.reply(engine).body.unpack("q"), (7,))

    def test_room_beside_what_is_parked(self):
        """Where nothing is kept there is room for each request, if there is for one more than may be parked."""
        outcome = lr.Outcome(0, BIG, lr.pack("q", 6))
        for capacity, share, has_room in ((3, 3, True), (2, 3, False), (3, 2, False)):
            engine = self.engine(None, lr.LIMIT, lr.PARTIALS, capacity, share, max_parked=2, ask_first=True)
            for number in range(9):
                engine.feed(1, asked_for(number, "get", retention=number), LONG_AGO)
                engine.answer_unkept(outcome)
                engine.feed(1, asked_for(number, "none", retention=number), LONG_AGO)
                engine.refuse(engine.asked().refusal)
            engine.output(1)
            for number in (20, 21):
                engine.feed(1, asked_for(number, "get", retention=number), LONG_AGO)
                engine.park()
            engine.feed(1, asked_for(22, "none", retention=22), LONG_AGO)
            self.assertEqual(engine.asked() is not None, has_room)
            if not has_room:
                self.refusal(engine, "NO_RESOURCES")

    def test_begins_at_a_mark(self):
        """Told W before anything comes, it refuses what expires before, whatever its clock says."""
        engine = lr.Engine(counting())
        engine.tick(500)
        engine.connect(1)
        engine.feed(1, asked_for(1, "get", retention=1, expiration=499), 7)
        self.refusal(engine, "BAD_CONTEXT")
        engine.feed(1, asked_for(2, "get", retention=2, expiration=500), 7)
        self.assertEqual(engine.asked().ft.expiration, 500)

    def test_raw_outcomes_are_stored(self):
        """Those of a raw operation are stored by who performs it."""
        catalogue = lr.Catalogue()
        catalogue.add_raw_object(b"c")
        engine = self.engine(catalogue)
        engine.feed(1, asked_for(1, "op", b"\1"), LONG_AGO)
        self.fails(Error.OUTCOME, engine.stored)
        engine.answer_stored(lr.Outcome(lr.ReplyStatus.NO_EXCEPTION, LITTLE, b"\2"))
        reply = self.reply(engine)
        self.assertEqual((reply.order, reply.body.octets), (LITTLE, b"\2"))

    def test_contexts_of_replies(self):
        """They are those that were said last, of one answer, whichever it is; a repeat gets none."""
        contexts, octets = [(7, b"seven"), (7, b""), (0xffffffff, bytes(300))], asked_for(1, "get", retention=1)
        answers = [
            lambda engine, ticket: engine.answer(5, ticket=ticket),
            lambda engine, ticket: engine.raise_system("UNKNOWN", ticket=ticket),
            lambda engine, ticket: engine.answer_raw(bytes(8), ticket=ticket),
            lambda engine, ticket: engine.answer_stored(engine.stored(5, ticket=ticket), ticket=ticket),
        ]
        for answer, is_parked in itertools.product(answers, (False, True)):
            engine = self.engine()
            self.fails(Error.IDLE, engine.reply_contexts, contexts)
            engine.feed(1, octets, LONG_AGO)
            ticket = engine.park() if is_parked else None
            engine.reply_contexts([(1, b"")], ticket=ticket)
            engine.reply_contexts(contexts, ticket=ticket)
            self.fails(Error.TICKET, engine.reply_contexts, contexts, ticket=99)
            for wrong, error in (([(1 << 32, b"")], ValueError), ([(1, "a")], TypeError), ([1], TypeError)):
                with self.assertRaises(error):
                    engine.reply_contexts(wrong, ticket=ticket)
            answer(engine, ticket)
            self.assertEqual(self.reply(engine).contexts, contexts)
            engine.feed(1, octets, LONG_AGO)
            self.assertEqual(self.reply(engine).contexts, [])

    def test_contexts_of_replies_go(self):
        """They are taken back by none, and given to nobody who is refused."""
        engine = self.engine()
        for number, wanted in ((1, []), (2, [(7, b"seven")])):
            engine.feed(1, asked_for(number, "get"), LONG_AGO)
            engine.reply_contexts([(7, b"seven")])
            if number == 1:
                engine.reply_contexts([])
            engine.answer(5)
            self.assertEqual(self.reply(engine).contexts, wanted)
        engine.feed(1, asked_for(3, "get"), LONG_AGO)
        first = engine.park()
        engine.reply_contexts([(7, b"seven")], ticket=first)
        engine.feed(1, asked_for(4, "get"), LONG_AGO)
        engine.answer(5)
        engine.answer(6, ticket=first)
        replies = {message.request_id: message.contexts for message in lr.messages(engine.output(1))}
        self.assertEqual(replies[4], [])
        engine.feed(1, asked_for(5, "get"), LONG_AGO)
        engine.reply_contexts([(7, b"seven")])
        engine.refuse()
        self.assertEqual(self.reply(engine).contexts, [])

    def test_contexts_of_replies_in_each_version(self):
        """In 1.0 and 1.1 they are left out where the body would not stand behind them at a place divisible by 8."""
        for version, length in itertools.product((0, 1, 2), range(9)):
            engine, contexts = self.engine(), [(7, bytes(length))]
            engine.feed(1, lr.write_request(1, "c", "get", version=version), LONG_AGO)
            engine.reply_contexts(contexts)
            engine.answer(5)
            reply = self.reply(engine)
            with self.subTest(version=version, length=length):
                self.assertEqual((reply.version, reply.body.unpack("q")), (version, (5,)))
                # (the header, a count, an id, the data with its length, the request id and the status)
                stands = (12 + 4 + 4 + 4 + -(-length // 4) * 4 + 8) % 8 == 0
                self.assertEqual(reply.contexts, contexts if version == 2 or stands else [])
        engine = self.engine()
        engine.feed(1, asked_for(1, "get"), LONG_AGO)
        engine.reply_contexts([(7, bytes(1048577))])
        engine.answer(5)
        self.assertEqual(self.reply(engine).contexts, [])

    def test_the_end_of_a_stream(self):
        engine = self.engine()
        engine.feed(1, b"GIOQ" + bytes(8), LONG_AGO)
        self.assertEqual(self.reply(engine).type, lr.MessageType.ERROR)
        self.assertTrue(engine.is_closed(1))
        self.assertTrue(engine.is_closed(7))

    def test_identity(self):
        catalogue = counting()
        catalogue.add_repository_ids(b"c", "IDL:Counter:1.0", "IDL:Base:1.0")
        engine = self.engine(catalogue)
        for id, wanted in (("IDL:Counter:1.0", True), ("IDL:Base:1.0", True), ("IDL:Other:1.0", False),
                           ("IDL:omg.org/CORBA/Object:1.0", True), ("IDL:Counter:1.0 ", False)):
            engine.feed(1, asked_for(1, "_is_a", lr.pack("s", id)), LONG_AGO)
            self.assertEqual(engine.asked().arguments, (id,))
            self.assertTrue(engine.identify())
            self.assertEqual(self.reply(engine).body.unpack("?"), (wanted,))
        engine.feed(1, asked_for(1, "_non_existent"), LONG_AGO)
        self.assertTrue(engine.identify())
        self.assertEqual(self.reply(engine).body.unpack("?"), (False,))

    def test_raw(self):
        catalogue = counting()
        catalogue.add_raw_operation(b"c", "raw")
        catalogue.add_raw_object(b"r")
        engine = self.engine(catalogue)
        for key, operation in ((b"c", "raw"), (b"r", "anything")):
            engine.feed(1, asked_for(1, operation, b"\1\2\3", key, order=LITTLE), LONG_AGO)
            asked = engine.asked()
            self.assertTrue(asked.is_raw)
            self.assertIsNone(asked.arguments)
            self.assertEqual((asked.operation, asked.body.octets, asked.body.order), (operation, b"\1\2\3", LITTLE))
            self.assertEqual(asked.body.at % 8, 0)
            self.fails(Error.OUTCOME, engine.answer, 1)
            self.fails(Error.RANGE, engine.answer_raw, b"", BIG, 4)
            self.fails(Error.OUTCOME, engine.answer_raw, bytes(1048577))
            engine.answer_raw(lr.pack("l", 5, order=LITTLE), LITTLE)
            reply = self.reply(engine)
            self.assertEqual((reply.order, reply.status, reply.body.unpack("l")), (LITTLE, 0, (5,)))

    def test_types_go_both_ways(self):
        dice = Dice(SEED)
        for number in range(100):
            kinds = [[some_kind(dice) for _ in range(dice.randint(0, 4))] for _ in range(3)]
            formats = ["".join(map(format_of, some)) for some in kinds]
            values = [tuple(some_value(dice, kind) for kind in some) for some in kinds]
            catalogue = counting()
            catalogue.add_operation(b"c", "op", Signature(formats[0], formats[1], {"IDL:X:1.0": formats[2]}))
            with self.subTest(number=number, formats=formats):
                engine, order = self.engine(catalogue), dice.choice([BIG, LITTLE])
                octets = asked_for(1, "op", lr.pack(formats[0], *values[0], order=order), order=order)
                engine.feed(1, octets, LONG_AGO)
                self.assertEqual(engine.asked().arguments, values[0])
                engine.answer_octets(lr.pack(formats[1], *values[1], order=order), order)
                self.assertEqual(self.reply(engine).body.unpack(formats[1]), values[1])
                engine.feed(1, octets, LONG_AGO)
                engine.raise_user("IDL:X:1.0", *values[2])
                self.assertEqual(self.reply(engine).body.unpack("s" + formats[2]), ("IDL:X:1.0", *values[2]))

    def test_parked(self):
        engine = self.engine(None, max_parked=2, max_joined=1)
        engine.connect(2)
        self.fails(Error.IDLE, engine.park)
        engine.feed(1, asked_for(1, "add", lr.pack("l", 7), retention=1), LONG_AGO)
        first = engine.park()
        self.assertIsNone(engine.asked())
        engine.feed(1, asked_for(2, "get"), LONG_AGO)
        second = engine.park()
        self.assertEqual((engine.parked, engine.parked_of(1), engine.parked_of(2), engine.wanted(first)), (2, 2, 0, 1))
        engine.feed(2, asked_for(9, "get"), LONG_AGO)
        self.fails(Error.PARKS, engine.park)
        self.fails(Error.ASKING, engine.answer, 1, ticket=first)
        engine.answer(5)
        self.assertEqual(self.reply(engine, 2).body.unpack("q"), (5,))
        engine.feed(2, asked_for(8, "add", lr.pack("l", 7), retention=1), LONG_AGO)
        self.assertIsNone(engine.asked())
        self.assertEqual(engine.wanted(first), 2)
        self.assertIsNone(engine.next_due())
        engine.answer(7, ticket=first)
        self.assertEqual({engine.next_due(), engine.next_due()}, {1, 2})
        self.assertIsNone(engine.next_due())
        self.assertEqual((self.reply(engine, 1).request_id, self.reply(engine, 2).request_id), (1, 8))
        self.fails(Error.TICKET, engine.answer, 7, ticket=first)
        self.fails(Error.TICKET, engine.raise_system, "UNKNOWN", ticket=first)
        self.fails(Error.TICKET, engine.wanted, first)
        self.assertEqual((engine.farewell(1), engine.farewell(1)), (1, 1))
        self.assertEqual((engine.is_closed(1), engine.why(1), engine.output(1)), (False, lr.Why.OPEN, b""))
        octets = asked_for(7, "get")
        self.assertEqual(engine.feed(1, octets, LONG_AGO), len(octets))
        self.assertIsNone(engine.asked())
        self.fails(Error.OUTCOME, engine.raise_user, OVERFLOW, ticket=second)
        engine.refuse("TIMEOUT", 3, ticket=second)
        self.assertEqual([engine.next_due(), engine.next_due()], [1, None])
        reply, close = lr.messages(engine.output(1))
        self.assertEqual(reply.body.unpack("sLL"), ("IDL:omg.org/CORBA/TIMEOUT:1.0", 3, 1))
        self.assertIs(close.type, lr.MessageType.CLOSE_CONNECTION)
        self.assertTrue(engine.is_closed(1))
        self.assertEqual(engine.parked, 0)

    def test_counts(self):
        engine = self.engine()
        engine.feed(1, asked_for(1, "get", retention=1, client="me", expiration=99), 50)
        self.assertEqual(engine.contexts(), ((lr.FT_REQUEST, lr.write_ft("me", 1, 99)),))
        self.assertEqual((engine.contexts(0), engine.asked().contexts), ((), 1))
        engine.answer(1)
        self.fails(Error.IDLE, engine.contexts)
        engine.feed(1, asked_for(1, "get", retention=1, client="me", expiration=99) + asked_for(1, "none"), 50)
        counts = engine.counts()
        wanted = {"connections": 1, "kept": 1, "asked": 1, "answered": 1, "repeated": 1, "invalid": 1}
        self.assertEqual({name: number for name, number in counts.items() if number}, wanted)
        self.assertEqual(engine.count(lr.Counted.KEPT), 1)
        self.fails(Error.RANGE, engine.count, 1000)
        self.assertEqual((engine.held_by("me"), engine.held_by("you"), engine.next_expiry()), (1, 0, 99))
        engine.tick(100)
        self.assertEqual((engine.held_by("me"), engine.next_expiry()), (0, None))

    def test_objects_that_come_and_go(self):
        families = lr.Catalogue()
        families.add_object(b"acct/")
        families.add_operation(b"acct/", "get", Signature("", "q"))
        families.add_object(b"acct/of/")
        families.add_operation(b"acct/of/", "get", Signature("", "s"))
        catalogue = counting()
        catalogue.add_families(families)
        self.fails(Error.OBJECT, families.remove, b"acct/")
        self.fails(Error.TAKEN, catalogue.add_families, counting())
        engine = self.engine(catalogue)
        for key, answer, format in ((b"acct/7", 7, "q"), (b"acct/of/x", "x", "s"), (b"c", 1, "q")):
            engine.feed(1, asked_for(1, "get", key=key), LONG_AGO)
            self.assertEqual(engine.asked().key, key)
            engine.answer(answer)
            self.assertEqual(self.reply(engine).body.unpack(format), (answer,))
        other = lr.Catalogue()
        other.add_object(b"d")
        other.add_operation(b"d", "get", Signature("", "q"))
        other.add_default()
        self.fails(Error.TAKEN, other.add_default)
        self.fails(Error.OBJECT, other.remove, b"c")
        engine.feed(1, asked_for(1, "get"), LONG_AGO)
        self.fails(Error.ASKING, engine.swap, other)
        ticket = engine.park()
        engine.swap(other)
        self.fails(Error.OUTCOME, engine.answer, 1, ticket=ticket)
        engine.raise_system("OBJECT_NOT_EXIST", ticket=ticket)
        self.reply(engine)
        engine.feed(1, asked_for(1, "anything", key=b"acct/7"), LONG_AGO)
        self.assertTrue(engine.asked().is_raw)
        engine.answer_raw(b"")
        self.reply(engine)
        engine.feed(1, asked_for(1, "get", key=b"d"), LONG_AGO)
        engine.answer(3)
        other.remove(b"c")
        self.fails(Error.OBJECT, other.remove, b"c")

    def test_closed(self):
        engine = self.engine()
        engine.close()
        self.fails(Error.EMPTY, engine.connect, 2)
        self.fails(Error.EMPTY, engine.output, 1)
        del engine
        gc.collect()


class Player:
    """Plays a script on an engine, whose owner keeps a counter, and notes what the model of tests/engine.py prints."""

    def __init__(self, terms, dice):
        self.engine = lr.Engine(counting(), terms.limit, terms.partials, terms.capacity, terms.share)
        self.total, self.manner, self.dice, self.lines = terms.total, "performs", dice, []

    def answer(self, asked):
        """Answers what waits, in either order of octets, and returns whether it did."""
        if self.manner == "mistypes":
            try:
                self.engine.answer_octets(self.dice.choice([b"", bytes(4), bytes(7), bytes(9)]))
            except lr.LemonrudderError as error:
                assert error.number == Error.OUTCOME, error
        if self.manner in ("gives_up", "mistypes"):
            return False
        if self.manner == "performs":
            total = self.total + (asked.arguments[0] if asked.operation == "add" else 0)
            if not -1 << 63 <= total < 1 << 63:
                self.engine.raise_user(OVERFLOW)
                return True
            self.total, order = total, BIG  # (as the other server writes it)
            self.engine.answer_octets(lr.pack("q", total, order=order), order)
            return True
        _, name, minor = self.manner.split(" ")
        self.engine.raise_system(name, int(minor), lr.Completed.MAYBE)
        return True

    def feed(self, number, moment, octets):
        """Feeds a piece: the lines of what is asked, the octets that are due, and whether a request was given up."""
        asks, due, at = [], b"", 0
        while at < len(octets):
            at = self.engine.feed(number, octets, moment, at)
            due += self.engine.output(number)
            asked = self.engine.asked()
            if asked is None:
                continue
            asks.append(f"ask {asked.connection} {asked.key.decode()} {asked.operation}")
            if not self.answer(asked):
                self.engine.give_up()
                return asks, due, True
            due += self.engine.output(number)
        return asks, due, False

    def step(self, name, number, moment=0, octets=b""):
        """Takes an event on a connection, and notes its lines."""
        asks, due, is_given_up = [], b"", False
        try:
            if name == "open":
                self.engine.connect(number)
            elif name == "lost":
                self.engine.lost(number)
            elif name == "close":
                self.engine.farewell(number)
                due = self.engine.output(number)
            else:
                asks, due, is_given_up = self.feed(number, moment, octets)
        except lr.LemonrudderError as error:
            if error.number != Error.CONNECTION:
                raise
        self.lines += asks
        if due:
            self.lines.append(f"{number} {due.hex()}")
        if is_given_up:
            self.lines.append(f"given_up {number}")

    def play(self, events):
        for name, *words in events:
            if name == "owner":
                self.manner = words[0]
            else:
                self.step(name, *words)
        self.engine.close()
        return [*self.lines, f"total {self.total}"]


class Scripts(Case):
    """Random events on an engine, against the model of tests/engine.py."""

    def fault_of(self, seed, terms, steps):
        """How the lines of a script, as it is and in pieces, differ from those of the model, or None."""
        streams, events = model.played(steps)
        for some in (events, list(model.in_pieces(Dice(seed), events))):
            # how many requests came before one that was given up is not told here
            wanted = [re.sub(r"^(given_up \d+) \d+$", r"\1", line) for line in engine_model.lines_of(terms, streams, some)]
            got = Player(terms, Dice(seed)).play(some)
            if got != wanted:
                return "\n".join([str(terms), *map(engine_model.line_of, some), "wanted:", *wanted, "got:", *got])
        return None

    @base.each_seed(SEED, SCRIPTS)
    def test_scripts(self, seed):
        maker = model.Maker(Dice(seed))
        maker.made()
        if self.fault_of(seed, maker.terms, maker.steps):
            fewer = model.smallest_script(maker.steps, lambda some: self.fault_of(seed, maker.terms, some))
            self.fail(f"{len(fewer)} of {len(maker.steps)} steps, {self.fault_of(seed, maker.terms, fewer)}")


# ---- both ends over asyncio ----


class Cutter:
    """Passes octets on between clients and a server, and cuts each connection after some, at random."""

    def __init__(self, dice, port):
        self.dice, self.port, self.is_calm = dice, port, False
        self.cuts, self.requests, self.tasks = 0, 0, set()

    async def listen(self):
        self.listener = await asyncio.start_server(self.serve, "127.0.0.1", 0)
        return self.listener.sockets[0].getsockname()[1]

    async def close(self):
        self.listener.close()
        await asyncio.gather(*self.tasks)

    async def serve(self, reader, writer):
        task = asyncio.current_task()
        self.tasks.add(task)
        try:
            there, back = await asyncio.open_connection("127.0.0.1", self.port)
            both = [writer, back]
            asked, _ = await asyncio.gather(self.carry(reader, back, both), self.carry(there, writer, both))
            self.requests += asked.count(b"deposit\0")
        except OSError:
            writer.transport.abort()
        self.tasks.discard(task)

    async def carry(self, reader, writer, both):
        """Passes octets one way, in pieces that are cut anywhere, until they end or enough have passed. All of them."""
        left = self.dice.choice([self.dice.randint(0, 60), self.dice.randint(0, 400), self.dice.randint(0, 3000)])
        passed = b""
        try:
            while self.is_calm or left > 0:
                piece = await reader.read(self.dice.choice([1, 7, 50, 4096]))
                if not piece:
                    break
                piece = piece if self.is_calm else piece[:left]
                left -= len(piece)
                passed += piece
                writer.write(piece)
                await writer.drain()
            else:
                self.cuts += 1
        except OSError:
            pass
        for one in both:
            if self.dice.random() < 0.5:
                one.close()
            else:
                one.transport.abort()
        return passed


def example(name, *words):
    """The words that start an example."""
    return [sys.executable, os.path.join(ROOT, "examples", name), *words]


class Ends(Case):
    """A server and clients over loopback."""

    def run_async(self, coroutine):
        async def bounded():
            await asyncio.wait_for(coroutine, SECONDS)
        asyncio.run(bounded())

    async def pair(self, operations, raises=None, servant=None, **terms):
        """A server of one object of the key `k`, and a client of it."""
        server = lr.Server(**terms)
        server.add("k", "IDL:K:1.0", operations, raises, servant)
        await server.listen()
        return server, lr.Client.of(server.reference("k"), delays=(0.001, 0.01))

    def test_values(self):
        async def main():
            seen = []

            def note(*values):
                seen.append(values)

            operations = {
                "none": ("", "", note),
                "two": ("s[(lq)]", "e3?", lambda name, pairs: (len(pairs), name == "x")),
                "one": ("(B)", "(sc)", lambda pair: ("é", "x")),
                "octets": ("o", "o", lambda octets: octets[::-1]),
            }
            server, client = await self.pair(operations)
            async with server, client:
                self.assertIsNone(await client.call("k", "none"))
                self.assertEqual(seen, [()])
                self.assertEqual(await client.call("k", "two", "s[(lq)]", ("x", [(1, 2), (3, 4)]), "e3?"), (2, True))
                self.assertEqual(await client.call("k", "one", "(B)", [(7,)], "(sc)"), ("é", "x"))
                octets = bytes(range(256)) * 1200
                self.assertEqual(await client.call(client.key, "octets", "o", [octets], "o"), octets[::-1])
                self.assertTrue(await client.call("k", "_is_a", "s", ["IDL:K:1.0"], "?"))
                self.assertFalse(await client.call("k", "_is_a", "s", ["IDL:L:1.0"], "?"))
                self.assertFalse(await client.call("k", "_non_existent", "", (), "?"))
        self.run_async(main())

    def test_exceptions(self):
        def raising(error):
            def function():
                raise error
            return "", "q", function

        async def main():
            operations = {
                "user": raising(lr.UserException("IDL:X:1.0", ["a", 5])),
                "other": raising(lr.UserException("IDL:Y:1.0")),
                "members": raising(lr.UserException("IDL:X:1.0", ["a"])),
                "system": raising(lr.SystemException("NO_PERMISSION", 77, lr.Completed.NO)),
                "timeout": raising(lr.SystemException("TIMEOUT", 5, lr.Completed.YES)),
                "unknown": raising(lr.SystemException("OTHER", 5, lr.Completed.YES)),
                "minor": raising(lr.SystemException("INTERNAL", -1)),
                "error": raising(ZeroDivisionError()),
                "wrong": ("", "q", lambda: "text"),
                "missing": ("", "qq", lambda: (1,)),
                "surplus": ("", "", lambda: 5),
            }
            raises = {name: {"IDL:X:1.0": "sl"} for name in ("user", "other", "members")}
            server, client = await self.pair(operations, raises)
            wanted = {
                "other": ("UNKNOWN", 0, 2), "members": ("UNKNOWN", 0, 2), "system": ("NO_PERMISSION", 77, 1),
                "timeout": ("TIMEOUT", 5, 0), "unknown": ("UNKNOWN", 5, 0), "minor": ("UNKNOWN", 0, 2),
                "error": ("UNKNOWN", 0, 2),
                "wrong": ("INTERNAL", 0, 2), "missing": ("INTERNAL", 0, 2), "surplus": ("INTERNAL", 0, 2),
                "nothing": ("BAD_OPERATION", 0, 1),
            }
            async with server, client:
                for name, parts in wanted.items():
                    with self.subTest(name), self.assertRaises(lr.SystemException) as caught:
                        await client.call("k", name, results="q")
                    raised = caught.exception
                    self.assertEqual((raised.name, raised.minor, raised.completed), parts)
                with self.assertRaises(lr.UserException) as caught:
                    await client.call("k", "user", results="q", raises={"IDL:X:1.0": "sl"})
                self.assertEqual((caught.exception.id, caught.exception.values), ("IDL:X:1.0", ("a", 5)))
                with self.assertRaises(lr.UserException) as caught:
                    await client.call("k", "user", results="q")
                self.assertEqual(caught.exception.body.unpack("sl"), ("a", 5))
                with self.assertRaises(lr.LemonrudderError):
                    await client.call("k", "_non_existent", results="q")
        with self.assertLogs("lemonrudder"):
            self.run_async(main())

    def test_a_server_takes_cuts_of_1_1(self):
        """Anywhere, where it is said so; else a cut that is not aligned ends its connection."""
        asked = giop.request(7, b"k", "echo", lambda out: out.string(b"a text"), minor=1)
        wanted = giop.reply(7, lambda out: out.string(b"a text"), minor=1)

        async def main():
            for cuts in lr.Cuts:
                server, _ = await self.pair({"echo": ("s", "s", lambda text: text)}, cuts=cuts)
                async with server:
                    reader, writer = await asyncio.open_connection("127.0.0.1", server.reference("k").addresses[0].port)
                    for at in range(len(asked) - giop.HEADER):
                        writer.write(b"".join(giop.cut(asked, [at])))
                        if cuts is lr.Cuts.ALIGNED and at % 8 != 0:
                            self.assertEqual(await reader.read(), giop.MESSAGE_ERROR)
                            break
                        self.assertEqual(await reader.readexactly(len(wanted)), wanted)
                    writer.close()
                    self.assertEqual(at, 1 if cuts is lr.Cuts.ALIGNED else len(asked) - giop.HEADER - 1)
        with self.assertLogs("lemonrudder"):
            self.run_async(main())

    def test_a_client_takes_cuts_of_1_1(self):
        """Anywhere, where it is said so; else a cut that is not aligned loses its connection, and the call expires."""
        places = iter(range(1 << 30))

        async def serve(reader, writer):
            with contextlib.suppress(asyncio.IncompleteReadError, OSError):
                while True:
                    head = await reader.readexactly(giop.HEADER)
                    came = giop.read(head + await reader.readexactly(giop.size_of(head) - giop.HEADER))
                    answer = giop.reply(came.request_id, lambda out: out.string(b"a text"), minor=1)
                    writer.write(b"".join(giop.cut(answer, [next(places) % (len(answer) - giop.HEADER)])))
            writer.close()

        async def main():
            listener = await asyncio.start_server(serve, "127.0.0.1", 0)
            port = listener.sockets[0].getsockname()[1]
            async with listener, lr.Client("127.0.0.1", port, version=1, cuts=lr.Cuts.ANYWHERE) as client, \
                    lr.Client("127.0.0.1", port, version=1, delays=(60, 60)) as other:
                for _ in range(30):
                    self.assertEqual(await client.call("k", "text", results="s"), "a text")
                while next(places) % 8 != 0:
                    pass
                with self.assertRaises(lr.Expired):
                    await other.call("k", "text", results="s", timeout=0.3)
        self.run_async(main())

    def test_what_is_no_object(self):
        server = lr.Server()
        with self.assertRaisesRegex(TypeError, "no function, and there is no servant"):
            server.add("k", "IDL:K:1.0", {"none": ("", "")})
        with self.assertRaises(TypeError):
            server.add("k", "IDL:K:1.0", {"none": ("", "", None)})
        with self.assertRaises(TypeError):
            server.add_default(None)
        with self.assertRaises(AttributeError):
            server.add("k", "IDL:K:1.0", {"none": ("", "")}, servant=object())
        with self.assertRaises(lr.FormatError):
            server.add("k", "IDL:K:1.0", {"bad": ("x", "", print)})
        with self.assertRaises(ValueError):
            server.add("k", "IDL:K:1.0", {}, raises={"other": {}})
        with self.assertRaises(ValueError):
            server.add("k", "IDL:K:1.0", {"raw": print}, raises={"raw": {}})
        self.fails(Error.TEXT, server.add, "k", "IDL:K:1.0", {"first": ("", "", print), "a\0": ("", "", print)})
        server.add("k", ["IDL:K:1.0"], {})
        self.fails(Error.TAKEN, server.add, "k", "IDL:K:1.0", {})
        self.fails(Error.OBJECT, server.remove, "l")
        with self.assertRaises(ValueError):
            server.reference("k")
        with self.assertRaises(KeyError):
            server.reference("l", "host", 5)
        self.assertEqual(server.stats(), {})

    def test_raw_operations_and_forwards(self):
        there = lr.Ior.iiop("IDL:K:1.0", "elsewhere", 7, "key")

        def forward(body):
            profiles = [(profile.tag, profile.data) for profile in there.profiles]
            octets = lr.pack("s[(Lo)]", there.type_id, profiles, order=LITTLE)
            return lr.RawReply(octets, LITTLE, lr.ReplyStatus.LOCATION_FORWARD)

        def twice(body):
            number, = body.unpack("l")
            return lr.pack("l", 2 * number)

        async def main():
            server, client = await self.pair({"forward": forward, "twice": twice, "wrong": lambda body: 5})
            client = lr.Client(client.host, client.port, keep_forward=False)
            async with server, client:
                self.assertEqual(await client.call("k", "twice", "l", [21], "l"), 42)
                with self.assertRaises(lr.ForwardRequest) as caught:
                    await client.call("k", "forward", "s", ["x"])
                self.assertEqual(caught.exception.ior, there)
                with self.assertRaises(lr.SystemException) as caught:
                    await client.call("k", "wrong")
                self.assertEqual(caught.exception.name, "INTERNAL")
        with self.assertLogs("lemonrudder"):
            self.run_async(main())

    def test_calls_of_before(self):
        """A client that is made anew with its old id takes a call of before up again, and it acts once."""
        async def main():
            asked = []
            server, client = await self.pair({"op": ("l", "l", lambda number: asked.append(number) or len(asked))})
            expiration = lr.now() + 10**9
            async with server, client:
                self.assertEqual(await client.call("k", "op", "l", [5], "l", expiration=expiration), 1)
                again = lr.Client(client.host, client.port, client.client_id)
                async with again:
                    words = ("k", "op", "l", [5], "l")
                    self.assertEqual(await again.recall(1, *words, expiration=expiration), 1)
                    with self.assertRaises(lr.LemonrudderError) as caught:
                        await again.recall(1, *words, expiration=expiration)
                    self.assertEqual(caught.exception.number, Error.TAKEN)
                    with self.assertRaises(lr.LemonrudderError) as caught:
                        await again.recall(1 << 31, *words, expiration=expiration)
                    self.assertEqual(caught.exception.number, Error.RANGE)
                    with self.assertRaises(lr.Expired):
                        await again.recall(2, *words, expiration=lr.now() - 1)
                    self.assertEqual(await again.call(*words), 2)
                    self.fails(Error.RANGE, again.skip_to, -1)
                    again.skip_to(9)
                    self.assertEqual(await again.call(*words), 3)
            self.assertEqual(asked, [5, 5, 5])
        self.run_async(main())

    def test_given_up_and_asked_again(self):
        async def main():
            asked = []

            def function(number):
                asked.append(number)
                if len(asked) < 4:
                    raise lr.GiveUp
                return number

            server, client = await self.pair({"op": ("l", "l", function)})
            async with server, client:
                self.assertEqual(await client.call("k", "op", "l", [5], "l"), 5)
                self.assertEqual(asked, [5] * 4)
        self.run_async(main())

    def test_refused_and_asked_again(self):
        async def main():
            asked = []

            def function(number):
                asked.append(number)
                if len(asked) == 1:
                    raise lr.Refuse("NO_RESOURCES", 7)
                if len(asked) < 4:
                    raise lr.Refuse
                return number

            server, client = await self.pair({"op": ("l", "l", function)})
            plain = lr.Client(client.host, client.port, keep_transient=False)
            async with server, client, plain:
                for one, name, minor in ((client, "NO_RESOURCES", 7), (plain, "TRANSIENT", 0)):
                    with self.assertRaises(lr.SystemException) as caught:
                        await one.call("k", "op", "l", [5], "l")
                    raised = caught.exception
                    self.assertEqual((raised.name, raised.minor, raised.completed), (name, minor, lr.Completed.NO))
                # (of TRANSIENT the client knows that it may send it again)
                self.assertEqual(await client.call("k", "op", "l", [5], "l"), 5)
                self.assertEqual((server.connections, len(asked)), (2, 4))
        self.run_async(main())

    def test_a_reply_has_the_results_and_no_more(self):
        async def main():
            def fails():
                raise lr.UserException("IDL:X:1.0", [7, 8])

            operations = {"get": ("", "ls", lambda: (5, "text")), "none": ("", "", lambda: None),
                          "fails": ("", "", fails)}
            server, client = await self.pair(operations, {"fails": {"IDL:X:1.0": "ll"}})
            async with server, client:
                for results, left in (("", 13), ("l", 9), ("lL", 5)):
                    more = f"{left} octets more"
                    with self.subTest(results), self.assertRaisesRegex(lr.LemonrudderError, more) as caught:
                        await client.call("k", "get", results=results)
                    self.assertIs(caught.exception.number, Error.VALUE)
                with self.assertRaisesRegex(lr.LemonrudderError, "4 octets more than 'l'"):
                    await client.call("k", "fails", raises={"IDL:X:1.0": "l"})
                self.assertEqual(await client.call("k", "get", results="ls"), (5, "text"))
                self.assertIsNone(await client.call("k", "none"))
        self.run_async(main())

    def test_many_calls_at_once(self):
        async def main():
            server, client = await self.pair({"twice": ("l", "l", lambda number: 2 * number)})
            async with server, client:
                calls = [client.call("k", "twice", "l", [number], "l") for number in range(300)]
                self.assertEqual(await asyncio.gather(*calls), [2 * number for number in range(300)])
        self.run_async(main())

    def test_expirations(self):
        async def main():
            async with lr.Client("127.0.0.1", 9, delays=(0.001, 0.01)) as client:
                began = asyncio.get_running_loop().time()
                with self.assertRaises(lr.Expired) as caught:
                    await client.call("k", "op", timeout=0.2)
                self.assertIsInstance(caught.exception.__cause__, OSError)
                self.assertEqual(caught.exception.sent, 0)
                self.assertLess(asyncio.get_running_loop().time() - began, SECONDS / 10)
                with self.assertRaises(lr.Expired):
                    await client.call("k", "op", expiration=lr.now() - 1)
                with self.assertRaises(TimeoutError):
                    await client.call("k", "op", timeout=0)
        self.run_async(main())

    def test_cancelled(self):
        async def main():
            loop = asyncio.get_running_loop()
            came, got = loop.create_future(), loop.create_future()

            async def serve(reader, writer):
                octets = await reader.read(4096)
                came.set_result(None)
                while lr.write_cancel(1)[:8] not in octets:
                    octets += await reader.read(4096)
                got.set_result(octets)
                writer.close()

            listener = await asyncio.start_server(serve, "127.0.0.1", 0)
            async with lr.Client("127.0.0.1", listener.sockets[0].getsockname()[1]) as client:
                call = asyncio.ensure_future(client.call("k", "op"))
                await came
                call.cancel()
                octets = await got
                with self.assertRaises(asyncio.CancelledError):
                    await call
            kinds = [message.type.name for message in lr.messages(octets)]
            self.assertEqual(kinds, ["REQUEST", "CANCEL_REQUEST"])
            listener.close()
        self.run_async(main())

    def test_closed_ends(self):
        async def main():
            async with lr.Client("127.0.0.1", 9) as client:
                call = asyncio.ensure_future(client.call("k", "op"))
                await asyncio.sleep(0.05)
            with self.assertRaises(ConnectionError):
                await call
            with self.assertRaises(ConnectionError):
                await client.call("k", "op")
            await client.close()
        self.run_async(main())

    def test_a_server_that_comes_back(self):
        async def main():
            operations = {"get": ("", "l", lambda: 1)}
            server, client = await self.pair(operations)
            port = client.port
            async with client:
                self.assertEqual(await client.call("k", "get", results="l"), 1)
                await server.close()
                call = asyncio.ensure_future(client.call("k", "get", results="l"))
                await asyncio.sleep(0.1)
                server = lr.Server()
                server.add("k", "IDL:K:1.0", {"get": ("", "l", lambda: 2)})
                async with server:
                    await server.listen("127.0.0.1", port)
                    self.assertEqual(await call, 2)
        self.run_async(main())

    def test_goodbye(self):
        async def main():
            server, client = await self.pair({"get": ("", "l", lambda: 1)})
            async with client:
                self.assertEqual(await client.call("k", "get", results="l"), 1)
                reader, writer = await asyncio.open_connection(client.host, client.port)
                writer.write(lr.write_request(1, "k", "get"))
                octets = await reader.read(28)
                await server.close()
                octets += await reader.read()
                writer.close()
            kinds = [message.type.name for message in lr.messages(octets)]
            self.assertEqual(kinds, ["REPLY", "CLOSE_CONNECTION"])
        self.run_async(main())

    def test_a_client_leaves_where_goodbye_was_said(self):
        async def main():
            ends = []

            async def serve(reader, writer):
                writer.write(lr.write_close())
                ends.append(await reader.read())
                writer.close()
                if len(ends) == 4:
                    call.cancel()

            listener = await asyncio.start_server(serve, "127.0.0.1", 0)
            port = listener.sockets[0].getsockname()[1]
            async with lr.Client("127.0.0.1", port, delays=(0.001, 0.01)) as client:
                call = asyncio.ensure_future(client.call("k", "op"))
                with self.assertRaises(asyncio.CancelledError):
                    await call
            self.assertGreater(len(ends), 3)
            listener.close()
        self.run_async(main())

    def test_connections_that_are_gone(self):
        async def main():
            server, client = await self.pair({"get": ("", "l", lambda: 1)})
            async with server:
                async with client:
                    await client.call("k", "get", results="l")
                    self.assertEqual(server.connections, 1)
                    self.assertFalse(server._engine.is_closed(1))
                while server.connections:
                    await asyncio.sleep(0.01)
                self.assertTrue(server._engine.is_closed(1))
        self.run_async(main())

    def test_serve_forever(self):
        async def main():
            server, client = await self.pair({"get": ("", "l", lambda: 1)})
            serving = asyncio.ensure_future(server.serve_forever())
            async with client:
                self.assertEqual(await client.call("k", "get", results="l"), 1)
                serving.cancel()
                with self.assertRaises(asyncio.CancelledError):
                    await serving
                self.assertTrue(server.is_closed)
        self.run_async(main())

    def test_capacity(self):
        async def main():
            server, client = await self.pair({"get": ("", "l", lambda: 1)}, capacity=2, share=2)
            async with server, client:
                for _ in range(2):
                    await client.call("k", "get", results="l")
                with self.assertRaises(lr.SystemException) as caught:
                    await client.call("k", "get", results="l")
                self.assertEqual(caught.exception.name, "NO_RESOURCES")
        self.run_async(main())

    def test_a_hostile_peer(self):
        async def main():
            server, client = await self.pair({"get": ("", "l", lambda: 1)})
            async with server, client:
                reader, writer = await asyncio.open_connection(client.host, client.port)
                writer.write(b"nonsense, and more of it")
                message, = lr.messages(await reader.read())
                self.assertIs(message.type, lr.MessageType.ERROR)
                writer.close()
                self.assertEqual(await client.call("k", "get", results="l"), 1)
        self.run_async(main())


class Records(logging.Handler):
    """What is logged, by a logger that says nothing otherwise."""

    def __init__(self, name):
        super().__init__()
        self.logger, self.records = logging.getLogger(name), []

    def emit(self, record):
        self.records.append(record.getMessage())

    def __enter__(self):
        self.was_propagated, self.logger.propagate = self.logger.propagate, False
        self.logger.addHandler(self)
        return self.records

    def __exit__(self, *error):
        self.logger.removeHandler(self)
        self.logger.propagate = self.was_propagated


class Turns(Case):
    """Connections that send much at a time, beside others: each has its turn, and what is due to each is bounded."""

    run_async, pair = Ends.run_async, Ends.pair

    def connected(self, port):
        """A socket of a peer, in whose buffers there is room for what is sent here."""
        made = socket.create_connection(("127.0.0.1", port), timeout=SECONDS)
        self.addCleanup(made.close)
        return made

    async def drained(self, server, left):
        """Waits until so many connections are left."""
        while server.connections != left:
            await asyncio.sleep(0.01)

    def test_each_connection_has_its_turn(self):
        async def main():
            asked = []

            def note(number):
                asked.append(number)
                time.sleep(0.0005)

            server, client = await self.pair({"note": ("l", "", note), "get": ("", "l", lambda: len(asked))})
            async with server, client:
                await client.call("k", "get", results="l")
                requests = b"".join(lr.write_request(number, "k", "note", lr.pack("l", number))
                                    for number in range(900))
                peers = [self.connected(client.port) for _ in range(3)]
                for peer in peers:
                    peer.sendall(requests)
                for _ in range(5):
                    before = len(asked)
                    self.assertLess(await client.call("k", "get", results="l") - before, 100)
                while len(asked) < 2700:
                    await asyncio.sleep(0.01)
                self.assertEqual(sorted(asked), sorted(3 * list(range(900))))
        self.run_async(main())

    def test_all_is_answered_after_the_end_of_a_stream(self):
        async def main():
            server, client = await self.pair({"echo": ("s", "s", lambda text: text)})
            texts = ["GIOP" * (number % 7) + str(number) for number in range(2000)]
            requests = b"".join(lr.write_request(number, "k", "echo", lr.pack("s", text))
                                for number, text in enumerate(texts))
            async with server, client:
                reader, writer = await asyncio.open_connection(client.host, client.port)
                dice, at = Dice(SEED), 0
                while at < len(requests):
                    size = dice.choice([1, 3, 100, 50000])
                    writer.write(requests[at:at + size])
                    at += size
                    if dice.random() < 0.1:
                        await asyncio.sleep(0)
                writer.write_eof()
                answers = await reader.read()
                writer.close()
            found = [(message.request_id, *message.body.unpack("s")) for message in lr.messages(answers)]
            self.assertEqual(found, list(enumerate(texts)))
        self.run_async(main())

    def test_what_is_due_is_bounded(self):
        async def main():
            big = bytes(1000000)
            operations = {"big": ("", "o", lambda: big), "get": ("", "l", lambda: 1)}
            server, client = await self.pair(operations, write_timeout=0.5)
            context = (lr.FT_REQUEST, lr.write_ft("A", 1, FAR))
            repeats = b"".join(lr.write_request(number, "k", "big", context=context) for number in range(100))
            async with server, client:
                await client.call("k", "get", results="l")
                peer = self.connected(client.port)
                peer.sendall(repeats)
                await self.drained(server, 2)
                connection = server._connections[2]
                while not connection.transport.get_write_buffer_size():
                    await client.call("k", "get", results="l")
                for _ in range(20):
                    self.assertEqual(await client.call("k", "get", results="l"), 1)
                    self.assertLess(connection.transport.get_write_buffer_size(), 3 * len(big))
                await self.drained(server, 1)  # (it took nothing for half a second)
                self.assertEqual(await client.call("k", "get", results="l"), 1)
        with Records("asyncio") as records:
            self.run_async(main())
        self.assertEqual(records, [])

    def test_a_peer_that_is_slow_gets_all(self):
        async def main():
            big = bytes(1000000)
            server, client = await self.pair({"big": ("", "o", lambda: big)}, write_timeout=2)
            async with server:
                reader, writer = await asyncio.open_connection(client.host, client.port, limit=1 << 20)
                writer.write(b"".join(lr.write_request(number, "k", "big") for number in range(20)))
                answers = bytearray()
                while len(answers) < 20 * (28 + len(big)):
                    some = await reader.read(100000)
                    self.assertTrue(some, "the connection was dropped")
                    answers += some
                    await asyncio.sleep(0.02)
                writer.close()
            found = [(message.request_id, *message.body.unpack("o")) for message in lr.messages(answers)]
            self.assertEqual(found, [(number, big) for number in range(20)])
        self.run_async(main())

    def test_a_peer_that_goes_leaves_no_lines(self):
        async def main():
            server, client = await self.pair({"get": ("", "l", lambda: 1)})
            async with server, client:
                await client.call("k", "get", results="l")
                peer = self.connected(client.port)
                peer.sendall(b"".join(lr.write_request(number, "k", "get") for number in range(1000)))
                peer.setsockopt(socket.SOL_SOCKET, socket.SO_LINGER, struct.pack("ii", 1, 0))
                await asyncio.sleep(0)
                peer.close()
                await asyncio.sleep(0.1)
                await self.drained(server, 1)
                self.assertEqual(await client.call("k", "get", results="l"), 1)
        with Records("asyncio") as records:
            self.run_async(main())
        self.assertEqual(records, [])


class Waits(Case):
    """Operations that wait, many at once."""

    run_async, pair, connected, drained = Ends.run_async, Ends.pair, Turns.connected, Turns.drained

    def test_many_wait_at_once(self):
        """An operation of 64 callers is under way for all of them before it ends for one."""
        async def main():
            waiting, go = [], asyncio.Event()

            async def slow(number):
                waiting.append(number)
                if len(waiting) == 64:
                    go.set()
                await go.wait()
                return number

            server, client = await self.pair({"slow": ("l", "l", slow), "get": ("", "l", lambda: 5)})
            clients = [lr.Client(client.host, client.port) for _ in range(64)]
            async with server, client:
                await asyncio.gather(*(one.call("k", "get", results="l") for one in clients))
                calls = [one.call("k", "slow", "l", [number], "l") for number, one in enumerate(clients)]
                self.assertEqual(await asyncio.gather(*calls), list(range(64)))
                # (one connection has as many, and what comes behind them is answered first)
                waiting.clear()
                go.clear()
                calls = [asyncio.ensure_future(client.call("k", "slow", "l", [number], "l")) for number in range(63)]
                await asyncio.sleep(0)
                self.assertEqual(await client.call("k", "get", results="l"), 5)
                self.assertEqual((len(waiting), go.is_set()), (63, False))
                calls.append(client.call("k", "slow", "l", [63], "l"))
                self.assertEqual(await asyncio.gather(*calls), list(range(64)))
                stats = server.stats()
                self.assertEqual((stats["parked_now"], stats["under_way"], stats["parked"] % 64), (0, 0, 0))
                for one in clients:
                    await one.close()
        self.run_async(main())

    def test_outcomes(self):
        async def main():
            async def answer(what):
                await asyncio.sleep(0)
                if what == "refuse":
                    raise lr.Refuse("NO_RESOURCES", 4)
                if what == "user":
                    raise lr.UserException("IDL:X:1.0", [7])
                if what == "system":
                    raise lr.SystemException("PERSIST_STORE", 6, lr.Completed.NO)
                if what == "error":
                    raise ZeroDivisionError
                if what == "cancel":
                    raise asyncio.CancelledError
                if what == "other":
                    raise lr.UserException("IDL:Y:1.0")
                return "text" if what == "wrong" else 5

            async def raw(body):
                await asyncio.sleep(0)
                return lr.RawReply(lr.pack("l", 6, order=LITTLE), LITTLE)

            server, client = await self.pair({"op": ("s", "l", answer), "raw": raw}, {"op": {"IDL:X:1.0": "l"}})
            wanted = {"refuse": ("NO_RESOURCES", 4, 1), "system": ("PERSIST_STORE", 6, 1), "error": ("UNKNOWN", 0, 2),
                      "cancel": ("UNKNOWN", 0, 2), "other": ("UNKNOWN", 0, 2), "wrong": ("INTERNAL", 0, 2)}
            async with server, client:
                self.assertEqual(await client.call("k", "op", "s", ["go"], "l"), 5)
                self.assertEqual(await client.call("k", "raw", results="l"), 6)
                for what, parts in wanted.items():
                    with self.subTest(what), self.assertRaises(lr.SystemException) as caught:
                        await client.call("k", "op", "s", [what], "l")
                    raised = caught.exception
                    self.assertEqual((raised.name, raised.minor, raised.completed), parts)
                with self.assertRaises(lr.UserException) as caught:
                    await client.call("k", "op", "s", ["user"], "l", {"IDL:X:1.0": "l"})
                self.assertEqual(caught.exception.values, (7,))
        with self.assertLogs("lemonrudder"):
            self.run_async(main())

    def test_given_up_and_asked_again(self):
        async def main():
            asked = []

            async def function(number):
                asked.append(number)
                await asyncio.sleep(0)
                if len(asked) < 4:
                    raise lr.GiveUp
                return number

            server, client = await self.pair({"op": ("l", "l", function)})
            async with server, client:
                self.assertEqual(await client.call("k", "op", "l", [5], "l"), 5)
                self.assertEqual((asked, server.stats()["withdrawn"], server.connections), ([5] * 4, 3, 1))
        self.run_async(main())

    def test_repeats_join(self):
        """Repeats of a request that is under way wait for its outcome; one that comes after it gets it too."""
        async def main():
            asked, go = [], asyncio.Event()

            async def function():
                asked.append(lr.current().retention_id)
                await go.wait()
                return len(asked)

            server, client = await self.pair({"op": ("", "l", function)})
            context = (lr.FT_REQUEST, lr.write_ft("A", 7, FAR))
            async with server, client:
                peers = []
                for number in range(3):
                    reader, writer = await asyncio.open_connection(client.host, client.port)
                    writer.write(lr.write_request(number, "k", "op", context=context))
                    peers.append((reader, writer))
                while server.stats().get("joined") != 2:
                    await asyncio.sleep(0.01)
                gone = peers.pop(0)[1]
                gone.transport.abort()
                await self.drained(server, 2)
                go.set()
                reader, writer = await asyncio.open_connection(client.host, client.port)
                for number, (reader, writer) in enumerate([*peers, (reader, writer)]):
                    if number == 2:
                        writer.write(lr.write_request(3, "k", "op", context=context))
                    message, = lr.messages(await reader.read(4096))
                    self.assertEqual((message.request_id, message.body.unpack("l")), (number + 1, (1,)))
                    writer.close()
                self.assertEqual(asked, [7])
        self.run_async(main())

    def test_a_connection_that_is_lost_meanwhile(self):
        """What is under way acts all the same, and its outcome is kept."""
        async def main():
            asked, go = [], asyncio.Event()

            async def function():
                asked.append(lr.current().wanted)
                await go.wait()
                asked.append(lr.current().wanted)
                return 5

            server, client = await self.pair({"op": ("", "l", function)})
            request = lr.write_request(1, "k", "op", context=(lr.FT_REQUEST, lr.write_ft("A", 7, FAR)))
            async with server, client:
                reader, writer = await asyncio.open_connection(client.host, client.port)
                writer.write(request)
                while not asked:
                    await asyncio.sleep(0.01)
                writer.transport.abort()
                await self.drained(server, 0)
                go.set()
                while len(asked) < 2:
                    await asyncio.sleep(0.01)
                reader, writer = await asyncio.open_connection(client.host, client.port)
                writer.write(request)
                message, = lr.messages(await reader.read(4096))
                self.assertEqual((message.body.unpack("l"), asked), ((5,), [1, 0]))
                writer.close()
        self.run_async(main())

    def test_timeouts(self):
        """An operation that is cut off has perhaps acted; what it says after all is dropped."""
        async def main():
            ended, go = [], asyncio.Event()

            async def function(how):
                try:
                    await asyncio.sleep(SECONDS)
                except asyncio.CancelledError:
                    ended.append(how)
                    if how == "refuses":
                        raise lr.Refuse("NO_PERMISSION") from None
                    if how == "answers":
                        return 5
                    if how == "stays":
                        await go.wait()
                        ended.append("late")
                        return 6
                    raise

            async def long():
                await asyncio.sleep(0.5)
                return 7

            server, client = await self.pair({"op": ("s", "l", function)}, timeout=0.2)
            server.add("slow", "IDL:K:1.0", {"op": ("", "l", long)}, timeout=SECONDS)
            async with server, client:
                self.assertEqual(await client.call("slow", "op", results="l"), 7)
                self.assertEqual(await client.call("k", "op", "s", ["answers"], "l"), 5)
                for how, name, completed in (("refuses", "NO_PERMISSION", 1), ("raises", "TIMEOUT", 2),
                                             ("stays", "TIMEOUT", 2)):
                    with self.subTest(how), self.assertRaises(lr.SystemException) as caught:
                        await client.call("k", "op", "s", [how], "l")
                    raised = caught.exception
                    self.assertEqual((raised.name, raised.minor, raised.completed), (name, 0, completed))
                self.assertEqual(server.stats()["under_way"], 1)
                go.set()
                while server.stats()["under_way"]:
                    await asyncio.sleep(0.01)
                self.assertEqual(ended, ["answers", "refuses", "raises", "stays", "late"])
        with self.assertLogs("lemonrudder", "INFO") as logged:
            self.run_async(main())
        text = "\n".join(logged.output)
        self.assertIn("answered TIMEOUT, COMPLETED_MAYBE", text)
        self.assertIn("ended too late", text)

    def test_close_waits(self):
        """Goodbye is said behind what is under way, and no more is taken."""
        async def main():
            go = asyncio.Event()

            async def function(number):
                await go.wait()
                return number

            server, client = await self.pair({"op": ("l", "l", function)})
            async with client:
                reader, writer = await asyncio.open_connection(client.host, client.port)
                writer.write(lr.write_request(1, "k", "op", lr.pack("l", 8)))
                while not server.stats()["parked_now"]:
                    await asyncio.sleep(0.01)
                closing = asyncio.ensure_future(server.close(timeout=SECONDS))
                await asyncio.sleep(0)
                writer.write(lr.write_request(2, "k", "op", lr.pack("l", 9)))
                asyncio.get_running_loop().call_later(0.1, go.set)
                reply, close = lr.messages(await reader.read())
                self.assertEqual((reply.request_id, reply.body.unpack("l")), (1, (8,)))
                self.assertIs(close.type, lr.MessageType.CLOSE_CONNECTION)
                writer.close()
                await closing
                with self.assertRaises(lr.LemonrudderError):
                    server.add("l", "IDL:K:1.0", {})
                with self.assertRaises(lr.LemonrudderError):
                    await server.listen()
        self.run_async(main())

    def test_close_waits_without_a_limit(self):
        """What is under way is waited for, though its client is gone."""
        async def main():
            performed, go = [], asyncio.Event()

            async def function(number):
                await go.wait()
                performed.append(number)

            server, client = await self.pair({"op": ("l", "", function)})
            async with client:
                _, writer = await asyncio.open_connection(client.host, client.port)
                writer.write(lr.write_request(1, "k", "op", lr.pack("l", 8)))
                while not server.stats()["parked_now"]:
                    await asyncio.sleep(0.01)
                writer.transport.abort()
                asyncio.get_running_loop().call_later(0.1, go.set)
                await server.close(timeout=None)
                self.assertEqual(performed, [8])
        self.run_async(main())

    def test_a_refusal_has_a_name_of_the_standard(self):
        with self.assertRaises(ValueError):
            lr.Refuse("NO_SUCH_NAME")

    def test_members_of_an_exception_are_values(self):
        """One text is not taken for the letters of it."""
        for values in "bob", b"bob":
            with self.assertRaises(TypeError):
                lr.UserException("IDL:X:1.0", values)

    def test_close_cuts_off(self):
        """What does not end in time is cancelled: it is answered as it says itself, or as what has perhaps acted."""
        async def main():
            async def function(how):
                try:
                    await asyncio.sleep(SECONDS)
                except asyncio.CancelledError:
                    if how == 1:
                        raise lr.Refuse() from None
                    if how == 2:
                        await asyncio.sleep(SECONDS)
                    raise

            server, client = await self.pair({"op": ("l", "l", function)})
            async with client:
                reader, writer = await asyncio.open_connection(client.host, client.port)
                for number in range(3):
                    writer.write(lr.write_request(number, "k", "op", lr.pack("l", number)))
                while server.stats()["parked_now"] < 3:
                    await asyncio.sleep(0.01)
                await server.close(timeout=0.1)
                *replies, close = lr.messages(await reader.read())
                found = {message.request_id: message.body.unpack("sLL") for message in replies}
                failed = ("IDL:omg.org/CORBA/COMM_FAILURE:1.0", 0, 2)
                self.assertEqual(found, {0: failed, 1: ("IDL:omg.org/CORBA/TRANSIENT:1.0", 0, 1), 2: failed})
                self.assertIs(close.type, lr.MessageType.CLOSE_CONNECTION)
                writer.close()
        with self.assertLogs("lemonrudder"):
            self.run_async(main())

    def test_current(self):
        async def main():
            seen = []

            def plain():
                seen.append(lr.current())

            async def slow():
                await asyncio.sleep(0)
                await asyncio.gather(asyncio.ensure_future(inner()))

            async def inner():
                seen.append(lr.current())

            server, client = await self.pair({"plain": ("", "", plain), "slow": ("", "", slow)})
            with self.assertRaises(RuntimeError):
                lr.current()
            async with server, client:
                expiration = lr.now() + 10**9
                for operation in ("plain", "slow"):
                    await client.call_raw("k", operation, contexts=[(5, b"abc"), (6, b"")], expiration=expiration)
                request = lr.write_request(77, "k", "plain", wish=lr.Wish.EMPTY)
                reader, writer = await asyncio.open_connection(client.host, client.port)
                writer.write(request)
                await reader.read(12)
                own = writer.get_extra_info("sockname")
                writer.close()
            with self.assertRaises(RuntimeError):
                lr.current()
            for number, (one, operation) in enumerate(zip(seen, ("plain", "slow")), 1):
                self.assertEqual((one.key, one.operation, one.client_id), (b"k", operation, client.client_id))
                self.assertEqual((one.retention_id, one.expiration, one.connection), (number, expiration, 1))
                self.assertEqual((one.context(5), one.context(6), one.context(7)), (b"abc", b"", None))
                self.assertEqual(one.context(lr.FT_REQUEST)[-8:], expiration.to_bytes(8, "big"))
                self.assertEqual((one.certificate, one.version), (None, 2))
            last = seen[2]
            self.assertEqual((last.client_id, last.retention_id, last.expiration), (None, None, None))
            self.assertEqual(last.contexts, ())
            self.assertEqual((last.peer, last.request_id, last.wish, last.connection), (own, 77, lr.Wish.EMPTY, 2))
        self.run_async(main())

    def test_contexts_of_replies(self):
        """Each servant says its own, plain or async, beside others; those of a request that is refused go."""
        async def main():
            kept = []

            def plain(number):
                lr.current().reply_contexts([(1, b"before")])
                lr.current().reply_contexts([(number, b"plain")])
                if number == 2:
                    raise lr.SystemException("NO_PERMISSION")
                if number == 3:
                    raise lr.Refuse()
                return number

            async def slow(number):
                lr.current().reply_contexts([(number, b"slow")])
                kept.append(lr.current())
                await asyncio.sleep(0.02 * (10 - number))
                if number == 5:
                    with self.assertRaises(TypeError):
                        lr.current().reply_contexts([(1, "a")])
                    lr.current().reply_contexts([])
                if number == 6:
                    raise ValueError
                return number

            server, client = await self.pair({"plain": ("l", "l", plain), "slow": ("l", "l", slow)})
            async with server, client:
                reader, writer = await asyncio.open_connection(client.host, client.port)
                for number in range(8):
                    operation = "slow" if number > 3 else "plain"
                    writer.write(lr.write_request(number, "k", operation, lr.pack("l", number)))
                while len(kept) < 4 or server.stats()["parked_now"]:
                    await asyncio.sleep(0.01)
                writer.write_eof()
                found = {one.request_id: [data for _, data in one.contexts] for one in lr.messages(await reader.read())}
                writer.close()
                plainly, slowly = [b"plain"], [b"slow"]
                self.assertEqual(found, {0: plainly, 1: plainly, 2: plainly, 3: [], 4: slowly, 5: [], 6: [], 7: slowly})
                for one in kept:
                    self.fails(Error.TICKET, one.reply_contexts, [(1, b"")])
                self.assertEqual(server._works._contexts, {})
        with self.assertLogs("lemonrudder"):
            self.run_async(main())

    def test_objects_that_come_and_go(self):
        async def main():
            server, client = await self.pair({"get": ("", "l", lambda: 1)})

            def make(name):
                """A factory, whose object is there when its reference is."""
                server.add("made/" + name, "IDL:K:1.0", {"get": ("", "s", lambda: name)})
                return server.reference("made/" + name).value

            async def account():
                await asyncio.sleep(0)
                return lr.current().key.decode()

            go = asyncio.Event()

            async def waiting():
                await go.wait()
                return 3

            async with server, client:
                self.assertEqual(await client.call("k", "get", results="l"), 1)
                server.add("factory", "IDL:F:1.0", {"make": ("s", lr.REFERENCE, make), "wait": ("", "l", waiting)})
                value = await client.call("factory", "make", "s", ["x"], lr.REFERENCE)
                async with lr.Client.of(lr.Ior.of_value(value)) as other:
                    self.assertEqual(await other.call(other.key, "get", results="s"), "x")
                with self.assertRaises(lr.SystemException) as caught:
                    await client.call("factory", "make", "s", ["x"], lr.REFERENCE)
                self.assertEqual(caught.exception.name, "UNKNOWN")
                server.add_family("acct/", "IDL:A:1.0", {"get": ("", "s", account)})
                self.fails(Error.TAKEN, server.add_family, "acct/", "IDL:A:1.0", {})
                server.add_default(lambda body: lr.pack("s", lr.current().operation))
                for key, operation, wanted in (("acct/7", "get", "acct/7"), ("made/x", "get", "x"),
                                               ("q", "any", "any")):
                    self.assertEqual(await client.call(key, operation, results="s"), wanted)
                self.assertEqual(server.reference("acct/9").type_id, "IDL:A:1.0")
                call = asyncio.ensure_future(client.call("factory", "wait", results="l"))
                while not server.stats()["parked_now"]:
                    await asyncio.sleep(0.01)
                server.remove("factory")
                server.remove_family("acct/")
                go.set()
                self.assertEqual(await call, 3)
                self.assertEqual(await client.call("acct/7", "get", results="s"), "get")
                server.remove("made/x")
                self.fails(Error.OBJECT, server.remove, "made/x")
                self.fails(Error.OBJECT, server.remove_family, "acct/")
                self.assertEqual(await client.call("k", "get", results="l"), 1)
        with self.assertLogs("lemonrudder"):
            self.run_async(main())


    def test_an_object_is_taken_away_while_it_is_called(self):
        """What is under way ends by its own types, and is kept; who comes then hears that there is no such object."""
        async def main(prefix, add, remove, version):
            go, performed = asyncio.Event(), []

            async def wait(number):
                performed.append(number)
                await go.wait()
                if number == 2:
                    raise lr.UserException(OVERFLOW, (7, "x"))
                if number == 3:
                    raise lr.SystemException("NO_PERMISSION", 5)
                return number, [(number, 0.5)]

            def bye():
                """It takes its own object away."""
                remove(server, prefix)
                return 4, []

            raw = [lr.RawReply(b"\1\2\3", LITTLE), lr.RawReply(lr.pack("s", OVERFLOW), BIG, 1)]

            async def waiting(body):
                await go.wait()
                return raw[body.unpack("l")[0]]

            types = ("l", "l[(ld)]")
            operations = {"wait": (*types, wait), "bye": ("", types[1], bye), "raw": waiting}
            server, key = lr.Server(), prefix + "1"
            add(server)(prefix, "IDL:K:1.0", operations, {"wait": {OVERFLOW: "ls"}})
            port = await server.listen()

            async def call(number, operation, *values, client="A", raises=True):
                """What a call is answered under a number, once."""
                async with lr.Client("127.0.0.1", port, client, keep_transient=False, version=version) as one:
                    try:
                        if operation == "raw":
                            body = lr.pack("l", *values)
                            reply = await one.call_raw(key, operation, body, number=number, expiration=FAR)
                            return reply.octets, reply.order
                        return await one.recall(number, key, operation, types[0] if values else "", values, types[1],
                                                {OVERFLOW: "ls"}, expiration=FAR)
                    except lr.UserException as error:
                        return error.id, error.values
                    except lr.SystemException as error:
                        return error.name, error.minor, error.completed

            gone, added = ("OBJECT_NOT_EXIST", 0, lr.Completed.NO), {"wait": ("", "s", lambda: "other")}
            wanted = {(1, "wait", 1): (1, [(1, 0.5)]), (2, "wait", 2): (OVERFLOW, (7, "x")),
                      (3, "wait", 3): ("NO_PERMISSION", 5, lr.Completed.NO), (4, "raw", 0): (b"\1\2\3", LITTLE),
                      (5, "raw", 1): (OVERFLOW, ())}
            # (in 1.0 and 1.1 a raw body would stand at another place)
            wanted = {words: answer for words, answer in wanted.items() if version == 2 or words[1] != "raw"}
            async with server, contextlib.AsyncExitStack() as stack:
                stack.callback(go.set)
                calls = {words: asyncio.ensure_future(call(*words)) for words in wanted}
                while server.stats()["parked_now"] < len(wanted):
                    await asyncio.sleep(0.01)
                self.assertEqual(await call(6, "bye"), (4, []))
                self.assertEqual(await call(7, "wait", 1), gone)
                self.assertEqual(await call(6, "bye"), (4, []))
                reader, writer = await asyncio.open_connection("127.0.0.1", port)
                writer.write(lr.write_locate_request(1, key, version=version))
                located, = lr.messages(await reader.read(4096))
                self.assertIs(located.status, lr.LocateStatus.UNKNOWN_OBJECT)
                writer.close()
                joins = {words: asyncio.ensure_future(call(*words)) for words in wanted}
                # (one of the same key has other types)
                add(server)(prefix, "IDL:L:1.0", added)
                while server.stats()["joined"] < len(wanted):
                    await asyncio.sleep(0.01)
                go.set()
                for words, answer in wanted.items():
                    for asked in (calls[words], joins[words], call(*words)):
                        self.assertEqual(await asked, answer)
                async with lr.Client("127.0.0.1", port) as one:
                    self.assertEqual(await one.call(key, "wait", results="s"), "other")
                self.assertEqual(sorted(performed), [1, 2, 3])

        ways = (("o", lambda server: partial(self.add_one, server), lambda server, key: server.remove(key + "1")),
                ("o/", lambda server: server.add_family, lambda server, key: server.remove_family(key)))
        for (prefix, add, remove), version in itertools.product(ways, (0, 1, 2)):
            with self.subTest(prefix=prefix, version=version):
                self.run_async(main(prefix, add, remove, version))

    def add_one(self, server, prefix, *described):
        """Adds the object of a prefix, as a family is added."""
        server.add(prefix + "1", *described)


class Wire(asyncio.Transport):
    """A transport that stands on no system: what its peer sends comes when a test says so."""

    def __init__(self, server):
        super().__init__()
        self.written, self.is_read, self.is_over = bytearray(), True, False
        self.connection = Connection(server)
        self.connection.connection_made(self)

    def come(self, octets):
        """Octets are read."""
        self.connection.get_buffer(-1)[:len(octets)] = octets
        self.connection.buffer_updated(len(octets))

    def flood(self, octets):
        """They are there again in each round of the loop."""
        if not self.is_over:
            if self.is_read:
                self.come(octets)
            asyncio.get_running_loop().call_soon(self.flood, octets)

    def write(self, data):
        self.written += data

    def pause_reading(self):
        self.is_read = False

    def resume_reading(self):
        self.is_read = True

    def set_write_buffer_limits(self, high=None, low=None):
        pass

    def get_write_buffer_size(self):
        return 0

    def is_closing(self):
        return self.is_over

    def abort(self):
        if not self.is_over:
            self.is_over = True
            asyncio.get_running_loop().call_soon(self.connection.connection_lost, None)

    close = abort


class Clock:
    """A clock that goes on by ten microseconds each time that it is read."""

    now = 0.0

    def monotonic(self):
        self.now += 0.00001
        return self.now


class Bounds(Case):
    """What each peer may take of a server, and what is told of it."""

    run_async, pair, connected, drained = Ends.run_async, Ends.pair, Turns.connected, Turns.drained

    def memory(self):
        """The octets of memory that this process has."""
        if not os.path.exists("/proc/self/statm"):
            self.skipTest(NEEDS + "/proc/self/statm")
        with open("/proc/self/statm", encoding="ascii") as file:
            return int(file.read().split()[1]) * os.sysconf("SC_PAGESIZE")

    def test_a_flood_leaves_a_calm_one(self):
        """While a calm peer waits for its reply, two turns pass at most of a peer that floods."""
        async def main():
            gates = []
            server, client = await self.pair({"get": ("", "l", lambda: 1), "slow": ("", "", lambda: gates[0].wait())})

            def done():
                """How much was done for both."""
                return sum(server.stats()[what] for what in ("asked", "settled", "invalid"))

            async def calm(wire):
                """What is done between a request and its reply, beside it."""
                before = done()
                wire.written.clear()
                asyncio.get_running_loop().call_soon(wire.come, lr.write_request(1, "k", "get"))
                while not wire.written:
                    await asyncio.sleep(0)
                return done() - before - 1

            async with server, client:
                wire = Wire(server)
                for operation in ("get", "slow", "none"):
                    request = lr.write_request(1, "k", operation)
                    peer, most, before, gates[:] = Wire(server), 0, done(), [asyncio.Event()]
                    peer.flood(request * (65536 // len(request)))
                    for _ in range(20):
                        while operation == "slow" and server.stats()["under_way"] < 64:
                            await asyncio.sleep(0)
                        gates.insert(0, asyncio.Event())
                        gates.pop().set()  # (those that are under way end at once)
                        for _ in range(8):
                            most = max(most, await calm(wire))
                    with self.subTest(operation):
                        # (by this clock a turn has 10 messages, and 5 outcomes)
                        self.assertLessEqual(most, 2 * (10 + 5 + 1))
                        self.assertGreater(done() - before, 20 * 64)
                    peer.abort()
                    gates[0].set()
                    while server.connections > 1:
                        await asyncio.sleep(0)
        clock = Clock()
        with mock.patch.object(_connection, "time", clock), mock.patch.object(_works, "time", clock), \
                mock.patch.object(_server, "_LATELY", math.inf), Records("lemonrudder"):
            self.run_async(main())

    def test_memory_beside_a_peer_that_reads_nothing(self):
        """Repeats of a long reply that nobody takes cost a few of them, and not all."""
        async def main():
            big = bytes(1000000)

            async def slow():
                await asyncio.sleep(0.01)
                return big

            operations = {"big": ("", "o", lambda: big), "slow": ("", "o", slow), "get": ("", "l", lambda: 1)}
            server, client = await self.pair(operations, max_parked_of=4)
            context = (lr.FT_REQUEST, lr.write_ft("A", 1, FAR))
            async with server, client:
                await client.call("k", "get", results="l")
                for name in ("big", "slow"):
                    repeats = [lr.write_request(number, "k", name, context=context if name == "big" else None)
                               for number in range(1500)]
                    before, most = self.memory(), 0
                    peers = [self.connected(client.port) for _ in range(3)]
                    for peer in peers:
                        peer.setblocking(False)
                        peer.send(b"".join(repeats))
                    for _ in range(100):
                        self.assertEqual(await client.call("k", "get", results="l"), 1)
                        await asyncio.sleep(0.005)
                        most = max(most, self.memory() - before)
                    with self.subTest(name):
                        self.assertLess(most, 64 << 20)
                    for peer in peers:
                        peer.close()
                    await self.drained(server, 1)
        self.run_async(main())

    def test_places(self):
        """As many requests are under way as may be: of a connection the others wait, and beyond that they are
        refused."""
        async def main():
            go, most, now = asyncio.Event(), [0, 0], [0, 0]

            async def slow(which):
                now[which] += 1
                most[which] = max(most[which], now[which])
                await go.wait()
                now[which] -= 1
                return which

            server, client = await self.pair({"slow": ("l", "l", slow)}, max_parked=8, max_parked_of=5)
            others = [lr.Client(client.host, client.port, keep_transient=False) for _ in range(4)]
            async with server, client:
                calls = [asyncio.ensure_future(client.call("k", "slow", "l", [0], "l")) for _ in range(20)]
                while now[0] < 5:
                    await asyncio.sleep(0.01)
                more = [asyncio.ensure_future(one.call("k", "slow", "l", [1], "l")) for one in others]
                done, _ = await asyncio.wait(more, return_when=asyncio.FIRST_COMPLETED)
                with self.assertRaises(lr.SystemException) as caught:
                    await done.pop()
                self.assertEqual((caught.exception.name, caught.exception.completed), ("TRANSIENT", lr.Completed.NO))
                self.assertEqual((now, server.stats()["parked_now"]), ([5, 3], 8))
                go.set()
                self.assertEqual(await asyncio.gather(*calls), [0] * 20)
                self.assertEqual(sum(not one.exception() for one in more), 3)
                self.assertEqual(most[0], 5)
                for one in others:
                    await one.close()
        with self.assertLogs("lemonrudder") as logged:
            self.run_async(main())
        self.assertIn("max_parked", "\n".join(logged.output))

    def test_places_are_taken_in_turn(self):
        """Connections that want more than there is go on when a place is free."""
        async def main():
            async def slow():
                await asyncio.sleep(0.002)

            server, client = await self.pair({"slow": ("", "", slow), "get": ("", "l", lambda: 1)}, max_parked=8)
            clients = [lr.Client(client.host, client.port, delays=(0.001, 0.01)) for _ in range(6)]
            async with server, client:
                calls = [one.call("k", "get", results="l") if number % 3 == 0 else one.call("k", "slow")
                         for number in range(30) for one in clients]
                await asyncio.gather(*calls)
                for one in clients:
                    await one.close()
        self.run_async(main())

    def test_elements(self):
        """A request with more elements than may be, each of which takes its time, is refused by MARSHAL."""
        async def main():
            performed = []

            def take(values):
                performed.append(len(values))
                return len(values)

            operations = {"pairs": ("[(ls)]", "l", take), "deep": ("[[(ls)]]", "l", take),
                          "numbers": ("[l]", "l", take),
                          "raw": lambda body: lr.pack("l", take(body.unpack("[s]")[0]))}
            many, few = [(1, "")] * 70000, [(1, "")] * 60000
            server, client = await self.pair(operations)
            async with server, client:
                async def refused(operation, format, value):
                    with self.assertRaises(lr.SystemException) as caught:
                        await client.call("k", operation, format, [value], "l", timeout=SECONDS)
                    return str(caught.exception)

                self.assertEqual(await refused("pairs", "[(ls)]", many), "MARSHAL, minor 0, COMPLETED_NO")
                self.assertEqual(await refused("deep", "[[(ls)]]", [few[:30000], many[:40000]]),
                                 "MARSHAL, minor 0, COMPLETED_NO")
                self.assertEqual(performed, [])
                for operation, format, value in (("pairs", "[(ls)]", few), ("numbers", "[l]", [1] * 200000),
                                                 ("deep", "[[(ls)]]", [few[:30000], few[:30000]]),
                                                 ("raw", "[s]", [""] * 9)):
                    count = await client.call("k", operation, format, [value], "l", timeout=SECONDS)
                    self.assertEqual(count, len(value))
                # (what a raw operation reads is its own: it may say what it is refused by)
                self.assertEqual(await refused("raw", "[s]", [""] * 70000), "UNKNOWN, minor 0, COMPLETED_MAYBE")
            for most, count in ((3, 3), (None, 70000)):
                server, client = await self.pair(operations, max_elements=most)
                async with server, client:
                    found = await client.call("k", "pairs", "[(ls)]", [many[:count]], "l", timeout=SECONDS)
                    self.assertEqual(found, count)
                    if most is not None:
                        with self.assertRaises(lr.SystemException):
                            await client.call("k", "pairs", "[(ls)]", [many[:most + 1]], "l")

        with self.assertLogs("lemonrudder", "INFO") as logged:
            self.run_async(main())
        self.assertIn("'pairs' is refused on connection 1", logged.output[0])
        self.assertEqual(lr.unpack("[s]l", lr.pack("[s]l", ["a"] * 3, 7), max_elements=3), (["a"] * 3, 7))
        reader = lr.Reader(lr.pack("[s]l", ["a"] * 3, 7) * 2, max_elements=5)
        reader.read("[s]l")
        self.fails(Error.VALUE, reader.read, "[s]l")
        self.assertEqual(reader.next, len(reader.octets) // 2)

    def test_connections(self):
        """One that comes beyond the bound takes the place of who is idle longest; who is silent for long is left."""
        async def main():
            go = asyncio.Event()

            async def slow():
                await go.wait()
                return 1

            operations = {"slow": ("", "l", slow), "get": ("", "l", lambda: 2)}
            server, client = await self.pair(operations, max_connections=3, idle_timeout=4)
            async with server, client:
                call = asyncio.ensure_future(client.call("k", "slow", results="l"))
                await self.drained(server, 1)
                (longest, first), (shorter, second) = [await asyncio.open_connection(client.host, client.port)
                                                       for _ in range(2)]
                await self.drained(server, 3)
                await asyncio.sleep(0.2)
                # (half a message is something)
                second.write(lr.write_request(1, "k", "get")[:20])
                begun = time.monotonic()
                async with lr.Client(client.host, client.port) as other:
                    self.assertEqual(await other.call("k", "get", results="l", timeout=SECONDS), 2)
                    self.assertLess(time.monotonic() - begun, 3)
                    message, = lr.messages(await longest.read())
                    self.assertIs(message.type, lr.MessageType.CLOSE_CONNECTION)
                    second.write(lr.write_request(1, "k", "get")[20:])
                    reply, = lr.messages(await shorter.read(4096))
                    self.assertEqual(reply.body.unpack("l"), (2,))
                    message, = lr.messages(await shorter.read())
                    self.assertIs(message.type, lr.MessageType.CLOSE_CONNECTION)
                self.assertFalse(call.done())
                go.set()
                self.assertEqual(await call, 1)
                self.assertEqual(server.stats()["turned_away"], 0)
                for one in (first, second):
                    one.close()
        with self.assertLogs("lemonrudder", "INFO") as logged:
            self.run_async(main())
        text = "\n".join(logged.output)
        self.assertEqual(text.count("another one takes its place"), 1)
        self.assertIn("it was idle", text)

    def test_connections_that_are_all_busy(self):
        """One that comes beyond the bound then waits, until one has been idle for a second."""
        async def main():
            async def slow():
                await go.wait()

            go = asyncio.Event()
            server, client = await self.pair({"slow": ("", "", slow), "get": ("", "l", lambda: 2)}, max_connections=1)
            async with server, client, lr.Client(client.host, client.port) as other:
                call = asyncio.ensure_future(client.call("k", "slow"))
                await self.drained(server, 1)
                get = asyncio.ensure_future(other.call("k", "get", results="l"))
                await asyncio.sleep(1.5)
                self.assertEqual((get.done(), call.done(), server.connections), (False, False, 1))
                go.set()
                await asyncio.wait([call])
                begun = time.monotonic()
                self.assertEqual(await get, 2)
                # (who has just been answered has not been idle since it asked)
                self.assertGreater(time.monotonic() - begun, 0.9)
        with self.assertLogs("lemonrudder"):
            self.run_async(main())

    def test_silent_peers(self):
        """There may be more of them than the server has connections or descriptors for: others are served."""
        program = """if True:
            import asyncio, lemonrudder, resource, sys
            resource.setrlimit(resource.RLIMIT_NOFILE, (32, 32))
            async def main():
                server = lemonrudder.Server(max_connections=int(sys.argv[1]))
                server.add("k", "IDL:K:1.0", {"get": ("", "l", lambda: 1)})
                print(await server.listen(), flush=True)
                await server.serve_forever()
            asyncio.run(main())
        """

        async def call(port):
            async with lr.Client("127.0.0.1", port) as client:
                return await client.call("k", "get", results="l", timeout=15)

        for most in (10, 1000):
            with self.subTest(most=most), contextlib.ExitStack() as stack:
                words = [sys.executable, "-c", program, str(most)]
                path = os.path.join(ROOT, "bindings", "python")
                server = subprocess.Popen(words, stdout=subprocess.PIPE, stderr=subprocess.PIPE, text=True,
                                          env={**os.environ, "PYTHONPATH": path})
                stack.callback(server.communicate)
                stack.callback(server.kill)
                port = int(server.stdout.readline())
                for _ in range(60):
                    stack.enter_context(socket.create_connection(("127.0.0.1", port)))
                self.assertEqual(asyncio.run(call(port)), 1)

    def test_connections_that_come_while_it_closes(self):
        """Those that are accepted then are dropped, and no line of a log that an operator reads speaks of them."""
        async def main(turns):
            server, client = await self.pair({"get": ("", "l", lambda: 1)})
            peers = [socket.create_connection((client.host, client.port)) for _ in range(8)]
            for _ in range(turns):
                await asyncio.sleep(0)
            await server.close()
            for peer in peers:
                peer.close()
            # (transports that were aborted end with the loop's next turns)
            await asyncio.sleep(0.01)
        with self.assertLogs("lemonrudder", "DEBUG") as logged:
            for turns in range(5):
                self.run_async(main(turns))
        dropped = [one for one in logged.records if "is turned away" in one.getMessage()]
        self.assertTrue(dropped)
        self.assertEqual({(one.levelname, str(one.args[-1])) for one in dropped}, {("DEBUG", "the server closes")})

    def test_connections_that_are_lost(self):
        """One that memory was too short to answer on, which the engine alone knows, is closed by the next sweep."""
        async def main():
            server, client = await self.pair({"get": ("", "l", lambda: 1)}, idle_timeout=None)
            async with server, client:
                reader, writer = await asyncio.open_connection(client.host, client.port)
                await self.drained(server, 1)
                number, = server._connections
                server._engine.lost(number)
                self.assertEqual(await reader.read(), b"")
                await self.drained(server, 0)
                writer.close()
        # (where memory was too short the connection is there until then, and says so)
        with mock.patch.object(_server, "_SWEEP", 0.01), mock.patch.object(lr.Engine, "why", return_value=lr.Why.MEMORY):
            self.run_async(main())

    def test_what_is_told(self):
        """There is a line for each request that is refused and each connection that ends, and a count."""
        async def main():
            def not_now():
                raise lr.Refuse("NO_PERMISSION")

            server, client = await self.pair({"op": ("l", "", lambda number: None), "not_now": ("", "", not_now)},
                                             capacity=1)
            ft = lr.write_ft("A", 1, 5)
            cases = {
                "nonsense, and so on": "ended: its stream has a fault (FAULT_MAGIC)",
                lr.write_reply(1): "ended: a message came that only a server sends",
                lr.write_close(): "DEBUG:lemonrudder:connection 3",
                lr.write_error(): "ended: its peer sent MessageError",
                lr.write_request(1, "k", "op", context=(lr.FT_REQUEST, ft)): "refused on connection 5 (127.0.0.1:",
                lr.write_request(1, "k", "none"): "there is no such object or operation",
                lr.write_request(1, "k", "not_now"): "'not_now' is refused on connection 7",
            }
            async with server, client:
                for octets, text in cases.items():
                    with self.subTest(text), self.assertLogs("lemonrudder", "DEBUG") as logged:
                        reader, writer = await asyncio.open_connection(client.host, client.port)
                        writer.write(octets if isinstance(octets, bytes) else octets.encode())
                        writer.write_eof()
                        await reader.read()
                        writer.close()
                        await self.drained(server, 0)
                    self.assertIn(text, "\n".join(logged.output))
                with self.assertLogs("lemonrudder") as logged:
                    await client.call("k", "op", "l", [1])
                    with self.assertRaises(lr.SystemException):
                        await client.call("k", "op", "l", [1])
                self.assertIn("as many outcomes are kept as may be (capacity)", "\n".join(logged.output))
                stats = server.stats()
                for name, number in {"expired": 1, "invalid": 1, "declined": 1, "log_full": 1, "answered": 1, "kept": 1,
                                     "connections": 1, "under_way": 0}.items():
                    self.assertEqual((name, stats[name]), (name, number))
            self.assertEqual(server.stats(), {})
        self.run_async(main())

    def test_refusals_do_not_fill_the_log(self):
        """Those of a connection for one reason have a line, and then one a second with their number."""
        async def main():
            def fails():
                raise KeyError

            server, client = await self.pair({"fails": ("", "", fails)})
            none, fail = (lr.write_request(1, "k", operation) for operation in ("none", "fails"))
            async with server, client:
                for _ in range(2):
                    wire = Wire(server)
                    wire.come((none + fail) * 300)
                    while wire.written.count(b"GIOP") < 600:
                        await asyncio.sleep(0)
                    server._lines._end(wire.connection)  # (a second is over)
                    wire.come(none)
                for number in range(20):
                    server._lines.write(wire.connection, logging.INFO, "%d", number)
        invalid = ("a request is refused on {} (local): there is no such object or operation, or its arguments are not "
                   "valid")
        raised, wanted = "'fails' raised KeyError", []
        for one in ("connection 1", "connection 2"):
            lines = invalid.format(one), raised
            wanted += [*lines, *(f"{line} (299 times more)" for line in lines)]
        wanted += [*map(str, range(14)), f"{invalid.format('connection 1')} (1 times more)",
                   f"{invalid.format('connection 2')} (1 times more)",
                   "other lines about connection 2 (local) are left out (6 times more)"]
        logger = logging.getLogger("lemonrudder")
        logger.setLevel(logging.INFO)
        self.addCleanup(logger.setLevel, logging.NOTSET)
        with mock.patch.object(_lines, "_SECONDS", SECONDS), Records("lemonrudder") as records:
            self.run_async(main())
        self.assertEqual(records, wanted)


class Addresses(Case):
    """A client over all addresses of a reference, and where it is led."""

    run_async, pair = Ends.run_async, Ends.pair

    async def script(self, answers, **options):
        """A server that answers one request after another as a list says, a status and a body, or None: it hangs up.
        Its port, and the key, operation, number and body of each request that came. `options` are the listener's."""
        seen = []

        async def serve(reader, writer):
            assembler = lr.Assembler()
            while octets := await reader.read(4096):
                for message in assembler.feed(octets):
                    if message.type != lr.MessageType.REQUEST:
                        continue
                    seen.append((message.key, message.operation, message.ft.retention_id, message.body.octets))
                    said = answers.pop(0) if answers else None
                    if said is None:
                        writer.transport.abort()
                        return
                    writer.write(lr.write_reply(message.request_id, said[1], status=said[0]))
            writer.close()

        listener = await asyncio.start_server(serve, "127.0.0.1", 0, **options)
        self.addCleanup(listener.close)
        return listener.sockets[0].getsockname()[1], seen

    def closed_port(self):
        """A port at which nobody listens."""
        with socket.socket() as made:
            made.bind(("127.0.0.1", 0))
            return made.getsockname()[1]

    def reference(self, *ports, key="k"):
        """A reference with a profile for each port."""
        profiles = [(0, lr.Ior.iiop("", "127.0.0.1", port, key).profiles[0].data) for port in ports]
        return lr.Ior.of_value(("IDL:K:1.0", profiles))

    def forward(self, *ports, key="k"):
        """A reply that forwards there."""
        return lr.ReplyStatus.LOCATION_FORWARD, lr.pack("s[(Lo)]", *self.reference(*ports, key=key).value)

    def returned(self, number):
        return lr.ReplyStatus.NO_EXCEPTION, lr.pack("l", number)

    TRANSIENT = (lr.ReplyStatus.SYSTEM_EXCEPTION, lr.pack("sLL", "IDL:omg.org/CORBA/TRANSIENT:1.0", 0, 1))

    def test_addresses_are_tried_in_turn(self):
        async def main():
            port, seen = await self.script([self.returned(5), None, self.returned(6)])
            other, _ = await self.script([])
            reference = self.reference(self.closed_port(), other, port)
            async with lr.Client.of(reference, "A", delays=(0.001, 0.01)) as client:
                self.assertEqual(await client.call("k", "op", "l", [7], "l"), 5)
                self.assertEqual(client.port, port)
                self.assertEqual(await client.call("k", "op", "l", [8], "l"), 6)
            body = [lr.pack("l", number) for number in (7, 8, 8)]
            self.assertEqual(seen, [(b"k", "op", number, octets) for number, octets in zip((1, 2, 2), body)])
        self.run_async(main())

    def test_urls(self):
        """A client of a URL `corbaloc:` calls the object of its key at its addresses."""
        async def main():
            server, client = await self.pair({"get": ("", "l", lambda: 7)})
            here = f"127.0.0.1:{client.port}"
            urls = [f"corbaloc:{places}/k" for places in (f":{here}", f"iiop:1.0@{here}",
                                                          f":127.0.0.1:{self.closed_port()},:{here}")]
            async with server:
                for url in urls:
                    async with lr.Client.of(url) as one:
                        self.assertEqual(await one.call(one.key, "get", results="l"), 7)
            await client.close()
        try:
            lr.Ior.parse("corbaloc::h:1/k")
        except lr.LemonrudderError:
            self.skipTest(NEEDS + "a library that reads URLs corbaloc:")
        self.run_async(main())

    async def mute(self):
        """A server that takes all and says nothing: its port, and the numbers of the calls that came."""
        came = []

        async def serve(reader, writer):
            assembler = lr.Assembler()
            while octets := await reader.read(4096):
                came.extend(one.ft.retention_id for one in assembler.feed(octets) if one.ft is not None)
            writer.close()

        listener = await asyncio.start_server(serve, "127.0.0.1", 0)
        self.addCleanup(listener.close)
        return listener.sockets[0].getsockname()[1], came

    def test_an_address_that_says_nothing(self):
        """It is left for the next one, where the calls keep their numbers; later ones go there at once."""
        async def main():
            server, client = await self.pair({"add": ("l", "l", lambda number: numbers.append(
                (number, lr.current().retention_id)) or number)})
            numbers, first, second = [], await self.mute(), await self.mute()
            reference = self.reference(first[0], second[0], client.port)
            async with server, lr.Client.of(reference, answer_timeout=0.3) as both:
                begun = time.monotonic()
                calls = [both.call("k", "add", "l", [number], "l", timeout=30) for number in (7, 8)]
                self.assertEqual(await asyncio.gather(*calls), [7, 8])
                self.assertEqual(await both.call("k", "add", "l", [9], "l"), 9)
                self.assertLess(time.monotonic() - begun, 10)
                self.assertEqual((first[1], second[1], numbers), ([1, 2], [1, 2], [(7, 1), (8, 2), (9, 3)]))
            async with lr.Client.of(self.reference(first[0], second[0]), answer_timeout=0.3) as none:
                with self.assertRaises(lr.Expired) as caught:
                    await none.call("k", "add", "l", [7], "l", timeout=1)
                self.assertIn("said nothing for 0.3 seconds", str(caught.exception.__cause__))
                self.assertGreater(caught.exception.sent, 2)
            await client.close()
        self.run_async(main())

    def test_the_share_of_an_address(self):
        """Where nothing is said, each of them has its share of the time of a call."""
        async def main():
            server, client = await self.pair({"get": ("", "l", lambda: 7)})
            (first, came), (second, others) = await self.mute(), await self.mute()
            async with server, lr.Client.of(self.reference(first, second, client.port)) as both:
                long = asyncio.ensure_future(both.call("k", "get", results="l", expiration=FAR))
                begun = time.monotonic()
                self.assertEqual(await both.call("k", "get", results="l", timeout=3), 7)
                self.assertEqual(await long, 7)
                self.assertGreater(time.monotonic() - begun, 1.5)
            self.assertEqual((came, others), ([1, 2], [1, 2]))
            await client.close()
        self.run_async(main())

    def test_an_address_that_takes_its_time(self):
        """One that has no other beside it is not left, nor one that says something."""
        async def main():
            async def slow(seconds):
                performed.append(seconds)
                await asyncio.sleep(seconds)
                return 1

            performed, idle = [], await self.mute()
            server, client = await self.pair({"slow": ("d", "l", slow)})
            async with server, lr.Client.of(self.reference(client.port), answer_timeout=0.2) as alone:
                self.assertEqual(await alone.call("k", "slow", "d", [1.0], "l"), 1)
                async with lr.Client.of(self.reference(client.port, idle[0]), answer_timeout=1.0) as both:
                    long = asyncio.ensure_future(both.call("k", "slow", "d", [2.5], "l"))
                    for _ in range(8):
                        self.assertEqual(await both.call("k", "slow", "d", [0.3], "l"), 1)
                    self.assertEqual(await long, 1)
                    # (what was silent while nothing was asked is asked as before)
                    await asyncio.sleep(1.5)
                    self.assertEqual(await both.call("k", "slow", "d", [0.5], "l"), 1)
                self.assertEqual((server._last, idle[1]), (2, []))
            await client.close()
        self.run_async(main())

    def test_a_forward_to_one_that_says_nothing(self):
        """Its calls are asked for as at first."""
        async def main():
            there, came = await self.mute()
            port, seen = await self.script([self.forward(there), self.returned(5), self.returned(6)])
            async with lr.Client("127.0.0.1", port, answer_timeout=0.3, delays=(0.001, 0.01)) as client:
                self.assertEqual(await client.call("k", "get", results="l", timeout=30), 5)
                self.assertEqual(await client.call("k", "get", results="l", timeout=30), 6)
            self.assertEqual(([number for _, _, number, _ in seen], came), ([1, 1, 2], [1]))
        self.run_async(main())

    def test_a_server_that_moves(self):
        """Two servers at two addresses of one reference: the calls go on where one is left."""
        async def main():
            servers = []
            for number in range(2):
                server = lr.Server()
                server.add("k", "IDL:K:1.0", {"get": ("", "l", lambda number=number: number)})
                await server.listen()
                servers.append(server)
            ports = [server.reference("k").profiles[0].port for server in servers]
            async with lr.Client.of(self.reference(*ports), delays=(0.001, 0.01)) as client:
                self.assertEqual(await client.call("k", "get", results="l"), 0)
                await servers[0].close()
                self.assertEqual(await client.call("k", "get", results="l"), 1)
            await servers[1].close()
        self.run_async(main())

    def test_what_is_transient(self):
        """A call that TRANSIENT answers is sent again under its number, at the next address where there is one."""
        async def main():
            port, seen = await self.script([self.TRANSIENT, self.TRANSIENT, self.returned(5)])
            async with lr.Client("127.0.0.1", port, "A", delays=(0.001, 0.01)) as client:
                self.assertEqual(await client.call("k", "op", results="l"), 5)
                self.assertEqual([one[2] for one in seen], [1, 1, 1])
            backup, seen = await self.script([self.TRANSIENT] * 9)
            primary, others = await self.script([self.returned(6)])
            async with lr.Client.of(self.reference(backup, primary), delays=(0.001, 0.01)) as client:
                self.assertEqual(await client.call("k", "op", results="l"), 6)
                self.assertEqual((len(seen), len(others)), (1, 1))
            port, seen = await self.script([self.TRANSIENT] * 1000)
            async with lr.Client("127.0.0.1", port, delays=(0.001, 0.01)) as client:
                with self.assertRaises(lr.Expired) as caught:
                    await client.call("k", "op", results="l", timeout=1)
            self.assertEqual(caught.exception.__cause__.name, "TRANSIENT")
            self.assertEqual(caught.exception.sent, len(seen))
            self.assertGreater(caught.exception.sent, 3)
        self.run_async(main())

    def test_forwards(self):
        """A forward is followed under the number of the call, and later calls of its key go there at once, until the
        object is not there; other calls stay where they are."""
        async def main():
            gone = (2, lr.pack("sLL", "IDL:omg.org/CORBA/OBJECT_NOT_EXIST:1.0", 0, 1))
            there, led = await self.script([self.returned(5), self.returned(6), gone])
            port, seen = await self.script([self.forward(self.closed_port(), there, key="other"), self.returned(7),
                                            self.returned(8)])
            async with lr.Client("127.0.0.1", port, "A", delays=(0.001, 0.01)) as client:
                self.assertEqual(await client.call("k", "op", "l", [1], "l"), 5)
                self.assertEqual(await client.call("l", "op", "l", [2], "l"), 7)
                self.assertEqual(await client.call("k", "op", "l", [3], "l"), 6)
                with self.assertRaises(lr.SystemException):
                    await client.call("k", "op", "l", [4], "l")
                self.assertEqual(await client.call("k", "op", "l", [5], "l"), 8)
            self.assertEqual([one[:3] for one in seen], [(b"k", "op", 1), (b"l", "op", 2), (b"k", "op", 5)])
            self.assertEqual(led, [(b"other", "op", number, lr.pack("l", number)) for number in (1, 3, 4)])
        self.run_async(main())

    def test_forwards_that_lead_nowhere(self):
        """Where nobody answers any more the object is asked for as at first; a forward that leads nowhere is told."""
        async def main():
            gone = self.closed_port()
            port, seen = await self.script([self.forward(gone), self.forward(gone), self.returned(5),
                                            self.forward(), self.forward(gone), (3, b"")])
            async with lr.Client("127.0.0.1", port, "A", delays=(0.001, 0.01)) as client:
                self.assertEqual(await client.call("k", "op", results="l"), 5)
                self.assertEqual([one[2] for one in seen], [1, 1, 1])
                with self.assertRaises(lr.ForwardRequest):
                    await client.call("k", "op")
                plain = lr.Client("127.0.0.1", port, keep_forward=False)
                async with plain:
                    with self.assertRaises(lr.ForwardRequest) as caught:
                        await plain.call("k", "op")
                    self.assertEqual(caught.exception.ior, self.reference(gone))
                with self.assertRaises(lr.LemonrudderError) as caught:
                    await client.call("k", "op")
                self.assertIs(caught.exception.number, Error.SHORT)
        self.run_async(main())

    def test_a_forward_does_not_act_twice(self):
        """The reply is lost after the operation acted; its repeat is forwarded, and gets the outcome of the first."""
        async def main():
            total = []
            server, client = await self.pair({"add": ("l", "l", lambda number: total.append(number) or sum(total))})
            port = client.port

            async def lose(reader, writer):
                """The first request goes to the server, and its reply is lost; the second is forwarded there."""
                requests.append(await reader.read(4096))
                if len(requests) == 1:
                    there, back = await asyncio.open_connection("127.0.0.1", port)
                    back.write(requests[0])
                    await there.read(4096)
                    back.close()
                else:
                    message, = lr.messages(requests[1])
                    writer.write(lr.write_reply(message.request_id, self.forward(port)[1], status=3))
                    await reader.read()
                writer.close()

            requests = []
            listener = await asyncio.start_server(lose, "127.0.0.1", 0)
            before = lr.Client("127.0.0.1", listener.sockets[0].getsockname()[1], delays=(0.001, 0.01))
            async with server, client, before:
                self.assertEqual(await before.call("k", "add", "l", [7], "l"), 7)
                self.assertEqual((total, len(requests)), ([7], 2))
            listener.close()
        self.run_async(main())

    def test_raw_calls(self):
        async def main():
            seen = []

            def raw(body):
                seen.append((lr.current().wish, body.order, body.unpack("l"), lr.current().context(9)))
                return lr.RawReply(lr.pack("l", 8, order=LITTLE), LITTLE)

            server, client = await self.pair({"raw": raw, "typed": ("l", "", lambda number: seen.append(number))})
            async with server, client:
                body = lr.pack("l", 7, order=LITTLE)
                answer = await client.call_raw("k", "raw", body, order=LITTLE, contexts=[(9, b"x")])
                self.assertEqual((answer.order, answer.unpack("l")), (LITTLE, (8,)))
                answer = await client.call_raw("k", "raw", body, order=LITTLE, wish=lr.Wish.EMPTY)
                self.assertEqual(seen, [(2, LITTLE, (7,), b"x"), (1, LITTLE, (7,), None)])
                self.assertIsNone(await client.oneway("k", "typed", "l", [5]))
                self.assertEqual((await client.call_raw("k", "typed", lr.pack("l", 6), number=9)).octets, b"")
                self.assertEqual(seen[2:], [5, 6])
                with self.assertRaises(lr.SystemException) as caught:
                    await client.call_raw("k", "none")
                self.assertEqual(caught.exception.name, "BAD_OPERATION")
                with self.assertRaises(lr.LemonrudderError) as caught:
                    await client.call_raw("k", "raw", contexts=[(lr.FT_REQUEST, b"")])
                self.assertIs(caught.exception.number, Error.VALUE)
        self.run_async(main())


@needs("openssl")
class Tls(Case):
    """Both ends over TLS."""

    run_async = Ends.run_async
    script, closed_port, reference, forward = (getattr(Addresses, name) for name in (
        "script", "closed_port", "reference", "forward"))

    def contexts(self, folder):
        """Contexts of a server and of a client, which trust one certificate that both show."""
        key, certificate = os.path.join(folder, "key.pem"), os.path.join(folder, "certificate.pem")
        subprocess.run(["openssl", "req", "-x509", "-newkey", "rsa:2048", "-nodes", "-keyout", key, "-out", certificate,
                        "-days", "2", "-subj", "/CN=localhost", "-addext", "subjectAltName=DNS:localhost"],
                       check=True, capture_output=True, timeout=SECONDS)
        made = []
        for purpose in (ssl.Purpose.CLIENT_AUTH, ssl.Purpose.SERVER_AUTH):
            context = ssl.create_default_context(purpose, cafile=certificate)
            context.load_cert_chain(certificate, key)
            context.verify_mode = ssl.CERT_REQUIRED
            made.append(context)
        return made

    def test_both_ends(self):
        async def main(served, called):
            async def who(octets):
                await asyncio.sleep(0.01)
                subject = dict(pair for pairs in lr.current().certificate["subject"] for pair in pairs)
                return subject["commonName"], octets

            server = lr.Server()
            server.add("k", "IDL:K:1.0", {"who": ("o", "so", who)})
            port = await server.listen(ssl=served)
            octets = bytes(range(256)) * 1000
            async with server, lr.Client("127.0.0.1", port, ssl=called, server_hostname="localhost") as client:
                calls = [client.call("k", "who", "o", [octets], "so") for _ in range(10)]
                self.assertEqual(await asyncio.gather(*calls), [("localhost", octets)] * 10)
                wrong = lr.Client("127.0.0.1", port, ssl=called, server_hostname="elsewhere", delays=(0.001, 0.01))
                async with wrong:
                    with self.assertRaises(lr.Expired) as caught:
                        await wrong.call("k", "who", "o", [b""], "so", timeout=0.5)
                self.assertIsInstance(caught.exception.__cause__, ssl.SSLError)
                self.assertEqual(caught.exception.sent, 0)
        with tempfile.TemporaryDirectory() as folder:
            self.run_async(main(*self.contexts(folder)))

    def test_silent_peers(self):
        """Those that do not even begin TLS make place too."""
        async def main(served, called):
            server = lr.Server(max_connections=2)
            server.add("k", "IDL:K:1.0", {"get": ("", "l", lambda: 1)})
            port = await server.listen(ssl=served)
            tls = {"ssl": called, "server_hostname": "localhost"}
            client, other = [lr.Client("127.0.0.1", port, **tls) for _ in range(2)]
            async with server, client, other:
                self.assertEqual(await client.call("k", "get", results="l"), 1)
                silent = [socket.create_connection(("127.0.0.1", port)) for _ in range(3)]
                self.assertEqual(await other.call("k", "get", results="l", timeout=20), 1)
                # (one that has its place is asked as before)
                self.assertEqual(await client.call("k", "get", results="l", timeout=20), 1)
                for one in silent:
                    one.close()
        with tempfile.TemporaryDirectory() as folder:
            self.run_async(main(*self.contexts(folder)))

    def test_all_addresses_and_a_forward(self):
        """A call keeps its number over addresses at which nobody listens or that hang up, and over a forward."""
        async def main(served, called):
            def add(number):
                performed.append((number, lr.current().retention_id))
                return sum(each for each, _ in performed)

            performed, server = [], lr.Server()
            server.add("there", "IDL:K:1.0", {"add": ("l", "l", add)})
            led = self.forward(self.closed_port(), await server.listen(ssl=served), key="there")
            first, hung_up = await self.script([None, None], ssl=served)
            second, forwarded = await self.script([None, led], ssl=served)
            reference = self.reference(self.closed_port(), first, second)
            tls = {"ssl": called, "server_hostname": "localhost", "delays": (0.001, 0.01)}
            async with server, lr.Client.of(reference, **tls) as client:
                sums = [await client.call(client.key, "add", "l", [number], "l") for number in (7, 8)]
            self.assertEqual(sums, [7, 15])
            self.assertEqual(performed, [(7, 1), (8, 2)])
            seen = hung_up + forwarded
            self.assertEqual({one[:3] for one in seen}, {(b"k", "add", 1)})
            self.assertGreater(len(hung_up), 0)
            self.assertEqual(len(forwarded), 2)
        with tempfile.TemporaryDirectory() as folder:
            self.run_async(main(*self.contexts(folder)))


class Bank(Case):
    """The bank of the examples, whose clients lose their connections."""

    CLIENTS, DEPOSITS = 50, 12

    def test_each_deposit_acts_once(self):
        with subprocess.Popen(example("bank.py", "0", "0.01"), stdout=subprocess.PIPE, text=True) as bank:
            try:
                asyncio.run(asyncio.wait_for(self.play(lr.Ior.parse(bank.stdout.readline())), SECONDS))
            finally:
                bank.terminate()

    def test_it_ends_behind_what_is_under_way(self):
        """Deposits of several accounts go on at once, and SIGTERM waits for them."""
        async def main(bank):
            async with lr.Client.of(bank.stdout.readline()) as client:
                words = {"arguments": "sq", "results": "q", "timeout": SECONDS}
                calls = [asyncio.ensure_future(client.call(client.key, "deposit", values=(f"account {number % 5}", 1),
                                                           **words)) for number in range(10)]
                while await client.call(client.key, "balance", "s", ("account 0",), "q") == 0:
                    await asyncio.sleep(0.01)
                bank.terminate()
                self.assertEqual(await asyncio.gather(*calls), [1] * 5 + [2] * 5)
        with subprocess.Popen(example("bank.py", "0", "0.3"), stdout=subprocess.PIPE, text=True) as bank:
            try:
                asyncio.run(asyncio.wait_for(main(bank), SECONDS))
                self.assertEqual(bank.wait(SECONDS), 0)
            finally:
                bank.kill()

    def test_it_is_called_from_a_shell(self):
        """Fifty clients at once; texts, numbers and what is raised."""
        with subprocess.Popen(example("bank.py", "0", "0.1"), stdout=subprocess.PIPE, text=True) as bank:
            try:
                reference = bank.stdout.readline().strip()
                unknown = repr(lr.SystemException("BAD_OPERATION", 0, lr.Completed.NO))
                for words, wanted, status in (
                        (["-n", "50", reference, "deposit", "sq", "q", "alice", "5"], range(5, 251, 5), 0),
                        ([reference, "balance", "s", "q", "alice"], [250], 0),
                        ([reference, "deposit", "sq", "q", "alice", "-251"], [f"UserException('{OVERDRAWN}', ())"], 1),
                        ([reference, "none", "", ""], [unknown], 1)):
                    with self.subTest(words[-4:]):
                        ran = subprocess.run(example("call.py", *words), capture_output=True, text=True,
                                             timeout=SECONDS)
                        self.assertEqual((sorted(ran.stdout.split("\n")[:-1]), ran.stderr, ran.returncode),
                                         (sorted(map(str, wanted)), "", status))
            finally:
                bank.terminate()

    async def play(self, reference):
        profile, dice = reference.profiles[0], Dice(SEED)
        cutter = Cutter(dice, profile.port)
        port = await cutter.listen()
        clients = [lr.Client(profile.host, port, version=dice.randrange(3), delays=(0.001, 0.02))
                   for _ in range(self.CLIENTS)]
        ended = await asyncio.gather(*(self.trade(dice, client, f"account {number}", profile.key)
                                       for number, client in enumerate(clients)))
        cutter.is_calm = True
        for number, client in enumerate(clients):
            with self.subTest(client=number):
                wanted = (1 << self.DEPOSITS) - 1
                account = f"account {number}"
                self.assertEqual(await client.call(profile.key, "balance", "s", [account], "q"), wanted)
                totals, refused = ended[number]
                # each deposit is another power of two, so that each total says which came before it
                self.assertEqual(sorted(bin(total).count("1") for total in totals), list(range(1, self.DEPOSITS + 1)))
                self.assertEqual(max(totals), wanted)
                self.assertTrue(all(0 <= balance <= wanted for balance in refused))
            await client.close()
        await cutter.close()
        # (each client makes a call more for each three deposits)
        calls = self.CLIENTS * self.DEPOSITS * 4 // 3
        self.assertGreater(cutter.cuts, self.CLIENTS)
        self.assertGreater(cutter.requests, calls + self.CLIENTS)
        print(f"{cutter.requests} requests were sent for {calls} deposits, and there were {cutter.cuts} cuts")

    async def trade(self, dice, client, account, key):
        """Deposits powers of two, some at once, and tries to take too much between. The totals, and the balances."""
        amounts = [1 << bit for bit in range(self.DEPOSITS)]
        dice.shuffle(amounts)
        totals, refused = [], []
        while amounts:
            some, amounts = amounts[:3], amounts[3:]
            calls = [client.call(key, "deposit", "sq", (account, cents), "q", timeout=SECONDS) for cents in some]
            totals += await asyncio.gather(*calls)
            try:
                await client.call(key, "deposit", "sq", (account, -1 << 40), "q", {OVERDRAWN: "q"}, timeout=SECONDS)
            except lr.UserException as raised:
                refused += raised.values
        self.assertEqual(len(refused), len(totals) // 3)
        return totals, refused


FOLLOW = """
===================================================================
Follow: tcp,raw
Filter: tcp.stream eq 0
Node 0: 127.0.0.1:40000
Node 1: 127.0.0.1:2809
{}
\t{}
{}
===================================================================
"""


class Captures(Case):
    """The example that decodes a capture."""

    def shown(self, capture):
        run = subprocess.run(example("capture.py"), input=capture, capture_output=True, text=True, timeout=SECONDS)
        self.assertEqual((run.returncode, run.stderr), (0, ""))
        return run.stdout.splitlines()

    def test_octets(self):
        with open(os.path.join(ROOT, "examples", "omniorb_retry.hex")) as file:
            lines = self.shown(file.read())
        self.assertEqual(len(lines), 3)
        self.assertTrue(lines[0].startswith("> 1.2 little REQUEST id 2 reply full key 63 operation add context 13 "))
        self.assertTrue(lines[0].endswith(" client A retention 1 expiration 200000000000000000 body 07000000"))
        self.assertEqual(lines[2], "> 1.2 little CLOSE_CONNECTION")

    def test_both_sides(self):
        request, reply = lr.write_request(1, b"k", "op", b"12345678"), lr.write_reply(1, b"1234")
        lines = self.shown(FOLLOW.format(request[:20].hex(), reply.hex(), request[20:].hex()))
        self.assertEqual(lines, [
            "< 1.2 big REPLY id 1 status NO_EXCEPTION body 31323334",
            "> 1.2 big REQUEST id 1 reply full key 6b operation op body 3132333435363738"])

    def test_a_fault(self):
        close = lr.write_close()
        lines = self.shown(FOLLOW.format(close.hex() + "00" * 12, close.hex(), close.hex()))
        self.assertEqual([line[:2] + line.split()[-1] for line in lines],
                         ["> CLOSE_CONNECTION", "> MAGIC", "< CLOSE_CONNECTION"])

    def test_a_file(self):
        with tempfile.NamedTemporaryFile("w", suffix=".txt") as file:
            file.write(lr.write_close().hex())
            file.flush()
            run = subprocess.run(example("capture.py", file.name), capture_output=True, text=True, timeout=SECONDS)
        self.assertEqual(run.stdout.split()[-1], "CLOSE_CONNECTION")


HEADER = os.path.join(ROOT, "embed", "include", "lemonrudder.h")


class Library(Case):
    """How the library is found, and what it says."""

    def test_errors_have_the_texts_of_the_header(self):
        """The header says what each number means; the library answers that text, and proves that number."""
        with open(HEADER, encoding="ascii") as file:
            said = re.findall(r"LR_E_(\w+) = (-\d+),? +/\* (.*) \*/", file.read())
        with open(os.path.join(ROOT, "crates", "lemonrudder", "src", "refusal.rt"), encoding="utf-8") as file:
            proved = re.findall(r"Refusal::(\w+) => (-\d+),", file.read())
        self.assertEqual([(name.upper(), number) for name, number in proved], [found[:2] for found in said])
        self.assertEqual({Error[name]: text for name, _, text in said},
                         {number: lr.LemonrudderError(number).text for number in Error})

    def test_errors_have_texts(self):
        texts = {lr.LemonrudderError(number).text for number in Error}
        self.assertEqual(len(texts), len(Error))
        error = lr.LemonrudderError(-10)
        self.assertIs(error.number, Error.ROOM)
        self.assertIn("LR_E_ROOM", str(error))

    def test_errors_have_names(self):
        for number in Error:
            self.assertEqual(lr.LemonrudderError(number).name, f"LR_E_{number.name}")
        error = lr.LemonrudderError(-1000)
        self.assertEqual((error.number, error.name), (-1000, "LR_E_UNKNOWN"))
        self.assertIn("(-1000)", str(error))

    def test_exceptions_say_what_they_are(self):
        """In CORBA's terms, also numbers that have no name."""
        for error, text in ((lr.SystemException("INTERNAL", 0, 2), "INTERNAL, minor 0, COMPLETED_MAYBE"),
                            (lr.SystemException("IDL:x:1.0", 7), "IDL:x:1.0, minor 7, COMPLETED_NO"),
                            (lr.SystemException("UNKNOWN", 7, 9), "UNKNOWN, minor 7, COMPLETED_9"),
                            (lr.Refuse("IMP_LIMIT", 3), "IMP_LIMIT, minor 3, COMPLETED_NO")):
            self.assertEqual(str(error), text)
        self.assertEqual(lr.SystemException("INTERNAL", 0, 2).args, ("INTERNAL", 0, lr.Completed.MAYBE))

    def test_versions(self):
        """The module takes the versions that scripts/library.py says."""
        self.assertEqual((".".join(map(str, lr.VERSION)), lr.__version__), (VERSION, VERSION))
        some = [*itertools.product((0, 1, 2), (0, 1, 2), (0, 1, 10))]
        for version, built in itertools.product(some, some):
            texts = [".".join(map(str, each)) for each in (version, built)]
            self.assertEqual(serves_here(version, built), serves(*texts), texts)

    def test_another_version(self):
        """A library of another series is refused by its version."""
        with tempfile.TemporaryDirectory() as folder:
            table = os.path.join(self.package_in(folder), "_table.py")
            with open(table, encoding="utf-8") as file:
                text = file.read()
            major, minor, patch = lr.VERSION
            for version in ((major + 1, minor, patch), (major, minor + 1, patch), (major, minor, patch + 1)):
                with open(table, "w", encoding="utf-8") as file:
                    file.write(text.replace(f"\nVERSION = {lr.VERSION}", f"\nVERSION = {version}"))
                run = subprocess.run([sys.executable, "-B", "-c", "import lemonrudder"], capture_output=True, text=True,
                                     env={**os.environ, "PYTHONPATH": folder}, timeout=SECONDS)
                wanted = ".".join(map(str, version))
                self.assertIn(f"ImportError: {os.environ['LEMONRUDDER_LIBRARY']} is liblemonrudder {VERSION}, and none for "
                              f"{wanted}\n", run.stderr)

    def test_parameters(self):
        """Each function takes its parameters, and no number that one does not hold."""
        held = {"uint16_t": 16, "uint32_t": 32, "uint64_t": 64}
        for name, (_, types) in FUNCTIONS.items():
            function = getattr(native, name)
            self.assertEqual(len(function.argtypes), len(types))
            for place, kind in enumerate(types):
                if kind in held and not name.startswith("lr_put_"):
                    with self.subTest(name, place=place):
                        for number in (-1, 1 << held[kind]):
                            with self.assertRaises(ValueError):
                                function.argtypes[place].from_param(number)
                        self.assertEqual(function.argtypes[place].from_param((1 << held[kind]) - 1).value + 1,
                                         1 << held[kind])

    def test_moments(self):
        self.assertEqual(lr.moment_of(0), 122192928000000000)
        self.assertEqual(lr.moment_of(1234567899), 122192928000000000 + 12345678)
        self.assertEqual(lr.moment_of(10**9 << 63), FAR)
        with self.assertRaises(ValueError):
            lr.moment_of(-1)
        self.assertLess(abs(lr.now() - lr.now()), 10**7)

    def test_the_path(self):
        for path, text in (("/nowhere/liblemonrudder.so", "can't be loaded"), ("", None)):
            words = [sys.executable, "-c", "import lemonrudder"]
            given = {**os.environ, "LEMONRUDDER_LIBRARY": path,
                     "PYTHONPATH": os.path.join(ROOT, "bindings", "python")}
            run = subprocess.run(words, env=given, capture_output=True, text=True, timeout=SECONDS)
            if text:
                self.assertIn(text, run.stderr)
                self.assertIn("ImportError", run.stderr)

    def imported(self, folder):
        """What a program prints that imports the package of a folder, which has the library in it."""
        words = [sys.executable, "-c", "import lemonrudder; print(lemonrudder.type_codes('l'))"]
        given = {name: value for name, value in os.environ.items() if name != "LEMONRUDDER_LIBRARY"}
        run = subprocess.run(words, env={**given, "PYTHONPATH": folder}, capture_output=True, text=True, timeout=SECONDS)
        self.assertEqual(run.stderr, "")
        return run.stdout

    def package_in(self, folder):
        """A copy of the package in a folder, with the library beside it."""
        package = os.path.join(folder, "lemonrudder")
        shutil.copytree(os.path.join(ROOT, "bindings", "python", "lemonrudder"), package)
        shutil.copy(os.environ["LEMONRUDDER_LIBRARY"], os.path.join(package, "liblemonrudder.so"))
        return package

    def test_beside_the_module(self):
        with tempfile.TemporaryDirectory() as folder:
            self.package_in(folder)
            self.assertEqual(self.imported(folder), "b'\\x06'\n")

    def test_installed(self):
        """pip installs the package with its library and the mark of its types, without a registry."""
        tools = [it for it in (sys.executable, "/usr/bin/python3") if os.path.exists(it) and not subprocess.run(
            [it, "-c", "import setuptools, wheel, pip"], capture_output=True, timeout=SECONDS).returncode]
        if not tools:
            self.skipTest(NEEDS + "pip, setuptools and wheel")
        with tempfile.TemporaryDirectory() as source, tempfile.TemporaryDirectory() as folder:
            self.package_in(source)
            shutil.copy(os.path.join(ROOT, "bindings", "python", "pyproject.toml"), source)
            subprocess.run([tools[0], "-m", "pip", "install", "-q", "--no-index", "--no-deps", "--no-build-isolation",
                            "--target", folder, source], check=True, capture_output=True, timeout=SECONDS)
            self.assertTrue(os.path.exists(os.path.join(folder, "lemonrudder", "py.typed")))
            self.assertEqual(self.imported(folder), "b'\\x06'\n")

    @needs("mypy")
    def test_types(self):
        """The types of the package are right, strictly, and those of the examples over it."""
        package = os.path.join(ROOT, "bindings", "python")
        examples = sorted(glob.glob(os.path.join(ROOT, "examples", "*.py")))
        for words in (["--strict", os.path.join(package, "lemonrudder")], ["--ignore-missing-imports", *examples]):
            run = subprocess.run(["mypy", "--cache-dir", os.devnull, *words], env={**os.environ, "MYPYPATH": package},
                                 capture_output=True, text=True, timeout=SECONDS)
            self.assertEqual(run.returncode, 0, run.stdout + run.stderr)

    @needs("mypy", "omniidl")
    def test_types_of_idl(self):
        """So are those of what is made of IDL, with references, and enumerators named like what an int has."""
        names = [name for name in dir(int) if not name.startswith("_") and name != "is_integer"]
        text = f"""
            enum Kind {{ value, {", ".join(names)} }};
            interface Named {{ readonly attribute string title; }};
            struct Pair {{ Kind what; Named who; sequence<double> reals; }};
            interface Desk : Named {{ Pair get(in Kind what, out Named who); Named find(in string key); }};
        """
        with tempfile.TemporaryDirectory() as folder:
            path = os.path.join(folder, "desk.idl")
            with open(path, "w", encoding="ascii") as file:
                file.write(text)
            subprocess.run([tool("omniidl"), "-p", os.path.join(ROOT, "idl"), "-blemonrudder", "-Wbpython",
                            f"-C{folder}", path], check=True, timeout=SECONDS)
            run = subprocess.run(["mypy", "--cache-dir", os.devnull, "--strict", os.path.join(folder, "desk_idl.py")],
                                 env={**os.environ, "MYPYPATH": os.path.join(ROOT, "bindings", "python")},
                                 capture_output=True, text=True, timeout=SECONDS)
            self.assertEqual(run.returncode, 0, run.stdout + run.stderr)
