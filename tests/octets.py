"""Compares what tests/giop.py writes and reads with octets that were written out by hand, and with recordings.

The recordings are messages of omniORB and Combat: those of tests/follow and of tests/cases/show. The rows of tests/rows
are by hand, too.
"""
from __future__ import annotations

import os
import re
import unittest
from collections.abc import Iterator

from tests import base, giop, rows
from tests.cdr import BIG, LITTLE, Octets, Reading, encapsulated, encapsulation
from tests.programs import HERE

KINDS = ["Request", "Reply", "CancelRequest", "LocateRequest", "LocateReply", "CloseConnection", "MessageError"]
WISHES = {giop.NONE: "none", giop.EMPTY: "empty", giop.FULL: "full"}
STATUSES = {
    giop.REPLY: ["NO_EXCEPTION", "USER_EXCEPTION", "SYSTEM_EXCEPTION", "LOCATION_FORWARD", "LOCATION_FORWARD_PERM",
                 "NEEDS_ADDRESSING_MODE"],
    giop.LOCATED: ["UNKNOWN_OBJECT", "OBJECT_HERE", "OBJECT_FORWARD", "OBJECT_FORWARD_PERM", "LOC_SYSTEM_EXCEPTION",
                   "LOC_NEEDS_ADDRESSING_MODE"],
}
LONG = "IDL:omg.org/CORBA/MARSHAL:1.0"
# FT_REQUEST of the client `A`, 1, 100: its octets in either order
FT = {
    BIG: "00 eeeeee 00000002 4100 eeee 00000001 0000000000000064",
    LITTLE: "01 eeeeee 02000000 4100 eeee 01000000 6400000000000000",
}
# -2, 3, -3, 4, -5 and 6 as a short, an unsigned short, a long and so on, after an octet at a place of 5
VALUES = {
    BIG: "01 fffe 0003 0000 fffffffd 00000004 00000000 fffffffffffffffb 0000000000000006 00000002 4100",
    LITTLE: "01 feff 0300 0000 fdffffff 04000000 00000000 fbffffffffffffff 0600000000000000 02000000 4100",
}
# messages that are written: how, and the octets
WRITTEN = {
    "a Request of 1.0": (
        lambda: giop.request(5, b"c", "add", b"\0\0\0\7", minor=0, principal=b"me"),
        "47494f50 01000000 00000026 00000000 00000005 01 000000 00000001 63 000000 00000004 61646400 00000002 6d65"
        "00000007"),
    "a Request of 1.1 without a Reply, in little order": (
        lambda: giop.request(5, b"c", "add", wish=giop.NONE, minor=1, order=LITTLE, contexts=[(9, b"\5")]),
        "47494f50 01010100 2c000000 01000000 09000000 01000000 05 000000 05000000 00 000000 01000000 63 000000"
        "04000000 61646400 00000000"),
    "a Request of 1.2 whose body begins at a multiple of 8": (
        lambda: giop.request(5, b"c", "add", lambda out: out.long(7), wish=giop.EMPTY),
        "47494f50 01020000 00000028 00000005 01 000000 0000 0000 00000001 63 000000 00000004 61646400 00000000"
        "00000000 00000007"),
    "a Request of 1.2 without a body": (
        lambda: giop.request(5, b"c", "add"),
        "47494f50 01020000 00000020 00000005 03 000000 0000 0000 00000001 63 000000 00000004 61646400 00000000"),
    "a Request of 1.2 with FT_REQUEST": (
        lambda: giop.request(5, b"c", "add", lambda out: out.long(7), contexts=[giop.ft_request("A", 1, 100)]),
        "47494f50 01020000 00000048 00000005 03 000000 0000 0000 00000001 63 000000 00000004 61646400"
        "00000001 0000000d 00000018 00 000000 00000002 41000000 00000001 0000000000000064 00000000 00000007"),
    "a Request of 1.2 by a profile": (
        lambda: giop.request(5, (giop.BY_PROFILE, (0, b"\1\2\3")), "o", order=LITTLE),
        "47494f50 01020100 24000000 05000000 03 000000 0100 0000 00000000 03000000 010203 00 02000000 6f00 0000"
        "00000000"),
    "a Reply of 1.0": (
        lambda: giop.reply(6, b"\1", minor=0, order=LITTLE),
        "47494f50 01000101 0d000000 00000000 06000000 00000000 01"),
    "a Reply of 1.1 with a user exception": (
        lambda: giop.reply(6, lambda out: out.string("X"), status=giop.USER_EXCEPTION, minor=1),
        "47494f50 01010001 00000012 00000000 00000006 00000001 00000002 5800"),
    "a Reply of 1.2": (
        lambda: giop.reply(6, lambda out: out.longlong(7)),
        "47494f50 01020001 00000014 00000006 00000000 00000000 0000000000000007"),
    "a Reply of 1.2 with a context": (
        lambda: giop.reply(6, b"\1\2", contexts=[(9, b"\5")]),
        "47494f50 01020001 0000001e 00000006 00000000 00000001 00000009 00000001 05 000000 00000000 0102"),
    "a Reply of 1.2 without a body": (
        lambda: giop.reply(6), "47494f50 01020001 0000000c 00000006 00000000 00000000"),
    "a system exception": (
        lambda: giop.system_exception(5, "MARSHAL", giop.MAYBE),
        "47494f50 01020001 00000038 00000005 00000002 00000000"
        f"0000001e {LONG.encode().hex()} 00 0000 00000000 00000002"),
    "a CancelRequest": (lambda: giop.cancel(7, minor=1, order=LITTLE), "47494f50 01010102 04000000 07000000"),
    "a LocateRequest of 1.0": (
        lambda: giop.locate(1, b"c", minor=0, order=LITTLE), "47494f50 01000103 09000000 01000000 01000000 63"),
    "a LocateRequest of 1.2": (
        lambda: giop.locate(1, b"c"), "47494f50 01020003 0000000d 00000001 0000 0000 00000001 63"),
    "a LocateReply": (
        lambda: giop.located(1, giop.OBJECT_HERE), "47494f50 01020004 00000008 00000001 00000001"),
    "a CloseConnection": (lambda: giop.CLOSE_CONNECTION, "47494f50 01000005 00000000"),
    "a MessageError": (lambda: giop.MESSAGE_ERROR, "47494f50 01000006 00000000"),
}


def octets(digits: str) -> bytes:
    return bytes.fromhex(digits)


def stream_of(path: str) -> Iterator[bytes]:
    """The octets of each direction in a file of digits, of each connection by itself.

    The lines of the side that accepted begin with a tab.
    """
    found: dict = {}
    connection = 0
    with open(path, encoding="ascii") as lines:
        for line in lines:
            connection += line.startswith("Follow")
            if re.fullmatch(r"\t?[0-9a-f ]+\n", line):
                side = (connection, line.startswith("\t"))
                found[side] = found.get(side, b"") + octets(line)
    yield from found.values()


def messages_of(path: str) -> Iterator[tuple[str, bytes]]:
    """The messages of a file of digits, each in one frame, by a name."""
    number = 0
    for stream in stream_of(path):
        for whole in giop.joined(giop.frames_of(stream)):
            number += 1
            yield f"{os.path.basename(path)}, message {number}", whole


def recordings() -> Iterator[tuple[str, bytes]]:
    """All messages that other ORBs sent."""
    shown = os.path.join(HERE, "cases", "show")
    paths = [os.path.join(HERE, "follow", name) for name in sorted(os.listdir(os.path.join(HERE, "follow")))]
    paths += [os.path.join(shown, name) for name in sorted(os.listdir(shown)) if name.startswith("recording_")]
    for path in paths:
        if path.endswith((".txt", ".stdin")):
            yield from messages_of(path)


def shown() -> Iterator[tuple[str, tuple[bytes, list[str]]]]:
    """The recordings of which tests/cases has the lines that say what they are: the octets, and the lines."""
    folder = os.path.join(HERE, "cases", "show")
    for name in sorted(os.listdir(folder)):
        if name.startswith("recording_") and name.endswith(".stdin"):
            with open(os.path.join(folder, name.replace(".stdin", ".stdout")), encoding="ascii") as file:
                lines = file.read().splitlines()
            with open(os.path.join(folder, name), encoding="ascii") as file:
                yield name, (octets(file.read()), lines)


def read_rows() -> Iterator[tuple[str, tuple[bytes, list[str]]]]:
    """The rows of tests/rows whose streams end well: where each stands, the octets, and the lines."""
    for name in rows.files():
        for place, (stream, lines) in rows.streams_in(name):
            if lines and lines[-1].startswith("end "):
                yield place, (stream, lines)


def without_gaps(whole: bytes, said: giop.Message) -> bytes:
    """A message with zeros for all octets that mean nothing."""
    left = bytearray(whole)
    for gap in said.gaps:
        left[gap.start:gap.stop] = bytes(len(gap))
    return bytes(left)


def written(said: giop.Message) -> bytes:
    """The message that says this, written anew."""
    how = {"minor": said.minor, "order": said.order}
    # (where octets stand before a body that has none, what writes it writes nothing)
    body = said.body or (None if not said.gaps or not said.gaps[-1] else lambda out: None)
    if said.kind == giop.REQUEST:
        return giop.request(said.request_id, said.target, said.operation, body, wish=said.wish,
                            contexts=said.contexts, principal=said.principal or b"", **how)
    if said.kind == giop.REPLY:
        return giop.reply(said.request_id, body, status=said.status, contexts=said.contexts, **how)
    if said.kind == giop.CANCEL:
        return giop.cancel(said.request_id, **how)
    if said.kind == giop.LOCATE:
        return giop.locate(said.request_id, said.target, **how)
    if said.kind == giop.LOCATED:
        return giop.located(said.request_id, said.status, **how)
    return giop.message(said.kind, b"", **how)


def target_words(target: tuple) -> str:
    """A target as `giop show` prints it."""
    how, what = target
    if how == giop.BY_KEY:
        return f"key {what.hex() or '-'}"
    return f"profile {what[0]} {what[1].hex() or '-'}" if how == giop.BY_PROFILE else f"reference {what[0]}"


def ft_words(held: bytes) -> str:
    """What FT_REQUEST says, as `giop show` prints it."""
    try:
        ft = giop.ft_of(held)
    except ValueError:
        return "bad"
    return f"client {ft.client.decode()} retention {ft.number} expiration {ft.expiration}"


def lines_of(said: giop.Message) -> Iterator[str]:
    """A message as `giop show` prints it."""
    words = [f"1.{said.minor} {'big' if said.order == BIG else 'little'} {KINDS[said.kind]}"]
    for name, value in (("id", said.request_id), ("reply", WISHES.get(said.wish))):
        words += [] if value is None else [f"{name} {value}"]
    words += [target_words(said.target)] if said.target else []
    words += [f"operation {said.operation.decode()}"] if said.operation is not None else []
    words += [f"status {STATUSES[said.kind][said.status]}"] if said.status is not None else []
    words += [f"body {said.body.hex() or '-'}"] if said.kind in (giop.REQUEST, giop.REPLY, giop.LOCATED) else []
    yield " ".join(words)
    for number, held in said.contexts:
        yield f"  context {number} {held.hex() or '-'}"
    held = [held for number, held in said.contexts if number == giop.FT_REQUEST]
    if said.kind == giop.REQUEST and held:
        yield f"  ft {ft_words(held[0])}"


class Written(unittest.TestCase):
    """What is written, by the layouts of the standard."""

    @base.each(lambda: WRITTEN.items())
    def test_messages(self, given):
        """Each message is written as it was by hand."""
        made, digits = given
        self.assertEqual(made().hex(), octets(digits).hex())

    def test_values(self):
        """Each number is aligned by its place, in either order; the first octet stands at a place of 5."""
        for order, digits in VALUES.items():
            out = Octets(5, order)
            out.octet(1)
            for put, number in ((out.short, -2), (out.ushort, 3), (out.long, -3), (out.ulong, 4), (out.longlong, -5),
                                (out.ulonglong, 6)):
                put(number)
            out.string("A")
            with self.subTest(order):
                self.assertEqual(out.all.hex(), octets(digits).hex())
                reading = Reading(out.all, order, begin=5)
                got = [reading.octet(), reading.short(), reading.ushort(), reading.long(), reading.ulong(),
                       reading.number(8, "q"), reading.ulonglong(), reading.string()]
                self.assertEqual(got, [1, -2, 3, -3, 4, -5, 6, b"A"])

    def test_ft_request(self):
        """FT_REQUEST in either order."""
        for order, digits in FT.items():
            with self.subTest(order):
                held = octets(digits)
                self.assertEqual(giop.ft_of(held), giop.Ft(b"A", 1, 100))
                number, made = giop.ft_request(b"A", 1, 100, order)
                self.assertEqual((number, made.hex()), (13, digits.replace(" ", "").replace("ee", "00")))

    def test_fragments(self):
        """A message of 1.2 in three frames, whose later ones have the id, and one of 1.1 in two, which have not."""
        whole = octets("47494f50 01020001 00000014 00000006 00000000 00000000 0000000000000007")
        frames = giop.cut(whole, [4, 8])
        self.assertEqual([frame.hex(" ", 4) for frame in frames], [
            "47494f50 01020201 00000004 00000006", "47494f50 01020207 0000000c 00000006 00000000 00000000",
            "47494f50 01020007 0000000c 00000006 00000000 00000007"])
        self.assertEqual(list(giop.joined(frames)), [whole])
        older = giop.reply(6, b"12345678", minor=1, order=LITTLE)
        frames = giop.cut(older, [12])
        self.assertEqual(frames[0].hex(" ", 4), "47494f50 01010301 0c000000 00000000 06000000 00000000")
        self.assertEqual(frames[1].hex(" ", 4), "47494f50 01010107 08000000 31323334 35363738")
        self.assertEqual(list(giop.joined(frames)), [older])
        self.assertEqual(giop.cut(whole, [20]), [whole])

    def test_references(self):
        """A reference to the counter at port 2809, and the same in little order."""
        text = ("IOR:000000000000001049444c3a436f756e7465723a312e30000000000100000000000000200001020000"
                "00000a3132372e302e302e31000af9000000016300000000000000")
        counter = giop.Reference(b"IDL:Counter:1.0", 2, b"127.0.0.1", 2809, b"c")
        self.assertEqual(counter.text(), text)
        self.assertEqual(giop.reference_of(text), counter)
        # (the profile is of 1.0 and has no components)
        little = ("IOR: 01 000000 02000000 4100 0000 01000000 00000000 11000000"
                  "01 01 00 00 02000000 6800 f90a 01000000 63")
        self.assertEqual(giop.reference_of(little.replace(" ", "")), giop.Reference(b"A", 0, b"h", 2809, b"c"))


class Read(unittest.TestCase):
    """What is read, by recordings of other ORBs."""

    @base.each(recordings)
    def test_recordings(self, whole):
        """What is read of a message and written anew are its octets, but for those that mean nothing."""
        said = giop.read(whole)
        self.assertEqual(written(said).hex(), without_gaps(whole, said).hex())

    def says(self, stream, lines):
        """The messages of a stream say what these lines say, of which the last one is about its end."""
        said = [line for whole in giop.joined(giop.frames_of(stream)) for line in lines_of(giop.read(whole))]
        self.assertEqual(said, lines[:-1])

    @base.each(shown)
    def test_shown(self, given):
        """A recording says what its lines say, which were written by another reader."""
        self.says(*given)

    @base.each(read_rows)
    def test_rows(self, given):
        """So does each row whose stream ends well, which was written by hand."""
        self.says(*given)

    def test_what_is_none(self):
        """Octets that are cut off, or no frame, are refused."""
        whole = giop.request(5, b"c", "add")
        for some in (whole[:-1], whole + b"\0", b"GIOQ" + whole[4:]):
            self.assertRaises(ValueError, giop.read, some)
        self.assertRaises(ValueError, giop.read, giop.message(giop.REQUEST, bytes(3)))
        self.assertRaises(ValueError, Reading(b"\0\0\0\2ab").string)
        self.assertRaises(ValueError, giop.reference_of, "corbaloc::h/c")

    def test_encapsulations(self):
        """An encapsulation is read in its own order."""
        for order in (BIG, LITTLE):
            out = encapsulation(order)
            out.ulonglong(5)
            self.assertEqual(len(out.all), 16)
            self.assertEqual(encapsulated(out.all).ulonglong(), 5)
