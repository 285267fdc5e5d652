"""Checks `giop trace --types`: arguments, results and exceptions by name.

- A table of types by hand, one that omniidl makes of examples/bank.idl, and those of interfaces at random
  (tests/embed/idl_types.py) are read here; of each operation values are made at random, and written into requests and
  replies. What is to be printed of them is said here by those values, in lines and as JSON.
- Each line of a table that is at fault is refused, by its number.
"""
from __future__ import annotations

import itertools
import json
import os
import random
import re
import struct
import subprocess
import tempfile
import unittest
from dataclasses import dataclass, field
from typing import Any

from tests import base, giop, programs
from tests.cdr import BIG, LITTLE, Octets
from tests.embed import idl_types

SEED = 20261130
NUMBERS = {"octet": (1, "B"), "short": (2, "h"), "ushort": (2, "H"), "long": (4, "i"), "ulong": (4, "I"),
           "longlong": (8, "q"), "ulonglong": (8, "Q")}
REALS = {"float": (4, "f"), "double": (8, "d")}
# so many elements are printed, so many octets, and no more elements behind so many characters
ELEMENTS, OCTETS, CHARACTERS = 64, 256, 16_384
HEAD = "giop-types 1\n"
# how many random tests there are of a table
ROUNDS = 4


@dataclass
class Union:
    switch: Any
    cases: list[tuple[int | None, str, Any]] = field(default_factory=list)

    def chosen(self, label: int) -> tuple[str, Any] | None:
        found = [one for one in self.cases if one[0] == label] or [one for one in self.cases if one[0] is None]
        return found[0][1:] if found else None


@dataclass
class Struct:
    members: list[tuple[str, Any]] = field(default_factory=list)


@dataclass
class Enum:
    names: list[str] = field(default_factory=list)


@dataclass
class Operation:
    name: str
    arguments: list[tuple[str, Any]] = field(default_factory=list)
    results: list[tuple[str, Any]] = field(default_factory=list)
    raises: list[str] = field(default_factory=list)


PROFILE = Struct([("tag", "ulong"), ("profile_data", ("sequence", "octet", None))])
REFERENCE = Struct([("type_id", ("string", None)), ("profiles", ("sequence", PROFILE, None))])


class Table:
    """A table of types, as docs/IDL.md has it."""

    def __init__(self, text: str) -> None:
        self.declared: dict[str, Any] = {}
        self.exceptions: dict[str, Struct] = {}
        self.operations: list[Operation] = []
        assert text.startswith(HEAD)
        for line in text.splitlines()[1:]:
            if line and not line.startswith("#"):
                self.take(*line.split(" "))

    def take(self, word: str, *words: str) -> None:
        if word == "struct":
            self.last = self.declared[words[0]] = Struct()
        elif word == "exception":
            self.last = self.exceptions[words[0]] = Struct()
        elif word == "enum":
            self.last = self.declared[words[0]] = Enum()
        elif word == "union":
            self.last = self.declared[words[0]] = Union(self.type(words[1:]))
        elif word == "member":
            self.last.members.append((words[0], self.type(words[1:])))
        elif word == "name":
            self.last.names.append(words[0])
        elif word == "case":
            self.last.cases.append((int(words[0]), words[1], self.type(words[2:])))
        elif word == "default":
            self.last.cases.append((None, words[0], self.type(words[1:])))
        elif word == "operation":
            self.operations.append(Operation(words[0]))
        elif word in ("in", "out"):
            of = self.operations[-1]
            (of.arguments if word == "in" else of.results).append((words[0], self.type(words[1:])))
        elif word == "raises":
            self.operations[-1].raises.append(words[0])
        else:
            assert word in ("interface", "base", "oneway"), word

    def type(self, words: Any) -> Any:
        first, _, bound = words[0].partition(":")
        found: Any = first
        if words[0].startswith("@"):
            found = self.declared[words[0][1:]]
        elif first == "string":
            found = ("string", int(bound) if bound else None)
        elif first == "object":
            found = REFERENCE
        for word in words[1:]:
            how, _, size = word.partition(":")
            found = (how, found, int(size) if size else None)
        return found


def made(dice: random.Random, of: Any) -> Any:
    """A value of a type at random."""
    if isinstance(of, Struct):
        return [made(dice, member) for _, member in of.members]
    if isinstance(of, Enum):
        return dice.randrange(len(of.names))
    if isinstance(of, Union):
        labels = [label for label, _, _ in of.cases if label is not None]
        label = dice.choice(labels) if labels and dice.random() < 0.8 else made(dice, of.switch)
        label = label == 1 if of.switch == "boolean" else label
        chosen = of.chosen(int(label))
        return label, None if chosen is None else made(dice, chosen[1])
    if isinstance(of, tuple) and of[0] == "string":
        most = of[1] or dice.choice([9, 30, 400])
        return bytes(dice.choice([dice.randint(1, 255), 34, 92, 97]) for _ in range(dice.randint(0, most)))
    if isinstance(of, tuple):
        count = of[2] if of[0] == "array" else min(dice.choice([0, 1, 3, 5, 70, 300]), of[2] or 70)
        return [made(dice, of[1]) for _ in range(count)]
    if of == "boolean":
        return dice.random() < 0.5
    if of == "char":
        return dice.randint(0, 255)
    size, form = {**NUMBERS, **REALS}[of]
    octets = dice.choice([bytes(size), b"\xff" * size, dice.getrandbits(8 * size).to_bytes(size, "little")])
    return struct.unpack("<" + form, octets)[0]


def put(out: Octets, of: Any, value: Any) -> None:
    """Appends a value in CDR."""
    if isinstance(of, Struct):
        for (_, member), one in zip(of.members, value):
            put(out, member, one)
    elif isinstance(of, Enum):
        out.ulong(value)
    elif isinstance(of, Union):
        put(out, of.switch, value[0])
        chosen = of.chosen(int(value[0]))
        if chosen is not None:
            put(out, chosen[1], value[1])
    elif isinstance(of, tuple) and of[0] == "string":
        out.string(value)
    elif isinstance(of, tuple):
        if of[0] == "sequence":
            out.ulong(len(value))
        for one in value:
            put(out, of[1], one)
    elif of in ("boolean", "char"):
        out.octet(int(value))
    else:
        out.number(*{**NUMBERS, **REALS}[of], value)


def text_of(octets: bytes) -> str:
    return "".join(chr(one) if 32 <= one < 127 and one != 92 else f"\\x{one:02x}" for one in octets)


def real(of: str, value: float) -> str | None:
    """A float that is not finite, as a word."""
    return "NaN" if value != value else "inf" if value > 1e308 * 10 else "-inf" if value < -1e308 * 10 else None


class Words:
    """What is to be printed of values in a line. Floats stand there as `float:DIGITS`, which `same` compares."""

    def __init__(self) -> None:
        self.all = ""

    def value(self, of: Any, value: Any) -> None:
        if isinstance(of, Struct):
            self.all += "{"
            self.members(of.members, value)
            self.all += "}"
        elif isinstance(of, Enum):
            self.all += of.names[value]
        elif isinstance(of, Union):
            self.all += "{"
            self.value(of.switch, value[0])
            chosen = of.chosen(int(value[0]))
            if chosen is not None:
                self.all += f": {chosen[0]} = "
                self.value(chosen[1], value[1])
            self.all += "}"
        elif isinstance(of, tuple) and of[0] == "string":
            cut = f" .. {len(value)} octets" if len(value) > OCTETS else ""
            self.all += '"' + text_of(value[:OCTETS]).replace('"', "\\x22") + '"' + cut
        elif isinstance(of, tuple) and of[:2] == ("sequence", "octet"):
            cut = f" .. {len(value)} octets" if len(value) > OCTETS else ""
            self.all += (bytes(value[:OCTETS]).hex() or "-") + cut
        elif isinstance(of, tuple):
            self.elements(of[1], value)
        elif of == "boolean":
            self.all += str(value).lower()
        elif of == "char":
            self.all += "'" + text_of(bytes([value])).replace("'", "\\x27") + "'"
        elif of in REALS:
            self.all += real(of, value) or f"<{struct.pack('<' + REALS[of][1], value).hex()}>"
        else:
            self.all += str(value)

    def elements(self, of: Any, values: list) -> None:
        self.all += "["
        for i, one in enumerate(values):
            between = ", " if i else ""
            if i >= ELEMENTS or self.long():
                self.all += f", .. {len(values)}"
                break
            self.all += between
            self.value(of, one)
        self.all += "]"

    def long(self) -> bool:
        return len(self.all) >= CHARACTERS

    def members(self, members: list, values: list) -> None:
        for i, ((name, of), one) in enumerate(zip(members, values)):
            self.all += (", " if i else "") + name + " = "
            self.value(of, one)


def plain(of: Any, value: Any) -> Any:
    """What is to be printed of a value as JSON."""
    if isinstance(of, Struct):
        return {name: plain(member, one) for (name, member), one in zip(of.members, value)}
    if isinstance(of, Enum):
        return of.names[value]
    if isinstance(of, Union):
        chosen = of.chosen(int(value[0]))
        found = {"case": plain(of.switch, value[0])}
        return found if chosen is None else {**found, "member": chosen[0], "value": plain(chosen[1], value[1])}
    if isinstance(of, tuple) and of[0] == "string":
        return text_of(value[:OCTETS]) + (f" .. {len(value)} octets" if len(value) > OCTETS else "")
    if isinstance(of, tuple) and of[:2] == ("sequence", "octet"):
        return (bytes(value[:OCTETS]).hex() or "-") + (f" .. {len(value)} octets" if len(value) > OCTETS else "")
    if isinstance(of, tuple):
        return [plain(of[1], one) for one in value[:ELEMENTS]] + [f".. {len(value)}"] * (len(value) > ELEMENTS)
    if of == "char":
        return text_of(bytes([value]))
    if of in REALS:
        return real(of, value) or {"float": Single, "double": Real}[of](value)
    return value


class Real(float):
    """A float, which is the same as one whose digits are fewer."""

    form = "d"

    def __eq__(self, other: object) -> bool:
        return isinstance(other, (int, float)) and struct.pack(self.form, self) == struct.pack(self.form, other)

    __hash__ = float.__hash__


class Single(Real):
    form = "f"


def listed(before: str, members: list, values: list, behind: str) -> str:
    words = Words()
    words.all = before
    words.members(members, values)
    return words.all + behind


def same(wanted: str, line: str) -> bool:
    """Whether a line is the one that is wanted, whatever digits its floats have. Of a line with floats that may be cut
    only the beginning is compared: their digits decide where."""
    parts, is_cut = re.split("<((?:[0-9a-f]{8}){1,2})>", wanted), False
    if len(parts) > 1 and len(wanted) >= CHARACTERS // 2:
        ends = itertools.accumulate(map(len, parts))
        parts, is_cut = [part for part, end in zip(parts, ends) if end < CHARACTERS // 4], True
    form = "".join("([-+.0-9e]+)" if i % 2 else re.escape(part) for i, part in enumerate(parts))
    found = re.match(form, line) if is_cut else re.fullmatch(form, line)
    return found is not None and all(
        struct.pack("<f" if len(digits) == 8 else "<d", float(text)).hex() == digits
        for digits, text in zip(parts[1::2], found.groups()))


class Session:
    """Requests and replies of the operations of a table, and what is to be printed of each."""

    def __init__(self, dice: random.Random, table: Table, rounds: int) -> None:
        self.dice, self.table, self.lines, self.objects, self.sent = dice, table, [], [], []
        for _ in range(rounds):
            for operation in table.operations:
                self.call(operation)

    def send(self, side: str, message: bytes, line: str, of: Any) -> None:
        self.sent.append(side + message.hex())
        self.lines.append(line)
        self.objects.append(of)

    def body(self, members: list, values: list) -> Any:
        return lambda out: [put(out, of, one) for (_, of), one in zip(members, values)]

    def call(self, operation: Operation) -> None:
        number, minor = len(self.sent) + 1, self.dice.randrange(3)
        frame = {"minor": minor, "order": self.dice.choice([BIG, LITTLE])}
        values = [made(self.dice, of) for _, of in operation.arguments]
        self.send("", giop.request(number, b"k", operation.name, self.body(operation.arguments, values), **frame),
                  listed(operation.name + "(", operation.arguments, values, ")"), (operation.arguments, values))
        if operation.raises and self.dice.random() < 0.3:
            self.raise_one(number, self.dice.choice(operation.raises), frame)
        else:
            self.answer(number, operation, frame)

    def answer(self, number: int, operation: Operation, frame: dict) -> None:
        values = [made(self.dice, of) for _, of in operation.results]
        told, rest, held = "=", operation.results, values
        if rest and rest[0][0] == "-":
            words = Words()
            words.all = "= "
            words.value(rest[0][1], values[0])
            told, rest, held = words.all, rest[1:], values[1:]
        if rest or told == "=":
            told = listed(told + " (", rest, held, ")")
        self.send("\t", giop.reply(number, self.body(operation.results, values), **frame), told,
                  (operation.results, values))

    def raise_one(self, number: int, name: str, frame: dict) -> None:
        members = self.table.exceptions[name].members
        values = [made(self.dice, of) for _, of in members]
        self.send("\t", giop.reply(number, self.body([("", ("string", None)), *members], [name.encode(), *values]),
                                   status=giop.USER_EXCEPTION, **frame),
                  listed(f"raised {name} {{", members, values, "}"), (members, values))

    def given(self) -> bytes:
        return ("\n".join(self.sent) + "\n").encode()


HAND = HEAD + """# of each type
enum E
name red
name green
struct P
member x long
member name string:20
union U ushort
case 1 one @E
case 2 two @P
case 3 two @P
default rest octet sequence array:3
union N boolean
case 1 there double
exception X
exception Y
member code short
member who @P
interface I
operation all
in truth boolean
in letter char
in small octet
in a short
in b ushort
in c long
in d ulong
in e longlong
in f ulonglong
in g float
in h double
out - @E
out back string
raises X
raises Y
operation made
in union @U
in maybe @N
in points @P sequence
in grid short array:2 array:3
in digits octet sequence:300
in it object
out both @U sequence:2
interface J
base I
operation none
operation tell
oneway
in what string
"""
TWICE = HEAD + """interface A
operation get
in at octet
out - long
interface B
operation get
in at ulong
out - string
"""
# a table that is refused, and the line that is
REFUSED = [
    ("giop-types 2\n", 1), ("", 1), ("giop-types 1 \n", 1), (HEAD + "tables\n", 2), (HEAD + "member x long\n", 2),
    (HEAD + "operation o\n", 2), (HEAD + "struct S\nmember x long\noperation o\n", 4),
    (HEAD + "struct S\nmember x @T\n", 3), (HEAD + "struct S\nmember x @S\n", 3), (HEAD + "struct S\ninterface I\n", 2),
    (HEAD + "interface I\noperation o\nin x any\n", 4), (HEAD + "interface I\noperation o\nin x:y long\n", 4),
    (HEAD + "interface I\noperation o\nin x long array:0\n", 4),
    (HEAD + "interface I\noperation o\nin x string:x\n", 4),
    (HEAD + "interface I\noperation o\nin x  long\n", 4), (HEAD + "interface I\noperation o\nin - long\n", 4),
    (HEAD + "interface I\noperation o\nin x long\tarray:2\n", 4), (HEAD + "enum E\nname a\nenum E\nname b\n", 4),
    (HEAD + "exception E\nexception E\n", 3), (HEAD + "enum E\n# nothing\n", 2),
    (HEAD + "union U long\ncase 1 a long\ncase 1 b long\n", 2), (HEAD + "union U octet\ncase 1 a long\n", 2),
    (HEAD + "union U boolean\ncase 2 a long\n", 2), (HEAD + "union U long\ndefault a long\ndefault b long\n", 4),
    (HEAD + "interface I\noperation o\nin x long" + " array:2" * 65 + "\n", 4),
    (HEAD + "struct S0\nmember x long\n" + "".join(
        f"struct S{n}\nmember x @S{n - 1}\n" for n in range(1, 90)), 129),
    (HEAD + "struct S0\n" + "member x long\n" + "".join(
        f"struct S{n}\nmember x @S{n - 1}\nmember y @S{n - 1}\n" for n in range(1, 40)), 50),
]


def made_of(path: str) -> str:
    """The table that omniidl makes of a file."""
    programs.tool("omniidl")
    with tempfile.TemporaryDirectory() as folder:
        words = ["-p", os.path.join(programs.ROOT, "idl"), "-blemonrudder", "-Wbtypes", f"-C{folder}", path]
        subprocess.run(["omniidl", *words], check=True, capture_output=True)
        with open(os.path.join(folder, os.path.basename(path)[:-len(".idl")] + ".types"), encoding="ascii") as file:
            return file.read()


def idl_of(dice: random.Random) -> str:
    """An interface at random, over types at random."""
    kinds, lines = idl_types.random_types(dice.getrandbits(32), 12)
    for number, kind in enumerate(kinds):
        lines.append(f"exception X{number} {{ {kind.idl} held; }};")
    lines.append("interface I {")
    for number, kind in enumerate(kinds):
        other = dice.choice(kinds)
        back = dice.choice(["void", kind.idl, "string", "Object"])
        lines.append(f"  {back} o{number}(in {kind.idl} a, inout {other.idl} b, out {kind.idl} c) raises (X{number});")
    return "\n".join([*lines, "};"]) + "\n"


class Typed(unittest.TestCase):
    """What is printed of messages by a table of types."""

    @classmethod
    def setUpClass(cls) -> None:
        cls.giop = programs.program("GIOP")

    def traced(self, table: str, given: bytes, *words: str) -> subprocess.CompletedProcess:
        """The trace of an input by the types of a table."""
        with tempfile.TemporaryDirectory() as folder:
            path = os.path.join(folder, "a.types")
            with open(path, "w", encoding="ascii") as file:
                file.write(table)
            return base.ran(self.giop, "trace", "--types", path, *words, given=given)

    def told(self, table: str, given: bytes) -> list[str]:
        """The lines that the types tell."""
        run = self.traced(table, given)
        self.assertEqual((run.returncode, run.stderr), (0, b""))
        return [line[2:] for line in run.stdout.decode().splitlines() if line.startswith("  ")]

    def check(self, dice: random.Random, table: str, rounds: int) -> None:
        """Each value of requests and replies at random is printed, in lines and as JSON."""
        session = Session(dice, Table(table), rounds)
        lines = self.told(table, session.given())
        self.assertEqual(len(lines), len(session.lines))
        for line, wanted in zip(lines, session.lines):
            self.assertTrue(same(wanted, line), f"{wanted}\n{line}")
        run = self.traced(table, session.given(), "--json")
        objects = [json.loads(line) for line in run.stdout.splitlines()]
        for one, (members, values) in zip((one for one in objects if one["line"] == "message"), session.objects):
            if len(json.dumps(one["values"])) < CHARACTERS:
                self.assertEqual(one["values"], {name: plain(of, value) for (name, of), value in zip(members, values)})

    @base.each_seed(SEED, ROUNDS)
    def test_each_type(self, seed: int) -> None:
        """A table by hand, which has each type."""
        self.check(random.Random(seed), HAND, 6)

    def test_first_that_fits(self) -> None:
        """Of two interfaces with the operation the first whose types fit is taken; where none fits, that is said."""
        sent = [giop.request(1, b"k", "get", b"\x07"), giop.request(2, b"k", "get", b"\0\0\0\x07"),
                giop.request(3, b"k", "get", b"\0\x07"), giop.request(4, b"k", "put", b"\0\x07")]
        answers = [giop.reply(1, b"\xff\xff\xff\xff"), giop.reply(2, b"\0\0\0\x02a\0"), giop.reply(3), giop.reply(4)]
        given = "".join(f"{one.hex()}\n" for one in sent) + "".join(f"\t{one.hex()}\n" for one in answers)
        self.assertEqual(self.told(TWICE, given.encode()), [
            "get(at = 7)", "get(at = 7)", "types do not fit", "= -1", '= "a"', "types do not fit"])
        objects = [json.loads(line) for line in self.traced(TWICE, given.encode(), "--json").stdout.splitlines()]
        self.assertEqual([one.get("values", 0) for one in objects[1:-1]],
                         [{"at": 7}, {"at": 7}, None, 0, {"-": -1}, {"-": "a"}, None, 0])

    def test_interface_of_the_request(self) -> None:
        """A reply is not of an interface whose arguments are not those of its request; where they fit more than one, each
        that is left is tried."""
        table = HEAD + "".join(f"interface {name}\noperation get\n{at}out - {to}\n" for name, at, to in [
            ("A", "in at octet\n", "long"), ("B", "in at ulong\n", "ulong"), ("C", "in at long\n", "string")])
        sent = [giop.request(number, b"k", "get", bytes(size)) for number, size in ((1, 1), (2, 4), (3, 4), (4, 4))]
        answers = [giop.reply(1, b"\xff\xff\xff\xff"), giop.reply(2, b"\xff\xff\xff\xff"),
                   giop.reply(3, b"\0\0\0\x02a\0"), giop.reply(4, b"\xff")]
        given = "".join(f"{one.hex()}\n" for one in sent) + "".join(f"\t{one.hex()}\n" for one in answers)
        self.assertEqual(self.told(table, given.encode()), [
            "get(at = 0)", "get(at = 0)", "get(at = 0)", "get(at = 0)",
            "= -1", "= 4294967295", '= "a"', "types do not fit"])

    def test_operations_of_all_objects(self) -> None:
        """Those that each ORB answers itself are known without the table."""
        ask = giop.request(1, b"k", "_is_a", lambda out: out.string("IDL:A:1.0"))
        given = f"{ask.hex()}\n\t{giop.reply(1, bytes([1])).hex()}\n".encode()
        self.assertEqual(self.told(HEAD, given), ['_is_a(logical_type_id = "IDL:A:1.0")', "= true"])

    @base.each(lambda: [(str(at), one) for at, one in enumerate(REFUSED)])
    def test_refused(self, refused: tuple[str, int]) -> None:
        """A table that is at fault is refused, by the line."""
        table, number = refused
        run = self.traced(table, b"")
        self.assertEqual((run.returncode, run.stdout), (1, b""))
        self.assertRegex(run.stderr.decode(), rf"\Agiop: \S+ line {number}: [^\n]+\n\Z")

    def test_no_table(self) -> None:
        """A table that can't be read is refused as a file is."""
        run = base.ran(self.giop, "trace", "--types", "/there/is/none")
        self.assertEqual((run.returncode, run.stdout), (2, b""))
        self.assertRegex(run.stderr.decode(), r"\Ainput: /there/is/none: [^\n]+\n\Z")

    def test_bank(self) -> None:
        """The table that omniidl makes of examples/bank.idl."""
        table = made_of(os.path.join(programs.ROOT, "examples", "bank.idl"))
        dice = random.Random(SEED)
        self.check(dice, table, 20)
        ask = giop.request(1, b"k", "deposit", lambda out: (out.string("alice"), out.longlong(5)))
        raised = giop.reply(1, lambda out: (out.string("IDL:Bank/Overdrawn:1.0"), out.longlong(3)),
                            status=giop.USER_EXCEPTION)
        self.assertEqual(self.told(table, f"{ask.hex()}\n\t{raised.hex()}\n".encode()), [
            'deposit(account = "alice", amount = 5)', "raised IDL:Bank/Overdrawn:1.0 {balance = 3}"])

    @base.each_seed(SEED, ROUNDS)
    def test_any_interface(self, seed: int) -> None:
        """The table that omniidl makes of an interface at random."""
        dice = random.Random(seed)
        with tempfile.TemporaryDirectory() as folder:
            path = os.path.join(folder, "some.idl")
            with open(path, "w", encoding="ascii") as file:
                file.write(idl_of(dice))
            table = made_of(path)
        self.check(dice, table, 4)


if __name__ == "__main__":
    unittest.main()
