"""Tests anys of what omniidl makes of IDL by the backend of idl/lemonrudder, in each language, against omniORB.

What an any has is made and judged by omniORB, and passed on in between: in arguments, results, exceptions, structs,
sequences and unions. Rows of octets, as CORBA 3.3 Part 2, 9.3.5.1 has them, say what each kind is in either order, and
what is none.
"""
from __future__ import annotations

import asyncio
import functools
import os
import struct
import sys
import time
import unittest
from collections.abc import Callable
from typing import Any

from tests import base
from tests.embed import idl_rust_test, idl_test
from tests.embed.idl_c_test import words_of
from tests.embed.idl_rust_test import KIT, TOKIO
from tests.embed.idl_test import EMBED, FOLDER, ORB, backend, compiled, idl, lr, made, run, serving
from tests.programs import ROOT, needs, tool

BOX = """
module Pass {
  struct Point { short x; double y; };
  typedef sequence<Point> Points;
  enum Hue { red, green, blue };
  union Pick switch (long) { case 1: string text; case 2: Point spot; default: octet other; };
  union Wide switch (long long) { case -1: case -7000000000: long long big; case 5: Hue colour; };
  struct Node;
  typedef sequence<Node> Nodes;
  struct Node { string name; Nodes children; };
  typedef double Grid[2][3];
  typedef sequence<string> Names;
  typedef sequence<octet> Octets;
  typedef sequence<long long> Longs;
  typedef Hue Tint;
  typedef Tint Tints[3];
  struct Tuple { Tints few; Octets empty; Longs none; boolean is_it; Pick picked; any inner; };
  struct Held { octet tag; any one; sequence<any> more; };
  union Either switch (boolean) { case TRUE: any one; case FALSE: long number; };
  exception Bad { octet why; any what; };
  interface Box {
    Names known(in boolean are_basic);
    any make(in string name);
    boolean check(in string name, in any one);
    any turn(in any one, inout any two, out any three);
    Held hold(in Held one);
    Either pick(in Either one);
    void fail(in octet why, in any what) raises (Bad);
    attribute any kept;
  };
};
"""
BASICS = ["boolean", "char", "octet", "short", "ushort", "long", "ulong", "longlong", "ulonglong", "float", "double",
          "string"]
OTHERS = ["null", "void", "bounded", "struct", "structs", "text of a union", "struct of a union", "default of a union",
          "union by 64 bits", "enum", "recursion", "array", "strings", "octets", "longs", "nested", "anys", "reference",
          "TypeCode", "aliases", "fixed"]
# how often each any comes back as it went, and whether an any of a basic type is read and made
SAID = [*(f"{name} 9" for name in BASICS + OTHERS), *(f"of {name} 1 1" for name in BASICS)]
ENDPOINT = ("-ORBendPoint", "giop:tcp:127.0.0.1:")
# how many seconds hostile octets may take, on a busy machine
MOST_SECONDS = 60


# ---- octets by hand ----

class Out:
    """Octets of CDR in an order, `>` or `<`, whose first one stands at a place."""

    def __init__(self, order: str, at: int = 0) -> None:
        self.order, self.at, self.octets = order, at, b""

    def put(self, code: str, *values: Any) -> Out:
        """Numbers, each of which is aligned by its size."""
        for value in values:
            size = struct.calcsize(code)
            self.octets += bytes(-(self.at + len(self.octets)) % size) + struct.pack(self.order + code, value)
        return self

    def text(self, *texts: str) -> Out:
        for text in texts:
            self.put("I", len(text) + 1)
            self.octets += text.encode("ascii") + b"\0"
        return self

    def raw(self, octets: bytes) -> Out:
        self.octets += octets
        return self

    def within(self, inner: Out) -> Out:
        """An encapsulation, which is in its own order."""
        return self.put("I", len(inner.octets)).raw(inner.octets)


def capsule(order: str = ">") -> Out:
    """What is in an encapsulation: the octet of its order is there."""
    return Out(order).raw(b"\1" if order == "<" else b"\0")


Put = Callable[[Out], object]
SHORT, LONG, USHORT, DOUBLE, BOOLEAN, CHAR, OCTET, ANY, TYPECODE = 2, 3, 4, 7, 8, 9, 10, 11, 12
PRINCIPAL, OBJREF, STRUCT, UNION, ENUM, STRING, SEQUENCE, ARRAY, ALIAS, EXCEPT = range(13, 23)
LONGLONG, LONGDOUBLE, WCHAR, WSTRING, FIXED = 23, 25, 26, 27, 28


def list_of(kind: int, member: Put, count: int, order: str = ">") -> Put:
    """The TypeCode of a sequence or an array."""
    inner = capsule(order)
    member(inner)
    inner.put("I", count)
    return lambda out: out.put("I", kind).within(inner)


def struct_of(*members: Put, kind: int = STRUCT, order: str = ">") -> Put:
    inner = capsule(order).text("IDL:S:1.0", "S").put("I", len(members))
    for member in members:
        member(inner.text("m"))
    return lambda out: out.put("I", kind).within(inner)


def union_of(switch: Put, code: str, default: int, *members: tuple[int, Put], order: str = ">") -> Put:
    inner = capsule(order).text("IDL:U:1.0", "U")
    switch(inner)
    inner.put("i", default).put("I", len(members))
    for label, member in members:
        member(inner.put(code, label).text("m"))
    return lambda out: out.put("I", UNION).within(inner)


def enum_of(names: int) -> Put:
    inner = capsule("<").text("IDL:E:1.0", "E").put("I", names).text(*("n" * names))
    return lambda out: out.put("I", ENUM).within(inner)


def basic(kind: int) -> Put:
    return lambda out: out.put("I", kind)


def alias_of(member: Put, order: str = ">") -> Put:
    inner = capsule(order).text("IDL:A:1.0", "A")
    member(inner)
    return lambda out: out.put("I", ALIAS).within(inner)


# the TypeCode of Pass::Node as omniORB has it, behind its kind, the length of its encapsulation, which is in little
# endian: an indirection goes 152 octets back, to its kind
NODE = bytes.fromhex(
    "01000000" "12000000" "49444c3a506173732f4e6f64653a312e3000" "0000" "05000000" "4e6f646500" "000000" "02000000"
    "05000000" "6e616d6500" "000000" "12000000" "00000000" "09000000" "6368696c6472656e00" "000000" "15000000" "40000000"
    "01000000" "13000000" "49444c3a506173732f4e6f6465733a312e3000" "00" "06000000" "4e6f64657300" "0000" "13000000"
    "10000000" "01000000" "ffffffff" "68ffffff" "00000000")


def node(out: Out) -> object:
    return out.put("I", STRUCT).put("I", len(NODE)).raw(NODE)


def tree(out: Out, depth: int, width: int) -> Out:
    """Nodes in nodes."""
    out.text("n").put("I", width if depth else 0)
    for _ in range(width if depth else 0):
        tree(out, depth - 1, width)
    return out


# each kind of TypeCode, and a value of it
KINDS: dict[str, tuple[Put, Put]] = {
    "null": (basic(0), lambda out: out),
    "void": (basic(1), lambda out: out),
    "short": (basic(SHORT), lambda out: out.put("h", -2)),
    "double": (basic(DOUBLE), lambda out: out.put("d", 1.25)),
    "boolean": (basic(BOOLEAN), lambda out: out.put("B", 1)),
    "long long": (basic(LONGLONG), lambda out: out.put("q", -3)),
    "long double": (basic(LONGDOUBLE), lambda out: out.put("Q").raw(
        bytes(-(out.at + len(out.octets)) % 8)).raw(bytes(range(16))[::1 if out.order == ">" else -1])),
    "Principal": (basic(PRINCIPAL), lambda out: out.put("I", 3).raw(b"abc")),
    "wide character": (basic(WCHAR), lambda out: out.put("B", 2).raw(b"\x20\xac")),
    "wide string": (lambda out: out.put("I", WSTRING, 0), lambda out: out.put("I", 4).raw(b"\0a\0b")),
    "string": (lambda out: out.put("I", STRING, 0), lambda out: out.text("ab")),
    "string that fills its bound": (lambda out: out.put("I", STRING, 2), lambda out: out.text("ab")),
    "string of no octets": (lambda out: out.put("I", STRING, 2), lambda out: out.put("I", 0)),
    "fixed of 5 digits": (lambda out: out.put("I", FIXED).put("H", 5).put("h", 2), lambda out: out.raw(b"\x12\x34\x5c")),
    "fixed of 4 digits": (lambda out: out.put("I", FIXED).put("H", 4).put("h", -1), lambda out: out.raw(b"\x01\x23\x4d")),
    "nil": (lambda out: out.put("I", OBJREF).within(capsule("<").text("", "Object")),
            lambda out: out.text("").put("I", 0)),
    "reference": (lambda out: out.put("I", OBJREF).within(capsule().text("IDL:I:1.0", "I")),
                  lambda out: out.text("IDL:I:1.0").put("I", 2, 0, 3).raw(b"abc").put("I", 9, 0)),
    "struct": (struct_of(basic(SHORT), basic(DOUBLE), basic(OCTET)), lambda out: out.put("h", 1).put("d", 2.5).put("B", 3)),
    "struct in little endian": (struct_of(basic(OCTET), basic(LONG), order="<"), lambda out: out.put("B", 1).put("i", -2)),
    "exception": (struct_of(basic(LONG), kind=EXCEPT), lambda out: out.text("IDL:S:1.0").put("i", 7)),
    "empty struct": (struct_of(), lambda out: out),
    "enum": (enum_of(3), lambda out: out.put("I", 2)),
    "sequence of octets": (list_of(SEQUENCE, basic(OCTET), 0), lambda out: out.put("I", 3).raw(b"abc")),
    "sequence of doubles": (list_of(SEQUENCE, basic(DOUBLE), 2, "<"), lambda out: out.put("I", 2).put("d", 0.5, -0.5)),
    "empty sequence of doubles": (list_of(SEQUENCE, basic(DOUBLE), 0), lambda out: out.put("I", 0)),
    "sequence of strings": (list_of(SEQUENCE, lambda out: out.put("I", STRING, 0), 0),
                            lambda out: out.put("I", 2).text("a", "bcde")),
    "array of arrays": (list_of(ARRAY, list_of(ARRAY, basic(USHORT), 3), 2, "<"),
                        lambda out: out.put("H", 1, 2, 3, 4, 5, 6)),
    "alias of an alias": (alias_of(alias_of(basic(SHORT)), "<"), lambda out: out.put("h", 77)),
    "union by a label": (union_of(basic(LONGLONG), "q", -1, (-5, basic(CHAR)), (1 << 40, basic(LONG))),
                         lambda out: out.put("q", 1 << 40).put("i", 9)),
    "union by none": (union_of(basic(LONGLONG), "q", -1, (-5, basic(CHAR)), order="<"), lambda out: out.put("q", 5)),
    "union by default": (union_of(basic(SHORT), "h", 0, (0, basic(DOUBLE)), (2, basic(OCTET))),
                         lambda out: out.put("h", 0).put("d", 9.0)),
    "union by its own label": (union_of(enum_of(4), "I", 1, (2, basic(DOUBLE)), (2, basic(OCTET)), (3, basic(SHORT))),
                               lambda out: out.put("I", 3).put("h", -9)),
    "union by an alias": (union_of(alias_of(basic(BOOLEAN)), "B", -1, (1, basic(LONG)), order="<"),
                          lambda out: out.put("B", 1).put("i", 4)),
    "any": (basic(ANY), lambda out: out.put("I", DOUBLE).put("d", 6.5)),
    "any of an any": (basic(ANY), lambda out: out.put("I", ANY, STRING, 0).text("deep")),
    "TypeCode": (basic(TYPECODE), lambda out: struct_of(basic(LONG), order="<")(out)),
    "TypeCode of a string": (basic(TYPECODE), lambda out: out.put("I", STRING, 9)),
    "recursion": (node, lambda out: tree(out, 3, 2)),
    "recursion 60 deep": (node, lambda out: tree(out, 60, 1)),
}


def any_of(name: str, order: str, at: int) -> bytes:
    """An any of a kind, behind what aligns it."""
    out = Out(order, at).put("I")
    for put in KINDS[name]:
        put(out.raw(bytes(-(at + len(out.octets)) % 4)) if not out.octets else out)
    return out.octets


def nest(inner: bytes, count: int, kind: int = SEQUENCE) -> bytes:
    """TypeCodes in TypeCodes, in big endian."""
    for _ in range(count):
        body = b"\0\0\0\0" + inner + struct.pack(">I", 0)
        inner = struct.pack(">II", kind, len(body)) + body
    return inner


def big(*parts: Any) -> bytes:
    """Octets in big endian: numbers of 32 bits, and octets as they are."""
    return b"".join(part if isinstance(part, bytes) else struct.pack(">I", part % (1 << 32)) for part in parts)


def written(*puts: Put) -> bytes:
    out = Out(">")
    for put in puts:
        put(out)
    return out.octets


def back_to(offset: int) -> Put:
    """An indirection by so many octets."""
    return lambda out: out.put("I", 0xffffffff).put("i", offset)


def of_itself(make: Callable[[Put], Put]) -> bytes:
    """A type with an indirection to its own front."""
    start = written(make(back_to(-4))).index(b"\xff\xff\xff\xff") + 4
    return written(make(back_to(-start)))


def doubled(levels: int) -> bytes:
    """Structs that have no octets, each of which has the one before it twice, by an indirection."""
    found = struct_of()
    for _ in range(levels):
        inner = capsule().text("IDL:S:1.0", "S").put("I", 2).text("m")
        start = len(inner.octets) + -len(inner.octets) % 4
        found(inner)
        inner.text("m").put("I", 0xffffffff)
        inner.put("i", start - len(inner.octets))
        found = functools.partial(lambda inner, out: out.put("I", STRUCT).within(inner), inner)
    return written(found)


ENDLESS = 0xffffffff
# what is no any, in big endian
HOSTILE: dict[str, bytes] = {
    "nothing": b"",
    "a kind that is cut off": b"\0\0\0",
    "a bound that is missing": big(STRING),
    "an encapsulation that is cut off": big(STRUCT, 100, b"\0\0\0\0"),
    "an encapsulation of endless octets": big(STRUCT, ENDLESS, b"\0\0\0\0"),
    "an encapsulation of none": big(STRUCT, 0),
    "an encapsulation in no order": big(SEQUENCE, 12, b"\2\0\0\0", OCTET, 0, 0),
    "a TypeCode's text that is endless": big(ALIAS, 12, b"\0\0\0\0", ENDLESS, 0),
    "a TypeCode's text without an end": big(ALIAS, 20, b"\0\0\0\0", 4, b"abcd", 1, b"\0\0\0\0"),
    "a TypeCode's text that ends twice": big(ALIAS, 24, b"\0\0\0\0", 3, b"a\0\0\0", 1, b"\0\0\0\0", LONG, 0),
    "endless members": big(STRUCT, 24, b"\0\0\0\0", 1, b"\0\0\0\0", 1, b"\0\0\0\0", ENDLESS),
    **{f"the kind {kind}": big(kind, 8, 0, 0, 0, 0) for kind in (29, 30, 31, 32, 33, 36, 37, 0x7fffffff, 0xfffffffe)},
    "an indirection at the front": big(ENDLESS, -4),
    "an indirection at the front to before it": big(ENDLESS, -8),
    "an indirection of nothing": big(ENDLESS, 0),
    "an alias of itself": of_itself(alias_of) + bytes(64),
    "an alias of an alias of itself": of_itself(lambda one: alias_of(alias_of(one))) + bytes(64),
    "an alias of what is before all": written(alias_of(back_to(-1000))) + bytes(64),
    "an indirection as far back as it goes": written(alias_of(back_to(-1 << 31))) + bytes(64),
    "an indirection forward": written(struct_of(back_to(16), basic(LONG))) + bytes(64),
    "an indirection into a text": written(struct_of(basic(LONG), back_to(-40))) + bytes(64),
    "an indirection to an odd place": written(struct_of(basic(LONG), back_to(-17))) + bytes(64),
    "a struct in itself": of_itself(lambda one: struct_of(basic(OCTET), one)) + bytes(4096),
    "an array of itself": of_itself(lambda one: list_of(ARRAY, one, 1)) + bytes(64),
    "a union by itself": of_itself(lambda one: union_of(one, "I", -1)) + bytes(64),
    "a union by an alias of it": of_itself(lambda one: alias_of(union_of(one, "I", -1))) + bytes(64),
    "a union in itself": of_itself(lambda one: union_of(basic(OCTET), "B", 0, (0, one))) + bytes(4096),
    "a union by a double": written(union_of(basic(DOUBLE), "d", -1, (0, basic(LONG)))) + bytes(64),
    "a union by a string": written(union_of(lambda out: out.put("I", STRING, 0), "I", -1)) + bytes(64),
    "a union without its default member": written(union_of(basic(LONG), "i", 1, (0, basic(LONG)))) + bytes(64),
    "a union with a default member below -1": written(union_of(basic(LONG), "i", -2, (0, basic(LONG)))) + bytes(64),
    "TypeCodes 200 deep": nest(big(OCTET), 200) + bytes(64),
    "TypeCodes 20000 deep": nest(big(OCTET), 20000) + bytes(64),
    "anys 200 deep": big(*[ANY] * 200, 0),
    "anys 100000 deep": big(*[ANY] * 100000, 0),
    "sequences in sequences, 200 deep": of_itself(lambda one: list_of(SEQUENCE, one, 0)) + big(*[1] * 200, 0),
    "structs of no octets, twice in each other": doubled(40),
    "nulls without end": written(list_of(SEQUENCE, basic(0), 0)) + big(ENDLESS),
    "an array of nulls without end": written(list_of(ARRAY, basic(0), ENDLESS)),
    "arrays of empty structs": written(list_of(ARRAY, list_of(ARRAY, struct_of(), 1 << 16), 1 << 16)),
    "octets without end": written(list_of(SEQUENCE, basic(OCTET), 0)) + big(ENDLESS, 0),
    "doubles without end": written(list_of(SEQUENCE, basic(DOUBLE), 0)) + big(ENDLESS, 0),
    "more than a bound": written(list_of(SEQUENCE, basic(OCTET), 2)) + big(3, b"abc"),
    "a string without end": big(STRING, 0, ENDLESS, b"ab"),
    "a string without a NUL": big(STRING, 0, 2, b"ab"),
    "a string beyond its bound": big(STRING, 2, 4, b"abc\0"),
    "an enum beyond its names": written(enum_of(3), lambda out: out.put("I", 3)),
    "a fixed of 32 digits": big(FIXED, b"\0\x20\0\0", bytes(17)),
    "a fixed that is cut off": big(FIXED, b"\0\x05\0\0", bytes(2)),
    "profiles without end": written(KINDS["nil"][0]) + big(1, b"\0\0\0\0", ENDLESS),
    "a long double that is cut off": big(LONGDOUBLE, 0, 0, 0, 0),
    "a wide character that is cut off": big(WCHAR, b"\2a"),
    "a struct that is cut off": written(struct_of(basic(SHORT), basic(LONG)), lambda out: out.put("h", 1)),
    "an any of no any": big(ANY, ENDLESS, -4),
}


# ---- in Python alone ----

class Octets(unittest.TestCase):
    """Anys of each kind, by their octets, in Python."""

    def both(self, name: str, order: str, at: int) -> tuple[idl.Any, int]:
        octets = any_of(name, order, at)
        reader = lr.Reader(octets + b"more", order == "<", at)
        read = idl.any_.read(reader)
        self.assertEqual(reader.next, len(octets))
        self.assertEqual((read.type + read.octets, read.order, read.at), (octets[-at % 4:], order == "<", (at + 3) // 4 * 4 % 8))
        return read, len(octets)

    @base.each(lambda: [(name, name) for name in KINDS])
    def test_kinds(self, name: str) -> None:
        """An any ends where its value does, and is written so in any order and at any place."""
        for order in "><":
            for at in range(8):
                read, _ = self.both(name, order, at)
                for other in "><":
                    for place in range(8):
                        with self.subTest((order, at, other, place)):
                            writer = lr.Writer(other == "<", place)
                            idl.any_.write(writer, read)
                            self.assertEqual(writer.octets, any_of(name, other, place))

    @base.each(HOSTILE.items)
    def test_hostile(self, octets: bytes) -> None:
        """What is no any is refused, soon."""
        began = time.process_time()
        with self.assertRaises((ValueError, lr.LemonrudderError)):
            idl.any_.read(lr.Reader(octets))
        self.assertLess(time.process_time() - began, MOST_SECONDS)

    def test_short(self) -> None:
        """Each any that is cut off is none."""
        for name in KINDS:
            octets = any_of(name, ">", 0)
            for size in range(len(octets)):
                with self.subTest(name, size=size), self.assertRaises(ValueError):
                    idl.any_.read(lr.Reader(octets[:size]))

    def test_values(self) -> None:
        """An any is made of a value of a basic type, and no other one, and read as such."""
        self.assertEqual(idl.Any.of(idl.string(3), "abc").type, big(STRING, 3))
        self.assertEqual(idl.Any.of(idl.double, 0.5), idl.Any(big(DOUBLE), bytes(4) + struct.pack(">d", 0.5)))
        self.assertIsNone(idl.Any().value())
        self.assertEqual(idl.Any.of(idl.boolean, True).value(), True)
        for type, value, error in ((idl.short, 1 << 15, ValueError), (idl.string(2), "abc", ValueError),
                                   (idl.sequence(idl.long), [1], TypeError), (idl.char, 5, TypeError)):
            with self.subTest(value), self.assertRaises(error):
                idl.Any.of(type, value)
        alias, _ = self.both("alias of an alias", "<", 4)
        self.assertEqual((alias.kind, alias.value()), (SHORT, 77))
        point, _ = self.both("struct", "<", 4)
        self.assertRaises(TypeError, point.value)
        self.assertEqual(point.reader().read("hdB"), (1, 2.5, 3))

    def test_null(self) -> None:
        """An any that is new is null."""
        writer = lr.Writer()
        idl.any_.write(writer, idl.Any())
        self.assertEqual(writer.octets, bytes(4))

    def test_made(self) -> None:
        """Octets that are no value of their TypeCode are refused where they are written anew."""
        for octets in (b"", b"\0\1", bytes(5)):
            with self.subTest(octets), self.assertRaises(ValueError):
                idl.any_.write(lr.Writer(1), idl.Any(big(LONG), octets))


# ---- in each language ----

def source(name: str) -> str:
    return os.path.join(EMBED, f"idl_any{name}")


def in_python() -> list[str]:
    """The words that run the box in Python."""
    found = os.pathsep.join([FOLDER.name, os.path.join(ROOT, "bindings", "python")])
    run(tool("mypy"), "--strict", source(".py"), env={**os.environ, "MYPYPATH": found})
    return ["env", f"PYTHONPATH={found}", sys.executable, source(".py")]


def in_cpp() -> list[str]:
    return [compiled("g++", "box_cpp", source(".cpp"))]


def in_c() -> list[str]:
    return words_of("gcc, sanitized", "box_c", source(".c"), flags=[os.path.join(FOLDER.name, "box_idl.c")])


def in_rust() -> list[str]:
    idl_rust_test.want_tokio()
    with open(source(".rs"), encoding="utf-8") as file:
        return [KIT.built(KIT.package("box", file.read(), TOKIO, box=BOX), "box")]


WAYS = {"Python": in_python, "C++": in_cpp, "C": in_c, "Rust": in_rust}


@functools.lru_cache(maxsize=None)
def words_in(way: Callable[[], list[str]]) -> list[str]:
    """The words that run a box, which is compiled once."""
    path = os.path.join(FOLDER.name, "box.idl")
    made("box", BOX)
    for language in ("cpp", "c"):
        backend(path, language)
    return way()


@functools.lru_cache(maxsize=None)
def omniorb() -> str:
    """The box over omniORB."""
    made("box", BOX)
    program = os.path.join(FOLDER.name, "omniorb_box")
    run(tool("omniidl"), "-bcxx", "-Wba", f"-C{FOLDER.name}", os.path.join(FOLDER.name, "box.idl"))
    stubs = [os.path.join(FOLDER.name, f"box{end}") for end in ("SK.cc", "DynSK.cc")]
    run("g++", "-w", "-O0", f"-I{FOLDER.name}", source(".cc"), *stubs, *ORB, "-o", program)
    return program


@needs("omniidl", "g++", "gcc", "mypy", "cargo-clippy")
class Boxes(unittest.TestCase):
    """A box in each language, and over omniORB."""

    @base.each(WAYS.items)
    def test_served(self, way: Any) -> None:
        """What omniORB sends comes back to it, and what a client in Python passes on, which is in the other order."""
        python = words_in(in_python)
        with serving(*words_in(way), "serve") as reference, serving(omniorb(), *ENDPOINT) as judge:
            self.assertEqual(run(omniorb(), "ask", reference).splitlines(), SAID)
            self.assertEqual(run(*python, "ask", reference, judge).splitlines(), SAID)

    @base.each(WAYS.items)
    def test_called(self, way: Any) -> None:
        """What omniORB makes is passed on to it again."""
        with serving(omniorb(), *ENDPOINT) as reference:
            self.assertEqual(run(*words_in(way), "ask", reference).splitlines(), SAID)

    @base.each(WAYS.items)
    def test_rows(self, way: Any) -> None:
        """Anys of each kind come back in the order of the reply, and where they stand there; what is none is refused."""
        with serving(*words_in(way), "serve") as reference:
            asyncio.run(self.rows(reference))

    async def rows(self, reference: str) -> None:
        async with lr.Client.of(lr.Ior.parse(reference)) as client:
            # (an any that is new is null)
            self.assertEqual((await client.call_raw(client.key, "_get_kept", b"")).octets, bytes(4))
            for name in KINDS:
                for order in "><":
                    with self.subTest(name, order=order):
                        await self.passed(client, name, order)
            for name, octets in HOSTILE.items():
                with self.subTest(name), self.assertRaises(lr.SystemException) as caught:
                    await client.call_raw(client.key, "_set_kept", octets)
                self.assertEqual((caught.exception.name, caught.exception.completed), ("MARSHAL", lr.Completed.NO))
            # (it serves still)
            await self.passed(client, "struct", ">")

    async def passed(self, client: lr.Client, name: str, order: str) -> None:
        """An any comes back as a result, and by an exception, where it stands at another place."""
        await client.call_raw(client.key, "_set_kept", any_of(name, order, 0), order=order == "<")
        kept = await client.call_raw(client.key, "_get_kept", b"")
        self.assertEqual(kept.octets, any_of(name, "><"[kept.order], kept.at))
        with self.assertRaises(lr.UserException) as caught:
            await client.call_raw(client.key, "fail", b"\7" + any_of(name, order, 1), order=order == "<")
        # (it stands behind the id of the exception)
        body = caught.exception.body
        self.assertEqual(body.octets, b"\7" + any_of(name, "><"[body.order], body.at + 1))


if __name__ == "__main__":
    unittest.main()
