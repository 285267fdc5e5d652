"""Random anys, and what they have, by octets of CDR that the library has no part in.

How a TypeCode is written CORBA 3.3 Part 2, 9.3.5.1 has.
"""
from __future__ import annotations

import random
import struct
from collections.abc import Callable
from typing import Any

from tests.embed import idl_types
from tests.embed.idl_any_test import (
    BOOLEAN, CHAR, DOUBLE, LONG, LONGLONG, OCTET, SEQUENCE, SHORT, STRING, STRUCT, USHORT, Out, Put, basic, list_of, struct_of)
from tests.embed.idl_test import lr

FLOAT, ULONG, ULONGLONG = 6, 5, 24
# of each basic type its kind, and its code in the module struct
KINDS = {"short": (SHORT, "h"), "long": (LONG, "i"), "unsigned short": (USHORT, "H"), "unsigned long": (ULONG, "I"),
         "float": (FLOAT, "f"), "double": (DOUBLE, "d"), "boolean": (BOOLEAN, "?"), "char": (CHAR, "c"),
         "octet": (OCTET, "B"), "long long": (LONGLONG, "q"), "unsigned long long": (ULONGLONG, "Q")}
CODES = dict(KINDS.values())
TYPES = {one.idl: one for one in idl_types.BASICS}
# how deep structs stand in each other, and how many members these and sequences have
DEPTH, LONG_ONES = 2, 3


def plain(dice: random.Random) -> tuple[Put, Put]:
    """The TypeCode of a basic type, and a value of it."""
    name = dice.choice(list(KINDS))
    kind, code = KINDS[name]
    value = TYPES[name].value(dice, None)
    return basic(kind), lambda out: out.put(code, value.encode("latin-1") if name == "char" else value)


def text(dice: random.Random) -> tuple[Put, Put]:
    octets = idl_types.text(0).value(dice, None).encode("latin-1") + b"\0"
    bound = dice.choice([0, len(octets) + 1])
    return lambda out: out.put("I", STRING, bound), lambda out: out.put("I", len(octets)).raw(octets)


def longs(dice: random.Random) -> tuple[Put, Put]:
    values = [TYPES["long"].value(dice, None) for _ in range(dice.randint(0, LONG_ONES))]
    return list_of(SEQUENCE, basic(LONG), 0, dice.choice("<>")), lambda out: out.put("I", len(values)).put("i", *values)


def record(dice: random.Random, depth: int) -> tuple[Put, Put]:
    members = [typed(dice, depth + 1) for _ in range(dice.randint(1, LONG_ONES))]
    types = struct_of(*(type for type, _ in members), order=dice.choice("<>"))
    return types, lambda out: [value(out) for _, value in members]


def typed(dice: random.Random, depth: int = 0) -> tuple[Put, Put]:
    """A TypeCode, and a value of it."""
    ways: list[Callable[[random.Random], tuple[Put, Put]]] = [plain, text, longs, lambda dice: record(dice, depth)]
    return dice.choice(ways[:2] if depth == DEPTH else ways)(dice)


def random_any(dice: random.Random) -> lr.idl.Any:
    """An any of a basic type, a string, a sequence of longs, or a struct of such ones, in either order; or null."""
    type, value = typed(dice) if dice.random() < 0.95 else (basic(0), lambda out: None)
    order, at = dice.choice("<>"), dice.choice((0, 4))
    out = Out(order, at)
    type(out)
    size = len(out.octets)
    value(out)
    return lr.idl.Any(out.octets[:size], out.octets[size:], int(order == "<"), at)


class In:
    """Octets of CDR in an order, whose first one stands at a place."""

    def __init__(self, octets: bytes, order: str, at: int) -> None:
        self.octets, self.order, self.at, self.next = octets, order, at, 0

    def get(self, code: str) -> Any:
        """A number, which is aligned by its size."""
        size = struct.calcsize(code)
        self.next += -(self.at + self.next) % size + size
        return struct.unpack_from(self.order + code, self.octets, self.next - size)[0]

    def take(self) -> bytes:
        """Octets behind their number."""
        count = self.get("I")
        self.next += count
        return self.octets[self.next - count:self.next]

    def within(self) -> In:
        """An encapsulation."""
        octets = self.take()
        inner = In(octets, "><"[octets[0]], 0)
        inner.next = 1
        return inner

    def code(self) -> tuple[Any, ...]:
        """A TypeCode."""
        kind = self.get("I")
        if kind == STRING:
            return kind, self.get("I")
        if kind not in (SEQUENCE, STRUCT):
            return (kind,)
        inner = self.within()
        if kind == SEQUENCE:
            return kind, inner.code(), inner.get("I")
        return kind, inner.take(), inner.take(), [(inner.take(), inner.code()) for _ in range(inner.get("I"))]

    def value(self, code: tuple[Any, ...]) -> Any:
        """A value of a TypeCode."""
        if code[0] == STRING:
            return self.take()
        if code[0] == SEQUENCE:
            return [self.value(code[1]) for _ in range(self.get("I"))]
        if code[0] == STRUCT:
            return [self.value(one) for _, one in code[3]]
        return self.get(CODES[code[0]]) if code[0] else None


def said(one: lr.idl.Any) -> tuple[Any, Any]:
    """The TypeCode of an any of these, and its value."""
    octets = In(one.type + one.octets, "><"[one.order], one.at)
    code = octets.code()
    return code, octets.value(code)
