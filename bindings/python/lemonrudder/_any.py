"""Anys: a TypeCode and a value of it, by their octets (CORBA 3.3 Part 2, 9.3.5.1 and 9.3.5.2).

To find where one ends, its value is walked by its TypeCode; so too to write it in another order or at another place,
where it is aligned otherwise. Wide characters are walked as GIOP 1.2 has them.
"""
from __future__ import annotations

import array
import typing
from dataclasses import dataclass
from typing import Callable, Dict, List, Optional, Sequence

from ._cdr import BIG, Reader, Writer
from ._table import Order

# TCKind (CORBA 3.3 Part 2, 9.3.5.1): behind these there are values, native types, and interfaces of other kinds
(NULL, VOID, SHORT, LONG, USHORT, ULONG, FLOAT, DOUBLE, BOOLEAN, CHAR, OCTET, ANY, TYPECODE, PRINCIPAL, OBJREF, STRUCT,
 UNION, ENUM, STRING, SEQUENCE, ARRAY, ALIAS, EXCEPT, LONGLONG, ULONGLONG, LONGDOUBLE, WCHAR, WSTRING, FIXED) = range(29)
INDIRECTION = 0xffffffff
# the sizes of what is a number
SIZES = {SHORT: 2, LONG: 4, USHORT: 2, ULONG: 4, FLOAT: 4, DOUBLE: 8, BOOLEAN: 1, CHAR: 1, OCTET: 1, LONGLONG: 8,
         ULONGLONG: 8}
# .. of what may discriminate a union
LABELS = {kind: size for kind, size in {**SIZES, ENUM: 4}.items() if kind not in (FLOAT, DOUBLE)}
CONSTRUCTED = (OBJREF, STRUCT, UNION, ENUM, SEQUENCE, ARRAY, ALIAS, EXCEPT)
DIGITS = 31
# what Any.of makes, by its format
KINDS = {"?": BOOLEAN, "c": CHAR, "B": OCTET, "h": SHORT, "H": USHORT, "l": LONG, "L": ULONG, "q": LONGLONG,
         "Q": ULONGLONG, "f": FLOAT, "d": DOUBLE, "s": STRING}
FORMATS = {kind: format for format, kind in KINDS.items()}
# how deep types and values stand in others
DEPTH = 128
_NAMES = {Order.BIG: "big", Order.LITTLE: "little"}
_ARRAYS = {2: "H", 4: "I", 8: "Q"}


class _Code:
    """A TypeCode. number: a bound, a length, or how many names or digits there are. parts: the types of what is in it;
    of a union by labels, and one by default."""

    __slots__ = ("kind", "number", "parts", "labels", "default")

    def __init__(self, kind: int) -> None:
        self.kind, self.number = kind, 0
        self.parts: Sequence[_Code] = ()
        self.labels: Dict[int, _Code]
        self.default: Optional[_Code] = None


# those of kinds that have no more than that
_ALIKE = {kind: _Code(kind) for kind in (NULL, VOID, *SIZES, ANY, TYPECODE, PRINCIPAL, LONGDOUBLE, WCHAR)}


def _resolved(code: _Code) -> _Code:
    """A type without its aliases."""
    for _ in range(DEPTH):
        if code.kind != ALIAS or not code.parts:
            return code
        code = code.parts[0]
    raise ValueError("a TypeCode of an alias of itself")


def _deep(depth: int) -> None:
    if depth > DEPTH:
        raise ValueError(f"an any of types more than {DEPTH} deep")


class _Cursor:
    """Reads octets up to an end. origin: where the encapsulation begins, or would, from which they are aligned."""

    def __init__(self, octets: bytes, next: int, end: int, origin: int, order: str) -> None:
        self.octets, self.next, self.end, self.origin, self.order = octets, next, end, origin, order

    def take(self, size: int, alignment: int = 1) -> bytes:
        """So many octets."""
        start = self.next + -(self.next - self.origin) % alignment
        if size > self.end - start:
            raise ValueError("a TypeCode that is cut off")
        self.next = start + size
        return self.octets[start:self.next]

    def number(self, size: int, signed: bool = False) -> int:
        return int.from_bytes(self.take(size, size), self.order, signed=signed)  # type: ignore[arg-type]

    def text(self) -> None:
        size = self.number(4)
        if size and self.take(size).find(0) != size - 1:
            raise ValueError("a TypeCode with a text that has no end")

    def inner(self) -> _Cursor:
        """.. of an encapsulation, behind its octet of the order (9.3.3)."""
        size = self.number(4)
        start = self.next
        if size > self.end - start:
            raise ValueError("a TypeCode that is cut off")
        self.next = start + size
        order = self.octets[start:start + min(size, 1)]
        if order not in (b"\0", b"\1"):
            raise ValueError("a TypeCode in no order")
        return _Cursor(self.octets, start + 1, self.next, start, "little" if order == b"\1" else "big")


class _Parsing:
    """The TypeCodes in one, by the indices at which they begin: an indirection names one of these (9.3.5.1.3)."""

    def __init__(self, claim: Callable[[int], None]) -> None:
        self.claim = claim
        self.found: Dict[int, _Code] = {}

    def code(self, at: _Cursor, depth: int) -> _Code:
        _deep(depth)
        kind = at.number(4)
        start = at.next - 4
        if kind == INDIRECTION:
            found = self.found.get(at.number(4, True) + start + 4)
            if found is None:
                raise ValueError("a TypeCode by an indirection to where none begins")
            return found
        code = self.found[start] = _ALIKE.get(kind) or _Code(kind)
        if kind in CONSTRUCTED:
            self.claim(1)
            self.constructed(code, at.inner(), depth + 1)
        elif kind in (STRING, WSTRING):
            code.number = at.number(4)
        elif kind == FIXED:
            code.number = at.number(2)
            at.number(2)
        if code.number > DIGITS and kind == FIXED or kind > FIXED:
            raise ValueError(f"a TypeCode of the kind {kind}, which can't be passed on")
        return code

    def constructed(self, code: _Code, at: _Cursor, depth: int) -> None:
        """What is in the encapsulation of a TypeCode. (What is behind that, as the names of an enum, has no effect.)"""
        is_list, is_struct = code.kind in (SEQUENCE, ARRAY), code.kind in (STRUCT, EXCEPT)
        code.parts = parts = []
        if not is_list:
            at.text()
            at.text()
        if is_list or code.kind == ALIAS:
            parts.append(self.code(at, depth))
        if code.kind == UNION:
            parts.append(self.union(code, at, depth))
        elif is_list or is_struct or code.kind == ENUM:
            code.number = at.number(4)
        for _ in range(code.number if is_struct else 0):
            self.claim(1)
            at.text()
            parts.append(self.code(at, depth))

    def union(self, code: _Code, at: _Cursor, depth: int) -> _Code:
        """Reads the members of a union, and returns the type of its discriminator."""
        switch = _resolved(self.code(at, depth))
        if switch.kind not in LABELS:
            raise ValueError(f"a TypeCode of a union by the kind {switch.kind}")
        code.labels = {}
        default, count = at.number(4, True), at.number(4)
        if not -1 <= default < count:
            raise ValueError("a TypeCode of a union without its default member")
        for index in range(count):
            self.claim(1)
            label = at.number(LABELS[switch.kind])
            at.text()
            part = self.code(at, depth)
            if index == default:
                code.default = part
            else:
                code.labels.setdefault(label, part)
        return switch


class _Walk:
    """Walks values from a reader; what it passes it writes anew, if there is a writer."""

    def __init__(self, reader: Reader, writer: Optional[Writer] = None) -> None:
        self.reader, self.writer = reader, writer
        self.order = _NAMES[Order(reader._place.order)]
        self.is_turned = writer is not None and writer._place.order != reader._place.order

    def numbers(self, size: int, count: int = 1) -> bytes:
        """So many numbers of so many octets each."""
        start, there = self.reader._run(size, count)
        if there < count:
            raise ValueError("an any that is cut off")
        octets = self.reader.octets[start:start + size * count]
        if self.writer is not None and count:
            self.writer._append(size, self.turned(size, octets))
        return octets

    def turned(self, size: int, octets: bytes) -> bytes:
        """Numbers in the order of the writer."""
        if size == 1 or not self.is_turned:
            return octets
        numbers = array.array(_ARRAYS[size], octets)
        numbers.byteswap()
        return numbers.tobytes()

    def ulong(self) -> int:
        return int.from_bytes(self.numbers(4), self.order)  # type: ignore[arg-type]

    def code(self, depth: int) -> _Code:
        """A TypeCode: what is in encapsulations stays as it is, indirections too, which stay in them."""
        octets, place = self.reader.octets, self.reader._place
        at = _Cursor(octets, place.next + -(place.at + place.next) % 4, len(octets), -place.at, self.order)
        start = at.next
        code = _Parsing(self.reader.claim).code(at, depth)
        place.next = at.next
        if self.writer is not None:
            head = octets[start:min(start + 8, at.next)]
            sizes = (4, 2, 2) if code.kind == FIXED else (4,) * (len(head) // 4)
            turned = [self.turned(size, head[sum(sizes[:index]):][:size]) for index, size in enumerate(sizes)]
            self.writer._append(4, b"".join(turned) + octets[start + 8:at.next])
        return code

    def value(self, code: _Code, depth: int) -> None:
        _deep(depth)
        code = _resolved(code)
        if code.kind in SIZES:
            self.numbers(SIZES[code.kind])
            return
        self.reader.claim(1)
        if code.kind in _WALKS:
            _WALKS[code.kind](self, code, depth + 1)

    def members(self, member: _Code, count: int, depth: int) -> None:
        member = _resolved(member)
        if member.kind in SIZES:
            self.numbers(SIZES[member.kind], count)
            return
        for _ in range(count):
            self.value(member, depth)

    def sequence(self, code: _Code, depth: int) -> None:
        count = self.ulong()
        if code.number and count > code.number:
            raise ValueError(f"an any with a sequence of {count}, and the bound is {code.number}")
        self.members(code.parts[0], count, depth)

    def array(self, code: _Code, depth: int) -> None:
        self.members(code.parts[0], code.number, depth)

    def struct(self, code: _Code, depth: int) -> None:
        """.. and an exception behind its id (9.3.5.5)."""
        if code.kind == EXCEPT:
            self.text()
        for part in code.parts:
            self.value(part, depth)

    def union(self, code: _Code, depth: int) -> None:
        label = int.from_bytes(self.numbers(LABELS[code.parts[0].kind]), self.order)  # type: ignore[arg-type]
        part = code.labels.get(label, code.default)
        if part is not None:
            self.value(part, depth)

    def enum(self, code: _Code, depth: int) -> None:
        number = self.ulong()
        if number >= code.number:
            raise ValueError(f"an any with {number} of an enum of {code.number}")

    def text(self, bound: int = 0) -> None:
        size = self.ulong()
        if size and self.numbers(1, size)[-1] or bound and size > bound + 1:
            raise ValueError("an any with a string that has no end, or passes its bound")

    def string(self, code: _Code, depth: int) -> None:
        self.text(code.number)

    def octets(self, code: _Code, depth: int) -> None:
        """Octets behind their number: a Principal, and as GIOP 1.2 has it, a wide string."""
        self.numbers(1, self.ulong())

    def wide(self, code: _Code, depth: int) -> None:
        """A wide character, as GIOP 1.2 has it (9.3.1.6)."""
        self.numbers(1, self.numbers(1)[0])

    def fixed(self, code: _Code, depth: int) -> None:
        """Two digits in an octet, the last of which has the sign (9.3.2.8)."""
        self.numbers(1, code.number // 2 + 1)

    def long_double(self, code: _Code, depth: int) -> None:
        """16 octets, aligned by 8, which are turned as a whole."""
        writer, self.writer = self.writer, None
        octets, self.writer = self.numbers(8, 2), writer
        if writer is not None:
            writer._append(8, octets[::-1] if self.is_turned else octets)

    def reference(self, code: _Code, depth: int) -> None:
        """A type id, and profiles, each a tag and its data (9.6.2)."""
        self.text()
        for _ in range(self.ulong()):
            self.reader.claim(1)
            self.numbers(4)
            self.numbers(1, self.ulong())

    def any(self, code: _Code, depth: int) -> None:
        self.value(self.code(depth), depth)

    def type(self, code: _Code, depth: int) -> None:
        self.code(depth)


_WALKS: Dict[int, Callable[[_Walk, _Code, int], None]] = {
    ANY: _Walk.any, TYPECODE: _Walk.type, PRINCIPAL: _Walk.octets, OBJREF: _Walk.reference, STRUCT: _Walk.struct,
    UNION: _Walk.union, ENUM: _Walk.enum, STRING: _Walk.string, SEQUENCE: _Walk.sequence, ARRAY: _Walk.array,
    EXCEPT: _Walk.struct, LONGDOUBLE: _Walk.long_double, WCHAR: _Walk.wide, WSTRING: _Walk.octets, FIXED: _Walk.fixed,
}


@dataclass(frozen=True)
class Any:
    """An any: the octets of its TypeCode, and behind these those of its value, in an order, as they came.

    at: the place of the first octet modulo 8, 0 or 4, from which they are aligned. Without octets it is null.
    """

    type: bytes = bytes(4)
    octets: bytes = b""
    order: int = BIG
    at: int = 0

    @classmethod
    def of(cls, type: typing.Any, value: typing.Any) -> Any:
        """An any of a basic type of idl, or a string: Any.of(idl.long, 5). Raises TypeError: it is of another type;
        ValueError: the value is none of it."""
        kind = KINDS.get(type.format)
        if kind is None:
            raise TypeError("an any is made of a value of a basic type, or a string")
        writer = Writer()
        writer.write("L", kind)
        if kind == STRING:
            writer.write("L", type.bound)
        size = 8 if kind == STRING else 4
        type.write(writer, value)
        return cls(writer.octets[:size], writer.octets[size:])

    @property
    def kind(self) -> int:
        """The TCKind of its type, of an alias that of what it names. Raises ValueError: the octets are no TypeCode."""
        return self._parsed()[0]

    def reader(self) -> Reader:
        """A reader of its value."""
        return Reader(self.octets, self.order, self.at + len(self.type))

    def value(self) -> typing.Any:
        """Its value, where that is of a basic type or a string; of null None. Raises TypeError: it is of another type;
        ValueError, LemonrudderError: the octets are none of it."""
        kind, _ = self._parsed()
        if kind in (NULL, VOID):
            return None
        if kind not in FORMATS:
            raise TypeError(f"an any of the kind {kind}, whose value is its octets")
        return self.reader().read(FORMATS[kind])[0]

    def _parsed(self) -> typing.Tuple[int, int]:
        """The kind of its type, and how many octets that has."""
        reader = Reader(self.type, self.order, self.at)
        return _resolved(_Walk(reader).code(0)).kind, reader.next


def read(reader: Reader) -> Any:
    """Reads an any. Raises ValueError, LemonrudderError: the octets are none."""
    walk, place = _Walk(reader), reader._place
    start = place.next + -(place.at + place.next) % 4
    code = walk.code(0)
    middle = reader.next
    walk.value(code, 0)
    octets = reader.octets
    return Any(octets[start:middle], octets[middle:reader.next], Order(place.order), (place.at + start) % 8)


def write(writer: Writer, value: Any) -> None:
    """Writes an any: as it came where that stands so too, else anew. Raises ValueError: its octets are none of it."""
    place = writer._place
    start = place.at + place.next
    if place.order == value.order and (start + -start % 4) % 8 == value.at:
        writer._append(4, value.type + value.octets)
        return
    reader = Reader(value.type + value.octets, value.order, value.at)
    walk = _Walk(reader, writer)
    walk.value(walk.code(0), 0)
    if reader.next != len(reader.octets):
        raise ValueError("an any with more octets than a value of its type")
