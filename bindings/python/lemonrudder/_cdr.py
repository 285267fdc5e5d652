"""Values of CDR, by a format."""
from __future__ import annotations

import ctypes
import operator
import re
import struct
from functools import lru_cache
from typing import Any, Callable, Dict, List, Optional, Sequence, Tuple, cast

from ._library import LemonrudderError, Octets, checked, lent, library, octets_of, structs
from ._table import Code, Error, Order

BIG, LITTLE = Order.BIG, Order.LITTLE
# .. as struct names them
_ORDERS = {BIG: ">", LITTLE: "<"}
_Place = structs["lr_place"]


class FormatError(ValueError):
    """A format spells no types. format: that one. place: the index in it at which that shows."""

    def __init__(self, format: str, place: int, text: str) -> None:
        super().__init__(format, place, text)
        self.format, self.place, self.text = format, place, text

    def __str__(self) -> str:
        return f"no format: {self.format!r}: {self.text}, at {self.place}"


def _place(order: int, at: int) -> Any:
    """The place of a first octet."""
    if order not in (0, 1):
        raise ValueError(f"no order: {order}")
    if not 0 <= at < 1 << 64:
        raise ValueError(f"no place: {at}")
    return _Place(at, 0, order, 0)


class Reader:
    """Reads values from octets, one after another.

    octets: those to read from. order: that of their numbers. at: the place of the first octet, from which numbers are
    aligned: 0 of an encapsulation, that of its body of a message. max_elements: how many elements of sequences, and
    structs in structs, may be read in all, but for numbers, booleans and characters, since each takes its time; None:
    as many as there are. next: the index of the octet that is read next. Raises ValueError: no order or place.
    """

    def __init__(self, octets: Octets, order: int = BIG, at: int = 0, max_elements: Optional[int] = None) -> None:
        self.octets = octets_of(octets)
        self._place = _place(order, at)
        self._left, self._most = max_elements, max_elements
        self._steps = 65536 + 16 * len(self.octets)

    @property
    def next(self) -> int:
        return int(self._place.next)

    def read(self, format: str) -> Tuple[Any, ...]:
        """The values of the types of a format.

        Raises LemonrudderError (SHORT: octets are missing, VALUE: they are no value of the type, or more than
        max_elements), whose text says at which octet; nothing is read then. FormatError: no format.
        """
        return self._read(parsed(format), lambda part: part.read(self))

    def read_each(self, format: str, count: int) -> List[Any]:
        """So many values of the one type of a format. Errors as of read."""
        (values,) = self._read(parsed(format), lambda part: part.read_many(self, count))
        return cast(List[Any], values)

    def _read(self, parts: Sequence[_Type], read: Callable[[_Type], Any]) -> Tuple[Any, ...]:
        """What is read of each type, or nothing."""
        before = self._place.next, self._left
        try:
            return tuple(map(read, parts))
        except LemonrudderError as error:
            at, (self._place.next, self._left) = self._place.next, before
            raise LemonrudderError(error.number, f"{error.text}, at octet {at}") from None
        except BaseException:
            self._place.next, self._left = before
            raise

    def count(self, count: int) -> None:
        """So many elements are to be read that take their time. Raises LemonrudderError (VALUE: more than
        max_elements)."""
        if self._left is not None:
            if count > self._left:
                raise LemonrudderError(Error.VALUE, f"more than {self._most} elements (max_elements)")
            self._left -= count

    def claim(self, count: int) -> None:
        """So many elements of anys are to be read, which may have no octets: at most 65536, and 16 for each octet, where
        max_elements says nothing. Raises LemonrudderError (VALUE)."""
        self.count(count)
        self._steps -= count
        if self._steps < 0:
            raise LemonrudderError(Error.VALUE, "an any of too many elements")

    def _run(self, size: int, count: int) -> Tuple[int, int]:
        """Takes numbers of so many octets each: the index of the first, and how many of them are there."""
        next = self._place.next
        start = next + -(self._place.at + next) % size
        there = min(count, max(len(self.octets) - start, 0) // size)
        if there:
            self._place.next = start + size * there
        return start, there

    def encapsulation(self) -> Reader:
        """A reader of the encapsulation that stands next (9.3.3), after its octet of the order. Errors as of read."""
        start, length, inner = ctypes.c_uint64(), ctypes.c_uint64(), _Place()
        octets = self.octets
        checked(library.lr_get_encapsulation(octets, len(octets), self._place, start, length, inner))
        reader = Reader(octets[start.value:start.value + length.value])
        reader._place = inner
        return reader

    def _get(self, function: Any, value: Any) -> Any:
        octets = self.octets
        checked(function(octets, len(octets), self._place, value))
        return value.value

    def _get_octets(self, function: Any) -> bytes:
        start, length, octets = ctypes.c_uint64(), ctypes.c_uint64(), self.octets
        checked(function(octets, len(octets), self._place, start, length))
        return octets[start.value:start.value + length.value]


class Writer:
    """Writes values, one after another. `order` and `at` are as of a Reader; padding is zeros."""

    def __init__(self, order: int = BIG, at: int = 0) -> None:
        self._place = _place(order, at)
        self._room = ctypes.create_string_buffer(256)

    @property
    def octets(self) -> bytes:
        """What is written so far."""
        return ctypes.string_at(self._room, self._place.next)

    def write(self, format: str, *values: Any) -> None:
        """Writes a value of each type of a format.

        Raises FormatError; ValueError (another number of values; a number out of range, a NUL or a wide character in
        a string) or TypeError, whose text says of which value; nothing is written then.
        """
        parts, before = parsed(format), self._place.next
        if len(parts) != len(values):
            raise ValueError(f"{format!r} has {len(parts)} types, not {len(values)}")
        number = 0
        try:
            for number, (part, value) in enumerate(zip(parts, values)):
                part.write(self, value)
        except (TypeError, ValueError) as error:
            self._place.next = before
            kind = TypeError if isinstance(error, TypeError) else ValueError
            raise kind(f"value {number} of {format!r}: {error}") from None
        except BaseException:
            self._place.next = before
            raise

    def write_each(self, format: str, values: Sequence[Any]) -> None:
        """Writes values of the one type of a format. Raises ValueError, TypeError; nothing is written then."""
        before, (part,) = self._place.next, parsed(format)
        try:
            part.write_many(self, values)
        except BaseException:
            self._place.next = before
            raise

    def _append(self, size: int, octets: bytes) -> None:
        """Writes numbers of so many octets each."""
        next = self._place.next
        start = next + -(self._place.at + next) % size
        end = start + len(octets)
        if end > len(self._room):
            self._grow(end)
        room = ctypes.addressof(self._room)
        ctypes.memset(room + next, 0, start - next)
        ctypes.memmove(room + start, octets, len(octets))
        self._place.next = end

    def _grow(self, least: int) -> None:
        """More room."""
        more = ctypes.create_string_buffer(max(2 * len(self._room), least))
        ctypes.memmove(more, self._room, self._place.next)
        self._room = more

    def _put(self, function: Any, *value: Any) -> None:
        while True:
            answer = function(self._room, len(self._room), self._place, *value)
            if answer != Error.ROOM:
                checked(answer)
                return
            self._grow(0)


class _Type:
    """A type of a format. letter: by which struct knows the numbers that its values are, if these are numbers."""

    letter = ""

    def codes(self) -> bytes:
        """The codes of the type, LR_TYPE_.."""
        raise NotImplementedError

    def read(self, reader: Reader) -> Any:
        raise NotImplementedError

    def write(self, writer: Writer, value: Any) -> None:
        raise NotImplementedError

    def read_many(self, reader: Reader, count: int) -> List[Any]:
        """So many values."""
        reader.count(count)
        return [self.read(reader) for _ in range(count)]

    def write_many(self, writer: Writer, values: Sequence[Any]) -> None:
        for value in values:
            self.write(writer, value)


class _Number(_Type):
    """A number, or what is written as one. Many are read and written at once, as the library would one by one."""

    def __init__(self, code: Code, ctype: Any, letter: str, bits: int = 0) -> None:
        name, bits = code.name.lower(), bits or 8 * ctypes.sizeof(ctype)
        self.code, self.ctype, self.letter, self.size = code, ctype, letter, ctypes.sizeof(ctype)
        self.least = -(1 << bits - 1) if ctype(-1).value < 0 else 0
        self.greatest = self.least + (1 << bits) - 1
        self.get, self.put = getattr(library, "lr_get_" + name), getattr(library, "lr_put_" + name)

    def codes(self) -> bytes:
        return bytes([self.code])

    def read(self, reader: Reader) -> Any:
        return reader._get(self.get, self.ctype())

    def write(self, writer: Writer, value: Any) -> None:
        number = operator.index(value)
        if not self.least <= number <= self.greatest:
            raise ValueError(f"{number} is no {self.code.name.lower()}")
        writer._put(self.put, number)

    def read_many(self, reader: Reader, count: int) -> List[Any]:
        start, there = reader._run(self.size, count)
        octets = reader.octets[start:start + self.size * there]
        numbers = struct.unpack(f"{_ORDERS[reader._place.order]}{there}{self.letter}", octets)
        good = self.valid(numbers)
        if good < there:
            reader._place.next = start + self.size * good
            raise LemonrudderError(Error.VALUE)
        if there < count:
            raise LemonrudderError(Error.SHORT)
        return self.typed(numbers)

    def write_many(self, writer: Writer, values: Sequence[Any]) -> None:
        try:
            octets = struct.pack(f"{_ORDERS[writer._place.order]}{len(values)}{self.letter}", *self.plain(values))
        except (struct.error, OverflowError, TypeError, ValueError):
            # (one of them is no value of the type: it is found one by one)
            super().write_many(writer, values)
        else:
            if octets:
                writer._append(self.size, octets)

    def valid(self, numbers: Sequence[Any]) -> int:
        """How many of these begin it that are values."""
        return len(numbers)

    def typed(self, numbers: Sequence[Any]) -> List[Any]:
        """Numbers as values."""
        return list(numbers)

    def plain(self, values: Sequence[Any]) -> Sequence[Any]:
        """Values as numbers. Raises TypeError, ValueError."""
        return values


class _Boolean(_Number):
    def __init__(self) -> None:
        super().__init__(Code.BOOLEAN, ctypes.c_uint8, "B", 1)

    def read(self, reader: Reader) -> bool:
        return bool(super().read(reader))

    def write(self, writer: Writer, value: Any) -> None:
        if not isinstance(value, bool):
            raise TypeError(f"{value!r} is no bool")
        super().write(writer, value)

    def valid(self, numbers: Sequence[Any]) -> int:
        octets = bytes(numbers)
        others = octets.translate(None, b"\0\1")
        return octets.find(others[:1]) if others else len(octets)

    def typed(self, numbers: Sequence[Any]) -> List[Any]:
        return list(map(bool, numbers))

    def plain(self, values: Sequence[Any]) -> Sequence[Any]:
        if not set(map(type, values)) <= {bool}:
            raise TypeError
        return values


class _Char(_Number):
    def __init__(self) -> None:
        super().__init__(Code.CHAR, ctypes.c_uint8, "B")

    def read(self, reader: Reader) -> str:
        return chr(super().read(reader))

    def write(self, writer: Writer, value: Any) -> None:
        octets = octets_of(value)
        if len(octets) != 1:
            raise ValueError(f"{value!r} is not one character")
        super().write(writer, octets[0])

    def typed(self, numbers: Sequence[Any]) -> List[Any]:
        return list(bytes(numbers).decode("latin-1"))

    def plain(self, values: Sequence[Any]) -> Sequence[Any]:
        octets = "".join(values).encode("latin-1")
        if not len(octets) == len(values) == sum(map(bool, values)):
            raise ValueError
        return octets


class _Real(_Number):
    """A float or double: its octets are those of a number without a sign (9.3.1.3)."""

    def __init__(self, code: Code, ctype: Any, letter: str) -> None:
        super().__init__(code, ctype, letter)
        self.real, self.bits = struct.Struct(">" + letter), struct.Struct(">L" if letter == "f" else ">Q")

    def read(self, reader: Reader) -> float:
        value: float = self.real.unpack(self.bits.pack(super().read(reader)))[0]
        return value

    def write(self, writer: Writer, value: Any) -> None:
        try:
            octets = self.real.pack(value)
        except OverflowError:
            raise ValueError(f"{value} is no float of {8 * self.real.size} bits") from None
        except struct.error:
            raise TypeError(f"{value!r} is no float") from None
        super().write(writer, self.bits.unpack(octets)[0])


class _String(_Type):
    def codes(self) -> bytes:
        return bytes([Code.STRING])

    def read(self, reader: Reader) -> str:
        return reader._get_octets(library.lr_get_string).decode("latin-1")

    def write(self, writer: Writer, value: Any) -> None:
        octets = octets_of(value)
        if b"\0" in octets:
            raise ValueError(f"a NUL in the string {value!r}")
        writer._put(library.lr_put_string, octets, len(octets))


class _Bytes(_Type):
    def codes(self) -> bytes:
        return bytes([Code.OCTETS])

    def read(self, reader: Reader) -> bytes:
        return reader._get_octets(library.lr_get_octets)

    def write(self, writer: Writer, value: Any) -> None:
        if isinstance(value, str):
            raise TypeError(f"{value!r} is no bytes")
        writer._put(library.lr_put_octets, *lent(value))


class _Enum(_Number):
    def __init__(self, names: int) -> None:
        super().__init__(Code.ULONG, ctypes.c_uint32, "L")
        self.names = names

    def codes(self) -> bytes:
        return bytes([Code.ENUM, self.names])

    def read(self, reader: Reader) -> int:
        value: int = _NUMBERS["L"].read(reader)
        if value >= self.names:
            reader._place.next -= self.size
            raise LemonrudderError(Error.VALUE)
        return value

    def write(self, writer: Writer, value: Any) -> None:
        if not 0 <= operator.index(value) < self.names:
            raise ValueError(f"{value} is not one of {self.names} names")
        _NUMBERS["L"].write(writer, value)

    def valid(self, numbers: Sequence[Any]) -> int:
        if max(numbers, default=0) < self.names:
            return len(numbers)
        return next(index for index, number in enumerate(numbers) if number >= self.names)

    def plain(self, values: Sequence[Any]) -> Sequence[Any]:
        if values and not 0 <= min(values) <= max(values) < self.names:
            raise ValueError
        return values


class _Sequence(_Type):
    def __init__(self, member: _Type) -> None:
        self.member = member

    def codes(self) -> bytes:
        if self.member is _NUMBERS["B"]:
            return bytes([Code.OCTETS])
        return self.member.codes() + bytes([Code.SEQUENCE])

    def read(self, reader: Reader) -> List[Any]:
        return self.member.read_many(reader, _NUMBERS["L"].read(reader))

    def write(self, writer: Writer, value: Any) -> None:
        members = list(value)
        _NUMBERS["L"].write(writer, len(members))
        self.member.write_many(writer, members)


class _Struct(_Type):
    """A struct. Where its members are numbers, many are read and written by one struct.Struct each."""

    def __init__(self, members: List[_Type]) -> None:
        self.members = members
        self.numbers = [one for one in members if isinstance(one, _Number)]
        self.structs = sum(isinstance(one, _Struct) for one in members)
        # of an order: how one is laid out that begins at a place, from 0 to 7
        self._layouts: Dict[int, List[struct.Struct]] = {}
        if len(self.numbers) == len(members):
            for order, sign in _ORDERS.items():
                self._layouts[order] = [struct.Struct(sign + self._spelled(place)) for place in range(8)]

    def _spelled(self, place: int) -> str:
        """How struct spells one that begins at a place."""
        text = ""
        for one in self.numbers:
            padding = -place % one.size
            text += "x" * padding + one.letter
            place += padding + one.size
        return text

    def codes(self) -> bytes:
        return b"".join(member.codes() for member in self.members) + bytes([Code.STRUCT, len(self.members)])

    def read(self, reader: Reader) -> Tuple[Any, ...]:
        reader.count(self.structs)
        return tuple(member.read(reader) for member in self.members)

    def write(self, writer: Writer, value: Any) -> None:
        values = tuple(value)
        if len(values) != len(self.members):
            raise ValueError(f"a struct of {len(self.members)} members, not {len(values)}")
        for member, one in zip(self.members, values):
            member.write(writer, one)

    def read_many(self, reader: Reader, count: int) -> List[Any]:
        if not self._layouts:
            return super().read_many(reader, count)
        reader.count(count)
        layouts, octets = self._layouts[reader._place.order], reader.octets
        at, next = reader._place.at, reader._place.next
        found, starts = [], [next]
        for _ in range(count):
            layout = layouts[at + next & 7]
            if next + layout.size > len(octets):
                break
            found.append(layout.unpack_from(octets, next))
            next += layout.size
            starts.append(next)
        columns = list(zip(*found))
        good = min((one.valid(column) for one, column in zip(self.numbers, columns)), default=0)
        reader._place.next = starts[good]
        if good < count:
            self.read(reader)  # (it is short, or no value)
        return list(zip(*(one.typed(column) for one, column in zip(self.numbers, columns))))

    def write_many(self, writer: Writer, values: Sequence[Any]) -> None:
        rows = list(map(tuple, values))
        if not rows or not self._layouts or set(map(len, rows)) != {len(self.numbers)}:
            super().write_many(writer, rows)
            return
        layouts, place, parts = self._layouts[writer._place.order], writer._place.at + writer._place.next, []
        try:
            for row in zip(*(one.plain(column) for one, column in zip(self.numbers, zip(*rows)))):
                layout = layouts[place & 7]
                parts.append(layout.pack(*row))
                place += layout.size
        except (struct.error, OverflowError, TypeError, ValueError):
            # (one of them is no value of the type: it is found one by one)
            super().write_many(writer, rows)
        else:
            writer._append(1, b"".join(parts))


_NUMBERS: Dict[str, _Type] = {
    "?": _Boolean(),
    "c": _Char(),
    "B": _Number(Code.OCTET, ctypes.c_uint8, "B"),
    "h": _Number(Code.SHORT, ctypes.c_int16, "h"),
    "H": _Number(Code.USHORT, ctypes.c_uint16, "H"),
    "l": _Number(Code.LONG, ctypes.c_int32, "l"),
    "L": _Number(Code.ULONG, ctypes.c_uint32, "L"),
    "q": _Number(Code.LONGLONG, ctypes.c_int64, "q"),
    "Q": _Number(Code.ULONGLONG, ctypes.c_uint64, "Q"),
    "f": _Real(Code.ULONG, ctypes.c_uint32, "f"),
    "d": _Real(Code.ULONGLONG, ctypes.c_uint64, "d"),
}
_SIMPLE: Dict[str, _Type] = {
    **_NUMBERS, "i": _NUMBERS["l"], "I": _NUMBERS["L"], "s": _String(), "o": _Bytes(),
}
_TOKEN = re.compile(r"e[0-9]+|\S")


class _Parsing:
    """The tokens of a format that were not taken yet, in reverse order, with their places."""

    def __init__(self, format: str) -> None:
        self.format = format
        self.tokens = [(found.group(), found.start()) for found in _TOKEN.finditer(format)][::-1]

    def fault(self, place: int, text: str) -> FormatError:
        return FormatError(self.format, place, text)

    def types(self, end: str, start: int) -> List[_Type]:
        """The types up to a token, which is taken; "" is the end of the format. They began at `start`."""
        found: List[_Type] = []
        while self.tokens:
            token, place = self.tokens.pop()
            if token == end:
                return found
            found.append(_SIMPLE[token] if token in _SIMPLE else self.made(token, place))
        if end:
            raise self.fault(start, f"{end!r} is missing")
        return found

    def made(self, token: str, place: int) -> _Type:
        """The type that begins by a token."""
        if token[0] == "e" and 1 <= int(token[1:] or 0) <= 255:
            return _Enum(int(token[1:]))
        if token not in ("[", "("):
            raise self.fault(place, f"no type: {token!r}")
        members = self.types("]" if token == "[" else ")", place)
        if token == "[":
            if len(members) != 1:
                raise self.fault(place, f"a sequence of {len(members)} types")
            return _Sequence(members[0])
        if not 1 <= len(members) <= 255:
            raise self.fault(place, f"a struct of {len(members)} types")
        return _Struct(members)


@lru_cache(maxsize=1024)
def parsed(format: str) -> Tuple[_Type, ...]:
    """The types of a format. Raises FormatError."""
    return tuple(_Parsing(format).types("", 0))


def type_codes(format: str) -> bytes:
    """The types of a format as codes, LR_TYPE_.., by which the library knows them. Raises FormatError."""
    return b"".join(part.codes() for part in parsed(format))


def unpack(format: str, octets: Octets, order: int = BIG, at: int = 0,
           max_elements: Optional[int] = None) -> Tuple[Any, ...]:
    """The values of the types of a format, from the front of octets. What follows them is not looked at.

    order: that of the numbers. at: the place of the first octet, from which they are aligned. max_elements: as of
    Reader. Raises LemonrudderError (SHORT, VALUE), FormatError.
    """
    return Reader(octets, order, at, max_elements).read(format)


def pack(format: str, *values: Any, order: int = BIG, at: int = 0) -> bytes:
    """The octets of a value of each type of a format. `order` and `at` are as of unpack.

    Raises FormatError, ValueError or TypeError, as Writer.write does.
    """
    writer = Writer(order, at)
    writer.write(format, *values)
    return writer.octets


def result_of(values: Sequence[Any]) -> Any:
    """Results as a Python function returns them: None, the only one, or a tuple."""
    return None if not values else values[0] if len(values) == 1 else tuple(values)


def results_of(format: str, value: Any) -> Tuple[Any, ...]:
    """The results that a Python function returned: of no type None, of one type that value, of several a tuple."""
    count = len(parsed(format))
    if count == 1:
        return (value,)
    if count == 0 and value is not None:
        raise TypeError(f"no result, not {value!r}")
    return tuple(value) if count else ()
