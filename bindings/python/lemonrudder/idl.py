"""What the modules stand on that omniidl writes of an IDL file by -blemonrudder -Wbpython.

A type reads and writes its values. One that a format of the library spells has that, and between the two its values are
made of those of the format (`typed`) and made into them (`plain`); an operation with another one, as with a union, is
raw, and its types read and write its body. Names that begin with `_` are of this module, since those of IDL don't.
"""
from __future__ import annotations

import abc
import dataclasses
import enum
import inspect
import keyword
import logging
import operator
import re
import struct
import threading
from typing import TYPE_CHECKING
from typing import Any as Anything
from typing import Callable, ClassVar, Dict, Iterable, Iterator, List, Mapping, Optional, Sequence, Tuple, Type, TypeVar
from typing import Union as Either

from . import _any, _outcomes
from ._any import Any as Any
from ._catalogue import Catalogue, Signature
from ._cdr import BIG, Reader, Writer
from ._client import Client
from ._library import LemonrudderError, Text, serves
from ._messages import Body as Body
from ._outcomes import Outcome, Refuse, SystemException
from ._references import REFERENCE
from ._references import Ior as Ior
from ._servants import RawReply as RawReply
from ._server import Server
from ._table import VERSION, Completed, Error, ReplyStatus, Wish

LOG = logging.getLogger("lemonrudder")
# how deep sequences may stand in sequences of what a raw operation has, and how deep those stand that are at work
DEPTH = 64
_NOW = threading.local()


def made_for(*version: int) -> None:
    """Whether this package serves what was made for a version of it. Raises ImportError."""
    if not serves(VERSION, version):
        found, wanted = (".".join(map(str, each)) for each in (VERSION, version))
        raise ImportError(f"this is lemonrudder {found}, and none for {wanted}: make the module anew by omniidl")


def _within(name: str, function: Callable[[Anything], Anything], value: Anything) -> Anything:
    """What a function makes of a part of a value; an error says which part that is."""
    try:
        return function(value)
    except (TypeError, ValueError) as error:
        if isinstance(error, LemonrudderError):
            raise
        kind = TypeError if isinstance(error, TypeError) else ValueError
        raise kind(f"{name}: {error}") from None


def _name(made: type) -> str:
    """The name of IDL of a class that is made of it, as Python has it: its first line says it in IDL's spelling."""
    said = made.__dict__.get("__doc__") or ""
    if re.fullmatch(r"\w+(::\w+)*", said) is None:
        return made.__qualname__
    return ".".join(f"_{one}" if keyword.iskeyword(one) else one for one in said.split("::"))


# ---- types ----

class IdlType:
    """A type. format: that of the library, or None where none spells it. is_basic: whether a value of the format is one
    of the type, so that many need no look at each."""

    format: Optional[str] = None
    is_basic = False

    def are_plain(self, values: Anything) -> bool:
        """Whether these are values of a basic type, and each as one of the format. False: see to each."""
        return False

    def plain(self, value: Anything) -> Anything:
        """A value as one of the format. Raises ValueError, TypeError: it is none of this type."""
        raise NotImplementedError

    def typed(self, plain: Anything) -> Anything:
        """A value of the format as one of this type. Raises ValueError: a bound is passed."""
        return plain

    def read(self, reader: Reader) -> Anything:
        """Reads a value. Raises ValueError, LemonrudderError (SHORT, VALUE, REFERENCE)."""
        if self.format is None:
            raise NotImplementedError
        return self.typed(reader.read(self.format)[0])

    def write(self, writer: Writer, value: Anything) -> None:
        """Writes a value. Raises as plain."""
        if self.format is None:
            raise NotImplementedError
        writer.write(self.format, self.plain(value))

    def values(self) -> Iterator[Anything]:
        """The values of a type that discriminates a union, from 0 up."""
        raise NotImplementedError


class _Number(IdlType):
    is_basic = True

    def __init__(self, name: str, format: str, least: int, bits: int) -> None:
        self.name, self.format = name, format
        self.least, self.most = least, least + (1 << bits) - 1

    def plain(self, value: Anything) -> int:
        if isinstance(value, (bool, enum.Enum)):
            raise TypeError(f"{value!r} is no {self.name}")
        number = operator.index(value)
        if not self.least <= number <= self.most:
            raise ValueError(f"{number} is no {self.name}")
        return number

    def are_plain(self, values: Anything) -> bool:
        return set(map(type, values)) == {int} and self.least <= min(values) and max(values) <= self.most

    def values(self) -> Iterator[Anything]:
        return iter(range(self.most + 1))


class _Boolean(IdlType):
    format, is_basic = "?", True

    def are_plain(self, values: Anything) -> bool:
        return set(map(type, values)) == {bool}

    def plain(self, value: Anything) -> bool:
        if not isinstance(value, bool):
            raise TypeError(f"{value!r} is no boolean")
        return value

    def values(self) -> Iterator[Anything]:
        return iter((False, True))


class _Char(IdlType):
    format, is_basic = "c", True

    def are_plain(self, values: Anything) -> bool:
        return isinstance(values, str) and max(values, default="") <= "\xff"

    def plain(self, value: Anything) -> str:
        if not isinstance(value, str):
            raise TypeError(f"{value!r} is no char")
        if len(value) != 1 or ord(value) > 255:
            raise ValueError(f"{value!r} is no char: one character of ISO 8859-1")
        return value

    def values(self) -> Iterator[Anything]:
        return map(chr, range(256))


class _Real(IdlType):
    is_basic = True

    def __init__(self, name: str, format: str) -> None:
        self.name, self.format, self._code = name, format, ">" + format

    def are_plain(self, values: Anything) -> bool:
        # (a float of Python may be none of 32 bits)
        return self.format == "d" and set(map(type, values)) == {float}

    def plain(self, value: Anything) -> float:
        if isinstance(value, bool) or not isinstance(value, (int, float)):
            raise TypeError(f"{value!r} is no {self.name}")
        try:
            struct.pack(self._code, value)
        except OverflowError:
            raise ValueError(f"{value} is no {self.name}") from None
        return float(value)


boolean, char = _Boolean(), _Char()
octet = _Number("octet", "B", 0, 8)
short, ushort = _Number("short", "h", -1 << 15, 16), _Number("unsigned short", "H", 0, 16)
long, ulong = _Number("long", "l", -1 << 31, 32), _Number("unsigned long", "L", 0, 32)
longlong, ulonglong = _Number("long long", "q", -1 << 63, 64), _Number("unsigned long long", "Q", 0, 64)
float_, double = _Real("float", "f"), _Real("double", "d")


class string(IdlType):
    """A string of at most so many octets; 0: without a bound."""

    format = "s"

    def __init__(self, bound: int = 0) -> None:
        self.bound = bound

    def plain(self, value: Anything) -> Either[str, bytes]:
        if not isinstance(value, (str, bytes)):
            raise TypeError(f"{value!r} is no string")
        try:
            octets = value.encode("latin-1") if isinstance(value, str) else value
        except UnicodeEncodeError:
            raise ValueError(f"{value!r} has characters beyond ISO 8859-1") from None
        if b"\0" in octets:
            raise ValueError(f"a NUL in the string {value!r}")
        self.typed(octets)
        return octets

    def typed(self, plain: Anything) -> Anything:
        return _bounded("string", plain, self.bound)


def _bounded(name: str, value: Anything, bound: int) -> Anything:
    """A value that is no longer than a bound, if there is one."""
    if bound and len(value) > bound:
        raise ValueError(f"a {name} of {len(value)}, and the bound is {bound}")
    return value


class sequence(IdlType):
    """A sequence of at most so many members; 0: without a bound. Of octets its value is bytes, of chars a str, else a
    list."""

    def __init__(self, member: IdlType, bound: int = 0) -> None:
        self.member, self.bound = member, bound
        if member.format is not None:
            self.format = "o" if member is octet else f"[{member.format}]"

    def _listed(self, value: Anything) -> Anything:
        _holds(self.member, value, "sequence")
        return _bounded("sequence", value, self.bound)

    def plain(self, value: Anything) -> Anything:
        self._listed(value)
        return bytes(value) if self.member is octet else _plains(self.member, value)

    def typed(self, plain: Anything) -> Anything:
        _bounded("sequence", plain, self.bound)
        return plain if self.member is octet else _joined(self.member, plain)

    def read(self, reader: Reader) -> Anything:
        if self.format is not None:
            return super().read(reader)
        count = _bounded_count(reader.read("L")[0], self.bound)
        return _deeper(lambda: _read_each(self.member, reader, count))

    def write(self, writer: Writer, value: Anything) -> None:
        if self.format is not None:
            super().write(writer, value)
            return
        writer.write("L", len(self._listed(value)))
        _deeper(_write_each, self.member, writer, value)


class array(IdlType):
    """An array of so many members, whose values are as of a sequence."""

    def __init__(self, member: IdlType, size: int) -> None:
        self.member, self.size = member, size
        if member.format is not None and size <= 255:
            self.format = f"({member.format * size})"

    def _listed(self, value: Anything) -> Anything:
        _holds(self.member, value, "array")
        if len(value) != self.size:
            raise ValueError(f"an array of {self.size}, not {len(value)}")
        return value

    def plain(self, value: Anything) -> Anything:
        return tuple(_plains(self.member, self._listed(value)))

    def typed(self, plain: Anything) -> Anything:
        return _joined(self.member, plain)

    def read(self, reader: Reader) -> Anything:
        if self.format is not None:
            return super().read(reader)
        return _read_each(self.member, reader, self.size)

    def write(self, writer: Writer, value: Anything) -> None:
        if self.format is not None:
            super().write(writer, value)
            return
        _write_each(self.member, writer, self._listed(value))


def _deeper(function: Callable[..., Anything], *values: Anything) -> Anything:
    """What a function answers of a sequence in others. Raises ValueError: it stands too deep."""
    depth: int = getattr(_NOW, "depth", 0)
    if depth == DEPTH:
        raise ValueError(f"sequences in sequences, more than {DEPTH} deep")
    _NOW.depth = depth + 1
    try:
        return function(*values)
    finally:
        _NOW.depth = depth


def _holds(member: IdlType, value: Anything, name: str) -> None:
    """Whether a value can be a sequence or an array of a type. Raises TypeError."""
    wanted: Anything = (bytes, bytearray, memoryview) if member is octet else str if member is char else (list, tuple)
    if not isinstance(value, wanted):
        words = "bytes" if member is octet else "a str" if member is char else "a list"
        raise TypeError(f"{value!r} is no {name}: it is to be {words}")


def _plains(member: IdlType, values: Anything) -> Anything:
    if member.are_plain(values):
        return values
    return [_within(f"[{index}]", member.plain, value) for index, value in enumerate(values)]


def _joined(member: IdlType, plains: Anything) -> Anything:
    if member.is_basic:
        return _made(member, plains if isinstance(plains, list) else list(plains))
    return _made(member, [member.typed(plain) for plain in plains])


def _made(member: IdlType, values: List[Anything]) -> Anything:
    """Members as a sequence or an array has them."""
    return bytes(values) if member is octet else "".join(values) if member is char else values


def _bounded_count(count: int, bound: int) -> int:
    if bound and count > bound:
        raise ValueError(f"a sequence of {count}, and the bound is {bound}")
    return count


def _read_each(member: IdlType, reader: Reader, count: int) -> Anything:
    """So many members."""
    if member.format is not None:
        return _joined(member, reader.read_each(member.format, count))
    reader.count(count)
    return _made(member, [member.read(reader) for _ in range(count)])


def _write_each(member: IdlType, writer: Writer, values: Anything) -> None:
    if member.format is not None:
        writer.write_each(member.format, _plains(member, values))
        return
    for index, value in enumerate(values):
        _within(f"[{index}]", lambda one: member.write(writer, one), value)


class recursive(IdlType):
    """A struct or union that is named before it is whole, as one that holds itself: `of` is its type."""

    of: IdlType

    def read(self, reader: Reader) -> Anything:
        return self.of.read(reader)

    def write(self, writer: Writer, value: Anything) -> None:
        self.of.write(writer, value)


class reference(IdlType):
    """A reference to an object, an Ior; of nil, None. A stub that has one may be written in its place."""

    format = REFERENCE

    def plain(self, value: Anything) -> Anything:
        value = value._reference if isinstance(value, Stub) else value
        if value is not None and not isinstance(value, Ior):
            raise TypeError(f"{value!r} is no reference: an Ior, or None")
        return ("", []) if value is None else value.value

    def typed(self, plain: Anything) -> Optional[Ior]:
        return Ior.of_value(plain) if plain[1] else None


class _OfAny(IdlType):
    """Anys, which are passed on by their octets."""

    def read(self, reader: Reader) -> Any:
        return _any.read(reader)

    def write(self, writer: Writer, value: Anything) -> None:
        if not isinstance(value, Any):
            raise TypeError(f"{value!r} is no any: an idl.Any")
        _any.write(writer, value)


any_ = _OfAny()


class Enum(enum.IntEnum):
    """An enum of IDL: its numbers are those of CDR."""

    if TYPE_CHECKING:
        # (an enumerator may be named like what each int has, and hides that)
        @property
        def real(self) -> Anything: ...
        @property
        def imag(self) -> Anything: ...
        @property
        def numerator(self) -> Anything: ...
        @property
        def denominator(self) -> Anything: ...
        @property
        def conjugate(self) -> Anything: ...
        @property
        def bit_length(self) -> Anything: ...
        @property
        def bit_count(self) -> Anything: ...
        @property
        def as_integer_ratio(self) -> Anything: ...
        @property
        def to_bytes(self) -> Anything: ...
        @property
        def from_bytes(self) -> Anything: ...

    @property
    def _v(self) -> int:
        return int(self)

    @property
    def _n(self) -> str:
        return self._name_

    def __repr__(self) -> str:
        return f"{_name(type(self))}.{self._name_}"


class enumeration(IdlType):
    """The type of an Enum."""

    def __init__(self, made: Type[Enum]) -> None:
        self.made = made
        self.items: List[Enum] = list(made)
        if len(self.items) <= 255:
            self.format = f"e{len(self.items)}"

    def plain(self, value: Anything) -> int:
        if not isinstance(value, self.made):
            raise TypeError(f"{value!r} is no {_name(self.made)}")
        return int(value)

    def typed(self, plain: int) -> Enum:
        return self.items[plain]

    def read(self, reader: Reader) -> Enum:
        number: int = reader.read("L")[0]
        if number >= len(self.items):
            raise ValueError(f"{number} is no {_name(self.made)}")
        return self.items[number]

    def write(self, writer: Writer, value: Anything) -> None:
        writer.write("L", self.plain(value))

    def values(self) -> Iterator[Anything]:
        return iter(self.items)


def _spelled(value: Anything, names: Iterable[str]) -> str:
    """A value by its members."""
    return f"{_name(type(value))}({', '.join(f'{name}={getattr(value, name)!r}' for name in names)})"


class Struct:
    """A struct of IDL. It goes by its members where tuples do, as in what current().store takes."""

    def __init_subclass__(cls) -> None:
        # (a dataclass keeps the repr that it finds)
        if "__repr__" not in cls.__dict__:
            setattr(cls, "__repr__", Struct.__repr__)

    def __repr__(self) -> str:
        return _spelled(self, (one.name for one in dataclasses.fields(self)))

    def __iter__(self) -> Iterator[Anything]:
        return (getattr(self, one.name) for one in dataclasses.fields(self))


class structure(IdlType):
    """The type of a Struct, or of an exception's members: its class, and each member by its name."""

    def __init__(self, made: type, *members: Tuple[str, IdlType]) -> None:
        self.made, self.members = made, members
        self._structs = sum(isinstance(type, (structure, union)) for _, type in members)
        formats = [type.format for _, type in members]
        if len(members) <= 255 and all(one is not None for one in formats):
            self.format = f"({''.join(map(str, formats))})"

    def _of(self, value: Anything) -> Anything:
        if not isinstance(value, self.made):
            raise TypeError(f"{value!r} is no {_name(self.made)}")
        return value

    def plain(self, value: Anything) -> Tuple[Anything, ...]:
        self._of(value)
        return tuple(_within(name, type.plain, getattr(value, name)) for name, type in self.members)

    def typed(self, plain: Anything) -> Anything:
        return self.made(*(type.typed(one) for (_, type), one in zip(self.members, plain)))

    def read(self, reader: Reader) -> Anything:
        reader.count(self._structs)
        return self.made(*(type.read(reader) for _, type in self.members))

    def write(self, writer: Writer, value: Anything) -> None:
        self._of(value)
        for name, type in self.members:
            _within(name, lambda one: type.write(writer, one), getattr(value, name))


class Union:
    """A union of IDL. _d: the discriminator. _v: the value of the member that it selects, which has that name too;
    None where it selects none.

    Made by a discriminator and a value, or by a member's name, with a discriminator that selects it or the first one
    that does: U(3, "x"), U(3, text="x"), U(text="x"). Raises TypeError, ValueError, AttributeError.
    """

    _type: ClassVar[union]
    _d: Anything
    _v: Anything

    def __init__(self, *both: Anything, **by_name: Anything) -> None:
        if len(both) == 2 and not by_name:
            self._d, self._v = both
        elif len(both) < 2 and len(by_name) == 1:
            (name, value), = by_name.items()
            setattr(self, name, value)
            if both and self._type.name(both[0]) != name:
                raise ValueError(f"{name} is not the member of {both[0]!r}")
            self._d = both[0] if both else self._d
        else:
            raise TypeError("a discriminator and a value, or a member by its name")

    def __getattr__(self, name: str) -> Anything:
        if name not in self._type.first:
            raise AttributeError(name)
        if self._type.name(self._d) != name:
            raise AttributeError(f"{name} is not the member of {self._d!r}")
        return self._v

    def __setattr__(self, name: str, value: Anything) -> None:
        if name in self._type.first:
            object.__setattr__(self, "_d", self._type.first[name])
            object.__setattr__(self, "_v", value)
        elif name in ("_d", "_v"):
            object.__setattr__(self, name, value)
        else:
            raise AttributeError(name)

    def __eq__(self, other: object) -> bool:
        return isinstance(other, type(self)) and (self._d, self._v) == (other._d, other._v)

    def __hash__(self) -> int:
        raise TypeError("a union is not to be hashed")

    def __repr__(self) -> str:
        name = self._type.name(self._d)
        if name is None:
            return f"{_name(type(self))}({self._d!r}, {self._v!r})"
        label = "" if self._type.first[name] == self._d else f"{self._d!r}, "
        return f"{_name(type(self))}({label}{name}={self._v!r})"


class union(IdlType):
    """The type of a Union: its class, the type of its discriminator, and its cases: labels, a name and a type. No label
    is the default."""

    def __init__(self, made: Type[Union], switch: IdlType, *cases: Tuple[Tuple[Anything, ...], str, IdlType]) -> None:
        self.made, self.switch = made, switch
        self.cases: Dict[Anything, Tuple[str, IdlType]] = {}
        self.default: Optional[Tuple[str, IdlType]] = None
        # for each name the discriminator that it is set by
        self.first: Dict[str, Anything] = {}
        for labels, name, type in cases:
            for label in labels:
                self.cases[label] = name, type
        for labels, name, type in cases:
            if not labels or None in labels:
                self.default = name, type
            self.first[name] = next((label for label in labels if label is not None), None)
            if self.first[name] is None:
                self.first[name] = next(one for one in switch.values() if one not in self.cases)
        self.cases.pop(None, None)
        made._type = self

    def member(self, label: Anything) -> Optional[Tuple[str, IdlType]]:
        return self.cases.get(label, self.default)

    def name(self, label: Anything) -> Optional[str]:
        found = self.member(label)
        return None if found is None else found[0]

    def read(self, reader: Reader) -> Anything:
        label = self.switch.read(reader)
        found = self.member(label)
        reader.count(found is not None and isinstance(found[1], (structure, union)))
        return self.made(label, None if found is None else found[1].read(reader))

    def write(self, writer: Writer, value: Anything) -> None:
        if not isinstance(value, self.made):
            raise TypeError(f"{value!r} is no {_name(self.made)}")
        _within("_d", lambda one: self.switch.write(writer, one), value._d)
        found = self.member(value._d)
        if found is not None:
            name, member = found
            _within(name, lambda one: member.write(writer, one), value._v)
        elif value._v is not None:
            raise ValueError(f"{value._d!r} has no member, and there is a value: {value._v!r}")


# ---- operations ----

class UserException(Exception):
    """An exception of IDL: its repository id, and the type of its members."""

    _id: ClassVar[str]
    _type: ClassVar[structure]

    def __repr__(self) -> str:
        return _spelled(self, (name for name, _ in self._type.members))

    __str__ = __repr__

    def __eq__(self, other: object) -> bool:
        return type(other) is type(self) and all(getattr(self, name) == getattr(other, name)
                                                 for name, _ in self._type.members)

    __hash__ = Exception.__hash__


_Named = Sequence[Tuple[str, IdlType]]


class Operation:
    """An operation: its name on the wire, that of the method, its types by their names, and the exceptions that it
    declares."""

    def __init__(self, name: str, method: str, arguments: _Named = (), results: _Named = (),
                 raises: Sequence[Type[UserException]] = (), is_oneway: bool = False) -> None:
        self.name, self.method, self.is_oneway = name, method, is_oneway
        self.arguments, self.results = arguments, results
        self.raises = {one._id: one for one in raises}
        members = [type for one in raises for _, type in one._type.members]
        self.is_raw = any(type.format is None for type in (*(type for _, type in (*arguments, *results)), *members))
        self.signature = Signature()
        if not self.is_raw:
            formats = {one._id: _format(one._type.members) for one in raises}
            self.signature = Signature(_format(arguments), _format(results), formats)

    def _body(self, types: _Named, values: Sequence[Anything], first: str = "") -> bytes:
        """Values as the body of a message, behind the id of an exception, if it is one."""
        writer = Writer(BIG)
        if first:
            writer.write("s", first)
        for (name, type), value in zip(types, values):
            _within(name or "the result", lambda one: type.write(writer, one), value)
        return writer.octets

    def _plains(self, types: _Named, values: Sequence[Anything]) -> Tuple[Anything, ...]:
        return tuple(_within(name or "the result", type.plain, one) for (name, type), one in zip(types, values))

    def values(self, plain: Sequence[Anything]) -> List[Anything]:
        """The arguments of a request: its body, or the values of its format. Raises Refuse (MARSHAL)."""
        try:
            if self.is_raw:
                reader = plain[0].reader()
                return [type.read(reader) for _, type in self.arguments]
            return [type.typed(one) for (_, type), one in zip(self.arguments, plain)]
        except (ValueError, LemonrudderError) as error:
            LOG.info("%s is refused: %s", self.name, error)
            raise Refuse("MARSHAL") from None

    def reply(self, returned: Anything) -> Anything:
        """What a method returned as a function of Server.add returns it. Raises TypeError, ValueError."""
        if isinstance(returned, (Outcome, RawReply)):
            return returned
        count = len(self.results)
        values = () if count == 0 else (returned,) if count == 1 else tuple(returned)
        if len(values) != count or count == 0 and returned is not None:
            raise TypeError(f"{count} results, not {returned!r}")
        if self.is_raw:
            return RawReply(self._body(self.results, values))
        plain = self._plains(self.results, values)
        return None if count == 0 else plain[0] if count == 1 else plain

    def raised(self, raised: UserException) -> Anything:
        """The reply of a raw operation by an exception. Of one with types it is raised, as one that is not declared is.
        Raises TypeError, ValueError: its members are not of their types."""
        members = raised._type.members
        values = [getattr(raised, name) for name, _ in members]
        if self.is_raw and raised._id in self.raises:
            return RawReply(self._body(members, values, raised._id), BIG, ReplyStatus.USER_EXCEPTION)
        raise _outcomes.UserException(raised._id, self._plains(members, values)) from raised

    def returned(self, body: Body) -> Anything:
        """The results in the body of a reply to a raw operation. Raises LemonrudderError (SHORT, VALUE)."""
        return self._whole(body.reader(), self.results, _result)

    def _whole(self, reader: Reader, types: _Named, made: Callable[..., Anything]) -> Anything:
        try:
            values = [type.read(reader) for _, type in types]
        except LemonrudderError:
            raise
        except ValueError as error:
            raise LemonrudderError(Error.VALUE, f"the reply of {self.name}: {error}") from None
        if reader.next != len(reader.octets):
            left = len(reader.octets) - reader.next
            raise LemonrudderError(Error.VALUE, f"the reply of {self.name} has {left} octets more than its results")
        return made(*values)

    def unraised(self, raised: _outcomes.UserException) -> Exception:
        """The exception of IDL for one that a call raised; the same where the operation does not declare it."""
        made = self.raises.get(raised.id)
        if made is None:
            return raised
        if raised.body is not None:
            return self._whole(raised.body.reader(), made._type.members, made)  # type: ignore[no-any-return]
        return self._typed(made._type.members, raised.values, made)  # type: ignore[no-any-return]

    def _typed(self, types: _Named, plains: Sequence[Anything], made: Callable[..., Anything]) -> Anything:
        """Values of formats as those of types. Raises LemonrudderError (VALUE)."""
        try:
            return made(*(type.typed(one) for (_, type), one in zip(types, plains)))
        except LemonrudderError:
            raise
        except ValueError as error:
            raise LemonrudderError(Error.VALUE, f"the reply of {self.name}: {error}") from None


class OfOctets(Operation):
    """An operation with types that can't be made: its arguments and results are the octets of a Body."""

    def __init__(self, name: str, method: str, is_oneway: bool = False) -> None:
        super().__init__(name, method, is_oneway=is_oneway)
        self.is_raw = True

    def values(self, plain: Sequence[Anything]) -> List[Anything]:
        return [plain[0]]

    def reply(self, returned: Anything) -> Anything:
        if returned is None and self.is_oneway:
            return RawReply(b"")
        if not isinstance(returned, (Outcome, RawReply)):
            raise TypeError(f"{returned!r} is no RawReply")
        return returned

    def returned(self, body: Body) -> Anything:
        return body


def _format(types: _Named) -> str:
    return "".join(str(type.format) for _, type in types)


def _result(*values: Anything) -> Anything:
    return None if not values else values[0] if len(values) == 1 else values


class Interface:
    """An interface: its repository id, those it inherits from, and its operations by their names on the wire."""

    def __init__(self, id: str, bases: Sequence[Interface] = (), operations: Sequence[Operation] = ()) -> None:
        self.ids: Tuple[str, ...] = tuple(dict.fromkeys((id, *(one for base in bases for one in base.ids))))
        self.operations: Dict[str, Operation] = {}
        for base in bases:
            self.operations.update(base.operations)
        self.operations.update({one.name: one for one in operations})

    def put(self, catalogue: Catalogue, key: Text) -> None:
        """Adds an object of it to a catalogue of an Engine. Errors as of Catalogue."""
        catalogue.add_object(key)
        catalogue.add_repository_ids(key, *self.ids)
        for name, operation in self.operations.items():
            if operation.is_raw:
                catalogue.add_raw_operation(key, name)
            else:
                catalogue.add_operation(key, name, operation.signature)


class Servant(abc.ABC):
    """A servant of an interface, whose methods are plain or async: `add` puts it on offer."""

    _interface: ClassVar[Interface]


def _performer(operation: Operation, method: Callable[..., Anything]) -> Callable[..., Anything]:
    """The function of Server.add for a method of a servant."""

    def replied(make: Callable[[Anything], Anything], given: Anything) -> Anything:
        try:
            return make(given)
        except (TypeError, ValueError) as error:
            LOG.error("no outcome of %r: %s", operation.name, error)
            raise SystemException("INTERNAL", 0, Completed.MAYBE) from None

    async def awaited(returned: Anything) -> Anything:
        try:
            value = await returned
        except UserException as raised:
            return replied(operation.raised, raised)
        return replied(operation.reply, value)

    def perform(*plain: Anything) -> Anything:
        values = operation.values(plain)
        try:
            returned = method(*values)
        except UserException as raised:
            return replied(operation.raised, raised)
        return awaited(returned) if inspect.isawaitable(returned) else replied(operation.reply, returned)

    return perform


def _offered(servant: Servant) -> Tuple[Tuple[str, ...], Dict[str, Anything], Dict[str, Mapping[str, str]]]:
    """What Server.add takes of a servant: repository ids, operations, and what they raise."""
    operations: Dict[str, Anything] = {}
    raises: Dict[str, Mapping[str, str]] = {}
    for name, operation in servant._interface.operations.items():
        function = _performer(operation, getattr(servant, operation.method))
        if operation.is_raw:
            operations[name] = function
        else:
            operations[name] = operation.signature.arguments, operation.signature.results, function
            raises[name] = operation.signature.raises
    return servant._interface.ids, operations, raises


def add(server: Server, key: Text, servant: Servant, *, timeout: Optional[float] = None) -> None:
    """Adds an object to a server. Its reference is server.reference(key), once it listens. Errors as of Server.add."""
    ids, operations, raises = _offered(servant)
    server.add(key, ids, operations, raises, timeout=timeout)


def add_family(server: Server, prefix: Text, servant: Servant, *, timeout: Optional[float] = None) -> None:
    """Adds an object to which each key leads that begins with a prefix, as Server.add_family."""
    ids, operations, raises = _offered(servant)
    server.add_family(prefix, ids, operations, raises, timeout=timeout)


S = TypeVar("S", bound="Stub")


class Stub:
    """Calls the operations of an object by a client, which sends each call again until it is answered or expires.

    client: by which. key: of the object; without one that of the client's reference. timeout and expiration: as of
    Client.call. Each method raises what Client.call does, the exceptions of IDL that its operation declares among
    these; ValueError or TypeError where a value is none of its type, and nothing is sent then.
    """

    _interface: ClassVar[Interface]

    def __init__(self, client: Client, key: Optional[Text] = None, *, timeout: float = 60.0,
                 expiration: Optional[int] = None) -> None:
        self._client, self._key = client, client.key if key is None else key
        self._timeout, self._expiration = timeout, expiration
        self._reference: Optional[Ior] = None

    @classmethod
    def _of(cls: Type[S], reference: Either[Ior, str], client_id: Optional[Text] = None, *, timeout: float = 60.0,
            **options: Anything) -> S:
        """A stub for the object that a reference names, with a client of its own. Errors as of Client.of."""
        ior = reference if isinstance(reference, Ior) else Ior.parse(reference)
        stub = cls(Client.of(ior, client_id, **options), timeout=timeout)
        stub._reference = ior
        return stub

    def _timed(self: S, timeout: float = 60.0, expiration: Optional[int] = None) -> S:
        """The same object, by calls of another time-out or expiration."""
        stub = type(self)(self._client, self._key, timeout=timeout, expiration=expiration)
        stub._reference = self._reference
        return stub

    async def _is_a(self, id: str) -> bool:
        """Whether the object is of the interface of a repository id, as its server says."""
        return bool(await self._client.call(self._key, "_is_a", "s", (id,), "?", timeout=self._timeout))

    async def _non_existent(self) -> bool:
        """Whether its server says that there is no such object, be it by OBJECT_NOT_EXIST."""
        try:
            return bool(await self._client.call(self._key, "_non_existent", "", (), "?", timeout=self._timeout))
        except SystemException as raised:
            if raised.name != "OBJECT_NOT_EXIST":
                raise
            return True

    async def _narrow(self, wanted: Type[S]) -> Optional[S]:
        """A stub of another interface for the same object; None where its server says that it is none of that."""
        if wanted._interface.ids[0] not in self._interface.ids and not await self._is_a(wanted._interface.ids[0]):
            return None
        stub = wanted(self._client, self._key, timeout=self._timeout, expiration=self._expiration)
        stub._reference = self._reference
        return stub

    async def _close(self) -> None:
        """Closes the client."""
        await self._client.close()

    async def __aenter__(self: S) -> S:
        return self

    async def __aexit__(self, *error: Anything) -> None:
        await self._close()

    async def _call_octets(self, operation: Operation, body: Either[Body, bytes]) -> Anything:
        """Calls an operation by the octets of its arguments, and returns those of its results."""
        given = body if isinstance(body, Body) else Body(body)
        if given.at % 8:
            raise ValueError(f"{operation.name}: a body that begins at {given.at}, and is to at a multiple of 8")
        wish = Wish.NONE if operation.is_oneway else Wish.FULL
        came = await self._client.call_raw(self._key, operation.name, given.octets, order=given.order, wish=wish,
                                           timeout=self._timeout, expiration=self._expiration)
        return None if operation.is_oneway else came

    async def _call(self, operation: Operation, *values: Anything) -> Anything:
        """Calls an operation by its arguments, and returns its results as a method does."""
        client, timeout, expiration = self._client, self._timeout, self._expiration
        prepared = _within(operation.name, lambda values: operation._body(operation.arguments, values)
                           if operation.is_raw else operation._plains(operation.arguments, values), values)
        formats = operation.signature
        try:
            if operation.is_raw:
                wish = Wish.NONE if operation.is_oneway else Wish.FULL
                body = await client.call_raw(self._key, operation.name, prepared, wish=wish, timeout=timeout,
                                             expiration=expiration)
                return None if operation.is_oneway else operation.returned(body)
            if operation.is_oneway:
                await client.oneway(self._key, operation.name, formats.arguments, prepared, timeout=timeout,
                                    expiration=expiration)
                return None
            result = await client.call(self._key, operation.name, formats.arguments, prepared, formats.results,
                                       formats.raises, timeout=timeout, expiration=expiration)
        except _outcomes.UserException as raised:
            unraised = operation.unraised(raised)
            if unraised is raised:
                raise
            raise unraised from None
        count = len(operation.results)
        return operation._typed(operation.results, () if count == 0 else (result,) if count == 1 else result, _result)
