"""Messages of GIOP as octets: what all tests write and read (CORBA 3.3 Part 2, 9.4), with the values of tests/cdr.py.

It shares nothing with the programs under test. tests/octets.py holds it to octets that were written out by hand from
the standard's layouts, and to recordings of omniORB and Combat.
"""
from __future__ import annotations

import struct
from collections.abc import Iterable, Iterator
from typing import Callable, NamedTuple, Tuple, Union

from tests.cdr import BIG, LITTLE, Octets, Reading, encapsulated, encapsulation

MAGIC = b"GIOP"
# how many octets the header of a message has, and what a frame's flags say beside its order
HEADER = 12
MORE = 2
REQUEST, REPLY, CANCEL, LOCATE, LOCATED, CLOSING, FAULT, FRAGMENT = range(8)
NO_EXCEPTION, USER_EXCEPTION, SYSTEM_EXCEPTION, LOCATION_FORWARD = range(4)
UNKNOWN_OBJECT, OBJECT_HERE, OBJECT_FORWARD = range(3)
YES, NO, MAYBE = range(3)
# what a Request of 1.2 wants: no Reply, one without results, and one with them
NONE, EMPTY, FULL = 0, 1, 3
BY_KEY, BY_PROFILE, BY_REFERENCE = range(3)
CODE_SETS, FT_REQUEST = 1, 13
NEVER = (1 << 64) - 1
CLOSE_CONNECTION = b"GIOP\1\0\0\5" + bytes(4)
MESSAGE_ERROR = b"GIOP\1\0\0\6" + bytes(4)


# ---- service contexts (IOP 7.7) ----

Context = Tuple[int, bytes]


def ft_request(client: Union[bytes, str], number: int, expiration: int = NEVER, order: str = BIG) -> Context:
    """The context FT_REQUEST: the client's id, its number of the request, and the expiration (FT 23.2.7)."""
    out = encapsulation(order)
    out.string(client)
    out.long(number)
    out.ulonglong(expiration)
    return FT_REQUEST, out.all


class Ft(NamedTuple):
    """What FT_REQUEST says."""
    client: bytes
    number: int
    expiration: int


def ft_of(octets: bytes) -> Ft:
    """What the octets of FT_REQUEST say."""
    reading = encapsulated(octets)
    return Ft(reading.string(), reading.long(), reading.ulonglong())


def put_contexts(out: Octets, contexts: Iterable[Context]) -> None:
    contexts = list(contexts)
    out.ulong(len(contexts))
    for number, octets in contexts:
        out.ulong(number)
        out.octets(octets)


def contexts_in(reading: Reading) -> list[Context]:
    return [(reading.ulong(), reading.octets()) for _ in range(reading.ulong())]


# ---- messages ----

# octets, or what writes them; None and no octets are no body
Body = Union[bytes, Callable[[Octets], None], None]


def message(kind: int, content: bytes, *, minor: int = 2, order: str = BIG, flags: int = 0) -> bytes:
    """A frame: the header, and what stands after it (GIOP 9.4.1)."""
    flags |= 0 if order == BIG else 1
    return MAGIC + bytes([1, minor, flags, kind]) + struct.pack(order + "I", len(content)) + content


def put_body(out: Octets, body: Body, minor: int) -> None:
    """The body; in 1.2 it begins at a multiple of 8."""
    if not body:
        return
    if minor == 2:
        out.align(8)
    if callable(body):
        body(out)
    else:
        out.all += body


# an object key; or in 1.2 how the target is given, and then what `target_in` reads
Target = Union[bytes, tuple]


def put_target(out: Octets, target: Target, minor: int) -> None:
    """The target of a Request or a LocateRequest."""
    how, what = (BY_KEY, target) if isinstance(target, bytes) else target
    if minor == 2:
        out.short(how)
    if how == BY_KEY:
        out.octets(what)
        return
    out.ulong(what[0])
    if how == BY_PROFILE:
        out.octets(what[1])
    else:
        out.string(what[1])
        put_contexts(out, what[2])


def request(request_id: int, target: Target, operation: Union[bytes, str], body: Body = None, *, minor: int = 2,
            order: str = BIG, wish: int = FULL, contexts: Iterable[Context] = (), principal: bytes = b"") -> bytes:
    """A Request (GIOP 9.4.2). Before 1.2 it can't say that it wants a Reply without results."""
    out = Octets(HEADER, order)
    if minor < 2:
        put_contexts(out, contexts)
    out.ulong(request_id)
    out.octet(wish if minor == 2 else wish != NONE)
    out.all += b"" if minor == 0 else bytes(3)
    put_target(out, target, minor)
    out.string(operation)
    if minor == 2:
        put_contexts(out, contexts)
    else:
        out.octets(principal)
    put_body(out, body, minor)
    return message(REQUEST, out.all, minor=minor, order=order)


def reply(request_id: int, body: Body = None, *, status: int = NO_EXCEPTION, minor: int = 2, order: str = BIG,
          contexts: Iterable[Context] = ()) -> bytes:
    """A Reply (GIOP 9.4.3)."""
    out = Octets(HEADER, order)
    if minor < 2:
        put_contexts(out, contexts)
    out.ulong(request_id)
    out.ulong(status)
    if minor == 2:
        put_contexts(out, contexts)
    put_body(out, body, minor)
    return message(REPLY, out.all, minor=minor, order=order)


def numbers_message(kind: int, numbers: list[int], minor: int, order: str) -> bytes:
    """A message of unsigned longs."""
    return message(kind, struct.pack(f"{order}{len(numbers)}I", *numbers), minor=minor, order=order)


def cancel(request_id: int, *, minor: int = 2, order: str = BIG) -> bytes:
    """A CancelRequest (GIOP 9.4.4)."""
    return numbers_message(CANCEL, [request_id], minor, order)


def locate(request_id: int, target: Target, *, minor: int = 2, order: str = BIG) -> bytes:
    """A LocateRequest (GIOP 9.4.5)."""
    out = Octets(HEADER, order)
    out.ulong(request_id)
    put_target(out, target, minor)
    return message(LOCATE, out.all, minor=minor, order=order)


def located(request_id: int, status: int, *, minor: int = 2, order: str = BIG) -> bytes:
    """A LocateReply without a body (GIOP 9.4.6)."""
    return numbers_message(LOCATED, [request_id, status], minor, order)


def repository_id(name: str) -> str:
    """The repository id of a system exception."""
    return f"IDL:omg.org/CORBA/{name}:1.0"


def system_body(name: str, completed: int = NO, minor_code: int = 0) -> Callable[[Octets], None]:
    """The body of a system exception (GIOP 9.4.3.2)."""

    def put(out: Octets) -> None:
        out.string(repository_id(name))
        out.ulong(minor_code)
        out.ulong(completed)
    return put


def system_exception(request_id: int, name: str, completed: int = NO, minor: int = 2, order: str = BIG) -> bytes:
    """The Reply of a system exception with the minor code 0."""
    return reply(request_id, system_body(name, completed), status=SYSTEM_EXCEPTION, minor=minor, order=order)


def cut(octets: bytes, sizes: Iterable[int]) -> list[bytes]:
    """The frames of a message: so many octets of it after the header in each before the last (GIOP 9.4.9)."""
    minor, order = octets[5], order_of(octets)
    head = octets[HEADER:HEADER + 4] if minor == 2 else b""
    content, kind, frames = octets[HEADER:], octets[7], []
    for size in sizes:
        if size >= len(content):
            break
        part = content[:size] if not frames else head + content[:size]
        frames.append(message(kind, part, minor=minor, order=order, flags=MORE))
        content, kind = content[size:], FRAGMENT
    frames.append(message(kind, content if not frames else head + content, minor=minor, order=order))
    return frames


# ---- what is read ----

class Message(NamedTuple):
    """A message that was read; what its kind lacks is None.

    `place` is where its body begins, and `gaps` are the octets that mean nothing.
    """
    kind: int
    minor: int
    order: str
    request_id: int | None
    wish: int | None
    target: tuple | None
    operation: bytes | None
    principal: bytes | None
    status: int | None
    contexts: list[Context]
    body: bytes
    place: int
    gaps: list[range]

    @property
    def key(self) -> bytes | None:
        """The object key, where the target is given by it."""
        return self.target[1] if self.target and self.target[0] == BY_KEY else None

    @property
    def ft(self) -> Ft | None:
        """What its first FT_REQUEST says."""
        return next((ft_of(octets) for number, octets in self.contexts if number == FT_REQUEST), None)


def order_of(octets: bytes) -> str:
    """The order of a frame."""
    return LITTLE if octets[6] & 1 else BIG


def size_of(octets: bytes) -> int:
    """How many octets a frame has, by its header."""
    return HEADER + struct.unpack(order_of(octets) + "I", octets[8:HEADER])[0]


def target_in(reading: Reading, minor: int) -> tuple:
    """A target: how it is given, and its key, its profile, or the profile's index and a reference."""
    how = reading.short() if minor == 2 else BY_KEY
    if how == BY_KEY:
        return how, reading.octets()
    if how == BY_PROFILE:
        return how, (reading.ulong(), reading.octets())
    return how, (reading.ulong(), reading.string(), contexts_in(reading))


def wish_of(octet: int, minor: int) -> int:
    """What a Request wants: in 1.2 the two low bits say it (GIOP 9.4.2)."""
    if minor < 2:
        return FULL if octet else NONE
    return {1: EMPTY, 3: FULL}.get(octet & 3, NONE)


def fields_in(kind: int, minor: int, reading: Reading) -> dict:
    """What a message says before its body."""
    said: dict = {}
    if kind in (REQUEST, REPLY) and minor < 2:
        said["contexts"] = contexts_in(reading)
    if kind not in (CLOSING, FAULT):
        said["request_id"] = reading.ulong()
    if kind in (REPLY, LOCATED):
        said["status"] = reading.ulong()
    if kind == REQUEST:
        said["wish"] = wish_of(reading.octet(), minor)
        reading.pass_over(0 if minor == 0 else 3)
    if kind in (REQUEST, LOCATE):
        said["target"] = target_in(reading, minor)
    if kind == REQUEST:
        said["operation"] = reading.string()
    if kind == REQUEST and minor < 2:
        said["principal"] = reading.octets()
    if kind in (REQUEST, REPLY) and minor == 2:
        said["contexts"] = contexts_in(reading)
        reading.pass_over(min(-reading.at % 8, len(reading.all) - reading.at))
    return said


def read(octets: bytes) -> Message:
    """What a message in one frame says."""
    if octets[:5] != MAGIC + b"\1" or len(octets) != size_of(octets):
        raise ValueError(f"no frame of GIOP 1: {octets.hex()}")
    kind, minor = octets[7], octets[5]
    reading = Reading(octets, order_of(octets), HEADER)
    said = {"contexts": [], **fields_in(kind, minor, reading)}
    fields = {name: said.get(name) for name in Message._fields[3:10]}
    return Message(kind, minor, reading.order, **fields, body=octets[reading.at:], place=reading.at, gaps=reading.gaps)


def frames_of(stream: bytes) -> Iterator[bytes]:
    """The frames of a stream; the last may be cut off."""
    while stream:
        size = size_of(stream) if HEADER <= len(stream) else len(stream)
        yield stream[:size]
        stream = stream[size:]


def joined(frames: Iterable[bytes]) -> Iterator[bytes]:
    """The messages of frames, each in one, as they become whole. In 1.1 a message's fragments follow one another."""
    open_ones: dict = {}
    for frame in frames:
        minor, order, is_later = frame[5], order_of(frame), frame[7] == FRAGMENT
        name = frame[HEADER:HEADER + 4] if minor == 2 else None
        if is_later:
            first, content = open_ones.pop(name)
            content += frame[HEADER + (4 if minor == 2 else 0):]
        else:
            first, content = frame, frame[HEADER:]
        if frame[6] & MORE:
            open_ones[name] = first, content
        else:
            yield message(first[7], content, minor=minor, order=order)


# ---- references ----

class Reference(NamedTuple):
    """A reference with one profile of IIOP (IOP 7.6.2, IIOP 9.7.2)."""
    type_id: bytes
    minor: int
    host: bytes
    port: int
    key: bytes

    def profile(self) -> bytes:
        """The octets of its profile, without components."""
        out = encapsulation()
        out.all += bytes([1, self.minor])
        out.string(self.host)
        out.ushort(self.port)
        out.octets(self.key)
        if self.minor > 0:
            out.ulong(0)
        return out.all

    def text(self) -> str:
        """It as a text (IOP 7.6.9)."""
        out = encapsulation()
        out.string(self.type_id)
        out.ulong(1)
        out.ulong(0)
        out.octets(self.profile())
        return "IOR:" + out.all.hex()


def reference_of(text: str) -> Reference:
    """The reference that a text spells, by its first profile."""
    if not text.startswith("IOR:"):
        raise ValueError(f"{text!r} is no reference")
    outer = encapsulated(bytes.fromhex(text[4:]))
    type_id, _count, _tag = outer.string(), outer.ulong(), outer.ulong()
    data = outer.octets()
    inner = encapsulated(data)
    inner.at = 3
    return Reference(type_id, data[2], inner.string(), inner.ushort(), inner.octets())
