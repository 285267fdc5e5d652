"""Messages: those of a stream, fragments joined, and messages as octets."""
from __future__ import annotations

import ctypes
from dataclasses import dataclass, field
from typing import Any, Dict, Iterator, List, Optional, Sequence, Tuple, Union

from ._cdr import BIG, Reader, pack, unpack
from ._library import (LIMIT, PARTIALS, Held, LemonrudderError, Octets, Text, address_of, call, checked, copied, lent,
                       library, named, octets_of, structs, written)
from ._table import ContextId, Cuts, Error, Fault, LocateStatus, MessageType, Order, Part, ReplyStatus, Wish

FT_REQUEST = ContextId.FT_REQUEST
"""The id of the service context of a request that may be sent again (Fault Tolerant CORBA 23.2.7)."""


class StreamError(LemonrudderError):
    """A stream has a fault and is at its end.

    fault: a member of `Fault`. messages: those that completed before it in the octets that were fed last.
    """

    def __init__(self, fault: int, found: Sequence[Message] = ()) -> None:
        self.fault = named(Fault, fault)
        self.messages = list(found)
        super().__init__(Error.STREAM, f"fault of the stream: {getattr(self.fault, 'name', self.fault)}")


@dataclass(frozen=True)
class Body:
    """Octets that hold values: their order, and the place of the first one, from which they are aligned. max_elements:
    as of Reader."""

    octets: bytes = b""
    order: int = BIG
    at: int = 0
    max_elements: Optional[int] = field(default=None, repr=False, compare=False)

    def reader(self) -> Reader:
        return Reader(self.octets, self.order, self.at, self.max_elements)

    def unpack(self, format: str) -> Tuple[Any, ...]:
        """The values at its front. Errors as of the function unpack."""
        return unpack(format, self.octets, self.order, self.at, self.max_elements)


@dataclass(frozen=True)
class FtRequest:
    """What the context FT_REQUEST of a request says (Fault Tolerant CORBA 23.2.7).

    client: the id of the client. retention_id: the number of its call. expiration: the moment up to which it counts.
    """

    client: bytes
    retention_id: int
    expiration: int


@dataclass(frozen=True)
class Message:
    """A message of a stream. What a message of its type does not have is None.

    type: a MessageType. version: the minor number, 0 to 2. order: that of the message. request_id: of all but
    CLOSE_CONNECTION and ERROR. status: a ReplyStatus of a Reply, a LocateStatus of a LocateReply. wish: of a
    Request. key: the object key of a Request or LocateRequest whose target has one. operation: of a Request. body: of a
    Request, Reply or LocateReply. contexts: ids and data of the service contexts of a Request or Reply. ft: what its
    first FT_REQUEST says, of a Request that carries a valid one.
    """

    type: MessageType
    version: int
    order: Order
    request_id: Optional[int] = None
    status: Union[ReplyStatus, LocateStatus, None] = None
    wish: Optional[Wish] = None
    key: Optional[bytes] = None
    operation: Optional[str] = None
    body: Optional[Body] = None
    contexts: List[Tuple[int, bytes]] = field(default_factory=list)
    ft: Optional[FtRequest] = None


class Assembler(Held):
    """Takes the octets of a stream, which is one direction of a connection, in pieces, and gives its messages.

    limit: the octets that a message may have, 4096 to 16777216. partials: how many may be partial at a time, 1 to 16.
    cuts: where a message of 1.1 may be cut, one of Cuts.
    Raises LemonrudderError (RANGE).
    """

    def __init__(self, limit: int = LIMIT, partials: int = PARTIALS, cuts: int = Cuts.ALIGNED) -> None:
        super().__init__()
        self._room = ctypes.create_string_buffer(4096)
        call(library.lr_assembler_open_cuts, self._slot, limit, partials, cuts)

    def feed(self, octets: Octets) -> List[Message]:
        """Takes octets, and returns the messages that they complete.

        Raises StreamError, which has those before the fault; from there on each call raises it, with none.
        """
        found: List[Message] = []
        try:
            found.extend(self._each(octets))
        except StreamError as error:
            raise StreamError(error.fault, found) from None
        return found

    @property
    def fault(self) -> Optional[int]:
        """The first fault of the stream, a member of `Fault`; None where there is none."""
        fault = call(library.lr_assembler_fault, self._slot)
        return named(Fault, fault) if fault else None

    def _each(self, octets: Octets) -> Iterator[Message]:
        """The messages that octets complete, each when it is asked for."""
        octets, at = octets_of(octets), 0
        address = address_of(octets)
        head = structs["lr_message"]()
        while at < len(octets):
            answer = library.lr_assembler_feed(self._slot, address + at, len(octets) - at)
            if answer == Error.STREAM:
                raise StreamError(call(library.lr_assembler_fault, self._slot))
            at += checked(answer)
            if call(library.lr_assembler_message, self._slot, head, ctypes.sizeof(head)):
                yield self._message(head)

    def _part(self, part: int) -> bytes:
        return copied(self._room, library.lr_assembler_part, self._slot, part)

    def _context(self, index: int) -> Tuple[int, bytes]:
        number = ctypes.c_uint32()
        data = copied(self._room, library.lr_assembler_context, self._slot, index, number)
        return number.value, data

    def _message(self, head: Any) -> Message:
        kind, order = MessageType(head.type), Order(head.order)
        said: Dict[str, Any] = {}
        if kind not in (MessageType.CLOSE_CONNECTION, MessageType.ERROR):
            said["request_id"] = head.request_id
        if kind == MessageType.REQUEST:
            said["wish"] = Wish(head.wish)
            said["operation"] = self._part(Part.OPERATION).decode("latin-1")
        if kind in (MessageType.REPLY, MessageType.LOCATE_REPLY):
            said["status"] = named(ReplyStatus if kind == MessageType.REPLY else LocateStatus, head.status)
        if kind in (MessageType.REQUEST, MessageType.REPLY):
            said["contexts"] = [self._context(index) for index in range(head.contexts)]
        if kind in (MessageType.REQUEST, MessageType.REPLY, MessageType.LOCATE_REPLY):
            said["body"] = Body(self._part(Part.BODY), order, head.body_at)
        if head.has_key:
            said["key"] = self._part(Part.KEY)
        if head.has_client:
            said["ft"] = FtRequest(self._part(Part.CLIENT), head.retention_id, head.expiration)
        return Message(kind, head.version, order, **said)


def listed(contexts: Sequence[Tuple[int, Octets]], order: int = BIG) -> bytes:
    """Ids and data of service contexts as an IOP::ServiceContextList; nothing, where there are none."""
    return pack("[(Lo)]", list(contexts), order=order) if contexts else b""


def _message(size: int, function: Any, *arguments: Any) -> bytes:
    """What a function writes into the room that it is given first: it has about so many octets."""
    return written(size, lambda room, size: call(function, room, size, *arguments))


def messages(octets: Octets, limit: int = LIMIT, partials: int = PARTIALS,
             cuts: int = Cuts.ALIGNED) -> Iterator[Message]:
    """The messages of a stream, one after another, fragments joined. What is left over at its end is not looked at.

    Limits as of Assembler. Raises StreamError where the stream has a fault, after the messages before it.
    """
    with Assembler(limit, partials, cuts) as assembler:
        yield from assembler._each(octets)


def write_request(request_id: int, key: Text, operation: Text, body: Octets = b"", *, version: int = 2,
                  order: int = BIG, wish: int = Wish.FULL, context: Optional[Tuple[int, Octets]] = None) -> bytes:
    """A Request to an object key, with at most one service context: an id, and data that is not empty.

    The body is in the order of the message, and written for a place divisible by 8, as by pack with at=0.
    Raises LemonrudderError (RANGE, TEXT, LONG, MEMORY), as all of these functions; PLACE: in 1.0 and 1.1, where a body
    would stand at another place.
    """
    number, data = context if context is not None else (0, b"")
    if context is not None and not data:
        raise LemonrudderError(Error.RANGE, "a service context without data")
    size = 128 + len(key) + len(operation) + len(data) + len(body)
    return _message(size, library.lr_write_request, version, order, request_id, wish, *lent(key), *lent(operation),
                    number, *lent(data), *lent(body))


def write_reply(request_id: int, body: Octets = b"", *, status: int = ReplyStatus.NO_EXCEPTION, version: int = 2,
                order: int = BIG) -> bytes:
    """A Reply without service contexts. The body is as of write_request."""
    return _message(64 + len(body), library.lr_write_reply, version, order, request_id, status, *lent(body))


def write_cancel(request_id: int, *, version: int = 2, order: int = BIG) -> bytes:
    """A CancelRequest."""
    return _message(64, library.lr_write_cancel, version, order, request_id)


def write_locate_request(request_id: int, key: Text, *, version: int = 2, order: int = BIG) -> bytes:
    """A LocateRequest of an object key."""
    return _message(64 + len(key), library.lr_write_locate_request, version, order, request_id, *lent(key))


def write_locate_reply(request_id: int, status: int, *, version: int = 2, order: int = BIG) -> bytes:
    """A LocateReply without a body."""
    return _message(64, library.lr_write_locate_reply, version, order, request_id, status)


def write_close() -> bytes:
    """CloseConnection."""
    return _message(64, library.lr_write_close)


def write_error() -> bytes:
    """MessageError."""
    return _message(64, library.lr_write_error)


def write_ft(client: Text, retention_id: int, expiration: int, order: int = BIG) -> bytes:
    """The data of an FT_REQUEST context. The client id has no NUL."""
    return _message(64 + len(client), library.lr_write_ft, order, *lent(client), retention_id, expiration)
