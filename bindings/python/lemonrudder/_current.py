"""What a servant can know of the request that it performs."""
from __future__ import annotations

from contextvars import ContextVar
from dataclasses import dataclass, field
from typing import Any, Awaitable, Callable, Mapping, Optional, Sequence, Tuple

from ._library import Octets
from ._outcomes import Outcome


@dataclass(frozen=True)
class Current:
    """The request that is performed.

    key: the object key that it came under, as of one of a family. operation: its name. client_id, retention_id and
    expiration: of its FT_REQUEST, None where it carries none; the first two name it on each of its ways. connection:
    the number of its connection. peer: the address at the other end, as of socket.getpeername. certificate: what the
    peer showed, as of ssl.SSLSocket.getpeercert; None without TLS. contexts: ids and data of its service contexts, the
    first 64 of them. request_id, version and wish: those of its message.
    """

    key: bytes
    operation: str
    client_id: Optional[bytes]
    retention_id: Optional[int]
    expiration: Optional[int]
    connection: int
    peer: Any
    certificate: Optional[Mapping[str, Any]]
    contexts: Tuple[Tuple[int, bytes], ...]
    request_id: int
    version: int
    wish: int
    _wanted: Callable[[], int] = field(repr=False, compare=False)
    _say: Callable[[Sequence[Tuple[int, Octets]]], None] = field(repr=False, compare=False)
    _store: Optional[Callable[[Any, Any], Awaitable[Outcome]]] = field(default=None, repr=False, compare=False)

    @property
    def wanted(self) -> int:
        """How many wait for the outcome now, on connections that go on: 0 where nobody would hear it."""
        return self._wanted()

    def context(self, id: int) -> Optional[bytes]:
        """The data of the first service context of an id, or None."""
        return next((data for number, data in self.contexts if number == id), None)

    def reply_contexts(self, contexts: Sequence[Tuple[int, Octets]]) -> None:
        """Ids and data of service contexts for the replies to this request, as of Engine.reply_contexts: those that
        were said for it last. Of a server with a store the replies to requests with FT_REQUEST go without. Raises
        ValueError or TypeError: they are none; LemonrudderError (TICKET: it is answered)."""
        self._say(contexts)

    async def store(self, transaction: Any, results: Any = None) -> Outcome:
        """Writes the outcome of this request with its key into the store of the server, in a transaction, and returns
        it: what the servant is to return once that is committed. Of a request without FT_REQUEST nothing is written.

        results: what the servant would return, or a UserException or SystemException in place of raising it.

        Raises Kept (the store has one already) and Refuse (its expiration lies before what was taken out): let these
        end the transaction, which undoes what it did. RuntimeError: the server has no store; ValueError, TypeError,
        LemonrudderError: they are no outcome of the operation; and what the store's database raises.
        """
        if self._store is None:
            raise RuntimeError("the server has no store")
        return await self._store(transaction, results)


CURRENT: ContextVar[Current] = ContextVar("lemonrudder.current")


def current() -> Current:
    """The request that is performed here: in a servant, plain or async, and in what it calls and the tasks that it
    starts. Raises RuntimeError: elsewhere."""
    try:
        return CURRENT.get()
    except LookupError:
        raise RuntimeError("no request is performed here") from None
