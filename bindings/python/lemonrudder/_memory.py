"""Outcomes in memory, which may be handed over to the next process."""
from __future__ import annotations

import asyncio
import pickle
from contextlib import asynccontextmanager
from typing import Any, AsyncIterator, Dict, Iterator, MutableMapping, Optional, Tuple

from ._messages import FtRequest
from ._outcomes import Outcome, Refuse
from ._store import Kept, StoreError

_GONE = object()
# the version of what is handed over
_VERSION = 1


class _Transaction(MutableMapping[Any, Any]):
    """A mapping as a transaction has changed it, and the outcomes that it keeps."""

    def __init__(self, state: Dict[Any, Any]) -> None:
        self.state = state
        self.changes: Dict[Any, Any] = {}
        self.outcomes: Dict[Tuple[bytes, int], Tuple[int, Outcome]] = {}

    def __getitem__(self, key: Any) -> Any:
        value = self.changes.get(key, _GONE) if key in self.changes else self.state[key]
        if value is _GONE:
            raise KeyError(key)
        return value

    def __setitem__(self, key: Any, value: Any) -> None:
        self.changes[key] = value

    def __delitem__(self, key: Any) -> None:
        if key not in self:
            raise KeyError(key)
        self.changes[key] = _GONE

    def __iter__(self) -> Iterator[Any]:
        yield from (key for key in self.state if key not in self.changes)
        yield from (key for key, value in self.changes.items() if value is not _GONE)

    def __len__(self) -> int:
        return sum(1 for _ in self)


class MemoryStore:
    """A Store in memory, for one event loop: what it has ends with the process, unless it is handed over.

    Its transactions, one at a time, give a mapping, which is the servants' state: keys and values are theirs, and a
    value is replaced and not changed in place, so that it can be undone. What `hand_over` gives of a Server that is
    closed, `taken_over` makes a store of in the next process, before that one listens. It is a pickle: take it only of
    a process of your own.
    """

    def __init__(self) -> None:
        self.state: Dict[Any, Any] = {}
        self._outcomes: Dict[Tuple[bytes, int], Tuple[int, Outcome]] = {}
        self._least = 0
        self._turn: Optional[asyncio.Lock] = None
        self._is_over = False

    @classmethod
    def taken_over(cls, octets: bytes) -> MemoryStore:
        """The store that was handed over. Raises StoreError."""
        try:
            version, state, outcomes, least = pickle.loads(octets)
        except Exception as error:
            raise StoreError(f"what was handed over can't be read: {error}") from error
        if version != _VERSION:
            raise StoreError(f"what was handed over is of version {version}, and not {_VERSION}")
        store = cls()
        store.state, store._least = state, least
        store._outcomes = {key: (expiration, Outcome(*outcome)) for key, expiration, outcome in outcomes}
        return store

    def hand_over(self) -> bytes:
        """All that it has, for `taken_over`. From now on it fails, so that nothing is done that is not handed over."""
        if self._turn is not None and self._turn.locked():
            raise StoreError("a transaction is under way: close the server first")
        self._is_over = True
        outcomes = [(key, expiration, (int(it.status), int(it.order), bytes(it.body)))
                    for key, (expiration, it) in self._outcomes.items()]
        return pickle.dumps((_VERSION, self.state, outcomes, self._least))

    def is_trouble(self, error: BaseException) -> bool:
        return isinstance(error, StoreError)

    @asynccontextmanager
    async def transaction(self) -> AsyncIterator[Any]:
        """A transaction: a mapping. It is committed at its end."""
        if self._turn is None:
            self._turn = asyncio.Lock()
        async with self._turn:
            self._sure_of_use()
            transaction = _Transaction(self.state)
            yield transaction
            for key, value in transaction.changes.items():
                if value is _GONE:
                    self.state.pop(key, None)
                else:
                    self.state[key] = value
            self._outcomes.update(transaction.outcomes)

    async def find(self, key: FtRequest) -> Optional[Outcome]:
        self._sure_of_use()
        found = self._outcomes.get((bytes(key.client), key.retention_id))
        if found is None and key.expiration < self._least:
            raise Refuse("BAD_CONTEXT")
        return found[1] if found else None

    async def put(self, transaction: Any, key: FtRequest, outcome: Outcome) -> None:
        name = bytes(key.client), key.retention_id
        if key.expiration < self._least:
            raise Refuse("BAD_CONTEXT")
        if name in self._outcomes or name in transaction.outcomes:
            raise Kept
        transaction.outcomes[name] = key.expiration, outcome

    async def purge(self, moment: int) -> int:
        async with self.transaction():
            old = [name for name, (expiration, _) in self._outcomes.items() if expiration < moment]
            if old:
                self._least = max(self._least, max(self._outcomes[name][0] for name in old) + 1)
            for name in old:
                del self._outcomes[name]
            return len(old)

    def _sure_of_use(self) -> None:
        if self._is_over:
            raise StoreError("it was handed over")
