"""Outcomes in a SQLite file."""
from __future__ import annotations

import asyncio
from concurrent.futures import ThreadPoolExecutor
from contextlib import asynccontextmanager
from functools import partial
from typing import Any, AsyncIterator, Optional

from ._messages import FtRequest
from ._outcomes import Outcome, Refuse
from ._store import Kept, StoreError, changes, octets_of_moment, statements, sure_of_version

try:
    import sqlite3
except ImportError:  # (Python may be built without it)
    sqlite3 = None  # type: ignore[assignment]

_SAYS = statements("sqlite")
# how many seconds pass between attempts to open it
_PAUSE = 0.5


class _Group:
    """A transaction of several requests: when it has begun, and when it is committed."""

    def __init__(self, begun: asyncio.Future[None], ended: asyncio.Future[None]) -> None:
        self.begun, self.ended, self.size = begun, ended, 0


def _pass_on(one: asyncio.Future[None], *, to: asyncio.Future[None]) -> None:
    """Ends a future as another one has ended, if it has not."""
    if to.done():
        return
    error = one.exception()
    if error is None:
        to.set_result(None)
    else:
        to.set_exception(error)


class SqliteStore:
    """A Store in a SQLite file, for one event loop; other processes may use the file too.

    Its transactions give an sqlite3.Connection, whose statements are executed at once, on the thread of the loop: so
    they have to be short, and COMMIT, ROLLBACK and what ends a transaction by itself are none of theirs. Those of
    requests that wait together, `group` at most, are committed by one COMMIT, on another thread, each undone alone.

    path: the file. schema: statements that make the tables of the servants where they are missing. busy: the seconds
    that another process may keep the file from being written. It has its tables of outcomes, a write-ahead log, and
    synchronous=FULL: what is committed outlives a power cut.
    """

    def __init__(self, path: str, schema: str = "", *, group: int = 256, busy: float = 5.0) -> None:
        if sqlite3 is None:
            raise StoreError("this Python has no module sqlite3")
        self.path, self.schema, self.group, self.busy = path, schema, group, busy
        self._thread = ThreadPoolExecutor(1, "lemonrudder-store")
        self._writer: Any = None
        self._reader: Any = None
        self._turn: Any = None
        self._group: Optional[_Group] = None
        # who waits for a turn; an attempt to open it, and when another may be made
        self._waiting = 0
        self._opening: Any = None
        self._failed, self._next = "", 0.0

    async def open(self) -> None:
        """Opens it, if it is not open. Raises StoreError."""
        if self._writer is not None:
            return
        loop = asyncio.get_running_loop()
        if self._opening is None:
            if loop.time() < self._next:
                raise StoreError(self._failed)
            self._opening = loop.create_task(self._begin())
        await asyncio.shield(self._opening)

    async def close(self) -> None:
        """Closes it, once what is under way is committed. What asks it then opens it anew."""
        connections, self._writer, self._reader = (self._writer, self._reader), None, None
        for connection in connections:
            if connection is not None:
                await asyncio.get_running_loop().run_in_executor(self._thread, connection.close)

    def is_trouble(self, error: BaseException) -> bool:
        others = (sqlite3.IntegrityError, sqlite3.ProgrammingError, sqlite3.DataError, sqlite3.NotSupportedError)
        return isinstance(error, (StoreError, OSError)) or (
            isinstance(error, sqlite3.DatabaseError) and not isinstance(error, others))

    @asynccontextmanager
    async def transaction(self) -> AsyncIterator[Any]:
        """A transaction: an sqlite3.Connection. It is committed with those that wait beside it, at its end."""
        await self.open()
        self._waiting += 1
        has_turn = False
        try:
            async with self._turn:
                self._waiting, has_turn = self._waiting - 1, True
                group = self._group = self._group or self._new_group()
                try:
                    await asyncio.shield(group.begun)
                    if not self._writer.in_transaction:
                        raise StoreError(f"{self.path}: a transaction beside this one was undone")
                    self._writer.execute("SAVEPOINT request")
                    try:
                        yield self._writer
                    except BaseException:
                        # (where the file is full, say, all is undone already)
                        if self._writer.in_transaction:
                            self._writer.execute("ROLLBACK TO request")
                            self._writer.execute("RELEASE request")
                        raise
                    self._writer.execute("RELEASE request")
                finally:
                    self._leave(group)
        finally:
            if not has_turn:
                self._waiting -= 1
        await asyncio.shield(group.ended)

    async def find(self, key: FtRequest) -> Optional[Outcome]:
        await self.open()
        (moment, status, little, body), = self._reader.execute(_SAYS["find"], (key.client, key.retention_id)).fetchall()
        if status is not None:
            return Outcome(status, little, body)
        if octets_of_moment(key.expiration) < moment:
            raise Refuse("BAD_CONTEXT")
        return None

    async def put(self, transaction: Any, key: FtRequest, outcome: Outcome) -> None:
        # (who writes has the lock of the whole file, W among it)
        values = (key.client, key.retention_id, octets_of_moment(key.expiration), outcome.status, int(outcome.order),
                  bytes(outcome.body))
        try:
            kept = transaction.execute(_SAYS["keep"], values).rowcount
        except sqlite3.IntegrityError as error:
            raise Kept from error
        if kept != 1:
            raise Refuse("BAD_CONTEXT")

    async def purge(self, moment: int) -> int:
        async with self.transaction() as db:
            before = (octets_of_moment(moment),)
            (greatest,), = db.execute(_SAYS["greatest"], before).fetchall()
            if greatest is None:
                return 0
            least = octets_of_moment(int.from_bytes(greatest, "big") + 1)
            db.execute(_SAYS["raise"], (least,))
            return int(db.execute(_SAYS["take out"], before).rowcount)

    # ---- on the loop's thread ----

    async def _begin(self) -> None:
        """Opens it on the other thread."""
        loop = asyncio.get_running_loop()
        try:
            self._writer, self._reader = await loop.run_in_executor(self._thread, self._open)
            self._turn = asyncio.Lock()
        except StoreError as error:
            self._failed, self._next = str(error), loop.time() + _PAUSE
            raise
        finally:
            self._opening = None

    def _new_group(self) -> _Group:
        """A transaction that begins once the one before is committed."""
        loop = asyncio.get_running_loop()
        ended = loop.create_future()
        begun = loop.run_in_executor(self._thread, self._writer.execute, "BEGIN IMMEDIATE")
        for future in (begun, ended):
            future.add_done_callback(lambda one: one.cancelled() or one.exception())
        return _Group(begun, ended)

    def _leave(self, group: _Group) -> None:
        """A request has had its turn: the last one that waits has the transaction committed."""
        group.size += 1
        if self._waiting > 0 and group.size < self.group:
            return
        self._group = None
        committing = asyncio.get_running_loop().run_in_executor(self._thread, self._commit, self._writer)
        committing.add_done_callback(partial(_pass_on, to=group.ended))

    # ---- on the other thread ----

    def _open(self) -> Any:
        """Opens it, and makes the tables that are missing. Raises StoreError."""
        opened = []
        try:
            for _ in range(2):
                opened.append(sqlite3.connect(self.path, timeout=self.busy, isolation_level=None,
                                              check_same_thread=False))
            writer, reader = opened
            (mode,), = writer.execute("PRAGMA journal_mode=WAL").fetchall()
            if mode != "wal":
                raise StoreError(f"{self.path} takes no write-ahead log")
            writer.execute("PRAGMA synchronous=FULL")
            self._make_tables(writer)
            writer.executescript("BEGIN IMMEDIATE;" + self.schema)
            writer.execute("COMMIT")
            return writer, reader
        except (sqlite3.Error, StoreError) as error:
            for connection in opened:
                connection.close()
            raise StoreError(str(error) if isinstance(error, StoreError) else f"{self.path}: {error}") from error

    def _make_tables(self, writer: Any) -> None:
        """Has the tables be there, in a transaction."""
        writer.execute("BEGIN IMMEDIATE")
        (found,), = writer.execute(_SAYS["found"]).fetchall()
        said = ""
        # (each alone: executescript would commit before)
        for line in changes(_SAYS, found, self.path).splitlines(True):
            said += line
            if sqlite3.complete_statement(said):
                writer.execute(said)
                said = ""
        (version,), = writer.execute(_SAYS["version"]).fetchall()
        sure_of_version(version, self.path)
        writer.execute("COMMIT")

    @staticmethod
    def _commit(writer: Any) -> None:
        """Commits a transaction, or undoes it."""
        try:
            writer.execute("COMMIT")
        except BaseException:
            if writer.in_transaction:
                writer.execute("ROLLBACK")
            raise
