"""Outcomes in PostgreSQL, by a pool of asyncpg, which is handed in: nothing is imported here."""
from __future__ import annotations

import asyncio
from contextlib import asynccontextmanager
from typing import Any, AsyncIterator, Awaitable, Callable, List, Optional, Tuple

from ._messages import FtRequest
from ._outcomes import Outcome, Refuse
from ._store import Kept, StoreError, changes, octets_of_moment, statements, sure_of_version

_SAYS = statements("postgres")
# the state of an error that says that a key is there; and those, by their first two characters, that say that the
# database failed: its connection, a transaction, its room, an operator, the system
_UNIQUE = "23505"
_TROUBLES = ("08", "25", "40", "53", "55", "57", "58", "F0", "XX")
_PAUSE = 0.5


class PostgresStore:
    """A Store in PostgreSQL, for one event loop; other processes may use the database too.

    Its transactions give a connection of asyncpg. `put` takes one of any pool of the same database, at each level of
    isolation, so that a servant may begin its transaction itself.

    connect: a function that gives a pool of asyncpg, or what gives one when it is awaited, as
    `functools.partial(asyncpg.create_pool, "postgres://..")`. schema: statements that make the tables of the servants
    where they are missing. The tables of outcomes are in the first schema of its search_path. synchronous_commit has to
    be on: what is committed outlives the database.
    """

    def __init__(self, connect: Callable[[], Awaitable[Any]], schema: str = "") -> None:
        self._connect, self.schema = connect, schema
        self._pool: Any = None
        self._opening: Any = None
        self._failed, self._next = "", 0.0
        # keys that are looked for next, and what looks for those before
        self._asked: List[Tuple[FtRequest, asyncio.Future[Any]]] = []
        self._finding: Any = None

    async def open(self) -> None:
        """Opens it, if it is not open. Raises StoreError."""
        if self._pool is not None:
            return
        loop = asyncio.get_running_loop()
        if self._opening is None:
            if loop.time() < self._next:
                raise StoreError(self._failed)
            self._opening = loop.create_task(self._open())
        await asyncio.shield(self._opening)

    async def close(self) -> None:
        """Closes it, once what is under way has ended. What asks it then opens it anew."""
        pool, self._pool = self._pool, None
        if pool is not None:
            await pool.close()

    def is_trouble(self, error: BaseException) -> bool:
        state = getattr(error, "sqlstate", None)
        if isinstance(state, str):
            return state.startswith(_TROUBLES)
        is_of_driver = type(error).__module__.partition(".")[0] == "asyncpg"
        return is_of_driver or isinstance(error, (StoreError, OSError, asyncio.TimeoutError))

    @asynccontextmanager
    async def transaction(self) -> AsyncIterator[Any]:
        """A transaction: a connection of asyncpg."""
        await self.open()
        async with self._pool.acquire() as db:
            async with db.transaction():
                yield db

    async def find(self, key: FtRequest) -> Optional[Outcome]:
        await self.open()
        loop = asyncio.get_running_loop()
        future = loop.create_future()
        self._asked.append((key, future))
        if self._finding is None:
            self._finding = loop.create_task(self._find())
        moment, status, little, body = await future
        if status is not None:
            return Outcome(status, little, body)
        if octets_of_moment(key.expiration) < moment:
            raise Refuse("BAD_CONTEXT")
        return None

    async def put(self, transaction: Any, key: FtRequest, outcome: Outcome) -> None:
        try:
            done = await transaction.execute(
                _SAYS["keep"], key.client, key.retention_id, octets_of_moment(key.expiration), int(outcome.status),
                int(outcome.order), bytes(outcome.body))
        except Exception as error:
            if getattr(error, "sqlstate", None) == _UNIQUE:
                raise Kept from error
            raise
        if done != "INSERT 0 1":
            raise Refuse("BAD_CONTEXT")

    async def purge(self, moment: int) -> int:
        async with self.transaction() as db:
            before = octets_of_moment(moment)
            await db.fetch(_SAYS["alone"])
            greatest = await db.fetchval(_SAYS["greatest"], before)
            if greatest is None:
                return 0
            least = octets_of_moment(int.from_bytes(greatest, "big") + 1)
            await db.execute(_SAYS["raise"], least)
            done = await db.execute(_SAYS["take out"], before)
            return int(done.split()[1])

    async def _open(self) -> None:
        """Opens it, and makes the tables that are missing."""
        pool = None
        try:
            pool = await self._connect()
            async with pool.acquire() as db, db.transaction():
                await db.execute(_SAYS["lock"])
                words = changes(_SAYS, await db.fetchval(_SAYS["found"]), "the database") + self.schema
                if words:
                    await db.execute(words)
                sure_of_version(await db.fetchval(_SAYS["version"]), "the database")
            self._pool = pool
        except Exception as error:
            if pool is not None:
                pool.terminate()
            if not isinstance(error, StoreError):
                error = StoreError(f"the database: {' '.join(str(error).split()) or type(error).__name__}")
            self._failed, self._next = str(error), asyncio.get_running_loop().time() + _PAUSE
            raise error from None
        finally:
            self._opening = None

    async def _find(self) -> None:
        """Looks for the keys that are asked for, all that wait at a time, by one connection."""
        asked: List[Tuple[FtRequest, asyncio.Future[Any]]] = []
        try:
            async with self._pool.acquire() as db:
                while self._asked:
                    asked, self._asked = self._asked, []
                    keys = ",".join(f"{key.client.hex()}:{key.retention_id}" for key, _ in asked)
                    rows = await db.fetch(_SAYS["find all"], keys)
                    for (_, future), row in zip(asked, rows):
                        if not future.done():
                            future.set_result(row)
        except BaseException as error:
            asked, self._asked = asked + self._asked, []
            for _, future in asked:
                if not future.done():
                    future.set_exception(error if isinstance(error, Exception) else StoreError("the store is closed"))
            if not isinstance(error, Exception):
                raise
        finally:
            # (who asked while the connection was given back was not seen)
            self._finding = asyncio.ensure_future(self._find()) if self._asked else None
