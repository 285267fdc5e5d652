"""A server over asyncio."""
from __future__ import annotations

import asyncio
import logging
from functools import partial
from typing import Any, Callable, Dict, List, Mapping, Optional, Sequence, Tuple, Union

from ._catalogue import Catalogue
from ._connection import PEER_ENDED, Connection
from ._door import Door
from ._durable import Durable
from ._engine import Asked, Engine
from ._library import LIMIT, PARTIALS, LemonrudderError, Text, octets_of
from ._lines import ENDED, REFUSED, Lines
from ._messages import Body
from ._references import Ior
from ._servants import Judged, Offer, Operation, Performer, described
from ._store import Store
from ._table import Cuts, Error, Why
from ._works import GRACE, Works

# how long a turn lasts, in seconds: after that no further message of a connection is taken, nor outcome told. The first
# counts where others were heard lately, which is so many seconds ago at most
_TURN, _LONG_TURN, _LATELY = 0.0001, 0.001, 0.1
# how often, in seconds, idle connections and outcomes that expired are looked for at least
_SWEEP = 10.0
# how a connection ends as it should
_USUAL = (PEER_ENDED, ENDED[Why.GOODBYE], ENDED[Why.FAREWELL], "the server closes")


class Server:
    """Serves Python objects over asyncio, so that a request that is sent again acts once.

        server = Server()
        server.add(b"bank", "IDL:Bank:1.0", {"deposit": ("sq", "q", deposit)})
        await server.listen("127.0.0.1", 2809)
        print(server.reference(b"bank"))
        await server.serve_forever()

    A function is called with the values of the arguments, and returns the results: None where there are none, the value
    where there is one, else a tuple. It may raise UserException, SystemException, GiveUp or Refuse. Any other Python
    exception is logged and answered as UNKNOWN, COMPLETED_MAYBE, an exception that the operation does not declare among
    them; results that are not of its types as INTERNAL, COMPLETED_MAYBE. Either is the outcome of the request, and its
    repeats get it again. `current()` says what is known of the request.

    Functions are plain or `async`. A plain one is performed where its request is read, in the order of requests, and
    all connections wait for it: so it has to be short. An async one is performed by a task: its request is parked, many
    are under way at once, and its answer goes out when it is there, on the connection of the request and on those of
    its repeats, which join it. Those of one connection may overtake one another: an object that needs an order has an
    asyncio.Lock of its own. Its outcome is kept where its connection is lost meanwhile.

    Connections take turns, so that one that sends much leaves time to the others. Of a peer that takes nothing of
    what is due, or has as many requests parked as may be, nothing more is read.

    limit, partials, cuts, capacity, share, max_parked, max_parked_of, max_joined, max_due and max_client_id: as of
    Engine.
    max_elements: how many elements of sequences, and structs in structs, the arguments of a request may have in all,
    but for numbers, booleans and characters, since each takes its time for all connections: one that has more is
    refused by MARSHAL; None: as many as there are. Where max_parked requests are parked, an async operation is refused
    by TRANSIENT; the last quarter of the places is for connections that have none. While as many outcomes are kept as
    may be, requests that are new and may be sent again are answered NO_RESOURCES. max_connections: who comes beyond
    takes the place of the one that is idle longest, for a second at least; where all are busy it waits. So it is where
    there are no descriptors. timeout: the seconds that an async operation may take; then it is cancelled, and, unless
    it says another outcome within a second, answered as TIMEOUT, COMPLETED_MAYBE, since it has perhaps acted.
    idle_timeout: the seconds after which goodbye is said on a connection that has been silent. write_timeout: the
    seconds that a peer may take nothing of what is due. None: as
    long as it likes.

    store: where outcomes are kept that outlive the process; without one they end with it. Each request with FT_REQUEST
    is looked up there first, and no other is performed but in place of one of which it has nothing. A servant writes
    its outcome in the transaction of what it does, by current().store. One that does not has it written afterwards:
    that is for those that change nothing. An exception that it raises undoes its transaction, and is written so too.
    While the store can't be used, requests with FT_REQUEST are answered TRANSIENT. capacity and share then count for
    nothing. purge_every: the seconds after which outcomes that expired are taken out, again and again; None: never.

    The logger `lemonrudder` has a line for each connection that ends, and why: at DEBUG where its peer or the server
    ended it. Of requests that are refused it has the first one of a connection and reason, and each second how many
    more there were.
    """

    def __init__(self, limit: int = LIMIT, partials: int = PARTIALS, capacity: int = 65536,
                 share: Optional[int] = None, *, max_parked: int = 1024, max_parked_of: int = 64, max_joined: int = 8,
                 max_due: int = 65536, max_client_id: int = 256, max_elements: Optional[int] = 65536,
                 cuts: int = Cuts.ALIGNED, max_connections: int = 1000, timeout: Optional[float] = None,
                 idle_timeout: Optional[float] = 300.0, write_timeout: float = 60.0, store: Optional[Store] = None,
                 purge_every: Optional[float] = 60.0) -> None:
        self.is_closed = False
        self.max_connections, self.timeout, self.idle_timeout = max_connections, timeout, idle_timeout
        self.write_timeout = write_timeout
        self.log = logging.getLogger("lemonrudder")
        self._lines = Lines(self.log)
        # (with a store nothing is kept, but each request that is parked, or is to be, takes a place)
        self._terms = (limit, partials, capacity, share) if store is None else (limit, partials, max_parked + 1, None)
        self._limits = {"max_parked": max_parked, "max_parked_of": max_parked_of, "max_joined": max_joined,
                        "max_due": max_due, "max_client_id": max_client_id, "cuts": cuts}
        self._max_elements = max_elements
        # what is on offer; before `listen` a catalogue says whether it can be
        self._offer, self._trial = Offer(), Catalogue()
        self._connections: Dict[int, Connection] = {}
        self._works = Works(self, max_parked)
        self._durable = None if store is None else Durable(self, store, purge_every)
        # who waits for a place, in order
        self._waiting: Dict[Connection, None] = {}
        self._refused = dict.fromkeys(REFUSED, 0)
        self._last = self._turned_away = 0
        # who was heard last, and since when it was always that one
        self._heard: Optional[Connection] = None
        self._heard_at = 0.0
        # from listen on
        self._engine: Any = None
        self._loop: Any = None
        self._ended: Any = None
        self._closing: Any = None
        self._sweeping: Optional[asyncio.TimerHandle] = None
        self._emptied: Any = None
        self._door = Door(self)
        self._addresses: List[Tuple[str, int]] = []

    # ---- objects ----

    def add(self, key: Text, repository_ids: Union[str, Sequence[str]], operations: Mapping[str, Operation],
            raises: Optional[Mapping[str, Mapping[str, str]]] = None, servant: Any = None, *,
            timeout: Optional[float] = None) -> None:
        """Adds an object, also while the server listens.

        repository_ids: the id of its type, and perhaps those of its bases. operations: for each name the formats of
        arguments and results, and a function; without one, the method of that name of the servant. An operation that is
        a function alone is raw: it gets a Body, and returns octets in big order that are written for a place divisible
        by 8, or a RawReply. raises: for each operation that declares exceptions, the formats of their members by their
        repository ids. timeout: the seconds that each may take, in place of those of the server.

        Raises FormatError; ValueError (exceptions of an operation without types); TypeError (no function, and no
        servant); AttributeError (the servant has no such method); LemonrudderError (TAKEN, TEXT; EMPTY: the server is
        closed; PARKS: it is called by a plain servant whose own request can't be parked).
        """
        servant = described(repository_ids, operations, raises, servant, timeout)
        self._change(partial(self._offer.add, key=octets_of(key), servant=servant))

    def remove(self, key: Text) -> None:
        """Takes an object away: who asks for it then hears OBJECT_NOT_EXIST. Its operations that are under way go on,
        and end by what becomes of them, which their repeats get. Raises LemonrudderError (OBJECT, EMPTY, PARKS as of
        add)."""
        self._change(partial(self._offer.remove, key=octets_of(key)))

    def add_family(self, prefix: Text, repository_ids: Union[str, Sequence[str]], operations: Mapping[str, Operation],
                   raises: Optional[Mapping[str, Mapping[str, str]]] = None, servant: Any = None, *,
                   timeout: Optional[float] = None) -> None:
        """Adds an object to which each key leads that begins with a prefix and is no object's own: current().key says
        for which. Of several prefixes of a key the longest counts. All else is as of add."""
        servant = described(repository_ids, operations, raises, servant, timeout)
        self._put(self._offer.with_family(octets_of(prefix), servant))

    def remove_family(self, prefix: Text) -> None:
        """Takes a family away, as remove does an object. Raises LemonrudderError (OBJECT, EMPTY, PARKS as of add)."""
        self._put(self._offer.without_family(octets_of(prefix)))

    def add_default(self, function: Callable[[Body], Any], *, timeout: Optional[float] = None) -> None:
        """Adds a function that performs each operation of each key that leads to no other object, raw as of add:
        current() says which. Raises TypeError (no function); LemonrudderError (TAKEN, EMPTY, PARKS as of add)."""
        if not callable(function):
            raise TypeError(f"no function: {function!r}")
        self._put(self._offer.with_default(Performer(None, function, timeout)))

    def reference(self, key: Text, host: Optional[str] = None, port: Optional[int] = None) -> Ior:
        """The reference to an object, at the address that was listened at first where no other is given.

        Raises KeyError (there is no such object); ValueError (no address); LemonrudderError (TEXT).
        """
        first_host, first_port = self._addresses[0] if self._addresses else (None, None)
        host, port = first_host if host is None else host, first_port if port is None else port
        if host is None or port is None:
            raise ValueError("no address")
        servant = self._offer.found(octets_of(key))
        if servant is None and self._offer.default is None:
            raise KeyError(key)
        return Ior.iiop(servant.ids[0] if servant is not None and servant.ids else "", host, port, key)

    # ---- serving ----

    async def listen(self, host: str = "127.0.0.1", port: int = 0, **options: Any) -> int:
        """Listens at an address, and returns the port: a free one where 0 is given. `options` go to loop.create_server,
        as `ssl` and `backlog`. It may be called for several addresses. Raises OSError; LemonrudderError (RANGE: a limit
        is none; EMPTY: the server is closed)."""
        if self.is_closed or self._closing is not None:
            raise LemonrudderError(Error.EMPTY, "the server is closed")
        loop = self._loop = asyncio.get_running_loop()
        if self._engine is None:
            with self._offer.catalogue() as catalogue:
                # (what a store has is answered first, also of what is no more)
                self._engine = Engine(catalogue, *self._terms, **self._limits, ask_first=self._durable is not None,
                                      max_elements=self._max_elements)
            self._trial.close()
            self._ended, self._emptied = loop.create_future(), loop.create_future()
            self._sweep()
            if self._durable is not None:
                self._durable.begin()
        self._addresses.append((host, await self._door.open(host, port, options)))
        return self._addresses[-1][1]

    @property
    def connections(self) -> int:
        """How many connections there are."""
        return len(self._connections)

    def stats(self) -> Dict[str, int]:
        """What the server has now (connections, kept outcomes, requests that are parked_now), and what became of the
        requests that came, by the names of `Counted` in small letters; how many async operations are under way, and
        connections were turned away. Empty before listen and after close."""
        if self._engine is None or self.is_closed:
            return {}
        return {**self._engine.counts(), "under_way": len(self._works), "turned_away": self._turned_away}

    async def serve_forever(self) -> None:
        """Waits until the server is closed, and closes it if this is cancelled. Raises RuntimeError before listen."""
        if self._ended is None:
            raise RuntimeError("the server does not listen")
        try:
            await asyncio.shield(self._ended)
        finally:
            await self.close()

    async def close(self, timeout: Optional[float] = 10.0) -> None:
        """Stops listening, says goodbye on each connection, and waits for what is parked, so many seconds at most; None:
        however long it takes. It is waited for also where its client is gone.

        What is under way then is cancelled: a servant that has done nothing may raise Refuse yet; else it is answered
        COMM_FAILURE, COMPLETED_MAYBE, since it has perhaps acted. What was kept for repeats is gone.
        """
        if self._closing is None:
            self._closing = asyncio.ensure_future(self._close(timeout))
        await asyncio.shield(self._closing)

    async def __aenter__(self) -> Server:
        return self

    async def __aexit__(self, *error: Any) -> None:
        await self.close()

    # ---- what is on offer ----

    def _change(self, change: Callable[[Catalogue], None]) -> None:
        """Changes one object of what is on offer."""
        if self._engine is None:
            change(self._trial)
            return
        with self._swappable() as catalogue:
            self._engine.swap(catalogue)
            try:
                change(catalogue)
            finally:
                self._engine.swap(catalogue)

    def _put(self, offer: Offer) -> None:
        """Puts other things on offer."""
        with offer.catalogue() as catalogue:
            if self.is_closed:
                raise LemonrudderError(Error.EMPTY, "the server is closed")
            if self._engine is not None:
                self._swappable().close()
                self._engine.swap(catalogue)
        self._offer = offer

    def _swappable(self) -> Catalogue:
        """An empty catalogue, when no request waits: one of a plain servant that calls this is parked."""
        if self.is_closed:
            raise LemonrudderError(Error.EMPTY, "the server is closed")
        if self._engine.asked() is not None:
            self._engine.park()
        return Catalogue()

    def _judged(self, asked: Asked) -> Judged:
        """What becomes of the request that waits. Raises KeyError: there is nothing of its name."""
        if self._durable is None and asked.refusal is None:
            return Judged(asked, self._offer.performer(asked.key, asked.operation))
        return self._offer.judged(asked)

    # ---- connections ----

    def _enter(self, connection: Connection) -> None:
        """Takes a new connection, or drops it."""
        self._door.entered(connection)
        if self._closing is not None:
            # (it was accepted before the listener closed)
            self._turn_away(connection, "the server closes", logging.DEBUG)
            return
        self._last += 1
        try:
            self._engine.connect(self._last)
        except LemonrudderError as error:
            self._turn_away(connection, error)
            return
        connection.number = self._last
        self._connections[self._last] = connection

    def _turn_away(self, connection: Connection, why: object, level: int = logging.WARNING) -> None:
        """Drops a new connection."""
        self._turned_away += 1
        self._lines.write("new connections", level, "%s is turned away: %s", connection, why)
        connection.transport.abort()

    def _leave(self, connection: Connection) -> None:
        """A connection is gone."""
        self._waiting.pop(connection, None)
        self._door.free()
        if self._connections.pop(connection.number, None) is None or self.is_closed:
            return
        why = self._engine.why(connection.number)
        text = ENDED.get(why) or f"its stream has a fault ({why.name})"
        if why in (Why.OPEN, Why.FAREWELL):
            text = connection.reason or text
        self.log.log(logging.DEBUG if text in _USUAL else logging.INFO, "%s ended: %s", connection, text)
        self._engine.lost(connection.number)
        if not self._connections and not self._emptied.done():
            self._emptied.set_result(None)

    def _hear(self, connection: Connection) -> None:
        """Octets came on a connection."""
        if connection is not self._heard:
            self._heard, self._heard_at = connection, connection.heard

    def _turn(self) -> float:
        """How long a turn lasts now."""
        return _TURN if self._loop.time() - self._heard_at < _LATELY else _LONG_TURN

    def _note(self, connection: Connection) -> None:
        """Tells of each request that was refused since this was called."""
        for what, (level, why) in REFUSED.items():
            count = self._engine.count(what)
            if count != self._refused[what]:
                self._refused[what] = count
                self._lines.write(connection, level, "a request is refused on %s: %s", connection, why)

    def _sweep(self) -> None:
        """Forgets what has expired, ends connections that memory was too short to answer on, and says goodbye where
        nothing was said for long."""
        idle = self.idle_timeout
        self._sweeping = self._loop.call_later(_SWEEP if idle is None else min(_SWEEP, idle / 4), self._sweep)
        self._engine.tick()
        for connection in list(self._connections.values()):
            if self._engine.is_closed(connection.number):
                connection.end()
        if idle is not None:
            least = self._loop.time() - idle
            for connection in [one for one in self._connections.values() if one.heard < least and one.is_idle]:
                connection.farewell("it was idle")

    def _has_place(self, connection: Connection) -> bool:
        """Whether a request of a connection may be parked; else it is told when it may."""
        most = self._limits["max_parked"]
        if connection.works == 0:
            return True
        if connection.works >= self._limits["max_parked_of"]:
            return False
        if len(self._works) < most - most // 4:
            return True
        self._waiting[connection] = None
        return False

    def _wake(self, connection: Connection) -> None:
        """A place is free that a connection had."""
        connection.place_is_free()
        most = self._limits["max_parked"]
        free = most - most // 4 - len(self._works) if self._works else len(self._waiting)
        while free > 0 and self._waiting:
            free -= 1
            first = next(iter(self._waiting))
            del self._waiting[first]
            first.place_is_free()

    # ---- the end ----

    def _tell(self) -> None:
        """Sends what became due by the outcomes of parked requests."""
        while not self.is_closed:
            number = self._engine.next_due()
            if number is None:
                return
            connection = self._connections.get(number)
            if connection is not None:
                connection.end()

    async def _close(self, timeout: Optional[float]) -> None:
        """Ends as close says."""
        if self._engine is not None and not self.is_closed:
            self._door.close()
            for connection in list(self._connections.values()):
                connection.farewell("the server closes")
            self._tell()
            await self._works.ends(timeout)
            self._works.cut_all("COMM_FAILURE")
            await self._works.ends(2 * GRACE)
            if self._connections and not self.is_closed:
                # (replies are on their way)
                if self._emptied.done():
                    self._emptied = self._loop.create_future()
                await asyncio.wait([self._emptied], timeout=GRACE if timeout is None else min(timeout, GRACE))
        self._stop()

    def _stop(self, error: Optional[Exception] = None) -> None:
        """Ends at once, with an error or without one."""
        if self.is_closed:
            return
        self.is_closed = True
        if self._sweeping is not None:
            self._sweeping.cancel()
        self._door.stop()
        for connection in list(self._connections.values()):
            if not connection.transport.is_closing():
                connection.transport.abort()
        self._works.cancel()
        if self._durable is not None:
            self._durable.end()
        self._lines.flush()
        self._trial.close()
        if self._engine is not None:
            self._engine.close()
        if self._ended is not None and not self._ended.done():
            if error is None:
                self._ended.set_result(None)
            else:
                self._ended.set_exception(error)
