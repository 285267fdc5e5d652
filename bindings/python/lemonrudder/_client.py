"""A client over asyncio, that sends its calls again."""
from __future__ import annotations

import asyncio
import re
import secrets
from dataclasses import dataclass
from typing import Any, Dict, List, Mapping, Optional, Sequence, Tuple, Union

from ._cdr import BIG, Reader, pack, parsed, result_of, type_codes
from ._library import LIMIT, PARTIALS, LemonrudderError, Octets, Text, lent, now, octets_of
from ._messages import Body, listed
from ._outcomes import Expired, ForwardRequest, NeedsAddressing, SystemException, UserException
from ._references import Ior
from ._road import Call, Place, Road
from ._table import Cuts, Ended, Error, Wish

_LAST = (1 << 31) - 1
_NOT_EXIST = b"IDL:omg.org/CORBA/OBJECT_NOT_EXIST:1.0\0"
# how many keys are known to lead elsewhere at most
_ROUTES = 1024


@dataclass(frozen=True)
class Settings:
    """What the roads of a client have in common."""

    client_id: bytes
    version: int
    limit: int
    partials: int
    cuts: int
    delays: Tuple[float, float]
    connect_timeout: float
    answer_timeout: Optional[float]
    keep_transient: bool
    options: Mapping[str, Any]


class Client:
    """Calls operations over asyncio. A call is sent again on each new connection until it is answered or expires.

        client = Client("127.0.0.1", 2809)
        total = await client.call(b"bank", "deposit", "sq", ("alice", 5), results="q")

    A connection is made when there is something to send, and anew when it is lost. Each call carries FT_REQUEST, so
    that a server that keeps outcomes performs it once. A client is for one event loop.

    host and port: of the server. others: further hosts and ports of it, which share its outcomes; one after another is
    tried. Between rounds it waits, by chance between half of a delay and all of it; delays are the least, which
    doubles each time, and the most, in seconds. client_id: 1 to 256 octets without a NUL, which no other client has or
    had: servers know a call by it and by a number that begins at 1. Without one it is random; with one of before,
    `recall` and `skip_to` say which numbers were used. version: 0 to 2. limit, partials and cuts: as of
    Assembler.
    keep_transient: a call that TRANSIENT answers, unless it was completed, is sent again after a while, in place of
    raising. keep_forward: one that is forwarded is asked for under its number where it leads, on a connection of its
    own, and so are later calls of its key, until nobody answers there; in place of raising ForwardRequest.
    connect_timeout: the seconds that a connection may take to be made. answer_timeout: the seconds that one of several
    places may say nothing while calls are pending there, which are then sent to the next one under their numbers, or
    asked for as at first where they were forwarded; None: its share of the time that a call has. `options` go to
    loop.create_connection, as `ssl` and `server_hostname`.
    Raises LemonrudderError (RANGE, TEXT); ValueError: no port.
    """

    def __init__(self, host: str, port: int, client_id: Optional[Text] = None, *,
                 others: Sequence[Tuple[str, int]] = (), version: int = 2, limit: int = LIMIT, partials: int = PARTIALS,
                 cuts: int = Cuts.ALIGNED, delays: Tuple[float, float] = (0.02, 1.0), keep_transient: bool = True,
                 keep_forward: bool = True, connect_timeout: float = 10.0, answer_timeout: Optional[float] = None,
                 **options: Any) -> None:
        places = ((host, port), *others)
        for _, one in places:
            if not 0 < one < 65536:
                raise ValueError(f"no port: {one}")
        self.client_id = octets_of(client_id if client_id is not None else secrets.token_hex(16))
        self.key, self.is_closed, self.keep_forward = b"", False, keep_forward
        self._settings = Settings(self.client_id, version, limit, partials, cuts, delays, connect_timeout, answer_timeout,
                                  keep_transient, options)
        self._last = 0
        self._home: Tuple[Place, ...] = places
        # where calls go by, and the keys that are known to lead elsewhere
        self._roads: List[Road] = [Road(places, self._settings)]
        self._routes: Dict[bytes, Tuple[Tuple[Place, ...], bytes]] = {}

    @classmethod
    def of(cls, reference: Union[Ior, str], client_id: Optional[Text] = None, **options: Any) -> Client:
        """A client of the object that a reference names: of all its addresses under the object key of the first one,
        which is `key`, in the least of their versions.

        Raises LemonrudderError (REFERENCE: also where it has no profile of IIOP; TEXT, RANGE)."""
        ior = reference if isinstance(reference, Ior) else Ior.parse(reference)
        addresses = [one for one in ior.addresses if 0 < one.port]
        if not addresses:
            raise LemonrudderError(Error.REFERENCE, "the reference has no address of IIOP")
        first = addresses[0]
        addresses = [one for one in addresses if one.key == first.key]
        options.setdefault("version", min(one.minor for one in addresses))
        options.setdefault("others", [(one.host, one.port) for one in addresses[1:]])
        client = cls(first.host, first.port, client_id, **options)
        client.key = first.key
        return client

    @property
    def host(self) -> str:
        """The host that was asked last, or is to be asked first."""
        return self._roads[0].place[0]

    @property
    def port(self) -> int:
        """Its port."""
        return self._roads[0].place[1]

    async def call(self, key: Text, operation: Text, arguments: str = "", values: Sequence[Any] = (), results: str = "",
                   raises: Optional[Mapping[str, str]] = None, *, timeout: float = 60.0,
                   expiration: Optional[int] = None) -> Any:
        """Calls an operation, and returns its results: None where there are none, the value of one, else a tuple.

        arguments and results: their formats. values: those of the arguments. raises: the formats of the members of each
        exception, by its repository id; any other is raised with its members as a body. expiration: the moment up to
        which the call is sent; without one, `timeout` seconds from now.

        Raises UserException, SystemException, ForwardRequest or NeedsAddressing, as the server answers; Expired, whose
        cause is what stood in the way last; ConnectionError (the client is closed); LemonrudderError (CALLS: all
        numbers were given; LONG, TEXT; SHORT, VALUE: the reply does not hold the results, or more, as where none were
        named); FormatError, ValueError or TypeError (the values are not of their types). A call that is cancelled is
        cancelled at the server too, which may have performed it.
        """
        return await self._typed(None, key, operation, arguments, values, results, raises, timeout, expiration)

    async def recall(self, number: int, key: Text, operation: Text, arguments: str = "", values: Sequence[Any] = (),
                     results: str = "", raises: Optional[Mapping[str, str]] = None, *, expiration: int) -> Any:
        """Takes a call of before up again under its number: as call, in a client with the id of before. A server that
        performed it gives its first outcome. expiration: the one that it had.

        Raises what call does, and LemonrudderError (TAKEN: the number is 0, or not greater than each that this client
        gave, took up or skipped; RANGE: it is below 0, or over 2147483647).
        """
        return await self._typed(number, key, operation, arguments, values, results, raises, 0.0, expiration)

    async def call_raw(self, key: Text, operation: Text, body: Octets = b"", *, order: int = BIG,
                       wish: int = Wish.FULL, contexts: Sequence[Tuple[int, Octets]] = (), timeout: float = 60.0,
                       expiration: Optional[int] = None, number: Optional[int] = None) -> Body:
        """Calls an operation by a body of octets in an order, written for a place divisible by 8, and returns that of
        the reply. contexts: ids and data of service contexts, beside FT_REQUEST. wish: FULL, or EMPTY for a reply
        without results; of NONE nothing comes back, and the body is empty. number: that of a call of before, which is
        taken up as by recall.

        Raises what call does, and LemonrudderError (PLACE: in 1.0 and 1.1 the body would stand at another place;
        VALUE: FT_REQUEST is among the contexts).
        """
        parts = (order, *lent(listed(contexts, order)), *lent(body))
        made = Call(octets_of(operation), _expiration(timeout, expiration), wish, parts)
        how, answer = await self._made(number, octets_of(key), made)
        if how in (Ended.RETURNED, Ended.SENT):
            return answer
        raise _raised(how, answer, {})

    async def oneway(self, key: Text, operation: Text, arguments: str = "", values: Sequence[Any] = (), *,
                     timeout: float = 60.0, expiration: Optional[int] = None) -> None:
        """Calls an operation that has no reply, and returns when it is sent: it is not known whether it arrives. All
        else is as of call_raw."""
        await self.call_raw(key, operation, pack(arguments, *values), wish=Wish.NONE, timeout=timeout,
                            expiration=expiration)

    def skip_to(self, number: int) -> None:
        """Numbers up to this one were used before: the next call gets a greater one.

        Raises LemonrudderError (RANGE: it is below 0, or over 2147483647)."""
        if not 0 <= number <= _LAST:
            raise LemonrudderError(Error.RANGE)
        self._last = max(self._last, number)

    async def close(self) -> None:
        """Closes its connections. Calls that are pending end by ConnectionError."""
        self.is_closed = True
        for road in self._roads:
            await road.close()

    async def __aenter__(self) -> Client:
        return self

    async def __aexit__(self, *error: Any) -> None:
        await self.close()

    async def _typed(self, number: Optional[int], key: Text, operation: Text, arguments: str, values: Sequence[Any],
                     results: str, raises: Optional[Mapping[str, str]], timeout: float,
                     expiration: Optional[int]) -> Any:
        """Makes a call with types, under a number of before if there is one, and returns its results."""
        raises = raises or {}
        parts = (*lent(type_codes(arguments)), BIG, *lent(pack(arguments, *values)))
        for format in (results, *raises.values()):
            parsed(format)
        made = Call(octets_of(operation), _expiration(timeout, expiration), None, parts)
        how, body = await self._made(number, octets_of(key), made)
        if how == Ended.RETURNED:
            return result_of(_whole(body.reader(), results))
        raise _raised(how, body, raises)

    async def _made(self, number: Optional[int], key: bytes, made: Call) -> Tuple[int, Body]:
        """Makes a call of a key, where that leads to, and returns how it ended."""
        places, there = self._routes.get(key, (self._home, key))
        delay, hops = self._settings.delays[0], 0
        while True:
            road = await self._taken(places, number, there, made)
            try:
                how, body = await made.ended
            except asyncio.CancelledError:
                road.cancel(made)
                raise
            finally:
                self._leave(road)
            number = made.number
            if how is None:
                # (nobody answers where it was led: it is asked for as at first)
                self._routes.pop(key, None)
                places, there = self._home, key
            elif how == Ended.FORWARDED and self.keep_forward:
                places, there = self._led(key, Ior.read(body.reader()))
                hops += 1
            elif how == Ended.EXPIRED:
                text = f"no answer up to the expiration; it was sent {made.sent} times"
                raise Expired(text, made.sent) from made.cause
            else:
                if how == Ended.SYSTEM and _NOT_EXIST in body.octets[:64]:
                    # (the next call of the key is asked for as at first)
                    self._routes.pop(key, None)
                return how, body
            if how is None or hops > 2:
                await asyncio.sleep(delay)
                delay = min(2 * delay, self._settings.delays[1])

    def _led(self, key: bytes, ior: Ior) -> Tuple[Tuple[Place, ...], bytes]:
        """Where a key leads by a reference: places, and the key there. Raises ForwardRequest: to no address."""
        addresses = [one for one in ior.addresses if 0 < one.port]
        if not addresses:
            raise ForwardRequest(ior)
        there = addresses[0].key
        places = tuple((one.host, one.port) for one in addresses if one.key == there)
        if len(self._routes) >= _ROUTES:
            self._routes.clear()
        self._routes[key] = places, there
        return places, there

    async def _taken(self, places: Tuple[Place, ...], number: Optional[int], key: bytes, made: Call) -> Road:
        """Hands a call to a road, as soon as one has room for it, and returns that. It has a number then: this one, the
        one that it had before, or the next."""
        while not self.is_closed:
            if made.number is None:
                fresh = self._last + 1 if number is None else number
                self._check(number, fresh)
            else:
                fresh = made.number
            road = self._road(places, fresh)
            try:
                road.take(made, fresh, key)
            except LemonrudderError as error:
                if error.number == Error.EXPIRED:
                    raise Expired("the expiration is past", made.sent) from made.cause
                if error.number != Error.CALLS or not road.calls:
                    raise
            else:
                self._last = max(self._last, fresh)
                return road
            await road.room()
        raise ConnectionError("the client is closed")

    def _check(self, number: Optional[int], fresh: int) -> None:
        """Whether a call may have a number."""
        if number is None and fresh > _LAST:
            raise LemonrudderError(Error.CALLS)
        if not 0 <= fresh <= _LAST:
            raise LemonrudderError(Error.RANGE)
        if number is not None and fresh <= self._last:
            raise LemonrudderError(Error.TAKEN)

    def _road(self, places: Tuple[Place, ...], number: int) -> Road:
        """A road to places that may take a number: numbers go up on each."""
        for road in self._roads:
            if road.places == places and road.greatest < number:
                return road
        road = Road(places, self._settings, places != self._home)
        self._roads.append(road)
        return road

    def _leave(self, road: Road) -> None:
        """Closes a road that nothing goes by any more."""
        if road.calls or road is self._roads[0] or self.is_closed:
            return
        others = [one for one in self._roads if one.places == road.places and one is not road]
        if others or all(places != road.places for places, _ in self._routes.values()):
            self._roads.remove(road)
            road.end()


def _expiration(timeout: float, expiration: Optional[int]) -> int:
    """The moment up to which a call is sent. (Thousands of years are for ever.)"""
    return now() + round(min(max(timeout, 0.0), 1e11) * 10**7) if expiration is None else expiration


def _whole(reader: Reader, format: str) -> Tuple[Any, ...]:
    """All values that are left, which are those of the types of a format."""
    values = reader.read(format)
    left = len(reader.octets) - reader.next
    if left:
        raise LemonrudderError(Error.VALUE, f"the reply has {left} octets more than {format!r}")
    return values


def _raised(how: int, body: Body, raises: Mapping[str, str]) -> Exception:
    """What a call raises that has ended in another way than by returning."""
    if how == Ended.RAISED:
        reader = body.reader()
        id, = reader.read("s")
        if id in raises:
            return UserException(id, _whole(reader, raises[id]))
        return UserException(id, (), Body(body.octets[reader.next:], body.order, body.at + reader.next))
    if how == Ended.SYSTEM:
        id, minor, completed = body.unpack("sLL")
        found = re.fullmatch(r"IDL:omg\.org/CORBA/(\w+):1\.0", id)
        return SystemException(found.group(1) if found else id, minor, completed)
    if how == Ended.FORWARDED:
        return ForwardRequest(Ior.read(body.reader()))
    return NeedsAddressing()
