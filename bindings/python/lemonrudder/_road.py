"""Where calls of a client go by: a connection at a time, to one of some places."""
from __future__ import annotations

import asyncio
import ctypes
import random
import ssl
from typing import TYPE_CHECKING, Any, Dict, List, Optional, Tuple

from ._library import Held, LemonrudderError, call, copied, lent, library, named, now, structs
from ._messages import Body, StreamError, messages
from ._outcomes import SystemException
from ._table import ClientSetting, Ended, Order

if TYPE_CHECKING:
    from ._client import Settings

Place = Tuple[str, int]
# the greatest message
_LONGEST = 16777216


class Call:
    """A call: its operation, expiration and arguments. `wish` is that of a raw one, else None."""

    def __init__(self, operation: bytes, expiration: int, wish: Optional[int], parts: Tuple[Any, ...]) -> None:
        self.operation, self.expiration, self.wish, self.parts = operation, expiration, wish, parts
        self.number: Optional[int] = None
        # how it ended, None where nobody answers, and its body
        self.ended: asyncio.Future[Tuple[Optional[int], Body]] = asyncio.get_running_loop().create_future()
        # how often it was sent, and what stood in the way last
        self.sent = 0
        # the seconds that one place has to answer it, where nothing else is said
        self.share = 0.0
        self.cause: Optional[BaseException] = None


class Road:
    """Calls that are pending at a server with some places, and the connection to it, if there is one.

    may_fail: where none of the places answers, its calls end so; else they are tried until they expire.
    """

    def __init__(self, places: Tuple[Place, ...], settings: Settings, may_fail: bool = False) -> None:
        self.places, self.settings, self.may_fail = places, settings, may_fail
        self.calls: Dict[int, Call] = {}
        self.greatest = self._at = 0
        self._held = Held()
        self._slot = self._held._slot
        self._room = ctypes.create_string_buffer(65536)
        self._turns: List[asyncio.Future[None]] = []
        self._transport: Any = None
        self._task: Optional[asyncio.Task[None]] = None
        self._is_closed = self._is_heard = False
        self._cause: Optional[BaseException] = None
        self._delay = settings.delays[0]
        self._resending: Optional[asyncio.TimerHandle] = None
        self._ticking: Optional[asyncio.TimerHandle] = None
        # since when the place has said nothing though calls are pending there, and why it is left for that
        self._silent_since = self._share = 0.0
        self._watching: Optional[asyncio.TimerHandle] = None
        self._mute: Optional[TimeoutError] = None
        call(library.lr_client_open, self._slot, *lent(settings.client_id))
        for what, value in ((ClientSetting.VERSION, settings.version), (ClientSetting.MESSAGE, settings.limit),
                            (ClientSetting.PARTIALS, settings.partials), (ClientSetting.CUTS, settings.cuts),
                            (ClientSetting.KEEP_TRANSIENT, int(settings.keep_transient))):
            call(library.lr_client_set, self._slot, what, value)

    @property
    def place(self) -> Place:
        """The place that was asked last, or is to be asked first."""
        return self.places[self._at % len(self.places)]

    def take(self, made: Call, number: int, key: bytes) -> None:
        """Takes a call under a number, greater than each before, and a key. Raises LemonrudderError."""
        words = (self._slot, number, now(), made.expiration)
        if made.wish is None:
            call(library.lr_client_recall, *words, *lent(key), *lent(made.operation), *made.parts)
        else:
            call(library.lr_client_recall_raw, *words, made.wish, *lent(key), *lent(made.operation), *made.parts)
        loop = asyncio.get_running_loop()
        if made.ended.done():
            made.ended = loop.create_future()
        self.greatest = made.number = number
        made.share = (made.expiration - words[2]) / 10**7 / (len(self.places) + self.may_fail)
        if not self.calls:
            self._silent_since = loop.time()
        self.calls[number] = made
        made.sent += self._transport is not None
        self._settle()
        self._flush()
        if self.calls and (self._task is None or self._task.done()):
            self._task = loop.create_task(self._keep_connected())
        if self._ticking is None:
            self._tick()
        if self._watching is None or made.share < self._share:
            self._watch()

    def cancel(self, made: Call) -> None:
        """A call is no longer wanted."""
        if made.number in self.calls and not self._is_closed:
            call(library.lr_client_cancel, self._slot, made.number)
            self._settle()
            self._flush()

    async def room(self) -> None:
        """Waits until one of the calls ends."""
        turn = asyncio.get_running_loop().create_future()
        self._turns.append(turn)
        await turn

    def end(self) -> None:
        """Ends at once. Calls that are pending end by ConnectionError."""
        self._is_closed = True
        closed = ConnectionError("the client is closed")
        waiting: List[asyncio.Future[Any]] = [*(made.ended for made in self.calls.values()), *self._turns]
        for future in waiting:
            if not future.done():
                future.set_exception(closed)
        self.calls.clear()
        for timer in (self._resending, self._ticking, self._watching):
            if timer is not None:
                timer.cancel()
        if self._task is not None:
            self._task.cancel()
        if self._transport is not None:
            self._transport.abort()
        self._held.close()

    async def close(self) -> None:
        """Ends, and waits for what it had under way."""
        self.end()
        if self._task is not None:
            await asyncio.wait([self._task])

    def _give(self, number: int, how: Optional[int], body: Body) -> None:
        """Says how a call has ended to who waits for it."""
        made = self.calls.pop(number, None)
        if made is not None and not made.ended.done():
            made.cause = self._cause
            made.ended.set_result((how, body))
        turns, self._turns = self._turns, []
        for turn in turns:
            if not turn.done():
                turn.set_result(None)

    def _settle(self) -> None:
        """Hands out how calls have ended."""
        completion = structs["lr_completion"]()
        while call(library.lr_client_completed, self._slot, completion, ctypes.sizeof(completion)):
            octets = b""
            if completion.how <= Ended.FORWARDED:
                octets = copied(self._room, library.lr_client_body, self._slot)
            if completion.how <= Ended.NEEDS_ADDRESSING:
                self._is_heard, self._delay, self._cause = True, self.settings.delays[0], None
            self._give(completion.call, completion.how,
                       Body(octets, named(Order, completion.body_order), completion.body_at))

    def _output(self) -> bytes:
        """Takes what is due."""
        parts: List[bytes] = []
        while True:
            size = call(library.lr_client_output, self._slot, self._room, len(self._room))
            if size == 0:
                return b"".join(parts)
            parts.append(ctypes.string_at(self._room, size))

    def _flush(self) -> None:
        """Sends what is due."""
        if self._transport is not None:
            octets = self._output()
            if octets:
                self._transport.write(octets)

    def _tick(self) -> None:
        """Ends calls whose expiration is past by the system's clock, which may be set meanwhile."""
        self._ticking = None
        if self._is_closed:
            return
        call(library.lr_client_tick, self._slot, now())
        self._settle()
        if self.calls:
            first = min(made.expiration for made in self.calls.values())
            seconds = min(max(first - now(), 0) / 10**7 + 0.001, 1.0)
            self._ticking = asyncio.get_running_loop().call_later(seconds, self._tick)

    def _watch(self) -> None:
        """Leaves a place that says nothing though calls are pending there, where they may go elsewhere."""
        if self._watching is not None:
            self._watching.cancel()
            self._watching = None
        if self._transport is None or not self.calls or len(self.places) + self.may_fail < 2:
            return
        self._share = min(made.share for made in self.calls.values())
        given, loop = self.settings.answer_timeout, asyncio.get_running_loop()
        seconds = self._share if given is None else given
        left = self._silent_since + seconds - loop.time()
        if left > 0:
            self._watching = loop.call_later(left, self._watch)
        else:
            self._mute, self._is_heard = TimeoutError(f"the address said nothing for {seconds:.3g} seconds"), False
            self._transport.abort()

    def _later(self) -> float:
        """The seconds to wait now, by chance; the next time they are more."""
        delay, self._delay = self._delay, min(2 * self._delay, self.settings.delays[1])
        return delay * random.uniform(0.5, 1.0)

    async def _keep_connected(self) -> None:
        """Connects while calls are pending, to one place after another."""
        failed = 0
        while self.calls:
            self._is_heard, self._mute = False, None
            is_made = False
            try:
                link = await self._connect(self.place)
                is_made = True
                self._cause = await link.ended
            except (OSError, ValueError, ssl.CertificateError, asyncio.TimeoutError) as error:
                self._cause = error
            if self._is_heard:
                failed = 0
                continue
            is_made = is_made and self._mute is None
            self._at += 1
            failed = 0 if is_made else failed + 1
            if self.may_fail and failed >= len(self.places):
                self._fail()
            if self.calls and (is_made or failed % len(self.places) == 0):
                await asyncio.sleep(self._later())

    async def _connect(self, place: Place) -> Link:
        """A connection to a place."""
        loop = asyncio.get_running_loop()
        connecting = loop.create_connection(lambda: Link(self, loop.create_future()), *place, **self.settings.options)
        _, link = await asyncio.wait_for(connecting, self.settings.connect_timeout)
        return link

    def _fail(self) -> None:
        """Nobody answers: the calls end so."""
        for number in list(self.calls):
            made = self.calls[number]
            call(library.lr_client_cancel, self._slot, number)
            self._give(number, None, Body())
            made.cause = self._cause
        self._settle()

    def _resend(self) -> None:
        """Sends what TRANSIENT left pending. Where that is all, the next place is tried."""
        self._resending = None
        if self._transport is None or self._is_closed:
            return
        try:
            call(library.lr_client_resend, self._slot, now())
        except LemonrudderError as error:
            self._cause = error
            self._transport.abort()
            return
        octets = self._output()
        numbers = _numbers_in(octets)
        if numbers:
            self._cause = SystemException("TRANSIENT")
        if numbers and len(numbers) == len(self.calls) and len(self.places) > 1:
            # (it is left: what is pending is sent at the next place)
            self._is_heard = False
            self._transport.abort()
        elif octets:
            for number in numbers:
                if number in self.calls:
                    self.calls[number].sent += 1
            self._transport.write(octets)

    def _connected(self, transport: Any) -> None:
        """A connection is there."""
        try:
            call(library.lr_client_connected, self._slot, now())
        except LemonrudderError as error:
            self._cause = error
            transport.abort()
            return
        self._transport, self._silent_since = transport, asyncio.get_running_loop().time()
        for made in self.calls.values():
            made.sent += 1
        self._settle()
        self._flush()
        self._watch()

    def _receive(self, octets: bytes) -> None:
        """Octets came."""
        if self._is_closed or self._transport is None:
            return
        self._silent_since = asyncio.get_running_loop().time()
        try:
            call(library.lr_client_feed, self._slot, octets, len(octets))
        except LemonrudderError as error:
            self._cause = error
        self._settle()
        self._flush()
        if not call(library.lr_client_is_connected, self._slot):
            self._transport.close()
        elif self.calls and self._resending is None and self.settings.keep_transient:
            self._resending = asyncio.get_running_loop().call_later(self._later(), self._resend)

    def _lost(self) -> None:
        """The connection is gone."""
        self._transport = None
        for timer in (self._resending, self._watching):
            if timer is not None:
                timer.cancel()
        self._resending = self._watching = None
        if not self._is_closed:
            call(library.lr_client_lost, self._slot)


def _numbers_in(octets: bytes) -> List[int]:
    """The numbers of the calls whose Requests these are."""
    try:
        return [one.ft.retention_id for one in messages(octets, _LONGEST) if one.ft is not None]
    except StreamError:
        return []


class Link(asyncio.Protocol):
    """A connection of a road. `ended` is done once it is gone, and has why."""

    def __init__(self, road: Road, ended: asyncio.Future[BaseException]) -> None:
        self.road, self.ended = road, ended
        self.transport: Any = None

    def connection_made(self, transport: Any) -> None:
        self.transport = transport
        self.road._connected(transport)

    def data_received(self, data: bytes) -> None:
        self.road._receive(bytes(data))

    def connection_lost(self, error: Optional[Exception]) -> None:
        if self.road._transport is self.transport:
            self.road._lost()
        if not self.ended.done():
            kept = self.road._cause if isinstance(self.road._cause, (SystemException, LemonrudderError)) else None
            why = self.road._mute or error or kept
            self.ended.set_result(why or ConnectionResetError("the server closed the connection"))
