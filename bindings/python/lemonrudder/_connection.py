"""A connection of a Server."""
from __future__ import annotations

import asyncio
import sys
import time
from typing import TYPE_CHECKING, Any, Optional

from ._library import LemonrudderError, address_of, now

if TYPE_CHECKING:
    from ._server import Server

try:
    import fcntl
    import termios
except ImportError:  # (Windows has neither)
    fcntl = termios = None  # type: ignore[assignment]

# how many octets are read at a time, and written
_PIECE = 65536
_NOTHING = memoryview(b"")
PEER_ENDED = "its peer ended it"


class Connection(asyncio.BufferedProtocol):
    """A connection of a Server.

    What came is taken message by message, in turns between which other connections have theirs. Nothing is taken while
    what is due is not sent, or while as many of its requests are parked as may be; and nothing is read while some of
    what came is left. So of each connection there are held: what one read brought, what its messages that are not whole
    have, what its parked requests do and the replies to them, and a bounded number of octets that are due.
    """

    def __init__(self, server: Server) -> None:
        self.server, self.number, self.works = server, 0, 0
        self.transport: Any = None
        self.peer: Any = None
        self.certificate: Any = None
        self.heard = 0.0
        # why it ends, where its stream does not say
        self.reason = ""
        self._loop = asyncio.get_running_loop()
        self._room = _NOTHING
        # what came, when, where it lies, and the index of what was not taken yet
        self._came, self._moment, self._address, self._at = b"", 0, 0, 0
        # whether a turn is to come; what was written is not taken; a place for a request is waited for; goodbye was
        # said, so that all that comes means nothing
        self._has_turn = self._is_full = self._waits = self._is_over = False
        self._watch: Optional[asyncio.TimerHandle] = None

    def __str__(self) -> str:
        peer = self.peer
        place = f"{peer[0]}:{peer[1]}" if isinstance(peer, tuple) and len(peer) > 1 else str(peer or "local")
        return f"connection {self.number} ({place})"

    def connection_made(self, transport: Any) -> None:
        self.transport, self.heard = transport, self._loop.time()
        self.peer = transport.get_extra_info("peername")
        self.certificate = transport.get_extra_info("peercert")
        transport.set_write_buffer_limits(_PIECE)
        self.server._enter(self)

    def get_buffer(self, sizehint: int) -> memoryview:
        # (TLS fills it from slices of it, which of a bytearray would be copies)
        self._room = memoryview(bytearray(_PIECE))
        return self._room

    def buffer_updated(self, nbytes: int) -> None:
        octets, self._room = bytes(self._room[:nbytes]), _NOTHING
        self.heard = self._loop.time()
        self.server._hear(self)
        if self._is_over or self.server.is_closed:
            return
        left = self._came[self._at:]
        self._came, self._at, self._moment = left + octets if left else octets, 0, now()
        self._address = address_of(self._came)
        if not (self._has_turn or self._is_full or self._waits):
            self._turn()

    def eof_received(self) -> bool:
        """The peer has ended its stream, and with it the connection: what is parked is answered for its repeats."""
        self.reason = self.reason or PEER_ENDED
        return False

    def pause_writing(self) -> None:
        self._is_full = True
        if not self.transport.is_closing():
            self.transport.pause_reading()
        self._drop_if_stuck()

    def resume_writing(self) -> None:
        self._is_full = False
        self.heard = self._loop.time()
        self.end()
        self._go_on()

    def connection_lost(self, error: Optional[Exception]) -> None:
        self._drop()
        if self._watch is not None:
            self._watch.cancel()
        self.server._leave(self)

    def place_is_free(self) -> None:
        """Goes on where a place for a request was waited for."""
        if self._waits:
            self._waits = False
            self._go_on()

    @property
    def is_idle(self) -> bool:
        """Whether nothing of it is left to do here."""
        return not (self.works or self._is_full or self._is_over or self._at < len(self._came))

    @property
    def is_quiet(self) -> bool:
        """Whether it is idle, and has sent all that is due."""
        return self.is_idle and not self.transport.is_closing() and not self._left()

    def farewell(self, reason: str = "") -> None:
        """Says goodbye, behind what is parked, and closes the connection then."""
        engine = self.server._engine
        self._drop()
        self.reason = self.reason or reason
        self._is_over = True
        try:
            if not engine.is_closed(self.number):
                engine.farewell(self.number)
        except LemonrudderError as error:
            self.reason = str(error)
        self.end()

    def end(self) -> None:
        """Sends what is due, and closes the connection where it has ended."""
        if self.server.is_closed or self.transport.is_closing():
            return
        engine = self.server._engine
        while not self._is_full:
            octets = engine.output(self.number, _PIECE)
            if octets:
                self.transport.write(octets)
            elif engine.is_closed(self.number):
                self.transport.close()
                self._drop_if_stuck()
                return
            else:
                return

    def _turn(self) -> None:
        """Takes messages for a turn, and sees to it that the rest has another."""
        self._has_turn = False
        if self.server.is_closed or self._is_over or self.transport.is_closing():
            self._drop()
            return
        try:
            self._take(time.monotonic() + self.server._turn())
        except LemonrudderError as error:
            self.reason = str(error)
            self._drop()
        except BaseException:
            self.transport.abort()
            raise
        self.end()
        self._go_on()

    def _take(self, until: float) -> None:
        """Takes what came, one message after another, up to a time at which no further one is begun."""
        server, engine, came = self.server, self.server._engine, self._came
        while self._at < len(came) and not self._is_full and not self.transport.is_closing():
            if not server._has_place(self):
                self._waits = True
                return
            # (each message begins by these octets: of those up to them one ends at most)
            end = came.find(b"GIOP", self._at + 1)
            end = end if end > 0 else len(came)
            taken = engine._feed(self.number, self._address + self._at, self._moment, end - self._at)
            self._at += taken
            if not server._works.perform(self):
                server._note(self)
                if engine.is_closed(self.number):
                    return
                if taken == 0:
                    self.end()  # (so much is due that it takes no more)
            if time.monotonic() >= until:
                return

    def _go_on(self) -> None:
        """Goes on with what is left, or reads."""
        if self.transport.is_closing() or self._is_over:
            self._drop()
        elif self._at < len(self._came):
            self.transport.pause_reading()
            if not (self._has_turn or self._is_full or self._waits):
                self._has_turn = True
                self._loop.call_soon(self._turn)
        elif not self._is_full:
            self._drop()
            self.transport.resume_reading()

    def _drop(self) -> None:
        """Drops what came and is left."""
        self._came, self._address, self._at = b"", 0, 0

    def _left(self) -> int:
        """The octets that the peer has not taken, those that the system holds among them where it tells."""
        try:
            left = int(self.transport.get_write_buffer_size())
        except AttributeError:
            return 0  # (of 3.8: it is of TLS, and gone)
        if not left or termios is None:
            return left
        try:
            held = fcntl.ioctl(self.transport.get_extra_info("socket"), termios.TIOCOUTQ, bytes(4))
        except (OSError, ValueError):
            return left
        return left + int.from_bytes(held, sys.byteorder)

    def _drop_if_stuck(self, before: Optional[int] = None) -> None:
        """Drops the connection once its peer has taken nothing for as long as the server waits, of so much before."""
        if self._watch is not None:
            self._watch.cancel()
            self._watch = None
        left = self._left()
        if not left or not (self._is_full or self.transport.is_closing()):
            return
        if left == before:
            self.reason = "its peer takes nothing"
            self.transport.abort()
        else:
            self._watch = self._loop.call_later(self.server.write_timeout, self._drop_if_stuck, left)
