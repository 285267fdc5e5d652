"""Where a Server takes new connections."""
from __future__ import annotations

import asyncio
import errno
import logging
import select
import socket
from typing import TYPE_CHECKING, Any, Dict, List, Mapping, Tuple

from ._connection import Connection

if TYPE_CHECKING:
    from ._server import Server

# for how many seconds one that makes place has said nothing, at least; and how long a place is waited for at a time
_IDLE, _PAUSE = 1.0, 0.1
# what `accept` says where there are no descriptors, or no memory, for one more
_FULL = (errno.EMFILE, errno.ENFILE, errno.ENOBUFS, errno.ENOMEM)
# which options of loop.create_server are of connections
_OF_CONNECTIONS = ("ssl", "ssl_handshake_timeout", "ssl_shutdown_timeout")


class Door:
    """Takes new connections while there are places and descriptors for them. One that comes beyond these takes the
    place of who is idle longest; where all are busy it waits."""

    def __init__(self, server: Server) -> None:
        self._server = server
        self._sockets: List[socket.socket] = []
        self._tasks: List[asyncio.Task[None]] = []
        # those that are not connected yet, as to TLS, and since when
        self._entering: Dict[Connection, Tuple[asyncio.Task[None], float]] = {}
        # done once a place is free
        self._freed: Any = None

    async def open(self, host: str, port: int, options: Mapping[str, Any]) -> int:
        """Takes those of an address too, and returns its port. Raises OSError."""
        loop = asyncio.get_running_loop()
        words: Dict[str, Any] = {**options, "start_serving": False}
        bound = await loop.create_server(asyncio.Protocol, host, port, **words)
        sockets = [socket.fromfd(one.fileno(), one.family, one.type) for one in bound.sockets]
        bound.close()
        try:
            for one in sockets:
                one.setblocking(False)
                one.listen(options.get("backlog", 100))
        except BaseException:
            for one in sockets:
                one.close()
            raise
        self._freed = self._freed or loop.create_future()
        self._sockets += sockets
        given = {name: value for name, value in options.items() if name in _OF_CONNECTIONS}
        self._tasks += [loop.create_task(self._accept(one, given)) for one in sockets]
        return int(sockets[0].getsockname()[1])

    def close(self) -> None:
        """Takes no more."""
        for task in self._tasks:
            task.cancel()
        for one in self._sockets:
            one.close()
        self._tasks, self._sockets = [], []

    def stop(self) -> None:
        """Takes no more, nor those that are not connected yet."""
        self.close()
        for task, _ in self._entering.values():
            task.cancel()

    def entered(self, connection: Connection) -> None:
        """One is connected."""
        self._entering.pop(connection, None)

    def free(self) -> None:
        """A place is free."""
        if self._freed is not None and not self._freed.done():
            self._freed.set_result(None)

    async def _accept(self, listening: socket.socket, options: Mapping[str, Any]) -> None:
        """Accepts connections, one after another."""
        loop = asyncio.get_running_loop()
        while True:
            try:
                accepted, _ = await loop.sock_accept(listening)
            except OSError as error:
                # (without descriptors it says so also where nobody waits)
                if error.errno in _FULL and _is_waited_at(listening):
                    await self._make_place(error)
                else:
                    await asyncio.sleep(_PAUSE)
                continue
            try:
                while len(self._server._connections) + len(self._entering) >= self._server.max_connections:
                    await self._make_place("there are as many connections as may be (max_connections)")
            except BaseException:
                accepted.close()
                raise
            connection = Connection(self._server)
            self._entering[connection] = loop.create_task(self._connect(connection, accepted, options)), loop.time()
            # (others have their turn)
            await asyncio.sleep(0)

    async def _connect(self, connection: Connection, accepted: socket.socket, options: Mapping[str, Any]) -> None:
        """Connects one that was accepted."""
        try:
            await asyncio.get_running_loop().connect_accepted_socket(lambda: connection, accepted, **options)
        except Exception as error:
            self._server._lines.write("new connections", logging.DEBUG, "one is not connected: %s", error)
        finally:
            if self._entering.pop(connection, None) is not None:
                self.free()

    async def _make_place(self, why: object) -> None:
        """Has the one that is idle longest go, if one is idle, and waits until a place is free."""
        server, least = self._server, asyncio.get_running_loop().time() - _IDLE
        idle = [(one.heard, one.number, one) for one in server._connections.values()
                if one.heard <= least and one.is_quiet]
        first = min(idle, default=None)
        task, since = next(iter(self._entering.values()), (None, least))
        if task is not None and since <= (least if first is None else first[0]):
            task.cancel()
        elif first is not None:
            first[2].farewell("another one takes its place")
            first[2].transport.abort()
        else:
            server._lines.write("new connections", logging.WARNING, "who comes has to wait: %s", why)
        if self._freed.done():
            self._freed = asyncio.get_running_loop().create_future()
        await asyncio.wait([self._freed], timeout=_PAUSE)


def _is_waited_at(listening: socket.socket) -> bool:
    """Whether somebody waits to be accepted."""
    if not hasattr(select, "poll"):
        return bool(select.select([listening], [], [], 0)[0])
    waits = select.poll()
    waits.register(listening, select.POLLIN)
    return bool(waits.poll(0))
