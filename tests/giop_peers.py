"""A client of GIOP over sockets of 127.0.0.1, whose octets are those of tests/giop.py."""
from __future__ import annotations

import socket
import struct
import time
from collections.abc import Callable
from typing import Any

from tests import giop
from tests.cdr import Octets
from tests.giop import Body, Message

SECONDS = 20


class Wrong(AssertionError):
    """What differs from what is wanted."""


def want(got: object, wanted: object, what: str = "") -> None:
    """Ends in an error where two things differ; octets are shown as digits."""
    if got != wanted:
        some = [one.hex() if isinstance(one, bytes) else repr(one) for one in (got, wanted)]
        raise Wrong(f"{what + ': ' if what else ''}got {some[0]}, not {some[1]}")


def until(holds: Callable[[], bool], what: str) -> None:
    """Waits until something holds."""
    end = time.monotonic() + SECONDS
    while not holds():
        if time.monotonic() > end:
            raise Wrong(f"{what}, after {SECONDS} seconds")
        time.sleep(0.01)


# ---- what a client says ----

def request(request_id: int, key: bytes, operation: str, body: Body = None, *, client: bytes = b"A",
            number: int | None = None, expiration: int = giop.NEVER, order: str = giop.BIG, **others: Any) -> bytes:
    """A Request, with FT_REQUEST where it has a number."""
    contexts = [] if number is None else [giop.ft_request(client, number, expiration, order)]
    return giop.request(request_id, key, operation, body, contexts=contexts, order=order, **others)


def number_body(number: int) -> Callable[[Octets], None]:
    """A body that is a long long."""
    return lambda out: out.longlong(number)


# ---- a client ----

def free_port() -> int:
    """A port that nobody listens on."""
    with socket.socket() as probe:
        probe.bind(("127.0.0.1", 0))
        return probe.getsockname()[1]


def connected(port: int, room: int | None, address: str | None = None) -> socket.socket:
    """A connection to a port, which may be listened on soon, from an address where one is given; its socket has so much
    room for what comes."""
    end = time.monotonic() + SECONDS
    while True:
        peer = socket.socket()
        peer.settimeout(SECONDS)
        if room is not None:
            peer.setsockopt(socket.SOL_SOCKET, socket.SO_RCVBUF, room)
        try:
            if address is not None:
                peer.bind((address, 0))
            peer.connect(("127.0.0.1", port))
            peer.setsockopt(socket.IPPROTO_TCP, socket.TCP_NODELAY, 1)
            return peer
        except ConnectionRefusedError:
            peer.close()
            if end < time.monotonic():
                raise
            time.sleep(0.005)


class Peer:
    """A connection of a client."""

    def __init__(self, port: int, room: int | None = None, address: str | None = None) -> None:
        self.socket = connected(port, room, address)

    def __enter__(self) -> Peer:
        return self

    def __exit__(self, *_: object) -> None:
        self.socket.close()

    def tell(self, octets: bytes, size: int | None = None) -> None:
        """Sends octets, in pieces of a size if there is one."""
        size = size or max(1, len(octets))
        for at in range(0, len(octets), size):
            self.socket.sendall(octets[at:at + size])

    def received(self, count: int) -> bytes:
        """So many octets, or fewer where the server sends no more."""
        got = bytearray()
        while len(got) < count:
            more = self.socket.recv(count - len(got))
            if not more:
                break
            got += more
        return bytes(got)

    def message(self) -> Message:
        """The next message."""
        head = self.received(giop.HEADER)
        return giop.read(head + self.received(giop.size_of(head) - len(head)))

    def wants(self, wanted: bytes, what: str = "the answer") -> None:
        want(self.received(len(wanted)), wanted, what)

    def ended(self, what: str = "after the answers") -> None:
        """Takes the end of the stream."""
        want(self.received(1), b"", what)

    def finish(self) -> None:
        """Says that no more comes."""
        self.socket.shutdown(socket.SHUT_WR)

    def abandon(self) -> None:
        """Closes the connection by a reset."""
        self.socket.setsockopt(socket.SOL_SOCKET, socket.SO_LINGER, struct.pack("ii", 1, 0))
        self.socket.close()


def ask(port: int, octets: bytes, wanted: bytes) -> None:
    """Sends a request on a connection of its own, and wants a reply."""
    with Peer(port) as peer:
        peer.tell(octets)
        peer.wants(wanted)
