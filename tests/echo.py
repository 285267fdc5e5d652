"""Calls the object of `echo_server`, whose operations are raw, over sockets of 127.0.0.1.

Each test starts a server on a free port for the connections that it makes, and compares each reply to the octet: in the
byte order of the request, the number of the call and then the request's body.
"""
from __future__ import annotations

import subprocess
import unittest

from tests import giop, programs
from tests.cdr import BIG, LITTLE
from tests.giop_peers import SECONDS, Peer, free_port, request

KEY, OPERATION = b"echo", "whatever"


def asked(request_id: int, body: bytes, order: str = BIG, key: bytes = KEY, number: int | None = None) -> bytes:
    """A Request for any operation, with FT_REQUEST where the call has a number."""
    return request(request_id, key, OPERATION, body, order=order, number=number)


def told(request_id: int, calls: int, body: bytes, order: str = BIG) -> bytes:
    """The Reply that returns the number of a call and its body."""

    def put(out: giop.Octets) -> None:
        out.ulonglong(calls)
        out.all += body
    return giop.reply(request_id, put, order=order)


class Serving:
    """A server on a free port, for so many connections, that ends well and prints nothing."""

    def __init__(self, connections: int) -> None:
        self.port = free_port()
        self.process = subprocess.Popen([programs.program("ECHO_SERVER"), str(self.port), str(connections)],
                                        stdout=subprocess.PIPE, stderr=subprocess.PIPE)

    def __enter__(self) -> Serving:
        return self

    def __exit__(self, kind: type | None, *_: object) -> None:
        if kind:
            self.process.kill()
        try:
            out, err = self.process.communicate(timeout=SECONDS)
        except subprocess.TimeoutExpired:
            self.process.kill()
            raise
        if not kind and (self.process.returncode, out, err) != (0, b"", b""):
            raise AssertionError(f"status {self.process.returncode}, printed {out!r} {err!r}")


class Echo(unittest.TestCase):
    """An engine whose owner reads the bodies."""

    @classmethod
    def setUpClass(cls) -> None:
        programs.program("ECHO_SERVER")

    def test_bodies(self) -> None:
        """In both orders, whole and octet by octet; without a body; and under another key there is no object."""
        with Serving(1) as serving, Peer(serving.port) as peer:
            peer.tell(asked(1, b"\0\0\0\7"))
            peer.wants(told(1, 1, b"\0\0\0\7"))
            peer.tell(asked(2, bytes(range(200)), LITTLE), 1)
            peer.wants(told(2, 2, bytes(range(200)), LITTLE))
            peer.tell(asked(3, b"") + asked(4, b"x", LITTLE))
            peer.wants(told(3, 3, b"") + told(4, 4, b"x", LITTLE))
            peer.tell(asked(5, b"", key=b"none"))
            peer.wants(giop.system_exception(5, "OBJECT_NOT_EXIST"))

    def test_repeats(self) -> None:
        """A call whose reply is lost is sent again on another connection: it is told the same number."""
        with Serving(3) as serving:
            with Peer(serving.port) as peer:
                peer.tell(asked(1, b"\1\2", LITTLE, number=1))
            with Peer(serving.port) as peer:
                peer.tell(asked(8, b"\1\2", BIG, number=1))
                peer.wants(told(8, 1, b"\1\2", LITTLE))
                peer.tell(asked(9, b"\1\2", BIG, number=2))
                peer.wants(told(9, 2, b"\1\2", BIG))
            with Peer(serving.port) as peer:
                peer.tell(asked(2, b"", number=2))
                peer.wants(told(2, 2, b"\1\2", BIG))

    def test_locates(self) -> None:
        """A LocateRequest never reaches the object."""
        with Serving(1) as serving, Peer(serving.port) as peer:
            for key, status in ((KEY, giop.OBJECT_HERE), (b"none", giop.UNKNOWN_OBJECT)):
                peer.tell(giop.locate(1, key))
                peer.wants(giop.located(1, status))
            peer.tell(asked(2, b""))
            peer.wants(told(2, 1, b""))
