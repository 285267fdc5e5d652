"""Messages of GIOP 1.1 in fragments, before both roles: they go on cut where they were, and joined they mean the same."""
from __future__ import annotations

import contextlib
import os
import socket
import tempfile
import threading
import unittest
from collections.abc import Iterator

from tests import base, giop
from tests.embed.durable import Postgres
from tests.giop import BIG, LITTLE, MORE
from tests.giop_peers import Peer, request, until, want
from tests.relay import relays
from tests.relay.operation_test import Counters
from tests.relay.relays import Relay

# what stands before the body of these requests, at most
HEAD = 200
MEBIBYTES = 16 << 20
ROLES = ("guard", "retry")
STORES = ("memory", "SQLite", "PostgreSQL")


def cut(octets: bytes, *places: int) -> list[bytes]:
    """The frames of a message of 1.1 that is cut before so many of its octets each time."""
    order, kind, frames = giop.order_of(octets), octets[7], []
    for begin, end in zip((giop.HEADER, *places), (*places, len(octets))):
        flags = MORE if len(frames) < len(places) else 0
        frames.append(giop.message(kind, octets[begin:end], minor=1, order=order, flags=flags))
        kind = giop.FRAGMENT
    return frames


def frames_of(peer: socket.socket) -> list[bytes]:
    """The frames of the next message that comes."""
    frames: list[bytes] = []
    while not frames or frames[-1][6] & MORE:
        head = peer.recv(giop.HEADER, socket.MSG_WAITALL)
        if len(head) < giop.HEADER:
            raise OSError("it is over")
        frames.append(head)
        left = giop.size_of(head) - giop.HEADER
        while left > 0:
            more = peer.recv(min(left, 1 << 20))
            if not more:
                raise OSError("it is over")
            frames[-1] += more
            left -= len(more)
    return frames


def joined(frames: list[bytes]) -> giop.Message:
    """What they mean together."""
    content = b"".join(frame[giop.HEADER:] for frame in frames)
    return giop.read(giop.message(frames[0][7], content, minor=1, order=giop.order_of(frames[0])))


class Echo:
    """A server that keeps the frames of each request, and answers by its body, in a Reply that is cut before so many of
    its octets each time."""

    def __init__(self) -> None:
        self.came: list[list[bytes]] = []
        self.connections = 0
        self.places: tuple[int, ...] = ()
        self.listener = socket.create_server(("127.0.0.1", 0))
        self.port = self.listener.getsockname()[1]
        threading.Thread(target=self.accept, daemon=True).start()

    def accept(self) -> None:
        with contextlib.suppress(OSError):
            while True:
                peer, _ = self.listener.accept()
                self.connections += 1
                threading.Thread(target=self.serve, args=(peer,), daemon=True).start()

    def serve(self, peer: socket.socket) -> None:
        with contextlib.suppress(OSError), peer:
            while True:
                self.came.append(frames_of(peer))
                message = joined(self.came[-1])
                reply = giop.reply(message.request_id, message.body, minor=1, order=message.order)
                self.sent = cut(reply, *(place for place in self.places if place <= len(reply)))
                peer.sendall(b"".join(self.sent))

    def __enter__(self) -> Echo:
        return self

    def __exit__(self, *_: object) -> None:
        with contextlib.suppress(OSError):
            self.listener.shutdown(socket.SHUT_RDWR)
        self.listener.close()


class Fragments(unittest.TestCase):
    """Messages of 1.1."""

    @classmethod
    def setUpClass(cls):
        relays.program()

    @contextlib.contextmanager
    def relay(self, role, store="memory", counted=()):
        with Echo() as server:
            words = ["--store", store, "--server"] if role == "guard" else ["--guard"]
            with Relay(role, *words, f"127.0.0.1:{server.port}", "--connections", "1", *counted) as relay:
                relay.begin()
                yield server, relay

    def passes(self, server, relay, octets, places):
        """A request that is cut so, and its reply, which is cut at the same places."""
        sent = cut(octets, *places)
        server.places = places
        with Peer(relay.port) as peer:
            peer.tell(b"".join(sent))
            told = frames_of(peer.socket)
        came = server.came[-1]
        if places:
            self.assertEqual(came[1:], sent[1:])
            self.assertEqual(told[1:], server.sent[1:])
        self.assertEqual(joined(came).body, giop.read(octets).body)
        self.assertEqual(joined(told).body, giop.read(octets).body)

    @base.each(lambda: [(role, role) for role in ROLES])
    def test_they_go_on_as_they_were_cut(self, role):
        """One frame and an empty one, as omniORB cuts; octet by octet; between any two, in either order."""
        with self.relay(role) as (server, relay):
            for order in (BIG, LITTLE):
                for size in (9000, 20_000, 70_000, 3 << 20):
                    octets = giop.request(7, b"k", "echo", bytes(range(250)) * (size // 250), minor=1, order=order)
                    end = len(octets)
                    for places in ((), (end,), (end - 1, end), (HEAD, HEAD + 1, HEAD + 2, end - 5), (HEAD + 4096, 8192)):
                        with self.subTest(order=order, size=size, places=places):
                            self.passes(server, relay, octets, tuple(sorted(places)))
            self.assertEqual(server.connections, 1)

    @base.each(lambda: [(role, role) for role in ROLES])
    def test_of_the_greatest_length(self, role):
        with self.relay(role) as (server, relay):
            octets = giop.request(7, b"k", "echo", bytes(MEBIBYTES - HEAD), minor=1)
            self.passes(server, relay, octets, (len(octets),))

    @contextlib.contextmanager
    def store(self, kind: str) -> Iterator[str]:
        with contextlib.ExitStack() as stack:
            if kind == "PostgreSQL":
                postgres = Postgres()
                stack.callback(postgres.close)
                yield postgres.address
            else:
                folder = stack.enter_context(tempfile.TemporaryDirectory())
                yield os.path.join(folder, "kept") if kind == "SQLite" else kind

    @base.each(lambda: [(kind, kind) for kind in STORES])
    def test_a_repeat_is_cut_where_its_first_was(self, kind: str) -> None:
        """By what the store has of it, also once its guard was begun anew; in other versions it is whole."""
        counters = Counters()
        with self.store(kind) as store, self.relay("guard", store, counters.words) as (server, guard):
            until(lambda: counters.asked("/ready")[0] == 200, "it is ready")
            asked: dict[int, bytes] = {}
            wanted: dict[int, tuple[bytes, list[bytes]]] = {}
            for number, (size, order, behind) in enumerate((
                    (3, BIG, [0]), (9000, LITTLE, [9000]), (9000, BIG, [8999, 9000]), (70_000, LITTLE, [0, 1, 4096, 69_995]),
                    (20_000, BIG, list(range(5, 15_000))), (20_000, BIG, []))):
                body = bytes(range(250)) * (size // 250) if size >= 250 else bytes(range(size))
                place = len(giop.reply(1, body, minor=1, order=order)) - size
                server.places = tuple(place + at for at in behind)
                asked[number] = request(1, b"k", "echo", body, number=number, minor=1, order=order)
                wanted[number] = (body, self.told(guard, asked[number]))
                want([frame[12:] for frame in wanted[number][1][1:]] == [frame[12:] for frame in server.sent[1:]], True)
            for life in range(2 if kind != "memory" else 1):
                if life > 0:
                    guard.end()
                    guard.begin()
                    until(lambda: counters.asked("/ready")[0] == 200, "it is ready")
                for number, (body, frames) in wanted.items():
                    with self.subTest(number=number):
                        want(b"".join(self.told(guard, asked[number])), b"".join(frames))
                        other = request(1, b"k", "echo", body, number=number)
                        self.assertEqual(len(self.told(guard, other)), 1)
            self.assertEqual(len(server.came), len(asked))

    def told(self, guard: Relay, octets: bytes) -> list[bytes]:
        """The frames by which a request is answered."""
        with Peer(guard.port) as peer:
            peer.tell(octets)
            return frames_of(peer.socket)


if __name__ == "__main__":
    unittest.main()
