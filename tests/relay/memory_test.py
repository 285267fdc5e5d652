"""What relays hold in memory for clients: what takes it stays within --memory, and other clients are served meanwhile.

Run by itself it makes the same scenes as long as they are by the defaults: python3 -m tests.relay.memory_test SCENE..
"""
from __future__ import annotations

import contextlib
import os
import re
import socket
import sys
import threading
import time
import unittest
from collections.abc import Callable, Iterator
from typing import NamedTuple

from tests import base, giop
from tests.giop import NO
from tests.giop_peers import Peer, number_body, request, until, want
from tests.relay import relays
from tests.relay.guard_test import DECLINED, Server, guarded, system
from tests.relay.hostile_test import Asynchronous
from tests.relay.operation_test import Counters
from tests.relay.relays import Relay
from tests.relay.retry_test import STORE

MIB = 1 << 20


class Scale(NamedTuple):
    """How much there is of all: MiB of --memory, requests and replies of a length in MiB, peers that read nothing and the
    requests of each, connections that say nothing, and those that send half a message of so many octets."""

    memory: int
    count: int
    length: int
    readers: int
    each: int
    idle: int
    halves: int
    half: int


SMALL = Scale(memory=128, count=90, length=1, readers=24, each=40, idle=400, halves=300, half=MIB)
WHOLE = Scale(memory=1024, count=190, length=8, readers=64, each=256, idle=10_000, halves=16_384, half=MIB)


def resident(process: int, what: str = "VmHWM") -> int:
    """The octets of memory that a process has, or had at the most."""
    with open(f"/proc/{process}/status", encoding="ascii") as file:
        return 1024 * int(re.search(rf"{what}:\s+(\d+)", file.read())[1])


def answer(came: giop.Message) -> bytes | None:
    """A server's answer: of as many octets as the operation says, or none where it hangs."""
    if came.operation == b"hang":
        return None
    return giop.reply(came.request_id, bytes(int(came.operation[1:] or 0)))


class Scenes:
    """A relay in a role, or a guard behind `retry`, whose memory peers take."""

    def __init__(self, scale: Scale, role: str, *words: str) -> None:
        self.scale, self.role, self.words = scale, role, words
        self.counters, self.slowest = Counters(), 0.0
        self.stack = contextlib.ExitStack()

    def __enter__(self) -> Scenes:
        server = self.stack.enter_context(Asynchronous(answer))
        words = ["--memory", f"{self.scale.memory}M", "--drain", "0.1", *self.counters.words, *self.words]
        to = ["--server", f"127.0.0.1:{server.port}", "--store", "memory"] if self.role == "guard" else [
            "--guard", f"127.0.0.1:{server.port}"]
        self.relay = self.stack.enter_context(Relay(self.role, *to, *words))
        self.relay.begin()
        self.good = self.stack.enter_context(Peer(self.relay.port))
        self.is_served()
        self.first = resident(self.relay.process.pid)
        return self

    def __exit__(self, *error: object) -> None:
        self.stack.__exit__(*error)

    def peer(self, room: int | None = None) -> Peer:
        return self.stack.enter_context(Peer(self.relay.port, room))

    def held(self) -> float:
        return self.counters.of("memory_octets")

    def is_served(self) -> None:
        """A client that takes little is answered."""
        begun_at = time.monotonic()
        self.good.tell(request(1, b"k", "r10"))
        self.good.wants(giop.reply(1, bytes(10)))
        self.slowest = max(self.slowest, time.monotonic() - begun_at)

    def sends(self, peer: Peer, octets: Iterator[bytes]) -> threading.Thread:
        """Has a peer send octets, as far as they are taken."""
        def send() -> None:
            with contextlib.suppress(OSError, ValueError):
                for piece in octets:
                    peer.tell(piece)

        thread = threading.Thread(target=send, daemon=True)
        thread.start()
        return thread

    def rests(self) -> None:
        """Waits until what is held grows no more, and looks whether others are served."""
        last, since = -1.0, time.monotonic()
        while time.monotonic() - since < 0.5:
            self.is_served()
            held = self.held()
            if held > last:
                last, since = held, time.monotonic()
            time.sleep(0.05)

    def requests(self) -> None:
        """Of one peer, that are under way."""
        size = self.scale.length * MIB
        self.sends(self.peer(), (request(index, b"k", "hang", bytes(size)) for index in range(self.scale.count)))
        until(lambda: self.held() > self.scale.memory * MIB * 0.3, "much is held")
        self.rests()

    def replies(self) -> None:
        """That one peer takes none of: it is ended."""
        peer, size = self.peer(4096), self.scale.length * MIB
        for index in range(self.scale.count):
            peer.tell(request(index, b"k", f"r{size}"))
        until(lambda: self.counters.of("connections_ended_total the peer takes too little of what is due") == 1, "it ends")
        until(lambda: self.held() < 10 * MIB, "nothing is held for it")
        self.rests()

    def readers(self) -> None:
        """Many peers take no replies of 200,000 octets."""
        for _ in range(self.scale.readers):
            peer = self.peer(4096)
            self.sends(peer, (request(index, b"k", "r200000") for index in range(self.scale.each)))
        until(lambda: self.held() > self.scale.memory * MIB * 0.3, "much is held")
        self.rests()

    def idle(self) -> None:
        """Many say nothing."""
        for _ in range(self.scale.idle):
            self.stack.enter_context(socket.create_connection(("127.0.0.1", self.relay.port)))
        self.rests()

    def halves(self) -> None:
        """Many send half a message. (Of those that are over for --stalled some end.)"""
        half = request(1, b"k", "any", bytes(2 * self.scale.half))[:self.scale.half]
        peers = [self.peer() for _ in range(self.scale.halves)]
        for peer in peers:
            peer.socket.setblocking(False)
        left = {peer: 0 for peer in peers}
        end = time.monotonic() + 60
        while left and time.monotonic() < end:
            before = sum(left.values()), len(left)
            for peer, at in list(left.items()):
                try:
                    left[peer] = at + peer.socket.send(half[at:])
                except BlockingIOError:
                    continue
                except ConnectionError:
                    left[peer] = len(half)
                if left[peer] == len(half):
                    del left[peer]
            if (sum(left.values()), len(left)) == before:
                break
        self.rests()

    def outcomes(self) -> None:
        """Are kept in memory until they expire: where there is no room for more, what is new is declined."""
        size, peer = self.scale.length * MIB, self.peer()
        for index in range(self.scale.count):
            peer.tell(request(index, b"k", f"r{size}", number=index + 1))
            came = peer.message()
            if came.status == giop.SYSTEM_EXCEPTION:
                break
        declined = system(index, "TRANSIENT", NO, DECLINED)
        if giop.read(declined).body != came.body:
            raise AssertionError(f"the last is told {came}")
        self.rests()


SCENES: dict[str, Callable[[Scenes], None]] = {
    name: getattr(Scenes, name) for name in ("requests", "replies", "readers", "idle", "halves", "outcomes")}
# (what is kept is a guard's)
ROWS = [(f"{role} {name}", (role, name)) for role in ("guard", "retry") for name in SCENES if (role, name) != ("retry", "outcomes")]


class Memory(unittest.TestCase):
    """Each scene, in a small form."""

    @classmethod
    def setUpClass(cls):
        relays.program()

    @base.each(lambda: ROWS)
    def test_memory(self, given: tuple[str, str]) -> None:
        role, name = given
        with Scenes(SMALL, role) as scenes:
            SCENES[name](scenes)
            # (of who waits for its time to be over nothing returns before)
            self.assertLess(scenes.slowest, 10)
            self.assertLess(scenes.held(), SMALL.memory * MIB)
            self.assertLess(resident(scenes.relay.process.pid), 1.2 * SMALL.memory * MIB)


# what a guard that is over tells `retry`: that it lives
SIGN = giop.located(0, giop.OBJECT_HERE)
# so little that a few requests of HALF octets are a third of it
SHORT = ("--message", str(MIB), "--memory", "8M")
HALF, COUNT = MIB // 2, 12


class Tap:
    """A way to a port, by which each connection is counted, and what comes back is kept."""

    def __init__(self, port: int) -> None:
        self.target, self.count, self.back = port, 0, bytearray()
        self.listener = socket.create_server(("127.0.0.1", 0))
        self.port = self.listener.getsockname()[1]
        threading.Thread(target=self.accept, daemon=True).start()

    def accept(self) -> None:
        with contextlib.suppress(OSError):
            while True:
                near, _ = self.listener.accept()
                far = socket.create_connection(("127.0.0.1", self.target))
                self.count += 1
                for way in ((near, far, bytearray()), (far, near, self.back)):
                    threading.Thread(target=self.passes, args=way, daemon=True).start()

    def passes(self, source: socket.socket, to: socket.socket, kept: bytearray) -> None:
        with contextlib.suppress(OSError):
            while octets := source.recv(1 << 16):
                kept += octets
                to.sendall(octets)
        with contextlib.suppress(OSError):
            to.shutdown(socket.SHUT_RDWR)

    def __enter__(self) -> Tap:
        return self

    def __exit__(self, *_: object) -> None:
        with contextlib.suppress(OSError):
            self.listener.shutdown(socket.SHUT_RDWR)
        self.listener.close()


class Signs(unittest.TestCase):
    """A guard that is over its memory hears nobody: `retry` is told that it lives."""

    @classmethod
    def setUpClass(cls):
        relays.program()

    @contextlib.contextmanager
    def held(self, server: Server) -> Iterator[threading.Event]:
        """A server that answers nothing until it is told to."""
        may_go_on = threading.Event()
        server.answer = lambda came: may_go_on.wait(relays.SECONDS) and giop.reply(came.request_id)
        try:
            yield may_go_on
        finally:
            may_go_on.set()

    def floods(self, peer: Peer) -> None:
        """Has a peer send more than one may hold."""
        octets = b"".join(request(index, b"k", "hang", bytes(HALF)) for index in range(COUNT))
        threading.Thread(target=peer.tell, args=(octets,), daemon=True).start()

    def answered(self, peer: Peer) -> list[int]:
        """The ids of the requests that are answered next, as many as there were."""
        replies = (message for message in iter(peer.message, None) if message.kind == giop.REPLY)
        return sorted(next(replies).request_id for _ in range(COUNT))

    def test_retry_alone_is_told(self) -> None:
        """Again and again, while nothing is due to it; another client gets what it asked for alone."""
        with guarded(*SHORT) as (server, guard), Peer(guard.port) as retry, Peer(guard.port) as other:
            retry.tell(giop.request(1, b"k", "add", contexts=[(STORE, b"\0")]))
            retry.wants(giop.reply(1, number_body(1)))
            with self.held(server) as may_go_on:
                for peer in (retry, other):
                    self.floods(peer)
                for _ in range(3):
                    retry.wants(SIGN)
                other.socket.setblocking(False)
                self.assertRaises(BlockingIOError, other.socket.recv, 1)
                other.socket.settimeout(relays.SECONDS)
                may_go_on.set()
                for peer in (retry, other):
                    want(self.answered(peer), list(range(COUNT)))

    def test_nothing_is_sent_again(self) -> None:
        """However long it hears nobody: it has all that was sent on one connection."""
        with guarded(*SHORT) as (server, guard), Tap(guard.port) as tap, \
                Relay("retry", "--guard", f"127.0.0.1:{tap.port}", "--connections", "1") as retry:
            retry.begin()
            with Peer(retry.port) as peer, self.held(server) as may_go_on:
                self.floods(peer)
                until(lambda: tap.back.count(SIGN) >= 8, "it is over for eight seconds")
                may_go_on.set()
                want(self.answered(peer), list(range(COUNT)))
            want((tap.count, len(server.performed)), (1, COUNT))


def main(names: list[str]) -> None:
    """Makes scenes as long as they are by the defaults, and prints what was held and resident, in MiB."""
    for role, name in (row for _, row in ROWS if not names or row[1] in names):
        with Scenes(WHOLE, role, "--peers-per-address", "16384", "--peers", "20000") as scenes:
            begun_at = time.monotonic()
            SCENES[name](scenes)
            pid = scenes.relay.process.pid
            print(f"{role} {name}: held {scenes.held() / MIB:.0f}, resident {resident(pid, 'VmRSS') / MIB:.0f}, at most "
                  f"{resident(pid) / MIB:.0f}, slowest other call {scenes.slowest:.1f} s; {time.monotonic() - begun_at:.1f} s, load {os.getloadavg()[0]:.1f}", flush=True)


if __name__ == "__main__":
    main(sys.argv[1:])
