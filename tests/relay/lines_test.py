"""Connections to servers and guards on which nothing comes any more: their requests go on others, and few notice."""
from __future__ import annotations

import contextlib
import os
import socket
import tempfile
import threading
import time
import unittest
from collections.abc import Iterator

from tests import base, giop
from tests.giop import CODE_SETS, MAYBE, NO, Message
from tests.giop_peers import Peer, ask, number_body, request, until, want
from tests.relay import relays
from tests.relay.guard_test import DECLINED, KEY, QUIET, Server, code_sets, system
from tests.relay.operation_test import Counters
from tests.relay.relays import Relay
from tests.relay.retry_test import Guard

SILENT = "nothing came on it any more"
STOPPED = "a message stopped amid its octets"


class Hung(Server):
    """A server whose first connection answers nothing, as where a thread of it is stuck."""

    def perform(self, peer: socket.socket, came: Message) -> None:
        if peer is self.peers[0]:
            with self.lock:
                self.performed.append(came)
        else:
            super().perform(peer, came)


class Halting(Server):
    """A server that reads its first connection once it may, up to an operation: then it says there that nothing comes of
    it any more, and reads no more."""

    def __init__(self, last: bytes) -> None:
        self.last, self.may_read = last, threading.Event()
        super().__init__()
        self.listener.setsockopt(socket.SOL_SOCKET, socket.SO_RCVBUF, 1 << 16)

    def serve(self, peer: socket.socket) -> None:
        if peer is not self.peers[0]:
            return super().serve(peer)
        self.may_read.wait(relays.SECONDS)
        came = None
        while came is None or came.operation != self.last:
            head = peer.recv(giop.HEADER, socket.MSG_WAITALL)
            came = giop.read(head + peer.recv(giop.size_of(head) - giop.HEADER, socket.MSG_WAITALL))
            self.perform(peer, came)
        peer.shutdown(socket.SHUT_WR)
        return None


def claiming(request_id: int, count: int) -> bytes:
    """A reply that claims so many octets more than it has."""
    octets = bytearray(giop.reply(request_id, number_body(1)))
    octets[8:giop.HEADER] = (len(octets) - giop.HEADER + count).to_bytes(4, "big")
    return bytes(octets)


class Swallowing:
    """A way to a port whose connections can be made to swallow all that comes on them, while new ones pass."""

    def __init__(self, target: int) -> None:
        self.target = target
        self.is_mute: list[threading.Event] = []
        self.sockets: list[socket.socket] = []
        self.listener = socket.create_server(("127.0.0.1", 0))
        self.port = self.listener.getsockname()[1]
        threading.Thread(target=self.accept, daemon=True).start()

    def __enter__(self) -> Swallowing:
        return self

    def __exit__(self, *_: object) -> None:
        for one in (self.listener, *self.sockets):
            with contextlib.suppress(OSError):
                one.shutdown(socket.SHUT_RDWR)
            one.close()

    def swallow(self) -> None:
        """From now on nothing passes on the connections that there are."""
        for is_mute in self.is_mute:
            is_mute.set()

    def accept(self) -> None:
        with contextlib.suppress(OSError):
            while True:
                peer, _ = self.listener.accept()
                onward = socket.create_connection(("127.0.0.1", self.target))
                is_mute = threading.Event()
                self.is_mute.append(is_mute)
                self.sockets += [peer, onward]
                for way in ((peer, onward), (onward, peer)):
                    threading.Thread(target=self.hand_on, args=(*way, is_mute), daemon=True).start()

    def hand_on(self, source: socket.socket, sink: socket.socket, is_mute: threading.Event) -> None:
        with contextlib.suppress(OSError):
            while octets := source.recv(1 << 16):
                if not is_mute.is_set():
                    sink.sendall(octets)
            sink.shutdown(socket.SHUT_RDWR)


@contextlib.contextmanager
def counted(server: Server, *words: str, store: str = "memory", dies_at: str = "") -> Iterator[tuple[Relay, Counters]]:
    """A guard before a server, and what it counts."""
    counters = Counters()
    with Relay("guard", "--server", f"127.0.0.1:{server.port}", "--store", store, *counters.words, *words) as guard:
        guard.begin(dies_at)
        yield guard, counters


class Servers(unittest.TestCase):
    """A connection to a server on which the time of a request was over before anything came takes no more of them."""

    @classmethod
    def setUpClass(cls):
        relays.program()

    def test_one_that_hangs(self):
        """While others are answered at once: of six clients each waits for at most one time-out, and none that asks after
        the first was told. It is counted, and it is closed."""
        told: list[tuple[bool, bool]] = []
        is_late = threading.Event()

        def calls(name: int) -> None:
            with Peer(guard.port) as peer:
                for number in range(10):
                    was_late = is_late.is_set()
                    peer.tell(request(number, KEY, "add", number=number, client=str(name).encode()))
                    is_answered = peer.message().status == giop.NO_EXCEPTION
                    told.append((was_late, is_answered))
                    if not is_answered:
                        is_late.set()

        with Hung() as server, counted(server, "--timeout", "1") as (guard, counters):
            threads = [threading.Thread(target=calls, args=(name,)) for name in range(6)]
            for thread in threads:
                thread.start()
            for thread in threads:
                thread.join(relays.SECONDS)
            want((len(told), is_late.is_set()), (60, True))
            self.assertLessEqual(len([1 for _, is_answered in told if not is_answered]), 6)
            want([is_answered for was_late, is_answered in told if was_late and not is_answered], [])
            want(counters.of("server_connections_silent_total"), 1)
            until(lambda: counters.of(f"server_connections_ended_total {SILENT}") == 1, "it is closed")
            want(counters.asked("/ready")[0], 200)

    def test_what_waits_on_it(self):
        """Is answered there, though the next goes on another; it is closed behind that."""
        with Server() as server, counted(server, "--timeout", "2", "--connections", "1") as (guard, counters), \
                Peer(guard.port) as peer, Peer(guard.port) as other:
            may_go_on = threading.Event()
            server.answer = lambda came: QUIET if came.operation == b"lost" else (
                came.operation == b"slow" and may_go_on.wait(relays.SECONDS) and None or None)
            peer.tell(request(1, KEY, "lost", number=1))
            time.sleep(1)
            other.tell(request(2, KEY, "slow", number=2))
            until(lambda: len(server.performed) == 2, "both come")
            peer.wants(system(1, "TIMEOUT", MAYBE))
            want((server.connections, counters.of("server_connections_ended_total " + SILENT)), (1, 0))
            ask(guard.port, request(3, KEY, "add", number=3), giop.reply(3, number_body(3)))
            want(server.connections, 2)
            may_go_on.set()
            other.wants(giop.reply(2, number_body(2)))
            until(lambda: counters.of(f"server_connections_ended_total {SILENT}") == 1, "it is closed")
            want(counters.of("server_connections"), 1)

    def test_one_on_which_others_are_answered(self):
        """Is used on: what hangs is one request."""
        with Server() as server, counted(server, "--timeout", "1", "--connections", "1") as (guard, counters), \
                Peer(guard.port) as peer:
            server.once(QUIET)
            peer.tell(request(1, KEY, "add", number=1))
            until(lambda: server.performed, "it comes")
            ask(guard.port, request(2, KEY, "add", number=2), giop.reply(2, number_body(2)))
            peer.wants(system(1, "TIMEOUT", MAYBE))
            ask(guard.port, request(3, KEY, "add", number=3), giop.reply(3, number_body(3)))
            want((server.connections, counters.of("server_connections_silent_total")), (1, 0))

    @base.each(lambda: [("with a key", {"number": 1}), ("without one", {})])
    def test_one_way_calls_amid_what_is_written(self, key: dict):
        """The connection ends while what was gathered for it is written: of that some has come whole, and acts once."""
        with Halting(b"second") as server, counted(server, "--connections", "1") as (guard, counters), \
                Peer(guard.port) as peer:
            # (one that takes no reply does not wait for one: two long ones, with a short one between them)
            for count, (operation, size) in enumerate([("first", 12_000_000), ("second", 1), ("third", 12_000_000)], 1):
                asked = request(count, KEY, operation, bytes(size), wish=giop.NONE, **key, client=operation.encode())
                peer.tell(asked)
                until(lambda count=count: counters.of("performed_total") == count, "it is on its way")
            server.may_read.set()
            ask(guard.port, request(9, KEY, "add"), giop.reply(9, number_body(3)))
            until(lambda: counters.of("parked") == 0, "all have ended")
            want([came.operation for came in server.performed], [b"first", b"second", b"add"])

    def test_it_dies_at_that(self):
        """The guard dies where it gives a connection up: what was on it is MAYBE in the next life, and is not sent again."""
        with tempfile.TemporaryDirectory() as folder, Server() as server, \
                counted(server, "--timeout", "1", store=os.path.join(folder, "kept"), dies_at="silent") as (guard, _):
            server.once(QUIET)
            with Peer(guard.port) as peer:
                peer.tell(request(1, KEY, "add", number=1))
                until(guard.died, "it dies")
            guard.end()
            guard.begin()
            ask(guard.port, request(1, KEY, "add", number=1), system(1, "COMM_FAILURE", MAYBE))
            want(len(server.performed), 1)


class Guards(unittest.TestCase):
    """A connection to a guard is asked for a sign, and is lost without one: its requests go again on others."""

    @classmethod
    def setUpClass(cls):
        relays.program()

    def test_connections_that_swallow(self):
        """While new ones pass, as behind what ends TCP by itself: all calls return within seconds, also those of clients
        that come then, and each acts once. The guard is not taken for lost."""
        counters = Counters()
        with Server() as server, counted(server) as (guard, _), Swallowing(guard.port) as way, \
                Relay("retry", "--guard", f"127.0.0.1:{way.port}", *counters.words) as retry, \
                contextlib.ExitStack() as stack:
            retry.begin()
            peers = [stack.enter_context(Peer(retry.port)) for _ in range(8)]
            all_there = threading.Barrier(len(peers))

            def answer(_: Message) -> None:
                all_there.wait(relays.SECONDS)

            server.answer = answer
            for peer in peers:
                peer.tell(request(1, KEY, "add"))
            for peer in peers:
                want(peer.message().status, giop.NO_EXCEPTION)
            server.answer = None
            before = counters.all()
            way.swallow()
            begun = time.monotonic()
            peers += [stack.enter_context(Peer(retry.port)) for _ in range(4)]
            for peer in peers:
                peer.tell(request(2, KEY, "add"))
            want([peer.message().status for peer in peers], [giop.NO_EXCEPTION] * 12)
            self.assertLess(time.monotonic() - begun, 15)
            want(len(server.performed), 8 + 12)
            self.assertGreater(counters.of("server_connections_silent_total"), before["server_connections_silent_total"])
            self.assertGreaterEqual(counters.of("sent_again_total") - before["sent_again_total"], 1)
            want(counters.of("maybe_total"), 0)
            self.assertNotIn("can't be reached", retry.said())

    def test_calls_that_take_long(self):
        """Their connection is asked again and again, and is used on."""
        counters, may_go_on = Counters(), threading.Event()

        def answer(came: Message, _: int) -> bytes:
            may_go_on.wait(relays.SECONDS)
            return giop.reply(came.request_id, number_body(1))

        with Guard(answer) as guard, Relay("retry", "--guard", f"127.0.0.1:{guard.port}", "--connections", "1",
                                           *counters.words) as retry, contextlib.ExitStack() as stack:
            retry.begin()
            one, other = (stack.enter_context(Peer(retry.port)) for _ in range(2))
            for peer in (one, other):
                peer.tell(b"".join(request(number, KEY, "slow") for number in range(150)))
            until(lambda: guard.locates == 2, "it is asked twice")
            want((len(guard.requests), counters.of("parked")), (300, 300))
            may_go_on.set()
            for peer in (one, other):
                want({peer.message().status for _ in range(150)}, {giop.NO_EXCEPTION})
            want((len(guard.requests), len(guard.peers)), (300, 1))
            want(counters.of("server_connections_silent_total"), 0)


class At(Peer):
    """A client at an address."""

    def __init__(self, address: str, port: int) -> None:
        self.socket = socket.socket()
        self.socket.settimeout(relays.SECONDS)
        self.socket.bind((address, 0))
        self.socket.connect(("127.0.0.1", port))


class Slow(Server):
    """A server whose `slow` calls wait until they may go on."""

    def __init__(self) -> None:
        super().__init__()
        self.may_go_on = threading.Event()
        self.answer = self.waits

    def waits(self, came: Message) -> bytes:
        if came.operation == b"slow":
            self.may_go_on.wait(relays.SECONDS)
        return giop.reply(came.request_id, number_body(7))


class CodeSets(unittest.TestCase):
    """Who has calls of many code sets under way leaves room for those of others."""

    @classmethod
    def setUpClass(cls):
        relays.program()

    def slow(self, stack: contextlib.ExitStack, address: str, port: int, numbers: range) -> list[Peer]:
        """Slow calls from an address, each of code sets of its own."""
        peers = [stack.enter_context(At(address, port)) for _ in numbers]
        for peer, number in zip(peers, numbers):
            peer.tell(giop.request(1, KEY, "slow", contexts=[code_sets(number)]))
        return peers

    def fast(self, address: str, port: int, *contexts: giop.Context) -> Message:
        """What a call from an address is answered at once."""
        with At(address, port) as peer:
            begun = time.monotonic()
            peer.tell(giop.request(1, KEY, "fast", contexts=contexts))
            told = peer.message()
            self.assertLess(time.monotonic() - begun, 5)
            return told

    def test_at_a_guard(self):
        """An address has calls of 32 at once, and all have those of 64; others are NO_RESOURCES, COMPLETED_NO, with a key
        and without one, and nothing of them is kept nor sent. Who has none, or those of others, is served."""
        refused = giop.read(system(1, "NO_RESOURCES", NO, DECLINED))
        with Slow() as server, counted(server) as (guard, counters), contextlib.ExitStack() as stack:
            slow = self.slow(stack, "127.0.0.1", guard.port, range(32))
            until(lambda: len(server.performed) == 32, "they come")
            for key in ([], [giop.ft_request(b"A", 77)]):
                want(self.fast("127.0.0.1", guard.port, code_sets(70), *key), refused)
            for address, sets in (("127.0.0.2", [code_sets(70)]), ("127.0.0.1", [code_sets(5)]), ("127.0.0.1", [])):
                want(self.fast(address, guard.port, *sets).status, giop.NO_EXCEPTION)
            slow += self.slow(stack, "127.0.0.2", guard.port, range(32, 64))
            until(lambda: len(server.performed) == 67, "they come")
            want(self.fast("127.0.0.3", guard.port, code_sets(70)), refused)
            want(self.fast("127.0.0.3", guard.port).status, giop.NO_EXCEPTION)
            want(counters.of("refused_total too many code sets are under way"), 3)
            server.may_go_on.set()
            want({peer.message().status for peer in slow}, {giop.NO_EXCEPTION})
            want(self.fast("127.0.0.1", guard.port, code_sets(70), giop.ft_request(b"A", 77)).status, giop.NO_EXCEPTION)
            want(len(server.performed), 69)

    def test_through_both_relays(self):
        """An address has calls of 16 at once; others are told NO_RESOURCES, COMPLETED_NO. Those from elsewhere, those
        without code sets, and those of who called before return at once, and the guard is not taken for lost."""
        refused = giop.read(system(1, "NO_RESOURCES", NO, DECLINED))
        with Slow() as server, counted(server) as (guard, _), contextlib.ExitStack() as stack, \
                Relay("retry", "--guard", f"127.0.0.1:{guard.port}", "--connections", "1") as retry:
            retry.begin()
            want(self.fast("127.0.0.1", retry.port, code_sets(71)).status, giop.NO_EXCEPTION)
            slow = self.slow(stack, "127.0.0.1", retry.port, range(64))
            until(lambda: len(server.performed) == 1 + 16, "those come that may")
            for address, sets in (("127.0.0.2", [code_sets(70)]), ("127.0.0.1", []), ("127.0.0.1", [code_sets(71)])):
                want(self.fast(address, retry.port, *sets).status, giop.NO_EXCEPTION)
            want(self.fast("127.0.0.1", retry.port, code_sets(70)), refused)
            server.may_go_on.set()
            told = [peer.message() for peer in slow]
            want(sorted(one.status for one in told), [giop.NO_EXCEPTION] * 16 + [giop.SYSTEM_EXCEPTION] * 48)
            want([one for one in told if one.status == giop.SYSTEM_EXCEPTION], [refused] * 48)
            self.assertNotIn("can't be reached", retry.said())

    def test_one_waits_its_turn(self):
        """At a guard whose places are taken `retry` asks again, until one is left."""
        counters = Counters()
        with Slow() as server, counted(server) as (guard, of_guard), contextlib.ExitStack() as stack, \
                Relay("retry", "--guard", f"127.0.0.1:{guard.port}", *counters.words) as retry:
            retry.begin()
            slow = [*self.slow(stack, "127.0.0.2", guard.port, range(32)),
                    *self.slow(stack, "127.0.0.3", guard.port, range(32, 64))]
            until(lambda: len(server.performed) == 64, "they come")
            with Peer(retry.port) as peer:
                peer.tell(giop.request(1, KEY, "fast", contexts=[code_sets(70)]))
                until(lambda: of_guard.of("refused_total too many code sets are under way") > 1, "it is refused")
                server.may_go_on.set()
                peer.wants(giop.reply(1, number_body(7)))
            want({peer.message().status for peer in slow}, {giop.NO_EXCEPTION})
            want((len(server.performed), counters.of("refused_total too many code sets are under way")), (65, 0))
            self.assertNotIn("can't be reached", retry.said())

    def test_each_request_has_its_own(self):
        """Those of several clients go on one connection to the guard, and what reaches the server is of each client, on
        its own connection; what is no code sets counts as none."""
        with Slow() as server, counted(server) as (guard, _), contextlib.ExitStack() as stack, \
                Relay("retry", "--guard", f"127.0.0.1:{guard.port}", "--connections", "1") as retry:
            retry.begin()
            said = [[code_sets(1)], [], [code_sets(2)], [(CODE_SETS, b"\0\0\0\0")], [(CODE_SETS, bytes(8))]]
            peers = [stack.enter_context(Peer(retry.port)) for _ in said]
            for turn in range(2):
                for peer, contexts in zip(peers, said):
                    peer.tell(giop.request(1, KEY, "any", contexts=[] if turn else contexts))
                    peer.wants(giop.reply(1, number_body(7)))
            came = [[it for it in one.contexts if it[0] == CODE_SETS] for one in server.performed]
            want(came, [[code_sets(1)], [], [code_sets(2)], [], []] * 2)
            want(server.connections, 3)


class Stopped(unittest.TestCase):
    """A reply that claims octets which don't come ends its connection, and so does not swallow replies for long."""

    @classmethod
    def setUpClass(cls):
        relays.program()

    def test_behind_a_guard(self):
        """What is swallowed is COMM_FAILURE, MAYBE, long before its time is over; what is asked then is answered."""
        def answer(came: Message) -> bytes | None:
            return claiming(came.request_id, 1 << 20) if came.operation == b"bad" else None

        with Server() as server, counted(server, "--timeout", "8", "--connections", "1") as (guard, counters), \
                Peer(guard.port) as peer, Peer(guard.port) as good:
            server.answer = answer
            peer.tell(request(1, KEY, "bad", number=1))
            until(lambda: server.performed, "it comes")
            lost = system(2, "COMM_FAILURE", MAYBE)
            good.tell(request(2, KEY, "add", number=2))
            good.wants(lost)
            peer.wants(system(1, "COMM_FAILURE", MAYBE))
            good.tell(request(2, KEY, "add", number=2))
            good.wants(lost)
            for number in range(3, 9):
                good.tell(request(number, KEY, "add", number=number))
                good.wants(giop.reply(number, number_body(number)))
            want((server.connections, counters.of(f"server_connections_ended_total {STOPPED}")), (2, 1))

    def test_between_the_relays(self):
        """All calls return, since they are sent again."""
        def answer(came: Message, count: int) -> bytes:
            return claiming(came.request_id, 1 << 20) if count == 1 else giop.reply(came.request_id, number_body(7))

        counters = Counters()
        with Guard(answer) as guard, Relay("retry", "--guard", f"127.0.0.1:{guard.port}", "--timeout", "8",
                                           "--connections", "1", *counters.words) as retry, \
                contextlib.ExitStack() as stack:
            retry.begin()
            one, other = (stack.enter_context(Peer(retry.port)) for _ in range(2))
            one.tell(request(1, KEY, "add"))
            until(lambda: guard.requests, "it comes")
            other.tell(request(2, KEY, "add"))
            for number, peer in ((1, one), (2, other)):
                peer.wants(giop.reply(number, number_body(7)))
            want((len(guard.requests), len(guard.keys()), len(set(guard.keys()))), (4, 4, 2))
            want(counters.of(f"server_connections_ended_total {STOPPED}"), 1)

    def test_one_that_is_slow(self):
        """A reply that brings more than 1 KiB a second goes on for longer than one may stop."""
        with Server() as server, counted(server, "--timeout", "6") as (guard, _), Peer(guard.port) as peer:
            octets = giop.reply(1, bytes(8000))

            def answer(_: Message) -> bytes:
                for at in range(0, 8000, 1000):
                    server.peers[0].sendall(octets[at:at + 1000])
                    time.sleep(0.4)
                return octets[8000:]

            server.answer = answer
            peer.tell(request(1, KEY, "any"))
            peer.wants(octets)

    def test_one_that_does_not_end(self):
        """A reply that brings enough, but no end in the time of its request: what comes then goes on another connection."""
        is_over = threading.Event()

        def answer(came: Message) -> object:
            if came.operation != b"bad":
                return None
            with contextlib.suppress(OSError):
                server.peers[0].sendall(claiming(came.request_id, 8 << 20))
                while not is_over.wait(0.2):
                    server.peers[0].sendall(bytes(4096))
            return QUIET

        with Server() as server, counted(server, "--timeout", "2", "--connections", "1") as (guard, counters), \
                Peer(guard.port) as peer:
            server.answer = answer
            peer.tell(request(1, KEY, "bad", number=1))
            peer.wants(system(1, "TIMEOUT", MAYBE))
            ask(guard.port, request(2, KEY, "add", number=2), giop.reply(2, number_body(2)))
            until(lambda: counters.of(f"server_connections_ended_total {SILENT}") == 1, "it is closed")
            is_over.set()
            want((server.connections, counters.of(f"server_connections_ended_total {STOPPED}")), (2, 0))


if __name__ == "__main__":
    unittest.main()
