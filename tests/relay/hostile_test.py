"""Peers of a relay that mean no good: what they send is counted and said with its reason, and nobody else notices."""
from __future__ import annotations

import asyncio
import contextlib
import random
import signal
import socket
import struct
import threading
import time
import unittest
from collections.abc import Callable, Iterator

from tests import base, giop
from tests.giop import BIG, LITTLE, MAYBE, MORE
from tests.giop_peers import Peer, ask, number_body, request, until, want
from tests.relay import relays
from tests.relay.guard_test import Server, system
from tests.relay.operation_test import Counters
from tests.relay.relays import Relay

# how many connections a flood has
FLOOD = 300


def octets_of(kind: str, dice: random.Random) -> bytes:
    """What a hostile peer sends."""
    good = request(1, b"k", "add", bytes(64))
    if kind == "no GIOP":
        return dice.randbytes(dice.randrange(1, 5000))
    if kind == "a changed octet":
        changed = bytearray(good)
        changed[dice.randrange(len(good))] ^= 1 << dice.randrange(8)
        return bytes(changed)
    if kind == "a part":
        return good[:dice.randrange(len(good))]
    if kind == "too long":
        return b"GIOP\1\2\0\0\xff\xff\xff\xff"
    if kind == "many contexts":
        return giop.request(1, b"k", "add", contexts=[(99, b"")] * 5000)
    return giop.reply(1)


KINDS = ("no GIOP", "a changed octet", "a part", "too long", "many contexts", "a reply")


def begun(request_id: int, *, minor: int = 2, order: str = BIG) -> bytes:
    """The first frame of a Request that more follow of."""
    octets = bytearray(giop.request(request_id, b"k", "any", bytes(64), minor=minor, order=order))
    octets[6] |= MORE
    return bytes(octets)


def rest(request_id: int, *, minor: int = 2, order: str = BIG, is_last: bool = True) -> bytes:
    """A Fragment of it."""
    content = struct.pack(order + "I", request_id) if minor == 2 else b""
    return giop.message(giop.FRAGMENT, content + bytes(8), minor=minor, order=order, flags=0 if is_last else MORE)


# why a connection ends, by what came on it
ENDS = {
    "what came is no GIOP": b"GET / HTTP/1.1\r\n\r\n",
    "a version of GIOP that is not known": b"GIOP\1\3\0\0" + bytes(4),
    "flags or a type that the version of GIOP lacks": b"GIOP\1\2\0\x09" + bytes(4),
    "a fragment of no message": rest(9),
    "a message is too long": giop.MAGIC + bytes([1, 2, 0, giop.LOCATE]) + b"\x7f\xff\xff\xff",
    "a message that does not read": giop.message(giop.REQUEST, b"\0\0\0\1", minor=0),
}
OF_CLIENTS = {
    **ENDS,
    "the peer sent what only a server sends": giop.reply(1),
    "the peer said MessageError": giop.MESSAGE_ERROR,
    "the peer said CloseConnection": giop.CLOSE_CONNECTION,
    "the peer closed it": request(1, b"k", "add")[:20],
}
OF_SERVERS = {
    **ENDS,
    "it sent what only a client sends": request(1, b"k", "add"),
    "it said MessageError": giop.MESSAGE_ERROR,
    "it was closed without a goodbye": giop.reply(1)[:20],
}
# why a request is refused, by its octets, and what its client is told
WRONG_FT = (giop.FT_REQUEST, b"\0\0\0\0\0\0\0\x09A")
REFUSED = {
    "it has too many service contexts": (giop.request(1, b"k", "add", contexts=[(99, b"")] * 5000), "IMP_LIMIT"),
    "its FT_REQUEST is not valid": (giop.request(1, b"k", "add", contexts=[WRONG_FT]), "MARSHAL"),
    "its client id is too long": (request(1, b"k", "add", client=b"A" * 257, number=1), "BAD_CONTEXT"),
    "it is too long": (giop.request(1, b"k", "add", bytes(16 << 20)), "IMP_LIMIT"),
    "it does not read": (giop.message(giop.REQUEST, b"\0\0\0\1\3\0\0\0\0\0\0\0\xff\xff\xff\xff"), "MARSHAL"),
    "too many are partial": (b"".join(begun(index) for index in (2, 3, 1)), "IMP_LIMIT"),
    "its target is no object key": (giop.request(1, (giop.BY_PROFILE, (0, b"\0\1\2\0")), "add"), None),
}
ROLES = ("guard", "retry")


def hangs(came: giop.Message) -> bytes | None:
    """An answer to a request, unless it is one that hangs."""
    return None if came.operation == b"hang" else giop.reply(came.request_id)


class Asynchronous:
    """A server of one thread for all of its connections. `answer` gives what is answered to a request, or None where
    that is nothing."""

    def __init__(self, answer: Callable[[giop.Message], bytes | None]) -> None:
        self.answer, self.count = answer, 0
        self.loop = asyncio.new_event_loop()
        server = self.loop.run_until_complete(asyncio.start_server(self.serve, "127.0.0.1", 0))
        self.port = server.sockets[0].getsockname()[1]
        self.thread = threading.Thread(target=self.loop.run_forever, daemon=True)

    async def serve(self, reader: asyncio.StreamReader, writer: asyncio.StreamWriter) -> None:
        with contextlib.suppress(asyncio.IncompleteReadError, asyncio.CancelledError, OSError):
            while True:
                head = await reader.readexactly(giop.HEADER)
                came = giop.read(head + await reader.readexactly(giop.size_of(head) - giop.HEADER))
                self.count += came.kind == giop.REQUEST
                is_asked = came.kind == giop.LOCATE
                octets = giop.located(came.request_id, giop.OBJECT_HERE) if is_asked else self.answer(came)
                if octets is not None:
                    writer.write(octets)
                    await writer.drain()

    def __enter__(self) -> Asynchronous:
        self.thread.start()
        return self

    def __exit__(self, *_: object) -> None:
        self.loop.call_soon_threadsafe(self.loop.stop)
        self.thread.join()
        for task in asyncio.all_tasks(self.loop):
            task.cancel()
        self.loop.run_until_complete(asyncio.sleep(0.01))
        self.loop.close()


class Hostile(unittest.TestCase):
    """Before both roles."""

    @classmethod
    def setUpClass(cls):
        relays.program()

    @contextlib.contextmanager
    def relay(self, role):
        """A relay in a role, and a server behind it that performs what it is asked."""
        with contextlib.ExitStack() as stack:
            server, self.counters = stack.enter_context(Server()), Counters()
            words = ["--server", f"127.0.0.1:{server.port}", "--store", "memory"] if role == "guard" else [
                "--guard", f"127.0.0.1:{server.port}"]
            relay = stack.enter_context(Relay(role, *words, "--connections", "1", *self.counters.words))
            relay.begin()
            yield relay

    def is_served(self, relay):
        """Somebody else is."""
        with Peer(relay.port) as peer:
            peer.tell(request(5, b"k", "add"))
            self.assertEqual(peer.message().status, giop.NO_EXCEPTION)

    @base.each(lambda: [(f"{role}: {kind}", (role, kind)) for role in ("guard", "retry") for kind in KINDS])
    def test_octets_that_are_no_requests(self, given):
        dice = random.Random(7)
        with self.relay(given[0]) as relay:
            for _ in range(20):
                with socket.create_connection(("127.0.0.1", relay.port)) as peer, contextlib.suppress(OSError):
                    peer.sendall(octets_of(given[1], dice))
            self.is_served(relay)
            self.assertEqual(relay.end(signal.SIGTERM), 0)

    @base.each(lambda: [(role, role) for role in ROLES])
    def test_each_end_has_its_reason(self, role):
        """Of a connection of a client: it is counted, and a line of the log has it."""
        with self.relay(role) as relay, Peer(relay.port) as other:
            for why, octets in OF_CLIENTS.items():
                with self.subTest(why), self.grows(relay, f"connections_ended_total {why}", why):
                    with Peer(relay.port) as peer, contextlib.suppress(OSError):
                        peer.tell(octets)
                        if why == "the peer closed it":
                            peer.finish()
                        self.assertIn(peer.received(99), (b"", giop.MESSAGE_ERROR))
            other.tell(request(5, b"k", "add"))
            self.assertEqual(other.message().status, giop.NO_EXCEPTION)

    @contextlib.contextmanager
    def grows(self, relay, label: str, why: str) -> Iterator[None]:
        """What is done meanwhile is counted, and said in the log."""
        before, lines = self.counters.of(label), relay.said().count(f'why="{why}"')
        yield
        until(lambda: self.counters.of(label) > before, f"{label} is counted: {self.counters.all()}")
        until(lambda: relay.said().count(f'why="{why}"') > lines, f"{why} is said: {relay.said()}")

    @base.each(lambda: [(role, role) for role in ROLES])
    def test_each_refusal_has_its_reason(self, role):
        """It is counted, and said once for each connection; the connection goes on, and the server gets nothing."""
        with self.relay(role) as relay:
            for why, (octets, name) in REFUSED.items():
                with self.subTest(why), self.grows(relay, f"refused_total {why}", why), Peer(relay.port) as peer:
                    lines = relay.said().count(f'why="{why}"')
                    by_key = giop.reply(1, b"\0\0", status=5)
                    for _ in range(3):
                        peer.tell(octets)
                        peer.wants(by_key if name is None else system(1, name, giop.NO))
                    peer.tell(request(5, b"k", "add"))
                    self.assertEqual(peer.message().status, giop.NO_EXCEPTION)
                    self.assertEqual(relay.said().count(f'why="{why}"'), lines + 1)

    @base.each(lambda: [(role, role) for role in ROLES])
    def test_a_request_at_fault_is_no_fault_of_others(self, role):
        """Requests that come between its fragments are performed, and it is told what it is."""
        for minor, broken in ((2, rest(1, order=LITTLE)), (1, rest(1, minor=1, order=LITTLE)), (1, rest(1, minor=1))):
            with self.subTest(minor=minor), self.relay(role) as relay, Peer(relay.port) as peer:
                first = bytearray(giop.message(giop.REQUEST, b"\0\0\0\0" + b"\0\0\0\1" + b"\1\xff\xff\xff" * 2, minor=1))
                first[6] |= MORE
                peer.tell(begun(1) if minor == 2 else bytes(first))
                peer.tell(request(5, b"k", "add"))
                self.assertEqual(peer.message().status, giop.NO_EXCEPTION)
                peer.tell(broken)
                peer.wants(system(1, "MARSHAL", giop.NO, minor=minor))
                peer.tell(request(6, b"k", "add"))
                self.assertEqual(peer.message().status, giop.NO_EXCEPTION)

    def test_a_reply_at_fault_is_no_fault_of_others(self):
        """Who asked is told MAYBE at once; who waits on the same connection is not touched."""
        counters = Counters()
        with Server() as server, Relay("guard", "--server", f"127.0.0.1:{server.port}", "--store", "memory",
                                       "--connections", "1", *counters.words) as guard, contextlib.ExitStack() as stack:
            guard.begin()
            other = stack.enter_context(Peer(guard.port))
            for minor, at in ((2, 12), (1, 16)):
                with self.subTest(minor=minor):
                    broken, is_over = giop.reply(0, minor=minor, status=99), threading.Event()

                    def answer(came, broken=broken, at=at, is_over=is_over):
                        if came.minor == 2 and came.request_id % 2 == 1:
                            is_over.wait(relays.SECONDS)
                            return None
                        return broken[:at] + struct.pack(">I", came.request_id) + broken[at + 4:]

                    server.answer, before = answer, len(server.performed)
                    other.tell(request(9, b"k", "add"))
                    until(lambda before=before: len(server.performed) > before, "the server has the other's request")
                    ask(guard.port, request(7, b"k", "add", minor=minor), system(7, "COMM_FAILURE", MAYBE, minor=minor))
                    is_over.set()
                    self.assertEqual(other.message().status, giop.NO_EXCEPTION)
            self.assertEqual(server.connections, 1)

    def servers_make_no_sense(self, *words):
        """Before a guard with these words: who waits is told MAYBE, the connection ends with its reason, and others are
        served."""
        counters = Counters()
        with Server() as server, Relay("guard", "--server", f"127.0.0.1:{server.port}", "--store", "memory",
                                       "--timeout", "2", *words, *counters.words) as guard:
            guard.begin()
            for number, (why, octets) in enumerate(OF_SERVERS.items()):
                with self.subTest(why):
                    before = counters.of(f"server_connections_ended_total {why}")
                    server.once((octets, "goodbye" in why))
                    ask(guard.port, request(1, b"k", "add", number=number), system(1, "COMM_FAILURE", MAYBE))
                    until(lambda: counters.of(f"server_connections_ended_total {why}") > before, counters.all())
                    self.assertIn(f'why="{why}"', guard.said())
                    ask(guard.port, request(2, b"k", "add"), giop.reply(2, number_body(len(server.performed) + 1)))
            # a reply to nobody, and a forward that is none: the connection goes on
            ended = [count for count in counters.all().items() if "connections_ended" in count[0] and "server" in count[0]]
            server.once(giop.reply(77, number_body(1)))
            ask(guard.port, request(1, b"k", "add"), system(1, "TIMEOUT", MAYBE))
            self.assertEqual(counters.of("late_total"), 1)
            server.answer = lambda came: giop.reply(came.request_id, b"\xff" * 9, status=giop.LOCATION_FORWARD)
            ask(guard.port, request(1, b"k", "add"), system(1, "IMP_LIMIT", giop.NO))
            self.assertEqual([count for count in counters.all().items() if count in ended], ended)
            return server.connections

    def test_servers_that_make_no_sense(self):
        """Over one connection to the server, which is opened again for each of them and goes on after the last."""
        self.assertEqual(self.servers_make_no_sense("--connections", "1"), len(OF_SERVERS) + 1)

    def test_servers_of_each_thread(self):
        """The same where each thread opens connections of its own."""
        self.servers_make_no_sense()

    def test_guards_that_make_no_sense(self):
        """Before `retry`: each request is sent again, until a guard answers it."""
        counters = Counters()
        with Server() as server, Relay("retry", "--guard", f"127.0.0.1:{server.port}", "--timeout", "20",
                                       *counters.words) as retry:
            retry.begin()
            for why, octets in OF_SERVERS.items():
                with self.subTest(why):
                    server.once((octets, "goodbye" in why))
                    before = counters.of(f"server_connections_ended_total {why}")
                    ask(retry.port, request(1, b"k", "add"), giop.reply(1, number_body(len(server.performed) + 2)))
                    self.assertEqual(counters.of(f"server_connections_ended_total {why}"), before + 1)
                    self.assertIn(f'why="{why}"', retry.said())

    def test_a_flood_of_client_ids(self):
        """Each has its share of what is under way, of which one address has less than three of four; who comes behind
        them is served once one is answered."""
        with Server() as server, Relay("guard", "--server", f"127.0.0.1:{server.port}", "--store", "memory",
                                       "--share", "1") as guard, contextlib.ExitStack() as stack:
            guard.begin()
            flood = [stack.enter_context(Peer(guard.port)) for _ in range(20)]
            for index, peer in enumerate(flood):
                peer.tell(b"".join(request(number, b"k", "add", number=number, client=f"{index}.{number}")
                                   for number in range(140)))
            begun_at = time.monotonic()
            ask(guard.port, request(1, b"k", "mine", number=1, client=b"mine"),
                giop.reply(1, number_body(0))[:12])
            self.assertLess(time.monotonic() - begun_at, 10)
            until(lambda: len(server.performed) == 2801, "all are performed")
            want(len({came.operation for came in server.performed}), 2)

    @base.each(lambda: [("retry and guard", 5), ("guard", 17)])
    def test_calls_that_hang(self, count):
        """256 on each of so many connections, without a key at a guard alone: calls of another connection return at once,
        and so do those of one that comes later."""
        with contextlib.ExitStack() as stack:
            server = stack.enter_context(Asynchronous(hangs))
            relay = stack.enter_context(Relay("guard", "--server", f"127.0.0.1:{server.port}", "--store", "memory",
                                              "--drain", "0.1"))
            relay.begin()
            if count == 5:
                relay = stack.enter_context(Relay("retry", "--guard", f"127.0.0.1:{relay.port}", "--drain", "0.1"))
                relay.begin()
            before = stack.enter_context(Peer(relay.port))
            before.tell(request(1, b"k", "add"))
            before.wants(giop.reply(1))
            peers = [stack.enter_context(Peer(relay.port)) for _ in range(count)]
            for peer in peers:
                peer.tell(b"".join(request(index, b"k", "hang") for index in range(256)))
            # (of a guard's places those of one address have four of seven)
            until(lambda: server.count >= min(256 * count, 2300), "they hang")
            for peer in (before, stack.enter_context(Peer(relay.port))):
                begun_at = time.monotonic()
                for index in range(20):
                    peer.tell(request(index, b"k", "add"))
                    peer.wants(giop.reply(index))
                # (who waits for a place does so for a second each time)
                self.assertLess(time.monotonic() - begun_at, 15)

    @base.each(lambda: [("guard", "guard"), ("retry", "retry")])
    def test_silent_and_slow_peers(self, role):
        """Some say nothing, some send a request octet by octet and never end it, some take no reply."""
        with self.relay(role) as relay, contextlib.ExitStack() as stack:
            peers = [stack.enter_context(Peer(relay.port)) for _ in range(30)]
            for index, octet in enumerate(request(1, b"k", "add", number_body(7))[:-1]):
                peers[index % 10].tell(bytes([octet]))
            for peer in peers[10:20]:
                for number in range(20):
                    peer.tell(request(number, b"k", "add"))
            self.is_served(relay)

    @base.each(lambda: [("guard", "guard"), ("retry", "retry")])
    def test_a_flood_of_connections(self, role):
        with self.relay(role) as relay, contextlib.ExitStack() as stack:
            for _ in range(FLOOD):
                stack.enter_context(socket.create_connection(("127.0.0.1", relay.port)))
            self.is_served(relay)
            self.assertFalse(relay.died())


if __name__ == "__main__":
    unittest.main()
