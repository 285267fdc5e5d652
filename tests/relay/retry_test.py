"""The role `retry` before a guard that is played here, by messages that tests/giop.py writes and reads."""
from __future__ import annotations

import contextlib
import signal
import socket
import struct
import subprocess
import sys
import threading
import time
import unittest
from collections.abc import Callable, Iterable

from tests import base, giop
from tests.cdr import Octets
from tests.giop import BIG, CODE_SETS, FT_REQUEST, LITTLE, MAYBE, NO, Message
from tests.giop_peers import Peer, number_body, request, until, want
from tests.programs import ROOT, needs
from tests.relay import relays
from tests.relay.relays import Relay

# the minor code of a guard that has begun nothing
DECLINED = 0xfffff001
# the service context by which a guard tells of its store, and whether a reply is its own refusal
STORE = 0x4c520001
SETS = (CODE_SETS, b"\0\0\0\0\x05\x01\0\x01\0\1\1\x09")


class Guard:
    """A guard of which each request is answered by what `answer` gives: octets, or None where the connection is cut."""

    def __init__(self, answer: Callable[[Message, int], bytes | None]) -> None:
        self.answer, self.requests, self.locates = answer, [], 0
        self.lock = threading.Lock()
        self.peers: list[socket.socket] = []
        self.listener = socket.create_server(("127.0.0.1", 0))
        self.port = self.listener.getsockname()[1]
        threading.Thread(target=self.accept, daemon=True).start()

    def accept(self) -> None:
        while True:
            try:
                peer, _ = self.listener.accept()
            except OSError:
                return
            self.peers.append(peer)
            threading.Thread(target=self.serve, args=(peer,), daemon=True).start()

    def serve(self, peer: socket.socket) -> None:
        while True:
            try:
                head = peer.recv(giop.HEADER, socket.MSG_WAITALL)
                if len(head) < giop.HEADER:
                    break
                came = giop.read(head + peer.recv(giop.size_of(head) - len(head), socket.MSG_WAITALL))
                threading.Thread(target=self.respond, args=(peer, came), daemon=True).start()
            except OSError:
                break
        peer.close()

    def respond(self, peer: socket.socket, came: Message) -> None:
        if came.kind == giop.LOCATE:
            self.locates += 1
            octets = giop.located(came.request_id, giop.OBJECT_HERE)
        else:
            with self.lock:
                self.requests.append(came)
                count = len(self.requests)
            octets = self.answer(came, count)
        try:
            if octets is None:
                peer.setsockopt(socket.SOL_SOCKET, socket.SO_LINGER, struct.pack("ii", 1, 0))
                peer.shutdown(socket.SHUT_RDWR)
            else:
                peer.sendall(octets)
        except OSError:
            pass

    def keys(self) -> list[giop.Ft]:
        """What FT_REQUEST says of each request."""
        return [giop.ft_of(dict(one.contexts)[FT_REQUEST]) for one in self.requests]

    def __enter__(self) -> Guard:
        return self

    def __exit__(self, *_: object) -> None:
        self.hush()

    def hush(self) -> None:
        """Stops listening, and ends the connections."""
        for end in (self.listener, *self.peers):
            with contextlib.suppress(OSError):
                end.shutdown(socket.SHUT_RDWR)
            end.close()


def exception(came: Message, name: str, completed: int, minor: int = 0, contexts: Iterable[giop.Context] = ()) -> bytes:
    """A reply by a system exception."""
    return giop.reply(came.request_id, giop.system_body(name, completed, minor), status=giop.SYSTEM_EXCEPTION,
                      minor=came.minor, contexts=contexts)


def returned(came: Message, number: int = 7) -> bytes:
    return giop.reply(came.request_id, number_body(number), order=came.order, minor=came.minor)


def reference_body(reference: giop.Reference) -> Callable[[Octets], None]:
    """The body of a reply that forwards (CORBA 3.3 Part 2, 7.6.2)."""
    def put(out: Octets) -> None:
        out.string(reference.type_id)
        out.ulong(1)
        out.ulong(0)
        out.octets(reference.profile())
    return put


def retry(*guards: Guard, timeout: float = 20, name: str = "retry", published: str = "") -> Relay:
    """A relay before guards."""
    words = [word for guard in guards for word in ("--guard", f"127.0.0.1:{guard.port}")]
    words += ["--published", published] if published else []
    return Relay("retry", *words, "--timeout", str(timeout), "--name", name)


class Retry(unittest.TestCase):
    """What it makes of requests and of replies."""

    @classmethod
    def setUpClass(cls):
        relays.program()

    def asked(self, relay: Relay, octets: bytes, wanted: bytes) -> None:
        with Peer(relay.port) as peer:
            peer.tell(octets)
            peer.wants(wanted)

    def test_each_request_has_a_key_of_its_own(self):
        """Its body, its order, its version and its contexts are those with which it came, and so is the reply."""
        body = bytes(range(90))
        with Guard(lambda came, count: returned(came, count)) as guard, retry(guard, name="east") as relay:
            relay.begin()
            count = 0
            for minor in (0, 1, 2):
                for order in (BIG, LITTLE):
                    for key in (b"k", b"key", b"12345"):
                        count += 1
                        octets = giop.request(70, key, "any", body, minor=minor, order=order,
                                              contexts=[(77, b"some")], principal=b"1234")
                        came = giop.read(octets)
                        self.asked(relay, octets, giop.reply(70, number_body(count), order=order, minor=minor))
                        sent = guard.requests[-1]
                        want((sent.minor, sent.order, sent.key, sent.operation, sent.body),
                             (minor, order, key, b"any", body))
                        want(sent.place % 8, came.place % 8)
                        want(dict(sent.contexts)[77], b"some")
            keys = guard.keys()
            self.assertEqual([key.number for key in keys], list(range(1, count + 1)))
            # (each client's connection has an id of its own, of this life)
            self.assertEqual(len({key.client for key in keys}), count)
            self.assertEqual(len({key.client.rpartition(b".")[0] for key in keys}), 1)
            self.assertTrue(keys[0].client.startswith(b"east."))
            with Peer(relay.port) as peer:
                for request_id in (1, 2):
                    peer.tell(request(request_id, b"k", "add"))
                    peer.message()
            first, second = guard.keys()[-2:]
            self.assertEqual((first.client, first.number + 1), (second.client, second.number))

    def test_code_sets_of_a_connection(self):
        """They are said in each request to the guard, though a client says them once."""
        with Guard(lambda came, _: returned(came)) as guard, retry(guard) as relay:
            relay.begin()
            with Peer(relay.port) as peer:
                peer.tell(giop.request(1, b"k", "any", contexts=[SETS]))
                peer.message()
                peer.tell(giop.request(2, b"k", "any"))
                peer.message()
            self.asked(relay, giop.request(3, b"k", "any"), giop.reply(3, number_body(7)))
            self.assertEqual([dict(one.contexts).get(CODE_SETS) for one in guard.requests], [SETS[1], SETS[1], None])

    def test_sent_again_until_it_is_answered(self):
        """After cuts, after CloseConnection, and after TRANSIENT of a guard that has begun nothing: under one key."""
        said = [None, None, "close", "declined", "returned"]

        def answer(came, count):
            how = said[min(count, len(said)) - 1]
            return {None: lambda: None, "close": lambda: giop.CLOSE_CONNECTION,
                    "declined": lambda: exception(came, "TRANSIENT", NO, DECLINED),
                    "returned": lambda: returned(came)}[how]()

        with Guard(answer) as guard, retry(guard) as relay:
            relay.begin()
            self.asked(relay, request(5, b"k", "add", number_body(7)), giop.reply(5, number_body(7)))
            self.assertEqual(len(guard.requests), len(said))
            self.assertEqual(len(set(guard.keys())), 1)
            self.assertEqual({one.body for one in guard.requests}, {guard.requests[0].body})

    def test_an_outcome_is_told_as_it_is(self):
        """Exceptions of the server, its own TRANSIENT among them, and a COMM_FAILURE that nobody knows more of: at once."""
        for name, completed, minor in [("COMM_FAILURE", MAYBE, 0), *(
                (name, completed, minor) for name in ("TRANSIENT", "NO_RESOURCES", "BAD_CONTEXT")
                for completed in (NO, MAYBE, giop.YES) for minor in (0, 3, DECLINED)
                if completed != NO or minor != DECLINED)]:
            with self.subTest(name, completed=completed), \
                    Guard(lambda came, _: exception(came, name, completed, minor)) as guard, retry(guard) as relay:
                relay.begin()
                wanted = giop.reply(5, giop.system_body(name, completed, minor), status=giop.SYSTEM_EXCEPTION)
                self.asked(relay, request(5, b"k", "add"), wanted)
                self.assertEqual(len(guard.requests), 1)

    def test_expired_at_a_guard_after_it_was_sent_before(self):
        """An earlier transmission may have acted: nobody is told COMPLETED_NO. Where a server says the same, which a guard
        tells, that arrives."""
        for is_void, name, completed in ((1, "TIMEOUT", MAYBE), (0, "BAD_CONTEXT", NO)):
            def answer(came, count, told=(STORE, bytes([0, is_void]) + bytes(28))):
                return None if count == 1 else exception(came, "BAD_CONTEXT", NO, contexts=[told])

            with self.subTest(is_void=is_void), Guard(answer) as guard, retry(guard) as relay:
                relay.begin()
                wanted = giop.reply(5, giop.system_body(name, completed, 0), status=giop.SYSTEM_EXCEPTION)
                self.asked(relay, request(5, b"k", "add"), wanted)

    @base.each(lambda: [(name, (name, completed)) for name, completed in (
        ("never sent", NO), ("declined", NO), ("no room", NO), ("lost and declined", MAYBE), ("never answered", MAYBE),
        ("declined under a key of the client's", MAYBE))])
    def test_its_time_is_over(self, given):
        """TIMEOUT: NO where no guard got it, or each time one said that it has begun nothing; MAYBE where it was ever
        sent beside that, and where its client sends the key elsewhere."""
        name, completed = given

        def answer(came, count):
            if name == "never answered" or name == "lost and declined" and count == 1:
                return b"" if name == "never answered" else None
            return exception(came, "NO_RESOURCES" if name == "no room" else "TRANSIENT", NO, DECLINED)

        with Guard(answer) as guard, retry(guard, timeout=1) as relay:
            if name == "never sent":
                guard.hush()
            relay.begin()
            wanted = giop.reply(5, giop.system_body("TIMEOUT", completed, 0), status=giop.SYSTEM_EXCEPTION)
            own = {"client": b"A", "number": 7} if name.endswith("client's") else {}
            self.asked(relay, request(5, b"k", "add", **own), wanted)
            self.assertEqual(len(guard.requests) > 1, name not in ("never sent", "never answered"))

    def test_one_way_calls_arrive(self):
        """They ask the guard for a reply, and their client gets none."""
        with Guard(lambda came, count: None if count < 3 else returned(came)) as guard, retry(guard) as relay:
            relay.begin()
            with Peer(relay.port) as peer:
                peer.tell(giop.request(1, b"k", "tell", wish=giop.NONE))
                until(lambda: len(guard.requests) == 3, "it arrives")
                self.assertEqual({one.wish for one in guard.requests}, {giop.FULL})
                peer.tell(giop.request(2, b"k", "any"))
                peer.wants(giop.reply(2, number_body(7)))

    def test_a_key_of_its_own_stays(self):
        """A request with FT_REQUEST is passed on with its client, its number and its expiration."""
        with Guard(lambda came, count: None if count == 1 else returned(came)) as guard, retry(guard) as relay:
            relay.begin()
            self.asked(relay, request(5, b"k", "add", client=b"A", number=41), giop.reply(5, number_body(7)))
            self.assertEqual(guard.keys(), [giop.Ft(b"A", 41, giop.NEVER)] * 2)

    def test_the_first_guard_that_can_be_reached(self):
        """The second where the first is gone."""
        with Guard(lambda came, _: returned(came, 2)) as second, Guard(lambda came, _: returned(came, 1)) as first, \
                retry(first, second) as relay:
            relay.begin()
            self.asked(relay, request(5, b"k", "add"), giop.reply(5, number_body(1)))
            first.hush()
            self.asked(relay, request(6, b"k", "add"), giop.reply(6, number_body(2)))

    def test_a_guard_that_says_nothing(self):
        """What waits for it is sent to the next, once it does not answer a LocateRequest either."""
        with Guard(lambda came, _: returned(came, 2)) as second, \
                socket.create_server(("127.0.0.1", 0)) as silent, \
                Relay("retry", "--guard", f"127.0.0.1:{silent.getsockname()[1]}",
                      "--guard", f"127.0.0.1:{second.port}", "--timeout", "60") as relay:
            relay.begin()
            self.asked(relay, request(5, b"k", "add"), giop.reply(5, number_body(2)))

    @needs("unshare", "ip")
    def test_connections_that_vanish(self):
        """What is sent on one whose octets arrive nowhere any more is sent again on another, long before its time is
        over."""
        relays.needs_network()
        ran = subprocess.run(["unshare", "-n", sys.executable, "-m", "tests.relay.vanishing"], cwd=ROOT, text=True,
                             stdout=subprocess.PIPE, stderr=subprocess.STDOUT, timeout=relays.SECONDS, check=False)
        self.assertEqual(ran.returncode, 0, ran.stdout)

    def test_a_forward_to_a_guard_of_the_list(self):
        """It is asked with the key that the forward has, under the same number; so is the first guard where it leads to
        `retry` itself; one that leads elsewhere is refused."""
        with Guard(lambda came, _: returned(came)) as there:
            def forward(port):
                reference = giop.Reference(b"IDL:A:1.0", 2, b"127.0.0.1", port, b"there")
                return lambda came, _: giop.reply(came.request_id, reference_body(reference),
                                                  status=giop.LOCATION_FORWARD)
            with Guard(forward(there.port)) as first, retry(first, there) as relay:
                relay.begin()
                self.asked(relay, request(5, b"k", "add"), giop.reply(5, number_body(7)))
                self.assertEqual([one.key for one in there.requests], [b"there"])
                self.assertEqual(first.keys(), there.keys())
            port = relays.free_port()
            with Guard(forward(port)) as first, retry(first, there, published=f"localhost:{port}") as relay:
                relay.begin()
                first.answer = lambda came, count: returned(came) if count > 1 else forward(port)(came, count)
                self.asked(relay, request(5, b"k", "add"), giop.reply(5, number_body(7)))
                self.assertEqual([one.key for one in first.requests], [b"k", b"there"])
                self.assertEqual(len(set(first.keys())), 1)
            with Guard(forward(1)) as first, retry(first, there) as relay:
                relay.begin()
                wanted = giop.reply(5, giop.system_body("IMP_LIMIT", NO, 0), status=giop.SYSTEM_EXCEPTION)
                self.asked(relay, request(5, b"k", "add"), wanted)

    def test_locates(self):
        with Guard(lambda came, _: returned(came)) as guard, retry(guard) as relay:
            relay.begin()
            self.asked(relay, giop.locate(9, b"any"), giop.located(9, giop.OBJECT_HERE))

    def test_it_ends_in_order(self):
        """At SIGTERM what waits is answered, CloseConnection is said, and the status is 0."""
        is_due = threading.Event()

        def answer(came, _):
            is_due.wait(20)
            return returned(came)

        with Guard(answer) as guard, retry(guard) as relay:
            relay.begin()
            with Peer(relay.port) as peer, Peer(relay.port) as idle:
                peer.tell(request(5, b"k", "add"))
                until(lambda: guard.requests, "it is sent")
                relay.tell(signal.SIGTERM)
                idle.wants(giop.CLOSE_CONNECTION)
                time.sleep(0.1)
                is_due.set()
                peer.wants(giop.reply(5, number_body(7)) + giop.CLOSE_CONNECTION)
            self.assertEqual(relay.end(signal.SIGTERM), 0)


if __name__ == "__main__":
    unittest.main()
