"""The role `guard` before a server that is played here, by messages that tests/giop.py writes and reads."""
from __future__ import annotations

import contextlib
import os
import signal
import socket
import tempfile
import threading
import time
import unittest
import unittest
from collections.abc import Callable, Iterator

from tests import base, giop
from tests.cdr import Octets
from tests.giop import BIG, CODE_SETS, EMPTY, LITTLE, MAYBE, NO, NONE, YES, Message, Reference
from tests.giop_peers import Peer, ask, number_body, request, until, want
from tests.relay import relays
from tests.relay.relays import Relay

# the minor code of a refusal of which nothing is kept
DECLINED = 0xfffff001
# two code sets as a service context has them
SETS = [(CODE_SETS, b"\0\0\0\0\x05\x01\0\x01\0\1\1\x09"), (CODE_SETS, b"\0\0\0\0\0\x01\0\x01\0\1\1\x09")]
# the status of a forward that is meant for good
FOR_GOOD = 4

def code_sets(number: int) -> giop.Context:
    """The code set UTF-8 for char, and one of a number for wchar."""
    return CODE_SETS, b"\0\0\0\0\x05\x01\0\x01" + number.to_bytes(4, "big")


# a service context of another kind
OTHER = (0x41424300, b"some data")
# the id of the service context that moves a body
PADDING = 0x4c520000
KEY = b"k\0\xff"
# what a server does in place of an answer: it closes the connection, says CloseConnection, or does nothing
CUT, GOODBYE, QUIET = object(), object(), object()


class Server:
    """A server that performs each request that comes, many at once, and remembers it.

    `answer` gives what is answered: octets, or what it does in place of that, or octets and whether it closes the
    connection behind them. It returns the count of what it performed where it is None.
    """

    def __init__(self, port: int = 0) -> None:
        self.answer: Callable[[Message], object] | None = None
        self.performed: list[Message] = []
        self.cancelled: list[int] = []
        self.connections = 0
        self.lock = threading.Lock()
        self.peers: list[socket.socket] = []
        self.listener = socket.create_server(("127.0.0.1", port))
        self.port = self.listener.getsockname()[1]
        threading.Thread(target=self.accept, daemon=True).start()

    def __enter__(self) -> Server:
        return self

    def __exit__(self, *_: object) -> None:
        for one in (self.listener, *self.peers):
            with contextlib.suppress(OSError):
                one.shutdown(socket.SHUT_RDWR)
            one.close()

    def accept(self) -> None:
        with contextlib.suppress(OSError):
            while True:
                peer, _ = self.listener.accept()
                self.peers.append(peer)
                self.connections += 1
                threading.Thread(target=self.serve, args=(peer,), daemon=True).start()

    def serve(self, peer: socket.socket) -> None:
        with contextlib.suppress(OSError):
            while True:
                head = peer.recv(giop.HEADER, socket.MSG_WAITALL)
                if len(head) < giop.HEADER:
                    break
                left = giop.size_of(head) - giop.HEADER
                came = giop.read(head + (peer.recv(left, socket.MSG_WAITALL) if left else b""))
                if came.kind == giop.CANCEL:
                    self.cancelled.append(came.request_id)
                    continue
                threading.Thread(target=self.perform, args=(peer, came), daemon=True).start()

    def perform(self, peer: socket.socket, came: Message) -> None:
        with self.lock:
            self.performed.append(came)
            count = len(self.performed)
        said = self.answer(came) if self.answer else None
        if said is None:
            said = giop.reply(came.request_id, number_body(count), order=came.order, minor=came.minor)
        with contextlib.suppress(OSError), self.lock:
            last, is_cut = said if isinstance(said, tuple) else (said, said is GOODBYE or said is CUT)
            if last is GOODBYE:
                peer.sendall(giop.CLOSE_CONNECTION)
            elif isinstance(last, bytes) and came.wish != NONE:
                peer.sendall(last)
            if is_cut:
                peer.shutdown(socket.SHUT_RDWR)

    def once(self, *answers: object) -> None:
        """What is done with the next requests; those behind them are answered."""
        left = list(answers)
        self.answer = lambda _: left.pop(0) if left else None


@contextlib.contextmanager
def guarded(*words: str, dies_at: str = "", store: str = "memory") -> Iterator[tuple[Server, Relay]]:
    """A server, and a guard before it."""
    with Server() as server:
        server_words = [] if "--server" in words or "--reference" in words else ["--server", f"127.0.0.1:{server.port}"]
        with Relay("guard", "--store", store, *server_words, *words) as guard:
            guard.begin(dies_at)
            yield server, guard


def asks(port: int) -> bool:
    """Whether a request is answered by results."""
    with Peer(port) as peer:
        peer.tell(request(1, KEY, "add"))
        return peer.message().status == giop.NO_EXCEPTION


def system(request_id: int, name: str, completed: int, minor_code: int = 0, minor: int = 2) -> bytes:
    """A reply that is a system exception."""
    return giop.reply(request_id, giop.system_body(name, completed, minor_code), status=giop.SYSTEM_EXCEPTION,
                      minor=minor)


def forms() -> list[base.Part]:
    """Requests in each version and order, whose bodies stand at each place that they can."""
    made = []
    for order in (BIG, LITTLE):
        made.append((f"1.2 {order}", (2, order, b"", 0)))
        for minor in (0, 1):
            for place in range(8):
                made.append((f"1.{minor} {order} {place}", (minor, order, b"p" * (place % 4), place // 4)))
    return made


class Forwarding(unittest.TestCase):
    """What comes goes on as it came."""

    @classmethod
    def setUpClass(cls):
        relays.program()

    @base.each(forms)
    def test_bodies_stand_at_their_places(self, given: tuple) -> None:
        """In each version and order a body goes on as it came, at the same place modulo 8, with FT_REQUEST and without
        it; and service contexts but that one."""
        minor, order, principal, more = given
        with guarded() as (server, guard), Peer(guard.port) as peer:
            for count, number in ((1, None), (2, 1)):
                asked = request(7, b"key" + bytes(4 * more), "any", bytes(range(200)), number=number, minor=minor,
                                order=order, principal=principal)
                peer.tell(asked)
                peer.wants(giop.reply(7, number_body(count), order=order, minor=minor))
                sent, came = giop.read(asked), server.performed[-1]
                want((came.minor, came.order, came.key, came.operation, came.body),
                     (minor, order, sent.key, b"any", sent.body))
                want(came.place % 8, sent.place % 8)
                want([it for it in came.contexts if it[0] != PADDING], [])

    def test_contexts_go_on(self):
        """All but FT_REQUEST and that of a bidirectional connection; code sets with each request of a connection, and
        those with other ones on other connections."""
        with guarded() as (server, guard):
            bidirectional = (5, b"\0\0\0\0\0\0\0\0")
            for sets in SETS:
                with Peer(guard.port) as peer:
                    for contexts in ([sets, OTHER, bidirectional], [OTHER], [giop.ft_request(b"A", 1), OTHER]):
                        peer.tell(giop.request(1, KEY, "any", contexts=contexts))
                        want(peer.message().status, giop.NO_EXCEPTION)
            told = [sorted(came.contexts) for came in server.performed]
            want(told, [sorted([SETS[0], OTHER])] * 3 + [sorted([SETS[1], OTHER])] * 2)
            want(server.connections, 2)

    def test_many_code_sets(self):
        """Where there are connections for as many as there may be, those that nobody uses end for others."""
        with guarded() as (server, guard), Peer(guard.port) as busy:
            may_go_on = threading.Event()
            server.answer = lambda came: came.operation == b"slow" and may_go_on.wait(relays.SECONDS) and None or None
            busy.tell(giop.request(1, KEY, "slow", contexts=[code_sets(1000)]))
            until(lambda: server.performed, "it comes")
            for number in range(70):
                with Peer(guard.port) as peer:
                    peer.tell(giop.request(1, KEY, "any", contexts=[code_sets(number)]))
                    want(peer.message().status, giop.NO_EXCEPTION)
            may_go_on.set()
            want(busy.message().status, giop.NO_EXCEPTION)
            want(server.connections, 71)
            until(lambda: guard.said().count("others had to be opened") == 7, "those that were idle end")

    def test_contexts_of_replies_go_back(self):
        """With the first reply; a repeat has none."""
        with guarded() as (server, guard):
            server.once(giop.reply(1, b"abc", contexts=[OTHER]))
            ask(guard.port, request(4, KEY, "any", number=1), giop.reply(4, b"abc", contexts=[OTHER]))
            ask(guard.port, request(5, KEY, "any", number=1), giop.reply(5, b"abc"))

    @base.each(lambda: [(f"1.{minor} {order} {place}", (minor, order, place))
                        for minor in (0, 1) for order in (BIG, LITTLE) for place in (0, 4)])
    def test_bodies_of_replies_stand_at_their_places(self, given: tuple) -> None:
        """Those of 1.0 and 1.1, also of repeats, and of repeats after a restart. A repeat in 1.2, where such a body can
        not stand, is IMP_LIMIT, COMPLETED_YES."""
        minor, order, place = given
        body = bytes(range(1, 10))
        with tempfile.TemporaryDirectory() as folder, guarded(store=os.path.join(folder, "kept")) as (server, guard):
            server.answer = lambda came: giop.reply(came.request_id, body, minor=minor, order=order,
                                                    contexts=[(99, bytes(place))])
            for number, life in ((None, 1), (1, 1), (1, 1), (1, 2)):
                if life == 2:
                    guard.end(signal.SIGKILL)
                    guard.begin()
                with Peer(guard.port) as peer:
                    peer.tell(request(4, KEY, "any", number=number, minor=minor, order=order))
                    came = peer.message()
                    want((came.status, came.order, came.body, came.place % 8), (giop.NO_EXCEPTION, order, body, place))
            want(len(server.performed), 2)
            elsewhere = giop.reply(4, body, order=order) if place == 0 else system(4, "IMP_LIMIT", YES)
            ask(guard.port, request(4, KEY, "any", number=1), elsewhere)

    def test_many_are_under_way_at_once(self):
        """64 requests of one connection, each of which the server answers once all have come."""
        with guarded() as (server, guard), Peer(guard.port) as peer:
            all_there = threading.Barrier(64)

            def answer(_: Message) -> None:
                all_there.wait(relays.SECONDS)

            server.answer = answer
            peer.tell(b"".join(request(index, KEY, "slow", number=index or None) for index in range(64)))
            told = [peer.message() for _ in range(64)]
            want(sorted(came.request_id for came in told), list(range(64)))
            want(sorted(came.body for came in told), [bytes(7) + bytes([n]) for n in range(1, 65)])

    def test_long_messages_pass(self):
        """Of nearly 16 MiB in both directions, and in fragments."""
        with guarded() as (server, guard), Peer(guard.port) as peer:
            octets = os.urandom((16 << 20) - 200)
            server.answer = lambda came: giop.reply(came.request_id, came.body)
            for number, size in ((None, len(octets)), (1, len(octets)), (2, 1 << 20)):
                peer.tell(request(1, KEY, "any", octets[:size], number=number))
                want(peer.message().body == octets[:size], True)
            server.answer = lambda came: b"".join(giop.cut(giop.reply(came.request_id, came.body), [4092] + [4096] * 99))
            peer.tell(request(1, KEY, "any", octets[:300_000], number=3))
            want(peer.message().body, octets[:300_000])

    @base.each(lambda: [(f"1.{minor}", minor) for minor in (0, 1, 2)])
    def test_what_is_too_long(self, minor: int) -> None:
        """A request of more than 16 MiB is IMP_LIMIT, COMPLETED_NO, and is not sent; of a reply, COMPLETED_YES, which
        is kept. Connections go on."""
        with guarded() as (server, guard), Peer(guard.port) as peer:
            octets = bytes(16 << 20)
            peer.tell(request(1, KEY, "any", octets, minor=minor) + request(2, KEY, "tell", octets, minor=minor, wish=NONE))
            peer.wants(system(1, "IMP_LIMIT", NO, minor=minor))
            want(server.performed, [])
            server.answer = lambda came: giop.reply(came.request_id, octets, minor=minor)
            for _ in range(2):
                peer.tell(request(3, KEY, "any", number=1, minor=minor))
                peer.wants(system(3, "IMP_LIMIT", YES, minor=minor))
            want((len(server.performed), server.connections), (1, 1))

    @base.each(lambda: [(f"1.{minor}", minor) for minor in (1, 2)])
    def test_what_is_too_long_in_fragments(self, minor: int) -> None:
        """The same, and nobody else notices: others of the same connections are answered."""
        def in_fragments(octets: bytes) -> bytes:
            size = 1 << 20
            return b"".join(giop.cut(octets, [size - (4 if minor == 2 else 0)] + [size] * (len(octets) // size)))

        with guarded("--connections", "1") as (server, guard), Peer(guard.port) as peer:
            may_go_on = threading.Event()
            server.answer = lambda came: may_go_on.wait(relays.SECONDS) and None
            peer.tell(request(9, KEY, "slow", number=9))
            until(lambda: server.performed, "it comes")
            octets = bytes(17 << 20)
            peer.tell(in_fragments(request(1, KEY, "any", octets, minor=minor)))
            peer.wants(system(1, "IMP_LIMIT", NO, minor=minor))
            server.answer = lambda came: in_fragments(giop.reply(came.request_id, octets, minor=minor))
            for _ in range(2):
                peer.tell(request(3, KEY, "any", number=1, minor=minor))
                peer.wants(system(3, "IMP_LIMIT", YES, minor=minor))
            may_go_on.set()
            peer.wants(giop.reply(9, number_body(1)))
            want((len(server.performed), server.connections), (2, 1))

    def test_one_way(self):
        """A request that wishes no reply, and one that wishes one without results; each acts once."""
        with guarded() as (server, guard), Peer(guard.port) as peer:
            server.answer = lambda came: giop.reply(came.request_id)
            for number in (None, 1):
                for _ in range(2):
                    peer.tell(request(1, KEY, "tell", wish=NONE, number=number))
                    peer.tell(request(2, KEY, "tell", wish=EMPTY, number=number and 2))
                    peer.wants(giop.reply(2))
            until(lambda: len(server.performed) == 6, "each that is to be performed comes")
            want(sorted(came.wish for came in server.performed), [NONE] * 3 + [EMPTY] * 3)

    def test_objects_are_here(self):
        """A LocateRequest is answered so in each version, and the server is not asked."""
        with guarded() as (server, guard), Peer(guard.port) as peer:
            for minor in (0, 1, 2):
                peer.tell(giop.locate(3, b"whatever", minor=minor))
                peer.wants(giop.located(3, giop.OBJECT_HERE, minor=minor))
            want(server.performed, [])

    def test_cancels_go_on(self):
        """Where the request has no FT_REQUEST; one that has goes on."""
        with guarded() as (server, guard), Peer(guard.port) as peer:
            may_go_on = threading.Event()
            server.answer = lambda _: may_go_on.wait(relays.SECONDS) and None
            peer.tell(request(1, KEY, "keyed", number=1) + request(2, KEY, "free"))
            until(lambda: len(server.performed) == 2, "both come")
            peer.tell(giop.cancel(1) + giop.cancel(2))
            until(lambda: server.cancelled, "a cancel comes")
            may_go_on.set()
            want(peer.message().request_id, 1)
            want(server.cancelled, [came.request_id for came in server.performed if came.operation == b"free"])

    def test_forwards_lead_to_the_guard(self):
        """Where they lead to what it guards or to itself; others, and a server that wants another addressing, are
        IMP_LIMIT, which is kept."""
        with guarded() as (server, guard):
            def forward(port: int) -> Callable[[Message], bytes]:
                return lambda came: giop.reply(
                    came.request_id, lambda out: put_reference(out, Reference(b"IDL:A:1.0", 2, b"127.0.0.1", port, b"o")),
                    status=giop.LOCATION_FORWARD, order=came.order)

            for order in (BIG, LITTLE):
                for port in (server.port, guard.port):
                    server.answer = forward(port)
                    with Peer(guard.port) as peer:
                        peer.tell(request(1, KEY, "any", order=order))
                        led = peer.message()
                        want(led, giop.read(forward(guard.port)(led)))
            server.answer = forward(1)
            for request_id in (1, 2):
                ask(guard.port, request(request_id, KEY, "any", number=1), system(request_id, "IMP_LIMIT", NO))
            self.assertIn("it forwards to 127.0.0.1:1, which is not guarded", guard.said())
            server.answer = lambda came: giop.reply(came.request_id, b"\0\0", status=5)
            ask(guard.port, request(1, KEY, "any", number=2), system(1, "IMP_LIMIT", NO))
            want(len(server.performed), 6)

    def test_forwards_lead_to_where_clients_find_it(self):
        """To --published, where that is said, and where the server's references lead there or to the file's; also where
        the guard listens at all addresses."""
        def forward(host: bytes, port: int) -> bytes:
            return giop.reply(1, lambda out: put_reference(out, Reference(b"IDL:A:1.0", 2, host, port, b"o")),
                              status=giop.LOCATION_FORWARD)

        with tempfile.TemporaryDirectory() as folder, Server() as server:
            file, port = os.path.join(folder, "reference"), relays.free_port()
            with open(file, "w", encoding="ascii") as to:
                to.write(Reference(b"IDL:A:1.0", 2, b"127.0.0.1", server.port, KEY).text())
            for at_all, words, leads in (("0.0.0.0", ["--published", "relay:2809"], (b"relay", 2809)),
                                         ("0.0.0.0", [], (b"127.0.0.1", port)), ("[::]", [], (b"127.0.0.1", port))):
                with relays.Life(relays.program(), "guard", "--listen", f"{at_all}:{port}", "--store", "memory",
                                 "--reference", file, *words) as guard:
                    guard.begin()
                    for at in (leads, (b"127.0.0.1", server.port), (b"127.0.0.1", port)):
                        server.answer = lambda came, at=at: renumbered(forward(*at), came)
                        ask(port, request(1, KEY, "any"), forward(*leads))
                    guard.end(signal.SIGTERM)


def renumbered(octets: bytes, came: Message) -> bytes:
    """A reply of 1.2 in big order, to a request that came."""
    return octets[:12] + came.request_id.to_bytes(4, "big") + octets[16:]


def put_reference(out: Octets, reference: Reference) -> None:
    """A reference as a value."""
    out.string(reference.type_id)
    out.ulong(1)
    out.ulong(0)
    out.octets(reference.profile())


class Once(unittest.TestCase):
    """What comes again is answered by its first."""

    @classmethod
    def setUpClass(cls):
        relays.program()

    def test_a_repeat_acts_once(self):
        """On the same connection and on others, while the first is under way and after it; another number acts again,
        and so does what has none."""
        with guarded() as (server, guard):
            asked = request(1, KEY, "add", number_body(7), number=1)
            may_go_on = threading.Event()
            server.answer = lambda _: may_go_on.wait(relays.SECONDS) and None
            with Peer(guard.port) as first, Peer(guard.port) as second:
                first.tell(asked + asked)
                second.tell(asked)
                with Peer(guard.port) as third:
                    third.tell(asked)
                until(lambda: len(server.performed) == 1, "the first comes")
                may_go_on.set()
                for peer in (first, first, second):
                    peer.wants(giop.reply(1, number_body(1)))
            ask(guard.port, request(8, KEY, "add", number_body(7), number=1), giop.reply(8, number_body(1)))
            ask(guard.port, request(9, KEY, "add", number_body(7), number=1, client=b"B"), giop.reply(9, number_body(2)))
            ask(guard.port, request(9, KEY, "add", number_body(7)), giop.reply(9, number_body(3)))

    def test_exceptions_are_kept(self):
        """Those that an operation declares, and those of the system, TRANSIENT among them."""
        wrong = giop.reply(1, lambda out: out.string("IDL:Wrong:1.0"), status=giop.USER_EXCEPTION)
        with guarded() as (server, guard):
            for number, said in enumerate((wrong, system(1, "TRANSIENT", NO), system(1, "NO_PERMISSION", YES))):
                server.answer = lambda came, said=said: renumbered(said, came)
                for _ in range(2):
                    ask(guard.port, request(1, KEY, "add", number=number), said)
            want(len(server.performed), 3)

    def test_what_was_not_got_is_sent_again(self):
        """A server that said CloseConnection is asked once more, then the request is TRANSIENT, and not kept; and so
        where no server is there."""
        with guarded() as (server, guard):
            declined = system(1, "TRANSIENT", NO, DECLINED)
            for number in (1, None):
                server.once(GOODBYE)
                ask(guard.port, request(1, KEY, "add", number=number), giop.reply(1, number_body(len(server.performed) + 2)))
                server.once(GOODBYE, GOODBYE)
                ask(guard.port, request(1, KEY, "add", number=number and 2), declined)
            before = len(server.performed)
            ask(guard.port, request(1, KEY, "add", number=2), giop.reply(1, number_body(before + 1)))
        with guarded("--server", f"127.0.0.1:{relays.free_port()}") as (_, guard):
            for number in (1, None):
                ask(guard.port, request(1, KEY, "add", number=number), declined)

    def test_nobody_knows(self):
        """A server that is lost amid a request: COMM_FAILURE, COMPLETED_MAYBE, which is kept, and said in the log with
        the key. The next request opens another connection."""
        with guarded() as (server, guard):
            server.once(CUT)
            for request_id in (1, 2):
                ask(guard.port, request(request_id, KEY, "add", number=5, client=b"one"),
                    system(request_id, "COMM_FAILURE", MAYBE))
            want(len(server.performed), 1)
            ask(guard.port, request(1, KEY, "add", number=6), giop.reply(1, number_body(2)))
            server.once(CUT)
            ask(guard.port, request(1, KEY, "add"), system(1, "COMM_FAILURE", MAYBE))
            lines = [line for line in guard.said().splitlines() if "nobody knows" in line]
            want(["client=one" in line and "number=5" in line for line in lines], [True])

    def test_what_takes_too_long(self):
        """It is TIMEOUT, COMPLETED_MAYBE, which is kept; the reply that comes later is dropped, and others are
        answered."""
        with guarded("--timeout", "2", "--connections", "1") as (server, guard), Peer(guard.port) as peer:
            late = system(1, "TIMEOUT", MAYBE)
            for number in (1, None):
                server.once(QUIET)
                before = len(server.performed)
                peer.tell(request(1, KEY, "add", number=number))
                until(lambda before=before: len(server.performed) > before, "it comes")
                # (what is answered meanwhile says that the connection is alive)
                ask(guard.port, request(3, KEY, "add"), giop.reply(3, number_body(before + 2)))
                peer.wants(late)
            server.answer = lambda came: giop.reply(server.performed[0].request_id) + giop.reply(came.request_id)
            peer.tell(request(2, KEY, "add", number=2) + request(1, KEY, "add", number=1))
            want(sorted([peer.message().request_id, peer.message().request_id]), [1, 2])
            want((len(server.performed), server.connections), (5, 1))

    def test_it_outlives_its_process(self):
        """Outcomes in a file are those of the next life."""
        with tempfile.TemporaryDirectory() as folder, guarded(store=os.path.join(folder, "kept")) as (server, guard):
            for life in range(3):
                ask(guard.port, request(life, KEY, "add", number=1), giop.reply(life, number_body(1)))
                guard.end(signal.SIGKILL)
                guard.begin()
            want(len(server.performed), 1)

    @base.each(lambda: [(name, name) for name in ("before-begin", "begun", "sent", "received", "finished", "answered")])
    def test_it_dies_at_a_point(self, point: str) -> None:
        """What its next life answers is what became of the request: it acts at most once."""
        with tempfile.TemporaryDirectory() as folder:
            with guarded(store=os.path.join(folder, "kept"), dies_at=point) as (server, guard):
                asked = request(1, KEY, "add", number=1)
                with Peer(guard.port) as peer:
                    peer.tell(asked)
                    until(guard.died, "it dies")
                guard.end()
                guard.begin()
                known = giop.reply(1, number_body(1))
                answer = known if point in ("before-begin", "finished", "answered") else system(1, "COMM_FAILURE", MAYBE)
                for _ in range(2):
                    ask(guard.port, asked, answer)
                want(len(server.performed), 0 if point == "begun" else 1)

    def test_what_is_not_begun(self):
        """What has expired, or whose client's id is too long, is BAD_CONTEXT, and whose FT_REQUEST is not valid MARSHAL;
        what is more than a client's share is NO_RESOURCES; nothing is sent, and nothing kept."""
        with guarded("--share", "1") as (server, guard), Peer(guard.port) as peer:
            for context, name in ((giop.ft_request(b"A", 1, 1), "BAD_CONTEXT"), ((giop.FT_REQUEST, b"\0"), "MARSHAL"),
                                  (giop.ft_request(b"A" * 257, 1), "BAD_CONTEXT")):
                peer.tell(giop.request(1, KEY, "add", contexts=[context]))
                peer.wants(system(1, name, NO))
            peer.tell(giop.request(1, KEY, "add", contexts=[OTHER] * 33))
            peer.wants(system(1, "IMP_LIMIT", NO))
            want(server.performed, [])
            may_go_on = threading.Event()
            server.answer = lambda _: may_go_on.wait(relays.SECONDS) and None
            peer.tell(request(1, KEY, "add", number=1))
            until(lambda: server.performed, "it comes")
            peer.tell(request(2, KEY, "add", number=2) + request(3, KEY, "add", number=1, client=b"B"))
            peer.wants(system(2, "NO_RESOURCES", NO, DECLINED))
            may_go_on.set()
            want(sorted([peer.message().request_id, peer.message().request_id]), [1, 3])


def forward(port: int, status: int = giop.LOCATION_FORWARD, key: bytes = b"there") -> Callable[[Message], bytes]:
    """What answers a request by a forward to a key at a port."""
    return lambda came: giop.reply(
        came.request_id, lambda out: put_reference(out, Reference(b"IDL:A:1.0", 2, b"127.0.0.1", port, key)),
        status=status, order=came.order, minor=came.minor)


class Led(unittest.TestCase):
    """What a server forwards is performed by nobody, and nothing of it is kept."""

    @classmethod
    def setUpClass(cls):
        relays.program()

    @base.each(lambda: [("once", giop.LOCATION_FORWARD), ("for good", FOR_GOOD)])
    def test_the_key_acts_where_it_leads(self, status: int) -> None:
        """A client follows with the same key, which acts there once; a repeat, also of what was forwarded, is answered by
        that, and so is one that waited."""
        with guarded() as (server, guard), Peer(guard.port) as peer:
            asked = request(1, KEY, "add", number=1)
            follows = request(2, b"there", "add", number=1)
            server.answer = lambda came: forward(server.port, status)(came) if came.key == KEY else None
            for _ in range(2):
                peer.tell(asked)
                want(peer.message(), giop.read(forward(guard.port, status)(giop.read(asked))))
            for _ in range(2):
                peer.tell(follows + asked)
                peer.wants(giop.reply(2, number_body(3)))
                peer.wants(giop.reply(1, number_body(3)))
            want([came.key for came in server.performed], [KEY, KEY, b"there"])

    def test_who_waited_for_it_is_sent(self):
        """A repeat that came while the first was under way is sent once that was forwarded."""
        with guarded() as (server, guard), Peer(guard.port) as first, Peer(guard.port) as second:
            may_go_on = threading.Event()

            def answer(came: Message) -> object:
                if len(server.performed) == 1:
                    may_go_on.wait(relays.SECONDS)
                    return forward(server.port)(came)
                return None

            server.answer = answer
            asked = request(1, KEY, "add", number=1)
            first.tell(asked)
            until(lambda: server.performed, "it comes")
            second.tell(asked)
            may_go_on.set()
            want(first.message().status, giop.LOCATION_FORWARD)
            second.wants(giop.reply(1, number_body(2)))

    @base.each(lambda: [("led", ("led", MAYBE)), ("undone", ("undone", None)), ("answered", ("answered", None))])
    def test_the_guard_dies_there(self, given: tuple) -> None:
        """Between the forward and its key's end nobody knows: MAYBE is kept, and the key never acts. Behind that it acts
        where the client is led."""
        point, completed = given
        with tempfile.TemporaryDirectory() as folder, \
                guarded(store=os.path.join(folder, "kept"), dies_at=point) as (server, guard):
            server.answer = lambda came: forward(server.port)(came) if came.key == KEY else None
            with Peer(guard.port) as peer:
                peer.tell(request(1, KEY, "add", number=1))
                until(guard.died, "it dies")
            guard.end()
            guard.begin()
            for _ in range(2):
                ask(guard.port, request(1, b"there", "add", number=1),
                    system(1, "COMM_FAILURE", MAYBE) if completed == MAYBE else giop.reply(1, number_body(2)))
            want([came.key for came in server.performed], [KEY] if completed == MAYBE else [KEY, b"there"])

    def test_what_leads_elsewhere_passes_to_retry(self):
        """As it is, and nothing is kept: `retry` follows to guards of its list, and refuses what leads to none."""
        with guarded() as (server, guard), Server() as other, \
                Relay("guard", "--server", f"127.0.0.1:{other.port}", "--store", "memory") as there, \
                Relay("retry", "--guard", f"127.0.0.1:{guard.port}", "--guard", f"127.0.0.1:{there.port}") as retry:
            there.begin()
            retry.begin()
            for port, answer in ((there.port, giop.reply(1, number_body(1))), (1, system(1, "IMP_LIMIT", NO))):
                server.answer = forward(port)
                ask(retry.port, request(1, KEY, "add"), answer)
            want([came.key for came in other.performed], [b"there"])
            self.assertIn('where no guard of the list is places=["127.0.0.1:1"]', retry.said())

    def test_what_leads_nowhere_is_kept(self):
        """A forward that can't be passed on, and a server that wants another addressing, have performed nothing; what is
        told of that, COMPLETED_NO, is kept, so that it stays true of what is sent later."""
        with guarded() as (server, guard):
            for number, said in enumerate((forward(1), lambda came: giop.reply(came.request_id, b"\0\0", status=5))):
                server.answer = said
                ask(guard.port, request(1, KEY, "any", number=number), system(1, "IMP_LIMIT", NO))
                server.answer = None
                ask(guard.port, request(1, KEY, "any", number=number), system(1, "IMP_LIMIT", NO))
            want(len(server.performed), 2)


class Ends(unittest.TestCase):
    """How connections, servers and the guard end."""

    @classmethod
    def setUpClass(cls):
        relays.program()

    def test_sigterm_drains(self):
        """What is under way is answered, also to a connection that is idle CloseConnection is said, and the status is
        0. Who connects meanwhile is not accepted."""
        with guarded() as (server, guard), Peer(guard.port) as busy, Peer(guard.port) as idle:
            may_go_on = threading.Event()
            server.answer = lambda _: may_go_on.wait(relays.SECONDS) and None
            busy.tell(request(1, KEY, "slow", number=1) + request(2, KEY, "slow"))
            until(lambda: len(server.performed) == 2, "both come")
            guard.tell(signal.SIGTERM)
            idle.wants(giop.CLOSE_CONNECTION)
            idle.ended()
            with self.assertRaises(ConnectionRefusedError):
                socket.create_connection(("127.0.0.1", guard.port)).close()
            may_go_on.set()
            want(sorted([busy.message().request_id, busy.message().request_id]), [1, 2])
            busy.wants(giop.CLOSE_CONNECTION)
            busy.ended()
            idle.finish()
            busy.finish()
            want(guard.process.wait(relays.SECONDS), 0)

    def test_sigterm_is_heard_though_a_server_hangs(self):
        """The guard ends when the time for that is over."""
        with guarded("--drain", "0.3") as (server, guard), Peer(guard.port) as peer:
            server.answer = lambda _: QUIET
            peer.tell(request(1, KEY, "slow", number=1))
            until(lambda: server.performed, "it comes")
            want(guard.end(signal.SIGTERM), 0)

    def test_the_system_is_told(self):
        """READY once clients are accepted, and STOPPING at SIGTERM, at a socket of either kind."""
        words = ["--store", "memory", "--server", "127.0.0.1:1", "--listen", f"127.0.0.1:{relays.free_port()}"]
        with tempfile.TemporaryDirectory() as folder:
            for name in (os.path.join(folder, "socket"), f"@lemonrudder-{os.getpid()}"):
                with socket.socket(socket.AF_UNIX, socket.SOCK_DGRAM) as manager, \
                        relays.Life(relays.program(), "guard", *words) as guard:
                    manager.settimeout(relays.SECONDS)
                    manager.bind(name.replace("@", "\0"))
                    guard.begin(manager=name)
                    want(manager.recv(99), b"READY=1")
                    want(guard.end(signal.SIGTERM), 0)
                    want(manager.recv(99), b"STOPPING=1")

    def test_a_client_that_is_lost(self):
        """Its requests go on, and the outcome is kept."""
        with guarded() as (server, guard):
            may_go_on = threading.Event()
            server.answer = lambda _: may_go_on.wait(relays.SECONDS) and None
            with Peer(guard.port) as peer:
                peer.tell(request(1, KEY, "add", number=1))
                until(lambda: server.performed, "it comes")
                peer.abandon()
            may_go_on.set()
            ask(guard.port, request(2, KEY, "add", number=1), giop.reply(2, number_body(1)))

    def test_what_is_no_giop(self):
        """It is answered MessageError, and the connection ends, with its reason in the log; others go on."""
        with guarded() as (_, guard), Peer(guard.port) as other:
            for octets, answer in ((b"GET / HTTP/1.1\r\n\r\n", giop.MESSAGE_ERROR), (giop.reply(1), giop.MESSAGE_ERROR),
                                   (giop.CLOSE_CONNECTION, b""), (giop.MESSAGE_ERROR, b"")):
                with Peer(guard.port) as peer:
                    peer.tell(octets)
                    peer.wants(answer)
                    peer.ended()
            other.tell(request(1, KEY, "add"))
            other.wants(giop.reply(1, number_body(1)))
            until(lambda: guard.said().count("connection ended") == 4, "four ends are said")

    def test_a_server_that_is_away_is_asked_seldom(self):
        """However often clients ask: with pauses that grow; and once it is there they are answered."""
        port = relays.free_port()
        with guarded("--server", f"127.0.0.1:{port}") as (_, guard), Peer(guard.port) as peer:
            end, count = time.monotonic() + 3, 0
            while time.monotonic() < end:
                peer.tell(request(1, KEY, "add"))
                peer.wants(system(1, "TRANSIENT", NO, DECLINED))
                count += 1
            attempts = guard.said().count("not connected")
            self.assertTrue(3 <= attempts <= 9, f"{attempts} attempts for {count} requests")
            with Server(port) as back:
                until(lambda: asks(guard.port), "it is answered")
                want(len(back.performed), 1)

    def test_a_reference_is_read_again(self):
        """A server that is begun at another port is found by its reference."""
        with tempfile.TemporaryDirectory() as folder, Server() as server, Server() as next_one:
            file = os.path.join(folder, "reference")

            def publish(port: int) -> None:
                with open(file, "w", encoding="ascii") as to:
                    to.write(Reference(b"IDL:A:1.0", 2, b"127.0.0.1", port, KEY).text() + "\n")

            publish(server.port)
            with guarded("--reference", file) as (_, guard):
                ask(guard.port, request(1, KEY, "add"), giop.reply(1, number_body(1)))
                publish(next_one.port)
                server.once(GOODBYE)
                ask(guard.port, request(1, KEY, "add"), giop.reply(1, number_body(1)))
                want((len(server.performed), len(next_one.performed)), (2, 1))

    def test_idle_connections_end(self):
        """CloseConnection is said on one that is idle for long, and not on one that waits."""
        with guarded("--idle", "2") as (server, guard), Peer(guard.port) as busy, Peer(guard.port) as idle:
            may_go_on = threading.Event()
            server.answer = lambda _: may_go_on.wait(relays.SECONDS) and None
            busy.tell(request(1, KEY, "slow"))
            idle.wants(giop.CLOSE_CONNECTION)
            idle.ended()
            time.sleep(3)
            may_go_on.set()
            busy.wants(giop.reply(1, number_body(1)) + giop.CLOSE_CONNECTION)
