"""Drives `giop serve` over sockets of 127.0.0.1, and compares what it answers to the octet.

Each test starts a server of its own on a free port, for the number of connections that it makes, and wants it to end
with status 0, nothing on standard error but the lines of --log, and the counter's reference alone on standard output.
"""
import contextlib
import os
import random
import socket
import subprocess
import sys
import threading
import time
import unittest

from tests import base, giop, programs
from tests.allocations import Counting
from tests.cdr import LITTLE
from tests.giop import EMPTY, FULL, MESSAGE_ERROR, NEVER, NONE, OBJECT_HERE, UNKNOWN_OBJECT, Reference
from tests.giop_peers import SECONDS, Peer, Wrong, free_port, request, want

CLIENT = os.path.join(programs.ROOT, "examples", "retry_client.py")
# the object, and what is asked of it
KEY = b"c"
SEVEN = bytes([0, 0, 0, 7])
# a LocateRequest of 1.2, and its answer
LOCATE, HERE = giop.locate(1, KEY), giop.located(1, OBJECT_HERE)
# the same of 1.0 in little order, whose answer is in big order
LOCATE_LITTLE, HERE_1_0 = giop.locate(1, KEY, minor=0, order=LITTLE), giop.located(1, OBJECT_HERE, minor=0)
# a context FT_REQUEST that is cut off
CUT_OFF = (giop.FT_REQUEST, b"")
# 1 January 1970 in units of 100 ns since 15 October 1582: 141,427 days
EPOCH = 141_427 * 24 * 3600 * 10_000_000


def reference(port):
    """The counter's reference at a port."""
    return Reference(b"IDL:Counter:1.0", 2, b"127.0.0.1", port, KEY)


def keyed(request_id, client=b"A", number=1, expiration=NEVER, wish=FULL, minor=2):
    """A Request for add(7) with FT_REQUEST."""
    return request(request_id, KEY, "add", SEVEN, client=client, number=number, expiration=expiration, wish=wish,
                   minor=minor)


def add(request_id, argument=7):
    """A Request for add without FT_REQUEST."""
    return giop.request(request_id, KEY, "add", lambda out: out.long(argument))


def get(request_id):
    return giop.request(request_id, KEY, "get")


def total(request_id, number, minor=2):
    """The Reply that returns a total."""
    return giop.reply(request_id, lambda out: out.longlong(number), minor=minor)


def raised(request_id, name):
    """The Reply with a system exception of minor code 0 and COMPLETED_NO."""
    return giop.system_exception(request_id, name)


@contextlib.contextmanager
def serving(connections, status=0, error="", port=None, env=None, options=()):
    """A server with these options that ends with this status, once the block is done."""
    port = port or free_port()
    words = [programs.program("GIOP"), "serve", "--port", str(port), "--connections", str(connections), *options]
    with subprocess.Popen(words, stdin=subprocess.DEVNULL, stdout=subprocess.PIPE, stderr=subprocess.PIPE,
                          env=env) as server:
        try:
            yield port
            out, err = server.communicate(timeout=SECONDS)
        except BaseException:
            server.kill()
            raise
    want(server.returncode, status, "the status")
    want(err.decode(), error, "standard error")
    want(out.decode(), reference(port).text() + "\n", "standard output")


def exchange(port, octets, answer, pieces=None):
    """Sends octets on a connection of its own, by default at once, takes the answer, and closes the connection."""
    with Peer(port) as peer:
        for piece in pieces or [octets]:
            peer.tell(piece)
        peer.wants(answer)
        peer.finish()
        peer.ended()


def singly(octets):
    """Octets one by one."""
    return [bytes([octet]) for octet in octets]


def wait_for(port, server=None):
    """Waits until a port is listened on, without a connection; false where the server has ended."""
    end = time.monotonic() + SECONDS
    wanted = f"0100007F:{port:04X} 00000000:0000 0A"
    while time.monotonic() < end:
        with open("/proc/net/tcp", encoding="ascii") as lines:
            if any(wanted in line for line in lines):
                return True
        if server and server.poll() is not None:
            return False
        time.sleep(0.002)
    raise Wrong("no listener")


def whole_or_none(port, octets, answer):
    """What came on a connection of its own: the whole answer, or nothing where the server let the connection go."""
    got = b""
    with Peer(port) as peer, contextlib.suppress(ConnectionError):
        peer.tell(octets)
        got = peer.received(len(answer))
    if got:
        want(got, answer, "an answer")
    return bool(got)


def refused_at(number, counting):
    """A run with this allocation refused, and whether it was. It ends with `memory` before it listens, or it lets one
    connection go at most, and a call that comes again acts once."""
    port = free_port()
    words = [programs.program("GIOP"), "serve", "--port", str(port), "--connections", "3"]
    asked = ((keyed(5), total(5, 7)), (keyed(9), total(9, 7)), (get(20), total(20, 7)))
    with subprocess.Popen(words, stdin=subprocess.DEVNULL, stdout=subprocess.PIPE, stderr=subprocess.PIPE,
                          env=counting.refusing(number)) as server:
        try:
            is_there = wait_for(port, server)
            came = [whole_or_none(port, *exchanged) for exchanged in asked] if is_there else []
            _, err = server.communicate(timeout=SECONDS)
        except BaseException:
            server.kill()
            raise
    is_refused = number <= counting.counted()
    wanted = (0, b"") if is_there else (1, b"memory\n")
    want((server.returncode, err), wanted, f"with allocation {number} refused, the end")
    is_served = came.count(False) <= is_refused and (is_there or is_refused)
    want(is_served, True, f"with allocation {number} refused, that it is served")
    return is_refused


class Serve(unittest.TestCase):
    """The program over sockets."""

    @classmethod
    def setUpClass(cls):
        programs.program("GIOP")

    def test_locates(self):
        """The object is found by its key, in both orders, and no other is."""
        other = giop.locate(1, b"d", minor=0, order=LITTLE)
        with serving(1) as port:
            exchange(port, LOCATE + LOCATE_LITTLE + other, HERE + HERE_1_0 + giop.located(1, UNKNOWN_OBJECT, minor=0))

    def test_profile(self):
        """The object is found by a profile of its reference."""
        by = giop.locate(2, (giop.BY_PROFILE, (0, reference(2809).profile())))
        with serving(1) as port:
            exchange(port, by, giop.located(2, OBJECT_HERE))

    def test_retry(self):
        """A request that comes again on a second connection acts once."""
        with serving(3) as port:
            exchange(port, keyed(5), total(5, 7))
            exchange(port, keyed(9), total(9, 7))
            exchange(port, get(20), total(20, 7))

    def test_retry_unread(self):
        """So does one whose answer was never read, on a connection that was reset."""
        with serving(2) as port:
            peer = Peer(port)
            peer.tell(keyed(5))
            time.sleep(0.05)
            peer.abandon()
            exchange(port, keyed(9) + get(20), total(9, 7) + total(20, 7))

    def test_versions(self):
        """The request of 1.2 comes again in 1.0 and in 1.1, and without a wish for its results."""
        with serving(1) as port:
            exchange(port, keyed(5) + keyed(6, minor=0) + keyed(6, minor=1) + keyed(7, wish=EMPTY),
                     total(5, 7) + total(6, 7, minor=0) + total(6, 7, minor=1) + giop.reply(7))

    def test_unwished(self):
        """A request without a reply acts, and once."""
        with serving(1) as port:
            exchange(port, keyed(5, wish=NONE) + keyed(6, wish=NONE) + get(20), total(20, 7))

    def test_clients(self):
        """Requests of two clients, and two of one client, are distinct."""
        with serving(1) as port:
            exchange(port, keyed(5) + keyed(6, client=b"B") + keyed(7, number=2),
                     total(5, 7) + total(6, 14) + total(7, 21))

    def test_expired(self):
        """A request is refused past its expiration, and performed an hour before it."""
        now = EPOCH + int(time.time() * 10_000_000)
        hour = 3600 * 10_000_000
        with serving(1) as port:
            exchange(port, keyed(5, expiration=100) + keyed(6, number=2, expiration=now - hour)
                     + keyed(7, number=3, expiration=now + hour),
                     raised(5, "BAD_CONTEXT") + raised(6, "BAD_CONTEXT") + total(7, 7))

    def test_refusals(self):
        """What can't be performed is answered so, and changes nothing."""
        bad = giop.request(5, KEY, "add", SEVEN, contexts=[CUT_OFF])
        with serving(1) as port:
            exchange(port, bad + giop.request(5, KEY, "sub") + giop.request(5, b"d", "sub")
                     + giop.request(5, KEY, "add") + get(20),
                     raised(5, "MARSHAL") + raised(5, "BAD_OPERATION") + raised(5, "OBJECT_NOT_EXIST")
                     + raised(5, "MARSHAL") + total(20, 0))

    def test_implicit(self):
        """The operations that every CORBA object has are not those of the counter: BAD_OPERATION."""
        with serving(1) as port:
            exchange(port, giop.request(5, KEY, "_is_a"), raised(5, "BAD_OPERATION"))

    def test_little(self):
        """A request in little order is answered in big order."""
        with serving(1) as port:
            exchange(port, giop.request(1, KEY, "get", order=LITTLE), total(1, 0))

    def test_fragments(self):
        """A request in three frames, one of another in between that is cancelled, whose Fragment is stray then."""
        first, second, third = giop.cut(add(5), [20, 16])
        other, stray, _ = giop.cut(add(6), [20, 16])
        with serving(1) as port, Peer(port) as peer:
            peer.tell(first + other + second + giop.cancel(6) + third + stray)
            peer.wants(total(5, 7) + MESSAGE_ERROR)
            peer.ended()

    def test_octet_by_octet(self):
        """Each octet is a piece."""
        with serving(2) as port:
            exchange(port, None, total(5, 7), singly(keyed(5)))
            exchange(port, None, HERE + total(9, 7), singly(LOCATE + keyed(9)))

    def test_in_two(self):
        """A request in two pieces, cut at each place."""
        octets = keyed(5)
        with serving(len(octets) - 1) as port:
            for place in range(1, len(octets)):
                exchange(port, None, total(5, 7), [octets[:place], octets[place:]])

    def test_pipelined(self):
        """Two thousand requests at once, answered in order."""
        with serving(1) as port, Peer(port) as peer:
            sender = threading.Thread(target=peer.tell, args=(b"".join(add(n, 1) for n in range(1, 2001)),))
            sender.start()
            peer.wants(b"".join(total(n, n) for n in range(1, 2001)))
            sender.join()

    def test_cut_off(self):
        """A client that closes in the middle of a request: nothing is performed, and the next is served."""
        with serving(3) as port:
            with Peer(port) as peer:
                peer.tell(keyed(5)[:83])
                peer.finish()
                peer.ended()
            with Peer(port) as peer:
                peer.tell(keyed(5)[:40])
            exchange(port, get(20), total(20, 0))

    def test_nothing_sent(self):
        """A client that sends nothing."""
        with serving(2) as port:
            with Peer(port):
                pass
            exchange(port, LOCATE, HERE)

    def test_client_closes(self):
        """After a client's CloseConnection the connection ends, whatever follows."""
        with serving(2) as port:
            with Peer(port) as peer:
                peer.tell(LOCATE + giop.message(giop.CLOSING, b"") + add(5))
                peer.wants(HERE)
                peer.ended()
            exchange(port, get(20), total(20, 0))

    def test_malformed(self):
        """Streams that are none: MessageError, the end of the connection, and the next is served."""
        heads = ["47494f51 01020000 00000000", "47494f50 01030000 00000000", "47494f50 01020400 00000000",
                 "47494f50 01020008 00000000", "47494f50 01020202 00000004", "47494f50 01020000 ffffffff"]
        noise = random.Random(7)
        streams = [*map(bytes.fromhex, heads), giop.reply(1)]
        streams += [bytes(noise.randrange(256) for _ in range(64)) for _ in range(8)]
        with serving(len(streams) + 1) as port:
            for stream in streams:
                with self.subTest(stream.hex()), Peer(port) as peer:
                    peer.tell(stream)
                    peer.wants(MESSAGE_ERROR)
                    peer.ended()
            exchange(port, get(20), total(20, 0))

    def test_unread(self):
        """A client that reads no answer until a megabyte of them is due."""
        count = (1 << 20) // len(HERE_1_0) + 1
        with serving(2) as port:
            with Peer(port, room=1 << 16) as peer:
                sender = threading.Thread(target=peer.tell, args=(LOCATE_LITTLE * count,))
                sender.start()
                # all is sent, or the server waits for the client
                sender.join(1)
                peer.wants(HERE_1_0 * count)
                sender.join()
            exchange(port, get(20), total(20, 0))

    def test_never_read(self):
        """A client that never reads, and goes away while answers are due."""
        with serving(2) as port:
            peer = Peer(port, room=1 << 12)
            peer.socket.settimeout(0.5)
            with contextlib.suppress(OSError):
                for _ in range(1000):
                    peer.tell(LOCATE_LITTLE * 1000)
            peer.abandon()
            exchange(port, get(20), total(20, 0))

    def test_resets(self):
        """Connections that are reset: before a request, in the middle of one, and after it."""
        octets = add(5, 1)
        with serving(31) as port:
            for number in range(30):
                peer = Peer(port)
                peer.tell(octets[:(0, 30, 52)[number % 3]])
                if number % 3 == 2:
                    peer.wants(total(5, number // 3 + 1))
                peer.abandon()
            exchange(port, get(20), total(20, 10))

    def test_in_a_row(self):
        """Two hundred connections in a row, each with a call that adds 1."""
        with serving(200) as port:
            for number in range(1, 201):
                exchange(port, add(number, 1), total(number, number))

    def test_in_turn(self):
        """A second connection waits until the first has ended."""
        with serving(2) as port, Peer(port) as first:
            first.tell(add(1, 1))
            first.wants(total(1, 1))
            with Peer(port) as second:
                second.tell(add(2, 1))
                second.socket.settimeout(0.2)
                try:
                    raise Wrong(f"an answer on the second connection: {second.socket.recv(1).hex()}")
                except socket.timeout:
                    second.socket.settimeout(SECONDS)
                first.socket.close()
                second.wants(total(2, 2))

    def test_port_in_use(self):
        """A port that another listens on."""
        with socket.socket() as other:
            other.bind(("127.0.0.1", 0))
            other.listen()
            with serving(1, status=1, error="serve: cannot listen\n", port=other.getsockname()[1]):
                pass

    def test_refused_allocations(self):
        """Each allocation of the server refused in turn."""
        with Counting() as counting:
            number = 1
            while refused_at(number, counting):
                number += 1
        self.assertGreater(number, 10, "how many allocations were refused")

    def test_buffers(self):
        """A thousand pieces take no more memory than ten: the buffers are taken once for a connection."""
        taken = []
        with Counting() as counting:
            for pieces in 10, 1000:
                with serving(1, env=counting.refusing(0)) as port, Peer(port) as peer:
                    for _ in range(pieces):
                        peer.tell(LOCATE)
                        peer.wants(HERE)
                taken.append(counting.counted())
        self.assertEqual(taken[1], taken[0], "the allocations of a thousand pieces")

    def test_ten_lines(self):
        """The client that docs/INTEROP.md shows."""
        with serving(3) as port:
            wait_for(port)
            client = base.ran(sys.executable, CLIENT, str(port), seconds=SECONDS)
            self.assertEqual((client.stderr.decode(), client.stdout.decode().split()),
                             ("", ["lost", total(9, 7).hex(), total(20, 7).hex()]))

    def test_capacity(self):
        """A server that keeps one outcome: a second key has no room, and a repeat of the first gets its outcome."""
        with serving(1, options=["--capacity", "1"]) as port:
            exchange(port, keyed(5) + keyed(6, number=2) + keyed(7) + get(20),
                     total(5, 7) + raised(6, "NO_RESOURCES") + total(7, 7) + total(20, 7))

    def test_share(self):
        """A server that keeps one outcome of each client: another client has room, and no more of the first."""
        with serving(1, options=["--capacity", "2", "--share", "1"]) as port:
            exchange(port, keyed(5) + keyed(6, number=2) + keyed(7, client=b"B"),
                     total(5, 7) + raised(6, "NO_RESOURCES") + total(7, 14))

    def test_start(self):
        """The total at the beginning."""
        with serving(1, options=["--start", "9223372036854775800"]) as port:
            exchange(port, get(20) + add(21), total(20, (1 << 63) - 8) + total(21, (1 << 63) - 1))

    def test_limit(self):
        """A message of 4,096 octets is answered, one of 4,097 is a fault."""
        content = LOCATE[giop.HEADER:]
        filled = giop.message(giop.LOCATE, content + bytes(4096 - len(LOCATE)))
        with serving(2, options=["--limit", "4096"]) as port:
            exchange(port, filled, HERE)
            with Peer(port) as peer:
                peer.tell(giop.message(giop.LOCATE, bytes(4097 - giop.HEADER))[:giop.HEADER])
                peer.wants(MESSAGE_ERROR)
                peer.ended()

    def test_partials(self):
        """A second message that is partial is one too many where one may be, and not where two may."""
        first, second = giop.cut(add(5), [20])[0], giop.cut(add(6), [20])[0]
        with serving(1, options=["--partials", "1"]) as port, Peer(port) as peer:
            peer.tell(first + second)
            peer.wants(MESSAGE_ERROR)
            peer.ended()
        with serving(1, options=["--partials", "2"]) as port:
            exchange(port, first + second + LOCATE, HERE)

    def test_timeout(self):
        """A client that sends nothing, and one that reads nothing, hold a connection for a second and no longer."""
        with serving(3, options=["--timeout", "1"]) as port:
            with Peer(port) as peer:
                began = time.monotonic()
                peer.ended("after a second")
                self.assertTrue(0.5 < time.monotonic() - began < SECONDS / 2, "that it lasted a second")
            with Peer(port, room=1 << 12) as peer, contextlib.suppress(ConnectionError):
                for _ in range(1000):
                    peer.tell(LOCATE_LITTLE * 1000)
                raise Wrong("all was taken of a client that reads nothing")
            exchange(port, get(20), total(20, 0))

    def test_log(self):
        """A line for each request, also where no reply is wished for."""
        bad = giop.request(7, KEY, "add", SEVEN, contexts=[CUT_OFF])
        first, third = (f"ft client A retention {n} expiration {NEVER}" for n in (1, 3))
        late = "ft client A retention 2 expiration 100"
        lines = f"""1 Request id 5 key 63 operation add {first} performed
1 Request id 9 key 63 operation add {first} repeat
1 Request id 6 key 63 operation sub refused IDL:omg.org/CORBA/BAD_OPERATION:1.0
1 Request id 6 key 64 operation sub refused IDL:omg.org/CORBA/OBJECT_NOT_EXIST:1.0
1 Request id 10 key 63 operation add {late} refused IDL:omg.org/CORBA/BAD_CONTEXT:1.0
1 Request id 7 key 63 operation add ft bad refused IDL:omg.org/CORBA/MARSHAL:1.0
2 Request id 11 key 63 operation add {first} repeat
2 Request id 12 key 63 operation add {third} performed
2 Request id 13 key 63 operation add {third} repeat
2 Request id 14 key 63 operation add {late} refused IDL:omg.org/CORBA/BAD_CONTEXT:1.0
2 Request id 15 key 63 operation sub refused IDL:omg.org/CORBA/BAD_OPERATION:1.0
2 Request id 20 key 63 operation get performed
"""
        with serving(2, options=["--log"], error=lines) as port:
            exchange(port, keyed(5) + LOCATE + keyed(9) + giop.request(6, KEY, "sub") + giop.request(6, b"d", "sub")
                     + keyed(10, number=2, expiration=100) + bad,
                     total(5, 7) + HERE + total(9, 7) + raised(6, "BAD_OPERATION") + raised(6, "OBJECT_NOT_EXIST")
                     + raised(10, "BAD_CONTEXT") + raised(7, "MARSHAL"))
            exchange(port, None, total(11, 7) + total(20, 14),
                     singly(keyed(11) + keyed(12, number=3, wish=NONE) + keyed(13, number=3, wish=NONE)
                            + keyed(14, number=2, expiration=100, wish=NONE)
                            + giop.request(15, KEY, "sub", wish=NONE) + get(20)))

    def test_log_of_faults(self):
        """A request in fragments has one line; after a fault there is none."""
        with serving(2, options=["--log"], error="1 Request id 5 key 63 operation add performed\n") as port:
            exchange(port, b"".join(giop.cut(add(5), [20])), total(5, 7))
            with Peer(port) as peer:
                peer.tell(bytes(12) + get(20))
                peer.wants(MESSAGE_ERROR)
                peer.ended()

    def test_log_of_long_messages(self):
        """What is logged is read by the server's limit, also beyond the one that it has by default."""
        lines = "1 Request id 5 key 63 operation add performed\n1 Request id 20 key 63 operation get performed\n"
        long = giop.request(5, KEY, "add", SEVEN, contexts=[(99, bytes(1_500_000))])
        with serving(1, options=["--log", "--limit", "2097152"], error=lines) as port:
            exchange(port, long + get(20), total(5, 7) + total(20, 7))

    def test_bad_share(self):
        """A share that is none of the capacity is refused before anything is printed."""
        for number in "0", "3":
            with self.subTest(number):
                run = base.ran(programs.program("GIOP"), "serve", "--port", "1", "--connections", "1",
                               "--capacity", "2", "--share", number, seconds=SECONDS)
                self.assertEqual(base.end_of(run), (1, b"", b"serve: bad share\n"))

    def test_unwritable(self):
        """A reference that can't be written is named, and nothing is served."""
        words = [programs.program("GIOP"), "serve", "--port", str(free_port()), "--connections", "1"]
        with open("/dev/full", "wb") as full:
            run = subprocess.run(words, stdin=subprocess.DEVNULL, stdout=full, stderr=subprocess.PIPE, timeout=SECONDS,
                                 check=False)
        self.assertEqual((run.returncode, run.stderr), (1, b"output: No space left on device (os error 28)\n"))
