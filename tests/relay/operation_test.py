"""What an operator sees and says: counters, readiness, lines of the log, limits, stores, and the program's words."""
from __future__ import annotations

import contextlib
import os
import re
import signal
import socket
import sqlite3
import subprocess
import tempfile
import threading
import time
import unittest
import urllib.error
import urllib.request
from collections.abc import Iterator

from tests import base, giop
from tests.giop import MAYBE, NO, Reference
from tests.giop_peers import Peer, ask, number_body, request, until, want
from tests.programs import needs
from tests.relay import relays
from tests.relay.guard_test import CUT, GOODBYE, KEY, QUIET, Server, guarded, system
from tests.relay.relays import Relay


# ---- what is counted ----

class Counters:
    """What a relay counts, where it gives that to Prometheus."""

    def __init__(self) -> None:
        self.port = relays.free_port()
        self.words = ("--metrics", f"127.0.0.1:{self.port}")

    def asked(self, path: str) -> tuple[int, str]:
        """The status and the text of a path; 0 where nobody listens yet."""
        try:
            with urllib.request.urlopen(f"http://127.0.0.1:{self.port}{path}", timeout=relays.SECONDS) as said:
                return said.status, said.read().decode()
        except urllib.error.HTTPError as refused:
            with refused:
                return refused.code, refused.read().decode()
        except urllib.error.URLError as error:
            if not isinstance(error.reason, ConnectionRefusedError):
                raise
            return 0, ""

    def all(self) -> dict[str, float]:
        """Each counter by its name and its label, without the parts of histograms but their counts."""
        lines = [line.rsplit(" ", 1) for line in self.asked("/metrics")[1].splitlines() if line[0] != "#"]
        return {re.sub(r"[\"}]|^lemonrudder_", "", re.sub(r"{\w+=", " ", name)): float(number)
                for name, number in lines if not re.search(r"_(bucket|sum)\b", name)}

    def of(self, name: str) -> float:
        return self.all().get(name, 0)

    @contextlib.contextmanager
    def grow(self, **counts: int) -> Iterator[None]:
        """What is done meanwhile has these grow by so much: behind `__` stands a label, with `_` for blanks."""
        parts = {name: name.partition("__") for name in counts}
        wanted = {f"{name} {word.replace('_', ' ')}".strip(): counts[whole] for whole, (name, _, word) in parts.items()}
        before = self.all()
        yield
        until(lambda: all(self.of(name) - before.get(name, 0) == count for name, count in wanted.items()),
              f"they grow by {wanted} from {before} to {self.all()}")


@contextlib.contextmanager
def counted(*words: str, **others: str) -> Iterator[tuple[Server, Relay, Counters]]:
    """A server, a guard before it, and what that counts."""
    counters = Counters()
    with guarded(*counters.words, *words, **others) as (server, guard):
        yield server, guard, counters


class Counts(unittest.TestCase):
    """Each counter counts what it says."""

    @classmethod
    def setUpClass(cls):
        relays.program()

    def test_requests_and_repeats(self):
        """With a key and without one, also by a guard that was begun again; and the steps of each store."""
        with tempfile.TemporaryDirectory() as folder:
            for store in ("memory", os.path.join(folder, "kept")):
                with self.subTest(store), counted(store=store) as (server, guard, counters):
                    asked = request(1, KEY, "add", number=1)
                    with counters.grow(requests_total__no=1, performed_total=1, store_step_seconds_count__begin=0):
                        ask(guard.port, request(1, KEY, "add"), giop.reply(1, number_body(1)))
                    with counters.grow(requests_total__yes=1, performed_total=1, repeats_total=0,
                                       store_step_seconds_count__begin=1, store_step_seconds_count__finish=1):
                        ask(guard.port, asked, giop.reply(1, number_body(2)))
                    with counters.grow(requests_total__yes=1, performed_total=0, repeats_total=1,
                                       repeats_after_restart_total=0, store_step_seconds_count__begin=1):
                        ask(guard.port, asked, giop.reply(1, number_body(2)))
                    server.once(GOODBYE, GOODBYE)
                    with counters.grow(store_step_seconds_count__undo=1, refused_total__no_server_has_got_it=1):
                        ask(guard.port, request(1, KEY, "add", number=2), system(1, "TRANSIENT", NO, 0xfffff001))
                    if store == "memory":
                        continue
                    guard.end()
                    guard.begin()
                    with counters.grow(repeats_total=1, repeats_after_restart_total=1, performed_total=0, maybe_total=0):
                        ask(guard.port, asked, giop.reply(1, number_body(2)))

    def test_maybe(self):
        """Each is counted, and said in the log with its key: of a server that is lost, of one that is slow, and of a guard
        that was."""
        with tempfile.TemporaryDirectory() as folder, \
                counted("--timeout", "1", store=os.path.join(folder, "kept")) as (server, guard, counters):
            server.once(CUT, QUIET, CUT)
            for name, number in (("COMM_FAILURE", 1), ("TIMEOUT", 2), ("COMM_FAILURE", None)):
                with counters.grow(maybe_total=1):
                    ask(guard.port, request(1, KEY, "add", number=number), system(1, name, MAYBE))
            guard.end()
            guard.begin("sent")
            with Peer(guard.port) as peer:
                peer.tell(request(1, KEY, "add", number=3, client=b"one\ntwo"))
                until(guard.died, "it dies")
            guard.end()
            guard.begin()
            with counters.grow(maybe_total=1, repeats_after_restart_total=1):
                ask(guard.port, request(1, KEY, "add", number=3, client=b"one\ntwo"), system(1, "COMM_FAILURE", MAYBE))
            said = [line.split("told MAYBE")[1] for line in guard.said().splitlines() if "told MAYBE" in line]
            want([re.sub(r".*(client=\S+ number=\S+|operation=\S+).*", r"\1", line) for line in said],
                 ["client=A number=1", "client=A number=2", "operation=add", r"client=one\ntwo number=3"])

    def test_what_is_under_way(self):
        """How many, since when, how many wait for their first transmission; and what comes too late."""
        with counted("--timeout", "2") as (server, guard, counters), Peer(guard.port) as peer, Peer(guard.port) as other:
            may_go_on = threading.Event()
            server.answer = lambda _: may_go_on.wait(relays.SECONDS) and None
            for one in (peer, other):
                one.tell(request(1, KEY, "slow", number=1))
            until(lambda: (counters.of("parked"), counters.of("waiting")) == (2, 1), "both are under way")
            until(lambda: counters.of("oldest_parked_seconds") > 0.3, "it grows older")
            want(counters.of("connections"), 2)
            want(counters.of("server_connections"), 1)
            # (what is answered meanwhile says that the connection is alive)
            server.answer = None
            ask(guard.port, request(2, KEY, "add"), giop.reply(2, number_body(2)))
            for one in (peer, other):
                one.wants(system(1, "TIMEOUT", MAYBE))
            until(lambda: (counters.of("parked"), counters.of("waiting")) == (0, 0), "neither is")
            want(counters.of("oldest_parked_seconds"), 0)
            with counters.grow(late_total=1):
                may_go_on.set()

    def test_of_retry(self):
        """What it sends again, what it could send nowhere, and what it told MAYBE."""
        with Server() as server:
            counters = Counters()
            with Relay("retry", "--guard", f"127.0.0.1:{server.port}", "--timeout", "2", *counters.words) as retry:
                retry.begin()
                server.once(CUT, GOODBYE)
                with counters.grow(requests_total__no=1, sent_again_total=2, maybe_total=0):
                    ask(retry.port, request(1, KEY, "add"), giop.reply(1, number_body(3)))
                server.answer = lambda _: QUIET
                with counters.grow(maybe_total=1):
                    ask(retry.port, request(1, KEY, "add"), system(1, "TIMEOUT", MAYBE))
                server.__exit__()
                with counters.grow(refused_total__no_guard_has_got_it_in_time=1):
                    ask(retry.port, request(1, KEY, "add"), system(1, "TIMEOUT", NO))
                until(lambda: "told MAYBE" in retry.said(), "it is said")


class Ready(unittest.TestCase):
    """Whether a relay is ready."""

    @classmethod
    def setUpClass(cls):
        relays.program()

    @base.each(lambda: [("guard", "guard"), ("retry", "retry")])
    def test_servers(self, role: str) -> None:
        """Not while all servers or guards are away, or say nothing, and soon after one is there."""
        counters, port = Counters(), relays.free_port()
        words = ["--server", "--store", "memory"] if role == "guard" else ["--guard"]
        words.insert(1, f"127.0.0.1:{port}")
        with Relay(role, *counters.words, *words) as relay:
            relay.begin()
            want(counters.asked("/ready"), (503, "no server can be reached\n" if role == "guard" else
                                            "no guard can be reached\n"))
            with socket.create_server(("127.0.0.1", port)):
                until(lambda: counters.asked("/ready") == (200, "ready\n"), "it is ready")

    def test_a_server_that_accepts_nobody(self):
        """It is said within a few seconds that none can be reached."""
        with socket.socket() as full, contextlib.ExitStack() as stack:
            full.bind(("127.0.0.1", 0))
            full.listen(0)
            # (until its queue is full nobody is accepted, and then who connects waits)
            for _ in range(4):
                peer = stack.enter_context(socket.socket())
                peer.setblocking(False)
                peer.connect_ex(full.getsockname())
            counters = Counters()
            with guarded(*counters.words, "--server", f"127.0.0.1:{full.getsockname()[1]}"):
                begun = time.monotonic()
                want(counters.asked("/ready")[0], 503)
                self.assertLess(time.monotonic() - begun, 4.5)


# ---- limits ----

def is_served(port: int) -> bool:
    """Whether a client that connects is answered, and not closed."""
    with contextlib.suppress(ConnectionError), Peer(port) as peer:
        peer.tell(giop.locate(1, KEY))
        return peer.received(giop.HEADER) != b""
    return False


class Limits(unittest.TestCase):
    """What a peer may take. Who takes more is ended with its reason, counted and said; nobody else notices."""

    @classmethod
    def setUpClass(cls):
        relays.program()

    @contextlib.contextmanager
    def ended(self, why: str, *words: str, count: int = 1) -> Iterator[tuple[Server, Relay]]:
        """A guard with these words, of which so many connections end for this reason; one of another kind is served."""
        with counted(*words) as (server, guard, counters), Peer(guard.port) as other:
            label = f"connections_ended_total {why}"
            before = counters.of(label)
            yield server, guard
            until(lambda: counters.of(label) - before == count, f"{count} end since {why}: {counters.all()}")
            until(lambda: guard.said().count(f'why="{why}"') >= count, guard.said())
            server.answer = None
            other.tell(request(9, KEY, "add"))
            want(other.message().status, giop.NO_EXCEPTION)

    def test_connections(self):
        """Who comes when there are so many is closed."""
        with self.ended("there are too many", "--peers", "3", count=2) as (_, guard), contextlib.ExitStack() as stack:
            for index in range(4):
                peer = stack.enter_context(Peer(guard.port))
                if index < 2:
                    peer.tell(giop.locate(1, KEY))
                    peer.wants(giop.located(1, giop.OBJECT_HERE))
                else:
                    peer.ended()

    def test_connections_of_an_address(self):
        """Those of others are served."""
        with self.ended("its address has too many", "--peers-per-address", "2") as (_, guard):
            time.sleep(0.2)
            with Peer(guard.port), Peer(guard.port) as third, socket.socket() as elsewhere:
                third.ended()
                elsewhere.bind(("127.0.0.2", 0))
                elsewhere.settimeout(relays.SECONDS)
                elsewhere.connect(("127.0.0.1", guard.port))
                elsewhere.sendall(giop.locate(1, KEY))
                here = giop.located(1, giop.OBJECT_HERE)
                want(elsewhere.recv(len(here), socket.MSG_WAITALL), here)

    @needs("sh")
    def test_descriptors(self):
        """Where the system allows few, some are kept for servers: what is under way finds one though more clients come
        than there is room for, and it is said. Where the process may allow itself more it does."""
        for words, is_short in (("ulimit -n 200", True), ("ulimit -Sn 200", False)):
            with self.subTest(words), Server() as server, contextlib.ExitStack() as stack:
                guard = Relay("guard", "--server", f"127.0.0.1:{server.port}", "--store", "memory")
                guard.words = ("sh", "-c", f'{words}; exec "$0" "$@"', *guard.words)
                stack.enter_context(guard)
                guard.begin()
                with Peer(guard.port) as before, contextlib.ExitStack() as idle:
                    for _ in range(200):
                        idle.enter_context(Peer(guard.port))
                    before.tell(request(1, KEY, "add") + request(2, KEY, "add", number=1))
                    want(sorted([before.message().request_id, before.message().request_id]), [1, 2])
                    until(lambda: not is_short or guard.said().count("there are too many") == 101, "101 are closed")
                until(lambda: is_served(guard.port), "who comes later is served")
                want("peers=100 descriptors=200" in guard.said(), is_short)

    def test_who_takes_nothing(self):
        """It has --stalled seconds."""
        with self.ended("the peer takes nothing", "--stalled", "1") as (server, guard), Peer(guard.port, 4096) as peer:
            server.answer = lambda came: giop.reply(came.request_id, bytes(1 << 20))
            for index in range(30):
                peer.tell(request(index, KEY, "any"))
            until(lambda: len(server.performed) == 30, "all come")
            time.sleep(2)

    def test_who_ends_no_message(self):
        """A request that comes octet by octet has --idle seconds."""
        with counted("--idle", "2") as (_, guard, counters), Peer(guard.port) as peer:
            with counters.grow(connections_ended_total__it_was_idle=1), contextlib.suppress(OSError):
                for octet in request(1, KEY, "add", bytes(80)):
                    peer.tell(bytes([octet]))
                    time.sleep(0.05)
            want(peer.received(12), giop.CLOSE_CONNECTION)

    def test_messages(self):
        """A message may have --message octets, and those that are partial --partial."""
        with counted("--message", "10000", "--partial", "30000") as (_, guard, counters), Peer(guard.port) as peer:
            peer.tell(request(1, KEY, "any", bytes(12_000)))
            peer.wants(system(1, "IMP_LIMIT", NO))
            begun = [next(giop.frames_of(giop.cut(request(index, KEY, "any", bytes(4000)), [1020])[0])) for index in range(4)]
            for frame in begun[:3]:
                peer.tell(frame)
            peer.tell(giop.locate(7, KEY))
            peer.wants(giop.located(7, giop.OBJECT_HERE))
            with counters.grow(refused_total__too_many_are_partial=1):
                peer.tell(begun[3])
                peer.wants(system(3, "IMP_LIMIT", NO))

    def test_how_long_an_outcome_is_kept(self):
        """What expires later than --keep says is refused, and not sent; what expires before that is performed."""
        with counted("--keep", "100") as (server, guard, counters):
            # (the count of 100 ns since 15 October 1582, of a moment that is so many seconds away)
            now = int((time.time() + 12_219_292_800) * 10_000_000)
            for number, seconds in enumerate((90, 200, 1 << 30)):
                refused = int(seconds > 100)
                with counters.grow(refused_total__it_expires_too_late=refused), Peer(guard.port) as peer:
                    peer.tell(request(1, KEY, "add", number=number, expiration=now + seconds * 10_000_000))
                    peer.wants(system(1, "BAD_CONTEXT", NO) if refused else giop.reply(1, number_body(1)))
            want(len(server.performed), 1)

    def test_requests_under_way(self):
        """Of --parked a connection has a part, others find a place beside it, and no more are under way; who has to wait
        has its turn once one is answered."""
        with counted("--parked", "10") as (server, guard, counters), Peer(guard.port) as peer, contextlib.ExitStack() as stack:
            may_go_on = threading.Event()
            server.answer = lambda _: may_go_on.wait(relays.SECONDS) and None
            peer.tell(b"".join(request(index, KEY, "slow") for index in range(9)))
            until(lambda: counters.of("parked") == 5, "five are under way")
            others = [stack.enter_context(Peer(guard.port, address=f"127.0.0.{index}")) for index in range(2, 9)]
            for other in others[:5]:
                other.tell(request(1, KEY, "slow"))
            until(lambda: counters.of("parked") == 10, "five of others are")
            for other in others[5:]:
                other.tell(request(1, KEY, "slow"))
                other.tell(request(2, KEY, "slow"))
            time.sleep(0.3)
            want((counters.of("parked"), len(server.performed)), (10, 10))
            may_go_on.set()
            want(sorted(peer.message().request_id for _ in range(9)), list(range(9)))
            for other, count in zip(others, (1, 1, 1, 1, 1, 2, 2)):
                want(sorted(other.message().request_id for _ in range(count)), list(range(1, count + 1)))

    @base.each(lambda: [("1", 1), ("3", 3)])
    def test_connections_to_a_server(self, most: int) -> None:
        """As many as --connections says, once requests wait on each."""
        with guarded("--connections", str(most)) as (server, guard), Peer(guard.port) as peer:
            may_go_on = threading.Event()
            server.answer = lambda _: may_go_on.wait(relays.SECONDS) and None
            for index in range(12):
                peer.tell(request(index, KEY, "slow"))
                until(lambda index=index: len(server.performed) == index + 1, "it comes")
            want(server.connections, most)
            may_go_on.set()


# ---- settings that change ----

class Settings:
    """A relay that is begun by a file of settings, which is written anew while it runs."""

    def __init__(self, folder: str, role: str, **settings: object) -> None:
        self.file, self.port, self.role = os.path.join(folder, "settings.toml"), relays.free_port(), role
        self.settings = {"listen": f"127.0.0.1:{self.port}", **settings}
        self.write()
        self.relay = relays.Life(relays.program(), role, "--config", self.file)

    def write(self, **others: object) -> None:
        """Has the file say other things of some settings, and what it said of the others."""
        self.settings.update(others)
        with open(self.file, "w", encoding="ascii") as to:
            to.write(f"[{self.role}]\n" + "".join(f"{name.replace('_', '-')} = {value!r}\n"
                                                 for name, value in self.settings.items() if value is not None))

    def change(self, **others: object) -> list[tuple[str, ...]]:
        """Writes the file anew, has it read, and answers what the log says of each setting then."""
        self.write(**others)
        before = len(self.relay.said())
        self.relay.tell(signal.SIGHUP)
        until(lambda: re.search("SIGHUP: .*\n", self.relay.said()[before:]) is not None, "it is read anew")
        return re.findall(r'(changed|needs a restart|nothing is changed) (?:setting|why)="(.*?)"(?: value="(.*)")?',
                          self.relay.said()[before:])


class Changes(unittest.TestCase):
    """Settings that are read anew at SIGHUP, while connections and what is under way go on."""

    @classmethod
    def setUpClass(cls):
        relays.program()

    @contextlib.contextmanager
    def changing(self, role: str = "guard", **others: object) -> Iterator[tuple[Server, Settings, Peer]]:
        """A server, a relay before it, and a client that was answered."""
        with tempfile.TemporaryDirectory() as folder, Server() as server:
            to = {"server": f"127.0.0.1:{server.port}", "store": "memory"} if role == "guard" else {
                "guard": f"127.0.0.1:{server.port}"}
            settings = Settings(folder, role, **to, **others)
            with settings.relay as relay:
                relay.begin()
                with Peer(settings.port) as peer:
                    peer.tell(request(1, KEY, "add"))
                    peer.wants(giop.reply(1, number_body(1)))
                    yield server, settings, peer

    def test_times_and_shares(self):
        """They count at once, also on a connection that is there."""
        with self.changing() as (server, settings, peer):
            now = int((time.time() + 12_219_292_800) * 10_000_000)
            want(settings.change(keep=100), [("changed", "keep", "100")])
            peer.tell(request(2, KEY, "add", number=1, expiration=now + 10 ** 10))
            peer.wants(system(2, "BAD_CONTEXT", NO))
            want(sorted(settings.change(keep=None, timeout=0.5, share=1)),
                 [("changed", "keep", ""), ("changed", "share", "1"), ("changed", "timeout", "0.5")])
            server.answer = lambda _: QUIET
            peer.tell(request(3, KEY, "add", number=1, expiration=now + 10 ** 10) + request(4, KEY, "add", number=2))
            peer.wants(system(4, "NO_RESOURCES", NO, 0xfffff001))
            peer.wants(system(3, "TIMEOUT", MAYBE))
            want(settings.change(), [])

    def test_connections(self):
        """Those that come go by what is said now, and those that are there go on."""
        with self.changing() as (server, settings, peer):
            want(sorted(settings.change(peers=2, message=5000)), [("changed", "message", "5000"), ("changed", "peers", "2")])
            with Peer(settings.port) as second:
                second.tell(request(1, KEY, "any", bytes(6000)))
                second.wants(system(1, "IMP_LIMIT", NO))
                with Peer(settings.port) as third:
                    third.ended()
                settings.change(peers=3, peers_per_address=2)
                with Peer(settings.port) as third:
                    third.ended()
                settings.change(peers_per_address=3)
                with Peer(settings.port) as third:
                    third.tell(giop.locate(1, KEY))
                    third.wants(giop.located(1, giop.OBJECT_HERE))
            peer.tell(request(2, KEY, "add", bytes(6000)))
            peer.wants(giop.reply(2, number_body(2)))

    def test_memory(self):
        """Where less may be held than is, soon nobody is heard that comes, until more may; who is there stays."""
        with self.changing(message=4096) as (_, settings, peer), contextlib.ExitStack() as stack:
            want(settings.change(memory="17K"), [("changed", "memory", "17K")])
            for _ in range(4):
                stack.enter_context(Peer(settings.port))
            until(lambda: 'why="memory is short"' in settings.relay.said(), "some find no room")
            settings.change(memory="1G")
            peer.tell(request(2, KEY, "add"))
            peer.wants(giop.reply(2, number_body(2)))

    def test_the_end(self):
        """What is under way has the time then that is said last."""
        with self.changing(drain=600) as (server, settings, peer):
            server.answer = lambda _: QUIET
            peer.tell(request(2, KEY, "add"))
            until(lambda: len(server.performed) == 2, "it is under way")
            settings.change(drain=0.2)
            settings.relay.tell(signal.SIGTERM)
            until(settings.relay.died, "it ends")
            self.assertIn("the time to end in is over", settings.relay.said())
            want(settings.relay.end(), 0)

    def test_of_retry(self):
        """How long it sends."""
        with self.changing("retry") as (server, settings, peer):
            want(settings.change(timeout=0.5), [("changed", "timeout", "0.5")])
            server.answer = lambda _: QUIET
            peer.tell(request(2, KEY, "add"))
            peer.wants(system(2, "TIMEOUT", MAYBE))

    def test_what_needs_a_restart(self):
        """It is named each time until it is as it was, and all else changes; where anything is wrong nothing does."""
        with self.changing() as (_, settings, peer):
            server = settings.settings["server"]
            restart = [("needs a restart", "connections", ""), ("needs a restart", "server", "")]
            want(sorted(settings.change(server="127.0.0.1:1", connections=2, timeout=9)),
                 [("changed", "timeout", "9"), *restart])
            want(sorted(settings.change(server="127.0.0.1:2")), restart)
            peer.tell(request(2, KEY, "add"))
            peer.wants(giop.reply(2, number_body(2)))
            (said,) = settings.change(server=server, share=1, memory=1)
            want((said[0], "no room for 4 messages" in said[1]), ("nothing is changed", True))
            want(sorted(settings.change(memory=None)), [("changed", "share", "1"), restart[0]])


# ---- stores ----

class Stores(unittest.TestCase):
    """What an operator does with a store in a file."""

    @classmethod
    def setUpClass(cls):
        relays.program()

    def lines(self, *words: str) -> list[str]:
        """What the program prints of a store that is right."""
        status, out, err = said_by("store", *words)
        want((status, err), (0, ""))
        return out.splitlines()

    def test_copies(self):
        """A store is shown, checked and copied while its guard runs, and another guard of it is not begun; the copy is one
        of that moment, and a guard serves it."""
        with tempfile.TemporaryDirectory() as folder:
            file, copy = os.path.join(folder, "kept"), os.path.join(folder, "copy")
            with guarded(store=file) as (server, guard):
                ask(guard.port, request(1, KEY, "add", number=1), giop.reply(1, number_body(1)))
                may_go_on = threading.Event()
                server.answer = lambda _: may_go_on.wait(relays.SECONDS) and None
                with Peer(guard.port) as peer:
                    peer.tell(request(1, KEY, "add", number=2))
                    until(lambda: len(server.performed) == 2, "it is performed")
                    shown = self.lines("show", file)
                    for line in ("outcomes 1", "begun 1"):
                        self.assertIn(line, shown)
                    self.assertRegex("\n".join(shown), "\nbegun A 2 expires ")
                    want((self.lines("check", file), self.lines("copy", file, copy)), ([], []))
                    may_go_on.set()
                    peer.wants(giop.reply(1, number_body(2)))
                want([oct(os.stat(os.path.join(folder, name)).st_mode & 0o777) for name in sorted(os.listdir(folder))],
                     ["0o600"] * 6)
                status, _, err = said_by("guard", "--listen", "127.0.0.1:0", "--server", "127.0.0.1:1", "--store", file)
                want((status, "another guard has it" in err), (1, True))
                guard.end(signal.SIGTERM)
            want(sorted(os.listdir(folder)), ["copy", "kept", "kept-begun", "kept-guard"])
            with guarded(store=copy) as (server, guard):
                for number, answer in ((1, giop.reply(1, number_body(1))), (2, system(1, "COMM_FAILURE", MAYBE)),
                                       (3, giop.reply(1, number_body(1)))):
                    ask(guard.port, request(1, KEY, "add", number=number), answer)
            status, _, err = said_by("store", "copy", file, copy)
            want((status, err), (1, f"lemonrudder: {copy}: is there already\n"))

    def test_a_file_that_is_spoilt(self):
        """Each fault is a line, and the status 1; a file that is no store is not changed."""
        with tempfile.TemporaryDirectory() as folder:
            file = os.path.join(folder, "kept")
            with guarded(store=file) as (_, guard):
                ask(guard.port, request(1, KEY, "add", number=1), giop.reply(1, number_body(1)))
                guard.end(signal.SIGTERM)
            with contextlib.closing(sqlite3.connect(file)) as link:
                link.execute("UPDATE outcome SET status = 9")
                link.commit()
            want(said_by("store", "check", file), (1, "", f"lemonrudder: {file}: 1 outcomes are none that a guard writes\n"))
            with open(os.path.join(folder, "text"), "w", encoding="ascii") as text:
                text.write("no store " * 99)
            for deed in ("show", "check"):
                status, out, err = said_by("store", deed, text.name)
                want((status, out, err), (1, "", f"lemonrudder: {text.name}: file is not a database\n"))


# ---- the program's words ----

def said_by(*words: str) -> tuple[int, str, str]:
    """The status of the program, and what it prints."""
    ran = subprocess.run([relays.program(), *words], capture_output=True, text=True, timeout=relays.SECONDS, check=False)
    return ran.returncode, ran.stdout, ran.stderr


class Words(unittest.TestCase):
    """What the program makes of its words, and of files."""

    @classmethod
    def setUpClass(cls):
        relays.program()

    def test_help(self):
        """What has to be said of a role stands above limits, and those above what is of TLS."""
        for role, words in (("guard", ("--server", "--listen", "\nLimits:", "--parked", "--peers", "\nTLS", "--clients")),
                            ("retry", ("--guard", "--listen", "\nLimits:", "--parked", "--peers", "\nTLS", "--key"))):
            status, out, _ = said_by(role, "--help")
            places = [out.find(word + " " if word[0] == "-" else word) for word in words]
            want((status, -1 in places, places), (0, False, sorted(places)))

    def test_check(self):
        """A file that is right is told nothing of; of another each fault is a line, with its place."""
        with tempfile.TemporaryDirectory() as folder:
            file = os.path.join(folder, "settings.toml")
            good = "[guard]\nlisten = 'a:1'\nserver = 'b:2'\nstore = 'memory'\n"
            reference = Reference(b"IDL:A:1.0", 2, b"c", 3, KEY).text()
            for text, refers, lines in (
                    (good, reference, []),
                    (good + "timeout = 0\nservers = 1\n", reference, [":6: servers: is no setting", ":5: "]),
                    (good, "IOR:00", [": [guard] ", "no reference"]),
                    (good.replace("b:2", "a:1"), reference, ["it listens itself at a:1"])):
                with open(file, "w", encoding="ascii") as to:
                    to.write(text + f"reference = '{folder}/reference'\n")
                with open(f"{folder}/reference", "w", encoding="ascii") as to:
                    to.write(refers)
                status, out, err = said_by("check", file)
                want((status, out), (int(bool(lines)), ""))
                for line in lines:
                    self.assertIn(line, err)
                self.assertEqual(all(line.startswith(f"lemonrudder: {file}:") for line in err.splitlines()), True, err)
            want(said_by("check", os.path.join(folder, "nothing"))[0], 1)

    def test_a_file_of_settings(self):
        """A guard that is begun by it does what it says; one that is wrong does not begin."""
        with tempfile.TemporaryDirectory() as folder, Server() as server:
            file, port = os.path.join(folder, "guard.toml"), relays.free_port()
            with open(file, "w", encoding="ascii") as to:
                to.write(f"[guard]\nlisten = '127.0.0.1:{port}'\nserver = '127.0.0.1:{server.port}'\nstore = 'memory'\n"
                         "message = 5000\nlog = 'json'\n")
            with relays.Life(relays.program(), "guard", "--config", file) as guard:
                guard.begin()
                ask(port, request(1, KEY, "add"), giop.reply(1, number_body(1)))
                ask(port, request(1, KEY, "add", bytes(6000)), system(1, "IMP_LIMIT", NO))
                guard.end(signal.SIGTERM)
                want({line[0] for line in guard.said().splitlines()}, {"{"})
            with open(file, "a", encoding="ascii") as to:
                to.write("drain = 'long'\n")
            status, _, err = said_by("guard", "--config", file)
            want((status, err.startswith("lemonrudder: ")), (2, True))

    def test_a_guard_is_told_its_store(self):
        """Where nothing says it, it is said what may be given, and nothing is begun."""
        status, out, err = said_by("guard", "--listen", "127.0.0.1:0", "--server", "127.0.0.1:1")
        want((status, out), (2, ""))
        self.assertRegex(err, "^lemonrudder: store: nothing is said of it; give a file as outcomes.sqlite, .*memory")

    def test_what_leads_back_to_it(self):
        """A relay whose server or guard would be itself is not begun, or sends nothing there."""
        for role, which in (("guard", "server"), ("retry", "guard")):
            store = ["--store", "memory"] if role == "guard" else []
            status, _, err = said_by(role, "--listen", "127.0.0.1:1", f"--{which}", "127.0.0.1:1", *store)
            want((status, err), (2, f"lemonrudder: {which}: it listens itself at 127.0.0.1:1\n"))
            with tempfile.TemporaryDirectory() as folder:
                port = relays.free_port()
                with relays.Life(relays.program(), role, "--listen", f"0.0.0.0:{port}", f"--{which}", f"localhost:{port}",
                                 "--timeout", "1", *store) as relay:
                    relay.begin()
                    answer = ("TRANSIENT", NO, 0xfffff001) if role == "guard" else ("TIMEOUT", NO)
                    ask(port, request(1, KEY, "add"), system(1, *answer))
                    self.assertIn("it leads back to this relay", relay.said())
                    self.assertEqual(os.listdir(folder), [])

    def test_references(self):
        """One is printed that leads to the same object at another address; what is none is refused in a line."""
        given = Reference(b"IDL:A:1.0", 2, b"back", 2810, KEY)
        for at, host, port in (("relay:2809", b"relay", 2809), ("[::1]:1", b"::1", 1)):
            status, out, err = said_by("ior", "--at", at, given.text())
            want((status, err, giop.reference_of(out.strip())), (0, "", given._replace(host=host, port=port)))
        for words, status in ((["--at", "relay:2809", "IOR:00"], 1), (["--at", "relay", given.text()], 2)):
            got = said_by("ior", *words)
            want((got[0], got[1]), (status, ""))
            self.assertNotEqual(got[2], "")

    def test_addresses_of_both_kinds(self):
        """It listens at several, also of IPv6, and a server may have one."""
        with socket.create_server(("::1", 0), family=socket.AF_INET6) as listener:
            port = listener.getsockname()[1]
            with Relay("guard", "--store", "memory", "--server", f"[::1]:{port}", "--listen", f"[::1]:{relays.free_port()}") \
                    as guard:
                guard.begin()
                at = guard.said()
                found = int(re.search(r"\[::1\]:(\d+)", at)[1])
                with socket.create_connection(("::1", found)) as peer:
                    peer.sendall(request(1, KEY, "add"))
                    there, _ = listener.accept()
                    with there:
                        came = there.recv(4096)
                        there.sendall(giop.reply(giop.read(came).request_id, number_body(1)))
                        wanted = giop.reply(1, number_body(1))
                        want(peer.recv(len(wanted), socket.MSG_WAITALL), wanted)


if __name__ == "__main__":
    unittest.main()
