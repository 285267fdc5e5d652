"""Several guards over one PostgreSQL, seen by their clients: whatever becomes of one, nothing acts twice. And guards whose
stores differ, or are other ones than they were: what was sent to one is sent to no other."""
from __future__ import annotations

import collections
import contextlib
import os
import random
import re
import shutil
import signal
import tempfile
import threading
import time
import unittest
from collections.abc import Iterator

from tests import base, giop
from tests.embed.durable import Postgres
from tests.giop import MAYBE, NO
from tests.giop_peers import Peer, ask, number_body, request, until, want
from tests.relay import relays
from tests.relay.guard_test import DECLINED, KEY, PADDING, QUIET, Server, guarded, system
from tests.relay.operation_test import Counters
from tests.relay.relays import Relay

# how many calls are made while all is disturbed
CALLS = int(os.environ.get("RELAY_CALLS", "300"))
THREADS = 8


class Guards(unittest.TestCase):
    """Guards before one server."""

    @classmethod
    def setUpClass(cls):
        relays.program()
        cls.postgres = Postgres()
        cls.addClassCleanup(cls.postgres.close)

    def guard(self, server: Server | relays.Server, lease: float, *words: str) -> Relay:
        return Relay("guard", "--server", f"127.0.0.1:{server.port}", "--store", self.postgres.address,
                     "--lease", str(lease), *words)

    @contextlib.contextmanager
    def two(self, lease: float, dies_at: str = "", stops_at: str = "") -> Iterator[tuple[Server, Relay, Relay]]:
        """A server, and two guards before it, which are ready; the first dies or stops at a point."""
        counters = [Counters(), Counters()]
        with Server() as server, self.guard(server, lease, *counters[0].words) as one, \
                self.guard(server, lease, *counters[1].words) as other:
            one.begin(dies_at, stops_at)
            other.begin()
            for each in counters:
                until(lambda each=each: each.asked("/ready")[0] == 200, "it is ready")
            self.counters = counters
            yield server, one, other

    def asked(self) -> bytes:
        """A request under a key of its own."""
        self.number = getattr(self, "number", 0) + 1
        return request(1, KEY, "add", number=self.number, client=self.id().encode())

    def test_a_repeat_at_another(self):
        """It is answered by the first's outcome."""
        with self.two(60) as (server, one, other):
            asked = self.asked()
            with self.counters[1].grow(repeats_after_restart_total=1, performed_total=0):
                for guard in (one, other):
                    ask(guard.port, asked, giop.reply(1, number_body(1)))
            with self.counters[0].grow(repeats_total=1, repeats_after_restart_total=0):
                ask(one.port, asked, giop.reply(1, number_body(1)))
            want(len(server.performed), 1)

    def test_who_waits_is_told(self):
        """A repeat waits at another guard while the first is under way, and is answered once that is done: long before a
        part of the lease is over."""
        with self.two(600) as (server, one, other), Peer(one.port) as peer, Peer(other.port) as repeat:
            may_go_on = threading.Event()
            server.answer = lambda _: may_go_on.wait(relays.SECONDS) and None
            asked = self.asked()
            peer.tell(asked)
            until(lambda: server.performed, "it comes")
            repeat.tell(asked)
            until(lambda: self.counters[1].of("waiting") == 1, "the repeat waits")
            may_go_on.set()
            for each in (peer, repeat):
                each.wants(giop.reply(1, number_body(1)))
            want(len(server.performed), 1)

    @base.each(lambda: [(point, point) for point in ("begun", "sent", "received")])
    def test_one_is_killed(self, point: str) -> None:
        """Once its lease is over the other tells MAYBE, and sends nothing; what it begins next time is another life."""
        with self.two(1, dies_at=point) as (server, one, other):
            asked = self.asked()
            with Peer(one.port) as peer:
                peer.tell(asked)
                until(one.died, "it dies")
            one.end()
            for guard in (other, one):
                ask(other.port, asked, system(1, "COMM_FAILURE", MAYBE))
                if guard is other:
                    one.begin()
                    until(lambda: self.counters[0].asked("/ready")[0] == 200, "it is ready")
            ask(one.port, asked, system(1, "COMM_FAILURE", MAYBE))
            want(len(server.performed), 0 if point == "begun" else 1)

    @base.each(lambda: [("begun", (0, 1)), ("received", (1, 1))])
    def test_one_is_stopped_past_its_lease(self, given: tuple) -> None:
        """The other tells MAYBE meanwhile; the first goes on, and tells the same, though the server replied to it."""
        point = {(0, 1): "begun", (1, 1): "received"}[given]
        with self.two(1, stops_at=point) as (server, one, other), Peer(one.port) as peer:
            asked = self.asked()
            peer.tell(asked)
            until(one.is_stopped, "it stops")
            want(len(server.performed), given[0])
            ask(other.port, asked, system(1, "COMM_FAILURE", MAYBE))
            one.tell(signal.SIGCONT)
            peer.wants(system(1, "COMM_FAILURE", MAYBE))
            for guard in (one, other):
                ask(guard.port, asked, system(1, "COMM_FAILURE", MAYBE))
            want(len(server.performed), given[1])

    def test_one_is_stopped_before_it_hears(self):
        """What comes to it meanwhile is performed by the other, and is a repeat once it goes on."""
        with self.two(1) as (server, one, other), Peer(one.port) as peer:
            asked = self.asked()
            one.tell(signal.SIGSTOP)
            until(one.is_stopped, "it stops")
            peer.tell(asked)
            time.sleep(1.5)
            ask(other.port, asked, giop.reply(1, number_body(1)))
            one.tell(signal.SIGCONT)
            peer.wants(giop.reply(1, number_body(1)))
            want(len(server.performed), 1)

    def test_the_database_goes_and_comes(self):
        """Meanwhile what is new is declined, what is under way waits, and neither guard is ready."""
        with self.two(60) as (server, one, other), Peer(one.port) as peer:
            may_go_on = threading.Event()
            server.answer = lambda _: may_go_on.wait(relays.SECONDS) and None
            asked, later = self.asked(), self.asked()
            peer.tell(asked)
            until(lambda: server.performed, "it comes")
            self.postgres.stop()
            may_go_on.set()
            for guard, counters in ((one, self.counters[0]), (other, self.counters[1])):
                until(lambda counters=counters: counters.asked("/ready") == (503, "the store is away\n"), "it is not ready")
                with counters.grow(refused_total__the_store_is_away=1):
                    ask(guard.port, later, system(1, "TRANSIENT", NO, DECLINED))
            self.postgres.start()
            peer.wants(giop.reply(1, number_body(1)))
            for guard, counters in ((one, self.counters[0]), (other, self.counters[1])):
                until(lambda counters=counters: counters.asked("/ready")[0] == 200, "it is ready")
                ask(guard.port, later, giop.reply(1, number_body(2)))
            want(len(server.performed), 2)

    def test_a_store_that_was_put_back(self):
        """As from a dump: its tables have what they had then, and what was begun since is not among that."""
        with Server() as server, self.guard(server, 60) as guard, \
                Relay("retry", "--guard", f"127.0.0.1:{guard.port}") as retry, contextlib.ExitStack() as stack:
            guard.begin("finished:2")
            retry.begin()
            peer = stack.enter_context(Peer(retry.port))
            peer.tell(request(1, KEY, "add"))
            peer.wants(giop.reply(1, number_body(1)))
            peer.tell(request(2, KEY, "add"))
            until(guard.died, "it dies")
            guard.end()
            self.postgres.asked("""BEGIN; DELETE FROM lemonrudder.outcome;
                CREATE TABLE lemonrudder.copy AS TABLE lemonrudder.identity; DROP TABLE lemonrudder.identity;
                ALTER TABLE lemonrudder.copy RENAME TO identity; COMMIT""")
            guard.begin()
            peer.wants(system(2, "COMM_FAILURE", MAYBE))
            want(len(server.performed), 2)

    @base.each_seed(71, 1)
    def test_all_at_once(self, seed: int) -> None:
        """Two guards, their server and their database are killed and stopped by chance amid the calls of omniORB through
        `retry`, of each version, short and long, and of objects that forward."""
        relays.orbs()
        dice, begun = random.Random(seed), time.monotonic()
        with tempfile.TemporaryDirectory() as folder, contextlib.ExitStack() as stack:
            port = relays.free_port()
            server = stack.enter_context(relays.Server(folder, port, relays.HOPS))
            server.begin()
            known = ("--published", f"127.0.0.1:{port}")
            guards = [stack.enter_context(self.guard(server, 1, "--timeout", "60", *words)) for words in (known, ())]
            for guard in guards:
                guard.begin()
            words = [word for guard in guards for word in ("--guard", f"127.0.0.1:{guard.port}")]
            retry = stack.enter_context(Relay("retry", *words, "--timeout", "60", port=port))
            retry.begin()
            clients = relays.Clients(server, CALLS, THREADS, "5")
            kills = self.disturb(dice, guards, server, clients)
            for life in (retry, *guards):
                life.end(signal.SIGTERM)
            told = clients.judged(server.performed(), kills["kill"] + kills["stop"] + kills["server"])
            self.assertEqual(len(kills), 4, kills)
            print(f"seed {seed}: {dict(kills)}: {told}; {time.monotonic() - begun:.0f} s")

    def disturb(self, dice: random.Random, guards: list[Relay], server: relays.Server,
                clients: relays.Clients) -> collections.Counter:
        """Does each thing once as soon as some more calls are made, the one amid which others are made last; then by
        chance, until all are made."""
        done, deeds = collections.Counter(), ["kill", "database", "server", "stop"]
        while not clients.are_over():
            if done.total() < len(deeds):
                least = (1 + done.total()) * CALLS // 20
                until(lambda least=least: server.performed().total() >= least or clients.are_over(), "calls are made")
                deed = deeds[done.total()]
            else:
                time.sleep(dice.uniform(0.1, 0.4))
                deed = dice.choice(deeds)
            guard = dice.choice(guards)
            if deed in ("kill", "server"):
                life = guard if deed == "kill" else server
                life.end()
                life.begin()
            elif deed == "stop":
                guard.tell(signal.SIGSTOP)
                time.sleep(dice.uniform(0.5, 2.5))
                guard.tell(signal.SIGCONT)
            else:
                self.postgres.stop()
                self.postgres.start()
            done[deed] += 1
        return done



# what becomes of the file of a guard that died at a point, and what is told of the request that was there: of the outcome
# that it may know, where it is the same file
FILES = {
    "the same": ("finished", "keep", giop.reply(2, number_body(2))),
    "the same, and nobody knows": ("received", "keep", system(2, "COMM_FAILURE", MAYBE)),
    "the same, and it is not begun": ("before-begin", "keep", giop.reply(2, number_body(2))),
    "an empty one": ("finished", "empty", system(2, "COMM_FAILURE", MAYBE)),
    "a copy": ("finished", "put back", system(2, "COMM_FAILURE", MAYBE)),
    "a copy of a life before": ("finished", "put back all", system(2, "COMM_FAILURE", MAYBE)),
    "without what is not in the file yet": ("finished", "lose the log", system(2, "COMM_FAILURE", MAYBE)),
}


def names(retry: Relay, guard: Relay) -> bool:
    """Whether a line of the log has a guard as one to which something may not be sent."""
    return re.search(rf'have another store than .* guards=\["127.0.0.1:{guard.port}"\]', retry.said()) is not None


class Files(unittest.TestCase):
    """What `retry` sends again is sent to the store to which it went."""

    @classmethod
    def setUpClass(cls):
        relays.program()

    @staticmethod
    def copy(there: str, to: str, *ends: str) -> None:
        """Puts the files of a store in place of another's: what it has not goes."""
        for end in ends:
            if os.path.exists(there + end):
                shutil.copyfile(there + end, to + end)
            else:
                with contextlib.suppress(FileNotFoundError):
                    os.remove(to + end)

    @base.each(lambda: list(FILES.items()))
    def test_what_became_of_its_file(self, given: tuple) -> None:
        """A guard dies amid a request, and is begun again over the same file, or another: nothing acts twice."""
        point, deed, told = given
        with tempfile.TemporaryDirectory() as folder, Server() as server, contextlib.ExitStack() as stack:
            store, kept = os.path.join(folder, "outcomes"), os.path.join(folder, "copy")
            with Relay("guard", "--server", f"127.0.0.1:{server.port}", "--store", store) as guard, \
                    Relay("retry", "--guard", f"127.0.0.1:{guard.port}") as retry:
                guard.begin()
                guard.end(signal.SIGTERM)
                if deed == "put back all":
                    self.copy(store, kept, "", "-begun", "-wal")
                guard.begin(f"{point}:2")
                if deed == "put back":
                    self.copy(store, kept, "", "-wal")
                retry.begin()
                peer = stack.enter_context(Peer(retry.port))
                peer.tell(request(1, KEY, "add"))
                peer.wants(giop.reply(1, number_body(1)))
                peer.tell(request(2, KEY, "add"))
                until(guard.died, "it dies")
                guard.end()
                if deed == "empty":
                    for end in ("", "-wal"):
                        os.remove(store + end)
                elif deed == "lose the log":
                    os.remove(store + "-wal")
                elif deed.startswith("put back"):
                    self.copy(kept, store, "", "-wal", "-begun")
                guard.begin()
                peer.wants(told)
                want(len(server.performed), 2)
                peer.tell(request(3, KEY, "add"))
                peer.wants(giop.reply(3, number_body(3)))
                want(names(retry, guard), deed != "keep")
                want(sum(PADDING < id < PADDING + 9 for came in server.performed for id, _ in came.contexts), 0)

    def test_two_guards_with_a_file_each(self):
        """The first dies amid a request, which the second must not perform: it is MAYBE once its time is over. What is new
        is performed."""
        with tempfile.TemporaryDirectory() as folder, Server() as server, contextlib.ExitStack() as stack:
            one, other = (stack.enter_context(Relay("guard", "--server", f"127.0.0.1:{server.port}", "--store",
                                                    os.path.join(folder, name))) for name in ("one", "other"))
            retry = stack.enter_context(Relay("retry", "--guard", f"127.0.0.1:{one.port}", "--guard",
                                              f"127.0.0.1:{other.port}", "--timeout", "2"))
            for life in (one, other, retry):
                life.begin()
            server.once(QUIET)
            with Peer(retry.port) as peer, Peer(retry.port) as later:
                peer.tell(request(1, KEY, "add"))
                until(lambda: server.performed, "it comes")
                one.end()
                later.tell(request(2, KEY, "add"))
                later.wants(giop.reply(2, number_body(2)))
                peer.wants(system(1, "TIMEOUT", MAYBE))
            want(len(server.performed), 2)
            want(names(retry, other), True)

    def test_what_was_declined_goes_anywhere(self):
        """A guard that could not send it ends: the other, of another store, performs it."""
        with tempfile.TemporaryDirectory() as folder, Server() as server, contextlib.ExitStack() as stack:
            port = relays.free_port()
            one, other = (stack.enter_context(Relay("guard", "--server", f"127.0.0.1:{at}", "--store",
                                                    os.path.join(folder, name)))
                          for name, at in (("one", port), ("other", server.port)))
            retry = stack.enter_context(Relay("retry", "--guard", f"127.0.0.1:{one.port}", "--guard",
                                              f"127.0.0.1:{other.port}"))
            for life in (one, other, retry):
                life.begin()
            with Peer(retry.port) as peer:
                peer.tell(request(1, KEY, "add"))
                until(lambda: "not connected" in one.said(), "it can't be sent")
                one.end(signal.SIGTERM)
                peer.wants(giop.reply(1, number_body(1)))

    def test_a_client_is_told_nothing_of_it(self):
        """A guard tells which store it has to who asks for that alone, as `retry` does, whose client does not hear it; and
        begins nothing of who asks, or names another."""
        with guarded() as (server, guard), Peer(guard.port) as peer:

            def asks(number: int, meant: bytes) -> tuple[int, bytes]:
                contexts = [giop.ft_request(b"A", number), (PADDING + 1, b"\0" + meant)]
                peer.tell(giop.request(number, KEY, "add", contexts=contexts))
                came = peer.message()
                ((name, told),) = came.contexts
                want((name, told[0], len(told)), (PADDING + 1, 0, 30))
                if came.status != giop.NO_EXCEPTION:
                    want(came.body, giop.read(system(number, "TRANSIENT", NO, DECLINED)).body)
                return told[1], told[2:]

            _, mark = asks(1, b"")
            want([asks(1, other) for other in (b"", b"x", bytes(28))], [(1, mark)] * 3)
            want(server.performed, [])
            want([asks(1, mark), asks(2, mark)], [(0, mark)] * 2)
            ask(guard.port, request(9, KEY, "add", number=1), giop.reply(9, number_body(1)))


if __name__ == "__main__":
    unittest.main()
