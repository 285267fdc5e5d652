"""Unmodified clients and servers of omniORB, with two relays between them, whose link loses, and which are killed.

The server keeps a line of each call that it performs. Each call has to be performed at most once, what its client is
told has to be true, and MAYBE has to be explained by a kill. `./test --relay` makes 100,000 calls; else it is some
hundreds.
"""
from __future__ import annotations

import collections
import os
import random
import re
import signal
import subprocess
import tempfile
import time
import unittest

from tests import base
from tests.programs import ROOT, needs
from tests.relay import relays
from tests.relay.certificates_test import Folder
from tests.relay.relays import Calling, judge, results_differ, world

EXAMPLES = os.path.join(ROOT, "examples")
# where each role is killed, and how often MAYBE is told then to a client that makes one call after another
GUARD_POINTS = {"before-begin": 0, "begun": 1, "sent": 1, "received": 1, "finished": 0, "answered": 0}
RETRY_POINTS = {"asked": 1, "sent": 1, "completed": 1}
POINTS = [(f"{role} {point}", (role, point, maybe)) for role, points in
          (("guard", GUARD_POINTS), ("retry", RETRY_POINTS)) for point, maybe in points.items()]
# how often a ServantLocator forwards a call, how, whether the guard knows where `retry` is, to which the server's references
# lead, and what each is told
HOPS = [("once", ("1", "once"), False, "returned"), ("for good", ("1", "good"), True, "returned"),
        ("three", ("3", "once"), False, "returned"), ("three, published", ("3", "once"), True, "returned"),
        ("round", ("1", "round"), False, "IMP_LIMIT NO")]
# where a guard is killed whose server forwards, and how often MAYBE is told then; nobody knows of a forward that a guard
# took with it
LED_POINTS = {"led": 1, "undone": 0}
# how many calls are made while all is disturbed
CALLS = int(os.environ.get("RELAY_CALLS", "300"))
THREADS = 8


def ended_by_itself(calling: Calling, life: relays.Life) -> bool:
    """Waits until a life has ended by itself, or the calls are over; whether it has."""
    while not life.died() and not calling.is_over():
        time.sleep(0.002)
    return life.died()


def run_of(*words: str) -> str:
    """What a program prints that is to succeed."""
    return subprocess.run(words, stdout=subprocess.PIPE, text=True, timeout=relays.SECONDS, check=True).stdout


class Orbs(unittest.TestCase):
    """omniORB at both ends."""

    @classmethod
    def setUpClass(cls):
        relays.program()
        relays.orbs()

    def test_all_that_they_say_passes(self):
        """Wide characters, long octets, exceptions, one way calls, and a reference in a reply, which leads through."""
        with world(random.Random(1)) as made:
            answers = made.calls("talk", 0, kind="talk").answers()
            self.assertEqual(judge(answers, made.server.performed()), {"returned": 1, "refused": 1})
            for kind, told in (("0", "returned"), ("refuse", "refused"), ("tell", "returned")):
                with self.subTest(kind):
                    answers = made.calls(kind, 20, 4, kind).answers()
                    self.assertEqual(judge(answers, made.server.performed() if kind != "tell" else
                                           {token: 1 for token in answers}), {told: 20})
            made.settle()
            self.assertEqual(set(made.server.performed().values()), {1})
            self.assertEqual(sum(token.startswith("tell.") for token in made.server.performed()), 20)

    def test_long_octets_pass_in_each_version(self):
        """A message of 1.1 of more than 8 kB comes of omniORB in one frame and an empty Fragment, each way. Slow calls of
        others, on the same connections, are not touched."""
        with world(random.Random(1)) as made:
            slow = made.calls("slow", 8, 8, "1000")
            for version in ("1.0", "1.1", "1.2"):
                with self.subTest(version):
                    answers = made.calls("long", 0, kind="long", version=version).answers()
                    self.assertEqual(answers["other.1"].split()[0], "returned")
            told, performed = slow.answers(), made.server.performed()
            self.assertEqual(performed.pop("other.1"), 3)
            self.assertEqual(judge(told, performed), {"returned": 8})
            for life in (made.retry, made.guard):
                self.assertNotIn("fragments", life.said())

    def test_a_client_that_sends_ft_request(self):
        """A call that is sent again in another process acts twice on omniORB, and once through a guard alone, by a
        reference that leads to that; in GIOP 1.1 as well."""
        folder = relays.compiled(os.path.join(EXAMPLES, "counter.idl"),
                                 server=os.path.join(relays.HERE, "counter_server.cc"),
                                 client=os.path.join(EXAMPLES, "omniorb_client.cc"))

        def calls(reference: str, number: int, *words: str) -> str:
            """What a client prints that calls add(7) and then get()."""
            return run_of(os.path.join(folder, "client"), reference, "A", str(number), "-ORBmaxGIOPConnectionPerServer", "1",
                          *words)

        port = relays.free_port()
        with relays.Life(os.path.join(folder, "server"), "-ORBendPoint", f"giop:tcp:127.0.0.1:{port}") as server, \
                relays.Relay("guard", "--server", f"127.0.0.1:{port}", "--store", "memory") as guard:
            server.begin()
            guard.begin()
            direct = server.process.stdout.readline().strip()
            self.assertEqual([calls(direct, 1) for _ in range(2)], ["add 7\nget 7\n", "add 14\nget 14\n"])
            led = run_of(relays.program(), "ior", "--at", f"127.0.0.1:{guard.port}", direct).strip()
            self.assertEqual([calls(led, 1) for _ in range(3)], ["add 21\nget 21\n"] * 3)
            self.assertEqual([calls(led, 2) for _ in range(2)], ["add 28\nget 28\n"] * 2)
            self.assertEqual([calls(led, 3, "-ORBmaxGIOPVersion", "1.1") for _ in range(2)], ["add 35\nget 35\n"] * 2)

    def test_one_that_is_slow_holds_up_nobody(self):
        """32 calls of a second each, at once, take as long as a few: omniORB's server has threads enough."""
        with world(random.Random(1)) as made:
            slow = made.calls("slow", 32, 32, "1000")
            quick = made.calls("quick", 50, 1).answers()
            self.assertFalse(slow.is_over())
            self.assertEqual(judge({**slow.answers(), **quick}, made.server.performed()), {"returned": 82})

    @base.each_seed(61, 1)
    def test_a_link_that_loses(self, seed):
        """Each call acts once, and returns: nothing is MAYBE where nobody is killed."""
        with world(random.Random(seed), is_calm=False) as made:
            answers = made.calls("call", CALLS, THREADS).answers()
            told = made.calls("told", CALLS // 4, THREADS, "tell").answers()
            made.link.is_calm = True
            made.arrive(CALLS + CALLS // 4)
            made.settle()
            performed = made.server.performed()
            self.assertEqual(judge({**answers, **told}, performed), {"returned": CALLS + CALLS // 4})
            self.assertEqual(len(performed), CALLS + CALLS // 4)
            results_differ(answers)
            self.assertGreater(made.link.cuts, 3)

    @base.each(lambda: POINTS)
    def test_killed_at_each_point(self, given):
        """A relay dies at a point, at its fifth call, and is begun again over its store."""
        role, point, maybe = given
        with world(random.Random(1)) as made:
            life = getattr(made, role)
            life.end(signal.SIGTERM)
            life.begin(f"{point}:5")
            calling = made.calls("call", 15)
            self.assertTrue(ended_by_itself(calling, life), "it did not die there")
            self.assertEqual(life.end(), -signal.SIGABRT)
            life.begin()
            answers = calling.answers()
            made.settle()
            # (a connection that came while its end was under way may be lost too)
            most = maybe + (role == "retry")
            told = judge(answers, made.server.performed(), most)
            self.assertGreaterEqual(sum(told[words] for words in told if words.endswith("MAYBE")), maybe, told)

    @base.each(lambda: [(name, others) for name, *others in HOPS])
    def test_a_server_that_forwards(self, given):
        """What its ServantLocator forwards acts once, where that leads; and who is led round and round is told so soon."""
        hops, is_published, told = given
        with world(random.Random(1), hops=hops, is_published=is_published) as made:
            begun = time.monotonic()
            answers = made.calls("call", 40, 4).answers()
            self.assertEqual(judge(answers, made.server.performed()), {told: 40})
            self.assertEqual(len(made.server.performed()), 40 if told == "returned" else 0)
            self.assertLess(time.monotonic() - begun, made.timeout / 4)
            said = made.retry.said()
            self.assertEqual(("after too many hops" in said, "no guard of the list" in said), (told != "returned", False))

    @base.each(lambda: [(point, (point, maybe)) for point, maybe in LED_POINTS.items()])
    def test_killed_where_a_server_forwards(self, given):
        """The guard dies once the forward has come, or once its key is undone: nothing acts twice."""
        point, most = given
        with world(random.Random(1), hops=("3", "once")) as made:
            made.guard.end(signal.SIGTERM)
            made.guard.begin(f"{point}:5")
            calling = made.calls("call", 15)
            self.assertTrue(ended_by_itself(calling, made.guard), "it did not die there")
            self.assertEqual(made.guard.end(), -signal.SIGABRT)
            made.guard.begin()
            answers = calling.answers()
            made.settle()
            told = judge(answers, made.server.performed(), most)
            self.assertEqual(told["returned"], 15 - most, told)

    def test_a_server_that_is_killed(self):
        """Who waits for it is told MAYBE; it is begun again, and others are served."""
        with world(random.Random(1)) as made:
            calling = made.calls("call", 60, 4, "20")
            relays.giop_peers.until(lambda: len(calling.lines) > 8, "calls are made")
            made.server.end()
            made.server.begin()
            answers = calling.answers()
            made.settle()
            told = judge(answers, made.server.performed(), 4)
            self.assertGreaterEqual(told["returned"], 50, told)

    @base.each_seed(67, 1)
    def test_all_at_once(self, seed):
        """The link loses, and relays and server are killed and stopped by chance, amid calls of each version, short and long,
        and of objects that forward."""
        self.all_at_once(seed, CALLS, is_published=True)

    @needs("openssl")
    @base.each_seed(73, 1)
    def test_all_at_once_over_tls(self, seed):
        """The same, where the relays speak TLS, and the guard does not know of the other."""
        with tempfile.TemporaryDirectory() as folder:
            self.all_at_once(seed, CALLS // 4, tls=Folder(folder).words)

    def all_at_once(self, seed: int, count: int, **others: object) -> None:
        """Kills and stops relays and server by chance while clients make so many calls."""
        dice, kills, begun = random.Random(seed), collections.Counter(), time.monotonic()
        with world(dice, is_calm=False, is_long=True, hops=relays.HOPS, **others) as made:
            clients = relays.Clients(made.server, count, THREADS)
            lives = [("guard", made.guard), ("guard", made.guard), ("retry", made.retry), ("server", made.server)]
            while not clients.are_over():
                time.sleep(dice.expovariate(1 / 0.4))
                name, life = dice.choice(lives)
                if dice.random() < 0.3:
                    life.tell(signal.SIGSTOP)
                    time.sleep(dice.uniform(0.05, 0.3))
                    life.tell(signal.SIGCONT)
                else:
                    life.end()
                    life.begin()
                    kills[name] += 1
            made.link.is_calm = True
            made.settle()
            told = clients.judged(made.server.performed(), kills.total())
            print(f"seed {seed}: {dict(kills)} killed, {made.link.cuts} cuts: {told}; {time.monotonic() - begun:.0f} s")

    def test_what_ends_in_order_answers_first(self):
        """At SIGTERM what is under way is answered, and then the connection is closed in order: nobody is told MAYBE."""
        for role in ("retry", "guard"):
            with self.subTest(role), world(random.Random(1)) as made:
                calling = made.calls("call", 40, 4, "30")
                relays.giop_peers.until(lambda: len(calling.lines) > 8, "calls are made")
                life = getattr(made, role)
                self.assertEqual(life.end(signal.SIGTERM), 0)
                life.begin()
                answers = calling.answers()
                made.settle()
                told = judge(answers, made.server.performed())
                self.assertGreater(told["returned"], 8, told)


class Page(unittest.TestCase):
    """What docs/RELAY.md has its reader do."""

    @needs("unshare", "ip", "g++", "omniidl")
    def test_in_ten_minutes(self):
        """Its commands, once all is built, print what it says; at the ports that it names, so in a network of their own."""
        relays.needs_network()
        relays.orbs()
        with open(os.path.join(ROOT, "docs", "RELAY.md"), encoding="utf-8") as file:
            part = file.read().split("\n## In ten minutes\n")[1].split("\n## ")[0]
        lines = [line[4:] for line in part.split("\n") if line.startswith("    ")]
        printed = [line for line in lines if re.match(r"first\.\d|COMM_FAILURE ", line)]
        # (who types is slower)
        commands = [f"sleep 2; {line}" if line.startswith("./orb_client") else line for line in lines if line not in printed]
        self.assertEqual([line.split()[0] for line in commands[:2]], ["./build", "export"])
        with tempfile.TemporaryDirectory() as folder:
            os.symlink(os.path.join(ROOT, "tests"), os.path.join(folder, "tests"))
            os.symlink(relays.program(), os.path.join(folder, "lemonrudder"))
            script = "\n".join(["ip link set lo up", 'PATH="$PWD:$PATH"', *commands[2:], "kill $(jobs -p)"])
            ran = subprocess.run(["unshare", "-n", "bash", "-c", script], cwd=folder, text=True, stdout=subprocess.PIPE,
                                 stderr=subprocess.PIPE, timeout=2 * relays.SECONDS, check=False)
            self.assertEqual([line for line in ran.stderr.splitlines() if " Killed " not in line], [])
            said = ran.stdout.splitlines()
            # (two threads call: which result each gets is chance)
            for part in (0, 1, 2):
                self.assertEqual(sorted(line.split()[part] for line in said[:4]),
                                 [line.split()[part] for line in printed[:4]])
            # (how many the server has when the guard dies is chance)
            self.assertEqual(set(said[4:]) | {printed[4]}, set(printed[4:]), said)
            self.assertLessEqual(len(said[4:]), 4)
            with open(os.path.join(folder, "answers"), encoding="ascii") as answers:
                self.assertEqual(len(answers.readlines()), 200)


if __name__ == "__main__":
    unittest.main()
