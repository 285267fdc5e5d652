"""Runs the scripts of `bench` in their short form, in which no figure is judged: each prints all of its rows."""
from __future__ import annotations

import os
import re
import shutil
import subprocess
import sys
import tempfile
import unittest

from tests import programs
from tests.embed import durable
from tests.programs import NEEDS, ROOT, library
from tests.relay import relays

BENCH = os.path.join(ROOT, "bench")
# how long a script may take on a busy machine, in seconds
SECONDS = 1800
# the rows of each script: how their lines begin, and how many there are
RUN = {r"an? (Request|Reply|LocateRequest|message|reference's text) .* \(-?\d": 6, r"(it|in pieces) .* \(-?\d": 4,
       r"eight cut messages .* \(-?\d": 1, r"`(check|show)`, a digit .* \(-?\d": 2,
       r"(read |write) (structs|ulongs|longlongs|shorts|booleans|octets) +-?\d": 12}
SERVER = {r"\d+ streams from seed ": 1, r"(ours|plain), 1,024 kept, .* octets in use beyond 5,000": 4,
          r" *(add|repeat|locate) +\d+   +\d\.\d+ ": 12, r" *(rising|scattered|clients) +\d+ +\d+   +\d\.\d+ ": 9,
          r"    (microseconds|instructions) +\d": 2, r" *(add|rising) +\d+ +1 +\d+ .*  64 ": 2,
          r"    a parked request without a key takes -?\d": 1}
SERVE = {r" *(64|one) at a time: giop serve +\d.*, echo +\d.*, ratio ": 2}
LOG = {r" +-?\d+\.\d +-?\d+\.\d +-?\d+\.\d$": 1, "octets that .* in a log of 1,024: ": 1,
       r" *\d+ kept, +\d+ of each client, (rising|scattered) +\d": 5, r"a call with which 1,024 expire: \d": 1}
INSTRUCTIONS = {r"(add|repeat|locate), pieces of [\d,]+ +\d": 12, r"a new key, [\d,]+ kept +\d": 2}
TIMES = {r"(add|repeat|locate) +-?\d": 3, r"a new key, 1,024 kept +-?\d": 1}
SIZES = {r" *[\d,]+  (the archive|the shared library|the same, stripped)$": 3, ".*; loaded .* more than nothing$": 4,
         r" *[\d,.]+ +[\d,.]+ +[\d.]+  (a server|all of it|a connection|an outcome|a raw outcome)": 18}
FLOODS = {r"  (plain|async, 1 ms each|no such object) +\d+ us +\d+ us ": 4}
THREADS = {r"(plain|keyed) +(counter|threads_\d) +\d.* a second ": 8}
SERVERS = {r"  (counter|omniORB|omniORB, pool|bare) +\d.* a second ": 16}
# of the ways of bench/relay, what they need beside the relay
RELAY = {r"  (no relay|guard, (memory|SQLite)(, and retry)?) +[\d,]+ a second .* of a processor": 15,
         r"  (no relay|guard, [\w, ]+) +alone \d+\.\d+ s, ": 4, r"  guard, memory.* 100 connections: \d": 2}
OF_HAPROXY = {r"  (haproxy|two haproxies) +[\d,]+ a second .* of a processor": 6, r"  haproxy +alone \d+\.\d+ s, ": 1}
OF_POSTGRES = {r"  guard, PostgreSQL +[\d,]+ a second .* requests a transaction, ": 3}
DURABLE = {r" [ \d]\d clients, (memory|SQLite|PostgreSQL).* +[\d,]+( |$)": 12}
# a bank that ends once it has printed a reference, and one that prints none
ENDS = "#!/bin/sh\n'{bank}' 127.0.0.1 0 >'{folder}/said' &\n" \
    "until [ -s '{folder}/said' ]; do sleep 0.1; done\ncat '{folder}/said'\nkill -9 $!\nexit 3\n"
SILENT = "#!/bin/sh\nexit 3\n"
# what a bank in memory answers in a second, asked for so many seconds by the programs of a folder
ASKED = "import sys, measure_durable as it; print(it.Measure(*sys.argv[1:3], None, {seconds}).bank('memory', 64))"


class Scripts(unittest.TestCase):
    """What each script prints in a short run."""

    @classmethod
    def setUpClass(cls) -> None:
        cls.folder = tempfile.mkdtemp(prefix="bench-")
        cls.addClassCleanup(shutil.rmtree, cls.folder, ignore_errors=True)

    def printed(self, *words: str, **builds: str) -> str:
        """What a script prints over the builds that variables name."""
        ran = subprocess.run([os.path.join(BENCH, words[0]), *words[1:], "--short"], cwd=self.folder, text=True,
                             env={**os.environ, **builds}, stdin=subprocess.DEVNULL, stdout=subprocess.PIPE,
                             stderr=subprocess.STDOUT, timeout=SECONDS, check=False)
        self.assertEqual(ran.returncode, 0, ran.stdout)
        self.assertRegex(ran.stdout, "^a short run, of builds that are not proved: ")
        return ran.stdout

    def assert_rows(self, rows: dict[str, int], printed: str) -> None:
        """What is printed has these rows, and each as often."""
        for begin, count in rows.items():
            self.assertEqual(len(re.findall(f"^{begin}", printed, re.M)), count, f"{begin}\n{printed}")

    @programs.needs("rustc", "valgrind")
    def test_run(self) -> None:
        """bench/run: messages, values and texts."""
        benches, giop = programs.program("BENCHES"), programs.program("GIOP")
        self.assert_rows(RUN, self.printed("run", BENCHES=benches, GIOP=giop))

    @programs.needs("rustc", "valgrind", "time")
    def test_server(self) -> None:
        """bench/server: a server beside a plain one."""
        self.assert_rows(SERVER, self.printed("server", BENCHES=programs.program("BENCHES")))

    @programs.needs("rustc")
    def test_serve(self) -> None:
        """bench/serve: `giop serve` beside an echo."""
        self.assert_rows(SERVE, self.printed("serve", GIOP=programs.program("GIOP")))

    @programs.needs("rustc", "valgrind", "time")
    def test_log(self) -> None:
        """bench/log: a log beside a plain one."""
        self.assert_rows(LOG, self.printed("log", BENCHES=programs.program("BENCHES")))

    @programs.needs("cc", "valgrind")
    def test_calls(self) -> None:
        """bench/embedded calls: the library for C beside an Engine."""
        printed = self.printed("embedded", "calls", BENCHES=programs.program("BENCHES"), LIBRARY=library())
        instructions, _, times = printed.partition("nanoseconds")
        self.assert_rows(INSTRUCTIONS, instructions)
        self.assert_rows(TIMES, times)

    @programs.needs("cc", "size", "strip")
    def test_embedded(self) -> None:
        """bench/embedded sizes, floods and threads."""
        for what, rows in (("sizes", SIZES), ("floods", FLOODS), ("threads", THREADS)):
            self.assert_rows(rows, self.printed("embedded", what, LIBRARY=library()))

    @programs.needs("cc", "g++", "omniidl")
    def test_servers(self) -> None:
        """bench/embedded servers: a counter beside omniORB's."""
        if not os.path.exists("/usr/include/omniORB4/CORBA.h"):
            self.skipTest(NEEDS + "libomniorb4-dev")
        self.assert_rows(SERVERS, self.printed("embedded", "servers", LIBRARY=library()))

    @programs.needs("cc")
    def test_relay(self) -> None:
        """bench/relay: the relays beside haproxy and nothing; what needs a tool that is missing is named."""
        printed = self.printed("relay", LEMONRUDDER=relays.program(), LIBRARY=library())
        lacking = []
        for needed, rows in ((None, RELAY), ("haproxy", OF_HAPROXY), ("postgresql", OF_POSTGRES)):
            if needed and f"not run: {NEEDS}{needed}\n" in printed:
                lacking.append(needed)
                rows = dict.fromkeys(rows, 0)
            self.assert_rows(rows, printed)
        if lacking:
            self.skipTest(NEEDS + ", ".join(lacking))

    @programs.needs("cc", "pkg-config")
    def test_durable(self) -> None:
        """bench/durable: banks beside their databases."""
        durable.flags_of("sqlite3", "libsqlite3-dev"), durable.flags_of("libpq", "libpq-dev")
        durable.Postgres().close()
        self.assert_rows(DURABLE, self.printed("durable", LIBRARY=library()))


class Banks(unittest.TestCase):
    """What bench/durable makes of a bank."""

    def setUp(self) -> None:
        folder = tempfile.TemporaryDirectory(prefix="bench-")
        self.addCleanup(folder.cleanup)
        self.folder, lib = folder.name, library()
        programs.tool("cc")
        examples = os.path.join(ROOT, "examples")
        sources = [os.path.join(examples, name) for name in ("bank.c", "loop.c")]
        for name, words in (("bank", [f"-I{lib}/include", *sources, f"{lib}/lib/liblemonrudder.a"]),
                            ("load", [os.path.join(BENCH, "c", "load.c"), "-pthread"])):
            subprocess.run(["cc", "-std=c99", "-O1", *words, "-o", os.path.join(self.folder, name)], check=True)

    def asked(self, seconds: int) -> subprocess.CompletedProcess:
        """What comes of asking the bank for at most so many seconds."""
        words = [sys.executable, "-c", ASKED.format(seconds=seconds), self.folder, self.folder]
        env = {**os.environ, "PYTHONPATH": BENCH, "LIBRARY": library()}
        return subprocess.run(words, env=env, capture_output=True, text=True, timeout=600, check=False)

    def replace_bank(self, script: str) -> None:
        """Puts a script where the bank is."""
        bank, moved = (os.path.join(self.folder, name) for name in ("bank", "moved"))
        os.rename(bank, moved)
        with open(bank, "w", encoding="utf-8") as file:
            file.write(script.format(bank=moved, folder=self.folder))
        os.chmod(bank, 0o755)

    def test_full(self) -> None:
        """A bank in memory is asked no more before it has no room for outcomes, however fast it is."""
        ran = self.asked(60)
        self.assertEqual(ran.returncode, 0, ran.stderr)
        self.assertGreater(float(ran.stdout), 0)

    def test_ends(self) -> None:
        """A bank that ends too early ends the script, which says so."""
        self.replace_bank(ENDS)
        ran = self.asked(1)
        self.assertEqual(ran.returncode, 1, ran.stdout)
        self.assertRegex(ran.stderr, "bank ended by itself, with status 3")
        self.assertRegex(ran.stderr, "bank, 64 clients: load: ")

    def test_silent(self) -> None:
        """So does a bank that does not begin."""
        self.replace_bank(SILENT)
        ran = self.asked(1)
        self.assertEqual(ran.returncode, 1, ran.stdout)
        self.assertRegex(ran.stderr, "bank ended by itself, with status 3")
