#!/usr/bin/env python3
"""Measures the relays, beside haproxy in TCP mode and beside no relay, over loopback.

usage: measure_relay.py PROGRAMS [calls [--rounds 5] [--seconds 1] | slow | idle [--count 10000] | soak [--minutes 60]]
                        [--short]

PROGRAMS is the folder that bench/relay fills; LEMONRUDDER names the program. All but `soak` are measured where none is
named. The server is bench/c/bare.c, the clients are those of bench/c/load.c, with one request outstanding each. Each
request has FT_REQUEST with a new key that expires in a minute, but those that go to `retry`, which gives them one. Each
has to act once: `load` looks at the results. What needs haproxy or PostgreSQL is named as not run where that is missing.

calls   Replies in a second, how long a reply takes at the 50th and the 99th percentile, and how long all processes between
        the clients and the server are on a processor for one; without PostgreSQL's. All ways take turns, so many
        rounds. Given are the best rate and the best times; its ratio to haproxy's best; the median of the ratios in a
        round, with the least and the greatest; and the median of the processor's time.
        Of a store that is written also how many requests have a step in a transaction, how many transactions there are
        in a second, by the guard's counters (medians), and how often in a second 64 KiB of a file are written and
        flushed alone (a median).
slow    Each operation takes a second: how long one takes alone, and 64 at once.
idle    The memory that is resident while so many connections are idle: before their first call, and after it.
soak    An unmodified client of omniORB calls a server of omniORB through `retry`, a link that is cut by chance, and
        `guard` over SQLite. Each call has to act once and return. The memory that is resident and of no file is noted
        each 10 seconds, and printed each 5 minutes; the status is 1 where a line through the last three quarters rises
        by 8 octets or more for a call: the smallest block of the heap has 32.

In a short run operations take a tenth of a second, memory is noted twice in a second, and not judged.
"""
from __future__ import annotations

import contextlib
import os
import random
import re
import resource
import shutil
import socket
import statistics
import subprocess
import sys
import tempfile
import time
import unittest
import urllib.request
from collections import defaultdict

# (which finds the package of tests)
from measure import IS_SHORT, or_short, parser_of, ratio
from measure_servers import processor_seconds
from tests.giop_peers import request
from tests.programs import NEEDS
from tests.relay import relays

CLIENTS = (1, 8, 64)
KEY = b"c"
HAPROXY = """
global
    maxconn 1000
defaults
    mode tcp
    timeout connect 5s
    timeout client 1h
    timeout server 1h
listen one
    bind 127.0.0.1:{port}
    server one 127.0.0.1:{target}
"""
FLUSHED = 1 << 16
# how many milliseconds a slow operation takes, how long slow ones are asked for, in seconds, and how long idle
# connections are left alone
SLOW, SLOWLY, IDLE = or_short((1000, 4, 2), (100, 0.5, 0.2))
# of the soak: calls of one client, its threads, and how many milliseconds a call takes at the server
SOAKED = or_short((500, 8, "80"), (50, 8, "8"))
# how often memory is looked at, in seconds, and printed, as so many times that
SAMPLE, PRINT = or_short((10, 30), (0.5, 2))
# octets for a call
GROWTH = 8


class Haproxy(relays.Life):
    """haproxy in TCP mode, before a port."""

    def __init__(self, folder, target):
        self.port = relays.free_port()
        path = os.path.join(folder, f"{self.port}.cfg")
        with open(path, "w", encoding="ascii") as file:
            file.write(HAPROXY.format(port=self.port, target=target))
        super().__init__("haproxy", "-db", "-f", path)

    def begin(self):
        """Begins it, and waits until it listens."""
        super().begin()
        end = time.monotonic() + relays.SECONDS
        while not self.died() and time.monotonic() < end:
            with contextlib.suppress(OSError), socket.create_connection(("127.0.0.1", self.port)):
                return
            time.sleep(0.01)
        raise AssertionError(f"haproxy did not begin: {self.said()}")


class Guard(relays.Relay):
    """A guard before a port, and its counters."""

    def __init__(self, store, target):
        self.metrics = relays.free_port()
        super().__init__("guard", "--server", f"127.0.0.1:{target}", "--store", store, "--metrics",
                         f"127.0.0.1:{self.metrics}")

    def counter(self, name):
        with urllib.request.urlopen(f"http://127.0.0.1:{self.metrics}/metrics") as text:
            return float(re.search(rf"^lemonrudder_{name} (\S+)$", text.read().decode(), re.M)[1])


class Measure:
    """What is measured, in a folder."""

    # what stands between clients and the server, the last first
    WAYS = {
        "no relay": "",
        "haproxy": "haproxy",
        "guard, memory": "memory",
        "guard, SQLite": "sqlite",
        "guard, PostgreSQL": "postgres",
        "two haproxies": "haproxy haproxy",
        "guard, memory, and retry": "memory retry",
        "guard, SQLite, and retry": "sqlite retry",
    }

    def __init__(self, programs, folder):
        self.programs, self.folder, self.postgres, self.count = programs, folder, None, 0
        self.lacking = {} if shutil.which("haproxy") else {"haproxy": "haproxy"}

    def find_postgres(self):
        """Begins a PostgreSQL, or notes that it is missing."""
        # (which looks for the library when it is loaded)
        from tests.embed.durable import Postgres
        try:
            self.postgres = Postgres()
        except unittest.SkipTest as why:
            self.lacking["postgres"] = str(why).removeprefix(NEEDS)

    def has(self, name):
        """Whether a way can be measured here; one that can't is named."""
        missing = [tool for kind, tool in self.lacking.items() if kind in self.WAYS[name].split()]
        if missing:
            print(f"  {name:<26} not run: {NEEDS}{missing[0]}", flush=True)
        return not missing

    def store(self, kind):
        """A store that has nothing."""
        self.count += 1
        if kind == "sqlite":
            return os.path.join(self.folder, f"{self.count}.sqlite")
        if kind == "postgres":
            self.postgres.asked("DROP SCHEMA IF EXISTS lemonrudder CASCADE")
            return self.postgres.address
        return kind

    def life(self, kind, target):
        """One of what stands before a port."""
        if kind == "haproxy":
            return Haproxy(self.folder, target)
        if kind == "retry":
            return relays.Relay("retry", "--guard", f"127.0.0.1:{target}")
        return Guard(self.store(kind), target)

    @contextlib.contextmanager
    def way(self, name, milliseconds=0):
        """A way to a server that takes so long for a request: its port, and the lives of what is between."""
        with contextlib.ExitStack() as stack:
            server = stack.enter_context(relays.Life(os.path.join(self.programs, "bare"), str(milliseconds)))
            server.begin()
            port, lives = int(server.process.stdout.readline()), []
            for kind in self.WAYS[name].split():
                life = stack.enter_context(self.life(kind, port))
                life.begin()
                port = life.port
                lives.append(life)
            yield port, lives

    def load(self, name, port, clients, seconds):
        """Has clients ask, and answers what they found: replies in a second, how many there were, and two times."""
        kind = "plain" if "retry" in name else "keyed:60"
        words = [os.path.join(self.programs, "load"), str(port), KEY.hex(), str(clients), str(min(clients, 2)),
                 str(int(1000 * seconds)), kind]
        came = subprocess.run(words, capture_output=True, text=True, check=False)
        if came.returncode != 0:
            sys.exit(f"{name}, {clients} clients: {came.stderr.strip()}")
        counted, length, _, whole, half, most = map(float, came.stdout.split())
        return {"rate": counted / length, "whole": whole, "p50": half, "p99": most}

    def calls(self, name, clients, seconds):
        """.. and how long what is between was on a processor, and of a store its transactions."""
        with self.way(name) as (port, lives):
            found = self.load(name, port, clients, seconds)
            found["cost"] = 1e6 * sum(processor_seconds(life.process.pid) for life in lives) / found["whole"]
            guard = next((life for life in lives if isinstance(life, Guard)), None)
            if guard and "memory" not in name:
                steps, count = (guard.counter(f"store_write_steps_{it}") for it in ("sum", "count"))
                found["steps"] = ratio(steps, count)
                # (a request has two steps)
                found["flushes"] = ratio(2 * found["rate"], found["steps"])
        return found


def flushes(folder, seconds):
    """How often in a second octets of a file are written and flushed."""
    with tempfile.TemporaryFile(dir=folder) as file:
        octets, count, begun = bytes(FLUSHED), 0, time.monotonic()
        os.pwrite(file.fileno(), octets, 0)
        os.fsync(file.fileno())
        while time.monotonic() < begun + seconds:
            os.pwrite(file.fileno(), octets, 0)
            os.fdatasync(file.fileno())
            count += 1
        return count / (time.monotonic() - begun)


def print_calls(name, some, others, disk):
    """Prints what was found of a way, in all rounds, beside haproxy where that was measured."""
    best = {what: (max if what == "rate" else min)(one[what] for one in some) for what in ("rate", "p50", "p99")}
    middle = {what: statistics.median(one[what] for one in some) for what in some[0]}
    line = f"  {name:<26}{best['rate']:9,.0f} a second  "
    if others:
        ratios = [ratio(one["rate"], other["rate"]) for one, other in zip(some, others)]
        line += f"{ratio(best['rate'], max(one['rate'] for one in others)):5.2f}, {statistics.median(ratios):.2f} "
        line += f"({min(ratios):.2f} to {max(ratios):.2f})  "
    line += f"p50 {best['p50']:8,.0f} us  p99 {best['p99']:8,.0f} us  {middle['cost']:6.1f} us of a processor"
    if "steps" in middle:
        line += f"  {middle['steps']:4.1f} requests a transaction, {middle['flushes']:5,.0f} a second (disk alone {disk:,.0f})"
    print(line, flush=True)


def calls(measure, given):
    """Prints replies and times of all ways."""
    measure.find_postgres()
    names, found, disk = list(filter(measure.has, measure.WAYS)), defaultdict(list), []
    try:
        for number in range(given.rounds):
            disk.append(flushes(measure.folder, given.seconds))
            for clients in CLIENTS:
                for name in names[:: -1 if number % 2 else 1]:
                    found[clients, name].append(measure.calls(name, clients, given.seconds))
    finally:
        if measure.postgres:
            measure.postgres.close()
    for clients in CLIENTS:
        print(f"{clients} client{'s' * (clients > 1)}: best of {given.rounds}, to haproxy's best, and in a round")
        for name in names:
            print_calls(name, found[clients, name], found[clients, "haproxy"], statistics.median(disk))


def slow(measure, _):
    """Prints how long slow operations take, one alone and 64 at once."""
    for name in filter(measure.has, ("no relay", "haproxy", "guard, memory", "guard, SQLite", "guard, SQLite, and retry")):
        times = {}
        for clients in (1, 64):
            with measure.way(name, SLOW) as (port, _):
                times[clients] = measure.load(name, port, clients, SLOWLY)
        one, all_of_them = times[1]["p50"], times[64]["p99"]
        print(f"  {name:<26} alone {one / 1e6:.4f} s, 64 at once {all_of_them / 1e6:.4f} s at the most, "
              f"{ratio(all_of_them, one):.4f}", flush=True)


def resident(life, which="VmRSS"):
    """The memory of a process that is resident, or of it what is of no file (RssAnon), in KiB."""
    with open(f"/proc/{life.process.pid}/status", encoding="ascii") as file:
        return int(re.search(rf"^{which}:\s+(\d+) kB$", file.read(), re.M)[1])


def ask(peers):
    """Has each peer make a call."""
    octets = request(1, KEY, "add", bytes([0, 0, 0, 7]))
    for peer in peers:
        peer.sendall(octets)
        reply = peer.recv(4096)
        if reply[:8] != b"GIOP\1\2\0\1" or reply[16:20] != bytes(4):
            sys.exit(f"an idle connection is answered {reply.hex()}")


def idle(measure, given):
    """Prints what memory idle connections take."""
    resource.setrlimit(resource.RLIMIT_NOFILE, (resource.getrlimit(resource.RLIMIT_NOFILE)[1],) * 2)
    for name in ("guard, memory", "guard, memory, and retry"):
        with measure.way(name) as (port, lives), contextlib.ExitStack() as stack:
            sizes = [resident(lives[-1])]
            peers = [stack.enter_context(socket.create_connection(("127.0.0.1", port))) for _ in range(given.count)]
            time.sleep(IDLE)
            sizes.append(resident(lives[-1]))
            ask(peers)
            ask(peers)
            sizes.append(resident(lives[-1]))
            begun, opened, asked = (size / 1024 for size in sizes)
            print(f"  {name:<26} {given.count:,} connections: {begun:.1f} MiB before, {opened:.1f} with them, {asked:.1f} "
                  f"after two calls of each", flush=True)


class Soak:
    """What memory two relays take while calls are made, amid cuts."""

    def __init__(self, made, minutes):
        self.made, self.begun = made, time.monotonic()
        self.ends, self.samples = self.begun + 60 * minutes, defaultdict(list)
        self.number, self.told = 0, defaultdict(int)

    def sample(self):
        """Notes the memory of both."""
        at = time.monotonic() - self.begun
        for role in ("guard", "retry"):
            self.samples[role].append((at, resident(getattr(self.made, role), "RssAnon")))
        if len(self.samples["guard"]) % PRINT == 0:
            sizes = ", ".join(f"{role} {samples[-1][1]:,} KiB" for role, samples in self.samples.items())
            print(f"  {at / 60:.0f} minutes: {sum(self.told.values()):,} calls, {self.made.link.cuts:,} cuts, {sizes}",
                  flush=True)

    def run(self):
        """Has clients call, one after another, until the time is over."""
        count, threads, kind = SOAKED
        due = self.begun
        while time.monotonic() < self.ends:
            self.number += 1
            calling = self.made.calls(f"soak{self.number}", count, threads, kind)
            while not calling.is_over():
                if time.monotonic() >= due:
                    self.sample()
                    due += SAMPLE
                time.sleep(0.1)
            answers = calling.answers()
            performed = self.made.server.performed()
            for words, told in relays.judge(answers, performed).items():
                self.told[words] += told

    def judged(self):
        """Prints what was found, and answers whether the memory is flat."""
        seconds = time.monotonic() - self.begun
        calls = sum(self.told.values())
        print(f"  {calls:,} calls in {seconds / 60:.0f} minutes, {self.made.link.cuts:,} cuts, told {dict(self.told)}")
        is_flat = True
        for role, samples in self.samples.items():
            late = [one for one in samples if one[0] >= seconds / 4]
            growth = 1024 * statistics.linear_regression(*zip(*late)).slope * seconds / calls
            is_flat = is_flat and (growth < GROWTH or IS_SHORT)
            print(f"  {role}: {len(samples)} samples, {samples[0][1]:,} KiB at first, {late[0][1]:,} after a quarter, "
                  f"{samples[-1][1]:,} at last, {max(size for _, size in samples):,} at the most; a line through the "
                  f"last three quarters rises by {growth:.1f} octets for a call", flush=True)
        return is_flat


def soak(_, given):
    """Prints what memory both relays take while calls are made for so many minutes."""
    with relays.world(random.Random(1), is_calm=False) as made:
        soaked = Soak(made, given.minutes)
        soaked.run()
        is_flat = soaked.judged()
    sys.exit(0 if is_flat else "the memory grows")


def main():
    parser = parser_of("programs")
    parser.add_argument("what", nargs="?", choices=["calls", "slow", "idle", "soak"])
    parser.add_argument("--rounds", type=int, default=or_short(5, 1))
    parser.add_argument("--seconds", type=float, default=or_short(1, 0.2))
    parser.add_argument("--count", type=int, default=or_short(10_000, 100))
    parser.add_argument("--minutes", type=float, default=or_short(60, 0.05))
    given = parser.parse_args()
    kinds = {"calls": calls, "slow": slow, "idle": idle, "soak": soak}
    print(f"{os.cpu_count()} processors, load {os.getloadavg()[0]:.1f} before")
    with tempfile.TemporaryDirectory(dir=".") as folder:
        for name in [given.what] if given.what else ["calls", "slow", "idle"]:
            print(name)
            kinds[name](Measure(given.programs, folder), given)
    print(f"load {os.getloadavg()[0]:.1f} after")


if __name__ == "__main__":
    main()
