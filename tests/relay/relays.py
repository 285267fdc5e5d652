"""What the tests of the relays stand on: the program, ORBs at both ends, links that lose, and lives that end at points."""
from __future__ import annotations

import asyncio
import atexit
import collections
import contextlib
import functools
import glob
import os
import random
import re
import shutil
import signal
import socket
import struct
import subprocess
import tempfile
import threading
import time
import unittest
from collections.abc import Callable, Iterator

from scripts import relay
from tests import giop_peers
from tests.programs import NEEDS, ROOT, library, tool

HERE = os.path.join(ROOT, "tests", "relay")
# how long anything may take on a busy machine
SECONDS = 120
# what a call may end in where relays and servers are killed: it is performed, or its exception is one of these
TOLD = {"COMM_FAILURE MAYBE", "TIMEOUT MAYBE", "TRANSIENT NO", "TIMEOUT NO"}
# how an object forwards to the one that performs: from there once, for good, and in three hops
HOPS = ("1", "once", "1", "good", "3", "once")
# a long message passes omniORB as well
LONG = ["-ORBgiopMaxMsgSize", "16777216"]


@functools.lru_cache(maxsize=None)
def program() -> str:
    """The program `lemonrudder`: the one that LEMONRUDDER names, or the one for tests."""
    named = os.environ.get("LEMONRUDDER")
    return os.path.abspath(named) if named else pointed()


@functools.lru_cache(maxsize=None)
def pointed() -> str:
    """The program for tests, which is built beside the library: it has points at which it ends or stops, and what is
    installed has none."""
    tool("cargo")
    lacking = relay.lacking()
    if lacking:
        raise unittest.SkipTest(NEEDS + ", ".join(lacking))
    made = relay.build(os.path.join(library(), "lib"), relay.target_of(library()), is_release=False)
    if made is None:
        raise AssertionError("lemonrudder was not built")
    return made


@functools.lru_cache(maxsize=None)
def orbs(is_tls: bool = False) -> str:
    """The folder of a client and a server of omniORB, which may have its transport of TLS."""
    return compiled(os.path.join(HERE, "calls.idl"), ("-Wl,--no-as-needed", "-lomnisslTP4") if is_tls else (),
                    server=os.path.join(HERE, "orb_server.cc"), client=os.path.join(HERE, "orb_client.cc"))


def compiled(idl: str, libraries: tuple[str, ...] = (), **sources: str) -> str:
    """A folder of programs of omniORB over stubs of an interface, and perhaps more libraries."""
    if not os.path.exists("/usr/include/omniORB4/CORBA.h"):
        raise unittest.SkipTest(NEEDS + "libomniorb4-dev")
    folder = tempfile.mkdtemp(prefix="orbs-")
    atexit.register(shutil.rmtree, folder, ignore_errors=True)
    stubs = os.path.basename(idl).replace(".idl", "SK.cc")
    commands = [[tool("omniidl"), "-bcxx", idl]]
    for name, source in sources.items():
        commands.append([tool("g++"), "-std=c++17", "-O0", "-I.", "-o", name, source, stubs, "-lomniORB4", "-lomnithread",
                         *libraries, "-pthread"])
    for words in commands:
        ran = subprocess.run(words, cwd=folder, capture_output=True, text=True, check=False)
        if ran.returncode != 0:
            raise AssertionError(ran.stderr)
    return folder


def needs_network() -> None:
    """Skips a test where a network namespace of its own can't be made."""
    if subprocess.run(["unshare", "-n", "true"], capture_output=True, check=False).returncode != 0:
        raise unittest.SkipTest(NEEDS + "a network namespace of its own")


def free_port() -> int:
    return giop_peers.free_port()


def stats_of(process: int) -> Iterator[str]:
    """What the system says of each thread of a process."""
    for stat in glob.glob(f"/proc/{process}/task/*/stat"):
        with contextlib.suppress(OSError), open(stat, encoding="ascii", errors="replace") as file:
            yield file.read()


class Life:
    """A program that is begun, ended and begun again."""

    def __init__(self, *words: str) -> None:
        self.words = words
        self.process: subprocess.Popen | None = None
        self.log = tempfile.TemporaryFile("w+")

    def begin(self, dies_at: str = "", stops_at: str = "", manager: str = "") -> None:
        """Begins a life, which ends or stops by itself at a point where one is named, and tells a socket of its state."""
        env = {**os.environ, "LEMONRUDDER_KILL": dies_at, "LEMONRUDDER_STOP": stops_at}
        if manager:
            env["NOTIFY_SOCKET"] = manager
        words = list(self.words)
        if dies_at or stops_at:
            words[words.index(program())] = pointed()
        self.process = subprocess.Popen(words, stdin=subprocess.DEVNULL, stdout=subprocess.PIPE, stderr=self.log,
                                        text=True, env=env)

    def tell(self, number: int) -> None:
        self.process.send_signal(number)

    def end(self, number: int = signal.SIGKILL) -> int:
        """Ends a life, and answers its status."""
        if self.process is None:
            return 0
        with self.process:
            if self.process.poll() is None:
                self.process.send_signal(number)
            return self.process.wait(SECONDS)

    def died(self) -> bool:
        """Whether the life has ended by itself."""
        return self.process is not None and self.process.poll() is not None

    def is_stopped(self) -> bool:
        """Whether all of its threads are stopped, as by SIGSTOP."""
        return all(text.rpartition(")")[2].split()[0] == "T" for text in stats_of(self.process.pid))

    def said(self) -> str:
        """What it has said of itself, in all its lives."""
        self.log.seek(0)
        return self.log.read()

    def __enter__(self) -> Life:
        return self

    def __exit__(self, *error: object) -> None:
        if self.process is not None and self.process.poll() is None:
            self.process.send_signal(signal.SIGCONT)
        self.end()
        if error[0] is not None:
            print(f"{self.words[:2]} said:\n{self.said()[-3000:]}")
        self.log.close()


class Relay(Life):
    """A relay in a role, at a port of its own."""

    def __init__(self, role: str, *words: str, port: int | None = None) -> None:
        self.port = port or free_port()
        self.manager = socket.socket(socket.AF_UNIX, socket.SOCK_DGRAM)
        self.manager.bind("")  # (to a name that the system finds)
        self.manager.settimeout(0.01)
        super().__init__(program(), role, "--listen", f"127.0.0.1:{self.port}", *words)

    def __exit__(self, *error: object) -> None:
        super().__exit__(*error)
        self.manager.close()

    def begin(self, dies_at: str = "", stops_at: str = "", manager: str = "") -> None:
        """Begins a life, and waits until it serves, which it tells the socket of who manages it."""
        super().begin(dies_at, stops_at, manager or "@" + self.manager.getsockname()[1:].decode())
        end = time.monotonic() + SECONDS
        while not self.died():
            with contextlib.suppress(TimeoutError):
                if self.manager.recv(99) == b"READY=1":
                    return
            if end < time.monotonic():
                raise AssertionError(f"it is not ready: {self.said()}")
        raise AssertionError(f"it did not begin: {self.said()}")


class Server(Life):
    """A server of omniORB that keeps what it performed in a file; its references lead to another port where one is given.

    With `hops`, how many and how, and so on, it has more references, of objects whose calls a ServantLocator forwards.
    With words of `tls` it listens over that alone."""

    def __init__(self, folder: str, published: int | None, hops: tuple[str, ...] = (), tls: tuple[str, ...] = ()) -> None:
        self.port, self.file = free_port(), os.path.join(folder, "performed")
        end = "giop:ssl:127.0.0.1" if tls else "giop:tcp:127.0.0.1"
        ends = ["-ORBendPoint", f"{end}:{self.port}"]
        ends += [] if published is None else ["-ORBendPointPublish", f"{end}:{published}"]
        self.count = 1 + len(hops) // 2
        super().__init__(os.path.join(orbs(bool(tls)), "server"), self.file, *hops, *ends, *LONG, *tls)

    def begin(self, dies_at: str = "", stops_at: str = "") -> None:
        super().begin(dies_at, stops_at)
        self.references = [self.process.stdout.readline().strip() for _ in range(self.count)]
        if not all(reference.startswith("IOR:") for reference in self.references):
            raise AssertionError(f"the server did not begin: {self.said()}")

    @property
    def reference(self) -> str:
        """The last one, to an object whose calls are forwarded where there is one."""
        return self.references[-1]

    def performed(self) -> collections.Counter:
        """How often it performed the call of each token, in all its lives."""
        if not os.path.exists(self.file):
            return collections.Counter()
        with open(self.file, encoding="ascii") as file:
            return collections.Counter(file.read().split())


class Calling:
    """An unmodified client of omniORB that makes so many calls, by so many threads; over TLS, if it has words of that."""

    def __init__(self, reference: str, name: str, count: int, threads: int = 1, kind: str = "0",
                 version: str = "1.2", tls: tuple[str, ...] = ()) -> None:
        words = [os.path.join(orbs(bool(tls)), "client"), reference, name, str(count), str(threads), kind, *LONG, *tls]
        words += ["-ORBmaxGIOPVersion", version]
        self.process = subprocess.Popen(words, stdin=subprocess.DEVNULL, stdout=subprocess.PIPE,
                                        stderr=subprocess.STDOUT, text=True)
        self.lines: list[str] = []
        self.reader = threading.Thread(target=self.read, daemon=True)
        self.reader.start()

    def read(self) -> None:
        for line in self.process.stdout:
            self.lines.append(line.rstrip("\n"))

    def is_over(self) -> bool:
        return self.process.poll() is not None

    def answers(self, seconds: int = 20 * SECONDS) -> dict[str, str]:
        """What each call was answered, by its token, once it is over."""
        try:
            status = self.process.wait(seconds)
        finally:
            self.process.kill()
            self.process.wait()
            self.reader.join()
            self.process.stdout.close()
        if status != 0:
            raise AssertionError(f"the client ended by {status}: {self.lines[-5:]}")
        return dict(line.split(" ", 1) for line in self.lines)


class Clients:
    """Clients that make so many calls at once: one of 1.2 of an object itself, by so many threads, and for each version one
    of all objects of a server in turn, with short and long bodies."""

    VERSIONS = ("1.0", "1.1", "1.2")

    def __init__(self, server: Server, count: int, threads: int, kind: str = "0") -> None:
        self.objects, each = len(server.references), max(count // 10, 4 * len(server.references))
        self.threads, self.count = threads + 2 * len(self.VERSIONS), count
        self.plain = Calling(server.references[0], "call", count - each * len(self.VERSIONS), threads, kind)
        self.mixed = [Calling(",".join(server.references), f"mixed-{version}", each, 2, "mixed", version)
                      for version in self.VERSIONS]

    def are_over(self) -> bool:
        return all(calling.is_over() for calling in (self.plain, *self.mixed))

    def judged(self, performed: collections.Counter, kills: int) -> str:
        """Looks whether all was answered, each acted at most once, and what was told is true and one of TOLD. Each kill
        explains a MAYBE of each thread. Says what was told."""
        plain = self.plain.answers()
        answers = {**plain, **{token: answer for calling in self.mixed for token, answer in calling.answers().items()}}
        told = judge(answers, performed, kills * self.threads)
        results_differ(answers)
        others = {token: answer for token, answer in answers.items()
                  if answer.split()[0] != "returned" and answer not in TOLD}
        if others:
            raise AssertionError(f"told what nothing explains: {others}")
        if len(answers) != self.count:
            raise AssertionError(f"{len(answers)} calls of {self.count} were answered")
        if told["returned"] <= self.count // 4:
            raise AssertionError(f"few calls returned: {told}")
        for calling in self.mixed:
            if not any(line.split()[1] == "returned" for line in calling.lines):
                raise AssertionError(f"no call returned: {calling.lines[-5:]}")
        led = sum(token.startswith("mixed") and int(token.rpartition(".")[2]) % self.objects > 0 for token in answers)
        versions = collections.Counter(token[:9] for token in answers if token.startswith("mixed"))
        return f"{dict(told)} of {self.count}, {dict(versions)}, {led} of objects that forward"


class Link:
    """A way to a port that loses: connections are cut after some octets, reset, or slow, by chance. Where long messages are
    to pass, some connections last longer."""

    def __init__(self, target: int, dice: random.Random, is_calm: bool = False, is_long: bool = False) -> None:
        self.target, self.dice, self.is_calm, self.is_long = target, dice, is_calm, is_long
        self.cuts = 0
        self.loop = asyncio.new_event_loop()
        self.thread = threading.Thread(target=self.run, daemon=True)
        self.is_ready = threading.Event()

    def run(self) -> None:
        asyncio.set_event_loop(self.loop)
        server = self.loop.run_until_complete(asyncio.start_server(self.serve, "127.0.0.1", 0))
        self.port = server.sockets[0].getsockname()[1]
        self.is_ready.set()
        self.loop.run_forever()
        server.close()
        for task in asyncio.all_tasks(self.loop):
            task.cancel()
        self.loop.run_until_complete(asyncio.sleep(0.01))
        self.loop.close()

    def __enter__(self) -> Link:
        self.thread.start()
        self.is_ready.wait(SECONDS)
        return self

    def __exit__(self, *_: object) -> None:
        self.loop.call_soon_threadsafe(self.loop.stop)
        self.thread.join(SECONDS)

    async def serve(self, reader: asyncio.StreamReader, writer: asyncio.StreamWriter) -> None:
        try:
            there, onward = await asyncio.open_connection("127.0.0.1", self.target)
        except OSError:
            writer.transport.abort()
            return
        most = 60_000 if self.dice.random() < 0.1 else 6_000
        if self.is_long and self.dice.random() < 0.4:
            most = 4_000_000
        left = [1 << 60 if self.is_calm else self.dice.randrange(most)]
        ways = [asyncio.ensure_future(self.hand_on(*way, left)) for way in ((reader, onward), (there, writer))]
        try:
            await asyncio.wait(ways, return_when=asyncio.FIRST_COMPLETED)
        finally:
            for way in ways:
                way.cancel()
            self.cuts += left[0] <= 0
            for one in (writer, onward):
                self.leave(one)

    def leave(self, one: asyncio.StreamWriter) -> None:
        """Closes an end, half of the time by a reset."""
        with contextlib.suppress(OSError):
            if self.dice.random() < 0.5:
                one.get_extra_info("socket").setsockopt(socket.SOL_SOCKET, socket.SO_LINGER, struct.pack("ii", 1, 0))
                one.transport.abort()
            one.close()

    async def hand_on(self, source: asyncio.StreamReader, sink: asyncio.StreamWriter, left: list[int]) -> None:
        with contextlib.suppress(OSError):
            while left[0] > 0:
                octets = await source.read(1 << 16)
                if not octets:
                    break
                if not self.is_calm and self.dice.random() < 0.05:
                    await asyncio.sleep(self.dice.random() * 0.02)
                sink.write(octets[:max(0, left[0])])
                left[0] -= len(octets)
                await sink.drain()


class World:
    """An unmodified client and server of omniORB, two relays between them, and a link between these."""

    def __init__(self, folder: str, dice: random.Random, *, store: str = "", is_calm: bool = True,
                 timeout: int = SECONDS, hops: tuple[str, ...] = (), is_published: bool = False, is_long: bool = False,
                 tls: Callable[[str], list[str]] = lambda role: []) -> None:
        self.retry_port = free_port()
        self.server = Server(folder, self.retry_port, hops)
        published = ["--published", f"127.0.0.1:{self.retry_port}"] if is_published else []
        self.guard = Relay("guard", "--server", f"127.0.0.1:{self.server.port}", "--timeout", str(timeout),
                           "--store", store or os.path.join(folder, "outcomes.sqlite"), *published, *tls("guard"))
        self.link = Link(self.guard.port, dice, is_calm, is_long)
        self.timeout, self.tls = timeout, tls
        self.stack = contextlib.ExitStack()

    def __enter__(self) -> World:
        self.stack.enter_context(self.link)
        self.retry = Relay("retry", "--guard", f"127.0.0.1:{self.link.port}", "--timeout", str(self.timeout),
                           *self.tls("retry"), port=self.retry_port)
        for life in (self.server, self.guard, self.retry):
            self.stack.enter_context(life)
            life.begin()
        return self

    def __exit__(self, *error: object) -> None:
        self.stack.__exit__(*error)

    def calls(self, name: str, count: int, threads: int = 1, kind: str = "0", version: str = "1.2") -> Calling:
        return Calling(self.server.reference, name, count, threads, kind, version)

    def arrive(self, count: int) -> None:
        """Waits until so many calls were performed: who calls one way may be gone before."""
        end = time.monotonic() + 20 * SECONDS
        while len(self.server.performed()) < count:
            if end < time.monotonic():
                raise AssertionError(f"{len(self.server.performed())} calls of {count} were performed")
            time.sleep(0.2)

    def settle(self) -> None:
        """Has both relays end what is under way."""
        for life in (self.retry, self.guard):
            if not life.died():
                life.end(signal.SIGTERM)


@contextlib.contextmanager
def world(dice: random.Random, **others: object) -> Iterator[World]:
    """Such a world in a folder of its own."""
    with tempfile.TemporaryDirectory(prefix="relay-") as folder, World(folder, dice, **others) as made:
        yield made


def judge(answers: dict[str, str], performed: collections.Counter, most_maybe: int = 0) -> collections.Counter:
    """Looks whether each call acted at most once, and whether what was told is true. Answers how often each was told."""
    told: collections.Counter = collections.Counter()
    twice = {token: count for token, count in performed.items() if count > 1}
    if twice:
        raise AssertionError(f"performed more than once: {twice}")
    for token, answer in answers.items():
        words = answer.split()
        if words[0] in ("returned", "refused"):
            is_true = performed[token] == 1 and (words[0] == "returned" or words[1] == token)
        else:
            is_true = words[1] == "MAYBE" or words[1] == "NO" and performed[token] == 0
        if not is_true:
            raise AssertionError(f"{token} was told {answer}, and performed {performed[token]} times")
        told[words[0] if words[0] in ("returned", "refused") else answer] += 1
    maybe = sum(count for words, count in told.items() if words.endswith("MAYBE"))
    if maybe > most_maybe:
        raise AssertionError(f"MAYBE was told {maybe} times, and at most {most_maybe} are explained: {told}")
    return told


def results_differ(answers: dict[str, str]) -> None:
    """Each call that returned has the result of no other."""
    results = [answer for answer in answers.values() if re.match(r"returned \d", answer)]
    if len(set(results)) != len(results):
        raise AssertionError("two calls were answered by one result")
