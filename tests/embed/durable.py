"""The banks of examples/bank_durable.*, their databases, and clients whose connections are cut, for durable_test.py."""
from __future__ import annotations

import asyncio
import contextlib
import functools
import glob
import os
import random
import resource
import shutil
import signal
import socket
import subprocess
import sys
import tempfile
import time
import unittest
from collections.abc import AsyncIterator, Callable, Iterator

from tests.embed import rust_test
from tests.programs import NEEDS, ROOT, library, tool

if "LEMONRUDDER_LIBRARY" not in os.environ:
    os.environ["LEMONRUDDER_LIBRARY"] = os.path.join(library(), "lib", "liblemonrudder.so")
sys.path.insert(0, os.path.join(ROOT, "bindings", "python"))

import lemonrudder as lr  # noqa: E402

EXAMPLES, EMBED = os.path.join(ROOT, "examples"), os.path.join(ROOT, "tests", "embed")
LANGUAGES = ("c", "cpp", "rs", "py")
KEY, OVERDRAWN = b"bank", "IDL:Bank/Overdrawn:1.0"
# how long a call, or what is waited for, may take on a busy machine
SECONDS = 300
# an expiration that is never past
ENDLESS = (1 << 64) - 1
# a program in Python whose clock is wrong by so many seconds, and a library that makes that of a program in C so
LATE_PYTHON = "import runpy, sys, time; real, late = time.time_ns, int(sys.argv[1]) * 10**9; " \
    "time.time_ns = lambda: real() + late; sys.argv = sys.argv[2:]; runpy.run_path(sys.argv[0], run_name='__main__')"
LATE_C = r"""
#define _GNU_SOURCE
#include <dlfcn.h>
#include <stdlib.h>
#include <time.h>
int clock_gettime(clockid_t clock, struct timespec *time) {
  static int (*real)(clockid_t, struct timespec *);
  if (real == NULL) *(void **)&real = dlsym(RTLD_NEXT, "clock_gettime");
  int done = real(clock, time);
  if (clock == CLOCK_REALTIME) time->tv_sec += atoi(getenv("LATE"));
  return done;
}
"""


def free_port() -> int:
    with socket.create_server(("127.0.0.1", 0)) as listener:
        return listener.getsockname()[1]


def until(is_so: Callable[[], object], what: str) -> None:
    """Waits until something is so."""
    end = time.monotonic() + SECONDS
    while not is_so():
        if time.monotonic() > end:
            raise AssertionError(f"never: {what}")
        time.sleep(0.01)


def compiled(folder: str, *words: str, compiler: tuple[str, ...] = ("cc", "-std=c99")) -> None:
    ran = subprocess.run([*compiler, "-O1", "-Wall", "-Wextra", "-Wpedantic", "-Wshadow", "-Werror", *words],
                         cwd=folder, capture_output=True, text=True, check=False)
    if ran.returncode != 0:
        raise AssertionError(ran.stderr)


def flags_of(package: str, debian: str) -> list[str]:
    """The words that compile and link a program with a package. Skips the test where it is missing."""
    tool("cc")
    found = subprocess.run([tool("pkg-config"), "--cflags", "--libs", package], capture_output=True, text=True,
                           check=False)
    if found.returncode != 0:
        raise unittest.SkipTest(NEEDS + debian)
    return found.stdout.split()


@functools.lru_cache(maxsize=None)
def late_clock() -> str:
    """The library that makes a clock wrong."""
    folder = tempfile.mkdtemp(prefix="durable-")
    os.chmod(folder, 0o755)
    tool("cc")
    with open(os.path.join(folder, "late.c"), "w", encoding="ascii") as file:
        file.write(LATE_C)
    compiled(folder, "late.c", "-shared", "-fPIC", "-o", "late.so", "-ldl")
    return os.path.join(folder, "late.so")


def of_store(kind: str) -> str:
    """The source by which programs in C and C++ keep outcomes in a kind of database, as it is installed."""
    return os.path.join(library(), "share", "lemonrudder", f"lemonrudder_store_{kind}.c")


@functools.lru_cache(maxsize=None)
def made(language: str, is_postgres: bool) -> str:
    """The bank in C, C++ or Rust."""
    folder = tempfile.mkdtemp(prefix="durable-")
    os.chmod(folder, 0o755)
    flags = flags_of("sqlite3", "libsqlite3-dev")
    if language == "rs":
        return made_of_rust(folder)
    sources = ["bank_sqlite.c"] if language == "cpp" else ["bank_durable.c", "bank_sqlite.c", "loop.c"]
    kinds = ["sqlite"]
    if is_postgres:
        flags = [*flags, "-DBANK_POSTGRES", *flags_of("libpq", "libpq-dev")]
        sources.append("bank_postgres.c")
        kinds.append("postgres")
    lib, paths = library(), [os.path.join(EXAMPLES, name) for name in sources]
    paths += [of_store(kind) for kind in kinds]
    linked = [f"-I{lib}/include", f"{lib}/lib/liblemonrudder.a", *flags, "-pthread"]
    if language == "c":
        compiled(folder, *paths, *linked, "-o", "bank")
    else:
        compiled(folder, f"-I{lib}/include", *flags, "-c", *paths)
        objects = [os.path.basename(name).replace(".c", ".o") for name in paths]
        compiled(folder, os.path.join(EXAMPLES, "bank_durable.cpp"), *objects, *linked, "-o", "bank",
                 compiler=(tool("g++"), "-std=c++17"))
    return os.path.join(folder, "bank")


def made_of_rust(folder: str, change: Callable[[str], None] = lambda there: None) -> str:
    """The bank in Rust, over the crates that Debian packages; its copy is changed first."""
    for name in ("tokio", "rusqlite"):
        if not glob.glob(os.path.join(rust_test.REGISTRY, f"{name}-[0-9]*")):
            raise unittest.SkipTest(f"{NEEDS}librust-{name}-dev")
    tool("cargo")
    program = rust_test.package("durable", folder, os.path.join(library(), "lib"), *rust_test.OF_REGISTRY,
                                change=change)
    return shutil.copy(program, os.path.join(folder, "bank"))


@functools.lru_cache(maxsize=None)
def losing(language: str) -> str:
    """The bank in C, C++ or Rust over a SQLite file, by a store that loses the answer to a COMMIT."""
    folder = tempfile.mkdtemp(prefix="durable-")
    flags = flags_of("sqlite3", "libsqlite3-dev")
    if language == "rs":
        def model(there: str) -> None:
            os.rename(os.path.join(there, "src", "store.rs"), os.path.join(there, "src", "kept.rs"))
            shutil.copy(os.path.join(EMBED, "lost.rs"), os.path.join(there, "src", "store.rs"))
        return made_of_rust(folder, model)
    lib, sqlite = library(), os.path.join(EXAMPLES, "bank_sqlite.c")
    compiled(folder, f"-I{lib}/include", *flags, "-Dbank_sqlite=bank_real", "-c", sqlite, of_store("sqlite"))
    sources = [os.path.join(EMBED, "lost.c")]
    sources += [os.path.join(EXAMPLES, name) for name in ("loop.c", "bank_durable.c")[:2 if language == "c" else 0]]
    compiled(folder, f"-I{lib}/include", f"-I{EXAMPLES}", *flags, "-c", *sources)
    objects = sorted(glob.glob(os.path.join(folder, "*.o")))
    main = [] if language == "c" else [os.path.join(EXAMPLES, "bank_durable.cpp")]
    compiled(folder, *main, *objects, f"-I{lib}/include", f"{lib}/lib/liblemonrudder.a", *flags, "-pthread", "-o", "bank",
             compiler=(tool("g++"), "-std=c++17"))
    return os.path.join(folder, "bank")


@functools.lru_cache(maxsize=None)
def python_with(module: str) -> str:
    """A Python that has a module. Skips the test where none has."""
    for python in (sys.executable, "/usr/bin/python3"):
        if shutil.which(python) and subprocess.run([python, "-c", f"import {module}"], capture_output=True,
                                                   check=False).returncode == 0:
            return python
    raise unittest.SkipTest(f"{NEEDS}the module {module}")


class Bank:
    """A bank in a language, of `LANGUAGES`, over a store: at a port of its own, in one life after another."""

    def __init__(self, language: str, store: str, program: str = "") -> None:
        self.language, self.store, self.port = language, store, free_port()
        is_postgres = store.startswith("postgres")
        if program:
            self.program = program
        elif language == "py":
            self.python = python_with("asyncpg" if is_postgres else "sqlite3")
        else:
            self.program = made(language, is_postgres)
        self.process: subprocess.Popen | None = None
        self.errors = tempfile.TemporaryFile("w+")

    def words(self, purge: int, late: int) -> list[str]:
        """The words that begin a life."""
        if self.language != "py":
            return [self.program, self.store, "127.0.0.1", str(self.port), str(purge)]
        begin = [os.path.join(EXAMPLES, "bank_durable.py")]
        begin = ["-c", LATE_PYTHON, str(late), *begin] if late else begin
        return [self.python, *begin, "--store", self.store, "--port", str(self.port), "--purge", str(purge)]

    def begin(self, dies_at: str = "", *, purge: int = 3600, late: int = 0, file_limit: int = 0,
              as_other: bool = False) -> None:
        """Begins a life, whose clock is wrong by so many seconds, whose files have so many octets at most, or as another
        user."""
        env = {**os.environ, "BANK_DIES_AT": dies_at, "LATE": str(late)}
        if late and self.language != "py":
            env["LD_PRELOAD"] = late_clock()

        def limit() -> None:
            if file_limit:
                signal.signal(signal.SIGXFSZ, signal.SIG_IGN)
                resource.setrlimit(resource.RLIMIT_FSIZE, (file_limit, file_limit))
            if as_other:
                os.setgid(65534)
                os.setuid(65534)

        self.process = subprocess.Popen(self.words(purge, late), stdin=subprocess.DEVNULL, stdout=subprocess.PIPE,
                                        stderr=self.errors, text=True, env=env,
                                        preexec_fn=limit if file_limit or as_other else None)
        if not self.process.stdout.readline().startswith("IOR:"):
            raise AssertionError(f"the bank did not begin: {self.said()}")

    def said(self) -> list[str]:
        """The lines that it has said of errors, in all its lives."""
        self.errors.seek(0)
        return self.errors.read().splitlines()

    def tell(self, number: int) -> None:
        self.process.send_signal(number)

    def end(self, number: int = signal.SIGKILL) -> int:
        """Ends a life, and answers its status."""
        if self.process is None:
            return 0
        with self.process:
            if self.process.poll() is None:
                self.process.send_signal(number)
            return self.process.wait(SECONDS)

    def died(self) -> bool:
        """Whether the life has ended by itself."""
        return self.process.poll() is not None

    def __enter__(self) -> Bank:
        return self

    def __exit__(self, *error: object) -> None:
        if self.process is not None and self.process.poll() is None:
            self.process.send_signal(signal.SIGCONT)
        self.end()
        if error[0] is not None:
            print(f"{self.language}: it said {self.said()}")
        self.errors.close()


class Postgres:
    """A PostgreSQL of its own, in a folder of its own."""

    def __init__(self) -> None:
        found = shutil.which("initdb") or next(iter(sorted(glob.glob("/usr/lib/postgresql/*/bin/initdb"))[::-1]), None)
        if found is None:
            raise unittest.SkipTest(NEEDS + "postgresql")
        self.bin, self.port = os.path.dirname(os.path.realpath(found)), free_port()
        self.folder = tempfile.mkdtemp(prefix="durable-pg-")
        self.begin: list[str] = []
        if os.geteuid() == 0:
            # (it does not run as root)
            if shutil.which("runuser") is None:
                raise unittest.SkipTest(NEEDS + "runuser")
            shutil.chown(self.folder, "postgres")
            self.begin = ["runuser", "-u", "postgres", "--"]
        self.run("initdb", "-D", f"{self.folder}/data", "-A", "trust", "-U", "postgres", "-N")
        self.start()

    @property
    def address(self) -> str:
        return f"postgres://postgres@127.0.0.1:{self.port}/postgres"

    def run(self, program: str, *words: str) -> None:
        ran = subprocess.run([*self.begin, os.path.join(self.bin, program), *words], cwd="/", stdin=subprocess.DEVNULL,
                             stdout=subprocess.PIPE, stderr=subprocess.STDOUT, text=True, timeout=SECONDS, check=False)
        if ran.returncode != 0:
            raise AssertionError(f"{program} {words}: {ran.stdout}")

    def start(self) -> None:
        options = f"-p {self.port} -c listen_addresses=127.0.0.1 -c unix_socket_directories= -c deadlock_timeout=100ms"
        self.run("pg_ctl", "-D", f"{self.folder}/data", "-l", f"{self.folder}/log", "-o", options, "-w", "start")

    def stop(self, how: str = "immediate") -> None:
        """Stops it: at once, as by a crash."""
        self.run("pg_ctl", "-D", f"{self.folder}/data", "-m", how, "-w", "stop")

    def asked(self, words: str) -> str:
        """What psql prints."""
        ran = subprocess.run([os.path.join(self.bin, "psql"), "-Atqc", words, self.address], capture_output=True,
                             text=True, timeout=SECONDS, check=True,
                             env={**os.environ, "PGOPTIONS": "-c default_transaction_read_only=off"})
        return ran.stdout.strip()

    @contextlib.contextmanager
    def session(self) -> Iterator[Callable[[str], None]]:
        """What runs statements in a session, and returns once they are done."""
        with subprocess.Popen([os.path.join(self.bin, "psql"), "-Atqn", self.address], stdin=subprocess.PIPE,
                              stdout=subprocess.PIPE, text=True) as psql:
            def say(words: str) -> None:
                psql.stdin.write(f"{words};\n\\echo done\n")
                psql.stdin.flush()
                while psql.stdout.readline() != "done\n":
                    if psql.poll() is not None:
                        raise AssertionError(f"psql: {words}")

            yield say
            psql.stdin.close()

    def who_wait(self) -> int:
        """How many sessions wait for a lock."""
        return int(self.asked("SELECT count(*) FROM pg_stat_activity WHERE wait_event_type = 'Lock'"))

    def close(self) -> None:
        with contextlib.suppress(AssertionError):
            self.stop()
        shutil.rmtree(self.folder, ignore_errors=True)


class Relay:
    """A way to a port, whose connections are cut by chance: after some octets, in either direction."""

    def __init__(self, port: int, dice: random.Random) -> None:
        self.target, self.dice, self.is_calm = port, dice, False

    async def __aenter__(self) -> Relay:
        self._server = await asyncio.start_server(self._serve, "127.0.0.1", 0)
        self.port = self._server.sockets[0].getsockname()[1]
        return self

    async def __aexit__(self, *error: object) -> None:
        self._server.close()

    async def _serve(self, reader: asyncio.StreamReader, writer: asyncio.StreamWriter) -> None:
        try:
            there, onward = await asyncio.open_connection("127.0.0.1", self.target)
        except OSError:
            writer.transport.abort()
            return
        left = [1 << 60 if self.is_calm or self.dice.random() < 0.5 else self.dice.randrange(3000)]

        async def hand_on(source: asyncio.StreamReader, sink: asyncio.StreamWriter) -> None:
            with contextlib.suppress(OSError):
                while left[0] > 0:
                    octets = await source.read(4096)
                    if not octets:
                        break
                    sink.write(octets[: left[0]])
                    left[0] -= len(octets)
                    await sink.drain()

        ways = [asyncio.ensure_future(hand_on(*way)) for way in ((reader, onward), (there, writer))]
        try:
            await asyncio.wait(ways, return_when=asyncio.FIRST_COMPLETED)
        finally:
            for way in ways:
                way.cancel()
            for one in (writer, onward):
                one.transport.abort()


class Caller:
    """A client with an account of its own, and one that it shares: it knows what each call has to answer, and whether
    the answer is the same when it is sent again."""

    def __init__(self, name: str, ports: list[int], dice: random.Random, shared: str = "shared") -> None:
        self.name, self.ports, self.dice, self.shared = name, ports, dice, shared
        self.client = self.anew()
        self.balance = 0
        # of each call its number, account, amount, expiration and answer
        self.calls: list[tuple] = []
        self.shares: list[int] = []

    def anew(self) -> lr.Client:
        """A client of this id."""
        first, *others = self.ports
        return lr.Client("127.0.0.1", first, self.name, others=[("127.0.0.1", one) for one in others],
                         delays=(0.005, 0.1))

    async def asked(self, client: lr.Client, number: int, account: str, cents: int, expiration: int) -> object:
        """What a call answers, or a repeat of it: a balance, or Overdrawn with one."""
        try:
            return await client.recall(number, KEY, "deposit", "sq", (account, cents), "q", {OVERDRAWN: "q"},
                                       expiration=expiration)
        except lr.UserException as error:
            return error.id, error.values

    async def call(self, expiration: int | None = None) -> None:
        """Makes the next call."""
        is_shared = self.dice.random() < 0.3
        cents = 1 if is_shared else self.dice.randrange(-60, 100)
        account, number = self.shared if is_shared else self.name, len(self.calls) + 1
        expiration = lr.now() + SECONDS * 10**7 if expiration is None else expiration
        answer = await self.asked(self.client, number, account, cents, expiration)
        self.calls.append((number, account, cents, expiration, answer))
        if is_shared:
            self.shares.append(answer)
            return
        is_overdrawn = self.balance + cents < 0
        self.balance += 0 if is_overdrawn else cents
        want = (OVERDRAWN, (self.balance,)) if is_overdrawn else self.balance
        if answer != want:
            raise AssertionError(f"{self.name}: call {number} of {cents} answered {answer}, and not {want}")

    async def repeat(self) -> None:
        """Sends each call again, by a client that knows of none."""
        client = self.anew()
        for number, account, cents, expiration, answer in self.calls:
            again = await self.asked(client, number, account, cents, expiration)
            if again != answer:
                raise AssertionError(f"{self.name}: call {number} answered {answer}, and then {again}")
        await client.close()
        await self.client.close()


async def balance_of(port: int, account: str) -> int:
    """The balance of an account."""
    client = lr.Client("127.0.0.1", port, delays=(0.005, 0.1))
    try:
        return await client.call(KEY, "balance", "s", (account,), "q", expiration=ENDLESS)
    finally:
        await client.close()


def located(port: int, key: bytes) -> lr.LocateStatus:
    """What a LocateRequest of a key is answered."""
    octets = b""
    with socket.create_connection(("127.0.0.1", port)) as peer:
        peer.sendall(lr.write_locate_request(1, key))
        while len(octets) < 20:
            octets += peer.recv(20 - len(octets)) or b"\xff" * 20
    # (CORBA 3.3 Part 2, 9.4.1 and 9.4.6: the message's order, and the status behind the request id)
    return lr.LocateStatus(int.from_bytes(octets[16:20], "little" if octets[6] & 1 else "big"))


async def judge(callers: list[Caller], ports: list[int]) -> int:
    """Sends each call again at each port, and looks at the accounts. Answers how many calls there were."""
    for caller in callers:
        for ports_now in [[port] for port in ports]:
            caller.ports = ports_now
            await caller.repeat()
        if caller.calls and await balance_of(ports[0], caller.name) != caller.balance:
            raise AssertionError(f"{caller.name} has not what it deposited")
    shares = sorted(share for caller in callers for share in caller.shares)
    if shares != list(range(1, len(shares) + 1)):
        raise AssertionError(f"the shared account answered {shares}")
    if shares and await balance_of(ports[0], callers[0].shared) != len(shares):
        raise AssertionError("the shared account has not what was deposited")
    return sum(len(caller.calls) for caller in callers)


@contextlib.asynccontextmanager
async def callers_of(banks: list[Bank], count: int, dice: random.Random, name: str) -> AsyncIterator[tuple]:
    """Clients of banks, over ways that are cut."""
    async with contextlib.AsyncExitStack() as stack:
        relays = [await stack.enter_async_context(Relay(bank.port, dice)) for bank in banks]
        ports = [relay.port for relay in relays]
        turned = [ports[at:] + ports[:at] for at in range(len(ports))]
        callers = [Caller(f"{name}{number}", turned[number % len(turned)], dice, f"{name} all")
                   for number in range(count)]
        yield callers, relays


def folders() -> Iterator[str]:
    """A folder of its own."""
    with tempfile.TemporaryDirectory() as folder:
        os.chmod(folder, 0o755)
        yield folder


def python_for_all() -> str:
    """A Python that another user may run. Skips the test where there is none."""
    if not os.path.exists("/usr/bin/python3"):
        raise unittest.SkipTest(NEEDS + "/usr/bin/python3")
    return "/usr/bin/python3"
