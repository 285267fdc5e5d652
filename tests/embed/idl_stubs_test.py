"""Tests what stands below the stubs and servants that omniidl makes of IDL in C, C++ and Rust, each by a program.

A oneway operation arrives, though nothing is called behind it; an address that says nothing is left for the next one.
"""
from __future__ import annotations

import asyncio
import contextlib
import functools
import os
import re
import shutil
import subprocess
import tempfile
import time
import unittest
from collections.abc import AsyncIterator, Callable
from typing import Any

from scripts import library
from tests import base
from tests.embed import idl_c_test, idl_roads, idl_rust_test, idl_test
from tests.embed.idl_test import EMBED, FOLDER, SECONDS, backend, compiled, lr, made
from tests.programs import ROOT, needs, tool

LOG = """
union Big switch (long) { case 1: long many[1000]; };
typedef sequence<Big> Bigs;
interface Log {
  oneway void note(in long n);
  long total();
  long keep(in Bigs some);
  Bigs kept();
};
"""


def idl_file() -> str:
    made("log", LOG)
    return os.path.join(FOLDER.name, "log.idl")


@functools.lru_cache(maxsize=None)
def in_c() -> list[str]:
    return idl_c_test.words_of("gcc", "stubs_c", os.path.join(EMBED, "idl_stubs.c"), idl_file())


@functools.lru_cache(maxsize=None)
def in_cpp() -> list[str]:
    backend(idl_file(), "cpp")
    return [compiled("g++", "stubs_cpp", os.path.join(EMBED, "idl_stubs.cpp"))]


@functools.lru_cache(maxsize=None)
def in_rust() -> list[str]:
    with open(os.path.join(EMBED, "idl_stubs.rs"), encoding="utf-8") as file:
        folder = idl_rust_test.KIT.package("stubs", file.read(), log=LOG)
    return [idl_rust_test.KIT.built(folder, "stubs")]


PROGRAMS: dict[str, Callable[[], list[str]]] = {"C": in_c, "C++": in_cpp, "Rust": in_rust}


class Log:
    """A servant in Python that keeps what was noted."""

    def __init__(self) -> None:
        self.notes: list[int] = []

    def note(self, n: int) -> None:
        self.notes.append(n)

    def total(self) -> int:
        return sum(self.notes)

    def keep(self, some: Any) -> int:
        return len(some)

    def kept(self) -> Any:
        return []


@contextlib.asynccontextmanager
async def logging(**options: Any) -> AsyncIterator[tuple[Log, lr.Server]]:
    """A servant, and the server that listens for it."""
    servant = type("Servant", (Log, made("log", LOG)._POA_Log), {})()
    async with lr.Server(**options) as server:
        idl_test.idl.add(server, "log", servant)
        await server.listen()
        yield servant, server


async def begun(program: list[str], *words: str) -> asyncio.subprocess.Process:
    """A run of a program."""
    return await asyncio.create_subprocess_exec(*program, *words, stdin=asyncio.subprocess.PIPE,
                                                stdout=asyncio.subprocess.PIPE)


async def said(program: list[str], *words: str) -> str:
    """What a program prints, which ends well."""
    process = await begun(program, *words)
    printed, _ = await asyncio.wait_for(process.communicate(), SECONDS)
    if process.returncode != 0:
        raise AssertionError(f"{words}: status {process.returncode}")
    return printed.decode().strip()


async def until(is_so: Callable[[], object]) -> bool:
    """Whether something becomes so within some seconds."""
    for _ in range(500):
        if is_so():
            return True
        await asyncio.sleep(0.01)
    return False


@needs("g++", "cargo", "cargo-clippy", "omniidl")
class Oneways(unittest.TestCase):
    """Calls without a reply."""

    @base.each(PROGRAMS.items)
    def test_last(self, program: Callable[[], list[str]]) -> None:
        """Three are the only calls, or the last ones, and the caller is closed: the servant gets all of them."""
        async def main() -> None:
            for others in ((), ("connected",)):
                async with logging() as (servant, server):
                    self.assertEqual(await said(program(), "notes", str(server.reference("log")), *others), "LR_OK")
                    await until(lambda: len(servant.notes) == 3)
                    self.assertEqual(servant.notes, [1, 2, 3])
        asyncio.run(main())

    @base.each(PROGRAMS.items)
    def test_server_is_gone(self, program: Callable[[], list[str]]) -> None:
        """The server ended its connection before the last one, which goes over a new one."""
        async def main() -> None:
            async with logging(idle_timeout=0.3) as (servant, server):
                process = await begun(program(), "later", str(server.reference("log")))
                assert process.stdout is not None
                self.assertEqual(await process.stdout.readline(), b"noted\n")
                self.assertTrue(await until(lambda: servant.notes == [1] and not server._connections))
                printed, _ = await asyncio.wait_for(process.communicate(b"\n"), SECONDS)
                self.assertEqual(printed, b"LR_OK\n")
                await until(lambda: len(servant.notes) == 2)
                self.assertEqual(servant.notes, [1, 2])
        asyncio.run(main())


ZERO = (lr.ReplyStatus.NO_EXCEPTION, lr.pack("l", 0))
# what is asked for, what the server before the other one answers, and how many seconds that takes at least
MUTES = {
    "the first one says nothing, by the patience": (["mute"], [idl_roads.MUTE], 1.9),
    ".. after it had answered on this connection": (["mute", "twice"], [ZERO, idl_roads.MUTE], 1.9),
    "the first one says nothing, by what is set": (["soon"], [idl_roads.MUTE], 0.19),
}


@needs("g++", "cargo", "cargo-clippy", "omniidl")
class Mute(unittest.TestCase):
    """Addresses that say nothing."""

    @base.each(MUTES.items)
    def test_left(self, given: tuple[list[str], list[idl_roads.Step], float]) -> None:
        """Such a one is left for the next one, under the same number."""
        words, steps, least = given

        async def main(program: list[str]) -> None:
            async with idl_roads.Bank() as bank:
                bank.server.add("log", "IDL:Log:1.0", {"total": ("", "l", bank.total)})
                reference = idl_roads.reference(await bank.before(*steps), bank.port, key="log")
                begin = time.monotonic()
                self.assertEqual(await said(program, words[0], str(reference), *words[1:]), "LR_OK")
                self.assertGreater(time.monotonic() - begin, least)
                self.assertEqual((len(bank.asked), len(bank.performed)), (len(steps), 1))
                self.assertEqual(bank.asked[-1], bank.performed[0])

        for name, program in PROGRAMS.items():
            with self.subTest(name):
                asyncio.run(main(program()))


# so many discriminators that select no member, each a value of 4,004 octets: a message of 1 MB, and one of 4 KB
MANY, SOME = 261000, 1000
# .. of which so many octets at most may be made, where that is said, and how much memory a process takes at most
LIMIT, MEMORY = 8 << 20, 64 << 20


def peak_of(process: int) -> int:
    """How many octets of memory a process has had at most."""
    with open(f"/proc/{process}/status", encoding="ascii") as file:
        return 1024 * int(next(line for line in file if line.startswith("VmHWM")).split()[1])


@needs("g++", "cargo", "cargo-clippy", "omniidl")
class Limited(unittest.TestCase):
    """Octets of which much more memory would be made than they are."""

    @base.each(PROGRAMS.items)
    def test_arguments(self, program: Callable[[], list[str]]) -> None:
        """They are answered MARSHAL, and little memory is taken; where more is allowed they are performed."""
        async def main() -> None:
            for words, wanted in (((), {1: 1, SOME: None, MANY: None}), ((str(LIMIT),), {SOME: SOME, MANY: None})):
                process = await begun(program(), "serve", *words)
                assert process.stdout is not None
                async with lr.Client.of((await process.stdout.readline()).decode().strip()) as client:
                    for count, answer in wanted.items():
                        body = lr.pack("[l]", [0] * count)
                        if answer is None:
                            with self.assertRaises(lr.SystemException) as caught:
                                await client.call_raw("log", "keep", body)
                            said = (caught.exception.name, caught.exception.completed)
                            self.assertEqual(said, ("MARSHAL", lr.Completed.NO))
                        else:
                            self.assertEqual((await client.call_raw("log", "keep", body)).unpack("l"), (answer,))
                    self.assertLess(peak_of(process.pid), MEMORY)
                process.kill()
                await process.wait()
        asyncio.run(main())

    @base.each(PROGRAMS.items)
    def test_results(self, program: Callable[[], list[str]]) -> None:
        """They are an error of the call."""
        async def main() -> None:
            async with lr.Server(limit=2 << 20) as server:
                counts = {"some": SOME, "many": MANY}
                for key, count in counts.items():
                    body = lr.pack("[l]", [0] * count)
                    server.add(key, (), {"kept": lambda _, body=body: lr.RawReply(body)})
                await server.listen()
                for key, limit, wanted in (("some", "0", "LR_E_VALUE"), ("some", str(LIMIT), "LR_OK"),
                                           ("many", "0", "LR_E_VALUE"), ("many", str(LIMIT), "LR_E_VALUE")):
                    printed = (await said(program(), "kept", str(server.reference(key)), limit)).split()
                    self.assertEqual(printed[-1], wanted)
                    self.assertLess(1024 * int(printed[0]), MEMORY)
        asyncio.run(main())


@needs("gcc", "g++", "omniidl")
class Versions(unittest.TestCase):
    """The version of the headers for which it was made."""

    @base.each(lambda: [(name, name) for name in ("gcc", "g++")])
    def test_bound(self, compiler: str) -> None:
        """What was made does not compile with headers of another series."""
        language, end = ("c", "h") if compiler == "gcc" else ("cpp", "hpp")
        backend(idl_file(), language)
        for minor, wanted in ((library.VERSION.split(".")[1], False), ("77", True)):
            with tempfile.TemporaryDirectory() as folder:
                include = os.path.join(folder, "include")
                shutil.copytree(os.path.join(ROOT, "embed", "include"), include)
                path = os.path.join(include, "lemonrudder.h")
                with open(path, encoding="ascii") as file:
                    text = re.sub(r"(#define LR_VERSION_MINOR) \d+", rf"\1 {minor}", file.read())
                with open(path, "w", encoding="ascii") as file:
                    file.write(text)
                words = [tool(compiler), f"-I{include}", "-fsyntax-only", os.path.join(FOLDER.name, f"log_idl.{end}")]
                ran = subprocess.run(words, capture_output=True, text=True, check=False)
                self.assertEqual("make it anew" in ran.stderr, wanted, ran.stderr)


if __name__ == "__main__":
    unittest.main()
