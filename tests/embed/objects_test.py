"""Tests objects that come and go while they are called, by the loops in C and C++, and by what is made of IDL.

What is under way on an object that is taken away ends by its own outcome, and is performed once.
"""
from __future__ import annotations

import asyncio
import contextlib
import functools
import os
import unittest
from collections.abc import Callable

from tests import base
from tests.embed.durable import ENDLESS, located
from tests.embed import idl_rust_test
from tests.embed.idl_test import EMBED, EXAMPLES, FOLDER, SECONDS, backend, compiled, lr, made, serving
from tests.giop_peers import until
from tests.programs import needs

SANITIZED = ["-g", "-fsanitize=address,undefined", "-fno-sanitize-recover=all", "-pthread"]


def in_c(loop: str) -> str:
    sources = [os.path.join(EMBED, "taken_away.c"), os.path.join(EXAMPLES, loop)]
    return compiled("gcc", f"taken_away_{loop}", *sources, flags=[f"-I{EXAMPLES}", *SANITIZED])


def in_cpp(*flags: str) -> str:
    source = os.path.join(EMBED, "taken_away.cpp")
    return compiled("g++", f"taken_away_cpp{len(flags)}", source, flags=[*SANITIZED, *flags])


PROGRAMS: dict[str, Callable[[], str]] = {
    "C": functools.partial(in_c, "loop.c"),
    "C by threads": functools.partial(in_c, "loop_threads.c"),
    "C++": in_cpp, "C++ by poll()": functools.partial(in_cpp, "-DLEMONRUDDER_LOOP_POLL"),
}


async def refused(client: lr.Client, operation: str, results: str) -> tuple[str, lr.Completed]:
    """The exception that a call of an object is answered."""
    try:
        raise AssertionError(await client.call("one", operation, results=results))
    except lr.SystemException as error:
        return error.name, error.completed


async def taken_away(test: unittest.TestCase, host: str, port: int) -> None:
    async with contextlib.AsyncExitStack() as stack:
        caller, other = [await stack.enter_async_context(lr.Client(host, port)) for _ in range(2)]
        slow = asyncio.ensure_future(caller.recall(1, "one", "slow", results="l", expiration=ENDLESS))
        await asyncio.sleep(0)
        test.assertEqual(await caller.call("one", "now", results="l"), 7)
        # it takes itself away, and answers all the same
        test.assertEqual(await other.call("one", "bye", results="l"), 7)
        for operation, results in (("now", "l"), ("slow", "l"), ("_non_existent", "?")):
            test.assertEqual(await refused(other, operation, results), ("OBJECT_NOT_EXIST", lr.Completed.NO))
        test.assertFalse(slow.done())
        # what is under way ends by its outcome, which a repeat gets
        await other.call("desk", "release", results="l")
        test.assertEqual(await asyncio.wait_for(slow, SECONDS), 5)
        again = await stack.enter_async_context(lr.Client(host, port, caller.client_id))
        test.assertEqual(await again.recall(1, "one", "slow", results="l", expiration=ENDLESS), 5)
        test.assertEqual(await other.call("desk", "count", results="l"), 1)
        test.assertEqual(await refused(other, "now", "l"), ("OBJECT_NOT_EXIST", lr.Completed.NO))
        test.assertEqual(located(port, b"one"), lr.LocateStatus.UNKNOWN_OBJECT)
        # .. also where there is another one of its key
        await other.call("desk", "make", results="l")
        # (which is made behind the answer, by whichever thread)
        until(lambda: located(port, b"one") == lr.LocateStatus.OBJECT_HERE, "it is there")
        test.assertEqual(await other.call("one", "now", results="l"), 7)
        last = await stack.enter_async_context(lr.Client(host, port, caller.client_id))
        test.assertEqual(await last.recall(1, "one", "slow", results="l", expiration=ENDLESS), 5)


@needs("g++")
class TakenAway(unittest.TestCase):
    """Objects that are taken away while they are called."""

    @base.each(PROGRAMS.items)
    def test_under_way(self, program: Callable[[], str]) -> None:
        """Who asks from then on hears OBJECT_NOT_EXIST; what is parked ends by its outcome, which is kept."""
        with serving(program()) as reference:
            address = lr.Ior.parse(reference).addresses[0]
            asyncio.run(taken_away(self, address.host, address.port))


MARKET = """
interface Session { long more(); long bye(); };
interface Market { Session login(in boolean is_of_family); };
"""


def market_in_cpp() -> list[str]:
    made("market", MARKET)
    backend(os.path.join(FOLDER.name, "market.idl"), "cpp")
    return [compiled("g++", "market", os.path.join(EMBED, "market.cpp"), flags=SANITIZED)]


def market_in_rust() -> list[str]:
    with open(os.path.join(EMBED, "market.rs"), encoding="utf-8") as file:
        folder = idl_rust_test.KIT.package("market", file.read(), market=MARKET)
    return [idl_rust_test.KIT.built(folder, "market")]


async def came_and_went(test: unittest.TestCase, client: lr.Client, is_of_family: bool) -> None:
    """A session that a factory makes, and that ends itself."""
    ior = lr.Ior.of_value(await client.call("market", "login", "?", (is_of_family,), lr.REFERENCE))
    key = ior.addresses[0].key
    test.assertEqual([await client.call(key, "more", results="l") for _ in range(2)], [1, 2])
    test.assertTrue(await client.call(key, "_is_a", "s", ("IDL:Session:1.0",), "?"))
    test.assertFalse(await client.call(key, "_non_existent", results="?"))
    test.assertEqual(await client.call(key, "bye", results="l"), 2)
    calls = {"more": ("", (), "l"), "_is_a": ("s", ("IDL:Session:1.0",), "?"), "_non_existent": ("", (), "?")}
    for gone in (key, key + b"0"):
        for name, (types, values, results) in calls.items():
            with test.subTest(name), test.assertRaises(lr.SystemException) as caught:
                test.fail(await client.call(gone, name, types, values, results))
            test.assertEqual((caught.exception.name, caught.exception.completed), ("OBJECT_NOT_EXIST", lr.Completed.NO))
        test.assertTrue(await made("market", MARKET).Session(client, gone)._non_existent())


@needs("g++", "cargo", "cargo-clippy", "omniidl")
class ByIdl(unittest.TestCase):
    """Objects that come and go, by what is made of IDL."""

    @base.each({"C++": market_in_cpp, "Rust": market_in_rust}.items)
    def test_sessions(self, program: Callable[[], list[str]]) -> None:
        """A factory makes an object while the server serves, by itself or of a family; it is called, and ends itself."""
        async def main() -> None:
            process = await asyncio.create_subprocess_exec(*program(), stdout=asyncio.subprocess.PIPE)
            assert process.stdout is not None
            reference = (await process.stdout.readline()).decode().strip()
            async with lr.Client.of(reference) as client:
                for is_of_family in (False, True, False):
                    await came_and_went(self, client, is_of_family)
            # (a LocateRequest is answered of a family as a whole)
            for key, status in ((b"one/1", lr.LocateStatus.UNKNOWN_OBJECT), (b"family/2", lr.LocateStatus.OBJECT_HERE)):
                self.assertEqual(located(lr.Ior.parse(reference).addresses[0].port, key), status)
            if process.returncode is None:
                process.terminate()
            await process.wait()
        asyncio.run(main())


if __name__ == "__main__":
    unittest.main()
