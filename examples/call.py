#!/usr/bin/env python3
"""Calls an operation of an object, by one client or by several at once, and prints the result of each.

usage: call.py [-n CLIENTS] REFERENCE OPERATION ARGUMENTS RESULTS [VALUE ..]

ARGUMENTS and RESULTS are formats of the package lemonrudder, and values are written as in Python, but that texts need
no quotes: of a bank (bank.idl)

    call.py -n 50 IOR:.. deposit sq q alice 5
"""
import argparse
import ast
import asyncio
import os
import sys
from typing import Any, List

sys.path.insert(0, os.path.join(os.path.dirname(os.path.abspath(__file__)), "..", "bindings", "python"))

from lemonrudder import Client  # noqa: E402


def value_of(text: str) -> Any:
    """A value that is written as in Python, or else a text."""
    try:
        return ast.literal_eval(text)
    except (SyntaxError, ValueError):
        return text


async def called(words: argparse.Namespace) -> Any:
    """The result of a call by a client of its own. Raises what Client.call does."""
    async with Client.of(words.reference) as client:
        return await client.call(client.key, words.operation, words.arguments, [*map(value_of, words.values)],
                                 words.results)


async def all_called(words: argparse.Namespace) -> List[Any]:
    """The results of all clients, or what was raised in place of each."""
    return await asyncio.gather(*(called(words) for _ in range(words.clients)), return_exceptions=True)


if __name__ == "__main__":
    parser = argparse.ArgumentParser(usage=__doc__.split("\n")[2][len("usage: "):])
    parser.add_argument("-n", dest="clients", type=int, default=1)
    for name in ("reference", "operation", "arguments", "results"):
        parser.add_argument(name)
    parser.add_argument("values", nargs=argparse.REMAINDER)
    results = asyncio.run(all_called(parser.parse_args()))
    for result in results:
        print(repr(result))
    sys.exit(any(isinstance(result, Exception) for result in results))
