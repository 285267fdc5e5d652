"""Tests that what is made of IDL as systems have it speaks to omniORB: operations of omniORB's own files, and of random ones.

Each operation with types is called with random arguments, results and exceptions through a relay over omniORB, which
stands on what omniidl makes for it: by omniORB's stubs to our servants, and by ours to omniORB's. Relays of what is made
in C, C++ and Rust stand before and behind that one. A seed chooses some of omniORB's files; with ALL_FILES=1 in the
environment each language is given all.
"""
from __future__ import annotations

import asyncio
import atexit
import functools
import glob
import itertools
import os
import random
import sys
import tempfile
import unittest
from collections.abc import Callable, Iterable, Iterator
from typing import List, Optional

from tests import base
from tests.embed import idl_exchange, idl_exchange_rust, idl_files_test, idl_random
from tests.embed.idl_exchange import Declared, Exchange, OmniOrb, declared
from tests.embed.idl_files_test import ENDPOINT, FOLDERS, TWICE, omniidl, want_files
from tests.programs import needs

# how many files of omniORB a seed chooses, and for C++ and Rust, which compile slowly, and how many random ones it makes
FEW, FEWER, COUNT = 8, 1, 4
# omniORB has the interfaces of this one as local objects
LOCAL = "poa"
# what all files have: operations with types, and calls of them by results and by each exception
OPERATIONS, CALLS = 3293, 5929


class Made:
    """What is made of files, in Python and over omniORB."""

    def __init__(self, files: List[Declared], *folders: str) -> None:
        top = tempfile.TemporaryDirectory(prefix="idl_exchange")
        atexit.register(top.cleanup)
        self.files, self.name = files, os.path.basename(top.name)
        self.omniorb = OmniOrb(os.path.join(top.name, "omniorb"), files, *folders)
        python = os.path.join(top.name, "python")
        self.made = python
        ran = omniidl(self.omniorb.paths, python, "-Wbpartial,python,cpp,c,rust")
        if ran.returncode != 0:
            raise AssertionError(ran.stderr)
        sys.path.insert(0, python)

    @functools.cached_property
    def relay(self) -> List[str]:
        """The words that run the relay over omniORB."""
        return [self.omniorb.program(), *ENDPOINT]

    @functools.cached_property
    def in_cpp(self) -> List[str]:
        """.. and the one in C++."""
        return [idl_exchange.in_cpp(self.files, self.made, f"{self.name}_cpp")]

    @functools.cached_property
    def in_c(self) -> List[str]:
        """.. in C."""
        return [idl_exchange.in_c(self.files, self.made, f"{self.name}_c")]

    @functools.cached_property
    def in_rust(self) -> List[str]:
        """.. in Rust."""
        return [idl_exchange_rust.in_rust(self.files, self.made, f"{self.name}_rust")]


def with_operations(paths: Iterable[str]) -> Iterator[Declared]:
    """The files of these that the front end takes, and that have operations of remote objects."""
    for path in paths:
        for file in declared(idl_files_test.taken([path]), *FOLDERS):
            if file.here and file.base != LOCAL:
                yield file


def chosen(count: int = FEW) -> Optional[int]:
    """How many files of omniORB are chosen, where that is not all: None."""
    return None if os.environ.get("ALL_FILES") else count


@functools.lru_cache(maxsize=None)
def of_omniorb(seed: int, count: Optional[int]) -> List[Made]:
    """So many files of omniORB, or all, a few together; what another one has too is made apart."""
    want_files()
    paths = [path for folder in FOLDERS for path in sorted(glob.glob(os.path.join(folder, "*.idl")))]
    random.Random(seed).shuffle(paths)
    some = list(itertools.islice(with_operations(paths), count))
    parts = [[file for file in some if (f"{file.base}.idl" == TWICE) == is_twice] for is_twice in (False, True)]
    return [Made(part[at:at + FEW], *FOLDERS) for part in parts for at in range(0, len(part), FEW)]


@functools.lru_cache(maxsize=None)
def of_random(seed: int) -> List[Made]:
    """Random files."""
    top = tempfile.TemporaryDirectory(prefix="idl_random")
    atexit.register(top.cleanup)
    paths = idl_random.written(idl_random.random_files(seed, COUNT, is_tame=True), top.name)
    return [Made(declared(paths, top.name), top.name)]


@needs("omniidl", "g++")
class Python(unittest.TestCase):
    """Servants and stubs in Python."""

    def exchanged(self, made: List[Made], seed: int) -> List[Exchange]:
        found = []
        for one in made:
            found.append(Exchange(self, one.files, seed))
            asyncio.run(found[-1].through(one.relay))
        return found

    @base.each_seed(1, 1)
    def test_files(self, seed: int) -> None:
        """Operations of omniORB's files."""
        found = self.exchanged(of_omniorb(seed, chosen()), seed)
        if chosen() is None:
            counts = sum(one.operations for one in found), sum(one.calls for one in found)
            self.assertEqual(counts, (OPERATIONS, CALLS))

    @base.each_seed(1, 1)
    def test_random(self, seed: int) -> None:
        """Operations of random files."""
        self.exchanged(of_random(seed), seed)


@needs("omniidl", "g++", "gcc")
class Relays(unittest.TestCase):
    """Servants and stubs in C, C++ and Rust."""

    @base.each_seed(1, 1)
    def test_c(self, seed: int) -> None:
        """In C: operations of omniORB's files, before and behind omniORB."""
        self.exchanged(of_omniorb(seed, chosen()), seed, lambda made: made.in_c)

    @base.each_seed(1, 1)
    def test_cpp(self, seed: int) -> None:
        """In C++, likewise."""
        self.exchanged(of_omniorb(seed, chosen(FEWER)), seed, lambda made: made.in_cpp)

    @needs("cargo")
    @base.each_seed(1, 1)
    def test_rust(self, seed: int) -> None:
        """In Rust, likewise."""
        self.exchanged(of_omniorb(seed, chosen(FEWER)), seed, lambda made: made.in_rust)

    def exchanged(self, some: List[Made], seed: int, program: Callable[[Made], List[str]]) -> None:
        for made in some:
            for relays in ((made.relay, program(made)), (program(made), made.relay)):
                asyncio.run(Exchange(self, made.files, seed).through(*relays))


if __name__ == "__main__":
    unittest.main()
