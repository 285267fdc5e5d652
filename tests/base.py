"""What the modules of tests share: tests of many parts, random tests by seed, and runs of a program."""
from __future__ import annotations

import functools
import os
import re
import subprocess
import unittest
from collections.abc import Callable, Iterable
from concurrent.futures import ThreadPoolExecutor
from typing import Tuple

# (tracebacks leave out the frames of this module)
__unittest = True
# how many seconds a run of a program may take
SECONDS = 60
# what `./test -k` chose, or None: a test that has it in its name is run whole, of any other test the parts that have it
WORD: str | None = None
# which share of the parts is run, and of how many: (0, 1) is all
SHARE: tuple[int, int] = (0, 1)
# the first seed of the random tests, where it is not their own
FIRST_SEED: int | None = None

# a part of a test: its name, and what the test takes
Part = Tuple[str, object]


def chosen(test: str, parts: Iterable[Part]) -> list[Part]:
    """The parts of a test that are run."""
    return [part for part in parts if WORD is None or WORD in test or WORD in part[0]]


def ended(judge: Callable, test: unittest.TestCase, given: object) -> Exception | None:
    """What a part of a test ended with."""
    try:
        judge(test, given)
    except Exception as fault:
        return fault
    return None


def each(parts: Callable[[], Iterable[Part]], at_once: int = 1) -> Callable:
    """Makes a test of what judges one part: each part is a subtest, so many at once. A test without parts fails."""

    def made(judge: Callable) -> Callable:
        @functools.wraps(judge)
        def test(self: unittest.TestCase) -> None:
            some = chosen(self.id(), parts())
            self.assertTrue(some, "it has no part")
            some = some[SHARE[0]::SHARE[1]]
            with ThreadPoolExecutor(at_once) as pool:
                for (name, _), fault in zip(some, pool.map(lambda part: ended(judge, self, part[1]), some)):
                    with self.subTest(name):
                        if fault is not None:
                            raise fault
        test.parts = parts
        return test
    return made


def seeds(first: int, count: int) -> list[Part]:
    """The seeds of a random test: so many from the first on, or the one that the environment has in SEED."""
    if os.environ.get("SEED"):
        begin, count = int(os.environ["SEED"]), 1
    else:
        begin = first if FIRST_SEED is None else FIRST_SEED
    return [(f"seed {number}", number) for number in range(begin, begin + count)]


def each_seed(first: int, count: int, at_once: int = 1) -> Callable:
    """The same for a random test: what judges takes a seed."""

    def made(judge: Callable) -> Callable:
        test = each(lambda: seeds(first, count), at_once)(judge)
        test.is_random = True
        return test
    return made


def first_sentence(text: str | None) -> str:
    """The first sentence of a docstring."""
    words = " ".join((text or "").split())
    return re.match(r"(?:.*?\.(?= |$)|.*)", words).group().rstrip(".")


def ran(*words: str, given: bytes = b"", seconds: int = SECONDS, **options: object) -> subprocess.CompletedProcess:
    """A run of a program with this standard input."""
    return subprocess.run(words, input=given, capture_output=True, timeout=seconds, check=False, **options)


def end_of(run: subprocess.CompletedProcess) -> tuple:
    """How a run ended: its status, and what it printed."""
    return run.returncode, run.stdout, run.stderr
