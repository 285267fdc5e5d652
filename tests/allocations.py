"""Environments in which allocations of a program are counted and refused, from outside (tests/refuse_allocation.c).

An allocation is a call of malloc or realloc.
"""
from __future__ import annotations

import atexit
import functools
import os
import shutil
import struct
import subprocess
import tempfile

from tests import programs


@functools.lru_cache(maxsize=None)
def library() -> str:
    """The library that is loaded before a program, compiled once. Without a compiler the test is skipped."""
    folder = tempfile.mkdtemp()
    atexit.register(shutil.rmtree, folder, ignore_errors=True)
    path = os.path.join(folder, "refuse_allocation.so")
    source = os.path.join(programs.HERE, "refuse_allocation.c")
    subprocess.run([programs.tool("cc"), "-O2", "-Wall", "-shared", "-fPIC", "-o", path, source, "-ldl"], check=True)
    return path


def within(most: int) -> dict[str, str]:
    """An environment in which each allocation of more octets is refused."""
    return {**os.environ, "LD_PRELOAD": library(), "REFUSE_ABOVE": str(most)}


class Counting:
    """Counts the allocations of one run after another, in a file, and refuses one of a run."""

    def __init__(self) -> None:
        self.folder = tempfile.TemporaryDirectory()
        self.path = os.path.join(self.folder.name, "count")

    def __enter__(self) -> Counting:
        return self

    def __exit__(self, *_: object) -> None:
        self.folder.cleanup()

    def refusing(self, number: int) -> dict[str, str]:
        """The environment of a run in which this allocation is refused, counted from 1, or none at 0."""
        with open(self.path, "wb") as file:
            file.write(bytes(8))
        return {**os.environ, "LD_PRELOAD": library(), "REFUSE_ALLOCATION": str(number), "REFUSE_COUNT": self.path}

    def counted(self) -> int:
        """How many allocations the run asked for."""
        with open(self.path, "rb") as file:
            return struct.unpack("=Q", file.read())[0]
