"""Runs `giop` on the cases of tests/cases, and compares what it prints to the octet.

A case NAME is the files NAME.args (the words after the program's name, one a line), NAME.stdin, NAME.status,
NAME.stdout and NAME.stderr. Where NAME.stderr is missing, nothing may be printed there; where NAME.stdout is missing
too, any text may be. The folders are the program's subcommands, and `words` for help, the version and words that are
refused.

A case of `play` that ends well, but with `--engine`, runs once more with each piece cut into pieces of one octet, at
the same moment on the same connection: what is printed must be the same, where lines of one connection that follow one
another count as one. And each case of `play` runs with `--engine` too, and must print the same.
"""
from __future__ import annotations

import os
import unittest
from collections.abc import Callable

from tests import base, programs

CASES = os.path.join(programs.HERE, "cases")
ENGINE = "--engine"


def content(path: str) -> bytes | None:
    """The octets of a file, or None where there is no such file."""
    try:
        with open(path, "rb") as file:
            return file.read()
    except FileNotFoundError:
        return None


class Case:
    """A case: its words, its standard input, and what is wanted."""

    def __init__(self, name: str) -> None:
        path = os.path.join(CASES, name)
        self.name = name
        self.words = content(path + ".args").decode().splitlines()
        self.given = content(path + ".stdin") or b""
        self.status = int(content(path + ".status"))
        self.out, self.error = content(path + ".stdout"), content(path + ".stderr") or b""


def cases_of(folder: str) -> list[tuple[str, Case]]:
    """The cases of a folder by name, in order."""
    files = sorted(os.listdir(os.path.join(CASES, folder)))
    names = [f"{folder}/{file[:-len('.args')]}" for file in files if file.endswith(".args")]
    return [(name, Case(name)) for name in names]


def played() -> list[tuple[str, Case]]:
    """The cases of `play` on a server."""
    return [(name, case) for name, case in cases_of("play") if ENGINE not in case.words]


def played_well() -> list[tuple[str, Case]]:
    """Those that end well."""
    return [(name, case) for name, case in played() if case.status == 0]


def engine_words(words: list[str]) -> list[str]:
    """The words of a case of `play`, on an engine."""
    return ["play", ENGINE, *words[1:]]


def in_octets(script: bytes) -> bytes:
    """A script with each piece cut into pieces of one octet."""
    lines = []
    for line in script.split(b"\n"):
        words = line.rstrip(b"\r").split(b" ")
        if words[0] == b"bytes":
            digits = words[3]
            lines += [b" ".join(words[:3] + [digits[i:i + 2]]) for i in range(0, len(digits), 2)]
        else:
            lines.append(line)
    return b"\n".join(lines)


def joined(printed: bytes) -> list[list[bytes]]:
    """The lines with those of one connection that follow one another as one."""
    lines: list[list[bytes]] = []
    for line in printed.splitlines():
        connection, _, digits = line.partition(b" ")
        if lines and lines[-1][0] == connection:
            lines[-1][1] += digits
        else:
            lines.append([connection, digits])
    return lines


class Program(unittest.TestCase):
    """What compares the runs of a program."""

    def wants(self, case: Case, *words: str) -> None:
        """Runs the program on a case with these words."""
        run = base.ran(*words, given=case.given)
        self.assertEqual(run.returncode, case.status, run.stderr)
        if case.out is not None:
            self.assertEqual((run.stdout, run.stderr), (case.out, case.error))

    def wants_in_octets(self, case: Case, *words: str) -> None:
        """Runs the program on a case whose pieces come in single octets."""
        run = base.ran(*words, given=in_octets(case.given))
        self.assertEqual((run.returncode, joined(run.stdout)), (0, joined(case.out)), run.stderr)


class Cases(Program):
    """The cases of each folder, by `giop`."""

    @classmethod
    def setUpClass(cls) -> None:
        cls.giop = programs.program("GIOP")

    @base.each(played_well)
    def test_play_in_octets(self, case: Case) -> None:
        """Each piece of what is played comes in single octets."""
        self.wants_in_octets(case, self.giop, *case.words)


class Engine(Program):
    """The cases of `play`, on an engine."""

    @classmethod
    def setUpClass(cls) -> None:
        cls.giop = programs.program("GIOP")

    @base.each(played)
    def test_play(self, case: Case) -> None:
        """With an owner that performs what the engine asks for it prints the same."""
        self.wants(case, self.giop, *engine_words(case.words))

    @base.each(played_well)
    def test_play_in_octets(self, case: Case) -> None:
        """So it does where the pieces come in single octets."""
        self.wants_in_octets(case, self.giop, *engine_words(case.words))


def of_folder(folder: str) -> Callable:
    """The test of the cases of a folder."""

    @base.each(lambda: cases_of(folder))
    def test(self: Cases, case: Case) -> None:
        self.wants(case, self.giop, *case.words)
    test.__doc__ = f"The cases of `{folder}`."
    return test


for name in sorted(os.listdir(CASES)):
    setattr(Cases, f"test_{name}", of_folder(name))
