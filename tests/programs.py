"""The programs under test: where each is, and what is missing on this machine.

A program is named by an environment variable, as GIOP; where that is not set, it is the one that the crate has in its
folder, as crates/giop_tool/out/giop_tool, or else the one that `./test` made without a proof, in out/unproved. LIBRARY
names the folder below which the library for C is (lib/, include/): by default out/, as `./build library` makes it, or
else out/unproved/library.

A test is skipped where a program, the library or a tool is missing. `./test` and `./prove` have made the first two, and
set ALL_MADE: then one that is missing is an error.
"""
from __future__ import annotations

import os
import shutil
import unittest
from collections.abc import Callable

from scripts.crates import ROOT, UNPROVED

HERE = os.path.join(ROOT, "tests")
# the crates of the programs, by the variables that name these
CRATES = {
    "GIOP": "giop_tool",
    "VALUE_PLAYER": "value_player",
    "REFERENCE_PLAYER": "reference_player",
    "SCHEDULE_PLAYER": "schedule_player",
    "DEEDS_PLAYER": "deeds_player",
    "ECHO_SERVER": "echo_server",
    "CDR_TRIALS": "cdr_trials",
    "GIOP_TRIALS": "giop_trials",
    "LINK_TRIALS": "link_trials",
    "ORB_TRIALS": "orb_trials",
    "BENCHES": "benches",
}
# those of them that are proved
PROVED = ("GIOP", "ECHO_SERVER")
# the crates of test functions, each of a floor
TEST_CRATES = ["cdr_tests", "giop_tests", "frames_tests", "proxy_tests", "link_tests", "log_tests", "client_tests",
               "orb_tests", "uses_tests"]
# how the reason begins for which a test is skipped that a tool of this machine is missing for
NEEDS = "this needs "
# how the names of a program end that `rt ci` builds by its two compilers
COMPILERS = ("", ".by-rattle")


def path_of(name: str, compiler: str = "") -> str:
    """Where the program is that this variable names; where it is not set the proved one of a compiler, or else the one
    that is not proved."""
    proved = os.path.join(ROOT, "crates", CRATES[name], "out", CRATES[name] + compiler)
    plain = os.path.join(UNPROVED, CRATES[name])
    default = plain if not os.path.exists(proved) and os.path.exists(plain) else proved
    return os.path.abspath(os.environ.get(name) or default)


def unproved() -> dict[str, str]:
    """The environment in which programs that are not proved are under test, but those that a variable names already."""
    return {name: os.environ.get(name) or os.path.join(UNPROVED, crate) for name, crate in CRATES.items()}


def built_by(compiler: str) -> dict[str, str]:
    """The environment in which the proved programs of a compiler are under test, and of those that no crate proves the
    others."""
    proved = {name: os.path.join(ROOT, "crates", CRATES[name], "out", CRATES[name] + compiler) for name in PROVED}
    return {**unproved(), **proved, "ALL_MADE": "1"}


def missing(what: str) -> Exception:
    """What is raised where something is missing that is made of the sources."""
    return FileNotFoundError(what) if os.environ.get("ALL_MADE") else unittest.SkipTest(what)


def program(name: str) -> str:
    """The path of a program."""
    path = path_of(name)
    if not os.access(path, os.X_OK):
        raise missing(f"there is no program {os.path.relpath(path, ROOT)}")
    return path


def library() -> str:
    """The folder of the library for C."""
    proved, plain = os.path.join(ROOT, "out"), os.path.join(UNPROVED, "library")
    default = plain if not os.path.exists(os.path.join(proved, "lib")) and os.path.exists(plain) else proved
    folder = os.path.abspath(os.environ.get("LIBRARY") or default)
    if not os.path.exists(os.path.join(folder, "lib", "liblemonrudder.a")):
        raise missing(f"there is no library in {os.path.relpath(folder, ROOT)}: ./build library makes one")
    return folder


def tool(name: str) -> str:
    """The path of a tool of this machine."""
    path = shutil.which(name)
    if path is None:
        raise unittest.SkipTest(NEEDS + name)
    return path


def needs(*names: str) -> Callable:
    """A test, or a class of tests, that is skipped where this machine lacks one of these tools."""
    lacking = [name for name in names if shutil.which(name) is None]
    return unittest.skipIf(lacking, NEEDS + ", ".join(lacking))
