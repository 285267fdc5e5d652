"""Runs tests of this package, and counts them: python3 -m tests.runner [-k NAME] [--list] [--random MINUTES] [MODULE..]

Without MODULE it is about all of MODULES. MODULE may be one class of a module, or a share of either: MODULE#2/3 is the
second of three, in which each class without parts is run once and each test of parts runs every third part. With -k, what has NAME in its name is run: modules, classes and methods, and
of other methods the cases, rows and seeds that have it. With --list nothing is run: each module, class and method is
printed on a line, with the number of its parts and the first sentence that it says of itself. With --random the random
tests are run, with seeds that are new and printed, one after another until so many minutes have passed.

The last line is 'N passed, M failed', where methods and their parts count; the status is 0 only where all passed and
some did, or all were skipped since this machine lacks a tool. What was skipped is named before, on lines that begin
with 'not run: '. A random test that fails says its seed: `SEED=41 ./test -k "seed 41"` runs it again.
"""
from __future__ import annotations

import argparse
import ast
import os
import random
import re
import sys
import time
import unittest
from collections.abc import Iterator

from tests import base, programs

# what is about programs, and about the library for C
OF_PROGRAMS = [
    "tests.cases", "tests.rows", "tests.readings", "tests.locations", "tests.inputs", "tests.made_pages", "tests.trace",
    "tests.typed", "tests.captures", "tests.capture_page", "tests.serve", "tests.schedules", "tests.engine", "tests.deeds",
    "tests.compare_server", "tests.echo", "tests.bounded_allocations", "tests.refused_allocations",
]
OF_LIBRARY = [
    "tests.embedding", "tests.embed.deeds_test", "tests.embed.first_programs", "tests.embed.python_test",
    "tests.embed.store_test", "tests.embed.durable_test", "tests.embed.layout_test", "tests.embed.rust_test",
    "tests.relay.guard_test", "tests.relay.retry_test", "tests.relay.orbs_test", "tests.relay.hostile_test",
    "tests.relay.operation_test", "tests.relay.guards_test", "tests.relay.lines_test", "tests.relay.memory_test",
    "tests.relay.certificates_test", "tests.relay.fragments_test",
    "tests.embed.idl_test", "tests.embed.idl_c_test", "tests.embed.idl_rust_test", "tests.embed.idl_stubs_test",
    "tests.embed.idl_files_test", "tests.embed.idl_exchange_test", "tests.embed.idl_any_test", "tests.embed.objects_test",
    "tests.embed.naming_test", "tests.embed.packages_test", "tests.relay.store_test", "tests.embed.bench_test",
]


# what takes long, and may be run in so many shares side by side
SHARES = {"tests.embedding": 4, "tests.embed.python_test": 2, "tests.embed.idl_test": 2, "tests.embed.durable_test": 2,
          "tests.refused_allocations": 2}


def needs_of(module: str) -> list[str]:
    """What has to be made before a module is run: the crates of the programs that its text names, the library, the
    relay."""
    if module in OF_LIBRARY:
        needed = ["relay"] if module.startswith("tests.relay") else ["library"]
        others = {"packages_test": ["giop_tool"], "bench_test": ["benches", "giop_tool", "echo_server"]}
        return ["relay", *others[module.split(".")[-1]]] if module.split(".")[-1] in others else needed
    with open(os.path.join(programs.ROOT, *module.split(".")) + ".py", encoding="utf-8") as file:
        named = re.findall(r'"([A-Z_]+)"', file.read())
    return [programs.CRATES[name] for name in programs.CRATES if name in named]


def made_for(crates: list[str]) -> list[str]:
    """What scripts/unproved.py makes for these: the programs of tests at once."""
    apart = (programs.CRATES["GIOP"], "library", "relay")
    return list(dict.fromkeys(it if it in apart else "programs" for it in crates))


def modules_of_tests() -> Iterator[str]:
    """The modules of this package that have tests."""
    for folder in ("tests", "tests/embed", "tests/relay"):
        for name in sorted(os.listdir(os.path.join(programs.ROOT, folder))):
            if name.endswith(".py"):
                with open(os.path.join(programs.ROOT, folder, name), encoding="utf-8") as file:
                    text = file.read()
                if re.search(r"^class .*TestCase\):$", text, re.M) and re.search(r"^    +(?:async )?def test\w*\(", text, re.M):
                    yield f"{folder}/{name[:-3]}".replace("/", ".")


# all others need nothing built
FIRST = [name for name in modules_of_tests() if name not in (*OF_PROGRAMS, *OF_LIBRARY)]
MODULES = [*FIRST, *OF_PROGRAMS, *OF_LIBRARY]


class Counted(unittest.TextTestResult):
    """Counts methods and their parts, and notes what was skipped."""

    # when no further test is begun
    end = None

    def __init__(self, *arguments: object, **others: object) -> None:
        super().__init__(*arguments, **others)
        self.passed = self.failed = 0

    def stopTest(self, test: unittest.TestCase) -> None:
        super().stopTest(test)
        if self.end is not None and self.end < time.monotonic():
            self.stop()

    def addSuccess(self, test: unittest.TestCase) -> None:
        super().addSuccess(test)
        # (in another share than the first only its parts count)
        self.passed += base.SHARE[0] == 0 or parts_of(test) is None

    def addError(self, test: unittest.TestCase, err: tuple) -> None:
        super().addError(test, err)
        self.failed += 1

    def addFailure(self, test: unittest.TestCase, err: tuple) -> None:
        super().addFailure(test, err)
        self.failed += 1

    def addSubTest(self, test: unittest.TestCase, subtest: unittest.TestCase, err: tuple | None) -> None:
        super().addSubTest(test, subtest, err)
        self.passed += err is None
        self.failed += err is not None

    def has_run(self) -> bool:
        """Whether something was run, or nothing since tools are missing."""
        reasons = [why for _, why in self.skipped]
        return self.passed > 0 or bool(reasons) and all(why.startswith(programs.NEEDS) for why in reasons)

    def skips(self) -> list[str]:
        """What was not run, a line for each reason and class."""
        names = {}
        for test, why in self.skipped:
            name = test.id()
            if isinstance(test, unittest.suite._ErrorHolder):
                # (of a class or a module that is skipped)
                name = name.partition("(")[2].rstrip(")")
            names.setdefault(why, []).append(name)
        return [f"not run: {', '.join(dict.fromkeys(some))}: {why}" for why, some in names.items()]


def each_test(suite: unittest.TestSuite) -> Iterator[unittest.TestCase]:
    """The tests of a suite."""
    for test in suite:
        if isinstance(test, unittest.TestSuite):
            yield from each_test(test)
        else:
            yield test


def method_of(test: unittest.TestCase) -> object:
    return getattr(test, test._testMethodName, None)


def parts_of(test: unittest.TestCase) -> list | None:
    """The parts of a test; None where it has none, or where they can't be told."""
    parts = getattr(method_of(test), "parts", None)
    try:
        return None if parts is None else list(parts())
    except unittest.SkipTest:
        return None


class Unloaded(unittest.TestCase):
    """What stands for a module that this machine can't load."""

    def __init__(self, module: str, why: str) -> None:
        super().__init__("skip")
        self.module, self.why = module, why

    def id(self) -> str:
        return self.module

    def skip(self) -> None:
        """It is skipped."""
        self.skipTest(self.why)


def tests_in(module: str) -> list[unittest.TestCase]:
    """The tests of a module."""
    try:
        return list(each_test(unittest.defaultTestLoader.loadTestsFromName(module)))
    except unittest.SkipTest as why:
        return [Unloaded(module, str(why))]


def tests_of(modules: list[str]) -> list[unittest.TestCase]:
    return [test for module in modules for test in tests_in(module)]


def shared(tests: list[unittest.TestCase]) -> list[unittest.TestCase]:
    """Of these tests those of the share that is run: each class is of one share, but for its tests with parts."""
    at, count = base.SHARE
    classes = {kind: number for number, kind in enumerate(dict.fromkeys(map(type, tests)))}
    return [test for test in tests if classes[type(test)] % count == at or parts_of(test) is not None]


def is_chosen(test: unittest.TestCase) -> bool:
    """Whether a test, or one of its parts, has what -k chose in its name."""
    return base.WORD in test.id() or any(base.WORD in name for name, _ in parts_of(test) or [])


def run(tests: list[unittest.TestCase]) -> Counted:
    """Runs tests, and prints what failed and what was skipped."""
    runner = unittest.TextTestRunner(sys.stdout, resultclass=Counted, verbosity=0)
    result = runner.run(unittest.TestSuite(tests))
    for line in result.skips():
        print(line)
    return result


def count_of(test: unittest.TestCase) -> str:
    """How many parts a test has, in a word."""
    if not hasattr(method_of(test), "parts"):
        return ""
    parts = parts_of(test)
    return f" ({'parts of a program' if parts is None else len(parts)})"


def line_of(indent: int, name: str, doc: str | None) -> str:
    """A line of --list: a name, and the first sentence that it says of itself."""
    sentence = base.first_sentence(doc)
    return " " * indent + name + (f": {sentence}" if sentence else "")


def lines_of_tests(tests: list[unittest.TestCase]) -> Iterator[str]:
    """The lines of the classes and methods of these tests."""
    said = None
    for test in tests:
        if type(test) is not said:
            said = type(test)
            yield line_of(2, said.__name__, said.__doc__)
        yield line_of(4, test._testMethodName + count_of(test), method_of(test).__doc__)


def lines_of_source(tree: ast.Module) -> Iterator[str]:
    """The lines of the classes and methods of a module that can't be loaded here."""
    for made in tree.body:
        methods = [it for it in getattr(made, "body", []) if getattr(it, "name", "").startswith("test_")]
        if methods:
            yield line_of(2, made.name, ast.get_docstring(made))
            for method in methods:
                yield line_of(4, method.name, ast.get_docstring(method))


def say_of_modules(modules: list[str]) -> None:
    """Prints the modules, their classes and methods."""
    for name in modules:
        with open(os.path.join(programs.ROOT, *name.split(".")) + ".py", encoding="utf-8") as file:
            tree = ast.parse(file.read())
        tests = tests_in(name)
        is_loaded = not isinstance(tests[0], Unloaded)
        print(line_of(0, name, ast.get_docstring(tree)))
        for line in lines_of_tests(tests) if is_loaded else lines_of_source(tree):
            print(line)


def run_random(modules: list[str], minutes: float) -> int:
    """Runs random tests with new seeds until so many minutes have passed, and answers the status."""
    tests = [test for test in tests_of(modules) if hasattr(method_of(test), "is_random")]
    end, passed, failed = time.monotonic() + 60 * minutes, 0, 0
    Counted.end = end
    while time.monotonic() < end and tests:
        base.FIRST_SEED = random.SystemRandom().randrange(1 << 40)
        print(f"seeds from {base.FIRST_SEED} on", flush=True)
        result = run(tests)
        passed, failed = passed + result.passed, failed + result.failed
        # (each round begins with another test)
        tests = [*tests[1:], tests[0]]
    print(f"{passed} passed, {failed} failed")
    return 1 if failed or not passed else 0


def run_chosen(modules: list[str]) -> int:
    """Runs the tests of modules, or those that -k chose, and answers the status."""
    result = run(shared([test for test in tests_of(modules) if base.WORD is None or is_chosen(test)]))
    print(f"{result.passed} passed, {result.failed} failed")
    return 0 if result.has_run() and not result.failed else 1


def main() -> int:
    parser = argparse.ArgumentParser(prog="python3 -m tests.runner")
    parser.add_argument("-k", dest="word", metavar="NAME")
    parser.add_argument("--list", action="store_true")
    parser.add_argument("--random", type=float, metavar="MINUTES")
    parser.add_argument("modules", nargs="*", metavar="MODULE")
    given = parser.parse_args()
    modules = given.modules or MODULES
    if "#" in modules[0]:
        modules = [modules[0].partition("#")[0]]
        at, _, count = given.modules[0].partition("#")[2].partition("/")
        base.SHARE = (int(at) - 1, int(count))
    if given.list:
        say_of_modules(modules)
        return 0
    if given.random is not None:
        return run_random(modules, given.random)
    base.WORD = given.word
    return run_chosen(modules)


if __name__ == "__main__":
    sys.exit(main())
