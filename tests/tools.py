"""Tests what the other tests stand on: parts and their choice, counts, how a script is made smaller, and what is kept."""
import contextlib
import io
import os
import subprocess
import sys
import tempfile
import time
import types
import unittest
from unittest import mock

from scripts import kit, lanes, library
from tests import base, programs, runner
from tests.smaller import smallest


def run_of(*names, word=None):
    """How tests end of which one has a good part and a bad one, where -k chose a word."""

    class Parts(unittest.TestCase):
        @base.each(lambda: [("good", 1), ("bad", 2)], 2)
        def test_parts(self, number):
            self.assertEqual(number, 1)

        @base.each(lambda: [])
        def test_none(self, _number):
            pass

        def test_skipped(self):
            self.skipTest("a reason")

        def test_without_a_tool(self):
            programs.tool("no-such-tool")

    before, base.WORD = base.WORD, word
    try:
        result = runner.Counted(unittest.runner._WritelnDecorator(io.StringIO()), False, 0)
        unittest.TestSuite(Parts(name) for name in names).run(result)
        return result
    finally:
        base.WORD = before


class Runs(unittest.TestCase):
    """What is counted, chosen and skipped."""

    def test_count(self):
        """Each part counts, and a method all of whose parts passed."""
        result = run_of("test_parts")
        self.assertEqual((result.passed, result.failed), (1, 1))

    def test_choice(self):
        """Of a test without the word in its name the parts that have it are run."""
        for word, counts in (("good", (2, 0)), ("bad", (0, 1)), ("test_parts", (1, 1))):
            with self.subTest(word):
                result = run_of("test_parts", word=word)
                self.assertEqual((result.passed, result.failed), counts)

    def test_no_parts(self):
        """A test without parts fails."""
        result = run_of("test_none")
        self.assertEqual((result.passed, result.failed), (0, 1))

    def test_skips(self):
        """What is skipped is named with the reason."""
        result = run_of("test_skipped")
        self.assertEqual((result.passed, result.failed), (0, 0))
        self.assertEqual(result.skips(), ["not run: tests.tools.run_of.<locals>.Parts.test_skipped: a reason"])

    def test_what_is_enough(self):
        """It is a failure that nothing ran, unless tools are missing for all of it."""
        for names, is_enough in ((["test_skipped"], False), (["test_without_a_tool"], True), (["test_parts"], True),
                                 (["test_skipped", "test_without_a_tool"], False), ([], False)):
            with self.subTest(names=names):
                self.assertEqual(run_of(*names).has_run(), is_enough)

    def test_what_is_missing(self):
        """Where all programs were made, one that is missing is no reason to skip a test."""
        before = dict(os.environ)
        try:
            os.environ.update(GIOP="/nowhere/giop", ALL_MADE="")
            self.assertRaises(unittest.SkipTest, programs.program, "GIOP")
            os.environ["ALL_MADE"] = "1"
            self.assertRaises(FileNotFoundError, programs.program, "GIOP")
        finally:
            os.environ.clear()
            os.environ.update(before)

    def test_modules(self):
        """Each module that is to be run has tests, and none is run twice."""
        self.assertEqual(sorted(runner.modules_of_tests()), sorted(runner.MODULES))
        self.assertIn("tests.tools", runner.FIRST)


class Smaller(unittest.TestCase):
    """How a script is made smaller."""

    def test_smallest(self):
        """What is left is what is needed, in its order."""
        for needed in (set(), {0}, {99}, {3, 50, 99}, set(range(0, 100, 7))):
            with self.subTest(needed=needed):
                self.assertEqual(smallest(list(range(100)), lambda some: needed <= set(some)), sorted(needed))

    def test_pairs(self):
        """Where steps are needed in pairs, pairs are left."""
        self.assertEqual(smallest([1, 2, 3, 4, 1], lambda some: some.count(1) == 2), [1, 1])

    def test_sentences(self):
        """The first sentence of a docstring."""
        for text, sentence in (("One. Two.", "One"), ("One\n    and: two. Three", "One and: two"), (None, ""),
                               ("`a.b` c", "`a.b` c")):
            with self.subTest(text):
                self.assertEqual(base.first_sentence(text), sentence)


class Lanes(unittest.TestCase):
    """Parts of a run, side by side."""

    def setUp(self):
        self.room = self.enterContext(tempfile.TemporaryDirectory())
        self.enterContext(mock.patch.dict(os.environ, {"XDG_CACHE_HOME": self.room}))

    def run_of(self, *parts, lanes_at_once=2):
        """A run of parts, each a name, a line of shell and those that it waits for, and what it said."""
        noted = os.path.join(self.room, "noted")
        with open(noted, "w", encoding="utf-8") as file:
            file.write("one 5 2\n")
        made = [lanes.Part(name, ["sh", "-c", line], tuple(after), makes=name.startswith("make")) for name, line, *after in parts]
        run, said = lanes.Run(made, lanes.Took(noted), lanes_at_once), io.StringIO()
        with contextlib.redirect_stdout(said):
            run.is_well = run.run()
        return run, said.getvalue()

    def test_counts(self):
        """What passed and failed, by each part's last line; a part that only makes something counts nothing."""
        run, said = self.run_of(("one", "echo 3 passed, 0 failed; echo not run: a: this needs b"), ("make", "exit 0"),
                                ("two", "echo 4 passed, 2 failed; echo a reason; exit 1"))
        self.assertEqual((run.is_well, run.count(), run.not_run), (False, (7, 2), ["not run: a: this needs b"]))
        self.assertIn("== two\n4 passed, 2 failed\na reason\n", said)
        self.assertEqual(len([line for line in said.splitlines() if "about" in line]), 3)

    def test_order(self):
        """A part waits for those that it stands on, and is not run where one of these failed."""
        run, said = self.run_of(("three", "exit 9", "two"), ("two", "exit 9", "make it"), ("make it", "echo why; exit 1"))
        self.assertEqual((run.is_well, run.count()), (False, (0, 3)))
        self.assertIn("make it failed, and this stands on it", said)

    def test_nothing(self):
        """A part that ran nothing is a failure, unless it lacks a tool."""
        for line, count in (("exit 0", 1), ("echo 0 passed, 0 failed", 1), ("echo 0 passed, 0 failed; echo 'not run: x: this needs y'", 0),
                            ("echo 5 passed, 0 failed; exit 1", 1)):
            with self.subTest(line):
                self.assertEqual(self.run_of(("one", line))[0].count()[1], count)

    def test_took(self):
        """What a part took is known to the next run on this machine, and else by what is noted."""
        run, _ = self.run_of(("one", "echo 1 passed, 0 failed"), ("two", "exit 1"))
        later = lanes.Took(os.path.join(self.room, "noted"))
        self.assertLess(later.of(run.parts[0]), 5)
        self.assertEqual((later.of(run.parts[1]), later.share(run.parts[1])), (lanes.UNKNOWN, 1))

    def test_room(self):
        """What waits leaves room for others; what does not, none."""
        noted = os.path.join(self.room, "noted")
        with open(noted, "w", encoding="utf-8") as file:
            file.write("waits 10 1\nworks 10 10\n")
        waits, works = lanes.Part("waits", []), lanes.Part("works", [])
        for parts, has_room in (([], True), ([works], True), ([works, works], False), ([waits, works], True),
                                ([waits, works, works], False), ([waits] * 3 + [works], True)):
            run = lanes.Run([], lanes.Took(noted), 2)
            run.running = {at: (part, 0, None) for at, part in enumerate(parts)}
            self.assertEqual(run.has_room(), has_room, [it.name for it in parts])

    def test_interrupted(self):
        """Told to end, it ends what it runs, and what that started."""
        pids = os.path.join(self.room, "pids")
        program = f"from tests.tools import Lanes\nit = Lanes()\nit.setUp()\nit.run_of(('one', 'sleep 50 & echo $! >{pids}; wait'))"
        with subprocess.Popen([sys.executable, "-c", program], cwd=programs.ROOT, stderr=subprocess.DEVNULL) as run:
            for _ in range(600):
                if os.path.exists(pids) and os.path.getsize(pids):
                    break
                time.sleep(0.05)
            run.terminate()
            self.assertEqual(run.wait(timeout=20), 143)
        with open(pids, encoding="ascii") as file:
            path = f"/proc/{file.read().strip()}"
        for _ in range(200):
            if not os.path.exists(path):
                return
            time.sleep(0.05)
        self.fail("what it started runs on")


class Kept(unittest.TestCase):
    """The archive that an earlier run built."""

    def setUp(self):
        self.room = self.enterContext(tempfile.TemporaryDirectory())
        self.archive, self.built = os.path.join(self.room, "out", "lib.a"), 0
        self.write("src/lib.rt", "one")
        self.write("WHAT", "a kit")
        crate = types.SimpleNamespace(name=library.CRATE, said={}, folder=self.room, below=lambda: [])
        self.kit = types.SimpleNamespace(KIT=self.room, files_of=lambda folder: [os.path.join(folder, "src", "lib.rt")])
        self.gate = types.SimpleNamespace(kit=self.kit, crates={library.CRATE: crate}, since=0)
        for name, value in (("ARCHIVE", self.archive), ("build", self.build), ("BUILD", mock.Mock())):
            self.enterContext(mock.patch.object(library, name, value))
        self.enterContext(mock.patch.dict(os.environ, {"XDG_CACHE_HOME": os.path.join(self.room, "cache")}))

    def write(self, name, text):
        """Writes a file that is older than what runs."""
        path = os.path.join(self.room, name)
        os.makedirs(os.path.dirname(path), exist_ok=True)
        with open(path, "w", encoding="utf-8") as file:
            file.write(text)
        os.utime(path, (1, 1))

    def build(self, *_):
        """Stands in for the build: the archive holds how many there were."""
        self.built += 1
        self.write("out/lib.a", str(self.built))
        return True

    def made(self, **how):
        """What the archive holds once it is made."""
        with contextlib.redirect_stdout(io.StringIO()):
            self.assertTrue(library.build_over_gate(self.gate, **how))
        with open(self.archive, encoding="utf-8") as file:
            return file.read()

    def test_same(self):
        """Of the same files it is taken, but anew."""
        self.assertEqual([self.made(), self.made(), self.made(is_anew=True), self.made()], ["1", "1", "2", "2"])

    def test_other(self):
        """Of another source, or by another kit, it is not."""
        self.made()
        for number, name in enumerate(("src/lib.rt", "WHAT"), 2):
            self.write(name, "two")
            self.assertEqual([self.made(), self.made()], [str(number)] * 2)

    def test_changed(self):
        """One whose sources changed since the run began is not kept."""
        os.utime(os.path.join(self.room, "src", "lib.rt"))
        with mock.patch.object(library.time, "time", lambda: 2.0):
            self.assertEqual([self.made(), self.made()], ["1", "2"])

    def test_checkouts(self):
        """The sum is the same in each checkout."""
        sums = set()
        for top in ("some", "some/other"):
            self.write(f"{top}/src/lib.rt", "one")
            crate = types.SimpleNamespace(name="a", said={}, folder=os.path.join(self.room, top, "a"), below=lambda: [])
            self.write(f"{top}/a/src/lib.rt", "one")
            sums.add(kit.sum_of(self.kit, crate))
        self.assertEqual(len(sums), 1)
