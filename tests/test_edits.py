"""Whether the files of wrong bodies are right, and whether each public call has one."""
import glob
import os
import unittest

from tests.edits import (LIBRARIES, ROOT, Fault, Pair, Reader, crates, edits_of, faults_of, file_of, public_calls, read,
                         sources_of, text_of, without_edits, written)


class OfCrates(unittest.TestCase):
    """The wrong bodies of the crates."""

    def test_each_is_right(self):
        """Each edit has its function, its order, and a text that stands once."""
        self.assertTrue(crates())
        for crate in crates():
            with self.subTest(crate):
                self.assertEqual([*faults_of(crate)], [])

    def test_files_are_as_written(self):
        """A file is what the writer makes of what the reader read."""
        for crate in crates():
            for source in sources_of(crate):
                with self.subTest(f"{crate}/{source}"):
                    reader = read(crate, source)
                    self.assertEqual(written(reader.sections, reader.tail), text_of(file_of(crate, source)))

    def test_each_public_call_has_one(self):
        """Each public call has a wrong body, or a word why not."""
        for crate in LIBRARIES:
            have = {(it.source, it.function) for it in edits_of(crate)}
            have |= {(source, function) for source, function, _ in without_edits(crate)}
            with self.subTest(crate):
                self.assertEqual([it for it in public_calls(crate) if it not in have], [])

    def test_each_says_what_refuses_it(self):
        """Each edit names the clauses that refuse it, as tests/wrong_bodies.py --write adds them."""
        for crate in crates():
            with self.subTest(crate):
                self.assertEqual([it.name for it in edits_of(crate) if it.refused_by is None], [])

    def test_nothing_else_stands_there(self):
        """Each folder of wrong bodies has files of edits alone."""
        for folder in glob.glob(f"{ROOT}/crates/*/wrong_bodies"):
            files = [os.path.join(at, name) for at, _, names in os.walk(folder) for name in names]
            self.assertEqual([it for it in files if not it.endswith(".edits")], [])


class OfTheGrammar(unittest.TestCase):
    """What the reader refuses."""

    WHOLE = "fn new\n  is_one: it counts one\n    old: 0\n    new: 1\n    refused by: ensures `is`\n"

    def test_reads_what_is_written(self):
        text = ("# a\nfn new\n  # b\n  always/is_one: it counts one\n    file: src/b.rt\n    old:  0\n    new:\n\n"
                "fn <A as B>::c\n  none: why\n")
        reader = Reader("x", "src/a.rt", text)
        edit = reader.sections[0].edits[0]
        self.assertEqual((edit.name, edit.is_always, edit.pairs), ("is_one", True, [Pair("src/b.rt", " 0", "")]))
        self.assertEqual((reader.sections[1].function, reader.sections[1].reason), ("<A as B>::c", "why"))
        self.assertEqual(written(reader.sections, reader.tail), text)
        self.assertEqual(Reader("x", "src/a.rt", self.WHOLE).sections[0].edits[0].refused_by, "ensures `is`")

    def test_refuses_what_is_none_of_it(self):
        for wrong, line in (
            ("old: 0\n", 1), ("fn new\n is_one: a\n", 2), ("fn new\n  is_one:\n", 2), ("fn new\n", 2),
            ("fn new\n  none: why\n    old: 0\n", 3), ("fn new\n  none: why\n  is_one: a\n", 3),
            ("fn new\n  is_one: a\n    new: 1\n", 3), ("fn new\n  is_one: a\n    old: 0\n    old: 1\n", 4),
            ("fn new\n  is_one: a\n    old: 0\n", 4), ("fn new\n  is_one: a\nfn b\n", 3),
            ("fn new\n  is_one: a\n    file: b.rt\n", 3), (self.WHOLE + "    refused by: ensures 1\n", 6),
            (self.WHOLE + "    old: 0\n", 6), ("fn new\n  is_one: a\n    refused: b\n", 3),
            ("fn new\n  never/is_one: a\n", 2), (self.WHOLE + "  none: why\n", 6),
            ("fn new\n  none: why\n  none: why\n", 3),
        ):
            with self.subTest(wrong), self.assertRaisesRegex(Fault, rf"^crates/x/wrong_bodies/a.edits:{line}: "):
                Reader("x", "src/a.rt", wrong)


if __name__ == "__main__":
    unittest.main()
