"""Compares what scripts/made_pages.py and scripts/header.py make, and the table of docs/TESTING.md, with what there
is.
"""
import re
import unittest

from scripts import header, made_pages, outcomes, quoted
from tests import programs, runner

TESTING = "docs/TESTING.md"


class Pages(unittest.TestCase):
    """What is committed is what is made."""

    def compare(self, made: dict[str, str]) -> None:
        """Each page, where it differs."""
        for name, text in made.items():
            with self.subTest(name):
                self.assertEqual(made_pages.differing({name: text}), [])

    def test_rooms(self) -> None:
        """The page of the floors and the rooms."""
        self.compare({made_pages.ROOMS: made_pages.rooms_page()})

    def test_quotes(self) -> None:
        """What pages quote of the sources."""
        made = made_pages.pages_with_quotes()
        self.assertGreater(len(made), 10)
        self.compare(made)

    def test_header(self) -> None:
        """What follows from the header for C."""
        self.assertEqual([*header.differing()], [], "scripts/header.py --write makes them")

    def test_outcomes(self) -> None:
        """What C reads of the tables of outcomes."""
        self.assertEqual(outcomes.differing(), [], "python3 -m scripts.outcomes --write makes them")

    def test_help(self) -> None:
        """The manual page, the completions, and the tables of options."""
        self.compare(made_pages.pages_of_help(programs.program("GIOP")))


DECLARATIONS = """/* Errors. */
enum {
  LR_OK = 0,
  LR_E_ONE = -1, /* one */
  LR_E_TWO = -2  /* two */
};
{families}
typedef struct {{ uint32_t kind; void *at; }} lr_server;
typedef struct {{
  uint64_t size; /* of it */
  int32_t of;
}} lr_thing;
/* It is not lr_said(void). */
LR_API int64_t lr_thing_of(lr_server *server, lr_thing *thing, size_t size,
                           const void *octets);
static inline void lr_thing_close(lr_server *server) {{ lr_close(server); }}
LR_API void lr_heap(void *(*allocate)(void *, size_t), void (*release)(void *));
"""


class Header(unittest.TestCase):
    """How the header for C is read."""

    def text(self, more: str = "") -> str:
        """A small header, which has a name of each family."""
        names = [f"enum {{ {family.prefix}ONE = 1, {family.prefix}SAME = {family.prefix}ONE }};"
                 for family in header.FAMILIES[1:]]
        begin, end = DECLARATIONS.split("{families}")
        return begin + "\n".join(names) + end.replace("{{", "{").replace("}}", "}") + more

    def test_read(self) -> None:
        """Names with their numbers and comments, structs without slots, and functions that are marked."""
        read = header.read(self.text())
        self.assertEqual([(each.short, each.number, each.comment) for each in read.families[0][2]],
                         [("ONE", -1, "one"), ("TWO", -2, "two")])
        self.assertEqual(read.families[0][1], "Errors.")
        self.assertEqual([each.number for each in read.families[1][2]], [1, 1])
        of = header.Declared
        self.assertEqual(read.structs, [("lr_thing", [of("uint64_t", "size"), of("int32_t", "of")])])
        self.assertEqual([each.declared for each in read.functions],
                         [of("int64_t", "lr_thing_of"), of("void", "lr_heap")])
        self.assertEqual([each.kind for each in read.functions[0].parameters],
                         ["lr_server *", "lr_thing *", "size_t", "const void *"])
        self.assertEqual([(each.kind, each.name) for each in read.functions[1].parameters],
                         [("void *(*)(void *, size_t)", "allocate"), ("void (*)(void *)", "release")])

    def test_rust(self) -> None:
        """Functions that take a size, or functions, are not safe."""
        made = header.rust(header.read(self.text("LR_API int64_t lr_is(lr_server *server, uint64_t *type);\n")))
        for line in ("    pub safe fn lr_is(server: &mut lr_slot, r#type: &mut u64) -> i64;\n",
                     "    pub fn lr_thing_of(\n        server: &mut lr_slot,\n        thing: &mut lr_thing,\n",
                     "    pub fn lr_heap(\n",
                     "        release: Option<unsafe extern \"C\" fn(*mut c_void)>,\n    );\n"):
            self.assertIn(line, made)

    def test_names_of_no_family(self) -> None:
        """A name that begins as none does, and a family of two enumerations, are refused."""
        for more in ("enum { LR_OTHER = 1 };\n", "enum { LR_E_THREE = -3 };\n"):
            with self.subTest(more), self.assertRaises(header.Missing):
                header.read(self.text(more))


SOURCE = """//! A source.

/// A pair.
#[derive(Drop)]
pub struct Pair {
    first: u8,
}

impl Model for Pair {
    ghost view = { λ p. p.first };

    ghost invariant = { λ p.
        p.first ≡ 0
    };
}

/// Its first.
pub fn first(
    pair: &Pair,
) -> u8
    ensures { result ≡ 0 }
{
    pair.first
}
fn last() {}
"""
DEFINITIONS = """-- adds
abbrev pub add : ℕ → ℕ
add n = n

added : ℕ
added = add 1
"""
PROGRAM = """/* Adds
 * numbers. */
static int64_t add(const struct pair *it) {
  return it->first;
}

lr::Result<std::vector<int>> last() {
  return added(1);
}

int main(void) {
  return add(NULL);
}
"""
LANGUAGES = {SOURCE: "rust", DEFINITIONS: "antt", PROGRAM: "c"}
# the words of a mark, and what they name: a front and an end of it, and how many lines it has
PARTS = [
    (PROGRAM, "add", "/* Adds\n", ">first;\n}\n", 5),
    (PROGRAM, "last to main", "lr::Result", "(NULL);\n}\n", 7),
    (SOURCE, "Pair", "/// A pair.\n#[derive(Drop)]\n", "    first: u8,\n}\n", 5),
    (SOURCE, "impl Model for Pair", "impl Model", "    };\n}\n", 7),
    (SOURCE, "view", "    ghost view = {", "};\n", 1),
    (SOURCE, "view to invariant", "    ghost view", "    };\n", 5),
    (SOURCE, "first", "/// Its first.\npub fn", "    pair.first\n}\n", 8),
    (SOURCE, "last", "fn last() {}\n", "fn last() {}\n", 1),
    (DEFINITIONS, "add", "-- adds\n", "add n = n\n", 3),
    (DEFINITIONS, "added", "added : ", "= add 1\n", 2),
    (DEFINITIONS, "add to added", "-- adds\n", "= add 1\n", 6),
    (DEFINITIONS, None, "-- adds\n", "= add 1\n", 6),
]
PAGE = "A\n<!-- made of: a.rt last -->\n<!-- end -->\nB\n"


class Quotes(unittest.TestCase):
    """What a mark names of a source."""

    def test_parts(self) -> None:
        """Each form of a mark."""
        for text, words, front, end, count in PARTS:
            with self.subTest(words):
                part = quoted.part_of(text, words, LANGUAGES[text])
                self.assertTrue(part in text and part.startswith(front) and part.endswith(end), part)
                self.assertEqual(part.count("\n"), count)

    def test_python(self) -> None:
        """A class or a function ends where what follows is not indented more."""
        lines = ["class One:", "    x = 1", "", "    async def two(self):", "        pass", "", "    def three(self):",
                 "        pass", "", "", "y = 2"]
        text = "\n".join(lines) + "\n"
        for name, first, last in (("One", 0, 8), ("two", 3, 5), ("three", 6, 8), ("two to three", 3, 8)):
            with self.subTest(name):
                self.assertEqual(quoted.part_of(text, name, "python"), "".join(f"{one}\n" for one in lines[first:last]))

    def test_names_that_are_not_one(self) -> None:
        """A name that nothing declares, and one that two lines declare."""
        for text, name in ((SOURCE, "second"), (SOURCE + "fn last() {}\n", "last")):
            with self.subTest(name), self.assertRaises(quoted.Missing):
                quoted.part_of(text, name, "rust")

    def test_pages(self) -> None:
        """A block is written between its marks, and again; a mark without an end is refused, and eats nothing."""
        made = quoted.with_quotes(PAGE, lambda path: SOURCE)
        self.assertEqual(made, PAGE.replace("<!-- end", "```rust\nfn last() {}\n```\n<!-- end"))
        self.assertEqual(quoted.with_quotes(made, lambda path: SOURCE), made)
        with self.assertRaises(quoted.Missing):
            quoted.with_quotes("<!-- made of: a.rt last -->\nA\n" + PAGE, lambda path: SOURCE)


class Table(unittest.TestCase):
    """Each module of tests has a row that says what goes there."""

    def test_modules(self) -> None:
        """The table names each module, and no other."""
        table = made_pages.text_of(TESTING).split("## Which test goes where")[1].split("\n## ")[0]
        named = set(re.findall(r"`(tests(?:\.\w+)+)`", table))
        # (wrong_bodies makes its tests of the edits)
        self.assertEqual(named, {*runner.modules_of_tests(), "tests.wrong_bodies"})

    def test_each_is_run(self) -> None:
        """Each module is among those that `./test` runs."""
        self.assertEqual({*runner.FIRST, *runner.OF_PROGRAMS, *runner.OF_LIBRARY}, {*runner.modules_of_tests()})
