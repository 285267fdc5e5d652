"""What the pages quote and name is what the sources and the program have.

    python3 -m unittest tests.quotes            needs nothing built
"""
from __future__ import annotations

import functools
import os
import re
import unittest

from scripts import clauses
from tests.docs import ROOT, files, is_made, text_of

PROMISES = "docs/PROMISES.md"
INTEROP = "docs/INTEROP.md"
EMBEDDING = "docs/EMBEDDING.md"
RUST = "bindings/rust/README.md"
# (which show banks in each language)
BANKS = ("docs/DURABLE.md", "docs/IDL.md")
HEADLINE = (
    "for every list of connections opened, pieces, losses, closes and moments, the servant's state is that of "
    "performing each distinct admissible request once, in order of first arrival; every unexpired repeat gets its "
    "first performance's outcome and body octets, expired requests are refused unperformed, and the bytes written on "
    "each connection are exactly these answers."
)
# the headings of the page of a library; others may stand between them
HEADINGS = ["What it is for", "What it promises", "An example", "Left out"]
# the libraries whose page has an example that is a program's, or stands on another page
EXAMPLE_ELSEWHERE = ("ft_log", "giop_lines", "giop_tap", "giop_trace", "giop_types", "lemonrudder")
# the first program of each language
FIRST = {
    "c": "examples/first.c",
    "cpp": "examples/first.cpp",
    "python": "examples/first.py",
    "rust": "bindings/rust/examples/first.rs",
}
# the pages that show such a program, and in which languages
SHOWING = {EMBEDDING: list(FIRST), RUST: ["rust"]}
CLIENT = "examples/retry_client.py"
NUMBERS = (
    "none one two three four five six seven eight nine ten eleven twelve thirteen fourteen fifteen sixteen seventeen "
    "eighteen nineteen twenty twenty-one twenty-two twenty-three twenty-four"
).split()


def by_hand() -> list[str]:
    return [name for name in files(".md") if not is_made(name)]


def pages_of_libraries() -> list[str]:
    """The pages of the crates, but for that of the examples."""
    return [name for name in by_hand() if re.fullmatch(r"crates/\w+/README\.md", name) and "/uses/" not in name]


def blocks_of(name: str, *languages: str) -> list[tuple[str, str]]:
    """The blocks of code of a page in these languages, or in all: each with its language."""
    found = re.findall(r"^```(\w+)\n(.*?)^```$", text_of(name), re.M | re.S)
    return [(language, block) for language, block in found if not languages or language in languages]


@functools.lru_cache(maxsize=None)
def code() -> str:
    """The sources of the crates that the gate proves, one after another."""
    return "\n" + "\n".join(text_of(name) for name in clauses.sources())


def known_words() -> set[str]:
    """The words of the sources and of the header for C, and the names of crates and of cases."""
    words = set(re.findall(r"\w+", code())) | set(clauses.listed())
    for name in files(".h"):
        words |= set(re.findall(r"\w+", text_of(name)))
    return words | {os.path.basename(name)[:-6] for name in files(".stdin")}


class Code(unittest.TestCase):
    """Blocks of Rattle, of definitions and of contracts."""

    def quoting(self) -> list[tuple[str, str]]:
        pages = [name for name in by_hand() if name not in (*SHOWING, *BANKS)]
        return [(name, block) for name in pages for _, block in blocks_of(name, "rust", "antt")]

    def test_each_block_is_made(self):
        for name in by_hand():
            for language, block in blocks_of(name):
                if language != "text":
                    with self.subTest(page=name, block=block.split("\n")[0]):
                        self.assertRegex(text_of(name), rf"-->\n```{language}\n{re.escape(block)}```\n<!-- end -->")

    def test_each_block_stands_in_a_source(self):
        self.assertGreater(len(self.quoting()), 10)
        for name, block in self.quoting():
            with self.subTest(page=name, block=block.split("\n")[0]):
                self.assertIn("\n" + block, code())

    def test_each_block_is_quoted_once(self):
        blocks = [block for _, block in self.quoting()]
        for name, block in self.quoting():
            with self.subTest(page=name, block=block.split("\n")[0]):
                self.assertEqual(blocks.count(block), 1)

    def test_pages_of_libraries_quote_one(self):
        for name in pages_of_libraries():
            if name.split("/")[1] not in EXAMPLE_ELSEWHERE:
                with self.subTest(name):
                    self.assertTrue(blocks_of(name, "rust"))

    def test_clauses(self):
        quoted = re.findall(r"^```rust\n( *ensures .*?)^```$", text_of(PROMISES), re.M | re.S)
        self.assertTrue(quoted)
        for block in quoted:
            with self.subTest(block.split("\n")[0]):
                self.assertIn(" ".join(block.split()), " ".join(code().split()))

    def test_words_of_the_headline(self):
        table = text_of(PROMISES).split("| Word | In plain words | In `crates/ft_orb/specs` |\n")[1].split("\n\n")[0]
        rows = re.findall(r"^\| `(\w+)` \|.*\| `([\w./]+)` \|$", table, re.M)
        self.assertGreater(len(rows), 10)
        for word, file in rows:
            with self.subTest(word):
                self.assertRegex(text_of(f"crates/ft_orb/specs/{file}"), rf"\bpub (?:data |record )?{word}\b")


class Words(unittest.TestCase):
    """Names, headings, numbers and sentences."""

    def test_names_stand_in_the_sources(self):
        known = known_words()
        for page in [PROMISES, *pages_of_libraries()]:
            # (what is left out has names of its own)
            for name in re.findall(r"`(\w+(?:::\w+)*)`", text_of(page).split("\n## Left out\n")[0]):
                with self.subTest(page=page, name=name):
                    self.assertEqual([word for word in name.split("::") if word not in known], [])

    def test_headings_of_the_pages_of_libraries(self):
        self.assertGreater(len(pages_of_libraries()), 10)
        for page in pages_of_libraries():
            with self.subTest(page):
                self.assertEqual([h for h in re.findall(r"^## (.*)$", text_of(page), re.M) if h in HEADINGS], HEADINGS)

    def test_headline(self):
        for page in ("README.md", PROMISES):
            with self.subTest(page):
                self.assertIn(HEADLINE, text_of(page))

    def test_counts_of_examples(self):
        count = sum(file.startswith("crates/uses/src/") for file in files(".rt")) - 1
        pattern = r"([\w-]+) uses of the libraries"
        said = [(page, word) for page in files(".md") for word in re.findall(pattern, text_of(page))]
        self.assertTrue(said)
        for page, word in said:
            with self.subTest(page):
                self.assertEqual(word.lower(), NUMBERS[count])

    def test_crates_that_cite_lemmas(self):
        cited = {(name.split("/")[1], other) for name in files(".antt")
                 for other in re.findall(r"^use Rattle\.(\w+)\.proofs\b", text_of(name), re.M)}
        crates = {crate for crate, other in cited if other in clauses.listed() and other != crate}
        said = re.search(r"(\w+) cite lemmas of these too: (.*)\.\n", text_of("docs/ARCHITECTURE.md"))
        self.assertEqual(set(re.findall(r"`(\w+)`", said[2])), crates)
        self.assertEqual(said[1].lower(), NUMBERS[len(crates)])

    def test_clauses_of_the_standards_are_spelled_in_one_way(self):
        for name in clauses.sources():
            self.assertEqual(clauses.spelled_otherwise(name, clauses.comments(name)), [])
        for name in by_hand():
            if name != "docs/PERFORMANCE.md":  # (figures)
                with self.subTest(name):
                    self.assertEqual(clauses.spelled_otherwise(name, enumerate(text_of(name).split("\n"), 1)), [])


class Programs(unittest.TestCase):
    """What pages show of programs and of what these print."""

    def test_outputs(self):
        shown: dict[tuple[str, str], str] = {}
        for name in by_hand():
            for word, file, lines in re.findall(r"^    \./giop (\w+) < (\S+)\n\n((?:    .*\n)+)", text_of(name), re.M):
                output = re.sub(r"^    ", "", lines, flags=re.M)
                with self.subTest(page=name, command=f"giop {word} < {file}"):
                    self.assertEqual(output, case_of(word, text_of(file)) or shown.setdefault((word, file), output))

    def test_the_client_of_interop(self):
        shown = [block for _, block in blocks_of(INTEROP, "python")]
        self.assertEqual(shown, [text_of(CLIENT)])

    def test_first_programs(self):
        for page, languages in SHOWING.items():
            for language in languages:
                with self.subTest(page=page, language=language):
                    # (what comes after it is code of another program)
                    self.assertEqual(blocks_of(page, language)[0][1], text_of(FIRST[language]))
            with self.subTest(page):
                self.assertEqual({language for language, _ in blocks_of(page)}, set(languages))


def case_of(subcommand: str, octets: str) -> str | None:
    """What a case of the program prints for this input, or None where there is no such case."""
    folder = os.path.join(ROOT, "tests/cases", subcommand)
    for name in sorted(os.listdir(folder)):
        with open(os.path.join(folder, name), "rb") as file:
            is_it = name.endswith(".stdin") and file.read() == octets.encode()
        if is_it:
            return text_of(f"tests/cases/{subcommand}/{name[:-6]}.stdout")
    return None


if __name__ == "__main__":
    unittest.main()
