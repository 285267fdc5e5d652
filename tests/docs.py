"""The pages: those that are made are what the sources give, each link leads where it says, none is over its size.

    python3 -m unittest tests.docs            needs nothing built
    python3 -m unittest tests.docs -k definitions

What the pages quote is held to the sources by tests/quotes.py.
"""
from __future__ import annotations

import functools
import os
import re
import unittest

from scripts import contracts, items
from scripts.items import owner_of

ROOT = os.path.dirname(os.path.dirname(os.path.abspath(__file__)))
# the most octets of a page, and of all that is written by hand together
SIZES = {
    "README.md": 9_250,
    "docs/PROMISES.md": 26_500,
    "docs/READING.md": 10_000,
    "docs/ARCHITECTURE.md": 10_000,
    "docs/TESTING.md": 13_500,
}
BY_HAND = 284_000
PAGES_OF_CRATES = 26_000
# the most lines of the list that a reader begins with, and of a source
FIRST_LIST = 450
LINES = 400
# the lines below which the body of a function is, but for these: tables, and what would be no clearer in parts
LINES_OF_FUNCTION = 40
LONG = {
    "crates/ft_log/src/system_exception.rt": {"SystemName::repository_id", "<SystemName as fmt::Display>::fmt"},
    "crates/ft_orb/src/deeds.rt": {"do_deed"},
    "crates/ft_orb/src/feeding.rt": {"Engine::feed_within"},
    "crates/ft_orb/src/keeper.rt": {"Keeper::begin_keyed"},
    "crates/lemonrudder/src/named.rt": {"system_name_of", "number_of_system_name"},
    "crates/uses_tests/src/durable.rt": {"a_ticket_is_given_once_over_three_lives"},
}
CONTRACTS = "docs/contracts"
PATH = r"`((?:crates|tests|docs|examples|bench|bindings|embed|scripts)/[\w./]+)`"


@functools.lru_cache(maxsize=None)
def text_of(name: str) -> str:
    with open(os.path.join(ROOT, name), encoding="utf-8") as file:
        return file.read()


@functools.lru_cache(maxsize=None)
def lines_of(name: str) -> list[str]:
    return text_of(name).split("\n")


@functools.lru_cache(maxsize=None)
def files(end: str) -> list[str]:
    """The files of the repository with this end, but for what is built."""
    found = []
    for folder, inner, names in os.walk(ROOT):
        inner[:] = sorted(f for f in inner if f not in ("out", "target", ".git"))
        found += [os.path.relpath(os.path.join(folder, name), ROOT) for name in sorted(names) if name.endswith(end)]
    return found


def is_made(page: str) -> bool:
    """Whether a page says in its first line that it is made, by which command."""
    return re.match(r"<!-- made by \S.*-->$", text_of(page).split("\n")[0], re.I) is not None


def size_by_hand(page: str) -> int:
    """The octets of a page, but for a page that is made, and for parts between marks that say what they are made of."""
    text = re.sub(r"<!-- made of: .*? -->\n.*?<!-- end -->", "", text_of(page), flags=re.S)
    return 0 if is_made(page) else len(text.encode())


class Made(unittest.TestCase):
    """Pages that are made of the sources."""

    def test_each_is_what_the_sources_give(self):
        for name, page in contracts.PAGES.items():
            with self.subTest(name):
                self.assertTrue(os.path.exists(os.path.join(ROOT, name)), "it is not there: run scripts/contracts.py")
                self.assertEqual(page(), text_of(name), "run scripts/contracts.py")

    def test_each_says_so(self):
        for name in contracts.PAGES:
            with self.subTest(name):
                self.assertTrue(is_made(name), "its first line does not say by which command it is made")

    def test_no_other_page_of_contracts(self):
        there = {f"{CONTRACTS}/{name}" for name in os.listdir(os.path.join(ROOT, CONTRACTS))}
        self.assertEqual(there, {name for name in contracts.PAGES if name.startswith(CONTRACTS + "/")})

    def test_each_public_function_has_a_heading(self):
        for page in contracts.PAGES:
            crate = re.fullmatch(rf"{CONTRACTS}/(\w+)\.md", page)
            for name in public_functions(crate[1]) if crate else []:
                with self.subTest(page=page, function=name):
                    self.assertRegex(text_of(page), rf"(?m)^#+ \[`{name}`\]\(")


    def test_each_clause_is_shown(self):
        for page in contracts.PAGES:
            if page.startswith(CONTRACTS):
                for name, file, line, quoted in entries(page):
                    if re.search(rf"\bfn {name.rpartition('::')[2]}\b", lines_of(file)[line - 1]):
                        with self.subTest(page=page, function=name):
                            shown = re.findall(r"^  (requires|ensures)(?: (\w+))?: ", quoted, re.M)
                            self.assertEqual(shown, clauses_at(file, line))

    def test_each_wrong_body_is_on_the_page_of_its_crate(self):
        count = 0
        for page in contracts.PAGES:
            crate = re.fullmatch(rf"{CONTRACTS}/(\w+)\.md", page)
            for name in wrong_bodies(crate[1]) if crate else []:
                count += 1
                with self.subTest(page=page, wrong_body=name):
                    self.assertEqual(len(re.findall(rf"`{name}`", text_of(page))), 1)
        self.assertGreater(count, 500)


def clauses_at(file: str, line: int) -> list[tuple[str, str]]:
    """The clauses of the function whose head begins at a line, each by its kind and name."""
    found = []
    for text in lines_of(file)[line - 1 :]:
        clause = re.match(r"\s*(requires|ensures) (?:(\w+) )?\{", text)
        if clause:
            found.append((clause[1], clause[2] or ""))
        elif text.strip() in ("{", "{}") or text.endswith((" {", " {}")) or (text.endswith(";") and not found):
            break
        if clause and text.endswith("};"):
            break
    return found


def wrong_bodies(crate: str) -> list[str]:
    """The names of a crate's wrong bodies: those in its files, and those that are a file of their own."""
    named = [name for file in files(".edits") if file.startswith(f"crates/{crate}/wrong_bodies/")
             for name in re.findall(r"^  (?:always/)?(\w+): ", text_of(file), re.M) if name != "none"]
    alone = [os.path.basename(file)[:-5] for file in files(".edit") if file.startswith(f"crates/{crate}/")]
    return named or alone


def public_functions(crate: str) -> list[str]:
    """The functions that a crate's lib.rt hands out, by themselves or with their type."""
    lines = re.findall(r"^pub use (?:\w+::)+([^;]*);", text_of(f"crates/{crate}/src/lib.rt"), re.M)
    handed = set(re.findall(r"\w+", " ".join(lines)))
    sources = "\n".join(text_of(name) for name in files(".rt") if name.startswith(f"crates/{crate}/src/"))
    methods = []
    for name, body in re.findall(r"^impl(?:<[^\n]*?>)? (\w+)(?:<[^\n]*>)? \{\n(.*?)^\}", sources, re.M | re.S):
        methods += [f"{name}::{function}" for function in re.findall(r"^    pub fn (\w+)", body, re.M) if name in handed]
    return methods + [name for name in handed if re.search(rf"^pub fn {name}\b", sources, re.M)]


# ------------------------------------------------------------------------------------------------ links


def without_code(text: str) -> str:
    return re.sub(r"^```.*?^```$", "", text, flags=re.M | re.S)


@functools.lru_cache(maxsize=None)
def anchors_of(page: str) -> frozenset[str]:
    """The anchors of a page: its headings as GitHub spells them, each once."""
    counts: dict[str, int] = {}
    found = set()
    for heading in re.findall(r"^#+ (.*?) *$", without_code(text_of(page)), re.M):
        plain = re.sub(r"\[([^\]]*)\]\([^)]*\)", r"\1", heading).lower()
        slug = re.sub(r"[^\w\- ]", "", plain).replace(" ", "-")
        count = counts[slug] = counts.get(slug, -1) + 1
        found.add(f"{slug}-{count}" if count else slug)
    return frozenset(found)


def wrong_link(name: str, target: str) -> str | None:
    """Why a relative link of a page leads nowhere, or None."""
    path, _, anchor = target.partition("#")
    page = os.path.normpath(os.path.join(os.path.dirname(name), path)) if path else name
    if not os.path.exists(os.path.join(ROOT, page)):
        return f"the link to {target} leads nowhere"
    line = re.fullmatch(r"L(\d+)", anchor)
    if line and int(line[1]) > text_of(page).count("\n"):
        return f"{page} has no line {line[1]}"
    if anchor and not line and (not page.endswith(".md") or anchor not in anchors_of(page)):
        return f"{page} has no heading for #{anchor}"
    return None


class Links(unittest.TestCase):
    """Where the links of all pages lead."""

    def test_each_leads_somewhere(self):
        for name in files(".md"):
            text = without_code(text_of(name))
            for target in re.findall(r"\]\(([^)\s]+)\)", text) + re.findall(r"^\[[^\]]+\]: (\S+)$", text, re.M):
                if not re.match(r"[a-z]+:", target):
                    with self.subTest(page=name, link=target):
                        self.assertIsNone(wrong_link(name, target))

    def test_each_reference_is_defined_and_used(self):
        for name in files(".md"):
            text = without_code(text_of(name))
            with self.subTest(name):
                labels = set(re.findall(r"\]\[(\w+/[\w/.-]+)\]", text))
                self.assertEqual(labels, set(re.findall(r"^\[([^\]]+)\]: \S+$", text, re.M)))

    def test_each_path_between_backquotes_is_there(self):
        for name in files(".md"):
            for path in re.findall(PATH, text_of(name)):
                if not re.search(r"/[A-Z]+\b(?!\.)", path):  # (a word in capitals stands for any)
                    with self.subTest(page=name, path=path):
                        self.assertTrue(os.path.exists(os.path.join(ROOT, path)), "it is not there")


# ------------------------------------------------------------------------------------------------ definitions


@functools.lru_cache(maxsize=None)
def below(crate: str) -> frozenset[str]:
    """The crates of crates.txt that a crate stands on, and itself."""
    lines = [line.split("#")[0].partition(":") for line in text_of("crates.txt").split("\n")]
    stands = {head.split()[0]: tail.split() for head, _, tail in lines if head.strip()}
    found, todo = set(), [crate]
    while todo:
        name = todo.pop()
        if name in stands and name not in found:
            found.add(name)
            todo += stands[name]
    return frozenset(found)


@functools.lru_cache(maxsize=None)
def uses_at(file: str, line: int) -> str:
    """The `use` lines that hold at a line of a source: those of the file, and those of the block around the line."""
    lines = lines_of(file)
    first = line - 1
    while first > 0 and not re.match(r"\S", lines[first]):
        first -= 1
    last = first
    while last < len(lines) - 1 and not lines[last].startswith("}"):
        last += 1
    outer = [x for x in lines if x.startswith("ghost use ")]
    return "\n".join(outer + [x for x in lines[first:last] if x.startswith("    ghost use ")])


@functools.lru_cache(maxsize=None)
def meant(uses: str, word: str) -> tuple[str, str, str] | None:
    """The crate, the path in it and the name that a word stands for by some `use` lines; the last of these counts."""
    short, _, member = word.partition(".")
    found = None
    for crate, path, names in re.findall(r"ghost use Rattle\.(\w+)\.specs\.([\w.]+)\.\{([^}]*)\};", uses):
        for name in names.split(","):
            here, _, other = name.strip().partition(" as ")
            if (other or here) == word:
                found = crate, path, here
    for crate, path in re.findall(rf"ghost use Rattle\.(\w+)\.specs\.([\w.]+) as {re.escape(short)};", uses):
        found = (crate, path, member) if member else found
    return found


def is_defined_at(file: str, line: int, name: str) -> bool:
    """Whether a line defines a name: a definition or constructor in specs/, a type, variant or constant in src/."""
    text = lines_of(file)[line - 1]
    word = re.escape(name)
    if file.endswith(".antt"):
        return re.search(rf"\bpub (data |record )?{word}(?![\w'])|^\s+{word} :", text) is not None
    return re.search(rf"\b(struct|enum|trait|type|const) {word}\b|^    {word}\b", text) is not None


@functools.lru_cache(maxsize=None)
def files_of_path(crate: str, path: str, name: str) -> set[str]:
    """The files in which the name of a path may stand: its module, or for what a derive made the module of its type."""
    parts = path.split(".")
    if parts[0] in ("declared", "contracts"):
        return {f"crates/{crate}/src/{'/'.join(parts[1:cut])}.rt" for cut in range(2, len(parts) + 1)}
    found = {f"crates/{crate}/specs/{'/'.join(parts)}.antt"}
    handed_on = re.findall(r"^pub use Rattle\.(\w+)\.specs\.([\w.]+)\.\{([^}]*)\}", text_of(*found), re.M)
    for other, inner, names in handed_on:
        if name in re.findall(r"[^\s,]+", names):
            found |= files_of_path(other, inner, name)
    return found


def parts_of(page: str):
    """What stands under the headings of a page of contracts: the name, its source and line, and the text."""
    for part in re.split(r"^(?=#{3,4} \[)", text_of(page), flags=re.M)[1:]:
        name, file, line = re.match(r"#+ \[`([^`]+)`\]\(\.\./\.\./(\S+)#L(\d+)\)", part).groups()
        yield name, file, int(line), part


def entries(page: str):
    """The same with what is quoted there alone."""
    for name, file, line, part in parts_of(page):
        yield name, file, line, "\n".join(re.findall(r"^```text\n(.*?)^```$", part, re.M | re.S))


def cited(page: str):
    """What a page cites: for each word its call, with source and line, the clauses, and the place it leads to."""
    labels = re.findall(r"^\[([^\]]+)\]: \.\./\.\./(\S+)#L(\d+)$", text_of(page), re.M)
    links = {label: (path, int(line)) for label, path, line in labels}
    for (name, file, line, part), (*_, quoted) in zip(parts_of(page), entries(page)):
        for word, label in re.findall(r"\[`([^`]+)`\]\[([^\]]+)\]", part):
            yield name, file, line, quoted, word, links.get(label)


class Definitions(unittest.TestCase):
    """The links of the pages of contracts to definitions, each looked up again in the `use` lines of its source."""

    def each(self):
        for name in os.listdir(os.path.join(ROOT, CONTRACTS)):
            for found in cited(f"{CONTRACTS}/{name}"):
                yield name[:-3], *found

    def test_each_is_the_one_that_the_source_means(self):
        count = 0
        for crate, name, file, line, _, word, target in self.each():
            count += 1
            with self.subTest(crate=crate, call=name, word=word):
                self.assertIsNotNone(target, "its label is not defined")
                scopes = [uses_at(file, line)] + [uses_at(*place) for place in models_of(crate, name)]
                means = [m for m in (meant(uses, word) for uses in scopes) if m]
                self.assertTrue(means, "no use line brings it in")
                self.assertIn(target[0], set().union(*(files_of_path(*m) for m in means)))
                names = {m[2] for m in means} | {m[1].split(".")[-1] for m in means}
                self.assertTrue(any(is_defined_at(*target, it) for it in names), "the line defines another")
        self.assertGreater(count, 1000)

    def test_each_crate_is_below(self):
        for crate, name, _, _, _, word, target in self.each():
            with self.subTest(crate=crate, call=name, word=word):
                self.assertIn(target[0].split("/")[1], below(crate))

    def test_each_word_stands_in_the_clauses(self):
        for crate, name, _, _, quoted, word, _ in self.each():
            with self.subTest(crate=crate, call=name, word=word):
                self.assertRegex(quoted, rf"(?<![\w.]){re.escape(word)}(?![\w'-])")

    def test_each_heading_leads_to_its_function(self):
        for page in os.listdir(os.path.join(ROOT, CONTRACTS)):
            found = re.findall(r"^#+ \[`([^`]+)`\]\(\.\./\.\./(\S+)#L(\d+)\)", text_of(f"{CONTRACTS}/{page}"), re.M)
            self.assertTrue(found, page)
            for name, file, line in found:
                with self.subTest(page=page, heading=name):
                    self.assertIn(name.rpartition("::")[2].split(" ")[-1], lines_of(file)[int(line) - 1])


@functools.lru_cache(maxsize=None)
def models_of(crate: str, name: str) -> list[tuple[str, int]]:
    """Where the `impl Model` of a type stands, which its entry shows too."""
    found = []
    for file in files(".rt") if re.fullmatch(r"\w+", name) else []:
        if file.startswith(f"crates/{crate}/src/"):
            for match in re.finditer(rf"^impl.*\bModel for {name}\b", text_of(file), re.M):
                found.append((file, text_of(file)[: match.start()].count("\n") + 1))
    return found


# ------------------------------------------------------------------------------------------------ sizes


class Sizes(unittest.TestCase):
    """How large pages and sources may be."""

    def test_pages(self):
        for name, most in SIZES.items():
            with self.subTest(name):
                self.assertLessEqual(os.path.getsize(os.path.join(ROOT, name)), most)

    def test_all_pages_by_hand(self):
        sizes = {name: size_by_hand(name) for name in files(".md")}
        self.assertLessEqual(sum(sizes.values()), BY_HAND, sizes)

    def test_first_list_to_read(self):
        first = text_of("docs/READING-LISTS.md").split("\n## ")[1]
        cells = re.findall(r"^\| \[\w+/\w+\]\(\S+\) \| ([^|]*) \|", first, re.M)
        ends = [[int(number) for number in part.split(" to ")] for cell in cells for part in cell.split(", ")]
        self.assertTrue(ends)
        self.assertLessEqual(sum(end[-1] - end[0] + 1 for end in ends), FIRST_LIST)
        self.assertIn(": an hour.", first)

    def test_pages_of_crates(self):
        pages = [name for name in files("README.md") if name.startswith("crates/")]
        self.assertGreater(len(pages), 10)
        self.assertLessEqual(sum(map(size_by_hand, pages)), PAGES_OF_CRATES)

    def test_sources(self):
        for name in files(".rt") + files(".antt") + files(".py"):
            if re.match(r"crates/(?!\w+_tests/)\w+/(src|specs)/|scripts/", name):
                with self.subTest(name):
                    self.assertLessEqual(text_of(name).count("\n"), LINES)

    def test_functions(self):
        for name in files(".rt"):
            if re.match(r"crates/\w+/src/", name):
                with self.subTest(name):
                    self.assertEqual(long_functions(name), LONG.get(name, set()))


def long_functions(name: str) -> set[str]:
    """The functions of a source whose bodies have too many lines."""
    owned = [(f"{owner_of(item)}::" if item.inner else "", item) for item in items.items_of(name)]
    functions = [(owner, it) for owner, item in owned for it in item.inner or [item] if it.kind == "fn"]
    return {owner + it.name for owner, it in functions if len(it.body) >= LINES_OF_FUNCTION}


if __name__ == "__main__":
    unittest.main()
