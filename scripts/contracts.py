#!/usr/bin/env python3
"""Makes the pages that follow from the sources, or says which of them differ.

    python3 scripts/contracts.py            writes docs/contracts/CRATE.md, docs/READING-LISTS.md and docs/CLAUSES.md
    python3 scripts/contracts.py --check    writes nothing; the status is 1 where a page is not what the sources give

A page of contracts has each public call of a crate in the order of its lib.rt: its first sentence, its clauses as they
stand in the source, the definitions that they cite, and the wrong bodies that the prover refuses.
"""
import functools
import os
import re
import sys

if __package__ in (None, ""):
    sys.path.insert(0, os.path.dirname(os.path.dirname(os.path.abspath(__file__))))

from scripts import clauses, reading
from scripts.crates import ROOT, listed, needed
from scripts.items import Clause, Item, first_sentence, items_of, owner_of
from scripts.lists import MADE
from scripts.sources import Missing, Place, files_of, text_of
from scripts.wrong import Wrong, reasons_of, wrongs_of

HEAD = """{made}

# Contracts of `{crate}`

{says}

A call is quoted from its source, to which its heading leads, in short: `S` is what `self` points to at the call, and
`S'` at the return; where a type is called `S`, `self.old` and `self.new` stay. [READING.md](../READING.md#a-contract)
says how to read a clause. After it come the definitions that it cites, by the `use` lines of its source, and the wrong
bodies, each below the clause that refuses it.
"""


# ------------------------------------------------------------------------------------------------ what is public


def crates() -> list[str]:
    """The libraries: the crates that hand something out, but for what tests share. What C alone calls has no page: it says
    the contracts of a library again."""
    roots = {crate: f"crates/{crate}/src/lib.rt" for crate in listed() if not re.search(r"_tests$|^trials$", crate)}
    return [crate for crate, root in roots.items()
            if root in files_of(crate, "src") and re.search(r"^pub (?:use|mod) ", text_of(root), re.M)]


@functools.lru_cache(maxsize=None)
def module_files(crate: str) -> tuple[str, ...]:
    """The files of a crate's code in the order of its `mod` lines, what is inside of a module right after it."""
    order = re.findall(r"^(?:pub )?mod (\w+);", text_of(f"crates/{crate}/src/lib.rt"), re.M)
    files = files_of(crate, "src")

    def rank(file: str):
        module = file.split("/src/")[1][:-3].split("/")[0]
        return (order.index(module) if module in order else -1, "/" in file.split("/src/")[1], file)

    return tuple(sorted(files, key=rank))


def groups_of(crate: str) -> list[tuple[str, list[tuple[str, str]]]]:
    """What lib.rt hands out, as a reader meets it: under each comment the names, each with the file of its module."""
    groups: list[tuple[str, list[tuple[str, str]]]] = []
    for note, module, listed_names, one in re.findall(
        r"((?:^//(?!!).*\n)*)^pub use ((?:\w+::)+)(?:\{([^}]*)\}|(\w+));", text_of(f"crates/{crate}/src/lib.rt"), re.M
    ):
        if note or not groups:
            groups.append((" ".join(line[2:].strip() for line in note.strip().split("\n")), []))
        names = re.findall(r"\w+", listed_names or one)
        file = f"crates/{crate}/src/{module[:-2].replace('::', '/')}.rt"
        if "::" in module[:-2]:  # what a module inside of another has stands in the order of its file
            lines = {item.name: item.line for item in items_of(file)}
            names.sort(key=lambda name: lines.get(name, 0))
        groups[-1][1].extend((name, file) for name in names)
    return groups


def top_items(crate: str) -> list[Item]:
    return [item for file in module_files(crate) for item in items_of(file)]


def groups_of_items(crate: str) -> list[tuple[str, list[Item]]]:
    """What is public, by group: what lib.rt hands out, and laws."""
    groups = []
    for title, names in groups_of(crate):
        found = [(name, [i for i in items_of(file) if i.name == name and i.kind != "impl"]) for name, file in names]
        missing = [name for name, items in found if not items]
        if missing:
            raise Missing(f"crates/{crate}/src/lib.rt hands out {missing[0]}, which its file has not")
        groups.append((title, [items[0] for _, items in found]))
    laws = [i for i in top_items(crate) if i.file.endswith("/src/laws.rt") and i.kind == "fn" and i.is_public]
    return groups + ([("Laws", laws)] if laws else [])


def impls_of(crate: str, item: Item) -> list[Item]:
    """The impls of a type, those of its own file first, but for those of a trait that is not public; and of a trait those
    for any type."""
    inner = "|".join(i.name for i in top_items(crate) if i.kind == "trait" and not i.is_public)
    found = [i for i in top_items(crate) if i.kind == "impl" and i.name == item.name
             and not (inner and re.search(rf"\b({inner})(<[^<>]*>)? for ", i.head))]
    if item.kind == "trait":
        whole = [i for i in top_items(crate) if i.kind == "impl" and len(i.name) == 1]
        found = [i for i in whole if re.search(rf"\b{item.name} for {i.name}$", i.head)]
    return sorted(found, key=lambda i: i.file != item.file)


# ------------------------------------------------------------------------------------------------ what is cited

IDENTIFIER = re.compile(r"(?<![\w.-])[A-Za-z_][\w-]*(?:\.\w+)*")


def bound_in(text: str, head: str) -> set[str]:
    """The names that a clause binds by itself, and those of the parameters."""
    found = {"result", "self"} | set(re.findall(r"(?:mut )?(\w+): ", head))
    for names in re.findall(r"λ ([^.]*)\.", text) + re.findall(r"\(([\w ]+) :(?: |$)", text):
        found |= set(names.split())
    return found | set(re.findall(r"\blet (\w+)", text)) | set(re.findall(r"\b(\w+) = ", text))


def cited(item: Item, clauses: list[Clause]) -> list[tuple[str, Place]]:
    """The words of some clauses that definitions of this repository stand behind, and where, in their order."""
    found: dict[Place, str] = {}
    for clause in clauses:
        text = "\n".join(clause.lines)
        bound = bound_in(text, item.head if item.kind == "fn" else "")
        for word in IDENTIFIER.findall(text):
            place = None if word.split(".")[0] in bound else item.scope.place(word)
            if place:
                found.setdefault(place, cited_word(item, word))
    return [(word, place) for place, word in found.items()]


def cited_word(item: Item, word: str) -> str:
    """A word without what follows the name of its definition, as the field of a record."""
    parts = word.split(".")
    return ".".join(parts[:2]) if parts[0] in item.scope.modules else parts[0]


def label_of(place: Place) -> str:
    """What a link to a definition is called: its crate, file and name."""
    crate, folder, path = place.file.split("/", 3)[1:]
    return f"{crate}/{path.rpartition('.')[0] if folder == 'specs' else path}.{place.name}"


def link_line(label: str, place: Place) -> str:
    return f"[{label}]: ../../{place.file}#L{place.line}"


# ------------------------------------------------------------------------------------------------ a page


def file_doc(file: str) -> list[str]:
    found = re.match(r"(?://!.*\n)*", text_of(file)).group()
    return [line[3:].strip() for line in found.strip().split("\n")]


def in_short(text: str, heads: str) -> str:
    """A clause as the pages shorten it, unless a type is called S."""
    if re.search(r"[<,] ?S(?:: \w+| *[,>])", heads):
        return text
    return re.sub(r"\bself\.(?:old|now)\b", "S", re.sub(r"\bself\.new\b", "S'", text))


def clause_lines(clauses: list[Clause], heads: str, indent: str = "  ") -> list[str]:
    lines = []
    for clause in clauses:
        lines += [f"{indent}// {note}" for note in clause.note]
        first, *rest = [in_short(line, heads) for line in clause.lines]
        name = f" {clause.name}" if clause.name else ""
        lines += [f"{indent}{clause.kind}{name}: {first}"] + [f"{indent}  {line}" for line in rest]
    return lines


def fence(lines: list[str]) -> list[str]:
    return ["```text", *lines, "```", ""]


class Page:
    """The page of one crate, as it is made."""

    def __init__(self, crate: str):
        self.crate, self.lines, self.links = crate, [], {}
        self.below = needed(crate, listed())
        self.wrongs: list[Wrong] = list(wrongs_of(crate))
        self.reasons = dict(reasons_of(crate))

    def heading(self, level: int, text: str, item: Item):
        self.lines += [f"{'#' * level} [`{text}`](../../{item.file}#L{item.line})", ""]

    def cites(self, found: list[tuple[str, Place]]):
        words = []
        for word, place in found:
            if place.file.split("/")[1] not in self.below:
                raise Missing(f"{place.file} is no crate below {self.crate}")
            self.links[label_of(place)] = place
            words.append(f"[`{word}`][{label_of(place)}]")
        if words:
            self.lines += ["Cites " + ", ".join(words) + ".", ""]

    def excluded(self, item: Item, owner: str, end: str = ""):
        """The wrong bodies of a function, by the clause that refuses each; or why it has none."""
        name = f"{owner}::{item.name}" if owner else item.name
        mine = [w for w in self.wrongs if w.is_of(name, item)]
        self.wrongs = [w for w in self.wrongs if w not in mine]
        lines = excluded_lines(mine)
        if not mine and (item.file, name) in self.reasons:
            lines = [f"No wrong body: {self.reasons[item.file, name]}."]
        self.lines += [line + end for line in lines] + [""] if lines else []

    def function(self, item: Item, owner: str, level: int, outer: str = ""):
        says = " ".join(item.doc) if is_law(item) else first_sentence(item.doc)
        head = re.sub(r"^(pub )?(const )?(unsafe )?", "", item.head)
        self.heading(level, f"{owner}::{item.name}" if owner else item.name, item)
        law = "A law: its body is empty. " if is_law(item) and owner else ""
        self.lines += [law + says, ""] if says else []
        self.lines += fence([head, *clause_lines(item.clauses, outer + item.head)])
        self.cites(cited(item, item.clauses))
        self.excluded(item, owner)

    def type(self, item: Item):
        """A type or a trait: what it is, what holds of it, and its functions."""
        self.heading(3, item.name, item)
        says = first_sentence(item.doc)
        self.lines += [says, ""] if says else []
        impls = impls_of(self.crate, item)
        models = [i for i in impls if re.search(r"\bModel for ", i.head)]
        head = re.sub(r"^pub ", "", item.head)
        body = [f"  {member}" + (f"  // {of_it}" if of_it else "") for member, of_it in item.members]
        body += clause_lines(item.clauses, head)
        found = cited(item, item.clauses)
        for model in models:
            body += [model.head, *clause_lines(model.clauses, "")]
            found += [pair for pair in cited(model, model.clauses) if pair not in found]
        self.lines += fence([head, *body])
        self.cites(found)
        for inner in item.inner:
            self.function(inner, item.name, 4, item.head)
        for impl in impls:
            if " for " not in impl.head:
                for inner in [i for i in impl.inner if i.is_public and i.kind == "fn"]:
                    self.function(inner, item.name, 4, impl.head)
        for impl in impls:
            if " for " in impl.head and impl not in models:
                self.trait_impl(impl)

    def trait_impl(self, impl: Item):
        """An impl of a trait that says something. Its functions without clauses have those of the trait."""
        said = [i for i in impl.inner if i.clauses]
        mine = [w for w in self.wrongs for i in impl.inner if w.is_of(f"{owner_of(impl)}::{i.name}", i)]
        if not (said or impl.clauses or mine):
            return
        self.heading(4, re.sub(r"^impl(<[^{]*?>+(?= ))? ", "", impl.head), impl)
        lines = [impl.head, *clause_lines(impl.clauses, impl.head)]
        found = cited(impl, impl.clauses)
        for item in said:
            lines += ["  " + item.head, *clause_lines(item.clauses, impl.head + item.head, "    ")]
            found += [pair for pair in cited(item, item.clauses) if pair not in found]
        self.lines += fence(lines)
        self.cites(found)
        for item in impl.inner:
            self.excluded(item, owner_of(impl), f" (of `{item.name}`)" if len(impl.inner) > 1 else "")

    def item(self, item: Item):
        if item.kind == "fn":
            self.function(item, "", 3)
        elif item.kind in ("struct", "enum", "trait"):
            self.type(item)
        else:
            self.heading(3, item.name, item)
            self.lines += [first_sentence(item.doc), ""] + fence([re.sub(r"^pub ", "", item.head)])

    def inside(self):
        """The wrong bodies of the functions that are not public."""
        if not self.wrongs:
            return
        self.lines += ["## Wrong bodies inside", "", "Of functions that are not public. Those above rest on them.", ""]
        for file in dict.fromkeys([*module_files(self.crate), *(w.file for w in self.wrongs)]):
            names = dict.fromkeys(w.function for w in self.wrongs if w.file == file)
            for name in sorted(names, key=lambda name: line_of(file, name)):
                those = [w for w in self.wrongs if (w.file, w.function) == (file, name)]
                said = "; ".join(w.text() + (f" ({w.refused_by})" if w.refused_by else "") for w in those)
                where = f"{file}#L{line_of(file, name)}" if line_of(file, name) else file
                self.lines.append(f"- [`{name or file}`](../../{where}) in {file.split('/src/')[1]}: {said}")
        self.lines.append("")

    def text(self) -> str:
        for title, items in groups_of_items(self.crate):
            self.lines += [f"## {title[:1].upper() + title[1:]}", ""] if title else []
            for item in items:
                self.item(item)
        self.inside()
        says = " ".join(paragraph(file_doc(f"crates/{self.crate}/src/lib.rt")))
        head = HEAD.format(made=MADE, crate=self.crate, says=says)
        links = [link_line(label, self.links[label]) for label in sorted(self.links)]
        return head + "\n" + "\n".join(self.lines + links) + "\n"


def is_law(item: Item) -> bool:
    """Whether a function does nothing, or nothing but call other laws: what it ensures is all that it is for."""
    is_empty = item.has_body and not any(line.strip() for line in item.body)
    return item.file.endswith("/src/laws.rt") or (is_empty and bool(item.clauses))


def paragraph(doc: list[str]) -> list[str]:
    return doc[: doc.index("")] if "" in doc else doc


def line_of(file: str, name: str) -> int:
    """The line of a function by its name, as `Log::find`; 0 where the file has none."""
    owner, _, function = name.rpartition("::")
    for item in items_of(file):
        for inner in item.inner or [item]:
            if inner.kind == "fn" and inner.name == function and (not owner or owner_of(item) == owner):
                return inner.line
    return 0


def excluded_lines(wrongs: list[Wrong]) -> list[str]:
    """The wrong bodies by the clause that refuses them."""
    lines = []
    for clause in sorted({w.refused_by for w in wrongs}):
        said = "; ".join(w.text() for w in wrongs if w.refused_by == clause)
        lines.append(f"- {clause} refuses {said}")
    return lines


def page_of(crate: str) -> str:
    return Page(crate).text()


PAGES = {f"docs/contracts/{crate}.md": functools.partial(page_of, crate) for crate in crates()}
PAGES |= reading.PAGES | clauses.PAGES


def main() -> int:
    try:
        return write_or_compare()
    except Missing as missing:
        print(missing, file=sys.stderr)
        return 2


def write_or_compare() -> int:
    """Writes each page, or says which is not what the sources give."""
    stale = 0
    for name, page in PAGES.items():
        text, path = page(), os.path.join(ROOT, name)
        there = text_of(name) if os.path.exists(path) else ""
        if text == there:
            continue
        if "--check" in sys.argv[1:]:
            stale += 1
            print(f"{name} is not what the sources give: run scripts/contracts.py")
        else:
            os.makedirs(os.path.dirname(path), exist_ok=True)
            with open(path, "w", encoding="utf-8") as file:
                file.write(text)
    return 1 if stale else 0


if __name__ == "__main__":
    sys.exit(main())
