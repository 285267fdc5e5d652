#!/usr/bin/env python3
"""The wrong bodies: reads and writes crates/NAME/wrong_bodies/SOURCE.edits, one file for each src/SOURCE.rt.

    tests/edits.py CRATE.. [--order]    prints what is wrong; --order puts files into order, as after a renaming

A file goes through the functions of its source, in their order. What it has, by indentation:

    # a comment
    fn Keeper::begin_keyed
      keys_by_retention_id_alone: the clients' numbers are one client's
        old: TEXT
        new: TEXT
        refused by: ensures `asked`
    fn Trace::new
      none: why this public call has no wrong body

A function is named as in Rust: `name`, `Type::name`, `<Type as Trait>::name`. A TEXT is the rest of its line, and `old`
stands once in the source, or once in the function; further pairs apply to what the earlier ones made. A pair of another
source has a line `file: src/OTHER.rt` before it. Before a name, `always/` says that it is tried in each run: those of the
headline. The line `refused by` is written by tests/wrong_bodies.py --write.
"""
import argparse
import glob
import itertools
import os
import re
import sys
from dataclasses import dataclass, field
from typing import Iterator, NamedTuple, Optional

ROOT = os.path.dirname(os.path.dirname(os.path.abspath(__file__)))
# what a wrong body does wrong is said in half a line
MOST = 70
# the libraries: each of their public calls has a wrong body, or a word why not
LIBRARIES = ("cdr_core", "ior_core", "corbaloc", "giop_core", "giop_frames", "giop_link", "ft_log", "ft_client",
             "ft_objects", "ft_orb", "ft_ends", "ft_lives", "ft_tcp", "digits", "counter", "giop_text",
             "giop_types", "giop_run", "giop_tap", "giop_lines", "giop_trace", "lemonrudder",
             "lemonrudder_c", "uses")


class Pair(NamedTuple):
    """A text that stands once in a source, and what is put in its place."""
    path: str
    old: str
    new: str


@dataclass
class Edit:
    """A wrong body: an edit of one function that the prover has to refuse."""
    crate: str
    source: str
    function: str
    name: str
    wrong: str
    pairs: list[Pair]
    refused_by: Optional[str] = None
    is_always: bool = False
    comments: list[str] = field(default_factory=list)

    def applied(self, texts: dict[str, str]) -> tuple[Optional[dict[str, str]], Optional[str]]:
        """The texts of the files that are changed, by their paths, over texts that were changed before; or why not."""
        made = dict(texts)
        for path, old, new in self.pairs:
            if path not in made:
                try:
                    made[path] = text_of(f"{ROOT}/crates/{self.crate}/{path}")
                except OSError:
                    return None, f"there is no {path}"
            at = self.place_of(path, made[path], old)
            if at is None:
                return None, f"its text is in {path} {made[path].count(old)} times, and not once: {old.strip()[:60]}"
            made[path] = made[path][:at] + new + made[path][at + len(old):]
        return (made, None) if made != texts else (None, "it changes nothing")

    def place_of(self, path: str, text: str, old: str) -> Optional[int]:
        """Where a text stands in a source: in all of it once, or once in the function."""
        if text.count(old) == 1:
            return text.index(old)
        lines = text.split("\n")
        for function in functions_in(path, text) if path == self.source and old in text else ():
            if function.full_name() == self.function:
                start = sum(len(line) + 1 for line in lines[:function.first])
                body = "\n".join(lines[function.first:function.last + 1])
                return start + body.index(old) if body.count(old) == 1 else None
        return None


@dataclass
class Section:
    """A function of a file: its edits, or why it has none."""
    function: str
    line: int
    edits: list[Edit] = field(default_factory=list)
    reason: Optional[str] = None
    comments: list[str] = field(default_factory=list)
    reason_comments: list[str] = field(default_factory=list)


class Function(NamedTuple):
    """A function: the file that it stands in, the head of the impl or trait around it, its name, and its lines: that of
    its first comment or attribute, that of its head, and its last."""
    path: str
    impl: str
    name: str
    top: int
    first: int
    last: int

    def full_name(self) -> str:
        return f"{owner_of(self.impl)}::{self.name}" if self.impl else self.name


class Fault(Exception):
    """A line that is none of the grammar."""


def text_of(path: str) -> str:
    with open(path, encoding="utf-8") as file:
        return file.read()


def without_arguments(text: str) -> str:
    """A type without its arguments in angle brackets."""
    while re.search(r"<[^<>]*>", text):
        text = re.sub(r"<[^<>]*>", "", text)
    return text


def owner_of(impl: str) -> str:
    """The type of the head of an impl or a trait, or `<Type as Trait>`."""
    trait = re.match(r"(?:pub(?:\(\w+\))? )?(?:unsafe )?trait (\w+)", impl)
    if trait:
        return trait[1]
    head = re.sub(r"^(unsafe )?impl\b", "", impl.rstrip(" {"))
    if head.startswith("<"):
        depth = 0
        for at, char in enumerate(head):
            depth += {"<": 1, ">": -1}.get(char, 0)
            if depth == 0:
                head = head[at + 1:]
                break
    named, _, of = re.sub(r"<'\w+>|'\w+,? ?", "", head).strip().rpartition(" for ")
    owner = re.findall(r"\w+", without_arguments(of))[-1]
    return f"<{owner} as {named}>" if named else owner


def functions_in(path: str, text: str) -> Iterator[Function]:
    """The functions of a source, by the layout of rt fmt: the end of one has the indentation of its head."""
    lines, impl = text.split("\n"), ""
    for first, line in enumerate(lines):
        if re.match(r"(unsafe )?impl\b|(pub(\(\w+\))? )?trait\b", line):
            impl = line
        elif line == "}":
            impl = ""
        head = re.match(r"(\s*)(?:pub(?:\(\w+\))? )?(?:const |unsafe |extern \"C\" )*fn (\w+)", line)
        if head:
            indent, name = head.groups()
            ends = (at for at in range(first, len(lines))
                    if lines[at] in (indent + "}", indent + "{}") or at == first and line.endswith("}"))
            above = (at for at in range(first, 0, -1) if not re.match(r"\s*(#\[|//)", lines[at - 1]))
            yield Function(path, impl if indent else "", name, next(above, 0), first, next(ends, first))


def functions_of(crate: str, source: str) -> dict[str, Function]:
    """The functions of a source by their names, in order."""
    found: dict[str, Function] = {}
    for function in functions_in(source, text_of(f"{ROOT}/crates/{crate}/{source}")):
        found.setdefault(function.full_name(), function)
    return found


def file_of(crate: str, source: str) -> str:
    """The path of the edits of a source."""
    return f"{ROOT}/crates/{crate}/wrong_bodies/{source[len('src/'):-len('.rt')]}.edits"


def sources_of(crate: str) -> list[str]:
    """The sources of a crate that have a file of edits, in order."""
    top = f"{ROOT}/crates/{crate}/wrong_bodies/"
    files = sorted(glob.glob(f"{glob.escape(top)}**/*.edits", recursive=True))
    return [f"src/{file[len(top):-len('.edits')]}.rt" for file in files]


def crates() -> list[str]:
    """The crates that have edits."""
    return [name for name in sorted(os.listdir(f"{ROOT}/crates")) if sources_of(name)]


class Reader:
    """Reads the lines of a file of edits."""

    def __init__(self, crate: str, source: str, text: str):
        self.crate, self.source, self.sections = crate, source, []
        self.file = os.path.relpath(file_of(crate, source), ROOT)
        self.comments: list[str] = []
        self.line, self.path, self.old = 0, None, None
        for self.line, line in enumerate(text.split("\n"), 1):
            if line.strip():
                self.read(line)
        self.end_section()
        self.tail = self.comments

    def refuse(self, why: str):
        raise Fault(f"{self.file}:{self.line}: {why}")

    def taken(self) -> list[str]:
        comments, self.comments = self.comments, []
        return comments

    def read(self, line: str):
        head = re.fullmatch(r"fn (\S.*\S|\S)", line)
        item = re.fullmatch(r"  ((?:always/)?\w+): (\S.*)", line)
        part = re.fullmatch(r"    (file|old|new|refused by):(?: (.*))?", line)
        if re.match(r" *#", line):
            self.comments.append(line.strip())
        elif head:
            self.end_section()
            self.sections.append(Section(head[1], self.line, comments=self.taken()))
        elif item and self.sections:
            self.end_edit()
            self.begin_item(self.sections[-1], *item.groups())
        elif part and self.sections and self.sections[-1].edits and self.sections[-1].reason is None:
            self.read_part(self.sections[-1].edits[-1], part[1], part[2] or "")
        else:
            self.refuse(f"a line that is none of the grammar: {line.strip()[:60]}")

    def begin_item(self, section: Section, name: str, said: str):
        if section.reason is not None or name == "none" and section.edits:
            self.refuse("a function has edits, or one line `none`")
        if name == "none":
            section.reason, section.reason_comments = said, self.taken()
            return
        section.edits.append(Edit(self.crate, self.source, section.function, name.removeprefix("always/"), said, [],
                                  is_always=name.startswith("always/"), comments=self.taken()))

    def read_part(self, edit: Edit, what: str, said: str):
        if edit.refused_by is not None:
            self.refuse("a line after `refused by`")
        if what == "refused by":
            if self.old is not None or self.path is not None or not said:
                self.refuse("`refused by` follows the pairs, and says what refuses")
            edit.refused_by = said
        elif what == "file":
            if self.old is not None or self.path is not None or not re.fullmatch(r"src/[\w/]+\.rt", said):
                self.refuse("a `file` stands before a pair, and is a source")
            self.path = said
        elif what == "old":
            if self.old is not None or not said:
                self.refuse("each `old` has a text, and its `new` after it")
            self.old = said
        else:
            if self.old is None:
                self.refuse("a `new` follows its `old`")
            edit.pairs.append(Pair(self.path or edit.source, self.old, said))
            self.path = self.old = None

    def end_edit(self):
        """Refuses an edit that lacks a line."""
        edits = self.sections[-1].edits
        if self.old is not None or self.path is not None or edits and not edits[-1].pairs:
            self.refuse("the edit before this line lacks `old` or `new`")

    def end_section(self):
        """Refuses a function that has nothing."""
        if self.sections:
            self.end_edit()
            if not self.sections[-1].edits and self.sections[-1].reason is None:
                self.refuse("the function before this line has neither an edit nor `none`")


def read(crate: str, source: str) -> Reader:
    """The sections of the edits of a source."""
    return Reader(crate, source, text_of(file_of(crate, source)))


def written(sections: list[Section], tail: list[str]) -> str:
    """The text of a file of edits."""
    blocks = []
    for section in sections:
        lines = [*section.comments, f"fn {section.function}"]
        if section.reason is not None:
            lines += [f"  {it}" for it in section.reason_comments] + [f"  none: {section.reason}"]
        for edit in section.edits:
            lines += [f"  {it}" for it in edit.comments]
            lines.append(f"  {'always/' if edit.is_always else ''}{edit.name}: {edit.wrong}")
            for path, old, new in edit.pairs:
                lines += [f"    file: {path}"] if path != edit.source else []
                lines += [f"    old: {old}", f"    new: {new}" if new else "    new:"]
            lines += [f"    refused by: {edit.refused_by}"] if edit.refused_by else []
        blocks.append("\n".join(lines) + "\n")
    return "\n".join(blocks + ["\n".join(tail) + "\n"] if tail else blocks)


def write(crate: str, source: str, sections: list[Section], tail: list[str]):
    """Writes a file of edits, all at once."""
    file = file_of(crate, source)
    os.makedirs(os.path.dirname(file), exist_ok=True)
    with open(f"{file}.new", "w", encoding="utf-8") as out:
        out.write(written(sections, tail))
    os.replace(f"{file}.new", file)


def add_refused_by(edit: Edit, said: str):
    """Adds to the file of an edit what refuses it, where that is missing."""
    reader = read(edit.crate, edit.source)
    for section in reader.sections:
        for it in section.edits:
            if (section.function, it.name, it.refused_by) == (edit.function, edit.name, None):
                it.refused_by = edit.refused_by = said
    write(edit.crate, edit.source, reader.sections, reader.tail)


def edits_of(crate: str) -> list[Edit]:
    """The edits of a crate, in the order of its sources and their functions."""
    return [edit for source in sources_of(crate) for section in read(crate, source).sections for edit in section.edits]


def without_edits(crate: str) -> list[tuple[str, str, str]]:
    """The functions of a crate of which a file says why they have no edit: source, function, reason."""
    return [(source, section.function, section.reason) for source in sources_of(crate)
            for section in read(crate, source).sections if section.reason is not None]


def exported(crate: str) -> tuple[set[str], set[str]]:
    """What the root of a library hands out: names of items, and of modules."""
    root = text_of(f"{ROOT}/crates/{crate}/src/lib.rt")
    names: set[str] = set()
    for one, several in re.findall(r"^pub use (?:\w+::)+(?:(\w+)|\{([^}]*)\});", root, re.M):
        names |= {one} if one else set(re.findall(r"\w+", several))
    return names, set(re.findall(r"^pub mod (\w+);", root, re.M))


def is_law(lines: list[str]) -> bool:
    """Whether a function only states something: it returns nothing, and is lent nothing that it could change."""
    head = itertools.takewhile(lambda line: not re.match(r"\s*(requires|ensures|\{)", line), lines)
    return not re.search(r"->|&(?:'\w+ )?mut\b", "\n".join(head))


def public_calls(crate: str) -> Iterator[tuple[str, str]]:
    """The functions that a user of a library can call, with their sources; laws aside."""
    names, modules = exported(crate)
    top = f"{ROOT}/crates/{crate}/"
    for file in sorted(glob.glob(f"{glob.escape(top)}src/**/*.rt", recursive=True)):
        source, text = file[len(top):], text_of(file)
        lines, module = text.split("\n"), file[len(f"{top}src/"):-len(".rt")]
        for function in functions_in(source, text):
            head = re.match(r'\s*pub (?:const |unsafe )*(extern "C" )?fn ', lines[function.first])
            owner = owner_of(function.impl) if function.impl else function.name
            is_out = head and (head[1] or owner in names or module in modules)
            if is_out and not is_law(lines[function.first:function.last + 1]):
                yield source, function.full_name()


def faults_of(crate: str) -> Iterator[str]:
    """What is wrong with a crate's edits: names, places, order, and texts that can't be applied."""
    seen: dict[str, str] = {}
    for source in sources_of(crate):
        file = os.path.relpath(file_of(crate, source), ROOT)
        if not os.path.isfile(f"{ROOT}/crates/{crate}/{source}"):
            yield f"{file}: there is no {source}"
            continue
        sections, functions = read(crate, source).sections, functions_of(crate, source)
        order = [*functions]
        places = [order.index(it.function) for it in sections if it.function in functions]
        if places != sorted(set(places)):
            yield f"{file}: its functions are not in the order of {source}: tests/edits.py {crate} --order"
        for section in sections:
            where = f"{file}:{section.line}"
            if section.function not in functions:
                yield f"{where}: {source} has no {section.function}: tests/edits.py {crate} --order"
            for edit in section.edits:
                if edit.name in seen:
                    yield f"{where}: {edit.name} is also in {seen[edit.name]}"
                seen[edit.name] = file
                yield from (f"{where}: {edit.name}: {why}" for why in faults_of_edit(edit, functions))


def faults_of_edit(edit: Edit, functions: dict[str, Function]) -> Iterator[str]:
    """What is wrong with an edit."""
    if len(edit.wrong) > MOST:
        yield f"what is wrong takes {len(edit.wrong)} letters, and half a line has {MOST}"
    if edit.applied({})[1]:
        yield edit.applied({})[1]
    elif edit.function in functions:
        changed = changed_by(edit)
        if changed and edit.function not in [it.full_name() for it in changed if it.path == edit.source]:
            yield f"it changes {', '.join(it.full_name() for it in changed)}, and stands at {edit.function}"


def changed_by(edit: Edit) -> list[Function]:
    """The functions in which the texts of an edit stand."""
    found = []
    for path, old, _ in edit.pairs:
        text = text_of(f"{ROOT}/crates/{edit.crate}/{path}")
        at = edit.place_of(path, text, old)
        if at is not None:
            line = text[:at].count("\n")
            around = [it for it in functions_in(path, text) if it.first <= line <= it.last]
            found += [max(around, key=lambda it: it.first)] if around else []
    return found


def ordered(crate: str, source: str):
    """Puts a file into the order of its source, and each edit at the function in which its texts stand."""
    reader = read(crate, source)
    functions = functions_of(crate, source)
    sections: dict[str, Section] = {}
    for section in reader.sections:
        places = {it.full_name() for edit in section.edits for it in changed_by(edit) if it.path == source}
        if section.function not in functions and len(places) == 1:
            section.function = places.pop()
        sections.setdefault(section.function, Section(section.function, section.line, reason=section.reason))
        sections[section.function].comments += section.comments
        sections[section.function].reason_comments += section.reason_comments
        sections[section.function].edits += section.edits
    places = {name: at for at, name in enumerate(functions)}
    found = sorted(sections.values(), key=lambda it: places.get(it.function, len(places)))
    write(crate, source, found, reader.tail)


def main() -> int:
    parser = argparse.ArgumentParser(usage="tests/edits.py CRATE.. [--order]")
    parser.add_argument("crates", nargs="+")
    parser.add_argument("--order", action="store_true")
    options = parser.parse_args()
    for crate in options.crates:
        for source in sources_of(crate) if options.order else []:
            ordered(crate, source)
    found = [it for crate in options.crates for it in faults_of(crate)]
    print("\n".join(found) if found else f"{sum(len(edits_of(it)) for it in options.crates)} wrong bodies are in order")
    return 1 if found else 0


if __name__ == "__main__":
    sys.exit(main())
