"""What the sources in Rattle define, by file and line, and what a file brings in."""
import functools
import os
import re
from dataclasses import dataclass, field

from scripts.crates import ROOT, listed


class Missing(Exception):
    """A page needs something of the sources that is not there."""


@functools.lru_cache(maxsize=None)
def text_of(name: str) -> str:
    with open(os.path.join(ROOT, name), encoding="utf-8") as file:
        return file.read()


@functools.lru_cache(maxsize=None)
def crates_here() -> frozenset[str]:
    """The crates of crates.txt."""
    return frozenset(listed())


@functools.lru_cache(maxsize=None)
def files_of(crate: str, folder: str) -> tuple[str, ...]:
    """The sources in a folder of a crate, by path."""
    found = []
    for where, inner, names in os.walk(os.path.join(ROOT, "crates", crate, folder)):
        inner.sort()
        found += [os.path.relpath(os.path.join(where, n), ROOT) for n in sorted(names) if n.endswith((".rt", ".antt"))]
    return tuple(found)


# ------------------------------------------------------------------------------------------------ definitions


@dataclass(frozen=True)
class Definition:
    """A block of definitions of specs/ with its comment: its lines, the line of each name, the words that it uses."""

    first: int
    last: int
    names: tuple[tuple[str, int], ...]
    words: frozenset[str]


DECLARED = re.compile(r"(?:  )?(?:abbrev |unfoldable |mutual )*pub (?:(data|record) )?([^\s:({]+)")
MEMBER = re.compile(r"\s+([^\s:()]+) :")
WORD = re.compile(r"[^\s(){}\[\],;]+")


@functools.lru_cache(maxsize=None)
def definitions(name: str) -> tuple[Definition, ...]:
    """The definitions of a file: the blocks of lines between empty ones that declare something."""
    return tuple(blocks(text_of(name).split("\n")))


def blocks(lines: list[str]):
    start, within = 0, False
    while start < len(lines):
        end = start
        while end < len(lines) and lines[end].strip():
            end += 1
        names, within = names_in(lines[start:end], start, within)
        if names:
            first = start
            while lines[first].startswith(("use ", "pub use ")):
                first += 1
            used = [line for line in lines[first:end] if not line.startswith("use ")]
            code = "\n".join(re.sub(r"(^|\s)--( .*)?$", "", line) for line in used)
            yield Definition(first + 1, end, names, frozenset(WORD.findall(code)) | frozenset(re.findall(r"\w+", code)))
        start = end + 1


def names_in(block: list[str], start: int, within: bool):
    """The names that a block declares, each with its line, and whether what follows stands in a `module _`."""
    names, is_data = [], False
    for number, line in enumerate(block, start + 1):
        if line and not line.startswith((" ", "--")):
            within = line.startswith(("module ", "mutual", "abbrev mutual", "unfoldable mutual"))
        declared = DECLARED.match(line)
        if declared and (not line.startswith(" ") or within) and not re.match(r"pub (mod|use)\b", line):
            names.append((declared.group(2), number))
            is_data = declared.group(1) == "data"
        elif is_data and MEMBER.match(line):
            names.append((MEMBER.match(line).group(1), number))
    return tuple(names), within


@functools.lru_cache(maxsize=None)
def lines_of_names(name: str) -> dict[str, int]:
    """The line of each name that a file defines."""
    found: dict[str, int] = {}
    for block in definitions(name):
        for word, number in block.names:
            found.setdefault(word, number)
    return found


# ------------------------------------------------------------------------------------------------ what is brought in

USE = re.compile(r"^ *(?:ghost |pub )?use Rattle\.(\w+)\.specs\.([\w.]+?)(?:\.\{(.*?)\}| as (\w+))?;?$", re.M | re.S)


@dataclass(frozen=True)
class Place:
    """Where a definition stands: a file, its line, and the name that the line defines."""

    file: str
    line: int
    name: str


@dataclass
class Scope:
    """What `use` lines bring in: the place of each name, and the path of each short name of a module."""

    names: dict[str, tuple[str, str, str]] = field(default_factory=dict)
    modules: dict[str, tuple[str, str]] = field(default_factory=dict)

    def and_inner(self, other: "Scope") -> "Scope":
        return Scope({**self.names, **other.names}, {**self.modules, **other.modules})

    def place(self, word: str) -> Place | None:
        """Where the definition stands that a word of a clause names, if it is one of this repository."""
        head, _, rest = word.partition(".")
        if head in self.modules:
            return place_of(*self.modules[head], rest.partition(".")[0]) if rest else None
        if head not in self.names:
            return None
        place = place_of(*self.names[head])
        if place is None and self.names[head][0] in crates_here():
            raise Missing(f"nothing defines {head}, which a `use` line brings in from {'.'.join(self.names[head])}")
        return place


def scope_of(text: str) -> Scope:
    scope = Scope()
    for crate, path, listed, short in USE.findall(text):
        for name in re.split(r",\s*", listed.strip()) if listed else []:
            word, _, other = name.strip().partition(" as ")
            scope.names[other or word] = (crate, path, word)
        if short:
            scope.modules[short] = (crate, path)
    return scope


@functools.lru_cache(maxsize=None)
def place_of(crate: str, path: str, word: str) -> Place | None:
    """Where a name stands that a path of a crate leads to: in specs/, or for what a derive made at the type in src/."""
    if not os.path.isdir(os.path.join(ROOT, "crates", crate)):
        return None
    parts = path.split(".")
    if parts[0] in ("declared", "contracts"):
        return place_of_type(crate, parts[1:], word)
    file = f"crates/{crate}/specs/{'/'.join(parts)}.antt"
    if not os.path.exists(os.path.join(ROOT, file)):
        return None
    if word in lines_of_names(file):
        return Place(file, lines_of_names(file)[word], word)
    for name, (inner, at, meant) in scope_of(re.sub(r"^use .*$", "", text_of(file), flags=re.M)).names.items():
        if name == word:
            return place_of(inner, at, meant)
    return None


def place_of_type(crate: str, parts: list[str], word: str) -> Place | None:
    """The type of the code that a path such as `limits.Limits` names, or its variant."""
    for cut in range(len(parts), 0, -1):
        file = f"crates/{crate}/src/{'/'.join(parts[:cut])}.rt"
        if os.path.exists(os.path.join(ROOT, file)) and cut < len(parts):
            break
    else:
        return None
    within, kind = False, "const" if parts[cut] == "TheConstants" else "struct|enum|trait|type"
    name = word if kind == "const" else parts[cut]
    for number, line in enumerate(text_of(file).split("\n"), 1):
        if re.match(rf"(?:pub(?:\(\w+\))? )?(?:{kind}) {name}\b", line):
            within, at = True, number
            if "TheVariants" not in parts or line.endswith(";"):
                return Place(file, number, name)
        elif within and re.match(rf"    {word}\b", line):
            return Place(file, number, word)
        elif within and line == "}":
            return Place(file, at, name)
    return None
