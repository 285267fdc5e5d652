"""The items of a file of code in Rattle: functions with their contracts, types, traits and impls."""
import functools
import re
from dataclasses import dataclass, field

from scripts.sources import Scope, scope_of, text_of


@dataclass
class Clause:
    """A clause of a contract: `requires`, `ensures` or a ghost member, its name, and its text by lines."""

    kind: str
    name: str
    lines: list[str]
    note: list[str]


@dataclass
class Item:
    """An item of a file of code: a function, a type, a trait, an impl or a constant."""

    kind: str
    name: str
    file: str
    line: int
    head: str
    doc: list[str]
    is_public: bool
    scope: Scope
    clauses: list[Clause] = field(default_factory=list)
    inner: list["Item"] = field(default_factory=list)
    members: list[tuple[str, str]] = field(default_factory=list)
    body: list[str] = field(default_factory=list)
    has_body: bool = False
    last: int = 0


HEAD = re.compile(
    r"(?P<indent> *)(?P<pub>pub(?:\(\w+\))? )?(?:const (?=fn)|unsafe |extern \"C\" )*"
    r"(?P<kind>fn|struct|enum|trait|const|type|impl)\b ?(?P<rest>.*)$"
)
IS_CLAUSE = re.compile(r" *(requires|ensures)\b")
CLAUSE = re.compile(r"(requires|ensures) (?:(\w+) )?\{ ?(.*?) ?\};?$", re.S)
GHOST = re.compile(r"(?:pub )?ghost (\w+)(?:: \{ (.*?) \}(?: by \{.*?\})?| = \{ (.*?) \})[,;]$", re.S)


@functools.lru_cache(maxsize=None)
def items_of(file: str) -> tuple[Item, ...]:
    """The items of a file of code, but for its tests."""
    lines = text_of(file).split("\n")
    return tuple(items_in(file, lines, (0, len(lines)), 0, scope_in(lines, 0)))


def scope_in(lines: list[str], indent: int) -> Scope:
    """What the `ghost use` lines of one indentation bring in."""
    return scope_of("\n".join(line for line in lines if re.match(rf" {{{indent}}}ghost use ", line)))


def items_in(file: str, lines: list[str], part: tuple[int, int], indent: int, scope: Scope):
    """The items of one indentation among some lines."""
    doc: list[str] = []
    at, stop = part
    while at < stop:
        line, found = lines[at], HEAD.match(lines[at])
        if line.strip().startswith("///"):
            doc.append(line.strip()[3:].strip())
        elif found and len(found["indent"]) == indent:
            end = end_of_item(lines, at, indent)
            yield item_in(file, lines, (at, end), found, doc, scope)
            doc, at = [], end
        elif re.match(rf" {{{indent}}}(pub )?mod \w+ \{{", line):
            doc, at = [], end_of_item(lines, at, indent)
        elif line.strip() and not line.strip().startswith("#["):
            doc = []
        at += 1


def end_of_item(lines: list[str], at: int, indent: int) -> int:
    """The last line of the item that begins at a line: that of its body, or the one that ends by a semicolon."""
    edge, depth = " " * indent, 0
    for number in range(at, len(lines)):
        line = lines[number]
        depth += line.count("{") - line.count("}")
        is_flat = line.endswith(";") or (line.endswith("{}") and not IS_CLAUSE.match(line))
        if line in (edge + "}", edge + "{}") or (is_flat and depth == 0):
            return number
    return len(lines) - 1


def opens(line: str) -> bool:
    """Whether a body begins at the end of a line."""
    return line.endswith(("{", " {}")) and not IS_CLAUSE.match(line)


def item_in(file: str, lines: list[str], part: tuple[int, int], found, doc: list[str], scope: Scope) -> Item:
    """The item whose first and last lines are given."""
    at, end = part
    indent, kind = len(found["indent"]), found["kind"]
    edge, stop = " " * indent, at
    after_head = re.compile(rf"{edge}(\{{|    (requires|ensures|//))")
    while stop < end and not (lines[stop].endswith("{") or after_head.match(lines[stop + 1])):
        stop += 1
    head = " ".join(line.strip() for line in lines[at : stop + 1])
    head = re.sub(r"\s*(\{\}?|;)$", "", re.sub(r",? (?=[)>])", "", re.sub(r"(?<=[(<]) ", "", head)))
    name, is_public = name_in(kind, found["rest"]), found["pub"] == "pub "
    item = Item(kind, name, file, at + 1, head, doc, is_public, scope, last=end + 1)
    if kind == "fn":
        bodies = [n for n in range(at, end + 1) if lines[n] in (edge + "{", edge + "{}") or opens(lines[n])]
        item.body = lines[bodies[0] + 1 : end] if bodies else []
        item.has_body = bool(bodies)
        item.clauses = list(clauses_in(lines[stop + 1 : bodies[0] if bodies else end + 1], indent + 4))
    elif kind in ("impl", "trait"):
        inside = lines[at + 1 : end]
        item.scope = scope.and_inner(scope_in(inside, indent + 4))
        item.clauses = list(ghosts_in(inside, indent + 4))
        item.inner = list(items_in(file, lines, (at + 1, end), indent + 4, item.scope))
    elif kind in ("struct", "enum"):
        inside = lines[at + 1 : end]
        item.clauses = list(ghosts_in(inside, indent + 4))
        item.members = members_in(inside, indent + 4, kind)
    return item


def name_in(kind: str, rest: str) -> str:
    """The name of an item, and of an impl the name of its type."""
    if kind != "impl":
        return re.match(r"\w*", rest).group()
    return re.findall(r"\w+", without_arguments(parts_of_impl(rest)[1]))[-1]


def without_arguments(text: str) -> str:
    """A type without its arguments in angle brackets."""
    while re.search(r"<[^<>]*>", text):
        text = re.sub(r"<[^<>]*>", "", text)
    return text


def parts_of_impl(rest: str) -> tuple[str, str]:
    """The trait of an impl, if it has one, and its type; `rest` follows the word `impl`."""
    text, depth = rest.split(" where ")[0].rstrip(" {"), 0
    if text.startswith("<"):
        for at, letter in enumerate(text):
            depth += {"<": 1, ">": -1}.get(letter, 0)
            if depth == 0:
                text = text[at + 1 :]
                break
    trait, _, of = text.strip().rpartition(" for ")
    return trait, of


def owner_of(item: "Item") -> str:
    """How the functions of an impl or a trait are named: `Type`, or `<Type as Trait>`."""
    if item.kind != "impl":
        return item.name
    trait = parts_of_impl(item.head.removeprefix("impl"))[0]
    short = re.sub(r"<'\w+>|'\w+,? ?", "", trait)
    return f"<{item.name} as {short}>" if short else item.name


def clauses_in(lines: list[str], indent: int):
    """The clauses of a contract, each with the comment before it."""
    note: list[str] = []
    begun: list[str] = []
    for line in lines + [" " * indent + "ensures { }"]:
        is_next = re.match(rf" {{{indent}}}(requires|ensures|//)", line)
        if is_next and begun:
            kind, name, text = CLAUSE.match("\n".join(begun)).groups()
            yield Clause(kind, name or "", text.split("\n"), note)
            begun, note = [], []
        if is_next and line.strip().startswith("//"):
            note.append(line.strip()[2:].strip())
        elif line.strip():
            begun.append(line[indent:])


def ghosts_in(lines: list[str], indent: int):
    """The ghost members of a trait, an impl or a struct."""
    begun: list[str] = []
    for line in lines:
        if begun or re.match(rf" {{{indent}}}(pub )?ghost (?!use )\w+", line):
            begun.append(line[indent:])
        found = GHOST.match("\n".join(begun)) if begun else None
        if found:
            yield Clause("ghost", found[1], (found[2] or found[3]).split("\n"), [])
            begun = []


def members_in(lines: list[str], indent: int, kind: str) -> list[tuple[str, str]]:
    """The variants of an enum, or the public fields of a struct, each with its first sentence."""
    found: list[tuple[str, str]] = []
    doc: list[str] = []
    begun: list[str] = []
    for line in lines:
        if not begun and line.strip().startswith("///"):
            doc.append(line.strip()[3:].strip())
        elif begun or (line.startswith(" " * indent) and re.match(r"(pub )?(?!ghost )\w", line[indent:])):
            begun.append(line)
            text = " ".join(" ".join(begun).split())
            if text.endswith(",") and text.count("{") == text.count("}"):
                if kind == "enum" or text.startswith("pub "):
                    short = re.sub(r",? \}$", " }", text.removeprefix("pub ").rstrip(","))
                    found.append((short, first_sentence(doc)))
                doc, begun = [], []
        elif not line.strip().startswith("#["):
            doc = []
    return found


def first_sentence(doc: list[str]) -> str:
    """The first sentence of a comment, or all of its first paragraph where that is none."""
    paragraph = " ".join(doc[: doc.index("")] if "" in doc else doc)
    sentence = re.match(r".*?\.(?=\s|$)", paragraph)
    return sentence.group() if sentence else paragraph
