#!/usr/bin/env python3
"""Makes what follows from embed/include/lemonrudder.h, or says which files differ.

- embed/lemonrudder.map: the functions that the shared library exports.
- embed/errors.h: the names and texts of errors, for embed/support.c.
- bindings/rust/lemonrudder-sys/src/header.rs: constants, structs and functions.
- bindings/python/lemonrudder/_table.py: enumerations, structs and functions.

    scripts/header.py            says what differs; the status is 0 where nothing does
    scripts/header.py --write    writes them

The header is read as it is written: an enumeration, struct or function has the form of those that are there. Names of
numbers are of families, by how they begin (FAMILIES), and what the library has of later versions of its series stands
in ADDED.
"""
from __future__ import annotations

import argparse
import os
import re
import sys
import textwrap
from dataclasses import dataclass, replace

sys.path.insert(0, os.path.dirname(os.path.dirname(os.path.realpath(__file__))))
from scripts.crates import ROOT  # noqa: E402
from scripts.library import VERSION, node  # noqa: E402
from scripts.sources import Missing  # noqa: E402

HEADER = "embed/include/lemonrudder.h"
MADE_OF = f"Made by scripts/header.py of {HEADER}; not to be edited."
SLOTS = ("lr_catalogue", "lr_server", "lr_client", "lr_assembler", "lr_ior")
# by the version that adds them: functions of later versions than the first of the series
ADDED: dict[str, tuple[str, ...]] = {}


@dataclass(frozen=True)
class Family:
    """Names of numbers that begin alike: their type in Rust, and what their enumeration is called in Python; the family
    before, if any, whose numbers it has too."""

    prefix: str
    rust: str
    python: str
    also: str = ""


FAMILIES = [
    Family("LR_E_", "i64", "Error"), Family("LR_ORDER_", "u32", "Order"), Family("LR_WISH_", "u32", "Wish"),
    Family("LR_REPLY_", "u32", "ReplyStatus"), Family("LR_LOCATE_", "u32", "LocateStatus"),
    Family("LR_EX_", "u32", "SystemName"), Family("LR_COMPLETED_", "u32", "Completed"),
    Family("LR_PART_", "u32", "Part"), Family("LR_CONTEXT_", "u32", "ContextId"), Family("LR_TYPE_", "u8", "Code"),
    Family("LR_SET_", "u32", "ServerSetting"), Family("LR_COUNT_", "u32", "Counted"),
    Family("LR_CLIENT_", "u32", "ClientSetting"), Family("LR_ENDED_", "u32", "Ended"),
    Family("LR_FAULT_", "u32", "Fault"), Family("LR_WHY_", "u32", "Why", "LR_FAULT_"),
    Family("LR_CUTS_", "u32", "Cuts"), Family("LR_MSG_", "u32", "MessageType"), Family("LR_IOR_", "u32", "IorPart"),
]


@dataclass(frozen=True)
class Named:
    """A name of a number, what follows the beginning that its family has, and what its comment says, if it has one."""

    name: str
    short: str
    number: int
    comment: str


@dataclass(frozen=True)
class Declared:
    """A field, a parameter or a function: its type in C, written as `const void *`, and its name."""

    kind: str
    name: str


@dataclass(frozen=True)
class Function:
    """A function that the library has, and its parameters."""

    declared: Declared
    parameters: list[Declared]


@dataclass(frozen=True)
class Header:
    """What the header declares."""

    families: list[tuple[Family, str, list[Named]]]
    structs: list[tuple[str, list[Declared]]]
    functions: list[Function]


# --------------------------------------------------------------------------------------------------- reading


def without_comments(text: str) -> str:
    """A text of C without its comments."""
    return re.sub(r"/\*.*?\*/", "", text, flags=re.S)


def declared(text: str) -> Declared:
    """A declaration, as `const void *octets` or `void *(*allocate)(size_t)`."""
    pointed = re.fullmatch(r"\s*(.*?)\(\*(\w+)\)(\(.*\))\s*", text, re.S)
    if pointed:
        return Declared(f"{pointed[1]}(*){pointed[3]}", pointed[2])
    found = re.fullmatch(r"\s*(.*?)(\w+)\s*", text, re.S)
    if not found or not found[1].strip():
        raise Missing(f"{HEADER}: no declaration: {text.strip()}")
    return Declared(" ".join(found[1].split()), found[2])


def parameters_of(text: str) -> list[Declared]:
    """The parameters of a function."""
    return [] if text.strip() == "void" else [declared(each) for each in re.split(r",(?![^(]*\))", text)]


def functions_of(text: str) -> list[Function]:
    """The functions that are marked as the library's."""
    found = re.findall(r"^LR_API ([^;{}]*?\b\w+)\(((?:[^;{}])*)\);", without_comments(text), re.M)
    return [Function(declared(head), parameters_of(tail)) for head, tail in found]


def structs_of(text: str) -> list[tuple[str, list[Declared]]]:
    """The structs that are no slots, with their fields."""
    found = re.findall(r"typedef struct \{([^}]*)\} (\w+);", without_comments(text))
    return [(name, [declared(each) for each in fields.split(";") if each.strip()])
            for fields, name in found if name not in SLOTS]


def said(comment: str) -> str:
    """What a comment says, in one line."""
    return " ".join(re.sub(r"^ \* ?", "", line).strip() for line in comment.strip("*/ ").split("\n")).strip()


def named_of(family: Family, body: str) -> list[Named]:
    """The names of a family in the body of an enumeration."""
    found: list[Named] = []
    for name, value, comment in re.findall(r"\b(LR_\w+) = ([-\w]+),?[ \t]*(?:/\*(.*?)\*/)?", body):
        if name.startswith(family.prefix):
            numbers = {each.name: each.number for each in found}
            number = numbers[value] if value in numbers else int(value)
            found.append(Named(name, name[len(family.prefix):], number, comment.strip()))
    return found


def families_of(text: str) -> list[tuple[Family, str, list[Named]]]:
    """The families, each with what stands above its enumeration, and its names."""
    enums = re.findall(r"(?:/\*((?:(?!\*/).)*)\*/\n)?enum \{(.*?)\};", text, re.S)
    families = []
    for family in FAMILIES:
        parts = [(above, named_of(family, body)) for above, body in enums if re.search(rf"\b{family.prefix}\w", body)]
        if len(parts) != 1:
            raise Missing(f"{HEADER}: {family.prefix} is {len(parts)} enumerations")
        families.append((family, said(parts[0][0]), parts[0][1]))
    known = {"LR_OK", *(each.name for _, _, names in families for each in names)}
    others = set(re.findall(r"\b(LR_\w+) =", without_comments(text))) - known
    if others:
        raise Missing(f"{HEADER}: of no family: {' '.join(sorted(others))}")
    return families


def read(text: str) -> Header:
    """What a header declares."""
    return Header(families_of(text), structs_of(text), functions_of(text))


# ------------------------------------------------------------------------------------------ what is exported

MAP_HEAD = f"""/*
 * {MADE_OF}
 *
 * The functions that the shared library exports. A program does not start with a library that lacks a node of what the
 * program calls: so a release that adds functions has a node for them, named for the release, that stands on the one
 * before it. A series (scripts/library.py) begins with one node, of a name that is its own: where libraries of two
 * series are in one process, neither is called in place of the other.
 */
"""


def lines_of_names(names: list[str]) -> str:
    """Lines of names in a node."""
    return "".join(f"    {name};\n" for name in names)


def the_map(header: Header) -> str:
    """The script for the linker."""
    later = {name for names in ADDED.values() for name in names}
    first = [each.declared.name for each in header.functions if each.declared.name not in later]
    last = node(VERSION)
    text = f"{MAP_HEAD}{last} {{\n  global:\n{lines_of_names(first)}  local:\n    *;\n}};\n"
    for version, names in ADDED.items():
        added = f"LEMONRUDDER_{version}".replace(".", "_")
        text += f"\n{added} {{\n  global:\n{lines_of_names(list(names))}}} {last};\n"
        last = added
    return text


def errors(header: Header) -> str:
    """The names and texts of errors."""
    names = next(names for family, _, names in header.families if family.prefix == "LR_E_")
    lines = " \\\n".join(f'  E({each.short}, "{each.comment}")' for each in names)
    return (f"/* {MADE_OF} The errors: what follows LR_E_ in the name of each, and its text. */\n"
            f"#define ERRORS(E) \\\n{lines}\n")


# ------------------------------------------------------------------------------------------------------ Rust

RUST_TYPES = {
    "void": "c_void", "char": "c_char", "uint8_t": "u8", "uint16_t": "u16", "int16_t": "i16", "uint32_t": "u32",
    "int32_t": "i32", "uint64_t": "u64", "int64_t": "i64", "size_t": "usize",
}
RUST_WIDTH = 100


def in_rust(each: Declared) -> str:
    """A type of C in Rust. A pointer to what is no octets is a reference."""
    pointed = re.fullmatch(r"(.*?)\(\*\)\((.*)\)", each.kind)
    if pointed:
        words = ", ".join(in_rust(Declared(kind, "")) for kind in pointed[2].split(", "))
        answer = answer_in_rust(Declared(pointed[1], ""))
        return f'Option<unsafe extern "C" fn({words}){answer}>'
    kind = each.kind.replace("const ", "")
    base = kind.rstrip("* ")
    name = "lr_slot" if base in SLOTS or (base, each.name) == ("void", "slot") else RUST_TYPES.get(base, base)
    if not kind.endswith("*"):
        return name
    if each.kind.startswith("const "):
        return f"*const {name}"
    return f"*mut {name}" if name == "c_void" else f"&mut {name}"


def answer_in_rust(each: Declared) -> str:
    """What a function answers, in Rust."""
    return "" if each.kind.strip() == "void" else f" -> {in_rust(each)}"


def word(name: str) -> str:
    """A name in Rust."""
    return f"r#{name}" if name in ("type", "move", "ref", "in") else name


def function_in_rust(function: Function) -> str:
    """A declaration. It is safe where it takes neither octets nor a size."""
    words = [f"{word(each.name)}: {in_rust(each)}" for each in function.parameters]
    is_safe = not any("*const" in each or "*mut" in each or each.endswith("usize") for each in words)
    # (what it is given is kept, and is called)
    is_safe = is_safe and not any("fn(" in each for each in words)
    head = f"    pub {'safe ' if is_safe else ''}fn {function.declared.name}("
    answer = answer_in_rust(function.declared)
    line = f"{head}{', '.join(words)}){answer};\n"
    if len(line) <= RUST_WIDTH + 1:
        return line
    return head + "\n" + "".join(f"        {each},\n" for each in words) + f"    ){answer};\n"


def rust(header: Header) -> str:
    """The declarations of the crate lemonrudder-sys."""
    parts = [f"// {MADE_OF}\n\n//! What `lemonrudder.h` declares, which says what each does.\n\n"
             "use crate::lr_slot;\nuse core::ffi::{c_char, c_void};\n\npub const LR_OK: i64 = 0;\n"]
    for family, _, names in header.families:
        parts.append("\n" + "".join(f"pub const {each.name}: {family.rust} = {each.number};\n" for each in names))
    for name, fields in header.structs:
        lines = "".join(f"    pub {word(each.name)}: {in_rust(each)},\n" for each in fields)
        parts.append(f"\n#[repr(C)]\n#[derive(Clone, Debug, Default)]\npub struct {name} {{\n{lines}}}\n")
    parts.append("\n// SAFETY: they are declared as in the header. Those that are safe take slots and numbers alone,"
                 " or\n// numbers that they fill.\n#[rustfmt::skip]\nunsafe extern \"C\" {\n")
    parts += [function_in_rust(each) for each in header.functions]
    return "".join(parts) + "}\n"


# ---------------------------------------------------------------------------------------------------- Python

PYTHON_WIDTH = 120
PYTHON_HEAD = '''"""{}

The numbers that have names, by families and all of them; the structs, with the types of their fields; and of each
function the type of what it answers and those of its parameters. Types are in the words of C.
"""
import enum
from typing import Dict, Tuple

VERSION = ({})
'''


def wrapped(words: list[str]) -> str:
    """Words of a list within a list, so many in each line as fit."""
    lines = [""]
    for each in words:
        if lines[-1] and len(f"        {lines[-1]} {each},") > PYTHON_WIDTH:
            lines.append("")
        lines[-1] += (" " if lines[-1] else "") + each + ","
    return "".join(f"        {line}\n" for line in lines)


def doc(text: str, indent: str) -> str:
    """A document of Python, of what a comment of C says."""
    lines = textwrap.wrap(text, PYTHON_WIDTH - len(indent) - 6, break_long_words=False) or [""]
    if len(lines) == 1:
        return f'{indent}"""{lines[0]}"""\n'
    return f'{indent}"""{lines[0]}\n' + "".join(f"{indent}{line}\n" for line in lines[1:]) + f'{indent}"""\n'


def enum_in_python(header: Header, family: Family, above: str, names: list[Named]) -> str:
    """An enumeration of Python."""
    if family.also:
        others = next(others for one, _, others in header.families if one.prefix == family.also)
        names = sorted([*names, *(replace(each, short=each.name[len("LR_"):]) for each in others)],
                       key=lambda each: each.number)
    lines = "".join(f"    {each.short} = {each.number}\n" + (doc(each.comment, "    ") if each.comment else "")
                    for each in names)
    about = doc(above, "    ") if above else doc(f"{family.prefix}.. of lemonrudder.h.", "    ")
    return f"\n\nclass {family.python}(enum.IntEnum):\n{about}\n{lines}"


def entry(name: str, before: str, words: list[str], after: str) -> str:
    """An entry of a table, which is a tuple of words, in one line where that is short enough."""
    line = f'    "{name}": {before}({", ".join(words)}{"," * (len(words) == 1)}){after},\n'
    return line if len(line) <= PYTHON_WIDTH + 1 else f'    "{name}": {before}(\n{wrapped(words)}    ){after},\n'


def python(header: Header) -> str:
    """The table of the module for Python."""
    parts = [PYTHON_HEAD.format(MADE_OF, ", ".join(VERSION.split(".")))]
    parts += [enum_in_python(header, *each) for each in header.families]
    parts.append("\n\nCONSTANTS: Dict[str, int] = {\n    \"LR_OK\": 0,\n")
    parts += [f'    "{each.name}": {each.number},\n' for _, _, names in header.families for each in names]
    parts.append("}\n\nSTRUCTS: Dict[str, Tuple[Tuple[str, str], ...]] = {\n")
    slot = ['("kind", "uint32_t")', '("at", "void *")']
    parts += [entry(name, "", slot, "") for name in SLOTS]
    parts += [entry(name, "", [f'("{each.name}", "{each.kind}")' for each in fields], "")
              for name, fields in header.structs]
    parts.append("}\n\nFUNCTIONS: Dict[str, Tuple[str, Tuple[str, ...]]] = {\n")
    parts += [entry(each.declared.name, f'("{each.declared.kind}", ',
                    [f'"{parameter.kind}"' for parameter in each.parameters], ")") for each in header.functions]
    return "".join(parts) + "}\n"


# ------------------------------------------------------------------------------------------------------ files

FILES = {
    "embed/lemonrudder.map": the_map,
    "embed/errors.h": errors,
    "bindings/rust/lemonrudder-sys/src/header.rs": rust,
    "bindings/python/lemonrudder/_table.py": python,
}


def text_of(name: str) -> str:
    """What a file of the repository has; nothing, where there is none."""
    path = os.path.join(ROOT, name)
    if not os.path.exists(path):
        return ""
    with open(path, encoding="utf-8") as file:
        return file.read()


def made() -> dict[str, str]:
    """What each file is to be."""
    header = read(text_of(HEADER))
    return {name: make(header) for name, make in FILES.items()}


def differing() -> dict[str, str]:
    """The files that are not what they would be made as, and what they would be."""
    return {name: text for name, text in made().items() if text_of(name) != text}


def main() -> int:
    parser = argparse.ArgumentParser(usage="scripts/header.py [--write]")
    parser.add_argument("--write", action="store_true", help="writes the files")
    words = parser.parse_args()
    wrong = differing()
    for name, text in wrong.items():
        print(f"written: {name}" if words.write else f"{name} is not what it is made of: scripts/header.py --write")
        if words.write:
            with open(os.path.join(ROOT, name), "w", encoding="utf-8") as file:
                file.write(text)
    return 1 if wrong and not words.write else 0


if __name__ == "__main__":
    sys.exit(main())
