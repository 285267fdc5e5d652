#!/usr/bin/env python3
"""Writes, or compares, what C reads of embed/store/outcomes.*.sql, where the tables of outcomes are and what is said to
them: embed/store/outcomes.*.h. Python and Rust read the texts themselves.

    python3 -m scripts.outcomes [--write]
"""
import os
import re
import sys

from scripts.crates import ROOT

STORE = os.path.join(ROOT, "embed", "store")
KINDS = ("sqlite", "postgres")


def statements(text: str) -> dict[str, str]:
    """What is said, by its names."""
    parts = re.split(r"^-- :(.+)\n", text, flags=re.M)[1:]
    return {name: re.sub(r"^--.*\n", "", said, flags=re.M).strip() for name, said in zip(parts[::2], parts[1::2])}


def quoted(line: str) -> str:
    """A line as a literal of C."""
    return '"' + line.replace("\\", "\\\\").replace('"', '\\"') + '\\n"'


def header(kind: str) -> str:
    """What C reads of a text."""
    with open(os.path.join(STORE, f"outcomes.{kind}.sql"), encoding="ascii") as file:
        all_said = statements(file.read())
    rows = []
    for name, said in all_said.items():
        lines = "\n".join(f"     {quoted(line)}" for line in said.split("\n"))
        rows.append(f'    {{"{name}",\n{lines}}},\n')
    return (f"/* Made of outcomes.{kind}.sql by `python3 -m scripts.outcomes --write`: change that. */\n"
            f"static const char *const texts[][2] = {{\n{''.join(rows)}}};\n")


def made() -> dict[str, str]:
    """Each header, by its path."""
    return {os.path.join(STORE, f"outcomes.{kind}.h"): header(kind) for kind in KINDS}


def differing() -> list[str]:
    """The paths of the headers that are not what is made."""
    found = []
    for path, text in made().items():
        with open(path, encoding="ascii") as file:
            found += [path] * (file.read() != text)
    return found


def main(words: list[str]) -> int:
    """Writes them, or says which differ."""
    if words == ["--write"]:
        for path, text in made().items():
            with open(path, "w", encoding="ascii") as file:
                file.write(text)
    found = differing()
    print("\n".join(found), end="\n" if found else "")
    return 1 if found else 0


if __name__ == "__main__":
    sys.exit(main(sys.argv[1:]))
