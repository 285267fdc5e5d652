"""Lays crates of tests out as the modules of one, so that what all of them stand on is read and compiled once: programs,
whose functions `main` are told apart in the text that is compiled, or test functions."""
from __future__ import annotations

import os
import re
import shutil
from collections.abc import Iterator

from scripts.crates import ROOT, needed
from scripts.modules import PARTS

# the crate whose modules they are
TOP = "together"
# the root of programs: whichever is called where it runs by itself, each of them is in it
MAIN = """
fn count(rt: &HostRuntime) -> usize {{
    match std::env::args(rt) {{
        Ok(words) => words.len(),
        Err(_) => 0,
    }}
}}

fn main(rt: HostRuntime) -> std::process::ExitCode {{
    match count(&rt) {{
{arms}
        _ => {last}::main(rt),
    }}
}}
"""


def texts_of(crate: str, part: str) -> Iterator[tuple[str, str]]:
    """Each file of a part of a crate: its path there, and its text."""
    top = os.path.join(ROOT, "crates", crate, part)
    for folder, _, names in sorted(os.walk(top)):
        for name in sorted(names):
            path = os.path.join(folder, name)
            with open(path, encoding="utf-8") as file:
                yield os.path.relpath(path, top), file.read()


def write(path: str, text: str) -> None:
    os.makedirs(os.path.dirname(path), exist_ok=True)
    with open(path, "w", encoding="utf-8") as file:
        file.write(text)


def as_module(crate: str, text: str) -> str:
    """A source of a crate as that of a module. What says how it is proved is left out."""
    text = re.sub(r"^ *#!?\[tactic\([^\]]*\)\]\n", "", text, flags=re.M)
    return text.replace("crate::", f"crate::{crate}::").replace(f"Rattle.{crate}.", f"Rattle.{TOP}.")


def lay_out(tree: str, crates: list[str], known: dict[str, list[str]], are_programs: bool) -> None:
    """Makes a repository in a folder, with the one crate and those that it stands on."""
    crate_folder = os.path.join(tree, "crates", TOP)
    for crate in crates:
        for path, text in texts_of(crate, "src"):
            is_root = path in ("main.rt", "lib.rt")
            text = re.sub(r"^fn main\(", "pub fn main(", as_module(crate, text), flags=re.M)
            write(os.path.join(crate_folder, "src", f"{crate}.rt" if is_root else os.path.join(crate, path)), text)
        for path, text in texts_of(crate, "specs"):
            write(os.path.join(crate_folder, "specs", path), as_module(crate, text))
    modules = "".join(f"mod {crate};\n" for crate in crates)
    arms = "\n".join(f"        {at} => {crate}::main(rt)," for at, crate in enumerate(crates[:-1]))
    root = MAIN.format(arms=arms, last=crates[-1]) if are_programs else ""
    write(os.path.join(crate_folder, "src", "main.rt" if are_programs else "lib.rt"),
          f"//! Crates of tests as the modules of one.\n#![tactic(auto)]\n\n{modules}{root}")
    lay_below(tree, crates, known)


def lay_below(tree: str, crates: list[str], known: dict[str, list[str]]) -> None:
    """Copies what the crates stand on, and says which crates there are."""
    named = list(dict.fromkeys(it for crate in crates for it in known[crate]))
    below = {it for name in named if name in known for it in needed(name, known)}
    lines = [f"{name}: {' '.join(known[name])}\n" for name in known if name in below]
    for name in below:
        for part in PARTS:
            source = os.path.join(ROOT, "crates", name, part)
            if os.path.isdir(source):
                shutil.copytree(source, os.path.join(tree, "crates", name, part))
    write(os.path.join(tree, "crates.txt"), "".join([*lines, f"{TOP}: {' '.join(named)}\n"]))
    shutil.copy(os.path.join(ROOT, "HANDLES"), tree)


def functions(text: str, symbols: str) -> list[str]:
    """The texts of the functions in a module that have such symbols."""
    return re.findall(rf"^define [^\n]*@{symbols}\(.*?^}}\n", text, re.M | re.S)


def told_apart(text: str, crates: list[str]) -> str:
    """The text of a module that has `main_CRATE` for each crate in place of `main`, and what that runs by."""
    (main,), by = functions(text, "main"), functions(text, rf'"{TOP}::main\+[^"]*"')
    made = []
    for crate in crates:
        for one in (main.replace("@main(", f"@main_{crate}("), *by):
            made.append(re.sub(rf'@"{TOP}::main(?=[+"])', f'@"{TOP}::{crate}::main', one))
    return text.replace(main, "\n".join(made))
