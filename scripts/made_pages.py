#!/usr/bin/env python3
"""Makes the pages, and parts of pages, that follow from crates.txt, the sources and `giop help`, or says which differ.

- docs/ROOMS.md: each crate and each of its files, in the words with which they begin.
- The code that pages quote of the sources (scripts/quoted.py says by which marks).
- docs/giop.1, docs/giop.bash, and the tables of options in docs/CLI.md: what `giop help` prints.

    scripts/made_pages.py [--program PROGRAM]            says what differs; the status is 0 where nothing does
    scripts/made_pages.py [--program PROGRAM] --write    writes them

Without a program the pages of its help are left out. What follows from contracts is made by scripts/contracts.py.
"""
import argparse
import os
import re
import subprocess
import sys

sys.path.insert(0, os.path.dirname(os.path.dirname(os.path.realpath(__file__))))
from scripts.crates import ROOT, listed  # noqa: E402
from scripts.quoted import MARK, with_quotes  # noqa: E402
from scripts.sources import Missing  # noqa: E402

SECONDS = 20
ROOMS, PAGE, COMPLETIONS, CLI = "docs/ROOMS.md", "docs/giop.1", "docs/giop.bash", "docs/CLI.md"


def text_of(name: str) -> str:
    with open(os.path.join(ROOT, name), encoding="utf-8") as file:
        return file.read()


# ------------------------------------------------------------------------------------------------- ROOMS

ROOMS_HEAD = """<!-- Made by scripts/made_pages.py of crates.txt and the sources; not to be edited. -->
# The floors and the rooms

A crate is a floor, and stands on the crates that its row names; each file of its `src` is a room. What is said of a
crate or a file is the first sentence with which it begins. [ARCHITECTURE.md](ARCHITECTURE.md) has the picture and the
rules.
"""


def first_sentence(name: str) -> str:
    """The first sentence of the comment with which a source begins."""
    lines = []
    for line in text_of(name).splitlines():
        if not line.startswith("//! "):
            break
        lines.append(line[4:].strip())
    found = re.match(r"(.*?)(?:\.(?= |$)|:$)", " ".join(lines))
    if not found:
        raise Missing(f"{name} does not begin with a sentence")
    return found[1] + "."


def groups() -> list[tuple[str, list[str]]]:
    """The comments of crates.txt that head a group of crates, each with the crates below it."""
    found: list[tuple[str, list[str]]] = []
    for paragraph in text_of("crates.txt").split("\n\n"):
        lines = paragraph.strip().splitlines()
        comment = " ".join(line[1:].strip() for line in lines if line.startswith("#"))
        crates = [line.partition(":")[0].split()[0] for line in lines if not line.startswith("#")]
        if crates:
            found.append((re.match(r"[^.:]*", comment)[0], crates))
    return found


def main_file(crate: str) -> str:
    """The source with which a crate begins: of a library, or of a program."""
    folder = f"crates/{crate}/src"
    return f"{folder}/lib.rt" if os.path.exists(os.path.join(ROOT, folder, "lib.rt")) else f"{folder}/main.rt"


def rooms_of(crate: str) -> list[str]:
    """The sources of a crate by their paths, but the one with which it begins."""
    found = []
    for where, folders, names in os.walk(os.path.join(ROOT, "crates", crate, "src")):
        folders.sort()
        found += [os.path.relpath(os.path.join(where, name), ROOT) for name in sorted(names) if name.endswith(".rt")]
    return [name for name in found if name != main_file(crate)]


def table(head: list[str], rows: list[list[str]]) -> str:
    """A table of Markdown."""
    lines = ["| " + " | ".join(cells) + " |\n" for cells in (head, *rows)]
    return lines[0] + "|---" * len(head) + "|\n" + "".join(lines[1:])


def rooms_page() -> str:
    """The page of the floors and the rooms."""
    known = listed()
    parts = [ROOMS_HEAD]
    for group, crates in groups():
        rows = []
        for crate in crates:
            below = " ".join(f"`{name}`" for name in known[crate]) or "nothing"
            rows.append([f"[`{crate}`](../crates/{crate}/src)", first_sentence(main_file(crate)), below])
        parts.append(f"\n## {group}\n\n" + table(["Crate", "What it is", "Stands on"], rows))
    parts.append("\n## The rooms of each crate\n")
    for crate in known:
        top = f"crates/{crate}/src/"
        rows = [[f"[{name[len(top):-3]}](../{name})", first_sentence(name)] for name in rooms_of(crate)]
        if rows:
            parts.append(f"\n### `{crate}`\n\n" + table(["File", "What is in it"], rows))
    return "".join(parts)


# ------------------------------------------------------------------------------------------------ quotes


def pages_by_path() -> list[str]:
    """The pages of the repository, but for what is built."""
    found = []
    for where, folders, names in os.walk(ROOT):
        folders[:] = sorted(folder for folder in folders if folder not in ("out", "target", ".git"))
        found += [os.path.relpath(os.path.join(where, name), ROOT) for name in sorted(names) if name.endswith(".md")]
    return found


def pages_with_quotes() -> dict[str, str]:
    """The pages that quote sources, by their names."""
    texts = {name: text_of(name) for name in pages_by_path()}
    made = {}
    for name, text in texts.items():
        if re.search(rf"^{MARK}(?!giop help)", text, re.M):
            try:
                made[name] = with_quotes(text, text_of)
            except Missing as why:
                raise Missing(f"{name}: {why}") from why
    return made


# -------------------------------------------------------------------------------------------------- help


def printed(program: str, *words: str) -> str:
    """What the program prints for these words."""
    ran = subprocess.run([program, *words], stdin=subprocess.DEVNULL, capture_output=True, timeout=SECONDS, check=True)
    return ran.stdout.decode()


def help_of(program: str, *words: str) -> str:
    """What `giop help` prints."""
    return printed(program, "help", *words)


def rows_below(text: str, heading: str) -> list[tuple[str, str]]:
    """The rows of a list in a help, each with what stands beside it."""
    found = re.search(rf"^{heading}:\n((?:  .*\n)+)", text, re.M)
    return re.findall(r"^ +(\S.*?)(?:  +(.*))?$", found[1], re.M) if found else []


def commands_of(text: str) -> list[tuple[str, str]]:
    """The subcommands that a help names, but `help`, each with what it is for."""
    return [(name, purpose) for name, purpose in rows_below(text, "Commands") if name != "help"]


def long_options(text: str) -> list[tuple[str, str]]:
    """The long options that a help names, with the word that each takes, and what they are for."""
    rows = [(re.sub(r"^-\w, ", "", name), purpose) for name, purpose in rows_below(text, "Options")]
    return [(name, purpose) for name, purpose in rows if name.startswith("--")]


def verbatim(text: str) -> str:
    """Lines of a manual page that show a text as it is."""
    lines = [line.replace("\\", "\\e").replace("-", "\\-") for line in text.rstrip("\n").split("\n")]
    return "\n".join([".nf", *("\\&" + line if line[:1] in (".", "'") else line for line in lines), ".fi", ""])


def manual_page(texts: dict[str, str], version: str) -> str:
    """The manual page."""
    usages = "\n".join(re.search(r"^Usage: (.*)$", text, re.M)[1] for text in texts.values())
    parts = [
        '.\\" Made by scripts/made_pages.py of what `giop help` prints.\n',
        f'.TH GIOP 1 "" "{version}" "User Commands"\n',
        ".SH NAME\ngiop \\- shows GIOP streams and object references, and serves a counter\n",
        ".SH SYNOPSIS\n", verbatim(usages), ".SH DESCRIPTION\n", verbatim(texts[""]), ".SH COMMANDS\n",
    ]
    parts += [f".SS giop {name}\n{verbatim(text)}" for name, text in texts.items() if name]
    return "".join(parts) + ".SH SEE ALSO\n" + verbatim("docs/CLI.md, docs/INTEROP.md")


def completions(texts: dict[str, str]) -> str:
    """The completions of bash. Where a subcommand takes a FILE, names of files are offered."""
    names = " ".join(name for name in texts if name)
    cases = ""
    for name, text in texts.items():
        options = " ".join(option.split()[0] for option, _ in long_options(text))
        files = " files=1" if any(word == "[FILE]" for word, _ in rows_below(text, "Arguments")) else ""
        cases += f"    {name}) words='{options}'{files} ;;\n" if name else ""
    base = " ".join(option for option, _ in long_options(texts[""]))
    return f"""# Made by scripts/made_pages.py of what `giop help` prints. In a shell: . docs/giop.bash
_giop() {{
    local word=${{COMP_WORDS[COMP_CWORD]}} words files=
    case $COMP_CWORD:${{COMP_WORDS[1]}} in
    1:*) words='{names} help {base}' ;;
    2:help) words='{names}' ;;
    *) case ${{COMP_WORDS[1]}} in
{cases}    esac ;;
    esac
    COMPREPLY=($(compgen -W "$words" -- "$word") ${{files:+$(compgen -f -- "$word")}})
}}
complete -F _giop giop
complete -F _giop ./giop
"""


def cell(text: str) -> str:
    """A text of the help as a cell of a table."""
    return text.replace("|", "\\|").replace("<", "&lt;")


def commands_table(texts: dict[str, str]) -> str:
    """The subcommands, each with its words and what it is for."""
    rows = []
    for name, purpose in commands_of(texts[""]):
        rows.append([f"`{re.search(r'^Usage: (.*)$', texts[name], re.M)[1]}`", cell(purpose)])
    return table(["Words", "What it does"], rows)


def options_table(text: str) -> str:
    """The options of a subcommand, but --help."""
    rows = []
    for option, purpose in long_options(text):
        if option != "--help":
            said, default, values = re.fullmatch(
                r"(.*?)(?: \[default: (.*?)\])?(?: \[possible values: (.*)\])?", purpose).groups()
            rows.append([f"`{option}`", cell(f"{said} ({values})" if values else said), cell(default or "")])
    return table(["Option", "What it does", "Without it"], rows)


def with_made_parts(page: str, texts: dict[str, str]) -> str:
    """A page, with what stands between `<!-- made of: giop help .. -->` and `<!-- end -->` made anew."""

    def made(found: re.Match) -> str:
        text = options_table(texts[found[2]]) if found[2] else commands_table(texts)
        return f"{found[1]}\n{text}<!-- end -->"

    made_page, count = re.subn(r"(<!-- made of: giop help(?: (\w+))? -->)\n.*?<!-- end -->", made, page, flags=re.S)
    if not count:
        raise Missing(f"{CLI} has no mark of what is made")
    return made_page


def pages_of_help(program: str) -> dict[str, str]:
    """The pages that are made of the help of a program, by their names."""
    base = help_of(program)
    texts = {"": base, **{name: help_of(program, name) for name, _ in commands_of(base)}}
    return {
        PAGE: manual_page(texts, printed(program, "--version").strip()),
        COMPLETIONS: completions(texts),
        CLI: with_made_parts(text_of(CLI), texts),
    }


def differing(made: dict[str, str]) -> list[str]:
    """Where pages are not what they would be made as."""
    wrong = []
    for name, wanted in made.items():
        there = text_of(name) if os.path.exists(os.path.join(ROOT, name)) else ""
        pairs = zip(wanted.split("\n") + [None], there.split("\n") + [None])
        if wanted != there:
            line = next(number for number, (a, b) in enumerate(pairs, 1) if a != b)
            wrong.append(f"{name}:{line} is not what it is made of: scripts/made_pages.py [--program PROGRAM] --write")
    return wrong


def main() -> int:
    parser = argparse.ArgumentParser(usage="scripts/made_pages.py [--program PROGRAM] [--write]")
    parser.add_argument("--program", help="the program giop")
    parser.add_argument("--write", action="store_true", help="writes the pages")
    words = parser.parse_args()
    try:
        made = {ROOMS: rooms_page(), **pages_with_quotes()}
        if words.program:
            made.update(pages_of_help(os.path.abspath(words.program)))
    except Missing as why:
        print(why)
        return 1
    if words.write:
        for name, text in made.items():
            with open(os.path.join(ROOT, name), "w", encoding="utf-8") as file:
                file.write(text)
    wrong = differing(made)
    print("\n".join(wrong + [f"{len(made) - len(wrong)} pages are current, {len(wrong)} are not"]))
    return 1 if wrong else 0


if __name__ == "__main__":
    sys.exit(main())
