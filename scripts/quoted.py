"""What pages quote of the sources: whole files, and the items that a name declares.

    <!-- made of: PATH -->                  the file
    <!-- made of: PATH NAME -->             what declares NAME, with the comment before it: a function, a type, a
                                            definition, a `ghost` line; or `impl ..`, in these words; in C and C++ a
                                            function; in Python a function or a class; or `ensures ..`, a clause,
                                            without the comment before it
    <!-- made of: PATH NAME to NAME -->     from the first of these to the end of the last

Such a mark stands before a block of code, and `<!-- end -->` after it. What stands between them is written by
scripts/made_pages.py, also where nothing stands there yet.
"""
import re
from collections.abc import Callable

from scripts.sources import Missing

LANGUAGES = {"antt": "antt", "c": "c", "cpp": "cpp", "idl": "idl", "py": "python", "rs": "rust", "rt": "rust"}
# in C and C++, what stands before the name of a function
TYPE = r"[\w:]+(?:<[\w:<>, ]*>)?[ *&]+"
MARK = "<!-- made of: "
PART = re.compile(rf"^({MARK}(\S+\.\w+)(?: (.+?))? -->\n)(?:```\w+\n(?:(?!```).*\n)*```\n)?(<!-- end -->)$", re.M)
DECLARING = r"pub|pub\(crate\)|abbrev|unfoldable|data|record|fn|struct|enum|trait|const|ghost"


def head_of(lines: list[str], name: str, language: str) -> int:
    """The index of the one line that declares a name."""
    word = re.escape(name)
    if language == "python":
        head = re.compile(rf"^ *(?:(?:async )?def|class) {word}\b")
    elif name.startswith("ensures "):
        head = re.compile(rf"^ *{word} {{")
    elif language in ("c", "cpp"):
        head = re.compile(rf"^ *(?!return)(?:{TYPE})+{word}\(.*{{$")
    else:
        head = re.compile(rf"^ *(?:(?:{DECLARING}) )+{word}(?![\w'])|^{word} [:{{]")
    found = [index for index, line in enumerate(lines) if head.match(line)]
    if len(found) != 1:
        raise Missing(f"{len(found)} lines declare {name}, and not one")
    return found[0]


def is_clause(line: str) -> bool:
    return line.lstrip().startswith("ensures ")


def first_of(lines: list[str], head: int) -> int:
    """Where the comment and the attributes before a head begin."""
    first = head
    while first and not is_clause(lines[head]) and lines[first - 1].lstrip().startswith(("//", "#[", "--", "/* ", "* ")):
        first -= 1
    return first


def last_of(lines: list[str], head: int, language: str) -> int:
    """Where what a head declares ends: in its line, at its closing brace, or, of a definition, before an empty line; in
    Python before the next line that is not indented more."""
    indent = re.match(" *", lines[head])[0]
    if language == "python":
        inner = [index for index in range(head + 1, len(lines)) if lines[index].strip()]
        end = next((index for index in inner if not lines[index].startswith(indent + " ")), len(lines))
        return max(index for index in inner if index < end)
    if is_clause(lines[head]):
        return next(index for index in range(head, len(lines)) if not lines[index + 1].startswith(indent + " "))
    if lines[head].endswith((";", "{}")):
        return head
    is_definition = " : " in lines[head] and not re.search(r"\bfn\b", lines[head])
    for index in range(head, len(lines)):
        ends = not (lines + [""])[index + 1] if is_definition else lines[index].startswith(indent + "}")
        if ends:
            return index
    raise Missing(f"what begins with {lines[head].strip()} does not end")


def part_of(text: str, words: str | None, language: str) -> str:
    """What the words of a mark name of a source in a language."""
    if not words:
        return text
    lines = text.rstrip("\n").split("\n")
    begins, _, ends = words.partition(" to ")
    first = first_of(lines, head_of(lines, begins, language))
    last = last_of(lines, head_of(lines, ends or begins, language), language)
    return "".join(line + "\n" for line in lines[first : last + 1])


def with_quotes(page: str, text_of: Callable[[str], str]) -> str:
    """A page, with what stands between marks of sources made anew; `text_of` gives a source by its path."""

    def made(found: re.Match) -> str:
        mark, path, words, end = found.groups()
        try:
            language = LANGUAGES[path.rpartition(".")[2]]
            quoted = part_of(text_of(path), words, language)
        except (KeyError, Missing, OSError) as why:
            raise Missing(f"{path}: {why}") from why
        return f"{mark}```{language}\n{quoted}```\n{end}"

    made_page, count = PART.subn(made, page)
    if count != len(re.findall(rf"^{MARK}(?!giop help)", page, re.M)):
        raise Missing("a mark of a source without a block of code and `<!-- end -->` after it")
    return made_page
