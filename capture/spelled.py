"""Texts of a page: what stands in a message in the words of `giop trace`, and of what hides or turns text round its number."""
from __future__ import annotations

import json
import re
from typing import Any

# what a reader would not see, or what turns the text behind it round
HIDDEN = re.compile("[\0-\x1f\x7f-\x9f\xad\u061c\u115f\u1160\u180e\u200b-\u200f\u2028-\u202e\u2060-\u206f\u3164\ufe00-\ufe0f"
                    "\ufeff\uffa0\ufff9-\ufffb\ud800-\udfff]")
# the greatest number that each number below it has a double for
EXACT = (1 << 53) - 1


class Number(str):
    """A number with a point, as it was spelled."""


def read(line: str) -> dict[str, Any]:
    """An object of `giop trace --json`, whose numbers lose no digit."""
    return dict(json.loads(line, parse_float=Number))


def visible(text: str) -> str:
    """A text in which each character can be seen."""
    return HIDDEN.sub(lambda found: f"\\u{{{ord(found.group()):x}}}", text)


def named(values: dict[str, Any]) -> str:
    return ", ".join(f"{name} = {value(it)}" for name, it in values.items())


def value(it: Any) -> str:
    """A value as `giop trace` prints it."""
    if isinstance(it, dict):
        if "case" in it and set(it) <= {"case", "member", "value"}:
            return f"{{{it['case']}: {it['member']} = {value(it['value'])}}}" if "member" in it else f"{{{it['case']}}}"
        return f"{{{named(it)}}}"
    if isinstance(it, list):
        return f"[{', '.join(map(value, it))}]"
    if isinstance(it, bool):
        return "true" if it else "false"
    return f'"{visible(it)}"' if isinstance(it, str) and not isinstance(it, Number) else str(it)


def result(values: dict[str, Any]) -> str:
    """What an answer gives: the value that it returns, and what parameters give."""
    others = named({name: it for name, it in values.items() if name != "-"})
    first = value(values["-"]) if "-" in values else ""
    return f"= {first}{' ' if first and others else ''}{f'({others})' if others or not first else ''}"


def safe(it: Any) -> Any:
    """What is read as it is by JavaScript: numbers that a double can't hold are texts, and what can't be seen is told."""
    if isinstance(it, dict):
        return {visible(name): safe(one) for name, one in it.items() if one is not None}
    if isinstance(it, list):
        return [safe(one) for one in it]
    if isinstance(it, int) and not isinstance(it, bool) and abs(it) > EXACT:
        return str(it)
    return visible(it) if isinstance(it, str) else it


def shell(word: str) -> str:
    """A word as a shell takes it."""
    return word if re.fullmatch(r"[\w@%+=:,./-]+", word, re.ASCII) else "'" + word.replace("'", "'\"'\"'") + "'"
