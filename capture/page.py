"""Makes a page for a browser of what `giop trace --json --bodies` prints of packets.

The page is one file that asks for nothing else. Its script and its style stand in it, and its policy lets these run by
their sums and nothing else. What was in the packets stands in blocks of JSON, in which no character ends a block.
"""
from __future__ import annotations

import base64
import hashlib
import json
import os
from collections import Counter
from collections.abc import Iterable, Iterator
from html import escape
from typing import Any

from capture.lanes import host_of, lanes_of
from capture.operations import Operations
from capture.rows import KINDS, PART, Rows
from capture.spelled import read, shell, visible

HERE = os.path.dirname(os.path.abspath(__file__))
SCRIPTS = ("data.js", "view.js", "draw.js", "table.js", "details.js", "page.js")
# so many messages a page has
MOST = 100_000
# so many operations are named of the messages that are left out, and how slow an answer is there in milliseconds
NAMED, SLOW = 6, 100


def text_of(name: str) -> str:
    with open(os.path.join(HERE, name), encoding="utf-8") as file:
        return file.read()


def block(it: Any) -> str:
    """JSON as a page may have it: ASCII, and no sign that ends a block or begins a comment."""
    said = it if isinstance(it, str) else json.dumps(it, separators=(",", ":"))
    return said.replace("&", "\\u0026").replace("<", "\\u003c").replace(">", "\\u003e")


def sum_of(text: str) -> str:
    return base64.b64encode(hashlib.sha256(text.encode()).digest()).decode()


Way = tuple[str, ...]


def ways_of(one: dict[str, Any]) -> list[Way]:
    """The options of `giop trace` that choose a message."""
    ways: list[Way] = [] if one["operation"] is None else [("--operation", one["operation"])]
    if one.get("latency", 0) >= SLOW * 10 ** 6:
        ways.append(("--slower", str(SLOW)))
    return [*ways, ("--faults",)] if one["status"] == "SYSTEM_EXCEPTION" else ways


class Left:
    """The messages that a page has no room for, and what would have chosen them."""

    def __init__(self, most: int) -> None:
        self.most, self.count = most, 0
        self.here: Counter[Way] = Counter()
        self.left: Counter[Way] = Counter()

    def take(self, one: dict[str, Any], is_left: bool) -> None:
        """Takes a message, which is on the page or left out."""
        self.count += is_left
        (self.left if is_left else self.here).update(ways_of(one))

    def brought(self, way: Way) -> int:
        """How many of those that are left out are on a page of such an option."""
        return max(0, min(self.left[way], self.most - self.here[way]))

    def told(self, end: dict[str, Any], last: int, words: list[str]) -> dict[str, Any] | None:
        """How many there are, and the words of `giop-capture` with how many of them each would bring."""
        if not self.count:
            return None
        for number in end["unanswered"]:
            (self.left if number > last else self.here)["--unanswered",] += 1
        named = [way for way, _ in self.left.most_common() if way[0] == "--operation"][:NAMED]
        ways = [*named, ("--slower", str(SLOW)), ("--faults",), ("--unanswered",)]
        said = [[" ".join(shell(visible(word)) for word in ["giop-capture", *words, *way]), self.brought(way)]
                for way in ways if way[0] not in words and self.brought(way)]
        return {"count": self.count, "after": last, "ways": said}


class Page:
    """What a page has, as the lines of `giop trace` tell it."""

    def __init__(self, words: list[str], most: int) -> None:
        self.words, self.most = words, most
        self.rows, self.operations, self.left = Rows(), Operations(), Left(most)
        self.last: dict[str, Any] = {"messages": 0, "connections": 0, "unanswered": [], "cancelled": []}
        self.shown = 0

    def take(self, one: dict[str, Any]) -> None:
        """Takes a line."""
        if one["line"] == "message":
            self.operations.take(one)
            is_left = len(self.rows.more) >= self.most
            self.left.take(one, is_left)
            if not is_left:
                self.rows.take(one)
                self.shown = max(self.shown, one["number"])
        elif one["line"] == "connection":
            self.rows.ends[one["connection"]] = one.get("opener") or "?:0", one.get("acceptor") or "?:1"
        elif one["line"] == "end":
            self.last = one
            self.rows.end(one)
            self.operations.end(one)
        elif "direction" in one and not self.left.count:
            self.rows.mark(one)

    def data(self, title: str) -> dict[str, Any]:
        """What the script reads."""
        rows = self.rows
        rows.sort()
        lanes = lanes_of(rows.ends.values())
        places = {lane: place for place, lane in enumerate(lanes)}
        return {
            "title": visible(title), "messages": self.last["messages"], "connections": self.last["connections"],
            "start": None if rows.start is None else str(rows.start), "kinds": KINDS, "texts": list(rows.texts),
            "objects": [it for _, it in rows.objects.values()], "lanes": [[visible(name), called] for name, called in lanes],
            "ends": [[number, visible(opener), visible(acceptor), places[host_of(opener), False], places[acceptor, True]]
                     for number, (opener, acceptor) in sorted(rows.ends.items())],
            "columns": rows.columns, "marks": rows.marks, "operations": self.operations.told(),
            "left": self.left.told(self.last, self.shown, self.words), "part": PART,
        }


def page(lines: Iterable[str], title: str, words: list[str], most: int = MOST) -> Iterator[str]:
    """The parts of a page of such lines; the title, and the words of `giop-capture` that make it, stand in it."""
    made = Page(words, most)
    for line in lines:
        made.take(read(line))
    script = "\n".join(['"use strict";\n(() => {', *map(text_of, SCRIPTS), "})();"])
    style = text_of("page.css")
    head, end = text_of("page.html").split("{DATA}\n")
    for name, said in (("SCRIPT-SUM", sum_of(script)), ("STYLE-SUM", sum_of(style)), ("STYLE", style),
                       ("TITLE", escape(visible(title)))):
        head = head.replace(f"{{{name}}}", said, 1)
    yield head
    yield f'<script type="application/json" id="data">{block(made.data(title))}</script>\n<script>{script}</script>\n'
    for number, part in enumerate(made.rows.parts()):
        yield f'<script type="application/json" id="part{number}">{block(part)}</script>\n'
    yield end
