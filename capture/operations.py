"""The table of operations of a page: how many calls each has on each object, and how long answers took."""
from __future__ import annotations

import math
from array import array
from collections import Counter
from typing import Any

from capture.rows import ANSWER, ASK, TONES, EXCEPTION
from capture.spelled import visible

# so many bars stand for latencies that are ten times as long
BARS = 3
# so many rows a table has
MOST = 1000


def bar_of(latency: int) -> int:
    return math.floor(BARS * math.log10(max(latency, 1)))


class Calls:
    """What is counted of an operation on an object."""

    def __init__(self, operation: str | None, letter: str, text: str) -> None:
        self.names = [operation, letter, text]
        self.requests = self.answers = self.repeats = self.unanswered = self.exceptions = 0
        self.latencies = array("q")

    def at(self, percent: int) -> int | None:
        """The least latency that so many of a hundred answers do not go over."""
        found = sorted(self.latencies)
        return found[-(-len(found) * percent // 100) - 1] if found else None

    def told(self, bars: range) -> list[Any]:
        counts = Counter(map(bar_of, self.latencies))
        return [*self.names, self.requests, self.answers, self.repeats, self.unanswered, self.exceptions, self.at(50),
                self.at(90), self.at(99), self.at(100), [counts[bar] for bar in bars]]


class Operations:
    """The table, over all messages."""

    def __init__(self) -> None:
        self.calls: dict[tuple[str | None, str], Calls] = {}
        self.open: dict[int, Calls] = {}

    def take(self, one: dict[str, Any]) -> None:
        """Takes a message."""
        if one["kind"] in ASK:
            target = one["target"] or {}
            key = str(target.get("key") or target.get("profile") or target.get("index"))
            name = None if one["operation"] is None else visible(one["operation"])
            text = visible(target.get("text") or key)
            calls = self.calls.setdefault((name, key), Calls(name, target.get("object") or "", text))
            calls.requests += 1
            calls.repeats += one["repeats"] is not None
            self.open[one["number"]] = calls
        elif one["kind"] in ANSWER and one["request"] in self.open:
            calls = self.open.pop(one["request"])
            calls.answers += 1
            calls.exceptions += TONES.get(one["status"]) == EXCEPTION
            if "latency" in one:
                calls.latencies.append(one["latency"])

    def end(self, one: dict[str, Any]) -> None:
        """Takes the end, which says what was not answered."""
        for number in one["unanswered"]:
            if number in self.open:
                self.open[number].unanswered += 1

    def told(self) -> dict[str, Any]:
        """The rows of the table, those of most requests first, and the latency at which the bars of each begin."""
        rows = sorted(self.calls.values(), key=lambda it: -it.requests)
        ends = [bar_of(end(it.latencies)) for it in rows if it.latencies for end in (min, max)]
        bars = range(min(ends), max(ends) + 1) if ends else range(0)
        edges = [10 ** (bar / BARS) for bar in range(bars.start, bars.stop + 1)] if bars else []
        return {"count": len(rows), "rows": [it.told(bars) for it in rows[:MOST]], "bars": edges}
