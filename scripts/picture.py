"""Draws the way of a call over its transmissions, by what `giop trace --json` prints of packets.

Each client has a line from top to bottom, and each address that is called; each message is an arrow between two of
them, with its time, its packet and its connection; a request that nothing answered has a cross.
"""
from __future__ import annotations

import json
from collections.abc import Iterable
from html import escape

STYLE = ("path{fill:none;stroke-width:2}rect{fill:#eef2f7;stroke:#44546a}text{fill:#1b2635}.paper{fill:#fff}.line{stroke:#9aa4b2}"
         ".sent{stroke:#1f6feb}.raised,.lost,.cross{stroke:#c62828}.lost{stroke-dasharray:6 5}.cross{stroke-width:3}"
         ".sent.head{fill:#1f6feb}.raised.head{fill:#c62828}")
# how far the first line stands from the left, and the last from the right, and how far two are apart
MARGIN, APART = 130, 540
# where the first message stands, and how far each is below the one before
FIRST, STEP = 100, 46


def seconds(nanoseconds: int | None) -> str:
    return "-" if nanoseconds is None else f"{nanoseconds // 10 ** 9}.{nanoseconds % 10 ** 9 // 1000:06d}"


def host_of(address: str | None) -> str:
    """The host of an address, which has the port of a connection behind it."""
    return (address or "?").rpartition(":")[0] or "?"


def led_to(one: dict) -> str:
    """Where an answer leads on to, if it does."""
    for profile in (one.get("forward") or {}).get("profiles", []):
        if profile["host"] is not None:
            return f" to {profile['host']}:{profile['port']}"
    return ""


def said(one: dict) -> str:
    """What a message says, in a few words."""
    if one["kind"] in ("Request", "LocateRequest"):
        return f"{one['kind']} {one['operation'] or ''}".strip()
    if one["kind"] == "CancelRequest":
        return one["kind"]
    raised = one["exception"]
    late = f", {seconds(one['latency'])} s" if "latency" in one else ""
    return f"{(raised and (raised['name'] or raised['id'])) or one['status']}{led_to(one)}{late}"


class Way:
    """The messages of a call, in their order, and what is drawn of them."""

    def __init__(self, call: int) -> None:
        self.call = call
        self.ends: dict[int, tuple] = {}
        self.requests: set[int] = set()
        self.answered: set[int] = set()
        self.messages: list[dict] = []
        self.callers: dict[int, str] = {}

    def take(self, one: dict) -> None:
        """Takes what a line of JSON says."""
        if one["line"] == "connection":
            self.ends[one["connection"]] = one["opener"], one["acceptor"]
        if one["line"] != "message":
            return
        if self.call in (one["number"], one["repeats"]) and one["kind"] in ("Request", "LocateRequest"):
            self.requests.add(one["number"])
            client = (one.get("ft") or {}).get("client")
            self.callers[one["number"]] = f"client {client}" if client else host_of(self.ends[one["connection"]][0])
        elif one["request"] not in self.requests:
            return
        elif one["kind"] in ("Reply", "LocateReply"):
            self.answered.add(one["request"])
        self.messages.append(one)

    def places(self) -> dict:
        """How far from the left the lines of clients stand, and those of the addresses that are called, by their names."""
        callers = dict.fromkeys(self.callers.values())
        called = dict.fromkeys(self.ends[one["connection"]][1] for one in self.messages)
        names = [*((False, name) for name in callers), *((True, name) for name in called)]
        return {name: MARGIN + APART * n for n, name in enumerate(names)}

    def arrow(self, one: dict, height: int, places: dict) -> str:
        """The arrow of a message, and its words."""
        caller = self.callers[one["request"] or one["number"]]
        ends = places[False, caller], places[True, self.ends[one["connection"]][1]]
        start, end = ends if one["direction"] == "opener" else ends[::-1]
        back = -12 if end > start else 12
        is_lost = one["number"] in self.requests - self.answered and one["reply"] != "none"
        kind = "lost" if is_lost else "raised" if one["exception"] else "sent"
        head = (f'"cross" d="M{end + back - 8} {height - 8}l16 16m0 -16l-16 16' if is_lost else
                f'"{kind} head" d="M{end} {height}l{back} -5v10z')
        words = (f"{seconds(one.get('since'))} frame {one['frame']}, connection {one['connection']}: {said(one)}"
                 f"{', no answer' if is_lost else ''}")
        return (f'  <path class="{kind}" d="M{start} {height}H{end + back}"/><path class={head}"/>\n'
                f'  <text x="{min(ends) + 16}" y="{height - 9}">{escape(words)}</text>\n')

    def drawn(self) -> str:
        """The picture, as SVG."""
        places = self.places()
        width, height = max(places.values()) + MARGIN, FIRST + STEP * len(self.messages)
        operation = next((one["operation"] for one in self.messages if one["operation"]), "LocateRequest")
        title = f"Request {self.call}, {operation}, sent: {len(self.requests)}, answered: {len(self.answered)}"
        heads = "".join(
            f'  <path class="line" d="M{at} 50V{height - 10}"/><rect x="{at - 110}" y="16" width="220" height="34" rx="6"/>\n'
            f'  <text x="{at}" y="38" text-anchor="middle" font-weight="bold">{escape(name or "?")}</text>\n'
            for (_, name), at in places.items())
        arrows = "".join(self.arrow(one, FIRST + STEP * n, places) for n, one in enumerate(self.messages))
        return (f'<svg xmlns="http://www.w3.org/2000/svg" viewBox="0 0 {width} {height}" width="{width}" height="{height}" '
                f'role="img" font-family="Helvetica, Arial, sans-serif" font-size="14">\n'
                f"  <title>{escape(title)}</title>\n  <style>{STYLE}</style>\n"
                f'  <path class="paper" d="M0 0H{width}V{height}H0z"/>\n{heads}{arrows}</svg>\n')


def picture(lines: Iterable[str], call: int) -> str | None:
    """The picture of the request of a number, or None where there is none."""
    way = Way(call)
    for line in lines:
        way.take(json.loads(line))
    return way.drawn() if way.requests else None
