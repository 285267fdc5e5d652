"""What a page has of messages: a row of each, what is told of it where it is asked for, and where a call goes on.

A row has a place in each of COLUMNS, its texts by their numbers in `texts`. What came between messages is a mark.
"""
from __future__ import annotations

import calendar
import json
import time
from typing import Any

from capture.spelled import named, result, safe, value, visible

KINDS = ("Request", "Reply", "CancelRequest", "LocateRequest", "LocateReply", "CloseConnection", "MessageError")
ASK, ANSWER = ("Request", "LocateRequest"), ("Reply", "LocateReply")
COLUMNS = ("number", "since", "connection", "side", "kind", "tone", "operation", "object", "client", "tail", "latency",
           "request", "repeats", "next", "flags")
# the tones of `giop trace` on a terminal
PLAIN, REPEAT, FORWARD, EXCEPTION, FAULT = range(5)
TONES = {"NO_EXCEPTION": PLAIN, "OBJECT_HERE": PLAIN, "USER_EXCEPTION": EXCEPTION, "SYSTEM_EXCEPTION": EXCEPTION,
         "UNKNOWN_OBJECT": EXCEPTION, "LOC_SYSTEM_EXCEPTION": EXCEPTION, "LOCATION_FORWARD": FORWARD,
         "LOCATION_FORWARD_PERM": FORWARD, "NEEDS_ADDRESSING_MODE": FORWARD, "OBJECT_FORWARD": FORWARD,
         "OBJECT_FORWARD_PERM": FORWARD, "LOC_NEEDS_ADDRESSING_MODE": FORWARD}
# what is said of octets that are in no message
BETWEEN = {"missing": "missing in the capture", "passed": "passed over", "rest": "of a frame left at the end",
           "unread": "not read"}
UNANSWERED, CANCELLED, STRAY, ONE_WAY = 1, 2, 4, 8
# so many characters of values stand in a row
TAIL = 240
# so many octets of a body or a context a page has, and of all together
EACH, ALL = 1 << 16, 16 << 20
# so many messages stand in one part of what is told of them
PART = 500
# what a row has of a message, so that it is not told again
IN_ROW = ("line", "number", "connection", "direction", "kind", "operation", "request", "later", "repeats", "since", "latency",
          "opener", "acceptor", "text", "values", "body")


def nanoseconds(clock: str) -> int:
    """A time of UTC in nanoseconds since 1970."""
    seconds = calendar.timegm(time.strptime(clock[:19], "%Y-%m-%dT%H:%M:%S"))
    return seconds * 10 ** 9 + int(clock[20:].rstrip("Z") or 0)


def tone_of(one: dict[str, Any]) -> int:
    """The tone that `giop trace` gives a message."""
    if one["kind"] in ANSWER:
        return FAULT if one["request"] is None else TONES.get(one["status"], FAULT)
    if one["kind"] == "MessageError":
        return FAULT
    return REPEAT if one["kind"] == "CancelRequest" or one["repeats"] else PLAIN


def led_to(one: dict[str, Any]) -> list[dict[str, Any]]:
    """The profiles of IIOP that an answer leads on to."""
    return [it for it in (one.get("forward") or {}).get("profiles", []) if it["host"] is not None]


def address(host: str, port: int) -> str:
    return f"{host}:{port}"


def failed(one: dict[str, Any]) -> str:
    """What exception a reply raises."""
    raised = one["exception"] or {"id": one["status"], "name": None}
    values = f" {{{named(one['values'])}}}" if one.get("values") else ""
    more = f" minor 0x{raised['minor']:08x} completed {raised['completed']}" if raised["name"] else ""
    return f"{raised['name'] or raised['id']}{more}{values}"


def tail_of(one: dict[str, Any]) -> str:
    """What a message says behind its operation."""
    values = one.get("values")
    if one["kind"] in ASK:
        return "" if values is None else f"({named(values)})"
    if one["kind"] not in ANSWER:
        return "" if one["kind"] == "CancelRequest" else str(one["kind"])
    if one["status"] in ("USER_EXCEPTION", "SYSTEM_EXCEPTION", "LOC_SYSTEM_EXCEPTION"):
        return failed(one)
    if values is not None:
        return result(values)
    to = led_to(one)
    where = f" to {address(to[0]['host'], to[0]['port'])}" if to else ""
    return f"{one['status']}{where}"


def mark_of(one: dict[str, Any]) -> tuple[str, int, str]:
    """The sign, the tone and the words of what came between messages."""
    if one["line"] == "closed":
        return ("end", PLAIN, "closed by FIN") if one["by"] == "FIN" else ("reset", FAULT, f"closed by {one['by']}")
    if one["line"] == "fault":
        looks = f", octets of {one['looks']}" if one.get("looks") else ""
        return "fault", FAULT, f"fault at octet {one['at']:,}: {one['fault']}{looks}"
    return "fault", FAULT, f"{one['octets']:,} octets {BETWEEN[one['line']]}"


class Rows:
    """The rows of the first messages, and what else a page has of them."""

    def __init__(self) -> None:
        self.columns: dict[str, list[int]] = {name: [] for name in COLUMNS}
        self.texts: dict[str, int] = {}
        self.objects: dict[str, tuple[int, list[str]]] = {}
        self.ends: dict[int, tuple[str, str]] = {}
        self.marks: list[list[Any]] = []
        self.more: list[str] = []
        self.start: int | None = None
        self.left = ALL
        # where calls are led to: by the host that asks, the address, the operation and the key, the rows of answers
        self.led: dict[tuple[Any, ...], list[int]] = {}
        self.asked: dict[int, tuple[str, str | None]] = {}
        self.place: dict[int, int] = {}

    def text(self, words: str | None) -> int:
        return -1 if words is None else self.texts.setdefault(visible(words), len(self.texts))

    def object(self, target: dict[str, Any] | None) -> int:
        """The number of the object that a request asks."""
        if target is None:
            return -1
        key = target.get("key")
        name = key if key is not None else f"profile {target['tag']} {target['profile']}" if target.get("tag") is not None else (
            f"reference {target.get('index')}")
        if name not in self.objects:
            text = target["text"] if key is not None else name
            self.objects[name] = len(self.objects), [target.get("object") or "", visible(text), key or ""]
        return self.objects[name][0]

    def cut(self, digits: str) -> str:
        """The digits that a page has of octets."""
        octets = min(EACH, self.left, len(digits) // 2)
        self.left -= octets
        return digits[:2 * octets]

    def told(self, one: dict[str, Any]) -> str:
        """What is told of a message beside its row."""
        more = {name: it for name, it in one.items() if name not in IN_ROW}
        more["contexts"] = [{**it, "size": len(it["octets"]) // 2, "octets": self.cut(it["octets"])}
                            for it in one["contexts"]] or None
        if one.get("body"):
            more["body"] = self.cut(one["body"])
        if one.get("values"):
            more["values"] = [[name, value(it)] for name, it in one["values"].items()]
        return json.dumps(safe(more), separators=(",", ":"))

    def ask(self, one: dict[str, Any]) -> None:
        """Takes a request: it may be where an answer led on to."""
        opener, acceptor = self.ends[one["connection"]]
        key = one["target"].get("key") if one["target"] else None
        host = opener.rpartition(":")[0]
        self.asked[one["number"]] = host, one["operation"]
        # (a LocateRequest that is led on may be followed by a request of any operation)
        for operation in (one["operation"], None):
            waiting = self.led.get((host, acceptor, operation, key))
            if waiting:
                self.columns["next"][waiting.pop(0)] = one["number"]
                return

    def answer(self, one: dict[str, Any], row: int) -> None:
        """Takes an answer: where it leads on, the call is looked for there."""
        asked = self.asked.pop(one["request"], None)
        to = led_to(one)
        if asked is not None and to:
            host, operation = asked
            self.led.setdefault((host, address(to[0]["host"], to[0]["port"]), operation, to[0]["key"]), []).append(row)

    def take(self, one: dict[str, Any]) -> None:
        """Takes a message."""
        row, tail = len(self.more), tail_of(one)
        self.ends[one["connection"]] = one.get("opener") or "?:0", one.get("acceptor") or "?:1"
        self.place[one["number"]] = row
        if self.start is None and "time" in one and "since" in one:
            self.start = nanoseconds(one["time"]) - one["since"]
        ft = one["ft"] or {}
        flags = (STRAY if one["kind"] in ANSWER and one["request"] is None else 0) | (ONE_WAY if one["reply"] == "none" else 0)
        short = tail if len(tail) <= TAIL else tail[:TAIL] + " .."
        row_of = (one["number"], one.get("since", -1), one["connection"], int(one["direction"] == "acceptor"),
                  KINDS.index(one["kind"]), tone_of(one), self.text(one["operation"]), self.object(one["target"]),
                  self.text(ft.get("client")), self.text(short), one.get("latency", -1), one["request"] or 0,
                  one["repeats"] or 0, 0, flags)
        for name, it in zip(COLUMNS, row_of):
            self.columns[name].append(it)
        self.more.append(self.told(one))
        if one["kind"] in ASK:
            self.ask(one)
        elif one["kind"] in ANSWER:
            self.answer(one, row)

    def mark(self, one: dict[str, Any]) -> None:
        """Takes what came between messages."""
        sign, tone, words = mark_of(one)
        since = nanoseconds(one["time"]) - self.start if self.start is not None and "time" in one else -1
        self.marks.append([len(self.more), since, one["connection"], int(one["direction"] == "acceptor"), tone, sign, words,
                           one.get("frame", 0)])

    def end(self, one: dict[str, Any]) -> None:
        """Takes the end, which says what was not answered."""
        for name, flag in (("unanswered", UNANSWERED), ("cancelled", CANCELLED)):
            for number in one[name]:
                if number in self.place:
                    self.columns["flags"][self.place[number]] |= flag

    def sort(self) -> None:
        """Puts the rows in the order of their numbers: where messages are chosen, some come behind later ones."""
        order = sorted(range(len(self.more)), key=self.columns["number"].__getitem__)
        self.columns = {name: [column[row] for row in order] for name, column in self.columns.items()}
        self.more = [self.more[row] for row in order]

    def parts(self) -> list[str]:
        """What is told of messages, in parts."""
        return [f"[{','.join(self.more[n:n + PART])}]" for n in range(0, len(self.more), PART)]
