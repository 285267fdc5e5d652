"""The lanes of a page: hosts that call, and addresses that are called, each to the right of those that call it."""
from __future__ import annotations

from collections.abc import Iterable

Lane = tuple[str, bool]


def host_of(address: str) -> str:
    return address.rpartition(":")[0] or address


def levels_of(lanes: list[Lane], calls: set[tuple[str, str]]) -> dict[Lane, int]:
    """How many calls lie before each lane at most; calls that go round count once."""
    level = dict.fromkeys(lanes, 0)
    for _ in range(min(len(lanes), 8)):
        for caller, called in calls:
            level[called, True] = max(level[called, True], level[caller, False] + 1)
            onward = (host_of(called), False)
            if onward in level and host_of(called) != caller and level[onward] < level[called, True]:
                level[onward] = min(level[called, True] + 1, 2 * len(lanes))
    return level


def lanes_of(ends: Iterable[tuple[str, str]]) -> list[Lane]:
    """The lanes from left to right, by the ends of connections: the opener, and the acceptor."""
    pairs = list(dict.fromkeys(ends))
    lanes = list(dict.fromkeys(lane for opener, acceptor in pairs for lane in ((host_of(opener), False), (acceptor, True))))
    level = levels_of(lanes, {(host_of(opener), acceptor) for opener, acceptor in pairs})
    return sorted(lanes, key=lambda lane: level[lane])
