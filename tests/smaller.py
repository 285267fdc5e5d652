"""Makes a random script that fails smaller, before it is printed."""
from __future__ import annotations

import time
from collections.abc import Callable

# how long is looked for less
SECONDS = 60


def without_runs(steps: list, size: int, fails: Callable[[list], object], end: float) -> list:
    """The steps without those runs of this size without which it still fails."""
    at = 0
    while at < len(steps) and time.monotonic() < end:
        fewer = steps[:at] + steps[at + size:]
        if fails(fewer):
            steps = fewer
        else:
            at += size
    return steps


def smallest(steps: list, fails: Callable[[list], object]) -> list:
    """As few of these steps as are found with which it still fails, in their order.

    Halves are dropped first, and then ever shorter runs of steps, until no step can be dropped. `fails` says of some
    of them whether it still fails with them.
    """
    end = time.monotonic() + SECONDS
    size, before = max(1, len(steps) // 2), None
    while size > 1 or steps != before:
        before, steps = steps, without_runs(steps, size, fails, end)
        size = max(1, size // 2)
    return steps
