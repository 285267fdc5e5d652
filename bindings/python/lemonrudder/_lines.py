"""What a server writes to its log."""
from __future__ import annotations

import asyncio
import logging
from typing import Dict, Optional, Tuple

from ._table import Counted, Why

# what a request is refused for by a server itself
REFUSED = {
    Counted.EXPIRED: (logging.INFO, "it is past its expiration"),
    Counted.MALFORMED: (logging.INFO, "its FT_REQUEST is not valid"),
    Counted.INVALID: (logging.INFO, "there is no such object or operation, or its arguments are not valid"),
    Counted.LOG_FULL: (logging.WARNING, "as many outcomes are kept as may be (capacity)"),
    Counted.SHARE_FULL: (logging.WARNING, "as many outcomes of its client are kept as may be (share)"),
    Counted.DROPPED: (logging.WARNING, "memory is short"),
}
# why a connection has ended where its stream has no fault
ENDED = {
    Why.OPEN: "it is lost",
    Why.DIRECTION: "a message came that only a server sends",
    Why.GOODBYE: "its peer said goodbye",
    Why.ERROR: "its peer sent MessageError",
    Why.FAREWELL: "goodbye was said",
    Why.GIVEN_UP: "a request that came on it was given up",
    Why.MEMORY: "memory is short",
}
# how many different lines about one connection are written in so many seconds
_MOST, _SECONDS = 16, 1.0

_Line = Tuple[int, str, Tuple[object, ...]]


class Lines:
    """Lines of a log about connections, which no peer can fill: the same line comes once, and then once a second with
    how often it would have come; those about one connection beyond a bound are only counted."""

    def __init__(self, log: logging.Logger) -> None:
        self._log = log
        # how often each line about something came again since it was written
        self._again: Dict[object, Dict[_Line, int]] = {}

    def write(self, about: object, level: int, text: str, *words: object,
              error: Optional[BaseException] = None) -> None:
        """Writes a line, with what was raised, or counts it."""
        if not self._log.isEnabledFor(level):
            return
        if about not in self._again:
            self._begin(about, {})
        again, line = self._again[about], (level, text, words)
        if line not in again and len(again) < _MOST:
            again[line] = 0
            self._log.log(level, text, *words, exc_info=error)
            return
        if line not in again:
            line = logging.WARNING, "other lines about %s are left out", (about,)
        again[line] = again.get(line, 0) + 1

    def flush(self) -> None:
        """Writes what was counted, and counts no more."""
        for about in list(self._again):
            self._tell(about)

    def _begin(self, about: object, again: Dict[_Line, int]) -> None:
        """Counts for a second."""
        self._again[about] = again
        asyncio.get_running_loop().call_later(_SECONDS, self._end, about)

    def _end(self, about: object) -> None:
        """Goes on to count what came again."""
        again = self._tell(about)
        if again:
            self._begin(about, dict.fromkeys(again, 0))

    def _tell(self, about: object) -> Dict[_Line, int]:
        """Writes how often which lines came again, and forgets all."""
        again = {line: count for line, count in self._again.pop(about, {}).items() if count}
        for (level, text, words), count in again.items():
            self._log.log(level, f"{text} (%d times more)", *words, count)
        return again
