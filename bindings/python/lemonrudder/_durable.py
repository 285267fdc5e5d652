"""What a Server with a store does beside others: it looks requests up, and keeps what becomes of them."""
from __future__ import annotations

import asyncio
import inspect
import logging
from contextvars import ContextVar
from typing import TYPE_CHECKING, Any, Optional, Union

from ._engine import Asked
from ._library import now
from ._messages import FtRequest
from ._outcomes import GiveUp, Outcome, Refuse, SystemException, UserException, system_outcome
from ._servants import Judged
from ._store import Kept, Store
from ._table import Completed

if TYPE_CHECKING:
    from ._server import Server

# how many seconds pass before a store is asked again, at first and at most; how often a request is performed that came
# to no end
_LEAST, _MOST = 0.02, 1.0
_TRIES = 5


class _Attempt:
    """What a servant stored for its request, if it did; or how the store refused it."""

    outcome: Optional[Outcome] = None
    refused: Union[Kept, Refuse, None] = None


_ATTEMPT: ContextVar[_Attempt] = ContextVar("lemonrudder.attempt")


class Durable:
    """The store of a server, and what is done with it."""

    def __init__(self, server: Server, store: Store, purge_every: Optional[float]) -> None:
        self._server, self.store, self._purge_every = server, store, purge_every
        self._purging: Any = None
        self._said = ""

    def begin(self) -> None:
        """Opens the store, and purges it from now on."""
        self._purging = asyncio.ensure_future(self._purge())

    def end(self) -> None:
        """Purges no more."""
        if self._purging is not None:
            self._purging.cancel()

    async def _purge(self) -> None:
        """Says at the beginning whether the store can be used, and purges it from then on."""
        moment = 0
        while True:
            try:
                await self.store.purge(moment)
            except Exception as error:
                self._note(error)
            if self._purge_every is None:
                return
            await asyncio.sleep(self._purge_every)
            moment = now()

    def _note(self, error: BaseException) -> None:
        """Says that the store failed, once for each reason."""
        text = " ".join(str(error).split()) or type(error).__name__
        if text != self._said:
            self._said = text
            self._server.log.error("the store can't be used: %s", text)

    def _note_success(self) -> None:
        """Says that it can be used again, once something was committed."""
        if self._said:
            self._said = ""
            self._server.log.warning("the store can be used again")

    # ---- a request ----

    async def perform(self, judged: Judged, ft: FtRequest) -> Outcome:
        """The outcome of a request that carries FT_REQUEST: that of the store; else, where it is not to be refused,
        what becomes of it, which is committed. Raises Refuse.

        What is in doubt, as a COMMIT whose answer was lost, is asked until the store says. Where it has nothing then,
        the request is performed again: if the old COMMIT comes true yet, the new one can't. Where its outcome may have
        been taken out meanwhile, nobody knows whether it acted, and the answer is COMPLETED_MAYBE.
        """
        delay, is_in_doubt = _LEAST, False
        for _ in range(_TRIES):
            try:
                found = await (self._asked(ft) if is_in_doubt else self.store.find(ft))
            except Refuse:
                raise
            except Exception as error:
                return self._failed(error)
            if found is not None:
                return found
            if isinstance(judged.answer, Refuse):
                raise judged.answer
            if judged.answer is not None:
                return judged.answer
            ended = await self._attempt(judged, ft, is_in_doubt)
            if ended is not None:
                self._note_success()
                return ended
            is_in_doubt = True
            await asyncio.sleep(delay)
            delay = min(2 * delay, _MOST)
        return unknown("TRANSIENT")

    async def _asked(self, ft: FtRequest) -> Optional[Outcome]:
        """What the store has of a request that has perhaps acted; asked until it says."""
        delay = _LEAST
        while True:
            try:
                return await self.store.find(ft)
            except Refuse as refused:
                # (what was committed is perhaps forgotten)
                return unknown(refused.name)
            except Exception as error:
                if not self.store.is_trouble(error):
                    raise
                self._note(error)
            await asyncio.sleep(delay)
            delay = min(2 * delay, _MOST)

    async def _attempt(self, judged: Judged, ft: FtRequest, is_in_doubt: bool) -> Optional[Outcome]:
        """Performs a request of which the store has nothing. None: ask the store. Raises Refuse, but in doubt, where an
        earlier attempt may come true yet."""
        attempt, asked, performer = _Attempt(), judged.asked, judged.performer
        assert performer is not None
        token = _ATTEMPT.set(attempt)
        returned: Any = None
        try:
            returned = performer.function(*((asked.body,) if asked.arguments is None else asked.arguments))
            if inspect.isawaitable(returned):
                returned = await returned
            if attempt.outcome is not None or attempt.refused is not None:
                return attempt.outcome
        except Kept:
            return None
        except Exception as error:
            is_trouble = self.store.is_trouble(error)
            if is_trouble:
                self._note(error)
            if attempt.refused is not None:
                if isinstance(error, Refuse) and error is attempt.refused and not is_in_doubt:
                    raise
                return None
            if attempt.outcome is not None:
                # (its transaction is undone by what was raised in it, and committed before what was raised behind it;
                # but COMMIT itself may have failed, and come true)
                found = None if is_trouble else await self._asked(ft)
                if is_trouble or found is not None:
                    return found
            if is_trouble and is_in_doubt:
                return None
            if is_trouble:
                raise Refuse("TRANSIENT") from error
            if isinstance(error, (Refuse, GiveUp)):
                if is_in_doubt:
                    return unknown(error.name if isinstance(error, Refuse) else "TRANSIENT")
                raise
            returned = error
        finally:
            _ATTEMPT.reset(token)
        return await self._keep(ft, self._read(judged, returned))

    def _write(self, asked: Asked, text: str, *words: object, error: BaseException) -> None:
        """Writes a line about the connection of a request."""
        about = self._server._connections.get(asked.connection, asked.connection)
        self._server._lines.write(about, logging.ERROR, text, *words, error=error)

    def _read(self, judged: Judged, ended: Any) -> Outcome:
        """The outcome that a servant's end is which it did not store."""
        asked = judged.asked
        if isinstance(ended, Exception) and not isinstance(ended, (UserException, SystemException)):
            self._write(asked, "%a raised %s", asked.operation, type(ended).__name__, error=ended)
            return unknown("UNKNOWN")
        try:
            return judged.outcome(ended)
        except Exception as error:
            self._write(asked, "no outcome of %a", asked.operation, error=error)
            return unknown("UNKNOWN" if isinstance(ended, Exception) else "INTERNAL")

    async def _keep(self, ft: FtRequest, outcome: Outcome) -> Outcome:
        """Keeps an outcome in a transaction of its own, and returns the one that the store has then."""
        delay = _LEAST
        for _ in range(_TRIES):
            try:
                async with self.store.transaction() as transaction:
                    await self.store.put(transaction, ft, outcome)
                return outcome
            except (Kept, Refuse):
                pass
            except Exception as error:
                if not self.store.is_trouble(error):
                    raise
                self._note(error)
            found = await self._asked(ft)
            if found is not None:
                return found
            await asyncio.sleep(delay)
            delay = min(2 * delay, _MOST)
        return unknown("TRANSIENT")

    def _failed(self, error: Exception) -> Outcome:
        """The answer where the store does not say whether it has the key, which may be or not."""
        if not self.store.is_trouble(error):
            raise error
        self._note(error)
        return unknown("TRANSIENT")

    # ---- what servants call ----

    async def put(self, judged: Judged, transaction: Any, results: Any) -> Outcome:
        """What Current.store does."""
        asked, outcome = judged.asked, judged.outcome(results)
        if asked.ft is not None:
            attempt = _ATTEMPT.get()
            try:
                await self.store.put(transaction, asked.ft, outcome)
            except (Kept, Refuse) as refused:
                attempt.refused = refused
                raise
            attempt.outcome, attempt.refused = outcome, None
        return outcome


def unknown(name: str) -> Outcome:
    """A system exception, COMPLETED_MAYBE, as it is answered and not kept: the store is asked when its request comes
    again."""
    return system_outcome(name, 0, Completed.MAYBE)
