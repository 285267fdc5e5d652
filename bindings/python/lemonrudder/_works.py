"""The requests that a Server performs: at once, or by tasks while they are parked."""
from __future__ import annotations

import asyncio
import inspect
import logging
import math
import time
from collections import OrderedDict, deque
from functools import partial
from typing import TYPE_CHECKING, Any, Awaitable, Callable, Deque, Dict, Optional, Sequence, Tuple

from ._connection import Connection
from ._current import CURRENT, Current
from ._engine import Asked
from ._library import LemonrudderError, Octets
from ._messages import listed
from ._outcomes import GiveUp, Outcome, Refuse, SystemException, UserException, known_name, system_outcome
from ._servants import Judged
from ._table import Completed, Error

if TYPE_CHECKING:
    from ._server import Server

# how many seconds an operation that is cut off has to end before it is answered without it
GRACE = 1.0


class _Work:
    """A parked request, and the task that performs it."""

    def __init__(self, judged: Judged, connection: Connection, task: asyncio.Future[Any], coroutine: Any) -> None:
        self.judged, self.asked, self.connection = judged, judged.asked, connection
        self.task, self.coroutine = task, coroutine
        self.timer: Optional[asyncio.TimerHandle] = None
        # by which exception it is cut off, and whether it had begun then; whether it is answered before it ends
        self.cut = ""
        self.had_begun = True
        self.is_answered = False


class Works:
    """What a server has under way, at most so many operations at a time."""

    def __init__(self, server: Server, most: int) -> None:
        self._server, self._most = server, most
        self.works: Dict[int, _Work] = {}
        # what servants said for the replies to requests that are not answered, by their tickets
        self._contexts: Dict[int, Sequence[Tuple[int, Octets]]] = {}
        # those whose tasks have ended, of each connection
        self._done_of: OrderedDict[Connection, Deque[_Work]] = OrderedDict()

    def __len__(self) -> int:
        return len(self.works)

    def perform(self, connection: Connection) -> bool:
        """Performs the request that waits, if one does, or sees to it that a task does. Whether one waited."""
        engine = self._server._engine
        try:
            asked = engine.asked()
            if asked is None:
                return False
            if self._server._durable is None and engine.identify(asked.ticket):
                return True
            judged = self._server._judged(asked)
            asked, performer = judged.asked, judged.performer
            current = self._current(judged, connection)
        except (LemonrudderError, KeyError) as error:
            # (memory is short, as when a part is read: nothing was done)
            self._server._lines.write(connection, logging.ERROR, "a request is refused on %s", connection, error=error)
            engine.refuse("NO_RESOURCES")
            return True
        token = CURRENT.set(current)
        try:
            durable = self._server._durable
            if durable is not None and asked.ft is not None:
                self._begin(judged, connection, durable.perform(judged, asked.ft))
                return True
            if performer is None:
                self._answer_judged(judged, connection)
                return True
            arguments = (asked.body,) if asked.arguments is None else asked.arguments
            try:
                returned = performer.function(*arguments)
            except BaseException as raised:
                self._raise(judged, raised, connection)
                if not isinstance(raised, Exception):
                    raise
            else:
                if inspect.isawaitable(returned):
                    self._begin(judged, connection, returned)
                else:
                    self._return(judged, returned)
        finally:
            CURRENT.reset(token)
        self._server._tell()
        return True

    def _current(self, judged: Judged, connection: Connection) -> Current:
        """What its servant can know of the request that waits."""
        asked = judged.asked
        ft, ticket, durable = asked.ft, asked.ticket, self._server._durable
        client, number, expiration = (None, None, None) if ft is None else (ft.client, ft.retention_id, ft.expiration)
        contexts = self._server._engine.contexts() if asked.contexts else ()
        return Current(asked.key, asked.operation, client, number, expiration, connection.number, connection.peer,
                       connection.certificate, contexts, asked.request_id, asked.version, asked.wish,
                       lambda: self._wanted(ticket), partial(self._say, ticket),
                       None if durable is None else partial(durable.put, judged))

    def _is_durable(self, asked: Asked) -> bool:
        """Whether the outcome of a request is kept in the server's store, and not here."""
        return asked.ft is not None and self._server._durable is not None

    def _answer_judged(self, judged: Judged, connection: Connection) -> None:
        """Answers the request that waits and is not performed."""
        if isinstance(judged.answer, Refuse):
            self._raise(judged, judged.answer, connection)
        else:
            self._return(judged, judged.answer)

    def _waits(self, ticket: int) -> bool:
        """Whether this is the request that waits."""
        asked = None if self._server.is_closed else self._server._engine.asked()
        return asked is not None and asked.ticket == ticket

    def _wanted(self, ticket: int) -> int:
        """How many wait for an outcome, that of a request which waits among them."""
        try:
            return int(self._server._engine.wanted(ticket))
        except LemonrudderError:
            return int(self._waits(ticket))

    def _say(self, ticket: int, contexts: Sequence[Tuple[int, Octets]]) -> None:
        """Keeps service contexts for the replies to a request until it is answered."""
        listed(contexts)
        work = self.works.get(ticket)
        if self._waits(ticket) if work is None else not work.is_answered:
            self._contexts[ticket] = tuple(contexts)
        else:
            raise LemonrudderError(Error.TICKET)

    def _begin(self, judged: Judged, connection: Connection, returned: Awaitable[Any]) -> None:
        """Parks the request that waits, for a task to perform it; refuses it where that can't be."""
        asked, performer = judged.asked, judged.performer
        why = None
        if len(self.works) >= self._most:
            why = f"{self._most} operations are under way already (max_parked)"
        else:
            try:
                self._server._engine.park()
            except LemonrudderError as error:
                # (it is parked already where its function added an object)
                why = error.text if error.number != Error.IDLE else None
        coroutine = returned if inspect.iscoroutine(returned) else None
        if why is not None:
            self._server._lines.write(connection, logging.WARNING, "%a is refused on %s: %s", asked.operation,
                                      connection, why)
            if coroutine is not None:
                coroutine.close()
                self._refuse(asked)
            else:
                # (what was begun elsewhere has perhaps acted)
                asyncio.ensure_future(returned).cancel()
                self._answer(asked, "UNKNOWN", partial(self._doubt, asked), "NO_RESOURCES")
            return
        work = _Work(judged, connection, asyncio.ensure_future(returned), coroutine)
        self.works[asked.ticket] = work
        connection.works += 1
        timeout = self._server.timeout if performer is None or performer.timeout is None else performer.timeout
        if timeout is not None:
            work.timer = self._server._loop.call_later(timeout, self.cut, work, "TIMEOUT")
        work.task.add_done_callback(partial(self._done, work))

    def _done(self, work: _Work, task: asyncio.Future[Any]) -> None:
        """A task has ended: its request is answered in the turn of its connection."""
        if not self._done_of:
            self._server._loop.call_soon(self._settle_some)
        self._done_of.setdefault(work.connection, deque()).append(work)

    def _settle_some(self) -> None:
        """Answers requests whose tasks have ended for a turn, of one connection after another."""
        until = time.monotonic() + self._server._turn() / 2
        try:
            while self._done_of:
                connection, works = next(iter(self._done_of.items()))
                work = works.popleft()
                if works:
                    self._done_of.move_to_end(connection)
                else:
                    del self._done_of[connection]
                self._settle(work)
                if time.monotonic() >= until:
                    return
        finally:
            if self._done_of:
                self._server._loop.call_soon(self._settle_some)

    def _settle(self, work: _Work) -> None:
        """Answers a request by what came of its task."""
        task = work.task
        del self.works[work.asked.ticket]
        work.connection.works -= 1
        work.connection.heard = self._server._loop.time()
        if work.timer is not None:
            work.timer.cancel()
        raised = None if task.cancelled() else task.exception()
        if self._server.is_closed:
            return
        if work.is_answered:
            self._server._lines.write(work.connection, logging.INFO, "%a ended too late: what came of it is dropped",
                                      work.asked.operation)
        elif task.cancelled():
            self._cut_off(work)
        elif raised is not None:
            self._raise(work.judged, raised, work.connection)
        else:
            self._return(work.judged, task.result())
        self._server._tell()
        if not self._server.is_closed:
            self._server._wake(work.connection)

    def cut(self, work: _Work, name: str) -> None:
        """Cuts an operation off, which is answered by an exception of that name unless it says another outcome."""
        coroutine = work.coroutine
        work.cut = name
        work.had_begun = coroutine is None or inspect.getcoroutinestate(coroutine) != inspect.CORO_CREATED
        work.task.cancel()
        work.timer = self._server._loop.call_later(GRACE, self._abandon, work)

    def _cut_off(self, work: _Work) -> None:
        """Answers the request of an operation that was cancelled."""
        write, operation = partial(self._server._lines.write, work.connection), work.asked.operation
        if not work.had_begun:
            write(logging.INFO, "%a is refused: it was not begun", operation)
            self._refuse(work.asked)
        else:
            name = work.cut or "UNKNOWN"
            write(logging.WARNING, "%a was cancelled: it is answered %s, COMPLETED_MAYBE", operation, name)
            self._answer(work.asked, "UNKNOWN", partial(self._doubt, work.asked), name)

    def _abandon(self, work: _Work) -> None:
        """Answers the request of an operation that was cut off and does not end."""
        if not (work.is_answered or work.task.done() or self._server.is_closed):
            work.is_answered = True
            self._cut_off(work)
            self._server._tell()

    def _raise(self, judged: Judged, raised: BaseException, connection: Connection) -> None:
        """Answers by what a function raised."""
        asked, engine = judged.asked, self._server._engine
        answer = partial(self._answer, asked, "UNKNOWN")
        write = partial(self._server._lines.write, connection)
        if isinstance(raised, (Refuse, GiveUp)):
            name = raised.name if isinstance(raised, Refuse) else "TRANSIENT"
            write(logging.INFO, "%a is refused on %s: %s", asked.operation, connection, name)
            if isinstance(raised, GiveUp) and self._waits(asked.ticket):
                self._contexts.pop(asked.ticket, None)
                engine.give_up()
            else:
                answer(engine.refuse, name, raised.minor if isinstance(raised, Refuse) else 0)
        elif isinstance(raised, UserException):
            answer(partial(self._hand_in, judged), raised)
        elif isinstance(raised, SystemException):
            answer(engine.raise_system, known_name(raised.name), raised.minor, raised.completed)
        else:
            write(logging.ERROR, "%a raised %s", asked.operation, type(raised).__name__, error=raised)
            self._fail(asked, "UNKNOWN")

    def _return(self, judged: Judged, returned: Any) -> None:
        """Answers by what a function returned."""
        self._answer(judged.asked, "INTERNAL", partial(self._hand_in, judged), returned)

    def _hand_in(self, judged: Judged, ended: Any, ticket: int) -> None:
        """Hands in what a function returned or raised. (The engine has only the types that are on offer now.)"""
        self._answer_by(judged.asked, judged.outcome(ended), ticket)

    def _answer(self, asked: Asked, name: str, answer: Callable[..., None], *arguments: Any) -> None:
        """Answers a request; by a system exception of that name where that is no outcome of its operation."""
        contexts = self._contexts.pop(asked.ticket, None)
        try:
            # (what is not kept goes without)
            if contexts is not None and not self._is_durable(asked):
                self._server._engine.reply_contexts(contexts, ticket=asked.ticket)
            answer(*arguments, ticket=asked.ticket)
        except BaseException as error:
            if getattr(error, "number", None) == Error.LOST:
                raise
            about = self._server._connections.get(asked.connection, asked.connection)
            self._server._lines.write(about, logging.ERROR, "no outcome of %a", asked.operation, error=error)
            self._fail(asked, name)
            if not isinstance(error, Exception):
                raise

    def _fail(self, asked: Asked, name: str) -> None:
        """Answers by a system exception, COMPLETED_MAYBE. Where even this fails, for want of memory, the server ends:
        the request must not be asked again."""
        self._contexts.pop(asked.ticket, None)
        try:
            self._doubt(asked, name, ticket=asked.ticket)
        except LemonrudderError as error:
            if error.number != Error.LOST:
                self._server._stop(error)
            raise

    def _doubt(self, asked: Asked, name: str, *, ticket: int) -> None:
        """Answers by a system exception, COMPLETED_MAYBE: a store may have another outcome."""
        self._answer_by(asked, system_outcome(name, 0, Completed.MAYBE), ticket)

    def _answer_by(self, asked: Asked, outcome: Outcome, ticket: int) -> None:
        """Answers by an outcome, which is kept here where no store has it."""
        engine = self._server._engine
        (engine.answer_unkept if self._is_durable(asked) else engine.answer_stored)(outcome, ticket=ticket)

    def _refuse(self, asked: Asked) -> None:
        """Refuses a request that was not begun, by TRANSIENT. Whether a store has it is not known then."""
        refuse = partial(self._doubt, asked) if self._is_durable(asked) else self._server._engine.refuse
        self._answer(asked, "UNKNOWN", refuse, "TRANSIENT")

    def cut_all(self, name: str) -> None:
        """Cuts all off that are under way and were not."""
        for work in list(self.works.values()):
            if not work.cut:
                self.cut(work, name)

    def cancel(self) -> None:
        """Cancels all."""
        for work in list(self.works.values()):
            work.task.cancel()

    async def ends(self, timeout: Optional[float]) -> None:
        """Waits until what is under way has ended or is answered, so many seconds at most; None: however long it takes."""
        until = self._server._loop.time() + (math.inf if timeout is None else timeout)
        while not self._server.is_closed:
            left = [work.task for work in self.works.values() if not work.is_answered]
            seconds = until - self._server._loop.time()
            if not left or seconds <= 0:
                return
            await asyncio.wait(left, timeout=min(seconds, 0.05), return_when=asyncio.FIRST_COMPLETED)
