"""A model of two guards that share a store, searched whole: what is promised of a request holds in each state.

It has one request, whose client sends it several times, to either guard; the guards, which crash, start again, are
stopped past their lease and go on, and lose the answer to a transaction; a server, which is lost, or says goodbye or
forwards before it performs; and the store, each of whose steps is one transaction. Promised is

- once: the server performs the request at most once;
- same: each reply that carries an outcome carries the same one;
- told: an outcome is what the server replied, or MAYBE where the server or a guard was lost, or a guard was stopped past
  its lease;
- ends: where nothing more happens, each transmission to a guard that lives is answered.

A wrong step in place of one of a guard's breaks a promise, which `WRONG` names.
"""
from __future__ import annotations

import unittest
from collections import deque
from collections.abc import Iterator
from typing import NamedTuple

GUARDS = (0, 1)
MAYBE = "maybe"
# what may happen at most: transmissions, crashes, stops past a lease, servers lost, goodbyes or forwards, answers of the
# store lost
BOUNDS = (3, 1, 1, 1, 1, 1)
# .. and with a wrong step, most of which break their promise within less
OF_WRONG = (2, 1, 1, 1, 1, 1)
SEND, CRASH, STOP, LOSE, GOODBYE, DOUBT = range(6)
FORWARD = "forward"

# each wrong step, and the promise that it breaks
WRONG = {
    "finish without its condition": "same",
    "undo without its condition": "same",
    "no lease: whoever began it is taken for lost": "told",
    "W is read outside the lock": "once",
    "no W is kept": "once",
    "answer before finish": "same",
    "send before begin": "once",
    "what a lost guard began is sent again": "once",
    "what is forgotten is answered": "same",
    "a guard that starts again takes up its old life": "ends",
    "what is in doubt is not undone": "ends",
    "a forward is kept": "told",
}


class Task(NamedTuple):
    """A transmission that a guard has: in which life, how far it is, and what is known of it."""

    guard: int
    life: int
    at: str
    knows: object = None


class State(NamedTuple):
    """All of it. The row of the store is nothing, ("begun", guard, life) or ("done", outcome)."""

    row: tuple | None
    forgets: bool  # whether W is past the request's expiration
    expired: bool
    lives: tuple[int, ...]  # of each guard, the number of its life
    leases: frozenset[tuple[int, int]]
    tasks: tuple[Task, ...]
    performed: int
    replies: frozenset
    lost: bool  # whether anything was, that MAYBE may be told of
    left: tuple[int, ...]


FIRST = State(None, False, False, (0, 0), frozenset({(0, 0), (1, 0)}), (), 0, frozenset(), False, BOUNDS)


class Model:
    """The steps that may come next, with one of `WRONG` or none."""

    def __init__(self, wrong: str | None = None) -> None:
        self.wrong = wrong

    def is_wrong(self, *names: str) -> bool:
        return self.wrong in names

    def steps(self, state: State) -> Iterator[tuple[str, State]]:
        """What may come next, by its name."""
        yield from self.of_the_world(state)
        for index, task in enumerate(state.tasks):
            rest = state._replace(tasks=state.tasks[:index] + state.tasks[index + 1:])
            yield from getattr(self, f"at_{task.at}")(rest, task)

    @staticmethod
    def takes(state: State, what: int, **others: object) -> State | None:
        """The state behind what is bounded, if it may happen once more."""
        if state.left[what] == 0:
            return None
        left = tuple(count - (index == what) for index, count in enumerate(state.left))
        return state._replace(left=left, **others)

    @staticmethod
    def has(state: State, task: Task, **others: object) -> State:
        """The state with a task (whose order means nothing)."""
        return state._replace(tasks=tuple(sorted((*state.tasks, task), key=repr)), **others)

    def of_the_world(self, state: State) -> Iterator[tuple[str, State]]:
        """What the client, the clock and chance do."""
        if not state.expired:
            yield "it expires", state._replace(expired=True)
        for guard in GUARDS:
            life = state.lives[guard]
            first = "read" if self.is_wrong("W is read outside the lock") else "come"
            if self.is_wrong("send before begin"):
                first = "begun"
            if sent := self.takes(state, SEND):
                yield f"{guard} gets it", self.has(sent, Task(guard, life, first))
            if crashed := self.takes(state, CRASH, lost=True):
                yield f"{guard} crashes", self.again(crashed, guard)
            is_held = (guard, life) in state.leases
            if is_held and (stopped := self.takes(state, STOP, lost=True)):
                yield f"{guard} is stopped past its lease", stopped._replace(leases=state.leases - {(guard, life)})
            if not is_held:
                yield f"{guard} renews its lease", state._replace(leases=state.leases | {(guard, life)})
            if state.expired:
                yield from self.purge(state)
        for lapsed in state.leases:
            if state.lives[lapsed[0]] != lapsed[1]:
                yield f"the lease of {lapsed} is over", state._replace(leases=state.leases - {lapsed})

    def again(self, state: State, guard: int) -> State:
        """A guard starts again, with nothing but its settings."""
        life = state.lives[guard] + (not self.is_wrong("a guard that starts again takes up its old life"))
        lives = tuple(life if each == guard else state.lives[each] for each in GUARDS)
        tasks = tuple(task for task in state.tasks if task.guard != guard)
        return state._replace(lives=lives, tasks=tasks, leases=state.leases | {(guard, life)})

    def purge(self, state: State) -> Iterator[tuple[str, State]]:
        """What expired is taken out, but what a guard that lives has begun."""
        if state.row is not None and (state.row[0] == "done" or state.row[1:] not in state.leases):
            yield "a purge", state._replace(row=None, forgets=not self.is_wrong("no W is kept"))

    def at_read(self, state: State, task: Task) -> Iterator[tuple[str, State]]:
        """(A wrong step: W is read before the transaction that begins.)"""
        yield "W is read", self.has(state, task._replace(at="come", knows=state.forgets))

    def at_come(self, state: State, task: Task) -> Iterator[tuple[str, State]]:
        """It is begun, or what the row says is found."""
        life = (task.guard, task.life)
        forgets = state.forgets if task.knows is None else task.knows
        if state.row is None and forgets:
            yield "refused: it expired", state
        elif state.row is None:
            begun = state._replace(row=("begun", *life))
            yield "begin", self.has(begun, task._replace(at="begun", knows=None))
            if doubted := self.takes(begun, DOUBT):
                # (it is declined, and undone once the store can be reached)
                if self.is_wrong("what is in doubt is not undone"):
                    yield "begin, whose answer is lost", doubted
                else:
                    yield "begin, whose answer is lost", self.has(doubted, task._replace(at="undo", knows=None))
        elif state.row[0] == "done":
            yield "it is done", self.told(state, state.row[1])
        else:
            yield from self.is_begun(state, task)

    def is_begun(self, state: State, task: Task) -> Iterator[tuple[str, State]]:
        """The row is begun, by this guard or another."""
        life, began = (task.guard, task.life), state.row[1:]
        lives = began in state.leases and not self.is_wrong("no lease: whoever began it is taken for lost")
        if began == life or lives:
            return  # it waits
        if self.is_wrong("what a lost guard began is sent again"):
            yield "taken over", self.has(state._replace(row=("begun", *life)), task._replace(at="begun"))
        else:
            yield "its guard is lost", self.told(state._replace(row=("done", MAYBE)), MAYBE)

    def at_begun(self, state: State, task: Task) -> Iterator[tuple[str, State]]:
        """It is sent, or can't be."""
        yield "send", self.has(state, task._replace(at="sent"))
        yield "can't be sent", self.has(state, task._replace(at="undo"))

    def at_undo(self, state: State, task: Task) -> Iterator[tuple[str, State]]:
        """Nothing was sent, or it was forwarded: the row goes, and TRANSIENT or the forward is told, of which nothing is
        kept."""
        is_ours = state.row == ("begun", task.guard, task.life)
        goes = is_ours or self.is_wrong("undo without its condition")
        yield "undo", state._replace(row=None) if goes else state

    def at_sent(self, state: State, task: Task) -> Iterator[tuple[str, State]]:
        """The server performs it and replies, is lost before or behind that, or says goodbye or forwards before it."""
        count = state.performed + 1
        replied = task._replace(at="received", knows=count)
        yield "the server replies", self.has(state._replace(performed=count), replied)
        unknown = task._replace(at="received", knows=MAYBE)
        for performed in (state.performed, count):
            if lost := self.takes(state, LOSE, lost=True, performed=performed):
                yield "the server is lost", self.has(lost, unknown)
        if left := self.takes(state, GOODBYE):
            yield "the server says goodbye", self.has(left, task._replace(at="begun"))
            if self.is_wrong("a forward is kept"):
                yield "the server forwards", self.has(left, task._replace(at="received", knows=FORWARD))
            else:
                # (what is told then is no outcome: its client sends again, and that is a transmission)
                yield "the server forwards", self.has(left, task._replace(at="undo"))

    def at_received(self, state: State, task: Task) -> Iterator[tuple[str, State]]:
        """What is known is written, where the row is still this guard's; else what the row says counts."""
        outcome = task.knows
        if self.is_wrong("answer before finish") and state.row is not None:
            state = self.told(state, outcome)
        is_ours = state.row == ("begun", task.guard, task.life)
        if self.is_wrong("send before begin"):
            is_ours = state.row is None
        if is_ours or self.is_wrong("finish without its condition"):
            done = state._replace(row=("done", outcome))
            yield "finish", self.has(done, task._replace(at="finished"))
            if doubted := self.takes(done, DOUBT):
                yield "finish, whose answer is lost", self.has(doubted, task)
        elif state.row is not None and state.row[0] == "done":
            yield "another was quicker", self.has(state, task._replace(at="finished", knows=state.row[1]))
        elif self.is_wrong("what is forgotten is answered"):
            yield "it is forgotten", self.told(state, outcome)
        else:
            yield "refused: it is forgotten", state

    def at_finished(self, state: State, task: Task) -> Iterator[tuple[str, State]]:
        """The client is answered."""
        yield "answer", self.told(state, task.knows)

    @staticmethod
    def told(state: State, outcome: object) -> State:
        """A reply carries an outcome."""
        return state._replace(replies=state.replies | {outcome})


def broken(state: State, ends: bool) -> str | None:
    """The promise that does not hold in a state."""
    if state.performed > 1:
        return "once"
    if len(state.replies) > 1:
        return "same"
    if MAYBE in state.replies and not state.lost or FORWARD in state.replies:
        return "told"
    if ends and state.tasks:
        return "ends"
    return None


def search(model: Model, bounds: tuple[int, ...]) -> tuple[str | None, int, list[str]]:
    """The first promise that is broken, how many states were looked at, and the steps that led there."""
    first = FIRST._replace(left=bounds)
    came: dict[State, tuple[State, str] | None] = {first: None}
    waiting = deque([first])
    while waiting:
        state = waiting.popleft()
        following = list(model.steps(state))
        # (a step that changes nothing, as a lease that is renewed, is none)
        promise = broken(state, not any(after != state for _, after in following))
        if promise is not None:
            return promise, len(came), way(came, state)
        for name, after in following:
            if after not in came:
                came[after] = (state, name)
                waiting.append(after)
    return None, len(came), []


def way(came: dict, state: State) -> list[str]:
    """The steps that lead to a state."""
    names = []
    while came[state] is not None:
        state, name = came[state]
        names.append(name)
    return names[::-1]


class Promises(unittest.TestCase):
    """What is promised holds in each state, and each wrong step breaks it."""

    def test_steps(self):
        """The steps as they are."""
        promise, states, steps = search(Model(), BOUNDS)
        self.assertIsNone(promise, steps)
        self.assertGreater(states, 10000)

    def test_wrong_steps(self):
        """One of them is wrong."""
        for wrong, want in WRONG.items():
            with self.subTest(wrong):
                promise, states, steps = search(Model(wrong), OF_WRONG)
                if promise is None:
                    promise, states, steps = search(Model(wrong), BOUNDS)
                self.assertEqual(promise, want, (states, steps))


if __name__ == "__main__":
    unittest.main()
