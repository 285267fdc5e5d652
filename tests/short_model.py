"""The model of an engine and its owner for which memory runs out at one place of a play.

`Short` fails at the place of this number, where one can: its places are counted from 1 as they come. `outcomes` plays a
script with each of them, up to the first number that has none.
"""
from tests.engine_model import NOT_NOW, Engine, GivenUp, Left, Lost, NotParked

# how a play can fail: before a message is handled, or a piece is taken whole; a request is not asked for, or not parked;
# an outcome is kept, and its reply not written; who is declined is lost; no goodbye is said; who repeats what is parked
# is lost; who waits for it is lost; or a connection isn't opened, or not closed. The counter performs without memory
BEFORE, ASKED, PARKED, KEPT, DECLINED, SILENT, REPEATED, DUE, OPENED, CLOSED = (
    "before", "asked", "parked", "kept", "declined", "silent", "repeated", "due", "opened", "closed")


class NoMemory(Lost):
    """An allocation failed: so many more count, and so many of these are answered, than came since the engine
    stopped."""

    def __init__(self, handled=0, answered=0, is_new=False):
        self.handled, self.answered, self.is_new = handled, answered, is_new

    def line(self, number, since):
        since = 0 if self.is_new else since
        return f"memory {number} {since + self.handled} {since + self.answered}"


class Short(Engine):
    """An engine for which memory runs out at the place of this number."""

    def __init__(self, terms, streams, places, number):
        super().__init__(terms, streams, places)
        self.left, self.failed = number, None

    def fails(self, how):
        """Whether memory runs out here."""
        self.left -= 1
        if self.left == 0:
            self.failed = how
        return self.left == 0

    def answer_at_once(self, connection, said):
        if self.fails(BEFORE):
            raise NoMemory
        return super().answer_at_once(connection, said)

    def end(self):
        if self.fails(BEFORE):
            raise NoMemory

    def note(self, line):
        if line.startswith("repeat"):
            if self.fails(REPEATED):
                raise NoMemory(is_new=True)
        elif self.fails(ASKED if line.startswith("ask") else PARKED):
            raise GivenUp
        super().note(line)

    def answer_now(self, connection, call):
        try:
            came = super().answer_now(connection, call)
        except Left:
            if self.fails(SILENT):
                raise GivenUp from None
            raise
        if came == NOT_NOW and self.fails(DECLINED):
            raise NoMemory
        return came

    def reply(self, asked, outcome):
        if any(key == asked.field and kept == outcome for key, _, kept in self.performed) and self.fails(KEPT):
            raise NoMemory(handled=1)
        return super().reply(asked, outcome)

    def open(self, number):
        return (b"", f"memory {number} 0 0") if self.fails(OPENED) else super().open(number)

    def close(self, number):
        if self.is_going(number) and self.fails(CLOSED):
            return b"", f"memory {number} 0 0"
        return super().close(number)

    def tell(self, number, asked, outcome):
        if self.fails(DUE):
            self.lines.append(f"memory {number} 0 0")
            self.lose(number)
        else:
            super().tell(number, asked, outcome)


def play_short(terms, streams, events, places, number):
    """A play in which memory runs out at the place of a number, or at none at 0: how it failed, the status, and what is
    printed on either output."""
    engine, count = Short(terms, streams, places, number), 0
    try:
        for event in events:
            count += 1
            list(engine.step(event))
    except NotParked:
        return engine.failed, (1, engine.lines, f"line {count}: not parked\n")
    return engine.failed, (0, [*engine.lines, f"total {engine.total}"], "")


def outcomes(terms, streams, events, places):
    """How a play may end: each way in which it fails, with what is printed; first without one."""
    number = 0
    while True:
        failed, end = play_short(terms, streams, events, places, number)
        if number and failed is None:
            return
        yield failed, end
        number += 1
