"""Plays lists of an owner's deeds with tests/embed/deeds.c, a player over the header for C, and compares.

The random lists are those of tests/deeds.py, and what is printed for each must be what its model says. The rows are
those that crates/deeds_player has, and are printed as they stand there. Both by these rules, which say where the header
has no such thing, or another:

- An error says that there is no place to park a request, and not which places are taken.
- The greatest length of a client's id is set before the first connection is opened: afterwards `bound` is too late,
  also while a request waits. So is whether the owner is asked first. Rows in which either changes later are left out.
- What is told unkept is handed in as octets, which fit each operation: no outcome is refused.
- Goodbye is not refused on a connection where somebody waits, but said behind the replies: rows in which it is refused
  are left out.
- What became of each request (`heard`) is not told, but counted; why a connection ended (`ending`) is not told.
- The connections on which octets became due by the outcome of a parked request are named in no order that is promised:
  what is told is compared by the numbers of the connections, and in its order on each.
- Where so much is due on a connection that it is fed no more, and its stream has ended too, either may come first: what
  is due is taken before something comes there.
"""
from __future__ import annotations

import os
import random
import re
import unittest
from collections.abc import Iterator

from tests import base, deeds, embedding, programs
from tests.engine_model import Asked, GivenUp, Parked, Places
from tests.giop import HEADER

ROWS = os.path.join(programs.ROOT, "crates", "deeds_player")
# the greatest length of a client's id where none is set
LONGEST = 256
# .. and how many octets are due on a connection from which on it is fed no more
DUE = 1048576


class Maker(deeds.Maker):
    """Makes the steps of a list, also those that only the header has."""

    def __init__(self, dice: random.Random) -> None:
        super().__init__(dice)
        self.places = Places(dice.choice([1, 2, 3, 100]), dice.choice([0, 1, 2, 10]))
        self.of_one = dice.choice([self.places.parked, 1, 2])

    def request(self) -> deeds.Asking:
        asking, dice = super().request(), self.dice
        number = asking.asked.request_id
        if self.manners[number] == "give_up" and dice.random() < 0.5:
            self.manners[number] = "goodbye"
        return asking._replace(connection=dice.choice([asking.connection, dice.randint(1, self.last)]))

    def step(self) -> tuple:
        chance = self.dice.random()
        if chance < 0.1:
            return self.opened()
        if chance < 0.85:
            return super().step()
        return self.dice.choice([("parked",), ("wanted",), ("connections",), ("restore",), ("hold",), ("flow",)])

    def made(self) -> list[tuple]:
        longest = self.dice.choice([0, 2, 6, 255, *[LONGEST] * 20])
        due = self.dice.choice([1, 32, 33, 100, DUE, DUE])
        first = self.dice.random() < 0.5
        self.steps = [("bound", longest), ("due", due), ("first", first), *super().made(), ("parked",),
                      ("connections",), ("flow",)]
        return self.steps


class Embedded(deeds.Owned):
    """A server of the library, and its owner."""

    def __init__(self, maker: Maker) -> None:
        super().__init__(maker)
        self.longest = LONGEST
        # how many octets are due on a connection from which on it is fed no more; what is due on each, with its octets;
        # and whether it is left there
        self.limit, self.due, self.is_held = DUE, {}, False
        # the connections that were opened, those of them that were not lost, and those on which goodbye is to be said
        # once nobody waits there
        self.opened, self.known, self.leaving = set(), set(), set()

    def written(self, connection: int, words: str, size: int) -> str:
        self.due.setdefault(connection, []).append((words, size))
        return "" if self.is_held else words

    def flush(self) -> None:
        if not self.is_held:
            self.due.clear()

    def is_choked(self, connection: int) -> bool:
        return self.limit <= sum(size for _, size in self.due.get(connection, []))

    def told(self, replies: list[tuple[int, str]]) -> list[str]:
        if self.is_held:
            for connection in sorted({connection for connection, _ in replies}):
                self.part(connection)
            return [f"{connection} named" for connection in sorted({connection for connection, _ in replies})]
        lines = super().told(replies)
        for connection in {connection for connection, _ in replies}:
            goodbye = self.part(connection)
            if goodbye:
                last = max(at for at, (other, _) in enumerate(replies) if other == connection)
                lines[last] += f"\n{connection} done{goodbye}"
        return "\n".join(lines).split("\n") if lines else []

    def part(self, connection: int) -> str:
        """Says goodbye on a connection that is leaving, once nobody waits there."""
        if connection not in self.leaving or self.waits_on(connection):
            return ""
        self.leaving.discard(connection)
        self.wires[connection].is_shut = True
        return self.written(connection, " close", HEADER)

    def do_asks(self, connection: int, now: int, some: list[Asked]) -> None:
        if not self.is_going(connection) or connection in self.leaving:
            self.do_flow()
        if connection not in self.leaving:
            return super().do_asks(connection, now, some)
        self.clock = max(self.clock, now)
        line = f"asks {connection} {now} {','.join(map(deeds.request_words, some))}"
        return self.deed(line, f"{connection} done")

    def do_close(self, number: int) -> None:
        if not (self.is_going(number) and self.waits_on(number)):
            return super().do_close(number)
        self.leaving.add(number)
        count = sum(waiter == number for parked in self.parked.values() for waiter, _ in parked.waiting)
        return self.deed(f"close {number}", f"{number} waits {count}")

    def do_hold(self) -> None:
        self.give("hold")
        self.is_held = True

    def do_flow(self) -> None:
        self.give("flow")
        self.is_held = False
        self.lines += [f"{number} due{words}" for number, messages in sorted(self.due.items()) for words, _ in messages]
        self.due.clear()

    def do_opened(self, number: int) -> None:
        new = {number} if self.greatest < number else set()
        self.opened, self.known = self.opened | new, self.known | new
        super().do_opened(number)

    def do_lost(self, number: int) -> None:
        self.due.pop(number, None)
        self.known.discard(number)
        self.leaving.discard(number)
        super().do_lost(number)

    def do_connections(self) -> None:
        self.give("connections")
        closed = [str(number) for number in sorted(self.opened) if not self.is_going(number)]
        self.lines.append(" ".join([f"connections {len(self.known)}", *closed]))

    def full(self, connection: int) -> str | None:
        return None if super().full(connection) is None else "unparked"

    def going(self, parked: Parked) -> list[tuple[int, Asked]]:
        return sorted(super().going(parked), key=lambda waiter: waiter[0])

    def while_asking(self, line: str) -> None:
        if line.startswith("bound"):
            return self.do_bound(int(line.split()[1]))
        if line in ("first", "last"):
            return self.do_first(line == "first")
        return super().while_asking(line)

    def give_up(self, manner: str, connection: int, asked: Asked) -> str:
        if manner == "give_up":
            return super().give_up(manner, connection, asked)
        if self.waits_on(connection):
            self.refused("goodbye", "waits")
            return self.answer_asked("answer", connection, asked)
        said = self.written(connection, " close", HEADER)
        self.deed("goodbye", f"{connection} lost {self.handled} {self.handled}{said}")
        self.counts["given_up"] += 1
        raise GivenUp

    def takes_any(self, verb: str) -> bool:
        return verb == "tell_parked"

    def is_late(self, line: str) -> bool:
        """Gives a line that sets a limit, and says whether a connection was opened."""
        self.give(line)
        self.lines += ["too late"] if self.greatest >= 0 else []
        return self.greatest >= 0

    def do_bound(self, octets: int) -> None:
        if not self.is_late(f"bound {octets}"):
            self.longest = octets

    def do_first(self, is_first: bool) -> None:
        if not self.is_late("first" if is_first else "last"):
            self.is_first = is_first

    def do_due(self, octets: int) -> None:
        if not self.is_late(f"due {octets}"):
            self.limit = octets

    def do_restore(self) -> None:
        self.give("restore")
        self.is_hidden = False

    def do_parked(self) -> None:
        self.give("parked")
        counts = [(number, self.parked_of(number)) for number in sorted(set(self.origins.values()))]
        self.lines.append(" ".join([f"parked {len(self.parked)}", *(f"{c}/{count}" for c, count in counts if count)]))

    def do_wanted(self) -> None:
        self.give("wanted")
        some = [f"{number}/{len(self.going(parked))}" for number, parked in sorted(self.parked.items())]
        self.lines.append(" ".join(["wanted", *some]))


def blocks(name: str) -> list[list[str]]:
    """The lines of a file of rows, by their rows, but for what is not told."""
    with open(os.path.join(ROWS, name), encoding="ascii") as file:
        rows = file.read().rstrip("\n").split("\n\n")
    return [[line for line in row.splitlines() if line.split(" ")[0] not in ("heard", "ending")] for row in rows]


def is_bounded_late(given: list[str]) -> bool:
    """Whether the greatest length of a client's id, or whether the owner is asked first, changes late."""
    words = [line.split(" ")[0] for line in given]
    return any(word in ("bound", "first") and "opened" in words[:at] for at, word in enumerate(words))


def is_refused_goodbye(printed: list[str]) -> bool:
    """Whether goodbye is refused where somebody waits."""
    return any(re.fullmatch(r"refused \d+ waits", line) for line in printed)


def rows() -> tuple[list[str], list[str]]:
    """The lines of the rows that the header can play, and what is printed for them."""
    given, printed = blocks("stdin"), blocks("stdout")
    assert len(given) == len(printed), "another number of rows"
    pairs = [pair for pair in zip(given, printed) if not is_bounded_late(pair[0]) and not is_refused_goodbye(pair[1])]
    lines = [line for _, row in pairs for line in row]
    return [line for row, _ in pairs for line in row], [re.sub(r"unparked \w+$", "unparked", line) for line in lines]


def compiled(way: str) -> str:
    """The player, compiled for one of the ways in which the programs of tests/embed are run."""
    kit = embedding.the_kit()
    flags, before = embedding.WAYS[way]
    if before:
        programs.tool(before[0])
    if flags == embedding.SANITIZED and not kit.is_sanitized:
        raise unittest.SkipTest("this needs the sanitizers")
    libraries = kit.shared() if way == "with the shared library" else None
    source = os.path.join(embedding.EMBED, "deeds.c")
    return kit.compile(f"deeds_{way.replace(' ', '_')}", [source], [f"-I{embedding.EMBED}", *flags], libraries)


def ways() -> Iterator[tuple[str, str]]:
    """The ways in which the player is run."""
    for way in embedding.WAYS:
        if way != "without exceptions":
            yield way, way


class Rows(unittest.TestCase):
    """The rows of crates/deeds_player."""

    @base.each(ways)
    def test_rows(self, way: str) -> None:
        """What is printed for them is what stands there, with either library, the sanitizers, and under valgrind."""
        given, wanted = rows()
        words = [*embedding.WAYS[way][1], compiled(way)]
        run = base.ran(*words, given="".join(line + "\n" for line in given).encode(), seconds=embedding.PATIENCE)
        self.assertEqual((run.stdout.decode().splitlines(), run.stderr.decode(), run.returncode), (wanted, "", 0))


class Lists(unittest.TestCase):
    """An owner's deeds on a server, and changes of what it has on offer, on random lists."""

    @classmethod
    def setUpClass(cls) -> None:
        cls.player = compiled("with the sanitizers" if embedding.the_kit().is_sanitized else "with the archive")

    @base.each_seed(deeds.SEED, deeds.COUNT, deeds.PLAYERS)
    def test_lists(self, seed: int) -> None:
        """What is written for each deed of the lists that an engine plays is what the model says."""
        deeds.judge(self.player, deeds.Maker(random.Random(seed)), Embedded)

    @base.each_seed(deeds.SEED, deeds.COUNT, deeds.PLAYERS)
    def test_lists_of_the_header(self, seed: int) -> None:
        """So is what is written for each deed that the header has."""
        deeds.judge(self.player, Maker(random.Random(seed)), Embedded)
