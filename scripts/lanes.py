"""Runs parts of a run side by side, says how far it is, and counts what passed and failed."""
from __future__ import annotations

import contextlib
import json
import os
import re
import signal
import subprocess
import sys
import tempfile
import threading
import time
from dataclasses import dataclass, field

from scripts.crates import ROOT
from scripts.kit import cache

# how long nothing is said at the most, in seconds
QUIET = 30
# what a part takes that was never run, in seconds
UNKNOWN = 20
# how much of a processor has to be idle for one more part to begin, and how many run at most for each processor
IDLE, EACH = 0.25, 4
# a part that ran nothing since a tool is missing says so in a line that has this
SKIPPED = ": this needs "


@dataclass
class Part:
    """A part: the command that runs it, the parts that have to pass before, and what it takes by itself, in seconds. A
    part that only makes something counts no tests."""

    name: str
    words: list[str]
    after: tuple[str, ...] = ()
    makes: bool = False
    env: dict[str, str] = field(default_factory=dict)
    # set by the run: how long it took, and what of that a processor was busy
    took: float = 0.0
    busy: float = 0.0
    passed: int = 0
    failed: int = 0
    is_well: bool = False


def processors() -> int:
    return len(os.sched_getaffinity(0))


class Took:
    """What parts took in the last run on this machine, or else in that of which the repository has the figures: how long,
    and how long a processor was busy with it."""

    def __init__(self, noted: str) -> None:
        self.path = os.path.join(cache(), "parts.json")
        self.seconds: dict[str, tuple[float, float]] = {}
        with open(noted, encoding="utf-8") as lines:
            for line in lines:
                name, took, busy = line.rsplit(maxsplit=2)
                self.seconds[name] = float(took), float(busy)
        with contextlib.suppress(OSError, ValueError), open(self.path, encoding="utf-8") as file:
            self.seconds.update({name: (took, busy) for name, (took, busy) in json.load(file).items()})

    def of(self, part: Part) -> float:
        return self.seconds.get(part.name, (UNKNOWN, UNKNOWN))[0]

    def share(self, part: Part) -> float:
        """How much of a processor a part takes: all of it, but where it waits."""
        took, busy = self.seconds.get(part.name, (UNKNOWN, UNKNOWN))
        return min(busy / took, 1.0) if took > 0 else 1.0

    def keep(self, parts: list[Part]) -> None:
        self.seconds.update({it.name: (round(it.took, 1), round(it.busy, 1)) for it in parts if it.is_well})
        with contextlib.suppress(OSError):
            os.makedirs(os.path.dirname(self.path), mode=0o700, exist_ok=True)
            with open(self.path, "w", encoding="utf-8") as file:
                json.dump(self.seconds, file, indent=0, sort_keys=True)


class Run:
    """Parts that are run side by side, as many as keep the processors busy: one that waits leaves room for another."""

    def __init__(self, parts: list[Part], took: Took, lanes: int = 0, begun: float | None = None) -> None:
        self.parts, self.took, self.lanes = parts, took, lanes or processors()
        self.lock, self.ended = threading.Condition(), 0
        self.waiting, self.running = list(parts), {}
        self.done: dict[str, Part] = {}
        self.not_run: list[str] = []
        self.start = self.last = time.monotonic()
        self.is_over = False

    # what is said

    def say(self, text: str) -> None:
        self.last = time.monotonic()
        print(text, flush=True)

    def count(self) -> tuple[int, int]:
        """How many tests passed and failed so far."""
        return sum(it.passed for it in self.done.values()), sum(it.failed for it in self.done.values())

    def left(self) -> int:
        """About how many minutes are left, by what the parts took before and the pace of this run."""
        # (what only makes something may have been kept)
        ended = [it for it in self.done.values() if it.is_well and not it.makes]
        before = sum(map(self.took.of, ended))
        pace = sum(it.took for it in ended) / before if before > 60 else 1.0
        now = time.monotonic()
        rest = sum(self.took.of(it) * self.took.share(it) for it in self.waiting)
        rest += sum(max(self.took.of(it) - (now - begun) / pace, 5) * self.took.share(it) for it, begun, _ in self.running.values())
        longest = max((self.chain(part) for part in self.waiting), default=0)
        return max(1, round(max(rest / self.lanes, longest) * pace / 60))

    def chain(self, part: Part) -> float:
        """What a part and those that it waits for take, one after another."""
        by_name = {it.name: it for it in self.waiting}
        return self.took.of(part) + max((self.chain(by_name[it]) for it in part.after if it in by_name), default=0)

    def progress(self) -> str:
        passed, failed = self.count()
        bad = f", {failed} failed" if failed else ""
        return f"{passed:,} tests passed so far{bad}, about {self.left()} min left"

    def repeat(self) -> None:
        """Says what runs where nothing was said for long."""
        while not self.is_over:
            time.sleep(1)
            with self.lock:
                if not self.is_over and time.monotonic() - self.last >= QUIET:
                    names = ", ".join(part.name for part, _, _ in self.running.values())
                    self.say(f"   [{self.ended} of {len(self.parts)}] running: {names}; {self.progress()}")

    # what is run

    def next(self) -> Part | None:
        """The next part: of those whose own are done the one with the longest chain of others behind it."""
        ready = [it for it in self.waiting if all(name in self.done for name in it.after)]
        return max(ready, key=self.behind, default=None)

    def behind(self, part: Part) -> float:
        """What a part and the longest chain of those that wait for it take."""
        return self.took.of(part) + max((self.behind(it) for it in self.waiting if part.name in it.after), default=0)

    def has_room(self) -> bool:
        """Whether one more part may begin."""
        return sum(self.took.share(part) for part, _, _ in self.running.values()) <= self.lanes - IDLE

    def lane(self) -> None:
        """Runs one part after another, until none is left."""
        while True:
            with self.lock:
                while not self.is_over and self.waiting and not (self.next() and self.has_room()):
                    self.lock.wait()
                if self.is_over or not self.waiting:
                    return
                part = self.next()
                self.waiting.remove(part)
                is_lacking = [name for name in part.after if not self.done[name].is_well]
                if not is_lacking:
                    output = tempfile.TemporaryFile("w+", encoding="utf-8", errors="replace")
                    process = subprocess.Popen(part.words, cwd=ROOT, stdin=subprocess.DEVNULL, stdout=output,
                                               stderr=subprocess.STDOUT, env={**os.environ, **part.env},
                                               start_new_session=True)
                    self.running[part.name] = part, time.monotonic(), process
            said = f"{is_lacking[0]} failed, and this stands on it" if is_lacking else self.waited(part, process, output)
            with self.lock:
                self.end(part, said, None if is_lacking else process.returncode)
                self.lock.notify_all()

    def waited(self, part: Part, process: subprocess.Popen, output) -> str:
        """What a part said, once it ended."""
        _, status, used = os.wait4(process.pid, 0)
        process.returncode = os.waitstatus_to_exitcode(status)
        part.busy = used.ru_utime + used.ru_stime
        # (what it left running ends with it)
        with contextlib.suppress(OSError):
            os.killpg(process.pid, signal.SIGKILL)
        part.took = time.monotonic() - self.running[part.name][1]
        output.seek(0)
        with output:
            return output.read()

    def end(self, part: Part, said: str, status: int | None) -> None:
        """Notes and says what came of a part."""
        self.running.pop(part.name, None)
        self.done[part.name] = part
        self.ended += 1
        found = re.findall(r"^(\d+) passed, (\d+) failed.*$", said, re.M)
        part.passed, part.failed = map(int, found[-1]) if found else (0, 0)
        is_enough = part.makes or part.passed > 0 or SKIPPED in said
        if status != 0 or not is_enough:
            part.failed = max(part.failed, 1)
        part.is_well = part.failed == 0
        self.not_run += re.findall(r"^not run: .*", said, re.M)
        if self.is_over:
            return
        what = "" if part.makes and part.is_well else f": {part.passed:,} passed, {part.failed} failed"
        if not part.is_well:
            self.say(f"== {part.name}\n{said.rstrip()}")
        self.say(f"[{self.ended} of {len(self.parts)}] {part.name}{what}, {part.took:.0f} s; {self.progress()}")

    def stop(self) -> None:
        """Ends all that runs."""
        with self.lock:
            self.is_over = True
            running = [process for _, _, process in self.running.values()]
            self.lock.notify_all()
        for number in (signal.SIGTERM, signal.SIGKILL):
            for process in running:
                with contextlib.suppress(OSError):
                    os.killpg(process.pid, number)
            time.sleep(1 if number == signal.SIGTERM and running else 0)

    def run(self) -> bool:
        """Runs all parts, and answers whether all passed. Interrupted it ends what runs, and raises."""
        threads = [threading.Thread(target=self.lane, daemon=True) for _ in range(EACH * self.lanes)]
        threading.Thread(target=self.repeat, daemon=True).start()
        for number in (signal.SIGTERM, signal.SIGHUP):
            signal.signal(number, interrupted)
        try:
            for it in threads:
                it.start()
            for it in threads:
                while it.is_alive():
                    it.join(0.2)
        except BaseException:
            self.stop()
            raise
        self.is_over = True
        self.took.keep(self.parts)
        return all(it.is_well for it in self.parts)

    def report(self) -> None:
        """Prints what took long, and what was not run, by what it lacks."""
        passed, failed = self.count()
        long = sorted((it for it in self.parts if it.took >= 30), key=lambda it: -it.took)
        print("the longest: " + ", ".join(f"{it.name} {it.took:.0f} s" for it in long[:12]))
        bad = [it.name for it in self.parts if not it.is_well]
        if bad:
            print("failed: " + ", ".join(bad))


def interrupted(number: int, _frame: object) -> None:
    """Ends the run as Ctrl-C does, with the status of a signal."""
    sys.exit(128 + number)
