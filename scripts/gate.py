"""Proves crates by the merge gate of the kit, `rt ci`, in a folder that has them alone.

The crates that only test are not among them: what they do is run, and not proved. What an earlier run on this machine
proved of the same files is taken, where the kit keeps it; a crate is kept as soon as it is proved, so that a run that was
interrupted goes on where it was.
"""
from __future__ import annotations

import contextlib
import os
import re
import shutil
import subprocess
import sys
import tempfile
import threading
import time
from collections.abc import Iterator

from scripts.crates import ROOT, SECONDS, Build, free_memory, listed, now
from scripts.kit import cache, load_kit, sum_of

OUT = os.path.join(ROOT, "out")
# the most processor minutes that proofs from nothing may take, by the clock of this machine: to be lowered, never raised
LIMIT = 210
# what the check of a large crate takes, in gigabytes of memory
EACH = 5
# how long nothing is said at the most, in seconds, and how often the processor time is looked at
QUIET, OFTEN = 30, 0.5
# what of a crate is no part of its proof
LEFT_OUT = ("out", "wrong_bodies", "__pycache__")
# the ends of a program's names, as each compiler builds it
COMPILERS = ("", ".by-rattle")


class Interrupted(Exception):
    """The run was told to end."""


def say(text: str) -> None:
    print(text, flush=True)


def took_file(kit, crate) -> str:
    """Where it is kept what the proof of a crate took that is the same as this."""
    return os.path.join(cache(), "took", f"{crate.name}-{sum_of(kit, crate)}")


class Watch:
    """What processor time the checks of each crate take, by the system's account of what runs below a folder."""

    def __init__(self, folder: str) -> None:
        self.folder, self.tick = folder + "/crates/", os.sysconf("SC_CLK_TCK")
        self.seen: dict[tuple[str, str], tuple[str, float]] = {}
        self.is_over = False
        threading.Thread(target=self.watch, daemon=True).start()

    def watch(self) -> None:
        while not self.is_over:
            self.look()
            time.sleep(OFTEN)

    def look(self) -> None:
        for pid in filter(str.isdigit, os.listdir("/proc")):
            with contextlib.suppress(OSError, ValueError, IndexError):
                at = os.readlink(f"/proc/{pid}/cwd")
                if not at.startswith(self.folder):
                    continue
                with open(f"/proc/{pid}/stat", encoding="ascii", errors="replace") as file:
                    fields = file.read().rsplit(")", 1)[1].split()
                crate = at[len(self.folder):].split("/")[0]
                self.seen[pid, fields[19]] = crate, (int(fields[11]) + int(fields[12])) / self.tick

    def seconds(self, crate: str) -> float:
        return sum(it for name, it in list(self.seen.values()) if name == crate)


class Gate:
    """A run of `rt ci` over crates that are laid out in a folder."""

    def __init__(self, folder: str, names: list[str], is_anew: bool) -> None:
        self.folder, self.names, self.is_anew = folder, names, is_anew
        self.kit = load_kit()
        self.since = now()
        lay_out(folder, names)
        self.crates = {it.name: it for it in self.kit.crates_below(folder)}
        self.start = self.last = time.monotonic()
        self.done: dict[str, str] = {}
        self.took: dict[str, float] = {}
        self.process: subprocess.Popen | None = None

    def words(self) -> list[str]:
        """The words of the gate. A kit whose `rt ci` keeps no proofs has no word for leaving them alone, and proves all."""
        said = subprocess.run(["rt", "help"], stdout=subprocess.PIPE, stderr=subprocess.STDOUT, text=True, check=False).stdout
        if "--anew" not in said:
            say("this kit keeps no proofs: each run proves all")
        return ["rt", "ci"] + ["--anew"] * (self.is_anew and "--anew" in said)

    def left(self) -> int:
        """About how many minutes are left, by what each crate takes and the pace of those that are proved."""
        proved = [it for it, how in self.done.items() if how == "proved"]
        before = sum(SECONDS.get(it, 60) for it in proved)
        pace = sum(self.took.get(it, 0) for it in proved) / before if before else 1.0
        left = [it for it in self.names if it not in self.done]
        rest = sum(max(SECONDS.get(it, 60) * (pace or 1) - self.watch.seconds(it), 5) for it in left)
        known = listed()

        def chain(name: str) -> float:
            return SECONDS.get(name, 60) + max((chain(it) for it in known[name] if it in left), default=0)

        longest = max(map(chain, left), default=0) * (pace or 1)
        return max(1, round(max(rest / lanes(), longest) / 60))

    def progress(self, text: str) -> None:
        self.last = time.monotonic()
        say(f"[{len(self.done)} of {len(self.names)}] {text}; {(self.last - self.start) / 60:.0f} min so far, about {self.left()} left")

    def repeat(self) -> None:
        while self.process.poll() is None:
            time.sleep(1)
            if time.monotonic() - self.last >= QUIET:
                busy = [it for it in self.names if it not in self.done and self.watch.seconds(it) > 0]
                self.progress(f"proving {', '.join(busy) or 'nothing yet'}")

    def show(self, line: str) -> None:
        """Says what a line of `rt ci` means for one who waits."""
        kept = re.match(r"rt: (\w+) is kept: ", line)
        proved = re.fullmatch(r"rt: (\w+) (proved|NOT PROVED.*)\n", line)
        if kept and kept[1] in self.names:
            self.done[kept[1]] = "kept"
            self.progress(f"{kept[1]} was proved by an earlier run of the same files")
        elif proved and proved[1] in self.names:
            self.done[proved[1]] = "proved" if proved[2] == "proved" else "failed"
            self.took[proved[1]] = self.watch.seconds(proved[1])
            self.progress(f"{proved[1]} {proved[2]}, {self.took[proved[1]] / 60:.1f} min of processor time")

    def run(self) -> bool:
        """Proves all, and answers whether that succeeded. What failed is shown in full."""
        self.watch = Watch(self.folder)
        env = {"RT_JOBS": str(lanes()), **os.environ}
        said: list[str] = []
        self.process = subprocess.Popen(self.words(), cwd=self.folder, stdin=subprocess.DEVNULL, stdout=subprocess.PIPE,
                                        stderr=subprocess.STDOUT, text=True, errors="replace", env=env)
        threading.Thread(target=self.repeat, daemon=True).start()
        try:
            for line in self.process.stdout:
                said.append(line)
                self.show(line)
        except BaseException:
            self.process.terminate()
            self.process.wait()
            raise
        finally:
            self.watch.is_over = True
        if self.process.wait() != 0:
            say("".join(blocks_of_failures(said, self.done)))
            return False
        self.keep_times()
        return True

    def keep_times(self) -> None:
        """Keeps what each proof took, for later runs that take it as it is."""
        for name, seconds in self.took.items():
            with contextlib.suppress(OSError):
                path = took_file(self.kit, self.crates[name])
                os.makedirs(os.path.dirname(path), mode=0o700, exist_ok=True)
                with open(path, "w", encoding="utf-8") as file:
                    file.write(f"{seconds:.0f}\n")

    def times(self) -> dict[str, tuple[float, bool]]:
        """What the proof of each crate takes from nothing, in seconds of processor time: as it was measured on this
        machine, or else as the sources have it; and whether it was measured."""
        found = {}
        for name in self.names:
            found[name] = SECONDS.get(name, 0), False
            with contextlib.suppress(OSError, ValueError), open(took_file(self.kit, self.crates[name]), encoding="utf-8") as file:
                found[name] = float(file.read()), True
        return found

    def give(self, name: str) -> None:
        """Puts a program that was built into its crate's folder, as each compiler built it."""
        to = os.path.join(ROOT, "crates", name, "out")
        os.makedirs(to, exist_ok=True)
        for ending in COMPILERS:
            made = os.path.join(self.folder, "crates", name, "out", name + ending)
            if os.path.exists(made):
                with tempfile.TemporaryDirectory(dir=to) as room:
                    os.replace(shutil.copy2(made, room), os.path.join(to, name + ending))
        Build(os.path.join(to, name), name).note(self.since)


def blocks_of_failures(said: list[str], done: dict[str, str]) -> Iterator[str]:
    """Of what `rt ci` said the parts that are about crates that failed, and its end."""
    failed, block = [name for name, how in done.items() if how == "failed"], []
    for line in said:
        if line.startswith("== "):
            block = []
        block.append(line)
        if re.match(r"rt: (\w+)[: ].*NOT PROVED", line) and re.match(r"rt: (\w+)", line)[1] in failed:
            yield from block[-200:]
            block = []
    yield from [line for line in said[-30:] if line not in block] if not failed else block[-12:]


def lanes() -> int:
    """How many crates are proved side by side: as many as there are processors, and memory for what they take. By itself
    `rt ci` reckons what they might take at the most, and has the largest wait until no other is left."""
    return max(1, min(len(os.sched_getaffinity(0)), int(free_memory() / EACH)))


def lay_out(folder: str, names: list[str]) -> None:
    """Makes a repository of these crates: their sources, what a program is run on, and the list of them."""
    known = listed()
    os.makedirs(f"{folder}/.git")
    for name in names:
        shutil.copytree(f"{ROOT}/crates/{name}", f"{folder}/crates/{name}",
                        ignore=lambda at, found, top=f"{ROOT}/crates/{name}": [it for it in found if at == top and it in LEFT_OUT])
    with open(os.path.join(ROOT, "crates.txt"), encoding="utf-8") as lines:
        heads = {line.partition(":")[0].split()[0]: line for line in lines if line.partition("#")[0].strip()}
    with open(f"{folder}/crates.txt", "w", encoding="utf-8") as file:
        file.write("".join(heads[name] for name in known if name in names))
    shutil.copyfile(os.path.join(ROOT, "HANDLES"), f"{folder}/HANDLES")


def is_test(name: str) -> bool:
    """Whether a crate only tests or measures: it is run, and not proved."""
    return re.fullmatch(r"(\w+_)?(tests|trials|player)|benches", name) is not None


def to_be_proved() -> list[str]:
    """The crates that are proved, each after those that it stands on."""
    return [name for name in listed() if not is_test(name)]


def clean() -> None:
    """Removes what runs that were killed left."""
    os.makedirs(OUT, exist_ok=True)
    for name in os.listdir(OUT):
        owner = re.fullmatch(r"gate-(\d+)-\w+", name)
        if owner and not os.path.exists(f"/proc/{owner[1]}"):
            shutil.rmtree(os.path.join(OUT, name), ignore_errors=True)


@contextlib.contextmanager
def gate(names: list[str], is_anew: bool = False) -> Iterator[Gate]:
    """A gate over these crates and those below them. Its folder goes with it."""
    known, wanted = listed(), []
    for name in names:
        wanted += [it for it in below(name, known) if it not in wanted]
    clean()
    folder = tempfile.mkdtemp(prefix=f"gate-{os.getpid()}-", dir=OUT)
    try:
        yield Gate(folder, [it for it in known if it in wanted], is_anew)
    finally:
        shutil.rmtree(folder, ignore_errors=True)


def below(name: str, known: dict[str, list[str]]) -> list[str]:
    """A crate, and those of this repository below it."""
    if name not in known:
        sys.exit(f"crates.txt has no {name}")
    return [name, *(it for dep in known[name] if dep in known for it in below(dep, known))]
