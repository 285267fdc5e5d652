"""What crates.txt lists, and what the program giop is built from."""
import contextlib
import hashlib
import os
import time
from dataclasses import dataclass

ROOT = os.path.dirname(os.path.dirname(os.path.realpath(__file__)))
TOOL = "giop_tool"
PROGRAM = os.path.join(ROOT, "crates", TOOL, "out", TOOL)
# where builds that are not proved stand
UNPROVED = os.path.join(ROOT, "out", "unproved")
# the parts of a crate that its proof and its code are made from
PARTS = ("src", "specs", "proofs")
# what the proof of each crate took from nothing when that was last noted (./prove --note), in seconds of processor time
MINUTES = os.path.join(ROOT, "scripts", "minutes.txt")
with open(MINUTES, encoding="utf-8") as noted:
    SECONDS = {name: int(seconds) for name, seconds in map(str.split, noted)}


def listed():
    """The crates of crates.txt, each with the libraries that it stands on."""
    with open(os.path.join(ROOT, "crates.txt"), encoding="utf-8") as lines:
        found = [line.partition("#")[0].partition(":") for line in lines]
    return {name.split()[0]: names.split() for name, _, names in found if name.strip()}


def needed(crate, known):
    """The crates of this repository that a crate stands on, each after those that it needs, and itself."""
    order = []
    for name in known[crate]:
        if name in known:
            order += [it for it in needed(name, known) if it not in order]
    return order + [crate]


def free_memory():
    """The memory that is free, in gigabytes."""
    with open("/proc/meminfo", encoding="ascii") as lines:
        return next(int(line.split()[1]) for line in lines if line.startswith("MemAvailable:")) / (1 << 20)


def now():
    """This moment, as the times of files that are written after it are not before it."""
    # (the system notes times of files by a clock that ticks)
    return time.time() - 0.02


def places_of(crate, parts=PARTS):
    """The folders that a crate's proof and code are made from, from the top of the repository."""
    return [f"crates/{crate}/{part}" for part in parts if os.path.isdir(f"{ROOT}/crates/{crate}/{part}")]


def sum_of(place):
    """The sum of a file, or of the paths and the octets of all files below a folder."""
    path = os.path.join(ROOT, place)
    files = [path] if os.path.isfile(path) else sorted(
        os.path.join(folder, name) for folder, _, names in os.walk(path) for name in names)
    sums = hashlib.sha256()
    for file in files:
        with open(file, "rb") as octets:
            sums.update(f"{os.path.relpath(file, path)}\n{hashlib.sha256(octets.read()).hexdigest()}\n".encode())
    return sums.hexdigest()


@dataclass(frozen=True)
class Build:
    """A program, and what it was built from: its crate and all below it, of each the parts that count, and files beside
    them. The note of it has a line for each file or folder, with its sum, and the time of the build's beginning."""

    path: str = PROGRAM
    crate: str = TOOL
    parts: tuple = PARTS
    beside: tuple = ()

    @property
    def noted(self):
        return self.path + ".built"

    def places(self):
        """The files and folders that it is built from."""
        below = [place for crate in needed(self.crate, listed()) for place in places_of(crate, self.parts)]
        return ["crates.txt", *self.beside, *below]

    def note(self, since):
        """Notes that it was built from the sources as they stood at a moment, for ./giop."""
        with open(self.noted, "w", encoding="utf-8") as file:
            file.write("".join(f"{place} {sum_of(place)}\n" for place in self.places()))
        os.utime(self.noted, (since, since))

    def is_same(self):
        """Whether the sources are those that it was built from, whatever their times are. If so, their times are not
        asked about again: a tree that was copied is current."""
        since = now()
        try:
            with open(self.noted, encoding="utf-8") as lines:
                noted = dict(line.split() for line in lines)
        except (OSError, ValueError):
            return False
        if not os.path.isfile(self.path) or noted != {place: sum_of(place) for place in self.places()}:
            return False
        with contextlib.suppress(OSError):
            os.utime(self.noted, (since, since))
        return True
