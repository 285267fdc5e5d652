#!/usr/bin/env python3
"""Times the lower crates and the program against a plain engine in Rust, on the same input in one run.

usage: measure.py OURS PLAIN GIOP [--rounds 5] [--only WORD] [--no-instructions] [--short]

OURS is the program of crates/benches, PLAIN that of bench/plain.rs, GIOP the program `giop`. Each row is a
kind of work: what it does in one count, so many counts, and the octets of a piece. Times are processor time, the best
of so many rounds, in which the programs take turns, with the least and the greatest ratio of a round. The time of
making the stream is left out: it is that of the same program with pieces of 0 octets. Where both are nearly equal, a
round is of 20 runs.
Instructions are those that callgrind counts, for one count; of `check` and `show` for one digit. The last columns
are the octets of memory for each digit.

The status is 1 where the programs don't print the same, where nothing was read, where work takes no more time,
instructions or memory than none, and where a round's work takes less than 50 milliseconds: such figures can't be.

With --short a row is of a twentieth of the counts, once, and instructions are counted of the first row of a table alone.
No figure is judged, but what the programs print still is. All scripts of this folder have it.
"""
import argparse
import os
import re
import subprocess
import sys
import tempfile

sys.path.insert(0, os.path.dirname(os.path.dirname(os.path.abspath(__file__))))
from tests.giop_peers import request  # noqa: E402

# what is done, the word for it, octets of a piece, counts that are timed, in so many runs, and counts whose
# instructions are counted
ROWS = [
    ("a Request of 84 octets is read", "read", 84, 1_000_000, 20, 10_000),
    ("a Reply of 28", "reply", 84, 1_000_000, 20, 10_000),
    ("a LocateRequest of 25", "locate", 84, 1_000_000, 20, 10_000),
    ("a Request is a piece of its own", "request", 84, 1_000_000, 20, 10_000),
    ("it comes in pieces of 1", "request", 1, 300_000, 1, 3_000),
    ("in pieces of 4,096", "request", 4096, 1_000_000, 20, 10_000),
    ("in pieces of 65,536", "request", 65536, 1_000_000, 20, 10_000),
    ("eight cut messages interleave", "cut", 4096, 5_000, 20, 1_000),
    ("a message of 1 MB is whole", "large", 4096, 100, 20, 20),
    ("it is cut", "large_cut", 4096, 100, 20, 20),
    ("a reference's text is parsed", "reference", 1, 1_000_000, 1, 5_000),
]
# whether this run is a short one, of the scripts that use this too; and what a row's counts are divided by then
IS_SHORT = "--short" in sys.argv[1:]
FEWER = 20
# the least processor time, in seconds, of which a round's work has a figure
LEAST = 0.05
# a Request of 84 octets in digits
DIGITS = request(5, b"c", "add", bytes([0, 0, 0, 7]), number=1, expiration=100).hex()
# lines of digits whose time is taken, and whose instructions are counted
LINES = {"time": 595_000, "instructions": 5_950}


def or_short(usual, short):
    """The first of two, or in a short run the second."""
    return short if IS_SHORT else usual


def parser_of(*names):
    """A parser of a script's words: these, and --short."""
    parser = argparse.ArgumentParser()
    for name in names:
        parser.add_argument(name)
    parser.add_argument("--short", action="store_true")
    return parser


def are_counted(given, row):
    """Whether instructions are counted of a row of a table, by its number."""
    return not given.no_instructions and (row == 0 or not IS_SHORT)


def run(words, source=None):
    """Processor time of a run, what it prints, and how much memory it takes."""
    readable, writable = os.pipe()
    child = os.fork()
    if child == 0:
        os.close(readable)
        os.dup2(writable, 1)
        if source:
            os.dup2(os.open(source, os.O_RDONLY), 0)
        os.execv(words[0], words)
    os.close(writable)
    with os.fdopen(readable, "rb") as file:
        printed = file.read()
    _, status, usage = os.wait4(child, 0)
    if status != 0:
        sys.exit(f"{words}: status {status}")
    return usage.ru_utime + usage.ru_stime, printed, usage.ru_maxrss * 1024


def instructions(words, source=None):
    """The instructions of a run."""
    with tempfile.TemporaryDirectory() as folder, open(source or os.devnull, "rb") as file:
        counted = subprocess.run(["valgrind", "--tool=callgrind", f"--callgrind-out-file={folder}/out"] + words,
                                 stdin=file, capture_output=True)
    found = re.search(rb"Collected : (\d+)", counted.stderr)
    if counted.returncode or not found:
        sys.exit(counted.stderr.decode())
    return int(found[1])


def peak(words):
    """The most memory that is resident in a run, as the system counts it, in octets. A small program starts this one, so
    that what Python takes isn't counted."""
    said = subprocess.run(["/usr/bin/time", "-f", "%M"] + words, stdout=subprocess.DEVNULL, stderr=subprocess.PIPE, text=True)
    if said.returncode != 0:
        sys.exit(f"{words}: status {said.returncode}")
    return int(said.stderr) * 1024


def figure(title, value):
    """A figure that is more than nothing; another can't be, but in a short run."""
    if not value > 0 and not IS_SHORT:
        sys.exit(f"{title}: a figure of {value:g} can't be")
    return value


def ratio(ours, other):
    """The ratio of a figure to another. In a short run the other may be nothing, and then there is none."""
    return ours / other if other or not IS_SHORT else float("nan")


def in_turns(rounds, programs, words, source=None, reads=True, runs=1):
    """The time of each program in each round of so many runs, and the most memory; they take turns. Where they read,
    they say of how much."""
    time, memory = {name: [0] * rounds for name in programs}, dict.fromkeys(programs, 0)
    for number in range(rounds * runs):
        printed = set()
        for name in programs:
            took, text, held = run(programs[name] + words, source)
            time[name][number // runs] += took
            memory[name] = max(memory[name], held)
            printed.add(text)
        if len(printed) != 1:
            sys.exit(f"{words}: the programs print differently, as {[text[:80] for text in printed]}")
        if reads and int(re.search(rb"\d+", printed.pop())[0]) == 0:
            sys.exit(f"{words}: nothing was read")
    return time, memory


def ratios_of(title, time):
    """The ratio of ours to the plain one's time in each round."""
    if min(min(rounds) for rounds in time.values()) < LEAST and not IS_SHORT:
        sys.exit(f"{title}: a round of less than {LEAST:g} s: {time}")
    return [ratio(ours, plain) for ours, plain in zip(time["ours"], time["plain"])]


def net_times(rounds, programs, kind, piece, count, runs):
    """The times of a kind of work, without that of making its stream, and the ratios of the rounds."""
    whole, _ = in_turns(rounds, programs, [str(count), str(piece), kind], runs=runs)
    made, _ = in_turns(rounds, programs, [str(count), "0", kind], reads=False, runs=runs)
    net = {name: [each - min(made[name]) for each in whole[name]] for name in programs}
    return {name: min(net[name]) / count / runs * 1e9 for name in programs}, ratios_of(f"{kind} {piece}", net)


def net_instructions(programs, kind, piece, count):
    """The instructions for one count, without those of making the stream."""
    return {name: (instructions(words + [str(count), str(piece), kind]) - instructions(words + [str(count), "0", kind])) / count
            for name, words in programs.items()}


def line(title, time, ratios, counted, memory=None):
    """A row: nanoseconds and instructions by both programs, each with the ratio of ours to the plain one's."""
    parts = [f"{title:<32}"]
    for each, form in ((time, ".1f"), (counted, ".1f"), (memory, ".2f")):
        if each:
            ours, plain = figure(title, each["ours"]), figure(title, each["plain"])
            parts.append(f"{ours:>12,{form}} {plain:>12,{form}} {ratio(ours, plain):>6.2f}")
        if each is time:
            parts.append(f"({min(ratios):.2f} to {max(ratios):.2f})")
    print(" ".join(parts), flush=True)


def digits_row(given, programs, word, is_counted):
    """The row of `check` or `show`, for one digit."""
    with tempfile.TemporaryDirectory() as folder:
        sources = {}
        counts = {what: or_short(lines, lines // FEWER) for what, lines in LINES.items()}
        for what, lines in counts.items():
            sources[what] = f"{folder}/{what}"
            with open(sources[what], "w", encoding="ascii") as file:
                file.write((DIGITS + "\n") * lines)
        counts = {what: len(DIGITS) * lines for what, lines in counts.items()}
        time, memory = in_turns(given.rounds, programs, [word], sources["time"])
        counted = None
        if is_counted:
            counted = {name: instructions(words + [word], sources["instructions"]) / counts["instructions"] for name, words in programs.items()}
        line(f"`{word}`, a digit", {name: min(time[name]) / counts["time"] * 1e9 for name in programs},
             ratios_of(word, time), counted, {name: memory[name] / counts["time"] for name in programs})


def main():
    parser = parser_of("ours", "plain", "giop")
    parser.add_argument("--rounds", type=int, default=or_short(5, 1))
    parser.add_argument("--only", default="")
    parser.add_argument("--no-instructions", action="store_true")
    given = parser.parse_args()
    print(f"{'':<32} {'nanoseconds':>12} {'plain':>12} {'ratio':>6} {'of rounds':>14} "
          f"{'instructions':>12} {'plain':>12} {'ratio':>6}")
    programs = {"ours": [given.ours, "frames"], "plain": [given.plain]}
    for number, (title, kind, piece, count, runs, fewer) in enumerate(row for row in ROWS if given.only in row[0]):
        count, runs = or_short(count, count // FEWER), or_short(runs, 1)
        time, ratios = net_times(given.rounds, programs, kind, piece, count, runs)
        counted = net_instructions(programs, kind, piece, fewer) if are_counted(given, number) else None
        line(title, time, ratios, counted)
    programs["ours"] = [given.giop]
    for number, word in enumerate(word for word in ("check", "show") if given.only in word):
        digits_row(given, programs, word, are_counted(given, number))


if __name__ == "__main__":
    main()
