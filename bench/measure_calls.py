#!/usr/bin/env python3
"""Counts what a message costs through the library for C, and through an Engine in Rattle, fed with the same pieces.

usage: measure_calls.py OURS ENGINE [--count 10000] [--rounds 5] [--time-count 1000000] [--calls] [--short]

OURS is the program of bench/c/engine.c, ENGINE that of crates/benches. The messages are those of bench/server. Of OURS
there are three columns: `few` calls what a server can't do without, `loop` all that examples/bank.c and its loop call,
and `parks` the few where each request is parked before it is performed.
Instructions are those that callgrind counts for a message, without those of making the stream; they don't depend on what
else the machine does. Times are processor time, the best of so many rounds, in which the programs take turns. All programs
have to print the same.

With --calls it prints instead what each function of the library takes of a message that is a piece, and the heap, with
all that they call.
"""
import re
import subprocess
import sys
import tempfile

from measure import figure, instructions, or_short, parser_of, ratio, run

KINDS = ["add", "repeat", "locate"]
# the octets of a message, which is first a piece of its own
OWN = {"add": 52, "repeat": 84, "locate": 25, "rising": 84}
SIZES = [4096, 65536, 1]
KEYED = [1024, or_short(65536, 2048)]
FUNCTIONS = r"lr_server_\w+|lr_[gp]\w+|malloc|realloc|free"


def programs_of(given):
    """The programs by name, and the words that each begins with."""
    ours = {f"C, {calls}": [given.ours, calls] for calls in ("few", "loop", "parks")}
    return {"Engine": [given.engine, "engine"], **ours}


def line(title, cost, form):
    """Prints what a message costs by each program, and its ratio to the first."""
    first = next(iter(cost.values()))
    cells = [f"{figure(title, value):>10,{form}} {ratio(value, first):5.2f}" for value in cost.values()]
    print(f"{title:<24}" + "".join(cells), flush=True)


def head(title, programs):
    print(title)
    print(f"{'':<24}" + "".join(f"{name:>10} {'':5}" for name in programs))


def same(programs, words):
    """Fails unless all programs print the same for these words."""
    printed = {name: run(program + words)[1] for name, program in programs.items()}
    if len(set(printed.values())) != 1:
        sys.exit(f"{words}: they print {printed}")


def count_instructions(given, programs):
    """Prints the instructions of a message, by kind and size of the pieces."""
    head("instructions a message", programs)
    for kind in KINDS:
        made = {name: instructions(words + [str(given.count), "0", kind]) for name, words in programs.items()}
        for size in [OWN[kind], *SIZES]:
            asked = [str(given.count), str(size), kind]
            same(programs, asked)
            line(f"{kind}, pieces of {size:,}",
                 {name: (instructions(words + asked) - made[name]) / given.count for name, words in programs.items()}, ".0f")
    for entries in KEYED:
        counted = {}
        for name, words in programs.items():
            ends = [instructions(words + [str(entries + more), "84", "rising", str(entries)]) for more in (0, given.count)]
            counted[name] = (ends[1] - ends[0]) / given.count
        same(programs, [str(entries + given.count), "84", "rising", str(entries)])
        line(f"a new key, {entries:,} kept", counted, ".0f")


def count_calls(given, programs):
    """Prints what each function takes of a message, with all that it calls."""
    for kind in [*KINDS, "rising"]:
        for name, words in programs.items():
            with tempfile.TemporaryDirectory() as folder:
                asked = [str(given.count), str(OWN[kind]), kind]
                subprocess.run(["valgrind", "--tool=callgrind", f"--callgrind-out-file={folder}/out", *words, *asked],
                               capture_output=True, check=True)
                said = subprocess.run(["callgrind_annotate", "--inclusive=yes", "--threshold=100", f"{folder}/out"],
                                      capture_output=True, text=True, check=True).stdout
            found = re.findall(rf"^\s*([\d,]+) .*?[:?]({FUNCTIONS})(?:'\d+)? \[", said, re.M)
            print(f"{kind}, {name}")
            for counted, function in found:
                each = int(counted.replace(",", "")) / given.count
                if each >= 1:
                    print(f"  {function:<24}{each:8.0f}")


def time_messages(given, programs):
    """Prints the nanoseconds of a message that is a piece."""
    head(f"nanoseconds a message, each a piece, the best of {given.rounds}", programs)
    for kind in [*KINDS, "rising"]:
        best = {}
        for _ in range(given.rounds):
            for size in ("0", str(OWN[kind])):
                for name, words in programs.items():
                    took, _, _ = run(words + [str(given.time_count), size, kind])
                    best[name, size] = min(best.get((name, size), took), took)
        title = "a new key, 1,024 kept" if kind == "rising" else kind
        line(title, {name: (best[name, str(OWN[kind])] - best[name, "0"]) / given.time_count * 1e9 for name in programs}, ".0f")


def main():
    parser = parser_of("ours", "engine")
    parser.add_argument("--count", type=int, default=or_short(10_000, 100))
    parser.add_argument("--rounds", type=int, default=or_short(5, 1))
    parser.add_argument("--time-count", type=int, default=or_short(1_000_000, 20_000))
    parser.add_argument("--calls", action="store_true")
    given = parser.parse_args()
    programs = programs_of(given)
    if given.calls:
        count_calls(given, programs)
        return
    count_instructions(given, programs)
    if given.rounds > 0:
        time_messages(given, programs)


main()
