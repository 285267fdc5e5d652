#!/usr/bin/env python3
"""Measures a retention log against a plain one in Rust: instructions for an outcome, and memory.

usage: measure_log.py OURS PLAIN [--short]

OURS is the program of crates/benches, PLAIN that of bench/plain.rs. An outcome costs what callgrind counts of 4,000 more:
its key is made, what expired is forgotten, the key is looked up, room is made, and the outcome is kept. Each is of a client
of its own, whose id has 32 octets. Both programs have to print the same of each kind.

The status is 1 where they don't, where a figure can't be, where 1,000,000 outcomes of as many clients leave more memory in use
than 5,000 do in a log of 1,024, or where a full log of 65,536 takes more than 20 megabytes. A short run has a log of 2,048,
fewer outcomes, and does not judge memory.
"""
import subprocess
import sys

import measure
from measure import IS_SHORT, figure, or_short, parser_of, ratio

# a log that is large, of which the memory is told, and outcomes by which memory does not grow
LARGE = or_short(65536, 2048)
MANY = or_short(1_000_000, 20_000)
# how many outcomes are kept, how many of each client, and how they expire; where the share is less, clients are counted
KINDS = [(entries, entries, kind) for entries in (1024, LARGE) for kind in ("rising", "scattered")] + [(1024, 1023, "rising")]
MORE = or_short(4000, 400)
# the most that a log of 65,536 may take, and what two runs of one program may differ by, in octets
MOST = 20_000_000
APART = 1_000_000


def printed(program, *words):
    return subprocess.run([program, "log", *map(str, words)], stdout=subprocess.PIPE, text=True, check=True).stdout


def instructions(program, *words):
    return measure.instructions([program, "log", *map(str, words)])


def peak(program, *words):
    return measure.peak([program, "log", *map(str, words)])


def costs(programs):
    print("instructions for an outcome: ours, plain, ratio")
    for entries, share, kind in KINDS:
        ours, plain = [
            (instructions(program, entries + 1000 + MORE, entries, share, kind) - instructions(program, entries + 1000, entries, share, kind)) / MORE
            for program in programs
        ]
        title = f"{entries:>6} kept, {share:>6} of each client, {kind:9}"
        figure(title, min(ours, plain))
        print(f"{title} {ours:8.0f} {plain:8.0f} {ratio(ours, plain):5.2f}")
    full, more = (instructions(programs[0], 1024 + i, 1024, 1024, "together") for i in (0, 1))
    print(f"a call with which 1,024 expire: {figure('together', more - full):.0f} instructions")


def alike(programs):
    for entries, share, kind in KINDS + [(1024, 1024, "together"), (LARGE, LARGE, "together")]:
        for count in or_short((3000, 70_001, 200_000), (3000, 5001)):
            ours, plain = (printed(program, count, entries, share, kind) for program in programs)
            if ours != plain:
                sys.exit(f"{count} {kind}, {entries} kept, {share} of each client: ours printed {ours!r}, plain {plain!r}")


def memory(programs):
    print(f"megabytes of a log of {LARGE:,}, each of a client of its own: ours, plain, ours where clients are counted")
    ours, plain = (peak(program, LARGE, LARGE, LARGE, "together") - peak(program, 1, LARGE, LARGE, "together") for program in programs)
    counted = peak(programs[0], LARGE, LARGE, LARGE - 1, "together") - peak(programs[0], 1, LARGE, LARGE - 1, "together")
    print(f"{ours / 1e6:8.1f} {plain / 1e6:8.1f} {counted / 1e6:8.1f}")
    if not 0 < ours <= MOST and not IS_SHORT:
        sys.exit(f"a log of {LARGE:,} takes {ours:,} octets, and not at most {MOST:,}")
    few, many = (peak(programs[0], count, 1024, 1024, "rising") for count in (5000, MANY))
    print(f"octets that {MANY:,} outcomes of as many clients leave in use beyond 5,000, in a log of 1,024: {many - few:,}")
    if many - few > APART and not IS_SHORT:
        sys.exit("memory is not flat")


def main():
    given = parser_of("ours", "plain").parse_args()
    programs = [given.ours, given.plain]
    alike(programs)
    memory(programs)
    costs(programs)


main()
