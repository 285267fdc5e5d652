#!/usr/bin/env python3
"""Times reading and writing values of a megabyte by `cdr_core`, against plain Rust, in one run.

usage: measure_values.py OURS PLAIN [--rounds 5] [--no-instructions] [--short]

OURS is the program of crates/benches, PLAIN that of bench/values.rs. Each time is user and system time
for one value in microseconds, the best of so many runs in which the programs take turns; the time of making
the value is left out. Values that were read are dropped, and that counts. Instructions are those that
callgrind counts for one value. The status is 1 where the programs don't print the same, and where a value takes no time
or no instructions.
"""
import sys

from measure import FEWER, are_counted, figure, instructions, or_short, parser_of, ratio, run

# the kinds of values, and how many are read or written in one run
KINDS = {"structs": 20, "ulongs": 40, "longlongs": 80, "shorts": 30, "booleans": 10, "octets": 1000}


def per_value(cost, words, count):
    """What one value costs: the difference of two runs."""
    return (cost(words + [str(count + 1)]) - cost(words + ["1"])) / count


def main():
    parser = parser_of("ours", "plain")
    parser.add_argument("--rounds", type=int, default=or_short(5, 1))
    parser.add_argument("--no-instructions", action="store_true")
    given = parser.parse_args()
    programs = [[given.ours, "values"], [given.plain]]
    print("a value of a megabyte: microseconds ours, plain, ratio; instructions ours, plain, ratio")
    for number, (what, kind) in enumerate((what, kind) for what in ("read", "write") for kind in KINDS):
        count = or_short(KINDS[kind], max(1, KINDS[kind] // FEWER))
        words = [program + [what, kind] for program in programs]
        printed = {run(each + ["3"])[1] for each in words}
        if len(printed) != 1:
            sys.exit(f"{what} {kind}: {printed}")
        best = [float("inf")] * 2
        for _ in range(given.rounds):
            times = [per_value(lambda all_words: run(all_words)[0], each, count) for each in words]
            best = [min(pair) for pair in zip(best, times)]
        best = [figure(f"{what} {kind}", each) for each in best]
        line = f"{what:5} {kind:9} {best[0] * 1e6:9.0f} {best[1] * 1e6:9.0f} {ratio(*best):6.2f}"
        if are_counted(given, number):
            counted = [figure(f"{what} {kind}", per_value(instructions, each, or_short(2, 1))) for each in words]
            line += f" {counted[0]:12.0f} {counted[1]:12.0f} {ratio(*counted):6.2f}"
        print(line, flush=True)


if __name__ == "__main__":
    main()
