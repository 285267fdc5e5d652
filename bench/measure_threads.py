#!/usr/bin/env python3
"""Asks a counter over loopback by the loop of examples/loop.c, and by that of loop_threads.c with one thread and more.

usage: measure_threads.py FOLDER [--rounds 5] [--seconds 1] [--threads 2] [--short]

FOLDER has the programs that bench/embedded makes: `counter`, `threads_1` to `threads_3`, and `load`, whose 64 clients
each have one request outstanding, in so many threads. Of `keyed` each request has FT_REQUEST with a new key. The servers
take turns. Printed are, over the rounds, the median of the replies in a second, and of the ratio to `counter` in one
round, with the least and the greatest; and how busy the clients were. The status is 1 where a request does not act once.
"""
import os
import statistics
from collections import defaultdict

from measure import or_short, parser_of, ratio
from measure_servers import ask

SERVERS = ["counter", "threads_1", "threads_2", "threads_3"]
CLIENTS = 64
KEY = "63"


def row(kind, got):
    """Prints what came of a kind of requests."""
    for name, rounds in got.items():
        rates, _, busy = zip(*rounds)
        ratios = [ratio(rate, single[0]) for rate, single in zip(rates, got["counter"])]
        print(f"{kind:<6} {name:<10} {statistics.median(rates):9,.0f} a second   {statistics.median(ratios):5.2f} of "
              f"counter ({min(ratios):.2f} to {max(ratios):.2f})   clients busy {statistics.median(busy):4.0%}", flush=True)


def main():
    parser = parser_of("folder")
    parser.add_argument("--rounds", type=int, default=or_short(5, 1))
    parser.add_argument("--seconds", type=float, default=or_short(1, 0.2))
    parser.add_argument("--threads", type=int, default=2)
    given = parser.parse_args()
    load = os.getloadavg()[0]
    print(f"{os.cpu_count()} processors, load {load:.1f} before; {given.rounds} rounds of {given.seconds:g} s")
    for kind in ("plain", "keyed"):
        got = defaultdict(list)
        for number in range(given.rounds):
            for name in SERVERS[::-1 if number % 2 else 1]:
                got[name].append(ask(given, [f"{given.folder}/{name}", KEY], KEY, CLIENTS, kind))
        row(kind, {name: got[name] for name in SERVERS})
    print(f"load {os.getloadavg()[0]:.1f} after")


if __name__ == "__main__":
    main()
