#!/usr/bin/env python3
"""Times `giop serve` over loopback against a server that sends back what it gets.

usage: measure_serve.py GIOP LOAD [--rounds 5] [--count 1000000] [--short]

GIOP is the program, LOAD that of bench/load.rs. A client sends COUNT requests of 52 octets on one connection, `add`
without FT_REQUEST, with at most 64 of them unanswered, and a tenth of them one at a time, and looks at each answer. Printed
is how many were answered in a second, the best of so many rounds, in which the servers take turns. The status is 1 where an
answer is another than is due, where some are missing, or where a figure can't be: a server that reads and answers requests
can't be twice as fast as one that only sends back what it gets.
"""
import socket
import subprocess
import sys

from measure import IS_SHORT, or_short, parser_of, ratio


def free_port():
    with socket.socket() as probe:
        probe.bind(("127.0.0.1", 0))
        return str(probe.getsockname()[1])


def rate(server, load, count, window, kind):
    """How many requests a server answers in a second."""
    port = free_port()
    words = [word.replace("PORT", port) for word in server]
    with subprocess.Popen(words, stdout=subprocess.DEVNULL) as serving:
        try:
            asked = subprocess.run([load, "ask", port, str(count), str(window), kind], stdout=subprocess.PIPE, text=True)
            serving.wait(10)
        except subprocess.TimeoutExpired:
            sys.exit(f"{words[0]} does not end with its connection")
        finally:
            serving.kill()
    if asked.returncode != 0 or int(asked.stdout.split()[0]) != count:
        sys.exit(f"{words[0]}: {count} requests, answered {asked.stdout.strip() or 'not all'}")
    return float(asked.stdout.split()[1])


def main():
    parser = parser_of("giop", "load")
    parser.add_argument("--rounds", type=int, default=or_short(5, 1))
    parser.add_argument("--count", type=int, default=or_short(1_000_000, 20_000))
    given = parser.parse_args()
    servers = {
        "giop serve": ([given.giop, "serve", "--port", "PORT", "--connections", "1"], "giop"),
        "echo": ([given.load, "echo", "PORT"], "echo"),
    }
    windows = {"64 at a time": (given.count, 64), "one at a time": (given.count // 10, 1)}
    best = {}
    for _ in range(given.rounds):
        for window, (count, size) in windows.items():
            for name, (words, kind) in servers.items():
                best[window, name] = max(best.get((window, name), 0), rate(words, given.load, count, size, kind))
    print(f"requests a second, best of {given.rounds}")
    for window in windows:
        ours, echo = best[window, "giop serve"], best[window, "echo"]
        print(f"{window:>13}: giop serve {ours:9,.0f}, echo {echo:9,.0f}, ratio {ratio(ours, echo):.2f}")
        if not 0 < ours < 2 * echo and not IS_SHORT:
            sys.exit(f"{window}: {ours:,.0f} requests a second beside an echo's {echo:,.0f} can't be")


main()
