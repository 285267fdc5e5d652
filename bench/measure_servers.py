#!/usr/bin/env python3
"""Asks servers of a counter over loopback for as much as they answer, one after another, and again in the other order.

usage: measure_servers.py FOLDER [--rounds 5] [--seconds 2] [--threads 2] [--short]

FOLDER has the programs that bench/embedded makes: `counter`, over the library for C and the loop of examples/loop.c;
`omniorb`, the same object over omniORB; `bare`, which answers without reading the request; and `load`, whose clients
each have one request outstanding. omniORB is asked as it is by default, with a thread for each connection, and with its
pool of threads. All are sent the same octets but for the object key, which is as long. Of `keyed` each request has
FT_REQUEST with a new key, which expires a second later: `counter` keeps its outcome, omniORB passes over the context.

Printed is the median over the rounds: replies in a second; the ratio of `counter` to each in one round; and how long the
server's process was on a processor for a request. The clients have so many threads (with one client, one); where these
were busy all the time, they set the rate and not the server. The machine's load is that of one minute.
"""
import contextlib
import os
import signal
import statistics
import subprocess
import sys
from collections import defaultdict

# (which finds the package of tests)
from measure import or_short, parser_of, ratio
from tests.giop import reference_of

SETTINGS = [(1, "plain"), (64, "plain"), (1, "keyed"), (64, "keyed")]
LISTENS = ["-ORBendPoint", "giop:tcp:127.0.0.1:"]
# how long a server may take to end, in seconds
ENDS = 20


def servers_of(folder, key):
    """The servers by name, and the words that start each."""
    return {
        "counter": [f"{folder}/counter", key],
        "omniORB": [f"{folder}/omniorb", *LISTENS],
        "omniORB, pool": [f"{folder}/omniorb", *LISTENS, "-ORBthreadPerConnectionPolicy", "0"],
        "bare": [f"{folder}/bare"],
    }


@contextlib.contextmanager
def serving(words):
    """A server: its process, and the line that it prints. Where it prints none, or ends before it is told to, the status
    is 1."""
    with subprocess.Popen(words, stdout=subprocess.PIPE, text=True) as process:
        try:
            said = process.stdout.readline().strip()
            if said:
                yield process, said
        finally:
            has_ended = not said or process.poll() is not None
            status = ended(process)
            has_ended = has_ended or status not in (0, -signal.SIGTERM)
            if has_ended:
                print(f"{words[0]} ended by itself, with status {status}", file=sys.stderr)
    if has_ended:
        sys.exit(1)


def ended(process):
    """Ends a process, and answers its status."""
    process.send_signal(signal.SIGTERM)
    try:
        return process.wait(ENDS)
    except subprocess.TimeoutExpired:
        process.kill()
        return process.wait()


def processor_seconds(pid):
    """How long a process was on a processor."""
    with open(f"/proc/{pid}/stat", encoding="ascii") as file:
        fields = file.read().rpartition(")")[2].split()
    return (int(fields[11]) + int(fields[12])) / os.sysconf("SC_CLK_TCK")


def ask(given, words, key, clients, kind):
    """Replies in a second, microseconds of a processor for each, and how busy the clients were."""
    with serving(words) as (process, said):
        port = said
        if said.startswith("IOR:"):
            reference = reference_of(said)
            port, key = str(reference.port), reference.key.hex()
        before = processor_seconds(process.pid)
        threads = min(given.threads, clients)
        asked = [f"{given.folder}/load", port, key, str(clients), str(threads), str(int(given.seconds * 1000)), kind]
        came = subprocess.run(asked, capture_output=True, text=True, check=False)
        if came.returncode != 0:
            sys.exit(f"{words[0]}, {clients} clients, {kind}: {came.stderr.strip()}")
        counted, seconds, busy, whole, *_ = map(float, came.stdout.split())
        return counted / seconds, (processor_seconds(process.pid) - before) / whole * 1e6, busy


def row(title, servers, got):
    """Prints the medians of a setting."""
    print(title)
    for name in servers:
        rates, costs, busy = zip(*got[name])
        ratios = [ratio(ours[0], its[0]) for ours, its in zip(got["counter"], got[name])]
        print(f"  {name:<14} {statistics.median(rates):10,.0f} a second   counter is {statistics.median(ratios):5.2f} "
              f"({min(ratios):.2f} to {max(ratios):.2f})   {statistics.median(costs):6.2f} us of a processor   "
              f"clients busy {statistics.median(busy):4.0%}", flush=True)


def main():
    parser = parser_of("folder")
    parser.add_argument("--rounds", type=int, default=or_short(5, 1))
    parser.add_argument("--seconds", type=float, default=or_short(2, 0.2))
    parser.add_argument("--threads", type=int, default=2)
    given = parser.parse_args()
    with serving([f"{given.folder}/omniorb", *LISTENS]) as (_, said):
        key = reference_of(said).key.hex()
    servers = servers_of(given.folder, key)
    print(f"{os.cpu_count()} processors, load {os.getloadavg()[0]:.1f} before; {given.rounds} rounds of {given.seconds:g} s")
    got = defaultdict(lambda: defaultdict(list))
    for number in range(given.rounds):
        for setting in SETTINGS:
            for name in list(servers)[::-1 if number % 2 else 1]:
                got[setting][name].append(ask(given, servers[name], key, *setting))
    for clients, kind in SETTINGS:
        row(f"{clients} client{'s' if clients > 1 else ''}, {kind}", servers, got[clients, kind])
    print(f"load {os.getloadavg()[0]:.1f} after")


if __name__ == "__main__":
    main()
