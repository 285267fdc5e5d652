#!/usr/bin/env python3
"""Compares a server of one counter with a plain one in Rust, and times both, on the same streams in one run.

usage: measure_server.py OURS PLAIN [--rounds 5] [--count 1000000] [--no-instructions] [--short]

OURS is the program of crates/benches, PLAIN that of bench/plain.rs. First both play the streams of tests/compare_server.py.

The streams that are timed have COUNT messages of a kind: `add` is a Request of 52 octets without FT_REQUEST that is
performed, `repeat` one of 84 octets of which all but the first repeat the first, `locate` a LocateRequest of 25 octets, of
which there are twice as many; each first a piece of its own. Each time is processor time, the best of so many rounds, in
which the programs take turns, with the least and the greatest ratio of a round. The time of making the stream is left out:
it is that of the same program with pieces of 0 octets. Instructions are those that callgrind counts for a message.

Of the other kinds each Request has a key of its own and is a piece of its own. Of `rising` and `scattered` it has 84 octets,
and all are one client's; of `clients` and `together` it has 116, and each is of a client of its own, whose id has 32. The
server keeps so many outcomes, so many of each client: where that is fewer, it counts clients. Its log is full, and one
outcome expires with each message, in the order in which they were kept, or in another (`scattered`), or all of them with
one message (`together`), whose time is taken by itself. Where a client's share is one outcome, all its requests are refused
until that expires. Memory is the most that is resident, less that of the same program where it only makes the messages;
of 1,024 outcomes it is too little to be told.

Last it counts the instructions of an engine that is answered at once and of one whose owner parks each request, one or 64 at a
time, and what a request takes in memory that is parked.

The status is 1 where the servers write other octets or end with another total; where a server doesn't answer each message,
or has another total than that of what it performed; where a figure can't be; and where 1,000,000 requests of as many
clients leave more memory in use than 5,000 do, in a server that keeps 1,024 outcomes. A short run plays fewer streams, its
large log has 2,048 outcomes, and it does not judge memory.
"""
import re
import sys

# (which finds the package of tests)
from measure import IS_SHORT, are_counted, figure, instructions, or_short, parser_of, peak, ratio, run
from tests.compare_server import SEED, STREAMS, compare

# the octets of a message
MESSAGES = {"add": 52, "repeat": 84, "locate": 25, "rising": 84, "scattered": 84, "clients": 116, "together": 116}
KINDS = ["add", "repeat", "locate"]
SIZES = [4096, 65536, 1]
# the messages, how many outcomes are kept, and of each client
LARGE = or_short(65536, 2048)
KEYED = [(kind, entries, entries) for kind in ("rising", "scattered") for entries in (1024, LARGE)]
KEYED += [("clients", entries, entries - less) for entries in (1024, LARGE) for less in (0, 1)]
KEYED += [("rising", LARGE, 1)]
# the octets of a Reply, and of one that refuses
REPLY, REFUSAL = 32, 72
# messages whose instructions are counted, and the counts of one message that are one mean, since hashes differ in each
MORE = or_short(10_000, 640)
DRAWS = or_short(9, 1)
# requests that are parked at a time, and of which the memory is told
PARKED = [1, 64]
MANY_PARKED = or_short(131_072, 4096)
# requests of as many clients by which memory does not grow
MANY = or_short(1_000_000, 20_000)
# seconds: a difference of times that is less is none
LEAST = 0.05
# what the most memory of two runs of one program may differ by, in octets
APART = 1_000_000


def words_of(engine, count, size, kind, *kept):
    """The words of a program."""
    return engine + [str(count), str(size), kind, *map(str, kept)]


def count_of(given, kind):
    """How many messages of a kind are timed: a locate takes little."""
    return 2 * given.count if kind == "locate" else given.count


def due(count, size, kind, entries=1024, share=1024):
    """The octets that are written for messages of a kind, or that these have, and the total after them."""
    if size == 0:
        return count * MESSAGES[kind], 0
    if kind == "locate":
        return count * 20, 0
    if kind == "repeat":
        return count * REPLY, 7
    performed = count if share > 1 else -(-count // entries)
    return performed * REPLY + (count - performed) * REFUSAL, 7 * performed


def answered(text, count, size, kind, *kept):
    """What a program printed, if it is what is due: a checksum, and the nanoseconds of the last message, if it says them."""
    found = re.fullmatch(rb"octets (\d+) sum (\d+) total (\d+)(?: last (\d+))?\n", text)
    if not found or (int(found[1]), int(found[3])) != due(count, size, kind, *kept):
        sys.exit(f"{count} messages of {kind} in pieces of {size}: {text.decode().strip()!r}, not {due(count, size, kind)}")
    return int(found[2]), int(found[4] or 0)


def sizes_of(kind):
    """The octets of a piece: first those of a message."""
    return [MESSAGES[kind], *SIZES]


class Timed:
    """The processor time of each program by its words, in each round, and the least time of its last message."""

    def __init__(self, engines):
        self.engines, self.took, self.last, self.sums = engines, {}, {}, {}

    def take(self, *row):
        """Runs each program once."""
        for name, engine in self.engines.items():
            took, text, _ = run(words_of(engine, *row))
            sum_, last = answered(text, *row)
            if self.sums.setdefault(row, sum_) != sum_:
                sys.exit(f"{name}, {row}: the checksum is {sum_}, not {self.sums[row]}")
            self.took.setdefault((name, row), []).append(took)
            self.last[name, row] = min(self.last.get((name, row), last), last)

    def net(self, count, size, *others):
        """The times without that of making the messages, in each round."""
        made = {name: min(self.took[name, (count, 0, *others)]) for name in self.engines}
        net = {name: [took - made[name] for took in self.took[name, (count, size, *others)]] for name in self.engines}
        if min(min(took) for took in net.values()) < LEAST and not IS_SHORT:
            sys.exit(f"{others} in pieces of {size}: less than {LEAST:g} s: {net}")
        return net


def pair(title, cost, form):
    """What both cost, and the ratio."""
    ours, plain = figure(f"{title}, ours", cost["ours"]), figure(f"{title}, plain", cost["plain"])
    return f"{ours:{form}} {plain:{form}} {ratio(ours, plain):5.2f}"


def timing(title, net):
    """The least times, their ratio, and the least and greatest ratio of a round."""
    ratios = [ratio(ours, plain) for ours, plain in zip(net["ours"], net["plain"])]
    return f"{pair(title, {name: min(took) for name, took in net.items()}, '7.3f')} ({min(ratios):.2f} to {max(ratios):.2f})"


def counted(engines, *row):
    """The instructions of each program."""
    return {name: instructions(words_of(engine, *row)) for name, engine in engines.items()}


def net(after, before, count):
    """What each program takes more, for one of so many."""
    return {name: (number - before[name]) / count for name, number in after.items()}


def streams(engines, timed, given):
    """Prints what a message costs in a stream of one kind."""
    print(f"{'kind':>7} {'piece':>6}   seconds of {given.count}, of locates of twice as many, ours, plain, ratio; "
          "instructions a message, ours, plain, ratio")
    for number, kind in enumerate(KINDS):
        made = counted(engines, MORE, 0, kind) if are_counted(given, number) else None
        for size in sizes_of(kind):
            title = f"{kind:>7} {size:>6}"
            line = timing(title, timed.net(count_of(given, kind), size, kind))
            if made:
                line += "   " + pair(title, net(counted(engines, MORE, size, kind), made, MORE), "8.0f")
            print(f"{title}   {line}", flush=True)


def keyed(engines, timed, given):
    """Prints what a message with a key of its own costs, and what a large log takes."""
    print(f"{'kind':>9} {'kept':>6} {'share':>6}   seconds of {given.count}; instructions a message; megabytes")
    for number, (kind, *kept) in enumerate(KEYED):
        title = f"{kind:>9} {kept[0]:>6} {kept[1]:>6}"
        line = timing(title, timed.net(given.count, 84, kind, *kept))
        if are_counted(given, number):
            full, more = (counted(engines, kept[0] + count, 84, kind, *kept) for count in (0, MORE))
            line += "   " + pair(title, net(more, full, MORE), "8.0f")
        if kept[0] == LARGE and kept[1] > 1:
            made, fed = ({name: peak(words_of(engine, 2 * LARGE, size, kind, *kept)) for name, engine in engines.items()} for size in (0, 84))
            line += "   " + pair(title, net(fed, made, 1e6), "6.2f")
        print(f"{title}   {line}", flush=True)


def all_at_once(engines, timed, given):
    """Prints what one message costs with which all outcomes expire."""
    row = (LARGE + 1, 84, "together", LARGE)
    title = f"{LARGE:,} outcomes expire with one message"
    print(f"{title}: ours, plain, ratio")
    print(f"    microseconds   {pair(title, {name: timed.last[name, row] / 1e3 for name in engines}, '10.1f')}")
    if not given.no_instructions:
        draws = [net(*(counted(engines, count, *row[1:]) for count in (LARGE + 1, LARGE)), 1) for _ in range(DRAWS)]
        mean = {name: sum(draw[name] for draw in draws) / DRAWS for name in engines}
        print(f"    instructions   {pair(title, mean, '10.0f')}", flush=True)


def parked(ours):
    """Prints what a request costs that is parked and performed later, beside one that is answered at once."""
    owners = {"at once": [ours, "engine"], **{f"{most} parked": [ours, "later", str(most)] for most in PARKED}}
    print("an engine: instructions a request, answered at once; where so many are parked at a time, and the ratio to at once")
    for kind, *kept in (("add", 1024, 1024), ("rising", 1024, 1024)):
        cost = {}
        for size in (84, 0):
            less, more = (counted(owners, count, size, kind, *kept) for count in (MORE // 64 * 64, 2 * (MORE // 64 * 64)))
            cost[size] = net(more, less, MORE // 64 * 64)
        took = {name: cost[84][name] - cost[0][name] for name in owners}
        once = took["at once"]
        print(f"{kind:>9}   {once:8.0f}" + "".join(f"   {most:3} {took[f'{most} parked']:8.0f} {ratio(took[f'{most} parked'], once):5.2f}" for most in PARKED), flush=True)
    once, later = (peak(words_of(owner, MANY_PARKED, 84, "add")) for owner in ([ours, "engine"], [ours, "later", str(MANY_PARKED)]))
    print(f"    a parked request without a key takes {(later - once) / MANY_PARKED:.0f} octets")


def memory(engines):
    """Ends with status 1 where memory grows with the number of requests."""
    for name, engine in engines.items():
        for share in (1024, 1023):
            few, many = (figure("memory", peak(words_of(engine, count, 84, "clients", 1024, share))) for count in (5000, MANY))
            print(f"{name}, 1,024 kept, {share:,} of each client: {MANY:,} requests of as many clients leave {many - few:,} octets "
                  f"in use beyond 5,000")
            if many - few > APART and not IS_SHORT:
                sys.exit("memory is not flat")


def main():
    parser = parser_of("ours", "plain")
    parser.add_argument("--rounds", type=int, default=or_short(5, 1))
    parser.add_argument("--count", type=int, default=or_short(1_000_000, 20_000))
    parser.add_argument("--no-instructions", action="store_true")
    given = parser.parse_args()
    compare(given.ours, given.plain, SEED, or_short(STREAMS, 10))
    engines = {"ours": [given.ours, "server"], "plain": [given.plain, "serve"]}
    memory(engines)
    timed = Timed(engines)
    for _ in range(given.rounds):
        for kind in KINDS:
            for size in [0, *sizes_of(kind)]:
                timed.take(count_of(given, kind), size, kind)
        for kind, *kept in KEYED:
            for size in (0, 84):
                timed.take(given.count, size, kind, *kept)
        timed.take(LARGE + 1, 84, "together", LARGE)
    streams(engines, timed, given)
    keyed(engines, timed, given)
    all_at_once(engines, timed, given)
    if not given.no_instructions:
        parked(given.ours)


main()
