#!/usr/bin/env python3
"""Counts the deposits in a second of examples/bank.c and examples/bank_durable.c, beside their databases alone.

usage: measure_durable.py PROGRAMS [--rounds 3] [--seconds 3] [--short]

PROGRAMS is the folder that bench/durable fills. Clients deposit over loopback, each into an account of its own and one
call at a time, with FT_REQUEST; each reply is looked at. The databases do the same statements, but for looking a
request up: SQLite by one writer, so many deposits in a transaction as there are clients; PostgreSQL by pgbench, as
many clients with a transaction for each deposit, and by one connection as SQLite. Printed is the median of so many
rounds, in which all take turns, and the ratio to the database alone, with the least and the greatest of a round.
"""
import os
import re
import statistics
import subprocess
import sys
import tempfile
import unittest

# (which finds the package of tests)
from measure import figure, or_short, parser_of, ratio
from measure_servers import serving
from tests.embed.durable import Postgres
from tests.giop import reference_of

KEY = "62616e6b"  # bank
# replies after which a bank in memory is asked no more: it keeps 65,536 outcomes, and none expires meanwhile
ROOM = 60_000
CLIENTS = (1, 64)
# what pgbench does: a deposit as examples/bank_postgres.c makes one
SCRIPT = """BEGIN;
SELECT moment FROM forgotten FOR SHARE;
SELECT balance FROM account WHERE name = 'p' || :client_id FOR UPDATE;
UPDATE account SET balance = balance + 7 WHERE name = 'p' || :client_id;
INSERT INTO outcome (client, retention, expiration, status, little, body)
    VALUES (decode(md5(random()::text), 'hex'), 1, '\\xffffffffffffffff', 0, 0, '\\x0000000000000007');
COMMIT;
"""


class Measure:
    """What is measured, in a folder."""

    def __init__(self, programs, folder, postgres, seconds):
        self.programs, self.folder, self.postgres, self.seconds = programs, folder, postgres, seconds
        self.count = 0
        self.script = os.path.join(folder, "script")
        with open(self.script, "w", encoding="ascii") as file:
            file.write(SCRIPT)

    def program(self, name):
        return os.path.join(self.programs, name)

    def store(self, kind):
        """A new store."""
        if kind == "SQLite":
            self.count += 1
            return os.path.join(self.folder, f"{self.count}.db")
        if self.postgres.asked("SELECT to_regclass('outcome')"):
            self.postgres.asked("TRUNCATE outcome; DELETE FROM account")
        return self.postgres.address

    @property
    def milliseconds(self):
        return str(round(1000 * self.seconds))

    def served(self, words, clients, length):
        """The deposits in a second that a bank answers."""
        with serving([*words, "127.0.0.1", "0"]) as (_, said):
            port = str(reference_of(said).port)
            asked = subprocess.run([self.program("load"), port, KEY, str(clients), "1", length, "deposits"],
                                   capture_output=True, text=True, check=False)
            if asked.returncode != 0:
                sys.exit(f"{words[0]}, {clients} clients: {asked.stderr.strip()}")
        counted, seconds, *_ = asked.stdout.split()
        return figure(words[0], int(counted) / float(seconds))

    def bank(self, kind, clients):
        """.. with its outcomes in memory alone, or in a store."""
        if kind == "memory":
            return self.served([self.program("bank")], clients, f"{self.milliseconds}:{ROOM}")
        return self.served([self.program("bank_durable"), self.store(kind)], clients, self.milliseconds)

    def plain(self, kind, clients):
        """The deposits in a second of a database alone, by one writer."""
        said = subprocess.run([self.program("plain_bank"), self.store(kind), str(clients), self.milliseconds],
                              stdout=subprocess.PIPE, text=True, check=True).stdout.split()
        return figure(f"{kind} alone", int(said[0]) / float(said[1]))

    def pgbench(self, clients):
        """.. of PostgreSQL, by so many clients."""
        self.store("PostgreSQL")
        self.postgres.asked(f"INSERT INTO account SELECT 'p' || number, 0 FROM generate_series(0, {clients}) AS number")
        # (which counts whole seconds)
        seconds = str(max(1, round(self.seconds)))
        words = ["-n", "-M", "prepared", "-c", str(clients), "-j", "1", "-T", seconds, "-f", self.script]
        said = subprocess.run([os.path.join(self.postgres.bin, "pgbench"), *words, self.postgres.address],
                              stdout=subprocess.PIPE, stderr=subprocess.DEVNULL, text=True, check=True).stdout
        # (which says no rate where it did nothing)
        rate = re.search(r"^tps = ([\d.]+)", said, re.M)
        return figure("pgbench", float(rate[1]) if rate else 0)


def rounds_of(measure, rounds):
    """What each round measured, by name and clients."""
    found = {}
    for _ in range(rounds):
        for clients in CLIENTS:
            for name, one in {
                    "memory": lambda: measure.bank("memory", clients),
                    "SQLite": lambda: measure.bank("SQLite", clients),
                    "SQLite alone": lambda: measure.plain("SQLite", clients),
                    "PostgreSQL": lambda: measure.bank("PostgreSQL", clients),
                    "PostgreSQL alone": lambda: measure.pgbench(clients),
                    "PostgreSQL alone, one connection": lambda: measure.plain("PostgreSQL", clients)}.items():
                found.setdefault((name, clients), []).append(one())
    return found


def main():
    parser = parser_of("programs")
    parser.add_argument("--rounds", type=int, default=or_short(3, 1))
    parser.add_argument("--seconds", type=float, default=or_short(3, 0.3))
    given = parser.parse_args()
    try:
        postgres = Postgres()
    except unittest.SkipTest as why:
        sys.exit(str(why))
    try:
        with tempfile.TemporaryDirectory(dir=".") as folder:
            found = rounds_of(Measure(given.programs, folder, postgres, given.seconds), given.rounds)
    finally:
        postgres.close()
    load, processors = os.getloadavg()[0], os.cpu_count()
    print(f"deposits a second, median of {given.rounds}; the load was {load:.1f} on {processors} processors")
    for clients in CLIENTS:
        for name in dict.fromkeys(name for name, _ in found):
            some = found[name, clients]
            line = f"{clients:3} clients, {name:<33}{statistics.median(some):9,.0f}"
            for other in (f"{name} alone", f"{name} alone, one connection"):
                if (other, clients) in found:
                    ratios = [ratio(one, base) for one, base in zip(some, found[other, clients])]
                    line += f"   {statistics.median(ratios):.2f} ({min(ratios):.2f} to {max(ratios):.2f}) of {other}"
            print(line)


if __name__ == "__main__":
    main()
