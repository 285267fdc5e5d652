"""Compares a server of one counter with a plain one in Rust on generated streams: what both write, and their totals.

The servers are that of crates/benches, and that of bench/plain.rs, which is compiled here. Each stream has a seed, and
is made as tests/engine.py makes its scripts: requests of 1.0, 1.1 and 1.2 in either order, with and without a key,
one-ways, repeats, some that are expired, too long, cut, cancelled, of operations and objects that are not known, or not
valid; locates and cancels; messages that end a stream; connections that are opened, closed and lost; moments that go on
and back; and logs of few outcomes. It is played as it is, and with each piece cut into small ones. Both programs have
to write the same octets for each event and end with the same total, and that is what the model of tests/engine.py says.
A stream on which they don't is printed with as few messages and events as are found with which they still don't.

bench/server has both play these streams, before it times them: `python3 -m tests.compare_server OURS PLAIN`.
"""
import os
import random
import subprocess
import sys
import tempfile
import unittest
from concurrent.futures import ThreadPoolExecutor
from itertools import zip_longest

from tests import base, programs
from tests.engine import Maker, in_pieces, played, smallest_script
from tests.engine_model import line_of, lines_of

SEED = 41
STREAMS = 400
PLAIN = os.path.join(programs.ROOT, "bench", "plain.rs")


def said(lines):
    """What is written, and the total, without the requests that are asked for."""
    return [line for line in lines if not line.startswith("ask ")]


def plays_of(seed, terms, steps):
    """The events of a stream, as they are and in pieces, each with what the model says of them."""
    # (how the owner of an engine answers is no event here)
    streams, events = played([step for step in steps if step[0] != "owner"])
    for some in (events, list(in_pieces(random.Random(seed), events))):
        yield some, said(lines_of(terms, streams, some))


def printed(path, terms, events):
    """The lines that a program prints for events, or how it ended."""
    run = base.ran(path, "script", *map(str, terms), *map(line_of, events))
    if run.returncode != 0:
        return [f"status {run.returncode} {run.stderr.decode().strip()}"]
    return run.stdout.decode().splitlines()


def difference(lines):
    """The first line in which lists of lines differ, or None."""
    for number, row in enumerate(zip_longest(*lines.values(), fillvalue="nothing"), 1):
        if len(set(row)) != 1:
            return "\n".join([f"line {number}", *(f"{name:>6}: {line}" for name, line in zip(lines, row))])
    return None


def fault_of(paths, seed, terms, steps):
    """How the programs differ on a stream, or None."""
    for events, wanted in plays_of(seed, terms, steps):
        found = difference({**{name: printed(path, terms, events) for name, path in paths.items()}, "model": wanted})
        if found:
            words = " ".join(map(str, terms))
            return "\n".join([f"words: script {words}, and each line as a word", *map(line_of, events), found])
    return None


def compared(paths, seed):
    """How the programs differ on the stream of a seed, or None."""
    maker = Maker(random.Random(seed))
    maker.made()
    if not fault_of(paths, seed, maker.terms, maker.steps):
        return None
    fewer = smallest_script(maker.steps, lambda some: fault_of(paths, seed, maker.terms, some))
    return f"{len(fewer)} of {len(maker.steps)} steps, {fault_of(paths, seed, maker.terms, fewer)}"


def compare(ours, plain, seed=SEED, streams=STREAMS):
    """Ends with status 1 where the programs differ on a stream."""
    paths = {"ours": ours, "plain": plain}
    with ThreadPoolExecutor(os.cpu_count()) as pool:
        for number, found in enumerate(pool.map(lambda number: compared(paths, number), range(seed, seed + streams))):
            if found:
                pool.shutdown(cancel_futures=True)
                sys.exit(f"the servers differ: seed {seed + number}, {found}")
    print(f"{streams} streams from seed {seed} on, as they are and in pieces: both write the same", flush=True)


class Servers(unittest.TestCase):
    """Two servers, by two hands."""

    @classmethod
    def setUpClass(cls):
        ours, rustc = programs.program("BENCHES"), programs.tool("rustc")
        cls.folder = tempfile.TemporaryDirectory()
        cls.addClassCleanup(cls.folder.cleanup)
        cls.paths = {"ours": ours, "plain": os.path.join(cls.folder.name, "plain")}
        words = [rustc, "--edition", "2021", "-O", "-A", "dead_code", PLAIN, "-o", cls.paths["plain"]]
        subprocess.run(words, check=True)

    @base.each_seed(SEED, STREAMS, os.cpu_count())
    def test_streams(self, seed):
        """Both write what the model says, as it comes and in pieces."""
        found = compared(self.paths, seed)
        if found:
            self.fail(found)


if __name__ == "__main__":
    if len(sys.argv) != 3:
        sys.exit("usage: python3 -m tests.compare_server OURS PLAIN")
    compare(*sys.argv[1:])
