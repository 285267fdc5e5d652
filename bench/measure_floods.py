#!/usr/bin/env python3
"""Times a peer's calls beside another peer that sends requests without an end.

usage: measure_floods.py BANK [--rounds 5] [--count 500] [--short]

BANK is the program of examples/bank.c; beside it there is a Server in Python, for which LEMONRUDDER_LIBRARY names the
library. The flooding peer is a process, as are the servers. Printed is how long a call takes in the middle of so many,
alone and beside a flood of each kind, and the ratio of the two: the median of so many rounds.
"""
import asyncio
import os
import socket
import statistics
import struct
import subprocess
import sys
import time

from measure import or_short, parser_of
from measure_servers import serving

sys.path.insert(0, os.path.join(os.path.dirname(os.path.abspath(__file__)), "..", "bindings", "python"))

import lemonrudder as lr  # noqa: E402

ANN = lr.pack("s", "ann")
# the key, the operation and the body of what is sent without an end
FLOODS = {
    "bank": {"plain": ("bank", "balance", ANN)},
    "python": {"plain": ("bank", "balance", ANN), "async, 1 ms each": ("bank", "slow", b""),
               "no such object": ("none", "balance", ANN)},
}
FLOOD = """
import socket, sys, threading
octets = sys.stdin.buffer.read()
peer = socket.create_connection(("127.0.0.1", int(sys.argv[1])))
def drop():
    while peer.recv(65536):
        pass
threading.Thread(target=drop, daemon=True).start()
while True:
    peer.sendall(octets)
"""


async def serve():
    """Serves in Python, and prints its reference."""
    server = lr.Server()
    server.add("bank", "IDL:Bank:1.0", {"balance": ("s", "q", lambda account: 0),
                                        "slow": ("", "", lambda: asyncio.sleep(0.001))})
    await server.listen()
    print(server.reference("bank"), flush=True)
    await server.serve_forever()


def call_time(port, count):
    """How many microseconds a call takes, in the middle of so many."""
    request, took = lr.write_request(1, "bank", "balance", ANN), []
    with socket.create_connection(("127.0.0.1", port), 60) as peer:
        for _ in range(count):
            began, got = time.perf_counter(), b""
            peer.sendall(request)
            while len(got) < 12 or len(got) < 12 + struct.unpack(">I", got[8:12])[0]:
                came = peer.recv(4096)
                if not came:
                    sys.exit("the connection is lost")
                got += came
            took.append(time.perf_counter() - began)
    return 1e6 * statistics.median(took)


def measure(server, floods, given):
    """Prints a line for each flood of a server."""
    with serving(server) as (_, said):
        port = lr.Ior.parse(said).addresses[0].port
        for name, (key, operation, body) in floods.items():
            rows = []
            for _ in range(given.rounds):
                alone = call_time(port, given.count)
                octets = b"".join(lr.write_request(number, key, operation, body) for number in range(1000))
                words = [sys.executable, "-c", FLOOD, str(port)]
                with subprocess.Popen(words, stdin=subprocess.PIPE) as peer:
                    try:
                        peer.stdin.write(octets)
                        peer.stdin.close()
                        time.sleep(0.3)
                        rows.append((alone, call_time(port, given.count)))
                    finally:
                        peer.kill()
            alone, beside = (statistics.median(row[at] for row in rows) for at in (0, 1))
            ratio = statistics.median(beside / alone for alone, beside in rows)
            print(f"  {name:<20}{alone:8.0f} us{beside:8.0f} us  {ratio:5.1f}", flush=True)


def main():
    parser = parser_of("bank")
    parser.add_argument("--rounds", type=int, default=or_short(5, 1))
    parser.add_argument("--count", type=int, default=or_short(500, 50))
    given = parser.parse_args()
    if given.bank == "serve":
        asyncio.run(serve())
        return
    print(f"{'a call':<20}{'alone':>13}{'flooded':>11}  ratio")
    servers = {"bank": [given.bank, "127.0.0.1", "0"], "python": [sys.executable, __file__, "serve"]}
    for name, server in servers.items():
        print({"bank": "C, examples/bank.c", "python": "Python"}[name])
        measure(server, FLOODS[name], given)


main()
