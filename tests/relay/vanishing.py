"""Connections between two relays that vanish without a trace: run in a network namespace of its own, by retry_test.

The address from which `retry` connects is taken away, and it has another one from then on: what is sent on the
connections that were there arrives nowhere, and nobody is told.
"""
from __future__ import annotations

import itertools
import subprocess
import threading
import time

from tests import giop
from tests.giop_peers import Peer, number_body, request, until, want
from tests.relay import relays
from tests.relay.guard_test import KEY, Server
from tests.relay.relays import Life, Relay

GUARD = "10.9.0.2"
# a guard is asked after 3 seconds without octets, and has 3 for a sign
SECONDS = 20


def ip(*words: str) -> None:
    subprocess.run(["ip", *words], check=True)


def lead(count: int) -> None:
    """Has who connects to the guard do so from another address than before."""
    if count > 0:
        ip("addr", "del", f"10.9.1.{count}/32", "dev", "lo")
    ip("addr", "add", f"10.9.1.{count + 1}/32", "dev", "lo")
    ip("route", "replace", "local", GUARD, "dev", "lo", "src", f"10.9.1.{count + 1}", "table", "local")


def main() -> None:
    """A request is answered though the connection vanishes before it is sent, and while it is performed."""
    ip("link", "set", "lo", "up")
    ip("addr", "add", f"{GUARD}/32", "dev", "lo")
    counts, port = itertools.count(), 2810
    lead(next(counts))
    with Server() as server, \
            Life(relays.program(), "guard", "--listen", f"{GUARD}:{port}", "--server", f"127.0.0.1:{server.port}",
                 "--store", "memory") as guard, \
            Relay("retry", "--guard", f"{GUARD}:{port}", "--connections", "1") as retry:
        guard.begin()
        until(lambda: "listening" in guard.said(), "it listens")
        retry.begin()
        with Peer(retry.port) as peer:
            peer.socket.settimeout(SECONDS)
            peer.tell(request(1, KEY, "add"))
            peer.wants(giop.reply(1, number_body(1)))
            begun = time.monotonic()
            lead(next(counts))
            peer.tell(request(2, KEY, "add"))
            peer.wants(giop.reply(2, number_body(2)))
            print(f"before it was sent: {time.monotonic() - begun:.0f} seconds")
            may_go_on = threading.Event()
            server.answer = lambda _: may_go_on.wait(SECONDS) and None
            peer.tell(request(3, KEY, "add"))
            until(lambda: len(server.performed) == 3, "it comes")
            begun = time.monotonic()
            lead(next(counts))
            may_go_on.set()
            peer.wants(giop.reply(3, number_body(3)))
            print(f"while it was performed: {time.monotonic() - begun:.0f} seconds")
            want(len(server.performed), 3)


if __name__ == "__main__":
    main()
