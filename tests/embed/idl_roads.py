"""A bank and what stands before it, for clients of what is made of IDL in each language: addresses at which nobody
listens, servers that are gone amid a call, that answer TRANSIENT, and that lead elsewhere.
"""
from __future__ import annotations

import asyncio
import os
import socket
import unittest
from collections.abc import Awaitable, Callable
from typing import Any, Optional, Tuple

import lemonrudder as lr

SECONDS = 30
# a status and a body that a server answers, or None: it has the bank perform what is asked, and is gone before it answers
Step = Optional[Tuple[int, bytes]]
# .. and it says nothing
MUTE = (-1, b"")
TRANSIENT = (lr.ReplyStatus.SYSTEM_EXCEPTION, lr.pack("sLL", "IDL:omg.org/CORBA/TRANSIENT:1.0", 0, 1))
HOST = "127.0.0.1"
ALTERNATE = 3


def closed_port() -> int:
    """A port at which nobody listens."""
    with socket.socket() as made:
        made.bind((HOST, 0))
        return made.getsockname()[1]


def reference(*ports: int, key: str = "bank") -> lr.Ior:
    """A reference with a profile for each port."""
    profiles = [(0, lr.Ior.iiop("", HOST, port, key).profiles[0].data) for port in ports]
    return lr.Ior.of_value(("IDL:Bank:1.0", profiles))


def reference_of_components(*ports: int) -> lr.Ior:
    """A reference with a profile, which has the other ports as TAG_ALTERNATE_IIOP_ADDRESS."""
    components = [(ALTERNATE, lr.pack("BsH", 0, HOST, port)) for port in ports[1:]]
    profile = lr.pack("BBBsHo[(Lo)]", 0, 1, 2, HOST, ports[0], b"bank", components)
    return lr.Ior.of_value(("IDL:Bank:1.0", [(0, profile)]))


def led(*ports: int) -> Step:
    """A reply that leads to another key at these ports."""
    return lr.ReplyStatus.LOCATION_FORWARD, lr.pack(lr.REFERENCE, reference(*ports, key="there").value)


class Bank:
    """A bank under two keys. It has which calls it performed, and all that was asked before it."""

    def __init__(self) -> None:
        self.server = lr.Server()
        self.performed: list[Any] = []
        self.asked: list[Any] = []
        self.listeners: list[asyncio.AbstractServer] = []
        self.port = 0

    async def __aenter__(self) -> Bank:
        for key in ("bank", "there"):
            self.server.add(key, "IDL:Bank:1.0", {"deposit": ("sq", "q", self.deposit)})
        self.port = await self.server.listen(HOST)
        return self

    async def __aexit__(self, *_: Any) -> None:
        for listener in self.listeners:
            listener.close()
        await self.server.close()

    def deposit(self, _: str, amount: int) -> int:
        call = lr.current()
        self.performed.append((call.client_id, call.retention_id))
        return amount * len(self.performed)

    def total(self) -> int:
        """Performs another operation."""
        call = lr.current()
        self.performed.append((call.client_id, call.retention_id))
        return 0

    async def perform(self, octets: bytes) -> None:
        """Performs what is asked, whose reply nobody gets."""
        reader, writer = await asyncio.open_connection(HOST, self.port)
        writer.write(octets)
        await reader.read(4096)
        writer.close()

    async def before(self, *steps: Step) -> int:
        """The port of a server that takes a step with each request, the last one again and again."""
        left = list(steps)

        async def serve(reader: asyncio.StreamReader, writer: asyncio.StreamWriter) -> None:
            assembler = lr.Assembler()
            while octets := await reader.read(4096):
                for message in assembler.feed(octets):
                    self.asked.append((message.ft.client, message.ft.retention_id))
                    step = left.pop(0) if len(left) > 1 else left[0]
                    if step is MUTE:
                        continue
                    if step is None:
                        await self.perform(octets)
                        listener.close()
                        writer.transport.abort()
                        return
                    writer.write(lr.write_reply(message.request_id, step[1], status=step[0]))
            writer.close()

        listener = await asyncio.start_server(serve, HOST, 0)
        self.listeners.append(listener)
        return listener.sockets[0].getsockname()[1]


async def profiles(bank: Bank) -> lr.Ior:
    return reference(closed_port(), await bank.before(None), bank.port)


async def components(bank: Bank) -> lr.Ior:
    return reference_of_components(closed_port(), await bank.before(None), bank.port)


async def transient(bank: Bank) -> lr.Ior:
    return reference(await bank.before(TRANSIENT), bank.port)


async def forward(bank: Bank) -> lr.Ior:
    return reference(closed_port(), await bank.before(led(closed_port(), await bank.before(None), bank.port)))


async def forward_of_what_acted(bank: Bank) -> lr.Ior:
    """The first server is gone after the bank acted; the second one leads to the bank."""
    return reference(await bank.before(None), await bank.before(led(bank.port)))


async def forward_to_nobody(bank: Bank) -> lr.Ior:
    """It is asked for as at first, and then led to who answers."""
    return reference(await bank.before(led(closed_port()), led(closed_port()), led(bank.port)))


ROADS: dict[str, Callable[[Bank], Awaitable[lr.Ior]]] = {
    one.__name__: one for one in (profiles, components, transient, forward, forward_of_what_acted, forward_to_nobody)}


def ended(client: list[str], road: Callable[[Bank], Awaitable[lr.Ior]], **environment: str) -> tuple[Bank, int, str]:
    """A client makes a deposit over a road: the bank, the status of the client, and what it printed."""
    async def main() -> tuple[Bank, int, str]:
        async with Bank() as bank:
            words = [*client, "deposit", str(await road(bank)), "alice", "5"]
            process = await asyncio.create_subprocess_exec(
                *words, env={**os.environ, **environment}, stdout=asyncio.subprocess.PIPE, stderr=asyncio.subprocess.STDOUT)
            said, _ = await asyncio.wait_for(process.communicate(), SECONDS)
            return bank, process.returncode or 0, said.decode().strip()
    return asyncio.run(main())


def crossed(test: unittest.TestCase, client: list[str], road: Callable[[Bank], Awaitable[lr.Ior]]) -> None:
    """A client makes a deposit over a road: under one number, and it acts once."""
    bank, status, said = ended(client, road)
    test.assertEqual((status, said), (0, "5"))
    test.assertEqual(len(bank.performed), 1)
    test.assertEqual({*bank.asked, *bank.performed}, {*bank.performed})
    test.assertTrue(bank.asked)
