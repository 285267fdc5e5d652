#!/usr/bin/env python3
"""A bank over asyncio, whose deposits take their time. One that a client sends again acts once.

usage: bank.py [PORT [SECONDS]]

It listens on 127.0.0.1, at a free port if none is given, prints its reference, and serves until SIGTERM or SIGINT. The
object of the key `bank` has the interface of bank.idl. A deposit takes so many seconds, in which others go on; of fewer
than 0 cents it takes some. Where the balance would be below 0, or no long long, nothing changes.
"""
import asyncio
import os
import signal
import sys
from typing import DefaultDict, Dict

sys.path.insert(0, os.path.join(os.path.dirname(os.path.abspath(__file__)), "..", "bindings", "python"))

from lemonrudder import Server, UserException  # noqa: E402

KEY = b"bank"
BANK = "IDL:Bank:1.0"
OVERDRAWN = "IDL:Bank/Overdrawn:1.0"
MOST = (1 << 63) - 1


class Bank:
    """Accounts, and their balances in cents."""

    def __init__(self, seconds: float) -> None:
        self.seconds = seconds
        self.accounts: Dict[str, int] = {}
        # deposits of one account come one after another
        self.locks: DefaultDict[str, asyncio.Lock] = DefaultDict(asyncio.Lock)

    async def deposit(self, account: str, cents: int) -> int:
        async with self.locks[account]:
            balance = self.balance(account) + cents
            if not 0 <= balance <= MOST:
                raise UserException(OVERDRAWN, [balance - cents])
            await asyncio.sleep(self.seconds)  # in place of a database
            self.accounts[account] = balance
            return balance

    def balance(self, account: str) -> int:
        return self.accounts.get(account, 0)


async def main(port: int = 0, seconds: float = 0.0) -> None:
    stop = asyncio.Event()
    for number in (signal.SIGINT, signal.SIGTERM):
        asyncio.get_running_loop().add_signal_handler(number, stop.set)
    async with Server() as server:
        operations = {"deposit": ("sq", "q"), "balance": ("s", "q")}
        server.add(KEY, BANK, operations, raises={"deposit": {OVERDRAWN: "q"}}, servant=Bank(seconds))
        await server.listen("127.0.0.1", port)
        print(server.reference(KEY), flush=True)
        await stop.wait()


if __name__ == "__main__":
    asyncio.run(main(*map(int, sys.argv[1:2]), *map(float, sys.argv[2:3])))
