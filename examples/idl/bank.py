#!/usr/bin/env python3
"""The bank by what omniidl makes of bank.idl: a server, and a client of any server of it.

    omniidl -p idl -blemonrudder -Wbpython -Cmade examples/bank.idl
    PYTHONPATH=made:bindings/python python3 examples/idl/bank.py serve
    PYTHONPATH=made:bindings/python python3 examples/idl/bank.py deposit IOR:.. alice 5
"""
import asyncio
import signal
import sys
from typing import Dict

from _GlobalIDL import Bank
from _GlobalIDL__POA import Bank as BankServant
from lemonrudder import Server, SystemException, idl


class Accounts(BankServant):
    """Accounts, and their balances in cents."""

    def __init__(self) -> None:
        self.accounts: Dict[str, int] = {}

    async def deposit(self, account: str, amount: int) -> int:
        before = self.balance(account)
        after = before + amount
        if after < 0:
            raise Bank.Overdrawn(balance=before)
        if after >= 1 << 63:
            raise SystemException("BAD_PARAM")
        self.accounts[account] = after
        return after

    def balance(self, account: str) -> int:
        return self.accounts.get(account, 0)


async def serve() -> None:
    """Prints the bank's reference, and serves until SIGTERM."""
    stop = asyncio.Event()
    asyncio.get_running_loop().add_signal_handler(signal.SIGTERM, stop.set)
    async with Server() as server:
        idl.add(server, "bank", Accounts())
        await server.listen("127.0.0.1")
        print(server.reference("bank"), flush=True)
        await stop.wait()


async def deposit(reference: str, account: str, amount: str) -> None:
    """Makes a deposit at the bank of a reference, and prints the balance."""
    async with Bank._of(reference) as bank:
        try:
            print(await bank.deposit(account, int(amount)))
        except Bank.Overdrawn as raised:
            print("overdrawn:", raised.balance)


if __name__ == "__main__":
    asyncio.run({"serve": serve, "deposit": deposit}[sys.argv[1]](*sys.argv[2:]))
