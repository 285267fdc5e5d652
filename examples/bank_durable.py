#!/usr/bin/env python3
"""A bank whose accounts and outcomes are one database. A deposit that is sent again acts once, also where the server
was killed and started anew meanwhile, or where another one on the same database is asked.

usage: bank_durable.py --store STORE [--port PORT] [--purge SECONDS]

STORE is the path of a SQLite file, or an address of PostgreSQL, postgres://.., for which it takes asyncpg; or memory:
and the path of a file by which a bank in memory hands over all that it has, at its end, to the next one. It listens
on 127.0.0.1, at a free port if none is given, prints its reference, and serves until SIGTERM or SIGINT. The object of
the key `bank` has the interface of bank.idl. Every so many seconds, or 60, it takes out outcomes that expired.

Where the environment names a point in BANK_DIES_AT, as stored, the process kills itself when it comes there; of
stored:3 the third time.
"""
import argparse
import asyncio
import logging
import os
import signal
import sys
from functools import partial
from typing import Any, Dict

sys.path.insert(0, os.path.join(os.path.dirname(os.path.abspath(__file__)), "..", "bindings", "python"))

from lemonrudder import MemoryStore, Outcome, PostgresStore, Server, SqliteStore, UserException, current  # noqa: E402

KEY = b"bank"
BANK = "IDL:Bank:1.0"
OVERDRAWN = "IDL:Bank/Overdrawn:1.0"
MOST = (1 << 63) - 1

POINT, _, COUNT = os.environ.get("BANK_DIES_AT", "").partition(":")
passed: Dict[str, int] = {}


def reach(point: str) -> None:
    """Dies where the environment names this point."""
    passed[point] = passed.get(point, 0) + 1
    if point == POINT and passed[point] == int(COUNT or 1):
        os.kill(os.getpid(), signal.SIGKILL)


class SqliteBank:
    """Accounts in a SQLite file, with their balances in cents."""

    def __init__(self, path: str) -> None:
        self.store = SqliteStore(path, """
            CREATE TABLE IF NOT EXISTS account (name TEXT PRIMARY KEY, balance INTEGER NOT NULL) WITHOUT ROWID;
        """)

    async def deposit(self, account: str, cents: int) -> Outcome:
        async with self.store.transaction() as db:
            reach("begun")
            row = db.execute("SELECT balance FROM account WHERE name = ?", (account,)).fetchone()
            balance = cents + (row[0] if row else 0)
            if 0 <= balance <= MOST:
                db.execute("REPLACE INTO account VALUES (?, ?)", (account, balance))
                reach("changed")
                kept = await current().store(db, balance)
            else:
                kept = await current().store(db, UserException(OVERDRAWN, [balance - cents]))
            reach("stored")
        reach("committed")
        return kept

    async def balance(self, account: str) -> int:
        async with self.store.transaction() as db:
            row = db.execute("SELECT balance FROM account WHERE name = ?", (account,)).fetchone()
            return row[0] if row else 0


class PostgresBank:
    """Accounts in PostgreSQL, with their balances in cents."""

    def __init__(self, address: str) -> None:
        import asyncpg

        connect = partial(asyncpg.create_pool, address, min_size=1, max_size=16, timeout=5)
        self.store = PostgresStore(connect, """
            CREATE TABLE IF NOT EXISTS account (name text PRIMARY KEY, balance bigint NOT NULL);
        """)

    async def deposit(self, account: str, cents: int) -> Outcome:
        async with self.store.transaction() as db:
            reach("begun")
            await db.execute("INSERT INTO account VALUES ($1, 0) ON CONFLICT DO NOTHING", account)
            before = await db.fetchval("SELECT balance FROM account WHERE name = $1 FOR UPDATE", account)
            balance = before + cents
            if 0 <= balance <= MOST:
                await db.execute("UPDATE account SET balance = $2 WHERE name = $1", account, balance)
                reach("changed")
                kept = await current().store(db, balance)
            else:
                kept = await current().store(db, UserException(OVERDRAWN, [before]))
            reach("stored")
        reach("committed")
        return kept

    async def balance(self, account: str) -> int:
        async with self.store.transaction() as db:
            return await db.fetchval("SELECT balance FROM account WHERE name = $1", account) or 0


class MemoryBank:
    """Accounts in memory, with their balances in cents, which a file hands over to the next bank."""

    def __init__(self, path: str) -> None:
        self.path = path
        self.store = MemoryStore()
        if os.path.exists(path):
            with open(path, "rb") as file:
                self.store = MemoryStore.taken_over(file.read())
            os.remove(path)

    async def deposit(self, account: str, cents: int) -> Outcome:
        async with self.store.transaction() as accounts:
            balance = accounts.get(account, 0) + cents
            if 0 <= balance <= MOST:
                accounts[account] = balance
                return await current().store(accounts, balance)
            return await current().store(accounts, UserException(OVERDRAWN, [balance - cents]))

    async def balance(self, account: str) -> int:
        return self.store.state.get(account, 0)

    def hand_over(self) -> None:
        with open(f"{self.path}.new", "wb") as file:
            file.write(self.store.hand_over())
        os.replace(f"{self.path}.new", self.path)


def bank_of(store: str) -> Any:
    if store.startswith(("postgres:", "postgresql:")):
        return PostgresBank(store)
    return MemoryBank(store[len("memory:"):]) if store.startswith("memory:") else SqliteBank(store)


async def main(store: str, port: int, purge: float) -> None:
    stop = asyncio.Event()
    for number in (signal.SIGINT, signal.SIGTERM):
        asyncio.get_running_loop().add_signal_handler(number, stop.set)
    bank = bank_of(store)
    async with Server(store=bank.store, purge_every=purge) as server:
        operations = {"deposit": ("sq", "q"), "balance": ("s", "q")}
        server.add(KEY, BANK, operations, raises={"deposit": {OVERDRAWN: "q"}}, servant=bank)
        await server.listen("127.0.0.1", port)
        print(server.reference(KEY), flush=True)
        await stop.wait()
    if isinstance(bank, MemoryBank):
        bank.hand_over()
    else:
        await bank.store.close()


if __name__ == "__main__":
    words = argparse.ArgumentParser()
    words.add_argument("--store", required=True)
    words.add_argument("--port", type=int, default=0)
    words.add_argument("--purge", type=float, default=60.0)
    logging.basicConfig(format="bank_durable: %(message)s", level=logging.WARNING)
    given = words.parse_args()
    asyncio.run(main(given.store, given.port, given.purge))
