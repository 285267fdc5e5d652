"""Tests that the tables of outcomes are one: what a bank in any language keeps, or a guard of the relay, any other goes on
with, and what earlier versions kept is there.

The tables of earlier versions are made by the statements that made them then, which stand here.
"""
from __future__ import annotations

import asyncio
import contextlib
import os
import signal
import sqlite3
import subprocess
import tempfile
import unittest
from collections.abc import Iterator

from tests import base, programs
from tests.embed import durable
from tests.embed.durable import ENDLESS, KEY, OVERDRAWN, Bank, Postgres, lr
from tests.relay import relays

NO, MAYBE, YES = lr.Completed.NO, lr.Completed.MAYBE, lr.Completed.YES
FILES = [(name, name) for name in (*durable.LANGUAGES, "guard")]
DATABASES = [(name, name) for name in ("c", "cpp", "py", "guard")]
# a moment before which an earlier version forgot something, and one that is not past
W, LATER = 1 << 62, (1 << 62) + 10**7
# the tables of servers, of version 1, and of guards, of 2 and 3: client `client` has a result, 7, under 1, and an
# exception under 2; of a guard 3 is begun, 4 at another place, 5 long, and 6 at another place and of 4 octets
FIRST = """
    CREATE TABLE outcome (client BLOB NOT NULL, retention INTEGER NOT NULL, expiration BLOB NOT NULL,
     status INTEGER NOT NULL, little INTEGER NOT NULL, body BLOB NOT NULL, PRIMARY KEY (client, retention)) WITHOUT ROWID;
    CREATE INDEX outcome_by_expiration ON outcome (expiration);
    CREATE TABLE forgotten (version INTEGER NOT NULL, moment BLOB NOT NULL);
    CREATE TABLE account (name TEXT PRIMARY KEY, balance INTEGER NOT NULL) WITHOUT ROWID;
    INSERT INTO forgotten VALUES (1, x'4000000000000000');
    INSERT INTO account VALUES ('client', 7);
    INSERT INTO outcome VALUES (x'636c69656e74', 1, x'ffffffffffffffff', 0, 0, x'0000000000000007');
    INSERT INTO outcome VALUES (x'636c69656e74', 2, x'ffffffffffffffff', 2, 1, x'{limits}');
"""
OF_GUARD = """
    INSERT INTO outcome ({columns}) VALUES (x'636c69656e74', 1, x'ffffffffffffffff', 3, 0, 0, 0, x'0000000000000007');
    INSERT INTO outcome ({columns}) VALUES (x'636c69656e74', 2, x'ffffffffffffffff', 3, 2, 1, 0, x'{limits}');
    INSERT INTO outcome ({columns}) VALUES (x'636c69656e74', 3, x'ffffffffffffffff', 3, NULL, NULL, NULL, NULL);
    INSERT INTO outcome ({columns}) VALUES (x'636c69656e74', 4, x'ffffffffffffffff', 3, 0, 0, 4, x'0000000000000007');
    INSERT INTO outcome ({columns}) VALUES (x'636c69656e74', 6, x'ffffffffffffffff', 3, 0, 0, 4, x'00000007');
"""
SECOND = """
    CREATE TABLE outcome (
        client BLOB NOT NULL, number INTEGER NOT NULL, expiration BLOB NOT NULL,
        life INTEGER NOT NULL, status INTEGER, body_order INTEGER, place INTEGER, body BLOB,
        PRIMARY KEY (client, number)
    ) WITHOUT ROWID;
    CREATE INDEX outcome_by_expiration ON outcome (expiration) WHERE status IS NOT NULL;
    CREATE TABLE mark (least BLOB NOT NULL, life INTEGER NOT NULL);
    INSERT INTO mark VALUES (x'4000000000000000', 3);
    PRAGMA application_id = 1280463732;
    PRAGMA user_version = 2;
    INSERT INTO outcome VALUES (x'636c69656e74', 5, x'ffffffffffffffff', 3, 0, 0, 0, zeroblob(300));
"""
THIRD = """
    CREATE TABLE outcome (
        id INTEGER PRIMARY KEY, client BLOB NOT NULL, number INTEGER NOT NULL, expiration BLOB NOT NULL,
        life INTEGER NOT NULL, status INTEGER, body_order INTEGER, place INTEGER, body BLOB,
        UNIQUE (client, number)
    );
    CREATE INDEX outcome_by_expiration ON outcome (expiration) WHERE status IS NOT NULL;
    CREATE TABLE bodies (id INTEGER PRIMARY KEY, octets BLOB NOT NULL);
    CREATE TABLE mark (least BLOB NOT NULL, life INTEGER NOT NULL);
    INSERT INTO mark VALUES (x'4000000000000000', 3);
    PRAGMA application_id = 1280463732;
    PRAGMA user_version = 3;
    INSERT INTO outcome VALUES (77, x'636c69656e74', 5, x'ffffffffffffffff', 3, 0, 0, 0, NULL);
    INSERT INTO bodies VALUES (77, zeroblob(300));
"""
# what servers of version 1 say to them
FIND = "SELECT status, body FROM outcome WHERE client = ? AND retention = ?"
KEEP = "INSERT INTO outcome (client, retention, expiration, status, little, body) VALUES (?, ?, ?, ?, ?, ?)"
# .. in PostgreSQL, where guards had version 2
FIRST_THERE = """
    CREATE TABLE outcome (client bytea NOT NULL, retention integer NOT NULL, expiration bytea NOT NULL,
     status integer NOT NULL, little integer NOT NULL, body bytea NOT NULL, PRIMARY KEY (client, retention));
    CREATE INDEX outcome_by_expiration ON outcome (expiration);
    CREATE TABLE forgotten (version integer NOT NULL, moment bytea NOT NULL);
    CREATE TABLE account (name text PRIMARY KEY, balance bigint NOT NULL);
    INSERT INTO forgotten VALUES (1, '\\x4000000000000000');
    INSERT INTO account VALUES ('client', 7);
    INSERT INTO outcome VALUES ('client', 1, '\\xffffffffffffffff', 0, 0, '\\x0000000000000007');
    INSERT INTO outcome VALUES ('client', 2, '\\xffffffffffffffff', 2, 1, '\\x{limits}');
"""
SECOND_THERE = """
    CREATE TABLE guard (id bigint GENERATED ALWAYS AS IDENTITY PRIMARY KEY, until timestamptz NOT NULL);
    CREATE TABLE outcome (
        client bytea NOT NULL, number integer NOT NULL, expiration bytea NOT NULL,
        guard bigint NOT NULL, waited boolean NOT NULL DEFAULT false,
        status bigint, little boolean, place smallint, body bytea, PRIMARY KEY (client, number));
    CREATE INDEX outcome_by_expiration ON outcome (expiration);
    CREATE TABLE mark (version integer NOT NULL, least bytea NOT NULL);
    INSERT INTO mark VALUES (2, '\\x4000000000000000');
    INSERT INTO outcome VALUES ('client', 1, '\\xffffffffffffffff', 3, false, 0, false, 0, '\\x0000000000000007');
    INSERT INTO outcome VALUES ('client', 2, '\\xffffffffffffffff', 3, false, 2, true, 0, '\\x{limits}');
    INSERT INTO outcome VALUES ('client', 3, '\\xffffffffffffffff', 3);
    INSERT INTO outcome VALUES ('client', 4, '\\xffffffffffffffff', 3, false, 0, false, 4, '\\x0000000000000007');
    INSERT INTO outcome VALUES ('client', 5, '\\xffffffffffffffff', 3, false, 0, false, 0, repeat(chr(1), 300)::bytea);
    INSERT INTO outcome VALUES ('client', 6, '\\xffffffffffffffff', 3, false, 0, false, 4, '\\x00000007');
"""
# NO_PERMISSION with the minor code 9, COMPLETED_YES, in little order: 36 octets of its name, and two numbers
LIMITS = (b"\x24\0\0\0IDL:omg.org/CORBA/NO_PERMISSION:1.0\0" + b"\x09\0\0\0" + b"\0\0\0\0").hex()
COLUMNS = "client, number, expiration, life, status, body_order, place, body"
# what the banks answer of that, and what they answer of what a guard kept
KEPT = [(1, b"\0\0\0\0\0\0\0\7"), (2, ("NO_PERMISSION", 9, YES))]
KEPT_BY_GUARD = [*KEPT, (3, ("COMM_FAILURE", 0, MAYBE)), (4, ("IMP_LIMIT", 0, YES)), (5, None), (6, b"\0\0\0\7")]


class Guard:
    """A guard over a store, before a bank over one of its own."""

    def __init__(self, store: str, folder: str) -> None:
        self.bank = Bank("c", f"{folder}/behind.db")
        self.relay = relays.Relay("guard", "--server", f"127.0.0.1:{self.bank.port}", "--store", store)
        self.port = self.relay.port

    def begin(self) -> None:
        self.bank.begin()
        self.relay.begin()

    def end(self, number: int = signal.SIGKILL) -> None:
        self.relay.end(number)
        self.bank.end(number)

    def __enter__(self) -> Guard:
        return self

    def __exit__(self, *error: object) -> None:
        self.relay.__exit__(*error)
        self.bank.__exit__(*error)


async def asked(one: Bank | Guard, number: int, cents: int, expiration: int = ENDLESS) -> object:
    """What a deposit is answered, once."""
    client = lr.Client("127.0.0.1", one.port, "client", keep_transient=False)
    try:
        return await client.recall(number, KEY, "deposit", "sq", ("client", cents), "q", {OVERDRAWN: "q"},
                                   expiration=expiration)
    except lr.UserException as error:
        return error.values
    except lr.SystemException as error:
        return error.name, error.minor, error.completed
    finally:
        await client.close()


async def told(one: Bank | Guard, number: int) -> object:
    """The octets that a number is answered, or its exception; None for 300 octets that are the same."""
    client = lr.Client("127.0.0.1", one.port, "client", keep_transient=False)
    try:
        body = await client.call_raw(KEY, "deposit", b"", expiration=ENDLESS, number=number)
        return None if len(body.octets) == 300 and len({*body.octets}) == 1 else body.octets
    except lr.SystemException as error:
        return error.name, error.minor, error.completed
    finally:
        await client.close()


@contextlib.contextmanager
def opened(name: str, store: str) -> Iterator[Bank | Guard]:
    """A bank in a language, or a guard, that has begun over a store; it ends without being killed."""
    with tempfile.TemporaryDirectory() as folder, \
            (Guard(store, folder) if name == "guard" else Bank(name, store)) as one:
        one.begin()
        yield one
        one.end(signal.SIGTERM)


def looked(word: str, file: str) -> list[str]:
    """What `lemonrudder store` prints of a file."""
    ran = subprocess.run([relays.program(), "store", word, file], capture_output=True, text=True, check=False)
    return (ran.stdout + ran.stderr).splitlines()


class OneLayout(unittest.TestCase):
    """Each language's, and a guard's."""

    def run_all(self, one: Bank | Guard, rows: list[tuple[int, object]]) -> None:
        """What an earlier version kept is answered, and what it forgot refused."""
        for number, want in rows:
            self.assertEqual(asyncio.run(told(one, number)), want, number)
        self.assertEqual(asyncio.run(asked(one, 7, 1, W - 1)), ("BAD_CONTEXT", 0, NO))

    def goes_on(self, name: str, store: str, others: list[str]) -> None:
        """What one kept all others answer by, and it goes on with what they kept."""
        with opened(name, store) as one:
            self.assertEqual(asyncio.run(asked(one, 1, 7)), 7)
            self.assertEqual(asyncio.run(asked(one, 2, -9)), (7,))
        for number, other in enumerate(others, 3):
            with opened(other, store) as one:
                self.assertEqual(asyncio.run(asked(one, 1, 5)), 7, other)
                self.assertEqual(asyncio.run(asked(one, 2, 5)), (7,), other)
                asyncio.run(asked(one, number, -(1 << 40)))
        with opened(name, store) as one:
            for number in range(3, 3 + len(others)):
                self.assertIsInstance(asyncio.run(asked(one, number, 5)), tuple, number)
            self.assertIsInstance(asyncio.run(asked(one, 99, 5)), int)

    # ---- SQLite ----

    @contextlib.contextmanager
    def file(self, words: str = "", columns: str = "") -> Iterator[str]:
        """The path of a file, which is there where it has tables."""
        with tempfile.TemporaryDirectory() as folder:
            path = os.path.join(folder, "outcomes.sqlite")
            if words:
                with contextlib.closing(sqlite3.connect(path)) as file:
                    file.executescript(words.replace("{limits}", LIMITS).replace("{columns}", columns))
            yield path

    @base.each(lambda: FILES)
    def test_a_file_serves_all(self, name):
        """And `lemonrudder store` finds all in it, and nothing wrong."""
        others = [other for other, _ in FILES if other != name]
        with self.file() as path:
            self.goes_on(name, path, others)
            self.assertEqual(looked("check", path), [])
            shown = looked("show", path)
            self.assertEqual(shown[:2], ["version 4", f"outcomes {len(others) + 3}"])
            with contextlib.closing(sqlite3.connect(path)) as file:
                file.execute("UPDATE forgotten SET moment = x'4000000000000000'")
                file.commit()
            for other, _ in FILES:
                with opened(other, path) as one:
                    self.assertEqual(asyncio.run(asked(one, 200, 1, W - 1)), ("BAD_CONTEXT", 0, NO), other)

    @base.each(lambda: [(name, name) for name in durable.LANGUAGES])
    def test_a_file_of_a_version_before(self, name):
        """Of servers, of which one runs meanwhile, and of guards, of which one has died amid a request."""
        with self.file(FIRST) as path, contextlib.closing(sqlite3.connect(path)) as old, opened(name, path) as one:
            self.run_all(one, KEPT)
            self.assertEqual(asyncio.run(asked(one, 8, 1, LATER)), 8)
            self.assertEqual(old.execute(FIND, (b"client", 8)).fetchall(), [(0, asyncio.run(told(one, 8)))])
            old.execute(KEEP, (b"client", 9, b"\xff" * 8, 0, 0, b"old"))
            old.commit()
            self.assertEqual(asyncio.run(told(one, 9)), b"old")
        for words in (SECOND, THIRD):
            with self.file(words + OF_GUARD, COLUMNS) as path:
                with opened(name, path) as one:
                    self.run_all(one, KEPT_BY_GUARD)
                self.assertEqual(looked("check", path), [])

    @base.each(lambda: [(name, name) for name in durable.LANGUAGES if name != "py"])
    def test_what_was_handed_over(self, name):
        """By a bank of version 1, in memory, to one of this. (That in Python hands over no tables.)"""
        with self.file(FIRST) as path, Bank(name, f"memory:{path}") as bank:
            bank.begin()
            self.run_all(bank, KEPT)
            self.assertEqual(asyncio.run(asked(bank, 8, 1, LATER)), 8)

    def program(self, folder: str) -> str:
        """The program that calls what C calls."""
        flags = [*durable.flags_of("sqlite3", "libsqlite3-dev"), *durable.flags_of("libpq", "libpq-dev")]
        sources = [os.path.join(durable.EMBED, "stored.c"), *map(durable.of_store, ("sqlite", "postgres"))]
        durable.compiled(folder, f"-I{programs.library()}/include", *sources, *flags, "-o", "stored")
        return os.path.join(folder, "stored")

    def stored(self, kind: str, store: str) -> None:
        """It prints what it is to."""
        where = "" if kind == "sqlite" else "the database: "
        with tempfile.TemporaryDirectory() as folder:
            ran = subprocess.run([self.program(folder), kind, store], capture_output=True, text=True, check=True)
        self.assertEqual(ran.stdout.splitlines(), [
            f"open: {where}its table outcome is of another program", "find 0",
            "W 0", "keep 1", "W 0", "keep 0", "W 0", "keep 1", "find 1 1 1 one", "find 1 1 1 ", "purge 0", "purge 1",
            "find 0", "W 11", "keep 0", "W 11", "keep 1", "find 1 1 1 again",
            f"open: {where}it has outcomes of version 9, and not 4"])

    def test_what_c_calls(self):
        with self.file() as path:
            self.stored("sqlite", path)

    # ---- PostgreSQL ----

    @contextlib.contextmanager
    def database(self) -> Iterator[Postgres]:
        postgres = Postgres()
        try:
            yield postgres
        finally:
            postgres.close()

    def there(self, name: str, postgres: Postgres, schema: str = "lemonrudder") -> str:
        """The address of tables in a schema, which a guard has by itself."""
        return postgres.address + ("" if name == "guard" else f"?options=-csearch_path%3D{schema}")

    def test_a_database_serves_all(self):
        names = [name for name, _ in DATABASES]
        with self.database() as postgres:
            for name in names:
                with self.subTest(name):
                    postgres.asked("DROP SCHEMA IF EXISTS lemonrudder CASCADE; CREATE SCHEMA lemonrudder")
                    with opened(name, self.there(name, postgres)) as one:
                        self.assertEqual(asyncio.run(asked(one, 1, 7)), 7)
                        self.assertEqual(asyncio.run(asked(one, 2, -9)), (7,))
                    for number, other in enumerate(names, 3):
                        with opened(other, self.there(other, postgres)) as one:
                            self.assertEqual(asyncio.run(asked(one, 1, 5)), 7, other)
                            self.assertEqual(asyncio.run(asked(one, 2, 5)), (7,), other)
                            self.assertIsInstance(asyncio.run(asked(one, number, -(1 << 40))), tuple)
                    self.assertEqual(postgres.asked("SELECT count(*) FROM lemonrudder.outcome"), "6")

    def test_a_database_of_a_version_before(self):
        with self.database() as postgres:
            for name in ("c", "cpp", "py"):
                for schema, words, rows in (("public", FIRST_THERE, KEPT), ("lemonrudder", SECOND_THERE, KEPT_BY_GUARD)):
                    with self.subTest((name, schema)):
                        postgres.asked(f"DROP SCHEMA IF EXISTS {schema} CASCADE; CREATE SCHEMA {schema};"
                                       f"SET search_path = {schema};" + words.replace("{limits}", LIMITS))
                        with opened(name, self.there(name, postgres, schema)) as one:
                            self.run_all(one, rows)
                            self.assertEqual(asyncio.run(asked(one, 8, 1, LATER)), 8 if rows == KEPT else 1)

    def test_what_c_calls_of_a_database(self):
        with self.database() as postgres:
            self.stored("postgres", postgres.address)


if __name__ == "__main__":
    unittest.main()
