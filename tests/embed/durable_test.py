"""Kills the banks of examples/bank_durable.* at each point and by chance, stops them, restarts their databases,
and looks whether each call acted once and has one answer.

Each is over SQLite and over PostgreSQL, which the tests start themselves. Clients call meanwhile, over connections that
are cut; what each call has to answer they reckon themselves.
"""
from __future__ import annotations

import asyncio
import contextlib
import os
import random
import signal
import unittest
from concurrent.futures import ThreadPoolExecutor

from tests import base
from tests.embed import durable
from tests.embed.durable import (ENDLESS, KEY, Bank, Caller, Postgres, balance_of, callers_of, folders, judge, located,
                                 lr, until)
from tests.programs import NEEDS

try:
    import sqlite3
except ImportError:
    sqlite3 = None

# of the table of outcomes
COLUMNS = "client, retention, expiration, status, little, body"
# where a bank is killed
POINTS = ["asked", "begun", "looked", "changed", "stored", "committing", "committed", "answered"]
POINTS_OF_PYTHON = ["begun", "changed", "stored", "committed"]
# over SQLite; all but the one in Rust are over PostgreSQL too
LANGUAGES = [(f"in {language}", language) for language in durable.LANGUAGES]
OF_BOTH = [("in c", "c"), ("in cpp", "cpp"), ("in py", "py")]


def points_of(languages: list[tuple[str, str]]) -> list[tuple[str, tuple[str, str]]]:
    """Each point of banks in languages."""
    return [(f"{language} {point}", (language, point)) for _, language in languages
            for point in (POINTS_OF_PYTHON if language == "py" else POINTS)]


# how often a bank is killed by chance: in C it begins at once
KILLS = {"c": 250, "py": 12}


async def call_on(callers: list[Caller], is_over: asyncio.Event) -> None:
    """Calls until it is over, each client at least thrice."""
    async def call(caller: Caller) -> None:
        while not is_over.is_set() or len(caller.calls) < 3:
            await caller.call()
    await asyncio.gather(*map(call, callers))


async def killed_at(bank: Bank, point: str, name: str) -> None:
    """A bank dies at a point, the third time that it comes there, and lives again."""
    async with callers_of([bank], 3, random.Random(1), name) as (callers, _):
        is_over = asyncio.Event()
        bank.begin(f"{point}:3")
        calling = asyncio.ensure_future(call_on(callers, is_over))
        while not bank.died() and not calling.done():
            await asyncio.sleep(0.005)
        status = bank.end() if bank.died() else 0
        bank.begin()
        is_over.set()
        await calling
        if status not in (-signal.SIGKILL, -signal.SIGABRT):
            raise AssertionError(f"it did not die at {point}: {status}")
        await judge(callers, [bank.port])


async def killed_by_chance(bank: Bank, kills: int, dice: random.Random, name: str) -> None:
    """A bank is killed so often."""
    async with callers_of([bank], 8, dice, name) as (callers, relays):
        is_over = asyncio.Event()
        bank.begin()
        calling = asyncio.ensure_future(call_on(callers, is_over))
        for _ in range(kills):
            await asyncio.sleep(dice.expovariate(1 / 0.08))
            bank.end()
            bank.begin()
            if calling.done():
                break
        relays[0].is_calm = True
        is_over.set()
        await calling
        await judge(callers, [bank.port])


async def handed_over(bank: Bank, times: int, dice: random.Random, name: str) -> None:
    """A bank ends so often, and hands over to the next."""
    async with callers_of([bank], 8, dice, name) as (callers, relays):
        is_over = asyncio.Event()
        bank.begin()
        calling = asyncio.ensure_future(call_on(callers, is_over))
        for _ in range(times):
            await asyncio.sleep(dice.expovariate(1 / 0.2))
            status = await asyncio.get_running_loop().run_in_executor(None, bank.end, signal.SIGTERM)
            assert status == 0, (status, bank.said())
            bank.begin()
        relays[0].is_calm = True
        is_over.set()
        await calling
        await judge(callers, [bank.port])


async def disturbed(banks: list[Bank], postgres: Postgres, rounds: int, dice: random.Random, name: str) -> None:
    """Of two banks on one database one is killed, or stopped and continued, and the database is restarted."""
    async with callers_of(banks, 8, dice, name) as (callers, relays):
        is_over = asyncio.Event()
        for bank in banks:
            bank.begin()
        calling = asyncio.ensure_future(call_on(callers, is_over))
        for number in range(rounds):
            await asyncio.sleep(dice.expovariate(1 / 0.15))
            bank, deed = dice.choice(banks), ("kill", "stop", "restart")[number % 3]
            if deed == "kill":
                bank.end()
                bank.begin()
            elif deed == "stop":
                bank.tell(signal.SIGSTOP)
                await asyncio.sleep(dice.uniform(0.05, 0.5))
                bank.tell(signal.SIGCONT)
            else:
                await asyncio.get_running_loop().run_in_executor(None, postgres.stop)
                await asyncio.get_running_loop().run_in_executor(None, postgres.start)
            if calling.done():
                break
        for relay in relays:
            relay.is_calm = True
        is_over.set()
        await calling
        await judge(callers, [bank.port for bank in banks])


async def answer_of(bank: Bank, client_id: str, number: int, operation: str, cents: int, expiration: int) -> object:
    """What a call is answered of an account that is named as its client is: once, without sending it again."""
    client = lr.Client("127.0.0.1", bank.port, client_id, keep_transient=False)
    try:
        return await client.recall(number, KEY, operation, "sq", (client_id, cents), "q", expiration=expiration)
    except lr.SystemException as error:
        return error.name, error.completed
    finally:
        await client.close()


async def forgotten(bank: Bank, other: Bank, count: object, name: str) -> None:
    """What a bank took out whose clock is ahead is not performed anew, whatever clock its next life or another bank
    has."""
    other.begin()
    bank.begin()
    near = lr.now() + 1200 * 10**7
    assert await answer_of(bank, name, 1, "deposit", 7, near) == 7
    assert await answer_of(other, name, 1, "deposit", 7, near) == 7
    assert await answer_of(bank, name, 2, "deposit", 5, ENDLESS) == 12
    bank.end(signal.SIGTERM)
    bank.begin(late=3600, purge=1)
    until(lambda: count(name) == 1, "the outcome is taken out")
    bank.end(signal.SIGTERM)
    bank.begin()
    for one in (bank, other):
        assert await answer_of(one, name, 1, "deposit", 7, near) == ("BAD_CONTEXT", lr.Completed.NO)
        # (one that was never seen, from before W)
        assert await answer_of(one, name, 4, "deposit", 7, near - 1) == ("BAD_CONTEXT", lr.Completed.NO)
        assert await answer_of(one, name, 2, "deposit", 5, ENDLESS) == 12
        assert await balance_of(one.port, name) == 12
    assert await answer_of(other, name, 3, "deposit", 1, near + 1) == 13


async def recalled(bank: Bank, keep: object, name: str) -> None:
    """What is stored is answered before a request is refused, and octet by octet; what is not is refused, and acts
    nothing."""
    bank.begin()
    assert await balance_of(bank.port, name) == 0
    keep(name, 1, lr.ReplyStatus.NO_EXCEPTION, lr.LITTLE, b"\1\2\3")
    keep(name, 2, lr.ReplyStatus.SYSTEM_EXCEPTION, lr.BIG,
         lr.pack("sLe3", "IDL:omg.org/CORBA/NO_PERMISSION:1.0", 9, lr.Completed.YES))
    for key, operation, refusal in ((KEY, "gone", "BAD_OPERATION"), (b"none", "deposit", "OBJECT_NOT_EXIST"),
                                    (KEY, "deposit", "MARSHAL"), (KEY, "_is_a", "MARSHAL")):
        client = lr.Client("127.0.0.1", bank.port, name)
        body = await client.call_raw(key, operation, b"", expiration=ENDLESS)
        assert (body.octets, body.order) == (b"\1\2\3", lr.LITTLE), body
        for number, want in ((2, ("NO_PERMISSION", 9, lr.Completed.YES)), (3, (refusal, 0, lr.Completed.NO))):
            try:
                raise AssertionError(await client.call_raw(key, operation, b"", expiration=ENDLESS, number=number))
            except lr.SystemException as error:
                assert (error.name, error.minor, error.completed) == want, (error, want)
        await client.close()
    assert located(bank.port, KEY) == lr.LocateStatus.OBJECT_HERE
    assert located(bank.port, b"none") == lr.LocateStatus.UNKNOWN_OBJECT
    client = lr.Client("127.0.0.1", bank.port)
    assert await client.call(KEY, "_is_a", "s", ("IDL:Bank:1.0",), "?")
    assert await client.call(KEY, "_is_a", "s", ("IDL:omg.org/CORBA/Object:1.0",), "?")
    assert not await client.call(KEY, "_is_a", "s", ("IDL:Bank:1.1",), "?")
    assert not await client.call(KEY, "_non_existent", results="?")
    await client.close()


async def declined(bank: Bank, name: str, line: str) -> None:
    """A bank without a store that can be used says so in one line, and performs nothing."""
    for number in (1, 2, 3):
        answer = await answer_of(bank, name, number, "deposit", 7, ENDLESS)
        assert answer[0] == "TRANSIENT" and answer[1] != lr.Completed.YES, answer
    said = bank.said()
    assert len(said) == 1 and line in said[0], said


class InDoubt(unittest.TestCase):
    """What was committed is taken out before the store is asked again whether it was."""

    @base.each(lambda: [it for it in LANGUAGES if it[1] != "py"])
    def test_over_by_then(self, language):
        """It may have acted: BAD_CONTEXT, COMPLETED_MAYBE."""
        with contextlib.contextmanager(folders)() as folder, \
                Bank(language, f"{folder}/bank.db", durable.losing(language)) as bank:
            bank.begin()
            soon = lr.now() + 1200 * 10**7
            self.assertEqual(asyncio.run(answer_of(bank, "client", 1, "deposit", 7, soon)),
                             ("BAD_CONTEXT", lr.Completed.MAYBE))
            self.assertEqual(asyncio.run(balance_of(bank.port, "client")), 7)
            self.assertEqual(asyncio.run(answer_of(bank, "client", 2, "deposit", 7, ENDLESS)), 14)


class OverSqlite(unittest.TestCase):
    """Over a SQLite file."""

    @classmethod
    def setUpClass(cls):
        if sqlite3 is None:
            raise unittest.SkipTest(f"{NEEDS}the module sqlite3")

    @contextlib.contextmanager
    def bank(self, language, path=None):
        """A bank over a file of its own."""
        with contextlib.contextmanager(folders)() as folder, Bank(language, path or f"{folder}/bank.db") as bank:
            yield bank

    @staticmethod
    def done(path, words, *values):
        """What a statement says of a file."""
        file = sqlite3.connect(path)
        try:
            with file:
                return file.execute(words, values).fetchall()
        finally:
            file.close()

    def count_in(self, path):
        """Counts the outcomes of a client."""
        return lambda name: self.done(path, "SELECT count(*) FROM outcome WHERE client = ?", name.encode())[0][0]

    @base.each(lambda: points_of(LANGUAGES), 2)
    def test_killed_at_each_point(self, given):
        """It is killed at each point, and its outcome is that of the first."""
        with self.bank(given[0]) as bank:
            asyncio.run(killed_at(bank, given[1], "client"))

    @base.each_seed(41, 4, 4)
    def test_killed_by_chance_in_c(self, seed):
        """A thousand times in all."""
        with self.bank("c") as bank:
            asyncio.run(killed_by_chance(bank, KILLS["c"], random.Random(seed), "client"))

    @base.each_seed(43, 1)
    def test_killed_by_chance_in_python(self, seed):
        with self.bank("py") as bank:
            asyncio.run(killed_by_chance(bank, KILLS["py"], random.Random(seed), "client"))

    @base.each(lambda: LANGUAGES)
    def test_what_was_taken_out_is_not_performed(self, language):
        """Whatever clock a later life has, or another bank on the same file."""
        with self.bank(language) as bank, Bank(language, bank.store) as other:
            asyncio.run(forgotten(bank, other, self.count_in(bank.store), "client"))

    @base.each(lambda: LANGUAGES)
    def test_what_is_stored_is_answered_first(self, language):
        with self.bank(language) as bank:
            def keep(name, number, status, order, body):
                self.done(bank.store, f"INSERT INTO outcome ({COLUMNS}) VALUES (?, ?, ?, ?, ?, ?)", name.encode(), number,
                          b"\xff" * 8, status, order, body)
            asyncio.run(recalled(bank, keep, "client"))

    @base.each(lambda: [("c, then py", ("c", "py")), ("py, then c", ("py", "c"))])
    def test_one_file_serves_both(self, languages):
        with self.bank(languages[0]) as bank, Bank(languages[1], bank.store) as other:
            asyncio.run(self.serves_both(bank, other))

    async def serves_both(self, bank, other):
        async with callers_of([bank], 2, random.Random(5), "client") as (callers, _):
            bank.begin()
            is_over = asyncio.Event()
            is_over.set()
            await call_on(callers, is_over)
            bank.end()
            other.begin()
            await judge(callers, [other.port])

    @base.each(lambda: LANGUAGES)
    def test_a_store_that_is_none(self, language):
        """It is missing, no database, or of another version; then it is there."""
        with self.bank(language) as bank:
            path = bank.store
            os.mkdir(path)
            bank.begin()
            asyncio.run(declined(bank, "client", "unable to open database file"))
            os.rmdir(path)
            until(lambda: asyncio.run(answer_of(bank, "client", 3, "deposit", 7, ENDLESS)) == 7, "it is there")
        with self.bank(language) as bank:
            with open(bank.store, "w", encoding="ascii") as file:
                file.write("no database " * 100)
            bank.begin()
            asyncio.run(declined(bank, "client", "file is not a database"))
        with self.bank(language) as bank:
            bank.begin()
            self.assertEqual(asyncio.run(balance_of(bank.port, "client")), 0)
            bank.end(signal.SIGTERM)
            self.done(bank.store, "UPDATE forgotten SET version = 7")
            bank.begin()
            asyncio.run(declined(bank, "client", "of version 7, and not 4"))

    @base.each(lambda: LANGUAGES)
    def test_a_store_that_is_read_only(self, language):
        with self.bank(language) as bank:
            bank.begin()
            assert asyncio.run(answer_of(bank, "other", 1, "deposit", 7, ENDLESS)) == 7
            bank.end(signal.SIGTERM)
            # (who is root may write it)
            is_root = os.geteuid() == 0
            if is_root and language == "py" and bank.python.startswith("/root"):
                bank.python = durable.python_for_all()
            os.chmod(bank.store, 0o444)
            os.chmod(os.path.dirname(bank.store), 0o555)
            bank.begin(as_other=is_root)
            asyncio.run(declined(bank, "client", ""))
            os.chmod(os.path.dirname(bank.store), 0o755)

    @base.each(lambda: LANGUAGES)
    def test_a_store_that_is_full(self, language):
        """What was answered is there, and what was declined is not."""
        with self.bank(language) as bank:
            bank.begin(file_limit=250000)
            answers, sent = [], 0
            while "TRANSIENT" not in str(answers[-1:]) and sent < 3000:
                sent += 1
                answers.append(asyncio.run(answer_of(bank, "client", sent, "deposit", 1, ENDLESS)))
            self.assertEqual(answers[:-1], list(range(1, sent)))
            self.assertEqual(answers[-1][0], "TRANSIENT")
            self.assertEqual(len(bank.said()), 1, bank.said())
            bank.end()
            bank.begin()
            self.assertEqual(asyncio.run(answer_of(bank, "client", sent, "deposit", 1, ENDLESS)), sent)
            self.assertEqual(asyncio.run(answer_of(bank, "client", 1, "deposit", 1, ENDLESS)), 1)


class InMemory(unittest.TestCase):
    """In memory, handed over from one life to the next."""

    @base.each(lambda: LANGUAGES)
    def test_handed_over(self, language):
        """No call acts twice, and each has one answer, though no database has them."""
        with contextlib.contextmanager(folders)() as folder, Bank(language, f"memory:{folder}/bank") as bank:
            asyncio.run(handed_over(bank, 8, random.Random(59), "client"))
            self.assertEqual(bank.said(), [])

    @base.each(lambda: LANGUAGES)
    def test_what_is_handed_over_is_taken_once(self, language):
        """It is gone for a process that begins later, where that one before was killed."""
        with contextlib.contextmanager(folders)() as folder, Bank(language, f"memory:{folder}/bank") as bank:
            for want in (7, 7):
                bank.begin()
                self.assertEqual(asyncio.run(answer_of(bank, "client", 1, "deposit", 7, ENDLESS)), want)
                bank.end(signal.SIGTERM)
            self.assertEqual(os.listdir(folder), ["bank"])
            bank.begin()
            self.assertEqual(asyncio.run(balance_of(bank.port, "client")), 7)
            self.assertEqual(os.listdir(folder), [])
            bank.end()
            bank.begin()
            self.assertEqual(asyncio.run(balance_of(bank.port, "client")), 0)

    @base.each(lambda: [it for it in LANGUAGES if it[1] != "py"])
    def test_what_is_handed_over_can_not_be_read(self, language):
        """Nothing is performed, and it stays; once it is gone the bank begins without it."""
        with contextlib.contextmanager(folders)() as folder, Bank(language, f"memory:{folder}/bank") as bank:
            with open(f"{folder}/bank", "w", encoding="ascii") as file:
                file.write("no database " * 100)
            bank.begin()
            asyncio.run(declined(bank, "client", "file is not a database"))
            self.assertEqual(os.listdir(folder), ["bank"])
            os.remove(f"{folder}/bank")
            until(lambda: asyncio.run(answer_of(bank, "client", 3, "deposit", 7, ENDLESS)) == 7, "it begins")


class OverPostgres(unittest.TestCase):
    """Over a PostgreSQL that is started for this."""

    @classmethod
    def setUpClass(cls):
        cls.postgres = Postgres()
        cls.addClassCleanup(cls.postgres.close)

    def setUp(self):
        # (W of one test lies in the future of others)
        self.postgres.asked("DROP TABLE IF EXISTS outcome, forgotten, account")

    def bank(self, language):
        return Bank(language, self.postgres.address)

    @base.each(lambda: points_of(OF_BOTH))
    def test_killed_at_each_point(self, given):
        """It is killed at each point, and its outcome is that of the first."""
        with self.bank(given[0]) as bank:
            asyncio.run(killed_at(bank, given[1], f"{given[0]} {given[1]} "))

    @base.each_seed(47, 1)
    def test_two_are_disturbed_in_c(self, seed):
        """One of two is killed or stopped, and the database is restarted."""
        with self.bank("c") as one, self.bank("c") as other:
            asyncio.run(disturbed([one, other], self.postgres, 9, random.Random(seed), f"c {seed} "))

    @base.each_seed(53, 1)
    def test_two_are_disturbed_in_python(self, seed):
        """The same of one in Python and one in C."""
        with self.bank("py") as one, self.bank("c") as other:
            asyncio.run(disturbed([one, other], self.postgres, 9, random.Random(seed), f"py {seed} "))

    @base.each(lambda: OF_BOTH)
    def test_what_was_taken_out_is_not_performed(self, language):
        """Whatever clock a later life has, or another bank on the same database."""
        def count(name):
            return int(self.postgres.asked(f"SELECT count(*) FROM outcome WHERE client = '{name}'"))
        with self.bank(language) as bank, self.bank(language) as other:
            asyncio.run(forgotten(bank, other, count, f"{language}-forgotten"))

    @base.each(lambda: OF_BOTH)
    def test_the_mark_moves_under_a_lock(self, language):
        """What is performed waits for who takes out, and then sees how far; who takes out waits for it."""
        name, near = f"{language}-mark", lr.now() + 1200 * 10**7
        with self.bank(language) as bank, self.postgres.session() as say, ThreadPoolExecutor(1) as pool:
            def ask(number, expiration):
                return pool.submit(asyncio.run, answer_of(bank, name, number, "deposit", 7, expiration))
            bank.begin()
            self.assertEqual(asyncio.run(balance_of(bank.port, name)), 0)
            say("BEGIN; SELECT moment FROM forgotten FOR UPDATE")
            asking = ask(1, near)
            until(lambda: self.postgres.who_wait() == 1, "it waits")
            say(f"UPDATE forgotten SET moment = decode(lpad(to_hex({near + 1}), 16, '0'), 'hex'); COMMIT")
            self.assertEqual(asking.result(), ("BAD_CONTEXT", lr.Completed.NO))
            self.assertEqual(ask(2, near + 1).result(), 7)
            bank.end()
            say("BEGIN; SELECT moment FROM forgotten FOR SHARE")
            bank.begin(late=3600, purge=1)
            until(lambda: self.postgres.who_wait() == 1, "it waits to take out")
            count = f"SELECT count(*) FROM outcome WHERE client = '{name}' AND retention = 2"
            self.assertEqual(self.postgres.asked(count), "1")
            say("COMMIT")
            until(lambda: self.postgres.asked(count) == "0", "it is taken out")

    @base.each(lambda: OF_BOTH)
    def test_what_is_stored_is_answered_first(self, language):
        def keep(name, number, status, order, body):
            self.postgres.asked(f"INSERT INTO outcome ({COLUMNS}) VALUES ('{name}', {number}, '\\xffffffffffffffff', "
                                f"{int(status)}, {int(order)}, '\\x{body.hex()}')")
        with self.bank(language) as bank:
            asyncio.run(recalled(bank, keep, f"{language}-stored"))

    @base.each(lambda: OF_BOTH)
    def test_a_database_that_is_none(self, language):
        """It can't be written, or is of another version; then it can be used."""
        for away, back, line in (
                ("ALTER DATABASE postgres SET default_transaction_read_only = on",
                 "ALTER DATABASE postgres RESET default_transaction_read_only",
                 "read-only transaction"),
                ("UPDATE forgotten SET version = 7", "UPDATE forgotten SET version = 4", "of version 7, and not 4")):
            with self.bank(language) as bank:
                name = f"{language}-{line.partition(' ')[0]}"
                bank.begin()
                self.assertEqual(asyncio.run(balance_of(bank.port, name)), 0)
                bank.end()
                self.postgres.asked(away)
                try:
                    bank.begin()
                    asyncio.run(declined(bank, name, line))
                finally:
                    self.postgres.asked(back)
                until(lambda: asyncio.run(answer_of(bank, name, 3, "deposit", 7, ENDLESS)) == 7, "it is there")

    @base.each(lambda: OF_BOTH)
    def test_a_database_that_is_away(self, language):
        """It is declined while it is away, and while it can't be written; then it is performed."""
        name = f"{language}-away"
        with self.bank(language) as bank:
            self.postgres.stop()
            try:
                bank.begin()
                asyncio.run(declined(bank, name, ""))
            finally:
                self.postgres.start()
            until(lambda: asyncio.run(answer_of(bank, name, 3, "deposit", 7, ENDLESS)) == 7, "it is there")
