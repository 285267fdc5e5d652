"""Tests what a Server of bindings/python does with a store: whatever the store says and fails at, each call acts once.

The store is a model in memory that fails where a test says so, and a SQLite file whose requests share transactions.
"""
from __future__ import annotations

import asyncio
import contextlib
import logging
import os
import pickle
import tempfile
import unittest

from tests.embed.durable import ENDLESS, located, lr
from tests.programs import NEEDS

KEY, OVERDRAWN = b"bank", "IDL:Bank/Overdrawn:1.0"
NO, MAYBE = lr.Completed.NO, lr.Completed.MAYBE


class Down(Exception):
    """The model of a store fails."""


class Model:
    """A Store in memory: accounts, outcomes by their keys, and W."""

    def __init__(self):
        self.accounts, self.outcomes, self.least = {}, {}, 0
        # what it does next: of each find None or a failure, of each commit None or one of "lost", "fails", "late"
        self.finds, self.commits = [], []
        # a commit that is to come true, and what comes between a look-up and what is written
        self.late, self.between = None, lambda: None
        self.found = 0

    @contextlib.asynccontextmanager
    async def transaction(self):
        accounts, outcomes = dict(self.accounts), dict(self.outcomes)

        def apply():
            self.accounts.update(accounts)
            self.outcomes.update(outcomes)

        yield accounts, outcomes
        deed = self.commits.pop(0) if self.commits else None
        if deed in (None, "lost"):
            apply()
        self.late = apply if deed == "late" else self.late
        if deed is not None:
            raise Down("the answer to COMMIT is lost")

    async def find(self, key):
        self.found += 1
        if self.finds and self.finds.pop(0):
            raise Down("it can't be asked")
        found = self.outcomes.get((key.client, key.retention_id))
        if found is None and key.expiration < self.least:
            raise lr.Refuse("BAD_CONTEXT")
        return found

    async def put(self, transaction, key, outcome):
        self.between()
        if self.late is not None:
            self.late()
            self.late = None
        if key.expiration < self.least:
            raise lr.Refuse("BAD_CONTEXT")
        if (key.client, key.retention_id) in self.outcomes:
            raise lr.Kept
        transaction[1][key.client, key.retention_id] = outcome

    async def purge(self, moment):
        return 0

    def is_trouble(self, error):
        return isinstance(error, Down)


class Bank:
    """Accounts in a model of a store."""

    def __init__(self, model):
        self.model, self.performed = model, 0

    async def deposit(self, account, cents):
        self.performed += 1
        async with self.model.transaction() as db:
            balance = db[0].get(account, 0) + cents
            if balance < 0:
                raise lr.UserException(OVERDRAWN, [balance - cents])
            db[0][account] = balance
            return await lr.current().store(db, balance)

    async def keep_overdrawn(self, account, cents):
        async with self.model.transaction() as db:
            db[0][account] = db[0].get(account, 0) + cents
            return await lr.current().store(db, lr.UserException(OVERDRAWN, [9]))

    def balance(self, account):
        self.performed += 1
        return self.model.accounts.get(account, 0)

    async def fail(self, account, cents):
        self.performed += 1
        async with self.model.transaction() as db:
            db[0][account] = cents
            raise {1: ZeroDivisionError, 2: lr.SystemException("NO_PERMISSION", 5), 3: lr.Refuse("NO_RESOURCES"),
                   4: Down("before anything is stored")}[cents]

    async def fail_behind(self, account, cents):
        self.performed += 1
        async with self.model.transaction() as db:
            db[0][account] = cents
            await lr.current().store(db, cents)
            if cents == 1:
                raise ZeroDivisionError
        raise ZeroDivisionError

    def wrong(self, account):
        self.performed += 1
        return "no number"

    async def slow(self, account):
        async with self.model.transaction() as db:
            kept = await lr.current().store(db, 5)
        await asyncio.sleep(60)
        return kept


class OverAModel(unittest.IsolatedAsyncioTestCase):
    """Over a model of a store."""

    async def asyncSetUp(self):
        logging.disable(logging.CRITICAL)
        self.addCleanup(logging.disable, logging.NOTSET)
        self.model = Model()
        self.bank = Bank(self.model)
        self.server = lr.Server(store=self.model)
        both, one = ("sq", "q"), ("s", "q")
        raises = {"deposit": {OVERDRAWN: "q"}, "keep_overdrawn": {OVERDRAWN: "q"}}
        self.server.add(KEY, "IDL:Bank:1.0", {
            "deposit": both, "keep_overdrawn": both, "balance": one, "fail": both, "fail_behind": both, "wrong": one,
            "raw": self.raw}, raises, self.bank)
        self.server.add(b"slow", "IDL:Bank:1.0", {"slow": one}, servant=self.bank, timeout=0.05)
        self.port = await self.server.listen()
        self.addAsyncCleanup(self.server.close)

    def raw(self, body):
        self.bank.performed += 1
        return lr.RawReply(body.octets[::-1], lr.LITTLE)

    async def ask(self, number, operation, *values, key=KEY, expiration=ENDLESS, client_id="client"):
        """What a call is answered, once."""
        client = lr.Client("127.0.0.1", self.port, client_id,
                           keep_transient=False)
        arguments = "sq"[: len(values)]
        try:
            return await client.recall(number, key, operation, arguments, values, "q", {OVERDRAWN: "q"},
                                       expiration=expiration)
        except lr.UserException as error:
            return error.id, error.values
        except lr.SystemException as error:
            return error.name, error.minor, error.completed
        finally:
            await client.close()

    async def answers(self, want, number, operation, *values, performed=None, **others):
        """A call and its repeat are answered so, and so often performed."""
        for _ in range(2):
            self.assertEqual(await self.ask(number, operation, *values, **others), want)
        if performed is not None:
            self.assertEqual(self.bank.performed, performed)

    async def test_the_answer_to_commit_is_lost(self):
        """It is committed or not, the store says so soon or late."""
        for commits, finds, performed in ((["lost"], [], 1), (["fails"], [], 2), (["fails", "fails", "lost"], [], 3),
                                          (["lost"], [None, 1, 1, 1], 1), (["fails", "lost"], [None, 1, None, 1], 2),
                                          (["late"], [], 2), (["late", "fails"], [None, None, 1], 2)):
            with self.subTest((commits, finds)):
                self.model.accounts.clear()
                self.model.commits, self.model.finds, self.bank.performed = list(commits), list(finds), 0
                number = len(self.model.outcomes) + 1
                await self.answers(7, number, "deposit", "a", 7, performed=performed)
                self.assertEqual(self.model.accounts, {"a": 7})

    async def test_it_is_never_committed(self):
        """Then it is not known whether it will be, and its repeat is performed."""
        self.model.commits = ["fails"] * 5
        self.assertEqual(await self.ask(1, "deposit", "a", 7), ("TRANSIENT", 0, MAYBE))
        await self.answers(7, 1, "deposit", "a", 7)
        self.assertEqual(self.model.accounts, {"a": 7})

    async def test_in_doubt_it_never_says_no(self):
        """The servant can't go on when it is performed again, while the first commit may come true, and does."""
        for number, raised, want in ((1, Down(), "TRANSIENT"), (2, lr.Refuse("NO_RESOURCES"), "NO_RESOURCES")):
            key, account = b"%d" % number, f"{number}"

            async def refuse(account, cents):
                self.bank.performed += 1
                if self.bank.performed == 1:
                    return await self.bank.deposit(account, cents)
                raise raised
            with self.subTest(want):
                self.bank.performed, self.model.commits = 0, ["late"]
                self.server.add(key, (), {"deposit": ("sq", "q", refuse)})
                self.assertEqual(await self.ask(number, "deposit", account, 7, key=key), (want, 0, MAYBE))
                self.model.late()
                self.model.late = None
                await self.answers(7, number, "deposit", account, 7)

    async def test_in_doubt_and_forgotten_by_then(self):
        """What was committed is taken out before the store is asked for it: it may have acted, and that is not kept."""
        find, far = self.model.find, 1 << 62

        async def forget(key):
            if self.model.accounts:
                self.model.outcomes.clear()
                self.model.least = far
            return await find(key)

        self.model.find = forget
        ways = ("deposit", ["lost"], 7), ("deposit", ["fails", "lost"], 7), ("fail_behind", [], 2)
        for number, (operation, commits, cents) in enumerate(ways, 1):
            with self.subTest((operation, commits)):
                self.model.commits, self.model.least = list(commits), 0
                self.model.accounts.clear()
                self.assertEqual(await self.ask(number, operation, "a", cents, expiration=far - 1),
                                 ("BAD_CONTEXT", 0, MAYBE))
                self.assertEqual((self.model.accounts, self.model.outcomes), ({"a": cents}, {}))
                # (a repeat has not acted itself)
                self.assertEqual(await self.ask(number, operation, "a", cents, expiration=far - 1),
                                 ("BAD_CONTEXT", 0, NO))

    async def test_forgotten_before_it_is_kept(self):
        """What was performed, and is kept behind it, may have acted, also in an attempt before."""
        far = 1 << 62
        self.model.between = lambda: setattr(self.model, "least", far)
        self.assertEqual(await self.ask(1, "balance", "a", expiration=far - 1), ("BAD_CONTEXT", 0, MAYBE))
        self.assertEqual((self.model.outcomes, self.bank.performed), ({}, 1))

    async def test_another_process_was_quicker(self):
        """What was done meanwhile is undone, and its outcome answered."""
        outcome = lr.Outcome(lr.ReplyStatus.NO_EXCEPTION, lr.LITTLE, (55).to_bytes(8, "little"))
        self.model.between = lambda: self.model.outcomes.setdefault((b"client", 1), outcome)
        await self.answers(55, 1, "deposit", "a", 7, performed=1)
        self.assertEqual(self.model.accounts, {})

    async def test_a_servant_that_goes_on(self):
        """It hides that the store refused it: what the store has is answered all the same."""
        async def hide(account):
            async with self.model.transaction() as db:
                with contextlib.suppress(lr.Kept):
                    await lr.current().store(db, 1)
            return 2

        outcome = lr.Outcome(lr.ReplyStatus.NO_EXCEPTION, lr.BIG, (55).to_bytes(8, "big"))
        self.model.between = lambda: self.model.outcomes.setdefault((b"client", 1), outcome)
        self.server.add(b"hides", (), {"hide": ("s", "q", hide)})
        self.model.commits = ["fails"]
        await self.answers(55, 1, "hide", "a", key=b"hides")
        self.model.outcomes.clear()
        await self.answers(55, 1, "hide", "a", key=b"hides")

    async def test_more_than_may_be_parked(self):
        """Whether the store has them is not known then; and no capacity stands in their way."""
        async with lr.Server(capacity=1, share=1, max_parked=2, store=self.model) as server:
            some = asyncio.Event()

            async def wait(account):
                await some.wait()
                return 5

            server.add(KEY, (), {"wait": ("s", "q", wait)})
            self.port = await server.listen()
            asking = [asyncio.ensure_future(self.ask(1, "wait", "a", client_id=f"{number}")) for number in range(2)]
            while server.stats()["under_way"] < 2:
                await asyncio.sleep(0)
            self.assertEqual(await self.ask(1, "wait", "a", client_id="more"), ("TRANSIENT", 0, MAYBE))
            some.set()
            self.assertEqual(await asyncio.gather(*asking), [5, 5])

    async def test_what_was_forgotten(self):
        """It is refused, also where that shows only when it is performed."""
        far = 1 << 62
        self.model.least = far
        await self.answers(("BAD_CONTEXT", 0, NO), 1, "deposit", "a", 7, expiration=far - 1, performed=0)
        await self.answers(7, 2, "deposit", "a", 7, expiration=far, performed=1)
        self.model.least, self.model.between = 0, lambda: setattr(self.model, "least", far)
        self.assertEqual(await self.ask(3, "deposit", "a", 7, expiration=far - 1), ("BAD_CONTEXT", 0, NO))
        self.assertEqual(self.model.accounts, {"a": 7})

    async def test_a_store_that_fails(self):
        """Where it can't be asked nothing is performed, nor known; where it fails before that, nothing was done."""
        self.model.finds = [1]
        self.assertEqual(await self.ask(1, "deposit", "a", 7), ("TRANSIENT", 0, MAYBE))
        self.assertEqual(await self.ask(2, "fail", "a", 4), ("TRANSIENT", 0, NO))
        self.assertEqual(self.bank.performed, 1)
        self.assertEqual((self.model.outcomes, self.model.accounts), ({}, {}))
        await self.answers(7, 1, "deposit", "a", 7)

    async def test_exceptions(self):
        """One that is raised undoes what was done, and is kept; one that is stored does not undo it."""
        await self.answers((OVERDRAWN, (0,)), 1, "deposit", "a", -7, performed=1)
        await self.answers((OVERDRAWN, (9,)), 2, "keep_overdrawn", "b", 4)
        await self.answers(("UNKNOWN", 0, MAYBE), 3, "fail", "c", 1, performed=2)
        await self.answers(("NO_PERMISSION", 5, NO), 4, "fail", "c", 2, performed=3)
        await self.answers(("NO_RESOURCES", 0, NO), 5, "fail", "c", 3, performed=5)
        self.assertEqual(self.model.accounts, {"b": 4})
        self.assertEqual(sorted(number for _, number in self.model.outcomes), [1, 2, 3, 4])

    async def test_exceptions_behind_what_was_stored(self):
        """In the transaction they undo it, and are the outcome; behind it what was committed is."""
        await self.answers(("UNKNOWN", 0, MAYBE), 1, "fail_behind", "a", 1, performed=1)
        self.assertEqual(self.model.accounts, {})
        await self.answers(2, 2, "fail_behind", "a", 2, performed=2)
        self.assertEqual(self.model.accounts, {"a": 2})

    async def test_what_servants_do_not_store(self):
        """It is kept behind them, also where that fails first."""
        await self.answers(0, 1, "balance", "a", performed=1)
        self.model.commits = ["lost"]
        await self.answers(0, 2, "balance", "a", performed=2)
        self.model.commits = ["fails", "late"]
        await self.answers(0, 3, "balance", "a", performed=3)
        await self.answers(("INTERNAL", 0, MAYBE), 4, "wrong", "a", performed=4)
        for operation in ("raw", "gone"):
            client = lr.Client("127.0.0.1", self.port, "client")
            body = await client.call_raw(KEY, operation, b"\1\2\3", number=5)
            self.assertEqual((body.octets, body.order), (b"\3\2\1", lr.LITTLE))
            await client.close()
        self.assertEqual(self.bank.performed, 5)

    async def test_without_a_key(self):
        """Nothing is written of it, and it acts each time."""
        reader, writer = await asyncio.open_connection("127.0.0.1", self.port)
        for number, want in ((1, 7), (2, 14)):
            writer.write(lr.write_request(number, KEY, "deposit", lr.pack("sq", "a", 7)))
            stream, found = lr.Assembler(), []
            while not found:
                found = stream.feed(await reader.read(4096))
            self.assertEqual(found[0].body.unpack("q"), (want,))
        writer.close()
        self.assertEqual((self.model.accounts, self.model.outcomes), ({"a": 14}, {}))

    async def test_what_is_on_offer_changes(self):
        """What the store has is answered before what is no more is refused."""
        await self.answers(7, 1, "deposit", "a", 7, performed=1)
        self.server.remove(KEY)
        await self.answers(7, 1, "deposit", "a", 7)
        await self.answers(("OBJECT_NOT_EXIST", 0, NO), 2, "deposit", "a", 7, performed=1)
        self.server.add_family(b"ba", "IDL:Bank:1.0", {"balance": ("s", "q")}, servant=self.bank)
        await self.answers(7, 2, "balance", "a", performed=2)
        await self.answers(("BAD_OPERATION", 0, NO), 3, "deposit", "a", 7)
        self.server.remove_family(b"ba")
        self.server.add_default(lambda body: b"\0" * 7 + b"\5")
        await self.answers(5, 3, "deposit", "a", 7)
        await self.server.close()
        with self.assertRaises(lr.LemonrudderError):
            self.server.add(b"more", (), {}, servant=self.bank)

    async def test_an_object_is_taken_away_while_it_is_called(self):
        """What is under way is stored and answered by the types that it had."""
        go = asyncio.Event()

        async def later(account, cents):
            await go.wait()
            if cents == 0:
                raise lr.UserException(OVERDRAWN, [5])
            return cents if cents == 1 else await self.bank.deposit(account, cents)

        self.server.add(b"later", (), {"deposit": ("sq", "q", later)}, {"deposit": {OVERDRAWN: "q"}})
        wanted = {0: (OVERDRAWN, (5,)), 1: 1, 7: 7}
        calls = {cents: asyncio.ensure_future(self.ask(cents + 1, "deposit", "a", cents, key=b"later"))
                 for cents in wanted}
        while self.server.stats()["under_way"] < len(wanted):
            await asyncio.sleep(0)
        self.server.remove(b"later")
        await self.answers(("OBJECT_NOT_EXIST", 0, NO), 99, "deposit", "a", 1, key=b"later")
        go.set()
        for cents, answer in wanted.items():
            self.assertEqual(await calls[cents], answer)
            await self.answers(answer, cents + 1, "deposit", "a", cents, key=b"later")
        self.assertEqual((self.model.accounts, self.bank.performed), ({"a": 7}, 1))

    async def test_more_elements_than_may_be(self):
        """What the store has is answered before such a request is refused."""
        async with lr.Server(store=self.model, max_elements=3) as server:
            server.add(KEY, (), {"deposit": ("sq[s]", "q", lambda account, cents, why: cents)})
            port = await server.listen()

            async def ask(count):
                async with lr.Client("127.0.0.1", port, "client", keep_transient=False) as client:
                    try:
                        return await client.recall(1, KEY, "deposit", "sq[s]", ("a", 7, ["x"] * count), "q",
                                                   expiration=ENDLESS)
                    except lr.SystemException as error:
                        return error.name, error.completed
            self.assertEqual([await ask(4), await ask(3), await ask(4)], [("MARSHAL", NO), 7, 7])

    async def test_locates(self):
        """They are answered by what is on offer, also where that changes."""
        async def say(want, key=KEY):
            asked = asyncio.get_running_loop().run_in_executor(None, located, self.port, key)
            self.assertEqual(await asked, want)
        await say(lr.LocateStatus.OBJECT_HERE)
        await say(lr.LocateStatus.UNKNOWN_OBJECT, b"none")
        self.server.remove(KEY)
        await say(lr.LocateStatus.UNKNOWN_OBJECT)
        self.server.add_default(lambda body: b"")
        await say(lr.LocateStatus.OBJECT_HERE, b"none")

    async def test_it_takes_too_long(self):
        """Then nothing is kept but what it stored."""
        self.assertEqual(await self.ask(1, "slow", "a", key=b"slow"), ("TIMEOUT", 0, MAYBE))
        await self.answers(5, 1, "slow", "a", key=b"slow")

    async def test_there_is_no_store(self):
        """A servant that stores then fails."""
        async with lr.Server() as server:
            async def store(account):
                return await lr.current().store(None, 5)
            server.add(KEY, (), {"store": ("s", "q", store)})
            client = lr.Client("127.0.0.1", await server.listen())
            with self.assertRaises(lr.SystemException):
                await client.call(KEY, "store", "s", ("a",), "q")
            await client.close()


class InMemory(unittest.IsolatedAsyncioTestCase):
    """In memory, handed over from one store to the next."""

    async def put(self, store, number, expiration=ENDLESS, **changes):
        async with store.transaction() as state:
            state.update(changes)
            await store.put(state, lr.FtRequest(b"c", number, expiration), lr.Outcome(0, 1, bytes([number])))

    async def test_what_is_undone_has_not_been(self):
        """Nor is it seen before it is committed; what is taken out of the state is gone."""
        store = lr.MemoryStore()
        await self.put(store, 1, a=1, b=2)
        with self.assertRaises(lr.Kept):
            await self.put(store, 1, a=9, c=9)
        self.assertEqual(store.state, {"a": 1, "b": 2})
        async with store.transaction() as state:
            del state["a"]
            state["d"] = 4
            self.assertEqual((dict(state), len(state), "a" in state), ({"b": 2, "d": 4}, 2, False))
            with self.assertRaises(KeyError):
                del state["a"]
            self.assertEqual(store.state, {"a": 1, "b": 2})
        self.assertEqual(store.state, {"b": 2, "d": 4})

    async def test_handed_over(self):
        """State, outcomes and W are there; who handed them over does nothing any more."""
        store = lr.MemoryStore()
        for number, expiration in ((1, 10), (2, 20), (3, ENDLESS)):
            await self.put(store, number, expiration, a=number)
        self.assertEqual(await store.purge(11), 1)
        async with store.transaction():
            with self.assertRaises(lr.StoreError):
                store.hand_over()
        other = lr.MemoryStore.taken_over(store.hand_over())
        self.assertEqual(other.state, {"a": 3})
        self.assertEqual(await other.find(lr.FtRequest(b"c", 2, 20)), lr.Outcome(0, 1, b"\2"))
        self.assertIsNone(await other.find(lr.FtRequest(b"c", 4, 11)))
        for expiration in (9, 10):
            with self.assertRaises(lr.Refuse):
                await other.find(lr.FtRequest(b"c", 1, expiration))
            with self.assertRaises(lr.Refuse):
                await self.put(other, 1, expiration, a=9)
        for used in (self.put(store, 5), store.find(lr.FtRequest(b"c", 2, 20)), store.purge(99)):
            with self.assertRaises(lr.StoreError):
                await used

    def test_what_is_no_store(self):
        """It can't be read, or is of another version."""
        for octets in (b"", b"none", lr.MemoryStore().hand_over()[:-4], pickle.dumps((7, {}, [], 0)), pickle.dumps(5)):
            with self.subTest(octets=octets), self.assertRaises(lr.StoreError):
                lr.MemoryStore.taken_over(octets)


class OverSqlite(unittest.IsolatedAsyncioTestCase):
    """Over a SQLite file: transactions that several requests share."""

    async def asyncSetUp(self):
        folder = tempfile.TemporaryDirectory()
        self.addCleanup(folder.cleanup)
        try:
            self.store = lr.SqliteStore(os.path.join(folder.name, "some.db"),
                                        "CREATE TABLE IF NOT EXISTS word (word TEXT PRIMARY KEY);")
        except lr.StoreError as why:
            raise unittest.SkipTest(f"{NEEDS}the module sqlite3") from why
        self.addAsyncCleanup(self.store.close)
        await self.store.open()
        self.said = []
        self.store._writer.set_trace_callback(self.said.append)

    async def put(self, word, fails=False):
        async with self.store.transaction() as db:
            db.execute("INSERT INTO word VALUES (?)", (word,))
            await asyncio.sleep(0)
            if fails:
                raise ZeroDivisionError

    def words(self):
        return sorted(word for word, in self.store._reader.execute("SELECT word FROM word").fetchall())

    async def test_several_are_one_transaction(self):
        """Each is undone alone, and those that wait together are committed by one COMMIT."""
        puts = [self.put(f"{number:02}", number % 5 == 0) for number in range(40)]
        ended = await asyncio.gather(*puts, return_exceptions=True)
        self.assertEqual([index for index, one in enumerate(ended) if one is not None], list(range(0, 40, 5)))
        self.assertEqual(self.words(), [f"{number:02}" for number in range(40) if number % 5])
        self.assertEqual(self.said.count("COMMIT"), 1)

    async def test_nothing_is_said_before_it_is_committed(self):
        """Who is done waits for those beside it."""
        first = asyncio.ensure_future(self.put("first"))
        others = [asyncio.ensure_future(self.put(str(number))) for number in range(5)]
        while "COMMIT" not in self.said:
            self.assertFalse(first.done())
            await asyncio.sleep(0)
        await asyncio.gather(first, *others)

    async def test_a_transaction_is_undone_by_all(self):
        """Where the database undoes it amid a request, all others fail with it, and the next goes on."""
        async def spoil():
            async with self.store.transaction() as db:
                db.execute("ROLLBACK")
                raise ZeroDivisionError
        ended = await asyncio.gather(self.put("a"), spoil(), self.put("b"), return_exceptions=True)
        self.assertTrue(all(isinstance(one, Exception) for one in ended), ended)
        self.assertTrue(self.store.is_trouble(ended[0]) and self.store.is_trouble(ended[2]), ended)
        await self.put("c")
        self.assertEqual(self.words(), ["c"])

    async def test_one_is_cancelled(self):
        """It is undone where it waits or is under way; the others go on."""
        some = [asyncio.ensure_future(self.put(str(number))) for number in range(6)]
        await asyncio.sleep(0)
        for one in (some[0], some[3]):
            one.cancel()
        await asyncio.gather(*some, return_exceptions=True)
        self.assertEqual(self.words(), ["1", "2", "4", "5"])

    async def test_a_purge_moves_the_mark(self):
        """To the greatest expiration that was taken out, plus 1."""
        outcome = lr.Outcome(0, 0, b"x")
        for number, expiration in enumerate((10, 5, 7, ENDLESS)):
            async with self.store.transaction() as db:
                await self.store.put(db, lr.FtRequest(b"c", number, expiration), outcome)
        self.assertEqual([await self.store.purge(moment) for moment in (5, 8, 8)], [0, 2, 0])
        for expiration, is_refused in ((7, True), (8, False)):
            key = lr.FtRequest(b"c", 9, expiration)
            for put in (False, True):
                with self.assertRaises(lr.Refuse) if is_refused else contextlib.nullcontext():
                    if put:
                        async with self.store.transaction() as db:
                            await self.store.put(db, key, outcome)
                    else:
                        self.assertIsNone(await self.store.find(key))
        self.assertEqual(await self.store.find(lr.FtRequest(b"c", 0, 1)), outcome)
        with self.assertRaises(lr.Kept):
            async with self.store.transaction() as db:
                await self.store.put(db, lr.FtRequest(b"c", 3, ENDLESS), outcome)
        # (one that was put is seen once it is committed)
        async with self.store.transaction() as db:
            await self.store.put(db, lr.FtRequest(b"d", 1, ENDLESS), outcome)
            self.assertIsNone(await self.store.find(lr.FtRequest(b"d", 1, ENDLESS)))
        self.assertEqual(await self.store.find(lr.FtRequest(b"d", 1, ENDLESS)), outcome)
