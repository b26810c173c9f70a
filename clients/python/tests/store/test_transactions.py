#!/usr/bin/env python3
"""Transactional functions: their effects stand once, with the finish, or not at all; what they put and do to the
connection.

    CF_LIBRARY=/path/to/libcf.so python3 clients/python/tests/store/test_transactions.py [-v] [TEST ..]
"""
import contextlib
import sqlite3
import threading
import time
import unittest
import unittest.mock

from case import Case, STORES
import shared_functions as f
from cf.service import Flow
from cf.service.words import ATTACH, CLAIM, FINISH
from cf.store import leader as leading
from cf.store import connect, DurableService, Functions, Memory, Put, sqlite as shared_sqlite, StoreError, Unknown


class Effects(Memory):
    """Has transactions in memory: what a function adds to its list is an effect once that is committed. Others can
    put meanwhile."""

    is_transactional = True

    def __init__(self):
        super().__init__()
        self.effects = []

    @contextlib.contextmanager
    def transaction(self):
        paid_store, put, done = self, [], []

        class Open:
            connection = done
            is_away = staticmethod(lambda: False)

            @staticmethod
            def append(its):
                put.append(its)
                return len(paid_store.read(its.request)) == its.at

            @staticmethod
            def commit():
                paid_store.append(put[0])
                paid_store.effects.extend(done)

        yield Open


class Transactions(Case):
    def impatient(self):
        """A thread that waits for itself is told so before the test gives up."""
        for of, name in ((shared_sqlite, "LONGEST_WAIT"), (leading, "PATIENCE")):
            patch = unittest.mock.patch.object(of, name, 5)
            patch.start()
            self.addCleanup(patch.stop)

    def transactional(self):
        """Each transactional store, with and without one writer, by its address."""
        for address in [self.address, *STORES]:
            for groups in (False, True) if not address.startswith("etcd") else ():
                with self.subTest(address, groups=groups):
                    yield self.service(address, groups=groups), f"{self.name} {groups}", address

    def test_what_follows_a_transaction(self):
        """A stage behind a transactional function, and a callback that puts: both come once its transaction has
        ended."""
        for paying, name, address in self.transactional():
            same = paying.function(name, transactional=True)(lambda connection, x: x)
            flow = Flow("order")
            first = flow.promise()
            paid = first.then(same)
            last = paid.then(f.inc)
            transacting, heard = paying.start(flow, name=name), []
            transacting[paid].add_done_callback(lambda _: heard.append(paying.request(f"{name} mail").promise("sent").number))
            transacting[first].complete(1)
            self.assertEqual(transacting[last].result(20), 2)
            self.until(lambda: heard)
            self.assertEqual(self.service(address).request(f"{name} else").supply(f.inc, 1).result(20), 2)

    def test_two_of_a_request_and_one_transacts(self):
        """Another thread puts to the request while its transactional function runs: neither waits for the other's
        lock."""
        self.impatient()
        for paying, name, _ in self.transactional():
            begun, transacting = threading.Event(), paying.request(name)

            def slow(connection, x):
                begun.set()
                time.sleep(0.3)
                return x

            slow = paying.function(name, transactional=True)(slow)
            paid_stage, other, gate = transacting.promise(), transacting.promise(), transacting.promise()
            behind = paid_stage.then(slow)
            paid_stage.complete(1)
            self.assertTrue(begun.wait(20))
            told = []
            threads = [threading.Thread(target=lambda it=it: told.append(it.complete(2)), daemon=True) for it in (other, gate)]
            for thread in threads:
                thread.start()
            for thread in threads:
                thread.join(60)
            self.assertEqual((told, behind.result(20)), ([True, True], 1))
            self.assertEqual(other.then(f.inc).result(20), 3)

    def test_a_transactional_function_that_puts(self):
        """To its own request, to another, or by another service on the file: that would wait for itself, and fails
        at once."""
        self.impatient()
        for groups in (False, True):
            with self.subTest(groups=groups):
                paying, other = self.service(groups=groups), self.service()
                transacting = paying.request(self.name)
                puts = [
                    lambda: transacting.promise(),
                    lambda: paying.request(f"{self.name} another").promise(),
                    lambda: other.request(self.name).promise(),
                ]
                puts = puts + [paying.request("there").promise] if groups else puts
                function = paying.function(f"puts {groups}", transactional=True)(lambda connection, k: puts[k]().number)
                for k in range(len(puts)):
                    error = transacting.supply(function, k).exception(20)
                    self.assertIn("transactional function", str(error))
                self.assertEqual(transacting.supply(f.inc, 1).result(20), 2)

    def test_what_a_transactional_function_does_to_its_connection(self):
        """Whatever it is, its stage ends with an error and others can put. A function that ends its transaction would
        have a finish without its effect, also if it begins another one."""
        acts = [
            lambda db: db.close(),
            lambda db: db.execute("no statement"),
            lambda db: db.execute("rollback"),
            lambda db: [db.execute("rollback"), db.execute("begin")],
        ]
        for address in [self.address, *[it for it in STORES if it.startswith("postgres")]]:
            with self.subTest(address=address):
                paying = self.service(address)
                transacting = paying.request(self.name)
                act = paying.function(f"acts {address}", transactional=True)(lambda db, k: acts[k](db) and None)
                for k in range(len(acts)):
                    error = transacting.supply(act, k).exception(20)
                    self.assertIsNotNone(error)
                    self.assertIn("has ended its transaction" if k > 1 else "", str(error))
                self.assertEqual(self.service(address).request(f"{self.name} 2").supply(f.inc, 1).result(20), 2)

    def test_a_function_that_any_store_can_call(self):
        """It has a connection that does statements with `?` for values, and gives their rows, whatever the engine."""
        for paying, name, address in self.transactional():
            table = f"paid_{abs(hash(name + address))}"

            def pay(connection, account, table=table):
                connection.execute(f"create table {table} (account text, cents text)")
                connection.execute(f"insert into {table} values (?, ?)", (account, "100"))
                connection.executemany(f"insert into {table} values (?, '100%?')", [("b",), ("c",)])
                cursor = connection.cursor()
                cursor.execute(f"select count(*) from {table}")
                rows = connection.execute(f"select account from {table} where account <> ? order by account", ("b",))
                connection.execute(f"delete from {table} where account like 'b%'")
                told = [cursor.fetchone()[0], rows.fetchall(), list(connection.execute(f"select * from {table}"))]
                connection.execute(f"drop table {table}")
                return told

            pay = paying.function(name, transactional=True)(pay)
            with unittest.mock.patch.object(paying.codec, "write", lambda value: repr(value).encode()), unittest.mock.patch.object(
                paying.codec, "read", lambda given: given.decode()
            ):
                told = paying.request(name).supply(pay, "a").result(20)
            self.assertEqual(told, "[3, [('a',), ('c',)], [('a', '100'), ('c', '100%?')]]")

    def test_what_stands_for_values_in_postgresql(self):
        """`?`, where there are as many as values, or psycopg2's own; a statement without values is as it is."""
        for address in [it for it in STORES if it.startswith("postgres")]:
            store = connect(address)
            with store.transaction() as transaction:
                db = transaction.connection
                for statement, values, wanted in (
                    ('select ?, \'?%\', "?".x from (values (2)) as "?"(x) where 7 % 4 = ?', (1, 3), (1, "?%", 2)),
                    ("select %s::int, '%%'", (1,), (1, "%")),
                    ("select %(a)s::int, '?'", {"a": 1}, (1, "?")),
                    ("select '?%'", None, ("?%",)),
                    ("select '{\"a\": 1}'::jsonb ? %s", ("a",), (True,)),
                ):
                    self.assertEqual(db.execute(statement, values).fetchone(), wanted)
                db.execute("select 1")
                self.assertEqual((db.fetchone(), db.rowcount), ((1,), 1))  # (as psycopg2's cursor, too)
            store.close()

    def test_no_effect_is_for_nothing(self):
        """Where the stage was settled by others, before its transactional function is called or while it runs, no
        effect stands."""
        for meanwhile in (False, True):
            with self.subTest(meanwhile=meanwhile):
                paid_store, functions, called = Effects(), Functions(), []
                other, real = DurableService(paid_store, 0), paid_store.transaction

                def settle():
                    if not called or meanwhile:
                        other.open("r")[0].fail(KeyError("somebody else's"))

                @contextlib.contextmanager
                def transaction():
                    if not meanwhile:
                        settle()
                    with real() as made:
                        yield made

                def pay(connection):
                    called.append(1)
                    connection.append("paid")
                    if meanwhile:
                        settle()
                    assert len(called) < 5

                paid_store.transaction = transaction
                paying = DurableService(paid_store, 1, functions=functions)
                pay = paying.function("pay", transactional=True)(pay)
                transacting = paying.request("r")
                self.assertIsInstance(transacting.supply(pay).exception(20), KeyError)
                self.until(lambda: not transacting._row().claims())
                self.assertEqual((paid_store.effects, len(called)), ([], int(meanwhile)))
                paying.shutdown(), other.shutdown()

    def test_a_place_that_a_transaction_loses(self):
        """Its effect is undone and done again, and stands once."""
        paid_store, functions, called = Effects(), Functions(), []
        other = DurableService(paid_store, 0)

        def pay(connection):
            called.append(1)
            connection.append("paid")
            if len(called) == 1:
                other.open("r").promise()

        paying = DurableService(paid_store, 1, functions=functions)
        pay = paying.function("pay", transactional=True)(pay)
        transacting = paying.request("r")
        self.assertIsNone(transacting.supply(pay).result(20))
        self.assertEqual((paid_store.effects, len(called)), (["paid"], 2))
        paying.shutdown(), other.shutdown()

    def test_a_place_that_a_transaction_loses_in_postgresql(self):
        """As above: another service puts to the request just before the transaction does."""
        for address in [it for it in STORES if it.startswith("postgres")]:
            from cf.store import postgres

            paying, other, called, real = self.service(address), self.service(address), [], postgres._Transaction.append

            def append(transaction, put, called=called, other=other, real=real):
                if len(called) == 1:
                    other.open(self.name).promise()
                return real(transaction, put)

            with paying.store.transaction() as transaction:
                transaction.connection.execute("create table if not exists lost (name text)")
                transaction._db.commit()

            def pay(connection, called=called):
                called.append(1)
                connection.execute("insert into lost values (?)", (self.name,))

            pay = paying.function(self.name, transactional=True)(pay)
            with unittest.mock.patch.object(postgres._Transaction, "append", append):
                self.assertIsNone(paying.request(self.name).supply(pay).result(20))
            rows = paying.store._ask("select count(*) from lost where name = %(name)s", name=self.name)
            self.assertEqual((rows, len(called)), ([(1,)], 2))

    def test_a_transaction_that_cant_be_begun_is_begun_again_after_a_while(self):
        functions, refused = Functions(), [StoreError("it can only be read")] * 2
        function = functions.function("f", transactional=True)(lambda connection: 7)
        service = DurableService(connect(self.address), 1, functions=functions)
        self.services.append(service)
        real = service.store.transaction

        def transaction():
            if refused:
                raise refused.pop()
            return real()

        with unittest.mock.patch.object(service.store, "transaction", transaction), self.assertLogs("cf.store", "WARNING") as logs:
            self.assertEqual(service.request("r").supply(function).result(20), 7)
        self.assertEqual(refused, [])
        self.assertIn("'r'", logs.records[0].getMessage())
        self.assertIn("it can only be read", logs.records[0].getMessage())


class KilledTransactions(Case):
    lease = 2

    def test_in_the_engines_transaction(self):
        """A worker dies between the effect and the finish: the effect is undone, and the next try does it, once."""
        paying, path = self.service(workers=0), f"{self.folder.name}/db"
        db = sqlite3.connect(path, isolation_level=None)
        db.execute("create table paid (account text)")
        worker = self.worker()
        transacting = paying.request("r")
        paid_stage = transacting.supply(f.pay, "anna", 1.0).again()
        # while the transaction has the file nobody beats, but who reads isn't kept waiting
        paid_store = connect(self.address)
        self.until(lambda: any(word >> 56 == CLAIM for word, _ in paid_store.read("r")))
        time.sleep(0.5)
        paid_store.close()
        worker.kill()
        worker.wait()
        self.worker()
        self.assertEqual(paid_stage.result(30), "anna")
        self.assertEqual(db.execute("select account from paid").fetchall(), [("anna",)])
        db.close()

    def test_a_commit_whose_reply_is_lost(self):
        """The connection drops around the commit: the effect stands exactly once, whether it had landed or not."""
        from cf.store import sqlite as store_of

        path, real = f"{self.folder.name}/db", store_of._Transaction.commit
        db = sqlite3.connect(path, isolation_level=None)
        db.execute("create table paid (account text)")
        try:
            for lands in (True, False):
                left = [2]

                def commit(transaction, lands=lands, left=left):
                    left[0] -= 1
                    if left[0] < 0 or lands:
                        real(transaction)
                    if left[0] >= 0:
                        raise Unknown("cut")

                store_of._Transaction.commit = commit
                name = f"lands {lands}"
                with self.assertLogs("cf.store", "WARNING") as logged:
                    paying = self.service()
                    self.assertEqual(paying.request(name).supply(f.pay, name).result(30), name)
                    end = time.monotonic() + 30  # the stage may be told before the worker has said what was cut
                    while not logged.records and time.monotonic() < end:
                        time.sleep(0.01)
                self.assertEqual([word >> 56 for word, _ in paying.store.read(name)], [ATTACH, CLAIM, FINISH])
        finally:
            store_of._Transaction.commit = real
        self.assertEqual(sorted(db.execute("select account from paid").fetchall()), [("lands False",), ("lands True",)])
        db.close()

    def test_who_connects_while_a_transaction_is_open(self):
        """Nobody waits for that in PostgreSQL, where tables and indexes are there."""
        for address in [it for it in STORES if it.startswith("postgres")]:
            store, took = connect(address), []
            store.open(self.name, "{}"), store.open(self.name + "2", "{}")

            def connects(address=address, took=took):
                other = connect(address)
                other.append(Put(self.name + "2", 0, [(1, 11)], {}))
                other.close()
                took.append(time.monotonic())

            with store.transaction() as transaction:
                self.assertTrue(transaction.append(Put(self.name, 0, [(1, 11)], {})))
                threading.Thread(target=connects, daemon=True).start()
                self.until(lambda took=took: took)
            store.close()


if __name__ == "__main__":
    unittest.main()
