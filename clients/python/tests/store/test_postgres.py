#!/usr/bin/env python3
"""The store in PostgreSQL alone, without a server: what one says, and notices that can't be sent.

    CF_LIBRARY=/path/to/libcf.so python3 clients/python/tests/store/test_postgres.py [-v] [TEST ..]
"""
import contextlib
import importlib.util
import sys
import threading
import unittest
import unittest.mock

from case import Case
from cf.store import StoreError, Unknown


class PostgreSQL(Case):
    def module(self):
        """The module, also where there is no psycopg2."""
        absent = {it: unittest.mock.MagicMock() for it in ("psycopg2", "psycopg2.errors")}
        is_absent = importlib.util.find_spec("psycopg2") is None
        with unittest.mock.patch.dict(sys.modules, absent) if is_absent else contextlib.nullcontext():
            from cf.store import postgres
        return postgres

    @unittest.skipIf(importlib.util.find_spec("psycopg2") is None, "no psycopg2")
    def test_what_a_server_of_postgresql_says(self):
        """What it can't do now is away, as is what nobody knows of; what it refuses for good is told as such."""
        postgres = self.module()
        away = ["08006", "25006", "26000", "40001", "40P01", "53100", "53300", "55P03", "57014", "57P01", "57P03", "58030"]
        for code in [*away, "22001", "23505", "23514", "25P02", "42501", "54000", "54001", "P0001", "XX001"]:
            with self.subTest(code), self.assertRaises(Unknown if code in away else StoreError), postgres.Postgres._telling(None):
                raise type("Error", (postgres.psycopg2.Error,), {"pgcode": code})("why")
        for name in ["OperationalError", "InterfaceError", "DatabaseError", "DataError", "ProgrammingError"]:
            kind = StoreError if name in ("DataError", "ProgrammingError") else Unknown
            with self.subTest(name), self.assertRaises(kind), postgres.Postgres._telling(None):
                raise getattr(postgres.psycopg2, name)("without a code")

    def test_a_notice_that_cant_be_sent(self):
        """It is sent later, whatever was in its way: no thread, or a server that is refused for now."""
        postgres = self.module()
        postgres_store, sent = postgres.Postgres.__new__(postgres.Postgres), threading.Event()
        left = [StoreError("refused"), ValueError("odd"), Unknown("away")]
        postgres_store._changes, postgres_store._notifier = threading.Event(), None
        postgres_store._lock, postgres_store._is_closed = threading.Lock(), False
        db = unittest.mock.MagicMock(closed=0)
        db.cursor().__enter__().execute = lambda *_: sent.set()

        def connected():
            if left:
                raise left.pop()
            return db

        postgres_store._connected = connected
        with unittest.mock.patch.object(threading.Thread, "start", side_effect=RuntimeError("can't start new thread")):
            postgres_store._notify()
        with unittest.mock.patch.object(postgres, "BETWEEN_TRIES", 0.01):
            postgres_store._notify()
            self.assertTrue(sent.wait(20))
        postgres_store._is_closed = True
        postgres_store._changes.set()
        postgres_store._notifier.join(20)

    @unittest.skipIf(importlib.util.find_spec("psycopg2") is None, "no psycopg2")
    def test_a_connection_that_is_lost_is_let_go(self):
        postgres = self.module()
        for error, is_lost in [("OperationalError", True), ("DataError", False)]:
            postgres_store, db = postgres.Postgres.__new__(postgres.Postgres), unittest.mock.MagicMock(closed=0)
            db.close.side_effect = lambda db=db: setattr(db, "closed", 1)
            cursor = unittest.mock.MagicMock(connection=db)
            cursor.execute.side_effect = getattr(postgres.psycopg2, error)("why")
            postgres_store._is_closed, postgres_store._free = False, [cursor]
            with self.assertRaises(Unknown if is_lost else StoreError):
                postgres_store._do("select 1")
            self.assertEqual((db.closed, postgres_store._free), (1, []) if is_lost else (0, [cursor]))

    def test_a_connection_that_is_in_use_as_the_store_is_closed(self):
        postgres = self.module()
        postgres_store, db = postgres.Postgres.__new__(postgres.Postgres), unittest.mock.MagicMock(closed=0)
        postgres_store._changes, postgres_store._local = threading.Event(), threading.local()
        postgres_store._lock, postgres_store._is_closed = threading.Lock(), False
        postgres_store._free = [unittest.mock.MagicMock(connection=db, rowcount=1, description=None)]
        postgres_store._free[0].execute.side_effect = lambda *_: postgres_store.close()
        self.assertEqual(postgres_store._do("select 1"), (1, []))
        db.close.assert_called_once()


if __name__ == "__main__":
    unittest.main()
