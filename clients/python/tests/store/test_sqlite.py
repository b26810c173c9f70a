#!/usr/bin/env python3
"""The store in SQLite alone: its file and the line before it, its settings, transactions that can't be undone, rows
that somebody changed.

    CF_LIBRARY=/path/to/libcf.so python3 clients/python/tests/store/test_sqlite.py [-v] [TEST ..]
"""
import contextlib
import fcntl
import os
import shutil
import sqlite3
import threading
import unittest
import unittest.mock
from pathlib import Path

from case import Case
from cf.store import Broken, connect, Put, sqlite as shared_sqlite, StoreError, tables, Timer, Unknown
from cf.store.rows import Glance


class SQLite(Case):
    def test_files_that_are_let_go(self):
        """A store that is closed, or that couldn't be opened, keeps no file."""
        Path(self.folder.name, "text").write_text("no database, but a text that is long enough to be one" * 100)
        before = len(os.listdir("/proc/self/fd"))
        for _ in range(20):
            sqlite_store = connect(self.address)
            sqlite_store.open("r", "plan")
            sqlite_store.close()
            sqlite_store.close()
            with self.assertRaises(StoreError):
                connect(f"sqlite:///{self.folder.name}/text")
        self.assertLess(len(os.listdir("/proc/self/fd")), before + 5)
        with self.assertRaises(StoreError):
            sqlite_store.append(Put("r", 0, [(1, 1)], {}))

    def test_more_words_of_many_requests(self):
        """Lists are told of new words by what was put since."""
        store = connect(self.address)
        for k in range(3):
            store.open(f"r{k}", "{}")
        with unittest.mock.patch.object(tables, "ANEW", 1), unittest.mock.patch.object(tables, "BETWEEN_ALL", 0.0):
            _, mark = store.changes(None)
            for many in (1, 2):
                for k in range(3):
                    store.append(Put(f"r{k}", many - 1, [(1, k)], {}))
                changes, mark = store.changes(mark)
                self.assertEqual(changes.longer, {"r0": many, "r1": many, "r2": many})
            self.assertEqual((store.changes(mark)[0].longer, len(changes.opened)), ({}, 1))
            told = set()
            for _ in range(4):  # all are told anew, one after another
                changes, mark = store.changes(mark)
                told.update(it.name for it in changes.opened)
        self.assertEqual(told, {"r0", "r1", "r2"})
        store.close()

    def test_numbers_that_come_again(self):
        """Words have the numbers again of those that were dropped. A list misses none for long."""
        store = connect(self.address)
        for name in "abc":
            store.open(name, "{}")
        store.append(Put("a", 0, [(1, k) for k in range(3)], {}))
        _, mark = store.changes(None)
        store.end("a", 3), store.drop("a")
        store.append(Put("b", 0, [(1, 7)], {})), store.append(Put("c", 0, [(1, k) for k in range(3)], {}))
        changes, mark = store.changes(mark._replace(due=0.0))
        self.assertEqual({**{it.name: it.words for it in changes.opened}, **changes.longer}, {"b": 1, "c": 3})
        store.drop("c")
        store.open("d", "{}")
        changes, mark = store.changes(mark._replace(due=0.0))
        self.assertEqual((changes.gone, {it.name: it.words for it in changes.opened}), (["c"], {"b": 1, "d": 0}))
        store.close()

    def test_a_process_that_is_stopped_in_the_line(self):
        """Others are told so after some time, keep their place in the line, and go on once it does."""
        sqlite_store = connect(self.address)
        sqlite_store.open("r", "plan")
        stopped = os.open(f"{self.folder.name}/db-line", os.O_RDWR)
        fcntl.flock(stopped, fcntl.LOCK_EX)
        told = []

        def puts():
            for _ in range(3):
                try:
                    sqlite_store.append(Put("r", 0, [(1, 1)], {}))
                except Unknown as error:
                    told.append(str(error))

        with unittest.mock.patch.object(shared_sqlite, "LONGEST_WAIT", 0.1):
            threading.Thread(target=puts, daemon=True).start()
            self.until(lambda: len(told) == 3)
        self.assertTrue(all("another process has the file" in it for it in told), told)
        fcntl.flock(stopped, fcntl.LOCK_UN)
        for at in range(3):
            self.assertIsNone(sqlite_store.append(Put("r", at, [(1, at)], {})))
        fcntl.flock(stopped, fcntl.LOCK_EX)
        thread = threading.Thread(target=sqlite_store.append, args=[Put("r", 3, [(1, 3)], {})])
        thread.start()
        self.until(lambda: sqlite_store._line._waits)
        fcntl.flock(stopped, fcntl.LOCK_UN)
        thread.join(20)
        self.until(lambda: not sqlite_store._line._waits)
        fcntl.flock(stopped, fcntl.LOCK_EX | fcntl.LOCK_NB)  # nobody kept it
        os.close(stopped)
        self.assertEqual(len(sqlite_store.read("r")), 4)
        sqlite_store.close()

    def test_an_undoing_that_fails(self):
        """A connection whose transaction can't be undone is let go, so that others can put."""
        sqlite_store = connect(self.address)
        sqlite_store.open("r", "plan")

        def act(db):
            db.execute("insert into cf_beat values (1, 1)")
            db.set_authorizer(lambda *_: sqlite3.SQLITE_DENY)
            raise KeyError("what the act raises")

        with self.assertRaises((KeyError, StoreError)):
            sqlite_store._in_turn(act)
        self.assertIsNone(connect(self.address).append(Put("r", 0, [(1, 1)], {})))
        self.assertIsNone(sqlite_store.append(Put("r", 1, [(2, 2)], {})))
        self.assertEqual(sqlite_store.beats(), {})
        sqlite_store.close()

    def test_rows_with_gaps(self):
        """A word that somebody took out is missed by whoever reads, at its place."""
        sqlite_store = connect(self.address)
        sqlite_store.open("r", "plan")
        sqlite_store.append(Put("r", 0, [(k, k) for k in range(1, 6)], {}))
        db = sqlite3.connect(f"{self.folder.name}/db", isolation_level=None)
        db.execute("delete from cf_word where at = 2")
        self.assertEqual(sqlite_store.read("r", 3), [(4, 4), (5, 5)])
        with self.assertRaises(Broken) as told:
            sqlite_store.read("r")
        self.assertEqual((told.exception.request, told.exception.place), ("r", 3))
        with self.assertRaises(Broken):
            sqlite_store.append(Put("r", 2, [(6, 6), (7, 7)], {}))
        for word in ("'text'", "-1"):
            db.execute(f"update cf_word set word = {word}, token = {word} where at = 4")
            with self.assertRaises(Broken) as told:
                sqlite_store.read("r", 3)
            self.assertIn("'r', place 5", str(told.exception))
        db.execute("update cf_word set word = 5 where at = 4")
        self.assertEqual([it for it, in db.execute("select word from cf_word order by at")], [1, 2, 4, 5])
        db.close()
        sqlite_store.close()

    def test_words_and_payloads_together(self):
        """Where a payload can't be put its word doesn't stand, nor does its group."""
        sqlite_store = connect(self.address)
        sqlite_store.open("r", "plan")
        db = sqlite3.connect(f"{self.folder.name}/db", isolation_level=None)
        db.execute("insert into cf_large values (1, 2, 'in the way')")
        with self.assertRaises(StoreError):
            sqlite_store.append(Put("r", 0, [(1, 1), (2, 2)], {2: b"x" * 5000}))
        self.assertEqual(sqlite_store.read("r"), [])
        db.close()
        sqlite_store.close()

    def test_what_sqlite_says(self):
        """What it can't do now is away; what it refuses for good is told as such."""
        spoils = {
            "READONLY": (Unknown, lambda db: db.execute("pragma query_only = on")),
            "ERROR": (Unknown, lambda db: db.execute("alter table cf_word rename to away")),
            "FULL": (Unknown, lambda db: db.execute("pragma max_page_count = 1")),  # (with as many as there are)
            "CONSTRAINT": (StoreError, lambda db: db.execute("create unique index one on cf_word (1)")),
        }
        if hasattr(sqlite3.Connection, "setlimit"):  # (of Python 3.11 on)
            spoils["TOOBIG"] = StoreError, lambda db: db.setlimit(sqlite3.SQLITE_LIMIT_LENGTH, 9_000)
        for name, (kind, spoil) in spoils.items():
            with self.subTest(name):
                sqlite_store = connect(f"sqlite:///{self.folder.name}/{name}")
                sqlite_store.open("r", "plan"), sqlite_store.append(Put("r", 0, [(1, 1)], {}))
                spoil(sqlite_store._db)
                with self.assertRaises(kind):
                    sqlite_store.append(Put("r", 1, [(2, 2)], {2: b"x" * 10_000}))
                sqlite_store.close()
        sqlite_store = connect(self.address)
        with self.assertRaises(Unknown), sqlite_store._in_line:
            raise MemoryError
        sqlite_store.open("r", "plan"), sqlite_store.close()
        with open(f"{self.folder.name}/db", "r+b") as file:
            file.seek(4096), file.write(b"no page" * 4096)
        with self.assertRaises(StoreError) as told:
            connect(self.address).find("r")
        self.assertEqual((type(told.exception), "malformed" in str(told.exception)), (StoreError, True))

    def test_settings(self):
        """What is answered is on disk: each thread's connection has a write-ahead log and syncs it."""
        sqlite_store, told = connect(self.address), []

        def ask():
            told.append([sqlite_store._db.execute(f"pragma {it}").fetchone()[0] for it in ("journal_mode", "synchronous")])
            sqlite_store._db.close()

        ask()
        thread = threading.Thread(target=ask)
        thread.start()
        thread.join()
        self.assertEqual(told, [["wal", 2]] * 2)
        with self.assertRaises(StoreError) as refused:
            connect("sqlite:///:memory:")
        self.assertIn("journal_mode is memory", str(refused.exception))
        os.unlink(":memory:-line")


class Counted(shared_sqlite.SQLite):
    """A store whose changes are counted, and in which the one of a number is refused."""

    def __init__(self, path):
        self.left = -1
        super().__init__(path, is_unsafe=True)

    def _connected(self):
        db = super()._connected()
        db.create_function("cf_counted", 0, self.counted)
        return db

    def counted(self):
        self.left -= 1
        if self.left == 0:
            raise KeyError("refused")
        return 0


class Halves(Case):
    """A call of a store does all of its changes or none, whichever of them is refused."""

    TABLES = ["cf_request", "cf_word", "cf_large", "cf_beat", "cf_timer", "cf_glance", "cf_name"]

    def setUp(self):
        super().setUp()
        self.first = f"{self.folder.name}/first"
        store = shared_sqlite.SQLite(self.first, is_unsafe=True)
        for name in ("open", "ended", "other"):
            number = store.open(name, "plan").number
            store.append(Put(name, 0, [(1, 11), (2, 12)], {1: b"one", 2: b"x" * 5000}))
            store.set_timer(Timer(name, 0, 1.0, b"N"))
            store.keep_glances([Glance(name, number, 2, "said")])
            store.name_session(7, "somebody", name)
        store.end("ended", 2)
        store.beat(7), store.name_session(7, "somebody")
        db = sqlite3.connect(self.first)
        for table in self.TABLES:
            for act in ("insert", "update", "delete"):
                db.execute(f"create trigger {table}_{act} before {act} on {table} begin select cf_counted(); end")
        db.commit(), db.close(), store.close()

    def rows(self, path):
        with contextlib.closing(sqlite3.connect(path)) as db:
            return {it: sorted(db.execute(f"select * from {it}").fetchall(), key=repr) for it in self.TABLES}

    def effect(self, store):
        with store.transaction() as transaction:
            transaction.connection.execute("insert into cf_beat values (8, 1)")
            self.assertTrue(transaction.append(Put("open", 2, [(3, 13), (4, 14)], {3: b"x" * 5000})))
            transaction.commit()

    def test_the_kth_change_of_each_call_is_refused(self):
        large = {3: b"x" * 5000, 4: b"y" * 5000}
        calls = {
            "open": lambda store: store.open("new", "plan"),
            "a word": lambda store: store.append(Put("open", 2, [(3, 13)], {3: b"three"})),
            "a large one": lambda store: store.append(Put("open", 2, [(3, 13)], large)),
            "two": lambda store: store.append(Put("open", 2, [(3, 13), (4, 14)], {3: b"three"})),
            "two large ones": lambda store: store.append(Put("open", 2, [(3, 13), (4, 14)], large)),
            "70": lambda store: store.append(Put("open", 2, [(k, k) for k in range(3, 73)], {})),
            "of two requests": lambda store: store.append_groups([Put("open", 2, [(3, 13)], {}), Put("other", 2, [(3, 13), (4, 14)], {})]),
            "that opens": lambda store: store.append(Put("ended", 2, [(3, 13)], {}, 0, True)),
            "end": lambda store: store.end("open", 2),
            "reopen": lambda store: store.reopen("ended"),
            "drop": lambda store: store.drop("ended", 2),
            "beat": lambda store: store.beat(7),
            "drop beat": lambda store: store.drop_beat(7),
            "name": lambda store: store.name_session(7, "another", "open"),
            "timer": lambda store: store.set_timer(Timer("open", 0, 2.0, b"V1")),
            "drop timer": lambda store: store.drop_timer("open", 0),
            "glances": lambda store: store.keep_glances([Glance("open", 1, 2, "else"), Glance("other", 3, 2, "else")]),
            "effect": self.effect,
        }
        before, changes = self.rows(self.first), {}
        for name, call in calls.items():
            for k in range(1, 100):
                path = f"{self.folder.name}/{name} {k}"
                shutil.copy(self.first, path)
                store = Counted(path)
                store.left = k
                try:
                    call(store)
                    break
                except (Unknown, StoreError, sqlite3.Error):
                    self.assertEqual(self.rows(path), before, f"{name}, change {k}")
                    store.left = -1
                    call(store)  # (and the store goes on)
                    self.assertNotEqual(self.rows(path), before, name)
                finally:
                    store.close()
            changes[name] = k - 1
        self.assertGreater(min(changes.values()), 0, changes)


if __name__ == "__main__":
    unittest.main()
