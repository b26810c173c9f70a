#!/usr/bin/env python3
"""Bad plans, rows, payloads and timers: each is told with its request and place, and others go on.

    CF_LIBRARY=/path/to/libcf.so python3 clients/python/tests/store/test_bad_rows.py [-v] [TEST ..]
"""
import os
import sqlite3
import unittest

from case import Case, EMPTY
import shared_functions as f
from cf.service.words import ATTACH, CLAIM, COMPLETE, FINISH
from cf.store import Broken, connect, new_session, RowView, Timer


class BadRows(Case):
    lease = 2

    def test_bad_plans_leave_others_alone(self):
        """Plans of another version, or that are none: each is told with its request, and others go on."""
        store = connect(self.address)
        bad = {
            "old": '{"cf":2,"flow":"","stages":[]}',
            "text": "no plan",
            "low": '{"cf":3,"flow":"","stages":[{"form":"apply","of":[7],"name":"s"}]}',
            "odd": '{"cf":3,"flow":"","stages":[{"form":"supply","name":"s","args":5}]}',
        }
        for name, plan in bad.items():
            store.open(name, plan)
        with self.assertLogs("cf.store", "ERROR") as logs:
            service = self.service(takes_all=True)
            self.assertEqual(service.request("good").supply(f.load, 1).result(20)["number"], 1)
            self.until(lambda: len(service.broken) == len(bad))
        for name in bad:
            self.assertIn(f"'{name}', place 0: its plan can't be read", "\n".join(logs.output))
        with self.assertRaises(Broken):
            service.open("old")
        store.close()

    def test_bad_rows_leave_others_alone(self):
        service = self.service()
        db = sqlite3.connect(f"{self.folder.name}/db", isolation_level=None)
        bad, gone, good = service.request("bad"), service.request("gone"), service.request("good")
        waits, value = bad.promise(), gone.promise("value")
        value.complete({"a": 1})
        db.execute("update cf_word set payload = null where request = 2 and at = 1")
        with self.assertLogs("cf.store", "ERROR") as logs:
            db.execute("insert into cf_word (request, at, word, token) values (1, 1, 77, 7)")
            self.assertIsInstance(waits.exception(20), Broken)
        self.assertIn("'bad', place 2", "\n".join(logs.output))
        other = self.service()
        with self.assertRaises(Broken) as told:
            other.open("gone")["value"].result(60)
        self.assertIn("'gone', place 2: no payload", str(told.exception))
        db.execute("update cf_word set payload = '{' where request = 2 and at = 1")
        with self.assertRaises(Broken) as told:
            self.service().open("gone")["value"].result(60)
        self.assertIn("'gone', place 2: its payload can't be read", str(told.exception))
        self.assertEqual(good.supply(f.load, 1).result(20)["number"], 1)
        db.close()

    def test_bad_payloads_and_timers_leave_others_alone(self):
        """What a composing stage and a timer name by hand isn't there: each is told with its request, and others go
        on."""
        store = connect(self.address)
        promise, completes = (ATTACH << 56, b'{"name":"p"}'), (COMPLETE << 56 | 1 << 36, None)
        composes = ATTACH << 56 | 1 << 36 | 1 << 32 | 12 << 24 | 2, b'{"name":"loading","fn":"loading","version":1}'
        to_0 = composes[0], composes[1][:-1] + b',"to":0}'
        links = [(CLAIM << 56 | 2 << 36, None), (FINISH << 56 | 2 << 36 | 3 << 32, b'{"stage":9}')]
        rows = {"no promise": [promise, promise, composes, completes], "no stage": [promise, promise, to_0, completes, *links], "no timer": [promise]}
        for name, words in rows.items():
            view = RowView(store, store.open(name, EMPTY), new_session())
            view.act(lambda view, words=words: [(word | view.caller_number << 48, said) for word, said in words])
        db = sqlite3.connect(f"{self.folder.name}/db", isolation_level=None)
        db.execute("insert into cf_timer values (3, 77, 0, 'by hand')")
        db.close()
        with self.assertLogs("cf.store", "WARNING") as logs:
            service = self.service(takes_all=True)
            self.until(lambda: len(service.broken) == 2 and "'no timer'" in "".join(logs.output))
            self.assertEqual(service.request("no timer").supply(f.load, 1).result(20)["number"], 1)
            service.shutdown()
        told = "\n".join(logs.output)
        for part in ("'no promise', place 3: stage 2 composes", "'no stage', place 6: its payload can't be read", "'no timer': place 2: a timer"):
            self.assertIn(part, told)
        self.assertNotIn("CRITICAL", told)
        store.close()

    def test_a_timer_of_a_plan_that_is_unknown(self):
        """Who can't read a request leaves its timers for others."""
        store = connect(self.address)
        store.open("newer", '{"cf":99}')
        store.set_timer(Timer("newer", 0, 0.0, b"N"))
        with self.assertLogs("cf.store", "ERROR"):
            service = self.service(takes_all=True)
            self.until(lambda: service.broken)
            self.assertEqual(service.request("good").supply(f.slow, 0.2).result(20), os.getpid())
        self.assertEqual(len(store.due_timers(1.0)), 1)
        store.close()


if __name__ == "__main__":
    unittest.main()
