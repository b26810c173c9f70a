#!/usr/bin/env python3
"""A store that is away, silent, read-only or refusing for a while: nothing is lost, run twice or told wrongly.

    CF_LIBRARY=/path/to/libcf.so python3 clients/python/tests/store/test_outages.py [-v] [TEST ..]
"""
import contextlib
import threading
import time
import unittest
import unittest.mock

from case import Case, Hurried, STORES
import shared_functions as f
from cf.service.words import COMPLETE
from cf.store.host import Host
from cf.store import Broken, connect, DurableService, Functions, Memory, leader as leading, new_session, RowView, StoreError, Unknown


class Hasty(Host):
    """Doesn't rest."""

    def sleep(self, seconds):
        pass


class Outages(Case):
    def test_a_store_that_is_away_for_long(self):
        """A claim and finishes that the store was silent about are not lost: what was claimed runs once, and what
        was run is told."""

        class Away(Memory):
            left, lands, many = 0, False, 0

            def append_groups(self, puts):
                if not self.left:
                    return super().append_groups(puts)
                self.left, self.many = self.left - 1, self.many + 1
                if self.lands:
                    super().append_groups(puts)
                raise Unknown("away")

        ran = []
        functions = Functions()
        function = functions.function("f")(lambda k: ran.append(k))
        for lands in (True, False):
            for left in (3, 60):
                with self.subTest(lands=lands, left=left):
                    failing_store = Away()
                    asks = DurableService(failing_store, 0, functions=functions, lease=1)
                    stages = [asks.request("r").supply(function, k) for k in range(3)]
                    failing_store.lands, failing_store.left = lands, left
                    with self.assertLogs("cf.store", "WARNING"):
                        works = DurableService(failing_store, 2, functions=functions, takes_all=True, lease=1)
                        self.assertEqual([outlasting_stage.result(20) for outlasting_stage in stages], [None] * 3)
                    self.assertEqual(sorted(ran), [0, 1, 2])
                    self.assertEqual(failing_store.left, 0)
                    ran.clear()
                    works.shutdown(), asks.shutdown()

    def test_a_store_that_is_away_as_a_function_ends_is_told_of(self):
        class Away(Memory):
            is_away = False

            def append_groups(self, puts):
                is_away, self.is_away = self.is_away, False
                if is_away:
                    raise Unknown("away")
                return super().append_groups(puts)

        failing_store, functions = Away(), Functions()
        function = functions.function("f")(lambda: setattr(failing_store, "is_away", True))
        with self.assertLogs("cf.store", "WARNING") as logs:
            service = DurableService(failing_store, 1, functions=functions)
            self.services.append(service)
            self.assertIsNone(service.request("r").supply(function).result(20))
        self.assertEqual([it.getMessage() for it in logs.records], ["request 'r', place 3: the store doesn't answer: away"])

    def test_a_store_that_takes_nothing_for_a_while(self):
        """What a function came to is kept and put once the store takes words again: it wasn't the value that it
        refused."""

        class Shut(Memory):
            is_shut = False

            def append_groups(self, puts):
                if self.is_shut:
                    refused.append(puts)
                    raise StoreError("it can only be read")
                return super().append_groups(puts)

            def beat(self, session):
                if self.is_shut:
                    raise StoreError("it can only be read")
                super().beat(session)

        functions, refused, ran = Functions(), [], []

        def function(k, fails):
            failing_store.is_shut = True
            ran.append(k)
            if fails:
                raise KeyError(k)
            return k

        failing_store, function = Shut(), functions.function("f")(function)
        service = DurableService(failing_store, 1, functions=functions)
        self.services.append(service)
        outlasting = service.request("r")
        for fails in (False, True):
            with self.assertLogs("cf.store", "WARNING") as logs:
                outlasting_stage = outlasting.supply(function, 17, fails)
                self.until(lambda: len(refused) > 1)  # what it came to, and that it was refused
                failing_store.is_shut = False
                self.assertEqual(repr(outlasting_stage.exception(20)) if fails else outlasting_stage.result(20), "KeyError(17)" if fails else 17)
            self.assertIn("nothing can be put: it can only be read", "".join(logs.output))
            refused.clear()
        self.assertEqual(ran, [17, 17])
        self.assertTrue(outlasting.promise().complete(1))

    def test_a_store_that_takes_nothing_and_then_all(self):
        """Whichever try is the last that is refused, the value isn't lost."""

        class Shut(Memory):
            left = 0

            def refuses(self):
                self.left -= 1
                if self.left >= 0:
                    raise StoreError("it can only be read")

            def append_groups(self, puts):
                self.refuses()
                return super().append_groups(puts)

            def beat(self, session):
                if self.left > 0:
                    self.refuses()
                super().beat(session)

        functions = Functions()

        @functions.function("shuts")
        def shuts(many):
            store.left = many
            return many

        for many in range(1, 8):
            store = Shut()
            service = DurableService(store, 1, functions=functions, lease=1e6, host=Hasty())
            self.assertEqual(service.request("r").supply(shuts, many).result(20), many)
            service.shutdown()

    def test_a_stop_in_a_silence(self):
        """What a function came to is put for a while, however long the store was silent before."""
        silent, goes = threading.Event(), threading.Event()

        class Silent(Memory):
            many = 0

            def append_groups(self, puts):
                if silent.is_set():
                    self.many += 1
                    raise Unknown("silent")
                return super().append_groups(puts)

        store, functions = Silent(), Functions()
        waits = functions.function("waits")(lambda: goes.wait(20) and "done")
        service = DurableService(store, 1, functions=functions)
        service.request("r").supply(waits)
        self.until(lambda: service.running())
        silent.set()
        service.shutdown(wait=False)
        goes.set()
        self.until(lambda: store.many > 5)
        silent.clear()
        asks = DurableService(store, 0)
        self.services.append(asks)
        self.until(lambda: service.leader.is_over)
        self.assertEqual(asks.open("r")[0].result(0), "done")
        service.shutdown()

    def test_a_stop_in_a_silence_that_doesnt_end(self):
        """What a function came to is given up, and the log says so."""
        silent = threading.Event()

        class Silent(Memory):
            def append_groups(self, puts):
                if silent.is_set():
                    raise Unknown("silent")
                return super().append_groups(puts)

        functions = Functions()
        last = functions.function("last")(silent.set)
        with unittest.mock.patch.object(leading, "PATIENCE", 0.01):
            service = DurableService(Silent(), 1, functions=functions)
            with self.assertLogs("cf.store", "ERROR") as logs:
                service.request("r").supply(last)
                self.assertTrue(silent.wait(20))
                service.shutdown()
        self.assertIn("request 'r', stage 0: what its function came to is lost", logs.output[0])

    def test_a_server_that_can_only_be_read_for_a_while(self):
        """As in a switch-over of PostgreSQL, while a function ends. For CF_STORES."""
        for address in STORES:
            if address.startswith("etcd"):
                continue
            with self.subTest(address), contextlib.closing(__import__("psycopg2").connect(address)) as db:
                db.autocommit = True
                cursor = db.cursor()
                cursor.execute("set default_transaction_read_only = off")
                functions, service = Functions(), None

                def shut():
                    cursor.execute("alter system set default_transaction_read_only = on")
                    cursor.execute("select pg_reload_conf()")
                    time.sleep(0.5)
                    return "done"

                shut = functions.function("shut")(shut)
                service = DurableService(connect(address), 1, functions=functions, lease=1)
                self.services.append(service)
                try:
                    outlasting_stage = service.request(self.name).supply(shut)
                    time.sleep(2)
                finally:
                    cursor.execute("alter system reset default_transaction_read_only")
                    cursor.execute("select pg_reload_conf()")
                self.assertEqual(outlasting_stage.result(30), "done")
                cursor.execute("create table if not exists one (k int unique deferrable initially deferred)")
                twice = service.function("twice", transactional=True)(lambda it: [it.execute("insert into one values (1), (1)")][1:])
                self.assertIn("one", str(service.request(self.name).supply(twice).exception(20)))
                cursor.execute("drop table one")

    def test_what_a_store_refuses(self):
        """A value that is too large for the store fails its stage; the function isn't run again, and others go on."""

        class Small(Memory):
            def append_groups(self, puts):
                if any(len(it) > 1000 for put in puts for it in put.payloads.values()):
                    raise StoreError("it is too large")
                return super().append_groups(puts)

        ran, functions = [], Functions()
        large = functions.function("large")(lambda: ran.append(1) or "x" * 2000)
        service = DurableService(Small(), 2, functions=functions)
        self.services.append(service)
        outlasting = service.request("r")
        outlasting_stage = outlasting.supply(large)
        self.assertIn("it is too large", str(outlasting_stage.exception(20)))
        self.assertEqual(len(ran), 1)

        def raises():
            raise KeyError("x" * 2000)

        self.assertIn("it is too large", str(outlasting.supply(service.function("raises")(raises)).exception(20)))
        with self.assertRaises(StoreError):
            outlasting.promise("p").complete("y" * 2000)
        self.assertTrue(outlasting["p"].complete("y"))

    def test_what_was_read_before_a_call_failed(self):
        """A put loses its place, and then the store is silent or its row is at fault: what others have settled is
        shown."""

        class Loses(Memory):
            meanwhile = None

            def append_groups(self, puts):
                if self.meanwhile is None:
                    return super().append_groups(puts)
                meanwhile, self.meanwhile = self.meanwhile, self.silent
                return super().append_groups(puts) if meanwhile() else []

            def silent(self):
                host.ahead += 61
                raise Unknown("away")

        for at_fault in (False, True):
            failing_store, host = Loses(), Hurried()
            service = DurableService(failing_store, 0, functions=f.functions, lease=1e6, host=host)
            outlasting = service.request("r")
            answer, heard = outlasting.promise("answer"), threading.Event()
            answer.add_done_callback(lambda _: heard.set())
            other = RowView(failing_store, failing_store.find("r"), new_session())
            other.catch_up()

            def meanwhile():
                Memory.append_groups(failing_store, [other.plan_put([(COMPLETE << 56 | other.caller_number << 48, None)])])
                if at_fault:
                    failing_store._rows["r"].append((99 << 56, 1))
                return True

            failing_store.meanwhile = meanwhile
            with self.assertRaises(Broken if at_fault else Unknown):
                outlasting.promise("more")
            self.assertTrue(heard.is_set())
            self.assertIsNone(answer.result(0))
            failing_store.meanwhile = None
            service.shutdown()

    def test_a_payload_that_cant_be_read_for_a_while(self):
        """A value is shown once the store answers, and what a claim is called with is read then."""

        class Away(Memory):
            left = 0

            def payloads(self, name, places, number=0):
                self.left -= 1
                if self.left >= 0:
                    raise Unknown("away")
                return super().payloads(name, places, number)

        failing_store = Away()
        asks = DurableService(failing_store, 0, functions=f.functions)
        self.services.append(asks)
        asks.request("r").promise("p").complete(1)
        with self.assertLogs("cf.store", "WARNING"):
            works = DurableService(failing_store, 1, functions=f.functions, lease=0.5)
            self.services.append(works)
            outlasting = works.open("r")
            failing_store.left = 2
            self.assertEqual(outlasting[0].result(20), 1)
            failing_store.left = 1
            self.assertEqual(asks.open("r")[0].then(f.inc).result(20), 2)


if __name__ == "__main__":
    unittest.main()
