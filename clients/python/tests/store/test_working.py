#!/usr/bin/env python3
"""Which service works on which request: claims, signs of life, threads that can't be started, functions that it
doesn't know.

    CF_LIBRARY=/path/to/libcf.so python3 clients/python/tests/store/test_working.py [-v] [TEST ..]
"""
import threading
import time
import traceback
import unittest
import unittest.mock
from concurrent.futures import CancelledError, ThreadPoolExecutor

from case import Case, EMPTY
import shared_functions as f
from cf.service import Flow
from cf.service.words import CANCEL
from cf.store import connect, DurableService, Functions, Memory, leader as leading
from cf.store.host import Host


class Working(Case):
    def test_who_is_there_is_let_be(self):
        """A stage whose function runs elsewhere isn't failed by one that looks, as long as who has it is there."""
        functions, goes, store = Functions(), threading.Event(), Memory()
        waits = functions.function("waits")(lambda: goes.wait(20))
        first, second = (DurableService(store, workers, functions=functions, lease=1, takes_all=True) for workers in (1, 0))
        stage = first.request("r").supply(waits)
        seen = second.open("r")
        self.until(lambda: seen._row().claims())
        before = store.beats()[second.session]
        self.until(lambda: store.beats()[second.session] > before + 10)  # two leases
        goes.set()
        self.assertTrue(stage.result(20))
        first.shutdown(), second.shutdown()

    def test_a_long_start(self):
        """Who reads many long rows for the first time says meanwhile that he is there."""

        class Slow(Memory):
            many = 0

            def read(self, name, at=0, number=0):
                time.sleep(0.02)
                self.many += 1
                return super().read(name, at, number)

            def beat(self, session):
                reads.append(self.many)
                super().beat(session)

        store, reads = Slow(), []
        for k in range(100):
            store.open(f"r{k}", EMPTY)
        working = DurableService(store, 1, functions=f.functions, takes_all=True, lease=1)
        self.services.append(working)
        self.until(lambda: all(working.open(f"r{k}") for k in range(100)))
        self.assertLess(max(b - a for a, b in zip(reads, reads[1:])), 50)  # (which take a lease)
        self.assertGreater(len(reads), 4)

    def test_who_ends_is_there_until_nothing_runs(self):
        """A function that takes longer than a lease is finished, also where its process begins nothing more."""
        functions, goes, store = Functions(), threading.Event(), Memory()
        waits = functions.function("waits")(lambda: goes.wait(20))
        ends = DurableService(store, 1, functions=functions, lease=2)
        other = DurableService(store, 0, functions=functions, lease=2, takes_all=True)
        self.services.append(other)
        stage = ends.request("r").supply(waits)
        self.until(lambda: ends.running())
        ends.shutdown(wait=False)
        before = store.beats()[other.session]
        self.until(lambda: store.beats()[other.session] > before + 10)  # two leases
        goes.set()
        self.assertTrue(other.open("r")[stage.number].result(20))
        ends.shutdown()
        self.assertNotIn(ends.session, store.beats())

    def test_functions_that_run_for_long(self):
        """The log tells of them, with how many threads there are, and `running` does."""
        functions, goes = Functions(), threading.Event()
        hangs = functions.function("hangs")(lambda: goes.wait(20))
        with unittest.mock.patch.object(leading, "LONG", 0.05), self.assertLogs("cf.store", "WARNING") as logs:
            working = DurableService(Memory(), 7, functions=functions, lease=0.05)
            self.services.append(working)
            worked_on = working.request("r")
            stages = [worked_on.supply(hangs) for _ in range(6)]
            self.until(lambda: any("6 of 7 threads" in it for it in logs.output))
            self.assertEqual({it[:3] for it in working.running()}, {("r", k, "hangs") for k in range(6)})
            goes.set()
            self.assertTrue(all(it.result(20) for it in stages))
        said = next(it for it in logs.output if "6 of 7 threads" in it)
        self.assertRegex(said, r"run a function for longer than 0.05 s: hangs \(request 'r', stage \d\) for \d+ s, .*, \.\.$")
        self.until(lambda: not working.running())

    def test_what_a_function_raises(self):
        """The log has it once, with where it was raised, also where other stages pass it on."""
        functions = Functions()

        def deep():
            raise KeyError("why")

        fails = functions.function("raises")(lambda *_: deep())
        composes = functions.function("composes")(lambda request, _: deep())
        functions.add(f.functions)
        with self.assertLogs("cf.store", "WARNING") as logs:
            working = DurableService(Memory(), 1, functions=functions)
            self.services.append(working)
            worked_on = working.request("r")
            first = worked_on.supply(fails)
            self.assertIsInstance(first.again(2).then(f.inc).exception(20), KeyError)
            self.assertIsInstance(worked_on.supply(f.load, 1).compose(composes).exception(20), KeyError)
        self.assertEqual(
            [it.getMessage() for it in logs.records], ["request 'r', stage 0: raises has raised", "request 'r', stage 6: composes has raised"]
        )
        for it in logs.records:
            self.assertEqual(traceback.extract_tb(it.exc_info[2])[-1].name, "deep")

    def test_a_thread_that_cant_be_started(self):
        """What it was to do is done once one can be."""

        class Full(ThreadPoolExecutor):
            def submit(self, call, *given):
                if len(refused) < 2:
                    refused.append(call)
                    raise RuntimeError("can't start new thread")
                return super().submit(call, *given)

        class Few(Host):
            def pool(self, workers, name):
                return Full(workers, name)

        refused, working = [], DurableService(Memory(), 2, functions=f.functions, lease=0.5, host=Few())
        self.services.append(working)
        with self.assertLogs("cf.store", "WARNING"):
            worked_on = working.request("r")
            self.assertEqual(worked_on.supply(f.inc, 1).result(20), 2)
        self.assertEqual(len(refused), 2)

    def test_a_request_that_is_cancelled(self):
        """All of it is cancelled, the last stage first: also what runs, and what another process has attached."""
        functions, goes, store = Functions(), threading.Event(), Memory()
        waits = functions.function("waits")(lambda: goes.wait(20))
        working, other = (DurableService(store, 1, functions=functions) for _ in range(2))
        self.services += [working, other]
        request = working.request("r")
        runs, settled = request.supply(waits), request.promise()
        settled.complete(1)
        for _ in range(40):
            request.promise()
        self.until(working.running)
        late = other.open("r").promise()
        request.cancel()
        left = [0, *range(2, 43)]
        self.assertEqual([number for number in range(43) if request[number].cancelled()], left)
        self.assertTrue(runs.cancelled())
        self.assertRaises(CancelledError, late.result, 20)
        cancelled = [word >> 36 & 0xFFF for word, _ in store.read("r") if word >> 56 == CANCEL]
        self.assertEqual(cancelled, left[::-1])
        request.cancel()  # nothing is open
        self.assertEqual(request.promise().number, 43)
        goes.set()
        self.until(lambda: not request._row().claims())
        self.assertEqual(settled.result(), 1)

    def test_a_flow_that_is_cancelled(self):
        """It is closed with that."""
        flow = Flow("order")
        flow.promise("order").then(f.inc)
        working = DurableService(Memory(), 1, functions=f.functions)
        self.services.append(working)
        working.start(flow, name="r").cancel()
        self.until(lambda: "r" not in working.store.ends())

    def test_functions_that_nobody_knows(self):
        """However many stages wait for such, others behind them are found."""
        more = Functions()
        more.add(f.functions)
        strange = more.function("strange")(lambda: 1)
        flow = Flow("many")
        for _ in range(100):
            flow.supply(strange)
        known = flow.supply(f.inc, 1)
        asks = DurableService(Memory(), 0, functions=more)
        worked_on = asks.start(flow, name="r")
        with self.assertLogs("cf.store", "WARNING"):
            works = DurableService(asks.store, 1, functions=f.functions, takes_all=True)
            self.assertEqual(worked_on[known].result(20), 2)
        works.shutdown(), asks.shutdown()

    def test_what_others_opened_is_left_to_them(self):
        asks = DurableService(Memory(), 0, functions=f.functions)
        works = DurableService(asks.store, 1, functions=f.functions)
        self.services += [asks, works]
        asks.request("left").supply(f.inc, 1)
        own = asks.request("own")
        works.open("own")
        self.assertEqual([own.supply(f.inc, it).result(20) for it in (1, 2)], [2, 3])  # (before the second, all others have had their turn)
        self.assertEqual(asks.store.ends(), {"left": 1, "own": 6})

    def test_what_is_there_before_it_is_known_is_begun_at_once(self):
        """And not with the next beat."""
        gate = threading.Lock()

        class Gated(Memory):
            def news(self, mark):
                with gate:
                    return super().news(mark)

        for takes_all in (True, False):
            store = Gated()
            asks = DurableService(store, 0, functions=f.functions)
            works = DurableService(store, 1, functions=f.functions, lease=1000, takes_all=takes_all)
            self.services += [asks, works]
            self.until(lambda: works.leader._mark is not None)
            with gate:
                begun = asks.request("r").supply(f.inc, 1)
            if not takes_all:
                self.until(lambda: works.leader._mark == store._puts)
                works.open("r")
            self.assertEqual(begun.result(20), 2)


class UnknownFunctions(Case):
    lease = 2

    def test_a_function_that_nobody_knows(self):
        """It waits, and other stages and requests go on."""
        more = Functions()
        more.add(f.functions)
        strange = more.function("strange", version=2)(lambda: 1)
        first = DurableService(connect(self.address), 0, functions=more)
        self.services.append(first)
        worked_on = first.request("r")
        waits, runs = worked_on.supply(strange), worked_on.supply(f.load, 1)
        with self.assertLogs("cf.store", "WARNING") as logs:
            working = self.service(takes_all=True)
            self.assertEqual(working.open("r")[runs.number].result(20)["number"], 1)
        self.assertIn("'r', stage 0: function strange, version 2 isn't known here", "\n".join(logs.output))
        self.assertFalse(waits.done())


if __name__ == "__main__":
    unittest.main()
