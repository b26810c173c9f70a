#!/usr/bin/env python3
"""Waiting for stages: concurrent.futures.wait, as_completed, result, and threads that begin to wait while stages
settle.

    CF_LIBRARY=/path/to/libcf.so python3 clients/python/tests/service/test_waiting.py [-v] [TEST ..]
"""
import concurrent.futures
import functools
import threading
import time
import unittest

from case import Case, CoreCase, Oops, until
from cf.service import Service
from cf.service.waits import AwaitedFuture
from cf.service.watch import Watch
from cf.service.words import VALUE
from cf.testing import orders


class Waiting(Case):
    def test_wait_and_as_completed(self):
        r = self.request
        awaited = r.promise()
        sleeping = [r.supply(time.sleep, 0.01) for _ in range(5)]
        self.assertEqual(concurrent.futures.wait(sleeping, 30).not_done, set())
        self.assertEqual(concurrent.futures.wait([*sleeping, awaited], 0.1).not_done, {awaited})
        first = concurrent.futures.wait([*sleeping, awaited], return_when="FIRST_COMPLETED")
        self.assertEqual(first.not_done, {awaited})
        threading.Timer(0.02, awaited.fail, [Oops()]).start()
        self.assertIn(awaited, concurrent.futures.wait([awaited, r.promise()], return_when="FIRST_EXCEPTION").done)
        self.assertEqual(set(concurrent.futures.as_completed([*sleeping, awaited])), {*sleeping, awaited})

    def test_waiters_are_never_lost(self):
        """Stages settle while threads begin to wait for them, in each of four ways."""
        for k in range(300):
            awaited = [self.service.request().promise() for _ in range(3)]
            asks = [
                lambda: awaited[0].result(60),
                lambda: concurrent.futures.wait(awaited, 10).not_done,
                lambda: list(concurrent.futures.as_completed(awaited, 10)),
                lambda: heard.wait(60),
            ]
            heard, woken = threading.Event(), []
            waiters = [threading.Thread(target=lambda ask=ask: woken.append(ask())) for ask in asks]
            for waiter in waiters:
                waiter.start()
            awaited[0].add_done_callback(lambda _: heard.set())
            for stage in awaited:
                stage.complete(None)
            for waiter in waiters:
                waiter.join(20)
            self.assertEqual(len(woken), 4)
            self.assertIn(set(), woken)

    def test_who_waits_by_a_condition(self):
        """As the module's stages do."""
        waited = AwaitedFuture()
        waited._condition, waited._waiters, waited._shown, waited._told, waited._ended = threading.Condition(), [], False, 0, VALUE
        waited._wait(0.01)
        self.assertFalse(waited._shown)
        threading.Timer(0.01, waited._show).start()
        waited._wait(20)
        self.assertTrue(waited._shown)

    def test_a_watch_is_told_who_waits(self):
        class Reads(Watch):
            def __init__(self):
                self.stages = []

            def now(self, request):
                return 0

            def on_read(self, stage):
                self.stages.append(stage)

        watch = Reads()
        with Service(1, watch=watch) as service:
            promise = service.request("r").promise()
            watch.stages.clear()
            with promise._condition:  # as concurrent.futures.wait does
                self.assertEqual(watch.stages, [promise])

    def test_all_are_waited_for_in_every_order(self):
        """Two stages are completed by two callers, before, while and after somebody begins to wait for both."""

        def test(world):
            awaited = [world.service.request(name).promise() for name in ("one", "two")]
            for stage in awaited:
                world.calls(functools.partial(stage.complete, 1))
            world.point()
            done = concurrent.futures.wait(awaited)
            self.assertEqual((done.done, done.not_done), (set(awaited), set()))
            self.assertTrue(all(stage.done() for stage in awaited))

        report = orders(test)
        self.assertEqual((report.whole, list(map(str, report.failed))), (True, []))
        self.assertGreater(report.orders, 3)


class Ends(Case):
    def test_what_ends_a_wait_for_the_first_exception(self):
        """An exception does, and a cancellation doesn't."""
        for settle, ends in ((lambda stage: stage.fail(Oops()), True), (lambda stage: stage.cancel(), False)):
            first, second, told = self.request.promise(), self.request.promise(), []

            def wait(row=(first, second), to=told):
                to.append(concurrent.futures.wait(row, 30, "FIRST_EXCEPTION").not_done)

            waits = threading.Thread(target=wait)
            waits.start()
            self.assertTrue(until(lambda: first._waiters and second._waiters))
            settle(first)
            waits.join(30 if ends else 0.05)
            self.assertEqual(told, [{second}] if ends else [])
            second.complete(1)
            waits.join(60)
            self.assertEqual(told, [{second} if ends else set()])


class WaitersThatRaise(CoreCase):
    def test_waiters_that_raise(self):
        """One of those who wait raises as it is told, as an interrupt may: the others are told, each once, and who
        waits for a result wakes."""

        class Waiter:
            def __init__(self, error=None):
                self.told, self.error = 0, error

            def add_result(self, _stage):
                self.told += 1
                if self.error is not None and self.told == 1:
                    raise self.error

        awaited, got = self.request.promise(), []
        waits = threading.Thread(target=lambda: got.append(awaited.result(60)), daemon=True)
        waits.start()
        while not awaited._condition._waiters:
            time.sleep(0.001)
        waiters = [Waiter(), Waiter(KeyboardInterrupt()), Waiter()]
        awaited._waiters.extend(waiters)
        with self.assertRaises(KeyboardInterrupt):
            awaited.complete(5)
        waits.join(30)
        self.assertEqual((got, [it.told for it in waiters], awaited._state), ([5], [1, 1, 1], "FINISHED"))


if __name__ == "__main__":
    unittest.main()
