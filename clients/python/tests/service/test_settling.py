#!/usr/bin/env python3
"""Who settles a stage: of complete, fail, cancel and abandon the first one does, also while its function runs.

    CF_LIBRARY=/path/to/libcf.so python3 clients/python/tests/service/test_settling.py [-v] [TEST ..]
"""
import asyncio
import concurrent.futures
import functools
import threading
import traceback
import unittest
from concurrent.futures import InvalidStateError

from case import Case, CoreCase, fails, inc, leaves, Oops
from cf.testing import orders


def outcome_of(stage):
    return "cancelled" if stage.cancelled() else stage.result() if stage.exception() is None else "late"


class Settling(Case):
    def test_first_wins(self):
        settling = self.request.promise()
        self.assertFalse(settling.done())
        self.assertTrue(settling.complete(1))
        self.assertFalse(settling.complete(2) or settling.fail(Oops()) or settling.cancel() or settling.abandon())
        self.assertEqual((settling.result(), settling.done(), settling.cancelled(), settling.running()), (1, True, False, False))
        with self.assertRaises(InvalidStateError):
            settling.set_result(1)
        with self.assertRaises(InvalidStateError):
            settling.set_exception(Oops())

    def test_running_stages(self):
        begun, goes_on = threading.Event(), threading.Event()
        running = self.request.supply(lambda: begun.set() or goes_on.wait(60) or 1)
        begun.wait(60)
        self.assertTrue(running.running())
        self.assertFalse(running.cancel())
        self.assertTrue(running.abandon())
        goes_on.set()
        self.assertTrue(running.cancelled())
        self.service.shutdown()
        self.assertIn("too late", str(self.request.history()))

    def test_a_request_is_cancelled_from_its_last_stage_on(self):
        """No function that takes exceptions is called because of what the request's cancelling does."""
        called = threading.Event()
        first = self.request.promise("first")
        first.handle(lambda value, error: called.set()).named("handled")
        first.add_done_callback(lambda _: called.wait(0.5))  # as long as a thread of the service takes to call it
        self.request.cancel()
        self.service.shutdown()
        self.assertFalse(called.is_set())
        self.assertEqual([line.split(" ends: ")[0].split()[-1] for line in self.request.history().lines() if " ends: " in line], ["handled", "first"])

    def test_one_settles_in_every_order(self):
        """A function, a limit and three callers: the first settles the stage, and `cancel` does nothing while the
        function runs."""

        def test(world):
            ran, told = [], []
            stage = world.service.request("r").supply(ran.append, 1).or_timeout(1)

            def cancel():
                runs = stage.running()
                told.append(not (stage.cancel() and runs))

            world.calls(functools.partial(stage.complete, 2))
            world.calls(cancel)
            world.calls(stage.abandon)
            world.at_end(lambda: all(told), "no cancel while the function runs")
            world.at_end(lambda: seen.add((outcome_of(stage), bool(ran))) or True, "seen")
            return stage

        seen = set()
        report = orders(test)
        self.assertEqual((report.whole, list(map(str, report.failed))), (True, []))
        self.assertEqual(seen, {("cancelled", False), ("cancelled", True), (2, False), (2, True), (None, True), ("late", False), ("late", True)})

    def test_a_request_is_cancelled(self):
        """All that is open is, also what runs and what a callback would have kept from it; what is settled stays."""
        settling, begun, goes_on = self.request, threading.Event(), threading.Event()
        done = settling.promise()
        done.complete(1)
        runs = settling.supply(lambda: begun.set() or goes_on.wait(20))
        self.assertTrue(begun.wait(20))
        left = [settling.promise(), runs.then(inc), settling.promise().or_timeout(1000), settling.gather(runs, done)]
        left[0].add_done_callback(leaves)
        with self.assertRaises(SystemExit):
            settling.cancel()
        goes_on.set()
        for stage in (runs, *left):
            with self.assertRaises(concurrent.futures.CancelledError):
                stage.result(20)
        self.assertEqual((done.result(), settling.promise().complete(1)), (1, True))
        words = len(settling.history().words)
        self.assertIsNone(settling.cancel())
        self.assertEqual(len(settling.history().words), words)

    def test_only_exceptions_fail_a_stage(self):
        wrong = self.request.promise()
        for error in ("x", None, ValueError):
            with self.assertRaisesRegex(TypeError, r"an exception is wanted, and not a \w+: fail\(ValueError"):
                wrong.fail(error)
        self.assertFalse(wrong.done())
        self.assertTrue(wrong.fail(ValueError("x")))

    def test_an_exception_that_is_raised_often_has_one_traceback(self):
        """All stages that fail by it have the same, and none shows what was raised behind another."""
        failed = self.request.supply(fails)
        stages = [failed, *[failed.then(inc) for _ in range(5)], self.service.request().adopt(failed)]

        async def main(stage):
            await stage

        def frames_of(raises):
            try:
                raises()
            except Oops as error:
                return [frame.name for frame in traceback.extract_tb(error.__traceback__)]

        for stage in stages:
            for raises in (stage.result, lambda: asyncio.run(main(stage))):
                first, *others = [frames_of(raises) for _ in range(3)]
                self.assertEqual(others, [first] * 2)
                self.assertEqual((first.count("fails"), first[0]), (1, "frames_of"))

    def test_promise_of_somebody_else(self):
        settling = self.request.promise()
        self.assertTrue(settling.set_running_or_notify_cancel())
        self.assertFalse(settling.cancel())
        with self.assertRaises(RuntimeError):
            settling.set_running_or_notify_cancel()
        settling.set_result(1)
        stopped = self.request.promise()
        stopped.cancel()
        self.assertFalse(stopped.set_running_or_notify_cancel())


class SettlingInOneStep(CoreCase):
    def test_who_is_told_that_a_stage_is_settled_finds_it_so(self):
        """An event and what it settles are one step: here the first of two stages is long in waking its waiters."""
        r, begun, goes_on, told = self.request, threading.Event(), threading.Event(), []

        class Slow:
            def add_result(self, _stage):
                begun.set()
                goes_on.wait(30)

        first = r.promise()
        second = r.all_of(first)
        with first._condition:
            first._waiters.append(Slow())
        threads = [
            threading.Thread(target=first.complete, args=[1]),
            threading.Thread(target=lambda: told.append((second.complete(2), second.done()))),
        ]
        threads[0].start()
        self.assertTrue(begun.wait(30))
        threads[1].start()
        threads[1].join(0.2)
        goes_on.set()
        for thread in threads:
            thread.join(30)
        self.assertEqual(told, [(False, True)])


if __name__ == "__main__":
    unittest.main()
