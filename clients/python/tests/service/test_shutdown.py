#!/usr/bin/env python3
"""Shutdown of a service: what was handed in is done or cancelled, threads end, whatever begins or fails meanwhile;
initializers.

    CF_LIBRARY=/path/to/libcf.so python3 clients/python/tests/service/test_shutdown.py [-v] [TEST ..]
"""
import concurrent.futures
import contextlib
import gc
import queue
import threading
import time
import unittest

from case import fails, inc, leaves, no_thread, program, starting, until
from cf.service import Service


def ends(service):
    """Whether a service's threads end once it is shut down."""
    ending = threading.Thread(target=service.shutdown, daemon=True)
    ending.start()
    ending.join(20)
    if not ending.is_alive():
        return True
    with contextlib.suppress(queue.Empty):  # (or they would never)
        while True:
            service._works._turns.get(timeout=0.5)
    service._works._turns.put(None)
    return False


class Shutdown(unittest.TestCase):
    def test_shutdown_does_what_was_handed_in(self):
        ending, done = Service(2), []
        of_ending = ending.request()
        handed_in = [of_ending.supply(time.sleep, 0.01).then(done.append) for _ in range(20)]
        ending.shutdown()
        self.assertEqual((len(done), all(stage.done() for stage in handed_in)), (20, True))
        for attach in (lambda: ending.submit(str), lambda: of_ending.supply(str), lambda: handed_in[0].then(str), lambda: handed_in[0].compose(str)):
            with self.assertRaises(RuntimeError):
                attach()

    def test_shutdown_with_cancel(self):
        ending, begun, lets_end = Service(2), threading.Semaphore(0), threading.Event()
        of_ending = ending.request()
        running = [of_ending.supply(lambda: begun.release() or lets_end.wait(60)) for _ in range(2)]
        begun.acquire(), begun.acquire()
        waiting = [of_ending.supply(str) for _ in range(20)]
        behind = waiting[0].handle(lambda v, e: type(e).__name__)
        ending.shutdown(wait=False, cancel_futures=True)
        lets_end.set()
        ending.shutdown()
        self.assertTrue(all(stage.result() for stage in running))
        self.assertTrue(all(stage.cancelled() for stage in waiting))
        self.assertEqual(behind.result(60), "CancelledError")

    def test_shutdown_with_cancel_while_a_thread_takes(self):
        """A thread takes the last stage between two looks of who cancels the rest."""
        ending, lets_end = Service(1), threading.Event()

        class Taken(queue.SimpleQueue):
            def empty(it):
                was = super().empty()
                if not was and threading.current_thread() is ends:
                    lets_end.set()
                    until(super().empty)
                return was

        ending._works._turns = Taken()
        handed_in = [ending.submit(lets_end.wait, 20), ending.submit(str)]
        ends = threading.Thread(target=ending.shutdown, kwargs={"wait": False, "cancel_futures": True}, daemon=True)
        ends.start()
        ends.join(20)
        hangs = ends.is_alive()
        if hangs:
            ending._works._turns.put(ending.request())
        self.assertFalse(hangs)
        lets_end.set()
        self.assertFalse(concurrent.futures.wait(handed_in, 20).not_done)

    def test_shutdown_with_cancel_goes_on_after_a_callback(self):
        ending, lets_end = Service(1), threading.Event()
        running, waiting = ending.submit(lets_end.wait, 20), [ending.submit(str) for _ in range(3)]
        waiting[0].add_done_callback(leaves)
        threading.Timer(0.05, lets_end.set).start()
        with self.assertRaises(SystemExit):
            ending.shutdown(cancel_futures=True)
        self.assertTrue(running.done() and all(stage.cancelled() for stage in waiting))

    def test_shutdown_waits_for_a_thread_that_has_not_begun(self):
        ending, entered, lets_end, handed_in = Service(1), threading.Event(), threading.Event(), []

        def late(thread, start):
            entered.set()
            lets_end.wait(20)
            start(thread)

        submits = threading.Thread(target=lambda: handed_in.append(ending.submit(time.sleep, 0.1)))
        ends = threading.Thread(target=ending.shutdown)
        with starting(late):
            submits.start()
            self.assertTrue(entered.wait(20))
            ends.start()
            ends.join(0.2)
            self.assertTrue(ends.is_alive())
            lets_end.set()
            ends.join(20)
        submits.join(20)
        self.assertTrue(handed_in[0].done())

    def test_shutdown_that_fails_to_start_a_thread_ends(self):
        with Service(2) as ending, starting(no_thread):
            self.assertIsInstance(ending.submit(str).exception(20), RuntimeError)
        with starting(no_thread), Service(2) as ending:
            ending.submit(str)

    def test_ready_behind_the_end(self):
        ending = Service(2)
        promise = ending.request().promise()
        chain = promise.then(inc)
        for _ in range(2000):
            chain = chain.handle(lambda v, e: 0)
        ending.submit(str).result()
        ending.shutdown()
        promise.complete(1)
        self.assertIsInstance(chain.exception(60), RuntimeError)

    def test_put_and_close_at_once(self):
        for _ in range(200):
            ending = Service(2)
            promises = [ending.request().promise() for _ in range(4)]
            ends = [promise.handle(lambda v, e: v) for promise in promises]
            threads = [threading.Thread(target=promise.complete, args=[1]) for promise in promises]
            for thread in threads:
                thread.start()
            ending.shutdown(wait=False)
            self.assertEqual(len(concurrent.futures.wait(ends, 5).done), 4)
            for thread in threads:
                thread.join()

    def test_stages_that_become_ready_behind_the_end_are_run(self):
        """By the thread that still runs; and none is refused."""
        ending, lets_end = Service(1), threading.Event()
        promises = [ending.request().promise() for _ in range(5)]
        ends, running = [promise.then(inc) for promise in promises], ending.submit(lets_end.wait, 20)
        ending.shutdown(wait=False)
        for promise in promises:
            promise.complete(1)
        lets_end.set()
        self.assertEqual([end.result(20) for end in ends], [2] * 5)
        ending.shutdown()
        self.assertTrue(running.result(0))

    def test_exit_with_work_open(self):
        out, err, status = program(
            """
            service = Service(2)
            r = service.request()
            promise = r.promise()
            promise.then(print)
            done = r.supply(time.sleep, 0.2).then(lambda _: print("done", flush=True))
            done.then(lambda _: print("and behind", flush=True))
            r.promise().or_timeout(100)
            service = r = done = None
        """
        )
        self.assertEqual((out, err, status), ("done\nand behind\n", "", 0))

    def test_exit_in_a_callback(self):
        out, err, status = program(
            """
            service = Service(2)
            stage = service.submit(str, 1)
            stage.result()
            stage.add_done_callback(lambda _: print("told"))
            raise SystemExit(3)
        """
        )
        self.assertEqual((out, status), ("told\n", 3), err)

    def test_dropped_service_ends(self):
        ending = Service(2)
        ending.submit(str).result()
        threads = list(ending._works.threads)
        del ending
        gc.collect()
        for thread in threads:
            thread.join(60)
            self.assertFalse(thread.is_alive())


class Initializers(unittest.TestCase):
    def test_initializers_that_fail_let_others_end(self):
        """Without a shutdown, and also where one alone fails."""
        for failing in (1, 2):
            initialized, numbers = Service(1 + failing, initializer=lambda: init()), iter(range(3))
            begun, fail, lets_end = threading.Event(), threading.Event(), threading.Event()

            def init():
                if next(numbers):
                    fail.wait(20)
                    fails()

            running = initialized.submit(lambda: begun.set() or lets_end.wait(20))
            self.assertTrue(begun.wait(20))
            with self.assertLogs("concurrent.futures", "CRITICAL"):
                handed_in = [initialized.submit(str) for _ in range(failing)]
                fail.set()
                for stage in handed_in:
                    self.assertIsInstance(stage.exception(20), concurrent.futures.BrokenExecutor)
            lets_end.set()
            self.assertTrue(running.result(20))
            for thread in initialized._works.threads:
                thread.join(20)
                self.assertFalse(thread.is_alive())
            self.assertTrue(ends(initialized))

    def test_initializer(self):
        local = threading.local()
        with Service(2, initializer=lambda x: setattr(local, "x", x), initargs=(7,)) as initialized:
            self.assertEqual(initialized.submit(lambda: local.x).result(60), 7)
        with self.assertLogs("concurrent.futures", "CRITICAL"):
            initialized = Service(2, initializer=fails)
            stage = initialized.submit(str)
            self.assertIsInstance(stage.exception(60), concurrent.futures.BrokenExecutor)
            with self.assertRaises(concurrent.futures.BrokenExecutor):
                initialized.submit(str)

    def test_initializer_that_fails_loses_nobody(self):
        """Stages wait for the thread whose initializer fails, and a callback of the first leaves."""
        fails_now = threading.Event()
        with self.assertLogs("concurrent.futures", "CRITICAL"):
            initialized = Service(1, initializer=lambda: fails_now.wait(20) and fails())
            handed_in = [initialized.submit(str) for _ in range(3)]
            for stage in handed_in:
                stage.add_done_callback(leaves)
            fails_now.set()
            for stage in handed_in:
                self.assertIsInstance(stage.exception(20), concurrent.futures.BrokenExecutor)
            initialized.shutdown()


if __name__ == "__main__":
    unittest.main()
