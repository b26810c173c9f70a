#!/usr/bin/env python3
"""Threads of a service: idle ones are used, each ready stage has one, and a start that fails is tried again.

    CF_LIBRARY=/path/to/libcf.so python3 clients/python/tests/service/test_threads.py [-v] [TEST ..]
"""
import concurrent.futures
import contextvars
import threading
import unittest

from case import fails, no_thread, starting, until
from cf.service import Flow, Service


class Threads(unittest.TestCase):
    def idle(self, pooled, many):
        works = pooled._works
        self.assertTrue(until(lambda: works._idle + len(works._rested) == many))

    def test_idle_threads_are_used(self):
        with Service(4) as pooled:
            for _ in range(20):
                pooled.submit(str).result(20)
                self.idle(pooled, 1)
            self.assertEqual(len(pooled._works.threads), 1)

    def test_each_ready_stage_has_a_thread(self):
        """Stages that wait for each other become ready at once, while one thread is idle, and all of a full pool
        are."""
        with Service(3) as pooled:
            pooled.submit(str).result(20)
            self.idle(pooled, 1)
            on_threads = pooled.request()
            for _ in range(3):
                promise, gate = on_threads.promise(), threading.Barrier(3)
                ends = [promise.then(lambda _: gate.wait(20)) for _ in range(3)]
                promise.complete(1)
                self.assertEqual(sorted(end.result(20) for end in ends), [0, 1, 2])

    def test_a_start_that_fails_is_tried_again(self):
        for threads in (1, 3):
            with Service(threads) as pooled:
                with starting(no_thread):
                    self.assertIn("can't start new thread", str(pooled.submit(str).exception(20)))
                    self.assertIsInstance(pooled.submit(str).exception(20), RuntimeError)
                on_threads, gate = pooled.request(), threading.Barrier(threads)
                ends = [on_threads.supply(gate.wait, 20) for _ in range(threads)]
                self.assertEqual(len([end.result(20) for end in ends]), threads)

    def test_a_start_of_the_clock_that_fails_is_tried_again(self):
        with Service(1) as pooled:
            promise, late = pooled.request().promise(), pooled.request().promise()
            with starting(no_thread), self.assertRaises(RuntimeError):
                late.or_timeout(0)
            self.assertEqual(promise.complete_on_timeout(1, 0.01).result(20), 1)
            self.assertFalse(late.done())

    def test_functions_have_the_context_of_their_thread(self):
        """As those of ThreadPoolExecutor."""
        name = contextvars.ContextVar("name", default="-")
        name.set("caller")
        with Service(1, initializer=lambda: name.set("thread")) as pooled:
            self.assertEqual(pooled.submit(name.get).result(20), "thread")
            self.assertEqual(pooled.submit(contextvars.copy_context().run, name.get).result(20), "caller")

    def test_a_stage_behind_one_that_was_cancelled_in_the_queue(self):
        """Whoever takes the turn of that one finds nothing to run, and the turn is used all the same."""
        with Service(1) as pooled:
            opens, request = threading.Event(), pooled.request()
            pooled.submit(opens.wait, 20)
            self.assertTrue(request.supply(str).cancel())
            opens.set()
            pooled.submit(str).result(20)  # (the turns before it are used)
            self.assertEqual(request.supply(str, 1).result(20), "1")

    def test_100_threads(self):
        with Service(100) as pooled:
            request, gate = pooled.request(), threading.Barrier(100)
            self.assertEqual(len(set(request.gather(*[request.supply(gate.wait, 20) for _ in range(100)]).result(30))), 100)
            self.assertIn("worker 60 claims", str(request.history()))

    def test_all_that_one_event_makes_ready_goes_on_at_once(self):
        """Whatever the event is: each of three functions waits for the other two."""

        def a_finish(request):
            opens = threading.Event()
            return request.supply(opens.wait, 20), opens.set

        def a_failure(request):
            opens = threading.Event()
            return request.supply(lambda: opens.wait(20) and fails()), opens.set

        def a_future(request):
            future = concurrent.futures.Future()
            return request.adopt(future), lambda: future.set_result(1)

        def a_followed_one(request):
            inner = []
            stage = request.supply(str).compose(lambda _: inner.append(request.promise()) or inner[0])
            return stage, lambda: until(lambda: inner) and inner[0].complete(1)

        def a_limit(request):
            return request.promise(), None

        def of_a_promise(settle):
            def way(request):
                promise = request.promise()
                return promise, lambda: settle(promise)

            return way

        ways = {
            "finish": a_finish,
            "failure": a_failure,
            "future": a_future,
            "followed": a_followed_one,
            "limit": a_limit,
            "complete": of_a_promise(lambda it: it.complete(1)),
            "fail": of_a_promise(lambda it: it.fail(OSError())),
            "cancel": of_a_promise(lambda it: it.cancel()),
        }
        with Service(3) as pooled:
            for name, way in ways.items():
                request, gate = pooled.request(), threading.Barrier(3)
                source, happens = way(request)
                ends = [source.handle(lambda *_: gate.wait(60)) for _ in range(3)]
                happens() if happens else source.or_timeout(0)
                self.assertEqual(sorted(str(end.exception(20) or end.result()) for end in ends), ["0", "1", "2"], name)
            flow, gate = Flow(), threading.Barrier(3)
            steps = [flow.supply(gate.wait, 5) for _ in range(3)]
            begun = pooled.start(flow)
            self.assertEqual(sorted(begun[step].result(20) for step in steps), [0, 1, 2])

    def test_of_two_that_an_end_makes_ready_neither_waits_for_the_other(self):
        with Service(2) as pooled:
            on_threads, opens, ran = pooled.request(), threading.Event(), threading.Event()
            source = on_threads.supply(opens.wait, 20)
            first, second = source.then(lambda _: ran.wait(20)), source.then(lambda _: ran.set())
            opens.set()
            self.assertEqual((first.result(30), second.result(20)), (True, None))


if __name__ == "__main__":
    unittest.main()
