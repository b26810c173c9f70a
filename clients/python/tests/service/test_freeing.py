#!/usr/bin/env python3
"""What is let go of, and when: functions, arguments, callbacks and timers of settled stages, requests that nobody has;
cycles, and memory that stays as it is.

    CF_LIBRARY=/path/to/libcf.so python3 clients/python/tests/service/test_freeing.py [-v] [TEST ..]
"""
import asyncio
import concurrent.futures
import contextlib
import functools
import gc
import logging
import os
import sys
import threading
import time
import unittest
import weakref
from pathlib import Path

from case import Case, CoreCase, fails, inc, Oops, program, Thing, until
from cf.service import Flow, LoopService, RequestFull, Service, Stage
from cf.service._core import PlanCore
from cf.service.words import MOST_STAGES
from cf.values import Form

REQUESTS = int(os.environ.get("CF_REQUESTS", "20000"))


class Kept(Case):
    """What is let go of, and when."""

    def test_nothing_is_left_to_the_next_request(self):
        """The module keeps machines of requests that are over: neither words nor deadlines nor moments of one may be
        there in the next one of its plan."""
        flow = Flow()
        number = flow.promise()
        end = number.then(inc)

        def done(request, promise, behind, value):
            self.assertIsInstance(request.promise().or_timeout(0).exception(20), TimeoutError)
            late = promise.complete_on_timeout(-1, 1000)
            self.assertTrue(promise.complete(value))
            self.assertEqual((late.result(20), behind.result(20)), (value, value + 1))
            self.assertEqual(len(request._facts()[0]), len(request.history().words))
            return len(request.history().words), request.history().names

        told = []
        for value in range(6):
            planned, request = self.service.start(flow), self.service.request()
            promise = request.promise()
            told.append((done(planned, planned[number], planned[end], value), done(request, promise, promise.then(inc), value)))
            del planned, request, promise
        self.assertEqual(told, told[:1] * 6)
        self.assertEqual(told[0], ((5, ["promise", "inc", "promise"]), (7, ["promise", "inc", "promise"])))

    def test_more_requests_than_their_plan_keeps_machines_of(self):
        for _ in range(2):
            open_ones = [self.service.request(room=1) for _ in range(1100)]
            self.assertTrue(all([opened.promise().complete(k) for k, opened in enumerate(open_ones)]))
            del open_ones

    def things(self, attach):
        """A stage that is attached with things alone; and whether they are still there."""
        things = [Thing() for _ in range(5)]
        call, first, other, callback, late = things
        freed_stage = attach(call, first, other).complete_on_timeout(late, 1000)
        freed_stage.add_done_callback(callback)
        watched = [weakref.ref(thing) for thing in things]
        return freed_stage, lambda: [it for it in watched if it() is not None]

    def test_settled_stages_keep_nothing(self):
        freed, goes_on = self.request, threading.Event()
        running = [self.service.submit(goes_on.wait, 20) for _ in range(4)]

        def supplied(call, first, other):
            return freed.supply(call, first, other=other)

        def behind(source):
            return lambda call, first, other: source.then(call)

        source = freed.promise()
        cases = [
            (supplied, Stage.cancel),
            (supplied, lambda freed_stage: freed_stage.complete(1)),
            (supplied, lambda freed_stage: freed_stage.fail(Oops())),
            (supplied, lambda _: goes_on.set()),
            (supplied, lambda _: None),
            (behind(source), Stage.cancel),
            (behind(source), lambda _: source.cancel()),
            (behind(freed.supply(str)), lambda _: None),
        ]
        held = []
        for attach, settle in cases:
            freed_stage, left = self.things(attach)
            settle(freed_stage)
            self.assertTrue(freed_stage.done() or until(freed_stage.done))
            self.assertTrue(until(lambda: not left()), left())
            held.append(freed_stage)
        self.assertTrue(until(lambda: all(freed_stage.done() for freed_stage in [*held, *running])))

    def test_idle_threads_keep_nothing(self):
        """A thread that waits for its next turn has no request, which a turn is."""
        gc.disable()
        try:
            for call, *given in ((Thing(),), (lambda it: it, Thing()), (fails,)):
                freed_stage = self.service.submit(call, *given)
                freed_stage.exception(20)
                watched = [weakref.ref(freed_stage)]
                if call is not fails:  # (an exception keeps frames, and one of these has the request)
                    watched.append(weakref.ref(freed_stage.request))
                del call, given, freed_stage
                self.assertTrue(until(lambda: all(it() is None for it in watched)))
        finally:
            gc.enable()

    def test_unsettled_stages_that_nobody_has_are_freed(self):
        def make():
            freed, thing = self.service.request(), Thing()
            promise = freed.promise()
            first = freed.first_of(freed.promise(), promise)
            freed.gather(promise, promise.then(thing), first).then(thing).compose(thing)
            return weakref.ref(thing), weakref.ref(freed)

        watched = [make() for _ in range(3)]
        gc.collect()
        self.assertEqual([it for both in watched for it in both if it() is not None], [])


class Dropped(unittest.TestCase):
    def test_dropped_stage_is_done(self):
        done = threading.Event()
        with Service(1) as dropped:
            dropped.request().supply(str).then(lambda _: done.set())
            dropped.submit(fails)
            gc.collect()
            self.assertTrue(done.wait(60))

    def test_dropped_requests_are_freed_at_once(self):
        class Thing:
            pass

        gc.disable()
        try:
            with Service(1) as dropped:
                freed, thing = dropped.request(), Thing()
                freed_stage = freed.supply(lambda it: it, thing).then(lambda it: it).compose(lambda it: freed.supply(str)).recover(str)  # noqa: F821
                watched = weakref.ref(thing)
                del thing
                freed_stage.result(60)
                dropped.shutdown()
                del freed, freed_stage
                self.assertIsNone(watched())
        finally:
            gc.enable()


class Lifetime(CoreCase):
    """What is over keeps nothing that isn't asked for any more, and is freed without a collection where it can be."""

    def setUp(self):
        super().setUp()
        gc.disable()

    def tearDown(self):
        gc.enable()
        super().tearDown()

    def test_a_settled_stage_keeps_no_function_arguments_or_callbacks(self):
        ways = [
            lambda freed_stage, source: source.complete(1),
            lambda freed_stage, source: source.fail(OSError()),
            lambda freed_stage, source: source.cancel(),
            lambda freed_stage, source: freed_stage.cancel(),
            lambda freed_stage, source: freed_stage.complete(2),
            lambda freed_stage, source: freed_stage.or_timeout(0.001),
        ]
        for number, way in enumerate(ways):
            source, function, callback = self.request.promise(), Thing(), Thing()
            freed_stage = source.then(function)
            freed_stage.add_done_callback(callback)
            watched = [weakref.ref(function), weakref.ref(callback)]
            del function, callback
            way(freed_stage, source)
            concurrent.futures.wait([freed_stage], 30)
            self.released(watched, number)
        given, more = Thing(), Thing()
        watched = [weakref.ref(given), weakref.ref(more)]
        freed_stage = self.request.supply(lambda *_args, **_more: 1, given, more=more)
        del given, more
        self.assertEqual(freed_stage.result(30), 1)
        self.released(watched, "arguments")

    def released(self, watched, which):
        until = time.monotonic() + 60
        while any(it() is not None for it in watched) and time.monotonic() < until:
            time.sleep(0.001)  # (the thread that ran it lets go of it a moment later)
        self.assertEqual([it() for it in watched], [None] * len(watched), which)

    def test_an_exception_that_was_raised_keeps_no_stage(self):
        freed_stage = self.service.request().promise()
        freed_stage.fail(Oops())
        watched = weakref.ref(freed_stage)
        with contextlib.suppress(Oops):
            freed_stage.result(0)
        del freed_stage
        self.assertIsNone(watched())

    def test_a_settled_stage_keeps_no_timer(self):
        value = Thing()
        watched, freed_stage = [weakref.ref(value)], self.request.promise().complete_on_timeout(value, 1000)
        del value
        freed_stage.complete(1)
        self.released(watched, "value")

    def test_cycles_are_collected(self):
        """Through callbacks, arguments, functions, values, exceptions and what a request keeps."""

        def by_callback(freed, thing):
            freed_stage = freed.promise()
            freed_stage.add_done_callback(lambda _: (freed_stage, thing))

        def by_value(freed, thing):
            freed_stage = freed.promise()
            freed_stage.complete((freed_stage, thing))

        def by_error(freed, thing):
            freed_stage, error = freed.promise(), OSError()
            error.kept = freed_stage, thing
            freed_stage.fail(error)

        def by_arguments(freed, thing):
            freed_stage = freed.promise()
            kept = [freed_stage, thing]
            freed_stage.then(functools.partial(print, kept))

        def by_attribute(freed, thing):
            freed_stage = freed.promise()
            freed_stage.itself, freed_stage.thing = freed_stage, thing

        def by_waiter(freed, thing):
            freed_stage = freed.promise()
            freed_stage._waiters.append((freed_stage, thing))
            freed_stage._condition.__dict__.update(kept=(freed_stage, thing))

        def by_flow(freed, thing):
            flow = Flow()
            flow.promise().then(lambda _: (flow, thing))
            flow.run()

        def by_cancelled(freed, thing):
            freed_stage = freed.promise()
            behind = freed.all_of(freed_stage)
            freed_stage.cancel()
            behind.exception(0).kept = behind, thing

        for make in (by_callback, by_value, by_error, by_arguments, by_attribute, by_waiter, by_flow, by_cancelled):
            thing = Thing()
            watched = weakref.ref(thing)
            make(self.service.request(), thing)
            del thing
            gc.collect()
            self.assertIsNone(watched(), make.__name__)

    def test_long_rows_are_dropped_without_a_stack(self):
        """Each request holds the next, by a callback or a value, in a thread with little stack."""
        out, err, status = program(
            """
            service = Service(1)

            def drops(settle):
                first = last = service.request(room=1).promise()
                for _ in range(4000):
                    last = service.request(room=1).adopt(last)
                if settle:
                    first.complete(first)
                value = None
                for _ in range(4000):
                    stage = service.request(room=1).promise()
                    stage.complete(value)
                    value = [stage]
                del first, last, stage, value
                gc.collect()
            threading.stack_size(2048 * 1024)
            for settle in (False, True):
                thread = threading.Thread(target=drops, args=[settle])
                thread.start()
                thread.join()
            print("dropped")
        """
        )
        self.assertEqual((out, status), ("dropped\n", 0), err)


class Blocks(CoreCase):
    """Not one block of memory stays behind, whatever a call ends in."""

    def flat(self, *makes, many=400):
        for make in makes:
            for _ in range(many // 4):
                make()
            gc.collect()
            before = sys.getallocatedblocks()
            for _ in range(many):
                make()
            gc.collect()
            self.assertLess(sys.getallocatedblocks() - before, many // 2)

    def test_callbacks(self):
        def calls(callback):
            freed_stage = self.service.request().promise()
            freed_stage.add_done_callback(callback)
            freed_stage.complete(1)
            freed_stage.add_done_callback(callback)

        self.flat(lambda: calls(lambda _: object()), lambda: calls(fails))

    def test_what_is_refused(self):
        freed, other, full = self.request, self.service.request().promise(), self.service.request()
        source, last = freed.promise(), full.promise()
        for _ in range(MOST_STAGES - 1):
            full.promise()

        def refused(call, *given):
            with self.assertRaises((TypeError, ValueError, RequestFull)):
                call(*given)

        self.flat(
            lambda: refused(freed._gather, Form.ALL_OF, [source, other], "x"),
            lambda: refused(full._gather, Form.ALL_OF, [last, last], "x"),
            lambda: refused(full._attach, Form.APPLY, last, None, object().__repr__, ([],), {"x": []}, "x"),
            lambda: refused(full._attach, Form.COMPOSE, last, None, object().__repr__, None, None, "x"),
            lambda: refused(freed._attach, Form.APPLY, other, None, inc, None, None, "inc"),
            lambda: refused(PlanCore, [(99, (), None, "x")]),
        )

    def test_outcomes(self):
        def ends(settle):
            source = self.service.request().promise()
            behind = source.then(inc).handle(lambda *given: given)
            settle(source)
            return source.exception(20) if not source.cancelled() else None, behind.result(20)

        self.flat(
            lambda: ends(lambda source: source.complete([])),
            lambda: ends(lambda source: source.fail(Oops())),
            lambda: ends(Stage.cancel),
            lambda: ends(lambda source: source.or_timeout(0)),
            lambda: ends(lambda source: source.complete_on_timeout([], 0)),
            lambda: ends(lambda source: source.named("x" * 100).complete([])),
        )

    def test_flows(self):
        flow = Flow()
        number = flow.promise()
        end = flow.gather(number.then(lambda x: [x]), number.then(fails).recover(lambda error: [error]))
        self.flat(lambda: flow.run(1)[end].result(0), lambda: self.service.start(flow, 1)[end].result(20), lambda: flow.run())

    def test_functions_of_a_loop(self):
        async def later(*given, **more):
            await asyncio.sleep(0)
            return given, more

        async def main():
            loop_service = LoopService(asyncio.get_running_loop())

            async def makes():
                freed = loop_service.request()
                await freed.supply(later, [1], more=2).then(later).then(lambda given: [given])
                await freed.supply(fails).recover(later).compose(lambda given: freed.supply(later, given))

            for many in (100, 400):
                gc.collect()
                before = sys.getallocatedblocks()
                for _ in range(many):
                    await makes()
            gc.collect()
            self.assertLess(sys.getallocatedblocks() - before, 200)

        asyncio.run(main())


class Memory(unittest.TestCase):
    def flat(self, make, many=REQUESTS):
        """Makes requests, and compares what is resident after a fifth of them with what is at the end."""

        def resident():
            gc.collect()
            return int(Path("/proc/self/statm").read_text().split()[1]) * os.sysconf("SC_PAGE_SIZE")

        for _ in range(many // 5):
            make()
        first = resident()
        for _ in range(many - many // 5):
            make()
        self.assertLess(resident() - first, 3_000_000)

    def setUp(self):
        if not Path("/proc/self/statm").exists():
            self.skipTest("no /proc")
        logging.disable(logging.CRITICAL)
        self.service = Service(2)

    def tearDown(self):
        logging.disable(logging.NOTSET)
        self.service.shutdown()

    def test_submits(self):
        self.flat(lambda: self.service.submit(inc, 1).result())

    def test_requests(self):
        def make():
            freed = self.service.request()
            number = freed.supply(int, "1").or_timeout(1000)
            freed.promise().then(inc), freed.promise().cancel()
            both = number.then(fails).recover(str).combine(number, lambda a, b: [a, b])
            both.compose(lambda x: freed.supply(list, x)).result()
            freed.gather(number, number).result()

        self.flat(make)

    def test_flows(self):
        flow = Flow()
        end = flow.promise().then(inc).then(fails).recover(str)
        self.flat(lambda: self.service.start(flow, 1)[end].result())
        self.flat(lambda: flow.run(1))

    def test_plans(self):
        """A plan is dropped with the machines that it has kept."""

        def make():
            flow = Flow()
            flow.promise().then(inc)
            self.assertEqual(len([flow.run() for _ in range(20)]), 20)

        self.flat(make, 400)


if __name__ == "__main__":
    unittest.main()
