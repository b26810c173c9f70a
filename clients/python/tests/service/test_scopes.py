#!/usr/bin/env python3
"""Scopes, deadlines of requests, retries and `is_stopping`.

    CF_LIBRARY=/path/to/libcf.so python3 clients/python/tests/service/test_scopes.py [-v] [TEST ..]
"""
import asyncio
import concurrent.futures
import contextvars
import gc
import random
import sys
import threading
import time
import unittest
import weakref
from concurrent.futures import CancelledError

from case import Case, CoreCase, Oops, Wild, fails, inc, until
from cf.service import Flow, LoopService, Meter, RequestFull, ScopeEnded, Service, is_stopping, spans_of
from cf.service.words import CLOCK, MOST_CALLERS, RELAY
from test_joins import failures


def callers(request):
    """Who did each event that settled a stage."""
    return [word >> 48 & 0xFF for word in request.history().words]


class Held:
    """A function that waits until it is let go, and keeps whether it may stop."""

    def __init__(self):
        self.go, self.begun, self.ended, self.stops = threading.Event(), threading.Event(), threading.Event(), []

    def __call__(self, *_):
        self.begun.set()
        self.go.wait(20)
        self.stops.append(is_stopping())
        self.ended.set()
        return 1


class Scopes(Case):
    def setUp(self):
        super().setUp()
        self.all_held = []

    def tearDown(self):
        for held in self.all_held:
            held.go.set()
        super().tearDown()

    def held(self):
        self.all_held.append(Held())
        return self.all_held[-1]

    def test_a_first_success_ends_the_others(self):
        slow, scope = self.held(), self.request.scope()
        losers = [scope.supply(slow), scope.promise()]
        with scope:
            self.assertEqual(scope.ends_with(scope.first(*losers, scope.supply(inc, 1)).recover(lambda _: 0)).result(20), 2)
            self.assertTrue(all(loser.cancelled() for loser in losers))
        slow.go.set()
        self.assertTrue(until(lambda: slow.stops == [True]))

    def test_what_a_method_attaches_is_of_the_stage_s_scope(self):
        scope, outside = self.request.scope(), self.request.promise()
        first, foreign = scope.promise(), concurrent.futures.Future()
        made = [
            first.then(inc),
            first.combine(foreign, max),
            first.combine(outside, max),
            first.compose(lambda _: outside),
            first.recover_compose(lambda _: outside).handle(lambda *_: 1),
            scope.gather(first, outside, foreign),
            scope.all_of(first, outside, foreign),
            scope.first(foreign, outside),
            scope.all(first, outside),
            scope.quorum(1, outside),
            scope.adopt(concurrent.futures.Future()),
            scope.retry(inc, 1),
        ]
        kept = self.request._stages
        free = [self.request.all_of(first, *made), self.request.first(*made), outside.then(inc), outside.combine(first, max), self.request.promise()]
        own = scope._stage.number
        self.assertEqual([number for number in range(kept) if not self.request._is_within(number, own)], [own, outside.number])
        self.assertEqual([number for number in range(kept, self.request._stages) if self.request._is_within(number, own)], [])
        scope.end()
        self.assertTrue(all(self.request._stage(number).done() for number in range(kept) if number != outside.number))
        self.assertEqual([stage.done() for stage in free[2:]], [False, False, False])
        self.assertEqual((len(foreign._relays), outside.done()), (0, False))

    def test_an_ended_scope_takes_nothing(self):
        scope = self.request.scope(name="quotes")
        stage, other = scope.promise(), self.request.promise()
        scope.end()
        scope.end()
        before = self.request._stages, self.request._events
        foreign = concurrent.futures.Future()
        for attach in (
            lambda: scope.supply(inc, 1),
            scope.promise,
            scope.scope,
            lambda: scope.scope(5),
            lambda: scope.adopt(foreign),
            lambda: scope.all_of(other),
            lambda: scope.first_of(other, other),
            lambda: scope.gather(other),
            lambda: scope.first(other),
            lambda: scope.all(other, other),
            lambda: scope.quorum(1, other),
            lambda: scope.retry(inc, 1),
            lambda: scope.ends_with(foreign),
            lambda: stage.then(inc),
            lambda: stage.compose(inc),
            lambda: stage.combine(foreign, max),
        ):
            with self.assertRaisesRegex(ScopeEnded, "quotes has ended"):
                attach()
        self.assertEqual((self.request._stages, self.request._events), before)
        self.assertEqual(scope.ends_with(other), other)  # which attaches nothing
        self.assertEqual(other.combine(stage, max).done(), False)  # of no scope, as `other` isn't
        self.assertIn("ended", repr(scope))

    def test_scopes_within_scopes(self):
        outer = self.request.scope()
        inner, beside = outer.scope(), outer.scope()
        stages = [outer.promise(), inner.promise(), beside.promise()]
        inner.end()
        self.assertEqual([stage.cancelled() for stage in stages], [False, True, False])
        outer.end()
        self.assertEqual([stage.cancelled() for stage in stages], [True, True, True])
        with self.assertRaises(ScopeEnded):
            beside.promise()
        scope = self.request.scope()
        left = scope.promise()
        self.request.cancel()
        self.assertTrue(left.cancelled())
        with self.assertRaises(ScopeEnded):
            scope.promise()

    def test_a_scope_ends_with_a_stage_in_whichever_way(self):
        for settle in (
            lambda stage: stage.complete(1),
            lambda stage: stage.fail(Oops()),
            lambda stage: stage.cancel(),
            lambda stage: stage.or_timeout(0),
        ):
            for of in (self.request.scope(), self.request):
                scope = of if of is not self.request else self.request.scope()
                last, left = of.promise(), scope.promise()
                self.assertIs(scope.ends_with(last), last)
                self.assertFalse(left.done())
                settle(last)
                self.assertTrue(until(left.cancelled))
        scope = self.request.scope()
        left, foreign = scope.promise(), concurrent.futures.Future()
        self.assertFalse(scope.ends_with(foreign).done() or left.done())
        foreign.set_result(3)
        self.assertTrue(left.cancelled())
        scope = self.request.scope()
        scope.ends_with(last)  # which is settled
        with self.assertRaises(ScopeEnded):
            scope.promise()

    def test_a_deadline(self):
        scope = self.request.scope(0.05, "quotes")
        stage = scope.promise()
        with self.assertRaises(CancelledError):
            stage.result(20)
        self.assertTrue(until(lambda: "clock times out 0 quotes" in str(self.request.history())))
        self.assertEqual(callers(self.request)[-2:], [CLOCK, RELAY])
        with self.assertRaises(ValueError):
            self.request.scope(float("nan"))
        self.assertEqual(self.request._stages, 2)
        with self.request.scope(float("inf")) as scope:
            self.assertEqual(scope.supply(inc, 1).result(), 2)
        with self.assertRaisesRegex(RuntimeError, "clock"):
            Flow().run().scope(1)

    # Blocks.

    def test_a_block_waits_for_all(self):
        seen = []

        def begin(scope, depth):
            time.sleep(0.01)
            seen.append(depth)
            if depth:
                scope.supply(begin, scope, depth - 1)  # behind whose end nothing stands

        with self.request.scope() as scope:
            scope.supply(begin, scope, 3)
            scope.promise("paused").complete_on_timeout(1, 0.05).then(seen.append)
            idle = scope.supply(inc, 1).compose(lambda n: scope.supply(inc, n))
            scope.first(scope.supply(inc, 1)).cancel()  # whose join stays open for a while
        self.assertEqual((sorted(seen), idle.result(0)), ([0, 1, 1, 2, 3], 3))
        with self.assertRaises(ScopeEnded):
            scope.promise()
        self.assertEqual(self.request.waits(), [])

    def test_a_block_raises_what_nobody_takes_over(self):
        slow, late = self.held(), self.held()
        with self.assertRaises(Exception) as caught:
            with self.request.scope(name="parts") as scope:
                left = scope.supply(slow)
                scope.promise().then(late).cancel()
                scope.supply(fails)
                scope.supply(fails).then(inc).recover(lambda _: 0)
        self.assertEqual([type(error) for error in failures(caught.exception)], [Oops])
        self.assertTrue(left.cancelled())
        with self.assertRaises(Exception) as caught:
            with self.request.scope() as scope:
                both = [scope.promise(), scope.promise()]
                [stage.fail(error) for stage, error in zip(both, [Oops(1), Oops(2)])]
                both[0].then(inc)  # its failure is that of the stage behind it
        self.assertEqual(sorted(error.args for error in failures(caught.exception)), [(1,), (2,)])

    def test_what_takes_a_failure_over(self):
        other = self.service.request("other")
        with self.request.scope() as scope:
            scope.supply(fails).recover(lambda _: 0)
            scope.first(scope.supply(fails), scope.supply(inc, 1))
            with self.assertRaises(Oops):
                scope.supply(fails).result(20)
            self.assertIsInstance(scope.supply(fails).exception(20), Oops)
            other.adopt(scope.supply(fails))
            scope.supply(inc, 1).compose(lambda _: scope.supply(fails)).handle(lambda *_: 0)
            scope.promise().cancel()
            scope.adopt(concurrent.futures.Future()).abandon()

    def test_a_function_may_still_take_over_what_it_attached(self):
        """A failure isn't anybody's as long as the function goes on that attached the stage: it may yet ask, or give it."""

        def asks(scope):
            stage = scope.supply(fails)
            until(stage.done)
            time.sleep(0.05)
            return stage.exception(20)

        def gives(_):
            stage = scope.supply(fails)
            until(stage.done)
            time.sleep(0.05)
            return stage

        def forgets(scope):
            until(scope.supply(fails).done)
            time.sleep(0.05)

        with self.request.scope() as scope:
            scope.supply(asks, scope)
            scope.supply(inc, 1).compose(gives).recover(lambda _: 0)
        with self.assertRaises(Exception) as caught:
            with self.request.scope() as scope:
                scope.supply(forgets, scope)
        self.assertEqual([type(error) for error in failures(caught.exception)], [Oops])

    def test_a_block_that_is_left_by_an_exception(self):
        error = Oops("of the block")
        with self.assertRaises(Oops) as caught:
            with self.request.scope() as scope:
                left = scope.promise()
                scope.promise().fail(Wild("beside"))
                raise error
        self.assertIs(caught.exception, error)
        self.assertTrue(left.cancelled())
        if sys.version_info >= (3, 11):
            self.assertIn("Wild('beside')", error.__notes__[0])
        else:
            self.assertIsInstance(error.__context__, Wild)
        with self.assertRaises(CancelledError):
            with self.request.scope(60) as scope:
                stage = scope.promise()
                stage.cancel()
                stage.result()

    def test_a_block_whose_deadline_passes(self):
        for body in (lambda scope: scope.promise().result(20), lambda scope: scope.promise(), lambda scope: scope.scope().supply(self.held())):
            with self.assertRaisesRegex(TimeoutError, "quotes took longer than 0.05 s"):
                with self.request.scope(0.05, "quotes") as scope:
                    body(scope)
        with self.request.scope(0.05) as scope:
            scope.supply(inc, 1).result()
            until(scope._stage.done)
        with self.assertRaises(Oops):  # which isn't the deadline's doing
            with self.request.scope(0.05) as scope:
                until(scope.promise().done)
                raise Oops

    def test_a_request_with_a_timeout(self):
        with self.assertRaisesRegex(TimeoutError, "order 17 took longer than 0.05 s"):
            with self.service.request("order 17", timeout=0.05) as request:
                stages = [
                    request.promise(),
                    request.supply(self.held()),
                    request.all_of(request.promise(), request.promise()),
                    request.scope().promise(),
                ]
                self.assertEqual([wait.name for wait in request.waits()][0], "promise")
                stages[0].result(20)
        self.assertEqual([stage.cancelled() or type(stage.exception(0)) is CancelledError for stage in stages], [True] * 4)
        with self.assertRaises(ScopeEnded):
            request.supply(inc, 1)
        with self.service.request(timeout=60) as request:
            stage = request.supply(inc, 1).then(inc)
        self.assertEqual((stage.result(0), request.waits(), request._moment), (3, [], 2**64 - 1))
        with self.assertRaises(ValueError):
            self.service.request(timeout=float("nan"))

    def test_interrupts_leave_nothing_open(self):
        """A block that waits, and is interrupted then, ends its scope."""

        def interrupt(_request, _scope):
            raise KeyboardInterrupt

        self.request.__class__, before = type("Interrupted", (type(self.request),), {"_wait_within": interrupt, "__slots__": ()}), type(self.request)
        self.addCleanup(setattr, self.request, "__class__", before)
        with self.assertRaises(KeyboardInterrupt):
            with self.request.scope() as scope:
                left = scope.promise()
        self.assertTrue(left.cancelled())

    def test_a_scope_that_ends_while_a_stage_is_attached(self):
        """The future from outside, for which a relay was attached by then, doesn't keep it."""
        scope = self.request.scope()

        class Ends(concurrent.futures.Future):
            def add_done_callback(self, fn):
                super().add_done_callback(fn)
                scope.end()

        for attach in (lambda future: stage.combine(future, max), lambda future: scope.gather(future), lambda future: scope.first(stage, future)):
            stage, future = scope.promise(), Ends()
            with self.assertRaises(ScopeEnded):
                attach(future)
            self.assertEqual(len(future._relays), 0)
            scope = self.request.scope()

    # What else looks at stages.

    def test_a_scope_is_no_promise_and_no_failure(self):
        told, meter = [], Meter()
        with Service(2, on_end=lambda history: (told.append(history), meter(history))) as service:
            with service.request("order 17") as request, request.scope() as scope:
                slow = self.held()
                quotes = [scope.supply(slow), scope.supply(inc, 1)]
                self.assertEqual([wait.name for wait in request.waits() if wait.state == "promise"], [])
                scope.ends_with(scope.first(*quotes)).result(20)
            slow.go.set()
            self.assertTrue(until(lambda: told))
            open_one = service.request("open")
            open_one.scope()
            open_one.supply(inc, 1).result(20)
            open_one.end()
            self.assertTrue(until(lambda: len(told) == 2))
            self.assertEqual(spans_of(told[0])[0].status, 1)
            self.assertIn("cf_memory_failed_requests_total 0", meter.text(service))

    def test_memory(self):
        """A settled stage of a scope, and a future outside, keep no request; a callback may end a scope."""
        foreign, kept = concurrent.futures.Future(), []
        for _ in range(3):
            request = self.service.request()
            scope = request.scope(60)
            scope.adopt(foreign)
            scope.promise().add_done_callback(lambda _, scope=scope: scope.end())
            scope.end()
            kept.append(weakref.ref(request))
            del request, scope
        self.assertTrue(until(lambda: gc.collect() >= 0 and not any(it() for it in kept)), "a request is kept")
        full = self.service.request()
        scope = full.scope()
        for _ in range(4092):
            scope.promise()
        for attach in (lambda: scope.retry(inc, 1), lambda: scope.gather(*[scope.promise()] * 5), lambda: scope.first(concurrent.futures.Future())):
            with self.assertRaises(RequestFull):
                attach()
        scope.end()
        self.assertEqual(sum(full._stage(number).cancelled() for number in range(full._stages)), full._stages)


class Stopping(Case):
    def test_functions_on_threads(self):
        self.assertFalse(is_stopping())
        for service in (self.service, Service(2, contexts=True)):
            request, held = service.request(), Held()
            inner = []
            flow = Flow()
            flow.supply(lambda: inner.append(is_stopping()))
            scope = request.scope()
            stage = scope.supply(lambda: (held(), flow.run(), held.stops.append(is_stopping())))
            held.begun.wait(20)
            scope.end()
            held.go.set()
            self.assertTrue(until(lambda: len(held.stops) == 2))
            self.assertEqual((held.stops, inner, stage.cancelled()), ([True, True], [False], True))
            self.assertEqual(request.supply(is_stopping).result(20), False)
            flow = Flow()
            step, held = flow.supply(Held()), None
            planned = service.start(flow)
            held = planned._plan.rows[step.number][2]
            held.begun.wait(20)
            planned[step].complete(0)
            held.go.set()
            self.assertTrue(until(lambda: held.stops == [True]))
            service.shutdown()

    def test_on_a_loop(self):
        async def main():
            service, said = LoopService(asyncio.get_running_loop()), []
            request = service.request()

            async def work():
                said.append(is_stopping())
                try:
                    await asyncio.sleep(20)
                finally:
                    said.append(is_stopping())
                    said.append(await asyncio.get_running_loop().run_in_executor(None, contextvars.copy_context().run, is_stopping))

            stage = request.supply(work)
            while not said:
                await asyncio.sleep(0)
            self.assertEqual(is_stopping(), False)
            stage.complete(1)
            self.assertEqual(await request.supply(is_stopping), False)
            while len(said) < 3:
                await asyncio.sleep(0.001)
            self.assertEqual(said, [False, True, True])

            async def hands_on():
                return self.service.submit(is_stopping), Service(1, contexts=True).submit(is_stopping)

            for stage in await request.supply(hands_on):
                self.assertFalse(await stage)

        asyncio.run(main())


class Retries(Case):
    def flaky(self, *errors):
        left, calls = list(errors), []

        def call(*given):
            calls.append((time.monotonic(), given))
            if left:
                raise left.pop(0)
            return "paid"

        return call, calls

    def test_tries(self):
        call, calls = self.flaky(OSError(1), ConnectionError(2))
        self.assertEqual(self.request.retry(call, 17, delay=0.05, factor=3, jitter=False).result(20), "paid")
        self.assertEqual([given for _, given in calls], [(17,)] * 3)
        pauses = [after - before for (before, _), (after, _) in zip(calls, calls[1:])]
        self.assertTrue(pauses[0] >= 0.05 and pauses[1] >= 0.15, pauses)
        self.assertEqual(self.request._stages, 13)
        self.assertEqual(self.request.waits(), [])

    def test_the_last_failure_keeps_the_others(self):
        errors = [OSError(1), OSError(2), OSError(3)]
        call, calls = self.flaky(*errors)
        stage = self.request.retry(call, delay=0.01)
        self.assertIs(stage.exception(20), errors[2])
        self.assertEqual(len(calls), 3)
        if sys.version_info >= (3, 11):
            self.assertEqual(errors[2].__notes__, ["try 1 failed: OSError(1)", "try 2 failed: OSError(2)"])
        else:
            self.assertEqual(failures(errors[2]), [errors[2], *errors[:2]])
        call, calls = self.flaky(Oops(), OSError())
        self.assertIsInstance(self.request.retry(call, delay=0, on=OSError).exception(20), Oops)
        self.assertEqual(len(calls), 1)
        call, calls = self.flaky(Oops(), KeyError())
        self.assertEqual(self.request.retry(call, delay=0).result(20), "paid")
        call, calls = self.flaky(Oops(), OSError())
        self.assertIsInstance(self.request.retry(call, delay=0, times=2, on=(Oops, KeyError)).exception(20), OSError)
        self.assertEqual(self.request.retry(self.flaky(Oops())[0], delay=0, on=Oops).then(str.upper).result(20), "PAID")

    def test_who_settles_it_ends_the_try_and_the_pause(self):
        call, calls = self.flaky(*[OSError()] * 9)
        stage = self.request.retry(call, delay=60)
        self.assertTrue(until(lambda: "pause" in [wait.name for wait in self.request.waits()]))
        self.assertTrue(stage.cancel())
        held = Held()
        scope = self.request.scope()
        tried = scope.retry(held)
        held.begun.wait(20)
        self.assertTrue(tried.complete(5))
        held.go.set()
        self.assertTrue(held.ended.wait(20))
        self.assertEqual((tried.result(), held.stops, scope.supply(inc, 1).result(20)), (5, [True], 2))
        self.assertTrue(until(lambda: self.request.waits() == [] and self.request._moment == 2**64 - 1))
        scope.end()
        with self.assertRaises(TimeoutError):
            self.request.retry(call, delay=60).or_timeout(0.05).result(20)
        self.assertEqual(len(calls), 2)

    def test_no_thread_waits(self):
        service = Service(1)
        call, calls = self.flaky(OSError())
        stage = service.request().retry(call, delay=0.2)
        self.assertTrue(until(lambda: calls))
        self.assertEqual(service.submit(inc, 1).result(20), 2)
        self.assertFalse(stage.done())
        self.assertEqual(stage.result(20), "paid")
        service.shutdown()
        with self.assertRaises(RuntimeError):
            service.request().retry(call)

    def test_a_random_pause(self):
        spread = []
        with unittest.mock.patch("cf.service.retrying.random.uniform", lambda low, high: spread.append((low, high)) or 0.01):
            call, _ = self.flaky(OSError())
            self.assertEqual(self.request.retry(call, delay=1).result(20), "paid")
        self.assertEqual(spread, [(0.5, 1)])

    def test_what_is_no_retry(self):
        for given in (dict(times=0), dict(delay=-1), dict(delay=float("nan")), dict(factor=float("inf"))):
            with self.assertRaises(ValueError):
                self.request.retry(inc, 1, **given)
        self.assertEqual(self.request._stages, 0)


class OnLoops(unittest.TestCase):
    begun = 0

    def run_on(self, body, **given):
        async def main():
            service = LoopService(asyncio.get_running_loop(), **given)
            await asyncio.wait_for(body(service, service.request("r")), 20)

        asyncio.run(main())

    async def cleans(self, ends, error=None):
        self.begun += 1
        try:
            await asyncio.sleep(20)
        finally:
            await asyncio.sleep(0.02)
            ends.append(1)
            if error:
                raise error

    async def until_begun(self, many):
        """Until so many coroutines that clean have begun; from then on they are counted anew."""
        while self.begun < many:
            await asyncio.sleep(0.001)
        self.begun = 0

    def test_a_first_success(self):
        async def body(_, request):
            ends = []
            async with request.scope(timeout=15) as scope:
                quotes = [scope.supply(self.cleans, ends) for _ in range(3)]
                self.assertEqual(await scope.ends_with(scope.first(*quotes, scope.supply(asyncio.sleep, 0.01, "won"))), "won")
                self.assertEqual(ends, [])
            self.assertEqual((ends, request.waits()), ([1, 1, 1], []))
            async with request.scope() as scope:
                stages = [scope.supply(asyncio.sleep, 0.01, k) for k in range(3)]
            self.assertEqual([stage.result() for stage in stages], [0, 1, 2])

        self.run_on(body)

    def test_the_handler_is_cancelled(self):
        async def body(_, request):
            ends = []

            async def handle(wait):
                async with request.scope() as scope:
                    scope.supply(self.cleans, ends)
                    await wait(scope)

            async def ends_normally(_):
                pass

            for wait, many in ((lambda scope: scope.supply(self.cleans, ends), 2), (lambda _: asyncio.sleep(20), 1), (ends_normally, 1)):
                ends.clear()
                handler = asyncio.ensure_future(handle(wait))
                await self.until_begun(many)
                handler.cancel()
                await asyncio.sleep(0.005)
                handler.cancel()  # while coroutines end, too
                with self.assertRaises(asyncio.CancelledError):
                    await handler
                self.assertEqual(len(ends), many)
                self.assertEqual(request.waits(), [])

        self.run_on(body)

    def test_a_coroutine_that_attaches_behind_the_end(self):
        """It goes on before it is cancelled, and is refused. That is no failure of its own."""

        async def body(_, request):
            goes, refused = asyncio.get_running_loop().create_future(), []

            async def attaches(scope):
                self.begun += 1
                await goes
                try:
                    scope.promise()
                except ScopeEnded:
                    refused.append(scope)
                    raise

            async with request.scope() as scope:
                scope.supply(attaches, scope)
                await self.until_begun(1)
                goes.set_result(None)
                scope.end()
            self.assertEqual(refused, [scope])

        self.run_on(body)

    def test_what_coroutines_raise_as_they_end(self):
        async def body(_, request):
            ends, late = [], Oops("late")
            with self.assertRaises(Exception) as caught:
                async with request.scope() as scope:
                    scope.supply(self.cleans, ends, late)
                    scope.supply(self.cleans, ends)

                    async def soon():
                        await asyncio.sleep(0.01)
                        raise KeyError

                    scope.supply(soon)
            self.assertLessEqual({KeyError, Oops}, {type(error) for error in failures(caught.exception)})
            error = ValueError()
            with self.assertRaises(ValueError):
                async with request.scope() as scope:
                    self.begun = 0
                    scope.supply(self.cleans, ends, late)
                    await self.until_begun(1)
                    raise error
            self.assertEqual(len(ends), 3)
            if sys.version_info >= (3, 11):
                self.assertIn("Oops('late')", error.__notes__[0])

        self.run_on(body)

    def test_deadlines(self):
        async def body(service, request):
            for wait in (lambda scope: scope.promise(), lambda _: asyncio.sleep(5), lambda scope: scope.supply(asyncio.sleep, 5)):
                with self.assertRaisesRegex(asyncio.TimeoutError if sys.version_info >= (3, 11) else TimeoutError, "took longer than 0.02 s"):
                    async with request.scope(timeout=0.02) as scope:
                        await wait(scope)
            with self.assertRaises(TimeoutError):
                async with service.request("order 17", timeout=0.02) as other:
                    other.supply(asyncio.sleep, 20)
            with self.assertRaises(ScopeEnded):
                other.promise()
            async with service.request("order 18", timeout=20) as other:
                self.assertEqual(await other.supply(asyncio.sleep, 0, 3), 3)
            self.assertEqual(service._works._alarms, {})
            threads = Service(1)
            held = Held()
            with self.assertRaises(TimeoutError):
                async with threads.request(timeout=0.02) as other:
                    await other.supply(held)
            held.go.set()
            if sys.version_info >= (3, 11):
                self.assertEqual(asyncio.current_task().cancelling(), 0)
            async with threads.request().scope() as scope:
                stage = scope.supply(inc, 1)
            self.assertEqual(stage.result(0), 2)
            threads.shutdown()

        self.run_on(body)

    def test_a_cancelled_handler_whose_deadline_passes(self):
        async def body(_, request):
            async def handle():
                async with request.scope(timeout=0.02) as scope:
                    await scope.promise()

            handler = asyncio.ensure_future(handle())
            await asyncio.sleep(0)
            asyncio.get_running_loop().call_later(0.03, handler.cancel)
            time.sleep(0.05)  # so that both come before the handler goes on
            with self.assertRaises(asyncio.CancelledError if sys.version_info >= (3, 11) else TimeoutError):
                await handler

        self.run_on(body)

    def test_a_block_that_would_hold_up_its_loop(self):
        async def body(service, request):
            with self.assertRaisesRegex(RuntimeError, "async with"):
                with request.scope():
                    pass
            with self.assertRaisesRegex(RuntimeError, "async with"):
                with service.request(timeout=5):
                    pass
            with Service(1) as threads, threads.request().scope() as scope:
                scope.supply(inc, 1)
            async with service.request("no timeout") as other:
                other.promise()
            self.assertEqual(await request.retry(self.tries(), delay=0.01), "paid")

        self.run_on(body)

    @staticmethod
    def tries():
        left = [OSError(), OSError()]

        async def call():
            await asyncio.sleep(0)
            if left:
                raise left.pop()
            return "paid"

        return call


class Chance(unittest.TestCase):
    def test_eight_threads(self):
        """Threads attach, settle, cancel and end scopes by chance. Nothing of a scope that has ended is open then, and by the
        history no function of it was begun behind its end."""
        for seed in range(30):
            with Service(4) as service:
                self.one(service.request(str(seed)), seed)

    def one(self, request, seed):
        scopes, stages = [request.scope()], [request.promise()]
        ready = threading.Barrier(8)
        errors = []

        def act(rng):
            ready.wait(20)
            for _ in range(40):
                try:
                    self.step(request, rng, scopes, stages)
                except ScopeEnded:
                    pass
                except BaseException as error:
                    errors.append(error)

        threads = [threading.Thread(target=act, args=(random.Random(f"{seed}.{k}"),)) for k in range(8)]
        for thread in threads:
            thread.start()
        for thread in threads:
            thread.join(60)
        self.assertEqual(errors, [], seed)
        for scope in scopes[: len(scopes) // 2]:
            scope.end()
        ended = {scope._stage.number for scope in scopes if scope._stage.done()}
        within = {number: {it for it in ended if request._is_within(number, it)} for number in range(request._stages)}
        left = [number for number, of in within.items() if of and not request._stage(number).done()]
        self.assertEqual(left, [], seed)
        over = set()
        for entry in request.history().entries():
            if entry.word >> 56 == 4 and not entry.reply[0]:  # a claim that is granted
                self.assertFalse(within[entry.word >> 36 & 0xFFF] & over, seed)
            over.update(number for number, _ in entry.told if number in ended)
        self.assertEqual(over, ended)
        self.assertTrue(ended)
        request.cancel()

    @staticmethod
    def step(request, rng, scopes, stages):
        scope, stage, other = rng.choice(scopes), rng.choice(stages), rng.choice(stages)
        stages.append(
            rng.choice(
                [
                    lambda: scope.supply(inc, 1),
                    lambda: scope.supply(fails),
                    lambda: scope.promise(),
                    lambda: stage.handle(lambda value, error: 1),
                    lambda: stage.combine(other, lambda one, two: 1),
                    lambda: stage.compose(lambda _: scope.supply(inc, 1)),
                    lambda: scope.first(stage, other),
                    lambda: scope.gather(stage, other, stage),
                    lambda: request.all_of(stage, other),
                ]
            )()
        )
        kind = rng.randrange(12)
        if kind == 0:
            scopes.append(scope.scope())
        elif kind == 1:
            scope.end()
            scopes.append(request.scope())
        elif kind == 2:
            scope.ends_with(stage)
            scopes.append(request.scope(0.001))
        elif kind < 5:
            stage.complete(1)
        elif kind == 5:
            stage.abandon()


class Cores(CoreCase):
    def test_arguments_of_other_types(self):
        core, number = self.request, self.request.promise().number
        for call in (
            lambda: core._attach(0, None, None, None, None, None, "x", 7),
            lambda: core._attach(0, None, None, None, None, None, "x", -1),
            lambda: core._attach(0, None, None, None, None, None, "x", "0"),
            lambda: core._attach_all(16, b"", "x", 7),
            lambda: core._attach_all(16, b"\7\0", "x"),
            lambda: core._attach_all(16, b"\0\0", "x", None, 1),
            lambda: core._scope_of(7),
            lambda: core._look_within(7),
            lambda: core._put_all_in(7),
            lambda: core._set_aside(7),
            lambda: core._set_aside(-1),
            lambda: core._aid_of("0"),
        ):
            with self.assertRaises((TypeError, ValueError, IndexError)):
                call()
        core._take_down(3)  # which doesn't hang
        self.assertEqual((core._stages, core._scope_of(number)), (1, None))
        self.fits(core)

    def test_what_is_written_down(self):
        scope = self.request.scope()
        stages = [
            scope.promise(),
            scope.supply(inc, 1).compose(lambda _: scope.promise()),
            scope.gather(scope.promise(), scope.promise(), scope.promise()),
        ]
        self.assertTrue(until(lambda: self.request._stages > 9))
        scope.end()
        self.assertTrue(all(stage.done() for stage in stages))
        self.fits(self.request)
        self.assertLess(max(callers(self.request)), MOST_CALLERS)

    def test_bells(self):
        """Each that hangs is rung at each call, also where others are taken down meanwhile."""
        rung, core = [], self.request

        class Bell:
            def __init__(self, name):
                self.name = name

            def ring(self):
                rung.append(self.name)
                core._take_down(self)

        for name in "abc":
            core._hang(Bell(name))
        core.promise()
        core.promise()
        self.assertEqual(rung, ["a", "b", "c"])


if __name__ == "__main__":
    unittest.main()
