#!/usr/bin/env python3
"""LoopService: coroutines as functions, what a timeout cancels, limits, contexts, names, what leaves the loop and what
doesn't, threads beside it, a loop that is closed.

    CF_LIBRARY=/path/to/libcf.so python3 clients/python/tests/service/test_loops.py [-v] [TEST ..]
"""
import asyncio
import contextvars
import gc
import math
import threading
import unittest
import unittest.mock
import weakref

from case import fails, inc, Oops, Thing, Wild
from cf.service import Flow, flow as flows, LoopService, Service


class Loops(unittest.TestCase):
    def test_coroutines(self):
        async def load(n):
            await asyncio.sleep(0)
            return n

        async def bad(_):
            await asyncio.sleep(0)
            raise Oops("co")

        async def main():
            loop_service = LoopService(asyncio.get_running_loop())
            on_loop = loop_service.request("r")
            number = on_loop.supply(load, 17)
            self.assertEqual(await number.then(load).then(inc), 18)
            self.assertEqual(await number.then(bad).recover(lambda e: str(e)), "co")
            self.assertEqual(await number.compose(lambda x: on_loop.supply(load, x + 1)), 18)
            self.assertEqual(await on_loop.gather(*[on_loop.supply(load, k) for k in range(10)]), list(range(10)))
            with self.assertRaises(Oops):
                await number.then(bad)
            self.assertIn("worker 0 finishes", str(on_loop.history()))

        asyncio.run(main())

    def test_what_else_can_be_awaited(self):
        class Later:
            def __await__(self):
                yield from asyncio.sleep(0).__await__()
                return 5

        async def main():
            request = LoopService(asyncio.get_running_loop()).request()
            for given, value in ((Later, 5), (lambda: asyncio.ensure_future(asyncio.sleep(0, 6)), 6)):
                self.assertEqual(await request.supply(given), value)

        asyncio.run(main())

    def test_submits(self):
        """A request of one stage, of a function or a coroutine function, by any thread."""

        async def twice(x, by=2):
            await asyncio.sleep(0)
            return x * by

        async def main():
            loop_service, loop = LoopService(asyncio.get_running_loop()), asyncio.get_running_loop()
            self.assertEqual(await loop_service.submit(inc, 1), 2)
            self.assertEqual(await loop_service.submit(twice, 3, by=5), 15)
            with self.assertRaises(Oops):
                await loop_service.submit(fails)
            other = await loop.run_in_executor(None, lambda: loop_service.submit(twice, 4))
            self.assertEqual(await other, 8)
            return loop_service

        loop_service = asyncio.run(main())
        with self.assertRaises(RuntimeError):
            loop_service.submit(inc, 1)

    def test_a_loop_is_woken_by_others_alone(self):
        """To wake it costs a call of the system, which its own thread needs not."""

        async def main():
            loop, woken = asyncio.get_running_loop(), []
            service, real = LoopService(loop), loop.call_soon_threadsafe

            def wakes(call, *given, **more):
                woken.append(call == service._works._use_all)
                return real(call, *given, **more)

            with unittest.mock.patch.object(loop, "call_soon_threadsafe", wakes):
                on_loop = service.request()
                self.assertEqual(await on_loop.supply(inc, 1).then(inc), 3)
                self.assertNotIn(True, woken)
                self.assertEqual(await (await loop.run_in_executor(None, on_loop.supply, inc, 1)), 2)
                self.assertIn(True, woken)

        asyncio.run(main())

    def test_what_ends_by_itself_is_not_cancelled(self):
        """A loop isn't asked to cancel a coroutine as that ends."""

        async def ends(error=None):
            await asyncio.sleep(0)
            if error is not None:
                raise error
            return 1

        async def main():
            loop = asyncio.get_running_loop()
            service, soon = LoopService(loop), []
            with unittest.mock.patch.object(service._works, "_soon", lambda *given: soon.append(given)):
                self.assertEqual(await service.submit(ends), 1)
                self.assertIsInstance(await service.submit(ends, Oops()).handle(lambda _, error: error), Oops)
            self.assertEqual(soon, [])

        asyncio.run(main())

    def test_what_is_settled_is_awaited_at_once(self):
        """As with a task that is done, nothing else comes between; a cancelled one raises asyncio's CancelledError."""

        async def main():
            loop, between = asyncio.get_running_loop(), []
            on_loop = LoopService(loop).request()
            given, failed, cancelled = (on_loop.promise() for _ in range(3))
            given.complete(5)
            failed.fail(Oops())
            cancelled.cancel()
            loop.call_soon(between.append, 1)
            self.assertEqual((await given, between), (5, []))
            with self.assertRaises(Oops):
                await failed
            self.assertEqual(between, [])
            with self.assertRaises(asyncio.CancelledError):
                await cancelled
            return given

        given = asyncio.run(main())
        with self.assertRaises(StopIteration) as at_once:  # no loop runs, and none is needed
            given.__await__().send(None)
        self.assertEqual(at_once.exception.value, 5)

    def test_timeouts_cancel(self):
        ended = []

        async def slow():
            try:
                await asyncio.sleep(10)
            except asyncio.CancelledError:
                ended.append("cancelled")
                raise

        async def main():
            loop_service = LoopService(asyncio.get_running_loop())
            on_loop = loop_service.request()
            self.assertEqual(await on_loop.supply(slow).complete_on_timeout("late", 0.02), "late")
            with self.assertRaises(TimeoutError):
                await on_loop.supply(slow).or_timeout(0.02)
            loop_stage = on_loop.supply(slow)
            await asyncio.sleep(0.02)
            self.assertTrue(loop_stage.abandon())
            await asyncio.sleep(0.02)
            quick = on_loop.supply(str, 1).or_timeout(50)
            self.assertEqual(await quick, "1")

        asyncio.run(main())
        self.assertEqual(ended, ["cancelled"] * 3)

    def test_a_task_that_was_cancelled_is_let_go(self):
        """A loop keeps a task that it cancels until that has ended, and no longer."""

        async def main():
            on_loop, tasks = LoopService(asyncio.get_running_loop()).request(), []

            async def slow():
                tasks.append(weakref.ref(asyncio.current_task()))
                await asyncio.sleep(100)

            slow_stages = [on_loop.supply(slow) for _ in range(5)]
            await asyncio.sleep(0.02)
            for slow_stage in slow_stages:
                self.assertTrue(slow_stage.abandon())
            await asyncio.sleep(0.02)
            gc.collect()
            self.assertEqual([task() for task in tasks], [None] * 5)

        asyncio.run(main())

    def test_limits_of_any_size(self):
        async def main():
            on_loop = LoopService(asyncio.get_running_loop()).request()
            for seconds in (math.inf, 1e10, 1e300):
                loop_promise = on_loop.promise().or_timeout(seconds)
                self.assertEqual(await on_loop.promise().complete_on_timeout(1, 0.01), 1)
                self.assertTrue(loop_promise.complete(1))
            with self.assertRaises(TimeoutError):
                await on_loop.promise().or_timeout(-1)
            with self.assertRaises(ValueError):
                on_loop.promise().or_timeout(math.nan)

        asyncio.run(main())

    def test_one_alarm_for_all_limits_of_a_request(self):
        """The loop has one timer for each request, at its first limit, and none once its stages are settled."""

        async def main():
            service = LoopService(asyncio.get_running_loop())
            on_loop, alarms = service.request(), service._works._alarms
            limited = [on_loop.promise().or_timeout(1000 - k) for k in range(5)]
            await asyncio.sleep(0.01)
            self.assertEqual(len(alarms), 1)
            self.assertEqual(await on_loop.promise().complete_on_timeout(1, 0.02), 1)
            self.assertEqual(await on_loop.promise().complete_on_timeout(2, 0.02), 2)
            await asyncio.sleep(0)
            self.assertEqual(len(alarms), 1)
            for loop_stage in limited:
                loop_stage.complete(1)
            await asyncio.sleep(0.01)
            self.assertEqual(len(alarms), 0)

        asyncio.run(main())

    def test_functions_have_the_context_of_where_they_were_attached(self):
        tenant, seen = contextvars.ContextVar("tenant", default="-"), []

        async def later(_):
            first = tenant.get()
            await asyncio.sleep(0)
            seen.append((first, tenant.get()))

        def leaks(_):
            seen.append(tenant.get())
            tenant.set("leaked")

        async def handler(loop_service, name, cache):
            tenant.set(name)
            on_loop = loop_service.request(name)
            await on_loop.adopt(cache).then(leaks).then(later).then(leaks)
            seen.append(tenant.get())

        async def main():
            loop_service = LoopService(asyncio.get_running_loop())
            for name in ("acme", "umbrella"):
                cache = loop_service.request("cache").promise()
                task = asyncio.ensure_future(handler(loop_service, name, cache))
                await asyncio.sleep(0)
                tenant.set("loader")
                cache.complete(1)
                await task
                self.assertEqual(seen, [name, (name, name), name, name])
                seen.clear()
            flow = Flow()
            end = flow.promise().then(leaks).then(later)
            tenant.set("starter")
            request = loop_service.start(flow)
            tenant.set("completer")
            request[flow_promise(flow)].complete(1)
            await request[end]
            self.assertEqual(seen, ["starter", ("starter", "starter")])

        def flow_promise(flow):
            return flows.Step(flow, 0)

        asyncio.run(main())

    def test_names_of_functions(self):
        async def main():
            on_loop = LoopService(asyncio.get_running_loop()).request()
            self.assertEqual(
                [
                    on_loop.supply(inc).name,
                    on_loop.supply(flows.functools.partial(inc, 1)).name,
                    on_loop.supply(Thing()).name,
                    on_loop.promise().then(inc).name,
                ],
                ["inc", "inc", "Thing", "inc"],
            )

        asyncio.run(main())

    def test_what_waits_by_asyncio_takes_stages_as_tasks(self):
        """And their tasks and they themselves tell their names."""

        async def named():
            return asyncio.current_task().get_name()

        async def main():
            on_loop = LoopService(asyncio.get_running_loop()).request()
            stages = [on_loop.supply(inc, k).named(f"stage {k}") for k in range(3)]
            done, left = await asyncio.wait([asyncio.ensure_future(stage) for stage in stages])
            self.assertEqual((sorted(task.result() for task in done), left), ([1, 2, 3], set()))
            self.assertEqual([await it for it in asyncio.as_completed(stages)].count(2), 1)
            self.assertRegex(repr(stages[1]), r"^<Stage at 0x[0-9a-f]+ state=finished returned int name='stage 1'>$")
            self.assertRegex(repr(on_loop.promise("a\n\x1bb")), r"state=pending name='a\\n\\x1bb'>$")
            self.assertEqual(await on_loop.supply(named).named("load"), "load")

        asyncio.run(main())

    def test_interrupts_and_exits_leave_the_loop(self):
        """As those of asyncio's tasks do. The stage has it, and what is behind it is run all the same, once the loop
        goes on."""
        for kind in (KeyboardInterrupt, SystemExit):

            async def later():
                await asyncio.sleep(0)
                raise kind

            def now():
                raise kind

            for raises in (now, later):
                loop = asyncio.new_event_loop()
                loop.set_exception_handler(lambda *_: None)
                on_loop = LoopService(loop).request()
                loop_stage = on_loop.supply(raises)
                behind = [loop_stage.recover(lambda error: type(error)), loop_stage.recover(lambda _: 2)]
                with self.assertRaises(kind):
                    loop.run_until_complete(asyncio.sleep(20))
                self.assertIsInstance(loop_stage.exception(0), kind)
                self.assertEqual(loop.run_until_complete(asyncio.wait_for(on_loop.gather(*behind), 20)), [kind, 2])
                loop.close()

    def test_other_exceptions_stay_in_the_loop(self):
        async def main():
            on_loop = LoopService(asyncio.get_running_loop()).request()

            def wild():
                raise Wild

            async def later():
                raise Wild

            for raises in (wild, later):
                self.assertEqual(await on_loop.supply(raises).recover(lambda error: type(error)), Wild)

        asyncio.run(main())

    def test_what_a_callback_raises_keeps_no_function_waiting(self):
        """It leaves the loop, or is told there. What its stage made ready is called all the same."""
        for kind in (Wild, KeyboardInterrupt, SystemExit):

            def raises(_):
                raise kind

            async def later():
                await asyncio.sleep(0)

            for call in (str, later):
                loop, told = asyncio.new_event_loop(), []
                loop.set_exception_handler(lambda _, context: told.append(context.get("exception")))
                on_loop = LoopService(loop).request()
                loop_stage = on_loop.supply(call)
                behind = [loop_stage.then(str), loop_stage.then(str)]
                loop_stage.add_done_callback(raises)
                try:
                    loop.run_until_complete(asyncio.wait_for(on_loop.all_of(*behind), 20))
                except kind as error:
                    told.append(error)
                    loop.run_until_complete(asyncio.wait_for(on_loop.all_of(*behind), 20))
                loop.close()
                self.assertIn(kind, map(type, told))

    def test_what_else_a_loop_has_to_do_comes_between(self):
        """Functions that go on and on don't hold it up."""

        async def main():
            on_loop, seen = LoopService(asyncio.get_running_loop()).request(), []

            def again(left):
                seen.append(left)
                if left:
                    on_loop.supply(again, left - 1)

            on_loop.supply(again, 5)
            asyncio.get_running_loop().call_soon(seen.append, "else")
            while 0 not in seen:
                await asyncio.sleep(0)
            self.assertLess(seen.index("else"), seen.index(0))

        asyncio.run(main())

    def test_other_threads_complete(self):
        async def main():
            loop_promise = LoopService(asyncio.get_running_loop()).request().promise()
            behind = loop_promise.then(inc)
            threading.Timer(0.02, loop_promise.complete, [1]).start()
            self.assertEqual(await asyncio.wait_for(asyncio.wrap_future(behind), 5), 2)

        asyncio.run(main())

    def test_threads_stages_are_awaited(self):
        async def main():
            with Service(2) as loop_service:
                self.assertEqual(await loop_service.submit(str, 1), "1")
                self.assertEqual(await asyncio.get_running_loop().run_in_executor(loop_service, str, 2), "2")
                with self.assertRaises(Oops):
                    await loop_service.submit(fails)
                task = asyncio.ensure_future(asyncio.wrap_future(loop_promise := loop_service.request().promise()))
                await asyncio.sleep(0)
                task.cancel()
                await asyncio.sleep(0.01)
                self.assertTrue(loop_promise.cancelled())

        asyncio.run(main())

    def test_a_loop_that_is_closed_before_it_uses_a_turn(self):
        loop = asyncio.new_event_loop()
        on_loop = LoopService(loop).request()
        loop_promise = on_loop.promise()
        behind, left = loop_promise.then(inc), on_loop.supply(str)  # (by this the loop is to be woken)
        loop.close()
        loop_promise.complete(1)
        self.assertIsInstance(behind.exception(60), RuntimeError)
        self.assertIsInstance(left.exception(60), RuntimeError)

    def test_closed_loop(self):
        loop = asyncio.new_event_loop()
        on_loop = LoopService(loop).request()
        loop_promise = on_loop.promise()
        behind = loop_promise.then(inc)
        loop.close()
        loop_promise.complete(1)
        self.assertIsInstance(behind.exception(60), RuntimeError)
        with self.assertRaises(RuntimeError):
            on_loop.supply(str)


if __name__ == "__main__":
    unittest.main()
