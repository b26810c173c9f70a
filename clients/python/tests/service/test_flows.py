#!/usr/bin/env python3
"""Flows: plans that are begun many times, also on a loop and by several threads at first, and what they refuse.

    CF_LIBRARY=/path/to/libcf.so python3 clients/python/tests/service/test_flows.py [-v] [TEST ..]
"""
import asyncio
import threading
import time
import unittest
import unittest.mock

from case import Case, fails, inc, Oops, until
from cf.service import Flow, flow as flows, LoopService, RequestFull
from cf.service.words import MOST_EDGES


class Flows(Case):
    def flow(self):
        flow = Flow("order")
        number = flow.promise("number")
        doubled = number.then(lambda x: 2 * x)
        total = doubled.combine(flow.supply(lambda: 5), lambda a, b: a + b).named("total")
        more = total.compose(lambda x: self.service.submit(inc, x))
        return flow, number, doubled, total, more

    def test_many_at_once(self):
        flow, number, doubled, total, more = self.flow()
        many_begun = [self.service.start(flow, k) for k in range(200)]
        for k, begun in enumerate(many_begun):
            self.assertEqual((begun[number].result(), begun[total].result(60), begun[more].result(60)), (k, 2 * k + 5, 2 * k + 6))
        self.assertEqual(begun[total].name, "total")
        self.assertEqual(begun[total].then(inc).result(), 2 * 199 + 6)
        self.assertIn("total", str(begun.history()))

    def test_failing(self):
        flow = Flow()
        start = flow.promise()
        failed = start.then(fails)
        saved, all_, first = failed.recover(str), flow.all_of(start, failed, start), flow.first_of(start, failed)
        both = flow.gather(start, saved, first)
        begun = flow.run(1)
        self.assertEqual((begun[saved].result(0), begun[first].result(0), begun[both].result(0)), ("x", 1, [1, "x", 1]))
        self.assertIsInstance(begun[all_].exception(0), Oops)
        self.assertFalse(flow.run()[start].done())

    def test_a_step_that_runs_is_not_cancelled(self):
        """Nobody asks for its stage before it runs."""
        begun, opens, flow = threading.Event(), threading.Event(), Flow()
        step = flow.supply(lambda: begun.set() or opens.wait(20))
        request = self.service.start(flow)
        self.assertTrue(begun.wait(20))
        self.assertEqual((request[step].running(), request[step].cancel()), (True, False))
        opens.set()
        self.assertTrue(request[step].result(20))

    def test_rules(self):
        flow, number, *_ = self.flow()
        with self.assertRaises(ValueError):
            number.combine(Flow().promise(), inc)
        with self.assertRaises(ValueError):
            self.service.start(flow, 1, 2)
        begun = self.service.start(flow, 1)
        with self.assertRaises(RuntimeError):
            flow.promise()
        with self.assertRaises(KeyError):
            begun[Flow().promise()]
        with self.assertRaises(KeyError):
            self.request[number]

    def test_mentions_leave_room_for_so_many_stages(self):
        flow = Flow()
        number = flow.promise()
        flow.all_of(*[number] * (MOST_EDGES - 5))
        begun, other = flow.run(1), self.request.promise()
        with self.assertRaises(RequestFull):
            begun.all_of(other, other)
        self.assertEqual(begun._stages, 2)
        for _ in range(2):
            begun[number].then(inc)
        with self.assertRaises(RequestFull):
            begun[number].then(inc)
        flow = Flow()
        flow.all_of(*[flow.promise()] * (MOST_EDGES + 1))
        with self.assertRaises(RequestFull):
            flow.run()

    def test_first_starts_at_once(self):
        """Threads begin a flow for the first time: one plan is built, and a step that is added meanwhile is refused."""
        flow, plans, told, built = Flow(), [], [], threading.Event()
        end = flow.promise().then(inc)

        def slowly(rows):
            plans.append(rows)
            built.wait(20)
            return PlanCore(rows)

        def start(k):
            begun = self.service.start(flow, k)
            told.append(begun[end].result(20) - k)

        def add():
            try:
                told.append(flow.promise())
            except RuntimeError:
                told.append(1)

        PlanCore = flows.PlanCore
        with unittest.mock.patch.object(flows, "PlanCore", slowly):
            threads = [threading.Thread(target=start, args=[k]) for k in range(6)]
            for thread in threads:
                thread.start()
            self.assertTrue(until(lambda: plans))
            threads.append(threading.Thread(target=add))
            threads[-1].start()
            time.sleep(0.05)  # (the others come as far as they may)
            built.set()
            for thread in threads:
                thread.join(20)
        self.assertEqual((len(plans), told), (1, [1] * 7))

    def test_on_a_loop(self):
        async def load(x):
            await asyncio.sleep(0)
            return x + 1

        async def main():
            flow = Flow()
            end = flow.promise().then(load).then(load)
            service = LoopService(asyncio.get_running_loop())
            self.assertEqual(await asyncio.gather(*[service.start(flow, k)[end] for k in range(50)]), list(range(2, 52)))

        asyncio.run(main())


if __name__ == "__main__":
    unittest.main()
