#!/usr/bin/env python3
"""What does Prometheus read of services in memory: what is open, and how long things took?

    CF_LIBRARY=/path/to/libcf.so python3 clients/python/tests/service/test_meter.py [-v] [TEST ..]
"""
import asyncio
import re
import threading
import time
import unittest

from case import fails, inc, until
from cf.service import Flow, LoopService, Meter, Service
from cf.service.meter import _Histogram, _Reading, _took, WAIT

SAMPLE = re.compile(r'([a-z_]+)(?:\{le="([^"]+)"\})? (\S+)')


def samples(text):
    """The values by name, and those of buckets by name and bound."""
    found = {}
    for line in text.splitlines():
        if not line.startswith("#"):
            name, bound, value = SAMPLE.fullmatch(line).groups()
            found[(name, bound) if bound else name] = float(value)
    return found


class Meters(unittest.TestCase):
    def setUp(self):
        self.meter = Meter((0.01, 1.0))
        self.service = Service(1, on_end=self.meter)
        self.addCleanup(self.service.shutdown)

    def now(self, name):
        return samples(self.meter.text(self.service))[f"cf_memory_{name}"]

    def counted(self, name, many):
        """How many were counted of something, how many in each bucket, and how many seconds in all."""
        self.assertTrue(until(lambda: self.now(f"{name}_seconds_count") == many), self.meter.text(self.service))
        found, whole = samples(self.meter.text(self.service)), f"cf_memory_{name}_seconds"
        buckets = [int(found[(f"{whole}_bucket", bound)]) for bound in ("0.01", "1", "+Inf")]
        self.assertEqual(buckets[-1], many)
        return buckets[:-1], found[f"{whole}_sum"]

    def test_what_is_open(self):
        go, began = threading.Event(), threading.Event()
        request = self.service.request("order 17")
        slow = request.supply(lambda: (began.set(), go.wait(20)))
        self.assertTrue(began.wait(20))
        request.supply(inc, 1)
        request.promise("approval")
        self.service.submit(inc, 1)
        names = ("open_requests", "running_functions", "ready_functions", "open_promises")
        self.assertEqual([self.now(name) for name in names], [2, 1, 2, 1])
        time.sleep(0.05)
        found = samples(self.meter.text(self.service))
        self.assertTrue(found["cf_memory_oldest_request_seconds"] >= found["cf_memory_oldest_ready_seconds"] >= 0.05)
        slow.abandon()  # its function goes on
        self.assertEqual(self.now("running_functions"), 1)
        go.set()
        request.cancel()
        self.assertTrue(until(lambda: [self.now(name) for name in names] == [0, 0, 0, 0]))
        self.assertEqual((self.now("oldest_request_seconds"), self.now("oldest_ready_seconds")), (0, 0))

    def test_how_long_requests_took(self):
        for seconds in (0.0, 0.05):
            with self.service.request() as request:
                request.supply(time.sleep, seconds)
        (few, all_), took = self.counted("request", 2)
        self.assertEqual((few <= 1, all_), (True, 2))
        self.assertTrue(0.05 <= took < 20)

    def test_how_long_functions_ran_and_waited_for_a_thread(self):
        with self.service.request() as request:
            first, second = request.supply(time.sleep, 0.5), request.supply(inc, 1)  # (there is one thread)
        self.assertEqual((first.result(20), second.result(20)), (None, 2))
        (few, _), ran = self.counted("function", 2)
        self.assertLessEqual(few, 1)
        self.assertTrue(0.5 <= ran < 20)
        (_, waited) = self.counted("queue", 2)
        self.assertTrue(0.03 <= waited < 20, waited)

    def test_how_long_promises_were_open(self):
        with self.service.request() as request:
            at_once, late = request.promise(), request.promise()
            at_once.complete(1)
            time.sleep(0.05)
            late.complete(2)
        (few, _), waited = self.counted("wait", 2)
        self.assertLessEqual(few, 1)
        self.assertTrue(0.05 <= waited < 20)

    def test_a_relay_waits_once_its_function_has_ended(self):
        with self.service.request() as request:
            first, other = request.promise(), request.promise()
            composed = first.compose(lambda _: self.service.submit(time.sleep, 0.05))
            other.compose(fails)
            time.sleep(0.2)
            other.fail(OSError())
            completed = time.monotonic()
            first.complete(1)
        self.assertIsNone(composed.result(20))
        self.counted("wait", 3)
        waits = [nanoseconds / 1e9 for name, nanoseconds in _took(_Reading(request.history())) if name == WAIT]
        self.assertTrue(min(waits[:2]) >= 0.2 and 0.05 <= waits[2] <= time.monotonic() - completed, waits)

    def test_promises_of_a_flow_wait_from_its_first_event(self):
        flow = Flow("order")
        first, second = flow.promise("first"), flow.promise("second")
        first.combine(second, max)
        with self.service.start(flow, 1) as request:
            time.sleep(0.05)
            request[second].complete(2)
        (few, _), waited = self.counted("wait", 2)
        self.assertLessEqual(few, 1)
        self.assertTrue(0.05 <= waited < 20)

    def test_which_requests_failed(self):
        """A failure that somebody took isn't one of the request."""
        with self.service.request() as request:
            request.supply(fails).recover(lambda error: 1)
        with self.service.request() as request:
            request.supply(fails)
        self.service.request("empty").end()
        self.counted("request", 2)
        self.assertEqual(self.now("failed_requests_total"), 1)

    def test_of_several_services(self):
        async def main():
            loop_service = LoopService(asyncio.get_running_loop(), on_end=self.meter)
            with loop_service.request() as request:
                promise = request.promise()
                other = self.service.request("other")
                other.promise()
                found = samples(self.meter.text(self.service, loop_service))
                self.assertEqual((found["cf_memory_open_requests"], samples(self.meter.text())["cf_memory_open_requests"]), (2, 0))
                self.assertEqual(samples(self.meter.text(loop_service))["cf_memory_open_promises"], 1)
                promise.complete(1)
            other.cancel()

        asyncio.run(main())
        self.counted("request", 2)

    def test_bounds_rise(self):
        for bounds in ((1.0, 1.0), (2.0, 1.0)):
            with self.assertRaises(ValueError):
                Meter(bounds)

    def test_a_value_at_a_bound_is_in_its_bucket(self):
        counted = _Histogram((1.0, 2.0))
        for value in (1.0, 1.5, 2.0, 3.0):
            counted.add(value)
        self.assertEqual([it.value for it in counted.samples()], [1, 3, 4, 7.5, 4])


if __name__ == "__main__":
    unittest.main()
