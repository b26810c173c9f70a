#!/usr/bin/env python3
"""Bounds: a request or a flow that is full, many events.

    CF_LIBRARY=/path/to/libcf.so python3 clients/python/tests/service/test_bounds.py [-v] [TEST ..]
"""
import concurrent.futures
import unittest

from case import Case, inc
from cf.service import Flow, RequestFull


class Bounds(Case):
    def test_full_request(self):
        full = self.service.request("full", room=1)
        first = full.promise()
        last = first
        for _ in range(4094):
            last = last.then(inc)
        before = len(full.history().words)
        for attach in (
            lambda: first.compose(full.supply),
            lambda: full.all_of(*[first] * 4),
            lambda: first.combine(concurrent.futures.Future(), inc),
            lambda: full.gather(first, first, first),
        ):
            with self.assertRaises(RequestFull):
                attach()
        self.assertEqual(len(full.history().words), before)
        full.promise()
        for attach in (full.promise, lambda: full.supply(str), lambda: first.then(inc), lambda: full.adopt(concurrent.futures.Future())):
            with self.assertRaises(RequestFull):
                attach()
        history = full.history()
        self.assertEqual((len(history.words), len(history.names)), (4096, 4096))
        first.complete(0)
        self.assertEqual(last.result(20), 4094)

    def test_full_flow(self):
        flow = Flow()
        first = flow.promise()
        for _ in range(4094):
            flow.promise()
        with self.assertRaises(RequestFull):
            first.compose(str)  # (it takes two)
        flow.supply(str)
        with self.assertRaises(RequestFull):
            flow.promise()
        full_begun = flow.run()
        with self.assertRaises(RequestFull):
            full_begun.promise()

    def test_many_events(self):
        settled_often = self.request.promise()
        for _ in range(70000):
            settled_often.complete(None)
        self.assertEqual(len(self.request.history().words), 70001)


if __name__ == "__main__":
    unittest.main()
