#!/usr/bin/env python3
"""The view examples/django_view.py: what does a client get?

    clients/python/tests/frameworks/test_django.py [-v] [TEST ..]
"""
import concurrent.futures
import json
import re
import unittest

from serving import needs, Served, until


@needs("django")
class Django(Served):
    WORDS = ("django_view.py", "0")
    refused = 0  # requests so far, of which the meter may be told a moment later

    def test_an_answer_and_one_that_fails(self):
        status, body = self.ask("/order/17")
        self.assertEqual((status, json.loads(body)), (200, {"number": 17, "item": "lamp", "cents": 4900}))
        self.assertEqual(self.ask("/order/18"), (404, '{"error": "no price for order 18"}'))
        Django.refused += 1

    def test_metrics(self):
        with concurrent.futures.ThreadPoolExecutor(8) as pool:
            statuses = [status for status, _ in pool.map(self.ask, ["/order/17", "/order/19"] * 8)]
        self.assertEqual(statuses, [200, 404] * 8)
        Django.refused += 8
        self.assertTrue(until(lambda: self.failed() == Django.refused))
        self.assertIn("\ncf_memory_open_requests 0\n", self.ask("/metrics")[1])

    def failed(self):
        return int(re.search(r"^cf_memory_failed_requests_total (\d+)$", self.ask("/metrics")[1], re.M)[1])


if __name__ == "__main__":
    unittest.main()
