#!/usr/bin/env python3
"""Metrics as Prometheus's own parser reads them: of services in memory, and of a store's page.

    clients/python/tests/frameworks/test_prometheus.py [-v] [TEST ..]
"""
import unittest

from serving import needs, until
from cf.service import Meter, Service
from cf.store import connect
from cf.store.web import board, metrics, reading


@needs("prometheus_client")
class Prometheus(unittest.TestCase):
    def families(self, text):
        from prometheus_client.parser import text_string_to_metric_families

        return {family.name: family for family in text_string_to_metric_families(text)}

    def test_of_services_in_memory(self):
        meter = Meter()
        with Service(1, on_end=meter) as service:
            for number in range(3):
                with service.request() as request:
                    request.promise().complete(number)
            self.assertTrue(until(lambda: "request_seconds_count 3" in meter.text(service)))
            service.request("open").promise()
            found = self.families(meter.text(service))
        kinds = {family.type for family in found.values()}
        self.assertEqual((len(found), kinds), (11, {"gauge", "histogram", "counter"}))
        self.assertTrue(all(name.startswith("cf_memory_") and family.documentation for name, family in found.items()))
        for family in found.values():
            if family.type == "histogram":
                buckets = [it.value for it in family.samples if it.name.endswith("_bucket")]
                (count,) = [it.value for it in family.samples if it.name.endswith("_count")]
                self.assertEqual((sorted(buckets), buckets[-1], len(buckets)), (buckets, count, 11))
        self.assertEqual([it.value for it in found["cf_memory_wait_seconds"].samples if it.name.endswith("_count")], [3])

    def test_of_a_store(self):
        """Also a label with all that the format quotes."""
        store = connect("memory://")
        try:
            text = metrics.text_of(board.Board(store, reading.Readings(store), 10, True))
            hostile = 'a"b\\c\nd'
            text += metrics.exposition.text_of([metrics.Metric("cf_x", "gauge", [metrics.Sample(1, [("function", hostile)])])], {"cf_x": "It."})
        finally:
            store.close()
        found = self.families(text)
        self.assertEqual([it.value for it in found["cf_store_up"].samples], [1])
        self.assertEqual(len(found["cf_open_requests"].samples), len(board.STATES))
        self.assertEqual([it.labels for it in found["cf_x"].samples], [{"function": hostile}])


if __name__ == "__main__":
    unittest.main()
