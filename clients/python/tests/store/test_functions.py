#!/usr/bin/env python3
"""Functions by name and version, and what services and functions refuse.

    CF_LIBRARY=/path/to/libcf.so python3 clients/python/tests/store/test_functions.py [-v] [TEST ..]
"""
import unittest

from case import Case
import shared_functions as f
from cf.service import Flow, Service
from cf.store import connect, DurableService, Functions, Memory, StoreError


class NamedFunctions(Case):
    def test_rules(self):
        naming = self.service()
        by_name = naming.request("r")
        with self.assertRaises(TypeError):
            by_name.supply(len, [])
        flow = Flow()
        flow.promise().compose(f.inc)
        with self.assertRaises(TypeError):
            naming.start(flow)
        with self.assertRaises(TypeError):
            by_name.promise().complete(object())
        with self.assertRaises(TypeError):
            by_name.supply(f.load, object())
        with self.assertRaises(KeyError):
            naming.open("nobody")
        with self.assertRaises(ValueError):
            naming.function("inc")(lambda x: x)
        with self.assertRaises(StoreError):
            self.service("memory://").function("x", transactional=True)
        for lease in (0, -1, float("inf"), float("nan")):
            with self.assertRaises(ValueError):
                DurableService(Memory(), lease=lease)
        other = Functions()
        other.function("inc")(lambda x: x)
        with self.assertRaises(ValueError) as told:
            other.add(f.functions)
        self.assertIn("inc, version 1, is another function already", str(told.exception))
        self.assertIsInstance(Service(store=connect("memory://")), DurableService)
        naming.shutdown()
        with self.assertRaises(RuntimeError):
            naming.request("s")

    def test_versions(self):
        """A request goes on with the version of a function that it was begun with, beside a newer one."""
        old, new = Functions(), Functions()
        price = old.function("price", version=1)(lambda order: 100)
        new.function("price", version=1)(lambda order: 101)
        newer = new.function("price", version=2)(lambda order: 200)
        first = DurableService(connect(self.address), 0, functions=old)
        self.services.append(first)
        by_name = first.request("r")
        stage = by_name.promise("order").then(price)
        second = DurableService(connect(self.address), 1, functions=new)
        self.services.append(second)
        second.resume()
        by_name["order"].complete(1)
        self.assertEqual(stage.result(20), 101)
        self.assertEqual(second.open("r")["order"].then(newer).result(20), 200)

    def test_a_function_that_is_registered_later(self):
        """It is called in requests that have begun, too, from the next beat on."""
        _, asks, works = self.memory_that_two_share()
        late = asks.function("late")(lambda: 3)
        with self.assertLogs("cf.store", "WARNING") as logs:
            stage = asks.request("r").supply(late)
            self.until(lambda: logs.output)
        works.function("late")(late)
        self.assertEqual(stage.result(20), 3)


if __name__ == "__main__":
    unittest.main()
