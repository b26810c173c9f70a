#!/usr/bin/env python3
"""Histories of requests in a store, and what they tell of values.

    CF_LIBRARY=/path/to/libcf.so python3 clients/python/tests/store/test_durable_histories.py [-v] [TEST ..]
"""
import json
import threading
import unittest

from case import Case
import shared_functions as f
from cf.service import describe_nothing, describe_types, Service
from cf.store import Memory


class DurableHistories(Case):
    def test_history(self):
        service = self.service()
        recorded = service.request("order 17")
        self.assertEqual(recorded.supply(f.load, 17).then(f.fails).recover(f.text).result(20), "sorry, card declined")
        history = recorded.history()
        for part in (
            "order 17: 9 events, 3 stages",
            "attaches 0 load, supply",
            "1 fails ends: PermissionError('card declined')",
            "2 text ends: 'sorry, card declined'",
        ):
            self.assertIn(part, str(history))
        self.assertEqual(len(json.loads(history.account())["events"]), 9)

    def test_what_a_history_tells_of_values(self):
        """By the service or by a request; it is asked under no lock of the request, and names forge no line."""
        service = Service(store=Memory(), max_workers=1, functions=f.functions, describe=describe_types)
        self.services.append(service)

        def own(_):
            asks = threading.Thread(target=recorded._catch_up)
            asks.start()
            asks.join(2)
            told.append(asks.is_alive())
            return "own"

        for describe, words in (
            (None, ("dict of 2", "PermissionError", "str of 20")),
            (describe_nothing, ("-", "-", "-")),
            (own, ("own", "own", "own")),
        ):
            recorded, told = service.request(f"order\n{self.name} {words}", describe=describe), []
            sorry = recorded.supply(f.load, 17).then(f.fails).recover(f.text)
            self.assertEqual(sorry.result(20), "sorry, card declined")
            history = recorded.history()
            self.assertIn(f"0 load ends: {words[0]}", str(history))
            self.assertIn(f"; 1 failed: 1 fails by {words[1]}; 0 open", history.line())
            self.assertIn(f"2 text ends: {words[2]}", str(history))
            self.assertNotIn("declined", history.account() + str(history.values + history.errors))
            self.assertFalse(any(told))
            self.assertEqual(len(str(history).splitlines()), 1 + 9 + 3)


if __name__ == "__main__":
    unittest.main()
