#!/usr/bin/env python3
"""Callbacks of stages: one that raises or leaves keeps nothing from the others, nor from relays and threads; one may
call its request.

    CF_LIBRARY=/path/to/libcf.so python3 clients/python/tests/service/test_callbacks.py [-v] [TEST ..]
"""
import threading
import unittest

from case import Case, CoreCase, fails, inc, leaves, Wild
from cf.service import Flow, Service


class Callbacks(Case):
    def test_exceptions_of_callbacks_are_logged(self):
        called_back = []
        calling_back = self.request.promise()
        calling_back.add_done_callback(fails)
        calling_back.add_done_callback(called_back.append)
        with self.assertLogs("concurrent.futures", "ERROR") as logs:
            calling_back.complete(1)
            calling_back.add_done_callback(fails)
        self.assertEqual((called_back, len(logs.output)), ([calling_back], 2))
        self.assertIn("Oops", logs.output[0])

    def test_callbacks_are_called_in_their_order(self):
        for many in range(1, 6):
            calling_back, called_back = self.request.promise(), []
            for k in range(many):
                calling_back.add_done_callback(lambda _, k=k: called_back.append(k))
            calling_back.complete(1)
            calling_back.add_done_callback(lambda _: called_back.append(many))
            self.assertEqual(called_back, list(range(many + 1)))

    def test_base_exceptions_of_callbacks_lose_nobody(self):
        """They come up in whoever settled the stage, and the service goes on."""
        calling_back, called_back = self.request.promise(), []

        def raises(_):
            raise Wild

        calling_back.add_done_callback(raises)
        behind = calling_back.then(inc)
        with self.assertRaises(Wild):
            calling_back.complete(1)
        self.assertEqual(behind.result(60), 2)
        begun = threading.Event()
        calling_back = self.request.supply(begun.wait, 5)
        calling_back.add_done_callback(raises)
        behind = calling_back.then(called_back.append)
        with self.assertLogs("concurrent.futures", "CRITICAL"):
            begun.set()
            behind.result(60)
            self.service.shutdown()
        self.assertEqual(called_back, [True])

    def test_exits_of_callbacks_lose_no_other(self):
        """One event settles two stages, and the first callback of the first leaves."""
        calling, called_back = self.request, []
        calling_back = calling.promise()
        both = calling.all_of(calling_back)
        elsewhere = self.service.request("other").adopt(both)
        calling_back.add_done_callback(leaves)
        calling_back.add_done_callback(lambda _: called_back.append("second"))
        both.add_done_callback(lambda _: called_back.append("other stage"))
        with self.assertRaises(SystemExit):
            calling_back.complete(1)
        self.assertEqual((called_back, elsewhere.done()), (["second", "other stage"], True))

    def test_exits_of_callbacks_lose_no_relay(self):
        """Relays wait in a row for their turn, and a callback of the first leaves."""
        new = self.service.request
        first = self.request.promise()
        middle = new().adopt(first)
        relays = [new().adopt(middle) for _ in range(3)]
        relays[0].add_done_callback(leaves)
        with self.assertRaises(SystemExit):
            first.complete(1)
        self.assertTrue(all(relay.done() for relay in relays))
        again = self.request.promise()
        relay = new().adopt(again)
        again.complete(2)
        self.assertEqual(relay.result(0), 2)

    def test_exits_of_callbacks_end_no_thread(self):
        with Service(1) as service, self.assertLogs("concurrent.futures", "CRITICAL"):
            for _ in range(3):
                begun = threading.Event()
                calling_back = service.submit(begun.wait, 20)
                behind = calling_back.then(inc)
                calling_back.add_done_callback(leaves)
                begun.set()
                self.assertEqual(behind.result(20), 2)

    def test_callbacks_may_call_their_request(self):
        calling, called_back = self.request, []
        calling_back = calling.promise()
        calling_back.add_done_callback(
            lambda done: called_back.append((calling.promise().complete(1), len(calling.history().entries()), done.then(inc).result(60)))
        )
        calling_back.complete(3)
        self.assertEqual(called_back[0][2], 4)


class CallbacksOfCores(CoreCase):
    def test_a_callback_loses_no_other(self):
        for error in (SystemExit, KeyboardInterrupt, Wild, GeneratorExit, ValueError):
            calling, called_back = self.service.request(), []

            def raises(_):
                raise error

            def appends(stage):
                called_back.append(stage.number)

            calling_back = calling.promise()
            ends = [calling_back, calling.all_of(calling_back), calling.all_of(calling_back)]
            for end in ends:
                end.add_done_callback(raises)
                end.add_done_callback(appends)
                end.add_done_callback(raises)
            relay, behind = self.request.adopt(ends[2]), calling_back.then(str)
            try:
                calling_back.complete(1)
                raised = None
            except BaseException as one:
                raised = type(one)
            self.assertIs(raised, None if error is ValueError else error)
            self.assertEqual((sorted(called_back), relay.result(60), behind.result(60)), ([end.number for end in ends], None, "1"))

    def test_a_callback_within_a_run_loses_no_stage(self):
        flow, called_back = Flow(), []
        calling_back = flow.promise()
        ends = [calling_back.then(lambda x, k=k: called_back.append(k)) for k in range(5)]

        def raises(_):
            raise Wild

        last, request = calling_back.then(lambda x: x), flow.run()
        request[ends[0]].add_done_callback(raises)
        request[calling_back].complete(1)
        with self.assertRaises(Wild):
            request._work(3)
        self.assertEqual((called_back, request[last].done()), (list(range(5)), True))

    def test_callbacks_that_change_what_is_told(self):
        """Each of many stages that one event settles has a callback that attaches, completes and adds callbacks."""
        calling, called_back = self.request, []
        calling_back = calling.promise()
        ends = [calling.all_of(calling_back) for _ in range(30)]

        def more(stage):
            behind = calling.promise()
            behind.add_done_callback(lambda _: called_back.append(stage.number))
            stage.add_done_callback(lambda _: behind.complete(len(calling._facts()[2])))
            calling.history()

        for end in ends:
            end.add_done_callback(more)
        calling_back.complete(1)
        self.assertEqual(sorted(called_back), [end.number for end in ends])
        self.fits(calling)


if __name__ == "__main__":
    unittest.main()
