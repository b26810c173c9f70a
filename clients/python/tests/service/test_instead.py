#!/usr/bin/env python3
"""Does what the guide says to write do what is wanted?

    CF_LIBRARY=/path/to/libcf.so python3 clients/python/tests/service/test_instead.py [-v] [TEST ..]
"""
import concurrent.futures
import threading
import unittest

from case import Case, fails, inc, Oops, until
from cf.service import Service


class Instead(Case):
    def test_a_deadline_for_a_whole_request(self):
        """Where it ends well, fails, comes too late, and where nobody waits any more."""
        for how, limit, kind in (("ends", 20, int), ("fails", 20, Oops), ("late", 0.01, TimeoutError), ("left", 20, None)):
            with self.subTest(how):
                request, sent = self.service.request(how), []
                last, other = request.promise(), request.promise()

                def send(value, error, sent=sent):
                    sent.append(error or value)

                answered = last.or_timeout(limit).handle(send)
                answered.add_done_callback(lambda _, request=request: request.cancel())
                if how == "left":
                    request.cancel()
                elif how != "late":
                    last.complete(7) if how == "ends" else last.fail(Oops("x"))
                with self.assertRaises(concurrent.futures.CancelledError):
                    other.result(20)
                concurrent.futures.wait([answered], 20)
                self.assertTrue(answered.done())
                if kind is not None:  # (who has left may still be sent that the request is cancelled)
                    self.assertEqual(([type(it) for it in sent], answered.result()), ([kind], None))

    def test_a_gather_that_gives_errors(self):
        parts = [self.request.supply(inc, 1), self.request.supply(fails)]
        total = self.request.gather(*[part.handle(lambda value, error: error or value) for part in parts])
        self.assertEqual((total.result(20)[0], type(total.result()[1])), (2, Oops))

    def test_a_handler_that_takes_the_first(self):
        """What is left is cancelled, also where none answers in time."""
        for backends, limit, wanted in (([fails, lambda: 2], 20, 2), ([fails], 20, Exception), ([], 0.01, TimeoutError)):
            request = self.service.request("quote")
            quotes = [request.promise("slow"), *map(request.supply, backends)][wanted is Exception :]
            answer = request.first(*quotes).or_timeout(limit)
            answer.add_done_callback(lambda _, request=request: request.cancel())
            if wanted == 2:
                self.assertEqual(answer.result(20), 2)
            else:
                self.assertIsInstance(answer.exception(20), wanted)
            self.assertTrue(until(lambda quotes=quotes: all(it.done() for it in quotes)))

    def test_a_delayed_start(self):
        self.assertEqual(self.request.promise().complete_on_timeout(1, 0.01).then(inc).result(20), 2)

    def test_a_further_try(self):
        """The function of the guide, which ends well with the last try, or raises what that raised."""

        def tried(request, call, tries=3, pause=0.01):
            stage = request.supply(call)
            if tries == 1:
                return stage
            return stage.recover_compose(
                lambda error: request.promise("pause").complete_on_timeout(None, pause).compose(lambda _: tried(request, call, tries - 1, 2 * pause))
            )

        calls = iter([fails, fails, lambda: 7, fails, fails, fails, lambda: 8])
        self.assertEqual(tried(self.request, lambda: next(calls)()).result(20), 7)
        self.assertIsInstance(tried(self.request, lambda: next(calls)()).exception(20), Oops)
        self.assertEqual(next(calls)(), 8)

    def test_what_is_open(self):
        opened = {}
        with Service(on_end=lambda history: opened.pop(history.name, None)) as service:
            for name in ("order 17", "order 18"):
                opened[name] = service.request(name)
                opened[name].promise("approval")
                opened[name].end()
            opened["order 17"].cancel()
            self.assertTrue(until(lambda: len(opened) == 1))
            self.assertTrue(opened["order 18"].history().line().endswith("; 1 open: 0 approval"))
        self.assertEqual(opened, {})

    def test_a_function_that_looks_whether_it_is_wanted(self):
        begun, stop = threading.Event(), threading.Event()

        def work():
            begun.set()
            return stop.wait(20)

        stage = self.request.supply(work)
        stage.add_done_callback(lambda _: stop.set())
        self.assertTrue(begun.wait(20))
        self.assertEqual((stage.cancel(), stage.abandon(), stop.is_set()), (False, True, True))

    def test_a_request_within_a_request(self):
        inner = self.service.request("inner")
        outer = self.request.supply(inc, 1).compose(lambda value: inner.supply(inc, value).then(inc))
        self.assertEqual(outer.result(20), 4)

    def test_something_periodic(self):
        done, is_enough = [], threading.Event()

        def tick(_):
            done.append(1)
            if len(done) == 3:
                is_enough.set()
            else:
                wait()

        def wait():
            self.service.request("tick").promise().complete_on_timeout(None, 0.01).then(tick)

        wait()
        self.assertTrue(is_enough.wait(20))


if __name__ == "__main__":
    unittest.main()
