#!/usr/bin/env python3
"""Forms of stages: then, combine, either, handle, recover, compose, gather, all_of, first_of; values, exceptions and
cancelled sources that they pass on; chains that are long.

    CF_LIBRARY=/path/to/libcf.so python3 clients/python/tests/service/test_forms.py [-v] [TEST ..]
"""
import concurrent.futures
import traceback
import unittest
from concurrent.futures import CancelledError

from case import Case, fails, inc, Oops


class Forms(Case):
    def test_values(self):
        r = self.request
        three = r.supply(lambda a, b=0: a + b, 1, b=2)
        self.assertEqual(three.result(), 3)
        self.assertEqual(three.then(inc).result(), 4)
        self.assertEqual(three.combine(r.supply(str, 5), lambda a, b: (a, b)).result(), (3, "5"))
        self.assertEqual(three.either(r.promise(), inc).result(), 4)
        self.assertEqual(three.handle(lambda value, error: (value, error)).result(), (3, None))
        self.assertEqual(three.when_done(lambda value, error: 9).result(), 3)
        self.assertEqual(three.recover(lambda error: 9).result(), 3)
        self.assertEqual(three.recover_compose(lambda error: r.supply(str, 9)).result(), 3)
        self.assertEqual(three.compose(lambda x: r.supply(inc, x)).result(), 4)
        self.assertIsNone(r.supply(lambda: None).then(lambda x: x).result())
        self.assertEqual(r.gather(three, r.supply(str, 1), three).result(), [3, "1", 3])
        self.assertIsNone(r.all_of().result())
        self.assertIsNone(r.all_of(three).result())
        self.assertEqual(r.first_of(r.promise(), r.promise(), three).result(), 3)
        self.assertEqual(r.gather().result(), [])
        with self.assertRaises(ValueError):
            r.first_of()

    def test_exceptions_are_the_same_object_all_along(self):
        r = self.request
        failed = r.supply(fails)
        error = failed.exception()
        self.assertIsInstance(error, Oops)
        self.assertEqual([frame.name for frame in traceback.extract_tb(error.__traceback__)], ["fails"])
        for stage in (
            failed.then(inc),
            failed.combine(r.supply(str), lambda a, b: 0),
            failed.when_done(lambda v, e: 1),
            r.all_of(failed, failed),
            r.first_of(failed, failed),
            failed.compose(lambda x: x),
            r.gather(failed),
        ):
            self.assertIs(stage.exception(), error)
            with self.assertRaises(Oops):
                stage.result()
        self.assertIs(failed.handle(lambda v, e: e).result(), error)
        self.assertEqual(failed.recover(lambda e: str(e)).result(), "x")
        self.assertEqual(failed.recover_compose(lambda e: r.supply(str, e)).result(), "x")

    def test_what_is_no_future(self):
        """It is refused before anything is attached, and the text says what to do."""

        async def co():
            pass

        wrong = co()
        for given in ([[self.request.promise()]], [concurrent.futures.Future(), wrong], [None]):
            for call in (self.request.gather, self.request.all_of, self.request.first_of):
                stages = self.request._stages
                with self.assertRaisesRegex(TypeError, r"and not a \w+: give those of a list one by one"):
                    call(*given)
                self.assertEqual(self.request._stages, stages)
        for call in (self.request.adopt, lambda it: self.request.promise().combine(it, max)):
            with self.assertRaisesRegex(TypeError, "and not a coroutine: .* a coroutine function to a LoopService"):
                call(wrong)
        wrong.close()

    def test_what_the_page_says_can_be_done(self):
        """What the guide says to write for limits, several stages and further tries."""
        request, error = self.service.request(), Oops("x")
        last, left = request.promise(), request.promise()
        last.or_timeout(0.01).add_done_callback(lambda _: request.cancel())
        with self.assertRaises(CancelledError):
            left.result(20)

        request = self.service.request()
        stages = [request.promise() for _ in range(3)]
        both = request.gather(*[stage.handle(lambda value, error: error or value) for stage in stages])
        stages[1].fail(error)
        for stage in (stages[0], stages[2]):
            stage.complete(7)
        self.assertEqual(both.result(20), [7, error, 7])

        tries = []

        def call():
            tries.append(1)
            return 5 if len(tries) == 3 else fails()

        stage = request.supply(call)
        for _ in range(2):
            stage = stage.recover_compose(lambda _: request.promise().complete_on_timeout(None, 0.01).then(lambda _: call()))
        self.assertEqual((stage.result(20), len(tries)), (5, 3))

    def test_what_a_request_shows_of_itself(self):
        shown = self.service.request("order\n17")
        shown.promise()
        self.assertEqual(repr(shown), r"<Request 'order\n17' of 1 stages>")

    def test_cancelled_sources(self):
        r = self.request
        source = r.promise()
        behind = source.then(inc)
        self.assertTrue(source.cancel())
        self.assertTrue(source.cancelled() and source.cancel())
        self.assertFalse(behind.cancelled())
        self.assertIsInstance(behind.exception(), CancelledError)
        self.assertIs(behind.exception(), behind.exception())
        with self.assertRaises(CancelledError):
            source.result()
        self.assertIsInstance(source.handle(lambda v, e: e).result(), CancelledError)

    def test_composing(self):
        r, other = self.request, self.service.request("other")
        early = r.supply(str, "early")
        self.assertEqual(r.supply(str).compose(lambda _: early).result(), "early")
        self.assertEqual(r.supply(str).compose(lambda _: other.supply(str, "else")).result(), "else")
        with concurrent.futures.ThreadPoolExecutor(1) as pool:
            self.assertEqual(r.supply(str).compose(lambda _: pool.submit(str, "pool")).result(), "pool")
        self.assertIsInstance(r.supply(str).compose(lambda _: 7).exception(), TypeError)
        self.assertIsInstance(r.supply(str).compose(lambda _: r.supply(fails)).exception(), Oops)
        stopped = concurrent.futures.Future()
        stopped.cancel()
        self.assertIsInstance(r.supply(str).compose(lambda _: stopped).exception(), CancelledError)

        def deeper(n):
            return r.supply(lambda: n - 1).compose(deeper) if n else r.supply(str, "bottom")

        self.assertEqual(deeper(500).result(20), "bottom")

    def test_chains_through_requests_need_no_stack(self):
        first = last = self.request.promise()
        for _ in range(3000):
            last = self.service.request(room=1).adopt(last)
        first.complete(5)
        self.assertEqual(last.result(60), 5)

    def test_growing(self):
        stage = self.service.request(room=1).supply(int)
        for _ in range(300):
            stage = stage.then(inc)
        self.assertEqual(stage.result(60), 300)


if __name__ == "__main__":
    unittest.main()
