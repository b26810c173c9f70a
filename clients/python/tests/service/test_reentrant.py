#!/usr/bin/env python3
"""What runs within a call and calls the request again: what is collected, what is dropped, and the names of what is
called.

    CF_LIBRARY=/path/to/libcf.so python3 clients/python/tests/service/test_reentrant.py [-v] [TEST ..]
"""
import functools
import gc
import operator
import threading
import time
import unittest

from case import Case, CoreCase, Wild
from cf.service.words import COMPLETE, FAIL, THIS_THREAD


class Reentrant(CoreCase):
    def test_what_is_collected_as_a_first_value_is_kept(self):
        class Last:
            def __init__(self, *kept):
                self.kept, self.itself = kept, self

            def __del__(self):
                promise, kind, given = self.kept
                promise.request._change(kind, THIS_THREAD, promise, given)

        known = gc.get_threshold()
        try:
            for kind, given in ((COMPLETE, ("outer", "inner")), (FAIL, (OSError("outer"), OSError("inner")))):
                for allocations in range(-4, 8):
                    gc.set_threshold(0)
                    reentered = self.service.request()
                    outer, inner = reentered.promise(), reentered.promise()
                    Last(inner, kind, given[1])
                    held = [[] for _ in range(200)]  # the next list is none that Python has kept
                    gc.set_threshold(gc.get_count()[0] + allocations, 1000, 1000)
                    reentered._change(kind, THIS_THREAD, outer, given[0])
                    gc.set_threshold(0)
                    del held
                    if not inner.done():
                        gc.collect()
                    self.assertEqual([it._result if kind == COMPLETE else it._exception for it in (outer, inner)], list(given), allocations)
                    self.fits(reentered)
        finally:
            gc.set_threshold(*known)

    def test_a_name_that_calls_and_raises(self):
        reentered = self.request

        class Odd:
            def __init__(self, act):
                self.act = act

            def __getattr__(self, name):
                if name in ("func", "__qualname__"):
                    return self.act()
                raise AttributeError(name)

            def __call__(self, *_):
                return 5

        first = reentered.promise()
        stage = reentered.supply(Odd(lambda: reentered.promise("within").complete(1)))
        self.assertEqual((stage.name, stage.result(60)), ("Odd", 5))
        self.assertEqual(reentered.supply(Odd(lambda: 7)).name, "Odd")
        for error in (KeyboardInterrupt, Wild, ValueError):
            before = len(reentered._facts()[0])
            with self.assertRaises(error):
                first.then(Odd(lambda: (_ for _ in ()).throw(error)))
            self.assertEqual(len(reentered._facts()[0]), before)
        self.fits(reentered)

    def test_names_of_what_is_called(self):
        class Called:
            def __call__(self, *_):
                return 1

        class Many:
            def __call__(self, *_):
                return 1

        many = Many()
        many.__qualname__ = 17
        names = [
            self.request.supply(call).name for call in (Called(), operator.itemgetter(0), functools.partial(self.fits, 1), str.upper, "x".upper, many)
        ]
        self.assertEqual(names, ["Called", "itemgetter", "CoreCase.fits", "str.upper", "str.upper", "17"])

    def test_what_is_dropped_calls_its_request(self):
        """What a settled stage lets go of is dropped under no lock: a function, arguments, a callback, and a
        waiter's future."""
        reentered, calls = self.request, []

        class Dropped:
            def __call__(self, *_):
                return None

            def __del__(self):
                calls.append(reentered.promise().complete(len(calls)))

        def work():
            promise = reentered.promise()
            promise.then(Dropped())
            reentered.supply(len, Dropped()).exception(60)
            promise.add_done_callback(Dropped())
            promise.cancel()
            reentered.promise().complete_on_timeout(Dropped(), 1000).complete(1)

        thread = threading.Thread(target=work, daemon=True)
        thread.start()
        thread.join(30)
        self.assertFalse(thread.is_alive())
        until = time.monotonic() + 30
        while len(calls) < 3 and time.monotonic() < until:
            gc.collect()
            time.sleep(0.01)
        self.assertEqual(set(calls), {True})
        self.assertGreaterEqual(len(calls), 3)


class Collected(Case):
    def test_what_is_collected_may_call(self):
        class Last:
            def __init__(self, kept_by_last):
                self.promise, self.itself = kept_by_last, self

            def __del__(self):
                self.promise.complete("gone")

        for _ in range(50):
            kept_by_last = self.service.request().promise()
            Last(kept_by_last)
            gc.collect()
            self.assertEqual(kept_by_last.result(60), "gone")


if __name__ == "__main__":
    unittest.main()
