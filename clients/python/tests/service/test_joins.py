#!/usr/bin/env python3
"""Joins: the first success, all or the first failure, and a quorum.

    CF_LIBRARY=/path/to/libcf.so python3 clients/python/tests/service/test_joins.py [-v] [TEST ..]
"""
import concurrent.futures
import gc
import random
import sys
import threading
import unittest
import weakref
from concurrent.futures import CancelledError

from case import Case, CoreCase, Oops, fails, until
from cf.service import RequestFull, Service
from cf.service.words import CLOCK, RELAY


def failures(error):
    """The exceptions that one keeps: those of a group, or before Python 3.11 itself and its contexts."""
    if sys.version_info >= (3, 11):
        return list(error.exceptions)
    found = []
    while error is not None and error not in found:
        found.append(error)
        error = error.__context__
    return found


class Joins(Case):
    def promises(self, many):
        return [self.request.promise(str(k)) for k in range(many)]

    def test_the_first_success(self):
        failed, late, quick = self.promises(3)
        won = self.request.first(failed, late, quick)
        failed.fail(Oops())
        self.assertFalse(won.done())
        quick.complete("quick")
        self.assertEqual(won.result(20), "quick")
        late.complete("late")
        self.assertEqual(won.result(), "quick")
        self.assertEqual(self.request.first(late, quick).result(20), "quick")  # as it would have been before
        self.assertEqual(self.request.first(self.request.supply(fails), self.request.supply(str, 7)).result(20), "7")

    def test_all_that_are_first_fail(self):
        parts, errors = self.promises(3), [Oops(1), Oops(2)]
        won = self.request.first(*parts, parts[0])
        parts[2].fail(errors[1])
        parts[0].fail(errors[0])
        self.assertFalse(won.done())
        parts[1].cancel()
        told = failures(won.exception(20))
        self.assertEqual([error for error in told if isinstance(error, Oops)], errors)
        self.assertEqual({type(error) for error in told}, {Oops, CancelledError})
        self.assertEqual(won.recover(lambda error: "a fallback").result(20), "a fallback")

    def test_all_or_the_first_failure(self):
        one, two, three = self.promises(3)
        total = self.request.all(one, two, one)
        two.complete(2)
        one.complete(1)
        self.assertEqual(total.result(20), [1, 2, 1])
        error = Oops()
        total = self.request.all(two, self.request.promise(), three)
        three.fail(error)
        self.assertIs(total.exception(20), error)
        cancelled = self.request.promise()
        cancelled.cancel()
        self.assertIsInstance(self.request.all(one, cancelled, self.request.promise()).exception(20), CancelledError)
        self.assertEqual(self.request.all().result(20), [])

    def test_a_quorum(self):
        one, two, three, four = self.promises(4)
        votes = self.request.quorum(2, one, two, three)
        one.fail(Oops())
        three.complete("c")
        self.assertFalse(votes.done())
        two.complete("b")
        self.assertEqual(votes.result(20), ["b", "c"])
        votes = self.request.quorum(3, two, four, self.request.promise(), four)
        error = Oops()
        four.fail(error)
        self.assertEqual(failures(votes.exception(20))[0], error)
        self.assertEqual(self.request.quorum(2, two, two, self.request.promise()).result(20), ["b", "b"])
        self.assertEqual(self.request.quorum(1, self.request.promise(), three).result(20), ["c"])

    def test_joins_of_joins(self):
        one, two = self.promises(2)
        won = self.request.first(self.request.all(one, two), self.request.quorum(1, two))
        two.complete(2)
        self.assertEqual(won.result(20), [2])

    def test_a_join_that_is_cancelled_leaves_its_parts(self):
        one, two = self.promises(2)
        won = self.request.first(one, two)
        self.assertTrue(won.cancel())
        one.complete(1)
        self.assertTrue(won.cancelled() and not two.done())
        total = self.request.all(two)
        self.request.cancel()
        self.assertTrue(total.cancelled())

    def test_futures_of_others(self):
        """A future that lives on doesn't keep a request whose join is settled."""
        future, other = concurrent.futures.Future(), self.service.request("other").promise()
        joining = self.service.request("joining")
        won = joining.first(future, other)
        other.complete(3)
        self.assertEqual(won.result(20), 3)
        kept = weakref.ref(joining)
        del joining, won
        self.assertTrue(until(lambda: gc.collect() >= 0 and kept() is None), "the request is kept")

    def test_what_can_not_be_joined(self):
        part, before = self.request.promise(), self.request._stages
        for call in (self.request.first, lambda: self.request.quorum(0, part), lambda: self.request.quorum(3, part, part)):
            with self.assertRaises(ValueError):
                call()
        with self.assertRaises(TypeError):
            self.request.first([part])
        self.assertEqual(self.request._stages, before)
        full = self.service.request("full")
        for _ in range(4095):
            last = full.promise()
        with self.assertRaises(RequestFull):
            full.all(last)
        self.assertEqual((full._stages, len(full.history().words)), (4095, 4095))
        service = Service(1)
        request = service.request()
        service.shutdown()
        with self.assertRaises(RuntimeError):
            request.first(request.promise())
        self.assertEqual(request._stages, 1)

    def test_what_is_told_of_joins(self):
        """In histories the relay settles a join. While it is open, what it waits for is told, and it isn't."""
        one, two = self.promises(2)
        won = self.request.first(one, two).or_timeout(60)
        self.assertEqual([wait.name for wait in self.request.waits()], ["0", "1"])
        two.complete("b")
        self.assertEqual(won.result(20), "b")
        history = self.request.history()
        self.assertEqual([history.names[2:], [word >> 48 & 0xFF for word in history.words][-1]], [["1 of 2", "first"], RELAY])
        self.assertNotIn(CLOCK, [word >> 48 & 0xFF for word in history.words])

    def test_in_threads(self):
        """Threads that settle parts at once: a join ends as its parts say, and in one way for all who wait."""
        rng = random.Random(7)
        for seed in range(200):
            request = self.service.request()
            parts = [request.promise() for _ in range(rng.randrange(1, 6))]
            wanted = rng.randrange(1, len(parts) + 1)
            joins = [request.quorum(wanted, *parts), request.first(*parts), request.all(*parts)]
            values = [rng.random() < 0.6 for _ in parts]

            def settle(part, is_value):
                part.complete(1) if is_value else part.fail(Oops())

            threads = [threading.Thread(target=settle, args=it) for it in zip(parts, values)]
            for thread in threads:
                thread.start()
            ends = [join.exception(20) is None for join in joins]
            for thread in threads:
                thread.join()
            self.assertEqual(ends, [sum(values) >= wanted, any(values), all(values)], seed)


class Cores(CoreCase):
    def test_arguments_of_other_types(self):
        core, number = self.request, self.request.promise().number
        for given in (
            (),
            (number, 1, b"\0\0"),
            (number, 1, [0], False),
            (7, 1, b"\0\0", False),
            (number, "1", b"\0\0", False),
            (number, -1, b"\0\0", False),
        ):
            with self.assertRaises((TypeError, ValueError, IndexError)):
                core._join_within(*given)
        for given in ((number, 0, b"\0\0"), (number, 2, b"\0\0"), (number, 1, b""), (number, 1, b"\7\0")):
            with self.assertRaises(RuntimeError):
                core._join_within(*given, False)
        self.fits(core)

    def test_what_is_written_down(self):
        core = self.request
        parts = [core.promise() for _ in range(3)]
        joins = [core.first(*parts), core.all(*parts), core.quorum(2, *parts)]
        parts[0].complete(1)
        parts[1].fail(Oops())
        parts[2].complete(3)
        concurrent.futures.wait(joins, 20)
        self.fits(core)


if __name__ == "__main__":
    unittest.main()
