#!/usr/bin/env python3
"""Attaches that wait for the next call of the machine: nobody sees that they do.

    CF_LIBRARY=/path/to/libcf.so python3 clients/python/tests/service/test_attaching.py [-v] [TEST ..]
"""
import random
import time
import types
import unittest
from array import array

from case import CoreCase, inc, Oops
from cf.service import Request, RequestFull


def taking():
    """Works that use a turn when a test says so, with a clock that stands still."""
    works = types.SimpleNamespace(closed=False, turns=[], belongs_to_parent=False)
    works.clock = types.SimpleNamespace(now=lambda _: 0, ask_for_alarm=lambda *_: None)
    works.put = lambda request: works.turns.append(request) or True
    works.stop = lambda stage: None
    works.refusal = lambda: RuntimeError("nobody")
    return works


def moves(seed):
    """What is done to a request, by chance: each names stages by numbers that are taken modulo how many there are."""
    chance = random.Random(seed)
    kinds = ["promise", "supply", "then", "then", "then", "combine", "either", "compose", "recover", "all_of", "first_of"]
    kinds += ["complete", "fail", "cancel", "timeout", "pass", "link", "run", "refuse"]
    return [(chance.choice(kinds), chance.randrange(100), chance.randrange(100)) for _ in range(chance.randrange(4, 40))]


def done(request, kind, of, and_of):
    """Does a move, and tells what came of it."""
    works = request._works
    stages = [request._stage(k) for k in range(request._stages)] or [request.promise()]
    one, two = stages[of % len(stages)], stages[and_of % len(stages)]
    attaches = {
        "promise": request.promise,
        "supply": lambda: request.supply(int),
        "then": lambda: one.then(inc),
        "combine": lambda: one.combine(two, lambda a, b: 3),
        "either": lambda: one.either(two, inc),
        "compose": lambda: one.compose(lambda _: two),
        "recover": lambda: one.recover(lambda error: 5),
        "all_of": lambda: request.all_of(*stages[: 1 + of % 4]),
        "first_of": lambda: request.first_of(*stages[: 1 + of % 4]),
        "timeout": lambda: one.or_timeout(and_of),
    }
    if kind in attaches:
        return attaches[kind]().number
    if kind == "run":
        return works.turns.pop(0)._run(3) if works.turns else None
    if kind == "link":
        return one.number < two.number and request._follow_within(one.number, two.number)
    acts = {
        "complete": lambda: one.complete(of),
        "fail": lambda: one.fail(Oops()),
        "cancel": one.abandon,
        "pass": lambda: request._pass(of * 10**9),
    }
    return acts[kind]() if kind in acts else request._refuse(Oops())


class AttachesThatWait(CoreCase):
    def test_what_is_done_to_a_request_is_the_same(self):
        """A request whose words are read behind each call leaves no attach waiting, and is what it is without that."""
        attached = 0
        for seed in range(300):
            requests, told = [Request(taking(), "r", 1 + seed % 9) for _ in range(2)], [[], []]
            for move in moves(seed):
                for request, its in zip(requests, told):
                    its.append((done(request, *move), request._works.turns.count(request)))
                    if request is requests[0]:
                        request._words()
                self.assertEqual(told[0], told[1], (seed, move))
            states = [[(it._ended, it._runs) for it in map(request._stage, range(request._stages))] for request in requests]
            self.assertEqual(states[0], states[1], seed)
            self.assertEqual(array("Q", requests[0]._words()).tolist(), array("Q", requests[1]._words()).tolist(), seed)
            for request in requests:
                self.fits(request)
            attached += requests[1]._stages
        self.assertGreater(attached, 2000)

    def test_an_event_has_the_time_of_its_call(self):
        promise = self.request.promise()
        promise.then(inc)
        attached = time.monotonic_ns()
        time.sleep(0.01)
        completed = time.monotonic_ns()
        promise.complete(1)
        times = array("q", self.request._times)
        self.assertTrue(times[0] <= times[1] <= attached < completed <= times[2], times)

    def test_more_than_may_wait(self):
        stages = [self.request.promise()]
        for _ in range(100):
            stages.append(stages[-1].then(inc))
        stages[0].complete(0)
        self.assertEqual([stage.result(60) for stage in stages], list(range(101)))
        self.fits(self.request)

    def test_a_full_request_is_told_at_once(self):
        request = self.service.request(room=4094)
        stages = [request.promise() for _ in range(4095)]
        last = stages[0].then(inc)
        with self.assertRaises(RequestFull):
            stages[1].then(inc)
        stages[0].complete(1)
        self.assertEqual(last.result(60), 2)
        self.fits(request)

    def test_a_request_that_nobody_has_any_more_leaves_no_attach_to_the_next(self):
        for _ in range(3):
            request = self.service.request()
            promise = request.promise()
            promise.then(inc)
            del promise, request
        request = self.service.request()
        self.assertEqual((len(request._words()), request.supply(int).result(60)), (0, 0))


if __name__ == "__main__":
    unittest.main()
