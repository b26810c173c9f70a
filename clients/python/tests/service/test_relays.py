#!/usr/bin/env python3
"""Relays between requests: which future they stand for, how they end, and when they are let go.

    CF_LIBRARY=/path/to/libcf.so python3 clients/python/tests/service/test_relays.py [-v] [TEST ..]
"""
import asyncio
import concurrent.futures
import gc
import json
import sys
import threading
import time
import unittest
import weakref

from case import CoreCase, Wild
import cf
from cf.service import RequestFull, Service, Stage
from cf.service.words import CLIENT, FAIL_AS, FAIL_BADLY


class Relays(CoreCase):
    """Futures that live long, as one that tells the end of a server, and requests that don't."""

    def setUp(self):
        super().setUp()
        self.loop = asyncio.new_event_loop()
        self.stop = {
            "a stage": self.service.request("server").promise("stop"),
            "a future": concurrent.futures.Future(),
            "of asyncio": self.loop.create_future(),
        }

    def tearDown(self):
        self.loop.close()
        super().tearDown()

    def end(self, adopted_future, value):
        (adopted_future.complete if isinstance(adopted_future, Stage) else adopted_future.set_result)(value)
        self.loop.call_soon(self.loop.stop)
        self.loop.run_forever()

    def test_requests_that_are_over_are_let_go(self):
        def first_of(relaying, stop):
            return relaying.first_of(relaying.promise("work"), stop).request._stage(0)

        def first_of_many(relaying, stop):
            work = relaying.promise("work")
            relaying.first_of(work, relaying.promise(), concurrent.futures.Future(), relaying.promise(), stop)
            return work

        def either(relaying, stop):
            work = relaying.promise("work")
            work.either(stop, str)
            return work

        def combined(relaying, stop):
            return relaying.promise().combine(stop, max)

        def gathered(relaying, stop):
            return relaying.gather(stop, relaying.promise(), stop)

        def composed(relaying, stop):
            begun = relaying.promise()
            adopted_stage = begun.compose(lambda _: stop)
            begun.complete(1)
            concurrent.futures.wait([adopted_stage], 0.001)
            return adopted_stage

        def adopted(relaying, stop):
            return relaying.adopt(stop)

        for kind, stop in self.stop.items():
            for make in (first_of, first_of_many, either, combined, gathered, composed, adopted):
                if kind == "of asyncio" and make is composed:
                    continue  # (asyncio's are no futures of `concurrent.futures`, and `compose` refuses them)
                known = []
                for _ in range(20):
                    relaying = self.service.request()
                    open_one = make(relaying, stop)
                    known.append(weakref.ref(relaying))
                    if make is composed:
                        while not hasattr(stop, "_relays") or not len(stop._relays):
                            time.sleep(0.001)
                    open_one.complete(1)
                del relaying, open_one
                until = time.monotonic() + 60
                while any(it() is not None for it in known) and time.monotonic() < until:
                    gc.collect()  # (a thread may still have one for a moment)
                    time.sleep(0.001)
                self.assertEqual((len([it for it in known if it() is not None]), len(stop._relays)), (0, 0), f"{make.__name__} with {kind}")

    def test_relays_that_are_settled_leave_the_future(self):
        for kind, stop in self.stop.items():
            relays = [self.request.adopt(stop) for _ in range(4)]
            relays[0].cancel(), relays[1].abandon(), relays[2].complete(1)
            self.assertEqual(len(stop._relays), 1, kind)
            self.end(stop, 3)
            self.assertEqual((len(stop._relays), relays[2].result(0), relays[3].result(0)), (0, 1, 3), kind)

    def test_open_ones_are_kept_and_told(self):
        """Nobody has the requests but the future: what stands behind it runs once it is done."""
        for kind, stop in self.stop.items():
            told = []
            for _ in range(10):
                relaying = self.service.request()
                relaying.adopt(stop).then(told.append)
                relaying.first_of(stop, relaying.promise()).then(told.append)
                relaying.promise().either(stop, told.append)
                relaying.gather(stop).then(told.extend)
            del relaying
            gc.collect()
            self.end(stop, 3)
            self.service.submit(str).result(60)
            until = time.monotonic() + 60
            while len(told) < 40 and time.monotonic() < until:
                time.sleep(0.001)
            self.assertEqual(told, [3] * 40, kind)

    def test_relays_that_are_let_go_are_told_where_somebody_has_them(self):
        for kind, stop in self.stop.items():
            work = self.request.promise()
            first = self.request.first_of(work, stop)
            relay = self.request._stage(first.number - 1)
            work.complete(1)
            gc.collect()
            self.end(stop, 3)
            self.assertEqual((first.result(0), relay.result(0)), (1, 3), kind)

    def test_a_relay_that_is_told_is_let_go_of_before_the_others_are(self):
        told, open_one = concurrent.futures.Future(), concurrent.futures.Future()
        waiting = self.request.all_of(told, open_one)
        relay = weakref.ref(self.request._stage(0))
        told.set_result(1)
        gc.collect()
        self.assertEqual((waiting.done(), relay()), (False, None))

    def test_what_a_callback_raises_breaks_no_row(self):
        def raises(_):
            raise Wild

        for kind in ("a stage", "a future"):
            stop = self.stop[kind]
            relays = [self.service.request().adopt(stop) for _ in range(5)]
            for relay in relays:
                relay.add_done_callback(raises)
            with self.assertRaises(Wild):
                self.end(stop, 3)
            self.assertEqual([relay.result(0) for relay in relays], [3] * 5, kind)
            again = [self.request.promise() for _ in range(2)]
            self.assertEqual([self.service.request().adopt(it) for it in again if it.complete(4)][1].result(0), 4)

    def test_futures_of_others_that_raise(self):
        class Odd(concurrent.futures.Future):
            def exception(self, timeout=None):
                raise OSError("asked")

        class Mute(concurrent.futures.Future):
            def add_done_callback(self, fn):
                raise OSError("refused")

        odd = Odd()
        relay = self.request.adopt(odd)
        odd.set_result(1)
        self.assertEqual(str(relay.exception(0)), "asked")
        self.assertEqual(str(self.request.supply(str).compose(lambda _: Mute()).exception(30)), "refused")
        with self.assertRaises(OSError):
            self.request.adopt(Mute())

    def test_a_relay_ends_as_what_it_stands_for(self):
        """As timed out, or with a bad answer. Where somebody failed it with an exception of such a class, the relay
        fails with that."""
        for kind, error, says, cause in (
            (FAIL_AS, TimeoutError("x"), "relay times out 0 relay of p of a, TimeoutError('x')\n", "timeout"),
            (FAIL_BADLY, cf.BadAnswer(7), "relay fails 0 relay of p of a with a bad answer, BadAnswer('bad answer 7')\n", "badanswer"),
        ):
            adopted_stage, b = self.service.request("a").promise("p"), self.service.request("b")
            relays = [b.adopt(adopted_stage)]
            self.assertTrue(adopted_stage.request._change(kind, CLIENT, adopted_stage, error))
            relays.append(b.adopt(adopted_stage))
            self.assertTrue(all(relay.exception(0) is error for relay in relays))
            history = b.history()
            self.assertIn(says, str(history))
            self.assertEqual(
                [step for step in json.loads(history.script())["steps"] if step[0] != "attach"], [["failAs", 0, cause, 1], ["failAs", 1, cause, 2]]
            )
            self.fits(b)
            adopted_future, adopted_stage = concurrent.futures.Future(), self.service.request("a").promise("p")
            adopted_future.set_exception(error)
            adopted_stage.fail(error)
            for each in (adopted_future, adopted_stage):
                relay = self.service.request().adopt(each)
                self.assertIs(relay.exception(0), error)
                self.assertIn(f"with {error!r}", str(relay.request.history()))

    def test_adopting_while_it_is_done(self):
        """Threads adopt a future as it is done: none of the relays is lost, and none is told twice."""
        known = sys.getswitchinterval()
        sys.setswitchinterval(1e-5)
        try:
            for k in range(150):
                stop = concurrent.futures.Future() if k % 2 else self.service.request().promise()
                relays, gate = [], threading.Barrier(3)

                def adopts():
                    gate.wait()
                    for _ in range(20):
                        relays.append(self.service.request().adopt(stop))

                threads = [threading.Thread(target=adopts) for _ in range(2)]
                for thread in threads:
                    thread.start()
                gate.wait()
                stop.set_result(k)
                for thread in threads:
                    thread.join()
                self.assertEqual([relay.result(60) for relay in relays], [k] * 40)
                self.assertEqual({len(bytes(relay.request._facts()[0])) for relay in relays}, {16})
        finally:
            sys.setswitchinterval(known)

    def test_a_future_that_is_done_as_it_is_adopted(self):
        """Its row is called before the relay stands in it, and the relay is told all the same."""

        class Late(concurrent.futures.Future):
            asked = False

            def done(self):
                self.asked, is_first = True, not self.asked
                return not is_first and super().done()

        late = Late()
        late.set_result(7)
        self.assertEqual(self.service.request().adopt(late).result(60), 7)
        self.assertTrue(late.asked)

    def test_a_gather_that_is_refused_adopts_nothing(self):
        adopted_future, service = concurrent.futures.Future(), Service(1)
        relaying = service.request()
        full = service.request(room=4095)
        for _ in range(4093):
            full.promise()
        with self.assertRaises(RequestFull):
            full.gather(adopted_future, adopted_future)
        service.shutdown()
        with self.assertRaises(RuntimeError):
            relaying.gather(adopted_future)
        self.assertEqual((len(relaying._facts()[2]), len(full._facts()[2]), hasattr(adopted_future, "_relays")), (0, 4093, False))


if __name__ == "__main__":
    unittest.main()
