#!/usr/bin/env python3
"""Stages in a store: each form, settling, composing, flows, callbacks, who waits or looks.

    CF_LIBRARY=/path/to/libcf.so python3 clients/python/tests/store/test_durable_stages.py [-v] [TEST ..]
"""
import asyncio
import signal
import threading
import time
import unittest
import unittest.mock
from concurrent.futures import CancelledError

from case import Case
import shared_functions as f
from cf.service import Flow, RequestFull
from cf.service.words import CLAIM, FINISH, IS_SETTLED
from cf.store import Abandoned, Broken, DurableService, Functions, Memory
from cf.store.followed import Shown


class DurableStages(Case):
    def test_a_request_tells_its_name(self):
        for service, name in self.each():
            durable = service.request(name)
            durable.promise()
            self.assertEqual(repr(durable), f"<DurableRequest {name!r} of 1 stages>")

    def test_forms(self):
        for service, name in self.each():
            durable = service.request(name)
            order = durable.supply(f.load, 17, extra=2)
            self.assertEqual(order.result(20), {"number": 17, "extra": 2})
            number = order.then(f.number)
            self.assertEqual(number.then(f.inc).result(20), 18)
            self.assertEqual(number.combine(durable.supply(f.load, 3).then(f.number), f.add).result(20), 20)
            self.assertEqual(number.either(durable.promise(), f.inc).result(20), 18)
            failed = number.then(f.fails)
            self.assertIsInstance(failed.exception(20), PermissionError)
            self.assertEqual(str(failed.exception()), "card declined")
            self.assertEqual(failed.recover(f.text).result(20), "sorry, card declined")
            self.assertEqual(failed.handle(f.both).result(20), [None, "PermissionError"])
            self.assertIsInstance(failed.when_done(f.nothing).then(f.inc).exception(20), PermissionError)
            self.assertIsNone(number.then(f.nothing).result(20))
            self.assertEqual(durable.gather(number, number, number.then(f.inc)).result(20), [17, 17, 18])
            self.assertIsNone(durable.all_of(number, order).result(20))
            self.assertEqual(durable.first_of(durable.promise(), number).result(20), 17)
            self.assertIsInstance(durable.supply(f.odd).exception(20), TypeError)

    def test_stages_of_many(self):
        """A tree of stages says what one stage of all would, of however many."""
        for service, name in self.each():
            durable = service.request(name)
            for many in range(2, 6):
                for last in range(many):
                    stages = [durable.promise() for _ in range(many)]
                    together, first = durable.all_of(*stages), durable.first_of(*stages)
                    stages[last].complete(last)
                    self.assertEqual(first.result(20), last)
                    for stage in stages[:last] + stages[last + 1 :]:
                        self.assertFalse(together.done())
                        stage.complete(None)
                    self.assertIsNone(together.result(20))

    def test_settling(self):
        for service, name in self.each():
            durable = service.request(name)
            promise = durable.promise("answer")
            self.assertTrue(promise.complete([1, None]))
            self.assertFalse(promise.complete(2) or promise.fail(KeyError("x")) or promise.cancel())
            self.assertEqual(durable["answer"].result(60), [1, None])
            stopped = durable.promise()
            behind = stopped.then(f.inc)
            self.assertTrue(stopped.cancel() and stopped.cancelled())
            self.assertIsInstance(behind.exception(20), CancelledError)
            self.assertIsInstance(durable.promise().or_timeout(0.05).exception(20), TimeoutError)
            self.assertEqual(durable.promise().complete_on_timeout({"a": 1}, 0.05).result(20), {"a": 1})
            stage = service.submit(f.load, 4, extra=1)
            self.assertEqual(stage.result(20), {"number": 4, "extra": 1})
            self.until(lambda: stage.request.name not in service.store.ends())

    def test_no_claim_goes_with_a_link(self):
        """A finish that links to a promise makes nothing ready: the stage behind is claimed once that is settled."""
        for service, name in self.each():
            durable = service.request(name)
            first = durable.promise("first")
            last = first.compose(f.waiting).then(f.inc)
            first.complete(1)
            self.until(lambda durable=durable: durable._row().links)
            durable["late"].complete(17)
            self.assertEqual(last.result(20), 18)
            claims = [word for word in durable._row().words if word >> 56 == CLAIM and word >> 36 & 0xFFF == last.number]
            self.assertEqual(len(claims), 1)

    def test_compose(self):
        """What a function gives is a stage of the request, which may be settled later, by anybody."""
        for service, name in self.each():
            durable = service.request(name)
            number = durable.supply(f.load, 17).then(f.number)
            self.assertEqual(number.compose(f.loading).then(f.number).result(20), 17)
            self.assertIsInstance(number.compose(f.failing).exception(20), PermissionError)
            self.assertIsInstance(number.compose(f.both).exception(20), TypeError)
            self.assertIsInstance(durable.supply(f.fails).compose(f.loading).exception(20), PermissionError)
            late = number.compose(f.waiting)
            self.until(lambda durable=durable: any(it["name"] == "late" for it in map(durable._row().definition, range(len(durable._row().forms)))))
            self.assertFalse(late.done())
            durable["late"].complete(None)
            self.assertIsNone(late.result(20))
            again = number.compose(f.waiting)
            self.until(
                lambda durable=durable: [it["name"] for it in map(durable._row().definition, range(len(durable._row().forms)))].count("late") == 2
            )
            names = [durable[k].name for k in range(len(durable._row().forms))]
            self.assertTrue(durable[len(names) - 1 - names[::-1].index("late")].cancel())
            self.assertIsInstance(again.exception(20) if not again.cancelled() else CancelledError(), CancelledError)
            self.until(lambda durable=durable: all(kind == IS_SETTLED for kind in durable._row().kinds))

    def test_a_promise_that_nothing_comes_of(self):
        """Where a stage that composes fails, its promise is cancelled: a flow's request is closed all the same."""
        for service, name in self.each():
            flow = Flow("one")
            number = flow.promise("number")
            durable = service.start(flow, name=name)
            fails, given = durable[number].compose(f.inc), durable[number].compose(f.loading)
            source = durable[number].then(f.fails).compose(f.loading)
            durable[number].complete(1)
            self.assertIsInstance(fails.exception(20), TypeError)
            self.assertIsInstance(source.exception(20), PermissionError)
            self.assertEqual(given.result(20)["number"], 1)
            self.until(lambda: name not in service.store.ends())

    def flow(self):
        flow = Flow("order")
        number = flow.promise("number")
        total = number.then(f.load).then(f.number).named("total").combine(flow.supply(f.inc, 4), f.add)
        return flow, total, flow.gather(total, total), total.then(f.fails).recover(f.text)

    def test_flows(self):
        for service, name in self.each():
            flow, total, both, sorry = self.flow()
            durable = service.start(flow, 10, name=name)
            self.assertEqual((durable[total].result(20), durable[both].result(20), durable[sorry].result(20)), (15, [15, 15], "sorry, card declined"))
            self.until(lambda: name not in service.store.ends())
            same = service.start(flow, 99, name=name)
            self.assertEqual(same[total].result(60), 15)
            with self.assertRaises(Broken):
                other = Flow("other")
                other.promise()
                service.start(other, name=name)

    def test_a_further_try_of_what_was_settled_by_hand(self):
        """Its sources may be open then: the further try passes the error on, and asks nothing of them."""
        for service, name in self.each():
            durable = service.request(name)
            one, two = durable.promise(), durable.promise()
            for stage in (one.either(two, f.inc), one.combine(two, f.add), one.handle(f.both)):
                last = stage.again(2)
                self.assertTrue(stage.fail(PermissionError("by hand")))
                self.assertIsInstance(last.exception(20), PermissionError)

    def test_no_further_try_behind_what_was_abandoned(self):
        """What hangs on an abandoned stage fails, too: its own function wasn't called, and so isn't called again."""
        for service, name in self.each():
            durable = service.request(name)
            one, two = durable.promise(), durable.promise()
            tries = [it.again(2) for it in (one.then(f.both), one.combine(two, f.nothing), one.either(two, f.nothing))]
            self.assertTrue(one.fail(Abandoned("gone")))
            for last in tries[::2]:
                self.assertIsInstance(last.exception(20), Abandoned)
            self.assertTrue(two.complete(1))
            self.assertIsInstance(tries[1].exception(20), Abandoned)

    def test_a_further_try_whose_process_is_gone(self):
        """It is done once more: it passes on what the stage itself ended in, whose function wasn't called."""
        store = Memory()
        asks = DurableService(store, 0, functions=f.functions)
        durable = asks.request("r")
        one = durable.promise()
        last = one.then(f.both).again(2)
        one.fail(PermissionError("no"))
        durable[last.number - 1].fail(Abandoned("gone"))
        self.services += [asks, DurableService(store, 1, functions=f.functions, takes_all=True)]
        self.assertIsInstance(last.exception(20), PermissionError)

    def composing(self, dies):
        """A service whose session seems to die while its function attaches, and one that goes on: both over one
        store. The function attaches four stages and composes the sum of two of them; the first two are there before
        `dies` is called, where that is its first call."""
        store, mute = Memory(), Memory()
        mute.__dict__, mute.beat = store.__dict__, lambda session: None
        functions, self.calls, self.told = Functions(), [], []
        functions.add(f.functions)
        counted = functions.function("counted")(lambda x: self.calls.append(x) or x)

        @functions.function("attaches")
        def attaches(request, x):
            one = request.supply(counted, x)
            request.promise("note")
            if not self.told:
                self.told.append(None)
                dies()
            two = request.supply(counted, x)
            try:
                return one.combine(two, f.add)
            except BaseException as error:
                self.told.append(error)
                raise

        dead = DurableService(mute, 2, functions=functions, lease=1000)
        lives = DurableService(store, 2, functions=functions, lease=0.2)
        self.services += [dead, lives]
        return dead, lives, attaches

    def test_a_further_try_of_what_composes(self):
        """What the first try has attached isn't attached once more, and the first try attaches nothing any more, if it
        isn't dead after all."""
        goes = threading.Event()
        dead, lives, attaches = self.composing(lambda: goes.wait(20))
        first = dead.request("r").promise("x")
        behind = first.compose(attaches)
        last = behind.again(2).then(f.inc)
        first.complete(20)
        self.until(lambda: self.told)  # (its function runs)
        request = lives.open("r")
        self.assertEqual(request[last.number].result(20), 41)
        goes.set()
        self.until(lambda: not request._row().claims())
        said = [request._row().definition(k) for k in range(len(request._row().forms))]
        self.assertEqual(sorted(self.calls), [20, 20])
        self.assertEqual([it["name"] for it in said if it.get("by") == behind.number], ["counted", "note", "counted", "add"])
        self.assertIsInstance(request[behind.number].exception(20), Abandoned)
        self.assertEqual(
            [it.cancelled() for it in (request["what attaches again gives"], request[last.number - 2])], [False, True]
        )  # (the second further try had nothing to do)

    def test_a_try_that_is_dead_only_for_others(self):
        """It attaches nothing once its stage is another's, and its finish comes too late."""
        goes = threading.Event()
        dead, lives, attaches = self.composing(lambda: goes.wait(20))
        first = dead.request("r").promise("x")
        behind = first.compose(attaches)
        first.complete(1)
        self.until(lambda: self.told)
        request = lives.open("r")
        self.assertIsInstance(request[behind.number].exception(20), Abandoned)
        many = len(request._row().forms)
        goes.set()
        self.until(lambda: not request._row().claims())
        request._catch_up()
        self.assertEqual(len(request._row().forms), many)

    def test_further_tries_of_what_composes_that_arent_needed(self):
        """They pass on what there is: a value, and an error that isn't of a death. A flow's request is closed then."""
        for service, name in self.each():
            flow = Flow("one")
            number = flow.promise("number")
            durable = service.start(flow, name=name)
            loads, fails = durable[number].compose(f.loading).again(2), durable[number].compose(f.inc).again(2)
            loads.then(f.number)
            durable[number].complete(17)
            self.assertEqual(loads.result(20)["number"], 17)
            self.assertIsInstance(fails.exception(20), TypeError)
            self.until(lambda: name not in service.store.ends())

    def test_further_tries_of_a_further_try(self):
        """They call what that calls."""
        store = Memory()
        asks = DurableService(store, 0, functions=f.functions)
        durable = asks.request("r")
        one = durable.supply(f.inc, 1)
        last, composed = one.again().again(), durable.promise().compose(f.loading).again().again()
        composing = composed.number - 4
        one.fail(Abandoned("gone")), durable[1].fail(Abandoned("gone"))
        durable[3].complete(17), durable[composing].fail(Abandoned("gone")), durable[composing + 2].fail(Abandoned("gone"))
        self.services += [asks, DurableService(store, 1, functions=f.functions, takes_all=True)]
        self.assertEqual(last.result(20), 2)
        self.assertEqual(composed.result(20)["number"], 17)

    def test_what_a_finish_makes_ready(self):
        """Its process goes on with it at once, also where it has two sources, or came of what was composed."""
        service = DurableService(Memory(), 1, functions=f.functions, lease=1000)
        self.services.append(service)
        durable = service.request("r")
        first, second = durable.promise(), durable.promise()
        stage = first.then(f.inc).combine(second, f.add).compose(f.loading).then(f.number)
        second.complete(3)
        first.complete(1)
        self.assertEqual(stage.result(20), 5)

    def test_the_claim_that_goes_with_a_finish(self):
        """It is put with it, and granted: that of a stage that the finish makes ready, by what its own stage ends as."""
        puts = []

        class Kept(Memory):
            def append(self, put):
                stands = super().append(put)
                puts.extend([[(word >> 56, word >> 36 & 0xFFF) for word, _ in put.entries]] if stands is None else [])
                return stands

        service = DurableService(Kept(), 1, functions=f.functions, lease=1000)
        self.services.append(service)
        durable = service.request("r")
        given, failed = durable.promise(), durable.promise()
        first = given.then(f.inc)
        loaded = first.compose(f.loading)
        kept = failed.when_done(f.nothing)
        passed, caught = kept.then(f.inc), kept.recover(f.text)
        given.complete(1)
        loaded.result(20)
        self.assertIn([(FINISH, first.number), (CLAIM, loaded.number)], puts)
        failed.fail(ValueError("x"))
        self.assertEqual(caught.result(20), "sorry, x")
        self.assertIsInstance(passed.exception(20), ValueError)
        self.assertIn([(FINISH, kept.number), (CLAIM, caught.number)], puts)
        self.assertEqual([words for words in puts if (CLAIM, passed.number) in words], [])

    def test_callbacks_that_raise_anything(self):
        """The other callbacks are called all the same, and a worker goes on with what it has claimed."""
        service, heard = self.service(), []

        def ends(stage):
            heard.append(stage)
            raise SystemExit("of a callback")

        durable = service.request("r")
        promise, other = durable.promise(), durable.promise()
        first = promise.then(f.inc)
        stages = [promise, first, other, first.then(f.inc)]  # (who finishes the first claims the last with that)
        for stage in stages * 2:
            stage.add_done_callback(ends)
        with self.assertRaises(SystemExit):
            other.complete(0)
        self.assertEqual(heard, [other, other])
        with self.assertLogs("cf.store", "CRITICAL") as logs:
            with self.assertRaises(SystemExit):
                promise.complete(1)
            self.until(lambda: len(heard) == 8 and logs.output)
        self.assertEqual(stages[3].result(20), 3)
        self.assertFalse(durable._row().claims())

    def test_two_threads_that_show_a_stage(self):
        """Both have found it cancelled: none raises."""
        from concurrent.futures import Future

        durable, both, wrong = self.service().request("r"), threading.Barrier(2), []
        stage, cancel = durable.promise(), Future.cancel

        def meets(future):
            both.wait(20)
            told = cancel(future)
            both.wait(20)
            return told

        def show():
            try:
                stage._show(Shown(None, None, True))
            except BaseException as error:
                wrong.append(error)

        with unittest.mock.patch.object(Future, "cancel", meets):
            threads = [threading.Thread(target=show) for _ in range(2)]
            for thread in threads:
                thread.start()
            for thread in threads:
                thread.join(20)
        self.assertEqual((wrong, stage.cancelled(), stage._state), ([], True, "CANCELLED_AND_NOTIFIED"))

    def test_who_is_interrupted_as_it_puts(self):
        """What the put has settled is shown all the same."""

        class Slow(Memory):
            is_slow = False

            def append_groups(self, puts):
                if self.is_slow:
                    self.is_slow = False
                    signal.raise_signal(signal.SIGINT)
                    time.sleep(0.05)
                return super().append_groups(puts)

        # (a job in the background begins with the signal ignored)
        self.addCleanup(signal.signal, signal.SIGINT, signal.signal(signal.SIGINT, signal.default_int_handler))
        service = DurableService(Slow(), 0, functions=f.functions)
        self.services.append(service)
        durable = service.request("r")
        for _ in range(10):
            promise = durable.promise()
            service.store.is_slow = True
            with self.assertRaises(KeyboardInterrupt):
                promise.complete(1)
            self.assertEqual(promise.result(20), 1)

    def test_it_is_awaited(self):
        service = self.service()

        async def main():
            return await service.request().supply(f.load, 1)

        self.assertEqual(asyncio.run(main())["number"], 1)

    def test_an_await_that_is_given_up(self):
        """It leaves the stage as it is, for whoever else waits, and nothing of itself there."""

        async def given_up(stage):
            waits = [asyncio.ensure_future(stage) for _ in range(3)]
            await asyncio.sleep(0)
            waits[0].cancel()
            with self.assertRaises(asyncio.TimeoutError):
                await asyncio.wait_for(stage, 0.001)
            many = len(stage._done_callbacks)
            self.assertTrue(waits[0].cancelled() and not stage.done())
            stage.complete(17)
            return many, await waits[1], await waits[2], await stage

        for service, name in self.each():
            self.assertEqual(asyncio.run(given_up(service.request(name).promise())), (2, 17, 17, 17))

    def test_an_await_of_what_fails_or_is_cancelled(self):
        """As asyncio's own futures: also where the stage is settled already."""

        async def kinds(stages):
            waits = [asyncio.ensure_future(stage) for stage in stages]
            await asyncio.sleep(0)
            stages[0].cancel(), stages[1].fail(CancelledError()), stages[2].fail(TimeoutError("late"))
            stages[3].fail(PermissionError("no"))
            told = await asyncio.gather(*waits, return_exceptions=True)
            return told, await asyncio.gather(*stages, return_exceptions=True)

        durable = self.service().request("r")
        for told in asyncio.run(kinds([durable.promise() for _ in range(4)])):
            self.assertEqual([type(it) for it in told], [asyncio.CancelledError, asyncio.CancelledError, TimeoutError, PermissionError])

    def test_a_callback_that_raises_is_logged_and_the_others_are_called(self):
        def raises(_):
            raise KeyError("x")

        stage, called = self.service().request("r").promise("answer"), []
        for callback in (raises, called.append):
            stage.add_done_callback(callback)
        with self.assertLogs("concurrent.futures", "ERROR") as logs:
            stage.complete(1)
            self.until(lambda: called)
        self.assertEqual((called, len(logs.output)), ([stage], 1))
        self.assertIn("exception calling callback for", logs.output[0])

    def test_a_step_of_another_flow(self):
        """It names no stage of the request, whatever stands at its place; the same flow built again does."""

        def built(*names, name="order"):
            flow = Flow(name)
            return flow, [flow.promise(it) for it in names]

        for service, name in self.each():
            flow, (order, approval) = built("order", "approval")
            durable = service.start(flow, 17, name=name)
            again = built("order", "approval")[1]
            self.assertEqual(durable[again[1]], durable[approval])
            for _, steps in (
                built("order", "fraud score", "approval"),
                built("order", "fraud score"),
                built("order"),
                built("order", "approval", "more"),
                built("order", "approval", name="other"),
            ):
                for step in steps:
                    with self.assertRaises(KeyError) as told:
                        durable[step]
                    self.assertIn("is a step of another flow", str(told.exception))
            with self.assertRaises(KeyError):
                service.request(name + "?")[order]
            self.assertEqual(durable["approval"].number, 1)
            for which in ("fraud score", -1, 2):
                with self.subTest(which=which), self.assertRaises(KeyError):
                    durable[which]

    def test_a_request_that_grows(self):
        """One without a plan takes as many stages as one with a plan of that many."""
        store = Memory()
        service, other = (DurableService(store, 0, functions=f.functions, takes_all=True) for _ in range(2))
        self.services += [service, other]
        durable = service.request("r")
        for _ in range(4096):
            durable.promise()
        with self.assertRaises(RequestFull):
            durable.promise()
        self.assertTrue(other.open("r")[4095].complete(1))
        self.assertEqual(durable[4095].result(20), 1)

    def test_a_full_request(self):
        service = DurableService(Memory(), 0, functions=f.functions)
        self.services.append(service)
        flow = Flow()
        for _ in range(4094):
            flow.promise()
        durable = service.start(flow, name="full")
        durable.promise(), durable.promise()
        with self.assertRaises(RequestFull):
            durable.promise()
        self.assertEqual(durable.words_seen, 2)


if __name__ == "__main__":
    unittest.main()
