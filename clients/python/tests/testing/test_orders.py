"""What does `cf.testing` find, what does it tell, and what does it leave out?

    CF_LIBRARY=/path/to/libcf.so python3 -m unittest discover -s clients/python/tests/testing
"""
import asyncio
import concurrent.futures
import itertools
import os
import sys
import threading
import unittest
from pathlib import Path

CLIENT = Path(__file__).resolve().parents[2]
if not os.environ.get("CF_INSTALLED"):
    sys.path.insert(0, str(CLIENT))
sys.path.insert(0, str(Path(__file__).resolve().parent))
import services  # noqa: E402
from cf.service import Flow  # noqa: E402
from cf.testing import NotDeterministic, every_order, orders, pure, touches  # noqa: E402

SECONDS = 10  # within which each planted fault has to be found


class Services(unittest.TestCase):
    def test_each_planted_fault_is_found(self):
        for service, why, options in services.FAULTY:
            with self.subTest(service.__name__):
                report = orders(service, seconds=SECONDS, **options)
                self.assertTrue(report.failed, "nothing is found")
                self.assertIn(why, report.failed[0].why)
                self.assertLess(report.seconds, SECONDS)

    def test_each_failing_order_fails_again_alone(self):
        for service, _, options in services.FAULTY:
            with self.subTest(service.__name__):
                failure = orders(service, seconds=SECONDS, **options).failed[0]
                again = orders(service, row=failure.row, **options)
                self.assertEqual((again.orders, again.failed[0].why, again.failed[0].row), (1, failure.why, failure.row))

    def test_each_sound_service_is_sound_in_all_orders(self):
        for service, options in services.SOUND:
            with self.subTest(service.__name__):
                report = orders(service, seconds=SECONDS, **options)
                self.assertEqual((report.whole, list(map(str, report.failed))), (True, []))


def charged(world):
    return services.charged_twice(world)


class Failures(unittest.TestCase):
    def setUp(self):
        self.failure = orders(charged).failed[0]

    def test_it_reads_like_a_story(self):
        self.assertEqual(
            [told.text for told in self.failure.told],
            ["price comes: 4900", "charge is claimed", "charge is called", "the limit of charge passes", "<lambda> is claimed", "<lambda> is called"],
        )
        self.assertEqual(self.failure.told[3].settled[0][:28], "charge ends: TimeoutError('c")

    def test_the_pair_that_decides_is_named(self):
        self.assertEqual([tuple(pair) for pair in self.failure.pairs], [(1, 3)])
        self.assertIn("It is so if 4 (the limit of charge passes) comes before 2 (charge is claimed).", str(self.failure))

    def test_its_row_is_printed(self):
        self.assertIn(f'row="{self.failure.row}"', str(self.failure))
        self.assertEqual(self.failure.row, "come.0.0 begin.0.1 call.0.1 limit.0.1.1 begin.0.2 call.0.2")

    def test_its_history_has_the_times_of_the_world(self):
        lines = self.failure.histories[0].lines()
        self.assertTrue(any(line.startswith(" 2000.000 ms  clock times out 1") for line in lines), lines)

    def test_its_account_is_that_of_the_history(self):
        self.assertEqual(self.failure.account(), self.failure.histories[0].account())

    def test_it_is_made_smaller(self):
        def longer(world):
            world.calls(*[lambda: None] * 3, name="somebody else")
            return services.charged_twice(world)

        found = orders(longer, smaller=False, chance=200, seed=3).failed[0]
        smaller = orders(longer, chance=200, seed=3).failed[0]
        self.assertLess(len(smaller.moves), len(found.moves) + 1)
        self.assertEqual(len(smaller.moves), 6)

    def test_several_are_told(self):
        report = orders(charged, failures=10**6)
        self.assertGreater(len(report.failed), 1)
        self.assertTrue(report.whole)


class Bounds(unittest.TestCase):
    def test_orders_bound_a_search(self):
        report = orders(services.never_overdrawn, most=5)
        self.assertEqual((report.orders + report.cut <= 5, report.whole), (True, False))

    def test_seconds_bound_a_search(self):
        report = orders(services.never_overdrawn, seconds=0)
        self.assertEqual((report.orders, report.whole), (0, False))

    def test_a_seed_decides_what_comes_by_chance(self):
        found = [orders(charged, chance=50, seed=seed, failures=50, smaller=False).failed for seed in (1, 1, 2)]
        rows = [[failure.row for failure in failed] for failed in found]
        self.assertEqual(rows[0], rows[1])
        self.assertNotEqual(rows[0], rows[2])

    def test_a_part_of_the_budget_is_by_chance(self):
        def seven(world):
            came = []
            arrivals = [world.arrives(number, f"arrival {number}") for number in range(7)]
            for arrival in arrivals:
                arrival.add_done_callback(lambda it: came.append(it.result()))
            world.at_end(lambda: came[-1] != 0, "the first doesn't come last")

        report = orders(seven, most=3_000)
        self.assertTrue(report.failed)
        self.assertGreater(report.by_chance, 0)


class Waiting(unittest.TestCase):
    def test_a_function_that_waits_lets_others_go_on(self):
        def test(world):
            request = world.service.request()
            price = request.adopt(world.arrives(3, "price"))
            twice = request.supply(lambda: price.result() * 2)
            world.at_end(lambda: twice.result() == 6, "it is six")
            return twice

        self.assertEqual((orders(test).whole, orders(test).failed), (True, []))

    def test_a_test_may_wait(self):
        def test(world):
            self.assertEqual(world.service.submit(lambda: 3).result(), 3)
            with world.service as service:
                stage = service.submit(lambda: 4)
            self.assertTrue(stage.done())

        self.assertEqual((orders(test).whole, orders(test).failed), (True, []))

    def test_a_wait_may_end_before_what_it_waits_for(self):
        def test(world):
            price = world.service.request().adopt(world.arrives(3, "price"))
            try:
                seen.add(price.result(2))
            except concurrent.futures.TimeoutError:
                seen.add("late")

        seen = set()
        self.assertTrue(orders(test).whole)
        self.assertEqual(seen, {3, "late"})

    def test_those_who_wait_for_several_futures(self):
        for waits in (concurrent.futures.wait, lambda stages: list(concurrent.futures.as_completed(stages))):

            def test(world):
                request = world.service.request()
                stages = [request.adopt(world.arrives(number, f"arrival {number}")) for number in range(2)]
                waits(stages)
                self.assertEqual([stage.result() for stage in stages], [0, 1])

            report = orders(test)
            self.assertEqual((report.whole, list(map(str, report.failed))), (True, []))

    def test_each_way_of_a_choice_is_tried(self):
        def test(world):
            request = world.service.request()

            def ask():
                if world.choice(True, False):
                    raise OSError("away")
                return world.choice("yes", "no")

            asked = request.supply(ask)
            world.at_end(lambda: seen.add("away" if asked.exception() else asked.result()) or True, "seen")
            return asked

        seen = set()
        self.assertEqual((orders(test).whole, list(map(str, orders(test).failed))), (True, []))
        self.assertEqual(seen, {"away", "yes", "no"})

    def test_a_deadlock_names_who_waits_for_what(self):
        def test(world):
            request = world.service.request()
            promise = request.promise("a promise")
            return request.supply(promise.result).named("a function")

        self.assertEqual(orders(test).failed[0].why, "deadlock: a function waits for a promise")

    def test_a_callback_that_waits_is_told(self):
        def test(world):
            request = world.service.request()
            open_one = request.promise("open")
            request.supply(int).add_done_callback(lambda _: open_one.result())

        self.assertIn("a callback waits for open", orders(test).failed[0].why)


class Faults(unittest.TestCase):
    def test_what_a_test_or_a_callback_raises(self):
        def raises(*_):
            raise KeyError("x")

        def callback(world):
            world.service.submit(int).add_done_callback(raises)

        def caller(world):
            world.calls(raises, name="a caller")

        def check(world):
            world.check(raises, "checked")

        for test, why in [
            (raises, "the test raised KeyError('x')"),
            (callback, "raises raised KeyError('x')"),
            (caller, "a caller raised KeyError('x')"),
            (check, "checked: it raised KeyError('x')"),
        ]:
            with self.subTest(why):
                self.assertEqual(orders(test).failed[0].why, why)

    def test_what_is_never_settled(self):
        self.assertEqual(orders(lambda world: world.service.request().promise("a promise")).failed[0].why, "a promise is never settled")

    def test_threads_of_ones_own_are_outside(self):
        def test(world):
            promise = world.service.request().promise()
            thread = threading.Thread(target=promise.complete, args=(1,), name="mine")
            thread.start()
            thread.join()

        self.assertIn("the thread mine changed a request", orders(test).failed[0].why)

    def test_a_test_that_does_otherwise_is_told(self):
        numbers = itertools.count()

        def test(world):
            request = world.service.request()
            return [request.supply(int) for _ in range(1 + next(numbers) % 2)]

        with self.assertRaises(NotDeterministic) as caught:
            orders(test)
        self.assertIn("begin.0.0", str(caught.exception))

    def test_a_test_that_fails_later_is_told(self):
        numbers = itertools.count()

        def test(world):
            self.assertLess(next(numbers), 2)
            return [world.service.submit(lambda: None) for _ in range(2)]

        with self.assertRaises(NotDeterministic) as caught:
            orders(test)
        self.assertIn("it fails now, and didn't before: the test raised", str(caught.exception))

    def test_a_test_that_does_otherwise_later_is_told(self):
        numbers = itertools.count()

        def test(world):
            request = world.service.request()
            return [request.supply(lambda: None) for _ in range(3 if next(numbers) == 2 else 2)]

        with self.assertRaises(NotDeterministic) as caught:
            orders(test)
        self.assertIn("begin.0.0 begin.0.1\nbefore, and now\n    begin.0.0 begin.0.1 begin.0.2", str(caught.exception))

    def test_what_outlives_a_run_is_told(self):
        numbers = itertools.count()
        with self.assertRaises(NotDeterministic):
            orders(lambda world: world.service.submit(next, numbers).then(lambda number: number and world.service.submit(int)))


class LeftOut(unittest.TestCase):
    """How many orders are tried of what, and that no end is lost by it."""

    def counts(self, test, **options):
        return [orders(test, reduce=reduce, **options).orders for reduce in (True, False)]

    def test_functions_of_which_nothing_is_known(self):
        def test(world):
            request = world.service.request()
            return [request.supply(lambda: None) for _ in range(2)]

        self.assertEqual(self.counts(test), [2, 20])

    def test_what_would_have_come_behind_a_failure(self):
        def checked(world, done):
            world.check(lambda: "one" not in done or "two" in done, "two before one")

        def called(world, done):
            world.calls(lambda: self.assertFalse("one" in done), name="three")

        def run(world, done):
            world.service.submit(lambda: self.assertNotEqual(done, ["one"]))

        def waits(world, done):
            request = world.service.request()
            promise = request.promise()
            request.supply(promise.result)
            world.calls(lambda: "one" in done and promise.complete(1), name="three")

        for fault in (checked, called, run, waits):

            def test(world, fault=fault):
                done = []
                world.calls(lambda: done.append("one"), name="one")
                world.calls(lambda: done.append("two"), name="two")
                fault(world, done)

            with self.subTest(fault.__name__):
                every, some = [
                    orders(test, reduce=reduce, failures=10**9, smaller=False, ends=lambda world: tuple(world.outcomes()))
                    for reduce in (False, True)
                ]
                self.assertEqual((some.whole, set(some.ends)), (True, set(every.ends)))
                self.assertEqual({it.why for it in some.failed}, {it.why for it in every.failed})
                self.assertEqual((len(every.ends), len({it.why for it in every.failed})), (1, 1))

    def test_many_failures(self):
        report = orders(services.overdrawn, seconds=60, reduce=False, failures=10**9, smaller=False)
        self.assertTrue(report.whole)
        self.assertGreater(report.orders, 100)
        self.assertGreater(len(report.failed), 1)

    def test_pure_functions(self):
        def test(world):
            request = world.service.request()
            return [request.supply(pure(lambda: None)) for _ in range(2)]

        self.assertEqual(self.counts(test), [1, 20])

    def test_functions_that_touch_different_things(self):
        def test(names):
            return lambda world: [world.service.submit(touches(name)(lambda: None)) for name in names]

        self.assertEqual(self.counts(test("ab")), [1, 20])
        self.assertEqual(self.counts(test("aa")), [2, 20])

    def test_what_a_function_reads(self):
        def test(world):
            request = world.service.request()
            promises = [request.promise(), request.promise()]
            world.calls(promises[0].cancel)
            world.calls(promises[1].cancel)
            return [*promises, request.supply(touches("own")(lambda: promises[0].done()))]

        self.assertEqual(self.counts(test)[0], 2)

    def test_what_is_joined(self):
        """Whoever comes first wins in some order, and each two of three are a quorum."""
        firsts, votes = set(), set()

        def test(world):
            request = world.service.request()
            parts = [request.adopt(world.arrives(name, name)) for name in "abc"]
            first, voted = request.first(*parts), request.quorum(2, *parts)
            world.at_end(lambda: firsts.add(first.result()) or votes.add("".join(voted.result())) or True, "they end")

        self.assertTrue(orders(test).whole)
        self.assertEqual((firsts, votes), (set("abc"), {"ab", "ac", "bc", "abc"}))

    def test_a_relay_that_was_let_go(self):
        """What arrives behind a change touches nothing of it, and would have come to something else before it."""

        def test(world):
            request = world.service.request()
            price = request.adopt(world.arrives(3, "price"))
            world.at_end(lambda: seen.add(price.result()) or True, "seen")
            return request.supply(lambda: price.complete(1))

        seen = set()
        self.assertTrue(orders(test).whole)
        self.assertEqual(seen, {1, 3})

    def test_a_history_is_read_whole(self):
        def test(world):
            request = world.service.request()
            world.calls(request.promise().cancel)
            return request.supply(touches("own")(lambda: request.history().words))

        self.assertEqual(self.counts(test)[0], 2)

    def test_what_a_check_reads(self):
        def test(world):
            request = world.service.request()
            one, two = request.promise("one"), request.promise("two")
            world.calls(one.cancel)
            world.calls(two.cancel)
            world.check(lambda: not (two.done() and not one.done()), "one before two")

        self.assertTrue(orders(test).failed)

    def test_limits_of_different_requests(self):
        def test(world):
            return [world.service.request().promise().complete_on_timeout(1, seconds) for seconds in (1, 2, 3)]

        self.assertEqual(self.counts(test), [1, 6])

    def test_a_limit_comes_in_due_order_within_a_request(self):
        def test(world):
            request, came = world.service.request(), []
            stages = [request.promise().complete_on_timeout(seconds, seconds) for seconds in (3, 1, 2)]
            for stage in stages:
                stage.add_done_callback(lambda it: came.append(it.result()))
            world.at_end(lambda: came == [1, 2, 3], "in due order")
            return stages

        self.assertEqual(list(map(str, orders(test).failed)), [])

    def test_what_need_not_come(self):
        def test(world):
            news = world.service.request().adopt(world.may(1, "news"))
            if has_limit:
                news.complete_on_timeout(0, 1)
            world.at_end(lambda: seen.add(news.done() and news.result()) or True, "seen")

        for has_limit, wanted in [(True, {0, 1}), (False, {False, 1})]:
            seen = set()
            self.assertTrue(orders(test).whole)
            self.assertEqual(seen, wanted)

    def test_a_cancel_between_claim_and_finish(self):
        def test(world):
            ran = []
            stage = world.service.submit(ran.append, 1)
            world.calls(stage.abandon, name="somebody")
            world.at_end(lambda: not (ran and stage.cancelled()), "what ran isn't cancelled")

        self.assertTrue(orders(test).failed)


class Turns(unittest.TestCase):
    """A function behind a stage may be called before that one's callbacks, by a thread that comes for another function of
    the request."""

    def ordered(self, beside):
        def test(world):
            log, request = [], world.service.request("order 17")
            paid = request.supply(lambda: 4900).named("pay")
            packed = paid.then(lambda _: log.append("packed")).named("pack")
            paid.add_done_callback(lambda _: log.append("paid"))
            world.at_end(lambda: seen.add(tuple(log)) or True, "seen")
            return [packed, *beside(request)]

        seens = []
        for reduce in (True, False):
            seen = set()
            report = orders(test, most=10**6, seconds=60, reduce=reduce)
            self.assertEqual((report.whole, list(map(str, report.failed))), (True, []))
            seens.append(seen)
        self.assertEqual(seens[0], seens[1])
        return seens[0]

    def test_alone(self):
        """Its own thread calls the callbacks first."""
        self.assertEqual(self.ordered(lambda request: []), {("paid", "packed")})
        self.assertEqual(self.ordered(lambda request: [request.promise().complete_on_timeout(1, 1)]), {("paid", "packed")})

    def test_beside_a_function(self):
        self.assertEqual(self.ordered(lambda request: [request.supply(lambda: None)]), {("paid", "packed"), ("packed", "paid")})

    def test_beside_one_that_is_ready_later(self):
        def beside(request):
            return [request.promise().complete_on_timeout(1, 1).then(lambda _: None)]

        self.assertEqual(self.ordered(beside), {("paid", "packed"), ("packed", "paid")})

    def test_beside_one_that_was_cancelled(self):
        """A thread comes for it all the same."""

        def beside(request):
            request.supply(lambda: None).cancel()
            return []

        self.assertEqual(self.ordered(beside), {("paid", "packed"), ("packed", "paid")})

    def test_each_turn_claims_one(self):
        """Where another thread takes the function behind a stage, the one that settled that stage takes the other's."""

        def test(world):
            claimed, request = [], world.service.request()
            first = request.supply(pure(lambda: None)).named("first")
            for name in ("behind", "other"):
                stage = first.then(lambda _: None) if name == "behind" else request.supply(lambda: None)
                stage.named(name)
            first.add_done_callback(lambda _: claimed.append([it.running() for it in stages]))
            stages = [request._stage(number) for number in (1, 2)]
            world.at_end(lambda: seen.update(map(tuple, claimed)) or True, "seen")
            return stages

        seen = set()
        self.assertTrue(orders(test, reduce=False).whole)
        self.assertEqual(seen, {(False, False), (False, True), (True, False)})


class Points(unittest.TestCase):
    def test_fine_lets_others_go_on_at_each_change(self):
        def test(world):
            request = world.service.request()
            seen = []
            request.supply(lambda: seen.append(1))
            stage = request.promise()
            world.at_end(lambda: stage.number == 1, "it is there")
            if seen:
                raise AssertionError("the function was called before the test went on")

        self.assertFalse(orders(test).failed)
        self.assertTrue(orders(test, fine=True).failed)

    def test_fine_with_callbacks_and_callers(self):
        def test(world):
            request = world.service.request()
            first, second = request.promise("first"), request.promise("second")
            first.add_done_callback(lambda _: second.complete(1))
            world.calls(lambda: first.complete(0), name="somebody")
            return second.then(lambda it: it + 1)

        self.assertEqual((orders(test, fine=True).whole, list(map(str, orders(test, fine=True).failed))), (True, []))

    def test_flows_are_begun_in_a_world(self):
        flow = Flow("order")
        paid = flow.promise("cents").then(lambda cents: cents + 1)

        def test(world):
            request = world.service.start(flow, 4899)
            world.at_end(lambda: request[paid].result() == 4900, "it is paid")
            return request[paid]

        self.assertEqual((orders(test).whole, orders(test).failed), (True, []))


class Loops(unittest.TestCase):
    def test_a_service_on_the_loop(self):
        def test(world):
            request = world.loop_service.request()

            async def load():
                await asyncio.sleep(1)
                return 3

            stage = request.supply(load).or_timeout(2)
            world.at_end(lambda: seen.add(stage.exception() or stage.result()) or True, "seen")
            return stage

        seen = set()
        self.assertEqual((orders(test).whole, list(map(str, orders(test).failed))), (True, []))
        self.assertEqual({type(it) for it in seen}, {int, TimeoutError})

    def test_a_coroutine_awaits_stages_of_a_service(self):
        async def test(world):
            request = world.service.request()
            assert await request.supply(lambda: 3).then(lambda it: it + 1) == 4

        self.assertEqual((orders(test).whole, list(map(str, orders(test).failed))), (True, []))

    def test_a_coroutine_that_holds_up_its_loop_is_told(self):
        async def test(world):
            world.service.submit(int).result()

        self.assertIn("holds up its loop", orders(test).failed[0].why)

    def test_what_a_coroutine_raises(self):
        async def test(world):
            raise KeyError("x")

        self.assertEqual(orders(test).failed[0].why, "the test raised KeyError('x')")


class Decorated(unittest.TestCase):
    @every_order
    def test_a_sound_service(self, world):
        """It is called with the case and a world."""
        return services.charged_by_key(world)

    @every_order(whole=True, seconds=5)
    def test_options(self, world):
        return services.charged_by_key(world)

    def test_it_fails_with_the_story(self):
        with self.assertRaises(AssertionError) as caught:
            every_order(charged)()
        self.assertIn("charged at most once: not so in this order of 6 moves", str(caught.exception))
        with self.assertRaises(AssertionError):
            every_order(whole=True, most=2)(services.never_overdrawn)()

    def test_it_keeps_its_name(self):
        self.assertEqual(Decorated.test_a_sound_service.__name__, "test_a_sound_service")
        self.assertEqual(Decorated.test_a_sound_service.__doc__, "It is called with the case and a world.")


if __name__ == "__main__":
    unittest.main()
