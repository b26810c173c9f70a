"""What does `cf.testing` find in services over a store, what may go wrong there, and what does it say of `cf.store`?

    CF_LIBRARY=/path/to/libcf.so python3 -m unittest discover -s clients/python/tests/testing
"""
import os
import sys
import unittest
from collections import Counter
from pathlib import Path

CLIENT = Path(__file__).resolve().parents[2]
if not os.environ.get("CF_INSTALLED"):
    sys.path.insert(0, str(CLIENT))
sys.path.insert(0, str(Path(__file__).resolve().parent))
import stored_services as services  # noqa: E402
from cf.service import Flow  # noqa: E402
from cf.store import Functions, Unknown  # noqa: E402
from cf.testing import orders, pure, touches  # noqa: E402

SECONDS = 10  # within which each planted fault has to be found
ENOUGH = {"seconds": 100, "most": 500}  # for a search that ends by itself
FAULTS = ["lost", "unanswered", "late", "silent", "killed", "slow"]


class Services(unittest.TestCase):
    def test_each_planted_fault_is_found(self):
        for service, why in services.FAULTY:
            with self.subTest(service.__name__):
                report = orders(service, seconds=SECONDS)
                self.assertTrue(report.failed, "nothing is found")
                self.assertEqual(report.failed[0].why, why)
                self.assertLess(report.seconds, SECONDS)

    def test_each_failing_order_fails_again_alone(self):
        for service, _ in services.FAULTY:
            with self.subTest(service.__name__):
                failure = orders(service, seconds=SECONDS).failed[0]
                again = orders(service, row=failure.row)
                self.assertEqual((again.orders, again.failed[0].why, again.failed[0].row), (1, failure.why, failure.row))

    def test_each_sound_service_is_sound_in_all_orders(self):
        for service in services.SOUND:
            with self.subTest(service.__name__):
                report = orders(service, **ENOUGH)
                self.assertEqual((report.whole, list(map(str, report.failed))), (True, []))


class Failures(unittest.TestCase):
    def setUp(self):
        self.failure = orders(services.charged_again).failed[0]

    def test_it_reads_like_a_story(self):
        lines = [it.text for it in self.failure.told]
        self.assertEqual(
            lines,
            [
                "worker 1 looks what is new",
                "worker 1 puts to order 17: charge is claimed",
                "worker 1 calls charge",
                "worker 1 is killed",
                "worker 2 takes worker 1 for gone",
                "worker 2 puts to order 17: charge is failed",
                "worker 2 puts to order 17: charge again is claimed",
                "worker 2 calls charge",
            ],
        )
        self.assertEqual(self.failure.told[5].settled[0][:23], "charge ends: Abandoned(")

    def test_the_pair_that_decides_is_named(self):
        self.assertIn("It is so if 4 (worker 1 is killed) comes before 3 (worker 1 calls charge).", str(self.failure))

    def test_what_was_lost_is_told(self):
        failure = orders(services.own_word_for_anothers).failed[0]
        text = "a client puts to lock: owner is completed; the store is silent for a minute, and it never comes there"
        self.assertIn(text, [it.text for it in failure.told])

    def test_it_has_histories(self):
        self.assertEqual(len(self.failure.histories), 1)
        self.assertIn('"callers"', self.failure.account())
        self.assertTrue(any("worker 2" in line for line in self.failure.histories[0].lines()))


class Callbacks(unittest.TestCase):
    def test_a_function_behind_a_stage_beside_its_callback(self):
        """Another process may call that before, or this one has its claim by then."""

        def test(world):
            log, functions = [], Functions()
            pay = functions.function("pay")(lambda: log.append("pay"))
            pack = functions.function("pack")(lambda _: log.append("pack"))
            store = world.store()
            one, _ = store.worker("one", functions), store.worker("two", functions)
            paid = one.request("order 17").supply(pay)
            paid.then(pack)
            paid.add_done_callback(lambda _: log.append("paid"))
            world.at_end(lambda: seen.add(tuple(log)) or True, "seen")

        for how in ({}, {"reduce": False}):
            seen = set()
            report = orders(test, **ENOUGH, **how)
            self.assertEqual((report.whole, list(map(str, report.failed))), (True, []))
            self.assertEqual(seen, {("pay", "paid", "pack"), ("pay", "pack", "paid")})


def tried(call, promise="promise", **faults):
    """What a client's call comes to in all orders, with what stands then: the end of each order."""

    def test(world):
        world.test = store = world.store(**faults)
        shop = store.process("shop")
        stage = shop.request("order").promise(promise)
        shop.calls(lambda: told.append(call(stage)), "client")
        told = world.told = []

    report = orders(test, ends=lambda world: (world.told[0], *world.test.outcomes()), **ENOUGH)
    assert report.whole and not report.failed, report
    return report


def completed(stage):
    try:
        return stage.complete(7)
    except Unknown:
        return "unknown"


class Faults(unittest.TestCase):
    """What each bound lets go wrong."""

    DONE, OPEN = "order: promise ends: 7", "order: promise is open"

    def test_none(self):
        self.assertEqual(set(tried(completed).ends), {(True, self.DONE)})

    def test_what_is_lost_or_unanswered_is_asked_again(self):
        for fault in ("lost", "unanswered", "late"):
            with self.subTest(fault):
                report = tried(completed, **{fault: 1})
                self.assertEqual(set(report.ends), {(True, self.DONE)})
                self.assertGreater(report.orders, 1)

    def test_a_silent_store_leaves_it_unknown(self):
        """Its put is asked again, as it is."""
        self.assertEqual(set(tried(completed, silent=1).ends), {(True, self.DONE), ("unknown", self.DONE)})

    def test_a_put_without_an_answer_is_put_before_what_is_asked_next(self):
        def test(world):
            world.test = store = world.store(silent=1, late=1)
            shop = store.process("shop")
            stage = shop.request("order").promise()

            def act():
                if completed(stage) == "unknown":
                    stage.fail(KeyError("x"))

            shop.calls(act)

        report = orders(test, ends=lambda world: tuple(world.test.outcomes()), **ENOUGH)
        self.assertEqual((report.whole, set(report.ends)), (True, {("order: promise ends: 7",)}))
        told = orders(failing(test)).failed[0].told
        self.assertTrue(any("the put that was on its way comes" in it.text for it in told), told)

    def test_bounds_are_for_each_order(self):
        def test(world):
            store = world.store(unanswered=2)
            shop = store.process("shop")
            stage = shop.request("order").promise()
            shop.calls(lambda: completed(stage))
            world.test = store

        report = orders(test, ends=lambda world: world.test.bounds.unanswered, **ENOUGH)
        self.assertEqual(set(report.ends), {0, 1, 2})

    def test_others_move_before_an_answer_comes(self):
        def test(world):
            log, store = [], world.store()
            stage = store.process("shop").request("order").promise()
            store.processes[0].calls(lambda: log.append(f"told {stage.complete(1)}"))
            world.calls(lambda: log.append(f"seen {store.is_settled('order', 'promise')}"))
            world.log = log

        options = {"ends": lambda world: tuple(world.log), **ENOUGH}
        report = orders(test, **options)
        self.assertEqual(set(report.ends), {("seen False", "told True"), ("seen True", "told True"), ("told True", "seen True")})
        self.assertEqual(report.ends.keys(), orders(test, reduce=False, **options).ends.keys())

    def test_a_killed_process_does_nothing_more(self):
        def test(world):
            log, functions = [], Functions()

            @functions.function("slow")
            def slow():
                log.append("begun")
                world.point()
                log.append("ended")

            world.test = store = world.store(killed=1)
            one = store.worker("one", functions)
            one.request("order").supply(slow)
            store.process("shop").open("order")
            world.log = log

        report = orders(test, ends=lambda world: (tuple(world.log), world.test.outcomes()[0][:21]), **ENOUGH)
        self.assertEqual(
            set(report.ends),
            {
                (("begun", "ended"), "order: slow ends: Non"),
                ((), "order: slow ends: Aba"),
                ((), "order: slow is open"),
                (("begun",), "order: slow ends: Aba"),
                (("begun", "ended"), "order: slow ends: Aba"),
            },
        )

    def test_a_process_that_is_there_may_be_taken_for_gone(self):
        def test(world):
            functions = Functions()
            load = functions.function("load")(lambda: 1)
            world.test = store = world.store(slow=1)
            store.worker("one", functions)
            store.process("shop", functions, workers=0).request("order").supply(load)

        report = orders(test, ends=lambda world: world.test.outcomes()[0][:21], **ENOUGH)
        self.assertEqual((report.whole, set(report.ends)), (True, {"order: load ends: 1", "order: load ends: Aba"}))

    def test_clocks_differ(self):
        def test(world):
            store = world.store()
            self.assertEqual([store.process("one").now(), store.process("two", ahead=60).now()], [0, 60])

        self.assertFalse(orders(test).failed)


def failing(test):
    """A test that fails where a put comes late."""

    def fails(world):
        test(world)
        store = world.test
        world.at_end(lambda: not store._landed, "no put comes late")

    return fails


class Working(unittest.TestCase):
    """What functions, callers and stages do under a search."""

    def made(self, body, **options):
        report = orders(body, **{**ENOUGH, **options})
        return report

    def test_a_caller_waits_for_a_worker(self):
        def test(world):
            functions, got = Functions(), []
            load = functions.function("load")(lambda: 5)
            store = world.store()
            store.worker("one", functions)
            shop = store.process("shop", functions, workers=0)
            shop.calls(lambda: got.append(shop.request("order").supply(load).result()), "client")
            world.at_end(lambda: got == [5], "it is told")

        report = self.made(test)
        self.assertEqual((report.whole, list(map(str, report.failed))), (True, []))

    def test_who_waits_for_ever_is_a_deadlock(self):
        def test(world):
            shop = world.store(killed=1).process("shop")
            shop.calls(lambda: shop.request("order").promise("a sign").result(), "client")

        self.assertEqual(self.made(test).failed[0].why, "deadlock: client waits for a sign")

    def test_a_wait_may_end_before(self):
        def test(world):
            shop = world.store().process("shop")
            sign = shop.request("order").promise("a sign")

            def wait():
                try:
                    told.append(sign.result(5))
                except TimeoutError:
                    told.append("late")

            shop.calls(wait, "client")
            shop.calls(lambda: sign.complete("there"), "another")
            told = world.told = []

        self.assertEqual(set(self.made(test, ends=lambda world: world.told[0]).ends), {"there", "late"})

    def test_a_limit_in_the_store_may_pass_at_any_moment(self):
        def test(world):
            functions = Functions()
            load = functions.function("load")(lambda: 5)
            world.test = store = world.store()
            store.worker("one", functions)
            store.process("shop", functions, workers=0).request("order").supply(load).or_timeout(2)

        ends = set(self.made(test, ends=lambda world: world.test.outcomes()[0]).ends)
        self.assertEqual(ends, {"order: load ends: 5", "order: load ends: TimeoutError('load took longer than 2 s')"})

    def test_stages_that_compose(self):
        def test(world):
            functions = Functions()
            load = functions.function("load")(lambda it: it + 1)
            outer = functions.function("outer")(lambda request, it: request.supply(load, it))
            world.test = store = world.store(unanswered=1)
            one = store.worker("one", functions)
            promise = one.request("order").promise()
            promise.compose(outer)
            promise.complete(1)
            world.at_end(lambda: store.outcome("order", "what outer gives") == 2, "it ends as the inner one")

        report = self.made(test, seconds=20)
        self.assertEqual(list(map(str, report.failed)), [])

    def test_a_flow_is_closed(self):
        def test(world):
            functions = Functions()
            load = functions.function("load")(lambda: 5)
            flow = Flow("order")
            flow.supply(load)
            store = world.store()
            store.worker("one", functions).start(flow, name="order")
            world.at_end(lambda: store.rows.memory.listing()[0].closed is not None, "it is closed")

        report = self.made(test)
        self.assertEqual((report.whole, list(map(str, report.failed))), (True, []))

    def test_two_threads_of_a_process(self):
        def test(world):
            functions, ran = Functions(), []
            load = functions.function("load")(touches("ran")(lambda number: ran.append(number)))
            request = world.store().worker("one", functions, workers=2).request("order")
            request.supply(load, 1)
            request.supply(load, 2)
            world.at_end(lambda: sorted(ran) == [1, 2], "both are run")

        report = self.made(test)
        self.assertEqual((report.whole, list(map(str, report.failed))), (True, []))

    def test_an_assertion_of_a_function_fails_the_order(self):
        def test(world):
            functions = Functions()

            @functions.function("load")
            def load():
                assert world is None, "it is"

            world.store().worker("one", functions).request("order").supply(load)

        self.assertEqual(self.made(test).failed[0].why, "load raised AssertionError('it is')")

    def test_what_a_caller_or_a_callback_raises_fails_the_order(self):
        def caller(world):
            world.store().process("shop").calls(lambda: {}["x"], "client")

        def callback(world):
            shop = world.store().process("shop")
            stage = shop.request("order").promise()
            stage.add_done_callback(lambda _: {}["x"])
            shop.calls(lambda: stage.complete(1))

        self.assertEqual(self.made(caller).failed[0].why, "client raised KeyError('x')")
        self.assertIn("raised KeyError('x')", self.made(callback).failed[0].why)

    def test_what_a_test_returns_is_settled_unless_its_process_was_killed(self):
        def test(world):
            return world.store().process("shop").request("order").promise("a sign")

        def killed(world):
            functions = Functions()
            load = functions.function("load")(lambda: 5)
            one = world.store(killed=1).worker("one", functions)
            return one.request("order").supply(load)

        self.assertEqual(self.made(test).failed[0].why, "a sign is never settled")
        self.assertEqual(list(map(str, self.made(killed).failed)), [])


def small(plan, workers=2, **faults):
    """A small plan that a worker or two run, with what `cf.store` promises of it."""

    def test(world):
        functions = Functions()
        load = functions.function("load")(touches()(lambda *_: 1))
        write = functions.function("write", transactional=True)(touches()(lambda effects, *_: effects.append(1)))
        world.test = store = world.store(**faults)
        one = store.worker("one", functions)
        store.process("two", functions, workers=workers - 1, takes_all=True)
        plan(one.request("order"), load, write)
        rows = store.rows

        def granted_once():
            counts = Counter(stage for _, _, stage in {*store.granted})
            return max(counts.values(), default=0) <= 1 and len(set(store.granted)) == len(store.granted)

        def stands_once():
            entries = [entry for name in rows.names for entry in rows.memory.read(name)]
            return len({token for _, token in entries}) == len(entries) and all(
                rows.memory.read(name)[place - 1][0] == word for _, name, place, word in store.answered
            )

        def is_paid():
            return len(store.effects) == int(store.is_settled("order", "write") and store.outcome("order", "write") is None)

        world.at_end(is_paid, "an effect stands exactly if its finish does")
        world.at_end(granted_once, "no claim is granted twice")
        world.at_end(stands_once, "a put stands once or never, and where its process was told")
        world.at_end(lambda: one.is_dead and workers == 1 or rows.views["order"].is_done(lambda _: True), "all stages are settled")

    return test


PLANS = {
    "one stage": lambda request, load, write: request.supply(load),
    "two in a row": lambda request, load, write: request.supply(load).then(load),
    "again": lambda request, load, write: request.supply(load).again(),
    "transactional": lambda request, load, write: request.supply(write),
}


class Properties(unittest.TestCase):
    """What `cf.store` promises, over small plans, whatever goes wrong once."""

    def test_no_claim_is_granted_twice_and_no_put_stands_twice(self):
        tried = [(name, fault) for name in ("one stage", "again", "transactional") for fault in FAULTS]
        for name, fault in tried + [("two in a row", "killed"), ("two in a row", "unanswered")]:
            with self.subTest(name, fault=fault):
                report = orders(small(PLANS[name], **{fault: 1}), **ENOUGH)
                self.assertEqual((report.whole, list(map(str, report.failed))), (True, []))

    def test_a_further_try_is_called_with_the_same(self):
        """Of two sources it is the one that the first try had: the first that was settled, or that was named if both were
        settled before."""

        def test(world):
            functions, called = Functions(), []
            load = functions.function("load")(lambda number: called.append(number))
            store = world.store(killed=1)
            request = store.process("shop", functions, workers=0).request("order")
            one, two = request.promise(), request.promise()
            stage = one.either(two, load) if is_before else None
            two.complete(8) if is_before else two.fail(ValueError("no"))
            one.complete(7)
            (stage or one.either(two, load)).again()
            store.worker("one", functions), store.worker("two", functions)
            world.check(lambda: set(called) <= {8 if is_before else 7}, "it is called with the same")
            world.at_end(lambda: most.append(len(called)) is None, "counted")

        for is_before in (False, True):
            most = []
            report = orders(test, **ENOUGH)
            self.assertEqual((report.whole, list(map(str, report.failed)), max(most)), (True, [], 2))


class Chance(unittest.TestCase):
    def test_each_way_of_an_arrival_is_tried(self):
        def test(world):
            stage = world.service.request().adopt(world.one_of(1, 2, 3))
            world.at_end(lambda: seen.add(stage.result()) or True, "seen")

        seen = set()
        self.assertEqual((orders(test, chance=50).orders, seen), (50, {1, 2, 3}))

    def test_what_goes_wrong_is_tried(self):
        for service in (services.own_word_for_anothers, services.done_elsewhere, services.charged_again):
            with self.subTest(service.__name__):
                self.assertTrue(orders(service, chance=500, seed=3).failed)


class Reduction(unittest.TestCase):
    def test_the_ends_are_the_same_with_and_without_it(self):
        tried = [(name, 1, fault) for name in PLANS for fault in FAULTS] + [("one stage", 2, "killed")]
        for name, workers, fault in tried:
            with self.subTest(name, workers=workers, fault=fault):
                options = {"ends": lambda world: (*world.test.outcomes(), *world.test.granted), "seconds": 100}
                test = small(PLANS[name], workers, **{fault: 1})
                reduced, plain = orders(test, **options), orders(test, reduce=False, **options)
                self.assertEqual((reduced.whole, plain.whole), (True, True))
                self.assertEqual(set(reduced.ends), set(plain.ends))

    def test_others_put_before_a_commit_and_behind_it(self):
        def test(world):
            functions = Functions()
            pay = functions.function("pay", transactional=True)(touches()(lambda effects: effects.append(17)))
            load = functions.function("load")(pure(lambda: 1))
            world.test = store = world.store()
            store.worker("one", functions)
            store.worker("two", functions)
            request = store.process("shop", functions, workers=0).request("order")
            request.supply(pay)
            request.supply(load)

        def end(world):
            last = world.test.rows.memory.read("order")[-1][0] >> 36 & 0xFFF
            return "+".join(process for process, _, _ in world.test.granted), "paid last" if last == 0 else "loaded last"

        report = orders(test, ends=end, seconds=100, most=2_000)
        self.assertEqual(
            (report.whole, set(report.ends)),
            (
                True,
                {
                    ("one+one", "loaded last"),
                    ("one+two", "loaded last"),
                    ("one+two", "paid last"),
                    ("two+one", "loaded last"),
                    ("two+one", "paid last"),
                    ("two+two", "loaded last"),
                },
            ),
        )

    def test_functions_in_two_processes_are_tried_in_both_orders(self):
        def test(world):
            functions, log = Functions(), []
            load = functions.function("load")(lambda number: log.append(number))
            store = world.store()
            one, two = store.process("one", functions), store.process("two", functions)
            one.request("first").supply(load, 1)
            two.request("second").supply(load, 2)
            world.log = log

        report = orders(test, ends=lambda world: tuple(world.log), **ENOUGH)
        self.assertEqual((report.whole, set(report.ends)), (True, {(1, 2), (2, 1)}))
        self.assertLess(report.orders + report.cut, 6)


if __name__ == "__main__":
    unittest.main()
