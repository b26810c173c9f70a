"""What does a search of `cf.testing` leave out, what does it draw, and how does it follow a row?

    CF_LIBRARY=/path/to/libcf.so python3 clients/python/tests/testing/test_searches.py [-v] [TEST ..]
"""
import functools
import os
import sys
import unittest
from pathlib import Path

CLIENT = Path(__file__).resolve().parents[2]
if not os.environ.get("CF_INSTALLED"):
    sys.path.insert(0, str(CLIENT))
sys.path.insert(0, str(Path(__file__).resolve().parent))
import services  # noqa: E402
from cf.service import Flow  # noqa: E402
from cf.service.words import COMPLETE  # noqa: E402
from cf.store import Functions, Put, Timer  # noqa: E402
from cf.store.plans import text_of  # noqa: E402
from cf.testing import orders, touches  # noqa: E402
from cf.testing.footprints import CHANGES, READS  # noqa: E402
from cf.testing.rows import ROWS, Rows  # noqa: E402


class Turn(unittest.TestCase):
    def same_ends(self, test, end, **options):
        """The ends of a test, which are the same if nothing is left out."""
        reduced, plain = (orders(test, ends=end, reduce=reduce, **options) for reduce in (True, False))
        self.assertEqual((reduced.whole, plain.whole), (True, True))
        self.assertEqual(set(reduced.ends), set(plain.ends))
        return set(plain.ends)

    def test_callers_that_complete_the_same_promises(self):
        def test(world):
            promises = world.promises = {name: world.service.request().promise() for name in "abc"}
            for number, names in enumerate(["cb", "aba", "c"]):
                world.calls(*[functools.partial(promises[name].complete, number) for name in names])

        report = orders(test, ends=lambda world: tuple(it.result() for it in world.promises.values()))
        self.assertEqual((report.whole, set(report.ends)), (True, {(1, b, c) for b in (0, 1) for c in (0, 2)}))

    def test_an_arrival_that_is_cancelled(self):
        def test(world):
            price, told = world.arrives(3, "price"), {}
            world.told = told
            world.service.submit(touches("one")(lambda: told.update(cancels=price.cancel())))
            world.service.submit(touches("two")(lambda: told.update(sees=price.cancelled())))

        ends = self.same_ends(test, lambda world: (world.told["cancels"], world.told["sees"]))
        self.assertEqual(ends, {(True, True), (True, False), (False, False)})

    def test_a_limit_that_need_not_pass(self):
        def test(world):
            world.price = world.service.request().promise().complete_on_timeout(1, 1)

        self.assertEqual(self.same_ends(test, lambda world: world.price.done(), free_clock=True), {True, False})

    def test_a_process_that_is_killed_before_it_tells_what_is_composed(self):
        def test(world):
            functions = Functions()
            outer = functions.function("outer")(lambda request, it: request.supply(outer, it))
            store = world.store(killed=1)
            shop = store.process("shop", functions, workers=0)
            price = shop.request("order").promise("price")
            price.compose(outer)
            store.process("two", functions).open("order")
            shop.calls(price.cancel)
            settled = functools.partial(store.is_settled, "order")
            world.at_end(lambda: settled("price") == settled("what outer gives"), "it is told by another")

        report = orders(test)
        self.assertEqual((report.whole, list(map(str, report.failed))), (True, []))


class Row(unittest.TestCase):
    WHOLE = "come.0.0 begin.0.1 call.0.1 limit.0.1.1 begin.0.2 call.0.2"  # an order in which it is charged twice

    def test_a_row_that_ends_early_is_gone_on_with(self):
        rows = [self.WHOLE.rsplit(" ", less)[0] for less in (1, 2)]
        found = [orders(services.charged_twice, row=row).failed for row in rows]
        self.assertEqual([failed[0].row for failed in found], [self.WHOLE, self.WHOLE.replace(" begin.0.2", " end.0.1 begin.0.2")])

    def test_the_limit_of_who_waits_for_what_is_outside(self):
        def test(world):
            price = world.arrives(1, "price")
            stage = world.service.submit(lambda: price.result(2))
            world.at_end(lambda: stage.exception() is None, "the price comes in time")

        self.assertEqual(orders(test).failed[0].row, "begin.0.0 call.0.0 limit.-1.0.1 go.0.0 end.0.0 come.0.0")


class Footprints(unittest.TestCase):
    def test_what_calls_of_a_store_touch(self):
        def touched(call):
            told.clear()
            call()
            return told

        told = []
        rows = Rows(lambda thing, how: told.append((thing, how)))
        row, put = ("row", "a"), Put("a", 0, [(COMPLETE << 56, 1)], {})
        flow = Flow("one")
        flow.promise()
        self.assertEqual(touched(lambda: rows.open("a", text_of(flow, Functions()))), [(ROWS, CHANGES), (row, CHANGES)])
        self.assertEqual(touched(lambda: rows.open("a", "{}")), [(ROWS, READS)])
        self.assertEqual(touched(lambda: rows.append(put)), [(row, CHANGES)])
        self.assertEqual(touched(lambda: rows.append(put._replace(entries=[(COMPLETE << 56, 2)]))), [(row, READS)])
        self.assertEqual(touched(lambda: rows.read("a", 0, 0)), [(row, READS)])
        self.assertEqual(touched(lambda: rows.set_timer(Timer("a", 0, 1.0, b"", 0))), [(row, CHANGES)])
        self.assertEqual(touched(lambda: rows.end("a", 1, 0)), [(row, CHANGES)])
        self.assertEqual(touched(lambda: rows.drop("a", None)), [(ROWS, CHANGES), (row, CHANGES)])


class Chance(unittest.TestCase):
    def test_a_store_that_answers_has_its_turn_as_others_have(self):
        def test(world):
            log, shop = [], world.store().process("shop")
            price = shop.request("order").promise()
            shop.calls(lambda: price.complete(1) and log.append("put"))
            world.calls(*[lambda: log.append("another")] * 3)
            world.at_end(lambda: places.append(log.index("put")) is None, "counted")

        places = []
        orders(test, chance=40, seed=1, seconds=100)
        self.assertGreater(min(places.count(0), places.count(3)), 5)


if __name__ == "__main__":
    unittest.main()
