#!/usr/bin/env python3
"""Histories: their words and lines, texts that fail or would forge a line, and what is told of values.

    CF_LIBRARY=/path/to/libcf.so python3 clients/python/tests/service/test_histories.py [-v] [TEST ..]
"""
import asyncio
import json
import re
import threading
import unittest

from case import Case, fails, inc, Oops, until, Wild
from cf.service import describe_nothing, describe_types, Flow, flow as flows, LoopService, Service


class Histories(Case):
    def test_words(self):
        recorded = self.service.request("order 17")
        price = recorded.supply(int, "49").named("price")
        total = price.then(fails).named("total")
        total.exception()
        self.service.shutdown()
        text = str(recorded.history())
        for part in (
            "order 17: 6 events, 2 stages",
            "caller attaches 0 price, supply",
            "caller attaches 1 total, apply behind 0 price",
            "worker 0 claims 0 price and calls it\n",
            "worker 0 finishes 0 price, which gave 49",
            "0 price ends: 49",
            " claims 1 total and calls it with 49",
            "finishes 1 total, which failed with Oops('x')",
            "1 total ends: Oops('x')",
        ):
            self.assertIn(part, text)
        self.assertRegex(recorded.history().line(), r"^order 17: 6 events, 2 stages in \d+\.\d{3} ms; " r"1 failed: 1 total by Oops\('x'\); 0 open$")
        self.assertEqual(self.service.submit.__name__, "submit")

    def test_each_word_of_what_is_gathered(self):
        """It is counted with its time, also of what comes later."""
        recorded = self.service.request("r")
        promises = [recorded.promise() for _ in range(5)]
        recorded.all_of(*promises), recorded.first_of(*promises)
        self.assertEqual((recorded._events, len(recorded.history().words)), (13, 13))
        promises[0].complete(1)
        history = recorded.history()
        self.assertEqual((recorded._events, len(history.entries())), (14, 14))
        self.assertEqual(len(bytes(recorded._times)), 8 * 14)

    def test_who_settles_what_the_machine_does(self):
        """A relay within the request is settled by the relay, and what is late or run by nobody by the clock."""
        recorded, made = self.service.request("r"), []
        behind = recorded.supply(str).named("x").compose(lambda _: made.append(recorded.promise("late")) or made[-1])
        self.assertTrue(until(lambda: made))
        made[0].complete_on_timeout(5, 0)
        self.assertEqual(behind.result(20), 5)
        flow = Flow()
        flow.promise().compose(lambda _: made[1])
        planned = self.service.start(flow)
        made.append(planned.promise("later"))
        self.assertTrue(planned._stage(0).complete(1))
        self.assertTrue(until(lambda: "relay of later" in planned.history().names))
        made[1].complete_on_timeout(7, 0)
        self.assertEqual(planned._stage(2).result(20), 7)
        text, of_plan = str(recorded.history()), str(planned.history())
        for part in ("clock completes 3 late with 5\n", "relay completes 1 relay of late with 5\n"):
            self.assertIn(part, text)
        for part in ("clock completes 3 later with 7\n", "relay completes 1 relay of later with 7\n"):
            self.assertIn(part, of_plan)
        last = recorded.promise("last").then(inc)
        self.service.shutdown()
        recorded._stage(4).complete(1)
        self.assertIsInstance(last.exception(20), RuntimeError)
        self.assertIn("clock fails 5 inc with", str(recorded.history()))

    def test_texts_that_fail(self):
        class Mute:
            def __repr__(self):
                raise Oops

        self.request.promise().complete(Mute())
        self.assertIn("a Mute", str(self.request.history()))

    FORGED = "x\r\n    9.999 ms  caller completes 0 paid\t\x1b[2J\b\u2028\u2029\u202e\u200b\ud800\U000e0041\x85; 0 paid ends: 1\\n   y"
    ESCAPED = (
        r"x\r\n    9.999 ms  caller completes 0 paid\t"
        r"\u001b[2J\u0008\u2028\u2029\u202e"
        "\u200b"
        r"\ud800"
        "\U000e0041"
        r"\u0085; 0 paid ends: 1\n   y"
    )
    # what ends a line, turns the direction of a text, or can't be printed
    UNSHOWN = re.compile("[\0-\x1f\x7f-\x9f\u200e\u200f\u2028-\u202e\u2066-\u2069\ud800-\udfff]")

    def test_texts_forge_no_lines(self):
        class Forged:
            def __repr__(it):
                return self.FORGED[:60]

        class Fault(Exception):
            def __repr__(it):
                return self.FORGED[60:]

        recorded = self.service.request(self.FORGED)
        failed = recorded.promise(self.FORGED)
        recorded.promise().named("a;b").complete(Forged())
        late = failed.recover(lambda _: None).named("late\n").or_timeout(1e9)
        failed.fail(Fault())
        late.result(20)
        history = recorded.history()
        lines, short = history.lines(), self.ESCAPED.index("ends: ")
        self.assertEqual(len(str(history).splitlines()), len(lines))
        self.assertFalse(any(map(self.UNSHOWN.search, lines)))
        self.assertEqual(lines[0], f"{self.ESCAPED}: 7 events, 3 stages")
        self.assertIn(f"caller attaches 0 {self.ESCAPED}, source", str(history))
        self.assertIn(f"caller completes 1 a;b with {self.ESCAPED[:short]}"[:70], str(history))
        line = history.line()
        self.assertFalse(self.UNSHOWN.search(line))
        self.assertIn(r"\u0085\u003b 0 paid ends: 1", line)
        self.assertEqual((line.count("; "), line.split("; ")[-1]), (2, "0 open"))
        self.assertIn("x\\r\\n    9.999 ms", line)  # blanks stay
        self.assertEqual([len(text.splitlines()) for text in (history.account(), history.script())], [1, 1])
        self.assertIn("9.999 ms", json.loads(history.account())["values"][0])
        slow = recorded.promise("slow\n").or_timeout(0.01)
        self.assertIn("slow\\n took", str(slow.exception(20)))

    def test_what_is_told_of_values(self):
        """By the service, by a request, and by a loop's; a history keeps no value then."""
        secret, flow = "Bearer 0123456789abcdef", Flow()
        end = flow.promise("token").then(lambda token: [token, token])

        def raises(_):
            raise Wild

        def of(request, promise, stage):
            promise.complete(secret) if not promise.done() else None
            stage.result(20)
            failed = request.promise("failed")
            failed.fail(Oops(secret))
            request.promise("nothing").complete(None)
            until(lambda: " gave " in str(request.history()))
            history = request.history()
            account = json.loads(history.account())
            return [str(history), history.line(), *account["values"], *account["errors"]], history

        def new(service, **given):
            request = service.request("r", **given)
            promise = request.promise("token")
            return request, promise, promise.then(lambda token: [token, token])

        def begun(service, **given):
            request = service.start(flow, secret, **given)
            return request, request[flows.Step(flow, 0)], request[end]

        with Service(2, describe=describe_types) as typed:
            cases = [
                (new(typed), ("str of 23", "list of 2", "Oops")),
                (begun(typed), ("str of 23", "list of 2", "Oops")),
                (new(typed, describe=describe_nothing), ("-", "-", "-")),
                (new(typed, describe=raises), ("?", "?", "?")),
                (new(typed, describe=lambda value: 7), ("?", "?", "?")),
                (begun(typed, describe=describe_nothing), ("-", "-", "-")),
                (new(self.service, describe=lambda value: f"<{type(value).__name__}\n>"), ("<str\\n>", "<list\\n>", "<Oops\\n>")),
            ]
            request = flow.run(secret, describe=describe_types)
            cases.append(((request, request[flows.Step(flow, 0)], request[end]), ("str of 23", "list of 2", "Oops")))
            for case, told in cases:
                texts, history = of(*case)
                self.assertNotIn("0123456789", "".join(texts))
                for text in (f"caller completes 0 token with {told[0]}", f"which gave {told[1]}", f"with {told[2]}", "nothing with nil"):
                    self.assertIn(text, texts[0])
                self.assertEqual((history.values, history.errors), (texts[2:4], texts[4:]))
            stage = typed.submit(lambda: secret)
            stage.result(20)
            said = "0 Histories.test_what_is_told_of_values.<locals>.<lambda> ends: str of 23"
            self.assertTrue(until(lambda: said in str(stage.request.history())))
        texts, history = of(*new(self.service))
        self.assertIn(secret, texts[0])
        self.assertEqual(history.values[0], secret)

        async def main():
            recorded = LoopService(asyncio.get_running_loop(), describe=describe_nothing).request()
            await recorded.supply(lambda: secret)
            self.assertNotIn(secret, str(recorded.history()))
            recorded = LoopService(asyncio.get_running_loop()).request(describe=describe_types)
            await recorded.supply(lambda: secret)
            self.assertIn("str of 23", str(recorded.history()))

        asyncio.run(main())

    def test_what_tells_of_values_may_call(self):
        """It is called under no lock of the request."""

        def asking(value):
            return str(len(recorded.history().words) if value == "ask" else value)

        recorded = self.service.request("r", describe=asking)
        asks = threading.Thread(target=lambda: told.append(recorded.promise().complete("x")))
        told = []
        recorded.promise().complete("ask")
        recorded._describe = lambda value: (asks.start(), asks.join(20), "told")[2] if not told else "again"
        self.assertIn("told", str(recorded.history()))
        self.assertEqual(told, [True])

    def test_it_stays(self):
        history = self.request.history()
        self.request.promise()
        self.assertEqual((len(history.words), str(history)), (0, "r: 0 events, 0 stages"))

    def test_it_has_what_the_machine_does_to_a_relay(self):
        gate = self.request.promise()
        composed = gate.compose(lambda _: later)
        later = self.request.promise()
        gate.complete(1)
        self.assertTrue(until(lambda: len(self.request.history().words) == 7))
        later.complete(2)
        self.assertEqual((composed.result(20), len(self.request.history().words)), (2, 9))

    def test_its_names_stay(self):
        promise = self.request.promise().named("before")
        history = self.request.history()
        promise.named("behind")
        self.request.promise()
        self.assertEqual((history.names, self.request.history().names), (["before"], ["behind", "promise"]))
        self.assertIn("before", str(history))

    def test_a_submit_has_one(self):
        stage = self.service.submit(inc, 1)
        stage.result()
        self.service.shutdown()
        self.assertTrue(str(stage.request.history()).startswith("inc: 3 events, 1 stage\n"))


if __name__ == "__main__":
    unittest.main()
