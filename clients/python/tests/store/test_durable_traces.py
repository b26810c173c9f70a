#!/usr/bin/env python3
"""Who is told of the end of a request in a store, with which spans? Which context have functions there? In the place of
OpenTelemetry's package stands the few of its calls that are used.

    CF_LIBRARY=/path/to/libcf.so python3 clients/python/tests/store/test_durable_traces.py [-v] [TEST ..]
"""
import contextvars
import json
import sys
import threading
import time
import types
import unittest
import unittest.mock
from pathlib import Path

from case import Case
import shared_functions as f
from cf.service import Flow, Service, SpanFile
from cf.store import Abandoned, Broken, DurableService, Functions, Memory, Trace, Variables, Worker, connect
from cf.store.host import Host
from cf.store.plans import SharedPlan, checked_definition

OTHER = contextvars.ContextVar("other")


def within(name, call, /, *args, **kwargs):
    """Calls this in a context of its own, in which the tenant has a name."""
    context = contextvars.copy_context()
    context.run(f.TENANT.set, name)
    return context.run(call, *args, **kwargs)


class Hooks(Case):
    def setUp(self):
        super().setUp()
        self.told = []

    def until_told(self, *names):
        """The hook is told of these, and of no more."""
        self.until(lambda: len(self.told) >= len(names))
        time.sleep(0.1)
        self.assertEqual(sorted(history.name for history in self.told), sorted(names))
        return self.told

    def test_a_request_that_is_closed_is_told_once(self):
        for service, name in self.each(on_end=self.told.append):
            request = service.request(name)
            self.assertEqual(request.supply(f.inc, 1).result(20), 2)
            request.end()
            (history,) = self.until_told(name)
            self.assertIn("0 inc ends: 2", str(history))
            request.end()
            self.until_told(name)
            request.promise().complete(7)  # which opens it again
            request.end()
            _, again = self.until_told(name, name)
            self.assertIn("1 promise ends: 7", str(again))
            self.told.clear()

    def test_a_flow_is_told_by_whoever_closes_it(self):
        flow = Flow("order")
        flow.promise("order").then(f.inc)
        asks = Service(0, store=connect(self.address), functions=f.functions, on_end=self.told.append)
        works = Worker(connect(self.address), f.functions, 2, on_end=self.told.append)
        self.services += [asks, works]
        for k in range(5):
            self.assertEqual(asks.start(flow, k, name=f"r{k}")[1].result(20), k + 1)
        for history in self.until_told(*(f"r{k}" for k in range(5))):
            self.assertIn("1 inc ends: ", str(history))

    def test_one_of_two_who_close_it_tells(self):
        both = [DurableService(connect(self.address), 0, on_end=self.told.append) for _ in range(2)]
        self.services += both
        requests = [it.request("r") for it in both]
        for request in requests:
            request.end()
        self.until_told("r")

    def test_one_that_goes_on_is_not_told(self):
        service = DurableService(Memory(), 1, functions=f.functions, on_end=self.told.append)
        service.request("r").supply(f.inc, 1).result(20)
        service.shutdown()
        self.assertEqual(self.told, [])

    def test_spans_in_a_file(self):
        path = Path(self.folder.name, "spans.jsonl")
        store = connect(self.address)
        service = DurableService(store, 2, functions=f.functions, on_end=SpanFile(path, "shop"))
        self.services.append(service)
        began = store.open("order 17", "{}") and time.time_ns()
        store.drop("order 17")
        request = service.request("order 17")
        time.sleep(0.05)
        before = time.time_ns()
        request.supply(f.slow, 0.05).then(f.fails).exception(20)
        after = time.time_ns()
        request.end()
        service.shutdown()
        (line,) = path.read_text().splitlines()
        (scope,) = json.loads(line)["resourceSpans"][0]["scopeSpans"]
        whole, slow, fails = scope["spans"]
        self.assertEqual([it["name"] for it in scope["spans"]], ["order 17", "slow", "fails"])
        self.assertEqual([it["status"]["code"] for it in scope["spans"]], [2, 1, 2])
        self.assertEqual(fails["links"][0]["spanId"], slow["spanId"])
        times = [int(it[key]) for it in (whole, slow, fails) for key in ("startTimeUnixNano", "endTimeUnixNano")]
        clocks = 2 * 10**7  # (two clocks are read, one after another)
        self.assertTrue(began - clocks < times[0] < before - 4 * 10**7 + clocks, times)  # since it was opened
        self.assertTrue(before - clocks < times[2] < times[3] <= times[5] <= times[1] < after + clocks, times)
        self.assertGreater(times[3] - times[2], 4 * 10**7)

    def test_a_hook_that_raises_breaks_nothing(self):
        def hook(history):
            raise OSError("no exporter")

        with self.assertLogs("concurrent.futures", "WARNING") as logs:
            service = DurableService(Memory(), 1, functions=f.functions, on_end=hook)
            for name in "ab":
                request = service.request(name)
                self.assertEqual(request.supply(f.inc, 1).result(20), 2)
                request.end()
            service.shutdown()
        self.assertEqual(len(logs.records), 2)

    def test_one_that_is_dropped_before_it_is_told(self):
        gate, store = threading.Event(), Memory()

        def hook(history):
            gate.wait(20)
            self.told.append(history)

        service = DurableService(store, 1, functions=f.functions, on_end=hook)
        for name in "ab":
            request = service.request(name)
            request.promise().complete(1)
            request.end()
        store.drop("b")
        with self.assertLogs("concurrent.futures", "WARNING"):
            gate.set()
            service.shutdown()
        self.until_told("a")

    def test_shutdown_waits_for_the_hook(self):
        def hook(history):
            time.sleep(0.2)
            self.told.append(history)

        service = DurableService(connect(self.address), 0, on_end=hook)
        for name in "ab":
            service.request(name).end()
        service.shutdown()
        self.assertEqual([history.name for history in self.told], ["a", "b"])

    def test_a_host_of_tests_is_given_alone(self):
        with self.assertRaises(ValueError):
            DurableService(Memory(), 0, host=Host(), on_end=print)

    def test_a_worker_by_its_command(self):
        path = Path(self.folder.name, "spans.jsonl")
        process = self.worker(more=["--spans", str(path)])
        asks = DurableService(connect(self.address), 0, functions=f.functions, contexts=f.contexts)
        flow = Flow("flow")
        flow.promise().then(f.tenant)
        within("acme", asks.start, flow, 1, name="r")
        asks.shutdown()  # (so that it isn't the one who closes it)
        self.until(lambda: path.exists() and path.read_text().endswith("\n"))
        self.assertEqual(process.poll(), None)
        (scope,) = json.loads(path.read_text())["resourceSpans"][0]["scopeSpans"]
        self.assertEqual([it["name"] for it in scope["spans"]], ["r", "tenant"])
        self.assertIn("1 tenant ends: 'acme'", str(self.service().open("r").history()))


class Contexts(Case):
    def shared(self):
        """A service that runs no function, and a worker in which others than it do."""
        memory = Memory()
        for one, other in ((memory, memory), (connect(self.address), connect(self.address))):
            asks = DurableService(one, 0, functions=f.functions, contexts=f.contexts)
            self.services += [asks, Worker(other, f.functions, 1, contexts=f.contexts)]
            yield asks

    def test_functions_have_that_of_where_they_were_attached(self):
        for asks in self.shared():
            request = asks.request("r")
            promise = request.promise()
            stages = [within(name, promise.then, f.tenant) for name in ("acme", "umbrella")]
            stages += [
                within("supplier", request.supply, f.tenant),
                within("both", promise.handle, f.tenant),
                within("after", request.supply(f.fails).recover, f.tenant),
                request.supply(f.tenant),
            ]
            within("completer", promise.complete, 1)
            self.assertEqual([stage.result(20) for stage in stages], ["acme", "umbrella", "supplier", "both", "after", None])

    def test_functions_that_compose(self):
        for asks in self.shared():
            composed = within("outer", asks.request("r").supply(f.inc, 1).compose, f.asking_tenant)
            self.assertEqual(composed.result(20), "outer")

    def test_those_of_a_flow_have_that_of_where_it_was_begun(self):
        flow = Flow("flow")
        first = flow.promise().then(f.tenant)
        second = first.then(f.tenant)
        for asks in self.shared():
            request = within("starter", asks.start, flow, name="r")
            self.assertIn('"context":{"tenant":"starter"}', asks.store.find("r").plan)
            again = within("another", asks.start, flow, 1, name="r")  # (which is the same)
            self.assertEqual([again[step].result(20) for step in (first, second)], ["starter", "starter"])
            self.assertEqual(within("later", request[second].then, f.tenant).result(20), "later")

    def test_another_plan_is_another_one_in_each_context(self):
        flow, other = Flow("flow"), Flow("flow")
        flow.promise("a"), other.promise("b")
        for asks in self.shared():
            within("starter", asks.start, flow, name="r")
            with self.assertRaisesRegex(Broken, "another plan"):
                within("starter", asks.start, other, name="r")
            asks.store.open("odd", "[1")
            with self.assertRaisesRegex(Broken, "another plan"):
                asks.start(flow, name="odd")

    def test_further_tries(self):
        for asks in self.shared():
            promise = asks.request("r").promise()
            stage = within("first", promise.then, f.tenant)
            last = within("again", stage.again, 1)
            stage.fail(Abandoned("gone"))
            promise.complete(1)
            self.assertEqual(last.result(20), "again")

    def test_what_a_function_sets_is_its_own(self):
        service = DurableService(Memory(), 1, functions=f.functions, contexts=f.contexts)
        self.services.append(service)
        request = service.request("r")
        self.assertEqual(within("acme", request.supply, f.leaking).result(20), "acme")
        self.assertIsNone(request.supply(f.tenant).result(20))

    def test_in_a_transaction(self):
        service = self.service(contexts=f.contexts)
        service.store._db.execute("create table paid (account text)")
        stage = within("acme", service.request("r").supply, f.pay_tenant)
        self.assertEqual(stage.result(20), "acme")
        self.assertEqual(service.store._ask("select account from paid"), [("acme",)])

    def test_what_json_has_not(self):
        service = DurableService(Memory(), 0, functions=f.functions, contexts=f.contexts)
        self.services.append(service)
        request, flow = service.request("r"), Flow("flow")
        flow.supply(f.tenant)
        with self.assertRaises(TypeError):
            within(object(), request.supply, f.tenant)
        with self.assertRaises(TypeError):
            within(object(), service.start, flow, name="s")
        self.assertEqual((request.words_seen, service.store.find("s")), (0, None))

    def test_without_carriers_nothing_goes_along(self):
        service = DurableService(Memory(), 1, functions=f.functions)
        self.services.append(service)
        request = service.request("r")
        stage = within("acme", request.supply, f.tenant)
        self.assertIsNone(stage.result(20))
        self.assertNotIn(b"context", service.store.payloads("r", [1])[1])

    def test_what_stands_there_is_a_context(self):
        with self.assertRaises(ValueError):
            checked_definition({"name": "a", "context": 7}, 0)
        with self.assertRaises(Broken):
            SharedPlan('{"cf":3,"flow":"","stages":[],"context":7}', "r")
        store = Memory()
        service = DurableService(store, 1, functions=f.functions, contexts=f.contexts)
        self.services.append(service)
        store.open("r", '{"cf":3,"flow":"","stages":[{"form":"supply","of":[],"name":"t","fn":"tenant","version":1}],' '"context":{"strange":[1]}}')
        self.assertIsNone(service.open("r")[0].result(20) if service.resume() else "")

    def test_the_hook_has_that_of_where_the_request_was_opened(self):
        seen = []
        service = DurableService(Memory(), 0, contexts=f.contexts, on_end=lambda _: seen.append(f.TENANT.get(None)))
        within("opener", service.request, "r")
        service.open("r").end()
        service.shutdown()
        self.assertEqual(seen, ["opener"])

    def test_several_carriers(self):
        carriers = [Variables(tenant=f.TENANT), Variables(other=OTHER)]
        functions = Functions()
        both = functions.function("both")(lambda: [f.TENANT.get("-"), OTHER.get("-")])
        service = DurableService(Memory(), 1, functions=functions, contexts=carriers)
        self.services.append(service)
        request, context = service.request("r"), contextvars.copy_context()
        context.run(OTHER.set, [1, "x"])
        stages = [request.supply(both), context.run(request.supply, both), within("acme", request.supply, both)]
        self.assertEqual([it.result(20) for it in stages], [["-", "-"], ["-", [1, "x"]], ["acme", "-"]])


class AtOpenTelemetry(Case):
    """`Trace` takes the span that is current along, as text."""

    def setUp(self):
        super().setUp()
        span = self.span = contextvars.ContextVar("span", default=None)
        propagate, context = types.ModuleType("opentelemetry.propagate"), types.ModuleType("opentelemetry.context")

        def inject(carrier):
            if span.get() is not None:
                carrier["traceparent"] = span.get()

        def attach(given):
            return span.set(given)

        propagate.inject, propagate.extract = inject, lambda carrier: carrier.get("traceparent")
        context.attach = attach
        named = {"opentelemetry": types.ModuleType("opentelemetry"), "opentelemetry.propagate": propagate, "opentelemetry.context": context}
        with unittest.mock.patch.dict(sys.modules, named):
            self.carrier = Trace()

    def test_the_span_that_is_current(self):
        functions, seen = Functions(), []
        current = functions.function("current")(lambda *_: self.span.get())
        service = DurableService(Memory(), 1, functions=functions, contexts=[self.carrier], on_end=lambda _: seen.append(self.span.get()))
        context, flow = contextvars.copy_context(), Flow("flow")
        context.run(self.span.set, "00-7-1-01")
        step = flow.supply(current)
        request = context.run(service.start, flow)
        self.assertEqual(request[step].result(20), "00-7-1-01")
        self.assertIsNone(request[step].then(current).result(20))
        service.shutdown()
        self.assertEqual(seen[:1], ["00-7-1-01"])

    def test_without_the_package(self):
        with unittest.mock.patch.dict(sys.modules, {"opentelemetry": None, "opentelemetry.propagate": None}):
            with self.assertRaises(ImportError):
                Trace()


if __name__ == "__main__":
    unittest.main()
