#!/usr/bin/env python3
"""Which spans has a request, in a file and at OpenTelemetry? In the place of its package stands `Tracing`, which has the
few of its calls that are used; where its SDK is installed, that is asked, too.

    CF_LIBRARY=/path/to/libcf.so python3 clients/python/tests/service/test_spans.py [-v] [TEST ..]
"""
import contextvars
import importlib.util
import json
import sys
import tempfile
import threading
import time
import types
import unittest
import unittest.mock
from pathlib import Path

from case import fails, inc, Oops, until
from cf.service import describe_types, Flow, Service, SpanFile, Spans, spans_to
from cf.service.spans import spans_of

HAS_SDK = importlib.util.find_spec("opentelemetry") and importlib.util.find_spec("opentelemetry.sdk")
current = contextvars.ContextVar("current", default=None)


class Told:
    """A span as OpenTelemetry has it, whose parent is the span of a context."""

    def __init__(self, name, parent, start, attributes, links):
        self.name, self.parent, self.start, self.attributes, self.links = name, parent, start, attributes, links
        self.events, self.status, self.ended = [], (0, None), None

    def get_span_context(self):
        return self

    def add_event(self, name, attributes, timestamp):
        self.events.append((name, attributes, timestamp))

    def set_status(self, status):
        self.status = status

    def end(self, at):
        self.ended = at


class Tracing(types.ModuleType):
    """What `opentelemetry.trace` is, and its tracer, which keeps all spans."""

    def __init__(self):
        super().__init__("opentelemetry.trace")
        self.spans, self.Link, self.StatusCode, self.Status = [], lambda span: span, int, lambda *status: status

    def get_tracer(self, _):
        return self

    def set_span_in_context(self, span):
        context = contextvars.copy_context()
        context.run(current.set, span)
        return context

    def start_span(self, name, context=None, attributes=None, links=(), start_time=None):
        parent = current.get() if context is None else context[current]
        self.spans.append(Told(name, parent, start_time, attributes, links))
        return self.spans[-1]


class InFiles(unittest.TestCase):
    def setUp(self):
        self.folder = tempfile.TemporaryDirectory()
        self.path = Path(self.folder.name, "spans.jsonl")

    def tearDown(self):
        self.folder.cleanup()

    def spans(self):
        """Of each line the service and its spans."""
        for line in self.path.read_text().splitlines():
            (resource,) = json.loads(line)["resourceSpans"]
            (attribute,), (scope,) = resource["resource"]["attributes"], resource["scopeSpans"]
            self.assertEqual((attribute["key"], scope["scope"]), ("service.name", {"name": "cf.service"}))
            yield attribute["value"]["stringValue"], scope["spans"]

    def test_a_line_for_each_request(self):
        second = 10**9  # (two clocks are read, one after another)
        before = time.time_ns() - second
        with Service(2, on_end=SpanFile(self.path, "shop")) as service:
            for _ in range(2):
                with service.request("order 17") as request:
                    load = request.supply(inc, 1)
                    self.assertEqual(load.then(fails).recover(lambda _: 3).result(20), 3)
        (name, spans), (_, others) = self.spans()
        self.assertEqual((name, [span["name"] for span in spans]), ("shop", ["order 17", "inc", "fails", spans[3]["name"]]))
        self.assertNotEqual(spans[0]["traceId"], others[0]["traceId"])
        self.assertEqual({(len(span["traceId"]), span["traceId"]) for span in spans}, {(32, spans[0]["traceId"])})
        self.assertEqual([span["spanId"] for span in spans], ["f" * 16, *(f"{k:016x}" for k in (1, 2, 3))])
        self.assertEqual([span.get("parentSpanId") for span in spans], [None] + ["f" * 16] * 3)
        self.assertEqual([[link["spanId"] for link in span["links"]] for span in spans], [[], [], [f"{1:016x}"], [f"{2:016x}"]])
        self.assertEqual([span["status"] for span in spans], [{"code": 1}, {"code": 1}, {"code": 2, "message": "Oops('x')"}, {"code": 1}])
        stage, caller, form = spans[2]["attributes"]
        self.assertEqual((stage, form), ({"key": "cf.stage", "value": {"intValue": "1"}}, {"key": "cf.form", "value": {"stringValue": "apply"}}))
        self.assertRegex(caller["value"]["stringValue"], "^worker [01]$")
        self.assertEqual([[event["name"] for event in span["events"]] for span in spans], [[], [], ["exception"], []])
        self.assertEqual(
            spans[2]["events"][0]["attributes"],
            [{"key": "exception.type", "value": {"stringValue": "case.Oops"}}, {"key": "exception.message", "value": {"stringValue": "Oops('x')"}}],
        )
        times = [(int(span["startTimeUnixNano"]), int(span["endTimeUnixNano"])) for span in spans]
        self.assertEqual(sorted(times[1:]), times[1:])
        self.assertTrue(before <= times[0][0] <= times[1][0] <= times[1][1] <= times[3][1] <= times[0][1])
        self.assertLessEqual(times[0][1], time.time_ns() + second)

    def test_what_is_told_is_described(self):
        with Service(1, on_end=SpanFile(self.path), describe=describe_types) as service:
            request = service.request("r")
            request.supply(fails)
        ((_, (_, span)),) = self.spans()
        self.assertEqual(
            (span["status"], span["events"][0]["attributes"]),
            ({"code": 2, "message": "Oops"}, [{"key": "exception.message", "value": {"stringValue": "Oops"}}]),
        )

    def test_odd_names_and_requests_without_events(self):
        with Service(1, on_end=SpanFile(self.path, "\ud800")) as service:
            service.request("nothing")
            with service.request("line\nbreak \ud800") as request:
                request.supply(inc, 1).named("\u202e\ud800").result(20)
        ((name, (whole, span)),) = self.spans()
        self.assertEqual((name, whole["name"], span["name"]), ("?", "line\nbreak ?", "\u202e?"))

    def test_a_path_that_cannot_be_written_breaks_nothing(self):
        with self.assertLogs("concurrent.futures"), Service(1, on_end=SpanFile(self.folder.name)) as service:
            self.assertEqual(service.submit(inc, 1).result(20), 2)

    def test_without_the_package_there_is_the_file(self):
        with unittest.mock.patch.dict(sys.modules, {"opentelemetry": None, "opentelemetry.trace": None}):
            self.assertIsInstance(spans_to(self.path), SpanFile)
            with self.assertRaises(ImportError):
                Spans()


class Statuses(unittest.TestCase):
    """Of the request, and of functions that come late or never end."""

    def setUp(self):
        self.service = Service(3)
        self.request = self.service.request("r")

    def tearDown(self):
        self.service.shutdown()

    def spans(self):
        return spans_of(self.request.history())

    def test_no_events(self):
        self.assertEqual(self.spans(), [])

    def test_open(self):
        self.request.promise()
        self.request.supply(inc, 1).result(20)
        self.assertEqual([(span.name, span.status) for span in self.spans()], [("r", 0), ("inc", 1)])

    def test_failed(self):
        self.request.promise().complete(1)
        self.request.supply(fails).then(inc).exception(20)
        self.request.promise().cancel()
        self.assertEqual([(span.name, span.status, span.message) for span in self.spans()], [("r", 2, "Oops('x')"), ("fails", 2, "Oops('x')")])

    def test_cancelled(self):
        self.request.promise().cancel()
        self.assertEqual([(span.status, span.message) for span in self.spans()], [(2, "cancelled")])

    def test_late(self):
        def late():
            begun.set()
            gate.wait(20)

        gate, begun = threading.Event(), threading.Event()
        stage = self.request.supply(late).named("late")
        self.assertTrue(begun.wait(20))
        self.assertIsInstance(stage.or_timeout(0.001).exception(20), TimeoutError)
        whole, running = self.spans()
        self.assertEqual((whole.end, running.status, running.message), (running.end, 2, whole.message))
        self.assertRegex(running.message, r"^timed out, TimeoutError\('late took longer than 0.001 s'\)$")
        gate.set()
        self.assertTrue(until(lambda: "finishes" in str(self.request.history())))
        self.assertGreater(self.spans()[1].end, running.end)

    def test_what_a_function_attached_and_was_recovered(self):
        composed = self.request.supply(inc, 1).compose(lambda _: self.request.supply(fails))
        self.assertEqual(composed.recover(lambda _: 7).result(20), 7)
        below = self.request.supply(fails)
        self.assertIsInstance(self.request.supply(inc, 1).compose(lambda _: below).exception(20), Oops)
        self.assertEqual(self.spans()[0].status, 2)
        self.request = self.service.request("r")
        below = self.request.supply(fails)
        composed = self.request.supply(inc, 1).compose(lambda _: below)
        self.assertEqual(composed.recover(lambda _: 7).result(20), 7)
        self.assertEqual(self.spans()[0].status, 1)

    def test_flows(self):
        flow = Flow("f")
        first, second = flow.supply(inc, 1), flow.promise().then(inc)
        both = first.combine(second, lambda a, b: a + b).named("both")
        self.request = self.service.start(flow, 4)
        self.assertEqual(self.request[both].result(20), 7)
        self.assertEqual(
            [(span.name, span.attributes.get("cf.form"), list(span.sources)) for span in self.spans()],
            [(self.request.name, None, []), ("inc", "supply", []), ("inc", "apply", []), ("both", "combine", [0, 2])],
        )


class AtOpenTelemetry(unittest.TestCase):
    def test_spans_and_their_parents(self):
        tracing = Tracing()
        named = {"opentelemetry": types.ModuleType("opentelemetry"), "opentelemetry.trace": tracing}
        with unittest.mock.patch.dict(sys.modules, named):
            hook = spans_to("nowhere")
        self.assertIsInstance(hook, Spans)
        outer = Told("http", None, 0, {}, ())
        with Service(2, on_end=hook) as service:
            with tracing.set_span_in_context(outer).run(service.request, "order 17") as request:
                load = request.supply(inc, 1).named("load")
                self.assertIsInstance(load.then(fails).exception(20), Oops)
        whole, load, failed = tracing.spans
        expected = spans_of(request.history())
        for told, span in zip(tracing.spans, expected):
            self.assertEqual((told.name, told.attributes, told.status), (span.name, span.attributes, (span.status, span.message or None)))
            self.assertTrue(abs(told.start - span.start) < 10**10 and told.ended - told.start == span.end - span.start)
        self.assertEqual((whole.parent, load.parent, failed.parent), (outer, whole, whole))
        self.assertEqual((whole.links, load.links, failed.links), ([], [], [load]))
        ((name, attributes, at),) = failed.events
        self.assertEqual((name, attributes, at), ("exception", {"exception.type": "case.Oops", "exception.message": "Oops('x')"}, failed.ended))

    def test_a_tracer_of_the_users(self):
        tracing = Tracing()
        with unittest.mock.patch.dict(sys.modules, {"opentelemetry": types.ModuleType("opentelemetry"), "opentelemetry.trace": Tracing()}):
            hook = Spans(tracing)
            with Service(1, on_end=hook) as service:
                service.submit(inc, 1).result(20)
        self.assertEqual([span.name for span in tracing.spans], ["inc", "inc"])

    @unittest.skipUnless(HAS_SDK, "OpenTelemetry's SDK isn't installed")
    def test_the_sdk(self):
        from opentelemetry import trace
        from opentelemetry.sdk.trace import TracerProvider
        from opentelemetry.sdk.trace.export import SimpleSpanProcessor
        from opentelemetry.sdk.trace.export.in_memory_span_exporter import InMemorySpanExporter

        provider, exporter = TracerProvider(), InMemorySpanExporter()
        provider.add_span_processor(SimpleSpanProcessor(exporter))
        tracer = provider.get_tracer("test")
        with tracer.start_as_current_span("http") as outer, Service(2, on_end=Spans(tracer)) as service:
            with service.request("order 17") as request:
                inside = request.supply(trace.get_current_span)
                self.assertIs(inside.result(20), outer)
                self.assertIsInstance(inside.then(fails).exception(20), Oops)
        told = {span.name: span for span in exporter.get_finished_spans()}
        whole, failed = told["order 17"], told["fails"]
        self.assertEqual((whole.parent.span_id, failed.parent.span_id), (outer.get_span_context().span_id, whole.context.span_id))
        self.assertEqual([link.context.span_id for link in failed.links], [told["get_current_span"].context.span_id])
        self.assertEqual(
            (failed.status.status_code, failed.status.description, failed.events[0].name, whole.status.status_code),
            (trace.StatusCode.ERROR, "Oops('x')", "exception", trace.StatusCode.ERROR),
        )
        self.assertTrue(whole.start_time <= failed.start_time <= failed.end_time <= whole.end_time)
        self.assertEqual(dict(failed.attributes)["cf.stage"], 1)


if __name__ == "__main__":
    unittest.main()
