#!/usr/bin/env python3
"""Which context variables do functions have? (Those of a `LoopService` are in test_loops.py.)

    CF_LIBRARY=/path/to/libcf.so python3 clients/python/tests/service/test_contexts.py [-v] [TEST ..]
"""
import contextvars
import gc
import threading
import unittest
import unittest.mock
import weakref

from case import fails, inc, Thing
from cf.service import Flow, LoopService, Service

tenant = contextvars.ContextVar("tenant", default="-")


def within(name, call, *args):
    """Calls this in a context of its own, in which the tenant has a name."""
    context = contextvars.copy_context()
    context.run(tenant.set, name)
    return context.run(call, *args)


def leaks(_=None):
    seen = tenant.get()
    tenant.set("leaked")
    return seen


class Contexts(unittest.TestCase):
    def test_functions_have_the_context_of_where_they_were_attached(self):
        with Service(1, initializer=lambda: tenant.set("thread"), contexts=True) as service:
            request = service.request("r")
            promise = request.promise()
            names = [within(name, promise.then, leaks) for name in ("acme", "umbrella")]
            names += [
                within("submitter", service.submit, leaks),
                within("supplier", request.supply, leaks),
                within("second", names[0].combine, names[1], lambda *_: leaks()),
                within("third", names[0].then(fails).recover, leaks),
            ]
            within("loader", promise.complete, 1)
            self.assertEqual([stage.result(20) for stage in names], ["acme", "umbrella", "submitter", "supplier", "second", "third"])
            self.assertEqual(request.supply(leaks).result(20), "-")
            self.assertEqual(tenant.get(), "-")

    def test_functions_that_compose(self):
        with Service(2, contexts=True) as service:
            request = service.request("r")
            inner = within("outer", request.supply(inc, 1).compose, lambda _: request.supply(leaks))
            self.assertEqual(inner.result(20), "outer")

    def test_functions_of_a_flow_have_the_context_of_where_the_request_was_opened(self):
        flow = Flow()
        promise = flow.promise()
        first = promise.then(leaks)
        second, third = first.then(leaks), first.then(fails).recover(leaks)
        composed = first.compose(lambda _: done)
        alone = flow.supply(leaks)
        with Service(2, initializer=lambda: tenant.set("thread"), contexts=True) as service:
            done = service.submit(inc, 1)
            request = within("starter", service.start, flow)
            within("completer", request[promise].complete, 1)
            self.assertEqual(
                [request[step].result(20) for step in (first, second, third, composed, alone)], ["starter", "starter", "starter", 2, "starter"]
            )
            further = within("later", request[second].then, leaks)
            self.assertEqual(further.result(20), "later")
            self.assertEqual(str(request.history()).count("claims"), 7)

    def test_names_are_the_functions(self):
        with Service(1, contexts=True) as service:
            request = service.request("r")
            self.assertEqual(
                [request.supply(inc, 1).name, request.supply(Thing()).name, request.gather(request.promise()).name], ["inc", "Thing", "gather"]
            )

    def test_tracebacks_begin_with_the_function(self):
        flow = Flow()
        step = flow.supply(fails)
        with Service(1, contexts=True) as service:
            for stage in (service.start(flow)[step], service.submit(fails)):
                self.assertEqual(stage.exception(20).__traceback__.tb_frame.f_code.co_name, "fails")

    def test_what_is_over_is_let_go_of(self):
        flow, thing = Flow(), Thing()
        step = flow.promise().then(lambda it: it)
        with Service(1, contexts=True) as service:
            request = within(thing, service.start, flow, 1)
            stage = within(thing, request[step].then, inc)
            self.assertEqual(stage.result(20), 2)
            seen = weakref.ref(thing)
            del thing, request, stage
            service.submit(threading.get_ident).result(20)
            gc.collect()
            self.assertIsNone(seen())

    def test_a_watch_is_given_alone(self):
        watch, loop = unittest.mock.Mock(), unittest.mock.Mock()
        for more in {"contexts": True}, {"on_end": print}:
            with self.subTest(more), self.assertRaises(ValueError):
                Service(watch=watch, **more)
        with self.assertRaises(ValueError):
            LoopService(loop, watch=watch, on_end=print)


if __name__ == "__main__":
    unittest.main()
