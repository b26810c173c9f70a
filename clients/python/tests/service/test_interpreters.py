#!/usr/bin/env python3
"""Interpreters within one process: others import the package, use it and end; this one's goes on as it was.

    CF_LIBRARY=/path/to/libcf.so python3 clients/python/tests/service/test_interpreters.py [-v] [TEST ..]
"""
import sys
import textwrap
import unittest

from case import program


def interpreters():
    for name in ("_interpreters", "_xxsubinterpreters"):
        try:
            return __import__(name)
        except ImportError:
            pass
    return None


@unittest.skipUnless(interpreters(), "no interpreters within a process")
class Interpreters(unittest.TestCase):
    """Others import the package, use it and end; this one's goes on as it was."""

    IN_OTHERS = """
        try:
            import _interpreters as interpreters
        except ImportError:
            import _xxsubinterpreters as interpreters

        def other(text):
            if sys.version_info >= (3, 13):
                made = interpreters.create("legacy")
            else:
                made = interpreters.create(**({"isolated": False} if sys.version_info >= (3, 9) else {}))
            told = interpreters.run_string(made, f"import sys; sys.path[:0] = {sys.path!r}" + chr(10) + text)
            if told is not None:
                raise RuntimeError(told)
            return made

        def is_right():
            request = service.request("here")
            stage = request.supply(abs, -1).then(abs)
            failed = request.promise()
            failed.cancel()
            try:
                request.promise().result(0)
            except concurrent.futures.TimeoutError:
                pass
            is_kept = type(stage) is Stage and isinstance(stage, kept)
            return stage.result(60) == 1 and is_kept and failed.cancelled() and "abs" in str(request.history())

        service, kept = Service(2), Stage
        assert is_right()
    """

    def told(self, text):
        out, err, status = program(textwrap.dedent(self.IN_OTHERS) + textwrap.dedent(text))
        self.assertEqual(status, 0, out + err)
        return out

    def test_one_that_imports(self):
        self.assertEqual(
            self.told(
                """
            made = other("import cf.service")
            print(is_right())
            interpreters.destroy(made)
            print(is_right())
        """
            ),
            "True\nTrue\n",
        )

    def test_several_in_turn_and_at_once(self):
        text = """
from cf.service import Flow, RequestFull, Service
flow = Flow()
end = flow.promise().then(lambda x: x + 1).handle(lambda value, error: (value, type(error).__name__))
for k in range(50):
    assert flow.run(k)[end].result(0) == (k + 1, "NoneType")
with Service(2) as service:
    request = service.request()
    assert request.gather(*[request.supply(abs, -k) for k in range(5)]).result(60) == [0, 1, 2, 3, 4]
full = flow.run(1)
try:
    for k in range(5000):
        full.promise()
except RequestFull:
    print("full", flush=True)
"""
        self.assertEqual(
            self.told(
                f"""
            text = {text!r}
            made = [other(text) for _ in range(3)]
            right = [is_right()]
            for each in made:
                interpreters.destroy(each)
                right.append(is_right())
            for _ in range(3):
                interpreters.destroy(other(text))
                right.append(is_right())
            print(set(right))
        """
            ),
            "full\n" * 6 + "{True}\n",
        )

    def test_one_that_ends_with_requests_open(self):
        text = """
from cf.service import Flow, Service
service = Service(2)
request = service.request()
promise = request.promise()
behind = promise.then(lambda x: (promise, x))
behind.add_done_callback(lambda _: request)
flow = Flow()
run = flow.run()
"""
        self.assertEqual(
            self.told(
                f"""
            interpreters.destroy(other({text!r}))
            print(is_right())
        """
            ),
            "True\n",
        )

    @unittest.skipUnless(sys.version_info >= (3, 12), "before, one whose threads are alive isn't ended")
    def test_one_that_ends_with_timers(self):
        text = """
from cf.service import Service
service = Service(2)
service.submit(abs, 1).result(60)
service.request().promise().or_timeout(1000)
"""
        self.assertEqual(
            self.told(
                f"""
            interpreters.destroy(other({text!r}))
            print(is_right())
        """
            ),
            "True\n",
        )

    def test_nothing_is_left_of_one_that_ended(self):
        """The types and what they hold go with the interpreter, as the module does with its last object."""
        out, err, status = program(
            """
            import importlib.util
            plan = _core.PlanCore([])
            spec = importlib.util.find_spec("cf._cf")
            def made():
                module = importlib.util.module_from_spec(spec)
                spec.loader.exec_module(module)
                class Own(module.StageCore):
                    pass
                pool = module.pool(plan, plan.at, plan.most, b"")
                request = module.RequestCore(None, Own, 1, pool, (), [])
                stage = request._attach(0, None, None, None, None, None, "x")
                assert type(stage) is Own
                return weakref.ref(Own), weakref.ref(module.RequestCore), request
            own, core, request = made()
            gc.collect()
            print(own() is not None, core() is not None)
            request._change(1, -1, 0, 5)
            del request
            gc.collect()
            print(own(), core(), Service(1).submit(abs, -1).result(60))
        """
        )
        self.assertEqual((out, status), ("True True\nNone None 1\n", 0), err)


if __name__ == "__main__":
    unittest.main()
