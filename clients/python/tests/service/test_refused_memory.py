#!/usr/bin/env python3
"""Memory that is refused to the C module's calls, each allocation in turn.

    CF_LIBRARY=/path/to/libcf.so python3 clients/python/tests/service/test_refused_memory.py [-v] [TEST ..]
"""
import unittest

from case import program


class RefusedMemory(unittest.TestCase):
    def test_refused_memory(self):
        """Each allocation of the module's calls in turn is refused: what raises changed nothing or all, and the
        request goes on. No code in Python runs meanwhile, which may itself end Python then."""
        try:
            import _testcapi  # noqa: F401
        except ImportError:
            self.skipTest("no _testcapi")
        out, err, status = program(
            """
            import _testcapi, functools, operator, types
            flow = Flow()
            flow.promise().then(abs)
            flow.run()
            works = types.SimpleNamespace(closed=False, put=functools.partial(operator.is_not, None),
                                          refusal=functools.partial(RuntimeError, "nobody"))

            def trial(n):
                r, planned = Request(works, "r", 1), Request(works, "p", 0, None, flow._plan)
                first = r._attach(0, None, None, None, None, None, "first")
                seen = r._attach(3, first, None, abs, None, None, "abs")
                error, row, rows = OSError(), (0, (), None, "x"), [(0, (), None, "x"), (3, (0,), abs, "y")]
                calls = [lambda: r._attach(0, None, None, None, None, None, "x"),
                         lambda: r._attach(3, first, None, abs, None, None, "abs"),
                         lambda: r._attach(12, first, None, abs, None, None, "abs"),
                         lambda: r._attach(16, first, first, None, None, None, "x"),
                         lambda: planned._change(1, -1, 0, -5), lambda: planned._stage(1), lambda: planned._work(3),
                         lambda: planned._stage(1).result(0), lambda: first.add_done_callback(id),
                         lambda: first._waiters, r._open_stages, lambda: r._join_within(2, 1, bytes(2)),
                         lambda: r._change(1, -1, first, -5),
                         lambda: r._change(2, -1, 2, error), lambda: first.exception(0),
                         lambda: first.add_done_callback(id), lambda: r._times, lambda: r._run(3),
                         lambda: seen.result(0), lambda: _core.PlanCore(rows), lambda: _core.RequestCore(works, "s", 3),
                         lambda: _core.RequestCore(works, "s", 3, None, flow._plan)]
                refused = 0
                for call in calls:
                    _testcapi.set_nomemory(n, n + 1)
                    try:
                        call()
                    except MemoryError:
                        refused += 1
                    except Exception:
                        pass
                    finally:
                        _testcapi.remove_mem_hooks()
                first.complete(-6)
                assert first.result(0) in (-5, -6), first.result(0)
                words, times, names, values, errors = r._facts()
                ledger = cf.Ledger.from_words(cf.Plan(), list(words), len(names))
                assert (ledger.stages(), len(words)) == (len(names), len(times))
                r._run(3)
                assert seen.result(0) in (5, 6)
                return refused
            print(sum(trial(n) for n in range(12)) > 20)
        """
        )
        self.assertEqual((out, status), ("True\n", 0), err)


class RoomOfMemory(unittest.TestCase):
    def test_there_is_room_for_all_that_a_call_tells(self):
        """Python looks behind each piece of memory when that is freed, as at the end."""
        out, err, status = program(
            """
            with Service(1) as service:
                request = service.request()
                promise = request.promise()
                every = [request.all_of(promise) for _ in range(300)]
                promise.complete(1)
                print(all(it.done() for it in every))
            del request, promise, every, service
        """,
            PYTHONMALLOC="debug",
        )
        self.assertEqual((out, status), ("True\n", 0), err)


if __name__ == "__main__":
    unittest.main()
