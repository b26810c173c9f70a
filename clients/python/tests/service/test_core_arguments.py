#!/usr/bin/env python3
"""Calls of RequestCore and PlanCore with wrong arguments, which any Python may make: each raises, and what is there
stays right.

    CF_LIBRARY=/path/to/libcf.so python3 clients/python/tests/service/test_core_arguments.py [-v] [TEST ..]
"""
import concurrent.futures
import copy
import functools
import pickle
import types
import unittest
from array import array

from case import Case, CoreCase, program
from cf.service import _core, Flow, Request, RequestFull, Stage
from cf.service.words import COMPLETE


class CoreArguments(CoreCase):
    ODD = (TypeError, ValueError, IndexError, RuntimeError, OverflowError, AttributeError)

    def refused(self, *calls, kinds=(TypeError, ValueError, IndexError, RuntimeError, OverflowError)):
        for number, call in enumerate(calls):
            with self.assertRaises(kinds, msg=f"call {number}"):
                call()

    def test_a_request_that_isnt_opened(self):
        for made in (
            _core.RequestCore.__new__(_core.RequestCore),
            Request.__new__(Request),
            type("Own", (Request,), {"__init__": lambda self: None})(),
        ):
            core_stage = self.request.promise()
            self.refused(
                lambda: made._attach(0, None, None, None, None, None, "x"),
                lambda: made._change(COMPLETE, 0, 0, 1),
                lambda: made._run(3),
                lambda: made._work(3),
                lambda: made._begin(3, core_stage),
                lambda: made._end(core_stage, 3, 1, 1),
                lambda: made._stage(0),
                lambda: made._gather(16, [], "x"),
                lambda: made._gather(16, [core_stage], "x"),
                lambda: made._name_of(0),
                lambda: made._rename(0, "x"),
                lambda: made._add_error(OSError()),
                lambda: made._add_value(1),
                lambda: made._attach(3, core_stage, None, str, None, None, "x"),
            )
            self.assertIsNone(made._open())
            self.assertEqual(made._times, b"")
            self.refused(made._facts, made._open_stages, made._ready_stages, lambda: made._pass(1), lambda: made._deadline(0, 1, True, -1))

    def test_an_opening_that_fails(self):
        opened = Request.__new__(Request)
        plan = _core.PlanCore.__new__(_core.PlanCore)
        self.refused(
            lambda: opened.__init__(None, "", 1, None, plan),
            lambda: opened.__init__(None, "", 1, None, 7),
            lambda: opened.__init__(None, "", None),
            lambda: opened.__init__(),
            lambda: opened._attach(0, None, None, None, None, None, "x"),
            lambda: opened._work(3),
            lambda: opened._open() or opened._stage(0),
            kinds=self.ODD,
        )
        opened.__init__(None, "", 1)
        self.assertTrue(opened.promise().complete(1))

    def test_opened_and_planned_once(self):
        flow = Flow()
        end = flow.promise().then(str)
        opened = flow.run(1)
        facts = opened._facts()[:2]
        self.refused(lambda: opened.__init__(None, "", 1))
        self.assertEqual((opened._facts()[:2], opened[end].result(0), flow.run(2)[end].result(0)), (facts, "1", "2"))
        self.assertEqual(flow.run()._stage(1).name, "str")

    def test_plans_that_are_none(self):
        plan = _core.PlanCore([(0, (), None, "x"), (3, (0,), str, "y")])

        def pool(forms, most=plan.most):
            return _cf.pool(plan, plan.at, most, bytes(forms))

        def core(*kept):
            return Request(None, "", 1, None, types.SimpleNamespace(kept=kept))

        from cf import _cf

        right = pool([0, 3])
        self.assertEqual(core(right, (None, str), ["x", "y"])._stage(1).name, "y")
        self.refused(
            lambda: pool([0, 19]),
            lambda: pool([0, 3], 4097),
            lambda: pool([0, 3], 1),
            lambda: pool([], -1),
            lambda: _cf.pool(plan, 0, 9, b""),
            lambda: _cf.pool(plan, "x", 9, b""),
            lambda: _cf.pool(plan, plan.at, 9, 7),
            lambda: _cf.pool(),
            lambda: core(),
            lambda: core(right, (), ["x", "y"]),
            lambda: core(7, (None, str), ["x", "y"]),
            lambda: core(right, [None, str], ["x", "y"]),
            lambda: core(right, (None, str), ["x"]),
            lambda: core(right, (None, str), 7),
            lambda: core(right, (None, str), ["x", "y"], 1),
            kinds=self.ODD,
        )
        self.refused(
            lambda: _core.PlanCore([7]), lambda: _core.PlanCore([()]), lambda: _core.PlanCore(7), lambda: _core.PlanCore([(99, (), None, "x")])
        )
        for rows in ([(0, (), None, "x")] * 4097, [(16, (0,) * 16385, None, "x")]):
            with self.assertRaises(RequestFull):
                _core.PlanCore(rows)

    def test_numbers_out_of_their_range_reach_no_word(self):
        """An event of another kind, caller or form than is meant would let the ledger and what stands beside it
        part."""
        core = self.request
        core_stage = core.promise()
        for bad in (-2, -1, 7, 64, 255, 256, 1 << 16, 1 << 32, 7 << 8, -(1 << 40), 1 << 70):
            self.refused(
                lambda: core._change(bad, 0, core_stage, None) if bad != 7 else core._change(7, 0, 0, None),
                lambda: core._run(bad) if bad != 7 else 1 / 0,
                lambda: core._end(core_stage, bad, 1, None) if bad != 7 else 1 / 0,
                lambda: core._end(core_stage, 3, bad, None),
                lambda: core._stage(bad),
                lambda: _core.set_caller(bad) if bad != 7 else 1 / 0,
                lambda: core._change(COMPLETE, bad if bad not in (-1, 7) else 99, core_stage, 1),
                lambda: core._attach(bad if bad != 7 else 19, core_stage, None, str, None, None, "x"),
                lambda: core._begin(bad) if bad != 7 else 1 / 0,
                kinds=(TypeError, ValueError, IndexError, RuntimeError, OverflowError, ZeroDivisionError),
            )
        for kind in (4, 5, 6, 10):
            self.refused(lambda: core._change(kind, 0, core_stage, None))
        self.fits(core)
        self.assertEqual((len(core._facts()[2]), core_stage.complete(1), core_stage.then(str).result(60)), (1, True, "1"))

    def test_arguments_of_other_types(self):
        core, other = self.request, self.service.request().promise()
        core_stage = core.promise()
        self.refused(
            lambda: core._attach(1, None, None, str, 5, None, "x"),
            lambda: core._attach(1, None, None, str, None, 5, "x"),
            lambda: core._attach(1, None, None, str, [], {}, "x"),
            lambda: core._attach(1, None, None, str, None, None, None),
            lambda: core._attach_all(16, b"", None),
            lambda: core._attach("3", core_stage, None, str, None, None, "x"),
            lambda: core._attach(),
            lambda: core._attach(3, other, None, str, None, None, "x"),
            lambda: core._attach(3, 7, None, str, None, None, "x"),
            lambda: core._begin(3, other),
            lambda: core._attach(12, None, None, str, None, None, "x"),
            lambda: core._attach(12, core_stage, core_stage, str, None, None, "x"),
            lambda: core._begin(None),
            lambda: core._end(core_stage, 3, 3, other),
            lambda: core._change(COMPLETE, 0, "x", 1),
            lambda: core._gather(16, [other], "x"),
            lambda: core._attach_all(16, [0], "x"),
            lambda: core._attach_all(16, b"\1\0", "x"),
            lambda: core._attach_all(16, bytes(2 * 4097), "x"),
            lambda: core._attach_all(3, bytes(4), "x"),
            lambda: core._work(None),
            lambda: Request(),
            lambda: Request(1, 2, 3, 4, 5, 6),
            kinds=self.ODD,
        )
        self.fits(core)

    def test_what_is_refused_leaves_no_name(self):
        self.refused(lambda: self.request._attach_all(16, array("H", [5, 6, 7]).tobytes(), "refused"), kinds=self.ODD)
        self.request.promise()
        self.assertEqual(self.request.history().names, ["promise"])

    def test_classes_of_stages(self):
        for odd in (int, 7, concurrent.futures.Future, None):
            self.refused(lambda: type("Own", (Request,), {"_stage_class": odd})(None, "", 1))
        self.refused(lambda: _core.RequestCore(None, "", 1), kinds=AttributeError)
        own = type("Own", (Stage,), {})
        self.assertIs(type(type("Own", (Request,), {"_stage_class": own})(None, "", 1).promise()), own)
        self.assertIs(type(self.request.promise()), Stage)
        full = Flow().run()
        with self.assertRaises(RequestFull):
            for _ in range(4097):
                full.promise()

    def test_the_module_alone(self):
        out, err, status = program(
            """
            import importlib.util
            spec = importlib.util.find_spec("cf._cf")
            module = importlib.util.module_from_spec(spec)
            spec.loader.exec_module(module)
            for call in (lambda: module.StageCore(), lambda: object.__new__(module.StageCore),
                         lambda: type("X", (module.StageCore,), {})(),
                         lambda: module.RequestCore(None, "", 1),
                         lambda: module.RequestCore.__new__(module.RequestCore)._attach_all(16, b"", "x")):
                try:
                    call()
                    print("done")
                except (TypeError, RuntimeError, AttributeError):
                    print("refused")
        """,
            head="import sys\n",
        )
        self.assertEqual((out, status), ("refused\n" * 5, 0), err)

    def test_copies_and_classes(self):
        core_stage = self.request.promise()
        for each in (core_stage, self.request):
            for call in (copy.copy, copy.deepcopy, pickle.dumps, lambda it: it.__reduce_ex__(2)):
                self.refused(lambda: call(each))
        self.refused(
            lambda: object.__new__(Stage),
            lambda: Stage.__new__(Stage),
            lambda: Stage(),
            lambda: Stage(self.request, 0),
            lambda: setattr(core_stage, "__class__", concurrent.futures.Future),
            lambda: setattr(self.request, "__class__", Flow),
        )
        core_stage.__class__ = type("Own", (Stage,), {})
        self.request.__class__ = type("Own", (Request,), {"__slots__": ()})
        self.assertEqual((core_stage.complete(2), core_stage.then(str).result(60), self.request.promise().complete(1)), (True, "2", True))
        self.refused(lambda: Stage.__init__(core_stage), kinds=AttributeError)
        self.assertEqual((core_stage.result(0), core_stage.done()), (2, True))

    def test_what_a_stage_lets_be_set(self):
        core_stage = self.request.promise()
        names = ("request", "number", "_state", "_condition", "_waiters", "_done_callbacks", "_result", "_exception", "_form")
        self.refused(
            *[functools.partial(setattr, core_stage, name, None) for name in names],
            functools.partial(delattr, core_stage, "_shown"),
            functools.partial(delattr, core_stage, "request"),
            kinds=(AttributeError, TypeError, SystemError),
        )
        core_stage._shown = True
        self.assertFalse(core_stage.done())
        with self.assertRaises(concurrent.futures.TimeoutError):
            core_stage.result(0)
        self.assertTrue(core_stage.complete(1))
        self.assertEqual(core_stage.result(0), 1)


class PublicArguments(Case):
    def test_misuse(self):
        other = self.service.request().promise()
        for call in (
            lambda: Stage(),
            lambda: self.request._attach(3, other, None, str, None, None, "x"),
            lambda: self.request._gather(16, [other], "x"),
            lambda: pickle.dumps(self.request),
        ):
            with self.assertRaises(TypeError):
                call()
        self.assertIs(self.request.adopt(core_stage := self.request.promise()), core_stage)


if __name__ == "__main__":
    unittest.main()
