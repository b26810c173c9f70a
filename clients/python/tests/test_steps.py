#!/usr/bin/env python3
"""Tests of a loop in one call a step, of graphs and of desks' callers, and of the calls that take a row of stages.

    CF_LIBRARY=/path/to/libcf.so python3 clients/python/tests/test_steps.py [-v] [TEST ..]

They are of the package beside this folder, or with CF_INSTALLED=1 of the one that is installed. conformance/clients/python-module and
desks.py have random loops by the same calls, beside the model.
"""
import os
import sys
import threading
import unittest
import unittest.mock
from pathlib import Path

if not os.environ.get("CF_INSTALLED"):
    sys.path.insert(0, str(Path(__file__).resolve().parent.parent))
import cf  # noqa: E402
from cf import Code, Form  # noqa: E402

MANY = 200


def chain(length=3):
    """A source, and so many stages that add 1, each behind the one before."""
    plan = cf.Plan()
    last = plan.stage(Form.SOURCE)
    for _ in range(length):
        last = plan.stage(Form.APPLY, last, function=0)
    return plan, last


def add(x):
    return x + 1


class Graphs(unittest.TestCase):
    def test_a_step_finishes_and_claims(self):
        plan, last = chain()
        graph = cf.Graph(plan, who=7)
        self.assertIsNone(graph.next())
        graph.complete(0, 1)
        task, stages = graph.next(), []
        while task is not None:
            stages.append(task)
            task = graph.next(task, add(*task.args))
        self.assertEqual(stages, [cf.Task(1, 0, (1,)), cf.Task(2, 0, (2,)), cf.Task(3, 0, (3,))])
        self.assertEqual(graph.outcome(last), cf.Outcome(4, None))

    def test_what_a_function_throws(self):
        plan, last = chain(1)
        graph = cf.Graph(plan)
        graph.complete(0, 1)
        self.assertIsNone(graph.next(graph.next(), cf.Thrown(9)))
        fault = graph.outcome(last).fault
        self.assertEqual((type(fault), fault.code, fault.wrapped), (cf.Thrown, 9, True))

    def test_timed_out_and_with_a_bad_answer(self):
        for failure, fault in [(cf.Failure.TIMED_OUT, cf.TimedOut), (cf.Failure.BAD_ANSWER, cf.BadAnswer)]:
            for code in (0, 7, 2**32 - 1):
                plan, last = chain(1)
                graph = cf.Graph(plan)
                self.assertEqual((graph.fail_as(0, failure, code), graph.fail_as(0, failure, 8)), (True, False))
                faults = [graph.outcome(stage).fault for stage in (0, last)]
                self.assertEqual([(type(it), it.code, it.wrapped) for it in faults], [(fault, code, False), (fault, code, True)])
            with self.assertRaises(OverflowError):
                graph.fail_as(0, failure, 2**32)
            for stage, wrong, code in [(0, 3, Code.NO_SUCH_NUMBER), (9, failure, Code.NO_STAGE)]:
                with self.assertRaises(cf.Refused) as refused:
                    graph.fail_as(stage, wrong)
                self.assertEqual(refused.exception.code, code)

    def test_a_task_that_isnt_held_changes_nothing(self):
        graph = cf.Graph(chain()[0])
        graph.complete(0, 1)
        for stage, code in [(1, Code.NOT_HELD), (99, Code.NO_STAGE)]:
            with self.assertRaises(cf.Refused) as refused:
                graph.next(cf.Task(stage, 0, ()), 5)
            self.assertEqual(refused.exception.code, code)
        self.assertEqual((graph.ready(), graph.outcome(1)), (1, None))
        with self.assertRaises(OverflowError):
            graph.next(cf.Task(2**16, 0, ()), 5)

    def test_work_ends_behind_so_many_calls(self):
        plan, last = chain(4)
        graph = cf.Graph(plan)
        graph.complete(0, 0)
        self.assertEqual((graph.work([add], most=0), graph.outcome(1)), (0, None))
        self.assertEqual((graph.work([add], most=3), graph.outcome(3), graph.ready()), (3, cf.Outcome(3, None), 4))
        self.assertEqual((graph.work([add]), graph.outcome(last)), (1, cf.Outcome(4, None)))

    def test_a_function_that_ends_work_leaves_its_stage_claimed(self):
        def broken(_):
            raise ZeroDivisionError

        for functions, error in [([broken], ZeroDivisionError), ([], IndexError)]:
            graph = cf.Graph(chain()[0])
            graph.complete(0, 1)
            with self.assertRaises(error):
                graph.work(functions)
            self.assertEqual((graph.ready(), graph.finish(1, 5)), (None, cf.FinishReply.WON))

    def test_starts_again_with_values(self):
        plan, last = chain()
        graph = cf.Graph(plan)
        for value in range(3):
            graph.restart([(0, value)])
            self.assertEqual((graph.work([add]), graph.outcome(last)), (3, cf.Outcome(value + 3, None)))
        with self.assertRaises(cf.Refused) as refused:
            graph.restart([(0, 1), (4, 1)])
        self.assertEqual((refused.exception.code, graph.outcome(last)), (Code.NO_STAGE, cf.Outcome(5, None)))
        graph.restart()
        self.assertEqual((graph.outcome(0), graph.ready()), (None, None))

    def test_the_plan_of_a_graph_outlives_it(self):
        plan, last = chain()
        graph = cf.Graph(plan)
        plan.close()
        plan = graph.plan()
        graph.close()
        again = cf.Graph(plan)
        again.complete(0, 1)
        self.assertEqual((again.work([add]), again.outcome(last)), (3, cf.Outcome(4, None)))


class Desks(unittest.TestCase):
    def test_threads_share_a_fan_out_by_steps(self):
        plan = cf.Plan()
        source = plan.stage(Form.SOURCE)
        for _ in range(MANY):
            plan.stage(Form.APPLY, source, function=0)
        called = [[] for _ in range(4)]

        def worker(caller, mine):
            with caller:
                task = caller.next()
                while task is not None:
                    mine.append(task.stage)
                    task = caller.next(task, add(*task.args))

        with plan.open_desk(5, 8 * MANY + 8, 8 * MANY + 8) as desk:
            desk.callers[4].complete(source, 1)
            threads = [threading.Thread(target=worker, args=it) for it in zip(desk.callers, called)]
            for thread in threads:
                thread.start()
            for thread in threads:
                thread.join()
            graph = desk.close().graph()
        self.assertEqual(sorted(stage for mine in called for stage in mine), list(range(1, MANY + 1)))
        self.assertTrue(all(graph.outcome(stage) == cf.Outcome(2, None) for stage in range(1, MANY + 1)))

    def test_timed_out_and_with_a_bad_answer(self):
        plan, _ = chain(1)
        plan.stage(Form.SOURCE)
        with plan.open_desk(2, 8, 8) as desk:
            one, other = desk.callers
            self.assertEqual(
                (one.fail_as(0, cf.Failure.TIMED_OUT), other.fail_as(2, cf.Failure.BAD_ANSWER, 7), other.fail_as(0, cf.Failure.BAD_ANSWER)),
                (True, True, False),
            )
            with self.assertRaises(cf.Refused) as refused:
                one.fail_as(0, 2)
            self.assertEqual(refused.exception.code, Code.NO_SUCH_NUMBER)
            closed = desk.close()
            event = cf.events.FailAs(1, 2, cf.Failure.BAD_ANSWER, 7)
            self.assertEqual((closed.records(1)[0].event, closed.records(1)[0].reply), (event, True))
            graph = closed.graph()
        faults = [graph.outcome(stage).fault for stage in range(3)]
        self.assertEqual([(type(it), it.code) for it in faults], [(cf.TimedOut, 0), (cf.TimedOut, 0), (cf.BadAnswer, 7)])

    def test_completes_a_row_up_to_what_is_refused(self):
        plan = cf.Plan()
        for _ in range(4):
            plan.stage(Form.SOURCE)
        with plan.open_desk(1, 8, 8) as desk:
            (caller,) = desk.callers
            caller.complete_all([])
            caller.complete_all([(0, 5), (0, 6), (1, None)])
            for row, place, code in [([(2, 7), (9, 1), (3, 1)], 1, Code.NO_STAGE), ([(3, 8)] * 5, 4, Code.PASS_FULL)]:
                with self.assertRaises(cf.Misfit) as misfit:
                    caller.complete_all(row)
                self.assertEqual((misfit.exception.place, misfit.exception.code), (place, code))
            graph = desk.close().graph()
        self.assertEqual([graph.outcome(stage) for stage in range(4)], [cf.Outcome(value, None) for value in (5, None, 7, 8)])

    def test_callers_of_two_desks_never_meet(self):
        """The library sees that they are of two only while nobody else has callers of the second, so it isn't asked."""
        plan, _ = chain()
        with plan.open_desk(2, 8, 8) as one, plan.open_desk(2, 8, 8) as other:
            one.callers[0].meet(one.callers[1])
            with unittest.mock.patch.object(cf._library.library, "cf_desk_meet") as asked:
                with self.assertRaises(cf.Refused) as refused:
                    one.callers[0].meet(other.callers[0])
            self.assertEqual((refused.exception.code, asked.called, one.callers[0].seen_count()), (Code.OTHER_DESK, False, 0))


if __name__ == "__main__":
    unittest.main()
