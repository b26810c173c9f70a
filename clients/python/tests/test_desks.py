#!/usr/bin/env python3
"""Tests of desks: what callers do and see, views of stages, how a desk is closed, and the words of all that is done.

    CF_LIBRARY=/path/to/libcf.so python3 clients/python/tests/test_desks.py [-v] [TEST ..]

They are of the package beside this folder, or with CF_INSTALLED=1 of the one that is installed. conformance/clients/python-module has
random programs of the same calls, beside the model.
"""
import os
import sys
import threading
import unittest
from pathlib import Path

if not os.environ.get("CF_INSTALLED"):
    sys.path.insert(0, str(Path(__file__).resolve().parent.parent))
import cf  # noqa: E402
from cf import Code, Form  # noqa: E402
from cf.events import Attach, Cancel, Claim, Complete, Fail, FailAs, Finish, Tick  # noqa: E402


def one_stage():
    plan = cf.Plan()
    plan.stage(Form.SOURCE)
    return plan


class DeskCase(unittest.TestCase):
    def setUp(self):
        plan = cf.Plan()
        self.source = plan.stage(Form.SOURCE)
        self.last = plan.stage(Form.APPLY, self.source, function=0)
        self.desk = plan.open_desk(callers=2, log=20, calls=20)
        self.one, self.other = self.desk.callers

    def refuses(self, code, call):
        with self.assertRaises(cf.Refused) as told:
            call()
        self.assertEqual(told.exception.code, code)


class Callers(DeskCase):
    def test_a_stage_that_has_a_value(self):
        future = self.other.future(self.last)
        for call in (future.result, future.exception):
            self.assertRaises(cf.InvalidStateError, call)
        self.assertEqual((future.done(), future.cancelled()), (False, False))
        self.assertEqual(self.other.join(self.last, 3), cf.Now(cf.NowKind.ABSENT, None, None))
        self.assertEqual(self.other.read_now(self.last, 7), cf.Now(cf.NowKind.ABSENT, 7, None))
        self.assertTrue(self.one.complete(self.source, 3))
        self.assertEqual(self.one.work([lambda x: x + 1]), 1)
        self.assertEqual((future.result(60), future.exception(), future.done(), future.cancelled()), (4, None, True, False))
        self.assertEqual(self.other.join(self.last, 3), cf.Now(cf.NowKind.VALUE, 4, None))
        self.assertEqual((self.one.number, self.other.number, self.other.seen_count()), (0, 1, 3))

    def test_a_stage_without_a_value(self):
        for act, fault in [
            (lambda: self.one.complete(self.source, None), None),
            (lambda: self.one.fail(self.source, 9), cf.Thrown(9)),
            (lambda: self.one.cancel(self.source), cf.Cancelled()),
            (lambda: self.one.fail_as(self.source, cf.Failure.TIMED_OUT), cf.TimedOut()),
            (lambda: self.one.fail_as(self.source, cf.Failure.BAD_ANSWER, 9), cf.BadAnswer(9)),
        ]:
            with self.subTest(fault=fault):
                self.setUp()
                future = self.other.future(self.source)
                self.assertTrue(act())
                self.assertEqual((future.exception(), future.cancelled()), (fault, isinstance(fault, cf.Cancelled)))
                if fault is None:
                    self.assertIsNone(future.result())
                else:
                    self.assertRaises(type(fault), future.result)
                    behind = self.other.future(self.last)
                    self.assertEqual((type(behind.exception()), behind.exception().wrapped, behind.cancelled()), (type(fault), True, False))

    def test_many_stages_in_one_call(self):
        self.one.complete_all([(self.source, 1), (self.last, 2)])
        self.assertEqual([self.other.read(stage) for stage in (self.source, self.last)], [cf.Outcome(1, None), cf.Outcome(2, None)])
        with self.assertRaises(cf.Misfit) as told:
            self.one.complete_all([(self.source, 1), (9, 2)])
        self.assertEqual((told.exception.code, told.exception.place), (Code.NO_STAGE, 1))

    def test_callers_that_meet(self):
        self.one.complete(self.source, 1)
        self.assertEqual((self.one.seen_count(), self.other.seen_count()), (1, 0))
        self.other.meet(self.one)
        self.assertEqual(self.other.seen_count(), 1)
        self.one.meet(self.one)
        of_another = one_stage().open_desk(callers=1, log=1, calls=1).callers[0]
        self.refuses(Code.OTHER_DESK, lambda: self.one.meet(of_another))

    def test_a_caller_that_another_thread_has(self):
        refused = []

        def calls():
            try:
                self.one.seen_count()
            except cf.InUse as error:
                refused.append(error)

        with self.one, self.one:
            thread = threading.Thread(target=calls)
            thread.start()
            thread.join(20)
        self.assertEqual(len(refused), 1)
        self.assertEqual(self.one.seen_count(), 0)


class Closing(DeskCase):
    def test_callers_that_are_missing(self):
        self.one.complete(self.source, 3)
        of_another = one_stage().open_desk(callers=1, log=1, calls=1).callers
        self.refuses(Code.OTHER_DESK, lambda: self.desk.close(of_another))
        self.refuses(Code.NOT_ALL, lambda: self.desk.close([self.one]))
        with self.desk.close() as closed:
            self.assertEqual((closed.callers, closed.events()), (2, [Complete(0, self.source, 3)]))
        self.refuses(Code.EMPTY, self.desk.close)

    def test_what_each_did_and_saw(self):
        self.one.complete(self.source, 3)
        self.other.read(self.source)
        self.other.read_now(self.last, 5)
        with self.desk.close() as closed:
            self.assertEqual(closed.records(0), [cf.CallRecord(1, cf.word_of(Complete(0, 0, 3)), True)])
            self.assertEqual(
                closed.records(1), [cf.ReadRecord(1, 0, cf.Outcome(3, None)), cf.ReadNowRecord(1, 1, 5, cf.Now(cf.NowKind.ABSENT, 5, None))]
            )
            self.assertEqual(closed.records(0)[0].event, Complete(0, 0, 3))
            self.assertEqual(closed.graph().outcome(0), cf.Outcome(3, None))

    def test_a_desk_that_a_with_ends(self):
        with self.desk:
            self.one.seen_count()
        self.refuses(Code.EMPTY, self.one.seen_count)


class Words(unittest.TestCase):
    def test_each_event_has_a_word_as_the_formats_say(self):
        head = 5 << 48 | 7 << 36
        for event, word in [
            (Complete(5, 7, 9), 1 << 56 | head | 1 << 32 | 9),
            (Complete(5, 7, None), 1 << 56 | head),
            (Complete(5, 7, -1), 1 << 56 | head | 1 << 32 | 0xFFFFFFFF),
            (Fail(5, 7, 9), 2 << 56 | head | 9),
            (Cancel(5, 7), 3 << 56 | head),
            (Claim(5, 7), 4 << 56 | head),
            (Finish(5, 7, None), 5 << 56 | head),
            (Finish(5, 7, 9), 5 << 56 | head | 1 << 32 | 9),
            (Finish(5, 7, cf.Thrown(9)), 5 << 56 | head | 2 << 32 | 9),
            (Finish(5, 7, cf.Link(9)), 5 << 56 | head | 3 << 32 | 9),
            (Tick(5, 70), 6 << 56 | 5 << 48 | 70),
            (FailAs(5, 7, cf.Failure.TIMED_OUT), 8 << 56 | head),
            (FailAs(5, 7, cf.Failure.TIMED_OUT, 9), 8 << 56 | head | 9),
            (FailAs(5, 7, cf.Failure.BAD_ANSWER), 8 << 56 | head | 1 << 32),
            (FailAs(5, 7, cf.Failure.BAD_ANSWER, 2**32 - 1), 8 << 56 | head | 1 << 32 | 0xFFFFFFFF),
        ]:
            with self.subTest(event=event):
                self.assertEqual((hex(cf.word_of(event)), cf.event_of(word)), (hex(word), event))
        for event in (
            Attach(5, Form.APPLY, (7,), 9),
            Attach(5, Form.COMBINE, (7, 8), 9),
            Attach(5, Form.ALL_OF, (7, 8), None),
            Attach(5, Form.SOURCE, (), None),
        ):
            self.assertEqual(cf.event_of(cf.word_of(event)), event)
        for wrong in (Complete(64, 7, 9), Complete(5, 4096, 9)):
            with self.assertRaises(cf.Refused) as told:
                cf.word_of(wrong)
            self.assertEqual(told.exception.code, Code.NO_WORD)


if __name__ == "__main__":
    unittest.main()
