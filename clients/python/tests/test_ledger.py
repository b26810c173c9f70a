#!/usr/bin/env python3
"""Tests of cf.Ledger's calls for many words at once: step, apply_all, restart, each beside the same words one at a
time.

    CF_LIBRARY=/path/to/libcf.so python3 clients/python/tests/test_ledger.py [-v] [TEST ..]

They are of the package beside this folder, or with CF_INSTALLED=1 of the one that is installed. conformance/clients/python-module has
random ones, beside the model.
"""
import os
import random
import sys
import unittest
from pathlib import Path

if not os.environ.get("CF_INSTALLED"):
    sys.path.insert(0, str(Path(__file__).resolve().parent.parent))
import cf  # noqa: E402
from cf import Form  # noqa: E402
from cf.events import Cancel, Claim, Complete, FailAs, Finish  # noqa: E402
from cf.service.words import FAIL_AS  # noqa: E402

WORKER = 5
FUNCTIONS = [lambda x: x + 1, lambda x, y: x * y]


def tree():
    """A source, eight stages behind it, and the product of these: 16 stages."""
    plan = cf.Plan()
    source = plan.stage(Form.SOURCE)
    row = [plan.stage(Form.APPLY, source, function=0) for _ in range(8)]
    while len(row) > 1:
        row = [plan.stage(Form.COMBINE, a, b, function=1) for a, b in zip(row[::2], row[1::2])]
    return plan, source, row[0]


def answer_of(task):
    return FUNCTIONS[task.function](*task.args)


class Steps(unittest.TestCase):
    def setUp(self):
        self.plan, self.source, self.last = tree()
        self.ledger = cf.Ledger(self.plan)

    def work(self, ledger):
        """Does all that is ready, by steps; how many were finished."""
        told, many = ledger.step(WORKER), 0
        while told.task is not None:
            told, many = ledger.step(WORKER, told.task, answer_of(told.task)), many + 1
        return many

    def stages(self, ledger):
        return [ledger.stage(i) for i in range(ledger.stages())]

    def test_a_step_is_a_finish_and_a_claim(self):
        ledger, beside = self.ledger, cf.Ledger(self.plan)
        for each in (ledger, beside):
            each.apply_event(Complete(0, self.source, 2))
        told = ledger.step(WORKER)
        self.assertEqual(
            (told.place, told.finish, told.claim, told.news, told.finished), (1, None, cf.word_of(Claim(WORKER, 1)), [], cf.FinishReply.WON)
        )
        self.assertEqual(told.task, cf.Task(1, 0, (2,)))
        self.assertEqual(ledger.stage(1).who, WORKER)
        told = ledger.step(WORKER, told.task, 3)
        self.assertEqual((told.place, told.finish, told.claim), (2, cf.word_of(Finish(WORKER, 1, 3)), cf.word_of(Claim(WORKER, 2))))
        self.assertEqual([(stage.number, stage.outcome) for stage in told.news], [(1, cf.Outcome(3, None))])
        self.assertEqual(told.task, cf.Task(2, 0, (2,)))
        for word in ledger.words(1):
            news = beside.apply(word).news
        self.assertEqual([stage.number for stage in news], [2])
        self.assertEqual(self.stages(ledger), self.stages(beside))

    def test_steps_do_all(self):
        self.ledger.apply_event(Complete(0, self.source, 1))
        self.assertEqual(self.work(self.ledger), 15)
        self.assertEqual(self.ledger.stage(self.last).outcome, cf.Outcome(2**8, None))
        self.assertEqual(self.stages(cf.Ledger.from_words(self.plan, self.ledger.words())), self.stages(self.ledger))

    def test_from_a_number_on(self):
        self.ledger.apply_event(Complete(0, self.source, 1))
        self.assertEqual(self.ledger.step(WORKER, first=4).task.stage, 4)
        told = self.ledger.step(WORKER, first=9)
        self.assertEqual((told.task, told.claim, told.place), (None, None, 2))

    def test_late_and_thrown(self):
        self.ledger.apply_event(Complete(0, self.source, 1))
        task = self.ledger.step(WORKER).task
        self.ledger.apply_event(Cancel(0, task.stage))
        told = self.ledger.step(WORKER, task, 7)
        self.assertEqual((told.finished, told.news), (cf.FinishReply.LATE, []))
        told = self.ledger.step(WORKER, told.task, cf.Thrown(4))
        self.assertEqual(told.news[0].outcome.fault.code, 4)

    def test_timed_out_and_with_a_bad_answer(self):
        for tag, (failure, fault) in enumerate([(cf.Failure.TIMED_OUT, cf.TimedOut), (cf.Failure.BAD_ANSWER, cf.BadAnswer)]):
            ledger, event = cf.Ledger(self.plan), FailAs(WORKER, self.source, failure, 7)
            word = FAIL_AS << 56 | WORKER << 48 | self.source << 36 | tag << 32 | 7
            self.assertEqual((cf.word_of(event), cf.event_of(word)), (word, event))
            told = ledger.apply_event(event)
            self.assertEqual((told.reply, len(told.news)), (True, ledger.stages()))
            faults = [(type(it.outcome.fault), it.outcome.fault.code, it.outcome.fault.wrapped) for it in told.news]
            self.assertEqual(faults, [(fault, 7, it.number > 0) for it in told.news])
            self.assertEqual(ledger.apply_event(event), cf.EventResult(False, []))
            self.assertEqual(self.stages(cf.Ledger.from_words(self.plan, [word])), self.stages(ledger))
        for wrong in (0, 3, 6):
            with self.assertRaises(cf.Refused) as refused:
                cf.word_of(FailAs(WORKER, 0, wrong))
            self.assertEqual(refused.exception.code, cf.Code.NO_SUCH_NUMBER)
        with self.assertRaises(cf.Refused) as refused:
            cf.event_of(FAIL_AS << 56 | 2 << 32)
        self.assertEqual(refused.exception.code, cf.Code.NO_WORD)
        for wrong in (FailAs(WORKER, 0, -1), FailAs(WORKER, 0, cf.Failure.TIMED_OUT, -1), FailAs(WORKER, 0, cf.Failure.TIMED_OUT, 2**32)):
            with self.assertRaises(OverflowError):
                cf.word_of(wrong)

    def test_refused_steps_change_nothing(self):
        self.ledger.apply_event(Complete(0, self.source, 1))
        task, words = self.ledger.step(WORKER).task, self.ledger.words()
        for who, held, code in (
            (64, None, "NO_WORD"),
            (WORKER, task._replace(stage=16), "NO_STAGE"),
            (4, task, "NOT_HELD"),
            (WORKER, task._replace(stage=2), "NOT_HELD"),
        ):
            with self.assertRaises(cf.Refused) as refused:
                self.ledger.step(who, held, 1)
            self.assertEqual((refused.exception.code.name, self.ledger.words()), (code, words))
        for call in (lambda: self.ledger.step(256), lambda: self.ledger.step(1, first=2**16), lambda: self.ledger.step(1, answer=2**31)):
            with self.assertRaises(OverflowError):
                call()

    def test_words_in_one_call(self):
        """Of random words, some of which fit nothing, a row does what each does by itself, up to the first that
        can't be done."""
        rng = random.Random(7)
        for _ in range(200):
            ledger, beside = cf.Ledger(self.plan), cf.Ledger(self.plan)
            events = [
                rng.choice([Complete(0, rng.randrange(18), 3), Claim(rng.randrange(3), rng.randrange(16)), Finish(1, rng.randrange(16), 1)])
                for _ in range(rng.randrange(30))
            ]
            words, refused = [cf.word_of(event) for event in events], None
            for place, word in enumerate(words):
                try:
                    beside.apply(word)
                except cf.Refused as error:
                    refused = (place, error.code)
                    break
            try:
                ledger.apply_all(words)
                self.assertIsNone(refused)
            except cf.Misfit as misfit:
                self.assertEqual((misfit.place, misfit.code), refused)
            self.assertEqual((ledger.words(), self.stages(ledger)), (beside.words(), self.stages(beside)))
        with self.assertRaises(OverflowError):
            ledger.apply_all([2**64])

    def test_starting_again(self):
        ledger = cf.Ledger(self.plan, room=1)
        attach = cf.word_of(cf.events.Attach(0, Form.SOURCE, ()))
        start = self.stages(ledger)
        for _ in range(3):
            ledger.apply_all([cf.word_of(Complete(0, self.source, 1)), attach])
            self.assertEqual((self.work(ledger), ledger.stages()), (15, 17))
            with self.assertRaises(cf.Misfit) as misfit:
                ledger.apply_all([attach])
            self.assertEqual((misfit.exception.code.name, misfit.exception.place), ("NO_ROOM", 0))
            ledger.restart()
            self.assertEqual((ledger.words(), self.stages(ledger)), ([], start))
        ledger.close()
        for call in (ledger.restart, lambda: ledger.apply_all([]), lambda: ledger.step(1)):
            with self.assertRaises(cf.Refused) as refused:
                call()
            self.assertEqual(refused.exception.code, cf.Code.EMPTY)


if __name__ == "__main__":
    unittest.main()
