#!/usr/bin/env python3
"""Time limits: or_timeout and complete_on_timeout of any size, the clock that watches them, how a stage that timed out
is told, and which exception the stages behind it have; a bad answer, too.

    CF_LIBRARY=/path/to/libcf.so python3 clients/python/tests/service/test_timeouts.py [-v] [TEST ..]
"""
import concurrent.futures
import gc
import json
import math
import random
import threading
import time
import unittest
import unittest.mock

from case import Case, fails, inc, leaves, no_thread, starting, until
import cf
from cf.service import Flow, Service, waits
from cf.service.words import CLIENT, CLOCK, FAIL, FAIL_AS, FAIL_BADLY, NEVER

LATER = time.monotonic_ns() + 10**15  # than all limits


class Limits(Case):
    def test_timeouts(self):
        timed = self.request
        late = timed.promise().or_timeout(0.02).named("late")
        self.assertIsInstance(late.exception(60), TimeoutError)
        self.assertIn("took longer than 0.02 s", str(late.exception()))
        self.assertEqual(timed.promise().complete_on_timeout(7, 0.02).result(60), 7)
        self.assertEqual(timed.supply(str, "x").or_timeout(5).result(), "x")
        with self.assertRaises(concurrent.futures.TimeoutError):
            timed.promise().result(0.01)
        with self.assertRaises(concurrent.futures.TimeoutError):
            timed.promise().exception(timeout=0)

    def test_limits_of_any_size(self):
        """An endless limit never fires, one that is over fires at once, one that is none is refused; and the clock
        goes on."""
        timed = self.request
        for seconds in (math.inf, 1e10, 1e300, threading.TIMEOUT_MAX, 10**20):
            limited = timed.promise().or_timeout(seconds)
            self.assertIsInstance(timed.promise().or_timeout(0.01).exception(20), TimeoutError)
            self.assertTrue(limited.complete(1))
        for seconds in (0, -1, -1e300, -math.inf):
            self.assertIsInstance(timed.promise().or_timeout(seconds).exception(20), TimeoutError)
        for seconds, kind in ((math.nan, ValueError), ("1", TypeError), (None, TypeError)):
            for limited in (timed.promise(), self.service.submit(str)):
                with self.assertRaises(kind):
                    limited.or_timeout(seconds)
                with self.assertRaises(kind):
                    limited.complete_on_timeout(1, seconds)
        self.assertEqual(timed.promise().complete_on_timeout(7, 0.01).result(20), 7)

    def test_time_never_goes_back(self):
        """An earlier moment may be rung later. A limit that is set for it then is due."""
        timed = self.request
        timed.promise().or_timeout(1000)
        ahead = timed._works.clock.now(timed) + 500 * 10**9
        timed._ring(ahead), timed._ring(ahead - 1)
        limited = timed.promise().complete_on_timeout(7, 1)
        timed._ring(ahead - 1)
        self.assertEqual(limited.result(0), 7)

    def test_an_earlier_limit_wakes_the_clock(self):
        late = [self.request.promise().or_timeout(1000 + k) for k in range(3)]
        time.sleep(0.05)  # (the clock waits for the first of these)
        self.assertEqual(self.request.promise().complete_on_timeout(1, 0.01).result(20), 1)
        self.assertFalse(any(late_stage.done() for late_stage in late))

    def test_of_several_limits_of_a_stage_the_first_decides(self):
        for first, second in ((0.01, 1000), (1000, 0.01), (0.01, 0.03)):
            late = self.request.promise().or_timeout(first).or_timeout(second)
            self.assertIn(f"took longer than {min(first, second)} s", str(late.exception(20)))
            given = self.request.promise().complete_on_timeout(1, first).complete_on_timeout(2, second)
            self.assertEqual(given.result(20), 1 if first < second else 2)

    def test_limits_that_are_over_at_once(self):
        """They pass in the order in which they were set, also where the clock was held up meanwhile."""
        held, goes_on, timed = threading.Event(), threading.Event(), self.request
        timed.promise().or_timeout(0).add_done_callback(lambda _: held.set() or goes_on.wait(20))
        self.assertTrue(held.wait(20))
        late = [timed.promise().or_timeout(0.01).or_timeout(0.02), timed.promise().or_timeout(0).complete_on_timeout(1, 0)]
        given = [timed.promise().complete_on_timeout(2, 0).or_timeout(0), timed.promise().complete_on_timeout(None, 0)]
        time.sleep(0.05)
        goes_on.set()
        self.assertEqual([str(stage.exception(20)) for stage in late], ["promise took longer than 0.01 s", "promise took longer than 0 s"])
        self.assertEqual([stage.result(20) for stage in given], [2, None])

    def test_limits_of_one_moment(self):
        moment = time.monotonic_ns() + 10**7
        with unittest.mock.patch.object(self.service._works.clock, "now", lambda _=None: moment):
            limited = [self.request.promise().complete_on_timeout(k, 0) for k in range(5)]
        self.assertEqual([stage.result(20) for stage in limited], list(range(5)))

    def test_a_limit_that_is_due_at_just_this_moment(self):
        """A loop may ring a request at the very nanosecond."""
        late, given = self.request.promise().or_timeout(1000), self.request.promise().complete_on_timeout("x", 2000)
        while self.request._moment != NEVER:
            self.request._ring(self.request._moment)
        self.assertIn("took longer than 1000 s", str(late.exception(0)))
        self.assertEqual(given.result(0), "x")

    def test_a_limit_for_a_moment_that_has_passed(self):
        """It is due at once."""
        self.request._ring(LATER)
        self.assertIsInstance(self.request.promise().or_timeout(0.01).exception(20), TimeoutError)

    def test_an_alarm_for_a_limit_that_is_not_needed(self):
        """Behind it the next limit is asked for."""
        first, second = self.request.promise().or_timeout(0.02), self.request.promise().complete_on_timeout(7, 0.1)
        first.complete(1)
        self.assertEqual(second.result(20), 7)

    def test_one_alarm_for_all_limits_of_a_request(self):
        clock = self.service._works.clock
        limited = [self.request.promise().or_timeout(1000 - k) for k in range(200)]
        self.assertEqual((len(clock._wanted), len(clock._due) < 100), (1, True))
        for stage in limited[1:]:
            stage.complete(1)
        self.assertEqual(len(clock._wanted), 1)
        limited[0].complete(1)
        self.assertEqual(len(clock._wanted), 0)
        self.assertEqual(self.request.promise().complete_on_timeout(1, 0.01).result(20), 1)

    def test_limits_one_after_another(self):
        """Also such as a callback sets."""
        further = []
        first = self.request.promise().complete_on_timeout(0, 0.01)
        first.add_done_callback(lambda _: further.append(self.request.promise().complete_on_timeout(1, 0.01)))
        later = [self.request.promise().complete_on_timeout(k, 0.02 * k) for k in range(2, 5)]
        self.assertEqual([stage.result(20) for stage in (first, *later)], [0, 2, 3, 4])
        self.assertEqual(further[0].result(20), 1)

    def test_slow_functions_hold_up_no_limit(self):
        """What is behind a limit is called by a thread, and not by the clock."""
        begun, goes_on = threading.Event(), threading.Event()
        slow = self.request.promise().or_timeout(0.01).recover(lambda _: begun.set() or goes_on.wait(20))
        self.assertTrue(begun.wait(20))
        self.assertEqual(self.request.promise().complete_on_timeout(1, 0.01).result(20), 1)
        goes_on.set()
        self.assertTrue(slow.result(20))

    def test_the_clock_outlives_callbacks(self):
        for raises in (leaves, fails):
            late = self.request.promise()
            late.add_done_callback(raises)
            with self.assertLogs("concurrent.futures", "ERROR"):
                self.assertIsInstance(late.or_timeout(0.01).exception(20), TimeoutError)
                self.assertEqual(self.request.promise().complete_on_timeout(1, 0.02).result(20), 1)

    def test_a_callback_that_leaves_keeps_no_later_limit_from_coming(self):
        first, second = self.request.promise(), self.request.promise()
        first.add_done_callback(leaves)
        with self.assertLogs("concurrent.futures", "CRITICAL"):
            first.or_timeout(0.01), second.or_timeout(0.1)
            self.assertIsInstance(second.exception(20), TimeoutError)

    def test_what_a_timer_held_may_use_the_clock(self):
        """A value that a timer lets go of is freed where no lock is held."""
        told_late = []

        class Last:
            def __del__(it):
                limited = self.request.promise
                asks = threading.Thread(target=lambda: told_late.append(limited().complete_on_timeout(1, 0.01).result(20)))
                asks.start()
                asks.join(60)
                told_late.append(asks.is_alive())

        self.request.promise().complete_on_timeout(Last(), 1000).complete(1)
        self.assertTrue(until(lambda: len(told_late) == 2))
        self.assertEqual(told_late, [1, False])

    def test_timer_outlives_all_who_asked(self):
        done = threading.Event()
        self.service.request().promise().or_timeout(0.05).recover(lambda error: done.set())
        gc.collect()
        self.assertTrue(done.wait(60))

    def test_timers_of_settled_stages_are_let_go(self):
        for _ in range(1000):
            self.request = self.service.request()
            self.request.promise().or_timeout(1000).complete(1)
        self.assertLess(len(self.service._works.clock._due), 300)

    def test_alarms_that_are_left_ring_in_their_order(self):
        """Those that nobody wants are taken out now and then. The first of the others stays the first."""
        clock, dice, stages = self.service._works.clock, random.Random(7), []
        for _ in range(300):
            limited = self.service.request().promise().or_timeout(1000 + dice.randrange(1000))
            stages.append(limited)
            if len(stages) > 20:
                stages.pop(dice.randrange(20)).complete(1)
            self.assertEqual(clock._due[0], min(clock._due))

    def test_a_limit_that_is_refused_is_none(self):
        """No thread can be started for the clock: the clock knows nothing of that limit later."""
        refused = self.request.promise()
        with starting(no_thread), self.assertRaises(RuntimeError):
            refused.or_timeout(0.01)
        self.assertEqual(self.request._moment, NEVER)
        self.assertEqual(self.request.promise().complete_on_timeout(1, 0.05).result(20), 1)
        self.assertFalse(refused.done())

    def test_each_limit_has_its_exception(self):
        """Its text has the name that the stage has then."""
        timed = self.request
        late, early = timed.promise().or_timeout(2000), timed.promise("early").or_timeout(1000)
        late.named("late")
        timed._ring(LATER)
        texts = ["late took longer than 2000 s", "early took longer than 1000 s"]
        self.assertEqual([str(stage.exception(0)) for stage in (late, early)], texts)
        self.assertEqual([str(stage.then(inc).exception(20)) for stage in (late, early)], texts)

    def test_a_limit_that_comes_once_more_before_it_is_let_go(self):
        """Its stage has been told, and those behind it have the same exception."""
        timed = self.request
        late = timed.promise()
        late.add_done_callback(lambda _: timed._ring(LATER))
        late.or_timeout(1000)
        timed._ring(LATER)
        self.assertIs(late.then(inc).exception(20), late.exception(0))

    def test_an_alarm_that_is_set_as_those_that_are_left_are_taken_out(self):
        """As what is collected meanwhile may do."""
        clock, late = self.service._works.clock, []

        class Wanted(dict):
            def __contains__(it, number):
                if len(clock._due) > 64 + 2 * len(it) and not late:
                    late.append(it)
                    late.append(self.request.promise().complete_on_timeout(1, 0.05))
                return super().__contains__(number)

        with unittest.mock.patch.object(clock, "_wanted", Wanted(clock._wanted)):
            while not late:
                self.service.request().promise().or_timeout(1000).complete(1)
            self.assertEqual(late[1].result(20), 1)


class Causes(Case):
    """A stage that timed out, or had a bad answer, is told as such, and so are those behind it."""

    def test_a_timeout_is_told_as_one(self):
        """By the history and by the script, which is of version 3 once one is in it."""
        timed = self.service.request("r")
        late = timed.promise("late")
        behind = late.then(inc)
        late.or_timeout(0.01)
        self.assertIsInstance(behind.exception(20), TimeoutError)
        self.assertFalse(timed._change(FAIL_AS, CLOCK, late, TimeoutError()))
        late_history = timed.history()
        for part in (
            "clock times out 0 late, TimeoutError('late took longer than 0.01 s')\n",
            "0 late ends: timed out, TimeoutError('late took longer than 0.01 s')\n",
            "1 inc ends: timed out, TimeoutError('late took longer than 0.01 s'), passed on\n",
            "clock times out 0 late, TimeoutError(): too late",
        ):
            self.assertIn(part, str(late_history))
        told = dict(late_history.entries()[2].told)
        self.assertEqual(late_history.fault_text(told[1]), "timed out, TimeoutError('late took longer than 0.01 s')")
        script, before = json.loads(late_history.script()), json.loads(late_history.script(2))
        self.assertEqual((script["cf"], script["steps"]), (3, before["steps"] + [["failAs", 0, "timeout", code] for code in (1, 2)]))
        self.assertEqual((before["cf"], json.loads(late_history.account())["plan"]["cf"]), (2, 2))
        self.assertEqual(cf.run_script(late_history.script()), late_history.report())

    def test_a_timeout_that_comes_too_late_changes_no_exception(self):
        """Of a stage whose limit is over, before that was told."""
        late = self.request.promise("late").or_timeout(1000)
        self.request._ring(LATER)
        self.assertFalse(self.request._change(FAIL_AS, CLIENT, late, TimeoutError("another")))
        self.assertIn("took longer than 1000", str(late.exception(20)))

    def test_a_limit_that_comes_as_its_stage_is_told(self):
        """It changes nothing of a stage that is settled, also before that has let go of it."""
        timed = self.request
        source = timed.promise()
        behind = source.then(inc)
        handled = behind.handle(lambda _, error: error)
        behind.add_done_callback(lambda _: timed._ring(LATER))
        behind.or_timeout(1000)
        self.assertTrue(source.cancel())
        self.assertIsInstance(behind.exception(20), concurrent.futures.CancelledError)
        self.assertIsInstance(handled.result(20), concurrent.futures.CancelledError)
        self.assertIsInstance(behind.handle(lambda _, error: error).result(20), concurrent.futures.CancelledError)

    def test_a_value_by_a_limit_is_told_with_what_comes_later(self):
        timed = self.service.request("r")
        self.assertEqual(timed.promise("late").complete_on_timeout(5, 0).result(20), 5)
        self.assertTrue(timed.promise("next").complete(7))
        told = str(timed.history())
        for part in ("r: 4 events, 2 stages", "clock completes 0 late with 5\n", "caller completes 1 next with 7\n"):
            self.assertIn(part, told)

    def test_of_two_that_timed_out_the_first_argument_is_told(self):
        """Whichever of them timed out last."""
        for order in ((0, 1), (1, 0)):
            both = [self.request.promise("one"), self.request.promise("two")]
            behind = [self.request.all_of(*both), both[0].combine(both[1], max)]
            for number in order:
                both[number].or_timeout(0)
                self.assertIsInstance(both[number].exception(20), TimeoutError)
            self.assertEqual([stage.exception(20) for stage in behind], [both[0].exception()] * 2)

    def test_of_two_that_are_over_by_now_the_earlier_one_is_told(self):
        late, early = self.request.promise().or_timeout(2000), self.request.promise().or_timeout(1000)
        first = self.request.first_of(late, early)
        self.request._ring(LATER)
        self.assertIs(first.exception(0), early.exception(0))

    def test_a_slow_function_behind_a_limit_holds_up_no_other_limit(self):
        """Time passes as the test says."""
        passing, opens = waits.Primitives(), threading.Event()
        passing.now = lambda: passing.moment
        passing.moment = 0
        with unittest.mock.patch.object(waits, "primitives", passing), Service(2) as service:
            timed, clock = service.request(), service._works.clock
            slow = timed.promise().complete_on_timeout(1, 1000).then(lambda _: opens.wait(60))
            later = [it.promise().complete_on_timeout(2, 1001) for it in (timed, service.request())]
            passing.moment = 1002 * 10**9
            with clock._changed:
                clock._changed.notify_all()
            self.assertEqual(([it.result(20) for it in later], slow.done()), ([2, 2], False))
            opens.set()
            self.assertTrue(slow.result(20))

    def test_the_code_of_an_exception_that_nobody_gave_is_no_number(self):
        """That of a first time-out isn't 0, also beside exceptions of which one has this number."""
        for kind in (FAIL_AS, FAIL_BADLY):
            timed, errors = self.service.request(), [TimeoutError("one"), ValueError("two"), TimeoutError("three")]
            promises = [timed.promise() for _ in errors]
            for promise, change, error in zip(promises, (kind, FAIL, kind), errors):
                self.assertTrue(timed._change(change, CLIENT, promise, error))
            self.assertEqual([promise.then(inc).exception(20) for promise in promises], errors)
            self.assertEqual([word & 0xFFFFFFFF for word in timed.history().words if word >> 56 in (FAIL, FAIL_AS)], [1, 2, 3])
            first = self.service.request()
            self.assertTrue(first.promise().fail(errors[1]) and first._change(kind, CLIENT, first.promise(), errors[0]))
            self.assertEqual([word & 0xFFFFFFFF for word in first.history().words if word >> 56 in (FAIL, FAIL_AS)], [0, 1])

    def test_histories_describe_no_exception_that_is_not_there(self):
        described = []

        def describe(it):
            described.append(it)
            return "so"

        timed = self.service.request(describe=describe)
        timed.promise().or_timeout(1000)
        self.assertEqual(timed.history().errors, [None, None])
        timed._ring(LATER)
        self.assertEqual((timed.history().errors, [type(it) for it in described]), ([None, "so"], [TimeoutError]))

    def test_a_bad_answer_is_told_as_one(self):
        timed, bad = self.service.request("r"), cf.BadAnswer(7)
        late_stage = timed.promise("p")
        self.assertTrue(timed._change(FAIL_BADLY, CLIENT, late_stage, bad))
        self.assertIs(late_stage.then(inc).exception(20), bad)
        late_history = timed.history()
        for part in ("caller fails 0 p with a bad answer, BadAnswer('bad answer 7')\n", "0 p ends: a bad answer, BadAnswer('bad answer 7')\n"):
            self.assertIn(part, str(late_history))
        self.assertIn('["failAs",0,"badanswer",1]', late_history.script())
        self.assertEqual(cf.run_script(late_history.script()), late_history.report())

    def test_the_exception_of_a_timeout(self):
        """All that stand behind a stage which timed out have its exception, whenever they are told."""
        timed, told_late = self.request, []
        late, slow = timed.promise("late"), timed.promise("slow")
        behind_late = [
            late.then(inc),
            late.either(slow, inc),
            timed.first_of(slow, late),
            late.when_done(lambda *_: None),
            late.combine(slow, max),
            slow.combine(late, max),
            timed.all_of(slow, late),
            timed.gather(slow, late),
            timed.supply(str).compose(lambda _: late),
            self.service.request("other").adopt(late),
            self.service.request("other").supply(str).compose(lambda _: late),
        ]
        calls = [
            late.recover(told_late.append),
            late.handle(lambda _, error: told_late.append(error)),
            late.recover_compose(lambda error: [told_late.append(error), slow][1]),
        ]
        error = late.or_timeout(0.01).exception(20)
        self.assertTrue(slow.complete(1))
        behind_late += [
            late.then(inc),
            late.then(inc).then(inc),
            timed.all_of(slow, late),
            timed.supply(str).compose(lambda _: late),
            late.when_done(lambda *_: None),
        ]
        calls += [late.then(inc).recover(told_late.append)]
        self.assertEqual([late_stage.exception(20) for late_stage in behind_late], [error] * len(behind_late))
        concurrent.futures.wait(calls, 20)
        self.assertEqual(told_late, [error] * 4)

    def test_the_exception_of_a_stage_that_is_followed(self):
        """A composing stage has that of the higher stage which its function gave."""
        timed, late = self.request, []
        ends = [timed.supply(str).compose(lambda _: late.append(timed.promise("late")) or late[-1]) for _ in range(2)]
        ends.append(timed.supply(dict).then(lambda it: it["x"]).recover_compose(lambda _: late.append(timed.promise("late")) or late[-1]))
        self.assertTrue(until(lambda: len(late) == 3))
        errors = {late_stage.or_timeout(0.01).exception(20) for late_stage in late}
        self.assertEqual({end.exception(20) for end in ends}, errors)
        self.assertEqual(len(errors), 3)

    def test_the_exception_of_what_is_gathered(self):
        """Of any number of stages that of the first which has one, whichever timed out last."""
        timed = self.request
        for many in (2, 3, 5):
            promises = [timed.promise() for _ in range(many)]
            every, handled = timed.all_of(*promises), timed.gather(*promises).handle(lambda _, error: error)
            errors = [promise.or_timeout(0).exception(20) for promise in reversed(promises)]
            self.assertIs(every.exception(20), errors[-1])
            self.assertIs(handled.result(20), errors[-1])

    def test_the_exception_of_a_timeout_in_a_flow(self):
        """Stages of any number of sources have that of the first which ended so."""
        flow = Flow()
        promises = [flow.promise() for _ in range(5)]
        after, told_late = flow.all_of(*promises), flow.first_of(*promises[3:]).recover(lambda error: error)
        of_the_second = flow.first_of(promises[0], promises[3])  # (the first one is open then)
        timed = self.service.start(flow)
        errors = [timed[step].or_timeout(0.01).exception(20) for step in promises[3:]]
        self.assertIs(timed[of_the_second].exception(20), errors[0])
        for step in promises[:3]:
            self.assertTrue(timed[step].complete(1))
        self.assertIs(timed[after].exception(20), errors[0])
        self.assertIs(timed[told_late].result(20), errors[0])

    def test_two_timeouts_and_a_stage_that_nobody_runs(self):
        """What fails as nobody runs it, behind the second that times out, lets a stage have the exception of the
        first."""
        timed, service = self.request, self.service
        first, second = timed.promise(), timed.promise()
        both = timed.all_of(first, second.recover(str))
        service.shutdown()
        errors = TimeoutError("first"), TimeoutError("second")
        for late_stage, error in zip((first, second), errors):
            self.assertTrue(timed._change(FAIL_AS, CLOCK, late_stage, error))
        self.assertIs(both.exception(20), errors[0])


if __name__ == "__main__":
    unittest.main()
