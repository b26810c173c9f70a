#!/usr/bin/env python3
"""Whoever waits in `cf.service` is woken: all of waits.py, in every order of its steps.

    CF_LIBRARY=/path/to/libcf.so python3 clients/python/tests/waits/test_waits.py [-v] [TEST ..]

With CF_STATES=1 each world's states and ends are printed.
"""
import asyncio
import contextlib
import logging
import os
import sys
import unittest
from pathlib import Path

if not os.environ.get("CF_INSTALLED"):
    sys.path.insert(0, str(Path(__file__).resolve().parents[2]))
from cf.service import waits  # noqa: E402
from led import Broken, every_order, look, Looked  # noqa: E402


class Pool(waits.Threads):
    """Threads that write down what they use. A turn that is a function is called, and `begins` by each thread first."""

    closed, broken, _is_full = Looked(), Looked(), Looked()

    def __init__(self, most, begins=lambda: True):
        self._lock, self.used, self.refused, self.begins = None, [], [], begins
        super().__init__(most, "pool")

    def begin(self, number):
        return self.begins()

    def use(self, turn, number):
        if callable(turn):
            turn()
        self.used.append(turn)

    def refuse(self, turns):
        self.refused += turns

    def came_to(self, turn):
        """How often it was used, and how often refused."""
        return self.used.count(turn), self.refused.count(turn)


class Case(unittest.TestCase):
    def setUp(self):
        logging.disable(logging.CRITICAL)

    def tearDown(self):
        logging.disable(logging.NOTSET)

    def in_every_order(self, world, **given):
        states, ends = every_order(world, waits, **given)
        if os.environ.get("CF_STATES"):
            print(f"{states} states, {ends} ends: {self.id().rpartition('.')[2]}", file=sys.stderr)
        self.assertGreater(ends, 0)


def surely(act, caught=None):
    """Does it again where it is interrupted, as the cores do with a turn, and writes that down."""
    try:
        return act()
    except KeyboardInterrupt as interrupt:
        if caught is not None:
            caught.append(type(interrupt))
        return act()


def waiting(led):
    """A function that waits for another one, and that."""
    told, is_told = led.condition(), []

    def first():
        with told:
            told.wait_for(lambda: is_told)

    def last():
        with told:
            is_told.append(1)
            told.notify_all()

    return first, last


class TurnsOfThreads(Case):
    def test_each_turn_is_used_once(self):
        def world(led):
            pool, said = Pool(2), {}
            for turn in "ab":
                led.plays(lambda turn=turn: said.update({turn: pool.put(turn)}))
            led.at_end(lambda: [self.assertEqual((said[turn], pool.came_to(turn)), (True, (1, 0))) for turn in "ab"])

        self.in_every_order(world)

    def closing(self, many, **given):
        def world(led):
            pool, said = Pool(1), {}

            def close():
                pool.close()
                pool.join()
                self.assertEqual(pool._alive, 0)

            for turn in "ab"[:many]:
                led.plays(lambda turn=turn: said.update({turn: pool.put(turn)}))
            led.plays(close)

            def ended():
                for turn in said:
                    self.assertEqual(sum(pool.came_to(turn)), said[turn], turn)

            led.at_end(ended)

        self.in_every_order(world, **given)

    def test_a_turn_that_is_put_meanwhile_is_used_or_refused(self):
        self.closing(2)

    def test_so_it_is_where_a_start_fails(self):
        self.closing(1, fails=2)

    def test_what_was_put_before_is_used(self):
        def world(led):
            pool = Pool(2)

            def ends():
                self.assertTrue(pool.put("a") and pool.put("b"))
                pool.close()
                pool.close()
                pool.join()
                self.assertEqual((pool.came_to("a"), pool.came_to("b")), ((1, 0), (1, 0)))

            led.plays(ends)

        self.in_every_order(world)

    def test_what_a_function_puts_behind_the_end_is_used(self):
        def world(led):
            pool, said = Pool(1), []

            def ends():
                self.assertTrue(pool.put(lambda: said.append(pool.put("behind"))))
                pool.close()
                pool.close()
                pool.join()
                self.assertEqual((said, pool.came_to("behind")), ([True], (1, 0)))

            led.plays(ends)

        self.in_every_order(world)

    def test_a_start_that_fails_is_tried_again(self):
        for most in (1, 2):

            def world(led):
                pool = Pool(most)

                def put():
                    said = [pool.put(turn) for turn in "abc"]
                    pool.close()
                    pool.join()
                    for turn, is_taken in zip("abc", said):
                        self.assertEqual(pool.came_to(turn), (int(is_taken), 0))
                    self.assertGreaterEqual(sum(said), 2)

                led.plays(put)

            self.in_every_order(world, fails=1)

    def test_a_function_may_wait_for_another_one(self):
        """Which needs a thread of its own."""

        def world(led):
            pool, (first, last) = Pool(2), waiting(led)
            led.plays(lambda: pool.put("a"))
            led.plays(lambda: self.assertTrue(pool.put(first) and pool.put(last)))

        self.in_every_order(world)

    def test_so_it_may_where_a_start_failed(self):
        """The next turn has the thread started."""

        def world(led):
            pool, (first, last) = Pool(2), waiting(led)
            led.plays(lambda: [pool.put(turn) for turn in ("a", "b", first, last, "c")])

        self.in_every_order(world, fails=1)

    def test_so_it_may_for_one_that_is_put_behind_the_end(self):
        def world(led):
            pool, (first, last) = Pool(3), waiting(led)

            def ends():
                pool.put("a")
                pool.put(lambda: (pool.put(last), first()))
                pool.close()

            led.plays(ends)

        self.in_every_order(world)

    def test_an_interrupt_loses_no_turn(self):
        for most in (1, 2):

            def world(led):
                pool, said = Pool(most), {}

                def put(turn):
                    said[turn] = surely(lambda: pool.put(turn))

                def ends():
                    put("a")
                    surely(pool.close)
                    surely(pool.join)

                led.plays(ends)

                def ended():
                    used, refused = pool.came_to("a")
                    self.assertTrue(used >= 1 if said["a"] else not used, (used, refused))
                    self.assertTrue(all(player.is_done for player in led.players))

                led.at_end(ended)

            self.in_every_order(world, interrupts=1)
            self.in_every_order(world, interrupts=1, fails=1)

    def test_an_interrupt_starts_no_thread_too_few(self):
        def world(led):
            pool = Pool(1)

            def put():
                surely(lambda: pool.put("a"))
                self.assertTrue(surely(lambda: pool.put("b")))

            led.plays(put)
            led.at_end(lambda: self.assertTrue(min(pool.came_to("a")[0], pool.came_to("b")[0]) >= 1))

        self.in_every_order(world, interrupts=1)

    def test_what_is_collected_meanwhile_may_put_turns(self):
        for most in (1, 2):

            def world(led):
                pool, said = Pool(most), {}

                def put(turn):
                    said[turn] = pool.put(turn)

                def ends():
                    put("a")
                    pool.close()
                    pool.join()

                led.plays(ends)
                led.drops(lambda: put("dropped"))

                def ended():
                    self.assertEqual(pool.came_to("a"), (1, 0))
                    self.assertEqual(sum(pool.came_to("dropped")), said.get("dropped", 0))

                led.at_end(ended)

            self.in_every_order(world)

    def test_a_thread_that_cannot_begin_breaks_the_pool(self):
        def world(led):
            begun, pool, said = [], None, {}

            def begins():
                begun.append(1)
                return len(begun) == 1

            pool = Pool(2, begins)

            def put(turn):
                said[turn] = pool.put(turn)

            led.plays(lambda: put("a"))
            led.plays(lambda: put("b"))

            def ended():
                for turn in "ab":
                    self.assertEqual(sum(pool.came_to(turn)), said[turn])
                self.assertEqual(pool.broken, len(begun) > 1)

            led.at_end(ended)

        self.in_every_order(world)

    def test_turns_are_taken_back_once(self):
        def world(led):
            pool, back, said = Pool(1), [], {}

            def ends():
                pool.close()
                back.extend(pool.take_turns_back())
                pool.join()

            led.plays(lambda: said.update(a=pool.put("a")))
            led.plays(ends)
            led.at_end(lambda: self.assertEqual(sum(pool.came_to("a")) + back.count("a"), said["a"]))

        self.in_every_order(world)


class Limits(dict):
    """Others may come as soon as somebody has looked whether there are any."""

    def __bool__(self):
        are_some = len(self) > 0
        look("limits")
        return are_some


class Limited:
    """A request that only has limits, by their moments. What is over is taken out as it is rung."""

    def __init__(self, clock):
        self.clock, self._limits, self.rung = clock, Limits(), []

    @property
    def _moment(self):
        return min(self._limits, default=waits.NEVER) if self._limits else waits.NEVER

    def limit(self, moment):
        self.clock.ask_for_alarm(self, moment)
        self._limits[moment] = True
        self.clock.ask_for_alarm(self)

    def settle(self, moment):
        if self._limits.pop(moment, None):
            self.clock.ask_for_alarm(self)

    def _ring(self, now):
        for moment in sorted(self._limits):
            if moment <= now:
                del self._limits[moment]
                self.rung.append(moment)
        self.clock.ask_for_alarm(self)


class LedClock(waits.Clock):
    _wanted = Looked()

    def __init__(self):
        super().__init__("clock")

    def _reset(self):
        self._lock = None
        super()._reset()
        self._lock = self._changed.lock


class Times(Case):
    def test_of_two_limits_each_comes(self):
        def world(led):
            clock = LedClock()
            request = Limited(clock)
            led.plays(lambda: request.limit(20))
            led.plays(lambda: request.limit(10))
            led.at_end(lambda: self.assertEqual(sorted(request.rung), [10, 20]))

        self.in_every_order(world)

    def test_of_two_requests_each_limit_comes(self):
        def world(led):
            clock = LedClock()
            request, other = Limited(clock), Limited(clock)
            led.plays(lambda: request.limit(20))
            led.plays(lambda: other.limit(15))
            led.at_end(lambda: self.assertEqual((request.rung, other.rung), ([20], [15])))

        self.in_every_order(world)

    def test_a_limit_that_is_set_while_another_one_comes(self):
        def world(led):
            clock = LedClock()
            request = Limited(clock)

            def limits():
                request.limit(10)
                request.limit(5)
                request.limit(30)

            led.plays(limits)
            led.at_end(lambda: self.assertEqual(sorted(request.rung), [5, 10, 30]))

        self.in_every_order(world)

    def test_a_limit_that_is_not_needed_holds_up_no_other(self):
        def world(led):
            clock = LedClock()
            request = Limited(clock)

            def settled():
                request.limit(10)
                request.settle(10)

            led.plays(settled)
            led.plays(lambda: request.limit(20))
            led.at_end(lambda: self.assertEqual((sorted(request.rung) in ([20], [10, 20]), dict(request._limits)), (True, {})))

        self.in_every_order(world)

    def test_behind_it_the_first_of_several_is_asked_for(self):
        def world(led):
            clock, led.horizon = LedClock(), 15
            request = Limited(clock)

            def settled():
                request.limit(10)
                request.settle(10)

            led.plays(settled)
            led.plays(lambda: (request.limit(20), request.limit(30)))

            def ended():
                moment, number = request._alarm
                self.assertEqual((moment, number in clock._wanted, set(request._limits)), (20, True, {20, 30}))

            led.at_end(ended)

        self.in_every_order(world)

    def test_a_start_that_fails_is_tried_again(self):
        def world(led):
            clock = LedClock()
            request, other = Limited(clock), Limited(clock)

            def limits():
                for one, moment in ((request, 10), (other, 20)):
                    with contextlib.suppress(RuntimeError):
                        one.limit(moment)
                try:
                    other.limit(30)
                except RuntimeError:
                    other.limit(30)

            led.plays(limits)
            led.at_end(lambda: self.assertEqual((request._limits, other._limits, 30 in other.rung), ({}, {}, True)))

        self.in_every_order(world, fails=1)

    def test_an_interrupt_leaves_a_clock_that_goes(self):
        def world(led):
            clock = LedClock()
            request, other = Limited(clock), Limited(clock)

            def limits():
                try:
                    request.limit(10)
                except KeyboardInterrupt:
                    request._limits.clear()
                surely(lambda: other.limit(20))

            led.plays(limits)
            led.at_end(lambda: self.assertEqual((request._limits, set(other.rung)), ({}, {20})))

        self.in_every_order(world, interrupts=1)

    def test_what_is_collected_meanwhile_may_set_limits(self):
        def world(led):
            clock = LedClock()
            request, dropped = Limited(clock), Limited(clock)
            led.plays(lambda: request.limit(10))
            led.drops(lambda: dropped.limit(5))
            led.at_end(lambda: self.assertEqual((request.rung, dropped._limits), ([10], {})))

        self.in_every_order(world)

    def test_the_end_waits_for_no_limit(self):
        def world(led):
            clock, led.horizon = LedClock(), 100
            request = Limited(clock)

            def limits():
                request.limit(10)
                request.limit(1000)

            led.plays(limits)
            led.plays(clock.end)

        self.in_every_order(world)


class Hooks(Case):
    def world(self, led, many=2, seconds=30.0, most=8, do=lambda done, it: done.append(it)):
        aside, done, lost, said, caught = waits.Aside("aside", most), [], [], [], []

        def ends():
            for k in range(many):
                surely(lambda k=k: aside.put(lambda: do(done, k), lambda: lost.append(k)), caught)
            said.append(surely(lambda: aside.wait(seconds), caught))

        led.plays(ends)
        return aside, done, lost, said, caught

    def test_all_is_done_before_the_end_and_one_after_another(self):
        def do(done, it):
            done.append("begun")
            look("done")
            self.assertEqual(done.pop(), "begun")
            done.append(it)

        for given in ({}, {"fails": 1}, {"fails": 2}):

            def world(led):
                aside, done, lost, said, _ = self.world(led, do=do)
                led.plays(lambda: aside.put(lambda: do(done, "other"), None))

                def ended():
                    if said == [True] and "other" in done:
                        self.assertEqual(sorted(map(str, done)), ["0", "1", "other"])

                led.at_end(ended)

            self.in_every_order(world, **given)

    def test_an_interrupt_loses_nothing(self):
        """It comes to who called, also as a thread is started."""

        def world(led):
            aside, done, lost, said, caught = self.world(led)

            def ended():
                self.assertTrue(said == [False] or {0, 1} <= set(done), (said, done))
                self.assertEqual(led.interrupts + len(caught), 1)

            led.at_end(ended)

        self.in_every_order(world, interrupts=1)

    def test_too_many_are_told_once(self):
        def world(led):
            aside, done, lost, _, _ = self.world(led, 3, 30.0, 1)
            led.at_end(lambda: self.assertTrue(len(done) + len(lost) >= 2 and len(done) >= 1 and len(lost) <= 1, done))

        self.in_every_order(world)


class Future(waits.AwaitedFuture):
    """A stage as the C module has it: it is settled first, and shown then."""

    def __init__(self, led):
        self._condition, self._waiters, self._told, self._ended, self._shown = led.condition(), [], 0, waits.VALUE, False

    def show(self):
        while not self._shown:
            try:
                self._show()
            except KeyboardInterrupt:
                pass


class Told:
    def __init__(self):
        self.told = []

    def add_result(self, future):
        self.told.append(future)


class WaitsForStages(Case):
    def test_all_who_wait_are_woken(self):
        def world(led):
            stage, told, woken = Future(led), Told(), []

            def waits_long():
                stage._wait(None)
                woken.append(stage._shown)

            def waits_by_a_waiter():
                with stage._condition:
                    if not stage._shown:
                        stage._waiters.append(told)

            led.plays(waits_long)
            led.plays(lambda: (stage._wait(1), stage._wait(None)))
            led.plays(waits_by_a_waiter)
            led.plays(stage.show)

            def ended():
                self.assertEqual((woken, len(told.told)), ([True], len(stage._waiters)))

            led.at_end(ended)

        self.in_every_order(world)

    def test_an_interrupt_keeps_the_end_from_nobody(self):
        def world(led):
            stage, told = Future(led), Told()
            stage._waiters.append(told)

            def waits_long():
                try:
                    stage._wait(None)
                except KeyboardInterrupt:
                    stage._wait(None)

            led.plays(waits_long)
            led.plays(lambda: stage._wait(None), is_main=False)
            led.plays(stage.show)
            led.at_end(lambda: self.assertEqual(len(told.told), 1))

        self.in_every_order(world, interrupts=1)


class Timer:
    def __init__(self, loop, moment, act, given):
        self.loop, self.moment, self.act, self.given = loop, moment, act, given

    def when(self):
        return self.moment

    def cancel(self):
        self.loop.timers.remove(self)


class Loop:
    """An event loop, which one thread of a world runs."""

    def __init__(self, led):
        self.led, self.calls, self.timers, self.is_shut = led, [], [], False

    def is_closed(self):
        return self.is_shut

    def time(self):
        return self.led.time / 1e9

    def call_soon_threadsafe(self, act, *given):
        self.led.step("call", self)
        if self.is_shut:
            raise RuntimeError("Event loop is closed")
        self.calls.append((act, given))

    def call_soon(self, act, *given):
        self.calls.append((act, given))

    def call_at(self, moment, act, *given):
        self.timers.append(Timer(self, moment, act, given))
        return self.timers[-1]

    def run(self):
        asyncio._set_running_loop(self)
        try:
            while not self.is_shut:
                way = self.led.step("rest", self, lambda: self.calls, lambda: self.timers, rests=True)
                if way == "goes on":
                    act, given = self.calls.pop(0)
                else:
                    first = min(self.timers, key=Timer.when)
                    self.timers.remove(first)
                    self.led.time = max(self.led.time, round(first.moment * 1e9))
                    act, given = first.act, first.given
                act(*given)
        finally:
            asyncio._set_running_loop(None)

    def close(self):
        self.is_shut = True


class LedWakes(waits.LoopWaker):
    """Those of a loop that writes down which turns it uses. A function is called, and may leave the loop."""

    _is_woken, _lock = Looked(), None

    def __init__(self, loop):
        super().__init__(loop)
        self._lock, self.used = loop.led.lock(), []

    def use(self, turn):
        self.used.append(turn)
        if callable(turn):
            turn()


class Loops(Case):
    def test_each_turn_is_used_once(self):
        def world(led):
            loop = Loop(led)
            wakes = LedWakes(loop)
            led.plays(loop.run, is_main=False)
            led.plays(lambda: self.assertTrue(wakes.put("a") and wakes.put("b")))
            led.plays(lambda: self.assertTrue(wakes.put("c")))
            led.at_end(lambda: self.assertEqual(sorted(wakes.used), ["a", "b", "c"]))

        self.in_every_order(world)

    def test_none_is_lost_by_an_interrupt_or_what_leaves_the_loop(self):
        def world(led):
            loop = Loop(led)
            wakes = LedWakes(loop)

            def leaves():
                raise KeyboardInterrupt

            def runs():
                try:
                    loop.run()
                except KeyboardInterrupt:
                    loop.run()

            led.plays(runs, is_main=False)
            led.plays(lambda: (surely(lambda: wakes.put(leaves)), surely(lambda: wakes.put("a"))))
            led.plays(lambda: wakes.put("b"), is_main=False)
            led.at_end(lambda: self.assertTrue({"a", "b"} <= set(map(str, wakes.used))))

        self.in_every_order(world)
        self.in_every_order(lambda led: self.interrupted(led), interrupts=1)

    def interrupted(self, led):
        loop = Loop(led)
        wakes = LedWakes(loop)
        led.plays(loop.run, is_main=False)
        led.plays(lambda: surely(lambda: wakes.put("a")))
        led.plays(lambda: wakes.put("b"), is_main=False)
        led.at_end(lambda: self.assertTrue({"a", "b"} <= set(wakes.used)))

    def test_what_comes_behind_the_end_of_a_loop_is_refused(self):
        def world(led):
            loop, said = Loop(led), []
            wakes = LedWakes(loop)
            led.plays(loop.run, is_main=False)
            led.plays(lambda: wakes.put("a"))
            led.plays(lambda: (wakes._soon(loop.close), said.append(loop.is_shut), said.append(wakes.put("b"))))

            def ended():
                self.assertTrue(said[1] or said[0] or loop.is_shut)
                self.assertTrue(not said[0] or not said[1])

            led.at_end(ended)

        self.in_every_order(world)

    def test_each_limit_comes(self):
        def world(led):
            loop = Loop(led)
            wakes = waits.LoopWaker(loop)
            request = Limited(wakes)
            led.plays(loop.run, is_main=False)
            led.plays(lambda: request.limit(3000))
            led.plays(lambda: (request.limit(1500), request.settle(1500)))

            def ended():
                self.assertEqual((sorted(request.rung) in ([3000], [1500, 3000]), dict(request._limits), loop.timers), (True, {}, []))

            led.at_end(ended)

        self.in_every_order(world)


class Searches(Case):
    def test_no_end_is_lost_as_states_are_met_again(self):
        """The ends are those of all orders, of which many lead through one state."""

        def world(led):
            pool, said = Pool(1), {}

            def ended():
                self.told.add((said["a"], pool.came_to("a")))

            led.plays(lambda: said.update(a=pool.put("a")))
            led.plays(pool.close)
            led.at_end(ended)

        ends = []
        for matches in (True, False):
            self.told = set()
            self.in_every_order(world, matches=matches)
            ends.append(self.told)
        self.assertEqual(ends[0], ends[1])
        self.assertGreater(len(self.told), 1)

    def test_what_is_wrong_is_found(self):
        def two_locks(led):
            one, other = led.lock(), led.lock()

            def takes(first, second):
                with first, second:
                    pass

            led.plays(lambda: takes(one, other))
            led.plays(lambda: takes(other, one))

        def lost_wake(led):
            condition, is_so = led.condition(), []

            def waits_for_it():
                if not is_so:
                    with condition:
                        condition.wait()

            def wakes():
                is_so.append(1)
                with condition:
                    condition.notify()

            led.plays(waits_for_it)
            led.plays(wakes)

        def spins(led):
            turns = led.queue()

            def turn():
                while True:
                    turns.put(turns.get())

            turns.items.append(1)
            led.plays(turn)

        for world, what in ((two_locks, "for good rests"), (lost_wake, "for good rests"), (spins, "it spins")):
            with self.assertRaisesRegex(Broken, what):
                every_order(world, waits)


if __name__ == "__main__":
    unittest.main()
