#!/usr/bin/env python3
"""Short random programs over a service: nothing that could go on is left in the end, and no code of a user's begins while
a lock is held.

    CF_LIBRARY=/path/to/libcf.so python3 clients/python/tests/service/test_programs.py [-v] [TEST ..]

One thread does a whole program: it attaches, settles, cancels, lets time pass, awaits, and uses turns, also within a
function or a callback, where other threads would. So a seed gives the same program each time. CF_SEEDS="1000 2000" tries
these seeds, and not the first 60.
"""
import asyncio
import collections
import contextlib
import gc
import logging
import os
import random
import threading
import unittest
import unittest.mock

from case import Oops, Wild
from cf.service import flow as flows, Flow, LoopService, waits
from cf.service.contexts import ContextRequest
from cf.service.ending import EndingRequest, Ends
from cf.service.history import describe_all
from cf.service.request import Request
from cf.service.words import FIRST_WORKER, NEVER

SEEDS = range(*map(int, os.environ.get("CF_SEEDS", "0 60").split()))
STEPS = 40  # of a program
LEAVES = (KeyboardInterrupt, SystemExit, Wild)


class Threads(waits.Primitives):
    """Threads that a program runs when it likes, or when somebody waits for them."""

    def __init__(self):
        self.left = []
        self.thread = lambda target, name, daemon: Thread(self, target)
        self.condition = lambda: Condition(self)


class Thread:
    def __init__(self, threads, target):
        self.threads, self.run = threads, target

    def start(self):
        self.threads.left.append(self)

    def join(self):
        if self in self.threads.left:
            self.threads.left.remove(self)
            self.run()


class Condition(threading.Condition):
    """Whoever waits runs what is left, and no time passes by that."""

    def __init__(self, threads):
        super().__init__()
        self.threads = threads

    def wait(self, timeout=None):
        return False

    def wait_for(self, is_so, timeout=None):
        while not is_so() and self.threads.left:
            self.release()
            self.threads.left.pop().run()
            self.acquire()
        return is_so()


class Works:
    """Those of a service: turns, and a clock. What takes a turn may be interrupted before and behind that."""

    describe, belongs_to_parent = staticmethod(describe_all), True

    def __init__(self, chance, hook):
        self.chance, self.closed, self.turns, self.alarms, self.moment = chance, False, [], {}, 0
        self.ends, self.clock = Ends(hook, "hooks"), self
        self.interrupts = False

    def refusal(self):
        return RuntimeError("nobody runs it")

    def put(self, request):
        self.interrupt()
        if not self.closed:
            self.turns.append(request)
        self.interrupt()
        return not self.closed

    def interrupt(self):
        if self.interrupts and self.chance.random() < 0.1:
            raise KeyboardInterrupt

    def now(self, _request=None):
        return self.moment

    def ask_for_alarm(self, request, moment=None):
        moment = request._moment if moment is None else moment
        self.alarms[request] = min(moment, self.alarms.get(request, moment))
        if moment == NEVER:
            del self.alarms[request]

    def stop(self, stage):
        """(A function on a thread can't be stopped.)"""


class Loop(asyncio.SelectorEventLoop):
    """A loop whose time passes when a program says so, and that never rests."""

    now = 0.0

    def time(self):
        return self.now

    def step(self):
        self.call_soon(self.stop)
        self.run_forever()


class Program:
    """A random program."""

    def __init__(self, seed):
        self.works_threads, self.deepest = Threads(), 3
        self.chance, self.depth, self.told, self.lines = random.Random(seed), 0, [], []
        self.called, self.called_back, self.added, self.why = collections.Counter(), collections.Counter(), 0, []
        self.loop = Loop()
        self.loop.set_exception_handler(lambda *_: None)
        with unittest.mock.patch.object(waits, "primitives", self.works_threads):
            self.works, self.on_loop = Works(self.chance, self.hook), LoopService(self.loop, on_end=self.hook)
        self.requests, self.stages, self.open_ones, self.tasks, self.opened, self.names = [], [], [], [], 0, []

    # What a user's code does.

    def enter(self, what):
        """Code of a user's begins, under no lock."""
        held = {"flows": flows._begins, "a hook": self.works.ends._aside._changed}
        self.why += [f"{what} begins under the lock of {name}" for name, lock in held.items() if lock._is_owned()]

    def hook(self, history):
        self.enter("a hook")
        self.told.append(history.name)
        self.within()

    def function(self):
        number = self.opened = self.opened + 1

        def call(*_):
            self.enter("a function")
            self.called[number] += 1
            self.within()
            if self.chance.random() < 0.2:
                raise self.chance.choice((Oops, *LEAVES))
            return number

        return call

    def composing(self, request):
        call = self.function()

        def compose(*given):
            call(*given)
            other = self.chance.choice([request, self.any_request()])
            return other.supply(self.function()) if self.chance.random() < 0.5 and not other._works.closed else self.promise(other)

        return compose

    def coroutine(self):
        call = self.function()

        async def later(*given):
            call(*given)
            await asyncio.sleep(self.chance.randrange(5))
            return call(*given)

        return later

    def callback(self):
        self.added += 1
        number = self.added
        kind = self.chance.choice((None, None, None, Oops, *LEAVES))

        def call(_stage):
            self.enter("a callback")
            self.called_back[number] += 1
            self.within()
            if kind is not None:
                raise kind

        return call

    def within(self):
        """What a function or a callback does, or another thread meanwhile."""
        if self.depth < self.deepest and self.chance.random() < 0.3:
            self.depth += 1
            try:
                self.step()
            finally:
                self.depth -= 1

    # Steps.

    def any_request(self):
        return self.chance.choice(self.requests)

    def any_stage(self, request=None):
        """One that the program was given."""
        request = request or self.any_request()
        stages = [stage for stage in self.stages if stage.request is request]
        return self.chance.choice(stages) if stages else self.promise(request)

    def promise(self, request):
        stage = request.promise()
        self.open_ones.append(stage)
        self.stages.append(stage)
        return stage

    def opens(self):
        kind = self.chance.choice((Request, ContextRequest, EndingRequest, None))
        self.opened += 1
        name = str(self.opened)
        self.names += [name] * (kind in (EndingRequest, None))
        self.requests.append(self.on_loop.request(name) if kind is None else kind(self.works, name, 2))

    def starts(self):
        self.opened += 1
        flow = Flow(str(self.opened))
        self.names.append(flow.name)
        first = flow.promise()
        steps = [first, flow.supply(self.function()), first.then(self.function())]
        steps.append(flow.all_of(*steps))
        request = flow._start(EndingRequest, self.works, flow.name, None, ())
        self.requests.append(request)
        self.open_ones.append(request[first])
        self.stages += [request[step] for step in steps]

    def attaches(self):
        request = self.any_request()
        stage, other = self.any_stage(request), self.any_stage(None if self.chance.random() < 0.2 else request)
        is_on_loop = request._works is not self.works
        call = self.coroutine() if is_on_loop and self.chance.random() < 0.4 else self.function()
        made = self.chance.choice(
            (
                lambda: request.supply(call),
                lambda: self.promise(request),
                lambda: stage.then(call),
                lambda: stage.handle(call),
                lambda: stage.when_done(call),
                lambda: stage.recover(call),
                lambda: stage.combine(other, call),
                lambda: stage.either(other, call),
                lambda: stage.compose(self.composing(request)),
                lambda: stage.recover_compose(self.composing(request)),
                lambda: request.all_of(stage, other),
                lambda: request.first_of(other, stage),
                lambda: request.gather(stage, other, stage),
                lambda: request.adopt(other),
            )
        )()
        self.stages.append(made)
        if self.chance.random() < 0.3:
            made.add_done_callback(self.callback())

    def settles(self):
        stage = self.chance.choice(self.open_ones) if self.open_ones and self.chance.random() < 0.5 else self.any_stage()
        self.chance.choice(
            (
                lambda: stage.complete(1),
                lambda: stage.fail(Oops()),
                stage.cancel,
                stage.abandon,
                stage.set_running_or_notify_cancel,
                lambda: self.any_request().cancel(),
            )
        )()

    def limits(self):
        stage, seconds = self.any_stage(), self.chance.randrange(-1, 5)
        self.chance.choice((stage.or_timeout, lambda it: stage.complete_on_timeout(1, it)))(seconds)

    def time_passes(self):
        self.works.moment += self.chance.randrange(3) * 10**9
        self.loop.now += self.chance.randrange(3)
        for request, moment in list(self.works.alarms.items()):
            if moment <= self.works.moment:
                del self.works.alarms[request]
                request._ring(self.works.moment)

    def uses_a_turn(self):
        if self.works.turns:
            self.works.turns.pop(self.chance.randrange(len(self.works.turns)))._run(FIRST_WORKER + self.depth)

    def runs_a_thread(self):
        if self.works_threads.left:
            self.works_threads.left.pop().run()

    def loops(self):
        if asyncio._get_running_loop() is None:
            self.loop.step()

    def awaits(self):
        async def waits_for(stage):
            return await stage

        if self.tasks and self.chance.random() < 0.5:
            self.chance.choice(self.tasks).cancel()
        else:
            self.tasks.append(self.loop.create_task(waits_for(self.any_stage())))

    def ends(self):
        request = self.any_request()
        request.end()
        if self.chance.random() < 0.1:
            self.works.closed = True

    def step(self):
        """Does something, which may be interrupted, or refused behind an end."""
        acts = (
            self.opens,
            self.starts,
            *[self.attaches] * 6,
            *[self.settles] * 3,
            self.limits,
            self.time_passes,
            *[self.uses_a_turn] * 4,
            self.runs_a_thread,
            self.loops,
            self.awaits,
            self.ends,
        )
        act = self.chance.choice(acts)
        self.lines.append("    " * self.depth + act.__name__)
        try:
            act()
        except (Oops, RuntimeError, asyncio.CancelledError, *LEAVES) as error:
            self.lines.append("    " * self.depth + f"  raised {error!r}")

    # A whole program.

    def run(self):
        """What is wrong."""
        with unittest.mock.patch.object(waits, "primitives", self.works_threads):
            self.opens()
            self.works.interrupts = True
            for _ in range(STEPS):
                self.step()
            self.works.interrupts = False
            self.comes_to_rest()
            self.judge()
            self.close()
        return self.why

    def comes_to_rest(self):
        """All that is to come from outside comes, and all that goes on by that does."""
        self.deepest = 0
        for _ in range(300):
            seen = (len(self.lines), [request._events for request in self.requests])
            for stage in [it for it in self.open_ones if not it.done()]:
                with contextlib.suppress(*LEAVES):
                    stage.complete(0)
            for act in (self.uses_a_turn, self.runs_a_thread, self.loops, self.time_passes):
                with contextlib.suppress(*LEAVES):
                    act()
            is_quiet = not self.works.turns and not self.works_threads.left and not self.works.alarms
            if (
                is_quiet
                and not self.loop._ready
                and not self.loop._scheduled
                and seen == (len(self.lines), [request._events for request in self.requests])
            ):
                return
        self.why.append("it goes on and on")

    def judge(self):
        for request in self.requests:
            for stage in map(request._stage, range(request._stages)):
                if not stage.name.startswith("relay") and not stage.done():
                    self.why.append(f"{stage.name} ({stage.number}) of {request.name} is left")
        self.why += [f"function {number} was called {many} times" for number, many in self.called.items() if many > 2]
        for number in range(1, self.added + 1):
            if self.called_back[number] != 1:
                self.why.append(f"callback {number} was called {self.called_back[number]} times")
        self.why += [f"{task!r} is left" for task in self.tasks if not task.done()]

    def close(self):
        """Nobody has a request any more, so each is told once."""
        self.deepest = 0
        self.requests, self.stages, self.open_ones = [], [], []
        for task in self.tasks:
            if not task.cancelled():
                task.exception()
        self.tasks = []
        self.loop.close()
        gc.collect()
        while self.works_threads.left:
            self.runs_a_thread()
        self.works.ends.end_all()
        self.on_loop._works.ends.end_all()
        if sorted(self.told) != sorted(self.names):
            self.why.append(f"over are {sorted(self.names)}, and told {sorted(self.told)}")


class Programs(unittest.TestCase):
    def setUp(self):
        logging.disable(logging.CRITICAL)

    def tearDown(self):
        logging.disable(logging.NOTSET)

    def test_nothing_that_could_go_on_is_left(self):
        for seed in SEEDS:
            program = Program(seed)
            self.assertEqual(program.run(), [], f"seed {seed}:\n" + "\n".join(program.lines))


if __name__ == "__main__":
    unittest.main()
