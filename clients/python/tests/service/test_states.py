#!/usr/bin/env python3
"""What does each call come to in each state of its service: while it is open, while it ends, behind its end, behind an
interrupt, in a child of `fork`?

    CF_LIBRARY=/path/to/libcf.so python3 clients/python/tests/service/test_states.py [-v] [TEST ..]
"""
import asyncio
import concurrent.futures
import json
import os
import re
import threading
import unittest

from case import inc, starting, until
from cf.service import Flow, Service

# What each call comes to: a value, or the exception that it raises or that its stage has.
TABLE = """
                                    open            ending          ended           interrupted     forked
supply                              2               RuntimeError    RuntimeError    2               2
submit                              2               RuntimeError    RuntimeError    2               2
then, behind a value                2               RuntimeError    RuntimeError    2               2
compose, behind a value             1               RuntimeError    RuntimeError    1               1
gather, of values                   [1, 1]          RuntimeError    RuntimeError    [1, 1]          [1, 1]
all_of, of values                   None            None            None            None            None
first_of, of values                 1               1               1               1               1
adopt, of a future that is done     1               1               1               1               1
complete, of a promise              1               1               1               1               1
cancel, of a promise                CancelledError  CancelledError  CancelledError  CancelledError  CancelledError
fail, of a promise                  OSError         OSError         OSError         OSError         OSError
or_timeout, of a promise            TimeoutError    TimeoutError    TimeoutError    TimeoutError    TimeoutError
complete_on_timeout, of a promise   5               5               5               5               5
complete, with a function behind    2               2               RuntimeError    2               2
cancel, with a handler behind       told            told            RuntimeError    told            told
a limit, with a handler behind      told            told            RuntimeError    told            told
start, of a flow                    2               2               RuntimeError    2               2
start, of one that waits            2               2               RuntimeError    2               2
result(0), of a promise             TimeoutError    TimeoutError    TimeoutError    TimeoutError    TimeoutError
wait(0), for a promise              1               1               1               1               1
cancel, of what runs                False           False           False           False           False
abandon, of what runs               CancelledError  CancelledError  3               CancelledError  CancelledError
an await of what runs, given up     goes on         goes on         3               goes on         goes on
an await of a promise, given up     cancelled       cancelled       cancelled       cancelled       cancelled
cancel, of a request                CancelledError  CancelledError  CancelledError  CancelledError  CancelledError
history                             True            True            True            True            True
end, of a request                   told once       told once       told once       told once       told once
shutdown                            3               3               3               3               None
shutdown, which cancels             3               3               3               3               None
"""


def told(*_):
    return "told"


def flow_of(begins):
    flow = Flow()
    return flow, begins(flow).then(inc)


def given_up(stage):
    """What becomes of a stage whose `await` is given up, or what it gives at once."""

    async def main():
        task = asyncio.ensure_future(stage)
        await asyncio.sleep(0)
        task.cancel()
        try:
            return await task
        except asyncio.CancelledError:
            return "cancelled" if stage.cancelled() else "goes on"

    return asyncio.run(main())


class Its:
    """A service of one thread, which is in a function until `opens` is set; and calls on it."""

    def __init__(self):
        self.told, self.opens, begun = [], threading.Event(), threading.Event()
        self.service = Service(1, on_end=lambda history: self.told.append(history.name))
        self.request = self.service.request("r")
        self.runs = self.service.submit(lambda: begun.set() or self.opens.wait(20) and 3)
        self.value, self.promise = self.request.promise(), self.request.promise()
        self.value.complete(1)
        self.behind = self.promise.handle(lambda value, error: told() if error else inc(value))
        begun.wait(20)

    def start(self, begins, *given):
        flow, step = flow_of(begins)
        return self.service.start(flow, *given)[step]

    def end(self):
        other = self.service.request("other")
        other.end(), other.end()
        until(lambda: "other" in self.told)
        self.service._works.ends.end_all()
        return ["", "told once"][self.told.count("other")]

    def limit(self):
        passed = threading.Event()
        self.promise.add_done_callback(lambda _: passed.set())  # (by then what is behind it has its turn)
        self.promise.or_timeout(0)
        passed.wait(20)
        return self.behind

    def shutdown(self, **how):
        self.opens.set()
        self.service.shutdown(**how)
        return self.runs.result(0) if self.runs.done() else None

    def close(self):
        self.opens.set()
        self.service.shutdown()

    def calls(self):
        request, value, promise, done = self.request, self.value, self.promise, concurrent.futures.Future()
        done.set_result(1)
        return {
            "supply": lambda: request.supply(inc, 1),
            "submit": lambda: self.service.submit(inc, 1),
            "then, behind a value": lambda: value.then(inc),
            "compose, behind a value": lambda: value.compose(lambda _: value),
            "gather, of values": lambda: request.gather(value, value),
            "all_of, of values": lambda: request.all_of(value),
            "first_of, of values": lambda: request.first_of(value, promise),
            "adopt, of a future that is done": lambda: request.adopt(done),
            "complete, of a promise": lambda: promise.complete(1) and promise,
            "cancel, of a promise": lambda: promise.cancel() and promise,
            "fail, of a promise": lambda: promise.fail(OSError()) and promise,
            "or_timeout, of a promise": lambda: promise.or_timeout(0),
            "complete_on_timeout, of a promise": lambda: promise.complete_on_timeout(5, 0),
            "complete, with a function behind": lambda: promise.complete(1) and self.behind,
            "cancel, with a handler behind": lambda: promise.cancel() and self.behind,
            "a limit, with a handler behind": self.limit,
            "start, of a flow": lambda: self.start(lambda flow: flow.supply(lambda: 1)),
            "start, of one that waits": lambda: self.start(lambda flow: flow.promise(), 1),
            "result(0), of a promise": lambda: promise.result(0),
            "wait(0), for a promise": lambda: len(concurrent.futures.wait([promise, value], 0).not_done),
            "cancel, of what runs": self.runs.cancel,
            "abandon, of what runs": lambda: (self.runs.abandon(), self.runs)[1],
            "an await of what runs, given up": lambda: given_up(self.runs),
            "an await of a promise, given up": lambda: given_up(promise),
            "cancel, of a request": lambda: request.cancel() or promise,
            "history": lambda: "0 promise ends: 1" in str(request.history()) or str(request.history()),
            "end, of a request": self.end,
            "shutdown": self.shutdown,
            "shutdown, which cancels": lambda: self.shutdown(cancel_futures=True),
        }

    def comes_to(self, call):
        """What a call comes to, as a text."""
        try:
            came = self.calls()[call]()
            self.opens.set()
            return str(came.result(20) if isinstance(came, concurrent.futures.Future) else came)
        except BaseException as error:
            return type(error).__name__


def ending(its):
    its.service.shutdown(wait=False)


def ended(its):
    its.opens.set()
    its.service.shutdown()


def interrupted(its):
    """The start of the clock's thread is interrupted, and so is a call that waits."""

    def start(thread, real):
        real(thread)
        raise KeyboardInterrupt

    for call in (lambda: its.request.promise().or_timeout(1000), lambda: its.service.request().promise().or_timeout(900)):
        with starting(start):
            try:
                call()
            except KeyboardInterrupt:
                pass


STATES = {"open": lambda its: None, "ending": ending, "ended": ended, "interrupted": interrupted}


class States(unittest.TestCase):
    maxDiff = None

    def setUp(self):
        head, *rows = TABLE.strip("\n").splitlines()
        self.calls = {row[:36].strip(): dict(zip(head.split(), re.split(r"  +", row[36:].strip()))) for row in rows}

    def compare(self, state, came):
        self.assertEqual(came, {call: wanted[state] for call, wanted in self.calls.items()})

    def test_each_call_in_each_state(self):
        for state, begin in STATES.items():
            with self.subTest(state):
                came = {}
                for call in self.calls:
                    its = Its()
                    begin(its)
                    came[call] = its.comes_to(call)
                    its.close()
                self.compare(state, came)

    @unittest.skipUnless(hasattr(os, "fork"), "no fork")
    def test_each_call_in_a_child(self):
        known = {call: Its() for call in self.calls}
        read, write = os.pipe()
        pid = os.fork()
        if not pid:
            told = "{}"
            try:
                told = json.dumps({call: its.comes_to(call) for call, its in known.items()})
            finally:
                os.write(write, told.encode())
                os._exit(0)
        os.close(write)
        with open(read, "rb") as end:
            came = json.loads(end.read())
        os.waitpid(pid, 0)
        for its in known.values():
            its.close()
        self.compare("forked", came)


if __name__ == "__main__":
    unittest.main()
