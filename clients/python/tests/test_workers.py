#!/usr/bin/env python3
"""Workers, which call the functions of a desk on threads: one whose function raises goes on, and one may not start.

    CF_LIBRARY=/path/to/libcf.so python3 clients/python/tests/test_workers.py [-v] [TEST ..]
"""
import os
import sys
import threading
import time
import unittest
import unittest.mock
from pathlib import Path

if not os.environ.get("CF_INSTALLED"):
    sys.path.insert(0, str(Path(__file__).resolve().parents[1]))
import cf  # noqa: E402


class Workers(unittest.TestCase):
    def test_workers_of_a_desk_outlive_functions(self):
        """One exits, one throws, and one raises: the stages behind them are done, and the threads go on."""

        def throws():
            raise cf.Thrown(7)

        def raises():
            raise KeyError("x")

        plan = cf.Plan()
        stages = [plan.stage(cf.Form.SUPPLY, function=number) for number in range(4)]
        desk = plan.open_desk(callers=2, log=40, calls=40)
        functions = [lambda: sys.exit(3), throws, raises, lambda: 5]
        with cf.Workers(desk.callers[1:], functions, code=3) as workers:
            end = time.monotonic() + 20
            while desk.callers[0].read(stages[3]) is None and time.monotonic() < end:
                time.sleep(0.002)
        self.assertIsNotNone(desk.callers[0].read(stages[3]))
        self.assertEqual([(number, type(error)) for number, error in workers.errors], [(0, SystemExit), (2, KeyError)])
        self.assertEqual([str(desk.callers[0].read(stage).fault) for stage in stages[:3]], ["thrown 3", "thrown 7", "thrown 3"])

    def test_a_worker_rests_while_nothing_is_ready(self):
        plan = cf.Plan()
        plan.stage(cf.Form.SOURCE)
        looks, real = [], cf.Caller.work
        with unittest.mock.patch.object(cf.Caller, "work", lambda caller, functions: looks.append(caller) or real(caller, functions)):
            with cf.Workers(plan.open_desk(callers=2, log=4, calls=4).callers[1:], [], pause=100):
                end = time.monotonic() + 20
                while not looks and time.monotonic() < end:
                    time.sleep(0.002)
                time.sleep(0.02)
                self.assertEqual(len(looks), 1)
        self.assertEqual(len(looks), 2)  # and once more as they end

    def test_workers_of_which_one_does_not_start(self):
        plan = cf.Plan()
        plan.stage(cf.Form.SOURCE)
        workers = cf.Workers(plan.open_desk(callers=3, log=4, calls=4).callers[1:], [])
        begun, real = [], threading.Thread.start

        def start(thread):
            if begun:
                raise RuntimeError("can't start new thread")
            begun.append(thread)
            real(thread)

        with unittest.mock.patch.object(threading.Thread, "start", start), self.assertRaises(RuntimeError):
            workers.start()
        begun[0].join(20)
        self.assertFalse(begun[0].is_alive())


if __name__ == "__main__":
    unittest.main()
