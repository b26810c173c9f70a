"""What the tests of cf.service stand on: functions that raise or leave, things that are watched, programs of their own.

They are of the package beside this folder, where the C module was built, or with CF_INSTALLED=1 of the one that is
installed. All of them:

    CF_LIBRARY=/path/to/libcf.so python3 -m unittest discover -s clients/python/tests/service

CF_REQUESTS is how many requests the tests of memory make (20,000), CF_FORKS how often the test of forks does (20).
"""
import contextlib
import faulthandler
import logging
import os
import subprocess
import sys
import textwrap
import threading
import time
import unittest
import unittest.mock
from pathlib import Path

CLIENT = Path(__file__).resolve().parents[2]
if not os.environ.get("CF_INSTALLED"):
    sys.path.insert(0, str(CLIENT))
import cf  # noqa: E402
from cf.service import Service  # noqa: E402

faulthandler.enable()
HEAD = """
import concurrent.futures, gc, os, sys, threading, time, weakref
from cf.service import Flow, LoopService, Request, RequestFull, Service, Stage, _core
import cf
"""


class Oops(Exception):
    pass


class Wild(BaseException):
    pass


def fails(*_):
    raise Oops("x")


def leaves(*_):
    raise SystemExit(3)


def inc(x):
    return x + 1


def until(is_so):
    """Waits until something is so, for at most a minute; whether it is."""
    end = time.monotonic() + 60
    while not is_so() and time.monotonic() < end:
        time.sleep(0.002)
    return is_so()


@contextlib.contextmanager
def starting(start):
    """Calls this in the place of `Thread.start`, for threads of services; it is given the thread and what starts it."""
    real = threading.Thread.start

    def chosen(thread):
        if thread.name.startswith("Service-"):
            start(thread, real)
        else:
            real(thread)

    with unittest.mock.patch.object(threading.Thread, "start", chosen):
        yield


def no_thread(*_):
    raise RuntimeError("can't start new thread")


class Thing:
    """Something of which a test knows whether it is still there. It may be called."""

    def __call__(self, *_, **__):
        return None


def program(text, timeout=100, head=HEAD, **environment):
    """What a program of its own prints, which finds the package. One that doesn't end in time raises."""
    path = "" if os.environ.get("CF_INSTALLED") else f"import sys; sys.path.insert(0, {str(CLIENT)!r})\n"
    done = subprocess.run(
        [sys.executable, "-X", "faulthandler", "-c", path + head + textwrap.dedent(text)],
        stdout=subprocess.PIPE,
        stderr=subprocess.PIPE,
        timeout=timeout,
        universal_newlines=True,
        env=dict(os.environ, **environment),
    )
    return done.stdout, done.stderr, done.returncode


class Case(unittest.TestCase):
    def setUp(self):
        self.service = Service(4)
        self.request = self.service.request("r")

    def tearDown(self):
        self.service.shutdown()


class CoreCase(unittest.TestCase):
    """Of what stands under a request: nothing is logged, and what is written down of a request is compared."""

    def setUp(self):
        logging.disable(logging.CRITICAL)
        self.service = Service(2)
        self.request = self.service.request("r")

    def tearDown(self):
        self.service.shutdown()
        logging.disable(logging.NOTSET)

    def fits(self, request):
        """What is written down of a request is done again by a ledger of its own, which comes to the same."""
        done = [request._stage(number).done() for number in range(request._stages)]
        words, times, names, values, errors = request._facts()
        ledger = cf.Ledger.from_words(cf.Plan(), list(memoryview(bytes(words)).cast("Q")), len(names))
        self.assertEqual((len(bytes(words)), ledger.stages()), (len(bytes(times)), len(names)))
        for number, was_done in enumerate(done):
            is_settled = ledger.stage(number).outcome is not None
            self.assertTrue(was_done <= is_settled <= request._stage(number).done(), number)
