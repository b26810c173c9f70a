#!/usr/bin/env python3
"""Interrupts, exits and other exceptions of any kind, and the end of the stack: of functions, of who waits, in the
midst of a call.

    CF_LIBRARY=/path/to/libcf.so python3 clients/python/tests/service/test_interrupts.py [-v] [TEST ..]
"""
import signal
import sys
import unittest

from case import Case, CoreCase, leaves, program, Wild
from cf.service import Request


class Interrupts(Case):
    def test_base_exceptions_of_functions(self):
        for kind in (KeyboardInterrupt, SystemExit, Wild, GeneratorExit):

            def raises(*_):
                raise kind("y")

            self.assertIsInstance(self.service.submit(raises).exception(60), kind)
            self.assertIsInstance(self.request.supply(str).compose(raises).exception(60), kind)
        self.assertEqual(self.service.submit(str, 1).result(60), "1")

    @unittest.skipUnless(hasattr(signal, "SIGINT"), "no signals")
    def test_interrupt_of_who_waits(self):
        out, err, status = program(
            """
            import signal
            # (where this was begun in the background, it is ignored)
            signal.signal(signal.SIGINT, signal.default_int_handler)
            with Service(2) as service:
                promise = service.request().promise()
                behind = promise.then(lambda x: x + 1)
                threading.Timer(0.2, lambda: os.kill(os.getpid(), signal.SIGINT)).start()
                try:
                    promise.result(20)
                except KeyboardInterrupt:
                    print("interrupted", promise.done())
                promise.complete(1)
                print(behind.result(60))
        """
        )
        self.assertEqual((out, status), ("interrupted False\n2\n", 0), err)

    def test_interrupts_lose_nothing(self):
        """The main thread is interrupted at any point while it attaches and completes; each stage that it was given
        is settled."""
        out, err, status = program(
            """
            import random, signal
            seen, lost = 0, 0
            with Service(2) as service:
                def interrupt():
                    while not over:
                        time.sleep(random.random() / 500)
                        os.kill(os.getpid(), signal.SIGINT)
                over = []
                signal.signal(signal.SIGINT, signal.SIG_IGN)
                thread = threading.Thread(target=interrupt, daemon=True)
                thread.start()
                end = time.monotonic() + 2
                while time.monotonic() < end:
                    promise = service.request().promise()
                    behind = promise.then(lambda x: x)
                    try:
                        try:
                            signal.signal(signal.SIGINT, signal.default_int_handler)
                            promise.complete(1)
                            while True:
                                promise.complete(2)
                        finally:
                            signal.signal(signal.SIGINT, signal.SIG_IGN)
                    except KeyboardInterrupt:
                        signal.signal(signal.SIGINT, signal.SIG_IGN)  # (which may have been interrupted itself)
                        seen += 1
                    promise.complete(3)
                    lost += behind.result(60) not in (1, 2, 3)
                over.append(1)
                thread.join()
            print(seen > 20, lost)
        """
        )
        self.assertEqual((out, status), ("True 0\n", 0), err)


class InterruptsOfCores(CoreCase):
    """The stack may be as deep afterwards as before."""

    def setUp(self):
        super().setUp()
        self.depth = sys.getrecursionlimit()

    def tearDown(self):
        super().tearDown()
        self.assertEqual(sys.getrecursionlimit(), self.depth)

    def test_a_put_that_raises_is_done_again(self):
        class Interrupted:
            closed, clock = False, None

            def __init__(self, most):
                self.calls, self.taken, self.most = 0, [], most

            def refusal(self):
                return RuntimeError("nobody")

            def put(self, request):
                self.calls += 1
                if self.calls % 2:
                    raise KeyboardInterrupt
                self.taken.append(request)
                return len(self.taken) <= self.most

        for most, taken, is_done in ((3, 3, False), (1, 2, True), (0, 1, True)):
            interrupted = Interrupted(most)
            of_interrupted = Request(interrupted, "r", 8)
            before_interrupt = of_interrupted.promise()
            ends = [before_interrupt.then(str) for _ in range(3)]
            with self.assertRaises(KeyboardInterrupt):
                before_interrupt.complete(1)
            self.assertEqual((interrupted.taken, [it.done() for it in ends]), ([of_interrupted] * taken, [is_done] * 3))
            if is_done:
                self.assertEqual({str(it.exception(0)) for it in ends}, {"nobody"})
            else:
                of_interrupted._run(3)
                self.assertEqual((len(interrupted.taken), [it.done() for it in ends]), (3, [True, False, False]))

    def test_puts_that_fail_are_made_up_for(self):
        """A turn that couldn't be given is given with the next one."""

        class Failing:
            closed, clock, fails, taken = False, None, True, 0

            def put(self, _):
                if self.fails:
                    raise MemoryError
                self.taken += 1
                return True

        failing = Failing()
        request = Request(failing, "r", 8)
        with self.assertRaises(MemoryError):
            request.supply(str)
        failing.fails = False
        request.supply(str)
        self.assertEqual(failing.taken, 2)

    def test_a_callback_that_leaves_takes_no_turn_with_it(self):
        """A composing stage ends just behind a change whose turn couldn't be given, so its thread has that turn; and a
        callback of the stage leaves."""

        class Taking:
            closed, clock, fails = False, None, False

            def __init__(self):
                self.taken = []

            def put(self, request):
                if self.fails:
                    raise MemoryError
                self.taken.append(request)
                return True

        taking = Taking()
        request = Request(taking, "r", 8)
        late = request.promise()
        behind = late.then(str)

        def composes(_):
            made = request.promise()
            made.complete(1)
            taking.fails = True
            with self.assertRaises(MemoryError):
                late.complete(None)
            taking.fails = False
            return made

        composed = request.supply(str).compose(composes)
        composed.add_done_callback(leaves)
        with self.assertRaises(SystemExit):
            while taking.taken:
                taking.taken.pop()._run(3)
        self.assertEqual((late.done(), composed.result(0), len(taking.taken)), (True, 1, 1))
        taking.taken.pop()._run(3)
        self.assertEqual(behind.result(0), "None")

    def test_a_function_whose_arguments_raise(self):
        """Its stage ends with that, as with what the function itself raises."""

        class Own(Request):
            @staticmethod
            def _default_error(kind):
                raise KeyboardInterrupt

        before_interrupt = Own(self.service._works, "r", 4).promise()
        behind = before_interrupt.handle(lambda value, error: error)
        before_interrupt.cancel()
        self.assertIsInstance(behind.exception(20), KeyboardInterrupt)

    def test_at_the_end_of_the_stack(self):
        """A stage is settled where Python's stack has no room left: who waits for it wakes, and what is behind it
        runs."""
        out, err, status = program(
            """
            import concurrent.futures
            service, told = Service(1), []
            service.submit(abs, 1).result(60)
            promises = [service.request().promise() for _ in range(60)]
            behind = [promise.then(abs) for promise in promises]
            threads = [threading.Thread(target=lambda it=it: told.append(it.result(20)), daemon=True)
                       for it in promises[::2]]
            waits = threading.Thread(target=lambda: told.append(len(concurrent.futures.wait(promises, 20).done)),
                                     daemon=True)
            for thread in (*threads, waits):
                thread.start()
            while not all(it._condition._waiters for it in promises[::2]) or not all(it._waiters for it in promises):
                time.sleep(0.001)
            left = list(promises)

            def deeper():
                try:
                    deeper()
                except RecursionError:
                    pass
                if left:
                    try:
                        left[-1].complete(-1)
                    except RecursionError:
                        pass
                    if left[-1].done():
                        left.pop()
            deeper()
            for thread in (*threads, waits):
                thread.join(20)
            print(len(left), len(told), [it.result(20) for it in behind] == [1] * 60, sys.getrecursionlimit())
        """
        )
        self.assertEqual((out, status), ("0 31 True 1000\n", 0), err)


if __name__ == "__main__":
    unittest.main()
