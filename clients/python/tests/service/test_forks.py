#!/usr/bin/env python3
"""Forks: parent and child go on, while threads run functions, wait, change requests, and while a plan is built.

    CF_LIBRARY=/path/to/libcf.so python3 clients/python/tests/service/test_forks.py [-v] [TEST ..]
"""
import os
import unittest

from case import program


@unittest.skipUnless(hasattr(os, "fork"), "no fork")
class Forks(unittest.TestCase):
    @unittest.skipUnless(hasattr(os, "fork"), "no fork")
    def test_fork(self):
        out, err, status = program(
            """
            service = Service(2)
            begun, goes_on = threading.Event(), threading.Event()
            stage = service.submit(lambda: begun.set() or goes_on.wait(60) or os.getpid())
            queued = [service.submit(os.getpid) for _ in range(3)]
            later = service.request().promise().or_timeout(50)
            begun.wait(60)
            child = os.fork()
            if not child:
                mine = service.submit(os.getpid).result(60) == os.getpid()
                late = service.request().promise().complete_on_timeout(1, 0.01).result(60)
                print("child", mine, late, stage.done(), flush=True)
            else:
                os.waitpid(child, 0)
                goes_on.set()
                print("parent", {it.result(60) for it in queued} == {os.getpid()}, stage.result(60), flush=True)
        """
        )
        self.assertEqual((out, status), ("child True 1 False\nparent True True\n", 0), err)

    @unittest.skipUnless(hasattr(os, "fork"), "no fork")
    def test_limits_that_were_set_before(self):
        """They pass in the child once it sets one of the same request, and else in the parent alone."""
        out, err, status = program(
            """
            service = Service(1)
            request, other = service.request(), service.request()
            before, others = request.promise().complete_on_timeout(1, 0.1), other.promise().complete_on_timeout(2, 0.1)
            pid = os.fork()
            if not pid:
                later = request.promise().complete_on_timeout(3, 0.3)
                print(later.result(20), before.result(20), others.done(), flush=True)
                os._exit(0)
            print(os.waitpid(pid, 0)[1], before.result(20), others.result(20), flush=True)
        """
        )
        self.assertEqual((out, status), ("3 1 False\n0 1 2\n", 0), err)

    @unittest.skipUnless(hasattr(os, "fork"), "no fork")
    def test_what_is_ready_is_the_parents(self):
        """A stage of the same request that becomes ready in the child is run there, and what was ready before isn't."""
        out, err, status = program(
            """
            service, goes_on = Service(1), threading.Event()
            request, begun = service.request(), threading.Event()
            first = request.supply(lambda: begun.set() or goes_on.wait(20))
            begun.wait(20)
            promise = request.promise()
            queued, behind = [request.supply(os.getpid) for _ in range(2)], promise.then(lambda _: os.getpid())
            pid = os.fork()
            if not pid:
                promise.complete(1)
                own = request.supply(os.getpid).result(20)
                print(own == behind.result(20) == os.getpid(), [it.done() for it in (first, *queued)], flush=True)
                print(queued[0].cancel(), queued[1].complete(7), queued[1].result(0), flush=True)
                os._exit(0)
            print(os.waitpid(pid, 0)[1], flush=True)
            goes_on.set()
            promise.complete(1)
            print({it.result(20) for it in (*queued, behind)} == {os.getpid()}, flush=True)
        """
        )
        self.assertEqual((out, status), ("True [False, False, False]\nTrue True 7\n0\nTrue\n", 0), err)

    @unittest.skipUnless(hasattr(os, "fork"), "no fork")
    def test_a_flow_goes_on_in_the_child(self):
        out, err, status = program(
            """
            from cf.service import Flow
            flow, child = Flow(), []
            first = flow.supply(lambda: child.append(os.fork()))
            ends = [flow.supply(len, "abc"), first.then(lambda _: 1)]
            request = flow.run()
            told = [request[end].result(0) for end in ends]
            if child[0]:
                os.waitpid(child[0], 0)
            print(told, flush=True)
            if not child[0]:
                os._exit(0)
        """
        )
        self.assertEqual((out, status), ("[3, 1]\n" * 2, 0), err)

    @unittest.skipUnless(hasattr(os, "fork"), "no fork")
    def test_forks_under_load(self):
        """Children go on with requests that the parent's threads were changing, waiting for and reading as it
        forked."""
        out, err, status = program(
            """
            import concurrent.futures, random, signal
            from cf.service import RequestFull
            FORKS, service, over = int(os.environ.get("CF_FORKS", "20")), Service(3), []
            known = [service.request(room=64) for _ in range(6)]
            last = [(request, request.promise()) for request in known]

            def change(k):
                while not over:
                    request, rng = known[k], random.random()
                    try:
                        promise = request.promise()
                        last[k] = (request, promise)
                        behind = [promise.then(lambda x: x), promise.handle(lambda value, error: value)]
                        both = request.all_of(*behind)
                        promise.add_done_callback(lambda _: request.promise())
                        time.sleep(rng / 1000)
                        settles = promise.complete if rng < 0.6 else promise.fail if rng < 0.8 else promise.or_timeout
                        settles(0.001 if rng >= 0.8 else KeyError())
                        both.add_done_callback(lambda _: None)
                    except RequestFull:
                        known[k] = service.request(room=64)
                    if request._stages > 100:
                        known[k] = service.request(room=64)

            def wait_for(k):
                while not over:
                    promise = last[k][1]
                    concurrent.futures.wait([promise, last[k - 1][1]], 0.0002)
                    try:
                        promise.exception(0.0002)
                    except (concurrent.futures.TimeoutError, concurrent.futures.CancelledError):
                        pass
                    known[k].history()
                    time.sleep(0.0005)

            def child():
                told = []
                for request, promise in [*last, *[(request, None) for request in known]]:
                    if promise is not None:
                        promise.done(), promise.running()
                        promise.complete(7)
                        assert not concurrent.futures.wait([promise], 10).not_done
                        assert list(concurrent.futures.as_completed([promise], 10)) == [promise]
                        promise.exception(60)
                        promise.add_done_callback(told.append)
                        assert told.pop() is promise
                    try:
                        mine = request.promise()
                        behind = mine.then(lambda x: x + 1)
                        got = []
                        waits = threading.Thread(target=lambda: got.append(mine.result(60)))
                        waits.start()
                        mine.complete(1)
                        waits.join(60)
                        assert (got, behind.result(60)) == ([1], 2)
                    except RequestFull:
                        pass
                    history = request.history()
                    assert history.report().count("\\n") == len(history.words) + len(history.names)
                assert service.submit(os.getpid).result(60) == os.getpid()

            threads = [threading.Thread(target=each, args=[k], daemon=True)
                       for k in range(6) for each in (change, wait_for)]
            for thread in threads:
                thread.start()
            ends = []
            for _ in range(FORKS):
                time.sleep(random.random() / 200)
                pid = os.fork()
                if not pid:
                    signal.alarm(30)  # ends a child that hangs
                    try:
                        child()
                        os._exit(0)
                    except BaseException:
                        import traceback
                        traceback.print_exc()
                    finally:
                        os._exit(1)
                ends.append(os.waitpid(pid, 0)[1])
                if ends[-1]:
                    break
            over.append(1)
            print(len(ends), set(ends), flush=True)
            os._exit(0)
        """,
            timeout=300,
        )
        self.assertEqual((out, status), (f"{os.environ.get('CF_FORKS', '20')} {{0}}\n", 0), err)

    @unittest.skipUnless(hasattr(os, "fork"), "no fork")
    def test_fork_while_a_thread_has_a_stage(self):
        """A thread of the parent's is within a stage's condition, and another waits for it, as the process forks."""
        out, err, status = program(
            """
            import concurrent.futures, signal
            service, held, goes_on = Service(1), threading.Event(), threading.Event()
            promise = service.request().promise()
            waits = threading.Thread(target=concurrent.futures.wait, args=([promise],), daemon=True)
            waits.start()
            time.sleep(0.1)

            def hold():
                with promise._condition:
                    held.set()
                    goes_on.wait(20)
            threading.Thread(target=hold, daemon=True).start()
            held.wait(60)
            pid = os.fork()
            if not pid:
                signal.alarm(10)  # ends it where it hangs
                promise.complete(1)
                print(promise.result(60), len(concurrent.futures.wait([promise], 5).done), promise.running(), flush=True)
                os._exit(0)
            status = os.waitpid(pid, 0)[1]
            goes_on.set()
            promise.complete(2)
            waits.join(60)
            print(status, promise.result(60), waits.is_alive(), flush=True)
        """
        )
        self.assertEqual((out, status), ("1 1 False\n0 2 False\n", 0), err)

    @unittest.skipUnless(hasattr(os, "fork"), "no fork")
    def test_fork_while_a_plan_is_built(self):
        out, err, status = program(
            """
            import signal
            from cf.service import Flow, flow as flows
            service, entered, PlanCore = Service(1), threading.Event(), flows.PlanCore

            def slowly(rows):
                entered.set()
                time.sleep(0.3)
                return PlanCore(rows)
            flows.PlanCore = slowly
            flow = Flow()
            end = flow.promise().then(str)
            threading.Thread(target=flow.run).start()
            entered.wait(20)
            pid = os.fork()
            if not pid:
                signal.alarm(20)  # ends it where it hangs
                print(service.start(flow, 1)[end].result(60), flush=True)
                os._exit(0)
            print(os.waitpid(pid, 0)[1], flush=True)
        """
        )
        self.assertEqual((out, status), ("1\n0\n", 0), err)


if __name__ == "__main__":
    unittest.main()
