#!/usr/bin/env python3
"""Which requests of a service are open, and why does each wait? Of threads, of a loop, of a flow, and of a child of `fork`.

    CF_LIBRARY=/path/to/libcf.so python3 clients/python/tests/service/test_opened.py [-v] [TEST ..]
"""
import asyncio
import concurrent.futures
import gc
import threading
import time
import unittest

from case import fails, inc, program, until
from cf.service import Flow, LoopService, Request, Service, opened
from cf.testing import orders


def told(waits):
    return [(it.stage, it.name, it.state, it.caller) for it in waits]


class Opened(unittest.TestCase):
    def setUp(self):
        self.go = threading.Event()
        self.service = Service(1)
        self.addCleanup(self.service.shutdown)
        self.addCleanup(self.go.set)

    def blocked(self, request, name="slow"):
        """A stage whose function runs until `go` is set."""
        began = threading.Event()
        stage = request.supply(lambda: (began.set(), self.go.wait(20))).named(name)
        self.assertTrue(began.wait(20))
        return stage

    def test_each_cause_of_a_wait(self):
        request = self.service.request("order 17")
        slow = self.blocked(request)
        queued = request.supply(inc, 1)
        approval = request.promise("approval")
        slow.combine(approval, fails)
        queued.then(inc)
        found = [(0, "slow", "running", "worker 0"), (1, "inc", "ready", ""), (2, "approval", "promise", "")]
        self.assertEqual(told(request.waits()), found)
        self.assertTrue(slow.abandon())  # its function holds the thread all the same
        self.assertEqual(told(request.waits()), [*found[1:], (0, "slow", "late", "worker 0")])
        self.go.set()
        self.assertEqual(queued.result(20), 2)
        self.assertTrue(until(lambda: told(request.waits()) == [(2, "approval", "promise", "")]))
        approval.cancel()
        self.assertEqual((request.waits(), self.service.open_requests()), ([], []))

    def test_for_how_long(self):
        began = time.monotonic()
        request = self.service.request("order 17")
        first = request.promise("first")
        time.sleep(0.05)
        since = time.monotonic()
        self.blocked(first.request)
        time.sleep(0.05)
        promise, slow = request.waits()
        self.assertEqual((promise.name, slow.name), ("first", "slow"))
        self.assertTrue(0.1 <= promise.seconds <= time.monotonic() - began, promise)
        self.assertTrue(0.05 <= slow.seconds <= time.monotonic() - since, slow)

    def test_a_relay_waits_once_its_stage_is_linked(self):
        request, other = self.service.request("order 17"), concurrent.futures.Future()
        first = request.promise("first")
        first.compose(lambda _: other)
        self.assertEqual(told(request.waits()), [(0, "first", "promise", "")])
        first.complete(1)
        self.assertTrue(until(lambda: told(request.waits()) == [(1, "relay of a Future", "promise", "")]))
        other.set_result(2)
        self.assertEqual(request.waits(), [])

    def test_the_requests_of_a_service(self):
        """The one that is open for longest comes first. Those of another service, and those that are over, aren't there."""
        with Service(1) as other:
            elsewhere = other.request("elsewhere")
            elsewhere.promise()
            first, second, over = (self.service.request(name) for name in ("first", "second", "over"))
            first.promise("approval").or_timeout(60)
            self.assertEqual(over.supply(inc, 1).result(20), 2)
            self.blocked(second)
            alone = self.service.submit(inc, 1)
            found = self.service.open_requests()
            self.assertEqual([it.request for it in found[:2]], [first, second])
            self.assertEqual([it.request.name for it in found], ["first", "second", "inc"])
            self.assertEqual([told(it.waits)[0][2] for it in found], ["promise", "running", "ready"])
            self.assertEqual([it.limit is None for it in found], [False, True, True])
            self.assertTrue(50 < found[0].limit <= 60, found[0])
            self.assertTrue(found[0].seconds >= found[1].seconds >= found[2].seconds >= 0)
            elsewhere.cancel()
        self.go.set()
        self.assertEqual(alone.result(20), 2)

    def test_a_stall_reorders_nothing(self):
        """The second of two is looked at long after the first, and is the younger one all the same."""
        first, second = (self.service.request(name) for name in ("first", "second"))
        first.promise(), second.promise()
        looked = [request._look() for request in (first, second)]
        later = [(found, times, now + k * 10**9) for k, (found, times, now) in enumerate(looked)]
        with unittest.mock.patch.object(opened, "requests_of", lambda _: [first, second]):
            with unittest.mock.patch.object(Request, "_look", lambda request: later[request is second]):
                found = self.service.open_requests()
        self.assertEqual([it.request for it in found], [first, second])
        self.assertTrue(found[0].seconds - found[1].seconds < 0.9, found)

    def test_a_line_of_each(self):
        request = self.service.request("order\n17")
        request.promise("approval").or_timeout(60)
        slow = self.blocked(request)
        (line,) = map(str, self.service.open_requests())
        times = r"for \d+\.\d s"
        wanted = rf"order\\n17, open {times}: 0 approval has waited to be settled {times}; 1 slow has run {times}, on worker 0; a limit in \d+\.\d s"
        self.assertRegex(line, f"^{wanted}$")
        slow.abandon()
        self.assertRegex(str(request.waits()[1]), f"^1 slow is settled, and its function has run on {times}, on worker 0$")

    def test_of_a_hooks_service(self):
        """Those that it hasn't told are found without a search."""
        with Service(1, on_end=lambda _: None) as service:
            with service.request("over") as over:
                over.promise().complete(1)
            request = service.request("order 17")
            promise = request.promise()
            with unittest.mock.patch.object(gc, "get_objects", None):
                self.assertEqual([it.request for it in service.open_requests()], [request])
            promise.complete(1)
            self.assertEqual(service.open_requests(), [])

    def test_nothing_is_kept_or_changed(self):
        request = self.service.request("order 17")
        promise = request.promise()
        before = (request._events, gc.get_referrers(promise).__len__())
        for _ in range(3):
            self.service.open_requests(), request.waits()
        self.assertEqual((request._events, gc.get_referrers(promise).__len__()), before)

    def test_of_a_flow(self):
        """Nothing has happened to one that waits for its first promise: nobody knows since when."""
        flow = Flow("order")
        number, approval = flow.promise("number"), flow.promise("approval")
        number.combine(approval, max)
        request = self.service.start(flow, name="order 17")
        self.assertEqual([(it.name, it.seconds) for it in request.waits()], [("number", None), ("approval", None)])
        (it,) = self.service.open_requests()
        self.assertEqual((it.seconds, str(it)), (None, "order 17, open: 0 number has waited to be settled; 1 approval has waited to be settled"))
        request[number].complete(17)
        ((name, seconds),) = [(it.name, it.seconds) for it in request.waits()]
        self.assertEqual(name, "approval")
        self.assertTrue(0 <= seconds < 20)

    def test_one_that_is_being_opened(self):
        half = Request.__new__(Request)
        super(Request, half).__init__(self.service._works, "half", 1)
        del half._plan  # (another thread may look before that is there)
        self.assertEqual(self.service.open_requests(), [])

    def test_on_a_loop(self):
        async def main():
            service = LoopService(asyncio.get_running_loop())
            request = service.request("order 17")
            running = request.supply(asyncio.sleep, 60)
            request.promise("approval").or_timeout(30)
            self.assertEqual(told(request.waits()), [(0, "sleep", "ready", ""), (1, "approval", "promise", "")])
            await asyncio.sleep(0)
            (it,) = service.open_requests()
            self.assertEqual(sorted(told(it.waits)), [(0, "sleep", "running", "worker 0"), (1, "approval", "promise", "")])
            self.assertTrue(20 < it.limit <= 30)
            request.cancel()
            await asyncio.wait([asyncio.ensure_future(running)])
            await asyncio.sleep(0.01)
            self.assertEqual(service.open_requests(), [])

        asyncio.run(main())

    def test_in_a_child_of_fork(self):
        text = """
        service = Service(1)
        go = threading.Event()
        request = service.request("order 17")
        request.promise("approval")
        if not os.fork():
            print(*[(it.name, it.state) for it in request.waits()], len(service.open_requests()))
            sys.exit(0)
        os.wait()
        request.cancel()
        """
        self.assertEqual(program(text), ("('approval', 'promise') 1\n", "", 0))

    def test_in_every_order(self):
        """The kit knows that a look at what is open reads the request."""

        def test(world):
            seen = []
            request = world.service.request("order 17")
            promise = request.adopt(world.arrives(1, "price"))
            request.supply(lambda: seen.append(len(request.waits()))).named("look")
            promise.then(lambda _: None)
            world.at_end(lambda: seen == [2], "the price is always open as the function looks")

        report = orders(test)
        self.assertEqual([failure.why for failure in report.failed], ["the price is always open as the function looks"])


if __name__ == "__main__":
    unittest.main()
