#!/usr/bin/env python3
"""When is a request over, who is told, and what becomes of a hook that raises, is slow, or comes too late?

    CF_LIBRARY=/path/to/libcf.so python3 clients/python/tests/service/test_ends.py [-v] [TEST ..]
"""
import asyncio
import contextvars
import gc
import logging
import threading
import unittest
import unittest.mock

from case import fails, inc, no_thread, program, starting, until, Wild
from cf.service import describe_types, ending, Flow, LoopService, Service, waits

tenant = contextvars.ContextVar("tenant", default="-")


class Ends(unittest.TestCase):
    def setUp(self):
        self.told = []
        self.service = Service(2, on_end=self.told.append)

    def tearDown(self):
        self.service.shutdown()

    def names(self, *names):
        """The hook is told of these, and of no more."""
        self.assertTrue(until(lambda: len(self.told) >= len(names)))
        self.service._works.ends.end_all()
        self.assertEqual(sorted(history.name for history in self.told), sorted(names))

    def test_a_request_that_is_ended_is_told_once(self):
        with self.service.request("a") as request:
            stage = request.supply(inc, 1).then(inc)
        self.assertEqual(stage.result(20), 3)
        request.end()
        del request, stage
        gc.collect()
        self.names("a")
        self.assertIn("1 inc ends: 3", str(self.told[0]))

    def test_it_is_told_once_all_is_settled(self):
        with self.service.request("a") as request:
            promises = [request.promise() for _ in range(3)]
        self.assertFalse(until_soon(lambda: self.told))
        for promise in promises:
            promise.complete(1)
        self.names("a")
        self.assertEqual(str(self.told[0]).count("ends: 1"), 3)

    def test_a_composing_function_that_is_not_called_holds_nothing_up(self):
        """Its relay stays open. One whose function was called waits for what that gave."""
        with self.service.request("failed") as failed:
            promise = failed.promise()
            promise.compose(fails)
            promise.fail(OSError())
        with self.service.request("cancelled") as cancelled:
            self.assertTrue(cancelled.promise().compose(fails).abandon())
            cancelled._stage(0).complete(1)
        other = self.service.request("other").promise()
        with self.service.request("linked") as linked:
            linked.supply(inc, 1).compose(lambda _: other)
        self.assertTrue(until(lambda: len(self.told) == 2))
        self.assertEqual(sorted(history.name for history in self.told), ["cancelled", "failed"])
        self.assertFalse(until_soon(lambda: len(self.told) > 2))
        other.complete(1)
        self.assertTrue(until(lambda: [history.name for history in self.told][2:] == ["linked"]))

    def test_one_that_nobody_has_is_told(self):
        request = self.service.request("a")
        request.promise()
        self.assertEqual(request.supply(inc, 1).result(20), 2)
        del request
        self.assertEqual(self.service.submit(inc, 1).result(20), 2)
        flow = Flow("f")
        flow.supply(fails)
        self.service.start(flow, name="of a flow")
        self.assertTrue(until(lambda: gc.collect() >= 0 and len(self.told) == 3))
        self.assertEqual(sorted(history.name for history in self.told), ["a", "inc", "of a flow"])

    def test_shutdown_tells_what_is_open(self):
        kept = [self.service.request(str(k)) for k in range(3)]
        kept[0].promise()
        self.service.shutdown()
        self.assertEqual(sorted(history.name for history in self.told), ["0", "1", "2"])

    def test_a_hook_has_the_context_of_where_the_request_was_opened(self):
        seen = []
        with Service(1, on_end=lambda _: seen.append(tenant.get())) as service:
            context = contextvars.copy_context()
            context.run(tenant.set, "opener")
            with context.run(service.request) as request:
                stages = [request.supply(tenant.get), context.run(request.supply, tenant.get)]
            self.assertEqual([stage.result(20) for stage in stages], ["-", "opener"])
        self.assertEqual(seen, ["opener"])

    def test_a_hook_that_raises_is_logged_and_breaks_nothing(self):
        def hook(history):
            seen.append(history.name)
            raise (Wild if len(seen) == 1 else OSError)("no exporter")

        seen = []
        with self.assertLogs("concurrent.futures", logging.WARNING) as logs:
            with Service(1, on_end=hook) as service:
                for name in "ab":
                    with service.request(name) as request:
                        self.assertEqual(request.supply(inc, 1).result(20), 2)
        self.assertEqual((seen, len(logs.records)), (["a", "b"], 2))

    def test_a_slow_hook_holds_up_nothing_and_is_told_of_so_many(self):
        gate, seen = threading.Event(), []

        def hook(history):
            gate.wait(20)
            seen.append(history.name)

        with unittest.mock.patch.object(ending, "MOST", 5), Service(1, on_end=hook) as service:
            with self.assertLogs("concurrent.futures", logging.WARNING) as logs:
                for k in range(10):
                    with service.request(str(k)) as request:
                        self.assertEqual(request.supply(inc, 1).result(20), 2)
                        self.assertEqual(request.promise().complete_on_timeout(1, 0.001).result(20), 1)
                    if not k:
                        self.assertTrue(until(lambda: not service._works.ends._aside._left))
            gate.set()
        self.assertEqual((seen, len(logs.records)), ([str(k) for k in range(6)], 1))

    def test_a_hook_that_never_returns_keeps_no_service_from_ending(self):
        gate = threading.Event()
        with unittest.mock.patch.object(ending, "SECONDS", 0.05):
            with self.assertLogs("concurrent.futures", logging.WARNING) as logs:
                with Service(1, on_end=lambda _: gate.wait(20)) as service:
                    service.request("a").end()
        gate.set()
        self.assertIn("takes longer", logs.output[0])

    def test_one_thread_tells_of_many_and_ends_with_its_service(self):
        """It stays where nothing is left for a moment, and keeps neither a shutdown nor the end of a service waiting."""
        threads = []
        with unittest.mock.patch.object(waits.Aside, "STAYS", 100.0):
            for ends in (Service.shutdown, lambda _: None):
                threads.clear()
                service = Service(1, on_end=lambda _: threads.append(threading.current_thread()))
                for k in range(1, 6):
                    service.request(str(k)).end()
                    self.assertTrue(until(lambda: len(threads) == k and service._works.ends._aside._is_idle))  # noqa: F821
                ends(service)
                del service
                threads[0].join(20)
                self.assertEqual((len(set(threads)), threads[0].is_alive()), (1, False))

    def test_no_thread_can_be_started(self):
        with starting(no_thread):
            self.service.request("a").end()
            self.assertEqual(self.told, [])
            self.service.request("b").end()
            self.service._works.ends.end_all()
            self.assertEqual([history.name for history in self.told], ["a", "b"])

    def test_what_is_told_is_described(self):
        with Service(1, on_end=self.told.append, describe=describe_types) as service:
            service.submit(str, "token").result(20)
        self.assertIn("str of 5", str(self.told[0]))
        self.assertNotIn("token", str(self.told[0]))

    def test_on_a_loop(self):
        async def main():
            loop_service = LoopService(asyncio.get_running_loop(), on_end=self.told.append)
            with loop_service.request("a") as request:
                stage = request.supply(asyncio.sleep, 0.01, 7)
            self.assertEqual(await stage, 7)
            flow = Flow("f")
            step = flow.supply(inc, 1)
            with loop_service.start(flow, name="of a flow") as request:
                self.assertEqual(await request[step], 2)

        asyncio.run(main())
        self.names("a", "of a flow")

    def test_requests_without_a_hook_may_be_ended(self):
        with Service(1) as service, service.request("a") as request:
            stage = request.supply(inc, 1)
        self.assertEqual(stage.result(20), 2)

    def test_forks_and_exits(self):
        """A request of the parent's is told by the parent alone, and what is open at the end is told then."""
        text = """
        def hook(history):
            os.write(1, f"{os.getpid() == parent} {history.name}\\n".encode())
        parent = os.getpid()
        service = Service(1, on_end=hook)
        inherited = service.request("inherited")
        pid = os.fork()
        if not pid:
            inherited.end()
            service.request("of the child").end()
            left = service.request("left")
            sys.exit(0)
        os.waitpid(pid, 0)
        kept = service.request("kept")
        """
        out, err, code = program(text)
        self.assertEqual((sorted(out.splitlines()), err, code), (["False left", "False of the child", "True inherited", "True kept"], "", 0))


def until_soon(is_so):
    """Whether something is so within a moment."""
    return threading.Event().wait(0.05) or is_so()


if __name__ == "__main__":
    unittest.main()
