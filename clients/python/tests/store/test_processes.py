#!/usr/bin/env python3
"""Requests that go on in other processes: resumed, by timers, and after a worker was killed.

    CF_LIBRARY=/path/to/libcf.so python3 clients/python/tests/store/test_processes.py [-v] [TEST ..]
"""
import os
import signal
import subprocess
import sys
import time
import unittest
from pathlib import Path

from case import Case, CLIENT, HERE
import shared_functions as f
from cf.service import Flow
from cf.store import Abandoned


class Processes(Case):
    lease = 4

    def test_a_request_goes_on_elsewhere(self):
        """Begun here, worked on by two processes, and resumed by a third service."""
        asking = self.service(workers=0)
        worker = [self.worker() for _ in range(2)]
        elsewhere = asking.request("r")
        stages = [elsewhere.supply(f.slow, 0.01) for _ in range(12)]
        pids = {stage_elsewhere.result(30) for stage_elsewhere in stages}
        self.assertTrue(pids <= {it.pid for it in worker}, pids)
        self.until(lambda: len(asking.store.beats()) == 3)
        for process in worker:
            process.send_signal(signal.SIGTERM)
            self.assertEqual(process.wait(60), 0, process.stderr.read())

    def test_resume(self):
        first = self.service(workers=0)
        stage_elsewhere = first.request("r").supply(f.load, 5).then(f.number)
        time.sleep(0.2)
        self.assertFalse(stage_elsewhere.done())
        first.shutdown()
        second = self.service()
        self.assertEqual([elsewhere.name for elsewhere in second.resume()], ["r"])
        self.assertEqual(second.open("r")["number"].result(20), 5)

    def test_a_timer_outlives_who_set_it(self):
        code = (
            "import sys, os; sys.path[:0] = %r; import shared_functions as f; from cf.store import *; "
            "s = DurableService(connect(%r), 0, functions=f.functions); "
            "s.request('r').promise('p').or_timeout(0.5); os._exit(0)"
        )
        paths = [str(HERE)] + ([] if os.environ.get("CF_INSTALLED") else [str(CLIENT)])
        subprocess.run([sys.executable, "-c", code % (paths, self.address)], check=True, timeout=60)
        asking = self.service()
        asking.resume()
        self.assertIsInstance(asking.open("r")["p"].exception(20), TimeoutError)

    def killed(self, stage_elsewhere, path, ready=lambda: True):
        """Kills the worker that runs a stage, once it has left its mark, and starts another."""
        worker = self.worker()
        self.until(lambda: os.path.exists(path) and os.path.getsize(path) and ready())
        worker.kill()
        worker.wait()
        self.worker()
        return stage_elsewhere

    def test_once(self):
        asking, path = self.service(workers=0), f"{self.folder.name}/mark"
        stage_elsewhere = self.killed(asking.request("r").supply(f.mark, path, 30), path)
        self.assertIsInstance(stage_elsewhere.exception(30), Abandoned)
        self.assertIn("may have run", str(stage_elsewhere.exception()))
        self.assertEqual(len(Path(path).read_text().split()), 1)

    def test_what_was_composed_goes_on_elsewhere(self):
        """The process is killed that composed and ran what came of it: another one sees the end of it."""
        asking, path = self.service(workers=0), f"{self.folder.name}/mark"
        elsewhere = asking.request("r")
        order = elsewhere.promise()
        stage_elsewhere = order.compose(f.marking)
        order.complete(path)
        self.assertIn("sorry, the worker that ran mark is gone", self.killed(stage_elsewhere, path, lambda: elsewhere._row().links).result(30))

    def test_again(self):
        asking, path = self.service(workers=0), f"{self.folder.name}/mark"
        flow = Flow("job")
        last = flow.supply(f.mark, path, 1.5).again(2)
        elsewhere = asking.start(flow, name="r")
        self.assertEqual(self.killed(elsewhere[last], path).result(30), "marked")
        self.assertEqual(len(Path(path).read_text().split()), 2)
        self.assertIn("mark again", str(elsewhere.history()))
        self.assertEqual(elsewhere[0].exception().__class__, Abandoned)
        self.until(lambda: "r" not in asking.store.ends())


if __name__ == "__main__":
    unittest.main()
