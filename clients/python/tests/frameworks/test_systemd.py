#!/usr/bin/env python3
"""The units examples/cf-worker.service and cf-page.service: does systemd take them, and do their commands begin, work and end as
systemd will have them do?

    clients/python/tests/frameworks/test_systemd.py [-v] [TEST ..]
"""
import os
import re
import shlex
import signal
import socket
import subprocess
import sys
import tempfile
import unittest
from pathlib import Path
from urllib.request import Request, urlopen

from serving import CLIENT, EXAMPLES
from cf.store import DurableService, Functions, connect

UNITS = ["cf-worker.service", "cf-page.service"]
MODULE = """
from cf.store import Functions
functions = Functions()

@functions.function("charge")
def charge(number):
    return {"number": number, "cents": 4900}
"""
TOKEN = "a token of the operators"


class Systemd(unittest.TestCase):
    def setUp(self):
        folder = tempfile.TemporaryDirectory()
        self.addCleanup(folder.cleanup)
        self.made = Path(folder.name)
        (self.made / "env/bin").mkdir(parents=True)
        (self.made / "env/bin/python").symlink_to(sys.executable)
        (self.made / "orders.py").write_text(MODULE)
        (self.made / "token").write_text(TOKEN)

    def unit(self, name):
        """The unit, where /srv/orders is a folder of this test."""
        return (EXAMPLES / name).read_text().replace("/srv/orders", str(self.made))

    def begun(self, name, port=0):
        """The command of a unit over a file of SQLite."""
        (line,) = re.findall(r"^ExecStart=(.*)$", self.unit(name), re.M)
        line = line.replace("postgresql://orders@db/orders", f"sqlite:///{self.made}/orders.db").replace("%d", str(self.made))
        line = line.replace("8321", str(port))
        environment = dict(os.environ, PYTHONPATH=str(CLIENT))
        process = subprocess.Popen(shlex.split(line), cwd=str(self.made), env=environment, stdout=subprocess.PIPE, universal_newlines=True)
        self.addCleanup(lambda: (process.kill(), process.wait(), process.stdout.close()))
        return process

    def ended(self, process):
        """Its status, once systemd has told it to end."""
        process.send_signal(signal.SIGTERM)
        return process.wait(20)

    def test_systemd_takes_them(self):
        for name in UNITS:
            (self.made / name).write_text(self.unit(name))
        done = subprocess.run(["systemd-analyze", "verify", *UNITS], cwd=str(self.made), stdout=subprocess.PIPE, stderr=subprocess.STDOUT)
        self.assertEqual((done.stdout.decode(), done.returncode), ("", 0))

    def test_systemd_waits_for_what_the_worker_finishes(self):
        text = self.unit("cf-worker.service")
        self.assertGreater(int(re.search(r"^TimeoutStopSec=(\d+)$", text, re.M)[1]), int(re.search(r"--grace (\d+)", text)[1]))

    def test_a_worker_works_until_it_is_told_to_end(self):
        worker, functions = self.begun("cf-worker.service"), Functions()
        charge = functions.function("charge")(lambda number: None)
        service = DurableService(connect(f"sqlite:///{self.made}/orders.db"), 0, functions=functions)
        try:
            self.assertEqual(service.request("order 17").supply(charge, 17).result(20), {"number": 17, "cents": 4900})
        finally:
            service.shutdown()
        self.assertEqual(self.ended(worker), 0)

    def test_a_page_serves_until_it_is_told_to_end(self):
        connect(f"sqlite:///{self.made}/orders.db").close()
        with socket.create_server(("127.0.0.1", 0)) as taken:
            port = taken.getsockname()[1]
        page = self.begun("cf-page.service", port)
        self.assertIn("https://ops.example", page.stdout.readline())
        asked = Request(f"http://127.0.0.1:{port}/metrics", headers={"Authorization": f"Bearer {TOKEN}"})
        with urlopen(asked, timeout=20) as answer:
            self.assertIn("cf_store_up 1\n", answer.read().decode())
        self.assertEqual(self.ended(page), 0)


if __name__ == "__main__":
    unittest.main()
