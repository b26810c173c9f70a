"""What the tests of cf.store stand on: services and workers over a store in a temporary folder, which are ended.

All of them:

    CF_LIBRARY=/path/to/libcf.so python3 -m unittest discover -s clients/python/tests/store

They are over SQLite in a temporary folder. With CF_STORES="postgresql://.. etcd://.." those of stores and services are
over these, too, which have to be empty.
"""
import logging
import os
import subprocess
import sys
import tempfile
import time
import unittest
from pathlib import Path

HERE = Path(__file__).resolve().parent
CLIENT = HERE.parents[1]
sys.path.insert(0, str(HERE))
if not os.environ.get("CF_INSTALLED"):
    sys.path.insert(0, str(CLIENT))
import shared_functions as f  # noqa: E402
from cf.store import DurableService, Functions, Memory, connect, new_session  # noqa: E402
from cf.store.host import Host  # noqa: E402
from cf.store.plans import text_of  # noqa: E402

logging.getLogger("cf.store").addHandler(logging.NullHandler())  # (what functions raise isn't shown)
STORES = os.environ.get("CF_STORES", "").split()
EMPTY = text_of(None, Functions())


class Case(unittest.TestCase):
    lease = 10

    def setUp(self):
        self.folder = tempfile.TemporaryDirectory()
        self.address = f"sqlite:///{self.folder.name}/db"
        self.services, self.processes = [], []
        self.name = f"{self.id()} {new_session():x}"

    def tearDown(self):
        for process in self.processes:
            process.kill()
            process.wait()
            process.stderr.close()
        for service in self.services:
            service.shutdown()
        self.folder.cleanup()

    def service(self, address=None, workers=2, **more):
        made = DurableService(connect(address or self.address), workers, functions=f.functions, lease=self.lease, **more)
        self.services.append(made)
        return made

    def memory_that_two_share(self):
        """A store, a service over it that calls no function, and one that works on all requests."""
        store = Memory()
        asks = DurableService(store, 0, functions=f.functions, lease=0.5)
        works = DurableService(store, 1, functions=f.functions, lease=0.5, takes_all=True)
        self.services += [asks, works]
        return store, asks, works

    def worker(self, address=None, lease=None, more=()):
        head = "import sys; sys.path[:0] = %r; from cf import worker; sys.exit(worker.main(sys.argv[1:]))"
        paths = [str(HERE)] + ([] if os.environ.get("CF_INSTALLED") else [str(CLIENT)])
        process = subprocess.Popen(
            [sys.executable, "-c", head % paths, "--store", address or self.address, "--lease", str(lease or self.lease), *more, "shared_functions"],
            stderr=subprocess.PIPE,
        )
        self.processes.append(process)
        return process

    def until(self, ask, seconds=60):
        end = time.monotonic() + seconds
        while not ask():
            self.assertLess(time.monotonic(), end, "it takes too long")
            time.sleep(0.01)

    def each(self, **more):
        """A service over each store, with a name for a request."""
        for address in [self.address, "memory://", *STORES]:
            with self.subTest(address):
                yield self.service(address, **more), self.name + address


class Hurried(Host):
    """A process whose clock can be set ahead: its patience with a store is over then."""

    ahead = 0.0

    def monotonic(self):
        return super().monotonic() + self.ahead
