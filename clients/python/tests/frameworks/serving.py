"""What the tests of examples over others' packages stand on: a server of an example, and what it answers and writes.

They are run by an interpreter for which these packages are installed. Another one skips them.
"""
import importlib.util
import os
import re
import subprocess
import sys
import tempfile
import time
import unittest
from pathlib import Path
from urllib.error import HTTPError
from urllib.request import urlopen

CLIENT = Path(__file__).resolve().parents[2]
EXAMPLES = CLIENT / "examples"
if not os.environ.get("CF_INSTALLED"):
    sys.path.insert(0, str(CLIENT))


def needs(*modules):
    """Skips a test where one of these packages isn't there."""
    missing = [name for name in modules if importlib.util.find_spec(name) is None]
    return unittest.skipIf(missing, f"no {', no '.join(missing)}")


def until(is_so):
    """Waits until something is so, for at most a minute; what it is."""
    end = time.monotonic() + 60
    while not is_so() and time.monotonic() < end:
        time.sleep(0.01)
    return is_so()


class Served(unittest.TestCase):
    """A server that `WORDS` begin, which says its address."""

    WORDS = ()

    @classmethod
    def setUpClass(cls):
        cls.said = tempfile.NamedTemporaryFile("r", encoding="utf-8")
        environment = dict(os.environ, PYTHONPATH=os.pathsep.join(sys.path[:1] if not os.environ.get("CF_INSTALLED") else []))
        with open(cls.said.name, "wb") as out:
            cls.server = subprocess.Popen([sys.executable, *cls.WORDS], env=environment, cwd=str(EXAMPLES), stdout=out, stderr=subprocess.STDOUT)
        found = until(lambda: re.search(r"http://[\d.]+:\d+", cls.text()) or cls.server.poll() is not None)
        cls.address = found[0] if found and found is not True else ""

    @classmethod
    def tearDownClass(cls):
        cls.server.kill()
        cls.server.wait()
        cls.said.close()

    @classmethod
    def text(cls):
        """What the server has written."""
        return Path(cls.said.name).read_text(encoding="utf-8")

    def setUp(self):
        self.assertTrue(self.address, self.text())

    def ask(self, path):
        """The status and the body."""
        try:
            with urlopen(self.address + path, timeout=20) as answer:
                return answer.status, answer.read().decode()
        except HTTPError as error:
            with error:
                return error.code, error.read().decode()
