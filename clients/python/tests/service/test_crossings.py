#!/usr/bin/env python3
"""How often a request calls the library, counted in a module that is built for it.

    CF_LIBRARY_DIR=/folder/of/libcf.a python3 clients/python/tests/service/test_crossings.py [-v] [TEST ..]
"""
import os
import re
import shutil
import subprocess
import sysconfig
import tempfile
import unittest
from pathlib import Path

from case import CLIENT, HEAD, program

HEADERS = Path(sysconfig.get_paths()["include"]), Path(os.environ.get("CF_INCLUDE", CLIENT.parents[1] / "crates/cf_c/include"))
LIBRARY = Path(os.environ.get("CF_LIBRARY_DIR", ""), "libcf.a")
COUNTED = """
import ctypes
from cf import _cf
from cf.service import Request

crossings = ctypes.c_long.in_dll(ctypes.CDLL(_cf.__file__), "crossings")

class Taking:
    closed, turns = False, []
    def put(self, request):
        self.turns.append(request)
        return True

def counted(act):
    before = crossings.value
    act()
    print(crossings.value - before, end=" ")

def run_all():
    while Taking.turns:
        Taking.turns.pop(0)._run(3)

request = Request(Taking(), "r", 8)
"""


@unittest.skipUnless(LIBRARY.is_file() and (HEADERS[0] / "Python.h").is_file() and shutil.which("cc"), "no compiler, headers or CF_LIBRARY_DIR")
class Crossings(unittest.TestCase):
    @classmethod
    def setUpClass(cls):
        """Builds a package whose module counts, by macros of the calls' names."""
        cls.folder = tempfile.TemporaryDirectory()
        cls.addClassCleanup(cls.folder.cleanup)
        shutil.copytree(str(CLIENT / "cf"), cls.folder.name + "/cf", ignore=shutil.ignore_patterns("*.so", "__pycache__"))
        names = set(re.findall(r"^uint32_t (cf_\w+)\(", (HEADERS[1] / "cf.h").read_text(), re.M))
        macros = [f"#define {name}(...) (crossings++, {name}(__VA_ARGS__))" for name in sorted(names)]
        source = Path(cls.folder.name, "counting.c")
        source.write_text("\n".join(['#include "cf.h"', "long crossings;", *macros, f'#include "{CLIENT}/native/_cf.c"\n']))
        build = ["cc", "-w", "-O1", "-fPIC", "-shared", *[f"-I{folder}" for folder in HEADERS], str(source), "-Wl,--whole-archive", str(LIBRARY)]
        subprocess.run([*build, "-Wl,--no-whole-archive", "-o", cls.folder.name + "/cf/_cf.abi3.so"], check=True)

    def counts(self, text):
        head = f"import sys; sys.path.insert(0, {self.folder.name!r})\n{HEAD}\n{COUNTED}"
        out, err, status = program(text, head=head)
        self.assertEqual(status, 0, err)
        return list(map(int, out.split()))

    def test_two_stages(self):
        """The first attach is one call, the second with the first claim another, and so are a finish with the next claim,
        and the last finish."""
        self.assertEqual(
            self.counts(
                """
                counted(lambda: request.supply(int).then(str))
                counted(run_all)
                """
            ),
            [1, 3],
        )

    def test_attaches_behind_open_stages(self):
        """Eight wait for the next call, which does them, too."""
        self.assertEqual(
            self.counts(
                """
                promise = Request(Taking(), "wide", 32).promise()
                counted(lambda: [promise.then(abs) for _ in range(7)])
                counted(lambda: promise.then(abs))
                counted(lambda: promise.then(abs))
                counted(lambda: promise.complete(1))
                """
            ),
            [0, 1, 0, 1],
        )

    def test_many_that_are_ready(self):
        """A turn that is on its way is left to whoever has it: a claim and a finish for each."""
        self.assertEqual(
            self.counts(
                """
                counted(lambda: [request.supply(int) for _ in range(4)])
                counted(lambda: Taking.turns.pop(0)._run(3))
                counted(run_all)
                """
            ),
            [4, 2, 6],
        )

    def test_a_flow(self):
        """One thread that runs a chain makes one call for each stage, and one each to open the request, to complete the
        promise, to claim the first stage, and to keep the machine for the next request."""
        self.assertEqual(
            self.counts(
                """
                flow = Flow()
                last = flow.promise("x")
                for _ in range(16):
                    last = last.then(abs)
                flow.run(1)
                counted(lambda: flow.run(1))
                """
            ),
            [20],
        )


if __name__ == "__main__":
    unittest.main()
