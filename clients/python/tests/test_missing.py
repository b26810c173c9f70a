#!/usr/bin/env python3
"""What is said if the library for C or the C module is missing.

    CF_LIBRARY=/path/to/libcf.so python3 clients/python/tests/test_missing.py [-v] [TEST ..]
"""
import os
import subprocess
import sys
import unittest
from pathlib import Path

CLIENT = Path(__file__).resolve().parents[1]


class Missing(unittest.TestCase):
    def fails(self, text, *parts, **environment):
        head = "import sys\n" if os.environ.get("CF_INSTALLED") else f"import sys; sys.path.insert(0, {str(CLIENT)!r})\n"
        done = subprocess.run(
            [sys.executable, "-c", head + text],
            stdout=subprocess.PIPE,
            stderr=subprocess.PIPE,
            timeout=60,
            universal_newlines=True,
            env=dict(os.environ, **environment),
        )
        self.assertEqual(done.returncode, 1)
        for part in parts:
            self.assertIn(part, done.stderr)
        return done.stdout

    def test_a_library_that_is_missing(self):
        parts = ("OSError: cf needs its library for C, libcf.so", "CF_LIBRARY says, which is /nowhere/libcf.so", "cf._cf", "docs/C.md")
        self.fails("import cf", *parts, CF_LIBRARY="/nowhere/libcf.so")

    @unittest.skipUnless(os.environ.get("CF_LIBRARY"), "no CF_LIBRARY")
    def test_a_module_that_is_missing(self):
        """`cf` itself needs none, and `cf.service` says how it is built."""
        for name in ("cf.service", "cf.store", "cf.testing", "cf.requests"):
            text = f"sys.modules['cf._cf'] = None\nimport cf\nprint(cf.Graph(cf.Plan()).stages())\nimport {name}"
            said = self.fails(text, "ImportError: cf.service needs its C module", "CF_LIBRARY_DIR=/folder/of/libcf.a", "build_ext --inplace")
            self.assertEqual(said, "0\n")


if __name__ == "__main__":
    unittest.main()
