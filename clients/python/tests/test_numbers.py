#!/usr/bin/env python3
"""The numbers of the package are those of the library's header.

    CF_LIBRARY=/path/to/libcf.so python3 clients/python/tests/test_numbers.py [-v] [TEST ..]
"""
import os
import re
import sys
import unittest
from pathlib import Path

HERE = Path(__file__).resolve().parent
HEADER = HERE.parents[2] / "crates/cf_c/include/cf.h"
if not os.environ.get("CF_INSTALLED"):
    sys.path.insert(0, str(HERE.parent))
from cf.values import Code, Failure, Form  # noqa: E402


class Numbers(unittest.TestCase):
    header = HEADER.read_text(encoding="utf-8")

    def test_each_code_of_the_header_has_its_name(self):
        codes = re.search(r"typedef enum \{([^}]*)\} cf_code;", self.header)
        self.assertIsNotNone(codes)
        named = re.findall(r"\bCF_([A-Z_]+) = (\d+)", codes.group(1))
        self.assertEqual({name: int(it) for name, it in Code.__members__.items()}, {name: int(it) for name, it in named if name != "OK"})

    def test_each_name_has_the_number_of_the_header(self):
        named = dict(re.findall(r"\bCF_([A-Z_]+) = (\d+)", self.header))
        for kind in (Code, Failure, Form):
            for name, it in kind.__members__.items():
                with self.subTest(name):
                    self.assertEqual(named.get(name), str(int(it)))


if __name__ == "__main__":
    unittest.main()
