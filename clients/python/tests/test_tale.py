#!/usr/bin/env python3
"""What the library tells of words is what is written down, byte for byte, and what it refuses.

    CF_LIBRARY=/path/to/libcf.so python3 clients/python/tests/test_tale.py [-v] [TEST ..]
"""
import json
import os
import sys
import unittest
from pathlib import Path

HERE = Path(__file__).resolve().parent
if not os.environ.get("CF_INSTALLED"):
    sys.path.insert(0, str(HERE.parent))
from cf import Code, Form, Plan, Refused  # noqa: E402
from cf.service.words import FORMS  # noqa: E402
from cf.tale import TaleFormat, Label, Tale  # noqa: E402

CASES = json.loads((HERE.parents[2] / "conformance/requests/told.json").read_text(encoding="utf-8"))
TEXT = "r: 0 events, 0 stages\n"


def plan_of(case):
    """The plan of a case. The function of a stage has the number of the stage."""
    plan = Plan()
    for number, stage in enumerate(case["stages"]):
        plan.stage(Form(FORMS.index(stage["form"])), *stage.get("of", []), function=number if stage.get("fn") else None)
    for limit in case.get("limits", []):
        if limit["kind"] == "timeout":
            plan.timeout(limit["stage"], limit["at"], limit.get("code", 0))
        else:
            plan.complete_on_timeout(limit["stage"], limit["at"], limit["value"])
    return plan


class Tales(unittest.TestCase):
    def test_what_is_told(self):
        """Also where it is told by one plan's tales in turn, in any order of what is said."""
        self.assertGreater(len(CASES), 6)
        for case in CASES:
            with Tale(plan_of(case), case["room"], list(map(int, case["words"]))) as tale:
                for what in reversed(Label):
                    tale.set_texts(what, case["said"][what.name.lower()])
                tale.set_times(case["times"])
                for kind in TaleFormat:
                    with self.subTest(case=case["case"], kind=kind.name):
                        wanted = case["texts"][kind.name.lower()]
                        lines = "".join(line + "\n" for line in wanted) if isinstance(wanted, list) else wanted
                        self.assertEqual(tale.text(kind), lines)

    def refuses(self, code, call):
        with self.assertRaises(Refused) as told:
            call()
        self.assertEqual(told.exception.code, code)

    def test_what_is_refused_changes_nothing(self):
        plan = Plan()
        self.refuses(Code.NO_WORD, lambda: Tale(plan, 0, [0]))
        self.refuses(Code.NO_STAGE, lambda: Tale(plan, 0, [1 << 56]))
        self.refuses(Code.ROOM, lambda: Tale(plan, 4097, []))
        with Tale(plan, 0, []) as tale:
            tale.set_texts(Label.NAME, ["r"])
            self.refuses(Code.TOO_MANY, lambda: tale.set_texts(Label.NAME, ["a", "b"]))
            self.refuses(Code.TOO_MANY, lambda: tale.set_texts(Label.STAGES, [""] * 4097))
            self.refuses(Code.TOO_MANY, lambda: tale.set_texts(Label.CALLERS, [""] * 65))
            self.refuses(Code.TOO_MANY, lambda: tale.set_times([1]))
            self.refuses(Code.NO_SUCH_NUMBER, lambda: tale.set_texts(5, []))
            self.refuses(Code.NO_SUCH_NUMBER, lambda: tale.text(5))
            self.assertEqual(tale.text(TaleFormat.LINES), TEXT)
            tale.set_texts(Label.STAGES, [""] * 4096)
            tale.set_texts(Label.CALLERS, [""] * 64)
            tale.set_texts(Label.VALUES, [""] * 10000)
            tale.set_texts(Label.NAME, [])
            self.assertEqual(tale.text(TaleFormat.LINES), TEXT.replace("r:", "a history:"))


if __name__ == "__main__":
    unittest.main()
