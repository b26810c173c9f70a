"""Rows that fail, beside others and alone: python3 -m unittest checking.test_running"""
import contextlib
import io
import tempfile
import threading
import unittest
from pathlib import Path
from typing import List

from checking.rows import Row
from checking.running import BY_CHANCE, LAST, Counts, Rows, in_a_line, run, run_again, run_rows
from checking.tools import Tools

FAILS_ONCE = 'if mkdir "$1"; then echo first >&2; exit 1; fi; echo again >> "$2"'


class RowsThatFail(unittest.TestCase):
    @classmethod
    def setUpClass(cls) -> None:
        with tempfile.TemporaryDirectory() as folder:
            cls.tools = Tools(Path(folder))
        cls.tools.found["cargo"] = "cargo"

    def setUp(self) -> None:
        folder = tempfile.TemporaryDirectory()
        self.addCleanup(folder.cleanup)
        self.folder, self.counts, self.printed = Path(folder.name), Counts(), io.StringIO()

    def rows_of(self, *rows: Row) -> Rows:
        return Rows(list(rows), self.tools, [])

    def row(self, name: str, script: str, *needs: str) -> Row:
        return Row(name, needs, [["sh", "-c", script, "sh", str(self.folder / name), str(self.folder / "order")]])

    def run_all(self, rows: Rows, runners: int = 1) -> None:
        """So many runners, and then what is run again."""
        threads = [threading.Thread(target=run_rows, args=(rows, {}, self.counts, True)) for _ in range(runners)]
        with contextlib.redirect_stdout(self.printed):
            for it in threads:
                it.start()
            for it in threads:
                it.join()
            run_again(rows, {}, self.counts)

    def counted(self) -> List[int]:
        return [self.counts.passed, self.counts.failed]

    def order(self) -> List[str]:
        return (self.folder / "order").read_text().split()

    def test_beside_the_gate(self) -> None:
        """A row that fails is run again once the gate has ended. Its runner takes the next row meanwhile, which shares files with it."""
        rows = self.rows_of(self.row("fails", FAILS_ONCE, "cargo"), self.row("next", 'echo next >> "$2"', "cargo"))
        self.counts.is_idle.clear()
        runner = threading.Thread(target=self.run_all, args=(rows,))
        runner.start()
        while not (rows.left == 0 and self.counts.passed):
            runner.join(0.01)
        runner.join(0.1)
        self.assertEqual((self.counted(), runner.is_alive(), self.order()), ([1, 0], True, ["next"]))
        self.counts.is_idle.set()
        runner.join()
        self.assertEqual((self.counted(), self.order()), ([2, 0], ["next", "again"]), self.printed.getvalue())

    def test_beside_another_row(self) -> None:
        """A row that fails beside another is run again when no other is at work, and the summary has the first fault."""
        other = 'mkdir "$1"; until [ -d "${1%/*}/fails" ]; do sleep 0.01; done; sleep 0.1; echo other >> "$2"'
        fails = 'until [ -d "${1%/*}/other" ]; do sleep 0.01; done; ' + FAILS_ONCE
        for names in ["other", "fails"], ["fails", "other"]:
            with self.subTest(first=names[0]):
                self.setUp()
                scripts = {"other": other, "fails": fails}
                self.run_all(self.rows_of(*(self.row(name, scripts[name]) for name in names)), 2)
                self.assertEqual((self.counted(), self.order()), ([2, 0], ["other", "again"]), self.printed.getvalue())
                self.assertEqual(self.counts.summary, ["passed when run again, failed beside others: fails: sh ended with status 1: first"])

    def test_twice(self) -> None:
        """A row that fails alone, too, has failed."""
        self.counts.is_idle.clear()
        with contextlib.redirect_stdout(self.printed):
            rows = self.rows_of(self.row("fails", 'echo one "$1"; echo two; exit 3'))
            run_rows(rows, {}, self.counts, True)
            self.counts.is_idle.set()
            run_again(rows, {}, self.counts)
        self.assertEqual((self.counted(), self.counts.summary), ([0, 1], ["failed: fails: sh ended with status 3: two"]))
        self.assertRegex(self.printed.getvalue(), "FAILED fails .*status 3\none .*\ntwo\n")

    def test_alone(self) -> None:
        """A row beside which nothing was at work isn't run again."""
        self.run_all(self.rows_of(self.row("before", "exit 0"), self.row("fails", FAILS_ONCE)))
        self.assertEqual((self.counted(), self.counts.summary), ([1, 1], ["failed: fails: sh ended with status 1: first"]))

    def test_many(self) -> None:
        """If many rows failed, none is run again."""
        rows = self.rows_of()
        rows.failed = [(self.row(f"fails {it}", "exit 0"), "a fault") for it in range(BY_CHANCE + 1)]
        self.run_all(rows)
        self.assertEqual(self.counted(), [0, BY_CHANCE + 1])
        rows.failed.pop()
        self.run_all(rows)
        self.assertEqual(self.counted(), [BY_CHANCE, BY_CHANCE + 1])

    def test_needed(self) -> None:
        """What other rows need is run again at once, where no gate is at work."""
        faults = iter(["a fault", ""])
        with contextlib.redirect_stdout(self.printed), self.counts.work():
            self.assertEqual(self.counts.try_needed("the library", lambda: next(faults)), "")
        self.assertEqual(self.counted(), [1, 0])

    def test_what_is_told(self) -> None:
        """The last lines of each stream, also of a command that doesn't end."""
        for end, seconds, told in [("exit 4", 60, "sh ended with status 4"), ("exec sleep 60", 3, "sh hasn't ended after 3 s")]:
            fault = run([["sh", "-c", f"echo FAIL: this; seq {LAST + 5}; echo the fault >&2; {end}"]], {}, seconds)[1]
            self.assertEqual(fault.splitlines(), [told, "FAIL: this", "(5 lines are left out)", *map(str, range(6, LAST + 6)), "the fault"])
            self.assertEqual(in_a_line(fault), f"{told}: FAIL: this")


if __name__ == "__main__":
    unittest.main()
