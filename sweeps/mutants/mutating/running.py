"""Runs tests of Python in one process, up to the first that fails, and writes down what each of them reaches. A program of its own.

    python3 -B running.py run (NAME SECONDS) ..    tests of one folder, each of which has so many seconds; NAME is FILE:CLASS.TEST
    python3 -B running.py record FILE INTO         all tests of a file; a line for each is written into INTO/tests, and what it reaches into the
                                                   file INTO/K, or INTO/0 for what is reached before the first

The last line that begins with `test: ` names the last test that was begun.

A copy of this file that Python finds as sitecustomize.py does the writing, in each process that a test starts as well: the numbers of the lines that
are reached below CF_REACHED_OF, and with a minus those of functions that are called; with an M before the number where a module or a class is made,
which is done once for all tests of a process. A `*` says that something may have been reached that isn't written down. What the marks of a C
module reach stands in the file CF_MARKS.
"""
import faulthandler
import importlib
import inspect
import os
import resource
import sys
import threading
import time
import unittest
import urllib.request
from pathlib import Path
from types import CodeType, FrameType
from typing import Any, Callable, Dict, List, Optional, Set, Tuple

CALLS = 100  # of a function by a test, whose lines are written down one by one. Then all of them count as reached.
STORE = os.environ.get("CF_STORES", "")  # an address in a server, which is emptied
LONGEST = 600  # seconds for a test over the code as it is
ENDING = 20  # seconds for the end of the process
MEMORY = 8 << 30  # bytes of data, for a mutant that never ends


class Lines:
    """Writes down what is reached."""

    def __init__(self, folder: str) -> None:
        self.folder, self.above = folder, len(os.path.dirname(folder.rstrip("/"))) + 1
        self.seen: Set[Tuple[str, int, int]] = set()
        self.calls: Dict[int, Tuple[List[int], CodeType]] = {}
        self.out = -1

    def begin(self, path: str) -> None:
        """What is reached from now on is written into another file."""
        self.out = os.open(path, os.O_WRONLY | os.O_CREAT | os.O_APPEND)  # (the old one stays open for threads that are writing)
        os.environ["CF_REACHED"] = path
        self.seen.clear()
        self.calls.clear()
        threading.settrace(self.called)
        sys.settrace(self.called)

    def is_lost(self) -> bool:
        return sys.gettrace() != self.called

    def lose(self) -> None:
        os.write(self.out, b"*\n")

    def note(self, code: CodeType, line: int) -> None:
        key = (code.co_filename, line, code.co_flags & inspect.CO_OPTIMIZED)
        if key not in self.seen:
            self.seen.add(key)
            os.write(self.out, f"{'' if key[2] else 'M'}{line} {code.co_filename[self.above:]}\n".encode())

    def called(self, frame: FrameType, event: str, argument: Any) -> Optional[Callable[..., Any]]:
        code = frame.f_code
        if not code.co_filename.startswith(self.folder):
            return None
        try:
            many = self.calls.setdefault(id(code), ([0], code))[0]
            many[0] += 1
            if many[0] == 1:
                self.note(code, -code.co_firstlineno)
            if many[0] <= CALLS:
                return self.line
            if many[0] == CALLS + 1:
                for _, _, line in code.co_lines():
                    self.note(code, line or code.co_firstlineno)
            return None
        except BaseException:  # an interrupt, after which Python doesn't call this any more
            self.lose()
            raise

    def line(self, frame: FrameType, event: str, argument: Any) -> Callable[..., Any]:
        if event == "line":
            try:
                self.note(frame.f_code, frame.f_lineno)
            except BaseException:
                self.lose()
                raise
        return self.line


def empty_store() -> None:
    """Makes a database of PostgreSQL anew, or drops all keys of an etcd."""
    server, _, name = STORE.rpartition("/")
    if STORE.startswith("postgresql:"):
        db = importlib.import_module("psycopg2").connect(f"{server}/postgres")
        db.autocommit = True
        for words in [f"drop database if exists {name} with (force)", f"create database {name}"]:
            db.cursor().execute(words)
        db.close()
    elif STORE:
        every = b'{"key": "AA==", "range_end": "AA=="}'
        urllib.request.urlopen(f"http://{name}/v3/kv/deleterange", every, timeout=20).close()


def tests_of(file: str) -> Dict[str, unittest.TestCase]:
    """The tests of a file by their names."""
    sys.path[:0] = [str(Path(file).parent.resolve())][: str(Path(file).parent.resolve()) not in sys.path]
    found: Dict[str, unittest.TestCase] = {}

    def walk(suite: Any) -> None:
        for it in suite:
            if isinstance(it, unittest.TestCase):
                found[f"{file}:{it.id().partition('.')[2]}"] = it
            else:
                walk(it)

    walk(unittest.defaultTestLoader.loadTestsFromModule(importlib.import_module(Path(file).stem)))
    return found


class Watched(unittest.TestResult):
    """Says which test begins, and ends the process with status 1 where one takes too long."""

    def __init__(self, names: Dict[unittest.TestCase, Tuple[str, float]]) -> None:
        super().__init__()
        self.failfast, self.names = True, names

    def startTest(self, test: unittest.TestCase) -> None:
        super().startTest(test)
        name, seconds = self.names[test]
        print(f"\ntest: {name}", flush=True)
        faulthandler.dump_traceback_later(seconds, exit=True)

    def fault(self) -> str:
        return "".join(said for _, said in [*self.errors, *self.failures]) or "a test passed that should not" * (not self.wasSuccessful())


def end(result: Watched) -> None:
    """Ends the process, which some thread may keep."""
    print(result.fault() or "\ntest: the end of the process", flush=True)
    faulthandler.dump_traceback_later(ENDING, exit=True)
    sys.exit(bool(result.fault()))


def run(words: List[str]) -> None:
    resource.setrlimit(resource.RLIMIT_DATA, (MEMORY, MEMORY))
    empty_store()
    asked = dict(zip(words[::2], map(float, words[1::2])))
    there: Dict[str, unittest.TestCase] = {}
    for name in asked:
        print(f"\ntest: {name}", flush=True)
        faulthandler.dump_traceback_later(ENDING, exit=True)
        there.update({} if name in there else tests_of(name.partition(":")[0]))
    result = Watched({there[name]: (name, seconds) for name, seconds in asked.items()})
    unittest.TestSuite(there[name] for name in asked).run(result)
    end(result)


def record(file: str, into: Path) -> None:
    lines: Lines = sys.modules["sitecustomize"].LINES
    marks = Path(os.environ["CF_MARKS"]) if os.environ.get("CF_MARKS") else None

    def write_marks(k: int) -> None:
        if marks:
            reached = [f"{'' if k else 'M'}{at} native/_cf.c\n" for at, it in enumerate(marks.read_bytes()) if it]
            with (into / str(k)).open("a", encoding="utf-8") as out:
                out.writelines(reached)
            with marks.open("r+b") as out:
                out.write(bytes(marks.stat().st_size))

    empty_store()
    found = tests_of(file)
    write_marks(0)
    for k, (name, test) in enumerate(found.items(), 1):
        result = Watched({test: (name, LONGEST)})
        lines.begin(str(into / str(k)))
        began = time.monotonic()
        unittest.TestSuite([test]).run(result)
        seconds = time.monotonic() - began
        if lines.is_lost() or result.fault():
            lines.lose()
        write_marks(k)
        with (into / "tests").open("a", encoding="utf-8") as out:
            out.write(f"{k} {seconds:.3f} {name}\n")
        print(result.fault(), flush=True)
    faulthandler.dump_traceback_later(ENDING, exit=True)


if __name__ == "__main__":
    if sys.argv[1] == "run":
        run(sys.argv[2:])
    else:
        record(sys.argv[2], Path(sys.argv[3]))
elif os.environ.get("CF_REACHED"):
    LINES = Lines(os.environ["CF_REACHED_OF"])
    LINES.begin(os.environ["CF_REACHED"])
