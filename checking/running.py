"""Runs rows, some at a time, each as soon as what it needs is there, and counts how many passed."""
import contextlib
import difflib
import re
import subprocess
import threading
import time
from pathlib import Path
from typing import Callable, Dict, Iterator, List, Optional, Sequence, Set, Tuple, Union

from checking.crates import TOP, below, own
from checking.rows import Row, wanted
from checking.tools import BUILDS_WHEELS, DEBIANS, Tools

SECONDS = 1200  # for a command of a row
LAST = 30  # lines that are shown of what a failed command printed on each stream
NAMES = re.compile("(FAIL|ERROR|failed|error): ")  # as suites begin the line that names a test
BY_CHANCE = 20  # if more rows than these fail, that isn't chance; all rows over a jar fail with it
IN_TURN = [DEBIANS, "cargo", "JDK of 17 or later", BUILDS_WHEELS]  # rows that need one of these share files


def last_of(printed: Union[bytes, str, None]) -> List[str]:
    """The last lines of what a command printed, and of the others those that name a test that failed."""
    lines = (printed.decode(errors="replace") if isinstance(printed, bytes) else printed or "").rstrip().splitlines()
    named = [line for line in lines[:-LAST] if NAMES.match(line)][-5:]
    return lines if len(lines) <= LAST else [*named, f"({len(lines) - LAST - len(named)} lines are left out)", *lines[-LAST:]]


def run(commands: Sequence[Sequence[str]], environment: dict, seconds: Optional[int]) -> Tuple[str, str]:
    """What the last command prints, and what went wrong: nothing where each ended with status 0."""
    output = ""
    for command in commands:
        pipes = {"stdout": subprocess.PIPE, "stderr": subprocess.PIPE, "universal_newlines": True, "errors": "replace"}
        try:
            done = subprocess.run(command, cwd=str(TOP), env=environment, timeout=seconds, **pipes)
        except subprocess.TimeoutExpired as error:
            return output, "\n".join([f"{command[0]} hasn't ended after {seconds} s", *last_of(error.stdout), *last_of(error.stderr)])
        except OSError as error:
            return output, str(error)
        output = done.stdout
        if done.returncode != 0:
            return output, "\n".join([f"{command[0]} ended with status {done.returncode}", *last_of(done.stdout), *last_of(done.stderr)])
    return output, ""


def wrong(row: Row, environment: dict) -> str:
    """What is wrong with a row, or nothing."""
    output, fault = run(row.commands, environment, SECONDS)
    if row.is_shown and not fault:
        print(output, end="", flush=True)
    if fault or row.prints is None:
        return fault
    folder, name = row.prints
    text = wanted(folder, name)
    if text is None:
        return f"{folder} doesn't say what `{name}` prints"
    return "\n".join(difflib.unified_diff(text.splitlines(), output.splitlines(), folder, "printed", lineterm=""))


def in_a_line(fault: str) -> str:
    """The first line of what is wrong, and the last one that names a test, or the last of all."""
    first, *rest = fault.splitlines()
    named = [line for line in rest if NAMES.match(line)] or rest
    return ": ".join([first, *(line.strip() for line in named[-1:])])


class Counts:
    def __init__(self) -> None:
        self.passed = self.failed = 0
        self.summary: List[str] = []  # of what failed
        self.lock = threading.Lock()
        self.is_idle = threading.Event()  # no gate is at work
        self.is_idle.set()
        self.at_work: List[threading.Event] = []  # for each row that is: whether another was beside it

    def add(self, name: str, fault: str, began: Optional[float] = None) -> None:
        took = "" if began is None else f" ({time.monotonic() - began:.0f} s)"
        with self.lock:
            self.passed += not fault
            self.failed += bool(fault)
            self.summary += [f"failed: {name}: {in_a_line(fault)}"] if fault else []
            print(f"FAILED {name}{took}: {fault}" if fault else f"passed {name}{took}", flush=True)

    @contextlib.contextmanager
    def work(self) -> Iterator[threading.Event]:
        """Is entered while a row is at work, and tells whether another was at any moment, or the gate."""
        mine = threading.Event()
        with self.lock:
            self.at_work.append(mine)
            if len(self.at_work) > 1 or not self.is_idle.is_set():
                for it in self.at_work:
                    it.set()
        try:
            yield mine
        finally:
            with self.lock:
                self.at_work.remove(mine)

    def try_row(self, name: str, fault_of: Callable[[], str]) -> Tuple[str, bool]:
        """Runs a row. Answers what is wrong, and whether that counts: not if it failed beside others, or the gate, which may leave it too little
        time or memory. Then it is to be run again."""
        began = time.monotonic()
        with self.work() as was_beside:
            fault = fault_of()
        if fault and was_beside.is_set():
            print(f"check: {name} failed beside others after {time.monotonic() - began:.0f} s, and is run again: {fault}", flush=True)
            return fault, False
        self.add(name, fault, began)
        return fault, True

    def try_again(self, name: str, before: str, fault_of: Callable[[], str]) -> str:
        """Runs a row once more with which something was wrong before. Answers what is wrong now: that counts."""
        began = time.monotonic()
        fault = fault_of()
        self.add(name, fault, began)
        self.summary += [] if fault else [f"passed when run again, failed beside others: {name}: {in_a_line(before)}"]
        return fault

    def try_needed(self, name: str, fault_of: Callable[[], str]) -> str:
        """Runs a row that others need, and answers what is wrong. It isn't left for the end: it is run again once the gate has ended."""
        fault, counts = self.try_row(name, fault_of)
        if not counts:
            self.is_idle.wait()
            fault = self.try_again(name, fault, fault_of)
        return fault


class Proved:
    """Which crates the gate has proved, and built where they are programs."""

    def __init__(self) -> None:
        self.names: Set[str] = set()
        self.is_over = False
        self.changed = threading.Condition()

    def add(self, name: str) -> None:
        with self.changed:
            self.names.add(name)
            self.changed.notify_all()

    def end(self) -> None:
        with self.changed:
            self.is_over = True
            self.changed.notify_all()

    def wait(self, names: Sequence[str]) -> bool:
        """Waits until all these are proved, and says whether they are: the gate may end before."""
        with self.changed:
            self.changed.wait_for(lambda: self.is_over or self.names.issuperset(names))
            return self.names.issuperset(names)

    def all_below(self, name: str) -> Optional[str]:
        """Waits until all that a crate stands on is proved, or the gate has ended. Answers the crate if it is proved."""
        return name if self.wait(below(name, own())[:-1]) else None

    def program(self, path: str) -> Optional[str]:
        """Waits until a program is proved and built, or the gate has ended, and answers its path if it is there."""
        self.wait([Path(path).name])
        if not Path(path).is_file():
            with self.changed:
                self.changed.wait_for(lambda: self.is_over)
        return path if Path(path).is_file() else None


class Rows:
    """The rows that are still to be run, in groups. A row can be run once it is known of everything that it needs whether it is there. The
    rows of a group run one after another, since they share files."""

    def __init__(self, every: List[Row], tools: Tools, awaited: Sequence[str]) -> None:
        groups: Dict[str, List[Row]] = {}
        for row in every:
            groups.setdefault(next((tool for tool in IN_TURN if tool in row.needs), row.name), []).append(row)
        self.free = sorted(groups.values(), key=len, reverse=True)  # none of whose rows is at work
        self.left = len(every)
        self.failed: List[Tuple[Row, str]] = []  # beside others, with what was wrong
        self.tools = tools
        self.awaited = set(awaited)
        self.changed = threading.Condition()

    def found(self, name: str, path: Optional[str]) -> None:
        """A tool that was awaited is there, or won't be."""
        with self.changed:
            self.tools.found[name] = path
            self.awaited.discard(name)
            self.changed.notify_all()

    def next(self) -> Optional[List[Row]]:
        """A group whose first row can be run, as soon as there is one, or None at the end. Whoever runs that row puts the rest back."""
        with self.changed:
            while self.left:
                for group in self.free:
                    if self.awaited.isdisjoint(group[0].needs):
                        self.free.remove(group)
                        self.left -= 1
                        return group
                self.changed.wait()
            return None

    def wait(self, name: str) -> None:
        """Waits until it is known whether a tool is there."""
        with self.changed:
            self.changed.wait_for(lambda: name not in self.awaited)

    def put_back(self, group: List[Row]) -> None:
        """Takes what is left of a group."""
        with self.changed:
            self.free[:0] = [group] if group else []
            self.changed.notify_all()


def run_rows(rows_left: Rows, environment: dict, counts: Counts, is_beside: bool) -> None:
    """Runs rows until none is left: at once, or only once the gate has ended and the library, for which most rows wait, was made."""
    if not is_beside:
        counts.is_idle.wait()
        rows_left.wait("library")
    while True:
        group = rows_left.next()
        if group is None:
            return
        row, *rest = group
        missing = [name for name in row.needs if not rows_left.tools.found.get(name)]
        try:
            if missing:
                print(f"left out {row.name}: no {', no '.join(missing)}", flush=True)
                continue
            fault, is_counted = counts.try_row(row.name, lambda row=row: wrong(row, environment))
            rows_left.failed += [] if is_counted else [(row, fault)]
        finally:
            rows_left.put_back(rest)


def run_again(rows_left: Rows, environment: dict, counts: Counts) -> None:
    """Runs the rows that failed beside others, one after another, once nothing else is at work. Many rows don't fail by chance, so if many did,
    that counts."""
    counts.is_idle.wait()
    for row, fault in rows_left.failed:
        if len(rows_left.failed) > BY_CHANCE:
            counts.add(row.name, fault)
        else:
            counts.try_again(row.name, fault, lambda row=row: wrong(row, environment))
