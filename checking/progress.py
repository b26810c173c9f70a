"""Runs rt ci, and tells every half minute how far it is and about how long the whole check still takes.

rt says when a crate or its tests are proved, when it begins with a crate's must-fail edits, and what it takes from earlier runs. It says
that edits have ended only when all of them have. So the time that is left is worked out in seconds of a processor: those that the whole
gate takes by the table of costs.txt, less those that rt and the processes below it have taken so far.
"""
import os
import re
import select
import shutil
import subprocess
import time
from pathlib import Path
from typing import IO, Callable, Dict, Iterator, Optional, Set

from checking import costs
from checking.costs import Cost
from checking.crates import TOP, below, own

FIRST = "cf_core"  # the crates that it stands on are proved first: they stand on one another, and nearly all others stand on them
OTHER = Cost(proof=100, tests=100)  # of a crate that isn't in the table
CALLERS = 120  # seconds, for the rows that are left when rt ci ends
EVERY = 30  # seconds from one line to the next
AMPLE = 4 << 30  # bytes of memory for each processor, with which no check waits for memory
TICKS = os.sysconf("SC_CLK_TCK")


def has_tests(name: str) -> bool:
    return any("#[test]" in path.read_text(encoding="utf-8") for path in (TOP / "crates" / name / "src").rglob("*.rt"))


def at_once(memory: int) -> int:
    """How many checks that take so many bytes may go on at a time: there is a processor and memory for each."""
    with open("/proc/meminfo", encoding="ascii") as file:
        free = next(int(it.split()[1]) << 10 for it in file if it.startswith("MemAvailable"))
    try:
        with open("/sys/fs/cgroup/memory.max", encoding="ascii") as file:
            free = min(free, int(file.read()))
    except (OSError, ValueError):
        pass  # no control group, or no limit in it
    return max(1, min(len(os.sched_getaffinity(0)), free // memory))


def rt_path() -> Path:
    return Path(os.path.realpath(shutil.which("rt") or "rt"))


def may_keep_proofs() -> bool:
    """Whether this rt keeps what a run proved for later runs. Older toolchains prove everything anew each time."""
    return "rattle-kept" in rt_path().read_text(encoding="utf-8", errors="replace")


def keeps_proofs() -> bool:
    """Whether rt kept a proof of an earlier run on this machine."""
    return any(rt_path().parents[2].glob("rattle-kept/proof-*"))


def lines_of(pipe: IO[bytes]) -> Iterator[Optional[str]]:
    """Each line that comes, and None for each second without one."""
    rest = b""
    while True:
        if not select.select([pipe], [], [], 1)[0]:
            yield None
            continue
        more = os.read(pipe.fileno(), 1 << 16)
        if not more:
            break
        *lines, rest = (rest + more).split(b"\n")
        yield from (it.decode(errors="replace") for it in lines)
    if rest:
        yield rest.decode(errors="replace")


def seconds_of(pid: int) -> float:
    """The seconds of a processor that a process has taken, and all that it started."""
    took: Dict[int, float] = {}
    parents = {}
    for path in Path("/proc").glob("[0-9]*/stat"):
        try:
            fields = path.read_text().rpartition(")")[2].split()
        except OSError:
            continue  # it has ended
        parents[int(path.parent.name)] = int(fields[1])
        took[int(path.parent.name)] = sum(map(int, fields[11:15])) / TICKS
    total, wanted = 0.0, {pid}
    while wanted:
        total += sum(took.get(it, 0) for it in wanted)
        wanted = {it for it, parent in parents.items() if parent in wanted}
    return total


class Gate:
    """What rt ci has said so far."""

    def __init__(self) -> None:
        names = list(own())
        self.tested = {name for name in names if has_tests(name)}
        self.edits = {name: len(list((TOP / "crates" / name / "must-fail").glob("*.edit"))) for name in names}
        table = costs.read()
        self.costs = {name: table.get(name, OTHER) for name in names}
        self.proofs = {name: cost.proof for name, cost in self.costs.items()}
        self.of_tests = {name: self.costs[name].tests or OTHER.tests for name in self.tested}
        self.left_out = 0.0  # what is kept from earlier runs
        self.proved: Set[str] = set()
        self.passed: Set[str] = set()  # whose tests are proved
        self.begun: Set[str] = set()  # whose edits are tried
        self.kept: Set[str] = set()

    def of_edits(self, name: str, count: int) -> float:
        """By the table, if it has edits of the crate. Else one edit is a whole proof; several are a proof once more, and then a part of it
        for each edit and for the crate as it is."""
        cost = self.costs[name]
        if cost.count:
            return cost.edits * count / cost.count
        return 0 if not count else cost.proof if count == 1 else cost.proof + (count + 1) * (8 + cost.proof / 20)

    def whole(self) -> float:
        edits = sum(self.of_edits(name, count) for name, count in self.edits.items())
        return sum(self.proofs.values()) + sum(self.of_tests.values()) + edits - self.left_out

    def take(self, line: str) -> None:
        found = re.match(r"rt: (\w+)(?: (proved|is kept)|(: its tests are proved)|: trying its must-fail edits \((\d+)\))", line)
        if not found or found[1] not in self.proofs:
            return
        name = found[1]
        if found[2]:
            self.proved.add(name)
        if found[2] == "is kept":
            # (its files and the libraries below are the same, so its tests and edits are kept, too, unless rt says that it tries them)
            self.kept.add(name)
            self.left_out += self.proofs[name] + self.of_tests.get(name, 0) + self.of_edits(name, self.edits[name])
        if found[3]:
            self.passed.add(name)
            self.left_out -= self.of_tests.get(name, 0) if name in self.kept else 0
        if found[4]:
            self.begun.add(name)
            self.left_out -= self.of_edits(name, int(found[4])) if name in self.kept else 0

    def line(self, spent: float, elapsed: float) -> str:
        whole = max(self.whole(), 1.0)
        tests = len(self.passed | self.kept & self.tested)
        with_edits = [name for name, count in self.edits.items() if count]
        edits = len({*with_edits} & (self.begun | self.kept))
        more = max(0.0, whole - spent) * elapsed / max(spent, 1.0) + CALLERS
        so_far = f"{len(self.proved)} of {len(self.proofs)} crates proved, tests of {tests} of {len(self.tested)}"
        share = min(99, round(100 * spent / whole))
        return f"check: {so_far}, edits of {edits} of {len(with_edits)} begun; {share}% after {elapsed / 60:.0f} min, about {more / 60:.0f} min more"


def prove_first() -> None:
    """Runs rt ci until it has proved the crates below FIRST, which it keeps, or has failed to. It isn't told how many checks to do at a time,
    so it gives idle processors to a proof that is running."""
    gate, awaited = Gate(), set(below(FIRST, own())[:-1])
    with subprocess.Popen(["rt", "ci"], cwd=str(TOP), stdout=subprocess.PIPE) as running:
        try:
            for line in lines_of(running.stdout):
                if line is not None:
                    print(line, flush=True)
                    gate.take(line)
                if awaited <= gate.proved or "NOT PROVED" in (line or ""):
                    break
        finally:
            running.terminate()
            running.stdout.read()  # until it has ended, so that what it still writes has a reader


def run_gate(tell: Callable[[str], object]) -> int:
    """Runs rt ci over the checkout, prints what it prints, and answers its status; rt ci ends when this does. `tell` is called with the name
    of each crate once it is proved, and built if it is a program. Where memory is ample, rt is told to do one check more at a time than there
    are processors, so that none rests while a long proof ends. By itself it counts two or three times the memory that a check takes, and a
    large crate, on which others wait, comes last. But it gives idle processors to a proof that is running, which it doesn't if it is told. So
    if nothing is kept, an rt ci that isn't told proves the first crates, if this rt keeps them."""
    environment = dict(os.environ)
    jobs = at_once(AMPLE)
    if jobs == len(os.sched_getaffinity(0)):
        if may_keep_proofs() and not keeps_proofs():
            prove_first()
        environment.setdefault("RT_JOBS", str(jobs + 1))
    gate, began = Gate(), time.monotonic()
    told = began
    with subprocess.Popen(["rt", "ci"], cwd=str(TOP), env=environment, stdout=subprocess.PIPE) as running:
        try:
            for line in lines_of(running.stdout):
                if line is not None:
                    print(line, flush=True)
                    before = len(gate.proved)
                    gate.take(line)
                    if len(gate.proved) > before:
                        tell(line.split()[1])
                now = time.monotonic()
                if now - told >= EVERY:
                    told = now
                    print(gate.line(seconds_of(running.pid), now - began), flush=True)
            return running.wait()
        finally:
            running.terminate()
