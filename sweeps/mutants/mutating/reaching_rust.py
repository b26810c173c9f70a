"""Which tests of Rust reach which mutants: each test runs once over the code as it is, in a process of its own, and writes down the mutants whose
functions it has called. A mutant is tried by these tests alone, the quick ones first, since the others never come to it."""
import re
import time
from concurrent.futures import ThreadPoolExecutor
from pathlib import Path
from typing import Callable, Dict, FrozenSet, List, NamedTuple, Optional, Sequence, Tuple

from mutating.programs import Program

QUICK = 1.0  # seconds: such tests of one program are run together
RunIt = Callable[[Sequence[str], str, Dict[str, str], float], Tuple[bool, str]]  # a command in a folder of the client, with variables, for so long


class Batch(NamedTuple):
    """Tests of one program that are run together, over a database that `stores` names or without one."""

    program: Program
    stores: str
    tests: Sequence[str]
    seconds: float = 0  # over the code as it is

    @property
    def limit(self) -> float:
        return 20 + 4 * self.seconds

    def run(self, run: RunIt, variables: Dict[str, str], seconds: float) -> Tuple[bool, str]:
        words = [self.program.words[0], "-q", "--exact", *self.tests]
        return run(words, self.program.folder, {**variables, **({"CF_STORES": self.stores} if self.stores else {})}, seconds)


class Test(NamedTuple):
    alone: Batch
    reached: Optional[FrozenSet[str]]  # the numbers of mutants, or None where that isn't known

    def reaches(self, number: str) -> bool:
        return self.reached is None or number in self.reached


def tests_in(program: Program, run: RunIt) -> List[str]:
    said = run([program.words[0], "--list", "--format", "terse"], program.folder, {}, 60)[1]
    return re.findall(r"^(.+): test$", said, re.M)


def recorded(alone: Batch, file: Path, run: RunIt, say: Callable[[str], None], longest: float) -> Optional[Test]:
    """A test with what it reaches; None for one that fails over the code as it is."""
    said = ""
    ways: List[Dict[str, str]] = [{"CF_REACHED": str(file)}, {}]
    for variables in ways:
        began = time.monotonic()
        is_well, said = alone.run(run, variables, longest)
        if is_well:
            reached = file.read_text(encoding="utf-8").split() if file.exists() else []
            return Test(alone._replace(seconds=time.monotonic() - began), frozenset(reached) if variables else None)
    say(f"left out {alone.program.name} {alone.tests[0]}: it fails over the code as it is\n{said[-2000:]}")
    return None


def record(programs: Sequence[Program], stores: str, folder: Path, run: RunIt, say: Callable[[str], None], seats: int, longest: float) -> List[Test]:
    """All tests that pass over the code as it is. Those that have a place for rows run once without a database and once over one, if there is one."""
    folder.mkdir()
    every = [
        Batch(program, over, [name])
        for program in programs
        for name in tests_in(program, run)
        for over in (["", stores] if stores and "Place" in program.text else [""])
    ]
    with ThreadPoolExecutor(seats) as pool:
        found = pool.map(lambda it: recorded(it[1], folder / str(it[0]), run, say, longest), enumerate(every))
        return [it for it in found if it]


def batches(tests: Sequence[Test], number: str, programs: Sequence[Program]) -> List[Batch]:
    """What is run over a mutant: the quick tests that reach it, those of a program together, by the order of the programs; then each slow one."""
    reaching = [it.alone for it in tests if it.reaches(number)]
    together = [
        [it for it in reaching if it.program == program and it.stores == stores and it.seconds < QUICK]
        for program in programs
        for stores in sorted({it.stores for it in reaching})
    ]
    quick = [its[0]._replace(tests=[it.tests[0] for it in its], seconds=sum(it.seconds for it in its)) for its in together if its]
    return quick + sorted((it for it in reaching if it.seconds >= QUICK), key=lambda it: it.seconds)


def failed_in(said: str) -> List[str]:
    """The tests that a program says have failed."""
    last = said.rpartition("\nfailures:\n")[2] if "\nfailures:\n" in said else ""
    return re.findall(r"^    (\S+)$", last, re.M)
