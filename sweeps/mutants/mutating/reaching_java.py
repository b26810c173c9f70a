"""Which statements of Java's client each of its tests reaches. So that a mutant is tried with those tests alone that come by it, each test is run
once over a copy in which each statement says so, in a file that all processes of the test have in their memory."""
import hashlib
import json
import os
import subprocess
from pathlib import Path
from typing import Any, Dict, List, NamedTuple, Optional, Sequence, Tuple

from mutating.languages import JAVA, RULES_OF_JAVA
from mutating.mutant import Mutant

REACHED = """package cf.internal;

import java.nio.MappedByteBuffer;
import java.nio.channels.FileChannel;
import java.nio.file.Paths;
import java.nio.file.StandardOpenOption;

/** Where the file is that CF_REACHED names, with a byte for each statement, those that were reached are 1 there. */
public final class Reached {
    private static final MappedByteBuffer PLACES = places(System.getenv("CF_REACHED"));

    private static MappedByteBuffer places(String file) {
        try (FileChannel channel = file == null ? null : FileChannel.open(Paths.get(file), StandardOpenOption.READ, StandardOpenOption.WRITE)) {
            return channel == null ? null : channel.map(FileChannel.MapMode.READ_WRITE, 0, channel.size());
        } catch (java.io.IOException none) {
            throw new AssertionError(none);
        }
    }

    public static void at(int place) {
        if (PLACES != null) {
            PLACES.put(place, (byte) 1);
        }
    }
}
"""
LONG = 900  # seconds for a test that says what it reaches
ALL = "cf.service.AllTests"
EVERY_ORDER = "EveryOrderTest"


class Test(NamedTuple):
    """A test of Java's, by the name that AllTests has for it."""

    name: str
    place: int  # in the order in which AllTests runs them
    seconds: float  # that a process took which ran it alone
    reached: Optional[bytes]  # of each statement whether it was, or None where the test fails in such a copy

    @property
    def words(self) -> List[str]:
        """By which it is run, with others behind it where AllTests runs them."""
        return ["cf.testing.junit." + EVERY_ORDER] if self.name == EVERY_ORDER else [ALL, self.name]


class Places:
    """Where the statements and methods of a copy's files stood, as they are without what says that they were reached."""

    def __init__(self, folder: Path) -> None:
        files = sorted((folder / "src/cf").rglob("*.java"))
        said = subprocess.run([*JAVA, str(RULES_OF_JAVA), "--reach", *map(str, files)], stdout=subprocess.PIPE, check=True).stdout.decode()
        (folder / "src/cf/internal/Reached.java").write_text(REACHED, encoding="utf-8")
        self.statements: Dict[str, List[Tuple[int, int, int]]] = {}
        self.methods: Dict[str, List[Tuple[int, int]]] = {}
        self.count = 0
        for line in said.splitlines():
            path, number, start, end = line.split("\t")
            file = str(Path(path).relative_to(folder))
            if number == "method":
                self.methods.setdefault(file, []).append((int(start), int(end)))
            else:
                self.statements.setdefault(file, []).append((int(start), int(end), int(number)))
                self.count += 1

    def of(self, mutant: Mutant) -> List[int]:
        """The numbers of statements, one of which is reached where the mutant is: the one that it is in; else, as where it is in a method's head,
        those of its method; else those of its file, since what a class does at first is done for whichever test comes first."""
        at, statements = mutant.place.start, self.statements.get(mutant.file, [])
        around = [(start, number) for start, end, number in statements if start <= at < end]
        if around:
            return [max(around)[1]]
        methods = [it for it in self.methods.get(mutant.file, []) if it[0] <= at < it[1]]
        if methods:
            first, last = max(methods)
            return [number for start, _, number in statements if first <= start < last]
        return [number for _, _, number in statements]


def reaches(test: Test, places: Sequence[int]) -> bool:
    return test.reached is None or any(test.reached[it] for it in places)


def key_of(folders: Sequence[Path]) -> str:
    """What the texts of the sources come to."""
    made = hashlib.sha256()
    for path in sorted(it for folder in folders for it in folder.rglob("*") if it.suffix in (".java", ".c")):
        made.update(str(path).encode() + path.read_bytes())
    return made.hexdigest()


def kept(key: str) -> Optional[List[Test]]:
    """What the file that CF_REACHES names has of these sources."""
    path = Path(os.environ.get("CF_REACHES", ""))
    if not path.is_file():
        return None
    read: Dict[str, Any] = json.loads(path.read_text(encoding="utf-8"))
    if read["key"] != key:
        return None
    return [Test(name, place, seconds, None if reached is None else bytes.fromhex(reached)) for name, place, seconds, reached in read["tests"]]


def keep(key: str, tests: Sequence[Test]) -> None:
    path = os.environ.get("CF_REACHES")
    if path:
        told = [[it.name, it.place, it.seconds, None if it.reached is None else it.reached.hex()] for it in tests]
        Path(path).write_text(json.dumps({"key": key, "tests": told}), encoding="utf-8")


def batches(tests: Sequence[Test]) -> List[List[Test]]:
    """Tests that one process runs together, in the order of AllTests: the quick ones first, and each batch as long as those before it, or a test.
    Those of which nobody knows what they reach come last."""
    found: List[List[Test]] = []
    room = 0.0
    for test in sorted(tests, key=lambda it: (it.reached is None, it.name == EVERY_ORDER, it.seconds)):
        is_alone = EVERY_ORDER in (test.name, found[-1][0].name) if found else True
        if is_alone or room < test.seconds or (test.reached is None) != (found[-1][0].reached is None):
            found.append([])
            room = max(3.0, sum(it.seconds for batch in found for it in batch))
        found[-1].append(test)
        room -= test.seconds
    return [sorted(it, key=lambda test: test.place) for it in found]
