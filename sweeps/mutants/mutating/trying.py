"""Builds mutants of a client and tries them: its test programs run over each, the nearest first, until one fails."""
import hashlib
import json
import os
import re
import shutil
import signal
import subprocess
import sys
import sysconfig
import tempfile
import threading
import time
import zipfile
from concurrent.futures import ThreadPoolExecutor
from pathlib import Path
from typing import Any, Callable, Dict, List, NamedTuple, Optional, Sequence, Set, Tuple

from checking.tools import DEBIAN, junit
from mutating import reached, reaching_java, reaching_rust, schemata
from mutating.languages import JAVA, RULES_OF_JAVA, TOP, Language
from mutating.mutant import Mutant
from mutating.programs import Program, is_of_crate, nearness, program_of_rust, programs_of_python

BUILDING = 1200  # seconds
FIRST = 60  # seconds for a test program over a mutant, as long as nobody knows what it takes
LONGEST = 600  # seconds for a test program over the code as it is
LONG = 1  # seconds of a test in Python that is long
SQLITE_JDBC = "/usr/share/java/sqlite-jdbc.jar"  # of Debian's libxerial-sqlite-jdbc-java, for tests of stores
FEATURES = [
    "cf/testing",
    "cf/tokio",
    "cf/rayon",
    "cf/serde",
    "cf/tracing",
    "cf-store/sqlite",
    "cf-store/postgres",
    "cf-store/etcd",
    "cf-store/testing",
]
STARTS = threading.RLock()
RUNNING: Set[int] = set()  # processes, each of which leads a group
RUNNER = "sitecustomize.py"  # which each process of a copy finds where it is to write down what it reaches
SOURCE, MODULE = "native/_cf.c", "_cf.abi3.so"
MADE = ["target", "__pycache__", "*.so", "out"]  # what isn't copied


class Missing(Exception):
    """What isn't there to try mutants with."""


class Result(NamedTuple):
    mutant: Mutant
    noticed_by: str  # a test, or a program of tests, or nothing
    seconds: float
    asked: str = ""  # by whom it isn't noticed

    def __str__(self) -> str:
        return f"{self.mutant}: {'noticed by ' + self.noticed_by if self.noticed_by else 'NOT NOTICED' + self.asked}, {self.seconds:.1f} s"


def end(group: int) -> None:
    """Ends a process and all that it started."""
    try:
        os.killpg(group, signal.SIGKILL)
    except ProcessLookupError:
        pass


def end_all() -> None:
    """Ends all that `run` has running, and lets it start nothing more."""
    STARTS.acquire()
    for group in list(RUNNING):
        end(group)


def run(command: Sequence[str], folder: Path, environment: Dict[str, str], seconds: float) -> Tuple[bool, str]:
    """Whether a command ends with status 0 in time, and what it printed. All that it started is ended."""
    with tempfile.TemporaryFile("w+", encoding="utf-8", errors="replace") as said:
        with STARTS:
            done = subprocess.Popen(
                command, cwd=str(folder), env=environment, stdin=subprocess.DEVNULL, stdout=said, stderr=subprocess.STDOUT, start_new_session=True
            )
            RUNNING.add(done.pid)
        try:
            is_well = done.wait(seconds) == 0
        except subprocess.TimeoutExpired:
            is_well = False
        finally:
            RUNNING.discard(done.pid)
            end(done.pid)
            done.wait()
        said.seek(0)
        return is_well, said.read()


class Client:
    """A copy of a client, its test programs, and mutants built in it."""

    def __init__(self, language: Language, made: Path, say: Callable[[str], None]) -> None:
        self.language, self.made, self.say = language, made, say
        self.environment = dict(os.environ, PYTHONDONTWRITEBYTECODE="1", RUST_BACKTRACE="0")
        self.programs: List[Program] = []
        self.seconds: Dict[str, float] = {}  # that each test program took at its first run that passed
        self.whole: Dict[str, bool] = {}  # of each that was asked, whether it passes over the code as it is
        self.apart: Dict[str, Callable[[], None]] = {}  # mutants that are built one at a time, once the others were tried

    def copy(self, name: str) -> Path:
        """A copy of the client in a folder of this name, with what its tests read beside it."""
        folder = self.made / name / "clients" / self.language.client
        shutil.copytree(self.language.folder, folder, ignore=shutil.ignore_patterns(*MADE, *["build"][: self.language.client == "python"]))
        for beside in [path for path in (TOP / "clients").iterdir() if path.name != self.language.client]:
            (folder.parent / beside.name).symlink_to(beside)
        for beside in [TOP / it for it in ["crates", "conformance", "examples"]]:
            (self.made / name / beside.name).symlink_to(beside)
        return folder

    def text(self, file: str) -> str:
        return (self.language.folder / file).read_text(encoding="utf-8")

    def build(self, mutants: Sequence[Mutant]) -> List[Mutant]:
        """Builds mutants; answers those that can be built."""
        raise NotImplementedError

    def command(self, program: Program, mutant: Optional[Mutant], seat: int) -> Tuple[List[str], Path, Dict[str, str]]:
        """How a test program is run over a mutant, or over the code as it is, where no other process of this seat is at work."""
        raise NotImplementedError

    def put(self, mutant: Mutant, seat: int) -> None:
        """Puts a mutant where the programs of a seat run."""

    def take_back(self, mutant: Mutant, seat: int) -> None:
        """Undoes what `put` did."""

    def begin(self) -> None:
        """Mutants are built, and are tried from now on."""

    def goes_on(self) -> None:
        """Waits until there is something new to try those mutants with of which `tried` said nothing yet."""

    def nearest(self, file: str) -> List[Program]:
        """The test programs that may reach a file, in the order in which they are run."""
        reaching = [it for it in self.programs if file in it.reaches and self.whole.get(it.name, True)]
        return sorted(reaching, key=lambda it: (nearness(it, file), not is_of_crate(it, file), self.seconds.get(it.name, len(it.text) / 1000)))

    def limit(self, program: Program) -> float:
        """How many seconds a test program gets over a mutant."""
        return 20 + 4 * self.seconds[program.name] if program.name in self.seconds else FIRST

    def passes(self, program: Program, mutant: Optional[Mutant], seat: int) -> bool:
        """Whether a test program passes in time."""
        began = time.monotonic()
        is_well, said = run(*self.command(program, mutant, seat), self.limit(program) if mutant else LONGEST)
        if is_well:
            self.seconds.setdefault(program.name, time.monotonic() - began)
        elif not mutant:
            self.say(f"left out {program.name}: it fails over the code as it is\n{said[-2000:]}")
        return is_well

    def notices(self, program: Program, mutant: Mutant, seat: int) -> bool:
        """Whether a test program fails over a mutant alone. Where its first run was too short to say so, it is run again."""
        limit = self.limit(program)
        if self.passes(program, mutant, seat) or not self.is_sound(program, mutant, seat):
            return False
        return self.limit(program) <= limit or not self.passes(program, mutant, seat)

    def is_sound(self, program: Program, mutant: Mutant, seat: int) -> bool:
        """Whether a test program passes over the code as it is. It is asked once one has failed over a mutant. That of a mutant which was built
        by itself isn't asked, since the others aren't there any more."""
        if program.name not in self.whole and mutant.number not in self.apart:
            self.take_back(mutant, seat)
            self.whole[program.name] = self.passes(program, None, seat)
            self.put(mutant, seat)
        return self.whole.get(program.name, True)

    def tried(self, mutant: Mutant, seat: int) -> Optional[Result]:
        """What came of a mutant, or None where it isn't known yet."""
        began = time.monotonic()
        self.put(mutant, seat)
        try:
            for program in self.nearest(mutant.file):
                if self.notices(program, mutant, seat):
                    return Result(mutant, program.name, time.monotonic() - began)
            if not self.nearest(mutant.file):
                raise Missing(f"a test program that may reach {mutant.file} and passes over the code as it is")
            return Result(mutant, "", time.monotonic() - began)
        finally:
            self.take_back(mutant, seat)


class Python(Client):
    """Each seat has a copy, in which a mutant stands while it is tried. It is known of each test which lines it reaches, so only those are run that
    reach a mutant's: the cheap ones first, and those of one folder in one process."""

    def __init__(self, language: Language, made: Path, say: Callable[[str], None], seats: int) -> None:
        super().__init__(language, made, say)
        if not os.environ.get("CF_LIBRARY_DIR"):
            raise Missing("no CF_LIBRARY_DIR")
        self.folders = [self.copy(str(seat)).resolve() for seat in range(seats)]
        for folder in self.folders:
            shutil.copy2(reached.RUNNING, folder / RUNNER)
            run([sys.executable, "-m", "compileall", "-q", "cf", "tests"], folder, dict(os.environ), BUILDING)
        self.environment["CF_REQUESTS"] = "2000"
        (self.made / "modules").mkdir()
        if not self.compiled("whole", language.folder / SOURCE):
            raise Missing("a C compiler with Python's headers")
        for folder in self.folders:
            shutil.copy2(self.made / "modules/whole", folder / "cf" / MODULE)
        self.etcd = threading.Lock()  # which one process uses at a time
        self.stores: Dict[str, str] = {}  # of each kind of server the address of one
        self.get_ready()
        sources = [*(language.folder / "cf").rglob("*.py"), language.folder / SOURCE]
        beside = [path for path in (language.folder / "tests").rglob("*.py") if not path.name.startswith("test_")]
        total = reached.sum_of(str(sys.version_info[:2]), [reached.RUNNING, *sources, *beside])
        asked = [(it, over) for over in ["", *self.stores] for it in self.programs if not over or re.search(r"\bSTORES\b|\.each\(", it.text)]
        with ThreadPoolExecutor(seats) as pool:
            self.tests = [test for tests in pool.map(lambda it: self.recorded(it[0], it[1], total), asked) for test in tests]

    def get_ready(self) -> None:
        self.programs = programs_of_python(self.language.folder, False)
        self.stores = {it.partition(":")[0]: it for it in os.environ.get("CF_STORES", "").split()}

    def recorded(self, program: Program, over: str, total: str) -> List[reached.Test]:
        """What the tests of a file reach."""

        def write(into: Path) -> None:
            self.say(f"writing down what {name} reaches, which is kept for the next time")
            more = {"CF_REACHED": str(into / "0"), "PYTHONPATH": str(self.folders[0]), **self.written_down(into)}
            is_well, said = self.run_tests(["record", program.source, str(into)], over, re.sub(r"\W", "_", name), self.folders[0], more, BUILDING)
            if not is_well:
                self.say(f"left out a part of {name}: it fails over the code as it is\n{said[-2000:]}")

        name = f"{program.source} over {over}" if over else program.source
        total = reached.sum_of(total, [self.language.folder / program.source])
        return reached.kept(re.sub(r"\W", "_", f"{self.language.name}-{name}"), total, over, write)

    def run_tests(self, words: Sequence[str], over: str, name: str, folder: Path, more: Dict[str, str], seconds: float) -> Tuple[bool, str]:
        """Runs tests over no server, a database of this name in PostgreSQL, or an etcd."""
        address = self.stores.get(over, "")
        store = f"{address.rpartition('/')[0]}/m{name}" if over == "postgresql" else address
        with self.etcd if over == "etcd" else threading.Lock():
            return run([sys.executable, RUNNER, *words], folder, {**self.environment, **more, "CF_STORES": store}, seconds)

    def compiled(self, name: str, source: Path) -> bool:
        folder = os.environ["CF_LIBRARY_DIR"]
        command = [
            "cc",
            "-O1",
            "-w",
            "-fPIC",
            "-shared",
            f"-I{sysconfig.get_paths()['include']}",
            f"-I{TOP}/crates/cf_c/include",
            str(source),
            "-Wl,--whole-archive",
            f"{folder}/libcf.a",
            "-Wl,--no-whole-archive",
            "-pthread",
            "-o",
            str(self.made / "modules" / name),
        ]
        return run(command, self.made, self.environment, BUILDING)[0]

    def written_down(self, into: Path) -> Dict[str, str]:
        """What is written down, as a piece of the environment."""
        return {"CF_REACHED_OF": f"{self.folders[0]}/cf/"}

    def reached_by(self, mutant: Mutant) -> Set[int]:
        """What has to be reached where a mutant matters."""
        return reached.lines_of(mutant, self.text(mutant.file))

    def batches(self, mutant: Mutant) -> List[List[reached.Test]]:
        """The tests that reach a mutant, and then those that may and weren't written down whole, in the order in which they are run."""
        near = {it.source: nearness(it, mutant.file) for it in self.programs}
        marks = self.reached_by(mutant)
        found: Dict[Tuple[str, int, str], List[reached.Test]] = {}
        for it in self.tests:
            grade = (it.seconds >= LONG / 10) + (it.seconds >= LONG) if marks & it.reached.get(mutant.file, set()) else 3
            if grade < 3 or (not it.is_whole and mutant.file in it.reached):
                found.setdefault((it.over, grade, str(Path(it.file).parent)), []).append(it)
        for batch in found.values():
            batch.sort(key=lambda it: (near[it.file] > 1, it.seconds))
        return [found[key] for key in sorted(found, key=lambda key: (*key[:2], min(near[it.file] for it in found[key])))]

    def failing(self, batch: Sequence[reached.Test], seat: int) -> Optional[reached.Test]:
        """The first of some tests that fails."""
        limits = [20 + 4 * it.seconds for it in batch]
        words = [word for it, limit in zip(batch, limits) for word in (it.name, f"{limit:.0f}")]
        is_well, said = self.run_tests(["run", *words], batch[0].over, str(seat), self.folders[seat], {}, FIRST + sum(limits))
        begun = re.findall("^test: (.*)$", said, re.M)[-1:]
        return None if is_well else next((it for it in batch if begun == [it.name]), batch[-1])

    def is_noticed(self, batch: Sequence[reached.Test], mutant: Mutant, seat: int) -> bool:
        """Whether the last of some tests, which has failed over a mutant, fails again, since a busy machine may have made it fail, and passes behind
        the others over the code as it is, which is asked once."""
        last = batch[-1]
        if not self.failing([last], seat):
            return False
        if str(last) not in self.whole:
            self.take_back(mutant, seat)
            self.whole[str(last)] = self.failing(batch, seat) != last
            self.put(mutant, seat)
            if not self.whole[str(last)]:
                self.say(f"left out {last}: it fails over the code as it is")
        return self.whole[str(last)]

    def tried(self, mutant: Mutant, seat: int) -> Result:
        began, many = time.monotonic(), 0
        self.put(mutant, seat)
        try:
            for batch in self.batches(mutant):
                left = [it for it in batch if self.whole.get(str(it), True)]
                many += len(left)
                while left:
                    failing = self.failing(left, seat)
                    behind = left.index(failing) + 1 if failing else len(left)
                    if failing and self.is_noticed(left[:behind], mutant, seat):
                        return Result(mutant, str(failing), time.monotonic() - began)
                    left = left[behind:]
            return Result(mutant, "", time.monotonic() - began, f" by the {many} tests that reach it" if many else ", no test reaches it")
        finally:
            self.take_back(mutant, seat)

    def build(self, mutants: Sequence[Mutant]) -> List[Mutant]:
        return [it for it in mutants if self.is_python(it.put_into(self.text(it.file)))]

    @staticmethod
    def is_python(text: str) -> bool:
        try:
            compile(text, "mutant", "exec")
        except SyntaxError:
            return False
        return True

    def put(self, mutant: Mutant, seat: int) -> None:
        (self.folders[seat] / mutant.file).write_text(mutant.put_into(self.text(mutant.file)), encoding="utf-8")

    def take_back(self, mutant: Mutant, seat: int) -> None:
        shutil.copy2(self.language.folder / mutant.file, self.folders[seat] / mutant.file)


class CModule(Python):
    """The C module of Python: each mutant is compiled, and its module stands in a seat's copy while it is tried."""

    def get_ready(self) -> None:
        self.programs = programs_of_python(self.language.folder, True)
        source, self.many = reached.marked(self.text(SOURCE))
        (self.made / "marked.c").write_text(source, encoding="utf-8")
        if not self.compiled("marked", self.made / "marked.c"):
            raise Missing("a C compiler with Python's headers")
        for folder in self.folders:
            shutil.copy2(self.made / "modules/marked", folder / "cf" / MODULE)

    def recorded(self, program: Program, over: str, total: str) -> List[reached.Test]:
        return [it._replace(is_whole=True) for it in super().recorded(program, over, total)]  # (a process writes down its marks to its end)

    def written_down(self, into: Path) -> Dict[str, str]:
        (into / "marks").write_bytes(bytes(self.many))
        return {"CF_MARKS": str(into / "marks"), "CF_REACHED_OF": "nothing"}

    def reached_by(self, mutant: Mutant) -> Set[int]:
        return reached.block_of(mutant, self.text(mutant.file))

    def build(self, mutants: Sequence[Mutant]) -> List[Mutant]:
        built = []
        for it in mutants:
            source = self.made / "modules" / f"{it.number}.c"
            source.write_text(it.put_into(self.text(it.file)), encoding="utf-8")
            built += [it] if self.compiled(it.number, source) else []
        return built

    def put(self, mutant: Mutant, seat: int) -> None:
        shutil.copy2(self.made / "modules" / mutant.number, self.folders[seat] / "cf" / MODULE)

    def take_back(self, mutant: Mutant, seat: int) -> None:
        shutil.copy2(self.made / "modules/whole", self.folders[seat] / "cf" / MODULE)


class Java(Client):
    """All mutants are compiled by one process, and each stands in a jar of its own while it is tried. All tests run once, and say which statements
    they reach. A mutant is tried with those that come by it, the quick ones first; several of them run in one process. It is tried with some
    while others are still to say what they reach."""

    def __init__(self, language: Language, made: Path, say: Callable[[str], None], seats: int) -> None:
        super().__init__(language, made, say)
        if not os.environ.get("CF_LIBRARY_DIR"):
            raise Missing("no CF_LIBRARY_DIR")
        if not shutil.which("javac"):
            raise Missing("no javac")
        self.libraries = junit() or ""
        self.environment["CF_JUNIT"] = self.libraries
        self.folder = self.copy("java")
        self.jars = self.built(self.folder, made / "jars")
        reach = self.copy("reach")
        self.places = reaching_java.Places(reach)
        self.key = reaching_java.key_of([language.folder, TOP / "crates/cf_c/include"])
        kept = reaching_java.kept(self.key)
        self.reach_jars = made / "reach-jars" if kept else self.built(reach, made / "reach-jars")
        self.unread: List[reaching_java.Test] = [] if kept else self.listed()  # tests that haven't said what they reach
        self.tests: List[reaching_java.Test] = kept or []
        self.many = len(self.tests) + len(self.unread)
        self.seats = seats
        self.new = threading.Condition()
        self.over: Dict[str, Set[str]] = {}  # of mutants that aren't noticed yet, the tests that were looked at
        self.spent: Dict[str, float] = {}  # of these, the seconds
        self.sound: Dict[str, bool] = {}  # of tests that failed over a mutant, or that can't say what they reach: whether they pass otherwise

    def built(self, folder: Path, jars: Path) -> Path:
        """The jars of a copy, and the classes of its tests beside them."""
        parts = ["test", "opentelemetry", *["junit/test"][: bool(self.libraries)]]
        sources = [str(path) for part in parts for path in (folder / part).rglob("*.java")]
        compiles = ["javac", "-nowarn", "-encoding", "UTF-8", "-cp", self.path(jars), "-d", str(jars / "tests"), *sources]
        for command in [["sh", "build", "--quick", str(jars)], compiles]:
            is_built, said = run(command, folder, self.environment, BUILDING)
            if not is_built:
                raise Missing(f"the copy can't be built:\n{said}")
        return jars

    def path(self, jars: Path, jar: str = "") -> str:
        return f"{jar or jars / 'cf-service.jar'}:{jars}/cf-service-junit.jar:{jars}/tests:{self.libraries}:{SQLITE_JDBC}"

    def java(self, path: str, words: Sequence[str]) -> List[str]:
        return ["java", "-Xmx64m", "-XX:+UseSerialGC", "-XX:TieredStopAtLevel=1", "-Dtest.times=true", "-cp", path, *words]

    def listed(self) -> List[reaching_java.Test]:
        """All tests, in an order by chance, so that those of all parts come early."""
        command = ["java", "-Dtest.list=true", "-cp", self.path(self.reach_jars), reaching_java.ALL]
        said = subprocess.run(command, cwd=str(TOP), env=self.environment, stdout=subprocess.PIPE, check=True).stdout.decode()
        names = re.findall(r"^test: (.+)$", said, re.M) + [reaching_java.EVERY_ORDER][: bool(self.libraries)]
        tests = [reaching_java.Test(name, place, 0.0, None) for place, name in enumerate(names)]
        return sorted(tests, key=lambda it: hashlib.sha256(it.name.encode()).digest())

    def begin(self) -> None:
        for _ in range(self.seats):
            threading.Thread(target=self.read, daemon=True).start()

    def read(self) -> None:
        """Runs tests once over the copy that says what is reached, as long as some are left."""
        while True:
            with self.new:
                if not self.unread:
                    return
                test = self.unread.pop(0)
            file = self.made / f"reached-{test.place}"
            file.write_bytes(bytes(self.places.count))
            began, command = time.monotonic(), self.java(self.path(self.reach_jars), test.words)
            is_well, said = run(command, TOP, dict(self.environment, CF_REACHED=str(file)), reaching_java.LONG)
            if not is_well:
                self.say(f"{test.name} fails where statements say that they are reached, so it isn't left out anywhere:\n{said[-600:]}")
            read = test._replace(seconds=time.monotonic() - began, reached=file.read_bytes() if is_well else None)
            file.unlink()
            with self.new:
                self.tests = [*self.tests, read]
                if len(self.tests) == self.many:
                    reaching_java.keep(self.key, self.tests)
                    self.say(f"{self.many} tests have said what they reach")
                self.new.notify_all()

    def goes_on(self) -> None:
        with self.new:
            known = len(self.tests)
            self.new.wait_for(lambda: len(self.tests) >= min(self.many, known + 10))

    def build(self, mutants: Sequence[Mutant]) -> List[Mutant]:
        made = self.made / "mutants"
        made.mkdir(exist_ok=True)
        asked = []
        for it in mutants:
            (made / (it.number + ".java")).write_text(it.put_into(self.text(it.file)), encoding="utf-8")
            asked.append(f"{it.number}\t{made}/{it.number}.java\t{it.file}\n")
        command = [*JAVA, str(RULES_OF_JAVA), "--compile", self.path(self.jars), str(made)]
        said = subprocess.run(command, input="".join(asked).encode(), stdout=subprocess.PIPE, check=True).stdout.decode()
        built = {line.partition("\t")[0] for line in said.splitlines() if line.endswith("\tbuilt")}
        return [it for it in mutants if it.number in built]

    def put(self, mutant: Mutant, seat: int) -> None:
        """A jar with the mutant's classes in place of those that it changes: tests look for others beside them."""
        classes = self.made / "mutants" / mutant.number
        changed = {str(path.relative_to(classes)): path for path in classes.rglob("*.class")}
        with zipfile.ZipFile(self.jars / "cf-service.jar") as whole, zipfile.ZipFile(self.made / f"{mutant.number}.jar", "w") as jar:
            for it in [it for it in whole.infolist() if it.filename not in changed]:
                jar.writestr(it, whole.read(it))
            for name, path in changed.items():
                jar.write(path, name)

    def take_back(self, mutant: Mutant, seat: int) -> None:
        (self.made / f"{mutant.number}.jar").unlink()

    def first_failed(self, tests: Sequence[reaching_java.Test], mutant: Optional[Mutant]) -> Optional[reaching_java.Test]:
        """Runs tests in one process, over a mutant or over the code as it is; the one that failed, or ran when the time was over."""
        path = self.path(self.jars, str(self.made / f"{mutant.number}.jar") if mutant else "")
        words = [*tests[0].words, *[it.name for it in tests[1:]]]
        is_well, said = run(self.java(path, words), TOP, self.environment, 20 + 4 * sum(it.seconds for it in tests))
        if is_well:
            return None
        failed = re.search(r"^java\.lang\.AssertionError: (.+)$", said, re.M)
        passed = set(re.findall(r"^ *\d+ ms  (.+)$", said, re.M))
        left = [it for it in tests if it.name not in passed]
        return next((it for it in left if failed and it.name == failed[1]), (left or tests)[0])

    def is_well(self, test: reaching_java.Test) -> bool:
        """Whether a test passes over the code as it is. It is asked once it has failed over a mutant."""
        if test.name not in self.sound:
            self.sound[test.name] = self.first_failed([test], None) is None
            if not self.sound[test.name]:
                self.say(f"left out {test.name}: it fails over the code as it is")
        return self.sound[test.name]

    def tried(self, mutant: Mutant, seat: int) -> Optional[Result]:
        began, places, known = time.monotonic(), self.places.of(mutant), self.tests
        over = self.over.setdefault(mutant.number, set())
        tests = [it for it in known if it.name not in over and reaching_java.reaches(it, places) and self.sound.get(it.name, True)]
        spent = self.spent.get(mutant.number, 0.0)
        if tests:
            self.put(mutant, seat)
            try:
                failed = self.noticing(tests, mutant)
            finally:
                self.take_back(mutant, seat)
            spent += time.monotonic() - began
            if failed:
                return Result(mutant, failed.name, spent)
        over.update(it.name for it in known)
        self.spent[mutant.number] = spent
        return Result(mutant, "", spent) if len(over) == self.many else None

    def noticing(self, tests: Sequence[reaching_java.Test], mutant: Mutant) -> Optional[reaching_java.Test]:
        """The first of these tests that fails over a mutant with others and by itself, and passes over the code as it is."""
        for batch in reaching_java.batches(tests):
            left = batch
            while left:
                failed = self.first_failed(left, mutant)
                if failed is None:
                    break
                if self.first_failed([failed], mutant) is not None and self.is_well(failed):  # (else it was by chance)
                    return failed
                left = [it for it in left if it.place > failed.place]
        return None


class Rust(Client):
    """The crates are built once with all mutants, of which a variable of the environment chooses one. One that can't stand beside the others
    is built by itself. The others are tried by the tests that reach them."""

    def __init__(self, language: Language, made: Path, say: Callable[[str], None], seats: int) -> None:
        super().__init__(language, made, say)
        if not os.environ.get("CF_LIBRARY_DIR"):
            raise Missing("no CF_LIBRARY_DIR")
        if not shutil.which("cargo"):
            raise Missing("no cargo")
        target = Path(os.environ.get("CARGO_TARGET_DIR", made / "target")).resolve()
        self.made = target / "mutants"  # (always the same, so that cargo knows what it has built)
        shutil.rmtree(self.made, ignore_errors=True)
        self.folder = self.copy("rust")
        self.environment.update(
            CARGO_TARGET_DIR=str(target),
            CARGO_PROFILE_DEV_DEBUG="0",
            RUSTFLAGS="--cap-lints allow",
            CF_HEADER=str(TOP / "crates/cf_c/include/cf.h"),
            CF_TOLD=str(TOP / "conformance/requests/told.json"),
            CF_PYTHON=str(TOP / "clients/python"),
        )
        has_debians = bool(list(DEBIAN.glob("tokio-postgres-[0-9]*")))
        self.words = ["--offline", "--workspace", "--features", ",".join(FEATURES if has_debians else FEATURES[:1])]
        self.seats, self.stores = seats, self.environment.pop("CF_STORES", "")
        self.tests: List[reaching_rust.Test] = []
        if has_debians:
            self.words = ["--config", "debian.toml", *self.words]
        else:
            say("left out what stands on crates of others: Debian's aren't there")

    def cargo(self, *words: str) -> Tuple[bool, List[Dict[str, Any]]]:
        """Runs cargo; whether it went well, and its messages."""
        is_well, said = run(["cargo", words[0], *self.words, *words[1:], "--message-format=json"], self.folder, self.environment, BUILDING)
        return is_well, [json.loads(line) for line in said.splitlines() if line.startswith("{")]

    def put_texts(self, texts: Dict[str, str]) -> None:
        """Lets files have these texts. A file that stays as it is keeps its time, by which cargo goes."""
        for file in self.language.files():
            path, text = self.folder / file, texts.get(file) or self.text(file)
            if path.read_text(encoding="utf-8") != text:
                path.write_text(text, encoding="utf-8")

    def build(self, mutants: Sequence[Mutant]) -> List[Mutant]:
        wrong: List[Mutant] = []  # that can't be built, as far as is known
        whole = {file: self.text(file) for file in self.language.files()}
        apart = schemata.outside(whole, mutants)  # those that can't stand beside others
        while True:
            chosen = [it for it in mutants if it not in wrong and it not in apart]
            texts = schemata.texts(whole, chosen)
            self.put_texts({file: it.text for file, it in texts.items()})
            is_well, messages = self.cargo("check", "--lib")
            if is_well:
                break
            blamed = schemata.blamed(texts, messages)
            wrong += blamed.arms
            apart += [] if blamed.arms else blamed.functions
            if not blamed.arms and not blamed.functions:
                raise Missing("the crates can't be built with mutants:\n" + "\n".join(schemata.errors(messages)))
        self.link()
        shutil.rmtree(self.made / "reached", ignore_errors=True)
        self.tests = reaching_rust.record(self.programs, self.stores, self.made / "reached", self.run_in, self.say, self.seats, LONGEST)
        self.say(f"{len(self.tests)} tests take {sum(it.alone.seconds for it in self.tests):.0f} s over the code as it is")
        for it in [it for it in apart if self.is_built_apart(it)]:
            self.apart[it.number] = lambda it=it: self.build_apart(it)  # type: ignore[misc]
        return [it for it in mutants if it not in wrong and (it not in apart or it.number in self.apart)]

    def is_built_apart(self, mutant: Mutant) -> bool:
        """Whether cargo takes a mutant without the others. What was built stays."""
        kept = {file: (self.folder / file).read_text(encoding="utf-8") for file in self.language.files()}
        self.put_texts({mutant.file: mutant.put_into(self.text(mutant.file))})
        is_well = self.cargo("check", "--lib")[0]
        self.put_texts(kept)
        return is_well

    def build_apart(self, mutant: Mutant) -> None:
        self.put_texts({mutant.file: mutant.put_into(self.text(mutant.file))})
        self.link()

    def link(self) -> None:
        """Builds the test programs."""
        is_well, messages = self.cargo("test", "--no-run", "--lib", "--tests")
        if not is_well:
            raise Missing("the tests can't be built:\n" + "\n".join(schemata.errors(messages)))
        made = []
        for it in messages:
            target = it.get("target")
            if it.get("executable") and isinstance(target, dict) and {"lib", "test"} & set(target["kind"]):
                made.append((Path(str(it["manifest_path"])).parent.name, target["name"], str(it["executable"])))
        self.programs = [program_of_rust(self.language.folder, *it) for it in sorted(made)]

    def command(self, program: Program, mutant: Optional[Mutant], seat: int) -> Tuple[List[str], Path, Dict[str, str]]:
        environment = dict(self.environment, CF_MUTANT=str(int(mutant.number, 16)) if mutant else "0")
        return list(program.words), self.folder / program.folder, environment

    def run_in(self, words: Sequence[str], folder: str, variables: Dict[str, str], seconds: float) -> Tuple[bool, str]:
        return run(words, self.folder / folder, dict(self.environment, **variables), seconds)

    def fails(self, batch: reaching_rust.Batch, mutant: Mutant) -> List[str]:
        """The tests of a batch that fail over a mutant, and pass over the code as it is; the whole batch where none says that it has failed."""
        chosen = {"CF_MUTANT": str(int(mutant.number, 16))}
        began = time.monotonic()
        is_well, said = batch.run(self.run_in, chosen, batch.limit)
        if is_well:
            return []
        is_late = time.monotonic() - began >= batch.limit
        found = batch._replace(tests=reaching_rust.failed_in(said) or batch.tests)
        if not found.run(self.run_in, {}, found.limit)[0]:
            return []  # it is no mutant's fault
        again = not is_late and found.run(self.run_in, chosen, found.limit)[0]
        return [] if again else list(found.tests)

    def tried(self, mutant: Mutant, seat: int) -> Optional[Result]:
        if mutant.number in self.apart:
            return super().tried(mutant, seat)
        began = time.monotonic()
        for batch in reaching_rust.batches(self.tests, mutant.number, self.nearest(mutant.file)):
            failed = self.fails(batch, mutant)
            if failed:
                return Result(mutant, f"{batch.program.name} {failed[0]}", time.monotonic() - began)
        return Result(mutant, "", time.monotonic() - began)


CLIENTS: Dict[str, Callable[[Language, Path, Callable[[str], None], int], Client]] = {"python": Python, "c": CModule, "java": Java, "rust": Rust}


def try_all(client: Client, mutants: Sequence[Mutant], seats: int) -> List[Result]:
    """Tries mutants that are built, as many at a time as there are seats."""
    free, lock = list(range(seats)), threading.Lock()
    results: List[Result] = []

    def tried(mutant: Mutant) -> bool:
        """Whether it is known what came of a mutant."""
        with lock:
            seat = free.pop()
        is_known = True
        try:
            result = client.tried(mutant, seat)
            with lock:
                is_known = result is not None
                if result:
                    results.append(result)
                    client.say(str(result))
        except Missing as what:
            client.say(f"{mutant}: not tried, for want of {what}")
        with lock:
            free.append(seat)
        return is_known

    client.begin()
    left = [it for it in mutants if it.number not in client.apart]
    while left:
        with ThreadPoolExecutor(seats) as pool:
            left = [it for it, is_known in zip(left, list(pool.map(tried, left))) if not is_known]
        if left:
            client.goes_on()
    for mutant in mutants:
        if mutant.number in client.apart:
            client.apart[mutant.number]()
            tried(mutant)
    return results
