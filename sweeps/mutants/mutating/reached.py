"""What each test of Python reaches, as running.py has written it down once over the code as it is."""
import ast
import hashlib
import json
import os
import tempfile
from pathlib import Path
from typing import Callable, Dict, Iterable, List, NamedTuple, Set, Tuple

from mutating.mutant import Mutant
from mutating.of_tokens import functions
from mutating.tokens import Tokens

RUNNING = Path(__file__).resolve().parent / "running.py"
KEPT = Path(os.environ.get("XDG_CACHE_HOME") or Path.home() / ".cache") / "cf-mutants"
STORES = {"postgresql": "cf/store/postgres.py", "etcd": "cf/store/etcd.py"}


class Test(NamedTuple):
    name: str  # FILE:CLASS.TEST
    over: str  # the kind of the store's server that it is run over, or nothing
    seconds: float  # that it took while what it reaches was written down
    is_whole: bool  # whether all that it reaches was written down
    reached: Dict[str, Set[int]]  # of each file

    @property
    def file(self) -> str:
        return self.name.partition(":")[0]

    def __str__(self) -> str:
        return f"{self.name} over {self.over}" if self.over else self.name


def tests_in(folder: Path, over: str) -> List[Test]:
    """What was written down of a file of tests. Over a server only those count that call the store's functions for it."""
    found = []
    lines = [line.split(" ", 2) for line in (folder / "tests").read_text(encoding="utf-8").splitlines()] if (folder / "tests").exists() else []
    texts = [(folder / k).read_text(encoding="utf-8").splitlines() if (folder / k).exists() else [] for k in ["0", *(it[0] for it in lines)]]
    common = {line.lstrip("M") for text in texts for line in text if line.startswith("M") or text is texts[0]}
    for (_, seconds, name), text in zip(lines, texts[1:]):
        reached: Dict[str, Set[int]] = {}
        for line in (common | {it.lstrip("M") for it in text}) - {"*"}:
            mark, file = line.split(" ", 1)
            reached.setdefault(file, set()).add(int(mark))
        if not over or any(it[0] != "M" and it.endswith(STORES[over]) for it in text):
            found.append(Test(name, over, float(seconds), "*" not in text and "*" not in common, reached))
    return found


def sum_of(words: str, paths: Iterable[Path]) -> str:
    told = hashlib.sha256(words.encode())
    for path in sorted(paths):
        told.update(f"{path.name}\0".encode() + hashlib.sha256(path.read_bytes()).digest())
    return told.hexdigest()[:16]


def kept(name: str, total: str, over: str, write: Callable[[Path], None]) -> List[Test]:
    """The record of a file of tests with this sum of all that it was made of, which is made where it isn't there."""
    path = KEPT / f"{name}-{total}.json"
    if not path.exists():
        with tempfile.TemporaryDirectory() as made:
            write(Path(made))
            facts = [
                [it.name, it.over, it.seconds, it.is_whole, {file: sorted(marks) for file, marks in it.reached.items()}]
                for it in tests_in(Path(made), over)
            ]
        KEPT.mkdir(parents=True, exist_ok=True)
        for old in KEPT.glob(f"{name}-{'?' * len(total)}.json"):
            old.unlink()
        beside = Path(f"{path}.{os.getpid()}")
        beside.write_text(json.dumps(facts), encoding="utf-8")
        beside.replace(path)
    return [
        Test(name, over, seconds, is_whole, {file: set(marks) for file, marks in reached.items()})
        for name, over, seconds, is_whole, reached in json.loads(path.read_text(encoding="utf-8"))
    ]


# Python


def lines_of(mutant: Mutant, text: str) -> Set[int]:
    """The lines of which one has to be reached where a mutant matters: those of its statement, or of the head of one with a body. A function that
    returns early has to be called."""
    is_early, start = mutant.place.rule == "early", mutant.place.start
    at = (mutant.line, len(text[text.rfind("\n", 0, start) + 1 : start].encode()))
    around = [it for it in ast.walk(ast.parse(text)) if isinstance(it, ast.stmt) and (it.lineno, it.col_offset) <= at < end_of(it)]
    if is_early:
        around = [it for it in around if isinstance(it, (ast.FunctionDef, ast.AsyncFunctionDef))]
    node = around[-1]  # which is the innermost one
    return {-first_line(node)} if is_early else set(range(first_line(node), last_line(node) + 1))


def end_of(node: ast.stmt) -> Tuple[int, int]:
    return node.end_lineno or 0, node.end_col_offset or 0


def first_line(node: ast.stmt) -> int:
    decorators: List[ast.expr] = getattr(node, "decorator_list", [])
    return min([node.lineno, *(it.lineno for it in decorators)])


def last_line(node: ast.stmt) -> int:
    """The last line of a statement, or of the head of one with a body."""
    body: List[ast.stmt] = getattr(node, "body", [])
    return max(node.lineno, first_line(body[0]) - 1) if body else end_of(node)[0]


# C

MARKS = """
#include <fcntl.h>
#include <stdlib.h>
#include <sys/mman.h>
static unsigned char cf_no_marks[{many}], *cf_marks = cf_no_marks;
__attribute__((constructor)) static void cf_open_marks(void)
{{
    const char *path = getenv("CF_MARKS");
    int file = path ? open(path, O_RDWR) : -1;
    if (file >= 0)
        cf_marks = mmap(0, {many}, PROT_READ | PROT_WRITE, MAP_SHARED, file, 0);
}}
#line 1
"""


def blocks(text: str) -> List[Tuple[int, int]]:
    """Where the blocks of a file's functions begin behind their brackets, and end."""
    tokens = Tokens(text, True)
    heads = {it.opening for it in functions(tokens, True)}
    found = []
    for k in range(len(tokens)):
        before = tokens.other.get(k - 1, 0) - 1 if tokens.word(k - 1) == ")" else k - 1
        if tokens.word(k) == "{" and (k in heads or tokens.word(before) in ("if", "for", "while", "else", "do")):
            found.append((tokens[k].end, tokens[tokens.other[k]].start))
    return found


def marked(text: str) -> Tuple[str, int]:
    """A file whose blocks write down that they are reached; and how many there are."""
    places = blocks(text)
    made = text
    for k, (start, _) in reversed(list(enumerate(places))):
        made = f"{made[:start]} cf_marks[{k}] = 1;{made[start:]}"
    return MARKS.format(many=len(places)) + made, len(places)


def block_of(mutant: Mutant, text: str) -> Set[int]:
    """The block that a mutant stands in, or all of them where it stands in none."""
    around = [k for k, (start, last) in enumerate(blocks(text)) if start <= mutant.place.start <= last]
    return {around[-1]} if around else set(range(len(blocks(text))))
