"""The test programs of each client, which files each of them may reach, and which stand nearest to a file."""
import re
from pathlib import Path
from typing import List, NamedTuple, Sequence


class Program(NamedTuple):
    """A test program: a file of tests in Python, a program of cargo's in Rust."""

    name: str
    words: Sequence[str]  # by which it is run
    source: str  # below the client's folder
    text: str  # of the source
    reaches: Sequence[str]  # files of the client that it may run
    folder: str = "."  # where it is run


def nearness(program: Program, file: str) -> int:
    """0 for tests that are named for a file, 1 for those that name it, 2 for those whose folder has the name of its own, 3 for the others. Names
    are compared without `test`, `_` and case."""
    stem = Path(file).stem.strip("_")
    plain = Path(program.source).stem.lower().replace("test", "").replace("_", "")
    if plain and plain in (stem.lower().replace("_", ""), stem.lower().replace("_", "") + "s"):
        return 0
    if re.search(rf"\b{re.escape(stem)}\b", program.text):
        return 1
    return 2 if Path(program.source).parent.name in Path(file).parent.parts else 3


# Python

OF_MODULE = ["service", "tests"]  # folders of tests that are run over the C module


def programs_of_python(folder: Path, is_c: bool) -> List[Program]:
    """The files of tests; what each of them reaches is written down elsewhere."""
    paths = [path for path in sorted((folder / "tests").glob("**/test_*.py")) if not is_c or path.parent.name in OF_MODULE]
    return [Program(str(path.relative_to(folder)), [], str(path.relative_to(folder)), path.read_text(encoding="utf-8"), []) for path in paths]


# Rust

ABOVE = {
    "cf-sys": ["cf-sys", "cf-graph", "cf", "cf-store"],
    "cf-graph": ["cf-graph", "cf", "cf-store"],
    "cf": ["cf", "cf-store"],
    "cf-store": ["cf-store"],
}  # of each crate those whose tests may run it


def program_of_rust(folder: Path, crate: str, name: str, executable: str) -> Program:
    """A program that cargo made of a crate's library, which has its name, or of its tests."""
    reaches = [str(path.relative_to(folder)) for it, above in ABOVE.items() if crate in above for path in (folder / it / "src").rglob("*.rs")]
    within = [folder / crate / "tests" / (name + ".rs"), *(folder / crate / "tests" / name).glob("*.rs")]
    text = "\n".join(path.read_text(encoding="utf-8") for path in within if path.is_file())
    return Program(f"{crate} {name}", [executable, "-q"], f"{crate}/tests/{name}.rs", text, reaches, crate)


def is_of_crate(program: Program, file: str) -> bool:
    return program.folder in (".", file.partition("/")[0])
