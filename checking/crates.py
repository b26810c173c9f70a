"""What crates.txt says: which crates there are, and what each stands on."""
import os
import re
import shutil
from pathlib import Path
from typing import Dict, List

TOP = Path(__file__).resolve().parents[1]
KIT = Path(os.path.realpath(shutil.which("rt") or "rt")).parent.parent


def listed() -> Dict[str, List[str]]:
    """Each crate of the project, in the order of crates.txt, with all that it stands on: the project's and the toolchain's."""
    lines = [line.partition("#")[0].partition(":") for line in (TOP / "crates.txt").read_text(encoding="utf-8").splitlines()]
    return {head.split()[0]: deps.split() for head, _, deps in lines if head.strip()}


def static() -> List[str]:
    """The crates that are static libraries."""
    return re.findall(r"^(\w+) staticlib:", (TOP / "crates.txt").read_text(encoding="utf-8"), re.M)


def own() -> Dict[str, List[str]]:
    """The same with the project's crates alone."""
    crates = listed()
    return {name: [it for it in deps if it in crates] for name, deps in crates.items()}


def below(name: str, crates: Dict[str, List[str]]) -> List[str]:
    """The crates that this one stands on, lowest first, and then itself."""
    order = [it for dep in crates[name] for it in below(dep, crates)] + [name]
    return list(dict.fromkeys(order))


def edits_of_gate(name: str) -> int:
    """How many of a crate's wrong bodies ./check tries: those that its file of edits marks."""
    path = TOP / "crates" / name / "edits"
    return len(re.findall(r"^== \w+ gate$", path.read_text(encoding="utf-8"), re.M)) if path.is_file() else 0


def rattle() -> str:
    """The prover, which rt calls."""
    return str(KIT / "bin/rattle")


def words_over(name: str) -> List[str]:
    """The words by which the prover reads a crate, in its folder or a copy of it, over the libraries that rt ci has just left in this
    checkout. rt ci leaves these as statements alone, without the sums by which rt would know them, so rt would prove each of them once more."""
    crates = listed()
    root = "main" if (TOP / "crates" / name / "src/main.rt").exists() else "lib"
    words = ["--crate-name", name, f"src/{root}.rt", "-L", f"dependency={KIT}/rlibs"]
    words += ["--crate-type", "staticlib"] if name in static() else []
    for it in ["std", *crates[name]]:  # (std is under each)
        made = TOP / f"crates/{it}/out/rlib" if it in crates else KIT / "rlibs"
        words += ["--extern", f"{it}={made}/{it}.rlib"]
    for it in below(name, own())[:-1]:
        words += ["-L", f"dependency={TOP}/crates/{it}/out/rlib"]
    return [*words, "--antt-project", f"{KIT}/rattle/logic/antt-project.json", "--logic-built", f"{KIT}/logic_built"]
