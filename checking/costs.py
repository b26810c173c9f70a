"""What the gate takes of each crate: the table of costs.txt. progress.py reads it, and bench/proving/gate writes it."""
from typing import Dict, Iterable, List, NamedTuple

from checking.crates import TOP

TABLE = TOP / "checking/costs.txt"
HEAD = "# What the gate takes of each crate, in seconds of a processor: its proof, its tests, and its must-fail edits with how many there were."


class Cost(NamedTuple):
    """Seconds of a processor."""

    proof: float = 0
    tests: float = 0
    edits: float = 0
    count: int = 0  # of the edits


def read() -> Dict[str, Cost]:
    """The cost of each crate of the table."""
    lines = [line.split() for line in TABLE.read_text(encoding="utf-8").splitlines() if line and not line.startswith("#")]
    return {name: Cost(*(float(it) for it in seconds), int(count)) for name, *seconds, count in lines}


def shown(costs: Dict[str, Cost]) -> Iterable[str]:
    """The lines of the table, dearest crate first."""
    yield f"# {'crate':<18} {'proof':>6} {'tests':>6} {'edits':>6} {'how many':>9}"
    for name, cost in sorted(costs.items(), key=lambda it: (-sum(it[1][:3]), it[0])):
        yield f"{name:<20} {cost.proof:6.0f} {cost.tests:6.0f} {cost.edits:6.0f} {cost.count:9}"


def write(costs: Dict[str, Cost], said: List[str]) -> None:
    """Writes the table, below a head that ends with these lines on how it came about."""
    head = [HEAD, *(f"# {line}" for line in said)]
    TABLE.write_text("".join(line + "\n" for line in [*head, *shown(costs)]), encoding="utf-8")
