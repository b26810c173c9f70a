"""What a move touches. Two moves that touch nothing in common come to the same in either order, so one order is enough.

A footprint says of each thing whether a move reads it, changes it, or leads to it. A thing is a stage, by the numbers
of its request and in that; what user code may share; the clock of a request; and what else a run has one of. A move
*leads* to the stages behind one that it settles: these are settled once all others before them are, so of two moves
that only lead to the same stage it doesn't matter which comes first, unless one of them settles it.
"""
from typing import Any, Callable, Dict, Iterator, List, Sequence, Set, Tuple

Move = Tuple[Any, ...]
Thing = Tuple[Any, ...]
Place = Tuple[int, int]  # the number of a request, and of its stage
Footprint = Dict[Thing, str]
READS, CHANGES, LEADS = "r", "w", "l"
USER: Thing = ("user",)  # all that functions share of which nothing is known
WORKERS: Thing = ("workers",)
CHECKED: Thing = ("checked",)  # what checks look at
ALL: Thing = ("all",)


def touch(footprint: Footprint, thing: Thing, how: str) -> None:
    """Adds that a thing is touched so."""
    old = footprint.get(thing, how)
    footprint[thing] = how if old == how else CHANGES


def independent(one: Footprint, other: Footprint) -> bool:
    """Whether two neighbouring moves come to the same in either order."""
    if ALL in one or ALL in other:
        return False
    if len(other) < len(one):
        one, other = other, one
    return all(how == other.get(thing, how) and (how != CHANGES or thing not in other) for thing, how in one.items())


class Behind:
    """Which stages stand behind which."""

    def __init__(self) -> None:
        self._behind: Dict[Place, List[Place]] = {}

    def add(self, stage: Place, of: Sequence[Place]) -> None:
        """A stage stands behind others."""
        for source in of:
            self._behind.setdefault(source, []).append(stage)

    def reached(self, changed: Sequence[Place], is_settled: Callable[[Place], bool]) -> Iterator[Tuple[Place, str]]:
        """What changed stages lead to. That one behind them is settled already is read: it hides the change from those
        behind it."""
        todo, seen = list(changed), set(changed)
        while todo:
            for stage in self._new(todo.pop(), seen):
                if is_settled(stage):
                    yield stage, READS
                else:
                    todo.append(stage)
                    yield stage, LEADS

    def _new(self, stage: Place, seen: Set[Place]) -> List[Place]:
        found = [each for each in dict.fromkeys(self._behind.get(stage, ())) if each not in seen]
        seen.update(found)
        return found
