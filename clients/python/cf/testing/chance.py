"""Orders by chance: each who moves has a priority, and a few changes of these come at random places (as PCT does
it). An order that few switches make is so found with a likelihood that doesn't shrink as the number of orders grows."""
import random
import time
from typing import Dict, List, Optional, Set

from .footprints import Move
from .report import Report, actor_of
from .runner import FAILED, Runner, failure_of

DEPTH = 3  # a fault that so many moves in the right order make
NEVER = -1e9  # a priority below all others
SHORT = 20  # moves, which a row has at first by guess


class Chance:
    """A search that draws each order."""

    def __init__(self, runner: Runner, report: Report, seed: int) -> None:
        self._runner, self._report, self._random = runner, report, random.Random(seed)
        self._longest = SHORT
        self._levels: Dict[Move, float] = {}
        self._changes: Set[int] = set()

    def draw(self, times: int, until: float, failures: int) -> None:
        """So many orders, until the moment comes or so many have failed."""
        report = self._report
        for _ in range(times):
            if time.perf_counter() >= until or len(report.failed) >= failures:
                return
            self._levels = {}
            self._changes = {self._random.randrange(self._longest) for _ in range(DEPTH - 1)}
            ran = self._runner.run_once(self._choose)
            self._longest = max(self._longest, len(ran.row))
            report.orders += 1
            report.by_chance += 1
            if ran.how == FAILED:
                report.failed.append(failure_of(ran))

    def _choose(self, place: int, keys: List[Move]) -> Optional[Move]:
        if not keys:
            return None
        for key in keys:
            if _goes_wrong(key):  # about once in an order
                self._levels.setdefault(key, 1.0 if self._random.random() * self._longest < 1 else NEVER)
            else:
                self._levels.setdefault(actor_of(key), self._random.random())
        best = self._best(keys)
        if place in self._changes:
            self._levels[_who(best)] = -place - 1.0
            best = self._best(keys)
        return best

    def _best(self, keys: List[Move]) -> Move:
        """The one of the highest priority. Of the ways of one and the same, any."""
        highest = max(self._levels[_who(key)] for key in keys)
        best = [key for key in keys if self._levels[_who(key)] == highest]
        return best[0] if len(best) == 1 else self._random.choice(best)


def _who(key: Move) -> Move:
    """Whose priority decides on a move."""
    return key if _goes_wrong(key) else actor_of(key)


def _goes_wrong(key: Move) -> bool:
    """Whether it is a call of a store that isn't answered."""
    return key[0] == "ask" and int(key[-1]) > 0
