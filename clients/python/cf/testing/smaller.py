"""A failing order made smaller, and the pairs of its moves that decide."""
from typing import List, Tuple

from .footprints import ALL, CHANGES, Footprint, Move, independent
from .report import Failure, Pair, actor_of
from .runner import END, FAILED, Runner, failure_of

MOST = 400  # tries


class Smaller:
    """Makes an order smaller: fewer moves first, then fewer switches from one who moves to another."""

    def __init__(self, runner: Runner, failure: Failure) -> None:
        self._runner, self.best = runner, failure
        self._given = list(failure.moves)
        self._left = MOST

    def shrink(self) -> Failure:
        """The smallest that was found."""
        while self._left and self._is_shorter() | self._has_fewer_switches():
            pass
        return self.best

    def _is_shorter(self) -> bool:
        """Whether an order without some moves that stand together is smaller; what is left out may come later."""
        found, length = False, len(self._given)
        while length:
            place = 0
            while place < len(self._given) and self._left:
                if self._is_better(self._given[:place] + self._given[place + length :]):
                    found = True
                else:
                    place += length
            length //= 2
        return found

    def _has_fewer_switches(self) -> bool:
        """Whether one is smaller in which a move comes right behind the last one of the same."""
        found = False
        for late in range(len(self._given)):
            for early in range(late - 1):
                row = self._given
                if late < len(row) and self._left and actor_of(row[early]) == actor_of(row[late]):
                    found |= self._is_better(row[: early + 1] + [row[late]] + row[early + 1 : late] + row[late + 1 :])
        return found

    def _is_better(self, row: List[Move]) -> bool:
        self._left -= 1
        ran = self._runner.follow(row)
        if ran.how != FAILED or ran.why != self.best.why:
            return False
        made = failure_of(ran)
        if (len(made.moves), made.switches) >= (len(self.best.moves), self.best.switches):
            return False
        self.best, self._given = made, list(made.moves)
        return True


def pairs_of(runner: Runner, failure: Failure) -> List[Pair]:
    """The pairs of moves that decide: the same row with the second before the first doesn't fail."""
    row: List[Move] = failure.moves
    footprints: List[Footprint] = []
    runner.run_in_order(row, lambda key, footprint: footprints.append(footprint))
    footprints += [{ALL: CHANGES}] * (len(row) - len(footprints))
    before: List[int] = []
    pairs: List[Pair] = []
    for second in range(len(row)):
        mine, racing = _races(row, footprints, before, second)
        before.append(mine)
        for first in racing:
            others = [k for k in range(first + 1, second) if not before[k] >> first & 1]
            late = [k for k in range(first + 1, second) if k not in others]
            places = [*range(first), *others, second, first, *late, *range(second + 1, len(row))]
            ran = runner.run_in_order([row[k] for k in places])
            did = ran.row
            is_second = row[second] in did and row[first] not in did[: did.index(row[second])]
            if ran.how == END and is_second:
                pairs.append(Pair(first, second))
    return pairs


def _races(row: List[Move], footprints: List[Footprint], before: List[int], last: int) -> Tuple[int, List[int]]:
    """The moves that the last one has to come after, as bits, and those of others among them with which it races."""
    mine, racing = 0, []
    for place in range(last - 1, -1, -1):
        own = actor_of(row[place]) == actor_of(row[last])
        if not mine >> place & 1 and (own or not independent(footprints[place], footprints[last])):
            mine |= before[place] | 1 << place
            if not own:
                racing.append(place)
    return mine, racing
