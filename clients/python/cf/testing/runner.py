"""Runs of a test: with any choice of moves, again by a row, and told in words."""
import re
from typing import Any, Callable, List, NamedTuple, Optional, Sequence, Set

from .footprints import Footprint, Move, Thing
from .report import Failure, ToldMove, actor_of, row_of
from .run import Run
from .state import Failed, Settings

Chooses = Callable[[int, List[Move]], Optional[Move]]  # of the place in the row and the moves that are possible
Did = Callable[[Move, Footprint], None]
END, CUT, FAILED = "end", "cut", "failed"


class NotDeterministic(AssertionError):
    """A test that does other things when it is run again with the same row of moves, so that orders can't be tried.
    What differs may be a clock, a random number, a set's order, a thread of its own, or something that outlives a
    run."""


class RunResult(NamedTuple):
    """How a run ended: by itself, cut short by who chose, or failed."""

    how: str
    run: Run
    row: List[Move]
    why: str
    told: List[ToldMove]


class Runner:
    """Runs a test as often as is asked."""

    def __init__(self, test: Callable[[Any], Any], settings: Settings) -> None:
        self.test, self.settings = test, settings
        self.watched: Set[Thing] = set()  # what checks have looked at
        self.moves = 0

    def run_once(self, chooses: Chooses, did: Optional[Did] = None, tells: bool = False) -> RunResult:
        """One run."""
        run = Run(self.settings, self.watched)
        row: List[Move] = []
        told: List[ToldMove] = []
        how, why = END, ""
        try:
            run.start(self.test)
            while True:
                keys = run.moves()
                key = chooses(len(row), keys)
                if not keys:
                    run.finish()
                    break
                if key is None:
                    how = CUT
                    break
                row.append(key)
                if tells:
                    told.append(ToldMove(run.text(key), []))
                footprint = run.do(key)
                if tells:
                    told[-1] = ToldMove(told[-1].text, run.told())
                self.moves += 1
                if did is not None:
                    did(key, footprint)
        except Failed:
            how, why = FAILED, run.why
            if tells and told:
                told[-1] = ToldMove(told[-1].text, run.told())
        finally:
            run.close()
        return RunResult(how, run, row, why, told)

    def follow(self, row: Sequence[Move], did: Optional[Did] = None) -> RunResult:
        """Follows a row as far as it can be followed, and goes on with whoever went on last, else with the first."""
        left = list(row)
        last: List[Move] = []

        def chooses(_: int, keys: List[Move]) -> Optional[Move]:
            while left and keys:
                key = left.pop(0)
                if key in keys:
                    last[:] = [key]
                    return key
            own = [key for key in keys if last and actor_of(key) == actor_of(last[0])]
            last[:] = (own or keys)[:1]
            return last[0] if last else None

        return self.run_once(chooses, did, tells=True)

    def run_in_order(self, row: Sequence[Move], did: Optional[Did] = None) -> RunResult:
        """Makes the moves of a row, each as soon as those that stand before it have come or can't come yet."""
        left = list(row)

        def chooses(_: int, keys: List[Move]) -> Optional[Move]:
            for place, key in enumerate(left):
                if key in keys:
                    return left.pop(place)
            return keys[0] if keys else None

        return self.run_once(chooses, did)

    def check_repeats(self, ran: RunResult) -> None:
        """Does a run again. What the row doesn't decide shows."""
        row = ran.row
        again = self.run_once(lambda place, keys: row[place] if place < len(row) and row[place] in keys else None)
        if (again.row, again.how, again.why) != (row, ran.how, ran.why) or _words(again.run) != _words(ran.run):
            raise NotDeterministic(
                f"done again, the order\n    {row_of(row)}\nwas\n    {row_of(again.row)}\nand came "
                f"to {again.why or again.how}, before to {ran.why or ran.how}"
            )


def failure_of(ran: RunResult) -> Failure:
    """A run that failed and was told, as a value."""
    told = [ToldMove(_short(text), [_short(it) for it in settled]) for text, settled in ran.told]
    return Failure(_short(ran.why), ran.row, told, ran.run.histories())


def _short(text: str) -> str:
    """Names of functions without the functions in which they stand."""
    return re.sub(r"[\w.<>]*<locals>\.", "", text)


def _words(run: Run) -> List[List[int]]:
    return [history.words for history in run.histories()]
