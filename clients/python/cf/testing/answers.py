"""What may become of a call of a store: it is answered; or no answer comes, and it stands, never comes there, or is on
its way. That is what an engine may do (docs/ENGINES.md), and no more."""
from typing import NamedTuple, Sequence, Tuple


class Bounds(NamedTuple):
    """How often at most something may go wrong in one order. `World.store` has what each means."""

    lost: int = 0
    unanswered: int = 0
    late: int = 0
    silent: int = 0
    killed: int = 0
    slow: int = 0

    def allows(self, costs: Sequence[str]) -> bool:
        """Whether these may go wrong once more."""
        return all(getattr(self, it) > 0 for it in costs)

    def minus(self, costs: Sequence[str]) -> "Bounds":
        """What is left behind these."""
        return self._replace(**{it: getattr(self, it) - 1 for it in costs})


class Answer(NamedTuple):
    """What becomes of a call. `text` is told, and `costs` are the members of `Bounds` that it takes one of."""

    text: str
    costs: Tuple[str, ...] = ()
    stands: bool = True  # at once
    is_late: bool = False  # it may come to stand at any moment from now on
    is_silent: bool = False  # the store is silent until the caller gives up

    @property
    def is_told(self) -> bool:
        """Whether the caller gets an answer."""
        return not self.costs


ANSWERED = Answer("")
LOST = Answer("it never comes to the store", ("lost",), False)
UNANSWERED = Answer("it stands, and the answer is lost", ("unanswered",))
LATE = Answer("it is on its way, and no answer comes", ("late",), False, True)
SILENT = Answer("the store is silent for a minute, and it never comes there", ("silent",), False, False, True)
SILENT_STANDS = Answer("it stands, and the store is silent for a minute", ("silent",), True, False, True)
SILENT_LATE = Answer("it is on its way, and the store is silent for a minute", ("silent", "late"), False, True, True)
OF_CALLS = (ANSWERED,)  # of functions
OF_READS = (ANSWERED, SILENT)
OF_WRITES = (ANSWERED, LOST, UNANSWERED, SILENT, SILENT_STANDS)
OF_PUTS = (ANSWERED, LOST, UNANSWERED, LATE, SILENT, SILENT_STANDS, SILENT_LATE)
