"""A graph that keeps the words of all that was done to it, and tells which stages each changed."""
import ctypes as c
import enum
from typing import List, NamedTuple, Optional, Sequence

from ._library import CNews, CReply, CStage, CStep, in_range, library
from .events import Event, reply_of, word_of
from .handle import Handle
from .plan import Plan
from .values import Answer, Code, FinishReply, Misfit, Outcome, Refused, Reply, Task, check, outcome_out, task_in, task_out

_NOBODY = 0xFFFFFFFF
_MISFITS = (Code.NO_WORD, Code.NO_STAGE, Code.BAD_ATTACH, Code.NO_ROOM)


class StageKind(enum.Enum):
    """How far a stage has come."""

    PENDING, READY, CLAIMED, LINKED, SETTLED = range(5)


class StageState(NamedTuple):
    """A stage as it is: `who` has an open claim of it, `target` is the stage that it is linked to."""

    number: int
    kind: StageKind
    who: Optional[int]
    target: Optional[int]
    outcome: Optional[Outcome]


class EventResult(NamedTuple):
    """What an event was answered, and the stages whose state it changed, rising, as they are then."""

    reply: Reply
    news: List[StageState]


class StepResult(NamedTuple):
    """What a step did: the place of its first word, the words of the finish and of the claim, where there are such,
    what the finish was answered, the stages that it changed, rising, as they are now, and what was claimed."""

    place: int
    finish: Optional[int]
    claim: Optional[int]
    finished: FinishReply
    news: List[StageState]
    task: Optional[Task]


class Ledger(Handle):
    """The ledger of a plan, with room for so many stages that are attached later."""

    def __init__(self, plan: Plan, room: int = 0) -> None:
        super().__init__()
        plan.build()._call("cf_ledger_new", room, self._at)

    @classmethod
    def from_words(cls, plan: Plan, words: Sequence[int], room: int = 0) -> "Ledger":
        """The ledger of these words. The first that can't be done raises `Misfit`."""
        ledger = cls.__new__(cls)
        Handle.__init__(ledger)
        place = c.c_size_t()
        try:
            plan.build()._call("cf_ledger_of", room, (c.c_uint64 * len(words))(*words), len(words), ledger._at, c.byref(place))
        except Refused as refused:
            if refused.code in _MISFITS:
                raise Misfit(refused.code, place.value) from None
            raise
        return ledger

    def apply(self, word: int) -> EventResult:
        """Does the event of a word and writes it behind the others. Where there is no room for the stage that it
        attaches, `Refused` has the code NO_ROOM, and `grow` makes some."""
        with self._lock:
            room = self.stages() + 1
            reply, news, count = CReply(), (CNews * room)(), c.c_size_t()
            self._call("cf_ledger_apply", word, c.byref(reply), news, room, c.byref(count))
        return EventResult(reply_of(word, reply), [_stage_out(told.stage, told.now) for told in news[: count.value]])

    def step(self, who: int, task: Optional[Task] = None, answer: Answer = None, first: int = 0) -> StepResult:
        """One step of a caller's loop in one call: finishes the stage of a task with what its function answered, and
        claims the lowest ready stage from a number on, if there is one. Both are words that are written. `Refused`
        has NOT_HELD where this caller has no open claim of the task's stage, NO_STAGE where that isn't there, and
        NO_WORD where the caller isn't below 64."""
        step = CStep(who=in_range(who, 0xFF), first=in_range(first, 0xFFFF))
        told = task_in(task, answer)
        with self._lock:
            room = self.stages()
            news, count = (CNews * room)(), c.c_size_t()
            code = library.cf_ledger_step(self._at, c.byref(step), c.byref(told), news, room, c.byref(count))
            if code != Code.NOTHING:
                check(code)
        return StepResult(
            step.place,
            step.finish or None,
            step.claim or None,
            FinishReply(told.finished),
            [_stage_out(it.stage, it.now) for it in news[: count.value]],
            task_out(told),
        )

    def apply_all(self, words: Sequence[int]) -> None:
        """Does words one after another in one call. The first that can't be done raises `Misfit` with its place
        among them; those before it are done."""
        done = c.c_size_t()
        row = (c.c_uint64 * len(words))(*[in_range(word, 2**64 - 1) for word in words])
        with self._lock:
            code = library.cf_ledger_apply_all(self._at, row, len(words), c.byref(done))
        if code in _MISFITS:
            raise Misfit(code, done.value)
        check(code)

    def restart(self) -> None:
        """Starts again, as the ledger was opened: no word is written then, and all of its room is free."""
        self._call("cf_ledger_restart")

    def apply_event(self, event: Event) -> EventResult:
        """Does an event."""
        return self.apply(word_of(event))

    def words(self, first: int = 0) -> List[int]:
        """The words from a place on."""
        with self._lock:
            count = self._count("cf_ledger_words", first, None, 0)
            told = (c.c_uint64 * count)()
            self._count("cf_ledger_words", first, told, count)
        return list(told)

    def news(self, place: int) -> List[int]:
        """The stages that the event at a place changed, rising."""
        with self._lock:
            count = self._count("cf_ledger_news", place, None, 0)
            told = (c.c_uint16 * count)()
            self._count("cf_ledger_news", place, told, count)
        return list(told)

    def ready(self, first: int = 0) -> Optional[int]:
        """The lowest stage from a number on that can be claimed, if one can."""
        return self._call_for_number("cf_ledger_ready", first)

    def stage(self, stage: int) -> StageState:
        """A stage as it is."""
        return _stage_out(stage, self._call_for("cf_ledger_stage", CStage(), stage))

    def function(self, stage: int) -> Optional[int]:
        """The number of a stage's function, if it has one."""
        return self._call_for_number("cf_ledger_function", stage)

    def stages(self) -> int:
        """How many stages there are by now."""
        return self._call_for("cf_ledger_stages", c.c_uint16()).value

    def grow(self, more: int) -> None:
        """Makes room for so many stages more."""
        self._call("cf_ledger_grow", more)

    def _count(self, name: str, *arguments: object) -> int:
        """How many there are, of which as many are told as there is room for."""
        count = c.c_size_t()
        with self._lock:
            check(getattr(library, name)(self._at, *arguments, c.byref(count)))
        return count.value


def _stage_out(number: int, stage: CStage) -> StageState:
    kind = StageKind(stage.kind)
    who = None if stage.who == _NOBODY else stage.who
    return StageState(number, kind, who, stage.target if kind is StageKind.LINKED else None, outcome_out(stage.outcome))
