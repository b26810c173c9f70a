"""What callers give and are told."""
import enum
from concurrent.futures import CancelledError
from dataclasses import dataclass
from typing import Any, Dict, Iterable, NamedTuple, Optional, Tuple, Type, Union

from ._library import (
    BAD_ANSWER,
    CANCELLED,
    GIVE,
    GOT,
    INT,
    LINK,
    NIL,
    PENDING,
    THROW,
    THROWN,
    TIMED_OUT,
    VALUE,
    CAnswer,
    CArgs,
    CGiven,
    CNow,
    COutcome,
    CReply,
    CTask,
    CValue,
    in_range,
)

Value = Optional[int]


class Form(enum.IntEnum):
    """How a stage depends on its sources."""

    SOURCE, SUPPLY, RUN_ASYNC, APPLY, ACCEPT, THEN_RUN, COMBINE, ACCEPT_BOTH, RUN_BOTH, APPLY_EITHER = range(10)
    ACCEPT_EITHER, RUN_EITHER, COMPOSE, HANDLE, WHEN_COMPLETE, EXCEPTIONALLY, ALL_OF, ANY_OF = range(10, 18)
    EXCEPTIONALLY_COMPOSE = 18


class Code(enum.IntEnum):
    """Why a call is refused."""

    TOO_MANY_STAGES, SOURCE_NOT_LOWER, WRONG_SOURCE_COUNT, FUNCTION_MISSING, FUNCTION_UNWANTED = range(1, 6)
    TOO_MANY_EDGES = 6
    NO_SUCH_STAGE, NO_MEMORY, TOO_MANY_LIMITS, EMPTY, FULL, WRONG_KIND, NO_SUCH_NUMBER, NO_STAGE, BAD_ATTACH = range(7, 16)
    ROOM, NOTHING, CALLERS, LOG, CALLS, FUNCTIONS, PASS_FULL, LOG_FULL, OTHER_DESK = range(16, 25)
    NOT_ALL, NO_WORD, BAD_SCRIPT = range(25, 28)
    STILL_SHARED = 28
    NOT_HELD = 29
    NO_ROOM = 30
    LOST = 31
    NOT_OVER, LANES, NO_LANE, PAST_MOMENT = range(32, 36)
    BAD_TEXT, TOO_MANY = 36, 37
    UNDER_WAY, NO_TOKENS, NO_QUORUM = 38, 39, 40
    NO_TICKET, UNFIT, NO_NOTE, NOT_OPEN = 41, 42, 43, 44
    NULL = 255


class Failure(enum.IntEnum):
    """A cause, other than a throw and a cancellation, with which a caller fails a stage. It has a code, too."""

    TIMED_OUT, BAD_ANSWER = 4, 5


class Refused(Exception):
    """A call was refused, and changed nothing."""

    def __init__(self, code: int) -> None:
        self.code: Code = Code(code)
        super().__init__(self.code.name.lower().replace("_", " "))


class Misfit(Refused):
    """One of a row that can't be done, at its place in the row. Those before it are done."""

    def __init__(self, code: int, place: int) -> None:
        super().__init__(code)
        self.place: int = place


class Fault(Exception):
    """A stage ended in a fault; `wrapped` where it took it over from another stage. Two faults of one cause and code are
    equal."""

    wrapped = False
    code: int = 0

    def __eq__(self, other: object) -> bool:
        if not isinstance(other, Fault):
            return NotImplemented
        return (type(self), self.args, self.wrapped) == (type(other), other.args, other.wrapped)

    def __hash__(self) -> int:
        return hash((type(self), self.args, self.wrapped))


class Thrown(Fault):
    """A stage was failed, or its function threw, with a code. Raised by a function, it is what the function throws."""

    def __init__(self, code: int) -> None:
        self.code: int = code
        super().__init__(f"thrown {code}")


class TimedOut(Fault):
    """A limit fired, or a caller failed the stage as timed out. `code` is 0 where nobody gave one."""

    def __init__(self, code: int = 0) -> None:
        self.code: int = code
        super().__init__(*([f"timed out {code}"] if code else []))


class BadAnswer(Fault):
    """A function answered what its form can't take, or a caller failed the stage as one that stands in for such. `code`
    is 0 where nobody gave one."""

    def __init__(self, code: int = 0) -> None:
        self.code: int = code
        super().__init__(*([f"bad answer {code}"] if code else []))


class Cancelled(Fault, CancelledError):
    """The stage, or what it took its outcome from, was cancelled."""


@dataclass(frozen=True)
class Link:
    """What the function of a composing stage answers: the stage that it takes its outcome from."""

    stage: int


# What a stage's function answers: a value, a throw of a code, or a link.
Answer = Union[Value, Thrown, Link]


class Outcome(NamedTuple):
    """What a stage is settled with: a value, or else a fault."""

    value: Value
    fault: Optional[Fault]


# What a stage's function is called with: nothing, a value, two values, or an outcome.
Args = Tuple[Union[Value, Outcome], ...]


class NowKind(enum.Enum):
    """What is told of a stage at present: it isn't settled, its value, its fault inside a CompletionException, or
    that it was cancelled itself."""

    ABSENT, VALUE, COMPLETION, CANCELLATION = range(4)


class Now(NamedTuple):
    """What a stage gives at present: where it isn't settled, the value that was handed in."""

    kind: NowKind
    value: Value
    fault: Optional[Fault]

    def get(self) -> Value:
        """The value; a fault is raised."""
        if self.fault is not None:
            raise self.fault
        return self.value


class ClaimStatus(enum.Enum):
    """Whether a claim is granted, and why not: the stage is settled, another caller has it, or its sources aren't
    settled."""

    GRANTED, SETTLED, TAKEN, NOT_READY = range(4)


class ClaimReply(NamedTuple):
    """What a claim is answered, and where it is granted, what the stage's function is called with."""

    status: ClaimStatus
    args: Optional[Args]


class Task(NamedTuple):
    """A stage that a caller has claimed: the number of its function, and what that is to be called with."""

    stage: int
    function: int
    args: Args


class FinishReply(enum.Enum):
    """What a finish is answered: it settled or linked its stage, that had been settled before, or the caller hasn't
    claimed it."""

    WON, LATE, NOT_YOURS = range(3)


# What a changing call is answered. Of a tick how many limits fired, or None where it is past; of an attach the number
# of the new stage, or None where there is no room.
Reply = Union[bool, ClaimReply, FinishReply, Optional[int]]


def check(code: int) -> None:
    if code:
        raise Refused(code)


def value_in(value: Value) -> CValue:
    return CValue(NIL, 0) if value is None else CValue(INT, in_range(value, 2**31 - 1, -(2**31)))


def value_out(value: CValue) -> Value:
    return value.number if value.kind else None


def answer_in(answer: Answer) -> CAnswer:
    if isinstance(answer, Thrown):
        return CAnswer(kind=THROW, code=in_range(answer.code, 2**32 - 1))
    if isinstance(answer, Link):
        return CAnswer(kind=LINK, stage=in_range(answer.stage, 0xFFFF))
    return CAnswer(kind=GIVE, value=value_in(answer))


def answer_out(answer: CAnswer) -> Answer:
    if answer.kind == THROW:
        return Thrown(answer.code)
    return Link(answer.stage) if answer.kind == LINK else value_out(answer.value)


def given_in(given: Iterable[Tuple[int, Value]]) -> Any:
    """Stages with their values, as a row."""
    row = [CGiven(in_range(stage, 0xFFFF), value_in(value)) for stage, value in given]
    return (CGiven * len(row))(*row)


def task_in(task: Optional[Task], answer: Answer) -> CTask:
    """What a step is given: the task that is to be finished, if there is one, with what its function answered."""
    told = CTask(answer=answer_in(answer))
    if task is not None:
        told.held, told.stage = 1, in_range(task.stage, 0xFFFF)
    return told


def task_out(told: CTask) -> Optional[Task]:
    """What a step claimed, if it did."""
    return Task(told.stage, told.function, args_out(told.args)) if told.held else None


FAULTS: Dict[int, Type[Fault]] = {THROWN: Thrown, CANCELLED: Cancelled, TIMED_OUT: TimedOut, BAD_ANSWER: BadAnswer}


def _fault_out(outcome: COutcome, wrapped: bool) -> Fault:
    fault = Cancelled() if outcome.kind == CANCELLED else FAULTS[outcome.kind](outcome.code)
    fault.wrapped = wrapped
    return fault


def outcome_out(outcome: COutcome) -> Optional[Outcome]:
    if outcome.kind == PENDING:
        return None
    if outcome.kind == VALUE:
        return Outcome(value_out(outcome.value), None)
    return Outcome(None, _fault_out(outcome, bool(outcome.wrapped)))


def outcome_in(outcome: Optional[Outcome]) -> COutcome:
    if outcome is None:
        return COutcome(kind=PENDING)
    fault = outcome.fault
    if fault is None:
        return COutcome(kind=VALUE, value=value_in(outcome.value))
    kind = next(kind for kind, cause in FAULTS.items() if isinstance(fault, cause))
    return COutcome(kind=kind, wrapped=fault.wrapped, code=in_range(fault.code, 2**32 - 1))


def now_out(now: CNow) -> Now:
    kind = NowKind(now.kind)
    if kind in (NowKind.ABSENT, NowKind.VALUE):
        return Now(kind, value_out(now.outcome.value), None)
    if kind is NowKind.CANCELLATION:
        return Now(kind, None, Cancelled())
    return Now(kind, None, _fault_out(now.outcome, True))


def args_out(args: CArgs) -> Args:
    if args.kind == GOT:
        return (outcome_out(args.outcome),)
    return (value_out(args.first), value_out(args.second))[: args.kind]


def claim_out(reply: CReply) -> ClaimReply:
    status = ClaimStatus(reply.answer)
    return ClaimReply(status, args_out(reply.args) if status is ClaimStatus.GRANTED else None)


def flag_out(reply: CReply) -> bool:
    return bool(reply.answer)


def finish_out(reply: CReply) -> FinishReply:
    return FinishReply(reply.answer)


def number_out(reply: CReply) -> Optional[int]:
    return None if reply.answer else reply.number
