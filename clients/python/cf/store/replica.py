"""A session's replica of a row, by a view of the library, whose replies and news are read as numbers."""
import ctypes as c
from array import array
from typing import Any, Callable, Iterator, NamedTuple, Optional, Sequence, Tuple

from .. import _library
from .._library import CALLS, CEntry, CNews, CReply, CRowClaim, CRowOpening, CStage, CTask, path
from ..handle import Handle
from ..plan import Plan
from ..service.words import GIVES, LINKS, REPLY_NUMBERS, THROWS, OutcomeNumbers
from ..values import Code, check

_loaded = c.PyDLL(path)  # it keeps the interpreter's lock: to let it go and take it again costs more than a call does


def bound(name: str, address: int = -1) -> Callable[..., int]:
    """A call of the library, which may take an address in one place."""
    call: Any = getattr(_loaded, name)
    call.argtypes = [c.c_void_p if place == address else kind for place, kind in enumerate(CALLS[name])]
    call.restype = c.c_uint32
    return call  # type: ignore[no-any-return]


_plan, _met, _give_up = bound("cf_row_plan", 1), bound("cf_row_met"), bound("cf_row_give_up")
_saw, _grow = bound("cf_row_saw"), bound("cf_row_grow")
_number, _stage = bound("cf_row_number"), bound("cf_ledger_stage")
_open_claim, _held, _abandon = bound("cf_row_open_claim"), bound("cf_row_held"), bound("cf_row_abandon")
_finish = bound("cf_row_finish")
NO_VALUE = 0  # what a finish says that gives none
_ANSWERS = {NO_VALUE: _library.GIVE, GIVES: _library.GIVE, THROWS: _library.THROW, LINKS: _library.LINK}


class FinishAnswer(NamedTuple):
    """A stage whose function has ended, and its answer: `NO_VALUE`, or one of `GIVES`, `THROWS` and `LINKS` with its
    number."""

    stage: int
    kind: int
    number: int


def told_of(stage: CStage) -> OutcomeNumbers:
    """The outcome of a stage."""
    outcome = stage.outcome
    return OutcomeNumbers(outcome.kind, outcome.wrapped, outcome.code, outcome.value.kind, outcome.value.number)


class Replica(Handle):
    """A session's replica of a row, and its put under way. One thread at a time uses it. Each call raises `Refused` as
    cf.h says.

    Args:
        plan: The plan that the row begins with.
        stages: How many stages it has.
        room: How many stages may be attached.
        session: The session whose view it is.
        first: The count of its first token; each further one has the next, up to 2^23.

    Attributes:
        reply: The numbers of the last word's reply."""

    def __init__(self, plan: Plan, stages: int, room: int, session: int, first: int) -> None:
        super().__init__()
        plan.build()._call("cf_row_new", c.byref(CRowOpening(room, first, session)), self._at)
        # (what calls are given and write is made once: to make it costs more than a call does)
        reply, self._changed, self._entry = CReply(), c.c_size_t(), CEntry()
        self._who, self._landed, self._token = c.c_uint8(), c.c_uint8(), c.c_uint64()
        self._to, self._to_reply, self._to_changed = self._at, c.byref(reply), c.byref(self._changed)
        self._to_entry, self._to_who = c.byref(self._entry), c.byref(self._who)
        self._to_landed, self._to_token = c.byref(self._landed), c.byref(self._token)
        self.reply = (c.c_uint32 * REPLY_NUMBERS).from_buffer(reply)
        self._news = (CNews * max(stages + room, 1))()

    def caller_number(self) -> int:
        """The session's number as a caller, or the one that its next put will take."""
        check(_number(self._to, self._to_who))
        return self._who.value

    def plan_put(self, words: Sequence[int]) -> int:
        """Plans a put of these words at the end of the replica, and returns the token of the first. The put is under way
        then, and no entry can be taken in until it has landed or is given up. A word above 64 bits raises
        `OverflowError`."""
        given = array("Q", words)
        check(_plan(self._to, given.buffer_info()[0], len(given), self._to_token))
        return self._token.value

    def landed(self, word: int, token: int) -> bool:
        """Ends the put under way. Returns whether it has landed, by the entry that stands at its place."""
        self._entry.word, self._entry.token = word, token
        check(_met(self._to, self._to_entry, self._to_landed))
        return bool(self._landed.value)

    def give_up_put(self) -> None:
        """Ends the put under way, if there is one, without knowing whether it stands."""
        check(_give_up(self._to))

    def take_in(self, word: int, token: int) -> Sequence[CNews]:
        """Takes in the next entry of the row, and returns the stages that it changed."""
        self._entry.word, self._entry.token = word, token
        check(_saw(self._to, self._to_entry, self._to_reply, self._news, len(self._news), self._to_changed))
        return self._news[: self._changed.value]

    def grow(self, more: int) -> None:
        """Makes room for so many more stages."""
        check(_grow(self._to, more))
        self._news = (CNews * (len(self._news) + more))()

    def stage(self, number: int) -> Tuple[int, OutcomeNumbers]:
        """The kind of a stage's state, and its outcome."""
        told = CStage()
        check(_stage(self._to, number, c.byref(told)))
        return told.kind, told_of(told)

    def claims(self, first: int = 0) -> Iterator[Tuple[int, int]]:
        """The stages from a number on whose claim is open, rising, each with the session that holds it. Any thread may
        call this and the methods below."""
        told = CRowClaim()
        while _is_there(_open_claim(self._to, first, c.byref(told))):
            yield told.stage, told.session
            first = told.stage + 1

    def stages_held_by(self, session: int, first: int = 0) -> Iterator[int]:
        """The unsettled stages from a number on whose open claim this session holds, rising."""
        told = c.c_uint16()
        while _is_there(_held(self._to, session, first, c.byref(told))):
            yield told.value
            first = told.value + 1

    def abandon_word(self, session: int, first: int, code: int) -> Optional[int]:
        """The word that fails, with this code, the lowest stage from a number on that a session holds, or None where it
        holds none."""
        word = c.c_uint64()
        return word.value if _is_there(_abandon(self._to, session, first, code, c.byref(word))) else None

    def finish_word(self, ended: FinishAnswer) -> Optional[int]:
        """The word that finishes a stage, or None where this session has no open claim of it."""
        word = c.c_uint64()
        return word.value if _is_there(_finish(self._to, c.byref(_task_of(ended)), c.byref(word))) else None


def _task_of(ended: Optional[FinishAnswer]) -> CTask:
    """The answer of a function, as the library takes it."""
    task = CTask()
    if ended is not None:
        task.held, task.stage, answer = 1, ended.stage, task.answer
        answer.kind, answer.code, answer.stage = _ANSWERS[ended.kind], ended.number, ended.number & 0xFFF
        answer.value.kind, answer.value.number = int(ended.kind == GIVES), ended.number
    return task


def _is_there(code: int) -> bool:
    """Whether a call found something. A code other than NOTHING raises `Refused`."""
    if code != Code.NOTHING:
        check(code)
    return code != Code.NOTHING
