"""Changing calls as events, and the words of 64 bits that write them."""
import ctypes as c
from dataclasses import dataclass
from typing import Any, Callable, List, Optional, Tuple, Union

from ._library import NO_FUNCTION, CEvent, CReply, in_range, library
from .handle import function_in
from .values import (
    Answer,
    Failure,
    Form,
    Reply,
    Value,
    answer_in,
    answer_out,
    check,
    claim_out,
    finish_out,
    flag_out,
    number_out,
    value_in,
    value_out,
)


@dataclass(frozen=True)
class Complete:
    """A caller settles a stage with a value."""

    who: int
    stage: int
    value: Value


@dataclass(frozen=True)
class Fail:
    """A caller settles a stage with a thrown code."""

    who: int
    stage: int
    code: int


@dataclass(frozen=True)
class FailAs:
    """A caller settles a stage as timed out, or with a bad answer, with a code."""

    who: int
    stage: int
    failure: Failure
    code: int = 0


@dataclass(frozen=True)
class Cancel:
    """A caller cancels a stage."""

    who: int
    stage: int


@dataclass(frozen=True)
class Claim:
    """A caller takes a ready stage, whose function it will call."""

    who: int
    stage: int


@dataclass(frozen=True)
class Finish:
    """A caller finishes a stage that it has claimed with what its function answered."""

    who: int
    stage: int
    answer: Answer


@dataclass(frozen=True)
class Tick:
    """It is this moment: limits that are due fire."""

    who: int
    now: int


@dataclass(frozen=True)
class Attach:
    """A caller attaches a stage that waits for others. `function` is the number of the new stage's function, or None for a form without one."""

    who: int
    form: Form
    of: Tuple[int, ...]
    function: Optional[int] = None


# A changing call, by a caller: 0 to 63 where it has a word.
Event = Union[Complete, Fail, FailAs, Cancel, Claim, Finish, Tick, Attach]

_CALLS: List[Any] = [Complete, Fail, Cancel, Claim, Finish, Tick, Attach, FailAs]


def _event_in(event: Event) -> CEvent:
    known = CEvent(call=_CALLS.index(type(event)), who=in_range(event.who, 0xFF))
    if isinstance(event, Tick):
        known.now = in_range(event.now, 2**32 - 1)
    elif isinstance(event, Attach):
        known.form, known.sources, known.function = event.form, len(event.of), function_in(event.function)
        known.first, known.second = [in_range(stage, 0xFFFF) for stage in (tuple(event.of) + (0, 0))[:2]]
    else:
        known.stage = in_range(event.stage, 0xFFFF)
    if isinstance(event, Complete):
        known.value = value_in(event.value)
    elif isinstance(event, Fail):
        known.code = in_range(event.code, 2**32 - 1)
    elif isinstance(event, FailAs):
        known.kind, known.code = in_range(event.failure, 2**32 - 1), in_range(event.code, 2**32 - 1)
    elif isinstance(event, Finish):
        known.answer = answer_in(event.answer)
    return known


def _event_out(event: CEvent) -> Event:
    call, who, stage = _CALLS[event.call], event.who, event.stage
    if call is Complete:
        return Complete(who, stage, value_out(event.value))
    if call is Fail:
        return Fail(who, stage, event.code)
    if call is FailAs:
        return FailAs(who, stage, Failure(event.kind), event.code)
    if call is Finish:
        return Finish(who, stage, answer_out(event.answer))
    if call is Tick:
        return Tick(who, event.now)
    if call is Attach:
        function = None if event.function == NO_FUNCTION else event.function
        return Attach(who, Form(event.form), (event.first, event.second)[: event.sources], function)
    made: Event = call(who, stage)
    return made


def word_of(event: Event) -> int:
    """The word of an event. `NO_WORD`: a caller isn't below 64, a stage or a function isn't below 4,096, or a stage
    that is attached doesn't fit its form."""
    word = c.c_uint64()
    check(library.cf_word_of_event(c.byref(_event_in(event)), c.byref(word)))
    return word.value


def event_of(word: int) -> Event:
    """The event of a word; `NO_WORD` where it is none's."""
    return _event_out(_known(word))


def _known(word: int) -> CEvent:
    event = CEvent()
    check(library.cf_event_of(word, c.byref(event)))
    return event


_REPLIES: List[Callable[[CReply], Reply]] = [flag_out, flag_out, flag_out, claim_out, finish_out, number_out, number_out, flag_out]


def reply_of(word: int, reply: CReply) -> Reply:
    """What the event of a word was answered."""
    told: Reply = _REPLIES[_known(word).call](reply)
    return told
