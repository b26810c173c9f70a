"""Notes beside words: what a row's payloads say in JSON, in the two numbers of the machine, and back.

A row keeps a payload beside a word: the definition of an attached stage, the stage that a composing function gave, an
exception, the timer of a stage. docs/FORMATS.md ("Notes beside words") has the numbers. A function is a name and a
version in a row, and a number of this process's own in a note.
"""
import json
import threading
from typing import Any, Dict, List, Mapping, NamedTuple, Optional, Tuple

from ..service.words import ATTACH, COMPOSE_FORMS, FAIL, FINISH, FORMS_WITHOUT_FUNCTION, LINKS, TICK
from .codec import Abandoned, Json
from .functions import Functions, RegisteredFunction
from .machine import Note
from .plans import checked_definition

NOTHING = Note(0, 0)
_CALLS, _TRIES, _COMPOSES, _GIVES, _TIMES_OUT, _GIVES_AT, _ABANDONS = range(1, 8)
_KIND, _STAGE = 56, 32  # where a kind and a stage begin in `what`
ABANDONS = Note(_ABANDONS << _KIND, 0)


class FunctionNumbers:
    """The numbers that functions have in notes: from 1 on, and 0 for one that the machine is to leave to others, since it isn't
    registered here. Any thread may ask."""

    def __init__(self, functions: Functions) -> None:
        self._functions, self._lock = functions, threading.Lock()
        self._known: List[RegisteredFunction] = []
        self._numbers: Dict[Tuple[str, int], int] = {}

    def number(self, name: str, version: int) -> int:
        """The number of a function, or 0."""
        known = self._functions.find(name, version)
        if known is None:
            return 0
        with self._lock:
            if (name, version) not in self._numbers:
                self._known.append(known)
                self._numbers[name, version] = len(self._known)
            return self._numbers[name, version]

    def function(self, number: int) -> RegisteredFunction:
        """The function of a number other than 0."""
        return self._known[number - 1]


class TimerSaid(NamedTuple):
    """What the payload beside a timer's word says: when a stage is settled, in milliseconds of the store's clock, and whether it
    gets a value, whose bytes stand there, too, unless it is None."""

    stage: int
    moment: int
    gives: bool
    value: Optional[bytes]


def write_timer(said: TimerSaid) -> bytes:
    """The payload beside a timer's word: a line of JSON, and the bytes of the value behind it."""
    head = json.dumps({"stage": said.stage, "moment": said.moment, "gives": said.gives}).encode()
    return head if said.value is None else head + b"\n" + said.value


def read_timer(given: bytes) -> TimerSaid:
    """What such a payload says. `ValueError` where it is none."""
    head, has_value, value = given.partition(b"\n")
    said = json.loads(head.decode())
    stage, moment, gives = (said.get(name) for name in ("stage", "moment", "gives")) if isinstance(said, dict) else (None, None, None)
    if not (isinstance(stage, int) and isinstance(moment, int) and isinstance(gives, bool)):
        raise ValueError(f"it says nothing of a timer: {head[:80]!r}")
    return TimerSaid(stage, moment, gives, value if has_value else None)


def write_given(stage: int) -> bytes:
    """The payload beside the finish of a composing stage whose function gave this stage."""
    return json.dumps({"stage": stage}).encode()


def stage_of(note: Note) -> int:
    """The stage that a note names."""
    return note.what >> _STAGE & 0xFFFF


def moment_of(note: Note) -> Optional[int]:
    """The moment of a timer, where the note is of one."""
    return note.moment if note.what >> _KIND in (_TIMES_OUT, _GIVES_AT) else None


def says_more(word: int) -> bool:
    """Whether the note of a word is in its payload."""
    kind = word >> _KIND
    return kind in (ATTACH, FAIL, TICK) or kind == FINISH and word >> _STAGE & 0xF == LINKS


def note_of_definition(said: Mapping[str, Any], form: int, called: Mapping[str, Any], numbers: FunctionNumbers) -> Note:
    """The note of a stage of this form. `called` is the definition whose function it calls: its own, or that of the stage
    which it tries again."""
    if form in FORMS_WITHOUT_FUNCTION:
        return NOTHING
    function = numbers.number(str(called.get("fn")), int(called.get("version", 0)))
    if form in COMPOSE_FORMS:  # (a further try of one calls the first one's function, and has a promise of its own)
        return Note(_COMPOSES << _KIND | int(said.get("to", 0)) << _STAGE | (function if "to" in said else 0), 0)
    if "again" in said:
        return Note(_TRIES << _KIND | int(said["again"]) << _STAGE, 0)
    return Note(_CALLS << _KIND | function, 0)


def note_of_word(word: int, payload: Optional[bytes], codec: Json, stages: int) -> Note:
    """The note of a word other than an attach, by its payload, where so many stages are there. `ValueError` where that says nothing
    of the kind."""
    kind = word >> _KIND
    if payload is None:
        return NOTHING
    if kind == TICK:
        timer = read_timer(payload)
        return Note((_GIVES_AT if timer.gives else _TIMES_OUT) << _KIND | _named(timer.stage, stages), timer.moment)
    if kind == FINISH:
        return Note(_GIVES << _KIND | _named(int(json.loads(payload)["stage"]), stages), 0)
    try:
        return ABANDONS if isinstance(codec.read_error(payload), Abandoned) else NOTHING
    except Exception:  # who is shown it is told so
        return NOTHING


def _named(stage: int, stages: int) -> int:
    if not 0 <= stage < stages:
        raise ValueError(f"there is no stage {stage}")
    return stage << _STAGE


def definition_in(payload: Optional[bytes], stage: int) -> Dict[str, Any]:
    """The definition of a stage, by the payload of its attach. `ValueError` where that says nothing of a stage."""
    if payload is None:
        raise ValueError(f"nothing says what stage {stage} is")
    return checked_definition(json.loads(payload.decode()), stage)
