"""The shared library, and the structures of cf.h."""
import ctypes as c
import importlib.util
import os
from types import SimpleNamespace
from typing import Any, Callable, Dict, List, Sequence

NO_FUNCTION = 0xFFFFFFFF
VERSION = (2, 0)  # of the library that this module is written for

# The kinds in the structures: of a value, an answer, an outcome, what a function is called with, and a record; and what
# a record asked.
NIL, INT = range(2)
GIVE, THROW, LINK = range(3)
PENDING, VALUE, THROWN, CANCELLED, TIMED_OUT, BAD_ANSWER = range(6)
NO_ARGS, ONE, TWO, GOT = range(4)
DID, SAW = range(2)
ASKED_OUTCOME, ASKED_NOW = range(2)
# The answers to a finish.
WON, LATE, NOT_YOURS = range(3)


class CHandle(c.Structure):
    """A handle: what stands behind it is the library's alone."""

    _fields_ = [("at", c.c_void_p), ("full", c.c_bool)]


class CValue(c.Structure):
    _fields_ = [("kind", c.c_uint32), ("number", c.c_int32)]


class CAnswer(c.Structure):
    _fields_ = [("kind", c.c_uint32), ("code", c.c_uint32), ("value", CValue), ("stage", c.c_uint16)]


class COutcome(c.Structure):
    _fields_ = [("kind", c.c_uint32), ("wrapped", c.c_uint32), ("code", c.c_uint32), ("value", CValue)]


class CArgs(c.Structure):
    _fields_ = [("kind", c.c_uint32), ("first", CValue), ("second", CValue), ("outcome", COutcome)]


class CNow(c.Structure):
    _fields_ = [("kind", c.c_uint32), ("outcome", COutcome)]


class CReply(c.Structure):
    _fields_ = [("answer", c.c_uint32), ("number", c.c_uint32), ("args", CArgs)]


class CRecord(c.Structure):
    _fields_ = [
        ("kind", c.c_uint32),
        ("place", c.c_uint32),
        ("word", c.c_uint64),
        ("reply", CReply),
        ("asked", c.c_uint32),
        ("stage", c.c_uint16),
        ("absent", CValue),
        ("outcome", COutcome),
        ("now", CNow),
    ]


class CDeskSizes(c.Structure):
    _fields_ = [("log", c.c_uint16), ("calls", c.c_uint16), ("room", c.c_uint16), ("functions", c.c_uint32)]


class CStage(c.Structure):
    _fields_ = [("kind", c.c_uint32), ("who", c.c_uint32), ("target", c.c_uint16), ("outcome", COutcome)]


class CNews(c.Structure):
    _fields_ = [("stage", c.c_uint16), ("now", CStage)]


class CTask(c.Structure):
    _fields_ = [("held", c.c_uint32), ("stage", c.c_uint16), ("function", c.c_uint16), ("args", CArgs), ("answer", CAnswer), ("finished", c.c_uint32)]


class CGiven(c.Structure):
    _fields_ = [("stage", c.c_uint16), ("value", CValue)]


class CStep(c.Structure):
    _fields_ = [("who", c.c_uint8), ("first", c.c_uint16), ("place", c.c_size_t), ("finish", c.c_uint64), ("claim", c.c_uint64)]


class CEvent(c.Structure):
    _fields_ = [
        ("call", c.c_uint32),
        ("kind", c.c_uint32),
        ("who", c.c_uint8),
        ("stage", c.c_uint16),
        ("value", CValue),
        ("code", c.c_uint32),
        ("answer", CAnswer),
        ("now", c.c_uint32),
        ("form", c.c_uint32),
        ("sources", c.c_uint32),
        ("first", c.c_uint16),
        ("second", c.c_uint16),
        ("function", c.c_uint32),
    ]


class CEntry(c.Structure):
    _fields_ = [("word", c.c_uint64), ("token", c.c_uint64)]


class CRowOpening(c.Structure):
    _fields_ = [("room", c.c_uint16), ("first", c.c_uint32), ("session", c.c_uint64)]


class CRowClaim(c.Structure):
    _fields_ = [("session", c.c_uint64), ("stage", c.c_uint16)]


class CNote(c.Structure):
    _fields_ = [("what", c.c_uint64), ("moment", c.c_uint64)]


class CNoted(c.Structure):
    _fields_ = [("word", c.c_uint64), ("token", c.c_uint64), ("note", CNote)]


class CHostOpening(c.Structure):
    _fields_ = [("session", c.c_uint64), ("workers", c.c_uint32), ("lease", c.c_uint64), ("takes_all", c.c_uint32)]


class CHostActing(c.Structure):
    _fields_ = [
        ("kind", c.c_uint32),
        ("stage", c.c_uint16),
        ("moment", c.c_uint64),
        ("form", c.c_uint32),
        ("sources", c.c_uint32),
        ("first", c.c_uint16),
        ("second", c.c_uint16),
        ("function", c.c_uint32),
    ]


class CHostOrder(c.Structure):
    _fields_ = [
        ("kind", c.c_uint32),
        ("told", c.c_uint32),
        ("ticket", c.c_uint64),
        ("request", c.c_uint64),
        ("stage", c.c_uint16),
        ("function", c.c_uint32),
        ("place", c.c_size_t),
        ("moment", c.c_uint64),
        ("args", CArgs),
        ("outcome", COutcome),
    ]


class CHostWant(c.Structure):
    _fields_ = [("entry", CNoted), ("source", c.c_uint32), ("stage", c.c_uint16)]


class CHostBeat(c.Structure):
    _fields_ = [("session", c.c_uint64), ("count", c.c_uint64)]


class CHostLength(c.Structure):
    _fields_ = [("request", c.c_uint64), ("words", c.c_size_t)]


class CHostView(c.Structure):
    _fields_ = [("words", c.c_size_t), ("stages", c.c_uint16), ("fault", c.c_uint32)]


def in_range(number: int, highest: int, lowest: int = 0) -> int:
    """The number, which ctypes would cut to C's width. One out of its range raises OverflowError, and no call is
    made."""
    if not lowest <= number <= highest:
        raise OverflowError(f"{number} isn't between {lowest} and {highest}")
    return number


def numbers(of: Sequence[int]) -> "c.Array[c.c_uint16]":
    """Numbers of stages."""
    return (c.c_uint16 * len(of))(*[in_range(stage, 0xFFFF) for stage in of])


_H, _R, _OF = c.POINTER(CHandle), c.POINTER(CReply), c.POINTER(c.c_uint16)
_U8, _U16, _U32, _U64, _SIZE = c.c_uint8, c.c_uint16, c.c_uint32, c.c_uint64, c.c_size_t
_U8_OUT, _U16_OUT, _U64_OUT = c.POINTER(c.c_uint8), c.POINTER(c.c_uint16), c.POINTER(c.c_uint64)
_ANSWER = c.POINTER(CAnswer)
_SIZE_OUT = c.POINTER(c.c_size_t)
_OUTCOME, _NOW, _TEXT = c.POINTER(COutcome), c.POINTER(CNow), [c.c_char_p, _SIZE, c.POINTER(_SIZE)]

# The arguments of each call that the module makes.
CALLS: Dict[str, List[Any]] = {
    "cf_free": [_H],
    "cf_builder_new": [_H, _U16, _U16],
    "cf_builder_stage": [_H, _U32, _OF, _SIZE, _U32, _U16_OUT],
    "cf_builder_limit": [_H, _U16, _U32, _U32, _U32, CValue],
    "cf_build": [_H],
    "cf_graph_new": [_H, _U16, _H],
    "cf_complete": [_H, _U16, CValue, _R],
    "cf_fail": [_H, _U16, _U32, _R],
    "cf_fail_as": [_H, _U16, _U32, _U32, _R],
    "cf_cancel": [_H, _U16, _R],
    "cf_claim": [_H, _U8, _U16, _R],
    "cf_finish_with": [_H, _U8, _U16, _ANSWER, _R],
    "cf_tick": [_H, _U32, _R],
    "cf_attach": [_H, _U32, _OF, _SIZE, _U32, _R],
    "cf_get": [_H, _U16, _OUTCOME],
    "cf_get_now": [_H, _U16, CValue, _NOW],
    "cf_lowest_ready": [_H, _U16_OUT],
    "cf_function": [_H, _U16, _U16_OUT],
    "cf_stages": [_H, _U16_OUT],
    "cf_turns": [_H, _U64_OUT],
    "cf_restart": [_H],
    "cf_restart_with": [_H, c.POINTER(CGiven), _SIZE],
    "cf_plan_of": [_H, _H],
    "cf_next": [_H, _U8, c.POINTER(CTask)],
    "cf_desk_open": [_H, _H, _SIZE, _U16, _U16],
    "cf_desk_open_with": [_H, _H, _SIZE, c.POINTER(CDeskSizes)],
    "cf_desk_complete": [_H, _U16, CValue, _R],
    "cf_desk_fail": [_H, _U16, _U32, _R],
    "cf_desk_fail_as": [_H, _U16, _U32, _U32, _R],
    "cf_desk_cancel": [_H, _U16, _R],
    "cf_desk_claim": [_H, _U16, _R],
    "cf_desk_finish_with": [_H, _U16, _ANSWER, _R],
    "cf_desk_tick": [_H, _U32, _R],
    "cf_desk_next": [_H, c.POINTER(CTask)],
    "cf_desk_complete_many": [_H, c.POINTER(CGiven), _SIZE, _SIZE_OUT],
    "cf_desk_attach": [_H, _U32, _OF, _SIZE, _U32, _R],
    "cf_desk_read": [_H, _U16, _OUTCOME],
    "cf_desk_read_now": [_H, _U16, CValue, _NOW],
    "cf_desk_join": [_H, _U16, _U32, _NOW],
    "cf_desk_ready": [_H, _U16_OUT],
    "cf_desk_meet": [_H, _H],
    "cf_desk_seen": [_H, _U16_OUT],
    "cf_desk_left": [_H, _U16_OUT],
    "cf_desk_function": [_H, _U16, _U16_OUT],
    "cf_desk_caller": [_H, _U8_OUT],
    "cf_close_begin": [_H],
    "cf_close_add": [_H, _H],
    "cf_close_end": [_H],
    "cf_closed_events": [_H, _U16_OUT],
    "cf_closed_word": [_H, _U16, _U64_OUT],
    "cf_closed_records": [_H, _U8, _U16_OUT],
    "cf_closed_record": [_H, _U8, _U16, c.POINTER(CRecord)],
    "cf_closed_graph": [_H],
    "cf_word_of_event": [c.POINTER(CEvent), _U64_OUT],
    "cf_event_of": [_U64, c.POINTER(CEvent)],
    "cf_apply": [_H, _U64, _R],
    "cf_ledger_new": [_H, _U16, _H],
    "cf_ledger_of": [_H, _U16, c.POINTER(_U64), _SIZE, _H, _SIZE_OUT],
    "cf_ledger_apply": [_H, _U64, _R, c.POINTER(CNews), _SIZE, _SIZE_OUT],
    "cf_ledger_step": [_H, c.POINTER(CStep), c.POINTER(CTask), c.POINTER(CNews), _SIZE, _SIZE_OUT],
    "cf_ledger_apply_all": [_H, c.POINTER(_U64), _SIZE, _SIZE_OUT],
    "cf_ledger_words": [_H, _SIZE, c.POINTER(_U64), _SIZE, _SIZE_OUT],
    "cf_ledger_news": [_H, _SIZE, _OF, _SIZE, _SIZE_OUT],
    "cf_ledger_ready": [_H, _U16, _U16_OUT],
    "cf_ledger_stage": [_H, _U16, c.POINTER(CStage)],
    "cf_ledger_function": [_H, _U16, _U16_OUT],
    "cf_ledger_stages": [_H, _U16_OUT],
    "cf_ledger_grow": [_H, _U16],
    "cf_ledger_restart": [_H],
    "cf_row_new": [_H, c.POINTER(CRowOpening), _H],
    "cf_row_plan": [_H, c.POINTER(_U64), _SIZE, _U64_OUT],
    "cf_row_met": [_H, c.POINTER(CEntry), _U8_OUT],
    "cf_row_give_up": [_H],
    "cf_row_saw": [_H, c.POINTER(CEntry), _R, c.POINTER(CNews), _SIZE, _SIZE_OUT],
    "cf_row_grow": [_H, _U16],
    "cf_row_number": [_H, _U8_OUT],
    "cf_row_open_claim": [_H, _U16, c.POINTER(CRowClaim)],
    "cf_row_held": [_H, _U64, _U16, _U16_OUT],
    "cf_row_abandon": [_H, _U64, _U16, _U32, _U64_OUT],
    "cf_row_finish": [_H, c.POINTER(CTask), _U64_OUT],
    "cf_row_next_claim": [_H, c.POINTER(CTask), _U16, _U16_OUT],
    "cf_host_new": [c.POINTER(CHostOpening), _H],
    "cf_host_follow": [_H, _U64],
    "cf_host_act": [_H, _U64, _U64, c.POINTER(CHostActing), _U64_OUT],
    "cf_host_end": [_H, _U64, _U64, _U64_OUT],
    "cf_host_wants": [_H, _U64, _U16],
    "cf_host_lets_go": [_H, _U64, _U16],
    "cf_host_unread": [_H, _U64, _U64, _U16],
    "cf_host_grow": [_H, _U64, _U16],
    "cf_host_stirred": [_H, _U64],
    "cf_host_stop": [_H],
    "cf_host_turn": [_H, _U64, c.POINTER(CHostOrder)],
    "cf_host_put": [_H, _U64, c.POINTER(CHostWant), _SIZE, _SIZE_OUT],
    "cf_host_opened": [_H, _U64, _H, _U16, _U32, c.POINTER(CNote), _SIZE],
    "cf_host_read": [_H, _U64, _U64, c.POINTER(CNoted), _SIZE],
    "cf_host_beats": [_H, _U64, _U64, _U64, c.POINTER(CHostBeat), _SIZE],
    "cf_host_news": [_H, _U64, _U64, _U64, c.POINTER(CHostLength), _SIZE],
    "cf_host_answered": [_H, _U64, _U64, _U32],
    "cf_host_ended": [_H, _U64, _U32, _U32, _U16],
    "cf_host_stage": [_H, _U64, _U16, c.POINTER(CStage)],
    "cf_host_seen": [_H, _U64, c.POINTER(CHostView)],
    "cf_history_new": [_H, _U16, c.POINTER(_U64), _SIZE, _H],
    "cf_history_times": [_H, c.POINTER(_U64), _SIZE],
    "cf_history_say": [_H, _U32, c.c_char_p, _SIZE, _SIZE_OUT, _SIZE],
    "cf_history_text": [_H, _U32, *_TEXT],
    "cf_run_script": [c.c_char_p, _SIZE, *_TEXT],
    "cf_text_of_outcome": [_OUTCOME, *_TEXT],
    "cf_code_text": [_U32, *_TEXT],
}


_HIGHEST = {_U8: 2**8 - 1, _U16: 2**16 - 1, _U32: 2**32 - 1, _U64: 2**64 - 1, _SIZE: 2**64 - 1}


def _checked(call: Callable[..., int], arguments: List[Any]) -> Callable[..., int]:
    """The call, with its numbers in their ranges."""
    bounds = [(place, _HIGHEST[kind]) for place, kind in enumerate(arguments) if kind in _HIGHEST]

    def made(*given: Any) -> int:
        for place, highest in bounds:
            in_range(given[place], highest)
        return call(*given)

    return made


# The structures by their names in C.
STRUCTURES = {
    "cf_handle": CHandle,
    "cf_value": CValue,
    "cf_answer": CAnswer,
    "cf_outcome": COutcome,
    "cf_args": CArgs,
    "cf_now": CNow,
    "cf_reply": CReply,
    "cf_record": CRecord,
    "cf_desk_sizes": CDeskSizes,
    "cf_stage": CStage,
    "cf_news": CNews,
    "cf_event": CEvent,
    "cf_task": CTask,
    "cf_step": CStep,
    "cf_given": CGiven,
    "cf_entry": CEntry,
    "cf_row_opening": CRowOpening,
    "cf_row_claim": CRowClaim,
    "cf_note": CNote,
    "cf_noted": CNoted,
    "cf_host_opening": CHostOpening,
    "cf_host_acting": CHostActing,
    "cf_host_order": CHostOrder,
    "cf_host_want": CHostWant,
    "cf_host_beat": CHostBeat,
    "cf_host_length": CHostLength,
    "cf_host_view": CHostView,
}


def fit(loaded: c.CDLL, path: str) -> None:
    """Whether the library is one that this module was written for: its version, and the sizes of its structures."""
    loaded.cf_version.restype, loaded.cf_fits.restype, loaded.cf_layout.restype = c.c_char_p, c.c_bool, _SIZE
    if not loaded.cf_fits(_U32(VERSION[0]), _U32(VERSION[1])):
        raise ImportError(f"{path} has version {loaded.cf_version().decode()}, and {VERSION[0]}.{VERSION[1]} is wanted")
    for name, structure in STRUCTURES.items():
        if loaded.cf_layout(name.encode()) != c.sizeof(structure):
            raise ImportError(f"{path}: {name} has another size than here")


def load(path: str) -> SimpleNamespace:
    """The calls of the library."""
    try:
        loaded, calls = c.CDLL(path), SimpleNamespace()
    except OSError as error:
        said = os.environ.get("CF_LIBRARY")
        raise OSError(
            f"cf needs its library for C, libcf.so, which can't be loaded: {error}. It is looked for where "
            f"CF_LIBRARY says, which is {said or 'not set'}; without that within the C module cf._cf, if it "
            "was built, and else where the system looks for libcf.so. Set CF_LIBRARY to its path, or install "
            "a wheel that has it within; docs/C.md says how it is built."
        ) from None
    fit(loaded, path)
    for name, arguments in CALLS.items():
        call = getattr(loaded, name)
        call.argtypes = arguments
        call.restype = None if name == "cf_free" else c.c_uint32
        setattr(calls, name, _checked(call, arguments))
    return calls


def _found() -> str:
    """The library that CF_LIBRARY names, or that within the C module, if it has it, or whichever the system finds."""
    module = importlib.util.find_spec("cf._cf")
    within = "libcf.so" if module is None or module.origin is None else module.origin
    return os.environ.get("CF_LIBRARY") or within


path = _found()
library = load(path)
