"""What the words of a plan did, told as texts by the library (docs/FORMATS.md, "Histories in words")."""
import ctypes as c
import enum
import itertools
from typing import Sequence

from ._library import library
from .handle import Handle
from .plan import Plan
from .texts import _code_and_text
from .values import check


class Label(enum.IntEnum):
    """What texts are said of."""

    NAME, STAGES, CALLERS, VALUES, ERRORS = range(5)


class TaleFormat(enum.IntEnum):
    """As what a tale is told."""

    LINES, LINE, ACCOUNT, SCRIPT, REPORT = range(5)


class Tale(Handle):
    """What these words did to a plan with room for so many stages that are attached. Nothing is said of it yet.

    Raises:
        Refused: A word can't be done (NO_WORD, NO_STAGE)."""

    def __init__(self, plan: Plan, room: int, words: Sequence[int]) -> None:
        super().__init__()
        plan.build()._call("cf_history_new", room, (c.c_uint64 * len(words))(*words), len(words), self._at)

    def set_times(self, times: Sequence[int]) -> None:
        """Says when each event was done, in nanoseconds from any moment on."""
        self._call("cf_history_times", (c.c_uint64 * len(times))(*times), len(times))

    def set_texts(self, what: Label, texts: Sequence[str]) -> None:
        """Says what things are called, or stand for, by their numbers. Half of a surrogate pair, which UTF-8 hasn't, is
        told as JSON writes it."""
        parts = [text.encode("utf-8", "backslashreplace") for text in texts]
        ends = list(itertools.accumulate(map(len, parts)))
        self._call("cf_history_say", what, b"".join(parts), sum(map(len, parts)), (c.c_size_t * len(ends))(*ends), len(ends))

    def text(self, kind: TaleFormat) -> str:
        """All of it."""
        with self._lock:
            code, text = _code_and_text(lambda *room: library.cf_history_text(self._at, kind, *room))
        check(code)
        return text
