"""Scripts and texts."""
import ctypes as c
from typing import Callable, Optional, Tuple, Union

from ._library import library
from .values import Code, Outcome, Refused, check, outcome_in

ROOM = 4096


class BadScript(Refused):
    """A script has a fault; `line` is how `cf run` tells it."""

    def __init__(self, line: str) -> None:
        super().__init__(Code.BAD_SCRIPT)
        self.line: str = line
        self.args = (line,)


def _code_and_text(call: Callable[..., int]) -> Tuple[int, str]:
    """The code of a call, and the text that it tells. It is made again where that needs more room."""
    room = ROOM
    while True:
        text, length = c.create_string_buffer(room), c.c_size_t()
        code = call(text, room, c.byref(length))
        if code not in (0, Code.BAD_SCRIPT) or length.value <= room:
            return code, text.raw[: length.value].decode()
        room = length.value


def run_script(script: Union[bytes, str]) -> str:
    """Runs a script, as `cf run` does, and gives its report. `BadScript` where it has a fault."""
    given = script.encode() if isinstance(script, str) else bytes(script)
    code, text = _code_and_text(lambda *room: library.cf_run_script(given, len(given), *room))
    if code == Code.BAD_SCRIPT:
        raise BadScript(text.rstrip("\n"))
    check(code)
    return text


def outcome_text(outcome: Optional[Outcome]) -> str:
    """The text of an outcome, as reports have it."""
    code, text = _code_and_text(lambda *room: library.cf_text_of_outcome(c.byref(outcome_in(outcome)), *room))
    check(code)
    return text


def code_text(code: int) -> str:
    """The name of a code."""
    told, text = _code_and_text(lambda *room: library.cf_code_text(code, *room))
    check(told)
    return text
