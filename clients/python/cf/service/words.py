"""The numbers in words of events, replies and outcomes, as cf.h and docs/FORMATS.md have them; and who is which
caller."""
from types import FunctionType
from typing import Any, NamedTuple

from .. import _library
from ..values import Form

# The kinds of words.
COMPLETE, FAIL, CANCEL, CLAIM, FINISH, TICK, ATTACH, FAIL_AS = range(1, 9)
FAIL_BADLY = 9  # as a change, a FAIL_AS with a bad answer; by FAIL_AS itself a stage times out
# What a finish says.
GIVES, THROWS, LINKS = range(1, 4)
# The kinds of stages in the news, of outcomes, and of what a function is called with.
IS_PENDING, IS_READY, IS_CLAIMED, IS_LINKED, IS_SETTLED = range(5)
PENDING, VALUE, THROWN = _library.PENDING, _library.VALUE, _library.THROWN
CANCELLED, TIMED_OUT, BAD_ANSWER = _library.CANCELLED, _library.TIMED_OUT, _library.BAD_ANSWER
FAILURES = (TIMED_OUT, BAD_ANSWER)  # by the tags of FAIL_AS
NO_ARGS, ONE, TWO, GOT = _library.NO_ARGS, _library.ONE, _library.TWO, _library.GOT
# The places of a reply's numbers.
ANSWER, NUMBER, ARGS, FIRST_SOME, FIRST, SECOND_SOME, SECOND = range(7)
OUTCOME = slice(7, 12)
REPLY_NUMBERS = 12

MOST_STAGES, MOST_EDGES = 4096, 16384
NEVER = 2**64 - 1  # the moment of the next deadline where there is none

# The callers in a history (docs/FORMATS.md, "Callers"). THIS_THREAD is whichever this thread is.
THIS_THREAD, CLIENT, CLOCK, RELAY, FIRST_WORKER, MOST_CALLERS = -1, 0, 1, 2, 3, 64

JOIN = 1  # what `_aid_of` answers of a stage that stands for a join; any number but 0 means that nobody waits for it by itself

FORMS = (
    "source",
    "supply",
    "runAsync",
    "apply",
    "accept",
    "thenRun",
    "combine",
    "acceptBoth",
    "runBoth",
    "applyEither",
    "acceptEither",
    "runEither",
    "compose",
    "handle",
    "whenComplete",
    "exceptionally",
    "allOf",
    "anyOf",
    "exceptionallyCompose",
)

COMPOSE_FORMS = (int(Form.COMPOSE), int(Form.EXCEPTIONALLY_COMPOSE))  # those whose function gives a future
FORMS_WITHOUT_FUNCTION = (int(Form.SOURCE), int(Form.ALL_OF), int(Form.ANY_OF))


class OutcomeNumbers(NamedTuple):
    """The outcome of a stage, in the library's numbers: PENDING, VALUE or another kind; whether it is wrapped; the
    code of a fault; and whether there is a value, and its number."""

    kind: int
    wrapped: int
    code: int
    some: int
    number: int


NOT_YET = OutcomeNumbers(PENDING, 0, 0, 0, 0)


def name_of(call: Any) -> str:
    """What histories call a function: its qualified name, that of what a partial calls, or that of its class."""
    if type(call) is FunctionType:
        return call.__qualname__
    return str(getattr(getattr(call, "func", call), "__qualname__", type(call).__name__))


class ScopeEnded(RuntimeError):
    """A stage was to be attached in a scope that has ended. Nothing was changed."""


class RequestFull(RuntimeError):
    """A request or a flow would have more than 4,096 stages, which is as many as one graph may have. Nothing was
    changed."""
