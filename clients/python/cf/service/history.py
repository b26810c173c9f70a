"""What happened to a request: told in words, as an account that `cf_look check` judges, and as a script."""
import ctypes as c
import itertools
import subprocess
import time
import unicodedata
from array import array
from typing import TYPE_CHECKING, Any, Callable, Iterator, List, NamedTuple, Optional, Sequence, Set, Tuple

from .._library import CNews, CReply, CStage
from ..events import Event, event_of
from ..ledger import Ledger
from ..plan import Plan
from ..tale import TaleFormat, Label, Tale
from ..values import Form
from .words import BAD_ANSWER, CANCELLED, CLIENT, CLOCK, FIRST_WORKER, IS_SETTLED, RELAY, REPLY_NUMBERS, THROWN, TIMED_OUT, OutcomeNumbers

if TYPE_CHECKING:
    from typing import Protocol

    class Planned(Protocol):
        """A plan. Of each stage the form, the numbers of its sources, its function or None, and its name."""

        @property
        def rows(self) -> Sequence[Tuple[int, Tuple[int, ...], Optional[Callable[..., Any]], str]]:
            ...


LONGEST_TEXT = 60  # characters that are told of a value
FORGING = ("Cc", "Cf", "Cs", "Zl", "Zp")  # the categories of characters that could make a text look like another line
SHORT = {"\n": "\\n", "\r": "\\r", "\t": "\\t"}
Describe = Callable[[object], str]  # what is told of a value or an exception
CALLERS = {CLIENT: "caller", CLOCK: "clock", RELAY: "relay"}
CAUSES = {CANCELLED: "cancelled", TIMED_OUT: "timed out", BAD_ANSWER: "a bad answer"}  # of faults that aren't told by their code alone


class HistoryEntry(NamedTuple):
    """One event of a history.

    Attributes:
        place: Its place, counted from 1.
        at: When it was done, in seconds since the first event.
        word: Its word of 64 bits.
        event: The same as a class of `cf.events`.
        reply: The numbers of the reply, at the places of words.py.
        told: Which stages it settled, and with what.
        changed: The stages that it made ready, or that it claimed, linked or settled."""

    place: int
    at: float
    word: int
    event: Event
    reply: Tuple[int, ...]
    told: List[Tuple[int, OutcomeNumbers]]
    changed: List[int]


def caller_name(who: int) -> str:
    """The name of a caller, by its number."""
    return CALLERS.get(who, f"worker {who - FIRST_WORKER}")


def describe_all(value: object) -> str:
    """All that `repr` tells of a value or an exception, cut to 60 characters."""
    try:
        text = repr(value)
    except Exception:
        text = f"a {type(value).__name__}"
    return text if len(text) <= LONGEST_TEXT else text[: LONGEST_TEXT - 3] + "..."


def describe_types(value: object) -> str:
    """The type of a value, and its length where it has one, as `str of 12`; the class of an exception alone."""
    name = type(value).__name__
    try:
        return name if isinstance(value, BaseException) else f"{name} of {len(value)}"  # type: ignore[arg-type]
    except Exception:
        return name


def describe_nothing(_: object) -> str:
    """Nothing of a value or an exception."""
    return "-"


def escaped(text: str) -> str:
    """The text with its control and format characters, separators of lines and lone surrogates as JSON writes them."""
    return text if text.isprintable() else "".join(map(_escape, text))


def _escape(character: str) -> str:
    if character in SHORT or unicodedata.category(character) not in FORGING:
        return SHORT.get(character, character)
    code = character.encode("utf-16-be", "surrogatepass").hex()
    return "".join(f"\\u{code[k:k + 4]}" for k in range(0, len(code), 4))


def _description_by(describe: Describe, value: object) -> str:
    """What a function tells of a value; `?` where it raises."""
    try:
        text = describe(value)
    except KeyboardInterrupt:
        raise
    except BaseException:
        return "?"
    return text if isinstance(text, str) else "?"


class History:
    """The events of a request in their one order, with all that callers were told. It stays as it is while the request
    goes on.

        history = request.history()
        log.error(history.line())
        folder.joinpath("account.json").write_text(history.account())
        folder.joinpath("script.json").write_text(history.script())

    `print(history)` tells it in words, a line for each event, and `line()` sums it up in one line, for a log.
    `account()` is for `cf_look check`, `page()` for a browser, `script()` for `cf run` and `cf_look dot`. The library
    does the words again for these, and tells the same in each language.

    What is told of values and exceptions depends on the `describe` of the request or of its service. With any but
    `describe_all`, `values` and `errors` are texts, and no value is kept.

    Attributes:
        name: The request's name.
        names: The name of each stage, by its number.
        words: The word of each event.
        values, errors: What the numbers in the words stand for. An error is None that no word names, as that of a time
            limit which hasn't come."""

    def __init__(self, name: str, plan: "Optional[Planned]", facts: Tuple[Any, Any, List[str], List[Any], List[Optional[BaseException]]]) -> None:
        words, times, names, values, errors = facts
        self.name: str = name
        self.names: List[str] = names
        self.values: List[Any] = values
        self.errors: List[Any] = errors
        self._describe: Describe = describe_all
        self.words: List[int] = _numbers("Q", words)
        rows = [] if plan is None else plan.rows
        self.planned: List[Tuple[int, Tuple[int, ...], bool]] = [(form, of, call is not None) for form, of, call, _ in rows]
        self._aids: Set[int] = set()  # stages that stand for a join or a scope
        self._times = _numbers("q", times)
        self._since = time.time_ns() - time.monotonic_ns()  # when the clock of the times was at 0
        self._opened: Optional[int] = None  # in nanoseconds since 1970, where the first event doesn't tell it
        self._entries: Optional[List[HistoryEntry]] = None
        self._start: Optional[List[Tuple[int, OutcomeNumbers]]] = None

    def _with_descriptions(self, describe: Describe) -> "History":
        """The same with what a function tells of values and exceptions. It is called here, and no lock is held."""
        if describe is not describe_all:
            self.values = [_description_by(describe, it) for it in self.values]
            self.errors = [it if it is None else _description_by(describe, it) for it in self.errors]
            self._describe = describe
        return self

    def entries(self) -> List[HistoryEntry]:
        """All events, as named tuples. The library does the words again for these."""
        if self._entries is None:
            first = self._times[0] if self._times else 0
            self._entries = [
                HistoryEntry(k + 1, (self._times[k] - first) / 1e9, word, event_of(word), *done)
                for k, (word, done) in enumerate(zip(self.words, self._replayed()))
            ]
        return self._entries

    def settled_at_start(self) -> List[Tuple[int, OutcomeNumbers]]:
        """Which stages are settled before the first event, and with what."""
        if self._start is None:
            with Ledger(self._plan()) as ledger:
                stages = [(number, ledger._call_for("cf_ledger_stage", CStage(), number)) for number in range(len(self.planned))]
            self._start = [(number, _outcome(it)) for number, it in stages if it.kind == IS_SETTLED]
        return self._start

    def _replayed(self) -> Iterator[Tuple[Tuple[int, ...], List[Tuple[int, OutcomeNumbers]], List[int]]]:
        """Of each word what it was answered, which stages it settled, and which it changed."""
        reply, count, many = CReply(), c.c_size_t(), len(self.names)
        numbers, news = (c.c_uint32 * REPLY_NUMBERS).from_buffer(reply), (CNews * max(many, 1))()
        settled = {number for number, _ in self.settled_at_start()}
        with Ledger(self._plan(), many - len(self.planned)) as ledger:
            for word in self.words:
                ledger._call("cf_ledger_apply", word, c.byref(reply), news, many, c.byref(count))
                told = [(it.stage, _outcome(it.now)) for it in news[: count.value] if it.now.kind == IS_SETTLED and it.stage not in settled]
                settled.update(number for number, _ in told)
                yield tuple(numbers), told, [it.stage for it in news[: count.value]]

    # As texts, which the library tells.

    def __str__(self) -> str:
        return self._text_as(TaleFormat.LINES).rstrip("\n")

    def lines(self) -> List[str]:
        """A line that says how much happened; then a line for each event, and below it one for each stage that the event
        settled."""
        return str(self).split("\n")

    def line(self) -> str:
        """One line, for a log: how much happened, which stage failed first, and which one is open."""
        return self._text_as(TaleFormat.LINE)

    def sentences(self) -> List[Tuple[str, List[str]]]:
        """For each event its line, and the lines of the stages that it settled."""
        lines = iter(self.lines()[1:])
        return [(next(lines), list(itertools.islice(lines, len(entry.told)))) for entry in self.entries()]

    def account(self) -> str:
        """The events as a line of JSON, which `cf_look check` judges and `cf_look page` shows."""
        return self._text_as(TaleFormat.ACCOUNT).rstrip("\n")

    def script(self, most: Optional[int] = None) -> str:
        """The events as a line of JSON, which `cf run` does again, without your functions, and `cf_look dot` draws.

        Args:
            most: How many of the first events it has. By default all."""
        return self._text_as(TaleFormat.SCRIPT, most).rstrip("\n")

    def report(self) -> str:
        """What `cf run` prints for the script: the replies, and what the stages end with."""
        return self._text_as(TaleFormat.REPORT)

    def _text_as(self, kind: TaleFormat, most: Optional[int] = None) -> str:
        with Tale(self._plan(), len(self.names) - len(self.planned), self.words[:most]) as tale:
            if kind not in (TaleFormat.SCRIPT, TaleFormat.REPORT):
                tale.set_times(self._clock())
                tale.set_texts(Label.NAME, [self.name])
                tale.set_texts(Label.STAGES, self.names)
                tale.set_texts(Label.CALLERS, self._callers())
                tale.set_texts(Label.VALUES, [self._text(value) for value in self.values])
                tale.set_texts(Label.ERRORS, [self._text(error) for error in self.errors])
            return tale.text(kind)

    def _plan(self) -> Plan:
        plan = Plan()
        for number, (form, of, has_function) in enumerate(self.planned):
            plan.stage(Form(form), *of, function=number if has_function else None)
        return plan

    def _clock(self) -> List[int]:
        """When each event was done, in nanoseconds since the first."""
        return [moment - self._times[0] for moment in self._times]

    def _callers(self) -> List[str]:
        """What the callers are called, up to the last that did something."""
        return [self.caller_name(who) for who in range(1 + max((word >> 48 & 0xFF for word in self.words), default=-1))]

    def page(self, program: str = "cf_look") -> str:
        """A page for a browser, which loads nothing. The program cf_look makes it of the account.

        Args:
            program: The path of cf_look.

        Raises:
            FileNotFoundError: The program isn't there.
            subprocess.CalledProcessError: The program fails."""
        done = subprocess.run([program, "page"], input=self.account(), stdout=subprocess.PIPE, check=True, encoding="utf-8")
        return done.stdout

    # What things are called.

    def caller_name(self, who: int) -> str:
        """The name of a caller, by its number."""
        return caller_name(who)

    def error_text(self, code: int) -> str:
        """The text of an exception, by its code."""
        return escaped(self._text(self.errors[code]))

    def fault_text(self, told: OutcomeNumbers) -> str:
        """What a stage failed with."""
        if told.kind == THROWN:
            return self.error_text(told.code)
        return f"{CAUSES[told.kind]}, {self.error_text(told.code)}" if told.code else CAUSES[told.kind]

    def _text(self, thing: Any) -> str:
        return _description_by(describe_all, thing) if self._describe is describe_all else str(thing)


def _outcome(stage: CStage) -> OutcomeNumbers:
    outcome = stage.outcome
    return OutcomeNumbers(outcome.kind, outcome.wrapped, outcome.code, outcome.value.kind, outcome.value.number % 2**32)


def _numbers(kind: str, given: Any) -> List[int]:
    numbers = array(kind)
    numbers.frombytes(bytes(given))
    return numbers.tolist()


def _whole(text: str) -> str:
    """The text without halves of surrogate pairs, which no UTF-8 has."""
    return text.encode("utf-8", "replace").decode()
