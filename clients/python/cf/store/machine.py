"""What a process does next in all requests of a store that it works on: the library's host, as Python calls it.

The machine does no I/O, reads no clock and knows payloads by their places alone. docs/C.md ("All requests of a store")
leads through its calls, and cf.h says what each means. `Leader` (leader.py) does what it orders.
"""
import ctypes as c
import enum
from typing import List, Mapping, NamedTuple, Optional, Sequence, Tuple

from .._library import (
    NO_FUNCTION,
    CHostActing,
    CHostBeat,
    CHostLength,
    CHostOpening,
    CHostOrder,
    CHostView,
    CHostWant,
    CNote,
    CNoted,
    CStage,
    in_range,
)
from ..handle import Handle
from ..plan import Plan
from ..service.words import OutcomeNumbers
from ..values import Args, Form, Outcome, args_out, check, outcome_out
from .replica import bound, told_of

MOST_WANTS = 8  # that a put has
_new, _follow, _act, _end = bound("cf_host_new"), bound("cf_host_follow"), bound("cf_host_act"), bound("cf_host_end")
_wants, _lets_go, _stirred, _stop = bound("cf_host_wants"), bound("cf_host_lets_go"), bound("cf_host_stirred"), bound("cf_host_stop")
_turn, _put, _opened, _read = bound("cf_host_turn"), bound("cf_host_put"), bound("cf_host_opened"), bound("cf_host_read")
_beats, _news, _answered, _ended = bound("cf_host_beats"), bound("cf_host_news"), bound("cf_host_answered"), bound("cf_host_ended")
_grow = bound("cf_host_grow")
_stage, _seen = bound("cf_host_stage"), bound("cf_host_seen")


class OrderKind(enum.IntEnum):
    """What is to be done next."""

    SLEEP, BEAT, LIST, NEWS, OPEN, READ, PUT, CLOSE, CALL, STOP, SHOW, TELL = range(12)


class Told(enum.IntEnum):
    """What became of an act, or why nothing goes on in a request: BROKEN, DROPPED or PAYLOAD."""

    STANDS, CLOSED, REFUSED, UNKNOWN, NO_STAGE, NO_ROOM, NO_TRY, SETTLED, AS_ASKED, RUNS, BROKEN, DROPPED, PAYLOAD = range(13)


class Source(enum.IntEnum):
    """Whose payload stands beside a word."""

    NOBODY, ACT, FUNCTION, ERROR, GONE = range(5)


class Answer(enum.IntEnum):
    """An answer of a store without a list."""

    STANDS, CLOSED, NOT_CLOSED, UNKNOWN, REFUSED, DROPPED = range(6)


class Ends(enum.IntEnum):
    """What a function came to: a value, none, an error, the error at a place, or another stage."""

    GIVE, NIL, THROW, PASS, LINK = range(5)


class ActKind(enum.IntEnum):
    """What a user asks of a request."""

    COMPLETE, FAIL, CANCEL, CANCEL_IDLE, TIME_OUT, GIVE_AT, ATTACH, AGAIN = range(8)


class Note(NamedTuple):
    """What stands in a row beside a word, in two numbers (docs/FORMATS.md, "Notes beside words")."""

    what: int
    moment: int


class NotedEntry(NamedTuple):
    """An entry of a row, with its note."""

    word: int
    token: int
    note: Note


class Want(NamedTuple):
    """An entry that is to be put, and whose payload stands at its place: `stage` is of the function or the session."""

    entry: NotedEntry
    source: Source
    stage: int


class Act(NamedTuple):
    """What a user asks: `moment` is milliseconds of the store's clock. The rest is of an attach, with the function's
    number here."""

    kind: ActKind
    stage: int = 0
    moment: int = 0
    form: Form = Form.SOURCE
    of: Tuple[int, ...] = ()
    function: Optional[int] = None


class Order(NamedTuple):
    """What is to be done next, and in which request, under the number that the answer names. What an order doesn't
    have is 0 or empty.

    Attributes:
        machine: Whose order it is.
        moment: Until when nothing is to be done, in milliseconds; or the mark behind which news are asked for.
        place: How many words the question takes as seen.
        args: What a function is called with: places of payloads, or an outcome of such.
        outcome: What a stage came to that is shown, or None where `told` says why nothing goes on."""

    machine: "Machine"
    kind: OrderKind
    ticket: int
    request: int
    stage: int
    function: int
    place: int
    moment: int
    told: Told
    args: Args
    outcome: Optional[Outcome]


class Seen(NamedTuple):
    """How many words the machine has seen of a request, how many stages there are, and why nothing goes on there, if so."""

    words: int
    stages: int
    fault: Optional[Told]


class Machine(Handle):
    """A process at work on the requests of a store. Each call is short, and raises `Refused` as cf.h says. Moments are
    milliseconds on a clock that never goes back. One thread at a time uses it.

    Args:
        session: The session's number, below 2^39, by chance.
        workers: How many functions may run at a time.
        lease: For how many milliseconds a session that doesn't beat is waited for.
        takes_all: Whether it works on all requests that the store tells of, and not only on those that are followed."""

    def __init__(self, session: int, workers: int, lease: int, takes_all: bool) -> None:
        super().__init__()
        self.session: int = session
        opening = CHostOpening(session, in_range(workers, 2**32 - 1), in_range(lease, 2**64 - 1), takes_all)
        check(_new(c.byref(opening), self._at))
        # (what calls are given and write is made once: to make it costs more than a call does)
        self._order, self._ticket, self._many = CHostOrder(), c.c_uint64(), c.c_size_t()
        self._told, self._seen, self._puts = CStage(), CHostView(), (CHostWant * MOST_WANTS)()
        self._to, self._to_order, self._to_ticket = self._at, c.byref(self._order), c.byref(self._ticket)
        self._to_many, self._to_told, self._to_seen = c.byref(self._many), c.byref(self._told), c.byref(self._seen)

    def turn(self, now: int) -> Order:
        """What is to be done next by now. It is told once."""
        check(_turn(self._to, now, self._to_order))
        told = self._order
        kind = _KINDS[told.kind]
        if kind is OrderKind.SLEEP:
            return Order(self, kind, 0, 0, 0, 0, 0, told.moment, Told.STANDS, (), None)
        args = args_out(told.args) if kind is OrderKind.CALL else ()
        outcome = outcome_out(told.outcome) if kind is OrderKind.SHOW else None
        return Order(self, kind, told.ticket, told.request, told.stage, told.function, told.place, told.moment, _TOLD[told.told], args, outcome)

    def put(self, request: int) -> List[Want]:
        """The entries of a request's put that is under way."""
        check(_put(self._to, request, self._puts, MOST_WANTS, self._to_many))
        return [Want(_entry_out(it.entry), Source(it.source), it.stage) for it in self._puts[: self._many.value]]

    # What users ask.

    def follow(self, request: int) -> None:
        """Works on a request from now on."""
        check(_follow(self._to, request))

    def act(self, now: int, request: int, act: Act) -> int:
        """A user asks this. The number of the order that tells what became of it."""
        first, second = [in_range(stage, 0xFFFF) for stage in (*act.of, 0, 0)[:2]]
        function = NO_FUNCTION if act.function is None else in_range(act.function, NO_FUNCTION - 1)
        asked = CHostActing(act.kind, in_range(act.stage, 0xFFFF), in_range(act.moment, 2**64 - 1), act.form, len(act.of), first, second, function)
        check(_act(self._to, now, request, c.byref(asked), self._to_ticket))
        return self._ticket.value

    def end(self, now: int, request: int) -> int:
        """A user ends a request. The number of the order that tells that it is closed."""
        check(_end(self._to, now, request, self._to_ticket))
        return self._ticket.value

    def wants(self, request: int, stage: int) -> None:
        """Somebody waits for a stage, which is to be shown once."""
        check(_wants(self._to, request, stage))

    def lets_go(self, request: int, stage: int) -> None:
        """Nobody waits for a stage any more."""
        check(_lets_go(self._to, request, stage))

    def grow(self, request: int, more: int) -> None:
        """Makes room in a request for so many more stages."""
        check(_grow(self._to, request, more))

    def stirred(self, now: int) -> None:
        """The store says that something is new."""
        check(_stirred(self._to, now))

    def stop(self) -> None:
        """Claims no stage from now on."""
        check(_stop(self._to))

    # Answers. Each is to an order's ticket, and closes it.

    def opened(self, ticket: int, plan: Plan, room: int, is_flow: bool, notes: Sequence[Note]) -> None:
        """The plan of a request, with a note for each stage, and with room for so many stages that are attached later."""
        with plan.build()._lock:
            check(_opened(self._to, ticket, plan._at, room, is_flow, (CNote * len(notes))(*[CNote(*it) for it in notes]), len(notes)))

    def read(self, now: int, ticket: int, entries: Sequence[NotedEntry]) -> None:
        """The entries that stand behind the place of the question."""
        row = (CNoted * len(entries))(*[CNoted(word, token, CNote(*note)) for word, token, note in entries])
        check(_read(self._to, now, ticket, row, len(entries)))

    def beats(self, now: int, ticket: int, clock: int, beats: Mapping[int, int]) -> None:
        """All sessions' beats, and the store's clock in milliseconds."""
        check(_beats(self._to, now, ticket, clock, (CHostBeat * len(beats))(*[CHostBeat(*it) for it in beats.items()]), len(beats)))

    def news(self, now: int, ticket: int, mark: int, lengths: Mapping[int, int]) -> None:
        """How many words each request has that is open or has changed, up to a mark."""
        check(_news(self._to, now, ticket, mark, (CHostLength * len(lengths))(*[CHostLength(*it) for it in lengths.items()]), len(lengths)))

    def answered(self, now: int, ticket: int, answer: Answer) -> None:
        """An answer without a list."""
        check(_answered(self._to, now, ticket, answer))

    def ended(self, ticket: int, kind: Ends, code: int = 0, stage: int = 0) -> None:
        """The function of a call has ended."""
        check(_ended(self._to, ticket, kind, code, stage))

    # What it has seen.

    def outcome(self, request: int, stage: int) -> Optional[Outcome]:
        """The outcome of a stage, or None where it is open."""
        check(_stage(self._to, request, stage, self._to_told))
        return outcome_out(self._told.outcome)

    def stage(self, request: int, stage: int) -> Tuple[int, OutcomeNumbers]:
        """The kind of a stage's state, and its outcome in numbers."""
        check(_stage(self._to, request, stage, self._to_told))
        return self._told.kind, told_of(self._told)

    def seen(self, request: int) -> Seen:
        """What it has seen of a request."""
        check(_seen(self._to, request, self._to_seen))
        told = self._seen
        return Seen(told.words, told.stages, Told(told.fault) if told.fault else None)


_KINDS, _TOLD = tuple(OrderKind), tuple(Told)


def _entry_out(entry: CNoted) -> NotedEntry:
    return NotedEntry(entry.word, entry.token, Note(entry.note.what, entry.note.moment))
