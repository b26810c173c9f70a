"""A request that a `Leader` works on: what it keeps beside the machine, which knows numbers alone."""
import collections
from array import array
from concurrent.futures import Future
from typing import Any, Callable, Container, Deque, Dict, List, Mapping, NamedTuple, Optional, Sequence, Set, Tuple

from ..service.words import (
    ATTACH,
    COMPOSE_FORMS,
    FAIL,
    FAIL_AS,
    FAILURES,
    FINISH,
    FORMS,
    FORMS_WITHOUT_FUNCTION,
    MOST_EDGES,
    MOST_STAGES,
    TICK,
    TIMED_OUT,
)
from ..values import Outcome
from .codec import Json
from .earlier import called_definition
from .functions import RegisteredFunction
from .glances import GlanceContent
from .machine import Act, Machine, Note, NotedEntry, Source, Told, Want
from .notes import FunctionNumbers, definition_in, note_of_definition, note_of_word, read_timer
from .plans import SharedPlan
from .rows import COUNT_BITS, Broken, Entry, Opened, Put

Form = Tuple[int, Tuple[int, ...]]  # of a stage, with its sources
ReadEntry = Tuple[NotedEntry, Optional[bytes]]  # with the payload that its note was read from, if there is one
WORD = 0xFF << 56  # the kind of a word
ROOM = 16  # stages that may be attached at first


class Shown(NamedTuple):
    """What a stage came to: a value or an exception, or it was cancelled itself."""

    value: Any
    error: Optional[BaseException]
    is_cancelled: bool


Show = Callable[[Shown], None]


class Due(NamedTuple):
    """A settled stage that is to be shown, and to whom."""

    stage: int
    outcome: Outcome
    waiters: List[Show]


class Became(NamedTuple):
    """What became of an act of a request. `stage` is that of the act, or the one that was attached; `shows` are the settled stages
    that who asked shows."""

    told: Told
    stage: int
    request: "Followed"
    shows: Sequence[Due]


class Asked(NamedTuple):
    """An act that somebody waits for.

    Attributes:
        payload, definition: What stands beside its words: a payload, or the definition of a stage.
        still: Whether it is still wanted, by the words seen before the put's place; asked before each put.
        times_out: Whether the stage that it fails times out with that."""

    ticket: int
    act: Act
    payload: Optional[bytes]
    definition: Mapping[str, Any]
    became: "Future[Became]"
    still: Optional[Callable[[], bool]]
    times_out: bool


class Call(NamedTuple):
    """A function that is to be called, with its arguments."""

    known: RegisteredFunction
    args: Tuple[Any, ...]
    kwargs: Mapping[str, Any]


class Transacted:
    """A transactional function, which is called each time its finish is put.

    Attributes:
        call: The call.
        error: The bytes of what it raised, once it has."""

    def __init__(self, call: Call) -> None:
        self.call, self.error = call, b""


class PutUnderWay:
    """A put that is asked for until it stands or doesn't: always as it is.

    Attributes:
        at: How many words stand before it.
        wants: Its words.
        asked: The act that it may be of.
        results: What the functions came to whose finishes are in it, by stages.
        put: What the store is asked, once that is made.
        refusals: How often the store has refused it.
        is_told: Whether somebody was told that nothing can be put."""

    def __init__(self, at: int, wants: Sequence[Want], asked: Optional[Asked], results: Mapping[int, Optional[bytes]]) -> None:
        self.at, self.asked = at, asked
        self.wants = [_timing_out(want) for want in wants] if asked is not None and asked.times_out else wants
        self.results = {want.stage: results[want.stage] or b"" for want in wants if want.source == Source.FUNCTION}
        self.put: Optional[Put] = None
        self.refusals, self.is_told = 0, False

    @property
    def is_as_planned(self) -> bool:
        """Whether its words are those that the machine knows."""
        return self.asked is None or not self.asked.times_out

    @property
    def token(self) -> int:
        """The token of its first word, which no other put has."""
        return self.wants[0].entry.token

    def payload_of(self, place: int, token: int) -> Optional[bytes]:
        """What it puts beside a word, if the entry at this place is its own."""
        k = place - self.at - 1
        is_own = 0 <= k < len(self.wants) and self.wants[k].entry.token == token
        return self.put.payloads.get(place) if is_own and self.put is not None else None


class NoPromise(ValueError):
    """Nobody could be given what a stage gives that composes."""


class Followed:
    """What is kept of a request.

    Attributes:
        opened: The request as the store gave it.
        machine: The machine that works on it, or None while none does.
        is_open: Whether this machine has its plan and has read its words.
        room: For how many stages beside its plan's there is room in the machine.
        plan: Its plan, once a machine has that.
        words: How many entries were seen.
        definitions: The definition of each stage, by these.
        forms: The form and the sources of each.
        put: The put under way.
        results: By stages, what functions came to, until a finish stands; None is no payload.
        transacted: By stages, the transactional functions, until a finish stands.
        transacts: The threads that have a transaction open.
        unknown: The stages whose functions weren't registered here when the machine heard of them.
        is_unknown_told: Whether somebody was told so.
        acts: The acts of which nobody was told yet, in their order.
        ends: By tickets, who ends it and wasn't told yet.
        waiters: By stages, who is to be shown what it came to.
        refused: What the store said when it refused a put.
        why: Why nothing goes on in it here, if that is known.
        is_closed: Whether it is closed, by what is known here.
        is_asked: Whether a question about its row is asked of the store.
        entries, times: Its words with their tokens, and when each was seen, in nanoseconds.
        attach_places: The places of the words that attached stages.
        rested: How many words were seen at the last beat.
        shown: How many were when all settled stages were shown.
        glance: Of how many words the last glance was kept, and what it says.
        is_begun: Ends once the machine has its plan, or with the reason why it can't be worked on."""

    def __init__(self, opened: Opened) -> None:
        self.opened, self.name, self.number = opened, opened.name, opened.number
        self.machine: Optional[Machine] = None
        self.is_open, self.room = False, 0
        self.plan: Optional[SharedPlan] = None
        self.words = 0
        self.definitions: List[Mapping[str, Any]] = []
        self.forms: List[Form] = []
        self.put: Optional[PutUnderWay] = None
        self.results: Dict[int, Optional[bytes]] = {}
        self.transacted: Dict[int, Transacted] = {}
        self.transacts: Set[int] = set()
        self.unknown: Set[int] = set()
        self.is_unknown_told = False
        self.acts: Deque[Asked] = collections.deque()
        self.ends: "Dict[int, Future[Became]]" = {}
        self.waiters: Dict[int, List[Show]] = {}
        self.refused: Optional[BaseException] = None
        self.why: Optional[Broken] = None
        self.is_closed = self.is_asked = False
        self.entries: List[Entry] = []
        self.times = array("q")
        self.attach_places: Dict[int, int] = {}
        self.rested = self.shown = -1
        self.glance: Tuple[int, Optional[GlanceContent]] = (-1, None)
        self.is_begun: "Future[None]" = Future()
        self._payloads: Dict[int, bytes] = {}  # those that this process has put
        self._timers: Set[int] = set()  # the places of words beside which a timer stands

    @property
    def planned(self) -> int:
        """How many stages its plan has."""
        return 0 if self.plan is None else len(self.plan.rows)

    def name_of_function(self, stage: int) -> str:
        """The name of the function that a stage calls."""
        return str(called_definition(self.definitions, stage).get("fn", ""))

    def notes_of(self, plan: SharedPlan, numbers: FunctionNumbers) -> List[Note]:
        """A note for each stage of its plan."""
        said = plan.definitions
        self.unknown.clear()
        return [self._note_of(said, number, form, numbers) for number, (form, *_) in enumerate(plan.rows)]

    def lacks(self, numbers: FunctionNumbers) -> bool:
        """Whether the machine took a function for unknown that is known by now."""
        called = [called_definition(self.definitions, stage) for stage in self.unknown if stage < len(self.definitions)]
        return any(numbers.number(str(said.get("fn")), int(said.get("version", 0))) for said in called)

    @property
    def is_quiet(self) -> bool:
        """Whether nothing of its machine is under way in it, but for functions that run."""
        is_asking = self.is_asked or bool(self.acts or self.ends or self.put)
        return not is_asking and not self.results and not self.transacted and (self.is_open or self.why is not None)

    def _note_of(self, definitions: Sequence[Mapping[str, Any]], stage: int, form: int, numbers: FunctionNumbers) -> Note:
        called = called_definition(definitions, stage)
        if form not in FORMS_WITHOUT_FUNCTION and not numbers.number(str(called.get("fn")), int(called.get("version", 0))):
            self.unknown.add(stage)
        return note_of_definition(definitions[stage], form, called, numbers)

    def begin(self, plan: SharedPlan) -> None:
        """The machine has its plan."""
        if self.plan is None:
            self.plan = plan
            self.definitions = list(plan.definitions)
            self.forms = [(form, of) for form, of, _, _ in plan.rows]
        if not self.is_begun.done():
            self.is_begun.set_result(None)

    def attached_before(self, at: int) -> int:
        """How many stages the first `at` words have attached, as far as they were seen."""
        return len(self.attach_places) if at >= self.words else sum(place <= at for place in self.attach_places.values())

    def read_notes(self, at: int, entries: Sequence[Entry], payloads: Mapping[int, bytes], codec: Json, numbers: FunctionNumbers) -> List[ReadEntry]:
        """The entries behind `at` others, with their notes, which their payloads say, by their places. `Broken` where one says
        nothing of the kind."""
        told: List[ReadEntry] = []
        definitions = self.definitions[: self.planned + self.attached_before(at)]
        for place, (word, token) in enumerate(entries, at + 1):
            payload = payloads.get(place)
            try:
                note = self._note_in(definitions, word, payload, codec, numbers)
            except (ValueError, KeyError, TypeError) as error:
                why = str(error) if isinstance(error, NoPromise) else f"its payload can't be read: {error!r}"
                raise Broken(self.name, place, why) from None
            told.append((NotedEntry(word, token, note), payload))
        return told

    def _note_in(self, definitions: List[Mapping[str, Any]], word: int, payload: Optional[bytes], codec: Json, numbers: FunctionNumbers) -> Note:
        """The note of a word behind which so many stages stand, to which an attached one is added."""
        if word >> 56 != ATTACH:
            return note_of_word(word, payload, codec, len(definitions))
        number, (form, _) = len(definitions), _form_of(word)
        definitions.append(definition_in(payload, number))
        if form in COMPOSE_FORMS and "to" not in definitions[number]:
            raise NoPromise(f"stage {number} composes, and no promise is named for what comes")
        return self._note_of(definitions, number, form, numbers)

    def take_in(self, at: int, entries: Sequence[ReadEntry], own_sessions: Container[int], time: int) -> None:
        """The machine has seen these entries by now, the first behind `at` others. An earlier one may have seen them before."""
        for place, ((word, token, _), payload) in enumerate(entries, at + 1):
            if place <= self.words:
                continue
            self.words, self.is_closed = place, False
            kind, own = word >> 56, None if self.put is None else self.put.payload_of(place, token)
            self.entries.append((word, token))
            self.times.append(time)
            if own is not None:
                self._payloads[place] = own
            if kind == ATTACH:
                self.attach_places[len(self.definitions)] = place
                self.definitions.append(definition_in(payload, len(self.definitions)))
                self.forms.append(_form_of(word))
            elif kind == TICK and payload is not None:
                self._timers.add(place)
            elif kind == FINISH and token >> COUNT_BITS in own_sessions:
                stage = word >> 36 & 0xFFF
                self.results.pop(stage, None)
                self.transacted.pop(stage, None)
        if entries:
            self.put = None  # (it has landed, or never will)

    def payload_put(self, place: int) -> Optional[bytes]:
        """The payload that this process has put at a place, if it has."""
        return self._payloads.get(place)

    def value_at(self, place: int, payload: bytes) -> Optional[bytes]:
        """The bytes of the value or the exception at a place, by the payload there: beside a timer's word stands more."""
        return read_timer(payload).value if place in self._timers else payload

    def told(self, ticket: int) -> "Future[Became]":
        """Who is told now what became of an act or an end."""
        if ticket in self.ends:
            return self.ends.pop(ticket)
        return self.asked(ticket).became

    def asked(self, ticket: int) -> Asked:
        """The act of a ticket, which is told."""
        asked = next(it for it in self.acts if it.ticket == ticket)
        self.acts.remove(asked)
        return asked


def _timing_out(want: Want) -> Want:
    """The word that lets a stage time out, with the same error as one that fails it."""
    word = want.entry.word
    if word >> 56 != FAIL:
        return want
    timing_out = word & ~WORD & ~(0xF << 32) | FAIL_AS << 56 | FAILURES.index(TIMED_OUT) << 32
    return want._replace(entry=want.entry._replace(word=timing_out))


def room_beside(plan: SharedPlan) -> int:
    """For how many stages more than a plan's there is room at first."""
    edges = sum(len(of) for _, of, _, _ in plan.rows)
    return max(0, min(ROOM, MOST_STAGES - len(plan.rows), (MOST_EDGES - edges) // 2))


def _form_of(word: int) -> Form:
    """The form and the sources of the stage that a word attaches."""
    low = word & 0xFFFFFFFF
    form = low >> 24
    if form >= len(FORMS):
        raise ValueError(f"the word {word} attaches no stage")
    return form, (word >> 36 & 0xFFF, low >> 12 & 0xFFF)[: word >> 32 & 0xF]
