"""A session's view of one request's row. It replays missing words, decides, and puts at the end of the row. Where
another put came first, it replays that and decides again."""
import contextlib
import json
from array import array
from typing import Any, Callable, ContextManager, Dict, Iterable, List, Mapping, NamedTuple, Optional, Sequence, Set, Tuple, TypeVar

from .. import values
from .._library import CNews
from ..service.history import History
from ..service.words import (
    ANSWER,
    ATTACH,
    CANCEL,
    COMPLETE,
    COMPOSE_FORMS,
    FAIL,
    FAIL_AS,
    FINISH,
    GIVES,
    IS_PENDING,
    IS_READY,
    IS_SETTLED,
    LINKS,
    MOST_STAGES,
    NOT_YET,
    NUMBER,
    THROWS,
    RequestFull,
    OutcomeNumbers,
)
from .codec import Json
from .host import HOST, Host
from .plans import SharedPlan, checked_definition
from .replica import FinishAnswer, Replica, told_of
from .rows import COUNT_BITS, Broken, Entry, Gone, Opened, Put, Store, Unknown, retrying_for_a_minute

SESSION_BITS = 39  # of a token
ROOM = 8  # stages that may be attached at first
LONG_GONE = 100  # leases
MOST_AT_ONCE = 32  # stages that one put cancels
T = TypeVar("T")
WantedWords = Sequence[Tuple[int, Optional[bytes]]]  # words, each with its payload


def new_session() -> int:
    """A random number of 39 bits for a new session."""
    return HOST.number(SESSION_BITS)


class DoneWord(NamedTuple):
    """A word that the view has done: its place, its reply's numbers as in cf.h, and the stages that it settled."""

    place: int
    word: int
    token: int
    reply: Tuple[int, ...]
    settled: List[int]


class RowHistory(History):
    """A row's history. It has no times, and its callers are sessions. `sessions` are those of its words, and `named`
    has the names of some of them."""

    def __init__(
        self,
        name: str,
        plan: SharedPlan,
        facts: Any,
        sessions: Sequence[int],
        named: Optional[Mapping[int, str]] = None,
        opened: Optional[float] = None,
    ) -> None:
        super().__init__(name, plan, facts)
        self._sessions, self._named = sessions, named or {}
        self._opened = None if opened is None else int(opened * 1e9)

    def caller_name(self, who: int) -> str:
        """The name of a caller: all names of the sessions with its number."""
        its = {session: None for session, word in zip(self._sessions, self.words) if word >> 48 & 0xFF == who}
        return " or ".join([self._named[it] for it in its if it in self._named] or [f"session {who}"])

    def account(self) -> str:
        """The account for `cf_look check`, with separate records for each of several sessions with one number."""
        account = json.loads(super().account())
        account["callers"] = [self._by_session(records) for records in account["callers"]]
        return json.dumps(account)

    def _by_session(self, records: List[List[Any]]) -> Any:
        sessions: Dict[int, List[List[Any]]] = {}
        own: List[List[Any]] = []
        for record in records:
            if record[0] == "did":
                own = sessions.setdefault(self._sessions[record[1] - 1], [])
            own.append(record)
        return {"sessions": list(sessions.values())} if len(sessions) > 1 else records

    def _clock(self) -> List[int]:
        return []


class RowView:
    """One session's view of one request's row: it reads words and puts them. One thread at a time uses it.

    A session is a process at work, or a part of one, with its own number (`new_session`). Its first word takes a
    caller's number, the lowest that no word of the row has, and the session keeps it: only the number that claimed a
    stage may finish it. If all 64 are taken, sessions share them, and the token of an entry names the session. The
    library keeps the state, the number and the words that may be put (`Replica`).

    Args:
        store: Where the row stands.
        opened: The request, as the store gave it.
        session: The session whose view it is.
        patience: For how many seconds the store may be silent, before `Unknown` is raised.
        note: Called with each answer that this view got; for tests.
        host: Has the clock and makes random numbers."""

    def __init__(
        self, store: Store, opened: Opened, session: int, patience: float = 60, note: Optional[Callable[..., None]] = None, host: Host = HOST
    ) -> None:
        self.store: Store = store
        self.name: str = opened.name
        self.session: int = session
        self.opened: Opened = opened
        self.plan: SharedPlan = SharedPlan(opened.plan, opened.name)
        self._room = min(ROOM, MOST_STAGES - len(self.plan.rows))
        # by chance: where two have one session, their tokens differ all the same; and half of all are left at least
        self._first, self._host = host.number(COUNT_BITS - 1), host
        self._replica = self._new_replica()
        self.forms: List[Tuple[int, Tuple[int, ...]]] = [(form, of) for form, of, _, _ in self.plan.rows]
        self.kinds: List[int] = [kind for kind, _ in self.plan.start]
        self.outcomes: List[OutcomeNumbers] = [told for _, told in self.plan.start]
        self.places: List[int] = [0] * len(self.forms)  # where each was settled
        self.attach_places: Dict[int, int] = {}  # the place of the word that attached a stage
        # the promises that composing stages were linked to, with the places of those words
        self.links: Dict[int, int] = {}
        # composing stages that were settled, and whose promises may be waited for by nobody
        self.unlinked_stages: Set[int] = set()
        self.ready: Set[int] = {number for number, kind in enumerate(self.kinds) if kind == IS_READY}
        self.words: "array[int]" = array("Q")
        self._sessions = array("Q")
        self._times: "Optional[array[int]]" = None
        self.lost = self.unknown = 0
        self._patience = patience
        self._note = note or (lambda *_: None)
        self._own_payloads: Dict[int, bytes] = {}  # the payloads that this view put
        self._definitions: Dict[int, Dict[str, Any]] = {}
        # the tokens of words of which it isn't known whether they stand, and the places where they would
        self._in_doubt: Dict[int, int] = {}

    @property
    def caller_number(self) -> int:
        """The session's number as a caller, or the one that its next word will take."""
        return self._replica.caller_number()

    @property
    def words_seen(self) -> int:
        """How many words were replayed."""
        return len(self.words)

    @property
    def next_place(self) -> int:
        """The place of the next word, and of its payload."""
        return len(self.words) + 1

    def is_settled(self, stage: int) -> bool:
        """Whether a stage is settled, by the words seen."""
        return self.kinds[stage] == IS_SETTLED

    def is_done(self, is_gone: Callable[[int], bool] = lambda session: False) -> bool:
        """Whether all stages are settled, and only sessions that are gone have open claims."""
        is_settled = all(kind == IS_SETTLED for kind in self.kinds)
        return is_settled and all(is_gone(session) for session in self.claims().values())

    def claims(self) -> Dict[int, int]:
        """The stages whose claim is open, each with the session that holds it, including those that were settled while
        their function runs."""
        return dict(self._replica.claims())

    def holder(self, stage: int) -> Optional[int]:
        """The session that holds a stage's open claim, or None."""
        found, session = next(self._replica.claims(stage), (-1, 0))
        return session if found == stage else None

    def stages_held_by(self, session: int) -> List[int]:
        """The unsettled stages that a session has claimed."""
        return list(self._replica.stages_held_by(session))

    def abandon_word(self, session: int, stage: int) -> Optional[int]:
        """The word that fails this stage for a session that is gone, with the exception at the word's own place, or None
        where that session doesn't hold it."""
        word = self._replica.abandon_word(session, stage, self.next_place)
        return word if word is not None and word >> 36 & 0xFFF == stage else None

    def finish_word(self, ended: FinishAnswer) -> Optional[int]:
        """The word that finishes a stage, or None where this session has no open claim of it."""
        return self._replica.finish_word(ended)

    def words_that_cancel(self, stages: int) -> "WantedWords":
        """The words that cancel the open ones of the first so many stages, the last one first, so that no function becomes
        ready for the end of a cancelled source. They are as many as one put takes."""
        left = [stage for stage in reversed(range(stages)) if not self.is_settled(stage)][:MOST_AT_ONCE]
        return [(CANCEL << 56 | self.caller_number << 48 | stage << 36, None) for stage in left]

    # Reading and putting.

    def catch_up(self, entries: Optional[Sequence[Entry]] = None) -> List[DoneWord]:
        """Replays the words of others, and returns what they did. `entries` are the next entries, where they were read
        already."""
        if entries is None:
            entries = self.retrying_for_a_minute(lambda: self.store.read(self.name, self.words_seen, self.opened.number))
        return [self._take_in(*entry) for entry in entries]

    def act(self, decide: "Callable[[RowView], Optional[WantedWords]]") -> Tuple[Optional[List[DoneWord]], List[DoneWord]]:
        """Puts words at the end of the row, and does them.

        Args:
            decide: Returns the wanted words, each with its payload, or None. It is called again each time another
                session's words came first.

        Returns:
            What the words did, or None if none was wanted; and what other sessions' words did before.

        Raises:
            Unknown: The store is silent for too long. The words may stand or not.
            Broken: A word of the row can't be done, or the request was dropped.
            ValueError: A wanted word doesn't fit this graph. Nothing is put."""
        others: List[DoneWord] = []
        while True:
            wanted = decide(self)
            if not wanted:
                return None, others
            put = self.plan_put(wanted)
            stands = self._append(put) or put.entries
            done = self.take_in_put(put, stands)
            others += [self._take_in(*entry) for entry in stands[len(done or []) :]]
            if done is not None:
                return done, others
            self.lost += 1

    def cancel_all(self) -> int:
        """Cancels all open stages, and returns how many that were."""
        stages, many = len(self.kinds), 0
        while True:
            done, _ = self.act(lambda view: view.words_that_cancel(stages))
            if done is None:
                return many
            many += len(done)

    def _append(self, put: Put) -> Optional[Sequence[Entry]]:
        """Appends a put. Returns None where it stands, else the entries from its first place on."""
        before = self.unknown

        def append() -> Optional[List[Entry]]:
            try:
                return self.store.append(put)
            except (Unknown, Broken):
                raise
            except Exception as error:
                if self.unknown == before:
                    raise
                # behind a missing answer: what is refused now may stand
                stands = self.store.read(put.request, put.at, put.number)
                if not stands:
                    raise Unknown(str(error)) from error
                return stands

        try:
            stands: Optional[List[Entry]] = self.retrying_for_a_minute(append)
            if stands == []:
                raise Gone(self.name)
            return stands
        except BaseException:
            self.leave_in_doubt(put)
            raise

    def give_up_put(self) -> None:
        """Gives up the put under way, of which nothing stands."""
        self._replica.give_up_put()

    def leave_in_doubt(self, put: Put) -> None:
        """Gives up a put that may stand, and remembers it until the words at its places are read."""
        self.give_up_put()
        self._in_doubt.update((token, put.at + k) for k, (_, token) in enumerate(put.entries, 1))

    def plan_put(self, wanted: WantedWords) -> Put:
        """Plans a put of these words at the end of the row, with new tokens. It is under way then: nothing is read before
        `take_in_put`, `leave_in_doubt` or `give_up_put`. `ValueError` where a word doesn't fit this graph: it would break
        the row for everybody."""
        words = [word for word, _ in wanted]
        self.make_room(sum(word >> 56 == ATTACH for word in words))
        try:
            first = self._replica.plan_put(words)
        except (values.Refused, OverflowError) as error:
            if isinstance(error, values.Refused) and error.code != values.Code.NO_WORD:
                raise
            raise ValueError(
                f"request {self.name!r}, place {self.next_place}: one of the words {words} is no event's, or "
                "another caller's, or names a stage that isn't there"
            ) from None
        entries = [(word, first + k) for k, word in enumerate(words)]
        payloads = {self.next_place + k: it for k, (_, it) in enumerate(wanted) if it is not None}
        return Put(self.name, self.words_seen, entries, payloads, self.opened.number)

    def take_in_put(self, put: Put, stands: Sequence[Entry]) -> Optional[List[DoneWord]]:
        """Does the words of a put that has landed. None where other words stand at its place."""
        if not self._replica.landed(*stands[0]) or not _has_words_of(stands, put):
            return None
        self._own_payloads.update(put.payloads)
        done = [self._take_in(*entry) for entry in stands[: len(put.entries)]]
        for it in done:
            self._note("did", self.name, it.place, it.word, it.reply)
        return done

    def retrying_for_a_minute(self, call: Callable[[], Any]) -> Any:
        """Makes a call again until the store answers, for `patience` seconds. It may be made twice."""
        return retrying_for_a_minute(call, self.name, self.next_place, self._patience, self._count_unknown, self._host)

    def _count_unknown(self) -> None:
        self.unknown += 1

    # One word.

    def _take_in(self, word: int, token: int) -> DoneWord:
        kind, session = word >> 56, token >> COUNT_BITS
        try:
            if kind == ATTACH:
                self.make_room(1)
            news = self._replica.take_in(word, token)
        except (values.Refused, RequestFull) as refused:
            raise Broken(self.name, self.next_place, f"the word {word} can't be done: {refused}") from None
        reply, place = tuple(self._replica.reply), self.next_place
        self.words.append(word)
        self._sessions.append(session)
        if kind == ATTACH and not reply[ANSWER]:
            self._add_stage(reply[NUMBER], word, place)
        if kind == FINISH and word >> 32 & 0xF == LINKS and not reply[ANSWER]:
            self.links[word & 0xFFF] = place
        done = DoneWord(place, word, token, reply, self._take_news(news, place))
        if token in self._in_doubt:
            self._note("did", self.name, place, word, reply)
        if self._in_doubt:  # what was to stand here and doesn't never will
            self._in_doubt = {token: its for token, its in self._in_doubt.items() if its > place}
        return done

    def _add_stage(self, number: int, word: int, place: int) -> None:
        low = word & 0xFFFFFFFF
        of = (word >> 36 & 0xFFF, low >> 12 & 0xFFF)[: word >> 32 & 0xF]
        self.kinds.append(IS_PENDING)
        self.outcomes.append(NOT_YET)
        self.places.append(0)
        self.attach_places[number] = place
        self.forms.append((low >> 24, of))  # (last: other threads look whether a stage is there)

    def _take_news(self, news: "Sequence[CNews]", place: int) -> List[int]:
        """Takes in the changes of a word, and returns the stages that it settled."""
        settled = []
        for it in news:
            number, kind = it.stage, it.now.kind
            if kind == IS_SETTLED and not self.places[number]:
                # first: other threads look whether it is settled
                self.outcomes[number], self.places[number] = told_of(it.now), place
                settled.append(number)
                if self.forms[number][0] in COMPOSE_FORMS:
                    self.unlinked_stages.add(number)
            self.kinds[number] = kind
            if kind == IS_READY:
                self.ready.add(number)
            else:
                self.ready.discard(number)
        return settled

    # Room for stages that are attached.

    def make_room(self, least: int) -> None:
        """Makes room for so many more stages, or raises `RequestFull`."""
        many = len(self.forms)
        if many + least <= len(self.plan.rows) + self._room:
            return
        more = min(3 * many + least, MOST_STAGES - len(self.plan.rows) - self._room)
        while more >= least:
            try:
                self._replica.grow(more)
                self._room += more
                return
            except values.Refused as refused:
                if refused.code != values.Code.ROOM:
                    raise
            more //= 2
        raise RequestFull("a request has at most 4,096 stages")

    def _new_replica(self) -> Replica:
        room = self._room
        while True:
            try:
                made = self.plan.new_replica(room, self.session, self._first)
                self._room = room
                return made
            except values.Refused as refused:
                if refused.code != values.Code.ROOM or not room:
                    raise
                room //= 2

    # What a stage is.

    def definition(self, stage: int) -> Dict[str, Any]:
        """A stage's definition, from the plan or the payload of its attach: its name, and its function's name and
        version."""
        if stage < len(self.plan.definitions):
            return self.plan.definitions[stage]
        if stage not in self._definitions:
            self._definitions[stage] = self.read_payload(
                self.attach_places[stage], lambda given: checked_definition(json.loads(given.decode()), stage)
            )
        return self._definitions[stage]

    def first_try_of(self, stage: int) -> Optional[int]:
        """The stage whose function a further try calls, or None where the stage isn't a further try."""
        first: Optional[int] = self.definition(stage).get("again")
        before = None if first is None else self.first_try_of(first)
        return first if before is None else before

    def called_definition(self, stage: int) -> Dict[str, Any]:
        """The definition of the stage whose function a stage calls: itself, or the first try."""
        first = self.first_try_of(stage)
        return self.definition(stage if first is None else first)

    def read_definitions(self, stages: Iterable[int]) -> None:
        """Reads the missing definitions of these stages, in one call. `definition` raises for those that can't be read.
        `Unknown` at once where the store is silent."""
        missing = self.undefined_stages(stages)
        self.take_definitions(missing, self.store.payloads(self.name, list(missing), self.opened.number) if missing else {})

    def undefined_stages(self, stages: Iterable[int]) -> Dict[int, int]:
        """Those of these stages whose definitions weren't read, by the places of the definitions."""
        many = len(self.plan.definitions)
        return {self.attach_places[it]: it for it in stages if it >= many and it not in self._definitions}

    def take_definitions(self, stages: Mapping[int, int], payloads: Mapping[int, bytes]) -> None:
        """Takes the definitions of these stages from payloads, both by their places. `definition` raises for those that
        can't be read."""
        for place in stages.keys() & payloads.keys():
            with contextlib.suppress(ValueError):
                self._definitions[stages[place]] = checked_definition(json.loads(payloads[place].decode()), stages[place])

    def know_times(self, times: "array[int]") -> None:
        """Takes when each word was read, in nanoseconds, as its histories tell then."""
        self._times = times

    def know_definitions(self, stages: Mapping[int, Mapping[str, Any]]) -> None:
        """Takes the definitions of these stages as they were read."""
        self._definitions.update((stage, dict(said)) for stage, said in stages.items())

    def read_payload(self, place: int, reader: Callable[[bytes], T]) -> T:
        """Reads a payload. `Broken` where it can't be read."""
        return self._read_by(place, self.payload(place), reader)

    def _read_by(self, place: int, given: bytes, reader: Callable[[bytes], T]) -> T:
        try:
            return reader(given)
        except KeyboardInterrupt:  # it isn't the reader's
            raise
        except BaseException as error:
            raise Broken(self.name, place, f"its payload can't be read: {error!r}") from None

    def _payloads(self, places: Sequence[int]) -> Dict[int, bytes]:
        found: Dict[int, bytes] = self.retrying_for_a_minute(lambda: self.store.payloads(self.name, places, self.opened.number))
        return found

    def payload(self, place: int) -> bytes:
        """The payload of a word. `Broken` where it is missing."""
        found = self.payload_if_any(place)
        if found is None:
            raise Broken(self.name, place, "no payload is there, and a word names it")
        return found

    def payload_if_any(self, place: int) -> Optional[bytes]:
        """The payload of a word, or None where there is none, as at place 0."""
        return self._own_payloads[place] if place in self._own_payloads else self._payloads([place]).get(place) if place else None

    def outcome(self, stage: int) -> OutcomeNumbers:
        """The outcome of a stage, by the words seen."""
        told = self.outcomes[stage]
        self._note("saw", self.name, self.words_seen, stage, told)
        return told

    def history(self, codec: Json, lock: ContextManager[Any] = contextlib.nullcontext(), unread: Optional[Callable[[Broken], Any]] = None) -> History:
        """The history of the words seen. Takes its own state under the lock, and calls the codec without it. `unread`
        gives a replacement for what can't be read; without it `Broken` is raised."""

        def told_by(call: Callable[[], Any]) -> Any:
            try:
                return call()
            except Broken as error:
                if unread is None:
                    raise
                return unread(error)

        with lock:
            words, sessions, many = self.words[:], self._sessions[:], len(self.forms)
            times = array("q", [0] * len(words)) if self._times is None else self._times[:]
        found = self._payloads([place for place, word in enumerate(words, 1) if _names_payload(word)])
        values_: List[Any] = [None] * (len(words) + 1)
        errors: List[BaseException] = [RuntimeError("no payload")] * (len(words) + 1)
        for place, given in found.items():
            is_error = _names_error(words[place - 1])
            reader = codec.read_error if is_error else codec.read
            (errors if is_error else values_)[place] = told_by(lambda: self._read_by(place, given, reader))
        self.retrying_for_a_minute(lambda: self.read_definitions(range(many)))
        names = [str(told_by(lambda: self.definition(number)["name"])) for number in range(many)]
        facts = (words, times, names, values_, errors)
        named: Dict[int, str] = self.retrying_for_a_minute(lambda: self.store.session_names(self.name, self.opened.number))
        return RowHistory(self.name, self.plan, facts, sessions, named, self.opened.opened)

    def open_claims(self) -> Dict[int, int]:
        """The stages that are claimed and not settled, each with the session that runs its function."""
        return {stage: session for stage, session in self._replica.claims() if not self.is_settled(stage)}


def _has_words_of(stands: Sequence[Entry], put: Put) -> bool:
    """Whether these entries have a put's words: another session may have used the same token."""
    return [word for word, _ in stands[: len(put.entries)]] == [word for word, _ in put.entries]


def _names_payload(word: int) -> bool:
    """Whether a word has a payload, a value or an exception, at its own place."""
    kind, tag = word >> 56, word >> 32 & 0xF
    if kind == FAIL_AS:
        return word & 0xFFFFFFFF != 0
    return kind == FAIL or kind in (COMPLETE, FINISH) and tag == GIVES or kind == FINISH and tag == THROWS


def _names_error(word: int) -> bool:
    """Whether the payload of a word is an exception."""
    return word >> 56 in (FAIL, FAIL_AS) or word >> 32 & 0xF == THROWS


class Watcher:
    """Knows which sessions are gone: those without a sign of life, a beat or a word, for some seconds of this process's
    clock in which the engine answered.

    Time counts only from an answer of the engine to the next question, so a session that has beaten just before a slow
    answer has the whole time from then on. A pause between the two counts for at most half of these seconds: this
    process or the machine stood still then, and others may have, too."""

    def __init__(self, store: Store, seconds: float, host: Host = HOST) -> None:
        self._store, self._seconds, self._host = store, seconds, host
        # by session: its beats, and when the last sign of life of it was seen
        self._seen: Dict[int, Tuple[Optional[int], float]] = {}
        self._time = 0.0
        self._answered: Optional[float] = None  # the moment of the last answer, where no question came to nothing since

    def look(self, beats: Optional[Mapping[int, int]] = None, asked: Optional[float] = None) -> None:
        """Takes in all beats. Reads them, unless they are given with the moment of their question, `asked`."""
        self._time = self._counted(self._host.monotonic() if asked is None else asked)
        self._answered = None
        try:
            beats = self._store.beats() if beats is None else beats
        except Unknown:
            self.note_silence()
            return
        self._answered = self._host.monotonic()
        for session, count in beats.items():
            if self._seen.get(session, (None, 0))[0] != count:
                self._seen[session] = (count, self._time)

    def note_silence(self) -> None:
        """Forgets all signs of life: while the engine is away nobody can give one."""
        self._answered = None
        self._seen.clear()

    def _counted(self, now: float) -> float:
        """The time that has counted until a moment."""
        return self._time if self._answered is None else self._time + min(now - self._answered, self._seconds / 2)

    def note_signs_of_life(self, sessions: Iterable[int]) -> None:
        """Notes that new words of these sessions were read."""
        now = self._counted(self._host.monotonic())
        for session in sessions:
            self._seen[session] = (self._seen.get(session, (None, 0))[0], now)

    def forget_long_gone(self) -> None:
        """Drops the beats of sessions that are long gone. One that comes back beats anew."""
        until = self._time - LONG_GONE * self._seconds
        for session, (count, since) in list(self._seen.items()):
            if count is not None and since < until:
                self._store.drop_beat(session)
                del self._seen[session]

    def silences(self) -> Dict[int, float]:
        """The seconds since the last beat of each session, as far as this one has looked."""
        return {session: max(self._time - since, 0.0) for session, (count, since) in self._seen.items() if count is not None}

    def is_gone(self, session: int) -> bool:
        """Whether a session is gone."""
        known = self._seen.get(session)
        if known is None:
            self._seen[session] = (None, self._counted(self._host.monotonic()))  # one that never beat counts from now on
            return False
        return self._time - known[1] > self._seconds
