"""Rows of words in engines: put where nothing stands yet, read, wait.

An entry is a word and a token. The token has 39 bits of the session that put it and a counter of 23 bits, so a repeated
append after a lost reply is recognised by the entry at its place. A payload is bytes. It is put with its word, in one
transaction, and named by the word's place, counted from 1. So no word names a missing payload.
"""
import abc
import contextlib
import functools
import json
import re
import threading
import time
from typing import Any, Callable, ContextManager, Dict, Iterable, List, Mapping, NamedTuple, Optional, Sequence, Tuple, TypeVar

from .host import HOST, Host

T = TypeVar("T")
Entry = Tuple[int, int]  # a word and its token
COUNT_BITS = 23  # of a token
FIRST = 101  # requests that are told alone at first, where there are more than twice as many: a page, and one more
HEAD = 400  # characters of a plan, in which the flow's name stands


class Unknown(ConnectionError):
    """The store didn't answer, or can't write now. The call may have taken effect or not, and may be repeated."""


class StoreError(RuntimeError):
    """A store refuses a call, or isn't set up as it has to be."""


class Broken(StoreError):
    """A request can't go on: a word or a payload of its row is missing or unreadable, or the request was begun with
    another plan or dropped. Other requests go on.

    Attributes:
        request: The request's name.
        place: The place of the faulty word, counted from 1, or 0 for the plan.
        why: The reason."""

    def __init__(self, request: str, place: int, why: str) -> None:
        super().__init__(f"request {request!r}, place {place}: {why}")
        self.request: str = request
        self.place: int = place
        self.why: str = why


def in_a_row(name: str, at: int, rows: Iterable[Tuple[Any, ...]]) -> List[Entry]:
    """The entries behind `at` words, of rows of a place, a word and a token. `Broken` where there is a gap."""
    told: List[Entry] = []
    for place, word, token in rows:
        if place != at + len(told):
            raise Broken(name, at + len(told) + 1, f"no word stands there, and one stands at {place + 1}")
        try:
            entry = (int(word), int(token))
        except (TypeError, ValueError):
            entry = (-1, -1)
        if not (0 <= entry[0] < 2**64 and 0 <= entry[1] < 2**63):
            raise Broken(name, place + 1, f"{str(word)[:40]} with {str(token)[:40]} is no word with its token")
        told.append(entry)
    return told


class Gone(Broken):
    """The request isn't in the store, or was dropped."""

    def __init__(self, request: str) -> None:
        super().__init__(request, 0, "the store has no such request")


def retrying_for_a_minute(
    call: Callable[[], T], name: str, place: int, patience: float, note: Callable[[], None] = lambda: None, host: Host = HOST
) -> T:
    """Makes a call again until the store answers, for `patience` seconds, and returns the answer. The call may be made
    twice. `note` is called each time no answer comes."""
    until, pause = host.monotonic() + patience, 0.01
    while True:
        try:
            return call()
        except Unknown as error:
            note()
            if host.monotonic() > until:
                raise Unknown(f"request {name!r}, place {place}: the store doesn't answer: {error}") from error
            host.sleep(pause)
            pause = min(pause * 2, 0.5)


class Put(NamedTuple):
    """Entries to append behind the first `at` words of a request.

    Attributes:
        request: The request's name.
        at: How many words stand before them.
        entries: Each a word and its token.
        payloads: The payloads of these words, by their places.
        number: The request's own number, or 0 for any request of the name.
        opens: Whether the put also opens a closed request again, in one step."""

    request: str
    at: int
    entries: Sequence[Entry]
    payloads: Mapping[int, bytes]
    number: int = 0
    opens: bool = False


class RowQuery(NamedTuple):
    """A row to read, behind `at` words, of the request of a name and number."""

    name: str
    number: int
    at: int


class Opened(NamedTuple):
    """A request as it was opened, `opened` being seconds of the engine's clock since 1970. If it is dropped and
    another one of its name is opened, that has another `number`."""

    name: str
    plan: str
    opened: float
    number: int


class ReadRow(NamedTuple):
    """The part of a row that was read.

    Attributes:
        opened: The request, or None where the row was read behind words.
        entries: The entries.
        payloads: Some payloads, by their places, or none."""

    opened: Optional[Opened]
    entries: List[Entry]
    payloads: Mapping[int, bytes]


class Pulse(NamedTuple):
    """The answers of `beats`, `session_names`, `words_put` and `now`."""

    beats: Dict[int, int]
    names: Dict[int, str]
    put: Optional[int]
    now: float


class ListedRequest(NamedTuple):
    """A request in a list: when it was closed, or None, and how many words it has."""

    name: str
    opened: float
    closed: Optional[float]
    words: int


class Timer(NamedTuple):
    """The time limit of a stage. `payload` has the outcome that the stage gets unless it is settled by then. `number` is
    the request's own, or 0 for any request of the name."""

    request: str
    stage: int
    due: float
    payload: bytes
    number: int = 0


class Glance(NamedTuple):
    """A summary of a request for lists, which then needn't read the row: `said` is a text of glances.py, made when the
    row had so many words."""

    request: str
    number: int
    words: int
    said: str


class OpenRequest(NamedTuple):
    """An open request in a list: its flow, how many words it has, and the last glance at it, if there is one."""

    name: str
    number: int
    opened: float
    words: int
    flow: str
    glance: Optional[Glance]


class Changes(NamedTuple):
    """What has changed in the list of open requests.

    Attributes:
        opened: New requests, and others again, each as it is now.
        longer: The new numbers of words of other requests.
        gone: The names of requests that aren't open any more.
        many: How many are open in all, where these are only the first by name and the next call has the rest."""

    opened: Sequence[OpenRequest]
    longer: Mapping[str, int]
    gone: Sequence[str]
    many: Optional[int] = None


@functools.lru_cache(1024)  # (many requests are of one flow)
def flow_of(head: str) -> str:
    """The flow's name in the first characters of a plan, as `plans.text_of` writes it."""
    found = re.match(r'\{"cf":\d+,"flow":("(?:[^"\\]|\\.)*")', head)
    try:
        return str(json.loads(found[1])) if found else ""
    except ValueError:
        return ""


class Transaction(abc.ABC):
    """A transaction of an engine, with a connection of its own. It ends without effect unless `commit` was called."""

    connection: Any  # the first argument of the function

    def is_away(self) -> bool:
        """Whether the connection is gone or the engine can't write, asked after the function has raised. All is undone
        then."""
        return False

    @abc.abstractmethod
    def append(self, put: Put) -> bool:
        """Puts within the transaction, and returns whether the place was free."""

    @abc.abstractmethod
    def commit(self) -> None:
        """Commits. `Unknown` where it may stand or not."""


class Store(abc.ABC):
    """Rows in an engine, as `connect` opens one. Another engine implements this class. Any thread may use it. Each call
    but `close` may raise `Unknown`.

    A call with the number of a request beside its name is for that request alone. If that was dropped, it raises `Gone`,
    which is a `Broken`, also where another request has the name. The number 0 is for any request of the name."""

    is_transactional = False  # whether it has `transaction`

    @abc.abstractmethod
    def open(self, name: str, plan: str) -> Opened:
        """Opens a request, or returns the one of this name, whose plan may differ."""

    @abc.abstractmethod
    def find(self, name: str) -> Optional[Opened]:
        """The request of this name, or None."""

    @abc.abstractmethod
    def append_groups(self, puts: Sequence[Put]) -> List[Optional[List[Entry]]]:
        """Appends a group to each of some requests, each all or none, in one commit if they don't conflict. Returns for
        each None where it stands now, else the entries from its first place on. `Broken` where a request isn't there;
        the other groups may stand then."""

    @abc.abstractmethod
    def read(self, name: str, at: int = 0, number: int = 0) -> List[Entry]:
        """The entries behind `at` words. A stale answer is shorter."""

    @abc.abstractmethod
    def payloads(self, name: str, places: Sequence[int], number: int = 0) -> Dict[int, bytes]:
        """The payloads of these places, without missing ones."""

    @abc.abstractmethod
    def ends(self) -> Dict[str, int]:
        """How many words each open request has."""

    def news(self, mark: Any) -> Tuple[Dict[str, int], Any]:
        """The numbers of words of open requests that may have changed since a mark, and the next mark. With None it lists
        all of them. A request that was opened again may appear only with None. A closed one to which words were put
        since the mark may appear with -1. A store that can't distinguish them lists all open ones."""
        return self.ends(), None

    @abc.abstractmethod
    def wait_for_change(self, seconds: float) -> None:
        """Waits until something may have been put since this thread's last call, at most so many seconds."""

    @abc.abstractmethod
    def listing(self) -> List[ListedRequest]:
        """All requests, by name."""

    @abc.abstractmethod
    def end(self, name: str, at: int, number: int = 0) -> bool:
        """Closes a request with exactly so many words, and drops its timers. Returns whether this call closed it."""

    @abc.abstractmethod
    def reopen(self, name: str, number: int = 0) -> None:
        """Opens a closed request again. A concurrent `end` that has seen fewer words fails."""

    @abc.abstractmethod
    def drop(self, name: str, at: Optional[int] = None) -> bool:
        """Deletes a request with all its words, in one step, and returns whether it did. With `at` only a closed one of
        so many words."""

    @abc.abstractmethod
    def beat(self, session: int) -> None:
        """Counts a sign of life of a session."""

    @abc.abstractmethod
    def beats(self) -> Dict[int, int]:
        """The number of beats of each session."""

    @abc.abstractmethod
    def drop_beat(self, session: int) -> None:
        """Deletes the beats of a session that has ended or is long gone. A later beat counts from 1."""

    @abc.abstractmethod
    def now(self) -> float:
        """The engine's clock, in seconds since 1970."""

    @abc.abstractmethod
    def set_timer(self, timer: Timer) -> None:
        """Sets the timer of a stage, and replaces an earlier one."""

    @abc.abstractmethod
    def due_timers(self, now: float) -> List[Timer]:
        """The timers that are due at this moment."""

    @abc.abstractmethod
    def drop_timer(self, request: str, stage: int, number: int = 0) -> None:
        """Deletes a stage's timer."""

    # For lists and pages. An engine may do without: then lists read rows, and sessions have no names.

    def overview(self) -> List[OpenRequest]:
        """All open requests, each with the last glance at it. No row is read."""
        found = [(it, self.find(it.name)) for it in self.listing() if it.closed is None]
        return [OpenRequest(it.name, at.number, it.opened, it.words, flow_of(at.plan[:HEAD]), None) for it, at in found if at is not None]

    def changes(self, mark: Any) -> Tuple[Changes, Any]:
        """The changes of the list of open requests since a mark, and the next mark. With None all are new, and the first
        call may have only the first ones. Some changes may come a moment later. A store that can't distinguish them
        lists all anew."""
        opened = self.overview()
        names = {it.name for it in opened}
        return Changes(opened, {}, [name for name in mark or () if name not in names]), names

    def read_rows(self, wanted: Sequence[RowQuery]) -> Dict[str, ReadRow]:
        """Reads several rows at once, by their names, each once. It leaves out missing requests and rows with gaps, and
        may leave out long rows: `find` and `read` raise the reason."""
        told = {}
        for it in wanted:
            with contextlib.suppress(Broken):
                opened = None if it.at else self.find(it.name)
                if it.at or opened is not None and opened.number == it.number:
                    told[it.name] = ReadRow(opened, self.read(it.name, it.at, it.number), {})
        return told

    def payloads_of(self, wanted: Mapping[Tuple[str, int], Sequence[int]]) -> Dict[str, Dict[int, bytes]]:
        """The `payloads` of several requests, given by names and numbers; by their names. Missing requests may be left
        out."""
        told = {}
        for (name, number), places in wanted.items():
            with contextlib.suppress(Gone):
                told[name] = self.payloads(name, places, number)
        return told

    def pulse(self) -> Pulse:
        """Beats, names of sessions, the count of words and the engine's clock, at once."""
        return Pulse(self.beats(), self.session_names(), self.words_put(), self.now())

    def keep_glances(self, glances: Sequence[Glance]) -> None:
        """Stores these glances in the place of earlier ones, except those of requests that aren't open."""

    def closed(self, behind: str, most: int, part: str = "") -> List[ListedRequest]:
        """At most `most` closed requests, by name, with names behind this one that contain `part` in any case."""
        found = [it for it in self.listing() if it.closed is not None and it.name > behind and part.lower() in it.name.lower()]
        return found[:most]

    def name_session(self, session: int, said: str, request: str = "", number: int = 0) -> None:
        """Names a session: in a request, as long as the request is kept; or without one, as long as its beats are."""

    def session_names(self, request: str = "", number: int = 0) -> Dict[int, str]:
        """The names of sessions, in a request or without one."""
        return {}

    def words_put(self) -> Optional[int]:
        """About how many words were put until now, or None where that isn't known. Dropped ones may not count."""
        return None

    def append(self, put: Put) -> Optional[List[Entry]]:
        """Appends a group, all or none. Returns None where it stands now, else the entries from its first place on."""
        return self.append_groups([put])[0]

    def wait_for_words(self, name: str, at: int, seconds: float) -> bool:
        """Waits until a request has more than `at` words, and returns whether it has."""
        until = time.monotonic() + seconds
        while not self.read(name, at):
            left = until - time.monotonic()
            if left <= 0:
                return False
            self.wait_for_change(left)
        return True

    def check_may_put(self) -> None:
        """Raises `StoreError` in a thread whose own open transaction would block a put."""

    def transaction(self) -> ContextManager[Transaction]:
        """Begins a transaction of the engine, in which a function's effect and its finish are committed together."""
        raise StoreError(f"{type(self).__name__} has no transactions that a function can take part in")

    def close(self) -> None:
        """Closes the connections to the engine."""


class Memory(Store):
    """Rows in this process, for threads and tests."""

    def __init__(self) -> None:
        self._change = threading.Condition()
        self._rows: Dict[str, List[Entry]] = {}
        self._payloads: Dict[Tuple[str, int], bytes] = {}
        self._opened: Dict[str, Opened] = {}
        self._closed: Dict[str, float] = {}
        self._beats: Dict[int, int] = {}
        self._timers: Dict[Tuple[str, int], Timer] = {}
        self._glances: Dict[str, Glance] = {}
        self._names: Dict[Tuple[int, int], str] = {}  # by the numbers of requests, or 0, and sessions
        self._puts = 0
        self._last: Dict[str, int] = {}  # the number of the put that a request had last
        self._seen = threading.local()

    def open(self, name: str, plan: str) -> Opened:
        with self._change:
            if name not in self._opened:
                self._puts += 1
                self._last[name] = self._puts
                self._change.notify_all()
            return self._opened.setdefault(name, Opened(name, plan, time.time(), self._puts))

    def find(self, name: str) -> Optional[Opened]:
        return self._opened.get(name)

    def append_groups(self, puts: Sequence[Put]) -> List[Optional[List[Entry]]]:
        with self._change:
            try:
                return [self._append(put) for put in puts]
            finally:  # (where one is refused those before it stand)
                self._puts += 1
                self._last.update((put.request, self._puts) for put in puts)
                self._change.notify_all()

    def _is_there(self, name: str, number: int) -> None:
        if name not in self._opened or number not in (0, self._opened[name].number):
            raise Gone(name)

    def _append(self, put: Put) -> Optional[List[Entry]]:
        self._is_there(put.request, put.number)
        row = self._rows.setdefault(put.request, [])
        if len(row) > put.at:
            return row[put.at :]
        row.extend(put.entries)
        if put.opens:
            self._closed.pop(put.request, None)
        self._payloads.update(((put.request, place), payload) for place, payload in put.payloads.items())
        return None

    def read(self, name: str, at: int = 0, number: int = 0) -> List[Entry]:
        with self._change:
            self._is_there(name, number)
            return self._rows.get(name, [])[at:]

    def payloads(self, name: str, places: Sequence[int], number: int = 0) -> Dict[int, bytes]:
        with self._change:
            self._is_there(name, number)
            return {place: self._payloads[name, place] for place in places if (name, place) in self._payloads}

    def ends(self) -> Dict[str, int]:
        with self._change:
            return {name: len(self._rows.get(name, [])) for name in self._opened if name not in self._closed}

    def news(self, mark: Any) -> Tuple[Dict[str, int], Any]:
        with self._change:
            ends = self.ends()
            news = ends if mark is None else {name: ends.get(name, -1) for name in self._opened if self._last.get(name, 0) > mark}
            return news, self._puts

    def wait_for_change(self, seconds: float) -> None:
        with self._change:
            seen = getattr(self._seen, "puts", -1)
            self._change.wait_for(lambda: self._puts != seen, seconds)
            self._seen.puts = self._puts

    def listing(self) -> List[ListedRequest]:
        with self._change:
            return [
                ListedRequest(name, it.opened, self._closed.get(name), len(self._rows.get(name, []))) for name, it in sorted(self._opened.items())
            ]

    def end(self, name: str, at: int, number: int = 0) -> bool:
        with self._change:
            self._is_there(name, number)
            if name in self._closed or len(self._rows.get(name, [])) != at:
                return False
            self._closed[name] = time.time()
            self._glances.pop(name, None)
            self._timers = {key: it for key, it in self._timers.items() if key[0] != name}
            return True

    def reopen(self, name: str, number: int = 0) -> None:
        with self._change:
            self._is_there(name, number)
            self._closed.pop(name, None)

    def drop(self, name: str, at: Optional[int] = None) -> bool:
        with self._change:
            if name not in self._opened or at is not None and (name not in self._closed or len(self._rows.get(name, [])) != at):
                return False
            number = self._opened[name].number
            for kept in (self._opened, self._closed, self._rows, self._glances):
                kept.pop(name, None)  # type: ignore[attr-defined]
            self._names = {key: it for key, it in self._names.items() if key[0] != number}
            self._payloads = {key: it for key, it in self._payloads.items() if key[0] != name}
            self._timers = {key: it for key, it in self._timers.items() if key[0] != name}
            return True

    def beat(self, session: int) -> None:
        with self._change:
            self._beats[session] = self._beats.get(session, 0) + 1

    def beats(self) -> Dict[int, int]:
        with self._change:
            return dict(self._beats)

    def drop_beat(self, session: int) -> None:
        with self._change:
            self._beats.pop(session, None)
            self._names.pop((0, session), None)

    def now(self) -> float:
        return time.time()

    def set_timer(self, timer: Timer) -> None:
        with self._change:
            self._is_there(timer.request, timer.number)
            self._timers[timer.request, timer.stage] = timer

    def due_timers(self, now: float) -> List[Timer]:
        with self._change:
            return [timer for timer in self._timers.values() if timer.due <= now]

    def drop_timer(self, request: str, stage: int, number: int = 0) -> None:
        with self._change:
            self._is_there(request, number)
            self._timers.pop((request, stage), None)

    def overview(self) -> List[OpenRequest]:
        with self._change:
            return [
                OpenRequest(name, it.number, it.opened, len(self._rows.get(name, [])), flow_of(it.plan[:HEAD]), self._glances.get(name))
                for name, it in self._opened.items()
                if name not in self._closed
            ]

    def keep_glances(self, glances: Sequence[Glance]) -> None:
        with self._change:
            self._glances.update(
                {
                    it.request: it
                    for it in glances
                    if it.request not in self._closed and it.request in self._opened and self._opened[it.request].number == it.number
                }
            )

    def name_session(self, session: int, said: str, request: str = "", number: int = 0) -> None:
        with self._change:
            if request:
                self._is_there(request, number)
            self._names[self._opened[request].number if request else 0, session] = said

    def session_names(self, request: str = "", number: int = 0) -> Dict[int, str]:
        with self._change:
            if request:
                self._is_there(request, number)
            of = self._opened[request].number if request else 0
            return {session: said for (its, session), said in self._names.items() if its == of}

    def words_put(self) -> Optional[int]:
        with self._change:
            return sum(map(len, self._rows.values()))


class Grouped(Store):
    """A store whose puts go through one thread, which commits simultaneous puts together. For a process with many
    requests."""

    def __init__(self, store: Store, most: int = 64) -> None:
        self._store, self._most = store, most
        self.is_transactional: bool = store.is_transactional
        self._waiting: List[Tuple[Put, "_Slot"]] = []
        self._change = threading.Condition()
        self._is_closed = False
        self.commits: int = 0
        self.puts: int = 0
        self._thread = threading.Thread(target=self._run, name="cf-writer", daemon=True)
        self._thread.start()

    def append_groups(self, puts: Sequence[Put]) -> List[Optional[List[Entry]]]:
        self._store.check_may_put()
        slots = [(put, _Slot()) for put in puts]
        with self._change:
            if self._is_closed:
                raise StoreError("the store is closed")
            self._waiting += slots
            self._change.notify_all()
        return [slot.told() for _, slot in slots]

    def _run(self) -> None:
        while True:
            with self._change:
                self._change.wait_for(lambda: bool(self._waiting) or self._is_closed)
                if not self._waiting:
                    return
                now, self._waiting = _one_each(self._waiting, self._most)
            if not self._put(now) and len(now) > 1:  # one of them is refused: what landed is known by its token
                for it in now:
                    self._put([it])

    def _put(self, now: List[Tuple[Put, "_Slot"]]) -> bool:
        """Puts all in one commit, and answers each. False where they have to go one by one."""
        try:
            told = self._store.append_groups([put for put, _ in now])
        except BaseException as error:
            if len(now) > 1 and not isinstance(error, Unknown):
                return False
            for _, slot in now:
                slot.set(None, error)
            return True
        self.commits, self.puts = self.commits + 1, self.puts + len(now)
        for (_, slot), stands in zip(now, told):
            slot.set(stands, None)
        return True

    def close(self) -> None:
        with self._change:
            self._is_closed = True
            self._change.notify_all()
        self._thread.join(10)
        self._store.close()

    def open(self, name: str, plan: str) -> Opened:
        return self._store.open(name, plan)

    def find(self, name: str) -> Optional[Opened]:
        return self._store.find(name)

    def read(self, name: str, at: int = 0, number: int = 0) -> List[Entry]:
        return self._store.read(name, at, number)

    def payloads(self, name: str, places: Sequence[int], number: int = 0) -> Dict[int, bytes]:
        return self._store.payloads(name, places, number)

    def ends(self) -> Dict[str, int]:
        return self._store.ends()

    def news(self, mark: Any) -> Tuple[Dict[str, int], Any]:
        return self._store.news(mark)

    def wait_for_change(self, seconds: float) -> None:
        self._store.wait_for_change(seconds)

    def listing(self) -> List[ListedRequest]:
        return self._store.listing()

    def end(self, name: str, at: int, number: int = 0) -> bool:
        return self._store.end(name, at, number)

    def reopen(self, name: str, number: int = 0) -> None:
        self._store.reopen(name, number)

    def drop(self, name: str, at: Optional[int] = None) -> bool:
        return self._store.drop(name, at)

    def beat(self, session: int) -> None:
        self._store.beat(session)

    def beats(self) -> Dict[int, int]:
        return self._store.beats()

    def drop_beat(self, session: int) -> None:
        self._store.drop_beat(session)

    def now(self) -> float:
        return self._store.now()

    def set_timer(self, timer: Timer) -> None:
        self._store.set_timer(timer)

    def due_timers(self, now: float) -> List[Timer]:
        return self._store.due_timers(now)

    def drop_timer(self, request: str, stage: int, number: int = 0) -> None:
        self._store.drop_timer(request, stage, number)

    def overview(self) -> List[OpenRequest]:
        return self._store.overview()

    def changes(self, mark: Any) -> Tuple[Changes, Any]:
        return self._store.changes(mark)

    def read_rows(self, wanted: Sequence[RowQuery]) -> Dict[str, ReadRow]:
        return self._store.read_rows(wanted)

    def payloads_of(self, wanted: Mapping[Tuple[str, int], Sequence[int]]) -> Dict[str, Dict[int, bytes]]:
        return self._store.payloads_of(wanted)

    def pulse(self) -> Pulse:
        return self._store.pulse()

    def keep_glances(self, glances: Sequence[Glance]) -> None:
        self._store.keep_glances(glances)

    def closed(self, behind: str, most: int, part: str = "") -> List[ListedRequest]:
        return self._store.closed(behind, most, part)

    def name_session(self, session: int, said: str, request: str = "", number: int = 0) -> None:
        self._store.name_session(session, said, request, number)

    def session_names(self, request: str = "", number: int = 0) -> Dict[int, str]:
        return self._store.session_names(request, number)

    def words_put(self) -> Optional[int]:
        return self._store.words_put()

    def check_may_put(self) -> None:
        self._store.check_may_put()

    def transaction(self) -> ContextManager[Transaction]:
        return self._store.transaction()


class _Slot:
    """The answer of one put."""

    def __init__(self) -> None:
        self._done = threading.Event()
        self._told: Optional[List[Entry]] = None
        self._error: Optional[BaseException] = None

    def set(self, told: Optional[List[Entry]], error: Optional[BaseException]) -> None:
        self._told, self._error = told, error
        self._done.set()

    def told(self) -> Optional[List[Entry]]:
        self._done.wait()
        if isinstance(self._error, Unknown):
            raise Unknown(str(self._error))
        if self._error is not None:
            raise self._error
        return self._told


def _one_each(waiting: List[Tuple[Put, _Slot]], most: int) -> Tuple[List[Tuple[Put, _Slot]], List[Tuple[Put, _Slot]]]:
    """The puts that go now, at most one of each request, and the others."""
    now: Dict[str, Tuple[Put, _Slot]] = {}
    later = []
    for it in waiting:
        if len(now) < most and it[0].request not in now:
            now[it[0].request] = it
        else:
            later.append(it)
    return list(now.values()), later
