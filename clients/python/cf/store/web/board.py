"""What is known of a store at the moment: its open requests, sessions and queues. A thread keeps it up to date."""
import contextlib
import dataclasses
import logging
import operator
import threading
import time
from collections import deque
from typing import Any, Deque, Dict, List, NamedTuple, Optional, Sequence, Tuple

from ..glances import Queue, GlanceContent, glance_of, read
from ..rows import Broken, Changes, Glance, Gone, OpenRequest, Store, StoreError, Unknown
from ..view import RowView, Watcher
from .reading import Readings

LOGGER = logging.getLogger("cf.requests")
LEAST_BETWEEN = 0.05  # seconds between two looks at the store, or so many times what the last took of a processor:
SHARE = 3  # (not by the clock: where others take the processors, a look takes ten times as long and costs the same)
BEATS = 1.0  # seconds between two looks at sessions, besides so many times what the last one took by the clock:
BEATS_SHARE = 2
READING = 0.25  # seconds of a round in which rows are read whose glances are old
TOGETHER = 60  # rows that are read together
WANTED = 5.0  # seconds for which a request counts as looked at
RESTED = 0.5  # seconds without a new word, before a request is read that nobody looks at
BETWEEN_RESTED = 1.0  # seconds between two reads of such, where they are few
KEPT = 200  # glances that one put keeps
BETWEEN_PUTS = 0.2  # seconds between two looks for glances that are to be kept, and two puts where they are many
LEAST_AHEAD = 0.2  # seconds by which the store's clock has to move against this one's
RATED = 10.0  # seconds over which words a second are counted
STATES = ("running", "gone", "ready", "waiting", "done", "broken", "unread")


@dataclasses.dataclass
class Line:
    """An open request as lists have it. `glanced` is how many words `seen` is of; `why` is what it is broken by;
    `state` is one of `STATES`."""

    name: str
    number: int
    opened: float
    flow: str
    words: int = 0
    glanced: int = -1
    seen: Optional[GlanceContent] = None
    why: str = ""
    state: str = "unread"
    changed: float = 0.0  # when its last word was noticed, by this process's monotonic clock
    folded: str = ""  # its name, as it is looked for


class Session(NamedTuple):
    """A session: what it is called, whether it is there (None where that isn't known yet), and for how long its beat
    has stood still."""

    session: int
    name: str
    is_there: Optional[bool]
    silent: float


class Board:
    """What is known of a store.

    Args:
        store: The store. This reads it, and keeps glances there unless it may only read.
        readings: What reads rows.
        lease: After how many seconds without a beat a session is gone.
        is_read_only: Whether nothing may be written."""

    def __init__(self, store: Store, readings: Readings, lease: float, is_read_only: bool) -> None:
        self.store, self.readings, self.is_read_only = store, readings, is_read_only
        self.version = 0  # of all of this
        self.is_known = False  # whether the store has told all its requests
        self.many = 0  # how many there are, while it has told the first alone, or 0
        self.away: str = ""  # why the store can't be asked, or nothing
        self.away_since = 0.0
        self.unknown = 0  # how often it didn't answer
        self.words_put: Optional[int] = None
        self.ahead = 0.0  # seconds by which the store's clock is before this one's
        self._lines: Dict[str, Line] = {}
        self._order: List[Line] = []  # by name
        self._behind: Dict[str, None] = {}  # requests with more words than their glances have seen
        self._made: Dict[str, Glance] = {}  # glances that the store hasn't got
        self._looked: Deque[Tuple[float, Sequence[str]]] = deque()  # who was looked at, and isn't in `_wanted` yet
        self._wanted: Dict[str, float] = {}
        self._sessions: Dict[int, Session] = {}
        self._first: Dict[int, int] = {}  # the beats that sessions had when they were first looked at
        self._gone: Dict[int, bool] = {}
        self._rates: List[Tuple[float, int]] = []
        self._watcher, self._lease = Watcher(store, lease), lease
        self._mark: Any = None
        self._next_list = self._next_beats = self._next_put = self._next_rested = 0.0
        self._change, self._stops = threading.Condition(), threading.Event()
        # (a put waits for the disk, and for a majority in etcd: what is looked at doesn't wait for that)
        self._threads = [threading.Thread(target=self._run, name="cf-board", daemon=True)] + (
            [] if is_read_only else [threading.Thread(target=self._run_keeper, name="cf-keeper", daemon=True)]
        )

    def start(self) -> None:
        """Begins to look."""
        for it in self._threads:
            it.start()

    def stop(self) -> None:
        """Looks no more."""
        self._stops.set()
        with self._change:
            self._change.notify_all()
        for it in self._threads:
            if it.ident is not None:
                it.join(10)

    @property
    def is_stopped(self) -> bool:
        """Whether it looks no more."""
        return self._stops.is_set()

    def wait(self, version: int, seconds: float) -> int:
        """Waits until something is another than at a version, or so many seconds; the version now."""
        with self._change:
            self._change.wait_for(lambda: self.version != version or self._stops.is_set(), seconds)
            return self.version

    def wait_for_first(self, seconds: float) -> None:
        """Waits until the first requests are known, or so many seconds."""

        def is_there() -> bool:
            return self.is_known or self.many > 0 or self.away != "" or self._stops.is_set()

        if not is_there():  # (else nobody waits here while the others are taken over)
            with self._change:
                self._change.wait_for(is_there, seconds)

    def soon(self) -> None:
        """Has all looked at anew: something was closed or dropped here."""
        self._next_list = 0.0

    # What is known.

    def lines(self) -> List[Line]:
        """All open requests, by name. The list stays as it is; what comes has another one."""
        return self._order

    def line(self, name: str) -> Optional[Line]:
        """An open request."""
        return self._lines.get(name)

    def want(self, names: Sequence[str]) -> None:
        """Says that somebody looks at these requests, so that they are read first."""
        self._looked.append((time.monotonic(), names))  # (without the lock, so that who asks for a list doesn't wait)

    def _state(self, line: Line) -> str:
        if line.why:
            return "broken"
        if line.seen is None:
            return "unread"
        if line.seen.claims:
            return "gone" if all(self._gone.get(it.session, False) for it in line.seen.claims) else "running"
        return "ready" if line.seen.ready else "waiting" if line.seen.open else "done"

    def session(self, session: int) -> Session:
        """What is known of a session."""
        known = self._sessions.get(session)
        return known or Session(session, "", False if self._gone.get(session) else None, 0.0)

    def sessions(self) -> List[Session]:
        """All that have said that they are there, and those that have claims."""
        with self._change:
            return [self.session(it) for it in sorted({*self._sessions, *self._gone})]

    def queues(self) -> List[Queue]:
        """How many stages of each function are ready in all open requests, and since when the first."""
        told: Dict[Tuple[str, int], Queue] = {}
        for line in self.lines():
            for it in line.seen.ready if line.seen is not None else ():
                before = told.get(it[:2])
                told[it[:2]] = it if before is None else Queue(*it[:2], before.many + it.many, min(before.since, it.since))
        return [told[key] for key in sorted(told)]

    def rate(self) -> Optional[float]:
        """Words a second."""
        rates = self._rates
        if len(rates) < 2:
            return None
        (began, first), (ended, last) = rates[0], rates[-1]
        return max(0.0, (last - first) / (ended - began)) if ended > began else None

    # The thread.

    def _run(self) -> None:
        while not self._stops.is_set():
            try:
                self._round()
                self._say_away("")
                if self.is_known:  # (else the others follow the first at once)
                    self._stops.wait(LEAST_BETWEEN)
                    self.store.wait_for_change(LEAST_BETWEEN)
            except (Unknown, StoreError) as error:
                self.unknown += isinstance(error, Unknown)
                self._say_away(str(error))
                self._stops.wait(0.5)
            except Exception as error:
                LOGGER.exception("the store can't be read")
                self._say_away(repr(error))
                self._stops.wait(1)

    def _say_away(self, why: str) -> None:
        if why != self.away:
            self.away_since = self.away_since if self.away and why else time.time()
            self.away = why
            self._changed()

    def _changed(self) -> None:
        with self._change:
            self.version += 1
            self._change.notify_all()

    def _round(self) -> None:
        now = time.monotonic()
        if now >= self._next_list:
            self._next_list, began = now, time.thread_time()
            changes, mark = self.store.changes(self._mark)
            self._say(self._take(changes))
            self._mark = mark
            self._next_list += SHARE * (time.thread_time() - began) if self.is_known else 0.0
        self._read_some()
        began = time.monotonic()
        if began >= self._next_beats:
            self._next_beats = began + BEATS  # (first: where a store is slow, rows are read all the same)
            self._say(self._look_at_sessions())
            self._next_beats += BEATS_SHARE * (time.monotonic() - began)

    def _say(self, is_other: bool) -> None:
        if is_other:
            self._changed()

    def _take(self, changes: Changes) -> bool:
        """Takes over what is other in the list of open requests, and says whether something is."""
        now, is_other = time.monotonic(), not self.is_known
        with self._change:
            gone = [name for name in changes.gone if name in self._lines]
            for name in gone:
                self._forget(name)
            has_new = False
            for it in changes.opened:
                line = self._lines.get(it.name)
                if line is None or line.number != it.number:
                    line, has_new = self._add(it, now), True
                is_other = self._tell(line, it, now) or is_other
            for name, words in changes.longer.items():
                is_other = name in self._lines and self._grow(self._lines[name], words, now) or is_other
            if gone or has_new:
                self._order = sorted(self._lines.values(), key=operator.attrgetter("name"))
            self.is_known, self.many = changes.many is None, changes.many or 0
        return is_other or has_new or bool(gone)

    def _add(self, it: OpenRequest, now: float) -> Line:
        self._forget(it.name)
        line = self._lines[it.name] = Line(it.name, it.number, it.opened, it.flow, it.words, changed=now, folded=it.name.lower())
        self._behind[it.name] = None
        return line

    def _tell(self, line: Line, it: OpenRequest, now: float) -> bool:
        """Takes over what is told of a request, and says whether that is something new."""
        seen = read(it.glance) if it.glance is not None and it.glance.words > line.glanced else None
        if seen is not None and it.glance is not None:
            line.seen, line.glanced = seen, it.glance.words
            line.state = self._state(line)
        return self._grow(line, it.words, now) or seen is not None

    def _forget(self, name: str) -> None:
        self._lines.pop(name, None)
        self._behind.pop(name, None)
        self._made.pop(name, None)
        self.readings.forget(name)

    def _grow(self, line: Line, words: int, now: float) -> bool:
        """Notices how many words a request has now."""
        is_more = words > line.words
        if is_more:
            line.words, line.changed = words, now
        if line.glanced < line.words and not line.why or is_more:
            self._behind[line.name] = None
        else:
            self._behind.pop(line.name, None)
        return is_more

    def _look_at_sessions(self) -> bool:
        asked = time.monotonic()
        beats, names, put, now_there = self.store.pulse()
        self._watcher.look(beats, asked)
        ahead = now_there - time.time()
        # (where it moves by less, what was told of times stays as it is, and isn't told again)
        self.ahead = ahead if abs(ahead - self.ahead) > LEAST_AHEAD else self.ahead
        now, silences = time.monotonic(), self._watcher.silences()
        told = {}
        for session, count in beats.items():
            first, silent = self._first.setdefault(session, count), silences.get(session, 0.0)
            is_there = False if silent > self._lease else True if count != first else None
            told[session] = Session(session, names.get(session, ""), is_there, silent)
        claimed = {it.session for line in self.lines() if line.seen is not None for it in line.seen.claims}
        gone = {it: self._watcher.is_gone(it) for it in claimed}
        with self._change:
            self._wanted = {name: at for name, at in self._wanted.items() if now - at < WANTED}
            self.words_put = put
            if put is not None:
                self._rates = [it for it in self._rates if now - it[0] <= RATED] + [(now, put)]
            is_other = gone != self._gone or {(it.session, it.is_there) for it in told.values()} != {
                (it.session, it.is_there) for it in self._sessions.values()
            }
            is_known, self._sessions, self._gone = gone == self._gone, told, gone
            for line in [] if is_known else self._order:
                line.state = self._state(line)
        return is_other

    # Rows whose glances are old.

    def _read_some(self) -> None:
        """Reads rows whose glances are old, for a while: first those that somebody looks at."""
        now = time.monotonic()
        while self._looked:
            at, names = self._looked.popleft()
            self._wanted.update(dict.fromkeys(names, at))
        with self._change:
            wanted = [name for name in self._behind if now - self._wanted.get(name, -WANTED) < WANTED]
            rested = [] if len(wanted) >= 100 else [name for name in self._behind if name not in self._wanted and self._rests(name, now)]
        if len(rested) < TOGETHER and now < self._next_rested:
            rested = []
        self._next_rested = now + BETWEEN_RESTED if rested else self._next_rested
        for names in (wanted, rested):
            for k in range(0, len(names), TOGETHER):
                if time.monotonic() > now + READING or self._stops.is_set():
                    return
                self._read_all(names[k : k + TOGETHER], names is wanted)
                self._changed()

    def _rests(self, name: str, now: float) -> bool:
        return now - self._lines[name].changed > RESTED

    def _read_all(self, names: Sequence[str], keeps: bool) -> None:
        """Reads these rows together, and by itself what can't be had so."""
        numbers = {name: self._lines[name].number for name in names}
        views = self.readings.reading_all(numbers, keeps)
        for name in names:
            self._read(name, views.get(name))

    def _read(self, name: str, known: Optional[RowView]) -> None:
        line = self._lines[name]
        made: Optional[Glance] = None
        why = ""
        try:
            with contextlib.nullcontext(known) if known else self.readings.reading(name, line.number, False) as view:
                made = glance_of(view, time.time(), line.seen)
        except Gone:
            self.soon()
        except Broken as error:
            why = f"place {error.place}: {error.why}"
        except (ValueError, TypeError) as error:
            why = str(error)
        with self._change:
            # (a member of etcd that lags behind may know fewer words than are told: it is asked again)
            if made is None or made.words >= line.words:
                self._behind.pop(name, None)
            line.why = why
            if made is not None:
                line.seen, line.glanced, line.words = read(made), made.words, max(line.words, made.words)
                self._made[name] = made
            line.state = self._state(line)

    def _run_keeper(self) -> None:
        while not self._stops.wait(BETWEEN_PUTS):
            try:
                self._keep()
            except Exception:  # whatever a store raises, the next ones are kept
                LOGGER.debug("glances aren't kept", exc_info=True)

    def _keep(self) -> None:
        """Keeps glances that were made here in the store, where the requests rest."""
        now = time.monotonic()
        if now < self._next_put or not self._made:
            return
        with self._change:
            rests = [name for name in self._made if name in self._lines and now - self._lines[name].changed > 2][:KEPT]
            some = [self._made.pop(name) for name in rests]
        self._next_put = now + (BETWEEN_PUTS if len(some) == KEPT else 2)
        if some:
            self.store.keep_glances(some)
