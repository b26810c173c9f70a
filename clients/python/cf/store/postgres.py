"""Rows in tables of a PostgreSQL database, by psycopg2."""
import contextlib
import importlib
import re
import select
import threading
import time
from typing import Any, Dict, Generator, Iterator, List, Mapping, NoReturn, Optional, Sequence, Set, Tuple

from . import postgres_sql as sql
from .rows import HEAD, Broken, Entry, Glance, OpenRequest, Opened, Pulse, Put, ReadRow, StoreError, Timer, Transaction, Unknown, RowQuery, in_a_row
from .tables import ANEW, TableStore, _Mark, _opens, _Other

psycopg2: Any = importlib.import_module("psycopg2")  # (its types are installed on some machines only)
errors: Any = importlib.import_module("psycopg2.errors")

# A network that lets nothing through is told after 20 s: else a call would wait for many minutes.
NOTICES_SILENCE = {"tcp_user_timeout": 20_000, "keepalives_idle": 10, "keepalives_interval": 5, "keepalives_count": 2}
LEAST_BETWEEN = 0.01  # seconds between two notices: the first goes at once
BETWEEN_TRIES = 0.2  # seconds between two tries of a notice that couldn't be sent


class Postgres(TableStore):
    """A database. Each connection sets `synchronous_commit` to on, where the server hasn't more; a server without
    `fsync` or `full_page_writes`, or one that can only be read, is refused; one that can only be read later, as in a
    switch-over, is waited for. With `is_unsafe` it answers before it has written.

    Waiters are woken by NOTIFY of a connection of its own, behind the commit: within the put it takes a lock of the
    whole database. That connection doesn't wait for the disk, since a notice that a crash has lost was for nobody."""

    is_transactional = True
    SQL = sql

    def __init__(self, address: str, is_unsafe: bool = False) -> None:
        super().__init__()
        self._address, self._is_unsafe = address, is_unsafe
        self._free: List[Any] = []
        self._local = threading.local()
        self._changes = threading.Event()
        self._notifier: Optional[threading.Thread] = None
        self._is_closed = self._is_made = False
        self._lock = threading.Lock()
        with self._telling(), contextlib.ExitStack() as undone:
            cursor = undone.enter_context(contextlib.closing(self._connected())).cursor()
            cursor.execute(sql.IS_MADE)
            if not cursor.fetchone()[0]:
                cursor.execute(sql.SCHEMA)
            cursor.execute(sql.PREPARED)
            self._free.append(cursor)
            undone.pop_all()
        self._is_made = True

    # Connections.

    def _connected(self) -> Any:
        db = psycopg2.connect(self._address, connect_timeout=5, **NOTICES_SILENCE)
        try:
            db.autocommit = True
            with db.cursor() as cursor:
                if self._is_unsafe:
                    cursor.execute(sql.ANSWER_AT_ONCE)
                    return db
                cursor.execute(f"{sql.ANSWER_FROM_DISK}; {sql.UNSAFE_SETTINGS}")
                for name, found in cursor.fetchall():
                    is_away = self._is_made and name == "transaction_read_only"
                    raise (Unknown if is_away else StoreError)(
                        f"{db.info.host}:{db.info.port}: {name} is {found}, with which words are lost or can't be put"
                    )
            return db
        except BaseException:
            db.close()
            raise

    @contextlib.contextmanager
    def _telling(self) -> Iterator[None]:
        try:
            yield
        except psycopg2.Error as error:
            _tell(error)

    def _do(self, statement: str, **values: Any) -> Tuple[int, List[Tuple[Any, ...]]]:
        """How many rows a statement changed or gave, and those that it gave; `_Taken` where something stands in its
        place. A connection that is lost is let go."""
        try:
            cursor = self._free.pop()
        except IndexError:
            cursor = None
        try:
            if cursor is None:
                cursor = self._connected().cursor()
                cursor.execute(sql.PREPARED)
            cursor.execute(statement, values or None)
            return cursor.rowcount, cursor.fetchall() if cursor.description else []
        except psycopg2.Error as error:
            if (error.pgcode or "").startswith(sql.TAKEN):
                raise _Taken(str(error).strip()) from None
            if cursor is not None and _is_away(error):
                with contextlib.suppress(psycopg2.Error):
                    cursor.connection.close()
            _tell(error)
        finally:
            if cursor is not None and not cursor.connection.closed:
                self._free.append(cursor)
                if self._is_closed:
                    cursor.connection.close()

    def _ask(self, statement: str, **values: Any) -> List[Tuple[Any, ...]]:
        return self._do(statement, **values)[1]

    # Requests.

    def open(self, name: str, plan: str) -> Opened:
        found = self.find(name)
        while found is None:  # (it may be dropped meanwhile)
            self._ask(sql.OPEN, name=name, plan=plan)
            found = self.find(name)
        return found

    def news(self, mark: Any) -> Tuple[Dict[str, int], Any]:
        if mark is None:
            at = self._mark()  # (first: what comes between is told once more)
            return self.ends(), at
        told: Dict[str, int] = {}
        for name, many in self._ask(sql.NEWS, since=str(mark)):
            if name is None:
                mark = int(many)
            else:
                told[str(name)] = int(many) or told.get(str(name), 0)
        return told, mark

    def _mark(self) -> int:
        return int(self._ask(sql.MARK)[0][0])

    def _other(self, mark: _Mark, is_all: bool) -> _Other:
        longer, told, at = {}, [], 0
        numbers: Optional[Set[int]] = None
        anew = {"turn": mark.turn, "most": ANEW} if is_all else {}
        for number, name, opened, many, head, words, said, kind in self._ask(
            sql.ALL_OTHER if is_all else sql.SOME_OTHER, since=str(mark.words), head=HEAD, **anew
        ):
            if kind == "mark":
                at = int(number)
            elif kind == "open":
                numbers = {int(it) for it in (said or "").split(",") if it}
            elif kind == "longer":
                longer[int(number)] = int(many)
            else:
                told.append((number, name, opened, many, head, words, said))
        opened = _opens(told)
        if numbers is None:
            return _Other(longer, at, None, opened, mark.turn)
        missed = numbers - mark.names.keys() - {it.number for it in opened}
        return _Other(longer, at, numbers, opened + self._opened(list(missed)), self._anew(numbers, mark.turn)[1])

    def _opened(self, numbers: Sequence[int]) -> List[OpenRequest]:
        return _opens(self._ask(sql.OPENED, head=HEAD, requests=list(numbers)))

    def end(self, name: str, at: int, number: int = 0) -> bool:
        told = self._ask(f"{sql.LOCK_CLOSING}; {sql.END}", request=number or self._id(name), at=at)
        if not told:
            raise self._gone(name)
        return bool(told[0][0])

    def reopen(self, name: str, number: int = 0) -> None:
        if not self._ask(f"{sql.LOCK_CLOSING}; {sql.OPEN_AGAIN}", request=number or self._id(name)):
            raise self._gone(name)

    def drop(self, name: str, at: Optional[int] = None) -> bool:
        dropped = bool(self._ask(f"{sql.LOCK_DROPPING}; {sql.DROP}", request=self._id(name), at=at))
        if dropped:
            self._ids.pop(name, None)
        return dropped

    # Words.

    def append_groups(self, puts: Sequence[Put]) -> List[Optional[List[Entry]]]:
        order = list(puts)
        told = {put.request: self._append_opening(put) for put in puts if put.opens}
        puts = sorted((put for put in puts if not put.opens), key=lambda put: put.request)
        if len(puts) == 1:
            told[puts[0].request] = self._append_one(puts[0])
        elif puts:
            told.update(zip((put.request for put in puts), self._append_all(puts)))
        self._notify()
        return [told[put.request] for put in order]

    def _append_opening(self, put: Put) -> Optional[List[Entry]]:
        """All or none, and with that the request is open: where a place is taken nothing of it stands."""
        number = self._id_of(put)
        try:
            if self._ask(f"{sql.LOCK_CLOSING}; {sql.PUT_GROUP}; {sql.OPEN_AGAIN}", request=number, **_columns([put])):
                return None
        except _Taken as taken:
            return self._stands(put, str(taken))
        return self._stands(put)

    def _append_one(self, put: Put) -> Optional[List[Entry]]:
        number, many = self._id_of(put), len(put.entries)
        try:
            done = self._do(sql.PUT, **_value(number, put, 0)) if many == 1 else self._do(sql.PUT_GROUP, request=number, **_columns([put]))
        except _Taken as taken:
            return self._stands(put, str(taken))
        return None if done[0] == many else self._stands(put)

    def _stands(self, put: Put, refused: str = "") -> List[Entry]:
        stands = self.read(put.request, put.at, put.number)
        if not stands:  # (by what somebody else has put into the database)
            raise StoreError(refused) if refused else self._gone(put.request)
        return stands

    def _append_all(self, puts: Sequence[Put]) -> List[Optional[List[Entry]]]:
        """All or none: where one place is taken nothing of the statement stands, and each is put by itself."""
        requests = [number for put in puts for number in [self._id_of(put)] * len(put.entries)]
        with contextlib.suppress(_Taken):
            if self._do(sql.PUT_GROUPS, requests=requests, **_columns(puts))[0] == len(requests):
                return [None] * len(puts)
        return [self._append_one(put) for put in puts]

    def read(self, name: str, at: int = 0, number: int = 0) -> List[Entry]:
        rows = self._ask(sql.READ, request=number or self._id(name), at=at)
        if not rows:
            raise self._gone(name)
        return in_a_row(name, at, rows if rows[0][0] is not None else [])

    def payloads(self, name: str, places: Sequence[int], number: int = 0) -> Dict[int, bytes]:
        rows = self._ask(sql.PAYLOADS, request=number or self._id(name), places=[place - 1 for place in places])
        if not rows:
            raise self._gone(name)
        return {int(at) + 1: bytes(payload) for at, payload in rows if at is not None}

    # What pages ask for, each by one statement: while a machine is busy, what takes long is the next turn.

    def read_rows(self, wanted: Sequence[RowQuery]) -> Dict[str, ReadRow]:
        requests, places = [it.number for it in wanted], [it.at for it in wanted]
        heads: Dict[int, Optional[Opened]] = {}
        words: Dict[int, List[Tuple[Any, ...]]] = {it.number: [] for it in wanted}
        payloads: Dict[int, Dict[int, bytes]] = {it.number: {} for it in wanted}
        for number, at, word, token, payload, name, opened, plan in self._ask(sql.ROWS, requests=requests, places=places):
            if at is None:
                heads[number] = None if plan is None else Opened(str(name), str(plan), float(opened), int(number))
            else:
                words[number].append((at, word, token))
                payloads[number].update({} if payload is None else {int(at) + 1: bytes(payload)})
        told = {}
        for it in wanted:
            with contextlib.suppress(Broken):
                if it.number in heads:
                    entries = in_a_row(it.name, it.at, sorted(words[it.number]))
                    told[it.name] = ReadRow(heads[it.number], entries, payloads[it.number])
        return told

    def payloads_of(self, wanted: Mapping[Tuple[str, int], Sequence[int]]) -> Dict[str, Dict[int, bytes]]:
        its = [(number, place - 1) for (_, number), places in wanted.items() for place in places]
        names = {number: name for name, number in wanted}
        told: Dict[str, Dict[int, bytes]] = {name: {} for name in names.values()}
        for number, at, payload in self._ask(sql.PAYLOADS_OF, requests=[number for number, _ in its], places=[at for _, at in its]):
            told[names[number]][int(at) + 1] = bytes(payload)
        return told

    def pulse(self) -> Pulse:
        rows = self._ask(sql.PULSE)
        beats = {int(session): int(count) for session, count, _ in rows if session is not None and count is not None}
        names = {int(session): str(name) for session, count, name in rows if session is not None and count is None}
        ((put, now),) = [(int(count), float(at)) for session, count, at in rows if session is None]
        return Pulse(beats, names, put, now)

    # Waking.

    def _notify(self) -> None:
        """Wakes who waits. What was put stands, so nothing is raised here: who gets no notice looks by himself."""
        self._changes.set()
        if self._notifier is None:
            # no thread can be started now: the next put tries again
            with self._lock, contextlib.suppress(RuntimeError):
                if self._notifier is None:
                    notifier = threading.Thread(target=self._run_notifier, name="cf-notify", daemon=True)
                    notifier.start()
                    self._notifier = notifier

    def _run_notifier(self) -> None:
        db = None
        while True:
            self._changes.wait()
            if self._is_closed:
                break
            self._changes.clear()
            try:
                if db is None or db.closed:
                    db = self._connected()
                with db.cursor() as cursor:
                    cursor.execute(f"{sql.ANSWER_AT_ONCE}; {sql.NOTIFY}")
                time.sleep(LEAST_BETWEEN)
            except Exception:  # whatever it is, the notice goes once the server takes it
                self._changes.set()
                time.sleep(BETWEEN_TRIES)
        if db is not None:
            db.close()

    def wait_for_change(self, seconds: float) -> None:
        with self._telling():
            db = getattr(self._local, "listens", None)
            try:
                if db is None or db.closed:
                    db = self._local.listens = self._connected()
                    with db.cursor() as cursor:
                        cursor.execute(sql.LISTEN)
                    return
                if not db.notifies:
                    select.select([db], [], [], seconds)
                    db.poll()
                db.notifies.clear()
            except psycopg2.Error:
                self._local.listens = None
                raise

    # Sessions and timers.

    def beat(self, session: int) -> None:
        self._ask(sql.BEAT, session=session)

    def drop_beat(self, session: int) -> None:
        self._ask(sql.DROP_BEAT, session=session)

    def name_session(self, session: int, said: str, request: str = "", number: int = 0) -> None:
        if not request:
            self._ask(sql.NAME_SESSION, session=session, said=said)
        elif not self._do(sql.NAME_SESSION_IN, request=number or self._id(request), session=session, said=said)[0]:
            raise self._gone(request)

    def now(self) -> float:
        return float(self._ask(sql.NOW)[0][0])

    def set_timer(self, timer: Timer) -> None:
        number = timer.number or self._id(timer.request)
        if not self._do(sql.SET_TIMER, request=number, stage=timer.stage, due=timer.due, payload=timer.payload)[0]:
            raise self._gone(timer.request)

    def due_timers(self, now: float) -> List[Timer]:
        rows = self._ask(sql.DUE_TIMERS, now=now)
        return [Timer(str(name), int(stage), float(at), bytes(payload), int(number)) for name, number, stage, at, payload in rows]

    def drop_timer(self, request: str, stage: int, number: int = 0) -> None:
        self._ask(sql.DROP_TIMER, request=number or self._id(request), stage=stage)

    # What lists ask for.

    def keep_glances(self, glances: Sequence[Glance]) -> None:
        rows = sorted((it.number, it.words, it.said) for it in glances)  # (two in one order don't wait in a ring)
        if rows:
            requests, words, said = map(list, zip(*rows))
            self._ask(sql.KEEP_GLANCES, requests=requests, words=words, said=said)

    def words_put(self) -> Optional[int]:
        return int(self._ask(sql.WORDS_PUT)[0][0])

    # A function's own transaction.

    @contextlib.contextmanager
    def transaction(self) -> Generator[Transaction, None, None]:
        with self._telling():
            db = self._connected()
            db.autocommit = False
        try:
            with self._telling(), db.cursor() as cursor:
                cursor.execute(f"{sql.PREPARED} savepoint cf_function")
            yield _Transaction(self, db)
        finally:
            db.close()  # what wasn't committed is undone by that

    def close(self) -> None:
        self._is_closed = True
        self._changes.set()
        listens, self._local.listens = getattr(self._local, "listens", None), None
        if listens is not None:
            listens.close()
        with self._lock:
            for cursor in self._free:
                cursor.connection.close()
            self._free.clear()


class _Taken(Exception):
    """Something stands in a put's place, or so the database says."""


def _is_away(error: Any) -> bool:
    """Whether it isn't known what became of a statement, or the server can't do it now. A cut connection may come as a
    `DatabaseError` without a kind."""
    if error.pgcode is not None:
        return str(error.pgcode).startswith(sql.AWAY)
    return isinstance(error, (psycopg2.OperationalError, psycopg2.InterfaceError)) or type(error) is psycopg2.DatabaseError


def _tell(error: Any) -> NoReturn:
    """Raises what an error of psycopg2's is here."""
    raise (Unknown if _is_away(error) else StoreError)(str(error).strip()) from None


def _value(number: int, put: Put, k: int) -> Dict[str, Any]:
    """What `PUT` takes for a put's k-th word."""
    word, token = put.entries[k]
    return {"request": number, "at": put.at + k, "word": word, "token": token, "payload": put.payloads.get(put.at + 1 + k)}


def _columns(puts: Sequence[Put]) -> Dict[str, List[Any]]:
    """What `PUT_GROUP` takes for words."""
    rows = [_value(0, put, k) for put in puts for k in range(len(put.entries))]
    columns = {"places": "at", "words": "word", "tokens": "token", "payloads": "payload"}
    return {name: [row[it] for row in rows] for name, it in columns.items()}


MARKS = re.compile(r"""('(?:[^']|'')*'|"[^"]*")|\?""")  # texts and names, and what stands for a value


def _marked(statement: str, many: int) -> str:
    """A statement with so many `?` for values, outside of its texts and names, as psycopg2 has it. Any other stays as it
    is."""
    marks = [found[0] for found in MARKS.finditer(statement)].count("?")
    if marks != many or not many or "%s" in statement:
        return statement
    return MARKS.sub(lambda found: found[1] or "%s", statement.replace("%", "%%"))


class _Connection:
    """What a transactional function is called with: it has `execute`, `executemany` and `cursor`, as
    `sqlite3.Connection` has, where `?` stands for a value; psycopg2's marks do, too. For all else it is psycopg2's cursor
    of the last statement."""

    def __init__(self, db: Any) -> None:
        self._db, self._last, self.is_closed = db, db.cursor(), False

    def execute(self, statement: str, values: Any = None) -> Any:
        """Does a statement: a cursor that has its rows."""
        self._last = self._db.cursor()
        self._last.execute(statement if isinstance(values, Mapping) else _marked(statement, len(values or ())), values)
        return self._last

    def executemany(self, statement: str, rows: Sequence[Any]) -> Any:
        """Does a statement for each of these."""
        self._last = self._db.cursor()
        for values in rows:
            self._last.execute(_marked(statement, len(values)), values)
        return self._last

    def cursor(self, *given: Any, **named: Any) -> Any:
        """A cursor of psycopg2's."""
        return self._db.cursor(*given, **named)

    def close(self) -> None:
        """Ends the transaction without effect, and fails the stage."""
        self.is_closed = True

    def __getattr__(self, name: str) -> Any:
        return getattr(self._last, name)


class _Transaction(Transaction):
    def __init__(self, store: Postgres, db: Any) -> None:
        self.connection, self._store, self._db = _Connection(db), store, db

    def is_away(self) -> bool:
        try:
            self._db.rollback()
            with self._db.cursor() as cursor:
                cursor.execute(sql.IS_READ_ONLY)
                return bool(cursor.fetchone()[0])
        except psycopg2.Error:
            return True

    def append(self, put: Put) -> bool:
        number = self._store._id_of(put)
        if self.connection.is_closed:
            raise StoreError("the function has closed its connection")
        with self._store._telling(), self._db.cursor() as cursor:
            try:
                cursor.execute("release savepoint cf_function")
            except (errors.InvalidSavepointSpecification, errors.NoActiveSqlTransaction):
                raise StoreError("the function has ended its transaction") from None
            for k in range(len(put.entries)):
                cursor.execute(sql.PUT, _value(number, put, k))
                if cursor.rowcount != 1:
                    return False
        return True

    def commit(self) -> None:
        with self._store._telling():
            self._db.commit()
        self._store._notify()
