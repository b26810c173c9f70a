"""Rows in a file that processes of one machine share, by Python's own SQLite."""
import contextlib
import fcntl
import os
import sqlite3
import threading
import time
from typing import Any, Callable, Dict, Generator, List, Optional, Sequence, Tuple, TypeVar

from . import sqlite_sql as sql
from .rows import HEAD, Entry, Glance, OpenRequest, Opened, Put, StoreError, Timer, Transaction, Unknown, in_a_row
from .tables import TableStore, _Mark, _opens, _Other

T = TypeVar("T")
MAGIC = b"SQLite format 3\0"  # https://www.sqlite.org/fileformat.html
SMALL = 512  # bytes: a larger payload would make the words' own pages large
BETWEEN_LOOKS = 0.001  # seconds between two looks at the file's version
LONGEST_WAIT = 20.0  # seconds in the line: who has it may have been stopped


class SQLite(TableStore):
    """A file. `synchronous` is FULL and the journal a write-ahead log, so what is answered is on disk; a file that
    can't have that is refused. With `is_unsafe` it answers before it has written, which tests of tests need.

    SQLite's own wait for a lock sleeps longer and longer, and is unfair: writers stand in line at a lock of the
    system's on `PATH-line`, which a killed process leaves. A stopped one keeps it: who waits for long is told
    `Unknown`."""

    is_transactional = True
    SQL = sql

    def __init__(self, path: str, is_unsafe: bool = False, may_create: bool = True) -> None:
        super().__init__()
        _look_at(path, may_create)  # (before the line's file is made beside it)
        self._path, self._synchronous = path, sql.ANSWER_AT_ONCE if is_unsafe else sql.ANSWER_FROM_DISK
        self._local = threading.local()
        self._line = _Line(path)
        self._in_line, self._telling = _InLine(self), _Telling(self)
        try:
            with self._in_line:
                db = self._db
                for statement in sql.SCHEMA.split(";"):
                    db.execute(statement)
        except BaseException:
            self.close()
            raise

    @property
    def _db(self) -> sqlite3.Connection:
        """This thread's connection."""
        db: Optional[sqlite3.Connection] = getattr(self._local, "db", None)
        if db is None or getattr(self._local, "process", 0) != os.getpid():
            db = self._local.db = self._connected()
            self._local.process = os.getpid()
        return db

    def _connected(self) -> sqlite3.Connection:
        with self._telling:
            db = sqlite3.connect(self._path, timeout=LONGEST_WAIT, isolation_level=None)
            try:
                mode = db.execute(sql.SET_JOURNAL).fetchone()[0]
                db.execute(self._synchronous)
                db.create_function("cf_lower", 1, str.lower)  # (its own knows the letters of ASCII alone)
                if mode not in ("wal", "delete", "truncate", "persist"):
                    raise StoreError(f"{self._path}: journal_mode is {mode}, with which a crash loses words")
                return db
            except BaseException:
                db.close()
                raise

    def _tell(self, error: Optional[BaseException]) -> None:
        """Raises what an error of SQLite's is here."""
        if isinstance(error, MemoryError) or isinstance(error, sqlite3.Error) and _is_away(error):
            raise Unknown(f"{self._path}: {error}") from None
        if isinstance(error, sqlite3.Error):
            raise StoreError(f"{self._path}: {error}") from None

    def _in_turn(self, act: Callable[[sqlite3.Connection], T]) -> T:
        """Acts in a transaction."""
        with self._in_line:
            db = self._db
            db.execute("begin immediate")
            try:
                told = act(db)
                db.execute("commit")
            except BaseException:
                if db.in_transaction:
                    db.execute("rollback")
                raise
            finally:
                if db.in_transaction:  # it can't even be undone: nobody could put any more
                    db.close()
                    self._local.db = None
            return told

    def _ask(self, statement: str, **values: Any) -> List[Tuple[Any, ...]]:
        with self._telling:
            return self._db.execute(statement, values).fetchall()

    def check_may_put(self) -> None:
        if self._path in _within.paths:
            raise StoreError(f"{self._path}: a transactional function can't put: its own transaction has the file")

    # Requests.

    def open(self, name: str, plan: str) -> Opened:
        found = self.find(name)
        while found is None:  # (it may be dropped meanwhile)
            self._in_turn(lambda db: db.execute(sql.OPEN, {"name": name, "plan": plan}))
            found = self.find(name)
        return found

    def news(self, mark: Any) -> Tuple[Dict[str, int], Any]:
        at: Any = mark
        told: Dict[str, int] = {}
        if mark is not None:
            for name, many, opened in self._ask(sql.NEWS, words=mark[0], requests=mark[1]):
                if name is None:
                    at = many, opened
                else:
                    told[str(name)] = int(many) or told.get(str(name), 0)
        if mark is None or at[0] < mark[0]:
            ((words, requests),) = self._ask(sql.MARK)  # (first: what comes between is told once more)
            return self.ends(), (words, requests)
        return told, at

    def _mark(self) -> int:
        return int(self._ask(sql.MARK)[0][0])

    def _other(self, mark: _Mark, is_all: bool) -> Optional[_Other]:
        # The words first: what comes between is told once more.
        at, words = self._mark(), mark.words
        if at < words:
            return None
        longer = self._ask(sql.LONGER, words=words)
        many = {int(number): int(many) for number, many in longer}
        if not is_all:
            new = self._ask(sql.OPENED_SINCE, head=HEAD, request=max(mark.names, default=0))
            return _Other(many, at, None, _opens(new), mark.turn)
        numbers = {int(number) for number, in self._ask(sql.OPEN_NUMBERS)}
        again, turn = self._anew(numbers, mark.turn)
        opened = self._opened([*(numbers - mark.names.keys()), *again])
        return _Other(many, at, numbers, opened, turn)

    def _opened(self, numbers: Sequence[int]) -> List[OpenRequest]:
        return _opens(row for number in numbers for row in self._ask(sql.OPENED, head=HEAD, request=number))

    def end(self, name: str, at: int, number: int = 0) -> bool:
        number = number or self._id(name)

        def act(db: sqlite3.Connection) -> Tuple[bool, bool]:
            closes = db.execute(sql.END, {"request": number, "at": at}).rowcount == 1
            for statement in (sql.DROP_TIMERS, sql.DROP_GLANCE) if closes else ():
                db.execute(statement, {"request": number})
            return closes, _is_there(db, number)

        closes, is_there = self._in_turn(act)
        if not is_there:
            raise self._gone(name)
        return closes

    def reopen(self, name: str, number: int = 0) -> None:
        number = number or self._id(name)

        def act(db: sqlite3.Connection) -> bool:
            db.execute(sql.OPEN_AGAIN, {"request": number})
            return _is_there(db, number)

        if not self._in_turn(act):
            raise self._gone(name)

    def drop(self, name: str, at: Optional[int] = None) -> bool:
        number = self._id(name)

        def act(db: sqlite3.Connection) -> bool:
            if not db.execute(sql.DROP, {"request": number, "at": at}).rowcount:
                return False
            for statement in (sql.DROP_WORDS, sql.DROP_LARGE, sql.DROP_TIMERS, sql.DROP_GLANCE, sql.DROP_NAMES):
                db.execute(statement, {"request": number})
            return True

        dropped = self._in_turn(act)
        if dropped:
            self._ids.pop(name, None)
        return dropped

    # Words.

    def append_groups(self, puts: Sequence[Put]) -> List[Optional[List[Entry]]]:
        ids = [self._id_of(put) for put in puts]
        if len(puts) == 1 and not puts[0].opens and len(puts[0].entries) <= 2 and all(len(it) <= SMALL for it in puts[0].payloads.values()):
            landed = [self._put_at_once(ids[0], puts[0])]
        else:
            landed = self._in_turn(lambda db: [_put(db, number, put) for number, put in zip(ids, puts)])
        return [None if it else self._stands(put, number) for it, put, number in zip(landed, puts, ids)]

    def _put_at_once(self, number: int, put: Put) -> bool:
        """Puts one word or two by one statement, which is a transaction of its own: all or none."""
        db, many = self._db, len(put.entries)
        values = _value(number, put, 0)
        if many == 2:
            values["next_word"], values["next_token"] = put.entries[1]
            values["next_payload"] = put.payloads.get(put.at + 2)
        with self._in_line:
            return db.execute(sql.PUT if many == 1 else sql.PUT_TWO, values).rowcount == many

    def _stands(self, put: Put, number: int) -> List[Entry]:
        stands = self.read(put.request, put.at, number)
        if not stands:
            raise self._gone(put.request)
        return stands

    def read(self, name: str, at: int = 0, number: int = 0) -> List[Entry]:
        rows = self._ask(sql.READ, request=number or self._id(name), at=at)
        if not rows:
            raise self._gone(name)
        return in_a_row(name, at, rows if rows[0][0] is not None else [])

    def payloads(self, name: str, places: Sequence[int], number: int = 0) -> Dict[int, bytes]:
        number, told = number or self._id(name), {}
        for place in places:
            rows = self._ask(sql.PAYLOAD, request=number, place=place)
            if rows and rows[0][0] is not None:
                told[place] = _bytes(rows[0][0])
        if len(told) < len(places) and not self._ask(sql.IS_THERE, request=number):
            raise self._gone(name)
        return told

    def wait_for_change(self, seconds: float) -> None:
        until = time.monotonic() + seconds
        while True:
            version = self._ask(sql.VERSION)[0][0]
            if version != getattr(self._local, "version", None):
                self._local.version = version
                return
            left = until - time.monotonic()
            if left <= 0:
                return
            time.sleep(min(left, BETWEEN_LOOKS))

    # Sessions and timers.

    def beat(self, session: int) -> None:
        self._in_turn(lambda db: db.execute(sql.BEAT, {"session": session}))

    def drop_beat(self, session: int) -> None:
        def act(db: sqlite3.Connection) -> None:
            db.execute(sql.DROP_BEAT, {"session": session})
            db.execute(sql.DROP_SESSION_NAME, {"session": session})

        self._in_turn(act)

    def name_session(self, session: int, said: str, request: str = "", number: int = 0) -> None:
        number = (number or self._id(request)) if request else 0
        values = {"request": number, "session": session, "said": said}
        if not self._in_turn(lambda db: db.execute(sql.NAME_SESSION_IN if request else sql.NAME_SESSION, values).rowcount):
            raise self._gone(request)

    def now(self) -> float:
        return time.time()

    def set_timer(self, timer: Timer) -> None:
        values = {"request": timer.number or self._id(timer.request), "stage": timer.stage, "due": timer.due, "payload": timer.payload}
        if not self._in_turn(lambda db: db.execute(sql.SET_TIMER, values).rowcount):
            raise self._gone(timer.request)

    def due_timers(self, now: float) -> List[Timer]:
        rows = self._ask(sql.DUE_TIMERS, now=now)
        return [Timer(str(name), int(stage), float(at), _bytes(payload), int(number)) for name, number, stage, at, payload in rows]

    def drop_timer(self, request: str, stage: int, number: int = 0) -> None:
        values = {"request": number or self._id(request), "stage": stage}
        self._in_turn(lambda db: db.execute(sql.DROP_TIMER, values))

    # What lists ask for.

    def keep_glances(self, glances: Sequence[Glance]) -> None:
        rows = [{"request": it.number, "words": it.words, "said": it.said} for it in glances]
        self._in_turn(lambda db: db.executemany(sql.KEEP_GLANCE, rows))

    def words_put(self) -> Optional[int]:
        return self._mark()

    # A function's own transaction.

    @contextlib.contextmanager
    def transaction(self) -> Generator[Transaction, None, None]:
        self.check_may_put()
        self._line.take()
        try:
            db = self._connected()
            _within.paths.append(self._path)
            try:
                with self._telling:
                    db.execute("begin immediate")
                    db.execute("savepoint cf_function")
                yield _Transaction(self, db)
            finally:
                _within.paths.remove(self._path)
                with contextlib.suppress(sqlite3.Error):  # the function may have closed it
                    if db.in_transaction:
                        db.execute("rollback")
                db.close()
        finally:
            self._line.give()

    def close(self) -> None:
        db = getattr(self._local, "db", None)
        if db is not None:
            db.close()
            self._local.db = None
        self._line.close()


def _look_at(path: str, may_create: bool) -> None:
    """`StoreError` where the file can't be a store, or isn't one yet and may not become one."""
    try:
        with open(path, "rb") as file:
            head = file.read(len(MAGIC))
    except FileNotFoundError:
        if may_create:
            return
        raise StoreError(f"{path}: there is no such file") from None
    except OSError as error:
        raise StoreError(f"{path}: {error}") from None
    if head not in (b"", MAGIC):
        raise StoreError(f"{path}: file is not a database")
    if may_create:
        return
    try:
        with contextlib.closing(sqlite3.connect(path, timeout=LONGEST_WAIT)) as db:
            if head and db.execute("select 1 from sqlite_master where name = 'cf_request'").fetchall():
                return
    except sqlite3.Error as error:
        raise StoreError(f"{path}: {error}") from None
    raise StoreError(f"{path}: no requests were ever kept in this file")


class _Within(threading.local):
    """In which files this thread has a transaction open."""

    def __init__(self) -> None:
        self.paths: List[str] = []


_within = _Within()


class _Line:
    """One's turn in this process, and then the system's lock on `PATH-line`.

    A wait for that lock can't be given up, and who has it may have been stopped. Where it isn't free, a thread of
    the line's own waits for it in this one's place, so that this one can give up; whoever comes next finds the
    thread there."""

    def __init__(self, path: str) -> None:
        self._path, self._turn, self._change = path, threading.Lock(), threading.Condition()
        self._waiter: Optional[threading.Thread] = None
        self._waits = self._is_wanted = self._has = self._is_closed = False
        try:
            self._file = os.open(path + "-line", os.O_RDWR | os.O_CREAT, 0o644)
        except OSError as error:
            raise StoreError(f"{path}: {error}") from None

    def take(self) -> None:
        """`Unknown` where others have it for too long."""
        if not self._turn.acquire(blocking=False) and not self._turn.acquire(timeout=LONGEST_WAIT):
            raise Unknown(f"{self._path}: a thread of this process has the file for long")
        try:
            if self._is_closed:
                raise StoreError("the store is closed")
            if self._waits or not self._is_free():
                self._wait()
        except BaseException:
            self._turn.release()
            raise

    def give(self) -> None:
        """Lets the next one have it."""
        try:
            fcntl.flock(self._file, fcntl.LOCK_UN)
        finally:
            self._turn.release()
        if self._is_closed:
            self._let_go()

    def _is_free(self) -> bool:
        try:
            fcntl.flock(self._file, fcntl.LOCK_EX | fcntl.LOCK_NB)
            return True
        except BlockingIOError:
            return False

    def _wait(self) -> None:
        with self._change:
            if self._waiter is None:
                waiter = threading.Thread(target=self._run, name="cf-line", daemon=True)
                try:
                    waiter.start()
                except RuntimeError as error:
                    raise Unknown(f"{self._path}: another process has the file, and no thread can wait for it: {error}") from None
                self._waiter = waiter
            self._waits = self._is_wanted = True
            self._change.notify_all()
            has = False
            try:
                has = self._change.wait_for(lambda: self._has, LONGEST_WAIT)
            finally:
                if self._has and not has:  # by a signal's handler that raised
                    fcntl.flock(self._file, fcntl.LOCK_UN)
                self._has = self._is_wanted = False
        if not has:
            raise Unknown(f"{self._path}: another process has the file for {LONGEST_WAIT:.0f} s")

    def _run(self) -> None:
        while True:
            with self._change:
                self._change.wait_for(lambda: self._waits or self._is_closed)
                if not self._waits:
                    return
            fcntl.flock(self._file, fcntl.LOCK_EX)
            with self._change:
                self._has = self._is_wanted
                if not self._has:  # it was given up meanwhile
                    fcntl.flock(self._file, fcntl.LOCK_UN)
                self._waits = False  # (last: until then nobody else may take it)
                self._change.notify_all()
                if self._is_closed:
                    self._let_go()

    def close(self) -> None:
        """Lets the file go, or lets the last one do it who has it or waits for it."""
        with self._change:
            self._is_closed = True
            self._change.notify_all()
        self._let_go()

    def _let_go(self) -> None:
        with self._change:
            if self._file >= 0 and not self._waits and self._turn.acquire(blocking=False):
                os.close(self._file)
                self._file = -1
                self._turn.release()


class _InLine:
    """A place in the line. What a store is given raises is told as its own."""

    def __init__(self, store: SQLite) -> None:
        self._store = store

    def __enter__(self) -> None:
        self._store.check_may_put()
        self._store._line.take()

    def __exit__(self, _kind: object, error: Optional[BaseException], _trace: object) -> None:
        self._store._line.give()
        if error is not None:
            self._store._tell(error)


class _Telling:
    """What SQLite raises within it is told as the store's own."""

    def __init__(self, store: SQLite) -> None:
        self._store = store

    def __enter__(self) -> None:
        ...

    def __exit__(self, _kind: object, error: Optional[BaseException], _trace: object) -> None:
        if error is not None:
            self._store._tell(error)


class _Transaction(Transaction):
    def __init__(self, store: SQLite, connection: sqlite3.Connection) -> None:
        self.connection, self._store = connection, store

    def append(self, put: Put) -> bool:
        with self._store._telling:
            try:
                self.connection.execute("release savepoint cf_function")
            except sqlite3.OperationalError:
                raise StoreError("the function has ended its transaction") from None
            return _put(self.connection, self._store._id_of(put), put)

    def commit(self) -> None:
        with self._store._telling:
            self.connection.execute("commit")


def _is_away(error: sqlite3.Error) -> bool:
    """Whether SQLite can't do it now. Before Python 3.11 its code isn't told, but the class is so by it."""
    code = getattr(error, "sqlite_errorcode", None)
    return isinstance(error, sqlite3.OperationalError) if code is None else code & 0xFF in sql.AWAY


def _is_there(db: sqlite3.Connection, request: int) -> bool:
    """Whether a request wasn't dropped."""
    return bool(db.execute(sql.IS_THERE, {"request": request}).fetchall())


def _bytes(payload: Any) -> bytes:
    """A payload, which may be a text where somebody wrote it by hand."""
    return payload if isinstance(payload, bytes) else str(payload).encode()


def _value(number: int, put: Put, k: int) -> Dict[str, Any]:
    """What `PUT` takes for a put's k-th word."""
    word, token = put.entries[k]
    return {"request": number, "at": put.at + k, "word": word, "token": token, "payload": put.payloads.get(put.at + 1 + k)}


def _put(db: sqlite3.Connection, request: int, put: Put) -> bool:
    """Puts a group in a transaction that holds the file: whether it landed."""
    for k in range(len(put.entries)):
        value, large = _value(request, put, k), None
        if len(value["payload"] or b"") > SMALL:
            large, value["payload"] = value["payload"], None
        if not db.execute(sql.PUT, value).rowcount:
            return False  # the first: nothing stands behind a place that is free, so none of the group was put
        if large is not None:
            db.execute(sql.PUT_LARGE, {"request": request, "place": put.at + 1 + k, "payload": large})
    if put.opens:
        db.execute(sql.OPEN_AGAIN, {"request": request})
    return True
