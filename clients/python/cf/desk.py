"""Desks: graphs that callers on several threads share without a lock."""
import ctypes as c
import threading
from typing import Iterable, Optional, Tuple

from ._library import CDeskSizes, CHandle, CNow, COutcome, in_range
from .closed import Closed
from .graph import settled_outcome, value_of
from .handle import GraphCalls, Handle
from .plan import Plan
from .values import Cancelled, Code, Fault, Misfit, Now, NowKind, Outcome, Refused, Value, given_in, now_out, outcome_out, value_in


class InUse(RuntimeError):
    """Another thread has the caller."""


class _Own:
    """A lock that isn't waited for."""

    def __init__(self) -> None:
        self._lock = threading.RLock()

    def __enter__(self) -> None:
        if not self._lock.acquire(blocking=False):
            raise InUse("another thread has the caller")

    def __exit__(self, *_cause: object) -> None:
        self._lock.release()


class Caller(GraphCalls):
    """A caller of a desk. Only one thread at a time may use it: for a whole `with caller:` block, or outside of one
    for a single call. Meanwhile another thread's call on it raises `InUse`. What a caller does and reads is recorded,
    until it holds as many records as the desk was opened with: any more is refused as `PASS_FULL`, and a changing call
    as `LOG_FULL` where the desk's log is full."""

    _prefix, _ready = "cf_desk_", "cf_desk_ready"

    def __init__(self, handle: CHandle, desk: object) -> None:
        super().__init__(handle)
        self._lock = _Own()
        self._desk = desk  # which it is of
        self.number: int = self._call_for("cf_desk_caller", c.c_uint8()).value

    def __enter__(self) -> "Caller":
        self._lock.__enter__()
        return self

    def __exit__(self, *_cause: object) -> None:
        self._lock.__exit__(None, None, None)

    def complete_all(self, given: Iterable[Tuple[int, Value]]) -> None:
        """Completes stages with their values, one after another, in one call. The first that is refused raises
        `Misfit` with NO_STAGE, PASS_FULL or LOG_FULL."""
        row, done = given_in(given), c.c_size_t()
        try:
            self._call("cf_desk_complete_many", row, len(row), c.byref(done))
        except Refused as refused:
            if refused.code in (Code.NO_STAGE, Code.PASS_FULL, Code.LOG_FULL):
                raise Misfit(refused.code, done.value) from None
            raise

    def read(self, stage: int) -> Optional[Outcome]:
        """What a stage is settled with, if it is, after a look at all that is there."""
        return outcome_out(self._call_for("cf_desk_read", COutcome(), stage))

    def read_now(self, stage: int, absent: Value = None) -> Now:
        """What a stage gives at present, `absent` where it isn't settled, after a look."""
        return now_out(self._call_for("cf_desk_read_now", CNow(), stage, value_in(absent)))

    def join(self, stage: int, looks: int = 1) -> Now:
        """Looks until the stage is settled, at most so many times, and tells what it gives then. The last look is
        recorded. Other threads of Python run meanwhile."""
        return now_out(self._call_for("cf_desk_join", CNow(), stage, looks))

    def meet(self, other: "Caller") -> None:
        """Lets two callers of one desk, both in this thread's hands, see the longer of what either has seen.
        `Refused` has OTHER_DESK where they are of two: the library can't always tell that while other threads have
        the second one's callers."""
        if other._desk is not self._desk:
            raise Refused(Code.OTHER_DESK)
        with other._lock:
            if other is not self:
                self._call("cf_desk_meet", other._at)

    def seen_count(self) -> int:
        """How many events it has seen."""
        return self._call_for("cf_desk_seen", c.c_uint16()).value

    def records_left(self) -> int:
        """How many records it still takes."""
        return self._call_for("cf_desk_left", c.c_uint16()).value

    def future(self, stage: int) -> "SharedFuture":
        """A view of a stage by this caller."""
        return SharedFuture(self, stage)


class SharedFuture:
    """A view of a stage by a caller: as much of `concurrent.futures.Future` as a desk has. It looks by reads and
    joins of its caller, which records them, until it has found the stage settled; from then on it needs none."""

    def __init__(self, caller: Caller, stage: int) -> None:
        self._caller = caller
        self.stage: int = stage
        self._known: Optional[Outcome] = None

    def done(self) -> bool:
        """Whether the stage is settled."""
        return self._outcome(1) is not None

    def cancel(self) -> bool:
        """Cancels the stage, and says whether it is cancelled then."""
        return self._caller.cancel(self.stage)

    def cancelled(self) -> bool:
        """Whether the stage was cancelled itself."""
        outcome = self._outcome(1)
        return outcome is not None and isinstance(outcome.fault, Cancelled) and not outcome.fault.wrapped

    def exception(self, looks: int = 1) -> Optional[Fault]:
        """The stage's fault, or None. A stage that isn't settled after so many looks raises `InvalidStateError`."""
        return settled_outcome(self._outcome(looks), self.stage).fault

    def result(self, looks: int = 1) -> Value:
        """The stage's value; its fault is raised. A stage that isn't settled after so many looks raises
        `InvalidStateError`."""
        return value_of(settled_outcome(self._outcome(looks), self.stage))

    def _outcome(self, looks: int) -> Optional[Outcome]:
        if self._known is None and (looks <= 1 or self._caller.join(self.stage, looks).kind is not NowKind.ABSENT):
            self._known = self._caller.read(self.stage)
        return self._known


class Desk:
    """The callers of one desk, by their numbers: one for each thread. At the end of a `with` those that weren't given back
    are freed. A call that has returned before another caller's call begins comes before it in the history; that is
    tested, and not proved. It is proved that a caller's calls come after all that it has seen. Notices aren't there in
    Python."""

    def __init__(self, plan: Plan, callers: int, log: int, calls: int, room: int = 0, functions: Optional[int] = None) -> None:
        handles = (CHandle * callers)()
        if room == 0 and functions is None:
            plan.build()._call("cf_desk_open", handles, callers, log, calls)
        else:
            any_number = 2**16 if functions is None else functions
            sizes = CDeskSizes(in_range(log, 0xFFFF), in_range(calls, 0xFFFF), in_range(room, 0xFFFF), in_range(any_number, 0xFFFFFFFF))
            plan.build()._call("cf_desk_open_with", handles, callers, c.byref(sizes))
        desk = object()
        self.callers: Tuple[Caller, ...] = tuple(Caller(handle, desk) for handle in handles)
        self._left = list(self.callers)
        self._closing: Optional[Handle] = None
        self._lock = threading.Lock()

    def close(self, callers: Optional[Iterable[Caller]] = None) -> Closed:
        """Gives these callers back, or else all that weren't yet, and ends the desk: what its callers did is one
        history, and what they were told is recorded. `NOT_ALL` where callers are missing, which may be given back
        later, and `OTHER_DESK` of one of another desk; those before it stay given back."""
        with self._lock:
            for caller in list(self._left) if callers is None else callers:
                self._give_back(caller)
            if self._closing is None:
                raise Refused(Code.NOT_ALL if self._left else Code.EMPTY)
            self._closing._call("cf_close_end")
            closed, self._closing = self._closing, None
            return Closed(closed._let_go(), len(self.callers))

    def __enter__(self) -> "Desk":
        return self

    def __exit__(self, *_cause: object) -> None:
        for caller in self._left:
            caller.close()
        if self._closing is not None:
            self._closing.close()

    def _give_back(self, caller: Caller) -> None:
        if all(caller is not own for own in self.callers):
            raise Refused(Code.OTHER_DESK)
        with caller._lock:
            if self._closing is None:
                caller._call("cf_close_begin")
                self._closing = Handle(caller._let_go())
            else:
                self._closing._call("cf_close_add", caller._at)
        self._left.remove(caller)
