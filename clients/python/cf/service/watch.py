"""A service that somebody else runs, move by move, and that tells all that is done to its stages.

`Service(watch=..)` and `LoopService(.., watch=..)` take a `Watch`. It stands in the place of the threads and the
clock: it decides when a ready function is claimed, called and finished, when a callback is called and when a limit
passes. It is told of each event and of each read, and whatever would wait asks it to. `cf.testing` tries all orders
so.

All methods of a watch are called on the thread that makes the change, reads or waits. Nothing here has a lock of
its own, so one thread at a time may be within a service that is watched.
"""
import asyncio
import concurrent.futures
import functools
from array import array
from typing import Any, Callable, Dict, List, Optional, Protocol, Sequence, Set, Tuple, TypeVar, cast

from ._core import set_caller
from .ending import Ends
from .history import Describe, History
from .relays import Hold, is_relay, is_release
from .contexts import AT_WORK
from .request import Request
from .scope import Scope
from .stage import Stage
from .words import COMPOSE_FORMS, GIVES, LINKS, THROWS

T = TypeVar("T")


class Watch(Protocol):
    """Runs a service in place of threads and a clock, and is told what is done to its stages."""

    @property
    def is_busy(self) -> bool:
        """Whether a function is ready or runs."""

    def now(self, request: Request) -> float:
        """The seconds that have passed for a request. Its history has them."""

    def on_opened(self, request: Request) -> None:
        """A request was opened."""

    def on_attached(self, stage: "Stage[Any]", of: "Sequence[Stage[Any]]") -> None:
        """A stage was attached behind others."""

    def on_changed(self, stage: "Stage[Any]", did: bool) -> None:
        """Somebody wanted to settle a stage, and did or was too late."""

    def on_claimed(self, stage: "Stage[Any]") -> None:
        """Somebody wanted to run a stage's function."""

    def on_finished(self, stage: "Stage[Any]", to: "Optional[Stage[Any]]") -> None:
        """A stage's function has ended; the stage waits for another one, if that is given."""

    def on_settled(self, stage: "Stage[Any]") -> None:
        """A stage was settled by the event that is told next."""

    def on_callbacks(self, stage: "Stage[Any]", calls: "List[Callback]", at_once: bool) -> None:
        """The callbacks of a settled stage are to be called, one after another; here and now if they have to."""

    def on_ready(self, task: "ReadyStage") -> None:
        """A stage's function is ready to be run."""

    def on_read(self, stage: "Stage[Any]") -> None:
        """Somebody looks at a stage."""

    def on_linked(self, relay: "Stage[Any]", future: "concurrent.futures.Future[Any]") -> None:
        """A stage is to end as a future does that stands elsewhere."""

    def on_history_read(self, request: Request) -> None:
        """Somebody looks at all that happened to a request."""

    def on_limit(self, stage: "Stage[Any]", seconds: float, act: Callable[[], object]) -> None:
        """A stage gets a time limit, after which something is to be done."""

    def wait(self, stages: "Sequence[Stage[Any]]", is_over: Callable[[], bool], timeout: Optional[float]) -> None:
        """Comes back once something is so, which stages decide, or so many seconds have passed."""


class Callback:
    """A callback of a stage. `is_relay` says that it is the layer's own, and hands the outcome on to other requests."""

    def __init__(self, stage: "Stage[Any]", fn: Callable[[Any], object]) -> None:
        self.stage, self.fn, self.is_relay = stage, fn, is_relay(fn)

    def __call__(self) -> None:
        self.fn(self.stage)


class ReadyStage:
    """A stage that is ready, which is run in three steps: `claim`, `call`, `finish`."""

    def __init__(self, stage: "Stage[Any]") -> None:
        self.stage: "Stage[Any]" = stage
        self.fn: Optional[Callable[..., Any]] = None  # once it is claimed
        self.error: Optional[BaseException] = None  # what the function raised
        self._who, self._kind = 0, GIVES
        self._given: Any = None
        self._args: Tuple[Tuple[Any, ...], Dict[str, Any]] = ((), {})

    def claim(self, who: int) -> bool:
        """Claims it for a caller, whose number histories tell, and says whether the function is to be called."""
        begun = self.stage.request._begin(who, self.stage)
        if begun is None:
            return False
        self._who, self.fn, self._args = who, begun[1], begun[2:]
        return True

    def call(self, leaves: Tuple[type, ...] = ()) -> None:
        """Calls the function, and keeps what it returns or raises. Only what `leaves` names is raised."""
        assert self.fn is not None
        set_caller(self._who)
        before = AT_WORK.set(self.stage)
        try:
            args, kwargs = self._args
            self._given = self.fn(*args, **kwargs)
        except BaseException as error:
            if isinstance(error, leaves):
                raise
            self._kind, self._given, self.error = THROWS, error, error
        finally:
            AT_WORK.reset(before)
            set_caller(0)

    def finish(self) -> "Optional[ReadyStage]":
        """Finishes the stage. A stage that became ready by that, which is run once the callbacks were called."""
        stage, request = self.stage, self.stage.request
        if self._kind == GIVES and stage._form in COMPOSE_FORMS:
            goes_on = request._link(stage, self._who, self._given)
        else:
            goes_on = request._end(stage, self._who, self._kind, self._given)
        return cast(WatchedRequest, request)._task() if goes_on else None


class WatchedWorks:
    """What `Works` is to a request, where a watch runs the service."""

    belongs_to_parent, loop = False, None

    def __init__(self, watch: Watch, describe: Describe) -> None:
        self.watch, self.describe, self.closed = watch, describe, False
        self.ends: Optional[Ends] = None  # (such a service has no hook)

    @property
    def clock(self) -> "WatchedWorks":
        return self

    def now(self, request: Request) -> int:
        """In nanoseconds."""
        return int(self.watch.now(request) * 1e9)

    def ask_for_alarm(self, request: Request, moment: Optional[int] = None) -> None:
        """The watch knows each limit, and rings by itself."""

    def refusal(self) -> RuntimeError:
        return RuntimeError("cannot schedule new futures after shutdown")

    def put(self, request: Request) -> bool:
        if self.closed and not self.watch.is_busy:
            return False
        self.watch.on_ready(cast(WatchedRequest, request)._task())
        return True

    def stop(self, stage: "Stage[Any]") -> None:
        """(The watch calls the function.)"""

    def stopped(self) -> "Dict[asyncio.Task[None], Stage[Any]]":
        return {}

    def close(self) -> None:
        self.closed = True

    def cancel_all(self) -> None:
        """What is ready is told as any other change."""

    def join(self) -> None:
        self.watch.wait((), lambda: not self.watch.is_busy, None)


class WatchedRequest(Request):
    """A request that tells a watch what is done to it. A watch that runs the functions chooses among the stages that
    are ready, so each of them is told by itself."""

    def __init__(self, works: Any, title: str, room: int, keeps: object = None, plan: Any = None) -> None:
        super().__init__(works, title, room, keeps, plan)
        self._chooses = not self._is_on_loop
        self._moments = array("q")
        self._told_ready: Set[int] = set()
        self._own = 0  # of these the one whose turn is the caller's
        self._limits: Dict[int, Stage[Any]] = {}  # stages with limits that haven't come, by their moments
        works.watch.on_opened(self)

    @property
    def watch(self) -> Watch:
        """Who is told."""
        return cast(WatchedWorks, self._works).watch

    @property
    def _is_on_loop(self) -> bool:
        return not isinstance(self._works, WatchedWorks)

    def history(self) -> History:
        self.watch.on_history_read(self)
        return super().history()

    def _facts(self) -> Any:
        self._date()
        words, _, *others = super()._facts()
        return (words, self._moments[:], *others)

    def _look(self) -> "Tuple[List[Tuple[int, int, int, int, int]], array[int], int]":
        self.watch.on_history_read(self)
        self._date()
        return self._open_stages(), self._moments[:], int(self.watch.now(self) * 1e9)

    def _date(self) -> None:
        """Those events that have no time yet were done now."""
        moment = int(self.watch.now(self) * 1e9)
        self._moments.extend([moment] * (self._events - len(self._moments)))

    # Which stages are ready.

    def _choose(self) -> Optional[int]:
        """A stage that is ready and wasn't told."""
        news = [number for number in self._ready_stages() if number not in self._told_ready]
        self._told_ready.update(news[:1])
        return news[0] if news else None

    def _task(self) -> ReadyStage:
        """The stage whose turn is the caller's."""
        return ReadyStage(self._stage(self._own))

    def _take_turn(self) -> bool:
        chosen = self._choose()
        self._own = self._own if chosen is None else chosen
        return chosen is not None

    def _give_chosen_turns(self) -> None:
        own = self._own
        for self._own in iter(self._choose, None):
            if not self._works.put(self):
                self._refuse_ready()
        self._own = own

    # What is done.

    def _open(self) -> None:
        for number in range(self._stages):
            _meet(self._stage(number))
        plan = self._plan
        for number, (_, of, _, _) in enumerate([] if plan is None else plan.rows):
            self.watch.on_attached(self._stage(number), [self._stage(source) for source in of])
        super()._open()

    def _attach(
        self,
        form: int,
        first: "Optional[Stage[Any]]",
        second: "Optional[Stage[Any]]",
        call: Optional[Callable[..., Any]],
        args: Optional[Tuple[Any, ...]],
        kwargs: Optional[Dict[str, Any]],
        name: str,
        scope: Optional[int] = None,
        /,
    ) -> "Stage[Any]":
        self._read_scope(self._scope_of(first.number) if scope is None and first is not None else scope)
        stage = super()._attach(form, first, second, call, args, kwargs, name, scope)
        self._date()
        if form in COMPOSE_FORMS:
            self._meet(self._stage(stage.number - 1), ())
        self._meet(stage, [source for source in (first, second) if source is not None])
        return stage

    def _gather(self, form: int, of: "Sequence[Stage[Any]]", name: str, scope: Optional[int] = None) -> "Stage[Any]":
        self._read_scope(scope)
        first = self._stages
        root = super()._gather(form, of, name, scope)
        self._date()
        self._meet(self._stage(first), of[:2])
        for number in range(first + 1, root.number + 1):
            self._meet(self._stage(number), (self._stage(number - 1), of[number - first + 1]))
        return root

    def _read_scope(self, scope: Optional[int]) -> None:
        """A stage is to be attached in a scope, unless that has ended."""
        around: Optional[Scope] = getattr(self, "_around", None)
        if scope is not None or around is not None:
            self.watch.on_read(around._stage if scope is None and around is not None else self._stage(cast(int, scope)))

    def _join(self, stage: "Stage[Any]", wanted: int, of: "Sequence[Stage[Any]]") -> None:
        super()._join(stage, wanted, of)
        self._date()
        self.watch.on_attached(stage, of)

    def _end_with(self, scope: "Stage[Any]", stage: "Stage[Any]") -> None:
        super()._end_with(scope, stage)
        self._date()
        self.watch.on_attached(scope, [stage])

    def _meet(self, stage: "Stage[Any]", of: "Sequence[Stage[Any]]") -> None:
        _meet(stage)
        scope = self._scope_of(stage.number)
        self.watch.on_attached(stage, of if scope is None else [*of, self._stage(scope)])

    def _look_within(self, scope: int) -> Tuple[bool, bool, List[int]]:
        self.watch.on_history_read(self)
        return super()._look_within(scope)

    def _wait_within(self, scope: int) -> List[BaseException]:
        failures = self._failures_within(scope)
        while failures is None:
            stages = [self._stage(number) for number in range(scope + 1, self._stages) if self._is_within(number, scope)]
            self.watch.wait(stages, lambda: self._failures_within(scope) is not None, None)
            failures = self._failures_within(scope)
        return failures

    def _change(self, kind: int, who: int, stage: "int | Stage[Any]", given: Any) -> bool:
        its = self._stage(stage) if isinstance(stage, int) else stage
        self.watch.on_read(its)
        did = super()._change(kind, who, stage, given)
        self._date()
        self.watch.on_changed(its, did)
        return did

    def _begin(self, who: int, stage: "Optional[Stage[Any]]" = None) -> Any:
        begun = super()._begin(who, stage)
        self._date()
        its = stage if begun is None else begun[0]
        if its is not None:
            self.watch.on_claimed(its)
        return begun

    def _end(self, stage: "Stage[Any]", who: int, kind: int, given: Any) -> bool:
        goes_on = super()._end(stage, who, kind, given)
        self._date()
        self.watch.on_finished(stage, given if kind == LINKS else None)
        return goes_on

    def _relay_of(self, future: "concurrent.futures.Future[T]", holds: List[Hold], scope: Optional[int] = None) -> "Stage[T]":
        relay = super()._relay_of(future, holds, scope)
        if relay is not future:
            self.watch.on_linked(relay, future)
        return relay

    def _follow_within(self, relay: int, number: int) -> None:
        super()._follow_within(relay, number)
        self._date()
        its = self._stage(relay)
        self.watch.on_changed(its, is_settled(its))

    def _follow(self, stage: "Stage[Any]", relay: "Stage[Any]", to: "concurrent.futures.Future[Any]") -> None:
        super()._follow(stage, relay, to)
        self.watch.on_linked(relay, to)

    def _limit(self, stage: "Stage[Any]", seconds: float, gives: Any, is_value: bool) -> int:
        moment = super()._limit(stage, seconds, gives, is_value)
        self._limits[moment] = stage
        if not self._is_on_loop:
            self.watch.on_limit(stage, seconds, lambda: self._let_pass(stage, moment))
        return moment

    def _moment_after(self, seconds: float) -> int:
        """A moment that no other limit has: each passes by itself."""
        moment = super()._moment_after(seconds)
        while moment in self._limits:
            moment += 1
        return moment

    def _let_pass(self, stage: "Stage[Any]", moment: int) -> None:
        """The limit of a stage passes, which may be settled by now."""
        if is_settled(stage):
            self.watch.on_changed(stage, False)
        else:
            self._ring(moment)

    def _ring(self, now: int) -> None:
        due = [self._limits.pop(moment) for moment in sorted(self._limits) if moment <= now]
        still_open = [stage for stage in due if not is_settled(stage)]
        super()._ring(now)
        self._date()
        for stage in still_open:
            self.watch.on_changed(stage, True)


class WatchedStage(Stage[T]):
    """A stage that tells a watch who reads it and who waits for it."""

    _calls: List[Callable[[Any], object]]

    def done(self) -> bool:
        _watch_of(self).on_read(self)
        return super().done()

    def cancelled(self) -> bool:
        _watch_of(self).on_read(self)
        return super().cancelled()

    def running(self) -> bool:
        _watch_of(self).on_read(self)
        return super().running()

    def result(self, timeout: Optional[float] = None) -> T:
        self._awaited(timeout)
        return super().result(0)

    def exception(self, timeout: Optional[float] = None) -> Optional[BaseException]:
        self._awaited(timeout)
        return super().exception(0)

    def add_done_callback(self, fn: Callable[[Any], object]) -> None:
        watch = _watch_of(self)
        watch.on_read(self)
        if not is_settled(self):
            _meet(self)
            self._calls.append(fn)
        elif not is_release(fn):
            watch.on_callbacks(self, [Callback(self, fn)], True)

    def _awaited(self, timeout: Optional[float]) -> None:
        watch = _watch_of(self)
        watch.on_read(self)
        if not is_settled(self) and timeout != 0:
            watch.wait((self,), functools.partial(is_settled, self), timeout)

    # What `concurrent.futures.wait` and `as_completed` wait by.

    @property
    def _waiters(self) -> Any:
        waiting: _Waiters = self.__dict__.setdefault("_waiting", _Waiters(self))
        return waiting

    @_waiters.setter
    def _waiters(self, _: object) -> None:
        """(`concurrent.futures` makes a list of its own.)"""

    @property
    def _condition(self) -> Any:
        _watch_of(self).on_read(self)
        return super()._condition

    @_condition.setter
    def _condition(self, condition: Any) -> None:
        super(WatchedStage, type(self))._condition.__set__(self, condition)  # type: ignore[attr-defined]


WatchedRequest._stage_class = WatchedStage


class _Waiters(List[Any]):
    """Those who wait for a stage by an event, which is the watch's."""

    def __init__(self, stage: "Stage[Any]") -> None:
        super().__init__()
        self._stage = stage

    def append(self, waiter: Any) -> None:
        _watch_of(self._stage).on_read(self._stage)
        if not isinstance(waiter.event, _Event):
            waiter.event = _Event(_watch_of(self._stage), waiter.event.is_set())
        waiter.event.stages.append(self._stage)
        super().append(waiter)


class _Event:
    """A `threading.Event` that asks a watch to wait."""

    def __init__(self, watch: Watch, is_set: bool) -> None:
        self._watch, self._is_set = watch, is_set
        self.stages: "List[Stage[Any]]" = []

    def is_set(self) -> bool:
        return self._is_set

    def set(self) -> None:
        self._is_set = True

    def clear(self) -> None:
        self._is_set = False

    def wait(self, timeout: Optional[float] = None) -> bool:
        if not self._is_set and timeout != 0:
            self._watch.wait(tuple(self.stages), self.is_set, timeout)
        return self._is_set


def is_settled(stage: "Stage[Any]") -> bool:
    """Whether a stage is settled, which no watch is told of."""
    return super(WatchedStage, stage).done() if isinstance(stage, WatchedStage) else stage.done()


def _watch_of(stage: "Stage[Any]") -> Watch:
    return cast(WatchedRequest, stage.request).watch


def _meet(stage: "Stage[Any]") -> None:
    """Sees to it that a stage tells when it is settled."""
    if "_calls" not in stage.__dict__:
        stage.__dict__["_calls"] = []
        if not is_settled(stage):
            super(WatchedStage, cast("WatchedStage[Any]", stage)).add_done_callback(_tell)


def _tell(stage: Any) -> None:
    watch = _watch_of(stage)
    watch.on_settled(stage)
    calls, stage.__dict__["_calls"] = stage.__dict__["_calls"], []
    for call in filter(is_release, calls):
        call(stage)
    told = [Callback(stage, call) for call in calls if not is_release(call)]
    if told:
        watch.on_callbacks(stage, told, cast(WatchedRequest, stage.request)._is_on_loop)
