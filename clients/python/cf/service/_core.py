"""Plans, requests and stages over the C module: what of them isn't hot. `native/_cf.c` has the rest."""
import asyncio
import ctypes as c
import os
import threading
from array import array
from concurrent.futures import CancelledError, _base
from types import TracebackType
from typing import TYPE_CHECKING, Any, Callable, ClassVar, Dict, List, NoReturn, Optional, Sequence, Tuple, Type

from ..plan import Plan
from ..values import BadAnswer, Form
from .history import escaped
from .waits import Bell, LoopBell
from .words import ATTACH, CANCEL, CANCELLED, CLOCK, COMPOSE_FORMS, FAIL_AS, JOIN, MOST_EDGES, MOST_STAGES, PENDING, RELAY, TIMED_OUT, VALUE
from .words import RequestFull, ScopeEnded

try:
    from .. import _cf
except ImportError as error:
    raise ImportError(
        f"cf.service needs its C module, cf._cf: {error}. To install it: CF_LIBRARY_DIR=/folder/of/libcf.a pip install clients/python, "
        "or pip install of a wheel. To build it in a clone: cd clients/python && CF_LIBRARY_DIR=/folder/of/libcf.a "
        "python3 setup.py build_ext --inplace"
    ) from error

if TYPE_CHECKING:
    from .request import Works
    from .stage import Stage

set_caller, is_thread_stopping = _cf.set_caller, _cf.is_stopping
_LONGEST = 9e9  # seconds, over 280 years
if hasattr(os, "register_at_fork"):
    os.register_at_fork(after_in_child=_cf.forked)


class Limit:
    """A time limit by which a stage fails. It stands among the exceptions of its request, in the place by which the
    machine's deadline names it, and makes the exception once somebody asks for that."""

    def __init__(self, stage: int, seconds: float) -> None:
        self.stage, self.seconds = stage, seconds

    def error_in(self, request: "RequestCore") -> BaseException:
        """Its exception, the same each time."""
        made: BaseException = self.__dict__.setdefault(
            "made", TimeoutError(f"{escaped(request._names[self.stage])} took longer than {self.seconds} s")
        )
        return made


class LimitValue:
    """What a time limit gives a stage. It stands among the values of its request until the stage is settled otherwise."""

    __slots__ = ("request", "number", "value")

    def __init__(self, request: "RequestCore", value: Any) -> None:
        self.request, self.number, self.value = request, request._add_value(value), value

    def release(self, stage: Any) -> None:
        """Lets go of it where the stage has ended with something else."""
        if stage._given is not self.value:
            self.request._values[self.number] = None


class PlanCore:
    """The plan of a flow.

    Attributes:
        rows: Form, sources, function and name of each stage.
        at: The address of its handle.
        most: How many stages a request of it may have: two edges are set aside for each that is attached.
        kept: What the module has of it: machines of requests that are over, for the next ones, and the functions and
            names of its stages."""

    __slots__ = ("rows", "at", "most", "kept", "_plan")

    def __init__(self, rows: Sequence[Tuple[int, Tuple[int, ...], Optional[Callable[..., Any]], str]]) -> None:
        self.rows = tuple(rows)
        if len(self.rows) > MOST_STAGES:
            raise RequestFull("a request has at most 4,096 stages")
        edges = sum(len(of) for _, of, _, _ in self.rows)
        if edges > MOST_EDGES:
            raise RequestFull("a flow has at most 16,384 mentions of sources")
        self._plan = Plan()
        for number, (form, of, call, _) in enumerate(self.rows):
            self._plan.stage(Form(form), *of, function=None if call is None else number)
        self.at: int = c.addressof(self._plan.build()._handle)
        self.most: int = min(MOST_STAGES, len(self.rows) + (MOST_EDGES - edges) // 2)
        forms, _, calls, names = zip(*self.rows) if self.rows else ((), (), (), ())
        self.kept = _cf.pool(self._plan, self.at, self.most, bytes(forms)), calls, list(names)


_nothing = PlanCore([])


class RequestCore(_cf.RequestCore):
    """A request of the module, which has no lock of its own: each call there is one step for all threads.

    Attributes:
        _stage_class: The class of its futures."""

    __slots__ = ("_title", "_keeps", "_plan", "__weakref__")
    _stage_class: "ClassVar[Type[Stage[Any]]]"

    if TYPE_CHECKING:
        _traces: Dict[int, Tuple[BaseException, Optional[TracebackType]]]

        def _link(self, stage: "Stage[Any]", who: int, to: Any) -> bool:
            ...

        def _take_turn(self) -> bool:
            ...

        def _give_chosen_turns(self) -> None:
            ...

    def __init__(self, works: "Works", title: str, room: int, keeps: object = None, plan: Optional[PlanCore] = None) -> None:
        pool, calls, names = (plan or _nothing).kept
        _cf.RequestCore.__init__(self, works, self._stage_class, room, pool, calls, names[:])
        self._title, self._keeps, self._plan = title, keeps, plan

    def _hand_over(self) -> None:
        """Gives somebody else the turn of this thread, which leaves."""
        try:
            self._works.put(self)
        except BaseException:  # an interrupt: a turn too many does nothing, and one too few leaves a function behind
            self._works.put(self)
            raise

    def _set_running(self, stage: "StageCore") -> Optional[bool]:
        """Lets nobody cancel it any more but `abandon`. None where it is settled otherwise or runs, else whether it
        does now."""
        with stage._condition:
            if stage._is_cancelled:
                return False
            if stage._ended or stage._runs:
                return None
            stage._runs = True
            return True

    def _name_of(self, number: int) -> str:
        return self._names[number]

    def _rename(self, number: int, name: str) -> None:
        self._names[number] = name

    @staticmethod
    def _refuse_stage() -> NoReturn:
        raise RequestFull("a request has at most 4,096 stages")

    def _refuse_scope(self, number: int) -> NoReturn:
        raise ScopeEnded(f"{escaped(self._name_of(number))} has ended: attach outside of it, or in another scope")

    def _gather(self, form: int, of: "Sequence[Stage[Any]]", name: str, scope: Optional[int] = None) -> "Stage[Any]":
        """Attaches stages that wait for all of these, or for one of them, and returns the last."""
        if any(source.request is not self for source in of):
            raise TypeError("no stage of this request")
        return self._attach_all(form, array("H", [source.number for source in of]).tobytes(), name, scope)

    def _join(self, stage: "Stage[Any]", wanted: int, of: "Sequence[Stage[Any]]") -> None:
        """Lets a stage end once so many of these have values, or too few can have them still."""
        self._join_within(stage.number, wanted, array("H", [source.number for source in of]).tobytes(), False)

    def _end_with(self, scope: "Stage[Any]", stage: "Stage[Any]") -> None:
        """Lets a scope end, whose stage is given, as soon as another stage does."""
        self._join_within(scope.number, 1, array("H", [stage.number]).tobytes(), True)

    def _is_within(self, number: int, scope: int) -> bool:
        """Whether a stage is of a scope or of one within it."""
        its = self._scope_of(number)
        return its == scope or its is not None and self._is_within(its, scope)

    def _failures_within(self, scope: int) -> Optional[List[BaseException]]:
        """The exceptions of the stages within a scope that failed and that nobody takes over; none once all are settled, and
        None as long as one is open."""
        is_open, _, failed = self._look_within(scope)
        errors = {id(error): error for error in (self._stage(number)._error() for number in failed)}
        return None if is_open and not failed else list(errors.values())

    def _wait_within(self, scope: int) -> List[BaseException]:
        """Waits until all stages within a scope are settled, or some have failed that nobody takes over: their exceptions."""
        bell = Bell()
        self._hang(bell)
        try:
            failures = self._failures_within(scope)
            while failures is None:
                bell.wait()
                failures = self._failures_within(scope)
        finally:
            self._take_down(bell)
        return failures

    async def _await_within(self, scope: int) -> List[BaseException]:
        """The same on an event loop."""
        failures = self._failures_within(scope)
        while failures is None:
            bell = LoopBell(asyncio.get_running_loop())
            self._hang(bell)
            try:
                failures = self._failures_within(scope)
                if failures is None:
                    await bell.end
            finally:
                self._take_down(bell)
        return failures

    @staticmethod
    def _default_error(kind: int) -> BaseException:
        """A new exception for an outcome of this kind."""
        return CancelledError() if kind == CANCELLED else TimeoutError() if kind == TIMED_OUT else BadAnswer()

    def _made_error(self, given: Any, kind: int) -> BaseException:
        """The exception of an outcome of this kind: that of a time limit, or a new one where nobody gave one."""
        made: BaseException = given.error_in(self) if type(given) is Limit else self._default_error(kind) if given is None else given
        return made

    def _as_first_raised(self, error: BaseException) -> BaseException:
        """Resets an exception's traceback to what it was at its first raise here: each raise adds frames, and stages
        share the exception."""
        if not hasattr(self, "_traces"):
            self._traces = {}
        return error.with_traceback(self._traces.setdefault(id(error), (error, error.__traceback__))[1])

    def _refuse_ready(self) -> None:
        """Fails all ready stages, since nobody took a turn."""
        self._fail_ready(self._works.refusal())

    def _refuse(self, error: BaseException) -> None:
        """The same, and announces the stages that fail."""
        self._fail_ready(error)
        self._announce_settled()

    def _limit(self, stage: "Stage[Any]", seconds: float, gives: Any, is_value: bool) -> int:
        """Sets a deadline of a stage, after so many seconds, by which it gets a value or times out. Returns the moment.
        If it raises, nothing has changed."""
        clock, moment, number = self._works.clock, self._moment_after(seconds), -1
        clock.ask_for_alarm(self, moment)
        try:
            if not is_value:
                if not self._errors:
                    self._add_error(None)  # 0 is the code of those that have none
                number = self._add_error(Limit(stage.number, seconds))
            elif gives is not None:
                value = LimitValue(self, gives)
                number = value.number
                stage.add_done_callback(value.release)
            self._deadline(stage, moment, is_value, number)
        finally:
            clock.ask_for_alarm(self)  # (the stage may be settled by now)
        return moment

    def _moment_after(self, seconds: float) -> int:
        """The moment so many seconds from now."""
        now: int = self._works.clock.now(self)
        return now + int(min(max(seconds, 0), _LONGEST) * 1e9)

    def _set_alarm(self) -> None:
        """The machine's next deadline is another one, or none is left."""
        self._works.clock.ask_for_alarm(self)

    def _stop(self, stage: "Stage[Any]") -> None:
        """A stage was settled while its function still runs."""
        self._works.stop(stage)

    def _ring(self, now: int) -> None:
        """Lets time pass up to a moment: the machine settles the stages that are due."""
        try:
            self._pass(now)
        finally:
            self._works.clock.ask_for_alarm(self)

    def _ready_stages(self) -> List[int]:
        """The stages whose functions are ready."""
        found: List[int] = []
        number = self._next_ready(0)
        while number is not None:
            found.append(number)
            number = self._next_ready(number + 1)
        return found

    def _facts(self) -> "Tuple[array[int], array[int], List[str], List[Any], List[Optional[BaseException]]]":
        """The words, the time of each in nanoseconds, and names, values and errors."""
        words, times = array("Q", self._words()), array("q", self._times)
        del words[len(times) :]
        forms = [row[0] for row in (() if self._plan is None else self._plan.rows)]
        forms += [word >> 24 & 0xFF for word in words if word >> 56 == ATTACH]
        late = {word & 0xFFFFFFFF for word in words if word >> 56 == FAIL_AS}
        errors = [it if type(it) is not Limit else it.error_in(self) if number in late else None for number, it in enumerate(self._errors)]
        facts = words, times[: len(words)], self._names[: len(forms)], self._values[:], errors
        self._name_relays(words, forms)
        return facts

    def _name_relays(self, words: "array[int]", forms: List[int]) -> None:
        """Has RELAY as the caller of words that the machine did to a relay or a join, and of those by which a scope's end cancels."""
        for place, word in enumerate(words):
            stage = word >> 36 & 0xFFF
            is_own = word >> 48 & 0xFF == CLOCK
            if is_own and (word >> 56 == CANCEL or self._aid_of(stage) == JOIN or any(it in COMPOSE_FORMS for it in forms[stage + 1 : stage + 2])):
                words[place] = word ^ (CLOCK ^ RELAY) << 48


class StageCore(_cf.StageCore):
    """A future that tells what the request's machine has told of it."""

    _new_condition = staticmethod(threading.Condition)  # by which threads wait for it

    def running(self) -> bool:
        """Whether its function runs, or somebody said that it does."""
        return self._runs and not self._ended

    if TYPE_CHECKING:

        def _wait(self, timeout: Optional[float]) -> None:
            ...

    def _awaited_result(self, timeout: Optional[float] = None) -> Any:
        """`result`, where its value isn't there yet."""
        self._settle(timeout)
        if self._ended == VALUE:
            return self._given
        try:
            raise self.request._as_first_raised(self._error())
        finally:
            del self  # the traceback keeps this frame, which is to keep nothing

    def exception(self, timeout: Optional[float] = None) -> Optional[BaseException]:
        """Waits for its exception, or None."""
        self._settle(timeout)
        return None if self._ended == VALUE else self._error()

    def _settle(self, timeout: Optional[float]) -> None:
        """Waits until it is settled, and not cancelled."""
        self._take_over()
        if not self._ended:
            self._wait(timeout)
            if not self._ended:
                raise _base.TimeoutError
        if self._is_cancelled:
            raise CancelledError

    def _error(self) -> BaseException:
        """Its exception, the same each time."""
        given: Any = self._given
        if isinstance(given, BaseException):
            return given
        made: BaseException = self.__dict__.setdefault("_made_error", self.request._made_error(given, self._ended))
        return made

    @property
    def _state(self) -> str:
        if self._shown:
            return _base.CANCELLED_AND_NOTIFIED if self._is_cancelled else _base.FINISHED
        return _base.RUNNING if self._runs else _base.PENDING

    @property
    def _result(self) -> Any:
        return self._given if self._ended == VALUE else None

    @property
    def _exception(self) -> Optional[BaseException]:
        return None if self._ended in (PENDING, VALUE) or self._is_cancelled else self._error()
