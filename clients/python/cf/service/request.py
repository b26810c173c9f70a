"""A request: stages that belong together, of which one history is kept.

The design of `cf.service`, which this file leads through:

A request is one machine of the proved library (docs/REQUEST.md) and the Python objects that the machine knows by
numbers. The machine alone decides who may settle a stage, which stage is ready, which function is called next, and what
follows from a settled stage. The code here is its host: it hands words in, and applies the machine's answers to Python
objects.

What is kept where
    - `RequestCore` and `StageCore` are written in C (`native/_cf.c`), and what of them isn't hot in Python (`_core.py`):
      plans, names, relays within a request, time limits, refusals, words. A core has the machine; for each word its
      time; for each stage a row with form, future and outcome; and the lists of names, values and exceptions. A word
      names a value or an exception by its index in these lists. The future of a stage is in its row until the stage is
      settled, and has the function with its arguments until then.
    - `Request` and `Stage` inherit from the cores. They have the methods that users call, and relays of futures from
      outside the request. What attaches stages in a `Scope`, too, is in attaching.py.
    - Waiting and waking is in waits.py: threads, a clock, the waiters of a stage, the wake-up of a loop. `Works`
      (works.py) has the threads and the clock of a `Service`, `_LoopWorks` (loop.py) the event loop of a
      `LoopService`. A request sees both as the protocol `Works` below.

What guards what
    - A request has no lock. A call of the machine and its bookkeeping run no Python code and keep the interpreter's lock,
      so other threads see them as one step. No function and no callback of a user runs within that step.
    - `Threads._lock` is taken to start and to end threads. Nothing calls back under it.
    - Relays (relays.py) need no lock: the thread that takes a relay out of its row settles it.

What happens at a change (`_change`: complete, fail, cancel; also `_attach`, `_gather` and `_end`)
    1. The machine does one word, and names the stages that the word settled.
    2. Their outcomes are written into rows. So a thread that sees an outcome sees the outcomes of all earlier words.
    3. Wake the waiters of the settled stages, and those of `wait` and `as_completed`.
    4. If more functions are ready than there are turns, give the works further turns (`hand_on`). If nobody takes
       one, all ready stages fail with `Works.refusal`.
    5. Call the callbacks of the settled stages, in the thread that made the change. If one raises, the others are still
       called. An `Exception` is logged; the first of anything else is raised at the end.

A function from ready to finished
    A turn is the request itself, handed to the works by `Works.put`. It stands for one ready function, and doesn't say
    which. The thread or the loop that takes it calls `_run`. The machine claims the lowest ready stage and returns its
    function and arguments. The function is called, and the finish is one more word. If that makes a
    function ready that has no turn, the same thread goes on with it. There are at least as many turns as ready
    functions. If a ready stage is settled by somebody else, one turn is too many, and does nothing. A late finish
    changes nothing. A flow that one thread runs (`flow.run`) needs no turns: it goes on while the machine has a
    function (`_work`).

Relays
    A source has to be a stage of the same request. Any other future gets a relay: a source of this request that ends as
    the future does (`follow_future` in relays.py). The future keeps the relay, and so the request, until either is
    settled. If only one stage needed the relay, the relay is released once that stage is settled (`let_go_with`).

    A composing stage has a relay right below it. Its finish links to the stage that the function returned, if that is a
    lower one of this request, and else to the relay (`_link`). If the function returned a higher stage of this request,
    the machine lets the relay follow it (`_follow_within`), and else `follow_future` does (`_follow`).

Joins
    `first`, `all` and `quorum` attach a promise, which the machine settles once the stages that it joins have decided it
    (`_join`), and a stage behind it, whose function collects values or exceptions.

Scopes
    A scope is a promise, too. The module puts each stage of it behind that in the step that attaches it, so that the
    machine cancels them together. scope.py has the rest.

Time limits
    Each is a deadline of the machine (`_limit`), which tells the moment of the next one with each call, where that has
    changed. The request asks the works' clock for one alarm at a time, for that moment or before. When the alarm rings
    (`_ring`), the machine lets time pass up to then, and settles the stages that are due, in the name of CLOCK. A
    deadline names its value by a number. It names its exception by the code in whose place a `Limit` stands, which
    makes the exception once somebody asks for it.

Room
    A request has at most 4,096 stages, and 16,384 mentions of sources, two of which are set aside for each stage that
    is attached. The machine has room for a few at first, and grows when that is used up. A call that attaches several
    stages asks `_check_room` first, so one that raises `RequestFull` has changed nothing.

Forks
    A child of `fork` has no threads of a service, and the parent runs the functions that are ready. So the child claims
    those stages for nobody (`_leave_to_parent`).

Contexts and ends
    A request whose functions have contexts is a `ContextRequest` (contexts.py). One of a service with a hook is an
    `EndingRequest` (ending.py).

Which methods call a user's code
    `_run` and `_LoopWorks.use` (functions), `_let_go` (callbacks), `Works.begin` (the initializer of threads),
    `history` (`describe`), `Ends._call` (the hook, and `describe` before it), and relays, which add a callback to
    somebody's future and ask for its result.
"""
import asyncio
import concurrent.futures
import math
import time
from array import array
from typing import TYPE_CHECKING, Any, Callable, Dict, List, Optional, Sequence, Tuple, TypeVar

from ..values import Form
from ._core import RequestCore
from .attaching import Attaching
from .history import Describe, History
from .opened import Wait, waits_of
from .relays import Hold, follow_future, let_go_with
from .scope import Scope
from .stage import Stage
from .words import FAIL, LINKS, RELAY, THROWS, name_of

if TYPE_CHECKING:
    from typing import Protocol

    from typing_extensions import ParamSpec

    from .ending import Ends
    from .flow import Step

    class Clock(Protocol):
        """Has the time, and rings each request (`_ring`) at its first limit. Moments are nanoseconds of a clock that
        never goes back."""

        def now(self, request: "Request") -> int:
            ...

        def ask_for_alarm(self, request: "Request", moment: Optional[int] = None) -> None:
            """Rings a request at this moment, or before. Without one it is that of its next limit (`_moment`), and an
            alarm that isn't needed is dropped."""

    class Works(Protocol):
        """Runs stages that are ready: threads or an event loop."""

        @property
        def clock(self) -> Clock:
            ...

        @property
        def closed(self) -> bool:
            ...

        @property
        def describe(self) -> Describe:
            ...

        @property
        def ends(self) -> Optional[Ends]:
            ...

        def refusal(self) -> RuntimeError:
            ...

        def put(self, request: "Request") -> bool:
            ...

        def stop(self, stage: "Stage[Any]") -> None:
            """A stage was settled while its function still runs."""

        def stopped(self) -> "Dict[asyncio.Task[None], Stage[Any]]":
            """The coroutines that were stopped and haven't ended yet."""

        @property
        def loop(self) -> Optional[asyncio.AbstractEventLoop]:
            """The event loop that calls the functions, if one does."""

        @property
        def belongs_to_parent(self) -> bool:
            """Whether the turns stay with the parent at a `fork`."""

    P = ParamSpec("P")


T = TypeVar("T")
R = TypeVar("R", bound="Request")


class Request(RequestCore, Attaching):
    """Stages that belong together, with one history. `Service.request` and `Service.start` open one. Any thread may use
    it; calls on one request wait for one another.

        request = service.request("order 17")
        user, price = request.supply(load_user, 3), request.supply(quote, "lamp")
        print(user.combine(price, total).or_timeout(2).result())

    Each change is one event of the request. An event and its consequences become visible in one step, before callbacks
    run. The request keeps values and exceptions as long as somebody has it or one of its stages.

    Each method that attaches stages raises

        RequestFull: There would be more than 4,096 stages. Nothing is changed.
        ScopeEnded: The stage would be of a scope that has ended. Nothing is changed.
        RuntimeError: The stage has a function, and the service is shut down. Nothing is changed."""

    _stage_class = Stage
    __slots__ = ("_describe", "_alarm", "_around", "_traces")  # (`_describe` where that isn't what the service chose)
    _describe: Describe
    _alarm: Tuple[int, int]  # its moment and number, on a clock
    _around: Scope  # of which all stages are, where the request has a deadline

    @property
    def name(self) -> str:
        """Its name in histories."""
        return self._title or (self._name_of(0) if self._stages else "request")

    def __getitem__(self, step: "Step[T]") -> "Stage[T]":
        """The stage of a flow's step, in a request that was begun with the flow.

        Raises:
            KeyError: The step is one of another flow, or the request wasn't begun with one."""
        if self._plan is None or step.flow._plan is not self._plan:
            raise KeyError(f"{step.name} is a step of another flow")
        return self._stage(step.number)

    def history(self) -> History:
        """All that happened until now, as a `History` that stays as it is. It takes about a microsecond an event."""
        return self._history()._with_descriptions(getattr(self, "_describe", self._works.describe))

    def _history(self) -> History:
        history = History(self.name, self._plan, self._facts())
        history._aids = {number for number in range(len(history.names)) if self._aid_of(number)}
        return history

    def waits(self) -> List[Wait]:
        """Why it isn't over, the longest-lasting first: functions that run, or that no thread has taken, and promises that
        nobody has settled. A stage that waits for these isn't told. It takes about 20 µs for 10 stages, and longer for more
        events.

            log.warning("order 17 hangs: %s", "; ".join(map(str, request.waits())))"""
        return waits_of(self)

    def _look(self) -> "Tuple[List[Tuple[int, int, int, int, int]], array[int], int]":
        """What is open, the moments of the events, and the time by their clock, in nanoseconds."""
        return self._open_stages(), array("q", self._times), time.monotonic_ns()

    def cancel(self) -> None:
        """Cancels all stages that aren't settled, as `abandon` does: also those whose functions run. It begins with the last
        one, so no function that takes exceptions (`handle`, `recover`) is called for it. What is attached later isn't
        cancelled. The history has an event for each stage.

            try:
                return await answer
            finally:  # also if the client hangs up
                request.cancel()"""
        first: Optional[BaseException] = None
        for stage in map(self._stage, reversed(range(self._stages))):
            try:
                if not stage.done():
                    stage.abandon()
            except BaseException as error:  # a callback's
                first = first or error
        if first is not None:
            raise first

    def __repr__(self) -> str:
        return f"<{type(self).__name__} {self.name!r} of {self._stages} stages>"

    def end(self) -> None:
        """Says that this request is over: once all stages that it has now are settled, the `on_end` of its service is
        told of it. `with service.request(..) as request:` says so at the end of the block. Without a call the request
        is over once nobody has it or one of its stages any more. To a service without `on_end` it means nothing.

        A request with a `timeout` ends its block, `with` or `async with`, as a `Scope` does."""

    def __enter__(self: R) -> R:
        if hasattr(self, "_around"):
            self._around.__enter__()
        return self

    def __exit__(self, *cause: Any) -> None:
        try:
            if hasattr(self, "_around"):
                self._around.__exit__(*cause)
        finally:
            self.end()

    async def __aenter__(self: R) -> R:
        if hasattr(self, "_around"):
            await self._around.__aenter__()
        return self

    async def __aexit__(self, *cause: Any) -> None:
        try:
            if hasattr(self, "_around"):
                await self._around.__aexit__(*cause)
        finally:
            self.end()

    def _with_timeout(self: R, seconds: Optional[float]) -> R:
        """This request, all stages of which are of one scope with that deadline, if one is given."""
        if seconds is not None:
            self._around = self.scope(seconds, self.name)
            self._put_all_in(self._around._stage.number)
        return self

    def _describing(self: R, describe: Optional[Describe]) -> R:
        """This request, whose histories tell of values what a function does, if one is given."""
        if describe is not None:
            self._describe = describe
        return self

    # Attaching.

    def _behind(self, form: Form, first: "Stage[Any]", second: "Optional[concurrent.futures.Future[Any]]", fn: Callable[..., Any]) -> "Stage[Any]":
        if self._works.closed:
            raise self._works.refusal()
        name = name_of(fn)
        if second is None or isinstance(second, Stage) and second.request is self:
            return self._attach(form, first, second, fn, None, None, name)
        (here,), holds = self._relays_of([second], 1, self._scope_of(first.number))
        stage = self._attach(form, first, here, fn, None, None, name)
        let_go_with(stage, holds)
        return stage

    def _relays_of(
        self, of: "Sequence[concurrent.futures.Future[Any]]", more: int, scope: Optional[int] = None
    ) -> "Tuple[List[Stage[Any]], List[Hold]]":
        """Stages of this request that end as these futures do, new ones in a scope, and the holds on the relays among them. Where
        there isn't room for these and for `more` stages, nothing is attached."""
        _check_futures(of)
        others = sum(not isinstance(future, Stage) or future.request is not self for future in of)
        self._check_room(others + more)
        holds: List[Hold] = []
        return [self._relay_of(future, holds, scope) for future in of], holds

    def _relay_of(self, future: "concurrent.futures.Future[T]", holds: List[Hold], scope: Optional[int] = None) -> "Stage[T]":
        """As `adopt`, in a scope. Adds the hold on a new relay to `holds`."""
        if isinstance(future, Stage) and future.request is self:
            return future
        _check_futures([future])
        relay: Stage[T] = self._attach(Form.SOURCE, None, None, None, None, None, f"relay of {self._title_of(future)}", scope)
        hold = follow_future(relay, future)
        if hold is not None:
            holds.append(hold)
            if self._scope_of(relay.number) is not None:  # whose end may come before another stage needs it
                relay.add_done_callback(hold)
        return relay

    def _check_room(self, stages: int) -> None:
        """Raises `RequestFull` where there is no room for so many more."""
        if self._stages + stages > self._most:
            self._refuse_stage()

    def _limited(self, stage: "Stage[T]", seconds: float, gives: Any, is_value: bool) -> "Stage[T]":
        """Gives a stage a time limit; with `math.inf` none."""
        if math.isnan(seconds):
            raise ValueError("a time limit can't be NaN")
        if seconds != math.inf and not stage.done():
            self._limit(stage, seconds, gives, is_value)
        return stage

    def _link(self, stage: "Stage[Any]", who: int, to: Any) -> bool:
        """Finishes a composing stage with the future that its function returned. A stage links only to lower ones, and
        its function made higher ones. So it links to its relay, just below it, which then follows the future."""
        if not isinstance(to, concurrent.futures.Future):
            return self._end(stage, who, THROWS, TypeError(f"{to!r} is no future"))
        if isinstance(to, Stage) and to.request is self and to.number < stage.number:
            return self._end(stage, who, LINKS, to)
        if isinstance(to, Stage):
            to._take_over()
        relay, goes_on = self._stage(stage.number - 1), False
        self._rename(relay.number, f"relay of {self._title_of(to)}")
        try:
            try:
                goes_on = self._end(stage, who, LINKS, relay)
            finally:
                self._follow(stage, relay, to)
        except BaseException:
            if goes_on:
                self._hand_over()
            raise
        return goes_on

    def _follow(self, stage: "Stage[Any]", relay: "Stage[Any]", to: "concurrent.futures.Future[Any]") -> None:
        """Lets a relay end as the future does. If a foreign future's own method raises, the relay fails with that."""
        if isinstance(to, Stage) and to.request is self:
            self._follow_within(relay.number, to.number)
            return
        try:
            hold = follow_future(relay, to)
        except Exception as error:
            self._change(FAIL, RELAY, relay, error)
        else:
            let_go_with(stage, [] if hold is None else [hold])

    def _title_of(self, future: "concurrent.futures.Future[Any]") -> str:
        """The name in histories of a future from outside, or of a higher stage."""
        if not isinstance(future, Stage):
            return f"a {type(future).__name__}"
        return future.name if future.request is self else f"{future.name} of {future.request.name}"


def _check_futures(of: Sequence[object]) -> None:
    """Raises `TypeError` where one of these is no future."""
    for future in of:
        if not hasattr(future, "add_done_callback"):
            raise TypeError(
                f"futures of concurrent.futures are wanted, and not a {type(future).__name__}: give those "
                "of a list one by one, as gather(*futures), and a coroutine function to a LoopService's "
                "supply"
            )
