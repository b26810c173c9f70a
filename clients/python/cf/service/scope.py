"""A scope: stages of a request that end together.

The machine knows a scope as a stage without a function. Each stage that is attached in it is put behind that by a join that
cancels, in the same step (`put_in` in native/_cf.c): once the scope's stage is settled, in whichever way, the machine cancels
them, within the same call. So the end of a scope is one event of its stage: a cancellation (`end`), a deadline, or a join with
another stage (`ends_with`) or with an outer scope.

Only leaving a block is done here: waiting for what is open, raising what nobody takes over, and on an event loop cancelling
the block's task at the deadline, as `asyncio.timeout` does."""
import asyncio
import concurrent.futures
import contextlib
from typing import TYPE_CHECKING, Any, Callable, Dict, List, Optional, Sequence, Tuple, TypeVar

from ..values import Form
from .attaching import Attaching
from .failures import keep_others, raise_together
from .words import TIMED_OUT

if TYPE_CHECKING:
    from .relays import Hold
    from .request import Request, Works
    from .stage import Stage

T = TypeVar("T")
CANCELLED_ERRORS = concurrent.futures.CancelledError, asyncio.CancelledError


class Scope(Attaching):
    """Stages of a request that end together. `request.scope()` opens one, and a scope opens further ones within it. It has the
    attaching calls of a request. A stage that a stage's method attaches, as `then`, is of that stage's scope.

        with request.scope(timeout=2) as scope:
            user, price = scope.supply(load_user, 3), scope.supply(quote, "lamp")
            return user.combine(price, total).result()

    It ends by `end()`, at its deadline, with a stage (`ends_with`), with the scope in which it was opened, by `Request.cancel`, or
    where its block is left. Then all of its stages that are open are cancelled, in one step: none of its functions is called
    any more. A coroutine that runs is cancelled, too. A function on a thread goes on, and its answer comes too late; it may ask
    `is_stopping()`.

    The end of the block, `with` or on an event loop `async with`:

    - A block that ends normally waits until all stages of the scope are settled. If one fails that nobody takes over, the scope
      ends at once, and the block raises an `ExceptionGroup` of such failures (before Python 3.11 the first one, with the others
      as its `__context__`s). A stage takes a failure over that stands behind the failed one or joins it, and so does who asked
      for its result. A cancelled stage hasn't failed.
    - By an exception the scope ends, and the exception goes on, with such failures as notes (before Python 3.11 as its
      `__context__`s). If it is a cancellation, the group is raised in its place.
    - If the deadline has cancelled a stage, and the block ends normally or by `CancelledError`, it raises `TimeoutError`.
    - `async with` also cancels the task of its block at the deadline, as `asyncio.timeout` does. It waits until the coroutines
      that the scope's end cancelled have ended; what they raise then is in the group, too.

    Each method that attaches stages raises `ScopeEnded` once the scope has ended, and nothing is changed; else it raises what
    it does on a request."""

    __slots__ = ("_stage", "_task", "_cancelled_before", "_has_cancelled")

    def __init__(self, stage: "Stage[Any]") -> None:
        self._stage = stage
        self._task: "Optional[asyncio.Task[Any]]" = None  # of its block, as long as its deadline may cancel that
        self._cancelled_before = 0  # how often that was cancelled before the block
        self._has_cancelled = False  # whether the deadline has

    @property
    def request(self) -> "Request":
        """The request that its stages are of."""
        return self._stage.request

    @property
    def name(self) -> str:
        """Its name in histories."""
        return self._stage.name

    def __repr__(self) -> str:
        return f"<Scope {self.name!r} of {self.request.name!r}{', ended' if self._stage.done() else ''}>"

    def end(self) -> None:
        """Ends it: cancels all of its stages that are open. If it has ended, nothing happens.

        scope.end()  # from whichever thread"""
        if not self._stage.done():
            self._stage.abandon()

    def ends_with(self, stage: "concurrent.futures.Future[T]") -> "Stage[T]":
        """Lets it end as soon as a stage is settled, in whichever way, by the same event.

            best = scope.ends_with(scope.first(*quotes).or_timeout(2).recover(fallback)).result()

        Args:
            stage: A stage of the request, of this scope or not, or another future, as in `adopt`.

        Returns:
            The stage itself. What is attached behind a stage of this scope ends with the scope."""
        its = self.adopt(stage)
        self.request._end_with(self._stage, its)
        return its

    def __enter__(self) -> "Scope":
        if asyncio._get_running_loop() is not None and self._works.loop is asyncio._get_running_loop():
            raise RuntimeError("this would hold up the loop that runs the scope's functions: write `async with`")
        return self

    def __exit__(self, _kind: object, error: Optional[BaseException], _trace: object) -> None:
        failures: List[BaseException] = []
        try:
            failures = self.request._wait_within(self._stage.number) if error is None else self._failed()
        finally:
            self.end()
        self._leave(failures, error, isinstance(error, concurrent.futures.CancelledError))

    async def __aenter__(self) -> "Scope":
        task = asyncio.current_task()
        if task is None:
            raise RuntimeError("a scope's block runs in a task")
        self._task, self._cancelled_before, self._has_cancelled = task, _cancellations_of(task), False
        loop = asyncio.get_running_loop()
        self._stage.add_done_callback(lambda _: self._cut_off(loop))
        return self

    async def __aexit__(self, _kind: object, error: Optional[BaseException], _trace: object) -> None:
        task, self._task = self._task, None
        assert task is not None, "the block was entered"
        if self._has_cancelled and hasattr(task, "uncancel"):
            task.uncancel()
        failures, cancelled = (self._failed(), None) if error is not None else await self._end_of_stages(task)
        self.end()
        late, cancelled_later = await self._end_of_coroutines()
        cancelled = cancelled or cancelled_later
        self._leave(failures + late, error, type(error) is asyncio.CancelledError and not self._is_cancelled_by_others(task))
        if cancelled is not None and error is None:
            raise cancelled

    def _cut_off(self, loop: asyncio.AbstractEventLoop) -> None:
        """The scope has ended: at its deadline, the task of its block is cancelled."""
        if self._stage._ended != TIMED_OUT:
            return
        if asyncio._get_running_loop() is loop:
            self._cancel_task()
        else:
            with contextlib.suppress(RuntimeError):  # the loop is closed
                loop.call_soon_threadsafe(self._cancel_task)

    def _cancel_task(self) -> None:
        if self._task is not None:
            self._has_cancelled = True
            self._task.cancel()

    def _is_cancelled_by_others(self, task: "asyncio.Task[Any]") -> bool:
        """Whether somebody but the deadline has cancelled the task of the block. Before Python 3.11 a task doesn't tell."""
        return _cancellations_of(task) > self._cancelled_before

    async def _end_of_stages(self, task: "asyncio.Task[Any]") -> "Tuple[List[BaseException], Optional[BaseException]]":
        """Waits until all stages are settled, or some have failed that nobody takes over: their exceptions, or the cancellation
        that came meanwhile."""
        while True:
            try:
                return await self.request._await_within(self._stage.number), None
            except asyncio.CancelledError as its:
                if self._is_cancelled_by_others(task) or not self._has_cancelled:
                    return [], its
                self._has_cancelled = False  # that was the deadline's, which came as the block ended

    async def _end_of_coroutines(self) -> "Tuple[List[BaseException], Optional[BaseException]]":
        """Waits until those coroutines of the scope have ended that were cancelled. What they raised, and the cancellation that
        came meanwhile."""
        cancelled: Optional[BaseException] = None
        errors: List[BaseException] = []
        coroutines = self._stopped()
        while coroutines:
            try:
                await asyncio.wait(list(coroutines))
            except asyncio.CancelledError as its:
                cancelled = its
                continue
            errors += [it for it in (stage.__dict__.pop("_late", None) for stage in coroutines.values()) if it is not None]
            coroutines = self._stopped()
        return errors, cancelled

    def _stopped(self) -> "Dict[asyncio.Task[None], Stage[Any]]":
        request, number, here = self.request, self._stage.number, asyncio.current_task()
        found = self._works.stopped().items()
        return {
            task: stage
            for task, stage in found
            if stage.request is request and task is not here and not task.done() and request._is_within(stage.number, number)
        }

    def _failed(self) -> List[BaseException]:
        """The exceptions of its stages that nobody has taken over by now."""
        return self.request._failures_within(self._stage.number) or []

    def _leave(self, failures: Sequence[BaseException], error: Optional[BaseException], is_cancelled: bool) -> None:
        """Raises what the end of its block raises, unless that is the exception by which the block is left."""
        if failures and (error is None or isinstance(error, CANCELLED_ERRORS)):
            raise_together(f"{len(failures)} failed in {self.name}", failures, failures[0])
        if error is not None:
            keep_others(error, [f"also failed in {self.name}"] * len(failures), failures)
        is_timed_out = self._stage._ended == TIMED_OUT
        if is_timed_out and (is_cancelled or error is None and self.request._look_within(self._stage.number)[1]):
            raise TimeoutError(*self._stage._error().args) from error

    # Attaching, which the request does.

    @property
    def _works(self) -> "Works":
        works: Works = self.request._works
        return works

    def _attach(self, form: int, first: Any, second: Any, call: Any, args: Any, kwargs: Any, name: str, /) -> "Stage[Any]":
        return self.request._attach(form, first, second, call, args, kwargs, name, self._stage.number)

    def _gather(self, form: int, of: "Sequence[Stage[Any]]", name: str) -> "Stage[Any]":
        return self.request._gather(form, of, name, self._stage.number)

    def _join(self, stage: "Stage[Any]", wanted: int, of: "Sequence[Stage[Any]]") -> None:
        self.request._join(stage, wanted, of)

    def _behind(self, form: Form, first: "Stage[Any]", second: "Optional[concurrent.futures.Future[Any]]", fn: Callable[..., Any]) -> "Stage[Any]":
        return self.request._behind(form, first, second, fn)

    def _check_room(self, stages: int) -> None:
        self.request._check_room(stages)

    def _relay_of(self, future: "concurrent.futures.Future[T]", holds: "List[Hold]") -> "Stage[T]":
        return self.request._relay_of(future, holds, self._stage.number)

    def _relays_of(self, of: "Sequence[concurrent.futures.Future[Any]]", more: int) -> "Tuple[List[Stage[Any]], List[Hold]]":
        return self.request._relays_of(of, more, self._stage.number)


Attaching._scope_class = Scope


def _cancellations_of(task: "asyncio.Task[Any]") -> int:
    """How often a task is cancelled, as far as it tells."""
    cancelling: Callable[[], int] = getattr(task, "cancelling", lambda: 0)
    return cancelling()
