"""A stage of a request: a future whose state the request's machine decides."""
import asyncio
import concurrent.futures
import logging
from concurrent.futures import InvalidStateError
from typing import TYPE_CHECKING, Any, Callable, Dict, Generator, Generic, Optional, Type, TypeVar

from ..values import Form
from ._core import StageCore
from .waits import AwaitedFuture
from .words import CANCEL, COMPLETE, FAIL, THIS_THREAD

if TYPE_CHECKING:
    from .request import Request

T = TypeVar("T")
U = TypeVar("U")
V = TypeVar("V")
LOGGER = logging.getLogger("concurrent.futures")
# What an `await` raises where futures of threads have an exception of their own.
ASYNCIOS: Dict[Type[BaseException], Type[BaseException]] = {
    concurrent.futures.CancelledError: asyncio.CancelledError,
    concurrent.futures.TimeoutError: asyncio.TimeoutError,
}

if TYPE_CHECKING:

    class _Future(AwaitedFuture, StageCore, concurrent.futures.Future[T]):
        request: "Request"

        def result(self, timeout: Optional[float] = None) -> T:
            ...

        def add_done_callback(self, fn: Callable[[concurrent.futures.Future[T]], object]) -> None:
            ...

else:

    class _Future(AwaitedFuture, StageCore, concurrent.futures.Future, Generic[T]):
        """Python 3.8 has futures without a parameter."""


class Stage(_Future[T]):
    """A `concurrent.futures.Future` that other stages can wait for, and that can be awaited.

    The request's machine decides what happens to a stage. `result`, `done` and the like read its answer. The head of
    request.py describes the design.

    Functions run on one of the service's threads, or on the loop of a `LoopService`, where they may be coroutine
    functions. Callbacks (`add_done_callback`) run in the thread that settles the stage.

    A stage fails with what its function raises. A stage that waits for a failed one fails with the same exception, and a
    stage that waits for a cancelled one with `CancelledError`. Its own function isn't called then, unless it takes
    exceptions (`handle`, `when_done`, `recover`, `recover_compose`). However often an exception is raised by `result` or
    `await`, its traceback begins as it was at first.

    Cost: a stage takes one of the 4,096 of its request, and one event of the history; `compose` and `recover_compose`
    take two of each. A call of its function is two more events, the claim and the finish.

    Each method that attaches a stage returns the new stage, and raises

        RequestFull: The request has 4,096 stages. Nothing is changed.
        ScopeEnded: This stage's scope has ended, of which the new one would be, too. Nothing is changed.
        RuntimeError: The service is shut down, so nobody would run the function. Nothing is changed."""

    # What is attached behind it.

    def then(self, fn: Callable[[T], U]) -> "Stage[U]":
        """Calls a function with this stage's value, once it is there.

        Args:
            fn: Called with the value. It isn't called where this stage fails or is cancelled.

        Returns:
            A stage that ends with what the function returns or raises."""
        return self.request._behind(Form.APPLY, self, None, fn)

    def compose(self, fn: "Callable[[T], concurrent.futures.Future[U]]") -> "Stage[U]":
        """Calls a function that returns a future, and waits for that future without holding a thread.

            invoice = user.compose(lambda user: request.supply(bill, user).then(sign))

        Args:
            fn: Called with the value. It returns a stage of this request or of another one, or any other future of
                `concurrent.futures`.

        Returns:
            A stage that ends as that future does. It fails with `TypeError` where the function returns something else.
            It takes two stages of the request."""
        return self.request._behind(Form.COMPOSE, self, None, fn)

    def combine(self, other: "concurrent.futures.Future[U]", fn: Callable[[T, U], V]) -> "Stage[V]":
        """Calls a function with two values, once both are there.

            total = price.combine(shipping, lambda price, shipping: price + shipping)

        Args:
            other: A stage of this request, or any other future. For one that isn't of this request, a relay is
                attached: a stage more, which ends as that future does.
            fn: Called with this stage's value and the other's.

        Returns:
            A stage that ends with what the function returns or raises. If either of the two fails, it fails with that
            exception once both are settled; if both fail, with this stage's."""
        return self.request._behind(Form.COMBINE, self, other, fn)

    def either(self, other: "concurrent.futures.Future[T]", fn: Callable[[T], U]) -> "Stage[U]":
        """Calls a function with the value that is there first.

        Args:
            other: A stage of this request, or any other future, as in `combine`.
            fn: Called with the value of whichever is settled first.

        Returns:
            A stage that ends with what the function returns or raises. If the first that is settled has an
            exception, it fails with that."""
        return self.request._behind(Form.APPLY_EITHER, self, other, fn)

    def handle(self, fn: Callable[[Optional[T], Optional[BaseException]], U]) -> "Stage[U]":
        """Calls a function with this stage's value or exception.

            answer = paid.handle(lambda value, error: {"error": str(error)} if error else value)

        Args:
            fn: Called with `(value, None)` or `(None, exception)`, also where this stage was cancelled; the
                exception is a `CancelledError` then.

        Returns:
            A stage that ends with what the function returns or raises."""
        return self.request._behind(Form.HANDLE, self, None, fn)

    def when_done(self, fn: Callable[[Optional[T], Optional[BaseException]], object]) -> "Stage[T]":
        """Calls a function with this stage's value or exception, and passes the value or exception on.

        Args:
            fn: Called as in `handle`. What it returns isn't used.

        Returns:
            A stage that ends as this one, after the function was called. If this stage has a value and the function
            raises, it fails with what that raised."""
        return self.request._behind(Form.WHEN_COMPLETE, self, None, fn)

    def recover(self, fn: Callable[[BaseException], T]) -> "Stage[T]":
        """Calls a function with this stage's exception, if it has one.

            name = user.then(name_of).recover(lambda error: "nobody")

        Args:
            fn: Called with the exception. It isn't called where this stage has a value.

        Returns:
            A stage that ends with this stage's value, or else with what the function returns or raises."""
        return self.request._behind(Form.EXCEPTIONALLY, self, None, fn)

    def recover_compose(self, fn: "Callable[[BaseException], concurrent.futures.Future[T]]") -> "Stage[T]":
        """Calls a function that returns a future with this stage's exception, if it has one.

            user = request.supply(ask, here).recover_compose(lambda error: request.supply(ask, elsewhere))

        Args:
            fn: Called with the exception. It returns a future, as in `compose`.

        Returns:
            A stage that ends with this stage's value, or else as that future does. It takes two stages of the
            request."""
        return self.request._behind(Form.EXCEPTIONALLY_COMPOSE, self, None, fn)

    # Who settles it.

    def complete(self, value: T) -> bool:
        """Settles the stage with a value, unless it is settled. Anybody may, also while its function runs.

        Args:
            value: What `result` returns from then on.

        Returns:
            True if this call settled the stage, False if it was settled before. The history has the call either way."""
        return self.request._change(COMPLETE, THIS_THREAD, self, value)

    def fail(self, error: BaseException) -> bool:
        """Settles the stage with an exception, unless it is settled.

        Args:
            error: What `result` raises from then on.

        Returns:
            True if this call settled the stage, False if it was settled before.

        Raises:
            TypeError: It is no exception. Nothing is changed."""
        if not isinstance(error, BaseException):
            raise TypeError(f"an exception is wanted, and not a {type(error).__name__}: fail(ValueError(..))")
        return self.request._change(FAIL, THIS_THREAD, self, error)

    def cancel(self) -> bool:
        """Cancels the stage, unless it is settled or its function runs. The stages that it waits for go on.

        Returns:
            True if the stage is cancelled after the call, also where it was before."""
        return self.request._change(CANCEL, THIS_THREAD, self, True)

    def abandon(self) -> bool:
        """Cancels the stage, unless it is settled, also while its function runs. A function on a thread goes on, and
        its answer comes too late, as the history tells. A coroutine of a `LoopService` is cancelled.

        Returns:
            True if the stage is cancelled after the call, also where it was before."""
        return self.request._change(CANCEL, THIS_THREAD, self, False)

    def or_timeout(self, seconds: float) -> "Stage[T]":
        """Sets a time limit, after which the stage fails with a `TimeoutError` unless it is settled. All waiters of the
        stage see that, unlike the timeout of `result`. A function that runs in a thread goes on, and its answer
        comes too late; a coroutine of a `LoopService` is cancelled. The stages that it waits for go on. The stage's
        callbacks then run on the clock's thread, or on the loop: a slow one delays all limits of the service.

        Args:
            seconds: From now on. With 0 or less it times out at once, with `math.inf` never.

        Returns:
            This stage itself.

        Raises:
            ValueError: `seconds` is NaN."""
        return self.request._limited(self, seconds, None, False)

    def complete_on_timeout(self, value: T, seconds: float) -> "Stage[T]":
        """Sets a time limit, after which the stage gets a value unless it is settled. No thread waits meanwhile, so a
        promise with such a limit is a pause: `request.promise().complete_on_timeout(None, 2).then(fn)`.

        Args:
            value: What the stage is settled with at that time.
            seconds: As in `or_timeout`.

        Returns:
            This stage itself.

        Raises:
            ValueError: `seconds` is NaN."""
        return self.request._limited(self, seconds, value, True)

    def set_result(self, result: T) -> None:
        """As `complete`, for code that is written for `concurrent.futures`.

        Raises:
            InvalidStateError: The stage is settled."""
        if not self.complete(result):
            raise InvalidStateError(f"{self._state}: {self!r}")

    def set_exception(self, exception: Optional[BaseException]) -> None:
        """As `fail`, for code that is written for `concurrent.futures`.

        Args:
            exception: None stands for a `TypeError`.

        Raises:
            InvalidStateError: The stage is settled."""
        if not self.fail(TypeError("no exception") if exception is None else exception):
            raise InvalidStateError(f"{self._state}: {self!r}")

    def set_running_or_notify_cancel(self) -> bool:
        """Marks a promise as running, for code outside that works on it. From then on `cancel` returns
        False, and `abandon` still cancels.

        Returns:
            False if the stage is cancelled, so that there is nothing to do. True otherwise.

        Raises:
            RuntimeError: The stage runs already, or is settled with a value or an exception."""
        told = self.request._set_running(self)
        if told is None:
            raise RuntimeError("Future in unexpected state")
        return told

    # Else.

    @property
    def name(self) -> str:
        """The stage's name in histories: by default its function's name."""
        return self.request._name_of(self.number)

    def named(self, name: str) -> "Stage[T]":
        """Gives the stage a name, which histories, `repr` and the tasks of a `LoopService` use from now on.

            price = request.supply(quote, "lamp").named("price")

        Returns:
            This stage itself."""
        self.request._rename(self.number, name)
        return self

    def __repr__(self) -> str:
        return f"{super().__repr__()[:-1]} name={self.name!r}>"

    def __await__(self) -> Generator[Any, None, T]:
        """Awaits the stage on the running loop. If the awaiting task is cancelled, `cancel` is called on the stage: it
        cancels this stage alone, and not while its function runs. `await asyncio.shield(stage)` gives up this wait alone.
        A settled stage is given at once."""
        if not self.done():
            self._take_over()
            yield from self._wait_on(asyncio.get_running_loop())
            error = None if self.cancelled() else self.exception()
            if error is not None and type(error) in ASYNCIOS:
                raise ASYNCIOS[type(error)](*error.args)
        if self.cancelled():
            raise asyncio.CancelledError
        return self.result()

    # For what stands below.

    _task: "Optional[asyncio.Task[None]]"  # of its coroutine, on an event loop
    _relays: Optional[object] = None  # of other requests, that end as it does

    def _log(self, error: BaseException) -> None:
        LOGGER.error("exception calling callback for %r", self, exc_info=error)
