"""An event loop whose time and whose other threads are the search's. What is ready on it comes in its own order,
as on any loop."""
import asyncio
import contextvars
import heapq
import itertools
from collections import deque
from typing import TYPE_CHECKING, Any, Callable, Deque, Dict, List, Optional, Tuple

from .footprints import CHANGES, Move

if TYPE_CHECKING:
    from .run import Run


class WorldLoop(asyncio.AbstractEventLoop):
    """The loop of a world. It has no sockets, no processes and no threads."""

    def __init__(self, run: "Run") -> None:
        self._run = run
        self._ready: Deque[asyncio.Handle] = deque()
        self._later: List[Tuple[float, int, asyncio.TimerHandle]] = []
        self._numbers = itertools.count()
        self._now = 0.0

    def time(self) -> float:
        return self._now

    def call_soon(self, callback: Callable[..., object], *args: Any, context: Optional[contextvars.Context] = None) -> asyncio.Handle:
        handle = asyncio.Handle(callback, args, self, context)
        self._run.touch(("loop",), CHANGES)
        self._ready.append(handle)
        return handle

    call_soon_threadsafe = call_soon

    def call_later(
        self, delay: float, callback: Callable[..., object], *args: Any, context: Optional[contextvars.Context] = None
    ) -> asyncio.TimerHandle:
        return self.call_at(self._now + delay, callback, *args, context=context)

    def call_at(self, when: float, callback: Callable[..., object], *args: Any, context: Optional[contextvars.Context] = None) -> asyncio.TimerHandle:
        handle = asyncio.TimerHandle(when, callback, args, self, context)
        self._run.touch(("loop",), CHANGES)
        heapq.heappush(self._later, (when, next(self._numbers), handle))
        return handle

    def _timer_handle_cancelled(self, _: asyncio.TimerHandle) -> None:
        self._run.touch(("loop",), CHANGES)

    def create_future(self) -> "asyncio.Future[Any]":
        return asyncio.Future(loop=self)

    def create_task(self, coro: Any, *, name: Optional[str] = None, context: Optional[contextvars.Context] = None) -> "asyncio.Task[Any]":
        given: Dict[str, Any] = {} if context is None else {"context": context}
        return asyncio.Task(coro, loop=self, name=name or f"task {next(self._numbers)}", **given)

    def is_running(self) -> bool:
        return True

    def is_closed(self) -> bool:
        return False

    def get_debug(self) -> bool:
        return False

    def call_exception_handler(self, context: Dict[str, Any]) -> None:
        """What a callback raises fails the order. Tasks that are left where an order ends aren't told."""
        error = context.get("exception")
        if error is not None:
            self._run.why = self._run.why or f"a callback of the loop raised {error!r}"

    default_exception_handler = call_exception_handler

    def run_in_executor(self, executor: Any, func: Any, *args: Any) -> Any:
        raise RuntimeError("a real executor is outside the world: use world.service")

    # Moves.

    def moves(self) -> List[Move]:
        """Its next step, and its next timer."""
        while self._ready and self._ready[0].cancelled():
            self._ready.popleft()
        while self._later and self._later[0][2].cancelled():
            heapq.heappop(self._later)
        keys: List[Move] = [("loop",)] if self._ready else []
        return keys + ([("wake", self._later[0][1])] if self._later else [])

    def step(self) -> None:
        """Calls what is ready first."""
        asyncio._set_running_loop(self)
        try:
            self._ready.popleft()._run()
        finally:
            asyncio._set_running_loop(None)

    def wake(self) -> None:
        """Lets the next timer's moment come."""
        when, _, handle = heapq.heappop(self._later)
        self._now = max(self._now, when)
        self._ready.append(handle)

    def next_name(self) -> str:
        """What its next step is called."""
        callback: Any = self._ready[0]._callback  # type: ignore[attr-defined]
        owner = getattr(callback, "__self__", None)
        if isinstance(owner, asyncio.Task):
            return owner.get_name()
        return str(getattr(callback, "__qualname__", "a callback"))

    def end(self) -> None:
        """Lets go of all that is left."""
        self._ready.clear()
        self._later.clear()
