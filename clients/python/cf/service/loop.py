"""Functions on an event loop, in place of threads: they may be coroutine functions, and the loop's clock is the
clock."""
import asyncio
import inspect
import itertools
from types import CoroutineType
from typing import TYPE_CHECKING, Any, Awaitable, Callable, Dict, List, Optional, Type, TypeVar, cast

from .contexts import AT_WORK, ContextRequest, finish_stage, Within
from .ending import EndingRequest, Ends, Hook
from .flow import Flow
from .history import Describe, describe_all
from .opened import OpenRequest, open_requests
from .request import Request
from .service import ROOM
from .stage import Stage
from .waits import LoopWaker
from .watch import Watch, WatchedRequest
from .words import COMPOSE_FORMS, FIRST_WORKER, GIVES, THROWS, ScopeEnded

if TYPE_CHECKING:
    from typing_extensions import ParamSpec

    P = ParamSpec("P")

T = TypeVar("T")


class LoopService:
    """Requests whose functions one event loop calls, one at a time. A function may be a coroutine function; others run
    while it awaits something. Any thread may complete stages. If the stage of a coroutine is settled meanwhile, as by a
    timeout, the coroutine is cancelled.

    A function has the context variables of the place where it was attached, as with `call_soon`; a flow's function has
    those of the place where the request was begun. If a function raises `KeyboardInterrupt` or `SystemExit`, its stage
    fails with that, and it leaves the loop, too, as with asyncio's tasks.

        service = LoopService(asyncio.get_running_loop())
        request = service.request("order 17")
        mail = request.supply(load_user, 3).then(address).or_timeout(2)    # both may be `async def`
        print(await mail)

    Types: the stage of a coroutine function has the type of what the coroutine returns. Type checkers take it for a
    stage of the coroutine itself; `typing.cast` helps.

    Args:
        loop: The loop that calls the functions, and whose clock is the clock.
        describe: As of `Service`.
        watch: Who is told of all that is done to stages, as of `Service`. The loop runs the functions and is the
            clock.
        on_end: As of `Service`. Requests that are still open when the interpreter ends are told then. It isn't given
            beside a watch.

    Raises:
        ValueError: Both a watch and a hook are given."""

    def __init__(
        self, loop: asyncio.AbstractEventLoop, *, describe: Describe = describe_all, watch: Optional[Watch] = None, on_end: Optional[Hook] = None
    ) -> None:
        if watch is not None and on_end is not None:
            raise ValueError("a watch and on_end aren't given together")
        ends = None if on_end is None else Ends(on_end, "LoopService_ends")
        self._works: _LoopWorks
        self._kind: Type[ContextRequest]
        if watch is not None:
            self._works, self._kind = _WatchedLoopWorks(loop, describe, watch), _WatchedRequest
        else:
            self._works = _LoopWorks(loop, describe, ends)
            self._kind = ContextRequest if on_end is None else EndingRequest
        self._requests = itertools.count()

    def request(self, name: str = "", room: int = ROOM, *, timeout: Optional[float] = None, describe: Optional[Describe] = None) -> Request:
        """As `Service.request`. One with a timeout is for `async with`."""
        return self._kind(self._works, name or f"request {next(self._requests)}", room, self)._describing(describe)._with_timeout(timeout)

    def start(self, flow: Flow, *given: Any, name: str = "", describe: Optional[Describe] = None) -> Request:
        """As `Service.start`."""
        return flow._start(self._kind, self._works, name or f"{flow.name} {next(self._requests)}", self, given)._describing(describe)

    def submit(self, fn: "Callable[P, T]", /, *args: "P.args", **kwargs: "P.kwargs") -> "Stage[T]":
        """As `Service.submit`: calls a function on the loop, or runs a coroutine, in a request of one stage. Any thread
        may call it."""
        return self._kind(self._works, "", 1, self).supply(fn, *args, **kwargs)

    def open_requests(self) -> List[OpenRequest]:
        """As `Service.open_requests`. Any thread may call it."""
        return open_requests(self._works)


class _WatchedRequest(WatchedRequest, ContextRequest):
    """One that tells a watch what is done to it."""


class _LoopWorks(LoopWaker):
    """What `Works` is to a request."""

    belongs_to_parent = False

    def __init__(self, loop: asyncio.AbstractEventLoop, describe: Describe, ends: Optional[Ends]) -> None:
        super().__init__(loop)
        self.describe, self.ends = describe, ends
        self._stopped: "Dict[asyncio.Task[None], Stage[Any]]" = {}

    @property
    def clock(self) -> "_LoopWorks":
        return self

    @property
    def loop(self) -> asyncio.AbstractEventLoop:
        return self._loop

    def refusal(self) -> RuntimeError:
        return RuntimeError("Event loop is closed")

    def use(self, turn: Request) -> None:
        goes_on = True
        while goes_on:
            begun = turn._begin(FIRST_WORKER)
            if begun is None:
                return
            stage, call, args, kwargs = begun
            within = call if type(call) is Within else cast(ContextRequest, turn)._within(call)
            within.func(AT_WORK.set, stage)
            try:
                given = within(*args, **kwargs)
            except BaseException as error:
                goes_on = self._raised(stage, error)
            else:
                if type(given) is CoroutineType or inspect.isawaitable(given) and not isinstance(given, Stage):
                    within.func(self._await, stage, given)
                    return
                goes_on = finish_stage(stage, FIRST_WORKER, given)

    def _raised(self, stage: "Stage[Any]", error: BaseException) -> bool:
        """Finishes a stage whose function raised. What leaves a loop as a task raises it does so here, too, once no
        stage is left behind."""
        goes_on = stage.request._end(stage, FIRST_WORKER, THROWS, error)
        if not isinstance(error, (KeyboardInterrupt, SystemExit)):
            return goes_on
        if goes_on:
            self.put(stage.request)
        raise error

    def _await(self, stage: "Stage[Any]", given: Awaitable[Any]) -> None:
        """Lets a coroutine go on, in a copy of this context. The stage keeps its task."""
        stage._task = self._loop.create_task(self._awaited(stage, given), name=stage.name)
        if stage._ended:  # another thread settled it meanwhile
            self.stop(stage)

    def stop(self, stage: "Stage[Any]") -> None:
        task = stage.__dict__.pop("_task", None)
        if task is not None:
            self._stopped[task] = stage
            if not self._soon(self._cancel, task):
                del self._stopped[task]

    def stopped(self) -> "Dict[asyncio.Task[None], Stage[Any]]":
        return dict(self._stopped)

    def _cancel(self, task: "asyncio.Task[None]") -> None:
        """Cancels a task that the stage keeps no longer."""
        task.add_done_callback(self._stopped.pop)
        task.cancel()

    async def _awaited(self, stage: "Stage[Any]", given: Awaitable[Any]) -> None:
        try:
            value = await given
        except BaseException as error:
            stage.__dict__.pop("_task", None)
            if stage._ended and not isinstance(error, (asyncio.CancelledError, ScopeEnded)):  # (by these it was told so)
                stage.__dict__["_late"] = error
            goes_on = self._raised(stage, error)
        else:
            stage.__dict__.pop("_task", None)
            request = stage.request
            goes_on = request._link(stage, FIRST_WORKER, value) if stage._form in COMPOSE_FORMS else request._end(stage, FIRST_WORKER, GIVES, value)
        if goes_on:
            self.use(stage.request)


class _WatchedLoopWorks(_LoopWorks):
    """The same to a request that tells a watch: each turn is a call of the loop's."""

    def __init__(self, loop: asyncio.AbstractEventLoop, describe: Describe, watch: Watch) -> None:
        super().__init__(loop, describe, None)
        self.watch = watch

    def put(self, turn: Request) -> bool:
        return self._soon(self.use, turn)
