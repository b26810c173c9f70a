"""A service: requests, and the threads and the clock that serve them."""
import concurrent.futures
import itertools
import os
import weakref
from typing import TYPE_CHECKING, Any, Callable, List, Optional, Tuple, Type, TypeVar, Union

from .contexts import ContextRequest
from .ending import EndingRequest, Ends, Hook
from .flow import Flow
from .history import Describe, describe_all
from .opened import OpenRequest, open_requests
from .request import Request
from .stage import Stage
from .watch import Watch, WatchedRequest, WatchedWorks
from .words import name_of
from .works import Works
from ..values import Form

if TYPE_CHECKING:
    from typing_extensions import ParamSpec

    from ..store import Store

    P = ParamSpec("P")

T = TypeVar("T")
ROOM = 8  # stages that a request has room for at first


class Service(concurrent.futures.Executor):
    """Runs the functions of requests' stages by threads, as `concurrent.futures.ThreadPoolExecutor` runs functions.

        with Service() as service:
            request = service.request("order 17")
            user = request.supply(load_user, 3)
            mail = user.then(address).recover(lambda error: "nobody").or_timeout(2)
            print(mail.result())
            print(request.history())

    Args:
        max_workers: How many threads it has at most. By default 4 more than there are processors, and at most 32.
        thread_name_prefix: What the names of its threads begin with.
        initializer: Called by each thread before anything else. If it raises, the service is broken: what was handed in
            fails with `BrokenThreadPool`.
        initargs: What it is called with.
        store: Where requests are kept, so that they outlive the process: `Service(store=..)` gives a
            `cf.store.DurableService`.
        describe: What histories tell of values and exceptions: `describe_all`, `describe_types`, `describe_nothing`, or
            another function that makes a text of one.
        watch: Who runs the functions, keeps the time and is told of all that is done to stages, in the place of threads
            and a clock: a `Watch` of watch.py, as `cf.testing` has one.
        on_end: Called with the `History` of each request that is over, on a thread of its own, and in the context of
            the place where the request was opened. What it raises is logged as a warning. `SpanFile` and `Spans` are
            such hooks. With a hook functions have contexts.
        contexts: Whether functions have the context variables of the place where they were attached, those of a flow
            the ones of the place where the request was opened. Otherwise they have those of their thread, as with
            `ThreadPoolExecutor`.

    Raises:
        ValueError: `max_workers` isn't above 0, or a watch is given beside `on_end` or `contexts`.
        TypeError: `initializer` can't be called.

    Threads are started as they are needed. They end with `shutdown`, or once nobody has the service or a request of
    it any more. When the interpreter ends, all that was handed in is done first. A child of `fork` may use the
    service, too; what was handed in before is its parent's."""

    _services = itertools.count()

    def __new__(cls, max_workers: Optional[int] = None, *given: Any, store: "Optional[Store]" = None, **more: Any) -> Any:
        """With a `store` of `cf.store` it is a `cf.store.DurableService`, whose requests outlive the process."""
        if store is None:
            return super().__new__(cls)
        from ..store import DurableService

        return DurableService(store, max_workers, *given, **more)

    def __init__(
        self,
        max_workers: Optional[int] = None,
        thread_name_prefix: str = "",
        initializer: Optional[Callable[..., object]] = None,
        initargs: Tuple[Any, ...] = (),
        *,
        store: "Optional[Store]" = None,
        describe: Describe = describe_all,
        watch: Optional[Watch] = None,
        on_end: Optional[Hook] = None,
        contexts: bool = False,
    ) -> None:
        workers = min(32, (os.cpu_count() or 1) + 4) if max_workers is None else max_workers
        if workers <= 0:
            raise ValueError("max_workers must be greater than 0")
        if initializer is not None and not callable(initializer):
            raise TypeError("initializer must be a callable")
        if watch is not None and (on_end is not None or contexts):
            raise ValueError("a watch and on_end or contexts aren't given together")
        prefix = thread_name_prefix or f"{type(self).__name__}-{next(self._services)}"
        self._requests = itertools.count()
        self._works: Union[Works, WatchedWorks]
        self._kind: Type[Request]
        if watch is not None:
            self._works, self._kind = WatchedWorks(watch, describe), WatchedRequest
            return
        self._works = Works(workers, prefix, initializer, initargs, describe, None if on_end is None else Ends(on_end, f"{prefix}_ends"))
        self._kind = (ContextRequest if contexts else Request) if on_end is None else EndingRequest
        weakref.finalize(self, self._works.close)

    def request(self, name: str = "", room: int = ROOM, *, timeout: Optional[float] = None, describe: Optional[Describe] = None) -> Request:
        """Opens a request without stages. It keeps this service alive.

            with service.request("order 17", timeout=5) as request:
                ..

        Args:
            name: What histories call it. By default `request 0` and so on.
            room: A guess how many stages it will have. One that grows beyond that does all its events again a few
                times.
            timeout: In how many seconds all of its stages are cancelled that are open, as in `or_timeout`. They are of one scope
                then, which takes a stage, and its block ends as that of a `Scope` does.
            describe: What its histories tell of values and exceptions, in place of what the service chose.

        Raises:
            ValueError: `timeout` is NaN."""
        return self._kind(self._works, name or f"request {next(self._requests)}", room, self)._describing(describe)._with_timeout(timeout)

    def start(self, flow: Flow, *given: Any, name: str = "", describe: Optional[Describe] = None) -> Request:
        """Begins a request of a flow's stages, and comes back at once. Threads run what becomes ready. Further stages
        can be attached to it as to any other request.

        Args:
            flow: The plan. It can't be added to from now on.
            given: The values of its promises, in their order. Promises without a value are open.
            name: What histories call it. By default the flow's name and a number.
            describe: As in `request`.

        Returns:
            The request; `request[step]` is the stage of a step.

        Raises:
            ValueError: More values are given than there are promises."""
        return flow._start(self._kind, self._works, name or f"{flow.name} {next(self._requests)}", self, given)._describing(describe)

    def submit(self, fn: "Callable[P, T]", /, *args: "P.args", **kwargs: "P.kwargs") -> "Stage[T]":
        """Calls a function on one of the threads, in a request of one stage.

        Args:
            fn: Called with the other arguments.

        Returns:
            A stage that ends with what the function returns or raises.

        Raises:
            RuntimeError: The service is shut down. Where no thread can be started, the stage fails with this."""
        works = self._works
        if works.closed:
            raise works.refusal()
        request = self._kind(works, "", 1)
        stage: Stage[T] = request._attach(Form.SUPPLY, None, None, fn, args or None, kwargs or None, name_of(fn))
        return stage

    def open_requests(self) -> List[OpenRequest]:
        """The requests that aren't over, the longest-lasting first, and why each waits. Those of `submit` are among them. A line
        for each:

            print(*service.open_requests(), sep="\n")

        A service with `on_end` lists those that it hasn't told yet. Any other one looks through all objects of the process,
        during which no other thread runs: about 0.1 s for a million. Each request then takes about 20 µs."""
        return open_requests(self._works)

    def shutdown(self, wait: bool = True, *, cancel_futures: bool = False) -> None:
        """Takes no more functions. Those that were handed in are still called, and so are those of stages that become
        ready by them. What becomes ready later, as by a `complete`, fails with `RuntimeError`.

        Args:
            wait: Whether to wait until all threads have ended. A service with `on_end` then ends all its requests, and
                waits until that was told, for at most 30 seconds.
            cancel_futures: Whether to cancel the stages that no thread has taken yet, as `Stage.cancel` does."""
        self._works.close()
        try:
            if cancel_futures:
                self._works.cancel_all()
        finally:
            if wait:
                self._works.join()
                if self._works.ends is not None:
                    self._works.ends.end_all()
