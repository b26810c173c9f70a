"""Services whose requests stand in a store: they outlive processes, and machines share them."""
import concurrent.futures
import functools
import itertools
import logging
import math
import os
import threading
import weakref
from typing import TYPE_CHECKING, Any, Callable, Dict, List, Mapping, Optional, Sequence, Tuple, TypeVar

from ..service.ending import Ends, Hook
from ..service.flow import Flow
from ..service.history import Describe, describe_all
from ..service.words import COMPOSE_FORMS, RequestFull
from .codec import Json
from .contexts import Carrier, restored_context
from .earlier import first_try
from .followed import Became, Followed
from .functions import F, Functions, RegisteredFunction
from .host import HOST, Host
from .leader import PATIENCE, Hooks, Leader, Running
from .machine import Act, Told
from .plans import are_alike, text_of
from .request import Composing, DurableRequest, DurableStage, NotStill
from .rows import Broken, Gone, Grouped, Opened, Store, StoreError, Unknown, retrying_for_a_minute
from .view import SESSION_BITS

if TYPE_CHECKING:
    from typing_extensions import ParamSpec

    P = ParamSpec("P")

T = TypeVar("T")
LOGGER = logging.getLogger("cf.store")
ASKERS = 2  # threads that ask the store: one may be held up there
SHOWERS = 4  # threads that call who waits for what others have settled: some may be held up there
MOST_REST = 0.2  # seconds before it is looked again whether something is new
DONE = (Told.STANDS, Told.AS_ASKED, Told.SETTLED, Told.RUNS, Told.CLOSED)


class DurableService(concurrent.futures.Executor):
    """A service whose requests stand in a store, so that other processes go on with them: `Service(store=connect(..))`
    gives one.

        service = DurableService(connect("sqlite:///orders.db"))

        @service.function("charge", version=1)
        def charge(order): ...

        request = service.request("order 17")
        print(request.supply(load, 17).then(charge).or_timeout(30).result())

    It works on the requests that were begun, opened or resumed here. A child of `fork` may not use it.

    Args:
        store: What `connect` returned. `shutdown` closes it.
        max_workers: How many threads run functions. By default 4 more than there are processors, and at most 32. With 0
            this process runs none.
        functions: Registered functions, beside those that `function` registers here.
        codec: Makes bytes of values and exceptions. By default `Json()`.
        lease: After how many seconds without a sign of life other processes count this one as gone, and abandon the
            stages whose functions it runs.
        takes_all: Whether it works on all requests that are open in the store, as a `Worker` does.
        groups: Whether simultaneous puts become one commit.
        describe: Makes the texts of values and exceptions in histories, as of `cf.service.Service`.
        host: Has the clock, the threads and random numbers; for tests.
        on_end: Called with the `History` of each request that this process has closed, on a thread of its own, and in
            the context of the place where the request was opened, as far as `contexts` carry that. What it raises is
            logged as a warning. `SpanFile` and `Spans` of `cf.service` are such hooks.
        contexts: What of the context goes along with functions, wherever they are called: that of the place where each
            was attached, and of a flow that of the place where the request was begun. Each process that works on these
            requests has the same ones.

    Raises:
        ValueError: `max_workers` is below 0, `lease` isn't above 0 and finite, or a host is given beside `on_end`."""

    _numbers = itertools.count()

    def __init__(
        self,
        store: Store,
        max_workers: Optional[int] = None,
        *,
        functions: Optional[Functions] = None,
        codec: Optional[Json] = None,
        lease: float = 10,
        takes_all: bool = False,
        groups: bool = False,
        describe: Describe = describe_all,
        host: Host = HOST,
        on_end: Optional[Hook] = None,
        contexts: Sequence[Carrier] = (),
    ) -> None:
        workers = min(32, (os.cpu_count() or 1) + 4) if max_workers is None else max_workers
        if workers < 0:
            raise ValueError("max_workers must not be below 0")
        if not 0 < lease < math.inf:
            raise ValueError("lease must be above 0 and finite")
        if on_end is not None and host is not HOST:
            raise ValueError("a host and on_end aren't given together")
        self.store: Store = Grouped(store) if groups else store
        self.codec: Json = codec or Json()
        self._host = host
        self.functions: Functions = Functions()
        if functions is not None:
            self.functions.add(functions)
        self._describe, self._lease = describe, lease
        self.contexts: Tuple[Carrier, ...] = tuple(contexts)
        named = f"cf-store-{next(self._numbers)}"
        self._ends = None if on_end is None else Ends(on_end, f"{named}_ends")
        self._requests: Dict[str, DurableRequest] = {}
        # those that were closed
        self._left: "weakref.WeakValueDictionary[str, DurableRequest]" = weakref.WeakValueDictionary()
        self.broken: Dict[str, BaseException] = {}  # requests that can't be gone on with here, and why
        self._lock, self._is_over, self._process = threading.Lock(), threading.Event(), os.getpid()
        self._threads_own = threading.local()  # whether a thread calls functions
        self._shows = host.pool(SHOWERS, f"{named}_shows")
        self.leader: Leader = Leader(
            self.store,
            workers,
            self.functions,
            codec=self.codec,
            lease=lease,
            takes_all=takes_all,
            host=host,
            hooks=ServiceHooks(self),
            shows=self._shows,
        )
        self._threads = [host.pump(self._lead, f"{named}_asks") for _ in range(ASKERS)]
        self._threads.append(host.pump(self._listen, f"{named}_listens"))

    @property
    def session(self) -> int:
        """The number of its session, which is another one now and then."""
        return self.leader.session

    # What users call.

    def function(self, name: str = "", version: int = 1, transactional: bool = False) -> Callable[[F], F]:
        """Registers a function, as `Functions.function`.

        Raises:
            StoreError: It is to be transactional, and the store has no transactions that a function can take part
                in."""
        if transactional and not self.store.is_transactional:
            raise StoreError(f"{type(self.store).__name__} has no transactions that a function can take part in")
        return self.functions.function(name, version, transactional)

    def request(self, name: str = "", *, describe: Optional[Describe] = None) -> DurableRequest:
        """Opens a request without stages, or gives the one of this name as it stands in the store.

        Args:
            name: The request's name, by which other processes find it. By default one by chance.
            describe: Makes the texts of values and exceptions in its histories here, in place of the service's.

        Raises:
            RuntimeError: The service is shut down, or this process is a child of `fork`.
            Unknown: The store didn't answer for a minute.
            Broken: The row is damaged."""
        request = self._open_request(name or self._new_name("request"), text_of(None, self.functions, self.contexts), False)
        request._describe = describe or request._describe
        return request

    def start(self, flow: Flow, *given: Any, name: str = "", describe: Optional[Describe] = None) -> DurableRequest:
        """Begins a request of a flow's stages, or goes on with the one of this name in the store.

        Args:
            flow: The plan, whose functions are registered ones.
            given: The values of its promises, in their order. Those that are settled in the store stay as they are.
            name: The request's name. By default the flow's name and a number by chance.
            describe: As in `request`.

        Returns:
            The request; `request[step]` is the stage of a step.

        Raises:
            ValueError: More values are given than there are promises.
            TypeError: A function isn't registered, a step composes, or the codec can't write a value.
            Broken: The request of this name was begun with another plan, or its row can't be gone on with.
            RuntimeError, Unknown: As in `request`."""
        if len(given) > len(flow._promises):
            raise ValueError(f"{flow.name} has {len(flow._promises)} promises")
        payloads = [self.codec.write(it) for it in given]
        request = self._open_request(name or self._new_name(flow.name), text_of(flow, self.functions, self.contexts), True)
        request._describe = describe or request._describe
        request._complete_all(list(zip(flow._promises, payloads)))
        return request

    def open(self, name: str) -> DurableRequest:
        """Opens a request of the store, whichever process began it.

            service.open("order 17")["approval"].complete("yes")

        Raises:
            KeyError: There is none of this name.
            Unknown, Broken: As in `request`."""
        found = self._retrying_for_a_minute(lambda: self.store.find(name), name)
        if found is None:
            raise KeyError(name)
        return self._take(found)

    def submit(self, fn: "Callable[P, T]", /, *args: "P.args", **kwargs: "P.kwargs") -> "DurableStage[T]":
        """Calls a registered function, in a request of one stage, which is closed once that is settled.

        Args:
            fn: The function. It is called with the other arguments, which have to be what JSON has.

        Returns:
            A stage that ends with what the function returns or raises."""
        flow = Flow("submit")
        step = flow.supply(fn, *args, **kwargs)
        return self.start(flow)[step]

    def resume(self) -> List[DurableRequest]:
        """Goes on with all open requests of the store, as after a crash. Leaves out and logs damaged ones, which `broken`
        lists.

        Returns:
            The requests."""
        names = self._retrying_for_a_minute(self.store.ends, "")
        return [request for request in map(self._find_or_open, names) if request is not None]

    def running(self) -> List[Running]:
        """The functions that run in this process now, the longest-running first."""
        return self.leader.running()

    def shutdown(self, wait: bool = True, *, cancel_futures: bool = False) -> None:
        """Begins no more functions, and finishes the running ones. Open requests stay in the store, and other processes go
        on with them.

        Args:
            wait: Whether to wait for running functions, and at most 30 seconds for `on_end`, and then close the store.
            cancel_futures: Whether to cancel unclaimed stages of flows, as of `submit`, that were asked for here."""
        for request in list(self._requests.values()) if cancel_futures else ():
            try:
                request._cancel_all()
            except (Unknown, StoreError) as error:
                LOGGER.warning("request %r: %s", request.name, error)
        self.leader.stop()
        if wait and threading.current_thread() not in self._threads:
            for thread in self._threads:
                thread.join()
            self.leader.release()
            self._shows.shutdown()
            if self._ends is not None:
                self._ends.end_all()
            self.store.close()

    # Requests that are worked on.

    def _open_request(self, name: str, plan: str, same: bool) -> DurableRequest:
        if self._process != os.getpid():
            raise RuntimeError("a child of fork can't use its parent's service")
        if self.leader.is_stopping:
            raise RuntimeError("cannot schedule new futures after shutdown")
        found = self._retrying_for_a_minute(lambda: self.store.open(name, plan), name)
        if same and not are_alike(found.plan, plan):
            raise Broken(name, 0, "it was begun with another plan")
        kept = self._take(found)
        if kept.number != found.number:  # it was dropped meanwhile, and another of its name begun
            return self._open_request(name, plan, same)
        return kept

    def _new_name(self, first: str) -> str:
        """A name that no other request has."""
        return f"{first} {self._host.number(SESSION_BITS):x}"

    def _retrying_for_a_minute(self, call: Callable[[], T], name: str) -> T:
        return retrying_for_a_minute(call, name, 0, PATIENCE, host=self._host)

    def _take(self, found: Opened) -> DurableRequest:
        """Works on a request, and gives it once its words are read."""
        followed = self.leader.follow(found)
        self.leader.lead_until(followed.is_begun)
        request = self._object_of(followed)
        self._catch_up(request)
        return request

    def _object_of(self, followed: Followed) -> DurableRequest:
        """The one object of a request, or that of a later one of its name."""
        with self._lock:
            known = self._requests.get(followed.name) or self._left.get(followed.name)
            if known is None or known.number < followed.number:
                known = DurableRequest(self, followed)
            if followed.is_closed:
                self._left[followed.name] = known
            else:
                self._requests[followed.name] = known
                self._left.pop(followed.name, None)
            return known

    def _find_or_open(self, name: str) -> Optional[DurableRequest]:
        """A request of the store, or None where it is damaged or gone."""
        try:
            return self.open(name)
        except (KeyError, Broken):  # (the log has it)
            return None

    # What is asked of the machine.

    def _asked(
        self,
        request: DurableRequest,
        act: Act,
        payload: Optional[bytes],
        definition: Optional[Mapping[str, Any]] = None,
        still: Optional[Callable[[], bool]] = None,
    ) -> "concurrent.futures.Future[Became]":
        """Asks for an act, which is put only where it is still wanted then."""
        if self._is_over.is_set():
            raise RuntimeError("cannot ask for anything after shutdown")
        return self.leader.act(request._followed, act, payload, definition, still=still)

    def _told(self, request: DurableRequest, asked: "concurrent.futures.Future[Became]", still: Optional[Callable[[], bool]] = None) -> Became:
        """Waits until it is told what became of an act. `NotStill` where it wasn't wanted any more."""
        followed = request._followed
        became = self._settled(asked)
        if became.told in DONE:
            return became
        if became.told is Told.REFUSED and still is not None and not still():
            raise NotStill
        raise {
            Told.UNKNOWN: Unknown(f"request {request.name!r}: the store doesn't answer"),
            Told.REFUSED: followed.refused or StoreError(f"request {request.name!r}: the store refuses it"),
            Told.NO_STAGE: KeyError(became.stage),
            Told.NO_ROOM: RequestFull("a request has at most 4,096 stages"),
            Told.NO_TRY: TypeError("the stage has no function that could be tried again"),
        }.get(became.told) or followed.why or Broken(request.name, 0, "its row can't be gone on with")

    def _settled(self, asked: "concurrent.futures.Future[T]") -> T:
        """Waits for this, and raises what is raised by callbacks of stages that were settled by then. A thread that calls functions
        has more to do, and logs it."""
        try:
            return self.leader.lead_until(asked)
        except BaseException as error:
            if not (asked.done() and getattr(self._threads_own, "calls", False)):
                raise
            self._host.report_raised("a callback has raised", error)
            return asked.result()

    def _catch_up(self, request: DurableRequest) -> None:
        self.leader.catch_up(request._followed)
        self.leader.show_settled(request._followed)

    def _end(self, request: DurableRequest) -> None:
        self._told(request, self.leader.end(request._followed))

    def _set_timer(self, request: DurableRequest, stage: int, seconds: float, payload: bytes) -> None:
        self._retrying_for_a_minute(lambda: self.leader.set_timer(request._followed, stage, seconds, payload), request.name)

    # Threads.

    def _lead(self) -> None:
        self._guarded(self.leader.run)
        self._is_over.set()

    def _listen(self) -> None:
        while not self._is_over.is_set():
            self._guarded(self._hear)

    def _hear(self) -> None:
        self.store.wait_for_change(min(MOST_REST, self._lease / 5))
        self.leader.stir()

    def _guarded(self, call: Callable[[], None]) -> None:
        """Calls this again where it raises, unless it is over."""
        while not self._is_over.is_set():
            try:
                return call()
            except Unknown as error:
                self._host.warn(f"the store doesn't answer: {error}", "")
            except BaseException as error:
                if not self.leader.is_stopping:
                    self._host.report_raised("a thread of a service", error)
            self._host.rest(self._is_over, MOST_REST)


def carried_context(request: Followed, stage: int) -> Mapping[str, Any]:
    """The context that a stage's function gets, from the place where the stage was attached."""
    assert request.plan is not None
    found: Mapping[str, Any] = request.plan.carried_context if stage < request.planned else request.definitions[stage].get("context", {})
    return found


class ServiceHooks(Hooks):
    """What a service does for its leader."""

    def __init__(self, service: DurableService) -> None:
        super().__init__(service._host)
        self.service = service

    def call(self, request: Followed, stage: int, known: RegisteredFunction, args: Tuple[Any, ...], kwargs: Mapping[str, Any]) -> Any:
        """Calls a function, with its own context where contexts go along. Of one that composes it gives the number of the stage
        that this gives."""
        service, call = self.service, self.service._host.call
        service._threads_own.calls = True
        if service.contexts:
            call = functools.partial(restored_context(service.contexts, carried_context(request, stage)).run, call)
        if request.forms[stage][0] not in COMPOSE_FORMS:
            return call(known, *args, **kwargs)
        its = service._object_of(request)
        with its._composing(Composing(stage, first_try(request.definitions, stage))):
            given = call(known, its, *args, **kwargs)
        if not isinstance(given, DurableStage) or given.request is not its:
            raise TypeError(f"{known.name} has to give a stage of the request")
        return given.number

    def closed(self, request: Followed) -> None:
        """Hands a request that this process has closed to the hook."""
        service = self.service
        if service._ends is not None and request.plan is not None:
            try:
                its = service._object_of(request)
                service._ends.tell(its._history, restored_context(service.contexts, request.plan.carried_context))
            except Exception:
                LOGGER.warning("the end of request %r isn't told", request.name, exc_info=True)
        self.let_go(request)

    def let_go(self, request: Followed) -> None:
        """It is closed: nobody keeps it but who has it."""
        service = self.service
        with service._lock:
            known = service._requests.get(request.name)
            if known is not None and known.number == request.number:
                del service._requests[request.name]
                service._left[request.name] = known

    def broken(self, request: Followed, error: Broken) -> None:
        """Nothing goes on in a request here."""
        service = self.service
        if not isinstance(error, Gone):  # (another of its name may be begun)
            service.broken[request.name] = error
        with service._lock:
            for known in (service._requests, service._left):
                if known.get(request.name) is not None and known[request.name].number == request.number:
                    del known[request.name]
