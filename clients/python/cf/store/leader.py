"""Leads the machine of a process at work on a store: does what it orders, and hands in the answers.

The design, which this file leads through:

The machine (machine.py) decides all: who is asked what, what is put, which function is called, whose session is gone, who is
told. The leader has what the machine knows by numbers alone: the store, requests by their names, functions by theirs,
payloads, a clock. `step` asks the machine what is next, and does that.

What guards what
    `_lock` guards the machines and what is kept beside them (followed.py). What an order needs of that is taken in the same hold
    in which the order is told, and an answer is handed in together with what it changes there. No store, function, codec,
    hook or waiter is called with it.

Who leads
    Several threads at a time: those in `run`; who waits for an act (`lead_until`); and who has called a function, until its
    finish stands (`_stay`). That one calls the next function, too, if that is due then. A thread that takes an order that asks
    the store looks whether there is another, and wakes who waits for that. One that leaves does so, too.

What happens at an order
    A question goes to the store, and its answer to the machine. A store that doesn't answer is asked again by the machine, a
    put as it is. A call goes to the pool once the payloads of its arguments are read; what it came to is kept until the
    machine has put that. A stage that is shown is given to its waiters once its payload is read. Where payloads can't be read
    now, that order is done later. Who asked for an act shows what it settled before he goes on.

What a refusal is
    A store that refuses the finish of a function may refuse this payload, or anything now. So the finish is put once more
    before its payload counts as refused, and it doesn't count while the store doesn't take a beat.

Transactional functions
    The machine hears at once that such a function has come to a value. The function is called when its finish is put, within
    a transaction of the store in which that is put, too. If the place was taken or the transaction was lost, the machine
    orders the put again where the stage is still to be finished, and the function is called again. If it raises, the put is
    refused, and the machine puts the error in its place.

Timers
    They stand in the store's table, since rows of this format have none, and are fired as acts. The machine has no act by
    which a stage times out, so the word of one that fails the stage is written so (`PutUnderWay`), and the machine reads it as it stands.

Machines
    A machine forgets no request. So where many are closed, a new machine begins, with a session of its own, as another process
    would (`_renew`). The old one claims no more. A request in which nothing of it is under way goes over to the new one, which
    reads the row again; a closed one is forgotten, and taken up again where somebody asks for it (`_take_up`).

The end
    Behind `stop` no function begins. What runs is finished, and what it came to is put for a minute. A claim that is found
    then is left: others fail its stage once this session is silent.
"""
import collections
import contextlib
import functools
import heapq
import itertools
import logging
import math
import os
import socket
import threading
import weakref
from concurrent.futures import Executor, Future
from typing import Any, Callable, Deque, Dict, Generator, List, Mapping, NamedTuple, Optional, Sequence, Set, Tuple, TypeVar, Union

from ..service.words import ATTACH, COMPOSE_FORMS, IS_READY, MOST_STAGES, OutcomeNumbers
from ..values import Cancelled, Code, Form, Outcome, Refused, Thrown
from .codec import Json
from .earlier import arguments_of_call, called_definition, first_try
from .followed import Asked, Became, Call, Due, Followed, PutUnderWay, ReadEntry, Show, Shown, Transacted, room_beside
from .functions import Functions, RegisteredFunction
from .glances import glance_of
from .glances import read as read_glance
from .host import HOST, Host
from .machine import Act, ActKind, Answer, Ends, Machine, Order, OrderKind, Source, Told
from .notes import FunctionNumbers
from .payloads import Payloads
from .plans import SharedPlan
from .rows import COUNT_BITS, Broken, Glance, Gone, Opened, Store, StoreError, Timer, Transaction, Unknown, retrying_for_a_minute
from .view import SESSION_BITS, RowView

T = TypeVar("T")
LOGGER = logging.getLogger("cf.store")
PATIENCE = 60.0  # seconds
PAUSE = 100  # milliseconds before a payload is asked for again
TIMERS = 0.02  # seconds between two looks at timers
LONGEST_REST = 60.0  # seconds
LONG = 60  # seconds of a function, from which on it is told of
MOST_TOLD = 5  # such functions in a line
MOST_GLANCES = 500  # that a beat keeps
LONG_GONE = 100  # leases
MOST_LOOKED_AT = 100  # stages, or orders, that are looked at behind an act
MOST_ORDERS = 16  # that a thread of the pool does behind the finish of its function
OF_ROWS = (OrderKind.OPEN, OrderKind.READ, OrderKind.PUT, OrderKind.CLOSE)  # that ask the store about a request
OF_REQUESTS = (*OF_ROWS, OrderKind.SHOW)
ASK = (OrderKind.BEAT, OrderKind.LIST, OrderKind.NEWS, *OF_ROWS)  # that ask the store
MOST_CLOSED = 100  # requests, more than which are left, where they are more than the open ones

Key = Tuple[int, int]  # a session, and a ticket of its machine
Give = Callable[[int], None]  # hands an answer in, by the moment at which it came
Ended = Tuple[Ends, Optional[bytes], int]  # what a function came to: its payload, and the place of an error or the given stage


class Running(NamedTuple):
    """A running function, with its request, its stage and the seconds that it has run."""

    request: str
    stage: int
    function: str
    seconds: float

    def __str__(self) -> str:
        return f"{self.function} (request {self.request!r}, stage {self.stage}) for {self.seconds:.0f} s"


class Hooks:
    """What a leader has others do. Nothing of it is called with a lock."""

    def __init__(self, host: Host = HOST) -> None:
        self._host = host

    def call(self, request: Followed, stage: int, known: RegisteredFunction, args: Tuple[Any, ...], kwargs: Mapping[str, Any]) -> Any:
        """Calls a function, and gives its value; of one that composes the number of the stage that it gave. A transactional one
        has the connection first."""
        if request.forms[stage][0] in COMPOSE_FORMS:
            raise TypeError(f"{known.name} composes, for which there is nothing to attach stages by")
        return self._host.call(known, *args, **kwargs)

    def closed(self, request: Followed) -> None:
        """This process has closed a request."""

    def let_go(self, request: Followed) -> None:
        """A request is closed, whoever closed it."""

    def broken(self, request: Followed, error: Broken) -> None:
        """Nothing goes on in a request here."""


class Leader:
    """A process at work on the requests of a store.

    Args:
        store: Where they stand.
        workers: How many functions may run at a time.
        functions: The functions that it knows. One that is registered later isn't called in requests that have begun here.
        codec: Makes bytes of values and exceptions.
        lease: After how many seconds without a beat a session counts as gone.
        takes_all: Whether it works on all requests that are open in the store.
        host: Has the clock, the threads and random numbers.
        hooks: What others do.
        shows: Calls those who wait for a stage, where it isn't done at once."""

    def __init__(
        self,
        store: Store,
        workers: int,
        functions: Functions,
        *,
        codec: Optional[Json] = None,
        lease: float = 10,
        takes_all: bool = False,
        host: Host = HOST,
        hooks: Optional[Hooks] = None,
        shows: Optional[Executor] = None,
    ) -> None:
        self.store = store
        self._host, self._takes_all, self._lease, self._workers = host, takes_all, lease, workers
        self._hooks, self._shows = hooks or Hooks(host), shows
        self.sessions: Set[int] = set()  # all that it has had
        self._machine, self._old = self._new_machine(), None  # type: Machine, Optional[Machine]
        self._closings = 0  # how many requests it has closed since it looked whether to begin with a new machine
        self._moving: Set[Followed] = set()  # the requests that the old machine still works on
        self.payloads, self.numbers = Payloads(store, codec or Json()), FunctionNumbers(functions)
        self._pool: Executor = host.pool(max(workers, 1), "cf-store")
        self._lock = host.lock()
        self._stirs = threading.Condition(self._lock)
        self._wakes: Dict[int, float] = {}  # by threads that rest, until when
        self._hopes = 0  # how many of these hope for something
        self._runs = 0  # how many threads run it
        self._requests: Dict[int, Followed] = {}
        # closed ones that it works on no more, while somebody has them
        self._forgotten: "weakref.WeakValueDictionary[int, Followed]" = weakref.WeakValueDictionary()
        self._by_name: Dict[str, Followed] = {}
        self._dropped: Set[str] = set()  # names of dropped requests, of which others may have been begun since
        self._asking: Dict[Key, Followed] = {}  # by the tickets of acts and ends
        self._running: Dict[Key, Tuple[Followed, int, str, float]] = {}  # by tickets, functions that are to run or run, and since when
        self._stays: Dict[int, _Stay] = {}  # by threads of the pool
        self._ready: Deque[Order] = collections.deque()  # orders that were told and that nobody does yet
        self._duties: Deque[Callable[[], None]] = collections.deque()  # what is to be done besides
        self._later: List[Tuple[int, int, Order]] = []  # orders whose payloads couldn't be read, by moments
        self._laters = itertools.count()
        self._mark: Any = None  # up to which the store has told its news
        self._marks = 0
        self._is_whole_due = False  # whether the next look is at all that is open
        self._lengths: Dict[int, int] = {}  # of requests of which it is known before the next look
        self._next_timers = 0.0
        self._firing: Set[Tuple[str, int, float]] = set()
        self._named: Set[int] = set()  # the sessions that have a name in the store
        self._is_released = False
        self._words: Dict[int, int] = {}  # by other sessions, how many words of them were read behind seen ones
        self._silent: Dict[int, Tuple[int, float]] = {}  # by sessions, their beats and since when
        self._next_told = 0.0  # when functions that run for long are told of
        self._unanswered: Set[int] = set()  # requests whose question stayed without an answer, and 0 for the store's own
        self._unread: Set[Tuple[int, int]] = set()  # requests and stages of these orders
        self._last_put = math.inf  # until when a value is put that a function came to, once it stops
        self._questions: Dict[OrderKind, Callable[[Order], Give]] = {
            OrderKind.BEAT: self._beat,
            OrderKind.LIST: self._look,
            OrderKind.NEWS: self._look,
            OrderKind.OPEN: self._open,
            OrderKind.READ: self._read,
            OrderKind.CLOSE: self._close,
        }

    # What users ask.

    def follow(self, opened: Opened) -> Followed:
        """Works on a request from now on. Its `is_begun` ends once the machine has its plan, or with the reason why it can't be
        worked on."""
        with self._lock:
            request = self._known(opened)
            self._wake()
            return request

    @property
    def session(self) -> int:
        """The number of its session, by which it claims stages now."""
        return self._machine.session

    def act(
        self,
        request: Followed,
        act: Act,
        payload: Optional[bytes] = None,
        definition: Optional[Mapping[str, Any]] = None,
        *,
        still: Optional[Callable[[], bool]] = None,
        times_out: bool = False,
    ) -> "Future[Became]":
        """A user asks this of a request that has begun, and waits for it by `lead_until`.

        Args:
            payload, definition: What stands beside its word: a payload, or the definition of an attached stage.
            still: Asked without a lock before each put of it, by the words seen before the put's place. Where it says no, the act
                is told to be refused.
            times_out: Whether the stage that it fails times out with that.

        Raises:
            StoreError: A transactional function runs on this thread, whose finish would wait for this.
            RuntimeError: It is over."""
        self._check_may_act(request)
        became: "Future[Became]" = Future()
        with self._opened(request) as machine:
            ticket = machine.act(self._now(), request.number, act)
            request.acts.append(Asked(ticket, act, payload, definition or {}, became, still, times_out))
            self._asking[machine.session, ticket] = request
        return became

    def end(self, request: Followed) -> "Future[Became]":
        """A user ends a request that has begun: it is closed once nothing is due in it."""
        self._check_may_act(request)
        became: "Future[Became]" = Future()
        with self._opened(request) as machine:
            ticket = machine.end(self._now(), request.number)
            request.ends[ticket], self._asking[machine.session, ticket] = became, request
        return became

    @contextlib.contextmanager
    def _opened(self, request: Followed) -> Generator[Machine, None, None]:
        """Takes the lock, and gives the machine that has the plan and the words of a request, which it may have to read again."""
        until = self._host.monotonic() + PATIENCE
        while True:
            with self._lock:
                if request.machine is not None and (request.is_open or request.why is not None):
                    yield request.machine
                    return
                if request.why is not None:
                    raise request.why
                self._take_up(request)
            if self._host.monotonic() > until or self._is_released:
                raise Unknown(f"request {request.name!r}: the store doesn't answer")
            self._lead_while(lambda: not request.is_open and request.why is None and not self._is_released, until)

    def _check_may_act(self, request: Followed) -> None:
        if self._is_released:
            raise RuntimeError("cannot ask for anything after shutdown")
        if threading.get_ident() in request.transacts:
            raise StoreError(f"request {request.name!r}: its transactional function can't put to it: that takes the place of its finish")
        self.store.check_may_put()

    def lead_until(self, future: "Future[T]") -> T:
        """Does orders until a future has ended, and gives its result. Of an act it shows before what that has settled, and raises
        what a waiter raises."""
        future.add_done_callback(lambda _: self._notify())
        try:
            self._lead_while(lambda: not future.done())
        except BaseException:  # whoever waited is interrupted, and another shows what is settled
            future.add_done_callback(self._show_left)
            raise
        told = future.result()
        if isinstance(told, Became):
            _raise(self._show_each(told.request, told.shows))
        return told

    def _show_left(self, future: "Future[T]") -> None:
        """Shows what an act has settled for which nobody waits any more."""
        told = None if future.exception() else future.result()
        if isinstance(told, Became):
            self._report(told.request, self._show_each(told.request, told.shows))

    def wait_for(self, request: Followed, stage: int, show: Show) -> None:
        """Shows somebody what a stage of a request that has begun came to: at once where it is settled by what was seen, or else
        once it is."""
        with self._lock:
            request.waiters.setdefault(stage, []).append(show)
            self._take_up(request)
            if request.machine is not None and request.is_open:  # (else it asks for all that is waited for)
                request.machine.wants(request.number, stage)
            due = self._due_of(request, [stage])
        _raise(self._show_each(request, due))

    def show_settled(self, request: Followed) -> None:
        """Shows all settled stages of a request to those who wait for them."""
        with self._lock:
            due = [] if request.shown == request.words else self._due_of(request, list(request.waiters))
            request.shown = request.words
        _raise(self._show_each(request, due))

    def catch_up(self, request: Followed) -> None:
        """Reads what stands in a request that has begun. `Unknown` where the store doesn't answer for a minute, `Broken` where the
        request can't be gone on with."""
        with self._opened(request):
            seen = request.words
        try:
            more = retrying_for_a_minute(lambda: self.store.read(request.name, seen, request.number), request.name, 0, PATIENCE, host=self._host)
        except Broken as error:
            self._lose(request, error)
            raise
        words, until = seen + len(more), self._host.monotonic() + PATIENCE
        if request.words < words:
            with self._lock:
                self._hear_of(request, words)
            self._lead_while(lambda: request.words < words and request.why is None and not self._is_released, until)
        if request.why is not None:
            raise request.why
        if request.words < words:
            raise Unknown(f"request {request.name!r}: the store doesn't answer")

    def outcome(self, request: Followed, stage: int) -> Optional[Outcome]:
        """What a stage came to, by what was seen, or None where it is open."""
        with self._opened(request) as machine:
            return machine.outcome(request.number, stage)

    def stage_now(self, request: Followed, stage: int) -> Tuple[int, OutcomeNumbers]:
        """The kind of a stage's state and its outcome, by what was seen."""
        with self._opened(request) as machine:
            return machine.stage(request.number, stage)

    def running(self) -> List[Running]:
        """The functions that run here now, those first that run longest."""
        now = self._host.monotonic()
        with self._lock:
            told = [Running(request.name, stage, name, now - since) for request, stage, name, since in self._running.values()]
        return sorted(told, key=lambda it: -it.seconds)

    def set_timer(self, request: Followed, stage: int, seconds: float, payload: bytes) -> None:
        """Sets the timer of a stage. `payload` is E and an error, by which the stage times out; V and a value; or N."""
        self.store.set_timer(Timer(request.name, stage, self.store.now() + seconds, payload, request.number))

    def stir(self) -> None:
        """The store says that something is new."""
        with self._lock:
            for machine in self._machines():
                machine.stirred(self._now())
            self._wake()

    def stop(self) -> None:
        """Begins no more functions."""
        with self._lock:
            for machine in self._machines():
                machine.stop()
            self._last_put = min(self._last_put, self._host.monotonic() + PATIENCE)
            self._stirs.notify_all()

    def release(self) -> None:
        """Lets the threads go that call functions, once it is over. Who still waits for an act is told that it may stand."""
        self._pool.shutdown()
        with self._lock:
            self._is_released = True
            left = [(request, request.told(ticket)) for (_, ticket), request in self._asking.items()]
            self._asking.clear()
            lost = [(request.name, stage) for request in self._requests.values() for stage in request.results]
        for name, stage in lost:
            LOGGER.error("request %r, stage %d: what its function came to is lost: the store doesn't take it", name, stage)
        for request, became in left:
            became.set_result(Became(Told.UNKNOWN, 0, request, ()))
        with contextlib.suppress(Unknown, StoreError):  # others see it by its silence
            for session in self.sessions:
                self.store.drop_beat(session)

    # Steps.

    def step(self) -> Optional[float]:
        """Does what is to be done next, and returns None; or returns the moment, in seconds of the host's clock, before which
        nothing is to be done."""
        with self._lock:
            next_ = self._next()
        if isinstance(next_, float):
            return next_
        next_()
        return None

    def beat(self) -> None:
        """Does the beat that is due, and nothing else."""
        with self._lock:
            order = self._turn(self._now())
            if order.kind is not OrderKind.BEAT:
                self._ready += [order] if order.kind is not OrderKind.SLEEP else []
                return
            do = self._doing(order)
        do()

    def run(self) -> None:
        """Steps until it is over and nothing is to be done at once, or a minute has gone by; and rests between. Several threads
        may run it."""
        with self._lock:
            self._runs += 1
        try:
            while not self.is_over or self._host.monotonic() <= self._last_put:
                with self._lock:
                    next_ = self._next()
                    if isinstance(next_, float):
                        if self.is_over:
                            return
                        self._rest(next_)
                        continue
                next_()
        finally:
            with self._lock:
                self._runs -= 1

    @property
    def is_stopping(self) -> bool:
        """Whether `stop` was called."""
        return self._last_put < math.inf

    @property
    def is_busy(self) -> bool:
        """Whether a function runs here, or is to run."""
        return bool(self._running)

    @property
    def owes(self) -> bool:
        """Whether a function came to something that doesn't stand yet."""
        with self._lock:
            return any(request.results for request in self._requests.values())

    @property
    def is_over(self) -> bool:
        """Whether it was stopped, no function runs, and nothing is left to be put, or that was tried for a minute."""
        return self.is_stopping and not self.is_busy and (not self.owes or self._host.monotonic() > self._last_put)

    def followed(self, name: str) -> Optional[Followed]:
        """The request of this name that it works on, if it does."""
        return self._by_name.get(name)

    def is_firing(self, timer: Timer) -> bool:
        """Whether a timer is fired now."""
        return timer[:3] in self._firing

    @property
    def is_unanswered(self) -> bool:
        """Whether a question about a row has stayed without an answer, and is asked again."""
        return any(number and not self._requests[number].is_asked for number in self._unanswered.copy())

    def _lead_while(self, is_wanted: Callable[[], bool], until: float = math.inf) -> None:
        """Does orders while this says so, until a moment. The main thread, which a signal may interrupt anywhere, leaves them to
        those that run, if there are any."""
        is_main = threading.current_thread() is threading.main_thread()
        while is_wanted():
            is_spared = is_main and self._runs > 0
            if is_spared:  # (also where it was woken in place of another)
                self._leave_to_others()
            with self._lock:
                next_ = math.inf if is_spared else self._next()
                if isinstance(next_, float):
                    if self._host.monotonic() > until:
                        break
                    if is_wanted():
                        self._rest(min(next_, until), hopes=True)
                    continue
            next_()
        self._leave_to_others()

    def _rest(self, until: float, hopes: bool = False) -> None:
        """Waits until a moment, or until something is new. Who hopes for something is woken by each answer."""
        me = threading.get_ident()
        self._wakes[me], self._hopes = until, self._hopes + hopes
        try:
            self._host.wait(self._stirs, min(max(until - self._host.monotonic(), 0.001), LONGEST_REST))
        finally:
            del self._wakes[me]
            self._hopes -= hopes

    def _notify(self) -> None:
        with self._lock:
            if self._hopes:
                self._stirs.notify_all()

    def _leave_to_others(self, until: Optional[float] = None) -> None:
        """Wakes a thread that rests, where there is something to do before it would wake; until then nothing is, if that is known."""
        with self._lock:
            if not self._wakes:  # (who does something comes back)
                return
            if until is None and not self._ready and not self._duties:
                order = self._turn(self._now())
                if order.kind is OrderKind.SLEEP:
                    until = self._until(order)
                else:
                    self._ready.append(order)
            if until is None or until < min(self._wakes.values()):
                self._stirs.notify()

    def _next(self) -> Union[Callable[[], None], float]:
        """What is to be done next, which is done without the lock, or until when nothing is."""
        if self._duties:
            return self._duties.popleft()
        now = self._now()
        if self._later and self._later[0][0] <= now:
            return self._doing(heapq.heappop(self._later)[2])
        order = self._ready.popleft() if self._ready else self._turn(now)
        if order.kind is OrderKind.SLEEP:
            return self._until(order)
        if self._wakes and not self._ready and order.kind in ASK:
            further = self._turn(now)
            if further.kind is not OrderKind.SLEEP:
                self._ready.append(further)
        if self._wakes and self._ready:
            self._stirs.notify()
        return self._doing(order)

    def _until(self, order: Order) -> float:
        """Until when nothing is to be done, where the machine says so."""
        return min([order.moment, *(at for at, _, _ in self._later[:1])]) / 1000

    def _doing(self, order: Order) -> Callable[[], None]:
        kind = order.kind
        if kind in OF_REQUESTS:
            request = self._requests.get(order.request)
            if request is None or request.machine is not order.machine or request.why is not None and kind is not OrderKind.SHOW:
                if kind is not OrderKind.SHOW:
                    order.machine.answered(self._now(), order.ticket, Answer.DROPPED)
                return _nothing
            request.is_asked = request.is_asked or kind is not OrderKind.SHOW
        if kind is OrderKind.PUT:
            return self._putting(order)
        if kind in self._questions:
            return functools.partial(self._ask, order, self._questions[kind])
        if kind is OrderKind.CALL:
            return self._calling(order)
        if kind is OrderKind.SHOW:
            return self._showing(order)
        if kind is OrderKind.TELL:
            return self._telling(order)
        return _nothing  # (STOP: nobody can stop a thread)

    def _do_later(self, order: Order, request: Followed, error: BaseException) -> None:
        with self._lock:
            is_new = (order.request, order.stage) not in self._unread
            self._unread.add((order.request, order.stage))
            heapq.heappush(self._later, (self._now() + PAUSE, next(self._laters), order))
        if is_new:
            self._host.warn(f"request {request.name!r}, stage {order.stage}: {error}", request.name)

    def _now(self) -> int:
        return int(self._host.monotonic() * 1000)

    # Questions to the store.

    def _ask(self, order: Order, question: Callable[[Order], Give]) -> None:
        try:
            give = question(order)
        except self._host.leaves:
            raise
        except Broken as error:
            give = self._lost(order, error)
        except Exception as error:  # no answer came, or the store refuses it
            give = self._unanswered_by(order, error)
        self._give(order, give)

    def _give(self, order: Order, give: Give) -> None:
        """Hands an answer in."""
        with self._lock:
            self._unanswered.discard(order.request)
            if order.kind in OF_ROWS:
                self._requests[order.request].is_asked = False
            try:
                give(self._now())
            except Refused as refused:
                if refused.code != Code.NO_MEMORY:
                    raise
                order.machine.answered(self._now(), order.ticket, Answer.UNKNOWN)
            if self._hopes or self.is_stopping:
                self._stirs.notify_all()

    def _unanswered_by(self, order: Order, error: BaseException) -> Give:
        def give(now: int) -> None:
            self._unanswered.add(order.request)
            order.machine.answered(now, order.ticket, Answer.UNKNOWN)

        if order.request not in self._unanswered:  # (it is asked again some 50 times a second)
            name = self._requests[order.request].name if order.request else ""
            said = f"the store doesn't answer: {error}" if isinstance(error, Unknown) else str(error)
            self._host.warn(f"request {name!r}, place {order.place + 1}: {said}" if name else said, name)
        return give

    def _lost(self, order: Order, error: Broken) -> Give:
        """The request isn't there any more, or what stands there can't be read."""
        request = self._requests[order.request]

        def give(now: int) -> None:
            self._leave(request, error)
            order.machine.answered(now, order.ticket, Answer.DROPPED)

        return give

    def _lose(self, request: Followed, error: Broken) -> None:
        """The same, where nothing was asked: the machine hears of it by its next question about the row."""
        with self._lock:
            self._leave(request, error)
            self._hear_of(request, request.words + 1)

    def _leave(self, request: Followed, error: Broken) -> None:
        if request.why is not None:
            return
        request.why = error
        request.results.clear()  # (nobody puts them)
        request.transacted.clear()
        if self._by_name.get(request.name) is request:
            del self._by_name[request.name]
            self._dropped.update([request.name] if self._takes_all else [])
        self._duties.append(functools.partial(self._told_broken, request, error))

    def _told_broken(self, request: Followed, error: Broken) -> None:
        self._host.report_broken(error)
        if not request.is_begun.done():
            request.is_begun.set_exception(error)
        self._hooks.broken(request, error)

    def _hear_of(self, request: Followed, words: int) -> None:
        """The next look tells the machine that a request has so many words, and comes at once."""
        self._lengths[request.number] = words
        for machine in self._machines():
            machine.stirred(self._now())
        self._wake()

    def _wake(self) -> None:
        if self._wakes:
            self._stirs.notify()

    def _answering(self, order: Order, answer: Answer) -> Give:
        return lambda now: order.machine.answered(now, order.ticket, answer)

    def _beat(self, order: Order) -> Give:
        session = order.machine.session
        self.store.beat(session)
        if session not in self._named:
            self.store.name_session(session, f"{socket.gethostname()} {os.getpid()}")
            self._named.add(session)
        beats, clock = self.store.beats(), self.store.now()
        for session in self._long_gone(beats):
            self.store.drop_beat(session)

        def give(now: int) -> None:
            # (a word is a sign of life, too; and a session that has never beaten counts from its first one on)
            told = {session: beats.get(session, 0) + self._words.get(session, 0) for session in (*beats, *self._words)}
            order.machine.beats(now, order.ticket, int(clock * 1000), told)
            self._is_whole_due = True
            self._duties += [self._keep_glances, self._tell_long] if self._host.glances else [self._tell_long]
            self._renew()

        return give

    def _long_gone(self, beats: Mapping[int, int]) -> List[int]:
        """The sessions that haven't beaten for very long."""
        now = self._host.monotonic()
        for session, count in beats.items():
            if self._silent.get(session, (-1, 0.0))[0] != count:
                self._silent[session] = (count, now)
        gone = [session for session, (_, since) in self._silent.items() if since < now - LONG_GONE * self._lease]
        for session in gone:
            del self._silent[session]
        return gone

    def _look(self, order: Order) -> Give:
        self._fire_due()
        is_whole = order.kind is OrderKind.LIST or self._is_whole_due or self._mark is None
        ends, mark = self.store.news(None if is_whole else self._mark)
        ends = {**dict.fromkeys(self._dropped.copy(), 0), **ends}
        lengths: Dict[int, int] = {}
        for name, end in ends.items():
            request = self._by_name.get(name) or (self._find(name) if self._takes_all else None)
            if request is not None:
                # (a row gets no shorter: where it has, it is another's of the name)
                lengths[request.number] = end if end > 0 and end >= request.words else self._length_of_closed(request)
                self._note_closed(request, end < 0)
        for request in list(self._requests.values()) if is_whole else ():
            if request.name not in ends and (request.waiters or not request.is_closed) and request.why is None:
                lengths[request.number] = self._length_of_closed(request)
                self._note_closed(request, request.is_begun.done())

        def give(now: int) -> None:
            self._mark, self._marks = mark, self._marks + 1
            self._is_whole_due = self._is_whole_due and not is_whole
            self._dropped.difference_update(ends)
            for number, words in lengths.items():
                self._lengths[number] = max(words, self._lengths.get(number, 0))
            its = [number for number in self._lengths if number not in self._requests or self._requests[number].machine is order.machine]
            order.machine.news(now, order.ticket, self._marks, {number: self._lengths[number] for number in its if number in self._requests})
            for number in its:
                del self._lengths[number]
            for machine in self._machines() if self._lengths else ():
                machine.stirred(now)

        return give

    def _find(self, name: str) -> Optional[Followed]:
        found = self.store.find(name)
        if found is None:
            return None
        with self._lock:
            return self._known(found)

    def _known(self, opened: Opened) -> Followed:
        request = self._requests.get(opened.number)
        if request is None:
            request = self._forgotten.get(opened.number) or Followed(opened)
            self._take_up(request)
            known = self._by_name.get(opened.name)
            if known is None or known.number < opened.number:
                self._by_name[opened.name] = request
            if known is not None and known.number < opened.number:  # it was dropped, as who reads it is told
                self._hear_of(known, known.words + 1)
        return request

    def _length_of_closed(self, request: Followed) -> int:
        """How many words a closed request has. News say only that there are more. A dropped one has one more than was seen, which
        nobody can read."""
        seen = request.words
        try:
            return seen + len(self.store.read(request.name, seen, request.number))
        except Broken as error:
            with self._lock:
                self._leave(request, error)
            return seen + 1

    def _note_closed(self, request: Followed, is_closed: bool) -> None:
        if is_closed and not request.is_closed:
            self._duties.append(functools.partial(self._hooks.let_go, request))
        request.is_closed = is_closed

    # Machines.

    def _new_machine(self) -> Machine:
        made = Machine(self._host.number(SESSION_BITS), self._workers, int(self._lease * 1000), self._takes_all)
        self.sessions.add(made.session)
        return made

    def _machines(self) -> List[Machine]:
        return [self._machine] if self._old is None else [self._old, self._machine]

    def _turn(self, now: int) -> Order:
        """What a machine orders next, or until when nothing is to be done."""
        if self._old is None:
            return self._machine.turn(now)
        older = self._old.turn(now)
        if older.kind is not OrderKind.SLEEP:
            return older
        self._move()
        order = self._machine.turn(now)
        return order if order.kind is not OrderKind.SLEEP else min(order, older, key=lambda it: it.moment)

    def _renew(self) -> None:
        """Begins with a new machine where many requests are closed: a machine forgets none. It goes on with the open ones as
        another process would. So it does where a function has become known that a machine took for unknown."""
        if self._old is not None or self.is_stopping:
            return
        self._closings = 0
        closed = sum(it.is_closed or it.why is not None for it in self._requests.values())
        knows_more = any(it.lacks(self.numbers) for it in self._requests.values() if it.unknown)
        if knows_more or closed > max(MOST_CLOSED, len(self._requests) - closed):
            self._old, self._machine = self._machine, self._new_machine()
            self._old.stop()
            self._moving = set(self._requests.values())

    def _move(self) -> None:
        """Has the new machine go on with the requests in which nothing of the old one is under way, and forgets closed ones."""
        told = {order.request for order in self._ready}
        running = {request for request, *_ in self._running.values()}
        for request in [it for it in self._moving if it.is_quiet and it not in running and it.number not in told]:
            self._moving.discard(request)
            if self._old is not None and request.is_open:
                for stage in request.waiters:
                    self._old.lets_go(request.number, stage)
            request.machine, request.is_open = None, False
            if request.why is None and (request.waiters or not request.is_closed):
                self._take_up(request)
                continue
            del self._requests[request.number]
            if self._by_name.get(request.name) is request:
                del self._by_name[request.name]
            if request.why is None:
                self._forgotten[request.number] = request
        if not self._moving and self._old is not None:
            self._duties.append(functools.partial(self._drop_beat, self._old.session))
            self._old = None

    def _drop_beat(self, session: int) -> None:
        with contextlib.suppress(Unknown, StoreError):  # others see it by its silence
            self.store.drop_beat(session)

    def _take_up(self, request: Followed) -> None:
        """Has the machine work on a request on which none does."""
        if request.machine is None and request.why is None:
            request.machine = self._machine
            self._machine.follow(request.number)
            self._requests[request.number] = request
            self._by_name.setdefault(request.name, request)

    # Timers and what comes with a beat.

    def _fire_due(self) -> None:
        """Fires the timers that are due, and drops them once the machine has told what became of that."""
        if self._host.monotonic() < self._next_timers:
            return
        self._next_timers = self._host.monotonic() + TIMERS
        for timer in self.store.due_timers(self.store.now()):
            request = self._by_name.get(timer.request) or (self._find(timer.request) if self._takes_all else None)
            if request is not None and timer.number in (0, request.number) and timer[:3] not in self._firing:
                self._fire(request, timer)

    def _fire(self, request: Followed, timer: Timer) -> None:
        kind, payload = timer.payload[:1], timer.payload[1:]
        if not request.is_begun.done() or request.why is not None:
            return
        if not 0 <= timer.stage < len(request.forms):  # (it is set behind the word of its stage)
            words = self._length_of_closed(request)
            if words > request.words:
                self._lengths[request.number] = words
            else:
                self._firing.add(timer[:3])
                text = f"request {request.name!r}: place {words + 1}: a timer is set for stage {timer.stage}, which isn't there"
                self._host.warn(text, request.name)
            return
        self._firing.add(timer[:3])
        is_failure = kind == b"E"
        act = Act(ActKind.FAIL if is_failure else ActKind.COMPLETE, timer.stage)
        became = self.act(request, act, self.payloads.value(None) if kind == b"N" else payload, times_out=is_failure)
        became.add_done_callback(lambda told: self._fired(timer, told.result()))

    def _fired(self, timer: Timer, became: Became) -> None:
        try:
            if became.told in (Told.STANDS, Told.SETTLED):
                self.store.drop_timer(timer.request, timer.stage, timer.number)
        except (Unknown, StoreError) as error:  # it is fired again
            self._host.warn(f"request {timer.request!r}, stage {timer.stage}: {error}", timer.request)
        finally:
            self._firing.discard(timer[:3])
            self._report(became.request, self._show_each(became.request, became.shows))

    def _keep_glances(self) -> None:
        """Stores glances at requests that have rested since the last beat, for a part of the time until the next one. The rest
        comes then, and a list does without glances that fail."""
        until = self._host.monotonic() + self._lease / 50
        made: List[Tuple[Followed, Glance]] = []
        for request in list(self._by_name.values()):
            if self._host.monotonic() > until or len(made) == MOST_GLANCES:
                break
            with contextlib.suppress(Unknown, StoreError, ValueError, TypeError):
                made += [(request, it) for it in self._new_glance(request)]
        if made:
            with contextlib.suppress(Unknown, StoreError):
                self.store.keep_glances([it for _, it in made])
                for request, glance in made:
                    request.glance = (glance.words, read_glance(glance))

    def _new_glance(self, request: Followed) -> List[Glance]:
        """A new glance at a request, if it has rested since the last beat and its last word is this session's. Else another
        session or a later beat makes it."""
        rests, request.rested = request.words == request.rested, request.words
        glanced, said = request.glance
        if request.is_closed or not rests or request.words in (0, glanced) or request.entries[-1][1] >> COUNT_BITS not in self.sessions:
            return []
        with self._lock:
            entries, stages = request.entries[:], dict(enumerate(request.definitions))
        view = RowView(self.store, request.opened, self.session, host=self._host)
        view.catch_up(entries)
        view.know_definitions(stages)
        return [glance_of(view, self._host.time(), said)]

    def _tell_long(self) -> None:
        """Warns, once a minute, of functions that have run for longer: where all threads have such, nothing else is begun."""
        now = self._host.monotonic()
        if now < self._next_told:
            return
        long = [it for it in self.running() if it.seconds > LONG]
        if long:
            self._next_told = now + LONG
            said = ", ".join(map(str, long[:MOST_TOLD])) + (", .." if long[MOST_TOLD:] else "")
            LOGGER.warning("%d of %d threads run a function for longer than %s s: %s", len(long), self._workers, LONG, said)

    # Requests.

    def _open(self, order: Order) -> Give:
        request = self._requests[order.request]
        try:
            plan = _plan_of(request.opened.plan)
        except Broken as error:
            raise Broken(request.name, 0, error.why) from None
        notes = request.notes_of(plan, self.numbers)

        def give(now: int) -> None:
            request.room = room_beside(plan)
            order.machine.opened(order.ticket, plan.library_plan, request.room, bool(plan.rows), notes)
            request.begin(plan)

        return give

    def _note_unknown(self, request: Followed) -> None:
        """Has it told, once, that a stage of a request is ready whose function isn't registered here."""
        if request.machine is None or not request.is_open or not self._workers or request.is_unknown_told:
            return
        machine = request.machine
        ready = [stage for stage in request.unknown if machine.stage(request.number, stage)[0] == IS_READY]
        if ready:
            request.is_unknown_told = True
            self._duties.append(functools.partial(self._warn_of_unknown, request, min(ready)))

    def _warn_of_unknown(self, request: Followed, stage: int) -> None:
        said = called_definition(request.definitions, stage)
        text = f"request {request.name!r}, stage {stage}: function {said.get('fn')}, version {said.get('version')} isn't known here"
        self._host.warn(text, "")

    def _read(self, order: Order) -> Give:
        request = self._requests[order.request]
        entries = self.store.read(request.name, order.place, request.number)
        return self._reading(order, request, self.payloads.noted(request, order.place, entries, self.numbers))

    def _reading(self, order: Order, request: Followed, entries: List[ReadEntry]) -> Give:
        attaches = sum(word >> 56 == ATTACH for (word, _, _), _ in entries)

        def give(now: int) -> None:
            if attaches:
                self._make_room(order.machine, request, request.attached_before(order.place) + attaches)
            order.machine.read(now, order.ticket, [entry for entry, _ in entries])
            seen = order.machine.seen(request.number)
            self._take_in(order, request, entries[: seen.words - order.place])  # (for want of memory it sees none, and asks again)
            if not request.is_open and seen.words == order.place + len(entries):
                self._note_open(order.machine, request)
            if seen.fault == Told.BROKEN:
                self._leave(request, Broken(request.name, seen.words + 1, f"the word {entries[seen.words - order.place][0].word} can't be done"))

        return give

    def _make_room(self, machine: Machine, request: Followed, stages: int) -> bool:
        """Makes room for so many stages beside its plan's, and says whether there is."""
        more = min(max(request.room, stages - request.room), MOST_STAGES - request.planned - request.room)
        while request.room < stages and more >= stages - request.room:
            try:
                machine.grow(request.number, more)
                request.room += more
            except Refused as refused:
                if refused.code != Code.ROOM:
                    raise
                more //= 2
        return request.room >= stages

    def _note_open(self, machine: Machine, request: Followed) -> None:
        """The machine has the plan and the words of a request."""
        request.is_open = True
        for stage in request.waiters:
            machine.wants(request.number, stage)
        self._note_unknown(request)

    def _take_in(self, order: Order, request: Followed, entries: List[ReadEntry]) -> None:
        request.take_in(order.place, entries, self.sessions, int(self._host.monotonic() * 1e9))
        for (_, token, _), _ in entries:
            if token >> COUNT_BITS not in self.sessions:
                self._words[token >> COUNT_BITS] = self._words.get(token >> COUNT_BITS, 0) + (order.place > 0)
        if request.unknown:
            self._note_unknown(request)

    def _close(self, order: Order) -> Give:
        request = self._requests[order.request]
        closes = self.store.end(request.name, order.place, request.number)
        # (another process may have closed it with just so many words)
        is_closed = closes or not self.store.read(request.name, order.place, request.number)

        def give(now: int) -> None:
            order.machine.answered(now, order.ticket, Answer.CLOSED if is_closed else Answer.NOT_CLOSED)
            self._note_closed(request, is_closed)
            if closes:
                self._duties.append(functools.partial(self._hooks.closed, request))
                self._closings += 1
                if self._closings > MOST_CLOSED:
                    self._renew()

        return give

    # Puts.

    def _putting(self, order: Order) -> Callable[[], None]:
        """Has the put of a request done that is under way. It stays as it is until it is answered."""
        request = self._requests[order.request]
        wants = order.machine.put(order.request)
        under_way = request.put
        if under_way is None or under_way.token != wants[0].entry.token:
            under_way = request.put = PutUnderWay(order.place, wants, request.acts[0] if request.acts else None, request.results)
        for stage in under_way.results:
            if stage in request.transacted and order.machine.outcome(request.number, stage) is None:
                return functools.partial(self._submit, order, request, self._run_transacted, under_way, stage)
        return functools.partial(self._ask, order, functools.partial(self._put, under_way))

    def _put(self, under_way: PutUnderWay, order: Order) -> Give:
        request, asked = self._requests[order.request], under_way.asked
        if under_way.put is None and asked is not None and asked.still is not None and not asked.still():
            return self._answering(order, Answer.REFUSED)
        put = self.payloads.put_of(request, under_way)
        try:
            stands = self.store.append(put)
        except self._host.leaves:
            raise
        except (Unknown, Broken):
            raise
        except Exception as error:
            return self._refused(order, request, under_way, error)
        if stands is None:
            return self._landing(order, request, under_way)
        if not stands:
            raise Gone(request.name)
        return self._reading(order, request, self.payloads.noted(request, order.place, stands, self.numbers))

    def _landing(self, order: Order, request: Followed, under_way: PutUnderWay) -> Give:
        payloads = under_way.put.payloads if under_way.put is not None else {}
        entries: List[ReadEntry] = [(want.entry, payloads.get(place)) for place, want in enumerate(under_way.wants, under_way.at + 1)]
        if not under_way.is_as_planned:
            return self._reading(order, request, entries)

        def give(now: int) -> None:
            order.machine.answered(now, order.ticket, Answer.STANDS)
            self._take_in(order, request, entries)

        return give

    def _refused(self, order: Order, request: Followed, under_way: PutUnderWay, error: Exception) -> Give:
        """The store refuses a put. Of a function's payload it isn't known at once whether it refuses that."""
        under_way.refusals += 1
        stages = [want.stage for want in under_way.wants if want.source in (Source.FUNCTION, Source.ERROR)]
        takes_beats = not stages or self._takes_beats()
        if stages and not takes_beats and not under_way.is_told:
            under_way.is_told = True
            self._host.warn(f"request {request.name!r}, stage {stages[0]}: nothing can be put: {error}", request.name)
        if under_way.results and (under_way.refusals == 1 or not takes_beats):
            under_way.refusals = int(takes_beats)
            return self._answering(order, Answer.UNKNOWN)

        def give(now: int) -> None:
            request.refused = error
            order.machine.answered(now, order.ticket, Answer.REFUSED)

        return give

    def _takes_beats(self) -> bool:
        """Whether the store takes a write now."""
        try:
            self.store.beat(self.session)
            return True
        except Exception:
            return False

    # Functions.

    def _calling(self, order: Order) -> Callable[[], None]:
        request, stage = self._requests[order.request], order.stage
        if self.is_stopping:
            self._running.pop(_key(order), None)
            return _nothing
        self._running[_key(order)] = (request, stage, request.name_of_function(stage), self._host.monotonic())
        return functools.partial(self._call, order)

    def _call(self, order: Order) -> None:
        """Hands a function to the pool once the payloads of its arguments are read, or passes an error on."""
        request = self._requests[order.request]
        try:
            call = self._call_of(request, order)
        except Unknown as error:
            self._do_later(order, request, error)
        except Broken as error:  # nobody can call it: nothing goes on in the request here, and nothing of this is put
            with self._lock:
                self._leave(request, error)
            self._end(order, Ends.NIL, None, 0)
        else:
            if not isinstance(call, Call):
                self._end(order, *call)
                return
            self._submit(order, request, self._run, call)

    def _submit(self, order: Order, request: Followed, run: Callable[..., None], *given: Any) -> None:
        """Hands a function to the pool."""
        stay = self._stays.get(threading.get_ident())
        if stay is not None and stay.is_free and stay.job is None:
            stay.job = functools.partial(run, request, order, *given)
            return
        try:
            self._pool.submit(run, request, order, *given)
        except Exception as error:  # no thread can be started now
            self._do_later(order, request, error)

    def _call_of(self, request: Followed, order: Order) -> Union[Call, Ended]:
        """The call of a stage's function, or what a further try passes on instead."""
        stage, args = order.stage, order.args
        first = first_try(request.definitions, stage)
        if first is not None:
            (told,) = args
            assert isinstance(told, Outcome)
            passes = self._passed_on(request, first, told)
            if passes is not None:
                return self._passing(request, passes)
            assert request.plan is not None
            stage, (form, of) = first, request.forms[first]
            words = [word for word, _ in request.entries.copy()]
            args = arguments_of_call(request.plan.library_plan, len(request.attach_places), words, stage, Form(form), of)
        said = request.definitions[stage]
        own = tuple(said.get("args", ())) or self.payloads.arguments(request, request.forms[stage][0], args)
        return Call(self.numbers.function(order.function), own, said.get("kwargs", {}))

    def _passed_on(self, request: Followed, first: int, told: Outcome) -> Optional[Outcome]:
        """The fault that a further try passes on, or None where it calls the function once more, since the process is gone that
        did the try before. What is tried again may have been settled otherwise."""
        if not self.payloads.is_abandonment(request, told):
            return told
        earliest = self.outcome(request, first)
        return earliest if earliest is not None and earliest.fault is not None and not self.payloads.is_abandonment(request, earliest) else None

    def _passing(self, request: Followed, told: Outcome) -> Ended:
        fault = told.fault
        if isinstance(fault, Thrown):
            return (Ends.PASS, None, fault.code)
        error = self.payloads.outcome(request, told)[1]
        assert error is not None
        return (Ends.THROW, self.payloads.error(error), 0)

    def _run(self, request: Followed, order: Order, call: Call) -> None:
        """Calls a function. What it came to is kept until it stands, for which the thread stays."""
        if call.known.is_transactional:
            with self._lock:
                request.transacted[order.stage] = Transacted(call)
            self._end(order, Ends.GIVE, self.payloads.value(None), 0)  # (for the case that others settle it before it is called)
        else:
            self._end(order, *self._result_of(request, order.stage, call))
        self._stay(request, order.stage)

    def _result_of(self, request: Followed, stage: int, call: Call) -> Ended:
        try:
            value = self._hooks.call(request, stage, call.known, call.args, call.kwargs)
            if request.forms[stage][0] in COMPOSE_FORMS:
                return (Ends.LINK, None, value)
            return (Ends.NIL, None, 0) if value is None else (Ends.GIVE, self.payloads.value(value), 0)
        except self._host.leaves:
            raise
        except BaseException as error:
            return (Ends.THROW, self._raised(request, stage, call, error), 0)

    def _raised(self, request: Followed, stage: int, call: Call, error: BaseException) -> bytes:
        self._host.report_failure(f"request {request.name!r}, stage {stage}: {call.known.name} has raised", error)
        return self.payloads.error(error)

    def _end(self, order: Order, kind: Ends, payload: Optional[bytes], number: int) -> None:
        with self._lock:
            self._unread.discard((order.request, order.stage))
            request, *_ = self._running.pop(_key(order))
            if request.why is None:
                request.results[order.stage] = payload
            is_link = kind is Ends.LINK
            order.machine.ended(order.ticket, kind, 0 if is_link else number, number if is_link else 0)
            if self._hopes or self.is_stopping:
                self._stirs.notify_all()

    def _stay(self, request: Followed, stage: int) -> None:
        """Has a thread of the pool do orders until what a function came to stands, and then some of what is due at once: it calls
        the next function, too."""
        me = threading.get_ident()
        if not self._host.holds or me in self._stays:  # (the call that it stays in goes on with that)
            self._stays.get(me, _Stay(request, stage)).owes = (request, stage)
            return
        its = self._stays[me] = _Stay(request, stage)
        try:
            until = self._stay_for(its)
        finally:
            del self._stays[me]
        self._leave_to_others(until)

    def _stay_for(self, its: "_Stay") -> Optional[float]:
        """Returns the moment before which nothing is to be done, if that is known."""
        orders = MOST_ORDERS
        while orders:
            with self._lock:
                request, stage = its.owes
                is_owed = stage in request.results and stage not in request.transacted and self._host.monotonic() <= self._last_put
                its.is_free = not is_owed
                orders -= not is_owed
                next_ = self._next()
                if isinstance(next_, float):
                    if not is_owed:
                        return next_
                    self._rest(next_, hopes=True)
                    continue
            next_()
            if its.job is not None:
                job, its.job, its.is_free, orders = its.job, None, False, MOST_ORDERS
                job()
        return None

    # Transactional functions.

    def _run_transacted(self, request: Followed, order: Order, under_way: PutUnderWay, stage: int) -> None:
        """Calls a transactional function and puts its finish."""
        with self._lock:
            self._running[_key(order)] = (request, stage, request.name_of_function(stage), self._host.monotonic())
        try:
            self._ask(order, functools.partial(self._put_in_transaction, under_way, stage))
        finally:
            with self._lock:
                self._running.pop(_key(order), None)
        self._stay(request, stage)

    def _put_in_transaction(self, under_way: PutUnderWay, stage: int, order: Order) -> Give:
        """Commits the function's effect and its finish together. If the place was taken, no effect stands. What the last attempt
        came to may stand, so what stands is read first."""
        request, is_open, entries = self._requests[order.request], False, None
        transacted = request.transacted[stage]
        try:
            with self._transacting(request), self.store.transaction() as transaction:
                is_open = True
                entries = self.store.read(request.name, order.place, request.number)
                if not entries:
                    value = self._value_in(transaction, request, stage, transacted.call)
                    if self._append_in(transaction, request, under_way, stage, value):
                        return self._landing(order, request, under_way)
        except self._host.leaves:
            raise
        except (Unknown, Broken):
            raise
        except _Raised as raised:
            return self._failing(order, transacted, self._raised(request, stage, transacted.call, raised.error))
        except Exception as error:  # what the function did to the connection lets no word be put, say; or no transaction is begun
            if not is_open:
                raise
            return self._failing(order, transacted, self._raised(request, stage, transacted.call, error))
        stands = entries or self.store.read(request.name, order.place, request.number)
        if not stands:
            raise Unknown("the place of a transaction's finish is taken, and nothing stands there yet")
        under_way.put = None  # (what stands may have another attempt's payload)
        return self._reading(order, request, self.payloads.noted(request, order.place, stands, self.numbers))

    @contextlib.contextmanager
    def _transacting(self, request: Followed) -> Generator[None, None, None]:
        """Marks that this thread has a transaction open."""
        request.transacts.add(threading.get_ident())
        try:
            yield
        finally:
            request.transacts.discard(threading.get_ident())

    def _value_in(self, transaction: Transaction, request: Followed, stage: int, call: Call) -> bytes:
        """The bytes of the value of a transactional function."""
        try:
            return self.payloads.value(self._hooks.call(request, stage, call.known, (transaction.connection, *call.args), call.kwargs))
        except self._host.leaves:
            raise
        except BaseException as error:
            if transaction.is_away():
                raise Unknown("the connection was lost") from error
            raise _Raised(error) from None

    def _append_in(self, transaction: Transaction, request: Followed, under_way: PutUnderWay, stage: int, value: bytes) -> bool:
        under_way.put, under_way.results[stage] = None, value
        stands = transaction.append(self.payloads.put_of(request, under_way))
        if stands:
            transaction.commit()
        return stands

    def _failing(self, order: Order, transacted: Transacted, error: bytes) -> Give:
        def give(now: int) -> None:
            transacted.error = error
            order.machine.answered(now, order.ticket, Answer.REFUSED)

        return give

    # What is shown and told.

    def _due_of(self, request: Followed, stages: Sequence[int]) -> List[Due]:
        """Those of these stages that are settled, with who waits for them, who are told by whoever has this."""
        due: List[Due] = []
        machine = request.machine
        if machine is None or not request.is_open:
            return due
        for stage in stages:
            outcome = machine.outcome(request.number, stage) if stage < len(request.forms) else None
            if outcome is not None and stage in request.waiters:
                due.append(Due(stage, outcome, request.waiters.pop(stage)))
        return due

    def _showing(self, order: Order) -> Callable[[], None]:
        request = self._requests[order.request]
        if order.stage not in request.waiters:  # who asked for the act has shown it
            return _nothing
        show = functools.partial(self._show, order, request)
        is_here = threading.get_ident() in self._stays
        return show if self._shows is None or is_here else functools.partial(self._show_elsewhere, self._shows, show)

    def _show_elsewhere(self, shows: Executor, show: Callable[[], None]) -> None:
        try:
            shows.submit(show)
        except Exception:  # no thread can be started now
            show()

    def _show(self, order: Order, request: Followed) -> None:
        """Shows a stage to those who wait for it, or that nothing goes on in the request."""
        with self._lock:
            waiters = request.waiters.pop(order.stage, [])
        if order.outcome is not None:
            raised = self._show_each(request, [Due(order.stage, order.outcome, waiters)])
        else:
            why = Gone(request.name) if order.told is Told.DROPPED else Broken(request.name, 0, "its row can't be gone on with")
            raised = self._tell_each(waiters, Shown(None, request.why or why, False))
        self._report(request, raised)

    def _report(self, request: Followed, raised: Optional[BaseException]) -> None:
        if raised is not None:
            self._host.report_raised(f"request {request.name!r}", raised)

    def _show_each(self, request: Followed, due: Sequence[Due]) -> Optional[BaseException]:
        """Shows these stages to those who wait for them, and gives what the first of these raised. One whose payload can't be read
        now is shown later."""
        raised: Optional[BaseException] = None
        for stage, outcome, waiters in due:
            try:
                shown = self._shown(request, outcome)
            except Unknown as error:
                with self._lock:
                    request.waiters.setdefault(stage, []).extend(waiters)
                order = Order(self._machine, OrderKind.SHOW, 0, request.number, stage, 0, 0, 0, Told.STANDS, (), outcome)
                self._do_later(order, request, error)
            else:
                with self._lock:
                    self._unread.discard((request.number, stage))
                faulty = self._tell_each(waiters, shown)
                raised = raised or faulty
        return raised

    def _tell_each(self, waiters: Sequence[Show], shown: Shown) -> Optional[BaseException]:
        raised: Optional[BaseException] = None
        for show in waiters:
            try:
                show(shown)
            except self._host.leaves:
                raise
            except BaseException as error:
                raised = raised or error
        return raised

    def _shown(self, request: Followed, told: Outcome) -> Shown:
        if isinstance(told.fault, Cancelled) and not told.fault.wrapped:
            return Shown(None, None, True)
        try:
            return Shown(*self.payloads.outcome(request, told), False)
        except Broken as error:
            return Shown(None, error, False)

    def _telling(self, order: Order) -> Callable[[], None]:
        request = self._asking.pop(_key(order))
        if order.told is Told.NO_ROOM and self._make_room(order.machine, request, request.room + 1):
            asked = request.asked(order.ticket)
            ticket = order.machine.act(self._now(), request.number, asked.act)
            request.acts.append(asked._replace(ticket=ticket))
            self._asking[order.machine.session, ticket] = request
            return _nothing
        became = Became(order.told, order.stage, request, self._shows_behind(request))
        told = request.told(order.ticket)
        return lambda: told.set_result(became)

    def _shows_behind(self, request: Followed) -> List[Due]:
        """The settled stages of a request for which somebody waits. Where many wait, it is those that the machine orders to show
        next, among other orders, which others do."""
        if len(request.waiters) <= MOST_LOOKED_AT:
            return self._due_of(request, list(request.waiters))
        due: List[Due] = []
        for _ in range(MOST_LOOKED_AT):
            order = self._turn(self._now())
            if order.kind is OrderKind.SLEEP:
                break
            if order.kind is OrderKind.SHOW and order.request == request.number and order.outcome is not None:
                due.append(Due(order.stage, order.outcome, request.waiters.pop(order.stage, [])))
            else:
                self._ready.append(order)
        return due


class _Stay:
    """What a thread of the pool stays for: a function of a stage whose finish isn't put, or that it is free for the next."""

    def __init__(self, request: Followed, stage: int) -> None:
        self.owes, self.is_free = (request, stage), False
        self.job: Optional[Callable[[], None]] = None


class _Raised(Exception):
    """A transactional function has raised this."""

    def __init__(self, error: BaseException) -> None:
        self.error = error


def _raise(raised: Optional[BaseException]) -> None:
    if raised is not None:
        raise raised


def _key(order: Order) -> Key:
    return order.machine.session, order.ticket


def _nothing() -> None:
    """Nothing is to be done."""


@functools.lru_cache(64)  # (many requests are of one flow)
def _plan_of(text: str) -> SharedPlan:
    return SharedPlan(text, "")
