"""Waiting and waking in `cf.service`: threads that use turns (`Threads`), the clock (`Clock`), the thread of a hook
(`Aside`), the waiters of a stage (`AwaitedFuture`) and of a scope (`Bell`), and the wake-up of an event loop
(`LoopWaker`).

Locks, conditions, queues, threads and the time come from `primitives` alone. So tests/waits can run this code in every
order, with threads that don't start, interrupts, and objects that are collected at each step.

Each lock may be taken again by the thread that has it, as by a `__del__` that runs meanwhile. No user's code is called
under one.
"""
import asyncio
import contextlib
import functools
import heapq
import itertools
import logging
import threading
import time
from collections import deque
from queue import Empty, SimpleQueue
from typing import TYPE_CHECKING, Any, Callable, Deque, Dict, Generator, List, Optional, Sequence, Set, Tuple

from .words import NEVER, VALUE

if TYPE_CHECKING:
    from .request import Request

LOGGER = logging.getLogger("concurrent.futures")
NO_ALARM = 0, -1  # of a request that had none yet


class Primitives:
    """Makes locks, conditions, queues and threads, and has the time. A test replaces it."""

    lock: Callable[[], Any] = staticmethod(threading.RLock)
    condition: Callable[[], threading.Condition] = staticmethod(threading.Condition)
    queue: Callable[[], Any] = staticmethod(SimpleQueue)
    thread: Callable[..., threading.Thread] = staticmethod(threading.Thread)
    current: Callable[[], threading.Thread] = staticmethod(threading.current_thread)
    now: Callable[[], int] = staticmethod(time.monotonic_ns)


primitives = Primitives()


def _start_thread(run: Callable[[], object], name: str) -> "Tuple[Optional[threading.Thread], Optional[BaseException]]":
    """Starts a thread. Returns the thread, if it runs, and the error that was raised. An interrupt may come before or
    after the thread begins: whichever of the two takes the mark first decides."""
    mark = [True]

    def is_first() -> bool:
        with contextlib.suppress(IndexError):
            return mark.pop()
        return False

    thread = primitives.thread(target=lambda: is_first() and run(), name=name, daemon=True)
    try:
        thread.start()
    except BaseException as error:
        return None if is_first() else thread, error
    return thread, None


class Threads:
    """Threads, started on demand, that use turns. A turn is a request, put once for each function that becomes ready. The
    threads end once this is closed and no turn is left.

    Once all threads are there, turns go through the queue without the lock. A thread ends only if it finds the queue
    empty under the lock, and `put` without the lock checks afterwards whether this was closed. So each turn is used or
    refused. Before, another thread is started whenever there are more turns than idle threads, so that a function that
    waits for another one doesn't block it.

    Attributes:
        closed: Whether threads end.
        broken: Whether an initializer failed.
        threads: The started threads that nobody has joined."""

    def __init__(self, most: int, name: str) -> None:
        self.most, self.name, self.closed, self.broken = most, name, False, False
        self._reset()

    def _reset(self) -> None:
        """No thread is there."""
        self.threads: Set[threading.Thread] = set()
        self._lock = primitives.lock()
        self._turns = primitives.queue()  # None lets a thread end, if no turn is behind it
        self._alive = 0
        self._idle = 0  # the threads that wait, less the turns in the queue; it isn't kept once all are there
        self._rested: Deque[None] = deque()  # those that began to wait, which `_idle` doesn't count yet
        self._is_full = False  # all are there

    # What a pool says.

    def begin(self, number: int) -> bool:
        """Called in the thread of this number before it uses turns. False if it shall use none."""
        raise NotImplementedError

    def use(self, turn: "Request", number: int) -> None:
        """Uses a turn in the thread of this number. It raises nothing."""
        raise NotImplementedError

    def refuse(self, turns: "Sequence[Request]") -> None:
        """Refuses turns that nobody will use."""
        raise NotImplementedError

    # What others call.

    def put(self, turn: "Request") -> bool:
        """Has a thread use a turn, and returns whether one will. If this raises, one may use it all the same."""
        if self.broken:
            return False
        is_put = self._is_full and not self.closed
        if is_put:
            self._turns.put(turn)
            if not self.closed:
                return True
        with self._lock:
            if not is_put:
                self._turns.put(turn)
            self._idle += self._count_new_idle() - 1
            if self._idle < 0 and self._alive < self.most and (self._alive or not self.closed) and not self.broken:
                self._start()
            left = [] if self._alive else self._drain()
        if left:
            self.refuse([it for it in left if it is not turn])
        return turn not in left

    def close(self) -> None:
        """Ends the threads once no turn is left. It may be called again."""
        self.closed = True
        self._turns.put(None)

    def join(self) -> None:
        """Waits for all threads but this one."""
        own = primitives.current()
        while True:
            with self._lock:
                thread = next((it for it in self.threads if it is not own), None)
            if thread is None:
                return
            thread.join()
            with self._lock:
                self.threads.discard(thread)

    def take_turns_back(self) -> "List[Request]":
        """Takes back the turns that no thread has taken yet."""
        with self._lock:
            return self._drain()

    # What threads do.

    def _start(self) -> None:
        """Starts one more thread with a first turn. If no thread can be started, the next turn tries again. The lock is
        held."""
        number, first = len(self.threads), self._next()
        if self.closed:
            self._turns.put(None)
        if first is None:  # another thread has taken it
            return
        self._alive += 1
        self._idle += 1
        try:
            thread, error = _start_thread(functools.partial(self._work, number, [first]), f"{self.name}_{number}")
        except BaseException as interrupt:
            thread, error = None, interrupt
        if thread is None:
            self._alive -= 1
            self._idle -= 1
            self._turns.put(first)
        else:
            self.threads.add(thread)
            self._is_full = self._alive == self.most
        if error is not None and not isinstance(error, Exception):
            raise error

    def _work(self, number: int, first: "List[Request]") -> None:
        if not self.begin(number):
            with self._lock:
                self.broken = True
                self._alive -= 1
                left = self._drain()
            self.close()
            self.refuse(left + first)
            return
        turn: "Optional[Request]" = first.pop()
        while turn is not None:
            self.use(turn, number)
            turn = None  # nothing is held while it waits
            turn = self._take()

    def _take(self) -> "Optional[Request]":
        """Waits for a turn. None where this thread has to end."""
        if not self._is_full:
            self._rested.append(None)  # (who started this thread may still hold the lock)
        turn: "Optional[Request]" = self._turns.get()
        if turn is None:
            with self._lock:
                turn = self._next()
                if turn is None:
                    self._alive -= 1
                    self._idle -= 1
                self._turns.put(None)  # for the others, or behind what is left
        return turn

    def _next(self) -> "Optional[Request]":
        """Takes a turn from the queue, if there is one, and drops the marks that end threads."""
        with contextlib.suppress(Empty):  # (threads take from it without the lock)
            while True:
                turn: "Optional[Request]" = self._turns.get_nowait()
                if turn is not None:
                    return turn
        return None

    def _count_new_idle(self) -> int:
        """Counts the threads that have begun to wait since the last call. The lock is held."""
        many = len(self._rested)
        for _ in range(many):
            self._rested.popleft()
        return many

    def _drain(self) -> "List[Request]":
        """Takes all turns from the queue. The lock is held."""
        turns = list(iter(self._next, None))
        self._idle += len(turns)
        if self.closed:
            self._turns.put(None)
        return turns


class _OnDemandThread:
    """A thread that runs while there is something to do."""

    def __init__(self, name: str) -> None:
        self.name = name
        self._reset()

    def _reset(self) -> None:
        self._changed = primitives.condition()
        self._is_there = False
        self._thread: Optional[threading.Thread] = None

    def _begin(self) -> None:
        """Starts the thread, unless it runs. If that raises, the next call tries again. The lock is held."""
        if not self._is_there:
            self._is_there = True
            self._thread, error = _start_thread(self._run, self.name)
            self._is_there = self._thread is not None
            if error is not None:
                raise error

    def _run(self) -> None:
        raise NotImplementedError


class Clock(_OnDemandThread):
    """A thread that rings each request at its first limit."""

    def __init__(self, name: str) -> None:
        self._numbers = itertools.count()
        super().__init__(name)

    def _reset(self) -> None:
        super()._reset()
        self._due: List[Tuple[int, int]] = []  # the moments and numbers of alarms, also of those that nobody wants
        self._wanted: "Dict[int, Request]" = {}  # by the numbers of alarms
        self._is_over = False

    def now(self, _request: "Optional[Request]" = None) -> int:
        """In nanoseconds."""
        return primitives.now()

    def ask_for_alarm(self, request: "Request", moment: Optional[int] = None) -> None:
        """Rings a request at this moment, or before. Without one it is that of its next limit, or none."""
        at, number = getattr(request, "_alarm", NO_ALARM)
        if at <= (request._moment if moment is None else moment) < NEVER and number in self._wanted:
            return
        with self._changed:
            at, number = getattr(request, "_alarm", NO_ALARM)
            is_wanted = number in self._wanted
            wanted = request._moment if moment is None else moment
            if wanted == NEVER:
                self._forget(number)
            elif not self._is_over and not (is_wanted and at <= wanted):
                self._begin()
                if is_wanted:
                    self._forget(number)
                number = next(self._numbers)
                request._alarm = alarm = wanted, number
                self._wanted[number] = request
                heapq.heappush(self._due, alarm)
                if self._due[0] is alarm:
                    self._changed.notify()
        if wanted == NEVER and request._moment < NEVER:  # who set that limit may have seen the alarm that is dropped now
            self.ask_for_alarm(request)

    def end(self) -> None:
        """Drops all alarms for good, and joins the thread: a subinterpreter can't end while it runs."""
        with self._changed:
            self._is_over = True
            thread, wanted, self._wanted = self._thread, self._wanted, {}
            self._due.clear()
            self._changed.notify()
        del wanted  # (not under the lock)
        if thread is not None:
            thread.join()

    def _forget(self, number: int) -> None:
        """Drops an alarm. Once most of the list is dropped ones, takes them out."""
        self._wanted.pop(number, None)
        due, many = self._due, len(self._due)
        if many > 64 + 2 * len(self._wanted):
            left = sorted(alarm for alarm in due if alarm[1] in self._wanted)
            if self._due is due and len(due) == many:  # (what is collected meanwhile may have added some)
                self._due = left

    def _run(self) -> None:
        while True:
            with self._changed:
                request = self._next()
                if request is None:
                    self._is_there = False
                    return
            try:
                request._ring(self.now())
            except BaseException:  # a callback's
                LOGGER.critical("Exception in clock", exc_info=True)
            del request

    def _next(self) -> "Optional[Request]":
        """Waits for the next alarm, and returns its request; None where none is left."""
        while self._due:
            moment, number = self._due[0]
            left = moment - self.now() if number in self._wanted else 0
            if left > 0:
                self._changed.wait(min(left / 1e9, threading.TIMEOUT_MAX))
                continue
            heapq.heappop(self._due)
            request = self._wanted.pop(number, None)
            if request is not None:
                return request
        return None


class Aside(_OnDemandThread):
    """A thread that calls functions one after another. They raise nothing, and at most so many wait. It stays for a while
    once none is left, until this is closed: starting a thread costs more than most of the calls."""

    STAYS = 1.0  # seconds

    def __init__(self, name: str, most: int) -> None:
        self._most = most
        super().__init__(name)

    def _reset(self) -> None:
        super()._reset()
        self._left: Deque[Callable[[], object]] = deque()
        self._is_losing = self._is_idle = self._is_closed = False

    def put(self, act: Callable[[], object], lost: Callable[[], object]) -> None:
        """Has the thread call `act`. If too many wait, drops it instead, and calls `lost` for the first dropped one in a
        row. If no thread can be started, the next call tries again."""
        with self._changed:
            is_full, was_losing = len(self._left) >= self._most, self._is_losing
            self._is_losing = is_full
            if not is_full:
                self._left.append(act)
                with contextlib.suppress(Exception):
                    self._begin()
                if self._is_idle:
                    self._changed.notify_all()
        if is_full and not was_losing:
            lost()

    def close(self) -> None:
        """Ends the thread once nothing is left. More may be put all the same."""
        with self._changed:
            self._is_closed = True
            self._changed.notify_all()

    def wait(self, seconds: float) -> bool:
        """Closes this, and waits at most so long until all is done and the thread has ended. Returns whether it has. If
        no thread could be started, the rest is done here."""
        self.close()
        with self._changed:
            is_done = self._changed.wait_for(lambda: not self._is_there, seconds)
            runs, thread = is_done and bool(self._left), self._thread
            self._is_there = self._is_there or runs
        if runs:
            self._run()
        elif is_done and thread is not None:
            thread.join()
        return is_done

    def _run(self) -> None:
        act = self._next()
        while act is not None:
            act()
            del act
            act = self._next()

    def _next(self) -> Optional[Callable[[], object]]:
        """Waits a while for the next function. None where the thread has to end."""
        with self._changed:
            if not self._left and not self._is_closed:
                self._is_idle = True
                self._changed.wait(self.STAYS)
                self._is_idle = False
            if self._left:
                return self._left.popleft()
            self._is_there = False
            self._changed.notify_all()
            return None


class Bell:
    """Wakes a thread that looks again each time that it is rung."""

    def __init__(self) -> None:
        self._changed = primitives.condition()
        self._is_rung = False

    def ring(self) -> None:
        """Wakes the thread, or lets it not wait the next time."""
        with self._changed:
            self._is_rung = True
            self._changed.notify_all()

    def wait(self) -> None:
        """Waits until it is rung, or was since the last time."""
        with self._changed:
            self._changed.wait_for(lambda: self._is_rung)
            self._is_rung = False


class LoopBell:
    """Wakes a task of an event loop, once. Any thread may ring it.

    Attributes:
        end: What the task awaits."""

    def __init__(self, loop: asyncio.AbstractEventLoop) -> None:
        self._loop = loop
        self.end: "asyncio.Future[None]" = loop.create_future()

    def ring(self, _settled: object = None) -> None:
        """Wakes the task."""
        if asyncio._get_running_loop() is self._loop:
            self._tell()
        else:
            with contextlib.suppress(RuntimeError):  # the loop is closed, and nobody waits there
                self._loop.call_soon_threadsafe(self._tell)

    def _tell(self) -> None:
        if not self.end.done():
            self.end.set_result(None)


class AwaitedFuture:
    """The waiting side of a future: by its condition, by `wait` and `as_completed`, or on a loop."""

    if TYPE_CHECKING:
        _condition: threading.Condition
        _waiters: List[Any]
        _shown: bool
        _ended: int
        _is_cancelled: bool
        _told: int  # how many waiters were told

        def cancel(self) -> bool:
            ...

        def add_done_callback(self, fn: Callable[[Any], object]) -> None:
            ...

    def _wait(self, timeout: Optional[float]) -> None:
        """Waits until it is shown, or so many seconds."""
        with self._condition:
            self._condition.wait_for(functools.partial(getattr, self, "_shown"), timeout)

    def _show(self) -> None:
        """Wakes the waiters of a settled future. If an interrupt ends this, it is called again and goes on."""
        condition = self._condition
        with condition:
            condition.notify_all()  # (they look once the condition is free)
            waiters = self._waiters
            while self._told < len(waiters):
                self._told += 1
                waiter = waiters[self._told - 1]
                if self._ended == VALUE:
                    waiter.add_result(self)
                elif self._is_cancelled:
                    waiter.add_cancelled(self)
                else:
                    waiter.add_exception(self)
            self._shown = True

    def _wait_on(self, loop: asyncio.AbstractEventLoop) -> Generator[Any, None, None]:
        """Waits on the running loop until it is settled. If the waiting task is cancelled, calls `cancel`."""
        bell = LoopBell(loop)
        self.add_done_callback(bell.ring)
        try:
            yield from bell.end
        except asyncio.CancelledError:
            self.cancel()
            raise


class LoopWaker:
    """Wakes an event loop, for turns or for alarms. Any thread may ask for it. Only the loop changes alarms."""

    def __init__(self, loop: asyncio.AbstractEventLoop) -> None:
        self._loop = loop
        self._turns: "Deque[Request]" = deque()
        self._is_woken = False  # (it is set before the loop is woken, and taken back before turns are looked for)
        self._alarms: "Dict[Request, asyncio.TimerHandle]" = {}

    def use(self, turn: "Request") -> None:
        """Uses a turn, on the loop. It raises only what leaves a loop."""
        raise NotImplementedError

    @property
    def closed(self) -> bool:
        return self._loop.is_closed()

    def put(self, turn: "Request") -> bool:
        """Has the loop use a turn, and returns whether it will. If this raises, it may use it all the same."""
        self._turns.append(turn)
        if self._is_woken and not self._loop.is_closed():
            return True
        self._is_woken = True
        try:
            self._call(self._use_all)
        except RuntimeError:  # it is closed, and calls nothing any more
            self._turns.clear()
            return False
        except BaseException:  # an interrupt
            self._is_woken = False
            raise
        return True

    def _use_all(self) -> None:
        """Uses the turns that are there. Later ones wait until the loop has done its other work."""
        self._is_woken = False
        try:
            for _ in range(len(self._turns)):
                self.use(self._turns.popleft())
        finally:
            if self._turns and not self._is_woken:
                self._is_woken = True
                self._call(self._use_all)

    def _call(self, act: Callable[..., object], *given: object) -> None:
        """Has the loop call a function."""
        is_here = asyncio._get_running_loop() is self._loop  # (then the loop needn't be woken)
        (self._loop.call_soon if is_here else self._loop.call_soon_threadsafe)(act, *given)

    def _soon(self, act: Callable[..., object], *given: object) -> bool:
        """The same, and returns whether it will: a closed loop calls nothing."""
        try:
            self._call(act, *given)
        except RuntimeError:
            return False
        return True

    def now(self, _request: "Optional[Request]" = None) -> int:
        """In nanoseconds."""
        return int(self._loop.time() * 1e9)

    def ask_for_alarm(self, request: "Request", moment: Optional[int] = None) -> None:
        """Has the loop ring a request at this moment, or before. Without one it is that of its next limit, or none."""
        if asyncio._get_running_loop() is self._loop:
            self._ask(request, moment)
        elif moment is None:
            self._soon(self._ask, request, None)
        else:
            self._call(self._ask, request, moment)

    def _ask(self, request: "Request", moment: Optional[int]) -> None:
        alarm, wanted = self._alarms.get(request), request._moment if moment is None else moment
        if wanted == NEVER:
            self._forget(request)
        elif alarm is None or wanted / 1e9 < alarm.when():
            self._forget(request)
            self._alarms[request] = self._loop.call_at(wanted / 1e9, self._ring, request, wanted)

    def _forget(self, request: "Request") -> None:
        alarm = self._alarms.pop(request, None)
        if alarm is not None:
            alarm.cancel()

    def _ring(self, request: "Request", moment: int) -> None:
        del self._alarms[request]
        request._ring(max(moment, self.now()))
