"""The threads of a service: how they use turns, and what happens to unused turns at a shutdown, at the end of the
interpreter and in a child of `fork`."""
import asyncio
import atexit
import logging
import os
import weakref
from concurrent.futures.thread import BrokenThreadPool
from typing import TYPE_CHECKING, Any, Callable, Dict, Iterable, Optional, Sequence, Tuple, TypeVar

from ._core import set_caller
from .ending import Ends
from .history import Describe, describe_all
from .stage import Stage
from .waits import Clock, Threads
from .words import FIRST_WORKER, MOST_CALLERS

if TYPE_CHECKING:
    from .request import Request

T = TypeVar("T")
LOGGER = logging.getLogger("concurrent.futures")
BROKEN = "A thread initializer failed, the thread pool is not usable anymore"


class Works(Threads):
    """The threads and the clock of a service. A turn is used by running a function of the request that is ready."""

    belongs_to_parent, loop = True, None

    def __init__(
        self,
        most: int,
        prefix: str,
        initializer: Optional[Callable[..., object]],
        initargs: Tuple[Any, ...],
        describe: Describe = describe_all,
        ends: Optional[Ends] = None,
    ) -> None:
        super().__init__(most, prefix)
        self.describe, self.ends = describe, ends
        self.clock = Clock(f"{prefix}_clock")
        self._initializer, self._initargs = initializer, initargs
        _open_works.add(self)

    def refusal(self) -> RuntimeError:
        """The error for a stage that nobody will run."""
        if self.broken:
            return BrokenThreadPool(BROKEN)
        return RuntimeError("cannot schedule new futures after shutdown" if self.closed else "can't start new thread")

    def begin(self, number: int) -> bool:
        set_caller(_caller_number_of(number))
        if self._initializer is None:
            return True
        try:
            self._initializer(*self._initargs)
        except BaseException:
            LOGGER.critical("Exception in initializer:", exc_info=True)
            return False
        return True

    def use(self, turn: "Request", number: int) -> None:
        try:
            turn._run(_caller_number_of(number))
        except BaseException:  # a callback's, such as SystemExit
            LOGGER.critical("Exception in worker", exc_info=True)

    def stop(self, stage: "Stage[Any]") -> None:
        """(A function on a thread can't be stopped.)"""

    def stopped(self) -> "Dict[asyncio.Task[None], Stage[Any]]":
        return {}

    def refuse(self, turns: "Sequence[Request]") -> None:
        _do_to_all(lambda request: request._refuse(self.refusal()), dict.fromkeys(turns))

    def cancel_all(self) -> None:
        """Cancels the stages that no thread has taken yet."""
        _do_to_all(_cancel_ready, dict.fromkeys(self.take_turns_back()))

    def _forked(self) -> None:
        """Starts afresh in a child of `fork`: the threads and their turns are the parent's."""
        self._reset()
        self.clock._reset()
        if self.closed:
            self.close()


def _caller_number_of(number: int) -> int:
    """The number of a thread as a caller."""
    return FIRST_WORKER + number % (MOST_CALLERS - FIRST_WORKER)


def _cancel_ready(request: "Request") -> None:
    request._take_turns_back()
    _do_to_all(Stage.cancel, [request._stage(number) for number in request._ready_stages()])


def _do_to_all(act: "Callable[[T], object]", things: "Iterable[T]") -> None:
    """Calls `act` with each of these, and raises the first error at the end."""
    first: Optional[BaseException] = None
    for thing in things:
        try:
            act(thing)
        except BaseException as error:
            first = first or error
    if first is not None:
        raise first


class Here:
    """The works of a flow that one thread runs. There is no clock."""

    closed = belongs_to_parent = False
    loop = None
    ends: Optional[Ends] = None

    @property
    def describe(self) -> Describe:
        return describe_all

    @property
    def clock(self) -> Clock:
        raise RuntimeError("a flow that one thread runs has no clock")

    def refusal(self) -> RuntimeError:
        return RuntimeError("nobody runs it")

    def put(self, request: "Request") -> bool:
        return True

    def stop(self, stage: "Stage[Any]") -> None:
        """(It runs on this thread.)"""

    def stopped(self) -> "Dict[asyncio.Task[None], Stage[Any]]":
        return {}


_open_works: "weakref.WeakSet[Works]" = weakref.WeakSet()


@atexit.register
def _at_exit() -> None:
    """Finishes all work before the interpreter ends."""
    open_ones = list(_open_works)
    for works in open_ones:
        works.close()
    for works in open_ones:
        works.join()
    for works in open_ones:
        works.clock.end()


def _after_fork() -> None:
    for works in list(_open_works):
        works._forked()


if hasattr(os, "register_at_fork"):
    os.register_at_fork(after_in_child=_after_fork)
