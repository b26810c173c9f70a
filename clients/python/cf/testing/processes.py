"""A process of a world: a service over the world's store, whose threads, clock and chance are the search's."""
import concurrent.futures
import functools
import random
import threading
from typing import TYPE_CHECKING, Any, Callable, List, NamedTuple, Optional, TypeVar

from ..service.history import describe_all
from ..service.words import name_of
from ..store.followed import Call, Followed
from ..store.functions import Functions
from ..store.host import Host
from ..store.request import DurableStage
from ..store.rows import Gone as Dropped
from ..store.rows import Timer
from ..store.service import DurableService
from .answers import OF_CALLS
from .footprints import CHANGES, CHECKED, READS, USER, Thing
from .marks import names_of
from .rows import ProcessStore
from .state import LEAVES

if TYPE_CHECKING:
    from .sharing import WorldStore

T = TypeVar("T")


class Job(NamedTuple):
    """What a thread of a process is to do: to call a function, to lead, or what a test says, which has a name, too."""

    number: int
    name: str
    act: Callable[[], object]


class Process(DurableService):
    """A process of a world. It is a `DurableService`, and dies where the search kills it.

    What a test itself asks of it, is a part of the first move, and always answered. What `calls` are given, and what
    its own threads do, is a move for each call of the store."""

    def __init__(
        self, world: "WorldStore", number: int, name: str, functions: Optional[Functions], workers: int, takes_all: bool, lease: float, ahead: float
    ) -> None:
        self.name: str = name
        self.number: int = number
        self.thing: Thing = ("process", number)
        self.host: ProcessHost = ProcessHost(world, self, ahead)
        self.is_dead = False
        self.workers: int = workers
        self.queue: List[Job] = []  # the functions that its threads are to call
        self.callers: List[Job] = []
        self.jobs_made = self.answers = 0
        self.due_now: List[Timer] = []  # what it is told of limits that have passed
        self.takes_all: bool = takes_all
        super().__init__(ProcessStore(world, self), workers, functions=functions, lease=lease, takes_all=takes_all, host=self.host)
        self._world = world
        self.lease: float = lease

    def calls(self, call: Callable[[], object], name: str = "") -> None:
        """Has a thread of the process call something, at any moment.

        Args:
            call: A function without arguments. It may put and wait. What it raises fails the order.
            name: What is told of it; by default the process's name."""
        self._world.touch(self.thing, CHANGES)
        self.callers.append(self.job(name or self.name, call))

    def job(self, name: str, act: Callable[[], object]) -> Job:
        """A new one."""
        self.jobs_made += 1
        return Job(self.jobs_made - 1, name, act)

    def lead(self) -> None:
        """Does all orders that are to be done now."""
        while self.leader.step() is None:
            pass

    def now(self) -> float:
        """The seconds of its own clock, which is the world's and what it is ahead of that."""
        self._world.touch(self.thing, READS)
        return self.host.monotonic()

    @property
    def key(self) -> str:
        """What moves call it."""
        return f"p{self.number}"

    def works_on(self, name: str) -> bool:
        """Whether it works on a request."""
        return self.takes_all or self.leader.followed(name) is not None


class ProcessHost(Host):
    """Time, chance, locks and threads of a process, which are the search's."""

    leaves, glances = LEAVES, False

    def __init__(self, world: "WorldStore", process: Process, ahead: float) -> None:
        self.world, self.process = world, process
        self.clock = ahead
        self.stage = WorldStage
        self._random = random.Random(process.number)

    def monotonic(self) -> float:
        return self.clock

    def time(self) -> float:
        return self.clock

    def sleep(self, seconds: float) -> None:
        """What comes next is a move in any case."""

    def rest(self, stops: threading.Event, seconds: float) -> None:
        """As `sleep`."""

    def wait(self, change: threading.Condition, seconds: float) -> None:
        """Another thread of the process gets an answer of the store, if it waits for one, or else the time passes."""
        flight = self.world.current()
        if flight is None or not any(it is not flight and it.wait is not None and len(it.wait.ways) > 1 for it in self.world.flights(self.process)):
            self.clock += seconds
            return
        change.release()
        answers = self.process.answers
        self.world.run.wait_for("another thread", (self.process.thing,), lambda: self.process.answers != answers, None)
        change.acquire()

    def number(self, bits: int) -> int:
        return self._random.getrandbits(bits)

    def lock(self) -> "WorldLock":
        return WorldLock(self.world)

    def pool(self, workers: int, name: str) -> concurrent.futures.Executor:
        return AtOnce() if name.endswith("_shows") else WorldPool(self.process)

    def pump(self, run: Callable[[], None], name: str) -> threading.Thread:
        return NoThread()

    def call(self, known: Any, *args: Any, **kwargs: Any) -> Any:
        flight = self.world.flight_of(self.process)
        if flight is None:
            return known.call(*args, **kwargs)
        run = self.world.run
        if flight.is_fresh:
            flight.is_fresh = False  # (it begins with that)
        else:
            run.wait_for(f"calls {known.name}", (), _always, None, OF_CALLS, lambda: (0,))
        names = names_of(known.call)
        things = [USER] if names is None else [("user", name) for name in names]
        if names is not None and run.checks:
            things.append(CHECKED)
        for thing in things:
            run.touch(thing, CHANGES)
        before, flight.touches = flight.touches, [*flight.touches, *things]
        try:
            return known.call(*args, **kwargs)
        except AssertionError as error:
            run.fail(f"{known.name} raised {describe_all(error)}")
        finally:
            flight.touches = before

    def warn(self, text: str, request: str) -> None:
        """What can't be done now is done later."""

    def report_failure(self, text: str, error: BaseException) -> None:
        """Functions may raise."""

    def report_broken(self, error: BaseException) -> None:
        if not isinstance(error, Dropped):
            self.world.run.fail(f"{self.process.name} can't go on: {error}")

    def report_raised(self, text: str, error: BaseException) -> None:
        self.world.run.fail(f"{self.process.name}, {text}: {describe_all(error)}")


class WorldStage(DurableStage[T]):
    """A stage whose waits are moves. What it shows is what its process has read."""

    def _host(self) -> ProcessHost:
        host: Any = self.request._service._host
        its: ProcessHost = host
        return its

    def done(self) -> bool:
        self._looked_at()
        return super().done()

    def cancelled(self) -> bool:
        self._looked_at()
        return super().cancelled()

    def running(self) -> bool:
        self._looked_at()
        return super().running()

    def result(self, timeout: Optional[float] = None) -> T:
        self._await(timeout)
        return super().result(0)

    def exception(self, timeout: Optional[float] = None) -> Optional[BaseException]:
        self._await(timeout)
        return super().exception(0)

    def is_shown(self) -> bool:
        """Whether it is settled here. (Nobody is told that this was asked.)"""
        return super().done()

    def _looked_at(self) -> None:
        host = self._host()
        host.world.touch(host.process.thing, READS)

    def _await(self, timeout: Optional[float]) -> None:
        self._looked_at()
        if not self.is_shown() and timeout != 0:
            host = self._host()
            host.world.run.wait_for(self.name, (host.process.thing,), self.is_shown, timeout)

    def _invoke_callbacks(self) -> None:
        """Each call is a move of its own: what the stage came to stands before, so others may have gone on by it."""
        host = self._host()
        run = host.world.run
        for callback in self._done_callbacks:
            if host.world.flight_of(host.process) is not None:
                run.wait_for(f"calls back {name_of(callback)}", (), _always, None, OF_CALLS, lambda: (0,))
            run.user(functools.partial(callback, self), name_of(callback))


class WorldLock:
    """A lock of a process's threads. Who waits for it lets others go on."""

    def __init__(self, world: "WorldStore") -> None:
        self._world = world
        self._owner: Any = None
        self._many = 0

    def _is_owned(self) -> bool:
        return self._owner is (self._world.current() or self._world)

    def acquire(self, blocking: bool = True) -> bool:
        """As `threading.RLock.acquire`."""
        me: Any = self._world.current() or self._world
        while self._owner not in (None, me):
            if not blocking:
                return False
            self._world.run.wait_for("a lock", (), lambda: self._owner is None, None)
        self._owner, self._many = me, self._many + 1
        return True

    def release(self) -> None:
        """As `threading.RLock.release`."""
        self._many -= 1
        if not self._many:
            self._owner = None

    def __enter__(self) -> bool:
        return self.acquire()

    def __exit__(self, *_: object) -> None:
        self.release()


class WorldPool(concurrent.futures.Executor):
    """The threads of a process, which take what there is to do in moves."""

    def __init__(self, process: Process) -> None:
        self._process = process

    def submit(self, fn: Callable[..., Any], /, *args: Any, **kwargs: Any) -> Any:
        """Its only caller hands over a request, an order and a call, or what puts a transactional function."""
        request: Followed = args[0]
        if isinstance(args[2], Call) and args[2].known.is_transactional:
            fn(*args)  # (it is called later)
        else:
            name = request.name_of_function(args[1].stage if isinstance(args[2], Call) else args[3])
            self._process.queue.append(self._process.job(name, lambda: fn(*args, **kwargs)))
        return concurrent.futures.Future()

    def shutdown(self, wait: bool = True, *, cancel_futures: bool = False) -> None:
        """Threads take nothing more: the service says so."""


class AtOnce(concurrent.futures.Executor):
    """Calls those who wait for a stage."""

    def submit(self, fn: Callable[..., Any], /, *args: Any, **kwargs: Any) -> Any:
        fn(*args, **kwargs)
        return concurrent.futures.Future()


class NoThread(threading.Thread):
    """Stands for the thread that looks what is new: looks are moves."""

    def join(self, timeout: Optional[float] = None) -> None:
        """It has ended."""


def _always() -> bool:
    return True
