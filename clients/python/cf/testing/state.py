"""What a run consists of, what its moves touch, and what has to hold between them."""
import threading
from typing import TYPE_CHECKING, Any, Callable, Dict, List, NamedTuple, NoReturn, Optional, Sequence, Set, Tuple, Type

from ..service.history import describe_all
from ..service.request import Request
from ..service.stage import Stage
from ..service.watch import Callback, ReadyStage
from .arrivals import Arrival
from .carriers import Carrier, RunEnded
from .footprints import CHANGES, CHECKED, USER, Behind, Footprint, Move, Place, Thing, touch

if TYPE_CHECKING:
    from .loop import WorldLoop
    from .sharing import WorldStore


class Failed(BaseException):
    """Ends an order that fails. It is no `Exception`, so that what is tried doesn't catch it."""


class NeedsThreads(BaseException):
    """A function waits: the run is begun again with functions on threads of their own."""


LEAVES: Tuple[Type[BaseException], ...] = (Failed, NeedsThreads, RunEnded)


class Settings(NamedTuple):
    """How runs go. `is_clock_free` says that limits need not pass, and that those of settled stages pass like
    others, as `cf_look explore` has it."""

    workers: int = 0  # any number
    is_clock_free: bool = False
    is_fine: bool = False  # a function lets others go on at each change that it makes
    is_reduced: bool = True  # what comes to the same is left out
    has_threads: bool = False


class Wait(NamedTuple):
    """What a function waits for."""

    name: str
    things: Tuple[Thing, ...]
    is_over: Callable[[], bool]
    ways: Tuple[Any, ...] = ()  # of which one is chosen, where it waits for that
    possible: Optional[Callable[[], Sequence[int]]] = None  # which of them are, where that isn't all


class Flight:
    """A function that goes on: that of a stage, a caller's call, or the test itself."""

    def __init__(self, name: str, act: Callable[[], object], task: Optional[ReadyStage] = None) -> None:
        self.name, self.act, self.task = name, act, task
        self.word = "call"  # of its next move
        self.wait: Optional[Wait] = None
        self.is_late = False  # the time for which it waits is over
        self.chosen: Any = None
        self.carrier: Optional[Carrier] = None
        self.touches: List[Thing] = [USER]  # with each move
        self.process: Optional[object] = None  # of a store, of which it is a thread
        self.asked = 0  # how often it asked the store for something, or was about to call a function
        self.is_caller = self.is_fresh = False  # what a test has it call; what it reads is part of its move
        self.is_leading = False  # it does what its process's machine orders, and calls no function


class Tail:
    """The callbacks of what one event settled, which one thread calls before it goes on."""

    def __init__(self, calls: "List[Tuple[Move, Callback]]") -> None:
        self.calls = calls
        self.thing: Thing = ("tail", *calls[0][0][1:])
        self.turn_of: Optional[int] = None  # the request of which this thread has a turn, which it uses then
        self.clock: Optional[int] = None  # the request whose clock calls them


class PendingLimit(NamedTuple):
    """What is due."""

    due: float
    number: int
    place: Place
    act: Callable[[], object]
    is_lost: Callable[[], bool]
    text: str


class State:
    """The state of a run."""

    def __init__(self, settings: Settings, watched: Set[Thing]) -> None:
        """`watched` is what checks have looked at in all runs, and grows."""
        self.settings, self._watched = settings, watched
        self.requests: List[Request] = []
        self.ready_tasks: Dict[Place, ReadyStage] = {}
        self.turns: Dict[int, int] = {}  # of each request: how many functions may be claimed now
        self.flights: Dict[Thing, Flight] = {}
        self.tails: List[Tail] = []
        self.outside: List[Arrival[Any]] = []
        self.callers: List[Tuple[str, List[Callable[[], object]]]] = []
        self.called: List[int] = []  # how many calls of each caller were made
        self.timers: List[PendingLimit] = []
        self.checks: List[Tuple[Callable[[], object], str]] = []
        self.ends: List[Tuple[Callable[[], object], str]] = []
        self.loop: "Optional[WorldLoop]" = None
        self.store: "Optional[WorldStore]" = None
        self.weight = 1  # in how many ways workers could have been chosen
        self.why = ""  # it fails
        self._footprint: Optional[Footprint] = None
        self._in_user = self._is_over = False
        self._nows: Dict[int, float] = {}
        self._timers_made: Dict[int, int] = {}
        self._behind = Behind()
        self._relays: Dict[Thing, List[Place]] = {}  # of arrivals and stages, also those that were let go
        self._stages: Dict[Place, Stage[Any]] = {}
        self._indices: Dict[int, int] = {}
        self._news: List[Place] = []
        self._settled: List[Stage[Any]] = []  # by the last move
        self._calls: "List[Tuple[Move, Callback]]" = []
        self._home = threading.get_ident()
        self._carried = threading.local()

    def touch(self, thing: Thing, how: str) -> None:
        """This move touches a thing."""
        if self._footprint is not None:
            touch(self._footprint, thing, how)

    def fail(self, why: str) -> NoReturn:
        """Ends this order, which fails."""
        self.why = self.why or why
        raise Failed(self.why)

    def user(self, call: Callable[[], object], name: str) -> None:
        """Calls what nothing is known of, on the search's thread."""
        self.touch(USER, CHANGES)
        saved, self._in_user = self._in_user, True
        try:
            self._raised_by(call, name)
        finally:
            self._in_user = saved

    def _raised_by(self, call: Callable[[], object], name: str) -> None:
        try:
            call()
        except LEAVES:
            raise
        except BaseException as error:
            self.fail(f"{name} raised {describe_all(error)}")

    def look(self) -> None:
        """Looks whether all that must hold between moves does."""
        self._look({})

    def _look(self, footprint: Footprint) -> None:
        if self.why:
            raise Failed(self.why)
        if not self.checks:
            return
        seen: Footprint = {}
        self._footprint = seen
        saved, self._in_user = self._in_user, True
        try:
            for holds, text in self.checks:
                if not self._asked(holds, text):
                    self.fail(text)
        finally:
            self._in_user, self._footprint = saved, None
        self._watched.update(seen)
        if USER in footprint or any(how == CHANGES and thing in self._watched for thing, how in footprint.items()):
            touch(footprint, CHECKED, CHANGES)

    def _asked(self, holds: Callable[[], object], text: str) -> object:
        try:
            return holds()
        except LEAVES:
            raise
        except AssertionError as error:
            self.fail(f"{text}: {error}" if str(error) else text)
        except BaseException as error:
            self.fail(f"{text}: it raised {describe_all(error)}")
