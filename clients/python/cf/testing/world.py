"""What a test is given: a service whose threads and clock are the search's, and a world outside that it describes."""
from typing import TYPE_CHECKING, Any, Callable, List, Optional, Sequence, TypeVar

from ..service.loop import LoopService
from ..service.service import Service
from .arrivals import Arrival, Way
from .loop import WorldLoop
from .state import NeedsThreads

if TYPE_CHECKING:
    from .run import Run
    from .sharing import WorldStore

T = TypeVar("T")


class World:
    """One run of a test. The search decides when functions are called, what arrives, and when limits pass.

    What a test may do between two moves, it says here. What it does itself is the first move."""

    def __init__(self, run: "Run") -> None:
        self._run = run
        self._loop_service: Optional[LoopService] = None

    @property
    def service(self) -> Service:
        """A service whose functions the search calls."""
        return self._run.service

    @property
    def loop(self) -> WorldLoop:
        """An event loop whose steps are moves, and whose time is the world's. A test may be a coroutine function, which
        runs on it."""
        if self._run.loop is None:
            self._run.loop = WorldLoop(self._run)  # type: ignore[abstract]
        return self._run.loop

    @property
    def loop_service(self) -> LoopService:
        """A service on the loop, whose functions may be coroutine functions."""
        if self._loop_service is None:
            self._loop_service = LoopService(self.loop, watch=self._run)
        return self._loop_service

    def arrives(self, value: T, name: str = "", *, or_fails: Optional[BaseException] = None) -> "Arrival[T]":
        """A future that gets a value at any moment.

        Args:
            value: The value.
            name: What it is called where an order is told.
            or_fails: An exception that comes instead, in other orders."""
        return self._outside([Way(value)] + ([] if or_fails is None else [Way(None, or_fails)]), name)

    def one_of(self, *values: T, name: str = "") -> "Arrival[T]":
        """A future that gets one of these values at any moment. Each is tried."""
        return self._outside([Way(value) for value in values], name)

    def fails(self, error: BaseException, name: str = "") -> "Arrival[Any]":
        """A future that fails at any moment."""
        return self._outside([Way(None, error)], name)

    def may(self, value: T, name: str = "") -> "Arrival[T]":
        """A future that gets a value at any moment, or never."""
        return self._outside([Way(value), Way(is_never=True)], name)

    def calls(self, *calls: Callable[[], object], name: str = "") -> None:
        """Calls that another caller makes at any moment, in this order.

        Args:
            calls: Functions without arguments, such as `stage.cancel`. A method of a stage touches that stage alone; of
                other functions nothing is known.
            name: What the caller is called where an order is told."""
        self._run.callers.append((name or f"caller {len(self._run.callers)}", list(calls)))
        self._run.called.append(0)

    def check(self, holds: Callable[[], object], text: str) -> None:
        """What must hold between any two moves.

        Args:
            holds: Says whether it does. It may read stages and what functions change, and must change nothing.
            text: What holds then."""
        self._run.checks.append((holds, text))

    def at_end(self, holds: Callable[[], object], text: str) -> None:
        """What must hold once nothing comes any more. Arguments as of `check`."""
        self._run.ends.append((holds, text))

    def point(self) -> None:
        """Within a function: others may go on here. Without it a function is one move up to where it waits."""
        self._run.point()

    def choice(self, *values: T) -> T:
        """Within a function: one of these values. Each is tried, so a function can stand for what answers in several
        ways."""
        chosen: T = self._run.wait_for("a choice", (), lambda: True, None, values)
        return chosen

    def store(self, *, lost: int = 0, unanswered: int = 0, late: int = 0, silent: int = 0, killed: int = 0, slow: int = 0) -> "WorldStore":
        """A store that processes share, as `cf.store` has them. What may go wrong in it is bounded for each order.

        Args:
            lost: How many calls of the store never come there.
            unanswered: How many are done, and the answer is lost.
            late: How many puts are on their way for a while, and come later, if their place is still free then.
            silent: How often the store is silent until the caller gives up.
            killed: How many processes are killed.
            slow: How often a process is taken for gone that is there."""
        from .answers import Bounds
        from .sharing import WorldStore

        if not self._run.settings.has_threads:
            raise NeedsThreads
        if self._run.store is None:
            self._run.store = WorldStore(self._run, Bounds(lost, unanswered, late, silent, killed, slow))
        return self._run.store

    def outcomes(self) -> List[str]:
        """What each stage of each request ended in, as texts of `cf run`, for comparing the ends of orders."""
        told = [line for request in self._run.requests for line in request.history().report().splitlines() if line.startswith("stage ")]
        return told if self._run.store is None else told + self._run.store.outcomes()

    def _outside(self, ways: Sequence[Way], name: str) -> "Arrival[Any]":
        number = len(self._run.outside)
        arrival: Arrival[Any] = Arrival(self._run, number, name or f"arrival {number}", ways)
        self._run.outside.append(arrival)
        return arrival
