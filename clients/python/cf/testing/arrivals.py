"""Futures whose outcomes come from outside, at any moment."""
import concurrent.futures
import functools
from typing import TYPE_CHECKING, Any, Callable, Generic, NamedTuple, Optional, Sequence, TypeVar

if TYPE_CHECKING:
    from .run import Run

T = TypeVar("T")

if TYPE_CHECKING:

    class _Future(concurrent.futures.Future[T]):
        ...

else:

    class _Future(concurrent.futures.Future, Generic[T]):
        """Python 3.8 has futures without a parameter."""


class Way(NamedTuple):
    """What may come: a value, an exception or nothing."""

    value: Any = None
    error: Optional[BaseException] = None
    is_never: bool = False


class Arrival(_Future[T]):
    """A future of the world outside. Nobody but the search settles it, but anybody may cancel it."""

    def __init__(self, run: "Run", number: int, name: str, ways: Sequence[Way]) -> None:
        self._cf_run, self._is_never = run, False
        self.number: int = number
        self.name: str = name
        self.ways: Sequence[Way] = ways
        super().__init__()

    def arrive(self, way: int) -> None:
        """It comes."""
        value, error, self._is_never = self.ways[way]
        if self._is_never:
            return
        if error is None:
            self.set_result(value)
        else:
            self.set_exception(error)

    @property
    def is_open(self) -> bool:
        """Whether something may still come. (Nobody is told that this was asked.)"""
        return not self._is_never and not super().done()

    @property
    def is_there(self) -> bool:
        """Whether something came. (Nobody is told that this was asked.)"""
        return super().done()

    def done(self) -> bool:
        self._read()
        return super().done()

    def cancelled(self) -> bool:
        self._read()
        return super().cancelled()

    def running(self) -> bool:
        self._read()
        return super().running()

    def cancel(self) -> bool:
        self._cf_run.touch_outside(self.number, True)
        return super().cancel()

    def result(self, timeout: Optional[float] = None) -> T:
        self._wait(timeout)
        return super().result(0)

    def exception(self, timeout: Optional[float] = None) -> Optional[BaseException]:
        self._wait(timeout)
        return super().exception(0)

    def add_done_callback(self, fn: Callable[[Any], object]) -> None:
        self._read()
        super().add_done_callback(functools.partial(self._cf_run.told_outside, fn))

    def _read(self) -> None:
        self._cf_run.touch_outside(self.number, False)

    def _wait(self, timeout: Optional[float]) -> None:
        self._read()
        if not self.is_there and timeout != 0:
            self._cf_run.wait_for(self.name, (("outside", self.number),), lambda: self.is_there, timeout)
