"""The tries of one function, and the pauses between them."""
import random
from typing import TYPE_CHECKING, Any, Callable, Generic, List, Tuple, Type, TypeVar, Union

from .failures import keep_others
from .words import name_of

if TYPE_CHECKING:
    from .scope import Scope
    from .stage import Stage

T = TypeVar("T")


class Tries(Generic[T]):
    """The tries of `Attaching.retry`, in a scope of their own: a stage for each, and behind it one that pauses and tries again
    if it fails."""

    def __init__(
        self,
        scope: "Scope",
        fn: Callable[..., T],
        args: Tuple[Any, ...],
        times: int,
        delay: float,
        factor: float,
        jitter: bool,
        on: "Union[Type[BaseException], Tuple[Type[BaseException], ...]]",
    ) -> None:
        self._scope, self._fn, self._args = scope, fn, args
        self._times, self._pause, self._factor, self._on = times, delay, factor, on
        self._spreads = jitter and not hasattr(scope._works, "watch")  # (a search of orders has no chance)
        self._failed: List[BaseException] = []

    def begin(self) -> "Stage[T]":
        """The first try, and behind it all others."""
        return self._scope.supply(self._fn, *self._args).recover_compose(self._go_on).named("try again")

    def _go_on(self, error: BaseException) -> "Stage[T]":
        if len(self._failed) + 1 == self._times or not isinstance(error, self._on):
            keep_others(error, [f"try {k} failed" for k in range(1, self._times + 1)], self._failed)
            raise error
        self._failed.append(error)
        pause = self._pause * (random.uniform(0.5, 1) if self._spreads else 1)
        self._pause *= self._factor
        begins = self._scope.promise("pause").complete_on_timeout(None, pause)
        return begins.then(self._try).named(name_of(self._fn)).recover_compose(self._go_on).named("try again")

    def _try(self, _: None) -> T:
        return self._fn(*self._args)
