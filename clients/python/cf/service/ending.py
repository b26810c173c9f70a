"""Requests that are over, and who is told of them: a hook of the service's, on a thread of its own.

A request is over once it was ended (`Request.end`, `with request:`) and its stages are settled, once nobody has it or
one of its stages any more, or when its service is shut down: whichever comes first. Its hook is told of it once.
"""
import atexit
import contextvars
import itertools
import logging
import os
import weakref
from functools import partial
from typing import Any, Callable, Dict, List, Optional

from .contexts import ContextRequest
from .history import History
from .waits import Aside
from .words import IS_SETTLED

LOGGER = logging.getLogger("concurrent.futures")
MOST = 2048  # histories that wait for a hook
SECONDS = 30.0  # for how long a service that ends waits for its hook

Hook = Callable[[History], object]


class Ends:
    """Calls a hook with one history after another, on a thread of its own. So a hook that is slow, or that raises, holds
    up nothing else. Each call has the context of the place where the request was opened."""

    def __init__(self, hook: Hook, name: str) -> None:
        self._hook, self._name = hook, name
        self._reset()
        _open.add(self)

    def _reset(self) -> None:
        """Nothing is left to tell."""
        self.requests: "Dict[int, weakref.ref[EndingRequest]]" = {}  # of which nobody was told yet, by their `id`
        self._aside = Aside(self._name, MOST)

    def tell(self, make: Callable[[], History], context: contextvars.Context) -> None:
        """Has the hook called with the history that this gives, or drops that where too many wait."""
        self._aside.put(
            partial(self._call, make, context),
            lambda: LOGGER.warning("%d ended requests wait for the hook of %s: further ones aren't told", MOST, self._name),
        )

    def _call(self, make: Callable[[], History], context: contextvars.Context) -> None:
        try:
            context.run(self._hook, make())
        except BaseException:
            LOGGER.warning("exception in the hook of an ended request", exc_info=True)

    def __del__(self) -> None:
        self._aside.close()

    def left(self) -> "List[EndingRequest]":
        """The requests of which nobody was told yet."""
        return [request for request in [known() for known in list(self.requests.values())] if request is not None]

    def end_all(self) -> None:
        """Ends all requests as they are, and waits until the hook was told."""
        for request in self.left():
            request._tell_end()
        if not self._aside.wait(SECONDS):
            LOGGER.warning("the hook of %s takes longer than %d s", self._name, SECONDS)


class EndingRequest(ContextRequest):
    """A request of a service with a hook."""

    __slots__ = ()

    def __init__(self, *given: Any) -> None:
        super().__init__(*given)
        self._context = contextvars.copy_context()
        self._ends.requests[id(self)] = weakref.ref(self)

    @property
    def _ends(self) -> Ends:
        ends: Optional[Ends] = self._works.ends
        assert ends is not None, "a service with a hook makes these"
        return ends

    def end(self) -> None:
        left = [self._stage(number) for number, kind, *_ in self._open_stages() if kind != IS_SETTLED and not self._aid_of(number)]
        count = itertools.count(len(left) - 1, -1)
        for stage in left:
            stage.add_done_callback(lambda _: None if next(count) else self._tell_end())
        if not left:
            self._tell_end()

    def __del__(self) -> None:
        if hasattr(self, "_context"):
            self._tell_end()

    def _tell_end(self) -> None:
        """Has the hook told, if it wasn't yet. It raises nothing."""
        try:
            if self._ends.requests.pop(id(self), None) is not None:
                described = partial(self._history()._with_descriptions, getattr(self, "_describe", self._works.describe))
                self._ends.tell(described, self._context)
        except Exception:
            LOGGER.warning("the end of a request isn't told", exc_info=True)


_open: "weakref.WeakSet[Ends]" = weakref.WeakSet()


@atexit.register
def _at_exit() -> None:
    for ends in list(_open):
        ends.end_all()


def _after_fork() -> None:
    """What was opened before is the parent's to tell."""
    for ends in list(_open):
        ends._reset()


if hasattr(os, "register_at_fork"):
    os.register_at_fork(after_in_child=_after_fork)
