"""Requests whose functions have the context variables of the place where they were attached."""
import contextvars
import functools
from typing import Any, Callable, Dict, Optional, Tuple

from ._core import RequestCore, is_thread_stopping
from .request import Request
from .stage import Stage
from .words import COMPOSE_FORMS, GIVES, PENDING, THROWS


# The stage of the function that runs here, where no thread of a service calls it.
AT_WORK: "contextvars.ContextVar[Optional[Stage[Any]]]" = contextvars.ContextVar("AT_WORK", default=None)


def is_stopping() -> bool:
    """Whether the function that calls this may end early: its stage is settled otherwise, as by a time limit, `abandon` or the
    end of its scope. What the function returns then comes too late.

        def export(rows):
            for row in rows:
                if is_stopping():
                    return
                write(row)

    It may be called anywhere, and takes a fraction of a microsecond. Outside a stage's function it is False."""
    told = is_thread_stopping()
    if told is not None:
        return told
    stage = AT_WORK.get()
    return stage is not None and stage._ended != PENDING


class Within(functools.partial):  # type: ignore[type-arg]
    """The `run` of a context with the function that it is to call."""

    __slots__ = ()


class ContextRequest(Request):
    """A request whose functions have contexts: each a copy of that of the place where it was attached, and a flow's
    functions copies of that of the place where the request was opened."""

    __slots__ = ("_context",)
    _context: contextvars.Context

    def __init__(self, *given: Any) -> None:
        super().__init__(*given)
        if self._plan is not None:
            self._context = contextvars.copy_context()

    def _attach(
        self,
        form: int,
        first: "Optional[Stage[Any]]",
        second: "Optional[Stage[Any]]",
        call: Optional[Callable[..., Any]],
        args: Optional[Tuple[Any, ...]],
        kwargs: Optional[Dict[str, Any]],
        name: str,
        scope: Optional[int] = None,
        /,
    ) -> "Stage[Any]":
        within = None if call is None else Within(contextvars.copy_context().run, call)
        return RequestCore._attach(self, form, first, second, within, args, kwargs, name, scope)

    def _within(self, call: Callable[..., Any]) -> Within:
        """A flow's function with its context. One that was attached has that already."""
        return Within(self._context.copy().run, call)

    def _run(self, who: int) -> None:
        if self._plan is None:
            RequestCore._run(self, who)
        else:
            while self._run_planned(who):
                pass

    def _run_planned(self, who: int) -> Optional[bool]:
        """Runs the lowest ready function, as `_run` does. Those of a plan are given their contexts here."""
        begun = self._begin(who)
        if begun is None:
            return None
        stage, call, args, kwargs = begun
        try:
            within = call if type(call) is Within else self._within(call)
            within.func(AT_WORK.set, stage)
            given = within(*args, **kwargs)
        except BaseException as error:
            error.__traceback__ = error.__traceback__ and error.__traceback__.tb_next
            goes_on = self._end(stage, who, THROWS, error)
        else:
            goes_on = finish_stage(stage, who, given)
            del given
        # An error's traceback may keep this frame, which is to keep nothing.
        del stage, begun, call, args, kwargs, within
        return goes_on


def finish_stage(stage: "Stage[Any]", who: int, given: Any) -> bool:
    """Finishes a stage with what its function gave, and says whether a turn is left to the caller."""
    if stage._form in COMPOSE_FORMS:
        return stage.request._link(stage, who, given)
    return stage.request._end(stage, who, GIVES, given)
