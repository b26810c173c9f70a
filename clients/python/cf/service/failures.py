"""How several exceptions are raised as one, and how one keeps others."""
import concurrent.futures
import sys
from typing import TYPE_CHECKING, Iterable, List, NoReturn, Optional, Sequence, TypeVar

if TYPE_CHECKING:
    from .stage import Stage

T = TypeVar("T")


def raise_together(message: str, errors: Sequence[BaseException], kept: BaseException) -> NoReturn:
    """Raises all of these in an `ExceptionGroup`; before Python 3.11 one of them, with the others as its contexts."""
    if sys.version_info >= (3, 11):
        raise BaseExceptionGroup(message, errors)
    _chain(kept, errors)
    raise kept


def keep_others(error: BaseException, titles: Sequence[str], others: Sequence[BaseException]) -> None:
    """Notes with an exception what else went wrong, each behind a title; before Python 3.11 they are its contexts."""
    if sys.version_info >= (3, 11):
        for title, other in zip(titles, others):
            error.add_note(f"{title}: {other!r}")
    else:
        _chain(error, others)


def _chain(error: BaseException, others: Iterable[BaseException]) -> None:
    """Puts others behind the last context of an exception."""
    end, seen = error, {id(error)}
    for other in others:
        while end.__context__ is not None and id(end.__context__) not in seen:
            end = end.__context__
            seen.add(id(end))
        if id(other) not in seen:
            end.__context__ = other


def results(stages: "List[Stage[T]]", _: None) -> List[T]:
    """The values of stages."""
    return [stage.result() for stage in stages]


def values_or_failures(stages: "List[Stage[T]]", _: None, error: Optional[BaseException]) -> List[T]:
    """The values that are there; with an exception, those of all that failed are raised."""
    if error is not None:
        return fail_together(stages, error)
    return [stage.result() for stage in stages if stage.done() and _failure_of(stage) is None]


def fail_together(stages: "List[Stage[T]]", last: BaseException) -> NoReturn:
    """Raises the exceptions of all of these that failed, the last of which is given."""
    failures = {id(error): error for error in map(_failure_of, stages) if error is not None}
    if not failures:
        raise last
    raise_together(f"{len(failures)} of {len(stages)} have failed", list(failures.values()), last)


def _failure_of(stage: "Stage[T]") -> Optional[BaseException]:
    """The exception of a stage, if it has one by now."""
    try:
        return stage.exception(0) if stage.done() else None
    except concurrent.futures.CancelledError as error:
        return error
