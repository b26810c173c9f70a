"""What a test may say of its functions, so that fewer orders are tried."""
import functools
from typing import Any, Callable, Optional, Tuple, TypeVar

F = TypeVar("F", bound=Callable[..., Any])


def pure(fn: F) -> F:
    """Marks a function that neither reads nor changes what other functions change, and calls no service.

    Returns:
        The function, or where it takes no mark, such as one that is built in, one that calls it."""
    made: F = _marked(fn, ())
    return made


def touches(*names: str) -> Callable[[F], F]:
    """Marks a function that shares with other functions no more than what has these names.

    Functions without a mark are taken to share everything among one another, and nothing with what has a mark. So all
    functions that share a thing have to name it, or none may have a mark."""

    def marks(fn: F) -> F:
        made: F = _marked(fn, names)
        return made

    return marks


def _marked(fn: Any, names: Tuple[str, ...]) -> Any:
    try:
        fn.cf_touches = names
        return fn
    except AttributeError:
        made = functools.partial(fn)
        made.cf_touches = names  # type: ignore[attr-defined]
        return made


def names_of(fn: Any) -> Optional[Tuple[str, ...]]:
    """The names that a function was marked with. None where it has no mark."""
    names: Optional[Tuple[str, ...]] = getattr(fn, "cf_touches", None)
    return names
