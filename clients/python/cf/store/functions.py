"""Functions by name and version, so that a request begun in one process goes on in another."""
import functools
import importlib
import operator
from typing import Any, Callable, Dict, NamedTuple, Optional, Tuple, TypeVar

from ..service.flow import FurtherTry, _alone
from .rows import StoreError

F = TypeVar("F", bound=Callable[..., Any])


class RegisteredFunction(NamedTuple):
    """A function. One that is transactional is called with the engine's connection first, and what it does with that
    stands exactly where its finish does."""

    name: str
    version: int
    call: Callable[..., Any]
    is_transactional: bool


class Functions:
    """The functions that a process knows, by name and version. A module of functions has one, which `python3 -m cf.worker`
    looks for:

        functions = Functions()

        @functions.function("charge", version=1)
        def charge(order):
            return {**order, "cents": 4900}
    """

    def __init__(self) -> None:
        self._known: Dict[Tuple[str, int], RegisteredFunction] = {}
        self._names: Dict[Any, RegisteredFunction] = {}
        self.function("cf.gather")(_alone)
        self.function("cf.add")(operator.add)

    def function(self, name: str = "", version: int = 1, transactional: bool = False) -> Callable[[F], F]:
        """A decorator that registers a function, so that other processes know it by name and version.

            @functions.function("pay", transactional=True)
            def pay(connection, order):
                connection.execute("insert into paid values (?, ?)", (order["number"], order["cents"]))
                return order

        Args:
            name: By default the function's own name.
            version: A changed meaning is a new version. The old one stays registered as long as requests have it.
            transactional: Whether the function gets the store's connection first, and what it does with that stands
                exactly where its finish does. SQLite and PostgreSQL have such transactions. The connection has `execute`,
                `executemany` and `cursor`. The function must be short, and call neither the service nor `commit`.

        Raises:
            ValueError: Another function is registered by this name and version."""

        def named(call: F) -> F:
            known = RegisteredFunction(name or call.__name__, version, call, transactional)
            there = self._known.setdefault((known.name, version), known)
            if there.call is not call:
                raise ValueError(f"{known.name}, version {version}, is another function already")
            self._names[call] = known
            return call

        return named

    def add(self, other: "Functions") -> None:
        """Takes all functions of another one. `ValueError` if a name and version are another function's here."""
        for known in other._known.values():
            self.function(known.name, known.version, known.is_transactional)(known.call)

    def registration_of(self, call: Callable[..., Any]) -> RegisteredFunction:
        """What a function is registered as; `TypeError` if it isn't."""
        found = self._names.get(call)
        if found is None:
            name = getattr(call, "__qualname__", repr(call))
            raise TypeError(f"{name} isn't registered: other processes know functions by the names that @service.function(..) gives")
        return found

    def find(self, name: str, version: int) -> Optional[RegisteredFunction]:
        """The function of a name and version, or None."""
        return self._known.get((name, version))

    @staticmethod
    def from_module(name: str) -> "Functions":
        """The functions of a module: its member `functions`."""
        module = importlib.import_module(name)
        found = getattr(module, "functions", None)
        if not isinstance(found, Functions):
            raise StoreError(f"module {name} has no `functions`, a cf.store.Functions")
        return found


def definition_of(functions: Functions, call: Optional[Callable[..., Any]], args: Tuple[Any, ...], kwargs: Dict[str, Any]) -> Dict[str, Any]:
    """What a plan or an attached stage's payload says of its function."""
    if call is None:
        return {}
    if isinstance(call, FurtherTry):
        return {"again": call.of}
    if isinstance(call, functools.partial):
        partial: "functools.partial[Any]" = call
        call, args, kwargs = partial.func, (*partial.args, *args), {**partial.keywords, **kwargs}
    known = functions.registration_of(call)
    said: Dict[str, Any] = {"fn": known.name, "version": known.version}
    if args:
        said["args"] = list(args)
    if kwargs:
        said["kwargs"] = kwargs
    return said
