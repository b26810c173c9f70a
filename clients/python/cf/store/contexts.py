"""What of a caller's context goes along with functions that any process may call, and how a function has it again."""
import abc
import contextvars
import importlib
from typing import Any, Dict, Mapping, Sequence

_NOT_SET = object()


class Carrier(abc.ABC):
    """Takes something of the context of the place where a function is attached, and sets it again where the function
    is called. All processes that share a store have the same carriers, each with names of its own."""

    @abc.abstractmethod
    def capture(self) -> Mapping[str, Any]:
        """What is to go along, by names, as JSON has it. It stands in the store beside the stage."""

    @abc.abstractmethod
    def restore(self, carried: Mapping[str, Any]) -> None:
        """Sets what went along. It is called in a context that only this one function has, so nothing has to be taken
        back. Names of other carriers stand beside its own, and its own may be missing."""


class Variables(Carrier):
    """Context variables, each by a name that all processes know. Their values have to be what JSON has. One that isn't
    set goes without.

        TENANT = ContextVar("tenant")
        service = DurableService(connect("sqlite:///orders.db"), contexts=[Variables(tenant=TENANT), Trace()])
    """

    def __init__(self, **variables: "contextvars.ContextVar[Any]") -> None:
        self._variables = variables

    def capture(self) -> Mapping[str, Any]:
        found = {name: it.get(_NOT_SET) for name, it in self._variables.items()}
        return {name: value for name, value in found.items() if value is not _NOT_SET}

    def restore(self, carried: Mapping[str, Any]) -> None:
        for name, it in self._variables.items():
            if name in carried:
                it.set(carried[name])


class Trace(Carrier):
    """OpenTelemetry's context, by its global propagators: the span that is current, and its baggage.

    Raises:
        ImportError: The package `opentelemetry-api` isn't installed."""

    def __init__(self) -> None:
        # (they are installed on some machines only)
        self._propagate: Any = importlib.import_module("opentelemetry.propagate")
        self._context: Any = importlib.import_module("opentelemetry.context")

    def capture(self) -> Mapping[str, Any]:
        carried: Dict[str, str] = {}
        self._propagate.inject(carried)
        return carried

    def restore(self, carried: Mapping[str, Any]) -> None:
        self._context.attach(self._propagate.extract({name: it for name, it in carried.items() if type(it) is str}))


def capture_all(carriers: Sequence[Carrier]) -> Dict[str, Any]:
    """What a plan or an attached stage says of its context: nothing where there is nothing."""
    carried = {name: it for carrier in carriers for name, it in carrier.capture().items()}
    return {"context": carried} if carried else {}


def restored_context(carriers: Sequence[Carrier], carried: Mapping[str, Any]) -> contextvars.Context:
    """A context of its own, in which what went along is set."""
    context = contextvars.copy_context()
    for carrier in carriers:
        context.run(carrier.restore, carried)
    return context
