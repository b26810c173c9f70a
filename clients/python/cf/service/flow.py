"""A flow: a plan of stages that is built once, and done again for each request."""
import concurrent.futures
import functools
import operator
import os
import threading
from typing import TYPE_CHECKING, Any, Callable, Generic, List, Optional, Sequence, Tuple, Type, TypeVar

from ..values import Form
from ._core import PlanCore
from .history import Describe
from .request import Request
from .words import COMPLETE, FIRST_WORKER, MOST_STAGES, THIS_THREAD, RequestFull, name_of
from .works import Here

if TYPE_CHECKING:
    from typing_extensions import ParamSpec

    from .request import Works

    P = ParamSpec("P")

T = TypeVar("T")
U = TypeVar("U")
V = TypeVar("V")

_begins = threading.RLock()  # held while a step is added or a plan is built, of any flow; a fork waits for that
if hasattr(os, "register_at_fork"):
    os.register_at_fork(before=_begins.acquire, after_in_parent=_begins.release, after_in_child=_begins.release)


class Step(Generic[T]):
    """A step of a flow: a stage that each request of the flow will have. `request[step]` is that stage.

    Its methods are the ones of `Stage` that attach a stage. Each adds a step to the flow and returns that; nothing
    runs yet. They raise `RuntimeError` once a request of the flow was begun, `RequestFull` where the flow has 4,096
    steps, and `ValueError` for a step of another flow."""

    def __init__(self, flow: "Flow", number: int) -> None:
        self.flow: "Flow" = flow
        self.number: int = number

    @property
    def name(self) -> str:
        """What histories call it."""
        return self.flow._rows[self.number][3]

    def named(self, name: str) -> "Step[T]":
        """Gives it a name, which histories use. This step itself is given back."""
        self.flow._rename(self.number, name)
        return self

    def then(self, fn: Callable[[T], U]) -> "Step[U]":
        """As `Stage.then`."""
        return self.flow._step(Form.APPLY, (self,), fn)

    def compose(self, fn: "Callable[[T], concurrent.futures.Future[U]]") -> "Step[U]":
        """As `Stage.compose`. It takes two steps."""
        return self.flow._composing(Form.COMPOSE, self, fn)

    def combine(self, other: "Step[U]", fn: Callable[[T, U], V]) -> "Step[V]":
        """As `Stage.combine`."""
        return self.flow._step(Form.COMBINE, (self, other), fn)

    def either(self, other: "Step[T]", fn: Callable[[T], U]) -> "Step[U]":
        """As `Stage.either`."""
        return self.flow._step(Form.APPLY_EITHER, (self, other), fn)

    def handle(self, fn: Callable[[Optional[T], Optional[BaseException]], U]) -> "Step[U]":
        """As `Stage.handle`."""
        return self.flow._step(Form.HANDLE, (self,), fn)

    def when_done(self, fn: Callable[[Optional[T], Optional[BaseException]], object]) -> "Step[T]":
        """As `Stage.when_done`."""
        return self.flow._step(Form.WHEN_COMPLETE, (self,), fn)

    def recover(self, fn: Callable[[BaseException], T]) -> "Step[T]":
        """As `Stage.recover`."""
        return self.flow._step(Form.EXCEPTIONALLY, (self,), fn)

    def recover_compose(self, fn: "Callable[[BaseException], concurrent.futures.Future[T]]") -> "Step[T]":
        """As `Stage.recover_compose`. It takes two steps."""
        return self.flow._composing(Form.EXCEPTIONALLY_COMPOSE, self, fn)

    def again(self, times: int = 1) -> "Step[T]":
        """Plans further tries, for the case that the process that runs the function dies. That matters to services with
        a store; elsewhere the further tries pass on what there is. A function that isn't transactional may have done
        its work before its process died, and does it once more with each try.

        Args:
            times: How many further tries, each of which is a step of its own.

        Returns:
            The last try. It passes on the value of an earlier one."""
        step, name = self, self.name
        for k in range(times):
            step = self.flow._step(Form.EXCEPTIONALLY, (step,), FurtherTry(self.number), f"{name} again")
        return step


class FurtherTry:
    """A further try of a step whose worker is gone. Where no process can outlive another, none is: the exception
    stays."""

    __qualname__ = "again"

    def __init__(self, of: int) -> None:
        self.of = of

    def __call__(self, error: BaseException) -> Any:
        raise error


class Flow:
    """A plan of stages, built once and done again for each request, any number of which go on at the same time.

        flow = Flow("order")
        number = flow.promise("number")
        price = number.then(load_user).combine(flow.supply(quote, "lamp"), discounted)

        request = service.start(flow, 17)        # completes the promises in their order
        print(request[price].result())

    Steps may be added until the first request of the flow is begun. From then on a further step raises
    `RuntimeError`. A flow has at most 4,096 steps; one more raises `RequestFull`."""

    def __init__(self, name: str = "flow") -> None:
        self.name: str = name
        self._rows: List[Tuple[int, Tuple[int, ...], Optional[Callable[..., Any]], str]] = []
        self._promises: List[int] = []
        self._plan: Optional[PlanCore] = None

    def promise(self, name: str = "promise") -> "Step[Any]":
        """A step without a function: `Service.start` and `run` take its value, or somebody settles its stage later, by
        `request[step].complete(value)`."""
        step: Step[Any] = self._step(Form.SOURCE, (), None, name)
        self._promises.append(step.number)
        return step

    def supply(self, fn: "Callable[P, T]", /, *args: "P.args", **kwargs: "P.kwargs") -> "Step[T]":
        """A step whose function is called with these arguments as soon as a request is begun."""
        return self._step(Form.SUPPLY, (), functools.partial(fn, *args, **kwargs) if args or kwargs else fn)

    def all_of(self, *of: "Step[Any]") -> "Step[None]":
        """As `Request.all_of`. It takes one step, whatever the number of steps that it waits for."""
        return self._step(Form.ALL_OF, of, None, "all of")

    def first_of(self, *of: "Step[T]") -> "Step[T]":
        """As `Request.first_of`. It takes one step. `ValueError` if no step is given."""
        if not of:
            raise ValueError("of no stages none is the first")
        return self._step(Form.ANY_OF, of, None, "first of")

    def gather(self, *of: "Step[T]") -> "Step[List[T]]":
        """As `Request.gather`. For n steps it takes 2 n - 1. `ValueError` if no step is given."""
        if not of:
            raise ValueError("a list of nothing needs no step")
        row: List[Step[List[T]]] = [step.then(_alone).named("gather") for step in of]
        while len(row) > 1:
            pairs = [row[k : k + 2] for k in range(0, len(row), 2)]
            row = [pair[0].combine(pair[1], operator.add).named("gather") if len(pair) == 2 else pair[0] for pair in pairs]
        return row[0]

    def run(self, *given: Any, name: str = "", describe: Optional[Describe] = None) -> Request:
        """Does the flow on this thread: calls all functions that become ready, and returns once none is. It is the
        quickest way to do a flow. There is no clock, so `or_timeout` raises `RuntimeError`. Stages that are attached
        later are run by nobody.

        Args:
            given: The values of the promises, in their order.
            name: What histories call the request. By default the flow's name.
            describe: What its histories tell of values and exceptions.

        Returns:
            The request; `request[step].result()` is what a step came to.

        Raises:
            ValueError: More values are given than there are promises."""
        request = self._start(Request, Here(), name or self.name, None, given)._describing(describe)
        request._work(FIRST_WORKER)
        return request

    def _step(self, form: Form, of: "Sequence[Step[Any]]", fn: Optional[Callable[..., Any]], name: str = "") -> "Step[Any]":
        if any(step.flow is not self for step in of):
            raise ValueError("a step of another flow")
        row = (int(form), tuple(step.number for step in of), fn, name or name_of(fn))
        with _begins:
            number = len(self._rows)
            if self._plan is not None:
                raise RuntimeError("the flow was begun, and is as it is")
            if number == MOST_STAGES:
                raise RequestFull("a flow has at most 4,096 steps")
            self._rows.append(row)
        return Step(self, number)

    def _composing(self, form: Form, source: "Step[Any]", fn: Callable[..., Any]) -> "Step[Any]":
        """Its relay stands just below it."""
        with _begins:
            if len(self._rows) + 2 > MOST_STAGES:
                raise RequestFull("a flow has at most 4,096 steps")
            self._step(Form.SOURCE, (), None, "relay")
            return self._step(form, (source,), fn)

    def _rename(self, number: int, name: str) -> None:
        self._rows[number] = (*self._rows[number][:3], name)

    def _start(self, kind: Type[Request], works: "Works", name: str, keeps: object, given: Sequence[Any]) -> Request:
        if len(given) > len(self._promises):
            raise ValueError(f"{self.name} has {len(self._promises)} promises")
        request = kind(works, name, 0, keeps, self._plan or self._begun())
        request._open()
        for number, value in zip(self._promises, given):
            request._change(COMPLETE, THIS_THREAD, number, value)
        return request

    def _begun(self) -> PlanCore:
        """The one plan of all its requests, whichever threads begin the first ones."""
        with _begins:
            if self._plan is None:
                self._plan = PlanCore(self._rows)
            return self._plan


def _alone(value: T) -> List[T]:
    return [value]
