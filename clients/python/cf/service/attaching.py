"""What attaches stages: a request, or a scope of one."""
import concurrent.futures
import functools
import math
from typing import TYPE_CHECKING, Any, Callable, ClassVar, List, Optional, Sequence, Tuple, Type, TypeVar, Union

from ..values import Form
from .failures import fail_together, results, values_or_failures
from .relays import Hold, let_go_with
from .retrying import Tries
from .words import name_of

if TYPE_CHECKING:
    from typing_extensions import ParamSpec

    from .request import Works
    from .scope import Scope
    from .stage import Stage

    P = ParamSpec("P")

T = TypeVar("T")


class Attaching:
    """The calls by which a `Request` and a `Scope` attach stages. What a request attaches is of no scope."""

    __slots__ = ()
    _scope_class: "ClassVar[Type[Scope]]"

    if TYPE_CHECKING:

        @property
        def _works(self) -> Works:
            ...

        def _attach(self, form: int, first: Any, second: Any, call: Any, args: Any, kwargs: Any, name: str, /) -> Stage[Any]:
            ...

        def _gather(self, form: int, of: Sequence[Stage[Any]], name: str) -> Stage[Any]:
            ...

        def _join(self, stage: Stage[Any], wanted: int, of: Sequence[Stage[Any]]) -> None:
            ...

        def _behind(self, form: Form, first: Stage[Any], second: Optional[concurrent.futures.Future[Any]], fn: Callable[..., Any]) -> Stage[Any]:
            ...

        def _check_room(self, stages: int) -> None:
            ...

        def _relay_of(self, future: concurrent.futures.Future[T], holds: List[Hold]) -> Stage[T]:
            ...

        def _relays_of(self, of: Sequence[concurrent.futures.Future[Any]], more: int) -> Tuple[List[Stage[Any]], List[Hold]]:
            ...

    def supply(self, fn: "Callable[P, T]", /, *args: "P.args", **kwargs: "P.kwargs") -> "Stage[T]":
        """Calls a function on one of the service's threads, or on the loop of a `LoopService`.

        Args:
            fn: Called with the other arguments.

        Returns:
            A stage that ends with what the function returns or raises."""
        if self._works.closed:
            raise self._works.refusal()
        return self._attach(Form.SUPPLY, None, None, fn, args or None, kwargs or None, name_of(fn))

    def promise(self, name: str = "promise") -> "Stage[Any]":
        """Attaches a stage without a function. Settle it by `complete`, `fail`, `cancel` or a time limit.

            approval = request.promise("approval")
            shipped = approval.then(ship)
            ..
            approval.complete("yes")

        Args:
            name: What histories call it.

        Returns:
            The stage. Until it is settled, the stages that depend on it wait."""
        return self._attach(Form.SOURCE, None, None, None, None, None, name)

    def adopt(self, future: "concurrent.futures.Future[T]") -> "Stage[T]":
        """Makes a future a stage of this request, so that other stages can wait for it.

            price = request.adopt(executor.submit(quote, "lamp")).then(with_tax)

        Args:
            future: Any future of `concurrent.futures`. It keeps the request alive until it or the returned stage is
                settled. If that may take long, cancel the stage once you don't need it.

        Returns:
            A stage that ends as the future does; a stage of this request is returned as it is."""
        holds: List[Hold] = []
        stage = self._relay_of(future, holds)
        let_go_with(stage, holds)
        return stage

    def all_of(self, *of: "concurrent.futures.Future[Any]") -> "Stage[None]":
        """Waits for all futures, also where one of them fails.

        Args:
            of: Stages of this request, or any other futures, each of which takes a relay.

        Returns:
            A stage that ends once all are settled: with None if all have values, else with the exception of the first
            one in this order that has one. For n futures it takes n - 1 stages, at least one."""
        return self._of_all(Form.ALL_OF, of, "all of")

    def first_of(self, *of: "concurrent.futures.Future[T]") -> "Stage[T]":
        """Waits for the future that is settled first, be it by an exception. The others go on.

            quote = request.first_of(request.supply(ask, here), request.supply(ask, there))

        Args:
            of: Stages of this request, or any other futures, each of which takes a relay.

        Returns:
            A stage that ends as the first one does, be it with an exception. For n futures it takes n - 1 stages, at
            least one.

        Raises:
            ValueError: No future is given."""
        if not of:
            raise ValueError("of no stages none is the first")
        return self._of_all(Form.ANY_OF, of, "first of")

    def gather(self, *of: "concurrent.futures.Future[T]") -> "Stage[List[T]]":
        """Waits for all futures, and collects their values.

            prices = request.gather(*[request.supply(quote, item) for item in items])

        Args:
            of: As in `all_of`.

        Returns:
            A stage that ends with the list of the values, in this order, or with an exception as `all_of` does. It
            takes one stage more than `all_of`."""
        if self._works.closed:
            raise self._works.refusal()
        here, holds = self._relays_of(of, max(len(of) - 1, 1) + 1)
        done: Stage[List[T]] = self._behind(Form.APPLY, self._gather(Form.ALL_OF, here, "all of"), None, functools.partial(results, here))
        let_go_with(done, holds)
        return done.named("gather")

    def first(self, *of: "concurrent.futures.Future[T]") -> "Stage[T]":
        """Waits for the first future that succeeds. The others go on.

            quote = request.first(request.supply(ask, here), request.supply(ask, there))

        Args:
            of: As in `all_of`.

        Returns:
            A stage that ends with the value that is there first. Once all have failed, it fails with an `ExceptionGroup`
            of their exceptions; before Python 3.11 with the last one, and the others as its `__context__`. It takes two
            stages.

        Raises:
            ValueError: No future is given."""
        return self._joined(1, of, Form.EXCEPTIONALLY, fail_together, "first")

    def all(self, *of: "concurrent.futures.Future[T]") -> "Stage[List[T]]":
        """Waits for all futures to succeed, and fails as soon as one of them does. The others go on.

            user, price = request.all(request.supply(load_user, 3), request.supply(quote, "lamp")).result()

        Args:
            of: As in `all_of`.

        Returns:
            A stage that ends with the list of the values, in this order, or with the exception that comes first. It takes
            two stages."""
        if not of:
            return self.gather()
        return self._joined(len(of), of, Form.APPLY, results, "all")

    def quorum(self, wanted: int, *of: "concurrent.futures.Future[T]") -> "Stage[List[T]]":
        """Waits until so many futures have succeeded. The others go on.

            votes = request.quorum(2, *[request.supply(ask, replica) for replica in replicas])

        Args:
            wanted: How many, from 1 to all of them.
            of: As in `all_of`. One that is given twice counts twice.

        Returns:
            A stage that ends with a list of the values that are there then, as many as are wanted at least, in this
            order. Once too many have failed, it fails as `first` does. It takes two stages.

        Raises:
            ValueError: None is wanted, or more than there are."""
        return self._joined(wanted, of, Form.HANDLE, values_or_failures, "quorum")

    def scope(self, timeout: Optional[float] = None, name: str = "scope") -> "Scope":
        """Opens a scope: stages that end together.

            with request.scope(timeout=2) as scope:
                quotes = [scope.supply(ask, backend) for backend in backends]
                return scope.ends_with(scope.first(*quotes)).result()  # the others are cancelled

        Args:
            timeout: In how many seconds it ends, as in `or_timeout`. By default it has no deadline.
            name: What histories call it.

        Returns:
            The scope. One that a scope opens ends with that, too. It takes one stage, and one event when it ends; each stage
            that it cancels takes one more.

        Raises:
            ValueError: `timeout` is NaN."""
        if timeout is not None and math.isnan(timeout):
            raise ValueError("a time limit can't be NaN")
        stage = self._attach(Form.SOURCE, None, None, None, None, None, name)
        stage.request._set_aside(stage.number)
        try:
            return self._scope_class(stage if timeout is None else stage.or_timeout(timeout))
        except BaseException:  # nobody has a clock for it
            stage.cancel()
            raise

    def retry(
        self,
        fn: "Callable[..., T]",
        /,
        *args: Any,
        times: int = 3,
        delay: float = 0.1,
        factor: float = 2,
        jitter: bool = True,
        on: "Union[Type[BaseException], Tuple[Type[BaseException], ...]]" = Exception,
    ) -> "Stage[T]":
        """Calls a function, and calls it again as long as it fails. No thread waits during a pause.

            paid = request.retry(charge, 17, times=5, delay=0.2, on=(ConnectionError, TimeoutError)).or_timeout(10)

        Args:
            fn: Called with `args`, as by `supply`.
            times: How many tries there are at most.
            delay: How many seconds the first pause takes.
            factor: How many times longer each further pause is.
            jitter: Whether a pause is a random part of that, at least half. In `cf.testing` it is all.
            on: What is tried again: an exception class, or a tuple of such. Any other exception fails at once.

        Returns:
            A stage that ends with the function's value, or with the exception of the last try. This has the earlier ones as
            notes; before Python 3.11 as its `__context__`s. If the stage is settled otherwise, as by `cancel`, the try or the
            pause ends, too. It takes five stages, and four more for each further try.

        Raises:
            ValueError: There is no try, or a pause is negative, infinite or NaN."""
        if times < 1 or not (0 <= delay < math.inf and 0 <= factor < math.inf):
            raise ValueError("a function is tried at least once, and pauses are finite numbers from 0 on")
        if self._works.closed:
            raise self._works.refusal()
        self._check_room(5)
        name = name_of(fn)
        answer: Stage[T] = self._attach(Form.SOURCE, None, None, None, None, None, name)
        own = self.scope(name=f"tries of {name}")
        own.ends_with(answer)
        self._join(answer, 1, [Tries(own, fn, args, times, delay, factor, jitter, on).begin()])
        return answer

    # For these.

    def _of_all(self, form: Form, of: "Sequence[concurrent.futures.Future[Any]]", name: str) -> "Stage[Any]":
        here, holds = self._relays_of(of, max(len(of) - 1, 1))
        stage = self._gather(form, here, name)
        let_go_with(stage, holds)
        return stage

    def _joined(self, wanted: int, of: "Sequence[concurrent.futures.Future[Any]]", form: Form, fn: Callable[..., Any], name: str) -> "Stage[Any]":
        """A stage behind one that ends once so many of these have succeeded, or too few can. Its function is given the
        stages, too."""
        if not 1 <= wanted <= len(of):
            raise ValueError(f"{wanted} of {len(of)} futures can't be wanted")
        if self._works.closed:
            raise self._works.refusal()
        here, holds = self._relays_of(of, 2)
        join = self.promise(f"{wanted} of {len(of)}")
        try:
            joined = self._behind(form, join, None, functools.partial(fn, here)).named(name)
            self._join(join, wanted, here)
        except BaseException:
            join.cancel()
            raise
        let_go_with(joined, holds)
        return joined
