"""A request whose row stands in a store, and its stages as futures.

The design of `cf.store`, which this file leads through:

A request is a row of words in a store. Each process that works on it does the words on its own graph, so all graphs are
the same. A change is a word that is put at the end of the row. If two processes put at the same place, the store takes
one put; the other process reads that word and decides again. So the row is the one order of all changes. docs/ENGINES.md
says what that demands of a store.

Who decides
    The proved machine of a process at work on a store (machine.py): what is put, which function is called, whose session is
    gone, what is due, who is told what. It has no thread, clock, store or payload. `Leader` (leader.py) does what it orders.

What is kept where
    - A `Store` (rows.py) has rows, payloads, timers and the beats of sessions. A payload is a value, an exception, or the
      definition of an attached stage. It is put with its word, and named by the word's place.
    - A `Followed` (followed.py) is what the leader keeps of a request beside the machine.
    - `DurableRequest` has the futures that somebody has asked for. A `DurableStage` is a plain
      `concurrent.futures.Future`, which is settled once.
    - `DurableService` (service.py) has the leader, its threads, and the requests by their names.
    - A `RowView` (view.py) reads a row for histories and lists.

What happens at a change
    1. `_ask` asks the machine for an act, and waits until that tells what became of it.
    2. The thread that waits, and those of the service, do what the machine orders meanwhile: they put the words with their
       payloads, in one step of the store, read those of others, and put again.
    3. The one who asked shows the stages that were settled by then: a future is settled, and callbacks run, without a lock.
       If a callback raises, the others still run. Whom the words of others settle is shown by a thread of its own.

Errors
    `Unknown`: the store didn't answer for a minute; the change may stand. `Broken`: the row is damaged. `Gone`, a
    `Broken`: the request was dropped. `StoreError`: the store refuses the call.

Which methods call a user's code
    `ServiceHooks.call` (functions), `DurableStage._invoke_callbacks`, the codec in `Payloads`, and `history` (codec and
    `describe`).
"""
import asyncio
import concurrent.futures
import contextlib
import json
import logging
import threading
from concurrent.futures import InvalidStateError
from typing import TYPE_CHECKING, Any, Callable, Dict, Generator, Generic, List, Mapping, Optional, Sequence, Set, Tuple, TypeVar

from ..service.flow import FurtherTry, Step, _alone
from ..service.history import Describe, History, escaped
from ..service.stage import ASYNCIOS
from ..service.words import MOST_STAGES, RequestFull
from ..values import Form
from .codec import Abandoned, json_of
from .contexts import capture_all
from .earlier import called_definition
from .followed import Became, Followed, Shown
from .functions import definition_of
from .machine import Act, ActKind, Told
from .plans import comparable_definition
from .view import RowView

if TYPE_CHECKING:
    from typing_extensions import ParamSpec

    from .service import DurableService

    P = ParamSpec("P")

T = TypeVar("T")
U = TypeVar("U")
V = TypeVar("V")
LOGGER = logging.getLogger("concurrent.futures")
MOST_AT_ONCE = 32  # acts that are asked for together

if TYPE_CHECKING:

    class _Future(concurrent.futures.Future[T]):
        _state: str
        _condition: threading.Condition
        _done_callbacks: "List[Callable[[Any], object]]"

else:

    class _Future(concurrent.futures.Future, Generic[T]):
        """Python 3.8 has futures without a parameter."""


class DurableStage(_Future[T]):
    """A stage of a request in a store: a future that can be awaited. It shows the words that this process has read.

    Its methods are those of `cf.service.Stage`, with these differences:

    - Functions are registered ones (`@service.function`), and values are what the codec takes.
    - A stage that is attached or settled is in the store when the call returns.
    - Other stages are of the same request.

    Each method that attaches a stage returns the new stage. Each method that changes something raises

        TypeError: The function isn't registered, the codec can't write the value, or a stage is another request's.
        RequestFull: There would be more than 4,096 stages. Nothing is put.
        Unknown: The store didn't answer for a minute. The change may stand or not.
        Broken: The row is damaged, or the request was dropped.
        StoreError: The store refuses it, or a transactional function of this request runs on this thread."""

    def __init__(self, request: "DurableRequest", number: int) -> None:
        super().__init__()
        self.request: "DurableRequest" = request
        self.number: int = number

    @property
    def name(self) -> str:
        """The stage's name in histories: that of its function or of the promise."""
        return str(self.request._definition(self.number)["name"])

    def then(self, fn: Callable[[T], U]) -> "DurableStage[U]":
        """As `cf.service.Stage.then`, with a registered function."""
        return self.request._attach(Form.APPLY, (self,), fn)

    def combine(self, other: "DurableStage[U]", fn: Callable[[T, U], V]) -> "DurableStage[V]":
        """As `cf.service.Stage.combine`. The other stage is of this request."""
        return self.request._attach(Form.COMBINE, (self, other), fn)

    def either(self, other: "DurableStage[T]", fn: Callable[[T], U]) -> "DurableStage[U]":
        """As `cf.service.Stage.either`. The other stage is of this request."""
        return self.request._attach(Form.APPLY_EITHER, (self, other), fn)

    def handle(self, fn: Callable[[Optional[T], Optional[BaseException]], U]) -> "DurableStage[U]":
        """As `cf.service.Stage.handle`, with a registered function."""
        return self.request._attach(Form.HANDLE, (self,), fn)

    def when_done(self, fn: Callable[[Optional[T], Optional[BaseException]], object]) -> "DurableStage[T]":
        """As `cf.service.Stage.when_done`, with a registered function."""
        return self.request._attach(Form.WHEN_COMPLETE, (self,), fn)

    def recover(self, fn: Callable[[BaseException], T]) -> "DurableStage[T]":
        """As `cf.service.Stage.recover`, with a registered function."""
        return self.request._attach(Form.EXCEPTIONALLY, (self,), fn)

    def compose(self, fn: "Callable[[DurableRequest, T], DurableStage[U]]") -> "DurableStage[U]":
        """Has a function attach stages to this request, and waits for one of them without holding a thread.

            @service.function("ship")
            def ship(request, order):
                return request.supply(pack, order).then(send)

            shipped = paid.compose(ship)

        Args:
            fn: A registered function. It is called with the request, as the process has it that runs the function, and
                with the value. It attaches stages to the request and returns one of them.

        Returns:
            A promise that ends as that stage does. Two stages are attached: the one that calls the function, and this
            promise, which any process settles that sees the returned stage settled."""
        return self.request._compose(self, fn)

    def again(self, times: int = 1) -> "DurableStage[T]":
        """Plans further tries, for the case that the process that runs this stage's function dies. A function that
        isn't transactional may have done its work before, and does it once more with each try. One that attaches
        stages, for `compose`, attaches what is missing: a stage that an earlier try has attached isn't attached once
        more, if the function attaches the same on its own thread, by kind, name, function, arguments and sources.

        Args:
            times: How many further tries, each of which is a stage of its own, or two behind `compose`.

        Returns:
            The last try. It passes on the value of an earlier one."""
        stage, name = self, f"{self.name} again"
        composes = "to" in self.request._definition(self.number)
        for _ in range(times):
            if composes:
                stage = self.request._compose(stage, FurtherTry(self.number), name)
            else:
                stage = self.request._attach(Form.EXCEPTIONALLY, (stage,), FurtherTry(self.number), name=name)
        return stage

    def complete(self, value: T) -> bool:
        """Settles the stage with a value, unless it is settled. True if this call settled it."""
        return self.request._settle(ActKind.COMPLETE, self.number, self.request._service.codec.write(value))

    def fail(self, error: BaseException) -> bool:
        """Settles the stage with an exception, unless it is settled. True if this call settled it."""
        return self.request._settle(ActKind.FAIL, self.number, self.request._service.codec.write_error(error))

    def cancel(self) -> bool:
        """Cancels the stage, unless it is settled or its function runs in some process. True if it is cancelled
        after the call."""
        return self.request._settle(ActKind.CANCEL_IDLE, self.number)

    def abandon(self) -> bool:
        """Cancels the stage, unless it is settled, also while its function runs, whose answer comes too late then.
        True if it is cancelled after the call."""
        return self.request._settle(ActKind.CANCEL, self.number)

    def or_timeout(self, seconds: float) -> "DurableStage[T]":
        """Sets a timer in the store, by which the stage fails with a `TimeoutError` unless it is settled. Any process
        that works on the request fires it. A stage has one timer; a second call replaces the first one's.

        Args:
            seconds: From now on, by the store's clock.

        Returns:
            This stage itself."""
        error = TimeoutError(f"{escaped(self.name)} took longer than {seconds} s")
        return self.request._set_timer(self, seconds, b"E" + self.request._service.codec.write_error(error))

    def complete_on_timeout(self, value: T, seconds: float) -> "DurableStage[T]":
        """Sets a timer in the store, by which the stage gets a value unless it is settled, as `or_timeout`."""
        payload = b"N" if value is None else b"V" + self.request._service.codec.write(value)
        return self.request._set_timer(self, seconds, payload)

    def set_result(self, result: T) -> None:
        """As `complete`; a settled stage raises `InvalidStateError`."""
        if not self.complete(result):
            raise InvalidStateError(f"{self._state}: {self!r}")

    def set_exception(self, exception: Optional[BaseException]) -> None:
        """As `fail`; a settled stage raises `InvalidStateError`."""
        if not self.fail(TypeError("no exception") if exception is None else exception):
            raise InvalidStateError(f"{self._state}: {self!r}")

    def __await__(self) -> Generator[Any, None, T]:
        """Awaits the stage on the running loop. Giving up the wait, as by `asyncio.wait_for`, leaves the stage as it is:
        others may wait for it, also in other processes. `cancel` cancels it."""
        if not self.done():
            yield from self._waited_for(asyncio.get_running_loop())
        if self.cancelled():
            raise asyncio.CancelledError
        error = self.exception()
        if error is not None and type(error) in ASYNCIOS:
            raise ASYNCIOS[type(error)](*error.args)
        return self.result()

    def _waited_for(self, loop: asyncio.AbstractEventLoop) -> Generator[Any, None, None]:
        """Waits on a loop until it is done. A wait that is given up leaves nothing in the stage."""
        shown = loop.create_future()

        def wake(_: object) -> None:
            with contextlib.suppress(RuntimeError):  # the loop is closed
                loop.call_soon_threadsafe(lambda: None if shown.done() else shown.set_result(None))

        self.add_done_callback(wake)
        try:
            yield from shown
        finally:
            with self._condition:
                if not self.done():  # (else the callbacks are being called)
                    self._done_callbacks.remove(wake)

    @property
    def _ended(self) -> int:
        """The kind of its outcome, by the words read."""
        return self.request._service.leader.stage_now(self.request._followed, self.number)[1].kind

    def _show(self, shown: Shown) -> None:
        """Settles this future and wakes its waiters, once."""
        if self.done():
            return
        if shown.is_cancelled:
            super().cancel()
            with self._condition:
                if self._state == "CANCELLED":  # (another thread may show it, too)
                    super().set_running_or_notify_cancel()
            return
        with contextlib.suppress(InvalidStateError):  # (so it may)
            if shown.error is not None:
                super().set_exception(shown.error)
            else:
                super().set_result(shown.value)

    def _invoke_callbacks(self) -> None:
        """Calls all callbacks, and raises at the end the first error that isn't an `Exception`."""
        ended: Optional[BaseException] = None
        for callback in self._done_callbacks:
            try:
                callback(self)
            except Exception:
                LOGGER.exception("exception calling callback for %r", self)
            except BaseException as error:
                ended = ended or error
        if ended is not None:
            raise ended


class NotStill(Exception):
    """What was to be put isn't wanted any more, by what others have put meanwhile."""


class Composing:
    """A stage whose function attaches stages while it runs.

    Attributes:
        stage: The stage.
        first: The first try: the same stage, or the one of which it is a further try.
        taken: The stages that it has attached, or found attached by an earlier try."""

    def __init__(self, stage: int, first: Optional[int]) -> None:
        self.stage, self.first = stage, stage if first is None else first
        self.taken: Set[int] = set()

    def stages_of_earlier_tries(self, request: Followed, form: Tuple[int, Tuple[int, ...]], said: Mapping[str, Any]) -> List[int]:
        """The stages of this form and definition that earlier tries have attached and that weren't taken yet."""
        if self.first == self.stage:
            return []
        wanted = comparable_definition(json.loads(json.dumps(said)))
        return [
            number
            for number in range(request.planned, len(request.definitions))
            if request.forms[number] == form and number not in self.taken and comparable_definition(dict(request.definitions[number])) == wanted
        ]


class DurableRequest:
    """A request in a store. `DurableService.request`, `start` and `open` give one. Any thread may use it, and processes
    share it.

    Each method that changes something raises what `DurableStage` says."""

    def __init__(self, service: "DurableService", followed: Followed) -> None:
        self._service, self._followed = service, followed
        self.name: str = followed.name
        self.number: int = followed.number
        self._lock = service._host.lock()
        self._stages: Dict[int, DurableStage[Any]] = {}
        self._composed_by: Dict[int, Composing] = {}  # by threads, the stages whose functions attach stages
        self._describe: Describe = service._describe
        self._reader: Optional[RowView] = None

    def __repr__(self) -> str:
        return f"<{type(self).__name__} {self.name!r} of {len(self._followed.forms)} stages>"

    @property
    def words_seen(self) -> int:
        """How many words of it this process has read."""
        return self._followed.words

    # Stages.

    def supply(self, fn: "Callable[P, T]", /, *args: "P.args", **kwargs: "P.kwargs") -> "DurableStage[T]":
        """Calls a registered function, in any process that works on the request.

        Args:
            fn: The function. It is called with the other arguments, which have to be what JSON has.

        Returns:
            A stage that ends with what the function returns or raises."""
        return self._attach(Form.SUPPLY, (), fn, args, kwargs)

    def promise(self, name: str = "promise") -> "DurableStage[Any]":
        """A stage without a function, which somebody settles, in any process: `request["approval"].complete("yes")`."""
        return self._attach(Form.SOURCE, (), None, name=name)

    def all_of(self, *of: "DurableStage[Any]") -> "DurableStage[None]":
        """A stage that ends once all are settled: with None if all have values, else with the exception of the first
        one in this order that has one. For n stages it takes n - 1, at least one."""
        return self._attach_tree(Form.ALL_OF, of, "all of")

    def first_of(self, *of: "DurableStage[T]") -> "DurableStage[T]":
        """A stage that ends as the first one that is settled, be it with an exception. For n stages it takes n - 1,
        at least one. `ValueError` if no stage is given."""
        if not of:
            raise ValueError("of no stages none is the first")
        return self._attach_tree(Form.ANY_OF, of, "first of")

    def gather(self, *of: "DurableStage[T]") -> "DurableStage[List[T]]":
        """A stage that ends with the list of the values of all, in this order, or fails as `all_of` does. For n
        stages it takes 2 n - 1. `ValueError` if no stage is given."""
        if not of:
            raise ValueError("a list of nothing needs no stage")
        add = self._service.functions.find("cf.add", 1)
        assert add is not None
        row: List[DurableStage[Any]] = [self._attach(Form.APPLY, (stage,), _alone, name="gather") for stage in of]
        while len(row) > 1:
            pairs = [row[k : k + 2] for k in range(0, len(row), 2)]
            row = [self._attach(Form.COMBINE, tuple(it), add.call, name="gather") if len(it) == 2 else it[0] for it in pairs]
        return row[0]

    def __getitem__(self, which: "Step[T] | int | str") -> "DurableStage[T]":
        """The stage of a flow's step, the one of a number, or the first one of a name. `KeyError` if there is none, or
        if the request wasn't begun with the step's flow: one of its name, with these steps."""
        self._catch_up()
        plan = self._followed.plan
        if isinstance(which, Step) and (plan is None or not plan.is_plan_of(which.flow)):
            raise KeyError(f"{which.name} is a step of another flow")
        many = len(self._followed.forms)
        if isinstance(which, str):
            which = next((k for k in range(many) if self._definition(k)["name"] == which), many)
        number = which.number if isinstance(which, Step) else which
        if not 0 <= number < many:
            raise KeyError(which)
        return self._stage(number)

    def history(self) -> History:
        """The history until now. It reads all payloads, so it takes time by the number of words."""
        self._catch_up()
        return self._history()

    def _history(self) -> History:
        """The history of the words seen."""
        return self._row().history(self._service.codec, self._lock)._with_descriptions(self._describe)

    def cancel(self) -> None:
        """Cancels all stages that aren't settled, as `abandon` does: also those whose functions run, in whichever process. It
        begins with the last one, so no function that takes exceptions (`handle`, `recover`) is called for it. What is
        attached meanwhile isn't cancelled. Each stage is one put; if one of these isn't answered, the stages before it stay
        cancelled. A flow's request is closed once its functions have ended, and `end` closes another.

            try:
                return await answer
            finally:  # also if the client hangs up
                await asyncio.to_thread(request.cancel)"""
        self._catch_up()  # what others have attached
        left = [Act(ActKind.CANCEL, stage) for stage in reversed(range(len(self._followed.forms)))]
        self._ask_each([(act, None) for act in left])

    def end(self) -> None:
        """Closes the request: workers look at it no more, and its timers are dropped. A flow's request is closed by
        itself once all its stages are settled. Attaching a stage opens a request again."""
        self._catch_up()
        self._service._end(self)

    # What is asked of the machine.

    def _ask(
        self, act: Act, payload: Optional[bytes] = None, definition: Optional[Mapping[str, Any]] = None, still: Optional[Callable[[], bool]] = None
    ) -> Became:
        return self._service._told(self, self._service._asked(self, act, payload, definition, still), still)

    def _ask_each(self, acts: Sequence[Tuple[Act, Optional[bytes]]]) -> None:
        """Asks for some acts at a time, in this order."""
        for k in range(0, len(acts), MOST_AT_ONCE):
            faulty: Optional[BaseException] = None
            for asked in [self._service._asked(self, act, payload) for act, payload in acts[k : k + MOST_AT_ONCE]]:
                try:
                    self._service._told(self, asked)
                except BaseException as error:
                    faulty = faulty or error
            if faulty is not None:
                raise faulty

    def _settle(self, kind: ActKind, stage: int, payload: Optional[bytes] = None) -> bool:
        """Whether this call has settled a stage, or it is cancelled as was asked."""
        return self._ask(Act(kind, stage), payload).told in (Told.STANDS, Told.AS_ASKED)

    def _catch_up(self) -> None:
        """Does the words of others that stand by now."""
        self._service._catch_up(self)

    def _attach(
        self,
        form: Form,
        of: "Sequence[DurableStage[Any]]",
        call: Optional[Callable[..., Any]],
        args: Tuple[Any, ...] = (),
        kwargs: Optional[Dict[str, Any]] = None,
        name: str = "",
    ) -> "DurableStage[Any]":
        said = self._definition_of(call, of, args, kwargs or {})
        said = {"name": name or said.get("fn", form.name.lower()), **said}
        sources = tuple(stage.number for stage in of)
        if isinstance(call, FurtherTry):
            act = Act(ActKind.AGAIN, sources[0])
        else:
            act = Act(ActKind.ATTACH, form=form, of=sources, function=self._number_of(said))
        return self._attach_or_find(act, form, sources, said)

    def _compose(self, source: "DurableStage[Any]", call: Callable[..., Any], name: str = "") -> "DurableStage[Any]":
        """Attaches a stage that composes, or a further try of one (`FurtherTry`), and the promise for its result."""
        said = self._definition_of(call, (source,), (), {})
        said = {"name": name or said["fn"], **said}
        form, called = Form.COMPOSE, said
        if isinstance(call, FurtherTry):
            form, called = Form.EXCEPTIONALLY_COMPOSE, dict(called_definition(self._followed.definitions, call.of))
        act = Act(ActKind.ATTACH, form=form, of=(source.number,), function=self._number_of(called))
        return self._attach_or_find(act, form, act.of, said)

    def _number_of(self, said: Mapping[str, Any]) -> Optional[int]:
        return self._service.leader.numbers.number(said["fn"], said["version"]) if "fn" in said else None

    def _definition_of(
        self, call: Optional[Callable[..., Any]], of: "Sequence[DurableStage[Any]]", args: Tuple[Any, ...], kwargs: Dict[str, Any]
    ) -> Dict[str, Any]:
        """The definition of an attached stage: its function, and the stage whose function attaches it."""
        if any(stage.request is not self for stage in of):
            raise TypeError("no stage of this request")
        said = definition_of(self._service.functions, call, args, kwargs)
        said.update(capture_all(self._service.contexts) if call is not None else {})
        json_of(said)  # (where JSON hasn't something, who attaches is told)
        composing = self._composing_here()
        return said if composing is None else {**said, "by": composing.first}

    def _composing_here(self) -> "Optional[Composing]":
        """The composing stage whose function runs on this thread, or None."""
        return self._composed_by.get(threading.get_ident())

    @contextlib.contextmanager
    def _composing(self, composing: "Composing") -> Generator[None, None, None]:
        """Marks this thread as running the function of a composing stage."""
        self._composed_by[threading.get_ident()] = composing
        try:
            yield
        finally:
            del self._composed_by[threading.get_ident()]

    def _attach_or_find(self, act: Act, form: Form, sources: Tuple[int, ...], said: Dict[str, Any]) -> "DurableStage[Any]":
        """Attaches a stage of this form, or gives the one that an earlier try of the function has attached. A request that
        is closed in the store is opened again with that."""
        composing = self._composing_here()
        if composing is None:
            return self._stage(self._ask(act, None, said).stage)
        number = self._found_or_attached(composing, act, form, sources, said)
        composing.taken.add(number)
        return self._stage(number)

    def _found_or_attached(self, composing: Composing, act: Act, form: Form, sources: Tuple[int, ...], said: Dict[str, Any]) -> int:
        """The stage that an earlier try has attached, or one that is attached now, while the composing stage is open."""

        def found() -> List[int]:
            return composing.stages_of_earlier_tries(self._followed, (int(form), sources), said)

        def is_open() -> bool:
            return self._service.leader.outcome(self._followed, composing.stage) is None

        self._catch_up()
        while is_open():
            known = found()
            if known:
                return known[0]
            with contextlib.suppress(NotStill):
                return self._ask(act, None, said, lambda: is_open() and not found()).stage
        name = self._definition(composing.first)["name"]  # another try attaches stages
        raise Abandoned(f"{name} is settled, and its function attaches nothing any more")

    def _attach_tree(self, form: Form, of: "Sequence[DurableStage[Any]]", name: str) -> "DurableStage[Any]":
        """Attaches a tree of stages with at most two sources each, which ends as one stage of all sources would."""
        if len(self._followed.forms) + max(len(of) - 1, 1) > MOST_STAGES:
            raise RequestFull("a request has at most 4,096 stages")
        row = list(of)
        while len(row) > 2:
            row = [self._attach(form, row[k : k + 2], None, name=name) if k + 1 < len(row) else row[k] for k in range(0, len(row), 2)]
        return self._attach(form, row, None, name=name)

    def _complete_all(self, given: "List[Tuple[int, bytes]]") -> None:
        """Completes a flow's promises. Those that are settled stay as they are."""
        self._ask_each([(Act(ActKind.COMPLETE, stage), payload) for stage, payload in given])

    def _set_timer(self, stage: "DurableStage[T]", seconds: float, payload: bytes) -> "DurableStage[T]":
        if not stage.done():
            self._service._set_timer(self, stage.number, seconds, payload)
        return stage

    def _cancel_all(self) -> None:
        """Cancels the stages of its flow that were asked for here and that nobody has claimed."""
        for number, stage in self._stages.copy().items():
            if not stage.done() and number < self._followed.planned:
                stage.cancel()

    # What is read.

    def _stage(self, number: int) -> "DurableStage[Any]":
        with self._lock:
            stage = self._stages.get(number)
            if stage is not None:
                return stage
            stage = self._stages[number] = (self._service._host.stage or DurableStage)(self, number)
        self._service.leader.wait_for(self._followed, number, stage._show)
        return stage

    def _definition(self, stage: int) -> Mapping[str, Any]:
        return self._followed.definitions[stage]

    def _row(self) -> RowView:
        """The row, by the words seen."""
        followed = self._followed
        with self._lock:
            if self._reader is None:
                self._reader = RowView(self._service.store, followed.opened, self._service.session)
            reader, words = self._reader, followed.words
            reader.catch_up(followed.entries[reader.words_seen : words])
            reader.know_definitions(dict(enumerate(followed.definitions)))
            if self._service._ends is not None:
                reader.know_times(followed.times[:words])
            return reader
