"""What a run is told by its service: each event and each read is touched, and what follows from it may be a move."""
import asyncio
import concurrent.futures
import threading
from typing import Any, Callable, List, Optional, Sequence

from ..service.relays import is_relay
from ..service.request import Request
from ..service.stage import Stage
from ..service.watch import Callback, ReadyStage, WatchedStage, is_settled
from ..service.words import name_of
from .arrivals import Arrival
from .carriers import CarrierThread
from .footprints import CHANGES, READS, Place, Thing
from .state import Flight, NeedsThreads, State, Tail, PendingLimit, Wait


class Listening(State):
    """The `Watch` of a run's service."""

    @property
    def is_busy(self) -> bool:
        """As `Watch.is_busy`."""
        return bool(self.ready_tasks or any(flight.task is not None for flight in self.flights.values()))

    def now(self, request: Request) -> float:
        """As `Watch.now`."""
        if self.loop is not None:
            return self.loop.time()
        return self._nows.get(self._indices[id(request)], 0.0)

    def on_opened(self, request: Request) -> None:
        """As `Watch.on_opened`."""
        self._indices[id(request)] = len(self.requests)
        self.requests.append(request)

    def on_attached(self, stage: "Stage[Any]", of: "Sequence[Stage[Any]]") -> None:
        """As `Watch.on_attached`."""
        place = self._place(stage)
        self._behind.add(place, [self._place(source) for source in of])
        for source in of:
            self.touch(self._place(source), READS)
        self.touch(("attach", place[0]), CHANGES)
        self.touch(place, CHANGES)
        self._happened()

    def on_changed(self, stage: "Stage[Any]", did: bool) -> None:
        """As `Watch.on_changed`."""
        self.touch(self._place(stage), CHANGES if did else READS)
        self._happened()

    def on_claimed(self, stage: "Stage[Any]") -> None:
        """As `Watch.on_claimed`."""
        self.touch(self._place(stage), CHANGES)

    def on_finished(self, stage: "Stage[Any]", to: "Optional[Stage[Any]]") -> None:
        """As `Watch.on_finished`."""
        place = self._place(stage)
        self.touch(place, CHANGES)
        if to is not None:
            self._behind.add(place, [self._place(to)])
            self.touch(self._place(to), READS)
            self._news.append(place)
        self._happened()

    def on_settled(self, stage: "Stage[Any]") -> None:
        """As `Watch.on_settled`."""
        self._news.append(self._place(stage))
        self._settled.append(stage)

    def on_callbacks(self, stage: "Stage[Any]", calls: "List[Callback]", at_once: bool) -> None:
        """As `Watch.on_callbacks`. Within a function its own thread calls them, before it goes on."""
        if not (at_once or self._in_user):
            place = self._place(stage)
            self._calls += [(("tell", *place, k), call) for k, call in enumerate(calls)]
            return
        for call in calls:
            self._call_back(call)

    def _call_back(self, call: Callback) -> None:
        """Calls a callback. One for relays looks at all that there ever were: it would settle those that were let
        go."""
        if not call.is_relay:
            self.user(call, name_of(call.fn))
            return
        self._touch_relays(self._place(call.stage))
        call()

    def _touch_relays(self, of: Thing) -> None:
        for relay in self._relays.get(of, ()):
            self.touch(relay, READS)

    def on_ready(self, task: ReadyStage) -> None:
        """As `Watch.on_ready`."""
        self._news.append(self._put(task))

    def _put(self, task: ReadyStage) -> Place:
        """There is a function more to claim, and a turn more to do so. Whoever has a turn claims any of its request."""
        place = self._place(task.stage)
        if self.has_too_few_turns(place[0]):
            self.touch(("turns", place[0]), CHANGES)
        self.ready_tasks[place] = task
        self.turns[place[0]] = self.turns.get(place[0], 0) + 1
        self.touch(place, CHANGES)
        return place

    def has_too_few_turns(self, request: int) -> bool:
        """Whether some function of a request can't be claimed yet: the thread that has its turn calls callbacks first."""
        return self.turns.get(request, 0) < sum(place[0] == request for place in self.ready_tasks)

    def _give_turns(self, request: int, many: int) -> None:
        self.turns[request] += many
        self.touch(("turns", request), CHANGES)

    def on_read(self, stage: "Stage[Any]") -> None:
        """As `Watch.on_read`."""
        if self._in_user and self._footprint is not None:
            self.touch(self._place(stage), READS)

    def on_linked(self, relay: "Stage[Any]", future: "concurrent.futures.Future[Any]") -> None:
        """As `Watch.on_linked`."""
        if isinstance(future, WatchedStage) and future.request is relay.request:  # (which needs no callback)
            self._behind.add(self._place(relay), [self._place(future)])
            return
        thing: Thing = (
            ("outside", future.number)
            if isinstance(future, Arrival)
            else (self._place(future) if isinstance(future, WatchedStage) else ("elsewhere",))
        )
        self._relays.setdefault(thing, []).append(self._place(relay))

    def on_history_read(self, request: Request) -> None:
        """As `Watch.on_history_read`."""
        if self._in_user and self._footprint is not None:
            index = self._indices[id(request)]
            self.touch(("attach", index), READS)
            for place in self._stages:
                if place[0] == index:
                    self.touch(place, READS)

    def on_limit(self, stage: "Stage[Any]", seconds: float, act: Callable[[], object]) -> None:
        """As `Watch.on_limit`."""
        self._add_timer(self._place(stage), seconds, act, lambda: is_settled(stage), f"the limit of {stage.name} passes")

    def _add_timer(self, place: Place, seconds: float, act: Callable[[], object], is_lost: Callable[[], bool], text: str) -> None:
        request = place[0]
        self.touch(("clock", request), CHANGES)
        number = self._timers_made[request] = self._timers_made.get(request, 0) + 1
        self.timers.append(PendingLimit(self._nows.get(request, 0.0) + seconds, number, place, act, is_lost, text))

    def _happened(self) -> None:
        """An event was told whole: what it led to is touched, and its callbacks wait."""
        if threading.get_ident() != self._home and not isinstance(threading.current_thread(), CarrierThread):
            self.why = self.why or (f"the thread {threading.current_thread().name} changed a request: threads of your own are outside the world")
        news, self._news = self._news, []
        for place in news:
            self.touch(place, CHANGES)
        if self._footprint is not None:
            for place, how in self._behind.reached(news, lambda place: is_settled(self._stages[place])):
                self.touch(place, how)
        if self._calls:
            self.tails.append(Tail(self._calls))
            self._calls = []
        if self.settings.is_fine and self._in_user and getattr(self._carried, "flight", None) is not None:
            self.point()

    def _place(self, stage: "Stage[Any]") -> Place:
        place = (self._indices[id(stage.request)], stage.number)
        self._stages.setdefault(place, stage)
        return place

    # Of arrivals.

    def touch_outside(self, number: int, changes: bool) -> None:
        """Somebody looks at an arrival, or settles it."""
        if changes or self._in_user:
            self.touch(("outside", number), CHANGES if changes else READS)

    def told_outside(self, call: Callable[[Any], object], future: Any) -> None:
        """A callback of an arrival is to be called."""
        if is_relay(call):
            self._touch_relays(("outside", future.number))
            call(future)
        else:
            self.user(lambda: call(future), name_of(call))

    # Functions that wait.

    def wait(self, stages: "Sequence[Stage[Any]]", is_over: Callable[[], bool], timeout: Optional[float]) -> None:
        """As `Watch.wait`."""
        name = " or ".join(stage.name for stage in stages) or "the functions that go on"
        self.wait_for(name, [self._place(stage) for stage in stages], is_over, timeout)

    def wait_for(
        self,
        name: str,
        things: Sequence[Thing],
        is_over: Callable[[], bool],
        timeout: Optional[float],
        ways: Sequence[Any] = (),
        possible: Optional[Callable[[], Sequence[int]]] = None,
    ) -> Any:
        """Lets others go on until something is so, or one of several ways is chosen, which is given then."""
        if self._is_over:
            self.fail(f"{name} is never settled")
        if self.loop is not None and asyncio._get_running_loop() is self.loop:
            self.fail(f"a coroutine waits for {name} by a call that holds up its loop: await it")
        if not self.settings.has_threads:
            raise NeedsThreads
        flight: Optional[Flight] = getattr(self._carried, "flight", None)
        if flight is None or flight.carrier is None:
            self.fail(f"a callback waits for {name}, in the thread that settled its stage")
        flight.wait, flight.is_late = Wait(name, tuple(things), is_over, tuple(ways), possible), False
        if timeout is not None:
            self._limit_wait(flight, flight.wait, timeout)
        flight.carrier.pause()
        return flight.chosen

    def point(self) -> None:
        """Lets others go on."""
        self.wait_for("its turn", (), lambda: True, None)

    def _limit_wait(self, flight: Flight, wait: Wait, seconds: float) -> None:
        def act() -> None:
            flight.is_late = True

        place: Place = next(((thing[0], thing[1]) for thing in wait.things if isinstance(thing[0], int)), (-1, 0))
        self._add_timer(
            place, seconds, act, lambda: flight.wait is not wait or wait.is_over(), f"{flight.name} has waited {seconds} s for {wait.name}"
        )
