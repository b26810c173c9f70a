"""One run of a test, of which a search chooses each move.

A run is the `Watch` of its service. It knows the ready and the running functions, the possible arrivals and the limits
that are due, and lists the possible moves (`moves`). `do` makes one, and returns its footprint.

A move is a tuple of a word and numbers:

    begin r s     a ready function is claimed: stage s of request r
    call r s      it is called. With all that it does, up to where it waits, this is one move
    go r s        a function that waited goes on
    choose r s k  a function that waits for a choice goes on with its kth way
    end r s       a function that was called is finished with what it returned or raised
    tell r s k    callback k of a stage is called
    come n k      arrival n comes, in its way k
    by n k        caller n makes its call k
    limit r s k   the next limit of request r passes, which was the kth
    loop, wake k  the event loop does its next step; its next timer is due
    stop          no limit passes any more
"""
import asyncio
import concurrent.futures
from typing import Any, Callable, Dict, List, Set

from ..service.history import History, describe_all
from ..service.service import Service
from ..service.stage import Stage
from ..service.watch import is_settled
from ..service.words import FIRST_WORKER, name_of
from .carriers import CARRIERS, Carrier
from .footprints import CHANGES, CHECKED, READS, USER, WORKERS, Footprint, Move, Thing
from .listening import Listening
from .marks import names_of
from .state import LEAVES, Failed, Flight, Settings, PendingLimit

MAIN: Thing = ("main", 0)
OF_STAGE = (
    "complete",
    "fail",
    "cancel",
    "abandon",
    "set_result",
    "set_exception",
    "or_timeout",
    "complete_on_timeout",
    "done",
    "cancelled",
    "running",
)
OF_STORES = ("job", "ask", "look", "due", "gone", "kill", "land", "spare")  # moves, which sharing.py has
FREE_NUMBERS = 60  # of workers, that histories tell apart


class Run(Listening):
    """A run that goes on. Tests see it as a `World`."""

    def __init__(self, settings: Settings, watched: Set[Thing]) -> None:
        from .world import World

        super().__init__(settings, watched)
        self.service = Service(watch=self)
        self.world = World(self)
        self.returned: Any = None
        self._is_stopped = False
        self._passed: List[PendingLimit] = []

    # What may come next.

    def moves(self) -> List[Move]:
        """The moves that are possible, in an order that the same row always has."""
        keys: List[Move] = [key for thing, flight in self.flights.items() for key in _next_of(thing, flight)]
        keys += [tail.calls[0][0] for tail in self.tails]
        for place in [place for place, task in self.ready_tasks.items() if is_settled(task.stage)]:
            del self.ready_tasks[place]
        if self.workers_free():
            keys += [("begin", *place) for place in self.ready_tasks if self.turns[place[0]]]
        keys += [("come", arrival.number, k) for arrival in self.outside if arrival.is_open for k in range(len(arrival.ways))]
        keys += [
            ("by", number, self.called[number])
            for number, (_, calls) in enumerate(self.callers)
            if self.called[number] < len(calls) and ("caller", number) not in self.flights
        ]
        keys += self._limits()
        if self.loop is not None:
            keys += self.loop.moves()
        if self.store is not None:
            keys += self.store.moves(keys)
        if self.settings.is_clock_free and self._may_stop(keys):
            keys.append(("stop",))
        return keys

    def _may_stop(self, keys: List[Move]) -> bool:
        """Whether the limits may stop passing. At any moment that ends the same way as at the end. But where orders are
        left out, the move has to be possible as long as the limits are."""
        limits = [key for key in keys if key[0] == "limit"]
        return bool(limits) and (self.settings.is_reduced or len(limits) == len(keys))

    def workers_free(self) -> int:
        """How many more functions may be claimed."""
        if not self.settings.workers:
            return 1
        return self.settings.workers - sum(flight.task is not None for flight in self.flights.values())

    def _limits(self) -> List[Move]:
        """The next limit of each request. A clock calls the callbacks of one limit before it looks at the next."""
        if not self.timers:
            return []
        if not self.settings.is_clock_free:
            self._passed += [timer for timer in self.timers if timer.is_lost()]
            self.timers = [timer for timer in self.timers if not timer.is_lost()]
        if self._is_stopped:
            return []
        first: Dict[int, PendingLimit] = {}
        busy = [tail.clock for tail in self.tails]
        for timer in sorted(self.timers, key=lambda timer: timer[:2]):
            first.setdefault(timer.place[0], timer)
        return [("limit", *timer.place, timer.number) for request, timer in sorted(first.items()) if request not in busy]

    # Moves.

    def do(self, key: Move) -> Footprint:
        """Makes a move, and returns its footprint."""
        self._footprint, self._settled = {}, []
        if key[0] in ("begin", "call", "end", "go"):
            self.touch(("flight", *key[1:]), CHANGES)
        elif key[0] == "choose":
            self.touch(("flight", *key[1:3]), CHANGES)
        elif key[0] in ("come", "by"):
            self.touch((key[0], key[1]), CHANGES)
        if self.store is not None:
            self.store.rows.told.clear()
        if self.store is not None and key[0] in OF_STORES:
            self.store.do(key)
        else:
            getattr(self, "_do_" + key[0])(*key[1:])
        footprint, self._footprint = self._footprint, None
        self._look(footprint)
        return footprint

    def _do_begin(self, request: int, stage: int) -> None:
        self.touch(("turns", request), CHANGES if self.has_too_few_turns(request) else READS)
        task = self.ready_tasks.pop((request, stage))
        self.turns[request] -= 1
        if self.settings.workers:
            self.touch(WORKERS, CHANGES)
            self.weight *= self.workers_free()
        if task.claim(FIRST_WORKER + len(self.flights) % FREE_NUMBERS):
            self.flights[request, stage] = Flight(task.stage.name, lambda: task.call(LEAVES), task)

    def _do_call(self, *thing: Any) -> None:
        flight = self.flights[thing]
        assert flight.task is not None
        names = names_of(flight.task.fn)
        for name in [USER] if names is None else [("user", name) for name in names]:
            self.touch(name, CHANGES)
        if names is not None and self.checks:
            self.touch(CHECKED, CHANGES)
        self._carry(flight)

    def _do_go(self, *thing: Any) -> None:
        flight = self.flights[thing]
        for each in flight.touches:
            self.touch(each, CHANGES)
        for each in flight.wait.things if flight.wait is not None else ():
            self.touch(each, READS)
        flight.wait = None
        self._let_run(flight, lambda carrier: carrier.resume())
        if flight.word == "end" and flight.task is None:
            del self.flights[thing]

    def _do_choose(self, *key: Any) -> None:
        flight = self.flights[key[:2]]
        assert flight.wait is not None
        flight.chosen = flight.wait.ways[key[2]]
        self._do_go(*key[:2])

    def _do_end(self, *thing: Any) -> None:
        task = self.flights.pop(thing).task
        assert task is not None
        if self.settings.workers:
            self.touch(WORKERS, CHANGES)
        if isinstance(task.error, AssertionError):
            self.fail(f"{task.stage.name} raised {describe_all(task.error)}")
        tails = len(self.tails)
        following = task.finish()
        if following is None:
            return
        place = self._put(following)
        if len(self.tails) > tails:
            self.tails[tails].turn_of = place[0]
            self._give_turns(place[0], -1)

    def _do_tell(self, request: int, stage: int, number: int) -> None:
        tail = next(tail for tail in self.tails if tail.calls[0][0][1:] == (request, stage, number))
        key, call = tail.calls.pop(0)
        self.touch((request, stage), READS)
        self.touch(tail.thing, CHANGES)
        if tail.clock is not None:
            self.touch(("clock", tail.clock), CHANGES)
        self._call_back(call)
        if not tail.calls:
            self.tails.remove(tail)
            if tail.turn_of is not None:
                self._give_turns(tail.turn_of, 1)

    def _do_come(self, number: int, way: int) -> None:
        self.touch_outside(number, True)
        self.outside[number].arrive(way)

    def _do_by(self, number: int, place: int) -> None:
        name, calls = self.callers[number]
        call = calls[place]
        self.called[number] += 1
        if _is_of_stage(call):
            self._raised_by(call, name)
        elif not self.settings.has_threads:
            self.user(call, name)
        else:
            self.touch(USER, CHANGES)
            flight = self.flights["caller", number] = Flight(name, lambda: self._raised_by(call, name))
            self._carry(flight)
            if flight.word == "end":
                del self.flights["caller", number]

    def _do_limit(self, request: int, stage: int, number: int) -> None:
        timer = next(timer for timer in self.timers if timer.place[0] == request and timer.number == number)
        self.timers.remove(timer)
        self.touch(("clock", request), CHANGES)
        for other in (*self._passed, *self.timers):
            if other.place[0] == request:
                self.touch(other.place, READS)
        self._nows[request] = max(self._nows.get(request, 0.0), timer.due)
        tails = len(self.tails)
        timer.act()
        for tail in self.tails[tails:]:
            tail.clock = request

    def _do_loop(self) -> None:
        assert self.loop is not None
        self.touch(("loop",), CHANGES)
        self.user(self.loop.step, "the loop")

    def _do_wake(self, _: int) -> None:
        assert self.loop is not None
        self.touch(("loop",), CHANGES)
        self.touch(("clock",), CHANGES)
        self.loop.wake()

    def _do_stop(self) -> None:
        for timer in self.timers:
            self.touch(("clock", timer.place[0]), CHANGES)
        self._is_stopped = True

    # Functions, which may wait.

    def _carry(self, flight: Flight) -> None:
        """Calls a function, on a thread of its own where functions wait."""
        if not self.settings.has_threads:
            saved, self._in_user = self._in_user, True
            try:
                flight.act()
            finally:
                self._in_user = saved
            flight.word = "end"
            return
        flight.carrier = CARRIERS.take()
        self._let_run(flight, lambda carrier: carrier.begin(lambda: self._act(flight)))

    def _act(self, flight: Flight) -> None:
        self._carried.flight = flight
        flight.act()

    def _let_run(self, flight: Flight, goes: Callable[[Carrier], None]) -> None:
        """Runs a thread until its function waits or has ended."""
        carrier = flight.carrier
        assert carrier is not None
        saved, self._in_user = self._in_user, True
        goes(carrier)
        self._in_user = saved
        if carrier.is_idle:
            CARRIERS.give(carrier)
            flight.carrier, flight.word = None, "end"
        if self.why:
            raise Failed

    # Beginning and end.

    def start(self, test: Callable[[Any], Any]) -> None:
        """Calls the test, which is one move."""
        flight = self.flights[MAIN] = Flight("the test", lambda: self._test(test))
        self._footprint = {}
        self._carry(flight)
        self._footprint = None
        if flight.word == "end":
            del self.flights[MAIN]
        self.look()

    def _test(self, test: Callable[[Any], Any]) -> None:
        try:
            self.returned = test(self.world)
            if asyncio.iscoroutine(self.returned):
                self.returned = self.world.loop.create_task(self.returned)
        except LEAVES:
            raise
        except BaseException as error:
            self.fail(f"the test raised {describe_all(error)}")

    def finish(self) -> None:
        """Ends the run, and checks the conditions for the end."""
        self._is_over = True
        waiting = [f"{flight.name} waits for {flight.wait.name}" for flight in self.flights.values() if flight.wait is not None]
        if waiting:
            self.fail("deadlock: " + ", ".join(waiting))
        for future in self.returned if isinstance(self.returned, (list, tuple)) else [self.returned]:
            self._see_end(future)
        for holds, text in self.ends:
            if not self._asked(holds, text):
                self.fail(text)

    def _see_end(self, future: Any) -> None:
        if not isinstance(future, (concurrent.futures.Future, asyncio.Future)):
            return
        if self.store is not None and self.store.is_of_dead(future):
            return
        if not future.done():
            self.fail(f"{getattr(future, 'name', 'the test')} is never settled")
        if isinstance(future, asyncio.Future) and not future.cancelled() and future.exception() is not None:
            self.fail(f"the test raised {describe_all(future.exception())}")

    def close(self) -> None:
        """Ends the waiting functions."""
        for flight in self.flights.values():
            if flight.carrier is not None:
                flight.carrier.end()
                CARRIERS.give(flight.carrier)
        if self.loop is not None:
            self.loop.end()
        if self.store is not None:
            self.store.close()

    def histories(self) -> List[History]:
        """The history of each request, and of each one of a store."""
        stored = [] if self.store is None else self.store.histories()
        return [request.history() for request in self.requests] + stored

    # In words.

    def told(self) -> List[str]:
        """The stages that the last move settled, in words, without relays."""
        told = [f"{stage.name} {_end_of(stage)}" for stage in self._settled if not stage.name.startswith("relay of ")]
        return told if self.store is None else told + self.store.rows.told

    def text(self, key: Move) -> str:
        """A move in words, before it is made."""
        word = key[0]
        if self.store is not None and word in OF_STORES:
            return self.store.text(key)
        if word == "come":
            way = self.outside[key[1]].ways[key[2]]
            name = self.outside[key[1]].name
            if way.is_never:
                return f"{name} never comes"
            return f"{name} comes: {describe_all(way.value)}" if way.error is None else f"{name} fails: {describe_all(way.error)}"
        if word == "by":
            name, calls = self.callers[key[1]]
            return name if len(calls) == 1 else f"{name}, call {key[2] + 1}"
        if word == "limit":
            return next(timer.text for timer in self.timers if (*timer.place, timer.number) == key[1:])
        if word == "go":
            return f"{self.flights[key[1:]].name} goes on"
        if word == "choose":
            flight = self.flights[key[1:3]]
            return f"{flight.name} gets {describe_all(flight.wait.ways[key[3]] if flight.wait is not None else None)}"
        if word == "loop" and self.loop is not None:
            return f"the loop goes on with {self.loop.next_name()}"
        if word in ("wake", "stop"):
            return "a timer of the loop is due" if word == "wake" else "no limit passes any more"
        name = self._stages[key[1], key[2]].name
        if word == "tell":
            call = next(call for tail in self.tails for move, call in tail.calls if move == key)
            return f"{name} calls back {'its relays' if call.is_relay else name_of(call.fn)}"
        task = self.flights[key[1:]].task if word == "end" else None
        return {
            "begin": f"{name} is claimed",
            "call": f"{name} is called",
            "end": f"{name} returns" if task is None or task.error is None else f"{name} raises",
        }[word]


def _end_of(stage: "Stage[Any]") -> str:
    """The outcome of a settled stage, in words."""
    if stage.cancelled():
        return "is cancelled"
    error = stage._exception  # (to ask for it would take a failure over)
    return f"ends: {describe_all(stage._given if error is None else error)}"


def _next_of(thing: Thing, flight: Flight) -> List[Move]:
    """The possible moves of a running function."""
    wait = flight.wait
    if wait is None:
        return [(flight.word, *thing)]
    if wait.ways:
        if wait.possible is not None:
            return [("ask", *thing, flight.asked, k) for k in wait.possible()]
        return [("choose", *thing, k) for k in range(len(wait.ways))]
    return [("go", *thing)] if flight.is_late or wait.is_over() else []


def _is_of_stage(call: Any) -> bool:
    """Whether a call is a method of a stage that calls no function and doesn't wait."""
    method = getattr(call, "func", call)
    return isinstance(getattr(method, "__self__", None), Stage) and method.__name__ in OF_STAGE
