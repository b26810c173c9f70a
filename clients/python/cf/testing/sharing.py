"""A store of a world, its processes, and their moves.

    job p n       thread n of process p begins: it calls a function, or does what a test says
    ask p n m k   what it asked of the store is answered in way k, or a function is called, and it goes on; it is the
                  mth time. What a test has a process call goes on in a move of its own once something was changed
    go p n        it goes on with what it waited for
    look p        the process looks what is new, and a thread of it does what its machine orders then
    due p r s n   the process finds that the limit of stage s of request r is over, which was the nth
    gone p q      the process takes q for gone
    kill p        the process is killed
    land n        the nth put that was on its way comes to the store
    spare         nobody is killed any more, or taken for gone while it is there

A process looks only if that leads to something. Its look and the reads that follow are one move, since nobody can see
anything between them. Footprints have the rows that a move reads or changes in the store. Each move of a process
also changes the process itself, so the search tries both orders of any two of its moves.
"""
import contextlib
import json
from typing import TYPE_CHECKING, Any, Callable, List, Optional, Sequence, Tuple, TypeVar

from ..service.history import History
from ..store.codec import Json
from ..store.functions import Functions
from ..store.rows import COUNT_BITS, Opened, Put, Timer, Unknown
from ..store.leader import PATIENCE
from ..store.view import RowView
from .answers import OF_CALLS, OF_READS, Answer, Bounds
from .carriers import CARRIERS, RunEnded
from .footprints import CHANGES, READS, USER, Move, Thing
from .processes import Process, WorldStage
from .rows import Rows, ended, outcome
from .state import Flight

if TYPE_CHECKING:
    from .run import Run

T = TypeVar("T")
KILLS: Thing = ("kills",)
FAULTS: Thing = ("faults",)
LOOKS = 6  # at beats, until a silent process is taken for gone


class WorldStore:
    """Rows in memory that processes of a world share. `World.store` gives it.

    What is granted and answered is told by what processes have seen."""

    def __init__(self, run: "Run", bounds: Bounds) -> None:
        self.run: "Run" = run
        self.bounds: Bounds = bounds
        self.processes: List[Process] = []
        self.rows: Rows = Rows(self.touch)
        self._flying: List[Tuple[Put, Callable[[], object]]] = []  # puts that are or were on their way, with acts
        self._landed: List[int] = []
        self._dead: List[Flight] = []

    # What a test calls.

    def process(
        self, name: str, functions: Optional[Functions] = None, *, workers: int = 1, takes_all: bool = False, lease: float = 10, ahead: float = 0
    ) -> Process:
        """Adds a process with a service over this store, which works on the requests that it has begun or opened.

        Args:
            name: Its name in the description of an order.
            functions: The functions that it knows.
            workers: How many threads run functions. With 0 it runs none.
            takes_all: Whether it works on all requests.
            lease: As of `DurableService`.
            ahead: How many seconds its clock is ahead of the world's."""
        made = Process(self, len(self.processes), name, functions, workers, takes_all, lease, ahead)
        self.rows.memory.beat(made.session)
        self.processes.append(made)
        return made

    def worker(self, name: str, functions: Functions, *, workers: int = 1, lease: float = 10) -> Process:
        """Adds a process that works on all requests, as `cf.store.Worker` does."""
        return self.process(name, functions, workers=workers, takes_all=True, lease=lease)

    def outcome(self, request: str, stage: str) -> Any:
        """The value or the exception of the first stage of this name, by all words in the store. None where it isn't
        settled."""
        view = self.rows.view(request)
        self.touch(("row", request), READS)
        number = None if view is None else self._stage_number(view, stage)
        return None if view is None or number is None else outcome(view, number)

    def is_settled(self, request: str, stage: str) -> bool:
        """Whether the first stage of this name is settled, by all words in the store."""
        view = self.rows.view(request)
        self.touch(("row", request), READS)
        number = None if view is None else self._stage_number(view, stage)
        return view is not None and number is not None and view.is_settled(number)

    @property
    def effects(self) -> List[Any]:
        """The committed effects: what transactional functions have appended to their connections."""
        self.touch(("effects",), READS)
        return self.rows.effects

    @property
    def granted(self) -> List[Tuple[str, str, int]]:
        """The granted claims whose answers came: the process's name, the request's and the stage."""
        its = {it.session: it for it in self.processes}
        seen = [(its[it.session], it) for it in self.rows.granted if it.session in its]
        return [(by.name, it.opened.name, it.stage) for by, it in seen if self._has_seen(by, it.opened, it.place)]

    @staticmethod
    def _has_seen(process: Process, opened: Opened, place: int) -> bool:
        request = process.leader.followed(opened.name)
        return request is not None and request.number == opened.number and place <= request.words

    @property
    def answered(self) -> List[Tuple[str, str, int, int]]:
        """The words that a process knows to stand: the process's name, the request's, place and word."""
        told = []
        for process in self.processes:
            for name in self.rows.names:
                request = process.leader.followed(name)
                entries = [] if request is None else request.entries
                told += [(process.name, name, k, word) for k, (word, token) in enumerate(entries, 1) if token >> COUNT_BITS == process.session]
        return told

    def outcomes(self) -> List[str]:
        """The outcome of each stage of each request, by all words in the store, for comparing the ends of orders."""
        told = []
        for name in self.rows.names:
            view = self.rows.view(name)
            for number in range(0 if view is None else len(view.forms)):
                if view is not None:
                    how = ended(view, number) if view.is_settled(number) else "is open"
                    told.append(f"{name}: {view.definition(number)['name']} {how}")
        return told

    def histories(self) -> List[History]:
        """The history of each request, by all words in the store, in the order in which they were opened."""
        for name, view in self.rows.views.items():
            for process in self.processes:
                self.rows.memory.name_session(process.session, process.name, name, view.opened.number)
        return [self.rows.views[name].history(Json()) for name in self.rows.names if name in self.rows.views]

    @staticmethod
    def _stage_number(view: RowView, stage: str) -> Optional[int]:
        return next((k for k in range(len(view.forms)) if view.definition(k)["name"] == stage), None)

    def is_of_dead(self, future: object) -> bool:
        """Whether a future is a stage in a killed process."""
        return isinstance(future, WorldStage) and future._host().process.is_dead

    # What processes ask.

    def touch(self, thing: Thing, how: str) -> None:
        """Adds a thing to this move's footprint."""
        self.run.touch(thing, how)

    def current(self) -> Optional[Flight]:
        """The flight of this thread, or None in the search's own thread."""
        flight: Optional[Flight] = getattr(self.run._carried, "flight", None)
        return flight

    def flight_of(self, process: Process) -> Optional[Flight]:
        """This thread's flight, if it is one of the process; else None, and its calls are part of another's move."""
        flight = self.current()
        return flight if flight is not None and flight.process is process else None

    def ask(self, process: Process, answers: Sequence[Answer], text: str, act: Callable[[], T], put: Optional[Put] = None) -> T:
        """Makes a call of the store, as a separate move. The search chooses the answer."""
        flight = self.flight_of(process)
        if process.is_dead:
            raise RunEnded
        if flight is None or answers is OF_READS and (flight.is_fresh or not flight.is_caller or len(self._possible(answers)) == 1):
            return act()
        flight.is_fresh = False
        chosen: Answer = self.run.wait_for(text, (), _always, None, answers, lambda: self._possible(answers))
        if chosen.costs:
            self.touch(FAULTS, CHANGES)
            self.bounds = self.bounds.minus(chosen.costs)
        try:
            if chosen.is_told:
                return act()
            if chosen.stands:
                with contextlib.suppress(Exception):  # which nobody is told
                    act()
            if chosen.is_late and put is not None:
                self._flying.append((put, act))
            if chosen.is_silent:
                process.host.clock += PATIENCE + 1
            raise Unknown("no answer")
        finally:
            process.answers += 1
            if flight.is_caller and chosen.stands and answers is not OF_READS:  # a test's own lines follow
                self.run.wait_for("goes on", (), _always, None, OF_CALLS, lambda: (0,))
                flight.is_fresh = True

    def _possible(self, answers: Sequence[Answer]) -> List[int]:
        return [k for k, answer in enumerate(answers) if self.bounds.allows(answer.costs)]

    # Moves.

    def moves(self, others: Sequence[Move]) -> List[Move]:
        """The possible moves of processes, beside those of their running threads."""
        keys: List[Move] = []
        living = [it for it in self.processes if not it.is_dead]
        free = [it for it in living if self._is_free(it)]
        for process in living:
            keys += self._moves_of(process)
        keys += self._notice_moves(free)
        keys += [("land", number) for number, (put, _) in enumerate(self._flying) if self._may_land(number, put)]
        busy = [it for it in living if self.flights(it) or it.queue or it.leader.is_unanswered]
        slow: List[Move] = [move for other in busy for move in self._takeover_moves(other, free)]
        slow = slow if self.bounds.slow > 0 else []
        kills: List[Move] = [("kill", it.key) for it in busy if self.bounds.killed > 0]
        if (slow or kills) and (self.run.settings.is_reduced or not (keys or others)):
            keys.append(("spare",))
        return keys + slow + kills

    def _moves_of(self, process: Process) -> List[Move]:
        keys: List[Move] = [("job", process.key, job.number) for job in process.callers]
        if process.queue and self._calling(process) < max(process.workers, 1):
            keys.append(("job", process.key, process.queue[0].number))
        if self._is_free(process) and (process.leader.is_unanswered or any(self._matters(process, name) for name in self.rows.names)):
            keys.append(("look", process.key))
        return keys

    def _notice_moves(self, free: List[Process]) -> List[Move]:
        """The moves for limits that have passed and processes that are gone. The first free process notices them; another
        one would put the same words."""
        keys: List[Move] = []
        for number, timer in self.rows.timers.values():
            by = next((it for it in free if self._is_due(it, timer)), None)
            if by is not None:
                keys.append(("due", by.key, self.rows.names.index(timer.request), timer.stage, number))
        return keys + [key for other in self.processes if other.is_dead for key in self._takeover_moves(other, free)]

    def _takeover_moves(self, other: Process, free: List[Process]) -> List[Move]:
        by = next((it for it in free if it is not other and self._has_claim(it, other)), None)
        return [] if by is None else [("gone", by.key, other.number)]

    def _may_land(self, number: int, put: Put) -> bool:
        view = self.rows.view(put.request)
        return number not in self._landed and view is not None and view.opened.number == put.number and view.words_seen == put.at

    def flights(self, process: Process) -> List[Flight]:
        """What its threads do."""
        return [flight for flight in self.run.flights.values() if flight.process is process]

    def _calling(self, process: Process) -> int:
        """How many of its threads call functions."""
        return sum(not (flight.is_caller or flight.is_leading) for flight in self.flights(process))

    def _is_free(self, process: Process) -> bool:
        """Whether none of its threads leads."""
        return not process.leader.is_stopping and not any(flight.is_leading for flight in self.flights(process))

    def _matters(self, process: Process, name: str) -> bool:
        """Whether a look at a request gives a process something to do or to show."""
        view, request = self.rows.view(name), process.leader.followed(name)
        if view is None or not process.works_on(name) or request is not None and (request.is_asked or request.why is not None):
            return False
        is_open = name in self.rows.memory.ends()
        is_idle = self._calling(process) + len(process.queue) < process.workers
        if is_open and is_idle and any(self._knows(process, view, stage) for stage in view.ready):
            return True
        if request is None:
            return False
        shows = any(stage < len(view.forms) and view.is_settled(stage) for stage in list(request.waiters))
        closes = is_open and bool(view.plan.rows) and view.is_done()
        return shows or closes or is_open and self._relays(view)

    def _knows(self, process: Process, view: RowView, stage: int) -> bool:
        said = view.called_definition(stage)
        return process.functions.find(str(said.get("fn")), int(said.get("version", 0))) is not None

    @staticmethod
    def _relays(view: RowView) -> bool:
        """Whether promises of composing stages have to be settled."""
        for promise, place in view.links.items():
            if not view.is_settled(promise):
                given = view.read_payload(place, lambda it: int(json.loads(it)["stage"]))
                if view.is_settled(given):
                    return True
        for stage in view.unlinked_stages:
            promise = int(view.definition(stage).get("to", stage))
            if promise not in view.links and not view.is_settled(promise):
                return True
        return False

    def _is_due(self, process: Process, timer: Timer) -> bool:
        view = self.rows.view(timer.request)
        return process.works_on(timer.request) and view is not None and not process.leader.is_firing(timer) and not view.is_settled(timer.stage)

    def _has_claim(self, process: Process, other: Process) -> bool:
        """Whether a process works on a request in which the other one has a claim."""
        return any(other.session in view.open_claims().values() and process.works_on(name) for name, view in self.rows.views.items())

    def do(self, key: Move) -> None:
        """Does a move."""
        if len(key) > 1 and isinstance(key[1], str):
            process = self.processes[int(key[1][1:])]
            self.touch(process.thing, CHANGES)
            getattr(self, "_do_" + key[0])(process, *key[2:])
        else:
            getattr(self, "_do_" + key[0])(*key[1:])

    def _do_job(self, process: Process, number: int) -> None:
        for jobs in (process.queue, process.callers):
            for job in [job for job in jobs if job.number == number]:
                jobs.remove(job)
                flight = Flight(job.name if jobs is process.callers else process.name, lambda: self.run._raised_by(job.act, job.name))
                flight.is_caller, flight.is_fresh = jobs is process.callers, jobs is process.queue
                self._begin(process, number, flight)

    def _begin(self, process: Process, number: int, flight: Flight) -> None:
        flight.process, flight.touches = process, [process.thing]
        if flight.is_caller:
            flight.touches.append(USER)
            self.touch(USER, CHANGES)
        thing = (process.key, number)
        self.run.flights[thing] = flight
        self.run._carry(flight)
        if flight.word == "end":
            del self.run.flights[thing]

    def _do_ask(self, process: Process, number: int, _: int, way: int) -> None:
        flight = self.run.flights[process.key, number]
        flight.asked += 1
        self.run._do_choose(process.key, number, way)

    def _do_look(self, process: Process) -> None:
        self._pass(process, self.processes)
        self._lead(process)

    def _lead(self, process: Process) -> None:
        """A thread of a process looks what is new, and does what its machine orders then."""
        job = process.job(process.name, process.lead)
        flight = Flight(process.name, lambda: self.run._raised_by(job.act, job.name))
        flight.is_leading = flight.is_fresh = True
        self._begin(process, job.number, flight)

    def _pass(self, process: Process, beating: Sequence[Process]) -> None:
        """Lets some time pass, and living processes beat."""
        process.host.clock += process.lease / 4
        for other in beating:
            if not other.is_dead:
                self.rows.memory.beat(other.session)

    def _do_due(self, process: Process, request: int, stage: int, _: int) -> None:
        timer = self.rows.timers[self.rows.names[request], stage][1]
        self.touch(("row", timer.request), READS)
        process.due_now[:] = [timer]
        self._do_look(process)
        process.due_now.clear()

    def _do_gone(self, process: Process, number: int) -> None:
        other = self.processes[number]
        self.touch(other.thing, READS)
        if not other.is_dead:
            self.touch(KILLS, CHANGES)
            self.bounds = self.bounds.minus(("slow",))
        for _ in range(LOOKS):
            self._pass(process, [each for each in self.processes if each is not other])
            process.leader.beat()
        self._lead(process)

    def _do_kill(self, process: Process) -> None:
        self.touch(KILLS, CHANGES)
        self.bounds = self.bounds.minus(("killed",))
        process.is_dead = True
        for thing, flight in list(self.run.flights.items()):
            if flight.process is process:
                self._dead.append(self.run.flights.pop(thing))

    def _do_land(self, number: int) -> None:
        self._landed.append(number)
        self.touch(("land", number), CHANGES)
        self._flying[number][1]()

    def _do_spare(self) -> None:
        self.touch(KILLS, CHANGES)
        self.bounds = self.bounds._replace(killed=0, slow=0)

    def text(self, key: Move) -> str:
        """A move in words."""
        word = key[0]
        if word == "land":
            return f"the put that was on its way comes: {self.rows.text_of(self._flying[key[1]][0])}"
        if word == "spare":
            return "nobody is killed any more"
        process = self.processes[int(key[1][1:])]
        if word == "job":
            called = next((job.name for job in process.queue if job.number == key[2]), None)
            if called is not None:
                return f"{process.name} calls {called}"
            return f"{next(job.name for job in process.callers if job.number == key[2])} begins"
        if word == "ask":
            flight = self.run.flights[key[1:3]]
            assert flight.wait is not None
            answer: Answer = flight.wait.ways[key[4]]
            return f"{flight.name} {flight.wait.name}{'; ' * bool(answer.text)}{answer.text}"
        if word == "due":
            timer = self.rows.timers[self.rows.names[key[2]], key[3]][1]
            view = self.rows.view(timer.request)
            name = f"stage {key[3]}" if view is None else view.definition(key[3])["name"]
            return f"{process.name} finds that the limit of {name} has passed"
        if word == "gone":
            return f"{process.name} takes {self.processes[key[2]].name} for gone"
        return f"{process.name} looks what is new" if word == "look" else f"{process.name} is killed"

    def close(self) -> None:
        """Ends the threads of processes that were killed."""
        for flight in self._dead:
            if flight.carrier is not None:
                flight.carrier.end()
                CARRIERS.give(flight.carrier)


def _always() -> bool:
    return True
