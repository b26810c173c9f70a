"""The rows of a world's store: what stands, what is on its way, and a store of each process that goes through the
search."""
import contextlib
from typing import TYPE_CHECKING, Any, Callable, ContextManager, Dict, List, NamedTuple, Optional, Sequence, Tuple, TypeVar

from ..service.history import describe_all
from ..service.words import ANSWER, ATTACH, CANCEL, CANCELLED, CLAIM, COMPLETE, FAIL, FAIL_AS, FINISH, LINKS, THROWN, THROWS, TIMED_OUT, VALUE
from ..store.codec import Json
from ..store.rows import COUNT_BITS, Entry, Glance, ListedRequest, Memory, Opened, Put, Store, Timer, Transaction
from ..store.view import RowView
from .answers import OF_PUTS, OF_READS, OF_WRITES
from .footprints import CHANGES, READS, Thing

if TYPE_CHECKING:
    from .processes import Process
    from .sharing import WorldStore

T = TypeVar("T")
ROWS: Thing = ("rows",)  # which requests there are
DONE = {CLAIM: "is claimed", COMPLETE: "is completed", FAIL: "is failed", CANCEL: "is cancelled", FAIL_AS: "is failed"}
FINISHED = {THROWS: "has raised", LINKS: "is linked"}


class Grant(NamedTuple):
    """A claim that was granted."""

    opened: Opened
    place: int
    stage: int
    session: int


class Rows:
    """What stands. Each call touches what it reads or changes."""

    def __init__(self, touch: Callable[[Thing, str], None]) -> None:
        self.memory: Memory = Memory()
        self.names: List[str] = []  # of requests, in the order in which they were opened
        self.views: Dict[str, RowView] = {}  # what a reader of all words knows
        self.effects: List[Any] = []  # of transactional functions
        self.told: List[str] = []  # what came to stand in this move
        self.timers: Dict[Tuple[str, int], Tuple[int, Timer]] = {}  # with the number of each
        self.granted: List[Grant] = []
        self._touch, self._timers_made = touch, 0

    def view(self, name: str) -> Optional[RowView]:
        """What is known of a request by all its words, or None where there is none."""
        return self.views.get(name)

    def text_of(self, put: Put) -> str:
        """What a put is called."""
        parts = []
        for place, (word, _) in enumerate(put.entries, put.at + 1):
            kind, tag = word >> 56, word >> 32 & 0xF
            if kind == ATTACH:
                parts.append(f"{_said(put.payloads.get(place, b'{}')).get('name', 'a stage')} is attached")
            else:
                done = FINISHED.get(tag, "is finished") if kind == FINISH else DONE.get(kind, "is changed")
                parts.append(f"{self.name_of(put.request, word >> 36 & 0xFFF)} {done}")
        return f"puts to {put.request}: {', '.join(parts)}"

    def name_of(self, request: str, stage: int) -> str:
        """What a stage is called."""
        view = self.view(request)
        return f"stage {stage}" if view is None or stage >= len(view.forms) else str(view.definition(stage)["name"])

    def open(self, name: str, plan: str) -> Opened:
        """As `Store.open`."""
        is_new = self.memory.find(name) is None
        self._touch(ROWS, CHANGES if is_new else READS)
        opened = self.memory.open(name, plan)._replace(opened=0.0)
        if is_new:
            self._touch(("row", name), CHANGES)
            self.views[name] = RowView(self.memory, opened, 0)
            if name not in self.names:
                self.names.append(name)
        return opened

    def append(self, put: Put) -> Optional[List[Entry]]:
        """As `Store.append`."""
        stands = self.memory.append(put)
        self._touch(("row", put.request), READS if stands else CHANGES)
        if stands is None:
            view = self.views[put.request]
            for done in view.catch_up():
                if done.word >> 56 == CLAIM and not done.reply[ANSWER]:
                    self.granted.append(Grant(view.opened, done.place, done.word >> 36 & 0xFFF, done.token >> COUNT_BITS))
                self.told += [f"{view.definition(stage)['name']} {ended(view, stage)}" for stage in done.settled]
        else:
            self.told.append("another's word stands there")
        return stands

    def read(self, name: str, at: int, number: int) -> List[Entry]:
        """As `Store.read`."""
        self._touch(("row", name), READS)
        return self.memory.read(name, at, number)

    def change(self, name: str, act: Callable[[], T]) -> T:
        """Does what changes a request otherwise."""
        self._touch(("row", name), CHANGES)
        return act()

    def drop(self, name: str, at: Optional[int]) -> bool:
        """As `Store.drop`."""
        self._touch(ROWS, CHANGES)
        did = self.change(name, lambda: self.memory.drop(name, at))
        if did:
            del self.views[name]
            self.timers = {key: it for key, it in self.timers.items() if key[0] != name}
        return did

    def end(self, name: str, at: int, number: int) -> bool:
        """As `Store.end`."""
        closes = self.change(name, lambda: self.memory.end(name, at, number))
        if name not in self.memory.ends():
            self.timers = {key: it for key, it in self.timers.items() if key[0] != name}
        return closes

    def set_timer(self, timer: Timer) -> None:
        """As `Store.set_timer`."""
        self.change(timer.request, lambda: self.memory.set_timer(timer))
        self._timers_made += 1
        self.timers[timer.request, timer.stage] = (self._timers_made, timer)

    def drop_timer(self, name: str, stage: int, number: int) -> None:
        """As `Store.drop_timer`."""
        self.change(name, lambda: self.memory.drop_timer(name, stage, number))


class ProcessStore(Store):
    """The store as one process has it. What it asks is a move, but where its process looks what is new."""

    is_transactional = True

    def __init__(self, world: "WorldStore", process: "Process") -> None:
        self.rows: Rows = world.rows
        self._world, self._process = world, process

    def open(self, name: str, plan: str) -> Opened:
        return self._world.ask(self._process, OF_WRITES, f"opens {name}", lambda: self.rows.open(name, plan))

    def find(self, name: str) -> Optional[Opened]:
        self._world.touch(ROWS, READS)
        found = self.rows.memory.find(name)
        return None if found is None else found._replace(opened=0.0)

    def append_groups(self, puts: Sequence[Put]) -> List[Optional[List[Entry]]]:
        return [self._put(put) for put in puts]

    def _put(self, put: Put) -> Optional[List[Entry]]:
        return self._world.ask(self._process, OF_PUTS, self.rows.text_of(put), lambda: self.rows.append(put), put)

    def read(self, name: str, at: int = 0, number: int = 0) -> List[Entry]:
        return self._world.ask(self._process, OF_READS, f"reads {name}", lambda: self.rows.read(name, at, number))

    def payloads(self, name: str, places: Sequence[int], number: int = 0) -> Dict[int, bytes]:
        return self.rows.memory.payloads(name, places, number)  # (what stands never changes)

    def ends(self) -> Dict[str, int]:
        ends = self.rows.memory.ends()
        self._world.touch(ROWS, READS)
        for name in ends:
            if self._process.works_on(name):
                self._world.touch(("row", name), READS)
        return ends

    def wait_for_change(self, seconds: float) -> None:
        """The search says when a process looks."""

    def listing(self) -> List[ListedRequest]:
        self._world.touch(ROWS, READS)
        return [it._replace(opened=0.0) for it in self.rows.memory.listing()]

    def end(self, name: str, at: int, number: int = 0) -> bool:
        return self._world.ask(self._process, OF_WRITES, f"closes {name}", lambda: self.rows.end(name, at, number))

    def reopen(self, name: str, number: int = 0) -> None:
        self._world.ask(
            self._process, OF_WRITES, f"opens {name} again", lambda: self.rows.change(name, lambda: self.rows.memory.reopen(name, number))
        )

    def drop(self, name: str, at: Optional[int] = None) -> bool:
        return self._world.ask(self._process, OF_WRITES, f"drops {name}", lambda: self.rows.drop(name, at))

    def beat(self, session: int) -> None:
        self.rows.memory.beat(session)

    def beats(self) -> Dict[int, int]:
        return self.rows.memory.beats()

    def drop_beat(self, session: int) -> None:
        self.rows.memory.drop_beat(session)

    def now(self) -> float:
        return self._process.host.monotonic()

    def set_timer(self, timer: Timer) -> None:
        self._world.ask(
            self._process, OF_WRITES, f"sets the limit of {self.rows.name_of(timer.request, timer.stage)}", lambda: self.rows.set_timer(timer)
        )

    def due_timers(self, now: float) -> List[Timer]:
        return list(self._process.due_now)

    def drop_timer(self, request: str, stage: int, number: int = 0) -> None:
        self._world.ask(
            self._process,
            OF_WRITES,
            f"forgets the limit of {self.rows.name_of(request, stage)}",
            lambda: self.rows.drop_timer(request, stage, number),
        )

    def keep_glances(self, glances: Sequence[Glance]) -> None:
        """Nobody looks at lists."""

    def transaction(self) -> ContextManager[Transaction]:
        return contextlib.nullcontext(WorldTransaction(self.rows, self._world, self._process))


class WorldTransaction(Transaction):
    """A transaction, whose connection is a list: what is appended to it comes to stand in `WorldStore.effects`. Its put
    and its commit are one move: an engine lets nobody put or see anything between the two."""

    def __init__(self, rows: Rows, world: "WorldStore", process: "Process") -> None:
        self.connection: List[Any] = []
        self._rows, self._world, self._process = rows, world, process

    def append(self, put: Put) -> bool:
        text = f"commits, and {self._rows.text_of(put)}"
        return self._world.ask(self._process, OF_PUTS, text, lambda: self._commits(put), put)

    def commit(self) -> None:
        """It stands since it was put."""

    def _commits(self, put: Put) -> bool:
        if self._rows.append(put) is not None:
            return False
        self._world.touch(("effects",), CHANGES)
        self._rows.effects += self.connection
        return True


def _said(given: bytes) -> Dict[str, Any]:
    said: Dict[str, Any] = Json().read(given)
    return said


def outcome(view: RowView, stage: int) -> Any:
    """The value or the exception that a stage ended with, or None where it isn't settled."""
    told, codec = view.outcomes[stage], Json()
    if not view.is_settled(stage):
        return None
    if told.kind == VALUE:
        return view.read_payload(told.number, codec.read) if told.some else None
    if told.kind == THROWN or told.code:
        return view.read_payload(told.code, codec.read_error)
    if told.kind == CANCELLED:
        return codec.read_error(b'{"error":"CancelledError","text":"","args":[]}')
    return TimeoutError() if told.kind == TIMED_OUT else RuntimeError("a bad answer")


def ended(view: RowView, stage: int) -> str:
    """What a settled stage came to, in words."""
    if view.outcomes[stage].kind == CANCELLED and not view.outcomes[stage].wrapped:
        return "is cancelled"
    return f"ends: {describe_all(outcome(view, stage))}"
