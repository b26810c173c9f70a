"""The graph of a plan, and views of its stages."""
import ctypes as c
from concurrent.futures import InvalidStateError
from typing import Iterable, Optional, Tuple

from ._library import CHandle, CNow, COutcome, CReply
from .events import reply_of
from .handle import GraphCalls
from .plan import Plan
from .values import Cancelled, Fault, Now, Outcome, Reply, Value, given_in, now_out, outcome_out, value_in


class Graph(GraphCalls):
    """The graph of a plan, with room for so many stages that are attached later. Its claims and finishes are by a
    caller of a number, 0 to 255."""

    _prefix, _ready = "cf_", "cf_lowest_ready"

    def __init__(self, plan: Plan, room: int = 0, who: int = 0) -> None:
        super().__init__()
        self.who: int = who
        plan.build()._call("cf_graph_new", room, self._at)

    @classmethod
    def _from_handle(cls, handle: CHandle) -> "Graph":
        """A graph that stands behind a handle."""
        graph = cls.__new__(cls)
        GraphCalls.__init__(graph, handle)
        graph.who = 0
        return graph

    def outcome(self, stage: int) -> Optional[Outcome]:
        """What a stage is settled with, if it is."""
        return outcome_out(self._call_for("cf_get", COutcome(), stage))

    def get_now(self, stage: int, absent: Value = None) -> Now:
        """What a stage gives at present, `absent` where it isn't settled."""
        return now_out(self._call_for("cf_get_now", CNow(), stage, value_in(absent)))

    def stages(self) -> int:
        """How many stages there are by now."""
        return self._call_for("cf_stages", c.c_uint16()).value

    def turns(self) -> int:
        """How many turns were taken since the graph was opened or last restarted."""
        return self._call_for("cf_turns", c.c_uint64()).value

    def future(self, stage: int) -> "Future":
        """A view of a stage."""
        return Future(self, stage)

    def apply(self, word: int) -> Reply:
        """Does the event of a word, and gives its reply."""
        return reply_of(word, self._call_for("cf_apply", CReply(), word))

    def restart(self, given: Iterable[Tuple[int, Value]] = ()) -> None:
        """Starts again, as the graph was opened, and then completes these stages with their values: a request by a
        plan that is there. `Refused` has NO_STAGE where one isn't a stage of the plan: nothing is done then."""
        row = given_in(given)
        self._call("cf_restart_with", row, len(row))

    def plan(self) -> Plan:
        """The plan that the graph was opened of. They share its memory."""
        handle = CHandle()
        self._call("cf_plan_of", c.byref(handle))
        return Plan._from_handle(handle)

    def _caller_arguments(self) -> Tuple[int, ...]:
        return (self.who,)


class Future:
    """A view of a stage: as much of `concurrent.futures.Future` as a graph of one thread has. Nothing waits."""

    def __init__(self, graph: Graph, stage: int) -> None:
        self._graph = graph
        self.stage: int = stage

    def done(self) -> bool:
        """Whether the stage is settled."""
        return self._outcome() is not None

    def cancel(self) -> bool:
        """Cancels the stage, and says whether it is cancelled then."""
        return self._graph.cancel(self.stage)

    def cancelled(self) -> bool:
        """Whether the stage was cancelled itself."""
        outcome = self._outcome()
        return outcome is not None and isinstance(outcome.fault, Cancelled) and not outcome.fault.wrapped

    def exception(self) -> Optional[Fault]:
        """The stage's fault, or None. A stage that isn't settled raises `InvalidStateError`."""
        return self._settled().fault

    def result(self) -> Value:
        """The stage's value; its fault is raised. A stage that isn't settled raises `InvalidStateError`."""
        return value_of(self._settled())

    def _outcome(self) -> Optional[Outcome]:
        return self._graph.outcome(self.stage)

    def _settled(self) -> Outcome:
        return settled_outcome(self._outcome(), self.stage)


def settled_outcome(outcome: Optional[Outcome], stage: int) -> Outcome:
    """The outcome of a stage, which raises where there is none."""
    if outcome is None:
        raise InvalidStateError(f"stage {stage} isn't settled")
    return outcome


def value_of(outcome: Outcome) -> Value:
    """The value of an outcome; its fault is raised."""
    if outcome.fault is not None:
        raise outcome.fault
    return outcome.value
