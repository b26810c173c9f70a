"""Completable futures that are proved: Java's CompletableFuture over numbered stages.

A `Plan` is built stage by stage. `Graph(plan)` is a graph of it, which one thread at a time calls:
`graph.work(functions)` runs the functions of all stages that are ready, and `graph.future(stage)` is a view of one
stage. `plan.open_desk(..)` is a graph that several threads share without a lock, each by its own `Caller`; closed, it
gives the one history of what they did, and what each was told. `Ledger(plan)` is a graph that keeps the words of all
that was done to it, tells which stages each changed, and is made again of them.

    plan = cf.Plan()
    source = plan.stage(cf.Form.SOURCE)
    doubled = plan.stage(cf.Form.APPLY, source, function=0)
    with cf.Graph(plan) as graph:
        graph.complete(source, 21)
        graph.work([lambda x: 2 * x])
        print(graph.future(doubled).result())       # 42

A refused call raises `Refused` with its `code` and changes nothing. A number that C's types can't hold raises
`OverflowError`, and no call is made. A function that raises `Thrown(code)` throws that code. Several threads may use one
plan or graph: their calls are made one after another. A desk's calls are wait-free. `event_of(word)` reads a word as an
event, and `word_of(event)` writes it; each kind of event is a class of `cf.events`. clients/python/examples/example.py
uses all of this; `cf.service` has futures for any objects.
"""
from concurrent.futures import InvalidStateError

from . import events
from .closed import Closed, CallRecord, Record, ReadRecord, ReadNowRecord
from .desk import Caller, Desk, InUse, SharedFuture
from .events import Event, event_of, word_of
from .graph import Future, Graph
from .ledger import EventResult, Ledger, StageKind, StageState, StepResult
from .plan import Plan
from .texts import BadScript, code_text, outcome_text, run_script
from .values import (
    BadAnswer,
    Cancelled,
    ClaimReply,
    ClaimStatus,
    Code,
    Failure,
    Fault,
    FinishReply,
    Form,
    Link,
    Misfit,
    Now,
    NowKind,
    Outcome,
    Refused,
    Task,
    Thrown,
    TimedOut,
)
from .workers import Workers

__all__ = [
    "EventResult",
    "BadAnswer",
    "BadScript",
    "Caller",
    "Cancelled",
    "ClaimReply",
    "ClaimStatus",
    "Closed",
    "Code",
    "Desk",
    "CallRecord",
    "Event",
    "Failure",
    "Fault",
    "FinishReply",
    "Form",
    "Future",
    "Graph",
    "InUse",
    "InvalidStateError",
    "Ledger",
    "Link",
    "Misfit",
    "Now",
    "NowKind",
    "Outcome",
    "Plan",
    "Record",
    "Refused",
    "ReadRecord",
    "ReadNowRecord",
    "SharedFuture",
    "StageKind",
    "StageState",
    "StepResult",
    "Task",
    "Thrown",
    "TimedOut",
    "Workers",
    "code_text",
    "event_of",
    "events",
    "outcome_text",
    "run_script",
    "word_of",
]
