"""Futures that services use: any objects, exceptions, threads, `await` and timeouts, over a proved machine.

A `Service` runs functions on threads, a `LoopService` on an event loop. `service.request(name)` opens a `Request`, whose
stages are futures: `request.supply(fn)` calls a function, `request.promise()` waits for somebody to complete it, and
`stage.then(fn)` calls a function with a stage's value. `request.scope()` opens a `Scope`, whose stages end together. A
`Flow` is a plan that many requests do.

    with Service() as service:
        request = service.request("order 17")
        mail = request.supply(load_user, 3).then(address).recover(lambda error: "nobody").or_timeout(2)
        print(mail.result())
        print(request.history())

Each request has one history of all that happened to it, which is proved to be one order, and can be judged (`cf_look
check`), done again (`cf run`) and drawn (`cf_look dot`). clients/python/GUIDE.md leads through it by task.

Java's names:

    supplyAsync, new CompletableFuture              request.supply, request.promise
    thenApply, thenAccept, thenRun                  then
    thenCompose, thenCombine, applyToEither         compose, combine, either
    handle, whenComplete                            handle, when_done
    exceptionally, exceptionallyCompose             recover, recover_compose
    complete, completeExceptionally, cancel         complete, fail, abandon
    orTimeout, completeOnTimeout                    or_timeout, complete_on_timeout
    allOf, anyOf                                    all_of, first_of
    join, get                                       result, which raises the exception itself
"""
from .contexts import is_stopping
from .flow import Flow, Step
from .history import History, describe_all, describe_nothing, describe_types
from .loop import LoopService
from .meter import Meter
from .opened import OpenRequest, Wait
from .request import Request
from .scope import Scope
from .service import Service
from .spans import Span, SpanFile, Spans, spans_of, spans_to
from .stage import Stage
from .watch import Watch
from .words import RequestFull, ScopeEnded

__all__ = [
    "Flow",
    "History",
    "LoopService",
    "Meter",
    "OpenRequest",
    "Request",
    "RequestFull",
    "Scope",
    "ScopeEnded",
    "Service",
    "Span",
    "SpanFile",
    "Spans",
    "Stage",
    "Step",
    "Wait",
    "Watch",
    "describe_all",
    "describe_nothing",
    "describe_types",
    "is_stopping",
    "spans_of",
    "spans_to",
]
