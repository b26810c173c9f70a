"""Requests that outlive a process, and that machines share: their rows of words stand in SQLite, PostgreSQL or etcd.

Each process replays a row's words on the proved graph. A word is put where nothing stands yet, so all see one order.

    service = DurableService(connect("sqlite:///orders.db"))

    @service.function("charge", version=1)
    def charge(order):
        return {**order, "cents": 4900}

    flow = Flow("order")                            # of cf.service
    paid = flow.promise("order").then(charge).again()
    request = service.start(flow, {"number": 17}, name="order 17")
    print(request[paid].result())

A `Worker`, or `python3 -m cf.worker`, works on all requests of a store; `python3 -m cf.requests` lists them and serves a
page. docs/STORES.md leads through it.
"""
from .codec import Abandoned, Json, RemoteError
from .contexts import Carrier, Trace, Variables
from .functions import Functions
from .request import DurableRequest, DurableStage
from .rows import Broken, Grouped, Memory, Put, Store, StoreError, Timer, Unknown
from .service import DurableService
from .stores import connect
from .view import RowView, Watcher, new_session
from .worker import Worker

__all__ = [
    "Abandoned",
    "Broken",
    "Carrier",
    "DurableRequest",
    "DurableService",
    "DurableStage",
    "Functions",
    "Grouped",
    "Json",
    "Memory",
    "Put",
    "RemoteError",
    "RowView",
    "Store",
    "StoreError",
    "Timer",
    "Trace",
    "Unknown",
    "Variables",
    "Watcher",
    "Worker",
    "connect",
    "new_session",
]
