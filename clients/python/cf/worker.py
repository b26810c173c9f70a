"""A worker of a store: python3 -m cf.worker --store ADDRESS MODULE.. [--threads N] [--lease SECONDS] [--grace SECONDS]
[--codec MODULE:NAME] [--spans FILE]

It runs the functions of these modules, each of which has a member `functions`, a cf.store.Functions, in all requests
that are open in the store, until it is told to end by SIGTERM or SIGINT; a store that doesn't answer is waited for. A
module may have a member `contexts`, a list of cf.store.Carrier: what goes along with functions. Values and exceptions
are read and written by --codec, a member of a module, where the processes that share the store have one of their own.
With --spans the spans of each request that this worker closes go to OpenTelemetry, where `opentelemetry-api` is
installed, and else to the file.

Told to end it begins nothing more, finishes what runs, and logs what it waits for: as long as it takes, or for --grace
seconds, or until it is told once more. Status 1 where functions were still running then, and 2 where the address, a
module or the codec is wrong.
"""
import argparse
import importlib
import logging
import os
import sys
import threading
from typing import List, Optional

from .service import spans_to
from .store import Carrier, Functions, Json, Store, StoreError, Unknown, Worker, connect
from .store.worker import end_signal


def connect_when_reached(address: str, ends: threading.Event, may_create: bool = True) -> Optional[Store]:
    """The store, once it can be reached; None where the process is told to end before. It is made as `connect` says."""
    while not ends.is_set():
        try:
            return connect(address, may_create)
        except Unknown as error:
            logging.warning("the store doesn't answer: %s", error)
            ends.wait(0.5)
    return None


def codec_of(name: str) -> Json:
    """The codec that MODULE:NAME names."""
    module, _, member = name.partition(":")
    found = getattr(importlib.import_module(module), member, None)
    if not isinstance(found, Json):
        raise StoreError(f"{name} is no codec, a cf.store.Json")
    return found


def main(words: Optional[List[str]] = None) -> int:
    """Runs a worker."""
    parser = argparse.ArgumentParser(prog="python3 -m cf.worker", description="Works on the requests of a store.")
    parser.add_argument("--store", required=True)
    parser.add_argument("--threads", type=int, default=4)
    parser.add_argument("--lease", type=float, default=10, help="after how many seconds without a sign of life a process is gone")
    parser.add_argument("--grace", type=float, metavar="SECONDS", help="for how long it waits for functions that run once it is told to end")
    parser.add_argument("--codec", metavar="MODULE:NAME", help="makes bytes of values and exceptions")
    parser.add_argument("--spans", metavar="FILE", help="where spans go without OpenTelemetry")
    parser.add_argument("modules", nargs="+")
    at = parser.parse_args(words)
    logging.basicConfig(level=logging.WARNING, format="%(asctime)s %(name)s %(message)s")
    functions, ends = Functions(), end_signal()
    contexts: List[Carrier] = []
    sys.path.insert(0, "")
    try:
        for name in at.modules:
            functions.add(Functions.from_module(name))
            contexts += getattr(sys.modules[name], "contexts", [])
        codec = codec_of(at.codec) if at.codec else None
        store = connect_when_reached(at.store, ends)
        if store is None:
            return 0
        worker = Worker(store, functions, at.threads, lease=at.lease, contexts=contexts, codec=codec, on_end=spans_to(at.spans) if at.spans else None)
    except (ImportError, ValueError, StoreError) as error:
        print(f"cf.worker: {error}", file=sys.stderr)
        return 2
    if not worker.run(ends, at.grace):
        logging.shutdown()
        os._exit(1)  # (the threads of functions that run would be waited for)
    return 0


if __name__ == "__main__":
    sys.exit(main())
