"""A process of its own that works on all requests of a store."""
import logging
import math
import signal
import threading
import time
from typing import Optional, Sequence

from ..service.ending import Hook
from .codec import Json
from .contexts import Carrier
from .functions import Functions
from .rows import Store
from .service import DurableService


LOGGER = logging.getLogger("cf.store")
BETWEEN_TOLD = 10.0  # seconds between two lines that tell what an ending worker waits for


class Worker(DurableService):
    """A service that works on all requests which are open in a store, and runs the functions that it knows. Any number
    of workers share one store, on any number of machines. It begins at once, and ends with `shutdown`.

    Args:
        store, max_workers, codec, lease, groups, on_end, contexts: As of `DurableService`.
        functions: The registered functions. A stage whose function isn't among them waits for another worker."""

    def __init__(
        self,
        store: Store,
        functions: Functions,
        max_workers: Optional[int] = None,
        *,
        codec: Optional[Json] = None,
        lease: float = 10,
        groups: bool = False,
        on_end: Optional[Hook] = None,
        contexts: Sequence[Carrier] = (),
    ) -> None:
        super().__init__(
            store, max_workers, functions=functions, codec=codec, lease=lease, takes_all=True, groups=groups, on_end=on_end, contexts=contexts
        )

    def run(self, ends: Optional[threading.Event] = None, grace: Optional[float] = None) -> bool:
        """Works until the process gets SIGTERM or SIGINT, and finishes what runs by then. It is for the main thread.
        What it waits for is logged, every few seconds.

        Args:
            ends: What `end_signal` gave, if it was called before the worker was made.
            grace: For how many seconds it waits for functions that run; by default until they have ended. It waits no
                longer once another signal comes.

        Returns:
            Whether all have ended. If not, their threads run on: the process has to be ended by `os._exit`, and others
            abandon their stages."""
        ends = ends or end_signal()
        ends.wait()
        ends.clear()
        ending = threading.Thread(target=self.shutdown, name="cf-ending", daemon=True)
        ending.start()
        until = math.inf if grace is None else time.monotonic() + grace
        told = time.monotonic() + BETWEEN_TOLD / 10
        while ending.is_alive() and time.monotonic() < until and not ends.is_set():
            ending.join(0.05)
            if time.monotonic() > told:
                told = time.monotonic() + BETWEEN_TOLD
                LOGGER.warning("told to end, and waits for %s", self._said())
        if ending.is_alive():
            LOGGER.error("ends without %s", self._said())
        return not ending.is_alive()

    def _said(self) -> str:
        return ", ".join(map(str, self.running())) or "the store"


def end_signal() -> threading.Event:
    """An event that is set when the process gets SIGTERM or SIGINT."""
    ends = threading.Event()
    for number in (signal.SIGTERM, signal.SIGINT):
        signal.signal(number, lambda *_: ends.set())
    return ends
