"""What a process has beside its store: time, chance, locks and threads. `cf.testing` gives a service another host, so
that a search decides all of these."""
import concurrent.futures
import logging
import os
import threading
import time
from typing import Any, Callable, Optional, Tuple, Type

LOGGER = logging.getLogger("cf.store")


class Host:
    """This process, as it is.

    Attributes:
        leaves: What passes through a service where it would be kept or logged.
        stage: The class of stages, where it isn't `DurableStage`.
        holds: Whether a thread that has called a function stays until what that came to stands.
        glances: Whether somebody looks at lists, for which glances are kept."""

    leaves: Tuple[Type[BaseException], ...] = ()
    stage: Optional[Type[Any]] = None
    holds = glances = True

    def monotonic(self) -> float:
        """Seconds that never go back."""
        return time.monotonic()

    def time(self) -> float:
        """Seconds since 1970."""
        return time.time()

    def sleep(self, seconds: float) -> None:
        """Lets some seconds pass."""
        time.sleep(seconds)

    def rest(self, stops: threading.Event, seconds: float) -> None:
        """Lets some seconds pass, or fewer where the service stops."""
        stops.wait(seconds)

    def wait(self, change: threading.Condition, seconds: float) -> None:
        """Lets some seconds pass, or fewer where something changes. Its lock is held."""
        change.wait(seconds)

    def number(self, bits: int) -> int:
        """A number of so many bits, by chance."""
        whole = (bits + 7) // 8
        return int.from_bytes(os.urandom(whole), "big") >> 8 * whole - bits

    def lock(self) -> Any:
        """A lock that its owner may take again."""
        return threading.RLock()

    def pool(self, workers: int, name: str) -> concurrent.futures.Executor:
        """What runs functions."""
        return concurrent.futures.ThreadPoolExecutor(workers, name)

    def pump(self, run: Callable[[], None], name: str) -> threading.Thread:
        """A thread that looks what is new, and has begun."""
        made = threading.Thread(target=run, name=name, daemon=True)
        made.start()
        return made

    def call(self, known: Any, *args: Any, **kwargs: Any) -> Any:
        """Calls a function, which is a `RegisteredFunction`."""
        return known.call(*args, **kwargs)

    def warn(self, text: str, request: str) -> None:
        """Says that something can't be done now in a request."""
        LOGGER.warning("%s", text)

    def report_failure(self, text: str, error: BaseException) -> None:
        """Says that a function has raised. Its stage fails with that."""
        LOGGER.warning("%s", text, exc_info=error)

    def report_broken(self, error: BaseException) -> None:
        """Says that a request can't be gone on with."""
        LOGGER.error("%s", error)

    def report_raised(self, text: str, error: BaseException) -> None:
        """What nobody waits for has raised."""
        LOGGER.critical("%s", text, exc_info=error)


HOST = Host()
