"""Threads that carry functions which may wait. One thread of a run goes on at a time: the search hands it the
turn, and gets it back once the function waits or has ended."""
import threading
from typing import Callable, List, Optional


class RunEnded(BaseException):
    """Ends a function that waits while its run ends."""


class CarrierThread(threading.Thread):
    """A thread of the kit."""


class Carrier:
    """A thread that carries one function at a time."""

    def __init__(self) -> None:
        self._turn, self._back = threading.Semaphore(0), threading.Semaphore(0)
        self._job: Optional[Callable[[], object]] = None
        self._ends = False
        CarrierThread(target=self._run, name="cf.testing", daemon=True).start()

    @property
    def is_idle(self) -> bool:
        """Whether its function has ended."""
        return self._job is None

    def begin(self, job: Callable[[], object]) -> None:
        """Lets a function go until it waits or has ended."""
        self._job = job
        self.resume()

    def resume(self) -> None:
        """Lets the function that waits go on."""
        self._turn.release()
        self._back.acquire()

    def pause(self) -> None:
        """Called by the function: gives the turn back, and waits for the next one."""
        self._back.release()
        self._turn.acquire()
        if self._ends:
            raise RunEnded

    def end(self) -> None:
        """Ends the function that waits, and with one that goes on all the same, the thread's use."""
        self._ends = True
        for _ in range(100):
            if self.is_idle:
                break
            self.resume()
        self._ends = False

    def _run(self) -> None:
        while True:
            self._turn.acquire()
            job = self._job
            try:
                if job is not None:
                    job()
            except BaseException:  # the job tells what it raised in its own way
                pass
            self._job = None
            del job
            self._back.release()


class Carriers:
    """Those that are idle, which runs use again."""

    def __init__(self) -> None:
        self._idle: List[Carrier] = []

    def take(self) -> Carrier:
        """One that is idle."""
        return self._idle.pop() if self._idle else Carrier()

    def give(self, carrier: Carrier) -> None:
        """Gives one back. One that doesn't end is left."""
        if carrier.is_idle:
            self._idle.append(carrier)


CARRIERS = Carriers()
