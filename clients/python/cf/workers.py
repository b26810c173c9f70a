"""Threads that call the functions of a desk's stages."""
import threading
from typing import Iterable, List, Optional, Sequence, Tuple, Union

from .desk import Caller
from .handle import Function
from .values import Link, Thrown, Value


class Workers:
    """One thread for each of these callers, which claims ready stages, calls their functions and finishes them. A
    function that raises anything but `Thrown`, be it `SystemExit`, throws `code`, and the exception is kept in
    `errors`, with the number of the function. Where nothing is ready, a worker looks again after `pause` seconds.

        with cf.Workers(desk.callers[1:], functions):
            desk.callers[0].complete(source, 3)

    At its end each worker goes on until it finds nothing ready."""

    def __init__(self, callers: Iterable[Caller], functions: Sequence[Function], code: int = 0, pause: float = 0.001) -> None:
        self.errors: List[Tuple[int, BaseException]] = []
        self._functions = _Caught(functions, code, self.errors)
        self._pause = pause
        self._ends = threading.Event()
        self._workers = [_Worker(self, caller) for caller in callers]

    def start(self) -> None:
        """Starts the threads. A `with` does it. Where one can't be started, the others end, and it is raised."""
        try:
            for worker in self._workers:
                worker.start()
        except BaseException:
            self._ends.set()
            raise

    def finish(self) -> int:
        """Lets each worker end once it finds nothing ready, waits for them, and tells how many functions they
        called. What ended a worker before, such as a full log, is raised."""
        self._ends.set()
        for worker in self._workers:
            worker.join()
        for worker in self._workers:
            if worker.ended_by is not None:
                raise worker.ended_by
        return sum(worker.calls for worker in self._workers)

    def __enter__(self) -> "Workers":
        self.start()
        return self

    def __exit__(self, *_cause: object) -> None:
        self.finish()


class _Worker(threading.Thread):
    def __init__(self, workers: Workers, caller: Caller) -> None:
        super().__init__(name=f"caller {caller.number}", daemon=True)
        self._workers, self._caller = workers, caller
        self.calls = 0
        self.ended_by: Optional[BaseException] = None

    def run(self) -> None:
        workers = self._workers
        try:
            with self._caller as caller:
                while True:
                    last = workers._ends.is_set()
                    calls = caller.work(workers._functions)
                    self.calls += calls
                    if last:
                        return
                    if not calls:
                        workers._ends.wait(workers._pause)
        except BaseException as ended_by:
            self.ended_by = ended_by


class _Caught:
    """Functions, whose exceptions are kept and become throws of a code."""

    def __init__(self, functions: Sequence[Function], code: int, errors: List[Tuple[int, BaseException]]) -> None:
        self._functions, self._code, self._errors = functions, code, errors

    def __getitem__(self, number: int) -> Function:
        def called(*args: object) -> Union[Value, Link]:
            try:
                return self._functions[number](*args)
            except Thrown:
                raise
            except BaseException as error:
                self._errors.append((number, error))
                raise Thrown(self._code) from error

        return called
