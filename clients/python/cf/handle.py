"""Handles, and the calls that graphs and callers of a desk have in common."""
import ctypes as c
import threading
from typing import TYPE_CHECKING, Any, Callable, ContextManager, Optional, Tuple, TypeVar, Union, cast

from ._library import NO_FUNCTION, CHandle, CReply, in_range, library, numbers
from .values import (
    Answer,
    Args,
    ClaimReply,
    Code,
    Failure,
    FinishReply,
    Form,
    Link,
    Refused,
    Task,
    Thrown,
    Value,
    answer_in,
    check,
    claim_out,
    finish_out,
    flag_out,
    number_out,
    task_in,
    task_out,
    value_in,
)

# The function of a stage. One that raises `Thrown(code)` throws the code.
Function = Callable[..., Union[Value, Link]]

if TYPE_CHECKING:
    from typing import Protocol

    class FunctionTable(Protocol):
        """The functions of stages, by their numbers."""

        def __getitem__(self, __number: int) -> Function:
            ...


Filled = TypeVar("Filled")
Self = TypeVar("Self", bound="Handle")


class Handle:
    """A handle that is freed at the end of a `with`, or when nobody has it any more. Calls of several
    threads on it are made one after another."""

    def __init__(self, handle: Optional[CHandle] = None) -> None:
        self._handle = CHandle() if handle is None else handle
        self._lock: ContextManager[Any] = threading.RLock()

    @property
    def _at(self) -> Any:
        return c.pointer(self._handle)

    def _call(self, name: str, *arguments: object) -> None:
        """Makes a call on the handle."""
        with self._lock:
            check(getattr(library, name)(self._at, *arguments))

    def _call_for(self, name: str, told: Filled, *arguments: object) -> Filled:
        """Makes a call on the handle that tells something in this."""
        self._call(name, *arguments, c.byref(cast(Any, told)))
        return told

    def _call_for_number(self, name: str, *arguments: object) -> Optional[int]:
        """Makes a call that tells a number, or that there is none."""
        try:
            return self._call_for(name, c.c_uint16(), *arguments).value
        except Refused as refused:
            if refused.code == Code.NOTHING:
                return None
            raise

    def _let_go(self) -> CHandle:
        """The handle, which is another object's then. An empty one stays."""
        handle, self._handle = self._handle, CHandle()
        return handle

    def close(self) -> None:
        """Frees what stands behind the handle."""
        with self._lock:
            library.cf_free(self._at)

    def __enter__(self: Self) -> Self:
        return self

    def __exit__(self, *_cause: object) -> None:
        self.close()

    def __del__(self) -> None:
        if library is not None and hasattr(self, "_handle"):
            library.cf_free(c.pointer(self._handle))


def function_in(function: Optional[int]) -> int:
    return NO_FUNCTION if function is None else in_range(function, 0xFFFF)


class GraphCalls(Handle):
    """The calls that settle stages and do their work."""

    _prefix: str
    _ready: str

    def complete(self, stage: int, value: Value = None) -> bool:
        """Settles a stage with a value, and says whether it did."""
        return flag_out(self._do("complete", stage, value_in(value)))

    def fail(self, stage: int, code: int) -> bool:
        """Settles a stage with a thrown code, and says whether it did."""
        return flag_out(self._do("fail", stage, code))

    def fail_as(self, stage: int, failure: Failure, code: int = 0) -> bool:
        """Settles a stage as timed out, or, where it stands in for another, with a bad answer, with this code, and says
        whether it did."""
        return flag_out(self._do("fail_as", stage, failure, code))

    def cancel(self, stage: int) -> bool:
        """Cancels a stage, and says whether it is cancelled then."""
        return flag_out(self._do("cancel", stage))

    def claim(self, stage: int) -> ClaimReply:
        """Takes a ready stage, whose function is then to be called, and the stage to be finished."""
        return claim_out(self._do("claim", *self._caller_arguments(), stage))

    def finish(self, stage: int, answer: Answer = None) -> FinishReply:
        """Finishes a claimed stage with what its function answered: a value, `Thrown(code)`, or `Link(stage)`."""
        return finish_out(self._do("finish_with", *self._caller_arguments(), stage, c.byref(answer_in(answer))))

    def tick(self, now: int) -> Optional[int]:
        """Lets it be this moment: how many limits fired, or None where it is past."""
        return number_out(self._do("tick", now))

    def attach(self, form: Form, *of: int, function: Optional[int] = None) -> Optional[int]:
        """Attaches a stage, and tells its number, or None where there is no room."""
        return number_out(self._do("attach", form, numbers(of), len(of), function_in(function)))

    def ready(self) -> Optional[int]:
        """The lowest stage that can be claimed, if one can."""
        return self._call_for_number(self._ready)

    def function(self, stage: int) -> Optional[int]:
        """The number of a stage's function, if it has one."""
        return self._call_for_number(self._prefix + "function", stage)

    def next(self, task: Optional[Task] = None, answer: Answer = None) -> Optional[Task]:
        """One step of a caller's loop in one call: finishes the stage of a task, if there is one, with what its
        function answered, and claims the lowest ready stage: None where none is. `Refused` has NO_STAGE or NOT_HELD
        where the task's stage isn't there, or this caller has no open claim of it: nothing is changed then. By
        PASS_FULL and LOG_FULL, of a caller of a desk, the stage may be finished."""
        told = task_in(task, answer)
        with self._lock:
            code: int = Code.LOST
            while code == Code.LOST:  # the task is finished, and another caller was first
                code = getattr(library, self._prefix + "next")(self._at, *self._caller_arguments(), c.byref(told))
        if code != Code.NOTHING:
            check(code)
        return task_out(told)

    def work(self, functions: "FunctionTable", most: Optional[int] = None) -> int:
        """Claims ready stages, the lowest first, calls their functions, which stand at their numbers, and finishes
        them, until none is ready, or so many were called: how many. A function that raises anything but `Thrown`, or
        isn't there, ends it, and its stage stays claimed."""
        calls, task, answer = 0, None, None
        while most is None or calls < most:
            task = self.next(task, answer)
            if task is None:
                return calls
            answer = answer_of(functions[task.function], task.args)
            calls += 1
        if task is not None:
            self.finish(task.stage, answer)
        return calls

    def _caller_arguments(self) -> Tuple[int, ...]:
        """What a claim and a finish name their caller by."""
        return ()

    def _do(self, name: str, *arguments: object) -> CReply:
        return self._call_for(self._prefix + name, CReply(), *arguments)


def answer_of(function: Function, args: Args) -> Answer:
    """What a function answers or throws."""
    try:
        return function(*args)
    except Thrown as fault:
        return Thrown(fault.code)
