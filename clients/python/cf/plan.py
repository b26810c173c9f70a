"""Plans, and what is opened of them."""
import ctypes as c
from typing import TYPE_CHECKING, Optional

from ._library import CHandle, numbers
from .handle import Handle, function_in
from .values import Form, Value, value_in

if TYPE_CHECKING:
    from .desk import Desk


class Plan(Handle):
    """Stages, each of which depends on lower ones."""

    def __init__(self) -> None:
        super().__init__()
        self._built = False
        self._call("cf_builder_new", 0, 0)

    @classmethod
    def _from_handle(cls, handle: CHandle) -> "Plan":
        """A plan that stands behind a handle."""
        plan = cls.__new__(cls)
        Handle.__init__(plan, handle)
        plan._built = True
        return plan

    def stage(self, form: Form, *of: int, function: Optional[int] = None) -> int:
        """Adds a stage to these sources, and tells its number."""
        return self._call_for("cf_builder_stage", c.c_uint16(), form, numbers(of), len(of), function_in(function)).value

    def timeout(self, stage: int, at: int, code: int = 0) -> None:
        """The stage times out at this moment, with this code, if it isn't settled by then."""
        self._call("cf_builder_limit", stage, at, 0, code, value_in(None))

    def complete_on_timeout(self, stage: int, at: int, value: Value) -> None:
        """The stage gets the value at this moment, if it isn't settled by then."""
        self._call("cf_builder_limit", stage, at, 1, 0, value_in(value))

    def build(self) -> "Plan":
        """Makes it a plan, of which graphs and desks may be opened; opening one does it, too."""
        with self._lock:
            if not self._built:
                self._call("cf_build")
                self._built = True
        return self

    def open_desk(self, callers: int, log: int, calls: int, room: int = 0, functions: Optional[int] = None) -> "Desk":
        """Opens a desk with 1 to 64 callers. Its log holds so many changing calls of all callers, and each caller so
        many records of its own calls, reads too. There is room for so many stages that callers attach later, with
        functions of numbers below `functions`, as the plan's have to be too; None is for any number."""
        from .desk import Desk

        return Desk(self, callers, log, calls, room, functions)
