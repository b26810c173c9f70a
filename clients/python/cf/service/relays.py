"""Relays: stages of a request that end as a future from outside the request does.

A callback can't be removed from a future of `concurrent.futures`. So a future has one callback for all its relays, a
row. A relay is taken out of the row once it is settled, or once nobody has its request any more. So a long-lived future
keeps no finished request.
"""
import concurrent.futures
import threading
import weakref
from collections import deque
from typing import TYPE_CHECKING, Any, Callable, Deque, Dict, List, Optional, Tuple

from ._core import LimitValue, StageCore
from .words import BAD_ANSWER, CANCEL, COMPLETE, FAIL, FAIL_AS, FAIL_BADLY, RELAY, TIMED_OUT, VALUE

if TYPE_CHECKING:
    from .stage import Stage

    _Ref = weakref.ref["Stage[Any]"]
else:
    _Ref = weakref.ref

Hold = Callable[[object], None]
CHANGES = {TIMED_OUT: FAIL_AS, BAD_ANSWER: FAIL_BADLY}  # by which a relay ends as a stage did


def follow_future(relay: "Stage[Any]", future: "concurrent.futures.Future[Any]") -> Optional[Hold]:
    """Lets a relay end as the future does. Until then the future keeps the relay, and so the request. Returns a function
    that releases the relay, which still follows the future if somebody else has it; None where the future was done
    already."""
    if isinstance(future, StageCore):
        future._take_over()
    if future.done():
        _drain([relay], future)
        return None
    row = _row_of(future)
    made = _KeptRelay(relay, _forget)
    made.row, made.held = row, relay
    row.links[made] = True
    if row.is_over:  # it was called meanwhile
        row.tell([made], future)
    return made.release


def _row_of(future: Any) -> "_RelayRow":
    row = getattr(future, "_relays", None)
    if not isinstance(row, _RelayRow):
        row = _RelayRow()
        future.add_done_callback(row)
        try:
            future._relays = row  # (of two threads that come at once each has a row, which is as good)
        except AttributeError:  # a future of others that has no place for it
            pass
    return row


class _KeptRelay(_Ref):
    """A relay in a row. `held` is the relay as long as the future keeps it."""

    __slots__ = ("row", "held")
    row: "_RelayRow"
    held: "Optional[Stage[Any]]"

    def release(self, _settled: object = None) -> None:
        """Keeps the relay no longer."""
        relay, self.held = self.held, None
        if relay is not None and relay.done():
            self.row.links.pop(self, None)


def _forget(made: Any) -> None:
    made.row.links.pop(made, None)


class _RelayRow:
    """The callback of one future, with its relays. It needs no lock: the thread that takes a link out settles its
    relay."""

    __slots__ = ("links", "is_over")

    def __init__(self) -> None:
        self.links: Dict[_KeptRelay, bool] = {}
        self.is_over = False

    def __len__(self) -> int:
        return len(self.links)

    def __call__(self, future: "concurrent.futures.Future[Any]") -> None:
        self.is_over = True
        self.tell(list(self.links), future)

    def tell(self, links: List[_KeptRelay], future: "concurrent.futures.Future[Any]") -> None:
        """Settles the relays of these links, except those that another thread took out."""
        relays = []
        for each in links:
            relay = each()
            if self.links.pop(each, False) and relay is not None:
                each.held = None
                relays.append(relay)
        _drain(relays, future)


def is_relay(call: object) -> bool:
    """Whether a callback hands an outcome on to relays."""
    return isinstance(call, _RelayRow)


def is_release(call: object) -> bool:
    """Whether a callback only lets go of a relay or of a limit's value."""
    return getattr(call, "__func__", None) in (_KeptRelay.release, LimitValue.release)


def let_go_with(stage: "Stage[Any]", holds: List[Hold]) -> None:
    """Releases relays once the only stage that needs them is settled."""
    for hold in holds:
        stage.add_done_callback(hold)


class _Handing(threading.local):
    """The relays that this thread has to settle. Those that come up meanwhile wait their turn, so long chains need no
    stack."""

    def __init__(self) -> None:
        self.left: "Deque[Tuple[Stage[Any], concurrent.futures.Future[Any]]]" = deque()
        self.is_busy = False


_handing = _Handing()


def _drain(relays: "List[Stage[Any]]", future: "concurrent.futures.Future[Any]") -> None:
    """Settles relays as a future was. If a callback raises, the others are still settled."""
    handing, first = _handing, None
    for relay in relays:
        handing.left.append((relay, future))
    if handing.is_busy:
        return
    handing.is_busy = True
    try:
        while handing.left:
            try:
                _settle_as(*handing.left.popleft())
            except BaseException as error:
                first = first or error
    finally:
        handing.is_busy = False
    if first is not None:
        raise first


def _settle_as(relay: "Stage[Any]", future: "concurrent.futures.Future[Any]") -> None:
    kind, given = _outcome_of(future)
    relay.request._change(kind, RELAY, relay, given)


def _outcome_of(future: "concurrent.futures.Future[Any]") -> Tuple[int, Any]:
    """The outcome of a done future, as a change of a stage. If a foreign future's own method raises, its error."""
    try:
        if future.cancelled():
            return CANCEL, False
        error = future.exception()
        if error is None:
            return COMPLETE, future.result()
        return CHANGES.get(getattr(future, "_ended", VALUE), FAIL), error
    except BaseException as error:
        return FAIL, error
