"""What is open in a service: its requests, and why each waits. The machine of a request says what each stage is, and its
news when that was changed last."""
import gc
from array import array
from typing import TYPE_CHECKING, List, NamedTuple, Optional, Tuple

from ..values import Form
from ._core import RequestCore
from .history import caller_name, escaped
from .words import IS_PENDING, IS_READY, IS_SETTLED, MOST_CALLERS, NEVER

if TYPE_CHECKING:
    from .request import Request, Works

RUNNING, READY, LATE, PROMISE = "running", "ready", "late", "promise"
SAID = {RUNNING: "has run", READY: "has been ready", LATE: "is settled, and its function has run on", PROMISE: "has waited to be settled"}


class Wait(NamedTuple):
    """Why a request isn't over.

    Attributes:
        stage: The number of the stage.
        name: What histories call it. One that ends as another future does is a `relay of ..`.
        state: `running`; `ready`: its function could be called, and no thread has taken it; `late`: it is settled, and its
            function still runs; `promise`: somebody has to settle it.
        caller: Who runs its function, as histories name it: `worker 2` is the service's thread of that number. Empty where
            it doesn't run.
        seconds: For how long that has been so. None where nothing has happened to the request yet."""

    stage: int
    name: str
    state: str
    caller: str
    seconds: Optional[float]

    def __str__(self) -> str:
        on = f", on {self.caller}" if self.caller else ""
        return f"{self.stage} {escaped(self.name)} {SAID[self.state]}{_said(self.seconds)}{on}"


class OpenRequest(NamedTuple):
    """A request that isn't over.

    Attributes:
        request: It.
        seconds: Since its first event. None where there is none yet.
        limit: In how many seconds its next time limit passes. None where it has none.
        waits: Why it isn't over."""

    request: "Request"
    seconds: Optional[float]
    limit: Optional[float]
    waits: List[Wait]

    def __str__(self) -> str:
        limit = "" if self.limit is None else f"; a limit in {self.limit:.1f} s"
        return f"{escaped(self.request.name)}, open{_said(self.seconds)}: {'; '.join(map(str, self.waits))}{limit}"


def waits_of(request: "Request") -> List[Wait]:
    """Why a request isn't over, the longest-lasting first. What waits for another stage of the request isn't told: that stage
    is."""
    return _waits(request, *request._look())


def _waits(request: "Request", found: "List[Tuple[int, int, int, int, int]]", times: "array[int]", now: int) -> List[Wait]:
    waits = []
    for number, kind, form, who, last in sorted(found, key=lambda it: it[-1]):
        if who < MOST_CALLERS:
            state = LATE if kind == IS_SETTLED else RUNNING
        elif kind == IS_READY:
            state = READY
        elif kind == IS_PENDING and form == Form.SOURCE and not request._aid_of(number):
            state = PROMISE
        else:
            continue
        since = _seconds(now, times[max(last - 1, 0)]) if times else None
        waits.append(Wait(number, request._name_of(number), state, caller_name(who) if who < MOST_CALLERS else "", since))
    return waits


def open_requests(works: "Works") -> List[OpenRequest]:
    """The requests of a service that aren't over, the longest-lasting first."""
    looked = [(request, *request._look()) for request in requests_of(works)]
    now = max((it[-1] for it in looked), default=0)  # one for all: by one of its own, what is looked at later would be older
    opened = [_opened(request, found, times, now) for request, found, times, _ in looked]
    return sorted((it for it in opened if it.waits), key=lambda it: -1.0 if it.seconds is None else it.seconds, reverse=True)


def requests_of(works: "Works") -> "List[Request]":
    """The requests of a service. One with a hook keeps a list of those that it has to tell. The others are looked for among
    all objects."""
    if works.ends is not None:
        return list(works.ends.left())
    return [it for it in gc.get_objects() if isinstance(it, RequestCore) and it._works is works and hasattr(it, "_plan")]  # type: ignore[misc]


def _opened(request: "Request", found: "List[Tuple[int, int, int, int, int]]", times: "array[int]", now: int) -> OpenRequest:
    limit = None if request._moment == NEVER else _seconds(request._moment, request._works.clock.now(request))
    return OpenRequest(request, _seconds(now, times[0]) if times else None, limit, _waits(request, found, times, now))


def _seconds(now: int, since: int) -> float:
    return max(now - since, 0) / 1e9


def _said(seconds: Optional[float]) -> str:
    return "" if seconds is None else f" for {seconds:.1f} s"
