"""Metrics of services in memory, for Prometheus: what is open now, and how long things took in requests that are over."""
import bisect
import itertools
import threading
from typing import TYPE_CHECKING, Any, Dict, Iterable, Iterator, List, Optional, Sequence, Tuple, Union

from ..values import Form
from .exposition import CONTENT_TYPE, Metric, Sample, text_of
from .history import History
from .opened import LATE, PROMISE, READY, RUNNING, OpenRequest
from .spans import ERROR, _Reading
from .words import COMPOSE_FORMS

if TYPE_CHECKING:
    from .loop import LoopService
    from .service import Service

BUCKETS = (0.001, 0.005, 0.01, 0.05, 0.1, 0.5, 1.0, 5.0, 10.0, 60.0)  # seconds
HELPS = {
    "cf_memory_open_requests": "Requests that aren't over.",
    "cf_memory_oldest_request_seconds": "The age of the oldest of them.",
    "cf_memory_running_functions": "Functions at work.",
    "cf_memory_ready_functions": "Functions that no thread has taken yet.",
    "cf_memory_oldest_ready_seconds": "For how long the oldest of them has been ready.",
    "cf_memory_open_promises": "Stages that somebody has to settle.",
    "cf_memory_request_seconds": "How long requests took that are over, from the first to the last event.",
    "cf_memory_function_seconds": "How long their functions ran.",
    "cf_memory_queue_seconds": "How long their ready functions waited for a thread.",
    "cf_memory_wait_seconds": "How long their promises were open.",
    "cf_memory_failed_requests_total": "Requests that are over, and failed: a stage for which no other one waits did.",
}
REQUEST, FUNCTION, QUEUE, WAIT = (f"cf_memory_{it}_seconds" for it in ("request", "function", "queue", "wait"))


class Meter:
    """Counts what happened in requests that are over, and tells Prometheus of that and of what is open. It is a hook for
    `on_end`, of one service or of several.

        meter = Meter()
        service = Service(on_end=meter)
        ..
        text = meter.text(service)    # what /metrics answers, with the type Meter.CONTENT_TYPE

    With a second hook: `on_end=lambda history: (meter(history), spans(history))`. Requests that the hook isn't told of,
    since too many wait for it, aren't counted.

    Args:
        buckets: The upper bounds of the histograms' buckets in seconds, rising. One without a bound comes behind them.

    Raises:
        ValueError: The bounds don't rise."""

    CONTENT_TYPE = CONTENT_TYPE

    def __init__(self, buckets: Sequence[float] = BUCKETS) -> None:
        if any(low >= high for low, high in zip(buckets, buckets[1:])):
            raise ValueError("the bounds of buckets have to rise")
        self._lock = threading.Lock()
        self._histograms = {name: _Histogram(buckets) for name in (REQUEST, FUNCTION, QUEUE, WAIT)}
        self._failed = 0

    def __call__(self, history: History) -> None:
        """Counts a request that is over. It takes some 20 to 50 µs for each event, on the hook's thread."""
        reading = _Reading(history)
        took = list(_took(reading))
        failed = bool(reading.moments) and reading._last()[0] == ERROR
        with self._lock:
            self._failed += failed
            for name, nanoseconds in took:
                self._histograms[name].add(nanoseconds / 1e9)

    def text(self, *services: "Union[Service, LoopService]") -> str:
        """What Prometheus reads: of these services what is open now, and all that was counted. It costs what
        `open_requests` does."""
        found = list(itertools.chain.from_iterable(service.open_requests() for service in services))
        with self._lock:
            counted = [Metric(name, "histogram", list(it.samples())) for name, it in self._histograms.items()]
            counted.append(Metric("cf_memory_failed_requests_total", "counter", [Sample(self._failed)]))
        return text_of([*_now(found), *counted], HELPS)


class _Histogram:
    """How many of what was counted were at most so large."""

    def __init__(self, bounds: Sequence[float]) -> None:
        self._bounds, self._many, self._sum = bounds, [0] * (len(bounds) + 1), 0.0

    def add(self, value: float) -> None:
        self._many[bisect.bisect_left(self._bounds, value)] += 1
        self._sum += value

    def samples(self) -> Iterator[Sample]:
        for bound, many in zip([*map("{:.15g}".format, self._bounds), "+Inf"], itertools.accumulate(self._many)):
            yield Sample(many, [("le", bound)], "_bucket")
        yield Sample(self._sum, suffix="_sum")
        yield Sample(sum(self._many), suffix="_count")


def _now(found: List[OpenRequest]) -> Iterator[Metric]:
    """What is open."""
    waits: Dict[str, List[float]] = {RUNNING: [], READY: [], LATE: [], PROMISE: []}
    for wait in itertools.chain.from_iterable(it.waits for it in found):
        waits[wait.state].append(wait.seconds or 0.0)
    values: Dict[str, Any] = {
        "cf_memory_open_requests": len(found),
        "cf_memory_oldest_request_seconds": _longest(it.seconds or 0.0 for it in found),
        "cf_memory_running_functions": len(waits[RUNNING]) + len(waits[LATE]),
        "cf_memory_ready_functions": len(waits[READY]),
        "cf_memory_oldest_ready_seconds": _longest(waits[READY]),
        "cf_memory_open_promises": len(waits[PROMISE]),
    }
    return (Metric(name, "gauge", [Sample(value)]) for name, value in values.items())


def _longest(seconds: Iterable[float]) -> float:
    return max(seconds, default=0.0)


def _took(reading: _Reading) -> Iterator[Tuple[str, int]]:
    """How long things took in a request, in nanoseconds, each with the name of its histogram."""
    moments = reading.moments
    if not moments:
        return
    yield REQUEST, moments[-1] - moments[0]
    changed: Dict[int, int] = {}  # when each stage was changed last
    for entry, moment in zip(reading.history.entries(), moments):
        for stage in entry.changed:
            before, changed[stage] = changed.get(stage, moments[0]), moment
            if reading.claims.get(stage) is entry:  # before that it was made ready
                yield QUEUE, moment - before
            if reading.shapes[stage][0] == Form.SOURCE and stage not in reading.history._aids:
                began = _began(reading, stage)
                if began is not None:
                    yield WAIT, max(moment - began, 0)
    for stage in reading.claims.keys() & reading.finishes.keys():
        yield FUNCTION, moments[reading.finishes[stage].place - 1] - moments[reading.claims[stage].place - 1]


def _began(reading: _Reading, promise: int) -> Optional[int]:
    """When a promise began to wait: where it was attached or the request was opened, or, if it is the relay of a composing
    stage, where the function ended. None where that didn't."""
    is_relay = reading.shapes.get(promise + 1, (Form.SOURCE, ()))[0] in COMPOSE_FORMS
    entry = reading.finishes.get(promise + 1) if is_relay else reading.attached.get(promise)
    if entry is None:
        return None if is_relay else reading.moments[0]
    return reading.moments[entry.place - 1]
