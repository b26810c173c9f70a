"""A history as OpenTelemetry's spans: by the tracer of OpenTelemetry, or written into a file.

Names and attributes are those of `cf_look trace --spans`. The span of the request has within it one for each call of a
function, from the claim to the finish, which has a link to the span of each source.
"""
import importlib
import json
import os
from typing import Any, Dict, Iterator, List, NamedTuple, Optional, Sequence, Set, Tuple, Union

from ..events import Attach, Cancel, Claim, Finish
from ..values import Link, Thrown
from .ending import Hook
from .history import HistoryEntry, History, _whole
from .words import ANSWER, COMPOSE_FORMS, FIRST_WORKER, FORMS, NUMBER, RELAY, VALUE, OutcomeNumbers

UNSET, OK, ERROR = range(3)  # the codes of a status
INTERNAL = 1  # the kind of these spans
WHOLE = 2**64 - 1  # the number of the span of the request

Attributes = Dict[str, Union[str, int]]


class Span(NamedTuple):
    """A span of a request, or of one call of a function.

    Attributes:
        name: That of the request or of the stage.
        start, end: In nanoseconds since 1970. What isn't finished ends with the last event.
        attributes: The stage's number, its caller and its form.
        sources: The stages to whose spans it has a link.
        status: 0, or 1 where the stage ended with a value, or 2 where it failed or was cancelled.
        message: What it failed with.
        raised: The attributes of the event that tells what the function raised."""

    name: str
    start: int
    end: int
    attributes: Attributes
    sources: Sequence[int]
    status: int
    message: str
    raised: Optional[Attributes]


def spans_of(history: History) -> List[Span]:
    """The span of a request, and then those of its functions' calls in the order of their stages. None where nothing
    happened. The request has failed where a stage has that no other one waits for; stages that functions attached
    aren't looked at for that."""
    return list(_Reading(history).spans())


class _Reading:
    """What spans need of a history."""

    def __init__(self, history: History) -> None:
        self.history = history
        self.moments = [history._since + at for at in history._times]
        self.shapes: Dict[int, Tuple[int, Sequence[int]]] = {number: (form, of) for number, (form, of, _) in enumerate(history.planned)}
        self.attached: Dict[int, HistoryEntry] = {}
        self.claims: Dict[int, HistoryEntry] = {}
        self.finishes: Dict[int, HistoryEntry] = {}
        self.ends: Dict[int, OutcomeNumbers] = dict(history.settled_at_start())
        self.inner: Set[int] = set()  # stages for which another one waits, or that a function attached
        for entry in history.entries():
            self.ends.update(entry.told)
            self._read(entry)
        for number, (form, of) in self.shapes.items():
            self.inner.update((*of, number - 1) if form in COMPOSE_FORMS else of)  # (below that is its relay)

    def _read(self, entry: HistoryEntry) -> None:
        event, reply = entry.event, entry.reply
        if isinstance(event, Attach) and not reply[ANSWER]:
            self.shapes[reply[NUMBER]], self.attached[reply[NUMBER]] = (int(event.form), event.of), entry
            if event.who >= FIRST_WORKER:
                self.inner.add(reply[NUMBER])
        elif isinstance(event, Cancel) and (event.who == RELAY or event.stage in self.history._aids):  # by a scope's end, or one
            self.inner.add(event.stage)
        elif isinstance(event, Claim) and not reply[ANSWER]:
            self.claims[event.stage] = entry
        elif isinstance(event, Finish):
            self.finishes.setdefault(event.stage, entry)
            if isinstance(event.answer, Link):
                self.inner.add(event.answer.stage)

    def spans(self) -> Iterator[Span]:
        if not self.moments:
            return
        start = self.moments[0] if self.history._opened is None else min(self.history._opened, self.moments[0])
        yield Span(_whole(self.history.name), start, self.moments[-1], {}, (), *self._last(), None)
        for stage in sorted(self.claims):
            yield self._span(stage)

    def _last(self) -> Tuple[int, str]:
        """The status of the request."""
        last = [self._status(stage) for stage in sorted(self.shapes) if stage not in self.inner]
        return next((it for it in last if it[0] == ERROR), (min((it[0] for it in last), default=UNSET), ""))

    def _status(self, stage: int) -> Tuple[int, str]:
        told = self.ends.get(stage)
        if told is None:
            return UNSET, ""
        if told.kind == VALUE:
            return OK, ""
        return ERROR, self.history.fault_text(told)

    def _span(self, stage: int) -> Span:
        form, of = self.shapes[stage]
        claim, finish = self.claims[stage], self.finishes.get(stage)
        attributes: Attributes = {"cf.stage": stage, "cf.caller": self.history.caller_name(claim.event.who), "cf.form": FORMS[form]}
        return Span(
            _whole(self.history.names[stage]),
            self.moments[claim.place - 1],
            self.moments[-1 if finish is None else finish.place - 1],
            attributes,
            [source for source in of if source in self.claims],
            *self._status(stage),
            self._raised(finish),
        )

    def _raised(self, finish: Optional[HistoryEntry]) -> Optional[Attributes]:
        answer = finish.event.answer if finish is not None and isinstance(finish.event, Finish) else None
        if not isinstance(answer, Thrown):
            return None
        error, told = self.history.errors[answer.code], self.history.error_text(answer.code)
        kind: Attributes = {}
        if isinstance(error, BaseException):  # and not what `describe` told of it
            module, name = type(error).__module__, type(error).__qualname__
            kind = {"exception.type": name if module == "builtins" else f"{module}.{name}"}
        return {**kind, "exception.message": told}


class SpanFile:
    """A hook for `on_end` that adds the spans of each request to a file: a line with the JSON of OpenTelemetry's
    protocol, as its collectors read it from files. It is written as `cf_look trace --spans` writes it.

        with Service(on_end=SpanFile("spans.jsonl", "shop")) as service:
            with service.request("order 17") as request:
                request.supply(load, 17).then(charge)

    Args:
        path: The file. It is made if it isn't there.
        service: The name of the service whose requests these are."""

    def __init__(self, path: "Union[str, os.PathLike[str]]", service: str = "cf") -> None:
        self._path, self._service = path, service

    def __call__(self, history: History) -> None:
        spans = spans_of(history)
        if spans:
            with open(self._path, "ab", buffering=0) as file:
                file.write(_line(spans, _whole(self._service)).encode())


class Spans:
    """A hook for `on_end` that hands the spans of each request to OpenTelemetry, with their own times. The span of the
    request is a child of the one that was current where the request was opened.

    Args:
        tracer: One of OpenTelemetry's tracers. By default that of the global provider.

    Raises:
        ImportError: The package `opentelemetry-api` isn't installed."""

    def __init__(self, tracer: Any = None) -> None:
        self._trace: Any = importlib.import_module("opentelemetry.trace")  # (it is installed on some machines only)
        self._tracer: Any = self._trace.get_tracer("cf.service") if tracer is None else tracer

    def __call__(self, history: History) -> None:
        made: Dict[int, Any] = {}  # the spans of stages
        whole: Any = None
        within: Any = None
        end = 0
        for span in spans_of(history):
            links = [self._trace.Link(made[stage].get_span_context()) for stage in span.sources]
            shown = self._tracer.start_span(span.name, within, attributes=span.attributes, links=links, start_time=span.start)
            if span.raised is not None:
                shown.add_event("exception", span.raised, span.end)
            if span.status:
                code = self._trace.StatusCode(span.status)
                shown.set_status(self._trace.Status(code, span.message or None))
            if whole is None:
                whole, end, within = shown, span.end, self._trace.set_span_in_context(shown)
            else:
                made[int(span.attributes["cf.stage"])] = shown
                shown.end(span.end)
        if whole is not None:
            whole.end(end)


def spans_to(path: "Union[str, os.PathLike[str]]", service: str = "cf") -> Hook:
    """A hook for `on_end`: `Spans()` if `opentelemetry-api` is installed, else `SpanFile(path, service)`."""
    try:
        return Spans()
    except ImportError:
        return SpanFile(path, service)


def _line(spans: Sequence[Span], service: str) -> str:
    """The spans in the JSON of OpenTelemetry's protocol, as one line. The first is that of the request."""
    trace = os.urandom(16).hex()
    scope = {"scope": {"name": "cf.service"}, "spans": [_json(trace, k, span) for k, span in enumerate(spans)]}
    resource = {"attributes": _attributes({"service.name": service})}
    return json.dumps({"resourceSpans": [{"resource": resource, "scopeSpans": [scope]}]}) + "\n"


def _json(trace: str, place: int, span: Span) -> Dict[str, Any]:
    number = int(span.attributes["cf.stage"]) + 1 if place else WHOLE
    status: Attributes = {"code": span.status, **({"message": span.message} if span.message else {})}
    events = [] if span.raised is None else [{"timeUnixNano": str(span.end), "name": "exception", "attributes": _attributes(span.raised)}]
    return {
        "traceId": trace,
        "spanId": f"{number:016x}",
        **({"parentSpanId": f"{WHOLE:016x}"} if place else {}),
        "name": span.name,
        "kind": INTERNAL,
        "startTimeUnixNano": str(span.start),
        "endTimeUnixNano": str(span.end),
        "attributes": _attributes(span.attributes),
        "events": events,
        "links": [{"traceId": trace, "spanId": f"{stage + 1:016x}"} for stage in span.sources],
        "status": status,
    }


def _attributes(given: Attributes) -> List[Dict[str, Any]]:
    return [{"key": key, "value": {"intValue": str(value)} if isinstance(value, int) else {"stringValue": value}} for key, value in given.items()]
