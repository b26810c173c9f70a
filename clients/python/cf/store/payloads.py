"""Values and exceptions of a request by the places of their payloads, which the machine knows alone."""
from concurrent.futures import CancelledError
from typing import Any, Callable, Dict, List, Optional, Sequence, Tuple

from ..service.words import ATTACH, COMPOSE_FORMS, FINISH, TICK
from ..values import Args, BadAnswer, Cancelled, Fault, Form, Outcome, TimedOut
from .codec import Abandoned, Json, RemoteError, json_of
from .earlier import GETS_OUTCOMES, called_definition
from .followed import Asked, Followed, PutUnderWay, ReadEntry
from .machine import Note, Source, Want
from .notes import FunctionNumbers, TimerSaid, moment_of, says_more, stage_of, write_given, write_timer
from .rows import Broken, Entry, Put, Store, StoreError

LONGEST_WHY = 500  # characters of what a store says that takes no value
ONLY_FAULT = (int(Form.EXCEPTIONALLY), int(Form.EXCEPTIONALLY_COMPOSE))


class Payloads:
    """Reads payloads of requests in a store, and makes those that are put. Who reads one is told `Unknown` where the store doesn't
    answer, and `Broken` where it isn't there or can't be read, or the request is gone."""

    def __init__(self, store: Store, codec: Json) -> None:
        self._store, self._codec = store, codec

    # What stands in the store.

    def noted(self, request: Followed, at: int, entries: Sequence[Entry], numbers: FunctionNumbers) -> List[ReadEntry]:
        """The entries behind `at` others, with their notes, which are in their payloads."""
        found = self._at(request, [place for place, (word, _) in enumerate(entries, at + 1) if says_more(word)])
        return request.read_notes(at, entries, found, self._codec, numbers)

    def outcome(self, request: Followed, told: Outcome) -> Tuple[Any, Optional[BaseException]]:
        """The value and the exception of an outcome."""
        if told.fault is None:
            return None if told.value is None else self._value(request, told.value), None
        return None, self._exception(request, told.fault)

    def arguments(self, request: Followed, form: int, args: Args) -> Tuple[Any, ...]:
        """The arguments of the function of a stage of this form."""
        if form in GETS_OUTCOMES:
            (told,) = args
            value, error = self.outcome(request, told) if isinstance(told, Outcome) else (None, None)
            return (error,) if form in ONLY_FAULT else (value, error)
        return tuple(None if place is None else self._value(request, place) for place in args if not isinstance(place, Outcome))

    def is_abandonment(self, request: Followed, told: Outcome) -> bool:
        """Whether it says that the process is gone that ran the stage's own function. Wrapped it is a source's."""
        fault = told.fault
        return fault is not None and not fault.wrapped and isinstance(self._exception(request, fault), Abandoned)

    def _exception(self, request: Followed, fault: Fault) -> BaseException:
        if isinstance(fault, Cancelled):
            return CancelledError()
        if not fault.code:
            return TimeoutError() if isinstance(fault, TimedOut) else BadAnswer()
        error: BaseException = self._read(request, fault.code, self._codec.read_error)
        return error

    def _value(self, request: Followed, place: int) -> Any:
        return self._read(request, place, self._codec.read)

    def _read(self, request: Followed, place: int, reader: Callable[[bytes], Any]) -> Any:
        payload = self._at(request, [place]).get(place)
        if payload is None:
            raise Broken(request.name, place, "no payload is there, and a word names it")
        try:
            given = request.value_at(place, payload)
            return None if given is None else reader(given)
        except KeyboardInterrupt:  # it isn't the reader's
            raise
        except BaseException as error:
            raise Broken(request.name, place, f"its payload can't be read: {error!r}") from None

    def _at(self, request: Followed, places: Sequence[int]) -> Dict[int, bytes]:
        """The payloads of these places, as far as they are there."""
        own = {place: request.payload_put(place) for place in places}
        told = {place: it for place, it in own.items() if it is not None}
        missing = [place for place in own if place not in told]
        return {**told, **(self._store.payloads(request.name, missing, request.number) if missing else {})}

    # What is put.

    def put_of(self, request: Followed, under_way: PutUnderWay) -> Put:
        """What the store is asked for a put. It stays the same."""
        if under_way.put is None:
            beside = {place: self._beside(request, under_way, want) for place, want in enumerate(under_way.wants, under_way.at + 1)}
            entries = [(want.entry.word, want.entry.token) for want in under_way.wants]
            payloads = {place: it for place, it in beside.items() if it is not None}
            attaches = any(word >> 56 == ATTACH for word, _ in entries)
            under_way.put = Put(request.name, under_way.at, entries, payloads, request.number, attaches)
        return under_way.put

    def _beside(self, request: Followed, under_way: PutUnderWay, want: Want) -> Optional[bytes]:
        """What stands beside a word that is put."""
        kind, note, asked = want.entry.word >> 56, want.entry.note, under_way.asked
        given = asked.payload if asked is not None and want.source == Source.ACT else None
        moment = moment_of(note)
        if kind == TICK and moment is not None:
            return write_timer(TimerSaid(stage_of(note), moment, want.source == Source.ACT, given))
        if kind == ATTACH and asked is not None:
            return _write_definition(asked, note)
        if kind == FINISH and want.source == Source.NOBODY and note.what:
            return write_given(stage_of(note))
        if want.source == Source.FUNCTION:
            return under_way.results[want.stage]
        if want.source == Source.ERROR and want.stage in request.transacted and request.transacted[want.stage].error:
            return request.transacted[want.stage].error
        if want.source == Source.ERROR:
            refused = request.refused or StoreError("its function gave no stage of the request")
            return self.error(RemoteError(type(refused).__name__, str(refused)[:LONGEST_WHY]))
        if want.source == Source.GONE:
            said = called_definition(request.definitions, want.stage)["name"]
            return self.error(Abandoned(f"the worker that ran {said} is gone, and it may have run"))
        return given

    def value(self, value: Any) -> bytes:
        """The bytes of a value."""
        return self._codec.write(value)

    def error(self, error: BaseException) -> bytes:
        """The bytes of an exception, or of a `RemoteError` where the codec can't write it."""
        try:
            return self._codec.write_error(error)
        except BaseException as fault:
            return Json().write_error(RemoteError(type(error).__name__, f"(it can't be written: {type(fault).__name__})"))


def _write_definition(asked: Asked, note: Note) -> bytes:
    """What stands beside the word of a stage that a user attaches: its definition, with the stage that its note names."""
    said = dict(asked.definition)
    if asked.act.form in COMPOSE_FORMS:
        said = {**said, "to": stage_of(note)} if note.what else {"name": f"what {said['name']} gives"}
    elif "again" in said:
        said["again"] = stage_of(note)
    return json_of(said).encode()
