"""Closed desks: what came, in its one order, and what each caller was told."""
import ctypes as c
from dataclasses import dataclass
from typing import List, Optional, Union

from ._library import ASKED_OUTCOME, DID, CHandle, CRecord
from .events import Event, event_of, reply_of
from .graph import Graph
from .handle import Handle
from .values import Now, Outcome, Reply, Value, now_out, outcome_out, value_out


@dataclass(frozen=True)
class CallRecord:
    """A changing call: the word of its event, and its reply. `place` counts the history's events up to and with its
    own."""

    place: int
    word: int
    reply: Reply

    @property
    def event(self) -> Event:
        """The event of the word."""
        return event_of(self.word)


@dataclass(frozen=True)
class ReadRecord:
    """A read or a join, which saw the first `place` events: what the stage was settled with by them, if it was."""

    place: int
    stage: int
    outcome: Optional[Outcome]


@dataclass(frozen=True)
class ReadNowRecord:
    """The same of what the stage gave then, `absent` where it wasn't settled."""

    place: int
    stage: int
    absent: Value
    now: Now


Record = Union[CallRecord, ReadRecord, ReadNowRecord]


class Closed(Handle):
    """A desk that all its callers were given back to."""

    def __init__(self, handle: CHandle, callers: int) -> None:
        super().__init__(handle)
        self.callers: int = callers

    def words(self) -> List[int]:
        """The words of all events, in the one order in which they came."""
        count = self._call_for("cf_closed_events", c.c_uint16()).value
        return [self._call_for("cf_closed_word", c.c_uint64(), place).value for place in range(count)]

    def events(self) -> List[Event]:
        """The same events, read."""
        return [event_of(word) for word in self.words()]

    def records(self, caller: int) -> List[Record]:
        """What the caller of a number did and saw, in its order."""
        count = self._call_for("cf_closed_records", c.c_uint16(), caller).value
        return [_record_out(self._call_for("cf_closed_record", CRecord(), caller, at)) for at in range(count)]

    def graph(self) -> Graph:
        """The graph as all events leave it. History and records are gone then: what they are wanted for is read
        before."""
        with self._lock:
            self._call("cf_closed_graph")
            return Graph._from_handle(self._let_go())


def _record_out(record: CRecord) -> Record:
    if record.kind == DID:
        return CallRecord(record.place, record.word, reply_of(record.word, record.reply))
    if record.asked == ASKED_OUTCOME:
        return ReadRecord(record.place, record.stage, outcome_out(record.outcome))
    return ReadNowRecord(record.place, record.stage, value_out(record.absent), now_out(record.now))
