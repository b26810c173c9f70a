"""What stores whose rows are in SQL tables have in common: requests and their numbers, and what lists ask for."""
import abc
import heapq
import time
from types import ModuleType
from typing import Any, Dict, Iterable, List, Mapping, NamedTuple, Optional, Set, Tuple

from .rows import FIRST, HEAD, Changes, Glance, Gone, ListedRequest, OpenRequest, Opened, Put, Store, flow_of

ANEW = 100  # requests that are told anew with each look at all that are open
BETWEEN_ALL = 0.5  # seconds between two such looks: what is closed is told by them alone


class _Mark(NamedTuple):
    """What a list of open requests was of: the words until then, or None where it had the first requests alone; its
    names by numbers; the last number that was told anew; and when all that are open are looked at again."""

    words: Any
    names: Mapping[int, str]
    turn: int
    due: float


class _Other(NamedTuple):
    """What is other in a list: how many words those requests have, by number, to which some were put; the mark of the
    words until now; the numbers of all that are open, or None where they weren't looked at; those that are new, and
    some that are told anew; and the last of these."""

    longer: Mapping[int, int]
    words: Any
    numbers: Optional[Set[int]]
    opened: List[OpenRequest]
    turn: int


class TableStore(Store):
    """A store with the tables `cf_request`, `cf_word`, `cf_beat`, `cf_glance` and `cf_name`. Its engine's statements go
    through `_ask`.

    Words, payloads and timers go by a request's number. A name keeps its number until the request is dropped; then
    another request of that name has a number of its own."""

    SQL: ModuleType  # its engine's statements

    def __init__(self) -> None:
        self._ids: Dict[str, int] = {}

    @abc.abstractmethod
    def _ask(self, statement: str, **values: Any) -> List[Tuple[Any, ...]]:
        """Does a statement with these values, and gives its rows."""

    def _id(self, name: str) -> int:
        if name not in self._ids and self.find(name) is None:
            raise Gone(name)
        return self._ids[name]

    def _id_of(self, put: Put) -> int:
        number = self._id(put.request)
        if put.number not in (0, number):
            raise Gone(put.request)
        return number

    def _gone(self, name: str) -> Gone:
        """Says that a request isn't there. Another of its name may be."""
        self._ids.pop(name, None)
        return Gone(name)

    def find(self, name: str) -> Optional[Opened]:
        rows = self._ask(self.SQL.FIND, name=name)
        if not rows:
            return None
        number = self._ids[name] = int(rows[0][0])
        return Opened(name, str(rows[0][1]), float(rows[0][2]), number)

    def ends(self) -> Dict[str, int]:
        return {str(name): int(many) for name, many in self._ask(self.SQL.ENDS)}

    def listing(self) -> List[ListedRequest]:
        return _listed(self._ask(self.SQL.LISTING))

    def beats(self) -> Dict[int, int]:
        return {int(session): int(count) for session, count in self._ask(self.SQL.BEATS)}

    def overview(self) -> List[OpenRequest]:
        return _opens(self._ask(self.SQL.OVERVIEW, head=HEAD))

    def changes(self, mark: Optional[_Mark]) -> Tuple[Changes, _Mark]:
        if mark is None:
            first = self._ask(self.SQL.FIRST_OPENED, head=HEAD, most=FIRST)
            if first and int(first[0][-1]) > 2 * FIRST:
                opened = _opens(row[:-1] for row in first)
                return (Changes(opened, {}, [], int(first[0][-1])), _Mark(None, {it.number: it.name for it in opened}, 0, 0.0))
        before: Mapping[int, str] = {} if mark is None else mark.names
        is_all = mark is not None and time.monotonic() >= mark.due
        other = None if mark is None or mark.words is None else self._other(mark, is_all)
        if mark is None or other is None:
            words = self._mark()  # (first: what comes between is told once more)
            opened = self.overview()
            now = {it.number: it.name for it in opened}
            return (Changes(opened, {}, _gone(before, before.keys() - now, now)), _Mark(words, now, 0, time.monotonic() + BETWEEN_ALL))
        new = {it.number: it.name for it in other.opened if before.get(it.number) != it.name}
        names = (
            _with(before, new) if other.numbers is None else {**{number: name for number, name in before.items() if number in other.numbers}, **new}
        )
        gone = [] if other.numbers is None else _gone(before, before.keys() - other.numbers, names)
        many = {names[number]: words for number, words in other.longer.items() if number in names}
        return (Changes(other.opened, many, gone), _Mark(other.words, names, other.turn, time.monotonic() + BETWEEN_ALL if is_all else mark.due))

    @staticmethod
    def _anew(numbers: Iterable[int], turn: int) -> Tuple[List[int], int]:
        """Those of all open requests that are told anew: some each time, so that a list which misses something misses
        it for seconds only. And the next turn."""
        again = heapq.nsmallest(ANEW, (it for it in numbers if it > turn))
        return again, again[-1] if len(again) == ANEW else 0

    @abc.abstractmethod
    def _mark(self) -> Any:
        """Which words stand now, for `_Mark.words`."""

    @abc.abstractmethod
    def _other(self, mark: _Mark, is_all: bool) -> Optional[_Other]:
        """What is other since a mark, or None where that isn't known. Without `is_all` it costs by what is other alone,
        and not by how many are open: then what is closed isn't told, and what is opened again may not be."""

    def closed(self, behind: str, most: int, part: str = "") -> List[ListedRequest]:
        return _listed(self._ask(self.SQL.CLOSED, behind=behind, most=most, part=part))

    def session_names(self, request: str = "", number: int = 0) -> Dict[int, str]:
        number = (number or self._id(request)) if request else 0
        return {int(session): str(said) for session, said in self._ask(self.SQL.SESSION_NAMES, request=number)}


def _listed(rows: Iterable[Tuple[Any, ...]]) -> List[ListedRequest]:
    """What rows of `LISTING` tell."""
    return [ListedRequest(str(name), float(opened), closed, int(many or 0)) for name, opened, closed, many in rows]


def _opens(rows: Iterable[Tuple[Any, ...]]) -> List[OpenRequest]:
    """What rows of `OVERVIEW` tell."""
    told = []
    for number, name, opened, many, head, words, said in rows:
        glance = None if words is None else Glance(str(name), int(number), int(words), str(said))
        told.append(OpenRequest(str(name), int(number), float(opened), int(many or 0), flow_of(str(head)), glance))
    return told


def _with(before: Mapping[int, str], new: Mapping[int, str]) -> Mapping[int, str]:
    """The names of before and these. One that another request had has the new number alone."""
    if not new:
        return before
    taken = set(new.values())
    return {**{number: name for number, name in before.items() if name not in taken}, **new}


def _gone(before: Mapping[int, str], numbers: Iterable[int], names: Mapping[int, str]) -> List[str]:
    """The names of these numbers, but for those that another request has now."""
    gone = {before[number] for number in numbers}
    return sorted(gone.difference(names.values())) if gone else []
