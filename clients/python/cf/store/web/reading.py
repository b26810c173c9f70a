"""Views of rows that are read again and again: each is kept for a while, so that only its new words are read."""
import contextlib
import threading
from collections import OrderedDict
from typing import Dict, Generator, List, Mapping, Optional, Tuple

from ..glances import stages_told
from ..rows import Broken, Gone, ReadRow, Store, RowQuery
from ..view import RowView, new_session

MOST = 256  # views that are kept
PATIENCE = 2  # seconds for which the store may be silent


class Readings:
    """Views of a store's rows. Any thread may ask for one; it has it alone then."""

    def __init__(self, store: Store) -> None:
        self._store, self._session = store, new_session()
        self._kept: "OrderedDict[Tuple[str, int], Tuple[threading.RLock, List[Optional[RowView]]]]" = OrderedDict()
        self._lock = threading.Lock()

    @contextlib.contextmanager
    def reading(self, name: str, number: int = 0, keeps: bool = True) -> Generator[RowView, None, None]:
        """A view of a request, with all that stands. `Gone` where the request isn't there, or is another's now."""
        if not number:
            found = self._store.find(name)
            if found is None:
                raise Gone(name)
            number = found.number
        lock, kept = self._slot(name, number, keeps)
        with lock:
            try:
                view = kept[0]
                if view is None:
                    opened = self._store.find(name)
                    if opened is None or opened.number != number:
                        raise Gone(name)
                    view = kept[0] = RowView(self._store, opened, self._session, PATIENCE)
                view.catch_up()
                yield view
            except BaseException:
                kept[0] = None  # (what it knows may be half a row)
                raise

    def reading_all(self, wanted: Mapping[str, int], keeps: bool) -> Dict[str, RowView]:
        """Views of these requests, by names and numbers, with all that stands, read together. Where something is
        wrong, or a row is long, it is left out, and is for `reading`. One thread alone may have views of them."""
        slots = {name: self._slot(name, number, keeps)[1] for name, number in wanted.items()}
        seen = {name: kept[0].words_seen if kept[0] is not None else 0 for name, kept in slots.items()}
        told: Dict[str, RowView] = {}
        missing: Dict[Tuple[str, int], Dict[int, int]] = {}
        for name, row in self._store.read_rows([RowQuery(*it, seen[it[0]]) for it in wanted.items()]).items():
            try:
                view = self._caught_up(slots[name], row)
            except BaseException as error:
                slots[name][0] = None  # (what it knows may be half a row)
                if not isinstance(error, Broken):
                    raise
                continue
            stages = stages_told(view)
            view.take_definitions(view.undefined_stages(stages), row.payloads)
            told[name] = view
            unsaid = view.undefined_stages(stages)
            if unsaid:
                missing[name, view.opened.number] = unsaid
        if missing:
            payloads = self._store.payloads_of({key: list(its) for key, its in missing.items()})
            for (name, _), its in missing.items():
                told[name].take_definitions(its, payloads.get(name, {}))
        return told

    def _caught_up(self, kept: List[Optional[RowView]], row: ReadRow) -> RowView:
        """A view that knows a row, in its slot."""
        view = kept[0]
        if view is None:
            assert row.opened is not None
            view = kept[0] = RowView(self._store, row.opened, self._session, PATIENCE)
        view.catch_up(row.entries)
        return view

    def _slot(self, name: str, number: int, keeps: bool) -> "Tuple[threading.RLock, List[Optional[RowView]]]":
        with self._lock:
            slot = self._kept.get((name, number))
            if slot is None:
                slot = (threading.RLock(), [None])
                if keeps:
                    self._kept[name, number] = slot
                    while len(self._kept) > MOST:
                        self._kept.popitem(last=False)
            else:
                self._kept.move_to_end((name, number))
            return slot

    def forget(self, name: str) -> None:
        """Lets the views of a name go."""
        with self._lock:
            for key in [key for key in self._kept if key[0] == name]:
                del self._kept[key]
