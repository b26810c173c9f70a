"""What people may do to requests here: each cancel, value or failure of a stage is one word of a caller that has their
name."""
import json
import logging
import threading
from typing import Any, Callable, Dict, Optional, Tuple

from ...service.history import escaped
from ...service.words import CANCEL, COMPLETE, FAIL, GIVES
from ..rows import Broken, Gone, Store
from ..view import RowView, new_session
from .board import Board
from .wording import TEXTS

LOGGER = logging.getLogger("cf.requests")
PATIENCE = 5  # seconds for which the store may be silent
LONGEST_NAME = 64  # characters of who acts
LONGEST_TEXT = 2_000  # characters of a failure
ACTIONS = ("cancel", "complete", "fail", "end", "drop")


class Misused(ValueError):
    """What was asked makes no sense. Nothing was done."""


class Actions:
    """Does what people ask for. Whoever acts under one name is one caller in each request."""

    def __init__(self, store: Store, board: Board) -> None:
        self._store, self._board = store, board
        self._sessions: Dict[str, int] = {}
        self._lock = threading.Lock()

    def do(self, asked: Dict[str, Any]) -> Tuple[bool, str]:
        """Does one thing, and says whether that did it, and in words what became of it.

        Raises:
            Misused: What is asked isn't an action, or names nothing that is there.
            Gone, Broken, Unknown, StoreError: As the store says."""
        action, name, number = asked.get("action"), asked.get("name"), asked.get("number")
        who = str(asked.get("who", "")).strip()
        if action not in ACTIONS or not isinstance(name, str) or not isinstance(number, int):
            raise Misused(TEXTS["misused"])
        if not who or len(who) > LONGEST_NAME:
            raise Misused(TEXTS["no_name"])
        stage = asked.get("stage")
        LOGGER.warning("%s: %s %r%s", escaped(who), action, name, f", stage {stage}" if isinstance(stage, int) else "")
        if action == "end":
            told = self._end(name, number, who, bool(asked.get("cancels")))
        elif action == "drop":
            told = self._drop(name, number)
        else:
            told = self._settle(name, number, who, str(action), asked)
        self._board.soon()
        return told

    def _view(self, name: str, number: int, who: str) -> RowView:
        found = self._store.find(name)
        if found is None or found.number != number:
            raise Gone(name)
        with self._lock:
            session = self._sessions.setdefault(who, new_session())
        view = RowView(self._store, found, session, PATIENCE)
        view.catch_up()
        # first: whoever reads the word finds the name
        view.retrying_for_a_minute(lambda: self._store.name_session(session, TEXTS["by_hand"].format(who), name, number))
        return view

    def _settle(self, name: str, number: int, who: str, action: str, asked: Dict[str, Any]) -> Tuple[bool, str]:
        make = _MAKERS[action](asked)
        view, given = self._view(name, number, who), asked.get("stage")
        if not isinstance(given, int) or isinstance(given, bool) or not 0 <= given < len(view.kinds):
            raise Misused(TEXTS["no_stage"])
        stage: int = given

        def decide(view: RowView) -> Any:
            return None if view.is_settled(stage) else [make(view, stage)]

        done, _ = view.act(decide)
        is_done = done is not None and stage in done[0].settled
        return is_done, TEXTS["done" if is_done else "late"]

    def _end(self, name: str, number: int, who: str, cancels: bool) -> Tuple[bool, str]:
        many, words = 0, None
        try:
            if cancels:
                view = self._view(name, number, who)
                many = view.cancel_all()
                words = view.words_seen
        except Gone:
            raise
        except Broken:  # it can't be gone on with, and so is closed as it stands
            pass
        if words is None:
            words = next((it.words for it in self._store.overview() if it.name == name and it.number == number), None)
        if words is None:
            return False, TEXTS["closed_before"]
        self._store.end(name, words, number)
        if name in self._store.ends():
            return False, TEXTS["not_closed"]
        return True, TEXTS["closed"].format(many)

    def _drop(self, name: str, number: int) -> Tuple[bool, str]:
        found = self._store.find(name)
        if found is None or found.number != number:
            raise Gone(name)
        if name in self._store.ends():
            return False, TEXTS["drop_open"]
        words = next((it.words for it in self._store.listing() if it.name == name), 0)
        is_done = self._store.drop(name, words)
        return is_done, TEXTS["dropped" if is_done else "drop_open"]


def _cancel(view: RowView, stage: int) -> Tuple[int, Optional[bytes]]:
    return CANCEL << 56 | view.caller_number << 48 | stage << 36, None


Maker = Callable[[RowView, int], Tuple[int, Optional[bytes]]]


def _completing(asked: Dict[str, Any]) -> Maker:
    try:
        value = json.loads(str(asked.get("value", "")), parse_constant=_no_number)
        payload = None if value is None else json.dumps(value, separators=(",", ":"), ensure_ascii=True).encode()
    except RecursionError:
        raise Misused(TEXTS["too_deep"]) from None
    except ValueError as error:
        raise Misused(TEXTS["no_json"].format(error)) from None

    def make(view: RowView, stage: int) -> Tuple[int, Optional[bytes]]:
        low = 0 if payload is None else GIVES << 32 | view.next_place
        return COMPLETE << 56 | view.caller_number << 48 | stage << 36 | low, payload

    return make


def _no_number(name: str) -> None:
    """NaN and Infinity, which Python's JSON has and no other."""
    raise ValueError(f"{name} is no number of JSON")


def _failing(asked: Dict[str, Any]) -> Maker:
    text = str(asked.get("value", "")).strip()
    if not text or len(text) > LONGEST_TEXT:
        raise Misused(TEXTS["no_reason"])
    payload = json.dumps({"error": "RuntimeError", "text": text, "args": [text]}).encode()
    return lambda view, stage: (FAIL << 56 | view.caller_number << 48 | stage << 36 | view.next_place, payload)


_MAKERS: Dict[str, Callable[[Dict[str, Any]], Maker]] = {"cancel": lambda asked: _cancel, "complete": _completing, "fail": _failing}
