"""What the page of one request shows: its stages, its words as sentences, payloads, and the picture that `cf_look page`
makes of it."""
import base64
import hashlib
import json
import subprocess
import threading
from collections import OrderedDict
from typing import Any, Dict, List, NamedTuple, Optional, Tuple

from ...service.history import History, escaped
from ...service.words import CANCELLED, FORMS, IS_CLAIMED, IS_LINKED, IS_PENDING, IS_READY, IS_SETTLED, TIMED_OUT, VALUE
from ..codec import Json
from ..rows import Broken, Gone
from ..view import RowView
from .board import Board
from .lists import about, session_of
from .reading import Readings
from .wording import TEXTS

STAGES = 100  # that aren't settled
EVENTS = 200  # sentences of a page
LONGEST = 200_000  # bytes of a payload
SECONDS = 60  # for cf_look
MOST = 8  # histories and pictures that are kept
# What `cf_look page` shows beside its graph stands around the frame already, but for a verdict that is bad. (A row has
# no times, so it also has no picture of who ran what when.)
ALONE = (
    b"<style>body { height: 100vh !important; overflow: hidden !important; display: grid !important; "
    b"grid-template: auto auto minmax(0, 1fr) / minmax(0, 1fr) !important } "
    b"main { grid-row: 3; grid-template-columns: minmax(0, 1fr) !important } #view { height: auto !important } "
    b"#split, #side, #lanes, body > header:not(:has(.not)) { display: none !important }</style></head>"
)
KINDS = {IS_READY: "ready", IS_CLAIMED: "running", IS_LINKED: "linked", IS_PENDING: "waiting"}
ENDS = {VALUE: "value", CANCELLED: "cancelled", TIMED_OUT: "timedout"}


class Unread:
    """Stands for a value or an exception that can't be read here."""

    def __repr__(self) -> str:
        return TEXTS["unread"]


class UnreadError(RuntimeError):
    """The same for an exception."""

    def __repr__(self) -> str:
        return TEXTS["unread"]


class Picture(NamedTuple):
    """A page of `cf_look page`, and what its scripts are known by."""

    text: bytes
    scripts: List[str]


class Details:
    """What is told of single requests.

    Args:
        board: What is known of the store.
        readings: What reads rows.
        cf_look: The path of the program, or None where it isn't there."""

    def __init__(self, board: Board, readings: Readings, cf_look: Optional[str]) -> None:
        self.board, self.readings, self.cf_look = board, readings, cf_look
        self._histories: "OrderedDict[Tuple[str, int, int], History]" = OrderedDict()
        self._pictures: "OrderedDict[Tuple[str, int, int], Picture]" = OrderedDict()
        self._lock = threading.Lock()

    def request(self, name: str, number: int, before: int) -> Dict[str, Any]:
        """All that the page of a request shows; of its words those up to a place, the last ones for 0."""
        told: Dict[str, Any] = {
            "view": "request",
            "name": name,
            "said": escaped(name),
            "number": number,
            "state": "unread",
            "why": "",
            **about(self.board),
        }
        line = self.board.line(name)
        self.board.want([name])
        try:
            with self.readings.reading(name, number) as view:
                number = view.opened.number
                told.update(
                    number=number,
                    flow=escaped(view.plan.flow),
                    words=view.words_seen,
                    opened=view.opened.opened - self.board.ahead,
                    **self._stages(view),
                )
                history = self._history(view)
        except Gone:
            return {**told, "state": "dropped"}
        except Broken as error:
            return {**told, "state": "broken", "closed": line is None, "why": escaped(f"place {error.place}: {error.why}")}
        is_open = line is not None and line.number == number
        told.update(
            state=line.state if line is not None and is_open else "closed",
            closed=not is_open,
            picture=self.cf_look is not None,
            **self._sentences(history, before),
        )
        return told

    def _stages(self, view: RowView) -> Dict[str, Any]:
        counts: Dict[str, int] = {}
        for number, kind in enumerate(view.kinds):
            state = ENDS.get(view.outcomes[number].kind, "failed") if kind == IS_SETTLED else KINDS[kind]
            counts[state] = counts.get(state, 0) + 1
        order = [number for how in (IS_CLAIMED, IS_READY, IS_LINKED, IS_PENDING) for number, kind in enumerate(view.kinds) if kind == how]
        shown = order[:STAGES]
        view.read_definitions(shown)
        claims = view.open_claims()
        rows = []
        for number in shown:
            said, (form, of) = view.definition(number), view.forms[number]
            rows.append(
                {
                    "n": number,
                    "name": escaped(str(said["name"])),
                    "form": FORMS[form],
                    "of": list(of),
                    "fn": escaped(str(said.get("fn", ""))),
                    "version": said.get("version"),
                    "state": KINDS[view.kinds[number]],
                    "session": session_of(self.board, claims[number]) if number in claims else None,
                }
            )
        return {"counts": counts, "stages": rows, "open": len(order), "all": len(view.kinds)}

    def _history(self, view: RowView) -> History:
        """The history of what a view has seen, which is told once."""
        key = (view.name, view.opened.number, view.words_seen)
        with self._lock:
            known = self._histories.get(key)
        if known is None:
            known = view.history(Json(), unread=lambda error: UnreadError() if "error" in error.why else Unread())
            self._remember(self._histories, key, known)
        return known

    def _remember(self, kept: "OrderedDict[Tuple[str, int, int], Any]", key: Tuple[str, int, int], it: Any) -> None:
        with self._lock:
            for other in [other for other in kept if other[:2] == key[:2]]:
                del kept[other]
            kept[key] = it
            while len(kept) > MOST:
                kept.popitem(last=False)

    @staticmethod
    def _sentences(history: History, before: int) -> Dict[str, Any]:
        entries = history.entries()
        last = min(before, len(entries)) if before else len(entries)
        first = max(0, last - EVENTS)
        lines = [
            [it.place, said, [end.strip() for end in ends], _has_payload(it.word)]
            for it, (said, ends) in zip(entries[first:last], history.sentences()[first:last])
        ]
        return {"lines": lines, "first": first, "last": last, "events": len(entries)}

    # What stands by itself.

    def payload(self, name: str, number: int, place: int) -> Dict[str, Any]:
        """The bytes of a word's payload, as text."""
        with self.readings.reading(name, number) as view:
            given = view.payload_if_any(place)
        if given is None:
            return {"place": place, "text": TEXTS["no_payload"], "bytes": 0, "cut": False}
        text = given[:LONGEST].decode("utf-8", "replace")
        if len(given) <= LONGEST:
            try:
                text = json.dumps(json.loads(given.decode()), indent=2, ensure_ascii=False)
            except (ValueError, RecursionError):
                pass
        return {"place": place, "text": "\n".join(map(escaped, text.split("\n"))), "bytes": len(given), "cut": len(given) > LONGEST}

    def account(self, name: str, number: int) -> Tuple[Tuple[str, int, int], str]:
        """What `cf_look` reads of a request, and what it is known by."""
        with self.readings.reading(name, number) as view:
            history = self._history(view)
            return (name, view.opened.number, view.words_seen), history.account()

    def picture(self, name: str, number: int) -> Picture:
        """The page that `cf_look page` makes of a request.

        Raises:
            Broken: The row can't be read.
            OSError, subprocess.SubprocessError: The program can't be run, or fails."""
        key, account = self.account(name, number)
        with self._lock:
            known = self._pictures.get(key)
        if known is None:
            done = subprocess.run(
                [self.cf_look or "cf_look", "page"],
                input=account.encode(),
                stdout=subprocess.PIPE,
                stderr=subprocess.PIPE,
                check=True,
                timeout=SECONDS,
            )
            known = Picture(done.stdout.replace(b"</head>", ALONE, 1), [_hash_of(it) for it in _scripts(done.stdout)])
            self._remember(self._pictures, key, known)
        return known


def _has_payload(word: int) -> bool:
    from ..view import _names_payload

    kind = word >> 56
    return _names_payload(word) or kind == 7 or kind == 5 and word >> 32 & 0xF == 3


def _scripts(page: bytes) -> List[bytes]:
    """What stands in the scripts of a page: between the marks, which nothing within it can be."""
    return [part.split(b"</script>")[0] for part in page.split(b"<script>")[1:]]


def _hash_of(script: bytes) -> str:
    return "'sha256-" + base64.b64encode(hashlib.sha256(script).digest()).decode() + "'"
