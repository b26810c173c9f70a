"""What the lists show: requests by filters, sessions, queues. All of it is known, so no row is read."""
import itertools
import operator
import time
from collections import Counter
from typing import Any, Dict, List, NamedTuple, Optional

from ...service.history import escaped
from ..glances import MOST_TOLD
from .board import STATES, Board, Line

PAGE = 100  # requests
MOST_FLOWS = 200  # that a filter names
MOST_RUNS = 50  # stages that a session's line names
FLOW, STATE = operator.attrgetter("flow"), operator.attrgetter("state")


class Filter(NamedTuple):
    """Which requests are wanted: of a state, a flow, with a part of the name, with a claim of a session; those behind a
    name."""

    state: str = ""
    flow: Optional[str] = None
    part: str = ""
    session: Optional[int] = None
    behind: str = ""


def shown(session: int) -> str:
    """How a session's number is written."""
    return f"{session:010x}"


def session_of(board: Board, session: int) -> Dict[str, Any]:
    """A session as pages name it."""
    it = board.session(session)
    return {"id": shown(session), "name": escaped(it.name), "there": it.is_there}


def requests(board: Board, wanted: Filter) -> Dict[str, Any]:
    """A page of requests, and how many there are of each state."""
    if wanted.state == "closed":
        return closed(board, wanted)
    lines = board.lines()
    flows, found = set(map(FLOW, lines)), _fitting(lines, wanted)
    counts = Counter(map(STATE, found))
    if wanted.state:
        found = [line for line in found if line.state == wanted.state]
    page = list(itertools.islice((line for line in found if line.name > wanted.behind), PAGE + 1))
    more, rows = len(page) > PAGE, page[:PAGE]
    board.want([line.name for line in rows])
    return {
        "view": "requests",
        "rows": [row(board, line) for line in rows],
        "total": max(board.many, len(found)),
        "counts": {state: counts[state] for state in STATES},
        "flows": sorted(flows)[:MOST_FLOWS],
        "session": None if wanted.session is None else session_of(board, wanted.session),
        "next": rows[-1].name if more else None,
        **about(board),
    }


def _fitting(lines: List[Line], wanted: Filter) -> List[Line]:
    """Those that a filter lets through, but for their states."""
    if wanted.part:
        part = wanted.part.lower()
        lines = [line for line in lines if part in line.folded]
    if wanted.flow is not None:
        lines = [line for line in lines if line.flow == wanted.flow]
    if wanted.session is not None:
        lines = [line for line in lines if line.seen is not None and any(it.session == wanted.session for it in line.seen.claims)]
    return lines


def row(board: Board, line: Line) -> Dict[str, Any]:
    """A request as a list has it."""
    told: Dict[str, Any] = {
        "name": line.name,
        "said": escaped(line.name),
        "number": line.number,
        "words": line.words,
        "flow": escaped(line.flow),
        "opened": line.opened - board.ahead,
        "state": line.state,
        "why": escaped(line.why),
    }
    seen = line.seen
    if seen is not None:
        told.update(
            open=seen.open,
            stages=seen.stages,
            since=seen.since,
            tries=seen.tries,
            waits=[[it.stage, escaped(it.name), it.how] for it in seen.waits],
            sessions=[session_of(board, it) for it in sorted({it.session for it in seen.claims})],
        )
    return told


def closed(board: Board, wanted: Filter) -> Dict[str, Any]:
    """A page of closed requests, which the store is asked for, by a part of their names alone."""
    found = board.store.closed(wanted.behind, PAGE + 1, wanted.part)
    rows = [
        {
            "name": it.name,
            "said": escaped(it.name),
            "number": 0,
            "words": it.words,
            "flow": "",
            "state": "closed",
            "opened": it.opened - board.ahead,
            "closed": (it.closed or it.opened) - board.ahead,
            "why": "",
        }
        for it in found[:PAGE]
    ]
    return {
        "view": "requests",
        "rows": rows,
        "total": None,
        "counts": None,
        "flows": [],
        "next": found[PAGE - 1].name if len(found) > PAGE else None,
        **about(board),
    }


def sessions(board: Board) -> Dict[str, Any]:
    """Who is there, who is gone, and what each runs."""
    runs: Dict[int, List[Any]] = {}
    for line in board.lines():
        for it in line.seen.claims if line.seen is not None else ():
            runs.setdefault(it.session, []).append([line.name, escaped(line.name), it.stage, escaped(it.name), it.since])
    rows = [
        {
            **session_of(board, it.session),
            "silent": round(it.silent),
            "many": len(runs.get(it.session, [])),
            "runs": sorted(runs.get(it.session, []), key=lambda run: float(run[4]))[:MOST_RUNS],
        }
        for it in board.sessions()
    ]
    return {"view": "sessions", "rows": rows, **about(board)}


def queues(board: Board) -> Dict[str, Any]:
    """How many stages of each function are ready, and how old the oldest is."""
    rows = [{"function": escaped(it.function), "version": it.version, "many": it.many, "since": it.since} for it in board.queues()]
    return {"view": "queues", "rows": rows, "most": MOST_TOLD, **about(board)}


def about(board: Board) -> Dict[str, Any]:
    """What each page says of the store."""
    return {
        "known": board.is_known,
        "away": escaped(board.away),
        "awaySince": board.away_since if board.away else None,
        "rate": None if board.rate() is None else round(board.rate() or 0.0),
        "now": time.time(),
    }
