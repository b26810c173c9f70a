"""What Prometheus reads: the text form of its metrics."""
import time
from typing import Any, Iterator

from ...service import exposition
from ...service.exposition import Metric, Sample
from .board import STATES, Board
from .wording import METRICS


def text_of(board: Board) -> str:
    """All metrics of a store."""
    return exposition.text_of(_metrics(board), METRICS)


def _metrics(board: Board) -> Iterator[Metric]:
    now, lines, queues = time.time(), board.lines(), board.queues()
    states: Any = dict.fromkeys(STATES, 0)
    for line in lines:
        states[line.state] += 1
    sessions = [it.is_there for it in board.sessions()]
    yield Metric("cf_store_up", "gauge", [Sample(not board.away)])
    yield Metric("cf_open_requests", "gauge", [Sample(many, [("state", state)]) for state, many in states.items()])
    oldest = min((line.opened - board.ahead for line in lines), default=now)
    yield Metric("cf_oldest_request_seconds", "gauge", [Sample(max(0.0, now - oldest))])
    named = [([("function", it.function), ("version", str(it.version))], it) for it in queues]
    yield Metric("cf_ready_stages", "gauge", [Sample(it.many, labels) for labels, it in named])
    yield Metric("cf_oldest_ready_seconds", "gauge", [Sample(max(0.0, now - it.since), labels) for labels, it in named])
    counted = [(sessions.count(is_there), said) for said, is_there in (("there", True), ("gone", False), ("unsure", None))]
    yield Metric("cf_sessions", "gauge", [Sample(many, [("state", said)]) for many, said in counted])
    if board.words_put is not None:
        yield Metric("cf_words_total", "counter", [Sample(board.words_put)])
    rate = board.rate()
    if rate is not None:
        yield Metric("cf_words_per_second", "gauge", [Sample(rate)])
    yield Metric("cf_unknown_answers_total", "counter", [Sample(board.unknown)])
