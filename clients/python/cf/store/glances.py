"""What a list tells of a request: how far its stages are, what it waits for, who runs what, and since when.

A session that has read a row makes a glance of it, and keeps it in the store, so that a list of many requests reads no
row. A glance is JSON, since readers of other versions take what they know of it.
"""
import functools
import json
from typing import Any, Dict, List, NamedTuple, Optional, Set, Tuple

from ..service.words import IS_CLAIMED, IS_LINKED, IS_PENDING, IS_READY, IS_SETTLED
from .rows import Glance
from .view import RowView

FORMAT = 1
SINCE = ',"since":'  # behind which the last member of a glance stands (within a text its marks would be escaped)
MOST_NAMED = 3  # stages that it waits for
MOST_TOLD = 16  # claims, and functions of ready stages
MOST_TRIES = 100
NAMED = {IS_CLAIMED: "at work", IS_READY: "ready", IS_PENDING: "pending", IS_LINKED: "linked"}


class AwaitedStage(NamedTuple):
    """A stage that a request waits for, and how it stands: a value of `NAMED`."""

    stage: int
    name: str
    how: str


class RunningStage(NamedTuple):
    """A stage whose function runs, which session runs it, and since when."""

    stage: int
    name: str
    session: int
    since: float


class Queue(NamedTuple):
    """Stages of one function that are ready: how many, and since when the first."""

    function: str
    version: int
    many: int
    since: float


class GlanceContent(NamedTuple):
    """What a glance says.

    Attributes:
        stages, open: How many stages there are, and how many of them aren't settled.
        waits: The first of those that aren't, those at work before those that are ready.
        claims: Those at work.
        ready: Those that are ready, by their functions.
        tries: How often the function of the first was tried before.
        since: When the last word was seen, in seconds since 1970."""

    stages: int
    open: int
    waits: List[AwaitedStage]
    claims: List[RunningStage]
    ready: List[Queue]
    tries: int
    since: float


def content_of(view: RowView, now: float, before: Optional[GlanceContent]) -> GlanceContent:
    """What a view shows. What already was so in an earlier one is so since then."""
    order, claims, ready = _order(view), _claims(view), sorted(view.ready)
    view.read_definitions(stages_told(view))
    view.read_definitions({int(view.definition(stage).get("again", stage)) for stage in [*order[:1], *ready]})
    known = {(it.stage, it.session): it.since for it in (before.claims if before else [])}
    lasting = {(it.function, it.version): it.since for it in (before.ready if before else [])}
    functions: Dict[Tuple[str, int], int] = {}
    for stage in ready:
        said = _called(view, stage)
        functions[said] = functions.get(said, 0) + 1
    return GlanceContent(
        len(view.kinds),
        sum(kind != IS_SETTLED for kind in view.kinds),
        [AwaitedStage(number, str(view.definition(number)["name"]), NAMED[view.kinds[number]]) for number in order[:MOST_NAMED]],
        [RunningStage(stage, str(view.definition(stage)["name"]), session, known.get((stage, session), now)) for stage, session in claims],
        [Queue(*said, many, lasting.get(said, now)) for said, many in sorted(functions.items())[:MOST_TOLD]],
        max([0, *(_tries(view, number) for number in order[:1])]),
        now if view.words_seen else view.opened.opened,
    )


def stages_told(view: RowView) -> Set[int]:
    """The stages that a glance says something of."""
    return {*_order(view)[:MOST_NAMED], *view.ready, *(stage for stage, _ in _claims(view))}


def _order(view: RowView) -> List[int]:
    """The stages that aren't settled, those at work before those that are ready."""
    return [number for how in (IS_CLAIMED, IS_READY, IS_LINKED, IS_PENDING) for number, kind in enumerate(view.kinds) if kind == how]


def _claims(view: RowView) -> List[Tuple[int, int]]:
    return list(view.open_claims().items())[:MOST_TOLD]


def _called(view: RowView, stage: int) -> Tuple[str, int]:
    """Name and version of the function that a stage calls: of a further try, those of what it tries again."""
    said = view.definition(stage)
    if "again" in said:
        said = view.definition(int(said["again"]))
    return str(said.get("fn", "")), int(said.get("version", 0))


def _tries(view: RowView, stage: int) -> int:
    """How many tries there were before this one: they stand in a row before it."""
    first, tries = view.definition(stage).get("again"), 0
    while first is not None and stage != first and view.forms[stage][1] and tries < MOST_TRIES:
        stage, tries = view.forms[stage][1][0], tries + 1
    return tries


def glance_of(view: RowView, now: float, before: Optional[GlanceContent]) -> Glance:
    """A glance at what a view shows. `Broken` where what is said of a stage can't be read."""
    seen = content_of(view, now, before)
    said = json.dumps({"glance": FORMAT, **seen._asdict()}, separators=(",", ":"))
    return Glance(view.name, view.opened.number, view.words_seen, said)


def read(glance: Optional[Glance]) -> Optional[GlanceContent]:
    """What a glance says, or None where there is none that can be read."""
    if glance is None:
        return None
    # Requests of one flow that wait for the same say the same but for the last moment, and that is read once.
    head, _, since = glance.said.rpartition(SINCE)
    try:
        moment = float(since[:-1])
    except ValueError:
        return _seen_in(glance.said)
    seen = _seen_in(head + "}")
    return None if seen is None else GlanceContent(*seen[:-1], moment)


@functools.lru_cache(4096)
def _seen_in(text: str) -> Optional[GlanceContent]:
    try:
        said: Dict[str, Any] = json.loads(text)
        if said.get("glance") != FORMAT:
            return None
        return GlanceContent(
            int(said["stages"]),
            int(said["open"]),
            [AwaitedStage(int(stage), str(name), str(how)) for stage, name, how in said["waits"]],
            [RunningStage(int(stage), str(name), int(session), float(since)) for stage, name, session, since in said["claims"]],
            [Queue(str(name), int(version), int(many), float(since)) for name, version, many, since in said["ready"]],
            int(said["tries"]),
            float(said.get("since", 0)),
        )
    except (ValueError, KeyError, TypeError, AttributeError):
        return None
