"""The machine of a request, written plainly after docs/REQUEST.md over the sequential graph of conformance/common/model.py.

Nothing here is taken from the product's code. There are lists, and each call looks through all of them. Memory never runs out. Events,
outcomes, answers and arguments are written as in model.py, and a stage that is held is (stage, answer).
"""
from typing import Any, List, NamedTuple, Optional, Sequence, Tuple, Union

import histories
import model

Event = Tuple[Any, ...]
Outcome = Tuple[Any, ...]
Answer = Tuple[Any, ...]
Reply = Tuple[Any, ...]
Stage = Tuple[Tuple[Any, ...], Optional[int]]
GATHERING = ["allOf", "anyOf"]
COMPOSING = ["compose", "exceptionallyCompose"]
NEVER = 2**64 - 1  # as a moment: no open stage has a deadline
NEWS_READY, NEWS_MOMENT = 1, 2
MOST_CALLERS, MOST_FUNCTIONS, MOST_LANES, MOST_STAGES, MOST_EDGES = 64, 4096, 16, 4096, 16384
LEAST_GROWTH = 16


class Refused(Exception):
    """Why a call is refused. It has changed nothing."""


class Join(NamedTuple):
    """A stage ends, or is cancelled, once so many of its sources have values, or too few can have them still."""

    stage: int
    wanted: int
    sources: List[int]
    cancels: bool = False


class Deadline(NamedTuple):
    """What a stage is settled with, if it is open when a moment has passed."""

    stage: int
    moment: int
    outcome: Outcome


class Taken(NamedTuple):
    """A stage that was claimed, its function, and what that is to be called with."""

    stage: int
    function: int
    args: Tuple[Any, ...]


class Told(NamedTuple):
    """How many stages were told, and the first of them, which the host has taken by that: each with the caller that still runs its function,
    plus 1, or 0, and with its outcome."""

    total: int
    taken: List[Tuple[int, int, Optional[Outcome]]]


class Todo(NamedTuple):
    """What the host has to do next: the moment of the next deadline, how many jobs it has to start in each lane, and whether that is news."""

    moment: int
    ready: List[int]
    news: int


class Next(NamedTuple):
    """How what was held was finished, if anything was, and what was claimed, if a stage of the lane was ready."""

    finished: Optional[str]
    taken: Optional[Taken]


class Composed(NamedTuple):
    """A compose, and its relay below it."""

    relay: int
    stage: int


class Gathered(NamedTuple):
    """Stages that gather others, from the first one to the root, and what one stage of the form over all of those would have by now."""

    form: str
    sources: List[int]
    first: int
    root: int
    outcome: Optional[Outcome]


def settle_event(who: int, stage: int, outcome: Outcome) -> Event:
    """The event by which a caller settles a stage with this outcome. A fault is raw then."""
    if outcome[0] == "value":
        return ("complete", who, stage, outcome[1])
    cause = outcome[1]
    if cause[0] == "thrown":
        return ("fail", who, stage, cause[1])
    return ("cancel", who, stage) if cause[0] == "cancelled" else ("failAs", who, stage, cause[0], (*cause[1:], 0)[0])


def kept_in(state: Any) -> List[Stage]:
    """What each stage of a state is, without the arguments of those that are ready, and whose claim of it is open."""
    return [(stage[:1] if stage[0] == "ready" else stage, claimant) for stage, claimant in zip(state.stages, state.claims)]


class Machine:
    """A request of a plan with room for so many stages more, with the lanes of its stages and the number of lanes. It settles stages in
    the name of its own caller."""

    def __init__(self, plan: Any, room: int, lanes: Sequence[int], count: int, own: int) -> None:
        self.plan, self.room, self.planned, self.count, self.own = plan, room, list(lanes), count, own
        if self.room_left() < 0:
            raise Refused("ROOM")
        if not 1 <= count <= MOST_LANES or len(lanes) != len(plan.stages):
            raise Refused("LANES")
        if any(lane >= count for lane in lanes):
            raise Refused("NO_LANE")
        self.check_caller(own)
        self.todo = Todo(NEVER, [0] * count, 0)
        self.restart()

    def restart(self) -> None:
        """As it was opened."""
        self.state: Any = model.start(self.plan, self.room)
        self.events: List[Event] = []
        self.lanes = list(self.planned)
        self.follows: List[Join] = []
        self.deadlines: List[Deadline] = []
        self.moment = 0
        self.gathered: List[Gathered] = []
        self.told = [i for i in range(self.stages()) if self.is_settled(i)]
        self.settled = list(self.told)

    def close(self) -> None:
        """It has nothing to free."""

    def room_left(self) -> int:
        """How much more room the bounds let in, where each stage that is attached may have two sources."""
        edges = sum(len(stage.sources) for stage in self.plan.stages)
        return min(MOST_STAGES - len(self.plan.stages), (MOST_EDGES - edges) // 2) - self.room

    # What it tells, and changes nothing.

    def stages(self) -> int:
        return len(self.state.stages)

    def outcome(self, stage: int) -> Optional[Outcome]:
        found: Optional[Outcome] = model.outcome(self.state, stage)
        return found

    def is_settled(self, stage: int) -> bool:
        return self.outcome(stage) is not None

    def ready_in(self, lane: int) -> List[int]:
        """The ready stages of a lane, rising."""
        return [i for i in range(self.stages()) if self.state.stages[i][0] == "ready" and self.lanes[i] == lane]

    def ready(self, lane: int) -> int:
        """How many stages of the lane are ready."""
        self.check_lane(lane)
        return len(self.ready_in(lane))

    def ready_of_lanes(self) -> List[int]:
        """How many stages of each lane are ready."""
        ready = [self.lanes[i] for i in range(self.stages()) if self.state.stages[i][0] == "ready"]
        return [ready.count(lane) for lane in range(self.count)]

    def first_deadline(self) -> Optional[Deadline]:
        """Of the deadlines of open stages the one with the least moment, and of those the one that was set first."""
        waiting = [deadline for deadline in self.deadlines if not self.is_settled(deadline.stage)]
        return min(waiting, key=lambda deadline: deadline.moment) if waiting else None

    def next_deadline(self) -> Optional[Deadline]:
        """The same, with the last moment where its own is before that: then it is due at once."""
        first = self.first_deadline()
        return first._replace(moment=max(first.moment, self.moment)) if first else None

    def words(self) -> List[int]:
        """The words of all that was done."""
        return [histories.word_of(event) for event in self.events]

    def kept(self) -> List[Stage]:
        """What each stage is, and whose claim of it is open."""
        return kept_in(self.state)

    def kept_by(self, words: Sequence[int]) -> List[Stage]:
        """The same, as these words leave it from the start on."""
        state = model.start(self.plan, self.room)
        for word in words:
            state = model.answered(state, histories.event_of(word))[1]
        return kept_in(state)

    # Why a call is refused.

    def check_caller(self, who: int) -> None:
        if who >= MOST_CALLERS:
            raise Refused("NO_WORD")

    def check_lane(self, lane: int) -> None:
        if lane >= self.count:
            raise Refused("NO_LANE")

    def check_stages(self, *stages: int) -> None:
        if any(stage >= self.stages() for stage in stages):
            raise Refused("NO_STAGE")

    # What it does by itself.

    def do(self, event: Event) -> Reply:
        """Does an event, writes it behind the others, and tells the stages that it settled, rising."""
        before = self.state
        reply, self.state = model.answered(before, event)
        self.events.append(event)
        news = [i for i in range(self.stages()) if self.is_settled(i) and (i >= len(before.stages) or model.outcome(before, i) is None)]
        self.told += news
        self.settled += news
        self.see_gathered(-1 if event[0] in ("attach", "tick") else event[2], news if event[0] == "tick" else [])
        return tuple(reply)

    def see_gathered(self, named: int, timed: Sequence[int]) -> None:
        """Sees that each root has what one stage would have, as long as no event names one of the stages up to it, and no tick settles several of
        its sources: its limits say in which order."""
        kept = [it for it in self.gathered if not it.first <= named <= it.root and sum(source in timed for source in it.sources) < 2]
        self.gathered = [it._replace(outcome=it.outcome or self.gathered_by(it.form, it.sources)) for it in kept]
        for it in self.gathered:
            if self.outcome(it.root) != it.outcome:
                raise AssertionError(f"{it.form} of {it.sources} has {it.outcome}, and its root {self.outcome(it.root)}")

    def gathered_by(self, form: str, sources: List[int]) -> Optional[Outcome]:
        """What one stage of the form over these has, if it settles only now."""
        due = model.follows(form, [self.outcome(i) for i in sources])
        return due[1] if due[0] == "settles" else None

    def settle(self, who: int, stage: int, outcome: Outcome) -> None:
        self.do(settle_event(who, stage, outcome))

    def due_relay(self) -> Optional[Tuple[int, Outcome]]:
        """The first join, as they were set, that is open though it is decided, with what it ends with."""
        for join in self.follows:
            outcome = None if self.is_settled(join.stage) else self.decided(join)
            if outcome is not None and join.cancels:
                return join.stage, ("fault", ("cancelled",), False)
            if outcome is not None:
                return join.stage, ("value", None) if outcome[0] == "value" and join.wanted > 1 else outcome
        return None

    def decided(self, join: Join) -> Optional[Outcome]:
        """The outcome of the stage that decides a join, in the order in which stages were settled."""
        values = failures = 0
        for stage in self.settled:
            outcome, times = self.outcome(stage), join.sources.count(stage)
            if outcome is not None and outcome[0] == "value":
                values += times
            else:
                failures += times
            if values >= join.wanted or failures > len(join.sources) - join.wanted:
                return outcome
        return None

    def settle_relays(self, who: int) -> None:
        due = self.due_relay()
        while due is not None:
            self.settle(who, *due)
            due = self.due_relay()

    # Its calls.

    def call(self, name: str, given: Tuple[Any, ...], room: int, jobs: Sequence[int]) -> Tuple[Any, Told, List[Todo]]:
        """What a call answers with so many jobs on their way in each lane, what is told then, and what the host has to do. A deadline tells
        no stages, so what it says of that comes before what is told then."""
        answer = getattr(self, name)(*given)
        todos = [self.look(jobs)] if name == "deadline" else []
        told = self.tell(room)
        is_idle = name == "next" and answer == Next(None, None) and not told.total
        return answer, told, [*todos, self.look_idle() if is_idle else self.look(jobs)]

    def look(self, jobs: Sequence[int]) -> Todo:
        """What the host has to do next."""
        deadline, before = self.next_deadline(), self.todo.moment
        moment = deadline.moment if deadline else NEVER
        ready = [max(0, count - coming) for count, coming in zip(self.ready_of_lanes(), jobs)]
        self.todo = Todo(moment, ready, NEWS_READY * any(ready) + NEWS_MOMENT * (moment != before))
        return self.todo

    def look_idle(self) -> Todo:
        """The same where a step had nothing to do: there is no news."""
        self.todo = self.todo._replace(news=0)
        return self.todo

    def rest(self) -> None:
        """Does nothing, so that the host only takes what is told."""

    def apply(self, event: Union[int, Event], lane: int) -> Reply:
        """Does an event, or that of a word. A stage that it attaches has this lane."""
        self.check_lane(lane)
        word = event if isinstance(event, int) else histories.word_of(event)
        known: Optional[Event] = histories.event_of(word)
        if known is None:
            raise Refused("NO_WORD")
        self.check_stages(*(known[3] if known[0] == "attach" else [] if known[0] == "tick" else [known[2]]))
        if known[0] == "attach" and self.state.room == 0:
            raise Refused("NO_ROOM")
        reply = self.do(known)
        if known[0] == "attach":
            self.lanes.append(lane)
        self.settle_relays(self.own)
        return reply

    def gather(self, who: int, form: str, sources: Sequence[int]) -> int:
        """Attaches a stage that waits for all of these, or for one of them. The first stage gathers two, and each stage behind it one more.
        It answers the last one."""
        if form not in GATHERING:
            raise Refused("NO_SUCH_NUMBER")
        self.check_caller(who)
        self.check_stages(*sources)
        if self.state.room < max(1, len(sources) - 1):
            raise Refused("NO_ROOM")
        first = root = self.attach(who, form, sources[:2])
        for source in sources[2:]:
            root = self.attach(who, form, [root, source])
        self.gathered.append(Gathered(form, list(sources), first, root, self.gathered_by(form, list(sources))))
        self.see_gathered(-1, [])
        return root

    def attach(self, who: int, form: str, sources: Sequence[int], function: Optional[int] = None, lane: int = 0) -> int:
        """Attaches a stage, and answers its number. No stage but that one settles."""
        self.do(("attach", who, form, list(sources), function))
        self.lanes.append(lane)
        return self.stages() - 1

    def compose(self, who: int, form: str, source: int, function: int, lane: int) -> Composed:
        """Attaches a relay, which is a source, and above it a compose of another stage."""
        self.check_lane(lane)
        if form not in COMPOSING:
            raise Refused("NO_SUCH_NUMBER")
        self.check_caller(who)
        if function >= MOST_FUNCTIONS:
            raise Refused("NO_WORD")
        self.check_stages(source)
        if self.state.room < 2:
            raise Refused("NO_ROOM")
        relay = self.attach(who, "source", [], None, lane)
        return Composed(relay, self.attach(who, form, [source], function, lane))

    def link(self, who: int, relay: int, held: Optional[int], stage: int) -> str:
        """Finishes the compose that the caller holds with any stage: the relay follows that one, and the compose is linked to the relay.
        It answers how the finish went."""
        if held is None:
            raise Refused("NOT_HELD")
        self.check_caller(who)
        self.check_stages(held, stage)
        if relay >= held:
            raise Refused("NO_STAGE")
        if self.state.claims[held] != who:
            raise Refused("NOT_HELD")
        self.follow(relay, stage)
        finished: str = self.do(("finish", who, held, ("link", relay)))[1]
        self.settle_relays(self.own)
        return finished

    def next(self, who: int, lane: int, held: Optional[Tuple[int, Answer]]) -> Next:
        """Finishes what the caller holds, settles relays, and claims the lowest ready stage of the lane."""
        self.check_lane(lane)
        self.check_caller(who)
        finished = None
        if held is not None:
            self.check_stages(held[0])
            if self.state.claims[held[0]] != who:
                raise Refused("NOT_HELD")
            finished = self.do(("finish", who, *held))[1]
        self.settle_relays(self.own)
        return Next(finished, self.take(who, lane))

    def take(self, who: int, lane: int) -> Optional[Taken]:
        ready = self.ready_in(lane)
        if not ready:
            return None
        granted = self.do(("claim", who, ready[0]))[1]
        return Taken(ready[0], self.state.plan.stages[ready[0]].function, granted[1])

    def follow(self, relay: int, stage: int) -> None:
        """From now on one stage follows another."""
        self.join(relay, 1, [stage])

    def join(self, stage: int, wanted: int, sources: Sequence[int], cancels: bool = False) -> None:
        """From now on a stage ends, or is cancelled, once so many of these have values, or too few can have them still."""
        if not 1 <= wanted <= len(sources):
            raise Refused("NO_QUORUM")
        self.check_stages(stage, *sources)
        self.follows.append(Join(stage, wanted, list(sources), cancels))
        self.settle_relays(self.own)

    def deadline(self, deadline: Deadline) -> None:
        """A stage has to be settled by a moment. The deadlines of settled stages are forgotten."""
        self.check_stages(deadline.stage)
        self.deadlines.append(deadline)
        self.deadlines = [it for it in self.deadlines if not self.is_settled(it.stage)]

    def pass_to(self, moment: int) -> None:
        """Lets time pass up to a moment: settles relays, then one stage after another whose deadline has come, and relays after each."""
        if moment < self.moment:
            raise Refused("PAST_MOMENT")
        self.moment = moment
        self.settle_relays(self.own)
        due = self.first_deadline()
        while due is not None and due.moment <= moment:
            self.settle(self.own, due.stage, due.outcome)
            self.settle_relays(self.own)
            due = self.first_deadline()

    def refuse(self, lane: int, code: int) -> None:
        """Nobody runs this lane any more: its ready stages fail with the code."""
        self.check_lane(lane)
        self.settle_relays(self.own)
        while self.ready_in(lane):
            self.settle(self.own, self.ready_in(lane)[0], ("fault", ("thrown", code), False))
            self.settle_relays(self.own)

    def cancel_all(self, who: int) -> None:
        """A caller cancels all stages that are open, and settles relays in its own name."""
        self.check_caller(who)
        self.settle_relays(who)
        for stage in range(self.stages()):
            if not self.is_settled(stage):
                self.settle(who, stage, model.CANCELLED)
                self.settle_relays(who)

    def grow(self) -> None:
        """Makes room for as many stages more as there are, and for 16 at least, or else for as many as the bounds let in."""
        left = self.room_left()
        if left == 0:
            raise Refused("ROOM")
        self.make_room(min(max(self.stages(), LEAST_GROWTH), left))

    def make_room(self, more: int) -> None:
        self.room += more
        self.state = self.state._replace(room=self.state.room + more)

    def do_all(self, made: Sequence[Tuple[str, Tuple[Any, ...]]]) -> Tuple[List[Any], Optional[str]]:
        """Makes calls one after another, up to the first that is refused: what they answer, and why the next one is refused, if one is."""
        answers: List[Any] = []
        for name, given in made:
            try:
                answers.append(getattr(self, name)(*given))
            except Refused as refused:
                return answers, str(refused)
        return answers, None

    def left(self) -> int:
        """How many stages are told still."""
        return len(self.told)

    def tell(self, room: int) -> Told:
        """Tells the first so many stages that were settled, in the order of the events that settled them, and those of one event rising.
        The host has taken them then."""
        told = Told(len(self.told), [(stage, self.stop(stage), self.outcome(stage)) for stage in self.told[:room]])
        del self.told[:room]
        return told

    def stop(self, stage: int) -> int:
        """The caller that has an open claim of a stage that is settled, plus 1, or 0."""
        claimant: Optional[int] = self.state.claims[stage]
        return 0 if claimant is None else claimant + 1
