"""Random requests and calls of their hosts, from a seed, and what two machines are told by the same call.

A call is the name of a method of `machine.Machine`, what it is called with, how many stages may be told then, and how many jobs its host
has on their way in each lane.
"""
import random
from collections import Counter
from typing import Any, Dict, Iterator, List, NamedTuple, Optional, Tuple, Union

import histories
import machine
import model
import random_runs

Request = Any  # a `machine.Machine`, or what has the same methods: a `library.Library`
KINDS = {
    "next": 36.0,
    "apply": 26,
    "pass_to": 5,
    "deadline": 6,
    "follow": 8,
    "rest": 2,
    "refuse": 2,
    "ready": 1,
    "cancel_all": 0.5,
    "restart": 0.5,
    "grow": 1,
    "do_all": 6,
    "gather": 4,
    "compose": 5,
    "link": 5,
    "join": 6,
}
OFTEN = ["next", "apply", "pass_to", "deadline", "follow", "rest", "refuse", "gather", "compose", "link", "join"]  # one comes more often
EVENTS = {"complete": 9, "fail": 2, "failAs": 1.5, "cancel": 1.5, "claim": 2, "finish": 1.5, "tick": 1, "attach": 11, "word": 0.7}
IN_ONE = {"next": 3, "apply": 5, "follow": 1, "deadline": 1, "pass_to": 0.5, "refuse": 0.1, "cancel_all": 0.05}  # calls of a `do_all`
FORMS = model.FORMS + ["compose", "compose", "exceptionallyCompose"]  # so that more stages link
NO_WORDS = [0, 1, 2**56, 2**63, 2**64 - 1, 7 * 2**56 + 15 * 2**32, 3 * 2**56 + 1, 9 * 2**56]
LAST = 2**64 - 1


class Call(NamedTuple):
    name: str
    given: Tuple[Any, ...]
    room: int
    jobs: List[int]


class Opening(NamedTuple):
    """What a request is opened with."""

    plan: Any
    room: int
    lanes: List[int]
    of_lanes: int  # how many there are
    own: int  # the machine's own caller


class Difference(Exception):
    """What the library tells, and what the plain machine does."""


def random_plan(rng: random.Random) -> Any:
    size = rng.randrange(*rng.choices([(1, 17), (17, 65), (65, 301)], [90, 8, 2])[0])
    stages = [random_runs.random_stage(rng, i, FORMS) for i in range(size)]
    limits = [random_runs.random_limit(rng, size) for _ in range(rng.choice([0, 0, 0, 2]))]
    return model.plan_of({"stages": stages, "limits": limits})[0]


def random_opening(rng: random.Random) -> Opening:
    plan, count = random_plan(rng), rng.choice([1, 2, 2, 3, 16])
    lanes = [rng.randrange(count) for _ in plan.stages]
    room = rng.choice([0, 4, 16, 40])
    if rng.random() < 0.1:
        room = machine.MOST_STAGES - len(lanes) - rng.choice([0, 0, 1, 2, 15, 20])  # so that little or no more comes in
    return Opening(plan, room, lanes, count, rng.choice([63, 63, 8, 0]))


def wrong_openings(rng: random.Random, opening: Opening) -> Iterator[Opening]:
    """Openings that are refused, for one reason or for several."""
    lanes = opening.lanes
    spoilt: List[Dict[str, Any]] = [
        {"lanes": lanes[:-1]},
        {"lanes": lanes + [0]},
        {"lanes": lanes[:-1] + [opening.of_lanes]},
        {"of_lanes": 0},
        {"of_lanes": 17},
        {"own": 64},
        {"own": 255},
        {"room": 4097 - len(lanes)},
        {"room": 65535},
    ]
    for _ in range(2):
        changes: Dict[str, Any] = {}
        for more in rng.sample(spoilt, rng.choice([1, 1, 2])):
            changes.update(more)
        yield opening._replace(**changes)


class Draws:
    """Draws the calls of a request's threads, each of which is the caller of its number. It looks at the plain machine, so that most calls
    do something; some are wrong."""

    def __init__(self, rng: random.Random, plain: machine.Machine) -> None:
        self.rng, self.plain = rng, plain
        self.kinds = dict(KINDS)
        self.kinds[rng.choice(OFTEN)] *= 6

    def seldom(self) -> bool:
        return self.rng.random() < 0.03

    def one_of(self, weights: Dict[str, Any]) -> str:
        return self.rng.choices(list(weights), list(weights.values()))[0]

    def stage(self) -> int:
        """A stage, mostly an open one, and seldom one that isn't there."""
        if self.seldom():
            return self.rng.choice([self.plain.stages(), self.plain.stages() + 1, 4095])
        return self.open_below(self.plain.stages())

    def open_below(self, end: int) -> int:
        """A stage below a number, mostly an open one if there is one."""
        is_open = [i for i in range(end) if not self.plain.is_settled(i)]
        return self.rng.choice(is_open) if is_open and self.rng.random() < 0.8 else self.rng.randrange(end)

    def source(self) -> int:
        """Mostly an open stage that has no function, since another may never be ready once it is settled."""
        stages = self.plain.state.plan.stages
        found = [i for i in range(len(stages)) if stages[i].form == "source" and not self.plain.is_settled(i)]
        return self.rng.choice(found) if found and self.rng.random() < 0.8 else self.stage()

    def lane(self) -> int:
        """A lane, mostly one in which a stage is ready if there is one, and seldom one that isn't there."""
        if self.seldom():
            return self.rng.choice([self.plain.count, 17, 255])
        ready = [lane for lane, count in enumerate(self.plain.ready_of_lanes()) if count]
        return self.rng.choice(ready) if ready and self.rng.random() < 0.7 else self.rng.randrange(self.plain.count)

    def caller(self, thread: int) -> int:
        return self.rng.choice([0, 7, 8, 63, 64, 255]) if self.seldom() else thread

    def answer(self, stage: int) -> machine.Answer:
        """An answer of a stage's function, which links if the form does, and seldom else."""
        form = self.plain.state.plan.stages[stage].form if stage < self.plain.stages() else "source"
        if stage and form in model.LINKS and self.rng.random() < 0.7:
            return ("link", self.open_below(min(stage, self.plain.stages())))
        if self.rng.random() < 0.05:
            return ("link", self.rng.randrange(stage + 2))
        throws = self.rng.random() < 0.2
        return ("throw", self.rng.choice(random_runs.CODES)) if throws else ("give", self.rng.choice(random_runs.VALUES))

    def held(self, who: int) -> Optional[Tuple[int, machine.Answer]]:
        """What a caller holds: mostly a stage that it claimed, if it did, and seldom any."""
        own = [i for i, claimant in enumerate(self.plain.state.claims) if claimant == who]
        if self.seldom():
            own = [self.stage()]
        if not own or self.rng.random() < 0.15:
            return None
        stage = self.rng.choice(own)
        return stage, self.answer(stage)

    def outcome(self) -> machine.Outcome:
        if self.rng.random() < 0.5:
            return ("value", self.rng.choice(random_runs.VALUES))
        return ("fault", model.caused("timeout", self.rng.choice(random_runs.CODES)), False)

    def moment(self) -> int:
        """A moment near the last one, seldom before it, and very seldom the last of all."""
        if self.rng.random() < 0.002:
            return LAST
        return max(0, min(LAST, self.plain.moment + self.rng.choice([-1, 0, 0, 1, 1, 2, 3, 5, 9, 20])))

    def attached(self) -> Tuple[Any, ...]:
        """The form, sources and function of a stage that fits its form."""
        form = self.rng.choice(FORMS)
        any_number = form in ("allOf", "anyOf")
        count = self.rng.randrange(3) if any_number else 0 if form in model.NO_SOURCE else 1 if form in model.ONE_SOURCE else 2
        return form, tuple(self.stage() for _ in range(count)), None if any_number or form == "source" else self.rng.randrange(9)

    def gathered(self, who: int) -> Tuple[int, str, List[int]]:
        """Who gathers which stages, mostly few, one of which may stand twice."""
        count = self.rng.choice([0, 1, 2, 2, 3, 3, 4, 5, 9, 17])
        form = self.rng.choice(FORMS if self.seldom() else machine.GATHERING)
        return who, form, [self.rng.randrange(self.plain.stages()) if self.rng.random() < 0.1 else self.stage() for _ in range(count)]

    def joined(self) -> Tuple[int, int, List[int], bool]:
        """Which stage joins which others, mostly few, one of which may stand twice, how many of these it wants, and whether it cancels."""
        count = self.rng.choice([1, 2, 2, 3, 3, 4, 5, 9])
        wanted = self.rng.choice([0, count + 1, 65535]) if self.seldom() else self.rng.choice([1, count, self.rng.randrange(count) + 1])
        sources = [self.stage() for _ in range(0 if self.seldom() else count)]
        sources = [self.rng.choice(sources) if self.rng.random() < 0.1 else it for it in sources]
        return self.source(), wanted, sources, self.rng.random() < 0.3

    def composed(self, who: int) -> Tuple[int, str, int, int, int]:
        """Who attaches a compose, its form, mostly an open source, its function and its lane."""
        form = self.rng.choice(FORMS if self.seldom() else machine.COMPOSING)
        return who, form, self.stage(), self.rng.choice([4095, 4096, 65535]) if self.seldom() else self.rng.randrange(9), self.lane()

    def linked(self, who: int) -> Tuple[int, int, Optional[int], int]:
        """Who links which compose to which stage, mostly one that it holds, by the source below it, to one that is open and often higher."""
        forms = [stage.form for stage in self.plain.state.plan.stages]
        own = [i for i, claimant in enumerate(self.plain.state.claims) if claimant == who]
        composes = [i for i in own if i and forms[i] in machine.COMPOSING and forms[i - 1] == "source"]
        if self.seldom():
            return who, self.stage(), None if self.seldom() else self.stage(), self.stage()
        held = self.rng.choice(composes or own) if composes or own else self.stage()
        return who, max(0, held - 1) if self.rng.random() < 0.9 else self.stage(), held, held if self.seldom() else self.stage()

    def event(self, who: int) -> Union[int, machine.Event]:
        kind = self.one_of(EVENTS)
        if kind == "word":
            return self.rng.choice(NO_WORDS)
        if kind == "tick":
            return (kind, who, self.rng.choice(random_runs.MOMENTS[:-1]))
        if kind == "attach":
            return (kind, who, *self.attached())
        stage = self.source() if kind == "complete" else self.stage()
        rest: Tuple[Any, ...] = ()
        if kind == "complete":
            rest = (self.rng.choice(random_runs.VALUES),)
        elif kind == "fail":
            rest = (self.rng.choice(random_runs.CODES),)
        elif kind == "failAs":
            rest = (self.rng.choice(histories.FAILURES), self.rng.choice(random_runs.CODES))
        elif kind == "finish":
            rest = (self.answer(stage),)
        return (kind, who, stage, *rest)

    def room(self) -> int:
        """For how many stages there is room, mostly for all."""
        return self.rng.choice([0, 1, 2, 5]) if self.rng.random() < 0.2 else 64

    def jobs(self) -> List[int]:
        """How many jobs are on their way in each lane: mostly as many as stages are ready, or a few."""
        if self.rng.random() < 0.3:
            return self.plain.ready_of_lanes()
        return [self.rng.choice([0, 0, 0, 1, 1, 2, 5, 65535]) for _ in range(self.plain.count)]

    def call(self, thread: int) -> Call:
        """The next call, which this thread makes."""
        who, kind = self.caller(thread), self.one_of(self.kinds)
        if self.rng.random() < 0.1 and all(self.plain.is_settled(i) for i in range(self.plain.stages())):
            kind = "restart"
        return Call(kind, self.given(kind, who), self.room(), self.jobs())

    def given(self, kind: str, who: int) -> Tuple[Any, ...]:
        """What a call of this kind is given."""
        if kind == "next":
            return who, self.lane(), self.held(who)
        if kind == "gather":
            return self.gathered(who)
        if kind == "compose":
            return self.composed(who)
        if kind == "link":
            return self.linked(who)
        if kind == "apply":
            return self.event(who), self.lane()
        if kind == "follow":
            return self.stage(), self.stage()
        if kind == "join":
            return self.joined()
        if kind == "deadline":
            return (machine.Deadline(self.stage(), self.moment(), self.outcome()),)
        if kind == "pass_to":
            return (self.moment(),)
        if kind == "refuse":
            return self.lane(), self.rng.choice(random_runs.CODES)
        if kind == "ready":
            return (self.lane(),)
        if kind == "do_all":
            kinds = [self.one_of(IN_ONE) for _ in range(self.rng.choice([0, 1, 2, 2, 3, 5]))]
            return ([(it, self.given(it, who)) for it in kinds],)
        return (who,) if kind == "cancel_all" else ()


def answer_of(request: Request, call: Call) -> Any:
    """What a call is answered with what it tells, or why it is refused."""
    try:
        return request.call(*call)
    except machine.Refused as refused:
        return ("refused", str(refused))


def seen(request: Request) -> Dict[str, Any]:
    """What a host sees of a request after each call."""
    return {
        "how many are told still": request.left(),
        "the next deadline": request.next_deadline(),
        "the numbers of ready stages": request.ready_of_lanes(),
    }


def compare(what: str, told: Any, wanted: Any) -> None:
    if told != wanted:
        raise Difference(f"{what}: the library tells {told!r}, and the plain machine {wanted!r}")


def make(call: Call, request: Request, plain: machine.Machine) -> Any:
    """Makes a call of both, compares what they tell then, and gives the answer."""
    wanted = answer_of(plain, call)
    compare("its answer", answer_of(request, call), wanted)
    told, known = seen(request), seen(plain)
    for name, value in known.items():
        compare(name, told[name], value)
    return wanted


def opened(request: Any, opening: Opening) -> Any:
    """Why an opening is refused, if it is."""
    try:
        request(opening).close()
        return None
    except machine.Refused as refused:
        return str(refused)


def compare_openings(rng: random.Random, opening: Opening, request: Any, plain: Any) -> "Counter[str]":
    """Compares wrong openings, by few of the seeds."""
    counts: "Counter[str]" = Counter()
    for wrong in wrong_openings(rng, opening) if rng.random() < 0.1 else []:
        why = opened(plain, wrong)
        compare(f"opening by {wrong[1:]}", opened(request, wrong), why)
        counts[f"opening refused for {why}"] += 1
    return counts


def kinds_of(call: Call, answer: Any) -> List[str]:
    """What came up by a call: its kind, how it was refused, and that stages were told."""
    if answer[0] == "refused":
        return [call.name, f"{call.name} refused for {answer[1]}"]
    return [call.name, "told"] if answer[1].taken else [call.name]


def compare_ends(request: Request, plain: machine.Machine) -> None:
    """The words and the stages are the same, and done to a new ledger the words leave the same stages."""
    words = plain.words()
    compare("the words", request.words(), words)
    compare("the stages", request.kept(), plain.kept())
    compare("the stages that the words leave", request.kept_by(words), plain.kept_by(words))
