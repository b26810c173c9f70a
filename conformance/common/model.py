"""The sequential graph, written plainly over the definitions of docs/MODEL.md, and scripts run on it.

Nothing here is taken from the product's code. At each event the whole state is made anew, by recursion on stage numbers.

Values are None (nil) or an int. An outcome is ("value", v) or ("fault", cause, wrapped), a cause ("thrown", code),
("cancelled",), ("timeout", code) or ("badanswer", code), the last two without a code where it is 0. A state of a stage is
("pending",), ("ready", args), ("claimed",), ("linked", j) or ("settled", outcome). Arguments are ("none",), ("one", v),
("two", v, w) or ("got", outcome). An answer is ("give", v), ("throw", code) or ("link", j). An event is (kind, who, ...):
complete who i v, fail who i code, failAs who i name code, cancel who i, claim who i, finish who i answer, tick who now,
attach who form sources function. A function is its number.

conformance/common/reading.py says which scripts are right.
"""
from collections import namedtuple

Stage = namedtuple("Stage", "form sources function")
Limit = namedtuple("Limit", "stage at outcome")
Plan = namedtuple("Plan", "stages limits")
State = namedtuple("State", "plan room stages claims last used")

NO_SOURCE = {"source", "supply", "runAsync"}
ONE_SOURCE = {"apply", "accept", "thenRun", "compose", "handle", "whenComplete", "exceptionally", "exceptionallyCompose"}
BOTH = {"combine", "acceptBoth", "runBoth"}
EITHER = {"applyEither", "acceptEither", "runEither"}
GIVES_VALUE = {"supply", "apply", "combine", "applyEither", "handle", "exceptionally"}
GIVES_NIL = {"runAsync", "accept", "thenRun", "acceptBoth", "runBoth", "acceptEither", "runEither"}
TELLS_FAULT = {"exceptionally", "exceptionallyCompose"}
LINKS = {"compose", "exceptionallyCompose"}
FORMS = sorted(NO_SOURCE | ONE_SOURCE | BOTH | EITHER | {"allOf", "anyOf"})
BAD_ANSWER = ("fault", ("badanswer",), True)
CANCELLED = ("fault", ("cancelled",), False)


def caused(name, code=0):
    """The cause of a time-out or of a bad answer. A code of 0 is left out."""
    return (name, code) if code else (name,)


def wrap(outcome):
    return outcome if outcome[0] == "value" else ("fault", outcome[1], True)


def due_one(form, outcome):
    """What a stage with one source takes from it, or an either form from the source that decides."""
    if form in ("handle", "whenComplete"):
        return ("needs", ("got", outcome))
    if outcome[0] == "fault":
        return ("needs", ("got", outcome)) if form in TELLS_FAULT else ("settles", wrap(outcome))
    if form in TELLS_FAULT:
        return ("settles", outcome)
    if form in ("thenRun", "runEither"):
        return ("needs", ("none",))
    return ("needs", ("one", outcome[1]))


def follows(form, q):
    """What a stage takes from its sources, of which q lists the outcomes, None where there is none yet."""
    if form == "source":
        return ("waits",)
    if form in ("supply", "runAsync"):
        return ("needs", ("none",))
    there = [o for o in q if o is not None]
    if form in ONE_SOURCE or form in EITHER:
        return due_one(form, there[0]) if there else ("waits",)
    if form == "anyOf":
        return ("settles", wrap(there[0])) if there else ("waits",)
    if len(there) < len(q):
        return ("waits",)
    for o in q:
        if o[0] == "fault":
            return ("settles", wrap(o))
    if form == "allOf":
        return ("settles", ("value", None))
    if form == "runBoth":
        return ("needs", ("none",))
    return ("needs", ("two", q[0][1], q[1][1]))


def landing(form, i, source, answer):
    """Where an answer of stage i's function leads; source is the outcome of its first source."""
    if form == "whenComplete" and source is not None and source[0] == "fault":
        return ("settles", wrap(source))
    if answer[0] == "throw":
        return ("settles", ("fault", ("thrown", answer[1]), True))
    if form in LINKS:
        if answer[0] == "link" and answer[1] < i:
            return ("links", answer[1])
        return ("settles", BAD_ANSWER)
    if answer[0] == "link":
        return ("settles", BAD_ANSWER)
    if form == "whenComplete":
        return ("settles", source)
    return ("settles", ("value", answer[1] if form in GIVES_VALUE else None))


def outcome(state, i):
    s = state.stages[i]
    return s[1] if s[0] == "settled" else None


def after(state, settled=None, with_outcome=None):
    """The state in which one stage is settled, or none, and all others take what their sources then give them."""
    new = []

    def now(j):
        return new[j][1] if new[j][0] == "settled" else None

    for i, old in enumerate(state.stages):
        if old[0] == "settled":
            new.append(old)
        elif i == settled:
            new.append(("settled", with_outcome))
        elif old[0] == "linked":
            target = now(old[1])
            new.append(old if target is None else ("settled", wrap(target)))
        elif old[0] == "pending":
            due = follows(state.plan.stages[i].form, [now(j) for j in state.plan.stages[i].sources])
            if due[0] == "settles":
                new.append(("settled", due[1]))
            elif due[0] == "needs":
                new.append(("ready", due[1]))
            else:
                new.append(old)
        else:
            new.append(old)
    return state._replace(stages=tuple(new))


def start(plan, room=0):
    n = len(plan.stages)
    return after(State(plan, room, (("pending",),) * n, (None,) * n, 0, 0))


def put(items, i, item):
    return items[:i] + (item,) + items[i + 1 :]


def fits_form(form, sources, has_function):
    """Whether a stage of this form may have so many sources, and a function or none."""
    if form in ("allOf", "anyOf"):
        return not has_function
    count = 0 if form in NO_SOURCE else 1 if form in ONE_SOURCE else 2
    return sources == count and has_function == (form != "source")


def attach(state, form, sources, function):
    """The state with a stage more, which is pending at first and then takes what its sources give, as all others do."""
    if state.room == 0:
        return ("attach", None), state
    i = len(state.stages)
    assert fits_form(form, len(sources), function is not None) and all(j < i for j in sources), "a bad stage is attached"
    plan = state.plan._replace(stages=state.plan.stages + (Stage(form, sources, function),))
    stages, claims = state.stages + (("pending",),), state.claims + (None,)
    return ("attach", i), after(state._replace(plan=plan, room=state.room - 1, stages=stages, claims=claims))


def answered(state, event):
    """The reply to an event, and the state that it leaves."""
    kind, who = event[0], event[1]
    if kind == "tick":
        return tick(state, event[2])
    if kind == "attach":
        return attach(state, *event[2:])
    i = event[2]
    held = state.stages[i]
    if kind in ("complete", "fail", "failAs", "cancel"):
        if held[0] == "settled":
            return ("flag", kind == "cancel" and held[1] == CANCELLED), state
        if kind == "complete":
            o = ("value", event[3])
        elif kind == "fail":
            o = ("fault", ("thrown", event[3]), False)
        elif kind == "failAs":
            o = ("fault", caused(*event[3:]), False)
        else:
            o = CANCELLED
        return ("flag", True), after(state, i, o)
    if kind == "claim":
        if held[0] == "ready":
            stages, claims = put(state.stages, i, ("claimed",)), put(state.claims, i, who)
            return ("claim", ("granted", held[1])), state._replace(stages=stages, claims=claims)
        names = {"settled": "settled", "claimed": "taken", "linked": "taken", "pending": "notready"}
        return ("claim", (names[held[0]],)), state
    assert kind == "finish"
    if state.claims[i] != who:
        return ("finish", "notyours"), state
    state = state._replace(claims=put(state.claims, i, None))
    if held[0] == "settled":
        return ("finish", "late"), state
    stage = state.plan.stages[i]
    source = outcome(state, stage.sources[0]) if stage.sources else None
    land = landing(stage.form, i, source, event[3])
    if land[0] == "settles":
        return ("finish", "won"), after(state, i, land[1])
    target = outcome(state, land[1])
    if target is not None:
        return ("finish", "won"), after(state, i, wrap(target))
    return ("finish", "won"), state._replace(stages=put(state.stages, i, ("linked", land[1])))


def tick(state, now):
    if now < state.last:
        return ("tick", ("past",)), state
    fired, used, limits = 0, state.used, state.plan.limits
    while used < len(limits) and limits[used].at <= now:
        limit = limits[used]
        if outcome(state, limit.stage) is None:
            state = after(state, limit.stage, limit.outcome)
            fired += 1
        used += 1
    return ("tick", ("fired", fired)), state._replace(last=now, used=used)


def now_of(o, absent):
    if o is None:
        return ("absent", absent)
    if o[0] == "value":
        return ("value", o[1])
    return ("cancellation",) if o == CANCELLED else ("completion", o[1])


def lowest_ready(state):
    return next((i for i, s in enumerate(state.stages) if s[0] == "ready"), None)


# Functions as scripts write them.


def int32(n):
    return (n + 2**31) % 2**32 - 2**31


def number(v):
    return 0 if v is None else v


def first_argument(args):
    if args[0] in ("one", "two"):
        return args[1]
    return args[1][1] if args[0] == "got" and args[1][0] == "value" else None


def answer(functions, state, i, args):
    """What the function of a stage answers, and nil where its number is one of no function."""
    n = state.plan.stages[i].function
    return call(functions[n], args) if n < len(functions) else ("give", None)


def call(function, args):
    """What a function answers. A function is the JSON that writes it."""
    name, k = (function, None) if isinstance(function, str) else next(iter(function.items()))
    if name == "const":
        return ("give", k)
    if name == "throw":
        return ("throw", k)
    if name == "goto":
        return ("link", k)
    fault = args[1][1] if args[0] == "got" and args[1][0] == "fault" else None
    if name == "rescue":
        return ("give", k if fault else first_argument(args))
    if fault:
        return ("throw", fault[1] if fault[0] == "thrown" else 0)
    x = number(first_argument(args))
    if name == "add":
        return ("give", int32(x + k))
    if name == "mul":
        return ("give", int32(x * k))
    if name == "div":
        if k == 0:
            return ("throw", 0)
        q = abs(x) // abs(k)
        return ("give", int32(-q if (x < 0) != (k < 0) else q))
    if name == "neg":
        return ("give", int32(-x))
    if name == "sum":
        return ("give", int32(x + number(args[2])) if args[0] == "two" else x)
    assert name == "select"
    return ("link", k[0] if x == 0 else k[1])


# Scripts.


def stage_of(said, functions):
    """The stage that an object asks for. Its function, if it has one, is put behind the others."""
    number = len(functions) if "fn" in said else None
    functions += [said["fn"]] if "fn" in said else []
    return Stage(said["form"], tuple(said.get("of", [])), number)


def plan_of(script):
    """The plan of a script that is right, and its functions by their numbers."""
    functions = []
    stages = [stage_of(s, functions) for s in script["stages"]]
    limits = [
        Limit(m["stage"], m["at"], ("fault", caused("timeout", m.get("code", 0)), False) if m["kind"] == "timeout" else ("value", m["value"]))
        for m in script.get("limits", [])
    ]
    return Plan(tuple(stages), tuple(sorted(limits, key=lambda m: m.at))), functions


def room_of(script):
    """For how many stages more a script has room. In the first version it has none, whatever stands there."""
    return script.get("room", 0) if script["cf"] >= 2 else 0


def answer_of(said):
    name, content = next(iter(said.items()))
    return (name, content)


def work(functions, state, who=63):
    """Calls the functions of ready stages, the lowest first, and says how many; with the events that were made."""
    events = []
    while (i := lowest_ready(state)) is not None:
        claim = ("claim", who, i)
        reply, state = answered(state, claim)
        finish = ("finish", who, i, answer(functions, state, i, reply[1][1]))
        state = answered(state, finish)[1]
        events += [claim, finish]
    return events, state


def failing(who, step):
    """The event of a caller's step failAs. Its code is 0 where the step has none."""
    return ("failAs", who, step[1], step[2], step[3] if len(step) > 3 else 0)


def event_of(step, functions):
    """The event that a step of a script is. The function of an attach counts on, also where there is no room."""
    if step[0] == "attach":
        return ("attach", 0) + tuple(stage_of(step[1], functions))
    if step[0] == "claim":
        return ("claim", step[1], step[2])
    if step[0] == "finish":
        return ("finish", step[1], step[2], answer_of(step[3]))
    if step[0] == "failAs":
        return failing(0, step)
    return (step[0], 0) + tuple(step[1:])


def do(state, step, functions):
    """The line of a step of a script, and the state that it leaves."""
    kind = step[0]
    if kind == "work":
        events, state = work(functions, state)
        return f"worked {len(events) // 2}", state
    if kind == "nudge":
        return "nudged", state
    if kind == "now":
        return now_text(now_of(outcome(state, step[1]), step[2] if len(step) > 2 else None)), state
    if kind == "outcome":
        return settled_text(outcome(state, step[1])), state
    reply, state = answered(state, event_of(step, functions))
    return reply_text(reply), state


def run(script):
    """The report of a script that is right, line by line."""
    plan, functions = plan_of(script)
    state = start(plan, room_of(script))
    lines = []
    for step in script.get("steps", []):
        line, state = do(state, step, functions)
        lines.append(line)
    return lines + stage_lines(state)


def race(script):
    """The report of a race with one worker, or of a plain script's with any number: the steps, then one caller's work."""
    plan, functions = plan_of(script)
    state = start(plan, room_of(script))
    for step in script.get("steps", []):
        state = answered(state, event_of(step, functions))[1]
    return stage_lines(work(functions, state)[1])


def stage_lines(state):
    return [f"stage {i} {settled_text(outcome(state, i))}" for i in range(len(state.stages))]


# Texts.


def value_text(v):
    return "nil" if v is None else str(v)


def cause_text(cause):
    return " ".join(str(word) for word in cause)


def outcome_text(o):
    if o[0] == "value":
        return f"value {value_text(o[1])}"
    return f"fault {cause_text(o[1])} {'wrapped' if o[2] else 'raw'}"


def settled_text(o):
    return "pending" if o is None else outcome_text(o)


def now_text(now):
    if now[0] in ("absent", "value"):
        return f"{now[0]} {value_text(now[1])}"
    return "cancellation" if now[0] == "cancellation" else f"completion {cause_text(now[1])}"


def args_text(args):
    if args[0] == "got":
        return f"got {outcome_text(args[1])}"
    return " ".join([args[0]] + [value_text(v) for v in args[1:]])


def reply_text(reply):
    kind, said = reply
    if kind == "flag":
        return "true" if said else "false"
    if kind == "claim":
        return f"granted {args_text(said[1])}" if said[0] == "granted" else said[0]
    if kind == "finish":
        return said
    if kind == "attach":
        return "stagesfull" if said is None else f"attached {said}"
    return " ".join(str(word) for word in said)
