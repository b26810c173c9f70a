"""Random plans from a seed, with the calls of their callers and the sizes of their desk."""
import random

import model

VALUES = [None, 0, 1, -1, 2, 7, 2**31 - 1, -(2**31)]
CODES = [0, 1, 7, 2**32 - 1]
SCRIPT_FORMS = [form for form in model.FORMS if form != "exceptionallyCompose"]
MOMENTS = [0, 1, 5, 10, 20, 2**32 - 1]


def random_function(rng, i):
    k = rng.choice([v for v in VALUES if v is not None])
    name = rng.choice(["add", "mul", "div", "neg", "sum", "const", "throw", "goto", "select", "rescue"])
    if name in ("neg", "sum"):
        return name
    if name in ("add", "mul", "div"):
        return {name: k}
    if name in ("const", "rescue"):
        return {name: rng.choice(VALUES)}
    if name == "throw":
        return {name: rng.choice(CODES)}
    stages = [rng.randrange(0, i + 2) for _ in range(2)]
    return {"goto": stages[0]} if name == "goto" else {"select": stages}


def random_stage(rng, i, forms=SCRIPT_FORMS):
    form = rng.choice(forms) if rng.random() < 0.75 else "source"
    if i == 0 and form not in model.NO_SOURCE | {"allOf", "anyOf"}:
        form = "source"
    if form in model.NO_SOURCE:
        count = 0
    elif form in ("allOf", "anyOf"):
        count = rng.randrange(0, min(i, 4) + 1)
    else:
        count = 1 if form in model.ONE_SOURCE else 2
    stage = {"form": form}
    if count:
        stage["of"] = [rng.randrange(max(0, i - 6), i) for _ in range(count)]
    if form not in ("source", "allOf", "anyOf"):
        stage["fn"] = random_function(rng, i)
        if form in model.LINKS and rng.random() < 0.7:
            stage["fn"] = {"goto": rng.randrange(0, i)}
    return stage


def random_limit(rng, n):
    limit = {"stage": rng.randrange(n), "at": rng.choice(MOMENTS), "kind": rng.choice(["timeout", "value"])}
    if limit["kind"] == "value":
        limit["value"] = rng.choice(VALUES)
    elif rng.random() < 0.7:
        limit["code"] = rng.choice(CODES)
    return limit


class Sizes:
    """A run's callers, words of the log, records of a pass, room, functions, and the stages of its plan."""

    def __init__(self, rng, callers, stages, steps):
        roomy = 9 * steps + 1
        self.callers = callers
        self.log = roomy if rng.random() < 0.8 else rng.randrange(1, steps + 1)
        self.calls = roomy if rng.random() < 0.8 else rng.randrange(1, steps // callers + 2)
        self.room = rng.choice([0, 1, 2, 4, 8, 16])
        self.named = [s["fn"] for s in stages if "fn" in s]
        self.functions = len(self.named) + rng.randrange(3)
        self.stages = len(stages)
        self.in_turn = False  # each caller has a thread that goes on by itself

    def random_stage(self, rng):
        """A stage of the plan, one that may be attached by then, or seldom one that never is."""
        if self.room == 0 or rng.random() < 0.6:
            return rng.randrange(self.stages) if rng.random() < 0.98 else self.stages + self.room
        return self.stages + min(rng.randrange(self.room), rng.randrange(self.room + 1))


def random_attach(rng, sizes):
    form = rng.choice(model.FORMS)
    if form in ("allOf", "anyOf"):
        count = rng.randrange(3)
    else:
        count = 0 if form in model.NO_SOURCE else 1 if form in model.ONE_SOURCE else 2
    function = None
    if form not in ("source", "allOf", "anyOf"):
        function = rng.randrange(max(1, sizes.functions))
        links = [n for n, f in enumerate(sizes.named) if "goto" in f or "select" in f]
        if form in model.LINKS and links and rng.random() < 0.7:
            function = rng.choice(links)
    if rng.random() < 0.08:
        count = rng.randrange(3)
    if rng.random() < 0.05:
        function = rng.choice([None, 0, sizes.functions, 4096, 65535])
    sources = [sizes.random_stage(rng) for _ in range(count)]
    return ["attach", form, sources] + ([] if function is None else [function])


def random_step(rng, sizes, attaches):
    kind = rng.choices(
        ["complete", "fail", "cancel", "claim", "finish", "tick", "now", "outcome", "work", "ready", "attach", "failAs"],
        [8, 2, 2, 8, 8, 2, 4, 6, 3, 1, attaches, 2],
    )[0]
    i = sizes.random_stage(rng)
    if kind == "complete":
        return [kind, i, rng.choice(VALUES)]
    if kind == "fail":
        return [kind, i, rng.choice(CODES)]
    if kind == "failAs":
        return [kind, i, rng.choice(["timeout", "badanswer"]), rng.choice(CODES)]
    if kind in ("cancel", "outcome", "claim"):
        return [kind, i]
    if kind == "finish":
        answer = rng.choice([{"give": rng.choice(VALUES)}, {"throw": rng.choice(CODES)}, {"link": rng.randrange(i + 2)}])
        return [kind, i, answer]
    if kind == "tick":
        return [kind, rng.choice(MOMENTS[:-1])]
    if kind == "now":
        return [kind, i, rng.choice(VALUES)]
    return random_attach(rng, sizes) if kind == "attach" else [kind]


def random_run(seed, forms=SCRIPT_FORMS):
    """A script of these forms with its calls, and the sizes that it is run with."""
    rng = random.Random(seed)
    n = rng.randrange(1, 16)
    stages = [random_stage(rng, i, forms) for i in range(n)]
    limits = [random_limit(rng, n) for _ in range(rng.choice([0, 0, 1, 3]))]
    callers = seed % 16 + 1
    count = rng.randrange(1, 121)
    sizes = Sizes(rng, callers, stages, count)
    attaches = rng.choice([0, 6, 6, 12])
    steps = [random_step(rng, sizes, attaches) for _ in range(count)]
    for k, step in enumerate(steps):
        if step[0] == "claim" and k + callers < count and rng.random() < 0.5:
            steps[k + callers] = ["finish", step[1], {"give": rng.choice(VALUES)}]
    return {"cf": 1, "stages": stages, "limits": limits, "calls": steps}, sizes
