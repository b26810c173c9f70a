"""Random plans by number: the same number always gives the same plan."""
import functools
import json
import os
import random

import process  # noqa: F401 (for the path)

from cf.service import Flow

ONE = ["apply", "apply", "apply", "accept", "thenRun", "handle", "whenComplete", "exceptionally", "compose"]
TWO = ["combine", "combine", "acceptBoth", "runBoth", "applyEither", "acceptEither", "runEither"]
STAGES = int(os.environ.get("STAGES", "0"))


@functools.lru_cache(64)
def plan_of(number):
    """The text of a request's plan, as stores keep it."""
    rng = random.Random(number)
    stages = []
    for k in range(STAGES or rng.randint(6, 14)):
        pick, said = rng.random(), {"name": f"s{k}"}
        if k < 2 or pick < 0.1:
            said["form"] = "source" if rng.random() < 0.6 else "supply"
        elif pick < 0.55:
            said.update(form=rng.choice(ONE), of=[rng.randrange(k)])
        elif pick < 0.85:
            said.update(form=rng.choice(TWO), of=[rng.randrange(k), rng.randrange(k)])
        else:
            said.update(form=rng.choice(["allOf", "anyOf"]), of=[rng.randrange(k) for _ in range(rng.randint(1, 3))])
        stages.append(said)
    return json.dumps({"cf": 3, "flow": f"plan {number}", "stages": stages})


def kinds_of(is_transactional):
    """The functions that stages of mixed requests may call."""
    return ["inside", "inside", "outside", "outside", "outside"] if is_transactional else ["outside"]


def is_flow(number):
    """Whether the mixed request of a number has a plan. Else its stages are all attached."""
    return random.Random(number).random() < 0.7


def flow_of(number, mark, functions, kinds):
    """The flow of a mixed request. `mark` tells it from others of its name. Functions are told where they stand. Of each two plans one has
    two stages that are ready at once, one of them with the first of the kinds; each stage may have further tries."""
    rng, flow, steps = random.Random(number), Flow(f"mixed {number}.{mark}"), []
    rng.random()  # (which `is_flow` took)
    for k in range(rng.randint(4, 8)):
        call = functools.partial(functions.find(kinds[0] if k == number % 4 else rng.choice(kinds), 1).call, where=f"{number}.{mark}/{k}")
        pick, some = rng.random(), [rng.choice(steps) for _ in range(3)] if steps else []
        if k < 2 and number % 2 or not k and pick < 0.5 or pick < 0.1:
            step = flow.supply(call)
        elif not k or pick < 0.2:
            step = flow.promise("alarm" if k and rng.random() < 0.4 else "promise")
        elif pick < 0.3:
            step = rng.choice([flow.all_of, flow.first_of, flow.gather])(*some)
        elif pick < 0.45:
            step = rng.choice([some[0].combine, some[0].either])(some[1], call)
        else:
            step = getattr(some[0], rng.choice(["then", "then", "then", "handle", "handle", "when_done", "recover"]))(call)
        if flow._rows[step.number][2] is call and rng.random() < 0.6:
            step = step.again(rng.choice([1, 2, 4]))
        steps.append(step)
    return flow
