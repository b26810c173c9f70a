"""Makes a script smaller while it still shows the same thing."""
import json

import reading

PLAIN_FUNCTIONS = ({"const": None}, {"const": 1}, {"rescue": 1}, {"goto": 0}, {"throw": 1})


def copy(script):
    return json.loads(json.dumps(script))


def all_stages(script):
    """The stages of a script, and those that its steps attach."""
    return script["stages"] + [step[1] for step in script["steps"] if step[0] == "attach"]


def size(script):
    """How large a script is. There is no endless row of smaller and smaller ones."""
    text = json.dumps(script)
    parts = len(script["stages"]) + len(script["steps"]) + len(script.get("limits", []))
    return parts, sum(stage["form"] != "source" for stage in all_stages(script)), len(text), text


def is_right(script):
    try:
        reading.checked(reading.read(json.dumps(script).encode()))
        return True
    except reading.Fault:
        return False


def named(step):
    """Where a step has the number of a stage, None where it has none."""
    return 2 if step[0] in ("claim", "finish") else None if step[0] in ("tick", "work", "nudge", "attach") else 1


def without_stage(script, i):
    """The script without stage i and the steps and limits that name it; those above it have the next lower number."""
    new = copy(script)
    gone = all_stages(new)[i]

    def moved(n):
        return n - 1 if n > i else n

    new["stages"] = [stage for stage in new["stages"] if stage is not gone]
    new["steps"] = [s for s in new["steps"] if not (s[0] == "attach" and s[1] is gone or named(s) and s[named(s)] == i)]
    new["limits"] = [m for m in new.get("limits", []) if m["stage"] != i]
    for limit in new["limits"]:
        limit["stage"] = moved(limit["stage"])
    for step in new["steps"]:
        if named(step):
            step[named(step)] = moved(step[named(step)])
        if step[0] == "finish" and "link" in step[3]:
            step[3]["link"] = moved(step[3]["link"])
    for stage in all_stages(new):
        if "of" in stage:
            stage["of"] = [moved(n) for n in stage["of"]]
        name, k = next(iter(stage["fn"].items())) if isinstance(stage.get("fn"), dict) else (None, None)
        if name in ("goto", "select"):
            stage["fn"] = {name: moved(k) if name == "goto" else [moved(n) for n in k]}
    return new


def with_stage(script, i, stage):
    new = copy(script)
    old = all_stages(new)[i]
    old.clear()
    old.update(stage)
    return new


def plainer_stages(script, i):
    """The script with a plainer stage in the place of stage i."""
    stages = all_stages(script)
    stage = stages[i]
    yield with_stage(script, i, {"form": "source"})
    yield with_stage(script, i, {"form": "anyOf", "of": stage.get("of", [])})
    for k, n in enumerate(stage.get("of", [])):
        of = stage["of"]
        yield with_stage(script, i, dict(stage, of=of[:k] + of[k + 1 :]))
        for lower in stages[n].get("of", []):
            yield with_stage(script, i, dict(stage, of=of[:k] + [lower] + of[k + 1 :]))
    if "fn" in stage:
        for function in PLAIN_FUNCTIONS:
            yield with_stage(script, i, dict(stage, fn=function))


def plainer_step(step):
    """Steps that are plainer than one."""
    kind = step[0]
    if kind in ("complete", "now") and len(step) > 2:
        yield from ([kind, step[1], v] for v in (None, 1, 2))
    if kind == "now":
        yield ["outcome", step[1]]
    if kind == "fail":
        yield [kind, step[1], 1]
    if kind == "failAs":
        yield step[:3]
        yield step[:3] + [1]
    if kind in ("fail", "failAs", "cancel"):
        yield ["complete", step[1], None]
    if kind == "claim":
        yield [kind, 0, step[2]]
    if kind == "finish":
        yield [kind, 0, step[2], step[3]]
        yield from (step[:3] + [answer] for answer in ({"give": None}, {"give": 1}, {"throw": 1}, {"link": 0}))


def smaller(script):
    """Scripts that lack one thing of a script, or have a plainer one in its place."""
    for i in reversed(range(len(all_stages(script)))):
        yield without_stage(script, i)
    for k, step in enumerate(script["steps"]):
        yield dict(copy(script), steps=script["steps"][:k] + script["steps"][k + 1 :])
    for k in range(len(script.get("limits", []))):
        yield dict(copy(script), limits=script["limits"][:k] + script["limits"][k + 1 :])
    for name in ("limits", "room"):
        yield {key: x for key, x in script.items() if key != name or x}
    if script.get("room"):
        yield dict(script, room=script["room"] - 1)
    yield {key: 1 if key == "cf" else x for key, x in script.items() if key != "room"}
    for i in range(len(all_stages(script))):
        yield from plainer_stages(script, i)
    for k, step in enumerate(script["steps"]):
        for plainer in plainer_step(step):
            yield dict(copy(script), steps=script["steps"][:k] + [plainer] + script["steps"][k + 1 :])


def smallest(script, shows):
    """A script that shows the same, and shows it no longer if one thing more is taken from it."""
    while True:
        for new in smaller(script):
            if size(new) < size(script) and is_right(new) and shows(new):
                script = new
                break
        else:
            return script
