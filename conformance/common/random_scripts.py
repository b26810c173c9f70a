"""Random scripts of all versions from a seed: right ones, spoilt ones and hostile ones; and scripts at the bounds of sizes."""
import copy
import json
import random

import hostility
import model
import random_runs
import reading

SOURCE = {"form": "source"}
APPLY = {"form": "apply", "of": [0], "fn": {"add": 5}}
NUMBERS = [
    0,
    1,
    2,
    -1,
    3,
    63,
    64,
    4_095,
    4_096,
    4_097,
    16_384,
    65_535,
    65_536,
    2**31 - 1,
    2**31,
    -(2**31),
    -(2**31) - 1,
    2**32 - 1,
    2**32,
    2**63,
    2**64,
    1.0,
    1.5,
    -0.0,
]
JUNK = [
    None,
    True,
    False,
    "",
    "source",
    "exceptionallyCompose",
    "attach",
    "neg",
    "timeout",
    [],
    {},
    [0],
    [0, 0],
    [0, 0, 0],
    [None],
    {"goto": 0},
    {"add": 1, "mul": 2},
    {"give": 1},
    {"link": 65_536},
    SOURCE,
    APPLY,
    ["work"],
    ["attach", SOURCE],
    ["attach", APPLY],
    ["attach", APPLY, 0],
    ["attach"],
]
MEMBERS = ["cf", "room", "stages", "limits", "steps", "form", "of", "fn", "stage", "at", "kind", "value", "code", "x"]


# Right scripts.


def random_attach(rng, count):
    """An attach that is right where there are so many stages, or seldom one that may not be."""
    while True:
        stage = random_runs.random_stage(rng, count, model.FORMS)
        if len(stage.get("of", [])) <= 2:
            break
    if stage.get("of") and rng.random() < 0.01:
        stage["of"][-1] = count
    if rng.random() < 0.005:
        stage["fn"] = "neg"
    return ["attach", stage]


def random_step(rng, count, version):
    kind = rng.choices(
        ["complete", "fail", "cancel", "tick", "work", "now", "outcome", "claim", "finish", "nudge", "attach", "failAs"],
        [8, 2, 2, 2, 6, 4, 4, 6, 5, 2, 9 * min(version - 1, 1), 4 * max(version - 2, 0)],
    )[0]
    if kind == "attach":
        return random_attach(rng, count)
    i = rng.randrange(count) if count else 0
    values = {
        "complete": [i, rng.choice(random_runs.VALUES)],
        "fail": [i, rng.choice(random_runs.CODES)],
        "cancel": [i],
        "tick": [rng.choice(random_runs.MOMENTS[:-1])],
        "work": [],
        "outcome": [i],
        "claim": [rng.choice([0, 1, 63]), i],
        "now": rng.choice([[i], [i, rng.choice(random_runs.VALUES)]]),
        "nudge": [rng.choice([0, 1, 2, 2**32 - 1])],
        "failAs": [i, rng.choice(["timeout", "badanswer"])] + rng.choice([[], [rng.choice(random_runs.CODES)]]),
    }
    if kind == "finish":
        answer = rng.choice([{"give": rng.choice(random_runs.VALUES)}, {"throw": rng.choice(random_runs.CODES)}, {"link": rng.randrange(i + 2)}])
        return [kind, rng.choice([0, 1, 63]), i, answer]
    return [kind] + values[kind]


def random_script(rng):
    version = rng.choice([1, 2, 2, 3])
    forms = random_runs.SCRIPT_FORMS if version == 1 else model.FORMS
    stages = [random_runs.random_stage(rng, i, forms) for i in range(rng.randrange(16))]
    script = {"cf": version, "stages": stages, "steps": []}
    if rng.random() < 0.8:
        script["room"] = rng.choice([0, 1, 1, 2, 4, 8, 16])
    if stages and rng.random() < 0.3:
        script["limits"] = [random_runs.random_limit(rng, len(stages)) for _ in range(rng.choice([1, 3]))]
    room, attaches = model.room_of(script), 0
    raced = rng.random() < 0.3
    while len(script["steps"]) < 1 or rng.random() < 0.96:
        step = random_step(rng, len(stages) + min(room, attaches), version)
        if not raced or step[0] in reading.RACED + ("attach",):
            script["steps"].append(step)
            attaches += step[0] == "attach"
    return script


# Spoilt ones.


def places(x, found):
    """Each list and object in a value, with each of its positions."""
    if isinstance(x, (list, dict)):
        for at in range(len(x)) if isinstance(x, list) else list(x):
            found.append((x, at))
            places(x[at], found)
    return found


def other(rng, x):
    """Another value in the place of one."""
    if type(x) is int and rng.random() < 0.6:
        return x + rng.choice([-1, 1, 1, 2])
    return copy.deepcopy(rng.choice(NUMBERS if rng.random() < 0.4 else JUNK))


def spoil(rng, script):
    at, place = rng.choice(places(script, []))
    how = rng.randrange(5)
    if how == 0:
        del at[place]
    elif how == 1 and isinstance(at, list):
        at.insert(place, other(rng, at[place]))
    elif how == 1:
        at[rng.choice(MEMBERS)] = other(rng, at[place])
    elif how == 2 and isinstance(at, list):
        other_place = rng.randrange(len(at))
        at[place], at[other_place] = at[other_place], at[place]
    else:
        at[place] = other(rng, at[place])


def spoil_bytes(rng, data):
    """Bytes of which one is lost, changed, or put in, or the rest is cut."""
    at = rng.randrange(len(data))
    new = bytes([rng.choice(b'0123456789-+.eE{}[],:"\\ nutf\x00\x1f\xff\xc3')])
    return rng.choice([data[:at], data[:at] + data[at + 1 :], data[:at] + new + data[at + 1 :], data[:at] + new + data[at:]])


def random_bytes(rng):
    script = json.loads(json.dumps(random_script(rng)))
    spoilt = rng.choice([0, 0, 1, 1, 2])
    for _ in range(spoilt):
        spoil(rng, script)
    data = json.dumps(script).encode()
    return spoil_bytes(rng, data) if rng.random() < 0.1 else data


def bytes_of(seed):
    """The script of a seed. One in four is hostile."""
    rng = random.Random(f"seed {seed}")
    return hostility.hostile(rng, random_script(rng)) if seed % 4 == 3 else random_bytes(rng)


# Scripts at the bounds.


def written(version, stages, steps=(), **more):
    return json.dumps({"cf": version, "stages": stages, "steps": list(steps), **more}).encode()


def at_bounds():
    edges = [SOURCE, {"form": "allOf", "of": [0] * 16_382}]
    supply = {"form": "supply", "fn": {"const": 1}}
    attach, attach_supply = ["attach", SOURCE], ["attach", supply]
    for stages, room in ((4_096, 0), (4_096, 1), (4_095, 1), (4_095, 2), (0, 4_096), (1, 4_096), (0, 4_097)):
        yield written(2, [SOURCE] * stages, [attach, ["outcome", stages]], room=room)
    for room in (0, 1, 2):
        yield written(2, edges, [["attach", APPLY]], room=room)
    for n in (4_096, 4_097):
        yield written(1, [SOURCE] * n)
        yield written(1, [SOURCE], limits=[{"stage": 0, "at": 1, "kind": "timeout"}] * n)
        yield written(1, [SOURCE, {"form": "anyOf", "of": [0] * 4 * n}])
    for n in (65_535, 65_536):
        yield written(1, [{"form": "supply", "fn": {"goto": n}}], [["claim", 0, 0], ["finish", 0, 0, {"link": n}]])
        yield written(1, [SOURCE], limits=[{"stage": n, "at": 1, "kind": "timeout"}])
    for room in (None, -1, 4_097, 1.0, "1", [], True):
        yield written(2, {}, room=room)
        yield written(1, [SOURCE], room=room)
    for n in (4_095, 4_096, 4_097):
        yield written(2, [], [attach_supply] * n, room=1)
        yield written(2, [supply], [attach_supply] * (n - 1) + [attach], room=0)
    for n in (20_000, 20_001):
        yield written(2, [], [attach] * n, room=2)
    for code in (None, -1, 0, 2**32 - 1, 2**32, 1.0, "1", [], True):
        yield written(1, [SOURCE], [["tick", 1]], limits=[{"stage": 0, "at": 1, "kind": "timeout", "code": code}])
        yield written(1, [SOURCE], [["tick", 1]], limits=[{"stage": 0, "at": 1, "kind": "value", "value": 1, "code": code}])
        yield written(3, [SOURCE], [["failAs", 0, "timeout", code]])
        yield written(3, [SOURCE], [["failAs", 0, "badanswer", code, 0]])
    yield written(2, [SOURCE], limits=[{"stage": 1, "at": 1, "kind": "timeout"}], room=4_096)
    yield written(2, [SOURCE, {"form": "exceptionallyCompose", "of": [0], "fn": {"goto": 0}}], [["fail", 0, 1], ["work"]])
    yield written(1, [SOURCE, {"form": "exceptionallyCompose", "of": [0], "fn": {"goto": 0}}])
    for version in (0, 4, 2.0, "2", None):
        yield written(version, [SOURCE], room="x")
