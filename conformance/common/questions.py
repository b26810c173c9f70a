"""Questions of `cf_look explore` that a service can be asked: those of files, and random ones."""
import glob
import json
import random
import subprocess

ONE = ["apply", "accept", "thenRun", "handle", "whenComplete", "exceptionally"]
TWO = ["combine", "acceptBoth", "runBoth", "applyEither", "acceptEither", "runEither"]
STEPS = ["complete", "fail", "cancel", "now", "outcome", "join", "attach"]


def program(path):
    """What asks cf_look."""

    def explore(said):
        ran = subprocess.run([path, "explore", "--json"], input=json.dumps(said), stdout=subprocess.PIPE, stderr=subprocess.DEVNULL, encoding="utf-8")
        told = json.loads(ran.stdout)
        return (
            None
            if not told["whole"]
            else {tuple(end["outcomes"][str(i)] for i in range(len(end["outcomes"]))): int(end["orders"]) for end in told["ends"]}
        )

    return explore


def files(top):
    """The questions of the project."""
    return sorted(glob.glob(f"{top}/examples/explore/*.json") + glob.glob(f"{top}/conformance/desks/questions/*.json"))


def of_file(path):
    with open(path, encoding="utf-8") as file:
        said = json.load(file)
    return askable({**said, "limits": [dict(limit) for limit in said.get("limits", [])]})


def askable(said):
    """The question without what a service has no call for, and with limits at moments of their own."""
    said = {key: it for key, it in said.items() if key not in ("never", "always", "possible", "note")}
    said["cf"] = 3
    said["callers"] = [[step for step in steps if step[0] in STEPS] for steps in said["callers"]]
    said["workers"] = max(said.get("workers", 0), 1)
    if said.get("clock") != "free":
        said.pop("limits", None)
    for place, limit in enumerate(sorted(said.get("limits", []), key=lambda limit: limit["at"])):
        limit["at"] = place + 1
    return said


def question(seed):
    r = random.Random(seed)
    stages = []
    for i in range(r.randrange(1, 6)):
        stages.append(stage(r, i))
    room = r.choice([0, 0, 1, 2])
    callers = [[step(r, len(stages), room) for _ in range(r.randrange(1, 4))] for _ in range(r.randrange(0, 4))]
    said = {"cf": 3, "room": room, "stages": stages, "callers": callers, "workers": r.choice([1, 2, 7])}
    if r.random() < 0.5:
        open_ones = [i for i, it in enumerate(stages) if it["form"] != "allOf"]
        said["clock"] = "free"
        said["limits"] = [
            {"stage": r.choice(open_ones or [0]), "at": r.randrange(20), "kind": r.choice(["timeout", "value"])} for _ in range(r.randrange(1, 3))
        ]
        for limit in said["limits"]:
            if limit["kind"] == "value":
                limit["value"] = r.choice([None, 4])
    return askable(said)


def function(r):
    return r.choice([{"add": r.randrange(3)}, "neg", "sum", {"const": r.choice([None, 1, 2])}, {"throw": r.randrange(2)}, {"rescue": 9}])


def stage(r, i):
    below, kind = [r.randrange(i) for _ in range(2)] if i else [], r.randrange(9)
    if i == 0 or kind < 2:
        return {"form": "source"} if r.random() < 0.5 else {"form": r.choice(["supply", "runAsync"]), "fn": function(r)}
    if kind < 5:
        return {"form": r.choice(ONE), "of": below[:1], "fn": function(r)}
    if kind < 7:
        return {"form": r.choice(TWO), "of": below, "fn": function(r)}
    if kind == 8:
        return {"form": r.choice(["compose", "exceptionallyCompose"]), "of": below[:1], "fn": {"goto": r.randrange(i)}}
    return {"form": r.choice(["allOf", "anyOf"]), "of": below}


def step(r, count, room):
    i = r.randrange(count)
    kind = r.choice(["complete", "fail", "cancel", "now", "join"] + ["attach"] * bool(room))
    if kind == "attach":
        form = r.choice(["source", "apply", "combine"])
        of = [r.randrange(count) for _ in range({"source": 0, "apply": 1, "combine": 2}[form])]
        return ["attach", {"form": form, "of": of, **({} if form == "source" else {"fn": {"add": 1}})}]
    return {
        "complete": ["complete", i, r.randrange(3)],
        "fail": ["fail", i, r.randrange(2)],
        "cancel": ["cancel", i],
        "now": ["now", i],
        "join": ["join", i, r.randrange(1, 3)],
    }[kind]
