"""Which scripts are right, and the fault of any other, by the tables of docs/FORMATS.md in the order that it gives.

Nothing here is taken from the product's code. As a program it answers a script from standard input as `cf run` does, and
given the word `race` as `cf race --workers 1` does, or with a number behind it what a plain script's race is to print.
"""
import json
import re
import sys

import model

MAX_BYTES = 1_048_576
MAX_STAGES = 4_096
MAX_EDGES = 16_384
MAX_LIMITS = 4_096
MAX_STEPS = 20_000
MAX_WORDS = 65_535
RACED = ("complete", "fail", "failAs", "cancel", "tick")  # beside attaches


class Fault(Exception):
    """The fault of a script, as its line tells it."""


def need(is_right, line):
    if not is_right:
        raise Fault(line)


# JSON, as far as it is narrower than Python's reading of it.


def deepest(text):
    """How deep arrays and objects stand in each other."""
    depth = most = 0
    for bracket in re.findall(r"[\[\]{}]", re.sub(r'"(?:[^"\\]|\\.)*"', "", text, flags=re.S)):
        depth += 1 if bracket in "[{" else -1
        most = max(most, depth)
    return most


def number_of(text):
    """An int where the number is a whole one of 64 bits, else a float, which holds it or there is no such number."""
    if float(text) in (float("inf"), float("-inf")):
        raise ValueError("too great")
    is_whole = re.fullmatch(r"-?\d{1,19}", text) and text != "-0" and -(2**63) <= int(text) < 2**63
    return int(text) if is_whole else float(text)


def whole_of(text):
    """The same of a number without a point and an exponent, of which short ones come often."""
    return int(text) if len(text) <= 15 and text != "-0" else number_of(text)


def no_constant(text):
    raise ValueError(text)


def kept(pairs):
    """An object's members, of which no text holds half of a surrogate pair."""
    json.dumps(pairs, ensure_ascii=False).encode("utf-8")
    return dict(pairs)


def deepest_at_most(text):
    """No less than how deep they stand: as deep as there are brackets that open."""
    return text.count("[") + text.count("{")


HOW = {"parse_int": whole_of, "parse_float": number_of, "parse_constant": no_constant}
READER = json.JSONDecoder(**HOW)
CAREFUL = json.JSONDecoder(object_pairs_hook=kept, **HOW)


def value_of(data):
    try:
        text = data.decode("utf-8")
        if deepest_at_most(text) > 127 and deepest(text) > 127:
            raise ValueError("too deep")
        if "\\" not in text:  # and so no text holds half of a pair
            return READER.decode(text)
        value = CAREFUL.decode(text)
        json.dumps(value, ensure_ascii=False).encode("utf-8")
        return value
    except (ValueError, RecursionError):
        raise Fault("fault 2 not json") from None


# The parts of a script.


def is_whole(x, low, high):
    return type(x) is int and low <= x <= high


def is_value(x):
    return x is None or is_whole(x, -(2**31), 2**31 - 1)


def is_code(x):
    return is_whole(x, 0, 2**32 - 1)


def is_number(x):
    """Whether it is the number of a stage that may or may not be there."""
    return is_whole(x, 0, 65_535)


def is_function(x):
    if isinstance(x, str):
        return x in ("neg", "sum")
    if not (isinstance(x, dict) and len(x) == 1):
        return False
    name, k = next(iter(x.items()))
    if name == "select":
        return isinstance(k, list) and len(k) == 2 and all(map(is_number, k))
    kinds = {"const": is_value, "rescue": is_value, "throw": is_code, "goto": is_number}
    if name in ("add", "mul", "div"):
        return k is not None and is_value(k)
    return name in kinds and kinds[name](k)


def is_answer(x):
    kinds = {"give": is_value, "throw": is_code, "link": is_number}
    return isinstance(x, dict) and len(x) == 1 and all(name in kinds and kinds[name](k) for name, k in x.items())


def is_form(x, version):
    return isinstance(x, str) and x in model.FORMS and (version >= 2 or x != "exceptionallyCompose")


def has_shape(stage, version):
    """Whether a stage has its shape, its function left aside."""
    if not (isinstance(stage, dict) and is_form(stage.get("form"), version)):
        return False
    of = stage.get("of", [])
    return isinstance(of, list) and all(map(is_number, of))


def check_stages(stages, version):
    """Each stage whole before the next. Answers how many edges there are."""
    edges = 0
    for k, stage in enumerate(stages):
        need(has_shape(stage, version), f"fault 3 shape stage {k}")
        need("fn" not in stage or is_function(stage["fn"]), f"fault 5 function {k}")
        form, of, has_function = stage["form"], stage.get("of", []), "fn" in stage
        takes_any, wants_one = form in ("allOf", "anyOf"), form not in ("source", "allOf", "anyOf")
        need(k < MAX_STAGES, f"fault 4 plan 1 at {k}")
        need(takes_any or model.fits_form(form, len(of), wants_one), f"fault 4 plan 3 at {k}")
        need(all(i < k for i in of), f"fault 4 plan 2 at {k}")
        need(has_function or not wants_one, f"fault 4 plan 4 at {k}")
        need(wants_one or not has_function, f"fault 4 plan 5 at {k}")
        edges += len(of)
        need(edges <= MAX_EDGES, f"fault 4 plan 6 at {k}")
    return edges


def is_limit(x):
    if not (isinstance(x, dict) and is_number(x.get("stage")) and is_code(x.get("at"))):
        return False
    if x.get("kind") == "timeout":
        return is_code(x.get("code", 0))
    return x.get("kind") == "value" and is_value(x.get("value", "absent"))


def check_limits(limits, stages):
    for k, limit in enumerate(limits):
        need(is_limit(limit), f"fault 3 shape limit {k}")
        need(limit["stage"] < stages, f"fault 4 plan 7 at {k}")
        need(k < MAX_LIMITS, f"fault 4 plan 9 at {k}")


def is_attached(stage, count, functions):
    """Whether a stage may be attached where there are so many stages, and functions before its own."""
    if not has_shape(stage, 2) or "fn" in stage and not (is_function(stage["fn"]) and functions < 4_096):
        return False
    of = stage.get("of", [])
    return len(of) <= 2 and all(i < count for i in of) and model.fits_form(stage["form"], len(of), "fn" in stage)


def is_failure(x):
    return x in ("timeout", "badanswer")


def is_step(step, count, version):
    """Whether it is a step of this version that attaches nothing, where there are so many stages."""
    if not (isinstance(step, list) and step and isinstance(step[0], str)):
        return False

    def stage(x):
        return is_whole(x, 0, count - 1)

    def who(x):
        return is_whole(x, 0, 63)

    kinds = {
        "complete": [(stage, is_value)],
        "fail": [(stage, is_code)],
        "cancel": [(stage,)],
        "tick": [(is_code,)],
        "work": [()],
        "now": [(stage,), (stage, is_value)],
        "outcome": [(stage,)],
        "claim": [(who, stage)],
        "finish": [(who, stage, is_answer)],
        "nudge": [(is_code,)],
        "failAs": [(stage, is_failure), (stage, is_failure, is_code)] * (version >= 3),
    }
    return any(len(step) == len(parts) + 1 and all(part(x) for part, x in zip(parts, step[1:])) for parts in kinds.get(step[0], []))


def check_steps(script, room, is_race):
    """Stages are there once a step before attached them and there was room, and functions are numbered on."""
    count, attaches = len(script["stages"]), 0
    functions = sum("fn" in stage for stage in script["stages"])
    for k, step in enumerate(script.get("steps", [])):
        there = count + min(room, attaches)
        if script["cf"] >= 2 and isinstance(step, list) and step[:1] == ["attach"]:
            is_right = len(step) == 2 and is_attached(step[1], there, functions)
            attaches += 1
            functions += is_right and "fn" in step[1]
        else:
            is_right = is_step(step, there, script["cf"]) and not (is_race and step[0] not in RACED)
        need(is_right and k < MAX_STEPS, f"fault 6 step {k}")


def read(data):
    """The JSON value that bytes write, or the first fault of them as a whole."""
    need(len(data) <= MAX_BYTES, "fault 1 too long")
    return value_of(data)


def checked(script, workers=None):
    """The script that a JSON value is, to be run or, with so many workers, to be raced."""
    need(isinstance(script, dict), "fault 3 shape top")
    need(is_whole(script.get("cf"), 1, 3), "fault 3 shape cf")
    need(script["cf"] == 1 or is_whole(script.get("room", 0), 0, MAX_STAGES), "fault 3 shape room")
    need(isinstance(script.get("stages"), list), "fault 3 shape stages")
    need(isinstance(script.get("limits", []), list), "fault 3 shape limits")
    need(isinstance(script.get("steps", []), list), "fault 3 shape steps")
    stages, room = len(script["stages"]), model.room_of(script)
    edges = check_stages(script["stages"], script["cf"])
    check_limits(script.get("limits", []), stages)
    need(stages + room <= MAX_STAGES and edges + 2 * room <= MAX_EDGES, "fault 3 shape room")
    check_steps(script, room, workers is not None)
    if workers is not None:
        words = len(script.get("steps", [])) + (stages + room) * (workers + 2) + 1
        need(words <= MAX_WORDS, "fault 10 race size")
    return script


def answer(data, workers=None):
    """The status, and what is printed."""
    return answers(data, [workers])[0]


def answers(data, ways):
    """The same for each way to do what the bytes ask for: None, or with so many workers."""
    try:
        value = read(data)
    except Fault as fault:
        return [(1, f"{fault}\n")] * len(ways)
    return [answer_to(value, workers) for workers in ways]


def answer_to(value, workers):
    try:
        script = checked(value, workers)
    except Fault as fault:
        return 1, f"{fault}\n"
    lines = model.run(script) if workers is None else model.race(script)
    return 0, "".join(line + "\n" for line in lines)


def main():
    workers = None if len(sys.argv) == 1 else int(sys.argv[2]) if len(sys.argv) > 2 else 1
    status, text = answer(sys.stdin.buffer.read(), workers)
    sys.stdout.write(text)
    return status


if __name__ == "__main__":
    sys.exit(main())
