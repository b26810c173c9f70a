"""The functions that processes in three languages run in requests of languages.py, and the flows of these. Rust and Java have the same functions, in
clients/rust/cf-store/examples/faults.rs and clients/java/example/Faults.java. Each writes down that it runs, with what, and takes a while."""
import random
import time

from mixed_functions import said_of
from process import spoils

from cf.service import Flow
from cf.store import Functions

functions = Functions()
note = print  # the process's own log
BELOW = 1 << 32
ONE = [
    ("give", 1),
    ("next", 1),
    ("next", 2),
    ("list", 1),
    ("wait", 1),
    ("fail", 1),
    ("give", 1),
    ("list", 1),
]  # of one value, as often as it is taken


def number_of(value):
    """A number that tells values apart."""
    if isinstance(value, str):
        total = 2166136261
        for byte in value.encode():
            total = (total ^ byte) * 16777619 % BELOW
        return total
    if isinstance(value, list):
        total = 1
        for it in value:
            total = (total * 31 + number_of(it)) % BELOW
        return total
    if isinstance(value, dict):
        return sum(number_of(name) * 31 + number_of(it) for name, it in value.items()) % BELOW
    return int(value or 0) % BELOW


def fields(error):
    """An error's kind and text."""
    return [error["error"], error["text"]] if error else [None, None]


ANY = {"error": "any", "text": ""}  # each language has its own where lists are added, and another value was put in the place of one
# What each function comes to: a value, or an error.
RESULTS = {
    ("give", 1): lambda it: (it, None),
    ("next", 1): lambda it: (number_of(it) + 1, None),
    ("next", 2): lambda it: (number_of(it) + 2, None),
    ("list", 1): lambda it: ([number_of(it), {"as ü": it}], None),
    ("wait", 1): lambda it: ({"waited": number_of(it)}, None),
    ("fail", 1): lambda it: (None, {"error": "ValueError", "text": f"{number_of(it)} fails"}),
    ("add", 1): lambda one, other: ((number_of(one) * 31 + number_of(other)) % BELOW, None),
    ("told", 1): lambda value, error: ([number_of(value), *fields(error)], None),
    ("rescue", 1): lambda error: (fields(error), None),
    ("cf.gather", 1): lambda it: ([it], None),
    ("cf.add", 1): lambda one, other: (one + other, None) if isinstance(one, list) and isinstance(other, list) else (None, ANY),
}


def registered(name, version):
    @functions.function(name, version)
    def called(*args):
        said = [said_of(it) for it in args]
        for _ in range(1 + spoils("twice")):
            note("run", name, version, said)
        time.sleep(random.random() * (0.15 if name == "wait" else 0.003))
        note("ran", name, version)
        value, error = RESULTS[name, version](*said)
        if error:
            raise ValueError(error["text"])
        return "another" if spoils("gives") else value

    called.__qualname__ = name
    return called


CALLS = {it: registered(*it) for it in RESULTS if not it[0].startswith("cf.")}


def flow_of(number, mark):
    """The flow of a number's request. `mark` tells it from others of its name."""
    rng, flow, steps = random.Random(number), Flow(f"languages {number}.{mark}"), []
    for k in range(rng.randint(4, 8)):
        call, pick, some = CALLS[rng.choice(ONE)], rng.random(), [rng.choice(steps) for _ in range(3)] if steps else []
        if k < 2 and number % 2 or not k and pick < 0.5 or pick < 0.1:
            step = flow.supply(call, {"token": f"{mark} {k}"})
        elif not k or pick < 0.2:
            steps.append(flow.promise("alarm" if k and rng.random() < 0.4 else "promise"))
            continue
        elif pick < 0.3:
            steps.append(rng.choice([flow.all_of, flow.first_of, flow.gather])(*some))
            continue
        else:
            step = behind(rng, *some[:2], call)
        steps.append(step.again(rng.choice([1, 2, 4])) if rng.random() < 0.5 else step)
    return flow


def behind(rng, one, other, call):
    """A stage whose function is called with what others come to."""
    pick = rng.randrange(9)
    if pick < 2:
        return one.combine(other, CALLS["add", 1]) if pick else one.either(other, call)
    if pick < 4:
        return getattr(one, ("handle", "when_done")[pick - 2])(CALLS["told", 1])
    return one.recover(CALLS["rescue", 1]) if pick == 4 else one.then(call)
