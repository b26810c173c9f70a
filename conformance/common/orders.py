"""All orders in which callers' steps can come, searched plainly: every move from every situation, over conformance/common/model.py.

A situation is the graph's state, each caller's place with the looks of its join, what each worker has in hand, and which stages'
functions were called. Moves, ends and facts are those of docs/EXPLORE.md. Nothing is taken from the product's code.
"""
from collections import Counter, namedtuple

import model

Situation = namedtuple("Situation", "state places hands called")
Question = namedtuple("Question", "plan room functions callers workers free asked")


def shared(said, stages):
    """A stage's JSON with its own function, where it shares one, and the number of the stage that it shares it with."""
    source = said.get("fn", {}).get("same") if isinstance(said.get("fn"), dict) else None
    return (said, None) if source is None else ({**said, "fn": stages[source]["fn"]}, source)


def question_of(said):
    """A question that is right."""
    own = [shared(it, said["stages"]) for it in said["stages"]]
    plan, functions = model.plan_of({**said, "stages": [it for it, _ in own]})
    numbers = [it.function for it in plan.stages]
    stages = [it._replace(function=it.function if k is None else numbers[k]) for it, (_, k) in zip(plan.stages, own)]
    plan, callers = plan._replace(stages=tuple(stages)), []
    for c, steps in enumerate(said["callers"]):
        callers.append([step_of(step, c, functions) for step in steps])
    asked = [(how, facts) for how in ("never", "always", "possible") for facts in said.get(how, [])]
    return Question(plan, model.room_of(said), functions, callers, said.get("workers", 0), said.get("clock") == "free", asked)


def step_of(step, c, functions):
    """An event, ("look", stage) or ("join", stage, most)."""
    if step[0] == "attach":
        return ("attach", c) + tuple(model.stage_of(step[1], functions))
    if step[0] == "claim":
        return ("claim", c, step[1])
    if step[0] == "finish":
        return ("finish", c, step[1], model.answer_of(step[2]))
    if step[0] == "join":
        return ("join", step[1], step[2])
    if step[0] == "failAs":
        return model.failing(c, step)
    return ("look", step[1]) if step[0] in ("now", "outcome") else (step[0], c) + tuple(step[1:])


def start(q):
    return Situation(model.start(q.plan, q.room), ((0, 0),) * len(q.callers), (None,) * q.workers, (False,) * len(q.plan.stages))


def own_moves(q, s):
    moves = [("step", c) for c in range(len(q.callers)) if s.places[c][0] < len(q.callers[c])]
    for w, hand in enumerate(s.hands):
        if hand is None:
            moves += [("claim", w, i) for i, it in enumerate(s.state.stages) if it[0] == "ready"]
        else:
            moves.append((hand[0], w))
    return moves


def moves(q, s):
    tick = q.free and s.state.used < len(s.state.plan.limits)
    return own_moves(q, s) + [("tick",)] * tick


def takes(state, event):
    """Whether the stages that an event names are there."""
    n = len(state.stages)
    return event[0] == "tick" or all(j < n for j in (event[3] if event[0] == "attach" else [event[2]]))


def moved(q, s, move):
    if move[0] == "tick":
        return s._replace(state=model.tick(s.state, s.state.plan.limits[s.state.used].at)[1])
    if move[0] == "step":
        return stepped(q, s, move[1])
    w, who = move[1], len(q.callers) + move[1]
    if move[0] == "claim":
        reply, state = model.answered(s.state, ("claim", who, move[2]))
        return s._replace(state=state, hands=model.put(s.hands, w, ("call", move[2], reply[1][1])))
    _, i, content = s.hands[w]
    if move[0] == "call":
        hand = ("finish", i, model.answer(q.functions, s.state, i, content))
        return s._replace(hands=model.put(s.hands, w, hand), called=model.put(s.called, i, True))
    return s._replace(state=model.answered(s.state, ("finish", who, i, content))[1], hands=model.put(s.hands, w, None))


def stepped(q, s, c):
    at, looks = s.places[c]
    step = q.callers[c][at]
    onward = s._replace(places=model.put(s.places, c, (at + 1, 0)))
    if step[0] == "join":
        seen = step[1] < len(s.state.stages) and model.outcome(s.state, step[1]) is not None
        return onward if seen or looks + 1 >= step[2] else s._replace(places=model.put(s.places, c, (at, looks + 1)))
    if step[0] == "look" or not takes(s.state, step):
        return onward
    reply, state = model.answered(s.state, step)
    called = s.called + (False,) * (len(state.stages) - len(s.called))
    if step[0] == "claim" and reply[1][0] == "granted":
        called = model.put(called, step[2], True)
    return onward._replace(state=state, called=called)


def is_so(what, o):
    if what in ("pending", "settled"):
        return (o is None) == (what == "pending")
    if o is None:
        return False
    if what in ("value", "fault"):
        return o[0] == what
    if what == "cancelled":
        return o == model.CANCELLED
    if what == "fault cancelled":
        return o[0] == "fault" and o[1] == ("cancelled",)
    if what.startswith("value "):
        return o == ("value", None if what == "value nil" else int(what[6:]))
    words = what.split()
    cause = ("thrown", int(words[1])) if words[0] == "thrown" else model.caused(words[0], *map(int, words[1:]))
    return o[0] == "fault" and o[1] == cause


def holds(q, s, fact):
    word, i = fact[0], fact[1]
    if word == "stage":
        return is_so(fact[2], model.outcome(s.state, i) if i < len(s.state.stages) else None)
    if word in ("called", "notcalled"):
        return (i < len(s.called) and s.called[i]) == (word == "called")
    number = q.plan.stages[i].function
    calls = sum(s.called[j] and it.function == number for j, it in enumerate(s.state.plan.stages))
    return calls == fact[2] if word == "calls" else calls >= fact[2]


def decides(q, s, how, facts):
    """Whether a situation shows that something doesn't hold, or that it is possible."""
    if facts and facts[0][0] == "at":
        (_, c, k), facts = facts[0], facts[1:]
        if s.places[c][0] != k:
            return False
    elif own_moves(q, s):
        return False
    all_hold = all(holds(q, s, fact) for fact in facts)
    return not all_hold if how == "always" else all_hold


def explore(q, most=None):
    """The ends with their numbers of orders, for each condition the moves of a shortest order that decides it, and how many situations
    there are; or None where there are more than so many."""
    layer, ends, decided, count, k = Counter({start(q): 1}), Counter(), [None] * len(q.asked), 0, 0
    while layer:
        count += len(layer)
        if most is not None and count > most:
            return None
        following = Counter()
        for s, orders in layer.items():
            for n, (how, facts) in enumerate(q.asked):
                if decided[n] is None and decides(q, s, how, facts):
                    decided[n] = k
            if not own_moves(q, s):
                ends[tuple(model.outcome(s.state, i) for i in range(len(s.state.stages)))] += orders
            for move in moves(q, s):
                following[moved(q, s, move)] += orders
        layer, k = following, k + 1
    return ends, decided, count
