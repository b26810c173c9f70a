"""Checks by conformance/common/model.py what a closed desk holds, and what its callers were told."""
from collections import namedtuple

import model

ASKS = ("now", "outcome")

Line = namedtuple("Line", "kind place call said")


def call_of_step(who, step):
    """The event or the question of a caller, by the step that asks for it."""
    kind = step[0]
    if kind == "attach":
        return (kind, who, step[1], tuple(step[2]), step[3] if len(step) > 3 else None)
    if kind == "finish":
        return (kind, who, step[1], model.answer_of(step[2]))
    return (kind, who) + tuple(step[1:])


def names_of(call):
    """The stages that a call names."""
    return call[3] if call[0] == "attach" else () if call[0] == "tick" else (call[2],)


def refusal_of(state, sizes, call):
    """Why a call is refused in a state, room for it left aside."""
    if any(i >= len(state.stages) for i in names_of(call)):
        return "NoStage"
    if call[0] == "attach":
        form, sources, function = call[2:]
        below = function is None or function < min(sizes.functions, 4096)
        if not (below and model.fits_form(form, len(sources), function is not None)):
            return "BadAttach"
    return None


def states_of(plan, sizes, history):
    """The states before and behind each event, and the replies."""
    states, replies = [model.start(plan, sizes.room)], []
    for event in history:
        assert refusal_of(states[-1], sizes, event) is None, f"{event} was to be refused"
        reply, state = model.answered(states[-1], event)
        replies.append(reply)
        states.append(state)
    return states, replies


def check_refusal(line, state, sizes, records):
    """That a call is refused in what the pass had seen, and for this."""
    wanted = refusal_of(state, sizes, line.call)
    if wanted is None and records == sizes.calls:
        wanted = "PassFull"
    if wanted is None and line.call[0] not in ASKS and line.place == sizes.log:
        wanted = "LogFull"
    assert line.said == wanted, f"{line.call} is refused as {line.said} at place {line.place}, and not as {wanted}"


def check_line(line, last, states, replies, sizes, records):
    state = states[line.place]
    if line.kind == "did":
        assert line.place > last, "a place didn't rise"
        assert line.said == model.reply_text(replies[line.place - 1]), f"another reply at place {line.place}"
        return
    assert last <= line.place, "a place fell"
    if line.kind == "no":
        check_refusal(line, state, sizes, records)
        return
    assert refusal_of(state, sizes, line.call) is None, f"{line.call} was to be refused"
    o = model.outcome(state, line.call[2])
    told = model.now_text(model.now_of(o, line.call[3])) if line.call[0] == "now" else model.settled_text(o)
    assert line.said == told, f"another answer at place {line.place}"


def check_pass(caller, lines, history, states, replies, sizes):
    own = [(p + 1, e) for p, e in enumerate(history) if e[1] == caller]
    did = [(line.place, line.call) for line in lines if line.kind == "did"]
    assert did == own, f"caller {caller}'s calls aren't its events in order"
    last = records = 0
    for line in lines:
        assert line.place <= len(history), "a place behind the history"
        check_line(line, last, states, replies, sizes, records)
        last = line.place
        records += line.kind != "no"
    assert records <= sizes.calls, "more records than may be"


def check_stages(plan, history, states, replies):
    """That each stage is claimed once and settles once, and that each stage more was attached."""
    attached = [r[1] for r in replies if r[0] == "attach" and r[1] is not None]
    end = states[-1]
    assert attached == list(range(len(plan.stages), len(end.stages))), "other stages were attached"
    for i in range(len(end.stages)):
        grants = [r for r, e in zip(replies, history) if e[0] == "claim" and e[2] == i and r[1][0] == "granted"]
        assert len(grants) <= 1, f"stage {i} was claimed twice"
        outcomes = [model.outcome(s, i) for s in states if i < len(s.stages)]
        for before, now in zip(outcomes, outcomes[1:]):
            assert before is None or now == before, f"stage {i} settled twice"
