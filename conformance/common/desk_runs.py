"""Counts what random runs of desks had."""
from collections import Counter

import model
from desk_checks import names_of


def is_mixed(history):
    """Whether some caller's events stand before and behind another's."""
    who = [event[1] for event in history]
    runs = 1 + sum(1 for a, b in zip(who, who[1:]) if a != b)
    return runs > len(set(who))


def is_learnt(states, lines):
    """Whether a pass looked for a stage that it didn't know, and then knew it."""
    last = 0
    for line in lines:
        if line.said != "NoStage" and any(i >= len(states[last].stages) for i in names_of(line.call)):
            return True
        last = line.place
    return False


def is_late(states, line):
    """Whether a stage that a call named and that wasn't seen is there in the end."""
    return line.said == "NoStage" and all(i < len(states[-1].stages) for i in names_of(line.call))


def is_kept_by_order(state, event):
    """Whether a stage is attached to two sources that are settled with different outcomes, of which the first decides."""
    if event[0] != "attach" or event[2] not in model.EITHER | {"anyOf"} or len(event[3]) < 2:
        return False
    first, second = (model.outcome(state, i) for i in event[3])
    return first is not None and second is not None and first != second


def tell(count, sizes, history, passes, states, replies):
    """Counts what one run had."""
    lines = [line for _, own in passes for line in own]
    said = Counter(line.said for line in lines if line.kind == "no")
    attached = Counter(e[1] for r, e in zip(replies, history) if r[0] == "attach" and r[1] is not None)
    count["events"] += len(history)
    count["records"] += sum(line.kind != "no" for line in lines)
    count["refusals"] += sum(said.values())
    count["attached"] += sum(attached.values())
    count["told"] += sum(r == ("attach", None) for r in replies)
    for form in {e[2] for r, e in zip(replies, history) if r[0] == "attach" and r[1] is not None}:
        count["form " + form] += 1
    runs = {
        "callers in turn": sizes.in_turn,
        "several callers on threads": not sizes.in_turn and len(set(e[1] for e in history)) > 1,
        "their events mixed": not sizes.in_turn and is_mixed(history),
        "log or pass full": len(history) == sizes.log or any(sum(x.kind != "no" for x in own) == sizes.calls for _, own in passes),
        "LogFull": said["LogFull"],
        "PassFull": said["PassFull"],
        "BadAttach": said["BadAttach"],
        "NoStage": said["NoStage"],
        "NoStage on a stage that came": any(is_late(states, line) for line in lines),
        "a stage seen by a look for it": any(is_learnt(states, own) for _, own in passes),
        "attaches": attached,
        "attaches by several callers": len(attached) > 1,
        "StagesFull": ("attach", None) in replies,
        "an attached either decided by order": any(is_kept_by_order(s, e) for s, e in zip(states, history)),
        "a call of another on an attached stage": any(is_on_anothers(replies, history)),
    }
    count.update(name for name, is_so in runs.items() if is_so)


def is_on_anothers(replies, history):
    """For each event whether it names a stage that another caller attached."""
    owners = {}
    for reply, event in zip(replies, history):
        yield any(owners.get(i, event[1]) != event[1] for i in names_of(event))
        if reply[0] == "attach" and reply[1] is not None:
            owners[reply[1]] = event[1]
