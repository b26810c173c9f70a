"""Histories as docs/FORMATS.md has them: how they are read and judged, plainly over conformance/common/model.py.

The words of events are taken apart here by arithmetic, and each verdict is worked out from the states of the whole history.
Nothing of it is taken from the product's code.
"""
import model

# The forms by the numbers that words have for them.
FORMS = [
    "source",
    "supply",
    "runAsync",
    "apply",
    "accept",
    "thenRun",
    "combine",
    "acceptBoth",
    "runBoth",
    "applyEither",
    "acceptEither",
    "runEither",
    "compose",
    "handle",
    "whenComplete",
    "exceptionally",
    "allOf",
    "anyOf",
    "exceptionallyCompose",
]
KINDS = ["complete", "fail", "cancel", "claim", "finish", "tick", "attach", "failAs"]
FAILURES = ["timeout", "badanswer"]  # by the tags that words have for them


def signed(low):
    return low - 2**32 if low >= 2**31 else low


# Words.


def value_fields(v):
    return (0, 0) if v is None else (1, v % 2**32)


def fields(event):
    """The stage, the tag and the low half of an event's word."""
    kind = event[0]
    if kind == "tick":
        return 0, 0, event[2]
    if kind == "attach":
        form, sources, function = event[2:]
        first, second = (tuple(sources) + (0, 0))[:2]
        return first, len(sources), FORMS.index(form) * 2**24 + second * 2**12 + (function or 0)
    if kind == "complete":
        return (event[2],) + value_fields(event[3])
    if kind == "fail":
        return event[2], 0, event[3]
    if kind == "failAs":
        return event[2], FAILURES.index(event[3]), event[4]
    if kind == "finish":
        does, content = event[3]
        tag, low = value_fields(content) if does == "give" else (2 if does == "throw" else 3, content)
        return event[2], tag, low
    return event[2], 0, 0


def word_of(event):
    stage, tag, low = fields(event)
    return (KINDS.index(event[0]) + 1) * 2**56 + event[1] * 2**48 + stage * 2**36 + tag * 2**32 + low


def value_with(tag, low):
    """The value in a list, or an empty list."""
    return [None] if (tag, low) == (0, 0) else [signed(low)] if tag == 1 else []


def answer_with(tag, low):
    if tag == 2:
        return [("throw", low)]
    if tag == 3:
        return [("link", low)] if low < 2**16 else []
    return [("give", v) for v in value_with(tag, low)]


def attach_with(who, first, count, low):
    form, second, function = low // 2**24, low // 2**12 % 2**12, low % 2**12
    if form >= len(FORMS) or count > 2 or (count < 2 and second) or (count < 1 and first):
        return None
    sources = (first, second)[:count]
    if model.fits_form(FORMS[form], count, True):
        return ("attach", who, FORMS[form], sources, function)
    if model.fits_form(FORMS[form], count, False) and function == 0:
        return ("attach", who, FORMS[form], sources, None)
    return None


def event_of(word):
    """The event of a word, or None."""
    kind, who, stage = word // 2**56, word // 2**48 % 2**8, word // 2**36 % 2**12
    tag, low = word // 2**32 % 2**4, word % 2**32
    if not 1 <= kind <= len(KINDS) or who > 63:
        return None
    name = KINDS[kind - 1]
    if name == "complete":
        found = [("complete", who, stage, v) for v in value_with(tag, low)]
    elif name == "finish":
        found = [("finish", who, stage, a) for a in answer_with(tag, low)]
    elif name == "fail":
        found = [("fail", who, stage, low)] if tag == 0 else []
    elif name == "failAs":
        found = [("failAs", who, stage, FAILURES[tag], low)] if tag < len(FAILURES) else []
    elif name == "tick":
        found = [("tick", who, low)] if tag == 0 and stage == 0 else []
    elif name == "attach":
        return attach_with(who, stage, tag, low)
    else:
        found = [(name, who, stage)] if tag == 0 and low == 0 else []
    return found[0] if found else None


# The verdict.


def unfit(state, event, callers, functions):
    """Why an event can't stand there, if it can't."""
    if event is None:
        return "the word is no event's"
    if event[1] >= callers:
        return "there is no such caller"
    named = event[3] if event[0] == "attach" else () if event[0] == "tick" else (event[2],)
    if any(i >= len(state.stages) for i in named):
        return "a stage isn't there, or doesn't fit its form"
    if event[0] == "attach" and event[4] is not None and event[4] >= functions:
        return "there is no such function"
    return None


def goes_first(record, other):
    """Whether a session's record goes before another session's: by its place, and at one place a call before a question."""
    return (record[1], record[0] != "did") <= (other[1], other[0] != "did")


def together(first, second):
    """The records of two sessions, by their places."""
    records, i, j = [], 0, 0
    while i < len(first) or j < len(second):
        if j == len(second) or i < len(first) and goes_first(first[i], second[j]):
            records.append(first[i])
            i += 1
        else:
            records.append(second[j])
            j += 1
    return records


def records_of(own):
    """A caller's records: those of its sessions together, where it had several."""
    records = own if isinstance(own, list) else []
    for session in () if isinstance(own, list) else own["sessions"]:
        records = together(records, session)
    return records


def record_fault(caller, at, record, events, states, replies):
    """Why a record doesn't fit behind place `at`, if it doesn't."""
    kind, place = record[0], record[1]
    own = [p for p in range(at + 1, len(events) + 1) if events[p - 1][1] == caller]
    if place < at or (kind == "did" and place == at):
        return "its place is before what the caller had seen"
    if place > len(events):
        return "its place is behind the history"
    skipped = [p for p in own if p < place or (p == place and kind != "did")]
    if skipped:
        return f"the caller's event {skipped[0]} comes first"
    if kind == "did":
        if events[place - 1] != event_of(int(record[2])) or events[place - 1][1] != caller:
            return "another event stands there"
        told = model.reply_text(replies[place - 1])
    else:
        state, i = states[place], record[2]
        if i >= len(state.stages):
            return "its stage isn't there"
        o = model.outcome(state, i)
        told = model.now_text(model.now_of(o, record[3])) if kind == "now" else model.settled_text(o)
    is_unknown = kind == "did" and record[-1] == "unknown"  # its caller was gone before the answer
    return None if is_unknown or told == record[-1] else f"the graph answers {told}"


def caller_fault(caller, records, events, states, replies):
    at = 0
    for k, record in enumerate(records):
        why = record_fault(caller, at, record, events, states, replies)
        if why is not None:
            return f"caller {caller} record {k}: {why}"
        at = record[1]
    left = [p for p in range(at + 1, len(events) + 1) if events[p - 1][1] == caller]
    return f"caller {caller}: no record of its event {left[0]}" if left else None


def verdict(history):
    """The line of the verdict on a history that can be read."""
    plan, functions = model.plan_of(history["plan"])
    count = history.get("functions", len(functions))
    states, replies, events = [model.start(plan, history["plan"].get("room", 0))], [], []
    for p, word in enumerate(history["events"]):
        event = event_of(int(word))
        why = unfit(states[-1], event, len(history["callers"]), count)
        if why is not None:
            return f"event {p + 1}: {why}"
        reply, state = model.answered(states[-1], event)
        events.append(event)
        replies.append(reply)
        states.append(state)
    for caller, own in enumerate(history["callers"]):
        fault = caller_fault(caller, records_of(own), events, states, replies)
        if fault is not None:
            return fault
    return outcomes_fault(history.get("outcomes"), states[-1]) or "fits"


def outcomes_fault(said, state):
    if said is None:
        return None
    if len(said) != len(state.stages):
        return f"outcomes: the graph has {len(state.stages)} stages"
    for i, text in enumerate(said):
        left = model.settled_text(model.outcome(state, i))
        if left != text:
            return f"stage {i}: the graph leaves {left}"
    return None


def is_readable(history):
    """Whether the words of its records are events'. Nothing else that can't be read is made here."""
    return all(event_of(int(r[2])) is not None for own in history["callers"] for r in records_of(own) if r[0] == "did")
