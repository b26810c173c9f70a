"""What the events of a Python service's history were answered, in the words of reports: of its entries, whose replies and outcomes are
numbers. `cf` has to be importable."""
from cf.events import Attach, Claim, Finish, Tick
from cf.service.words import (
    ANSWER,
    ARGS,
    BAD_ANSWER,
    CANCELLED,
    FIRST,
    FIRST_SOME,
    FORMS,
    GOT,
    NUMBER,
    OUTCOME,
    SECOND,
    SECOND_SOME,
    THROWN,
    TIMED_OUT,
    VALUE,
    OutcomeNumbers,
)

CAUSES = {CANCELLED: "cancelled", TIMED_OUT: "timeout", BAD_ANSWER: "badanswer"}


def shape(form, of, function):
    """A stage as scripts have it."""
    stage = {"form": FORMS[form]}
    if of:
        stage["of"] = list(of)
    if function is not None:
        stage["fn"] = {"const": function}
    return stage


def value_text(some, number):
    return str(number - (number >> 31 << 32)) if some else "nil"


def outcome_text(told):
    if told.kind == VALUE:
        return f"value {value_text(told.some, told.number)}"
    cause = f"thrown {told.code}" if told.kind == THROWN else CAUSES[told.kind] + (f" {told.code}" if told.code else "")
    return f"fault {cause} {'wrapped' if told.wrapped else 'raw'}"


def reply_text(event, reply):
    if isinstance(event, Claim):
        many = reply[ARGS]
        if reply[ANSWER]:
            return ("", "settled", "taken", "notready")[reply[ANSWER]]
        if many == GOT:
            return "granted got " + outcome_text(OutcomeNumbers(*reply[OUTCOME]))
        texts = [value_text(reply[FIRST_SOME], reply[FIRST]), value_text(reply[SECOND_SOME], reply[SECOND])]
        return " ".join(["granted", ("none", "one", "two")[many], *texts[:many]])
    if isinstance(event, Finish):
        return ("won", "late", "notyours")[reply[ANSWER]]
    if isinstance(event, Attach):
        return "stagesfull" if reply[ANSWER] else f"attached {reply[NUMBER]}"
    if isinstance(event, Tick):
        return "past" if reply[ANSWER] else f"fired {reply[NUMBER]}"
    return "true" if reply[ANSWER] else "false"


def report_of(history):
    """What `cf run` has to print of a history's script: the replies, and what stages hold in the end."""
    last = dict(history.settled_at_start())
    for entry in history.entries():
        last.update(entry.told)
    lines = [reply_text(entry.event, entry.reply) for entry in history.entries()]
    lines += [f"stage {stage} {outcome_text(last[stage]) if stage in last else 'pending'}" for stage in range(len(history.names))]
    return "".join(line + "\n" for line in lines)
