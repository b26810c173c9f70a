"""Translates between what the module in clients/python tells and what conformance/common/model.py says, and compares the two."""
import os
import re
import sys

import model
from program import TOP

sys.path.insert(0, os.path.join(TOP, "clients", "python"))
try:
    import cf
except OSError as fault:
    print(f"there is no library: CF_LIBRARY has to name libcf.so ({fault})", file=sys.stderr)
    sys.exit(2)

FORM = {name: cf.Form[re.sub("([A-Z])", r"_\1", name).upper()] for name in model.FORMS}
NO_FORM = len(FORM)
NAME = {form: name for name, form in FORM.items()}
CAUSES = {cf.Cancelled: "cancelled", cf.TimedOut: "timeout", cf.BadAnswer: "badanswer"}
FAILURES = {"timeout": cf.Failure.TIMED_OUT, "badanswer": cf.Failure.BAD_ANSWER}


class Difference(Exception):
    """What the module told, and what the model has."""


def compare(what, told, wanted):
    if told != wanted or type(told) is not type(wanted):
        raise Difference(f"{what}: the module tells {told!r}, and the model {wanted!r}")


def told_or_refused(call):
    """What a call tells, or its refusal."""
    try:
        return call()
    except cf.Refused as refused:
        return ("refused", refused.code.name)


def plain(name):
    return name.lower().replace("_", "")


def cause_of(fault):
    return ("thrown", fault.code) if isinstance(fault, cf.Thrown) else model.caused(CAUSES[type(fault)], fault.code)


def outcome_of(outcome):
    if outcome is None or outcome.fault is None:
        return None if outcome is None else ("value", outcome.value)
    return ("fault", cause_of(outcome.fault), outcome.fault.wrapped)


def result_of(result):
    """What a future's result tells, by a call of it: an outcome, or nothing where the stage is open."""
    try:
        return ("value", result())
    except cf.InvalidStateError:
        return None
    except cf.Fault as fault:
        return outcome_of(cf.Outcome(None, fault))


def wanted_of(state, i):
    """What the model has of a stage, as a view of it tells it."""
    held = state.stages[i]
    return (i, held[:1] if held[0] == "ready" else held, state.claims[i])


def changed(old, new):
    """The stages that differ between two states of the model. One that wasn't there was pending."""
    was = old.stages + (("pending",),) * (len(new.stages) - len(old.stages))
    return [i for i, held in enumerate(new.stages) if held != was[i]]


def args_of(args):
    if args and isinstance(args[0], cf.Outcome):
        return ("got", outcome_of(args[0]))
    return (("none", "one", "two")[len(args)],) + args


def now_of(now):
    if now.kind in (cf.NowKind.ABSENT, cf.NowKind.VALUE):
        compare("a fault beside a value", now.fault, None)
        return (plain(now.kind.name), now.value)
    compare("a value beside a fault", now.value, None)
    compare("its wrapping", now.fault.wrapped, now.kind is cf.NowKind.COMPLETION)
    return ("completion", cause_of(now.fault)) if now.kind is cf.NowKind.COMPLETION else ("cancellation",)


def claim_of(reply):
    return (plain(reply.status.name),) + (() if reply.args is None else (args_of(reply.args),))


REPLIES = {
    "claim": claim_of,
    "finish": lambda reply: plain(reply.name),
    "tick": lambda fired: ("past",) if fired is None else ("fired", fired),
    "attach": lambda stage: stage,
}


def reply_of(kind, reply):
    """The reply to a changing call of a kind."""
    return ("flag", reply) if kind not in REPLIES else (kind, REPLIES[kind](reply))


def answer_in(answer):
    """An answer for the module."""
    kind, content = answer
    return content if kind == "give" else cf.Thrown(content) if kind == "throw" else cf.Link(content)


def answer_of(answer):
    if isinstance(answer, cf.Thrown):
        return ("throw", answer.code)
    return ("link", answer.stage) if isinstance(answer, cf.Link) else ("give", answer)


def event_of(event):
    name, who = type(event).__name__, event.who
    kind = name[0].lower() + name[1:]
    if kind == "tick":
        return (kind, who, event.now)
    if kind == "attach":
        return (kind, who, NAME[event.form], event.of, event.function)
    rest = {
        "complete": lambda: (event.value,),
        "fail": lambda: (event.code,),
        "finish": lambda: (answer_of(event.answer),),
        "failAs": lambda: (next(name for name, failure in FAILURES.items() if failure is event.failure), event.code),
    }
    return (kind, who, event.stage) + rest.get(kind, tuple)()


class Functions:
    """The functions of a script by their numbers; any other gives nothing."""

    def __init__(self, functions):
        self.functions = functions

    def __getitem__(self, number):
        return lambda *given: self.answer(number, given)

    def answer(self, number, given):
        kind, content = model.call(self.functions[number], args_of(given)) if number < len(self.functions) else ("give", None)
        if kind == "throw":
            raise cf.Thrown(content)
        return cf.Link(content) if kind == "link" else content


def changing(caller, call):
    """Does a changing call, with the caller left aside, and gives its reply."""
    kind, rest = call[0], call[2:]
    if kind == "attach":
        form, of, function = rest
        return reply_of(kind, caller.attach(FORM.get(form, NO_FORM), *of, function=function))
    if kind == "failAs":
        return reply_of(kind, caller.fail_as(rest[0], FAILURES[rest[1]], rest[2]))
    if kind == "finish":
        rest = (rest[0], answer_in(rest[1]))
    return reply_of(kind, getattr(caller, kind)(*rest))
