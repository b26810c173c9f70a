"""Compares random steps of ledgers with conformance/common/model.py, through the library itself: cf_ledger_step, cf_ledger_apply_all and
cf_ledger_restart."""
import ctypes as c
import os

import histories
import model
from translation import answer_in, args_of, cf, changed, compare, outcome_of, wanted_of
from cf import values
from cf._library import CAnswer, CArgs, CNews

WHO = (0, 0, 0, 1, 1, 2, 63, 63, 64, 255)
KINDS = ("pending", "ready", "claimed", "linked", "settled")
VALUES = (None, 0, 7, -(2**31), 2**31 - 1)
CODES = (0, 7, 2**32 - 1)
NOBODY, SPARE = 2**32 - 1, 999


class CTask(c.Structure):
    _fields_ = [("held", c.c_uint32), ("stage", c.c_uint16), ("function", c.c_uint16), ("args", CArgs), ("answer", CAnswer), ("finished", c.c_uint32)]


class CStep(c.Structure):
    _fields_ = [("who", c.c_uint8), ("from_", c.c_uint16), ("place", c.c_size_t), ("finish", c.c_uint64), ("claim", c.c_uint64)]


LIBRARY = c.CDLL(os.environ["CF_LIBRARY"])
LIBRARY.cf_layout.restype = c.c_size_t


def code_of(number):
    return "OK" if number == 0 else cf.Code(number).name


def news_of(entry):
    """A stage that is told, as the model has it: what it is, and the caller whose claim is open."""
    now = entry.now
    kind = KINDS[now.kind]
    more = {"linked": (now.target,), "settled": (outcome_of(values.outcome_out(now.outcome)),)}.get(kind, ())
    return (entry.stage, (kind,) + more, None if now.who == NOBODY else now.who)


def refusal(state, who, held):
    """Why a step is refused, by cf.h."""
    if who > 63:
        return "NO_WORD"
    if held is not None and held >= len(state.stages):
        return "NO_STAGE"
    return "NOT_HELD" if held is not None and state.claims[held] != who else None


def answer_for(rng, state):
    return rng.choice([("give", rng.choice(VALUES)), ("throw", rng.randrange(9)), ("link", rng.randrange(len(state.stages) + 1))])


def held_for(rng, state, who):
    """What a task holds: mostly nothing or a stage of its caller's, now and then another's, or one that isn't there."""
    own = [i for i, claimant in enumerate(state.claims) if claimant == who]
    if rng.random() < 0.1:
        return rng.randrange(len(state.stages) + 2)
    return rng.choice(own) if own and rng.random() < 0.8 else None


class Recorder:
    """A ledger, its words, and the model's state behind each."""

    def __init__(self, plan, state, room):
        self.ledger, self.words, self.states = cf.Ledger(plan, room), [], [state]

    def did(self, event):
        """The model does an event, and its word is written."""
        reply, state = model.answered(self.states[-1], event)
        self.words.append(histories.word_of(event))
        self.states.append(state)
        return reply

    def apply(self, event, seen):
        self.ledger.apply(histories.word_of(event))
        self.did(event)
        seen["steps between"] += 1

    def step(self, rng, seen):
        """One step with all that it tells."""
        before = self.states[-1]
        who, first = rng.choice(WHO), rng.choice([0, 0, rng.randrange(len(before.stages) + 2)])
        held, answer = held_for(rng, before, who), answer_for(rng, before)
        task, step = CTask(held=held is not None, stage=held or 0, answer=values.answer_in(answer_in(answer))), CStep(who=who, from_=first)
        room = rng.randrange(len(before.stages) + 2)
        news, n, had = (CNews * room)(*[CNews(stage=SPARE)] * room), c.c_size_t(SPARE), bytes(task)
        code = code_of(LIBRARY.cf_ledger_step(self.ledger._at, c.byref(step), c.byref(task), news, c.c_size_t(room), c.byref(n)))
        why = refusal(before, who, held)
        seen["step " + code] += 1
        if why is not None:
            compare("a refused step", (code, bytes(task), n.value, step.place, [it.stage for it in news]), (why, had, SPARE, 0, [SPARE] * room))
            return
        place = len(self.words)
        finished = "won" if held is None else self.did(("finish", who, held, answer))[1]
        middle = self.states[-1]
        ready = next((i for i in range(first, len(middle.stages)) if middle.stages[i][0] == "ready"), None)
        args = None if ready is None else self.did(("claim", who, ready))[1][1]
        told = [news_of(it) for it in news[: min(n.value, room)]]
        wanted = changed(before, middle) if held is not None else []
        compare("the step's code", code, "NOTHING" if ready is None else "OK")
        compare("the finish", ("won", "late")[task.finished], finished)
        compare("the words", [w for w in (step.finish, step.claim) if w], self.words[place:])
        compare("the word of the finish", step.finish != 0, held is not None)
        compare("their place", step.place, place)
        compare("the news", (n.value, told), (len(wanted), [wanted_of(self.states[-1], i) for i in wanted][:room]))
        compare("what is behind them", [it.stage for it in news[len(told) :]], [SPARE] * (room - len(told)))
        compare("what is held", task.held, int(ready is not None))
        if ready is not None:
            function = before.plan.stages[ready].function
            compare("the stage that is taken", (task.stage, task.function), (ready, function))
            compare("its arguments", args_of(values.args_out(task.args)), args)


def row_of(words):
    return (c.c_uint64 * len(words))(*words)


def again(rng, recorder, plan, room, no_words, seen, compare_all):
    """The row done again in one call: up to a word that is none, then the rest, and once more from the start."""
    words, done = recorder.words, c.c_size_t(SPARE)
    place = rng.randrange(len(words) + 1)
    spoilt = words[:place] + [rng.choice(no_words)] + words[place:]
    with cf.Ledger(plan, room) as copy:
        code = LIBRARY.cf_ledger_apply_all(copy._at, row_of(spoilt), c.c_size_t(len(spoilt)), c.byref(done))
        compare("a row with a word that is none", (code_of(code), done.value, copy.words()), ("NO_WORD", place, words[:place]))
        for _ in range(2):
            rest = words[len(copy.words()) :]
            code = LIBRARY.cf_ledger_apply_all(copy._at, row_of(rest), c.c_size_t(len(rest)), c.byref(done))
            compare("a row", (code_of(code), done.value), ("OK", len(rest)))
            compare_all(copy, words, recorder.states)
            compare("a restart", code_of(LIBRARY.cf_ledger_restart(copy._at)), "OK")
            compare("no words", copy.words(), [])
    seen["rows"] += 3


def run(rng, script, sizes, plan, no_words, seen, compare_all):
    """Steps of several callers, and completions and moments between them."""
    for name, structure in (("cf_task", CTask), ("cf_step", CStep)):
        compare(f"the size of {name}", LIBRARY.cf_layout(name.encode()), c.sizeof(structure))
    state = model.start(model.plan_of(script)[0], sizes.room)
    recorder = Recorder(plan, state, sizes.room)
    for _ in range(2 * len(state.stages) + 6):
        if rng.random() < 0.3:
            i, who = rng.randrange(len(state.stages)), rng.randrange(64)
            kind = rng.choice(["complete"] * 4 + ["fail", "failAs", "cancel"])
            content = {"complete": (rng.choice(VALUES),), "fail": (3,), "failAs": ("timeout", rng.choice(CODES))}.get(kind, ())
            recorder.apply((kind, who, i) + content, seen)
        recorder.step(rng, seen)
    compare_all(recorder.ledger, recorder.words, recorder.states)
    again(rng, recorder, plan, sizes.room, no_words, seen, compare_all)
    recorder.ledger.close()
