"""Compares random ledgers of the module in clients/python with conformance/common/model.py: replies, news and words, and that the words make
the ledger again. Then ledger_steps.py does steps of the same plan."""
import random

import histories
import ledger_steps
import model
from translation import cf, changed, compare, outcome_of, plain, reply_of, told_or_refused, wanted_of

CHANGING = ("complete", "fail", "cancel", "claim", "finish", "tick", "attach", "failAs")
NO_WORDS = (0, 2**63, 2**56 + 2**36 * 7 + 2**32 * 15)


def stage_of(stage):
    """A stage as the module tells it: its state without arguments, and the caller whose claim is open."""
    kind = plain(stage.kind.name)
    more = {"linked": (stage.target,), "settled": (outcome_of(stage.outcome),)}.get(kind, ())
    return (stage.number, (kind,) + more, stage.who)


def has_word(call):
    if call[0] == "attach" and call[2] not in model.FORMS:
        return False
    return call[0] in CHANGING and histories.event_of(histories.word_of(call)) == call


def compare_all(ledger, words, states):
    """What a ledger tells once all is done."""
    state = states[-1]
    compare("the words", ledger.words(), words)
    compare("the last words", ledger.words(len(words) // 2), words[len(words) // 2 :])
    for place in range(len(words)):
        compare(f"news {place}", ledger.news(place), changed(states[place], states[place + 1]))
    compare("news behind the last", told_or_refused(lambda: ledger.news(len(words))), ("refused", "NOTHING"))
    for i in range(len(state.stages)):
        compare(f"stage {i}", stage_of(ledger.stage(i)), wanted_of(state, i))
        compare(f"function {i}", ledger.function(i), state.plan.stages[i].function)
        ready = [j for j in range(i, len(state.stages)) if state.stages[j][0] == "ready"]
        compare(f"ready from {i}", ledger.ready(i), ready[0] if ready else None)
    compare("stages", ledger.stages(), len(state.stages))
    compare("a stage behind the last", told_or_refused(lambda: ledger.stage(len(state.stages))), ("refused", "NO_STAGE"))


def misfit_of(plan, words, room):
    """Where words are refused, and why."""
    try:
        cf.Ledger.from_words(plan, words, room).close()
        return None
    except cf.Misfit as misfit:
        return (misfit.place, misfit.code.name)


def run(seed, script, sizes, plan, calls_of, refusal, seen):
    """The calls of a seed as words of one ledger, which is made again at the end, and once with a word that is none."""
    rng = random.Random(f"ledger {seed}")
    state = model.start(model.plan_of(script)[0], sizes.room)
    ledger, words, states, room = cf.Ledger(plan, sizes.room), [], [state], sizes.room
    for k, call in enumerate(calls_of(rng, script, sizes, lambda: states[-1])):
        state = states[-1]
        if not has_word(call):
            continue
        word = histories.word_of(call)
        why = refusal(state, call) or ("NO_ROOM" if call[0] == "attach" and state.room == 0 else None)
        told = told_or_refused(lambda: ledger.apply(word))
        seen["words"] += 1
        if why is not None:
            compare(f"word {k}, {call}", told, ("refused", why))
            seen["refused " + why] += 1
            if why == "NO_ROOM" and rng.random() < 0.5:
                more = rng.randrange(1, 4)
                ledger.grow(more)
                room += more
                states = [old._replace(room=old.room + more) for old in states]
            continue
        wanted, new = model.answered(state, call)
        compare(f"word {k}, {call}", reply_of(call[0], told.reply), wanted)
        compare(f"news of {call}", [stage_of(stage) for stage in told.news], [wanted_of(new, i) for i in changed(state, new)])
        seen["news"] += len(told.news)
        words.append(word)
        states.append(new)
    compare_all(ledger, words, states)
    with cf.Ledger.from_words(plan, words, room) as again:
        compare_all(again, words, states)
    place = rng.randrange(len(words) + 1)
    wrong = rng.choice(NO_WORDS)
    compare("a word that is none", misfit_of(plan, words[:place] + [wrong] + words[place:], room), (place, "NO_WORD"))
    ledger.close()
    ledger_steps.run(rng, script, sizes, plan, NO_WORDS, seen, compare_all)
