"""What the JDK's futures may print of a script: conformance/common/model.py with the JDK's own rules, in the places where these are known
to differ from the profile's. So a report that differs is either one that these rules allow, or it isn't explained.

TIE: of several sources of an either form or anyOf that settle in one step, any one may decide.

IN_THE_CALL: the same of sources that settle in one step or by the functions that it makes ready, where a work follows each
step. The forms without Async call functions in the midst of the call that settles their sources.

The others are of an executor that keeps tasks. Some of the forms named Async hand in a task though it may call no function,
and the task of an either form looks at the sources when it is run, at the first argument before the second.

FAULT_WAITS: an either form that a fault decides waits for its task, which looks again.
LOOKS_AGAIN: an either form that a value decides goes by what its task finds.
VALUE_WAITS: exceptionally passes a value on by its task.
ATTACHED_WAITS: a both form that is attached to settled sources passes a fault on by its task.
"""
import importlib.util

import model

TIE = "a tie is decided otherwise"
IN_THE_CALL = "a function is called in the midst of a call"
FAULT_WAITS = "an either form waits with a fault"
LOOKS_AGAIN = "an either form looks again"
VALUE_WAITS = "exceptionally waits with a value"
ATTACHED_WAITS = "an attached both form waits with a fault"
WAITS = None  # stands for the outcome of another source, which settles later in the call
LATE = ("late",)  # stands for the arguments of a stage whose task is queued, and will look at the sources when it is run


def has_chosen(state):
    """Whether no either form or anyOf waits for another source than one that has settled."""
    settled = [held[0] == "settled" for held in state.stages]
    return not any(
        held == ("pending",) and (stage.form in model.EITHER or stage.form == "anyOf") and any(settled[j] for j in stage.sources)
        for held, stage in zip(state.stages, state.plan.stages)
    )


class Futures:
    """A model of its own, with some of the rules in the place of the profile's."""

    def __init__(self, rules):
        spec = importlib.util.spec_from_file_location("futures", model.__file__)
        self.model = importlib.util.module_from_spec(spec)
        spec.loader.exec_module(self.model)
        self.after_all, self.answered_as_ever = self.model.after, self.model.answered
        self.model.follows, self.model.after = self.follows, self.after
        self.model.answered, self.model.work = self.answered, self.work
        self.rules = rules
        self.is_settling = self.is_first = False
        self.choose = None

    # The definitions that the rules change.

    def after(self, state, settled=None, with_outcome=None):
        """A stage that is made when its sources have settled takes the first argument's outcome, and is no tie's."""
        self.is_settling = settled is not None
        self.is_first = not any(held[0] == "settled" for held in state.stages)
        return self.after_all(state, settled, with_outcome)

    def follows(self, form, q):
        there = list(dict.fromkeys(model.wrap(o) for o in q if o is not None))
        is_either = form in model.EITHER
        if not there:
            return model.follows(form, q)
        if IN_THE_CALL in self.rules and (is_either or form == "anyOf") and (self.is_settling or self.is_first):
            chosen = self.choose(there + [WAITS] * (None in q))
            return ("waits",) if chosen is WAITS else model.follows(form, [chosen])
        if TIE in self.rules and (is_either or form == "anyOf") and self.is_settling and len(there) > 1:
            there = q = [self.choose(there)]
        is_value = there[0][0] == "value"
        late = {
            FAULT_WAITS: is_either and self.is_settling and not is_value,
            LOOKS_AGAIN: is_either and self.is_settling and is_value,
            VALUE_WAITS: form == "exceptionally" and is_value,
            ATTACHED_WAITS: form in model.BOTH and None not in q and not self.is_settling,
        }
        return ("needs", LATE) if any(late.get(rule) for rule in self.rules) else model.follows(form, q)

    def answered(self, state, event):
        """A claim runs the task, which calls the function or settles the stage without."""
        if event[0] == "claim" and state.stages[event[2]] == ("ready", LATE):
            i = event[2]
            stage = state.plan.stages[i]
            due = model.follows(stage.form, [model.outcome(state, j) for j in stage.sources])
            if due[0] == "settles":
                return ("claim", ("settled",)), self.after(state, i, due[1])
            state = state._replace(stages=model.put(state.stages, i, ("ready", due[1])))
        return self.answered_as_ever(state, event)

    def work(self, functions, state, who=63):
        """As the model's, but a task may call no function."""
        events = []
        while True:
            i = model.lowest_ready(state)
            if i is None:
                return events, state
            claim = ("claim", who, i)
            reply, state = self.answered(state, claim)
            if reply[1][0] == "granted":
                finish = ("finish", who, i, model.answer(functions, state, i, reply[1][1]))
                state = self.answered(state, finish)[1]
                events += [claim, finish]

    # Reports.

    def ways(self, run):
        """What run answers for each way of making the choices that come up in it."""
        todo = [()]
        while todo:
            given, made = todo.pop(), []

            def choose(options):
                at = len(made)
                if at >= len(given):
                    todo.extend(tuple(made) + (k,) for k in range(1, len(options)))
                made.append(given[at] if at < len(given) else 0)
                return options[made[at]]

            self.choose = choose
            yield run()

    def ties(self, script):
        """How often an either form or anyOf may choose, where the first argument decides as ever."""
        count = 0

        def choose(options):
            nonlocal count
            count += 1
            return options[0]

        self.choose = choose
        self.model.run(script)
        return count

    def may_print(self, script, lines):
        """Whether the rules allow a report. Along the steps all states are kept that its lines so far may leave."""
        plan, functions = model.plan_of(script)
        steps = script["steps"]
        states = set(self.ways(lambda: self.model.start(plan, model.room_of(script))))
        for step, line in zip(steps, lines):
            done = (way for old in states for way in self.ways(lambda: self.model.do(old, step, list(functions))))
            states = {new for said, new in done if said == line and (step[0] != "work" or has_chosen(new))}
            functions += [step[1]["fn"]] if step[0] == "attach" and "fn" in step[1] else []
        return any(model.stage_lines(state) == lines[len(steps) :] for state in states)
