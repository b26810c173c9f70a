"""Lets 2 to 16 threads make random calls through the module in clients/python, each by its own caller of one desk. The desk is then closed
and judged by conformance/common/model.py.

The threads call freely, or in turn, or in rounds with a barrier after each, at which callers meet. Each call is noted with the number of
events that its caller had seen after it. The closed desk has to hold what was noted: the model replays its events, and each reply, refusal
and question is compared at its place.
"""
import random
import threading

import histories
import model
from desk_checks import Line, call_of_step, check_pass, check_stages, states_of
from translation import (
    Difference,
    Functions,
    answer_of,
    cf,
    changing,
    compare,
    event_of,
    now_of,
    outcome_of,
    plain,
    reply_of,
    result_of,
    told_or_refused,
)

WAYS = ("free", "rounds", "turns")


class Noted:
    """A caller whose calls are noted."""

    def __init__(self, caller):
        self.caller, self.number = caller, caller.number
        self.lines, self.asked, self.worked = [], [], []

    def __enter__(self):
        self.caller.__enter__()
        return self

    def __exit__(self, *cause):
        self.caller.__exit__(*cause)

    def note(self, kind, call, make, say):
        """Makes a call, and notes what it says. A refusal is told on."""
        try:
            told = make()
        except cf.Refused as refused:
            name = refused.code.name.title().replace("_", "")
            self.lines.append(Line("no", self.caller.seen_count(), call, name))
            raise
        self.lines.append(Line(kind, self.caller.seen_count(), call, say(told)))
        return told

    def change(self, call):
        return self.note("did", call, lambda: changing(self.caller, call), model.reply_text)

    def claim(self, stage):
        call = ("claim", self.number, stage)
        return self.note("did", call, lambda: self.caller.claim(stage), lambda told: model.reply_text(reply_of("claim", told)))

    def finish(self, stage, answer):
        call = ("finish", self.number, stage, answer_of(answer))
        return self.note("did", call, lambda: self.caller.finish(stage, answer), lambda told: model.reply_text(reply_of("finish", told)))

    def ready(self):
        told = self.caller.ready()
        self.asked.append((self.caller.seen_count(), told))
        return told

    def function(self, stage):
        return self.caller.function(stage)

    def next(self, task=None, answer=None):
        """A step by these calls, so that each is noted."""
        if task is not None:
            self.finish(task.stage, answer)
        while True:
            stage = self.ready()
            if stage is None:
                return None
            told = self.claim(stage)
            if told.args is not None:
                return cf.Task(stage, self.function(stage), told.args)

    def work(self, functions, most=None):
        """The module's work, by these calls."""
        first = len(self.lines)
        try:
            return cf.Caller.work(self, functions, most)
        finally:
            self.worked.append((first, len(self.lines)))

    def read(self, stage):
        call = ("outcome", self.number, stage)
        return self.note("saw", call, lambda: self.caller.read(stage), lambda told: model.settled_text(outcome_of(told)))

    def join(self, stage, looks):
        """What a join tells is compared once its record is known."""
        call = ("outcome", self.number, stage)
        return self.note("saw", call, lambda: self.caller.join(stage, looks), now_of)

    def read_now(self, stage, absent):
        call = ("now", self.number, stage, absent)
        return self.note("saw", call, lambda: self.caller.read_now(stage, absent), lambda told: model.now_text(now_of(told)))

    def view(self, rng, stage):
        """A future of the stage, which calls this."""
        future = cf.SharedFuture(self, stage)
        done = future.done()
        told = result_of(lambda: future.result(rng.choice([1, 3])))
        if done and model.settled_text(told) != self.lines[-1].said:
            raise Difference(f"a future of stage {stage} gives {told!r} behind {self.lines[-1]}")

    def step(self, rng, step, functions):
        """Does what a step asks for. A refusal is noted."""
        kind = step[0]
        try:
            if kind == "ready":
                self.ready()
            elif kind == "work":
                self.work(functions, 4)
            elif kind == "now":
                self.read_now(*step[1:])
            elif kind == "outcome":
                rng.choice([self.read, self.read, lambda i: self.join(i, rng.choice([0, 1, 2, 50])), lambda i: self.view(rng, i)])(step[1])
            else:
                self.change(call_of_step(self.number, step))
        except cf.Refused:
            pass


class Run:
    """One run of all threads over their callers."""

    def __init__(self, seed, script, noted, functions):
        self.noted, self.functions = noted, functions
        self.steps = [script["calls"][k :: len(noted)] for k in range(len(noted))]
        self.rngs = [random.Random(f"{seed} caller {k}") for k in range(len(noted))]
        self.rng = random.Random(f"{seed} meetings")
        self.order, self.fault = [], None

    def go(self, way):
        """Starts a thread for each caller, and tells on what went wrong in one."""
        body = {"free": self.free, "rounds": self.rounds, "turns": self.turns}[way]
        size = self.rng.choice([1, 2, 5])
        self.most = max(-(-len(steps) // size) for steps in self.steps)
        self.barrier = threading.Barrier(len(self.noted), self.meet)
        self.turn = [threading.Semaphore(int(k == 0)) for k in range(len(self.noted))]
        threads = [threading.Thread(target=self.guard, args=(body, k, size)) for k in range(len(self.noted))]
        for thread in threads:
            thread.start()
        for thread in threads:
            thread.join()
        if self.fault is not None:
            raise self.fault

    def guard(self, body, k, size):
        try:
            body(k, size)
        except threading.BrokenBarrierError:
            pass
        except BaseException as fault:
            self.fault = fault
            self.barrier.abort()
            for turn in self.turn:
                turn.release()

    def step(self, k, step):
        self.noted[k].step(self.rngs[k], step, self.functions)

    def free(self, k, _size):
        with self.noted[k]:
            for step in self.steps[k]:
                self.step(k, step)

    def rounds(self, k, size):
        for first in range(0, self.most * size, size):
            with self.noted[k]:
                for step in self.steps[k][first : first + size]:
                    self.step(k, step)
            self.barrier.wait()

    def turns(self, k, _size):
        """In turn the lines stand in one order."""
        lines = self.noted[k].lines
        for place in range(max(len(steps) for steps in self.steps)):
            self.turn[k].acquire()
            if place < len(self.steps[k]) and self.fault is None:
                first = len(lines)
                self.step(k, self.steps[k][place])
                self.order += lines[first:]
            self.turn[(k + 1) % len(self.turn)].release()

    def meet(self):
        """Between two rounds, two callers meet."""
        one, other = (noted.caller for noted in self.rng.sample(self.noted, 2))
        longer = max(one.seen_count(), other.seen_count())
        one.meet(other)
        compare("what two callers have seen that met", (one.seen_count(), other.seen_count()), (longer, longer))


def wrong_openings(plan, sizes):
    """Openings that are refused, each for what it names, and for the first of two."""
    stages = sizes.stages
    rows = [
        ("CALLERS", (0, 0, 1)),
        ("CALLERS", (65, 1, 1)),
        ("LOG", (1, 0, 0)),
        ("CALLS", (64, 1, 0, 4_097 - stages, 0)),
        ("ROOM", (1, 1, 1, 4_097 - stages, 0)),
    ] + [("FUNCTIONS", (1, 1, 1, 1, len(sizes.named) - 1))] * bool(sizes.named)
    for why, counts in rows:
        compare(f"a desk of {counts}", told_or_refused(lambda: plan.open_desk(*counts)), ("refused", why))


def opened(rng, plan, sizes):
    """A desk of the sizes. Without room it has as many functions as its plan names, if nothing is said of them."""
    if sizes.room == 0 and rng.random() < 0.4:
        sizes.functions = len(sizes.named)
        return plan.open_desk(sizes.callers, sizes.log, sizes.calls)
    return plan.open_desk(sizes.callers, sizes.log, sizes.calls, sizes.room, sizes.functions)


def work_all(rng, noted, stages, functions, seen):
    """Lets workers do all that comes to be ready as caller 0 settles stages, and says whether they could."""
    workers = cf.Workers(noted[1:], functions, pause=0.0001)
    try:
        with workers, noted[0]:
            for i in rng.sample(range(stages), rng.randrange(stages + 1)):
                noted[0].step(rng, ["complete", i, rng.choice([None, 0, 7])], functions)
    except cf.Refused as refused:
        if refused.code not in (cf.Code.LOG_FULL, cf.Code.PASS_FULL):
            raise
        seen["workers refused " + refused.code.name] += 1
        return False
    compare("what workers raised", workers.errors, [])
    seen["functions by workers"] += workers.finish()
    return True


def closed_of(rng, desk, other):
    """Closes a desk with its callers in any order, of which some are missing at first, and one of another desk is refused."""
    callers = rng.sample(desk.callers, len(desk.callers))
    some = rng.randrange(len(callers))
    compare("a desk without all", told_or_refused(lambda: desk.close(callers[:some])), ("refused", "NOT_ALL"))
    compare("one of another desk", told_or_refused(lambda: desk.close(other.callers)), ("refused", "OTHER_DESK"))
    closed = desk.close(callers[some:])
    for caller in desk.callers:
        compare("a caller that was given back", told_or_refused(lambda: caller.read(0)), ("refused", "EMPTY"))
    return closed


def line_of(caller, record):
    """A record as a line."""
    if isinstance(record, cf.CallRecord):
        call = event_of(record.event)
        return Line("did", record.place, call, model.reply_text(reply_of(call[0], record.reply)))
    if isinstance(record, cf.ReadRecord):
        return Line("saw", record.place, ("outcome", caller, record.stage), model.settled_text(outcome_of(record.outcome)))
    return Line("saw", record.place, ("now", caller, record.stage, record.absent), model.now_text(now_of(record.now)))


def compare_records(caller, lines, records, states):
    """That the records are what was noted. A join's answer is compared with the outcome of its place, which is put there."""
    told = iter(line_of(caller, record) for record in records)
    for k, line in enumerate(lines):
        if line.kind == "no":
            continue
        if isinstance(line.said, tuple):
            outcome = model.outcome(states[line.place], line.call[2])
            compare(f"caller {caller}'s join of {line.call}", line.said, model.now_of(outcome, None))
            lines[k] = line = line._replace(said=model.settled_text(outcome))
        compare(f"caller {caller}'s record", next(told, None), line)
    compare(f"caller {caller}'s records behind the last", next(told, None), None)


def check_worked(noted, states, functions):
    """That work claims what was ready, and finishes each stage that it is granted with what its function answers."""
    for first, end in noted.worked:
        lines = iter(noted.lines[first:end])
        for line in lines:
            compare(f"a call of work, {line}", line.call[0], "claim")
            if not line.said.startswith("granted"):
                continue
            finish, state = next(lines), states[line.place]
            i = line.call[2]
            args = model.answered(states[line.place - 1], line.call)[0][1][1]
            compare(f"a finish of work at {line.place}", finish.call, ("finish", noted.number, i, model.answer(functions, state, i, args)))


def check_turns(order):
    """That in a run in turn each call that looks sees all that was there."""
    events = 0
    for line in order:
        events += line.kind == "did"
        looked = line.kind != "no" or line.said in ("NoStage", "LogFull")
        if line.place != events if looked else line.place > events:
            raise Difference(f"{line} isn't of all {events} events")


def account(script, sizes, words, lines, outcomes):
    """The desk as a history of docs/FORMATS.md."""

    def record(line):
        if line.kind == "did":
            return ["did", line.place, str(histories.word_of(line.call)), line.said]
        return [line.call[0], line.place, *line.call[2:], line.said]

    return {
        "plan": {"cf": 2, "room": sizes.room, "stages": script["stages"], "limits": script["limits"]},
        "functions": sizes.functions,
        "events": [str(word) for word in words],
        "callers": [[record(line) for line in own if line.kind != "no"] for own in lines],
        "outcomes": [model.settled_text(outcome) for outcome in outcomes],
    }


def compare_graphs(plan, sizes, words, replies, closed):
    """That the closed graph, and another that does the words again, have the outcomes of the model; gives those."""
    again = cf.Graph(plan, sizes.room)
    for k, word in enumerate(words):
        kind = histories.event_of(word)[0]
        compare(f"the event {k + 1} done again", reply_of(kind, again.apply(word)), replies[k])
    with closed.graph() as graph:
        outcomes = [outcome_of(graph.outcome(i)) for i in range(graph.stages())]
        compare("outcomes done again", [outcome_of(again.outcome(i)) for i in range(again.stages())], outcomes)
        compare("a closed desk without its graph", told_or_refused(closed.words), ("refused", "EMPTY"))
    return outcomes


def compare_events(words):
    """That the module reads and writes the words as docs/FORMATS.md has them."""
    for word in words:
        event = cf.event_of(word)
        compare(f"the event of {word}", event_of(event), histories.event_of(word))
        compare(f"the word of {event}", cf.word_of(event), word)
    return [histories.event_of(word) for word in words]


def compare_ends(noted, sizes, states, ends):
    """What the callers told before they were given back, without a look."""
    for own, (seen, left, functions) in zip(noted, ends):
        compare("the places that are left", left, sizes.calls - sum(line.kind != "no" for line in own.lines))
        stages = states[seen].plan.stages
        compare("functions", functions, [stage.function for stage in stages] + [("refused", "NO_STAGE")])
        for place, told in own.asked:
            compare(f"what is ready at {place}", told, model.lowest_ready(states[place]))


def end_of(caller):
    functions = []
    while functions[-1:] != [("refused", "NO_STAGE")]:
        functions.append(told_or_refused(lambda: caller.function(len(functions))))
    return caller.seen_count(), caller.records_left(), functions


def judge(script, sizes, plan, noted, ends, closed):
    """Compares all that was noted with the closed desk and the model, and gives what it came to."""
    wanted, functions = model.plan_of(script)
    words = closed.words()
    history = compare_events(words)
    states, replies = states_of(wanted, sizes, history)
    for own in noted:
        compare_records(own.number, own.lines, closed.records(own.number), states)
        check_pass(own.number, own.lines, history, states, replies, sizes)
        check_worked(own, states, functions)
    compare_ends(noted, sizes, states, ends)
    check_stages(wanted, history, states, replies)
    outcomes = compare_graphs(plan, sizes, words, replies, closed)
    told = account(script, sizes, words, [own.lines for own in noted], outcomes)
    compare("the verdict", histories.verdict(told), "fits")
    return told, (history, [(own.number, own.lines) for own in noted], states, replies)


def run(seed, plan, script, sizes, seen):
    """One desk of a script's plan, from its opening to the verdict: its history, and what it came to."""
    rng = random.Random(f"desk {seed}")
    sizes.callers, way = max(2, sizes.callers), WAYS[seed % len(WAYS)]
    sizes.in_turn = way == "turns"
    functions = Functions(model.plan_of(script)[1])
    wrong_openings(plan, sizes)
    with opened(rng, plan, sizes) as desk, plan.open_desk(1, 1, 1) as other:
        compare("a meeting of two desks", told_or_refused(lambda: desk.callers[0].meet(other.callers[0])), ("refused", "OTHER_DESK"))
        noted = [Noted(caller) for caller in desk.callers]
        going = Run(seed, script, noted, functions)
        going.go(way)
        worked = rng.random() < 0.4 and work_all(rng, noted, sizes.stages, functions, seen)
        ends = [end_of(caller) for caller in desk.callers]
        with closed_of(rng, desk, other) as closed:
            told, came = judge(script, sizes, plan, noted, ends, closed)
    if sizes.in_turn:
        check_turns(going.order)
    if worked:
        compare("what is ready behind workers", model.lowest_ready(came[2][-1]), None)
    seen["desks with threads " + way] += 1
    return told, came


# What no random run asks for.


def raised_by(call):
    """The name of what a call raises, or nothing."""
    try:
        call()
        return None
    except Exception as error:
        return type(error).__name__


def in_a_thread(call):
    """What a call tells on another thread."""
    told = []
    thread = threading.Thread(target=lambda: told.append(call()))
    thread.start()
    thread.join()
    return told[0]


def threads_and_callers():
    """A caller is in one thread's hands, and a desk is closed with all of its callers."""
    with one_supply() as plan, plan.open_desk(2, 10, 10) as desk:
        one, other = desk.callers
        with one:
            compare("a caller that another thread has", in_a_thread(lambda: raised_by(lambda: one.read(0))), "InUse")
            compare("another caller", in_a_thread(lambda: raised_by(lambda: other.read(0))), None)
            compare("its own thread's", raised_by(lambda: one.read(0)), None)
            compare("a closing meanwhile", in_a_thread(lambda: raised_by(lambda: desk.close([one]))), "InUse")
        compare("a caller that nobody has", in_a_thread(lambda: raised_by(lambda: one.read(0))), None)
        other.close()
        compare("a desk without a caller that was freed", told_or_refused(desk.close), ("refused", "EMPTY"))


def functions_that_raise():
    with one_supply() as plan, plan.open_desk(2, 10, 10) as desk:
        one, other = desk.callers
        with cf.Workers([one], [lambda: 1 // 0], code=5) as workers:
            pass
        compare("what a function raised", [(number, type(error)) for number, error in workers.errors], [(0, ZeroDivisionError)])
        compare("what became of it", outcome_of(other.read(0)), ("fault", ("thrown", 5), True))
        compare("a future of it", raised_by(other.future(0).result), "Thrown")


def numbers_out_of_range():
    with one_supply() as plan, cf.Graph(plan) as graph:
        for what, call in [
            ("a stage", lambda: graph.outcome(65_536)),
            ("a source", lambda: graph.attach(cf.Form.ALL_OF, -1)),
            ("a code", lambda: graph.fail(0, 2**32)),
            ("a function", lambda: graph.attach(cf.Form.SUPPLY, function=65_536)),
            ("a value", lambda: graph.complete(0, 2**31)),
            ("a link", lambda: graph.finish(0, cf.Link(65_536))),
            ("a moment", lambda: graph.tick(-1)),
            ("a caller", lambda: cf.word_of(cf.events.Claim(256, 0))),
        ]:
            compare(f"{what} out of its range", raised_by(call), "OverflowError")


def words_of_nothing():
    events = cf.events
    with one_supply() as plan, cf.Graph(plan) as graph:
        for event in [
            events.Claim(64, 0),
            events.Claim(0, 4_096),
            events.Attach(0, cf.Form.SUPPLY, (), 4_096),
            events.Attach(0, cf.Form.APPLY, (0,)),
        ]:
            compare(f"a word of {event}", told_or_refused(lambda: cf.word_of(event)), ("refused", "NO_WORD"))
        for word in [0, 2**64 - 1, 8 * 2**56 + 2 * 2**32, 9 * 2**56]:
            compare(f"an event of {word}", told_or_refused(lambda: cf.event_of(word)), ("refused", "NO_WORD"))
            compare(f"doing {word}", told_or_refused(lambda: graph.apply(word)), ("refused", "NO_WORD"))
        other = cf.word_of(events.Claim(0, 1))
        compare("doing what names another stage", told_or_refused(lambda: graph.apply(other)), ("refused", "NO_STAGE"))


def names_of_codes():
    for code in cf.Code:
        if code is not cf.Code.NULL:
            compare("the name of a code", plain(cf.code_text(code)), plain(code.name))
    compare("a code that isn't there", told_or_refused(lambda: cf.code_text(200)), ("refused", "NO_SUCH_NUMBER"))


def one_supply():
    plan = cf.Plan()
    plan.stage(cf.Form.SUPPLY, function=0)
    return plan


def fixed():
    """Rows that need no seed."""
    for rows in (threads_and_callers, functions_that_raise, numbers_out_of_range, words_of_nothing, names_of_codes):
        rows()
