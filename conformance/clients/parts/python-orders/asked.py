"""Questions of `cf_look explore`, asked of a service under `cf.testing`."""
import functools
import json

import model
from cf.service.words import FORMS, name_of
from cf.testing import orders

NIL = ["runAsync", "accept", "thenRun", "acceptBoth", "runBoth", "acceptEither", "runEither"]


class Thrown(Exception):
    """What a function of a question throws."""

    def __init__(self, code):
        super().__init__(code)
        self.code = code


class Told:
    """What was compared."""

    def __init__(self):
        self.wrong, self.counted, self.asked, self.orders, self.tried, self.programs, self.too_large = [], 0, 0, 0, 0, 0, 0
        self.program_orders = self.program_tried = self.whole = self.kept = self.kept_orders = self.kept_tried = 0

    def __str__(self):
        return (
            f"{self.asked} questions of {self.orders} orders have the same ends in {self.tried}, {self.whole} of them whole; {self.counted} "
            f"have the same numbers of orders; {self.programs} programs of {self.program_orders} orders have the same ends in "
            f"{self.program_tried}; {self.kept} over a store of "
            f"{self.kept_orders} orders have the same ends in {self.kept_tried}; {self.too_large} were "
            f"too large; {len(self.wrong)} otherwise"
        )


# A question as a test.


def cause_of(error):
    if isinstance(error, Thrown):
        return ("thrown", error.code)
    return ("timeout",) if isinstance(error, TimeoutError) else ("cancelled",)


def called(said, form, stages, *given):
    """What a function of a question does with what the service calls it with."""
    if form in ("handle", "whenComplete", "exceptionally", "exceptionallyCompose"):
        value, error = given if len(given) == 2 else (None, given[0])
        args = ("got", ("value", value) if error is None else ("fault", cause_of(error), True))
    else:
        args = (("none",), ("one", *given), ("two", *given))[len(given)]
    how, answer = model.call(said, args)
    if how == "throw":
        raise Thrown(answer)
    return stages[answer] if how == "link" else None if form in NIL else answer


class Asked:
    """One run of a question."""

    def __init__(self, said, world, counts):
        self.said, self.world, self.counts = said, world, counts
        self.request, self.stages, self.room = world.service.request("q"), [], said.get("room", 0)
        for it in said["stages"]:
            self.attach(it)
        for limit in said.get("limits", []):
            stage = self.stages[limit["stage"]]
            if limit["kind"] == "timeout":
                stage.or_timeout(limit["at"])
            else:
                stage.complete_on_timeout(limit["value"], limit["at"])
        for c, steps in enumerate(said["callers"]):
            world.calls(*[call for it in steps for call in self.calls(c, it)])
        world.test = self

    def attach(self, said):
        form, of = said["form"], [self.stages[i] for i in said.get("of", [])]
        fn = said.get("fn")
        if isinstance(fn, dict) and "same" in fn:
            fn = self.said["stages"][fn["same"]]["fn"]
        call = None if fn is None else functools.partial(called, fn, form, self.stages)
        if form in ("allOf", "anyOf") and len(of) != 2:
            self.stages.append(self.request.all_of(*of) if form == "allOf" else self.request.first_of(*of))
            return
        first, second = (*of, None, None)[:2]
        self.stages.append(self.request._attach(FORMS.index(form), first, second, call, None, None, form if fn is None else name_of(call)))

    def calls(self, c, said):
        """A step as calls. A join is as many looks as it may take, or where orders are counted as many as it takes."""
        if said[0] != "join" or self.counts:
            return [self.call(c, said)]
        return [lambda: said[1] < len(self.stages) and self.stages[said[1]].done()] * said[2]

    def call(self, c, said):
        word = said[0]
        if word == "attach":
            return lambda: self.attach_later(said[1])
        if word == "join":
            return lambda: self.join(c, said, 1)
        stage = self.stages[said[1]]
        if word == "complete":
            return functools.partial(stage.complete, said[2])
        if word == "fail":
            return functools.partial(stage.fail, Thrown(said[2]))
        return stage.abandon if word == "cancel" else stage.done

    def attach_later(self, said):
        if self.room:
            self.room -= 1
            self.attach(said)

    def join(self, c, said, looks):
        """A look; the next one is a call more."""
        if looks < said[2] and not (said[1] < len(self.stages) and self.stages[said[1]].done()):
            calls, place = self.world._run.callers[c][1], self.world._run.called[c]
            calls.insert(place, lambda: self.join(c, said, looks + 1))

    def end(self):
        """The outcomes of all stages, as texts of scripts."""
        history = self.request.history()
        lines = [line.split(" ", 2)[2].split() for line in history.report().splitlines() if line.startswith("stage ")]
        texts = []
        for stage in self.stages:
            words = lines[stage.number]
            if words[0] == "value" and words[1] != "nil":
                words = ["value", str(history.values[int(words[1])])]
            elif words[:2] == ["fault", "thrown"]:
                words = ["fault", "thrown", str(history.errors[int(words[2])].code), words[3]]
            elif words[:2] == ["fault", "timeout"]:
                words = ["fault", "timeout", words[-1]]  # (a limit of a question has no code, and one of a stage that of its exception)
            texts.append("value nil" if words == ["value", "None"] else " ".join(words))
        return tuple(texts)


def compare(explore, said, name, most, told):
    """Asks a question both ways. A search that doesn't end within its bounds must find no other ends."""
    wanted = explore(said)
    if wanted is None:
        told.too_large += 1
        return
    count = sum(wanted.values())

    options = {"free_clock": True, "failures": 10**9, "smaller": False, "seconds": 60, "most": 5 * most, "ends": lambda world: world.test.end()}
    told.asked += 1
    told.orders += count
    enough = said["workers"] >= len(said["stages"]) + said.get("room", 0)  # so that no function waits for a worker
    reduced = orders(lambda world: Asked(said, world, False) and None, workers=0 if enough else said["workers"], **options)
    told.tried += reduced.orders
    told.whole += reduced.whole
    if not set(reduced.ends) <= set(wanted) or reduced.whole and set(reduced.ends) != set(wanted) or reduced.failed:
        told.wrong.append(f"{name}: {len(reduced.ends)} ends, and {len(wanted)} are wanted\n{json.dumps(said)}")
    if count > most:
        return
    plain = orders(lambda world: Asked(said, world, True) and None, workers=said["workers"], reduce=False, **dict(options, most=10**9))
    told.counted += 1
    if plain.ends != wanted:
        told.wrong.append(f"{name}: it comes to {plain.ends}, and {wanted} is wanted\n{json.dumps(said)}")
