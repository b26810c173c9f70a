"""Random programs of user code, which `cf.testing` has to bring to the same ends with and without what it leaves out."""
import random

from cf.testing import orders, pure, touches

SHARED = 3  # variables


class Program:
    """A program by a seed: what its functions do is drawn once, so that each run does the same."""

    def __init__(self, seed):
        r = random.Random(seed)
        self.requests = r.choice([1, 1, 2])
        self.stages = [self.stage(r, i) for i in range(r.randrange(2, 5))]
        self.arrivals = [r.choice([("arrives", r.randrange(3)), ("fails", 0), ("may", 1)]) for _ in range(r.randrange(0, 3))]
        self.callers = [[self.act(r, len(self.stages)) for _ in range(r.randrange(1, 3))] for _ in range(r.randrange(0, 3))]
        self.limits = [(r.randrange(len(self.stages)), r.randrange(1, 4)) for _ in range(r.choice([0, 0, 1, 2]))]
        self.callbacks = [(r.randrange(len(self.stages)), self.act(r, len(self.stages))) for _ in range(r.choice([0, 0, 1, 2]))]
        self.check = (r.randrange(SHARED), r.randrange(1, 4), r.randrange(len(self.stages))) if r.random() < 0.3 else None

    def stage(self, r, i):
        kind = r.choice(["supply", "promise", "adopt"] + (["then", "handle", "recover", "combine", "either", "all_of", "compose"] if i else []))
        return (
            kind,
            [r.randrange(i) for _ in range(2)] if i else [],
            [self.act(r, i) for _ in range(r.randrange(0, 3))],
            r.choice(["", "", "pure", "touches"]),
        )

    def act(self, r, count):
        """Something that a function does."""
        kinds = ["set", "add", "read", "none"] + (["complete", "cancel", "abandon", "done", "attach", "callback", "wait"] if count else [])
        return r.choice(kinds), r.randrange(SHARED), r.randrange(4), r.randrange(max(count, 1))


class Made:
    """One run of a program."""

    def __init__(self, program, world):
        self.program, self.world = program, world
        self.shared, self.log, self.stages = [0] * SHARED, [], []
        requests = [world.service.request() for _ in range(program.requests)]
        arrivals = [getattr(world, word)(RuntimeError("x") if word == "fails" else value) for word, value in program.arrivals]
        for i, it in enumerate(program.stages):
            self.stages.append(self.stage(requests[i % len(requests)], it, arrivals))
        for i, seconds in program.limits:
            self.stages[i].or_timeout(seconds)
        for i, act in program.callbacks:
            self.stages[i].add_done_callback(lambda _, act=act: self.act(act, False))
        for c, acts in enumerate(program.callers):
            world.calls(*[self.call(act) for act in acts])
        if program.check is not None:
            variable, most, i = program.check
            world.check(lambda: self.shared[variable] < most or not self.stages[i].done(), "checked")
        world.test = self

    def stage(self, request, said, arrivals):
        kind, of, acts, mark = said
        of = [request.adopt(self.stages[i]) for i in of]
        fn = self.function(acts, mark)
        if kind == "supply":
            return request.supply(fn)
        if kind == "promise" or kind == "adopt" and not arrivals:
            return request.promise()
        if kind == "adopt":
            return request.adopt(arrivals[0])
        if kind == "all_of":
            return request.all_of(*of)
        if kind == "compose":
            return of[0].compose(lambda value: of[1])
        return getattr(of[0], kind)(*of[1:] * (kind in ("combine", "either")), fn)

    def function(self, acts, mark):
        if mark == "pure":
            return pure(lambda *given: len(given))
        if mark == "touches":
            return touches("log")(lambda *given: self.log.append(len(given)))

        def fn(*given):
            for act in acts:
                self.act(act, True)
            return sum(self.shared)

        return fn

    def call(self, act):
        """A caller's call: of a stage's method where it is one."""
        if act[0] in ("cancel", "abandon"):
            return getattr(self.stages[act[3]], act[0])
        return lambda: self.act(act, False)

    def act(self, act, may_wait):
        kind, variable, value, i = act
        if kind == "set":
            self.shared[variable] = value
        elif kind == "add":
            self.shared[variable] += 1
        elif kind == "read":
            self.shared[variable] = self.shared[(variable + 1) % SHARED] + 1
        elif kind == "complete":
            self.stages[i].complete(value)
        elif kind in ("cancel", "abandon"):
            getattr(self.stages[i], kind)()
        elif kind == "done":
            self.shared[variable] = int(self.stages[i].done())
        elif kind == "attach":
            self.stages.append(self.stages[i].handle(lambda *_: self.shared.__setitem__(variable, value)))
        elif kind == "callback":
            self.stages[i].add_done_callback(lambda _: self.shared.__setitem__(variable, value))
        elif kind == "wait" and may_wait:
            try:
                self.shared[variable] = int(bool(self.stages[i].result(value or None)))
            except Exception as error:
                self.shared[variable] = len(type(error).__name__)

    def end(self):
        texts = [
            (stage.cancelled(), None if not stage.done() or stage.cancelled() else repr(stage.exception(0) or stage.result(0)))
            for stage in self.stages
        ]
        return repr((texts, self.shared, self.log))


def compare(seed, most, told):
    """Tries a program both ways."""
    program = Program(seed)
    options = {"failures": 10**9, "smaller": False, "seconds": 60, "ends": lambda world: world.test.end()}

    def test(world):
        Made(program, world)

    plain = orders(test, reduce=False, most=most, **options)
    if not plain.whole:
        told.too_large += 1
        return
    reduced = orders(test, most=2 * most, **options)
    told.programs += 1
    told.program_orders += plain.orders
    told.program_tried += reduced.orders + reduced.cut
    both = [(set(report.ends), {failure.why for failure in report.failed}) for report in (plain, reduced)]
    if both[0] != both[1] or not reduced.whole:
        told.wrong.append(
            f"program {seed}: {len(both[0][0])} ends and {both[0][1]}, and with orders left out {len(both[1][0])} and {both[1][1]}; "
            f"missed {list(both[0][0] - both[1][0])[:2]}"
        )
