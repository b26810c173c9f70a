"""Random programs over a store, which `cf.testing` has to bring to the same ends with and without what it leaves out. In each of their
orders no claim may be granted twice, and each put stands as its process was told."""
import random
from collections import Counter

from cf.store import Functions, StoreError
from cf.testing import orders, pure, touches

FAULTS = ["lost", "unanswered", "late", "silent", "killed", "slow"]
SHARED = 2  # variables


class Program:
    """A program by a seed."""

    def __init__(self, seed):
        r = random.Random(seed)
        self.workers = r.choice([1, 1, 1, 2])
        self.acts = [
            (r.choice(["set", "add", "copy", "raise", "none"]), r.randrange(SHARED), r.choice(["", "", "pure", "touches"])) for _ in range(2)
        ]
        self.stages = [self.stage(r, i) for i in range(r.choice([1, 1, 2]))]
        self.calls = [
            (r.choice(["cancel", "abandon", "complete", "attach", "wait", "done", "open"]), r.randrange(len(self.stages)), r.randrange(SHARED))
            for _ in range(r.choice([0, 1, 1]))
        ]
        self.faults = {r.choice(FAULTS): 1} if r.random() < 0.8 else {}
        self.check = r.randrange(SHARED) if r.random() < 0.3 else None
        self.limit = r.random() < 0.15

    def stage(self, r, i):
        kind = r.choice(["supply", "supply", "transactional", "promise"] + ["then", "handle", "again", "combine"] * (i > 0) * 2)
        return kind, r.randrange(2), r.randrange(max(i, 1))


class Kept:
    """One run of a program."""

    def __init__(self, program, world):
        self.program, self.shared, self.stages = program, [0] * SHARED, []
        self.log, self.marked = [], []  # what clients were told; what functions did that touch nothing else
        self.functions = Functions()
        self.made = [self.functions.function(f"f{k}")(self.function(act)) for k, act in enumerate(program.acts)]
        self.written = self.functions.function("write", transactional=True)(lambda effects, *_: effects.append("x"))
        self.store = world.store(**program.faults)
        for number in range(program.workers):
            self.store.worker(f"worker {number}", self.functions)
        self.shop = self.store.process("shop", self.functions, workers=0)
        request = self.shop.request("order")
        for kind, fn, of in program.stages:
            self.stages.append(self.stage(request, kind, fn, of))
        if program.limit:
            self.stages[0].or_timeout(2)
        for call in program.calls:
            self.shop.calls(lambda call=call: self.call(*call), name="a client")
        if program.check is not None:
            world.check(lambda: self.shared[program.check] < 2 or not self.stages[0].done(), "checked")
        world.at_end(self.is_once, "no claim is granted twice, no word stands twice, and each as it was told")
        world.test = self

    def function(self, act):
        kind, variable, mark = act
        if mark == "pure":
            return pure(lambda *given: len(given))
        if mark == "touches":
            return touches("marked")(lambda *given: self.marked.append(len(given)))

        def fn(*given):
            if kind == "set":
                self.shared[variable] = 1
            elif kind == "add":
                self.shared[variable] += 1
            elif kind == "copy":
                self.shared[variable] = self.shared[1 - variable] + 1
            elif kind == "raise" and self.shared[variable] % 2 == 0:
                self.shared[variable] += 1
                raise KeyError(variable)
            return self.shared[variable]

        return fn

    def stage(self, request, kind, fn, of):
        if kind == "promise":
            return request.promise()
        if kind in ("supply", "transactional"):
            return request.supply(self.written if kind == "transactional" else self.made[fn])
        source = self.stages[of]
        if kind == "again":
            return source.again()
        return source.combine(source, self.made[fn]) if kind == "combine" else getattr(source, kind)(self.made[fn])

    def call(self, word, number, variable):
        """What a client does, and what it was told."""
        stage = self.stages[number]
        try:
            if word in ("cancel", "abandon"):
                self.log.append(getattr(stage, word)())
            elif word == "complete":
                self.log.append(stage.complete(7))
            elif word == "attach":
                self.stages.append(stage.handle(self.made[0]))
            elif word == "open":
                self.shop.request("another order").supply(self.made[0])
            elif word == "done":
                self.shared[variable] = int(stage.done())
            else:
                stage.exception(5)
                self.log.append("there")
        except (StoreError, ConnectionError, TimeoutError) as error:
            self.log.append(type(error).__name__)

    def is_once(self):
        rows = self.store.rows.memory
        tokens = Counter(token for name in self.store.rows.names for _, token in rows.read(name))
        stands = all(rows.read(name)[place - 1][0] == word for _, name, place, word in self.store.answered)
        return (
            stands
            and max(tokens.values(), default=1) == 1
            and len(set(self.store.granted)) == len(self.store.granted)
            and max(Counter(it[1:] for it in self.store.granted).values(), default=1) == 1
        )

    def end(self):
        return (*self.store.outcomes(), *map(str, self.shared), *map(str, self.log + self.marked + self.store.rows.effects))


def compare(seed, most, told):
    """Runs a program both ways."""
    program = Program(seed)

    def test(world):
        Kept(program, world)

    def end(world):
        return world.test.end()

    options = {"failures": 1, "smaller": False, "seconds": 60, "ends": end}
    plain = orders(test, reduce=False, most=most, **options)
    if not plain.whole and not plain.failed:
        told.too_large += 1
        return
    reduced = orders(test, most=10**9, **options)
    told.kept += 1
    told.kept_orders += plain.orders
    told.kept_tried += reduced.orders + reduced.cut
    is_alike = {it.why for it in plain.failed} == {it.why for it in reduced.failed} and (plain.failed or set(plain.ends) == set(reduced.ends))
    if not is_alike or not (reduced.failed or reduced.whole):
        told.wrong.append(
            f"program {seed} over a store: {len(reduced.ends)} ends in {reduced.orders}, and {len(plain.ends)} in {plain.orders} are wanted; "
            f"missing {sorted(set(plain.ends) - set(reduced.ends))[:2]}, {[it.why for it in plain.failed + reduced.failed]}"
        )
