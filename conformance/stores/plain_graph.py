"""A plain graph in Python, from docs/FORMATS.md alone: the judge's, which is independent of the library.

An outcome is ("value", v) or ("fault", cause, wrapped), a cause is its text. A stage's state is one of "pending", "ready", "claimed",
"linked", "settled". Each event settles all that follows from it at once, in rising number."""
import heapq

COMPLETE, FAIL, CANCEL, CLAIM, FINISH, TICK, ATTACH, FAIL_AS = range(1, 9)
FORMS = (
    "source supply runAsync apply accept thenRun combine acceptBoth runBoth applyEither acceptEither runEither compose handle "
    "whenComplete exceptionally allOf anyOf exceptionallyCompose"
).split()

NO_SOURCE = {"source", "supply", "runAsync"}
EITHERS = {"applyEither", "acceptEither", "runEither", "anyOf"}
BOTHS = {"combine", "acceptBoth", "runBoth"}
NIL = {"runAsync", "accept", "thenRun", "acceptBoth", "runBoth", "acceptEither", "runEither"}
LINKS = {"compose", "exceptionallyCompose"}
RESCUES = {"exceptionally", "exceptionallyCompose"}
BAD = ("fault", "badanswer", True)


def wrap(outcome):
    return outcome if outcome[0] == "value" else ("fault", outcome[1], True)


def cause_text(name, code):
    """The cause of a time-out or of a bad answer, without a code where that is 0."""
    return f"{name} {code}" if code else name


def value_text(value):
    return "nil" if value is None else str(value)


def outcome_text(outcome):
    if outcome is None:
        return "pending"
    if outcome[0] == "value":
        return "value " + value_text(outcome[1])
    return f"fault {outcome[1]} {'wrapped' if outcome[2] else 'raw'}"


def signed(low):
    return low - (1 << 32) if low >> 31 else low


class Graph:
    """A graph of a plan as scripts write it: {"cf", "stages", "limits", "room"}."""

    def __init__(self, plan):
        self.form, self.of, self.fn = [], [], []
        self.state, self.args, self.told, self.open, self.link = [], [], [], [], []
        self.dependents = []
        self.ready_heap, self.last, self.used = [], 0, 0
        self.room = plan.get("room", 0)
        functions = 0
        for said in plan["stages"]:
            self._add(said["form"], said.get("of", []), functions if "fn" in said else None)
            functions += "fn" in said
        self.limits = sorted(plan.get("limits", []), key=lambda limit: limit["at"])
        self._spread(list(range(len(self.form))))

    def _add(self, form, of, fn):
        k = len(self.form)
        for rows, item in (
            (self.form, form),
            (self.of, list(of)),
            (self.fn, fn),
            (self.state, "pending"),
            (self.args, None),
            (self.told, None),
            (self.open, None),
            (self.link, None),
            (self.dependents, []),
        ):
            rows.append(item)
        for source in of:
            self.dependents[source].append(k)
        return k

    # What callers ask.

    @property
    def stages(self):
        return len(self.form)

    def ready(self):
        heap = self.ready_heap
        while heap and self.state[heap[0]] != "ready":
            heapq.heappop(heap)
        return heap[0] if heap else None

    def function(self, stage):
        return self.fn[stage]

    def outcome(self, stage):
        return outcome_text(self.told[stage])

    def settled(self, stage):
        return self.told[stage] is not None

    # One step.

    def _settle(self, stage, outcome):
        self.state[stage], self.told[stage] = "settled", outcome
        return self.dependents[stage]

    def _spread(self, heap):
        heap = list(heap)
        heapq.heapify(heap)
        while heap:
            k = heapq.heappop(heap)
            if self.state[k] == "linked":
                told = self.told[self.link[k]]
                if told is not None:
                    for it in self._settle(k, wrap(told)):
                        heapq.heappush(heap, it)
            elif self.state[k] == "pending":
                due = self._due(k)
                if due is None:
                    continue
                if due[0] == "needs":
                    self.state[k], self.args[k] = "ready", due[1]
                    heapq.heappush(self.ready_heap, k)
                else:
                    for it in self._settle(k, due[1]):
                        heapq.heappush(heap, it)

    def _due(self, k):
        form, told = self.form[k], [self.told[source] for source in self.of[k]]
        if form == "source":
            return None
        if form in NO_SOURCE:
            return "needs", "none"
        there = [it for it in told if it is not None]
        if form == "anyOf":
            return ("settles", wrap(there[0])) if there else None
        if form in BOTHS or form == "allOf":
            if len(there) < len(told):
                return None
            fault = next((it for it in there if it[0] == "fault"), None)
            if fault is not None:
                return "settles", wrap(fault)
            if form == "allOf":
                return "settles", ("value", None)
            return "needs", "none" if form == "runBoth" else f"two {value_text(told[0][1])} {value_text(told[1][1])}"
        if not there:
            return None
        it = there[0]
        if form in ("handle", "whenComplete"):
            return "needs", "got " + outcome_text(it)
        if form in RESCUES:
            return ("needs", "got " + outcome_text(it)) if it[0] == "fault" else ("settles", it)
        if it[0] == "fault":
            return "settles", wrap(it)
        return "needs", "none" if form in ("thenRun", "runEither") else "one " + value_text(it[1])

    def _direct(self, stage, outcome):
        if self.state[stage] == "settled":
            return False
        self._spread(self._settle(stage, outcome))
        return True

    def apply(self, w):
        """Does the event of a word, and gives its reply's text."""
        kind, who, stage, tag, low = w >> 56, w >> 48 & 0xFF, w >> 36 & 0xFFF, w >> 32 & 0xF, w & 0xFFFFFFFF
        if kind == CLAIM:
            state = self.state[stage]
            if state == "ready":
                self.state[stage], self.open[stage] = "claimed", who
                return "granted " + self.args[stage]
            return {"settled": "settled", "pending": "notready"}.get(state, "taken")
        if kind == FINISH:
            return self._finish(who, stage, tag, low)
        if kind == COMPLETE:
            return "true" if self._direct(stage, ("value", signed(low) if tag else None)) else "false"
        if kind == FAIL:
            return "true" if self._direct(stage, ("fault", f"thrown {low}", False)) else "false"
        if kind == FAIL_AS:
            return "true" if self._direct(stage, ("fault", cause_text(("timeout", "badanswer")[tag], low), False)) else "false"
        if kind == CANCEL:
            raw = ("fault", "cancelled", False)
            return "true" if self._direct(stage, raw) or self.told[stage] == raw else "false"
        if kind == TICK:
            return self._tick(low)
        assert kind == ATTACH, w
        if not self.room:
            return "stagesfull"
        self.room -= 1
        form = FORMS[low >> 24]
        k = self._add(form, (stage, low >> 12 & 0xFFF)[:tag], None if form in ("source", "allOf", "anyOf") else low & 0xFFF)
        self._spread([k])
        return f"attached {k}"

    def _finish(self, who, stage, tag, low):
        if self.open[stage] != who:
            return "notyours"
        self.open[stage] = None
        if self.state[stage] == "settled":
            return "late"
        form = self.form[stage]
        source = self.told[self.of[stage][0]] if self.of[stage] else None
        if form == "whenComplete" and source[0] == "fault":
            outcome = wrap(source)
        elif tag == 2:
            outcome = ("fault", f"thrown {low}", True)
        elif form in LINKS:
            if tag != 3 or low >= stage:
                outcome = BAD
            elif self.told[low] is not None:
                outcome = wrap(self.told[low])
            else:
                self.state[stage], self.link[stage] = "linked", low
                self.dependents[low].append(stage)
                return "won"
        elif tag == 3:
            outcome = BAD
        elif form == "whenComplete":
            outcome = source
        else:
            outcome = ("value", None if form in NIL or not tag else signed(low))
        self._spread(self._settle(stage, outcome))
        return "won"

    def _tick(self, now):
        if now < self.last:
            return "past"
        self.last, fired = now, 0
        while self.used < len(self.limits) and self.limits[self.used]["at"] <= now:
            limit = self.limits[self.used]
            self.used += 1
            fault = ("fault", cause_text("timeout", limit.get("code", 0)), False)
            fired += self._direct(limit["stage"], fault if limit["kind"] == "timeout" else ("value", limit["value"]))
        return f"fired {fired}"
