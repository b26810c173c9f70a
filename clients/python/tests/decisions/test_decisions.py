#!/usr/bin/env python3
"""What a process decides of a request in a store: the rows of conformance/stores/decisions.rows, whose head says what their lines mean.

    CF_LIBRARY=/path/to/libcf.so python3 clients/python/tests/decisions/test_decisions.py [-v] [Decisions.test_NAME ..]

A test is named for its row. Nothing runs beside it: a function is called within the look that claims it, and the moves go on within the call. A row
that the machine decides otherwise stands in LEFT_OUT with what it lacks. Its test fails once the row passes.
"""
import json
import os
import re
import sys
import threading
import unittest
from concurrent.futures import CancelledError, Future
from pathlib import Path

TOP = Path(__file__).resolve().parents[4]
if not os.environ.get("CF_INSTALLED"):
    sys.path.insert(0, str(TOP / "clients/python"))
from cf.service.words import ATTACH, CANCEL, CLAIM, COMPLETE, FAIL, FAIL_AS, FINISH, FORMS, GIVES, LINKS, THROWS, TICK  # noqa: E402
from cf.store import Abandoned, Broken, Functions, RemoteError, StoreError, Unknown  # noqa: E402
from cf.store.codec import Json  # noqa: E402
from cf.store.host import Host  # noqa: E402
from cf.store.leader import PATIENCE, Leader  # noqa: E402
from cf.store.machine import Act, ActKind, Told  # noqa: E402
from cf.store.replica import NO_VALUE, FinishAnswer  # noqa: E402
from cf.store.rows import Gone, Memory  # noqa: E402
from cf.store.view import RowView  # noqa: E402
from cf.values import Form  # noqa: E402

PEERS = {"B": 2, "C": 3, "D": 4}
LEASE = 10
LOOKS = 0.2  # seconds between two
FORM = {"promise": "source", "either": "applyEither", "again": "exceptionally"}
ERRORS = ("Abandoned", "StoreError", "CancelledError")  # kinds that the client makes
WORDS = {CLAIM: "claim", COMPLETE: "complete", CANCEL: "cancel", FAIL: "fail", FINISH: "finish", FAIL_AS: "time out", ATTACH: "attach"}

LEFT_OUT = {"an act without an answer for a minute may stand": "its put goes on behind the minute for which its user waits"}
KINDS = {"complete": ActKind.COMPLETE, "fail": ActKind.FAIL, "cancel": ActKind.CANCEL_IDLE, "abandon": ActKind.CANCEL}


class Jobs:
    """What the service's threads are to do."""

    def __init__(self):
        self.left = []

    def submit(self, fn, *args):
        self.left.append(lambda: fn(*args))
        return Future()

    def shutdown(self, wait=True):
        """Nobody waits for them."""


class Led(Host):
    """A process whose clock and threads the row leads."""

    holds = False

    def __init__(self, row, session):
        self.row, self.session, self.jobs = row, session, Jobs()

    def monotonic(self):
        return self.row.clock

    time = monotonic

    def sleep(self, seconds):
        self.row.passes(seconds)

    def rest(self, stops, seconds):
        self.row.passes(seconds)

    def wait(self, change, seconds):
        self.row.passes(seconds)

    def number(self, bits):
        return self.session

    def pool(self, workers, name):
        return self.jobs

    def pump(self, run, name):
        return threading.Thread()

    def warn(self, text, request):
        """What can't be done now is tried again."""

    report_failure = report_raised = lambda self, text, error: None

    def report_broken(self, error):
        """Who waits is told."""


class Silenced(Memory):
    """A store in memory that answers as the row says."""

    def __init__(self, row):
        super().__init__()
        self.row = row

    def now(self):
        return self.row.clock


class Scripted:
    """That store, as the process has it."""

    def __init__(self, row):
        self.row = row

    def __getattr__(self, name):
        call = getattr(self.row.store, name)
        return call if not callable(call) or name == "check_may_put" else lambda *given: self.row.asked(name, call, *given)


class Row:
    """A row, which leads a process: a `Leader`."""

    def __init__(self, lines):
        self.given = [line for line in lines if not line.startswith("  ")]
        self.clock, self.at, self.moves, self.is_over = 0.0, 0, [], False
        self.store, self.names, self.plan, self.views = Silenced(self), [], [], {}
        self.threads, self.knows, self.is_request = 1, ["f", "g", "h"], False
        self.calls, self.plays, self.until, self.is_dropped, self.ended = [], [], {}, False, 0
        self.functions = Functions()

    # The row's lines.

    def tell(self):
        """What comes of the row, as its lines say it."""
        self.head()
        for name in self.knows:
            self.functions.function(name)(self.function(name))
        self.host = Led(self, 1)
        self.begin()
        self.play()
        return self.moves

    def head(self):
        """What stands before the process begins."""
        before = []
        while not self.given[self.at].startswith(("> ", "store: ")):
            line = self.given[self.at]
            self.at += 1
            word, _, rest = line.partition(" ")
            if word == "threads":
                self.threads = int(rest)
            elif word == "knows":
                self.knows = rest.split()
            elif word == "request":
                self.is_request = True
            elif " = " in line and not line.startswith("B: "):
                self.plan.append(line)
            else:
                before.append(line)
        stages = []
        for line in () if self.is_request else self.plan:
            form, of, said = self.stage(line)
            stages.append({"form": FORMS[form], "of": list(of), **said})
            self.names.append(said["name"])
        plan = json.dumps({"cf": 3, "flow": "" if self.is_request else "row", "stages": stages})
        self.opened = self.store.open("r", plan)
        for line in self.plan if self.is_request else ():
            self.peer(f"D: attach {line}")
        for line in before:
            self.peer(line)

    def stage(self, line):
        """The form, the sources and the definition of a stage."""
        name, _, form, *rest = line.split()
        to = self.names.index(rest.pop()) if rest[-2:-1] == ["into"] else None
        rest = [it for it in rest if it != "into"]
        of = tuple(self.names.index(it) for it in rest if it in self.names)
        said = {"name": name}
        if form == "again":
            said["again"] = of[0]
        elif form != "promise":
            said.update(fn=rest[-1], version=1)
        if to is not None:
            said["to"] = to
        return FORMS.index(FORM.get(form, form)), of, said

    def play(self):
        """Goes through the lines, until the function ends that was called last."""
        while self.at < len(self.given):
            line = self.given[self.at]
            self.at += 1
            if line.startswith("store: "):
                self.prepare(line[7:])
            elif not line.startswith("> "):
                self.peer(line)
            else:
                self.moves.append((line, {"puts": [], "calls": [], "shows": [], "told": [], "closes": []}))
                words = line[2:].split()
                if words[1:2] in (["gives"], ["throws"]):
                    if words[0] != self.calls[-1]:
                        raise ValueError(f"{line}: {self.calls[-1]} was called last")
                    self.ended += 1
                    return words[1:]
                self.move(*words)
                self.look()
        self.is_over = True
        return ["gives", "null"]

    def add(self, kind, said=""):
        if not self.is_over:
            self.moves[-1][1][kind].append(said)

    # The process.

    def begin(self):
        self.leader = Leader(Scripted(self), self.threads, self.functions, lease=LEASE, takes_all=True, host=self.host)
        self.request = self.leader.follow(self.opened)
        self.leader.lead_until(self.request.is_begun)
        while self.request.words < len(self.store.read("r")):
            self.leader.step()

    def stop(self):
        self.leader.stop()

    def wait_for(self, number):
        self.leader.wait_for(self.request, number, lambda it: self.show(number, *it))

    def show(self, number, value, error, is_cancelled):
        """Somebody is shown what a stage came to."""
        self.add("shows", f"{self.names[number]} {'cancelled' if is_cancelled else shown(value, error)}")

    def look(self):
        patience, jobs = self.clock + PATIENCE, self.host.jobs.left
        self.leader.stir()
        while True:
            began = self.clock
            if self.leader.step() is None and self.clock == began:
                continue
            if jobs and len(self.calls) < max(self.threads, 1):
                jobs.pop(0)()
            elif not self.leader.is_over and (self.leader.owes or self.leader.is_unanswered and self.clock < patience):
                self.passes(0.1)
            else:
                return

    def passes(self, seconds):
        self.clock += seconds
        self.store.beat(PEERS["B"])

    def function(self, name):
        def call(*args):
            if self.is_over:
                return None
            self.add("calls", f"{name}({', '.join(map(text_of, args))})")
            self.calls.append(name)
            self.look()
            word, said = self.play()
            self.calls.pop()
            if word == "throws":
                raise RuntimeError(said)
            return json.loads(said)

        return call

    def move(self, word, *rest):
        if word == "stops":
            self.stop()
        elif word == "waits":
            self.wait_for(self.names.index(rest[1]))
        elif rest[1:] == ("pass",):
            until, many = self.clock + float(word) - LOOKS / 2, len(self.moves)
            while self.clock < until and len(self.moves) == many:
                self.passes(LOOKS)
                self.look()
        elif word == "stands":
            self.passes(float(rest[1]))
        elif word != "looks":
            try:
                told = self.act(word, *rest)
                self.add("told", "done" if told is None else json.dumps(told))
            except Unknown:
                self.add("told", "unknown")
            except Gone:
                self.add("told", "gone")
            except StoreError:
                self.add("told", "refused")

    def act(self, word, name, *rest):
        payloads, payload, said = self.leader.payloads, None, None
        stage = self.names.index(rest[2] if word == "attach" else name)
        if word == "attach":
            number, said = self.leader.numbers.number(rest[3], 1), {"name": name, "fn": rest[3], "version": 1}
            act = Act(ActKind.ATTACH, form=Form.APPLY, of=(stage,), function=number)
            self.names.append(name)
        elif word == "limit":
            payload = b"V" + payloads.value(json.loads(rest[3])) if rest[2:] else b"E" + payloads.error(TimeoutError("the limit has passed"))
            return self.leader.set_timer(self.request, stage, float(rest[0]), payload)
        else:
            act = Act(KINDS[word], stage)
            payload = payloads.value(json.loads(rest[0])) if word == "complete" else payloads.error(RuntimeError(rest[0])) if word == "fail" else None
        told = self.told_of(self.leader.act(self.request, act, payload, said))
        return None if word in ("attach", "limit") else told

    def told_of(self, became):
        """Whether an act did what it was to do."""
        told = self.leader.lead_until(became).told
        if told == Told.UNKNOWN:
            raise Unknown("no answer came")
        if told == Told.REFUSED:
            raise StoreError("the store refused it")
        return told in (Told.STANDS, Told.AS_ASKED)

    # The store.

    def prepare(self, said):
        words = said.split()
        if words[0] == "unanswered":
            self.plays.append(said)
        elif words[-1] == "s":
            key = " ".join(words[:-2])
            self.until[key] = float(words[-2]) if key == "beats take" else self.clock + float(words[-2])
        elif said == "dropped":
            self.is_dropped = True
        else:
            many = re.search(r" (\d+) times$", said)
            self.plays += [said[: many.start()] if many else said] * int(many[1] if many else 1)

    def is_now(self, what):
        return not self.is_over and self.clock < self.until.get(what, 0)

    def asked(self, name, call, *given):
        """What the store answers to a call of the process."""
        if self.is_now("silent") or name == "payloads" and self.is_now("payloads silent"):
            raise Unknown("the row says so")
        if self.is_dropped and name in ("append", "read", "payloads", "end"):
            raise Gone("r")
        if self.is_dropped and name == "news":
            return {}, given[0]
        if name in ("append", "beat") and self.is_now("takes nothing"):
            raise StoreError("the row says so")
        if name == "beats" and not self.is_over:
            self.passes(self.until.get("beats take", 0))
        if name == "append":
            return self.append(call, *given)
        told = call(*given)
        if name == "end" and told:
            self.add("closes")
        return told

    def append(self, call, put):
        play = self.plays.pop(0) if self.plays else ""
        if play == "lost":
            raise Unknown("the row says so")
        if play == "refuses":
            raise StoreError("the row says so")
        if play.startswith("first "):
            self.peer(play[6:])
        told = call(put)
        if told is None and any(word >> 56 != TICK for word, _ in put.entries):  # (beside which a timer stands, of which rows say nothing)
            self.add("puts", ", ".join(self.word(word) for word, _ in put.entries))
        if play.startswith("unanswered"):
            if play != "unanswered":
                self.prepare(play.partition(" and ")[2])
            raise Unknown("the row says so")
        return told

    def payload_at(self, place):
        payload = self.store.payloads("r", [place]).get(place)
        return None if payload is None else self.request.value_at(place, payload)

    def word(self, word):
        """A word of the process that stands, as the row says it."""
        kind, stage, tag, place = word >> 56, word >> 36 & 0xFFF, word >> 32 & 0xF, word & 0xFFFFFFFF
        payload = self.payload_at(place) if tag or kind == FAIL else None
        said = WORDS[kind] if kind == ATTACH else f"{WORDS[kind]} {self.names[stage]}"
        if kind == FAIL or kind == FINISH and tag == THROWS:
            error = json.loads(payload)
            said += " throws " * (kind == FINISH) or " "
            return said + (error["error"] if error["error"] in ERRORS else error["text"])
        if kind in (COMPLETE, FINISH):
            said += " " + ("null" if payload is None else payload.decode())
        return said

    # Other processes.

    def peer(self, line):
        """Puts a word of another process."""
        who, what, *rest = re.split(":? ", line)
        if what == "close":
            self.store.end("r", len(self.store.read("r")))
            return
        if who not in self.views:
            self.views[who] = RowView(self.store, self.opened, PEERS[who], host=Led(self, PEERS[who]))
            self.store.beat(PEERS[who])
        view = self.views[who]
        view.catch_up()
        word, payload = self.peer_word(view, what, *rest)
        if not isinstance(word, int):
            raise ValueError(f"{line}: there is no such word")
        view.act(lambda _: [(word, payload)])

    def peer_word(self, view, what, name, *rest):
        if what == "attach":
            form, of, said = self.stage(" ".join([name, *rest]))
            number = 0 if rest[1] == "promise" else len(view.forms)
            self.names.append(name)
            low = len(of) << 32 | form << 24 | (of[1] if of[1:] else 0) << 12 | number
            return ATTACH << 56 | view.caller_number << 48 | (of[0] if of else 0) << 36 | low, json.dumps(said).encode()
        stage = self.names.index(name)
        head = view.caller_number << 48 | stage << 36
        if what == "finish" and rest[0] == "into":
            ended = FinishAnswer(stage, LINKS, self.names.index(rest[1]))
            return view.finish_word(ended), json.dumps({"stage": self.names.index(rest[3])}).encode()
        if what == "finish":
            payload = None if rest[0] == "without" else rest[0].encode()
            return view.finish_word(FinishAnswer(stage, NO_VALUE if rest[0] == "null" else GIVES, view.next_place)), payload
        if what == "complete" and rest[0] != "null":
            return COMPLETE << 56 | head | GIVES << 32 | view.next_place, rest[0].encode()
        if what == "fail":
            return FAIL << 56 | head | view.next_place, Json().write_error(Abandoned("the row says so"))
        return {"claim": CLAIM, "complete": COMPLETE, "cancel": CANCEL}[what] << 56 | head, None


def kind_of(error):
    kind = error.kind if isinstance(error, RemoteError) else type(error).__name__
    return kind if kind in ERRORS else str(error)


def text_of(given):
    """An argument of a function."""
    return kind_of(given) if isinstance(given, BaseException) else json.dumps(given)


def shown(value, error):
    """What a stage that is shown came to."""
    kinds = {CancelledError: "cancelled", TimeoutError: "timed out", Gone: "gone", Broken: "broken"}
    return json.dumps(value) if error is None else kinds.get(type(error)) or kind_of(error)


def lines_of(move, did):
    return [move, *(f"  {kind}: {said}" if said else f"  {kind}" for kind, its in did.items() for said in its)]


class Decisions(unittest.TestCase):
    maxDiff = None


def all_rows():
    """The name of each row, and its lines."""
    _, *rows = re.split("^== ", (TOP / "conformance/stores/decisions.rows").read_text(encoding="utf-8"), flags=re.M)
    for row in rows:
        name, *lines = [line for line in row.splitlines() if line and not line.startswith("#")]
        yield name, lines


def wanted_by(lines):
    first = next(k for k, line in enumerate(lines) if line.startswith("> "))
    return [line for line in lines[first:] if line.startswith(("> ", "  "))]


def told_by(row):
    return [line for move in row.tell() for line in lines_of(*move)]


def add_test(tests, name, test):
    """Adds the test of a row, by its name."""
    test.__doc__ = name
    called = "test_" + re.sub(r"\W+", "_", name.replace("n't", " not"))
    if hasattr(tests, called):
        raise ValueError(f"two rows are {name!r}")
    setattr(tests, called, test)


def tested(lines, why):
    def test(self):
        self.assertEqual(told_by(Row(lines)), wanted_by(lines))

    def test_left_out(self):
        try:
            told = told_by(Row(lines))
        except Exception as error:
            told = [repr(error)]
        self.assertNotEqual(told, wanted_by(lines), f"it passes, and is left out since {why}")

    return test_left_out if why else test


for _name, _lines in all_rows():
    add_test(Decisions, _name, tested(_lines, LEFT_OUT.get(_name)))


if __name__ == "__main__":
    unittest.main()
