"""A process that works on requests with others until it is stopped or killed: worker.py ADDRESS FOLDER SEED.

It writes what it was told to its own log at once, and the log outlives a kill. It relies on nothing that another process says in a log or in
the folder, except for the hint which requests are done. SESSION gives it a session, so that two processes can have the same one.
"""
import json
import os
import random
import sys
import time

from plans import plan_of
from process import Process, sure

from cf.service.words import ATTACH, CANCEL, CLAIM, COMPLETE, FAIL, FAIL_AS, FAILURES, FINISH, FORMS, GIVES, LINKS, THROWS, THROWN, TICK, VALUE
from cf.store import Put, RowView, StoreError, Unknown, Watcher, connect, new_session

WINDOW = int(os.environ.get("WINDOW", "12"))
GONE = float(os.environ.get("GONE", "0.7"))
SLOW = float(os.environ.get("SLOW", "0.004"))
CROWD = int(os.environ.get("CROWD", "0"))  # sessions that have the first numbers of each request, so that others share the last
HAS_FUNCTION = [form not in ("source", "allOf", "anyOf") for form in FORMS]


def word(kind, desk, stage=0, low=0):
    return kind << 56 | desk.caller_number << 48 | stage << 36 | low


class Worker(Process):
    def __init__(self, address, folder, seed):
        self.session = int(os.environ.get("SESSION", "0")) or new_session()
        super().__init__(folder, seed, f"{self.session}-{os.getpid()}")
        self.store = sure(lambda: connect(address))
        self.watcher, self.desks, self.next_beat = Watcher(self.store, GONE), {}, 0.0

    def beat(self):
        now = time.monotonic()
        if now >= self.next_beat:
            self.next_beat = now + GONE / 5
            try:
                self.store.beat(self.session)
            except Unknown:
                pass
            self.watcher.look()

    def desk(self, number):
        if number not in self.desks:
            plan, name = plan_of(number), str(number)
            opened = sure(lambda: self.store.open(name, plan))
            assert opened.plan == plan, "another plan"
            if CROWD:  # (it stands once: the first place is free once)
                ticks = [(TICK << 56 | who << 48, who + 1 << 23) for who in range(CROWD)]
                sure(lambda: self.store.append(Put(name, 0, ticks, {}, opened.number)))
            self.desks[number] = RowView(self.store, opened, self.session, note=self.note)
        return self.desks[number]

    def payloads(self, desk, reply):
        """The objects that a claim's arguments name: they have to be there."""
        kind, first_some, first, second_some, second, got, _, code, some, number = reply[2:12]
        named = [
            it
            for is_there, it in (
                (kind in (1, 2) and first_some, first),
                (kind == 2 and second_some, second),
                (kind == 3 and got == VALUE and some, number),
                (kind == 3 and got in (THROWN, *FAILURES), code),
            )
            if is_there
        ]
        for it in named:
            told = json.loads(desk.payload(it))
            assert told["at"] == it, (desk.name, it, told)

    def call(self, desk, stage, reply):
        """The stage's function: it may run once at most."""
        self.payloads(desk, reply)
        self.note("run", desk.name, stage)
        time.sleep(self.rng.random() * SLOW)
        self.note("ran", desk.name, stage)
        pick, form = random.Random(int(desk.name) * 4096 + stage).random(), FORMS[desk.forms[stage][0]]

        def finish(desk):
            payload = json.dumps({"at": desk.next_place, "by": self.session, "stage": stage, "reply": reply}).encode()
            if form == "compose":
                return word(FINISH, desk, stage, LINKS << 32 | int(pick * stage)), None
            if pick < 0.1:
                return word(FINISH, desk, stage, THROWS << 32 | desk.next_place), payload
            if pick < 0.15:
                return word(FINISH, desk, stage), None
            return word(FINISH, desk, stage, GIVES << 32 | desk.next_place), payload

        return finish

    def work(self, desk):
        """Claims, calls, finishes; each finish but the last goes with the next claim in one put."""
        finish = None
        while True:
            claimed = []

            def decide(desk):
                made = [finish(desk)] if finish else []
                claimed[:] = sorted(desk.ready)[:1]
                return made + [(word(CLAIM, desk, stage), None) for stage in claimed]

            done, _ = desk.act(decide)
            if not done or not claimed or done[-1].reply[0]:
                return
            finish = self.call(desk, claimed[0], done[-1].reply)
            self.beat()

    def any_call(self, desk):
        """A call of some client."""
        rng, many = self.rng, len(desk.forms)
        pick, stage = rng.random(), rng.randrange(many)

        def put(kind, stage, said, tag=0):
            desk.act(lambda desk: [(word(kind, desk, stage, tag << 32 | desk.next_place), json.dumps({"at": desk.next_place, **said}).encode())])

        sources = [k for k in range(many) if not desk.forms[k][0] and not desk.is_settled(k)]
        if sources and pick < 0.6:
            stage = rng.choice(sources)
            if rng.random() < 0.8:
                put(COMPLETE, stage, {"value": rng.random()}, GIVES)
            elif rng.random() < 0.6:
                put(FAIL, stage, {"error": "no"})
            else:
                put(FAIL_AS, stage, {"error": "late"}, rng.randrange(2))
        elif pick < 0.65:
            desk.act(lambda desk: [(word(CANCEL, desk, stage), None)])
        elif pick < 0.72 and many < len(desk.plan.rows) + 3:
            form = rng.choice([3, 13, 17])
            desk.make_room(1)
            said = json.dumps({"name": "attached"}).encode()
            desk.act(lambda desk: [(word(ATTACH, desk, stage, 1 << 32 | form << 24 | (form != 17 and len(desk.forms))), said)])
        else:
            desk.outcome(stage)

    def step(self, number, desk):
        desk.catch_up()
        if all(desk.is_settled(k) for k in range(len(desk.forms))):
            for k in range(len(desk.forms)):
                desk.outcome(k)
            del self.desks[number]
            self.finished(number)
            return
        self.any_call(desk)
        self.work(desk)
        for stage, session in desk.open_claims().items():
            if session != self.session and self.watcher.is_gone(session):

                def decide(desk, stage=stage, session=session):
                    fails = desk.abandon_word(session, stage)
                    if fails is not None:
                        return [(fails, json.dumps({"at": desk.next_place, "abandoned": session}).encode())]
                    return None

                if desk.act(decide)[0]:
                    self.note("abandoned", desk.name, stage, session)

    def run(self):
        self.beat()
        for finished, active in self.rounds(WINDOW):
            for number in list(self.desks):
                if number in finished:
                    del self.desks[number]
            for number in self.rng.sample(active, min(3, len(active))):
                try:
                    self.step(number, self.desk(number))
                except StoreError as error:
                    self.note("error", str(number), str(error))
                    raise
                self.beat()
            self.beat()


if __name__ == "__main__":
    worker = Worker(sys.argv[1], sys.argv[2], int(sys.argv[3]))
    worker.run()
    worker.note("end", sum(desk.unknown for desk in worker.desks.values()))
