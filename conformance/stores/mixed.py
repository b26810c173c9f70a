"""A process that works on mixed requests with others until it is stopped or killed: mixed.py ADDRESS FOLDER SEED.

One request has transactional functions, further tries, stages that run once, timers, and callbacks that put. The process has one or two
services, and its own thread calls them as a user does: it opens requests, completes and attaches stages, sets timers, lets go of requests and
opens them again by name, and drops some, so that their names begin anew. It writes to its own log at once what it means to do, what it is
told and what it sees.

A call that doesn't come back within HANG seconds ends the process, and FOLDER/hang-PID says what all of its threads did. So does a store in
which nothing goes on for that long once it is to stop.
"""
import faulthandler
import functools
import json
import logging
import os
import random
import sys
import threading
import time
import zlib
from concurrent.futures import InvalidStateError

import mixed_functions
from mixed_functions import functions, said_of
from plans import flow_of, is_flow, kinds_of
from process import Process, sure

from cf.service import RequestFull
from cf.store import Broken, DurableService, StoreError, Unknown, connect
from cf.store import service as shared_service
from cf.store.leader import Leader
from cf.store.rows import COUNT_BITS

WINDOW = int(os.environ.get("WINDOW", "8"))
GONE = float(os.environ.get("GONE", "0.7"))
HANG = float(os.environ.get("HANG", "60"))
ALARM = 15.0  # seconds: no timer is set for more than one
CLOSED = 5.0  # seconds: who attaches to a closed request opens it at once
MORE = 8  # stages that are attached to a request at most, more or less
TOLD = (Unknown, StoreError, KeyError, RequestFull, InvalidStateError)  # what a call may be answered while others drop the request


class NotingLeader(Leader):
    """Writes down which of its words it has seen stand, and which outcomes it shows, with the request's number."""

    note = None

    def _take_in(self, order, request, entries):
        at = request.words
        super()._take_in(order, request, entries)
        for place, (word, token) in enumerate(request.entries[at:], at + 1):
            if token >> COUNT_BITS == self.session:
                self.note("did", *self.head(request), place, word, None)

    def _due_of(self, request, stages):
        due = super()._due_of(request, stages)
        for it in due:
            self.note("saw", *self.head(request), request.words, it.stage, self._machine.stage(request.number, it.stage)[1])
        return due

    def head(self, request):
        return request.name, request.number, self.session, f"{self.session} {request.number}"


def forms(request):
    """How many stages a request has."""
    return len(request._followed.forms)


class Errors(logging.Handler):
    """Writes what the library logs as an error to the process's own log."""

    def __init__(self, note):
        super().__init__(logging.ERROR)
        self.note = note

    def emit(self, record):
        cause = record.exc_info and repr(record.exc_info[1])
        self.note("error", "", f"{record.getMessage()}{': ' if cause else ''}{cause or ''}")


class Client(Process):
    label, functions = "mixed", functions

    def __init__(self, address, folder, seed):
        super().__init__(folder, seed, f"{self.label}-{os.getpid()}")
        self.hang = open(f"{folder}/hang-{os.getpid()}", "w")
        self.arm()
        stores = [self.connected(address) for _ in range(1 + (self.rng.random() < 0.4))]
        shared_service.Leader, NotingLeader.note, mixed_functions.note = NotingLeader, staticmethod(self.note), self.note
        self.services = [
            DurableService(
                store,
                self.rng.choice([1, 2, 3]),
                functions=self.functions,
                lease=GONE,
                takes_all=not k or self.rng.random() < 0.5,
                groups=self.rng.random() < 0.3,
            )
            for k, store in enumerate(stores)
        ]
        logging.getLogger("cf.store").addHandler(Errors(self.note))
        logging.getLogger("cf.store").propagate = False
        self.store, self.kinds = stores[0], kinds_of(stores[0].is_transactional)
        self.kept, self.known, self.timed, self.count = {}, set(), set(), 0

    def connected(self, address):
        return sure(lambda: connect(address))

    def arm(self):
        faulthandler.dump_traceback_later(HANG, exit=True, file=self.hang)

    def token(self):
        """A text that no other call has, here or elsewhere."""
        self.count += 1
        return f"{self.services[0].session:x}-{self.count}"

    # Requests.

    def opened(self, number, rng):
        """The request of a number, as it was kept, or opened again by its name, or begun."""
        name, service = str(number), rng.choice(self.services)
        if number in self.kept and rng.random() < 0.8:
            return self.kept[number]
        if self.kept.pop(number, None) is None and service.store.find(name) is None:
            request = self.begun(number, name, service, rng)
        else:
            request = service.open(name)
        if (name, self.number_of(request)) in self.known:
            self.note("again", name, self.number_of(request), name not in service.store.ends())
        self.known.add((name, self.number_of(request)))
        self.kept[number] = request
        return request

    @staticmethod
    def is_flow(number):
        return is_flow(number)

    def flow(self, number, mark):
        return flow_of(number, mark, functions, self.kinds)

    def begun(self, number, name, service, rng):
        if not self.is_flow(number):
            return service.request(name)
        flow = self.flow(number, f"{rng.getrandbits(32):x}")
        given = [{"token": self.token()} for _ in flow._promises][: rng.randint(0, 2)]
        for stage, it in zip(flow._promises, given):
            self.note("means", name, None, stage, it["token"])
        try:
            return service.start(flow, *given, name=name)
        except Broken as error:
            if "another plan" not in str(error):
                raise
            return service.open(name)  # another process was first

    @staticmethod
    def number_of(request):
        return request.number

    @staticmethod
    def open_stages(request):
        return [k for k in range(forms(request)) if request._service.leader.outcome(request._followed, k) is None]

    def promises(self, request, name="promise"):
        return [k for k in self.open_stages(request) if request._definition(k)["name"] == name]

    # What a user does.

    def means(self, request, stage, call, token=None):
        """Says what it is about to put, with a token; does it; and says what it was answered."""
        token = token or self.token()
        said = (request.name, self.number_of(request), stage, token)
        self.note("means", *said)
        self.note("answered", *said, call(request[stage], token))

    def settle(self, request, stage, rng):
        if rng.random() < 0.8:
            self.means(request, stage, lambda it, token: it.complete({"token": token}))
        else:
            self.means(request, stage, lambda it, token: it.fail(ValueError(token)))

    def set_timer(self, request, stage, rng, most=0.5):
        seconds = rng.randrange(10**5, 10**6) / 10**6 * most
        self.timed.add((request.name, self.number_of(request), stage))
        if rng.random() < 0.5:
            self.means(request, stage, lambda it, token: it.or_timeout(seconds) and None, f"{seconds} s")
        else:
            self.means(request, stage, lambda it, token: it.complete_on_timeout({"token": token}, seconds) and None, f"timer {self.token()}")
        self.note("timer", request.name, self.number_of(request), stage)

    def attach(self, request, rng):
        """Attaches a stage. Where a flow's request is closed behind that, its row says whether the stage was settled by then: what this
        process reads of it may be stale, while a listing isn't."""
        stage, name, store = self.attached(request, rng), request.name, self.services[0].store
        if request._followed.planned and name not in store.ends():
            for words in [it.words for it in store.listing() if it.name == name and it.closed is not None]:
                self.note("closed behind", name, self.number_of(request), stage.number, words)

    def attached(self, request, rng):
        """A stage more, with or without further tries: what it is behind stands in any place."""
        many, where = forms(request), f"{request.name}.{self.token()}"
        call = functools.partial(functions.find(rng.choice(self.kinds), 1).call, where=where)
        one, other = (request[rng.randrange(many)] if many else None for _ in range(2))
        pick = rng.random()
        if one is None or pick < 0.2:
            made = request.supply(call)
        elif pick < 0.3:
            return request.promise("alarm" if rng.random() < 0.3 else "promise")
        elif pick < 0.4:
            return getattr(request, rng.choice(["all_of", "first_of", "gather"]))(one, other)
        elif pick < 0.5:
            return one.compose(functools.partial(functions.find("composing", 1).call, where=where, inner=rng.choice(self.kinds)))
        elif pick < 0.6:
            made = getattr(one, rng.choice(["combine", "either"]))(other, call)
        else:
            made = getattr(one, rng.choice(["then", "then", "handle", "when_done", "recover"]))(call)
        return made.again(rng.choice([0, 0, 1, 2, 4]))

    def call_back(self, request, stage, rng):
        """Lets a callback put something when a stage is settled: into its own request, or into another."""
        what, seed = rng.choice(["complete", "attach", "put elsewhere", "set a timer"]), rng.random()
        to = self.kept[rng.choice(list(self.kept))]
        said = (request.name, self.number_of(request), stage)

        def called(future):
            own = random.Random(seed)
            try:
                error = None if future.cancelled() else future.exception(0)
                self.shown(said, ["cancelled"] if future.cancelled() else ["error", said_of(error)] if error else ["value", future.result(0)])
                self.put_back(what, request, to, own)
                self.note("called back", *said, what)
            except TOLD as refused:
                self.note("refused", *said, str(refused))
            except RuntimeError as refused:
                if "shutdown" not in str(refused):
                    self.note("error", request.name, repr(refused))
            except BaseException as error:
                self.note("error", request.name, repr(error))

        request[stage].add_done_callback(called)

    def shown(self, said, told):
        self.note("shown", *said, told)

    def put_back(self, what, request, to, rng):
        request = to if what == "put elsewhere" else request
        promises, left = self.promises(request), self.open_stages(request)
        if what == "set a timer" and left:
            self.set_timer(request, rng.choice(left), rng)
        elif what != "attach" and promises:
            self.settle(request, rng.choice(promises), rng)
        elif forms(request) < request._followed.planned + MORE:
            self.attach(request, rng)

    def step(self, number):
        rng = self.rng
        request = self.opened(number, rng)
        stages, left, name = range(forms(request)), self.open_stages(request), request.name
        if stages and not left:
            self.settled(number, request)
            return
        for stage in self.promises(request, "alarm"):
            if (name, self.number_of(request), stage) not in self.timed:
                self.set_timer(request, stage, rng)
        pick, promises = rng.random(), self.promises(request)
        may_attach = len(stages) < request._followed.planned + MORE
        if not stages or pick < 0.15 and may_attach:
            self.attach(request, rng)
        elif pick < 0.5 and promises:
            self.settle(request, rng.choice(promises), rng)
        elif pick < 0.6:
            self.set_timer(request, rng.choice(left or stages), rng)
        elif pick < 0.75:
            self.call_back(request, rng.choice(left or stages), rng)
        elif pick < 0.8:
            stage = request[rng.choice(stages)]
            stage.cancel() if rng.random() < 0.7 else stage.abandon()
        elif pick < 0.84:
            self.tell(request)
        elif pick < 0.85:
            self.drop(number, request, rng.choice([None, request.words_seen]))
        else:
            self.kept.pop(number, None)

    def settled(self, number, request):
        """All is settled: it is gone on with, or its name is begun anew, or it is left to be."""
        pick, name = self.rng.random(), request.name
        if forms(request) < request._followed.planned + MORE and pick < 0.5:
            if name not in self.store.ends():
                self.note("opens", name, self.number_of(request))
            self.attach(request, self.rng)
        elif pick < 0.6:
            self.drop(number, request, self.rng.choice([None, request.words_seen]))
        elif pick < 0.7:
            self.tell(request)
        else:
            if not self.is_flow(number):
                request.end()
            self.finished(number)

    def drop(self, number, request, at):
        """Drops the request of a name, whichever it is by now."""
        self.note("drops", request.name)
        self.note("dropped", request.name, self.services[-1].store.drop(request.name, at))
        if self.rng.random() < 0.5:
            self.kept.pop(number, None)

    def tell(self, request):
        """Writes down what a history says."""
        history = request.history()
        values = zlib.crc32(json.dumps(list(history.values)).encode())
        self.note("history", request.name, self.number_of(request), len(history.words), zlib.crc32(json.dumps(list(history.words)).encode()), values)

    # The end: what is open is completed, and nothing is begun.

    def finish(self):
        since, state, alarms, fine = time.monotonic(), None, {}, set()
        while True:
            listing, left = [it for it in sure(self.store.listing)], 0
            for it in listing:
                if it not in fine:
                    try:
                        unsettled = self.finish_one(it, alarms)
                    except TOLD as error:
                        unsettled = None
                        if isinstance(error, Broken) and "no such request" not in str(error):
                            self.note("error", it.name, str(error))
                    left += unsettled != 0
                    if unsettled == 0 and it.closed is not None:
                        fine.add(it)
            if not left and all(it.closed is not None for it in listing):
                return
            if listing != state:
                since, state = time.monotonic(), listing
            if time.monotonic() - since > HANG:
                self.hang.write(f"{left} requests have stages left, and nothing goes on\n")
                self.hang.flush()
                faulthandler.dump_traceback(self.hang)
                os._exit(3)
            self.arm()
            time.sleep(0.05)

    @staticmethod
    def waited(since, key, seconds):
        """Whether something was so for some seconds; it begins anew then."""
        if time.monotonic() - since.setdefault(key, time.monotonic()) < seconds:
            return False
        del since[key]
        return True

    def finish_one(self, listed, alarms):
        """Completes the promises of a request; how many stages are left."""
        name, rng = listed.name, self.rng
        request = self.services[0].open(name)
        number, left = self.number_of(request), self.open_stages(request)
        if left and listed.closed is not None and (not request._followed.planned or self.waited(alarms, (name, number), CLOSED)):
            if request._followed.planned:
                self.note("closed", name, number, listed.words)
            self.store.reopen(name)  # (others may have attached to it while it was ended)
        for stage in self.promises(request):
            self.settle(request, stage, rng)
        for stage in self.promises(request, "alarm"):
            key = (name, number, stage)
            if self.waited(alarms, key, ALARM):
                self.note("late", *key)
                self.set_timer(request, stage, rng, 0.2)
            elif key not in self.timed:
                self.set_timer(request, stage, rng)
        if not left and listed.closed is None and not request._followed.planned:
            request.end()
        return len(left)

    def run(self):
        for finished, active in self.rounds(WINDOW):
            self.arm()
            for number in list(self.kept):
                if number in finished:
                    del self.kept[number]
            for number in self.rng.sample(active, min(3, len(active))):
                try:
                    self.step(number)
                except Broken as error:
                    self.kept.pop(number, None)
                    if "no such request" not in str(error):
                        self.note("error", str(number), str(error))
                except TOLD:
                    self.kept.pop(number, None)
        self.finish()
        for service in self.services:
            self.arm()
            service.shutdown()
        for service in self.services:
            for name, error in service.broken.items():
                self.note("error", name, f"broken here: {error}")
        self.note("end")


if __name__ == "__main__":
    Client(sys.argv[1], sys.argv[2], int(sys.argv[3])).run()
    faulthandler.cancel_dump_traceback_later()
    assert threading.active_count() < 100
