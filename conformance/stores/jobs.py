"""Jobs with an effect, whose workers are killed: what becomes of a stage that is run once, again, or in the engine's own transaction. It stands
alone, before others, between others, or beside another that is ready at the same time."""
import collections
import os
import random
import signal
import subprocess
import sys
import threading
import time
from pathlib import Path

import servers
from jobs_functions import both, functions, inside, outside, same
from process import CLIENT, HERE, database_of

from cf.service import Flow
from cf.store import Abandoned, DurableService, connect

OPEN = 12  # requests at a time
HANG = 60  # seconds in which something has to be settled
MODES = {"once": (outside, 0), "again": (outside, 4), "transaction": (inside, 8)}


def tables(address, statement):
    """Asks the engine itself."""
    db = database_of(address)
    asked = db.execute(statement) or db
    return asked.fetchall() if statement.startswith("select") else []


def flow_of(number, call, name, tries):
    """A flow with an effect, and the steps of the effect and of its end."""
    flow, place = Flow("job"), number % 4
    if place in (0, 1, 3):
        effect = flow.supply(call, name).again(tries)
    else:
        effect = flow.supply(same, name).again(8).then(call).again(tries)
    if place == 3:
        return flow, effect, effect.combine(flow.supply(same, name).again(8), both).again(8)
    return flow, effect, effect.then(same).again(8) if place else effect


class Jobs:
    def __init__(self, engine, folder, mode, kills, cut=0.0, workers=4):
        self.mode, self.kills, self.many, self.rng, self.proxies = mode, kills, workers, random.Random(3), []
        self.over, self.hung = threading.Event(), False
        self.others = [os.environ[it].split() for it in ("CF_RUST_JOBS", "CF_JAVA_JOBS") if os.environ.get(it)]  # workers in other languages
        os.makedirs(folder)
        os.chmod(folder, 0o755)
        self.server, self.folder = servers.start(engine, folder), folder
        self.effects = self.address = self.server.address if self.server else f"sqlite:///{folder}/db"
        connect(self.address).close()
        tables(self.effects, "create table effect (name text)")
        if cut:
            self.proxies, self.address = self.server.proxied(cut)

    def start(self, k):
        environment = dict(os.environ, PYTHONFAULTHANDLER="1", JOBS_EFFECTS=self.effects, PYTHONPATH=f"{HERE}{os.pathsep}{CLIENT}")
        command = [sys.executable, "-m", "cf.worker", "--store", self.address, "--lease", "0.7", "--threads", "2", "jobs_functions"]
        which = k % (len(self.others) + 1)
        if which:
            command = [*self.others[which - 1], self.address, self.effects]
        with open(f"{self.folder}/stderr", "a") as errors:
            return subprocess.Popen(command, stderr=errors, env=environment)

    def watch(self, ends):
        """Ends the workers with what their threads did, where nothing is settled for a long time: one that hangs may hold the engine's lock."""
        since, settled = time.monotonic(), -1
        while not self.over.wait(0.5):
            now = sum(it.done() for it in list(ends.values()))
            if now != settled:
                since, settled = time.monotonic(), now
            if time.monotonic() - since > HANG and not all(it.done() for it in list(ends.values())):
                self.hung = True
                for it in self.workers:
                    it.send_signal(signal.SIGABRT)
                return

    def __call__(self):
        """Does it: the counts, and what is wrong."""
        call, tries = MODES[self.mode]
        self.workers, count, ends, effects = [self.start(k) for k in range(self.many)], collections.Counter(), {}, {}
        workers, settled = self.workers, 0
        service = DurableService(connect(self.effects), 0, functions=functions, lease=5)
        watch = threading.Thread(target=self.watch, args=(ends,))
        watch.start()
        try:
            next_kill = time.monotonic() + 1
            while count["kills"] < self.kills and not self.hung:
                for _ in range(OPEN - sum(not it.done() for it in ends.values())):
                    name = f"job {len(ends)}"
                    flow, effect, last = flow_of(len(ends), call, name, tries)
                    request = service.start(flow, name=name)
                    ends[name], effects[name] = request[last], request[effect]
                time.sleep(0.02)
                k = self.rng.randrange(self.many)
                now_settled = sum(it.done() for it in ends.values())
                if time.monotonic() > next_kill and now_settled > settled + 2:  # (on a slow machine workers have to come to work between two)
                    next_kill, settled = time.monotonic() + self.rng.uniform(0.15, 0.35), now_settled
                    count["died by themselves"] += workers[k].poll() is not None
                    workers[k].kill()
                    workers[k].wait()
                    workers[k] = self.start(k)
                    count["kills"] += 1
            for it in ends.values():
                while not it.done() and not self.hung:
                    time.sleep(0.02)
            if self.hung:
                return count, [f"nothing went on for {HANG} s: {Path(self.folder, 'stderr').read_text()[-10000:]}"]
            with open(f"{self.folder}/histories", "w") as accounts:
                accounts.writelines(service.open(name).history().account() + "\n" for name in effects)
            return self.told(effects, count)
        finally:
            self.over.set()
            watch.join()
            for it in workers:
                it.kill()
                it.wait()
            service.shutdown()
            count["replies cut"] = sum(it.stop() for it in self.proxies)
            if self.server:
                self.server.stop()

    def told(self, effects, count):
        done, wrong = collections.Counter(name for name, in tables(self.effects, "select name from effect")), []
        for name, stage in effects.items():
            error = stage.exception(0)
            count["requests"] += 1
            count["ended in a value"] += error is None
            count["abandoned"] += isinstance(error, Abandoned)
            count["abandoned with its effect done"] += isinstance(error, Abandoned) and done[name] > 0
            count["effects done more than once"] += done[name] > 1
            if error is not None and not isinstance(error, Abandoned):
                wrong.append(f"{name}: {error!r}")
            if error is None and done[name] < 1 or self.mode != "again" and done[name] > 1:
                wrong.append(f"{name}: {done[name]} effects")
            if self.mode == "transaction" and done[name] != (error is None):
                wrong.append(f"{name}: {done[name]} effects and {error!r}")
        return count, wrong
