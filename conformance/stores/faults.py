"""Does faults to processes that work on random requests in an engine: it kills and stops them, and breaks servers and connections."""
import collections
import glob
import os
import random
import shutil
import subprocess
import sys
import threading
import time
from pathlib import Path

import servers
from jobs import tables
from judge import Judge
from languages_judge import LANGUAGES, LanguagesJudge
from mixed_judge import KEPT, MixedJudge
from process import HERE, sure, workers_of

from cf.store import connect

DIED = "workers that died by themselves"
WRITES = {"18": "pwrite64", "75": "fdatasync", "74": "fsync"}  # of x86-64


def answered(call):
    """What an engine answers within two minutes."""
    return sure(call, 120, 0.2)


def in_write(pid):
    """The writing call in which a thread of a process stands at this moment, or None."""
    for it in glob.glob(f"/proc/{pid}/task/*/syscall"):
        try:
            call = WRITES.get(Path(it).read_text().split()[0])
        except (OSError, IndexError):
            continue
        if call:
            return call
    return None


class Run:
    """A run: workers, what kills them, what breaks the server, and what the judge says of all of it. Each worker runs `program`."""

    judge, program, between = Judge, "worker.py", (0.05, 0.2)
    bound = 1800  # seconds for the end: on a busy machine workers get little of it

    def __init__(
        self,
        engine,
        folder,
        kills,
        workers=8,
        breaks=0.0,
        cut=0.0,
        pauses=0.0,
        lax=False,
        seed=1,
        most_breaks=None,
        environment=None,
        address=None,
        seconds=None,
    ):
        self.engine, self.folder, self.kills, self.many = engine, str(folder), kills, workers
        self.breaks, self.pauses, self.lax, self.rng = breaks, pauses, lax, random.Random(seed)
        self.most_breaks, self.environment, self.seconds = most_breaks, environment or {}, seconds or float("inf")
        shutil.rmtree(self.folder, ignore_errors=True)
        os.makedirs(f"{self.folder}/done")
        os.chmod(self.folder, 0o755)
        self.server, self.proxies = servers.start(engine, self.folder, lax), []
        self.address = self.judged = address or (self.server.address if self.server else f"sqlite:///{self.folder}/db")
        if lax:
            self.address += "?unsafe=1"
        answered(lambda: connect(self.judged)).close()
        self.prepare()
        if cut:
            self.proxies, self.address = self.server.proxied(cut)
        self.broken, self.stops, self.done, self.deaths = [], threading.Event(), collections.Counter({DIED: 0}), []

    def prepare(self):
        """What has to be in the engine before workers begin."""

    def command(self, k):
        """What starts the worker of a number."""
        return [sys.executable, HERE / self.program]

    def language(self, k):
        return ""

    def counted(self, what, k):
        self.done[what] += 1
        if self.language(k):
            self.done[f"{what}, {self.language(k)}"] += 1

    def environment_of(self, k):
        return dict(os.environ, **self.environment)

    def start(self, k):
        where = self.address
        if self.address.startswith("etcd"):  # each starts at another node
            nodes = where[7:].split(",")
            first = self.rng.randrange(len(nodes))
            where = "etcd://" + ",".join(nodes[first:] + nodes[:first])
        with open(f"{self.folder}/stderr", "a") as errors:
            return subprocess.Popen(
                [*self.command(k), where, self.folder, str(self.rng.randrange(1 << 30))], stderr=errors, env=self.environment_of(k)
            )

    def break_server(self):
        """Breaks it now and then, each time while words flow: the break of a server that nobody asks shows nothing."""
        rng, before = random.Random(self.rng.random()), 0
        while self.most_breaks is None or len(self.broken) < self.most_breaks:
            if self.stops.wait(self.breaks * (0.5 + rng.random())):
                return
            while self.logged() <= before:
                if self.stops.wait(0.02):
                    return
            self.broken.append(self.server.breaks())
            before = self.logged()

    def logged(self, process="*"):
        """How many bytes of answers workers have written down, or one of them."""
        return sum(os.path.getsize(it) for it in glob.glob(f"{self.folder}/log-*-{getattr(process, 'pid', process)}"))

    def kill_one(self, workers, paused):
        k = self.rng.randrange(len(workers))
        for it, until in list(paused.items()):
            if time.monotonic() > until:
                it.send_signal(18)  # SIGCONT
                del paused[it]
        if self.rng.random() < self.pauses and len(paused) < 2 and workers[k] not in paused:
            workers[k].send_signal(19)  # SIGSTOP: it is thought to be gone, and then goes on where it was
            paused[workers[k]] = time.monotonic() + 2
            self.counted("workers stopped for 2 s", k)
            return
        until = time.monotonic() + 10
        while not self.logged(workers[k]) and workers[k] not in paused and time.monotonic() < until:
            time.sleep(0.01)
        if self.engine == "sqlite":  # half of the kills wait until it is writing
            until = time.monotonic() + (1 if self.done["kills"] % 2 else 0)
            while time.monotonic() < until and not in_write(workers[k].pid):
                time.sleep(0.0002)
            if in_write(workers[k].pid):
                self.counted("killed in a write", k)
        paused.pop(workers[k], None)
        workers[k].kill()
        workers[k].wait()
        workers[k] = self.start(k)
        self.counted("kills", k)

    def __call__(self):
        """Does it: the counts, and what is wrong."""
        began, paused = time.monotonic(), {}
        breaker = threading.Thread(target=self.break_server)
        if self.breaks:
            breaker.start()
        workers = [self.start(k) for k in range(self.many)]
        try:
            while self.goes_on(began):
                time.sleep(self.rng.uniform(*self.between))
                for j, it in enumerate(workers):
                    if it.poll() is not None:
                        self.died(it)
                        workers[j] = self.start(j)
                self.kill_one(workers, paused)
            for it in paused:
                it.send_signal(18)
            self.stops.set()
            if self.breaks:
                breaker.join()
            self.let_end(workers)
            self.done["replies cut"] = sum(it.stop() for it in self.proxies)
            self.proxies = []
            count, wrong = answered(lambda: self.judge(self.judged, self.folder).judge())
            wrong[:0] = self.deaths
            broken = {f"server: {what}": many for what, many in collections.Counter(self.broken).items()}
            return {"seconds": round(time.monotonic() - began), **self.done, **broken, **count}, wrong
        finally:
            self.end(workers)

    def goes_on(self, began):
        """Whether workers are killed any more: not where one died by itself, which fails the run."""
        is_short = time.monotonic() - began < self.seconds and self.done["kills"] < self.kills
        return not self.deaths and (is_short or self.breaks and self.most_breaks and len(self.broken) < self.most_breaks)

    def let_end(self, workers):
        """Lets the workers end what is begun."""
        last = max((int(it.name) for it in answered(lambda: connect(self.judged).listing()) if it.name.isdigit()), default=0) + self.many + 1
        Path(self.folder, "stop-").write_text(str(last))
        os.rename(f"{self.folder}/stop-", f"{self.folder}/stop")
        until = time.monotonic() + self.bound
        for it in workers:
            try:
                it.wait(max(1, until - time.monotonic()))
            except subprocess.TimeoutExpired:
                it.kill()
                it.wait()
            if it.returncode:
                self.died(it)

    def died(self, worker):
        """A worker ended in another way than it has to: it hung, say."""
        self.done[DIED] += 1
        said = "".join(it.read_text() for it in (Path(self.folder, f"hang-{worker.pid}"), Path(self.folder, "stderr")) if it.exists())
        Path(self.folder, "stderr").write_text("")
        self.deaths.append(f"worker {worker.pid} ended with {worker.returncode}: {said[:6000]}")

    def end(self, workers):
        self.stops.set()
        for it in workers:
            it.kill()
            it.wait()
        for it in self.proxies:
            it.stop()
        if self.server:
            self.server.stop()


class MixedRun(Run):
    """A run over mixed requests (mixed.py)."""

    judge, program, between, bound = MixedJudge, "mixed.py", (0.2, 0.6), 600

    def prepare(self):
        if self.engine in KEPT:
            for statement in ("create table effect (name text)", *KEPT[self.engine]):
                tables(self.judged, statement)


class LanguagesRun(MixedRun):
    """A run whose processes are in three languages by turns (languages.py, and the examples of the clients for Rust and Java)."""

    judge, program = LanguagesJudge, "languages.py"

    def language(self, k):
        return LANGUAGES[k % len(LANGUAGES)]

    def command(self, k):
        return workers_of(self.language(k)) or super().command(k)
