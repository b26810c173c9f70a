"""Loss of power: what an engine has answered has to be on its disk, and what was only in the machine's memory is gone.

The engine writes to a small disk of its own, a file with ext4 in it. At a random moment all processes are stopped, and the disk is copied as
it is. What no sync had sent to the disk isn't in the copy, as if the power had failed. A new server starts from the copy. A process in Python puts
words, and one in Rust and one in Java attach stages, if CF_RUST_FAULTS and CF_JAVA_FAULTS have the commands that start them.
"""
import contextlib
import os
import random
import shutil
import signal
import subprocess
import sys
import time
from pathlib import Path

import servers
from languages_judge import LANGUAGES
from process import workers_of

from cf.store import Put, Unknown, connect

SIZE = 192 * 2**20
PLAN = '{"cf":3,"flow":"","stages":[]}'
MEMORY = "/dev/shm"  # the disks stand in memory, so that a copy takes no time


class Disk:
    """A disk in a file."""

    def __init__(self, image, at):
        self.image, self.at = image, at
        os.makedirs(at, exist_ok=True)

    def make(self):
        with open(self.image, "wb") as made:
            made.truncate(SIZE)
        subprocess.run(["mkfs.ext4", "-q", "-F", self.image], check=True)

    def mount(self):
        done = subprocess.run(["mount", "-o", "loop", self.image, self.at], stderr=subprocess.DEVNULL)
        if done.returncode == 0:
            os.chmod(self.at, 0o755)
        return done.returncode == 0

    def end(self):
        subprocess.run(["umount", "-l", self.at], stderr=subprocess.DEVNULL)
        if os.path.exists(self.image):
            os.unlink(self.image)


def below(pid):
    """A process and all that it has begun."""
    children = {}
    for it in Path("/proc").iterdir():
        if it.name.isdigit():
            try:
                children.setdefault(int((it / "stat").read_text().rsplit(")", 1)[1].split()[1]), []).append(int(it.name))
            except OSError:
                pass
    found = [pid]
    for it in found:
        found += children.get(it, [])
    return found


def send(pids, number):
    """Sends a signal to processes, of which some may have ended by themselves."""
    for pid in pids:
        with contextlib.suppress(ProcessLookupError):
            os.kill(pid, number)


class Engine:
    """An engine on a disk."""

    def __init__(self, engine, disk, lax, folder):
        self.engine, self.disk, self.lax, self.folder, self.server, self.pids = engine, disk, lax, folder, None, []

    def start(self, anew):
        at = self.disk.at
        if self.engine == "sqlite":
            self.address = f"sqlite:///{at}/db" + ("?unsafe=1" if self.lax else "")
            return
        if self.engine == "postgres":
            if not anew:
                Path(at, "pg/postmaster.pid").unlink()  # (its process, which was killed, may not be waited for yet)
            options = "wal_writer_delay=10000\nsynchronous_commit=off\nfsync=off" if self.lax else ""
            self.server = servers.Postgres(at, options + "\nmax_wal_size=64MB\nmin_wal_size=32MB", anew)
            self.pids = below(int(Path(at, "pg/postmaster.pid").read_text().split()[0]))
            self.address = self.server.address + ("?unsafe=1" if self.lax else "")
            return
        self.server = servers.Etcd(at, 1, options=["--unsafe-no-fsync"] if self.lax else [], anew=anew)
        self.pids, self.address = [self.server.nodes[0].pid], self.server.address

    def processes(self):
        return [it for pid in self.pids for it in below(pid)]


def write(address, log):
    """Puts words one after another, and writes down each place that was answered."""
    store, at = connect(address), 0
    store.open("r", PLAN)
    out = os.open(log, os.O_WRONLY | os.O_CREAT | os.O_APPEND)
    while True:
        try:
            if store.append(Put("r", at, [(at + 1, at + 1)], {at + 1: b"%d" % at})) is None:
                at += 1
                os.write(out, b"%d\n" % at)
        except Unknown:
            time.sleep(0.05)


def kept_in(store):
    """How many words are there, or -1 where a row isn't whole, or can't be gone on with."""
    many = 0
    for name in [it.name for it in store.listing()]:
        entries = store.read(name)
        places = list(range(1, len(entries) + 1))
        is_numbered = name != "r" or [word for word, _ in entries] == places
        if not is_numbered or len(store.payloads(name, places)) != len(entries) or store.append(Put(name, len(entries), [(7, 7)], {})) is not None:
            return -1
        many += len(entries)
    return many


def cut(engine, lax, folder, number, language="python"):
    """One loss of power: how many words were answered, and how many of them are there afterwards."""
    name = f"{MEMORY}/cf-{os.getpid()}-{engine}-{number}"
    first, second = Disk(name, f"{folder}/disk"), Disk(name + "-after", f"{folder}/disk-after")
    first.make()
    if not first.mount():
        first.end()
        return None
    run, after, writer, log, answered = Engine(engine, first, lax, folder), Engine(engine, second, False, folder), None, f"{folder}/answered", 0
    try:
        run.start(True)
        writer = subprocess.Popen([*(workers_of(language) or [sys.executable, __file__]), "write", run.address, log])
        until = time.monotonic() + 60
        while not os.path.exists(log) and time.monotonic() < until:
            time.sleep(0.05)
        time.sleep(random.uniform(1, 3))
        stopped = run.processes()
        send([writer.pid, *stopped], signal.SIGSTOP)
        shutil.copyfile(first.image, second.image)
        send([writer.pid, *stopped], signal.SIGKILL)
        writer.wait()
        answered = len(Path(log).read_text().split()) if os.path.exists(log) else 0
        if not second.mount():
            return answered, 0
        after.start(False)
        store = connect(after.address)
        kept = kept_in(store)
        store.close()
        return answered, kept
    except (OSError, subprocess.CalledProcessError, RuntimeError, Unknown):
        if lax and answered:
            return answered, 0  # it doesn't even start
        raise
    finally:
        send(after.processes(), signal.SIGKILL)
        if writer and writer.poll() is None:
            writer.kill()
        time.sleep(0.3)
        first.end()
        second.end()


def run(folder, times=3):
    """Each engine that is installed, and a control of each that answers before it has written: lines, and whether all is as it has to be."""
    if os.getuid() or not shutil.which("mkfs.ext4") or not os.path.isdir(MEMORY):
        return None, "it takes root, mkfs.ext4 and /dev/shm"
    is_right, told = True, []
    for engine in ("sqlite", "postgres", "etcd"):
        if servers.missing(engine):
            told.append(f"{engine} left out")
            continue
        others = [it for it in LANGUAGES if workers_of(it)]
        for lax, language in ((False, "python"), *((False, it) for it in others), (True, "python")):
            done = []
            for number in range(times if not lax else 1):
                where = f"{folder}/{engine}-{language}-{lax}-{number}"
                os.makedirs(where)
                os.chmod(where, 0o755)
                done.append(cut(engine, lax, where, f"{language}-{lax}-{number}", language))
            if None in done:
                return None, "no disk in a file can be mounted here"
            answered, lost = sum(it for it, _ in done), sum(max(0, it - kept) for it, kept in done)
            bad = any(kept < 0 for _, kept in done)
            is_right = is_right and not bad and (lost > 0 if lax else lost == 0 and answered > 0)
            by = "" if language == "python" else f" by {language}"
            told.append(
                f"{engine}{by}{' without syncs' if lax else ''}: {answered} answered, {lost} lost" + (", and the row is broken" if bad else "")
            )
    return is_right, "; ".join(told)


if __name__ == "__main__":
    if sys.argv[1:2] == ["write"]:
        write(*sys.argv[2:])
    import tempfile

    with tempfile.TemporaryDirectory() as made:
        os.chmod(made, 0o755)
        print(*run(made))
