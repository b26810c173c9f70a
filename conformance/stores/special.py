"""Bad days: a full disk, many sessions, a clock that jumps, one session twice, a store that is away, and loss of power."""
import json
import os
import random
import subprocess
import sys
import threading
import time
from pathlib import Path

from process import HERE

from cf.service.words import CLAIM, COMPLETE, FINISH, GIVES
from cf.store import DurableService, Functions, Put, RowView, StoreError, Timer, Unknown, connect, new_session
from cf.store import sqlite as sqlite_store

SUPPLIES = json.dumps({"cf": 3, "flow": "", "stages": [{"form": "supply", "name": "s", "fn": "s", "version": 1}] * 80})


def work(address, name, sessions, granted, wrong, same=None):
    """Sessions by threads, each with a desk of its own, claim and finish all stages of one request."""

    def one():
        store = connect(address)
        desk = RowView(store, store.open(name, SUPPLIES), same or new_session())
        desk.catch_up()
        while True:
            chosen = []

            def decide(desk):
                chosen[:] = random.sample(sorted(desk.ready), min(1, len(desk.ready)))
                return [(CLAIM << 56 | desk.caller_number << 48 | stage << 36, None) for stage in chosen]

            done, _ = desk.act(decide)
            if done is None:
                return
            if not done[0].reply[0]:
                granted.append(chosen[0])
                payload = json.dumps(chosen[0]).encode()
                done, _ = desk.act(
                    lambda desk: [(FINISH << 56 | desk.caller_number << 48 | chosen[0] << 36 | GIVES << 32 | desk.next_place, payload)]
                )
                if done[0].reply[0]:
                    wrong.append(f"stage {chosen[0]}: its finish was answered {done[0].reply[0]}")

    threads = [threading.Thread(target=one) for _ in range(sessions)]
    for thread in threads:
        thread.start()
    for thread in threads:
        thread.join()


def many_sessions(address, folder):
    """80 sessions on one request: each stage is granted to one."""
    granted, wrong = [], []
    work(address, "80 sessions", 80, granted, wrong)
    return sorted(granted) == list(range(80)) and not wrong, f"{len(granted)} of 80 stages granted, {len(set(granted))} different"


def one_session_twice(address, folder):
    """Two processes with one session's number, whose tokens may be the same: the store's answer tells who was first."""
    granted, wrong = [], []
    work(address, "one session twice", 2, granted, wrong, same=new_session())
    twice = len(granted) - len(set(granted))
    return twice == 0, f"{len(granted)} grants of 80 stages, {twice} twice"


def full_disk(address, folder):
    """A small tmpfs runs full: puts are told to be unknown, and go on once there is room; no word is lost."""
    mounted = f"{folder}/small"
    os.makedirs(mounted)
    if subprocess.run(["mount", "-t", "tmpfs", "-o", "size=600k", "tmpfs", mounted], stderr=subprocess.DEVNULL).returncode:
        return None, "no tmpfs can be mounted here"
    try:
        store = connect(f"sqlite:///{mounted}/db")
        store.open("r", SUPPLIES)
        answered, refused, at = 0, 0, 0
        filler = Path(mounted, "filler")
        for at in range(400):
            if at == 100:
                try:
                    filler.write_bytes(b"x" * 2_000_000)
                except OSError:
                    pass
            if refused == 20 and filler.exists():
                filler.unlink()
            put = Put("r", answered, [(COMPLETE << 56, at + 1)], {})
            try:
                stands = store.append(put)
                answered += 1 if stands is None or stands[0] == put.entries[0] else 0
            except Unknown:
                refused += 1
        kept = len(store.read("r"))
        store.close()
        return refused >= 20 and kept == answered, f"{refused} puts told unknown, {answered} answered, {kept} kept"
    finally:
        subprocess.run(["umount", "-l", mounted])  # (a thread's connection may still be open)


def jumping_clock(address, folder):
    """The wall's clock jumps by an hour each way: nobody is thought gone, and timers fire by it."""
    real, jump = time.time, [0.0]
    sqlite_store.time.time = lambda: real() + jump[0]
    functions, begun = Functions(), threading.Event()

    @functions.function("slow")
    def slow():
        begun.set()
        time.sleep(1.5)
        return 1

    first = DurableService(connect(address), 1, functions=functions, lease=1)
    second = DurableService(connect(address), 1, functions=functions, lease=1, takes_all=True)
    try:
        stage = first.request("jumps").supply(slow)
        begun.wait(10)
        timer = first.request("waits").promise().or_timeout(1800)
        for jump[0] in (3000.0, -3600.0, 3000.0):
            time.sleep(0.2)
        value = stage.result(20)
        fired = isinstance(timer.exception(20), TimeoutError)
        return value == 1 and fired, f"the stage gave {value}, the timer of half an hour fired: {fired}"
    finally:
        sqlite_store.time.time = real
        first.shutdown()
        second.shutdown()


def store_away(address, folder):
    """A store that can't be reached: an error that says so, within the patience; and it goes on later."""
    from servers import Postgres, missing

    if missing("postgres"):
        return None, missing("postgres")
    server = Postgres(folder)
    try:
        store = connect(server.address)
        desk = RowView(store, store.open("r", SUPPLIES), new_session(), patience=1)
        desk.act(lambda desk: [(COMPLETE << 56 | desk.caller_number << 48, None)])
        server.stop()
        try:
            desk.act(lambda desk: [(COMPLETE << 56 | desk.caller_number << 48, None)])
            told = ""
        except Unknown as error:
            told = str(error).splitlines()[0]
        server._do("pg_ctl", "-D", server.folder, "-w", "-l", f"{server.folder}/log", "start")
        desk.catch_up()
        desk.act(lambda desk: [(COMPLETE << 56 | desk.caller_number << 48, None)])
        return bool(told) and desk.words_seen == len(store.read("r")) == 2, f"told {told!r}, and {desk.words_seen} words at the end"
    finally:
        server.stop()


def silent_network(address, folder):
    """A network lets nothing through any more: PostgreSQL's calls tell it within a minute, and go on once it does."""
    from servers import in_space, missing

    lacks = missing("postgres") or missing("space")
    if lacks:
        return None, lacks
    done = in_space([sys.executable, HERE / "silent.py", folder])
    told = Path(folder, "told")
    return done == 0, told.read_text() if told.exists() else "it ended before"


def stale_reads(address, folder):
    """What a process of mixed requests reads may be stale: the judge finds a request that was closed too early, and no other."""
    done = subprocess.run([sys.executable, HERE / "stale.py", address, folder])
    told = Path(folder, "told")
    return done.returncode == 0, told.read_text() if told.exists() else "it ended before"


def many_timers(address, folder):
    """500 timers: those that are due are found at once."""
    store = connect(address)
    store.open("timers", SUPPLIES)
    for k in range(500):
        store.set_timer(Timer("timers", k, store.now() + (1000 if k % 50 else -1), b"N"))
    began = time.monotonic()
    due = store.due_timers(store.now())
    return len(due) == 10, f"{len(due)} due, found in {1000 * (time.monotonic() - began):.1f} ms"


def unsafe_servers(address, folder):
    """PostgreSQL with a setting that loses words is refused, with the setting's name."""
    from servers import Postgres, missing

    if missing("postgres"):
        return None, missing("postgres")
    told = []
    for setting in ("fsync", "full_page_writes"):
        server = Postgres(folder, f"{setting}=off")
        try:
            connect(server.address)
            told.append("not refused")
        except StoreError as error:
            told.append(str(error).split(": ", 1)[1])
        finally:
            server.stop()
    good = all(setting in it for setting, it in zip(("fsync is off", "full_page_writes is off"), told))
    return good, "; ".join(told)


def loss_of_power(address, folder):
    """What was answered is on the disk, in each engine; without syncs it isn't, which the control has to find."""
    from power import run as cut_power

    return cut_power(folder)


def many_open(address, folder):
    """A worker's look at 3,000 open requests: all of them, and those that changed."""
    store = connect(address)
    for k in range(3000):
        store.open(str(k), SUPPLIES)
    began = time.monotonic()
    ends, mark = store.news(None)
    whole = time.monotonic() - began
    store.append(Put("7", 0, [(COMPLETE << 56, 1)], {}))
    store.open("another", SUPPLIES)
    began = time.monotonic()
    told, _ = store.news(mark)
    few = time.monotonic() - began
    return len(ends) == 3000 and told == {"7": 1, "another": 0}, f"all in {1000 * whole:.1f} ms, what changed in {1000 * few:.2f} ms"


ALL = [
    many_sessions,
    one_session_twice,
    full_disk,
    jumping_clock,
    store_away,
    silent_network,
    stale_reads,
    many_timers,
    many_open,
    unsafe_servers,
    loss_of_power,
]


def run(folder):
    """Does each on SQLite, and prints what came of it: whether all is as it has to be."""
    is_right = True
    for day in ALL:
        where = f"{folder}/{day.__name__}"
        os.makedirs(where)
        os.chmod(where, 0o755)
        good, said = day(f"sqlite:///{where}/db", where)
        print(f"{'left out' if good is None else 'right' if good else 'WRONG'} {day.__name__}: {said}", flush=True)
        is_right = is_right and good is not False
    return is_right
