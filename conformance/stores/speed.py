"""Measures words a second by desks beside bare loops of the same insert, how soon a waiter is woken, and how long it takes to replay a row.

The ways run in turn, a short slice each, so that whatever else the machine does falls on all of them.
"""
import base64
import http.client
import json
import multiprocessing
import os
import random
import threading
import time

import process as the_path  # noqa: F401 (it sets sys.path)
import servers

from cf.service.words import CLAIM, FINISH, GIVES
from cf.store import Put, RowView, connect, new_session

STAGES, SLICE, SLICES = 100, 0.1, int(os.environ.get("SLICES", "30"))
PLAN = json.dumps({"cf": 3, "flow": "", "stages": [{"form": "supply", "name": "s", "fn": "s", "version": 1}] * STAGES})
PAYLOAD = b'{"order": 17, "lines": [{"sku": "lamp", "count": 2}]}'


def insert(store, address):
    """The engine's own put by its client alone, in a table of its own that is alike: whether it landed. (Both in one table would be unfair to
    those whose rows aren't the last in the index.)"""
    kind = type(store).__name__
    if kind == "SQLite":
        db = store._db
        return lambda *it: db.execute("insert or ignore into cf_bare (request, at, word, token, payload) values (?, ?, ?, ?, ?)", it).rowcount
    if kind == "Postgres":
        import psycopg2

        db = psycopg2.connect(address)
        db.autocommit = True
        cursor = db.cursor()
        cursor.execute("prepare bare(bigint, int, bigint, bigint, bytea) as insert into cf_bare values ($1, $2, $3, $4, $5) on conflict do nothing")

        def put(*it):
            cursor.execute("execute bare(%s, %s, %s, %s, %s)", it)
            return cursor.rowcount

        return put
    return etcd_insert(address)


def etcd_insert(address):
    connection = http.client.HTTPConnection(address[7:].split(",")[0])

    def put(request, at, word, token, payload):
        key = base64.b64encode(b"bare/%012d/%06d" % (request, at)).decode()
        puts = [{"request_put": {"key": key, "value": base64.b64encode(b"%x %x" % (word, token)).decode()}}]
        if payload is not None:
            puts.append(
                {
                    "request_put": {
                        "key": base64.b64encode(b"barep/%012d/%06d" % (request, at + 1)).decode(),
                        "value": base64.b64encode(payload).decode(),
                    }
                }
            )
        connection.request("POST", "/v3/kv/txn", json.dumps({"compare": [{"key": key, "target": "VERSION", "version": 0}], "success": puts}))
        return json.loads(connection.getresponse().read()).get("succeeded", False)

    return put


# A way is a generator that is handed the moment until which it goes on, and adds the seconds of each word to `told`.


def bare(store, address, told, one, k, base):
    """The same insert in a loop: own rows, or the next place of one row, which goes on where it is taken."""
    request, at, session, put, until = base + (0 if one else k * 10**6), 0, new_session(), insert(store, address), (yield)
    while True:
        began = time.perf_counter()
        if began > until:
            until = yield
            continue
        if at % 200 == 0 and not one:
            request, at = request + 1, 0
        if put(request, at, CLAIM << 56 | at % STAGES << 36, session << 23 | at, PAYLOAD if at % 2 else None):
            told.append(time.perf_counter() - began)
        at += 1


def desk(group):
    """Claims and finishes, each in a put of its own, or a finish with the next claims. It opens a request after each 200 words."""

    def way(store, address, told, one, k, base):
        session, until, number = new_session(), (yield), 0
        while True:
            number += 1
            name = f"one {base} {group} {number}" if one else f"{session} {number}"
            it, held = RowView(store, store.open(name, PLAN), session), []
            it.catch_up()
            while True:
                began = time.perf_counter()
                if began > until:
                    until = yield
                    continue
                done, stages = step(it, held, group)
                if done is None:
                    break
                held = [stage for stage, claim in zip(stages, done[len(held) :]) if not claim.reply[0]]
                told.extend([time.perf_counter() - began] * len(done))

    return way


def step(it, held, group):
    """One put: the finishes of what is held, and so many claims as make up the group."""
    stages = []

    def decide(desk):
        made = [(FINISH << 56 | desk.caller_number << 48 | stage << 36 | GIVES << 32 | desk.next_place + n, PAYLOAD) for n, stage in enumerate(held)]
        stages[:] = [] if group == 1 and held else sorted(desk.ready)[: max(group // 2, 1)]
        return made + [(CLAIM << 56 | desk.caller_number << 48 | stage << 36, None) for stage in stages]

    return it.act(decide)[0], stages


def many(store, address, told, one, k, base, batch=32):
    """One word for each of many requests in a put: what a process gains that serves many at once."""
    session, until, number, count = new_session(), (yield), 0, 0
    while True:
        number += 1
        names = [f"{session} {number} {n}" for n in range(batch)]
        for name in names:
            store.open(name, PLAN)
        for at in range(200):
            began = time.perf_counter()
            while began > until:
                until = yield
                began = time.perf_counter()
            count += 1
            landed = store.append_groups([Put(name, at, [(CLAIM << 56 | at % STAGES << 36, session << 23 | count)], {}) for name in names])
            assert landed == [None] * batch
            told.extend([time.perf_counter() - began] * batch)


WAYS = {"bare": bare, "one word a put": desk(1), "finish and next claim": desk(2), "16 words a put": desk(16), "32 requests a put": many}


def process(address, ways, one, barrier, out, k, base):
    """Takes the ways in turn, a slice each, all processes the same at a time."""
    store = connect(address)
    told = {way: [] for way in ways}
    goes = [(way, WAYS[way](store, address, told[way], one, k, base)) for way in ways]
    for _, it in goes:
        next(it)
    took = dict.fromkeys(ways, 0.0)
    for _ in range(SLICES):
        for way, it in goes:
            barrier.wait()
            began = time.perf_counter()
            it.send(began + SLICE)
            took[way] += time.perf_counter() - began
    out.put(({way: len(it) for way, it in told.items()}, {way: sorted(it)[:: max(1, len(it) // 1000)] for way, it in told.items()}, took))


def rates(address, ways, count, one):
    """Words a second of each way, by so many processes, and the milliseconds of a put."""
    barrier, out, base = multiprocessing.Barrier(count), multiprocessing.Queue(), random.getrandbits(18) * 10**8  # of rows of this run alone
    all_ = [multiprocessing.Process(target=process, args=(address, ways, one, barrier, out, k, base)) for k in range(count)]
    for it in all_:
        it.start()
    got = [out.get() for _ in all_]
    for it in all_:
        it.join()
    rate = {way: sum(many_[way] / took[way] for many_, _, took in got) for way in ways}
    waits = {way: sorted(wait for _, told, _ in got for wait in told[way]) for way in ways}
    return {
        way: {
            "words/s": round(rate[way]),
            "of bare": round(rate[way] / (rate["bare"] or 1), 2),
            "p50 ms": round(1000 * waits[way][len(waits[way]) // 2], 2),
            "p99 ms": round(1000 * waits[way][int(len(waits[way]) * 0.99)], 2),
        }
        for way in ways
        if waits[way]
    }


def waking(address):
    """Milliseconds from a put's answer until another thread's wait has come back."""
    waiter, writer, waits = connect(address), connect(address), []
    waiter.open("waking", PLAN)
    waiter.wait("waking", 0, 0.01)
    for at in range(100):
        put = []

        def puts():
            time.sleep(0.02 + random.random() * 0.05)
            writer.append(Put("waking", at, [(1, at + 1)], {}))
            put.append(time.perf_counter())

        thread = threading.Thread(target=puts)
        thread.start()
        waiter.wait("waking", at, 5)
        woken = time.perf_counter()
        thread.join()
        waits.append(max(0.0, 1000 * (woken - put[0])))
    waits.sort()
    return {"woken after ms": {"p50": round(waits[50], 2), "p99": round(waits[99], 2)}}


def replay(address, most=4096):
    """Milliseconds in which a desk reads and replays a row of so many words."""
    store, session = connect(address), new_session()
    it = RowView(store, store.open("replay", PLAN), session)
    while it.words_seen < most:
        it.act(lambda desk: [(1 << 56 | desk.caller_number << 48 | (desk.words_seen + k) % STAGES << 36, None) for k in range(32)])
    began = time.perf_counter()
    again = RowView(store, store.find("replay"), new_session())
    again.catch_up()
    assert again.words_seen == most
    return {f"replay of {most} words, ms": round(1000 * (time.perf_counter() - began), 1)}


def measure(engine, folder):
    """Prints a line of JSON for each number of processes, on many requests and on one, and what else is measured."""
    server = servers.start(engine, folder)
    address = server.address if server else f"sqlite:///{folder}/db"
    try:
        store = connect(address)
        if engine == "sqlite":
            store._db.execute(
                "create table cf_bare (n integer primary key, request integer, at integer, word integer not null, "
                "token integer not null, payload blob, unique (request, at))"
            )
        elif engine == "postgres":
            store._ask("create table cf_bare (like cf_word including all)")
        store.close()
        for count in (1, 4, 16):
            ways = [way for way in WAYS if engine != "etcd" or way != "32 requests a put"]
            print(json.dumps({"engine": engine, "processes": count, **rates(address, ways, count, False)}), flush=True)
        for count in (1, 4, 16):
            print(json.dumps({"engine": engine, "processes": count, "one request": True, **rates(address, list(WAYS)[:2], count, True)}), flush=True)
        print(json.dumps({"engine": engine, **waking(address), **replay(address)}), flush=True)
    finally:
        if server:
            server.stop()
