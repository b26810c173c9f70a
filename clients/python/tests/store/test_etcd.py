#!/usr/bin/env python3
"""The store in etcd alone: a watch that is cut off, in each way that one can be, and answers that come in parts. It
starts etcd's server for itself, and is left out where there is none.

    CF_LIBRARY=/path/to/libcf.so python3 clients/python/tests/store/test_etcd.py [-v] [TEST ..]
"""
import contextlib
import http.client
import json
import random
import shutil
import socket
import subprocess
import tempfile
import threading
import time
import unittest
import unittest.mock

from case import Case
from cf.store import Put, StoreError, Unknown, connect, etcd
from cf.store.rows import Glance, RowQuery

HOST = "127.0.0.1"


def free_ports(many):
    """Ports that nobody listens at. The kernel gives none below 32,768 to who connects, so they stay free."""
    sockets = []
    while len(sockets) < many:
        with contextlib.suppress(OSError):
            sockets.append(socket.create_server((HOST, random.randrange(10_000, 32_768))))
    ports = [it.getsockname()[1] for it in sockets]
    for it in sockets:
        it.close()
    return ports


class Cluster:
    """Members of etcd on this machine, in a folder of their own."""

    def __init__(self, many):
        ports = free_ports(2 * many)
        self.folder, self.ports, self.peers = tempfile.mkdtemp(), ports[:many], ports[many:]
        self.members = [self._started(k) for k in range(many)]
        self.until_it_answers()

    def _started(self, k):
        client, peer = (f"http://{HOST}:{its[k]}" for its in (self.ports, self.peers))
        cluster = ",".join(f"n{k}=http://{HOST}:{port}" for k, port in enumerate(self.peers))
        return subprocess.Popen(
            [
                "etcd",
                "--name",
                f"n{k}",
                "--data-dir",
                f"{self.folder}/{k}",
                "--listen-client-urls",
                client,
                "--advertise-client-urls",
                client,
                "--listen-peer-urls",
                peer,
                "--initial-advertise-peer-urls",
                peer,
                "--initial-cluster",
                cluster,
            ],
            stdout=subprocess.DEVNULL,
            stderr=subprocess.DEVNULL,
        )

    def until_it_answers(self):
        until = time.monotonic() + 60
        while True:
            with contextlib.suppress(OSError, http.client.HTTPException):
                if b'"revision"' in self.post("/v3/kv/range", {"key": "AA=="}):
                    return
            assert time.monotonic() < until, "etcd doesn't answer"
            time.sleep(0.05)

    def post(self, path, body):
        connection = http.client.HTTPConnection(HOST, self.ports[0], timeout=20)
        with contextlib.closing(connection):
            connection.request("POST", path, json.dumps(body))
            return connection.getresponse().read()

    def compact(self):
        """Has the cluster forget all but what stands now."""
        revision = json.loads(self.post("/v3/kv/range", {"key": "AA=="}))["header"]["revision"]
        self.post("/v3/kv/compaction", {"revision": revision, "physical": True})

    def kill(self, k):
        self.members[k].kill()
        self.members[k].wait()

    def restart(self, k):
        self.members[k] = self._started(k)
        self.until_it_answers()

    def stop(self):
        for k in range(len(self.members)):
            self.kill(k)
        shutil.rmtree(self.folder, ignore_errors=True)


class Between:
    """Stands between a store and its member. It passes all on, but what it is told to do with watches and calls.

    Attributes:
        watches: How many watches were begun.
        halves: Whether the next line that a watch is told comes by half, and the connection is cut.
        is_open: While it isn't set, no watch is asked for at the member.
        is_silent: Whether watches are told nothing.
        refuses: Whether calls are cut off."""

    def __init__(self, port):
        self.to, self.watches = port, 0
        self.halves = self.is_silent = self.refuses = False
        self.is_open = threading.Event()
        self.is_open.set()
        self._kept, self._sockets = [], []
        self._server = socket.create_server((HOST, 0))
        self.port = self._server.getsockname()[1]
        threading.Thread(target=self._run, daemon=True).start()

    def _run(self):
        with contextlib.suppress(OSError):
            while True:
                theirs = self._server.accept()[0]
                self._sockets.append(theirs)
                threading.Thread(target=self._pass_on, args=(theirs,), daemon=True).start()

    def _pass_on(self, theirs):
        with contextlib.suppress(OSError), theirs:
            asked = theirs.recv(65536)
            is_watch = asked.startswith(b"POST /v3/watch")
            if is_watch:
                self.watches += 1
                self._kept.append(theirs)
                self.is_open.wait()
            with socket.create_connection((HOST, self.to)) as its:
                self._sockets.append(its)
                threading.Thread(target=self._answers, args=(its, theirs, is_watch), daemon=True).start()
                while asked and (is_watch or not self.refuses):
                    its.sendall(asked)
                    asked = theirs.recv(65536)

    def _answers(self, its, theirs, is_watch):
        with contextlib.suppress(OSError):
            while told := its.recv(65536):
                if is_watch and self.halves and b"events" in told:
                    self.halves = False
                    theirs.sendall(told[: len(told) // 2])
                    break
                if not (is_watch and self.is_silent):
                    theirs.sendall(told)
        for it in (theirs, its):
            with contextlib.suppress(OSError):
                it.shutdown(socket.SHUT_RDWR)

    def cut(self):
        """Cuts all watches."""
        for it in self._kept:
            with contextlib.suppress(OSError):
                it.shutdown(socket.SHUT_RDWR)
        self._kept.clear()

    def stop(self):
        self.is_open.set()
        for it in (self._server, *self._sockets):
            with contextlib.suppress(OSError):
                it.shutdown(socket.SHUT_RDWR)
            it.close()


class Known:
    """What a list knows that follows a store."""

    def __init__(self, store):
        self.store, self.mark = store, None
        self.words, self.opened, self.gone = {}, [], []
        self.look()

    def look(self):
        changes, self.mark = self.store.changes(self.mark)
        for name in changes.gone:
            self.gone.append(name)
            del self.words[name]
        for it in changes.opened:
            self.opened.append(it.name)
            self.words[it.name] = it.words
        for name, many in changes.longer.items():
            assert many >= self.words[name], f"{name} had {self.words[name]} words, and has {many}"
            self.words[name] = many

    def is_so(self, words):
        """Whether it knows these words of requests, once it has looked. A store that is away is asked again."""
        with contextlib.suppress(Unknown):
            self.look()
        return self.words == words


@unittest.skipUnless(shutil.which("etcd"), "no etcd: Debian's etcd-server")
class EtcdCase(Case):
    """A cluster for all tests of a class, which have it one after another."""

    members = 1

    @classmethod
    def setUpClass(cls):
        cls.cluster = Cluster(cls.members)

    @classmethod
    def tearDownClass(cls):
        cls.cluster.stop()

    def setUp(self):
        super().setUp()
        self.cluster.post("/v3/kv/deleterange", {"key": "AA==", "range_end": "AA=="})  # (all keys)
        self.between = Between(self.cluster.ports[0])
        self.direct = connect(f"etcd://{HOST}:{self.cluster.ports[0]}")
        self.store = connect(f"etcd://{HOST}:{self.between.port}")
        # (no look at keys hides what a watch has missed)
        patch = unittest.mock.patch.object(etcd, "BETWEEN_CHECKS", 3600.0)
        patch.start()
        self.addCleanup(patch.stop)

    def tearDown(self):
        self.store.close(), self.direct.close()
        self.between.stop()
        super().tearDown()

    def followed(self):
        """A list that knows two requests, a and b, by its watch."""
        self.direct.open("a", "{}"), self.direct.open("b", "{}")
        known = Known(self.store)
        self.direct.append(Put("a", 0, [(1, 11)], {}))
        self.until(lambda: known.is_so({"a": 1, "b": 0}))
        self.assertEqual((known.opened, self.between.watches), (["a", "b"], 1))
        return known

    def change(self):
        """Changes that are told as one opened, one gone, and one longer."""
        self.direct.open("c", "{}")
        self.direct.append(Put("b", 0, [(1, 12), (2, 13)], {}))
        self.direct.end("a", 1)

    def told_once(self, known, more=1):
        """All of that is known, nothing was told as new twice, and a watch tells what comes then."""
        self.until(lambda: known.is_so({"b": 2, "c": 0}))
        self.direct.append(Put("c", 0, [(1, 14)], {}))
        self.until(lambda: known.is_so({"b": 2, "c": 1}))
        self.assertEqual((known.opened, known.gone), (["a", "b", "c"], ["a"]))
        self.assertEqual(self.between.watches, 1 + more)

    def does(self, change):
        """Whether a change is made: an etcd that has just begun may not answer yet."""
        with contextlib.suppress(Unknown):
            change()
            return True


class Refused(unittest.TestCase):
    def test_a_watch_that_cant_be_begun_is_begun_again_soon(self):
        """At the next member."""
        store = etcd.Etcd.__new__(etcd.Etcd)
        store._local, store._turn = threading.local(), 0
        with unittest.mock.patch.object(store, "_watching", side_effect=OSError), unittest.mock.patch.object(etcd, "time") as clock:
            store.wait_for_change(20), store.wait_for_change(0.01)
        self.assertEqual((clock.sleep.mock_calls, store._turn), ([unittest.mock.call(0.05), unittest.mock.call(0.01)], 2))


class OneMember(EtcdCase):
    def test_a_watch_that_is_cut_within_a_line(self):
        known = self.followed()
        self.between.halves = True
        self.change()
        self.told_once(known)

    def test_what_comes_before_the_next_watch_is_there(self):
        """It goes on behind the revision that is known."""
        known = self.followed()
        self.between.is_open.clear()
        self.between.cut()
        self.until(lambda: known.mark.watch.is_lost)
        known.look()
        self.change()
        time.sleep(0.1)
        known.look()
        self.assertEqual(known.words, {"a": 1, "b": 0})
        self.between.is_open.set()
        self.told_once(known)

    def test_what_is_too_large(self):
        """It is refused by etcd, or by gRPC before it; without space it is away."""
        number = self.direct.open("large", "plan").number
        for size in (2_000_000, 3_000_000):
            with self.subTest(size), self.assertRaisesRegex(StoreError, "etcd refuses it"):
                self.direct.append(Put("large", 0, [(1, 1)], {1: b"x" * size}, number))
        alarm = {"memberID": 0, "alarm": "NOSPACE"}
        self.cluster.post("/v3/maintenance/alarm", {**alarm, "action": "ACTIVATE"})
        with self.assertRaisesRegex(Unknown, "space exceeded"):
            self.direct.append(Put("large", 0, [(1, 1)], {}, number))
        self.cluster.post("/v3/maintenance/alarm", {**alarm, "action": "DEACTIVATE"})
        self.assertIsNone(self.direct.append(Put("large", 0, [(1, 1)], {}, number)))

    def test_a_revision_that_is_compacted(self):
        """Nobody tells any more what came behind it: what is there now is read."""
        known = self.followed()
        self.between.is_open.clear()
        self.between.cut()
        self.until(lambda: known.mark.watch.is_lost)
        known.look()
        self.change()
        self.cluster.compact()
        self.between.is_open.set()
        self.told_once(known, 2)

    def test_a_server_that_is_restarted(self):
        known = self.followed()
        self.cluster.kill(0)
        self.until(lambda: known.mark.watch.is_lost)
        with self.assertRaises(Unknown):
            known.look()
        self.cluster.restart(0)
        self.until(lambda: self.does(self.change))
        self.told_once(known)

    def test_requests_that_are_dropped_while_nobody_watches(self):
        """No key tells of that, also where another has the name then."""
        known = self.followed()
        self.between.is_open.clear()
        self.between.cut()
        self.direct.drop("a"), self.direct.drop("b")
        self.direct.open("b", "{}"), self.direct.open("c", "{}")
        self.between.is_open.set()
        # (the next watch begins before that, and may tell it in parts)
        with unittest.mock.patch.object(etcd._Watch, "events", lambda watch: watch._events[:1]):
            self.until(lambda: known.is_so({"b": 0, "c": 0}))
            self.until(lambda: known.look() or not known.mark.watch.events())
        self.assertEqual((known.opened, known.gone), (["a", "b", "b", "c"], ["a"]))

    def test_a_watch_that_is_cut_costs_little(self):
        """The next one tells what it hasn't, so that nobody reads all keys."""
        known = self.followed()
        with unittest.mock.patch.object(self.store, "_keys", side_effect=AssertionError("all keys are read")):
            self.between.cut()
            self.until(lambda: known.mark.watch.is_lost)
            self.change()
            self.told_once(known)

    def test_a_watch_that_is_silent(self):
        """Looks at keys tell what it doesn't. Once it is seen not to, another takes its place."""
        with unittest.mock.patch.object(etcd, "BETWEEN_CHECKS", 0.5):
            known = self.followed()
            with unittest.mock.patch.object(self.store, "_keys", side_effect=AssertionError("all keys are read")):
                for _ in range(3):
                    time.sleep(0.5)
                    known.look()
            self.assertEqual(self.between.watches, 1)  # (it has told all that keys show)
            self.between.is_silent = True
            self.change()
            self.until(lambda: known.is_so({"b": 2, "c": 0}))
            self.between.is_silent = False
            self.until(lambda: known.look() or self.between.watches == 2)
        self.told_once(known)

    def test_what_is_closed_in_silence(self):
        """No key tells of that, but how many there are does."""
        with unittest.mock.patch.object(etcd, "BETWEEN_CHECKS", 0.3):
            known = self.followed()
            self.between.is_silent = True
            self.direct.end("a", 1)
            self.until(lambda: known.is_so({"b": 0}))

    def test_a_store_that_is_away_while_it_is_told_of_a_request(self):
        """What the watch has told isn't lost."""
        known = self.followed()
        self.between.refuses = True
        self.change()
        self.until(lambda: len(known.mark.watch.events()) == 3)
        with self.assertRaises(Unknown):
            known.look()
        self.between.refuses = False
        self.told_once(known, 0)

    def test_glances_of_which_some_are_of_closed_requests(self):
        """The others are kept together, and not each by itself."""
        opened = [self.direct.open(f"r{k:02}", "{}") for k in range(50)]
        self.direct.end("r03", 0), self.direct.drop("r07"), self.direct.drop("r08"), self.direct.open("r08", "{}")
        with unittest.mock.patch.object(self.direct, "_txn", side_effect=self.direct._txn) as txn:
            self.direct.keep_glances([Glance(it.name, it.number, 0, "x") for it in opened])
        self.assertEqual(txn.call_count, 2)
        kept = {it.name for it in self.direct.overview() if it.glance is not None}
        self.assertEqual(kept, {it.name for it in opened} - {"r03", "r07", "r08"})

    def test_a_member_that_lags_behind(self):
        """It doesn't know the plan of a request that the watch has told of: a majority is asked."""
        txn, many = self.store._txn, []

        def lagging(compares, success, failure=()):
            told = txn(compares, success, failure)
            if success[0].get("request_range", {}).get("serializable"):
                many.append(len(success))
                return {"header": {"revision": "1"}, "responses": [{"response_range": {}} for _ in success]}
            return told

        known = self.followed()
        with unittest.mock.patch.object(self.store, "_txn", lagging):
            self.direct.open("c", "{}")
            self.until(lambda: known.is_so({"a": 1, "b": 0, "c": 0}))
        self.assertEqual((known.opened, many), (["a", "b", "c"], [1]))

    def test_many_keys(self):
        """They are read some at a time, as they were at one moment."""
        with unittest.mock.patch.object(etcd, "MOST_KEYS", 2):
            for k in range(5):
                self.direct.open(f"r{k}", "{}")
            self.direct.end("r0", 0)
            known = Known(self.store)
            self.assertEqual(known.words, {f"r{k}": 0 for k in range(1, 5)})
            self.assertEqual(len(self.store.listing()), 5)
            post = self.store._post

            def meanwhile(path, body):
                told = post(path, body)
                self.direct.open("r5", "{}"), self.direct.end("r4", 0)
                self.store._post = post
                return told

            self.store._post = meanwhile
            ends, mark = self.store.news(None)
            self.assertEqual(ends, {f"r{k}": 0 for k in range(1, 5)})
            self.assertEqual(self.store.news(mark)[0], {"r5": 0})

            def compacted(path, body):
                told = post(path, body)
                self.direct.open("r6", "{}"), self.cluster.compact()
                self.store._post = post
                return told

            self.store._post = compacted
            with self.assertRaises(Unknown):  # and so it is asked again
                self.store.ends()
            self.assertEqual(sorted(self.store.ends()), ["r1", "r2", "r3", "r5", "r6"])

    def test_a_long_row_among_others(self):
        """It isn't read with them."""
        opened = [self.direct.open(name, "{}") for name in ("long", "short")]
        words = [(k, k) for k in range(etcd.MOST_ENTRIES)]
        self.direct.append(Put("long", 0, words, {}))
        self.direct.append(Put("long", len(words), words, {}))
        self.direct.append(Put("short", 0, words[:2], {}))
        rows = self.direct.read_rows([RowQuery(it.name, it.number, 0) for it in opened])
        self.assertEqual({name: row.entries for name, row in rows.items()}, {"short": words[:2]})
        rows = self.direct.read_rows([RowQuery("long", opened[0].number, len(words))])
        self.assertEqual({name: row.entries for name, row in rows.items()}, {"long": words})


class TwoMembers(EtcdCase):
    members = 2

    def test_a_member_that_has_lost_its_leader(self):
        """It ends a watch, though the connection is there."""
        known = self.followed()
        self.cluster.kill(1)
        self.until(lambda: known.mark.watch.is_lost, 40)
        self.cluster.restart(1)
        self.until(lambda: self.does(self.change))
        self.told_once(known)


if __name__ == "__main__":
    unittest.main()
