"""Rows in keys of an etcd cluster, by its JSON gateway: for few and important requests that outlive machines."""
import base64
import contextlib
import http.client
import json
import select
import socket
import threading
import time
import weakref
from typing import Any, Dict, List, Mapping, NamedTuple, Optional, Sequence, Set, Tuple
from urllib.parse import quote, unquote

from .etcd_codes import is_refused
from .rows import (
    FIRST,
    HEAD,
    Broken,
    Changes,
    Entry,
    Glance,
    Gone,
    ListedRequest,
    OpenRequest,
    Opened,
    Pulse,
    Put,
    ReadRow,
    Store,
    StoreError,
    Timer,
    Unknown,
    RowQuery,
    flow_of,
    in_a_row,
)

MOST_ENTRIES = 40  # in a put: a transaction of etcd has 128 operations at most by default
MOST_READS = 120  # ranges that a transaction reads
MOST_KEYS = 1000  # that one answer has, so that it comes in time
MOST_PLANS = 250  # the same of requests, whose plans may be long
MOST_WORDS = 64  # of a row that is read together with others
MOST_GLANCES = 60  # in a transaction: each is two comparisons
SECONDS = 3  # for an answer
BETWEEN_CHECKS = 15.0  # seconds between two looks at the keys of open requests that a watch tells of
# Has a member that lost its leader end a watch, as `WithRequireLeader` of etcd's own clients does.
WITH_LEADER = {"Grpc-Metadata-hasleader": "true"}


class Etcd(Store):
    """A cluster, by the addresses of its members. It answers what a majority has on disk, unless its members were
    started with `--unsafe-no-fsync`, which can't be seen here. It has no clock: timers go by each process's own."""

    def __init__(self, addresses: str) -> None:
        self._addresses, self._local = addresses.split(","), threading.local()
        self._turn = 0
        # the revisions in which requests were opened, which tell one from another of its name
        self._born: Dict[str, str] = {}
        # of open requests, by the revision of the key that says so: what of them doesn't change
        self._heads: Dict[Tuple[str, str], Tuple[int, float, str]] = {}
        self._made: "weakref.WeakSet[http.client.HTTPConnection]" = weakref.WeakSet()
        self._watches: "weakref.WeakSet[_Watch]" = weakref.WeakSet()
        self._get(b"cf/r/", keys_only=True)  # whether a majority answers

    # Calls.

    def _address(self) -> Tuple[str, int]:
        """The member that is asked now."""
        host, port = self._addresses[self._turn % len(self._addresses)].rsplit(":", 1)
        return host, int(port)

    def _post(self, path: str, body: Any) -> Any:
        connection: Optional[http.client.HTTPConnection] = getattr(self._local, "http", None)
        if connection is None:
            host, port = self._address()
            connection = self._local.http = http.client.HTTPConnection(host, port, timeout=SECONDS)
            self._made.add(connection)
        why = ""
        try:
            connection.request("POST", path, json.dumps(body))
            answer = connection.getresponse()
            told = answer.read()
            if answer.status == 200:
                return json.loads(told)
            why = f"{answer.status} {told[:200]!r}"
            said = json.loads(told)
            if is_refused(said.get("code"), said.get("message", "")):
                raise StoreError(f"etcd refuses it: {told[:200]!r}")
        except (OSError, http.client.HTTPException) as lost:
            why = repr(lost)
        except (ValueError, AttributeError) as unreadable:
            why = why or repr(unreadable)
        connection.close()
        self._local.http, self._turn = None, self._turn + 1
        raise Unknown(f"etcd: {why}")

    def _get(self, key: bytes, end: Optional[bytes] = None, **more: Any) -> List[Tuple[bytes, bytes]]:
        return _pairs(self._keys(key, end, **more)[0])

    def _keys(self, key: bytes, end: Optional[bytes] = None, most: int = 0, **more: Any) -> Tuple[List[Any], int]:
        """What stands in a range at one revision, and that one. It is read some keys at a time."""
        found: List[Any] = []
        while True:
            told = self._post("/v3/kv/range", _range(key, end, limit=most or MOST_KEYS, **more))
            found += told.get("kvs", [])
            # (of a revision any member that knows it has the same answer)
            more = {"revision": told["header"]["revision"], "serializable": True, **more}
            if not told.get("more"):
                return found, int(more["revision"])
            key = base64.b64decode(found[-1]["key"]) + b"\0"

    def _count(self, key: bytes, end: bytes) -> int:
        """How many keys a range has."""
        return int(self._post("/v3/kv/range", _range(key, end, count_only=True)).get("count", 0))

    def _ranges(self, ranges: Sequence[Any], **more: Any) -> List[List[Any]]:
        """What stands in each of these ranges. They are read some at a time."""
        told: List[Any] = []
        for k in range(0, len(ranges), MOST_READS):
            answer = self._txn([], [{"request_range": {**it, **more}} for it in ranges[k : k + MOST_READS]])
            told += [it["response_range"].get("kvs", []) for it in answer.get("responses", [])]
        return told

    def _txn(self, compares: List[Any], success: List[Any], failure: Sequence[Any] = ()) -> Any:
        return self._post("/v3/kv/txn", {"compare": compares, "success": success, "failure": list(failure)})

    # Requests.

    def open(self, name: str, plan: str) -> Opened:
        key, said = _key("r", name), json.dumps({"plan": plan, "opened": time.time()}).encode()
        found = None
        while found is None:  # (it may be dropped meanwhile)
            self._txn([_absent(key)], [_put(key, said), _put(_key("o", name), b"0")])
            found = self.find(name)
        return found

    def find(self, name: str) -> Optional[Opened]:
        return self._found(name, self._keys(_key("r", name))[0])

    def _found(self, name: str, kvs: Sequence[Any]) -> Optional[Opened]:
        for it in kvs:
            said = json.loads(base64.b64decode(it["value"]))
            self._born[name] = it["create_revision"]
            return Opened(name, said["plan"], said["opened"], int(self._born[name]))
        return None

    @staticmethod
    def _is_there(name: str, revision: str) -> Any:
        """Compares whether a request is the one that was opened."""
        return {"key": _b64(_key("r", name)), "target": "CREATE", "create_revision": revision}

    def _gone(self, name: str) -> Gone:
        """Says that a request isn't there. Another of its name may be."""
        self._born.pop(name, None)
        return Gone(name)

    def _revision(self, name: str) -> str:
        if name not in self._born and self.find(name) is None:
            raise self._gone(name)
        return self._born[name]

    def _row(self, kind: str, name: str, revision: str = "") -> bytes:
        """What the keys of a request's words or payloads begin with: another request of the same name has others."""
        return _key(kind, name) + f"/{revision or self._revision(name)}/".encode()

    def _is_dropped(self, name: str, revision: str) -> bool:
        """Whether a request is there no more, by a majority: a member that lags behind may not know it yet."""
        found = self.find(name)
        return found is None or str(found.number) != revision

    def ends(self) -> Dict[str, int]:
        return self.news(None)[0]

    def news(self, mark: Any) -> Tuple[Dict[str, int], Any]:
        # Since a mark any member's answer will do. Of all, a request that a member that lags behind doesn't know yet
        # would seem closed.
        more: Any = {} if mark is None else {"min_mod_revision": str(mark + 1), "serializable": True}
        kvs, revision = self._keys(b"cf/o/", b"cf/o0", **more)
        ends = {name: words for (name, _), words in _ends(kvs).items()}
        return ends, max(mark or 0, revision)  # (a member that lags behind has a lower one)

    def listing(self) -> List[ListedRequest]:
        ends = self.ends()
        closed = {_name(key): json.loads(value) for key, value in self._get(b"cf/c/", b"cf/c0")}
        told = []
        for key, value in self._get(b"cf/r/", b"cf/r0"):
            name = _name(key)
            at, words = closed.get(name, (None, ends.get(name, 0)))
            told.append(ListedRequest(name, json.loads(value)["opened"], None if name in ends else at, ends.get(name, words)))
        return sorted(told)

    def end(self, name: str, at: int, number: int = 0) -> bool:
        key, timers, revision = _key("o", name), _key("t", name) + b"/", str(number or self._revision(name))
        told = self._txn(
            [self._is_there(name, revision), {"key": _b64(key), "target": "VALUE", "value": _b64(b"%d" % at)}],
            [
                {"request_delete_range": {"key": _b64(key)}},
                {"request_delete_range": _range(timers, _after(timers))},
                {"request_delete_range": _range(_key("g", name))},
                _put(_key("c", name), json.dumps([time.time(), at]).encode()),
            ],
        )
        closes = bool(told.get("succeeded"))
        if not closes and self._is_dropped(name, revision):
            raise self._gone(name)
        return closes

    def reopen(self, name: str, number: int = 0) -> None:
        revision = str(number or self._revision(name))
        row = self._row("w", name, revision)
        told: Any = {}
        # others may put and close it meanwhile: with a count that is too low nobody could close it again
        while not told.get("succeeded"):
            many = len(self._get(row, _after(row), keys_only=True))
            told = self._txn(
                [self._is_there(name, revision), _absent(_key("o", name)), _absent(_place(row, many))],
                [_put(_key("o", name), b"%d" % many)],
                [{"request_range": _range(_key("o", name))}],
            )
            if not told.get("succeeded") and self._is_dropped(name, revision):
                raise self._gone(name)
            if not told.get("succeeded") and told["responses"][0]["response_range"].get("kvs"):
                return  # it is open

    def drop(self, name: str, at: Optional[int] = None) -> bool:
        ranges = [_range(key, _after(key)) for key in (_key(kind, name) + b"/" for kind in "wptn")]
        ranges += [_range(_key(kind, name)) for kind in "rocg"]
        revision = self._revision(name)
        row = self._row("w", name, revision)
        is_so = [] if at is None else [_absent(_key("o", name)), _absent(_place(row, at))]
        if at:
            is_so.append({"key": _b64(_place(row, at - 1)), "target": "VERSION", "result": "GREATER", "version": 0})
        told = self._txn([self._is_there(name, revision), *is_so], [{"request_delete_range": it} for it in ranges])
        if told.get("succeeded"):
            self._born.pop(name, None)
        return bool(told.get("succeeded"))

    # Words.

    def append_groups(self, puts: Sequence[Put]) -> List[Optional[List[Entry]]]:
        return [self._append(put) for put in puts]

    def _append(self, put: Put) -> Optional[List[Entry]]:
        if len(put.entries) > MOST_ENTRIES:
            raise StoreError(f"etcd takes {MOST_ENTRIES} words in a put, not {len(put.entries)}")
        revision = str(put.number or self._revision(put.request))
        row, payloads = self._row("w", put.request, revision), self._row("p", put.request, revision)
        key, end = _place(row, put.at), _after(row)
        puts = [_put(_place(row, put.at + k), b"%x %x" % entry) for k, entry in enumerate(put.entries)]
        puts += [_put(_place(payloads, place), payload) for place, payload in put.payloads.items()]
        puts.append(_put(_key("o", put.request), b"%d" % (put.at + len(put.entries))))
        told = self._txn([_absent(key), self._is_there(put.request, revision)], puts, [{"request_range": _range(key, end)}])
        if told.get("succeeded"):
            return None
        stands = _pairs(told["responses"][0]["response_range"].get("kvs", []))
        if not stands:
            raise self._gone(put.request)
        return _entries(put.request, put.at, stands)

    def read(self, name: str, at: int = 0, number: int = 0) -> List[Entry]:
        # Any member's answer will do: a stale one is a shorter prefix.
        revision = str(number or self._revision(name))
        row = self._row("w", name, revision)
        told = self._txn([self._is_there(name, revision)], [{"request_range": _range(_place(row, at), _after(row), serializable=True)}])
        if not told.get("succeeded"):
            if self._is_dropped(name, revision):
                raise self._gone(name)
            return []
        return _entries(name, at, _pairs(told["responses"][0]["response_range"].get("kvs", [])))

    def read_rows(self, wanted: Sequence[RowQuery]) -> Dict[str, ReadRow]:
        ranges = []
        for it in wanted:
            row = self._row("w", it.name, str(it.number))
            ranges.append(_range(_key("r", it.name), keys_only=it.at > 0))
            ranges.append(_range(_place(row, it.at), _after(row), limit=MOST_WORDS))
        found, told = self._ranges(ranges, serializable=True), {}
        for it, heads, kvs in zip(wanted, found[::2], found[1::2]):
            with contextlib.suppress(Broken):
                if len(kvs) < MOST_WORDS and [head["create_revision"] for head in heads] == [str(it.number)]:
                    opened = None if it.at else self._found(it.name, heads)
                    told[it.name] = ReadRow(opened, _entries(it.name, it.at, _pairs(kvs)), {})
        return told

    def payloads_of(self, wanted: Mapping[Tuple[str, int], Sequence[int]]) -> Dict[str, Dict[int, bytes]]:
        its = [(name, place, _place(self._row("p", name, str(number)), place)) for (name, number), places in wanted.items() for place in places]
        told: Dict[str, Dict[int, bytes]] = {name: {} for name, _ in wanted}
        for (name, place, _), kvs in zip(its, self._ranges([_range(key) for _, _, key in its], serializable=True)):
            told[name].update((place, value) for _, value in _pairs(kvs))
        return told

    def payloads(self, name: str, places: Sequence[int], number: int = 0) -> Dict[int, bytes]:
        revision = str(number or self._revision(name))
        row = self._row("p", name, revision)
        if len(places) > 8:
            pairs = {int(key[-6:]): value for key, value in self._get(row, _after(row))}
            told = {place: pairs[place] for place in places if place in pairs}
        else:
            told = {place: found[0][1] for place in places for found in [self._get(_place(row, place))] if found}
        if len(told) < len(places) and self._is_dropped(name, revision):
            raise self._gone(name)
        return told

    def wait_for_change(self, seconds: float) -> None:
        """By a watch of this thread's own, a stream that stays open."""
        watch = getattr(self._local, "watch", None)
        try:
            if watch is None:
                self._local.watch = self._watching()
                return
            connection, answer = watch
            if select.select([connection.sock], [], [], seconds)[0]:
                while select.select([connection.sock], [], [], 0)[0]:
                    if not answer.readline():
                        raise OSError("the watch ended")
        except (OSError, http.client.HTTPException, ValueError):
            self._local.watch, self._turn = None, self._turn + 1
            time.sleep(min(seconds, 0.05))

    def _watching(self) -> Tuple[http.client.HTTPConnection, http.client.HTTPResponse]:
        host, port = self._address()
        connection = http.client.HTTPConnection(host, port, timeout=SECONDS)
        connection.request("POST", "/v3/watch", json.dumps({"create_request": _range(b"cf/w/", b"cf/w0")}))
        answer = connection.getresponse()
        sock = connection.sock
        answer.readline()
        connection.sock = sock
        self._made.add(connection)
        return connection, answer

    def close(self) -> None:
        for connection in list(self._made):
            connection.close()
        for watch in list(self._watches):
            watch.end()

    # Sessions and timers.

    def beat(self, session: int) -> None:
        self._post("/v3/kv/put", {"key": _b64(b"cf/b/%010x" % session), "value": ""})

    def beats(self) -> Dict[int, int]:
        return _beats(self._keys(b"cf/b/", b"cf/b0", keys_only=True)[0])

    def drop_beat(self, session: int) -> None:
        self._txn([], [{"request_delete_range": _range(b"cf/%s/%010x" % (kind, session))} for kind in (b"b", b"s")])

    def name_session(self, session: int, said: str, request: str = "", number: int = 0) -> None:
        if not request:
            self._post("/v3/kv/put", {"key": _b64(b"cf/s/%010x" % session), "value": _b64(said.encode())})
            return
        revision = str(number or self._revision(request))
        key = self._row("n", request, revision) + b"%010x" % session
        if not self._txn([self._is_there(request, revision)], [_put(key, said.encode())]).get("succeeded"):
            raise self._gone(request)

    def session_names(self, request: str = "", number: int = 0) -> Dict[int, str]:
        prefix = self._row("n", request, str(number or self._revision(request))) if request else b"cf/s/"
        return _session_names(prefix, self._get(prefix, _after(prefix)))

    def pulse(self) -> Pulse:
        told = self._txn(
            [],
            [
                {"request_range": it}
                for it in (_range(b"cf/b/", b"cf/b0", keys_only=True), _range(b"cf/s/", b"cf/s0"), _range(b"cf/w/", b"cf/w0", count_only=True))
            ],
        )
        beats, names, words = (it["response_range"] for it in told["responses"])
        return Pulse(_beats(beats.get("kvs", [])), _session_names(b"cf/s/", _pairs(names.get("kvs", []))), int(words.get("count", 0)), self.now())

    # What lists ask for.

    def overview(self) -> List[OpenRequest]:
        return self._overview()[0]

    def _overview(self) -> Tuple[List[OpenRequest], int, Dict[str, str]]:
        """All open requests; the revision of that; and by their names those of the keys that say that they are open."""
        kvs, revision = self._keys(b"cf/o/", b"cf/o0")
        ends = _ends(kvs)
        self._heads = {key: it for key, it in self._heads.items() if key in ends}
        opened = self._opens(ends, _glances_of(self._get(b"cf/g/", b"cf/g0")))
        return opened, revision, dict(ends.keys())

    def changes(self, mark: Optional["_Mark"]) -> Tuple[Changes, "_Mark"]:
        if mark is None:
            first = self._first()
            if first is not None:
                return first
        if mark is None or mark.watch is None:
            opened, revision, born = self._overview()
            before: Dict[str, str] = {} if mark is None else mark.born
            return (
                Changes(opened, {}, [it for it in before if it not in born]),
                _Mark(revision, born, self._watching_from(revision), time.monotonic()),
            )
        if mark.watch.is_compacted:
            return self._anew(mark)
        if not mark.watch.is_lost and time.monotonic() < mark.checked + BETWEEN_CHECKS:
            return self._watched(mark, mark.watch)
        try:
            return self._checked(mark, mark.watch)
        except Unknown:
            if mark.watch.is_lost:
                raise
            # (it tells still; keys are for later)
            return self._watched(mark._replace(checked=time.monotonic()), mark.watch)

    def _first(self) -> "Optional[Tuple[Changes, _Mark]]":
        """The first open requests, by their keys, where there are many more."""
        told = self._post("/v3/kv/range", _range(b"cf/o/", b"cf/o0", limit=FIRST))
        ends, many = _ends(told.get("kvs", [])), int(told.get("count", 0))
        if many <= 2 * FIRST:
            return None
        return (Changes(self._opens(ends, self._glances([name for name, _ in ends])), {}, [], many), _Mark(0, dict(ends.keys()), None, 0.0))

    def _watching_from(self, revision: int) -> "_Watch":
        """A watch that tells what comes behind a revision."""
        watch = _Watch(*self._address(), revision)
        self._watches.add(watch)
        return watch

    def _watched(self, mark: "_Mark", watch: "_Watch") -> "Tuple[Changes, _Mark]":
        """What is other by what the watch has told since."""
        ends: Dict[str, Tuple[str, int]] = {}
        gone: Set[str] = set()
        revision, events = mark.revision, watch.events()
        for it in events:
            key = it["kv"]
            name, revision = _name(base64.b64decode(key["key"])), int(key["mod_revision"])
            if revision <= int(mark.born.get(name, 0)):  # it is known by a check
                continue
            ends.pop(name, None)
            gone.add(name)
            if it.get("type") != "DELETE":
                ends[name] = (key["create_revision"], int(base64.b64decode(key["value"])))
                gone.discard(name)
        changes, born = self._changed({(name, at): words for name, (at, words) in ends.items()}, gone, mark.born)
        watch.forget(len(events))  # (last: where a request can't be asked for, all are told with the next call)
        return changes, mark._replace(revision=revision, born=born)

    def _checked(self, mark: "_Mark", watch: "_Watch") -> "Tuple[Changes, _Mark]":
        """The same by the keys that were put since, and by how many there are, which is one short answer: what is
        closed is left to the watch. Where that is cut off, another takes its place, and tells what it hasn't. It may be
        cut off in silence: then all keys are read."""
        if watch.told < watch.owed:
            watch.end()
            self._turn += 1  # (the next member)
            return self._anew(mark)
        told = self._post("/v3/kv/range", _range(b"cf/o/", b"cf/o0", limit=MOST_KEYS, min_mod_revision=str(mark.revision + 1)))
        later = _ends(told.get("kvs", []))
        changes, born = self._changed(later, set(), mark.born)
        watch.owed = mark.revision + 1 if later or int(told.get("count", 0)) != len(born) else 0
        if watch.is_lost:
            self._turn += 1
            watch = self._watching_from(mark.revision)
        return changes, _Mark(mark.revision, born, watch, time.monotonic())

    def _anew(self, mark: "_Mark") -> "Tuple[Changes, _Mark]":
        """The same by all keys, where nobody tells any more what came behind the mark."""
        kvs, revision = self._keys(b"cf/o/", b"cf/o0")
        names = {name for name, _ in _ends(kvs)}
        later = _ends([it for it in kvs if int(it["mod_revision"]) > mark.revision])
        changes, born = self._changed(later, mark.born.keys() - names, mark.born)
        return changes, _Mark(revision, born, self._watching_from(revision), time.monotonic())

    def _changed(self, ends: Dict[Tuple[str, str], int], gone: Set[str], before: Dict[str, str]) -> Tuple[Changes, Dict[str, str]]:
        """What is other if these are open, and those were closed or dropped before; and all that are open then."""
        if not ends and not gone:
            return Changes([], {}, []), before
        born = {**{name: at for name, at in before.items() if name not in gone}, **dict(ends.keys())}
        opened = self._opens({key: words for key, words in ends.items() if before.get(key[0]) != key[1]}, {})
        for name in gone & before.keys():
            self._heads.pop((name, before[name]), None)
        return (
            Changes(opened, {name: words for (name, _), words in ends.items()}, [name for name in gone if name in before and name not in born]),
            born,
        )

    def _glances(self, names: List[str]) -> Dict[Tuple[str, int], Glance]:
        """The glances at these requests, by their names and numbers."""
        found = self._ranges([_range(_key("g", name)) for name in names], serializable=True)
        return _glances_of([it for kvs in found for it in _pairs(kvs)])

    def _opens(self, ends: Dict[Tuple[str, str], int], glances: Dict[Tuple[str, int], Glance]) -> List[OpenRequest]:
        """What lists tell of these requests, as far as they are there."""
        self._read_heads([key for key in ends if key not in self._heads])
        opened = [(name, words, *self._heads[name, born]) for (name, born), words in ends.items() if (name, born) in self._heads]
        return [OpenRequest(name, number, at, words, flow, glances.get((name, number))) for name, words, number, at, flow in opened]

    def _read_heads(self, keys: List[Tuple[str, str]]) -> None:
        if len(keys) > MOST_KEYS and self._count(b"cf/r/", b"cf/r0") <= 2 * len(keys):
            plans = self._keys(b"cf/r/", b"cf/r0", MOST_PLANS)[0]  # (it costs a third of one range for each)
            known: Dict[str, List[Any]] = {_name(base64.b64decode(it["key"])): [it] for it in plans}
            found = [known.get(name, []) for name, _ in keys]
        else:
            found = [kvs for k in range(0, len(keys), MOST_READS) for kvs in self._plans(keys[k : k + MOST_READS])]
        for key, kvs in zip(keys, found):
            for it in kvs:
                said = json.loads(base64.b64decode(it["value"]))
                self._heads[key] = (int(it["create_revision"]), float(said["opened"]), flow_of(str(said["plan"])[:HEAD]))

    def _plans(self, keys: List[Tuple[str, str]]) -> List[List[Any]]:
        """The keys with the plans of these requests, as one member has them that knows that they are open. A majority
        is asked where it doesn't: the member of the watch may know a request that others don't know yet."""
        told: Any = {}
        for is_one in (True, False):
            told = self._txn([], [{"request_range": _range(_key("r", name), serializable=is_one)} for name, _ in keys])
            if int(told["header"]["revision"]) >= max(int(born) for _, born in keys):
                break
        return [it["response_range"].get("kvs", []) for it in told["responses"]]

    def keep_glances(self, glances: Sequence[Glance]) -> None:
        for k in range(0, len(glances), MOST_GLANCES):
            some, before = list(glances[k : k + MOST_GLANCES]), MOST_GLANCES + 1
            while some and len(some) < before:  # (where all are open by now that weren't, it is for the next time)
                before, some = len(some), self._keep(some)

    def _keep(self, glances: Sequence[Glance]) -> List[Glance]:
        """Keeps them, and gives none; or keeps none, since not all of the requests are open, and gives those that are.
        (To keep each by itself would wait for a majority's disks as often.)"""
        are_so: List[Any] = []
        for it in glances:
            is_open = {"key": _b64(_key("o", it.request)), "target": "VERSION", "result": "GREATER", "version": 0}
            are_so += [self._is_there(it.request, str(it.number)), is_open]
        puts = [_put(_key("g", it.request), json.dumps([it.number, it.words, it.said]).encode()) for it in glances]
        told = self._txn(are_so, puts, [{"request_range": _range(_key(kind, it.request), keys_only=True)} for it in glances for kind in "ro"])
        if told.get("succeeded"):
            return []
        found = [it["response_range"].get("kvs", []) for it in told["responses"]]
        return [
            it
            for it, opened, is_open in zip(glances, found[::2], found[1::2])
            if is_open and opened and int(opened[0]["create_revision"]) == it.number
        ]

    def words_put(self) -> Optional[int]:
        return self._count(b"cf/w/", b"cf/w0")

    # Clock and timers.

    def now(self) -> float:
        return time.time()

    def set_timer(self, timer: Timer) -> None:
        value = json.dumps([timer.due, _b64(timer.payload)]).encode()
        revision = str(timer.number or self._revision(timer.request))
        key = _place(self._row("t", timer.request, revision), timer.stage)
        if not self._txn([self._is_there(timer.request, revision)], [_put(key, value)]).get("succeeded"):
            raise self._gone(timer.request)

    def due_timers(self, now: float) -> List[Timer]:
        told = []
        for key, value in self._get(b"cf/t/", b"cf/t0", serializable=True):
            due, payload = json.loads(value)
            if due <= now:
                # without a number where an earlier version has set it
                name, *number, stage = key[5:].decode().split("/")
                told.append(Timer(unquote(name), int(stage), due, base64.b64decode(payload), int(number[0]) if number else 0))
        return sorted(told, key=lambda timer: timer.due)

    def drop_timer(self, request: str, stage: int, number: int = 0) -> None:
        rows = (self._row("t", request, str(number or self._revision(request))), _key("t", request) + b"/")
        self._txn([], [{"request_delete_range": {"key": _b64(_place(row, stage))}} for row in rows])


class _Watch:
    """What a member tells of keys of open requests, from behind a revision on. A thread reads it.

    Attributes:
        is_lost: Whether it tells nothing any more: the connection was cut, the member has no leader, or the revision
            is compacted.
        is_compacted: Whether it is that, so that no other watch from there on tells anything, either.
        told: The revision up to which it has told.
        owed: The revision that it has to tell until keys are looked at again, since by now they show a later one. A
            connection that is cut off in silence doesn't."""

    def __init__(self, host: str, port: int, revision: int) -> None:
        self.is_lost, self.is_compacted, self.told, self.owed = False, False, revision, 0
        self._events: List[Any] = []
        self._lock = threading.Lock()
        self._asked = {**_range(b"cf/o/", b"cf/o0"), "start_revision": str(revision + 1)}
        self._connection = http.client.HTTPConnection(host, port, timeout=SECONDS)
        self._sock: Optional[socket.socket] = None
        try:
            threading.Thread(target=self._run, name="cf-watch", daemon=True).start()
        except RuntimeError:  # there are no more threads for now: keys are looked at instead
            self.is_lost = True

    def _run(self) -> None:
        try:
            self._connection.connect()
            self._sock = self._connection.sock
            self._sock.settimeout(None)
            if self.is_lost:  # it was ended meanwhile
                return
            self._connection.request("POST", "/v3/watch", json.dumps({"create_request": self._asked}), WITH_LEADER)
            with contextlib.closing(self._connection.getresponse()) as answer:
                result: Any = {}
                while not result.get("canceled"):
                    result = json.loads(answer.readline())["result"]
                    self.is_compacted = int(result.get("compact_revision", 0)) > 0
                    events = result.get("events", [])
                    with self._lock:
                        self._events += events
                    self.told = max([self.told, *(int(it["kv"]["mod_revision"]) for it in events)])
        except (OSError, http.client.HTTPException, ValueError, KeyError, AttributeError):
            pass
        finally:
            self.is_lost = True
            self._connection.close()
            if self._sock is not None:
                self._sock.close()

    def events(self) -> List[Any]:
        """What it has told and isn't forgotten."""
        with self._lock:
            return self._events[:]

    def forget(self, many: int) -> None:
        """Forgets the first of these."""
        with self._lock:
            del self._events[:many]

    def end(self) -> None:
        """Has the thread end."""
        self.is_lost = True
        if self._sock is not None:
            with contextlib.suppress(OSError):
                self._sock.shutdown(socket.SHUT_RDWR)


class _Mark(NamedTuple):
    """What a list of open requests was of.

    Attributes:
        revision: The cluster's.
        born: By the names of the requests, the revisions of the keys that say that they are open.
        watch: What tells of later ones, or None where these were the first requests alone.
        checked: When keys were looked at."""

    revision: int
    born: Dict[str, str]
    watch: Optional[_Watch]
    checked: float


def _b64(data: bytes) -> str:
    return base64.b64encode(data).decode()


def _key(kind: str, name: str) -> bytes:
    return f"cf/{kind}/{quote(name, safe='')}".encode()


def _name(key: bytes) -> str:
    return unquote(key[5:].decode())


def _place(row: bytes, at: int) -> bytes:
    """A key in fixed width, so that a range is in order."""
    return row + b"%06d" % at


def _after(prefix: bytes) -> bytes:
    """The end of the range of all keys that begin so."""
    return prefix[:-1] + bytes([prefix[-1] + 1])


def _range(key: bytes, end: Optional[bytes] = None, **more: Any) -> Dict[str, Any]:
    return {"key": _b64(key), **({} if end is None else {"range_end": _b64(end)}), **more}


def _put(key: bytes, value: bytes) -> Any:
    return {"request_put": {"key": _b64(key), "value": _b64(value)}}


def _absent(key: bytes) -> Any:
    return {"key": _b64(key), "target": "VERSION", "version": 0}


def _pairs(kvs: Sequence[Any]) -> List[Tuple[bytes, bytes]]:
    """The keys and values of a range."""
    return [(base64.b64decode(it["key"]), base64.b64decode(it.get("value", ""))) for it in kvs]


def _beats(kvs: Sequence[Any]) -> Dict[int, int]:
    return {int(base64.b64decode(it["key"])[5:], 16): int(it["version"]) for it in kvs}


def _session_names(prefix: bytes, pairs: Sequence[Tuple[bytes, bytes]]) -> Dict[int, str]:
    return {int(key[len(prefix) :], 16): value.decode() for key, value in pairs}


def _glances_of(pairs: Sequence[Tuple[bytes, bytes]]) -> Dict[Tuple[str, int], Glance]:
    told = {}
    for key, value in pairs:
        number, words, said = json.loads(value)
        told[_name(key), number] = Glance(_name(key), number, words, said)
    return told


def _ends(kvs: Sequence[Any]) -> Dict[Tuple[str, str], int]:
    """How many words open requests have, by their names and the revisions of the keys that say that they are open."""
    return {(_name(base64.b64decode(it["key"])), it["create_revision"]): int(base64.b64decode(it["value"])) for it in kvs}


def _entries(name: str, at: int, pairs: Sequence[Tuple[bytes, bytes]]) -> List[Entry]:
    return in_a_row(name, at, [(int(key[-6:]), *_entry(value)) for key, value in pairs])


def _entry(value: bytes) -> Tuple[Any, Any]:
    try:
        word, token = value.split()
        return int(word, 16), int(token, 16)
    except ValueError:
        return repr(value), "nothing"
