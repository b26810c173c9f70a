"""Judges a run of mixed requests: mixed_judge.py ADDRESS FOLDER.

Each request is judged as by judge.py, even one that was dropped, since triggers keep its rows. From the plain graph it works out what each
function was called with, and so what it had to give. It also checks that:

- a function ran at most once for each claim that a session was granted, and a further try only after a stage that was abandoned;
- the effect of a transactional function is there once if its finish is, and nowhere else;
- each value and error was put by somebody who meant it for this stage of this request, by a timer that was set for it, or by a compose;
- what calls were answered, stages showed and histories told is what the row of the request says;
- no word stands whose request was dropped;
- no request was closed with stages left, unless the process that attached was killed before it opened the request again; and no timer was lost;
- each kind of fault and stage was in some request, as WANTED says.
"""
import collections
import glob
import json
import math
import os
import re
import sys
import zlib

from jobs import tables
from judge import UNFIT, Judge
from mixed_functions import given_by, raises

from cf.service.words import ATTACH, CANCEL, CLAIM, COMPLETE, FAIL, FAIL_AS, FINISH, LINKS
from cf.store import Broken

KEPT = {  # what keeps the rows of requests that are dropped
    "sqlite": [
        "create table kept_request (id integer, name text, plan text)",
        "create table kept_word (request integer, at integer, word integer, token integer, payload blob)",
        "create table kept_large (request integer, place integer, payload blob)",
        "create trigger keep_request before delete on cf_request begin insert into kept_request values (old.id, old.name, old.plan); end",
        "create trigger keep_word before delete on cf_word begin "
        "insert into kept_word values (old.request, old.at, old.word, old.token, old.payload); end",
        "create trigger keep_large before delete on cf_large begin insert into kept_large values (old.request, old.place, old.payload); end",
    ],
    "postgres": [
        "create table kept_request (id bigint, name text, plan text)",
        "create table kept_word (request bigint, at int, word bigint, token bigint, payload bytea)",
        "create function keep_request() returns trigger language plpgsql as "
        "'begin insert into kept_request values (old.id, old.name, old.plan); return old; end'",
        "create function keep_word() returns trigger language plpgsql as "
        "'begin insert into kept_word values (old.request, old.at, old.word, old.token, old.payload); return old; end'",
        "create trigger keep_request before delete on cf_request for each row execute function keep_request()",
        "create trigger keep_word before delete on cf_word for each row execute function keep_word()",
    ],
}
LEFT_BEHIND = "select request, count(*) from cf_word where request not in (select id from cf_request) group by request"
KINDS = ("transactional", "tried again", "once", "timed", "called back", "opened again", "shared")  # what may stand in one request
WANTED = [  # what each run has to have had, but for transactions where the engine has none
    *(f"{kind}, {where}" for kind in ("transactional", "tried again", "once") for where in ("first", "in the middle", "last")),
    *(f"{what} a {kind} stage" for what in ("timers of", "callbacks of") for kind in ("transactional", "tried again", "once", "promised")),
    *(f"callbacks that {what}" for what in ("complete", "attach", "put elsewhere", "set a timer")),
    "transactional, another ready or claimed",
    "effects in transactions",
    "timers fired",
    "outcomes shown",
    "histories",
    "opened again by the same process, closed before",
    "opened again by the same process, open",
    "closed ones that were attached to",
    "names that were begun anew",
    "requests of all kinds",
]


class MixedJudge(Judge):
    of_request = ("answered", "shown", "history", "timer", "called back", "again", "closed behind", "closed")  # notes of one request

    def __init__(self, address, folder):
        super().__init__(address, folder)
        self.address = address
        self.sessions, self.calls = {}, collections.defaultdict(collections.Counter)  # of a process; by label and process
        self.meant = collections.defaultdict(set)
        self.notes = collections.defaultdict(list)
        self.effects, self.labels = collections.Counter(), set()

    # What was written down.

    def read_logs(self):
        for path in glob.glob(f"{self.folder}/log-*"):
            process, own = os.path.basename(path), {}
            self.sessions[process] = set()
            for line in open(path):
                try:
                    kind, *rest = json.loads(line)
                except ValueError:
                    self.count["lines cut by a kill"] += 1
                    continue
                self.read_note(process, own, kind, rest)
        self.count["sessions"] = sum(len(it) for it in self.sessions.values())
        self.count["sessions that ended by themselves"] = len(self.ended)

    def read_note(self, process, own, kind, rest):
        if kind == "end":
            self.ended |= self.sessions[process]
        elif kind in ("did", "saw"):
            name, number, session, desk, *more = rest
            self.sessions[process].add(session)
            if kind == "did":
                if more[0] <= own.get(desk, 0):
                    self.wrong.append(f"{name}: session {session} goes back to {more[0]}")
                own[desk] = more[0]
            self.count["answers"] += 1
            self.said[name, number].append((kind, session, *more))
        elif kind == "run":
            self.calls[rest[0]][process] += 1
            self.count["functions run"] += 1
        elif kind == "error":
            if "no such request" not in rest[1]:  # (which one that was dropped is told)
                self.wrong.append(f"{rest[0] or 'a process'}: {rest[1]}")
        elif kind == "means":
            name, number, stage, token = rest
            self.meant[name, number, stage].add(token)
        else:
            self.notes[kind].append(rest)

    # Rows, also of those that were dropped.

    def row(self, key):
        return self.rows[key]

    def read_rows(self):
        self.rows, self.names = {}, collections.Counter()
        for it in self.store.listing():
            found = self.store.find(it.name)
            try:
                entries = self.store.read(it.name)
            except Broken as error:
                self.wrong.append(str(error))
                continue
            payloads = self.store.payloads(it.name, list(range(1, len(entries) + 1)))
            self.rows[it.name, found.number] = entries, json.loads(found.plan), payloads
        self.live = set(self.rows)
        if self.address.startswith("etcd"):
            return
        self.effects.update(it for it, in tables(self.address, "select name from effect"))
        kept, payloads = collections.defaultdict(dict), collections.defaultdict(dict)
        self.wrong += [f"request {it} was dropped, and {many} of its words stand" for it, many in tables(self.address, LEFT_BEHIND)]
        for request, at, word, token, payload in tables(self.address, "select * from kept_word"):
            kept[request][at] = (word, token)
            if payload is not None:
                payloads[request][at + 1] = bytes(payload)
        if self.address.startswith("sqlite"):
            for request, place, payload in tables(self.address, "select * from kept_large"):
                payloads[request][place] = bytes(payload)
        for number, name, plan in tables(self.address, "select * from kept_request"):
            entries = [kept[number][at] for at in range(len(kept[number]))]
            self.rows[name, number] = entries, json.loads(plan), payloads[number]

    def judge(self):
        self.read_logs()
        self.read_rows()
        dropped, labels = {it[0] for it in self.notes["drops"]}, set()
        self.names.update(name for name, _ in set(self.rows) | set(self.said))
        self.told = collections.defaultdict(list)
        for kind in self.of_request:
            for name, number, *rest in self.notes[kind]:
                self.told[kind, name, number].append(rest)
        with open(f"{self.folder}/histories", "w") as out:
            for key in sorted(set(self.rows) | set(self.said)):
                if key in self.rows:
                    try:
                        out.write(self.request(key) + "\n")
                    except UNFIT as error:
                        self.wrong.append(f"{key}: its row can't be judged: {error!r}")
                elif key[0] not in dropped:
                    self.count["lost words"] += sum(it[0] == "did" for it in self.said[key])
                    self.wrong.append(f"{key}: the request is lost")
                else:
                    self.count["dropped, and not kept"] += 1
                labels |= self.labels
        self.outside(labels)
        self.kinds()
        self.count["lost words"] += 0
        self.count["functions run twice"] += 0
        self.count["misfits"] = len(self.wrong)
        return self.count, self.wrong

    # One request.

    def request(self, key):
        entries, plan, payloads = self.rows[key]
        self.key, self.payloads, self.entries = key, payloads, entries
        self.stages = list(plan["stages"])
        self.came = [(0, None)] * len(self.stages)  # where each was attached, and by which session
        self.places = {}  # where each was settled
        self.claimed, self.finished, self.open, self.links, self.called_with = [], {}, {}, {}, {}
        self.tokens, self.put_at, self.labels = {}, {}, {it["kwargs"]["where"] for it in self.stages if "kwargs" in it}
        self.has = {kind for kind, note in (("timed", "timer"), ("called back", "called back"), ("opened again", "again")) if self.told[(note, *key)]}
        left = self.count["stages left"]
        account = super().request(key)
        if key not in self.live:
            self.count["stages left"] = left
        elif self.count["stages left"] > left:
            self.wrong.append(f"{key}: {self.count['stages left'] - left} stages are left")
        self.groups()
        self.answers_of()
        self.shown_of()
        self.closed_of()
        self.put_to()
        self.has |= {"shared"} if len({token >> 23 for _, token in entries}) > 1 else set()
        for kind in self.has:
            self.count[f"requests: {kind}"] += 1
        self.count["requests of all kinds"] += self.has >= set(KINDS) - (set() if self.effects else {"transactional"})
        return account

    def word(self, name, place, word, token, reply, payloads, granted):
        """One word, once the plain graph has done it."""
        kind, stage, tag, low, graph = word >> 56, word >> 36 & 0xFFF, word >> 32 & 0xF, word & 0xFFFFFFFF, self.graph
        names = kind in (COMPLETE, FINISH) and tag == 1 or kind == FAIL or kind == FAIL_AS and low != 0 or kind == FINISH and tag == 2
        if names and (low > place or low not in payloads):  # (what is passed on is named where it stands)
            self.wrong.append(f"{name}: place {place} names {low}" if low > place else f"{name}: no payload at {low}")
            return
        self.count["payloads"] += names
        if kind == ATTACH:
            self.stages.append(json.loads(payloads[place]))
            self.came.append((place, token >> 23))
            self.labels |= {self.stages[-1].get("kwargs", {}).get("where")} - {None}
        if kind == CLAIM and reply.startswith("granted"):
            granted.add((stage, token >> 23))
            self.count["claims granted"] += 1
            self.claim(stage, token >> 23, reply)
        if kind == FINISH:
            self.finish(stage, tag, place, low, reply)
        if kind in (COMPLETE, FAIL, FAIL_AS, CANCEL):
            self.by_hand(kind, stage, place, low, reply, token >> 23)
        if reply == "notyours":
            self.wrong.append(f"{name}: place {place} finishes what another claimed")
        for k in range(graph.stages):
            if k not in self.places and graph.settled(k):
                self.places[k] = place

    def thing(self, place):
        """What a payload holds, a value or what is said of an error."""
        return None if place in (None, "nil") else json.loads(self.payloads[int(place)])

    def error(self, cause):
        """What is said of the error of a cause. Its code is the place of that."""
        if " " in cause:
            said = self.thing(cause.split()[1])
            return {"error": said["error"], "text": said["text"]}
        return {"error": {"cancelled": "CancelledError", "badanswer": "BadAnswer"}.get(cause, "TimeoutError"), "text": ""}

    def outcome(self, stage):
        """A stage's value and error by the plain graph, of which one is None."""
        told = self.graph.told[stage]
        return (self.thing(told[1]), None) if told[0] == "value" else (None, self.error(told[1]))

    def claim(self, stage, session, reply):
        """What a claim's function is called with, and whether it is called."""
        said, words = self.stages[stage], reply.split()[1:]
        if words[0] == "got":
            got = (self.thing(words[2]), None) if words[1] == "value" else (None, self.error(" ".join(words[2:-1])))
            args = got[1:] if self.graph.form[stage] in ("exceptionally", "exceptionallyCompose") else got
        else:
            args = tuple(self.thing(it) for it in words[1:])
        self.called_with[stage] = args
        passes, again = None, said.get("again")
        if again is not None:
            passes = self.passed_on(again, args[0], words[-1] == "wrapped")
            said, args = self.stages[again], None if passes else self.args_again(again)
            self.count["further tries that ran"] += passes is None
        self.claimed.append((stage, session, said, passes))
        self.open[stage] = (session, said, args, passes)
        if passes is None and "where" in said.get("kwargs", {}):
            self.place_of(stage)

    def passed_on(self, first, error, is_wrapped):
        """What a further try passes on, or None where it calls the function of the first stage: its process is gone. What hangs on an abandoned
        stage fails, too; and a try whose process is gone is done once more."""
        if error["error"] != "Abandoned" or is_wrapped:
            return error
        own = self.outcome(first)[1]
        return None if own["error"] == "Abandoned" and not self.graph.told[first][2] else own

    def args_again(self, stage):
        """What a stage's function was called with; what its sources hold where it was settled by hand."""
        if stage in self.called_with:
            return self.called_with[stage]
        form, of = self.graph.form[stage], self.graph.of[stage]
        if form in ("handle", "whenComplete"):
            return self.outcome(of[0])
        if form == "exceptionally":
            return self.outcome(of[0])[1:]
        values = tuple(self.outcome(it)[0] for it in of)
        return values if form != "applyEither" else values[:1] if values[0] is not None else values[1:]

    def kinds_of(self, stage):
        """Of which kinds a stage is, or the stage that it tries again."""
        stage = self.stages[stage].get("again", stage)
        kinds = {"transactional"} if self.stages[stage].get("fn") == "inside" else set()
        if "where" not in self.stages[stage].get("kwargs", {}):
            return {"promised"} if self.graph.form[stage] == "source" else set()
        return kinds | ({"tried again"} if any(it.get("again") == stage for it in self.stages) else {"once"})

    def place_of(self, stage):
        """Counts where a stage stands in its request whose function is called."""
        kinds, stage = self.kinds_of(stage), self.stages[stage].get("again", stage)
        own = {k for k, it in enumerate(self.stages) if it.get("again") == stage} | {stage}
        behind = any(set(of) & own for k, of in enumerate(self.graph.of) if k not in own)
        where = "last" if not behind else "in the middle" if self.graph.of[stage] else "first"
        for kind in kinds:
            self.count[f"{kind}, {where}"] += 1
        others = any(it in ("ready", "claimed") for k, it in enumerate(self.graph.state) if k not in own)
        self.count["transactional, another ready or claimed"] += "transactional" in kinds and others
        self.has |= kinds

    def put_to(self):
        """Counts which stages had timers and callbacks."""
        for what, note in (("timers of", "timer"), ("callbacks of", "called back")):
            for stage, *_ in self.told[(note, *self.key)]:
                for kind in self.kinds_of(stage) if stage < len(self.stages) else ():
                    self.count[f"{what} a {kind} stage"] += 1

    def finish(self, stage, tag, place, named, reply):
        if stage not in self.open or reply == "notyours":
            return
        session, said, args, passes = self.open.pop(stage)
        where = said.get("kwargs", {}).get("where")
        if reply == "late":
            self.count["late finishes"] += 1
        if tag == LINKS and reply == "won":
            self.links[said["to"]] = self.thing(place)["stage"]
            inner = self.stages[self.links[said["to"]]]
            if self.stages[inner.get("again", self.links[said["to"]])].get("kwargs", {}).get("where") != where + ".c":
                self.misfit(place, f"{where} gives another's stage")
        if reply == "won" and tag in (0, 1) and said.get("fn") == "inside":
            self.finished[where] = self.finished.get(where, 0) + 1
        if said.get("fn") not in ("inside", "outside") or not tag:
            if reply == "won" and said.get("fn") in ("inside", "outside"):
                self.misfit(place, f"{where} gives nothing")
            return
        wanted = passes or ({"error": "ValueError", "text": f"{where} raises"} if raises(where) else given_by(where, args))
        if reply == "late" and said.get("fn") == "inside":  # (of one that isn't done any more nothing is said)
            return
        found = self.thing(named)
        if tag == 2:
            found = {"error": found["error"], "text": found["text"]}
        if found != wanted or (tag == 2) != bool(passes or raises(where)):
            self.misfit(place, f"{where} came to {found}, and had to come to {wanted}")

    def by_hand(self, kind, stage, place, named, reply, session):
        """A word that settles a stage without a function: somebody has to have meant it."""
        if kind == CANCEL:
            return
        fails = kind in (FAIL, FAIL_AS)
        said, given = self.stages[stage], self.thing(named if fails or self.entries[place - 1][0] >> 32 & 0xF else None)
        text = given["text"] if fails else ""
        is_relay = said["name"].startswith("what ")
        if kind == FAIL and given["error"] == "Abandoned" and "may have run" in text and not is_relay:
            self.count["abandoned"] += reply == "true"
            if stage not in self.open or self.open[stage][0] == session:
                self.misfit(place, f"stage {stage} is abandoned, and no other has it")
            return
        timed = re.search(r"took longer than (.* s)", text)
        token = timed.group(1) if timed else text if fails else (given or {}).get("token")
        is_meant = token in self.meant[(*self.key, stage)] or token in self.meant[self.key[0], None, stage]
        if not is_meant and is_relay:
            to = self.links.get(stage)
            told = None if to is None else self.graph.told[to]
            is_alike = told is not None and (kind == FAIL_AS) == (told[0] == "fault" and told[1].startswith("timeout"))
            if not is_alike or self.outcome(to) != ((given, None) if kind == COMPLETE else (None, {"error": given["error"], "text": text})):
                self.misfit(place, f"stage {stage} isn't settled as stage {to} is")
            return
        if not is_meant:
            self.misfit(place, f"stage {stage}: nobody meant {given} for it")
            return
        if reply == "true" and (timed or str(token).startswith("timer ")):
            self.count["timers fired"] += 1
        self.tokens[stage, token], self.put_at[stage, token] = reply, place

    def misfit(self, place, why):
        self.wrong.append(f"{self.key}: place {place}: {why}")

    def saw(self, name, own, entries, states, place, stage, outcome):
        super().saw(name, [], entries, states, place, stage, outcome)

    def groups(self):
        """Runs of each function, and effects, beside the claims that were granted for it."""
        may = collections.defaultdict(collections.Counter)
        for stage, session, said, passes in self.claimed:
            if passes is None and "where" in said.get("kwargs", {}):
                may[said["kwargs"]["where"]][session] += 1
        inside = {it["kwargs"]["where"] for it in self.stages if it.get("fn") == "inside"}
        for where in self.labels:
            for process, many in self.calls[where].items():
                most = sum(may[where][session] for session in self.sessions[process])
                if not most or where not in inside and many > most:
                    self.count["functions run twice"] += max(many - most, 1)
                    self.wrong.append(f"{self.key}: {where} was run {many} times by {process}, for {most} claims")
            if where in inside and self.effects[where] != self.finished.get(where, 0):
                self.wrong.append(f"{self.key}: {where} has {self.effects[where]} effects and {self.finished.get(where, 0)} finishes")
            self.count["effects in transactions"] += self.effects[where]

    def answers_of(self):
        for stage, token, did in self.told[("answered", *self.key)]:
            reply = self.tokens.get((stage, token), "none")
            if did is True and reply != "true":
                self.count["lost words"] += 1
                self.wrong.append(f"{self.key}: stage {stage}: told that {token} settled it, and the row says {reply}")
            if did is False and reply == "true":
                self.wrong.append(f"{self.key}: stage {stage}: told that {token} came too late, and the row says {reply}")

    def shown_of(self):
        """What stages showed, and what histories told."""
        for stage, told in self.told[("shown", *self.key)]:
            self.count["outcomes shown"] += 1
            kind, given = told[0], (told[1:] or [None])[0]
            if kind == "error" and "no such request" in given["text"]:
                if self.key in self.live:
                    self.wrong.append(f"{self.key}: stage {stage} showed that the request is gone, and it stands")
                continue
            wanted = self.shows(stage, told)
            if told != wanted:
                self.wrong.append(f"{self.key}: stage {stage} showed {told}, and is {wanted}")
        for many, words, values in self.told[("history", *self.key)]:
            self.count["histories"] += 1
            entries = self.entries[:many]
            said = [None] + [
                self.thing(place) if word >> 56 in (COMPLETE, FINISH) and word >> 32 & 0xF == 1 and word & 0xFFFFFFFF == place else None
                for place, (word, _) in enumerate(entries, 1)
            ]
            if len(entries) < many or zlib.crc32(json.dumps([word for word, _ in entries]).encode()) != words:
                self.wrong.append(f"{self.key}: a history of {many} words is another's")
            elif zlib.crc32(json.dumps(said).encode()) != values:
                self.wrong.append(f"{self.key}: a history of {many} words has other values")

    def shows(self, stage, told):
        """What a stage shows that is settled; `told` is what it showed."""
        now = self.graph.told[stage] if stage < self.graph.stages else None
        if now is None or now == ("fault", "cancelled", False):
            return now and ["cancelled"]
        return ["error", self.outcome(stage)[1]] if now[0] == "fault" else ["value", self.outcome(stage)[0]]

    def closed_of(self):
        """Whether it was closed with stages left, by how many words stood there. Who attaches may be killed before it opens it again."""
        if self.key not in self.live:
            return
        for stage, words in self.told[("closed behind", *self.key)]:
            self.count["closed behind an attach"] += 1
            if self.is_left(stage, words):
                self.wrong.append(f"{self.key}: was closed at {words} words with stage {stage} left, which was attached before")
        for (words,) in self.told[("closed", *self.key)]:
            left = [stage for stage in range(len(self.came)) if self.is_left(stage, words)]
            kept = [stage for stage in left if self.came[stage][1] in self.ended | {None}]
            self.wrong += [f"{self.key}: was closed at {words} words with stage {stage} left, of which nobody was killed" for stage in kept[:1]]
            self.count["closed as who attached was killed"] += bool(left) and not kept

    def is_left(self, stage, words):
        """Whether a stage was there after so many words, and wasn't settled."""
        return stage < len(self.came) and self.came[stage][0] <= words < self.places.get(stage, math.inf)

    # All of them.

    def outside(self, labels):
        """What belongs to no request."""
        for where in set(self.effects) - labels:
            self.wrong.append(f"{where} has an effect, and no request has it")
        timed = {tuple(it) for it in self.notes["timer"]}
        for name, number, stage in self.notes["late"]:
            if (name, number) in self.live and (name, number, stage) in timed:
                self.wrong.append(f"{(name, number)}: stage {stage} waits, and a timer was set for it")

    def kinds(self):
        """Counts what stood in the requests."""
        for kind in ("complete", "attach", "put elsewhere", "set a timer"):
            self.count[f"callbacks that {kind}"] = sum(it[3] == kind for it in self.notes["called back"])
        self.count["opened again by the same process, closed before"] = sum(it[2] for it in self.notes["again"])
        self.count["opened again by the same process, open"] = sum(not it[2] for it in self.notes["again"])
        self.count["closed ones that were attached to"] = len(self.notes["opens"])
        self.count["dropped"] = sum(bool(it[1]) for it in self.notes["dropped"])
        self.count["names that were begun anew"] = sum(many > 1 for many in self.names.values())
        missing = [it for it in WANTED if not self.count[it] and not (self.address.startswith("etcd") and "transaction" in it)]
        if missing:
            self.wrong.append(f"the run had no {', no '.join(missing)}")


if __name__ == "__main__":
    count, wrong = MixedJudge(*sys.argv[1:3]).judge()
    print(json.dumps(count))
    print(*wrong[:20], sep="\n")
