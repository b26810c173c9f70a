"""Judges a run: compares the row of each request with what each process wrote down: judge.py ADDRESS FOLDER.

It checks by plain_graph.py, which shares no code with the library. For `cf_look check` it writes FOLDER/histories, a line for each request:
the records of each session in the order in which it wrote them down, and `unknown` in place of a reply that nobody was there for.
"""
import collections
import glob
import json
import os
import sys

import process  # noqa: F401 (for the paths)
from plain_graph import Graph
from replies import outcome_text, reply_text, shape

from cf.events import event_of
from cf.service.words import ATTACH, CLAIM, COMPLETE, FAIL, FAIL_AS, FINISH, FORMS, PENDING, OutcomeNumbers
from cf.store import Broken, connect

CALLERS = 64
UNFIT = (AssertionError, AttributeError, LookupError, TypeError, ValueError)  # of a word that can't be done where it stands


class Judge:
    def __init__(self, address, folder):
        self.store, self.folder = connect(address), folder
        self.count, self.wrong = collections.Counter(), []
        self.said, self.runs, self.ended = collections.defaultdict(list), collections.Counter(), set()

    def read_logs(self):
        """What each process wrote down, in its own order."""
        for path in glob.glob(f"{self.folder}/log-*"):
            session, last = int(os.path.basename(path).split("-")[1]), {}
            for line in open(path):
                try:
                    kind, name, *rest = json.loads(line)
                except ValueError:
                    self.count["lines cut by a kill"] += 1
                    continue
                self.read_line(session, last, kind, name, rest)
            self.count["sessions"] += 1
        self.count["sessions that ended by themselves"] = len(self.ended)
        self.count["functions run"] = sum(self.runs.values())
        self.count["functions run twice"] = sum(many - 1 for many in self.runs.values())

    def read_line(self, session, last, kind, name, rest):
        if kind in ("did", "saw"):
            place = rest[0]
            if place < last.get(name, 0) or kind == "did" and place == last.get(name, 0):
                self.wrong.append(f"{name}: session {session} goes back to {place}")
            last[name] = place
            self.count["answers"] += 1
        if kind == "run":
            self.runs[name, rest[0]] += 1
        if kind in ("did", "saw", "run"):
            self.said[name].append((kind, session, *rest))
        if kind == "end":
            self.ended.add(session)
        if kind == "abandoned":
            self.count["abandoned"] += 1
        if kind == "error":
            self.wrong.append(f"{name}: {rest[0]}")

    def judge(self):
        """The counts, and what is wrong."""
        self.read_logs()
        names = {it.name for it in self.store.listing()}
        with open(f"{self.folder}/histories", "w") as out:
            for name in sorted(names | set(self.said)):
                if name not in names:
                    self.count["lost words"] += sum(it[0] == "did" for it in self.said[name])
                    self.wrong.append(f"{name}: the request is lost")
                    continue
                try:
                    out.write(self.request(name) + "\n")
                except Broken as error:  # words are missing in it
                    self.wrong.append(str(error))
                except UNFIT as error:
                    self.wrong.append(f"{name}: its row can't be judged: {error!r}")
        self.count["lost words"] += 0
        self.count["misfits"] = len(self.wrong)
        return self.count, self.wrong

    def row(self, name):
        """What stands in the store of a request: its entries, its plan and its payloads."""
        entries = self.store.read(name)
        return entries, json.loads(self.store.find(name).plan), self.store.payloads(name, list(range(1, len(entries) + 1)))

    def request(self, name):
        """Judges one request, and gives its account."""
        entries, plan, payloads = self.row(name)
        room = sum(word >> 56 == ATTACH for word, _ in entries)
        stages = [
            shape(FORMS.index(it["form"]), tuple(it.get("of", ())), k if it["form"] not in ("source", "allOf", "anyOf") else None)
            for k, it in enumerate(plan["stages"])
        ]
        plan = {"cf": 2, "room": room, "stages": stages}
        graph, replies, states, granted = Graph(plan), [None], [], set()
        self.graph = graph
        states.append([graph.outcome(k) for k in range(graph.stages)])
        for place, (word, token) in enumerate(entries, 1):
            reply = graph.apply(word)
            replies.append(reply)
            states.append([graph.outcome(k) for k in range(graph.stages)])
            self.word(name, place, word, token, reply, payloads, granted)
        self.count["requests"] += 1
        self.count["words"] += len(entries)
        self.left(entries, states, len(stages))
        callers = self.callers(name, entries, replies, states, granted)
        return json.dumps({"plan": plan, "events": [str(word) for word, _ in entries], "callers": callers, "functions": 4096, "outcomes": states[-1]})

    def left(self, entries, states, planned):
        """Counts the stages that aren't settled. Who sees that all are says that nothing is left; a stage that was attached behind that by a process
        which was killed is nobody's then."""
        attached = [token >> 23 for word, token in entries if word >> 56 == ATTACH]
        end = next((len(state) for state in states if "pending" not in state), len(states[-1]))
        for stage, outcome in enumerate(states[-1]):
            is_nobodys = stage >= end and attached[stage - planned] not in self.ended
            self.count["stages attached behind the end, left" if is_nobodys else "stages left"] += outcome == "pending"

    def word(self, name, place, word, token, reply, payloads, granted):
        kind, tag, low = word >> 56, word >> 32 & 0xF, word & 0xFFFFFFFF
        if kind in (COMPLETE, FINISH) and tag == 1 or kind in (FAIL, FAIL_AS) or kind == FINISH and tag == 2:
            if low != place:
                self.wrong.append(f"{name}: place {place} names {low}")
            elif place not in payloads or json.loads(payloads[place])["at"] != place:
                self.wrong.append(f"{name}: no payload, or another's, at {place}")
            self.count["payloads"] += 1
        if kind == CLAIM and reply.startswith("granted"):
            granted.add((word >> 36 & 0xFFF, token >> 23))
            self.count["claims granted"] += 1
        if kind == FINISH and reply == "late":
            self.count["late finishes"] += 1
        if reply == "notyours":
            self.wrong.append(f"{name}: place {place} finishes what another claimed")

    def callers(self, name, entries, replies, states, granted):
        """The records of each number, by its sessions, as these were told; and whether what they were told is what the row says."""
        answered, records = set(), collections.defaultdict(list)
        who_by = {token >> 23: word >> 48 & 0xFF for word, token in reversed(entries)}  # (who opens a request again takes a second number)
        for kind, session, *rest in self.said[name]:
            if kind == "run" and (rest[0], session) not in granted:
                self.wrong.append(f"{name}: stage {rest[0]} was run by {session}, which has no claim")
            elif kind == "did":
                place, word, reply = rest
                if place > len(entries) or entries[place - 1][0] != word or entries[place - 1][1] >> 23 != session:
                    self.count["lost words"] += 1
                    continue
                answered.add(place)
                reply = self.reply_told(place, word, reply)
                if reply not in (replies[place], "unknown"):
                    self.wrong.append(f"{name}: place {place}: told {reply}, is {replies[place]}")
                records[session, word >> 48 & 0xFF].append(["did", place, str(word), reply])
            elif kind == "saw":
                self.saw(name, records[session, who_by.get(session, 0)], entries, states, *rest)
        shared = collections.Counter(who for _, who in {(token >> 23, word >> 48 & 0xFF) for word, token in entries})
        self.count["callers' numbers shared"] += sum(many - 1 for many in shared.values())
        if sum(shared.values()) <= CALLERS and max(shared.values(), default=0) > 1:
            self.wrong.append(f"{name}: two sessions have one number")
        self.count["most sessions on a request"] = max(self.count["most sessions on a request"], len(who_by))
        for own in records.values():
            own.sort(key=lambda record: record[1])  # (a session that opened a request again has two desks)
        self.fill_in(name, entries, answered, records)
        callers = [{"sessions": []} for _ in range(max(shared, default=0) + 1)]
        for (_, who), own in records.items():  # one that only looked has no number, and any will do
            callers[who]["sessions"].append(own)
        return callers

    def reply_told(self, place, word, reply):
        return "unknown" if reply is None else reply_text(event_of(word), reply)

    def saw(self, name, own, entries, states, place, stage, outcome):
        if place > len(entries):
            self.count["lost words"] += 1
            return
        text = "pending" if outcome[0] == PENDING else outcome_text(OutcomeNumbers(*outcome))
        if states[place][stage] != text:
            self.wrong.append(f"{name}: stage {stage} at {place}: told {text}, is {states[place][stage]}")
        own.append(["outcome", place, stage, text])

    def fill_in(self, name, entries, answered, records):
        for place, (word, token) in enumerate(entries, 1):
            if place not in answered:
                self.count["words nobody was answered for"] += 1
                if token >> 23 in self.ended:
                    self.wrong.append(f"{name}: place {place} isn't in the log of {token >> 23}, which wasn't killed")
                own = records[token >> 23, word >> 48 & 0xFF]
                behind = next((k for k, record in enumerate(own) if record[1] >= place), len(own))
                own.insert(behind, ["did", place, str(word), "unknown"])


if __name__ == "__main__":
    count, wrong = Judge(*sys.argv[1:3]).judge()
    print(json.dumps(count))
    print(*wrong[:10], sep="\n")
