"""Judges a run whose processes are in Python, Rust and Java: languages_judge.py ADDRESS FOLDER.

It judges as mixed_judge.py does. A process in Rust or Java writes down which of its words stand, what calls were answered, with what functions were
called and what stages showed. Where its service alone was replied, the account has `unknown`. Functions don't know where they stand: for each claim
that a session was granted, its process runs one function once, of that name and version and with just those arguments, and the finish has what
the function gives. A run that lacks a language, or one of the kinds of WANTED and RARE, fails.
"""
import collections
import json
import sys

from languages_functions import ANY, RESULTS
from mixed_judge import MixedJudge

from cf.service.words import CANCEL

LANGUAGES = ("python", "rust", "java")
RARE = ["abandoned", "further tries that ran", "late finishes"]  # wanted where a run has MANY kills
MANY = 20
WANTED = [
    "calls that complete",
    "calls that attach",
    "calls that cancel",
    "timers fired",
    "outcomes shown",
    "stages run in another language",
    "requests of all languages",
    *(f"{what}, {it}" for it in LANGUAGES for what in ("requests", "words", "answers judged", "functions run")),
]


def label_of(name, version, args):
    return json.dumps([name, version, list(args)], sort_keys=True)


class LanguagesJudge(MixedJudge):
    of_request = (*MixedJudge.of_request, "attached", "cancelled")

    def __init__(self, address, folder):
        super().__init__(address, folder)
        self.may = collections.defaultdict(collections.Counter)  # claims of functions, by label and session
        self.languages = {}  # of sessions

    def read_note(self, process, own, kind, rest):
        language = process.split("-")[1]
        if kind in ("did", "saw"):
            self.languages[rest[2]] = language
        self.count[f"answers judged, {language}"] += kind in ("did", "saw", "answered", "attached", "cancelled", "shown")
        self.count[f"functions run, {language}"] += kind == "run"
        super().read_note(process, own, kind, [label_of(*rest)] if kind == "run" else rest)

    # One request.

    def word(self, name, place, word, token, reply, payloads, granted):
        self.count[f"words, {self.languages.get(token >> 23, 'of which no log tells')}"] += 1
        self.count["calls that cancel"] += word >> 56 == CANCEL and reply == "true"
        super().word(name, place, word, token, reply, payloads, granted)

    def claim(self, stage, session, reply):
        """What a claim's function is called with."""
        super().claim(stage, session, reply)
        session, said, args, passes = self.open[stage]
        if passes is None:
            args = tuple(said.get("args") or args)
            self.open[stage] = session, said, args, passes
            self.may[label_of(said["fn"], said["version"], args)][session] += 1
            self.count["stages run in another language"] += self.languages.get(session) != self.languages.get(self.came[stage][1], "python")

    def finish(self, stage, tag, place, named, reply):
        if stage not in self.open or reply == "notyours":
            return
        _, said, args, passes = self.open.pop(stage)
        self.count["late finishes"] += reply == "late"
        value, error = (None, passes) if passes else RESULTS[said["fn"], said["version"]](*args)
        found, wanted = self.thing(named) if tag else None, error or value
        if tag == 2:
            found = ANY if wanted is ANY else {"error": found["error"], "text": found["text"]}
        if found != wanted or (tag == 2) != bool(error):
            self.misfit(place, f"{label_of(said['fn'], said['version'], args or ())} came to {found}, and had to come to {wanted}")

    def kinds_of(self, stage):
        return set()

    def groups(self):
        """What ran is judged once all requests were read: `outside`."""

    def callers(self, name, entries, replies, states, granted):
        """The records of each number, with what calls were answered where a process has no reply."""
        self.replied = {}
        for stage, token, did in self.told[("answered", *self.key)]:
            self.count["calls that complete"] += did is True
            if did is not None and (stage, token) in self.put_at:
                self.replied[self.put_at[stage, token]] = "true" if did else "false"
        for (stage,) in self.told[("attached", *self.key)]:
            self.count["calls that attach"] += 1
            if stage >= len(self.came):
                self.count["lost words"] += 1
                self.wrong.append(f"{self.key}: stage {stage} was told to be attached, and isn't there")
            else:
                self.replied[self.came[stage][0]] = f"attached {stage}"
        for stage, did in self.told[("cancelled", *self.key)]:
            if did and self.graph.told[stage] != ("fault", "cancelled", False):
                self.wrong.append(f"{self.key}: stage {stage} was told to be cancelled, and is {self.graph.told[stage]}")
        languages = {self.languages.get(token >> 23) for _, token in entries} & set(LANGUAGES)
        for it in languages:
            self.count[f"requests, {it}"] += 1
        self.count["requests of all languages"] += len(languages) == len(LANGUAGES)
        return super().callers(name, entries, replies, states, granted)

    def reply_told(self, place, word, reply):
        return self.replied.get(place, "unknown") if reply is None else super().reply_told(place, word, reply)

    def shows(self, stage, told):
        """Only Python tells a stage that was cancelled itself from one behind it."""
        shown = super().shows(stage, told)
        return told if told == ["cancelled"] and shown == ["error", {"error": "CancelledError", "text": ""}] else shown

    # All of them.

    def outside(self, labels):
        super().outside(labels)
        for label, by in self.calls.items():
            for process, many in by.items():
                most = sum(self.may[label][session] for session in self.sessions[process])
                if many > most:
                    self.count["functions run twice"] += many - most
                    self.wrong.append(f"{label} was run {many} times by {process}, for {most} claims")

    def kinds(self):
        killed = self.count["sessions"] - self.count["sessions that ended by themselves"]
        missing = [it for it in WANTED + (RARE if killed >= MANY else []) if not self.count[it]]
        if missing:
            self.wrong.append(f"the run had no {', no '.join(missing)}")


if __name__ == "__main__":
    count, wrong = LanguagesJudge(*sys.argv[1:3]).judge()
    print(json.dumps(count))
    print(*wrong[:20], sep="\n")
