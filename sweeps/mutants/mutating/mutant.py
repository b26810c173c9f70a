"""One mutant: a piece of a file, what replaces it, by which rule, and the number that it keeps while its line stays as it is."""
import hashlib
from collections import Counter
from typing import Counter as Counts
from typing import List, NamedTuple, Sequence

WAKES = ("notify", "wake", "unlink", "unpark", "signal", "interrupt")  # in the name of a call: somebody is woken or let go by it


class Place(NamedTuple):
    """What a rule finds: the piece of the text from `start` up to `end`, and what replaces it."""

    rule: str
    start: int
    end: int
    new: str


class Mutant(NamedTuple):
    number: str
    file: str  # below clients/LANGUAGE
    line: int
    place: Place
    old: str

    def put_into(self, text: str) -> str:
        return text[: self.place.start] + self.place.new + text[self.place.end :]

    def __str__(self) -> str:
        return f"{self.number} {self.file}:{self.line} {self.place.rule}: {short(self.old)} -> {short(self.place.new)}"


def short(text: str) -> str:
    """A piece of code in one line."""
    line = " ".join(text.split())
    return (line if len(line) <= 60 else line[:40] + " .. " + line[-16:]) or "nothing"


def statement_rule(called: str, is_last: bool = False) -> str:
    """The rule by which a statement is dropped that calls this last, in a `finally` or elsewhere."""
    if any(word in called.lower() for word in WAKES):
        return "wake"
    return "finally" if is_last else "statement"


def mutants_of(file: str, text: str, places: Sequence[Place]) -> List[Mutant]:
    """Mutants in the order of the text. The number is made from the file's name, the rule, the line's text and the change in it."""
    seen: Counts[str] = Counter()
    found = []
    different = {(it.start, it.end, it.new): it for it in reversed(places)}  # two rules may make the same
    for place in sorted(different.values(), key=lambda it: (it.start, it.end, it.new)):
        old = text[place.start : place.end]
        first, last = text.rfind("\n", 0, place.start) + 1, text.find("\n", place.start)
        line = text[first : last if last >= 0 else len(text)]
        column = place.start - first - (len(line) - len(line.lstrip()))
        key = "\0".join([file, place.rule, line.strip(), str(column), old, place.new])
        seen[key] += 1
        number = hashlib.sha256(f"{key}\0{seen[key]}".encode()).hexdigest()[:8]
        found.append(Mutant(number, file, text.count("\n", 0, place.start) + 1, place, old))
    return found
