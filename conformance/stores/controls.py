"""Spoilt workers in each language, and spoilt engines, which the judge of languages has to find. Beside them one run in which nothing is spoilt, and
in which it has to find nothing."""
import json
import re

from faults import LanguagesRun
from jobs import tables
from languages_judge import LANGUAGES

# What the judge says of a worker that is spoilt so.
WORKERS = {
    "twice": r"was run \d+ times by log-{0}",
    "gives": "came to another, and had to",
    "puts": "goes back",
    "answers": "told that {0} ",
    "shows": r"showed \['value', 'another'\]",
}
# What SQLite does that is spoilt so: for all languages at once.
ENGINES = {
    "loses a word that it has answered": "after insert on cf_word when new.at % 11 = 5 begin delete from cf_word where n = new.n; end",
    "puts a word where another stands": "before insert on cf_word when new.at % 3 = 2 begin "
    "delete from cf_word where request = new.request and at = new.at; end",
    "loses the second word of a group": "after insert on cf_word when exists "
    "(select 1 from cf_word where request = new.request and at = new.at - 1 and token = new.token - 1) "
    "and new.n % 5 = 0 begin delete from cf_word where n = new.n; end",
    "loses a payload": "after insert on cf_word when new.payload is not null and new.at % 11 = 5 begin "
    "update cf_word set payload = null where n = new.n; end",
    "keeps another's payload": "after insert on cf_word when new.payload is not null and new.at % 11 = 5 begin update cf_word set payload = "
    "(select payload from cf_word where payload is not null and n < new.n order by n desc limit 1) where n = new.n; end",
}
# What the judge itself finds by rows and accounts, and not what processes wrote down as their errors.
ANY = r"^(request |\(|\[|\d+: (place|session|stage)).*(lost|goes back|told|no word|no payload|nobody meant|came to|was run|can't be|showed)"
EXPECTED = r"stages are left|the run had no"  # of a run that isn't ended


class Control(LanguagesRun):
    """A short run whose workers are killed at the end, as those of a spoilt store may never end by themselves."""

    between = (3.0, 4.0)

    def __init__(self, folder, spoilt="", language="", trigger="", seconds=0):
        self.spoilt, self.spoils, self.trigger = spoilt, language, trigger
        super().__init__("sqlite", folder, 1000, workers=6, seconds=seconds)

    def prepare(self):
        super().prepare()
        if self.trigger:
            tables(self.judged, f"create trigger spoilt {self.trigger}")

    def environment_of(self, k):
        return {**super().environment_of(k), **({"SPOILT": self.spoilt} if self.language(k) == self.spoils else {})}

    def let_end(self, workers):
        for it in workers:
            it.kill()
            it.wait()

    def found(self, pattern):
        """What the judge says that fits a pattern, and all else that it says."""
        _, wrong = self()
        wrong = [it for it in wrong if not re.search(EXPECTED, it)]
        return [it for it in wrong if re.search(pattern, it)], wrong


def run(folder, names=()):
    """Does them, or those whose lines have one of these names, and prints what came of each: whether all is as it has to be."""
    cases = [("nothing is spoilt", {}, "")]
    cases += [(f"{it} {how}", {"spoilt": how, "language": it}, said.format(it)) for how, said in WORKERS.items() for it in LANGUAGES]
    cases += [(f"the engine {how}", {"trigger": trigger}, ANY) for how, trigger in ENGINES.items()]
    is_right = True
    for number, (name, how, pattern) in enumerate(cases):
        if names and not any(it in name for it in names):
            continue
        for seconds in (20, 60):  # (on a busy machine a worker comes to little in 20 s)
            found, wrong = Control(f"{folder}/{number}", seconds=seconds, **how).found(pattern or ".")
            good = bool(found) if pattern else not wrong
            if good:
                break
        is_right = is_right and good
        said = json.dumps((found or wrong or ["nothing"])[0], ensure_ascii=False)[:300]
        print(f"{'found' if pattern and good else 'right' if good else 'WRONG'} {name}: {len(found)} of {len(wrong)}, as {said}", flush=True)
    return is_right
