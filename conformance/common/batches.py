"""Works through seeds in batches, some batches at a time, so that a long run can be continued where it was stopped."""
import multiprocessing
import sys
from collections import Counter

SIZE = 500  # seeds in a batch
TOLD = 20  # batches between two lines that tell how far it is


class Differs(Exception):
    """What a seed gave, and what was wanted."""


def numbers(words, defaults):
    """The numbers that the words are, and for those that aren't given the defaults."""
    return [int(word) for word in words[: len(defaults)]] + defaults[len(words) :]


def batch(task):
    do, seeds, rest = task
    try:
        return do(seeds, *rest)
    except Differs as found:
        return str(found)


def count(do, first, runs, processes, rest):
    """The sum of what `do` counts of the seeds of each batch, which are judged in order, so many batches at a time. It tells how far
    it is on standard error. Where one differs, that is raised, and all before it agree."""
    seeds = [range(at, min(at + SIZE, first + runs)) for at in range(first, first + runs, SIZE)]
    total = Counter()
    with multiprocessing.Pool(processes) as pool:
        for k, found in enumerate(pool.imap(batch, [(do, it, rest) for it in seeds]), 1):
            if isinstance(found, str):
                raise Differs(found)
            total += found
            if k % TOLD == 0 or k == len(seeds):
                print(f"{seeds[k - 1].stop - first} of {runs} from seed {first} on", file=sys.stderr, flush=True)
    return total
