"""What the processes of a run have in common: calls that wait for an engine, an engine's own database, and a log of what a process was told.

Importing it puts clients/python and conformance/common on the path, so the package cf can be imported after it."""
import itertools
import json
import math
import os
import random
import sys
import time
from pathlib import Path

HERE = Path(__file__).resolve().parent
CLIENT = HERE.parents[1] / "clients/python"
sys.path[:0] = [str(CLIENT), str(HERE.parent / "common")]
from cf.store import Unknown  # noqa: E402


SPOILT, _at = os.environ.get("SPOILT"), itertools.count(1)


def spoils(how):
    """Whether this is every second time, at which a process that is spoilt so does what it must not."""
    return SPOILT == how and next(_at) % 2 == 0


def sure(call, seconds=math.inf, pause=0.05):
    """What an engine answers that may be away for a while."""
    until = time.monotonic() + seconds
    while True:
        try:
            return call()
        except Unknown:
            if time.monotonic() > until:
                raise
            time.sleep(pause)


def workers_of(language):
    """The command that starts a worker in another language than Python, or nothing."""
    return os.environ.get(f"CF_{language.upper()}_FAULTS", "").split()


def database_of(address):
    """The engine's own connection to SQLite, or a cursor of PostgreSQL, each statement of which stands by itself."""
    if address.startswith("sqlite"):
        import sqlite3

        return sqlite3.connect(address[len("sqlite:///") :], timeout=60, isolation_level=None)
    import psycopg2

    connection = psycopg2.connect(address)
    connection.autocommit = True
    return connection.cursor()


class Process:
    """A process that works on the requests of a run. It writes what it means to do, is told and sees to FOLDER/log-NAME at once."""

    def __init__(self, folder, seed, name):
        self.folder, self.rng, self.done = folder, random.Random(seed), set()
        self.log = os.open(f"{folder}/log-{name}", os.O_WRONLY | os.O_CREAT | os.O_APPEND, 0o644)

    def note(self, *said):
        os.write(self.log, (json.dumps(said) + "\n").encode())

    def finished(self, number):
        """Nothing is left to do for the request of this number: the other processes are told so by a file."""
        self.done.add(number)
        open(f"{self.folder}/done/{number}", "w").close()

    def rounds(self, most):
        """Round by round, until no request is left: the numbers that are finished, and the lowest that aren't, so many at most. The file
        FOLDER/stop, once it is there, has the first number that isn't begun."""
        base, stop = 0, Path(self.folder, "stop")
        while True:
            finished = {int(it) for it in os.listdir(f"{self.folder}/done")} | self.done
            while base in finished:
                base += 1
            last = int(stop.read_text()) if stop.exists() else math.inf
            others = (at for at in itertools.count(base) if at not in finished)
            active = list(itertools.islice(itertools.takewhile(lambda at: at < last, others), most))
            if not active:
                return
            yield finished, active
