"""The functions that the workers of jobs.py run: each writes a row to a table, by a connection of its own or in the engine's own transaction."""
import os
import random
import threading
import time

from process import database_of

from cf.store import Functions

functions = Functions()
INSERT = "insert into effect values ('%s')"
_own = threading.local()


def own():
    """This thread's own connection to the same database."""
    if getattr(_own, "db", None) is None or getattr(_own.db, "closed", False):
        _own.db = database_of(os.environ["JOBS_EFFECTS"])
    return _own.db


@functions.function("outside")
def outside(name):
    time.sleep(random.random() * 0.01)
    own().execute(INSERT % name)
    time.sleep(random.random() * 0.01)
    return name


@functions.function("inside", transactional=True)
def inside(connection, name):
    connection.execute(INSERT % name)
    time.sleep(random.random() * 0.01)
    return name


@functions.function("same")
def same(name):
    return name


@functions.function("both")
def both(name, other):
    return name
