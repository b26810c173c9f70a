"""The functions of tests of cf.store, which several processes know."""
import contextvars
import os
import threading
import time

from cf.store import Functions, Json, Variables

TENANT = contextvars.ContextVar("tenant")
functions, contexts, codec = Functions(), [Variables(tenant=TENANT)], Json()
held = threading.Event()  # until it is set, `hold` runs


@functions.function("inc")
def inc(x):
    return x + 1


@functions.function("add")
def add(x, y):
    return x + y


@functions.function("load")
def load(number, extra=0):
    return {"number": number, "extra": extra}


@functions.function("number")
def number(order):
    return order["number"]


@functions.function("fails")
def fails(*_):
    raise PermissionError("card declined")


@codec.add
class Declined(Exception):
    """One that comes back as such by `codec` alone."""


@functions.function("declines")
def declines(*_):
    raise Declined("no funds")


@functions.function("kind")
def kind(error):
    return type(error).__name__


@functions.function("text")
def text(error):
    return f"sorry, {error}"


@functions.function("both")
def both(value, error):
    return [value, None if error is None else type(error).__name__]


@functions.function("nothing")
def nothing(*_):
    return None


@functions.function("odd")
def odd():
    return object()


@functions.function("slow")
def slow(seconds):
    time.sleep(seconds)
    return os.getpid()


@functions.function("hold")
def hold():
    """Runs until a test lets it go."""
    held.wait(60)
    return "held"


@functions.function("mark")
def mark(path, seconds=0.0):
    """Leaves a line in a file, and then rests."""
    with open(path, "a") as file:
        file.write(f"{os.getpid()}\n")
    time.sleep(seconds)
    return "marked"


@functions.function("pay", transactional=True)
def pay(connection, account, seconds=0.0):
    """An effect in the engine itself. It works over sqlite3 and psycopg2 alike."""
    connection.execute("insert into paid values ('%s')" % account)
    time.sleep(seconds)
    return account


@functions.function("loading")
def loading(request, number):
    """For a stage that composes: what it gives comes later."""
    return request.supply(load, number)


@functions.function("failing")
def failing(request, number):
    return request.supply(fails)


@functions.function("waiting")
def waiting(request, number):
    return request.promise("late")


@functions.function("marking")
def marking(request, path):
    return request.supply(mark, path, 30).recover(text)


@functions.function("tenant")
def tenant(*_):
    return TENANT.get(None)


@functions.function("leaking")
def leaking():
    seen = TENANT.get(None)
    TENANT.set("leaked")
    return seen


@functions.function("asking tenant")
def asking_tenant(request, _):
    return request.supply(tenant)


@functions.function("pay tenant", transactional=True)
def pay_tenant(connection):
    return pay(connection, TENANT.get(None))
