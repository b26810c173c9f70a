"""The functions that the processes of mixed.py run. They are told where they stand, write down that they run, and give a value that tells
what they got."""
import json
import random
import time
import zlib

import process  # noqa: F401 (for the path)

from cf.store import Functions, RemoteError

functions = Functions()
INSERT = "insert into effect values ('%s')"
note = print  # the process's own log


def said_of(thing):
    """A value, or an exception as a payload tells it: one of another language by its class there."""
    if isinstance(thing, RemoteError):
        return {"error": thing.kind, "text": thing.text}
    return {"error": type(thing).__name__, "text": str(thing)} if isinstance(thing, BaseException) else thing


def given_by(where, args):
    """What a function gives that stands there and is called so."""
    return {"of": where, "got": zlib.crc32(json.dumps([said_of(it) for it in args], sort_keys=True).encode())}


def chance_of(where, what):
    """A number below 1, the same in each process."""
    return zlib.crc32(f"{what} {where}".encode()) / 2**32


def raises(where):
    return chance_of(where, "raises") < 0.12


def act(where, args, most):
    note("run", where)
    time.sleep(random.random() * (most if chance_of(where, "sleeps") < 0.15 else 0.003))
    note("ran", where)
    if raises(where):
        raise ValueError(f"{where} raises")
    return given_by(where, args)


@functions.function("outside")
def outside(*args, where):
    return act(where, args, 0.15)


@functions.function("inside", transactional=True)
def inside(connection, *args, where):
    connection.execute(INSERT % where)
    return act(where, args, 0.05)


@functions.function("composing")
def composing(request, *args, where, inner):
    """Attaches a stage, with a further try, and gives that."""
    note("run", where)
    return supplied(request, inner, where + ".c").again(1)


def supplied(request, name, where):
    return request.supply(functions.find(name, 1).call, where=where)
