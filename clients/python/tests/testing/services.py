"""Twenty services with a fault of order, and the same twenty without it. Each is a test of `cf.testing`: called
with a world.

`FAULTY` has of each the service, what is told where it fails, and options of `orders`. `SOUND` has the service and
options.
"""
import asyncio


class Outage(Exception):
    """What fails."""


# A payment that takes too long is tried again.


def charged_twice(world, once=False):
    charges = []

    def charge(cents):
        if not (once and charges):
            charges.append(cents)
        return cents

    price = world.service.request("order 17").adopt(world.arrives(4900, "price"))
    paid = price.then(charge).or_timeout(2)
    world.check(lambda: len(charges) <= 1, "charged at most once")
    return paid.recover(lambda error: charge(4900))


def charged_by_key(world):
    return charged_twice(world, once=True)


# A second backend is asked where the first one is slow. Each answer holds a connection until it is given back.


def loser_keeps_connection(world, lets_go=False):
    held, request = [], world.service.request("hedge")

    def ask(name):
        held.append(name)
        return name

    def give_back(name):
        held.remove(name)
        return name

    one = request.supply(ask, "one").named("ask one")
    two = request.promise("timer").complete_on_timeout(None, 0.1).then(lambda _: ask("two")).named("ask two")
    answers = [one, two]
    if lets_go:
        return [stage.then(give_back) for stage in answers] + [ended(world, held)]
    return request.first_of(*answers).then(give_back), ended(world, held)


def ended(world, held):
    world.at_end(lambda: not held, "no connection is left")


def loser_gives_back(world):
    return loser_keeps_connection(world, lets_go=True)


# A cache is filled by a load that began before what it holds was changed.


def stale_cache(world, sees_version=False):
    source, cache = {"value": 1, "version": 1}, {}

    def load():
        return source["value"], source["version"]

    def keep(loaded):
        if not sees_version or loaded[1] == source["version"]:
            cache["value"] = loaded[0]

    def change():
        source.update(value=2, version=2)
        cache.clear()

    kept = world.service.request("cache").supply(load).then(keep)
    world.calls(change, name="an update")
    world.at_end(lambda: cache.get("value", 2) == source["value"], "the cache isn't stale")
    return kept


def cache_by_version(world):
    return stale_cache(world, sees_version=True)


# An order is cancelled while its function runs.


def cancelled_and_shipped(world, asks=False):
    told, shipped, request = [], [], world.service.request("order")
    ship = request.supply(shipped.append, 17).named("ship")

    def cancel():
        did = ship.cancel()
        if did or not asks:
            told.append("cancelled")

    world.calls(cancel, name="the client")
    world.at_end(lambda: not (told and shipped), "what is told to be cancelled isn't shipped")
    return ship


def cancelled_if_so(world):
    return cancelled_and_shipped(world, asks=True)


# Two functions count in two steps.


def lost_count(world, in_one=False):
    count, request = [0], world.service.request("count")

    def add():
        before = count[0]
        if not in_one:
            world.point()
        count[0] = before + 1

    world.at_end(lambda: count[0] == 2, "both are counted")
    return [request.supply(add).named("one"), request.supply(add).named("two")]


def counted_in_one(world):
    return lost_count(world, in_one=True)


# A reader that finds nothing leaves a promise to be woken by, and the writer has been there before.


def lost_wake(world, looks_again=False):
    items, waiting, request = [], [], world.service.request("queue")

    def read():
        if items:
            return request.promise("item").complete(items.pop())
        world.point()
        waiting.append(woken)
        if looks_again and items:
            woken.complete(items.pop())
        return None

    def write():
        items.append("x")
        if waiting:
            waiting.pop().complete(items.pop())

    woken = request.promise("woken")
    reader = request.supply(read)
    world.calls(write, name="a writer")
    world.at_end(lambda: woken.done() or not waiting, "a reader that waits is woken")
    return reader


def looks_again(world):
    return lost_wake(world, looks_again=True)


# The winner of two closes what the loser still uses.


def closed_by_winner(world, waits=False):
    is_open, request = [True], world.service.request("file")

    def read(name):
        if not is_open[0]:
            raise AssertionError("the file is closed")
        return name

    both = [request.supply(read, name).named(name) for name in ("head", "tail")]
    done = request.all_of(*both) if waits else request.first_of(*both)
    return [*both, done.then(lambda _: is_open.clear() or is_open.append(False)).named("close")]


def closed_by_last(world):
    return closed_by_winner(world, waits=True)


# Two functions take two locks.


class Lock:
    """A lock whose owners wait by stages."""

    def __init__(self, request, name):
        self.request, self.name, self.holder = request, name, None

    def take(self):
        while self.holder is not None:
            self.holder.result()
        self.holder = self.request.promise(self.name)

    def free(self):
        holder, self.holder = self.holder, None
        holder.complete(None)


def opposite_locks(world, in_order=False):
    request = world.service.request("transfer")
    one, two = Lock(request, "account 1"), Lock(request, "account 2")

    def transfer(first, second):
        first.take()
        world.point()
        second.take()
        second.free()
        first.free()

    return [request.supply(transfer, one, two).named("there"), request.supply(transfer, *((one, two) if in_order else (two, one))).named("back")]


def locks_in_order(world):
    return opposite_locks(world, in_order=True)


# A function of a service with one worker waits for another function of it.


def waits_in_pool(world, behind=False):
    request = world.service.request("report")
    part = request.promise("go")
    whole = part.then(lambda _: 1).named("part")
    world.calls(lambda: part.complete(None), name="a click")
    return whole.then(lambda it: it + 1) if behind else [whole, request.supply(lambda: whole.result() + 1).named("sum")]


def waits_behind(world):
    return waits_in_pool(world, behind=True)


# A default is told after a while, and the late answer is written down all the same.


def told_otherwise(world, behind=False):
    written, request = {}, world.service.request("rate")
    rate = request.adopt(world.arrives(7, "rate"))
    if behind:
        told = rate.complete_on_timeout(5, 1).then(lambda it: written.setdefault("rate", it))
    else:
        rate.add_done_callback(lambda it: written.setdefault("rate", it.result()))
        told = rate.then(lambda it: it).complete_on_timeout(5, 1)
    world.at_end(lambda: told.result() == written["rate"], "what is told is what is written")
    return told


def told_as_written(world):
    return told_otherwise(world, behind=True)


# Of two replicas one fails.


def failure_first(world, falls_back=False):
    request = world.service.request("replicas")
    one = request.adopt(world.arrives(1, "one"))
    two = request.adopt(world.fails(Outage("two"), "two"))
    answer = two.recover_compose(lambda _: one) if falls_back else request.first_of(one, two)
    told = answer.handle(lambda value, error: error)
    world.at_end(lambda: told.result() is None, "one good answer is enough")
    return told


def falls_back(world):
    return failure_first(world, falls_back=True)


# Two parts are to be written together or not at all.


def half_written(world, together=False):
    written, request = [], world.service.request("both")
    flight = request.adopt(world.arrives("LIS", "flight", or_fails=Outage("flight")))
    hotel = request.adopt(world.arrives("Tejo", "hotel", or_fails=Outage("hotel")))
    parts = [flight, hotel]
    if together:
        ends = [request.gather(*parts).then(written.extend).handle(lambda value, error: None)]
    else:
        ends = [part.then(written.append).handle(lambda value, error: None) for part in parts]
    world.at_end(lambda: len(written) in (0, 2), "both are written or none")
    return ends


def written_together(world):
    return half_written(world, together=True)


# What is made on the first use is made twice.


def made_twice(world, keeps_stage=False):
    made, kept, request = [], {}, world.service.request("pool")

    def connect():
        made.append("connection")
        return made[-1]

    def use():
        if keeps_stage:
            return kept.setdefault("it", None) or kept.update(it=request.supply(connect)) or kept["it"]
        if "it" not in kept:
            kept["it"] = world.point() or connect()
        return request.promise("there")

    world.calls(use, name="one user")
    world.calls(use, name="another user")
    uses = [request.supply(use).named("first use"), request.supply(use).named("second use")] if not keeps_stage else []
    world.at_end(lambda: len(made) == 1, "one is made")
    return uses


def made_once(world):
    return made_twice(world, keeps_stage=True)


# Two messages of one sender come, and the later one may come first.


def older_overwrites(world, by_version=False):
    state, request = {"version": 0}, world.service.request("profile")

    def store(message):
        if not by_version or message["version"] > state["version"]:
            state.update(message)

    messages = [request.adopt(world.arrives({"version": number}, f"message {number}")) for number in (1, 2)]
    world.at_end(lambda: state["version"] == 2, "the last message stands")
    return [message.then(store) for message in messages]


def newest_stands(world):
    return older_overwrites(world, by_version=True)


# Two withdrawals look at the balance in one function, and take from it in the next.


def overdrawn(world, in_one=False):
    account, request = {"cents": 100}, world.service.request("account")

    def is_enough():
        return account["cents"] >= 80

    def take(enough):
        if enough and (not in_one or is_enough()):
            account["cents"] -= 80

    world.check(lambda: account["cents"] >= 0, "never overdrawn")
    return [request.supply(is_enough).named(f"look {number}").then(take).named(f"take {number}") for number in (1, 2)]


def never_overdrawn(world):
    return overdrawn(world, in_one=True)


# A listener that has unsubscribed is told.


def told_after_end(world, looks=False):
    listener, request = {"is_on": True}, world.service.request("news")

    def tell(news):
        if looks and not listener["is_on"]:
            return
        if not listener["is_on"]:
            raise AssertionError("told after its end")

    told = request.adopt(world.arrives("news", "news")).then(tell)
    world.calls(lambda: listener.update(is_on=False), name="the listener leaves")
    return told


def told_before_end(world):
    return told_after_end(world, looks=True)


# Coroutines on a loop.


def lost_update_on_loop(world, locks=False):
    total = {"cents": 0}
    lock = asyncio.Lock()

    async def add(cents):
        before = total["cents"]
        await asyncio.sleep(0)
        total["cents"] = before + cents

    async def add_locked(cents):
        async with lock:
            await add(cents)

    async def both():
        await asyncio.gather(*[(add_locked if locks else add)(cents) for cents in (1, 2)])

    world.at_end(lambda: total["cents"] == 3, "both are added")
    return both()


def locked_on_loop(world):
    return lost_update_on_loop(world, locks=True)


def never_released(world, finally_does=False):
    held = []

    async def use():
        held.append("it")
        try:
            await asyncio.sleep(1)
        finally:
            if finally_does:
                held.remove("it")
        if not finally_does:
            held.remove("it")

    async def limited():
        task = asyncio.ensure_future(use())
        world.calls(lambda: world.loop.call_soon_threadsafe(task.cancel) and None, name="the client leaves")
        await asyncio.wait([task])

    world.at_end(lambda: not held, "it is released")
    return limited()


def released(world):
    return never_released(world, finally_does=True)


# A payment that took too long is refunded, though it may still be made.


def refunded_before(world, waits=False):
    moved, request = [], world.service.request("refund")
    charge = request.supply(lambda: moved.append("charge")).named("charge")
    limited = charge.then(lambda _: "paid").or_timeout(1)

    def refund(error):
        if "charge" in moved:
            moved.append("refund")
        return "refunded"

    if waits:
        told = limited.recover_compose(lambda error: charge.handle(lambda *_: refund(error)))
    else:
        told = limited.recover(refund)
    world.at_end(lambda: told.result() == "paid" or moved.count("refund") == moved.count("charge"), "what isn't paid is refunded")
    return told


def refunded_behind(world):
    return refunded_before(world, waits=True)


# A message is delivered twice.


def handled_twice(world, first_marks=False):
    seen, effects, request = set(), [], world.service.request("messages")

    def handle(number):
        if number in seen:
            return
        if first_marks:
            seen.add(number)
        world.point()
        effects.append(number)
        seen.add(number)

    world.check(lambda: len(effects) <= 1, "handled once")
    return [request.supply(handle, 17).named(name) for name in ("delivery", "delivery again")]


def handled_once(world):
    return handled_twice(world, first_marks=True)


DEADLOCK = "deadlock"
FAULTY = [
    (charged_twice, "charged at most once", {}),
    (loser_keeps_connection, "no connection is left", {}),
    (stale_cache, "the cache isn't stale", {}),
    (cancelled_and_shipped, "what is told to be cancelled isn't shipped", {}),
    (lost_count, "both are counted", {}),
    (lost_wake, "a reader that waits is woken", {}),
    (closed_by_winner, "AssertionError('the file is closed')", {}),
    (opposite_locks, DEADLOCK, {}),
    (waits_in_pool, DEADLOCK, {"workers": 1}),
    (told_otherwise, "what is told is what is written", {}),
    (failure_first, "one good answer is enough", {}),
    (half_written, "both are written or none", {}),
    (made_twice, "one is made", {}),
    (older_overwrites, "the last message stands", {}),
    (overdrawn, "never overdrawn", {}),
    (told_after_end, "AssertionError('told after its end')", {}),
    (lost_update_on_loop, "both are added", {}),
    (never_released, "it is released", {}),
    (refunded_before, "what isn't paid is refunded", {}),
    (handled_twice, "handled once", {}),
]
SOUND = [
    (charged_by_key, {}),
    (loser_gives_back, {}),
    (cache_by_version, {}),
    (cancelled_if_so, {}),
    (counted_in_one, {}),
    (looks_again, {}),
    (closed_by_last, {}),
    (locks_in_order, {}),
    (waits_behind, {"workers": 1}),
    (told_as_written, {}),
    (falls_back, {}),
    (written_together, {}),
    (made_once, {}),
    (newest_stands, {}),
    (never_overdrawn, {}),
    (told_before_end, {}),
    (locked_on_loop, {}),
    (released, {}),
    (refunded_behind, {}),
    (handled_once, {}),
]
