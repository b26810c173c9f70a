"""Services over a store with a fault of order, and the same ones without it. Each is a test of `cf.testing`: called
with a world.

`FAULTY` has of each the service and what is told where it fails. `SOUND` has services.
"""
from cf.service import Flow
from cf.store import Abandoned, Functions, Unknown


def told_in_the_end(call):
    """What a call is answered that may be asked again, whatever became of it before."""
    while True:
        try:
            return call()
        except Unknown:
            continue


def shop_and_workers(world, functions, workers=2, **faults):
    """A process that runs no function, and some that do."""
    store = world.store(**faults)
    for number in range(1, workers + 1):
        store.worker(f"worker {number}", functions)
    return store, store.process("the shop", functions, workers=0)


# A payment is made by a function that may be called again.


def charged_again(world, by_key=False):
    charges, functions = [], Functions()

    @functions.function("charge")
    def charge(order):
        if not (by_key and order in charges):
            charges.append(order)

    _, shop = shop_and_workers(world, functions, killed=1)
    shop.request("order 17").supply(charge, 17).again()
    world.check(lambda: len(charges) <= 1, "charged at most once")


def charged_by_key(world):
    charged_again(world, by_key=True)


# A function goes on, though its process was taken for gone, and another has its place.


def goes_on_without_claim(world, in_transaction=False):
    written, functions = [], Functions()

    @functions.function("book", transactional=True)
    def book_there(effects):
        effects.append("booked")

    @functions.function("book slowly")
    def book():
        world.point()
        written.append("booked")

    store, shop = shop_and_workers(world, functions, 1, slow=1)
    shop.request("trip").supply(book_there if in_transaction else book).again()
    world.check(lambda: len(store.effects if in_transaction else written) <= 1, "booked at most once")


def books_in_transaction(world):
    goes_on_without_claim(world, in_transaction=True)


# A client tells an outcome whose put wasn't answered.


def told_unanswered(world, asks_again=False):
    told, functions = [], Functions()
    store, shop = shop_and_workers(world, functions, 0, silent=1, killed=1)
    approval = shop.request("order 17").promise("approval")

    def approve():
        if asks_again:
            told_in_the_end(lambda: approval.complete("yes"))
        else:
            try:
                approval.complete("yes")
            except Unknown:
                pass
        told.append("approved")

    shop.calls(approve, "the clerk")
    world.at_end(lambda: not told or store.outcome("order 17", "approval") == "yes", "what is told to be approved is")


def told_once_answered(world):
    told_unanswered(world, asks_again=True)


# A client that got no answer begins the order anew.


def opened_twice(world, same_name=False):
    charges, functions = [], Functions()

    @functions.function("charge")
    def charge():
        charges.append(17)

    flow = Flow("order")
    flow.supply(charge)
    shop = world.store(silent=1).worker("the shop", functions)

    def order():
        for attempt in (1, 2):
            try:
                shop.start(flow, name="order 17" if same_name else f"order 17, attempt {attempt}")
                break
            except Unknown:
                pass

    shop.calls(order, "a client")
    world.at_end(lambda: len(charges) <= 1, "ordered at most once")


def opened_by_name(world):
    opened_twice(world, same_name=True)


# A clock runs ahead, and what somebody holds is given to another too early.


def freed_too_early(world, by_row=False):
    sold, store = [], world.store()
    shop, cleaner = store.process("the shop"), store.process("the cleaner", ahead=60)
    held = shop.request("seat 12").promise("hold")
    until = shop.now() + 10
    its = cleaner.open("seat 12")[0]

    def pay():
        if held.complete("paid") or not by_row:
            sold.append("to the holder")

    def clean():
        if cleaner.now() > until and (its.cancel() if by_row else not its.done()):
            sold.append("to another")

    shop.calls(pay, "the holder")
    cleaner.calls(clean, "the cleaner")
    world.check(lambda: len(sold) <= 1, "sold once")


def freed_by_row(world):
    freed_too_early(world, by_row=True)


# A limit says that nobody waits any longer, and not that nothing was done.


def charged_behind_limit(world, before=False):
    charges, functions = [], Functions()

    @functions.function("charge")
    def charge(cents):
        charges.append(cents)

    @functions.function("charge another card")
    def charge_other(error):
        charges.append(4900)

    _, shop = shop_and_workers(world, functions, 1)
    request = shop.request("order 17")
    price = request.promise("price")
    if before:
        price.or_timeout(2).then(charge).recover(charge_other)
    else:
        price.then(charge).or_timeout(2).recover(charge_other)
    shop.calls(lambda: price.complete(4900), "the price")
    world.check(lambda: len(charges) <= 1, "charged at most once")


def limit_before_charge(world):
    charged_behind_limit(world, before=True)


# A client that got no answer asks again, and takes it for another's that his own word stands.


def own_word_for_anothers(world, reads=False):
    told, store = [], world.store(silent=1)
    shop = store.process("the shop")
    lock = shop.request("lock").promise("owner")

    def take():
        try:
            did = lock.complete("me")
        except Unknown:
            did = told_in_the_end(lambda: lock.complete("me"))
            if reads:
                did = lock.result() == "me"
        told.append("mine" if did else "another's")

    shop.calls(take, "a client")
    world.at_end(lambda: told != ["another's"], "nobody else has it")


def reads_who_has_it(world):
    own_word_for_anothers(world, reads=True)


# A process decides by what it has read before.


def asked_by_old_view(world, by_cancel=False):
    orders_, store = [], world.store()
    one, two = store.process("one"), store.process("two")
    mine = one.request("supplier").promise("offer")
    its = two.open("supplier")[0]

    def accept():
        if mine.complete("accepted"):
            orders_.append("the offer")

    def look_elsewhere():
        if its.cancel() if by_cancel else not its.done():
            orders_.append("elsewhere")

    one.calls(accept, "the buyer")
    two.calls(look_elsewhere, "his colleague")
    world.at_end(lambda: len(orders_) <= 1, "ordered at one place")


def asked_by_cancel(world):
    asked_by_old_view(world, by_cancel=True)


# What was abandoned may have been done.


def abandoned_and_done(world, by_hand=False):
    charges, functions = [], Functions()

    @functions.function("charge")
    def charge():
        charges.append(17)

    @functions.function("charge after all")
    def charge_after_all(error):
        if by_hand and isinstance(error, Abandoned):
            return "to be looked into"
        charges.append(17)
        return "charged"

    _, shop = shop_and_workers(world, functions, 2, killed=1)
    shop.request("order 17").supply(charge).recover(charge_after_all)
    world.at_end(lambda: len(charges) <= 1, "charged at most once")


def looked_into_by_hand(world):
    abandoned_and_done(world, by_hand=True)


# A transactional function is called again where its commit never came, and what it did elsewhere stands.


def done_elsewhere(world, by_connection=False):
    mails, functions = [], Functions()

    @functions.function("write", transactional=True)
    def write(effects):
        effects.append("a mail")
        if not by_connection:
            mails.append("a mail")

    store, shop = shop_and_workers(world, functions, 1, lost=1, unanswered=1)
    shop.request("order 17").supply(write)
    world.at_end(lambda: len(store.effects if by_connection else mails) == 1, "exactly one mail")


def written_by_connection(world):
    done_elsewhere(world, by_connection=True)


# A put that was given up comes later.


def told_before_it_came(world, asks_again=False):
    told, store = [], world.store(silent=1, late=1)
    shop = store.process("the shop")
    order = shop.request("order 17").promise("order")

    def cancel():
        try:
            did = order.cancel()
        except Unknown:
            did = told_in_the_end(order.cancel) if asks_again else False
        told.append("cancelled" if did else "not cancelled")

    shop.calls(cancel, "a client")
    world.at_end(lambda: told != ["not cancelled"] or not store.is_settled("order 17", "order"), "what is told not to be cancelled isn't")


def told_behind_it(world):
    told_before_it_came(world, asks_again=True)


FAULTY = [
    (charged_again, "charged at most once"),
    (goes_on_without_claim, "booked at most once"),
    (told_unanswered, "what is told to be approved is"),
    (opened_twice, "ordered at most once"),
    (freed_too_early, "sold once"),
    (charged_behind_limit, "charged at most once"),
    (own_word_for_anothers, "nobody else has it"),
    (asked_by_old_view, "ordered at one place"),
    (abandoned_and_done, "charged at most once"),
    (done_elsewhere, "exactly one mail"),
    (told_before_it_came, "what is told not to be cancelled isn't"),
]
SOUND = [
    charged_by_key,
    books_in_transaction,
    told_once_answered,
    opened_by_name,
    freed_by_row,
    limit_before_charge,
    reads_who_has_it,
    asked_by_cancel,
    looked_into_by_hand,
    written_by_connection,
    told_behind_it,
]
