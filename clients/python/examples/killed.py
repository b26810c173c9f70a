"""Finds an order in which a process is killed, and a card is charged twice. docs/TESTING.md shows it."""
from cf.store import Functions
from cf.testing import orders


def checkout(world):
    charges, functions = [], Functions()
    charge = functions.function("charge")(lambda order: charges.append(order))
    store = world.store(killed=1)
    one, _ = store.worker("one", functions), store.worker("two", functions)
    one.request("order 17").supply(charge, 17).again()
    world.check(lambda: len(charges) <= 1, "charged at most once")


for failure in orders(checkout).failed:
    print(failure)
