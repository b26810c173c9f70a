"""Finds an order in which a card is charged twice. docs/TESTING.md shows it."""
from cf.testing import orders


def checkout(world):
    charges = []
    price = world.service.request("order 17").adopt(world.arrives(4900, "price"))
    paid = price.then(charges.append).named("charge").or_timeout(2)
    world.check(lambda: len(charges) <= 1, "charged at most once")
    return paid.recover(lambda error: charges.append(4900)).named("charge again")


for failure in orders(checkout).failed:
    print(failure)
