"""The order of twice.py with the limit where it belongs: no order charges twice."""
from cf.testing import orders


def checkout(world):
    charges = []
    price = world.service.request("order 17").adopt(world.arrives(4900, "price"))
    paid = price.or_timeout(2).then(charges.append).named("charge")
    world.check(lambda: len(charges) <= 1, "charged at most once")
    return paid.recover(lambda error: charges.append(4900)).named("charge again")


report = orders(checkout)
print(f"{len(report.failed)} of {report.orders} orders fail, and the others come to the same: {report.whole}")
