"""The order of killed.py with a bank that knows which orders it has charged: no order charges twice."""
from cf.store import Functions
from cf.testing import orders


def checkout(world):
    charges, functions = [], Functions()
    charge = functions.function("charge")(lambda order: order in charges or charges.append(order))
    store = world.store(killed=1)
    one, _ = store.worker("one", functions), store.worker("two", functions)
    one.request("order 17").supply(charge, 17).again()
    world.check(lambda: len(charges) <= 1, "charged at most once")


report = orders(checkout)
print(f"{len(report.failed)} of {report.orders} orders fail, and the others come to the same: {report.whole}")
