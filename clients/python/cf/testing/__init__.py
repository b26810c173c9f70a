"""A service's own code in every order: which ready function is called next, what arrives when, whether a limit
passes before.

    from cf.testing import orders

    def checkout(world):                      # called once for each order
        charges = []
        price = world.service.request("order 17").adopt(world.arrives(4900, "price"))
        paid = price.then(charges.append).or_timeout(2).recover(charges.append)
        world.check(lambda: len(charges) <= 1, "charged at most once")
        return paid

    print(orders(checkout))

docs/TESTING.md leads through it. The files:

    sharing.py     processes over a store, and their moves; rows.py, processes.py and answers.py stand below it
    run.py         one run: the moves that are possible, and making one
    world.py       what a test is given; arrivals.py, loop.py and carriers.py stand below it
    footprints.py  what moves touch, and which are independent by that; marks.py: what a test may say of functions
    runner.py      runs with any choice of moves
    search.py      all orders, but those that can come to nothing else; chance.py has orders by chance
    smaller.py     a failing order made smaller, and the moves that decide; report.py has what is told
    orders.py      what is called
"""
from .arrivals import Arrival
from .marks import pure, touches
from .orders import every_order, orders
from .report import Failure, Pair, Report, ToldMove
from .runner import NotDeterministic
from .world import World

__all__ = ["Arrival", "Failure", "NotDeterministic", "Pair", "Report", "ToldMove", "World", "every_order", "orders", "pure", "touches"]
