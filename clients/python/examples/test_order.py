"""A test of pytest that runs in every order of what may come next, without a clock.

    python3 -m pytest test_order.py
"""
import pytest

from cf.testing import every_order


def checkout(request, charge, price):
    """The service's code that is tested."""
    return request.adopt(price).or_timeout(2).recover(lambda error: 4900).then(charge).named("charge")


@pytest.mark.parametrize("cents", [4900, 100])
@every_order(whole=True)
def test_a_card_is_charged_once(cents, world):
    charges = []
    price = world.arrives(cents, "price", or_fails=ConnectionError("nobody knows the price"))
    checkout(world.service.request("order 17"), charges.append, price)
    world.check(lambda: len(charges) <= 1, "charged at most once")
    world.at_end(lambda: charges in ([cents], [4900]), "charged in the end, what it costs or what it cost before")
