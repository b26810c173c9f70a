"""An order that fails, and what its history tells of it."""
from cf.service import Service


def load(number):
    return {"number": number, "cents": 4900}


def charge(order):
    raise PermissionError("card declined")


with Service() as service:
    request = service.request("order 17")
    paid = request.supply(load, 17).then(charge).or_timeout(5)
    print(paid.recover(lambda error: f"sorry, {error}").result())
print(*[line.strip() for line in request.history().lines() if " ends: " in line], sep="\n")
