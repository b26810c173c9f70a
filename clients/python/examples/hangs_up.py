"""A handler whose client hangs up: its server cancels the handler, and what is open of its request in the store is cancelled.

    python3 hangs_up.py
"""
import asyncio
import tempfile

from cf.service import Flow
from cf.store import Broken, DurableService, connect

service = DurableService(connect(f"sqlite:///{tempfile.mkdtemp()}/orders.db"))


@service.function("charge")
def charge(order):
    return 100 * order


@service.function("ship")
def ship(cents, approval):
    return f"{cents} cents, approved by {approval}"


flow = Flow("order")
order, approval = flow.promise("order"), flow.promise("approval")
charged = order.then(charge)
shipped = charged.combine(approval, ship)


def begin(number):
    try:
        return service.start(flow, number, name=f"order {number}")
    except Broken:  # it was begun by an older plan
        return service.open(f"order {number}")


async def handle(number):
    begins = asyncio.ensure_future(asyncio.to_thread(begin, number))
    try:
        request = await asyncio.shield(begins)
        return await (await asyncio.to_thread(request.__getitem__, "ship"))
    finally:  # also if the server cancels this handler
        await asyncio.to_thread((await begins).cancel)


async def main():
    hasty, handler = asyncio.ensure_future(handle(16)), asyncio.ensure_future(handle(17))
    await asyncio.sleep(0)
    hasty.cancel()  # while its request begins
    request = await asyncio.to_thread(service.start, flow, 17, name="order 17")
    await (await asyncio.to_thread(request.__getitem__, charged))
    handler.cancel()  # as a server does when the client hangs up
    await asyncio.wait([hasty, handler])


asyncio.run(main())
print(service.open("order 16")[shipped].cancelled())
print(*[line.strip() for line in service.open("order 17").history().lines() if " ends: " in line], sep="\n")
service.shutdown()
