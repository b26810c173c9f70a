"""Orders that an event loop begins and awaits. Its calls on the store are made by threads, so that it goes on meanwhile.

    python3 handler.py
"""
import asyncio
import tempfile

from cf.service import Flow
from cf.store import Broken, DurableService, connect

service = DurableService(connect(f"sqlite:///{tempfile.mkdtemp()}/orders.db"))


@service.function("ship")
def ship(order, approval):
    return f"order {order} is shipped: {approval}"


flow = Flow("order")
flow.promise("order").combine(flow.promise("approval"), ship)

older = Flow("order")  # the plan before the program's last change, by which order 16 was begun
older_approval = older.promise("approval")
older.promise("order").combine(older_approval, ship)
service.start(older, "a clerk said yes", 16, name="order 16")


def begin(number):
    try:
        return service.start(flow, number, name=f"order {number}")
    except Broken:  # it was begun by an older plan
        return service.open(f"order {number}")


async def handle(number):
    """Answers a client: with what came of the order, or that it goes on."""
    request = await asyncio.to_thread(begin, number)
    stage = await asyncio.to_thread(request.__getitem__, "ship")
    try:
        return await asyncio.wait_for(stage, 0.2)
    except asyncio.TimeoutError:  # only this wait has ended
        return f"order {number} goes on"


async def approve(number):
    request = await asyncio.to_thread(service.open, f"order {number}")
    stage = await asyncio.to_thread(request.__getitem__, "approval")
    return await asyncio.to_thread(stage.complete, "a clerk says yes")


async def main():
    print(await handle(17))
    await approve(17)
    print(await handle(17), await handle(16), sep="\n")


asyncio.run(main())
service.shutdown()
