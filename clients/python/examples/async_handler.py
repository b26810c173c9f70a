"""A handler on an event loop: an answer within half a second, and nothing is left running.

    python3 async_handler.py
"""
import asyncio

from cf.service import LoopService


async def load(number):
    return {"number": number, "item": "lamp"}


async def quote(number):
    await asyncio.sleep(0 if number == 17 else 60)
    return 4900


async def handle(service, number):
    try:
        async with service.request(f"order {number}", timeout=0.5) as request:  # ends also if this task is cancelled
            order = request.supply(load, number)
            cents = request.supply(quote, number)
            return 200, await order.combine(cents, lambda order, cents: {**order, "cents": cents})
    except TimeoutError as error:
        return 504, str(error)


async def main():
    service = LoopService(asyncio.get_running_loop())
    print(await handle(service, 17))
    print(await handle(service, 18))


asyncio.run(main())
