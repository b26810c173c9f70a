"""A handler that asks eight backends, on threads and on an event loop. The first answer wins, each backend has a limit, and the
price list stands in for all. What is left is cancelled, also if the client hangs up.

    python3 eight_backends.py
"""
import asyncio
import time

from cf.service import LoopService, Service, is_stopping

BACKENDS = range(8)
stopped = []


def ask(backend, item):
    """Backend 1 answers at once, backend 0 is away, and the others take a minute. Nobody has chairs."""
    if backend == 0 or item == "chair":
        raise ConnectionError(f"backend {backend} is away")
    for _ in range(0 if backend == 1 else 6000):
        if is_stopping():  # nobody wants the answer any more
            stopped.append(backend)
            break
        time.sleep(0.01)
    return f"{item} by backend {backend}"


def price_list(_):
    return "by the price list"


def handle(service, item):
    with service.request(f"quote {item}").scope(timeout=10) as scope:
        quotes = [scope.supply(ask, backend, item).or_timeout(5) for backend in BACKENDS]
        return scope.ends_with(scope.first(*quotes).recover(price_list)).result()


async def ask_on_loop(backend, item):
    await asyncio.sleep(60)


async def handle_on_loop(service, item):
    async with service.request(f"quote {item}").scope(timeout=10) as scope:
        quotes = [scope.supply(ask_on_loop, backend, item).or_timeout(5) for backend in BACKENDS]
        return await scope.ends_with(scope.first(*quotes).recover(price_list))


async def main():
    service = LoopService(asyncio.get_running_loop())
    handler = asyncio.ensure_future(handle_on_loop(service, "desk"))
    await asyncio.sleep(0.01)
    handler.cancel()  # as a server does when the client hangs up
    await asyncio.wait([handler])
    print(f"hung up: {handler.cancelled()}, open requests: {len(service.open_requests())}")


with Service(max_workers=8) as service:
    print(handle(service, "lamp"))
    print(handle(service, "chair"))
print(f"stopped: {sorted(stopped)}")
asyncio.run(main())
