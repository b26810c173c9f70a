"""An application of ASGI, here of Starlette's. If a client hangs up, its handler is cancelled, and with it the request.

    uvicorn asgi:application
"""
import asyncio
import logging

from starlette.applications import Starlette
from starlette.middleware import Middleware
from starlette.responses import JSONResponse, PlainTextResponse
from starlette.routing import Route

from cf.service import LoopService, Meter

log = logging.getLogger("uvicorn.error")
meter, state = Meter(), {}


async def load(number):
    return {"number": number, "item": "lamp"}


async def quote(number):
    await asyncio.sleep(0 if number == 17 else 60)
    return 4900


async def order(call):
    number = int(call.path_params["number"])
    with state["service"].request(f"order {number}") as request:
        loaded, cents = request.supply(load, number), request.supply(quote, number)
        answer = loaded.combine(cents, lambda order, cents: {**order, "cents": cents}).named("answer")
        try:
            return JSONResponse(await answer.or_timeout(5))
        except TimeoutError as error:
            return JSONResponse({"error": str(error)}, 504)
        finally:  # also if the handler is cancelled
            request.cancel()


async def metrics(call):
    return PlainTextResponse(meter.text(state["service"]), headers={"content-type": meter.CONTENT_TYPE})


async def waits(call):
    return PlainTextResponse("".join(f"{it}\n" for it in state["service"].open_requests()))


class CancelsWithClient:
    """Cancels a handler whose client hangs up before it is answered. Servers of ASGI only say that it does."""

    def __init__(self, app):
        self.app = app

    async def __call__(self, scope, receive, send):
        if scope["type"] != "http":
            return await self.app(scope, receive, send)
        messages = asyncio.Queue(1)

        async def watch():
            while True:
                message = await receive()
                if message["type"] == "http.disconnect":
                    return handler.cancel()
                await messages.put(message)

        async def answer(message):
            if message["type"] == "http.response.body" and not message.get("more_body"):
                watching.cancel()  # from then on each client counts as gone
            await send(message)

        handler = asyncio.ensure_future(self.app(scope, messages.get, answer))
        watching = asyncio.ensure_future(watch())
        try:
            await asyncio.wait([handler])
        finally:
            watching.cancel()
            handler.cancel()  # (if this task is cancelled)
        if not handler.cancelled():
            handler.result()


def ended(history):
    meter(history)
    log.info(history.line())


async def begin():
    state["service"] = LoopService(asyncio.get_running_loop(), on_end=ended)


application = Starlette(
    routes=[Route("/order/{number}", order), Route("/metrics", metrics), Route("/waits", waits)],
    middleware=[Middleware(CancelsWithClient)],
    on_startup=[begin],
)
