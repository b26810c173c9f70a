#!/usr/bin/env python3
"""The application examples/asgi.py, served by uvicorn: what does a client get, and what becomes of a request whose client
hangs up?

    clients/python/tests/frameworks/test_asgi.py [-v] [TEST ..]
"""
import asyncio
import json
import re
import socket
import sys
import unittest

from serving import EXAMPLES, needs, Served, until


@needs("uvicorn", "starlette")
class Asgi(Served):
    WORDS = ("-m", "uvicorn", "--port", "0", "asgi:application")

    def test_an_answer_and_one_that_takes_too_long(self):
        status, body = self.ask("/order/17")
        self.assertEqual((status, json.loads(body)), (200, {"number": 17, "item": "lamp", "cents": 4900}))
        self.assertEqual(self.ask("/order/18"), (504, '{"error":"answer took longer than 5 s"}'))

    def test_a_client_that_hangs_up(self):
        """The handler is cancelled, and with it the coroutine that runs. Nothing is left open, and nobody waits for the limit."""
        host, port = re.match(r"http://(.*):(\d+)", self.address).groups()
        with socket.create_connection((host, int(port))) as client:
            client.sendall(b"GET /order/19 HTTP/1.1\r\nHost: shop\r\n\r\n")
            self.assertTrue(until(lambda: "order 19" in self.ask("/waits")[1]))
            self.assertRegex(self.ask("/waits")[1], r"order 19, open for \d\.\d s: 1 quote has run for .*; a limit in [0-5]\.\d s\n")
        self.assertTrue(until(lambda: "order 19: " in self.text()))
        self.assertRegex(self.text(), r"order 19: \d+ events, 3 stages in .*; 2 failed: 2 answer by cancelled; 0 open")
        self.assertNotIn("order 19", self.ask("/waits")[1])
        self.assertNotIn("Traceback", self.text())

    def test_metrics(self):
        before = self.count()
        self.ask("/order/17")
        self.assertTrue(until(lambda: self.count() > before))

    def test_what_follows_an_answer_is_not_cancelled(self):
        """A server says that the client is gone, once it has its answer."""
        told, order = driven(answers=True)
        self.assertEqual((told, order.cancelled()), (["answered", "went on"], False))

    def test_who_cancels_the_call_cancels_the_handler(self):
        told, order = driven(answers=False)
        self.assertEqual((told, order.cancelled()), (["cancelled"], True))

    def count(self):
        return int(re.search(r"^cf_memory_request_seconds_count (\d+)$", self.ask("/metrics")[1], re.M)[1])


def driven(answers):
    """What a handler tells that answers and goes on for a moment, or that is cancelled by its server before; and its call."""
    sys.path.insert(0, str(EXAMPLES))
    from asgi import CancelsWithClient

    async def main():
        told, answered = [], asyncio.Event()

        async def receive():
            await answered.wait()
            return {"type": "http.disconnect"}

        async def send(message):
            told.append("answered")
            answered.set()

        async def handler(scope, receive, send):
            try:
                if answers:
                    await send({"type": "http.response.body", "body": b""})
                await asyncio.sleep(0.05 if answers else 60)
                told.append("went on")
            except asyncio.CancelledError:
                told.append("cancelled")
                raise

        call = asyncio.ensure_future(CancelsWithClient(handler)({"type": "http"}, receive, send))
        await asyncio.sleep(0.01)
        if not answers:
            call.cancel()
        await asyncio.wait([call])
        await asyncio.sleep(0.01)
        return told, call

    return asyncio.run(main())


if __name__ == "__main__":
    unittest.main()
