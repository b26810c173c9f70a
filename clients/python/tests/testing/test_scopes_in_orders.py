"""A handler with a scope, a first success, a fallback, a retry and a deadline, in every order.

    CF_LIBRARY=/path/to/libcf.so python3 -m unittest discover -s clients/python/tests/testing
"""
import asyncio
import os
import sys
import unittest
from pathlib import Path
from unittest import mock

CLIENT = Path(__file__).resolve().parents[2]
if not os.environ.get("CF_INSTALLED"):
    sys.path.insert(0, str(CLIENT))
from cf.events import Claim  # noqa: E402
from cf.service.scope import Scope  # noqa: E402
from cf.service.words import ANSWER  # noqa: E402
from cf.testing import orders  # noqa: E402


def handler(world):
    """Two backends, of which the first success wins, within a deadline. Behind the scope's end nothing is open, and no function is
    called."""
    request = world.service.request("quote")
    scope = request.scope(timeout=2)
    quotes = [scope.adopt(world.arrives(name, name, or_fails=OSError(name))).then(str.upper) for name in ("one", "two")]
    answer = scope.ends_with(scope.first(*quotes).recover(lambda _: "list"))

    def nothing_is_open():
        own = scope._stage.number
        return not scope._stage._ended or all(request._stage(k)._ended for k in range(request._stages) if request._is_within(k, own))

    def nothing_began_late():
        over = False
        for entry in request.history().entries():
            if over and isinstance(entry.event, Claim) and not entry.reply[ANSWER]:
                return False
            over = over or any(number == scope._stage.number for number, _ in entry.told)
        return True

    world.check(nothing_is_open, "nothing of an ended scope is open")
    world.at_end(nothing_began_late, "no function is claimed behind the scope's end")
    world.at_end(lambda: scope._stage._ended != 0, "the scope has ended")
    return answer


def block(world):
    """A function whose block waits: it ends once all is settled, and raises what nobody takes over."""
    request, told = world.service.request("block"), []

    def handle():
        try:
            with request.scope(timeout=2) as scope:
                parts = [scope.adopt(world.arrives(k, f"part {k}", or_fails=OSError(k))) for k in range(2)]
            told.append([part.result(0) for part in parts])
        except TimeoutError:
            told.append("late")
        except Exception as error:
            told.append("failed")
            assert any(part.done() and part._exception is not None for part in parts), error
        assert all(part.done() for part in parts), "the block left something open"

    world.at_end(lambda: told in ([[0, 1]], ["late"], ["failed"]), "the block says how it ended")
    return request.supply(handle)


def on_loop(world):
    """A block in a coroutine that may be cancelled, with a part that takes a while to end."""

    async def handle():
        request = world.loop_service.request("block")
        parts = []

        async def part(arrival):
            try:
                return await asyncio.wrap_future(arrival, loop=world.loop)
            finally:
                await asyncio.sleep(0)

        try:
            async with request.scope(timeout=2) as scope:
                parts.append(scope.supply(part, world.arrives(1, "part")))
        except TimeoutError:
            pass
        assert all(part.done() for part in parts), "the block left something open"
        assert all(task.done() for task in request._works.stopped()), "a coroutine goes on behind its block"

    task = world.loop.create_task(handle())
    world.calls(task.cancel, name="the client hangs up")

    async def seen():
        await asyncio.wait([task])
        assert task.cancelled() or task.exception() is None, task.exception()

    return world.loop.create_task(seen())


def tried(world):
    """A retry whose pauses are limits like others; somebody may cancel it."""
    request, calls = world.service.request("retry"), []

    def call():
        calls.append(1)
        raise OSError(len(calls))

    stage = request.retry(call, times=2, delay=1)
    world.calls(stage.cancel, name="the caller")
    world.check(lambda: len(calls) <= 2, "at most two tries")
    world.at_end(lambda: len(calls) == 2 or stage.cancelled(), "two tries or a cancellation")
    world.at_end(
        lambda: all(request._stage(number)._ended for number in range(request._stages) if request._scope_of(number) is not None), "nothing is left"
    )
    return stage


class InEveryOrder(unittest.TestCase):
    def whole(self, test, **options):
        report = orders(test, seconds=100, **options)
        self.assertEqual((report.whole, list(map(str, report.failed))), (True, []))
        self.assertGreater(report.orders, 5)

    def test_a_handler(self):
        self.whole(handler)

    def test_a_block(self):
        self.whole(block)

    def test_a_block_on_a_loop(self):
        self.whole(on_loop)

    def test_a_retry(self):
        self.whole(tried)

    def test_a_scope_that_cancels_nothing_is_found(self):
        """Where stages aren't put into their scope, an order is found that leaves one open."""

        def attach(scope, *given):
            return scope.request._attach(*given)

        with mock.patch.object(Scope, "_attach", attach), mock.patch.object(
            Scope, "_relay_of", lambda scope, *given: scope.request._relay_of(*given)
        ):
            report = orders(block, seconds=100)
        self.assertIn("left something open", report.failed[0].why)


if __name__ == "__main__":
    unittest.main()
