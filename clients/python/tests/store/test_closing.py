#!/usr/bin/env python3
"""Requests that are over are closed and let go, opened again by whoever goes on, dropped, and begun anew under their
name.

    CF_LIBRARY=/path/to/libcf.so python3 clients/python/tests/store/test_closing.py [-v] [TEST ..]
"""
import contextlib
import time
import unittest
import unittest.mock

from case import Case, Hurried, STORES
import shared_functions as f
from cf.service import Flow
from cf.service.words import CANCEL, CLAIM, COMPLETE
from cf.store import Broken, connect, DurableService, Memory, new_session, RowView, Timer, Unknown
from cf.store.plans import text_of


class Closing(Case):
    def test_what_is_over_is_closed(self):
        """A process is gone between a flow's last word and its closing, or with a claim: another closes the request."""
        self.lease = 0.5
        self.service(takes_all=True)
        flow = Flow("two")
        one, two = flow.promise("one"), flow.supply(f.nothing)
        store = connect(self.address)
        for name, claims in (("last", False), ("claimed", True)):
            view = RowView(store, store.open(name, text_of(flow, f.functions)), new_session())
            words = [(CLAIM << 56 | 1 << 36, None)] if claims else []
            view.act(
                lambda view: [(word | view.caller_number << 48, None) for word in [it for it, _ in words] + [COMPLETE << 56, CANCEL << 56 | 1 << 36]]
            )
            self.assertTrue(view.is_settled(one.number) and view.is_settled(two.number))
        self.until(lambda: not store.ends())
        store.close()

    def test_a_request_that_goes_on_as_it_is_let_go(self):
        """Who attaches to a closed request opens it again, and nobody forgets it who has seen it closed before."""
        store = Memory()
        closing_service = DurableService(store, 1, functions=f.functions, lease=1)
        self.services.append(closing_service)
        flow = Flow("order")
        step = flow.promise("p")
        reopened = closing_service.start(flow, 1, name="r")
        self.until(lambda: "r" not in store.ends())
        late = reopened.promise("late").or_timeout(0.3)
        self.assertIn("r", store.ends())
        self.assertIs(closing_service.open("r"), reopened)
        self.assertIsInstance(late.exception(20), TimeoutError)
        self.assertEqual(reopened[step].result(60), 1)

    def test_who_has_served_many_requests_keeps_few(self):
        """What is closed is forgotten, and a new request takes no longer for those before it."""
        service = DurableService(Memory(), 2, functions=f.functions, lease=1)
        self.services.append(service)
        for k in range(100):
            self.assertEqual([it.result(20) for it in [service.submit(f.inc, k) for k in range(30)]], list(range(1, 31)))
        self.until(lambda: len(service.leader._requests) < 300)
        self.assertLess(len(service._requests), 300)

    def test_a_request_that_others_open_again(self):
        """It was let go here, and who waits for one of its stages is told all the same. A plain request that was
        ended is opened again, too."""
        store, asks, works = self.memory_that_two_share()
        reopened = asks.request("r")
        promise = reopened.promise("p")
        reopened.end()
        self.until(lambda: "r" not in asks._requests and "r" not in works._requests)
        self.assertIs(asks.open("r"), reopened)
        self.until(lambda: "r" not in asks._requests)
        other = works.open("r")
        self.assertEqual(reopened.supply(f.inc, 1).result(20), 2)
        self.assertIn("r", store.ends())
        reopened.end()
        self.until(lambda: "r" not in asks._requests and "r" not in works._requests)
        other.promise()
        other["p"].complete(17)
        self.assertEqual(promise.result(20), 17)

    def test_who_attaches_to_a_closed_request_and_is_killed(self):
        """With the word that attaches the request is open, also one that was closed elsewhere: others go on with it."""
        self.lease = 1000
        for closing_service, name in self.each():
            store = closing_service.store
            flow = Flow("order")
            flow.promise("p")
            over, plain = closing_service.start(flow, 1, name=name), closing_service.request(name + " plain")
            self.until(lambda store=store, name=name: name not in store.ends())
            store.end(plain.name, 0)
            real, seen = store.append_groups, []

            def append_groups(puts, real=real, seen=seen, store=store):
                told = real(puts)
                seen.extend(put.request in store.ends() for put in puts)
                return told

            for request in (over, plain):
                with unittest.mock.patch.object(store, "append_groups", append_groups):
                    request.promise("late")
            self.assertEqual(seen, [True, True])

    def test_an_attach_that_the_store_is_silent_about(self):
        """It stands, and is worked on."""

        class Silent(Memory):
            is_silent = False

            def append_groups(self, puts):
                told = super().append_groups(puts)
                if self.is_silent:
                    self.is_silent = False
                    host.ahead += 61
                    raise Unknown("silent")
                return told

        store, flow, host = Silent(), Flow("order"), Hurried()
        flow.promise("p")
        closing_service = DurableService(store, 1, functions=f.functions, lease=0.5, host=host)
        self.services.append(closing_service)
        reopened = closing_service.start(flow, 1, name="r")
        self.until(lambda: "r" not in store.ends())
        store.is_silent = True
        with self.assertRaises(Unknown):
            reopened.supply(f.inc, 1)
        self.assertEqual(reopened[1].result(20), 2)

    def test_a_request_that_another_has_closed(self):
        """Each of two processes sees that it is over, and one closes it. The other one asks no more."""
        service, other, asked = self.service(takes_all=True), self.service(workers=0, takes_all=True), []
        ends = other.store.end
        other.store.end = lambda *given: asked.append(given) or ends(*given)
        self.assertEqual(service.submit(f.load, 1).result(20)["number"], 1)
        self.until(lambda: not service.store.ends())
        time.sleep(0.5)
        self.assertLess(len(asked), 3)

    def test_who_waits_elsewhere_is_told_of_the_last_word(self):
        """Also where the request is closed right behind it, and nobody has looked at all that are open meanwhile."""
        for address in [self.address, "memory://", *[it for it in STORES if not it.startswith("etcd")]]:
            with self.subTest(address):
                store = connect(address)
                asks = DurableService(store, 0, functions=f.functions, lease=1000)
                self.services.append(asks)
                flow = Flow("order")
                last = flow.promise("p").then(f.inc)
                waits = asks.start(flow, name=self.name)[last]
                self.until(lambda asks=asks: asks.leader._mark is not None)
                other = RowView(store, store.find(self.name), new_session())
                news, store.news = store.news, lambda mark: ({}, mark)  # (it doesn't look for a moment)
                other.catch_up()
                other.act(lambda view: [(COMPLETE << 56 | view.caller_number << 48, None), (CANCEL << 56 | view.caller_number << 48 | 1 << 36, None)])
                store.end(self.name, 2)
                store.news = news
                self.until(lambda waits=waits: waits.done())
                self.assertTrue(waits.cancelled())
                store.drop(self.name)


class NamesUsedAgain(Case):
    def test_a_name_that_is_used_again(self):
        """Who has a request that was dropped is told so, and another of its name is worked on."""
        for closing_service, name in self.each():
            worker = DurableService(closing_service.store, 1, functions=f.functions, takes_all=True, lease=1)
            old = closing_service.request(name)
            stage = old.promise("p")
            self.until(lambda: name in worker.leader._by_name)
            closing_service.store.drop(name)
            new = closing_service.request(name)
            self.assertIsInstance(stage.exception(60), Broken)
            with self.assertRaises(Broken) as told:
                old.promise()
            self.assertIn("no such request", str(told.exception))
            self.assertEqual(new.words_seen, 0)
            self.assertEqual(worker.open(name).supply(f.inc, 1).result(20), 2)
            self.assertEqual(new[0].result(20), 2)
            self.assertNotIn(name, {**closing_service.broken, **worker.broken})
            worker.shutdown(wait=False)

    def test_what_is_late_for_a_name_that_is_used_again(self):
        """A timer that was due of a request that was dropped meanwhile does nothing to the next one of its name."""
        store = Memory()
        closing_service = DurableService(store, 0, functions=f.functions, takes_all=True)
        self.services.append(closing_service)
        first = closing_service.request("r")
        first.promise().complete(1)
        store.drop("r")
        stage = closing_service.request("r").promise()
        due = store.due_timers
        with unittest.mock.patch.object(store, "due_timers", lambda now: [Timer("r", 0, 0.0, b"V2", first.number), *due(now)]):
            self.assertEqual(stage.complete_on_timeout(3, 0.1).result(20), 3)

    def test_a_request_that_is_dropped_as_it_is_begun(self):
        """Another of its name is begun meanwhile, with another plan: whoever began the first is told that."""

        def flow(many):
            made = Flow()
            for _ in range(many):
                made.promise()
            return made

        class Meanwhile(Memory):
            done = False

            def open(it, name, plan):
                found = super().open(name, plan)
                if not it.done:
                    it.done = True
                    it.drop(name)
                    begun.append(closing_service.start(flow(2), name=name))
                return found

        begun, closing_service = [], DurableService(Meanwhile(), 0, functions=f.functions)
        self.services.append(closing_service)
        with self.assertRaises(Broken):
            closing_service.start(flow(1), name="r")
        self.assertIs(closing_service.start(flow(2), name="r"), begun[0])

    def test_a_name_that_began_anew_with_fewer_words(self):
        """A worker that has seen more words of an earlier request of the name works on the new one; who has the old
        one is told."""
        store, asks, works = self.memory_that_two_share()
        old = asks.request("r")
        other = old.promise()

        def ends(_):
            raise SystemExit("of a callback")

        other.add_done_callback(ends)
        waits, done = old.promise(), [old.supply(f.inc, k).result(20) for k in range(3)]
        self.assertEqual(done, [1, 2, 3])
        store.drop("r")
        with contextlib.suppress(SystemExit):  # (or a worker has seen it, which logs it)
            asks.request("r")
        new = asks.request("r")
        self.assertEqual(new.supply(f.inc, 16).result(20), 17)
        self.assertIsInstance(waits.exception(60), Broken)
        for call in (lambda: old[0], old.history, old.end, old.promise):
            with self.assertRaises(Broken):
                call()
        self.assertIn("r", store.ends())
        self.assertIs(asks.open("r"), new)


if __name__ == "__main__":
    unittest.main()
