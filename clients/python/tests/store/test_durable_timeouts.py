#!/usr/bin/env python3
"""Time limits of stages in a store: how they and those behind them end, also if the limit was set before, and timers
that fail.

    CF_LIBRARY=/path/to/libcf.so python3 clients/python/tests/store/test_durable_timeouts.py [-v] [TEST ..]
"""
import threading
import unittest

from case import Case, EMPTY
import shared_functions as f
from cf import BadAnswer, run_script
from cf.service import Service
from cf.service.words import ATTACH, BAD_ANSWER, FAIL, FAIL_AS, TIMED_OUT
from cf.store import Broken, DurableService, Json, Memory, new_session, RowView, Timer, Unknown


class DurableTimeouts(Case):
    def test_timeouts(self):
        """A stage times out by a word of its own, and all that stand behind it have its exception, whenever they are
        told."""
        for service, name in self.each():
            stored = service.request(name)
            late, slow = stored.promise("late"), stored.promise("slow")
            fails = [late.then(f.inc), late.when_done(f.nothing), stored.all_of(slow, late), slow.combine(late, f.add)]
            texts = [late.recover(f.text)]
            late.or_timeout(0.05)
            self.assertEqual(str(late.exception(20)), "late took longer than 0.05 s")
            slow.complete(1)
            fails += [late.then(f.inc), stored.all_of(slow, late), late.when_done(f.nothing)]
            texts += [late.recover(f.text), fails[0].recover(f.text)]
            for stored_stage in fails:
                self.assertEqual((type(stored_stage.exception(20)), str(stored_stage.exception())), (TimeoutError, "late took longer than 0.05 s"))
            self.assertEqual([stored_stage.result(20) for stored_stage in texts], ["sorry, late took longer than 0.05 s"] * 3)
            history = stored.history()
            text = "TimeoutError('late took longer than 0.05 s')"
            for part in (f" times out 0 late, {text}\n", f"0 late ends: timed out, {text}\n", f" ends: timed out, {text}, passed on\n"):
                self.assertIn(part, str(history))
            place = next(place for place, word in enumerate(stored._row().words, 1) if word >> 56 == FAIL_AS)
            self.assertIn(f'["failAs",0,"timeout",{place}]', history.script())
            self.assertEqual(run_script(history.script()), history.report())
            with Service(1) as plain:
                relay = plain.request().adopt(late)
                self.assertIs(relay.exception(0), late.exception())
                self.assertIn(f"relay times out 0 relay of a DurableStage, {text}\n", str(relay.request.history()))

    def times_out(self, stored, stage, given, failure):
        """Puts the word by which another process lets a stage time out, or end with a bad answer."""
        store = stored._service.store
        view = RowView(store, store.find(stored.name), new_session())
        view.catch_up()
        head = FAIL_AS << 56 | stage << 36 | failure - TIMED_OUT << 32
        view.act(lambda view: [(head | view.caller_number << 48 | (0 if given is None else view.next_place), given)])

    def test_promises_of_what_timed_out(self):
        """A stage that composes ends as the one does that its function gives: as timed out, with that one's
        exception, or with a bad answer. The word names the payload, if there is one."""
        for service, name in self.each():
            for failure, given, kind, text in (
                (TIMED_OUT, Json().write_error(TimeoutError("x")), TimeoutError, "x"),
                (TIMED_OUT, None, TimeoutError, ""),
                (BAD_ANSWER, Json().write_error(KeyError("x")), KeyError, "'x'"),
                (BAD_ANSWER, None, BadAnswer, ""),
            ):
                stored = service.request(f"{name} {failure} {given}")
                number = stored.promise("number")
                composed = number.compose(f.waiting)
                number.complete(1)
                self.until(lambda: any(it["name"] == "late" for it in map(stored._row().definition, range(len(stored._row().forms)))))
                self.times_out(stored, stored["late"].number, given, failure)
                for stored_stage in (stored["late"], composed, composed.then(f.inc)):
                    self.assertEqual((type(stored_stage.exception(20)), str(stored_stage.exception())), (kind, text))
                words = [(word >> 32 & 0xF, word & 0xFFFFFFFF, place) for place, word in enumerate(stored._row().words, 1) if word >> 56 == FAIL_AS]
                first = 0 if given is None else words[0][2]  # (the promise names the same payload)
                self.assertEqual([it[:2] for it in words], [(failure - TIMED_OUT, first)] * 2)

    def test_a_promise_that_timed_out_before_it_was_linked_to(self):
        for service, name in self.each():
            stored, begun, goes_on = service.request(name), threading.Event(), threading.Event()
            number = stored.promise("number")

            def composing(request, number):
                begun.set()
                goes_on.wait(20)
                return request.promise("late")

            service.function(f"composing {name}")(composing)
            composed = number.compose(composing)
            number.complete(1)
            self.assertTrue(begun.wait(20))
            error = stored[composed.number - 1].or_timeout(0.01).exception(20)
            goes_on.set()
            self.assertEqual(str(composed.exception(20)), str(error))

    def test_rows_and_timers_of_before(self):
        """A time-out was a failing with an exception, and may stand so in a row. A timer that was set then lets the
        stage time out."""
        late_store = Memory()
        view = RowView(late_store, late_store.open("r", EMPTY), new_session())
        given, stored_limit = Json().write_error(TimeoutError("p took longer than 1 s")), b'{"name":"p"}'
        view.act(
            lambda view: [(ATTACH << 56 | view.caller_number << 48, stored_limit)] * 2
            + [(FAIL << 56 | view.caller_number << 48 | view.next_place + 2, given)]
        )
        late_store.set_timer(Timer("r", 1, 0.0, b"E" + given))
        service = DurableService(late_store, 1, functions=f.functions)
        self.services.append(service)
        stored = service.open("r")
        for stored_stage in (stored[0], stored[1], stored[0].then(f.inc), stored[1].then(f.inc)):
            self.assertEqual((type(stored_stage.exception(20)), str(stored_stage.exception())), (TimeoutError, "p took longer than 1 s"))
        self.assertIn("fails 0 p with TimeoutError('p took longer than 1 s')\n", str(stored.history()))
        self.assertIn(" times out 1 p, TimeoutError('p took longer than 1 s')\n", str(stored.history()))

    def test_a_payload_that_is_missing(self):
        """A word that names one is broken then. One that names none has a plain exception."""
        late_store = Memory()
        view = RowView(late_store, late_store.open("r", EMPTY), new_session())
        for low in (0, 0xFFFFFFFF):
            view.act(lambda view: [(ATTACH << 56 | view.caller_number << 48, b'{"name":"p"}')])
            view.act(lambda view: [(FAIL_AS << 56 | view.caller_number << 48 | len(view.forms) - 1 << 36 | view.next_place & low, None)])
        service = DurableService(late_store, 1, functions=f.functions)
        self.services.append(service)
        stored = service.open("r")
        self.assertEqual([type(stored[stage].exception(20)) for stage in (0, 1)], [TimeoutError, Broken])
        self.assertIn("'r', place 4: no payload is there", str(stored[1].exception(0)))
        for part in (" times out 0 p\n", " times out 1 p, RuntimeError('no payload')\n"):
            self.assertIn(part, str(stored.history()))

    def test_a_timer_that_fails_once(self):
        """It stays until it has fired."""

        class Away(Memory):
            left = 0

            def append_groups(self, puts):
                self.left -= 1
                if self.left >= 0:
                    raise Unknown("away")
                return super().append_groups(puts)

            def drop_timer(self, request, stored_stage, number=0):
                dropped.append(self.left)
                super().drop_timer(request, stored_stage, number)

        late_store, dropped = Away(), []
        service = DurableService(late_store, 1, functions=f.functions, lease=5)
        self.services.append(service)
        stored_limit = service.request("r").promise()
        with self.assertLogs("cf.store", "WARNING"):
            late_store.left = 3
            self.assertIsInstance(stored_limit.or_timeout(0.01).exception(20), TimeoutError)
        self.until(lambda: not late_store._timers)
        self.assertEqual(dropped, [-1])


if __name__ == "__main__":
    unittest.main()
