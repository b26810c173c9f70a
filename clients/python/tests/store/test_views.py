#!/usr/bin/env python3
"""RowView: what one session knows of a row and may put there, if replies are lost, reads are stale, numbers are
shared, words don't fit. Watcher: who is gone?

    CF_LIBRARY=/path/to/libcf.so python3 clients/python/tests/store/test_views.py [-v] [TEST ..]
"""
import contextlib
import json
import os
import subprocess
import threading
import time
import unittest
import unittest.mock

from case import Case, EMPTY
from cf.service import RequestFull
from cf.service.words import ATTACH, CANCEL, CLAIM, COMPLETE, FAIL, FINISH
from cf.store.host import Host
from cf.store import Broken, DurableService, Json, Memory, new_session, Put, RowView, StoreError, Unknown, Watcher
from cf.values import Code, Refused


class Silent(Memory):
    """Loses the reply of an append, once it has landed or before, as it is told; another may act meanwhile."""

    def __init__(self, lands, meanwhile=None):
        super().__init__()
        self.lands, self.meanwhile = lands, meanwhile

    def append(self, put):
        if self.lands is None:
            return super().append(put)
        lands, self.lands = self.lands, None
        if lands:
            super().append(put)
        if self.meanwhile:
            self.meanwhile()
        raise Unknown("cut")


class OneNumber(Host):
    """Two have one token by chance."""

    def number(self, bits):
        return 7


class Hosts(unittest.TestCase):
    def test_a_rest_ends_as_the_service_stops(self):
        stops, began = threading.Event(), time.monotonic()
        Host().rest(stops, 0.05)
        self.assertGreaterEqual(time.monotonic() - began, 0.05)
        stops.set()
        Host().rest(stops, 100)
        self.assertLess(time.monotonic() - began, 20)


class Views(Case):
    def view(self, store, session=None):
        return RowView(
            store,
            store.open("r", json.dumps({"cf": 3, "flow": "", "stages": [{"form": "supply", "name": "s", "fn": "inc", "version": 1}]})),
            session or new_session(),
        )

    def claim(self, view):
        view.catch_up()
        done, _ = view.act(lambda view: [(CLAIM << 56 | view.caller_number << 48, None)] if 0 in view.ready else None)
        return done is not None and not done[0].reply[0]

    def test_what_is_said_of_many_stages_is_read_in_one_call(self):
        store, asked = Memory(), []
        service = DurableService(store, 0)
        self.services.append(service)
        request = service.request("r")
        names = [request.promise(f"stage {k}").name for k in range(3)]
        view, real = RowView(store, store.find("r"), new_session()), store.payloads
        view.catch_up()
        store.payloads = lambda *given: asked.append(given) or real(*given)
        for _ in range(2):
            view.read_definitions(range(3))
            self.assertEqual(([view.definition(k)["name"] for k in range(3)], len(asked)), (names, 1))

    def test_a_lost_reply(self):
        """What was put is known by its token, and isn't put twice."""
        for lands in (True, False):
            store = Silent(lands)
            view = self.view(store)
            self.assertTrue(self.claim(view))
            self.assertEqual((len(store.read("r")), view.unknown), (1, 1))

    def test_a_lost_reply_and_another(self):
        """Two that would be caller 0 both claim; the first's put was lost on the way. One is granted."""
        store, granted = Silent(False), []
        first, second = self.view(store), self.view(store)
        store.meanwhile = lambda: granted.append(self.claim(second))
        granted.append(self.claim(first))
        self.assertEqual(sorted(granted), [False, True])
        self.assertEqual(len(store.read("r")), 1)

    def test_numbers(self):
        """Each session takes the lowest free number by its first word, and keeps it."""
        store = Memory()
        views = [self.view(store) for _ in range(3)]
        for view in views * 2:
            view.act(lambda view: [(COMPLETE << 56 | view.caller_number << 48, None)])
        self.assertEqual([word >> 48 & 0xFF for word, _ in store.read("r")], [0, 1, 2, 0, 1, 2])

    def test_80_sessions(self):
        """Above 64 numbers are shared; each stage is granted to one."""
        store = Memory()
        plan = {"cf": 3, "flow": "", "stages": [{"form": "supply", "name": "s", "fn": "inc", "version": 1}] * 80}
        views = [RowView(store, store.open("r", json.dumps(plan)), new_session()) for _ in range(80)]

        def work(view):
            for stage in range(80):
                done, _ = view.act(lambda view: None if stage not in view.ready else [(CLAIM << 56 | view.caller_number << 48 | stage << 36, None)])
                if done and not done[0].reply[0]:
                    granted.append(stage)
                    view.act(lambda view: [(FINISH << 56 | view.caller_number << 48 | stage << 36, None)])

        granted = []
        threads = [threading.Thread(target=work, args=[view]) for view in views]
        for thread in threads:
            thread.start()
        for thread in threads:
            thread.join(60)
        self.assertEqual(sorted(granted), list(range(80)))
        views[0].catch_up()
        self.assertTrue(views[0].is_done())

    def test_whose_a_claim_is(self):
        """Of two sessions with one number each knows whose a claim is, and who is gone. The claim is open until its own
        session finishes it, also once the stage was failed for that."""
        store = Memory()
        plan = json.dumps({"cf": 3, "flow": "", "stages": [{"form": "supply", "name": "s", "fn": "inc", "version": 1}] * 2})

        def view(session):
            return RowView(store, store.open("r", plan), session)

        for session in range(64):
            other = view(session)
            other.catch_up()
            other.act(lambda view: [(CANCEL << 56 | view.caller_number << 48, None)])
        one, two = view(100), view(164)
        for each in (one, two):
            each.catch_up()
            done, _ = each.act(lambda view: [(CLAIM << 56 | view.caller_number << 48 | 1 << 36, None)])
            self.assertEqual((done[0].reply[0], each.caller_number), (0 if each is one else 2, 36))
        one.catch_up()
        for each in (one, two):
            self.assertEqual((each.claims(), each.open_claims(), each.stages_held_by(100), each.stages_held_by(164)), ({1: 100}, {1: 100}, [1], []))
            self.assertEqual([each.holder(stage) for stage in (0, 1)], [None, 100])
            self.assertEqual([each.abandon_word(100, 0), each.abandon_word(164, 1)], [None, None])
        fails = two.abandon_word(100, 1)
        self.assertEqual(fails, FAIL << 56 | 36 << 48 | 1 << 36 | two.next_place)
        done, _ = two.act(lambda view: [(fails, b"{}")])
        self.assertEqual(done[0].reply[0], 1)
        one.catch_up()
        for each in (one, two):
            self.assertEqual((each.claims(), each.open_claims(), each.stages_held_by(100), each.abandon_word(100, 1)), ({1: 100}, {}, [], None))
        one.act(lambda view: [(FINISH << 56 | view.caller_number << 48 | 1 << 36, None)])
        self.assertEqual((one.claims(), one.holder(1)), ({}, None))

    def test_a_stale_read(self):
        """Reads that lack the last words change nothing: the put decides, and who loses is told what stands."""

        class Stale(Memory):
            def read(self, name, at=0, number=0):
                return super().read(name, at, number)[:1] if at == 0 else []

        store = Stale()
        first, second = self.view(store), self.view(store)
        first.act(
            lambda view: [(ATTACH << 56 | view.caller_number << 48, b'{"name":"one"}'), (ATTACH << 56 | view.caller_number << 48, b'{"name":"two"}')]
        )
        self.assertTrue(self.claim(first))
        second.catch_up()
        self.assertEqual(second.words_seen, 1)
        self.assertFalse(self.claim(second))
        self.assertEqual((second.words_seen, second.lost, len(Memory.read(store, "r"))), (3, 1, 3))

    def test_a_finish_that_comes_late(self):
        """Anybody may fail the stage of a session that he thinks gone. If it isn't, its finish is late, and nobody
        else was granted the stage."""
        store = Memory()
        first, second = self.view(store), self.view(store)
        self.assertTrue(self.claim(first))
        second.catch_up()
        self.assertEqual(second.open_claims(), {0: first.session})
        done, _ = second.act(lambda view: [(FAIL << 56 | view.caller_number << 48 | view.next_place, b"{}")])
        self.assertEqual(done[0].reply[0], 1)
        self.assertFalse(self.claim(second))
        done, _ = first.act(lambda view: [(FINISH << 56 | view.caller_number << 48, None)])
        self.assertEqual(done[0].reply[0], 1)
        self.assertEqual(first.open_claims(), {})

    def test_a_put_that_was_given_up(self):
        """The store is silent for too long. If the claim stands all the same, it is this session's, under the number
        that it was put with."""
        for lands in (True, False):
            with self.subTest(lands=lands):
                store = Silent(lands)
                view, other = self.view(store), self.view(store)
                view._patience, append = 0, store.append
                store.append = lambda put: append(put) if store.lands is not None else self.silent()
                with self.assertRaises(Unknown) as told:
                    self.claim(view)
                self.assertIn("'r', place 1: the store doesn't answer", str(told.exception))
                store.append = append
                other.act(lambda view: [(COMPLETE << 56 | view.caller_number << 48, None)])
                view.catch_up()
                self.assertEqual(view.claims(), {0: view.session} if lands else {})
                done, _ = view.act(lambda view: [(FINISH << 56 | view.caller_number << 48, None)])
                self.assertEqual((done[0].reply[0], view.caller_number, other.caller_number), (1, 0, 1) if lands else (2, 1, 0))

    def test_a_refusal_behind_a_lost_reply(self):
        """What is refused then may stand. Where it does, that is told; else it isn't known."""
        for lands in (True, False):
            with self.subTest(lands=lands):
                store = Silent(lands)
                view, append = self.view(store), store.append
                view._patience = 0.02

                def refuses(put, store=store, append=append):
                    if store.lands is None:
                        raise StoreError("it takes nothing now")
                    append(put)

                store.append = refuses
                if lands:
                    self.assertTrue(self.claim(view))
                else:
                    with self.assertRaises(Unknown) as told:
                        self.claim(view)
                    self.assertIn("it takes nothing now", str(told.exception))
                self.assertEqual(len(store.read("r")), int(lands))
                with self.assertRaises(StoreError) as told:  # (without a lost reply it is a refusal)
                    view.act(lambda view: [(COMPLETE << 56 | view.caller_number << 48, None)])
                self.assertNotIsInstance(told.exception, Unknown)

    def silent(self):
        raise Unknown("silent")

    def test_a_session_keeps_its_number(self):
        """Also by a view that it opens later."""
        store, session = Memory(), new_session()
        for of in (session, new_session(), session):
            view = self.view(store, of)
            view.catch_up()
            view.act(lambda view: [(COMPLETE << 56 | view.caller_number << 48, None)])
        self.assertEqual([word >> 48 & 0xFF for word, _ in store.read("r")], [0, 1, 0])

    def test_tokens_of_lost_puts(self):
        """Whose place was taken is forgotten."""
        store = Silent(False)
        view, other = self.view(store), self.view(store)
        view._patience, store.append = 0, lambda put: self.silent()
        with self.assertRaises(Unknown):
            self.claim(view)
        del store.append
        store.lands = None
        self.assertEqual(len(view._in_doubt), 1)
        other.act(lambda view: [(COMPLETE << 56 | view.caller_number << 48, None)])
        view.catch_up()
        self.assertEqual(view._in_doubt, {})

    def test_tokens_of_views(self):
        """Two views of one session give different tokens, by chance."""
        store, session = Memory(), new_session()
        for view in (self.view(store, session), self.view(store, session)):
            view.catch_up()
            view.act(lambda view: [(COMPLETE << 56 | view.caller_number << 48, None)] * 3)
        tokens = {token for _, token in store.read("r")}
        self.assertEqual((len(tokens), {token >> 23 for token in tokens}), (6, {session}))

    def test_two_that_put_one_token(self):
        """Whose token stands with other words has lost, and replays what stands."""
        store, session = Memory(), new_session()
        plan = {"cf": 3, "flow": "", "stages": [{"form": "source", "name": "p"}, {"form": "source", "name": "q"}]}
        first, second = (RowView(store, store.open("r", json.dumps(plan)), session, host=OneNumber()) for _ in range(2))
        first.act(lambda view: [(COMPLETE << 56 | view.caller_number << 48, None)])
        done, others = second.act(lambda view: [(COMPLETE << 56 | view.caller_number << 48 | 1 << 36, None)])
        first.catch_up()
        self.assertEqual(([it.place for it in others], [it.place for it in done]), ([1], [2]))
        self.assertEqual((list(first.words), list(second.words)), ([word for word, _ in store.read("r")],) * 2)
        self.assertEqual((first.kinds, first.caller_number), (second.kinds, second.caller_number))

    def test_words_are_tested(self):
        """One that fits no graph isn't put, nor its group: it would break the row for everybody."""
        store = Memory()
        view = self.view(store)
        attach = (ATTACH << 56, b'{"name":"p"}')
        for words in (
            [(99 << 56, None)],
            [(CLAIM << 56 | 7 << 36, None)],
            [(COMPLETE << 56 | 5 << 48, None)],
            [(COMPLETE << 56, None), (FINISH << 56 | 1 << 36, None)],
            [(ATTACH << 56 | 1 << 32 | 3 << 24 | 1 | 2 << 36, None)],
            [attach, attach, (COMPLETE << 56 | 3 << 36, None)],
            [(-1, None)],
            [(1 << 64 | COMPLETE << 56, None)],
        ):
            with self.subTest(words), self.assertRaises(ValueError) as told:
                view.act(lambda view: words)
            self.assertIn("'r', place 1: one of the words", str(told.exception))
        self.assertEqual(store.read("r"), [])
        self.assertEqual(len(view.act(lambda view: [attach, attach, (COMPLETE << 56 | 2 << 36, None)])[0]), 3)
        with self.assertRaises(RequestFull):
            view.act(lambda view: [attach] * 4094)
        self.assertEqual(len(store.read("r")), 3)

    def test_hand_written_words(self):
        store = Memory()
        view = self.view(store)
        self.claim(view)
        store.append(Put("r", 1, [(99 << 56, 1)], {}))
        with self.assertRaises(Broken) as told:
            self.view(store).catch_up()
        self.assertEqual((told.exception.request, told.exception.place), ("r", 2))
        self.assertIn("'r', place 2", str(told.exception))

    def test_a_word_that_doesnt_fit(self):
        """An event of a stage that isn't there, and a plan of another version: the errors name request and place."""
        store = Memory()
        view = self.view(store)
        self.claim(view)
        store.append(Put("r", 1, [(CLAIM << 56 | 7 << 36, 1)], {}))
        with self.assertRaises(Broken) as told:
            view.catch_up()
        self.assertIn("'r', place 2: the word", str(told.exception))
        with self.assertRaises(Broken) as told:
            RowView(store, store.open("old", json.dumps({"cf": 2, "flow": "", "stages": []})), new_session())
        self.assertIn("'old', place 0: its plan can't be read", str(told.exception))
        self.assertIn("version 2", str(told.exception))

    def test_a_stage_that_speaks_of_others(self):
        """A further try and a promise for what comes are told by the numbers of lower stages, in a plan and in a
        payload."""
        store = Memory()
        for key in ("again", "to"):
            for number in (-1, 1, 77):
                said = {"form": "supply", "name": "s", key: number}
                with self.assertRaises(Broken) as told:
                    plan = {"cf": 3, "flow": "", "stages": [{"form": "source", "name": "p"}, said]}
                    RowView(store, store.open(f"{key} {number}", json.dumps(plan)), new_session())
                self.assertIn("place 0: its plan can't be read", str(told.exception))
        view = RowView(store, store.open("r", EMPTY), new_session())
        view.act(lambda view: [(ATTACH << 56 | 1 << 24, b'{"name":"s","again":5}')])
        with self.assertRaises(Broken) as told:
            view.definition(0)
        self.assertIn("'r', place 1: its payload can't be read", str(told.exception))

    def test_a_store_that_is_away(self):
        class Away(Memory):
            def append(self, put):
                raise Unknown("no connection")

        store = Away()
        view = RowView(store, store.open("r", EMPTY), new_session(), patience=0.1)
        with self.assertRaises(Unknown) as told:
            view.act(lambda view: [(ATTACH << 56, b'{"name":"p"}')])
        self.assertIn("'r', place 1: the store doesn't answer: no connection", str(told.exception))

    def test_a_machine_that_is_refused(self):
        """Where room is wanting, one with less room is made; what else is refused is told."""
        view = self.view(Memory())
        for room, refused, asked in [(5, [Code.ROOM] * 2, [5, 2, 1]), (5, [Code.NO_MEMORY], [5]), (1, [Code.ROOM] * 2, [1, 0])]:
            view._room, answers = room, [*map(Refused, refused), None]
            with unittest.mock.patch.object(view, "plan") as plan, contextlib.ExitStack() as raises:
                plan.new_replica.side_effect = answers
                if len(asked) == len(refused):
                    raises.enter_context(self.assertRaises(Refused))
                view._new_replica()
            self.assertEqual([call.args[0] for call in plan.new_replica.mock_calls], asked)

    def test_an_account_by_sessions(self):
        """Above 64 sessions a number is two sessions', each of which has its own records."""
        store = Memory()
        plan = {"cf": 3, "flow": "", "stages": [{"form": "supply", "name": "s", "fn": "inc", "version": 1}] * 70}
        views = [RowView(store, store.open("r", json.dumps(plan)), new_session()) for _ in range(70)]
        for stage, view in enumerate(views):
            view.catch_up()
            view.act(lambda view, stage=stage: [(CLAIM << 56 | view.caller_number << 48 | stage << 36, None)])
        views[0].catch_up()
        account = json.loads(views[0].history(Json()).account())
        shared = [own["sessions"] for own in account["callers"] if isinstance(own, dict)]
        self.assertTrue(shared)
        self.assertEqual(sum(len(own) - 1 for own in shared), 6)
        records = [record for own in account["callers"] for it in (own["sessions"] if isinstance(own, dict) else [own]) for record in it]
        self.assertEqual(sorted(record[1] for record in records if record[0] == "did"), list(range(1, 71)))
        self.look(json.dumps(account))

    def look(self, account):
        """By `cf_look check`, where CF_LOOK names it."""
        if os.environ.get("CF_LOOK"):
            done = subprocess.run([os.environ["CF_LOOK"], "check"], input=account, stdout=subprocess.PIPE, universal_newlines=True)
            self.assertEqual(done.stdout, "fits\n")


class ByHand(Host):
    """Its clock is set by hand."""

    def __init__(self):
        self.now = 0.0

    def monotonic(self):
        return self.now

    def sleep(self, seconds):
        self.now += seconds


class Watchers(unittest.TestCase):
    def gone_at(self, watcher, host, session):
        """When a session is taken for gone, by looks every 2 s."""
        while not watcher.is_gone(session):
            host.now += 2
            watcher.look()
        return host.now

    def test_a_beat_in_a_slow_answer(self):
        """The engine takes 8 s to answer, and the last beat comes just before that: it counts from there on."""
        host, store = ByHand(), Memory()
        watcher = Watcher(store, 10, host)
        store.beat(5)
        watcher.look()
        host.now = 2.0

        def beats():
            host.now += 8
            store.beat(5)
            return Memory.beats(store)

        with unittest.mock.patch.object(store, "beats", beats):
            watcher.look()
        self.assertEqual(self.gone_at(watcher, host, 5), 22)

    def test_beats_that_were_read_by_others(self):
        """The time of the question that brought them doesn't count, either."""
        host, store = ByHand(), Memory()
        watcher = Watcher(store, 10, host)
        watcher.look({5: 1})
        host.now = 10.0
        watcher.look({5: 1}, 2.0)
        self.assertEqual(self.gone_at(watcher, host, 5), 20)

    def test_a_word_is_a_sign_of_life(self):
        """Who puts words is there, as long as he would be by a beat."""
        host, store = ByHand(), Memory()
        store.beat(5)
        watcher = Watcher(store, 10, host)
        watcher.look()
        for host.now in (2.0, 4.0, 6.0):
            watcher.look()
        host.now = 7.0
        watcher.note_signs_of_life([5])
        self.assertEqual(self.gone_at(watcher, host, 5), 19)

    def test_silence_isnt_absence(self):
        """While the store was silent nobody could say that he is there: nobody is thought gone by that."""
        store, host = Memory(), ByHand()
        store.beat(5)
        watcher = Watcher(store, 0.1, host)
        watcher.look()
        with unittest.mock.patch.object(store, "beats", side_effect=Unknown("away")):
            for _ in range(8):
                host.sleep(0.04)
                watcher.look()
        watcher.look()
        self.assertFalse(watcher.is_gone(5))
        for _ in range(8):
            host.sleep(0.04)
            watcher.look()
        self.assertTrue(watcher.is_gone(5))

    def test_a_pause(self):
        """Whose process stood still for long thinks nobody gone by that alone."""
        store, host = Memory(), ByHand()
        store.beat(5)
        watcher = Watcher(store, 0.05, host)
        watcher.look()
        host.sleep(0.2)
        self.assertFalse(watcher.is_gone(5))
        watcher.look()
        self.assertFalse(watcher.is_gone(5))
        for _ in range(10):
            host.sleep(0.01)
            watcher.look()
        self.assertTrue(watcher.is_gone(5))


if __name__ == "__main__":
    unittest.main()
