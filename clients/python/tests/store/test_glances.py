#!/usr/bin/env python3
"""What lists ask of a store: all open requests with glances at them, closed ones, names of sessions; and who keeps
glances there.

    CF_LIBRARY=/path/to/libcf.so python3 clients/python/tests/store/test_glances.py [-v] [TEST ..]
"""
import time
import unittest
import unittest.mock

from case import Case, STORES
import shared_functions as f
from cf.service import Flow
from cf.store import Abandoned, Broken, connect, DurableService, Grouped, Memory, new_session, Put, RowView, Store, StoreError, tables, Unknown
from cf.store import leader as leading
from cf.store.glances import glance_of, read
from cf.store.plans import text_of
from cf.store.rows import FIRST, flow_of, Glance, Gone, RowQuery
from cf.store.tables import TableStore


class Lists(Case):
    def listing_stores(self):
        for address in ["memory://", self.address, self.address + "2", *STORES]:
            store = connect(address)
            with self.subTest(address):
                yield Grouped(store) if address[-1] == "2" else store
            store.close()

    def test_an_overview_has_what_is_open(self):
        flow = Flow('of "two" \\ words')
        flow.promise()
        for store in self.listing_stores():
            opened, other = store.open(self.name, text_of(flow, f.functions)), store.open(self.name + "2", "{}")
            store.append(Put(self.name, 0, [(1, 11), (2, 12)], {}))
            its = {it.name: it for it in store.overview() if it.name.startswith(self.name)}
            self.assertEqual(sorted(its), [self.name, self.name + "2"])
            self.assertEqual(its[self.name][1:], (opened.number, its[self.name].opened, 2, flow.name, None))
            self.assertAlmostEqual(its[self.name].opened, opened.opened, 2)
            self.assertEqual((its[self.name + "2"].words, its[self.name + "2"].flow), (0, ""))
            glance = Glance(self.name, opened.number, 2, '{"said": "…"}')
            store.keep_glances([glance, Glance(self.name + "2", other.number + 7, 1, "another's")])
            store.keep_glances([])
            its = {it.name: it.glance for it in store.overview() if it.name.startswith(self.name)}
            self.assertEqual(its, {self.name: glance, self.name + "2": None})
            store.keep_glances([glance._replace(words=3)])
            self.assertEqual([it.glance.words for it in store.overview() if it.name == self.name], [3])
            store.end(self.name, 2)
            self.assertEqual([it.name for it in store.overview() if it.name.startswith(self.name)], [self.name + "2"])
            store.keep_glances([glance])  # of one that is closed
            store.reopen(self.name)
            self.assertEqual([it.glance for it in store.overview() if it.name == self.name], [None])
            store.keep_glances([glance])
            store.drop(self.name), store.open(self.name, "{}")
            self.assertEqual([it.glance for it in store.overview() if it.name == self.name], [None])

    def test_what_is_other_in_the_list(self):
        flow = Flow("flow")
        flow.promise()
        for store in self.listing_stores():
            mark = None

            def changed(is_told=lambda *_: True, store=store):
                """What is told of requests of this test, new or anew, and longer; and who is gone. (Some is told a
                moment later.)"""
                nonlocal mark
                opened, words, gone = {}, {}, set()

                def asked():
                    nonlocal mark
                    changes, mark = store.changes(mark)
                    its = {it.name[len(self.name) :]: it for it in changes.opened if it.name.startswith(self.name)}
                    opened.update(its)
                    words.update({name: it.words for name, it in its.items()})
                    words.update({name[len(self.name) :]: it for name, it in changes.longer.items() if name.startswith(self.name)})
                    gone.update(it[len(self.name) :] for it in changes.gone if it.startswith(self.name))
                    return is_told(opened, words, gone)

                self.until(asked)
                return opened, words, gone

            first = store.open(self.name + "a", text_of(flow, f.functions))
            store.keep_glances([Glance(first.name, first.number, 0, "x")])
            opened, _, gone = changed()
            self.assertEqual((opened["a"][1], *opened["a"][3:], gone), (first.number, 0, "flow", Glance(first.name, first.number, 0, "x"), set()))
            self.assertAlmostEqual(opened["a"].opened, first.opened, 2)
            store.open(self.name + "b", text_of(flow, f.functions))
            store.append(Put(first.name, 0, [(1, 11), (2, 12)], {}))
            opened, words, gone = changed(lambda opened, words, gone: "b" in opened and words.get("a") == 2)
            self.assertEqual((opened["b"].flow, gone), ("flow", set()))
            self.assertEqual(changed()[2], set())
            store.end(first.name, 2), store.append(Put(self.name + "b", 0, [(1, 13)], {}))
            opened, words, gone = changed(lambda _, words, gone: gone and words.get("b") == 1)
            self.assertEqual((words, gone), ({"b": 1}, {"a"}))
            store.reopen(first.name)
            opened, _, gone = changed(lambda opened, *_: "a" in opened)
            self.assertEqual((opened["a"].number, opened["a"].words, gone), (first.number, 2, set()))
            store.end(first.name, 2), store.drop(first.name)
            again = store.open(first.name, "{}")
            opened, _, gone = changed(lambda opened, *_: "a" in opened and opened["a"].number == again.number)
            self.assertEqual((opened["a"].words, gone), (0, set()))
            store.drop(first.name)  # while it is open
            changed(lambda opened, words, gone: gone == {"a"})
            store.open(self.name + "c", "{}"), store.end(self.name + "c", 0)
            time.sleep(0.1)
            opened, _, gone = changed()
            self.assertEqual(("c" in opened, gone), (False, set()))

    def test_a_look_that_tells_only_what_is_put(self):
        """.. tells neither what is closed nor what hasn't changed, and takes a name for the request that has it now."""
        for address in [self.address, *STORES]:
            store = connect(address)
            if isinstance(store, TableStore):
                with self.subTest(address):
                    self.looks_at_what_is_put(store)
            store.close()

    def looks_at_what_is_put(self, store):
        names, mark = [f"{self.name} {k}" for k in range(5)], None
        opened = {name: store.open(name, "{}") for name in names}

        def told(is_told=lambda _: True):
            """What the first look tells that tells this."""
            found = []

            def asked():
                nonlocal mark
                changes, mark = store.changes(mark)
                found[:] = [changes]
                return is_told(changes)

            self.until(asked)
            return found[0]

        told(lambda it: it.many is None)
        with unittest.mock.patch.object(tables, "BETWEEN_ALL", 3600.0):
            told(lambda _: mark.due > time.monotonic() + 3000)
            told(lambda it: not it.opened)  # (PostgreSQL tells it once more while a transaction is open)
            store.end(names[0], 0), store.append(Put(names[1], 0, [(1, 11)], {}))
            changes = told(lambda it: it.longer)
            self.assertEqual((changes.opened, changes.longer, changes.gone), ([], {names[1]: 1}, []))
            store.drop(names[2])
            again = store.open(names[2], "{}")
            changes = told(lambda it: it.opened)
            self.assertEqual(([it.number for it in changes.opened], changes.gone), ([again.number], []))
            before = opened[names[2]].number  # (in PostgreSQL a put that was under way lands after the drop)
            store._ask(f"insert into cf_word (request, at, word, token) values ({before}, 6, 1, 11)")
            store.append(Put(names[1], 1, [(1, 12)], {}))
            changes = told(lambda it: it.longer.get(names[1]) == 2)
            self.assertEqual((changes.longer, changes.gone), ({names[1]: 2}, []))
            mark = mark._replace(due=0.0)
            self.assertEqual(told().gone, [names[0]])
            mark = mark._replace(due=0.0)
            self.assertGreaterEqual(len(told().opened), 4)  # (what is missed comes anew)
        for name in names:
            store.drop(name)

    def test_the_first_of_many(self):
        """.. are told alone at first, by name, and with how many there are."""
        for store in self.listing_stores():
            for k in reversed(range(2 * FIRST + 1 - len(store.overview()))):
                store.open(f"!{k:03}", "{}")
            store.end("!000", 0)
            self.assertIsNone(store.changes(None)[0].many)
            store.reopen("!000")
            its = {it.name: it for it in store.overview()}
            store.keep_glances([Glance("!007", its["!007"].number, 0, "x")])
            mark = None
            changes, mark = store.changes(mark)
            if changes.many is not None:  # (the store in memory tells all)
                self.assertEqual(([it.name for it in sorted(changes.opened)], changes.many, changes.gone), (sorted(its)[:FIRST], len(its), []))
                self.assertEqual([it.glance.said for it in changes.opened if it.name == "!007"], ["x"])
                changes, mark = store.changes(mark)
                self.assertEqual((len(changes.opened), changes.many, changes.gone), (len(its), None, []))
                gone = set()

                def asked(store=store, gone=gone):
                    nonlocal mark
                    changes, mark = store.changes(mark)
                    gone.update(changes.gone)
                    return gone == {"!000", "!001"}

                store.end("!000", 0), store.drop("!001")
                self.until(asked)
            for name in its:
                if name[0] == "!" and store.find(name) is not None:
                    store.drop(name)

    def test_rows_that_are_read_together(self):
        for store in self.listing_stores():
            its = [store.open(f"{self.name} {k}", f'{{"{k}": 1}}') for k in range(3)]
            names, numbers = [it.name for it in its], [it.number for it in its]
            for it in its[:2]:
                store.append(Put(it.name, 0, [(1, 11), (2, 12), (3, 13)], {1: b"one", 3: it.name.encode()}))
            wanted = [RowQuery(names[0], numbers[0], 0), RowQuery(names[1], numbers[1], 2), RowQuery(names[2], numbers[2], 0)]
            rows = store.read_rows(wanted)
            self.assertEqual(
                {name: row[:2] for name, row in rows.items()},
                {names[0]: (its[0], [(1, 11), (2, 12), (3, 13)]), names[1]: (None, [(3, 13)]), names[2]: (its[2], [])},
            )
            payloads = {1: b"one", 3: names[0].encode()}
            self.assertLessEqual(rows[names[0]].payloads.items(), payloads.items())
            places = {(names[0], numbers[0]): [1, 2, 3], (names[1], numbers[1]): [3]}
            self.assertEqual(store.payloads_of(places), {names[0]: payloads, names[1]: {3: names[1].encode()}})
            store.drop(names[0]), store.open(names[0], "{}")
            self.assertEqual(sorted(store.read_rows(wanted)), names[1:])
            self.assertFalse(store.payloads_of(places).get(names[0]))
            self.assertEqual(store.read_rows([]), {})

    def test_who_is_there_at_once(self):
        for store in self.listing_stores():
            session = new_session()
            store.beat(session), store.beat(session), store.name_session(session, "here 1")
            store.open(self.name, "{}")
            told = store.pulse()
            self.assertEqual((told.beats, told.names), (store.beats(), store.session_names()))
            self.assertEqual((told.beats[session], told.names[session]), (2, "here 1"))
            self.assertAlmostEqual(told.now, store.now(), 0)
            store.append(Put(self.name, 0, [(1, 11)], {}))
            self.until(lambda put=told.put: store.pulse().put > put)

    def test_who_closes_a_request(self):
        for store in self.listing_stores():
            store.open(self.name, "{}")
            store.append(Put(self.name, 0, [(1, 11)], {}))
            self.assertEqual([store.end(self.name, many) for many in (0, 2, 1, 1)], [False, False, True, False])
            store.reopen(self.name)
            self.assertIs(store.end(self.name, 1), True)
            store.drop(self.name)
            with self.assertRaises(Gone):
                store.end(self.name, 1)

    def test_a_page_of_closed_requests(self):
        for store in self.listing_stores():
            names = [f"{self.name} {k} {part}" for k in range(5) for part in ("a%", "b_")]
            for name in names:
                store.open(name, "{}")
                store.append(Put(name, 0, [(1, 11)], {}))
                store.end(name, 1)
            store.open(self.name + " open", "{}")
            found = store.closed(self.name, 4, self.name)
            self.assertEqual([it.name for it in found], names[:4])
            self.assertTrue(all(it.closed and it.opened and it.words == 1 for it in found))
            self.assertEqual([it.name for it in store.closed(names[3], 100, self.name)], names[4:])
            self.assertEqual([it.name for it in store.closed(self.name, 100, "B_") if it.name in names], names[1::2])
            self.assertGreaterEqual(len(store.closed("", 100)), 10)

    def test_names_of_sessions(self):
        for store in self.listing_stores():
            session, other = new_session(), new_session()
            opened = store.open(self.name, "{}")
            store.beat(session), store.name_session(session, "here 1"), store.name_session(session, "here 2")
            store.name_session(session, "Ada", self.name, opened.number)
            store.name_session(other, "Bob", self.name)
            self.assertEqual(store.session_names().get(session), "here 2")
            self.assertNotIn(other, store.session_names())
            self.assertEqual(store.session_names(self.name, opened.number), {session: "Ada", other: "Bob"})
            store.drop_beat(session)
            self.assertNotIn(session, store.session_names())
            self.assertEqual(store.session_names(self.name), {session: "Ada", other: "Bob"})
            store.drop(self.name)
            with self.assertRaises(Gone):
                store.name_session(session, "Ada", self.name, opened.number)
            store.open(self.name, "{}")
            self.assertEqual(store.session_names(self.name), {})

    def test_words_are_counted(self):
        for store in self.listing_stores():
            before = store.words_put()
            store.open(self.name, "{}")
            store.append(Put(self.name, 0, [(1, 11), (2, 12)], {}))
            self.until(lambda: store.words_put() >= before + 2)  # (PostgreSQL counts a little later)

    def test_an_engine_that_has_none_of_this(self):
        class Plain(Memory):
            overview, keep_glances, closed = Store.overview, Store.keep_glances, Store.closed
            name_session, session_names, words_put = Store.name_session, Store.session_names, Store.words_put

        store = Plain()
        store.open("b", text_of(Flow("flow"), f.functions)), store.open("a", "{}")
        store.end("a", 0), store.keep_glances([]), store.name_session(1, "x")
        self.assertEqual([(it.name, it.flow, it.glance) for it in store.overview()], [("b", "flow", None)])
        self.assertEqual([it.name for it in store.closed("", 9)], ["a"])
        self.assertEqual((store.session_names(), store.words_put()), ({}, None))

    def test_the_flow_in_the_head_of_a_plan(self):
        for name in ("", "order", 'a "quoted" \\ name', "x" * 100, "é\n"):
            self.assertEqual(flow_of(text_of(Flow(name), f.functions)[:400]), name)
        for head in ("", "{}", '{"cf":3,"flow":7}', '{"cf":3,"flow":"' + "x" * 500, '{"cf":3,"flow":"\\x"}'):
            self.assertEqual(flow_of(head[:400]), "")


class Glances(Case):
    lease = 0.5

    def setUp(self):
        super().setUp()
        f.held.clear()

    def tearDown(self):
        f.held.set()
        super().tearDown()

    def glance(self, store, name):
        return next((it.glance for it in store.overview() if it.name == name and it.glance is not None), None)

    def test_a_service_keeps_glances_of_what_rests(self):
        for service, name in self.each():
            store = service.store
            request = service.request(name)
            request.supply(f.load, 17).result(20)
            promise = request.promise("answer")
            promise.then(f.inc), request.supply(f.hold)
            self.until(lambda: (it := self.glance(store, name)) and it.words == store.ends()[name])
            seen = read(self.glance(store, name))
            self.assertEqual((seen.stages, seen.open, seen.tries, seen.ready), (4, 3, 0, []))
            self.assertEqual([it[1:] for it in seen.waits], [("hold", "at work"), ("answer", "pending"), ("inc", "pending")])
            (claim,) = seen.claims
            self.assertEqual((claim.stage, claim.name, claim.session), (3, "hold", service.session))
            promise.complete(1)
            self.until(lambda: (it := self.glance(store, name)) and it.words == store.ends()[name])
            again = read(self.glance(store, name))
            self.assertEqual(again.claims, seen.claims)  # since the same moment
            self.assertGreater(again.since, seen.since)
            self.assertIn(service.session, store.session_names())
            request.end()
            self.assertIsNone(self.glance(store, name))

    def test_ready_stages_by_their_functions(self):
        store = Memory()
        service = self.made(store)
        request = service.request("r")
        for _ in range(3):
            request.supply(f.load, 1)
        request.supply(f.slow, 0)
        self.until(lambda: self.glance(store, "r"))
        self.assertEqual([it[:3] for it in read(self.glance(store, "r")).ready], [("load", 1, 3), ("slow", 1, 1)])

    def test_tries(self):
        store = Memory()
        service = self.made(store)
        request = service.request("r")
        stage = request.supply(f.load, 1)
        last = stage.again(3)
        stage.fail(Abandoned("gone"))
        request[1].fail(RuntimeError("no"))
        self.until(lambda: self.glance(store, "r") and self.glance(store, "r").words == 6)
        seen = read(self.glance(store, "r"))
        self.assertEqual((seen.tries, [it[:3] for it in seen.ready]), (2, [("load", 1, 1)]))
        self.assertEqual(last.number, 3)

    def made(self, store):
        service = DurableService(store, 0, functions=f.functions, lease=self.lease)
        self.services.append(service)
        return service

    def test_a_store_that_keeps_none_holds_nobody_up(self):
        for fault in (Unknown("away"), StoreError("no")):

            class Away(Memory):
                def keep_glances(self, glances, fault=fault):
                    raise fault

            store = Away()
            service = self.made(store)
            promise = service.request("r").promise()
            beats = store.beats().get(service.session, 0)
            self.until(lambda: store.beats().get(service.session, 0) > beats + 5)
            self.assertTrue(promise.complete(1))

    def test_glances_of_many_are_kept_some_at_a_time(self):
        service, kept = DurableService(Memory(), 0, lease=1000), []
        self.services.append(service)
        self.until(lambda: service.session in service.store.beats())  # (its first beat keeps glances, too)
        for name in "abc":
            service.request(name).promise()
        with unittest.mock.patch.object(leading, "MOST_GLANCES", 2), unittest.mock.patch.object(
            service.store, "keep_glances", lambda glances: kept.append([it.request for it in glances])
        ):
            for _ in range(4):
                service.leader._keep_glances()
        self.assertEqual([len(it) for it in kept], [2, 1])
        self.assertEqual({name for names in kept for name in names}, {*"abc"})

    def test_what_is_no_glance(self):
        for said in (
            "",
            "{",
            "[]",
            "{}",
            '{"glance": 2}',
            '{"glance": 1}',
            '{"glance": 1, "stages": "x"}',
            '{"glance":1,"since":7}',
            '{"glance":1,"since":',
            ',"since":7}',
        ):
            self.assertIsNone(read(Glance("r", 1, 1, said)))
        self.assertIsNone(read(None))

    def test_glances_that_differ_by_a_moment(self):
        """.. are read once, and so is one of another version, in which more stands."""
        whole = '{"glance":1,"stages":2,"open":1,"waits":[[0,",\\"since\\":8}","ready"]],"claims":[],"ready":[],' '"tries":0,'
        seen = read(Glance("r", 1, 1, whole + '"since":7.5}'))
        self.assertEqual((seen.since, seen.waits[0].name), (7.5, ',"since":8}'))
        self.assertEqual(read(Glance("r", 1, 1, whole + '"since":8}')), seen._replace(since=8.0))
        self.assertEqual(read(Glance("r", 1, 1, whole + '"since":7.5,"more":[1]}')), seen)

    def test_a_stage_that_nobody_can_read(self):
        store = Memory()
        service = self.made(store)
        service.request("r").promise()
        store._payloads["r", 1] = b"{}"
        view = RowView(store, store.find("r"), new_session())
        view.catch_up()
        with self.assertRaises(Broken):
            glance_of(view, 0.0, None)


if __name__ == "__main__":
    unittest.main()
