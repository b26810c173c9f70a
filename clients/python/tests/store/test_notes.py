#!/usr/bin/env python3
"""Notes beside words, as a row's payloads say them in JSON, and what a further try is called with.

    CF_LIBRARY=/path/to/libcf.so python3 clients/python/tests/store/test_notes.py [-v] [TEST ..]
"""
import unittest

from case import CLIENT  # noqa: F401
from cf.plan import Plan
from cf.service.words import ATTACH, CLAIM, COMPLETE, FAIL, FINISH, GIVES, LINKS, TICK
from cf.store import Abandoned, Functions, Json
from cf.store.earlier import arguments_of_call, called_definition, first_try
from cf.store.machine import Note
from cf.store.notes import (
    ABANDONS,
    NOTHING,
    FunctionNumbers,
    TimerSaid,
    definition_in,
    moment_of,
    note_of_definition,
    note_of_word,
    read_timer,
    says_more,
    stage_of,
    write_given,
    write_timer,
)
from cf.values import Form, Outcome, Thrown

KIND, STAGE = 2**56, 2**32


class Notes(unittest.TestCase):
    def setUp(self):
        self.functions, self.codec = Functions(), Json()
        self.functions.function("g")(lambda x: x)
        self.functions.function("f")(lambda: 1)
        self.functions.function("pays", transactional=True)(lambda connection: 1)
        self.numbers = FunctionNumbers(self.functions)

    def of(self, said, form, called=None):
        return note_of_definition(said, form, called or said, self.numbers)

    def test_functions(self):
        """They are numbered from 1 on, as they are asked for, by name and version."""
        self.assertEqual([self.numbers.number(name, 1) for name in ("f", "g", "f", "h", "pays")], [1, 2, 1, 0, 3])
        self.assertEqual(self.numbers.number("f", 2), 0)
        self.assertEqual(self.numbers.function(2).name, "g")

    def test_stages(self):
        called, tries, composes = {"fn": "f", "version": 1}, {"again": 3}, {"fn": "f", "version": 1, "to": 5}
        self.assertEqual(self.of(called, Form.APPLY), Note(KIND + 1, 0))
        self.assertEqual(self.of({"fn": "h", "version": 1}, Form.APPLY), Note(KIND, 0))
        self.assertEqual(self.of({}, Form.SOURCE), NOTHING)
        self.assertEqual(self.of(tries, Form.EXCEPTIONALLY, called), Note(2 * KIND + 3 * STAGE, 0))
        self.assertEqual(self.of(composes, Form.COMPOSE), Note(3 * KIND + 5 * STAGE + 1, 0))
        self.assertEqual(self.of({"again": 6, "to": 7}, Form.EXCEPTIONALLY_COMPOSE, composes), Note(3 * KIND + 7 * STAGE + 1, 0))
        self.assertEqual(self.of(called, Form.COMPOSE), Note(3 * KIND, 0), "nobody could be given what it gives")

    def test_words(self):
        def told(word, payload):
            return note_of_word(word, payload, self.codec, 10)

        self.assertEqual(told(FINISH * KIND + LINKS * STAGE + 5, write_given(9)), Note(4 * KIND + 9 * STAGE, 0))
        self.assertEqual(told(FAIL * KIND + 1, self.codec.write_error(Abandoned("gone"))), ABANDONS)
        self.assertEqual(told(FAIL * KIND + 1, self.codec.write_error(KeyError("x"))), NOTHING)
        self.assertEqual(told(FAIL * KIND + 1, b"no json"), NOTHING)
        self.assertEqual(told(FAIL * KIND + 1, None), NOTHING)
        for word, payload in ((FINISH * KIND + LINKS * STAGE + 5, write_given(10)), (TICK * KIND, b"[]"), (TICK * KIND, b'{"stage": 1}')):
            self.assertRaises(ValueError, told, word, payload)

    def test_timers(self):
        for said in (TimerSaid(3, 70, False, None), TimerSaid(3, 70, True, b"[1,\n2]"), TimerSaid(0, 2**40, True, None)):
            self.assertEqual(read_timer(write_timer(said)), said)
            note = note_of_word(TICK * KIND, write_timer(said), self.codec, 10)
            self.assertEqual(note, Note((6 if said.gives else 5) * KIND + said.stage * STAGE, said.moment))
            self.assertEqual((stage_of(note), moment_of(note)), (said.stage, said.moment))
        self.assertIsNone(moment_of(ABANDONS))

    def test_which_words_say_more(self):
        """What a read asks the payloads of: it costs a question to the store."""
        self.assertTrue(all(map(says_more, [ATTACH * KIND, FAIL * KIND, TICK * KIND, FINISH * KIND + LINKS * STAGE])))
        self.assertFalse(any(map(says_more, [COMPLETE * KIND, CLAIM * KIND, FINISH * KIND, FINISH * KIND + GIVES * STAGE])))

    def test_definitions(self):
        self.assertEqual(definition_in(b'{"name":"p"}', 2), {"name": "p"})
        for payload in (None, b"[]", b'{"name":"p","to":2}', b'{"name":"p","again":-1}'):
            self.assertRaises(ValueError, definition_in, payload, 2)


class Earlier(unittest.TestCase):
    """A source, an apply of it, and an either of both; 1 is the place of the source's value."""

    def setUp(self):
        self.plan = Plan()
        self.plan.stage(Form.SOURCE)
        self.plan.stage(Form.APPLY, 0, function=1)
        self.plan.stage(Form.APPLY_EITHER, 0, 1, function=2)
        self.completes = COMPLETE * KIND + GIVES * STAGE + 1

    def called_with(self, words, stage, form, *of):
        return arguments_of_call(self.plan, 0, words, stage, form, of)

    def test_tries(self):
        said = [{"fn": "f"}, {}, {"again": 0}, {"again": 2}]
        self.assertEqual([first_try(said, stage) for stage in range(4)], [None, None, 0, 0])
        self.assertEqual([called_definition(said, stage) for stage in (0, 3)], [{"fn": "f"}] * 2)

    def test_what_the_claim_was_told(self):
        claims = [CLAIM * KIND + 2 * 2**48 + stage * 2**36 for stage in range(3)]
        self.assertEqual(self.called_with([self.completes, claims[1], FAIL * KIND + 1 * 2**36 + 3], 1, Form.APPLY, 0), (1,))
        self.assertEqual(self.called_with([COMPLETE * KIND, claims[1]], 1, Form.APPLY, 0), (None,))
        first, then = COMPLETE * KIND + 1 * 2**36 + GIVES * STAGE + 1, self.completes + 2
        self.assertEqual(self.called_with([first, claims[2], then], 2, Form.APPLY_EITHER, 0, 1), (1,))

    def test_a_stage_that_nobody_claimed(self):
        """It gets what its sources have: of an either the first one that has a value."""
        fails = FAIL * KIND + 2 * 2**36 + 2
        self.assertEqual(self.called_with([self.completes, fails], 2, Form.APPLY_EITHER, 0, 1), (1,))
        self.assertEqual(self.called_with([fails], 2, Form.APPLY_EITHER, 0, 1), (None,))
        self.assertEqual(self.called_with([fails], 2, Form.RUN_EITHER, 0, 1), ())
        self.assertEqual(self.called_with([FAIL * KIND + 7], 1, Form.HANDLE, 0), (Outcome(None, Thrown(7)),))


if __name__ == "__main__":
    unittest.main()
