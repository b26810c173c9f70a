#!/usr/bin/env python3
"""Values and exceptions as bytes: codecs of one's own, one that ends the program, exceptions of other processes, odd
ones.

    CF_LIBRARY=/path/to/libcf.so python3 clients/python/tests/store/test_codec.py [-v] [TEST ..]
"""
import sys
import unittest

from case import Case
from cf.store import Broken, connect, DurableService, Functions, Json, Memory, RemoteError


class Codecs(Case):
    def test_a_codec(self):
        """A codec of one's own is what writes values and exceptions."""

        class Sets(Json):
            def write(self, value):
                return super().write({"set": sorted(value)} if isinstance(value, set) else value)

            def read(self, given):
                read = super().read(given)
                return set(read["set"]) if isinstance(read, dict) and "set" in read else read

        functions = Functions()
        more = functions.function("more")(lambda them: them | {3})
        coding_service = DurableService(connect(self.address), 1, functions=functions, codec=Sets())
        self.services.append(coding_service)
        coded_promise = coding_service.request("r").promise()
        coded_promise.complete({1, 2})
        self.assertEqual(coded_promise.then(more).result(20), {1, 2, 3})

    def test_a_codec_that_ends(self):
        """Whatever a codec raises, its stage is shown, and no claim is left."""

        class Ends(Json):
            def read(self, given):
                return sys.exit("of a codec") if b"unread" in given else super().read(given)

            def write_error(self, error):
                return sys.exit("of a codec") if isinstance(error, KeyError) else super().write_error(error)

        functions = Functions()

        def fails():
            raise KeyError(1)

        fails = functions.function("fails")(fails)
        coding_service = DurableService(Memory(), 1, functions=functions, codec=Ends())
        self.services.append(coding_service)
        coded = coding_service.request("r")
        coded_promise = coded.promise()
        coded_promise.complete("unread")
        self.assertIsInstance(coded_promise.exception(60), Broken)
        error = coded.supply(fails).exception(20)
        self.assertIn("it can't be written", str(error))
        self.assertFalse(coded._row().claims())

    def test_what_json_has_not(self):
        """NaN and infinities are refused before anything is put, wherever they are given: other languages can't read
        them."""
        functions = Functions()
        function = functions.function("f")(lambda *given: float("nan"))
        coding_service = DurableService(Memory(), 1, functions=functions)
        self.services.append(coding_service)
        coded, odd = coding_service.request("r"), [float("nan"), float("inf"), -float("inf")]
        promise = coded.promise()
        for it in odd:
            for call in (
                lambda it=it: promise.complete([it]),
                lambda it=it: coded.supply(function, it),
                lambda it=it: promise.complete_on_timeout(it, 1),
                lambda it=it: coding_service.submit(function, it),
            ):
                with self.assertRaises(TypeError) as told:
                    call()
                self.assertIn("JSON has nothing for it", str(told.exception))
        self.assertEqual((coded.words_seen, len(coding_service.store.ends())), (1, 1))
        self.assertIn("JSON has nothing for it", str(coded.supply(function, 1).exception(20)))
        self.assertEqual(
            coded.supply(function, 1).exception(20).args,
            coding_service.codec.read_error(
                coding_service.codec.write_error(TypeError("JSON has nothing for it: Out of range float values are not JSON compliant"))
            ).args,
        )
        self.assertIsInstance(coding_service.codec.read_error(coding_service.codec.write_error(ValueError(odd[0]))), ValueError)

    def test_remote_errors(self):
        codec = Json()

        class Ours(Exception):
            pass

        told = codec.read_error(codec.write_error(Ours("why", object())))
        self.assertIsInstance(told, RemoteError)
        self.assertIn("Ours", str(told))
        codec.add(Ours)
        self.assertIsInstance(codec.read_error(codec.write_error(Ours("why"))), Ours)

    def test_odd_exceptions(self):
        """Whatever a function raises or gives fails its stage, and leaves no claim behind."""

        class Unshown(Exception):
            def __str__(self):
                raise TypeError("no text")

        functions, given = Functions(), [Unshown(object()), FileNotFoundError(2, "none", "\udcff"), RecursionError(), SystemExit(3)]

        @functions.function("odd")
        def odd(k):
            raise given[k]

        half = functions.function("half")(lambda: "\ud800")
        coding_service = DurableService(connect(self.address), 2, functions=functions)
        self.services.append(coding_service)
        coded = coding_service.request("r")
        told = [coded.supply(odd, k).exception(20) for k in range(4)]
        self.assertEqual([type(it) for it in told], [RemoteError, FileNotFoundError, RecursionError, SystemExit])
        self.assertEqual(told[1].filename, "\udcff")
        self.assertEqual(coded.supply(half).result(20), "\ud800")
        self.assertFalse(coded._row().claims())


if __name__ == "__main__":
    unittest.main()
