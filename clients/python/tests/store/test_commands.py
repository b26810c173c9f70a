#!/usr/bin/env python3
"""The commands python3 -m cf.requests and python3 -m cf.worker.

    CF_LIBRARY=/path/to/libcf.so python3 clients/python/tests/store/test_commands.py [-v] [TEST ..]
"""
import contextlib
import io
import json
import os
import sqlite3
import subprocess
import sys
import threading
import unittest
import unittest.mock
from concurrent.futures import ThreadPoolExecutor
from pathlib import Path

from case import Case, CLIENT, HERE
import shared_functions as f
import cf.worker
from cf import requests
from cf.store import connect, DurableService, Functions, Memory, StoreError, Worker, worker


class Commands(Case):
    def run_it(self, *words):
        out, err = io.StringIO(), io.StringIO()
        with contextlib.redirect_stdout(out), contextlib.redirect_stderr(err):
            status = requests.main(["--store", self.address, *words])
        return status, out.getvalue(), err.getvalue()

    def test_requests(self):
        service = self.service()
        ordered = service.request("order 17")
        ordered.supply(f.load, 17).result(20)
        ordered.promise("answer")
        service.request("order 18").promise()
        self.assertRegex(self.run_it("list")[1], r"order 17  \d+ s  4 words  1 of 2 stages wait: 1 answer pending\n")
        self.assertIn("0 load ends: {'number': 17, 'extra': 0}", self.run_it("show", "order 17")[1])
        self.assertEqual(len(json.loads(self.run_it("show", "order 17", "--account")[1])["events"]), 4)
        (program := Path(self.folder.name, "cf_look")).write_text("#!/bin/sh\ntest $1 = page && cat\n")
        program.chmod(0o755)
        self.assertEqual(len(json.loads(self.run_it("show", "order 17", "--page", str(program))[1])["events"]), 4)
        self.assertEqual(self.run_it("show", "order 17", "--page", str(program) + "?")[0], 1)
        self.assertEqual(self.run_it("end", "order 17", "--cancel")[:2], (0, "order 17 is closed, 1 stages were cancelled\n"))
        self.assertNotIn("order 17", self.run_it("list")[1])
        self.assertIn("order 17", self.run_it("list", "--closed")[1])
        self.assertEqual(self.run_it("drop", "--days", "1")[1], "0 dropped\n")
        self.assertEqual(self.run_it("drop", "--days", "0")[1], "1 dropped\n")
        self.assertEqual(self.run_it("show", "order 17")[0], 1)
        self.assertEqual(self.run_it("end", "order 17")[0], 1)
        service.shutdown()
        db = sqlite3.connect(f"{self.folder.name}/db", isolation_level=None)
        db.execute("insert into cf_word (request, at, word, token) values (2, 5, 77, 7)")
        db.close()
        self.assertIn("order 18", self.run_it("list")[1])
        self.assertRegex(self.run_it("list")[1], "broken at place 2: no word stands there")
        self.assertEqual(self.run_it("end", "order 18", "--cancel")[0], 1)
        self.assertEqual(self.run_it("end", "order 18")[0], 0)
        self.assertEqual(self.run_it("drop", "--days", "0")[1], "1 dropped\n")
        with self.assertRaises(SystemExit):
            self.run_it("what")

    def test_a_request_is_cancelled_from_its_last_stage_on(self):
        service = self.service()
        service.request("order 19").promise("answer").recover(f.text)
        self.assertEqual(self.run_it("end", "order 19", "--cancel")[1], "order 19 is closed, 2 stages were cancelled\n")
        told = [it for it in self.run_it("show", "order 19")[1].splitlines() if "cancels" in it]
        self.assertEqual([it.split("cancels")[1] for it in told], [" 1 text", " 0 answer"])

    def test_names_forge_no_lines(self):
        service = self.service()
        for name in ("order 1\norder 2  5 s  9 words  0 of 3 stages wait", "\x1b[31mred\x1b[0m \x1b]0;title\x07", "\u202eevil"):
            service.request(name).promise("a\nforged line")
        for words in (["list"], ["show", "\u202eevil"], ["end", "\u202eevil"], ["list", "--closed"], ["show", "\x1b[1m"]):
            _, out, err = self.run_it(*words)
            self.assertEqual([it for it in (out + err).replace("\n", "") if not it.isprintable()], [], words)
        self.assertEqual(len(self.run_it("list", "--closed")[1].splitlines()), 3)

    def test_a_mistyped_path_makes_no_store(self):
        folder = Path(self.folder.name)
        (other := folder / "notes.txt").write_text("no store")
        sqlite3.connect(folder / "other.db").execute("create table t (x)").connection.close()
        (folder / "empty.db").touch()
        before = sorted(folder.iterdir())
        for path, why in (
            (folder / "nowhere.db", "there is no such file"),
            (folder, "Is a directory"),
            (other, "file is not a database"),
            (folder / "other.db", "no requests"),
            (folder / "empty.db", "no requests"),
        ):
            for words in (["list"], ["serve"]):
                with self.subTest(f"{path} {words}"):
                    done = subprocess.run(
                        [sys.executable, "-m", "cf.requests", "--store", f"sqlite:///{path}", *words],
                        stderr=subprocess.PIPE,
                        timeout=60,
                        env=dict(os.environ, PYTHONPATH=str(CLIENT)),
                    )
                    self.assertEqual((done.returncode, why in done.stderr.decode()), (2, True), done.stderr)
        with self.assertRaisesRegex(StoreError, "not a database"):
            connect(f"sqlite:///{other}")
        self.assertEqual(sorted(folder.iterdir()), before)

    def test_the_worker_command(self):
        for words in (
            ["--store", "nothing://", "shared_functions"],
            ["--store", self.address, "json"],
            ["--store", self.address, "no.such.module"],
            ["--store", self.address, "--codec", "shared_functions:functions", "shared_functions"],
        ):
            done = subprocess.run(
                [sys.executable, "-m", "cf.worker", *words],
                stderr=subprocess.PIPE,
                timeout=60,
                env=dict(os.environ, PYTHONPATH=os.pathsep.join([str(HERE), str(CLIENT)])),
            )
            self.assertEqual(done.returncode, 2, done.stderr)
            self.assertTrue(done.stderr.startswith(b"cf.worker: "), done.stderr)

    def test_a_worker_with_a_codec_that_is_told_to_end(self):
        """Its functions get exceptions by that codec. It begins nothing more, and ends without what runs for too
        long."""
        asks = DurableService(connect(self.address), 0, functions=f.functions, codec=f.codec)
        self.services.append(asks)
        ended = self.worker(more=["--codec", "shared_functions:codec", "--grace", "0.1", "--threads", "1"])
        durable = asks.request("r")
        declined = durable.supply(f.declines)
        self.assertEqual(declined.recover(f.kind).result(20), "Declined")
        self.assertIsInstance(declined.exception(20), f.Declined)
        durable.supply(f.hold)
        self.until(lambda: durable._row().claims())
        ended.terminate()
        self.assertEqual(ended.wait(20), 1)
        said = ended.stderr.read().decode()
        self.assertIn("declines has raised", said)
        self.assertIn("ends without hold (request 'r', stage 2)", said)

    def test_words_that_a_worker_needs(self):
        for words, wanted in [(["shared_functions"], "--store"), (["--store", self.address], "modules")]:
            err = io.StringIO()
            with contextlib.redirect_stderr(err), self.assertRaises(SystemExit) as told:
                cf.worker.main(words)
            self.assertEqual((told.exception.code, f"required: {wanted}" in err.getvalue()), (2, True))

    def test_a_worker_that_is_told_to_end(self):
        """It tells what it waits for, until that has ended, or it is told once more."""
        for is_told_again in (True, False):
            functions, goes, ends = Functions(), threading.Event(), threading.Event()
            waits = functions.function("waits")(lambda: goes.wait(20))
            working = Worker(Memory(), functions, 1)
            working.request("r").supply(waits)
            self.until(working.running)
            ends.set()
            with unittest.mock.patch.object(worker, "BETWEEN_TOLD", 0), self.assertLogs("cf.store", "WARNING") as logs:
                with ThreadPoolExecutor(1) as pool:
                    running = pool.submit(working.run, ends)
                    self.until(lambda: any("waits for waits (request 'r', stage 0) for" in it for it in logs.output))
                    (ends if is_told_again else goes).set()
                    self.assertEqual(running.result(20), not is_told_again)
            self.assertEqual(any("ends without waits" in it for it in logs.output), is_told_again)
            goes.set()


if __name__ == "__main__":
    unittest.main()
