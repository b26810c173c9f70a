"""Accounts of requests that threads raced, and how what callers were told is judged. Each request is a row of three texts: its account, its
script, and the report of what its callers were told."""
import concurrent.futures
import ctypes
import os
import subprocess

import program

SIZE = 150  # rows in a batch
SELDOM = 50  # one script in so many is done again by `cf run`, where the library does the others


class Different(Exception):
    """What was told, and what was wanted."""


def status(main, words):
    """The status of a command: what its main function answers, or 1 at a difference, which is shown."""
    try:
        return main(words)
    except Different as difference:
        print(difference)
        return 1


def by_program(cf, script):
    """The status of `cf run`, and what it prints."""
    ran = subprocess.run([cf, "run"], input=script, stdout=subprocess.PIPE, universal_newlines=True)
    return ran.returncode, ran.stdout


def by_library(path):
    """What does a script again by cf_run_script of that libcf.so, which `cf run` calls: it gives the status, and what `cf run` prints."""
    library = ctypes.CDLL(os.path.abspath(path))

    def run(script):
        text, room, length = script.encode(), 1 << 16, ctypes.c_size_t()
        while True:
            report = ctypes.create_string_buffer(room)
            status = library.cf_run_script(text, ctypes.c_size_t(len(text)), report, ctypes.c_size_t(room), ctypes.byref(length))
            if length.value <= room:
                return status, report.raw[: length.value].decode()
            room = length.value

    return run


def judge(rows, cf, cf_look, by_library=None):
    """Compares what two programs say of each row with what the callers were told: `cf_look check` has to find that the account fits, and
    `cf run` to print the report of the script. `by_library`, if given, does most scripts again without a process for each: it gives a status
    and a report. The account of the first row has to be shown as a page, too."""
    verdicts = program.judged(cf_look, [account.rstrip("\n") for account, _, _ in rows])
    if len(verdicts) != len(rows):
        raise Different(f"cf_look check wrote {len(verdicts)} lines of {len(rows)} accounts")
    for verdict, (account, _, _) in zip(verdicts, rows):
        if verdict != "fits":
            raise Different(f"cf_look check: {verdict}\n{account}")
    fault = program.unshown(cf_look, rows[0][0])
    if fault:
        raise Different(fault)
    for k, (_, script, report) in enumerate(rows):
        status, said = by_library(script) if by_library and k % SELDOM else by_program(cf, script)
        if (status, said) != (0, report):
            raise Different(f"cf run ended with {status} and\n{said}\nwhere callers were told\n{report}\n{script}")


class Judges:
    """Judges what is added, in batches, two of them at a time, while more comes. `judge` is called with a list of what was added. What it
    raises is raised by a later `add`, or at the end."""

    def __init__(self, judge, size=SIZE):
        self.judge, self.size, self.batch, self.judged = judge, size, [], []
        self.pool = concurrent.futures.ThreadPoolExecutor(2)

    def add(self, it):
        self.batch.append(it)
        if len(self.batch) == self.size:
            self.submit()
        while len(self.judged) > 4:
            self.judged.pop(0).result()

    def submit(self):
        if self.batch:
            self.judged.append(self.pool.submit(self.judge, self.batch))
            self.batch = []

    def __enter__(self):
        return self

    def __exit__(self, kind, *_):
        with self.pool:
            if kind is None:
                self.submit()
                for each in self.judged:
                    each.result()
