"""The programs under test, cf and cf_look: where they are, and how they are run."""
import json
import subprocess
import sys
from pathlib import Path

TOP = str(Path(__file__).resolve().parents[2])


def built(name="cf"):
    """The program that `./build NAME` built of the sources as they are, if it did."""
    asked = subprocess.run([f"{TOP}/build", "--current", name], capture_output=True, text=True)
    return asked.stdout if asked.returncode == 0 else None


def needed(name):
    """The same, where nothing can go on without it."""
    program = built(name)
    if program is None:
        print(f"there is no program of these sources: run ./build {name} first", file=sys.stderr)
        sys.exit(2)
    return program


def run(program, words, input, **streams):
    """The status, what stands on standard output and what on standard error, of streams that weren't given."""
    if isinstance(input, str):
        input = input.encode()
    for name in ("stdout", "stderr"):
        streams.setdefault(name, subprocess.PIPE)
    ran = subprocess.run([program, *words], input=input, timeout=60, **streams)
    return ran.returncode, (ran.stdout or b"").decode(), (ran.stderr or b"").decode()


def agreeing(rows):
    """How many of the rows gave what was wanted, and how many otherwise, which it shows. Each row is a name, what is wanted and what came."""
    agreed = others = 0
    for name, wanted, gave in rows:
        if gave == wanted:
            agreed += 1
        else:
            others += 1
            print(f"{name}:\n  wanted {wanted}\n  gave   {gave}")
    return agreed, others


def example(name):
    """The text of a script under examples."""
    return Path(TOP, "examples", f"{name}.json").read_text(encoding="utf-8")


def report(name):
    """The report that stands beside it."""
    return Path(TOP, "examples", f"{name}.txt").read_text(encoding="utf-8")


def judged(program, histories):
    """The lines of the program on these histories, each a text of JSON or what it says, in one run of it."""
    text = "".join((h if isinstance(h, str) else json.dumps(h)) + "\n" for h in histories)
    ran = subprocess.run([program, "check", "--lines"], input=text, capture_output=True, text=True, timeout=600)
    assert ran.returncode in (0, 1, 2), ran.stderr
    return ran.stdout.splitlines()


def unshown(program, account):
    """Why an account, a text of JSON, isn't shown as a page; nothing where it is."""
    ran = subprocess.run([program, "page"], input=account.encode(), capture_output=True, timeout=600)
    if ran.returncode == 0 and ran.stdout.startswith(b"<!doctype html>") and ran.stdout.rstrip().endswith(b"</html>"):
        return ""
    return f"cf_look page ended with {ran.returncode}: {ran.stderr.decode()}\n{account}"
