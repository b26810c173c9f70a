#!/usr/bin/env python3
"""Builds the wheel, installs it in a fresh virtual environment, imports there each module, and runs the first program and some tests of
each folder. All tests are run in the tree. Nothing is fetched.

    CF_LIBRARY_DIR=/folder/of/libcf.a python3 clients/python/tests/installed.py [FOLDER]

It is made in FOLDER, which has the environment then, in `venv`, or in a temporary one. The wheel has the C module, with
the library within, so nothing else is needed where it is installed; CF_LIBRARY is not set there. Tests run over the
module. Status 1 where something isn't as it should be.
"""
import os
import shutil
import subprocess
import sys
import tempfile
from pathlib import Path

CLIENT = Path(__file__).resolve().parents[1]


# Imports each module that the wheel has. Those that stand on others' packages are only found, where these aren't there.
IMPORTS = """
import importlib, pkgutil, cf
for it in pkgutil.walk_packages(cf.__path__, "cf.", onerror=lambda name: None):
    try:
        importlib.import_module(it.name)
    except ModuleNotFoundError as missing:
        if missing.name.split(".")[0] == "cf":
            raise
"""
SOME = [("tests/service", "test_f*.py"), ("tests/testing", "test_searches.py"), ("tests", "test_steps.py")]  # by folder


def told(folder, *command, **environment):
    """What a command prints that is run in a folder. One that fails ends this."""
    env = {name: value for name, value in os.environ.items() if name not in ("CF_LIBRARY", "PYTHONPATH")}
    pipes = {"stdout": subprocess.PIPE, "stderr": subprocess.STDOUT, "universal_newlines": True}
    done = subprocess.run([str(word) for word in command], cwd=str(folder), env=dict(env, **environment), **pipes)
    if done.returncode:
        raise SystemExit(f"installed.py: {' '.join(map(str, command))}:\n{done.stdout}")
    return done.stdout


def cannot_be_built(client, include):
    """Without its library, or with another one in its place, the module isn't built, though one of before is there."""
    with tempfile.TemporaryDirectory() as other:
        for text, why in ((None, "CF_LIBRARY_DIR=/folder/of/libcf.a"), ("garbage", "libcf.a: file format not recognized")):
            if text is not None:
                Path(other, "libcf.a").write_text(text)
            env = dict(os.environ, CF_INCLUDE=str(include), CF_LIBRARY_DIR=other, PKG_CONFIG_LIBDIR=other)
            done = subprocess.run(
                [sys.executable, "setup.py", "-q", "build_ext"],
                cwd=str(client),
                env=env,
                stdout=subprocess.PIPE,
                stderr=subprocess.STDOUT,
                universal_newlines=True,
            )
            if not done.returncode or why not in done.stdout:
                raise SystemExit(f"installed.py: built over {text or 'nothing'}:\n{done.stdout}")


def main(made):
    made.mkdir(parents=True, exist_ok=True)
    client = made / "client"
    shutil.rmtree(str(client), ignore_errors=True)  # one that an earlier run left
    shutil.copytree(str(CLIENT), str(client), ignore=shutil.ignore_patterns("*.so", "build", "*.egg-info", "__pycache__"))
    include = CLIENT.parents[1] / "crates/cf_c/include"
    told(made, sys.executable, "-m", "pip", "wheel", "--no-index", "--no-build-isolation", "--no-deps", "-w", made, client, CF_INCLUDE=str(include))
    wheel = next(made.glob("*.whl"))
    cannot_be_built(client, include)
    told(made, sys.executable, "-m", "venv", made / "venv")
    python = made / "venv/bin/python"
    told(made, python, "-m", "pip", "install", "--no-index", "--force-reinstall", wheel)
    if not wheel.name.startswith("cf-1.0.0-cp38-abi3-"):
        raise SystemExit(f"installed.py: {wheel.name} isn't for all versions of Python from 3.8 on")
    told(made, python, "-c", "from cf.store.web.server import Page; Page()")  # (page.html is there, too)
    told(made, python, CLIENT / "examples/first.py")
    told(made, python, "-c", IMPORTS)
    for folder, files in SOME:
        told(made, python, "-m", "unittest", "discover", "-s", CLIENT / folder, "-p", files, CF_INSTALLED="1")
    print(wheel.name, "is installed and runs")


if __name__ == "__main__":
    if len(sys.argv) > 1:
        main(Path(sys.argv[1]).resolve())
    else:
        with tempfile.TemporaryDirectory() as folder:
            main(Path(folder))
