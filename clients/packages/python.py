"""For Python: a wheel, with the C module and the library in it, and a source distribution, which is built over a library."""
import base64
import hashlib
import os
import re
import subprocess
import sys
from pathlib import Path

from about import About
from packing import Entry, Files, read_tar, read_zip, write_tar, write_zip

BUILDS = "import setuptools, wheel"
CAN_USE = ["psycopg2 (PyPI), for requests in PostgreSQL"]


def interpreter() -> str:
    """One that can build a wheel."""
    for python in [sys.executable, "/usr/bin/python3"]:
        if subprocess.run([python, "-c", BUILDS], stdout=subprocess.DEVNULL, stderr=subprocess.DEVNULL).returncode == 0:
            return python
    raise SystemExit("packages: no Python here has setuptools and wheel (Debian's python3-setuptools and python3-wheel)")


def platform(files: Files) -> str:
    """The platform's tag: the C library of glibc that the modules ask for, as PEP 600 has it."""
    asked = [int(it) for name, entry in files.items() if name.endswith(".so") for it in re.findall(rb"GLIBC_2\.(\d+)", entry.data)]
    return f"manylinux_2_{max(asked)}_x86_64"


def listed(files: Files, record: str) -> bytes:
    """The text of RECORD."""
    sums = {name: base64.urlsafe_b64encode(hashlib.sha256(entry.data).digest()).rstrip(b"=").decode() for name, entry in files.items()}
    return "".join(f"{name},sha256={sums[name]},{len(files[name].data)}\n" for name in sorted(files)).encode() + f"{record},,\n".encode()


def make_wheel(built: Path, dist: Path, about: About) -> None:
    """Writes the wheel that setup.py built, with what it says of itself and its platform."""
    files = read_zip(built)
    folder = next(name for name in files if name.endswith(".dist-info/WHEEL")).rpartition("/")[0]
    record = f"{folder}/RECORD"
    del files[record]
    tag = platform(files)
    told = files[f"{folder}/WHEEL"].data.replace(b"linux_x86_64", tag.encode())
    files[f"{folder}/WHEEL"] = Entry(told)
    files[f"{folder}/PROVED"] = Entry(about.proved({name: entry for name, entry in files.items() if name.endswith(".so")}))
    files[record] = Entry(listed(files, record))
    to = dist / built.name.replace("linux_x86_64", tag)
    write_zip(files, to, about.epoch)
    about.sbom(to, files, CAN_USE)


def make_sources(built: Path, dist: Path, about: About) -> None:
    """Writes the source distribution, with its statement."""
    folder = built.name[: -len(".tar.gz")]
    files = {**read_tar(built), f"{folder}/PROVED": Entry(about.proved({}))}
    write_tar(files, dist / built.name, about.epoch)
    about.sbom(dist / built.name, files, [f"libcf (the library for C, {about.library})", *CAN_USE])


def make(tree: Path, library: Path, dist: Path, about: About) -> None:
    """Writes both."""
    client, made = tree / "clients/python", tree / "made"
    environment = dict(os.environ, CF_LIBRARY_DIR=str(library), CF_INCLUDE=str(library.parent / "include"), SOURCE_DATE_EPOCH=str(about.epoch))
    environment["CFLAGS"] = "-g0"  # what debuggers read names the folder
    asked = ["-q", "sdist", "-d", str(made), "bdist_wheel", "-d", str(made)]
    done = subprocess.run(
        [interpreter(), "setup.py", *asked],
        cwd=str(client),
        env=environment,
        stdout=subprocess.PIPE,
        stderr=subprocess.STDOUT,
        universal_newlines=True,
    )
    if done.returncode:
        raise SystemExit(f"packages: setup.py: {done.stdout}")
    make_wheel(next(made.glob("*.whl")), dist, about)
    make_sources(next(made.glob("*.tar.gz")), dist, about)
