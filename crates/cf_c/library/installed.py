#!/usr/bin/env python3
"""Installs the library into a temporary prefix, and builds programs against it as others would.

    installed.py            by pkg-config, shared and static; and what is exported, the SONAME, the links, the versions, the manual
    installed.py --cmake    by CMake's find_package

It ends with status 1 where something isn't as it should be, and says what. The library is built: rt lib in crates/cf_c.
"""
import os
import re
import shutil
import subprocess
import sys
import tempfile
from pathlib import Path
from typing import Sequence

sys.dont_write_bytecode = True
from facts import TOLD, version  # noqa: E402
from nulls import declarations  # noqa: E402

TOP = Path(__file__).resolve().parents[3]
HEADER = TOP / "crates/cf_c/include/cf.h"
CC = os.environ.get("CC") or next(name for name in ["clang", "gcc"] if shutil.which(name))
CMAKE = """cmake_minimum_required(VERSION 3.13)
project(request C)
find_package(cf {version} REQUIRED CONFIG)
add_executable(shared {source})
target_link_libraries(shared cf::cf)
add_executable(static {source})
target_link_libraries(static cf::cf_static)
"""


def told(command: Sequence[str], **environment: str) -> str:
    """What a command prints. One that fails ends this."""
    pipes = {"stdout": subprocess.PIPE, "stderr": subprocess.STDOUT, "universal_newlines": True}
    done = subprocess.run(command, env={**os.environ, **environment}, **pipes)
    if done.returncode != 0:
        raise SystemExit(f"installed.py: {' '.join(command)}:\n{done.stdout}")
    return done.stdout


def same(what: str, found: object, wanted: object) -> None:
    if found != wanted:
        raise SystemExit(f"installed.py: {what}: {found!r}, and not {wanted!r}")


def by_pkg_config(prefix: Path, full: str) -> None:
    at, request, made = {"PKG_CONFIG_PATH": str(prefix / "lib/pkgconfig")}, str(TOP / "clients/c/request.c"), prefix / "made"
    same("the version of cf.pc", told(["pkg-config", "--modversion", "cf"], **at).strip(), full)
    flags = told(["pkg-config", "--cflags", "--libs", "cf"], **at).split()
    told([CC, request, *flags, "-o", f"{made}.shared"])
    told([CC, request, f"-I{prefix}/include", str(prefix / "lib/libcf.a"), "-o", f"{made}.static"])
    shared = told([f"{made}.shared"], LD_LIBRARY_PATH=str(prefix / "lib"))
    same("what the two programs print", shared, told([f"{made}.static"]))


def as_shipped(prefix: Path, full: str) -> None:
    """The links, the SONAME, and that each call of the header is exported with a version, and nothing else."""
    major, library = full.split(".")[0], prefix / f"lib/libcf.so.{full}"
    same("libcf.so", os.readlink(prefix / "lib/libcf.so"), f"libcf.so.{major}")
    same("its link", os.readlink(prefix / f"lib/libcf.so.{major}"), library.name)
    read = told(["readelf", "-d", str(library)])
    same("the SONAME", re.findall(r"SONAME.*\[(.*)\]", read), [f"libcf.so.{major}"])
    same("what it needs", re.findall(r"NEEDED.*\[(.*)\]", read), ["libc.so.6"])
    header = re.sub(r"/\*.*?\*/", "", HEADER.read_text(), flags=re.S)
    calls = {name for _, name, _ in declarations(header)} | set(TOLD.findall(header))
    exported = {line.split()[2] for line in told(["nm", "-D", "--defined-only", str(library)]).splitlines() if line.split()[1] == "T"}
    same("what is exported without its version", {name.split("@@")[0] for name in exported}, calls)
    same("what has no version", [name for name in exported if "@@CF_" not in name], [])
    pages = {path.stem for path in (prefix / "share/man/man3").iterdir()}
    same("calls without a page", calls - pages, set())
    if shutil.which("groff"):
        same(
            "the manual",
            "".join(told(["groff", "-man", "-ww", "-z", str(path)]) for path in (prefix / "share/man/man3").iterdir() if path.stat().st_size > 99),
            "",
        )


def by_cmake(prefix: Path, full: str) -> None:
    request = TOP / "clients/c/request.c"
    folder, built = prefix / "project", prefix / "built"
    folder.mkdir()
    ask = ["cmake", "-S", str(folder), "-B", str(built), f"-DCMAKE_PREFIX_PATH={prefix}", f"-DCMAKE_C_COMPILER={CC}"]
    (folder / "CMakeLists.txt").write_text(CMAKE.format(version=".".join(full.split(".")[:2]), source=request))
    told(ask)
    told(["cmake", "--build", str(built)])
    same("what the two programs print", told([str(built / "shared")]), told([str(built / "static")]))
    (folder / "CMakeLists.txt").write_text(CMAKE.format(version=int(full.split(".")[0]) + 1, source=request))
    shutil.rmtree(built)
    later = subprocess.run(ask, stdout=subprocess.PIPE, stderr=subprocess.STDOUT)
    same("whether a later version is found", later.returncode == 0, False)


def main() -> None:
    full = ".".join(version(HEADER.read_text()))
    with tempfile.TemporaryDirectory() as made:
        prefix = Path(made) / "prefix"
        told([str(TOP / "install"), "--library", str(prefix)])
        if sys.argv[1:] == ["--cmake"]:
            by_cmake(prefix, full)
        else:
            by_pkg_config(prefix, full)
            as_shipped(prefix, full)


if __name__ == "__main__":
    main()
