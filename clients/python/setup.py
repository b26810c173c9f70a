"""Builds the C module of cf.service, which has the library within. One build is for CPython 3.8 and all later versions.

The library is found in CF_LIBRARY_DIR, or by pkg-config. With libcf.a the module has the whole library within, and
nothing else is needed where it runs; with libcf.so alone that is found where it was. CF_INCLUDE names the folder of
cf.h, if that is elsewhere than here.
"""
import os
import subprocess
from pathlib import Path
from typing import List

from setuptools import Extension, setup
from setuptools.command.build_ext import build_ext
from setuptools.errors import CompileError

HEADERS = [os.environ.get("CF_INCLUDE", ""), str(Path(__file__).resolve().parents[2] / "crates/cf_c/include")]
NO_LIBRARY = """no libcf.a or libcf.so is in CF_LIBRARY_DIR ({}), and pkg-config knows none.
Name its folder: CF_LIBRARY_DIR=/folder/of/libcf.a pip install .."""
NO_COMPILER = """the C module can't be built: it takes a C compiler and Python's headers (on Debian gcc and python3-dev).
A wheel that was built elsewhere needs neither. The compiler said: {}"""


def of_package(option: str) -> List[str]:
    """What pkg-config tells of the library."""
    try:
        return subprocess.run(["pkg-config", option, "cf"], stdout=subprocess.PIPE, stderr=subprocess.DEVNULL, universal_newlines=True).stdout.split()
    except OSError:
        return []


class Build(build_ext):
    """Builds the module anew each time, since the library may be another one, and fails where it can't."""

    def build_extension(self, extension: Extension) -> None:
        """Compiles the module and links it with the library."""
        self.force = True
        extension.include_dirs = [folder for folder in HEADERS if (Path(folder) / "cf.h").is_file()]
        extension.include_dirs += [it[2:] for it in of_package("--cflags-only-I")]
        extension.extra_link_args = self._library()
        try:
            super().build_extension(extension)
        except CompileError as error:
            raise SystemExit(f"setup.py: {NO_COMPILER.format(error)}") from None

    @staticmethod
    def _library() -> List[str]:
        """What the linker is told."""
        given = os.environ.get("CF_LIBRARY_DIR", "")
        for folder in filter(None, [given, *(it[2:] for it in of_package("--libs-only-L"))]):
            whole, shared = Path(folder).resolve() / "libcf.a", Path(folder).resolve() / "libcf.so"
            if whole.is_file():
                return ["-Wl,--whole-archive", str(whole), "-Wl,--no-whole-archive"]
            if shared.is_file():
                return [str(shared), f"-Wl,-rpath,{shared.parent}"]
        raise SystemExit(f"setup.py: {NO_LIBRARY.format(given or 'which is empty')}")


MODULE = Extension("cf._cf", ["native/_cf.c"], extra_compile_args=["-O2"], py_limited_api=True)
setup(ext_modules=[MODULE], cmdclass={"build_ext": Build}, options={"bdist_wheel": {"py_limited_api": "cp38"}})
