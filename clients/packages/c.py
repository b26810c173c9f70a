"""For C, and for whoever runs the programs: a tar file of a prefix, which can be unpacked anywhere."""
import os
import re
import subprocess
from pathlib import Path

from about import TOP, About, told
from packing import Entry, Files, read_folder, write_tar


def install(tree: Path, to: Path) -> Files:
    """What ./install writes, and the programs that ./build has built of these sources."""
    done = subprocess.run(
        [str(tree / "install"), "--library", "/prefix"],
        env=dict(os.environ, DESTDIR=str(to)),
        stdout=subprocess.PIPE,
        stderr=subprocess.STDOUT,
        universal_newlines=True,
    )
    if done.returncode:
        raise SystemExit(f"packages: {done.stdout}")
    files = read_folder(to / "prefix")
    described = files["lib/pkgconfig/cf.pc"].data
    files["lib/pkgconfig/cf.pc"] = Entry(re.sub(rb"^prefix=.*", b"prefix=${pcfiledir}/../..", described))
    for name in ["cf", "cf_look"]:
        program = told(str(TOP / "build"), "--current", name)
        if program:
            files[f"bin/{name}"] = Entry(Path(program).read_bytes(), True)
    return files


def objects(installed: Files) -> Files:
    """The library and the programs."""
    return {name: entry for name, entry in installed.items() if entry.data and name.startswith(("bin/", "lib/libcf"))}


def make(installed: Files, dist: Path, about: About) -> None:
    """Writes the tar file."""
    name = f"cf-{about.version}-linux-x86_64"
    whole = {**installed, "PROVED": Entry(about.proved(objects(installed)))}
    files = {f"{name}/{it}": entry for it, entry in whole.items()}
    to = dist / f"{name}.tar.gz"
    write_tar(files, to, about.epoch)
    about.sbom(to, files)
