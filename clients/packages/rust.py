"""For Rust: the four crates as cargo packages them, of which cf-sys carries the static library."""
import json
import os
import shutil
import subprocess
from pathlib import Path
from typing import List

from about import About
from packing import Entry, read_tar

CARRIED = "native/x86_64-unknown-linux-gnu/libcf.a"


def needs(folder: Path, crate: str) -> List[str]:
    """Which crates of others a crate can use, with their versions."""
    command = ["cargo", "metadata", "--no-deps", "--offline", "--format-version", "1"]
    told = json.loads(subprocess.run(command, cwd=str(folder), stdout=subprocess.PIPE, check=True).stdout)
    package = next(it for it in told["packages"] if it["name"] == crate)
    return [f"{it['name']} {it['req']}" for it in package["dependencies"] if not it["kind"]]


def make(tree: Path, library: Path, dist: Path, about: About) -> None:
    """Writes the crates."""
    folder, target = tree / "clients/rust", tree / "made/rust"
    carried = folder / "cf-sys" / CARRIED
    carried.parent.mkdir(parents=True)
    shutil.copyfile(str(library / "libcf.a"), str(carried))
    for crate in ["cf-sys", "cf-graph", "cf", "cf-store"]:
        objects = {CARRIED: Entry(carried.read_bytes())} if crate == "cf-sys" else {}
        (folder / crate / "PROVED").write_bytes(about.proved(objects))
        command = ["cargo", "package", "-q", "-p", crate, "--no-verify", "--offline", "--allow-dirty", "--exclude-lockfile"]
        environment = dict(os.environ, CARGO_TARGET_DIR=str(target))
        done = subprocess.run(command, cwd=str(folder), env=environment, stdout=subprocess.PIPE, stderr=subprocess.STDOUT, universal_newlines=True)
        if done.returncode:
            raise SystemExit(f"packages: {done.stdout}")
        name = f"{crate}-{about.version}.crate"
        shutil.copyfile(str(target / "package" / name), str(dist / name))
        about.sbom(dist / name, read_tar(dist / name), needs(folder, crate))
