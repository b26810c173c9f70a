"""What each package says of itself: the statement PROVED in it, and an SBOM beside it."""
import hashlib
import json
import os
import re
import subprocess
import sys
import time
from pathlib import Path
from typing import Any, Dict, List, NamedTuple, Optional, Sequence, Set

from packing import Files

TOP = Path(__file__).resolve().parents[2]
sys.path[:0] = [str(TOP), str(TOP / "crates/cf_c/library")]
from checking.crates import below, own  # noqa: E402
from facts import version as version_of  # noqa: E402

LIBRARY, HEADER = TOP / "crates/cf_c/out/libcf_c.a", TOP / "crates/cf_c/include/cf.h"
LINKED = "Rattle's C library for memory (liblibc_c.a)"
# Where each part has its version: all are the same, and so is each package's.
VERSIONS = {
    "clients/python/pyproject.toml": r'^version = "(.*)"',
    "clients/java/pom.xml": r"^  <version>(.*)</version>",
    "clients/java/build": r"Implementation-Version: ([\d.]+)",
    **{f"clients/rust/{it}/Cargo.toml": r'^version = "(.*)"' for it in ["cf-sys", "cf-graph", "cf", "cf-store"]},
}


def told(*command: str, folder: Path = TOP) -> str:
    """What a command prints, or nothing where it fails."""
    try:
        pipes = {"stdout": subprocess.PIPE, "stderr": subprocess.DEVNULL, "universal_newlines": True}
        done = subprocess.run(command, cwd=str(folder), **pipes)  # type: ignore[call-overload]
    except OSError:
        return ""
    text: str = done.stdout
    return "" if done.returncode else text.rstrip()


def version() -> str:
    """The version of all packages."""
    found = {file: re.findall(pattern, (TOP / file).read_text(encoding="utf-8"), re.M) for file, pattern in VERSIONS.items()}
    every: Set[str] = {it for versions in found.values() for it in versions or ["none"]}
    if len(every) != 1:
        raise SystemExit(f"packages: the versions aren't one: {found}")
    return every.pop()


def proved_sources() -> List[Path]:
    """What the library is proved and made of: the sources of the crates that it stands on, with their definitions and proofs, and C beside."""
    crates = [TOP / "crates" / name / part for name in below("cf_c", own()) for part in ["src", "specs", "proofs"]]
    files = [path for folder in crates for path in folder.rglob("*") if path.is_file()]
    return sorted([*files, HEADER, TOP / "crates.txt", *(path for path in (TOP / "crates/cf_c/library").glob("*") if path.is_file())])


def sum_of(data: bytes) -> str:
    """SHA-256, as sha256sum prints it."""
    return hashlib.sha256(data).hexdigest()


def unfit() -> List[str]:
    """Why packages of this tree can't be handed to others: what is packed has to be what a commit says."""
    why = [] if told("git", "rev-parse", "HEAD") else ["there is no commit"]
    why += [f"changed since the commit: {line[3:]}" for line in told("git", "status", "--porcelain").splitlines()]
    built = LIBRARY.stat().st_mtime
    return why + [f"the library is older than {path.relative_to(TOP)}" for path in proved_sources() if path.stat().st_mtime > built]


class About(NamedTuple):
    """What is the same in all packages of a commit."""

    version: str
    library: str  # the version of the library for C
    commit: str
    epoch: int  # seconds of the commit, which is the time of each file
    rattle: str
    gate: str
    sources: str  # a line for each, as sha256sum has them

    def proved(self, objects: Files) -> bytes:
        """The text of PROVED: `sha256sum -c --ignore-missing PROVED` checks it at the top of the commit, and within the package."""
        lines = [f"# cf {self.version} for linux-x86_64, with the library for C {self.library}", f"# commit: {self.commit}"]
        lines += [f"# proved and built by: {self.rattle}", f"# the gate: {self.gate}", "# docs/PROVED.md says what is proved, tested and trusted."]
        lines += ["# What the library is made of, at the top of the commit:", self.sources, "# What was made of it, in this package:"]
        return "\n".join([*lines, *(f"{sum_of(entry.data)}  {name}" for name, entry in sorted(objects.items()))]).encode() + b"\n"

    def sbom(self, package: Path, files: Files, needs: Sequence[str] = ()) -> None:
        """Writes the SBOM beside a package: what is in it, and which packages of others it needs or can use. No licence is named yet."""
        whole = sum_of(package.read_bytes())
        made_at = time.strftime("%Y-%m-%dT%H:%M:%SZ", time.gmtime(self.epoch))
        name, here = package.name, "SPDXRef-package"
        entries: List[Dict[str, Any]] = [
            {
                "SPDXID": f"SPDXRef-file-{at}",
                "fileName": "./" + it,
                "checksums": [{"algorithm": kind, "checksumValue": hashlib.new(kind.lower(), entry.data).hexdigest()} for kind in ["SHA1", "SHA256"]],
            }
            for at, (it, entry) in enumerate(sorted(files.items()))
            if not entry.link
        ]
        sums = sorted(it["checksums"][0]["checksumValue"] for it in entries)
        code = hashlib.sha1("".join(sums).encode()).hexdigest()
        own_package = {
            "SPDXID": here,
            "name": "cf",
            "versionInfo": self.version,
            "packageFileName": name,
            "downloadLocation": "NOASSERTION",
            "sourceInfo": f"commit {self.commit}; {self.rattle}",
            "checksums": [{"algorithm": "SHA256", "checksumValue": whole}],
            "filesAnalyzed": True,
            "packageVerificationCode": {"packageVerificationCodeValue": code},
        }
        linked = [LINKED] if any(re.search(r"\.(?:a|so)\b", it) for it in files) else []
        others: List[Dict[str, Any]] = [
            {"SPDXID": f"SPDXRef-need-{at}", "name": need, "downloadLocation": "NOASSERTION", "filesAnalyzed": False}
            for at, need in enumerate([*linked, *needs])
        ]
        related = [("SPDXRef-DOCUMENT", "DESCRIBES", here), *((here, "CONTAINS", it["SPDXID"]) for it in entries)]
        related += [(here, "CONTAINS" if it["name"] == LINKED else "DEPENDS_ON", it["SPDXID"]) for it in others]
        document = {
            "spdxVersion": "SPDX-2.3",
            "dataLicense": "CC0-1.0",  # of this list itself, as SPDX asks
            "SPDXID": "SPDXRef-DOCUMENT",
            "name": name,
            "documentNamespace": f"urn:sha256:{whole}",
            "creationInfo": {"created": made_at, "creators": ["Tool: clients/packages/make"]},
            "packages": [own_package, *others],
            "files": entries,
            "relationships": [{"spdxElementId": a, "relationshipType": kind, "relatedSpdxElement": b} for a, kind, b in related],
        }
        package.with_name(name + ".spdx.json").write_text(json.dumps(document, indent=1, sort_keys=True) + "\n", encoding="utf-8")


def about(gate: Optional[Path], why_not: Sequence[str]) -> About:
    """Reads what is to be said. Of a tree that no commit has, each package says so."""
    commit = told("git", "rev-parse", "HEAD") or "none"
    epoch = os.environ.get("SOURCE_DATE_EPOCH") or told("git", "log", "-1", "--format=%ct") or "0"
    said = "nothing is noted here of what it said"
    if gate:
        lines = gate.read_text(encoding="utf-8", errors="replace").split("\n")
        said = next((line for line in reversed(lines) if re.match(r"\d+ passed, \d+ failed$", line)), "it didn't end")
    sources: Dict[str, str] = {str(path.relative_to(TOP)): sum_of(path.read_bytes()) for path in proved_sources()}
    listed = "\n".join(f"{total}  {name}" for name, total in sorted(sources.items()))
    number = ".".join(version_of(HEADER.read_text(encoding="utf-8")))
    trial = ", changed: a trial, not for others" if why_not else ""
    return About(version(), number, commit + trial, int(epoch), told("rt", "version") or "a toolchain that isn't here", said, listed)
