"""For Java: a local Maven repository with the jar, which has the native library in it, its sources and its Javadoc."""
import hashlib
import os
import subprocess
from pathlib import Path

from about import About
from packing import Entry, read_zip, write_zip

METADATA = """<?xml version="1.0" encoding="UTF-8"?>
<metadata>
  <groupId>cf</groupId>
  <artifactId>cf-service</artifactId>
  <versioning>
    <release>{0}</release>
    <versions>
      <version>{0}</version>
    </versions>
  </versioning>
</metadata>
"""


def make(tree: Path, library: Path, dist: Path, about: About, is_quick: bool) -> None:
    """Writes the repository into dist/maven. Without time there is no Javadoc."""
    made, folder = tree / "made/java", dist / "maven/cf/cf-service" / about.version
    command = [str(tree / "clients/java/build"), *(["--quick"] if is_quick else []), str(made)]
    environment = dict(os.environ, CF_LIBRARY_DIR=str(library))
    environment.pop("CF_JUNIT", None)
    environment.pop("CF_OPENTELEMETRY", None)
    done = subprocess.run(command, env=environment, stdout=subprocess.PIPE, stderr=subprocess.STDOUT, universal_newlines=True)
    if done.returncode:
        raise SystemExit(f"packages: {done.stdout}")
    folder.mkdir(parents=True, exist_ok=True)
    for jar in sorted(made.glob("*.jar")):
        files = read_zip(jar)
        objects = {name: entry for name, entry in files.items() if name.endswith(".so")}
        files["META-INF/PROVED"] = Entry(about.proved(objects))
        to = folder / jar.name.replace("cf-service", f"cf-service-{about.version}", 1)
        write_zip(files, to, about.epoch, "META-INF/MANIFEST.MF")
        about.sbom(to, files)
    (folder / f"cf-service-{about.version}.pom").write_bytes((made / "pom.xml").read_bytes())
    (folder.parent / "maven-metadata.xml").write_text(METADATA.format(about.version), encoding="utf-8")
    for path in [*folder.glob("*.jar"), *folder.glob("*.pom"), folder.parent / "maven-metadata.xml"]:
        for kind in ["md5", "sha1"]:
            path.with_name(f"{path.name}.{kind}").write_text(hashlib.new(kind, path.read_bytes()).hexdigest(), encoding="utf-8")
