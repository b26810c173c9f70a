"""Which tools are there to check with: compilers, interpreters, the packages of Debian, and the programs that rows call."""
import os
import re
import shutil
import subprocess
from pathlib import Path
from typing import List, Optional

from checking.crates import TOP

PROGRAMS = ["cf", "cf_look", "cf_bench"]  # that rows call
PATHS = ["rt", "python3", "cargo", "valgrind", "pkg-config", "cmake", "mypy", "black", "flake8", "clang-format", "musl-gcc", "systemd-analyze"]
BUILDS_WHEELS, MODULE = "setuptools and wheel for Python", "Python's C module"
ASGI, DJANGO, PYTEST, PROMETHEUS = "uvicorn and Starlette for Python", "Django for Python", "pytest for Python", "Prometheus's client for Python"
DEBIAN = Path("/usr/share/cargo/registry")
CRATES = ["base64", "futures", "getrandom", "hyper", "rayon", "rusqlite", "rustix", "serde", "serde_json", "tokio", "tokio-postgres", "tracing"]
DEBIANS = f"Debian's crates of {', '.join(CRATES)}"
POSTGRES = "Debian's postgresql-15 and python3-psycopg2"
JARS = Path("/usr/share/java")
JUNIT = "JUnit 5, as Debian's junit5 has it"
SQLITE_JDBC, POSTGRES_JDBC = (
    f"the driver for Java of {engine}, as Debian's {package} has it"
    for engine, package in [("SQLite", "libxerial-sqlite-jdbc-java"), ("PostgreSQL", "libpostgresql-jdbc-java")]
)
MAVEN = "Maven with plugins, as Debian's libexec-maven-plugin-java, libmaven-compiler-plugin-java and libmaven-resources-plugin-java have it"
PLUGINS = ["apache/maven/plugins/maven-compiler-plugin", "apache/maven/plugins/maven-resources-plugin", "codehaus/mojo/exec-maven-plugin"]
SLF4J = "SLF4J, as Debian's libslf4j-java has it"
NAMESPACES = "file system of its own, as unshare makes it"
SECOND = "second processor"
SQLITE = "SQLite for C, as Debian's libsqlite3-dev has it"
PACKS = "cargo that can package without a lock file"
NOTHING = "int main(void) { return 0; }\n"


def junit() -> Optional[str]:
    """The class path of JUnit 5 with its launcher."""
    parts = ["jupiter-api", "jupiter-engine", "platform-commons", "platform-engine", "platform-launcher"]
    jars = [JARS / f"{name}.jar" for name in [*(f"junit-{part}" for part in parts), "opentest4j", "apiguardian-api"]]
    return ":".join(map(str, jars)) if all(jar.is_file() for jar in jars) else None


class Tools:
    """What is there to check with; a tool is its path, and one that isn't there is left out."""

    def __init__(self, made: Path) -> None:
        self.made = made
        self.found = {name: shutil.which(name) for name in PATHS}
        self.found["rustfmt"] = self.answering(["rustfmt", "--version"])
        self.found["clippy"] = self.answering(["cargo", "clippy", "--version"])
        entered = ["unshare", "--mount", "--net", *(["--map-root-user"] if os.geteuid() else []), "mount", "-t", "tmpfs", "none", str(made)]
        self.found[NAMESPACES] = self.answering(entered)
        self.found[PACKS] = self.answering(["cargo", "package", "--exclude-lockfile", "--help"])
        self.found[SECOND] = "there" if len(os.sched_getaffinity(0)) > 1 else None
        self.found["git"] = shutil.which("git") if (TOP / ".git").exists() else None
        compilers = [self.of_kit(), "clang"]
        self.found["clang"] = self.first(compilers, "#include <stdbool.h>\n" + NOTHING, "-fsyntax-only")
        self.found["C compiler"] = self.first(["clang", "gcc"], "#include <stdlib.h>\n" + NOTHING, "-shared")
        self.found[SQLITE] = self.first(["clang", "gcc"], "#include <sqlite3.h>\n" + NOTHING, "-lsqlite3")
        self.found["binutils"] = shutil.which("ar") and shutil.which("nm") and shutil.which("objcopy")
        self.found["address sanitizer"] = self.first([*compilers, "gcc"], "#include <stdbool.h>\n" + NOTHING, "-fsanitize=address,undefined")
        javac = shutil.which("javac")
        version = subprocess.run([javac, "-version"], stdout=subprocess.PIPE, universal_newlines=True).stdout if javac else ""
        number = re.match(r"javac (\d+)", version)
        headers = javac and Path(os.path.realpath(javac)).parent.parent / "include/jni.h"
        self.found["JDK of 17 or later"] = javac if number and int(number[1]) >= 17 and headers.is_file() else None
        self.found[JUNIT] = junit()
        for name, jar in [(SQLITE_JDBC, JARS / "sqlite-jdbc.jar"), (POSTGRES_JDBC, JARS / "postgresql.jar")]:
            self.found[name] = str(jar) if jar.is_file() else None
        logging = [JARS / name for name in ["slf4j-api.jar", "slf4j-jdk14.jar"]]
        self.found[SLF4J] = ":".join(map(str, logging)) if all(jar.is_file() for jar in logging) else None
        plugins = all(Path("/usr/share/maven-repo/org", name).is_dir() for name in PLUGINS)
        self.found[MAVEN] = shutil.which("mvn") if plugins else None
        pythons = ["/usr/bin/python3", self["python3"]]
        self.found[BUILDS_WHEELS] = self.importing(pythons, "setuptools, wheel, venv, ensurepip")
        for name, modules in [(ASGI, "uvicorn, starlette"), (DJANGO, "django"), (PYTEST, "pytest"), (PROMETHEUS, "prometheus_client")]:
            self.found[name] = self.importing(pythons, modules)
        self.found["Python's own tests"] = self.importing(pythons, "test.test_concurrent_futures")
        self.found[POSTGRES] = Path("/usr/lib/postgresql/15/bin/initdb").is_file() and self.importing(pythons, "psycopg2") or None
        crates = [list(DEBIAN.glob(name + "-[0-9]*")) for name in CRATES]
        self.found[DEBIANS] = str(DEBIAN) if all(crates) else None
        browser = shutil.which("chromedriver") and (shutil.which("chromium") or shutil.which("google-chrome"))
        self.found["Chromium with its driver, selenium for Python"] = browser and self.importing(pythons, "selenium")

    def of_kit(self) -> str:
        return str(Path(os.path.realpath(self.found["rt"] or "rt")).parent.parent / "toolchain/bin/clang")

    def first(self, compilers: List[str], text: str, option: str) -> Optional[str]:
        """The first of the compilers that takes the text with this option. A kit's clang may have no headers."""
        source = self.made / "probe.c"
        source.write_text(text)
        for compiler in filter(shutil.which, compilers):
            command = [compiler, option, str(source), "-o", str(self.made / "probe")]
            if subprocess.run(command, stdout=subprocess.DEVNULL, stderr=subprocess.DEVNULL).returncode == 0:
                return compiler
        return None

    @staticmethod
    def answering(command: List[str]) -> Optional[str]:
        """The program of a command that ends with status 0. What rustup has for a part of Rust that isn't installed doesn't."""
        is_there = shutil.which(command[0]) and subprocess.run(command, stdout=subprocess.DEVNULL, stderr=subprocess.DEVNULL).returncode == 0
        return command[0] if is_there else None

    @staticmethod
    def importing(pythons: List[str], modules: str) -> Optional[str]:
        """The first of the interpreters that has these modules."""
        for python in filter(shutil.which, pythons):
            if subprocess.run([python, "-c", "import " + modules], stdout=subprocess.DEVNULL, stderr=subprocess.DEVNULL).returncode == 0:
                return python
        return None

    def add_programs(self, gated: bool) -> None:
        """The programs that the gate builds, or else those that ./build built of the sources as they are."""
        for name in PROGRAMS:
            made = TOP / f"crates/{name}/out/{name}"
            if not gated:
                pipes = {"stdout": subprocess.PIPE, "stderr": subprocess.DEVNULL, "universal_newlines": True}
                asked = subprocess.run(["./build", "--current", name], cwd=str(TOP), **pipes)
                made = TOP / asked.stdout.strip()
            self.found[name] = str(made) if gated or made.is_file() else None

    def __getitem__(self, name: str) -> str:
        return self.found.get(name) or name
