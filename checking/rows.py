"""The rows of ./check: what each is called, which tools it needs, and the commands that it runs."""
import re
from pathlib import Path
from typing import List, NamedTuple, Optional, Sequence, Tuple

from checking.crates import TOP, edits_of_gate, own
from checking.tools import ASGI, BUILDS_WHEELS, DEBIANS, DJANGO, JUNIT, MAVEN, MODULE, NAMESPACES, PACKS, POSTGRES, POSTGRES_JDBC, PROMETHEUS
from checking.tools import PYTEST, SECOND, SLF4J, SQLITE, SQLITE_JDBC, Tools

HEADER = "crates/cf_c/include"
WARNED = ["-Wall", "-Wextra", "-pedantic", "-Werror"]
SEEN = "-gdwarf-4"  # valgrind 3.19 gives up on some programs with what clang 14 writes by -g alone
UNDER = ["-q", "--leak-check=full", "--show-leak-kinds=all", "--errors-for-leak-kinds=all", "--error-exitcode=9"]  # valgrind
BLOCK = re.compile(r"^What `([^`]+)` prints:\n+```\w*\n(.*?)^```$", re.M | re.S)


class Row(NamedTuple):
    name: str
    needs: Sequence[str]
    commands: Sequence[Sequence[str]]  # the last one's output is compared
    prints: Optional[Tuple[str, str]] = None  # a page and the name there; or a folder, with a README.md or NAME.out, and the name
    is_shown: bool = False  # whether what it prints is shown, too, where it passes


def blocks(folder: str) -> dict:
    """What programs print by a page, or by the README.md of a folder."""
    return dict(BLOCK.findall((TOP / (folder if folder.endswith(".md") else folder + "/README.md")).read_text()))


def wanted(folder: str, name: str) -> Optional[str]:
    """What a program has to print: by a file of its own, or else by a page."""
    path = TOP / folder / (Path(name).stem + ".out")
    return path.read_text(encoding="utf-8") if path.is_file() else blocks(folder).get(name)


def killed_first(words: List[str]) -> List[str]:
    """A worker over a file beside it, which is killed, and then another one, which goes on."""
    return ["sh", "-c", 'rm -f "$0"*; ! "$@" "$0" die && "$@" "$0"', words[-1] + ".db", *words]


def rows_of_c(tools: Tools, made: Path) -> List[Row]:
    rows = []
    for name in sorted(path.name for path in (TOP / "clients/c").glob("*.c")):
        plain, checked, watched = (str(made / (name[:-2] + end)) for end in ("", ".asan", ".valgrind"))
        is_stored = name == "host_of_a_store.c"
        needs, linked = (["library", SQLITE], ["-lsqlite3"]) if is_stored else (["library"], [])
        rest = ["-std=c11", "-O1", SEEN, "-pthread", *WARNED, "-I" + HEADER, "clients/c/" + name, str(made / "libcf.a"), *linked, "-o"]
        prints = ("clients/c", name)
        run = killed_first if is_stored else lambda words: words
        rows.append(Row(name, [*needs, "clang"], [[tools["clang"], *rest, plain], run([plain])], prints))
        sanitized = [tools["address sanitizer"], "-fsanitize=address,undefined", "-fno-sanitize-recover=undefined", *rest, checked]
        rows.append(Row(name + " with the sanitizers", [*needs, "address sanitizer"], [sanitized, run([checked])], prints))
        under = [[tools["clang"], *rest, watched], run([tools["valgrind"], *UNDER, watched])]
        rows.append(Row(name + " under valgrind", [*needs, "clang", "valgrind"], under, prints))
    return rows


def freed(tools: Tools, made: Path, program: str, word: str, given: str) -> Row:
    """A program frees all that it took. What the programs' compiler writes for debuggers is more than valgrind 3.19 can read."""
    bare = str(made / f"{program}-{word}")
    under = ["sh", "-c", 'exec "$@" < "$0"', given, tools["valgrind"], *UNDER, bare, word]
    return Row(f"{program} {word} under valgrind", [program, "valgrind", "binutils"], [["objcopy", "--strip-debug", tools[program], bare], under])


OVER_STORES = ["test_stores", "test_transactions", "test_durable_stages", "test_closing"]  # Python's tests of whichever store there is


def rows_of_python(tools: Tools, made: Path) -> List[Row]:
    """They run in the tree, where `check` builds the C module, and one of them as the wheel installs it."""
    python, tested = tools["python3"], "Python's own tests"

    def example(name: str, file: str, page: str = "clients/python") -> Row:
        """A program of the client's pages, run in the tree."""
        return Row(name, [MODULE, "python3"], [["env", "PYTHONPATH=clients/python", python, f"clients/python/examples/{file}"]], (page, file))

    def over(name: str, needed: str, test: str) -> Row:
        """A test of what stands over others' packages, run by the interpreter that has them."""
        return Row(name, [MODULE, "python3", needed], [[python if needed == "systemd-analyze" else tools[needed], f"clients/python/tests/{test}"]])

    durable = f"{python} {TOP}/clients/python/examples/durable.py"  # (which leaves a file where it runs)
    killed = f"cd {made} && rm -f orders.db* && ({durable} killed; {durable})"
    return [
        Row(
            "Python's order whose process is killed",
            [MODULE, "python3"],
            [["env", f"PYTHONPATH={TOP}/clients/python", "sh", "-c", killed]],
            ("README.md", "durable.py"),
        ),
        example("Python's example", "example.py", "clients/python/examples"),
        example("Python's handler on an event loop", "async_handler.py"),
        example("Python's handler of eight backends", "eight_backends.py", "clients/python/examples"),
        example("Python's first program", "first.py", "README.md"),
        example("Python's spans in a file", "traced.py", "docs/HISTORIES.md"),
        example("Python's order of three processes", "order.py", "docs/STORES.md"),
        example("Python's order whose bank is away", "retry.py", "docs/STORES.md"),
        example("Python's orders in an event loop", "handler.py", "docs/STORES.md"),
        example("Python's order in a store, whose client hangs up", "hangs_up.py", "clients/python/examples"),
        example("Python's order that charges twice", "twice.py", "docs/TESTING.md"),
        example("Python's orders that charge once", "once.py", "clients/python/examples"),
        example("Python's order over a store that charges twice", "killed.py", "docs/TESTING.md"),
        example("Python's orders over a store that charge once", "keyed.py", "clients/python/examples"),
        over("Python's application of ASGI", ASGI, "frameworks/test_asgi.py"),
        over("Python's view of Django", DJANGO, "frameworks/test_django.py"),
        over("Python's metrics as Prometheus reads them", PROMETHEUS, "frameworks/test_prometheus.py"),
        over("the units of systemd for worker and page", "systemd-analyze", "frameworks/test_systemd.py"),
        Row(
            "Python's test of pytest in every order",
            [MODULE, PYTEST],
            [["env", "PYTHONPATH=clients/python", tools[PYTEST], "-m", "pytest", "-qp", "no:cacheprovider", "clients/python/examples/test_order.py"]],
        ),
        Row(
            "services of Python's in every order", [MODULE, "python3"], [[python, "-m", "unittest", "discover", "-s", "clients/python/tests/testing"]]
        ),
        Row(
            "random orders of Python's service beside explore",
            [MODULE, "python3", "cf_look"],
            [[python, "conformance/clients/python-orders", "short", "0", "100", tools["cf_look"]]],
        ),
        Row(
            "Python's service",
            [MODULE, "python3"],
            [["env", "CF_REQUESTS=2000", python, "-m", "unittest", "discover", "-s", "clients/python/tests/service"]],
        ),
        Row("what Python's service decides over a store", [MODULE, "python3"], [[python, "clients/python/tests/decisions/test_decisions.py"]]),
        Row("what waits in Python's service, in every order", [MODULE, "python3"], [[python, "clients/python/tests/waits/test_waits.py"]]),
        Row(
            "Python's service as its wheel installs it",
            ["library", BUILDS_WHEELS],
            [[tools[BUILDS_WHEELS], "clients/python/tests/installed.py", str(made / "python")]],
        ),
        Row(
            "random requests of Python's service",
            [MODULE, "python3", "cf", "cf_look"],
            [[python, "conformance/clients/python-service", "0", "1000", tools["cf"], tools["cf_look"]]],
        ),
        Row("Python's requests in SQLite", [MODULE, "python3"], [[python, "-m", "unittest", "discover", "-s", "clients/python/tests/store"]]),
        Row(
            "Python's requests in PostgreSQL",
            [MODULE, "python3", POSTGRES],
            [["env", "PYTHONPATH=clients/python/tests/store", tools[POSTGRES], "conformance/stores/over", "python3", "-m", "unittest", *OVER_STORES]],
        ),
        Row(
            "requests in SQLite whose processes are killed",
            [MODULE, "python3", "cf_look"],
            [[python, "conformance/stores/engines", "short", str(made / "engines"), tools["cf_look"]]],
        ),
        Row(
            "some of CPython's tests over Python's service",
            [MODULE, tested],
            [
                [
                    tools[tested],
                    "conformance/clients/python-suites",
                    "FutureTests",
                    "ThreadPoolExecutorTest",
                    "ToThreadTests",
                    "TestTaskGroup",
                    "TimeoutTests",
                ]
            ],
        ),
        Row("Python's ledgers, steps and workers", [MODULE, "python3"], [[python, "-m", "unittest", "discover", "-s", "clients/python/tests"]]),
        Row("the reference of Python's package", [MODULE, "python3"], [[python, "clients/python/reference", str(made / "reference")]]),
        Row(
            "the types of Python's module",
            ["mypy", "python3"],
            [
                [python, "clients/python/tests/typed.py"],
                [tools["mypy"], "--strict", "--cache-dir", str(made / "mypy"), "clients/python/cf", "clients/python/tests/typed.py"],
            ],
        ),
    ]


def rows_of_requests(tools: Tools, made: Path) -> List[Row]:
    """The machine of a request beside a plain one, and the types of this."""
    folder = "conformance/requests"
    parts = sorted(str(path.relative_to(TOP)) for path in (TOP / folder).glob("*.py"))
    typed = [tools["mypy"], "--strict", "--allow-untyped-calls", "--follow-imports=silent", "--cache-dir", str(made / "mypy-requests")]
    return [
        Row("random hosts of the machine of a request", ["library", "python3"], [[tools["python3"], folder + "/hosts", "0", "500"]]),
        Row(
            "histories that the library tells",
            ["library", "python3", "cf_look"],
            [[tools["python3"], folder + "/told", "0", "300", tools["cf_look"]]],
        ),
        Row(
            "the types of the plain machine and its hosts",
            ["mypy", "python3"],
            [["env", "MYPYPATH=clients/python", *typed, "conformance/common/machine.py", *parts, folder + "/hosts"]],
        ),
        Row("the types of what compares histories", ["mypy", "python3"], [["env", "MYPYPATH=clients/python", *typed, folder + "/told"]]),
        Row("random sessions of a row, by their views", ["library", "python3"], [[tools["python3"], "conformance/stores/views", "0", "200"]]),
        Row("the types of what compares views", ["mypy", "python3"], [["env", "MYPYPATH=clients/python", *typed, "conformance/stores/views"]]),
    ]


def rows_of_rust(tools: Tools, made: Path) -> List[Row]:
    """Without the crates of others, so that nothing but the project's own is built, and over Debian's with all features, which are built once."""
    python, offline, needs = tools["python3"], "clients/rust/offline", ["library", "cargo", "python3"]
    features = [f"cf/{it}" for it in ["rayon", "serde", "testing", "tokio", "tracing"]]
    features += [f"cf-store/{it}" for it in ["etcd", "postgres", "sqlite", "testing"]]  # (all but `dynamic` of cf-sys)
    over_debian, with_all = [python, offline, "--debian"], ["-q", "--workspace", "--features", ",".join(features)]
    stored, order, orders = [*needs, DEBIANS], made / "cargo/debian/debug/examples/order", made / "rust-orders.db"
    run = ["eight_backends", "handler", "hangs_up", "killed", "keyed", "served"]
    built = [*over_debian, "build", *with_all, *(word for name in run for word in ("--example", name))]
    every = ["--workspace", "--all-features"]
    lints = [*every, "--all-targets", "--", "-D", "warnings"]
    over_stores = ["again", "ends", "flows", "postgres", "questions", "sqlite", "transactions", "whole"]
    sources = sorted(str(path.relative_to(TOP)) for path in (TOP / "clients/rust").glob("cf*/**/*.rs"))

    def example(name: str, file: str, page: str, *words: str) -> Row:
        """A program of a page that needs no crate of others."""
        return Row(name, needs, [[python, offline, "run", "-q", *words, "--example", file]], (page, file + ".rs"))

    def over_all(name: str, file: str, page: str) -> Row:
        """One that is built with all features."""
        return Row(name, stored, [built, [str(order.parent / file)]], (page, file + ".rs"))

    return [
        Row("the layout of Rust's sources", ["rustfmt"], [["rustfmt", "--check", "--edition", "2021", *sources]]),
        Row("what clippy says of Rust's sources", ["cargo", "python3", "clippy", DEBIANS], [[*over_debian, "clippy", "-q", *lints]]),
        Row("Rust's tests", needs, [[python, offline, "test", "-q", "--lib", "--tests", "--examples"]]),
        Row(
            "Rust's tests with all features, over SQLite, over etcd and in every order",
            [*stored, MODULE, "cf_look"],
            [
                [*over_debian, "test", *with_all, "--lib", "--tests", "--no-run"],
                ["env", f"CF_LOOK={tools['cf_look']}", *over_debian, "test", *with_all, "--lib", "--tests"],
            ],
        ),
        Row(
            "Rust's requests in PostgreSQL",
            [*stored, MODULE, POSTGRES],
            [
                [tools[POSTGRES], "conformance/stores/over", "python3", offline, "--debian", "test", *with_all]
                + [word for name in over_stores for word in ("--test", name)]
            ],
        ),
        Row("what Rust's service decides over a store", stored, [[*over_debian, "test", *with_all, "--lib", "decisions"]]),
        Row("the examples of Rust's pages", stored, [[*over_debian, "test", *with_all, "--doc"]]),
        Row("the reference of Rust's crates", stored, [["env", "RUSTDOCFLAGS=-D warnings", *over_debian, "doc", "-q", "--no-deps", *every]]),
        Row(
            "Rust's order whose process is killed",
            stored,
            [
                [*over_debian, "build", "-q", "-p", "cf-store", "--features", "sqlite", "--example", "order"],
                ["sh", "-c", f"rm -f {orders}* && ! {order} {orders} die && {order} {orders}"],
            ],
            ("clients/rust", "order.rs"),
        ),
        over_all("Rust's orders under tokio", "handler", "clients/rust"),
        over_all("Rust's order over a store that charges twice", "killed", "clients/rust/cf-store/examples"),
        over_all("Rust's orders over a store that charge once", "keyed", "clients/rust/cf-store/examples"),
        *([] if tools.found[DEBIANS] else rows_without_debian(python, offline, needs)),
        example("Rust's order that charges twice", "twice", "clients/rust/cf/examples", "-p", "cf", "--features", "testing"),
        example("Rust's orders that charge once", "once", "clients/rust/cf/examples", "-p", "cf", "--features", "testing"),
        Row(
            "random orders of Rust's requests beside explore",
            [*needs, "cf_look"],
            [[python, "conformance/clients/rust-orders", "short", "0", "100", tools["cf_look"]]],
        ),
        example("Rust's order whose bank is away", "retry", "clients/rust/GUIDE.md", "-p", "cf"),
        over_all("Rust's server of hyper's that asks eight backends", "eight_backends", "clients/rust/cf/examples"),
        over_all("Rust's server of hyper's, whose client hangs up", "served", "clients/rust/cf/examples"),
        over_all("Rust's server over a store, whose client hangs up", "hangs_up", "clients/rust/cf-store/examples"),
        example("Rust's spans", "traced", "clients/rust/cf/examples", "-p", "cf"),
        example("Rust's first program", "first", "clients/rust", "-p", "cf"),
        Row(
            "random requests of Rust's crate",
            [*needs, "cf", "cf_look"],
            [[python, "conformance/clients/rust-requests", "0", "100", tools["cf"], tools["cf_look"]]],
        ),
        example("Rust's example", "request", "clients/rust/cf-graph/examples", "-p", "cf-graph"),
    ]


def rows_without_debian(python: str, offline: str, needs: List[str]) -> List[Row]:
    """What the rows over Debian's crates run, too, as far as it needs no crate of others."""
    return [
        Row(
            "services of Rust's in every order",
            needs,
            [[python, offline, "test", "-q", "-p", "cf", "--features", "testing", "--lib", "--test", "orders"]],
        ),
        Row("the examples of Rust's pages, without crates of others", needs, [[python, offline, "test", "-q", "--doc", "--features", "cf/testing"]]),
    ]


def rows_of_java(tools: Tools, made: Path) -> List[Row]:
    """The jar, with the library in it, is built once, by the first row."""
    javac, jar, tests = tools["JDK of 17 or later"], str(made / "java/cf-service.jar"), str(made / "java/tests")
    needs = ["library", "C compiler", "JDK of 17 or later"]
    sources = sorted(str(path) for part in ["test", "example", "opentelemetry"] for path in (TOP / "clients/java" / part).rglob("*.java"))
    junit, every_order = tools.found.get(JUNIT) or "", str(made / "java/junit")
    slf4j, logged = tools.found.get(SLF4J) or "", str(made / "java/slf4j")
    built = [
        ["env", "JAVAC=" + javac, "CF_JUNIT=" + junit, "clients/java/build", "--quick", str(made / "java")],
        [javac, "-nowarn", "-encoding", "UTF-8", "-cp", jar, "-d", tests, *sources],
    ]
    drivers = [tools.found[it] for it in [SQLITE_JDBC, POSTGRES_JDBC] if tools.found[it]]  # (Java's tests leave out what they have none for)
    java = [str(Path(javac).parent / "java"), "-Xmx64m", "-XX:+UseSerialGC", "-XX:TieredStopAtLevel=1", "-cp", ":".join([jar, tests, *drivers])]
    looks = ["cf_look"] if tools.found.get("cf_look") else []  # (the tests leave out what it judges; where rt ci builds it, they wait for that)
    orders, order = made / "java-orders.db", " ".join(java + ["Order"])
    shop, worker = made / "java-shop.db", " ".join(java + ["Worker"])
    made_table = f"import sqlite3; sqlite3.connect('{shop}').execute('create table payment (cents integer)')"
    return [
        Row("Java's service", [*needs, *looks], [*built, [*java, *(f"-Dcf.look={tools[it]}" for it in looks), "cf.service.AllTests"]]),
        Row("what Java's service decides over a store", needs, [[*java, "cf.service.AllTests", "what a process decides over a store"]]),
        Row("Java's first program", needs, [[*java, "First"]], ("clients/java", "First")),
        Row(
            "Java's handler",
            [*needs, "python3"],
            [[tools["python3"], "checking/served.py", "/quote?10", "/quote?5000", "--", *java, "Handler", "0"]],
            ("clients/java", "curl"),
        ),
        Row("the listings of Java's guide", needs, [[*java, "Guide"]]),
        Row("Java's handler of eight backends", needs, [[*java, "EightBackends"]], ("clients/java/example", "EightBackends")),
        Row("Java's spans", needs, [[*java, "Traced"]], ("clients/java/example", "Traced")),
        Row("Java's meter, as a bean", needs, [[*java, "Metered"]], ("clients/java/example", "Metered")),
        Row(
            "Java's log by SLF4J",
            [*needs, SLF4J],
            [
                [javac, "-Xlint:all,-path", "-Werror", "-encoding", "UTF-8", "-cp", f"{jar}:{slf4j}", "-d", logged, "clients/java/slf4j/Logged.java"],
                [
                    "sh",
                    "-c",
                    'exec "$@" 2>&1',
                    "sh",
                    *java[:-1],
                    f"{jar}:{logged}:{slf4j}",
                    "-Djava.util.logging.SimpleFormatter.format=%5$s%n",
                    "Logged",
                ],
            ],
            ("clients/java/slf4j", "Logged"),
        ),
        Row(
            "Java's order that waits for an approval",
            [*needs, SQLITE_JDBC],
            [["sh", "-c", f"rm -f {orders}* && {order} {orders} && {order} {orders} Ada && {order} {orders}"]],
            ("clients/java", "Order"),
        ),
        Row("Java's order in a store, whose client hangs up", [*needs, SQLITE_JDBC], [[*java, "HangsUp"]], ("clients/java/example", "HangsUp")),
        Row(
            "Java's worker that runs alone",
            [*needs, "python3", SQLITE_JDBC],
            [
                [
                    "sh",
                    "-c",
                    f"rm -f {shop}* && {tools['python3']} -c \"{made_table}\" && {{ {worker} jdbc:sqlite:{shop} & }} && "
                    f"timeout 60 {worker} jdbc:sqlite:{shop} 'order 17'; kill $!",
                ]
            ],
            ("clients/java/GUIDE.md", "Worker"),
        ),
        Row(
            "Java's requests in PostgreSQL",
            [*needs, POSTGRES, POSTGRES_JDBC],
            [[tools[POSTGRES], "conformance/stores/over", *java, "cf.service.AllTests"]],
        ),
        Row("Java's order that charges twice", needs, [[*java, "Twice"]], ("clients/java/example", "Twice")),
        Row("Java's orders that charge once", needs, [[*java, "Once"]], ("clients/java/example", "Once")),
        Row("Java's process that is killed in every order", needs, [[*java, "Killed"]], ("clients/java/example", "Killed")),
        Row("Java's charge with a key in every order", needs, [[*java, "Keyed"]], ("clients/java/example", "Keyed")),
        Row(
            "Java's tests of JUnit in every order",
            [*needs, JUNIT],
            [
                [
                    javac,
                    "-Xlint:all",
                    "-Werror",
                    "-encoding",
                    "UTF-8",
                    "-cp",
                    f"{jar}:{made}/java/cf-service-junit.jar:{junit}",
                    "-d",
                    every_order,
                    "clients/java/junit/test/cf/testing/junit/EveryOrderTest.java",
                ],
                [*java[:-1], f"{jar}:{made}/java/cf-service-junit.jar:{every_order}:{junit}", "cf.testing.junit.EveryOrderTest"],
            ],
        ),
        Row(
            "random orders of Java's service beside explore",
            [*needs, "python3", "cf_look"],
            [[tools["python3"], "conformance/clients/java-orders", "short", jar, "0", "100", tools["cf_look"]]],
        ),
        Row(
            "random requests of Java's service",
            [*needs, "python3", "cf", "cf_look"],
            [[tools["python3"], "conformance/clients/java-service", jar, "0", "1000", tools["cf"], tools["cf_look"]]],
        ),
    ]


def rows_of_languages(tools: Tools, made: Path) -> List[Row]:
    """Requests that processes in three languages share. The jar is built once more, since rows of Java's may run at the same time."""
    python, javac, jar, classes = (
        tools["python3"],
        tools["JDK of 17 or later"],
        str(made / "languages/cf-service.jar"),
        str(made / "languages/classes"),
    )
    java = f"{Path(javac).parent / 'java'} -Xmx64m -XX:+UseSerialGC -XX:TieredStopAtLevel=1 -cp {jar}:{classes}:{tools[SQLITE_JDBC]} Faults"
    workers = [f"CF_RUST_FAULTS={made / 'cargo/debian/debug/examples/faults'}", *([f"CF_JAVA_FAULTS={java}"] if tools.found[SQLITE_JDBC] else [])]
    return [
        Row(
            "requests in SQLite that three languages share",
            [MODULE, "C compiler", "cargo", DEBIANS, "JDK of 17 or later", "python3", "cf_look"],
            [
                [python, "clients/rust/offline", "--debian", "build", "-q", "-p", "cf-store", "--features", "sqlite", "--example", "faults"],
                ["env", "JAVAC=" + javac, "clients/java/build", "--quick", str(made / "languages")],
                [
                    javac,
                    "-Xlint:all",
                    "-Werror",
                    "-encoding",
                    "UTF-8",
                    "-cp",
                    jar,
                    "-d",
                    classes,
                    *(f"clients/java/example/{name}.java" for name in ["Faults", "Address"]),
                ],
                ["env", *workers, python, "conformance/stores/engines", "languages", str(made / "languages/run"), tools["cf_look"]],
            ],
        )
    ]


def rows_of_packages(tools: Tools, made: Path) -> List[Row]:
    """What others install is made twice, and is the same; then it is installed where nothing else is, and its page's first program runs. What
    is tried in two ways is made by the row before, which shares a tool of IN_TURN."""
    python, javac, builds = tools["python3"], "JDK of 17 or later", BUILDS_WHEELS
    made_of = [
        ("c", "C", ["pkg-config"], ("clients/c", "request.c")),
        ("python", "Python", [builds], ("README.md", "first.py")),
        ("java", "Java", [javac], ("clients/java", "First")),
        ("rust", "Rust", ["cargo", PACKS], ("clients/rust", "first.rs")),
    ]
    rows, needs = [], ["library", "rt", "C compiler", "binutils", "python3", NAMESPACES]
    for language, name, more, prints in made_of:
        folder, with_builds = str(made / "packages" / language), tools[builds] if language == "python" else python
        make = ["env", "JAVAC=" + tools[javac], with_builds, "clients/packages/make", "--trial", "--quick", "--twice", "--only", language, folder]
        rows.append(Row(f"the package for {name}", [*needs, *more], [make, [python, "clients/packages/try", language, folder]], prints))
    sdist, tried = str(made / "packages/sdist"), [python, "clients/packages/try"]
    commands = [
        [tools[builds], "clients/packages/make", "--trial", "--quick", "--only", "c", sdist],
        ["sh", "-c", f"cp {made}/packages/python/*.tar.gz {sdist}"],
        [*tried, "sdist", sdist],
    ]
    rows.append(Row("Python's source distribution over a library", [*needs, builds], commands, ("README.md", "first.py")))
    commands = [[*tried, "maven", str(made / "packages/java")]]
    rows.append(Row("a project of Maven over the package for Java", [*needs, javac, MAVEN], commands, ("clients/java", "First")))
    at = "clients/packages"
    parts = [sorted(str(path.relative_to(TOP)) for path in (TOP / at).glob("*.py")), [f"{at}/make"], [f"{at}/try"], [f"{at}/container"]]
    typed = [tools["mypy"], "--strict", "--follow-imports=silent", "--cache-dir", str(made / "mypy-packages")]
    commands = [["env", f"MYPYPATH={at}:crates/cf_c/library:.", *typed, *its] for its in parts]
    return [*rows, Row("the types of what makes packages", ["mypy", "python3"], commands)]


def rows_of_mutants(tools: Tools, made: Path) -> List[Row]:
    """The rules by which sweeps/mutants/try changes the clients. It isn't run over them."""
    typed = [tools["mypy"], "--strict", "--follow-imports=silent", "--cache-dir", str(made / "mypy-mutants")]
    return [
        Row("the mutants of the examples", ["python3", "JDK of 17 or later"], [["sweeps/mutants/try", "--examples"]]),
        Row("the exceptions of mutants, read", ["python3", "JDK of 17 or later"], [["sweeps/mutants/try", "--read"]]),
        Row(
            "the types of what makes mutants",
            ["mypy", "python3"],
            [
                ["env", "MYPYPATH=sweeps/mutants:.", *typed, *its]
                for its in [["sweeps/mutants/try", "sweeps/mutants/mutating"], ["sweeps/edits/clients"], ["clients/engines/generate"]]
            ],
        ),
    ]


def rows_of_lint() -> List[Row]:
    python, c, java = ["black", "flake8"], ["clang-format"], ["JDK of 17 or later", JUNIT, SLF4J]
    return [
        Row(f"{name} as its usual tools want it", ["git", "python3", *needs], [["sweeps/lint", name.lower()]])
        for name, needs in [("Python", python), ("C", c), ("Java", java)]
    ]


def edited() -> List[str]:
    """The crates whose wrong bodies are tried together."""
    return [name for name in sorted(own()) if edits_of_gate(name)]


def rows_of_edits() -> List[Row]:
    return [Row(f"wrong bodies of {name}", ["rt", f"proofs below {name}"], [["sweeps/edits/crates", "--gate", name]]) for name in edited()]


def rows(tools: Tools, made: Path, is_gate: bool) -> List[Row]:
    header, clang, browser = HEADER + "/cf.h", tools["clang"], "Chromium with its driver, selenium for Python"
    compiling = [clang, "-std=c11", "-O1", *WARNED, "-I" + HEADER]
    ample, asked, meets, overlapping = (
        [*compiling, name + ".c", str(made / "libcf.a"), "-pthread", "-o", str(made / Path(name).name)]
        for name in ["sweeps/ample", "sweeps/bytes", "sweeps/meets", "conformance/desks/overlaps"]
    )
    static = ["-static", "-std=c11", "-O1", "-I" + HEADER, "clients/c/request.c", str(made / "libcf.a")]
    over_musl = [tools["musl-gcc"], *static, "-o", str(made / "request.musl")]
    return [
        *(rows_of_edits() if is_gate else []),
        Row("the edits of the crates, read", ["python3"], [["sweeps/edits/crates", "--read"]]),
        Row("the edits that spoil the clients, read", ["python3"], [["sweeps/edits/clients", "--read"]]),
        Row("the lines of clients that answer what the library knows", ["python3"], [["sweeps/boundary"]]),
        Row("what the clients ask of engines, as it is generated", ["python3"], [["clients/engines/generate", "--check"]]),
        *rows_of_mutants(tools, made),
        *rows_of_lint(),
        Row("rows that fail", ["python3"], [[tools["python3"], "-m", "unittest", "checking.test_running"]]),
        Row("what a program can check of the pages", ["python3"], [["sweeps/pages"]]),
        Row("where want of memory is told, and that nothing is kept from being freed", ["python3"], [["sweeps/memory"]]),
        Row("what of sweeps and conformance waits for a run", ["python3", "git"], [["sweeps/runs"]], is_shown=True),
        Row("cf.h and the proved exports", ["python3"], [["crates/cf_c/library/same.py"]]),
        Row("cf.h as C11", ["clang"], [[clang, "-std=c11", "-xc", *WARNED, "-fsyntax-only", "-include", header, "/dev/null"]]),
        Row("cf.h as C++17", ["clang"], [[clang, "-std=c++17", "-xc++", *WARNED, "-fsyntax-only", "-include", header, "/dev/null"]]),
        *rows_of_c(tools, made),
        Row("the library as it is installed", ["library", "C compiler", "pkg-config"], [["crates/cf_c/library/installed.py"]]),
        Row("the library by CMake", ["library", "C compiler", "cmake"], [["crates/cf_c/library/installed.py", "--cmake"]]),
        Row("a static program over musl", ["library", "musl-gcc"], [over_musl, [str(made / "request.musl")]], ("clients/c", "request.c")),
        Row("calls of all sizes in ample memory", ["library", "clang"], [ample, [str(made / "ample"), "short"]]),
        Row("the memory that calls ask for", ["library", "clang"], [asked, [str(made / "bytes")]]),
        Row("callers that meet while others leave", ["library", "clang"], [meets, [str(made / "meets")]]),
        Row("what calls from C cost, in instructions", ["library", "C compiler", "valgrind", "python3"], [["bench/library/counts", "--check"]]),
        Row(
            "what stages cost in the product, in instructions",
            ["cf_bench", "valgrind", "python3"],
            [["env", "-u", "CF_LIBRARY_DIR", "bench/library/counts", "--check", tools["cf_bench"]]],
        ),
        freed(tools, made, "cf_look", "explore", "examples/explore/complete-or-cancel.json"),
        freed(tools, made, "cf", "race", "examples/race-fan-out.json"),
        Row("calls of threads that overlap, in real time", ["library", "clang", SECOND], [overlapping, [str(made / "overlaps"), "20000"]]),
        Row("rows of scripts and their reports", ["cf", "cf_look"], [["tests/rows", tools["cf"], tools["cf_look"]]]),
        Row("calls that stand in their callers' code", ["cf_bench", "binutils"], [["sweeps/inline", tools["cf_bench"]]]),
        Row(
            "races whose threads are refused",
            ["cf", "C compiler"],
            [["env", "CC=" + tools["C compiler"], "sweeps/refused", "--threads", tools["cf"]]],
        ),
        Row("runs whose memory is refused", ["cf", "C compiler"], [["env", "CC=" + tools["C compiler"], "sweeps/refused", "--memory", tools["cf"]]]),
        Row("words, streams and pipes of cf", ["cf"], [["sweeps/words", tools["cf"]]]),
        Row("inputs of all sizes in ample memory", ["cf", "cf_look"], [["sweeps/sizes", "short", tools["cf"], tools["cf_look"]]]),
        Row("pages in a browser", ["cf_look", browser], [[tools[browser], "conformance/programs/pages", "short", tools["cf_look"]]]),
        Row(
            "the page of a store in a browser",
            ["library", "cf_look", browser],
            [[tools[browser], "conformance/stores/page", "short", tools["cf_look"]]],
        ),
        *rows_of_python(tools, made),
        *rows_of_requests(tools, made),
        *rows_of_rust(tools, made),
        *rows_of_java(tools, made),
        *rows_of_languages(tools, made),
        *rows_of_packages(tools, made),
    ]
