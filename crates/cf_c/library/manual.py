#!/usr/bin/env python3
"""Writes the manual of the library for C: a page for each section of cf.h, and one, cf.3, for what they share.

    manual.py DIR

A page has what the header says of its section, an example of clients/c, and what that prints, as NAME.out beside it has it: ./check
compiles and runs each. For each call stands a page of its name, which is the one of its section. It ends with status 1 where a section of
the header has no page here, or an example prints nothing there.
"""
import re
import sys
import textwrap
from pathlib import Path
from typing import Iterator, List, NamedTuple, Tuple

sys.dont_write_bytecode = True
from facts import version  # noqa: E402

HERE = Path(__file__).resolve().parent
TOP = HERE.parents[2]
PROGRAMS = TOP / "clients/c"
HEADER = (HERE.parent / "include/cf.h").read_text(encoding="utf-8")
SECTION = re.compile(r"^/\* ---- (.*?) ---- \*/$", re.M)
CALL = re.compile(r"^[a-z].*?\b(cf_\w+)\(", re.M)


class Page(NamedTuple):
    name: str
    section: str  # how the section of the header begins
    about: str
    example: str


PAGES = [
    Page("cf", "", "completable futures that are proved", "request.c"),
    Page("cf_plans", "Plans", "plans of stages, their functions and their limits", "plans.c"),
    Page("cf_graphs", "Graphs", "graphs that one thread has alone", "graphs.c"),
    Page("cf_desks", "Desks", "graphs that threads share without a lock", "desks.c"),
    Page("cf_closing", "Closing", "the end of a desk: its history, its records and its graph", "closing.c"),
    Page("cf_words", "Words", "calls as words, and words done to a graph", "words.c"),
    Page("cf_ledgers", "Ledgers", "graphs that keep the word of each event", "ledger.c"),
    Page("cf_requests", "Requests", "what a service does for one request", "host.c"),
    Page("cf_rows", "Views", "what one session knows of a row in a store", "row.c"),
    Page("cf_hosts", "Hosts", "what a process does with all its requests in a store", "host_of_a_store.c"),
    Page("cf_histories", "Histories", "what happened, told as texts", "histories.c"),
    Page("cf_texts", "Scripts", "scripts, and the texts of outcomes and codes", "script.c"),
    Page("cf_versions", "The library itself", "the library's version, names of codes, and layouts", "versions.c"),
]


def sections() -> List[Tuple[str, str]]:
    """The header's head and what goes for any handle, under no name; then each section with its name."""
    parts = SECTION.split(re.split(r"^#ifdef __cplusplus\n\}", HEADER, flags=re.M)[0])
    named = dict(zip(parts[1::2], parts[2::2]))
    return [("", parts[0] + named.pop("Any handle")), *named.items()]


def escaped(line: str) -> str:
    line = line.replace("\\", "\\e").replace("-", "\\-")
    return "\\&" + line if line[:1] in [".", "'"] else line


def shown(lines: List[str]) -> Iterator[str]:
    yield from [".PP", ".in +4n", ".EX", *map(escaped, lines), ".EE", ".in"]


def told(comment: str) -> Iterator[str]:
    """A comment in paragraphs. A line that stands two further in is a point of a list, and one four further in goes on with it."""
    lines: List[str] = []
    for said in comment.strip("\n").split("\n"):
        line = re.sub(r"^ \*", "", said)
        point = re.match(r" {3}(?:- )?(\S.*)", line)
        if point:
            yield from lines
            lines = ['.IP "\\(bu" 2', escaped(point[1])]
            continue
        if not line.strip() or lines[:1] not in [[], [".PP"]] and not line.startswith("     "):
            yield from lines
            lines = []
        if line.strip():
            lines = [*(lines or [".PP"]), escaped(line.strip())]
    yield from lines


def wrapped(code: str) -> List[str]:
    """The lines of code, of which those of calls are kept to a terminal's width."""
    lines = []
    for line in re.sub(r",\n +(?=\w+ \w+[,)])", ", ", code).strip("\n").splitlines():
        is_call = re.match(r"\w.*\(.*[,;]$", line)
        lines += textwrap.wrap(line, 74, subsequent_indent="    ", break_on_hyphens=False) if is_call else [line]
    return lines


def described(text: str) -> Iterator[str]:
    """The header's head; then each comment with the code that it is of before it."""
    text = re.sub(r"^#(?:ifndef|include|ifdef|endif|define CF_H).*\n|^extern \"C\".*\n", "", text, flags=re.M)
    first, *rest = re.split(r"^/\*(.*?)\*/\n", text, flags=re.M | re.S)
    if not first.strip():
        yield from told(rest[0])
        rest[0] = ""
    for comment, code in [("", first), *zip(rest[::2], rest[1::2])]:
        yield from shown(wrapped(code)) if code.strip() else []
        yield from told(comment)


def printed(example: str) -> str:
    path = (PROGRAMS / example).with_suffix(".out")
    if not path.is_file():
        raise SystemExit(f"manual.py: there is no {path.name} with what {example} prints")
    return path.read_text(encoding="utf-8")


def code_of(example: str) -> str:
    """The program, with rows.h in the place where it includes that: who reads the manual has cf.h alone."""
    program, rows = ((PROGRAMS / name).read_text(encoding="utf-8") for name in [example, "rows.h"])
    return program.replace('#include "rows.h"\n', rows.replace('#include "cf.h"\n', ""))


def page_of(page: Page, text: str, calls: List[str]) -> str:
    number = ".".join(version(HEADER))
    lines = [f'.TH {page.name.upper()} 3 "" "cf {number}" "Library calls"', ".SH NAME"]
    lines += [f"{', '.join([page.name, *calls])} \\- {page.about}", ".SH SYNOPSIS", ".nf", ".B #include <cf.h>", ".PP"]
    lines += [escaped("cc FILE.c $(pkg-config --cflags --libs cf)"), ".fi", ".SH DESCRIPTION", *described(text), ".SH EXAMPLES"]
    lines += [*shown(code_of(page.example).splitlines()), ".PP", "It prints:", *shown(printed(page.example).splitlines()), ".SH SEE ALSO"]
    lines += [f".BR {other.name} (3){',' if other != [it for it in PAGES if it != page][-1] else ''}" for other in PAGES if other != page]
    return "\n".join(lines) + "\n"


def main() -> None:
    folder = Path(sys.argv[1])
    folder.mkdir(parents=True, exist_ok=True)
    for section, text in sections():
        page = next((it for it in PAGES if section.startswith(it.section) and bool(section) == bool(it.section)), None)
        if not page:
            raise SystemExit(f"manual.py: no page is for the section {section} of cf.h")
        calls = CALL.findall(re.sub(r"/\*.*?\*/", "", text, flags=re.S))
        (folder / f"{page.name}.3").write_text(page_of(page, text, calls), encoding="utf-8")
        for call in calls:
            (folder / f"{call}.3").write_text(f".so man3/{page.name}.3\n", encoding="utf-8")


if __name__ == "__main__":
    main()
