#!/usr/bin/env python3
"""Writes the tests of null pointers that stand in front of the proved exports, in C.

    nulls.py HEADER            the C text
    nulls.py --names HEADER    the names of the calls that are proved, a line each
    nulls.py --all HEADER      those of all calls: work.c, beside this, has the others, which test their pointers themselves

The header is the only table: a function with a body, `static inline`, is passed over, and each other call gets a function of its name,
which tests the pointers and calls the proved export under the name proved_NAME. A pointer that a count follows, `size_t n`,
`size_t count` or `size_t room`, may be null where that is 0; no other may be. Where one is null the call answers CF_NULL, and a call
without an answer does nothing. Calls that answer no code, but a text, a size or a bool, are facts.py's. It ends with status 1 where a
declaration isn't understood.
"""
import re
import sys
from pathlib import Path

DECLARED = re.compile(r"^(uint32_t|void) (cf_[a-z0-9_]+)\(([^)]*)\);", re.M)
INLINE = re.compile(r"^static inline .*?^\}$", re.M | re.S)
TOLD = re.compile(r"^(?:const char \*|size_t |bool )(cf_[a-z0-9_]+)\(", re.M)  # (facts.py's)
COUNTS = ("size_t", False, "n"), ("size_t", False, "count"), ("size_t", False, "room")
PARAMETER = re.compile(r"(const )?([a-z0-9_]+) (\*?)([a-z0-9_]+)$")


def declarations(header):
    """Of each call what it gives, its name, and its parameters as (text, type, whether it's a pointer, name)."""
    text = INLINE.sub("", re.sub(r"/\*.*?\*/", "", header, flags=re.S))
    found = []
    for gives, name, inside in DECLARED.findall(text):
        parameters = []
        for said in " ".join(inside.split()).split(","):
            parts = PARAMETER.match(said.strip())
            if not parts:
                raise SystemExit(f"nulls.py: {name}: {said.strip()} isn't understood")
            parameters.append((said.strip(), parts[2], bool(parts[3]), parts[4]))
        found.append((gives, name, parameters))
    mentioned = len(re.findall(r"\bcf_[a-z0-9_]+\s*\(", text)) - len(TOLD.findall(text))
    if not found or mentioned != len(found):
        raise SystemExit(f"nulls.py: {mentioned} calls are mentioned, and {len(found)} understood")
    return found


def in_c():
    """The calls that are written in C."""
    text = (Path(__file__).resolve().parent / "work.c").read_text(encoding="utf-8")
    return set(re.findall(r"^\w+ (cf_[a-z0-9_]+)\(", text, re.M))


def proved(header):
    return [call for call in declarations(header) if call[1] not in in_c()]


def tests(parameters):
    """What is true where a pointer is null that may not be. Those with counts come last: then no other is tested in two places."""
    alone, counted = [], []
    for at, (_, _, is_pointer, name) in enumerate(parameters):
        follows = parameters[at + 1] if at + 1 < len(parameters) else None
        if is_pointer and follows and follows[1:] in COUNTS:
            counted.append(f"(__builtin_expect(!{name}, 0) && {follows[3]})")
        elif is_pointer:
            alone.append(f"!{name}")
    return " || ".join(alone + counted)


def guard(gives, name, parameters):
    inside, words = ", ".join(p[0] for p in parameters), ", ".join(p[3] for p in parameters)
    call, refused = f"proved_{name}({words});", "return CF_NULL;"
    body = f"if ({tests(parameters)}) {refused}\n  return {call}"
    if gives == "void":
        body = f"if ({tests(parameters)}) return;\n  {call}"
    return f"extern __typeof__({name}) proved_{name};\n{gives} {name}({inside}) {{\n  {body}\n}}\n"


def main():
    option = sys.argv[1]
    with open(sys.argv[-1], encoding="utf-8") as file:
        found = (declarations if option == "--all" else proved)(file.read())
    if option in ("--names", "--all"):
        print("\n".join(name for _, name, _ in found))
    else:
        print('#include "cf.h"\n')
        print("\n".join(guard(*call) for call in found), end="")


if __name__ == "__main__":
    main()
