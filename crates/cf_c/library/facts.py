#!/usr/bin/env python3
"""Writes what the library tells of itself, by cf.h.

    facts.py HEADER              in C: its version, the names of codes, the sizes of structs and the offsets of their fields
    facts.py --version HEADER    the version, as 2.0.0
    facts.py --script HEADER     for the linker: what the shared library exports, each call with the version in which it came

The header is the only table: a code is named by its constant, CF_NO_STAGE as NoStage, and the compiler says sizes and offsets.
"""
import re
import sys
from typing import Dict, Iterator, List

sys.dont_write_bytecode = True
from nulls import TOLD, declarations  # noqa: E402
from same import numbers_of, structs_of_header  # noqa: E402

# The calls that came after 2.0, each with its version.
LATER: Dict[str, str] = {}
TEXT = """#include "cf.h"
#include <string.h>

const char *cf_version(void) {{ return "{version}"; }}

bool cf_fits(uint32_t major, uint32_t minor) {{
  const uint32_t ours = CF_VERSION_MINOR;
  return major == CF_VERSION_MAJOR && minor <= ours;
}}

const char *cf_code_name(uint32_t code) {{
  switch (code) {{
{names}
  default: return NULL;
  }}
}}

static const struct {{ const char *name; size_t bytes; }} layouts[] = {{
{layouts}
}};

size_t cf_layout(const char *name) {{
  for (size_t at = 0; name && at < sizeof layouts / sizeof *layouts; at++)
    if (strcmp(layouts[at].name, name) == 0) return layouts[at].bytes;
  return SIZE_MAX;
}}
"""


def version(header: str) -> List[str]:
    return [re.search(rf"^#define CF_VERSION_{part} (\d+)$", header, re.M)[1] for part in ["MAJOR", "MINOR", "PATCH"]]


def names(text: str) -> Iterator[str]:
    for constant in numbers_of(re.search(r"typedef enum \{(.*?)\} cf_code;", text, re.S)[1], "CF_"):
        name = "".join(word.capitalize() for word in constant.split("_")[1:])
        yield f'  case {constant}: return "{name}";'


def layouts(text: str) -> Iterator[str]:
    for struct, fields in structs_of_header(text).items():
        yield f'  {{"{struct}", sizeof({struct})}},'
        yield from (f'  {{"{struct}.{field}", offsetof({struct}, {field})}},' for field, _ in fields)


def script(header: str) -> Iterator[str]:
    """A node for each version, which has the one before it below."""
    calls = [name for _, name, _ in declarations(header)] + TOLD.findall(header)
    below = ""
    for since in sorted({"2.0", *LATER.values()}, key=lambda it: [int(part) for part in it.split(".")]):
        yield f"CF_{since} {{ global:"
        yield from (f"  {name};" for name in sorted(calls) if LATER.get(name, "2.0") == since)
        yield "}" + f"{below};" if below else "local: *; };"
        below = f" CF_{since}"


def main() -> None:
    with open(sys.argv[-1], encoding="utf-8") as file:
        header = file.read()
    text = re.sub(r"/\*.*?\*/", "", header, flags=re.S)
    if sys.argv[1] == "--version":
        print(".".join(version(header)))
    elif sys.argv[1] == "--script":
        print("\n".join(script(text)))
    else:
        parts = {"names": "\n".join(names(text)), "layouts": "\n".join(layouts(text))}
        print(TEXT.format(version=".".join(version(header)), **parts), end="")


if __name__ == "__main__":
    main()
