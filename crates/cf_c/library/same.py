#!/usr/bin/env python3
"""Compares cf.h with the proved sources: no proof reads the header.

    crates/cf_c/library/same.py

Each struct has the same fields in the same order and of the same types on both sides, so the same offsets; each call the same parameters;
each code the number of its name; each form its number. No call takes more than seven words, nor a struct above 16 bytes but by pointer:
bindings pay dearly for either. It prints a line for each difference, and ends with status 1 where there is one.
"""
import re
import sys
from pathlib import Path

sys.dont_write_bytecode = True
from nulls import proved  # noqa: E402

HERE = Path(__file__).resolve().parent
CRATES = HERE.parents[1]
HEADER = HERE.parent / "include/cf.h"
OF_C = ["cf_c", "cf_c_handles"]  # the calls, and what they take and give
NUMBERS = {"u8": "uint8_t", "u16": "uint16_t", "u32": "uint32_t", "u64": "uint64_t", "i32": "int32_t", "usize": "size_t", "bool": "bool"}
SIZES = {"uint8_t": 1, "bool": 1, "uint16_t": 2, "uint32_t": 4, "int32_t": 4, "uint64_t": 8, "size_t": 8}
MOST_WORDS, MOST_BYTES = 7, 16
STRUCT = re.compile(r"#\[repr\(C\)\]\n(?:#\[[^\n]*\n)*pub struct (Cf\w+) \{\n(.*?)^\}", re.M | re.S)
FIELD = re.compile(r"^    (?:pub(?:\(crate\))? )?(?!ghost)(\w+): ([^\n]+?),?$", re.M)
EXPORT = re.compile(r'pub extern "C" fn (cf_\w+)\((.*?)\)(?: -> (\w+))?\s*(?:\n    (?:requires|ensures)|\{)', re.S)
ROW = re.compile(r"\[(\w+); (\d+)\]")
TYPEDEF = re.compile(r"typedef struct \{(.*?)\} (cf_\w+);", re.S)
# What C sees of a handle: a pointer, and whether something stands there.
HANDLE = [("inner", "RawBox"), ("full", "bool")], [("at", "void *"), ("full", "bool")]


def snake(name):
    return re.sub(r"(?<=[a-z])(?=[A-Z])", "_", name).lower()


def of_c(kind):
    """The words of C for a type of the sources: one, and a second where it is a slice."""
    kind = kind.strip()
    if kind.startswith("&mut ["):
        return [of_c(kind[6:-1])[0] + " *", "size_t"]
    if kind.startswith("&["):
        return ["const " + of_c(kind[2:-1])[0] + " *", "size_t"]
    if kind.startswith("&mut "):
        return [of_c(kind[5:])[0] + " *"]
    if kind.startswith("&"):
        return ["const " + of_c(kind[1:])[0] + " *"]
    row = ROW.fullmatch(kind)
    if row:
        return [f"{of_c(row[1])[0]} [{row[2]}]"]
    return [NUMBERS.get(kind) or snake(kind)]


def words(kind, is_pointer, said):
    return ("const " if said.startswith("const ") else "") + kind + (" *" if is_pointer else "")


def structs_of_header(text):
    found = {}
    for inside, name in TYPEDEF.findall(text):
        fields = []
        for said in filter(None, (it.strip() for it in inside.split(";"))):
            kind, names = said.split(None, 1)
            for field in names.split(","):
                field, row, count = field.strip().partition("[")
                fields.append((field.lstrip("*"), kind + " *" if field.startswith("*") else f"{kind} [{count}" if row else kind))
        found[name] = fields
    return found


def size_of(kind, structs):
    """The bytes and the alignment of a type of C."""
    if kind in SIZES or kind.endswith("*"):
        return (SIZES.get(kind, 8),) * 2
    if kind.endswith("]"):
        size, align = size_of(kind.split()[0], structs)
        return size * int(kind[:-1].split("[")[1]), align
    end, most = 0, 1
    for _, field in structs[kind]:
        size, align = size_of(field, structs)
        end, most = -(-end // align) * align + size, max(most, align)
    return -(-end // most) * most, most


def numbers_of(text, prefix):
    return {name: int(number) for name, number in re.findall(rf"\b({prefix}[A-Z_]+) = (\d+)", text)}


def main():
    header = re.sub(r"/\*.*?\*/", "", HEADER.read_text(encoding="utf-8"), flags=re.S)
    sources = "\n".join(it.read_text(encoding="utf-8") for name in OF_C for it in sorted((CRATES / name / "src").rglob("*.rt")))
    wrong = []

    there = structs_of_header(header)
    made = {snake(name): FIELD.findall(inside) for name, inside in STRUCT.findall(sources)}
    for name in sorted(there.keys() | made.keys()):
        ours, theirs = made.get(name), there.get(name)
        if name == "cf_handle" and (ours, theirs) == HANDLE:
            continue
        if ours is None or theirs is None or [(field, of_c(kind)[0]) for field, kind in ours] != theirs:
            wrong.append(f"{name}: {ours} in the sources, {theirs} in the header")

    exports = {}
    for name, inside, gives in EXPORT.findall(sources):
        parameters = re.findall(r"(\w+): ([^,]+)", inside)
        taken = [word for field, kind in parameters if kind.strip() != "Global" for word in of_c(kind)]
        exports[name] = (NUMBERS.get(gives, "void"), taken)
    declared = {}
    for gives, name, said_of in proved(HEADER.read_text(encoding="utf-8")):
        declared[name] = (gives, [words(kind, is_pointer, said) for said, kind, is_pointer, _ in said_of])
    for name in sorted(exports.keys() | declared.keys()):
        if exports.get(name) != declared.get(name):
            wrong.append(f"{name}: {exports.get(name)} in the sources, {declared.get(name)} in the header")

    for name, (_, taken) in sorted(declared.items()):
        if len(taken) > MOST_WORDS:
            wrong.append(f"{name}: it takes {len(taken)} words")
        wrong += [f"{name}: it takes {kind} by value" for kind in taken if size_of(kind, there)[0] > MOST_BYTES]

    codes = {int(number): text for number, text in re.findall(r'^        (\d+) => Some\("(\w+)"\),', sources, re.M)}
    enum = re.search(r"typedef enum \{(.*?)\} cf_code;", header, re.S)[1]
    named = {number: name[3:].lower() for name, number in numbers_of(enum, "CF_").items()}
    if {number: snake(text) for number, text in codes.items()} != named:
        wrong.append("the codes differ")

    forms = re.search(r"pub enum Form \{(.*?)^\}", (CRATES / "cf_forms/src/forms.rt").read_text(encoding="utf-8"), re.S | re.M)[1]
    inside = next(it for it in re.findall(r"enum \{([^{}]*)\};", header) if "CF_SOURCE =" in it)
    numbered = {name[3:].lower(): number for name, number in numbers_of(inside, "CF_").items()}
    if {snake(it): number for number, it in enumerate(re.findall(r"^    (\w+),", forms, re.M))} != numbered:
        wrong.append("the forms differ")

    print("\n".join(wrong) or f"{len(there)} structs, {len(exports)} calls, {len(codes)} codes and the forms are the same in both")
    return bool(wrong)


if __name__ == "__main__":
    sys.exit(main())
