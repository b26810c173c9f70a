"""Scripts that are meant to trip a reader of JSON: their tokens are doubled, lost and changed for ones at the edges of what JSON
is, and so are their bytes for ones at the edges of UTF-8. conformance/common/reading.py says what each is."""
import json
import re

TOKEN = re.compile(r'"(?:[^"\\]|\\.)*"|-?[0-9][0-9.eE+-]*|[\[\]{}:,]|[a-z]+')

NUMBERS = [
    "0",
    "-0",
    "0.0",
    "1.0",
    "1e0",
    "1E+0",
    "10e-1",
    "0e999999999999",
    "1e-999999999999",
    "1e308",
    "1.7976931348623157e308",
    "1e309",
    "-1e400",
    "1e999999999999",
    "01",
    "-01",
    "+1",
    "1.",
    ".5",
    "-",
    "--1",
    "1e",
    "1e+",
    "1.e1",
    "0x10",
    "1_000",
    "1f",
    "NaN",
    "Infinity",
    "-Infinity",
    "\uff11",
    "127",
    "128",
    "4095",
    "4096",
    "65535",
    "65536",
    "2147483647",
    "2147483648",
    "-2147483648",
    "-2147483649",
    "4294967295",
    "4294967296",
    "9223372036854775807",
    "9223372036854775808",
    "-9223372036854775808",
    "-9223372036854775809",
    "18446744073709551615",
    "18446744073709551616",
    "9" * 400,
    "0." + "3" * 400,
    "1" + "0" * 30,
    "1" + "0" * 309,
]

TEXTS = [
    '""',
    '"\\u0000"',
    '"\\ud800"',
    '"\\udc00"',
    '"\\ud83d\\ude00"',
    '"\\ude00\\ud83d"',
    '"\\ud800x"',
    '"\\u12"',
    '"\\u12g4"',
    '"\\x41"',
    '"\\"',
    '"\\/"',
    '"\x00"',
    '"\x1f"',
    '"\x7f"',
    '"\n"',
    '"\ufeff"',
    '"\u2028"',
    "'a'",
    '"',
    '"a',
    '"\\u0063f"',
    '"st\\u0061ges"',
    '"\\u0073teps"',
    '"Stages"',
    '"cf "',
    '"stages\\u0000"',
    '"of"',
    '"fn"',
    '"form"',
    '"room"',
    '"limits"',
    '"wor\\u006b"',
    '"\U0001f600"',
    '"' + "x" * 5_000 + '"',
]

WORDS = [
    "null",
    "true",
    "false",
    "nul",
    "True",
    "None",
    "undefined",
    "nulll",
    "//",
    "/**/",
    "#",
    ";",
    "=",
    "\ufeff",
    "\x00",
    "\x0b",
    "\x0c",
    "\u00a0",
]

BRACKETS = ["[", "]", "{", "}", "[]", "{}", ":", ",", ",,", "::", "[,]", "{,}", "[1,]", '{"a":1,}', '{"a"}', "{1:2}", "(", ")"]

# A null byte, a mark of the order of bytes, and what is no UTF-8: a byte that only follows, one that isn't followed, a text
# that could be shorter, half of a pair, and a number that is too great.
BYTES = [
    b"\x00",
    b"\xef\xbb\xbf",
    b"\x80",
    b"\xc3",
    b"\xc0\x80",
    b"\xe0\x80\x80",
    b"\xed\xa0\x80",
    b"\xed\xbf\xbf",
    b"\xf4\x90\x80\x80",
    b"\xf8\x88\x80\x80\x80",
    b"\xff",
    b"\xfe\xff",
    b"\xe2\x82",
    b"\xf0\x9f\x98",
]


def alike(rng, token):
    """A hostile token in the place of one, mostly of its kind."""
    if rng.random() < 0.2:
        return rng.choice(rng.choice([NUMBERS, TEXTS, WORDS, BRACKETS]))
    if token[0] == '"':
        return rng.choice(TEXTS)
    if token[0] == "-" or token[0].isdigit():
        return rng.choice(NUMBERS)
    return rng.choice(BRACKETS if token in "[]{}:," else WORDS)


def deep(rng, token):
    """A token within so many lists and objects, which all end, or seldom don't."""
    opened = [rng.choice(["[", '{"a":']) for _ in range(rng.choice([1, 120, 124, 125, 126, 127, 128, 129, 2_000]))]
    closed = ["]" if it == "[" else "}" for it in reversed(opened)]
    return "".join(opened) + token + "".join(closed[rng.random() < 0.1 :])


def change(rng, tokens):
    at = rng.randrange(len(tokens))
    end = min(len(tokens), at + rng.choice([1, 1, 2, 4, 12]))
    to = rng.randrange(len(tokens))
    how = rng.randrange(7)
    if how < 2:
        tokens[at] = alike(rng, tokens[at])
    elif how == 2:
        tokens.insert(at, alike(rng, tokens[at]))
    elif how == 3:
        del tokens[at:end]
    elif how == 4:
        tokens[to:to] = tokens[at:end]
    elif how == 5:
        tokens[at] = deep(rng, tokens[at])
    else:
        twice(rng, tokens, at)


def twice(rng, tokens, at):
    """Puts a member in front of an object's others: one that is there too, or one of a hostile name."""
    objects = [k for k, it in enumerate(tokens) if it == "{" and k + 3 < len(tokens)]
    if objects:
        at = rng.choice(objects)
        name = tokens[at + 1] if rng.random() < 0.6 else rng.choice(TEXTS)
        member = [name, ":", alike(rng, tokens[at + 3])]
        tokens[at + 1 : at + 1] = member + ([] if tokens[at + 1] == "}" else [","])


def hostile(rng, script):
    """The bytes of a script after one to six such changes."""
    tokens = TOKEN.findall(json.dumps(script))
    for _ in range(rng.choice([1, 1, 1, 2, 3, 6])):
        if tokens:
            change(rng, tokens)
    data = rng.choice(["", "", " ", "\n", "\t\r"]).join(tokens).encode()
    if rng.random() < 0.15:
        at = rng.randrange(len(data) + 1)
        data = data[:at] + rng.choice(BYTES) + data[at:]
    if rng.random() < 0.1:
        data = rng.choice(
            [data + data, data + b"]", data + b"}", data + b",", b"[" + data + b"]", data[1:], data[:-1], b" " + data + b"\r\n\t ", b""]
        )
    return data
