"""The rules for Rust and C, over words and brackets.

There is no tree of Rust's on every machine: that of Debian's `syn` is older than the language of the clients, and has to be built. Words do,
since the sources are laid out by rustfmt: only an operator that joins two expressions has space on both sides, not one of types. What is no
expression or statement after all can't be built, and then counts for nothing. C's sources are laid out alike.
"""
import re
from typing import Dict, List, Mapping, NamedTuple, Sequence

from mutating.mutant import Place, statement_rule
from mutating.tokens import Tokens

Signatures = Mapping[str, Sequence[str]]
OTHER = {
    "<": ("bound", "<="),
    "<=": ("bound", "<"),
    ">": ("bound", ">="),
    ">=": ("bound", ">"),
    "==": ("equal", "!="),
    "!=": ("equal", "=="),
    "&&": ("and/or", "||"),
    "||": ("and/or", "&&"),
}
NO_VALUE = {"move", "return", "in", "else", "match", "if", "while", "=", "(", ",", "=>", "{", ";", "&"}  # behind these `||` begins a closure
NOT_DROPPED = {
    "use",
    "fn",
    "struct",
    "enum",
    "impl",
    "const",
    "static",
    "type",
    "mod",
    "pub",
    "macro_rules",
    "extern",
    "#",
    "assert",
    "assert_eq",
    "assert_ne",
    "debug_assert",
    "debug_assert_eq",
    "debug_assert_ne",
    "unsafe",
    "trait",
    "case",
    "default",
    "goto",
    "typedef",
    "register",
}
BLOCKS = {"if", "while", "for", "loop", "match", "unsafe", "{", "do", "switch"}  # statements that end with a block
DEFAULTS = r"(?:[ui](?:8|16|32|64|128|size)|f64|String|Duration|Vec<.*>)$"


class Function(NamedTuple):
    name: str
    types: Sequence[str]  # of its parameters, without self
    returns: str
    opening: int  # the body's bracket
    is_const: bool
    is_drop: bool  # whether it is `drop` of the trait Drop


def type_of(said: str, is_c: bool) -> str:
    """The type of a parameter as it is written."""
    if not is_c:
        return " ".join(said.partition(": ")[2].split())
    return re.sub(r"\s*\w+$", "", said)


def functions(tokens: Tokens, is_c: bool) -> List[Function]:
    """The functions that have a body, in the order of the text; those of Rust within another one, too."""
    found = []
    for k in range(len(tokens)):
        is_named = is_c or tokens.word(k - 1) == "fn"
        if tokens[k].kind != "name" or not is_named or (is_c and any(it.text == "{" for it in tokens.all[k - 1 : k])):
            continue
        given = k + 1
        if not is_c and tokens.word(given) == "<":
            depth = 0
            while given < len(tokens):
                depth += {"<": 1, ">": -1}.get(tokens.word(given), 0)
                given += 1
                if not depth:
                    break
        if tokens.word(given) != "(":
            continue
        closing = tokens.other[given]
        opening = closing + 1 if is_c else tokens.next_of("{ ;", closing + 1, len(tokens))
        if opening is None or tokens.word(opening) != "{" or (is_c and tokens.word(k) in BLOCKS):
            continue
        types = [type_of(tokens.said(*part), is_c) for part in tokens.parts(given)]
        if is_c:
            returns = "" if tokens.word(k - 1) == "void" else "value"
        else:
            where = tokens.next_of("where {", closing + 1, opening + 1) or opening
            returns = tokens.said(closing + 2, where - 1) if tokens.word(closing + 1) == "->" else ""
        before = [tokens.word(it) for it in range(max(0, k - 4), k)]
        found.append(
            Function(tokens.word(k), [it for it in types if it], returns, opening, "const" in before, tokens.word(k) == "drop" and types == [""])
        )
    return found


def signatures(texts: Sequence[str], is_c: bool) -> Dict[str, List[str]]:
    """Of each function's name the types of its parameters, where all functions of that name have the same."""
    found: Dict[str, List[str]] = {}
    for text in texts:
        for it in functions(Tokens(text, is_c), is_c):
            found[it.name] = list(it.types) if found.get(it.name, it.types) == it.types else []
    return found


class Finder:
    """Finds the places of one file."""

    def __init__(self, text: str, known: Signatures, is_c: bool) -> None:
        self.tokens, self.known, self.is_c = Tokens(text, is_c), known, is_c
        self.functions = functions(self.tokens, is_c)
        self.places: List[Place] = []
        self.negated: List[int] = []  # what joins conditions that are negated as a whole

    def replace(self, rule: str, first: int, last: int, new: str) -> None:
        self.places.append(Place(rule, *self.tokens.span(first, last), new))

    def of_tests(self) -> List[int]:
        """The words that tests begin with, by their attributes, and those that they end with."""
        tokens, found = self.tokens, []
        for k in range(len(tokens)):
            if tokens.word(k) == "#" and tokens.said(k, tokens.other.get(k + 1, k)) in ("#[cfg(test)]", "#[test]"):
                ends = tokens.next_of("{ ;", k + 2, len(tokens)) or k
                found += [k, tokens.other.get(ends, ends)]
        return found

    def find(self) -> List[Place]:
        end, tests = 0, self.of_tests()
        for function in self.functions:
            if any(first < function.opening < last for first, last in zip(tests[::2], tests[1::2])):
                continue
            if function.opening < end:
                self.early(function)
                continue  # its words are the outer function's
            end = self.tokens.other[function.opening]
            self.early(function)
            k = function.opening
            while k < end:
                k = self.word(k, function)
        return self.places

    def word(self, k: int, function: Function) -> int:
        """What a word gives; and the next one."""
        tokens, word = self.tokens, self.tokens.word(k)
        if word == "#":
            return tokens.other[k + 1] + 1 if k + 1 in tokens.other else k + 1
        if word == "{":
            self.statements(k, function)
        elif word in ("if", "while"):
            self.condition(k)
        elif word == "else":
            self.no_else(k)
        elif word == "(" and tokens[k - 1].kind == "name":
            self.call(k)
        elif word in OTHER and tokens.is_spaced(k) and tokens.word(k - 1) not in NO_VALUE and k not in self.negated:
            self.replace(OTHER[word][0], k, k, OTHER[word][1])
        elif word in ("..", "..=") and not self.is_c:
            if tokens.word(k - 1) not in NO_VALUE and tokens.word(k + 1) not in (")", "]", "}", ",", ""):
                self.replace("bound", k, k, "..=" if word == ".." else "..")
        else:
            self.constant(k)
        return k + 1

    def constant(self, k: int) -> None:
        token, before = self.tokens[k], self.tokens.word(k - 1)
        if token.kind == "name" and token.text in ("true", "false"):
            self.replace("constant", k, k, "false" if token.text == "true" else "true")
        number = re.fullmatch(r"(0x[\da-fA-F_]+?|\d[\d_]*?)_?((?:[ui](?:8|16|32|64|128|size)|[uUlL]+)?)", token.text)
        if token.kind == "number" and number and before != ".":
            self.replace("constant", k, k, str(int(number[1].replace("_", ""), 0) + 1) + number[2])

    def condition(self, k: int) -> None:
        tokens = self.tokens
        if self.is_c:
            first, last, opening = k + 2, tokens.other[k + 1] - 1, tokens.other[k + 1] + 1
        else:
            place = tokens.next_of("{ =>", k + 1, len(tokens))
            if place is None or tokens.next_of("let", k + 1, place) is not None:
                return
            first, last, opening = k + 1, place - 1, place
        if tokens.said(first, last) in ("true", "1"):
            return
        said = tokens.said(first, last)
        self.replace("negate", first, last, f"!({said})")
        equal = tokens.next_of("== !=", first, last)
        if equal is not None and tokens.next_of("&& ||", first, last) is None:
            self.negated.append(equal)
        if tokens.word(k) == "while" or tokens.word(opening) == "=>" or tokens.word(k - 1) == "else":
            return
        closing = tokens.other[opening] if opening in tokens.other and tokens.word(opening) == "{" else tokens.next_of(";", opening, len(tokens))
        if closing is not None and tokens.word(closing + 1) != "else":
            self.replace("never", first, last, "0" if self.is_c else "false")

    def no_else(self, k: int) -> None:
        if self.tokens.word(k + 1) == "{":
            self.replace("else", k, self.tokens.other[k + 1], "")

    def call(self, opening: int) -> None:
        tokens = self.tokens
        types, parts = self.known.get(tokens.word(opening - 1), []), tokens.parts(opening)
        for k, (one, other) in enumerate(zip(parts, parts[1:])):
            if len(types) == len(parts) and types[k] == types[k + 1] and tokens.said(*one) != tokens.said(*other):
                between = tokens.text[tokens[one[1]].end : tokens[other[0]].start]
                self.replace("swap", one[0], other[1], tokens.said(*other) + between + tokens.said(*one))

    # Statements

    def statements(self, opening: int, function: Function) -> None:
        tokens, k = self.tokens, opening + 1
        closing = tokens.other[opening]
        while k < closing:
            first = k
            k = self.end_of(first, closing)
            if tokens.word(k) == ";":
                self.statement(first, k, function, function.is_drop and tokens.other[function.opening] == closing)
            k += 1

    def end_of(self, k: int, closing: int) -> int:
        """The last word of a statement: a semicolon, or the bracket of its block."""
        tokens, has_block = self.tokens, self.tokens.word(k) in BLOCKS
        while k < closing:
            word = tokens.word(k)
            if word == ";":
                return k
            if self.is_c and has_block and word == "(" and tokens.word(k - 1) in BLOCKS:
                after = tokens.other[k] + 1
                if tokens.word(after) != "{":
                    return after - 1  # the statement behind it stands for itself
                k = after
                word = "{"
            if self.is_c and word == "else" and tokens.word(k + 1) != "{" and tokens.word(k + 1) != "if":
                return k
            if word in ("(", "[", "{"):
                k = tokens.other[k]
                if word == "{" and has_block and tokens.word(k + 1) not in ("else", ".", "?") and not (tokens.word(k + 1) == "while" and self.is_c):
                    return k
            k += 1
        return closing

    def statement(self, first: int, last: int, function: Function, is_last: bool) -> None:
        tokens, word = self.tokens, self.tokens.word(first)
        if word == "return" and last > first + 1:
            said = tokens.said(first + 1, last - 1)
            for new in ["0"] if self.is_c else defaults(function.returns):
                if said not in (new, "NULL", "true", "false"):  # (what is true or false is a constant)
                    self.replace("return", first, last, f"return {new};")
            return
        if word == "let":
            if tokens.word(first + 1).startswith("_"):
                self.replace("with", first, last, ";")
            return
        is_declared = (
            self.is_c
            and tokens[first].kind == "name"
            and (tokens[first + 1].kind == "name" or tokens.word(first + 1) == "*")
            and word not in ("return", "break", "continue")
        )
        if word in NOT_DROPPED or is_declared or word in BLOCKS or first == last:
            return
        if tokens.said(first, last - 1).startswith("drop(") and last == first + 4 and last + 1 == tokens.other[function.opening]:
            return  # (it is dropped there anyway)
        calls = [tokens.word(k - 1) for k in range(first + 1, last) if tokens.word(k) == "(" and tokens[k - 1].kind == "name"]
        self.replace(statement_rule(calls[-1] if calls else "", is_last), first, last, ";")

    def early(self, function: Function) -> None:
        """The whole function does nothing, where it answers nothing or what any function of its type may answer."""
        tokens, opening = self.tokens, function.opening
        closing = tokens.other[opening]
        if function.returns == "" and (tokens.next_of(";", opening + 1, closing) or closing) >= closing - 1:
            return  # one statement, which is dropped
        said = tokens.said(opening + 1, closing - 1)  # (where that is all that it does anyway, nothing changes)
        news = [f" return {it};" for it in defaults(function.returns) if it != said] if function.returns else [" return;"]
        for new in news if closing > opening + 1 else []:
            self.places.append(Place("early", tokens[opening].end, tokens[opening].end, new))


def defaults(returns: str) -> List[str]:
    """What a function of Rust may answer that gives up."""
    if returns == "bool":
        return ["true", "false"]
    if returns.startswith("Option<"):
        return ["None"]
    if re.match(r"(\w+::)*Result<\(\)", returns):
        return ["Ok(())"]
    return ["Default::default()"] if re.match(DEFAULTS, returns) else []


def places(text: str, known: Signatures, is_c: bool) -> List[Place]:
    return Finder(text, known, is_c).find()
