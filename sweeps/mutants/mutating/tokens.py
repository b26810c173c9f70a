"""The words of a text in Rust or C, with the brackets that belong together. Comments and what stands in quotes are no words of it."""
import re
from typing import Dict, List, NamedTuple, Optional, Tuple

WORD = re.compile(
    r"""
      (?P<space>\s+|//[^\n]*|/\*.*?\*/)
    | (?P<quoted>b?r(?P<fence>\#*)".*?"(?P=fence)|[bcL]?"(?:\\.|[^"\\])*"|b?'(?:\\[^\n]+?|[^\\'\n])')
    | (?P<lifetime>'\w+)
    | (?P<number>0x[\da-fA-F_]+\w*|\d[\d_]*(?:\.\d[\d_]*)?(?:[eE][+-]?\d+)?\w*)
    | (?P<name>(?:r\#)?[^\W\d]\w*)
    | (?P<mark>\.\.=|\.\.\.|<<=|>>=|::|->|=>|==|!=|<=|>=|&&|\|\||\+=|-=|\*=|/=|%=|\^=|&=|\|=|\+\+|--|\.\.|.)
""",
    re.X | re.S,
)
OPENING, CLOSING = "([{", ")]}"


class Token(NamedTuple):
    kind: str
    text: str
    start: int
    end: int


class Tokens:
    def __init__(self, text: str, is_c: bool) -> None:
        self.text = text
        self.all: List[Token] = []
        at = 0
        while at < len(text):
            found = WORD.match(text, at)
            assert found is not None and found.lastgroup is not None  # (a mark is any character)
            at = self.of_macro(at) if is_c and text[at] == "#" and not text[text.rfind("\n", 0, at) + 1 : at].strip() else found.end()
            kind = next(name for name in ["space", "quoted", "lifetime", "number", "name", "mark"] if found[name] is not None)
            if kind != "space" and not (is_c and text[found.start()] == "#"):
                self.all.append(Token(kind, found[0], found.start(), at))
        self.other: Dict[int, int] = {}  # of each bracket the one that belongs to it
        opened: List[int] = []
        for k, token in enumerate(self.all):
            if token.kind == "mark" and token.text in OPENING:
                opened.append(k)
            elif token.kind == "mark" and token.text in CLOSING:
                self.other[k] = opened.pop()
                self.other[self.other[k]] = k

    def of_macro(self, at: int) -> int:
        """The end of a line for C's preprocessor, with those that it goes on in."""
        while True:
            at = self.text.find("\n", at)
            if at < 0:
                return len(self.text)
            if self.text[at - 1] != "\\":
                return at
            at += 1

    def __len__(self) -> int:
        return len(self.all)

    def __getitem__(self, k: int) -> Token:
        return self.all[k] if 0 <= k < len(self.all) else Token("end", "", len(self.text), len(self.text))

    def word(self, k: int) -> str:
        return self[k].text if self[k].kind != "quoted" else ""

    def span(self, first: int, last: int) -> Tuple[int, int]:
        """Where the words from `first` up to and with `last` stand."""
        return self[first].start, self[last].end

    def said(self, first: int, last: int) -> str:
        return self.text[self[first].start : self[last].end] if first <= last else ""

    def next_of(self, words: str, k: int, end: int) -> Optional[int]:
        """The next of these marks from word k on, outside brackets that open there."""
        marks = words.split()
        while k < end:
            if self.word(k) in marks:
                return k
            k = self.other[k] + 1 if self.word(k) in OPENING and self.word(k) else k + 1
        return None

    def is_spaced(self, k: int) -> bool:
        """Whether space stands on both sides of a mark, as it does only where it joins two expressions."""
        return self.text[self[k].start - 1].isspace() and self.text[self[k].end : self[k].end + 1].isspace()

    def parts(self, opening: int) -> List[Tuple[int, int]]:
        """The first and last words of what stands in a bracket, parted by commas."""
        closing, found, k = self.other[opening], [], opening + 1
        while k < closing:
            comma = self.next_of(",", k, closing)
            last = (comma if comma is not None else closing) - 1
            if last >= k:
                found.append((k, last))
            k = last + 2
        return found
