"""What a search found: how many orders it tried, and those that failed, each as a value that can be told and done
again."""
from typing import Dict, Hashable, List, NamedTuple, Sequence

from ..service.history import History
from .footprints import Move


def row_of(moves: Sequence[Move]) -> str:
    """The moves as a text, which `orders(.., row=..)` takes."""
    return " ".join(".".join(map(str, move)) for move in moves)


def moves_of(row: str) -> List[Move]:
    """The moves of such a text."""
    return [tuple(int(part) if part.lstrip("-").isdigit() else part for part in move.split(".")) for move in row.split()]


class ToldMove(NamedTuple):
    """A move in words, and what it settled."""

    text: str
    settled: List[str]


class Pair(NamedTuple):
    """Two moves of a row, by their places, that decide: in the other order the same row doesn't fail."""

    first: int
    second: int


class Failure:
    """An order that fails.

    Attributes:
        why: What doesn't hold.
        moves: The moves of the order.
        told: The same in words, with what each settled.
        pairs: The pairs of moves that decide.
        histories: The history of each request, in the order in which the test opened them."""

    def __init__(self, why: str, moves: List[Move], told: List[ToldMove], histories: List[History]) -> None:
        self.why: str = why
        self.moves: List[Move] = moves
        self.told: List[ToldMove] = told
        self.histories: List[History] = histories
        self.pairs: List[Pair] = []

    @property
    def row(self) -> str:
        """The order as a text, which `orders(.., row=..)` takes."""
        return row_of(self.moves)

    @property
    def switches(self) -> int:
        """How often another goes on than before."""
        return sum(actor_of(one) != actor_of(other) for one, other in zip(self.moves, self.moves[1:]))

    def account(self, request: int = 0) -> str:
        """The account of a request, for `cf_look check`."""
        return self.histories[request].account()

    def page(self, request: int = 0, program: str = "cf_look") -> str:
        """The page of a request for a browser, as `History.page` makes it."""
        return self.histories[request].page(program)

    def __str__(self) -> str:
        lines = [f"{self.why}: not so in this order of {len(self.moves)} moves"]
        lines += [f"{number:5}. {'; '.join([text, *settled])}" for number, (text, settled) in enumerate(self.told, 1)]
        for first, second in self.pairs:
            lines.append(f"It is so if {second + 1} ({self.told[second].text}) comes before {first + 1} ({self.told[first].text}).")
        return "\n".join(lines + [f'This order alone: row="{self.row}"'])


class Report:
    """What a search found.

    Attributes:
        orders: How many orders were tried to their end, those by chance too.
        by_chance: How many of them by chance.
        whole: Whether no further order can come to anything else.
        left_out: How many moves weren't tried where they could come to nothing else. Behind each are one or
            more orders.
        cut: How many runs were given up on the way, since they could come to nothing else.
        seconds: How long it took.
        failed: The orders that failed.
        ends: How many orders came to each end, if `orders` was told what an end is."""

    def __init__(self) -> None:
        self.orders = self.by_chance = self.left_out = self.cut = self.moves = 0
        self.whole = False
        self.seconds = 0.0
        self.failed: List[Failure] = []
        self.ends: Dict[Hashable, int] = {}

    def __str__(self) -> str:
        seen = "which are all that differ" if self.whole else "which aren't all"
        text = f"{self.orders} orders, {seen}; {len(self.failed)} failed; {self.seconds:.2f} s"
        return "\n\n".join([text, *map(str, self.failed)])


def actor_of(move: Move) -> Move:
    """Who makes a move."""
    return move[1:3] if move[0] in ("begin", "call", "end", "go", "choose", "tell", "job", "ask") else move[:2]
