"""All orders, except those that can't end differently.

The search is stateless: each order is a run from the start. It walks a tree of moves, depth first, and keeps the path to
the last run. Footprints (footprints.py) decide which orders are left out:

- *Races.* Two moves of a run race if they touch the same thing and no move between them orders them. At the place of the
  earlier one, a move that leads to the other order is added, unless such a move is there already (source sets). Only
  these moves are tried.
- *Sleep sets.* A move that was tried at a place isn't tried again behind an independent sibling.
- A move that removes another possible move races with it, though the other was never made: both are tried.
- A move that fails the order removes all others, and conflicts with all: the moves behind it aren't known.

With a bound of workers, moves wait for one another in ways that races don't see. Then only sleep sets are used."""
import time
from typing import Any, Callable, Dict, Hashable, List, Optional, Set

from .footprints import ALL, CHANGES, CHECKED, Footprint, Move, independent
from .report import Report, row_of
from .runner import CUT, FAILED, NotDeterministic, RunResult, Runner, failure_of


class _Node:
    """A place in the path, with its possible moves, the tried ones and those still to try."""

    __slots__ = ("keys", "sleep", "done", "chosen", "footprint", "todo", "before")

    def __init__(self, keys: List[Move], sleep: Dict[Move, Footprint], chosen: Move) -> None:
        self.keys, self.sleep, self.chosen = keys, sleep, chosen
        self.done: Dict[Move, Footprint] = {}
        self.footprint: Optional[Footprint] = None
        self.todo: Set[Move] = {chosen}
        self.before = 0  # the places of the moves that this one has to come after, as bits


class Tree:
    """A search that can stop and go on."""

    def __init__(self, runner: Runner, report: Report, ends: Optional[Callable[[Any], Hashable]], reduces: bool) -> None:
        self.runner, self.report, self._ends, self._reduces = runner, report, ends, reduces
        self._races = reduces and not runner.settings.workers
        self._stack: List[_Node] = []
        self._sleep: Dict[Move, Footprint] = {}
        self._place = self._runs = 0
        self._watched = 0

    def search(self, runs: int, until: float, failures: int) -> None:
        """Makes at most so many runs, until no order is left, the moment comes, or so many orders have failed."""
        report = self.report
        while runs > 0 and not report.whole and len(report.failed) < failures and time.perf_counter() < until:
            runs -= 1
            self._place = 0
            self._sleep = {}
            ran = self.runner.run_once(self._choose, self._note_move)
            if len(self.runner.watched) > self._watched and self._reduces and ran.run.checks:
                self._begin_anew()
                continue
            self._count(ran)
            self._go_back()

    def _begin_anew(self) -> None:
        """Begins again, since checks have looked at something new and earlier footprints lack it."""
        self._watched = len(self.runner.watched)
        self._stack = []

    def _count(self, ran: RunResult) -> None:
        report = self.report
        if ran.how == CUT:
            report.cut += 1
            return
        if len(ran.row) < len(self._stack):
            raise NotDeterministic(f"after the moves\n    {row_of(ran.row)}\nit fails now, and didn't before: {ran.why}")
        report.orders += 1
        self._runs += 1
        if self._runs & (self._runs - 1) == 0:  # the first, second, fourth, eighth ..
            self.runner.check_repeats(ran)
        if ran.how == FAILED:
            self._note_failure()
            report.failed.append(failure_of(ran))
        elif self._ends is not None:
            end = self._ends(ran.run.world)
            report.ends[end] = report.ends.get(end, 0) + ran.run.weight

    def _note_failure(self) -> None:
        """Has the other moves tried in place of a move that failed the order, and before it."""
        if self._races and self._stack and self._stack[-1].footprint is None:
            self._stack[-1].todo.update(self._stack[-1].keys)
            self._race({ALL: CHANGES})

    # One run.

    def _choose(self, depth: int, keys: List[Move]) -> Optional[Move]:
        stack = self._stack
        if self._races and depth and depth == len(stack):
            last = stack[-1]
            last.todo.update(key for key in last.keys if key != last.chosen and key not in keys)
        if depth < len(stack):
            if stack[depth].keys != keys:
                raise NotDeterministic(
                    f"after the moves\n    {row_of([node.chosen for node in stack[:depth]])}\nthere "
                    f"were\n    {row_of(stack[depth].keys)}\nbefore, and now\n    {row_of(keys)}"
                )
            return stack[depth].chosen
        chosen = next((key for key in keys if key not in self._sleep), None)
        if chosen is not None:
            stack.append(_Node(keys, dict(self._sleep), chosen))
        return chosen

    def _note_move(self, key: Move, footprint: Footprint) -> None:
        node = self._stack[self._place]
        self._place += 1
        if self._place < len(self._stack):
            # (Checks may look at more by now.)
            if {**(node.footprint or {}), CHECKED: ""} != {**footprint, CHECKED: ""}:
                raise NotDeterministic(
                    f"at the end of\n    {row_of([it.chosen for it in self._stack[:self._place]])}\n"
                    f"it touched {node.footprint} before, and now {footprint}"
                )
            return
        if self._races:
            self._race(footprint)
        node.footprint = footprint
        if self._reduces:
            known = (*node.sleep.items(), *node.done.items())
            self._sleep = {other: touched for other, touched in known if other != key and independent(touched, footprint)}

    def _race(self, footprint: Footprint) -> None:
        """Finds the moves that the last one races with, and has the other orders tried, too."""
        stack = self._stack
        last, before = len(stack) - 1, 0
        racing = []
        for place in range(last - 1, -1, -1):
            if not before >> place & 1 and not independent(stack[place].footprint or {}, footprint):
                before |= stack[place].before | 1 << place
                racing.append(place)
        stack[last].before = before
        for place in racing:
            firsts = self._firsts(place, last)
            node = stack[place]
            if not any(key in node.todo or key in node.sleep for key in firsts):
                # (Where none is possible there, the later move waits for the earlier one, and there is no other order.)
                node.todo.update([key for key in firsts if key in node.keys][:1])

    def _firsts(self, place: int, last: int) -> List[Move]:
        """The moves that can come first at a place to reach the last move without the move of that place."""
        stack, inside = self._stack, 0
        firsts = []
        for each in [k for k in range(place + 1, last) if not stack[k].before >> place & 1] + [last]:
            if not stack[each].before & inside:
                firsts.append(stack[each].chosen)
            inside |= 1 << each
        return firsts

    def _go_back(self) -> None:
        """Goes back to the last place with a move still to try."""
        stack = self._stack
        while stack:
            node = stack[-1]
            node.done[node.chosen] = node.footprint or {ALL: CHANGES}
            left = [key for key in node.keys if key not in node.done and key not in node.sleep]
            following = next((key for key in left if not self._races or key in node.todo), None)
            if following is not None:
                node.chosen, node.footprint = following, None
                return
            self.report.left_out += len(node.keys) - len(node.done)
            stack.pop()
        self.report.whole = True
