"""Runs a test in every order."""
import functools
import inspect
import time
from typing import Any, Callable, Hashable, Optional

from .chance import Chance
from .report import Report, moves_of
from .runner import FAILED, Runner, failure_of
from .search import Tree
from .smaller import Smaller, pairs_of
from .state import NeedsThreads, Settings
from .world import World

AT_FIRST = 100  # orders in turn, before some by chance
PART = 10  # one of so many is by chance, and so much of the time
MOST_TOLD = 20  # failures that are made smaller

Test = Callable[[World], Any]


def orders(
    test: Test,
    *,
    most: int = 100_000,
    seconds: float = 10.0,
    row: Optional[str] = None,
    chance: int = 0,
    seed: int = 0,
    failures: int = 1,
    workers: int = 0,
    fine: bool = False,
    reduce: bool = True,
    smaller: bool = True,
    free_clock: bool = False,
    ends: Optional[Callable[[World], Hashable]] = None,
) -> Report:
    """Runs a test in every order, until one fails.

        def checkout(world):
            charges = []
            price = world.service.request("order 17").adopt(world.arrives(4900, "price"))
            world.check(lambda: len(charges) <= 1, "charged at most once")
            return price.then(charges.append).or_timeout(2).recover(charges.append)

        for failure in orders(checkout).failed:
            print(failure)

    Args:
        test: Called with a `World`, once for each order. It has to do the same each time. The future or the list of
            futures that it returns has to be settled in the end.
        most: The greatest number of orders, including those cut short.
        seconds: How long the search may take. The last order is tried to its end.
        row: The row of one order, which is tried alone.
        chance: How many orders are drawn at random, in place of all in turn.
        seed: The seed of these draws.
        failures: After how many failing orders the search ends.
        workers: How many functions may run at the same time. With 0 any number.
        fine: Whether others may go on at each change that a function makes to a stage.
        reduce: Whether to leave out orders that can't end differently.
        smaller: Whether to make failing orders smaller, and to name the deciding moves.
        free_clock: Whether limits need not pass, as in `cf_look explore`.
        ends: Describes an end, for `Report.ends`.

    Returns:
        The report. A fault in the test itself is a failing order.

    Raises:
        NotDeterministic: The test did other things with the same choices."""
    settings = Settings(workers, free_clock, fine, reduce, fine)
    began = time.perf_counter()
    try:
        report = _search(Runner(test, settings), most, began + seconds, row, chance, seed, failures, reduce, smaller, ends)
    except NeedsThreads:
        runner = Runner(test, settings._replace(has_threads=True))
        report = _search(runner, most, began + seconds, row, chance, seed, failures, reduce, smaller, ends)
    report.seconds = time.perf_counter() - began
    return report


def _search(
    runner: Runner,
    most: int,
    until: float,
    row: Optional[str],
    chance: int,
    seed: int,
    failures: int,
    reduce: bool,
    smaller: bool,
    ends: Optional[Callable[[World], Hashable]],
) -> Report:
    report = Report()
    if row is not None:
        ran = runner.follow(moves_of(row))
        report.orders = 1
        if ran.how == FAILED:
            report.failed.append(failure_of(ran))
            report.failed[0].pairs = pairs_of(runner, report.failed[0])
        return report
    if chance:
        Chance(runner, report, seed).draw(chance, until, failures)
    else:
        _search_all(runner, report, most, until, failures, Tree(runner, report, ends, reduce), seed)
    report.failed = [failure_of(runner.follow(failure.moves)) for failure in report.failed]
    if smaller:
        report.failed = [Smaller(runner, failure).shrink() for failure in report.failed[:MOST_TOLD]]
        for failure in report.failed:
            failure.pairs = pairs_of(runner, failure)
    report.moves = runner.moves
    return report


def _search_all(runner: Runner, report: Report, most: int, until: float, failures: int, tree: Tree, seed: int) -> None:
    """Tries some orders in turn, and if these aren't all, some by chance: a failure that needs the last of many moves to
    come first is found late in turn, and soon by chance."""
    at_first = min(AT_FIRST, most)
    tree.search(at_first, until, failures)
    if report.whole or len(report.failed) >= failures or most <= at_first:
        return
    part = time.perf_counter() + (until - time.perf_counter()) / PART
    Chance(runner, report, seed).draw(most // PART, part, failures)
    tree.search(most - report.by_chance - at_first, until, failures)


def every_order(test: Optional[Callable[..., Any]] = None, **options: Any) -> Any:
    """Makes a test of pytest or unittest that is run in every order, and fails with the story of the first order
    that fails.

        @every_order(whole=True)
        def test_checkout(world):
            ..

    Args:
        test: A function whose last parameter is a `World`. Parameters before it, such as `self` or fixtures of pytest,
            work as in any test.
        options: As of `orders`. With `whole=True` the test also fails if not all orders could be tried."""
    if test is None:
        return functools.partial(every_order, **options)
    tested: Callable[..., Any] = test
    signature = inspect.signature(tested)
    *others, world = signature.parameters.values()
    wants_whole = options.pop("whole", False)

    @functools.wraps(test)
    def runs(*given: Any, **named: Any) -> None:
        report = orders(lambda made: tested(*given, **named, **{world.name: made}), **options)
        if report.failed or wants_whole and not report.whole:
            raise AssertionError(str(report))

    del runs.__wrapped__  # type: ignore[attr-defined]
    runs.__signature__ = signature.replace(parameters=others)  # type: ignore[attr-defined]
    return runs
