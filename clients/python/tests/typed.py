#!/usr/bin/env python3
"""What a type checker has to find of the public names of cf and cf.service: each line without a remark is right, and
each remark is needed.

    mypy --strict clients/python/cf clients/python/tests/typed.py

It is read and not run. `python3 clients/python/tests/typed.py` says which public function or method, and which
attribute of a class that cf, cf.service, cf.store or cf.testing exports, has its type left out, which mypy may guess and pyright
reports.
"""
import ast
import asyncio
import concurrent.futures
import sys
from pathlib import Path
from typing import TYPE_CHECKING, Any, Callable, Iterator, List, Optional, Set, Tuple

if TYPE_CHECKING:
    import cf
    from cf.service import (
        Flow,
        History,
        LoopService,
        Meter,
        OpenRequest,
        Request,
        RequestFull,
        Scope,
        Service,
        Span,
        SpanFile,
        Spans,
        Stage,
        Wait,
        describe_nothing,
        describe_types,
        is_stopping,
        spans_of,
        spans_to,
    )
    from cf.store import DurableRequest, DurableStage, Functions
    from cf.testing import Arrival, Failure, Report, World, orders, pure, touches

    def load(number: int) -> str:
        ...

    def size(text: str) -> int:
        ...

    def futures(service: Service, request: Request, other: "concurrent.futures.Future[float]") -> None:
        text: Stage[str] = request.supply(load, 17)
        number: Stage[int] = text.then(size).or_timeout(2.5).named("size")
        both: Stage[Tuple[str, int]] = text.combine(number, lambda a, b: (a, b))
        mixed: Stage[float] = number.combine(other, lambda a, b: a + b)
        first: Stage[int] = number.either(text.then(size), lambda x: x)
        told: Stage[bool] = text.handle(lambda value, error: error is None)
        same: Stage[str] = text.when_done(lambda value, error: None).recover(str).complete_on_timeout("late", 1)
        shown: Stage[str] = same.recover(lambda error: str(error))
        print(shown)
        composed: Stage[int] = text.compose(lambda it: request.supply(size, it))
        deeper: Stage[int] = composed.recover_compose(lambda error: request.supply(size, ""))
        listed: Stage[List[int]] = request.gather(number, first)
        tried: Stage[str] = request.retry(load, 17, times=5, on=(OSError, KeyError))
        with request.scope(timeout=2, name="quotes") as scope:
            inner: Scope = scope.scope()
            best: Stage[str] = inner.ends_with(scope.first(tried, scope.supply(load, 17)))
            print(best, is_stopping())
        nothing: Stage[None] = request.all_of(number, text, other)
        one: Stage[float] = request.first_of(other, request.adopt(other))
        won: Stage[float] = request.first(other, one)
        votes: List[int] = request.quorum(1, number, first).result() + request.all(number, first).result()
        as_future: "concurrent.futures.Future[int]" = service.submit(size, "x")
        executor: concurrent.futures.Executor = service
        history: History = request.history()
        lines: List[str] = history.lines()
        error: Optional[BaseException] = number.exception(timeout=1)
        did: bool = number.complete(3) or number.fail(RequestFull()) or number.cancel() or number.abandon()
        print(both, mixed, told, same, deeper, listed, nothing, one, won, votes, as_future, executor, lines, error, did)
        request.supply(load, "x")  # type: ignore[arg-type]
        request.supply(load)  # type: ignore[call-arg]
        service.submit(load, number=17, cents=1)  # type: ignore[call-arg]
        number.complete("x")  # type: ignore[arg-type]
        wrong: Stage[str] = number.then(lambda x: x + 1)  # type: ignore[arg-type, return-value]
        number.then(load).then(load)  # type: ignore[arg-type]
        print(wrong)

    async def awaits(loop: asyncio.AbstractEventLoop) -> int:
        service = LoopService(loop)
        number: int = await service.request("r").supply(size, "x").then(lambda x: x + 1)
        return number + await service.request().supply(load, 1)  # type: ignore[arg-type]

    def flows(service: Service) -> None:
        typed_flow = Flow("order")
        typed_quote = typed_flow.supply(load, 3)
        typed_total = typed_flow.promise("number").then(size).combine(typed_quote, lambda a, b: b * a)
        request: Request = service.start(typed_flow, "x", name="order 17")
        stage: Stage[str] = request[typed_total]
        value: int = typed_flow.run(1)[typed_total].result()  # type: ignore[assignment]
        print(stage, value)

    def told(loop: asyncio.AbstractEventLoop, typed_flow: Flow) -> None:
        service = Service(2, describe=describe_types)
        requests: List[Request] = [
            service.request("r", describe=describe_nothing),
            service.start(typed_flow, 1, describe=lambda value: type(value).__name__),
            LoopService(loop, describe=str).request(describe=repr),
            typed_flow.run(describe=describe_types),
        ]
        service.request("r", describe=len)  # type: ignore[arg-type]
        service.request("r", describe="types")  # type: ignore[arg-type]
        print(requests)

    def stored(world: World, functions: Functions) -> "DurableStage[int]":
        store = world.store(killed=1, lost=2)
        store.worker("one", functions)
        shop = store.process("shop", functions, workers=0, ahead=1.5)
        request: DurableRequest = shop.request("order")
        shop.calls(lambda: request.promise().complete(1), name="a client")
        effects: List[Any] = store.effects
        now: float = shop.now()
        world.at_end(lambda: store.is_settled("order", "size") and store.outcome("order", "size") == 1, "it is there")
        store.worker("two")  # type: ignore[call-arg]
        print(effects, now)
        return request.supply(size, "x")

    def checkout(world: World) -> "Stage[int]":
        typed_charges: List[int] = []
        price: Arrival[int] = world.arrives(4900, "price", or_fails=OSError())
        paid = world.service.request("order 17").adopt(price).then(pure(lambda cents: cents + 1)).or_timeout(2)
        world.calls(paid.cancel, lambda: typed_charges.append(1), name="the client")
        world.check(lambda: len(typed_charges) <= 1, "charged at most once")
        world.calls("paid.cancel")  # type: ignore[arg-type]
        world.check(True, "charged")  # type: ignore[arg-type]
        return paid

    def tries() -> None:
        found: Report = orders(checkout, seconds=2, seed=3)
        told: List[Failure] = found.failed
        rows: List[str] = [failure.row for failure in told]
        many: int = orders(checkout, row=rows[0]).orders
        orders(checkout, chance="many")  # type: ignore[arg-type]
        print(many, touches("cache")(size)("x"))

    def traced(loop: asyncio.AbstractEventLoop) -> None:
        hooks: List[Callable[[History], object]] = [SpanFile(Path("spans")), Spans(), spans_to("spans", "shop"), lambda history: history.line()]
        services = [Service(on_end=hook) for hook in hooks]
        LoopService(loop, on_end=SpanFile("spans", service="shop"))
        with Service(contexts=True).request("r") as request:
            request.supply(load, 17)
            request.end()
        spans: List[Span] = spans_of(request.history())
        Service(on_end=SpanFile)  # type: ignore[arg-type]
        Service(on_end="spans")  # type: ignore[arg-type]
        print(services, spans)

    def watched(service: Service, on_loop: LoopService) -> None:
        meter = Meter(buckets=(0.1, 1.0))
        Service(on_end=meter)
        text: str = meter.text(service, on_loop) + meter.CONTENT_TYPE
        opened: List[OpenRequest] = service.open_requests() + on_loop.open_requests()
        waits: List[Wait] = opened[0].waits + opened[0].request.waits()
        waits[0].seconds.is_integer()  # type: ignore[union-attr]
        meter.text(opened[0].request)  # type: ignore[arg-type]
        print(text, waits)

    def ledgers(plan: cf.Plan) -> None:
        typed_ledger = cf.Ledger(plan, room=2)
        told: cf.StepResult = typed_ledger.step(3)
        task: Optional[cf.Task] = told.task
        args: Tuple[Any, ...] = () if task is None else task.args
        again: cf.StepResult = typed_ledger.step(3, task, cf.Thrown(4), first=1)
        news: List[cf.StageState] = again.news
        typed_ledger.apply_all([1, 2])
        typed_ledger.restart()
        typed_ledger.step(3, answer="x")  # type: ignore[arg-type]
        event: cf.Event = cf.events.FailAs(3, 0, cf.Failure.TIMED_OUT, 7)
        late: bool = cf.Graph(plan).fail_as(0, cf.Failure.BAD_ANSWER, code=7)
        fault: cf.Fault = cf.BadAnswer(7 + cf.TimedOut().code)
        cf.Graph(plan).fail_as(0, "timeout")  # type: ignore[arg-type]
        print(event, late, fault)
        print(args, news)


def left_out(tree: ast.AST, name: str) -> Iterator[str]:
    """Where a public function, or a public attribute of a class, has no type of its own."""
    for node in ast.iter_child_nodes(tree):
        if isinstance(node, ast.ClassDef):
            if not node.name.startswith("_"):
                yield from left_out(node, f"{name}.{node.name}")
        elif isinstance(node, (ast.FunctionDef, ast.AsyncFunctionDef)):
            if not node.name.startswith("_") or node.name.startswith("__"):
                given = [*node.args.posonlyargs, *node.args.args, *node.args.kwonlyargs, *filter(None, [node.args.vararg, node.args.kwarg])]
                bare = [it.arg for it in given if it.annotation is None and it.arg not in ("self", "cls")]
                if bare or node.returns is None:
                    yield f"{name}.{node.name}: {', '.join(bare) or 'what it gives'}"


def undeclared(cls: ast.ClassDef) -> Iterator[str]:
    """The public attributes that a class sets, whose type is neither told nor that of a constant. What exceptions
    have is their own."""
    told = {node.target.attr for node in ast.walk(cls) if isinstance(node, ast.AnnAssign) and isinstance(node.target, ast.Attribute)} | {"args"}
    for node in ast.walk(cls):
        if isinstance(node, ast.Assign) and not isinstance(node.value, ast.Constant):
            for it in [it for target in node.targets for it in getattr(target, "elts", [target])]:
                is_own = isinstance(it, ast.Attribute) and isinstance(it.value, ast.Name) and it.value.id == "self"
                if is_own and it.attr not in told and it.attr[0] != "_":
                    yield it.attr


def exported(package: Path) -> Set[str]:
    """What the packages name as theirs."""
    assigned = [node for file in package.rglob("__init__.py") for node in ast.parse(file.read_text()).body if isinstance(node, ast.Assign)]
    return {
        name
        for node in assigned
        if isinstance(node.targets[0], ast.Name) and node.targets[0].id == "__all__"
        for name in ast.literal_eval(node.value)
    }


def main() -> int:
    package = Path(__file__).resolve().parent.parent / "cf"
    names = exported(package)
    found: List[str] = []
    for file in sorted(package.rglob("*.py")):
        tree, module = ast.parse(file.read_text()), ".".join(file.relative_to(package.parent).with_suffix("").parts)
        found += left_out(tree, module)
        classes = [node for node in tree.body if isinstance(node, ast.ClassDef) and node.name in names]
        found += [f"{module}.{node.name}.{attribute}" for node in classes for attribute in undeclared(node)]
    print(*found, sep="\n", end="\n" if found else "")
    print(f"{len(found)} public names without a type")
    return 1 if found else 0


if __name__ == "__main__":
    sys.exit(main())
