"""The rules for Python, over its own syntax tree."""
import ast
import re
from typing import Dict, List, Mapping, Optional, Sequence, Union

from mutating.mutant import Place, statement_rule

Function = Union[ast.FunctionDef, ast.AsyncFunctionDef]
Signatures = Mapping[str, Sequence[str]]  # of each function's name the types of its parameters
BOUNDS = {ast.Lt: ("<", "<="), ast.LtE: ("<=", "<"), ast.Gt: (">", ">="), ast.GtE: (">=", ">")}
EQUALS = {
    ast.Eq: ("==", "!="),
    ast.NotEq: ("!=", "=="),
    ast.Is: (r"is", "is not"),
    ast.IsNot: (r"is\s+not", "is"),
    ast.In: ("in", "not in"),
    ast.NotIn: (r"not\s+in", "in"),
}


def parameters(function: Function) -> List[str]:
    """The types of what is given by position, without the object itself."""
    types = [
        ast.dump(it.annotation) if it.annotation else "" for it in [*function.args.posonlyargs, *function.args.args] if it.arg not in ("self", "cls")
    ]
    return types


def signatures(texts: Sequence[str]) -> Dict[str, List[str]]:
    """Of each function's name the types of its parameters, where all functions of that name have the same."""
    found: Dict[str, List[str]] = {}
    for text in texts:
        for node in ast.walk(ast.parse(text)):
            if isinstance(node, (ast.FunctionDef, ast.AsyncFunctionDef)):
                types = parameters(node)
                found[node.name] = types if found.get(node.name, types) == types else []
    return found


class Finder(ast.NodeVisitor):
    """Finds the places of one file."""

    def __init__(self, text: str, known: Signatures) -> None:
        self.text, self.known = text, known
        self.places: List[Place] = []
        self.function: Optional[Function] = None
        self.names: List[str] = []  # that the function has bound so far
        lines = text.splitlines(keepends=True)
        self.lines = lines
        self.starts = [0]
        for line in lines:
            self.starts.append(self.starts[-1] + len(line))

    def at(self, line: int, column: int) -> int:
        """A place in the text; the tree counts columns in bytes."""
        return self.starts[line - 1] + len(self.lines[line - 1].encode()[:column].decode())

    def start(self, node: Union[ast.expr, ast.stmt]) -> int:
        return self.at(node.lineno, node.col_offset)

    def end(self, node: Union[ast.expr, ast.stmt]) -> int:
        return self.at(node.end_lineno or 0, node.end_col_offset or 0)

    def source(self, node: Union[ast.expr, ast.stmt]) -> str:
        return self.text[self.start(node) : self.end(node)]

    def replace(self, rule: str, node: Union[ast.expr, ast.stmt], new: str) -> None:
        self.places.append(Place(rule, self.start(node), self.end(node), new))

    def between(self, rule: str, left: ast.expr, right: ast.expr, word: str, new: str) -> None:
        """Replaces an operator that stands between two expressions, maybe with brackets and comments."""
        gap = re.sub(r"#.*", lambda it: " " * len(it[0]), self.text[self.end(left) : self.start(right)])
        found = re.search(rf"(?<![\w<>=!]){word}(?![\w=])", gap)
        if found:
            self.places.append(Place(rule, self.end(left) + found.start(), self.end(left) + found.end(), new))

    # Conditions

    def condition(self, test: ast.expr) -> None:
        if isinstance(test, ast.Constant):
            return
        if isinstance(test, ast.UnaryOp) and isinstance(test.op, ast.Not):
            self.replace("negate", test, f"({self.source(test.operand)})")
        else:
            self.replace("negate", test, f"(not ({self.source(test)}))")

    def visit_If(self, node: ast.If) -> None:
        if isinstance(node.test, ast.Name) and node.test.id == "TYPE_CHECKING":
            return
        self.condition(node.test)
        if not node.orelse and not isinstance(node.test, ast.Constant):
            self.replace("never", node.test, "False")
        self.no_else(node.body, node.orelse)
        self.within(node.test)
        self.block(node.body)
        self.block(node.orelse)

    def within(self, test: ast.expr) -> None:
        """Goes through a condition, which is negated as a whole already."""
        if isinstance(test, ast.Compare) and len(test.ops) == 1 and type(test.ops[0]) in EQUALS:
            self.visit(test.left)
            self.visit(test.comparators[0])
        else:
            self.visit(test)

    def visit_While(self, node: ast.While) -> None:
        self.condition(node.test)
        self.within(node.test)
        self.block(node.body)
        self.no_else(node.body, node.orelse)
        self.block(node.orelse)

    def visit_IfExp(self, node: ast.IfExp) -> None:
        self.condition(node.test)
        self.visit(node.body)
        self.within(node.test)
        self.visit(node.orelse)

    def visit_comprehension(self, node: ast.comprehension) -> None:
        self.visit(node.iter)
        for test in node.ifs:
            self.condition(test)
            self.within(test)

    def no_else(self, body: Sequence[ast.stmt], orelse: Sequence[ast.stmt]) -> None:
        """Drops an `else`, but no `elif`, whose condition is negated."""
        if orelse and self.text[: self.start(orelse[0])].rstrip().endswith(":") and not self.is_elif(orelse[0]):
            self.places.append(Place("else", self.start(orelse[0]), self.end(orelse[-1]), "pass"))

    def is_elif(self, node: ast.stmt) -> bool:
        return isinstance(node, ast.If) and self.text.startswith("elif", self.start(node))

    def visit_Compare(self, node: ast.Compare) -> None:
        for left, op, right in zip([node.left, *node.comparators], node.ops, node.comparators):
            for rule, table in [("bound", BOUNDS), ("equal", EQUALS)]:
                if type(op) in table:
                    self.between(rule, left, right, *table[type(op)])
        self.generic_visit(node)

    def visit_BoolOp(self, node: ast.BoolOp) -> None:
        word, new = ("and", "or") if isinstance(node.op, ast.And) else ("or", "and")
        for left, right in zip(node.values, node.values[1:]):
            self.between("and/or", left, right, word, new)
        self.generic_visit(node)

    # Constants and calls

    def visit_Constant(self, node: ast.Constant) -> None:
        if isinstance(node.value, bool):
            self.replace("constant", node, str(not node.value))
        elif isinstance(node.value, (int, float)):
            self.replace("constant", node, repr(node.value + 1))

    def visit_JoinedStr(self, node: ast.JoinedStr) -> None:
        pass  # (places in it aren't exact before Python 3.12)

    def visit_Call(self, node: ast.Call) -> None:
        name = node.func.id if isinstance(node.func, ast.Name) else node.func.attr if isinstance(node.func, ast.Attribute) else ""
        types = self.known.get(name, [])
        for k, (one, other) in enumerate(zip(node.args, node.args[1:])):
            same = k + 1 < len(types) and types[k] and types[k] == types[k + 1]
            if same and not isinstance(one, ast.Starred) and not isinstance(other, ast.Starred) and ast.dump(one) != ast.dump(other):
                between = self.text[self.end(one) : self.start(other)]
                self.places.append(Place("swap", self.start(one), self.end(other), self.source(other) + between + self.source(one)))
        self.generic_visit(node)

    # Statements

    def block(self, body: Sequence[ast.stmt], is_last: bool = False) -> None:
        for node in body:
            self.drop(node, is_last)
            self.visit(node)

    def drop(self, node: ast.stmt, is_last: bool) -> None:
        if self.function is None:
            return
        called = ""
        if isinstance(node, ast.Expr):
            if isinstance(node.value, ast.Constant):
                return
            call = node.value.value if isinstance(node.value, ast.Await) else node.value
            called = self.source(call.func) if isinstance(call, ast.Call) else ""
        elif isinstance(node, ast.Assign):
            if all(isinstance(it, ast.Name) and it.id not in self.names for it in node.targets):
                return  # what it binds would be missed at once
            if all(isinstance(it, ast.Tuple) for it in node.targets):
                return
        elif not isinstance(node, (ast.AugAssign, ast.Delete, ast.Raise, ast.Break, ast.Continue)) and not is_last:
            if not (isinstance(node, ast.Return) and node.value is None):
                return
        self.replace(statement_rule(called.rpartition(".")[2], is_last), node, "pass")

    def visit_Assign(self, node: ast.Assign) -> None:
        self.names += [it.id for target in node.targets for it in ast.walk(target) if isinstance(it, ast.Name)]
        self.visit(node.value)
        for target in node.targets:
            self.visit(target)

    def visit_AnnAssign(self, node: ast.AnnAssign) -> None:
        self.names += [it.id for it in ast.walk(node.target) if isinstance(it, ast.Name)]
        if node.value:
            self.visit(node.value)

    def visit_Assert(self, node: ast.Assert) -> None:
        pass

    def visit_For(self, node: Union[ast.For, ast.AsyncFor]) -> None:
        self.visit(node.iter)
        self.block(node.body)
        self.no_else(node.body, node.orelse)
        self.block(node.orelse)

    def visit_AsyncFor(self, node: ast.AsyncFor) -> None:
        self.visit_For(node)

    def visit_Try(self, node: ast.Try) -> None:
        self.block(node.body)
        for handler in node.handlers:
            self.block(handler.body)
        self.no_else(node.body, node.orelse)
        self.block(node.orelse)
        self.block(node.finalbody, is_last=True)

    def visit_With(self, node: Union[ast.With, ast.AsyncWith]) -> None:
        items = node.items
        for k, item in enumerate(items):
            if item.optional_vars is None and len(items) == 1:
                self.places.append(Place("with", self.start(node), self.end(item.context_expr), "if True"))
            elif item.optional_vars is None and k:
                before = items[k - 1].optional_vars or items[k - 1].context_expr
                self.places.append(Place("with", self.end(before), self.end(item.context_expr), ""))
            elif item.optional_vars is None:
                self.places.append(Place("with", self.start(item.context_expr), self.start(items[1].context_expr), ""))
            self.visit(item.context_expr)
        self.block(node.body)

    def visit_AsyncWith(self, node: ast.AsyncWith) -> None:
        self.visit_With(node)

    def visit_Return(self, node: ast.Return) -> None:
        if node.value is None:
            return
        returns = self.function.returns if self.function else None
        if isinstance(returns, ast.Name) and returns.id == "bool":
            if not isinstance(node.value, ast.Constant):
                self.condition(node.value)
        elif not (isinstance(node.value, ast.Constant) and node.value.value is None):
            self.replace("return", node.value, "None")
        self.visit(node.value)

    def visit_FunctionDef(self, node: Function) -> None:
        for default in [*node.args.defaults, *node.args.kw_defaults]:
            if default:
                self.visit(default)
        outer, names = self.function, self.names
        self.function, self.names = node, [it.arg for it in [*node.args.posonlyargs, *node.args.args, *node.args.kwonlyargs]]
        body = node.body[1:] if ast.get_docstring(node, clean=False) is not None else node.body
        answers = any(isinstance(it, ast.Return) and it.value for it in ast.walk(node))
        if len(body) > 1 and not answers:
            self.places.append(Place("early", self.start(body[0]), self.start(body[0]), "return\n" + " " * body[0].col_offset))
        self.block(body)
        self.function, self.names = outer, names

    def visit_AsyncFunctionDef(self, node: ast.AsyncFunctionDef) -> None:
        self.visit_FunctionDef(node)

    def visit_ClassDef(self, node: ast.ClassDef) -> None:
        outer, self.function = self.function, None
        self.block(node.body)
        self.function = outer

    def visit_Lambda(self, node: ast.Lambda) -> None:
        self.visit(node.body)


def places(text: str, known: Signatures) -> List[Place]:
    finder = Finder(text, known)
    finder.block(ast.parse(text).body)
    return finder.places
