"""What can be said of a student's file before it runs: calls that are made and not yielded; and what it does to the
package that judges it."""

from __future__ import annotations

import ast
import inspect
import sys
from typing import Any, Dict, Iterator, List, Optional, Tuple

VERBS = ("enter", "leave", "wait", "signal", "signal_all")
# Modules whose functions a check rests on.
JUDGES = ("monk", "builtins", "__main__", "given")


def unyielded(text: str) -> List[str]:
    """Says of each call that stands alone, without a `yield`, its line and what to write."""
    try:
        tree = ast.parse(text)
    except (SyntaxError, ValueError):
        return []
    return [f"line {line}: `{verb}(..)` without `yield`: write `yield {verb}(..)`" for line, verb in _alone(tree)]


def _alone(tree: ast.AST) -> Iterator[Tuple[int, str]]:
    names = dict(_imported(tree))
    for node in ast.walk(tree):
        call = node.value if isinstance(node, ast.Expr) else None
        verb = _verb(call.func, names) if isinstance(call, ast.Call) else None
        if call is not None and verb:
            yield call.lineno, verb


def _imported(tree: ast.AST) -> Iterator[Tuple[str, str]]:
    """The names under which the file has the calls, and which they are."""
    imports = [node for node in ast.walk(tree) if isinstance(node, ast.ImportFrom) and node.module == "monk"]
    for name in [name for node in imports for name in node.names]:
        if name.name in VERBS:
            yield name.asname or name.name, name.name
        elif name.name == "*":
            yield from zip(VERBS, VERBS)


def _verb(function: ast.expr, names: Dict[str, str]) -> Optional[str]:
    if isinstance(function, ast.Name):
        return names.get(function.id)
    is_of_monk = (isinstance(function, ast.Attribute) and isinstance(function.value, ast.Name)
                  and function.value.id == "monk" and function.attr in VERBS)
    return function.attr if is_of_monk and isinstance(function, ast.Attribute) else None


class Judges:
    """The functions and classes on which a check rests, as they are before a student's file is loaded."""

    def __init__(self) -> None:
        self.were = dict(_functions())

    def changed(self) -> str:
        """The name of one that is another now, or nothing."""
        now = dict(_functions())
        return next((name for name, it in self.were.items() if now.get(name) is not it), "")


def _functions() -> Iterator[Tuple[str, Any]]:
    """Each function and class, by its name, and the code of each function."""
    modules = [(name, module) for name, module in list(sys.modules.items()) if name.split(".")[0] in JUDGES]
    for name, module in modules:
        for key, value in list(vars(module).items()):
            if callable(value):
                yield from _parts(f"{name}.{key}", value)


def _parts(name: str, value: Any) -> Iterator[Tuple[str, Any]]:
    yield name, value
    if inspect.isfunction(value):
        yield f"{name}'s code", value.__code__
    if not inspect.isclass(value) or value.__module__.split(".")[0] != "monk":
        return
    # (what else Python keeps in a class may change)
    for key, part in list(vars(value).items()):
        if inspect.isfunction(part):
            yield f"{name}.{key}'s code", part.__code__
        if callable(part) or isinstance(part, property):
            yield f"{name}.{key}", part
