"""What is refused in the files of C, C++, Java, Go, JavaScript, Rust, shell and Python that git tracks: lines that are
too wide, files that are too long; and in Python also what has no type, and functions that are too big."""
from __future__ import annotations

import ast
import os
import re
import subprocess
from typing import Iterator, List, Optional, Union

PYTHON, SHELLS = b"#!/usr/bin/env python3\n", (b"#!/usr/bin/env bash\n", b"#!/bin/sh\n")
ENDINGS = (".c", ".cc", ".cpp", ".go", ".h", ".hpp", ".java", ".js", ".rs")
WIDTH, FILE_LINES, LINES, DEEP, PARAMETERS = 120, 400, 40, 3, 6
# What is quoted doesn't count for the width of a line.
QUOTED = re.compile(r"""\"(?:[^"\\]|\\.)*\"|'(?:[^'\\]|\\.)*'""")
# Its parameters are the keywords of the public call `monk.Monitor(..)`, eight of them.
PUBLIC_CALL = "c/python/monk/monitor.py: __init__"
FUNCTIONS = (ast.FunctionDef, ast.AsyncFunctionDef)
NESTING = (ast.If, ast.For, ast.AsyncFor, ast.While, ast.With, ast.AsyncWith, ast.Try)
Function = Union[ast.FunctionDef, ast.AsyncFunctionDef]


def first_line(path: str) -> bytes:
    """How the file begins, if there is one."""
    if not os.path.isfile(path):
        return b""
    with open(path, "rb") as file:
        return file.readline(len(PYTHON))


def is_python(path: str) -> bool:
    """Whether there is such a file, and it is Python."""
    return path.endswith(".py") and os.path.isfile(path) or first_line(path) == PYTHON


def is_read(path: str) -> bool:
    """Whether there is such a file, and it is of one of these languages."""
    return path.endswith(ENDINGS) or is_python(path) or first_line(path) in SHELLS


def depth(node: ast.AST, above: Optional[ast.AST] = None) -> int:
    """How deep it is, with what is nested in it. An `elif` is as deep as its `if`, whose column it has, and a
    function in it counts for itself."""
    if isinstance(node, FUNCTIONS):
        return 0
    is_elif = isinstance(node, ast.If) and isinstance(above, ast.If) and node.col_offset == above.col_offset
    below = (depth(it, node) for it in ast.iter_child_nodes(node) if not isinstance(it, ast.expr))
    return (isinstance(node, NESTING) and not is_elif) + max(below, default=0)


def parameters(function: Function) -> List[ast.arg]:
    """The parameters, but for self and cls."""
    of = function.args
    rest = [it for it in (of.vararg, of.kwarg) if it]
    return [it for it in (*of.posonlyargs, *of.args, *of.kwonlyargs, *rest) if it.arg not in ("self", "cls")]


def faults(path: str, function: Function) -> Iterator[str]:
    """What is wrong with the function."""
    named = parameters(function)
    untyped = [it.arg for it in named if it.annotation is None] + ["its result"] * (function.returns is None)
    lines = (function.end_lineno or function.lineno) - function.lineno + 1
    deep = max(depth(it) for it in function.body)
    if untyped:
        yield f"without a type: {', '.join(untyped)}"
    if lines > LINES:
        yield f"{lines} lines, and {LINES} are the most"
    if deep > DEEP:
        yield f"{deep} deep, and {DEEP} is the most"
    if len(named) > PARAMETERS and f"{path}: {function.name}" != PUBLIC_CALL:
        yield f"{len(named)} parameters, and {PARAMETERS} are the most"


def sizes(path: str, text: str) -> Iterator[str]:
    """The lines that are too wide, and the file if it is too long."""
    lines = text.splitlines()
    if len(lines) > FILE_LINES:
        yield f"{path}: {len(lines)} lines, and {FILE_LINES} are the most"
    for number, line in enumerate(lines, 1):
        if len(QUOTED.sub("", line)) > WIDTH:
            yield f"{path}:{number}: above {WIDTH} columns"


def functions(path: str, text: str) -> Iterator[str]:
    """What is wrong with the functions of a file of Python."""
    for function in (it for it in ast.walk(ast.parse(text, path)) if isinstance(it, FUNCTIONS)):
        yield from (f"{path}:{function.lineno}: {function.name}: {it}" for it in faults(path, function))


def refused() -> Iterator[str]:
    """What is refused in the repository, whose top is the current folder."""
    tracked = subprocess.check_output(["git", "ls-files", "-z"], text=True).split("\0")
    for path in filter(is_read, tracked):
        with open(path, encoding="utf-8") as file:
            text = file.read()
        yield from sizes(path, text)
        if is_python(path):
            yield from functions(path, text)
