"""What the programs of a scene share, in words."""

from __future__ import annotations

import functools
import inspect
import types
from typing import Any, Dict, List, Sequence, Set, Tuple

from .scene import Program, bare, name_of

ADDRESS = " at 0x"


class Around:
    """The variables of the functions around a program, and around the functions that it calls."""

    def __init__(self, program: Program) -> None:
        self.cells: Dict[str, types.CellType] = {}
        self.objects: Dict[str, object] = {}
        seen: Set[int] = set()
        rest: List[Any] = [program]
        while rest:
            function = rest.pop()
            if id(function) not in seen:
                seen.add(id(function))
                rest += self._called_by(function)

    def _called_by(self, function: Any) -> List[Any]:
        """Keeps the variables around the function that it names, and the object of a method. Returns those that can
        be called."""
        if isinstance(function, functools.partial):
            return [function.func]
        if inspect.ismethod(function):
            self.objects[type(function.__self__).__name__.lower()] = function.__self__
        names = getattr(getattr(bare(function), "__code__", None), "co_freevars", ())
        cells = dict(zip(names, getattr(bare(function), "__closure__", None) or ()))
        called = {name: it for name, it in map(_content, cells.items()) if callable(it)}
        self.cells.update({name: cell for name, cell in cells.items() if name not in called})
        return list(called.values())


class Shared:
    """What the programs of a scene share."""

    def __init__(self, programs: Sequence[Program], names: Sequence[str] = ()) -> None:
        """names: those of the programs. A variable of which each program has its own has the program's name too."""
        found = [(title, Around(program)) for title, program in zip(names or map(name_of, programs), programs)]
        self.cells: Dict[str, types.CellType] = _merged([(title, around.cells) for title, around in found])
        self.objects: Dict[str, object] = _merged([(title, around.objects) for title, around in found])

    def named(self, value: object) -> str:
        """The variable that holds this object, else its type."""
        now = {**self.objects, **dict(map(_content, self.cells.items()))}
        return next((name for name, it in now.items() if it is value), type(value).__name__.lower())

    def words(self) -> Dict[str, str]:
        """Each variable by its name, as it is now."""
        now = {**self.objects, **dict(map(_content, self.cells.items()))}
        found: Dict[str, str] = {}
        for name in sorted(now):
            found.update(words_of(name, now[name]))
        return found

    def __str__(self) -> str:
        return in_words(self.words())


def _merged(found: Sequence[Tuple[str, Dict[str, Any]]]) -> Dict[str, Any]:
    """The variables of all programs. If two have different ones of one name, it is prefixed by the program's."""
    own: Dict[str, Set[int]] = {}
    every = [(title, name, it) for title, around in found for name, it in around.items()]
    for _, name, it in every:
        own.setdefault(name, set()).add(id(it))
    return {name if len(own[name]) == 1 else f"{title}.{name}": it for title, name, it in every}


def _content(variable: Tuple[str, types.CellType]) -> Tuple[str, Any]:
    name, cell = variable
    try:
        return name, cell.cell_contents
    except ValueError:
        return name, "no value yet"


def words_of(name: str, value: Any) -> Dict[str, str]:
    """A variable in words. If the words of an object are its address, which differs from run to run, these are its
    fields."""
    if hasattr(value, "is_staged") or callable(value):
        return {}
    words = repr(value)
    if ADDRESS not in words:
        return {name: words}
    fields = {f"{name}.{field}": repr(it) for field, it in getattr(value, "__dict__", {}).items()}
    return {field: words for field, words in fields.items() if ADDRESS not in words}


def in_words(data: Dict[str, str]) -> str:
    return ", ".join(f"{name} = {value}" for name, value in data.items())
