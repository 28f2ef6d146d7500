"""A scene: the programs that meet at a monitor, and what has to hold."""

from __future__ import annotations

import functools
import inspect
import re
from dataclasses import dataclass
from typing import Any, Callable, Iterator, List, Optional, Sequence, Union

from .calls import Call, Test
from .errors import OutOfRange
from .handle import SHAPES

# One of a monitor's seats reads the history.
MOST_PROGRAMS = SHAPES["seats"][1] - 1
NO_WORD = re.compile(r"[\s/]")
Program = Callable[[], Union[Iterator[Call], object]]


@dataclass
class Scene:
    """Programs; a test that has to hold whenever the monitor is given up; and one that has to hold at the end of a
    run. A test fails if it returns a false value other than None, or raises an error. may_wait: the names of programs
    that may rightly wait for ever. guarded: the data that no program may change while it is outside; without it all
    that the programs share, and () for none."""
    programs: Sequence[Program]
    invariant: Optional[Test] = None
    end: Optional[Test] = None
    may_wait: Sequence[str] = ()
    guarded: Optional[Sequence[object]] = None
    # What the programs share, if they aren't Python's: its `words()`, as those of shared.Shared.
    shared: Any = None


# A function that makes fresh data, and returns its programs. It is called anew for each run.
Made = Callable[[], Union[Scene, Sequence[Program]]]


def scene_of(made: Made) -> Scene:
    """The scene that the function makes. OutOfRange, with the function's name and line, if it makes no scene."""
    given: Any = made()
    scene = given if isinstance(given, Scene) else None
    programs = scene.programs if scene else given
    if not isinstance(programs, (list, tuple)) or not all(map(callable, programs)):
        raise OutOfRange(f"{_place(made)} returns {given!r}: it should return its programs, as `return taker, putter`")
    if not 1 <= len(programs) <= MOST_PROGRAMS:
        raise OutOfRange(f"{_place(made)} has {len(programs)} programs: 1 to {MOST_PROGRAMS} can be played")
    return scene or Scene(programs)


def _place(made: Made) -> str:
    return f"{name_of(made)} (line {line_of(made)})"


def line_of(function: Callable[..., object]) -> int:
    """The line at which a function begins; 0 if it isn't known."""
    return int(getattr(getattr(bare(function), "__code__", None), "co_firstlineno", 0))


def name_of(function: Callable[..., object]) -> str:
    return str(getattr(bare(function), "__name__", type(function).__name__))


def bare(function: Any) -> Any:
    """The function of a method, or of one with some arguments given."""
    whole = function.func if isinstance(function, functools.partial) else function
    return inspect.unwrap(getattr(whole, "__func__", whole))


def titles(programs: Sequence[Program]) -> List[str]:
    """The names of the programs, as the words of a schedule. Programs with the same name are numbered."""
    names = [NO_WORD.sub("_", name_of(program)) for program in programs]
    found = [name if names.count(name) == 1 else f"{name}{names[:i].count(name) + 1}" for i, name in enumerate(names)]
    return found if len(set(found)) == len(found) else [f"{name}.{i}" for i, name in enumerate(names, 1)]
