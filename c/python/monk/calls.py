"""The calls of a scene's programs. They are values: a program makes one by `yield`."""

from __future__ import annotations

import sys
from dataclasses import dataclass
from typing import Callable, Iterator, List, Optional, Tuple, Union

from .errors import NotNow, OutOfRange

Test = Callable[[], object]


@dataclass(frozen=True)
class Named:
    """A condition of a scene: its name, and the test for which its seats wait."""
    name: str
    until: Optional[Test] = None


@dataclass(frozen=True)
class Call:
    """A call that a program makes by `yield`."""
    verb: str
    name: str = ""
    until: Optional[Test] = None


# The type of a program's calls in a scene.
Calls = Iterator[Call]
# The calls that the program made in this step, with their lines. One that isn't yielded is forgotten; so many of them
# are a loop without an end.
made: List[Tuple[Call, int]] = []
MOST_MADE = 1000


def _new(call: Call) -> Call:
    """Notes a call that somebody makes by a function of this file."""
    made.append((call, sys._getframe(2).f_lineno))
    if len(made) > MOST_MADE:
        made[1:] = []
        raise NotNow(f"{call.verb} is called again and again, and never yielded: write `yield {call.verb}(..)`")
    return call


def condition(name: str, until: Optional[Test] = None) -> Named:
    """A condition, for `wait` and `signal` in place of its name. The test is for the automatic kinds, which have no
    signals."""
    if not isinstance(name, str) or not name:
        raise OutOfRange(f"no condition is {name!r}: give a name")
    return Named(name, until)


def _of(verb: str, on: Union[str, Named], until: Optional[Test] = None) -> Call:
    named = on if isinstance(on, Named) else condition(on)
    return Call(verb, named.name, until or named.until)


def told(call: Call) -> str:
    """The call as it is written."""
    return f"{call.verb}({call.name})"


def enter() -> Call:
    """Comes to the entry. The program goes on once it is inside."""
    return _new(Call("enter"))


def leave() -> Call:
    """Leaves. Does nothing under immediate return if a signal was the way out."""
    return _new(Call("leave"))


def wait(on: Union[str, Named], until: Optional[Test] = None) -> Call:
    """Waits on the condition of that name. Under an automatic kind it waits until the test holds."""
    return _new(_of("wait", on, until))


def signal(on: Union[str, Named]) -> Call:
    """Serves the first who waits there. Under immediate return it leaves as well. Under an automatic kind it does
    nothing."""
    return _new(_of("signal", on))


def signal_all(on: Union[str, Named]) -> Call:
    """Serves all who wait there; non-blocking kinds. Under an automatic kind it does nothing."""
    return _new(_of("signal_all", on))
