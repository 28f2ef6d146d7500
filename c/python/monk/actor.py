"""A program of a scene at its seat, and how far it has come."""

from __future__ import annotations

import contextlib
import inspect
import os
import sysconfig
import traceback
from dataclasses import dataclass
from typing import Any, List, Optional, Tuple, Union

from . import calls
from .calls import Call
from .errors import OutOfRange
from .run import WRONG
from .scene import Program, line_of
from .seat import Seat
from .staged import Threaded

# Frames of these files aren't part of what a user wrote.
OTHERS = (os.path.dirname(os.path.abspath(__file__)) + os.sep, sysconfig.get_paths()["stdlib"] + os.sep, "<frozen",
          "<string>")


class Over(Exception):
    """The run is over: its outcome, whose fault that is, and why."""

    def __init__(self, outcome: str, who: str, why: str, is_misuse: bool = False, is_endless: bool = False) -> None:
        super().__init__(why)
        self.outcome, self.who, self.why, self.is_misuse = outcome, who, why, is_misuse
        # No other order has to be tried.
        self.is_endless = is_endless


class Steps:
    """The calls of a generator."""
    first = {"outside": "`yield enter()` comes first", "inside": "`yield leave()` comes first"}
    untested = "write wait({name!r}, lambda: ..) in line {line}"

    def __init__(self, program: Program) -> None:
        self.generator: Any = program()

    def __next__(self) -> Any:
        return next(self.generator)

    def close(self) -> None:
        """Ends the program. It may have a `finally` that makes a call, which nobody takes any more."""
        with contextlib.suppress(Exception):
            self.generator.close()

    @property
    def line(self) -> int:
        """The line at which the program is."""
        inner = self.generator
        while inspect.isgenerator(inner.gi_yieldfrom):
            inner = inner.gi_yieldfrom
        return int(inner.gi_frame.f_lineno) if inner.gi_frame else 0


@dataclass
class Served:
    """Who served a seat in this visit, on which condition, by which event; and at which event it went on."""
    by: str = ""
    on: str = ""
    at: int = 0
    then: int = 0


class Actor:
    """A program of a scene at its seat. Its place is outside, entry, inside, condition, waiter, signaller or done."""

    def __init__(self, name: str, seat: Seat, program: Program) -> None:
        self.name, self.seat, self.program = name, seat, program
        self.steps = _steps(program)
        self.next: Optional[Call] = None
        self.place, self.served = "outside", Served()
        # Calls that it made and didn't yield yet, with their lines.
        self.unyielded: List[Tuple[Call, int]] = []
        seat.name = name

    @property
    def on(self) -> str:
        """The condition on which it waits, or waited last: the one of its last call."""
        return self.next.name if self.next else ""

    def waits(self) -> bool:
        return self.place in ("entry", "condition", "waiter", "signaller")

    def advance(self) -> None:
        """Runs the program up to its next call."""
        calls.made.clear()
        try:
            call = next(self.steps)
        except StopIteration:
            return self._end()
        except MemoryError:
            raise                               # each other order would fill the memory again
        except Over as over:                    # of a program in another language
            over.who = self.name
            raise
        except Exception as fault:
            self.unyielded += calls.made
            forgotten = self.forgotten()
            raise Over(WRONG, self.name, forgotten or where(fault), bool(forgotten)) from None
        if not isinstance(call, Call):
            why = f"yields {call!r} in line {self.steps.line}, which is no call: write `yield enter()` and the like"
            raise Over(WRONG, self.name, why)
        self.next = call
        if self.unyielded or len(calls.made) > 1:
            self.unyielded = [it for it in self.unyielded + calls.made if it[0] is not call]

    def forgotten(self) -> str:
        """Says which call it made and didn't yield, if there is one."""
        if not self.unyielded:
            return ""
        call, line = self.unyielded[0]
        return f"calls {calls.told(call)} in line {line}, and doesn't yield it: write `yield {call.verb}(..)`"

    def _end(self) -> None:
        self.unyielded += calls.made
        if self.unyielded:
            raise Over(WRONG, self.name, self.forgotten(), is_misuse=True)
        if self.place == "inside":
            line = line_of(self.program)
            place = f"line {line}: its beginning" if line else f"its last call: line {self.steps.line}"
            raise Over(WRONG, self.name, f"ends inside: there is no leave ({place})")
        self.next, self.place = None, "done"


def _steps(program: Any) -> Any:
    """The calls of a program: `next`, its line, `close`, and what comes before a call that can't be made yet.
    OutOfRange, with its name and line, if it needs arguments."""
    if hasattr(program, "steps"):
        return program.steps()
    if not inspect.isgeneratorfunction(program):
        return Threaded(program)
    try:
        return Steps(program)
    except TypeError as fault:
        raise OutOfRange(f"{fault} (line {line_of(program)}): a program takes no arguments") from None


def where(fault: BaseException) -> str:
    """The error, with the user's line that raised it."""
    frames = traceback.extract_tb(fault.__traceback__)
    own = [frame for frame in frames if not frame.filename.startswith(OTHERS)]
    place = f" (line {own[-1].lineno}: {own[-1].line})" if own else ""
    return f"{type(fault).__name__}: {_said(fault)}{place}"


def _said(fault: BaseException) -> str:
    try:
        return str(fault)
    except Exception:
        return "(its text can't be made)"


Option = Tuple[Actor, str]
