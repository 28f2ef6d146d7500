"""The library's monitor, which a monitor of Python and its seats share."""

from __future__ import annotations

import ctypes
import os
import threading
import weakref
from typing import TYPE_CHECKING, Dict, List, Optional

from . import libmonk
from .errors import NotNow, OutOfRange
from .kinds import KINDS, mode_of
from .libmonk import Shape, checked
from .looks import events_in, without_looks

if TYPE_CHECKING:
    from .seat import Seat

USUAL_BUDGET = 65536
# What the numbers of a shape may be: the least, the most, and the same in words.
SHAPES = {"seats": (1, 32, "1 to 32"), "conditions": (0, 8, "0 to 8"), "flags": (0, 32, "0 to 32"),
          "budget": (2, 2**20, f"2 to {2**20}, or 0 for {USUAL_BUDGET}"), "seed": (0, 2**64 - 1, f"0 to {2**64 - 1}")}


def test_shape(**numbers: Optional[int]) -> None:
    """Raises OutOfRange if one of these numbers can't be taken. None stands for a number that isn't given."""
    for name, number in numbers.items():
        least, most, told = SHAPES[name]
        if number is not None and not least <= number <= most and (name, number) != ("budget", 0):
            raise OutOfRange(f"Monitor({name}={number}): {name} is {told}")


def has_none_such(call: str, what: str, count: int) -> OutOfRange:
    """The error of a call with a number that the monitor doesn't have: it has `count` of them."""
    return OutOfRange(f"{call}: {what} are 0 to {count - 1}" if count else f"{call}: the monitor has no {what}")


class Numbered:
    """The conditions of a monitor, or its flags. Their number is the one that is given, else how many are asked for
    before the first use."""

    def __init__(self, what: str, said: Optional[int]) -> None:
        self.what, self.said, self.asked = what, said, 0
        self._names: Dict[int, str] = {}

    @property
    def count(self) -> int:
        return self.asked if self.said is None else self.said

    def name(self, number: int) -> str:
        """Its name, else its number."""
        return self._names.get(number, str(number))

    @property
    def names(self) -> List[str]:
        return [self.name(number) for number in range(self.count)]

    def of_number(self, number: int) -> int:
        if not 0 <= number < self.count:
            raise OutOfRange(f"the monitor has no {self.what} {number}")
        return number

    def next(self, name: Optional[str], is_made: bool) -> int:
        """The number of the one with that name. If the name is new, it is the next number."""
        for number, known in self._names.items():
            if known == name:
                return number
        number, most = self.asked, SHAPES[self.what + "s"][1] if self.said is None else self.said
        if self.said is None and is_made:
            raise NotNow(f"a {self.what} is asked for before the monitor is first used: give Monitor({self.what}s=..)")
        if number >= most:
            raise OutOfRange(f"the monitor has no {self.what} {number}")
        self.asked = number + 1
        if name is not None:
            self._names[number] = name
        return number


class Handle:
    """The library's monitor. A Monitor and its seats share it, so it ends with the last of them."""

    def __init__(self, shape: Shape, conditions: Optional[int], flags: Optional[int]) -> None:
        self.at, self.shape = ctypes.c_void_p(), shape
        self.kind, self.mode = KINDS[shape.kind], mode_of(KINDS[shape.kind])
        self.conditions, self.flags = Numbered("condition", conditions), Numbered("flag", flags)
        # By the numbers of seats: the seat that was taken last, and whose it was.
        self.sitters: "Dict[int, weakref.ref[Seat]]" = {}
        self.names: Dict[int, str] = {}
        # How many seconds a thread waits before it says who waits where. None: for ever.
        self.patience: Optional[float] = None
        self.is_told = self.is_stopped = False
        self._process, self._is_closed = os.getpid(), False
        self._making = threading.Lock()
        # The events by which the library came in for a look, from 1 on. It leaves at the next event.
        self._looks: List[int] = []
        if conditions is not None and flags is not None:
            self.made()

    def made(self) -> ctypes.c_void_p:
        """The library's pointer. The first call makes the monitor, with the conditions and flags that were asked for
        until then."""
        with self._making:
            if not self.at:
                self.shape.conditions, self.shape.flags = self.conditions.count, self.flags.count
                checked(libmonk.library.monk_make(ctypes.byref(self.at), ctypes.byref(self.shape)))
        return self.at

    @property
    def budget(self) -> int:
        return int(self.shape.budget) or USUAL_BUDGET

    def is_here(self) -> bool:
        """Whether this process made it: in the child of a fork the library must not be called."""
        return self._process == os.getpid()

    def seats(self) -> List[Seat]:
        """The seats that are taken."""
        found = [sitter() for _, sitter in sorted(self.sitters.items())]
        return [seat for seat in found if seat]

    def stop(self) -> None:
        self.is_stopped = True
        checked(libmonk.library.monk_stop(self.made()))

    def close(self) -> None:
        checked(libmonk.library.monk_close(self.made()))
        self._is_closed = True

    def history(self, by: Optional[Seat]) -> str:
        """The history by a seat that is inside, else by a look: the library's own visit, which is left out."""
        text = self._text(by)
        if by is None and not self._is_closed:
            self._looks.append(events_in(text))
        return without_looks(text, self._looks)

    def _text(self, by: Optional[Seat]) -> str:
        text, length = ctypes.c_void_p(), ctypes.c_size_t()
        checked(libmonk.library.monk_history(self.made(), by, ctypes.byref(text), ctypes.byref(length)))
        try:
            return ctypes.string_at(text.value or 0, length.value).decode("ascii")
        finally:
            libmonk.free(text)

    def __del__(self) -> None:
        if self.at and self.is_here():
            libmonk.library.monk_free(self.at)
