"""The part of a lock that a monitor and its conditions have: a thread comes in by its own seat, and leaves."""

from __future__ import annotations

import operator
import threading
import types
from typing import TypeVar

from .handle import Handle
from .leaving import End
from .seat import Seat, leave_visit

V = TypeVar("V", bound="Visits")


class Here(threading.local):
    """What a thread has of a monitor: its seat, and the call that ends its visit. Python makes both anew for each
    thread that asks."""

    def __init__(self, handle: Handle) -> None:
        self.seat = Seat(handle)
        self.end = types.MethodType(leave_visit, self.seat)


class Visits:
    """The part of a lock that a monitor and its conditions have."""

    _here: Here

    @property
    def here(self) -> Seat:
        """This thread's seat, taken at the first use, and given back when the thread ends."""
        raise NotImplementedError

    def acquire(self) -> bool:
        """Comes in."""
        self.here.enter()
        return True

    def release(self) -> None:
        """Leaves; does nothing if a signal was the way out already. NotNow if there is no visit to end, so a second
        release is refused."""
        self.here.release()

    def __enter__(self: V) -> V:
        (self._here.seat or self.here).enter()
        return self

    __exit__ = End(operator.attrgetter("_here.end"))
