"""What a call raises if it is refused. The errors are named after the answers of monk.h."""

from __future__ import annotations

from typing import Dict, Type


class MonkError(RuntimeError):
    """A call was refused, and nothing has changed."""


class NotNow(MonkError):
    """The seat is in another place: a wait from outside, an enter from inside."""


class Spent(MonkError):
    """The seat has too few events left. It can still leave."""


class NotOfKind(MonkError):
    """Monitors of this kind have no such call."""


class OutOfRange(MonkError, ValueError):
    """A kind, condition, flag, number, schedule or scene isn't one that can be taken."""


class NoMemory(MonkError, MemoryError):
    """A request for memory was refused."""


class NoSeat(MonkError):
    """Every seat is taken."""


class Busy(MonkError):
    """Seats are still taken, or the monitor didn't become free in time."""


class InUse(MonkError):
    """Another thread is in a call by this seat."""


class Stopped(MonkError):
    """The monitor was stopped while the seat waited. The seat still waits, and the end of its `with` gives it up."""


class Closed(MonkError):
    """The monitor is closed."""


NOT_NOW, SPENT, NOT_OF_KIND, RANGE, NO_SEAT, STOPPED = -1, -2, -3, -4, -6, -9
ERRORS: Dict[int, Type[MonkError]] = {NOT_NOW: NotNow, SPENT: Spent, NOT_OF_KIND: NotOfKind, RANGE: OutOfRange,
                                      -5: NoMemory, NO_SEAT: NoSeat, -7: Busy, -8: InUse, STOPPED: Stopped, -10: Closed}
