"""The conditions of a monitor, and its flags."""

from __future__ import annotations

from typing import TYPE_CHECKING, Callable, Optional, TypeVar

from .errors import NotOfKind
from .seat import Seat
from .visits import Visits

if TYPE_CHECKING:
    from .monitor import Monitor

T = TypeVar("T")
NO_TIME_LIMIT = ("a condition has no time limit, since who waits holds a place in its queue. "
                 "Monitor(patience=SECONDS) tells of a run that hangs, and ends it")


class Condition(Visits):
    """A condition of a monitor, used like threading.Condition by a thread that is inside. It has no time limits: a
    thread that waits holds a place in a queue."""

    def __init__(self, monitor: Monitor, number: int) -> None:
        self.monitor, self.number, self._here = monitor, number, monitor._here

    @property
    def here(self) -> Seat:
        return self.monitor.here

    @property
    def name(self) -> str:
        """Its name, else its number."""
        return self.here.handle.conditions.name(self.number)

    def __int__(self) -> int:
        return self.number

    def wait(self, timeout: Optional[float] = None) -> bool:
        """Waits until a signal serves this thread and its turn comes. NotOfKind with a timeout."""
        if timeout is not None:
            raise NotOfKind(f"wait(timeout={timeout}): {NO_TIME_LIMIT}")
        self.monitor.here.wait(self.number)
        return True

    def wait_for(self, predicate: Callable[[], T], timeout: Optional[float] = None) -> T:
        """Waits until the predicate is true; tests it after each wait. Right under each kind that has conditions."""
        result = predicate()
        while not result:
            self.wait(timeout)
            result = predicate()
        return result

    def notify(self, n: int = 1) -> None:
        """Signals n times. Under a blocking kind the thread that is served goes on first. Under immediate return the
        caller is outside then."""
        if self.monitor.mode != "immediate return":
            seat = self._here.seat or self.here
            for _ in range(n):
                seat.signal(self.number)
        elif n == 1:
            self.monitor.here.signal_leave(self.number)
        else:
            raise NotOfKind(f"notify({n}): under {self.monitor.kind} a signal is the way out, so there is one")

    def notify_all(self) -> None:
        """Serves all who wait; non-blocking kinds."""
        self.monitor.here.broadcast(self.number)

    def notify_and_wait(self, other: Condition) -> None:
        """Signals this condition and waits on the other, as one; immediate return."""
        self.monitor.here.signal_wait(self.number, other.number)

    def pause(self) -> None:
        self.monitor.here.pause(self.number)

    def finish(self) -> None:
        """Signals and leaves, by the call that the kind has for it."""
        self.monitor.here.finish(self.number)

    @property
    def waiting(self) -> int:
        """How many wait on it."""
        return self.monitor.here.waiting(self.number)


class Flag:
    """A flag of a monitor: a thread of an automatic kind waits until it is set. `monitor.set_flags` sets it."""

    def __init__(self, monitor: Monitor, number: int) -> None:
        self.monitor, self.number = monitor, number

    def __int__(self) -> int:
        return self.number

    def wait(self) -> bool:
        """Goes on once the flag is set and this thread's turn comes. The flag is set then."""
        self.monitor.here.wait_until(self.number)
        return True

    pause = wait

    def finish(self) -> None:
        """Leaves: a thread that waits for a flag that is set goes on."""
        self.monitor.here.finish(self.number)
