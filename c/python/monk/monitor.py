"""A monitor of one of the ten kinds, for threads."""

from __future__ import annotations

from typing import Callable, List, Optional, Tuple, Union

from .conditions import Condition, Flag
from .handle import USUAL_BUDGET, Handle, has_none_such, test_shape
from .kinds import number_of, number_of_wish
from .libmonk import INSIDE, PLACES, Shape
from .patience import patience_of, report
from .seat import Seat
from .told import Told
from .visits import Here, Visits


class Monitor(Visits, Told):
    """A monitor of a kind. `with monitor:` comes in by the calling thread's seat, and leaves at the end.

    kind: one of KINDS. seats: 1 to 32, one for each thread, and one more for a look at a run that hangs. conditions:
    0 to 8. flags: 0 to 32. If these two are left out, there are as many as are asked for before the first use.
    budget: how many events each seat has. wish: whom releases prefer if the kind leaves it open, one of WISHES. seed:
    for the wish "any". patience: how many seconds a thread waits before it says who waits where, and ends a run in
    which all wait; MONK_SECONDS sets it, too."""

    def __init__(self, kind: str, seats: int = 8, conditions: Optional[int] = None, flags: Optional[int] = None,
                 budget: int = USUAL_BUDGET, wish: str = "waiter", seed: int = 0,
                 patience: Optional[float] = None) -> None:
        number_of_wish(wish)
        shape = Shape(kind=number_of(kind))
        test_shape(seats=seats, conditions=conditions, flags=flags, budget=budget, seed=seed)
        shape.seats, shape.budget, shape.seed = seats, budget, seed
        waits = patience_of(patience)
        self._handle = Handle(shape, conditions, flags)
        self._handle.patience = waits
        self.kind, self.mode, self.wish, self.seats = kind, self._handle.mode, wish, seats
        self._here = Here(self._handle)

    def __repr__(self) -> str:
        counts = f"seats={self.seats}, conditions={self.conditions}, flags={self.flag_count}"
        return f"<monk.Monitor {self.kind} ({self.mode}), {counts}>"

    @property
    def conditions(self) -> int:
        """How many conditions it has, up to now if their number wasn't given."""
        return self._handle.conditions.count

    @property
    def flag_count(self) -> int:
        """How many flags it has, up to now if their number wasn't given."""
        return self._handle.flags.count

    def condition(self, name: Union[None, int, str] = None, until: Optional[Callable[[], object]] = None) -> Condition:
        """The condition of that name for reports and pictures, else the next one, or the one of that number. The test
        is for `Staged`, and isn't used here."""
        numbered = self._handle.conditions
        number = numbered.of_number(name) if isinstance(name, int) else numbered.next(name, bool(self._handle.at))
        return Condition(self, number)

    def flag(self, number: Optional[int] = None) -> Flag:
        """The next of its flags, or the one of that number: under an automatic kind a thread waits until it is set."""
        numbered = self._handle.flags
        return Flag(self, numbered.next(None, bool(self._handle.at)) if number is None else numbered.of_number(number))

    def seat(self) -> Seat:
        """A seat of its own, for `with monitor.seat() as seat:`."""
        seat = Seat(self._handle)
        seat.take(self.wish)
        return seat

    @property
    def here(self) -> Seat:
        """This thread's seat, taken at the first use, and given back when the thread ends."""
        seat = self._here.seat
        if not seat:
            seat.take(self.wish)
        return seat

    def give(self) -> None:
        """Gives this thread's seat back before the thread ends."""
        self._here.seat.give()

    def set_flags(self, *flags: Union[int, Flag, Tuple[Union[int, Flag], bool]]) -> None:
        """Sets all flags at once: those that are given are set, and no others. Each is a flag, or a pair of a flag
        and whether it is set."""
        bits, seat = 0, self.here
        for flag in flags:
            given, is_set = flag if isinstance(flag, tuple) else (flag, True)
            number = int(given)
            if not 0 <= number < self.flag_count:
                raise has_none_such(f"set_flags({number})", "flags", self.flag_count)
            bits |= bool(is_set) << number
        seat.flags = bits

    def who(self) -> str:
        """For a run that hangs: who is where, and who waits since when, a line for each seat that is taken."""
        return report(self._handle)

    def stop(self) -> None:
        """Ends all waiting, from any thread: each call that waits raises Stopped."""
        self._handle.stop()

    def close(self) -> None:
        """Gives back this thread's seat. No other may be taken. From then on the history is complete."""
        self.give()
        self._handle.close()

    def history(self) -> str:
        """The history up to now: by this thread's seat if it is inside, else by a look of a seat that nobody has,
        which the history leaves out."""
        seat = self._here.seat
        return seat.history() if seat and seat.place == PLACES[INSIDE] else self._handle.history(None)

    def _text(self) -> str:
        return self.history()

    def _names(self) -> List[str]:
        return [self._handle.names.get(number, f"seat {number}") for number in range(self.seats)]

    def _condition_names(self) -> List[str]:
        return self._handle.conditions.names
