"""A seat of a monitor, with every call of the library."""

from __future__ import annotations

import ctypes
import math
import threading
import time
import types
import weakref
from typing import Any, Callable, Optional, Tuple

from . import libmonk
from .errors import NO_SEAT, NOT_NOW, RANGE, STOPPED, NotNow, OutOfRange
from .handle import Handle, Numbered, has_none_such
from .kinds import number_of_wish
from .leaving import End, leave_before
from .libmonk import AT_ONCE, FOREVER, INSIDE, MOST_LONG, MOST_UNSIGNED, PLACES, WAITING, checked, library_now
from .lost import warn_of
from .patience import lose
from .refusals import no_seat, refusal

# A thread that may have to wake early waits in slices: the main thread, to see an interrupt, and a thread with
# patience, to see that it is over.
SLICE_MS = 100
MS_A_SECOND = 1000

# Each visit's calls, looked up once. A seat's pointer and the time are ctypes values already: nothing is converted.
_enter_within: Any = library_now.monk_enter_within
_leave: Any = library_now.monk_leave
_start_signal: Any = library_now.monk_start_signal
_enter_within.argtypes = _leave.argtypes = None


def _is_left(answer: int, _: object, words: Tuple[Any, ...]) -> None:
    if answer < 0:
        words[0].not_left(answer)


leave_visit = leave_before(_is_left)
# At the end of its `with` a seat is given back, also if it has left before.
_leave_seat = leave_before(lambda _answer, _call, words: words[0].give())


class Seat(ctypes.c_void_p):
    """A seat of a monitor. One thread at a time uses it. It is the library's pointer. It is null until the seat is
    taken, and after it was given back."""

    def __init__(self, handle: Handle) -> None:
        super().__init__()
        # A call that signals and leaves was its way out, and no release or end of a `with` has come after it yet.
        self.has_signalled_out = False
        self.handle = handle
        # What it waits for, in words, and since when.
        self.waits, self.since = "", 0.0

    def take(self, wish: str) -> None:
        """Takes a seat of the library for this thread."""
        answer = libmonk.library.monk_take_seat(self.handle.made(), ctypes.byref(self))
        if answer == NO_SEAT:
            raise no_seat(self.handle.shape.seats)
        checked(answer)
        self.handle.sitters[self.number] = weakref.ref(self)
        self.name = threading.current_thread().name
        if wish != "waiter":
            self.wish(wish)

    def _pointer(self) -> Seat:
        if not self:
            raise NotNow("the seat was given back")
        return self

    def _tested(self, answer: int, call: str) -> int:
        """The answer to that call, or its error."""
        if answer < 0:
            raise refusal(answer, call, self)
        return answer

    def _asked(self, call: str, ask: Callable[..., int], among: Numbered, *numbers: int) -> int:
        """The library's answer to a call about conditions or flags. The library knows which there are, but C can't
        hold every number."""
        at = self._pointer()
        answer = ask(at, *numbers) if all(0 <= number <= MOST_UNSIGNED for number in numbers) else RANGE
        if answer == RANGE:
            wrong = next((number for number in numbers if not 0 <= number < among.count), numbers[0])
            raise has_none_such(f"{call}({wrong})", among.what + "s", among.count)
        return answer if answer >= 0 else self._tested(answer, f"{call}({', '.join(map(among.name, numbers))})")

    @property
    def number(self) -> int:
        """Its number in the history."""
        return int(libmonk.library.monk_seat_number(self._pointer()))

    @property
    def name(self) -> str:
        """Its name in reports and pictures: the name of the thread that took it, or another that was set."""
        return self.handle.names.get(self.number, "")

    @name.setter
    def name(self, name: str) -> None:
        self.handle.names[self.number] = name

    @property
    def title(self) -> str:
        """Its number and its name."""
        return f"seat {self.number} ({self.name})" if self else "a seat"

    def __repr__(self) -> str:
        return f"<monk.Seat: {self.title}, {self.place if self else 'given back'}>"

    @property
    def left(self) -> int:
        """How many events it has left."""
        return int(libmonk.library.monk_left(self._pointer()))

    @property
    def place(self) -> str:
        """Its place: "outside", "waiting" or "inside"."""
        return PLACES[checked(libmonk.library.monk_place(self._pointer()))]

    def wish(self, wish: str) -> None:
        """Sets whom its releases prefer if the kind leaves it open: one of WISHES."""
        checked(libmonk.library.monk_set_wish(self._pointer(), number_of_wish(wish)))

    def await_(self, timeout: Optional[float] = None) -> bool:
        """Waits until it is inside. False if `timeout` seconds are over: then it waits on, at its place in its
        queue."""
        limit = FOREVER if timeout is None else max(0, int(timeout * MS_A_SECOND))
        if timeout is not None and limit > MOST_LONG:
            raise OutOfRange(f"await_({timeout}): seconds are 0 to {MOST_LONG // MS_A_SECOND}")
        if self.handle.patience is not None or threading.current_thread() is threading.main_thread():
            return self._is_in(self._await_in_slices(limit))
        return self._is_in(self._tested(libmonk.library.monk_await(self._pointer(), limit), "await_") == INSIDE)

    def _is_in(self, is_in: bool) -> bool:
        """Returns that. Who has come in waits for nothing."""
        if is_in:
            self.waits = ""
        return is_in

    def _await_in_slices(self, limit: int) -> bool:
        """Waits for `limit` milliseconds. After each slice of them it looks for an interrupt, and at what else
        waits."""
        end = math.inf if limit == FOREVER else time.monotonic() * MS_A_SECOND + limit
        while True:
            left = max(0, min(SLICE_MS, end - time.monotonic() * MS_A_SECOND))
            if self._tested(libmonk.library.monk_await(self._pointer(), math.ceil(left)), "await_") == INSIDE:
                return True
            if left < SLICE_MS:
                return False
            lose(self)

    def _waiting_for(self, place: int, what: str) -> int:
        """Returns the place. If the seat waits there, notes what it waits for."""
        if place == WAITING:
            self.waits, self.since = what, time.monotonic()
        return place

    def _finished(self, place: int, what: str) -> None:
        if place == WAITING:
            self._waiting_for(place, what)
            self.await_()

    def arrive(self) -> None:
        """Comes to the entry, and doesn't wait: `poll` or `await_` do."""
        self._waiting_for(self._tested(libmonk.library.monk_arrive(self._pointer()), "arrive"), "waits for entry")

    def poll(self) -> bool:
        """Comes in, or goes on, if its turn has come."""
        return self._is_in(self._tested(libmonk.library.monk_poll(self._pointer()), "poll") == INSIDE)

    def enter(self) -> None:
        """Comes in. If an interrupt ends the call, the seat isn't inside; if it ends the wait, the seat is given up."""
        answer, self.has_signalled_out = INSIDE, False
        try:
            answer = _enter_within(self, AT_ONCE)
            if answer != INSIDE:
                self._go_on_entering(answer)
        except BaseException:
            # A refused call has changed nothing. An interrupt may have come before the answer was kept.
            if answer > 0 or answer == STOPPED:
                self.go_out()
            raise

    def _go_on_entering(self, answer: int) -> None:
        if answer < 0 and answer != STOPPED:
            self._tested(answer if self else NOT_NOW, "enter")
        self._finished(WAITING, "waits for entry")

    def leave(self) -> None:
        self._tested(libmonk.library.monk_leave(self._pointer()), "leave")

    def wait(self, condition: int) -> None:
        """Waits on a condition until a signal serves it and its turn comes."""
        place = self._asked("wait", libmonk.library.monk_start_wait, self.handle.conditions, condition)
        self._finished(place, self._on(condition))

    def _on(self, condition: int) -> str:
        return f"waits on condition {self.handle.conditions.name(condition)}"

    def signal(self, condition: int) -> None:
        """Serves the first who waits there. Under a blocking kind that seat goes on first."""
        place: int = _start_signal(self, condition) if 0 <= condition <= MOST_UNSIGNED else RANGE
        if place != INSIDE:
            self._go_on_signalling(place, condition)

    def _go_on_signalling(self, place: int, condition: int) -> None:
        if place < 0:
            self._asked("signal", lambda *_: place, self.handle.conditions, condition)
        self._finished(place, GAVE_WAY)

    def broadcast(self, condition: int) -> None:
        """Serves all who wait there; non-blocking kinds."""
        self._asked("broadcast", libmonk.library.monk_broadcast, self.handle.conditions, condition)

    def signal_leave(self, condition: int) -> None:
        """Signals and leaves; immediate return."""
        self._asked("signal_leave", libmonk.library.monk_signal_leave, self.handle.conditions, condition)
        self.has_signalled_out = True

    def signal_wait(self, condition: int, wait_condition: int) -> None:
        """Signals the first and waits on the second, as one; immediate return."""
        call = libmonk.library.monk_start_signal_wait
        place = self._asked("signal_wait", call, self.handle.conditions, condition, wait_condition)
        self._finished(place, self._on(wait_condition))

    def wait_until(self, flag: int) -> None:
        """Goes on once the flag is set; automatic kinds."""
        place = self._asked("wait_until", libmonk.library.monk_start_wait_until, self.handle.flags, flag)
        self._finished(place, f"waits until flag {flag} is set")

    def start_wait(self, condition: int) -> None:
        """As `wait`, but doesn't wait: `poll` or `await_` do."""
        place = self._asked("start_wait", libmonk.library.monk_start_wait, self.handle.conditions, condition)
        self._waiting_for(place, self._on(condition))

    def start_signal(self, condition: int) -> bool:
        """As `signal`, but doesn't wait. Returns whether the seat is still inside."""
        place = self._asked("start_signal", libmonk.library.monk_start_signal, self.handle.conditions, condition)
        return self._waiting_for(place, GAVE_WAY) == INSIDE

    def start_signal_wait(self, condition: int, wait_condition: int) -> None:
        """As `signal_wait`, but doesn't wait."""
        call = libmonk.library.monk_start_signal_wait
        place = self._asked("start_signal_wait", call, self.handle.conditions, condition, wait_condition)
        self._waiting_for(place, self._on(wait_condition))

    def start_wait_until(self, flag: int) -> bool:
        """As `wait_until`, but doesn't wait. Returns whether the seat is still inside."""
        place = self._asked("start_wait_until", libmonk.library.monk_start_wait_until, self.handle.flags, flag)
        return self._waiting_for(place, f"waits until flag {flag} is set") == INSIDE

    def waiting(self, condition: int) -> int:
        """How many wait on a condition; from inside."""
        return self._asked("waiting", libmonk.library.monk_waiting, self.handle.conditions, condition)

    @property
    def flags(self) -> int:
        """The flags as bits; from inside."""
        bits = ctypes.c_uint32()
        self._tested(libmonk.library.monk_flags(self._pointer(), ctypes.byref(bits)), "flags")
        return bits.value

    @flags.setter
    def flags(self, bits: int) -> None:
        at, count = self._pointer(), self.handle.flags.count
        answer = libmonk.library.monk_set_flags(at, bits) if 0 <= bits <= MOST_UNSIGNED else RANGE
        if answer == RANGE:
            there = f"the bits are 0 to {2**count - 1}" if count else "the monitor has no flags"
            raise OutOfRange(f"flags = {bits}: {there}")
        self._tested(answer, "flags")

    def pause(self, number: int) -> None:
        """`wait` on that condition, or under an automatic kind `wait_until` that flag."""
        (self.wait_until if self.handle.mode == "automatic" else self.wait)(number)

    def finish(self, number: int) -> None:
        """Lets one who pauses there go on, and leaves, by the call that the kind has for it."""
        if self.handle.mode == "immediate return":
            self.signal_leave(number)
            return
        if self.handle.mode == "automatic":
            self._asked("finish", libmonk.library.monk_finish, self.handle.flags, number)
        else:
            self.signal(number)
            self.leave()
        self.has_signalled_out = True

    def history(self) -> str:
        """The history up to now; from inside."""
        return self.handle.history(self._pointer())

    def give(self) -> None:
        """Gives it back, wherever it is: if it is inside it leaves, if it waits it leaves when its turn has come."""
        at = ctypes.c_void_p(self.value)
        self.value = None
        if at:
            checked(libmonk.library.monk_abandon(at))

    def go_out(self) -> None:
        """Leaves if it is inside. If it still waits, because its wait was stopped or interrupted, it is given up."""
        _is_left(_leave(self), None, (self,))

    def release(self) -> None:
        """As go_out, but refused if there is no visit to end."""
        answer = _leave(self)
        self._tested(self.not_left(answer) if answer < 0 else answer, "release")

    def not_left(self, answer: int) -> int:
        """What follows a leave that was refused with this answer. Returns the same answer if there was no visit to
        end."""
        was_out, self.has_signalled_out = self.has_signalled_out, False
        if libmonk.library.monk_place(self) == WAITING:
            self.give()
            return 0
        return 0 if was_out and answer == NOT_NOW else answer

    def __enter__(self) -> Seat:
        return self

    __exit__ = End(lambda self: types.MethodType(_leave_seat, self))

    def __del__(self) -> None:
        if not self or not self.handle.is_here():
            return
        if libmonk.library.monk_place(self) == INSIDE:
            warn_of(self)
        self.give()


GAVE_WAY = "gave way by its signal, and waits to go on"


class inside:
    """A visit by a seat of its own: `with monk.inside(seat):`."""

    def __init__(self, seat: Seat) -> None:
        self.here = seat

    def __enter__(self) -> Seat:
        self.here.enter()
        return self.here

    __exit__ = End(lambda self: types.MethodType(leave_visit, self.here))
