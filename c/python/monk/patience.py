"""Who waits where, and what is done if nobody in a run can go on."""

from __future__ import annotations

import os
import sys
import time
from typing import TYPE_CHECKING, List, Optional

from .errors import OutOfRange

if TYPE_CHECKING:
    from .handle import Handle
    from .seat import Seat

VARIABLE = "MONK_SECONDS"


def patience_of(seconds: Optional[float]) -> Optional[float]:
    """The seconds that are given, else those in MONK_SECONDS, else None. OutOfRange if they aren't above 0."""
    named = os.environ.get(VARIABLE)
    if seconds is None and not named:
        return None
    try:
        given = float(named or 0) if seconds is None else seconds
    except ValueError:
        given = 0
    if not given > 0:
        told = f"{VARIABLE}={named}" if seconds is None else f"patience={seconds}"
        raise OutOfRange(f"{told}: seconds above 0")
    return given


def report(handle: Handle) -> str:
    """A line for each seat that is taken: whose it is, what it waits for, and since when."""
    now = time.monotonic()
    return "\n".join(f"  {seat.title}: {_doing(seat, now)}" for seat in handle.seats())


def _doing(seat: Seat, now: float) -> str:
    return f"{seat.waits}, for {now - seat.since:.1f} s" if seat.waits else seat.place


def lose(seat: Seat) -> None:
    """Called by a thread that waits. If its patience is over, it says so, once. If each seat that is taken has waited
    that long, nobody can go on, and it ends all waiting."""
    handle, now = seat.handle, time.monotonic()
    if handle.patience is None or handle.is_stopped or now - seat.since < handle.patience:
        return
    taken: List[Seat] = handle.seats()
    if all(other.waits and now - other.since >= handle.patience for other in taken):
        handle.is_stopped = True
        _say(seat, "Each seat that is taken waits, so nobody can go on: all waiting is ended (Stopped).")
        handle.stop()
    elif not handle.is_told:
        handle.is_told = True
        _say(seat, "Not all have waited so long, so the run goes on.")


def _say(seat: Seat, end: str) -> None:
    handle = seat.handle
    head = f"monk: {seat.title} has waited for {handle.patience:g} s in a monitor of kind {handle.kind}"
    print(f"{head}\n{report(handle)}\n{end}", file=sys.stderr, flush=True)
