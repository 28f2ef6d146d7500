"""Why a call by a seat was refused, and what to do."""

from __future__ import annotations

from typing import TYPE_CHECKING

from . import libmonk
from .errors import ERRORS, NO_SEAT, NOT_NOW, NOT_OF_KIND, SPENT, MonkError
from .handle import SHAPES

if TYPE_CHECKING:
    from .seat import Seat

# By the call and the place of the seat.
REMEDIES = {("enter", "inside"): "leave first, or drop the inner `with`",
            ("leave", "outside"): "it never came in, or has left",
            ("release", "outside"): "it never came in, or has left"}
# By the place of the seat.
REMEDIES_OF_ANY = {"outside": "come in first, by `with monitor:`", "inside": "leave first",
                   "waiting": "its last call isn't over, so await_ or poll it"}
# By the call and the mode.
OTHER_CALLS = {("wait", "automatic"): "Write wait_until(flag).", ("signal", "immediate return"): "Write signal_leave.",
               ("signal", "automatic"): "Set the flags: who waits until one is set goes on.",
               ("broadcast", "automatic"): "Set the flags: who waits until one is set goes on."}
OTHER_CALLS_OF_ANY = {"broadcast": "A signal to all is for PNB and NPNB, so signal as often as somebody waits.",
                      "wait_until": "Write wait(condition)."}


def refusal(answer: int, call: str, seat: Seat) -> MonkError:
    """The error for that answer to that call: the call, the seat and its thread, why, and what to do."""
    return ERRORS.get(answer, MonkError)(f"{call} by {seat.title}: {_why(answer, call.split('(')[0], seat)}")


def _why(answer: int, verb: str, seat: Seat) -> str:
    handle = seat.handle
    if answer == NOT_NOW:
        return _out_of_place(verb, seat)
    if answer == SPENT:
        return (f"{seat.left} of its {handle.budget} events are left, which are too few. "
                f"Make the monitor with a greater budget, up to {SHAPES['budget'][1]}")
    if answer == NOT_OF_KIND:
        other = OTHER_CALLS.get((verb.replace("start_", ""), handle.mode)) or OTHER_CALLS_OF_ANY.get(verb, "")
        return f"monitors of this kind have no such call ({handle.kind}, {handle.mode}). {other}".rstrip()
    return libmonk.in_words(answer)


def _out_of_place(verb: str, seat: Seat) -> str:
    if not seat:
        return "the seat was given back"
    place = libmonk.PLACES.get(libmonk.library.monk_place(seat), "elsewhere")
    if place == "outside" and seat.has_signalled_out:
        return "the seat is outside, since its signal was the way out"
    return f"the seat is {place}: {REMEDIES.get((verb, place)) or REMEDIES_OF_ANY.get(place, '')}"


def no_seat(seats: int) -> MonkError:
    """The error for a thread that finds every seat taken."""
    return ERRORS[NO_SEAT](f"each of the {seats} seats is taken: give Monitor(seats=..) a seat for each thread at once,"
                           " and one to spare for a look at the run")
