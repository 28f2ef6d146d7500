"""A seat that was inside when nobody held it any more: a warning, and the history up to then in a file."""

from __future__ import annotations

import sys
import tempfile
import warnings
from typing import TYPE_CHECKING, List

if TYPE_CHECKING:
    from .seat import Seat

# A process keeps at most this many histories: a program that loses a seat in a loop would fill the disk.
MOST_KEPT = 10
MESSAGE = "a seat of a monitor was inside and nobody held it any more"
_kept: List[str] = []

# Python keeps such warnings quiet unless it is asked. This one is about a slip, so it is shown; -W may change that.
if not sys.warnoptions:
    warnings.filterwarnings("default", MESSAGE, ResourceWarning)


def warn_of(seat: Seat) -> None:
    """Warns that nobody can leave by this seat any more, and keeps the history in a file."""
    words = f"{MESSAGE}, so it left ({seat.handle.kind}, seat {seat.number})"
    if len(_kept) < MOST_KEPT:
        # As bytes: at the end of the program Python finds no encodings any more.
        with tempfile.NamedTemporaryFile("wb", prefix="monk-", suffix=".history", delete=False) as file:
            file.write(seat.history().encode("ascii"))
        _kept.append(file.name)
        words += f"; the history up to then is in {file.name}"
    warnings.warn(words, ResourceWarning, stacklevel=4)
