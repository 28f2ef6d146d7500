"""The ten kinds of monitor, their modes, and whom a release may prefer."""

from __future__ import annotations

import difflib

from .errors import OutOfRange

KINDS = ("PB", "NPB", "PNB", "NPNB", "PQB", "NPQB", "PIR", "NPIR", "PIS", "NPIS")
MODES = ("blocking", "non-blocking", "quasi-blocking", "immediate return", "automatic")
KINDS_OF_A_MODE = 2
# A kind's priorities. Where several fronts have the greatest one, the kind leaves open who comes next.
RANKS = {kind: dict(zip(("entry", "waiter", "signaller"), ranks)) for kind, ranks in (
    ("PB", (1, 3, 2)), ("NPB", (1, 2, 1)), ("PNB", (1, 2, 3)), ("NPNB", (1, 1, 2)), ("PQB", (1, 2, 2)),
    ("NPQB", (1, 1, 1)), ("PIR", (1, 2, 1)), ("NPIR", (1, 1, 1)), ("PIS", (1, 2, 1)), ("NPIS", (1, 1, 1)))}
WISHES = ("entry", "waiter", "signaller", "any")


def mode_of(kind: str) -> str:
    """The kind's mode, which says what a signal does."""
    return MODES[number_of(kind) // KINDS_OF_A_MODE]


def number_of(kind: str) -> int:
    """Its number in the library. OutOfRange, with the name that was perhaps meant, if there is no such kind."""
    if kind in KINDS:
        return KINDS.index(kind)
    near = difflib.get_close_matches(str(kind).upper(), KINDS, 1)
    hint = f" (did you mean {near[0]!r}?)" if near else ""
    raise OutOfRange(f"no kind is {kind!r}{hint}: there are {', '.join(KINDS)}")


def number_of_wish(wish: str) -> int:
    """The wish's number in the library. OutOfRange if there is no such wish."""
    if wish in WISHES:
        return WISHES.index(wish)
    raise OutOfRange(f"no wish is {wish!r}: there are {', '.join(WISHES)}")
