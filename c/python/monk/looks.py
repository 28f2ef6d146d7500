"""A look at a run: the library reads the history by a visit of its own. Here that visit is taken out of it."""

from __future__ import annotations

from typing import List


def events_in(text: str) -> int:
    """How many events the history has: one in each line after the header."""
    return text.count("\n") - 1


def without_looks(text: str, looks: List[int]) -> str:
    """The history without the visits of these looks. A look comes in when the monitor is open to the entry, and changes
    nothing. So the history is legal without them."""
    if not looks:
        return text
    lines = text.splitlines()
    for look in sorted(looks, reverse=True):
        if look < len(lines):
            _drop_look(lines, look)
    if lines[1:]:
        # A look may have handed the monitor to this event, which is now the first.
        lines[1] = lines[1].replace(" handed", " free")
    return "\n".join(lines) + "\n"


def _drop_look(lines: List[str], look: int) -> None:
    """Drops a look that came in at that line. The seat that it chose when it left was in a queue before it came. The
    release before it chose the entry; now it is written to have chosen that seat."""
    chosen = [line.split(" ", 2)[2] for line in lines[look + 1:look + 2]]
    del lines[look:look + 2]
    if chosen not in ([], ["entry"]):
        lines[look - 1] = lines[look - 1][:-len("entry")] + chosen[0]
