"""Checks exercise 5: python3 check.py FILE"""

from __future__ import annotations

from typing import Any, List

from monk import KINDS, compare
from monk.lab import Check, Verdict, breaks, holds, is_so, main

# Random orders of a kind, if all would be too many.
DICE = 100


def breaks_its_invariant(answer: Any) -> Check:
    """The slip breaks the invariant under the first kind that is named. So the invariant doesn't hold always."""
    def look() -> Verdict:
        found = compare(answer.slip, answer.WRONG_WITH_SLIP[:1], orders=DICE)
        faults = [f"{it.kind}: {it.example.fault}, after event {it.example.at}" for it in found.findings.values()]
        if any("the invariant" in fault for fault in faults):
            return Verdict(True, faults[0])
        return Verdict(False, "either the slip does no harm there, or the invariant doesn't see it")
    return Check("the slip breaks the invariant under the first kind of WRONG_WITH_SLIP", look)


def checks(answer: Any) -> List[Check]:
    wrong = answer.WRONG_WITH_SLIP
    return [
        holds("right: under every kind", answer.right, orders=DICE),
        breaks_its_invariant(answer),
        is_so("the slip goes wrong under some kinds, and not under all", lambda: 0 < len(wrong) < len(KINDS),
              "WRONG_WITH_SLIP should name some kinds, and leave out others"),
        breaks("WRONG_WITH_SLIP names them all", answer.slip, wrong, orders=DICE),
    ]


main("Exercise 5: a monitor of your own", checks)
