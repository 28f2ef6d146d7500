"""What monk-try has to say of runs by how they ended, and the table of TRY.md that says so."""
import os
import re
from collections import Counter
from typing import Dict, List, NamedTuple

from monk_lessons import (BROADCASTS, UNASKED, WAKES_SLEEPERS, Cell, Facts, Lesson, Repeats, Unasked,
                          lesson)
from monk_runs import CANT, HUNG, LATE, OK, WRONG, Result


class Case(NamedTuple):
    """How runs under each kind ended, and whether each mend would be right, if they were tried; the lesson's name."""
    ends: Dict[str, str]
    mended: List[bool]
    name: str
    unasked: str = ""        # how runs ended whose waits wake unasked, if there were any
    again: int = 6           # of six wrong runs that were repeated, so many went wrong again
    unlocks: bool = False    # a thread ended inside


CASES = (Case({"PB": OK, "NPNB": OK}, [], "right"),
         Case({"PB": OK, "PNB": OK, "NPNB": WRONG}, [False, False], "if"),
         Case({"PB": OK, "PNB": HUNG, "NPNB": HUNG}, [True, True], "broadcast"),
         Case({"PB": HUNG, "NPNB": OK}, [], "hand-over"),
         Case({"PB": OK, "NPNB": OK, "NPQB": HUNG}, [], "hand-over"),
         Case({"PB": HUNG, "NPNB": HUNG}, [True, True], "broadcast"),
         Case({"PB": HUNG, "NPNB": HUNG}, [False, True], "signal"),
         Case({"PB": HUNG, "NPNB": HUNG}, [False, False], "deadlock"),
         Case({"PB": HUNG, "NPNB": HUNG}, [False], "hoare"),      # late once mended
         Case({"PB": WRONG, "NPNB": WRONG}, [False, False], "hoare"),
         Case({"NPNB": WRONG}, [False, False], "order"),
         Case({"NPNB": OK, "PIR": HUNG}, [], "order"),
         Case({"PIR": CANT}, [], "not run"),
         Case({"NPNB": OK, "PB": HUNG}, [], "unasked", WRONG),
         Case({"NPNB": OK, "PB": HUNG}, [], "hand-over", OK),
         Case({"PB": OK, "PNB": OK, "NPNB": WRONG}, [False, False], "if", WRONG),
         Case({"NPNB": LATE, "PB": LATE}, [False, False], "late"),
         Case({"NPNB": OK, "PB": LATE}, [], "late", OK),
         Case({"NPNB": WRONG, "PB": OK}, [True, True], "seldom", again=2),
         Case({"NPNB": WRONG, "PB": OK}, [True, True], "broadcast", again=3),
         Case({"NPNB": WRONG, "PB": OK}, [True, True], "unasked", WRONG, again=2),
         Case({"NPNB": WRONG, "PB": OK}, [True, True], "seldom", OK, again=2),
         Case({"NPNB": OK, "PB": HUNG}, [], "seldom", again=1),
         Case({"PB": HUNG, "NPNB": HUNG}, [False, False], "unlock", unlocks=True))
# Each row of that table, and the lesson's name.
ROWS = {"all right": "right", "right under NPNB, wrong where waits wake unasked": "unasked",
        "right under PB, wrong under PNB, NPNB": "if", "the same, but right with broadcasts": "broadcast",
        "right under PNB, NPNB, wrong where a signal gives the monitor up (PB, NPB, PQB, NPQB)": "hand-over",
        "hung, and a thread ended inside": "unlock", "wrong everywhere, right once all sleepers are woken": "signal",
        "hangs, also if all are woken": "deadlock", "wrong under PB too": "hoare"}
PAGE = os.path.join(os.path.dirname(os.path.abspath(__file__)), "..", "..", "..", "docs", "TRY.md")


def told_of(case: Case) -> Lesson:
    cells = [Cell(kind, "any", [Result(what, "", "")]) for kind, what in case.ends.items()]
    mended = dict(zip((BROADCASTS, WAKES_SLEEPERS), case.mended))
    unasked = [Cell("NPNB", "any", [Result(case.unasked, "", "")], UNASKED)] if case.unasked else []
    kind = next((cell.kind for cell in cells if cell.is_bad()), "")
    repeats = Repeats(kind, 6 if kind else 0, case.again if kind else 0, mended)
    unlocks = ["thread 1 ended inside"] * case.unlocks
    return lesson(Facts(cells, Counter({OK: 1}), repeats, unlocks, True,
                        Unasked(unasked, ["x.c:1"] * bool(case.unasked))))


def table() -> List[str]:
    """What was seen, by the rows of the page."""
    with open(PAGE, encoding="utf-8") as file:
        text = file.read().split("| What was seen | Lesson |\n|---|---|\n")[1]
    return [row.split(" | ")[0].lstrip("| ") for row in text.split("\n\n")[0].splitlines()]


def first_wrong_lesson() -> str:
    """The first lesson that isn't as it has to be, or names a kind that wasn't run; nothing, if all are right."""
    for case in CASES:
        told = told_of(case)
        if told.name != case.name or {*re.findall(r"\bN?P(?:N|Q|I)?[BR]\b", told.text)} - {*case.ends}:
            return f"{case}: {told}"
    if table() != [*ROWS] or not {*ROWS.values()} <= {case.name for case in CASES}:
        return f"TRY.md's table has other rows than are tried: {table()}"
    return ""
