"""Whether monk.h and C.md say of each call what misuse.h tries: its place, its kinds, the events that must be left."""
import os
import pathlib
import re
from typing import Dict, NamedTuple

C = pathlib.Path(os.path.abspath(__file__)).parents[1]
CALL = re.compile(r"CALL\((\w+), (\w+), (\w+), \w+, (\d)\)")
# A call of monk.h by a seat; and one with a row of what it needs.
BY_A_SEAT = re.compile(r"^int monk_(\w+)\((?:monk_monitor \*m, )?(?:const )?monk_seat \*(?:s|by)\b", re.M)
OF_HEADER = re.compile(r"^int monk_(\w+)\([^;]*\);\s+/\* (\w+) +\w+ +(\S.*?) {2,}(\d), ", re.M)
OF_PAGE = re.compile(r"^\| `monk_(\w+)` \| ([^|]+) \| (\d) \|", re.M)
ANSWERS = re.compile(r"^\| `MONK_(\w+)` \|", re.M)
WORDS = {"all": "ALL", "all but automatic": "NOT_AUTOMATIC", "B, NB, QB": "SIGNALLING", "non-blocking": "NON_BLOCKING",
         "blocking, non-blocking, quasi-blocking": "SIGNALLING", "immediate return": "IMMEDIATE",
         "automatic": "AUTOMATIC"}
# The rows of C.md, in the order in which misuse.h tries what comes first.
IN_ORDER = ["RANGE", "IN_USE", "CLOSED", "NOT_NOW", "NOT_OF_KIND", "RANGE", "NOT_NOW", "SPENT"]


class Tried(NamedTuple):
    place: str
    kinds: str
    needs: str


def text_of(*path: str) -> str:
    return C.joinpath(*path).read_text(encoding="utf-8")


def tried() -> Dict[str, Tried]:
    return {name: Tried(place, kinds, needs)
            for name, place, kinds, needs in CALL.findall(text_of("tests", "misuse.h"))}


def first_difference() -> str:
    """What a table says otherwise, or nothing."""
    header, page, calls = text_of("monk.h"), text_of("..", "docs", "C.md"), tried()
    if {*BY_A_SEAT.findall(header)} - {"place"} != {*calls}:
        return f"monk.h has other calls by a seat than misuse.h: {sorted({*BY_A_SEAT.findall(header)} ^ {*calls})}"
    rows = [(name, "", words, needs) for name, words, needs in OF_PAGE.findall(page)]
    for name, place, words, needs in [*OF_HEADER.findall(header), *rows]:
        it = calls[name]
        if (WORDS[words], needs) != (it.kinds, it.needs) or place and it.place != f"MONK_{place.upper()}":
            return f"{name}: {place} {words} {needs}, and misuse.h has {it}"
    if len(rows) < 9 or len(OF_HEADER.findall(header)) < 9 or ANSWERS.findall(page) != IN_ORDER:
        return f"monk.h or C.md has fewer rows, or answers in another order: {ANSWERS.findall(page)}"
    return ""
