"""What monk-try prints: the table, the lesson and the first wrong run, as text or as JSON. Part of monk-try."""
import argparse
import json
import os
from typing import Any, Counter as Counts, Dict, List, NamedTuple, Optional

from monk_lessons import TURNS, UNASKED, Cell, Facts, Lesson
from monk_runs import CANT, HUNG, LATE, OK, STATUS_CANT, WRONG, Expected, status_words
from monk_wrong import Wrong

WHATS = (OK, WRONG, HUNG, LATE, CANT)
# The lessons to which the step of a history belongs at which a woken thread goes on.
OF_A_STEP = ("if", "hoare", "order", "seldom")


def counted(cell: Cell) -> str:
    return ", ".join(f"{cell.count(what)} {what}" for what in WHATS if cell.count(what))


def print_expected(asked: argparse.Namespace, expected: Expected, plain: Counts[str]) -> None:
    runs = ", ".join(f"{count} {what}" for what, count in plain.items())
    line = f"plain: {runs}; expected: {status_words(expected.status)}"
    if expected.check:
        line += " and what the check says"
    elif expected.output is not None:
        line += f" and an output of {len(expected.output)} bytes"
    else:
        why = "right runs differ in theirs" if plain[OK] else "no plain run was right"
        line += f"; outputs aren't compared, since {why}: give --expect or --check"
    print(f"monk-try: {' '.join(asked.words)}\n{line}\nkind      " + "".join(f"{wish:>22}" for wish in asked.wishes))


def print_row(cells: List[Cell]) -> None:
    kind, row = cells[0].kind, cells[0].row
    name = f"{kind} {row}" if row and kind != "NPNB" else row or kind
    print(f"{name:<10}" + "".join(f"{counted(cell):>22}" for cell in cells), flush=True)


def print_history(it: Dict[str, Any], lesson: str) -> None:
    path = it["path"]
    print(f"History: {path}")
    if "step" in it and lesson in OF_A_STEP:
        print(f"  see step {it['step']}: seat {it['seat']} comes back from its wait, though seat {it['between']} has"
              f" been in since its signal, and goes on (the first of {it['steps']} such steps)")
    print(f"  monk explain <{path}; monk page <{path} >{os.path.basename(path)}.html")


class Told(NamedTuple):
    """What a try found."""
    facts: Facts
    lesson: Lesson
    remarks: List[str]
    untried: List[str]
    wrong: Optional[Wrong]

    def status(self) -> int:
        if self.lesson.name in ("not run", "nothing"):
            return STATUS_CANT
        return 0 if self.lesson.name == "right" and not self.wrong else 1


def print_end(cells: List[Cell], told: Told) -> None:
    lines = [*(f"Remark: {line}." for line in told.remarks), *(f"Not tried: {line}." for line in told.untried)]
    print(f"\n{told.lesson.text}", *lines, sep="\n")
    wrong = told.wrong
    if wrong:
        rule = wrong.cell.kind + {UNASKED: ", with unasked wake-ups", TURNS: ", by turns"}.get(wrong.cell.row, "")
        print(f"The first wrong run: {rule}, wish {wrong.cell.wish}, seed {wrong.seed}: {wrong.result.why}.")
        print(*(f"  {line}" for line in [*wrong.waits, *wrong.turns]), sep="\n", end="\n" * bool(wrong.waits + wrong.turns))
        for it in wrong.histories:
            print_history(it, told.lesson.name)
        print(f"Again: {wrong.again}")
    for cant in {cell.row == TURNS: cell for cell in reversed(cells) if cell.count(CANT)}.values():
        result = cant.first(CANT) or cant.results[0]
        print(f"{'Not repeatable' if cant.row == TURNS else 'Not under ' + cant.kind}: {result.why}.")


def cell_as_json(cell: Cell) -> Dict[str, Any]:
    return {"kind": cell.kind, "row": cell.row, "wish": cell.wish, **{what: cell.count(what) for what in WHATS}}


def wrong_as_json(wrong: Wrong) -> Dict[str, Any]:
    return {"kind": wrong.cell.kind, "wish": wrong.cell.wish, "seed": int(wrong.seed), "why": wrong.result.why,
            "waits": wrong.waits, "turns": wrong.turns, "histories": wrong.histories, "again": wrong.again}


def as_json(words: List[str], told: Told) -> str:
    facts = told.facts
    it: Dict[str, Any] = {"program": words, "plain": dict(facts.plain), "lesson": told.lesson._asdict()}
    it["cells"], it["unasked"] = ([cell_as_json(cell) for cell in cells] for cells in (facts.cells, facts.unasked.cells))
    it["remarks"], it["untried"] = told.remarks, told.untried
    it["first_wrong"] = wrong_as_json(told.wrong) if told.wrong else None
    return json.dumps(it)
