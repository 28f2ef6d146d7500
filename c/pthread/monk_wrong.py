"""The first wrong run of a try, which is kept and shown. Part of monk-try."""
import os
import shlex
import shutil
from typing import Any, Dict, List, NamedTuple, Optional

from monk_lessons import TURNS, Cell
from monk_places import suspect, who_waits, worth_reading
from monk_runs import HUNG, LATE, WRONG, Result
from monk_schedules import Player, Schedule, repeated, told, turns_in, write_schedule
from monk_trials import Run, Try, asked_of

# The kinds whose first wrong run is shown first: Mesa's rule rather than Hoare's.
SHOWN_FIRST = {"NPNB": 0, "PNB": 1, "PB": 2}


class Wrong(NamedTuple):
    cell: Cell
    result: Result
    seed: str
    waits: List[str]
    histories: List[Dict[str, Any]]
    again: str           # the command that runs the program so
    turns: List[str]     # of a run that repeats: the changes of turn that it takes, in words


def history_of(path: str, kind: str) -> Dict[str, Any]:
    step = suspect(path) if kind in ("PNB", "NPNB") else None
    return {"path": path, **(step._asdict() if step else {})}


def kept_schedule(it: Try, asked: Run, result: Result) -> Optional[List[str]]:
    """The turns that the wrong run takes, made as few as can be, and kept beside it."""
    options = it.options(asked._replace(turns=""))
    player = Player(it.job, options, it.room)
    ended = (result.what, result.why)
    turns = repeated(player, turns_in(f"{result.folder}.turns"), ended)
    if turns is not None:
        schedule = Schedule(it.asked.words, options, ended, turns, it.job.expected)
        write_schedule(os.path.join(it.asked.keep, "schedule"), schedule)
    return turns


def first_wrong(it: Try, cells: List[Cell]) -> Optional[Wrong]:
    """The run that is shown; it is kept in the folder that the user named."""
    bad = [cell for cell in cells if cell.is_bad()] or [cell for cell in cells if cell.count(LATE)]
    bad.sort(key=lambda cell: (SHOWN_FIRST.get(cell.kind, len(SHOWN_FIRST)), cell.row != TURNS))
    result = bad[0].first(WRONG, HUNG) or bad[0].first(LATE) if bad else None
    if not result:
        return None
    keep, asked = it.asked.keep, asked_of(bad[0], result)
    shutil.rmtree(keep, ignore_errors=True)
    shutil.copytree(result.folder, keep)
    waits = who_waits(keep) if result.what in (HUNG, LATE) else []
    histories = [history_of(path, bad[0].kind) for path in worth_reading(keep)]
    turns = kept_schedule(it, asked, result) if bad[0].row == TURNS else None
    again = shlex.join(["monk-run", *it.options(asked), "--", *it.asked.words])
    if turns is not None:
        again = shlex.join(["monk-try", "--again", os.path.join(keep, "schedule")])
    return Wrong(bad[0], result, str(asked.seed), waits, histories, again, told(turns or []))
