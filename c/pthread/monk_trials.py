"""The runs of a try: under each kind, with waits that wake unasked, and mended. Part of monk-try."""
import argparse
import os
import shutil
from collections import Counter
from concurrent.futures import ThreadPoolExecutor
from typing import Counter as Counts, Dict, List, NamedTuple, Optional, Sequence

from monk_lessons import BROADCASTS, TURNS, UNASKED, WAKES_SLEEPERS, Cell, Facts, Repeats, Unasked
from monk_places import line_of, remarks_in, who_waits, woken_in
from monk_runs import CANT, HUNG, LATE, OK, WRONG, Job, Result, has_waits, run_under
from monk_schedules import lost_in, lost_words
from monk_untried import untried_in

# A wrong run is repeated so often, and as often with each mend.
REPEATED = 6
# How many of a thousand waits wake unasked, in turn: often for a program that waits seldom, and seldom for one that
# waits often. How many runs with each at least; and how many with each place, if some go wrong.
RATES, LEAST_UNASKED, RUNS_AT, MOST_PLACES = ("500", "50"), 2, 4, 16
SELDOM = 8
# A run that is late is repeated with a longer limit, but only so many are.
PATIENCE, MOST_PATIENT, LEAST_TO_WAKE = 3, 4, 40
# How runs by turns choose who is next, by their seeds.
CHOICES = ("priorities", "walk", "walk", "walk")


class Run(NamedTuple):
    """What a run is asked for."""
    kind: str
    wish: str
    seed: int
    unasked: str = ""    # so many of a thousand waits wake unasked; nothing: none
    mend: int = 0
    place: str = ""      # only waits of this place wake unasked
    turns: str = ""      # only one thread runs at a time: how the next is chosen
    again: int = 0       # 1: a run that was made before is repeated

    def name(self) -> str:
        return "_".join(map(str, self)).replace("/", ".")


def seed_of(result: Result) -> int:
    """By the name of the run's folder."""
    return int(result.folder.rpartition(".")[2])


def asked_of(cell: Cell, result: Result) -> Run:
    """What the run was asked for, by the name of its folder."""
    seed = seed_of(result)
    unasked = RATES[seed % len(RATES)] if cell.row == UNASKED else ""
    return Run(cell.kind, cell.wish, seed, unasked, turns=CHOICES[seed % len(CHOICES)] if cell.row == TURNS else "")


def worst(cells: List[Cell]) -> Optional[Cell]:
    """The cell with the most wrong runs, or one that is only late under Mesa's rule, which comes first."""
    bad = [cell for cell in cells if cell.is_bad()]
    late = [cell for cell in cells if cell.kind == "NPNB" and cell.count(LATE)]
    kinds = [cell.kind for cell in bad]
    bad.sort(key=lambda cell: (cell.kind != "NPNB", kinds.index(cell.kind), cell.row != TURNS, -cell.count_bad()))
    return next(iter([*bad, *late]), None) if bad and bad[0].kind == "NPNB" else next(iter([*late, *bad]), None)


class Try:
    """A program under the kinds that are asked for."""

    def __init__(self, asked: argparse.Namespace, room: str, job: Job) -> None:
        self.asked, self.room, self.job, self.has_waits, self.patient = asked, room, job, False, MOST_PATIENT
        self.remarks: Dict[str, int] = {}       # and in how many runs each was made
        self.untried: Dict[str, None] = {}      # sentences

    def job_of(self, it: Run) -> Job:
        """A run whose sleepers are woken each time that all sleep has a longer limit: that takes a while each time, and
        only a run that hangs at last is a deadlock."""
        seconds = max(PATIENCE * self.job.seconds, LEAST_TO_WAKE)
        return self.job._replace(seconds=seconds) if it.mend == WAKES_SLEEPERS else self.job

    def options(self, it: Run) -> List[str]:
        words = ["--kind", it.kind, "--wish", it.wish, "--seed", str(it.seed), "--eager", str(self.asked.eager)]
        words += ["--seconds", f"{self.job_of(it).seconds:g}"]
        words += [word for place in self.asked.leave for word in ("--leave", place)]
        words += ["--shake", str(it.seed)] if it.seed % 2 == 1 and not self.asked.steady and not it.turns else []
        words += ["--turns", it.turns] if it.turns else []
        words += ["--spurious", it.unasked] if it.unasked else []
        words += ["--spurious-at", it.place] if it.place else []
        return [*words, "--mend", str(it.mend)] if it.mend else words

    def run(self, it: Run) -> Result:
        folder = os.path.join(self.room, f"{it.name()}.{it.seed}")
        schedule = ["--schedule", f"{folder}.turns"] if it.turns else []
        result = run_under(self.job_of(it), folder, [*self.options(it), *schedule])
        self.has_waits = self.has_waits or has_waits(result.folder)
        for remark in remarks_in(result.folder):
            self.remarks[remark] = self.remarks.get(remark, 0) + 1
        self.untried.update(untried_in(result.folder))
        if result.what == OK:
            shutil.rmtree(result.folder)
        return result

    def not_late(self, it: Run, result: Result) -> Result:
        """A run that was late is repeated while nothing else runs, with a longer limit, unless one was late again."""
        if result.what != LATE or self.patient < 1:
            return result
        self.patient -= 1
        shutil.rmtree(result.folder)
        job, self.job = self.job, self.job._replace(seconds=PATIENCE * self.job.seconds)
        result, self.job = self.run(it), job
        self.patient = 0 if result.what == LATE else self.patient
        return result

    def cells(self, kind: str, unasked: Sequence[str], pool: ThreadPoolExecutor) -> List[Cell]:
        """A row of the table. Where waits wake unasked, the rates take turns, and each run has a seed of its own."""
        count = max(self.asked.runs, len(unasked) * LEAST_UNASKED)
        first = {wish: 1 + (count * number if unasked else 0) for number, wish in enumerate(self.asked.wishes)}
        asked = [[Run(kind, wish, seed, unasked[seed % len(unasked)] if unasked else "")
                  for seed in range(first[wish], first[wish] + count)] for wish in self.asked.wishes]
        begun = [[pool.submit(self.run, it) for it in row] for row in asked]
        ended = [[run.result() for run in row] for row in begun]
        name = UNASKED if unasked else ""
        return [Cell(kind, row[0].wish, [self.not_late(it, result) for it, result in zip(row, results)], name)
                for row, results in zip(asked, ended)]

    def run_by_turns(self, it: Run) -> Result:
        """A run that repeats. It counts only if it does: a wrong one is repeated, and has to end in the same way."""
        result = self.run(it)
        lost = lost_in(result.folder)
        if not lost and result.what in (WRONG, HUNG) and not it.again:
            again = self.run(it._replace(again=1))
            if (again.what, again.why) != (result.what, result.why):
                return result._replace(what=CANT, why="a run by turns ended otherwise when it was repeated")
        if lost or result.what == LATE:
            return result._replace(what=CANT, why=f"{lost_words(lost)}" if lost else "it is too slow")
        return result

    def by_turns(self, kind: str, pool: ThreadPoolExecutor) -> List[Cell]:
        """The row of runs that repeat. If the first doesn't, the others are left out."""
        asked = [[Run(kind, wish, seed, turns=CHOICES[seed % len(CHOICES)])
                  for seed in range(1, max(self.asked.runs, len(CHOICES)) + 1)] for wish in self.asked.wishes]
        first = self.run_by_turns(asked[0][0])
        if first.what == CANT:
            return [Cell(kind, self.asked.wishes[0], [first], TURNS)]
        begun = [[pool.submit(self.run_by_turns, it) for it in row if it is not asked[0][0]] for row in asked]
        ended = [[run.result() for run in row] for row in begun]
        ended[0].insert(0, first)
        return [Cell(kind, wish, results, TURNS) for wish, results in zip(self.asked.wishes, ended)]

    def asked_again(self, cell: Cell, mend: int) -> List[Run]:
        """Six runs of a cell. Those by turns are the ones that went wrong: others end as they did."""
        if cell.row != TURNS:
            return [Run(cell.kind, cell.wish, seed, mend=mend, again=1) for seed in range(1, REPEATED + 1)]
        bad = [seed_of(result) for result in cell.results if result.what in (WRONG, HUNG)]
        seeds = [bad[number % len(bad)] for number in range(REPEATED)]
        return [Run(cell.kind, cell.wish, seed, mend=mend, turns=CHOICES[seed % len(CHOICES)], again=2 + number)
                for number, seed in enumerate(seeds)]

    def count_repeated(self, cell: Cell, mend: int, pool: ThreadPoolExecutor) -> Counts[str]:
        """How the runs of a cell end if they are repeated, as they were (0) or mended by the layer."""
        runs = [pool.submit(self.run, it) for it in self.asked_again(cell, mend)]
        return Counter(run.result().what for run in runs)

    def repeats(self, cells: List[Cell], pool: ThreadPoolExecutor) -> Repeats:
        """The first wrong cell, repeated; under Mesa's rule also mended. A cell that is only late isn't repeated as it
        was, since that takes long: it counts if it is right once mended."""
        cell = worst(cells)
        if not cell:
            return Repeats()
        mends = (BROADCASTS, WAKES_SLEEPERS) if cell.kind == "NPNB" else ()
        if not cell.is_bad():
            bad = REPEATED
        else:
            bad = REPEATED - self.count_repeated(cell, 0, pool)[OK]
        ends = {mend: self.count_repeated(cell, mend, pool) for mend in mends}
        is_right = {mend: count[OK] == REPEATED for mend, count in ends.items() if not count[LATE]}
        return Repeats(cell.kind, REPEATED, bad, is_right)

    def unasked(self, cells: List[Cell], pool: ThreadPoolExecutor) -> List[Cell]:
        """The row of runs under Mesa's rule whose waits wake unasked, if the program is right without this, but for a
        run in so many."""
        bad, runs = sum(cell.count_bad() for cell in cells), sum(len(cell.results) for cell in cells)
        is_right = any(cell.count(OK) for cell in cells) and bad * SELDOM <= runs
        return self.cells("NPNB", RATES, pool) if is_right and self.has_waits else []

    def wrong_at(self, place: str, bad: List[Run], pool: ThreadPoolExecutor) -> int:
        """How many of these runs go wrong if only the waits of this place wake unasked."""
        runs = [pool.submit(self.run, it._replace(place=place)) for it in bad]
        return sum([run.result().what in (WRONG, HUNG) for run in runs])

    def woken(self, cells: List[Cell], pool: ThreadPoolExecutor) -> List[str]:
        """The places of waits whose unasked ends alone make the program go wrong, in half of the runs or more: of
        those the ones that do so most often. If there is none, other runs are tried."""
        bad = [(cell, result) for cell in cells for result in cell.results if result.what in (WRONG, HUNG)]
        places = list(dict.fromkeys(place for _, result in bad for place in woken_in(result.folder)))[:MOST_PLACES]
        for numbers in (range(RUNS_AT), range(RUNS_AT, 2 * RUNS_AT)) if bad else ():
            again = [asked_of(*bad[number % len(bad)])._replace(again=number) for number in numbers]
            wrong = {place: self.wrong_at(place, again, pool) for place in places}
            most = max(wrong.values(), default=0)
            found = [line_of(place) for place in places if 2 * wrong[place] >= max(RUNS_AT, most + 1)]
            if found:
                return found
        return []

    def facts(self, cells: List[Cell], plain: Counts[str], unasked: List[Cell], pool: ThreadPoolExecutor) -> Facts:
        repeats = self.repeats(cells, pool)
        if any(repeats.mended.values()):
            cells = [cell.with_hung() for cell in cells]
        bad = [cell for cell in cells if cell.is_bad()]
        hung = [result.folder for cell in bad for result in cell.results if result.what == HUNG]
        unlocks = [line for folder in hung for line in who_waits(folder) if "inside" in line and "has ended" in line]
        return Facts(cells, plain, repeats, unlocks, self.has_waits, Unasked(unasked, self.woken(unasked, pool)))
