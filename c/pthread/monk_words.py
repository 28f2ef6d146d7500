"""The words of monk-try, and what it refuses. Part of monk-try."""
import argparse
import os
import shutil
import sys
from typing import NoReturn

from monk_lessons import KINDS
from monk_runs import STATUS_CANT

ALL_WISHES, WISHES = ("waiter", "entry", "signaller", "any"), "waiter,entry,any"
TOO_LONG = 1e9


def refuse(text: str) -> NoReturn:
    print(f"monk: {text}", file=sys.stderr)
    sys.exit(STATUS_CANT)


class Words(argparse.ArgumentParser):
    def error(self, message: str) -> NoReturn:
        refuse(message)


def parsed(description: str) -> argparse.Namespace:
    words = Words(prog="monk-try", description=description, formatter_class=argparse.RawDescriptionHelpFormatter)
    words.add_argument("-n", "--runs", type=int, default=4, help="runs of each cell (4)")
    words.add_argument("--seconds", type=float,
                       help="the time limit of a run (10, or eight times that of the slowest plain run)")
    words.add_argument("--kinds", default=",".join(KINDS))
    words.add_argument("--wishes", default=WISHES)
    words.add_argument("--expect", metavar="FILE", help="the right output; else that of plain runs")
    words.add_argument("--status", type=int, default=0, help="the right status (0)")
    words.add_argument("--check", metavar="CMD",
                       help="a shell command that gets the output, and says 0 if it is right; $MONK_STATUS")
    words.add_argument("--eager", type=int, default=16, metavar="N",
                       help="so many mutexes are monitors from their first lock on (16)")
    words.add_argument("--leave", metavar="PLACE", action="append", default=[],
                       help="this mutex (PATH+0xOFFSET, as a refusal names it) is left what it is")
    words.add_argument("--steady", action="store_true",
                       help="no shaking: else every second run is shaken, the first of all")
    words.add_argument("--jobs", type=int, default=os.cpu_count() or 1,
                       help="runs at the same time (as many as processors)")
    words.add_argument("--keep", metavar="DIR", default="monk-try.out",
                       help="where the first wrong run is kept (monk-try.out)")
    words.add_argument("--again", metavar="FILE",
                       help="plays a schedule that was kept (DIR/schedule), and says how the run ends now")
    words.add_argument("--junit", metavar="FILE", help="writes the table as JUnit's XML, a test case for each cell")
    words.add_argument("--json", action="store_true", help="prints one line of JSON in place of the table")
    words.add_argument("words", nargs=argparse.REMAINDER, metavar="PROGRAM ..")
    asked = words.parse_args()
    asked.kinds, asked.wishes = (list(dict.fromkeys(row.split(","))) for row in (asked.kinds, asked.wishes))
    if asked.words[:1] == ["--"]:
        del asked.words[0]
    return asked


def may_be_kept(folder: str) -> bool:
    """Whether the folder can be made anew, and nothing is there but a run that was kept."""
    above = os.path.dirname(os.path.abspath(folder))
    if os.path.islink(folder) or not os.path.isdir(above) or not os.access(above, os.W_OK):
        refuse(f"{folder}: {'it is a link' if os.path.islink(folder) else 'no folder can be made there'}; name another"
               " with --keep")
    names = os.listdir(folder) if os.path.isdir(folder) else [] if not os.path.exists(folder) else [folder]
    return all(name in ("history", "schedule") or name.startswith("report") for name in names)


def refuse_bad(asked: argparse.Namespace) -> None:
    for kind in asked.kinds:
        if kind not in KINDS:
            refuse(f"{kind}: none of {' '.join(KINDS)}")
    for wish in asked.wishes:
        if wish not in ALL_WISHES:
            refuse(f"{wish}: none of {' '.join(ALL_WISHES)}")
    if asked.runs < 1 or asked.jobs < 1 or not 0 < (asked.seconds or 1) < TOO_LONG or asked.eager < 0:
        refuse("a number of runs, jobs or seconds is out of range")
    if asked.again:
        return
    if not asked.words:
        refuse("which program? monk-try PROGRAM")
    if not shutil.which(asked.words[0]):
        refuse(f"{asked.words[0]}: no such program")
    if asked.expect and not os.path.isfile(asked.expect):
        refuse(f"{asked.expect}: no such file")
    if not may_be_kept(asked.keep):
        refuse(f"{asked.keep}: other things than a run that was kept stand there")
