"""What monk-run and monk-try refuse, and in which words. STATIC, CROWD and SCRIPT stand for programs of the tests, and
ROOM for a folder that has files."""
from typing import List, Tuple

Cases = Tuple[Tuple[List[str], str], ...]

BY_RUN: Cases = (
    (["--kind", "XX", "ls"], "MONK_KIND=XX: none of PB NPB PNB NPNB PQB NPQB PIR NPIR"),
    (["--kind", "PIS", "ls"], "MONK_KIND=PIS: none of PB NPB PNB NPNB PQB NPQB PIR NPIR"),
    (["--kind", "PB", "--wish", "luck", "ls"], "MONK_WISH=luck: none of entry waiter signaller any"),
    (["--kind", "PB", "--seed", "x", "ls"], "MONK_SEED=x: no number, or out of range"),
    (["--kind", "PB", "--spurious", "1001", "ls"], "MONK_SPURIOUS=1001: no number, or out of range"),
    (["--kind", "PB", "--spurious", "9", "--spurious-at", "x+0x1", "true"], "x+0x1: no wait was called there"),
    (["--kind", "PB", "--budget", "3", "ls"], "MONK_BUDGET=3: no number, or out of range"),
    (["--kind", "PB", "--seconds", "soon", "ls"], "MONK_SECONDS=soon: no number of seconds"),
    (["--kind", "PB"], "which program? monk-run --kind KIND PROGRAM"),
    (["ls"], "which kind? monk-run --kind KIND PROGRAM"),
    (["--kind"], "--kind: its value is missing"),
    (["--loud", "1", "ls"], "--loud: no such option; monk-run --help names them"),
    (["--kind", "PB", "no_such_program"], "no_such_program: no such program"),
    (["--kind", "PB", "--history", "/dev/null", "ls"], "/dev/null: it isn't a folder"),
    (["--kind", "PB", "--report", "/dev/null/x", "ls"], "/dev/null/x: it can't be written"),
    (["--kind", "PB", "STATIC"], "STATIC: it isn't dynamically linked"),
    (["--kind", "PB", "SCRIPT"], "SCRIPT: it can't be executed: it is neither a program nor a script that begins with #!"),
    (["--kind", "PB", "LOADER"], "LOADER: it can't be executed: there is no /no/such/ld.so"),
    (["--kind", "PB", "ORPHAN"], "ORPHAN: it can't be executed: there is no /no/such/shell"),
    (["--kind", "PB", "--history", "ROOM", "ls"], "files stand there; name a fresh folder for histories"),
    (["--kind", "PB", "--turns", "luck", "ls"], "MONK_TURNS=luck: none of walk priorities"),
    (["--kind", "PB", "--play", "SCRIPT", "ls"], "it is no schedule of monk-try"),
    (["--kind", "PB", "--play", "/no/such/file", "ls"], "/no/such/file: No such file or directory"),
    (["--kind", "PIR", "CROWD", "2"],
     "a broadcast to more than one, which a monitor of immediate return can't do"),
)

BY_TRY: Cases = (
    (["--kinds", "XX", "ls"], "XX: none of PB NPB PNB NPNB PQB NPQB PIR NPIR"),
    (["--seconds", "nan", "ls"], "a number of runs, jobs or seconds is out of range"),
    (["-n", "x", "ls"], "argument -n/--runs: invalid int value: 'x'"),
    (["--expect", "/dev/null/x", "ls"], "/dev/null/x: no such file"),
    (["--keep", "ROOM", "ls"], "other things than a run that was kept stand there"),
    (["--keep", "/dev/null/x", "false"], "/dev/null/x: no folder can be made there; name another with --keep"),
    (["--keep", "LINK", "false"], "LINK: it is a link; name another with --keep"),
    ([], "which program? monk-try PROGRAM"),
    (["--again", "/no/such/file"], "/no/such/file: No such file or directory"),
    (["--again", "SCRIPT"], "SCRIPT: it is no schedule of monk-try"),
    (["no_such_program"], "no_such_program: no such program"),
    (["SCRIPT"], "SCRIPT: Exec format error"),
)
