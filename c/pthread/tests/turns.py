"""Tests of runs by turns: they repeat, and a wrong one is kept as a schedule that can be played."""
import os
import re
import shutil
from collections import Counter
from concurrent.futures import ThreadPoolExecutor
from typing import Any, List, Tuple

import debian
from programs import LESSONS, SOUND
from unasked import FEW, fail

CANT = 125
# How often one seed is tried, and with how many seeds a fault has to show. (barrier one never ends: its limit does.)
TIMES, SEEDS = 20, 10
SHOWN = (("buffer", "if", "3"), ("pool", "if", "3"), ("readers", "if", "3"), ("flag", "outside", "3"))
UNENDING = ("barrier", "one")
# Programs of Debian that meet where the layer sees it.
MEETING = ("zstd", "pigz", "plzip", "lbzip2", "sort")
MANY_LOST = "1000"
CROWD = 4       # runs on each processor


def run_by(tests: Any, words: List[str], seed: int, how: str, name: str) -> Tuple[Tuple[int, str], str, str]:
    """How a run by turns ended, its schedule, and its report."""
    paths = [os.path.join(tests.room, f"{name}.{what}") for what in ("schedule", "report")]
    for path in paths:
        if os.path.exists(path):
            os.remove(path)
    done = tests.run("NPNB", "any", words, "--turns", how, "--seed", str(seed), "--eager", "16", "--schedule", paths[0],
                     "--report", paths[1])
    schedule, report = (open(path).read() if os.path.exists(path) else "" for path in paths)
    return (done.returncode, done.stdout), schedule, report


def repeated(tests: Any) -> str:
    """The same seed gives the same end and the same schedule; the sound programs are right by turns."""
    programs = [it for it in SOUND if it.words[0] != "odd"][::1 if tests.is_long else 2]   # (odd has 80 threads)
    for program in programs:
        for seed, how in ((1, "walk"), (2, "priorities")):
            runs = [run_by(tests, tests.words(program.words), seed, how, "repeated") for _ in range(2)]
            if runs[0][:2] != runs[1][:2] or "unrepeatable" in runs[0][2]:
                fail(f"repeated: {program.words} {how} {seed}: {runs[0][0]} {runs[1][0]} {runs[0][2][:300]}")
            if runs[0][0] != (0, program.output + "\n"):
                fail(f"repeated: {program.words} {how} {seed}: {runs[0][0]}")
    return f"{4 * len(programs)} runs, two of each are alike"


def met(tests: Any) -> str:
    """Joins, semaphores, read-write locks, barriers, sleeps and pipes hand the turn on; their calls are counted."""
    for how in ("walk", "priorities"):
        end, _, report = run_by(tests, tests.words(("meetings",)), 1, how, "met")
        counts = re.findall(r"^elsewhere (\w+) (\d+) (\d+)$", report, re.M)
        if end != (0, "meetings: wrong 0\n") or "unrepeatable" in report or len(counts) != 3:
            fail(f"met: {how}: {end} {report[:500]}")
    return ", ".join(f"{name} {calls}" for name, calls, _ in counts)


def piped(tests: Any) -> str:
    """A process that waits for a slow one doesn't hang: where processes meet, or at a pipe. (A sleep would take no time:
    the other counts.)"""
    for where in ("semaphore", "mutex", "lock", "barrier"):
        end, _, report = run_by(tests, tests.words(("kin", where)), 1, "walk", "piped")
        if end != (0, "kin: wrong 0\n"):
            fail(f"piped: {where}: {end} {report}")
    words = ["sh", "-c", "(i=0; while [ $i -lt 600000 ]; do i=$((i + 1)); done; echo told) | grep told"]
    end, _, report = run_by(tests, words, 1, "walk", "piped")
    if end != (0, "told\n"):
        fail(f"piped: {end} {report}")
    return "waits for another process"


def busy(tests: Any) -> str:
    """A thread that others keep from the processor keeps its turn."""
    words, count = tests.words(("meetings", "busy")), CROWD * (os.cpu_count() or 1)
    with ThreadPoolExecutor(count) as pool:
        runs = list(pool.map(lambda number: run_by(tests, words, 1, "walk", f"busy.{number}"), range(count)))
    lost = [report for _, _, report in runs if "unrepeatable" in report]
    if {end for end, _, _ in runs} != {(0, "meetings: wrong 0\n")} or lost:
        fail(f"busy: {runs[0][0]} {len(lost)} of {count} lost turns: {lost[:1]}")
    return f"{count} runs at once"


def woken(tests: Any) -> str:
    """A program that loses signal after signal is right if all sleepers are woken each time, and soon."""
    program = tests.words(("flag", "twice", MANY_LOST))
    for how in ("walk", "priorities"):
        done = tests.run("NPNB", "any", program, "--turns", how, "--seed", "1", "--eager", "16", "--mend", "2")
        if (done.returncode, done.stdout) != (0, "flag: wrong 0\n"):
            fail(f"woken: {how}: {done.returncode} {done.stdout}{done.stderr}")
    return f"the sleepers of {MANY_LOST} rounds"


def repeats(tests: Any) -> str:
    """Twenty runs with one seed have one end and one schedule; and faults show with some of ten seeds. (What is printed
    goes into a file: a full pipe makes the program wait for another one.)"""
    found = debian.programs(tests.room)
    programs = {" ".join(it): tests.words(it) for it in LESSONS if it != UNENDING}
    into_file = ["sh", "-c", f"exec \"$@\" >{os.path.join(tests.room, 'printed')}", "sh"]
    programs.update({name: [*into_file, *found[name]] for name in MEETING if name in found})
    for name, words in programs.items():
        runs = Counter(run_by(tests, words, 1, "walk", "repeats")[:2] for _ in range(TIMES))
        print(f"repeats: {name}: status {[*runs][0][0][0]}, {len(runs)} schedules in {TIMES} runs", flush=True)
        if len(runs) != 1:
            fail(f"repeats: {name}: {[(end[0], len(schedule), count) for (end, schedule), count in runs.items()]}")
    for fault in SHOWN:
        wrong = [seed for seed in range(1, SEEDS + 1) if run_by(tests, tests.words(fault), seed, "walk", "repeats")[0][0]]
        print(f"repeats: {' '.join(fault)}: wrong with seeds {wrong}", flush=True)
        if not wrong:
            fail(f"repeats: {' '.join(fault)}: right with all seeds")
    return f"{len(programs)} programs, {len(SHOWN)} faults shown"


def lost(tests: Any) -> str:
    """A thread that sleeps elsewhere, or spins, loses its turn, and the report says where."""
    for fault in ("elsewhere", "spins"):
        end, _, report = run_by(tests, tests.words(("meetings", fault)), 1, "walk", "lost")
        if end != (0, "meetings: wrong 0\n") or not re.search(r"^unrepeatable \d+ \w+", report, re.M):
            fail(f"lost: {fault}: {end} {report[:500]}")
    return "where threads lose their turns"


def played(tests: Any) -> str:
    """A wrong run is kept with few changes of turn, goes wrong again when it is played, and is refused elsewhere."""
    keep = os.path.join(tests.room, "played")
    shutil.rmtree(keep, ignore_errors=True)
    words = tests.words(("buffer", "if", "3"))
    told = tests.verdict(words, "--keep", keep, *FEW, "NPNB")["first_wrong"]
    schedule = os.path.join(keep, "schedule")
    again = [tests.try_with("", ["--again", schedule]) for _ in range(3)]
    if not told["turns"] or len(told["turns"]) > 6 or any(it.returncode != 1 for it in again):
        fail(f"played: {told}: {[it.stdout + it.stderr for it in again]}")
    other = tests.try_with("", ["--again", schedule, "true"])
    none = tests.try_with("", ["--again", words[0]])
    for done, why in ((other, "it is a schedule of another program"), (none, "it is no schedule of monk-try")):
        if done.returncode != CANT or why not in done.stderr or done.stderr.count("\n") != 1:
            fail(f"played: {done.returncode}: {done.stdout}{done.stderr}")
    return f"{len(told['turns'])} changes of turn, again and again"
