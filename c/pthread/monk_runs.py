"""One run of a program, plain or under a kind of monitor, and how it is judged. Part of monk-try."""
import fcntl
import os
import re
import signal
import subprocess
import threading
import time
from collections import Counter
from concurrent.futures import ThreadPoolExecutor
from typing import IO, Counter as Counts, Dict, List, NamedTuple, Optional, Set, Tuple

from monk_sleepers import sleeps_for_ever

HERE = os.path.dirname(os.path.realpath(__file__))
OK, WRONG, HUNG, LATE, CANT = "ok", "wrong", "hung", "late", "n/a"
STATUS_CANT = 125
# Of a run that was ended here: it still ran, or all its threads slept for ever. No program ends with them.
STATUS_LATE, STATUS_HUNG = 1000, 1001
# The seconds that a run may take beyond its time limit, for its histories.
TO_WRITE = 10
FEWEST_PLAIN, LONGEST_PLAIN_SECONDS = 3, 5
# The limit of a plain run that is repeated alone.
PATIENT_PLAIN_SECONDS = 60
BUDGET = "65536"
# Of Linux (Python knows it from 3.10 on). A user may have so wide a pipe.
F_SETPIPE_SZ, WIDTH_OF_PIPE = 1031, 1 << 20


class Result(NamedTuple):
    what: str            # OK, WRONG, HUNG, LATE, CANT
    why: str
    folder: str          # with `history/`, and `report` of each process


class Expected(NamedTuple):
    status: int
    output: Optional[bytes]      # None: it differs from run to run, and isn't compared
    check: Optional[str]         # a shell command that judges the output


class Job(NamedTuple):
    """The program to run, and how it is judged."""
    words: List[str]
    seconds: float
    expected: Expected


class Ended(NamedTuple):
    status: int
    output: bytes
    errors: str
    seconds: float


def monk_run() -> str:
    """The command beside this file, or where it is installed."""
    beside = os.path.join(HERE, "monk-run")
    return beside if os.path.exists(beside) else os.path.join(HERE, "..", "..", "bin", "monk-run")


def status_words(status: int) -> str:
    return f"ended by {signal.Signals(-status).name}" if status < 0 else f"status {status}"


# The runs that are under way, by their leaders; and whether no other may begin.
_sessions: Set[int] = set()
_is_over = threading.Event()


def widen(pipe: Optional[IO[bytes]]) -> None:
    """Who prints more than the pipe holds waits for its reader: by turns that is a sleep in an unknown call."""
    try:
        if pipe:
            fcntl.fcntl(pipe, F_SETPIPE_SZ, WIDTH_OF_PIPE)
    except OSError:
        pass


def run(words: List[str], seconds: float) -> Ended:
    """Runs it in a session of its own, and leaves no process of it. The status is STATUS_LATE if the time is over."""
    if _is_over.is_set():
        return Ended(STATUS_LATE, b"", "", 0)
    began = time.monotonic()
    process = subprocess.Popen(words, stdin=subprocess.DEVNULL, stdout=subprocess.PIPE, stderr=subprocess.PIPE,
                               start_new_session=True)
    _sessions.add(process.pid)
    widen(process.stdout)
    try:
        output, errors = process.communicate(timeout=0 if _is_over.is_set() else seconds)
        status = process.returncode
    except subprocess.TimeoutExpired:
        status = STATUS_HUNG if sleeps_for_ever(process.pid) else STATUS_LATE
        end_session(process.pid)
        output, errors = process.communicate()
    end_session(process.pid)
    _sessions.discard(process.pid)
    return Ended(status, output, errors.decode(errors="replace"), time.monotonic() - began)


def end_session(leader: int) -> None:
    try:
        os.killpg(leader, signal.SIGKILL)
    except ProcessLookupError:
        pass


def end_all() -> None:
    """Ends each run, and lets none begin."""
    _is_over.set()
    for leader in list(_sessions):
        end_session(leader)


def is_right_by(check: str, ended: Ended) -> bool:
    done = subprocess.run(["sh", "-c", check], input=ended.output, stdout=subprocess.DEVNULL, stderr=subprocess.DEVNULL,
                          env={**os.environ, "MONK_STATUS": str(ended.status)})
    return done.returncode == 0


def judged(ended: Ended, folder: str, expected: Expected) -> Result:
    refusal = re.search(r"^monk: (.*)$", ended.errors, re.M)
    ends = {rows[0][1] for rows in reports(folder).values() if rows}    # also of a child, whose status a pipe hides
    if refusal and (ended.status == STATUS_CANT or "cant" in ends):
        return Result(CANT, refusal[1], folder)
    if folder and not ends and ended.status != STATUS_LATE:
        return Result(CANT, "the layer wasn't loaded into the program, or couldn't write its report", folder)
    if "hung" in ends or ended.status == STATUS_HUNG:
        return Result(HUNG, "it hangs", folder)
    if "late" in ends or ended.status == STATUS_LATE:
        return Result(LATE, "it still ran at the limit", folder)
    if expected.check is not None:
        what = OK if is_right_by(expected.check, ended) else WRONG
        return Result(what, "the check says so", folder)
    if ended.status != expected.status:
        return Result(WRONG, status_words(ended.status), folder)
    if expected.output is not None and ended.output != expected.output:
        return Result(WRONG, "another output", folder)
    return Result(OK, "", folder)


def run_under(job: Job, folder: str, options: List[str]) -> Result:
    """A run under the kind that the options name. Its histories and reports are in the folder."""
    os.makedirs(folder)
    asked = ["--budget", BUDGET, "--history", os.path.join(folder, "history"),
             "--report", os.path.join(folder, "report"), *options]
    ended = run([monk_run(), *asked, "--", *job.words], job.seconds + TO_WRITE)
    return judged(ended, folder, job.expected)


def reports(folder: str) -> Dict[str, List[List[str]]]:
    """The lines of each process's report, by the folder of its histories; the program's own come first."""
    found: Dict[str, List[List[str]]] = {}
    names = [name for name in os.listdir(folder) if name.startswith("report")] if os.path.isdir(folder) else []
    for name in sorted(names):
        history = os.path.join(folder, "history", name[len("report."):])
        with open(os.path.join(folder, name)) as file:
            found[history.rstrip("/")] = [line.split() for line in file]
    return found


def has_waits(folder: str) -> bool:
    """Whether a thread waited in a monitor: then a report or a history's names have a line of its condition."""
    paths = [os.path.join(at, name) for at, _, names in os.walk(folder) for name in names
             if name.startswith("report") or name.endswith(".names")]
    for path in paths:
        with open(path) as file:
            if any(line.startswith("condition ") for line in file):
                return True
    return False


def expected_of(runs: List[Ended], status: int, expect: Optional[str], check: Optional[str]) -> Expected:
    """The output that right runs have in common, unless a file says it."""
    if expect:
        with open(expect, "rb") as file:
            return Expected(status, file.read(), check)
    outputs = {it.output for it in runs if it.status == status}
    return Expected(status, outputs.pop() if len(outputs) == 1 else None, check)


def has_ended(it: Ended) -> bool:
    """By itself."""
    return it.status not in (STATUS_LATE, STATUS_HUNG)


def try_plain(words: List[str], runs: int, seconds: Optional[float], jobs: int) -> List[Ended]:
    """Plain runs. Those that are late and don't hang are repeated alone, with a longer limit, until one is so again."""
    patient = seconds or PATIENT_PLAIN_SECONDS
    limit = min(patient, LONGEST_PLAIN_SECONDS)
    with ThreadPoolExecutor(jobs) as pool:
        ended = list(pool.map(lambda _: run(words, limit), range(max(FEWEST_PLAIN, runs))))
    for number, it in enumerate(ended):
        if it.status == STATUS_LATE and limit < patient:
            ended[number] = run(words, patient)
            patient = patient if has_ended(ended[number]) else limit
    return ended


def count_plain(runs: List[Ended], expected: Expected) -> Counts[str]:
    return Counter(judged(it, "", expected).what for it in runs)
