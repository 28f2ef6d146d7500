"""Exercises that are graded: which of a student's scenes hold under which kinds, in every order.

The check.py of an exercise makes its scenes around the student's procedures, and ends by `main`. Each check has a
process of its own (grading.py), so whatever the student's file does, there is a verdict."""

from __future__ import annotations

import argparse
import contextlib
import difflib
import hashlib
import importlib.util
import json
import os
import signal
import sys
import tempfile
import textwrap
import time
import types
from dataclasses import asdict, dataclass
from typing import Any, Callable, Dict, List, NamedTuple, Optional, Sequence

from . import compiled, grading, in_c, in_java, lint
from .actor import where
from .grading import TooLong
from .kinds import KINDS
from .orders import Comparison, Finding, Orders, compare
from .run import NO_SUCH_CALL, Run
from .scene import Made

WIDTH = 92
# The limit of all checks, in seconds, and how much of it one may take. A check that is met takes one or two.
MOST_SECONDS, MOST_OF_ONE = 27.0, 0.75
INDENT = " " * 9
# Where one order suffices, it is looked for by dice first.
SOME_THEN_ALL: Sequence[Orders] = (50, "all")
# How much of a run is shown, and of what one check says.
LAST_STEPS, MOST_LINES = 20, 28
USAGE = "usage: python3 check.py [--json] [--only N] [--seconds N] FILE"


class Verdict(NamedTuple):
    """Whether a check is met, and what was found."""
    is_met: bool
    words: str


@dataclass
class Check:
    """Something that has to hold of the student's work."""
    title: str
    look: Callable[[], Verdict]


Checks = Callable[[Any], List[Check]]
# Languages that are compiled, by the ending of a file.
COMPILED: Dict[str, Callable[[str, str], compiled.Answer]] = {".c": in_c.answer, ".java": in_java.answer}


@dataclass
class Result:
    """What became of a check."""
    title: str
    is_met: bool
    words: str
    printed: str = ""


def holds(title: str, made: Made, kinds: Sequence[str] = KINDS, orders: Orders = "all",
          waits: Sequence[str] = ()) -> Check:
    """The scene goes right under all these kinds, in the orders that `compare` takes. waits: programs that have to
    wait in some order, by the names of their functions: without them an answer in which nobody waits is right."""
    def look() -> Verdict:
        found = compare(made, kinds, orders)
        if found.breaks:
            return Verdict(False, _broken(found))
        lacks = _never_wait(found, waits)
        return Verdict(not lacks, lacks or _in_orders(found))
    return Check(title, look)


def must_wait(title: str, made: Made, names: Sequence[str], kinds: Sequence[str] = KINDS,
              orders: Orders = "all") -> Check:
    """Each program of these names waits in some order."""
    def look() -> Verdict:
        found = compare(made, kinds, orders)
        lacks = _never_wait(found, names)
        return Verdict(not lacks, lacks or "each does")
    return Check(title, look)


def breaks(title: str, made: Made, kinds: Sequence[str], orders: Orders = "all") -> Check:
    """The scene doesn't go right under these kinds, and does under all others: the student was to find that."""
    def look() -> Verdict:
        found = compare(made, orders=orders)
        if sorted(kinds) == sorted(found.breaks):
            return Verdict(True, f"under {', '.join(found.breaks)}")
        return Verdict(False, f"you say {', '.join(kinds) or 'under none'}, and that isn't what `compare` finds")
    return Check(title, look)


def happens(title: str, made: Made, kinds: Sequence[str], has_happened: Callable[[], bool], hint: str) -> Check:
    """In some order under these kinds something happens, which the scene notes. The hint says what is wrong if it
    doesn't."""
    def happens_in(orders: Orders, kind: str) -> bool:
        compare(made, [kind], orders)
        return has_happened()
    return is_so(title, lambda: any(happens_in(orders, kind) for orders in SOME_THEN_ALL for kind in kinds), hint)


def some_order_breaks(title: str, made: Made, kinds: Sequence[str], hint: str) -> Check:
    """In some order under these kinds something happens that the scene's invariant forbids."""
    def happens_in(orders: Orders, kind: str) -> bool:
        return compare(made, [kind], orders)[kind].example.why.startswith("the invariant")
    return is_so(title, lambda: any(happens_in(orders, kind) for orders in SOME_THEN_ALL for kind in kinds), hint)


def is_so(title: str, is_met: Callable[[], bool], hint: str) -> Check:
    """A check that needs no run of its own. The hint says what is wrong if it isn't so."""
    def look() -> Verdict:
        return Verdict(True, "yes") if is_met() else Verdict(False, hint)
    return Check(title, look)


def knows(title: str, kinds: Sequence[str], digest: str, hint: str) -> Check:
    """The student found these kinds. digest: that of their names, in order of the alphabet, by SHA-256, so that the
    answer isn't in the check."""
    def look() -> Verdict:
        given = " ".join(sorted(map(str, kinds))).encode()
        return Verdict(True, "yes") if hashlib.sha256(given).hexdigest() == digest else Verdict(False, hint)
    return Check(title, look)


def _in_orders(found: Comparison) -> str:
    runs = sum(finding.runs for finding in found.findings.values())
    is_whole = all(finding.is_whole for finding in found.findings.values())
    return f"in all {runs} orders" if is_whole else f"in {runs} random orders"


def _never_wait(found: Comparison, names: Sequence[str]) -> str:
    waited = set().union(*(finding.waited for finding in found.findings.values()))
    lacks = [name for name in names if name not in waited]
    return f"right, but in no order does {' or '.join(lacks)} wait: it has to, while it can't go on" if lacks else ""


def _broken(found: Comparison) -> str:
    """Says of the first kind that breaks: in how many orders, where, who came between, picture, and moves."""
    finding = found[found.breaks[0]]
    run = finding.example
    bad = sum(finding.bad.values())
    lines = [f"{finding.kind}, {bad} of {finding.runs} orders: {run.fault}, after event {run.at}", run.between,
             _misspelt(finding), run.picture(WIDTH, last=LAST_STEPS) if run.story else "", _moves(run), *_others(found)]
    return "\n".join(line for line in lines if line)


def _others(found: Comparison) -> List[str]:
    """The other kinds that break. That some don't have a call is another thing than that it goes wrong."""
    first, *others = found.breaks
    lacks_first = found[first].outcome == NO_SUCH_CALL
    alike = [kind for kind in others if (found[kind].outcome == NO_SUCH_CALL) == lacks_first]
    rest = [kind for kind in others if kind not in alike]
    return [f"So it is under {', '.join(alike)}, too." if alike else "",
            f"And under {', '.join(rest)}: {found[rest[0]].example.fault}." if rest else ""]


def _moves(run: Run) -> str:
    return f"The moves: {run.schedule}" if 0 < len(run.moves) <= 2 * LAST_STEPS else ""


def _misspelt(finding: Finding) -> str:
    """A condition that is signalled in vain, if there is one of almost the same name; or another is waited on in
    vain."""
    vain, missed = sorted(finding.signalled_on - finding.waited_on), finding.waited_on - finding.signalled_on
    alike = [(name, difflib.get_close_matches(name, finding.waited_on, 1)) for name in vain]
    for name, others in [*(it for it in alike if it[1]), *((name, sorted(missed)) for name in vain)]:
        if others:
            return f"nobody ever waits on `{name}`; there is {', '.join(f'`{it}`' for it in others)}"
    return ""


# ---- one check, in its child

def _load(path: str) -> types.ModuleType:
    spec = importlib.util.spec_from_file_location("answer", path)
    if spec is None or spec.loader is None:
        raise ImportError("no file of Python")
    module = importlib.util.module_from_spec(spec)
    spec.loader.exec_module(module)
    return module


def _ending(path: str) -> str:
    return os.path.splitext(path)[1]


def _in_words(fault: BaseException) -> str:
    if isinstance(fault, TooLong):
        return f"doesn't end in time: {where(fault).partition(': ')[2]}"
    if isinstance(fault, SystemExit):
        return f"ends the check: {where(fault)}: take that out"
    return where(fault)


def _looked(check: Check, judges: lint.Judges) -> Verdict:
    try:
        verdict = check.look()
    except BaseException as fault:
        return Verdict(False, _in_words(fault))
    changed = judges.changed()
    return Verdict(False, f"the file changes {changed}, by which it is judged") if changed else verdict


class Exercise:
    """An exercise, and the file that is checked."""

    def __init__(self, path: str, checks_of: Optional[Checks], checks_of_compiled: Optional[Checks],
                 seconds: float) -> None:
        self.path, self.checks_of, self.checks_of_compiled = os.path.abspath(path), checks_of, checks_of_compiled
        self.most, self.end = seconds * MOST_OF_ONE, time.monotonic() + seconds
        self.room = tempfile.TemporaryDirectory()

    def _checks(self) -> List[Check]:
        of = COMPILED.get(_ending(self.path))
        checks = self.checks_of if of is None else self.checks_of_compiled
        if checks is None:
            raise compiled.NotBuilt("this exercise isn't in the language of that file")
        return checks(_load(self.path) if of is None else of(self.path, self.room.name))

    def loaded(self) -> Dict[str, Any]:
        """In a child: the titles of the checks, or why the file can't be loaded. A file of C or Java is built."""
        judges = lint.Judges()
        try:
            checks = self._checks()
        except compiled.NotBuilt as fault:
            return {"fault": str(fault)}
        except BaseException as fault:
            return {"fault": _in_words(fault)}
        changed = judges.changed()
        return {"fault": f"the file changes {changed}, by which it is judged"} if changed else {
            "titles": [check.title for check in checks]}

    def looked(self, number: int) -> Dict[str, Any]:
        """In a child: the verdict of a check."""
        judges = lint.Judges()
        verdict = _looked(self._checks()[number], judges)
        return {"is_met": bool(verdict.is_met), "words": str(verdict.words)}

    def left(self) -> float:
        return min(self.most, self.end - time.monotonic())

    def titles(self) -> List[str]:
        answer = grading.asked(self.loaded, self.left(), self.path)
        fault = answer.said.get("fault") if answer.said else _ended(answer)
        if fault is not None:
            raise ValueError("\n".join([str(fault), *_printed(answer.printed)]))
        assert answer.said is not None
        return list(map(str, answer.said["titles"]))

    def result(self, number: int, title: str) -> Result:
        if self.left() < 1:
            return Result(title, False, "not tried: the checks before took all the time")
        answer = grading.asked(lambda: self.looked(number), self.left(), self.path)
        if answer.said is None:
            return Result(title, False, _ended(answer), answer.printed)
        is_met = answer.said.get("is_met") is True
        return Result(title, is_met, str(answer.said.get("words")), "" if is_met else answer.printed)


def _ended(answer: grading.Answer) -> str:
    return answer.why + (f" (line {answer.line})" if answer.line else "")


# ---- what is printed

def _printed(text: str) -> List[str]:
    return [f"It printed: {line}" for line in text.splitlines()]


def _lines(number: int, result: Result) -> str:
    if result.is_met:
        return f"  {number} yes  {result.title}: {result.words}"
    lines = result.words.splitlines()
    lines = lines[:MOST_LINES] + ["and so on"] * (len(lines) > MOST_LINES)
    lines += _printed(result.printed)
    return f"  {number} NO   {result.title}\n{textwrap.indent(chr(10).join(lines), INDENT)}"


def _asked(titles: List[str], only: Optional[int]) -> List[int]:
    """The numbers of the checks that are to be tried."""
    if only is None:
        return list(range(len(titles)))
    if not 1 <= only <= len(titles):
        raise ValueError(f"--only {only}: its checks are 1 to {len(titles)}")
    return [only - 1]


def _grade(name: str, exercise: Exercise, only: Optional[int], is_json: bool) -> int:
    titles = exercise.titles()
    asked = _asked(titles, only)
    if not is_json:
        print(name)
    results: List[Result] = []
    for number in asked:
        results.append(exercise.result(number, titles[number]))
        if not is_json:
            print(_lines(number + 1, results[-1]), flush=True)
    met = sum(result.is_met for result in results)
    if is_json:
        print(json.dumps({"exercise": name, "met": met, "of": len(results), "checks": list(map(asdict, results))}))
    else:
        print(f"{met} of {len(results)}")
    return 0 if met == len(results) else 1


def _forgotten(name: str, words: List[str], is_json: bool) -> int:
    """Each call that isn't yielded is named, and nothing is run: it would go wrong somewhere else."""
    if is_json:
        print(json.dumps({"exercise": name, "met": 0, "faults": words}))
    else:
        print("\n".join([name, *(f"  NO   {line}" for line in words), "none is tried before that is mended"]))
    return 1


def _told(exercise: Exercise, name: str, words: argparse.Namespace) -> int:
    path, is_json = words.file, words.json
    try:
        with open(path, encoding="utf-8") as file:
            forgotten = [] if _ending(path) in COMPILED else lint.unyielded(file.read())
        return _forgotten(name, forgotten, is_json) if forgotten else _grade(name, exercise, words.only, is_json)
    except (OSError, ValueError) as fault:
        said = f"{path}: {fault.strerror if isinstance(fault, OSError) else fault}"
        if is_json:
            print(json.dumps({"exercise": name, "error": said}))
        print(said, file=sys.stderr)
        return 2


def _words() -> argparse.Namespace:
    asked = argparse.ArgumentParser(usage=USAGE[len("usage: "):], add_help=False)
    asked.add_argument("--json", action="store_true")
    asked.add_argument("--only", type=int)
    asked.add_argument("--seconds", type=float, default=MOST_SECONDS)
    asked.add_argument("file")
    return asked.parse_args()


def main(name: str, checks_of: Optional[Checks], checks_of_compiled: Optional[Checks] = None) -> None:
    """The check of the file that the command line names. Status 0 if all is met, 1 if not, 2 if the file can't be
    loaded. --json: one line for programs. --only: this check alone. --seconds: how long all may take, else 27.
    checks_of: the checks of a file in Python, given its module; None if there are none. checks_of_compiled: those of a
    file in C or Java, given its compiled.Answer."""
    # (a reader that has seen enough, as `head`, ends the check)
    signal.signal(signal.SIGPIPE, signal.SIG_DFL)
    words, status = _words(), 1
    with contextlib.suppress(KeyboardInterrupt):
        exercise = Exercise(words.file, checks_of, checks_of_compiled, words.seconds)
        status = _told(exercise, name, words)
    sys.exit(status)
