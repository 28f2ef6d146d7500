"""What monk says of a log; for recorders/check and recorders/hostile."""
from __future__ import annotations

import os
import re
import subprocess
from typing import Iterable, Tuple

TOP = os.path.dirname(os.path.dirname(os.path.abspath(__file__)))
COUNTS = ("served", "passed", "unheard", "crossed")
# By condition, the predicate that threads wait for on it.
Means = Iterable[Tuple[int, int]]


class Said:
    """What `monk fit` says of a log."""

    def __init__(self, line: str) -> None:
        self.line, self.is_hoare, self.is_suspect = line, False, False
        verdict, *parts = line.split("; ")
        misfit = re.match(r"misfit at \d+: (\w+)", verdict)
        self.word = misfit[1] if misfit else ""
        if not misfit and not verdict.startswith("fits"):
            raise SystemExit(f"recorders: no answer: {line}")
        # The end is said only after a verdict that fits.
        self.ending = "" if misfit else parts[0].split(",")[0]
        counts = {word: self.number(rf"\b{word} (\d+)") for word in COUNTS}
        self.counts = {**counts, "spurious": self.number(r"(\d+) spurious")}

    def number(self, pattern: str) -> int:
        found = re.search(pattern, self.line)
        return int(found[1]) if found else 0

    def fits(self) -> bool:
        return not self.word

    def reason(self) -> str:
        """Why it misfits, in one word; none if it fits."""
        return self.word

    def misses(self) -> int:
        """The line at which a signal is first missed, or 0."""
        return self.number(r"; missed at (\d+)")

    def end(self) -> str:
        """How it ends: free, busy, busy at the end, owed, open or dead; none if it misfits."""
        return self.ending

    def is_right(self) -> bool:
        """Whether it fits, misses nothing, and ends with nobody inside."""
        return self.fits() and not self.misses() and self.end() == "free"


class Judge:
    """Judges logs, by the program that MONK names, else by that of checks/program."""

    def __init__(self) -> None:
        program = os.path.join(TOP, "checks", "program")
        self.monk = os.environ.get("MONK") or subprocess.check_output([program], text=True).strip()

    def said(self, path: str, means: Means = ()) -> Said:
        return Said(self.asked("fit", *told(means), path).stdout.strip()[len(f"{path}: ") :])

    def explained(self, path: str, means: Means = ()) -> list[str]:
        return self.asked("explain", *told(means), path).stdout.splitlines()

    def completes(self, kind: str, path: str) -> bool:
        """Whether the log could be that of a monitor of that kind, in order of arrival."""
        return self.asked("complete", "--kind", kind, path).returncode == 0

    def suspects_if(self, path: str) -> bool:
        """Whether there is the hint, for its lines without the acts, that a wait has an `if`."""
        with open(path) as file:
            lines = "".join(line for line in file if not line.startswith("act "))
        return "; never waits again" in self.asked("fit", "-", text=lines).stdout

    def asked(self, *words: str, text: str | None = None) -> subprocess.CompletedProcess[str]:
        return subprocess.run([self.monk, *words], input=text, capture_output=True, text=True)


def told(means: Means) -> list[str]:
    return [word for cond, pred in means for word in ("--means", f"{cond}={pred}")]
