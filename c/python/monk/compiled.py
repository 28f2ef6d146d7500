"""A student's file in a language that is compiled, in the scenes of its exercise."""

from __future__ import annotations

import os
import re
import shutil
import subprocess
import sys
from typing import Callable, List, Sequence

from .foreign import Process
from .scene import Scene

MOST_LINES, SECONDS = 10, 20
# The folder of the file that a line names first.
FOLDER = re.compile(r"^\S*/")


class NotBuilt(Exception):
    """The compiler refuses the file, or there is none."""


class Answer:
    """The programs of a student's file, and the process that has them in the scenes of their exercise."""

    def __init__(self, path: str, process: Process) -> None:
        self.path, self.process = path, process

    def scene(self, name: str, *words: object) -> Callable[[], Scene]:
        return self.process.scene(name, *words)

    def kinds(self, name: str) -> List[str]:
        """The kinds that the file names: `NAME = "PB NPB";`, in small letters or great ones."""
        with open(self.path, encoding="utf-8", errors="replace") as file:
            found = re.search(rf'\b{name}\s*=\s*"([^"]*)"', file.read(), re.I)
        return found[1].split() if found else []


def exercise() -> str:
    """The folder of the exercise, which has check.py."""
    return os.path.dirname(os.path.abspath(sys.argv[0]))


def lab(language: str) -> str:
    """The folder of the lab's own files in that language, which is beside the exercise."""
    return os.path.join(os.path.dirname(exercise()), language)


def tool(names: Sequence[str], package: str) -> str:
    """The first program of these names that is there. NotBuilt if none is."""
    found = next(filter(None, map(shutil.which, names)), None)
    if found is None:
        raise NotBuilt(f"{names[0]} isn't there: install {package}")
    return found


def build(words: Sequence[str]) -> None:
    """Runs a compiler. NotBuilt, with its first errors, if it refuses. They name files without their folders."""
    try:
        done = subprocess.run(words, capture_output=True, text=True, errors="replace", timeout=SECONDS, check=False)
    except subprocess.TimeoutExpired:
        raise NotBuilt(f"the compiler takes more than {SECONDS} s: is the machine busy?") from None
    if done.returncode:
        lines = [line for line in done.stderr.splitlines() if "error:" in line or "undefined" in line]
        lines = [FOLDER.sub("", line) for line in lines[:MOST_LINES] or done.stderr.splitlines()[-1:]]
        raise NotBuilt("\n".join(["it can't be compiled:", *lines]))
