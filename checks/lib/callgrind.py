"""Counts the instructions that a program takes. Other work on the machine doesn't change their number."""
from __future__ import annotations

import re
import shutil
import subprocess
from typing import List, Tuple

COLLECTED = re.compile(r"Collected : (\d+)")


def is_there() -> bool:
    return shutil.which("valgrind") is not None


def run(words: List[str]) -> Tuple[int, str]:
    """The instructions of a run, and what it printed. Its exit status isn't looked at."""
    done = subprocess.run(["valgrind", "--tool=callgrind", "--callgrind-out-file=/dev/null", *words],
                          capture_output=True, text=True, check=False)
    collected = COLLECTED.search(done.stderr)
    if collected is None:
        raise RuntimeError(f"valgrind counted nothing of {' '.join(words)}: {done.stderr.strip()}")
    return int(collected[1]), done.stdout
