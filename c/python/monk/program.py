"""The program `monk`, asked about a history."""

from __future__ import annotations

import os
import shutil
import subprocess
import sys

from .errors import MonkError

# The statuses of `monk` that judge a history: it is legal, or it isn't.
VERDICTS = (0, 1)


def ask(command: str, text: str, *words: str) -> str:
    """What `monk COMMAND WORDS` answers, with the text as its input. MONK names the program, else it is found in
    PATH. A hint of the program goes to standard error. FileNotFoundError if there is no program, MonkError if it
    fails."""
    program = os.environ.get("MONK") or shutil.which("monk")
    if program is None:
        raise FileNotFoundError("no program monk: MONK names none, and PATH has none. README.md says how to build it.")
    done = subprocess.run([program, command, *words], input=text, capture_output=True, text=True)
    # Standard error may hold a hint, and only the status shows a failure.
    if done.returncode not in VERDICTS:
        told = done.stderr.strip() or done.stdout.strip()
        raise MonkError(told or f"monk {command} ended with status {done.returncode}")
    sys.stderr.write(done.stderr)
    return done.stdout
