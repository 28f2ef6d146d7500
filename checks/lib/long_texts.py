"""Long texts: a file of what a program tells has a limit."""
from __future__ import annotations

import os
import subprocess
from typing import List

MOST_TOLD = 1 << 22
HISTORY = "monk 1 PB 1 0 buffer 1\nenter 0 free\n"


def wrong_told(monk: str, path: str) -> str:
    """What is wrong with the answer to a file of what a program tells that is too long by a byte."""
    with open(path, "w") as file:
        file.write(HISTORY)
    with open(f"{path}.told", "w") as told:
        told.write('{"end": "' + "a" * (MOST_TOLD - 10) + '"}')
    done = subprocess.run([monk, "page", path], capture_output=True, text=True, timeout=60)
    wanted = f"monk: {path}.told has more than {MOST_TOLD} bytes: leave out what the window doesn't show\n"
    return "" if (done.returncode, done.stdout, done.stderr) == (2, "", wanted) else f"page: {done.stderr[:200]}"


def wrong_of_long(monk: str, folder: str) -> List[str]:
    wrong = wrong_told(monk, os.path.join(folder, "long.history"))
    return [wrong] if wrong else []
