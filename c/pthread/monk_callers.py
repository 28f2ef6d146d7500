"""From where a function of a header is called, in a program that isn't optimized: there its line says nothing of the
program's own. Part of monk-try."""
import os
import re
import subprocess
from typing import Callable, Dict, List, NamedTuple

# The letters that nm gives to functions; larger programs aren't read.
FUNCTIONS, LARGEST = "tTwWuV", 64 << 20
# So many callers are named, and so many calls of headers within each other are followed.
MOST_CALLERS, DEEPEST = 3, 8


class Code(NamedTuple):
    starts: List[int]                # where functions begin, in order
    calls: Dict[int, List[int]]      # for the start of a function the places after its calls


def said(words: List[str]) -> str:
    """What a tool prints; nothing if there is no such tool."""
    try:
        done = subprocess.run(words, stdout=subprocess.PIPE, stderr=subprocess.DEVNULL, universal_newlines=True)
    except OSError:
        return ""
    return done.stdout


_codes: Dict[str, Code] = {}


def code_of(path: str) -> Code:
    if path not in _codes:
        is_small = os.path.isfile(path) and os.path.getsize(path) <= LARGEST
        rows = [line.split(maxsplit=2) for line in (said(["nm", path]) if is_small else "").splitlines()]
        starts = sorted(int(row[0], 16) for row in rows if len(row) == 3 and row[1] in FUNCTIONS)
        calls: Dict[int, List[int]] = {}
        text = said(["objdump", "-d", "--no-show-raw-insn", path]) if starts else ""
        for called, after in re.findall(r"\tcall\s+([0-9a-f]+) <.*\n\s*([0-9a-f]+):", text):
            calls.setdefault(int(called, 16), []).append(int(after, 16))
        _codes[path] = Code(starts, calls)
    return _codes[path]


def start_of(code: Code, at: int) -> int:
    return max((start for start in code.starts if start < at), default=0)


def callers_of(place: str, is_own: Callable[[str], bool]) -> List[str]:
    """The places in the program's own lines from which the function at PATH+0xOFFSET is called, through others that
    aren't; nothing if they are too many."""
    path, _, offset = place.rpartition("+0x")
    code, level, found = code_of(path), {int(offset, 16)}, set()
    for _ in range(DEEPEST):
        above = {after for at in level for after in code.calls.get(start_of(code, at), [])}
        own = {at for at in above if is_own(f"{path}+{at:#x}")}
        found |= own
        level = above - own
    return [f"{path}+{at:#x}" for at in sorted(found)] if len(found) <= MOST_CALLERS else []
