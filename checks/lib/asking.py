"""Calls the program by its words: with a text on standard input, at a terminal, and with a standard stream that
fails."""
from __future__ import annotations

import os
import pty
import subprocess
from typing import Any, Dict, Iterator, Optional, Tuple

TOP = os.path.dirname(os.path.dirname(os.path.dirname(os.path.abspath(__file__))))
MONK = os.environ.get("MONK") or subprocess.check_output([os.path.join(TOP, "checks", "program")], text=True).strip()
# What is printed on each stream, if it could be, and the status.
Answer = Tuple[str, Optional[str], int]
# What was asked, what is wanted, and what was answered.
Asked = Tuple[str, object, object]

HISTORY, PLAY = "examples/hoare_handover.history", "examples/ticket_at_the_drop.play"
LOG = "examples/threads_at_a_buffer.log"

# each command, by words with which it prints something
COMMANDS = [
    "classify 1 3 2",
    f"audit {HISTORY}",
    f"play {PLAY}",
    f"upgrade {HISTORY}",
    f"fit {HISTORY}",
    f"fit --kind PB {HISTORY} {HISTORY}",
    f"trace {PLAY}",
    f"explain {HISTORY}",
    f"explain {LOG}",
    f"draw {HISTORY}",
    f"draw {LOG}",
    f"draw --text {HISTORY}",
    f"page {HISTORY}",
    f"complete --kind NPNB {LOG}",
    f"complete {LOG}",
    f"fit --json {LOG}",
    "run PB buffer 2 1",
    "record PB buffer 2 1",
    "hasty PB 2 1",
]

# those that read standard input if no file is named
READERS = ["audit", "play", "upgrade", "fit", "fit --kind PB", "trace", "explain", "explain --kind PB", "draw", "page"]
READERS += ["complete --kind NPNB", "complete"]

# the answer if a standard stream fails
FAILED = ("", "file\n", 4)


def ran(words: str, given: str = "") -> Tuple[str, str, int]:
    """What the program prints on each stream, and its status."""
    done = subprocess.run([MONK, *words.split()], input=given, capture_output=True, text=True, timeout=60, cwd=TOP)
    return done.stdout, done.stderr, done.returncode


def at_a_terminal() -> Answer:
    """The same for a command that reads a terminal, at which a text is typed."""
    ours, its = pty.openpty()
    os.write(ours, b"monk 1 PB 2 0 buffer 1\nenter 0 free\n\4")
    done = subprocess.run([MONK, "audit"], stdin=its, capture_output=True, text=True, timeout=60, cwd=TOP)
    os.close(its)
    os.close(ours)
    return done.stdout, done.stderr, done.returncode


def closed(stream: int) -> Dict[str, Any]:
    """The setting that closes a standard stream of the program that is started."""
    return {"preexec_fn": lambda: os.close(stream)}


def failed(words: str, stream: str, **how: Any) -> Answer:
    """What the program prints on each stream, and its status, if one of its standard streams fails."""
    pipes: Dict[str, Any] = {"stdin": subprocess.DEVNULL, "stdout": subprocess.PIPE, "stderr": subprocess.PIPE, **how}
    if "preexec_fn" in how:
        pipes[stream] = None
    done = subprocess.run([MONK, *words.split()], text=True, timeout=60, cwd=TOP, **pipes)
    return done.stdout or "", done.stderr, done.returncode


def failing() -> Iterator[Asked]:
    """Each command with a standard output that is closed or full, and each reader with a standard input that is closed,
    or a folder. A failure is told once and has its status, as with the files that C writes
    (c/pthread/tests/outputs.py)."""
    with open("/dev/full", "wb") as full:
        for words in COMMANDS:
            yield f"{words} with standard output closed", FAILED, failed(words, "stdout", **closed(1))
            yield f"{words} with standard output full", FAILED, failed(words, "stdout", stdout=full)
        # a hint that can't be written changes nothing
        unheard: Answer = ("unreadable 1 1 header\n", None, 2)
        yield "audit with standard error closed", unheard, failed("audit", "stderr", **closed(2))
        yield "audit with standard error full", unheard, failed("audit", "stderr", stderr=full)
        words, unheard = f"fit --kind PB --means 0=0 {HISTORY}", (f"{HISTORY}: PB legal 11\n", None, 0)
        yield f"{words} with standard error closed", unheard, failed(words, "stderr", **closed(2))
        yield f"{words} with standard error full", unheard, failed(words, "stderr", stderr=full)
    folder = os.open(TOP, os.O_RDONLY)
    for words in READERS:
        yield f"{words} with standard input closed", FAILED, failed(words, "stdin", **closed(0))
        yield f"{words} with a folder as standard input", FAILED, failed(words, "stdin", stdin=folder)
    os.close(folder)
