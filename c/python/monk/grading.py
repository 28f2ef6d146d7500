"""A check of an exercise in a child of its own: it can't last, fill the memory or the screen, or leave anything behind;
and it isn't met unless the check itself says so.

The child sends its verdict through a pipe, with a word that the parent made. Whatever else ends the child is no
verdict."""

from __future__ import annotations

import contextlib
import ctypes
import faulthandler
import json
import os
import re
import resource
import select
import signal
import sys
import tempfile
import time
from dataclasses import dataclass
from typing import IO, Any, Callable, Dict, List, NoReturn, Optional, Tuple

# Limits of a child: its memory and what it writes, in bytes.
MEMORY, WRITTEN = 1 << 29, 1 << 20
# What is shown of what it printed.
SHOWN_LINES, SHOWN_WIDTH = 20, 110
# How long the parent waits after the child's own limit, and between two looks, in seconds.
GRACE, LOOK = 1.0, 0.05
PAGE = 1 << 16
PR_SET_CHILD_SUBREAPER = 36
PARENT = re.compile(r"^\d+ \(.*\) \S (\d+) ", re.S)
# (kept before a student's file is loaded, which may put others in their places)
_exit, _write, _dumps = os._exit, os.write, json.dumps

Work = Callable[[], Dict[str, Any]]


class TooLong(BaseException):
    """A check doesn't end: some program goes on without a call."""


@dataclass
class Answer:
    """What a child said, if it did; why it didn't; and what it printed."""
    said: Optional[Dict[str, Any]]
    why: str = ""
    printed: str = ""
    # The line of the student's file at which it was when it was ended.
    line: int = 0


def asked(work: Work, seconds: float, path: str) -> Answer:
    """What the work returns, done in a child that has so many seconds. path: the student's file."""
    word = os.urandom(16).hex()
    read, write = os.pipe()
    _keep_orphans()
    with tempfile.TemporaryFile() as printed, tempfile.TemporaryFile() as trace:
        sys.stdout.flush()
        child = os.fork()
        if child == 0:
            os.close(read)
            _be_child(work, (word, write), (printed, trace), seconds)
        os.close(write)
        text, ended = _heard(read, child, seconds + GRACE)
        os.close(read)
        end_all()
        said = _verdict(text, word)
        return Answer(said, "" if said else ended, _shown(printed), 0 if said else _line_of(trace, path))


def _verdict(text: bytes, word: str) -> Optional[Dict[str, Any]]:
    """What the child said, if it is whole and has the word."""
    try:
        given = json.loads(text)
    except ValueError:
        return None
    is_own = isinstance(given, dict) and given.get("word") == word and isinstance(given.get("said"), dict)
    return given["said"] if is_own else None


# ---- the child

def _be_child(work: Work, to: Tuple[str, int], files: Tuple[IO[bytes], IO[bytes]], seconds: float) -> NoReturn:
    word, write = to
    try:
        os.setsid()
        _turn(files[0])
        _limit(seconds)
        faulthandler.dump_traceback_later(seconds + GRACE / 2, file=files[1])
        text = _dumps({"word": word, "said": work()}).encode()
        signal.setitimer(signal.ITIMER_REAL, 0)
        while text:
            text = text[_write(write, text):]
    except BaseException:                   # the parent finds no verdict
        pass
    finally:
        _exit(0)


def _turn(printed: IO[bytes]) -> None:
    """It reads nothing, and what it prints is kept."""
    nothing = os.open(os.devnull, os.O_RDONLY)
    os.dup2(nothing, 0)
    for stream in (1, 2):
        os.dup2(printed.fileno(), stream)


def _stop(*_: object) -> NoReturn:
    raise TooLong("it still runs, sleeps or is blocked")


def _limit(seconds: float) -> None:
    for what, most in ((resource.RLIMIT_DATA, MEMORY), (resource.RLIMIT_FSIZE, WRITTEN), (resource.RLIMIT_CORE, 0),
                       (resource.RLIMIT_CPU, int(seconds) + 2)):
        with contextlib.suppress(ValueError, OSError):
            resource.setrlimit(what, (most, most))
    signal.signal(signal.SIGXFSZ, signal.SIG_IGN)
    signal.signal(signal.SIGALRM, _stop)
    # (again and again: the file may catch all)
    signal.setitimer(signal.ITIMER_REAL, seconds, LOOK)


# ---- the parent

def _heard(read: int, child: int, seconds: float) -> Tuple[bytes, str]:
    """What comes through the pipe until the child has ended or its time is over; and how it ended."""
    end, text, ended = time.monotonic() + seconds, b"", ""
    while not ended:
        left = end - time.monotonic()
        if left <= 0 or len(text) > WRITTEN:
            os.kill(child, signal.SIGKILL)
            os.waitpid(child, 0)
            return text, f"doesn't end within {seconds - GRACE:.0f} seconds"
        text += _read(read, min(left, LOOK))
        who, status = os.waitpid(child, os.WNOHANG)
        ended = _words_of(status) if who else ""
    more = _read(read, 0)
    while more:
        text, more = text + more, _read(read, 0)
    return text, ended


def _read(read: int, seconds: float) -> bytes:
    return os.read(read, PAGE) if select.select([read], [], [], seconds)[0] else b""


def _words_of(status: int) -> str:
    if os.WIFSIGNALED(status):
        number = os.WTERMSIG(status)
        words = {signal.SIGXCPU: "takes too long",
                 signal.SIGKILL: "was killed: perhaps it took too long or too much memory"}
        return words.get(number, f"ends the check by signal {signal.Signals(number).name}")
    return "ends the check before there is a verdict"


def _line_of(trace: IO[bytes], path: str) -> int:
    """The innermost line of the file in the trace of a child that had to be ended."""
    trace.seek(0)
    found = re.search(rf'File "{re.escape(path)}", line (\d+)', trace.read(PAGE).decode(errors="replace"))
    return int(found[1]) if found else 0


def _shown(printed: IO[bytes]) -> str:
    printed.seek(0)
    lines = printed.read(PAGE).decode(errors="replace").splitlines()
    cut = [line[:SHOWN_WIDTH] for line in lines[:SHOWN_LINES]]
    return "\n".join(cut + ["and so on"] * (len(lines) > SHOWN_LINES))


def _keep_orphans() -> None:
    """What a child leaves behind becomes this process's own child, and so can be ended."""
    with contextlib.suppress(OSError, AttributeError):
        ctypes.CDLL(None).prctl(PR_SET_CHILD_SUBREAPER, 1, 0, 0, 0)


def end_all() -> None:
    """Ends all that children left behind."""
    end = time.monotonic() + GRACE
    while time.monotonic() < end:
        left = _children()
        for child in left:
            with contextlib.suppress(OSError):
                os.kill(child, signal.SIGKILL)
        with contextlib.suppress(ChildProcessError):
            while os.waitpid(-1, os.WNOHANG)[0]:
                pass
        if not left:
            return


def _children() -> List[int]:
    found = []
    for name in filter(str.isdigit, os.listdir("/proc")):
        with contextlib.suppress(OSError), open(f"/proc/{name}/stat", encoding="utf-8", errors="replace") as file:
            parent = PARENT.match(file.read())
            if parent and int(parent[1]) == os.getpid():
                found.append(int(name))
    return found
