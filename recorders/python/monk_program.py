"""Runs an unchanged program of Python, and records its locks and conditions: the part of monk_log.py for
`python -m monk_log`."""
from __future__ import annotations

import atexit
import itertools
import os
import signal
import sys
import threading
import time
import types
from typing import Any, Callable

from monk_log import SEED, STATUS_LATE, Condition, Lock, Recorder, caller, start_watch, threading_lock, threading_rlock

exit_at_once = os._exit


class Program:
    """The locks of a program, and their logs."""

    def __init__(self) -> None:
        self.recorders: list[Recorder] = []
        self.front = ""  # of the last line, in a child that was forked
        self.how_it_ended = "by itself"
        self.prefix, self._is_written, self._is_refused = os.environ.get("MONK_LOG"), threading_lock(), False

    def recorder(self) -> Recorder | None:
        """A new recorder, or none for what `threading` itself makes for each thread."""
        frame: types.FrameType | None = sys._getframe(2)
        while frame and frame.f_code.co_filename == threading.__file__:
            if isinstance(frame.f_locals.get("self"), threading.Thread):
                return None
            frame = frame.f_back
        made = Recorder()
        made.made_at.append(where())
        self.recorders.append(made)
        return made

    def lock(self) -> Any:
        made = self.recorder()
        return made.lock() if made else threading_lock()

    def rlock(self) -> Any:
        made = self.recorder()
        return made.rlock() if made else threading_rlock()

    def stand_in(self) -> None:
        """Replaces what `threading` has, from which `queue` and others make their own."""
        program = self

        class ProgramCondition(Condition):
            def __init__(self, lock: Any = None) -> None:
                lock = lock or program.rlock()
                recorder = lock.recorder if isinstance(lock, Lock) else None
                if recorder:
                    recorder.made_at.append(where())
                super().__init__(recorder, recorder.next_number() if recorder else 0, lock)

        setattr(threading, "Lock", self.lock)
        setattr(threading, "RLock", self.rlock)
        setattr(threading, "Condition", ProgramCondition)
        setattr(os, "_exit", self.exit_at_once)
        os.register_at_fork(after_in_child=self.forked)

    def exit_at_once(self, status: int) -> None:
        """Writes the logs and ends, as a child of multiprocessing does."""
        self.write()
        exit_at_once(status)

    def forked(self) -> None:
        self.front, self._is_written = f"process {os.getpid()}: ", threading_lock()
        if self.prefix:
            self.prefix += f".{os.getpid()}"
        for recorder in self.recorders:
            recorder.forget()

    def write(self) -> None:
        """Writes all logs, once, and the last line."""
        if not self._is_written.acquire(blocking=False):
            return
        waited = [it for it in self.recorders if it.waits]
        written = [name for name in map(self._write_log, waited) if name] if self.prefix else []
        locks = f"{len(self.recorders)} lock{'s' * (len(self.recorders) != 1)}"
        parts = [f"{locks}, {len(waited)} with waits, {self._told(waited, written)}"]
        if strays := sum(it.strays for it in self.recorders):
            parts.append(f"signals without the lock, refused: {strays}")
        for what, word in (("thread 33", "threads"), ("condition 9", "conditions")):
            if cut := sum(word in it.stopped for it in waited):
                parts.append(f"cut at {what}: {cut}")
        if SEED:
            parts.append(f"shaken by seed {SEED}")
        say(self.front + "; ".join(parts))

    def _told(self, waited: list[Recorder], written: list[str]) -> str:
        if written:
            return f"{len(written)} logs, {written[0]} to {written[-1]}" if len(written) > 1 else f"1 log, {written[0]}"
        if not self.prefix:
            return "no log, since MONK_LOG isn't set"
        return "no log, since none could be written" if waited else "no log, since nobody waited on a condition"

    def _write_log(self, recorder: Recorder) -> str:
        """Writes the log; returns the name of its file, or none."""
        for number in itertools.count(1):
            name = f"{self.prefix}.{number}"
            try:
                recorder.write(name, os.environ.get("MONK_OBJECT", "buffer 1"), self.how_it_ended)
            except FileExistsError:
                continue
            except OSError as error:
                if not self._is_refused:
                    say(f"{name}: {error.strerror}; it is left out")
                self._is_refused = True
                remove(name)
                return ""
            if recorder.stopped:
                say(f"{name}: it ends early, since {recorder.stopped}")
            return name
        return ""


def where() -> str:
    frame = caller(1)
    return f"{frame.f_code.co_filename}:{frame.f_lineno}"


def say(text: str) -> None:
    try:
        os.write(2, f"monk: {text}\n".encode())
    except OSError:
        pass


def remove(name: str) -> None:
    try:
        os.unlink(name)
    except OSError:
        pass


def end_late(program: Program, seconds: float) -> None:
    time.sleep(seconds)
    program.how_it_ended = "after MONK_SECONDS"
    program.write()
    exit_at_once(STATUS_LATE)


def end_by_signal(program: Program) -> Callable[[int, types.FrameType | None], None]:
    def end(number: int, _: types.FrameType | None) -> None:
        program.how_it_ended = "by a signal"
        program.write()
        signal.signal(number, signal.SIG_DFL)
        os.kill(os.getpid(), number)

    return end


def run_program(path: str) -> None:
    """Runs a program as if it were run by itself, and writes its logs when it ends."""
    program, module = Program(), types.ModuleType("__main__")
    sys.path[0] = os.path.dirname(os.path.abspath(path))
    module.__file__ = path
    sys.modules["__main__"] = module
    atexit.register(program.write)
    if signal.getsignal(signal.SIGTERM) == signal.SIG_DFL:
        signal.signal(signal.SIGTERM, end_by_signal(program))
    if seconds := os.environ.get("MONK_SECONDS"):
        start_watch(end_late, program, float(seconds))
    program.stand_in()
    with open(path, "rb") as file:
        code = compile(file.read(), path, "exec")
    try:
        exec(code, module.__dict__)
    except Exception as error:
        # as it would be printed without this function
        trace = error.__traceback__ and error.__traceback__.tb_next
        sys.excepthook(type(error), error.with_traceback(trace), trace)
        sys.exit(1)
