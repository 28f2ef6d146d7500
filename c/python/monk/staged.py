"""Scenes of plain functions: the very code that runs with threads, `with monitor:` and `condition.wait()`, played by
the driver.

    def buffer():
        monitor, items = monk.Staged(), []              # in place of monk.Monitor(kind)
        arrived = monitor.condition("item", lambda: items)
        def taker():
            with monitor:
                if not items:
                    arrived.wait()
                items.pop()
        ..
        return taker, putter, thief

Each program has a thread. But one of them runs at a time, and only while the driver waits for its next call. So
nothing depends on luck."""

from __future__ import annotations

import inspect
import os
import sys
import threading
from typing import Any, Callable, List, Optional, TypeVar

from .calls import Call, Named, Test, condition, enter, leave, signal, signal_all, wait
from .errors import NotNow

# How many seconds a program may take to its next call, after an interrupt.
PATIENCE = 1
T = TypeVar("T")
S = TypeVar("S", bound="_StagedLock")


class _Gone(BaseException):
    """The run is over, and the program with it."""


class _Here(threading.local):
    """The program of this thread."""
    program: Optional[Threaded] = None


_here = _Here()


class _Worker:
    """A thread that runs one program after the other: to begin a thread for each would take longer than a run."""

    def __init__(self) -> None:
        self.program: Optional[Threaded] = None
        self.begin = _shut()
        threading.Thread(target=self._work, daemon=True).start()

    def _work(self) -> None:
        while True:
            self.begin.acquire()
            _here.program = program = self.program
            assert program is not None
            program.run()
            _idle.append(self)
            program.back.release()


def _shut() -> threading.Lock:
    """A lock that another thread opens, to say that this one may go on."""
    lock = threading.Lock()
    lock.acquire()
    return lock


_idle: List[_Worker] = []
# The child of a fork has no such threads.
os.register_at_fork(after_in_child=_idle.clear)


class Threaded:
    """The calls of a plain function, which runs in a thread of its own until its next call."""
    first = {"outside": "`with monitor:` comes first", "inside": "it is inside a `with monitor:` already"}
    untested = "write condition({name!r}, lambda: ..) for the wait in line {line}"

    def __init__(self, work: Callable[[], object]) -> None:
        self.work, self.is_gone, self.line = work, False, 0
        self.call: Optional[object] = None
        # The monitor of its call.
        self.monitor: Optional[_StagedLock] = None
        self.fault: Optional[BaseException] = None
        self.worker: Optional[_Worker] = None
        self.has_ended = self.is_running = False
        # The program goes on by its turn, and the driver when the program is back.
        self.turn, self.back = _shut(), _shut()

    def run(self) -> None:
        """Called by the worker: runs the whole program."""
        try:
            given: Any = self.work()
            if inspect.isgenerator(given):          # as of `lambda: put("tea")`, where put is a generator function
                for call in given:
                    self.make(call)
        except _Gone:
            pass
        except BaseException as fault:              # a SystemExit, too, is the driver's to raise
            self.fault = fault
        self.call, self.has_ended = None, True

    def __next__(self) -> object:
        self.is_running = True
        if self.worker is None:
            self.worker = _idle.pop() if _idle else _Worker()
            self.worker.program = self
            self.worker.begin.release()
        else:
            self.turn.release()
        self.back.acquire()
        self.is_running = False
        if self.fault is not None:
            raise self.fault
        if self.has_ended:
            raise StopIteration
        return self.call

    def make(self, call: object, monitor: Optional[_StagedLock] = None) -> None:
        """Called by the program to make its call. Returns when the driver has made it."""
        if self.is_gone:
            raise _Gone
        self.call, self.monitor, self.line = call, monitor, _line()
        self.back.release()
        self.turn.acquire()
        if self.is_gone:
            raise _Gone

    def close(self) -> None:
        """Ends the program at its call, or at its next one if an interrupt came while it ran. A program that makes no
        call any more is left to its thread."""
        self.is_gone = True
        if self.is_running and not self.back.acquire(timeout=PATIENCE):
            return
        if self.worker is not None and not self.has_ended:
            self.turn.release()
            self.back.acquire()


def _line() -> int:
    """The line that calls this file."""
    frame: Any = sys._getframe()
    while frame.f_back and frame.f_code.co_filename == __file__:
        frame = frame.f_back
    return int(frame.f_lineno)


class _StagedLock:
    """The part of a lock that a staged monitor and its conditions have."""
    # It isn't part of the data that a run reports.
    is_staged = True

    @property
    def of(self) -> _StagedLock:
        """The monitor."""
        return self

    def _make(self, call: Call) -> None:
        if _here.program is None:
            raise NotNow("a staged monitor is for the programs of a scene: monk.compare(scene), or "
                         "monk.play(scene, kind)")
        _here.program.make(call, self.of)

    def acquire(self) -> bool:
        self._make(enter())
        return True

    def release(self) -> None:
        self._make(leave())

    def __enter__(self: S) -> S:
        self._make(enter())
        return self

    def __exit__(self, kind: Optional[type], *_: object) -> None:
        if kind is None:                            # an exception goes to the driver from where it was raised
            self._make(leave())


class StagedCondition(_StagedLock):
    """Like monk.Condition, in a scene."""

    def __init__(self, named: Named, monitor: _StagedLock) -> None:
        self.named, self.monitor = named, monitor

    @property
    def of(self) -> _StagedLock:
        return self.monitor

    def wait(self) -> bool:
        self._make(wait(self.named))
        return True

    def wait_for(self, predicate: Callable[[], T]) -> T:
        result = predicate()
        while not result:
            self._make(wait(self.named.name, self.named.until or predicate))
            result = predicate()
        return result

    def notify(self, n: int = 1) -> None:
        for _ in range(n):
            self._make(signal(self.named))

    def notify_all(self) -> None:
        self._make(signal_all(self.named))


class Staged(_StagedLock):
    """Like monk.Monitor, in a scene. It has no kind: the one who plays the scene names it."""

    def condition(self, name: str, until: Optional[Test] = None) -> StagedCondition:
        """A condition. The test is for the automatic kinds, which have no signals."""
        return StagedCondition(condition(name, until), self)
