"""Monitors of ten kinds: the same monitor code under Hoare's rules, Mesa's and others, with the history of each run.

    import monk

    class Buffer:
        def __init__(self, monitor):
            self.monitor, self.items = monitor, []
            self.not_full = monitor.condition("room", lambda: not self.items)
            self.not_empty = monitor.condition("item", lambda: self.items)

        def put(self, item):
            with self.monitor:                      # this thread's seat comes in, and leaves at the end
                while self.items:                   # under "PB" (Hoare) an `if` will do, under "NPNB" (Mesa) it won't
                    self.not_full.wait()
                self.items.append(item)
                self.not_empty.notify()

`Buffer(monk.Monitor("NPNB"))` is for threads. Each thread has a seat, taken at its first `with` and given back when
the thread ends. `monitor.history()` is the text that `monk audit`, `monk explain` and `monk draw` read.
`monk.compare` runs a scene without threads, in every order, under each kind (`scenes`); `Buffer(monk.Staged())` is
such a scene of this very class.

The library below is libmonk (docs/C.md): the file that MONK_LIBRARY names, else the one beside this package, else the
system's libmonk.so.1. A refused call raises an error named after the answer, and then nothing has changed."""

from .calls import Call, Calls, condition, enter, leave, signal, signal_all, wait
from .conditions import Condition, Flag
from .errors import (Busy, Closed, InUse, MonkError, NoMemory, NoSeat, NotNow, NotOfKind, OutOfRange, Spent, Stopped)
from .kinds import KINDS, MODES, WISHES
from .libmonk import build, version
from .monitor import Monitor
from .orders import Comparison, Finding, compare
from .program import ask
from .run import Run
from .scene import Program, Scene
from .scenes import play
from .seat import Seat, inside
from .staged import Staged

__all__ = ["Monitor", "Condition", "Flag", "Seat", "inside", "KINDS", "MODES", "WISHES", "MonkError", "NotNow", "Spent",
           "NotOfKind", "OutOfRange", "NoMemory", "NoSeat", "Busy", "InUse", "Stopped", "Closed", "version", "build",
           "ask", "compare", "play", "Scene", "Run", "Comparison", "Finding", "Staged", "Call", "Calls", "Program",
           "condition", "enter", "leave", "wait", "signal", "signal_all"]
