"""A wake-up that a condition of Python's threading loses: lost_notify.py PREFIX RUNS STYLE. Its logs are PREFIX.0,
PREFIX.1, ..

Two takers wait for an item. The first does so only for a while, and its time runs out while the putter has the lock.
Then the putter puts an item and notifies once. The second taker should get it, because the first has given up. If it
sleeps on, that notify was lost. Takers wait on condition 0 (predicate 1 of a buffer, that there is an item). The
program is right. `monk explain --means 0=1` says of its log:

    fits; owed, 1 woken and not back; served 1, passed 1
    seat 0: outside since line 11
    seat 1: woken by seat 2, and not back since line 8
    seat 2: outside since line 9

Nothing is `missed`, and no line misfits by `reply`, so it isn't the program. The time of seat 0 had run out, so the
signal of line 8 was for seat 1, which still sleeps: the library owes it the wake-up. `Condition.notify` of threading.py
takes the first of a list of waiters, seat 0's. At its end `Condition.wait` takes the lock again. If the time had run
out before, it then does `self._waiters.remove(waiter)`, and passes over a ValueError. If a notify came in between, the
waiter is no longer in the list. So the wake-up is thrown away with the ValueError. With the style `passed on` the
condition passes the notify on there: then the second taker gets the item."""
from __future__ import annotations

import os
import sys
import threading
import time
from typing import Any, Callable

sys.dont_write_bytecode = True
sys.path.insert(0, os.path.join(os.path.dirname(os.path.abspath(__file__)), "../python"))
import monk_log

PUT, TAKE, ITEM = 0, 1, 7
# How long the first taker waits; and how long the putter has the lock, and the second taker gets in the end; in
# seconds.
PATIENCE, LONG = 0.2, 0.4


class Mended(threading.Condition):
    """As the condition of the standard library, but it passes on a notify that found a wait that had run out."""

    # the internals of threading.Condition
    _waiters: Any
    _release_save: Callable[[], Any]
    _acquire_restore: Callable[[Any], None]

    def wait(self, timeout: float | None = None) -> bool:
        waiter = threading.Lock()
        waiter.acquire()
        self._waiters.append(waiter)
        saved, got = self._release_save(), False
        try:
            got = waiter.acquire(True, -1 if timeout is None else timeout)
            return got
        finally:
            self._acquire_restore(saved)
            if not got:
                try:
                    self._waiters.remove(waiter)
                except ValueError:
                    threading.Condition.notify(self)


def take(recorder: monk_log.Recorder, not_empty: threading.Condition, items: list[int], patience: float | None,
         waits: threading.Event) -> None:
    """Takes an item, or gives up."""
    with not_empty:
        while not items:
            waits.set()
            if not not_empty.wait(patience):
                return
        recorder.act(TAKE, 0, items.pop(0) + 1)


def put(recorder: monk_log.Recorder, not_empty: threading.Condition, items: list[int]) -> None:
    with not_empty:
        time.sleep(LONG)
        items.append(ITEM)
        recorder.act(PUT, ITEM, 1)
        not_empty.notify()


def run() -> monk_log.Recorder:
    recorder = monk_log.Recorder()
    items: list[int] = []
    not_empty = recorder.condition(recorder.lock())
    threads = []
    for patience in (PATIENCE, None):
        waits = threading.Event()
        threads.append(threading.Thread(target=take, args=(recorder, not_empty, items, patience, waits), daemon=True))
        threads[-1].start()
        waits.wait()
    threads.append(threading.Thread(target=put, args=(recorder, not_empty, items), daemon=True))
    threads[-1].start()
    first, second, putter = threads
    first.join()
    putter.join()
    second.join(LONG)
    return recorder


def main() -> None:
    prefix, runs, style = sys.argv[1], int(sys.argv[2]), sys.argv[3]
    if style == "passed on":
        monk_log.Condition.__bases__ = (Mended,)
    for number in range(runs):
        run().write(f"{prefix}.{number}")
    os._exit(0)  # (a thread may sleep on)


main()
