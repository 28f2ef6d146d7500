"""A bounded buffer in Python: buffer.py PREFIX RUNS STYLE. Its logs are PREFIX.0, PREFIX.1, ..

good       two conditions, each notified
all        one condition, and notify_all
timed      as good, with waits that run out
queue      queue.Queue of the standard library
if         a fault: a thread that waited doesn't test again
two        the same fault, one putter and two takers, and threads take turns as seldom as ever
forgotten  a fault: a taker notifies nobody
single     a fault: as all, with room for one item, and notify: one may wake a thread that can't go on, and no other
unlocked   a fault: as pair, but a taker tests without the lock: a notify may come between the test and the wait
returns    a fault: a taker returns without its release
deadlock   a fault: each takes two items, one after the other, and puts them back; there are two in all
pair       one putter and one taker, with room for one item
drop       the same, and a fault of the library: every seventh notify wakes nobody

Putters wait on condition 0 (predicate 0 of a buffer), takers on condition 1 (predicate 1)."""
from __future__ import annotations

import os
import queue
import sys
import threading
import time
from typing import Callable

sys.dont_write_bytecode = True
sys.path.insert(0, os.path.join(os.path.dirname(os.path.abspath(__file__)), "../python"))
import monk_log

# As many putters as takers; a pair has less room, so that no later notify makes up for one that was lost.
PUTTERS, SIZE, SIZE_IF_SMALL, ITEMS, ITEMS_OF_TWO, ITEMS_IF_UNLOCKED = 3, 2, 1, 40, 20, 200
PUT, TAKE = 0, 1
# How long a timed wait lasts, when threads take turns, and how long a run may last, in seconds; the runs that may hang.
SHORT, SWITCH, LONG, LONG_IF_HANGING, LONG_IF_SHAKEN, LONG_OF_TWO = 0.0002, 0.00002, 20, 0.4, 0.8, 2
HANGING = ("if", "two", "forgotten", "drop", "single", "unlocked", "returns", "deadlock")
ONE_CONDITION, PAIRS = ("all", "single"), ("pair", "drop", "unlocked")
SMALL = (*PAIRS, "single")
EVERY = 7


class Buffer:
    def __init__(self, style: str) -> None:
        self.recorder = monk_log.Recorder()
        self.lock = self.recorder.lock()
        self.not_full = self.recorder.condition(self.lock)
        self.not_empty = self.not_full if style in ONE_CONDITION else self.recorder.condition(self.lock)
        self.style, self.size = style, SIZE_IF_SMALL if style in SMALL else SIZE
        self.items: list[int] = []

    def wait_while(self, holds: Callable[[], bool], condition: monk_log.Condition) -> None:
        while holds():
            condition.wait(SHORT if self.style == "timed" else None)
            if self.style in ("if", "two"):
                break

    def tell(self, condition: monk_log.Condition) -> None:
        if self.style == "all":
            condition.notify_all()
        else:
            condition.notify()

    def put(self, item: int) -> None:
        with self.lock:
            self.wait_while(lambda: len(self.items) >= self.size, self.not_full)
            self.items.append(item)
            self.recorder.act(PUT, item, 1)
            self.tell(self.not_empty)

    def take(self) -> int:
        """While the lock is held."""
        item = self.items.pop(0) if self.items else 0
        self.recorder.act(TAKE, 0, item + 1)
        if self.style != "forgotten":
            self.tell(self.not_full)
        return item

    def get(self) -> int:
        while self.style == "unlocked" and not self.items:
            with self.lock:
                self.not_empty.wait()
        self.lock.acquire()
        self.wait_while(lambda: not self.items, self.not_empty)
        item = self.take()
        if self.style != "returns" or item != ITEMS // 2:
            self.lock.release()
        return item


class Dropping(threading.Condition):
    """A condition of a library with a fault."""

    notified = 0

    def notify(self, n: int = 1) -> None:
        Dropping.notified += 1
        if Dropping.notified % EVERY:
            super().notify(n)


def works_of(style: str, buffer: queue.Queue[int] | Buffer) -> list[Callable[[], None]]:
    """The functions that the threads run."""
    putters = 1 if style in PAIRS or style == "two" else PUTTERS
    usual = ITEMS_IF_UNLOCKED if style == "unlocked" else ITEMS
    takers, items = (2, ITEMS_OF_TWO) if style == "two" else (putters, usual)

    def put() -> None:
        for item in range(1, takers // putters * items + 1):
            buffer.put(item)

    def take() -> None:
        for _ in range(items):
            buffer.get()

    def borrow() -> None:
        for _ in range(items):
            for item in [buffer.get(), buffer.get()]:
                buffer.put(item)

    return [borrow] * (putters + takers) if style == "deadlock" else [put] * putters + [take] * takers


def seconds_of(style: str) -> float:
    """How long a run may last."""
    if style not in HANGING:
        return LONG
    if style == "two":
        return LONG_OF_TWO
    return LONG_IF_SHAKEN if monk_log.SEED else LONG_IF_HANGING


def run(style: str) -> monk_log.Recorder:
    """The recorder of one run."""
    buffer: queue.Queue[int] | Buffer
    if style == "queue":
        buffer = queue.Queue(SIZE)
        recorder = monk_log.record_queue(buffer, int)
    else:
        buffer = Buffer(style)
        recorder = buffer.recorder
    for item in range(1, SIZE + 1) if style == "deadlock" else ():
        buffer.put(item)
    threads = [threading.Thread(target=work, daemon=True) for work in works_of(style, buffer)]
    for thread in threads:
        thread.start()
    end = time.monotonic() + seconds_of(style)
    for thread in threads:
        thread.join(max(0, end - time.monotonic()))
    return recorder


def main() -> None:
    prefix, runs, style = sys.argv[1], int(sys.argv[2]), sys.argv[3]
    if style != "two":
        sys.setswitchinterval(SWITCH)
    if style == "drop":
        # the recorder's base class is now the library with the fault
        monk_log.Condition.__bases__ = (Dropping,)
    for number in range(runs):
        run(style).write(f"{prefix}.{number}", f"buffer {SIZE_IF_SMALL if style in SMALL else SIZE}")
    sys.stdout.flush()
    os._exit(0)  # (threads may hang)


main()
