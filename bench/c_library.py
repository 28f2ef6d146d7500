"""A visit from Python, by threading.Condition and by libmonk.

    c_library.py CHUNKS      prints the nanoseconds of each, alone and with a notify

Each is the least of CHUNKS chunks of 100 visits. bench/c_library runs it."""

from __future__ import annotations

import sys
import threading
import time
from typing import Any, Callable

import monk

CHUNK = 100
NS_A_SECOND = 1e9


def least(chunk: Callable[[], None], chunks: int) -> float:
    """The nanoseconds of a visit in the shortest chunk."""
    best = NS_A_SECOND
    for _ in range(chunks):
        began = time.perf_counter()
        chunk()
        best = min(best, (time.perf_counter() - began) * NS_A_SECOND / CHUNK)
    return best


def visits(lock: Any) -> Callable[[], None]:
    def chunk() -> None:
        for _ in range(CHUNK):
            with lock:
                pass

    return chunk


def notifies(lock: Any, condition: Any) -> Callable[[], None]:
    def chunk() -> None:
        for _ in range(CHUNK):
            with lock:
                condition.notify()

    return chunk


def main(chunks: int) -> None:
    monitor, plain = monk.Monitor("PNB", seats=2, conditions=1, budget=1 << 20), threading.Condition()
    work = visits(plain), visits(monitor), notifies(plain, plain), notifies(monitor, monitor.condition())
    print(*(least(chunk, chunks) for chunk in work))


main(int(sys.argv[1]))
