"""A bounded buffer of one place, two threads that put and two that take, under each of the ten kinds.

    buffer.py [KIND [if | while [WISH [ROUNDS [FILE]]]]]

With `while` a thread that was woken tests again; with `if` it trusts the signal. Says how often that was wrong. A
thread that was wrong passes the signal on and comes again, so that every item arrives all the same."""

from __future__ import annotations

import functools
import random
import sys
import threading
import time
from typing import Callable

import monk

NOT_FULL, NOT_EMPTY, QUEUES = 0, 1, 2
PUTTERS = TAKERS = 2
# How many events a visit may have, about; and how often a thread lets others go first between two visits, at most.
EVENTS_OF_A_VISIT, MOST_YIELDS = 40, 10


class Buffer:
    """The monitor doesn't know the data, so under an automatic kind the threads tell by flags what may be done."""

    def __init__(self, kind: str, again: bool, wish: str, rounds: int, seed: int = 1) -> None:
        self.is_automatic = kind in ("PIS", "NPIS")
        self.monitor = monk.Monitor(kind, seats=PUTTERS + TAKERS, conditions=0 if self.is_automatic else QUEUES,
                                    flags=QUEUES,
                                    budget=rounds * EVENTS_OF_A_VISIT + 100, wish=wish, seed=seed)
        self.items: list[int] = []
        self.again, self.wrong = again, 0

    def say(self) -> None:
        if self.is_automatic:
            self.monitor.set_flags((NOT_FULL, not self.items), (NOT_EMPTY, bool(self.items)))

    def may(self, queue: int) -> bool:
        return bool(self.items) == (queue == NOT_EMPTY)

    def await_turn(self, queue: int) -> bool:
        """Whether it was right to go on."""
        while not self.may(queue):
            self.monitor.here.pause(queue)
            if not self.again:
                break
        return self.may(queue)

    def visit(self, queue: int, work: Callable[[], None]) -> bool:
        """Waits until the queue's test holds, works, and lets one of the other queue go on; False if it had been woken
        for nothing."""
        with self.monitor:
            self.say()
            time.sleep(0)
            is_right = self.await_turn(queue)
            if is_right:
                work()
            else:
                self.wrong += 1
            self.say()
            self.monitor.here.finish(1 - queue if is_right else queue)
        return is_right


def come(buffer: Buffer, queue: int, work: Callable[[], None]) -> None:
    """Visits until one was right, with some work outside before each, of no fixed length."""
    while True:
        for _ in range(random.randrange(MOST_YIELDS)):
            time.sleep(0)
        if buffer.visit(queue, work):
            return


def run(kind: str, again: bool, wish: str, rounds: int, seed: int = 1) -> tuple[Buffer, bool]:
    """The buffer after a run, and whether each item arrived once."""
    buffer, taken = Buffer(kind, again, wish, rounds, seed), []

    def put(first: int) -> None:
        for item in range(first, first + rounds):
            come(buffer, NOT_FULL, functools.partial(buffer.items.append, item))

    def take() -> None:
        for _ in range(rounds):
            come(buffer, NOT_EMPTY, lambda: taken.append(buffer.items.pop()))

    crew = [threading.Thread(target=put, args=(number * rounds,)) for number in range(PUTTERS)]
    crew += [threading.Thread(target=take) for _ in range(TAKERS)]
    for thread in crew:
        thread.start()
    for thread in crew:
        thread.join()
    buffer.monitor.close()
    return buffer, sorted(taken) == list(range(PUTTERS * rounds))


def main(kind: str = "PB", word: str = "while", wish: str = "waiter", rounds: str = "20", path: str = "") -> int:
    buffer, is_whole = run(kind, word == "while", wish, int(rounds))
    print(f"{kind} buffer {word} wish {wish}: wrong {buffer.wrong}{'' if is_whole else ', items lost'}")
    if path:
        buffer.monitor.save(path)
    return 0 if is_whole else 1


if __name__ == "__main__":
    sys.exit(main(*sys.argv[1:]))
