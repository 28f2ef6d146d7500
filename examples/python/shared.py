"""What the examples share: a monitor for code that runs under all ten kinds, a thread for each worker, and the end of a
run."""

from __future__ import annotations

import sys
import threading
from typing import Callable, Sequence

import monk

EVENTS_OF_A_ROUND = 200


class Program:
    """A monitor with so many queues: conditions, or under an automatic kind flags. `may(n)` says whether one of queue n
    may go on."""

    def __init__(self, kind: str, queues: int, threads: int, rounds: int, wish: str,
                 may: Callable[[int], bool]) -> None:
        self.is_automatic = kind in ("PIS", "NPIS")
        self.monitor = monk.Monitor(kind, seats=threads, conditions=0 if self.is_automatic else queues, flags=queues,
                                    wish=wish,
                                    budget=rounds * EVENTS_OF_A_ROUND + 100, seed=1)
        self.queues, self.may, self.wrong = queues, may, 0

    def say(self) -> None:
        """The monitor doesn't know the data, so under an automatic kind whoever changes them sets the flags."""
        if self.is_automatic:
            self.monitor.set_flags(*((queue, self.may(queue)) for queue in range(self.queues)))

    def waits(self, queue: int) -> bool:
        return not self.is_automatic and self.monitor.here.waiting(queue) > 0

    def wait_until_may(self, queue: int) -> None:
        self.say()
        while not self.may(queue):
            self.monitor.here.pause(queue)

    def let_go(self, queue: int) -> None:
        """The way out: one of that queue goes on."""
        self.say()
        self.monitor.here.finish(queue)

    def leave(self) -> None:
        self.say()
        self.monitor.here.leave()

    def expect(self, holds: bool) -> None:
        """What the monitor should keep from happening outside."""
        self.wrong += not holds

    def run(self, works: Sequence[Callable[[], None]], name: str, result: Callable[[], str], path: str = "") -> int:
        crew = [threading.Thread(target=work) for work in works]
        for thread in crew:
            thread.start()
        for thread in crew:
            thread.join()
        self.monitor.close()
        if path:
            self.monitor.save(path)
        print(f"{self.monitor.kind} {name} wish {self.monitor.wish}: {result()}, wrong {self.wrong}")
        return 1 if self.wrong else 0


def asked() -> tuple[str, str, int, str]:
    """KIND [WISH [ROUNDS [FILE]]]"""
    words = sys.argv[1:] + ["PB", "waiter", "20", ""][len(sys.argv) - 1:]
    return words[0], words[1], int(words[2]), words[3]
