"""Readers and writers: three read and two write, under each of the ten kinds.

    readers.py [KIND [WISH [ROUNDS [FILE]]]]"""

from __future__ import annotations

import sys

from shared import Program, asked

READ, WRITE, QUEUES, READERS, WRITERS = 0, 1, 2, 3, 2


class Book:
    def __init__(self, kind: str, wish: str, rounds: int) -> None:
        self.program = Program(kind, QUEUES, READERS + WRITERS, rounds, wish, self.may)
        self.rounds, self.reading, self.is_written, self.reads, self.writes = rounds, 0, False, 0, 0

    def may(self, queue: int) -> bool:
        return not self.is_written and (queue == READ or self.reading == 0)

    def read(self) -> None:
        for _ in range(self.rounds):
            with self.program.monitor:
                self.program.wait_until_may(READ)
                self.reading += 1
                self.program.let_go(READ)
            self.program.expect(not self.is_written)
            with self.program.monitor:
                self.reading, self.reads = self.reading - 1, self.reads + 1
                self.program.let_go(WRITE if self.may(WRITE) and self.program.waits(WRITE) else READ)

    def write(self) -> None:
        for _ in range(self.rounds):
            with self.program.monitor:
                self.program.wait_until_may(WRITE)
                self.is_written = True
                self.program.leave()
            self.program.expect(self.reading == 0)
            with self.program.monitor:
                self.is_written, self.writes = False, self.writes + 1
                self.program.let_go(READ if self.program.waits(READ) else WRITE)


def main() -> int:
    kind, wish, rounds, path = asked()
    book = Book(kind, wish, rounds)
    works = [book.read] * READERS + [book.write] * WRITERS
    return book.program.run(works, "readers", lambda: f"{book.reads} reads, {book.writes} writes", path)


sys.exit(main())
