"""Five dining philosophers, under each of the ten kinds; queue n is philosopher n's.

    philosophers.py [KIND [WISH [ROUNDS [FILE]]]]"""

from __future__ import annotations

import functools
import sys

from shared import Program, asked

COUNT = 5


class Table:
    """Fork n lies to the right of philosopher n."""

    def __init__(self, kind: str, wish: str, rounds: int) -> None:
        self.program = Program(kind, COUNT, COUNT, rounds, wish, self.may)
        self.rounds, self.is_used, self.eats, self.meals = rounds, [False] * COUNT, [False] * COUNT, 0

    def may(self, number: int) -> bool:
        return not self.is_used[number] and not self.is_used[number - 1]

    def let_one_go(self) -> None:
        """The way out of each visit: one who waits and may eat goes on, and does the same."""
        for number in range(COUNT):
            if self.may(number) and self.program.waits(number):
                self.program.let_go(number)
                return
        self.program.leave()

    def dine(self, number: int) -> None:
        for _ in range(self.rounds):
            with self.program.monitor:
                self.program.wait_until_may(number)
                self.is_used[number] = self.is_used[number - 1] = True
                self.let_one_go()
            self.eats[number] = True
            self.program.expect(not self.eats[number - 1] and not self.eats[(number + 1) % COUNT])
            self.eats[number] = False
            with self.program.monitor:
                self.is_used[number] = self.is_used[number - 1] = False
                self.meals += 1
                self.let_one_go()


def main() -> int:
    kind, wish, rounds, path = asked()
    table = Table(kind, wish, rounds)
    works = [functools.partial(table.dine, number) for number in range(COUNT)]
    return table.program.run(works, "philosophers", lambda: f"{table.meals} meals", path)


sys.exit(main())
