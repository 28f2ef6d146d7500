"""A one-lane bridge that bears three cars, three cars on each side, under each of the ten kinds.

    bridge.py [KIND [WISH [ROUNDS [FILE]]]]"""

from __future__ import annotations

import functools
import sys

from shared import Program, asked

SIDES, MOST, CARS = 2, 3, 6


class Bridge:
    def __init__(self, kind: str, wish: str, rounds: int) -> None:
        self.program = Program(kind, SIDES, CARS, rounds, wish, self.may)
        self.rounds, self.on, self.crossed = rounds, [0] * SIDES, 0

    def may(self, side: int) -> bool:
        return self.on[1 - side] == 0 and self.on[side] < MOST

    def drive(self, side: int) -> None:
        for _ in range(self.rounds):
            with self.program.monitor:
                self.program.wait_until_may(side)
                self.on[side] += 1
                self.program.let_go(side)
            self.program.expect(self.on[1 - side] == 0 and self.on[side] <= MOST)
            with self.program.monitor:
                self.on[side], self.crossed = self.on[side] - 1, self.crossed + 1
                self.program.let_go(1 - side if self.on[side] == 0 and self.program.waits(1 - side) else side)


def main() -> int:
    kind, wish, rounds, path = asked()
    bridge = Bridge(kind, wish, rounds)
    works = [functools.partial(bridge.drive, number % SIDES) for number in range(CARS)]
    return bridge.program.run(works, "bridge", lambda: f"{bridge.crossed} cars crossed", path)


sys.exit(main())
