"""A barber and four customers, with three seats to wait on, under each of the ten kinds.

    barber.py [KIND [WISH [ROUNDS [FILE]]]]"""

from __future__ import annotations

import sys

from shared import Program, asked

SEAT_FREE, CUSTOMER, CUT_DONE, QUEUES, SEATS, CUSTOMERS = 0, 1, 2, 3, 3, 4
EMPTY, CUTTING, DONE = "empty", "cutting", "done"


class Shop:
    def __init__(self, kind: str, wish: str, rounds: int) -> None:
        self.program = Program(kind, QUEUES, CUSTOMERS + 1, rounds * CUSTOMERS, wish, self.may)
        self.rounds, self.sitting, self.chair, self.cuts = rounds, 0, EMPTY, 0

    def may(self, queue: int) -> bool:
        return {SEAT_FREE: self.sitting < SEATS, CUSTOMER: self.sitting > 0 and self.chair == EMPTY,
                CUT_DONE: self.chair == DONE}[queue]

    def come(self) -> None:
        for _ in range(self.rounds):
            with self.program.monitor:
                self.program.wait_until_may(SEAT_FREE)
                self.sitting += 1
                self.program.let_go(CUSTOMER)
            with self.program.monitor:
                self.program.wait_until_may(CUT_DONE)
                self.chair = EMPTY
                self.program.let_go(CUSTOMER)

    def cut(self) -> None:
        for _ in range(self.rounds * CUSTOMERS):
            with self.program.monitor:
                self.program.wait_until_may(CUSTOMER)
                self.sitting, self.chair = self.sitting - 1, CUTTING
                self.program.let_go(SEAT_FREE)
            self.program.expect(self.chair == CUTTING)
            with self.program.monitor:
                self.chair, self.cuts = DONE, self.cuts + 1
                self.program.let_go(CUT_DONE)


def main() -> int:
    kind, wish, rounds, path = asked()
    shop = Shop(kind, wish, rounds)
    return shop.program.run([shop.cut] + [shop.come] * CUSTOMERS, "barber", lambda: f"{shop.cuts} cuts", path)


sys.exit(main())
