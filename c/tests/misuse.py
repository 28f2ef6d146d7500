"""What misuse gets from Python: the table of misuse.h, of which this reads each line, by the calls of a seat.

test_monk.py runs these tests."""

from __future__ import annotations

import contextlib
import os
import re
import threading
import time
import unittest
from typing import Callable, Dict, List, NamedTuple, Type

import monk
from monk.kinds import mode_of

HERE = os.path.dirname(os.path.abspath(__file__))
LINE = re.compile(r"CALL\((\w+), (\w+), (\w+), (\w+), (\d)\)")
CONDITIONS = FLAGS = 2
PLACES = ("MONK_OUTSIDE", "MONK_WAITING", "MONK_INSIDE")
SIGNALLING = ("blocking", "non-blocking", "quasi-blocking")
OF_MODES = {"ALL": monk.MODES, "SIGNALLING": SIGNALLING, "NOT_AUTOMATIC": monk.MODES[:4],
            "NON_BLOCKING": ("non-blocking",), "IMMEDIATE": ("immediate return",), "AUTOMATIC": ("automatic",)}
# Numbers that are out of range; C can't hold some of them.
WRONG: Dict[str, List[int]] = {"NOTHING": [], "TEXT": [], "WISH": [4], "BITS": [4, 99, 2**32, 2**64, -1]}
WRONG.update({name: [CONDITIONS, 99, 256, 2**32 - 1, 2**32, 2**64, -1] for name in ("CONDITION", "FLAG", "EITHER")})
Make = Callable[[monk.Seat, int], object]
# The calls of misuse.h that a seat of Python has.
MADE: Dict[str, Make] = {
    "enter": lambda s, n: s.enter(), "arrive": lambda s, n: s.arrive(), "poll": lambda s, n: s.poll(),
    "await": lambda s, n: s.await_(0), "leave": lambda s, n: s.leave(), "wait": lambda s, n: s.wait(n),
    "start_wait": lambda s, n: s.start_wait(n), "signal": lambda s, n: s.signal(n),
    "start_signal": lambda s, n: s.start_signal(n), "broadcast": lambda s, n: s.broadcast(n),
    "signal_leave": lambda s, n: s.signal_leave(n), "signal_wait": lambda s, n: s.signal_wait(n, n),
    "start_signal_wait": lambda s, n: s.start_signal_wait(0, n), "set_flags": lambda s, n: setattr(s, "flags", n),
    "wait_until": lambda s, n: s.wait_until(n), "start_wait_until": lambda s, n: s.start_wait_until(n),
    "waiting": lambda s, n: s.waiting(n), "flags": lambda s, n: s.flags, "history": lambda s, n: s.history(),
    "pause": lambda s, n: s.pause(n), "finish": lambda s, n: s.finish(n), "set_wish": lambda s, n: s.wish(str(n)),
}


class Row(NamedTuple):
    name: str
    place: str
    kinds: str
    number: str
    needs: str

    def is_of(self, kind: str) -> bool:
        return mode_of(kind) in OF_MODES[self.kinds]

    def is_made_at(self, place: str) -> bool:
        return place == self.place or self.place == "ANYWHERE" or (self.place, place) in (
            ("NOT_OUTSIDE", "MONK_WAITING"), ("NOT_OUTSIDE", "MONK_INSIDE"))

    def needs_under(self, kind: str) -> int:
        if self.number != "EITHER" or self.needs != "0":
            return int(self.needs)
        return 3 if mode_of(kind) in SIGNALLING else 1


def rows() -> List[Row]:
    with open(os.path.join(HERE, "misuse.h"), encoding="utf-8") as file:
        found = [Row(*words) for words in LINE.findall(file.read())]
    return [row for row in found if row.name in MADE]


class Misuse(unittest.TestCase):
    def setUp(self) -> None:
        self.assertEqual({row.name for row in rows()}, set(MADE))

    def arrange(self, kind: str, place: str, budget: int = 100) -> None:
        """Two seats, of which `at` is at that place."""
        self.monitor = monk.Monitor(kind, seats=3, conditions=CONDITIONS, flags=FLAGS, budget=budget)
        self.at, self.other = self.monitor.seat(), self.monitor.seat()
        self.at.enter()
        if place != "MONK_INSIDE":
            self.at.leave()
        if place == "MONK_WAITING":
            self.other.enter()
            self.at.arrive()

    def refused(self, row: Row, number: int, error: Type[monk.MonkError]) -> None:
        """The call raises this error and no other, and nothing has changed."""
        before = (self.at.place, self.at.left) if self.at else None
        with self.assertRaises(monk.MonkError) as raised:
            MADE[row.name](self.at, number)
        self.assertIs(type(raised.exception), error, f"{row.name}({number}): {raised.exception}")
        self.assertEqual((self.at.place, self.at.left) if self.at else None, before)

    def each(self, test: Callable[[Row, str], None]) -> None:
        for kind in monk.KINDS:
            for row in rows():
                with self.subTest(row.name, kind=kind):
                    test(row, kind)

    def test_places_kinds_and_numbers(self) -> None:
        self.each(self.at_each_place)

    def at_each_place(self, row: Row, kind: str) -> None:
        for place in PLACES:
            self.arrange(kind, place)
            if not row.is_of(kind):
                self.refused(row, 99, monk.NotOfKind)
                continue
            for number in WRONG[row.number]:
                self.refused(row, number, monk.OutOfRange)
            if not row.is_made_at(place):
                self.refused(row, 0, monk.NotNow)

    def test_too_few_events(self) -> None:
        self.each(self.with_few_events)

    def with_few_events(self, row: Row, kind: str) -> None:
        needs = row.needs_under(kind)
        if needs > 1 and row.is_of(kind):
            self.arrange(kind, row.place, needs)
            self.refused(row, 0, monk.Spent)

    def test_seats_that_were_given_back(self) -> None:
        self.each(self.given_back)

    def given_back(self, row: Row, kind: str) -> None:
        self.arrange(kind, "MONK_OUTSIDE")
        self.at.give()
        number = 0 if row.number in ("NOTHING", "TEXT", "BITS", "WISH") else 99
        if row.number != "WISH":                    # a wish has a name, which is looked up first
            self.refused(row, number, monk.NotNow)
        self.assertRaises(monk.NotNow, lambda: self.at.wish("any"))

    def test_seats_in_use(self) -> None:
        self.each(self.in_use)

    def in_use(self, row: Row, kind: str) -> None:
        self.arrange(kind, "MONK_WAITING")
        waiter = threading.Thread(target=self.wait, daemon=True)
        waiter.start()
        end = time.monotonic() + 20
        while not self.is_in_use():
            self.assertLess(time.monotonic(), end)
            time.sleep(0.00005)
        if row.number != "WISH":
            self.refused(row, 0, monk.InUse)
        self.other.leave()
        waiter.join(20)

    def wait(self) -> None:
        """(It may find that the other thread asks.)"""
        while True:
            with contextlib.suppress(monk.InUse):
                self.at.await_()
                return

    def is_in_use(self) -> bool:
        try:
            self.at.wish("waiter")
        except monk.InUse:
            return True
        return False
