"""The library for Python under interrupts: wherever one comes, no seat is left inside, every seat comes back, and other
threads go on.

test_monk.py runs these tests."""

from __future__ import annotations

import os
import random
import signal
import sys
import threading
import time
import types
import unittest
from typing import Any, Callable

import monk

PACKAGE = os.path.dirname(monk.__file__) + os.sep
SECONDS = 20
INTERRUPTS, VISITS = 1000, 1000
# From before the first visit of a loop until after some ten of them.
SOONEST, LATEST = 5e-6, 60e-6
CALLS_OF_A_VISIT = 10
KINDS_THAT_WAIT = ("PB", "NPNB", "PIR")


def interrupt(*_: object) -> None:
    raise KeyboardInterrupt


class AtCall:
    """Raises an interrupt in the calling thread as a function of the package begins: the first that is called, the
    second and so on."""

    def __init__(self, number: int) -> None:
        self.left = number

    def __call__(self, frame: types.FrameType, event: str, _: object) -> None:
        if frame.f_code.co_filename.startswith(PACKAGE) and event == "call":
            self.left -= 1
            if self.left == 0:
                raise KeyboardInterrupt

    def has_raised(self, work: Callable[[], object]) -> bool:
        sys.settrace(self)
        try:
            work()
        except KeyboardInterrupt:
            pass
        finally:
            sys.settrace(None)
        return self.left <= 0


class Interrupts(unittest.TestCase):
    def setUp(self) -> None:
        # A process in the background may have begun with SIGINT ignored.
        for number, handler in ((signal.SIGALRM, interrupt), (signal.SIGINT, signal.default_int_handler)):
            self.addCleanup(signal.signal, number, signal.signal(number, handler))
        self.addCleanup(signal.setitimer, signal.ITIMER_REAL, 0)
        self.addCleanup(setattr, sys, "unraisablehook", sys.unraisablehook)
        sys.unraisablehook = lambda _: None

    def interrupted(self, visit: Callable[[], object], then: Callable[[], object], times: int = INTERRUPTS) -> None:
        """Interrupts visits that often, each time at another moment. Python drops an interrupt at the beginning of a
        finalizer."""
        moments, seen = random.Random(1), 0
        for _ in range(times):
            try:
                signal.setitimer(signal.ITIMER_REAL, moments.uniform(SOONEST, LATEST))
                for _ in range(VISITS):
                    visit()
            except KeyboardInterrupt:
                seen += 1
                then()
        self.assertGreater(seen, times // 2)

    def is_free(self, monitor: monk.Monitor) -> bool:
        """Whether a seat comes in at once."""
        with monitor.seat() as seat:
            seat.arrive()
            return seat.poll()

    def all_come_back(self, monitor: monk.Monitor) -> None:
        """No seat is inside, and none is lost."""
        monitor.give()
        self.assertTrue(self.is_free(monitor))
        seats = [monitor.seat() for _ in range(monitor.seats)]
        self.assertRaises(monk.NoSeat, monitor.seat)
        for seat in seats:
            seat.give()
        self.assertTrue(monitor.audit().startswith("legal "))

    def test_at_any_moment_of_a_visit(self) -> None:
        monitor = monk.Monitor("PNB", seats=3, conditions=1, budget=1 << 20)
        own = monitor.seat()
        visits = {"monitor": lambda: monitor, "condition": lambda: monitor.condition(0),
                  "own": lambda: monk.inside(own)}
        for name, lock in visits.items():

            def visit(lock: Callable[[], Any] = lock) -> None:
                with lock():
                    pass

            with self.subTest(name):
                self.interrupted(visit, lambda: self.assertTrue(self.is_free(monitor)))
        own.give()
        self.all_come_back(monitor)

    def test_at_any_moment_of_a_seat(self) -> None:
        monitor = monk.Monitor("PNB", seats=3, budget=1 << 20)

        def visit() -> None:
            with monitor.seat() as seat:
                seat.enter()

        self.interrupted(visit, lambda: self.assertTrue(self.is_free(monitor)))
        self.all_come_back(monitor)

    def test_at_any_moment_while_another_visits(self) -> None:
        """The other thread goes on, whenever this one is interrupted in a visit or while it waits for entry."""
        # Seats that were given up at the entry are taken again once their turn has come.
        monitor, ends = monk.Monitor("NPNB", seats=8, budget=1 << 20), threading.Event()

        def visit() -> None:
            with monitor:
                pass

        def others() -> None:
            while not ends.is_set():
                visit()
                time.sleep(LATEST)

        other = threading.Thread(target=others, daemon=True)
        other.start()
        self.interrupted(visit, lambda: self.assertNotEqual(monitor.here.place, "inside"))
        ends.set()
        other.join(SECONDS)
        self.assertFalse(other.is_alive())
        self.all_come_back(monitor)

    def test_at_each_call(self) -> None:
        """Interrupts a visit that waits, signals and leaves, beside a thread that signals."""
        for kind in KINDS_THAT_WAIT:
            with self.subTest(kind):
                # Seats that were given up in a wait are taken again once they have been signalled.
                monitor, ends = monk.Monitor(kind, seats=32, conditions=2), threading.Event()
                condition = monitor.condition()

                def visit() -> None:
                    with condition:
                        condition.wait()
                        monitor.condition(1).notify()
                    monitor.give()

                def signals() -> None:
                    while not ends.is_set():
                        with condition:
                            condition.notify()
                        time.sleep(LATEST)

                other = threading.Thread(target=signals, daemon=True)
                other.start()
                number = 1
                while AtCall(number).has_raised(visit):
                    self.assertEqual(monitor.here.place, "outside")
                    number += 1
                self.assertGreater(number, CALLS_OF_A_VISIT)
                ends.set()
                other.join(SECONDS)
                self.assertFalse(other.is_alive())
                self.all_come_back(monitor)

    def test_while_it_waits(self) -> None:
        monitor = monk.Monitor("PB", seats=4, conditions=2)
        threading.Timer(0.2, signal.raise_signal, [signal.SIGINT]).start()
        with self.assertRaises(KeyboardInterrupt):
            with monitor:
                monitor.condition().wait()
        with monitor:
            self.assertEqual(monitor.here.number, 1)
            self.assertEqual(monitor.here.waiting(0), 1)

    def test_while_it_waits_with_a_time_limit(self) -> None:
        """An interrupt ends the wait within a tenth of a second or so, and the seat waits on."""
        monitor = monk.Monitor("PB", seats=2)
        first, second = monitor.seat(), monitor.seat()
        first.enter()
        second.arrive()
        began = time.monotonic()
        threading.Timer(0.2, signal.raise_signal, [signal.SIGINT]).start()
        with self.assertRaises(KeyboardInterrupt):
            second.await_(3)
        self.assertLess(time.monotonic() - began, 1)
        self.assertEqual(second.place, "waiting")
        first.leave()
        self.assertTrue(second.await_(3))

    def test_time_limits(self) -> None:
        """A wait is as long as its limit says, in the main thread and in another."""
        monitor = monk.Monitor("PB", seats=2)
        first, second = monitor.seat(), monitor.seat()
        first.enter()
        second.arrive()

        def waits() -> None:
            for seconds in (0, 0.01, 0.1, 0.25):
                began = time.monotonic()
                self.assertFalse(second.await_(seconds))
                self.assertGreaterEqual(time.monotonic() - began, seconds - 0.001)
                self.assertLess(time.monotonic() - began, seconds + 2)

        waits()
        other = threading.Thread(target=waits)
        other.start()
        other.join(SECONDS)
        first.leave()
        self.assertTrue(second.await_(0))
