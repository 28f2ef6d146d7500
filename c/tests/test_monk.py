"""The library for Python: every kind, seats that come back, exceptions inside a visit, a run that hangs, many threads,
threads that end inside, numbers out of range, the child of a fork, looks at a run (looks.py), what it says
(telling.py), misuse (misuse.py), interrupts (interrupts.py) scenes (scenes.py, slips.py).

MONK_LIBRARY names the library that is tested, and MONK the program that audits."""

from __future__ import annotations

import contextlib
import gc
import os
import subprocess
import sys
import threading
import time
import unittest
import warnings

HERE = os.path.dirname(os.path.abspath(__file__))
sys.path.insert(0, os.path.join(os.path.dirname(HERE), "python"))

import monk  # noqa: E402  (the folder is named first)
from interrupts import Interrupts  # noqa: E402
from looks import Looks, Programs  # noqa: E402
from misuse import Misuse  # noqa: E402
from scenes import Scenes  # noqa: E402
from slips import Slips  # noqa: E402
from telling import Telling  # noqa: E402

__all__ = ["Interrupts", "Looks", "Misuse", "Programs", "Scenes", "Slips", "Telling"]
AUTOMATIC = ("PIS", "NPIS")
IMMEDIATE = ("PIR", "NPIR")
NON_BLOCKING = ("PNB", "NPNB")
SECONDS = 20


def made(kind: str, seats: int = 4, **more: int) -> monk.Monitor:
    return monk.Monitor(kind, seats=seats, conditions=0 if kind in AUTOMATIC else 2, flags=2, **more)


def run(threads: list[threading.Thread]) -> None:
    for thread in threads:
        thread.start()
    for thread in threads:
        thread.join(SECONDS)
        assert not thread.is_alive()


class NoLibrary:
    """Stands for the library in a process that has none: a call to it ends the process."""

    def __getattr__(self, name: str) -> None:
        os._exit(3)


class EveryKind(unittest.TestCase):
    def test_a_visit(self) -> None:
        for kind in monk.KINDS:
            with self.subTest(kind):
                monitor = made(kind)
                with monitor:
                    monitor.set_flags(1)
                    self.assertEqual(monitor.here.flags, 2)
                monitor.close()
                self.assertEqual(monitor.audit(), f"legal {len(monitor.history().splitlines()) - 1}\n")

    def test_a_buffer(self) -> None:
        for kind in monk.KINDS:
            with self.subTest(kind):
                monitor, items, taken = made(kind, budget=20000), [], []

                def say() -> None:
                    if kind in AUTOMATIC:
                        monitor.set_flags((0, not items), (1, bool(items)))

                def put(most: int = 50) -> None:
                    for item in range(most):
                        with monitor:
                            say()
                            while items:
                                monitor.here.pause(0)
                            items.append(item)
                            say()
                            monitor.here.finish(1)

                def take(most: int = 50) -> None:
                    for _ in range(most):
                        with monitor:
                            say()
                            while not items:
                                monitor.here.pause(1)
                            taken.append(items.pop())
                            say()
                            monitor.here.finish(0)

                run([threading.Thread(target=work) for work in (put, take, put, take)])
                self.assertEqual(sorted(taken), sorted(2 * list(range(50))))
                self.assertTrue(monitor.audit().startswith("legal "))

    def test_calls_that_a_kind_has_not(self) -> None:
        for kind in monk.KINDS:
            with self.subTest(kind):
                seat = made(kind).seat()
                seat.enter()
                if kind in AUTOMATIC + IMMEDIATE:
                    self.assertRaises(monk.NotOfKind, seat.signal, 0)
                if kind not in NON_BLOCKING:
                    self.assertRaises(monk.NotOfKind, seat.broadcast, 0)
                if kind not in AUTOMATIC:
                    self.assertRaises(monk.NotOfKind, seat.wait_until, 0)
                if kind not in IMMEDIATE:
                    self.assertRaises(monk.NotOfKind, seat.signal_wait, 0, 1)
                seat.give()


class Refusals(unittest.TestCase):
    def test_each_by_name(self) -> None:
        monitor = made("PB", seats=1)
        seat = monitor.seat()
        self.assertRaises(monk.NoSeat, monitor.seat)
        self.assertRaises(monk.NotNow, seat.leave)
        self.assertRaises(monk.NotNow, lambda: seat.wait(0))
        seat.enter()
        self.assertRaises(monk.NotNow, seat.enter)
        self.assertRaises(monk.OutOfRange, lambda: seat.wait(2))
        self.assertRaises(monk.NotOfKind, lambda: seat.broadcast(0))
        self.assertRaises(monk.Busy, lambda: monk.libmonk.checked(monk.libmonk.library.monk_close(monitor._handle.at)))
        seat.give()
        self.assertRaises(monk.NotNow, seat.leave)
        monitor.close()
        self.assertRaises(monk.Closed, monitor.seat)
        self.assertRaises(monk.Closed, monitor.close)

    def test_of_making(self) -> None:
        for words in ({"kind": "HOARE"}, {"kind": "PB", "seats": 33}, {"kind": "PB", "seats": 0},
                      {"kind": "PB", "conditions": 9},
                      {"kind": "PB", "seats": -1}, {"kind": "PB", "wish": "best"}):
            self.assertRaises(monk.OutOfRange, lambda words=words: monk.Monitor(**words))

    def test_numbers_that_c_would_wrap(self) -> None:
        """Each is refused with the call, the range and the value, and nothing has changed."""
        monitor = made("PB")
        seat, wrapped = monitor.here, 2**32
        seat.enter()
        seat.flags = 3
        for call, words in (
            (lambda: monitor.set_flags(40), "set_flags(40): flags are 0 to 1"),
            (lambda: monitor.set_flags(-1), "set_flags(-1): flags are 0 to 1"),
            (lambda: monitor.set_flags((40, False)), "set_flags(40): flags are 0 to 1"),
            (lambda: setattr(seat, "flags", wrapped + 1), "flags = 4294967297: the bits are 0 to 3"),
            (lambda: seat.waiting(wrapped), "waiting(4294967296): conditions are 0 to 1"),
            (lambda: seat.waiting(-wrapped), "waiting(-4294967296): conditions are 0 to 1"),
            (lambda: seat.wait(wrapped), "wait(4294967296): conditions are 0 to 1"),
            (lambda: seat.wait(2), "wait(2): conditions are 0 to 1"),
            (lambda: seat.signal(wrapped), "signal(4294967296): conditions are 0 to 1"),
            (lambda: seat.signal(-1), "signal(-1): conditions are 0 to 1"),
            (lambda: seat.pause(wrapped), "wait(4294967296): conditions are 0 to 1"),
            (lambda: seat.await_(2.0**61), "await_(2.305843009213694e+18): seconds are 0 to 9223372036854775"),
        ):
            with self.subTest(words), self.assertRaises(monk.OutOfRange) as refused:
                call()
            self.assertEqual(str(refused.exception), words)
            self.assertEqual((seat.place, seat.flags), ("inside", 3))

    def test_numbers_of_other_kinds_that_c_would_wrap(self) -> None:
        for kind, call, words in (
            ("PNB", lambda seat: seat.broadcast(2**32), "broadcast(4294967296): conditions are 0 to 1"),
            ("PIR", lambda seat: seat.signal_leave(2**32), "signal_leave(4294967296): conditions are 0 to 1"),
            ("PIR", lambda seat: seat.signal_wait(2**32, 0), "signal_wait(4294967296): conditions are 0 to 1"),
            ("PIR", lambda seat: seat.signal_wait(0, 2**32), "signal_wait(4294967296): conditions are 0 to 1"),
            ("PIS", lambda seat: seat.wait_until(2**32), "wait_until(4294967296): flags are 0 to 1"),
            ("PIS", lambda seat: seat.waiting(2**32), "waiting(4294967296): the monitor has no conditions"),
        ):
            seat = made(kind).here
            seat.enter()
            with self.subTest(words), self.assertRaises(monk.OutOfRange) as refused:
                call(seat)
            self.assertEqual(str(refused.exception), words)
            self.assertEqual(seat.place, "inside")

    def test_shapes_that_c_would_wrap(self) -> None:
        for name, value, span in (("seats", 2**32 + 2, "1 to 32"), ("conditions", 2**32, "0 to 8"),
                                  ("flags", 2**32 + 1, "0 to 32"),
                                  ("budget", 2**32 + 4, "2 to 1048576, or 0 for 65536"),
                                  ("budget", 1, "2 to 1048576, or 0 for 65536"),
                                  ("seed", 2**64, "0 to 18446744073709551615"),
                                  ("seed", -1, "0 to 18446744073709551615")):
            with self.subTest(name), self.assertRaises(monk.OutOfRange) as refused:
                monk.Monitor("PB", **{name: value})
            self.assertEqual(str(refused.exception), f"Monitor({name}={value}): {name} is {span}")

    def test_spent(self) -> None:
        monitor = made("PNB", seats=1, budget=4)
        with monitor:
            monitor.condition().notify()
            self.assertRaises(monk.Spent, monitor.here.wait, 0)
        self.assertRaises(monk.Spent, monitor.acquire)

    def test_a_library_that_is_not_there(self) -> None:
        done = subprocess.run([sys.executable, "-c", "import monk"],
                              env={**os.environ, "MONK_LIBRARY": "/none/libmonk.so",
                                   "PYTHONPATH": os.path.join(os.path.dirname(HERE), "python")},
                              capture_output=True, text=True)
        self.assertIn("MONK_LIBRARY (/none/libmonk.so)", done.stderr)


class Endings(unittest.TestCase):
    def test_an_exception_inside_leaves(self) -> None:
        monitor = made("PB")
        with self.assertRaises(KeyError):
            with monitor:
                raise KeyError
        self.assertEqual(monitor.here.place, "outside")

    def test_a_thread_gives_its_seat_back(self) -> None:
        monitor = made("NPNB", seats=1)
        for _ in range(5):
            run([threading.Thread(target=lambda: monitor.acquire() and monitor.release())])

    def test_a_thread_that_ends_inside(self) -> None:
        monitor = made("PNB", seats=2)
        with warnings.catch_warnings(record=True) as told:
            warnings.simplefilter("always")
            run([threading.Thread(target=monitor.acquire)])
            gc.collect()
            with monitor:
                pass
        self.assertEqual([it.category for it in told], [ResourceWarning])
        path = str(told[0].message).split()[-1]
        with open(path, encoding="ascii") as file:
            self.assertTrue(file.read().endswith("enter 0 free\n"))
        os.remove(path)

    def test_a_monitor_that_nobody_holds(self) -> None:
        with warnings.catch_warnings(record=True) as told:
            warnings.simplefilter("always")
            monitor = made("PB")
            monitor.acquire()
            del monitor
            gc.collect()
        self.assertEqual([it.category for it in told], [ResourceWarning])
        os.remove(str(told[0].message).split()[-1])

    def test_the_child_of_a_fork(self) -> None:
        """Its finalizers call nothing in the library, which isn't for it, and print nothing."""
        monitor = made("PB")
        spare = monitor.seat()
        monitor.acquire()
        child = os.fork()
        if child == 0:
            setattr(monk.libmonk, "library", NoLibrary())
            del monitor, spare
            gc.collect()
            os._exit(0)
        self.assertEqual(os.waitpid(child, 0)[1], 0)
        self.assertEqual(monitor.here.place, "inside")
        monitor.release()
        spare.give()

    def test_a_second_release(self) -> None:
        for kind in monk.KINDS:
            with self.subTest(kind):
                monitor = made(kind)
                self.assertRaises(monk.NotNow, monitor.release)
                monitor.acquire()
                monitor.release()
                self.assertRaises(monk.NotNow, monitor.release)

    def test_a_release_after_the_way_out(self) -> None:
        """A signal that leads out is a way out, and the release after it is taken once."""
        for kind in monk.KINDS:
            with self.subTest(kind):
                monitor = made(kind)
                monitor.acquire()
                monitor.here.finish(0)
                monitor.release()
                self.assertRaises(monk.NotNow, monitor.release)
                with monitor:
                    monitor.here.finish(0)
                self.assertRaises(monk.NotNow, monitor.release)

    def test_a_way_out_without_a_release(self) -> None:
        """The next visit wants a release of its own, and has no second one."""
        for kind in monk.KINDS:
            with self.subTest(kind):
                monitor = made(kind)
                monitor.acquire()
                monitor.here.finish(0)
                monitor.acquire()
                monitor.release()
                self.assertRaises(monk.NotNow, monitor.release)

    def test_a_seat_that_is_given_back_and_taken_again(self) -> None:
        """A `with` that is under way ends the visit of the thread's new seat."""
        monitor = made("PB", seats=2)
        with monitor:
            monitor.give()
            other = monitor.seat()
            monitor.acquire()
            self.assertEqual((monitor.here.number, other.number), (0, 1))      # the one that has left has fewer events
        self.assertEqual(monitor.here.place, "outside")

    def test_a_stack_of_exits(self) -> None:
        monitor = made("PNB")
        with contextlib.ExitStack() as stack:
            for lock in (monitor, monitor.seat()):
                stack.enter_context(lock)
            self.assertEqual(monitor.here.place, "inside")
        self.assertEqual(monitor.here.place, "outside")
        with self.assertRaises(KeyError), contextlib.ExitStack() as stack:
            stack.enter_context(monitor.condition())
            raise KeyError
        self.assertEqual(monitor.here.place, "outside")

    def test_a_release_after_a_stop(self) -> None:
        monitor = made("PB")
        monitor.acquire()
        monitor.stop()
        self.assertRaises(monk.Stopped, monitor.condition().wait)
        monitor.release()
        self.assertRaises(monk.NotNow, monitor.release)

    def test_a_run_that_hangs(self) -> None:
        monitor, stopped = made("PNB", seats=3), []

        def hang() -> None:
            try:
                with monitor:
                    monitor.condition(1).wait()
            except monk.Stopped:
                stopped.append(True)

        crew = [threading.Thread(target=hang) for _ in range(2)]
        for thread in crew:
            thread.start()
        while monitor.history().count("wait ") < 2:
            time.sleep(0.01)
        monitor.stop()
        for thread in crew:
            thread.join(SECONDS)
        self.assertEqual(stopped, [True, True])

    def test_a_time_limit(self) -> None:
        monitor = made("PB", seats=2)
        first, second = monitor.seat(), monitor.seat()
        first.enter()
        second.arrive()
        self.assertFalse(second.await_(0.01))
        first.leave()
        self.assertTrue(second.await_(0.01))
        self.assertEqual(second.history().splitlines()[-1], "enter 1 handed")
        second.leave()


class Many(unittest.TestCase):
    def test_32_threads(self) -> None:
        monitor, count = monk.Monitor("NPQB", seats=32, budget=1000), [0]
        line = threading.Barrier(32)

        def visit() -> None:
            seat = monitor.here
            line.wait()
            for _ in range(100):
                with monk.inside(seat):
                    count[0] += 1

        run([threading.Thread(target=visit) for _ in range(32)])
        self.assertEqual(count, [3200])
        monitor.close()
        self.assertEqual(monitor.audit(), "legal 6401\n")

    def test_conditions_like_threading(self) -> None:
        monitor, ready = made("NPNB"), []
        condition = monitor.condition()

        def wait() -> None:
            with condition:
                condition.wait_for(lambda: len(ready) == 2)

        crew = [threading.Thread(target=wait) for _ in range(2)]
        for thread in crew:
            thread.start()
        for item in range(2):
            with condition:
                ready.append(item)
                condition.notify_all()
        for thread in crew:
            thread.join(SECONDS)
            self.assertFalse(thread.is_alive())
        self.assertIn("NPNB", monitor.explain() + monitor.history())


if __name__ == "__main__":
    unittest.main()
