"""What the library for Python says: names, refusals that say what to do, who waits where, a run in which nobody can
go on, and what is written of a history.

test_monk.py runs these tests."""

from __future__ import annotations

import contextlib
import io
import json
import os
import subprocess
import sys
import tempfile
import threading
import time
import unittest
import unittest.mock
from pathlib import Path
from typing import Callable, List, Tuple, Type

import monk
from monk.picture import picture
from monk.program import ask

SECONDS = 20
PATIENCE = 0.3
HERE = os.path.dirname(os.path.abspath(__file__))
EXAMPLES = Path(HERE).parents[1] / "examples"
# The words that ask for a picture of text, and its width.
LAYOUTS: List[Tuple[int, Tuple[str, ...]]] = [(80, ()), (40, ("--ascii",))]


def run(*works: Callable[[], None]) -> None:
    """Runs each in a thread of its name. An error of one stays in its thread."""
    crew = [threading.Thread(target=work, name=work.__name__, daemon=True) for work in works]
    for thread in crew:
        thread.start()
    for thread in crew:
        thread.join(SECONDS)
        assert not thread.is_alive()


def is_legal(text: str) -> bool:
    """Whether this is the text of a history that an audit finds legal."""
    try:
        return ask("audit", text).startswith("legal")
    except monk.MonkError:
        return False


class Telling(unittest.TestCase):
    def refused(self, fault: Type[Exception], words: str, call: Callable[[], object]) -> None:
        with self.assertRaises(fault) as refused:
            call()
        self.assertIn(words, str(refused.exception))

    def test_conditions_need_no_count(self) -> None:
        monitor = monk.Monitor("PB", seats=2)
        room, item = monitor.condition("room"), monitor.condition("item", lambda: True)
        self.assertEqual((int(room), int(item), int(monitor.condition("room"))), (0, 1, 0))
        self.assertEqual((monitor.conditions, item.name), (2, "item"))
        with monitor:
            item.notify()
        self.assertIn(" PB 2 2 flags 1\n", monitor.history())
        self.refused(monk.NotNow, "a condition is asked for before the monitor is first used",
                     lambda: monitor.condition("late"))
        with self.assertRaises(monk.OutOfRange):
            monk.Monitor("PB", conditions=0).condition()
        self.assertEqual(int(monk.Monitor("PIS").flag()), 0)

    def test_what_to_do(self) -> None:
        monitor = monk.Monitor("PIR", seats=2, budget=10)
        arrived = monitor.condition("arrived")
        who = f"by seat 0 ({threading.current_thread().name})"
        self.refused(monk.NotNow, f"wait(arrived) {who}: the seat is outside: come in first, by `with monitor:`",
                     arrived.wait)
        with monitor:
            self.refused(monk.NotNow, f"enter {who}: the seat is inside: leave first", monitor.acquire)
            self.refused(monk.NotOfKind, "wait(timeout=1): a condition has no time limit", lambda: arrived.wait(1))
            self.refused(monk.NotOfKind, "(PIR, immediate return). Write signal_leave.", lambda: monitor.here.signal(0))
            self.refused(monk.NotOfKind, "A signal to all is for PNB and NPNB", arrived.notify_all)
            arrived.notify()
            self.refused(monk.NotNow, "the seat is outside, since its signal was the way out", arrived.notify)
        spare = monitor.seat()
        self.refused(monk.NoSeat, "each of the 2 seats is taken: give Monitor(seats=..)", monitor.seat)
        spare.give()
        for _ in range(4):
            with monitor:
                pass
        self.refused(monk.Spent, "0 of its 10 events are left", monitor.acquire)

    def test_calls_that_do_not_wait(self) -> None:
        for kind, goes_on in (("PB", False), ("PNB", True)):
            with self.subTest(kind):
                monitor = monk.Monitor(kind, seats=2, conditions=1)
                first, second = monitor.seat(), monitor.seat()
                first.enter()
                first.start_wait(0)
                second.enter()
                self.assertEqual(second.start_signal(0), goes_on)
                self.assertEqual(first.poll(), not goes_on)
                (second if goes_on else first).leave()
                self.assertTrue((first if goes_on else second).poll())
                (first if goes_on else second).leave()
        monitor = monk.Monitor("PIS", seats=2, flags=1)
        first, second = monitor.seat(), monitor.seat()
        first.enter()
        self.assertFalse(first.start_wait_until(0))
        second.enter()
        second.flags = 1
        self.assertTrue(second.start_wait_until(0))
        second.leave()
        self.assertTrue(first.poll())
        first.leave()

    def test_who_waits(self) -> None:
        monitor = monk.Monitor("PB", seats=3)
        tea, has_begun = monitor.condition("tea"), threading.Event()

        def guest() -> None:
            with contextlib.suppress(monk.Stopped), monitor:
                has_begun.set()
                tea.wait()

        def host() -> None:
            has_begun.wait()
            with monitor:
                # The guest has let the monitor go. Its own thread notes what it waits for, a moment later.
                while "(guest): waiting" in monitor.who():
                    time.sleep(0.001)
                self.assertRegex(monitor.who(),
                                 r"^  seat 0 \(guest\): waits on condition tea, for \d+\.\d s\n  seat 1 \(host\): inside$")
                monitor.stop()

        run(guest, host)

    def test_who_has_waited(self) -> None:
        """A thread that has come in isn't told as one that waits; and with patience it isn't counted as one, so that
        another, which waits until it leaves, isn't sent home."""
        monitor, told, ends = monk.Monitor("PNB", seats=3, patience=PATIENCE), io.StringIO(), []
        tea, has_begun, is_long = monitor.condition("tea"), threading.Event(), threading.Event()

        def guest() -> None:
            with monitor:
                has_begun.set()
                tea.wait()
                ends.append(monitor.who().splitlines()[0])
                is_long.set()
                time.sleep(4 * PATIENCE)

        def host() -> None:
            has_begun.wait()
            with monitor:
                tea.notify()
            is_long.wait()
            with monitor:
                ends.append("host")

        with contextlib.redirect_stderr(told):
            run(guest, host)
        self.assertEqual(ends, ["  seat 0 (guest): inside", "host"])

    def test_a_run_in_which_nobody_can_go_on(self) -> None:
        """Once all have waited that long, who waits where is printed, and all waiting is ended."""
        monitor, stopped, told = monk.Monitor("PB", seats=3, patience=PATIENCE), [], io.StringIO()
        conditions = [monitor.condition("tea"), monitor.condition("cups")]

        def waits(number: int) -> None:
            try:
                with monitor:
                    conditions[number].wait()
            except monk.Stopped:
                stopped.append(number)

        def guest() -> None:
            waits(0)

        def host() -> None:
            waits(1)

        with contextlib.redirect_stderr(told):
            run(guest, host)
        self.assertEqual(sorted(stopped), [0, 1])
        self.assertRegex(told.getvalue(),
                         r"^monk: seat \d \((guest|host)\) has waited for 0.3 s in a monitor of kind PB\n")
        self.assertEqual(told.getvalue().count("Each seat that is taken waits, so nobody can go on"), 1)

    def test_a_run_in_which_somebody_can_go_on(self) -> None:
        """A thread that waits long is reported once, and the run goes on."""
        monitor, told = monk.Monitor("PNB", seats=3, patience=PATIENCE), io.StringIO()
        tea = monitor.condition("tea")

        def guest() -> None:
            with monitor:
                tea.wait()

        def host() -> None:
            monitor.here.name = "host"              # it has a seat, so not all wait
            while "waits on condition tea" not in monitor.who():
                time.sleep(0.01)
            with monitor:
                time.sleep(4 * PATIENCE)
                tea.notify()

        with contextlib.redirect_stderr(told):
            run(guest, host)
        self.assertEqual(told.getvalue().count("so the run goes on"), 1)
        for seconds in ("0", "soon"):
            with unittest.mock.patch.dict(os.environ, {"MONK_SECONDS": seconds}):
                self.refused(monk.OutOfRange, f"MONK_SECONDS={seconds}: seconds above 0", lambda: monk.Monitor("PB"))

    def test_what_is_written(self) -> None:
        monitor = monk.Monitor("PB", seats=2)
        monitor.condition("tea <hot>")
        monitor.here.name = "guest"
        with monitor:
            pass
        with tempfile.TemporaryDirectory() as folder:
            path = os.path.join(folder, "run")
            monitor.save(path)
            monitor.page(path + ".html")
            monitor.draw(path + ".svg")
            with open(path + ".told", encoding="utf-8") as told:
                self.assertEqual(json.load(told), {"seats": ["guest", "seat 1"], "conditions": ["tea hot"]})
            with open(path + ".html", encoding="utf-8") as page:
                self.assertIn("<!doctype html>", page.read().lower())
        self.assertEqual(monitor.fit().count("legal 2"), 10)
        self.assertIn("guest    enter   leave", monitor.picture(60, is_plain=True))
        self.assertIn("<svg", monitor._repr_html_())
        with unittest.mock.patch.dict(os.environ, {"MONK": "/none/monk"}):
            self.assertIn("<pre", monitor._repr_html_())

    def test_pictures(self) -> None:
        """The picture of text is the one that the program draws, of each legal example."""
        legal = list(filter(is_legal,
                            (path.read_text(encoding="ascii") for path in sorted(EXAMPLES.glob("*.history")))))
        for text in legal:
            for width, words in LAYOUTS:
                drawn = ask("draw", text, "--text", "--width", str(width), *words)
                self.assertEqual(picture(text, width=width, is_plain=bool(words)) + "\n", drawn)
        self.assertGreater(len(legal), 20)

    def test_seats_that_are_lost(self) -> None:
        """At the end of a program the history is kept as well, for the first ten seats that are lost."""
        script = ("import monk\nfor _ in range(12):\n    monitor = monk.Monitor('PB')\n    monitor.acquire()\n")
        with tempfile.TemporaryDirectory() as folder:
            setting = {**os.environ, "TMPDIR": folder, "PYTHONPATH": os.path.join(os.path.dirname(HERE), "python")}
            done = subprocess.run([sys.executable, "-c", script], env=setting, capture_output=True, text=True)
            kept: List[str] = os.listdir(folder)
            self.assertEqual(len(kept), 10)
            with open(os.path.join(folder, kept[0]), encoding="ascii") as file:
                self.assertEqual(file.read(), "monk 3 PB 8 0 flags 1\nenter 0 free\n")
        self.assertEqual(done.stderr.count("a seat of a monitor was inside and nobody held it any more"), 11)
        self.assertNotIn("Traceback", done.stderr)
