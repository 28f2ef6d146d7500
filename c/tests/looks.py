"""The looks of the library for Python at a run: the history holds what the calls did, however often somebody looks.
And what the program `monk` says of it.

test_monk.py runs these tests."""

from __future__ import annotations

import os
import re
import tempfile
import threading
import time
import unittest
import unittest.mock
from typing import List

import monk

AUTOMATIC = ("PIS", "NPIS")
SECONDS = 20
CREW, ROUNDS = 4, 50
HEADER = "monk 3 NPNB 4 1 flags 1\n"


def made(kind: str, seats: int) -> monk.Monitor:
    return monk.Monitor(kind, seats=seats, conditions=0 if kind in AUTOMATIC else 2, flags=2)


class Run:
    """A buffer of one place: two threads put and two take."""

    def __init__(self, kind: str) -> None:
        self.monitor, self.is_full, self.kind = made(kind, CREW + 1), False, kind
        self.line, self.ends = threading.Barrier(CREW + 1), threading.Event()
        self.crew = [threading.Thread(target=self.visits, args=[number % 2 == 0], daemon=True)
                     for number in range(CREW)]

    def say(self) -> None:
        if self.kind in AUTOMATIC:
            self.monitor.set_flags((0, self.is_full), (1, not self.is_full))

    def visits(self, puts: bool) -> None:
        seat = self.monitor.here
        self.line.wait()
        for _ in range(ROUNDS):
            with self.monitor:
                self.say()
                while self.is_full == puts:
                    seat.pause(int(puts))
                self.is_full = puts
                self.say()
                seat.finish(int(not puts))
        self.ends.wait()

    def watched(self) -> List[str]:
        """The histories that are seen until each thread has made its visits."""
        for thread in self.crew:
            thread.start()
        self.line.wait()
        histories = [self.monitor.history()]
        while histories[-1].count("enter") < CREW * ROUNDS:
            histories.append(self.monitor.history())
        self.ends.set()
        for thread in self.crew:
            thread.join(SECONDS)
        return histories


class Looks(unittest.TestCase):
    def test_a_look_changes_nothing(self) -> None:
        for kind in monk.KINDS:
            with self.subTest(kind):
                monitor = made(kind, 3)
                self.assertEqual(monitor.history().count("\n"), 1)
                with monitor:
                    pass
                self.assertEqual(monitor.history().splitlines()[1:], ["enter 0 free", "leave 0 entry"])
                self.assertEqual([monitor.audit() for _ in range(3)], 3 * ["legal 2\n"])
                with monitor:
                    self.assertEqual(monitor.history().splitlines()[1:],
                                     ["enter 0 free", "leave 0 entry", "enter 0 free"])
                self.assertEqual(monitor.here.left, 65536 - 4)
                monitor.close()
                # The visit that closes it is one of the user's calls.
                self.assertEqual(monitor.audit(), "legal 5\n")

    def test_looks_at_a_run(self) -> None:
        """Four threads have a seat each, so a look has the fifth. No history has an event of it, and each is legal."""
        for kind in monk.KINDS:
            with self.subTest(kind):
                run = Run(kind)
                histories = run.watched()
                self.assertFalse(any(thread.is_alive() for thread in run.crew))
                for history in [*histories[-3:], run.monitor.history()]:
                    self.assertIsNone(re.search(f"^[a-z-]+ {CREW} ", history, re.M))
                    self.assertTrue(monk.ask("audit", history).startswith("legal "))

    def test_whom_a_look_chose(self) -> None:
        """A look that comes in between a signal and the seat that it served: the release before it is written as if
        it had chosen that seat."""
        monitor = made("NPNB", 4)
        served, signaller = monitor.seat(), monitor.seat()
        served.enter()
        self.assertEqual(monk.libmonk.library.monk_start_wait(served, 0), monk.libmonk.WAITING)
        signaller.enter()
        look = threading.Thread(target=monitor.history)
        look.start()
        time.sleep(0.2)                 # the look waits for entry by now
        signaller.signal(0)
        signaller.wish("entry")
        signaller.leave()
        look.join(SECONDS)
        self.assertTrue(served.await_(SECONDS))
        lines = served.history().splitlines()
        self.assertEqual(lines[-3:], ["signal 1 0 stay", "leave 1 waiter 0", "resume 0 waiter"])
        served.leave()
        self.assertTrue(monitor.audit().startswith("legal "))

    def test_the_texts(self) -> None:
        for text, looks, left in (
            ("enter 3 free\nleave 3 entry\nenter 0 handed\n", [1], "enter 0 free\n"),
            ("enter 0 free\nleave 0 entry\nenter 3 free\n", [3], "enter 0 free\nleave 0 entry\n"),
            ("enter 0 free\nleave 0 entry\n", [3], "enter 0 free\nleave 0 entry\n"),
            ("enter 0 free\nwait 0 0 entry\nenter 1 free\nsignal 1 0 stay\nleave 1 entry\nenter 3 handed\nleave 3 entry\nenter 2 handed\n"
             "leave 2 waiter 0\nresume 0 waiter\n", [6, 8],
             "enter 0 free\nwait 0 0 entry\nenter 1 free\nsignal 1 0 stay\nleave 1 waiter 0\n"
             "resume 0 waiter\n"),
        ):
            with self.subTest(text):
                self.assertEqual(monk.looks.without_looks(HEADER + text, looks), HEADER + left)
                for history in (HEADER + text, HEADER + left):
                    self.assertTrue(monk.ask("audit", history).startswith("legal "))


class Programs(unittest.TestCase):
    """What `monk` says: its status shows whether it failed, not what it writes to standard error."""

    def asked(self, script: str) -> str:
        with tempfile.TemporaryDirectory() as room:
            path = os.path.join(room, "monk")
            with open(path, "w", encoding="ascii") as file:
                file.write("#!/bin/sh\ncat >/dev/null\n" + script)
            os.chmod(path, 0o755)
            with unittest.mock.patch.dict(os.environ, {"MONK": path}):
                return made("PB", 4).audit()

    def test_a_word_on_standard_error(self) -> None:
        self.assertEqual(self.asked("echo legal 2; echo a hint >&2\n"), "legal 2\n")
        self.assertEqual(self.asked("echo forbidden 1 3 turn; echo a hint >&2; exit 1\n"), "forbidden 1 3 turn\n")

    def test_a_failure(self) -> None:
        for script, words in (("echo memory >&2; exit 4\n", "memory"),
                              ("echo unreadable 1 1 header; exit 2\n", "unreadable 1 1 header"),
                              ("exit 3\n", "monk audit ended with status 3"),
                              ("kill -9 $$\n", "monk audit ended with status -9")):
            with self.subTest(words), self.assertRaises(monk.MonkError) as refused:
                self.asked(script)
            self.assertEqual(str(refused.exception), words)
