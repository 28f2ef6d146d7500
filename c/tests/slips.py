"""Scenes with the slips of those who learn: what is said of each, and that no run is made twice.

test_monk.py runs these tests."""

from __future__ import annotations

import os
import sys
import types
import unittest
from typing import Any, Callable, List

import monk
from monk import Scene, compare, condition, enter, leave, play, signal, wait
from monk.orders import all_orders
from monk.scenes import played
from monk.stage import Way

HERE = os.path.dirname(os.path.abspath(__file__))
sys.path.insert(0, os.path.join(os.path.dirname(os.path.dirname(HERE)), "examples", "python"))

import compare_buffer  # noqa: E402  (the folder is named first)
import compare_one_signal  # noqa: E402


def two_with_a_test() -> List[Callable[[], Any]]:
    """Two wait for two tests, of which one never holds; a third comes and goes."""
    def waiter_on(name: str, holds: bool) -> Callable[[], Any]:
        def waiter() -> Any:
            yield enter()
            yield wait(name, lambda: holds)
            yield leave()
        return waiter
    def comer() -> Any:
        yield enter()
        yield signal("one")
        yield leave()
    return [waiter_on("one", True), waiter_on("other", False), comer]


def runs_of(scene: Callable[[], Any], kind: str) -> List[str]:
    """The history of each run that `compare` makes, with who moved."""
    names: List[str] = []
    found = [played(scene, Way(kind, is_short=True), names, begin) for begin in all_orders(5000)]
    return [" ".join(move.split("/")[0] for move in run.moves) + "\n" + run.history for run in found]


class Slips(unittest.TestCase):
    def test_calls_that_are_made_and_not_yielded(self) -> None:
        """They are told by their line: at once if the program goes on and on, and else when it goes wrong, or ends."""
        def scene(of: Callable[[Any], Any]) -> Callable[[], List[Any]]:
            return lambda: [lambda: of([])]
        def forever(items: List[str]) -> Any:
            yield enter()
            while not items:
                wait("item", lambda: items)
            yield leave()
        def at_an_error(items: List[str]) -> Any:
            yield enter()
            wait("item", lambda: items)
            items.pop()
            yield leave()
        def unseen(items: List[str]) -> Any:
            yield enter()
            signal(condition("item"))
            yield leave()
        for of, verb in ((forever, "wait"), (at_an_error, "wait"), (unseen, "signal")):
            with self.subTest(of.__name__):
                def one() -> Any:
                    return of([])
                line = of.__code__.co_firstlineno + (3 if of is forever else 2)
                run = play(lambda: [one], "NPNB")
                self.assertEqual((run.outcome, run.why), (
                    "wrong", f"calls {verb}(item) in line {line}, and doesn't yield it: write `yield {verb}(..)`"))
        def early() -> Any:
            call = leave()
            yield enter()
            yield call
        self.assertEqual(play(lambda: [early], "NPNB").outcome, "right")

    def test_a_run_is_made_once(self) -> None:
        """No two runs of a comparison have the same history and the same order of arrivals, which no history has."""
        for scene in (compare_buffer.buffer, compare_one_signal.one_signal_for_two, two_with_a_test):
            for kind in monk.KINDS:
                with self.subTest(scene.__name__, kind=kind):
                    runs = runs_of(scene, kind)
                    self.assertEqual(len(set(runs)), len(runs))
                    self.assertEqual(compare(scene, [kind])[kind].runs, len(runs))

    def test_two_tests_under_one_condition(self) -> None:
        """They are kept apart as long as they agree, and refused in words if they don't."""
        def scene(item_of: str) -> Callable[[], Scene]:
            def made() -> Scene:
                box = types.SimpleNamespace(n=0)
                def putter(item: int) -> Callable[[], Any]:
                    def put() -> Any:
                        yield enter()
                        while box.n:
                            yield wait("full", lambda: not box.n)
                        box.n = item
                        yield signal(item_of)
                        yield leave()
                    return put
                def taker() -> Any:
                    for _ in range(2):
                        yield enter()
                        while not box.n:
                            yield wait(item_of, lambda: box.n)
                        box.n = 0
                        yield signal("full")
                        yield leave()
                return Scene([putter(1), putter(2), taker])
            return made
        found = compare(scene("full"), ["NPNB", "PIS", "NPIS"])
        self.assertEqual([it.outcome for it in found.findings.values()], ["right", "right", "no such call"])
        self.assertRegex(found["NPIS"].example.why, "^two tests wait on full, and NPIS has one for each condition: ")
        found = compare(scene("item"), ["PIS", "NPIS"])
        self.assertEqual(found.breaks, [])

    def test_two_tests_that_disagree(self) -> None:
        def both() -> Scene:
            def waits_until(value: bool) -> Callable[[], Any]:
                def one() -> Any:
                    yield enter()
                    yield wait("gate", lambda: value)
                    yield leave()
                return one
            return Scene([waits_until(False), waits_until(True)], may_wait=["one"])
        finding = compare(both, ["PIS"])["PIS"]
        self.assertEqual(finding.outcome, "no such call")
        self.assertRegex(finding.example.why, r"^two tests wait on gate, and PIS has one for each condition: name two "
                         r"conditions \(line \d+\)$")

    def test_a_variable_of_each_program(self) -> None:
        """Variables of one name that programs don't share have the program's name."""
        def scene() -> List[Any]:
            shared: List[int] = []
            def of(number: int) -> Callable[[], Any]:
                def car() -> Any:
                    yield enter()
                    shared.append(number)
                    yield leave()
                return car
            return [of(1), of(2)]
        self.assertEqual(play(scene, "PB").data, {"car1.number": "1", "car2.number": "2", "shared": "[1, 2]"})

    def test_guarded_data(self) -> None:
        """What a program changes outside is told, before it comes in and after it has left, unless it may."""
        def scene(where: str, guarded: Any = None) -> Callable[[], Scene]:
            def made() -> Scene:
                box, mine = types.SimpleNamespace(n=0), []
                def one() -> Any:
                    box.n += where == "before"
                    yield enter()
                    box.n += 1
                    yield signal("gate")
                    yield leave()
                    box.n += where == "after"
                    mine.append(where)
                return Scene([one], guarded=[box] if guarded is None else guarded)
            return made
        changes = "changes box outside the monitor"
        for kind in monk.KINDS:
            with self.subTest(kind):
                self.assertRegex(play(scene("before"), kind).fault, rf"^one: {changes}, before line \d+$")
                self.assertEqual(play(scene("after"), kind).fault, f"one: {changes}, after its last call")
                self.assertEqual(play(scene("nowhere"), kind).fault, "")
                self.assertEqual(play(scene("after", ()), kind).fault, "")

    def test_a_test_that_was_false(self) -> None:
        def scene() -> List[Any]:
            items: List[str] = []
            def taker() -> Any:
                yield enter()
                while not items:
                    yield wait("item", lambda: items)
                items.pop()
                yield leave()
            def putter() -> Any:
                yield enter()
                yield signal("item")
                items.append("tea")
                yield leave()
            return [taker, putter]
        run = compare(scene, ["PB"])["PB"].example
        line = scene.__code__.co_firstlineno + 5
        self.assertEqual(run.between, f"taker's test was false when it went on (line {line})")

    def test_the_last_events_of_a_picture(self) -> None:
        run = play(compare_buffer.buffer, "NPNB")
        lines = run.picture(200, last=3).splitlines()
        count = len(run.history.splitlines()) - 1
        self.assertEqual(lines[0], f"NPNB, the last 3 of {count} events")
        self.assertEqual(lines[1].split(), ["step", *map(str, range(count - 2, count + 1))])
