"""Scenes: what the driver says of runs that go wrong and of scenes that it can't play; and whether a run comes again
by its schedule.

test_monk.py runs these tests."""

from __future__ import annotations

import functools
import os
import sys
import unittest
from typing import Any, Callable, List

import monk
from monk import Scene, compare, condition, enter, leave, play, signal, signal_all, wait

HERE = os.path.dirname(os.path.abspath(__file__))
sys.path.insert(0, os.path.join(os.path.dirname(os.path.dirname(HERE)), "examples", "python"))

import compare_buffer  # noqa: E402  (the folder is named first)
import compare_one_signal  # noqa: E402

WITH_SIGNALS = monk.KINDS[:8]


class PlainBuffer:
    """The buffer of docs/PYTHON.md, for a monitor of threads or a staged one."""

    def __init__(self, monitor: Any) -> None:
        self.monitor = monitor
        self.items: List[str] = []
        self.room = monitor.condition("room", lambda: not self.items)
        self.item = monitor.condition("item", lambda: self.items)

    def put(self) -> None:
        with self.monitor:
            if self.items:
                self.room.wait()
            self.items.append("tea")
            self.item.notify()

    def take(self) -> None:
        with self.monitor:
            if not self.items:
                self.item.wait()
            self.items.pop()
            self.room.notify()


def staged() -> List[Callable[[], None]]:
    buffer = PlainBuffer(monk.Staged())
    return [buffer.take, buffer.put, buffer.put, buffer.take]


def alone(*calls: Any) -> Callable[[], List[Any]]:
    """A scene of one program, `one`, that yields these."""
    def scene() -> List[Any]:
        def one() -> Any:
            yield from calls
        return [one]
    return scene


def same(scene: Scene) -> Scene:
    return scene


class Scenes(unittest.TestCase):
    def refused(self, words: str, call: Callable[[], object]) -> None:
        with self.assertRaises(monk.OutOfRange) as refused:
            call()
        self.assertRegex(str(refused.exception), words)

    def test_who_came_between(self) -> None:
        found = compare(compare_buffer.buffer)
        self.assertEqual(found.breaks, ["NPNB", "NPQB", "NPIR"])
        run = found["NPNB"].example
        self.assertEqual(run.between, "putter signalled item (4), thief came in between (6), taker went on (8)")
        self.assertEqual(play(compare_buffer.buffer, "NPNB", run.schedule), run)
        self.assertEqual(run.audit(), "legal 8\n")
        data = run.page_data()
        self.assertEqual((data["data"][0], data["data"][4:7], len(data["data"])),
                         ("items = []", 3 * ["items = ['tea']"], 9))
        self.assertEqual(data["end"], f"Then {run.fault}.")

    def test_plain_functions(self) -> None:
        found = compare(staged, ["PB", "NPNB"], most=200)
        self.assertEqual(found.breaks, ["NPNB"])
        run = found["NPNB"].example
        self.assertRegex(run.fault, r"^take1: IndexError: .* \(line \d+: self.items.pop\(\)\)$")
        self.assertEqual(play(staged, "NPNB", run.schedule), run)
        self.assertEqual(run.data, {"plainbuffer.items": "[]"})

    def test_a_second_staged_monitor(self) -> None:
        """A scene has one monitor, and a second one is refused by the line that comes to it."""
        def scene() -> List[Any]:
            first, second = monk.Staged(), monk.Staged()
            item = second.condition("item", lambda: True)
            def both() -> None:
                with first, second:
                    pass
            def notifier() -> None:
                with first:
                    item.notify()
            return [both, notifier]
        line = scene.__code__.co_firstlineno
        second = r"this is a second Staged\(\), and a scene has one monitor"
        self.refused(rf"^both, line {line + 4}: {second}", lambda: compare(scene))
        self.refused(rf"^notifier, line {line + 8}: {second}", lambda: play(scene, "PB", "notifier notifier"))

    def test_plain_functions_that_call_generators(self) -> None:
        def scene() -> List[Any]:
            def both(call: Any) -> Any:
                yield enter()
                yield call
            return [lambda: both(leave()), functools.partial(both, leave())]
        self.assertEqual([it.outcome for it in compare(scene).findings.values()], 10 * ["right"])

    def test_programs_that_do_not_end_quietly(self) -> None:
        """A `finally` that makes a call, and names that can't be words of a schedule."""
        def scene() -> List[Any]:
            def of(name: str) -> Any:
                def program() -> Any:
                    yield enter()
                    try:
                        yield wait("gate", lambda: False)
                    finally:
                        yield leave()
                program.__name__ = name
                return program
            return [of("a guest"), of("guest"), of("guest"), of("guest1")]
        finding = compare(scene, ["PNB"], orders=5)["PNB"]
        self.assertEqual((finding.outcome, finding.runs), ("stuck", 5))
        self.assertRegex(finding.example.fault,
                         r"^nobody can go on: a_guest\.1 waits on gate, guest\.2 waits on gate, ")

    def test_a_plain_function_that_ends_the_process(self) -> None:
        def scene() -> List[Any]:
            monitor = monk.Staged()

            def leaves() -> None:
                with monitor:
                    sys.exit(7)
            return [leaves, leaves]
        self.assertRaises(SystemExit, lambda: play(scene, "PB"))
        self.assertEqual(compare(staged, ["PB"], most=3).breaks, [])

    def test_some_orders(self) -> None:
        """Dice find what all orders find, and come again by their seed."""
        some = [compare(compare_buffer.buffer, orders=100, seed=seed) for seed in (1, 1, 2)]
        self.assertEqual(some[0].breaks, ["NPNB", "NPQB", "NPIR"])
        self.assertEqual(str(some[0]), str(some[1]))
        self.assertNotEqual(str(some[0]), str(some[2]))
        self.assertEqual(compare(compare_buffer.buffer, orders="list").breaks, ["NPQB"])
        self.assertEqual(compare(compare_buffer.buffer, wish="waiter").breaks, [])
        self.assertIn("20+", str(compare(compare_buffer.buffer, ["NPQB"], most=20)))

    def test_nobody_can_go_on(self) -> None:
        found = compare(compare_one_signal.one_signal_for_two)
        self.assertEqual(found.breaks, list(WITH_SIGNALS))
        self.assertEqual(found["PNB"].outcome, "stuck")
        self.assertRegex(found["PNB"].example.fault, "^nobody can go on: guest[12] waits on gate$")
        run = play(compare_one_signal.one_signal_for_two, "PNB", "porter porter porter guest1 guest2")
        self.assertEqual(run.outcome, "right")

    def test_who_may_wait(self) -> None:
        def scene() -> Scene:
            request = condition("request")

            def server() -> Any:
                yield enter()
                yield wait(request)
                yield leave()
            return Scene([server, server], may_wait=["server1"], end=lambda: False)
        self.assertEqual(play(scene, "PB").fault, "nobody can go on: server2 waits on request")
        self.assertEqual(play(lambda: Scene(scene().programs, may_wait=["server"]), "PB").outcome, "right")

    def test_a_lost_signal(self) -> None:
        def scene() -> List[Any]:
            def waiter() -> Any:
                yield enter()
                yield wait("gate")
                yield leave()
            def porter() -> Any:
                yield enter()
                yield signal("gate")
                yield leave()
            return [waiter, porter]
        self.assertEqual(play(scene, "PNB", "porter porter porter waiter waiter").between,
                         "porter signalled gate (2) when nobody waited")

    def test_programs_that_are_wrong(self) -> None:
        for scene, kind, words in (
            (alone(enter()), "PB", r"one: ends inside: there is no leave \(line \d+: its beginning\)"),
            (alone(enter(), 7), "PB",
             r"one: yields 7 in line \d+, which is no call: write `yield enter\(\)` and the like"),
            (alone(leave()), "PB", r"one: line \d+: `leave` outside: `yield enter\(\)` comes first$"),
            (alone(wait("gate")), "PB", r"one: line \d+: `wait` outside: `yield enter\(\)` comes first$"),
            (alone(enter(), enter()), "PB", r"one: line \d+: `enter` inside: `yield leave\(\)` comes first$"),
            (alone(enter(), signal_all("gate"), leave()), "PB", r"one: PB has no signal_all \(gate\)"),
            (alone(enter(), wait("gate"), leave()), "PIS",
             r"one: PIS has no signals: write wait\('gate', lambda: ..\) in line \d+"),
            (alone(enter(), signal("a"), signal("a")), "PIR",
             r"one: line \d+: `signal` outside: its signal was the way out under PIR$"),
        ):
            with self.subTest(words):
                self.assertRegex(play(scene, kind).fault, f"^{words}")

    def test_data_changed_outside(self) -> None:
        def scene() -> List[Any]:
            items: List[str] = []
            def putter() -> Any:
                yield enter()
                yield signal("item")
                items.append("tea")
                yield leave()
            return [putter]
        self.assertRegex(play(scene, "NPIR").fault,
                         r"^putter: changes the data before line \d+, after its signal, which was the way out")
        self.assertEqual(play(scene, "NPNB").outcome, "right")

    def test_what_has_to_hold(self) -> None:
        def fails() -> None:
            assert False, "as it should"
        for scene, words in ((Scene(alone(enter(), leave())(), invariant=lambda: False),
                              "one: the invariant doesn't hold"),
                             (Scene(alone(enter(), leave())(), invariant=fails), "one: the invariant: as it should"),
                             (Scene(alone(enter(), leave())(), end=lambda: 1 / 0),
                              "the end: ZeroDivisionError: division by zero"),
                             (Scene(alone(enter(), leave())(), end=lambda: []), "the end doesn't hold")):
            with self.subTest(words):
                self.assertEqual(play(functools.partial(same, scene), "PB").fault, words)

    def test_a_program_that_goes_on_and_on(self) -> None:
        def scene() -> List[Any]:
            def one() -> Any:
                while True:
                    yield enter()
                    yield leave()
            return [one]
        finding = compare(scene, "PB")["PB"]
        self.assertEqual((finding.outcome, finding.runs), ("stuck", 1))
        self.assertIn("one: goes on and on: its 1024 events are spent", finding.example.fault)

    def test_scenes_that_cannot_be_played(self) -> None:
        def named() -> Any:
            return 7
        self.refused(r"^named \(line \d+\) returns 7: it should return its programs", lambda: compare(named))
        self.refused(r"has 32 programs: 1 to 31 can be played", lambda: compare(lambda: 32 * alone()()))
        self.refused(r"has 0 programs", lambda: compare(lambda: []))

        def wants_more(item: str) -> Any:
            yield enter()
        more: List[Any] = [wants_more]
        self.refused(r"wants_more.*missing 1 .*'item' \(line \d+\): a program takes no arguments",
                     lambda: compare(lambda: more))
        calls = [call for number in range(9) for call in (signal(f"condition {number}"),)]
        self.refused(r"^one, line \d+: 'condition 8' is one condition too many: a monitor has 8, condition 0, ",
                     lambda: compare(alone(enter(), *calls, leave())))
        self.refused("no condition is 7: give a name", lambda: condition(named()))

    def test_words_that_are_refused(self) -> None:
        buffer = compare_buffer.buffer
        self.refused("^no kind is 'npnb' .did you mean 'NPNB'", lambda: compare(buffer, ["npnb"]))
        self.refused("^no wish is 'best'", lambda: compare(buffer, wish="best"))
        self.refused("^orders='some': ", lambda: compare(buffer, orders="some"))
        self.refused("^orders=0: ", lambda: compare(buffer, orders=0))
        self.refused("^most=0: ", lambda: compare(buffer, most=0))
        self.refused("^word 2 of the schedule is 'nobody', and that can't move there: putter, thief, taker can$",
                     lambda: play(buffer, "PB", "taker nobody"))
        self.refused("^word 3 of the schedule is 'taker', and the run is over there: right$",
                     lambda: play(alone(enter(), leave()), "PB", "one one taker"))

    def test_a_page_in_a_notebook(self) -> None:
        found = compare(compare_buffer.buffer, ["PB", "NPNB"])
        self.assertIn("<td style='color:#b42318;text-align:left'>wrong</td>", found._repr_html_())
        self.assertIn("taker   went on",
                      found["NPNB"].example._repr_html_().replace("taker went on", "taker   went on"))
