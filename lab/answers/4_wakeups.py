"""An answer to exercise 4."""

from types import SimpleNamespace
from typing import Sequence

from monk import Calls, Program, enter, leave, signal, wait


def late_work(box: SimpleNamespace) -> Sequence[Program]:
    def taker() -> Calls:
        yield enter()
        while not box.items:
            yield wait("item", lambda: box.items)
        box.items.pop()
        yield leave()

    def putter() -> Calls:
        yield enter()
        box.items.append("tea")
        yield signal("item")
        yield leave()

    return taker, putter


def early_signal(gate: SimpleNamespace) -> Sequence[Program]:
    def guest() -> Calls:
        yield enter()
        while not gate.is_open:
            yield wait("gate", lambda: gate.is_open)
        yield leave()

    def porter() -> Calls:
        yield enter()
        gate.is_open = True
        yield signal("gate")
        yield leave()

    return guest, porter


def one_signal(gate: SimpleNamespace) -> Sequence[Program]:
    def guest() -> Calls:
        yield enter()
        while not gate.is_open:
            yield wait("gate", lambda: gate.is_open)
        yield signal("gate")
        yield leave()

    def porter() -> Calls:
        yield enter()
        gate.is_open = True
        yield signal("gate")
        yield leave()

    return guest, porter


WITH_SIGNALS = ["PB", "NPB", "PNB", "NPNB", "PQB", "NPQB", "PIR", "NPIR"]
WRONG = {"late_work": ["PB", "NPB", "PQB", "NPQB", "PIR", "NPIR"],
         "early_signal": WITH_SIGNALS, "one_signal": WITH_SIGNALS}
