"""Three programs of exercise 4, each with a mistake. They stay as they are: skeleton.py says what to do."""

from types import SimpleNamespace
from typing import Sequence

from monk import Calls, Program, enter, leave, signal, wait


def late_work(box: SimpleNamespace) -> Sequence[Program]:      # the putter signals before it has put the item
    def taker() -> Calls:
        yield enter()
        while not box.items:
            yield wait("item", lambda: box.items)
        box.items.pop()
        yield leave()

    def putter() -> Calls:
        yield enter()
        yield signal("item")
        box.items.append("tea")
        yield leave()

    return taker, putter


def early_signal(gate: SimpleNamespace) -> Sequence[Program]:  # the guest waits without a look at the gate
    def guest() -> Calls:
        yield enter()
        yield wait("gate", lambda: gate.is_open)
        yield leave()

    def porter() -> Calls:
        yield enter()
        gate.is_open = True
        yield signal("gate")
        yield leave()

    return guest, porter


def one_signal(gate: SimpleNamespace) -> Sequence[Program]:    # there may be two guests at the gate
    def guest() -> Calls:
        yield enter()
        while not gate.is_open:
            yield wait("gate", lambda: gate.is_open)
        yield leave()

    def porter() -> Calls:
        yield enter()
        gate.is_open = True
        yield signal("gate")
        yield leave()

    return guest, porter
