"""A gate is opened by one signal, and two guests may wait at it."""

from __future__ import annotations

from typing import Sequence

from monk import Calls, Program, compare, enter, leave, signal, wait


def one_signal_for_two() -> Sequence[Program]:
    is_open = False

    def guest() -> Calls:
        yield enter()
        while not is_open:
            yield wait("gate", lambda: is_open)
        yield leave()

    def porter() -> Calls:
        nonlocal is_open
        yield enter()
        is_open = True
        yield signal("gate")
        yield leave()

    return guest, guest, porter


if __name__ == "__main__":
    print(compare(one_signal_for_two))
