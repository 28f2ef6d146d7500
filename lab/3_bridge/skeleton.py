"""Exercise 3: a bridge of one lane. Fill in the two procedures, then run: python3 check.py skeleton.py

Cars come from side 0 and from side 1. Cars from one side may be on the bridge together, and never with one from the
other side. A car may not wait at an empty bridge for ever."""

from types import SimpleNamespace
from typing import Callable, Sequence

from monk import Calls, enter, leave, signal, wait

SIDES = ["east", "west"]                 # a condition for each side


# bridge.cars[side]: how many cars of that side are on the bridge
def procedures(bridge: SimpleNamespace) -> Sequence[Callable[[int], Calls]]:
    def arrive(side: int) -> Calls:
        other = 1 - side
        yield enter()
        # wait while cars of the other side are on the bridge
        bridge.cars[side] += 1
        yield leave()

    def depart(side: int) -> Calls:
        other = 1 - side
        yield enter()
        bridge.cars[side] -= 1
        # tell the other side, if the bridge is empty
        yield leave()

    return arrive, depart
