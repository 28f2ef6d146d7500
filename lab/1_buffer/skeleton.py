"""Exercise 1: a buffer of one place. Fill in the two procedures, then run: python3 check.py skeleton.py

A monitor's procedure is a generator. It yields its calls, and nobody can interrupt what is between two yields:

    yield enter()    yield leave()    yield wait("item", lambda: box.items)    yield signal("item")

The second word of `wait` is the test for the kinds that have no signals."""

from types import SimpleNamespace
from typing import Callable, List, Sequence

from monk import Calls, enter, leave, signal, wait


# box.items: a list with at most one item
def procedures(box: SimpleNamespace) -> Sequence[Callable[..., Calls]]:
    def put(item: str) -> Calls:
        yield enter()
        # wait while there is no room
        box.items.append(item)
        # tell a taker
        yield leave()

    def take() -> Calls:
        yield enter()
        # wait while there is no item
        item = box.items.pop()
        # tell a putter
        yield leave()
        return item

    return put, take


# Write `if` for each `while`. Under which kinds does it go wrong then? (["PB", "NPB"] would say: under these two.)
WRONG_WITH_IF: List[str] = []
