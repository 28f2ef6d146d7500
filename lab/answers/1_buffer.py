"""An answer to exercise 1."""

from types import SimpleNamespace
from typing import Callable, Sequence

from monk import Calls, enter, leave, signal, wait


def procedures(box: SimpleNamespace) -> Sequence[Callable[..., Calls]]:
    def put(item: str) -> Calls:
        yield enter()
        while box.items:
            yield wait("room", lambda: not box.items)
        box.items.append(item)
        yield signal("item")
        yield leave()

    def take() -> Calls:
        yield enter()
        while not box.items:
            yield wait("item", lambda: box.items)
        item = box.items.pop()
        yield signal("room")
        yield leave()
        return item

    return put, take


WRONG_WITH_IF = ["NPNB", "NPQB", "NPIR"]
