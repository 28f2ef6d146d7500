"""A taker waits for an item, a putter brings two, and a thief comes by. Under which kinds is the `if` wrong?"""

from __future__ import annotations

from typing import List, Sequence

from monk import Calls, Program, compare, enter, leave, signal, wait


def buffer() -> Sequence[Program]:
    items: List[str] = []

    def taker() -> Calls:
        yield enter()
        if not items:
            yield wait("item", lambda: items)
        items.pop()
        yield leave()

    def putter() -> Calls:
        for item in "tea", "bread":
            yield enter()
            items.append(item)
            yield signal("item")
            yield leave()

    def thief() -> Calls:
        yield enter()
        if items:
            items.pop()
        yield leave()

    return taker, putter, thief


if __name__ == "__main__":
    found = compare(buffer)
    run = found["NPNB"].example
    print(f"{found}\n\n{run}\n\n{run.picture(100)}\n\nplay(buffer, \"NPNB\", \"{run.schedule}\")")
