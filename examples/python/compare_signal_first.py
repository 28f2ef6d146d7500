"""The putter signals first, and works after that. The taker tests again by `while`: where does that not help?"""

from __future__ import annotations

from typing import List, Sequence

from monk import Calls, Program, compare, enter, leave, signal, wait


def signal_first() -> Sequence[Program]:
    items: List[str] = []

    def taker() -> Calls:
        yield enter()
        while not items:
            yield wait("item", lambda: items)
        items.pop()
        yield leave()

    def putter() -> Calls:
        yield enter()
        yield signal("item")
        items.append("tea")
        yield leave()

    return taker, putter


if __name__ == "__main__":
    print(compare(signal_first))
