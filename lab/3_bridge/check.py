"""Checks exercise 3: python3 check.py FILE"""

from __future__ import annotations

import types
from typing import Any, Callable, List

from monk import Scene
from monk.lab import Check, happens, holds, main, some_order_breaks

# Random orders of a kind, if all would be too many.
DICE = 100


class Cars:
    """How many cars were seen on the bridge at once, in all runs."""

    def __init__(self) -> None:
        self.most = 0


def scene(answer: Any, sides: List[int], seen: Cars) -> Callable[[], Scene]:
    """A car from each of these sides."""
    def made() -> Scene:
        bridge, on = types.SimpleNamespace(cars=[0, 0]), [0, 0]
        arrive, depart = answer.procedures(bridge)

        def car_of(side: int) -> Callable[[], Any]:
            def car() -> Any:
                yield from arrive(side)
                on[side] += 1
                assert not on[1 - side], f"cars of both sides are on the bridge: {on}"
                seen.most = max(seen.most, on[side])
                rest = depart(side)
                yield next(rest)                    # others may come before it is inside again
                on[side] -= 1
                yield from rest
            car.__name__ = answer.SIDES[side]
            return car

        return Scene([car_of(side) for side in sides], lambda: not all(bridge.cars), lambda: bridge.cars == [0, 0],
                     guarded=[bridge])
    return made


def checks(answer: Any) -> List[Check]:
    seen, nobody = Cars(), Cars()
    return [
        holds("one car from each side, under every kind", scene(answer, [0, 1], nobody)),
        holds("one east and two west, under PNB and NPNB", scene(answer, [0, 1, 1], nobody), ["PNB", "NPNB"]),
        happens("two cars of one side may be on the bridge together", scene(answer, [0, 1, 1], seen),
                ["PNB", "NPNB"], lambda: seen.most > 1, "in no order under PNB and NPNB"),
        holds("one east and two west, under every kind", scene(answer, [0, 1, 1], nobody), orders=DICE),
    ]


def checks_of_compiled(answer: Any) -> List[Check]:
    return [
        holds("one car from each side, under every kind", answer.scene("bridge", 0, 1)),
        holds("one east and two west, under PNB and NPNB", answer.scene("bridge", 0, 1, 1), ["PNB", "NPNB"]),
        some_order_breaks("two cars of one side may be on the bridge together", answer.scene("alone", 0, 1, 1),
                          ["PNB", "NPNB"], "in no order under PNB and NPNB"),
        holds("one east and two west, under every kind", answer.scene("bridge", 0, 1, 1), orders=DICE),
    ]


main("Exercise 3: a bridge of one lane", checks, checks_of_compiled)
