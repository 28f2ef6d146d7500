"""Checks exercise 1: python3 check.py FILE"""

from __future__ import annotations

import functools
import types
from typing import Any, Callable, List

from monk import Scene
from monk.lab import Check, holds, knows, main

# Of the kinds under which an `if` goes wrong.
WRONG_WITH_IF = "5a81fce9205e21cbec40517bdf8315d786aa3be7664077a962c6d5dfd4d2c518"


def scene(answer: Any, putters: int = 1, takers: int = 1, items: int = 1) -> Callable[[], Scene]:
    """Putters with `items` items each, and takers. There is never more than one item, and each arrives once."""
    def made() -> Scene:
        box, got = types.SimpleNamespace(items=[]), []
        put, take = answer.procedures(box)
        brought = [f"item {number}" for number in range(putters * items)]

        def putter_of(mine: List[str]) -> Callable[[], Any]:
            def putter() -> Any:
                for item in mine:
                    yield from put(item)
            return putter

        def taker() -> Any:
            for _ in range(putters * items // takers):
                item = yield from take()
                assert item is not None, "take returned nothing: it ends by `return item`"
                got.append(item)

        crew = [putter_of(brought[number * items:(number + 1) * items]) for number in range(putters)]
        programs = [*(taker for _ in range(takers)), *crew]
        return Scene(programs, lambda: len(box.items) <= 1, lambda: sorted(got) == brought, guarded=[box])
    return made


def checks_of(of: Callable[..., Callable[[], Scene]], wrong_with_if: List[str]) -> List[Check]:
    return [
        holds("one puts and one takes, under Hoare's rules (PB)", of(), ["PB"]),
        holds("two of each, under Hoare's rules (PB)", of(2, 2), ["PB"]),
        holds("two of each, under Mesa's rules (NPNB)", of(2, 2), ["NPNB"]),
        holds("one puts two, and two take, under every kind", of(1, 2, 2)),
        knows("you found the kinds under which an `if` goes wrong", wrong_with_if, WRONG_WITH_IF,
              "WRONG_WITH_IF isn't what this check finds: write `if` for each `while`, and look at check 4"),
    ]


def checks(answer: Any) -> List[Check]:
    return checks_of(functools.partial(scene, answer), answer.WRONG_WITH_IF)


def checks_of_compiled(answer: Any) -> List[Check]:
    def of(putters: int = 1, takers: int = 1, items: int = 1) -> Callable[[], Scene]:
        return answer.scene("buffer", putters, takers, items)
    return checks_of(of, answer.kinds("wrong_with_if"))


main("Exercise 1: a buffer of one place", checks, checks_of_compiled)
