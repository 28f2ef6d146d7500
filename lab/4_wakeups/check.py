"""Checks exercise 4: python3 check.py FILE"""

from __future__ import annotations

import types
from typing import Any, Callable, List

import given
from monk import Scene
from monk.lab import Check, breaks, holds, is_so, main


def put_and_take(program: Any) -> Callable[[], Scene]:
    """A taker and a putter. The item is taken at the end."""
    def made() -> Scene:
        box = types.SimpleNamespace(items=[])
        taker, putter = program(box)
        return Scene([taker, putter], end=lambda: not box.items, guarded=[box])
    return made


def gate_with(guests: int) -> Callable[[Any], Callable[[], Scene]]:
    """That number of guests, and a porter. The gate is open at the end, and nobody goes through before."""
    def of(program: Any) -> Callable[[], Scene]:
        def made() -> Scene:
            gate = types.SimpleNamespace(is_open=False)
            guest, porter = program(gate)

            def careful() -> Any:
                yield from guest()
                assert gate.is_open, "a guest went through a gate that was shut"
            careful.__name__ = "guest"
            return Scene([careful] * guests + [porter], end=lambda: bool(gate.is_open), guarded=[gate])
        return made
    return of


def mended(answer: Any, name: str, made: Callable[[Any], Callable[[], Scene]]) -> Check:
    """Not the given one: what is said of that would tell where it goes wrong."""
    title, program = f"{name}: mended, under every kind", getattr(answer, name)
    if program is getattr(given, name):
        return is_so(title, lambda: False, "it is the given one still: predict first, then copy it to here, and mend it")
    return holds(title, made(program), waits=WAITERS[name])


# Who has to wait.
WAITERS = {"late_work": ["taker"], "early_signal": ["guest"], "one_signal": ["guest"]}
SCENES = {"late_work": put_and_take, "early_signal": gate_with(1), "one_signal": gate_with(2)}


def checks(answer: Any) -> List[Check]:
    scenes = SCENES.items()
    wrong = [breaks(f"{name}: where it goes wrong", made(getattr(given, name)), answer.WRONG[name])
             for name, made in scenes]
    return wrong + [mended(answer, name, made) for name, made in scenes]


def checks_of_compiled(answer: Any) -> List[Check]:
    wrong = [breaks(f"{name}: where it goes wrong", answer.scene("given", name), answer.kinds(f"wrong_{name}"))
             for name in SCENES]
    return wrong + [holds(f"{name}: mended, under every kind", answer.scene("mended", name), waits=WAITERS[name])
                    for name in SCENES]


main("Exercise 4: lost wake-ups", checks, checks_of_compiled)
