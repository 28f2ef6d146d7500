"""A bridge of one lane: cars from one side wait while others are on it. The last car off signals to all."""

from __future__ import annotations

from monk import Calls, Program, Scene, compare, enter, leave, signal_all, wait


def bridge() -> Scene:
    cars = {"east": 0, "west": 0}

    def from_side(side: str, other: str) -> Program:
        def car() -> Calls:
            yield enter()
            while cars[other]:
                yield wait(side, lambda: not cars[other])
            cars[side] += 1
            yield leave()
            yield enter()
            cars[side] -= 1
            if not cars[side]:
                yield signal_all(other)
            yield leave()

        car.__name__ = side
        return car

    programs = [from_side("east", "west"), from_side("east", "west"), from_side("west", "east")]
    return Scene(programs, invariant=lambda: not (cars["east"] and cars["west"]))


if __name__ == "__main__":
    print(compare(bridge))
