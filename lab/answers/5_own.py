"""An answer to exercise 5: a car park of one place. The slip is an `if`: a car that was signalled doesn't look
again."""

import types

from monk import Calls, Scene, enter, leave, signal, wait


def car_park(goes_on_waiting: bool) -> Scene:
    park = types.SimpleNamespace(cars=0)

    def car() -> Calls:
        yield enter()
        while park.cars:
            yield wait("place", lambda: not park.cars)
            if not goes_on_waiting:
                break
        park.cars += 1
        yield leave()
        yield enter()
        park.cars -= 1
        yield signal("place")
        yield leave()

    return Scene([car, car, car], invariant=lambda: park.cars <= 1, end=lambda: park.cars == 0)


def right() -> Scene:
    return car_park(goes_on_waiting=True)


def slip() -> Scene:
    return car_park(goes_on_waiting=False)


WRONG_WITH_SLIP = ["NPNB", "NPQB", "NPIR"]
