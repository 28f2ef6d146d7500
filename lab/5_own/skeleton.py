"""Exercise 5: a monitor of your own. Run: python3 check.py skeleton.py

Choose a thing that programs share: a lock, a car park, a barber, a bank account. Write its scene twice: `right`,
which goes right under every kind; and `slip`, with one slip. The invariant says what has to hold whenever the monitor
is given up. The slip breaks it under some kinds, and under others it doesn't."""

from typing import List

from monk import Calls, Scene, enter, leave, signal, wait


def right() -> Scene:
    # data, programs that wait and signal, and an invariant
    return Scene([], invariant=None)


def slip() -> Scene:
    return Scene([], invariant=None)


# Under which kinds does the slip go wrong?
WRONG_WITH_SLIP: List[str] = []
