"""Scenes: the same monitor code under ten kinds, without threads and without luck.

    from monk import compare, enter, leave, signal, wait

    def buffer():                                        # called anew for each run, so its data are fresh
        items = []
        def taker():
            yield enter()
            if not items:                                # a slip under three of the ten kinds
                yield wait("item", lambda: items)        # the test is for the automatic kinds, which have no signals
            items.pop()
            yield leave()
        def putter():
            yield enter()
            items.append("tea")
            yield signal("item")
            yield leave()
        def thief():
            yield enter()
            if items:
                items.pop()
            yield leave()
        return taker, putter, thief

    print(compare(buffer))

Each program is a generator that yields its calls. The code between two yields is one step. The real kernel takes the
calls, one at a time. The driver only says who moves next, and these moves describe a run: `play(buffer, "NPNB",
"taker putter thief ..")`."""

from __future__ import annotations

from typing import Callable, List, Optional

from .actor import Option
from .errors import OutOfRange
from .kinds import number_of, number_of_wish
from .run import Run
from .scene import Made, scene_of
from .stage import Choose, NewName, Stage, Way


def play(made: Made, kind: str, schedule: str = "", wish: Optional[str] = None) -> Run:
    """One run of a scene under that kind, with its history. The words of the schedule say who moves, one after the
    other: `putter`, or `putter/entry` with whom the release prefers. When they are used up, all arrive in the order
    of the list, and then the one that is inside moves. wish: whom all releases prefer if the kind leaves it open.
    OutOfRange if the schedule can't be played: at which word, and who can move there."""
    number_of(kind)
    number_of_wish(wish or "any")
    words = Words(schedule)
    run = played(made, Way(kind, wish), [], words.begin)
    if len(words.rest) > 0:
        word = f"{words.place} of the schedule is {words.rest[0]!r}"
        raise OutOfRange(f"{word}, and the run is over there: {run.outcome}")
    return run


class Words:
    """The words of a schedule."""

    def __init__(self, schedule: str) -> None:
        self.words, self.rest = schedule.split(), schedule.split()

    def begin(self) -> Choose:
        self.rest = self.words[:]
        return self.choose

    @property
    def place(self) -> str:
        return f"word {len(self.words) - len(self.rest) + 1}"

    def choose(self, found: List[Option]) -> Option:
        if not self.rest:
            return found[0]
        name, _, prefers = self.rest[0].partition("/")
        for actor, wish in found:
            if actor.name == name and (not prefers or prefers == wish or not wish):
                self.rest.pop(0)
                return actor, prefers or wish
        can = ", ".join(actor.name + (f"/{wish}" if wish else "") for actor, wish in found)
        raise OutOfRange(f"{self.place} of the schedule is {self.rest[0]!r}, and that can't move there: {can} can")


def played(made: Made, way: Way, names: List[str], begin: Callable[[], Choose]) -> Run:
    """One run. It begins again at each condition whose name is new, and adds it to the names."""
    while True:
        stage = Stage(scene_of(made), way, names)
        try:
            return stage.play(begin())
        except NewName:
            continue
        finally:
            stage.close()
