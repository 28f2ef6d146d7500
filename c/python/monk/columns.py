"""A history as columns of a picture: for each event its words, whom it hands the monitor to, and where each seat
waits after it."""

from __future__ import annotations

from typing import Dict, List, NamedTuple, Optional, Sequence, Tuple

ACTS = {("buffer", "0"): "put", ("buffer", "1"): "take",
        ("book", "0"): "start read", ("book", "1"): "end read", ("book", "2"): "start write",
        ("book", "3"): "end write",
        ("shop", "0"): "sit", ("shop", "1"): "call", ("shop", "2"): "finish", ("shop", "3"): "depart"}
# The word at which the choice of a release begins.
RELEASES = {"leave": 2, "wait": 3, "signal": 3, "signal-leave": 3, "until": 3, "signal-wait": 4}
ON_A_CONDITION = ("wait", "signal", "signal-leave", "signal-all", "until")


class Column(NamedTuple):
    """An event: its seat, its words, the seat that it hands the monitor to, and where each seat waits after it:
    "condition", "waiter", "signaller", "until", or nowhere."""
    seat: int
    words: str
    to: Optional[int]
    places: Tuple[str, ...]


class Picture(NamedTuple):
    """What a picture shows of a history."""
    kind: str
    seats: int
    columns: List[Column]


class _Places:
    """Where each seat waits, event by event."""

    def __init__(self, seats: int) -> None:
        self.places = [""] * seats
        self.queues: Dict[str, List[int]] = {}

    def after(self, event: Sequence[str]) -> Tuple[str, ...]:
        verb, seat = event[0], int(event[1])
        if verb in ("resume", "enter"):
            self.places[seat] = ""
        if verb.startswith("signal"):
            self._serve(event[2], verb == "signal-all")
            self.places[seat] = "signaller" if verb == "signal" and event[3] != "stay" else ""
        if verb in ("wait", "signal-wait"):
            self.queues.setdefault(event[2 if verb == "wait" else 3], []).append(seat)
            self.places[seat] = "condition"
        if verb == "until" and event[3] != "stay":
            self.places[seat] = "until"
        return tuple(self.places)

    def _serve(self, condition: str, is_to_all: bool) -> None:
        queue = self.queues.setdefault(condition, [])
        served = len(queue) if is_to_all else 1
        for other in queue[:served]:
            self.places[other] = "waiter"
        del queue[:served]


def picture_of(text: str, conditions: Sequence[str] = ()) -> Picture:
    """What a picture shows of a legal history, with these names for its conditions."""
    head, *lines = text.split("\n")
    _, _, kind, seats, _, thing, size = head.split()
    events, places = [line.split() for line in lines if line], _Places(int(seats))
    columns = []
    rest: List[List[str]] = [*events[1:], []]
    for event, following in zip(events, rest):
        words = words_of(event, (thing, int(size)), conditions)
        columns.append(Column(int(event[1]), words, _handed_to(event, following), places.after(event)))
    return Picture(kind, int(seats), columns)


def _handed_to(event: Sequence[str], following: Sequence[str]) -> Optional[int]:
    """The seat that goes on by this release, if it is another one."""
    chosen = event[RELEASES[event[0]]:] if event[0] in RELEASES else []
    to = int(chosen[1]) if len(chosen) > 1 else None
    if chosen == ["entry"] and following[:1] == ["enter"] and following[2] == "handed":
        to = int(following[1])
    return to if to != int(event[1]) else None


def words_of(event: Sequence[str], thing: Tuple[str, int], conditions: Sequence[str]) -> str:
    """An event as a picture names it. The thing is what the monitor guards, and its size."""
    verb = event[0]
    if verb == "act":
        return _words_of_act(event, thing)
    known = {str(number): name for number, name in enumerate(conditions)}
    on = [known.get(number, number) for number in event[2:4]]
    if verb in ON_A_CONDITION:
        return f"{verb} {on[0]}"
    return f"{verb} {on[0]} {on[1]}" if verb == "signal-wait" else verb


def _words_of_act(event: Sequence[str], thing: Tuple[str, int]) -> str:
    _, _, code, given, reply = event
    name, size = thing
    if name == "flags" and code == "0":
        return f"set {int(given):0{size}b}"
    word = ACTS.get((name, code), f"act {code}")
    item = {"put": " " + given, "take": f" {int(reply) - 1}" if reply != "0" else ""}.get(word, "")
    return word + item + ("?" if reply == "0" else "")
