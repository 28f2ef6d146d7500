#!/usr/bin/env python3
"""Random calls of one thread: library, reference and `monk play` must agree.

    differential.py LIBRARY REFERENCE MONK [SCRIPTS [SEED]]

LIBRARY and REFERENCE are script.c, linked with the one and with the other: both must print the same answers and the
same history. MONK plays the same calls as atomic steps, and must print that history too, and audit it `legal`. After
these come as many scripts in which seats are abandoned and taken again. What such a seat does then is no call, so MONK
only audits their histories."""
import concurrent.futures
import os
import random
import subprocess
import sys

sys.dont_write_bytecode = True
sys.path.insert(0, os.path.join(os.path.dirname(os.path.abspath(__file__)), "..", "..", "checks", "models"))
import monitor  # noqa: E402

KINDS = tuple(monitor.KINDS)
AUTOMATIC = ("PIS", "NPIS")
IMMEDIATE = ("PIR", "NPIR")
NON_BLOCKING = ("PNB", "NPNB")
WISHES = ("entry", "waiter", "signaller", "any")
MOST_FLAGS = 5
LONGEST = 200
# How often a call is one that is probably taken: mostly, but misuse has to come too. And how often it is by the seat
# that is inside.
LIKELY, BUSY = 0.93, 0.5
# How often a seat is abandoned, and how often one is taken again, in a script that has such seats.
ABANDON, TAKE = 0.08, 0.12

Call = tuple[int, str, tuple[int, ...]]
Shape = tuple[str, int, int, int, int]


def shape_at_random(kind: str, dice: random.Random) -> Shape:
    conditions = 0 if kind in AUTOMATIC and dice.random() < 0.5 else dice.randint(1, 3)
    return kind, dice.randint(2, 5), conditions, dice.randint(0, MOST_FLAGS), dice.choice((2, 5, 30, 200, 200))


class Guess:
    """Where the seats probably are, so that most calls are taken: a seat that polls comes in if nobody is known to be
    inside."""

    def __init__(self, seats: int) -> None:
        self.outside, self.inside = set(range(seats)), -1
        self.given_up: set[int] = set()

    def seat(self, dice: random.Random, seats: int) -> int:
        seat = self.inside if self.inside >= 0 and dice.random() < BUSY else dice.randrange(seats)
        return dice.randrange(seats) if seat in self.given_up else seat

    def names(self, seat: int, kind: str) -> list[str]:
        if seat == self.inside:
            return inside_names(kind)
        return ["arrive"] if seat in self.outside else ["poll"]

    def note(self, seat: int, name: str) -> None:
        if name == "arrive":
            self.outside.discard(seat)
        elif name == "poll" and self.inside < 0 and seat not in self.outside:
            self.inside = seat
        elif seat == self.inside and name in ("leave", "signal-leave", "wait", "signal-wait", "until", "signal"):
            self.inside = -1
            self.outside |= {seat} if name in ("leave", "signal-leave") else set()


    def abandon(self, seat: int) -> Call:
        self.given_up.add(seat)
        self.inside = -1 if seat == self.inside else self.inside
        return seat, "abandon", ()

    def take(self) -> Call:
        seat = min(self.given_up)
        self.given_up.discard(seat)
        self.outside.add(seat)
        return seat, "take", ()


def inside_names(kind: str) -> list[str]:
    names = ["leave", "wish", "set", "left"] + (["until", "until"] if kind in AUTOMATIC
                                                else ["wait", "wait", "waiting"])
    names += ["signal-leave", "signal-wait"] if kind in IMMEDIATE else [] if kind in AUTOMATIC else ["signal", "signal"]
    return names + (["signal-all"] if kind in NON_BLOCKING else [])


def call_at_random(shape: Shape, seats: int, guess: Guess, dice: random.Random) -> Call:
    kind, _, conditions, flags, _ = shape
    seat, condition, other = guess.seat(dice, seats), dice.randrange(conditions + 1), dice.randrange(conditions + 1)
    if conditions and dice.random() < LIKELY:
        condition, other = condition % conditions, other % conditions
    flag = dice.randrange(max(flags, 1)) if dice.random() < LIKELY else flags
    every: dict[str, tuple[int, ...]] = {
        "arrive": (), "poll": (), "leave": (), "wait": (condition,), "signal": (condition,), "signal-all": (condition,),
        "signal-leave": (condition,), "signal-wait": (condition, other), "until": (flag,),
        "set": (dice.randrange(1 << flags) if flags else 1,), "wish": (dice.randrange(3),), "waiting": (condition,),
        "left": (),
    }
    name = dice.choice(guess.names(seat, kind) if dice.random() < LIKELY else list(every))
    guess.note(seat, name)
    return seat, name, every[name]


def next_at_random(shape: Shape, seats: int, guess: Guess, dice: random.Random, has_abandoned: bool) -> Call:
    if has_abandoned and dice.random() < ABANDON:
        return guess.abandon(dice.randrange(seats))
    if guess.given_up and dice.random() < TAKE:
        return guess.take()
    return call_at_random(shape, seats, guess, dice)


def script_at_random(kind: str, dice: random.Random, has_abandoned: bool) -> tuple[Shape, list[Call]]:
    """The last seat is spared for the end: then each seat that can comes in, so that somebody is inside and can read
    the history."""
    shape = shape_at_random(kind, dice)
    spare = shape[1] - 1
    guess = Guess(spare)
    calls = [next_at_random(shape, spare, guess, dice, has_abandoned) for _ in range(dice.randrange(LONGEST))]
    return shape, calls + [(seat, "poll", ()) for seat in range(spare)] + [(spare, "arrive", ()), (spare, "poll", ())]


def text_of(shape: Shape, calls: list[Call]) -> str:
    lines = [" ".join(map(str, shape))] + [" ".join(map(str, (seat, name, *numbers))) for seat, name, numbers in calls]
    return "\n".join(lines) + "\n"


def steps_of(seat: int, name: str, numbers: tuple[int, ...], wish: str) -> list[str]:
    """The call as atomic steps. If the seat can't take a step from its place, `monk play` records nothing."""
    if name == "arrive":
        return [f"{seat} arrive"]
    if name == "poll":
        return [f"{seat} look", f"{seat} out"]
    if name == "set":
        return [f"{seat} act 0 {numbers[0]}"]
    if name == "signal-all":
        return [f"{seat} signal-all {numbers[0]}"]
    words = " ".join([f"{seat} {name}", *map(str, numbers), wish])
    return ([f"{seat} peek"] if wish == "entry" else []) + [words, f"{seat} drop", f"{seat} grant"]


def play_of(shape: Shape, calls: list[Call], answers: list[int]) -> str:
    """The play of the calls that were taken."""
    kind, seats, conditions, flags, budget = shape
    lines, wishes = [f"play 3 {kind} {seats} {conditions} flags {max(flags, 1)} {budget}"], ["waiter"] * seats
    for (seat, name, numbers), answer in zip(calls, answers, strict=True):
        if name == "wish":
            wishes[seat] = WISHES[numbers[0]]
        elif name not in ("waiting", "left") and answer >= 0:
            lines += steps_of(seat, name, numbers, wishes[seat])
    return "\n".join(lines) + "\n"


def said(words: list[str], text: str) -> str:
    done = subprocess.run(words, input=text, capture_output=True, text=True)
    if done.returncode < 0 or done.stderr:
        sys.exit(f"{words[0]}: {done.returncode}\n{done.stderr}\n{text}")
    return done.stdout


def agreed(library: str, reference: str, text: str, seed: str) -> list[str]:
    """What library and reference both print; ends the program if they differ."""
    ours, theirs = said([library], text), said([reference], text)
    if ours != theirs:
        sys.exit(f"seed {seed}: library and reference differ\n{text}\n--- library\n{ours}\n--- reference\n{theirs}")
    return ours.splitlines()


def audited(monk: str, history: str, seed: str) -> int:
    events = len(history.splitlines()) - 1
    if said([monk, "audit"], history) != f"legal {events}\n":
        sys.exit(f"seed {seed}: the history is not legal\n{history}")
    return events


def tried(library: str, reference: str, monk: str, kind: str, seed: str, has_abandoned: bool) -> int:
    """How many events the history of a script has; ends the program if two disagree."""
    shape, calls = script_at_random(kind, random.Random(seed), has_abandoned)
    lines = agreed(library, reference, text_of(shape, calls), seed)
    answers, history = [int(line) for line in lines[: len(calls)]], "\n".join(lines[len(calls):]) + "\n"
    if history == "nobody is inside\n":
        return 0
    if not has_abandoned:
        played = said([monk, "play"], play_of(shape, calls, answers))
        if played != history:
            sys.exit(f"seed {seed}: library and play differ\n{play_of(shape, calls, answers)}\n--- library\n{history}\n--- play\n{played}")
    return audited(monk, history, seed)


def main(library: str, reference: str, monk: str, scripts: str = "4000", seed: str = "1") -> None:
    plain = [(KINDS[n % len(KINDS)], f"{seed}.{n}", False) for n in range(int(scripts))]
    tasks = plain + [(kind, name, True) for kind, name, _ in plain]
    with concurrent.futures.ThreadPoolExecutor() as pool:
        events = list(pool.map(lambda task: tried(library, reference, monk, *task), tasks))
    print(f"{len(plain)} scripts and as many with abandoned seats, {sum(count > 0 for count in events)} histories, {sum(events)} events: all agree")


main(*sys.argv[1:])
