"""Schedules of runs by turns: they are made shorter, kept, told, and played again. Part of monk-try."""
import base64
import json
import os
import shlex
import time
from typing import Any, Callable, Dict, List, NamedTuple, NoReturn, Optional, Sequence, Tuple

from monk_places import line_of
from monk_runs import CANT, LATE, STATUS_CANT, Expected, Job, Result, reports, run_under

HEAD = "monk schedule 1"
# A schedule is played so often at most while it is made shorter, and a longer one isn't begun with.
MOST_PLAYS, MOST_TURNS, MOST_TOLD = 60, 20000, 12
SECONDS_TO_SHORTEN = 4
# The right output is kept with a schedule if it isn't longer.
LONGEST_OUTPUT = 1 << 20
# What a play has to end in again, of so many.
AGAIN = 2


class Schedule(NamedTuple):
    """A run by turns that can be played again."""
    words: List[str]
    options: List[str]       # of monk-run, without a choice of turns
    ended: Tuple[str, str]   # what it was, and why
    turns: List[str]         # the lines of the layer
    expected: Expected = Expected(0, None, None)


def turns_in(path: str) -> List[str]:
    """The changes of turn in a file, as the layer wrote them."""
    if not os.path.exists(path):
        return []
    with open(path) as file:
        return [line.rstrip("\n") for line in file if line.startswith("turn ")]


def write_turns(path: str, turns: Sequence[str]) -> None:
    with open(path, "w") as file:
        print(HEAD, *turns, sep="\n", file=file)


def write_schedule(path: str, it: Schedule) -> None:
    """The turns come last: the layer reads only them."""
    with open(path, "w") as file:
        status, output, check = it.expected
        text = base64.b64encode(output).decode() if output is not None and len(output) <= LONGEST_OUTPUT else None
        fields = {"program": it.words, "options": it.options, "ended": it.ended, "expected": [status, text, check]}
        print(HEAD, *(f"{name} {json.dumps(value)}" for name, value in fields.items()), *it.turns, sep="\n", file=file)


def read_schedule(path: str, refuse: Callable[[str], NoReturn]) -> Schedule:
    try:
        with open(path) as file:
            lines = file.read().splitlines()
    except (OSError, UnicodeDecodeError) as error:
        refuse(f"{path}: {getattr(error, 'strerror', None) or 'it is no schedule of monk-try'}")
    fields: Dict[str, Any] = {}
    try:
        for line in lines[1:5]:
            name, _, value = line.partition(" ")
            fields[name] = json.loads(value)
        if lines[0] != HEAD:
            raise ValueError
        (status, text, check), (what, why) = fields["expected"], fields["ended"]
        expected = Expected(status, base64.b64decode(text) if text is not None else None, check)
        return Schedule(fields["program"], fields["options"], (what, why), lines[5:], expected)
    except (ValueError, KeyError, IndexError, TypeError):
        refuse(f"{path}: it is no schedule of monk-try")


def turns_row(folder: str) -> List[List[str]]:
    return [row for rows in reports(folder).values() for row in rows if row[0] == "turns"]


def lost_in(folder: str) -> Optional[List[str]]:
    """Where a thread of the program lost its turn first; None if the run repeats."""
    rows = [row for rows in reports(folder).values() for row in rows if row[0] == "unrepeatable"]
    return rows[0][1:] if rows else None


def lost_words(row: List[str]) -> str:
    thread, how, does, place = row[0], row[1], " ".join(row[2:-1]), row[-1]
    what = "sleeps in a call that the layer doesn't know" if how == "sleeps" else "runs on for long without a call"
    return f"thread {thread} {what}, after its last one at {line_of(place)} ({does})"


class Player:
    """Plays schedules of one program, and says how they end."""

    def __init__(self, job: Job, options: List[str], room: str) -> None:
        self.job, self.options, self.room, self.plays = job, options, room, 0
        self.end = time.monotonic() + SECONDS_TO_SHORTEN

    def may_play(self) -> bool:
        return self.plays < MOST_PLAYS and time.monotonic() < self.end

    def play(self, turns: Sequence[str]) -> Result:
        self.plays += 1
        folder = os.path.join(self.room, f"play.{self.plays}")
        path = folder + ".turns"
        write_turns(path, turns)
        return run_under(self.job, folder, [*self.options, "--play", path])

    def missed(self, result: Result) -> int:
        return sum(int(row[5]) for row in turns_row(result.folder) if len(row) > 5)

    def ends_so(self, turns: Sequence[str], ended: Tuple[str, str]) -> bool:
        result = self.play(turns)
        return (result.what, result.why) == ended


def without(turns: List[str], first: int, count: int) -> List[str]:
    return turns[:first] + turns[first + count:]


def shorter(player: Player, turns: List[str], ended: Tuple[str, str]) -> List[str]:
    """Fewer changes of turn that end the program in the same way. Half of them are left out, then a quarter .."""
    size = (len(turns) + 1) // 2
    while size > 0 and turns:
        at, has_left = 0, False
        while at < len(turns) and player.may_play():
            fewer = without(turns, at, size)
            if player.ends_so(fewer, ended):
                turns, has_left = fewer, True
            else:
                at += size
        if not player.may_play() or (size == 1 and not has_left):
            break
        size = size // 2 if size > 1 else 1
    return turns


def repeated(player: Player, turns: List[str], ended: Tuple[str, str]) -> Optional[List[str]]:
    """The turns of a wrong run, made shorter; None if it doesn't end in the same way again each time."""
    if len(turns) > MOST_TURNS or not all(player.ends_so(turns, ended) for _ in range(AGAIN)):
        return None
    fewer = shorter(player, turns, ended)
    return fewer if all(player.ends_so(fewer, ended) for _ in range(AGAIN)) else turns


def told(turns: Sequence[str]) -> List[str]:
    """The changes of turn, in words: who stops where, and who goes on."""
    lines = []
    for line in turns[:MOST_TOLD]:
        thread, _, following, place, *does = line.split()[1:]
        lines.append(f"thread {thread} stops at {line_of(place)} ({' '.join(does)}): thread {following} goes on")
    return [*lines, f".. and {len(turns) - MOST_TOLD} more"] if len(turns) > MOST_TOLD else lines


def play_again(path: str, words: List[str], room: str, refuse: Callable[[str], NoReturn]) -> int:
    """Plays a schedule that was kept: status 1 if it goes wrong, 0 if the run is right now."""
    it = read_schedule(path, refuse)
    if words and words != it.words:
        refuse(f"{path}: it is a schedule of another program: {shlex.join(it.words)}")
    seconds = float(it.options[it.options.index("--seconds") + 1])
    player = Player(Job(it.words, seconds, it.expected), it.options, room)
    result = player.play(it.turns)
    if result.what == CANT:
        refuse(result.why)
    missed = player.missed(result)
    if 2 * missed > len(it.turns):
        refuse(f"{path}: {missed} of its {len(it.turns)} turns don't fit: the program isn't the one that was tried")
    lost = lost_in(result.folder)
    if lost:
        refuse(f"{path}: the run doesn't repeat: {lost_words(lost)}")
    print(*told(it.turns), sep="\n")
    now = f"{result.what}{': ' + result.why if result.why else ''}"
    print(f"Then it was {it.ended[0]}: {it.ended[1]}. Now it is {now}.")
    return STATUS_CANT if result.what == LATE else 0 if result.what == "ok" else 1
