"""A search of all runs of a mutex with condition variables that tell a log. It branches on what a log doesn't say:
whom a signal wakes, when a wait runs out, and when a thread wakes though nobody sent a signal. It shares nothing with
monk."""
from functools import lru_cache
from typing import NamedTuple

from monitor import CODES, Thing

Place = tuple[str, int]
OUTSIDE, ACTIVE = ("outside", 0), ("active", 0)
# Where a thread is before a line with which it takes the lock, and after a step that has no line.
TAKES, SILENT = {"enter": "outside", "resume": "woken", "lapse": "ran out"}, {"out": "ran out", "wake": "woken"}
SIGNALS = ("signal", "broadcast")


class Step(NamedTuple):
    """A line of a log, or `out SEAT` or `wake SEAT`, for which a log has no line."""

    verb: str
    seat: int
    numbers: tuple[int, ...] = ()


class Setting(NamedTuple):
    seats: int
    conds: int
    object: str
    size: int


class State(NamedTuple):
    lock: int | None
    places: tuple[Place, ...]
    data: tuple[int, ...]


class Answer(NamedTuple):
    """The misfit's line in the file, how many woke unasked, the first line that needs it, and who holds the lock since
    which line."""

    misfit: int | None
    unasked: int
    first: int | None
    holder: tuple[int, int] | None


# The steps of a run, each with the thread that its signal wakes.
Run = tuple[tuple[Step, int | None], ...]


def opening(setting: Setting) -> State:
    return State(None, (OUTSIDE,) * setting.seats, tuple(Thing.opening(setting.object, setting.size)))


def moved(x: State, lock: int | None, there: dict[int, Place]) -> State:
    places = list(x.places)
    for seat, place in there.items():
        places[seat] = place
    return State(lock, tuple(places), x.data)


def after(setting: Setting, x: State, step: Step, whom: int | None = None) -> State | None:
    """The state after the step, whose signal wakes that thread; None if it may not happen."""
    verb, seat, rest = step
    is_beyond = seat >= setting.seats or verb in ("wait", *SIGNALS) and rest[0] >= setting.conds
    if is_beyond or whom is not None and verb != "signal":
        return None
    place = x.places[seat]
    if verb in TAKES:
        return moved(x, seat, {seat: ACTIVE}) if x.lock is None and place[0] == TAKES[verb] else None
    if verb in SILENT:
        return moved(x, x.lock, {seat: (SILENT[verb], place[1])}) if place[0] == "waiting" else None
    if verb in SIGNALS:
        asleep = [other for other, there in enumerate(x.places) if there == ("waiting", rest[0])]
        woken = asleep if verb == "broadcast" else [other for other in asleep if other == whom]
        may = (x.lock == seat or place == OUTSIDE) and (bool(woken) if asleep else whom is None)
        return moved(x, x.lock, {other: ("woken", rest[0]) for other in woken}) if may else None
    if x.lock != seat or verb == "until" or verb == "act" and rest[0] >= CODES[setting.object]:
        return None
    if verb == "act":
        reply, thing = Thing(setting.object, list(x.data)).act(*rest[:2])
        return x._replace(data=tuple(thing.state)) if reply == rest[2] else None
    return moved(x, None, {seat: OUTSIDE if verb == "leave" else ("waiting", rest[0])})


def told(setting: Setting, x: State, line: Step) -> list[tuple[int | None, State]]:
    """Whom the line may wake, and the states after it."""
    whoms = (None, *range(setting.seats)) if line.verb == "signal" else (None,)
    states = ((whom, after(setting, x, line, whom)) for whom in whoms)
    return [(whom, y) for whom, y in states if y is not None]


def behind(setting: Setting, runs: dict[State, int], line: Step) -> dict[State, int]:
    """The states of runs after the line, each with the fewest that woke unasked, by the states before it."""
    return found_behind(setting, frozenset(runs.items()), line)


@lru_cache(maxsize=1 << 12)
def silently(setting: Setting, runs: frozenset[tuple[State, int]]) -> dict[State, int]:
    """The same after steps that have no line."""
    found = dict(runs)
    left = list(found)
    while left:
        x = left.pop()
        asleep = [seat for seat, place in enumerate(x.places) if place[0] == "waiting"]
        for step in (Step(verb, seat) for verb in SILENT for seat in asleep):
            y, cost = after(setting, x, step), found[x] + (step.verb == "wake")
            if y is not None and cost < found.get(y, cost + 1):
                found[y] = cost
                left.append(y)
    return found


@lru_cache(maxsize=1 << 16)
def found_behind(setting: Setting, runs: frozenset[tuple[State, int]], line: Step) -> dict[State, int]:
    found: dict[State, int] = {}
    for x, cost in silently(setting, runs).items():
        for _, y in told(setting, x, line):
            found[y] = min(cost, found.get(y, cost))
    return found


def judged(setting: Setting, log: list[Step]) -> Answer:
    runs, misfit = {opening(setting): 0}, None
    first: int | None = None
    since = 0
    for number, line in enumerate(log, 2):
        then = behind(setting, runs, line)
        if not then:
            misfit = number
            break
        runs, since = then, number if line.verb in TAKES else since
        first = number if first is None and min(runs.values()) > 0 else first
    lock = next(iter(runs)).lock
    return Answer(misfit, min(runs.values()), first, None if lock is None else (lock, since))


def lapses_next(seat: int, lines: list[Step]) -> bool:
    """Whether the next line of that seat says that its wait ran out."""
    return next((line.verb == "lapse" for line in lines if line.seat == seat), False)


def tellings(setting: Setting, x: State, line: Step, runs_out: bool) -> list[tuple[Run, State]]:
    """The steps that may tell the line, and the states behind them. Who wakes unasked comes back at once. Behind the
    line its wait runs out, if it does."""
    woken = after(setting, x, Step("wake", line.seat)) if line.verb == "resume" else None
    front: Run = () if woken is None else ((Step("wake", line.seat), None),)
    out = Step("out", line.seat)
    found: list[tuple[Run, State]] = []
    for whom, y in told(setting, x if woken is None else woken, line):
        z = after(setting, y, out) if runs_out else y
        if z is not None:
            found.append(((*front, (line, whom), *([(out, None)] if runs_out else [])), z))
    return found


def least_runs(setting: Setting, log: list[Step], fitting: int) -> list[Run]:
    """The runs of so many lines of the log that have the fewest wake-ups that nobody sent. In each a wait runs out just
    behind its own line, exactly if its thread's next line says so, and who wakes unasked comes back at once."""
    runs: dict[State, list[Run]] = {opening(setting): [()]}
    for number, line in enumerate(log[:fitting], 1):
        then: dict[State, list[Run]] = {}
        runs_out = line.verb == "wait" and lapses_next(line.seat, log[number:])
        for x, begun in runs.items():
            for steps, y in tellings(setting, x, line, runs_out):
                then[y] = fewest(then.get(y, []) + [(*run, *steps) for run in begun])
        runs = then
    return fewest([run for found in runs.values() for run in found])


def fewest(runs: list[Run]) -> list[Run]:
    """Those of the runs in which the fewest wake unasked."""
    many = [unasked(run) for run in runs]
    return [run for run, wakes in zip(runs, many) if wakes == min(many)]


def unasked(run: Run) -> int:
    return sum(step.verb == "wake" for step, _ in run)


def run_text(setting: Setting, run: Run) -> str:
    """The text of a run."""
    head = ("run NPNB", setting.seats, setting.conds, setting.object, setting.size)
    steps = (words_of(step) + (f" wakes {whom}" if whom is not None else "") for step, whom in run)
    return "".join(f"{line}\n" for line in (" ".join(map(str, head)), *steps))


def words_of(step: Step) -> str:
    return " ".join(map(str, (step.verb, step.seat, *step.numbers)))


def step_of(words: str) -> Step:
    verb, seat, *numbers = words.split()
    return Step(verb, int(seat), tuple(map(int, numbers)))
