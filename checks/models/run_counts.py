"""What is counted over a run that tells a log, by its definitions: whom a signal served, whom it crossed, and which
woken threads were overtaken by a rival."""
from __future__ import annotations

from typing import NamedTuple, Optional

from judge_search import SIGNALS, SILENT, TAKES, Place, Setting, State, Step, after, opening


class Moment(NamedTuple):
    """A line, and where the threads are before it, and behind it and the waits that run out at once."""

    line: Step
    before: State
    behind: State


class Counted(NamedTuple):
    """Counts with the line of the file of the first or the last."""

    asleep: int
    woken: int
    served: int
    passed: int
    unheard: tuple[int, Optional[int]]
    crossed: tuple[int, Optional[int]]
    overtaken: tuple[int, int, Optional[int]]


def moments(setting: Setting, steps: list[tuple[Step, Optional[int]]]) -> list[Moment]:
    """The lines of a run, given as its steps and the threads that their signals wake."""
    x, found = opening(setting), list[Moment]()
    for step, whom in steps:
        y = after(setting, x, step, whom)
        assert y is not None
        if step.verb == "out" and found:
            found[-1] = found[-1]._replace(behind=y)
        elif step.verb not in SILENT:
            found.append(Moment(step, x, y))
        x = y
    return found


def number_in(x: State, place: str) -> int:
    return sum(there[0] == place for there in x.places)


def last(numbers: list[int]) -> tuple[int, Optional[int]]:
    return len(numbers), max(numbers, default=None)


def is_signal_to(cond: int, line: Step) -> bool:
    return line.verb in SIGNALS and line.numbers[0] == cond


def is_rival(log: list[Step], all_: list[Moment], cond: int, by: int, end: int) -> bool:
    """Whether a thread comes in with line `by` and leaves with line `end`, alone, nobody signals to the condition
    between, and the thread waits there somewhere."""
    comes, leaves = all_[by].line, all_[end].line
    return (comes.verb == "enter" and leaves.verb == "leave" and leaves.seat == comes.seat
            and not any(it.line.verb in TAKES or is_signal_to(cond, it.line) for it in all_[by + 1:end])
            and Step("wait", comes.seat, (cond,)) in log)


def is_passed(log: list[Step], all_: list[Moment], n: int, seat: int, cond: int) -> bool:
    """Whether before line n a rival came and left, and since it came the seat was woken on the condition."""
    there: Place = ("woken", cond)
    return any(is_rival(log, all_, cond, by, end) and all(it.behind.places[seat] == there for it in all_[by:n])
               for end in range(n) for by in range(end))


def overtaken_on(setting: Setting, log: list[Step], all_: list[Moment], k: int) -> Optional[int]:
    line = all_[k].line
    return next((cond for cond in range(setting.conds) if line.verb == "resume"
                 and is_passed(log, all_, k, line.seat, cond)), None)


def waits_again(all_: list[Moment], k: int, cond: int) -> bool:
    """Whether the next thing that the thread of line k does, but for refused acts, is to wait there."""
    seat = all_[k].line.seat
    nexts = (it.line for it in all_[k + 1:] if it.line.seat == seat)
    return next((line for line in nexts if line.verb != "act" or line.numbers[2] != 0), None) == Step("wait", seat, (cond,))


def crossing(all_: list[Moment], seat: int) -> Optional[int]:
    """The last signal of another seat between the last wait of the seat and when it came in or went on before that."""
    own = [k for k, it in enumerate(all_) if it.line.seat == seat]
    if not own or all_[own[-1]].line.verb != "wait" or all_[-1].behind.places[seat][0] != "waiting":
        return None
    cond = all_[own[-1]].line.numbers[0]
    begun = max(k for k in own if all_[k].line.verb in TAKES)
    found = [k for k in range(begun + 1, own[-1]) if is_signal_to(cond, all_[k].line) and all_[k].line.seat != seat]
    return max(found, default=None)


def counted(setting: Setting, log: list[Step], steps: list[tuple[Step, Optional[int]]]) -> Counted:
    all_ = moments(setting, steps)
    end = all_[-1].behind if all_ else opening(setting)
    woken = [number_in(it.behind, "woken") - number_in(it.before, "woken") for it in all_ if it.line.verb in SIGNALS]
    passed = [it for it in all_ if it.line.verb in ("enter", "lapse") and number_in(it.before, "woken")]
    unheard = [k + 2 for k, it in enumerate(all_) if it.line.verb in SIGNALS and it.before.places == it.behind.places]
    crossed = [k + 2 for k in (crossing(all_, seat) for seat in range(setting.seats)) if k is not None]
    back = [(k, cond) for k in range(len(all_)) if (cond := overtaken_on(setting, log, all_, k)) is not None]
    goes = [k + 2 for k, cond in back if not waits_again(all_, k, cond)]
    return Counted(number_in(end, "waiting"), number_in(end, "woken"), sum(woken), len(passed), last(unheard),
                   last(crossed), (len(back), len(back) - len(goes), min(goes, default=None)))
