"""What `monk fit` finds for a log, over a run of the lines that fit, and how it says so: in a line, and as JSON. It
shares nothing with monk."""
from __future__ import annotations

from typing import Any, NamedTuple, Optional

from judge_search import SIGNALS, TAKES, Answer, Run, Setting, State, Step, opening
from monitor import CODES, Thing
from run_counts import Counted, Moment, counted, moments

# The number in the file of the line behind the log's head, and how many must be overtaken before it is said that none
# waits again.
FIRST, ENOUGH_OVERTAKEN = 2, 24


class Question(NamedTuple):
    """A log, the predicates that its conditions mean, and what the file beside it says: whether its program ended by
    itself, and the number of the place in the source of each line, 0 if it has none."""

    setting: Setting
    log: list[Step]
    means: tuple[tuple[int, int], ...] = ()
    has_ended: bool = False
    places: tuple[int, ...] = ()


class Finding(NamedTuple):
    """What is found. `end` is the state behind the lines that fit, and `moments` are these lines."""

    question: Question
    answer: Answer
    reason: Optional[str]
    moments: list[Moment]
    end: State
    counts: Counted
    missed: Optional[int]


def blame(setting: Setting, x: State, line: Step) -> Optional[str]:
    """Why the line can't stand there, whomever signals woke; None if it can."""
    verb, seat, rest = line
    place, is_outside = x.places[seat][0] if seat < setting.seats else "nowhere", False
    is_cond, is_code = verb in ("wait", *SIGNALS), verb == "act"
    if verb == "until":
        return "call"
    if place == "nowhere" or is_cond and rest[0] >= setting.conds or is_code and rest[0] >= CODES[setting.object]:
        return "range"
    if verb in TAKES:
        comes_from = {"enter": ("outside",), "resume": ("waiting", "woken"), "lapse": ("ran out",)}[verb]
        wrong = None if place in comes_from else "asleep" if verb == "enter" else "awake"
        return wrong if x.lock is None else "held"
    is_outside = verb in SIGNALS and place == "outside"
    if x.lock != seat and not is_outside:
        return "nolock"
    return "reply" if is_code and Thing(setting.object, list(x.data)).act(*rest[:2])[0] != rest[2] else None


def is_lacking(question: Question, x: State) -> bool:
    """Whether somebody sleeps on a condition, nobody is woken there, and all that it means holds."""
    thing = Thing(question.setting.object, list(x.data))
    conds = {cond for cond, _ in question.means if ("waiting", cond) in x.places and ("woken", cond) not in x.places}
    return any(all(thing.holds(pred) for other, pred in question.means if other == cond) for cond in conds)


def missed(question: Question, all_: list[Moment]) -> Optional[int]:
    """The first line with which a thread lets the lock go while a signal is lacking, if none came without the lock
    before."""
    for number, it in enumerate(all_, FIRST):
        if it.line.verb in ("leave", "wait") and is_lacking(question, it.behind):
            return number
        if it.line.verb in SIGNALS and it.before.lock != it.line.seat:
            return None
    return None


def finding(question: Question, answer: Answer, run: Run) -> Finding:
    setting, log = question.setting, question.log
    all_ = moments(setting, list(run))
    end = all_[-1].behind if all_ else opening(setting)
    wrong = blame(setting, end, log[answer.misfit - FIRST]) if answer.misfit else None
    return Finding(question, answer, wrong, all_, end, counted(setting, log, list(run)), missed(question, all_))


def wrong_line(found: Finding) -> Step:
    assert found.answer.misfit is not None
    return found.question.log[found.answer.misfit - FIRST]


def ending(found: Finding) -> str:
    """The word for the end."""
    asleep, woken = found.counts.asleep, found.counts.woken
    if found.answer.holder:
        return "busy"
    if woken or not asleep:
        return "owed" if woken else "free"
    return "dead" if asleep == found.question.setting.seats else "open"


def ending_words(found: Finding) -> str:
    word, asleep = ending(found), found.counts.asleep
    if found.answer.holder:
        seat, since = found.answer.holder
        return f"busy{' at the end' * found.question.has_ended}, seat {seat} holds the lock since {since}"
    many = {"owed": f", {found.counts.woken} woken and not back", "dead": f", all {asleep} sleep",
            "open": f", {asleep} sleep{'s' * (asleep == 1)}", "free": ""}
    return word + many[word]


def reason_words(found: Finding) -> str:
    seat, holder = wrong_line(found).seat, found.answer.holder
    if found.reason == "held" and holder:
        return f"seat {seat} takes the lock, but seat {holder[0]} holds it since {holder[1]}"
    return {
        "range": "the header has no such seat, condition or code",
        "call": "until is no call of a mutex",
        "nolock": f"seat {seat} does this without the lock",
        "asleep": f"seat {seat} comes in, but it has not come back from its wait",
        "awake": f"seat {seat} comes back, but it does not wait",
        "reply": f"seat {seat} relied on what no longer held",
    }[found.reason or ""]


def never_waits_again(found: Finding) -> bool:
    many, again, _ = found.counts.overtaken
    return many >= ENOUGH_OVERTAKEN and not again


def finding_line(found: Finding) -> str:
    """What is found in one line, without a name."""
    many, counts = found.answer.unasked, found.counts
    unasked = f"{many} spurious wake-up{'s' * (many != 1)}, first at {found.answer.first}" if many else ""
    if found.reason:
        parts = [f"misfit at {found.answer.misfit}: {found.reason}, {reason_words(found)}", unasked]
    else:
        parts = ["fits" + f" with {unasked}" * (many > 0), ending_words(found)]
    signals = f"; served {counts.served}" * (counts.served > 0) + f", passed {counts.passed}" * (counts.passed > 0)
    parts += [f"unheard {counts.unheard[0]}, last at {counts.unheard[1]}" if counts.unheard[0] else "",
              f"missed at {found.missed}" if found.missed else "",
              f"crossed {counts.crossed[0]} at {counts.crossed[1]}" if counts.crossed[0] else ""]
    if never_waits_again(found):
        parts += [f"never waits again (0 of {counts.overtaken[0]} overtaken), first at {counts.overtaken[2]}"]
    return "; ".join(filter(None, parts[:2])) + signals + "".join(f"; {part}" for part in parts[2:] if part)


def finding_data(found: Finding, name: str) -> dict[str, Any]:
    """The same as JSON."""
    counts, (misfit, unasked, first, holder) = found.counts, found.answer
    back = dict(zip(("count", "again", "first"), counts.overtaken))
    data = {"file": name, "end": ending(found), "fits": not misfit, "ended": found.question.has_ended,
            "asleep": counts.asleep, "woken": counts.woken, "missed": found.missed, "served": counts.served,
            "passed": counts.passed, "overtaken": back, "spurious": {"count": unasked, "first": first},
            "unheard": dict(zip(("count", "last"), counts.unheard)),
            "crossed": dict(zip(("count", "last"), counts.crossed))}
    if misfit:
        data |= {"line": misfit, "reason": found.reason, "seat": wrong_line(found).seat}
    return data | ({"holder": holder[0], "since": holder[1]} if holder else {})


def finding_status(found: Finding) -> int:
    is_stuck = found.answer.holder is not None and not found.question.has_ended
    return int(found.reason is not None or found.missed is not None or is_stuck)
