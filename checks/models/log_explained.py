"""What `monk explain` says of a log below the line of `fit`: the lines to look at, and where each seat is. It shares
nothing with monk."""
from __future__ import annotations

from typing import Iterator, Optional

from judge_search import SIGNALS, TAKES, words_of
from log_found import FIRST, Finding, Question, finding_line, never_waits_again, wrong_line

MOVES = (*TAKES, "leave", "wait")
REASONS = {
    "range": "the header has no such seat, condition or code",
    "call": "until is no call of a mutex with condition variables; `monk complete --kind PIS` judges it",
    "held": "another seat holds the lock; did the recorder give two threads one seat?",
    "nolock": "the seat doesn't hold the lock; does another thread unlock it, or did it wait without the lock?",
    "asleep": "the seat hasn't come back from its wait; do two threads have its seat?",
    "awake": "the seat doesn't wait; do two threads have its seat?",
    "reply": "the object replies otherwise: the seat relied on what no longer held",
}
BACK, WOKE = "the seat came back here, and didn't test again", "this woke it"
UNASKED = "the seat came back here though nobody sent a signal; it has to test again"
CAME_IN = "the seat came in here; it tested before it had the lock, or not at all"
BETWEEN = "this seat came in between, so what was signalled could change: `if` where `while` is needed"
HELD, WAITS = "the lock is held since here", "it waits here, and no line tells that it is back"
LAST = "this is the last that it did before"
MISSED = "the lock is let go, and what a sleeper waits for holds, but nobody was signalled"
STUCK = "this visit has no end: if the program hangs, an unlock is missing"
UNHEARD = "this is the last signal that found nobody; if a thread sleeps for ever, it may have come too early"
CROSSED = "this signal came without the lock, between a thread's test and its wait: the thread can sleep for ever"
NEVER = ("a thread that waits there too came and went before this one was back, and it didn't wait again: "
         "is its test an `if`?")


def site(question: Question, number: int) -> str:
    """The place in the source of the line with that number in the file, if the file beside the log says it."""
    place = question.places[number - FIRST] if number - FIRST < len(question.places) else 0
    return f" ({site_name(place)})" if place else ""


def site_name(place: int) -> str:
    return f"made.c:{10 + place}"


def about(found: Finding, number: int, sentence: str) -> str:
    words = words_of(found.question.log[number - FIRST])
    return f"line {number}: {words}{site(found.question, number)}: {sentence}"


def last_of(found: Finding, seat: int, verbs: tuple[str, ...]) -> Optional[int]:
    """The last line of the seat with such a verb, of those that fit."""
    lines = [number for number, it in enumerate(found.moments, FIRST) if it.line.seat == seat and it.line.verb in verbs]
    return lines[-1] if lines else None


def waker(found: Finding, seat: int) -> Optional[int]:
    """The signal that ended the seat's last wait, if one did."""
    waited = last_of(found, seat, ("wait",)) or FIRST
    return next((number for number, it in enumerate(found.moments, FIRST) if number > waited and it.line.verb in SIGNALS
                 and it.before.places[seat][0] == "waiting" and it.behind.places[seat][0] == "woken"), None)


def reliance(found: Finding, seat: int) -> Iterator[str]:
    """Why its act has another reply."""
    back, log = last_of(found, seat, tuple(TAKES)), found.question.log
    assert back is not None
    by = waker(found, seat) if log[back - FIRST].verb == "resume" else None
    if by is None:
        yield about(found, back, CAME_IN if log[back - FIRST].verb == "enter" else UNASKED)
        return
    yield about(found, back, BACK)
    yield about(found, by, WOKE)
    between = next((number for number in range(by + 1, back) if log[number - FIRST].verb in TAKES), None)
    yield about(found, between, BETWEEN) if between else (
        f"nobody came in between lines {by} and {back}: the signal came though nothing was there for the seat")


def causes_of_misfit(found: Finding, misfit: int) -> Iterator[str]:
    seat, reason = wrong_line(found).seat, found.reason or ""
    yield about(found, misfit, REASONS[reason])
    if reason == "reply":
        yield from reliance(found, seat)
    if reason == "held" and found.answer.holder:
        yield about(found, found.answer.holder[1], HELD)
    waited, did = last_of(found, seat, ("wait",)), last_of(found, seat, (*MOVES, *SIGNALS, "act"))
    if reason == "asleep" and waited:
        yield about(found, waited, WAITS)
    if reason in ("nolock", "awake") and did:
        yield about(found, did, LAST)


def causes_at_end(found: Finding) -> Iterator[str]:
    counts, holder = found.counts, found.answer.holder
    never = counts.overtaken[2] if never_waits_again(found) else None
    rows = ((found.missed, MISSED), (holder[1] if holder else None, STUCK), (counts.unheard[1], UNHEARD),
            (counts.crossed[1], CROSSED), (never, NEVER))
    return (about(found, number, sentence) for number, sentence in rows if number)


def place_of(found: Finding, seat: int) -> str:
    """Where the seat is at the end, and since which line."""
    (place, cond), since, behind = found.end.places[seat], last_of(found, seat, MOVES), ""
    if place == "woken":
        since = waker(found, seat)
    words = {"outside": "outside", "active": "holds the lock", "waiting": f"sleeps on condition {cond}",
             "ran out": "its time ran out, and it isn't back; it waits"}
    if place == "woken" and since:
        words["woken"] = f"woken by seat {found.question.log[since - FIRST].seat}, and not back"
    if place == "waiting":
        many = sum(it.line.verb in SIGNALS and it.line.numbers[0] == cond and number > (since or 0)
                   for number, it in enumerate(found.moments, FIRST))
        behind = ("; no signal came there since", "; one signal came there since, and woke another",
                  f"; {many} signals came there since, and woke others")[min(many, 2)]
    line = f" since line {since}{site(found.question, since)}" if since else ""
    return f"seat {seat}: {words[place]}{line}{behind}"


def explained(found: Finding) -> str:
    """The text of an explanation."""
    misfit = found.answer.misfit
    causes = causes_of_misfit(found, misfit) if misfit else causes_at_end(found)
    seats = (place_of(found, seat) for seat in range(found.question.setting.seats))
    return "".join(f"{line}\n" for line in (finding_line(found), *causes, *seats))
