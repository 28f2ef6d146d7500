"""A model of the data of a page: what monk page says about a history, step by step, by models/monitor.py."""
from typing import Any

from monitor import KINDS, RELEASES, Header, Monitor, Thing, explained, verdict

# The most steps that a page shows if no window is named.
MOST_SHOWN = 200
Event = list[str]
Data = dict[str, Any]


def choice_of(monitor: Monitor, event: Event) -> Data | None:
    """What a release chooses from, and what it may choose."""
    if event[0] not in RELEASES:
        return None
    names = ("waiter", "signaller", "until")
    fronts = [[name, queue[0]] for name, queue in zip(names, monitor.queues(event)) if queue]
    return {"fronts": fronts, "may": monitor.may(event)}


def queues_of(monitor: Monitor) -> Data:
    """The queues that the kind has; null for the others."""
    if monitor.mode == "automatic":
        untils = [[seat, predicate] for seat, predicate in monitor.untils]
        return {"conditions": None, "waiter": None, "signaller": None, "until": untils, "ready": monitor.ready()}
    conditions = [list(monitor.waits[condition]) for condition in range(monitor.conds)]
    signallers = None if monitor.mode == "immediate-return" else list(monitor.signallers)
    waits = {"conditions": conditions, "waiter": list(monitor.waiters), "signaller": signallers}
    return {**waits, "until": None, "ready": None}


def standing(monitor: Monitor) -> Data:
    """The state of the monitor."""
    thing: Thing = monitor.thing
    return {
        "turn": monitor.turn,
        "inside": sorted(monitor.inside),
        "state": list(thing.state),
        "data": thing.words(),
        **queues_of(monitor),
    }


def steps_of(monitor: Monitor, events: list[Event], before: int, last: int) -> list[Data]:
    """The situation after `before` events, and each step from there to the last that is allowed."""
    steps: list[Data] = []
    for number in range(last + 1):
        choice = None
        if number:
            event = events[number - 1]
            if monitor.reason(event):
                break
            choice = choice_of(monitor, event)
            monitor.take(event)
        if number >= before:
            said = " ".join(events[number - 1]) if number > before else None
            steps.append({"event": said, "choice": choice if said else None, **standing(monitor)})
    return steps


def blame_of(header: Header, kind: str, events: list[Event], why: str) -> Data | None:
    """What is wrong with the first event that is forbidden, if one is."""
    said, monitor, reason = verdict(kind, header, events)
    if not reason:
        return None
    step = int(said.split()[1])
    event = events[step - 1]
    replies = reason == 5
    return {
        "step": step,
        "event": " ".join(event),
        "reply": monitor.thing.act(int(event[2]), int(event[3]))[0] if replies else None,
        "choice": choice_of(monitor, event) if reason == 6 else None,
        "why": why,
    }


def window_of(shown: int, first: int | None, last: int | None) -> tuple[int, int]:
    """How many events come before the window, and the last event that it has."""
    until = shown if last is None else min(shown, last)
    if first is None:
        return (max(until - MOST_SHOWN, 0), until) if last is None else (0, until)
    return first - 1, until


def page_of(text: str, whys: dict[str, str], first: int | None = None, last: int | None = None) -> Data:
    """The data of the page of a history. The sentences, by kind, are given: no model has them."""
    line, *rest = text.splitlines()
    _, version, kind, seats, conds, name, size = line.split()
    header = (int(seats), int(conds), name, int(size))
    events = [it.split() for it in rest]
    said, _, reason = verdict(kind, header, events)
    shown = int(said.split()[1]) if reason else len(events)
    before, until = window_of(shown, first, last)
    ranks = explained(kind, header, events)[3 if reason else 1].split()[3:]
    blame = blame_of(header, kind, events, whys.get(kind, "")) if reason else None
    return {
        "page": 1,
        "version": int(version),
        "kind": kind,
        "mode": KINDS[kind][0],
        "ranks": " ".join(ranks),
        "seats": header[0],
        "conditions": header[1],
        "object": name,
        "size": header[3],
        "events": len(events),
        "before": before,
        "verdict": said,
        "steps": steps_of(Monitor(kind, *header), events, before, until),
        "forbidden": blame if blame and before < blame["step"] <= until else None,
        "kinds": [{"kind": it, "verdict": verdict(it, header, events)[0], "why": whys.get(it)} for it in KINDS],
    }
