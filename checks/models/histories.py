"""Random histories, most of them legal up to an event that may be wrong in any way."""
from __future__ import annotations

from random import Random
from typing import List, Optional, Tuple

from monitor import CODES, KINDS, NEXTS, PREDICATES, REASONS, RELEASES, VERSIONS, Event, Header, Monitor


def erased(e: Event) -> Tuple[Tuple[str, ...], ...]:
    """The lines that a recorder writes for an event."""
    name, seat, at = e[0], e[1], RELEASES.get(e[0])
    if name == "signal-leave":
        return (("signal", seat, e[2]), ("leave", seat))
    if name == "signal-wait":
        return (("signal", seat, e[2]), ("wait", seat, e[3]))
    if name in ("enter", "resume"):
        return ((name, seat),)
    return (("broadcast" if name == "signal-all" else name, *e[1:at]),)


def any_predicate(chance: Random, name: str, wrong: float = 0.1) -> int:
    """A predicate of the object, mostly one of the first if it has many, and seldom one that it doesn't have."""
    most = 3 if name == "flags" and chance.random() < 0.8 else PREDICATES[name]
    return chance.randrange(most + (chance.random() < wrong))


def any_code(chance: Random, name: str, wrong: float = 0.1) -> int:
    """An operation of the object, and seldom one that it doesn't have."""
    return chance.randrange(CODES[name] + (chance.random() < wrong))


def any_event(chance: Random, monitor: Monitor, version: int) -> Event:
    """An event of any kind, right or wrong."""
    seat, cond = chance.randrange(monitor.seats + (chance.random() < 0.1)), chance.randrange(max(1, monitor.conds))
    word = chance.choice(NEXTS)
    next_: List[object] = [word] if word in ("stay", "entry") else [word, chance.randrange(monitor.seats)]
    name = monitor.thing.name
    made: List[List[object]] = [
        ["enter", seat, chance.choice(("free", "handed"))],
        ["act", seat, any_code(chance, name), chance.randrange(9), chance.randrange(3)],
        ["leave", seat, *next_],
        ["wait", seat, cond, *next_],
        ["signal", seat, cond, *next_],
        ["signal-leave", seat, cond, *next_],
        ["until", seat, any_predicate(chance, name), *next_],
        ["resume", seat, chance.choice(("waiter", "signaller", "until"))],
    ]
    if version >= 2:
        made.append(["signal-all", seat, cond])
        made.append(["signal-wait", seat, cond, chance.randrange(max(1, monitor.conds)), *next_])
    return [str(w) for w in chance.choice(made)]


def right_event(chance: Random, monitor: Monitor, version: int) -> Optional[Event]:
    """An event that is allowed, or none."""
    if monitor.turn.startswith("due"):
        _, seat, queue = monitor.turn.split()
        return ["resume", seat, queue]
    for _ in range(200):
        e = any_event(chance, monitor, version)
        if monitor.turn.startswith("of"):
            e[1] = monitor.turn.split()[1]
        if monitor.reason(e) in (5, 6):
            if e[0] == "act":
                e[4] = str(monitor.thing.act(int(e[2]), int(e[3]))[0])
            else:
                e = e[: RELEASES[e[0]]] + chance.choice(monitor.may(e)).split()
        if not monitor.reason(e):
            return e
    return None


def wrong_event(chance: Random, monitor: Monitor, version: int, wanted: int) -> Optional[Event]:
    """An event that first fails that test, or none."""
    for _ in range(100):
        e = any_event(chance, monitor, version)
        # in most cases it is at least of the seat whose turn it is
        if monitor.turn.startswith("of") and chance.random() < 0.7:
            e[1] = monitor.turn.split()[1]
        if monitor.reason(e) == wanted:
            return e
    return None


def history(chance: Random, kind: str, name: str) -> Tuple[int, Header, List[Event]]:
    """A version, a header without it, and events, legal to the end or up to one that fails a test chosen at random."""
    version, seats = chance.choice(VERSIONS[name]), chance.randrange(1, 5)
    conds = 0 if KINDS[kind][0] == "automatic" and chance.random() < 0.5 else chance.randrange(1, 4)
    header = (seats, conds, name, chance.randrange(1, 4))
    monitor, events = Monitor(kind, *header), []
    wanted, long = chance.randrange(len(REASONS) + 1), chance.randrange(60)
    for step in range(2 * long):
        wrong = wrong_event(chance, monitor, version, wanted) if wanted and step >= long else None
        if wrong:
            # what follows the first fault is read, and changes nothing
            events += [wrong, *(any_event(chance, monitor, version) for _ in range(chance.randrange(3)))]
            break
        e = right_event(chance, monitor, version)
        if e is None:
            break
        events.append(e)
        monitor.take(e)
    return version, header, events
