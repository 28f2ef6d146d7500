"""A model of the ten kinds of monitor, written from the rules in docs/MONITORS.md. It shares nothing with monk.

An event is a list of words, as a history has them."""
from __future__ import annotations

from typing import Dict, Iterable, List, Set, Tuple

# Each kind's mode, and its priorities of entry, waiter and signaller.
KINDS = {
    "PB": ("blocking", 1, 3, 2),
    "NPB": ("blocking", 1, 2, 1),
    "PNB": ("non-blocking", 1, 2, 3),
    "NPNB": ("non-blocking", 1, 1, 2),
    "PQB": ("quasi-blocking", 1, 2, 2),
    "NPQB": ("quasi-blocking", 1, 1, 1),
    "PIR": ("immediate-return", 1, 2, 1),
    "NPIR": ("immediate-return", 1, 1, 1),
    "PIS": ("automatic", 1, 2, 1),
    "NPIS": ("automatic", 1, 1, 1),
}
EXPLICIT = ("blocking", "non-blocking", "quasi-blocking")
REASONS = ["range", "call", "turn", "place", "reply", "choice"]
CODES = {"buffer": 2, "book": 4, "shop": 4, "flags": 1}
PREDICATES = {"buffer": 2, "book": 2, "shop": 3, "flags": 32}
# The versions of a text that name the object.
VERSIONS = {"buffer": (1, 2), "book": (1, 2), "shop": (1, 2), "flags": (3,)}
NEXTS = ("stay", "entry", "waiter", "signaller", "until")
# Where an event's next begins in its words.
RELEASES = {"leave": 2, "wait": 3, "signal": 3, "signal-leave": 3, "until": 3, "signal-wait": 4}
# The modes that have a call, if not all of them do.
MODES_OF = {
    "wait": EXPLICIT + ("immediate-return",),
    "signal": EXPLICIT,
    "signal-leave": ("immediate-return",),
    "signal-wait": ("immediate-return",),
    "signal-all": ("non-blocking",),
    "until": ("automatic",),
}
Event = List[str]
# From a history's first line: how many seats and conditions there are, the object and its size.
Header = Tuple[int, int, str, int]


def listed(name: str, all_: Iterable[object]) -> str:
    """The name, and all of these after it."""
    return name + "".join(f" {x}" for x in all_)


def counted(n: int, does: str, do: str) -> str:
    """How many do something, by the words for one and for many."""
    return f"{['none', 'one'][n]} {does}" if n < 2 else f"{n} {do}"


class Thing:
    """A guarded object, by its numbers."""

    def __init__(self, name: str, state: List[int]) -> None:
        self.name, self.state = name, state

    @staticmethod
    def opening(name: str, size: int) -> List[int]:
        """The state at first."""
        return {"buffer": [size], "flags": [size, 0]}.get(name, [size, 0, 0])

    def holds(self, pred: int) -> bool:
        size, *rest = self.state
        if self.name == "buffer":
            return [len(rest) < size, len(rest) > 0][pred]
        if self.name == "flags":
            return bool(rest[0] & 1 << pred)
        one, two = rest
        if self.name == "book":
            return [two == 0 and one < size, one == 0 and two == 0][pred]
        return [one < size, one > 0 and two == 0, two == 2][pred]

    def words(self) -> str:
        """The state in words."""
        size, *rest = self.state
        if self.name == "buffer":
            return f"buffer of {size}:" + ("".join(f" {item}" for item in rest) or " empty")
        if self.name == "flags":
            return listed("bits set:", (bit for bit in range(32) if rest[0] >> bit & 1)) if rest[0] else "no bit set"
        one, two = rest
        if self.name == "book":
            return counted(one, "reads", "read") + ", " + counted(two, "writes", "write")
        return counted(one, "sits", "sit") + ", " + ["chair empty", "chair in use", "cut done"][two]

    def act(self, code: int, arg: int) -> Tuple[int, Thing]:
        """The reply, and the object after it."""
        size, *rest = self.state
        if self.name == "buffer":
            if code == 0:
                room = len(rest) < size
                return int(room), Thing(self.name, self.state + [arg] * room)
            return (rest[0] + 1, Thing(self.name, [size, *rest[1:]])) if rest else (0, self)
        if self.name == "flags":
            return (1, Thing(self.name, [size, arg])) if arg < 1 << size else (0, self)
        one, two = rest
        may = {
            "book": [two == 0 and one < size, one > 0, one == 0 and two == 0, two == 1],
            "shop": [one < size, one > 0 and two == 0, two == 1, two == 2],
        }[self.name][code]
        then = {
            "book": [(one + 1, two), (one - 1, two), (one, 1), (one, 0)],
            "shop": [(one + 1, two), (one - 1, 1), (one, 2), (one, 0)],
        }[self.name][code]
        return (1, Thing(self.name, [size, *then])) if may else (0, self)


class Monitor:
    """The state of a monitor of a kind after some events."""

    def __init__(self, kind: str, seats: int, conds: int, name: str, size: int) -> None:
        self.kind, self.seats, self.conds = kind, seats, conds
        self.mode, self.entry, self.waiter, self.signaller = KINDS[kind]
        self.thing = Thing(name, Thing.opening(name, size))
        self.waits: Dict[int, List[int]] = {c: [] for c in range(conds)}
        self.waiters: List[int] = []
        self.signallers: List[int] = []
        self.untils: List[Tuple[int, int]] = []
        self.inside: Set[int] = set()
        self.turn, self.begun = "open", False

    def ready(self) -> List[int]:
        return [s for s, p in self.untils if self.thing.holds(p)]

    def served(self, e: Event) -> List[int]:
        """Whom an event serves."""
        if e[0] in ("signal", "signal-leave", "signal-wait"):
            return self.waits[int(e[2])][:1]
        return self.waits[int(e[2])] if e[0] == "signal-all" else []

    def must_stay(self, e: Event) -> bool:
        return (e[0] == "signal" and not self.waits[int(e[2])]) or (e[0] == "until" and self.thing.holds(int(e[2])))

    def queues(self, e: Event) -> Tuple[List[int], List[int], List[int]]:
        """The queues that a release chooses from."""
        stepped = [int(e[1])] if e[0] == "signal" and self.waits[int(e[2])] else []
        return self.waiters + self.served(e), self.signallers + stepped, self.ready()

    def may(self, e: Event) -> List[str]:
        """Each next that is permitted."""
        if self.must_stay(e):
            return ["stay"]
        waiters, signallers, ready = self.queues(e)
        nexts, seat = [], int(e[1])
        if e[0] == "signal" and signallers[:1] == [seat] and self.waiter <= self.signaller:
            nexts.append("stay")
        may_pass = not waiters and not ready or self.waiter == self.entry
        if may_pass and (not signallers or self.signaller == self.entry):
            nexts.append("entry")
        if waiters and (not signallers or self.signaller <= self.waiter):
            nexts.append(f"waiter {waiters[0]}")
        if signallers and signallers[0] != seat and (not waiters or self.waiter <= self.signaller):
            nexts.append(f"signaller {signallers[0]}")
        if ready and self.mode == "automatic":
            nexts.append(f"until {ready[0]}")
        return nexts

    def reason(self, e: Event) -> int:
        """The first test that the event fails, from 1, or 0."""
        name, seat = e[0], int(e[1])
        at = RELEASES.get(name)
        named = [int(w) for w in e[at + 1 :]] if at else []
        count = {"wait": 1, "signal": 1, "signal-leave": 1, "signal-all": 1, "signal-wait": 2}.get(name, 0)
        conditions = e[2 : 2 + count]
        if any(s >= self.seats for s in [seat, *named]) or any(int(c) >= self.conds for c in conditions):
            return 1
        most = {"act": CODES, "until": PREDICATES}.get(name)
        if most and int(e[2]) >= most[self.thing.name]:
            return 1
        if name in MODES_OF and self.mode not in MODES_OF[name]:
            return 2
        wanted = "open" if name == "enter" else f"due {seat} {e[2]}" if name == "resume" else f"of {seat}"
        if self.turn != wanted:
            return 3
        if name == "enter":
            past = self.waiters or self.signallers or self.ready()
            if seat in self.inside or (past if e[2] == "free" else not self.begun):
                return 4
        if name == "act" and self.thing.act(int(e[2]), int(e[3]))[0] != int(e[4]):
            return 5
        return 6 if at and " ".join(e[at:]) not in self.may(e) else 0

    def take(self, e: Event) -> None:
        """Carries out an event that is allowed."""
        name, seat = e[0], int(e[1])
        at, stays = RELEASES.get(name), self.must_stay(e)
        self.begun = True
        if name == "enter":
            self.inside.add(seat)
        if name == "act":
            self.thing = self.thing.act(int(e[2]), int(e[3]))[1]
        served = self.served(e)
        if at or name == "signal-all":
            self.waiters, self.signallers, _ = self.queues(e)
        if served:
            self.waits[int(e[2])] = self.waits[int(e[2])][len(served) :]
        if name in ("wait", "signal-wait"):
            self.waits[int(e[-1 - len(e[at:])])].append(seat)
        if not at:
            self.turn = f"of {seat}"
            return
        kind, chosen = e[at], [int(w) for w in e[at + 1 :]]
        if kind == "waiter":
            self.waiters = self.waiters[1:]
        if kind == "signaller" or kind == "stay" and name == "signal" and not stays:
            self.signallers = self.signallers[1:]
        self.untils = [w for w in self.untils if not (kind == "until" and w[0] == chosen[0])]
        if name == "until" and kind != "stay":
            self.untils.append((seat, int(e[2])))
        if name in ("leave", "signal-leave"):
            self.inside.discard(seat)
        self.turn = {"stay": f"of {seat}", "entry": "open"}.get(kind) or f"due {chosen[0]} {kind}"

    def told(self, steps: List[int]) -> List[str]:
        """The lines of the situation. The object has refused these steps up to there."""
        ranks = [self.entry, self.waiter] + ([self.signaller] if self.mode in EXPLICIT else [])
        lines = [listed(f"kind: {self.kind} {self.mode}", ranks), f"turn: {self.turn}"]
        lines.append(listed("inside:", sorted(self.inside)))
        lines.append(listed("data:", self.thing.state) + f" ({self.thing.words()})")
        if steps:
            lines.append(listed("refused:", steps[:10]) + (f" and {len(steps) - 10} more" if steps[10:] else ""))
        if self.mode == "automatic":
            return lines + ["until:" + ",".join(f" {s} {p}" for s, p in self.untils), listed("ready:", self.ready())]
        lines += [listed(f"condition {c}:", self.waits[c]) for c in range(self.conds)]
        lines.append(listed("waiter:", self.waiters))
        return lines + ([listed("signaller:", self.signallers)] if self.mode in EXPLICIT else [])


def verdict(kind: str, header: Header, events: List[Event]) -> Tuple[str, Monitor, int]:
    """What an audit says about the events under a kind, the monitor before the fault or at the end, and the reason."""
    monitor = Monitor(kind, *header)
    for step, e in enumerate(events, 1):
        reason = monitor.reason(e)
        if reason:
            return f"forbidden {step} {reason} {REASONS[reason - 1]}", monitor, reason
        monitor.take(e)
    return f"legal {len(events)}", monitor, 0


def explained(kind: str, header: Header, events: List[Event]) -> List[str]:
    """What an explanation says, but for its last line if it is `why`."""
    said, monitor, reason = verdict(kind, header, events)
    step = int(said.split()[1])
    refused = [n for n, e in enumerate(events[: step - 1 if reason else step], 1) if e[0] == "act" and e[4] == "0"]
    if not reason:
        return [said, *monitor.told(refused)]
    e = events[step - 1]
    lines = [said, f"line: {step + 1}", "event: " + " ".join(e), *monitor.told(refused)]
    if reason == 5:
        lines.append(f"reply: {monitor.thing.act(int(e[2]), int(e[3]))[0]}")
    if reason == 6:
        fronts = [(name, queue[0]) for name, queue in zip(("waiter", "signaller", "until"), monitor.queues(e)) if queue]
        lines += ["fronts:" + ",".join(f" {name} {seat}" for name, seat in fronts), "may: " + ", ".join(monitor.may(e))]
    return lines
