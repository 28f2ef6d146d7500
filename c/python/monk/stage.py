"""The driver of a scene: one monitor of the kernel, a seat for each program, and who moves next. No thread waits in it.

The driver says who moves. The kernel answers what a move does, and who goes on after it."""

from __future__ import annotations

from dataclasses import dataclass
from typing import Callable, Dict, List, Optional, Tuple

from .actor import Actor, Option, Over, Served
from .calls import Call, Test
from .errors import MonkError, NotNow, NotOfKind, OutOfRange, Spent
from .handle import SHAPES
from .kinds import RANKS, mode_of
from .monitor import Monitor
from .run import NO_SUCH_CALL, STUCK, WRONG, Run
from .scene import Scene, name_of, titles
from .shared import Shared, words_of

# The events of a seat. A program that spends them goes on and on.
BUDGET = 1024
MOST_CONDITIONS = SHAPES["conditions"][1]
# What the story says of a seat that has the turn: from the entry, and from elsewhere.
ARRIVALS = ("comes in", "goes on")
# At most one of the seats at these places has the turn.
PLACES_OF_WAITING = ("entry", "condition", "waiter", "signaller")

Choose = Callable[[List[Option]], Option]


class NewName(Exception):
    """A condition that wasn't known before: the run begins again with one more."""


@dataclass
class Way:
    """How a scene is played."""
    kind: str
    wish: Optional[str] = None
    # A call that gives nothing up is made at once: a program that arrives before it may as well arrive after it.
    is_short: bool = False
    # The run keeps its history, and the data at each event.
    is_kept: bool = True


class Stage:
    """The seats of one run, and the kernel's monitor. The names are those of the conditions that are known so
    far."""

    def __init__(self, scene: Scene, way: Way, names: List[str]) -> None:
        self.scene, self.way, self.names, self.mode = scene, way, names, mode_of(way.kind)
        self.is_automatic = self.mode == "automatic"
        conditions, flags = (0, len(names)) if self.is_automatic else (len(names), 0)
        self.monitor = Monitor(way.kind, len(scene.programs) + 1, conditions, flags, BUDGET)
        for name in [] if self.is_automatic else names:
            self.monitor.condition(name)
        seats = titles(scene.programs)
        self.actors = [Actor(name, self.monitor.seat(), program) for name, program in zip(seats, scene.programs)]
        self.queues: Dict[str, List[Actor]] = {name: [] for name in names}
        self.tests: Dict[str, Test] = {}
        # For each condition the last signal that found nobody: whose, and at which event.
        self.lost: Dict[str, Tuple[str, int]] = {}
        # The monitor of plain functions; and what is to be said of seats that went on though their test was false.
        self.staged: Optional[object] = None
        self.stale: Dict[str, str] = {}
        self.run, self.shared = Run(way.kind, seats, conditions=names), scene.shared or Shared(scene.programs, seats)
        self.make: Dict[str, Callable[[Actor, Call], None]] = {
            "enter": self._enter, "leave": self._leave, "wait": self._wait, "signal": self._signal,
            "signal_all": self._signal_all}

    def play(self, choose: Choose) -> Run:
        """Plays the run, and chooses each move from those that are possible."""
        run = self.run
        try:
            self._play(choose)
        except Over as over:
            run.outcome, run.who, run.why, run.at = over.outcome, over.who, over.why, len(run.story)
            run.is_misuse, run.is_endless = over.is_misuse, run.is_endless or over.is_endless
            self._blame()
        if self.way.is_kept:
            run.data = self.shared.words()
            run.history = self._history()
        return run

    def _play(self, choose: Choose) -> None:
        if self.way.is_kept:
            self.run.told.append(str(self.shared))
        for actor in self.actors:
            self._advance_outside(actor)
        while True:
            found = self.options()
            if not found:
                break
            self._move(*choose(found))
        self._test_end()

    def options(self) -> List[Option]:
        """Who may move next, and with which wish."""
        inside = [actor for actor in self.actors if actor.place == "inside"]
        if self.way.is_short and inside and not self._gives_up(inside[0]):
            return [(inside[0], "")]
        found: List[Option] = [(actor, "") for actor in self.actors if actor.place == "outside"]
        return found + [(actor, wish) for actor in inside for wish in self._wishes(actor)]

    def _wishes(self, actor: Actor) -> List[str]:
        """The wishes that its next call may have, so that another wish would let another seat go on."""
        if self.way.wish:
            return [self.way.wish]
        places = [other.place for other in self.actors]
        serves = actor.next is not None and actor.next.verb == "signal" and bool(self.queues.get(actor.next.name))
        stays = serves and self.mode in ("blocking", "quasi-blocking")
        waits = self._has_ready(actor) if self.is_automatic else serves or "waiter" in places
        there = {"entry": "entry" in places, "waiter": waits, "signaller": stays or "signaller" in places}
        ranks = {wish: rank for wish, rank in RANKS[self.way.kind].items() if there[wish] and self._gives_up(actor)}
        found = [wish for wish, rank in ranks.items() if rank == max(ranks.values())]
        return found if len(found) > 1 else [""]

    def _has_ready(self, actor: Actor) -> bool:
        """Automatic kinds: whether somebody waits whose test holds. (A wait whose own test holds lets nobody go on.)"""
        own = actor.next.until if actor.next and actor.next.verb == "wait" else None
        tests = [other.next.until for other in self.actors if other.place == "condition" and other.next]
        return not (own and _is_true(own)) and any(test is not None and _is_true(test) for test in tests)

    def _gives_up(self, actor: Actor) -> bool:
        """Whether its next call may let somebody else go on."""
        call = actor.next
        if call is None or call.verb == "signal_all" or (call.verb == "signal" and self.is_automatic):
            return False
        if call.verb != "signal" or self.mode == "immediate return":
            return True
        return self.mode != "non-blocking" and bool(self.queues.get(call.name))

    def _move(self, actor: Actor, wish: str) -> None:
        call = actor.next
        assert call is not None
        self._look_at_monitor(actor)
        self.run.moves.append(actor.name + (f"/{wish}" if wish else ""))
        if wish:
            actor.seat.wish(wish)
        try:
            self.make[call.verb](actor, call)
        except NotOfKind:
            raise Over(NO_SUCH_CALL, actor.name, f"{self.way.kind} has no {call.verb} ({call.name})") from None
        except Spent:
            self.run.is_endless = True
            raise Over(STUCK, actor.name, f"goes on and on: its {BUDGET} events are spent") from None
        except OutOfRange:
            raise
        except NotNow:
            raise Over(WRONG, actor.name, self._out_of_place(actor, call), is_misuse=True) from None
        except MonkError as fault:
            raise Over(WRONG, actor.name, str(fault)) from None
        self._go_on()

    def _look_at_monitor(self, actor: Actor) -> None:
        """A scene has one monitor: its programs don't name it, unless they are plain functions."""
        monitor = getattr(actor.steps, "monitor", None)
        self.staged = self.staged or monitor
        if monitor is not self.staged and monitor is not None:
            raise OutOfRange(f"{actor.name}, line {actor.steps.line}: this is a second Staged(), and a scene has one "
                             "monitor: give the same to all objects")

    def _out_of_place(self, actor: Actor, call: Call) -> str:
        first = actor.steps.first.get(actor.place, "")
        if actor.seat.has_signalled_out:
            first = f"its signal was the way out under {self.way.kind}"
        return f"line {actor.steps.line}: `{call.verb}` {actor.place}: {first}"

    def _go_on(self) -> None:
        """The seat that has the turn comes in."""
        for other in self.actors:
            if other.place in PLACES_OF_WAITING and other.seat.poll():
                self._tell(other, ARRIVALS[int(other.place != "entry")])
                self._note_stale(other)
                other.served.then = len(self.run.story)
                other.place = "inside"
                other.advance()

    def _tell(self, actor: Actor, words: str) -> None:
        self.run.story.append((actor.name, words))
        if self.way.is_kept:
            self.run.told.append(str(self.shared))

    def _enter(self, actor: Actor, _: Call) -> None:
        actor.seat.arrive()
        actor.place, actor.served = "entry", Served()

    def _leave(self, actor: Actor, call: Call) -> None:
        self._before_giving_up(actor, call)
        actor.seat.leave()
        actor.place = "outside"
        self._tell(actor, "leaves")
        self._advance_outside(actor)

    def _advance_outside(self, actor: Actor) -> None:
        """As `advance`, of a program that is outside: it may not change the data that are guarded."""
        before = self._guarded()
        actor.advance()
        after = self._guarded()
        if before != after:
            changed = ", ".join(name for name in after if before.get(name) != after[name]) or "the data"
            place = f"before line {actor.steps.line}" if actor.next else "after its last call"
            raise Over(WRONG, actor.name, f"changes {changed} outside the monitor, {place}", is_misuse=True)

    def _guarded(self) -> Dict[str, str]:
        if self.scene.guarded is None:
            return self.shared.words()
        found: Dict[str, str] = {}
        for it in self.scene.guarded:
            found.update(words_of(self.shared.named(it), it))
        return found

    def _note_stale(self, other: Actor) -> None:
        """Whether the test for which a seat waited was false when it went on. It is told if the run is stuck."""
        call = other.next
        if self.way.is_kept and other.place == "waiter" and call and call.until and not _is_true(call.until):
            self.stale[other.name] = f"{other.name}'s test was false when it went on (line {other.steps.line})"

    def _wait(self, actor: Actor, call: Call) -> None:
        number = self._number(actor, call.name)
        self.run.waited_on.add(call.name)
        self._before_giving_up(actor, call)
        if self.is_automatic:
            return self._wait_until(actor, call.name, number)
        actor.seat.start_wait(number)
        self.queues[call.name].append(actor)
        actor.place, actor.served = "condition", Served()
        self.run.waited.add(name_of(actor.program))
        self._tell(actor, f"waits on {call.name}")

    def _wait_until(self, actor: Actor, name: str, number: int) -> None:
        goes_on = actor.seat.start_wait_until(number)
        self._tell(actor, f"waits until {name}")
        actor.place = "inside" if goes_on else "condition"
        if goes_on:
            return actor.advance()
        self.run.waited.add(name_of(actor.program))

    def _signal_all(self, actor: Actor, call: Call) -> None:
        number = self._number(actor, call.name)
        self.run.signalled_on.add(call.name)
        if not self.is_automatic:
            actor.seat.broadcast(number)
            self._serve(actor, call, self.queues[call.name][:], "")
        actor.advance()

    def _signal(self, actor: Actor, call: Call) -> None:
        number = self._number(actor, call.name)
        self.run.signalled_on.add(call.name)
        if self.is_automatic:
            return actor.advance()
        served = self.queues[call.name][:1]
        if self._gives_up(actor):
            self._before_giving_up(actor, call)
        if self.mode == "immediate return":
            return self._signal_and_leave(actor, call, number)
        if actor.seat.start_signal(number):
            self._serve(actor, call, served, "")
            return actor.advance()
        actor.place = "signaller"
        self._serve(actor, call, served, "; and gives way")

    def _signal_and_leave(self, actor: Actor, call: Call, number: int) -> None:
        """What follows up to the program's leave is outside already, and that leave isn't made."""
        actor.seat.signal_leave(number)
        actor.place = "outside"
        self._serve(actor, call, self.queues[call.name][:1], "; and leaves")
        before = self.shared.words()
        actor.advance()
        if actor.next is None or actor.next.verb != "leave":
            return
        if self.shared.words() != before:
            place = f"before line {actor.steps.line}, after its signal"
            raise Over(WRONG, actor.name, f"changes the data {place}, which was the way out under {self.way.kind}")
        self._advance_outside(actor)

    def _serve(self, actor: Actor, call: Call, served: List[Actor], then: str) -> None:
        who = ": " + ", ".join(other.name for other in served) if served else ", where nobody waits"
        self._tell(actor, f"signals {call.name}{' to all' * (call.verb == 'signal_all')}{who}{then}")
        for other in served:
            self.queues[call.name].remove(other)
            other.place, other.served = "waiter", Served(actor.name, call.name, len(self.run.story))
        if not served:
            self.lost[call.name] = (actor.name, len(self.run.story))

    def _number(self, actor: Actor, name: str) -> int:
        """The number of the condition of that name."""
        if name in self.names:
            return self.names.index(name)
        if len(self.names) == MOST_CONDITIONS:
            where = f"{actor.name}, line {actor.steps.line}: {name!r} is one condition too many"
            raise OutOfRange(f"{where}: a monitor has {MOST_CONDITIONS}, {', '.join(self.names)}")
        self.names.append(name)
        raise NewName

    def _before_giving_up(self, actor: Actor, call: Call) -> None:
        self._test(self.scene.invariant, "the invariant", actor.name)
        if self.is_automatic:
            self._tell_flags(actor, call)

    def _tell_flags(self, actor: Actor, call: Call) -> None:
        """Automatic kinds: the tests are judged before the monitor is given up, and given to the kernel as flags."""
        if call.until is not None:
            self.tests[call.name] = call.until
        if call.verb == "wait" and call.name not in self.tests:
            remedy = actor.steps.untested.format(name=call.name, line=actor.steps.line)
            raise Over(NO_SUCH_CALL, actor.name, f"{self.way.kind} has no signals: {remedy}")
        held = [name for name in self.names if name in self.tests and self._holds(name, actor, call)]
        bits = sum(1 << self.names.index(name) for name in held)
        if bits != actor.seat.flags:
            actor.seat.flags = bits
            self._tell(actor, f"tells: {', '.join(held) or 'nothing'} holds")

    def _holds(self, name: str, actor: Actor, call: Call) -> bool:
        """Whether the test of a condition holds. All who wait there have to agree: the kernel has one flag for it."""
        own = [call.until] if call.verb == "wait" and call.name == name else []
        waiting = (other.next for other in self.actors if other.place == "condition" and other.on == name)
        tests = [test for test in (*own, *(it.until for it in waiting if it)) if test] or [self.tests[name]]
        answers = {bool(_answer(test, f"the test of {name}", actor.name)) for test in tests}
        if len(answers) > 1:
            why = f"two tests wait on {name}, and {self.way.kind} has one for each condition: name two conditions"
            raise Over(NO_SUCH_CALL, actor.name, f"{why} (line {actor.steps.line})")
        return answers.pop()

    def _test(self, test: Optional[Test], what: str, who: str) -> None:
        holds = _answer(test, what, who) if test else None
        if holds is not None and not holds:
            raise Over(WRONG, who, f"{what} doesn't hold")

    def _test_end(self) -> None:
        """Nobody can move: all must be through, or allowed to wait for ever."""
        may = set(self.scene.may_wait)
        waits = [actor for actor in self.actors if actor.waits() and not may & {actor.name, name_of(actor.program)}]
        if waits:
            where = ", ".join(f"{actor.name} waits on {actor.on}" for actor in waits)
            for actor in (it for it in self.actors if it.unyielded):
                raise Over(WRONG, actor.name, actor.forgotten(), is_misuse=True)
            raise Over(STUCK, "", f"nobody can go on: {where}")
        self._test(self.scene.end, "the end", "")

    def _blame(self) -> None:
        """Notes who came between the signal and the seat that it served; for a run that is stuck, the signals that
        found nobody."""
        if self.run.outcome == STUCK:
            stale = [self.stale[actor.name] for actor in self.actors if actor.waits() and actor.name in self.stale]
            self.run.between = ", ".join([*stale, *self._lost_signals()])
            return
        served = next((actor.served for actor in self.actors if actor.name == self.run.who), Served())
        if not served.by or not served.then:
            return
        between = enumerate(self.run.story[served.at:served.then - 1], served.at + 1)
        came = [f"{who} came in between ({number})" for number, (who, words) in between if words in ARRIVALS]
        who = ", ".join(came) or f"{served.by} itself went on"
        signalled = f"{served.by} signalled {served.on} ({served.at})"
        self.run.between = f"{signalled}, {who}, {self.run.who} went on ({served.then})"

    def _lost_signals(self) -> List[str]:
        on = {actor.on for actor in self.actors if actor.waits()}
        lost = [(name, who, at) for name, (who, at) in self.lost.items() if name in on]
        return [f"{who} signalled {name} ({at}) when nobody waited" for name, who, at in lost]

    def _history(self) -> str:
        """The history, read by the seat that is inside or has the turn, else by the spare seat. What that adds is
        left out, and so is the spare seat."""
        waiting = (actor for actor in self.actors if actor.waits() and actor.seat.poll())
        inside = (actor for actor in self.actors if actor.place == "inside")
        reader = next(inside, None) or next(waiting, None)
        head, *events = (reader.seat.history() if reader else self.monitor.history()).splitlines()
        words = head.split()
        words[3] = str(len(self.actors))
        return "\n".join([" ".join(words), *events[:len(self.run.story)]]) + "\n"

    def close(self) -> None:
        """Ends the programs, wherever they are. There would be a warning of a seat that is dropped inside."""
        for actor in self.actors:
            actor.steps.close()
            actor.seat.give()


def _is_true(test: Test) -> bool:
    """What a test says that isn't judged now: if it raises, the run will be over when it is."""
    try:
        return bool(test())
    except Exception:
        return False


def _answer(test: Test, what: str, who: str) -> object:
    """What the test answers. If it raises, the run is over."""
    try:
        return test()
    except AssertionError as fault:
        raise Over(WRONG, who, f"{what}: {fault or 'its assertion fails'}") from None
    except Exception as fault:
        raise Over(WRONG, who, f"{what}: {type(fault).__name__}: {fault}") from None
