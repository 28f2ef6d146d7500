"""The same scene under many kinds, in all orders of moves or in some."""

from __future__ import annotations

import functools
import random
from dataclasses import dataclass, field
from typing import Callable, Dict, Iterator, List, Optional, Sequence, Set, Tuple, Union

from .actor import Option
from .errors import OutOfRange
from .kinds import KINDS, number_of, number_of_wish
from .run import NO_SUCH_CALL, RIGHT, STUCK, WRONG, Run
from .scene import Made, name_of
from .scenes import play, played
from .stage import Choose, Way
from .tables import html_table, table

# The most runs of a kind.
MOST = 5_000
# Outcomes, the worst first.
ORDER = (NO_SUCH_CALL, WRONG, STUCK, RIGHT)
Orders = Union[str, int]
Ways = Iterator[Callable[[], Choose]]


@dataclass
class Finding:
    """What the runs under one kind found."""
    kind: str
    runs: int = 0
    # Runs by outcome, except those that were right.
    bad: Dict[str, int] = field(default_factory=dict)
    # Whether every order of moves and every wish was tried.
    is_whole: bool = False
    worst: Optional[Run] = None
    # Of all runs: the functions of programs that waited, and the conditions on which somebody waited, or signalled.
    waited: Set[str] = field(default_factory=set)
    waited_on: Set[str] = field(default_factory=set)
    signalled_on: Set[str] = field(default_factory=set)

    @property
    def example(self) -> Run:
        """The shortest run that went wrong, one with a misuse before others; else the first. With its history."""
        assert self.worst is not None, "at least one run is made"
        return self.worst

    @property
    def outcome(self) -> str:
        """The worst: "no such call", "wrong", "stuck" or "right"."""
        return next((word for word in ORDER if word in self.bad), RIGHT)

    @property
    def holds(self) -> bool:
        """Whether each run was right."""
        return not self.bad

    def add(self, run: Run) -> None:
        self.runs += 1
        self.waited |= run.waited
        self.waited_on |= run.waited_on
        self.signalled_on |= run.signalled_on
        if run.outcome != RIGHT:
            self.bad[run.outcome] = self.bad.get(run.outcome, 0) + 1
        if self.worst is None or _badness(run) < _badness(self.worst):
            self.worst = run


def _badness(run: Run) -> Tuple[int, bool, int]:
    """A run with a misuse says best what is wrong, and then the shortest one."""
    return ORDER.index(run.outcome), not run.is_misuse, len(run.story)


@dataclass
class Comparison:
    """What `compare` found: a finding for each kind. As a string it is a table, and in a notebook too."""
    name: str
    how: str
    findings: Dict[str, Finding]

    def __getitem__(self, kind: str) -> Finding:
        number_of(kind)
        return self.findings[kind]

    @property
    def breaks(self) -> List[str]:
        """The kinds under which some run didn't go right."""
        return [kind for kind, finding in self.findings.items() if not finding.holds]

    @property
    def holds(self) -> List[str]:
        """The kinds under which each run went right."""
        return [kind for kind, finding in self.findings.items() if finding.holds]

    def __str__(self) -> str:
        return table(self)

    def _repr_html_(self) -> str:
        return html_table(self)


def compare(made: Made, kinds: Sequence[str] = KINDS, orders: Orders = "all", wish: Optional[str] = None,
            most: int = MOST, seed: int = 0) -> Comparison:
    """Plays the scene under each kind. orders: "all" tries each order of moves, and at each release each wish that
    the kind leaves open, up to `most` runs of a kind; a number throws dice for that many runs, which `seed` makes
    repeatable; in "list" all arrive at once, in the order of the list. wish: this one in place of all. OutOfRange if
    one of these, or the scene, can't be taken.

    A run of a scene of generators costs some 0.5 ms, one of `Staged` one or two."""
    if orders not in ("all", "list") and not (isinstance(orders, int) and orders >= 1):
        raise OutOfRange(f'orders={orders!r}: "all", "list", or a number of runs')
    if most < 1:
        raise OutOfRange(f"most={most}: at least one run")
    number_of_wish(wish or "any")
    some = [kinds] if isinstance(kinds, str) else list(kinds)
    names: List[str] = []
    findings = {}
    for kind in some:
        number_of(kind)
        ways = _ways(orders, most, f"{seed} {kind}")
        findings[kind] = _finding(made, Way(kind, wish, is_short=True, is_kept=False), names, ways, most)
        findings[kind].is_whole &= orders == "all"
    return Comparison(name_of(made), f"{_told(orders)}, {'wish ' + wish if wish else 'all wishes'}", findings)


def _told(orders: Orders) -> str:
    return {"all": "all orders", "list": "in the order of the list"}.get(str(orders), f"{orders} random orders")


def _ways(orders: Orders, most: int, seed: str) -> Ways:
    if orders == "all":
        return all_orders(most + 1)
    if orders == "list":
        return iter([lambda: lambda found: found[0]])
    return (functools.partial(_dice, f"{seed} {number}") for number in range(int(orders)))


def _finding(made: Made, way: Way, names: List[str], ways: Ways, most: int) -> Finding:
    finding = Finding(way.kind, is_whole=True)
    for begin in ways:
        if finding.runs == most:
            finding.is_whole = False
            break
        run = played(made, way, names, begin)
        finding.add(run)
        if run.outcome == NO_SUCH_CALL or run.is_endless:
            finding.is_whole = False
            break
    # Once more, with its history.
    finding.worst = play(made, way.kind, finding.example.schedule, way.wish)
    return finding


def all_orders(most: int) -> Ways:
    """Each order of moves once, depth first: every run repeats the last one up to its last open choice, and there
    takes the next. At most `most`."""
    path: List[Tuple[int, int]] = []

    def begin() -> Choose:
        at = 0

        def choose(found: List[Option]) -> Option:
            nonlocal at
            if at == len(path):
                path.append((0, len(found)))
            at += 1
            return found[path[at - 1][0]]
        return choose

    for _ in range(most):
        yield begin
        _cut(path)
        if not path:
            return
        path[-1] = (path[-1][0] + 1, path[-1][1])


def _cut(path: List[Tuple[int, int]]) -> None:
    """Leaves the path up to its last choice that has more to try."""
    while path and path[-1][0] + 1 == path[-1][1]:
        path.pop()


def _dice(seed: str) -> Choose:
    chance = random.Random(seed)
    return lambda found: found[chance.randrange(len(found))]
