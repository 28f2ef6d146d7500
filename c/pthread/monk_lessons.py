"""What a program relies on, by the kinds under which it was right and wrong. Part of monk-try."""
from collections import Counter
from typing import Counter as Counts, Dict, List, NamedTuple, Optional, Sequence

from monk_runs import CANT, HUNG, LATE, OK, WRONG, Result

KINDS = ["PB", "NPB", "PNB", "NPNB", "PQB", "NPQB", "PIR", "NPIR"]
# The kinds under which a signal gives the monitor up.
GIVE_UP = ["PB", "NPB", "PQB", "NPQB"]
# Rows of runs under Mesa's rule that have names of their own.
UNASKED, TURNS = "unasked", "turns"
# How monk-run mends a program (--mend).
BROADCASTS, WAKES_SLEEPERS = 1, 2


class Cell(NamedTuple):
    kind: str
    wish: str
    results: List[Result]
    row: str = ""                # UNASKED: some waits wake unasked; TURNS: one thread runs at a time, and it repeats

    def count(self, what: str) -> int:
        return sum(result.what == what for result in self.results)

    def count_bad(self) -> int:
        return self.count(WRONG) + self.count(HUNG)

    def is_bad(self) -> bool:
        return self.count_bad() > 0

    def with_hung(self) -> "Cell":
        """The cell whose late runs are known to hang."""
        return self._replace(results=[it._replace(what=HUNG, why="it runs for ever") if it.what == LATE else it
                                      for it in self.results])

    def first(self, *whats: str) -> Optional[Result]:
        return next((result for result in self.results if result.what in whats), None)


class Unasked(NamedTuple):
    """Runs under Mesa's rule whose waits wake unasked, and the waits at which that makes the program go wrong."""
    cells: Sequence[Cell] = ()
    places: Sequence[str] = ()


class Repeats(NamedTuple):
    """A cell with wrong runs, repeated: as it was, and as often with each mend."""
    kind: str = ""               # nothing: no run went wrong
    runs: int = 0
    bad: int = 0                 # of those that were as before
    mended: Dict[int, bool] = {} # for each mend under which no run was late, whether all were right

    def is_seldom(self) -> bool:
        """Whether too few went wrong again to learn from what is right."""
        return 2 * self.bad < self.runs


class Lesson(NamedTuple):
    name: str
    text: str


class Facts:
    """What was seen in all runs."""

    def __init__(self, cells: List[Cell], plain: Counts[str], repeats: Repeats, unlocks: List[str],
                 has_waits: bool, unasked: Unasked = Unasked()) -> None:
        self.cells, self.plain, self.repeats, self.mended = cells, plain, repeats, repeats.mended
        self.has_waits, self.unasked = has_waits, unasked
        self.forgotten_unlocks = unlocks        # who ended inside, in a sentence each
        self.by_kind: Dict[str, Counts[str]] = {}
        for cell in cells:
            ends = [result.what for result in cell.results if cell.row != TURNS or result.what in (OK, WRONG, HUNG)]
            self.by_kind.setdefault(cell.kind, Counter()).update(ends)

    def having(self, *whats: str) -> List[str]:
        """The kinds under which some run ended in one of these ways, in the order of KINDS."""
        return [kind for kind in KINDS if kind in self.by_kind and any(self.by_kind[kind][what] for what in whats)]

    def bad(self) -> List[str]:
        return self.having(WRONG, HUNG)

    def fine(self) -> List[str]:
        return [kind for kind in self.having(OK) if kind not in self.having(WRONG, HUNG, LATE)]


def untried(facts: Facts) -> Optional[Lesson]:
    if facts.having(OK, WRONG, HUNG):
        return None
    return None if facts.having(LATE) else Lesson("not run", "It can't be run under any of these kinds.")


def unasked(facts: Facts) -> Optional[Lesson]:
    """A wait without a loop, which only an unasked wake-up shows, but for runs that seldom go wrong again."""
    bad = sum(cell.count_bad() for cell in facts.unasked.cells)
    is_right_else = "NPNB" not in facts.bad()
    if not bad or not (is_right_else or facts.unasked.places and facts.repeats.is_seldom()):
        return None
    places = f" at {', '.join(facts.unasked.places)}" if facts.unasked.places else ""
    count = sum(len(cell.results) for cell in facts.unasked.cells)
    return Lesson("unasked", f"Wrong in {bad} of {count} runs in which waits wake unasked, as POSIX and C++ allow,"
                  f" {'right' if is_right_else else 'and seldom'} under NPNB else: the wait{places} isn't in a loop that"
                  " tests again. Write `while` for `if`.")


def late(facts: Facts) -> Optional[Lesson]:
    if facts.bad() or not facts.having(LATE):
        return None
    return Lesson("late", f"Under {' '.join(facts.having(LATE))} it still ran at the limit, also alone and with a longer"
                  " one. It is slow there (give more --seconds), or it looks again and again for what doesn't come"
                  " true, as with waits that have a time limit.")


def nothing(facts: Facts) -> Optional[Lesson]:
    if facts.bad() or facts.has_waits or facts.having(LATE):
        return None
    return Lesson("nothing", f"Right under {' '.join(facts.fine())}. But no thread waited in a monitor, so nothing was"
                  " tried.")


def right(facts: Facts) -> Optional[Lesson]:
    if facts.bad():
        return None
    relies = ": in these runs it relied neither on who goes on at a signal nor on who comes in first."
    if facts.plain[OK] < sum(facts.plain.values()):
        relies = ", though plain runs go wrong: the fault isn't one of waiting and signalling."
    if facts.unasked.cells:
        relies += " It is right too where waits wake unasked."
    return Lesson("right", f"Right under {' '.join(facts.fine())}{relies}")


def unlock(facts: Facts) -> Optional[Lesson]:
    if not facts.forgotten_unlocks:
        return None
    return Lesson("unlock", f"{facts.forgotten_unlocks[0]}: a return without an unlock.")


def seldom(facts: Facts) -> Optional[Lesson]:
    """Runs that went wrong, and then were right as often: a mend would have seemed to help."""
    again = facts.repeats
    if not again.kind or not again.is_seldom():
        return None
    bad, runs = sum(facts.by_kind[again.kind][what] for what in (WRONG, HUNG)), sum(facts.by_kind[again.kind].values())
    return Lesson("seldom", f"Wrong in {bad} of {runs} runs under {again.kind}, and in {again.bad} of {again.runs} when"
                  " these were repeated: too seldom to say why. Repeat it with a greater -n, or give --check if right"
                  " outputs differ.")


USE_BROADCAST = ("It is right when each signal is made a broadcast: a signal wakes a thread that can't use it."
                 " Signal another condition, or broadcast.")


def preferred(facts: Facts, kind: str) -> str:
    """The wish that it takes to go wrong, if it isn't wrong under each."""
    wishes = [cell.wish for cell in facts.cells if cell.kind == kind and cell.is_bad()]
    return " with entry preferred" if wishes and "waiter" not in wishes else ""


def mesa(facts: Facts) -> Optional[Lesson]:
    wrong = [kind for kind in ("PNB", "NPNB") if kind in facts.bad()]
    if "PB" not in facts.fine() or not wrong:
        return None
    seen = f"Right under Hoare's rule (PB), wrong under Mesa's ({wrong[-1]}){preferred(facts, wrong[-1])}"
    if facts.mended.get(BROADCASTS):
        return Lesson("broadcast", f"{seen}. {USE_BROADCAST}")
    between = "" if "PNB" in facts.bad() else ": another thread may come in between (it never can under PNB)"
    return Lesson("if", f"{seen}: a woken thread relies on what held at the signal{between}."
                  " Write `while` for `if` at its wait.")


def hand_over(facts: Facts) -> Optional[Lesson]:
    bad, given_up = facts.bad(), [kind for kind in GIVE_UP if kind in facts.bad()]
    if not given_up or "PNB" in bad or "NPNB" in bad or "NPNB" not in facts.fine():
        return None
    goes_on = " ".join(kind for kind in ("PNB", "NPNB") if kind in facts.fine())
    return Lesson("hand-over", f"Right where the signaller goes on ({goes_on}: pthreads), wrong where it hands the"
                  f" monitor over ({' '.join(given_up)}): the code after a signal relies on what held before it, or"
                  " the woken thread waits for the signaller to end. A program of pthreads may do so.")


def wrong_under(facts: Facts) -> str:
    return f"Wrong under {' '.join(facts.bad())}"


def broadcast(facts: Facts) -> Optional[Lesson]:
    return Lesson("broadcast", f"{wrong_under(facts)}. {USE_BROADCAST}") if facts.mended.get(BROADCASTS) else None


def forgotten(facts: Facts) -> Optional[Lesson]:
    if not facts.mended.get(WAKES_SLEEPERS):
        return None
    return Lesson("signal", f"{wrong_under(facts)}. It goes on when all are woken after all have gone to sleep: a"
                  " thread slept though what it waits for held. A signal is forgotten, goes to the wrong condition, or"
                  " comes before its wait (a test without the lock).")


def deadlock(facts: Facts) -> Optional[Lesson]:
    if facts.having(WRONG) or facts.mended.get(WAKES_SLEEPERS, True):
        return None
    return Lesson("deadlock", f"It hangs under {' '.join(facts.bad())}, also when all are woken: what these threads"
                  " wait for doesn't come true. A deadlock, or a change that is forgotten, not only its signal.")


def hoare(facts: Facts) -> Optional[Lesson]:
    if "PB" not in facts.bad():
        return None
    return Lesson("hoare", f"Wrong under Hoare's rule too ({' '.join(facts.bad())}): what a wait waits for need not"
                  " hold even at the signal; or the fault isn't one of waiting.")


def elsewhere(facts: Facts) -> Optional[Lesson]:
    """The lesson if too few kinds were tried to say more."""
    right_under = f", right under {' '.join(facts.fine())}" if facts.fine() else ""
    return Lesson("order", f"{wrong_under(facts)}{right_under}: it relies on an order that not all of these kinds keep;"
                  " or the fault isn't one of waiting.")


FINDERS = (untried, unasked, late, nothing, right, unlock, seldom, mesa, hand_over, broadcast, forgotten, deadlock,
           hoare, elsewhere)


def lesson(facts: Facts) -> Lesson:
    name, text = next(filter(None, (find(facts) for find in FINDERS)))
    cant, slow = facts.having(CANT), facts.having(LATE)
    if cant and name != "not run":
        text += f" (Not run to its end under {' '.join(cant)}: the program does what these kinds don't have.)"
    if slow and name != "late":
        text += f" (Late under {' '.join(slow)}: some runs still ran at the limit; --seconds raises it.)"
    return Lesson(name, text)
