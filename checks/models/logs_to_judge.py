"""Logs to be judged: all short ones, and random ones with what is asked of them."""
from __future__ import annotations

import itertools
from collections.abc import Iterator
from random import Random
from typing import Optional

from judge_search import SIGNALS, TAKES, Setting, State, Step, after, behind, opening, step_of, told
from log_found import Question, blame
from monitor import CODES, PREDICATES, Thing

# How many lines a random log has at most before one that is wrong, how many follow that, and of how many lines the
# wrong one is chosen.
LINES, BEHIND, TRIED = 30, 4, 40
# How late lines with a verb come. Each log draws one of these for each verb. So in some logs many sleep, and some have
# wake-ups that nobody sent.
LATE = (0.2, 0.5, 1, 2)
# The same in a log in which many sleep, for whom a signal may choose.
SLEEPY = {"wait": 0.2, "enter": 0.4, "signal": 0.5, "resume": 1.5, "lapse": 2, "leave": 2, "broadcast": 2}
# How often a wait of the run that a random log tells runs out at once.
RUN_OUT = 0.1
# How often the line that is wrong comes straight behind the last `resume`.
RETURNED = 0.3
# Of so many random logs one has a thread that is overtaken again and again.
RARE = 500


def lines_over(setting: Setting, x: State, arg: int = 7) -> list[Step]:
    """Each line, but only those acts that the holder may do."""
    seats, thing = range(setting.seats), Thing(setting.object, list(x.data))
    lines = [Step(verb, seat) for verb in (*TAKES, "leave") for seat in seats]
    lines += [Step(verb, seat, (cond,)) for verb in ("wait", *SIGNALS) for seat in seats
              for cond in range(setting.conds)]
    return lines + [Step("act", x.lock, (code, arg, thing.act(code, arg)[0])) for code in range(CODES[setting.object])
                    if x.lock is not None]


def all_logs(setting: Setting, longest: int) -> Iterator[list[Step]]:
    """Each log of `longest` lines without acts, and each shorter one that ends with its misfit. Seat 0 comes first."""
    left: list[tuple[list[Step], dict[State, int]]] = [([], {opening(setting): 0})]
    while left:
        begun, runs = left.pop()
        for log in ([*begun, line] for line in lines_over(setting, opening(setting)) if begun or line.seat == 0):
            then = behind(setting, runs, log[-1])
            if not then or len(log) == longest:
                yield log
            else:
                left.append((log, then))


def any_line(chance: Random, setting: Setting) -> Step:
    """A line, right or wrong, and seldom one that the header doesn't have."""
    def below(many: int) -> int:
        return chance.randrange(many + (chance.random() < 0.1))

    verb, seat = chance.choice((*TAKES, "leave", "wait", *SIGNALS, "act", "act", "act", "until")), below(setting.seats)
    if verb == "act":
        return Step(verb, seat, (below(CODES[setting.object]), chance.randrange(4), chance.randrange(4)))
    if verb == "until":
        return Step(verb, seat, (chance.randrange(2),))
    return Step(verb, seat, (below(setting.conds),) if verb in ("wait", *SIGNALS) else ())


def wrong_lines(chance: Random, setting: Setting, x: State) -> list[Step]:
    """A line that can't stand, each reason as likely as another, and some lines after it."""
    lines = [any_line(chance, setting) for _ in range(TRIED)]
    reasons = {line: blame(setting, x, line) for line in lines}
    reason = chance.choice(sorted({reason for reason in reasons.values() if reason}))
    wrong = next(line for line in lines if reasons[line] == reason)
    return [wrong, *(any_line(chance, setting) for _ in range(chance.randrange(BEHIND)))]


def walked(chance: Random, setting: Setting, x: State, line: Step, may_wake: bool) -> Optional[State]:
    """A state behind the line, if it may follow. A wait may run out at once or late, and a thread may wake unasked."""
    silent = {"lapse": "out", "resume": "wake" if may_wake else ""}.get(line.verb)
    before = after(setting, x, Step(silent, line.seat)) if silent else None
    states = told(setting, before or x, line)
    if not states:
        return None
    y = chance.choice(states)[1]
    return after(setting, y, Step("out", line.seat)) if line.verb == "wait" and chance.random() < RUN_OUT else y


def random_log(chance: Random, setting: Setting) -> list[Step]:
    """A log that some run tells, or one with a misfit."""
    log, x = list[Step](), opening(setting)
    back: Optional[tuple[int, State]] = None
    late = {verb: chance.choice(LATE) for verb in (*TAKES, *SIGNALS, "leave", "wait", "act")}
    late |= SLEEPY if chance.random() < 0.3 else {}
    may_wake, stays_right = chance.random() < 0.4, chance.random() < 0.6
    for _ in range(chance.randrange(LINES)):
        rank = {verb: chance.random() * often for verb, often in late.items()}
        all_ = lines_over(setting, x, chance.randrange(5))
        unheard = {line for line in all_ if line.verb in SIGNALS and ("waiting", line.numbers[0]) not in x.places}
        lines = sorted(all_, key=lambda line: (line in unheard, rank[line.verb], chance.random()))
        found = ((line, walked(chance, setting, x, line, may_wake)) for line in lines)
        line, x = next((line, then) for line, then in found if then)
        log.append(line)
        back = (len(log), x) if line.verb == "resume" else back
    if stays_right:
        return log
    many, y = back if back and chance.random() < RETURNED else (len(log), x)
    return log[:many] + wrong_lines(chance, setting, y)


def overtaken_log(chance: Random) -> list[Step]:
    """A log in which a woken thread comes back some 24 times after another came and went. It may wait again once."""
    visit = ["enter 0", "wait 0 0", "enter 1", "signal 1 0", "leave 1", "enter 2", "leave 2", "resume 0"]
    refused = ["act 0 1 0 0"] * (chance.random() < 0.5)
    again = [*visit, *refused, "wait 0 0", "signal 1 0", "resume 0", "leave 0"] * (chance.random() < 0.5)
    words = [*again, *[*visit, "leave 0"] * chance.randrange(23, 27), "enter 2", "wait 2 0"]
    return [step_of(line) for line in words]


def random_question(chance: Random, number: int) -> Question:
    """A random log, and what is asked of it."""
    if number % RARE == 0:
        return Question(Setting(3, 1, "buffer", 1), overtaken_log(chance))
    setting = Setting(chance.choice((1, 2, 2, 3, 3, 3, 4, 4, 5)), chance.choice((1, 1, 1, 2, 2, 3)),
                      chance.choice(list(CODES)), chance.randrange(1, 4))
    log = random_log(chance, setting)
    preds = setting.size + 1 if setting.object == "flags" else PREDICATES[setting.object]
    many = chance.choice((0, 0, 1, 1, 2, 3))
    pairs = [(chance.randrange(setting.conds), chance.randrange(preds)) for _ in range(many)]
    is_asked = any(line.verb == "act" for line in log)
    places = [chance.randrange(4) for _ in range(chance.randrange(len(log) + 2))] if chance.random() < 0.2 else []
    return Question(setting, log, tuple(pairs) if is_asked else (), chance.random() < 0.15, tuple(places))
