"""Checks the data of a log's page by models/judge_search.py: each step may happen where it is, and leads where it
says."""
from typing import Any

from judge_search import SILENT, Setting, State, after, opening, step_of

Data = dict[str, Any]
# The words of a page for a wait that ran out.
RAN_OUT = "out"


def state_of(said: Data) -> State:
    """A state as the page has it."""
    places = []
    for place in said["places"]:
        word, _, cond = place.partition(" ")
        places.append(("ran out" if word == RAN_OUT else word, int(cond or 0)))
    return State(said["lock"], tuple(places), tuple(said["state"]))


def faults_of(text: str, said: Data, last: int) -> list[str]:
    """What is wrong with the data, whose steps must tell the lines of the log up to that one."""
    head, *lines = text.splitlines()
    seats, conds, name, size = head.split()[2:]
    setting = Setting(int(seats), int(conds), name, int(size))
    wrong = [key for key, want in zip(("seats", "conditions", "object", "size"), setting) if said[key] != want]
    x = state_of(said["start"])
    told: list[str] = []
    if said["before"] == 0 and x != opening(setting):
        wrong.append("start")
    for number, entry in enumerate(said["steps"]):
        line, _, whom = entry["told"].partition(" wakes ")
        step = step_of(line)
        y = after(setting, x, step, int(whom) if whom else None)
        wrong += [] if y == state_of(entry) else [f"step {number}: {entry}, not {y}"]
        x, told = state_of(entry), told if step.verb in SILENT else [*told, line]
    return wrong if told == lines[said["before"] : last] else [*wrong, f"it tells {told}"]
