"""What runs under other rules didn't try, in words. Part of monk-try."""
from typing import Dict, List

from monk_places import functions_at, line_of, name_of
from monk_runs import reports

ELSEWHERE = {"semaphores": "waits at semaphores", "rwlocks": "locks of read-write locks",
             "barriers": "waits at barriers", "futexes": "waits at futexes (as those of C++20's atomics)"}


def of_row(row: List[str]) -> str:
    """The sentence for a row of a report, without a number that differs from run to run; nothing if there is none."""
    if row[0] == "elsewhere":
        return f"{ELSEWHERE[row[1]]} stay what they are: their order wasn't tried under other rules"
    if row[0] == "descents":
        return (f"the mutex {name_of(row[2])}, whose first wait is at {line_of(row[3])}, {' '.join(row[4:])}: from then on"
                " it was a plain mutex, and its waits weren't tried")
    if row[0] == "first" and "condition_variable_any" in functions_at(row[2]):
        return (f"the wait at {line_of(row[2])} is one of a condition_variable_any: its inner mutex was tried, and not who"
                " comes first at the lock that it is given")
    return ""


def untried_in(folder: str) -> Dict[str, None]:
    """The sentences for a run, in order and each once."""
    return {line: None for rows in reports(folder).values() for line in map(of_row, rows) if line}
