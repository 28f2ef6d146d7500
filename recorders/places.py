"""Whether the file beside a log names the lines of the source from which its lines come; for recorders/check and
hostile."""
from __future__ import annotations

import os
import re
import subprocess
import sys

import builds

# A pattern for the line of a demonstration from which a line of its log comes. A `leave` has no place in Rust. In C
# it may have the place of its function's caller, because an unlock that comes last is jumped to.
CALLS = {
    "c": {"enter": "pthread_mutex_lock", "wait": "pthread_cond_wait", "signal": "pthread_cond_signal",
          "act": "MONK_ACT"},
    "c++": {"enter": "lock.mutex", "leave": "}|lock.unlock", "wait": "condition.wait", "signal": "notify_one",
            "act": "MONK_ACT"},
    "python": {"enter": "self.lock", "leave": "self.lock", "wait": "condition.wait", "signal": "notify",
               "act": "recorder.act"},
    "java": {"enter": "lock.lock", "leave": "lock.unlock", "wait": "condition.await", "signal": "[.]signal",
             "act": "log.act"},
    "go": {"enter": "monitor.Lock", "leave": "monitor.Unlock", "wait": "cond.Wait", "signal": "cond.Signal",
           "act": "monitor.Act"},
    "rust": {"enter": "buffer.enter", "wait": "inside.wait", "signal": "notify_one", "act": "inside.act"},
    # demos/owners.c, where nothing is jumped to; who finds that the owner has ended leaves for it.
    "owners": {"enter": "pthread_mutex_lock", "leave": "pthread_mutex_|pthread_cond_wait", "wait": "pthread_cond_wait",
               "signal": "pthread_cond_signal"},
}
# A line of a log as `monk explain` names it: its number, its words and its place. And the line since which a seat is
# where it is.
NAMED = re.compile(r"line (\d+): (.*?)(?: \((\S+:\d+)\))?: ")
SINCE = re.compile(r"seat \d+: .* since line (\d+)(?: \((\S+:\d+)\))?(?:;.*)?")
SOURCES = {"c": "buffer.c", "c++": "buffer.cc", "python": "buffer.py", "java": "Buffer.java", "go": "buffer.go",
           "rust": "buffer.rs", "owners": "owners.c"}


def places_of(path: str) -> list[str]:
    """For each line of a log, FILE:LINE or nothing."""
    places = [""]
    numbers: list[int] = []
    with open(f"{path}.names") as file:
        for word, _, rest in (row.rstrip("\n").partition(" ") for row in file):
            if word == "site":
                places.append(rest.split(" ", 1)[1])
            if word == "lines":
                numbers = list(map(int, rest.split()))
    return [places[number] for number in numbers]


def lines_of(path: str) -> list[str]:
    with open(path) as file:
        return file.read().splitlines()[1:]


def miscounted(path: str) -> str:
    """What to say if the row of numbers isn't as long as the log; else nothing."""
    places, lines = len(places_of(path)), len(lines_of(path))
    return "" if places == lines else f"{path}.names: {places} places of {lines} lines"


def misplaced(language: str, path: str) -> str:
    """The first line of a log whose place isn't that of such a call, or nothing."""
    source, calls = SOURCES[language], CALLS[language]
    with open(builds.demo(source)) as file:
        texts = dict(enumerate(file.read().splitlines(), 1))
    lines, places = lines_of(path), places_of(path)
    for line, place in zip(lines, places):
        verb = line.split()[0]
        call = calls.get("wait" if verb in ("resume", "lapse") else verb, "")
        name, _, number = place.rpartition(":")
        if call and (name != source or not re.search(call, texts.get(int(number), ""))):
            return f"{path}: {line}: {place}"
    return ""


def misexplained(path: str, explained: list[str]) -> str:
    """The first line that an explanation names with other words, or with another place than the file beside the log
    has; or nothing. If it says what is wrong, it has to name a line."""
    lines, places = lines_of(path), places_of(path)
    named = [found.groups() for found in map(NAMED.match, explained) if found]
    since = [(found[1], lines[int(found[1]) - 2], found[2]) for found in map(SINCE.fullmatch, explained) if found]
    for number, words, place in named + since:
        at = int(number) - 2
        if (words, place or "") != (lines[at], places[at]):
            return f"{path}: explain names {number}: {words}: {place}, and not {lines[at]}: {places[at]}"
    is_bad = explained[0].startswith("misfit ") or "; missed at " in explained[0]
    return "" if named or not is_bad else f"{path}: explain names no line: {explained}"


def first_misplaced(language: str, paths: list[str]) -> str:
    """The same for some logs. In C and C++ the tool first writes their places."""
    if language in ("c", "c++", "owners"):
        tool = os.path.join(builds.HERE, "c", "sites")
        subprocess.run([sys.executable, tool, *(f"{path}.names" for path in paths)], check=True)
    return next(filter(None, (miscounted(path) or misplaced(language, path) for path in paths)), "")
