"""Tests of what monk-try says of programs that POSIX may treat otherwise than they expect."""
import concurrent.futures
import os
import re
import sys
from typing import Any
from xml.etree import ElementTree

from monk_places import who_waits
from programs import REMARKS

# Two runs of each kind that is named after them: one is shaken. (A run that isn't misses the `if` once in four.)
FEW = ("-n", "2", "--wishes", "entry", "--seconds", "2", "--kinds")


def fail(text: str) -> None:
    sys.exit(text)


def unasked(tests: Any) -> str:
    """A wait without a loop where nobody can come in between: only an unasked wake-up shows it, and where it is."""
    told = tests.must_say("unasked", tests.words(("turns", "if")), *FEW, "NPNB")["lesson"]["text"]
    tests.must_say("right", tests.words(("turns", "right")), *FEW, "NPNB")
    if "turns.c:" not in told:
        fail(f"monk-try turns if: {told}")
    return "a wait without a loop, by its line"


def called(tests: Any) -> str:
    """The places of a program that isn't optimized, so that functions of headers wait in place of its own."""
    folder = os.path.join(tests.room, "called")
    os.makedirs(folder)
    program = [tests.built("barrier", ["-O0"]), "one"]
    tests.run("PB", "any", program, "--seconds", "1", "--report", os.path.join(folder, "report"))
    told = who_waits(folder)
    waits = [line for line in told if " waits on " in line]
    if not waits or not all(" at barrier.cpp:" in line for line in waits) or "(in std::thread::join)" not in str(told):
        fail(f"called: {told}")
    return "by their own lines"


def remarked(tests: Any) -> str:
    """Uses that POSIX leaves undefined, and none where there is none."""
    tests.built("misuse")
    with concurrent.futures.ThreadPoolExecutor(len(REMARKS)) as pool:
        tries = {fault: pool.submit(tests.verdict, [tests.built("misuse"), fault], *FEW, "NPNB") for fault in REMARKS}
    for fault, words in REMARKS.items():
        told = tries[fault].result()["remarks"]
        if len(told) != bool(words) or not all(words in line for line in told):
            fail(f"misuse {fault}: {told}")
    return f"{len(REMARKS) - 1} uses"


def left_alone(tests: Any) -> str:
    """A mutex on the heap, by the place of its first wait, as the report names it."""
    heap, report = tests.words(("crowd", "4", "2", "heap")), os.path.join(tests.room, "left_alone")
    tests.run("PB", "any", heap, "--report", report)
    with open(report) as file:
        place = re.search(r"^first 1 (\S+)$", file.read(), re.M)
    done = tests.run("PB", "any", heap, "--leave", place[1] if place else "", "--eager", "16", "--report", report)
    with open(report) as file:
        end = file.readline()
    if not place or done.returncode or " monitors 0 " not in end or " alone 4\n" not in end:
        fail(f"left_alone: {place} {end}{done.stderr}")
    astray = tests.built("astray")
    done = tests.run("NPNB", "any", [astray], "--leave", tests.place_of(astray, "mutexes"))
    if done.returncode or done.stdout != "astray: turns 30\n":
        fail(f"left_alone: a condition of it and of a monitor in turn: status {done.returncode}: {done.stderr}")
    return "by the place of a wait; a condition goes to it and back"


def untried(tests: Any) -> str:
    """What no rule was tried on: semaphores, read-write locks, barriers, futexes; a lock behind a lock; and a mutex that
    is no monitor any more."""
    cases = (("nothing", ("meetings", "elsewhere"), ("semaphores", "read-write locks", "barriers", "futexes")),
             ("unasked", ("any",), ("condition_variable_any",)),
             ("right", ("crowd", "40", "3"), ("has more than 31 waiters: from then on it was a plain mutex",)),
             ("right", ("crowd", "9", "9"), ("has more than 8 conditions with waiters",)))
    with concurrent.futures.ThreadPoolExecutor(len(cases)) as pool:
        tries = [pool.submit(tests.must_say, lesson, tests.words(words), *FEW, "NPNB") for lesson, words, _ in cases]
    for (_, program, words), it in zip(cases, tries):
        told = it.result()["untried"]
        if len(told) != len(words) or not all(any(word in line for line in told) for word in words):
            fail(f"untried: {program}: {told}")
    return f"{len(cases)} programs told what wasn't tried"


def junit(tests: Any) -> str:
    """The table as XML: a test case for each cell, and a failure for each that went wrong."""
    path = os.path.join(tests.room, "junit.xml")
    told = tests.must_say("unasked", tests.words(("turns", "if")), *FEW, "NPNB,PB", "--junit", path)
    suite = ElementTree.parse(path).getroot()
    cases = [(case.get("classname"), case.get("name"), [it.tag for it in case]) for case in suite]
    right = [("NPNB", "entry", []), ("turns", "entry", []), ("unasked", "entry", ["failure"]), ("PB", "entry", [])]
    if cases != right or suite.get("failures") != "1" or told["lesson"]["text"] not in "".join(suite.itertext()):
        fail(f"junit: {cases}")
    return f"{len(cases)} test cases"
