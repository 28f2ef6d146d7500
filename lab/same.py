"""Whether scenes in another language have the very runs of the same scenes in Python, in all orders under each kind
that they have: each history, each schedule, each outcome; and what is said of the faults of that language. lab/test
runs this: python3 lab/same.py c, or java

MONK_LIBRARY and PYTHONPATH name the library, as for all that is Python."""

from __future__ import annotations

import functools
import pathlib
import re
import subprocess
import sys
import tempfile
from dataclasses import dataclass
from typing import Any, Callable, Dict, List, Sequence, Tuple

HERE = pathlib.Path(__file__).resolve().parent
sys.path.insert(0, str(HERE.parent / "examples" / "python"))

import compare_buffer  # noqa: E402  (the folder is named first)
import compare_one_signal  # noqa: E402
import compare_readers  # noqa: E402
import compare_signal_first  # noqa: E402
import monk  # noqa: E402
from monk import enter, in_java, leave, signal, signal_all, wait  # noqa: E402
from monk.foreign import Process  # noqa: E402
from monk.orders import all_orders  # noqa: E402
from monk.scenes import played  # noqa: E402
from monk.stage import Way  # noqa: E402

CC = ("gcc", "-std=gnu11", "-O1", "-g", "-Wall", "-Wextra", "-Werror", "-I", str(HERE / "c"))
JAVAC = ("-Xlint:all", "-Werror")
MOST, FEW = 3000, 300
WITH_SIGNALS = tuple(kind for kind in monk.KINDS if kind not in ("PIS", "NPIS"))
# (a line is another in another language)
LINE = re.compile(r" \(line .*?\)")
Made = Callable[[], Any]


# ---- scenes in Python

def taker_and(putter_of: Callable[[List[str]], Any], *others: Callable[[List[str]], Any]) -> Made:
    def scene() -> Sequence[Any]:
        items: List[str] = []
        def taker() -> Any:
            yield enter()
            while not items:
                yield wait("item", lambda: items)
            items.pop()
            yield leave()
        def putter() -> Any:
            return (yield from putter_of(items))
        def thief() -> Any:
            return (yield from others[0](items))
        return (taker, putter, thief)[:2 + len(others)]
    return scene


def quietly(items: List[str]) -> Any:
    yield enter()
    items.append("tea")
    yield leave()


def stays(items: List[str]) -> Any:
    yield enter()
    items.append("tea")
    yield signal("item")


def twice(items: List[str]) -> Any:
    for _ in range(2):
        yield from stays(items)
        yield leave()


def for_ever(_: List[str]) -> Any:
    while True:
        yield enter()
        yield leave()


def steals(items: List[str]) -> Any:
    yield enter()
    if items:
        items.pop()
    yield leave()


def leaves_by_error() -> Sequence[Any]:
    """The buffer with `if`, whose taker leaves before its error is seen, as a synchronized method does."""
    _, putter, thief = compare_buffer.buffer()
    items: List[str] = putter.__closure__[0].cell_contents
    def taker() -> Any:
        yield enter()
        try:
            if not items:
                yield wait("item")
            items.pop()
        finally:
            yield leave()
    return taker, putter, thief


def to_all() -> Sequence[Any]:
    is_open = False
    def guest() -> Any:
        yield enter()
        while not is_open:
            yield wait("gate", lambda: is_open)
        yield leave()
    def porter() -> Any:
        nonlocal is_open
        yield enter()
        is_open = True
        yield signal_all("gate")
        yield leave()
    return guest, guest, porter


def one_condition() -> Sequence[Any]:
    """Readers and a writer who wait on one condition, which is signalled to all."""
    readers, is_written = 0, False
    def reader() -> Any:
        nonlocal readers
        yield enter()
        while is_written:
            yield wait("book")
        readers += 1
        yield leave()
        yield enter()
        readers -= 1
        if readers == 0:
            yield signal_all("book")
        yield leave()
    def writer() -> Any:
        nonlocal is_written
        yield enter()
        while is_written or readers:
            yield wait("book")
        is_written = True
        yield leave()
        yield enter()
        is_written = False
        yield signal_all("book")
        yield leave()
    return reader, reader, writer


def visits(count: int) -> Made:
    def visitor() -> Any:
        for _ in range(count):
            yield enter()
            yield leave()
    return lambda: [visitor]


# ---- the same in others

Pair = Tuple[str, Made, int]
PAIRS: Tuple[Pair, ...] = (
    ("buffer if", compare_buffer.buffer, MOST), ("pair first", compare_signal_first.signal_first, MOST),
    ("pair quietly", taker_and(quietly), MOST), ("pair stay", taker_and(stays), MOST),
    ("pair forever", taker_and(for_ever), MOST), ("gate one", compare_one_signal.one_signal_for_two, MOST),
    ("gate all", to_all, MOST), ("book chained", compare_readers.readers_and_writer, FEW))
# A synchronized method can't stay, and its monitor has one condition.
PLAIN: Tuple[Pair, ...] = (
    ("buffer if", leaves_by_error, MOST), ("buffer while", taker_and(twice, steals), MOST),
    ("book all", one_condition, FEW), ("shapes all", visits(9), MOST), ("shapes static", visits(1), MOST),
    ("shapes sealed", visits(1), MOST),
    *(pair for pair in PAIRS if pair[0].split()[0] in ("pair", "gate") and pair[0] != "pair stay"))


@dataclass
class Form:
    """A way to write a monitor in another language: its scenes, with those in Python; the kinds that it has; and what
    is said of its faults under NPNB."""
    name: str
    pairs: Sequence[Pair]
    kinds: Sequence[str]
    faults: Sequence[Tuple[str, str, str]]


C = (Form("calls", PAIRS, monk.KINDS, (
    ("buffer if", "wrong",
     r"^taker: assertion `items > 0' fails in take_by_if \(scenes.c:\d+: assert\(items > 0\);\)$"),
    ("textbook if", "wrong", r"^taker: assertion `held > 0' fails in take \(textbook.c:\d+: assert\(held > 0\);\)$"),
    ("pair outside", "wrong", r"^putter: changes items outside the monitor, before line \d+ of scenes.c$"),
    ("pair null", "wrong", r"^putter: Segmentation fault after line \d+ of scenes.c$"),
    ("pair exit", "wrong", r"^putter: ends the whole process \(status 0\) after line \d+ of scenes.c$"),
    ("pair spin", "stuck", r"^putter: makes no call for [0-9.]+ s after line \d+ of scenes.c$"),
    ("pair stay", "wrong", r"^putter: ends inside: there is no leave \(its last call: line \d+ of scenes.c\)$"))),)
JAVA = (
    Form("Scenes", PAIRS, monk.KINDS, (
        ("buffer if", "wrong", r"^taker: NoSuchElementException \(Buffer.java:\d+: items.pop\(\);\)$"),
        ("pair outside", "wrong",
         r"^putter: changes buffer.items outside the monitor, before line \d+ of Buffer.java$"),
        ("pair exit", "wrong", r"^putter: ends the whole process \(Buffer.java:\d+: System.exit\(0\);\)$"),
        ("pair spin", "stuck",
         r"^putter: makes no call for [0-9.]+ s \(Buffer.java:\d+: while \(!items.isEmpty\(\)\) .*\)$"),
        ("pair stay", "wrong",
         r"^putter: ends inside: there is no leave \(its last call: line \d+ of Buffer.java\)$"))),
    Form("LockScenes", PAIRS, WITH_SIGNALS, (
        ("buffer if", "wrong", r"^taker: NoSuchElementException \(LockBuffer.java:\d+: items.pop\(\);\)$"),
        ("pair hurry", "wrong",
         r"^putter: UnsupportedOperationException: a monitor of a scene has no tryLock \(.*\)$"))),
    Form("PlainScenes", PLAIN, WITH_SIGNALS, (
        ("buffer if", "wrong", r"^taker: IllegalStateException: nothing is there \(PlainBuffer.java:\d+: .*\)$"),
        ("pair late", "wrong",
         r"^putter: UnsupportedOperationException: a monitor of a scene has no wait with a time limit \(.*\)$"),
        ("pair another", "wrong",
         r"^putter: IllegalStateException: a scene has one monitor, and this Object is another \(.*\)$"))))


def built_c(room: str) -> Dict[str, Process]:
    """The process of the scenes. The textbook's code is unchanged, but for a file that comes first."""
    tests, textbook, program = HERE / "c" / "tests", f"{room}/textbook.o", f"{room}/scenes"
    subprocess.run([*CC, "-include", "lab_pthread.h", "-c", tests / "textbook.c", "-o", textbook], check=True)
    subprocess.run([*CC, HERE / "c" / "lab.c", tests / "scenes.c", textbook, "-o", program], check=True)
    return {"calls": Process([program], str(tests))}


def built_java(room: str) -> Dict[str, Process]:
    """The processes of the three forms. Each warning of the compiler is an error, in the lab's own files, too."""
    tests, sources = HERE / "java" / "tests", sorted(map(str, (HERE / "java" / "lab").glob("*.java")))
    lab, classes = f"{room}/lab", f"{room}/classes"
    in_java.compile_to(lab, sources, [*JAVAC, *in_java.INSIDE])
    in_java.compile_to(classes, sorted(map(str, tests.glob("*.java"))), [*JAVAC, "-cp", lab])
    return {form.name: in_java.process(lab, classes, form.name, str(tests)) for form in JAVA}


def runs(made: Made, kind: str, most: int) -> List[Tuple[Any, ...]]:
    names: List[str] = []
    found: List[Tuple[Any, ...]] = []
    for begin in all_orders(most):
        run = played(made, Way(kind, is_short=True), names, begin)
        between = LINE.sub("", run.between)
        found.append((run.outcome, run.who, run.at, run.schedule, run.history, run.is_endless, between))
        if run.is_endless or run.outcome == "no such call":
            break
    return found


@functools.lru_cache(maxsize=None)
def in_python(made: Made, kind: str, most: int) -> List[Tuple[Any, ...]]:
    return runs(made, kind, most)


def differs(form: Form, process: Process, pair: Pair) -> Tuple[int, List[str]]:
    """How many runs there are, and the first that is another, by its kind."""
    words, python, most = pair
    count, wrong = 0, []
    # (without tests, what was between doesn't tell of one that was false)
    compared = slice(None if form.kinds is monk.KINDS else -1)
    for kind in form.kinds:
        ours, theirs = runs(process.scene(*words.split()), kind, most), in_python(python, kind, most)
        count += len(ours)
        pairs = [pair for pair in zip(ours, theirs) if pair[0][compared] != pair[1][compared]][:1]
        if pairs or len(ours) != len(theirs):
            wrong.append(f"{form.name}: {words} {kind}: {len(ours)} runs for {len(theirs)}, {pairs}")
    return count, wrong


def fault(process: Process, words: str, outcome: str, says: str) -> List[str]:
    finding = monk.compare(process.scene(*words.split()), ["NPNB"])["NPNB"]
    is_so = finding.outcome == outcome and re.search(says, finding.example.fault)
    return [] if is_so else [f"{words}: {finding.outcome}: {finding.example.fault}"]


def tried(form: Form, process: Process) -> Tuple[int, List[str]]:
    """How many runs of the form are as in Python, and what is wrong with it."""
    found = [differs(form, process, pair) for pair in form.pairs]
    wrong = [line for _, lines in found for line in lines]
    return sum(count for count, _ in found), wrong + [line for it in form.faults for line in fault(process, *it)]


def main() -> int:
    name, forms, built = ("C", C, built_c) if sys.argv[1:] == ["c"] else ("Java", JAVA, built_java)
    with tempfile.TemporaryDirectory() as room:
        processes = built(room)
        found = [tried(form, processes[form.name]) for form in forms]
        for process in processes.values():
            process.close()
    wrong = [line for _, lines in found for line in lines]
    said = [f"{len(form.pairs)} scenes ({form.name}): {count} runs as in Python"
            for form, (count, _) in zip(forms, found)]
    faults = sum(len(form.faults) for form in forms)
    print("\n".join(wrong) or f"{name}: {', '.join(said)}; {faults} faults are told")
    return 1 if wrong else 0


if __name__ == "__main__":
    sys.exit(main())
