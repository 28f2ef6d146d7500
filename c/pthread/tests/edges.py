"""Tests of the layer where the system refuses: a library that can't be loaded, more waiters than seats; and of a process
whose first thread ends first."""
import itertools
import os
import shutil
import sys
from typing import Any

from unasked import FEW, fail

CANT, TURN = 125, "by turns"


def first_ends(tests: Any) -> str:
    """The status and the output of a program whose first thread ends before the others; the watcher doesn't keep it."""
    folder = os.path.join(tests.room, "first_ends")
    for words in (("leader",), ("leader", "c11")):
        shutil.rmtree(folder, ignore_errors=True)
        done = tests.run("NPNB", "any", tests.words(words), "--history", folder)
        if done.returncode or done.stdout != "leader: last words\n" or not tests.audited(folder)[0]:
            fail(f"{words}: status {done.returncode}: {done.stdout}{done.stderr}")
    return "its status and output"


def unloaded(tests: Any) -> str:
    """A library that the loader doesn't take: nothing runs without it."""
    room = os.path.join(tests.room, "with blank and:colon")
    os.makedirs(room)
    copy = shutil.copy(tests.library, room)
    cases = ((copy, "the loader takes no library whose path has a blank or a colon"),
             ("/etc/passwd", "it can't be loaded"))
    for library, words in cases:
        done = tests.run("NPNB", "any", tests.words(("leader",)), library=library)
        tried = tests.try_with(library, [*FEW, "NPNB", *tests.words(("leader",))])
        if done.returncode != CANT or done.stdout or words not in done.stderr:
            fail(f"unloaded: status {done.returncode}: {done.stdout}{done.stderr}")
        if tried.returncode != CANT or words not in tried.stdout:
            fail(f"unloaded: monk-try: status {tried.returncode}: {tried.stdout}{tried.stderr}")
    return f"{len(cases)} libraries"


def descents(tests: Any) -> str:
    """More waiters than seats, or conditions than the library has: the monitor steps down, and nobody is lost."""
    folder, report = (os.path.join(tests.room, name) for name in ("descents", "descents.report"))
    cases = [(*words, *turns) for words in (("9", "9"), ("31", "1"), ("64", "64"), ("40", "3")) for turns in ((), (TURN,))]
    kinds = ("NPNB", "PB", "NPQB", "PIR") if tests.is_long else ("NPNB", "PB")
    for kind, case in itertools.product(kinds, cases):
        shutil.rmtree(folder, ignore_errors=True)
        more = ["--turns", "walk"] if TURN in case else []
        done = tests.run(kind, "any", [tests.built("crowd"), *case[:2]], "--history", folder, "--report", report,
                         "--eager", "16", *more)
        with open(report) as file:
            told = [line for line in file if line.startswith("descents 1 ")]
        if done.returncode or done.stdout != "crowd: all went\n" or len(told) != 1 or not tests.audited(folder)[0]:
            fail(f"descents: {kind} {case}: status {done.returncode}: {done.stdout}{done.stderr}{told}")
    return f"{len(kinds) * len(cases)} runs in which a monitor stepped down"


def integrated(tests: Any) -> str:
    """The examples for ctest, if there is cmake, and for pytest: the right buffer passes, and the one with a fault
    fails, with its lesson."""
    room, source = os.path.join(tests.room, "ctest"), os.path.join(tests.pthread, "examples")
    path = {"PATH": f"{tests.pthread}:{os.environ['PATH']}"}
    if shutil.which("cmake"):
        tests.said(["cmake", "-S", source, "-B", room], "cmake")
        tests.said(["cmake", "--build", room], "cmake")
        done = tests.ended(["ctest", "--test-dir", room, "--output-on-failure"], path)
        if done.returncode != 8 or "1 tests failed" not in done.stdout or "buffer_if (Failed)" not in done.stdout:
            fail(f"ctest: {done.returncode}: {done.stdout}{done.stderr}")
    run = [sys.executable, "-c", "import test_buffer; test_buffer.test_buffer()"]
    for fault, status in (("right", 0), ("if", 1)):
        words = {"BUFFER": " ".join(tests.words(("buffer", fault))), "PYTHONPATH": source, **path}
        os.makedirs(os.path.join(tests.room, f"pytest.{fault}"))
        done = tests.ended(["env", "-C", os.path.join(tests.room, f"pytest.{fault}"), *run], words)
        if done.returncode != status or ("AssertionError" in done.stderr) != (status == 1):
            fail(f"pytest: {fault}: {done.returncode}: {done.stdout}{done.stderr}")
    return "for ctest and pytest" if shutil.which("cmake") else "for pytest"
