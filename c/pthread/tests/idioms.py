"""Tests of the ways in which programs end, wait and cancel: idioms.c by pthreads and C11 threads, idioms.cpp by C++20.
Under the layer and under the recorder each has the status and the output of a plain run."""
import concurrent.futures
import os
from typing import Any, List, Tuple

from unasked import fail

KINDS = ("PB", "NPNB", "NPIR")
CANT, REFUSED = 125, "a monitor of immediate return can't do"
LEAST, SECONDS = 25, "20"
RECORDER = os.path.join(os.path.dirname(__file__), "..", "..", "..", "recorders", "c")

Ran = Tuple[int, str]


def recorder(tests: Any) -> str:
    """The recorder, built from its source."""
    library = os.path.join(tests.room, "libmonk_log.so")
    source = os.path.join(RECORDER, "libmonk_log.c")
    tests.said(["gcc", "-O2", "-shared", "-fPIC", "-o", library, source, "-ldl", "-pthread"], "libmonk_log")
    return library


def ran(done: Any) -> Ran:
    return done.returncode, done.stdout


def recorded(tests: Any, library: str, words: List[str]) -> Ran:
    log = os.path.join(tests.room, "logs", "_".join(map(os.path.basename, words)))
    os.makedirs(log)
    command, options = os.path.join(RECORDER, "monk-record"), ["--log", os.path.join(log, "run"), "--seconds", SECONDS]
    return ran(tests.ended([command, *options, "--", *words], {"MONK_RECORDER": library}))


def wrong_with(tests: Any, library: str, words: List[str]) -> str:
    """What differs from a plain run of these words, or nothing."""
    plain = ran(tests.ended(words))
    for kind in KINDS:
        done = tests.run(kind, "any", words)
        is_refused = kind == "NPIR" and done.returncode == CANT and REFUSED in done.stderr
        if ran(done) != plain and not is_refused:
            return f"{words} under {kind}: {ran(done)} in place of {plain}: {done.stderr}"
    told = recorded(tests, library, words)
    return f"{words} recorded: {told} in place of {plain}" if told != plain else ""


def idioms(tests: Any) -> str:
    """Each way to end, to wait and to cancel: the status and the output of a plain run."""
    library, programs = recorder(tests), [tests.built("idioms"), tests.built("idioms_20", ["-std=gnu++20"])]
    asked = [[program, name] for program in programs for name in tests.said([program], program).split()]
    with concurrent.futures.ThreadPoolExecutor(4) as pool:
        for wrong in pool.map(lambda words: wrong_with(tests, library, words), asked):
            if wrong:
                fail(wrong)
    if len(asked) < LEAST:
        fail(f"only {len(asked)} idioms")
    return f"{len(asked)} programs under {', '.join(KINDS)} and recorded"
