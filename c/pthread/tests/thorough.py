"""The tests of the layer that take minutes: under sanitizers, of its mutants, and a soak."""
import itertools
import os
import random
import shutil
import subprocess
import sys
import time
from typing import Any, Dict, List

from mutants import MUTANTS, Mutant, mutant
from programs import SOAKED, SOUND, Program
from unasked import fail

HERE = os.path.dirname(os.path.abspath(__file__))
PTHREAD = os.path.dirname(HERE)
C = os.path.dirname(PTHREAD)
OUT = os.path.join(C, "out")
WRITER = os.path.join(os.path.dirname(C), "recorders", "c")
KINDS = ("PB", "NPB", "PNB", "NPNB", "PQB", "NPQB", "PIR", "NPIR")
WISHES = ("waiter", "entry", "any")
LAYER = ["gcc", "-std=gnu11", "-O2", "-g", "-fPIC", "-pthread", "-fexceptions", "-shared", "-I", C, "-I", WRITER,
         f"-Wl,--version-script={PTHREAD}/names.map"]
SANITIZE = ["-fsanitize=address,undefined", "-fno-sanitize-recover=undefined"]
PARTS = [os.path.join(C, name + ".c") for name in ("monk", "calls", "abandoned", "names")]
# For a run that others may keep from the processors for a while, as it soaks.
PATIENT_SECONDS = "100"


def sanitized(tests: Any) -> str:
    """The layer and the library's C under AddressSanitizer and UndefinedBehaviorSanitizer."""
    library = os.path.join(tests.room, "sanitized.so")
    parts = [os.path.join(PTHREAD, "libmonk_pthread.c"), *PARTS, os.path.join(OUT, "kernel.o")]
    tests.said([*LAYER, *SANITIZE, *parts, "-ldl", "-o", library], "sanitized")
    tasks = [(*it, "96") for it in itertools.product(SOUND, KINDS, WISHES)]
    for task in tasks:
        wrong = tests.wrong_of(tests.task(*task), library, SANITIZE)
        if wrong:
            fail(wrong)
    return f"{len(tasks)} runs right"


def raced_program(tests: Any, name: str) -> str:
    """The layer, the library's C and a test in one program under ThreadSanitizer."""
    built = os.path.join(tests.room, f"raced.{name}")
    is_cpp = os.path.exists(os.path.join(HERE, name + ".cpp"))
    options = ["-O1", "-g", "-pthread", "-fsanitize=thread", "-fexceptions", "-I", C, "-I", WRITER]
    parts = []
    for source in (os.path.join(PTHREAD, "libmonk_pthread.c"), *PARTS):
        parts.append(os.path.join(tests.room, os.path.basename(source) + ".o"))
        if not os.path.exists(parts[-1]):
            tests.said(["gcc", "-std=gnu11", *options, "-c", source, "-o", parts[-1]], "raced")
    compiler = ["g++", "-std=gnu++17"] if is_cpp else ["gcc", "-std=gnu11"]
    source = os.path.join(HERE, name + (".cpp" if is_cpp else ".c"))
    tests.said([*compiler, *options, source, *parts, os.path.join(OUT, "kernel.o"), "-ldl", "-o", built], "raced")
    return built


# What each raced run has: nothing more, naps, waits that wake unasked as well, or turns.
FREEDOMS: List[Dict[str, str]] = [{}, {"MONK_SHAKE": "1"}, {"MONK_SHAKE": "1", "MONK_SPURIOUS": "300"},
                                  {"MONK_TURNS": "walk"}]


def raced(tests: Any) -> str:
    """Programs in C and C++ with the layer in them, under ThreadSanitizer."""
    programs = [it for it in SOUND if it.words[0] != "odd"]     # it forks
    for program in programs:
        built = raced_program(tests, program.words[0])
        for kind, more in itertools.product(KINDS, FREEDOMS):
            setting = {"MONK_KIND": kind, "MONK_WISH": "any", "MONK_BUDGET": "128", **more}
            done = tests.ended([built, *program.words[1:]], setting)
            is_right = done.returncode in (0, 125) or "MONK_SPURIOUS" in more   # a limit isn't waited for then
            if not is_right or "ThreadSanitizer" in done.stderr:
                fail(f"raced: {' '.join(program.words)} {kind} {more}: {done.stderr[:3000]}")
    return f"{len(programs) * len(KINDS) * len(FREEDOMS)} runs without a race"


def failed(tests: Any, names: "tuple[str, ...]", library: str) -> str:
    """The first of these tests that fails with this library, and how."""
    os.environ["MONK_PTHREAD"], tests.library = library, library
    try:
        for name in names:
            getattr(tests, name)()
    except (SystemExit, subprocess.TimeoutExpired) as end:
        return f"{name}: {end}"
    finally:
        del os.environ["MONK_PTHREAD"]
    return ""


def finds(tests: Any, name: str, it: Mutant) -> str:
    """The first test that finds the mutant."""
    library = os.path.join(tests.room, "mutant.so")
    source = mutant((PTHREAD, WRITER), os.path.join(tests.room, name), it)
    tests.said([*LAYER, source, os.path.join(OUT, "whole.o"), "-ldl", "-o", library], name)
    if it.tests:
        return failed(tests, it.tests, library)
    programs = (*SOUND, Program(("buffer", "right", "3000"), "buffer: wrong 0"))
    for kind, wish, program in [*itertools.product(("NPNB", "PB"), ("any", "entry"), programs)] * 5:
        wrong: str = tests.wrong_of(tests.task(program, kind, wish, "128"), library)
        if wrong:
            return wrong
    return ""


def mutants(tests: Any) -> str:
    """Each mutant of the layer is found. MUTANTS names some, with commas between them; else all are tried."""
    names = os.environ["MUTANTS"].split(",") if "MUTANTS" in os.environ else [*MUTANTS]
    for name in names:
        found = finds(tests, name, MUTANTS[name])
        print(f"mutants: {name}: {found.splitlines()[0] if found else 'NOT FOUND'}", flush=True)
        if not found:
            fail(f"mutants: {name} is not found")
    return f"{len(names)} mutants found"


def soak(tests: Any) -> str:
    """Programs, kinds and wishes by chance, for a while. A seed that is given makes the same runs."""
    seed = int(os.environ.get("SEED", time.time_ns() % 2**32))
    folder, report = os.path.join(tests.room, "soak"), os.path.join(tests.room, "report")
    chance, end, runs, volumes, events = random.Random(seed), time.time() + tests.seconds, 0, 0, 0
    print(f"soak: SEED={seed}", flush=True)
    while time.time() < end:
        words, kind, wish = chance.choice(SOAKED), chance.choice(KINDS), chance.choice(WISHES)
        shutil.rmtree(folder, ignore_errors=True)
        done = tests.run(kind, wish, tests.words(words), "--budget", "96", "--seed", str(runs), "--history", folder,
                         "--report", report, "--seconds", PATIENT_SECONDS)
        if done.returncode and not (done.returncode == 125 and kind.endswith("IR")):
            with open(report) as file:
                fail(f"soak: {words} {kind} {wish} seed {runs}: status {done.returncode}: {done.stderr}{file.read()}")
        more = tests.audited(folder)
        runs, volumes, events = runs + 1, volumes + more[0], events + more[1]
    return f"{runs} runs, {volumes} volumes legal, each follows the one before, {events} events"
