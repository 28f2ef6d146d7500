"""How the demonstrations of each language are built and run, for recorders/check."""
from __future__ import annotations

import glob
import os
import shutil
import subprocess
from typing import Callable, Dict, List

HERE = os.path.dirname(os.path.abspath(__file__))
# How long a recorded run may last, in seconds; one that may hang; and one that may hang and is shaken. Of how many
# signals one is dropped.
LONG, LONG_IF_HANGING, LONG_IF_SHAKEN, EVERY = "20", "0.3", "0.6", "7"
HANGING, STATUS_LATE = ("if", "forgotten", "drop", "single", "early", "returns", "deadlock"), 124
# Mutexes that another thread unlocks.
OWNERS = ("astray", "robust")
# The faults that need a rare order: each run is shaken by a seed of its own.
SHAKEN, SMALL = ("early", "unlocked", "deadlock"), ("pair", "drop", "single", "early")
TOOLS = {"c": ("gcc",), "c++": ("gcc", "g++"), "python": ("python3",), "java": ("javac", "java"), "go": ("go",),
         "rust": ("rustc",)}
# The input of the unmodified programs: lines enough that sort takes threads.
ROWS, PRIME = 300000, 999983


def missing(language: str) -> list[str]:
    """The tools of the language that are missing."""
    return [tool for tool in TOOLS[language] if not shutil.which(tool)]


def demo(name: str) -> str:
    return os.path.join(HERE, "demos", name)


def make(*words: str, folder: str) -> None:
    """Builds something, in the folder."""
    done = subprocess.run(words, cwd=folder, capture_output=True, text=True)
    if done.returncode:
        raise SystemExit(f"recorders: {' '.join(words)}\n{done.stdout}{done.stderr}")


def build_library(folder: str) -> None:
    source = os.path.join(HERE, "c", "libmonk_log.c")
    make("gcc", "-O2", "-Wall", "-Wextra", "-Werror", "-shared", "-fPIC", "-o", "libmonk_log.so", source, "-ldl",
         "-lpthread", folder=folder)


def build_c(folder: str) -> None:
    build_library(folder)
    make("gcc", "-O2", "-shared", "-fPIC", "-o", "libdrop.so", demo("drop.c"), "-ldl", folder=folder)
    for name in ("buffer", "hoare", "owners"):
        make("gcc", "-g", "-O2", "-o", name, demo(f"{name}.c"), "-lpthread", folder=folder)


def build_cpp(folder: str) -> None:
    build_library(folder)
    for name, level in (("buffer", "-O2"), ("unoptimized", "-O0")):
        make("g++", "-g", level, "-o", name, demo("buffer.cc"), "-lpthread", folder=folder)


def build_java(folder: str) -> None:
    make("javac", "-d", ".", os.path.join(HERE, "java", "MonkLog.java"), demo("Buffer.java"), folder=folder)


def build_go(folder: str) -> None:
    os.makedirs(os.path.join(folder, "monklog"))
    shutil.copy(os.path.join(HERE, "go", "monklog.go"), os.path.join(folder, "monklog"))
    shutil.copy(demo("buffer.go"), folder)
    with open(os.path.join(folder, "go.mod"), "w") as file:
        file.write("module demo\n\ngo 1.18\n")
    make("go", "build", "-o", "buffer", ".", folder=folder)


def build_rust(folder: str) -> None:
    make("rustc", "--edition", "2021", "-O", "-o", "buffer", demo("buffer.rs"), folder=folder)


def build_nothing(_: str) -> None:
    """A program of Python runs as it is."""


BUILDS = {"c": build_c, "c++": build_cpp, "python": build_nothing, "java": build_java, "go": build_go,
          "rust": build_rust}
LOST = ("lost notify", "passed on")
# By language, the words of a program that writes all its logs itself.
WRITERS: Dict[str, Callable[[str, str], List[str]]] = {
    "python": lambda folder, style: ["python3", demo("lost_notify.py" if style in LOST else "buffer.py")],
    "java": lambda folder, style: ["java", "-cp", folder, "Buffer"],
    "go": lambda folder, style: [os.path.join(folder, "buffer")],
    "rust": lambda folder, style: [os.path.join(folder, "buffer")],
}


def shaking(style: str, seed: int) -> dict[str, str]:
    """What the environment has in addition, if a style is shaken."""
    return {"MONK_SHAKE": str(seed)} if style in SHAKEN else {}


def seconds_of(style: str) -> str:
    """How long a run may last."""
    return LONG if style not in HANGING else LONG_IF_SHAKEN if style in SHAKEN else LONG_IF_HANGING


def run_recorded(folder: str, style: str, prefix: str, seed: int) -> str:
    """Runs a program with the recorder loaded; returns what it says on standard error."""
    name = "owners" if style in OWNERS else style if style == "unoptimized" else "buffer"
    drops, program = style == "drop", os.path.join(folder, name)
    words = [*UNMODIFIED[style], input_of(folder)] if style in UNMODIFIED else [program, "pair" if drops else style]
    env = {
        **os.environ,
        "LD_PRELOAD": os.path.join(folder, "libmonk_log.so") + (f" {folder}/libdrop.so" if drops else ""),
        "MONK_LOG": prefix,
        "MONK_OBJECT": "buffer 1" if style in SMALL else "buffer 2",
        "MONK_SECONDS": seconds_of(style),
        "MONK_DROP": EVERY,
        **shaking(style, seed),
    }
    ran = subprocess.run(words, env=env, cwd=folder, stdout=subprocess.DEVNULL, stderr=subprocess.PIPE, text=True)
    if ran.returncode not in (0, STATUS_LATE):
        raise SystemExit(f"recorders: {' '.join(words)} ended with {ran.returncode}\n{ran.stderr}")
    return ran.stderr


def input_of(folder: str) -> str:
    """A text that is the same each time, in no order."""
    path = os.path.join(folder, "numbers")
    if not os.path.exists(path):
        with open(path, "w") as file:
            file.writelines(f"{row * row % PRIME}\n" for row in range(ROWS))
    return path


UNMODIFIED = {
    "xz": ["xz", "-T4", "-0", "--block-size=262144", "-c"],
    "sort": ["sort", "--parallel=4"],
}


def run(language: str, style: str, folder: str, times: int) -> tuple[list[str], str]:
    """Runs a demonstration some times, without its earlier logs; its logs, and what standard error says."""
    prefix, said = os.path.join(folder, f"{style.replace(' ', '_')}.log"), ""
    for path in glob.glob(f"{prefix}.*"):
        os.remove(path)
    if language in WRITERS:
        env = {**os.environ, **shaking(style, 1)}
        subprocess.run([*WRITERS[language](folder, style), prefix, str(times), style], env=env, check=True)
    for number in range(0 if language in WRITERS else times):
        name = f"{prefix}.{number}"
        if style.startswith("hoare"):
            with open(name, "w") as file:
                subprocess.run([os.path.join(folder, "hoare"), *style.split()[1:]], stdout=file, check=True)
        else:
            said += run_recorded(folder, style, name, number + 1)
    return logs_of(prefix), said


def logs_of(prefix: str) -> list[str]:
    """The logs whose names begin with that; beside each is a file of names."""
    return sorted(path for path in glob.glob(f"{prefix}.*") if not path.endswith(".names"))
