"""A student's file in C: it is built with the check.c of its exercise and the lab's process (lab/c)."""

from __future__ import annotations

import os

from . import compiled
from .foreign import Process

# (a call of what isn't declared, or a number for a pointer, would end the process and not say why)
FLAGS = ("-std=gnu11", "-O1", "-g", "-Wall", "-Wextra", "-Werror=implicit-function-declaration", "-Werror=int-conversion",
         "-Werror=incompatible-pointer-types")


def answer(path: str, room: str) -> compiled.Answer:
    """The student's programs in the scenes of check.c. NotBuilt if the compiler refuses them."""
    program = os.path.join(room, "program")
    if not os.path.exists(program):
        _build(path, program)
    return compiled.Answer(path, Process([program], os.path.dirname(path)))


def _build(path: str, program: str) -> None:
    exercise, lab = compiled.exercise(), compiled.lab("c")
    if not os.path.exists(os.path.join(exercise, "check.c")):
        raise compiled.NotBuilt("this exercise isn't in C: it has no check.c")
    compiler = compiled.tool(("gcc", "cc"), "gcc")
    sources = [os.path.join(lab, "lab.c"), os.path.join(exercise, "check.c"), path]
    compiled.build([compiler, *FLAGS, "-I", lab, "-I", exercise, "-o", program + ".new", *sources])
    os.rename(program + ".new", program)
