"""A student's file in Java: it is compiled with the Check.java of its exercise, and played by the lab's process
(lab/java)."""

from __future__ import annotations

import contextlib
import glob
import os
import re
import shutil
import tempfile
from typing import List, Sequence

from . import compiled
from .foreign import Process

JDK = "default-jdk-headless, a JDK from 17"
# A small machine of Java's, which begins fast.
SMALL = ("-XX:+UseSerialGC", "-XX:TieredStopAtLevel=1", "-XX:-UsePerfData")
FLAGS = (*(f"-J{flag}" for flag in (*SMALL, "-Xmx192m")), "-g", "-proc:none", "-encoding", "UTF-8")
# These files rewrite code with `synchronized`, by what JDK 17 to 21 have inside. Without it they are left out.
REWRITING = ("Rewriter.java", "RewrittenCalls.java", "RewrittenMethod.java")
INSIDE = ("--add-exports", "java.base/jdk.internal.org.objectweb.asm=ALL-UNNAMED")
# (a warning of the machine isn't to stand where the answers are)
RUN = (*SMALL, "-ea", "-Xmx64m", "-Xlog:disable", "-Xlog:all=warning:stderr")
# The class of scenes of an exercise, and what it may have beside it. A public class has to be in a file of its name.
CHECK, OWN = "Check", ("Check.java", "Given.java")
# What has to be rewritten, and what of a text is no code.
INTRINSIC, NO_CODE = re.compile(r"\bsynchronized\b"), re.compile(r"//[^\n]*|/\*.*?\*/|\"(?:\\.|[^\"\\\n])*\"", re.S)
PUBLIC = re.compile(r"^\s*public\s+(?:final\s+|abstract\s+)*class\s+(\w+)", re.M)


def answer(path: str, room: str) -> compiled.Answer:
    """The student's programs in the scenes of Check.java. NotBuilt if the compiler refuses them."""
    sources, classes = os.path.join(room, "source"), os.path.join(room, "classes")
    lab = classes_of_lab(compiled.lab("java"), room)
    if not os.path.exists(classes):
        _build(path, sources, lab, classes)
    return compiled.Answer(path, process(lab, classes, CHECK, sources))


def process(lab: str, classes: str, scenes: str, sources: str) -> Process:
    """The process of that class of scenes. The folders: the lab's classes, its own, and its sources."""
    inside = INSIDE if _rewrites(lab) else ()
    words = [compiled.tool(["java"], JDK), *RUN, *inside, "-cp", lab, "lab.Driver", classes, scenes]
    return Process(words, sources)


def _rewrites(lab: str) -> bool:
    """Whether the lab's classes have those that rewrite."""
    return os.path.exists(os.path.join(lab, "lab", "Rewriter.class"))


def _build(path: str, sources: str, lab: str, classes: str) -> None:
    exercise = compiled.exercise()
    own = [os.path.join(exercise, name) for name in OWN if os.path.exists(os.path.join(exercise, name))]
    if not own:
        raise compiled.NotBuilt(f"this exercise isn't in Java: it has no {OWN[0]}")
    os.makedirs(sources, exist_ok=True)
    with open(path, encoding="utf-8", errors="replace") as file:
        text = NO_CODE.sub(" ", file.read())
    if INTRINSIC.search(text) and not _rewrites(lab):
        raise compiled.NotBuilt("`synchronized` needs JDK 17 to 21 here: take the lab's Monitor, or a Lock")
    public = PUBLIC.search(text)
    copy = os.path.join(sources, f"{public[1]}.java" if public else os.path.basename(path))
    shutil.copyfile(path, copy)
    compile_to(classes, [copy, *own], ["-cp", lab])


def classes_of_lab(folder: str, room: str) -> str:
    """The folder of the lab's classes. They are compiled once, beside their sources, or else in the room."""
    sources = glob.glob(os.path.join(folder, "lab", "*.java"))
    of = f"of_{max(map(os.path.getmtime, sources), default=0):.0f}"
    kept = os.path.join(folder if os.access(folder, os.W_OK) else room, "out", of)
    if not os.path.exists(kept):
        os.makedirs(os.path.dirname(kept), exist_ok=True)
        try:
            compile_to(kept, sources, INSIDE)
        except compiled.NotBuilt:
            compile_to(kept, [path for path in sources if os.path.basename(path) not in REWRITING], [])
    return kept


def compile_to(classes: str, sources: Sequence[str], words: Sequence[str]) -> None:
    """Compiles these files into a folder that is new, or made by another at the same time. NotBuilt if it can't."""
    compiler: List[str] = [compiled.tool(["javac"], JDK), *FLAGS, *words]
    with tempfile.TemporaryDirectory(dir=os.path.dirname(classes)) as made:
        compiled.build([*compiler, "-d", made, *sources])
        with contextlib.suppress(OSError):
            os.rename(made, classes)
