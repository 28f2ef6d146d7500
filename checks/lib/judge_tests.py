"""Wrong bodies that only a test can refuse: checks/wrong_bodies --by tests [--look | NAME..]

No contract sees which word a load took, that a hall was not ended beside a ticket, or that a call succeeds where
memory is ample. Each checks/edits/tests/NAME.edit names a crate and has one such body or some: the tests that must
fail with it, and then the text to change, as a must-fail edit has it. In the new text CHOSEN stands for whether the
program has this body, which it asks when it runs (lib/chosen.c). So all bodies stand side by side in one copy of the
repository, its tests are built once, unproved (checks/program), of each crate the modules that are named, and each
body is tried by itself: with it the tests that are named fail, and with none of the bodies they pass. Where 'says:'
stands behind them, each fails by saying that. That all other tests pass is seen by `rt ci`.

A body that takes memory names a test that marks where it asks for none (tests/marks.rt): 'takes:'. With the body it
asks for some there, which the test itself can't see.

A body that waits for a thread which isn't there names a test that must not end with it where the start of that thread
is refused ('hangs:' and 'thread:'). Without the body it ends there, and with it where no thread is refused.

No test sees what the program's process ends with; such an edit names the script that must fail in place of tests, and
what it says. In place of monk's program the script gets a line of shell, which calls that program (MONK) and ends
otherwise ('wraps:'). With the program itself the script passes: the gate has run it.

At last, where no name is given, the tests' programs go to checks/fail_alloc, with none of the bodies chosen.
--look tries none, and says which can't be put in."""
from __future__ import annotations

import os
import shlex
import shutil
import subprocess
import sys
import tempfile
from concurrent.futures import ThreadPoolExecutor
from typing import Dict, Iterable, List, NoReturn, Optional, Tuple

import edits
from edits import TOP, Change
from refusing import Refusing

DECLARED = '\nunsafe extern "C" {\n    safe fn chosen_body() -> u32;\n}\n'
# The words with which a body begins: what must fail with it. And the words that it has once at most.
BEGINS, SAID = ("test", "takes", "hangs", "script"), ("takes", "hangs", "thread", "script", "wraps", "says")
# The modules of tests that checks/fail_alloc wants, by crate.
WANTED = {"monk_tests": ["refused", "objects", "floor_histories", "worlds", "halls"]}
# How long a test or a script may take, in seconds; one that has not ended by then has not failed.
SECONDS = 300


def stop(why: str) -> NoReturn:
    sys.exit(f"wrong_bodies: {why}")


class Body:
    """A wrong body: what it changes, and what must fail with it."""

    def __init__(self, name: str, lines: edits.Lines, crate: str) -> None:
        self.name, self.number = name, 0
        told = {word: edits.said(lines, word) for word in SAID}
        self.takes, self.hangs, self.script = told["takes"], told["hangs"], told["script"]
        self.thread, self.says, self.wraps = int(told["thread"] or 0), told["says"] or "", told["wraps"] or ""
        self.crate = crate
        self.tests = [text for word, text in lines if word == "test"]
        self.changes = [Change(os.path.normpath(os.path.join("crates", crate, file)), old, new)
                        for file, old, new in edits.changes(lines)]

    def named(self) -> List[str]:
        """The tests that it names."""
        return [test for test in (*self.tests, self.takes, self.hangs) if test]


def bodies_of(name: str) -> List[Body]:
    """The bodies of an edit. Each begins with what must fail with it, and has the file of the one before if it names
    none."""
    lines = edits.lines_of(edits.read(edits.path_of("tests", name)))
    crate = edits.said(lines, "crate") or ""
    parts: List[edits.Lines] = []
    file = ""
    for word, text in lines:
        if word in BEGINS and (not parts or any(of == "new" for of, _ in parts[-1])):
            parts.append([("file", file)])
        file = text if word == "file" else file
        if parts:
            parts[-1].append((word, text))
        elif word == "file":
            stop(f"{name}: a file stands before what must fail")
    return [Body(name, part, crate) for part in parts]


def texts_with(bodies: List[Body]) -> Dict[str, str]:
    """The files with all bodies side by side, each chosen by its number."""
    files: Dict[str, str] = {}
    for body in bodies:
        for file, old, new in body.changes:
            text = files.get(file) or edits.read(os.path.join(TOP, file))
            if text.count(old) != 1:
                stop(f"{body.name}: an old text does not stand once in {file}")
            if "CHOSEN" not in new:
                stop(f"{body.name}: a new text does not ask whether it is chosen")
            files[file] = text.replace(old, new.replace("CHOSEN", f"(chosen_body() == {body.number})"))
    return files


def copy_with(bodies: List[Body], folder: str) -> None:
    """A copy of the repository, without what checks have kept, with all bodies."""
    files, but = texts_with(bodies), shutil.ignore_patterns("out")
    shutil.copytree(os.path.join(TOP, "crates"), os.path.join(folder, "crates"), ignore=but)
    shutil.copytree(os.path.join(TOP, "checks"), os.path.join(folder, "checks"))
    for part in ("crates.txt", "HANDLES"):
        shutil.copy(os.path.join(TOP, part), folder)
    for file, text in files.items():
        edits.write(os.path.join(folder, file), text + DECLARED)
    chosen, source = os.path.join(folder, "chosen.o"), os.path.join(TOP, "checks", "lib", "chosen.c")
    subprocess.run(["cc", "-c", "-fPIC", "-O1", "-o", chosen, source], check=True)
    os.mkdir(os.path.join(folder, "programs"))


def built(crate: str, bodies: List[Body], folder: str, also: List[str]) -> str:
    """The program of the crate's tests, with the modules of the bodies and of `also`, from the copy."""
    program = os.path.join(folder, "programs", crate)
    words = [os.path.join(folder, "checks", "program"), "--link=" + os.path.join(folder, "chosen.o")]
    named = [test for body in bodies if body.crate == crate for test in body.named()]
    modules = sorted({test.split("::")[0] for test in named}.union(also))
    words += ["--tests", "--of=" + ",".join(modules), os.path.join(folder, "crates", crate), program]
    done = subprocess.run(words, capture_output=True, text=True, check=False)
    if done.returncode:
        stop(f"{crate} could not be built with the bodies: {done.stdout}{done.stderr}")
    return program


def ends(words: List[str], number: int, **more: str) -> Tuple[Optional[int], str]:
    """How the words end with the body of that number: the status, and what was said; no status if not in time."""
    try:
        done = subprocess.run(words, stdin=subprocess.DEVNULL, timeout=SECONDS, capture_output=True, text=True,
                              errors="replace", env={**os.environ, "BODY": str(number), **more}, check=False)
    except subprocess.TimeoutExpired:
        return None, ""
    return done.returncode, done.stdout + done.stderr


def is_refused_by(program: str, test: str, number: int, says: str = "") -> bool:
    """Whether the test fails with the body of that number, by an answer or an assertion, and says what it must
    say."""
    status, said = ends([program, "tests::" + test], number)
    if status == 0 and "test result: ok" in said:
        return False
    if status and ("\nthe test failed: " in said or "\ntest stopped at " in said) and says in said:
        return True
    stop(f"{test} with the body {number} neither passes nor fails, but ends with {status}: {said[-2000:]}")


class Judge:
    """Tries the bodies, by a copy with all of them and its programs, one for each crate."""

    def __init__(self, folder: str, programs: Dict[str, str]) -> None:
        self.folder, self.programs, self.refusing = folder, programs, Refusing(folder)

    def by(self, body: Body) -> str:
        """What refuses the body."""
        if body.script:
            return self.by_script(body, body.script)
        if body.hangs:
            return self.by_waiting(body, body.hangs)
        if body.takes:
            return self.by_memory(body, body.takes)
        return self.by_tests(body)

    def by_script(self, body: Body, script: str) -> str:
        monk = subprocess.check_output([os.path.join(TOP, "checks", "program")], text=True).strip()
        wrapper = os.path.join(self.folder, body.name)
        edits.write(wrapper, f"#!/bin/sh\nMONK={shlex.quote(monk)}\n{body.wraps}\n")
        os.chmod(wrapper, 0o755)
        status, said = ends([os.path.join(TOP, script)], body.number, MONK=wrapper)
        if not status or body.says not in said:
            stop(f"{body.name}: {script} does not fail, or says otherwise: {said[-2000:]}")
        return script

    def is_waiting(self, body: Body, test: str, number: int, thread: int) -> bool:
        """Whether the test doesn't end with the body of that number if the start of that thread is refused (0: of
        none)."""
        try:
            self.refusing.run([self.programs[body.crate], "tests::" + test], thread=thread, BODY=str(number))
        except subprocess.TimeoutExpired:
            return True
        return False

    def by_waiting(self, body: Body, test: str) -> str:
        if self.is_waiting(body, test, 0, body.thread):
            stop(f"{body.name}: {test} does not end without the body")
        if self.is_waiting(body, test, body.number, 0):
            stop(f"{body.name}: {test} does not end with all of its threads")
        if not self.is_waiting(body, test, body.number, body.thread):
            stop(f"{body.name}: {test} ends")
        return f"{test}, which does not end without thread {body.thread}"

    def by_memory(self, body: Body, test: str) -> str:
        words = [self.programs[body.crate], "tests::" + test]
        if self.refusing.between_marks(words)[1]:
            stop(f"{body.name}: {test} takes memory without the body")
        if not self.refusing.between_marks(words, BODY=str(body.number))[1]:
            stop(f"{body.name}: {test} takes no memory")
        return f"{test}, which takes memory where it must not"

    def by_tests(self, body: Body) -> str:
        for test in body.tests:
            if is_refused_by(self.programs[body.crate], test, 0):
                stop(f"{body.name}: {test} fails without the body")
            if not is_refused_by(self.programs[body.crate], test, body.number, body.says):
                stop(f"{body.name}: {test} does not fail")
        return ", ".join(body.tests)


def numbered(names: Iterable[str]) -> List[Body]:
    bodies = [body for name in names for body in bodies_of(name)]
    for number, body in enumerate(bodies, 1):
        body.number = number
    return bodies


def main(asked: List[str]) -> int:
    if asked == ["--look"]:
        return edits.told(edits.misplaced("tests"))
    bodies, also = numbered(asked or edits.all_of("tests")), {} if asked else WANTED
    with tempfile.TemporaryDirectory() as folder, ThreadPoolExecutor(os.cpu_count()) as pool:
        copy_with(bodies, folder)
        crates = sorted({body.crate for body in bodies if not body.script})
        programs = pool.map(lambda crate: built(crate, bodies, folder, also.get(crate, [])), crates)
        judge = Judge(folder, dict(zip(crates, programs)))
        for body, by in zip(bodies, pool.map(judge.by, bodies)):
            edits.say(f"{body.name}: refused by {by}")
        words = [os.path.join(TOP, "checks", "fail_alloc"), "--built", os.path.join(folder, "programs")]
        return subprocess.run(words, check=False).returncode if also else 0
