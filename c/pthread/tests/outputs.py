"""Tests of files that the layer and the recorder write where the system refuses: each is told once, with a count, and
nothing else is changed."""
import os
import shutil
import subprocess
from typing import Any, List, NamedTuple, Tuple

from idioms import RECORDER, SECONDS, recorder
from unasked import fail

CANT, AT_ONCE, BUFFER, SAID = 125, 5, ("buffer", "right", "20"), "buffer: wrong 0\n"
OPENED = 8      # of the files of a run of many volumes; one of these is of names (of four it isn't at each load)


class Fault(NamedTuple):
    """How writing goes wrong (failing.c), why, and how many files are lost: of the layer's, and of the recorder's."""
    how: str
    why: str
    layers: Tuple[int, int]
    recorders: Tuple[int, int]


NONE = (0, 0)
FAULTS = (
    Fault("FAILS=open:28:1:1", "No space left on device", (2, 2), (1, 1)),
    Fault("FAILS=write:28:1:1", "No space left on device", (2, 2), (1, 1)),
    Fault("FAILS=write:122:2:1", "Disk quota exceeded", (2, 2), (1, 2)),
    Fault("FAILS=close:5:1:1", "Input/output error", (2, 2), (1, 1)),
    Fault("FAILS=close:5:2:9", "Input/output error", (1, 2), (1, 2)),
    Fault("FAILS=write:0:1:1", "", NONE, NONE),     # a part is written each time
    Fault("FAILS=write:4:1:2", "", NONE, NONE),     # each second call is interrupted
    Fault("FAILS= && ulimit -f 0", "File too large", (2, 2), (1, 1)),
    Fault("FAILS= && ulimit -f 2", "File too large", (1, 2), (1, 1)),
)


def told(lost: Tuple[int, int], what: str, first: str, why: str) -> str:
    advice = "make room, or name another place"
    return f"monk: {lost[0]} of {lost[1]} files of {what} couldn't be written; the first is {first}: {why}; {advice}\n"


def files_in(folder: str) -> List[str]:
    return [name for name in sorted(os.listdir(folder)) if not os.path.islink(os.path.join(folder, name))]


class Outputs:
    def __init__(self, tests: Any) -> None:
        self.tests, self.folder = tests, os.path.join(tests.room, "outputs")
        self.shim, self.library = os.path.join(tests.room, "failing.so"), recorder(tests)
        source = os.path.join(os.path.dirname(__file__), "failing.c")
        tests.said(["gcc", "-O2", "-Wall", "-Wextra", "-Werror", "-shared", "-fPIC", "-o", self.shim, source, "-ldl"],
                   "failing.c")
        self.program = " ".join(tests.words(BUFFER))

    def fresh(self) -> str:
        shutil.rmtree(self.folder, ignore_errors=True)
        return self.folder

    def under(self, how: str) -> List[str]:
        return ["sh", "-c", f"export LD_PRELOAD=$LD_PRELOAD:{self.shim} {how}; exec {self.program}"]

    def by_layer(self, before: str, lost: Tuple[int, int], first: str, why: str) -> None:
        """Histories that can't be written: one sentence with their number, and the status."""
        done = self.tests.run("NPNB", "any", self.under(before), "--history", self.fresh())
        says = told(lost, "histories and reports", os.path.join(self.folder, first), why) if lost[0] else ""
        left, status = files_in(self.folder), CANT if lost[0] else 0
        if (done.returncode, done.stdout, done.stderr) != (status, SAID, says) or len(left) != 2 - lost[0]:
            fail(f"outputs {before}: status {done.returncode}: {done.stdout}{done.stderr}{left}")
        if "1.1" in left:
            self.tests.audited(self.folder)

    def by_recorder(self, fault: Fault) -> None:
        """Logs that can't be written: one sentence with their number; the status is the program's."""
        os.makedirs(self.fresh())
        log = os.path.join(self.folder, "run")
        done = self.tests.ended([os.path.join(RECORDER, "monk-record"), "--log", log, "--seconds", SECONDS, "--",
                                 *self.under(fault.how)], {"MONK_RECORDER": self.library})
        lost, left = fault.recorders, files_in(self.folder)
        says = told(lost, "logs", f"{log}.1" + ".names" * (lost[1] - 1), fault.why) if lost[0] else ""
        ends = "no log, since none could be written" if lost == (1, 1) else "1 log, "
        is_told = done.stderr.startswith(f"{says}monk: 1 mutex, 1 with waits, {ends}") and done.stderr.count("\n") <= 2
        if done.returncode or done.stdout != SAID or not is_told or len(left) != 2 - lost[0] - (lost == (1, 1)):
            fail(f"outputs recorded {fault.how}: status {done.returncode}: {done.stdout}{done.stderr}{left}")
        if left and ": fits;" not in self.tests.said([self.tests.monk, "fit", f"{log}.1"], "fit"):
            fail(f"outputs recorded {fault.how}: its log doesn't fit")

    def links(self) -> None:
        """A link that stands at the name of a new file: what it leads to stays as it is."""
        target = os.path.join(self.tests.room, "target")
        with open(target, "w") as file:
            file.write("kept")
        link = f"&& ln -s {target} {self.folder}/1.1 && ln -s {target} {self.folder}/1.names"
        self.by_layer(f"FAILS= {link}", (2, 2), "1.names", "File exists")
        with open(target) as file:
            if file.read() != "kept":
                fail("outputs: a link's target was changed")

    def unread(self) -> None:
        """Nobody reads what the layer says: that doesn't end the program."""
        reader, writer = os.pipe()
        os.close(reader)
        words = [os.path.join(self.tests.pthread, "monk-run"), "--kind", "PB", "--history", self.fresh(), "--",
                 *self.under("FAILS=write:28:1:1")]
        done = subprocess.run(words, stdout=subprocess.PIPE, stderr=writer, text=True, timeout=int(SECONDS))
        os.close(writer)
        if (done.returncode, done.stdout) != (CANT, SAID):
            fail(f"outputs unread: status {done.returncode}: {done.stdout}")


    def names(self) -> None:
        """Names are written in parts: if the first part is lost, the others aren't written."""
        program, was_lost = " ".join(self.tests.words(("timed", "15"))), False
        for number in range(1, OPENED + 1):
            before = f"export LD_PRELOAD=$LD_PRELOAD:{self.shim} FAILS=open:28:{number}:1000"
            done = self.tests.run("NPNB", "any", ["sh", "-c", f"{before}; exec {program}"], "--budget", "96",
                                  "--history", self.fresh())
            if done.returncode != CANT or not done.stderr.startswith("monk: 1 of "):
                fail(f"outputs names {number}: status {done.returncode}: {done.stderr}")
            if ".names: " in done.stderr:
                was_lost = True
                if any(f"{self.folder}/{name}: " in done.stderr for name in files_in(self.folder)):
                    fail(f"outputs names {number}: a part of the names was written: {done.stderr}")
        if not was_lost:
            fail("outputs names: no file of names was lost")

    def cancelled(self) -> None:
        """A thread that was cancelled ends the program: its history is written, whether it has waited or not."""
        words = self.tests.words(("idioms", "cancelled_at_once"))
        done = self.tests.run("NPNB", "any", words, "--eager", "1", "--history", self.fresh())
        if done.returncode != AT_ONCE or self.tests.audited(self.folder)[0] != 1:
            fail(f"outputs cancelled: status {done.returncode}: {done.stderr}")


def outputs(tests: Any) -> str:
    """Files that can't be written, by the layer and by the recorder."""
    it = Outputs(tests)
    for fault in FAULTS:
        it.by_layer(fault.how, fault.layers, "1.names" if fault.layers[0] == 2 else "1.1", fault.why)
        it.by_recorder(fault)
    it.links()
    it.unread()
    it.names()
    it.cancelled()
    return f"{len(FAULTS)} faults of files by the layer and the recorder, each told once"
