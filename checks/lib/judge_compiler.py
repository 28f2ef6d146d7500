"""Wrong bodies that are refused before any proof: checks/wrong_bodies --by compiler [--look | NAME..]

The compiler refuses them, since a value that can't be dropped was let go, or another module's private item named;
or checks/wakes does, where what wakes or sleeps stands elsewhere than it belongs. The prover isn't asked: to it a
body that doesn't compile says nothing, and of wakes and sleeps no contract speaks. Each checks/edits/compiler/NAME.edit
names its crate, what refuses it (a word of the compiler's error, or checks/wakes), and then the texts to change,
as a must-fail edit has them. Each is put into a copy of its crate alone, and the compiler reads that over the
sources of the crates below, which need not be built. --look tries none, and says which can't be put in."""
from __future__ import annotations

import os
import shutil
import subprocess
import tempfile
from concurrent.futures import ThreadPoolExecutor
from typing import List, Tuple

import edits
import kit
from edits import TOP

WAKES = "checks/wakes"
# How many compilers run at a time: each takes some hundred megabytes.
TOGETHER = 2
rt = kit.rt_module()


def said_by(judge: str, crate: str, folder: str) -> Tuple[int, str]:
    """The status of the judge, checks/wakes or the compiler, over the crate whose copy is in the folder, and what it
    says."""
    if judge == WAKES:
        words = [os.path.join(TOP, WAKES), os.path.dirname(folder)]
    else:
        of = rt.rtlib.Crate(os.path.join(TOP, "crates", crate), TOP, {})
        words = [rt.rtlib.RATTLE, "check", *of.words(["--jobs", "1", "--only", ""], as_source=True)]
    done = subprocess.run(words, cwd=folder, capture_output=True, text=True, check=False)
    return done.returncode, done.stdout + done.stderr


def tried(name: str) -> Tuple[bool, str]:
    """Whether the judge that the edit names refused it, and what to say about it."""
    text = edits.read(edits.path_of("compiler", name))
    crate, judge, file = (edits.said(edits.lines_of(text), word) or "" for word in ("crate", "refused by", "file"))
    with tempfile.TemporaryDirectory(prefix="monk-") as room:
        folder = os.path.join(room, crate)
        but = shutil.ignore_patterns("out", "wrong-bodies")
        shutil.copytree(os.path.join(TOP, "crates", crate), folder, ignore=but)
        texts, why = rt.edited(text, folder)
        if why:
            return False, why
        for path, changed in texts.items():
            edits.write(os.path.join(folder, path), changed)
        status, said = said_by(judge, crate, folder)
    is_named = file in said if judge == WAKES else f"{file}:" in said and f"error[{judge}]" in said
    is_refused = status == 1 and is_named
    return is_refused, f"refused by {judge}" if is_refused else f"NOT REFUSED by {judge}\n{said}"


def main(asked: List[str]) -> int:
    if asked == ["--look"]:
        return edits.told(edits.misplaced("compiler"))
    names = asked or edits.all_of("compiler")
    wrong = 0
    with ThreadPoolExecutor(TOGETHER) as pool:
        for name, (is_refused, why) in zip(names, pool.map(tried, names)):
            edits.say(f"{name}: {why}")
            wrong += not is_refused
    return 1 if wrong else 0
