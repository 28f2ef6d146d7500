"""Whether wrong bodies compile, those of must-fail/ too: whether each name in them is known, and each type fits.
Nothing is proved."""
from __future__ import annotations

import collections
import glob
import os
import re
import shutil
import subprocess
import tempfile
from typing import Any, Callable, Dict, Iterable, List, Set, Tuple

from functions import read

# No function has this name, so a check stops before any proof.
NO_FUNCTION = ["--jobs", "1", "--start", "no function"]
ERROR = re.compile(r"^(?:\S*?([^/\s]+)/)?(src/\S+\.rt):(\d+):\d+: (error\b.*)$", re.M)


def edits_of(top: str, is_asked: Callable[[str, str], bool]) -> Dict[str, List[str]]:
    """By crate, the files of the wrong bodies that are asked for."""
    found: Dict[str, List[str]] = collections.defaultdict(list)
    for folder in ("wrong-bodies", "must-fail"):
        for file in sorted(glob.glob(f"{top}/crates/*/{folder}/*.edit")):
            name = file.split("/")[-3]
            found[name] += [file] if is_asked(name, file) else []
    return found


def put_into(folder: str, rt: Any, edits: List[str]) -> List[str]:
    """Puts as many of the wrong bodies into the crate's folder as can be there side by side, and returns the
    others."""
    left: List[str] = []
    for edit in edits:
        texts, why = rt.edited(read(edit), folder)
        for path, text in (texts or {}).items():
            with open(f"{folder}/{path}", "w", encoding="utf-8") as it:
                it.write(text)
        left += [edit] if why else []
    return left


def read_with(crate: Any) -> Set[str]:
    """The crates whose sources are read with this one's."""
    return {crate.name, *(it.name for it in crate.below())}


def few_that_read(crates: Iterable[Any], names: Iterable[str]) -> List[Any]:
    """Crates with which all of these are read, the one with the most first."""
    chosen: List[Any] = []
    left = set(names)
    while left:
        crate = max(crates, key=lambda it: (len(left & read_with(it)), -len(read_with(it))))
        left -= read_with(crate)
        chosen.append(crate)
    return chosen


def errors_of(rt: Any, room: str, names: Iterable[str]) -> List[Tuple[str, str, int, str]]:
    """What the compiler refuses in these crates of the copy: the crate, the file, the line's number and the error."""
    found: Set[Tuple[str, str, int, str]] = set()
    for crate in few_that_read(rt.rtlib.crates_below(room), names):
        words = [rt.rtlib.RATTLE, "check", *crate.words(NO_FUNCTION, keeps=False, as_source=True)]
        ran = subprocess.run(words, cwd=crate.folder, stdin=subprocess.DEVNULL, capture_output=True, text=True,
                             errors="replace", check=False)
        errors = ERROR.findall(ran.stderr)
        if not errors and NO_FUNCTION[-1] not in ran.stderr:
            errors = [("", "src", "0", f"the compiler ended with {ran.stderr[-200:]}")]
        found.update((name or crate.name, path, int(line), error) for name, path, line, error in errors)
    return sorted(found)


def not_compiled(rt: Any, top: str, is_asked: Callable[[str, str], bool]) -> List[str]:
    """The wrong bodies that don't compile, by crate, with what the compiler says. They are tried side by side, in as
    few copies of the repository as hold them."""
    waiting = edits_of(top, is_asked)
    told: List[str] = []
    while any(waiting.values()):
        with tempfile.TemporaryDirectory(prefix="wrong-bodies-") as room:
            shutil.copytree(f"{top}/crates", f"{room}/crates", ignore=shutil.ignore_patterns("out"))
            for file in ("crates.txt", "HANDLES"):
                shutil.copy(f"{top}/{file}", room)
            tried = {name: all_ for name, all_ in waiting.items() if all_}
            waiting = {name: put_into(f"{room}/crates/{name}", rt, all_) for name, all_ in tried.items()}
            told += [f"{name}/{path}:{line}: {error}" for name, path, line, error in errors_of(rt, room, tried)]
        if tried == waiting:
            return told + [f"{it}: it can't be put in" for all_ in waiting.values() for it in all_]
    return told
