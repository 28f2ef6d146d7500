"""Wrong bodies as they are in files. Each line is a word and what it says, such as `crate: monk_hall`. After
`file:` come the texts to change there, `old:` and `new:` in turn, each in one line."""
from __future__ import annotations

import glob
import os
import threading
from typing import Iterable, Iterator, List, NamedTuple, Optional, Tuple

TOP = os.path.dirname(os.path.dirname(os.path.dirname(os.path.abspath(__file__))))
EDITS = os.path.join(TOP, "checks", "edits")
ENDING = ".edit"
Lines = List[Tuple[str, str]]
printing = threading.Lock()


class Change(NamedTuple):
    """A text that is once in a file, and the text that replaces it."""
    file: str
    old: str
    new: str


def say(text: str) -> None:
    with printing:
        print(f"wrong_bodies: {text}", flush=True)


def told(wrong: Iterable[str]) -> int:
    """Says what is wrong, and returns the status."""
    lines = list(wrong)
    for line in lines:
        say(line)
    return 1 if lines else 0


def name_of(path: str) -> str:
    return os.path.basename(path)[: -len(ENDING)]


def path_of(judge: str, name: str) -> str:
    """The path of the edit of that name that this judge refuses."""
    return os.path.join(EDITS, judge, name + ENDING)


def all_of(judge: str) -> List[str]:
    """The names of the edits that this judge refuses."""
    return sorted(map(name_of, glob.glob(path_of(judge, "*"))))


def read(path: str) -> str:
    with open(path, encoding="utf-8") as file:
        return file.read()


def write(path: str, text: str) -> None:
    with open(path, "w", encoding="utf-8") as file:
        file.write(text)


def lines_of(text: str) -> Lines:
    rows = (line.partition(":") for line in text.splitlines())
    return [(word, said[1:]) for word, _, said in rows]


def said(lines: Lines, word: str) -> Optional[str]:
    """What the edit says in its first line with that word."""
    return next((text for of, text in lines if of == word), None)


def misplaced(judge: str) -> Iterator[str]:
    """Which of the edits that this judge refuses can't be put in."""
    for name in all_of(judge):
        lines = lines_of(read(path_of(judge, name)))
        for file, old, _ in changes(lines):
            path = os.path.join(TOP, "crates", said(lines, "crate") or "", file)
            if not os.path.exists(path) or read(path).count(old) != 1:
                yield f"{name}: an old text does not stand once in {os.path.relpath(path, TOP)}"


def changes(lines: Lines) -> Iterator[Change]:
    file = old = ""
    for word, text in lines:
        if word == "file":
            file = text.strip()
        elif word == "old":
            old = text
        elif word == "new":
            yield Change(file, old, text)
