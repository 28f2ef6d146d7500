"""Runs a program with one of its requests for memory, or the start of one of its threads, refused (refuse.c)."""
from __future__ import annotations

import os
import re
import subprocess
from typing import List, NamedTuple, Tuple

HERE = os.path.dirname(os.path.abspath(__file__))
TOP = os.path.dirname(os.path.dirname(HERE))

# How the tests mark that they ask for no memory between two lines (tests/marks.rt). In front of such a line refuse.c
# writes how many requests there were before it.
MARK = "no memory"
MARKED = re.compile(r"(\d+) no memory (from|up to) here")
# The lines before and after what a program says when a request is refused.
TRY, ENDED = re.compile(r"try (\d+)"), re.compile(r"ended (-?\d+)")


class Try(NamedTuple):
    """A request that is refused: what the program had said before it, what it said then, and how it ended."""
    before: List[str]
    lines: List[str]
    status: int


class Refusing:
    """The library that refuses, built in a folder, and how long a program may take with it."""

    def __init__(self, folder: str, seconds: float = 20) -> None:
        self.library = os.path.join(folder, "refuse.so")
        self.seconds = seconds
        source = os.path.join(HERE, "refuse.c")
        subprocess.run(["cc", "-shared", "-fPIC", "-O1", "-o", self.library, source, "-ldl"], check=True)

    def run(self, words: List[str], request: int = 0, thread: int = 0,
            **more: str) -> Tuple[Tuple[str, str, int], List[int]]:
        """What the program prints on both streams, its status, and how many requests and threads there were, or 0 and 0
        if a signal ended it. The request and the thread of these numbers are refused, counted from 1."""
        counted, write = os.pipe()
        refused = {"REFUSE": str(request), "REFUSE_THREAD": str(thread)}
        setting = {**os.environ, "LD_PRELOAD": self.library, "TELL": str(write), **refused, **more}
        try:
            done = subprocess.run(words, capture_output=True, text=True, timeout=self.seconds, env=setting,
                                  pass_fds=[write], check=False)
        finally:
            os.close(write)
        counts = [int(count) for count in os.read(counted, 64).split()] or [0, 0]
        os.close(counted)
        return (done.stdout, done.stderr, done.returncode), counts

    def each(self, words: List[str]) -> Tuple[List[str], List[Try]]:
        """What the program says with ample memory, and with each of its requests refused in turn. It has one thread."""
        setting = {**os.environ, "LD_PRELOAD": self.library, "REFUSE_EACH": "1"}
        done = subprocess.run(words, capture_output=True, text=True, timeout=60 * self.seconds, env=setting, check=True)
        said: List[str] = []
        tries: List[Try] = []
        lines = iter(done.stdout.splitlines())
        for line in lines:
            if not TRY.fullmatch(line):
                said.append(line)
                continue
            then: List[str] = []
            while not (ended := ENDED.fullmatch(line := next(lines))):
                then.append(line)
            tries.append(Try([*said], then, int(ended[1])))
        return said, tries

    def between_marks(self, words: List[str], **more: str) -> Tuple[int, int]:
        """How many stretches the program has marked, and how many requests it made within them. It must end with status
        0."""
        (said, why, status), _ = self.run(words, 0, 0, MARK=MARK, **more)
        if status:
            raise ValueError(f"{words}: ends with {status}: {said[-1000:]}{why[-1000:]}")
        counts = [(found[2], int(found[1])) for found in map(MARKED.match, said.splitlines()) if found]
        if [word for word, _ in counts] != ["from", "up to"] * (len(counts) // 2):
            raise ValueError(f"{words}: a mark is missing")
        return len(counts) // 2, sum(until - begun for (_, begun), (_, until) in zip(counts[::2], counts[1::2]))
