"""Scenes in other languages: a process has the programs, and the driver says who moves next.

The driver writes `new WORD SCENE WORDS`, `go PROGRAMS` or `end`, and the process answers each by that word, a digest of
all answers of this run, and a line of JSON. One of its programs runs at a time, up to its next call. Nothing changes
between two answers: each has the data, and what the invariant and the tests say.

What programs do after the same moves is the same, under each kind. So each move is asked for once, and the answer is
kept. A run leaves what is known at its first move that is new: there the process makes the moves before it again. By
the digest each of its answers on the way has to be as it was."""

from __future__ import annotations

import linecache
import os
from typing import Any, Callable, Dict, List, Sequence, Tuple

from .actor import Over
from .calls import Call
from .errors import MonkError
from .pipe import MS_A_SECOND, Answer, Pipe
from .run import STUCK, WRONG
from .scene import Scene
from .shared import in_words

# The most moves that are made by one question.
MOST_MOVES = 64
END = -1
# The most runs by which is found where chance comes in.
MORE_RUNS = 8
CHANCE = ("the same moves don't do the same once more: make all data anew in each run, and leave nothing to chance or to "
          "a thread of your own")


class Known:
    """What is answered after some moves, the digest of all answers up to there, and what is known of one more."""
    __slots__ = ("answer", "digest", "then")

    def __init__(self, answer: Answer, digest: bytes = b"") -> None:
        self.answer, self.digest = answer, digest
        self.then: Dict[int, Known] = {}


class Process:
    """A process of scenes, in one run at a time."""

    def __init__(self, command: Sequence[str], folder: str = ".") -> None:
        self.pipe, self.folder = Pipe(command), folder
        # By the question that makes a scene: what is known of it.
        self.scenes: Dict[str, Known] = {}
        # This run: its scene, its moves, and what is known there; and whether the process has made them.
        self.question = ""
        self.moves: List[int] = []
        self.known = Known({})
        self.is_there = False
        # The last answer that has the data.
        self.now: Answer = {}

    def begin(self, question: str) -> Answer:
        """Begins a run of that scene."""
        self.is_there = question not in self.scenes
        if self.is_there:
            self.scenes[question] = Known(self.pipe.ask(question), self.pipe.digest)
        self.question, self.known, self.moves = question, self.scenes[question], []
        self.now = self.known.answer
        return self.known.answer

    def go(self, number: int) -> Answer:
        """The program moves up to its next call. END in place of a program: what the test of the end says."""
        if number not in self.known.then:
            self.known.then[number] = Known(self._asked(number), self.pipe.digest)
        self.known = self.known.then[number]
        self.moves.append(number)
        self.now = self.known.answer if "data" in self.known.answer else self.now
        return self.known.answer

    def _asked(self, number: int) -> Answer:
        """What the process answers to a move that is new. First it makes those of this run once more, if it has to."""
        for question in [] if self.is_there else [self.question, *self._questions()]:
            answer = self.pipe.ask(question)
            if "endless" in answer:                 # a program of the last run doesn't let itself be ended
                return answer
        if not self.is_there and self.pipe.digest != self.known.digest:
            return self._chance()
        self.is_there = True
        return self.pipe.ask("end" if number == END else f"go {number}")

    def _chance(self) -> Answer:
        """Says that a run wasn't as it was; and where, or in which data, if that is found."""
        both = self._differing()
        first = min((it for it in both if it.get("file")), key=lambda it: int(it["line"]), default=None)
        if first:
            return {"fault": CHANCE, "is_last": True, "file": first["file"], "line": first["line"]}
        then, now = (it.get("data", {}) for it in both)
        names = ", ".join(name for name in then if name in now and now[name] != then[name])
        return {"fault": f"{CHANCE}{': ' * bool(names)}{names};", "is_last": True}

    def _differing(self) -> Tuple[Answer, Answer]:
        """What is known of a move of this run, and another answer to it, from some runs more. Both are empty if each
        answer is as it is known."""
        for _ in range(MORE_RUNS):
            known, answer, moves = self.scenes[self.question], self.pipe.ask(self.question), iter(self.moves)
            while self.pipe.digest == known.digest and (number := next(moves, None)) is not None:
                known, answer = known.then[number], self.pipe.ask(f"go {number}")
            if self.pipe.digest != known.digest:
                return known.answer, answer
        return {}, {}

    def _questions(self) -> List[str]:
        """The moves of this run, many in a question."""
        parts = [self.moves[begin:begin + MOST_MOVES] for begin in range(0, len(self.moves), MOST_MOVES)]
        return [f"go {' '.join(map(str, part))}" for part in parts]

    def scene(self, name: str, *words: object) -> Callable[[], Scene]:
        """A function that makes that scene of the process anew."""
        question = " ".join(map(str, ["new", self.pipe.word, name, *words]))

        def made() -> Scene:
            answer = self.begin(question)
            if not answer.get("programs"):
                late = f"isn't made in {answer['endless'] / MS_A_SECOND:g} s" if "endless" in answer else ""
                fault = answer.get("fault") or late or "has no programs"
                raise MonkError(f"{name}: {fault}{self.place(answer)}")
            programs = [Program(self, number, title) for number, title in enumerate(answer["programs"])]
            end = self._end if answer["has_end"] else None
            return Scene(programs, lambda: _told(self.now["invariant"]), end, answer["may_wait"], shared=self)
        made.__name__ = name
        return made

    def _end(self) -> Any:
        answer = self.go(END)
        return _told(answer.get("end", answer.get("fault", "it doesn't answer")))

    def words(self) -> Dict[str, str]:
        """The data that are guarded, as they are now."""
        return dict(self.now["data"])

    def __str__(self) -> str:
        return in_words(self.words())

    def place(self, answer: Answer) -> str:
        """The line that an answer names, and its text."""
        if not answer.get("file"):
            return ""
        text = linecache.getline(os.path.join(self.folder, answer["file"]), answer["line"]).strip()
        return f" ({answer['file']}:{answer['line']}{': ' * bool(text)}{text})"

    def close(self) -> None:
        self.pipe.close()


def _told(answer: Any) -> Any:
    """The answer of a test. An error of the test is a string."""
    if isinstance(answer, str):
        raise AssertionError(answer)
    return answer


class Program:
    """A program of the process, and its calls. The process ends it when it makes the next scene."""
    first = {"outside": "an enter comes first", "inside": "a leave comes first"}
    untested = "give the wait on {name} in line {line} a test"

    def __init__(self, process: Process, number: int, title: str) -> None:
        self.process, self.number, self.__name__, self.line = process, number, title, ""

    def __call__(self) -> Program:
        return self

    steps, close = __call__, __call__

    def __next__(self) -> Call:
        last = self.line
        answer = self.process.go(self.number)
        self.line = f"{answer['line']} of {answer['file']}" if answer.get("file") else last
        if "endless" in answer or "fault" in answer:
            place = self.process.place(answer)
            raise self._over(answer, place or (f" after line {last}" if last else " before its first call"))
        if "ended" in answer:
            raise StopIteration
        key = f"{self.number} {answer['on']}"
        test = (lambda: _told(self.process.now["tests"][key])) if answer["test"] else None
        return Call(answer["call"], answer["on"], test)

    @staticmethod
    def _over(answer: Answer, where: str) -> Over:
        if "fault" in answer:
            return Over(WRONG, "", answer["fault"] + where, is_endless="is_last" in answer)
        seconds = answer["endless"] / MS_A_SECOND
        return Over(STUCK, "", f"makes no call for {seconds:g} s{where}", is_endless=True)
