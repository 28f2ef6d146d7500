"""The process of programs in another language: it is asked by lines, and answers each by a line: a word, a digest of all
answers of this run, and JSON."""

from __future__ import annotations

import contextlib
import json
import os
import select
import signal
import subprocess
from typing import Any, Dict, Optional, Sequence

# How many seconds the process may take to answer. It has a shorter limit itself, and then says the line.
LIMIT = 10
# The milliseconds that a program may take to its next call; and once one took longer.
USUAL_MS, SHORT_MS = 2000, 200
MS_A_SECOND = 1000
# The bytes that are read at once, and that an answer has at most.
PAGE, MOST_ANSWER = 1 << 16, 1 << 22
# What a program does if another text stands where an answer has to be.
INTRUDES = "writes where the lab answers"
Answer = Dict[str, Any]


class Pipe:
    """The process, begun when it is first asked, and anew after a program of it didn't end."""

    def __init__(self, command: Sequence[str]) -> None:
        self.command, self.limit = list(command), USUAL_MS
        # (what a program prints where the process answers is no answer)
        self.word = os.urandom(8).hex()
        self.process: Optional[subprocess.Popen[bytes]] = None
        # The JSON that was heard, each once: few are different.
        self.heard: Dict[bytes, Answer] = {}
        # The digest of the answers of this run up to the last one.
        self.digest = b""

    def ask(self, words: str) -> Answer:
        """The answer to that question. If an interrupt comes before it, the process is ended."""
        process, line, self.digest = self._begun(), b"", b""
        assert process.stdin and process.stdout
        try:
            with contextlib.suppress(BrokenPipeError):
                process.stdin.write(f"{words}\n".encode())
            while not line.endswith(b"\n") and len(line) < MOST_ANSWER:
                is_ready = bool(select.select([process.stdout], [], [], LIMIT)[0])
                more = os.read(process.stdout.fileno(), PAGE) if is_ready else b""
                if not more:
                    return self._without(is_ready)
                line += more
        except BaseException:
            self.close()
            raise
        return self._parsed(line)

    def _begun(self) -> subprocess.Popen[bytes]:
        if self.process is None:
            setting = {**os.environ, "LAB_MS": str(self.limit)}
            self.process = subprocess.Popen(self.command, stdin=subprocess.PIPE, stdout=subprocess.PIPE, bufsize=0,
                                            start_new_session=True, env=setting)
        return self.process

    def _parsed(self, line: bytes) -> Answer:
        word, _, rest = line.partition(b" ")
        self.digest, _, rest = rest.partition(b" ")
        is_whole = word == self.word.encode() and rest.find(b"\n") == len(rest) - 1
        if is_whole and rest not in self.heard:
            self.heard[rest] = json.loads(rest)
        answer = self.heard[rest] if is_whole else {"fault": INTRUDES, "is_last": True}
        if "endless" in answer:
            self.end_late()
        if "is_last" in answer:
            self.close()
        return answer

    def _without(self, has_ended: bool) -> Answer:
        """What is said of a process that gave no answer."""
        if has_ended:
            return {"fault": f"ends the whole process (status {self.close()})"}
        self.end_late()
        return {"endless": LIMIT * MS_A_SECOND}

    def end_late(self) -> None:
        """Ends a process of which a program didn't end. From now on each has less time."""
        self.close()
        self.limit = SHORT_MS

    def close(self) -> int:
        """Ends the process, and returns its status. The next question begins it anew."""
        process, self.process = self.process, None
        if process is None:
            return 0
        assert process.stdin and process.stdout
        process.stdin.close()
        with contextlib.suppress(subprocess.TimeoutExpired):
            process.wait(SHORT_MS / MS_A_SECOND)
        with contextlib.suppress(OSError):
            os.killpg(process.pid, signal.SIGKILL)
        process.stdout.close()
        return process.wait()

    def __del__(self) -> None:
        self.close()
