"""Records monitors that are made of a lock of threading and its conditions.

    recorder = Recorder()
    lock = recorder.lock()                  # in place of threading.Lock(); recorder.rlock() of threading.RLock()
    not_full = recorder.condition(lock)     # in place of threading.Condition(lock)
    recorder.act(code, arg, reply)          # while the lock is held, after an operation on what it guards, if that is
                                            # to be judged
    recorder.write("run", "buffer 4")       # the log, into a new file, and beside it run.names; the object and its size
    recorder.summary()                      # what was seen, in words

`record_queue(queue.Queue(4))` puts a recorder into a queue of the standard library. The thread that holds the lock
writes each line. For an unchanged program, with monk_program.py beside this file:

    MONK_LOG=PREFIX PYTHONPATH=recorders/python python -m monk_log PROGRAM ARGS ..

writes PREFIX.1, PREFIX.2, .. when it ends, one for each lock with a wait, beside each the names in it, PREFIX.1.names,
and a last line on standard error. MONK_OBJECT is the end of the first line of a log. After MONK_SECONDS the logs are
written, and the program ends with status 124. With MONK_SHAKE=SEED threads let others go first at random, here and with
a recorder of one's own. recorders/README.md says what a recorder can't see.
"""
from __future__ import annotations

import itertools
import os
import random
import signal
import sys
import threading
import time
import types
from typing import Any, Callable, Iterator

SEATS, CONDITIONS = 32, 8  # the limits of a log
STATUS_LATE = 124
# A thread is slow for some calls and then fast for some: CALLS at most. How often it is slow, and how many seconds it
# then sleeps at most; and how often it lets others go first while it is fast. A thread that was woken is slow more
# often, and TIMES_WOKEN times as long: then others come in before it.
CALLS, SLOW, NAP, YIELD = 8, 0.4, 0.001, 0.25
SLOW_WOKEN, TIMES_WOKEN = 0.9, 8


class Shaker:
    """Lets others go first at random. Each thread has numbers of its own, by the seed and the thread's number."""

    def __init__(self, seed: str) -> None:
        self._seed, self._of_thread, self._numbers = seed, threading.local(), itertools.count()

    def __call__(self, is_woken: bool = False) -> None:
        here = self._of_thread
        if not hasattr(here, "dice"):
            here.dice, here.left, here.is_slow = random.Random(f"{self._seed} {next(self._numbers)}"), 0, False
        if not here.left:
            here.left, here.is_slow = here.dice.randint(1, CALLS), here.dice.random() < SLOW
        here.left -= 1
        if is_woken and here.dice.random() < SLOW_WOKEN:
            time.sleep(here.dice.random() * NAP * TIMES_WOKEN)
        elif here.is_slow:
            time.sleep(here.dice.random() * NAP)
        elif here.dice.random() < YIELD:
            time.sleep(0)


SEED = os.environ.get("MONK_SHAKE")


def _be_still(is_woken: bool = False) -> None:
    """Does nothing: without a seed nobody is shaken."""


shake: Callable[..., None] = _be_still
if SEED:
    shake = Shaker(SEED)


HERE = os.path.dirname(os.path.abspath(__file__))
# The files whose frames come between a program and a line of its log.
BETWEEN = {__file__, threading.__file__, *(os.path.join(HERE, name) for name in ("monk_log.py", "monk_program.py"))}


# A line of a log: the place from which it comes, as code and an offset in it, and its words. (To ask at once for the
# line of the source takes longer than all else.)
Line = tuple[Any, ...]
WORDS = 2  # where the words begin


def caller(depth: int) -> types.FrameType:
    """The frame of the program that is being run, `depth` frames above or more."""
    frame = sys._getframe(depth)
    while frame.f_code.co_filename in BETWEEN and frame.f_back:
        frame = frame.f_back
    return frame


def place_of(code: types.CodeType, offset: int) -> str:
    numbers = (line for begin, end, line in code.co_lines() if begin <= offset < end)
    return f"{os.path.basename(code.co_filename)}:{next(numbers, 0) or 0}"


def start_watch(watch: Callable[..., None], *words: object) -> None:
    """Runs it in a thread that takes no signal: each signal is meant for a thread of the program."""
    before = signal.pthread_sigmask(signal.SIG_BLOCK, signal.valid_signals())
    threading.Thread(target=watch, args=words, daemon=True).start()
    signal.pthread_sigmask(signal.SIG_SETMASK, before)


class Recorder:
    """The lines of one monitor."""

    def __init__(self) -> None:
        self._lines: list[Line] = []
        self._seats: dict[int, int] = {}
        self._conditions, self._is_used = 0, False
        self.waits, self.strays, self.stopped = 0, 0, ""
        self.made_at: list[str] = []  # the lock and its conditions
        self.names: list[str] = []  # of threads

    def lock(self) -> Lock:
        return Lock(self, threading_lock())

    def rlock(self) -> Lock:
        return Lock(self, threading_rlock())

    def condition(self, lock: Lock | None = None) -> Condition:
        return Condition(self, self.next_number(), lock or self.rlock())

    def next_number(self) -> int:
        self._conditions += 1
        return self._conditions - 1

    def act(self, code: int, arg: int, reply: int) -> None:
        """Reports an operation on what the lock guards: its code, its argument and its reply (docs/MONITORS.md)."""
        self.put("act", code, arg, reply)

    def text(self, thing: str = "buffer 1") -> str:
        """The log so far. No thread may be active."""
        return "".join(f"{row}\n" for row in self._rows(self._lines, thing))

    def _rows(self, lines: list[Line], thing: str) -> Iterator[str]:
        yield f"log 1 {len(self._seats)} {min(self._conditions, CONDITIONS)} {thing}"
        yield from (" ".join(map(str, line[WORDS:])) for line in lines)

    def _names(self, lines: list[Line], how_it_ended: str) -> Iterator[str]:
        """What is written beside the log: where the lock and its conditions were made, the names of threads, and the
        places of lines."""
        whats = ["lock", *(f"condition {number}" for number in range(len(self.made_at) - 1))]
        yield from (f"{what} made at {where}" for what, where in zip(whats, self.made_at))
        yield from (f"seat {seat} {name}" for seat, name in enumerate(self.names))
        yield from [f"ended {how_it_ended}"] * bool(how_it_ended)
        places = {site: place_of(*site) for site in dict.fromkeys(line[:WORDS] for line in lines)}
        numbers = {place: number for number, place in enumerate(dict.fromkeys(places.values()), 1)}
        yield from (f"site {number} {place}" for place, number in numbers.items())
        yield " ".join(["lines", *(str(numbers[places[line[:WORDS]]]) for line in lines)])

    def write(self, path: str, thing: str = "buffer 1", how_it_ended: str = "") -> None:
        """Writes the log so far into a new file, and PATH.names beside it. No thread may be active."""
        lines = list(self._lines)
        with open(path, "x") as file:
            file.writelines(f"{row}\n" for row in self._rows(lines, thing))
        with open(f"{path}.names", "x", errors="replace") as file:
            file.writelines(f"{row}\n" for row in self._names(lines, how_it_ended))

    def summary(self) -> str:
        """What was seen, in words."""
        lines = f"{len(self._lines)} lines, {self.waits} waits"
        parts = [f"{lines}, {len(self._seats)} threads, {self._conditions} conditions"]
        if self.stopped:
            parts.append(f"it ends early, since {self.stopped}")
        if self.strays:
            parts.append(f"signals without the lock, refused: {self.strays}")
        if SEED:
            parts.append(f"shaken by seed {SEED}")
        return "; ".join(parts)

    def end_after(self, seconds: float, path: str, thing: str = "buffer 1") -> None:
        """For a program that hangs: after that many seconds its log is written into a new file, and it ends with
        status 124."""
        start_watch(self._end_late, seconds, path, thing)

    def _end_late(self, seconds: float, path: str, thing: str) -> None:
        time.sleep(seconds)
        try:
            self.write(path, thing, "after MONK_SECONDS")
            said = self.summary()
        except OSError as fault:
            said = f"no log, since {fault}"
        print(f"monk: {path}: {said}", file=sys.stderr, flush=True)
        os._exit(STATUS_LATE)

    def put(self, verb: str, *numbers: int) -> None:
        """Writes a line. The lines before one that isn't written are a log too."""
        if self.stopped:
            return
        thread = threading.get_ident()
        if thread not in self._seats and len(self._seats) == SEATS:
            self.stopped = f"there are more than {SEATS} threads, and a log has no more seats"
        elif verb in ("wait", "signal", "broadcast") and numbers[0] >= CONDITIONS:
            self.stopped = f"there are more than {CONDITIONS} conditions, and a log has no more"
        else:
            self._add(verb, thread, numbers)

    def _add(self, verb: str, thread: int, numbers: tuple[int, ...]) -> None:
        if thread not in self._seats:
            self._seats[thread] = len(self._seats)
            # (current_thread() would make a new one for a thread that is only beginning)
            self.names.append(getattr(threading._active.get(thread), "name", "?"))  # type: ignore[attr-defined]
        frame = caller(4)
        self._lines.append((frame.f_code, frame.f_lasti, verb, self._seats[thread], *numbers))
        self.waits += verb == "wait"
        self._is_used |= verb not in ("enter", "leave")
        # a thread that came and left before says nothing, and most locks have no conditions
        if verb == "leave" and not self._is_used:
            self._lines.clear()

    def forget(self) -> None:
        """Forgets the log, in a child that was forked."""
        self._lines.clear()
        self._seats.clear()
        self.names.clear()
        self.waits, self.strays, self.stopped, self._is_used = 0, 0, "", False


# What a recorded lock is made of, though a program sees others in its place.
threading_lock, threading_rlock, ThreadingCondition = threading.Lock, threading.RLock, threading.Condition


class Lock:
    """A lock that records who comes in and leaves. A thread that has it already comes in only once."""

    def __init__(self, recorder: Recorder, raw: Any) -> None:
        self.recorder, self._raw, self._owner, self._times = recorder, raw, 0, 0

    def acquire(self, blocking: bool = True, timeout: float = -1) -> bool:
        shake()
        got: bool = self._raw.acquire(blocking, timeout)
        if got:
            self._owner, self._times = threading.get_ident(), self._times + 1
            if self._times == 1:
                self.recorder.put("enter")
        return got

    def release(self) -> None:
        shake()
        if self._times == 1 and self._is_owned():
            self.recorder.put("leave")
        self._times = max(0, self._times - 1)
        if not self._times:
            self._owner = 0
        self._raw.release()

    def locked(self) -> bool:
        return self._times > 0

    __enter__ = acquire

    def __exit__(self, *_: object) -> None:
        self.release()

    # What a condition asks of its lock; a wait is no `leave`, and its end no `enter`.

    def _is_owned(self) -> bool:
        return self._owner == threading.get_ident()

    def _release_save(self) -> int:
        times, self._times, self._owner = self._times, 0, 0
        for _ in range(times):
            self._raw.release()
        return times

    def _acquire_restore(self, times: int) -> None:
        shake(is_woken=True)
        for _ in range(times):
            self._raw.acquire()
        self._times, self._owner = times, threading.get_ident()

    def _at_fork_reinit(self) -> None:
        self._raw._at_fork_reinit()
        self._times, self._owner = 0, 0


class Condition(threading.Condition):
    """A condition that records who waits, goes on and signals; without a recorder it is as any other."""

    # the internals of threading.Condition
    _is_owned: Callable[[], bool]
    _waiters: Any

    def __init__(self, recorder: Recorder | None, number: int, lock: Any) -> None:
        super().__init__(lock)
        self._recorder, self._number = recorder, number

    def wait(self, timeout: float | None = None) -> bool:
        if not self._recorder or not self._is_owned():
            return super().wait(timeout)  # (which may refuse it)
        shake()
        self._recorder.put("wait", self._number)
        got = False
        try:
            got = super().wait(timeout)
        finally:
            self._recorder.put("resume" if got else "lapse")
        return got

    def _tell(self, verb: str, times: int) -> None:
        if not self._recorder:
            return
        shake()
        if not self._is_owned():
            self._recorder.strays += 1
            return
        for _ in range(times):
            self._recorder.put(verb, self._number)

    def notify(self, n: int = 1) -> None:
        self._tell("signal", n)
        super().notify(n)

    def notify_all(self) -> None:
        self._tell("broadcast", 1)
        super().notify(len(self._waiters))


def record_queue(queue: Any, number: Callable[[Any], int] | None = None) -> Recorder:
    """Puts a recorder into a queue that no thread uses yet, and returns it. Condition 0 is `not_full`, 1 `not_empty`,
    2 `all_tasks_done`. If `number` gives an item's number, a queue.Queue is recorded as a buffer."""
    recorder = Recorder()
    queue.mutex = recorder.lock()
    queue.not_full, queue.not_empty, queue.all_tasks_done = (recorder.condition(queue.mutex) for _ in range(3))
    if number:
        _record_items(queue, recorder, number)
    return recorder


def _record_items(queue: Any, recorder: Recorder, number: Callable[[Any], int]) -> None:
    put, get = queue._put, queue._get

    def record_put(item: Any) -> None:
        put(item)
        recorder.act(0, number(item), 1)

    def record_get() -> Any:
        item = get()
        recorder.act(1, 0, number(item) + 1)
        return item

    queue._put, queue._get = record_put, record_get


if __name__ == "__main__":
    if len(sys.argv) < 2:
        sys.exit("monk_log: MONK_LOG=PREFIX python -m monk_log PROGRAM ARGS ..")
    del sys.argv[0]
    import monk_program

    monk_program.run_program(sys.argv[0])
