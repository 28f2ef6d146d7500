"""Exercise 2: readers and writers. Fill in the four procedures, then run: python3 check.py skeleton.py

Nobody may read while somebody writes, and one writes at a time. Readers may read together. Try it first with a signal
to all (`yield signal_all("read")`), which two kinds have. Then find a way with single signals, for all ten."""

from types import SimpleNamespace
from typing import Sequence

from monk import Calls, Program, enter, leave, signal, signal_all, wait


# book.readers: how many read; book.is_written: whether somebody writes
def procedures(book: SimpleNamespace) -> Sequence[Program]:
    def start_read() -> Calls:
        yield enter()
        # wait while somebody writes
        book.readers += 1
        yield leave()

    def end_read() -> Calls:
        yield enter()
        book.readers -= 1
        # tell a writer, if this was the last reader
        yield leave()

    def start_write() -> Calls:
        yield enter()
        # wait while somebody reads or writes
        book.is_written = True
        yield leave()

    def end_write() -> Calls:
        yield enter()
        book.is_written = False
        # tell readers and writers
        yield leave()

    return start_read, end_read, start_write, end_write
