"""Checks exercise 2: python3 check.py FILE"""

from __future__ import annotations

import types
from typing import Any, Callable, List

from monk import Scene
from monk.lab import Check, happens, holds, main, some_order_breaks

# Random orders of a kind, if all would be too many.
DICE = 100


class Readers:
    """How many readers were seen at once, in all runs."""

    def __init__(self) -> None:
        self.most = 0


def scene(answer: Any, readers: int, writers: int, seen: Readers) -> Callable[[], Scene]:
    def made() -> Scene:
        book = types.SimpleNamespace(readers=0, is_written=False)
        inside = {"read": 0, "write": 0}
        start_read, end_read, start_write, end_write = answer.procedures(book)

        def is_right() -> bool:
            return inside["write"] <= 1 and not (inside["read"] and inside["write"])

        def visit(what: str, start: Any, end: Any) -> Any:
            yield from start()
            inside[what] += 1
            assert is_right(), f"{inside['read']} read and {inside['write']} write at once"
            seen.most = max(seen.most, inside["read"])
            rest = end()
            yield next(rest)                        # others may come before it is inside again
            inside[what] -= 1
            yield from rest

        def reader() -> Any:
            yield from visit("read", start_read, end_read)

        def writer() -> Any:
            yield from visit("write", start_write, end_write)

        programs = [*(reader for _ in range(readers)), *(writer for _ in range(writers))]
        return Scene(programs, lambda: not (book.readers and book.is_written), guarded=[book])
    return made


def checks(answer: Any) -> List[Check]:
    seen, nobody = Readers(), Readers()
    return [
        holds("one reads and one writes, under PNB and NPNB", scene(answer, 1, 1, nobody), ["PNB", "NPNB"]),
        holds("two read and one writes, under PNB and NPNB", scene(answer, 2, 1, nobody), ["PNB", "NPNB"]),
        holds("one reads and two write, under PNB and NPNB", scene(answer, 1, 2, nobody), ["PNB", "NPNB"], DICE),
        happens("two readers may read at once", scene(answer, 2, 1, seen), ["PNB", "NPNB"], lambda: seen.most > 1,
                "in no order under PNB and NPNB"),
        holds("two read and one writes, under every kind", scene(answer, 2, 1, nobody), orders=DICE),
        holds("one reads and two write, under every kind", scene(answer, 1, 2, nobody), orders=DICE),
    ]


def checks_of_compiled(answer: Any) -> List[Check]:
    def of(readers: int, writers: int, what: str = "book") -> Callable[[], Scene]:
        return answer.scene(what, readers, writers)
    return [
        holds("one reads and one writes, under PNB and NPNB", of(1, 1), ["PNB", "NPNB"]),
        holds("two read and one writes, under PNB and NPNB", of(2, 1), ["PNB", "NPNB"]),
        holds("one reads and two write, under PNB and NPNB", of(1, 2), ["PNB", "NPNB"], DICE),
        some_order_breaks("two readers may read at once", of(2, 1, "together"), ["PNB", "NPNB"],
                          "in no order under PNB and NPNB"),
        holds("two read and one writes, under every kind", of(2, 1), orders=DICE),
        holds("one reads and two write, under every kind", of(1, 2), orders=DICE),
    ]


main("Exercise 2: readers and writers", checks, checks_of_compiled)
