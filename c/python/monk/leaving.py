"""The end of a `with`, by a call of C that no interrupt comes before.

Python sees an interrupt only while it runs code of its own. At the beginning of an `__exit__` in Python the seat
would still be inside, and an interrupt there would leave it inside. This call is C, and has left before any code in
Python runs."""

from __future__ import annotations

import ctypes
from typing import Any, Callable, Tuple

from .libmonk import library_now


class _Unread:
    """The type of an argument that C doesn't read: a 0 stands for every object."""

    from_param: Any = [].count


def leave_before(rest: Callable[[int, object, Tuple[Any, ...]], object]) -> Any:
    """A call of the library that leaves by a seat. Then it calls `rest` with the answer and the words of the call,
    for what is left to do."""
    call: Any = library_now["monk_leave"]
    # The seat, and the three words of an `__exit__`.
    call.argtypes, call.errcheck = [ctypes.c_void_p, _Unread, _Unread, _Unread], rest
    return call


class End(property):
    """An `__exit__` by a seat and a call that `leave_before` makes: the getter gives both as one. A `with` gets it
    before it comes in. Some callers, as contextlib.ExitStack, ask the class instead."""

    def __call__(self, of: Any, *words: object) -> None:
        self.__get__(of)(*words)
