"""libmonk, loaded by ctypes, with the types of each of its calls."""

from __future__ import annotations

import ctypes
import os
from typing import Any, Dict, List, Tuple, Type

from .errors import ERRORS, MonkError

OUTSIDE, WAITING, INSIDE = 1, 2, 3
PLACES = {OUTSIDE: "outside", WAITING: "waiting", INSIDE: "inside"}
FOREVER = -1
AT_ONCE = ctypes.c_long(0)
# The greatest numbers that C holds: of a greater one ctypes silently passes the low bits.
MOST_UNSIGNED, MOST_LONG = 2**32 - 1, 2 ** (8 * ctypes.sizeof(ctypes.c_long) - 1) - 1
SYSTEMS_LIBRARY = "libmonk.so.1"
# Calls with a pointer, and those with a pointer and the number of a condition or a flag.
OF_A_POINTER = ("stop", "close", "free", "abandon", "place", "arrive", "poll", "leave")
OF_A_NUMBER = ("start_wait", "start_signal", "start_wait_until", "broadcast", "signal_leave", "waiting",
               "finish")


class Shape(ctypes.Structure):
    """What a monitor is made of."""
    _fields_ = [("kind", ctypes.c_int), ("seats", ctypes.c_uint), ("conditions", ctypes.c_uint),
                ("flags", ctypes.c_uint), ("budget", ctypes.c_uint32), ("seed", ctypes.c_uint64)]


def _beside() -> List[str]:
    """Where the library may be beside this package: in its folder, in the sources, or where both were installed, by
    Debian's package too."""
    folder = os.path.dirname(os.path.abspath(__file__))
    places = [("libmonk.so",), ("..", "..", "out", "libmonk.so"), ("..", "..", SYSTEMS_LIBRARY),
              ("..", "..", "..", SYSTEMS_LIBRARY),
              ("..", "..", "..", f"{os.uname().machine}-linux-gnu", SYSTEMS_LIBRARY)]
    return [os.path.normpath(os.path.join(folder, *place)) for place in places]


def _opened(way: Type[ctypes.CDLL]) -> ctypes.CDLL:
    named, beside = os.environ.get("MONK_LIBRARY"), _beside()
    path = named or next((it for it in beside if os.path.exists(it)), SYSTEMS_LIBRARY)
    try:
        return way(path)
    except OSError as fault:
        looked = (f"MONK_LIBRARY ({named or 'not set'}); {', '.join(beside)}; {SYSTEMS_LIBRARY} where the system's "
                  "loader looks")
        words = f"libmonk can't be loaded: {fault}. Looked for: {looked}. docs/C.md says how it is built."
        raise ImportError(words) from fault


def _load(way: Type[ctypes.CDLL]) -> ctypes.CDLL:
    """The library, with the types of each of its calls."""
    opened = _opened(way)
    pointer, number, unsigned, text = ctypes.c_void_p, ctypes.c_int, ctypes.c_uint, ctypes.c_char_p
    out = ctypes.POINTER(pointer)
    answers: Dict[str, List[Any]] = {
        "make": [out, ctypes.POINTER(Shape)], "take_seat": [pointer, out], "set_wish": [pointer, number],
        "await": [pointer, ctypes.c_long], "enter_within": [pointer, ctypes.c_long],
        "start_signal_wait": [pointer, unsigned, unsigned],
        "set_flags": [pointer, ctypes.c_uint32], "flags": [pointer, ctypes.POINTER(ctypes.c_uint32)],
        "history": [pointer, pointer, out, ctypes.POINTER(ctypes.c_size_t)],
    }
    answers.update({name: [pointer] for name in OF_A_POINTER})
    answers.update({name: [pointer, unsigned] for name in OF_A_NUMBER})
    told: Dict[str, Tuple[List[Any], Any]] = {
        "strerror": ([number], text), "build": ([], text), "version": ([], unsigned),
        "left": ([pointer], ctypes.c_uint32), "seat_number": ([pointer], unsigned)}
    for name, (takes, gives) in {**{name: (takes, number) for name, takes in answers.items()}, **told}.items():
        call = getattr(opened, "monk_" + name)
        call.argtypes, call.restype = takes, gives
    return opened


library = _load(ctypes.CDLL)
# The same for the calls of each visit that never wait: they keep Python's own lock, which is faster.
library_now = _load(ctypes.PyDLL)
free = ctypes.CDLL(None).free
free.argtypes, free.restype = [ctypes.c_void_p], None


def in_words(answer: int) -> str:
    """What the library says of an answer."""
    return str(library.monk_strerror(answer).decode())


def checked(answer: int) -> int:
    """The answer, or its error."""
    if answer < 0:
        raise ERRORS.get(answer, MonkError)(in_words(answer))
    return answer


def version() -> str:
    """The version of the library that is loaded."""
    number = library.monk_version()
    return f"{number >> 16}.{number >> 8 & 255}.{number & 255}"


def build() -> str:
    """Which library is loaded: the one with the proved kernel, or the reference."""
    return str(library.monk_build().decode())
