"""The programs of the tests: their words, what they have to print, and what monk-try has to say of them."""
from typing import NamedTuple, Tuple


class Program(NamedTuple):
    words: Tuple[str, ...]       # a source of this folder, and its words
    output: str


# Programs that have to print this under each kind.
SOUND = (Program(("odd",), "odd: bad 0"), Program(("timed", "60"), "timed: late some"),
         Program(("outside", "500"), "outside: all seen"), Program(("outside", "500", "signals"), "outside: all seen"),
         Program(("promote", "60"), "promote: bad 0"), Program(("crowd", "30", "8"), "crowd: all went"),
         Program(("barrier",), "barrier: wrong 0"), Program(("conditions",), "conditions: bad 0"))
RIGHT = (("buffer", "right"), ("readers", "right"), ("philosophers", "right"), ("barber", "right"), ("pool", "right"),
         ("pool", "after"), ("barrier", "right"), ("turns", "right"), ("flag", "right"))
# What monk-try has to say of a program with a planted fault; `right` if it is none. (A signal that the buffer forgets
# in one round is covered by later ones: it can't be found for certain, so it isn't here.)
LESSONS = {("buffer", "if"): "if", ("barber", "if"): "if", ("pool", "if"): "if", ("readers", "if"): "hoare",
           ("philosophers", "if"): "right", ("buffer", "one"): "broadcast", ("readers", "one"): "broadcast",
           ("pool", "one"): "broadcast", ("buffer", "early"): "signal", ("buffer", "unlock"): "unlock",
           ("philosophers", "forget"): "deadlock", ("barrier", "one"): "broadcast", ("turns", "if"): "unasked",
           ("flag", "outside"): "signal", ("flag", "twice"): "signal"}
# What the layer remarks, by the fault of misuse.c: words of the sentence.
REMARKS = {"right": "", "mutexes": "at once, which POSIX leaves undefined", "unlock": "hasn't locked it, while another",
           "clock": "its limit was read from CLOCK_MONOTONIC: it runs out at once"}
SOAKED = (("buffer", "right", "2000"), ("readers", "right"), ("barber", "right", "400"), ("pool", "after"),
          ("timed", "100"), ("outside", "1000"))
