"""Where threads were at the end of a run, in the words of the program's source; and the step of a history at which a
woken thread may rely on too much. Part of monk-try."""
import os
from typing import Dict, List, NamedTuple, Optional, Set, Tuple

from monk_callers import FUNCTIONS, callers_of, said
from monk_runs import reports

# The letters that nm gives to data of a program; and how far after a name an address may be that belongs to it.
DATA, FARTHEST = "bBdDvVuC", 4096
MOST_HISTORIES = 3
_symbols: Dict[str, List[Tuple[int, str]]] = {}


def symbols(program: str) -> List[Tuple[int, str]]:
    if program not in _symbols:
        rows = [line.split(maxsplit=2) for line in said(["nm", "-n", "-C", program]).splitlines()]
        _symbols[program] = [(int(row[0], 16), row[2]) for row in rows if len(row) == 3 and row[1] in DATA]
    return _symbols[program]


def name_of(place: str) -> str:
    """The name of the data at PATH+0xOFFSET; the place itself if it has none."""
    path, plus, offset = place.rpartition("+0x")
    if not plus:
        return place
    at = int(offset, 16)
    before = [row for row in symbols(path) if row[0] <= at]
    if not before or at - before[-1][0] > FARTHEST:
        return place
    address, name = before[-1]
    return name if at == address else f"{name}+{at - address}"


# That of binutils 2.40 takes some lines of a header for those of the file that includes it.
TOOLS = ("llvm-addr2line", "addr2line")
_lines: Dict[str, str] = {}


def full_line(place: str) -> str:
    """Path and line of the call before PATH+0xOFFSET, or of its caller, if the call is in a header of the system and
    inlined; nothing if the program doesn't say."""
    path, plus, offset = place.rpartition("+0x")
    if plus and place not in _lines:
        told = (said([tool, "-i", "-e", path, hex(int(offset, 16) - 1)]).splitlines() for tool in TOOLS)
        found = ([row.split(" ")[0] for row in rows if row and not row.startswith("?")] for rows in told)
        _lines[place] = min(next(filter(None, found), []), key=is_header, default="")
    return _lines.get(place, "")


def is_header(line: str) -> bool:
    """Whether the line is one of the system's headers."""
    return line.startswith("/usr/include/")


def is_own(place: str) -> bool:
    return bool(full_line(place)) and not is_header(full_line(place))


def line_of(place: str) -> str:
    """File and line of the call before PATH+0xOFFSET; from where it is called, if it is in a header of the system; file
    and function of a program without lines; the place itself, and its function, if the program doesn't say more."""
    line = full_line(place)
    if not line:
        return place + exported_at(place)
    callers = callers_of(place, is_own) if is_header(line) else []
    if callers:
        return " or ".join(dict.fromkeys(map(short_line, callers)))
    return short_line(place)


def short_line(place: str) -> str:
    file, _, number = os.path.basename(full_line(place)).rpartition(":")
    return f"{file}:{number}" if number != "?" else f"{file}, in {functions_at(place).partition(chr(10))[0]}"


_exported: Dict[str, List[List[str]]] = {}


def exported_at(place: str) -> str:
    """The function that a library exports there; nothing if there is none."""
    path, plus, offset = place.rpartition("+0x")
    if plus and path not in _exported:
        _exported[path] = [line.split(maxsplit=3) for line in said(["nm", "-D", "-S", "-C", path]).splitlines()]
    at = int(offset, 16) if plus else 0
    for row in _exported.get(path, []) if plus else []:
        start, size = (int(word, 16) for word in row[:2]) if len(row) == 4 and row[2] in FUNCTIONS else (at, 0)
        if start < at <= start + size:
            return f" (in {row[3].partition('(')[0].partition('@')[0]})"
    return ""


_functions: Dict[str, str] = {}


def functions_at(place: str) -> str:
    """The functions at the call before PATH+0xOFFSET, with those into which they are inlined."""
    path, plus, offset = place.rpartition("+0x")
    if plus and place not in _functions:
        _functions[place] = said(["addr2line", "-f", "-C", "-i", "-e", path, hex(int(offset, 16) - 1)])
    return _functions.get(place, "")


class Names(NamedTuple):
    mutexes: Dict[str, str]
    conditions: Dict[Tuple[str, str], str]
    waits: Dict[Tuple[str, str], Tuple[str, str]]        # for a monitor and a seat: the condition, and where it waits


def names_in(rows: List[List[str]]) -> Names:
    names = Names({}, {}, {})
    for row in rows:
        if row[0] == "monitor":
            names.mutexes[row[1]] = name_of(row[2])
        elif row[0] == "condition":
            names.conditions[row[1], row[2]] = name_of(row[3])
        elif row[0] == "on":
            names.waits[row[1], row[2]] = (row[3], line_of(row[4]))
    return names


def sentence(row: List[str], names: Names) -> str:
    """The sentence for the row `seat MONITOR SEAT thread THREAD STANDING ..`."""
    monitor, seat, thread, standing = row[1], row[2], row[4], " ".join(row[5:])
    mutex = names.mutexes.get(monitor, "?")
    if not standing.startswith("waits"):
        return f"thread {thread}: {standing}, {mutex}"
    number, line = names.waits.get((monitor, seat), ("", "?"))
    condition = names.conditions.get((monitor, number), "?")
    return f"thread {thread} waits on {condition} of {mutex} at {line}{standing[len('waits'):]}"


def who_waits(folder: str) -> List[str]:
    """Who was where at the end of a run, one sentence each."""
    told = []
    for rows in reports(folder).values():
        names = names_in(rows)
        told += [sentence(row, names) for row in rows if row[0] == "seat" and row[5] != "ghost"]
        seated = {row[4] for row in rows if row[0] == "seat" and row[5] != "ghost"}
        told += [f"thread {row[1]} {' '.join(row[3:])} at {line_of(row[2])}" for row in rows
                 if row[0] == "does" and row[1] not in seated]
    return told


CLOCKS = {"CLOCK_REALTIME": "CLOCK_MONOTONIC", "CLOCK_MONOTONIC": "CLOCK_REALTIME"}


def remark_of(words: List[str]) -> str:
    """The sentence for what follows `remark` in a report."""
    if words[0] == "mutexes":
        condition, first, second = name_of(words[1]), *sorted(map(name_of, words[2:4]))
        return f"threads wait on {condition} with {first} and with {second} at once, which POSIX leaves undefined"
    if words[0] == "unlock":
        return (f"{name_of(words[1])} is unlocked at {line_of(words[2])} by a thread that hasn't locked it, while another"
                " has, which POSIX leaves undefined")
    return (f"the wait at {line_of(words[1])} goes by {CLOCKS[words[2]]}, but its limit was read from {words[2]}: it"
            f" runs out {' '.join(words[3:])}")


def remarks_in(folder: str) -> List[str]:
    """What the layer remarked, each as its words."""
    return [" ".join(row[1:]) for rows in reports(folder).values() for row in rows if row[0] == "remark"]


def woken_in(folder: str) -> List[str]:
    """The places of waits that woke unasked."""
    return [row[1] for rows in reports(folder).values() for row in rows if row[0] == "woken"]


def last_volumes(folder: str) -> Dict[int, int]:
    last: Dict[int, int] = {}
    for name in os.listdir(folder) if os.path.isdir(folder) else []:
        monitor, _, volume = name.partition(".")
        if volume.isdigit():
            last[int(monitor)] = max(last.get(int(monitor), 0), int(volume))
    return last


def worth_reading(folder: str) -> List[str]:
    """The last volumes of the monitors at which somebody was at the end; else those of the first monitors."""
    found = []
    for history, rows in reports(folder).items():
        last = last_volumes(history)
        stood = {int(row[1]) for row in rows if row[0] == "seat"} & set(last)
        found += [os.path.join(history, f"{monitor}.{last[monitor]}") for monitor in sorted(stood or set(last))]
    return found[:MOST_HISTORIES]


# ---- the step that a woken thread relies on


class Suspect(NamedTuple):
    step: int
    seat: int            # the one that comes back from its wait and goes on
    between: int         # the one that came in after the signal
    steps: int           # how many such steps there are


def waits_on(row: List[str]) -> str:
    """The condition of a `wait` or `signal_wait`."""
    return row[-1] if row[0] == "signal_wait" else row[2]


class Waits:
    """While a history is read: who waits on what, and since when those who were signalled may come in."""

    def __init__(self) -> None:
        self.queues: Dict[str, List[str]] = {}
        self.served: Dict[str, Tuple[int, str]] = {}     # the step of the signal, and the condition

    def read(self, step: int, row: List[str]) -> None:
        verb = row[0]
        if verb in ("signal", "signal_leave", "signal_wait") and self.queues.get(row[2]):
            self.served[self.queues[row[2]].pop(0)] = (step, row[2])
        elif verb == "broadcast":
            self.served.update({seat: (step, row[2]) for seat in self.queues.pop(row[2], [])})
        if verb in ("wait", "signal_wait"):
            self.queues.setdefault(waits_on(row), []).append(row[1])


def waiters_of(rows: List[List[str]]) -> Dict[str, Set[str]]:
    """For each condition the seats that wait on it somewhere."""
    found: Dict[str, Set[str]] = {}
    for row in rows:
        if row[0] in ("wait", "signal_wait"):
            found.setdefault(waits_on(row), set()).add(row[1])
    return found


def came_between(rows: List[List[str]], since: int, step: int, seat: str) -> List[str]:
    return [row[1] for row in rows[since + 1:step] if row[0] == "enter" and row[1] != seat]


def next_of(rows: List[List[str]], step: int, seat: str) -> List[str]:
    return next((row for row in rows[step + 1:] if row[1] == seat), ["wait", seat, ""])


class Return(NamedTuple):
    """A seat that comes back from its wait on a condition, though others came in after its signal."""
    suspect: Suspect
    condition: str
    waits_again: bool
    has_rival: bool      # one of those also waits on this condition somewhere, and so may take the same


def overtaken(rows: List[List[str]]) -> List[Return]:
    waits, rivals, found = Waits(), waiters_of(rows), []
    for step, row in enumerate(rows):
        waits.read(step, row)
        if row[0] != "resume" or row[1] not in waits.served:
            continue
        since, condition = waits.served.pop(row[1])
        came = came_between(rows, since, step, row[1])
        if came:
            place = Suspect(step + 1, int(row[1]), int(came[-1]), 1)
            is_again = next_of(rows, step, row[1])[0] == "wait"
            found.append(Return(place, condition, is_again, bool(set(came) & rivals[condition])))
    return found


def suspect(path: str) -> Optional[Suspect]:
    """The first step at which a thread comes back from a wait though another came in after its signal, and goes on
    without waiting again, on a condition where nobody ever waits again: there the wait may have no loop. If some were
    overtaken by a rival, only those count. A hint: right programs may have such steps too."""
    with open(path) as file:
        rows = [line.split() for line in file.read().splitlines()[1:]]
    found = overtaken(rows)
    with_loop = {it.condition for it in found if it.waits_again}
    found = [it for it in found if it.condition not in with_loop]
    found = [it for it in found if it.has_rival] or found
    return found[0].suspect._replace(steps=len(found)) if found else None
